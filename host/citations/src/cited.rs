//! The lines that a text cites: "line 4967", "lines 5337 and 5338", "lines 9284 to 9289 and 9331 to 9336".

use std::fmt;

/// Lines of the RFC's text file, from 1. A single line is first and last.
#[derive(Clone, Copy, Debug, PartialEq, Eq)]
pub struct Lines {
    pub first: usize,
    pub last: usize,
}

impl fmt::Display for Lines {
    fn fmt(&self, f: &mut fmt::Formatter<'_>) -> fmt::Result {
        let Lines { first, last } = self;
        if first == last { write!(f, "line {first}") } else { write!(f, "lines {first} to {last}") }
    }
}

#[derive(Clone, Copy, Debug, PartialEq)]
pub struct Citation {
    pub lines: Lines,
    /// The line of the citing text, from 1.
    pub at: usize,
}

/// A word, a number or another character, and the line that it stands in.
struct Token<'a> {
    text: &'a str,
    at: usize,
}

impl Token<'_> {
    /// A line's number. A number with a point in it is that of a section.
    fn number(&self) -> Option<usize> {
        self.text.parse().ok()
    }
}

/// The citations of a text. One may go on in the next line, after that line's comment mark.
pub fn citations(text: &str) -> Vec<Citation> {
    let tokens: Vec<Token> = text.lines().zip(1..).flat_map(|(line, at)| tokens(line, at)).collect();
    let mut found = Vec::new();
    let mut rest = &tokens[..];
    while let [word, after @ ..] = rest {
        rest = after;
        if matches!(word.text, "line" | "lines" | "Line" | "Lines") {
            while let Some((lines, after)) = lines(rest) {
                found.push(Citation { lines, at: rest[0].at });
                rest = match after {
                    [comma, and, after @ ..] if comma.text == "," && and.text == "and" => after,
                    [between, after @ ..] if matches!(between.text, "," | "and") => after,
                    _ => break,
                };
            }
        }
    }
    found
}

/// "N to M" or "N" at the start of the tokens, and those after it.
fn lines<'a>(tokens: &'a [Token<'a>]) -> Option<(Lines, &'a [Token<'a>])> {
    let [token, after @ ..] = tokens else { return None };
    let first = token.number()?;
    if let [to, token, after @ ..] = after
        && to.text == "to"
        && let Some(last) = token.number()
    {
        return Some((Lines { first, last }, after));
    }
    Some((Lines { first, last: first }, after))
}

fn tokens(line: &str, at: usize) -> impl Iterator<Item = Token<'_>> {
    let mut rest = line.trim_start().trim_start_matches(['-', '/', '!', '*', ' ']);
    std::iter::from_fn(move || {
        rest = rest.trim_start();
        let first = rest.chars().next()?;
        let len = match first {
            '0'..='9' => number_len(rest),
            _ if is_letter(first) => rest.find(|c| !is_letter(c)).unwrap_or(rest.len()),
            _ => first.len_utf8(),
        };
        let (text, after) = rest.split_at(len);
        rest = after;
        Some(Token { text, at })
    })
}

fn is_letter(c: char) -> bool {
    c.is_alphanumeric() || c == '_'
}

/// Digits, and points with digits on both sides.
fn number_len(text: &str) -> usize {
    let digits = |text: &str| text.len() - text.trim_start_matches(|c: char| c.is_ascii_digit()).len();
    let mut len = digits(text);
    while let Some(part) = text[len..].strip_prefix('.')
        && digits(part) > 0
    {
        len += 1 + digits(part);
    }
    len
}

#[cfg(test)]
mod tests {
    use super::{Lines, citations};

    #[track_caller]
    fn check(text: &str, expected: &[(usize, usize)]) {
        let found: Vec<Lines> = citations(text).iter().map(|citation| citation.lines).collect();
        let expected: Vec<Lines> = expected.iter().map(|&(first, last)| Lines { first, last }).collect();
        assert_eq!(found, expected, "{text}");
    }

    #[test]
    fn one_line_and_several() {
        check("-- u2s (line 4886): a sample", &[(4886, 4886)]);
        check("-- c (lines 4861 to 4864): limits", &[(4861, 4864)]);
        check("-- 0 becomes 1 (lines 5337 and 5338)", &[(5337, 5337), (5338, 5338)]);
        check("lines 5246, 5252 and 5258", &[(5246, 5246), (5252, 5252), (5258, 5258)]);
        check("lines 5246, 5252, and 5258.", &[(5246, 5246), (5252, 5252), (5258, 5258)]);
        check("Lines 9284 to 9289 and 9331 to 9336", &[(9284, 9289), (9331, 9336)]);
    }

    #[test]
    fn several_in_one_comment() {
        check("-- filter_yes (lines 5103 to 5117) and hev (lines 5127 to 5133)", &[(5103, 5117), (5127, 5133)]);
        check(
            "-- (lines 4736 to 4742; in this order in lines 9312 to 9326 and 9363 to 9377)",
            &[(4736, 4742), (9312, 9326), (9363, 9377)],
        );
        check("ref_delta (line 9194), in the order of the frames (lines 8591 to 8594)", &[(9194, 9194), (8591, 8594)]);
    }

    #[test]
    fn sections_and_other_numbers() {
        check("in 15.2 (line 5014) and 15.3 (line 5112) and `>> 1`", &[(5014, 5014), (5112, 5112)]);
        check("line 5014 and 15.3", &[(5014, 5014)]);
        check("lines 4785 to 4794, the mode alone tells B", &[(4785, 4794)]);
        check("ten lines, 16 of them; a deadline 5; line_5; lines of 16; Lines are those of the RFC's text file", &[]);
        check("", &[]);
    }

    #[test]
    fn over_the_end_of_a_line() {
        let text =
            "-- shifts round down (lines 4975\n-- and 4976), as the\n  // text says in lines\n  // 4957 to 4965\n";
        check(text, &[(4975, 4975), (4976, 4976), (4957, 4965)]);
        let places: Vec<usize> = citations(text).iter().map(|citation| citation.at).collect();
        assert_eq!(places, [1, 2, 4]);
    }
}
