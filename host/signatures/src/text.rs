//! The words and signs of a text in Rattle, C or Rust.

/// Words, strings and single signs, without comments, lifetimes and preprocessor lines.
pub struct Tokens {
    tokens: Vec<String>,
    at: usize,
}

impl Tokens {
    pub fn of(text: &str) -> Tokens {
        let text = without_preprocessor(&without_comments(text));
        let mut tokens = Vec::new();
        let mut rest = text.trim_start();
        while let Some(first) = rest.chars().next() {
            let len = token_len(rest, first);
            let (token, after) = rest.split_at(len);
            if first != '\'' {
                tokens.push(String::from(token));
            }
            rest = after.trim_start();
        }
        Tokens { tokens, at: 0 }
    }

    pub fn peek(&self) -> Option<&str> {
        self.tokens.get(self.at).map(String::as_str)
    }

    pub fn next(&mut self) -> Option<String> {
        self.at += 1;
        self.tokens.get(self.at - 1).cloned()
    }

    /// Steps over the token, if it is next.
    pub fn take(&mut self, token: &str) -> bool {
        let found = self.peek() == Some(token);
        self.at += found as usize;
        found
    }

    pub fn expect(&mut self, token: &str) -> Result<(), String> {
        if self.take(token) { Ok(()) } else { Err(format!("expected {token}, came {}", self.around())) }
    }

    /// The next token, which is a word.
    pub fn word(&mut self) -> Result<String, String> {
        match self.peek() {
            Some(token) if token.starts_with(is_word) => Ok(self.next().expect("peeked")),
            _ => Err(format!("expected a name, came {}", self.around())),
        }
    }

    /// Steps behind the next occurrence of these tokens in a row. Answers whether there is one.
    pub fn skip_past(&mut self, tokens: &[&str]) -> bool {
        let found =
            self.tokens[self.at.min(self.tokens.len())..].windows(tokens.len()).position(|window| window == tokens);
        if let Some(found) = found {
            self.at += found + tokens.len();
        }
        found.is_some()
    }

    /// The next few tokens, for a message.
    pub fn around(&self) -> String {
        let first = self.at.min(self.tokens.len());
        self.tokens[first..].iter().take(8).cloned().collect::<Vec<_>>().join(" ")
    }
}

fn is_word(letter: char) -> bool {
    letter.is_alphanumeric() || letter == '_'
}

/// Of the token that begins a text: a word, a lifetime, a string, or one sign.
fn token_len(text: &str, first: char) -> usize {
    let after = |found: Option<usize>| found.unwrap_or(text.len());
    match first {
        '\'' => 1 + after(text[1..].find(|letter| !is_word(letter))).min(text.len() - 1),
        '"' => after(text[1..].find('"').map(|end| end + 2)),
        first if is_word(first) => after(text.find(|letter| !is_word(letter))),
        first => first.len_utf8(),
    }
}

/// The text with a blank for each comment.
fn without_comments(text: &str) -> String {
    let (mut kept, mut rest) = (String::new(), text);
    while let Some(start) = [rest.find("//"), rest.find("/*")].into_iter().flatten().min() {
        let (before, comment) = rest.split_at(start);
        let (end, closing) = if comment.starts_with("//") { ("\n", 0) } else { ("*/", 2) };
        kept += before;
        kept.push(' ');
        rest = comment.find(end).map_or("", |at| &comment[at + closing..]);
    }
    kept + rest
}

/// The text without C's lines that begin with `#` and those that go on from them. Attributes, `#[`, stay.
fn without_preprocessor(text: &str) -> String {
    let (mut kept, mut goes_on) = (String::new(), false);
    for line in text.lines() {
        let begins = line.trim_start().strip_prefix('#').is_some_and(|rest| !rest.starts_with(['[', '!']));
        if !goes_on && !begins {
            kept += line;
            kept.push('\n');
        }
        goes_on = (goes_on || begins) && line.trim_end().ends_with('\\');
    }
    kept
}
