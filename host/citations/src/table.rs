//! The table of citations: who cites which lines, and what stands there.

use crate::cited::Lines;

/// The SHA-256 sum of the RFC's text file, and the rows.
pub struct Table {
    pub sum: String,
    pub rows: Vec<Row>,
}

pub struct Row {
    /// The line of the table, from 1.
    pub at: usize,
    /// The citing file, from the repository's root.
    pub file: String,
    pub lines: Lines,
    /// What stands in the lines, and what they are cited for.
    pub words: String,
    /// What stands in the first line, and in the last one.
    pub first: String,
    pub last: String,
}

const SUM: &str = "# sha256 ";

impl Table {
    /// Or what is wrong with the text.
    pub fn read(text: &str) -> Result<Table, String> {
        let sum = text.lines().find_map(|line| line.strip_prefix(SUM)).ok_or("there is no line '# sha256 SUM'")?;
        let content = text.lines().zip(1..).filter(|(line, _)| !line.starts_with('#') && !line.is_empty());
        let row = |(line, at)| Row::read(line, at).ok_or_else(|| format!("line {at} is no row"));
        Ok(Table { sum: String::from(sum), rows: content.map(row).collect::<Result<_, _>>()? })
    }
}

impl Row {
    /// File, LINE, words; or file, FIRST-LAST, words, what stands in the first line, what in the last one.
    fn read(text: &str, at: usize) -> Option<Row> {
        let fields: Vec<&str> = text.split('\t').collect();
        let (file, lines, words, first, last) = match fields[..] {
            [file, line, words] => {
                let line = line.parse().ok()?;
                (file, Lines { first: line, last: line }, words, words, words)
            }
            [file, lines, words, first, last] => {
                let (begin, end) = lines.split_once('-')?;
                let lines = Lines { first: begin.parse().ok()?, last: end.parse().ok()? };
                (file, (lines.first < lines.last).then_some(lines)?, words, first, last)
            }
            _ => return None,
        };
        let whole = lines.first > 0 && fields.iter().all(|field| !field.trim().is_empty());
        let own = String::from;
        whole.then(|| Row { at, file: own(file), lines, words: own(words), first: own(first), last: own(last) })
    }
}

#[cfg(test)]
mod tests {
    use super::Table;
    use crate::cited::Lines;

    #[test]
    fn rows_of_one_line_and_of_several() {
        let table = Table::read("# x\n# sha256 abc\nA.antt\t4886\tu2s\nB.rt\t5-7\treturn\tint8 c\t}\n").unwrap();
        assert_eq!(table.sum, "abc");
        let [a, b] = &table.rows[..] else { panic!("two rows") };
        assert_eq!((a.at, &a.file[..], a.lines), (3, "A.antt", Lines { first: 4886, last: 4886 }));
        assert_eq!([&a.words, &a.first, &a.last], ["u2s", "u2s", "u2s"]);
        assert_eq!((b.at, &b.file[..], b.lines), (4, "B.rt", Lines { first: 5, last: 7 }));
        assert_eq!([&b.words, &b.first, &b.last], ["return", "int8 c", "}"]);
    }

    #[test]
    fn what_is_no_table() {
        assert!(Table::read("A.antt\t5\tx\n").is_err(), "no sum");
        for row in ["5", "5\t", "5\tx\ty", "5-7\tx", "5-7\tx\ty\t", "7-5\tx\ty\tz", "5-5\tx\ty\tz", "0\tx", "five\tx"] {
            let table = Table::read(&format!("# sha256 a\nA.antt\t{row}\n"));
            assert_eq!(table.err().as_deref(), Some("line 2 is no row"), "{row}");
        }
    }
}
