//! Checks the lines of RFC 6386 that the definitions, the code, the proofs and the documents cite.
//!
//! `citations.tsv` lists each citation with words that stand in its lines. A citation that is not in the table, and a row
//! that nobody cites, is a fault. `citations PATH` compares the rows with the RFC's text file too.

mod cited;
mod table;

use cited::{Citation, Lines, citations};
use std::path::{Path, PathBuf};
use std::process::{Command, ExitCode};
use table::{Row, Table};

const TABLE: &str = "host/citations/citations.tsv";

/// It names the RFC's text file for readers.
const SCOPE: &str = "docs/SCOPE.md";

/// The parts of a crate that cite, and the ending of their files.
const PARTS: [(&str, &str); 3] = [("specs", "antt"), ("proofs", "antt"), ("src", "rt")];

fn main() -> ExitCode {
    let arguments: Vec<String> = std::env::args().skip(1).collect();
    let rfc = match &arguments[..] {
        [] => None,
        [path] => Some(path),
        _ => {
            eprintln!("usage: citations [PATH-OF-RFC-TEXT]");
            return ExitCode::from(2);
        }
    };
    match check(rfc) {
        Ok(faults) if faults.is_empty() => ExitCode::SUCCESS,
        Ok(faults) => {
            faults.iter().for_each(|fault| eprintln!("citations: {fault}"));
            ExitCode::FAILURE
        }
        Err(reason) => {
            eprintln!("citations: {reason}");
            ExitCode::FAILURE
        }
    }
}

/// What is wrong, or why it could not be looked at.
fn check(rfc: Option<&String>) -> Result<Vec<String>, String> {
    let root = Path::new(env!("CARGO_MANIFEST_DIR")).ancestors().nth(2).expect("host/citations");
    let table = Table::read(&read(&root.join(TABLE))?).map_err(|reason| format!("{TABLE}: {reason}"))?;
    let mut cited = Vec::new();
    for path in citing_files(root)? {
        let name = path.strip_prefix(root).expect("a file of the repository").display().to_string();
        cited.extend(citations(&read(&path)?).into_iter().map(|citation| (name.clone(), citation)));
    }
    let mut faults = drift(&cited, &table);
    if !read(&root.join(SCOPE))?.contains(&table.sum) {
        faults.push(format!("{SCOPE} does not name the SHA-256 sum {} of {TABLE}", table.sum));
    }
    println!("citations: {} citations, {} rows", cited.len(), table.rows.len());
    let Some(path) = rfc else {
        println!("citations: no path of the RFC's text file was given: the lines were not compared with it");
        return Ok(faults);
    };
    let bytes = std::fs::read(path).map_err(|error| format!("{path}: {error}"))?;
    let sum = sha256(path)?;
    if sum != table.sum {
        faults.push(format!("{path} has the SHA-256 sum {sum}, {TABLE} names {}", table.sum));
    }
    faults.extend(compare(&String::from_utf8_lossy(&bytes), &table));
    println!("citations: the rows were compared with {path}");
    Ok(faults)
}

/// The sum that the command `sha256sum` prints of a file.
fn sha256(path: &str) -> Result<String, String> {
    let failed = |error: std::io::Error| format!("sha256sum of {path}: {error}");
    let file = std::fs::File::open(path).map_err(failed)?;
    let output = Command::new("sha256sum").stdin(file).output().map_err(failed)?;
    let printed = String::from_utf8_lossy(&output.stdout);
    printed.split_once(' ').map(|(sum, _)| sum.to_owned()).ok_or(format!("sha256sum of {path} prints no sum"))
}

/// Citations that the table does not list, and rows that nobody cites.
fn drift(cited: &[(String, Citation)], table: &Table) -> Vec<String> {
    let same = |(file, citation): &(String, Citation), row: &Row| row.file == *file && row.lines == citation.lines;
    let unlisted = cited.iter().filter(|cited| !table.rows.iter().any(|row| same(cited, row)));
    let uncited = table.rows.iter().filter(|row| !cited.iter().any(|cited| same(cited, row)));
    let unlisted = unlisted.map(|(file, Citation { lines, at })| format!("{file}:{at} cites {lines}: not in {TABLE}"));
    let uncited = uncited.map(|row| format!("{TABLE}:{}: {} does not cite {}", row.at, row.file, row.lines));
    unlisted.chain(uncited).collect()
}

/// Rows whose words do not stand in the text's lines.
fn compare(text: &str, table: &Table) -> Vec<String> {
    let text: Vec<&str> = text.split('\n').collect();
    let part = |first: usize, last: usize| plain(&text.get(first - 1..last).unwrap_or_default().join(" "));
    let mut faults = Vec::new();
    for Row { at, file, lines, words, first, last } in &table.rows {
        let expected = [(*lines, words), (only(lines.first), first), (only(lines.last), last)];
        let missing = expected.iter().find(|(lines, words)| !part(lines.first, lines.last).contains(&plain(words)));
        if let Some((place, words)) = missing {
            let found = part(place.first, place.last);
            faults.push(format!("{TABLE}:{at}: {file} cites {lines}: expected '{words}' in {place}: '{found}'"));
        }
    }
    faults
}

fn only(line: usize) -> Lines {
    Lines { first: line, last: line }
}

/// With single spaces.
fn plain(text: &str) -> String {
    text.split_whitespace().collect::<Vec<_>>().join(" ")
}

fn citing_files(root: &Path) -> Result<Vec<PathBuf>, String> {
    let mut files = Vec::new();
    for package in entries(&root.join("crates"))? {
        for (part, ending) in PARTS {
            let part = package.join(part);
            if part.is_dir() {
                find(&part, ending, &mut files)?;
            }
        }
    }
    find(&root.join("docs"), "md", &mut files)?;
    Ok(files)
}

/// The files with this ending, in the directory and below it.
fn find(directory: &Path, ending: &str, files: &mut Vec<PathBuf>) -> Result<(), String> {
    for path in entries(directory)? {
        if path.is_dir() {
            find(&path, ending, files)?;
        } else if path.extension().is_some_and(|extension| extension == ending) {
            files.push(path);
        }
    }
    Ok(())
}

fn entries(directory: &Path) -> Result<Vec<PathBuf>, String> {
    let failed = |error| format!("{}: {error}", directory.display());
    let paths = std::fs::read_dir(directory).map_err(failed)?.map(|entry| entry.map(|entry| entry.path()));
    let mut paths = paths.collect::<Result<Vec<_>, _>>().map_err(failed)?;
    paths.sort();
    Ok(paths)
}

fn read(path: &Path) -> Result<String, String> {
    std::fs::read_to_string(path).map_err(|error| format!("{}: {error}", path.display()))
}

#[cfg(test)]
mod tests {
    use super::{citations, compare, drift};
    use crate::table::Table;

    const RFC: &str = "int8 c(int v)\n{\n  return  v;\n}\n";

    fn table(rows: &str) -> Table {
        Table::read(&format!("# sha256 a\n{rows}")).unwrap()
    }

    #[test]
    fn table_and_text_cite_the_same() {
        let cited: Vec<_> =
            citations("-- lines 1 to 4\n-- line 3").into_iter().map(|c| (String::from("A.antt"), c)).collect();
        assert_eq!(drift(&cited, &table("A.antt\t1-4\treturn\tint8\t}\nA.antt\t3\treturn\n")), [""; 0]);
        assert_eq!(
            drift(&cited, &table("A.antt\t1-4\treturn\tint8\t}\nB.antt\t3\treturn\n")),
            [
                "A.antt:2 cites line 3: not in host/citations/citations.tsv",
                "host/citations/citations.tsv:3: B.antt does not cite line 3",
            ]
        );
    }

    #[test]
    fn words_stand_in_their_lines() {
        let right = "A.antt\t1-4\t{ return v; }\tint8 c\t}\nA.antt\t3\treturn v;\n";
        assert_eq!(compare(RFC, &table(right)), [""; 0]);
        assert_eq!(
            compare(RFC, &table("A.antt\t2-3\treturn\t{\t}\nA.antt\t2-3\tint8\t{\tv;\nA.antt\t99\t}\n")),
            [
                "host/citations/citations.tsv:2: A.antt cites lines 2 to 3: expected '}' in line 3: 'return v;'",
                "host/citations/citations.tsv:3: A.antt cites lines 2 to 3: expected 'int8' in lines 2 to 3: '{ return v;'",
                "host/citations/citations.tsv:4: A.antt cites line 99: expected '}' in line 99: ''",
            ]
        );
    }
}
