//! The original files are those of the papers: their SHA-256 sums, as `sha256sum original/*.rs` prints them.

use std::path::Path;
use std::process::Command;

const SUMS: &str = "SHA256SUMS";

#[test]
fn original_files_are_unchanged() {
    let mut command = Command::new("sha256sum");
    let command = command.args(["--check", "--strict", SUMS]).current_dir(env!("CARGO_MANIFEST_DIR"));
    let output = command.output().expect("the command sha256sum, which rt needs too");
    let said = |bytes: &[u8]| String::from_utf8_lossy(bytes).into_owned();
    assert!(output.status.success(), "{}{}", said(&output.stdout), said(&output.stderr));
}

#[test]
fn each_original_file_has_a_sum() {
    let directory = Path::new(env!("CARGO_MANIFEST_DIR"));
    let sums = std::fs::read_to_string(directory.join(SUMS)).expect("the sums");
    let files = std::fs::read_dir(directory.join("original")).expect("the files");
    let names = files.map(|file| file.expect("a file").file_name().into_string().expect("a name"));
    let mut names: Vec<String> = names.filter(|name| name.ends_with(".rs")).collect();
    names.sort();
    let summed: Vec<&str> = sums.lines().filter_map(|line| line.split_once("  original/")).map(|sum| sum.1).collect();
    assert!(!names.is_empty() && names == summed, "{names:?}, {summed:?}");
}
