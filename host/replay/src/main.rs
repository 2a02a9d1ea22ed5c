//! Records the answers of the Rust that the programs `crates/replay` and `crates/replay_search` replay. Where the Rust has
//! no answer, as for a refused call, the recorded one is document 01's; for a frame call at header level 0, which the Rust's
//! passes do not test, it is the pass's answer with the planes as they were.
//!
//! Without arguments it writes `stdin` and `stdout` of the programs anew. With `--check` it makes them anew and compares
//! them with the files. With `--film FILE` it writes the film of the repository as one `.vplf` file.

mod bytes;
mod passes;
mod picture;
mod recorded_film;
mod search;
mod settings;
mod small;

use bytes::Bytes;
use passes::Form;
use rules::random::Random;
use std::path::Path;
use std::process::ExitCode;

const SEED: u64 = 0x7265_706C_6179;

/// The recorded calls of a function, or of functions that share a record.
pub struct Section {
    name: String,
    records: Vec<Bytes>,
    /// How many calls a record has.
    marks: usize,
}

impl Section {
    pub fn new(name: &str, records: impl IntoIterator<Item = Bytes>) -> Section {
        Section { name: String::from(name), records: records.into_iter().collect(), marks: 1 }
    }

    pub fn marked(self, marks: usize) -> Section {
        Section { marks, ..self }
    }

    fn calls(&self) -> usize {
        self.marks * self.records.len()
    }
}

/// A program, and the sections that it replays.
type Program = (&'static str, Vec<Section>);

fn programs() -> [Program; 2] {
    let random = &mut Random::new(SEED);
    let mut sections = small::sections(random);
    sections.extend(passes::sections(Form::Pass, random));
    sections.extend(recorded_film::sections());
    // With numbers of their own, so that the other recordings do not depend on them.
    sections.extend(passes::sections(Form::Frame, &mut Random::new(!SEED)));
    [("replay", sections), ("replay_search", search::sections(random))]
}

/// What the program reads: of each section the number of records, and the records.
fn input(sections: &[Section]) -> Vec<u8> {
    let mut input = Vec::new();
    for section in sections {
        let count = u16::try_from(section.records.len()).expect("a number of two bytes");
        input.extend(count.to_le_bytes());
        section.records.iter().for_each(|record| input.extend(&record.0));
    }
    input
}

/// What the program must write: of each section its name, and a dot for each call.
fn output(sections: &[Section]) -> Vec<u8> {
    let line = |section: &Section| format!("{} {}\n", section.name, ".".repeat(section.calls()));
    let lines: String = sections.iter().map(line).collect();
    (lines + "end of the recording\n").into_bytes()
}

fn write(path: &Path, bytes: &[u8]) -> ExitCode {
    match std::fs::write(path, bytes) {
        Ok(()) => ExitCode::SUCCESS,
        Err(error) => {
            eprintln!("replay: {}: {error}", path.display());
            ExitCode::FAILURE
        }
    }
}

fn main() -> ExitCode {
    let arguments: Vec<String> = std::env::args().skip(1).collect();
    let check = match arguments.iter().map(String::as_str).collect::<Vec<_>>()[..] {
        [] => false,
        ["--check"] => true,
        ["--film", path] => return write(Path::new(path), &recorded_film::stream()),
        _ => {
            eprintln!("usage: replay [--check | --film FILE.vplf]");
            return ExitCode::from(2);
        }
    };
    let programs = programs();
    let equal = programs.iter().map(|program| keep(program, check)).fold(true, |all, one| all & one);
    for section in programs.iter().flat_map(|(_, sections)| sections) {
        let bytes: usize = section.records.iter().map(|record| record.0.len()).sum();
        println!("{:6} calls, {:6} bytes: {}", section.calls(), bytes, section.name);
    }
    if equal { ExitCode::SUCCESS } else { ExitCode::FAILURE }
}

/// Writes the files of a program, or compares them. Whether they are as they have to be.
fn keep((name, sections): &Program, check: bool) -> bool {
    let directory = Path::new(env!("CARGO_MANIFEST_DIR")).join("../../crates").join(name);
    let mut equal = true;
    for (file, made) in [("stdin", input(sections)), ("stdout", output(sections))] {
        let path = directory.join(file);
        if check {
            if std::fs::read(&path).ok() != Some(made) {
                eprintln!("replay: crates/{name}/{file} is not what the oracle answers now");
                equal = false;
            }
        } else {
            equal &= write(&path, &made) == ExitCode::SUCCESS;
        }
    }
    equal
}
