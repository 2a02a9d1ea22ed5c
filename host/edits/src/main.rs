//! Checks that each wrong place of a must-fail edit is refused in its own function.
//!
//! An edit may make several functions wrong, since each edit checks its crate anew; `rt` says only that the crate was refused, and where
//! first. Here `rt check` is run on a copy of the crate with the edit, and all that it prints is read: the prover has to refuse every
//! function that the edit changes. An edit of a definition or of a constant is refused wherever it is used, which is what `rt` says.
//!
//! `edits NAME..` tries those of some crates. Needs `rt`.

mod copy;
mod edit;
mod log;

use copy::Copy;
use edit::{edited, replacements};
use log::refuses;
use std::path::{Path, PathBuf};
use std::process::ExitCode;
use std::sync::Mutex;

/// The most checks at a time: each takes a gigabyte or two.
const MOST: usize = 4;

fn main() -> ExitCode {
    let names: Vec<String> = std::env::args().skip(1).collect();
    match check(&names) {
        Ok(faults) if faults.is_empty() => ExitCode::SUCCESS,
        Ok(faults) => {
            faults.iter().for_each(|fault| eprintln!("edits: {fault}"));
            ExitCode::FAILURE
        }
        Err(reason) => {
            eprintln!("edits: {reason}");
            ExitCode::FAILURE
        }
    }
}

/// A crate's edits that change a function.
struct Edits {
    crate_name: String,
    edits: Vec<Edit>,
}

struct Edit {
    label: String,
    /// What it makes of the files that it changes.
    texts: Vec<(String, String)>,
    functions: Vec<String>,
}

/// What is wrong, or why it could not be looked at.
fn check(names: &[String]) -> Result<Vec<String>, String> {
    let root = Path::new(env!("CARGO_MANIFEST_DIR")).ancestors().nth(2).expect("host/edits");
    let (mut count, mut crates, mut faults) = (0, Vec::new(), Vec::new());
    for dir in entries(&root.join("crates"))? {
        let name = last(&dir);
        if names.is_empty() || names.contains(&name) {
            let mut found = Vec::new();
            for edit in edits(&dir)? {
                count += 1;
                match edit {
                    Ok(edit) if edit.functions.is_empty() => {}
                    Ok(edit) => found.push(edit),
                    Err(fault) => faults.push(fault),
                }
            }
            crates.push(Edits { crate_name: name, edits: found });
        }
    }
    if let Some(name) = names.iter().find(|name| !crates.iter().any(|one| one.crate_name == **name)) {
        return Err(format!("there is no crate {name}"));
    }
    let places: usize = crates.iter().flat_map(|one| &one.edits).map(|edit| edit.functions.len()).sum();
    crates.retain(|one| !one.edits.is_empty());
    // The longest first.
    crates.sort_by_key(|one| one.edits.len());
    let workers = std::thread::available_parallelism().map_or(1, usize::from).min(MOST).min(crates.len());
    let left = Mutex::new(crates);
    let faults = Mutex::new(Ok(faults));
    std::thread::scope(|scope| {
        for number in 0..workers {
            let (left, faults) = (&left, &faults);
            scope.spawn(move || {
                let found = work(root, number, left);
                let mut faults = faults.lock().expect("no worker panics");
                match (&mut *faults, found) {
                    (Ok(all), Ok(found)) => all.extend(found),
                    (faults, Err(reason)) => *faults = Err(reason),
                    (Err(_), Ok(_)) => {}
                }
            });
        }
    });
    let mut faults = faults.into_inner().expect("no worker panics")?;
    faults.sort();
    println!("edits: {count} must-fail edits, {places} changed functions, each refused itself but {}", faults.len());
    Ok(faults)
}

/// Tries the edits of one crate after the other, until none is left.
fn work(root: &Path, number: usize, left: &Mutex<Vec<Edits>>) -> Result<Vec<String>, String> {
    let copy = Copy::of(root, number)?;
    let mut faults = Vec::new();
    loop {
        let next = left.lock().expect("no worker panics").pop();
        let Some(Edits { crate_name, edits }) = next else { return Ok(faults) };
        if !copy.check(&crate_name)?.proved {
            faults.push(format!("{crate_name} is not proved as it stands"));
            continue;
        }
        for edit in edits {
            faults.extend(tried(root, &copy, &crate_name, &edit)?);
        }
        copy.done_with(&crate_name);
    }
}

/// What is wrong with an edit: the changed functions that the prover does not refuse.
fn tried(root: &Path, copy: &Copy, crate_name: &str, edit: &Edit) -> Result<Vec<String>, String> {
    let dir = copy.crate_dir(crate_name);
    for (file, text) in &edit.texts {
        write(&dir.join(file), text)?;
    }
    let log = copy.check(crate_name)?.log;
    for (file, _) in &edit.texts {
        write(&dir.join(file), &read(&root.join("crates").join(crate_name).join(file))?)?;
    }
    let label = format!("{crate_name}/{}", edit.label);
    let missing = edit.functions.iter().filter(|function| !refuses(&log, crate_name, function));
    Ok(missing.map(|function| format!("{label}: {function} is changed, and not refused")).collect())
}

/// The must-fail edits of a crate, or what is wrong with one.
fn edits(crate_dir: &Path) -> Result<Vec<Result<Edit, String>>, String> {
    let folder = crate_dir.join("must-fail");
    let mut found = Vec::new();
    for path in if folder.is_dir() { entries(&folder)? } else { Vec::new() } {
        if path.extension().is_some_and(|ending| ending == "edit") {
            let label = last(&path.with_extension(""));
            found.push(match edited(crate_dir, &replacements(&read(&path)?)) {
                Ok(edited) => Ok(Edit { label, texts: edited.texts, functions: edited.functions }),
                Err(reason) => Err(format!("{}/{label}: {reason}", last(crate_dir))),
            });
        }
    }
    Ok(found)
}

fn entries(dir: &Path) -> Result<Vec<PathBuf>, String> {
    let fault = |reason| format!("{}: {reason}", dir.display());
    let mut paths = Vec::new();
    for entry in std::fs::read_dir(dir).map_err(fault)? {
        paths.push(entry.map_err(fault)?.path());
    }
    paths.sort();
    Ok(paths)
}

fn last(path: &Path) -> String {
    path.file_name().expect("a path of the repository").to_string_lossy().into_owned()
}

fn read(path: &Path) -> Result<String, String> {
    std::fs::read_to_string(path).map_err(|reason| format!("{}: {reason}", path.display()))
}

fn write(path: &Path, text: &str) -> Result<(), String> {
    std::fs::write(path, text).map_err(|reason| format!("{}: {reason}", path.display()))
}
