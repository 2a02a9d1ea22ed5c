//! Which functions of the library the compiler has left apart and which it has put into their callers: what the speed of
//! `docs/PERFORMANCE.md` rests on. Read from the library by `nm`; where that command is missing nothing is shown, and the test says so.

use std::path::{Path, PathBuf};
use std::process::Command;

/// The loops over an edge, which hold their kernels, each with how many of it there are: one for each kind of normal edge, across the
/// rows one for each length too; and each normal kernel as a whole, for windows that need a clamp, outside of the loops.
const APART: [(&str, usize); 5] = [
    ("edges::vertical::normal_rows", 2),
    ("edges::vertical::simple_rows", 1),
    ("edges::horizontal::normal_rows", 4),
    ("edges::horizontal::simple_rows", 1),
    ("kernels::whole::test_by_test", 2),
];

/// Kernels and runs that are to lie in those loops, and the look-up of a limit, which is to lie in the step of a macroblock: of these
/// modules no other function is left.
const INLINED: [&str; 8] = [
    "kernels::",
    "edges::normal::",
    "edges::position::",
    "edges::run::",
    "edges::taps::",
    "edges::place::",
    "arithmetic::",
    "limit_table::",
];

fn library() -> PathBuf {
    let directory = std::env::var_os("VP8LF_LIB_DIR").filter(|name| !name.is_empty()).map(PathBuf::from);
    let repository = Path::new(env!("CARGO_MANIFEST_DIR")).ancestors().nth(2).expect("host/bench");
    directory.unwrap_or_else(|| repository.join("target/staticlib")).join("libloop_filter.a")
}

/// The names of the library's functions. What a generic function is compiled for, which follows its name, is left out.
fn functions(printed: &str) -> Vec<&str> {
    let names =
        printed.lines().filter_map(|line| line.split_once(" t ").or(line.split_once(" T "))).map(|(_, name)| name);
    names.map(|name| name.split_once("::<").map_or(name, |(function, _)| function)).collect()
}

#[test]
fn kernels_lie_in_the_loops_and_the_whole_ones_outside() {
    let library = library();
    let Ok(nm) = Command::new("nm").arg("--defined-only").arg(&library).output() else {
        eprintln!("'nm' is not installed: the library's functions were not looked at");
        return;
    };
    assert!(nm.status.success(), "nm {}: {}", library.display(), String::from_utf8_lossy(&nm.stderr));
    let printed = String::from_utf8_lossy(&nm.stdout);
    let functions = functions(&printed);
    for (name, times) in APART {
        let found = functions.iter().filter(|function| **function == name).count();
        assert_eq!(found, times, "{name} is not left as a function of its own for each of its instances");
    }
    let apart = |function: &str| APART.iter().any(|(name, _)| *name == function);
    let left = functions.iter().filter(|name| INLINED.iter().any(|module| name.starts_with(module)) && !apart(name));
    assert_eq!(left.collect::<Vec<_>>(), Vec::<&&str>::new(), "these are not put into their callers");
}
