//! Builds wrong libraries, each of which has one fault in one C function, and runs the comparisons on each until one
//! catches it. Prints what caught each. Fails if nothing caught one, or if the comparisons refuse the right library.
//!
//! The wrong libraries are one archive: the library with its functions renamed, and shims that call them, in which an
//! environment variable chooses the fault. Without it the shims have none.

mod checks;
mod faults;
mod library;
mod shims;

use std::process::ExitCode;

const USAGE: &str = "usage: wrong [PART OF A NAME]";

fn main() -> ExitCode {
    let arguments: Vec<String> = std::env::args().skip(1).collect();
    match &arguments[..] {
        [] => tried(""),
        [part] if !part.starts_with('-') => tried(part),
        _ => Err(String::from(USAGE)),
    }
    .unwrap_or_else(|error| {
        eprintln!("wrong: {error}");
        ExitCode::from(2)
    })
}

/// Tries the wrong libraries whose function or fault has this part in it.
fn tried(part: &str) -> Result<ExitCode, String> {
    let (functions, all) = (signatures::of_the_header(), faults::all());
    let built = library::build(&functions, &all)?;
    if let Some(failure) = checks::failure_of_the_right(&built) {
        return Err(format!("the library without a fault fails: {failure}"));
    }
    println!("wrong library | caught by");
    let (mut count, mut passed) = (0, 0);
    for wrong in all.iter().filter(|wrong| wrong.function.contains(part) || wrong.what.contains(part)) {
        let caught = checks::caught_by(&built, wrong);
        count += 1;
        passed += caught.is_none() as usize;
        let faults::Wrong { function, kind, what, .. } = wrong;
        println!("{function}, {kind}: {what} | {}", caught.as_deref().unwrap_or("PASSED"));
    }
    if passed > 0 || count == 0 {
        println!("wrong: FAILED, {passed} of {count} wrong libraries passed");
        return Ok(ExitCode::FAILURE);
    }
    println!("wrong: {count} wrong libraries, all caught");
    Ok(ExitCode::SUCCESS)
}
