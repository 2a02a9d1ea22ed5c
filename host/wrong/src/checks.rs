//! Runs the comparisons on a wrong library until one catches it.

use crate::faults::Wrong;
use crate::library::Built;
use crate::shims::CHOICE;
use std::io::{BufRead, BufReader};
use std::process::{Command, Stdio};

/// The modules of `compare` to try first, for functions whose names begin so.
const MODULES: [(&str, &[&str]); 18] = [
    ("vp8lf_clamp_s8", &["numbers"]),
    ("vp8lf_u2s", &["numbers"]),
    ("vp8lf_s2u", &["numbers"]),
    ("vp8lf_derive", &["limits"]),
    ("vp8lf_interior_limits", &["table", "vast"]),
    ("vp8lf_common_adjust", &["slices", "vast", "kernels"]),
    ("vp8lf_simple_segment", &["slices", "vast", "kernels"]),
    ("vp8lf_subblock_filter", &["slices", "vast", "kernels"]),
    ("vp8lf_mb_filter", &["slices", "vast", "kernels"]),
    ("vp8lf_calculate_mb_filter_level", &["levels"]),
    ("vp8lf_mb_has_coeffs", &["coefficients", "vast"]),
    ("vp8lf_first_coeff", &["coefficients", "vast"]),
    ("vp8lf_filter", &["refusals", "grids", "vast", "table", "passes", "halting"]),
    ("vp8lf_loop_filter", &["frames", "vast"]),
    ("vp8lf_final_rows", &["final_rows"]),
    ("vp8lf_reconstruction_ssd", &["search", "sources", "vast"]),
    ("vp8lf_select", &["search", "sources", "vast"]),
    ("vp8lf_full_search", &["stills", "vast"]),
];

/// The module to try first on faults of the positions smoothed.
const SMOOTHED: &str = "smoothed";

const SOAK: [&str; 4] = ["--soak", "10", "--seed", "6386"];

/// What caught a wrong library, or `None` if nothing did.
pub fn caught_by(built: &Built, wrong: &Wrong) -> Option<String> {
    let Wrong { number, function, what, .. } = wrong;
    let number = *number;
    let first = MODULES.iter().find(|(prefix, _)| function.starts_with(prefix)).map_or(&[][..], |(_, modules)| modules);
    let smoothed = what.contains("positions").then_some(SMOOTHED);
    let mut modules = smoothed.iter().chain(first);
    let quick = modules.find_map(|module| compare(built, &["--only", module], number));
    quick.or_else(|| header_test(built, number)).or_else(|| compare(built, &[], number)).or_else(|| soak(built, number))
}

/// What fails with the shims without a fault.
pub fn failure_of_the_right(built: &Built) -> Option<String> {
    compare(built, &[], 0).or_else(|| header_test(built, 0)).or_else(|| soak(built, 0))
}

fn compare(built: &Built, arguments: &[&str], number: usize) -> Option<String> {
    let mut command = Command::new(&built.compare);
    command.args(["--patience", "0"]).args(arguments);
    failure(command, number).map(|failure| format!("compare, {failure}"))
}

fn soak(built: &Built, number: usize) -> Option<String> {
    compare(built, &SOAK, number).map(|failure| failure.replace("compare", "soak"))
}

fn header_test(built: &Built, number: usize) -> Option<String> {
    failure(Command::new(&built.header_test), number).map(|_| String::from("the header test"))
}

/// Runs a program on a wrong library, as far as the first line that says what failed. Answers what did.
fn failure(mut command: Command, number: usize) -> Option<String> {
    let command = command.env(CHOICE, number.to_string()).stdin(Stdio::null()).stderr(Stdio::null());
    let mut child = command.stdout(Stdio::piped()).spawn().unwrap_or_else(|error| panic!("{command:?}: {error}"));
    let lines = BufReader::new(child.stdout.take().expect("a pipe")).lines().map_while(Result::ok);
    let mut rest = lines.skip_while(|line| !line.contains("FAILED"));
    let found = rest.next();
    if found.is_some() {
        // It would look for more differences. It may have ended by itself.
        _ = child.kill();
    }
    let status = child.wait().expect("a child");
    match found {
        Some(line) => Some(String::from(line.trim_start_matches("FAILED ").split(": ").next().unwrap_or(&line))),
        None => (!status.success()).then(|| status.to_string()),
    }
}
