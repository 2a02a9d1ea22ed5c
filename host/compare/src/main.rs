//! Calls the Rattle loop filter through its C functions and the oracle side by side.
//!
//! The modules in `MODULES` compare one layer each. They run their kinds of cases through [`Tally::run`], which counts
//! them, prints what differs, and fails on a kind or a class that did not occur. [`soak`] draws from the same modules
//! for as long as it is told.

mod call;
mod coefficients;
mod final_rows;
mod frames;
mod grids;
mod guard;
mod halting;
mod kernels;
mod levels;
mod limits;
mod lookups;
mod numbers;
mod pairs;
mod passes;
mod pictures;
mod reach;
mod recorded;
mod refusals;
mod search;
mod settings;
mod shrink;
mod slices;
mod smaller_call;
mod smoothed;
mod soak;
mod sources;
mod stills;
mod table;
mod tally;
mod vast;
mod windows;

use entries as ffi;
use std::path::PathBuf;
use std::process::ExitCode;
use tally::Tally;

const USAGE: &str = "usage: compare [--patience SECONDS] [--long] [--seed NUMBER] [--only MODULE] [--film DIRECTORY]
       compare [--patience SECONDS] --soak SECONDS [--seed NUMBER]";

type Comparison = fn(&Plan, &mut Tally);

const MODULES: &[(&str, Comparison)] = &[
    ("numbers", numbers::compare),
    ("limits", limits::compare),
    ("table", table::compare),
    ("kernels", kernels::compare),
    ("windows", windows::compare),
    ("slices", slices::compare),
    ("levels", levels::compare),
    ("coefficients", coefficients::compare),
    ("passes", passes::compare),
    ("grids", grids::compare),
    ("refusals", refusals::compare),
    ("halting", halting::compare),
    ("frames", frames::compare),
    ("smoothed", smoothed::compare),
    ("final_rows", final_rows::compare),
    ("film", recorded::compare),
    ("search", search::compare),
    ("sources", sources::compare),
    ("stills", stills::compare),
    ("vast", vast::compare),
];

/// How much to compare.
pub struct Plan {
    /// The exhaustive and large runs.
    pub long: bool,
    pub seed: u64,
    pub threads: usize,
    /// A directory of `.vplf` files, compared besides the kept film.
    pub film: Option<PathBuf>,
    only: Option<String>,
}

impl Plan {
    fn from_arguments(arguments: &[&str]) -> Option<Plan> {
        let mut arguments = arguments.iter();
        let mut plan = Plan { long: false, seed: 6386, threads: 1, film: None, only: None };
        while let Some(argument) = arguments.next() {
            match *argument {
                "--long" => (plan.long, plan.threads) = (true, 2),
                "--seed" => plan.seed = arguments.next()?.parse().ok()?,
                "--film" => plan.film = Some(PathBuf::from(arguments.next()?)),
                "--only" => {
                    let module = arguments.next()?;
                    MODULES.iter().find(|(name, _)| name == module)?;
                    plan.only = Some(module.to_string());
                }
                _ => return None,
            }
        }
        Some(plan)
    }
}

/// The arguments after `--patience SECONDS`, which says how long a smaller input is looked for.
fn after_patience<'a, 'b>(arguments: &'a [&'b str]) -> &'a [&'b str] {
    if let ["--patience", seconds, rest @ ..] = arguments
        && let Ok(seconds) = seconds.parse()
    {
        shrink::set_patience(seconds);
        return rest;
    }
    arguments
}

fn main() -> ExitCode {
    let arguments: Vec<String> = std::env::args().skip(1).collect();
    let arguments: Vec<&str> = arguments.iter().map(String::as_str).collect();
    let arguments = after_patience(&arguments);
    guard::report_faults();
    if let Some((seconds, seed)) = soak::asked(arguments) {
        return soak::run(seconds, seed);
    }
    let Some(plan) = Plan::from_arguments(arguments) else {
        eprintln!("{USAGE}");
        return ExitCode::from(2);
    };
    println!("compare: {} run, seed {}", if plan.long { "long" } else { "quick" }, plan.seed);
    let mut tally = Tally::default();
    for (name, compare) in MODULES {
        if plan.only.as_deref().is_none_or(|only| only == *name) {
            compare(&plan, &mut tally);
        }
    }
    tally.verdict()
}
