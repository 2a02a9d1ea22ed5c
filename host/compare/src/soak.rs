//! Random calls of every C function, valid and damaged, one after the other until the time is up. A seed determines which.

use crate::call::{Filter, PASSES};
use crate::tally::grouped;
use crate::{
    coefficients, final_rows, kernels, levels, limits, numbers, passes, search, slices, smoothed, sources, stills,
    table,
};
use rules::random::Random;
use std::process::ExitCode;
use std::time::{Duration, Instant, SystemTime, UNIX_EPOCH};

/// The functions of the header in its order, without `vp8lf_`, and the numbers that each can refuse a call with. The
/// largest grid's sum is far below 64 bits, so 10 cannot come.
const ENTRIES: [(&str, &[u8]); 25] = [
    ("clamp_s8", &[]),
    ("u2s", &[]),
    ("s2u", &[]),
    ("derive", &[]),
    ("interior_limits", &[]),
    ("common_adjust", &[4]),
    ("simple_segment", &[4]),
    ("subblock_filter", &[4]),
    ("mb_filter", &[4]),
    ("calculate_mb_filter_level", &[6]),
    ("calculate_mb_filter_level_inter", &[6]),
    ("mb_has_coeffs", &[]),
    ("first_coeff", &[]),
    ("filter_frame", &[1, 2, 3, 5, 6, 7]),
    ("filter_inter_frame", &[1, 2, 3, 5, 6, 7]),
    ("loop_filter_frame", &[1, 2, 3, 5, 6, 7]),
    ("loop_filter_inter_frame", &[1, 2, 3, 5, 6, 7]),
    ("final_rows", &[1, 7]),
    ("reconstruction_ssd", &[1, 2, 3, 8, 9]),
    ("select_filter_params", &[1, 2, 3, 6, 8, 9]),
    ("select_filter_params_inter", &[1, 2, 3, 6, 8, 9]),
    ("select_filter_level", &[1, 2, 3, 6, 8, 9]),
    ("select_filter_level_inter", &[1, 2, 3, 6, 8, 9]),
    ("full_search", &[1, 2, 3, 6, 8, 9]),
    ("full_search_inter", &[1, 2, 3, 6, 8, 9]),
];

/// Document 01's numbers, 0 being none.
const NUMBERS: usize = 11;

/// Draws one call, or one of each of several functions, compares it and counts it.
pub type Draw = Box<dyn FnMut(&mut Random, &mut Calls) -> Result<(), String>>;

/// What is drawn in turn, and how often in each turn. The passes and the searches take most of the time.
fn draws() -> Vec<(usize, Draw)> {
    let mut draws: Vec<(usize, Draw)> = vec![
        (2_000, Box::new(numbers::draw)),
        (2_000, Box::new(limits::draw)),
        (100, table::drawer()),
        (2_000, kernels::drawer()),
        (20, slices::drawer()),
        (5_000, Box::new(levels::draw)),
        (1_000, coefficients::drawer()),
        (20, Box::new(final_rows::draw)),
    ];
    for pass in PASSES {
        draws.push((100, passes::drawer(pass.into())));
        draws.push((50, passes::drawer(Filter::frame_call(pass))));
        draws.push((40, smoothed::drawer(pass.into())));
        draws.push((20, smoothed::drawer(Filter::frame_call(pass))));
        draws.push((40, search::drawer(pass)));
        draws.push((1, sources::drawer(pass)));
        draws.push((16, stills::drawer(pass)));
    }
    draws
}

/// How many calls of each function were answered by each number.
#[derive(Clone, Debug, Default, PartialEq)]
pub struct Calls([[u64; NUMBERS]; ENTRIES.len()]);

impl Calls {
    /// Counts a call of a function that answers 0 or the number of a refusal.
    pub fn add(&mut self, entry: &str, answer: u8) {
        let at = ENTRIES.iter().position(|(name, _)| *name == entry).expect("a function of the header");
        self.0[at][answer as usize] += 1;
    }

    fn of_entries(&self) -> impl Iterator<Item = (&'static str, &'static [u8], [u64; NUMBERS])> {
        ENTRIES.into_iter().zip(self.0).map(|((name, refuses), counts)| (name, refuses, counts))
    }

    /// Calls, and those refused.
    fn sum(&self) -> [u64; 2] {
        let sum = |first: usize| self.0.iter().flat_map(|counts| &counts[first..]).sum();
        [sum(0), sum(1)]
    }

    /// The functions that were not called or never accepted a call, and refusals that did not come though they can.
    fn missing(&self) -> Vec<String> {
        let missing = |(name, refuses, counts): (&str, &[u8], [u64; NUMBERS])| {
            let accepted = (counts[0] == 0).then(|| format!("vp8lf_{name} was not called, or never accepted a call"));
            let never = refuses.iter().filter(|number| counts[**number as usize] == 0);
            let never: Vec<String> = never.map(|number| format!("vp8lf_{name} never refused by {number}")).collect();
            accepted.into_iter().chain(never).collect::<Vec<_>>()
        };
        self.of_entries().flat_map(missing).collect()
    }

    fn print(&self) {
        for (name, refuses, counts) in self.of_entries() {
            let by = |number: &u8| format!(", {} refused by {number}", grouped(counts[*number as usize]));
            let refused: String = refuses.iter().map(by).collect();
            println!("  vp8lf_{name}: {} calls{refused}", grouped(counts.iter().sum()));
        }
    }
}

/// The calls that a seed determines.
struct Soak {
    draws: Vec<(usize, Draw)>,
    random: Random,
    calls: Calls,
}

impl Soak {
    fn new(seed: u64) -> Soak {
        Soak { draws: draws(), random: Random::new(seed), calls: Calls::default() }
    }

    /// Draws once in turn, as long as there is time. The error is the first difference.
    fn turn(&mut self, time_is_left: impl Fn() -> bool) -> Result<(), String> {
        for (times, draw) in &mut self.draws {
            if !time_is_left() {
                break;
            }
            (0..*times).try_for_each(|_| draw(&mut self.random, &mut self.calls))?;
        }
        Ok(())
    }

    /// What failed: the first difference, or else functions that were not reached.
    fn failures(&self, outcome: Result<(), String>) -> Vec<String> {
        match outcome {
            Err(difference) => vec![format!("after {} calls: {difference}", grouped(self.calls.sum()[0]))],
            Ok(()) => self.calls.missing(),
        }
    }
}

/// Seconds and seed, if the arguments ask for a soak. Without a seed the clock gives one.
pub fn asked(arguments: &[&str]) -> Option<(u64, u64)> {
    let (seconds, seed) = match arguments {
        ["--soak", seconds] => (seconds, clock()),
        ["--soak", seconds, "--seed", seed] | ["--seed", seed, "--soak", seconds] => (seconds, seed.parse().ok()?),
        _ => return None,
    };
    let seconds = seconds.parse().ok().filter(|seconds| *seconds > 0)?;
    Some((seconds, seed))
}

fn clock() -> u64 {
    SystemTime::now().duration_since(UNIX_EPOCH).map_or(0, |time| time.as_nanos() as u64)
}

pub fn run(seconds: u64, seed: u64) -> ExitCode {
    println!("soak: {} s, seed {seed}", grouped(seconds));
    let (start, limit) = (Instant::now(), Duration::from_secs(seconds));
    let time_is_left = || start.elapsed() < limit;
    let mut soak = Soak::new(seed);
    let mut outcome = Ok(());
    while outcome.is_ok() && time_is_left() {
        outcome = soak.turn(time_is_left);
    }
    soak.calls.print();
    let failures = soak.failures(outcome);
    failures.iter().for_each(|failure| println!("FAILED {failure}"));
    let [calls, refused] = soak.calls.sum().map(grouped);
    if !failures.is_empty() {
        println!("soak: FAILED, {calls} calls, seed {seed}");
        return ExitCode::FAILURE;
    }
    println!("soak: {calls} calls of {} functions, {refused} refused, all equal, seed {seed}", ENTRIES.len());
    ExitCode::SUCCESS
}

#[cfg(test)]
mod tests {
    use super::*;

    #[test]
    fn the_entries_are_those_of_the_header() {
        let names = signatures::of_the_header().into_iter().map(|function| function.name);
        assert_eq!(names.collect::<Vec<_>>(), ENTRIES.map(|(name, _)| format!("vp8lf_{name}")));
    }

    fn after_turns(turns: usize, seed: u64) -> (Calls, u64) {
        let mut soak = Soak::new(seed);
        (0..turns).for_each(|_| soak.turn(|| true).expect("all equal"));
        (soak.calls, soak.random.word())
    }

    #[test]
    fn few_turns_reach_every_entry_and_refusal_and_a_seed_determines_them() {
        let (calls, next) = after_turns(16, 1);
        assert_eq!(calls.missing(), [""; 0]);
        assert_eq!(after_turns(16, 1), (calls, next));
        assert_ne!(after_turns(1, 2), after_turns(1, 1));
    }

    #[test]
    fn a_difference_or_a_missing_entry_fails() {
        let mut soak = Soak::new(1);
        let refusals: usize = ENTRIES.iter().map(|(_, refuses)| refuses.len()).sum();
        assert_eq!(soak.failures(Ok(())).len(), ENTRIES.len() + refusals);
        ENTRIES.iter().for_each(|(name, _)| soak.calls.add(name, 0));
        assert_eq!(soak.failures(Ok(())).len(), refusals);
        ENTRIES.iter().for_each(|(name, refuses)| refuses.iter().for_each(|number| soak.calls.add(name, *number)));
        assert_eq!(soak.failures(Ok(())), [""; 0]);
        soak.draws =
            vec![(3, Box::new(|random, _| if random.below(1) == 0 { Err(String::from("differs")) } else { Ok(()) }))];
        let outcome = soak.turn(|| true);
        assert_eq!(soak.failures(outcome), [format!("after {} calls: differs", ENTRIES.len() + refusals)]);
    }

    #[test]
    fn arguments() {
        assert_eq!(asked(&["--soak", "5", "--seed", "7"]), Some((5, 7)));
        assert_eq!(asked(&["--seed", "7", "--soak", "60"]), Some((60, 7)));
        assert_eq!(asked(&["--soak", "5"]).map(|(seconds, _)| seconds), Some(5));
        for wrong in
            [&["--soak"][..], &["--soak", "x"], &["--soak", "0"], &["--soak", "-1"], &["--soak", "5", "--long"]]
        {
            assert_eq!(asked(wrong), None);
        }
    }
}
