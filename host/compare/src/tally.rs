//! Counts the cases of each kind and the classes that occurred among them.

use std::process::ExitCode;
use std::time::Instant;

/// One kind of case, and the classes that must occur in it.
#[derive(Clone)]
pub struct Kind {
    cases: u64,
    classes: Vec<(&'static str, u64)>,
}

impl Kind {
    pub fn add_cases(&mut self, count: u64) {
        self.cases += count;
    }

    pub fn add_class(&mut self, name: &str, count: u64) {
        let class = self.classes.iter_mut().find(|class| class.0 == name);
        class.expect("a class is declared with its kind").1 += count;
    }

    /// Compares in `threads` threads, each with a number and a part of the count of its own. The difference of the
    /// lowest thread number is the result.
    pub fn in_threads<F>(&mut self, threads: usize, compare: F) -> Result<(), String>
    where
        F: Fn(usize, &mut Kind) -> Result<(), String> + Sync,
    {
        let mut empty = self.clone();
        empty.cases = 0;
        empty.classes.iter_mut().for_each(|class| class.1 = 0);
        let parts = std::thread::scope(|scope| {
            let start = |thread| {
                let (compare, mut part) = (&compare, empty.clone());
                scope.spawn(move || (compare(thread, &mut part), part))
            };
            let running: Vec<_> = (0..threads).map(start).collect();
            let join = |run: std::thread::ScopedJoinHandle<'_, _>| run.join().expect("no panic");
            running.into_iter().map(join).collect::<Vec<_>>()
        });
        let mut first_difference = Ok(());
        for (outcome, part) in parts {
            self.cases += part.cases;
            for (name, count) in part.classes {
                self.add_class(name, count);
            }
            first_difference = first_difference.and(outcome);
        }
        first_difference
    }
}

/// All kinds compared so far.
#[derive(Default)]
pub struct Tally {
    kinds: u64,
    cases: u64,
    failures: u64,
}

impl Tally {
    /// Runs one kind. `compare` stops at its first difference and returns its description.
    pub fn run<F>(&mut self, name: &str, classes: &[&'static str], compare: F)
    where
        F: FnOnce(&mut Kind) -> Result<(), String>,
    {
        let mut kind = Kind { cases: 0, classes: classes.iter().map(|class| (*class, 0)).collect() };
        let start = Instant::now();
        let outcome = compare(&mut kind);
        let seconds = start.elapsed().as_secs_f64();
        println!("  {name}: {} cases, {seconds:.1} s", grouped(kind.cases));
        for (class, count) in &kind.classes {
            println!("    {class}: {}", grouped(*count));
        }
        self.kinds += 1;
        self.cases += kind.cases;
        if let Err(difference) = outcome {
            self.fail(name, &difference);
            return;
        }
        if kind.cases == 0 {
            self.fail(name, "no case was compared");
        }
        for (class, _) in kind.classes.iter().filter(|class| class.1 == 0) {
            self.fail(name, &format!("the class '{class}' did not occur"));
        }
    }

    fn fail(&mut self, name: &str, reason: &str) {
        self.failures += 1;
        println!("FAILED {name}: {reason}");
    }

    /// Prints the sum of all kinds. Succeeds if there was one and none failed.
    pub fn verdict(&self) -> ExitCode {
        let cases = grouped(self.cases);
        if self.failures > 0 || self.kinds == 0 {
            println!("compare: FAILED, {} failures in {} kinds", self.failures, self.kinds);
            return ExitCode::FAILURE;
        }
        println!("compare: {cases} cases of {} kinds, all equal", self.kinds);
        ExitCode::SUCCESS
    }
}

/// A number with a comma at every third digit.
pub fn grouped(number: u64) -> String {
    let digits = number.to_string();
    let mut text = String::new();
    for (index, digit) in digits.chars().enumerate() {
        if index > 0 && (digits.len() - index).is_multiple_of(3) {
            text.push(',');
        }
        text.push(digit);
    }
    text
}

#[cfg(test)]
mod tests {
    use super::*;

    fn failures(compare: impl FnOnce(&mut Kind) -> Result<(), String>) -> u64 {
        let mut tally = Tally::default();
        tally.run("kind", &["class"], compare);
        tally.failures
    }

    fn failures_of_counts(cases: u64, class: u64) -> u64 {
        failures(|kind| {
            kind.add_cases(cases);
            kind.add_class("class", class);
            Ok(())
        })
    }

    #[test]
    fn a_kind_without_cases_or_a_class_that_does_not_occur_fails() {
        assert_eq!(failures_of_counts(1, 1), 0);
        assert_eq!(failures_of_counts(0, 1), 1);
        assert_eq!(failures_of_counts(1, 0), 1);
    }

    #[test]
    fn a_difference_in_any_thread_fails() {
        let compare = |thread, kind: &mut Kind| {
            kind.add_cases(1);
            kind.add_class("class", 1);
            if thread == 1 { Err(String::from("differs")) } else { Ok(()) }
        };
        assert_eq!(failures(|kind| kind.in_threads(1, compare)), 0);
        assert_eq!(failures(|kind| kind.in_threads(2, compare)), 1);
    }

    #[test]
    fn numbers_are_grouped() {
        let texts = [0, 999, 1000, 4294967296].map(grouped);
        assert_eq!(texts, ["0", "999", "1,000", "4,294,967,296"]);
    }
}
