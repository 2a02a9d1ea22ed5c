//! `u2s` on every byte; `clamp_s8` and `s2u` near 0, at the ends of i32 and all over it, in the long run on every i32.

use crate::soak::Calls;
use crate::tally::{Kind, Tally};
use crate::{Plan, ffi};
use oracle::loop_filter;
use rules::random::Random;
use std::fmt::Display;

const NEAR: u32 = 70_000;
const SPREAD: u32 = 2_000;
const LIMITED: [&str; 3] = ["below -128", "within", "above 127"];

pub fn compare(plan: &Plan, tally: &mut Tally) {
    tally.run("u2s", &[], |kind| {
        (0..=255).try_for_each(|v| {
            kind.add_cases(1);
            same(v, loop_filter::u2s(v), ffi::u2s(v))
        })
    });
    tally.run("clamp_s8", &LIMITED, |kind| signed(plan, kind, |v| same(v, loop_filter::clamp_s8(v), ffi::clamp_s8(v))));
    tally.run("s2u", &LIMITED, |kind| signed(plan, kind, |v| same(v, loop_filter::s2u(v), ffi::s2u(v))));
}

/// A call of each on any number, most of them near the limits.
pub fn draw(random: &mut Random, calls: &mut Calls) -> Result<(), String> {
    const ENDS: [i32; 9] = [i32::MIN, i32::MIN + 1, -129, -128, 0, 127, 128, i32::MAX - 1, i32::MAX];
    let numbers = [random.one_of(&ENDS), random.below(1024) as i32 - 512, random.word() as i32];
    let (byte, v) = (random.byte(), random.one_of(&numbers));
    let outcomes = [
        ("u2s", same(byte, loop_filter::u2s(byte), ffi::u2s(byte))),
        ("clamp_s8", same(v, loop_filter::clamp_s8(v), ffi::clamp_s8(v))),
        ("s2u", same(v, loop_filter::s2u(v), ffi::s2u(v))),
    ];
    outcomes.into_iter().try_for_each(|(entry, outcome)| {
        calls.add(entry, 0);
        outcome.map_err(|difference| format!("{entry}: {difference}"))
    })
}

fn same<V: Display, T: Display + PartialEq>(v: V, rust: T, library: T) -> Result<(), String> {
    if rust == library {
        return Ok(());
    }
    Err(format!("on {v} the Rust answers {rust}, the library {library}"))
}

/// Compares numbers by magnitude, so that the first difference in a thread is at its smallest.
fn signed(plan: &Plan, kind: &mut Kind, compare: impl Fn(i32) -> Result<(), String> + Sync) -> Result<(), String> {
    let largest = i32::MIN.unsigned_abs();
    if plan.long {
        return kind.in_threads(plan.threads, |thread, kind| {
            magnitudes(kind, (thread as u32..=largest).step_by(plan.threads), &compare)
        });
    }
    magnitudes(kind, 0..=NEAR, &compare)?;
    // Others at a distance of at most 2 SPREAD from the last, so that every higher bit and every low byte occurs.
    let mut random = Random::new(plan.seed);
    let others =
        (NEAR..largest - NEAR).step_by(SPREAD as usize).map(|first| first + random.below(SPREAD as usize) as u32);
    magnitudes(kind, others, &compare)?;
    magnitudes(kind, largest - NEAR..=largest, &compare)
}

fn magnitudes(
    kind: &mut Kind,
    magnitudes: impl Iterator<Item = u32>,
    compare: impl Fn(i32) -> Result<(), String>,
) -> Result<(), String> {
    let mut counts = [0; 3];
    let mut outcome = Ok(());
    for magnitude in magnitudes {
        let below = 0i32.checked_sub_unsigned(magnitude);
        let above = 0i32.checked_add_unsigned(magnitude).filter(|v| *v != 0);
        for v in below.into_iter().chain(above) {
            counts[(v >= -128) as usize + (v > 127) as usize] += 1;
            outcome = outcome.and(compare(v));
        }
        if outcome.is_err() {
            break;
        }
    }
    kind.add_cases(counts.iter().sum());
    for (class, count) in LIMITED.iter().zip(counts) {
        kind.add_class(class, count);
    }
    outcome
}
