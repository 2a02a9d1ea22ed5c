//! `derive` on every level, sharpness and key mark.

use crate::soak::Calls;
use crate::tally::Tally;
use crate::{Plan, ffi};
use oracle::LoopFilterParams;
use rules::random::Random;

pub fn compare(_plan: &Plan, tally: &mut Tally) {
    tally.run("derive", &["key", "inter", "limit 255", "interior limit 1"], |kind| {
        for level in 0..=255 {
            for sharpness in 0..=255 {
                for key in [true, false] {
                    let rust = rust(level, sharpness, key);
                    kind.add_cases(1);
                    kind.add_class(if key { "key" } else { "inter" }, 1);
                    kind.add_class("limit 255", rust.contains(&255) as u64);
                    kind.add_class("interior limit 1", (rust[0] == 1) as u64);
                    compare_one(level, sharpness, key, rust)?;
                }
            }
        }
        Ok(())
    });
}

/// A call on any level, sharpness and key mark.
pub fn draw(random: &mut Random, calls: &mut Calls) -> Result<(), String> {
    let (level, sharpness, key) = (random.byte(), random.byte(), random.below(2) == 1);
    calls.add("derive", 0);
    compare_one(level, sharpness, key, rust(level, sharpness, key))
}

fn rust(level: u8, sharpness: u8, key: bool) -> [u8; 4] {
    let p = LoopFilterParams::derive(level, sharpness, key);
    [p.interior_limit, p.hev_threshold, p.mbedge_limit, p.sub_bedge_limit]
}

/// The out-parameters hold other numbers before the call, and the bytes beside them stay.
fn compare_one(level: u8, sharpness: u8, key: bool, rust: [u8; 4]) -> Result<(), String> {
    const BESIDE: u8 = 170;
    let mut out = [BESIDE; 9];
    let [_, a, _, b, _, c, _, d, _] = &mut out;
    (*a, *b, *c, *d) = (!rust[0], !rust[1], !rust[2], !rust[3]);
    ffi::derive(level, sharpness, key, a, b, c, d);
    let library = [*a, *b, *c, *d];
    let call = format!("level {level}, sharpness {sharpness}, key {key}");
    if library != rust {
        return Err(format!("{call}: the Rust derives {rust:?}, the library {library:?}"));
    }
    if out.iter().step_by(2).any(|beside| *beside != BESIDE) {
        return Err(format!("{call}: bytes beside the out-parameters changed: {out:?}"));
    }
    Ok(())
}
