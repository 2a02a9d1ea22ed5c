//! The table of interior limits: every entry against what the Rust and the library derive, and buffers of 0 to 600 bytes
//! and longer ones, of which every byte is compared. [`lookups`](crate::lookups) compares the passes that read the table.

use crate::guard::{self, Guarded, SIDES, Side};
use crate::soak::Draw;
use crate::tally::{Kind, Tally};
use crate::{Plan, ffi, lookups};
use oracle::LoopFilterParams;
use rules::random::Random;

/// The levels of a row.
const LEVELS: usize = 64;
/// Bytes of the table: a row for each sharpness 0 to 7.
pub const TABLE: usize = 8 * LEVELS;

const LONGEST: usize = 600;
/// Lengths of long buffers.
const LONG: [usize; 8] = [1024, 4096, 4097, 32_768, 65_535, 65_536, 65_537, 1 << 20];

const ENTRIES: [&str; 6] = ["key", "inter", "the level itself", "half the level", "a quarter of it", "9 - sharpness"];
const BUFFERS: [&str; 6] = [
    "empty",
    "shorter than the table",
    "as long as the table",
    "longer than the table",
    "65,536 bytes and more",
    "among other bytes",
];

pub fn compare(plan: &Plan, tally: &mut Tally) {
    tally.run("interior_limits, every entry", &ENTRIES, each_entry);
    tally.run("interior_limits, buffers", &BUFFERS, |kind| {
        let (mut random, mut memory) = (Random::new(plan.seed), Guarded::new(2 << 20));
        let rounds = if plan.long { 400 } else { 8 };
        (0..rounds).try_for_each(|_| buffers(&mut random, &mut memory, kind))
    });
    lookups::compare(plan, tally);
}

/// The table as the Rust derives it.
pub fn by_the_rust() -> [u8; TABLE] {
    std::array::from_fn(|place| {
        let (level, sharpness) = pair(place);
        LoopFilterParams::derive(level, sharpness, true).interior_limit
    })
}

/// Level and sharpness of an entry.
fn pair(place: usize) -> (u8, u8) {
    ((place % LEVELS) as u8, (place / LEVELS) as u8)
}

fn each_entry(kind: &mut Kind) -> Result<(), String> {
    let mut table = [0; TABLE];
    let count = ffi::interior_limits(&mut table);
    if count != TABLE {
        return Err(format!("a buffer of {TABLE} bytes: expected the count {TABLE}, library {count}"));
    }
    for (place, limit) in table.into_iter().enumerate() {
        let (level, sharpness) = pair(place);
        for key in [true, false] {
            classify(level, sharpness, key, kind);
            let rust = LoopFilterParams::derive(level, sharpness, key).interior_limit;
            let derived = derived(level, sharpness, key);
            if [limit, derived] != [rust; 2] {
                return Err(format!(
                    "level {level}, sharpness {sharpness}, key {key}: the Rust derives {rust}, the library {derived}, \
                     its table has {limit}"
                ));
            }
        }
    }
    Ok(())
}

/// The interior limit that the library derives.
fn derived(level: u8, sharpness: u8, key: bool) -> u8 {
    let [mut interior, mut threshold, mut macroblock, mut inner] = [0; 4];
    ffi::derive(level, sharpness, key, &mut interior, &mut threshold, &mut macroblock, &mut inner);
    interior
}

/// Counts which part of the rule a limit shows (RFC 6386, section 15.4).
fn classify(level: u8, sharpness: u8, key: bool, kind: &mut Kind) {
    let halvings = [0, 1, 1, 1, 1, 2, 2, 2][sharpness as usize];
    let cut = sharpness > 0 && level >> halvings > 9 - sharpness;
    kind.add_cases(1);
    kind.add_class(if key { "key" } else { "inter" }, 1);
    kind.add_class(if cut { "9 - sharpness" } else { ENTRIES[2 + halvings] }, 1);
}

/// Every length to [`LONGEST`] and some long ones, against each unreadable page and among other bytes.
fn buffers(random: &mut Random, memory: &mut Guarded, kind: &mut Kind) -> Result<(), String> {
    for len in (0..=LONGEST).chain(LONG) {
        let classes = [
            ("empty", len == 0),
            ("shorter than the table", len < TABLE),
            ("as long as the table", len == TABLE),
            ("longer than the table", len > TABLE),
            ("65,536 bytes and more", len >= 65_536),
        ];
        for (side, beside) in [(Side::End, 0), (Side::Start, 0), (Side::End, 64)] {
            kind.add_cases(1);
            classes.into_iter().for_each(|(name, occurs)| kind.add_class(name, occurs as u64));
            kind.add_class("among other bytes", (beside > 0) as u64);
            check(len, beside, side, random, memory)?;
        }
    }
    Ok(())
}

/// A call on a buffer of any length.
pub fn drawer() -> Draw {
    let mut memory = Guarded::new(1 << 17);
    Box::new(move |random, calls| {
        let [any, long] = [LONGEST + 1, 100_000].map(|most| random.below(most));
        let len = random.one_of(&[0, 1, TABLE - 1, TABLE, TABLE + 1, any, any, any, any, long]);
        let (beside, side) = (random.one_of(&[0, 0, 64]), random.one_of(&SIDES));
        calls.add("interior_limits", 0);
        check(len, beside, side, random, &mut memory)
    })
}

/// A buffer of random bytes, none of which is the entry of its place already, with other bytes on both sides of it.
fn check(len: usize, beside: usize, side: Side, random: &mut Random, memory: &mut Guarded) -> Result<(), String> {
    let (table, count) = (by_the_rust(), len.min(TABLE));
    let mut before: Vec<u8> = (0..len + 2 * beside).map(|_| random.byte()).collect();
    before[beside..].iter_mut().zip(table).filter(|(byte, limit)| *byte == limit).for_each(|(byte, _)| *byte ^= 128);
    let mut expected = before.clone();
    expected[beside..][..count].copy_from_slice(&table[..count]);
    let lent = memory.lend(side, &before);
    let what = format_args!("  interior_limits on a buffer of {len} bytes, {beside} bytes from {side}");
    let library = guard::calling(&what, || ffi::interior_limits(&mut lent[beside..][..len]));
    if library == count && *lent == expected {
        return Ok(());
    }
    let places = (0..before.len()).filter(|place| lent[*place] != expected[*place]);
    let differ: Vec<(isize, u8, u8)> =
        places.take(8).map(|place| (place as isize - beside as isize, expected[place], lent[place])).collect();
    Err(format!(
        "\n{what}\n  expected count {count}, library {library}; of the bytes differ {differ:?} (place, expected, library)"
    ))
}
