//! Pictures that single out a pair of level and sharpness: rows of samples about one edge, at the limits of the pair
//! and just beyond them. Every pair is the best of a full search once, unless a lower pair filters by the same limits.

use crate::call::{Call, FLAGS, Form, MODES, Pass};
use crate::guard::SIDES;
use crate::passes::tight;
use crate::pictures::entries;
use crate::search::{Memory, Search};
use crate::stills::{Expected, LEVEL_FIRST, same};
use crate::tally::Kind;
use oracle::{FrameFilterConfig, LoopFilterParams};
use rules::Scored;
use rules::random::Random;

/// Of the normal filter. By the simple filter, level 60 at sharpness 1 leaves what level 63 at sharpness 7 leaves.
pub const NORMAL: [&str; 7] = [
    "level 1",
    "level 63",
    "sharpness 0",
    "sharpness 7",
    "level 63 with sharpness 7",
    "tie of sharpness values",
    "another pair than the search",
];
pub const SIMPLE: [&str; 7] = [
    "level 1",
    "level 63",
    "sharpness 0",
    "sharpness 7",
    "tie of levels",
    "tie of sharpness values",
    "another pair than the search",
];

/// p3 to p0 and q0 to q3, with the edge between p0 and q0.
pub type Taps = [u8; 8];

/// p0 of every step.
const LOW: u8 = 60;

/// A step up of this height from p0 to q0, with p1 and q1 so far above them, and level beyond.
pub fn bent(height: i32, p: i32, q: i32) -> Taps {
    let [p0, q0] = [LOW as i32, LOW as i32 + height];
    [p0 + p, p0 + p, p0 + p, p0, q0, q0 + q, q0 + q, q0 + q].map(|sample| sample as u8)
}

/// A step up whose height the filters measure as `measure`, 2 x |p0 - q0| + |p1 - q1| / 2. Neighbours on one side
/// differ by 1 at most.
fn step(measure: u8) -> Taps {
    let measured = |height: i32, p: i32, q: i32| 2 * height + (height + q - p).abs() / 2;
    let mut steps = (0..=100).flat_map(|height| [0, -1, 1].map(|p| [0, -1, 1].map(|q| (height, p, q)))).flatten();
    let (height, p, q) = steps.find(|(height, p, q)| measured(*height, *p, *q) == measure as i32).expect("a step");
    bent(height, p, q)
}

/// A step that no edge limit of a level above 0 leaves alone, with this difference of neighbours on one side.
fn interior(difference: u8) -> Taps {
    [LOW + difference, LOW, LOW, LOW, LOW + 3, LOW + 3, LOW + 3, LOW + 3]
}

/// A search on two macroblocks whose only edge is the one between them, with the rows given again and again. The source
/// is the reconstruction.
fn of_rows(pass: Pass, simple: bool, rows: &[Taps], random: &mut Random) -> Search {
    let layout = tight(2, 1);
    let luma = (0..16).flat_map(|row| {
        let taps = rows[row % rows.len()];
        (0..32).map(move |column: usize| taps[column.clamp(12, 19) - 12])
    });
    let planes = [luma.collect(), vec![128; 128], vec![128; 128]];
    let config = FrameFilterConfig::default().with_simple(simple).with_key_frame(random.yes());
    let config = config.with_loop_filter_level(random.byte()).with_sharpness_level(random.below(12) as u8);
    let without_inner_edges = |list: usize| [MODES, FLAGS].contains(&list);
    let lists =
        std::array::from_fn(|list| if without_inner_edges(list) { vec![0; 2] } else { entries(list, 2, random) });
    let scratch = [512, 128, 128].map(|len| (0..len).map(|_| random.byte()).collect());
    let (form, side) = (Form::Pass, random.one_of(&SIDES));
    let call = Call { form, pass, layout, planes, lists, config, start: 0, allowance: 2, side };
    Search { source: call.planes.clone(), call, width: 32, height: 16, strides: [32, 16, 16], scratch }
}

/// What a pass over these pictures reads of a pair: the limit of the edge, and the interior limit, which the simple
/// filter does not read.
fn limits(level: u8, sharpness: u8, simple: bool) -> (u8, u8) {
    let limits = LoopFilterParams::derive(level, sharpness, true);
    (limits.mbedge_limit, if simple { 0 } else { limits.interior_limit })
}

/// Each pair that filters by limits of its own is the best once, against what its pass leaves of a picture.
pub fn each(seed: u64, pass: Pass, simple: bool, kind: &mut Kind) -> Result<(), String> {
    let (mut random, mut memory) = (Random::new(seed), Memory::new());
    let limits = |level, sharpness| limits(level, sharpness, simple);
    for (level, sharpness) in rules::candidates(0).skip(1) {
        let mut pairs = rules::candidates(0).skip(1);
        let lowest = pairs.find(|(l, s)| limits(*l, *s) == limits(level, sharpness)).expect("the pair itself");
        if lowest != (level, sharpness) {
            continue;
        }
        let (edge, inside) = limits(level, sharpness);
        let rows = [step(edge), step(edge + 1), interior(inside), interior(inside + 1)];
        let mut search = of_rows(pass, simple, &rows, &mut random);
        let left = search.candidate(level, sharpness);
        search.source = [left.y, left.u, left.v];
        let expected = same(&search, &mut memory)?;
        if expected.best() != Some(Scored { sum: 0, level, sharpness }) {
            return Err(format!("level {level} with sharpness {sharpness} must be the best\n{search}"));
        }
        classify(&search, &expected, kind);
    }
    Ok(())
}

fn classify(search: &Search, expected: &Expected, kind: &mut Kind) {
    let Some(Scored { level, sharpness, .. }) = expected.best() else {
        return;
    };
    let classes = [
        ("level 1", level == 1),
        ("level 63", level == 63),
        ("sharpness 0", sharpness == 0),
        ("sharpness 7", sharpness == 7),
        ("level 63 with sharpness 7", (level, sharpness) == (63, 7)),
        ("another pair than the search", search.rust() != Some((level, sharpness))),
    ];
    kind.add_cases(1);
    for (name, occurs) in classes.into_iter().chain(expected.ties()) {
        if occurs {
            kind.add_class(name, 1);
        }
    }
}

/// A tie of level 40 at sharpness 4 and level 41 at sharpness 3, which the level decides. The edge limits are 89 and 92,
/// the interior limits 5 and 6. Rows that are to be filtered need 89 or 5, rows that are to be left alone 93 or 7.
/// Besides, one row that is to be filtered needs 92, and five that are to be left alone need 6: it costs as much to leave
/// the one alone as to filter the five.
pub fn level_before_sharpness(seed: u64, pass: Pass, kind: &mut Kind) -> Result<(), String> {
    let rows = [step(89), step(92), step(93)];
    let rows = [&rows[..], &[interior(5); 6], &[interior(6); 5], &[interior(7); 2]].concat();
    let mut search = of_rows(pass, false, &rows, &mut Random::new(seed));
    let left = search.candidate(40, 4);
    search.source = [left.y, left.u, left.v];
    // The filter moves the taps by 5, 10 and 16 on each side. Where the source is moved by these, the row costs 20 more if
    // it is left alone.
    let moved = [2, 6, 8, -8, -5, -3];
    search.source[0][32 + 13..32 + 19].iter_mut().zip(moved).for_each(|(tap, by)| *tap = tap.wrapping_add_signed(by));
    let expected = same(&search, &mut Memory::new())?;
    let best = expected.best();
    if best.is_none_or(|best| (best.level, best.sharpness) != (40, 4)) {
        return Err(format!("level 40 with sharpness 4 must be the best, but is {best:?}\n{search}"));
    }
    kind.add_cases(1);
    kind.add_class(LEVEL_FIRST, expected.ties().contains(&(LEVEL_FIRST, true)) as u64);
    Ok(())
}
