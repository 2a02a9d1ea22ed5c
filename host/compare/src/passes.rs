//! Both passes on random pictures: every halting pattern of small grids, random halts of larger ones, any start, the
//! largest grids and strides.

use crate::Plan;
use crate::call::{Call, Done, FLAGS, Filter, Form, MODES, Memory, Outcome, PASSES, Planes, RustSteps, SEGMENTS};
use crate::pictures::{on_layout, picture};
use crate::refusals::Changes;
use crate::smaller_call::difference;
use crate::soak::Draw;
use crate::tally::{Kind, Tally};
use entries::Layout;
use oracle::{LoopFilterParams, opened};
use rules::random::Random;

pub const CLASSES: [&str; 19] = [
    "filtered",
    "not filtered",
    "halted",
    "to the end",
    "nothing left",
    "allowance 0",
    "normal filter",
    "simple filter",
    "level 0",
    "inner edges",
    "no inner edges",
    "high variance",
    "low variance",
    "edge left alone",
    "samples outside the grid",
    "header level above 63",
    "sharpness above 7",
    "segment above 3",
    "flag above 1",
];

pub fn compare(plan: &Plan, tally: &mut Tally) {
    for filter in PASSES.map(Filter::from) {
        let name = filter.entry();
        tally.run(&format!("{name}, every halting pattern"), &CLASSES, |kind| patterns(plan, filter, kind));
        tally.run(&format!("{name}, random halts"), &CLASSES, |kind| random_halts(plan, filter, kind));
        tally.run(&format!("{name}, any start"), &CLASSES, |kind| any_start(plan, filter, kind));
        tally.run(&format!("{name}, largest grids and strides"), &["filtered", "halted"], |kind| {
            largest(plan, filter, kind)
        });
    }
}

/// Runs `compare` `rounds` times, in threads, each with numbers and memory of its own.
pub fn rounds<F>(plan: &Plan, rounds: usize, kind: &mut Kind, compare: F) -> Result<(), String>
where
    F: Fn(&mut Random, &mut Memory, &mut Kind) -> Result<(), String> + Sync,
{
    kind.in_threads(plan.threads, |thread, kind| {
        let (mut random, mut memory) = (Random::new(plan.seed ^ (thread as u64 + 1) << 32), Memory::new());
        (0..rounds.div_ceil(plan.threads)).try_for_each(|_| compare(&mut random, &mut memory, kind))
    })
}

/// Compares one call with what is expected of it, and answers the planes that it left.
pub fn same(call: &Call, expected: Outcome, memory: &mut Memory) -> Result<Planes, String> {
    let library = call.library(memory);
    if library == expected {
        return Ok(library.planes);
    }
    Err(difference(call, &expected, &library, memory))
}

/// Every way to cut the macroblocks of a small grid into calls.
pub fn patterns(plan: &Plan, filter: Filter, kind: &mut Kind) -> Result<(), String> {
    let times = if plan.long { 1_000 } else { 25 };
    let sizes = (1..=6).flat_map(|columns| (1..=6).map(move |rows| (columns, rows)));
    let sizes: Vec<(usize, usize)> = sizes.filter(|(columns, rows)| columns * rows <= 9).collect();
    rounds(plan, times, kind, |random, memory, kind| {
        for &(columns, rows) in &sizes {
            let picture = picture(filter, columns, rows, random);
            let after = each_step(&picture);
            let n = columns * rows;
            for pattern in 0..1u32 << (n - 1) {
                // A set bit halts after its macroblock.
                let halts = (1..n).filter(|m| pattern >> (m - 1) & 1 == 1).chain([n]);
                in_calls(&picture, &after, halts, random, memory, kind)?;
            }
        }
        Ok(())
    })
}

pub fn random_halts(plan: &Plan, filter: Filter, kind: &mut Kind) -> Result<(), String> {
    let times = if plan.long { 100_000 } else { 4_000 };
    rounds(plan, times, kind, |random, memory, kind| {
        let most = random.one_of(&[3, 5, 8, 12]);
        let picture = picture(filter, 1 + random.below(most), 1 + random.below(most), random);
        let after = each_step(&picture);
        let n = picture.macroblocks();
        let often = random.one_of(&[1, 2, 4, n]);
        let halts: Vec<usize> = (1..n).filter(|_| random.below(often) == 0).chain([n]).collect();
        in_calls(&picture, &after, halts.into_iter(), random, memory, kind)
    })
}

/// The planes lent, and those that each step of the Rust leaves.
pub fn each_step(picture: &Call) -> Vec<Planes> {
    let mut steps = RustSteps::new(picture);
    let mut after = vec![picture.planes.clone()];
    for m in 0..picture.macroblocks() {
        steps.step(m);
        after.push(steps.planes());
    }
    after
}

/// The whole picture in calls that end at `halts`, the last of which is the end, with calls of allowance 0 between
/// them. `after` is what [`each_step`] answers. The last call leaves what the Rust's unbroken pass leaves.
fn in_calls(
    picture: &Call,
    after: &[Planes],
    halts: impl Iterator<Item = usize>,
    random: &mut Random,
    memory: &mut Memory,
    kind: &mut Kind,
) -> Result<(), String> {
    let n = picture.macroblocks();
    let mut call = picture.clone();
    let mut compare = |call: &Call, next: usize| {
        let done = Done { count: next - call.start, next };
        classify(call, done, &after[next], kind);
        same(call, Outcome::new(Ok(done), after[next].clone()), memory)
    };
    for next in halts {
        if random.below(8) == 0 {
            call.allowance = 0;
            call.planes = compare(&call, call.start)?;
        }
        call.allowance = next - call.start;
        if next == n {
            let more = random.one_of(&[0, 0, 1, usize::MAX - call.allowance]);
            call.allowance += more;
        }
        call.planes = compare(&call, next)?;
        call.start = next;
    }
    if call.planes != picture.unbroken() {
        return Err(format!("the Rust's steps one by one must leave what its pass leaves\n{picture}"));
    }
    call.allowance = random.one_of(&[0, 1, usize::MAX]);
    compare(&call, n).map(|_| ())
}

/// One call from any start with any allowance, on planes that no step before it touched.
pub fn any_start(plan: &Plan, filter: Filter, kind: &mut Kind) -> Result<(), String> {
    let times = if plan.long { 500_000 } else { 15_000 };
    rounds(plan, times, kind, |random, memory, kind| {
        let most = random.one_of(&[2, 4, 9]);
        let call = from_any_start(filter, most, random);
        let expected = call.expected();
        classify(&call, expected.done(), &expected.planes, kind);
        same(&call, expected, memory).map(|_| ())
    })
}

/// A call on at most `most` columns and rows.
fn from_any_start(filter: Filter, most: usize, random: &mut Random) -> Call {
    let mut call = picture(filter, 1 + random.below(most), 1 + random.below(most), random);
    let n = call.macroblocks();
    let any = random.below(n);
    call.start = random.one_of(&[0, 1, n - 1, n, any, any]);
    let (rest, any) = (n - call.start, random.below(n + 1));
    let allowances = [0, 1, rest, rest + 1, rest.saturating_sub(1), any, 1 << 32, usize::MAX];
    call.allowance = random.one_of(&allowances);
    call
}

/// A call from any start, as drawn or with up to three changes, many of which are refused.
pub fn any_call(filter: Filter, changes: &Changes, random: &mut Random) -> Call {
    let most = if random.below(100) == 0 { 30 } else { random.one_of(&[2, 4, 9]) };
    let mut call = from_any_start(filter, most, random);
    changes.some(&mut call, random.one_of(&[0, 0, 1, 2, 3]), random);
    if random.below(20) == 0 {
        call.layout.rows = 0;
    }
    call
}

/// Calls of [`any_call`]. What the Rust's steps leave of a whole picture is what its pass leaves.
pub fn drawer(filter: Filter) -> Draw {
    let (changes, mut memory) = (Changes::new(filter.pass), Memory::new());
    Box::new(move |random, calls| {
        let call = any_call(filter, &changes, random);
        let expected = call.expected();
        calls.add(filter.entry(), expected.answer);
        let count = expected.done().count;
        let whole = expected.answer == 0 && count > 0 && count == call.macroblocks();
        if whole && expected.planes != call.unbroken() {
            return Err(format!("the Rust's steps one by one must leave what its pass leaves\n{call}"));
        }
        same(&call, expected, &mut memory).map(|_| ())
    })
}

/// The largest grids that 1 accepts and the largest strides that 2 accepts, halted at random and whole.
pub fn largest(plan: &Plan, filter: Filter, kind: &mut Kind) -> Result<(), String> {
    let wide = |columns, rows| Layout { columns, rows, y_stride: 65_536, uv_stride: 65_536 };
    let mut layouts = vec![
        tight(1024, 1),
        tight(1, 1024),
        tight(1024, 2),
        wide(1, 1),
        wide(2, 2),
        wide(1024, 1),
        Layout { y_stride: 65_536, ..tight(3, 1) },
        Layout { uv_stride: 65_536, ..tight(1, 3) },
    ];
    if plan.long {
        layouts.extend([tight(1024, 1024), wide(1, 128)]);
    }
    let (mut random, mut memory) = (Random::new(plan.seed), Memory::new());
    layouts.into_iter().try_for_each(|layout| {
        let whole = filtering(filter, layout, &mut random);
        let halt = random.below(whole.macroblocks() + 1);
        let filtered = halted_and_whole(&whole, halt, &mut memory)?;
        kind.add_cases(3);
        kind.add_class("halted", (halt < whole.macroblocks()) as u64);
        kind.add_class("filtered", filtered as u64);
        if filter.form == Form::Frame {
            halted_and_whole(&turned_off(&whole), halt, &mut memory)?;
            kind.add_cases(3);
            kind.add_class("header level 0", 1);
        }
        Ok(())
    })
}

/// A grid without samples outside it.
pub fn tight(columns: usize, rows: usize) -> Layout {
    Layout { columns, rows, y_stride: 16 * columns, uv_stride: 8 * columns }
}

/// A whole picture with a level above 0.
pub fn filtering(filter: impl Into<Filter>, layout: Layout, random: &mut Random) -> Call {
    let mut whole = on_layout(filter, layout, random);
    whole.config.loop_filter_level |= 16;
    whole.config.segmentation_enabled = false;
    whole
}

/// The same picture at header level 0, with deltas that lift every macroblock.
pub fn turned_off(whole: &Call) -> Call {
    let config = whole.config.with_loop_filter_level(0).with_delta_enabled(true).with_ref_delta_current(60);
    let config = config.with_ref_delta_last(60).with_ref_delta_golden(60).with_ref_delta_altref(60);
    Call { config, ..whole.clone() }
}

/// A whole picture in two calls, the first of which ends at `halt`, and in one. Answers whether its pass changes it.
pub fn halted_and_whole(whole: &Call, halt: usize, memory: &mut Memory) -> Result<bool, String> {
    let (n, unbroken) = (whole.macroblocks(), whole.unbroken());
    let mut halted = whole.clone();
    for next in [halt, n] {
        halted.allowance = next - halted.start;
        let done = Done { count: halted.allowance, next };
        let planes = if next == n { unbroken.clone() } else { stepped_to(whole, next) };
        halted.planes = same(&halted, Outcome::new(Ok(done), planes), memory)?;
        halted.start = next;
    }
    let filtered = unbroken != whole.planes;
    same(whole, Outcome::new(Ok(Done { count: n, next: n }), unbroken), memory)?;
    Ok(filtered)
}

/// What the steps before `next` leave of a picture: the Rust's pass over the rows that they fill, then its steps in
/// the row below.
pub fn stepped_to(picture: &Call, next: usize) -> Planes {
    let columns = picture.layout.columns;
    let upper = |rows: usize, planes: Planes| {
        let mut upper = Call { planes, ..picture.clone() };
        upper.layout.rows = rows;
        upper.lists.iter_mut().for_each(|list| list.truncate(columns * rows));
        upper
    };
    let (rows, more) = (next / columns, next % columns);
    let filled = if rows > 0 { upper(rows, picture.planes.clone()).unbroken() } else { picture.planes.clone() };
    if more == 0 {
        return filled;
    }
    let halted = upper(rows + 1, filled);
    let mut steps = RustSteps::new(&halted);
    (next - more..next).for_each(|m| steps.step(m));
    steps.planes()
}

/// Counts what an accepted frame call shows, besides what it shows as a pass.
fn classify_frame_call(call: &Call, done: Done, kind: &mut Kind) {
    let lifted = || Call { form: Form::Pass, ..call.clone() }.level(call.start) > 0;
    kind.add_class("header level 0", call.skips() as u64);
    kind.add_class("header level above 0", !call.skips() as u64);
    kind.add_class("skipped at a macroblock level above 0", (call.skips() && done.count > 0 && lifted()) as u64);
}

/// Counts what an accepted call on a grid with macroblocks shows.
fn classify(call: &Call, done: Done, after: &Planes, kind: &mut Kind) {
    if call.form == Form::Frame {
        classify_frame_call(call, done, kind);
    }
    kind.add_cases(1);
    let mut class = |name: &str, occurs: bool| kind.add_class(name, occurs as u64);
    let n = call.macroblocks();
    class("halted", done.next < n);
    class("to the end", done.next == n && done.count > 0);
    class("nothing left", call.start == n);
    class("allowance 0", call.allowance == 0);
    class("normal filter", !call.config.simple);
    class("simple filter", call.config.simple);
    class("samples outside the grid", call.planes.iter().map(Vec::len).sum::<usize>() > 384 * n);
    if done.count == 0 {
        return;
    }
    class("filtered", *after != call.planes);
    class("not filtered", *after == call.planes);
    let first = call.start;
    let level = call.level(first);
    let inner = call.inner_edges(first);
    class("level 0", level == 0);
    class("inner edges", level > 0 && inner);
    class("no inner edges", level > 0 && !inner);
    class("header level above 63", level > 0 && call.config.loop_filter_level > 63);
    class("sharpness above 7", level > 0 && call.config.sharpness_level > 7);
    class("segment above 3", call.config.segmentation_enabled && call.lists[SEGMENTS][first] > 3);
    class("flag above 1", level > 0 && call.lists[MODES][first] < 4 && call.lists[FLAGS][first] > 1);
    let (row, column) = (first / call.layout.columns, first % call.layout.columns);
    if level == 0 || column == 0 || call.config.simple {
        return;
    }
    // The left luma edge of the first macroblock comes before all others, so its samples are those lent.
    let limits = LoopFilterParams::derive(level, call.config.sharpness_level, call.config.key_frame);
    for position in 0..16 {
        let base = (16 * row + position) * call.layout.y_stride + 16 * column - 4;
        let taps: [u8; 8] = std::array::from_fn(|tap| call.planes[0][base + tap]);
        if opened::filter_yes(limits.interior_limit, limits.mbedge_limit, taps) {
            let high = opened::hev(limits.hev_threshold, taps);
            class("high variance", high);
            class("low variance", !high);
        } else {
            class("edge left alone", true);
        }
    }
}
