//! How many positions each call of a pass smooths (change request 5). The Rust does not tell: `oracle::positions` walks its
//! kernels position by position, which must leave what its pass leaves, and counts the tests that pass. Whole pictures,
//! parts of halted calls, calls that smooth nothing, refused calls, the largest totals, and the film.

use crate::Plan;
use crate::call::{Call, Done, FLAGS, Filter, Form, MODES, Memory, Outcome, PASSES, Planes};
use crate::halting::allowance;
use crate::passes::{any_call, each_step, rounds, tight, turned_off};
use crate::pictures::{on_layout, picture};
use crate::recorded;
use crate::refusals::Changes;
use crate::shrink::shrink;
use crate::smaller_call::{difference, simpler};
use crate::soak::Draw;
use crate::tally::{Kind, Tally};
use oracle::KeyframePlanes;
use oracle::positions::{Positions, Walk};
use rules::random::Random;

const POSITIONS: [&str; 4] = [
    "position smoothed",
    "position left alone",
    "smoothed though its samples stay",
    "test that earlier positions turned",
];
const WHOLE: [&str; 14] = [
    "picture that stays though positions are smoothed",
    "picture of which none is smoothed",
    "picture of which all are smoothed",
    "normal filter",
    "simple filter",
    "key mark",
    "no key mark",
    "segments count",
    "deltas count",
    "level 0 beside others",
    "inner edges of some alone",
    "header level above 63",
    "sharpness above 7",
    "samples outside the grid",
];
const PARTS: [&str; 6] = [
    "whole in one call",
    "part that is smoothed",
    "part of which none is smoothed",
    "allowance 0",
    "nothing left",
    "refused call between",
];
const LISTS: [&str; 3] = ["list that ends inside the grid", "list that ends with the grid", "refused call between"];
const NOTHING: [&str; 6] = ["figure M", "zero grid", "level 0", "start at the end", "allowance 0", "refused"];

pub fn compare(plan: &Plan, tally: &mut Tally) {
    for filter in PASSES.map(Filter::from).into_iter().chain(PASSES.map(Filter::frame_call)) {
        let name = filter.entry();
        let skipped: &[&str] = if filter.form == Form::Frame { &["header level 0"] } else { &[] };
        let classes = [&POSITIONS[..], &WHOLE, skipped].concat();
        tally.run(&format!("{name}, positions smoothed"), &classes, |kind| wholes(plan, filter, kind));
        let classes = [&POSITIONS[..], &PARTS].concat();
        tally.run(&format!("{name}, parts of every halting pattern"), &classes, |kind| patterns(plan, filter, kind));
        let classes = [&POSITIONS[..], &LISTS].concat();
        tally.run(&format!("{name}, parts of lists of calls"), &classes, |kind| lists(plan, filter, kind));
        let classes = [&NOTHING[..], skipped].concat();
        tally.run(&format!("{name}, nothing smoothed"), &classes, |kind| nothings(plan, filter, kind));
        let classes = [&POSITIONS[..], &["refused"]].concat();
        tally.run(&format!("{name}, parts from any start"), &classes, |kind| any_start(plan, filter, kind));
        tally
            .run(&format!("{name}, every position of large grids"), &["above 65,535"], |kind| full(plan, filter, kind));
    }
    let classes = [&POSITIONS[..], &["left alone by the RFC's decoder"]].concat();
    tally.run("film, positions smoothed", &classes, |kind| film(plan, kind));
}

/// The positions of the macroblocks that a call does, and what they leave. A refused call does none.
fn walk(call: &Call) -> (Positions, Planes) {
    let mut positions = Positions::default();
    let Ok(Done { count, next }) = call.rule() else {
        return (positions, call.planes.clone());
    };
    if count == 0 {
        return (positions, call.planes.clone());
    }
    let mut walk = Walk::new(call.rust_planes(), call.config);
    for m in next - count..next {
        positions += walk.step(m, call.level(m), call.inner_edges(m));
    }
    let KeyframePlanes { y, u, v, .. } = walk.planes;
    (positions, [y, u, v])
}

/// The same positions, of a call that must leave `rust`.
fn positions(call: &Call, rust: &Planes) -> Result<Positions, String> {
    let (positions, planes) = walk(call);
    if planes != *rust {
        return Err(format!("the Rust's kernels position by position must leave what its pass leaves\n{call}"));
    }
    Ok(positions)
}

/// How many positions a call smooths that leaves `rust`; 0 if it is refused.
pub fn smoothed(call: &Call, rust: &Planes) -> Result<usize, String> {
    positions(call, rust).map(|positions| positions.smoothed)
}

/// What the library must tell, and what it tells.
fn totals(call: &Call, memory: &mut Memory) -> [Option<usize>; 2] {
    [call.rule().is_ok().then(|| walk(call).0.smoothed), call.counted(memory).1]
}

/// Compares one call with what is expected of it, and the number that it tells with the model. Answers the planes that it
/// left, and its positions.
fn same(call: &Call, expected: Outcome, memory: &mut Memory) -> Result<(Planes, Positions), String> {
    let positions = positions(call, &expected.planes)?;
    let (library, told) = call.counted(memory);
    if library != expected {
        return Err(difference(call, &expected, &library, memory));
    }
    if told == (expected.answer == 0).then_some(positions.smoothed) {
        return Ok((library.planes, positions));
    }
    let smallest = shrink(call.clone(), simpler, |call| {
        let [expected, told] = totals(call, memory);
        expected != told
    });
    let [expected, told] =
        totals(&smallest, memory).map(|number| number.map_or(String::from("none"), |n| n.to_string()));
    Err(format!("\n{smallest}\n  positions smoothed: expected {expected}, library {told}"))
}

fn count(positions: &Positions, kind: &mut Kind) {
    kind.add_cases(1);
    kind.add_class("position smoothed", positions.smoothed as u64);
    kind.add_class("position left alone", (positions.met - positions.smoothed) as u64);
    kind.add_class("smoothed though its samples stay", positions.unchanged as u64);
    kind.add_class("test that earlier positions turned", positions.turned as u64);
}

/// Whole pictures. One in six is flat: each of its positions passes, and no sample changes.
fn wholes(plan: &Plan, filter: Filter, kind: &mut Kind) -> Result<(), String> {
    let times = if plan.long { 100_000 } else { 6_000 };
    rounds(plan, times, kind, |random, memory, kind| {
        let most = random.one_of(&[2, 3, 5, 8]);
        let mut whole = picture(filter, 1 + random.below(most), 1 + random.below(most), random);
        if random.below(6) == 0 {
            whole.planes.iter_mut().for_each(|plane| plane.fill(random.byte()));
        }
        let n = whole.macroblocks();
        let after = Outcome::new(Ok(Done { count: n, next: n }), whole.unbroken());
        let (left, positions) = same(&whole, after, memory)?;
        count(&positions, kind);
        classify(&whole, &positions, left == whole.planes, kind);
        Ok(())
    })
}

fn classify(whole: &Call, positions: &Positions, stays: bool, kind: &mut Kind) {
    let mut class = |name: &str, occurs: bool| kind.add_class(name, occurs as u64);
    let Positions { met, smoothed, .. } = *positions;
    let (n, config) = (whole.macroblocks(), &whole.config);
    class("picture that stays though positions are smoothed", stays && smoothed > 0);
    class("picture of which none is smoothed", met > 0 && smoothed == 0);
    class("picture of which all are smoothed", met > 0 && smoothed == met);
    if whole.form == Form::Frame {
        class("header level 0", whole.skips());
    }
    if smoothed == 0 {
        return;
    }
    let levels: Vec<bool> = (0..n).map(|m| whole.level(m) == 0).collect();
    let inner: Vec<bool> = (0..n).map(|m| whole.inner_edges(m)).collect();
    class("normal filter", !config.simple);
    class("simple filter", config.simple);
    class("key mark", config.key_frame);
    class("no key mark", !config.key_frame);
    class("segments count", config.segmentation_enabled);
    class("deltas count", config.delta_enabled);
    class("level 0 beside others", levels.contains(&true));
    class("inner edges of some alone", inner.contains(&true) && inner.contains(&false));
    class("header level above 63", config.loop_filter_level > 63);
    class("sharpness above 7", config.sharpness_level > 7);
    class("samples outside the grid", whole.planes.iter().map(Vec::len).sum::<usize>() > 384 * n);
}

/// Every way to cut the macroblocks of a small grid into calls. The parts add up to the whole.
fn patterns(plan: &Plan, filter: Filter, kind: &mut Kind) -> Result<(), String> {
    let times = if plan.long { 2_000 } else { 100 };
    let sizes = [(1, 1), (2, 1), (1, 2), (3, 1), (1, 3), (2, 2), (3, 2), (2, 3)];
    let changes = Changes::new(filter.pass);
    rounds(plan, times, kind, |random, memory, kind| {
        for (columns, rows) in sizes {
            let (picture, n) = (picture(filter, columns, rows, random), columns * rows);
            let after = each_step(&picture);
            let whole = smoothed(&picture, &after[n])?;
            for pattern in 0..1u32 << (n - 1) {
                // A set bit halts after its macroblock.
                let halts: Vec<usize> = (1..n).filter(|m| pattern >> (m - 1) & 1 == 1).chain([n]).collect();
                let parts = in_calls(&picture, &after, &halts, &changes, random, memory, kind)?;
                if parts != whole {
                    return Err(format!("the parts must add up to {whole}, but come to {parts}\n{picture}"));
                }
            }
        }
        Ok(())
    })
}

/// The picture in calls that end at `halts`, with refused calls and calls of allowance 0 between them. Answers the sum of
/// what they tell.
fn in_calls(
    picture: &Call,
    after: &[Planes],
    halts: &[usize],
    changes: &Changes,
    random: &mut Random,
    memory: &mut Memory,
    kind: &mut Kind,
) -> Result<usize, String> {
    let (mut now, mut sum) = (picture.clone(), 0);
    let mut part = |now: &mut Call, next: usize, memory: &mut Memory, kind: &mut Kind| {
        now.allowance = next - now.start;
        let done = Done { count: now.allowance, next };
        let (planes, positions) = same(now, Outcome::new(Ok(done), after[next].clone()), memory)?;
        classify_part(now, &positions, halts.len(), kind);
        sum += positions.smoothed;
        (now.planes, now.start) = (planes, next);
        Ok::<(), String>(())
    };
    for next in halts {
        if random.below(3) == 0 {
            refused(&now, changes, random, memory)?;
            kind.add_cases(1);
            kind.add_class("refused call between", 1);
        }
        if random.below(8) == 0 {
            let start = now.start;
            part(&mut now, start, memory, kind)?;
        }
        part(&mut now, *next, memory, kind)?;
    }
    let n = now.start;
    part(&mut now, n, memory, kind)?;
    Ok(sum)
}

fn classify_part(part: &Call, positions: &Positions, calls: usize, kind: &mut Kind) {
    count(positions, kind);
    let mut class = |name: &str, occurs: bool| kind.add_class(name, occurs as u64);
    let (n, done) = (part.macroblocks(), part.allowance);
    class("whole in one call", calls == 1 && done == n);
    class("part that is smoothed", done < n && positions.smoothed > 0);
    class("part of which none is smoothed", done > 0 && done < n && positions.smoothed == 0);
    class("allowance 0", done == 0 && part.start < n);
    class("nothing left", part.start == n);
}

/// Lists of calls on larger grids, with any allowances. The parts add up to what the first k steps come to.
fn lists(plan: &Plan, filter: Filter, kind: &mut Kind) -> Result<(), String> {
    let (times, changes) = (if plan.long { 50_000 } else { 1_000 }, Changes::new(filter.pass));
    rounds(plan, times, kind, |random, memory, kind| {
        let picture = picture(filter, 1 + random.below(6), 1 + random.below(6), random);
        let (n, mut now, mut sum) = (picture.macroblocks(), picture.clone(), 0);
        for _ in 0..1 + random.below(6) {
            if random.below(3) == 0 {
                refused(&now, &changes, random, memory)?;
                kind.add_cases(1);
                kind.add_class("refused call between", 1);
            }
            now.allowance = allowance(n, random);
            let expected = now.expected();
            let next = expected.done().next;
            let (planes, positions) = same(&now, expected, memory)?;
            count(&positions, kind);
            (now.planes, now.start, sum) = (planes, next, sum + positions.smoothed);
        }
        kind.add_class("list that ends inside the grid", (now.start < n) as u64);
        kind.add_class("list that ends with the grid", (now.start == n) as u64);
        let first = Call { allowance: now.start, ..picture };
        let (steps, planes) = walk(&first);
        if (steps.smoothed, planes) != (sum, now.planes) {
            return Err(format!("the parts must add up to {}, but come to {sum}\n{first}", steps.smoothed));
        }
        Ok(())
    })
}

/// A call that is refused tells nothing.
fn refused(now: &Call, changes: &Changes, random: &mut Random, memory: &mut Memory) -> Result<(), String> {
    let mut call = now.clone();
    changes.make_refused(&mut call, random);
    same(&call, call.expected(), memory).map(|_| ())
}

/// Calls that smooth no position, and those that tell nothing.
fn nothings(plan: &Plan, filter: Filter, kind: &mut Kind) -> Result<(), String> {
    let times = if plan.long { 20_000 } else { 1_000 };
    let changes = Changes::new(filter.pass);
    rounds(plan, times, kind, |random, memory, kind| {
        let any = picture(filter, 1 + random.below(3), 1 + random.below(3), random);
        let mut calls = vec![("figure M", figure_m(filter, random)), ("zero grid", any.clone())];
        changes.some(&mut calls[1].1, random.below(3), random);
        let zero = if random.yes() { &mut calls[1].1.layout.columns } else { &mut calls[1].1.layout.rows };
        *zero = 0;
        let config = any.config.with_segmentation_enabled(true).with_segment_abs(true).with_delta_enabled(false);
        calls.push(("level 0", Call { config: config.with_segment_lf_level([0; 4]), ..any.clone() }));
        calls.push(("start at the end", Call { start: any.macroblocks(), ..any.clone() }));
        calls.push(("allowance 0", Call { allowance: 0, start: random.below(any.macroblocks()), ..any.clone() }));
        if filter.form == Form::Frame {
            calls.push(("header level 0", turned_off(&any)));
        }
        for (class, call) in calls {
            let (_, positions) = same(&call, call.expected(), memory)?;
            if positions.smoothed > 0 {
                return Err(format!("no position must be smoothed: {class}\n{call}"));
            }
            kind.add_cases(1);
            kind.add_class(class, 1);
        }
        kind.add_cases(1);
        kind.add_class("refused", 1);
        refused(&any, &changes, random, memory)
    })
}

/// Document 01, figure M: one macroblock, mode Dc, flag 0, at any level.
fn figure_m(filter: Filter, random: &mut Random) -> Call {
    let mut call = picture(filter, 1, 1, random);
    (call.lists[MODES][0], call.lists[FLAGS][0]) = (0, 0);
    call.config.loop_filter_level = random.byte();
    call
}

/// One call from any start, as drawn or damaged.
fn any_start(plan: &Plan, filter: Filter, kind: &mut Kind) -> Result<(), String> {
    let (times, changes) = (if plan.long { 200_000 } else { 4_000 }, Changes::new(filter.pass));
    rounds(plan, times, kind, |random, memory, kind| {
        let call = any_call(filter, &changes, random);
        let expected = call.expected();
        kind.add_class("refused", (expected.answer > 0) as u64);
        let (_, positions) = same(&call, expected, memory)?;
        count(&positions, kind);
        Ok(())
    })
}

/// The same for the soak.
pub fn drawer(filter: Filter) -> Draw {
    let (changes, mut memory) = (Changes::new(filter.pass), Memory::new());
    Box::new(move |random, calls| {
        let call = any_call(filter, &changes, random);
        let expected = call.expected();
        calls.add(filter.entry(), expected.answer);
        same(&call, expected, &mut memory).map(|_| ())
    })
}

/// Flat pictures with all inner edges: every position is smoothed, and their number follows from columns and rows alone.
fn full(plan: &Plan, filter: Filter, kind: &mut Kind) -> Result<(), String> {
    let mut sizes = vec![(1, 1), (2, 2), (1024, 1), (1, 1024), (1024, 4)];
    if plan.long {
        sizes.push((1024, 1024));
    }
    let (mut random, mut memory) = (Random::new(plan.seed), Memory::new());
    for (columns, rows) in sizes {
        for simple in [false, true] {
            let mut whole = on_layout(filter, tight(columns, rows), &mut random);
            whole.planes.iter_mut().for_each(|plane| plane.fill(random.byte()));
            whole.lists[MODES].fill(4);
            let config = whole.config.with_segmentation_enabled(false).with_delta_enabled(false);
            whole.config = config.with_loop_filter_level(63).with_simple(simple);
            let n = columns * rows;
            // A border has 16 positions in y and 8 in each of u and v.
            let border = if simple { 16 } else { 32 };
            let all = (if simple { 128 } else { 192 }) * n - border * (columns + rows);
            let after = Outcome::new(Ok(Done { count: n, next: n }), whole.planes.clone());
            let (_, positions) = same(&whole, after, &mut memory)?;
            if positions.smoothed != all {
                return Err(format!("{all} positions must be smoothed, not {}\n{whole}", positions.smoothed));
            }
            kind.add_cases(1);
            kind.add_class("above 65,535", (all > 65_535) as u64);
        }
    }
    Ok(())
}

/// Each frame of the repository's film whole and row by row, by the pass and by the frame call.
fn film(plan: &Plan, kind: &mut Kind) -> Result<(), String> {
    let frames: Vec<_> = film::kept().into_iter().flat_map(|stream| stream.frames).chain(film::bench()).collect();
    kind.in_threads(plan.threads, |thread, kind| {
        let (mut random, mut memory) = (Random::new(plan.seed), Memory::new());
        for frame in frames.iter().skip(thread).step_by(plan.threads) {
            kind.add_class("left alone by the RFC's decoder", frame.left_alone() as u64);
            let pass = recorded::call(frame, &mut random);
            for whole in [pass.clone(), Call { form: Form::Frame, ..pass }] {
                row_by_row(&whole, &mut memory, kind)?;
            }
        }
        Ok(())
    })
}

fn row_by_row(whole: &Call, memory: &mut Memory, kind: &mut Kind) -> Result<(), String> {
    let (n, columns) = (whole.macroblocks(), whole.layout.columns);
    let after = Outcome::new(Ok(Done { count: n, next: n }), whole.unbroken());
    let (_, positions) = same(whole, after, memory)?;
    count(&positions, kind);
    let (mut now, mut sum) = (Call { allowance: columns, ..whole.clone() }, 0);
    while now.start < n {
        let next = now.start + columns;
        let after = Outcome::new(Ok(Done { count: columns, next }), walk(&now).1);
        let (planes, part) = same(&now, after, memory)?;
        (now.planes, now.start, sum) = (planes, next, sum + part.smoothed);
        kind.add_cases(1);
    }
    if sum != positions.smoothed {
        return Err(format!("the rows must add up to {}, but come to {sum}", positions.smoothed));
    }
    Ok(())
}
