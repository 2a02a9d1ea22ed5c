//! Lists of calls on one picture, accepted and refused ones mixed (document 01, Halting rule): what they leave, which
//! samples are final after them, and that these stay through further calls, whatever stands in for the samples and
//! entries of macroblocks not yet begun.

use crate::Plan;
use crate::call::{Call, Done, Filter, Form, Memory, Outcome, PASSES, Planes, SIDE};
use crate::guard::SIDES;
use crate::passes::{each_step, rounds, same};
use crate::pictures::{entries, picture, planes};
use crate::reach::reached;
use crate::refusals::Changes;
use crate::tally::{Kind, Tally};
use rules::random::Random;

pub const CLASSES: [&str; 12] = [
    "accepted call",
    "refused call",
    "refused call on other planes",
    "list without an accepted call",
    "list that ends inside the grid",
    "list that ends with the grid",
    "further call",
    "refused further call",
    "final sample that the list changed",
    "sample not final that changes later",
    "of a macroblock begun before",
    "entry put in that changes a sample",
];

pub fn compare(plan: &Plan, tally: &mut Tally) {
    for filter in PASSES.map(Filter::from) {
        tally.run(&format!("{}, lists of calls", filter.entry()), &CLASSES, |kind| lists(plan, filter, kind));
    }
}

pub fn lists(plan: &Plan, filter: Filter, kind: &mut Kind) -> Result<(), String> {
    let (times, changes) = (if plan.long { 200_000 } else { 4_000 }, Changes::new(filter.pass));
    rounds(plan, times, kind, |random, memory, kind| list(filter, &changes, random, memory, kind))
}

fn list(
    filter: Filter,
    changes: &Changes,
    random: &mut Random,
    memory: &mut Memory,
    kind: &mut Kind,
) -> Result<(), String> {
    let most = random.one_of(&[1, 2, 3, 3, 4, 6]);
    let picture = picture(filter, 1 + random.below(most), 1 + random.below(most), random);
    let (n, unbroken, after) = (picture.macroblocks(), picture.unbroken(), each_step(&picture));

    // The picture, with the planes and the start last left.
    let mut now = picture.clone();
    let (mut allowances, mut counts) = (0u128, 0);
    let mut accepted = false;
    for _ in 0..random.below(7) {
        if random.below(3) == 0 {
            refuse(&now, changes, random, memory, kind, "refused call")?;
            continue;
        }
        accepted = true;
        now.allowance = allowance(n, random);
        allowances += now.allowance as u128;
        let count = now.allowance.min(n - now.start);
        let next = now.start + count;
        kind.add_cases(1);
        kind.add_class("accepted call", 1);
        now.planes = same(&now, Outcome::new(Ok(Done { count, next }), after[next].clone()), memory)?;
        now.start = next;
        counts += count;
    }
    let k = now.start;
    kind.add_class("list without an accepted call", !accepted as u64);
    kind.add_class("list that ends inside the grid", (accepted && k < n) as u64);
    kind.add_class("list that ends with the grid", (k == n) as u64);
    if filter.form == Form::Frame {
        classify_frame_calls(&picture, k, kind);
    }
    if counts != k || k as u128 != allowances.min(n as u128) || now.planes != after[k] {
        return Err(format!("a list of calls must leave what the first {k} macroblocks leave\n{picture}"));
    }
    if k == n && now.planes != unbroken {
        return Err(format!("a list of calls that ends with the grid must leave what one pass leaves\n{picture}"));
    }
    further(&picture, now, &unbroken, changes, random, memory, kind)
}

/// Counts what a list of frame calls that did k macroblocks shows.
fn classify_frame_calls(picture: &Call, k: usize, kind: &mut Kind) {
    let skipped = picture.skips() && k > 0;
    let filters = || Call { form: Form::Pass, ..picture.clone() }.unbroken() != picture.planes;
    kind.add_class("list at header level 0 that did macroblocks", skipped as u64);
    kind.add_class("list at header level 0 where the pass filters", (skipped && filters()) as u64);
}

pub fn allowance(n: usize, random: &mut Random) -> usize {
    let (some, few) = (random.below(n + 1), random.below(n / 4 + 1));
    random.one_of(&[0, 1, 1, few, few, few, some, some, n, usize::MAX])
}

/// Calls after a list that left `now`. Before each, other samples and entries stand in for those of the macroblocks
/// that the list did not begin.
fn further(
    picture: &Call,
    mut now: Call,
    unbroken: &Planes,
    changes: &Changes,
    random: &mut Random,
    memory: &mut Memory,
    kind: &mut Kind,
) -> Result<(), String> {
    let (n, k) = (picture.macroblocks(), now.start);
    let not_final = reached(&picture.layout, k..n);
    let check_final = |now: &Call, what: &str| {
        let differs = |plane: usize| {
            grid(picture, plane).find(|i| !not_final[plane][*i] && now.planes[plane][*i] != unbroken[plane][*i])
        };
        match (0..3).find_map(|plane| differs(plane).map(|i| (plane, i))) {
            None => Ok(()),
            Some((plane, i)) => {
                let (row, column) = (i / picture.stride(plane), i % picture.stride(plane));
                Err(format!(
                    "{what}, plane {plane}, row {row}, column {column} is not final after {k} macroblocks\n{picture}"
                ))
            }
        }
    };
    check_final(&now, "after a list of calls")?;
    let changed = |plane: usize, i: usize| now.planes[plane][i] != picture.planes[plane][i];
    let finals = (0..3).any(|plane| grid(picture, plane).any(|i| !not_final[plane][i] && changed(plane, i)));
    kind.add_class("final sample that the list changed", (finals && k < n) as u64);
    for _ in 0..1 + random.below(4) {
        put_in(&mut now, k, random);
        if random.below(3) == 0 {
            refuse(&now, changes, random, memory, kind, "refused further call")?;
        }
        now.allowance = allowance(n, random);
        let expected = now.expected();
        let done = expected.done();
        kind.add_cases(1);
        kind.add_class("further call", 1);
        classify(&now, &expected, picture, k, kind);
        now.planes = same(&now, expected, memory)?;
        now.start = done.next;
        check_final(&now, "after a further call")?;
    }
    Ok(())
}

/// Indices of the samples of a plane that lie in the grid.
fn grid(picture: &Call, plane: usize) -> impl Iterator<Item = usize> {
    let (stride, side) = (picture.stride(plane), SIDE[plane]);
    let (columns, rows) = (side * picture.layout.columns, side * picture.layout.rows);
    (0..rows).flat_map(move |row| (0..columns).map(move |column| row * stride + column))
}

/// The macroblock of a sample.
fn macroblock(picture: &Call, plane: usize, index: usize) -> usize {
    let (row, column) = (index / picture.stride(plane), index % picture.stride(plane));
    row / SIDE[plane] * picture.layout.columns + column / SIDE[plane]
}

/// Other samples and entries for the macroblocks from `k` on.
fn put_in(now: &mut Call, k: usize, random: &mut Random) {
    let n = now.macroblocks();
    now.side = random.one_of(&SIDES);
    let others = planes(&now.layout, random);
    for (plane, other) in others.iter().enumerate() {
        let later: Vec<usize> = grid(now, plane).filter(|i| macroblock(now, plane, *i) >= k).collect();
        later.into_iter().for_each(|i| now.planes[plane][i] = other[i]);
    }
    for list in 0..now.lists_read().len() {
        let others = entries(list, n, random);
        now.lists[list][k..].copy_from_slice(&others[k..]);
    }
}

/// A call that is refused: on the planes last left, or on others. It moves nothing, and the list goes on as before.
fn refuse(
    now: &Call,
    changes: &Changes,
    random: &mut Random,
    memory: &mut Memory,
    kind: &mut Kind,
    class: &str,
) -> Result<(), String> {
    let mut call = now.clone();
    if random.below(3) == 0 {
        call.planes = planes(&call.layout, random);
        kind.add_class("refused call on other planes", 1);
    }
    changes.make_refused(&mut call, random);
    kind.add_cases(1);
    kind.add_class(class, 1);
    same(&call, call.expected(), memory).map(|_| ())
}

/// Counts what a further call shows.
fn classify(now: &Call, expected: &Outcome, picture: &Call, k: usize, kind: &mut Kind) {
    let changes = |plane: usize| grid(now, plane).filter(move |i| now.planes[plane][*i] != expected.planes[plane][*i]);
    let later = (0..3).any(|plane| changes(plane).next().is_some());
    let begun = (0..3).any(|plane| changes(plane).any(|i| macroblock(now, plane, i) < k));
    let with_first_entries = Call { lists: picture.lists.clone(), ..now.clone() }.expected();
    kind.add_class("sample not final that changes later", later as u64);
    kind.add_class("of a macroblock begun before", begun as u64);
    kind.add_class("entry put in that changes a sample", (with_first_entries.planes != expected.planes) as u64);
}
