//! Every refusal of both passes, alone, with a second one and with many: the first in document 01's order comes, and
//! no lent byte changes.

use crate::Plan;
use crate::call::{Call, Filter, Form, LARGEST, Memory, PASSES, Pass};
use crate::passes::{rounds, same};
use crate::pictures::picture;
use crate::tally::{Kind, Tally};
use entries::Layout;
use rules::random::Random;

pub const CLASSES: [&str; 10] = [
    "refused: 1",
    "refused: 2",
    "refused: 3",
    "refused: 5",
    "refused: 6",
    "refused: 7",
    "zero grid",
    "accepted at the boundary",
    "two refusals at once",
    "many at once",
];

pub fn compare(plan: &Plan, tally: &mut Tally) {
    for filter in PASSES.map(Filter::from) {
        tally.run(&format!("{}, refusals", filter.entry()), &CLASSES, |kind| refusals(plan, filter, kind));
    }
}

/// Changes of an accepted call, and what each makes of it: a refusal, or 0 where the call stays accepted.
#[derive(Default)]
pub struct Changes(Vec<(u8, Change)>);

type Change = Box<dyn Fn(&mut Call, &mut Random) + Sync>;

impl Changes {
    fn add(&mut self, answer: u8, change: impl Fn(&mut Call, &mut Random) + Sync + 'static) {
        self.0.push((answer, Box::new(change)));
    }

    /// Ways to be refused, each at its boundary and far beyond it, and ways not to be.
    pub fn new(pass: Pass) -> Changes {
        let mut changes = Changes::default();
        changes.add_layouts();
        changes.add_planes();
        changes.add_lists(pass);
        changes.add(rules::START_TOO_LARGE, |call, _| call.start = after_last(call).saturating_add(1));
        changes.add(rules::START_TOO_LARGE, |call, _| call.start = 1 << 32);
        changes.add(rules::START_TOO_LARGE, |call, _| call.start = usize::MAX);
        changes.add(0, |call, _| call.start = after_last(call));
        changes.add(0, |call, _| call.allowance = 1 << 32);
        changes.add(0, |call, _| call.allowance = usize::MAX);
        changes.add(0, |call, _| call.allowance = 0);
        changes.add(0, |call, _| call.config.loop_filter_level = 255);
        changes.add(0, |call, _| call.config.sharpness_level = 255);
        changes
    }

    fn add_layouts(&mut self) {
        self.add(rules::GRID_TOO_LARGE, |call, _| call.layout.columns = 1025);
        self.add(rules::GRID_TOO_LARGE, |call, _| call.layout.rows = 1025);
        self.add(rules::GRID_TOO_LARGE, |call, _| call.layout.columns = usize::MAX);
        self.add(rules::GRID_TOO_LARGE, |call, _| call.layout.rows = usize::MAX);
        self.add(rules::GRID_TOO_LARGE, |call, _| call.layout.columns |= 1 << 60);
        self.add(rules::GRID_TOO_LARGE, |call, _| call.layout.rows |= 1 << 32);
        self.add(rules::GRID_TOO_LARGE, |call, _| (call.layout.columns, call.layout.rows) = (1 << 32, 1 << 32));
        self.add(rules::BAD_STRIDE, |call, _| call.layout.y_stride = call.layout.columns.saturating_mul(16) - 1);
        self.add(rules::BAD_STRIDE, |call, _| call.layout.uv_stride = call.layout.columns.saturating_mul(8) - 1);
        for stride in [0, 65_537, 1 << 32 | 65_536, usize::MAX] {
            self.add(rules::BAD_STRIDE, move |call, _| call.layout.y_stride = stride);
            self.add(rules::BAD_STRIDE, move |call, _| call.layout.uv_stride = stride);
        }
        // The largest grid is not refused by 1, nor the largest strides by 2.
        for (y_stride, uv_stride) in [(16_384, 8_192), (65_536, 65_536)] {
            let layout = Layout { columns: 1024, rows: 1024, y_stride, uv_stride };
            self.add(rules::SHORT_PLANE, move |call, _| call.layout = layout);
        }
    }

    /// Planes of the least length, of one sample less, and of none.
    fn add_planes(&mut self) {
        for plane in 0..3 {
            let shorten = move |call: &mut Call, len: fn(usize) -> usize| {
                let Layout { columns, rows, y_stride, uv_stride } = call.layout;
                let bounded = columns.max(rows) <= 1024 && y_stride.max(uv_stride) <= 65_536;
                let least = if bounded { call.layout.least_length(plane) } else { 1 };
                call.planes[plane].truncate(len(least));
            };
            self.add(0, move |call, _| shorten(call, |least| least));
            self.add(rules::SHORT_PLANE, move |call, _| shorten(call, |least| least - 1));
            self.add(rules::SHORT_PLANE, move |call, _| shorten(call, |_| 0));
        }
    }

    fn add_lists(&mut self, pass: Pass) {
        for (list, largest) in LARGEST.into_iter().enumerate() {
            let read = pass == Pass::Inter || list < 3;
            let refused = |number: u8| if read { number } else { 0 };
            self.add(refused(rules::WRONG_LENGTH), move |call, _| call.lists[list].push(0));
            self.add(refused(rules::WRONG_LENGTH), move |call, _| _ = call.lists[list].pop());
            self.add(refused(rules::WRONG_LENGTH), move |call, _| call.lists[list].clear());
            for more in [256, 65_536] {
                let longer = move |call: &mut Call, _: &mut Random| call.lists[list].extend(vec![0; more]);
                self.add(refused(rules::WRONG_LENGTH), longer);
            }
            match largest {
                255 => self.add(0, move |call, random| put(call, list, 255, random)),
                _ => {
                    self.add(refused(rules::BAD_ENTRY), move |call, random| put(call, list, largest + 1, random));
                    self.add(refused(rules::BAD_ENTRY), move |call, random| put(call, list, 255, random));
                }
            }
        }
    }

    /// Changes a call so that it is refused.
    pub fn make_refused(&self, call: &mut Call, random: &mut Random) {
        let lent = call.clone();
        while call.rule().is_ok() {
            *call = lent.clone();
            self.some(call, 1 + random.below(3), random);
        }
    }

    /// Makes some changes, one after the other.
    pub fn some(&self, call: &mut Call, times: usize, random: &mut Random) {
        for _ in 0..times {
            let (_, change) = &self.0[random.below(self.0.len())];
            change(call, random);
        }
    }
}

/// The start after the last macroblock.
fn after_last(call: &Call) -> usize {
    call.layout.columns.saturating_mul(call.layout.rows)
}

/// Puts an entry into a list that has any: where no step of the call reads it, or anywhere.
fn put(call: &mut Call, list: usize, entry: u8, random: &mut Random) {
    let list = &mut call.lists[list];
    let Some(last) = list.len().checked_sub(1) else {
        return;
    };
    match random.below(3) {
        // Before the start.
        0 => {
            list[0] = entry;
            call.start = call.start.max(1);
        }
        // Beyond the allowance.
        1 => {
            list[last] = entry;
            (call.start, call.allowance) = (0, call.allowance.min(last));
        }
        _ => list[random.below(last + 1)] = entry,
    }
}

pub fn refusals(plan: &Plan, filter: Filter, kind: &mut Kind) -> Result<(), String> {
    let changes = Changes::new(filter.pass);
    let zero_grids: [fn(&mut Call); 3] = [
        |call| call.layout.columns = 0,
        |call| call.layout.rows = 0,
        |call| (call.layout.columns, call.layout.rows) = (0, 0),
    ];
    let (times, many) = if plan.long { (300, 1_000_000) } else { (8, 30_000) };
    let small = |random: &mut Random| {
        let mut call = picture(filter, 1 + random.below(3), 1 + random.below(3), random);
        call.start = random.below(call.macroblocks());
        call.allowance = random.below(call.macroblocks() + 2);
        call
    };
    rounds(plan, times, kind, |random, memory, kind| {
        for (first, change) in &changes.0 {
            let mut call = small(random);
            change(&mut call, random);
            let answer = call.rule().err().unwrap_or(0);
            if answer != *first {
                return Err(format!("the rule must answer {first}, but answers {answer}\n{call}"));
            }
            refused(&call, memory, kind)?;
            for zero in zero_grids {
                let mut call = call.clone();
                zero(&mut call);
                refused(&call, memory, kind)?;
            }
            for (second, change) in &changes.0 {
                let mut call = call.clone();
                change(&mut call, random);
                let two = *first != 0 && *second != 0 && first != second;
                kind.add_class("two refusals at once", two as u64);
                refused(&call, memory, kind)?;
            }
        }
        Ok(())
    })?;
    rounds(plan, many, kind, |random, memory, kind| {
        let mut call = small(random);
        changes.some(&mut call, 3 + random.below(3), random);
        kind.add_class("many at once", 1);
        refused(&call, memory, kind)
    })
}

/// Compares a call whose refusals are in question.
fn refused(call: &Call, memory: &mut Memory, kind: &mut Kind) -> Result<(), String> {
    kind.add_cases(1);
    if call.form == Form::Frame {
        kind.add_class("refused at header level 0", (call.skips() && call.rule().is_err()) as u64);
    }
    match call.rule() {
        Err(number) => kind.add_class(&format!("refused: {number}"), 1),
        Ok(_) if call.layout.columns == 0 || call.layout.rows == 0 => kind.add_class("zero grid", 1),
        Ok(_) => kind.add_class("accepted at the boundary", 1),
    }
    same(call, call.expected(), memory).map(|_| ())
}
