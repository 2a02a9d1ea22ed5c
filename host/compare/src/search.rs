//! Error sums and the search for level and sharpness: random small pictures, damaged ones and film frames. Compared are
//! the answers of all functions, the number of candidates, every scratch sample, and that nothing else moved.

use crate::Plan;
use crate::call::{Call, LARGEST, PASSES, Pass, Planes, SIDE, Samples, run_rust};
use crate::ffi::{self, Choice, Lists, Sought, Source};
use crate::guard::{self, Guarded};
use crate::pictures::picture;
use crate::recorded;
use crate::settings;
use crate::shrink::{Cases, shrink};
use crate::soak::{Calls, Draw};
use crate::tally::{Kind, Tally};
use film::Frame;
use oracle::{InterFilterInfo, KeyframePlanes, SourcePlanes, loop_filter};
use rules::random::Random;
use std::fmt;

/// What the out-parameters and the numbers beside them hold before a call.
const NO_SUM: [u64; 3] = [0x5A5A_5A5A_5A5A_5A5A; 3];
const UNTOUCHED: Out = Out { bytes: [0xA5; 5], count: [0x5A5A_5A5A; 3] };

const SOUGHT: [Sought; 2] = [Sought::Params, Sought::Level];

/// The only counts that can occur, 19 to 30.
const COUNTS: [(&str, usize); 5] =
    [("count 19", 19), ("count 26", 26), ("count 27", 27), ("count 29", 29), ("count 30", 30)];

const CLASSES: [&str; 18] = [
    "count 19",
    "count 26",
    "count 27",
    "count 29",
    "count 30",
    "level 0",
    "level above 0",
    "other sharpness",
    "base sharpness above 7",
    "simple filter",
    "normal filter",
    "segmentation",
    "deltas",
    "source equal to the reconstruction",
    "odd size",
    "width or height 0",
    "lists of wrong length",
    "scratch outside the grid",
];

const REFUSED: [&str; 8] =
    ["refused 1", "refused 2", "refused 3", "refused 8", "refused 9", "refused 6", "not refused", "zero grid"];
const SUM_REFUSED: [&str; 6] =
    ["sum refused 1", "sum refused 2", "sum refused 3", "sum refused 8", "sum refused 9", "sum not refused"];

pub fn compare(plan: &Plan, tally: &mut Tally) {
    for pass in PASSES {
        let name = Sought::Params.entry(pass);
        tally.run(&format!("{name}, random pictures"), &CLASSES, |kind| pictures(plan, pass, kind));
        tally
            .run(&format!("{name}, damaged"), &[&REFUSED[..], &SUM_REFUSED].concat(), |kind| damaged(plan, pass, kind));
    }
    tally.run("search on kept film", &["key", "inter", "level 0", "level above 0"], |kind| on_film(plan, kind));
}

/// One call of a search. The start and the allowance of the pass are not used.
#[derive(Clone)]
pub struct Search {
    pub call: Call,
    pub source: Planes,
    pub width: usize,
    pub height: usize,
    pub strides: [usize; 3],
    pub scratch: Planes,
}

/// The out-parameters of a search among their neighbours in memory: level and sharpness, and the count.
#[derive(Clone, Copy, Debug, PartialEq)]
struct Out {
    bytes: [u8; 5],
    count: [usize; 3],
}

impl Out {
    fn of(choice: Choice) -> Out {
        let mut out = UNTOUCHED;
        (out.bytes[1], out.bytes[3], out.count[1]) = (choice.level, choice.sharpness, choice.count);
        out
    }

    fn without_sharpness(mut self) -> Out {
        self.bytes[3] = UNTOUCHED.bytes[3];
        self
    }
}

#[derive(PartialEq)]
pub struct Outcome {
    /// Of the error sum: the number of the refusal, and the sum between its neighbours in memory.
    pub sum: (u8, [u64; 3]),
    pub answer: u8,
    out: Out,
    pub scratch: Planes,
    others_stay: bool,
    /// `select_filter_level` answers and leaves the same.
    alike: bool,
}

impl Outcome {
    pub fn choice(&self) -> Choice {
        Choice { level: self.out.bytes[1], sharpness: self.out.bytes[3], count: self.out.count[1] }
    }
}

/// What is lent, each slice against unreadable pages.
pub struct Memory {
    lent: [Guarded; 14],
}

impl Memory {
    pub fn new() -> Memory {
        Memory { lent: std::array::from_fn(|_| Guarded::new(1 << 16)) }
    }
}

impl Search {
    pub fn has_grid(&self) -> bool {
        self.call.layout.has_grid()
    }

    pub fn right_lengths(&self) -> bool {
        let n = self.call.macroblocks();
        self.call.lists_read().iter().all(|list| list.len() == n)
    }

    /// Its numbers.
    pub fn source(&self) -> rules::Source {
        let [y_stride, uv_stride, _] = self.strides;
        let lengths = self.source.each_ref().map(Vec::len);
        rules::Source { width: self.width, height: self.height, y_stride, uv_stride, lengths }
    }

    /// 1, 2, 3 of each of the planes, 8, 9, in this order; or 0.
    fn refusal_of(&self, lent: &[&Planes]) -> u8 {
        let lent: Vec<_> = lent.iter().map(|planes| planes.each_ref().map(Vec::len)).collect();
        self.source().refusal(&self.call.layout, &lent).err().unwrap_or(0)
    }

    /// Document 01's conditions in the order of a search.
    pub fn refusal(&self) -> u8 {
        match self.refusal_of(&[&self.call.planes, &self.scratch]) {
            0 if self.has_grid() && self.right_lengths() && self.call.bad_entry() => rules::BAD_ENTRY,
            number => number,
        }
    }

    /// What the error sum must answer and leave.
    pub fn expected_sum(&self) -> (u8, [u64; 3]) {
        let mut out = NO_SUM;
        match self.refusal_of(&[&self.call.planes]) {
            0 => {
                out[1] = self.sum(&self.call.rust_planes());
                (0, out)
            }
            number => (number, out),
        }
    }

    /// What the library must answer and leave.
    pub fn expected(&self) -> Outcome {
        let (sum, answer, scratch) = (self.expected_sum(), self.refusal(), self.scratch.clone());
        let mut outcome = Outcome { sum, answer, out: UNTOUCHED, scratch, others_stay: true, alike: true };
        if answer == 0 {
            let (level, sharpness, count) = self.by_the_rule();
            outcome.out = Out::of(Choice { level, sharpness, count });
            let chosen = self.candidate(level, sharpness);
            self.copy_grid([&chosen.y, &chosen.u, &chosen.v], outcome.scratch.each_mut().map(Vec::as_mut_slice));
        }
        outcome
    }

    pub fn copy_grid(&self, from: [&[u8]; 3], to: [&mut [u8]; 3]) {
        for plane in 0..3 {
            let (stride, wide) = (self.call.stride(plane), SIDE[plane] * self.call.layout.columns);
            for row in 0..if self.has_grid() { SIDE[plane] * self.call.layout.rows } else { 0 } {
                let at = row * stride..row * stride + wide;
                to[plane][at.clone()].copy_from_slice(&from[plane][at]);
            }
        }
    }

    /// What the Rust's pass makes of the reconstruction. Level 0 leaves it.
    pub fn candidate(&self, level: u8, sharpness: u8) -> KeyframePlanes {
        let mut planes = self.call.rust_planes();
        if level > 0 && self.has_grid() && self.right_lengths() {
            let config = self.call.config.with_loop_filter_level(level).with_sharpness_level(sharpness);
            run_rust(self.call.pass, &mut planes, &self.call.records(), &config);
        }
        planes
    }

    /// The Rust's sum. It is 0 where the source has no samples, where the Rust may panic.
    pub fn sum(&self, planes: &KeyframePlanes) -> u64 {
        if self.width == 0 || self.height == 0 {
            return 0;
        }
        loop_filter::reconstruction_ssd(planes, &self.rust_source())
    }

    fn rust_source(&self) -> SourcePlanes<'_> {
        let [y, u, v] = self.source.each_ref().map(Vec::as_slice);
        let [y_stride, uv_stride, _] = self.strides;
        SourcePlanes { width: self.width, height: self.height, y, u, v, y_stride, uv_stride }
    }

    /// Document 01, Search: level, sharpness and count. Every sum is the Rust's.
    pub fn by_the_rule(&self) -> (u8, u8, usize) {
        rules::choice(self.call.config.sharpness_level, |level, sharpness| self.sum(&self.candidate(level, sharpness)))
    }

    /// What the Rust's own search answers, where it has one: level and sharpness.
    pub fn rust(&self) -> Option<(u8, u8)> {
        if self.width == 0 || self.height == 0 || !self.has_grid() || !self.right_lengths() {
            return None;
        }
        let records = self.call.records();
        let info = InterFilterInfo { ref_frames: &records.references, inter_modes: &records.inter_modes };
        let inter = (self.call.pass == Pass::Inter).then_some(&info);
        let (planes, source) = (self.call.rust_planes(), self.rust_source());
        let (modes, flags, config) = (&records.modes, &records.has_coeffs, &self.call.config);
        Some(loop_filter::select_filter_params(&planes, modes, flags, config, &source, inter))
    }

    /// The source with planes lent.
    pub fn lent_source<'a>(&self, planes: [&'a [u8]; 3]) -> Source<'a> {
        let [y_stride, uv_stride, _] = self.strides;
        Source { planes, width: self.width, height: self.height, y_stride, uv_stride }
    }

    /// Calls the error sum on planes and a source that are lent.
    fn call_sum(&self, planes: [&[u8]; 3], source: &Source) -> (u8, [u64; 3]) {
        let mut out = NO_SUM;
        let answer = guard::calling(self, || ffi::reconstruction_ssd(planes, &self.call.layout, source, &mut out[1]));
        (answer, out)
    }

    /// What the library's error sum answers and leaves, and whether all that is lent stays.
    fn library_sum(&self, memory: &mut Memory) -> ((u8, [u64; 3]), bool) {
        let before = [&self.call.planes[..], &self.source].concat();
        let mut lent = memory.lent.iter_mut().zip(&before).map(|(memory, bytes)| &*memory.lend(self.call.side, bytes));
        let lent: [&[u8]; 6] = std::array::from_fn(|_| lent.next().expect("six slices"));
        let [y, u, v, sy, su, sv] = lent;
        let sum = self.call_sum([y, u, v], &self.lent_source([sy, su, sv]));
        (sum, lent.iter().zip(&before).all(|(now, before)| **now == before[..]))
    }

    /// Compares the error sum alone, and answers it.
    pub fn same_sum(&self, memory: &mut Memory) -> Result<(u8, u64), String> {
        let expected = (self.expected_sum(), true);
        let library = self.library_sum(memory);
        if library == expected {
            return Ok((expected.0.0, expected.0.1[1]));
        }
        Err(format!(
            "\n{self}\n  expected: {expected:?}\n  library:  {library:?} (refusal, the sum between its neighbours, whether what is lent stays)"
        ))
    }

    /// Lends all slices to a call, which gets the scratch planes besides what it reads. Answers what the call does, the
    /// scratch planes that it leaves, and whether all others stay.
    pub fn lending<R>(
        &self,
        memory: &mut Memory,
        call: impl FnOnce(&ffi::Search, [&mut [u8]; 3]) -> R,
    ) -> (R, Planes, bool) {
        let before = [&self.call.planes[..], &self.source, &self.call.lists, &self.scratch].concat();
        let mut lent = memory.lent.iter_mut().zip(&before).map(|(memory, bytes)| memory.lend(self.call.side, bytes));
        let lent: [&mut [u8]; 14] = std::array::from_fn(|_| lent.next().expect("fourteen slices"));
        let [y, u, v, sy, su, sv, modes, segments, flags, references, inter_modes, ty, tu, tv] = lent;
        let source = self.lent_source([&*sy, &*su, &*sv]);
        let lists = Lists { modes, segments, flags, references, inter_modes };
        let Call { pass, layout, config, .. } = &self.call;
        let (planes, pass) = ([&*y, &*u, &*v], *pass);
        let search = ffi::Search { pass, planes, layout, source: &source, lists: &lists, config };
        let answer = call(&search, [&mut *ty, &mut *tu, &mut *tv]);
        let Lists { modes, segments, flags, references, inter_modes } = lists;
        let others = [y, u, v, sy, su, sv, modes, segments, flags, references, inter_modes];
        let others_stay = others.iter().zip(&before).all(|(now, before)| **now == before[..]);
        (answer, [ty, tu, tv].map(|plane| plane.to_vec()), others_stay)
    }

    fn library(&self, memory: &mut Memory) -> Outcome {
        let ((sum, answers), scratch, others_stay) = self.lending(memory, |search, [ty, tu, tv]| {
            let sum = self.call_sum(search.planes, search.source);
            let answers = SOUGHT.map(|sought| {
                let scratch = [&mut *ty, &mut *tu, &mut *tv];
                scratch.into_iter().zip(&self.scratch).for_each(|(lent, before)| lent.copy_from_slice(before));
                let mut out = UNTOUCHED;
                let ([_, level, _, sharpness, _], [_, count, _]) = (&mut out.bytes, &mut out.count);
                let scratch = [&mut *ty, &mut *tu, &mut *tv];
                let answer =
                    guard::calling(self, || ffi::select_into(search, sought, scratch, level, sharpness, count));
                (answer, out, [ty.to_vec(), tu.to_vec(), tv.to_vec()])
            });
            (sum, answers)
        });
        // The level alone: the same answer, and the same scratch planes once more.
        let [(answer, out, both), (level_answer, level_out, _)] = answers;
        let alike = (level_answer, level_out, &scratch) == (answer, out.without_sharpness(), &both);
        Outcome { sum, answer, out, scratch: both, others_stay, alike }
    }

    /// Compares, and answers what is expected.
    pub fn same(&self, memory: &mut Memory) -> Result<Outcome, String> {
        let expected = self.expected();
        if expected.answer == 0 {
            let rule = (expected.choice().level, expected.choice().sharpness);
            if self.rust().is_some_and(|rust| rust != rule) {
                return Err(format!("\n{self}\n  the rule: {rule:?}\n  the Rust: {:?}", self.rust()));
            }
        }
        let library = self.library(memory);
        if library == expected {
            return Ok(expected);
        }
        let smallest = shrink(self.clone(), Search::simpler, |search| search.library(memory) != search.expected());
        let (expected, library) = (smallest.expected(), smallest.library(memory));
        Err(format!("\n{smallest}\n  expected: {expected}\n  library: {library}"))
    }

    /// Simpler settings and smaller sizes of the source.
    pub fn simpler(&self) -> Cases<'_, Search> {
        let configs = settings::simpler(&self.call.config).into_iter();
        let configs = configs.map(|config| Search { call: Call { config, ..self.call.clone() }, ..self.clone() });
        let smaller = |n: usize| [n / 2, n.saturating_sub(1)].into_iter().filter(move |smaller| *smaller < n);
        let widths = smaller(self.width).map(|width| Search { width, ..self.clone() });
        let heights = smaller(self.height).map(|height| Search { height, ..self.clone() });
        Box::new(configs.chain(widths).chain(heights))
    }
}

impl fmt::Display for Outcome {
    fn fmt(&self, f: &mut fmt::Formatter<'_>) -> fmt::Result {
        let sums = self.scratch.each_ref().map(|plane| plane.iter().map(|sample| *sample as u64).sum::<u64>());
        write!(f, "sum {:?}; refusal {}, {:?}, scratch planes that sum to {sums:?}", self.sum, self.answer, self.out)?;
        if !self.others_stay {
            write!(f, ", and something lent for reading has changed")?;
        }
        if self.alike { Ok(()) } else { write!(f, ", and the search for the level alone differs") }
    }
}

impl fmt::Display for Search {
    fn fmt(&self, f: &mut fmt::Formatter<'_>) -> fmt::Result {
        writeln!(f, "  a search with the picture of\n{}", self.call)?;
        writeln!(f, "  source {} by {}, strides {:?}", self.width, self.height, self.strides)?;
        for (samples, stride) in self.source.iter().zip(self.strides) {
            writeln!(f, "  source: {}", Samples { samples, stride })?;
        }
        write!(f, "  scratch lengths {:?}", self.scratch.each_ref().map(Vec::len))
    }
}

/// A search that is not refused, on a small picture.
fn search(pass: Pass, random: &mut Random) -> Search {
    of_size(pass, 1 + random.below(3), 1 + random.below(3), random)
}

/// A search that is not refused. In the source some samples lie between rows.
pub fn of_size(pass: Pass, columns: usize, rows: usize, random: &mut Random) -> Search {
    let call = picture(pass, columns, rows, random);
    against_source(call, |row, random| row + random.one_of(&[0, 0, 1, 30]), random)
}

/// A search that is not refused. The source is often what some level makes of the reconstruction; its strides are
/// chosen for the samples of a row.
pub fn against_source(call: Call, stride: fn(usize, &mut Random) -> usize, random: &mut Random) -> Search {
    let layout = call.layout;
    let size = |side: usize, random: &mut Random| match random.below(12) {
        0 => 0,
        1..=5 => side,
        _ => 1 + random.below(side),
    };
    let (width, height) = (size(16 * layout.columns, random), size(16 * layout.rows, random));
    let scratch = std::array::from_fn(|plane| {
        let (least, lent) = (layout.least_length(plane), call.planes[plane].len());
        let length = random.one_of(&[least, lent, lent, least + 100]);
        (0..length).map(|_| random.byte()).collect()
    });
    let (y_stride, uv_stride) = (stride(width, random), stride(width.div_ceil(2), random));
    let strides = [y_stride, uv_stride, uv_stride];
    let mut search = Search { call, source: Default::default(), width, height, strides, scratch };
    let any = random.below(64) as u8;
    let level = random.one_of(&[0, 1, 2, 3, 61, 62, 61, 62, any, any, any, any]);
    let like = search.candidate(level, random.below(8) as u8);
    let (like, noise) = ([&like.y, &like.u, &like.v], random.one_of(&[1, 1, 2, 4, 256]));
    search.source = std::array::from_fn(|plane| {
        let ((wide, high), stride) = (search.source().visible(plane), strides[plane]);
        let length = if width == 0 || height == 0 { random.below(9) } else { (high - 1) * stride + wide };
        let sample = |i: usize| {
            let at = i / stride.max(1) * search.call.stride(plane) + i % stride.max(1);
            like[plane].get(at).map_or(0, |sample| sample.wrapping_add(random.below(noise) as u8))
        };
        (0..length).map(sample).collect()
    });
    search
}

pub fn rounds<F>(plan: &Plan, rounds: usize, kind: &mut Kind, compare: F) -> Result<(), String>
where
    F: Fn(&mut Random, &mut Memory, &mut Kind) -> Result<(), String> + Sync,
{
    kind.in_threads(plan.threads, |thread, kind| {
        let (mut random, mut memory) = (Random::new(plan.seed ^ (thread as u64 + 1) << 32), Memory::new());
        (0..rounds.div_ceil(plan.threads)).try_for_each(|_| compare(&mut random, &mut memory, kind))
    })
}

fn pictures(plan: &Plan, pass: Pass, kind: &mut Kind) -> Result<(), String> {
    rounds(plan, if plan.long { 200_000 } else { 6_000 }, kind, |random, memory, kind| {
        let mut search = search(pass, random);
        if random.below(20) == 0 {
            let list = random.below(search.call.lists_read().len());
            search.call.lists[list].push(0);
        }
        let outcome = search.same(memory)?;
        classify(&search, &outcome, kind);
        Ok(())
    })
}

/// A search as drawn or with one or two faults, and the error sum of the same pictures.
pub fn drawer(pass: Pass) -> Draw {
    let mut memory = Memory::new();
    Box::new(move |random, calls| {
        let mut search = search(pass, random);
        (0..random.below(3)).for_each(|_| damage(&mut search, random));
        draw(&search, &mut memory, calls)
    })
}

/// Compares a search and counts its calls.
pub fn draw(search: &Search, memory: &mut Memory, calls: &mut Calls) -> Result<(), String> {
    let (expected, pass) = (search.same(memory)?, search.call.pass);
    calls.add("reconstruction_ssd", expected.sum.0);
    SOUGHT.iter().for_each(|sought| calls.add(sought.entry(pass), expected.answer));
    Ok(())
}

fn classify(search: &Search, outcome: &Outcome, kind: &mut Kind) {
    let (Choice { level, sharpness, count }, config) = (outcome.choice(), &search.call.config);
    let grid = |plane: usize| SIDE[plane] * search.call.layout.columns * SIDE[plane] * search.call.layout.rows;
    let classes = [
        ("level 0", level == 0),
        ("level above 0", level > 0),
        ("other sharpness", sharpness != config.sharpness_level.min(7)),
        ("base sharpness above 7", config.sharpness_level > 7),
        ("simple filter", config.simple),
        ("normal filter", !config.simple),
        ("segmentation", config.segmentation_enabled),
        ("deltas", config.delta_enabled),
        ("source equal to the reconstruction", search.width * search.height > 0 && outcome.sum.1[1] == 0),
        ("odd size", search.width % 2 == 1 || search.height % 2 == 1),
        ("width or height 0", search.width == 0 || search.height == 0),
        ("lists of wrong length", !search.right_lengths()),
        ("scratch outside the grid", (0..3).any(|plane| search.scratch[plane].len() > grid(plane))),
    ];
    kind.add_cases(1);
    for (name, occurs) in classes.into_iter().chain(COUNTS.map(|(name, number)| (name, number == count))) {
        kind.add_class(name, occurs as u64);
    }
}

/// One or two faults in a search, each at its boundary.
fn damaged(plan: &Plan, pass: Pass, kind: &mut Kind) -> Result<(), String> {
    rounds(plan, if plan.long { 200_000 } else { 5_000 }, kind, |random, memory, kind| {
        let mut search = search(pass, random);
        for _ in 0..1 + random.below(2) {
            damage(&mut search, random);
        }
        let outcome = search.same(memory)?;
        kind.add_cases(1);
        let class = |number: u8| match number {
            0 => String::from("not refused"),
            number => format!("refused {number}"),
        };
        kind.add_class(&class(outcome.answer), 1);
        kind.add_class("zero grid", (outcome.answer == 0 && !search.has_grid()) as u64);
        kind.add_class(&format!("sum {}", class(outcome.sum.0)), 1);
        Ok(())
    })
}

/// One fault, at its boundary.
pub fn damage(search: &mut Search, random: &mut Random) {
    let (plane, layout) = (random.below(3), search.call.layout);
    let shortened = |bytes: &mut Vec<u8>, least: usize| bytes.truncate(least.saturating_sub(1));
    match random.below(10) {
        0 => search.call.layout.columns = random.one_of(&[0, 1025, usize::MAX]),
        1 => search.call.layout.rows = random.one_of(&[0, 1025, usize::MAX]),
        2 => search.call.layout.y_stride = random.one_of(&[(16 * layout.columns.min(1024)).wrapping_sub(1), 65_537]),
        3 => search.call.layout.uv_stride = random.one_of(&[(8 * layout.columns.min(1024)).wrapping_sub(1), 65_537]),
        4 if layout.columns.min(layout.rows) > 0 && layout.columns.max(layout.rows) <= 3 => {
            let planes = if random.below(2) == 0 { &mut search.call.planes } else { &mut search.scratch };
            shortened(&mut planes[plane], layout.least_length(plane));
        }
        5 => search.width = random.one_of(&[0, 16 * layout.columns.min(1024) + 1, usize::MAX]),
        6 => search.height = random.one_of(&[0, 16 * layout.rows.min(1024) + 1, usize::MAX]),
        7 => damage_source(search, random),
        8 if random.yes() => (search.call.layout.columns, search.width) = (0, 0),
        8 => (search.call.layout.rows, search.height) = (0, 0),
        _ => damage_list(search, random),
    }
}

/// A stride below the row or above the largest, or a plane one byte short.
fn damage_source(search: &mut Search, random: &mut Random) {
    let plane = random.below(3);
    if random.yes() {
        search.source[plane].pop();
        return;
    }
    let (row, stride) = (search.source().visible(plane).0, search.strides[plane]);
    let stride = random.one_of(&[row.wrapping_sub(1), 65_537, 1 << 32 | stride, usize::MAX]);
    if plane == 0 {
        search.strides[0] = stride;
    } else {
        (search.strides[1], search.strides[2]) = (stride, stride);
    }
}

/// A byte that 6 refuses, or a list of wrong length, in which 6 is not judged.
pub fn damage_list(search: &mut Search, random: &mut Random) {
    let list = random.one_of(&[0, 3, 4]);
    let (entries, bad) = (&mut search.call.lists[list], LARGEST[list] + 1);
    match random.below(4) {
        0 => {
            let more = random.one_of(&[1, 1, 256, 65_536]);
            entries.extend(vec![bad; more]);
        }
        _ if entries.is_empty() => {}
        _ => {
            let place = random.below(entries.len());
            entries[place] = random.one_of(&[bad, 255]);
        }
    }
}

/// A frame of a film against what the film's own settings leave of it.
pub fn of_frame(frame: &Frame, random: &mut Random) -> Search {
    let call = recorded::call(frame, random);
    let (width, height) = frame.visible();
    let strides = [call.layout.y_stride, call.layout.uv_stride, call.layout.uv_stride];
    let scratch = call.planes.each_ref().map(|plane| vec![0; plane.len()]);
    Search { source: call.unbroken(), call, width, height, strides, scratch }
}

/// Every frame of the kept film.
fn on_film(plan: &Plan, kind: &mut Kind) -> Result<(), String> {
    let frames: Vec<_> = film::kept().into_iter().flat_map(|stream| stream.frames).collect();
    let step = if plan.long { 1 } else { 2 };
    kind.in_threads(plan.threads, |thread, kind| {
        let (mut random, mut memory) = (Random::new(plan.seed), Memory::new());
        for frame in frames.iter().step_by(step).skip(thread).step_by(plan.threads) {
            let search = of_frame(frame, &mut random);
            let level = search.same(&mut memory)?.choice().level;
            kind.add_cases(1);
            kind.add_class(if search.call.pass == Pass::Key { "key" } else { "inter" }, 1);
            kind.add_class(if level == 0 { "level 0" } else { "level above 0" }, 1);
        }
        Ok(())
    })
}
