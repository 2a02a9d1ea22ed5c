//! The four kernels on random and extreme windows, at every base around the ends of slices of 0 to 20 bytes. Whether a
//! test passed, which the Rust does not tell, is held to document 01's test (`oracle::positions`).

use crate::guard::{self, Guarded, SIDES, Side};
use crate::shrink::{Cases, shrink, smaller_bytes};
use crate::soak::Draw;
use crate::tally::{Kind, Tally};
use crate::{Plan, ffi};
use oracle::{loop_filter, opened, positions};
use rules::random::Random;
use std::fmt;
use std::panic;

const LONGEST: usize = 20;
/// What the adjustment and the numbers beside it hold before a call.
pub const UNTOUCHED: i32 = 0x5A5A_5A5A;
/// What the byte for the test and those beside it hold before a call.
pub const NOT_TOLD: u8 = 0x5A;

const ADJUST_CLASSES: [&str; 3] = ["outer taps", "no outer taps", "refused"];
const SIMPLE_CLASSES: [&str; 5] =
    ["filtered", "not filtered", "refused", "edge test at its limit", "edge test one above"];
const NORMAL_CLASSES: [&str; 11] = [
    "filtered",
    "not filtered",
    "refused",
    "high variance",
    "low variance",
    "edge test at its limit",
    "edge test one above",
    "neighbours at their limit",
    "neighbours one above",
    "variance at its threshold",
    "variance one above",
];

/// The C functions, their classes, and how each is drawn.
pub const ENTRIES: [(&str, &[&str], KernelOf); 4] = [
    ("common_adjust", &ADJUST_CLASSES, |_, random| Kernel::Adjust(random.below(2) == 1)),
    ("simple_segment", &SIMPLE_CLASSES, |taps, random| Kernel::Simple(Limits::near(taps, random).edge)),
    ("subblock_filter", &NORMAL_CLASSES, |taps, random| Kernel::Subblock(Limits::near(taps, random))),
    ("mb_filter", &NORMAL_CLASSES, |taps, random| Kernel::Macroblock(Limits::near(taps, random))),
];

pub fn compare(plan: &Plan, tally: &mut Tally) {
    let (rounds, cases) = if plan.long { (2_000, 100_000_000) } else { (40, 5_000_000) };
    for (name, classes, kernel) in ENTRIES {
        tally.run(name, classes, |kind| {
            let mut memory = Guarded::new(LONGEST);
            boundaries(kernel, rounds, &mut Random::new(plan.seed), &mut memory, kind)?;
            kind.in_threads(plan.threads, |thread, kind| {
                let mut memory = Guarded::new(LONGEST);
                let mut random = Random::new(plan.seed ^ (thread as u64 + 1) << 32);
                let share = cases / plan.threads;
                (0..share).try_for_each(|_| {
                    let case = Case::fitting(kernel, &mut random);
                    case.compare(&mut memory, kind)
                })
            })
        });
    }
}

/// A call of each kernel, on both sides of memory. One window in four is anywhere and need not fit.
pub fn drawer() -> Draw {
    let mut memory = Guarded::new(LONGEST);
    Box::new(move |random, calls| {
        ENTRIES.into_iter().try_for_each(|(name, _, kernel)| {
            let case = if random.below(4) > 0 { Case::fitting(kernel, random) } else { Case::anywhere(kernel, random) };
            SIDES.iter().for_each(|_| calls.add(name, if case.fits() { 0 } else { rules::NO_WINDOW }));
            case.check(&mut memory)
        })
    })
}

/// Chooses a kernel and its limits for the samples p3 to q3.
pub type KernelOf = fn(&[u8; 8], &mut Random) -> Kernel;

/// Every base from 0 to past the end and near large powers of 2, on every length. Where the library must refuse, the
/// Rust panics.
fn boundaries(
    kernel: KernelOf,
    rounds: usize,
    random: &mut Random,
    memory: &mut Guarded,
    kind: &mut Kind,
) -> Result<(), String> {
    let far = [1 << 31, 1 << 32, isize::MAX as usize, usize::MAX - LONGEST];
    let far = far.into_iter().flat_map(|first| (0..=LONGEST).map(move |step| first + step));
    let bases: Vec<usize> = (0..=LONGEST + 2).chain(far).collect();
    for len in 0..=LONGEST {
        for &base in &bases {
            for round in 0..rounds {
                let case = Case::at(kernel, len, base, random);
                if round == 0 && case.rust_panics() == case.fits() {
                    return Err(format!("the Rust must panic just where the window does not fit\n{case}"));
                }
                case.compare(memory, kind)?;
            }
        }
    }
    Ok(())
}

#[derive(Clone, Copy)]
pub enum Kernel {
    /// `common_adjust`, with or without outer taps.
    Adjust(bool),
    /// `simple_segment` with its edge limit.
    Simple(u8),
    /// `subblock_filter`.
    Subblock(Limits),
    /// `mb_filter`.
    Macroblock(Limits),
}

impl Kernel {
    pub fn width(&self) -> usize {
        match self {
            Kernel::Adjust(_) | Kernel::Simple(_) => 4,
            Kernel::Subblock(_) | Kernel::Macroblock(_) => 8,
        }
    }

    /// Where the window fits. Otherwise it panics.
    pub fn call_rust(&self, seg: &mut [u8], base: usize, adjustment: &mut i32) {
        match *self {
            Kernel::Adjust(outer) => *adjustment = loop_filter::common_adjust(outer, seg, base),
            Kernel::Simple(edge) => loop_filter::simple_segment(edge, seg, base),
            Kernel::Subblock(Limits { threshold, interior, edge }) => {
                loop_filter::subblock_filter(threshold, interior, edge, seg, base)
            }
            Kernel::Macroblock(Limits { threshold, interior, edge }) => {
                loop_filter::mb_filter(threshold, interior, edge, seg, base)
            }
        }
    }

    pub fn call_library(&self, seg: &mut [u8], base: usize, adjustment: &mut i32, passed: &mut u8) -> u8 {
        match *self {
            Kernel::Adjust(outer) => ffi::common_adjust(outer, seg, base, adjustment),
            Kernel::Simple(edge) => ffi::simple_segment(edge, seg, base, passed),
            Kernel::Subblock(Limits { threshold, interior, edge }) => {
                ffi::subblock_filter(threshold, interior, edge, seg, base, passed)
            }
            Kernel::Macroblock(Limits { threshold, interior, edge }) => {
                ffi::mb_filter(threshold, interior, edge, seg, base, passed)
            }
        }
    }

    /// What the kernel tells of its test on a window: 1 if it passes, else 0. `common_adjust` has none, and tells nothing.
    pub fn passed(&self, window: &[u8]) -> u8 {
        match self {
            Kernel::Adjust(_) => NOT_TOLD,
            Kernel::Simple(edge) => positions::passes(window, *edge, 0) as u8,
            Kernel::Subblock(limits) | Kernel::Macroblock(limits) => {
                positions::passes(window, limits.edge, limits.interior) as u8
            }
        }
    }

    /// Whether the window fits into a slice of `len` bytes.
    pub fn fits(&self, len: usize, base: usize) -> bool {
        base.checked_add(self.width()).is_some_and(|end| end <= len)
    }

    fn simpler(&self) -> Vec<Kernel> {
        match *self {
            Kernel::Adjust(outer) => [Kernel::Adjust(false)].into_iter().filter(|_| outer).collect(),
            Kernel::Simple(edge) => smaller_bytes(edge).map(Kernel::Simple).collect(),
            Kernel::Subblock(limits) => limits.simpler().map(Kernel::Subblock).collect(),
            Kernel::Macroblock(limits) => limits.simpler().map(Kernel::Macroblock).collect(),
        }
    }

    /// The same kernel with limits at the numbers that decide on a window, or one below.
    fn deciding(&self, window: &[u8]) -> Vec<Kernel> {
        let limits = || Limits::deciding(Test::of(&eight(window)));
        match self {
            Kernel::Adjust(_) => Vec::new(),
            Kernel::Simple(_) => limits().map(|limits| Kernel::Simple(limits.edge)).collect(),
            Kernel::Subblock(_) => limits().map(Kernel::Subblock).collect(),
            Kernel::Macroblock(_) => limits().map(Kernel::Macroblock).collect(),
        }
    }
}

impl fmt::Display for Kernel {
    fn fmt(&self, f: &mut fmt::Formatter<'_>) -> fmt::Result {
        match self {
            Kernel::Adjust(outer) => write!(f, "common_adjust, use_outer_taps {outer}"),
            Kernel::Simple(edge) => write!(f, "simple_segment, edge_limit {edge}"),
            Kernel::Subblock(limits) => write!(f, "subblock_filter, {limits}"),
            Kernel::Macroblock(limits) => write!(f, "mb_filter, {limits}"),
        }
    }
}

#[derive(Clone, Copy)]
pub struct Limits {
    pub threshold: u8,
    pub interior: u8,
    pub edge: u8,
}

impl Limits {
    /// Limits at, one below and one above the numbers that decide, and sometimes any.
    fn near(taps: &[u8; 8], random: &mut Random) -> Limits {
        let test = Test::of(taps);
        let mut near = |decides: u32| {
            let at = decides.min(255) as u8;
            match random.below(8) {
                0 => at.saturating_sub(1),
                1 => at.saturating_add(1),
                2 => 255,
                3 => random.byte(),
                4 => random.one_of(&[0, 1, 63, 127, 128, 254]),
                _ => at,
            }
        };
        let edge = near(test.edge);
        let interior = near(test.neighbours);
        Limits { threshold: near(test.variance), interior, edge }
    }

    /// Limits at the numbers that decide, and each of them one below.
    fn deciding(test: Test) -> impl Iterator<Item = Limits> {
        let [edge, interior, threshold] =
            [test.edge, test.neighbours, test.variance].map(|decides| decides.min(255) as u8);
        (0..8).map(move |below| Limits {
            edge: edge.saturating_sub(below & 1),
            interior: interior.saturating_sub(below >> 1 & 1),
            threshold: threshold.saturating_sub(below >> 2),
        })
    }

    fn simpler(self) -> impl Iterator<Item = Limits> {
        let Limits { threshold, interior, edge } = self;
        let thresholds = smaller_bytes(threshold).map(move |threshold| Limits { threshold, ..self });
        let interiors = smaller_bytes(interior).map(move |interior| Limits { interior, ..self });
        let edges = smaller_bytes(edge).map(move |edge| Limits { edge, ..self });
        thresholds.chain(interiors).chain(edges)
    }
}

impl fmt::Display for Limits {
    fn fmt(&self, f: &mut fmt::Formatter<'_>) -> fmt::Result {
        let Limits { threshold, interior, edge } = self;
        write!(f, "hev_threshold {threshold}, interior_limit {interior}, edge_limit {edge}")
    }
}

/// The numbers that the tests of a window p3 to q3 hold against their limits.
pub struct Test {
    pub edge: u32,
    neighbours: u32,
    variance: u32,
}

impl Test {
    pub fn of(taps: &[u8; 8]) -> Test {
        let difference = |a: usize, b: usize| taps[a].abs_diff(taps[b]) as u32;
        let variance = difference(2, 3).max(difference(4, 5));
        let outer = [(0, 1), (1, 2), (5, 6), (6, 7)].map(|(a, b)| difference(a, b));
        Test {
            edge: 2 * difference(3, 4) + difference(2, 5) / 2,
            neighbours: outer.into_iter().fold(variance, u32::max),
            variance,
        }
    }
}

/// A slice of at most `LONGEST` bytes.
#[derive(Clone, Copy, PartialEq)]
struct Slice {
    bytes: [u8; LONGEST],
    len: usize,
}

impl Slice {
    fn of(bytes: &[u8]) -> Slice {
        let mut slice = Slice { bytes: [0; LONGEST], len: bytes.len() };
        slice.bytes[..bytes.len()].copy_from_slice(bytes);
        slice
    }

    fn get(&self) -> &[u8] {
        &self.bytes[..self.len]
    }
}

/// One call of a kernel.
#[derive(Clone, Copy)]
pub struct Case {
    kernel: Kernel,
    seg: Slice,
    base: usize,
}

/// What a call answers and leaves.
#[derive(Clone, Copy, PartialEq)]
struct Answer {
    refusal: u8,
    /// The adjustment between its neighbours in memory, and whether the test passed likewise.
    adjustment: [i32; 3],
    passed: [u8; 3],
    seg: Slice,
}

impl Case {
    /// A slice that is just the window.
    pub fn of_window(kernel: Kernel, window: &[u8]) -> Case {
        Case { kernel, seg: Slice::of(window), base: 0 }
    }

    /// A random slice of `len` bytes. Its window, if it fits at `base`, is one of [`window`].
    fn at(kernel: KernelOf, len: usize, base: usize, random: &mut Random) -> Case {
        let taps = window(random);
        let kernel = kernel(&taps, random);
        let width = kernel.width();
        let mut bytes = [0; LONGEST];
        bytes.iter_mut().for_each(|byte| *byte = random.byte());
        let mut case = Case { kernel, seg: Slice::of(&bytes[..len]), base };
        if case.fits() {
            case.seg.bytes[base..base + width].copy_from_slice(middle(&taps, width));
        }
        case
    }

    /// A window that fits somewhere into a slice.
    fn fitting(kernel: KernelOf, random: &mut Random) -> Case {
        let len = 8 + random.below(LONGEST - 7);
        let base = random.below(len - 7);
        Case::at(kernel, len, base, random)
    }

    /// At any base near the ends of a slice of any length, or far beyond it.
    fn anywhere(kernel: KernelOf, random: &mut Random) -> Case {
        let (near, far) = (random.below(LONGEST + 3), random.word() as usize);
        let base = random.one_of(&[near, near, near, far, 1 << 32 | near, usize::MAX - near]);
        Case::at(kernel, random.below(LONGEST + 1), base, random)
    }

    fn fits(&self) -> bool {
        self.kernel.fits(self.seg.len, self.base)
    }

    /// The Rust's answer, with whether the test passes; refusal 4 and nothing written where its window does not fit.
    fn rust(&self) -> Answer {
        let mut answer = Answer { refusal: 0, adjustment: [UNTOUCHED; 3], passed: [NOT_TOLD; 3], seg: self.seg };
        if self.fits() {
            answer.passed[1] = self.kernel.passed(&self.seg.bytes[self.base..self.base + self.kernel.width()]);
            self.kernel.call_rust(&mut answer.seg.bytes[..self.seg.len], self.base, &mut answer.adjustment[1]);
        } else {
            answer.refusal = rules::NO_WINDOW;
        }
        answer
    }

    fn library(&self, memory: &mut Guarded, side: Side) -> Answer {
        let lent = memory.lend(side, self.seg.get());
        let (mut adjustment, mut passed) = ([UNTOUCHED; 3], [NOT_TOLD; 3]);
        let what = format_args!("{self}\n  with {side}");
        let (told, test) = (&mut adjustment[1], &mut passed[1]);
        let refusal = guard::calling(&what, || self.kernel.call_library(lent, self.base, told, test));
        Answer { refusal, adjustment, passed, seg: Slice::of(lent) }
    }

    fn rust_panics(&self) -> bool {
        let hook = panic::take_hook();
        panic::set_hook(Box::new(|_| ()));
        let mut seg = self.seg;
        let seg = &mut seg.bytes[..self.seg.len];
        let outcome = panic::catch_unwind(panic::AssertUnwindSafe(|| self.kernel.call_rust(seg, self.base, &mut 0)));
        panic::set_hook(hook);
        outcome.is_err()
    }

    fn differs(&self, memory: &mut Guarded) -> bool {
        let rust = self.rust();
        SIDES.iter().any(|side| self.library(memory, *side) != rust)
    }

    fn compare(&self, memory: &mut Guarded, kind: &mut Kind) -> Result<(), String> {
        kind.add_cases(1);
        self.classify(kind);
        self.check(memory)
    }

    fn check(&self, memory: &mut Guarded) -> Result<(), String> {
        if self.differs(memory) {
            return Err(self.difference(memory));
        }
        Ok(())
    }

    /// Describes the smallest input found that differs, and both answers.
    pub fn difference(self, memory: &mut Guarded) -> String {
        let case = shrink(self, Case::simpler, |case| case.differs(memory));
        let rust = case.rust();
        let differing = |side: &Side| (*side, case.library(memory, *side));
        let found = SIDES.iter().map(differing).find(|(_, library)| *library != rust);
        let (side, library) = found.expect("the case differs");
        format!("\n{case}\n  with {side}\n  Rust:    {rust}\n  library: {library}")
    }

    /// Smaller slices, windows nearer to 0, and smaller limits.
    fn simpler(&self) -> Cases<'_, Case> {
        let (bytes, width) = (self.seg.get(), self.kernel.width());
        let mut simpler = Vec::new();
        if self.fits() {
            let end = self.base + width;
            if self.base > 0 {
                simpler.push(Case { seg: Slice::of(&bytes[1..]), base: self.base - 1, ..*self });
            }
            if end < bytes.len() {
                simpler.push(Case { seg: Slice::of(&bytes[..bytes.len() - 1]), ..*self });
            }
        } else if !bytes.is_empty() {
            let shorter = Slice::of(&bytes[1..]);
            simpler.push(Case { seg: shorter, base: self.base.saturating_sub(1), ..*self });
            simpler.push(Case { seg: shorter, ..*self });
        }
        simpler.extend(self.kernel.simpler().into_iter().map(|kernel| Case { kernel, ..*self }));
        // All samples, a run of them from either end, or one become smaller.
        let runs = (0..bytes.len()).flat_map(|i| [0..bytes.len() - i, i..bytes.len(), i..i + 1]);
        for run in runs {
            let lowest = bytes[run.clone()].iter().copied().min().unwrap_or(0);
            for smaller in smaller_bytes(lowest) {
                let mut seg = self.seg;
                seg.bytes[run.clone()].iter_mut().for_each(|byte| *byte -= lowest - smaller);
                simpler.push(Case { seg, ..*self });
                if self.fits() {
                    let kernels = self.kernel.deciding(&seg.bytes[self.base..self.base + width]);
                    simpler.extend(kernels.into_iter().map(|kernel| Case { kernel, seg, ..*self }));
                }
            }
        }
        Box::new(simpler.into_iter())
    }

    fn classify(&self, kind: &mut Kind) {
        let mut class = |name: &str, occurs: bool| kind.add_class(name, occurs as u64);
        class("refused", !self.fits());
        if !self.fits() {
            return;
        }
        let limits = match self.kernel {
            Kernel::Adjust(outer) => {
                return class(if outer { "outer taps" } else { "no outer taps" }, true);
            }
            Kernel::Simple(edge) => Limits { threshold: 255, interior: 255, edge },
            Kernel::Subblock(limits) | Kernel::Macroblock(limits) => limits,
        };
        let taps = eight(&self.seg.bytes[self.base..self.base + self.kernel.width()]);
        let filtered = opened::filter_yes(limits.interior, limits.edge, taps);
        let test = Test::of(&taps);
        let edge = limits.edge as u32;
        let interior = limits.interior as u32;
        let threshold = limits.threshold as u32;
        class("filtered", filtered);
        class("not filtered", !filtered);
        class("edge test at its limit", filtered && test.edge == edge);
        class("edge test one above", test.edge == edge + 1 && test.neighbours <= interior);
        if self.kernel.width() == 8 {
            let high = opened::hev(limits.threshold, taps);
            class("high variance", filtered && high);
            class("low variance", filtered && !high);
            class("neighbours at their limit", filtered && test.neighbours == interior);
            class("neighbours one above", test.neighbours == interior + 1 && test.edge <= edge);
            class("variance at its threshold", filtered && test.variance == threshold);
            class("variance one above", filtered && test.variance == threshold + 1);
        }
    }
}

impl fmt::Display for Case {
    fn fmt(&self, f: &mut fmt::Formatter<'_>) -> fmt::Result {
        write!(f, "  {}, base {}, slice {:?}", self.kernel, self.base, self.seg.get())
    }
}

impl fmt::Display for Answer {
    fn fmt(&self, f: &mut fmt::Formatter<'_>) -> fmt::Result {
        write!(f, "answers {}, leaves {:?}", self.refusal, self.seg.get())?;
        match self.adjustment {
            [UNTOUCHED, UNTOUCHED, UNTOUCHED] => {}
            [UNTOUCHED, adjustment, UNTOUCHED] => write!(f, ", adjustment {adjustment}")?,
            beside => write!(f, ", adjustment and the numbers beside it {beside:?}")?,
        }
        match self.passed {
            [NOT_TOLD, NOT_TOLD, NOT_TOLD] => Ok(()),
            [NOT_TOLD, passed, NOT_TOLD] => write!(f, ", passed {passed}"),
            beside => write!(f, ", passed and the bytes beside it {beside:?}"),
        }
    }
}

/// The window p3 to q3, with p3 and p2 equal to p1, and q2 and q3 to q1, if it has only four samples.
pub fn eight(window: &[u8]) -> [u8; 8] {
    match *window {
        [p1, p0, q0, q1] => [p1, p1, p1, p0, q0, q1, q1, q1],
        _ => window.try_into().expect("four or eight samples"),
    }
}

/// The inner `width` of eight samples.
pub fn middle(taps: &[u8; 8], width: usize) -> &[u8] {
    let first = (8 - width) / 2;
    &taps[first..first + width]
}

/// Samples p3 to q3: any, extreme, or within a spread and with one or two steps between them.
pub fn window(random: &mut Random) -> [u8; 8] {
    const EXTREMES: [u8; 10] = [0, 1, 2, 64, 127, 128, 129, 253, 254, 255];
    match random.below(8) {
        0 => [0; 8].map(|_| random.byte()),
        1 => [0; 8].map(|_| random.one_of(&EXTREMES)),
        _ => {
            let spread = random.one_of(&[1, 2, 3, 5, 9, 17, 40]);
            let any = random.byte() as i32;
            let first = random.one_of(&[0, 255, any, any]);
            let mut taps = [0; 8].map(|_| first + random.below(spread) as i32);
            for _ in 0..1 + random.below(2) {
                let height = random.one_of(&[1, 2, 4, 8, 20, 50, 90, 255]);
                let height = random.below(2 * height + 1) as i32 - height as i32;
                let from = random.one_of(&[1, 2, 3, 4, 4, 4, 5, 6, 7]);
                taps[from..].iter_mut().for_each(|tap| *tap += height);
            }
            taps.map(|tap| tap.clamp(0, 255) as u8)
        }
    }
}
