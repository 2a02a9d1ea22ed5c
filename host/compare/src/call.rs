//! One call of a pass: what document 01 says of it, what the Rust makes of it, and what the library does.

use crate::ffi::{self, Layout, Lists};
use crate::guard::{self, Guarded, Side};
use entries::bytes::{self, Records};
use oracle::{FrameFilterConfig, KeyframePlanes, loop_filter};
use std::fmt;

pub use entries::{Form, Pass};
pub use rules::{LARGEST, SIDE};

/// y, u and v.
pub type Planes = [Vec<u8>; 3];

/// What the out-parameters and the numbers beside them hold before a call.
const UNTOUCHED: usize = 0x5A5A_5A5A_5A5A_5A5A;

pub const PASSES: [Pass; 2] = [Pass::Key, Pass::Inter];

/// What filters a frame: a pass, or the frame call beside it.
#[derive(Clone, Copy, Debug, PartialEq)]
pub struct Filter {
    pub form: Form,
    pub pass: Pass,
}

impl From<Pass> for Filter {
    fn from(pass: Pass) -> Filter {
        Filter { form: Form::Pass, pass }
    }
}

impl Filter {
    pub fn frame_call(pass: Pass) -> Filter {
        Filter { form: Form::Frame, pass }
    }

    /// The name of its C function after `vp8lf_`.
    pub fn entry(self) -> &'static str {
        match self.form {
            Form::Pass => self.pass.entry(),
            Form::Frame => self.pass.frame_call(),
        }
    }
}

/// The lists of a picture: modes, segments, flags, references, inter modes.
pub type ByteLists = [Vec<u8>; 5];
pub const LIST_NAMES: [&str; 5] = ["modes", "segments", "flags", "references", "inter modes"];
pub const MODES: usize = 0;
pub const SEGMENTS: usize = 1;
pub const FLAGS: usize = 2;

#[derive(Clone)]
pub struct Call {
    pub form: Form,
    pub pass: Pass,
    pub layout: Layout,
    pub planes: Planes,
    pub lists: ByteLists,
    pub config: FrameFilterConfig,
    pub start: usize,
    pub allowance: usize,
    /// Which end of each lent slice touches an unreadable page.
    pub side: Side,
}

#[derive(Clone, Copy, Debug, PartialEq)]
pub struct Done {
    pub count: usize,
    pub next: usize,
}

/// What a call answers and leaves. How many positions it smoothed, which the Rust does not tell, is left out: the module
/// `smoothed` compares it.
#[derive(Clone, PartialEq)]
pub struct Outcome {
    pub answer: u8,
    /// Count and next start, among their neighbours in memory.
    out: [usize; 5],
    /// Whether the positions smoothed were written, and whether their neighbours in memory were.
    smoothed_written: [bool; 3],
    pub planes: Planes,
    lists_stay: bool,
}

impl Outcome {
    pub fn new(answer: Result<Done, u8>, planes: Planes) -> Outcome {
        let mut out = [UNTOUCHED; 5];
        if let Ok(done) = answer {
            (out[1], out[3]) = (done.count, done.next);
        }
        let smoothed_written = [false, answer.is_ok(), false];
        Outcome { answer: answer.err().unwrap_or(0), out, smoothed_written, planes, lists_stay: true }
    }

    pub fn done(&self) -> Done {
        Done { count: self.out[1], next: self.out[3] }
    }
}

/// What is lent to the library, each slice against unreadable pages.
pub struct Memory {
    planes: [Guarded; 3],
    lists: [Guarded; 5],
}

impl Memory {
    pub fn new() -> Memory {
        let some = || Guarded::new(1 << 16);
        Memory { planes: [some(), some(), some()], lists: [some(), some(), some(), some(), some()] }
    }
}

impl Call {
    pub fn filter(&self) -> Filter {
        Filter { form: self.form, pass: self.pass }
    }

    /// Whether the header level turns the filter off.
    pub fn skips(&self) -> bool {
        self.form == Form::Frame && self.config.loop_filter_level == 0
    }

    /// Macroblocks in the grid of an accepted call.
    pub fn macroblocks(&self) -> usize {
        self.layout.columns * self.layout.rows
    }

    pub fn stride(&self, plane: usize) -> usize {
        self.layout.stride(plane)
    }

    /// The lists that the pass reads.
    pub fn lists_read(&self) -> &[Vec<u8>] {
        match self.pass {
            Pass::Key => &self.lists[..3],
            Pass::Inter => &self.lists,
        }
    }

    /// Whether 6 refuses a byte of the lists that the pass reads.
    pub fn bad_entry(&self) -> bool {
        self.lists_read().iter().zip(LARGEST).any(|(list, largest)| list.iter().any(|byte| *byte > largest))
    }

    /// Document 01, "Who can cause which refusal", in the order of a pass.
    pub fn rule(&self) -> Result<Done, u8> {
        let lengths = self.planes.each_ref().map(Vec::len);
        let other_length = |n: usize| self.lists_read().iter().any(|list| list.len() != n);
        rules::pass(&self.layout, lengths, other_length, self.bad_entry(), self.start, self.allowance)
            .map(|[count, next]| Done { count, next })
    }

    /// What the library must answer and leave: the rule, and the Rust's steps.
    pub fn expected(&self) -> Outcome {
        let answer = self.rule();
        let planes = match answer {
            Ok(Done { count, next }) if count > 0 => {
                let mut steps = RustSteps::new(self);
                (next - count..next).for_each(|m| steps.step(m));
                steps.planes()
            }
            _ => self.planes.clone(),
        };
        Outcome::new(answer, planes)
    }

    /// The Rust's level of a macroblock whose entries 6 does not refuse, or 0 where the filter is off.
    pub fn level(&self, m: usize) -> u8 {
        if self.skips() {
            return 0;
        }
        let [mode, segment, _, reference, inter_mode] = self.lists.each_ref().map(|list| list.get(m).copied());
        let mode = mode.and_then(bytes::mode).expect("a mode");
        match self.pass {
            Pass::Key => loop_filter::calculate_mb_filter_level(&self.config, segment, mode),
            Pass::Inter => {
                let reference = reference.and_then(bytes::reference).expect("a reference, or none");
                let inter_mode = inter_mode.and_then(bytes::inter_mode).expect("an inter mode, or none");
                loop_filter::calculate_mb_filter_level_inter(&self.config, segment, reference, inter_mode, mode)
            }
        }
    }

    /// Whether the inner edges of a macroblock are filtered, if its level is above 0.
    pub fn inner_edges(&self, m: usize) -> bool {
        self.lists[MODES][m] == 4 || self.lists[FLAGS][m] != 0
    }

    /// What the Rust's pass makes of the whole grid, or the planes as they are where the filter is off.
    pub fn unbroken(&self) -> Planes {
        if self.skips() {
            return self.planes.clone();
        }
        let mut planes = self.rust_planes();
        run_rust(self.pass, &mut planes, &self.records(), &self.config);
        [planes.y, planes.u, planes.v]
    }

    /// The Rust's records for the lists that the pass reads.
    pub fn records(&self) -> Records {
        let [modes, segments, flags, references, inter_modes] = self.lists.each_ref().map(Vec::as_slice);
        let lists = match self.pass {
            Pass::Key => Lists { modes, segments, flags, references: &[], inter_modes: &[] },
            Pass::Inter => Lists { modes, segments, flags, references, inter_modes },
        };
        Records::of(&lists).expect("entries that stand for something")
    }

    pub fn rust_planes(&self) -> KeyframePlanes {
        let [y, u, v] = self.planes.clone();
        let Layout { columns: mb_cols, rows: mb_rows, y_stride, uv_stride } = self.layout;
        KeyframePlanes { y, u, v, y_stride, uv_stride, mb_cols, mb_rows }
    }

    pub fn library(&self, memory: &mut Memory) -> Outcome {
        self.counted(memory).0
    }

    /// The same, with how many positions were smoothed, if the number was written.
    pub fn counted(&self, memory: &mut Memory) -> (Outcome, Option<usize>) {
        let mut planes =
            memory.planes.iter_mut().zip(&self.planes).map(|(memory, plane)| memory.lend(self.side, plane));
        let mut plane = || planes.next().expect("three planes");
        let [y, u, v] = [plane(), plane(), plane()];
        let mut lists = memory.lists.iter_mut().zip(&self.lists).map(|(memory, list)| &*memory.lend(self.side, list));
        let mut list = || lists.next().expect("five lists");
        let lists = Lists { modes: list(), segments: list(), flags: list(), references: list(), inter_modes: list() };
        let (mut out, mut smoothed) = ([UNTOUCHED; 5], [UNTOUCHED; 3]);
        let ([_, count, _, next, _], total) = (&mut out, &mut smoothed[1]);
        let answer = guard::calling(self, || {
            let planes = [&mut *y, &mut *u, &mut *v];
            let Call { form, pass, layout, config, start, allowance, .. } = self;
            ffi::filter_as(*form, *pass, planes, layout, &lists, config, *start, *allowance, [count, next, total])
        });
        let Lists { modes, segments, flags, references, inter_modes } = lists;
        let outcome = Outcome {
            answer,
            out,
            smoothed_written: smoothed.map(|number| number != UNTOUCHED),
            planes: [y.to_vec(), u.to_vec(), v.to_vec()],
            lists_stay: self.lists == [modes, segments, flags, references, inter_modes],
        };
        (outcome, Some(smoothed[1]).filter(|number| *number != UNTOUCHED))
    }

    pub fn differs(&self, memory: &mut Memory) -> bool {
        self.library(memory) != self.expected()
    }
}

pub fn run_rust(pass: Pass, planes: &mut KeyframePlanes, records: &Records, config: &FrameFilterConfig) {
    let Records { modes, has_coeffs, references, inter_modes } = records;
    match pass {
        Pass::Key => oracle::filter_frame_flags(planes, modes, has_coeffs, config),
        Pass::Inter => oracle::filter_inter_frame_flags(planes, modes, has_coeffs, references, inter_modes, config),
    }
}

/// The Rust, one macroblock at a time: its pass over the whole grid with every other macroblock at level 0. The levels
/// that the Rust calculates go in as absolute levels of segments.
pub struct RustSteps<'a> {
    call: &'a Call,
    records: Records,
    levels: Vec<u8>,
    planes: KeyframePlanes,
}

impl RustSteps<'_> {
    /// At the planes lent to an accepted call on a grid with macroblocks.
    pub fn new(call: &Call) -> RustSteps<'_> {
        let mut records = call.records();
        let levels = (0..call.macroblocks()).map(|m| call.level(m)).collect();
        records.modes.iter_mut().for_each(|record| record.segment_id = Some(0));
        RustSteps { call, records, levels, planes: call.rust_planes() }
    }

    pub fn step(&mut self, m: usize) {
        let level = self.levels[m];
        if level == 0 {
            return;
        }
        let config = self.call.config;
        let config = config.with_delta_enabled(false).with_segmentation_enabled(true).with_segment_abs(true);
        let config = config.with_segment_lf_level([0, level as i16, 0, 0]);
        self.records.modes[m].segment_id = Some(1);
        run_rust(self.call.pass, &mut self.planes, &self.records, &config);
        self.records.modes[m].segment_id = Some(0);
    }

    pub fn planes(&self) -> Planes {
        [self.planes.y.clone(), self.planes.u.clone(), self.planes.v.clone()]
    }
}

impl fmt::Display for Call {
    fn fmt(&self, f: &mut fmt::Formatter<'_>) -> fmt::Result {
        let Layout { columns, rows, y_stride, uv_stride } = self.layout;
        writeln!(f, "  {}, start {}, allowance {}", self.filter().entry(), self.start, self.allowance)?;
        writeln!(f, "  columns {columns}, rows {rows}, luma stride {y_stride}, chroma stride {uv_stride}")?;
        writeln!(f, "  {:?}", self.config)?;
        for (name, list) in LIST_NAMES.iter().zip(self.lists_read()) {
            writeln!(f, "  {} {name}: {}", list.len(), Few(list))?;
        }
        for (plane, name) in ["y", "u", "v"].into_iter().enumerate() {
            let samples = &self.planes[plane];
            writeln!(f, "  {name}: {}", Samples { samples, stride: self.stride(plane) })?;
        }
        write!(f, "  with {} of each lent slice", self.side)
    }
}

/// The first entries of a list.
struct Few<'a>(&'a [u8]);

impl fmt::Display for Few<'_> {
    fn fmt(&self, f: &mut fmt::Formatter<'_>) -> fmt::Result {
        match self.0.split_at_checked(64) {
            Some((first, rest)) if !rest.is_empty() => write!(f, "{first:?} and {} more", rest.len()),
            _ => write!(f, "{:?}", self.0),
        }
    }
}

/// The samples of a plane that are not its smallest.
pub struct Samples<'a> {
    pub samples: &'a [u8],
    pub stride: usize,
}

impl fmt::Display for Samples<'_> {
    fn fmt(&self, f: &mut fmt::Formatter<'_>) -> fmt::Result {
        const MOST: usize = 64;
        let Some(smallest) = self.samples.iter().copied().min() else {
            return write!(f, "no samples");
        };
        write!(f, "{} samples of {smallest}", self.samples.len())?;
        let stride = self.stride.max(1);
        let others = || self.samples.iter().enumerate().filter(|(_, sample)| **sample != smallest);
        for (index, sample) in others().take(MOST) {
            write!(f, ", but {sample} at row {}, column {}", index / stride, index % stride)?;
        }
        match others().count().checked_sub(MOST) {
            Some(more) if more > 0 => write!(f, ", and {more} more"),
            _ => Ok(()),
        }
    }
}

impl Outcome {
    /// Where two outcomes differ.
    pub fn against(&self, other: &Outcome, call: &Call) -> String {
        let mut text = format!("  expected: {}\n  library:  {}", self.numbers(), other.numbers());
        for (plane, name) in ["y", "u", "v"].into_iter().enumerate() {
            let differing =
                || (0..self.planes[plane].len()).filter(|i| self.planes[plane][*i] != other.planes[plane][*i]);
            if let Some(first) = differing().next() {
                let stride = call.stride(plane).max(1);
                let (row, column) = (first / stride, first % stride);
                let (expected, library) = (self.planes[plane][first], other.planes[plane][first]);
                text += &format!(
                    "\n  {name}: {} samples differ, the first at row {row}, column {column}: expected {expected}, library {library}",
                    differing().count()
                );
            }
        }
        text
    }

    fn numbers(&self) -> String {
        let mut text = format!("answers {}", self.answer);
        match self.out {
            [UNTOUCHED, UNTOUCHED, UNTOUCHED, UNTOUCHED, UNTOUCHED] => {}
            [UNTOUCHED, count, UNTOUCHED, next, UNTOUCHED] => text += &format!(", count {count}, next start {next}"),
            out => text += &format!(", count and next start among the numbers beside them {out:?}"),
        }
        match self.smoothed_written {
            [false, written, false] if written == (self.answer == 0) => {}
            [false, true, false] => text += ", the positions smoothed written",
            [false, false, false] => text += ", the positions smoothed not written",
            _ => text += ", a number beside the positions smoothed written",
        }
        if !self.lists_stay {
            text += ", a list changed";
        }
        text
    }
}

#[cfg(test)]
mod tests {
    use super::*;

    /// A grid of 2 columns by 1 row with strides above its width, planes of the least length, all entries 0.
    fn call(start: usize, allowance: usize) -> Call {
        let layout = Layout { columns: 2, rows: 1, y_stride: 40, uv_stride: 20 };
        let planes = [0, 1, 2].map(|plane| vec![100; layout.least_length(plane)]);
        let lists = [const { Vec::new() }; 5].map(|_: Vec<u8>| vec![0; 2]);
        Call {
            form: Form::Pass,
            pass: Pass::Inter,
            layout,
            planes,
            lists,
            config: FrameFilterConfig::default(),
            start,
            allowance,
            side: Side::End,
        }
    }

    #[test]
    fn least_lengths() {
        let lengths = call(0, 0).planes.map(|plane| plane.len());
        assert_eq!(lengths, [15 * 40 + 32, 7 * 20 + 16, 7 * 20 + 16]);
    }

    /// Document 01, figure O, and the ends of the allowance.
    #[test]
    fn counts_and_next_starts() {
        let done = |count, next| Ok(Done { count, next });
        assert_eq!(call(0, 0).rule(), done(0, 0));
        assert_eq!(call(0, 1).rule(), done(1, 1));
        assert_eq!(call(1, usize::MAX).rule(), done(1, 2));
        assert_eq!(call(2, 5).rule(), done(0, 2));
        assert_eq!(call(3, 0).rule(), Err(rules::START_TOO_LARGE));
    }

    /// Each refusal in turn hides those after it.
    #[test]
    fn refusals_in_their_order() {
        let mut bad = call(3, 1);
        assert_eq!(bad.rule(), Err(rules::START_TOO_LARGE));
        bad.lists[4][1] = 6;
        assert_eq!(bad.rule(), Err(rules::BAD_ENTRY));
        assert!(Call { pass: Pass::Key, start: 2, ..bad.clone() }.rule().is_ok());
        bad.lists[1].push(0);
        assert_eq!(bad.rule(), Err(rules::WRONG_LENGTH));
        bad.planes[2].pop();
        assert_eq!(bad.rule(), Err(rules::SHORT_PLANE));
        bad.layout.uv_stride = 15;
        assert_eq!(bad.rule(), Err(rules::BAD_STRIDE));
        bad.layout.columns = 1025;
        assert_eq!(bad.rule(), Err(rules::GRID_TOO_LARGE));
        bad.layout.rows = 0;
        assert_eq!(bad.rule(), Ok(Done { count: 0, next: 0 }));
    }
}
