//! Times both passes, the search and the full search of the library against the Rust's on the recorded frames for timing,
//! in one run and in turn, and prints each smallest time of the library as a part of the Rust's smallest time; then how
//! the time of a pass grows with the grid, what halting costs a caller of the Rust crate, and what the frame calls and the
//! coefficient test take.
//!
//! The level is forced: every macroblock has it, whatever its segment, reference and mode. "Rows" halts after each row
//! of macroblocks.
//!
//! `--noise AMPLITUDE` adds uniform noise to the frames first. `--libvpx` times the passes against libvpx's SSE2 filters
//! instead; `--halting`, `--full-search`, `--frame-calls` and `--coefficients` time these alone.

mod coefficients;
mod frame_calls;
mod growth;
mod halting;
mod libvpx;
mod noise;
mod options;
mod search;

use entries::bytes::Records;
use entries::{Layout, Lists, Pass};
use film::Frame;
use options::{Options, Part};
use oracle::{FrameFilterConfig, KeyframePlanes};
use std::fmt;
use std::process::ExitCode;
use std::time::{Duration, Instant};

const LEVELS: [u8; 3] = [8, 24, 48];

fn main() -> ExitCode {
    let Some(Options { repetitions, noise, part }) = Options::read(std::env::args().skip(1)) else {
        eprintln!("{}", options::USAGE);
        return ExitCode::from(2);
    };
    let mut frames = film::bench();
    noise::add(&mut frames, noise);
    match part {
        Part::All => all(&frames, repetitions),
        Part::Libvpx => libvpx::compare(&frames, repetitions),
        Part::Halting => halting::compare(&frames, repetitions),
        Part::FullSearch => searches(&frames, |frame, simple| search::compare_full(frame, simple, repetitions)),
        Part::FrameCalls => frame_calls::compare(&frames, repetitions),
        Part::Coefficients => coefficients::compare(repetitions),
    }
    ExitCode::SUCCESS
}

fn all(frames: &[Frame], repetitions: usize) {
    passes(frames, repetitions);
    searches(frames, |frame, simple| search::compare(frame, simple, repetitions.min(5)));
    searches(frames, |frame, simple| search::compare_full(frame, simple, repetitions.min(3)));
    growth::compare(frames.iter().find(|frame| frame.config().key_frame).expect("a key frame"), repetitions);
    halting::compare(frames, repetitions);
    frame_calls::compare(frames, repetitions);
    coefficients::compare(repetitions);
}

/// Each frame with the normal and with the simple filter.
fn searches(frames: &[Frame], compare: impl Fn(&Frame, bool)) {
    frames.iter().flat_map(|frame| [(frame, false), (frame, true)]).for_each(|(frame, simple)| compare(frame, simple));
}

/// Prints the table of the passes and the geometric means of its ratios.
fn passes(frames: &[Frame], repetitions: usize) {
    let (columns, rows) = (frames[0].columns(), frames[0].rows());
    println!("{} x {} samples, the least of {repetitions} repetitions", 16 * columns, 16 * rows);
    println!("{:<34} {:>9} {:>8} {:>8}", "pass, filter, level, inner edges", "Rust", "library", "in rows");
    let mut ratios = Vec::new();
    for frame in frames {
        for simple in [false, true] {
            for level in LEVELS {
                for inner in [Inner::All, Inner::Coded, Inner::Few] {
                    let case = Case::new(frame, simple, level, inner);
                    let times = case.times(repetitions);
                    let ratio = |variant: Variant| times[variant as usize].as_secs_f64() / times[0].as_secs_f64();
                    let (whole, in_rows) = (ratio(Variant::Library), ratio(Variant::InRows));
                    let rust = format!("{:.3} ms", times[0].as_secs_f64() * 1000.0);
                    println!("{:<34} {rust:>9} {whole:>8.3} {in_rows:>8.3}", case.to_string());
                    ratios.push((simple, [whole, in_rows]));
                }
            }
        }
    }
    for (name, filters) in [("normal", &[false][..]), ("simple", &[true]), ("both", &[false, true])] {
        let of = |variant: usize| {
            let chosen = ratios.iter().filter(|(simple, _)| filters.contains(simple));
            geometric_mean(chosen.map(|(_, ratios)| ratios[variant]))
        };
        println!("{:<34} {:>9} {:>8.3} {:>8.3}", format!("geometric mean, {name}"), "", of(0), of(1));
    }
}

fn geometric_mean(ratios: impl Iterator<Item = f64>) -> f64 {
    let logarithms: Vec<f64> = ratios.map(f64::ln).collect();
    (logarithms.iter().sum::<f64>() / logarithms.len() as f64).exp()
}

/// Which macroblocks have their inner edges filtered.
#[derive(Clone, Copy)]
enum Inner {
    All,
    Coded,
    /// Every fiftieth.
    Few,
}

#[derive(Clone, Copy)]
enum Variant {
    Rust,
    Library,
    InRows,
}

const VARIANTS: [Variant; 3] = [Variant::Rust, Variant::Library, Variant::InRows];

struct Case<'a> {
    frame: &'a Frame,
    key: bool,
    inner: Inner,
    modes: Vec<u8>,
    flags: Vec<u8>,
    config: FrameFilterConfig,
}

impl Case<'_> {
    fn new(frame: &Frame, simple: bool, level: u8, inner: Inner) -> Case<'_> {
        let n = frame.modes.len();
        let (modes, flags) = match inner {
            Inner::All => (frame.modes.clone(), vec![1; n]),
            Inner::Coded => (frame.modes.clone(), frame.flags.clone()),
            Inner::Few => (vec![0; n], (0..n).map(|m| m.is_multiple_of(50) as u8).collect()),
        };
        let config = frame.config().with_simple(simple).with_loop_filter_level(level);
        let config = config.with_segmentation_enabled(false).with_delta_enabled(false);
        Case { frame, key: config.key_frame, inner, modes, flags, config }
    }

    /// The smallest time of each variant. They take turns, each with its own place in the order in each repetition.
    fn times(&self, repetitions: usize) -> [Duration; 3] {
        let (columns, rows) = (self.frame.columns(), self.frame.rows());
        let [y, u, v] = self.frame.planes.clone();
        let (y_stride, uv_stride) = (16 * columns, 8 * columns);
        let mut planes = KeyframePlanes { y, u, v, y_stride, uv_stride, mb_cols: columns, mb_rows: rows };
        let lists = Lists {
            modes: &self.modes,
            segments: &self.frame.segments,
            flags: &self.flags,
            references: &self.frame.references,
            inter_modes: &self.frame.inter_modes,
        };
        let records = Records::of(&lists).expect("entries that stand for something");
        let mut after = None;
        let mut times = [Duration::MAX; 3];
        for repetition in 0..repetitions {
            for turn in 0..VARIANTS.len() {
                let variant = VARIANTS[(turn + repetition) % VARIANTS.len()];
                for (plane, first) in [&mut planes.y, &mut planes.u, &mut planes.v].into_iter().zip(&self.frame.planes)
                {
                    plane.copy_from_slice(first);
                }
                let start = Instant::now();
                match variant {
                    Variant::Rust => self.run_rust(&mut planes, &records),
                    Variant::Library => self.run_library(&mut planes, &lists, columns * rows),
                    Variant::InRows => self.run_library(&mut planes, &lists, columns),
                }
                let time = start.elapsed();
                times[variant as usize] = times[variant as usize].min(time);
                let after = after.get_or_insert_with(|| planes.clone());
                assert!(*after == planes, "{self}: the library and the Rust leave the same planes");
            }
        }
        times
    }

    fn run_rust(&self, planes: &mut KeyframePlanes, records: &Records) {
        let Records { modes, has_coeffs, references, inter_modes } = records;
        if self.key {
            oracle::filter_frame_flags(planes, modes, has_coeffs, &self.config);
        } else {
            oracle::filter_inter_frame_flags(planes, modes, has_coeffs, references, inter_modes, &self.config);
        }
    }

    fn pass(&self) -> Pass {
        if self.key { Pass::Key } else { Pass::Inter }
    }

    /// Calls that each do `allowance` macroblocks, to the end of the picture.
    fn run_library(&self, planes: &mut KeyframePlanes, lists: &Lists, allowance: usize) {
        let KeyframePlanes { y, u, v, y_stride, uv_stride, mb_cols, mb_rows } = planes;
        let layout = Layout { columns: *mb_cols, rows: *mb_rows, y_stride: *y_stride, uv_stride: *uv_stride };
        let (pass, mut start, mut count, mut smoothed) = (self.pass(), 0, 0, 0);
        while start < lists.modes.len() {
            let mut next = start;
            let (planes, config) = ([&mut y[..], u, v], &self.config);
            let out = [&mut count, &mut next, &mut smoothed];
            let answer = entries::filter(pass, planes, &layout, lists, config, start, allowance, out);
            assert!(answer == 0 && next > start, "{self}: the call is accepted and goes on");
            start = next;
        }
    }
}

impl fmt::Display for Case<'_> {
    fn fmt(&self, f: &mut fmt::Formatter<'_>) -> fmt::Result {
        let pass = if self.key { "key" } else { "inter" };
        let filter = if self.config.simple { "simple" } else { "normal" };
        let inner = match self.inner {
            Inner::All => "all",
            Inner::Coded => "as coded",
            Inner::Few => "2 %",
        };
        write!(f, "{pass}, {filter}, {}, {inner}", self.config.loop_filter_level)
    }
}
