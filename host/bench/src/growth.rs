//! How the time of the key pass grows with the grid: on squares of 1 to 128 macroblocks a side, cut from the recorded key
//! frame for timing as if it were repeated without end.

use entries::bytes::Records;
use entries::{Layout, Lists, Pass};
use film::Frame;
use oracle::{FrameFilterConfig, KeyframePlanes};
use std::time::{Duration, Instant};

const SIDES: [usize; 8] = [1, 2, 4, 8, 16, 32, 64, 128];
const LEVEL: u8 = 24;

/// The macroblocks timed at once, at least: about those of the frame, so that all squares have much the same samples and
/// entries. Small squares are as many pictures, each with its own planes and call.
const AT_ONCE: usize = 4096;

/// Prints one line a square: for the normal and the simple filter the Rust's and the library's time for a macroblock,
/// and their ratio.
pub fn compare(frame: &Frame, repetitions: usize) {
    println!();
    println!("growth: key pass, level {LEVEL}, inner edges as coded, ns a macroblock, the least of {repetitions}");
    println!("{:<14} {:^26} | {:^26}", "", "normal", "simple");
    let names = || format!("{:>8} {:>8} {:>8}", "Rust", "library", "ratio");
    println!("{:<14} {} | {}", "macroblocks", names(), names());
    for side in SIDES {
        let pictures = pictures(frame, side);
        let macroblocks = (pictures.len() * side * side) as f64;
        let of_filter = |simple: bool| {
            let config = frame.config().with_simple(simple).with_loop_filter_level(LEVEL);
            let config = config.with_segmentation_enabled(false).with_delta_enabled(false);
            let [rust, library] =
                times(&pictures, &config, repetitions).map(|time| time.as_secs_f64() * 1e9 / macroblocks);
            format!("{rust:>8.0} {library:>8.0} {:>8.3}", library / rust)
        };
        println!("{:<14} {} | {}", format!("{side} x {side}"), of_filter(false), of_filter(true));
    }
}

struct Picture {
    planes: KeyframePlanes,
    modes: Vec<u8>,
    segments: Vec<u8>,
    flags: Vec<u8>,
    records: Records,
}

/// Squares that follow each other in the frame.
fn pictures(frame: &Frame, side: usize) -> Vec<Picture> {
    let in_a_row = frame.columns().div_ceil(side);
    let count = AT_ONCE.div_ceil(side * side);
    (0..count).map(|k| Picture::cut(frame, side, k % in_a_row * side, k / in_a_row * side)).collect()
}

impl Picture {
    /// The square whose first macroblock is in that column and row of the repeated frame.
    fn cut(frame: &Frame, side: usize, column: usize, row: usize) -> Picture {
        let square = |from: &[u8], unit: usize| -> Vec<u8> {
            let (width, height) = (unit * frame.columns(), unit * frame.rows());
            let line = |r: usize| (unit * row + r) % height * width;
            let place = |i: usize| line(i / (unit * side)) + (unit * column + i % (unit * side)) % width;
            (0..unit * side * unit * side).map(|i| from[place(i)]).collect()
        };
        let [modes, segments, flags] = [&frame.modes, &frame.segments, &frame.flags].map(|list| square(list, 1));
        let lists = Lists { modes: &modes, segments: &segments, flags: &flags, references: &[], inter_modes: &[] };
        let records = Records::of(&lists).expect("entries that stand for something");
        let [y, u, v] = [(0, 16), (1, 8), (2, 8)].map(|(plane, unit)| square(&frame.planes[plane], unit));
        let planes = KeyframePlanes { y, u, v, y_stride: 16 * side, uv_stride: 8 * side, mb_cols: side, mb_rows: side };
        Picture { planes, modes, segments, flags, records }
    }

    fn run_rust(&self, planes: &mut KeyframePlanes, config: &FrameFilterConfig) {
        oracle::filter_frame_flags(planes, &self.records.modes, &self.records.has_coeffs, config);
    }

    fn run_library(&self, planes: &mut KeyframePlanes, config: &FrameFilterConfig) {
        let Picture { modes, segments, flags, .. } = self;
        let lists = Lists { modes, segments, flags, references: &[], inter_modes: &[] };
        let KeyframePlanes { y, u, v, y_stride, uv_stride, mb_cols, mb_rows } = planes;
        let layout = Layout { columns: *mb_cols, rows: *mb_rows, y_stride: *y_stride, uv_stride: *uv_stride };
        let (n, mut out) = (modes.len(), [0; 3]);
        let answer = entries::filter(Pass::Key, [y, u, v], &layout, &lists, config, 0, n, out.each_mut());
        assert!(answer == 0 && out[0] == n, "the call is accepted and does the whole grid");
    }
}

/// The smallest times of the Rust and of the library for all pictures. They take turns in being first.
fn times(pictures: &[Picture], config: &FrameFilterConfig, repetitions: usize) -> [Duration; 2] {
    let runs = [Picture::run_rust, Picture::run_library];
    let mut times = [Duration::MAX; 2];
    for repetition in 0..repetitions {
        let [first, second] = [0, 1].map(|turn| {
            let variant = (turn + repetition) % 2;
            let mut planes: Vec<KeyframePlanes> = pictures.iter().map(|picture| picture.planes.clone()).collect();
            let start = Instant::now();
            pictures.iter().zip(&mut planes).for_each(|(picture, planes)| runs[variant](picture, planes, config));
            times[variant] = times[variant].min(start.elapsed());
            planes
        });
        assert!(first == second, "the library and the Rust leave the same planes");
    }
    times
}

#[cfg(test)]
mod tests {
    use super::*;

    #[test]
    fn a_square_repeats_the_frame() {
        let frame = &film::bench()[0];
        let (columns, rows) = (frame.columns(), frame.rows());
        let Picture { planes, modes, .. } = Picture::cut(frame, 128, 3, 2);
        for (column, row) in [(0, 0), (columns - 3, 1), (2, rows - 2), (127, 127)] {
            let (from_column, from_row) = ((column + 3) % columns, (row + 2) % rows);
            assert_eq!(modes[128 * row + column], frame.modes[columns * from_row + from_column]);
            let first = 8 * columns * 8 * from_row + 8 * from_column;
            assert_eq!(planes.v[1024 * 8 * row + 8 * column..][..8], frame.planes[2][first..][..8]);
        }
    }

    #[test]
    fn small_squares_are_as_many_macroblocks() {
        let frame = &film::bench()[0];
        for side in SIDES {
            assert_eq!(pictures(frame, side).len() * side * side, AT_ONCE.max(side * side));
        }
    }
}
