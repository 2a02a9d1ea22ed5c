//! Times the search and the full search against the Rust's on the recorded frames for timing. The source is what level 24
//! makes of the frame.

use entries::bytes::Records;
use entries::{Choice, Layout, Lists, Pass, Search, Sought, Source};
use film::Frame;
use oracle::{FrameFilterConfig, InterFilterInfo, KeyframePlanes, SourcePlanes, loop_filter};
use rules::Scored;
use std::time::{Duration, Instant};

/// Prints one line.
pub fn compare(frame: &Frame, simple: bool, repetitions: usize) {
    let picture = Picture::new(frame, simple);
    let mut scratch = picture.planes.clone();
    let [rust, library] = times(repetitions, || picture.searched_by_rust(), || picture.searched(&mut scratch));
    let name = picture.name("search");
    println!("{name:<34} {:>9} {:>8.3}", format!("{:.1} ms", rust * 1000.0), library / rust);
}

/// Prints one line: 505 candidates of the library against 505 of the Rust, and how long the library takes for a
/// megapixel. The Rust has no full search; its part are its own pass over a copy and its own sum for each candidate, which
/// is how its search scores one.
pub fn compare_full(frame: &Frame, simple: bool, repetitions: usize) {
    let picture = Picture::new(frame, simple);
    let mut scratch = picture.planes.clone();
    let [rust, library] = times(repetitions, || picture.all_by_rust(), || picture.searched_fully(&mut scratch));
    let (width, height) = frame.visible();
    let (name, pixels) = (picture.name("full search"), (width * height) as f64);
    let (rust_time, megapixel) = (format!("{:.3} s", rust), library / pixels * 1_000_000.0);
    println!("{name:<34} {rust_time:>9} {:>8.3} {megapixel:>8.3} s a megapixel", library / rust);
}

/// The smallest times of the Rust and of the library in seconds. They take turns, and must answer the same.
fn times<T: PartialEq>(repetitions: usize, rust: impl Fn() -> T, mut library: impl FnMut() -> T) -> [f64; 2] {
    let mut times = [Duration::MAX; 2];
    for _ in 0..repetitions {
        let start = Instant::now();
        let theirs = rust();
        times[0] = times[0].min(start.elapsed());
        let start = Instant::now();
        let ours = library();
        times[1] = times[1].min(start.elapsed());
        assert!(ours == theirs, "the library and the Rust choose the same");
    }
    times.map(|time| time.as_secs_f64())
}

/// A frame, and what level 24 makes of it.
struct Picture<'a> {
    frame: &'a Frame,
    config: FrameFilterConfig,
    records: Records,
    planes: KeyframePlanes,
    source: KeyframePlanes,
}

impl Picture<'_> {
    fn new(frame: &Frame, simple: bool) -> Picture<'_> {
        let config = frame.config().with_simple(simple).with_segmentation_enabled(false).with_delta_enabled(false);
        let (mb_cols, mb_rows) = (frame.columns(), frame.rows());
        let [y, u, v] = frame.planes.clone();
        let planes = KeyframePlanes { y, u, v, y_stride: 16 * mb_cols, uv_stride: 8 * mb_cols, mb_cols, mb_rows };
        let records = Records::of(&lists(frame)).expect("entries that stand for something");
        let mut picture = Picture { frame, config, records, source: planes.clone(), planes };
        picture.source = picture.filtered_by_rust(24, config.sharpness_level);
        picture
    }

    fn name(&self, search: &str) -> String {
        let pass = if self.config.key_frame { "key" } else { "inter" };
        format!("{search}, {pass}, {}", if self.config.simple { "simple" } else { "normal" })
    }

    fn rust_source(&self) -> SourcePlanes<'_> {
        let KeyframePlanes { y, u, v, y_stride, uv_stride, .. } = &self.source;
        let (width, height) = self.frame.visible();
        SourcePlanes { width, height, y, u, v, y_stride: *y_stride, uv_stride: *uv_stride }
    }

    /// A copy of the planes after the Rust's pass.
    fn filtered_by_rust(&self, level: u8, sharpness: u8) -> KeyframePlanes {
        let Records { modes, has_coeffs, references, inter_modes } = &self.records;
        let config = self.config.with_loop_filter_level(level).with_sharpness_level(sharpness);
        let mut planes = self.planes.clone();
        if config.key_frame {
            oracle::filter_frame_flags(&mut planes, modes, has_coeffs, &config);
        } else {
            oracle::filter_inter_frame_flags(&mut planes, modes, has_coeffs, references, inter_modes, &config);
        }
        planes
    }

    fn searched_by_rust(&self) -> (u8, u8) {
        let Records { modes, has_coeffs, references, inter_modes } = &self.records;
        let info = InterFilterInfo { ref_frames: references, inter_modes };
        let inter = (!self.config.key_frame).then_some(&info);
        let source = self.rust_source();
        loop_filter::select_filter_params(&self.planes, modes, has_coeffs, &self.config, &source, inter)
    }

    /// The best of all candidates.
    fn all_by_rust(&self) -> Scored {
        let source = self.rust_source();
        let scored = rules::scored(self.config.sharpness_level, |level, sharpness| match level {
            0 => loop_filter::reconstruction_ssd(&self.planes, &source),
            _ => loop_filter::reconstruction_ssd(&self.filtered_by_rust(level, sharpness), &source),
        });
        scored.into_iter().min().expect("a candidate")
    }

    fn searched(&self, scratch: &mut KeyframePlanes) -> (u8, u8) {
        let mut choice = Choice { level: 0, sharpness: 0, count: 0 };
        let answer = self.asking(scratch, |search, lent| entries::select(search, Sought::Params, lent, &mut choice));
        assert!(answer == 0, "the search is accepted");
        (choice.level, choice.sharpness)
    }

    fn searched_fully(&self, scratch: &mut KeyframePlanes) -> Scored {
        let mut best = Scored { sum: 0, level: 0, sharpness: 0 };
        let Scored { sum, level, sharpness } = &mut best;
        let answer = self.asking(scratch, |search, lent| entries::full_search(search, lent, level, sharpness, sum));
        assert!(answer == 0, "the full search is accepted");
        best
    }

    /// Calls a search of the library.
    fn asking(&self, scratch: &mut KeyframePlanes, call: impl FnOnce(&Search, [&mut [u8]; 3]) -> u8) -> u8 {
        let SourcePlanes { width, height, y, u, v, y_stride, uv_stride, .. } = self.rust_source();
        let source = &Source { planes: [y, u, v], width, height, y_stride, uv_stride };
        let KeyframePlanes { y, u, v, y_stride, uv_stride, mb_cols, mb_rows } = &self.planes;
        let layout = &Layout { columns: *mb_cols, rows: *mb_rows, y_stride: *y_stride, uv_stride: *uv_stride };
        let pass = if self.config.key_frame { Pass::Key } else { Pass::Inter };
        let (lists, config) = (&lists(self.frame), &self.config);
        let search = Search { pass, planes: [y, u, v], layout, source, lists, config };
        call(&search, [&mut scratch.y, &mut scratch.u, &mut scratch.v])
    }
}

fn lists(frame: &Frame) -> Lists<'_> {
    let Frame { modes, segments, flags, references, inter_modes, .. } = frame;
    Lists { modes, segments, flags, references, inter_modes }
}
