//! The rows of docs/DIFFERENCES.md: the input of each, on the Rust and on the library. A row names its test.

use entries::{Choice, Form, Layout, Lists, Pass, Search, Sought, Source, bytes};
use oracle::{FrameFilterConfig, InterMode, IntraYMode, KeyframePlanes, MbCoeffs, RefFrame};
use oracle::{LoopFilterParams, SourcePlanes, loop_filter as rust};
use std::panic::catch_unwind;

/// What the Rust does instead of an answer.
#[derive(Debug, PartialEq)]
struct Panicked;

fn caught<T>(call: impl FnOnce() -> T + std::panic::UnwindSafe) -> Result<T, Panicked> {
    catch_unwind(call).map_err(|_| Panicked)
}

#[test]
fn every_row_names_its_test() {
    let (page, tests) = (include_str!("../../../docs/DIFFERENCES.md"), include_str!("differences.rs"));
    let names: Vec<&str> = tests
        .split("#[test]\nfn ")
        .skip(1)
        .filter_map(|text| text.split_once("()"))
        .map(|(name, _)| name)
        .filter(|name| *name != "every_row_names_its_test")
        .collect();
    let named = |text: &str, name: &str| text.matches(&format!("`{name}`")).count();
    // Headings and rows of the tables of differences; the last table is one of items.
    let tables = page.split("\n\n").filter(|part| part.starts_with("| what |"));
    let rows: Vec<&str> = tables.flat_map(|table| table.lines().skip(2)).collect();
    assert!(rows.len() >= 31, "{} rows were found", rows.len());
    for row in rows {
        let tests: usize = names.iter().map(|name| named(row, name)).sum();
        assert_eq!(tests, 1, "a row names one test: {row}");
    }
    for name in names {
        assert_eq!(named(page, name), 1, "the page names the test {name} once");
    }
}

// ---- limits

/// Interior limit, threshold, macroblock-edge and inner-edge limit, which both derive.
#[track_caller]
fn derived(level: u8, sharpness: u8, key: bool) -> [u8; 4] {
    let p = LoopFilterParams::derive(level, sharpness, key);
    let [mut interior, mut threshold, mut macroblock, mut inner] = [0; 4];
    entries::derive(level, sharpness, key, &mut interior, &mut threshold, &mut macroblock, &mut inner);
    let limits = [interior, threshold, macroblock, inner];
    assert_eq!(limits, [p.interior_limit, p.hev_threshold, p.mbedge_limit, p.sub_bedge_limit]);
    limits
}

#[test]
fn sharpness_above_7() {
    assert_eq!(derived(40, 200, true), [1, 2, 85, 81]);
    assert_eq!(derived(40, 9, true)[0], 1);
    assert_eq!(derived(40, 10, true)[0], 1);
}

#[test]
fn level_above_63() {
    assert_eq!(derived(255, 0, true), [255, 2, 255, 255]);
}

#[test]
fn table_of_interior_limits() {
    let mut limits = [0; 513];
    assert_eq!(entries::interior_limits(&mut limits), 512);
    assert_eq!(limits[288], 5);
    assert_eq!(derived(32, 4, true)[0], 5);
    let (table, after) = limits.split_at(512);
    let rust: Vec<u8> = (0..512).map(|i: u16| derived((i % 64) as u8, (i / 64) as u8, false)[0]).collect();
    assert_eq!((table, after), (&rust[..], &[0][..]));
}

// ---- kernels

#[test]
fn window_that_does_not_fit() {
    let eight = [100, 100, 100, 100, 108, 108, 108, 108];
    for base in [1, usize::MAX] {
        let (mut seg, mut passed) = (eight, 77);
        assert_eq!(caught(move || rust::mb_filter(0, 1, 20, &mut seg, base)), Err(Panicked));
        assert_eq!(entries::mb_filter(0, 1, 20, &mut seg, base, &mut passed), 4);
        assert_eq!(caught(move || rust::subblock_filter(0, 1, 20, &mut seg, base)), Err(Panicked));
        assert_eq!(entries::subblock_filter(0, 1, 20, &mut seg, base, &mut passed), 4);
        assert_eq!((seg, passed), (eight, 77));
    }
    for base in [5, usize::MAX] {
        let (mut seg, mut adjustment, mut passed) = (eight, 77, 77);
        assert_eq!(caught(move || rust::simple_segment(20, &mut seg, base)), Err(Panicked));
        assert_eq!(entries::simple_segment(20, &mut seg, base, &mut passed), 4);
        assert_eq!(caught(move || rust::common_adjust(true, &mut seg, base)), Err(Panicked));
        assert_eq!(entries::common_adjust(true, &mut seg, base, &mut adjustment), 4);
        assert_eq!((seg, adjustment, passed), (eight, 77, 77));
    }
}

/// Figure I, and a window that comes out as it was.
#[test]
fn whether_the_test_passed() {
    for (window, limit, test) in [([100, 100, 108, 108], 20, 1), ([100, 100, 108, 108], 19, 0), ([7; 4], 0, 1)] {
        let (mut theirs, mut ours, mut passed) = (window, window, 77);
        rust::simple_segment(limit, &mut theirs, 0);
        assert_eq!(entries::simple_segment(limit, &mut ours, 0, &mut passed), 0);
        assert_eq!((ours, passed), (theirs, test));
    }
}

// ---- levels

/// Of a key frame: the number of the refusal, or the level.
fn key_level(config: &FrameFilterConfig, segment: u8, mode: u8) -> Result<u8, u8> {
    let mut level = 99;
    match entries::calculate_mb_filter_level(config, segment, mode, &mut level) {
        0 => Ok(level),
        number => Err(number),
    }
}

/// Of an inter frame.
fn inter_level(config: &FrameFilterConfig, reference: u8, inter_mode: u8, mode: u8) -> Result<u8, u8> {
    let mut level = 99;
    match entries::calculate_mb_filter_level_inter(config, 0, reference, inter_mode, mode, &mut level) {
        0 => Ok(level),
        number => Err(number),
    }
}

fn header(level: u8) -> FrameFilterConfig {
    FrameFilterConfig::default().with_loop_filter_level(level)
}

#[test]
fn byte_of_no_case() {
    let config = header(20);
    assert_eq!((bytes::mode(4), key_level(&config, 0, 4)), (Some(IntraYMode::B), Ok(20)));
    assert_eq!((bytes::mode(5), key_level(&config, 0, 5)), (None, Err(6)));
    assert_eq!((bytes::reference(3), inter_level(&config, 3, 0, 0)), (Some(Some(RefFrame::AltRef)), Ok(20)));
    assert_eq!((bytes::reference(4), inter_level(&config, 4, 0, 0)), (None, Err(6)));
    assert_eq!((bytes::inter_mode(5), inter_level(&config, 1, 5, 0)), (Some(Some(InterMode::Split)), Ok(20)));
    assert_eq!((bytes::inter_mode(6), inter_level(&config, 1, 6, 0)), (None, Err(6)));
}

#[test]
fn reference_without_inter_mode() {
    let config = header(20)
        .with_delta_enabled(true)
        .with_zero_mv_mode_delta(1)
        .with_split_mv_mode_delta(2)
        .with_other_mv_mode_delta(7);
    let theirs = rust::calculate_mb_filter_level_inter(&config, None, Some(RefFrame::Last), None, IntraYMode::Dc);
    assert_eq!((theirs, inter_level(&config, 1, 0, 0)), (27, Ok(27)));
}

#[test]
fn segment_mode_bit() {
    let config = header(20).with_segmentation_enabled(true).with_segment_lf_level([30, 0, 0, 0]);
    for (replaces, level) in [(true, 30), (false, 50)] {
        let config = config.with_segment_abs(replaces);
        assert_eq!(rust::calculate_mb_filter_level(&config, Some(0), IntraYMode::Dc), level);
        assert_eq!(key_level(&config, 0, 0), Ok(level));
    }
}

#[test]
fn segment_of_none() {
    let config = header(20).with_segmentation_enabled(true).with_segment_lf_level([10, 20, 0, 0]);
    let theirs =
        |segment| rust::calculate_mb_filter_level_inter(&config, segment, Some(RefFrame::Last), None, IntraYMode::Dc);
    // The segment that the macroblock had in the frame before would give 40.
    assert_eq!((theirs(None), theirs(Some(1))), (30, 40));
    assert_eq!(inter_level(&config, 1, 0, 0), Ok(30));
    assert_eq!((key_level(&config, 0, 0), key_level(&config, 1, 0)), (Ok(30), Ok(40)));
}

#[test]
fn segment_above_3() {
    let config = header(20).with_segmentation_enabled(true).with_segment_lf_level([1, 2, 3, 4]);
    for segment in [3, 4, 255] {
        assert_eq!(rust::calculate_mb_filter_level(&config, Some(segment), IntraYMode::Dc), 24);
        assert_eq!(key_level(&config, segment, 0), Ok(24));
    }
}

#[test]
fn numbers_beyond_the_header() {
    let config = header(200).with_delta_enabled(true).with_ref_delta_current(-10);
    assert_eq!(rust::calculate_mb_filter_level(&config, None, IntraYMode::Dc), 53);
    assert_eq!(key_level(&config, 0, 0), Ok(53));
    let config = config.with_bpred_mode_delta(i16::MAX);
    assert_eq!(rust::calculate_mb_filter_level(&config, None, IntraYMode::B), 63);
    assert_eq!(key_level(&config, 0, 4), Ok(63));
}

// ---- passes

/// A picture, and the bytes of its lists.
#[derive(Clone)]
struct Picture {
    planes: KeyframePlanes,
    modes: Vec<u8>,
    segments: Vec<u8>,
    flags: Vec<u8>,
    references: Vec<u8>,
    inter_modes: Vec<u8>,
}

/// Samples of 100 and 104 in squares of 4 by 4, as a checkerboard, so that every edge has something to smooth. Every byte
/// of the lists is 0.
fn checkerboard(mb_cols: usize, mb_rows: usize, y_stride: usize, uv_stride: usize) -> Picture {
    let plane = |side: usize, stride: usize| -> Vec<u8> {
        let len = side * mb_rows * stride.max(side * mb_cols);
        (0..len).map(|i| 100 + 4 * ((i / stride / 4 + i % stride / 4) % 2) as u8).collect()
    };
    let (y, u, v) = (plane(16, y_stride), plane(8, uv_stride), plane(8, uv_stride));
    let zeros = vec![0; mb_cols * mb_rows];
    Picture {
        planes: KeyframePlanes { y, u, v, y_stride, uv_stride, mb_cols, mb_rows },
        modes: zeros.clone(),
        segments: zeros.clone(),
        flags: zeros.clone(),
        references: zeros.clone(),
        inter_modes: zeros,
    }
}

impl Picture {
    fn new(mb_cols: usize, mb_rows: usize) -> Picture {
        checkerboard(mb_cols, mb_rows, 16 * mb_cols, 8 * mb_cols)
    }

    /// Every macroblock has mode B, so that all inner edges are filtered.
    fn of_mode_b(mut self) -> Picture {
        self.modes.fill(4);
        self
    }

    fn lists(&self) -> Lists<'_> {
        let Picture { modes, segments, flags, references, inter_modes, .. } = self;
        Lists { modes, segments, flags, references, inter_modes }
    }

    fn layout(&self) -> Layout {
        let KeyframePlanes { mb_cols, mb_rows, y_stride, uv_stride, .. } = self.planes;
        Layout { columns: mb_cols, rows: mb_rows, y_stride, uv_stride }
    }

    /// What the Rust's pass leaves.
    fn rust(&self, pass: Pass, config: &FrameFilterConfig) -> Result<KeyframePlanes, Panicked> {
        let records = bytes::Records::of(&self.lists()).expect("the Rust has such records");
        let bytes::Records { modes, has_coeffs, references, inter_modes } = records;
        let (mut planes, config) = (self.planes.clone(), *config);
        caught(move || {
            match pass {
                Pass::Key => oracle::filter_frame_flags(&mut planes, &modes, &has_coeffs, &config),
                Pass::Inter => oracle::filter_inter_frame_flags(
                    &mut planes,
                    &modes,
                    &has_coeffs,
                    &references,
                    &inter_modes,
                    &config,
                ),
            }
            planes
        })
    }

    /// The number of the library's refusal, or 0, with count and next start, and what the call leaves.
    fn part(
        &self,
        pass: Pass,
        config: &FrameFilterConfig,
        start: usize,
        allowance: usize,
    ) -> (u8, [usize; 2], KeyframePlanes) {
        let (number, [count, next, _], planes) = self.counted(Form::Pass, pass, config, start, allowance);
        (number, [count, next], planes)
    }

    /// What the library's frame call from start 0 leaves, with its count and next start.
    fn frame_call(&self, pass: Pass, config: &FrameFilterConfig, allowance: usize) -> (u8, [usize; 2], KeyframePlanes) {
        let (number, [count, next, _], planes) = self.counted(Form::Frame, pass, config, 0, allowance);
        (number, [count, next], planes)
    }

    /// The same of either, with the positions smoothed.
    fn counted(
        &self,
        form: Form,
        pass: Pass,
        config: &FrameFilterConfig,
        start: usize,
        allowance: usize,
    ) -> (u8, [usize; 3], KeyframePlanes) {
        let (mut planes, mut out) = (self.planes.clone(), [99; 3]);
        let lent = [&mut planes.y[..], &mut planes.u, &mut planes.v];
        let (layout, lists) = (self.layout(), self.lists());
        let number = entries::filter_as(form, pass, lent, &layout, &lists, config, start, allowance, out.each_mut());
        (number, out, planes)
    }

    /// What the library's whole pass leaves, or the number of its refusal, which leaves the planes alone.
    #[track_caller]
    fn here(&self, pass: Pass, config: &FrameFilterConfig) -> Result<KeyframePlanes, u8> {
        let (number, progress, planes) = self.part(pass, config, 0, usize::MAX);
        if number == 0 {
            return Ok(planes);
        }
        assert_eq!(progress, [99, 99], "a refusal tells no count and no next start");
        assert!(planes == self.planes, "a refusal changes nothing");
        Err(number)
    }

    /// What both leave.
    #[track_caller]
    fn both(&self, pass: Pass, config: &FrameFilterConfig) -> KeyframePlanes {
        let (theirs, ours) = (self.rust(pass, config).expect("no panic"), self.here(pass, config).expect("no refusal"));
        assert!(theirs == ours, "the Rust and the library leave the same");
        ours
    }
}

const PASSES: [Pass; 2] = [Pass::Key, Pass::Inter];

#[test]
fn split_without_mode_b() {
    let mut picture = Picture::new(1, 1);
    (picture.references, picture.inter_modes) = (vec![1], vec![5]);
    assert!(picture.both(Pass::Inter, &header(32)) == picture.planes, "no inner edge");
    assert!(picture.clone().of_mode_b().both(Pass::Inter, &header(32)) != picture.planes, "with mode B there are");
}

#[test]
fn header_level_0_with_a_delta() {
    let picture = Picture::new(2, 1);
    let config = header(0).with_delta_enabled(true).with_ref_delta_current(20);
    for pass in PASSES {
        assert!(picture.both(pass, &config) != picture.planes, "filtered");
        assert!(picture.both(pass, &config.with_delta_enabled(false)) == picture.planes, "level 0");
    }
}

/// With a segment's level too, and halted: the first of the two macroblocks, which has no edge, counts as done.
#[test]
fn frame_call_at_header_level_0() {
    let picture = Picture::new(2, 1);
    let delta = header(0).with_delta_enabled(true).with_ref_delta_current(20);
    let segment = header(0).with_segmentation_enabled(true).with_segment_abs(true).with_segment_lf_level([20; 4]);
    for (pass, config) in PASSES.into_iter().flat_map(|pass| [(pass, delta), (pass, segment)]) {
        let filtered = picture.both(pass, &config);
        assert!(filtered != picture.planes, "the Rust filters");
        assert!(picture.frame_call(pass, &config, 2) == (0, [2, 2], picture.planes.clone()), "skipped");
        assert!(picture.frame_call(pass, &config, 1) == (0, [1, 1], picture.planes.clone()), "skipped and halted");
        let above = config.with_loop_filter_level(1);
        assert!(picture.both(pass, &above) != picture.planes, "the Rust filters");
        assert!(picture.frame_call(pass, &above, 2) == (0, [2, 2], picture.both(pass, &above)), "as the Rust");
    }
    let short = Picture { flags: vec![0], ..picture };
    assert_eq!(short.frame_call(Pass::Key, &delta, 2).0, 5, "refused before it is skipped");
}

#[test]
fn coded_but_all_zero() {
    let mut picture = Picture::new(1, 1);
    let modes = bytes::Records::of(&picture.lists()).expect("records").modes;
    for (number, filtered) in [(0, false), (-1, true)] {
        let mut coeffs = MbCoeffs::default();
        coeffs.v[3][15] = number;
        let mut flat = [0; 400];
        flat[399] = number;
        let mut theirs = picture.planes.clone();
        rust::filter_frame(&mut theirs, &modes, &[coeffs], &header(32));
        assert_eq!((oracle::mb_has_coeffs(&coeffs), entries::mb_has_coeffs(&flat)), (filtered, filtered));
        picture.flags = vec![entries::mb_has_coeffs(&flat) as u8];
        let ours = picture.here(Pass::Key, &header(32)).expect("no refusal");
        assert_eq!((theirs == picture.planes, ours == picture.planes), (!filtered, !filtered));
        assert!(theirs == ours);
    }
}

/// Number 290 is number 2 of the second block of u, number 350 number 14 of the first block of v.
#[test]
fn first_coefficient() {
    let (mut coeffs, mut flat) = (MbCoeffs::default(), [0; 400]);
    assert_eq!((oracle::mb_has_coeffs(&coeffs), entries::first_coeff(&flat)), (false, 400));
    (coeffs.u[1][2], flat[290]) = (-7, -7);
    (coeffs.v[0][14], flat[350]) = (1, 1);
    assert_eq!((oracle::mb_has_coeffs(&coeffs), entries::first_coeff(&flat)), (true, 290));
}

#[test]
fn key_mark_in_the_inter_pass() {
    let mut picture = Picture::new(2, 1);
    let row = [100, 100, 100, 102, 106, 106, 106, 106];
    picture.planes.y.chunks_mut(32).for_each(|samples| samples[12..20].copy_from_slice(&row));
    // At level 20 the threshold is 1 with the mark and 2 without it; the samples left of the edge differ by 2.
    let [key, inter] = [true, false].map(|mark| picture.both(Pass::Inter, &header(20).with_key_frame(mark)));
    assert_eq!(
        (&key.y[12..20], &inter.y[12..20]),
        (&[100, 100, 100, 103, 105, 106, 106, 106][..], &[100, 100, 101, 103, 105, 105, 106, 106][..])
    );
}

/// Both macroblocks of a picture of one column by the simple filter, luma alone, with the steps in the order given: 2 the
/// inner vertical edges, 3 the top edge, 4 the inner horizontal ones.
fn by_hand(picture: &Picture, border: u8, inner: u8, order: [u8; 3]) -> Vec<u8> {
    let mut y = picture.planes.y.clone();
    let mut edge = |limit: u8, taps: &dyn Fn(usize, usize) -> usize| {
        for position in 0..16 {
            let mut window: [u8; 4] = std::array::from_fn(|tap| y[taps(position, tap)]);
            assert_eq!(entries::simple_segment(limit, &mut window, 0, &mut 0), 0);
            window.iter().enumerate().for_each(|(tap, sample)| y[taps(position, tap)] = *sample);
        }
    };
    for top in [0, 16] {
        for step in order {
            match step {
                2 => [4, 8, 12].iter().for_each(|x| edge(inner, &|j, tap| (top + j) * 16 + x - 2 + tap)),
                3 if top == 0 => {}
                3 => edge(border, &|j, tap| (top - 2 + tap) * 16 + j),
                _ => [4, 8, 12].iter().for_each(|x| edge(inner, &|j, tap| (top + x - 2 + tap) * 16 + j)),
            }
        }
    }
    y
}

#[test]
fn vertical_edges_in_step_2() {
    let mut picture = Picture::new(1, 2).of_mode_b();
    picture.planes.y.iter_mut().enumerate().for_each(|(i, sample)| *sample = 100 + (i * 7 % 13) as u8);
    let [_, _, border, inner] = derived(32, 0, true);
    let left = picture.both(Pass::Key, &header(32).with_key_frame(true).with_simple(true)).y;
    assert!(left == by_hand(&picture, border, inner, [2, 3, 4]));
    assert!(left != by_hand(&picture, border, inner, [3, 2, 4]));
}

#[test]
fn positions_smoothed() {
    let picture = Picture::new(2, 1).of_mode_b();
    let mut flat = picture.clone();
    [&mut flat.planes.y, &mut flat.planes.u, &mut flat.planes.v].into_iter().for_each(|plane| plane.fill(100));
    for pass in PASSES {
        let told = |picture: &Picture, level: u8, start: usize, allowance: usize| {
            let (number, out, planes) = picture.counted(Form::Pass, pass, &header(level), start, allowance);
            assert_eq!(number, 0);
            (out, planes)
        };
        let (whole, left) = told(&picture, 32, 0, usize::MAX);
        assert_eq!((whole, left.clone()), ([2, 2, 288], picture.both(pass, &header(32))));
        let (first, halted) = told(&picture, 32, 0, 1);
        let (second, planes) = told(&Picture { planes: halted, ..picture.clone() }, 32, 1, 1);
        assert_eq!((first, second), ([1, 1, 128], [1, 2, 160]));
        assert!(planes == left);
        assert!(told(&picture, 1, 0, 2) == ([2, 2, 0], picture.planes.clone()));
        assert!(told(&flat, 1, 0, 2) == ([2, 2, 288], flat.planes.clone()));
        assert_eq!(picture.counted(Form::Pass, pass, &header(32), 3, 1).1, [99; 3]);
        assert_eq!(picture.counted(Form::Frame, pass, &header(0), 0, 2).1, [2, 2, 0]);
    }
}

#[test]
fn grid_above_1024() {
    for (columns, rows) in [(1025, 1), (1, 1025)] {
        let picture = Picture::new(columns, rows);
        for pass in PASSES {
            assert!(picture.rust(pass, &header(32)).expect("computed") != picture.planes);
            assert_eq!(picture.here(pass, &header(32)), Err(1));
        }
    }
}

#[test]
fn stride_below_the_row() {
    for (y_stride, uv_stride) in [(31, 16), (32, 15)] {
        let picture = checkerboard(2, 1, y_stride, uv_stride);
        for pass in PASSES {
            assert!(picture.rust(pass, &header(32)).expect("computed") != picture.planes);
            assert_eq!(picture.here(pass, &header(32)), Err(2));
        }
    }
}

#[test]
fn stride_above_65536() {
    for (y_stride, uv_stride) in [(65_537, 8), (16, 65_537)] {
        let picture = checkerboard(1, 1, y_stride, uv_stride).of_mode_b();
        for pass in PASSES {
            assert!(picture.rust(pass, &header(32)).expect("computed") != picture.planes);
            assert_eq!(picture.here(pass, &header(32)), Err(2));
        }
    }
}

#[test]
fn plane_one_byte_short() {
    let mut picture = Picture::new(1, 1);
    picture.planes.y.truncate(255);
    for pass in PASSES {
        assert!(picture.rust(pass, &header(32)).expect("no edge") == picture.planes);
        assert_eq!(picture.here(pass, &header(32)), Err(3));
        assert_eq!(picture.clone().of_mode_b().rust(pass, &header(32)), Err(Panicked));
        assert_eq!(picture.clone().of_mode_b().here(pass, &header(32)), Err(3));
    }
}

#[test]
fn list_of_another_length() {
    let mut picture = Picture::new(2, 1);
    picture.modes = vec![0];
    for pass in PASSES {
        assert!(picture.rust(pass, &header(32)).expect("returned") == picture.planes);
        assert_eq!(picture.here(pass, &header(32)), Err(5));
    }
}

#[test]
fn byte_of_no_case_in_a_pass() {
    let picture = Picture::new(2, 1);
    let mode = Picture { modes: vec![0, 5], ..picture.clone() };
    let reference = Picture { references: vec![0, 4], ..picture.clone() };
    let inter_mode = Picture { inter_modes: vec![0, 6], ..picture };
    for bad in [&mode, &reference, &inter_mode] {
        assert!(bytes::Records::of(&bad.lists()).is_none(), "the Rust has no such record");
        assert_eq!(bad.here(Pass::Inter, &header(32)), Err(6));
        assert_eq!(bad.part(Pass::Inter, &header(32), 0, 0).0, 6, "the whole list is looked at");
    }
    assert_eq!(mode.here(Pass::Key, &header(32)), Err(6));
    assert!(reference.here(Pass::Key, &header(32)).is_ok(), "the key pass reads no references");
}

#[test]
fn start_above_the_grid() {
    let picture = Picture::new(2, 1);
    for pass in PASSES {
        let whole = picture.rust(pass, &header(32)).expect("no panic");
        assert!(picture.part(pass, &header(32), 0, 2) == (0, [2, 2], whole));
        assert!(picture.part(pass, &header(32), 2, 2) == (0, [0, 2], picture.planes.clone()));
        assert!(picture.part(pass, &header(32), 3, 2) == (7, [99, 99], picture.planes.clone()));
    }
}

// ---- error sums and search

/// One macroblock of samples 10, in planes that reach `extra` samples further.
fn one_macroblock(extra: usize) -> KeyframePlanes {
    let (y, u, v) = (vec![10; 256 + extra], vec![10; 64 + extra], vec![10; 64 + extra]);
    KeyframePlanes { y, u, v, y_stride: 16, uv_stride: 8, mb_cols: 1, mb_rows: 1 }
}

/// The Rust's sum, and the library's or the number of its refusal, against a source with this luma plane and chroma of 10.
fn sums(
    planes: &KeyframePlanes,
    (width, height): (usize, usize),
    y: &[u8],
    (y_stride, uv_stride): (usize, usize),
) -> (Result<u64, Panicked>, Result<u64, u8>) {
    let chroma = [10; 200];
    let (u, v) = (&chroma[..], &chroma[..]);
    let source = SourcePlanes { width, height, y, u, v, y_stride, uv_stride };
    let theirs = caught(|| rust::reconstruction_ssd(planes, &source));
    let KeyframePlanes { y, u, v, mb_cols: columns, mb_rows: rows, .. } = planes;
    let layout = Layout { columns: *columns, rows: *rows, y_stride: planes.y_stride, uv_stride: planes.uv_stride };
    let source = Source { planes: [source.y, source.u, source.v], width, height, y_stride, uv_stride };
    let mut sum = 99;
    let ours = match entries::reconstruction_ssd([y, u, v], &layout, &source, &mut sum) {
        0 => Ok(sum),
        number => {
            assert_eq!(sum, 99, "a refusal tells no sum");
            Err(number)
        }
    };
    (theirs, ours)
}

#[test]
fn width_or_height_0() {
    let planes = one_macroblock(0);
    assert_eq!(sums(&planes, (0, 5), &[0; 256], (16, 8)), (Ok(0), Ok(0)));
    assert_eq!(sums(&planes, (0, 5), &[], (16, 8)), (Err(Panicked), Ok(0)));
    assert_eq!(sums(&planes, (5, 0), &[], (0, 0)), (Ok(0), Ok(0)));
}

#[test]
fn source_beyond_the_grid() {
    assert_eq!(sums(&one_macroblock(1), (17, 16), &[11; 272], (17, 9)), (Ok(17 * 16), Err(8)));
}

#[test]
fn source_stride_below_its_row() {
    assert_eq!(sums(&one_macroblock(0), (16, 16), &[11; 256], (15, 8)), (Ok(256), Err(9)));
}

#[test]
fn source_stride_above_65536() {
    assert_eq!(sums(&one_macroblock(0), (1, 2), &[11; 65_538], (65_537, 8)), (Ok(2), Err(9)));
    assert_eq!(sums(&one_macroblock(0), (1, 2), &[11; 65_537], (65_536, 8)), (Ok(2), Ok(2)));
}

#[test]
fn source_plane_one_byte_short() {
    let planes = one_macroblock(0);
    assert_eq!(sums(&planes, (16, 16), &[10; 256], (16, 8)), (Ok(0), Ok(0)));
    assert_eq!(sums(&planes, (16, 16), &[10; 255], (16, 8)), (Err(Panicked), Err(9)));
}

#[test]
fn sums_over_a_part_of_the_grid() {
    let (y, u, v) = (vec![13], vec![10], vec![10]);
    let planes = KeyframePlanes { y, u, v, ..one_macroblock(0) };
    assert_eq!(sums(&planes, (1, 1), &[10], (1, 1)), (Ok(9), Err(3)));
    assert_eq!(sums(&KeyframePlanes { y_stride: 15, ..planes.clone() }, (1, 1), &[10], (1, 1)), (Ok(9), Err(2)));
    assert_eq!(sums(&KeyframePlanes { mb_cols: 1025, ..planes }, (1, 1), &[10], (1, 1)), (Ok(9), Err(1)));
}

/// What the key search answers and leaves.
struct Searched {
    /// Level and sharpness. `None`: the Rust has no such records.
    rust: Option<(u8, u8)>,
    here: Result<Choice, u8>,
    scratch: KeyframePlanes,
}

const UNTOUCHED: u8 = 7;

impl Searched {
    fn scratch_stays(&self) -> bool {
        let KeyframePlanes { y, u, v, .. } = &self.scratch;
        [y, u, v].into_iter().flatten().all(|sample| *sample == UNTOUCHED)
    }
}

/// The search over a picture, against a source of the grid's size, with scratch so many bytes longer than the planes.
fn search(picture: &Picture, config: &FrameFilterConfig, source: &KeyframePlanes, longer: isize) -> Searched {
    let KeyframePlanes { y, u, v, y_stride, uv_stride, .. } = source;
    let (width, height) = (16 * source.mb_cols, 16 * source.mb_rows);
    let source = SourcePlanes { width, height, y, u, v, y_stride: *y_stride, uv_stride: *uv_stride };
    let theirs = bytes::Records::of(&picture.lists()).map(|records| {
        rust::select_filter_params(&picture.planes, &records.modes, &records.has_coeffs, config, &source, None)
    });
    let source = Source { planes: [y, u, v], width, height, y_stride: *y_stride, uv_stride: *uv_stride };
    let KeyframePlanes { y, u, v, .. } = &picture.planes;
    let (layout, lists) = (picture.layout(), picture.lists());
    let asked = Search { pass: Pass::Key, planes: [y, u, v], layout: &layout, source: &source, lists: &lists, config };
    let [y, u, v] = [y, u, v].map(|plane| vec![UNTOUCHED; plane.len().wrapping_add_signed(longer)]);
    let mut scratch = KeyframePlanes { y, u, v, ..picture.planes };
    let mut choice = Choice { level: 99, sharpness: 99, count: 99 };
    let lent = [&mut scratch.y[..], &mut scratch.u, &mut scratch.v];
    let here = match entries::select(&asked, Sought::Params, lent, &mut choice) {
        0 => Ok(choice),
        number => Err(number),
    };
    Searched { rust: theirs, here, scratch }
}

#[test]
fn byte_of_no_case_in_a_search() {
    let mut picture = Picture::new(1, 1);
    picture.modes = vec![5];
    let searched = search(&picture, &header(0), &picture.planes, 1);
    assert_eq!((searched.rust, searched.here), (None, Err(6)));
    assert!(searched.scratch_stays());
}

/// A picture of two macroblocks of mode B, and what level 24 leaves of it.
fn worth_filtering() -> (Picture, KeyframePlanes) {
    let picture = Picture::new(2, 1).of_mode_b();
    let smooth = picture.both(Pass::Key, &header(24));
    (picture, smooth)
}

#[test]
fn scratch_is_lent() {
    let (picture, smooth) = worth_filtering();
    let Searched { rust, here, scratch } = search(&picture, &header(0), &smooth, 1);
    let here = here.expect("no refusal");
    assert_eq!(rust, Some((here.level, here.sharpness)));
    let chosen = header(here.level).with_sharpness_level(here.sharpness);
    let left = picture.both(Pass::Key, &chosen);
    for (scratch, left) in [(&scratch.y, &left.y), (&scratch.u, &left.u), (&scratch.v, &left.v)] {
        let (last, grid) = scratch.split_last().expect("samples");
        assert_eq!((grid, *last), (&left[..], UNTOUCHED));
    }
}

#[test]
fn scratch_one_byte_short() {
    let (picture, smooth) = worth_filtering();
    let searched = search(&picture, &header(0), &smooth, -1);
    assert_eq!(searched.here, Err(3));
    assert!(searched.rust.is_some() && searched.scratch_stays());
}

#[test]
fn candidates_are_counted() {
    let (picture, smooth) = worth_filtering();
    let sum = |level: u8, sharpness: u8| {
        let config = header(level).with_sharpness_level(sharpness);
        let planes =
            if level == 0 { picture.planes.clone() } else { picture.rust(Pass::Key, &config).expect("no panic") };
        let KeyframePlanes { y, u, v, y_stride, uv_stride, .. } = &smooth;
        let (y_stride, uv_stride) = (*y_stride, *uv_stride);
        rust::reconstruction_ssd(&planes, &SourcePlanes { width: 32, height: 16, y, u, v, y_stride, uv_stride })
    };
    let (level, sharpness, count) = rules::choice(0, sum);
    let searched = search(&picture, &header(0), &smooth, 0);
    assert_eq!((searched.rust, searched.here), (Some((level, sharpness)), Ok(Choice { level, sharpness, count })));
    assert!(level > 0 && (26..=30).contains(&count));
    // Nothing is better than the reconstruction itself. The Rust answers the pair alone.
    let searched = search(&picture, &header(0).with_sharpness_level(9), &picture.planes, 0);
    assert_eq!((searched.rust, searched.here), (Some((0, 7)), Ok(Choice { level: 0, sharpness: 7, count: 19 })));
}

#[test]
fn every_pair_is_tried() {
    let picture = Picture::new(2, 1).of_mode_b();
    let smooth = picture.both(Pass::Key, &header(5).with_sharpness_level(5));
    let searched = search(&picture, &header(0), &smooth, 0);
    assert_eq!(searched.rust, Some((4, 0)));
    let KeyframePlanes { y, u, v, y_stride, uv_stride, .. } = &smooth;
    let (width, height, y_stride, uv_stride) = (32, 16, *y_stride, *uv_stride);
    let chosen = picture.both(Pass::Key, &header(4));
    assert_eq!(rust::reconstruction_ssd(&chosen, &SourcePlanes { width, height, y, u, v, y_stride, uv_stride }), 2);

    let source = Source { planes: [y, u, v], width, height, y_stride, uv_stride };
    let (layout, lists, mut scratch) = (picture.layout(), picture.lists(), picture.planes.clone());
    let KeyframePlanes { y, u, v, .. } = &picture.planes;
    let config = &header(0);
    let asked = Search { pass: Pass::Key, planes: [y, u, v], layout: &layout, source: &source, lists: &lists, config };
    let (mut level, mut sharpness, mut sum) = (99, 99, 99);
    let lent = [&mut scratch.y[..], &mut scratch.u, &mut scratch.v];
    assert_eq!(entries::full_search(&asked, lent, &mut level, &mut sharpness, &mut sum), 0);
    assert_eq!((level, sharpness, sum), (5, 5, 0));
    assert!(scratch == smooth);
}

// ---- items

#[test]
fn constants_of_the_deltas() {
    assert_eq!((rust::MAX_REF_LF_DELTAS, rust::MAX_MODE_LF_DELTAS, rust::MAX_MB_SEGMENTS), (4, 4, 4));
    let config = vp8_loop_filter::FrameFilterConfig::default();
    assert_eq!((config.ref_deltas().len(), config.mode_deltas().len()), (4, 4));
    assert_eq!(vp8_loop_filter::MAX_MB_SEGMENTS, 4);
}
