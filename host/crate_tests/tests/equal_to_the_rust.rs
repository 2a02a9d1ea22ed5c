//! The records and settings of this crate reach the library as those of the Rust do: both give the same on random
//! pictures.

use vp8_loop_filter as here;

const MODES: [(oracle::IntraYMode, here::IntraYMode); 5] = [
    (oracle::IntraYMode::Dc, here::IntraYMode::Dc),
    (oracle::IntraYMode::V, here::IntraYMode::V),
    (oracle::IntraYMode::H, here::IntraYMode::H),
    (oracle::IntraYMode::Tm, here::IntraYMode::Tm),
    (oracle::IntraYMode::B, here::IntraYMode::B),
];
const REFERENCES: [(Option<oracle::RefFrame>, Option<here::RefFrame>); 4] = [
    (None, None),
    (Some(oracle::RefFrame::Last), Some(here::RefFrame::Last)),
    (Some(oracle::RefFrame::Golden), Some(here::RefFrame::Golden)),
    (Some(oracle::RefFrame::AltRef), Some(here::RefFrame::AltRef)),
];
const INTER_MODES: [(Option<oracle::InterMode>, Option<here::InterMode>); 6] = [
    (None, None),
    (Some(oracle::InterMode::Zero), Some(here::InterMode::Zero)),
    (Some(oracle::InterMode::Nearest), Some(here::InterMode::Nearest)),
    (Some(oracle::InterMode::Near), Some(here::InterMode::Near)),
    (Some(oracle::InterMode::New), Some(here::InterMode::New)),
    (Some(oracle::InterMode::Split), Some(here::InterMode::Split)),
];

struct Random(u64);

impl Random {
    fn below(&mut self, n: usize) -> usize {
        self.0 = self.0.wrapping_mul(6364136223846793005).wrapping_add(1442695040888963407);
        (self.0 >> 33) as usize % n
    }

    fn flag(&mut self) -> bool {
        self.below(2) == 1
    }

    fn number(&mut self) -> i16 {
        self.below(41) as i16 - 20
    }

    fn one_of<T: Copy>(&mut self, list: &[T]) -> T {
        list[self.below(list.len())]
    }

    /// Samples that differ little from their neighbours, so that the filter's tests pass.
    fn samples(&mut self, len: usize) -> Vec<u8> {
        let spread = 1 + self.below(12);
        (0..len).map(|_| (100 + self.below(spread)) as u8).collect()
    }
}

/// The same settings, records and coefficients for both sides.
struct Case {
    config: (oracle::FrameFilterConfig, here::FrameFilterConfig),
    modes: (Vec<oracle::MacroblockModes>, Vec<here::MacroblockModes>),
    coeffs: (Vec<oracle::MbCoeffs>, Vec<here::MbCoeffs>),
    flags: Vec<bool>,
    references: (Vec<Option<oracle::RefFrame>>, Vec<Option<here::RefFrame>>),
    inter_modes: (Vec<Option<oracle::InterMode>>, Vec<Option<here::InterMode>>),
    planes: here::KeyframePlanes,
    source: [Vec<u8>; 3],
}

macro_rules! config {
    ($random:expr, $($with:ident($value:expr)),* $(,)?) => {{
        let (mut old, mut new) = (oracle::FrameFilterConfig::default(), here::FrameFilterConfig::default());
        $(let value = $value;
        old = old.$with(value);
        new = new.$with(value);)*
        (old, new)
    }};
}

fn random_case(random: &mut Random) -> Case {
    let (mb_cols, mb_rows) = (1 + random.below(4), 1 + random.below(4));
    let n = mb_cols * mb_rows;
    let (y_stride, uv_stride) = (16 * mb_cols + random.below(3), 8 * mb_cols + random.below(3));
    let y = random.samples(y_stride * 16 * mb_rows);
    let (u, v) = (random.samples(uv_stride * 8 * mb_rows), random.samples(uv_stride * 8 * mb_rows));
    let config = config!(
        random,
        with_simple(random.flag()),
        with_key_frame(random.flag()),
        with_loop_filter_level(random.below(80) as u8),
        with_sharpness_level(random.below(10) as u8),
        with_segmentation_enabled(random.flag()),
        with_segment_abs(random.flag()),
        with_segment_lf_level([0; 4].map(|_| 2 * random.number())),
        with_delta_enabled(random.flag()),
        with_ref_delta_current(random.number()),
        with_bpred_mode_delta(random.number()),
        with_ref_delta_last(random.number()),
        with_ref_delta_golden(random.number()),
        with_ref_delta_altref(random.number()),
        with_zero_mv_mode_delta(random.number()),
        with_other_mv_mode_delta(random.number()),
        with_split_mv_mode_delta(random.number()),
    );
    let modes = (0..n).map(|_| {
        let (old, new) = random.one_of(&MODES);
        let segment_id = random.one_of(&[None, Some(0), Some(1), Some(2), Some(3), Some(200)]);
        let uv_mode = oracle::IntraUvMode::Dc;
        let old =
            oracle::MacroblockModes { segment_id, mb_skip_coeff: false, y_mode: old, subblock_modes: None, uv_mode };
        (old, here::MacroblockModes { y_mode: new, segment_id })
    });
    let modes = modes.unzip();
    let coeffs: (Vec<_>, Vec<_>) = (0..n).map(|_| random_coeffs(random)).unzip();
    Case {
        config,
        modes,
        flags: coeffs.0.iter().map(oracle::mb_has_coeffs).collect(),
        coeffs,
        references: (0..n).map(|_| random.one_of(&REFERENCES)).unzip(),
        inter_modes: (0..n).map(|_| random.one_of(&INTER_MODES)).unzip(),
        source: [random.samples(y.len()), random.samples(u.len()), random.samples(v.len())],
        planes: here::KeyframePlanes { y, u, v, y_stride, uv_stride, mb_cols, mb_rows },
    }
}

/// None, or one that is not 0 somewhere.
fn random_coeffs(random: &mut Random) -> (oracle::MbCoeffs, here::MbCoeffs) {
    let mut old = oracle::MbCoeffs::default();
    let (block, place) = (random.below(4), random.below(16));
    match random.below(6) {
        0 => old.y2[place] = -1,
        1 => old.y[place][place] = 1,
        2 => old.u[block][place] = i16::MIN,
        3 => old.v[block][place] = i16::MAX,
        _ => {}
    }
    let oracle::MbCoeffs { y2, y, u, v } = old;
    (old, here::MbCoeffs { y2, y, u, v })
}

fn of_the_rust(planes: &here::KeyframePlanes) -> oracle::KeyframePlanes {
    let here::KeyframePlanes { y, u, v, y_stride, uv_stride, mb_cols, mb_rows } = planes.clone();
    oracle::KeyframePlanes { y, u, v, y_stride, uv_stride, mb_cols, mb_rows }
}

fn cases() -> impl Iterator<Item = Case> {
    let mut random = Random(1);
    (0..400).map(move |_| random_case(&mut random))
}

#[test]
fn both_passes() {
    let mut changed = 0;
    for case in cases() {
        let mut expected = of_the_rust(&case.planes);
        oracle::loop_filter::filter_frame(&mut expected, &case.modes.0, &case.coeffs.0, &case.config.0);
        let mut planes = case.planes.clone();
        here::filter_frame(&mut planes, &case.modes.1, &case.coeffs.1, &case.config.1).expect("accepted");
        assert_eq!(of_the_rust(&planes), expected);
        changed += (planes != case.planes) as usize;

        let mut planes = case.planes.clone();
        here::filter_frame_flags(&mut planes, &case.modes.1, &case.flags, &case.config.1).expect("accepted");
        assert_eq!(of_the_rust(&planes), expected);

        let mut expected = of_the_rust(&case.planes);
        let lists = (&case.references.0, &case.inter_modes.0);
        let config = &case.config.0;
        oracle::loop_filter::filter_inter_frame(&mut expected, &case.modes.0, &case.coeffs.0, lists.0, lists.1, config);
        let lists = (&case.references.1, &case.inter_modes.1);
        let mut planes = case.planes.clone();
        let config = &case.config.1;
        here::filter_inter_frame(&mut planes, &case.modes.1, &case.coeffs.1, lists.0, lists.1, config)
            .expect("accepted");
        assert_eq!(of_the_rust(&planes), expected);

        let mut planes = case.planes.clone();
        here::filter_inter_frame_flags(&mut planes, &case.modes.1, &case.flags, lists.0, lists.1, config)
            .expect("accepted");
        assert_eq!(of_the_rust(&planes), expected);
    }
    assert!(changed > 200, "only {changed} pictures changed");
}

#[test]
fn halted_passes() {
    let mut random = Random(2);
    for case in cases() {
        let n = case.flags.len();
        let (mut key, mut inter) = (case.planes.clone(), case.planes.clone());
        let (lists, config) = ((&case.references.1, &case.inter_modes.1), &case.config.1);
        here::filter_frame_flags(&mut key, &case.modes.1, &case.flags, config).expect("accepted");
        here::filter_inter_frame_flags(&mut inter, &case.modes.1, &case.flags, lists.0, lists.1, config)
            .expect("accepted");

        let mut halted = [case.planes.clone(), case.planes.clone()];
        let (mut starts, mut smoothed) = ([0; 2], [0; 2]);
        while starts != [n; 2] {
            let allowance = random.below(n + 1);
            let [key_start, inter_start] = starts;
            let [key, inter] = &mut halted;
            let key = here::filter_frame_from(key, &case.modes.1, &case.flags, config, key_start, allowance);
            let inter = here::filter_inter_frame_from(
                inter,
                &case.modes.1,
                &case.flags,
                lists.0,
                lists.1,
                config,
                inter_start,
                allowance,
            );
            for ((start, sum), done) in starts.iter_mut().zip(&mut smoothed).zip([key, inter]) {
                let done = done.expect("accepted");
                assert_eq!((done.count, done.next), (allowance.min(n - *start), *start + done.count));
                *start = done.next;
                *sum += done.smoothed;
            }
        }
        assert_eq!(halted, [key, inter]);
        assert_eq!(smoothed, [false, true].map(|inter| smoothed_by_the_model(&case, &case.config.0, inter)));
    }
}

/// The positions that a pass smooths: the Rust's own kernels, levels and limits, position by position.
fn smoothed_by_the_model(case: &Case, config: &oracle::FrameFilterConfig, inter: bool) -> usize {
    let mut walk = oracle::positions::Walk::new(of_the_rust(&case.planes), *config);
    let mut smoothed = 0;
    for (m, modes) in case.modes.0.iter().enumerate() {
        let (segment, mode) = (modes.segment_id, modes.y_mode);
        let (reference, inter_mode) = (case.references.0[m], case.inter_modes.0[m]);
        let level = match inter {
            false => oracle::loop_filter::calculate_mb_filter_level(config, segment, mode),
            true => oracle::loop_filter::calculate_mb_filter_level_inter(config, segment, reference, inter_mode, mode),
        };
        let inner = mode == oracle::IntraYMode::B || case.flags[m];
        smoothed += walk.step(m, level, inner).smoothed;
    }
    smoothed
}

/// What the Rust's passes leave, key and inter, or the planes as they are where the header level is 0.
fn frames_by_the_rust(case: &Case, config: &oracle::FrameFilterConfig) -> [oracle::KeyframePlanes; 2] {
    let [mut key, mut inter] = [of_the_rust(&case.planes), of_the_rust(&case.planes)];
    if config.loop_filter_level > 0 {
        let (modes, coeffs) = (&case.modes.0, &case.coeffs.0);
        oracle::loop_filter::filter_frame(&mut key, modes, coeffs, config);
        let (references, inter_modes) = (&case.references.0, &case.inter_modes.0);
        oracle::loop_filter::filter_inter_frame(&mut inter, modes, coeffs, references, inter_modes, config);
    }
    [key, inter]
}

/// What a call leaves of the planes.
fn left(
    case: &Case,
    filter: impl FnOnce(&mut here::KeyframePlanes) -> Result<(), here::Refusal>,
) -> here::KeyframePlanes {
    let mut planes = case.planes.clone();
    filter(&mut planes).expect("accepted");
    planes
}

/// What each frame call of the key frame leaves. Those that tell how many positions they smoothed come to this number.
fn key_frames_here(
    case: &Case,
    config: &here::FrameFilterConfig,
    halt: usize,
    smoothed: usize,
) -> Vec<here::KeyframePlanes> {
    let Case { modes: (_, modes), coeffs: (_, coeffs), flags, .. } = case;
    let from =
        |planes: &mut _, start, allowance| here::loop_filter_frame_from(planes, modes, flags, config, start, allowance);
    vec![
        left(case, |planes| here::loop_filter_frame(planes, modes, coeffs, config)),
        left(case, |planes| here::loop_filter_frame_flags(planes, modes, flags, config)),
        left(case, |planes| halted(|start, allowance| from(planes, start, allowance), halt, flags.len(), smoothed)),
        left(case, |planes| prepared(here::FramePass::of_frame(planes, modes, flags, None, config)?, halt, smoothed)),
    ]
}

/// The same of the inter frame.
fn inter_frames_here(
    case: &Case,
    config: &here::FrameFilterConfig,
    halt: usize,
    smoothed: usize,
) -> Vec<here::KeyframePlanes> {
    let Case { modes: (_, modes), coeffs: (_, coeffs), flags, .. } = case;
    let (references, inter_modes) = (&case.references.1, &case.inter_modes.1);
    let from = |planes: &mut _, start, allowance| {
        here::loop_filter_inter_frame_from(planes, modes, flags, references, inter_modes, config, start, allowance)
    };
    let info = Some(&here::InterFilterInfo { ref_frames: references, inter_modes });
    vec![
        left(case, |planes| here::loop_filter_inter_frame(planes, modes, coeffs, references, inter_modes, config)),
        left(case, |planes| here::loop_filter_inter_frame_flags(planes, modes, flags, references, inter_modes, config)),
        left(case, |planes| halted(|start, allowance| from(planes, start, allowance), halt, flags.len(), smoothed)),
        left(case, |planes| prepared(here::FramePass::of_frame(planes, modes, flags, info, config)?, halt, smoothed)),
    ]
}

/// Two calls, of which the first ends at `halt`, that smooth so many positions together.
fn halted(
    mut from: impl FnMut(usize, usize) -> Result<here::Done, here::Refusal>,
    halt: usize,
    n: usize,
    smoothed: usize,
) -> Result<(), here::Refusal> {
    let (first, second) = (from(0, halt)?, from(halt, usize::MAX)?);
    assert_eq!([first.count, first.next, second.count, second.next], [halt, halt, n - halt, n]);
    assert_eq!(first.smoothed + second.smoothed, smoothed);
    Ok(())
}

/// A prepared pass that is halted once, and smooths so many positions.
fn prepared(mut pass: here::FramePass<'_>, halt: usize, smoothed: usize) -> Result<(), here::Refusal> {
    let first = pass.advance(halt)?;
    assert_eq!(first, here::Done { count: halt, next: halt, smoothed: pass.smoothed() });
    let second = pass.advance(usize::MAX)?;
    assert_eq!((first.smoothed + second.smoothed, pass.smoothed()), (smoothed, smoothed));
    assert!(pass.is_done());
    Ok(())
}

/// The frame calls in every form: the Rust's passes, but for header level 0, at which the planes stay.
#[test]
fn frame_calls() {
    let mut random = Random(7);
    let [mut changed, mut skipped] = [0; 2];
    for case in cases() {
        let halt = random.below(case.flags.len() + 1);
        for level in [case.config.0.loop_filter_level, 0] {
            let config = (case.config.0.with_loop_filter_level(level), case.config.1.with_loop_filter_level(level));
            let expected = frames_by_the_rust(&case, &config.0);
            let smoothed = [false, true].map(|inter| match level {
                0 => 0,
                _ => smoothed_by_the_model(&case, &config.0, inter),
            });
            let key = key_frames_here(&case, &config.1, halt, smoothed[0]);
            let inter = inter_frames_here(&case, &config.1, halt, smoothed[1]);
            for (expected, left) in expected.iter().zip([key, inter]) {
                left.iter().for_each(|planes| assert_eq!(of_the_rust(planes), *expected));
            }
            changed += (expected[0] != of_the_rust(&case.planes)) as usize;
            let mut pass = case.planes.clone();
            here::filter_frame_flags(&mut pass, &case.modes.1, &case.flags, &config.1).expect("accepted");
            skipped += (level == 0 && pass != case.planes) as usize;
        }
    }
    assert!(changed > 200, "only {changed} pictures changed");
    assert!(skipped > 50, "only {skipped} pictures that the pass changes were skipped");
}

/// A prepared pass whose samples and records come row by row, just before their turn, leaves what the Rust leaves of the
/// whole picture. Rows once final are sent, and are those of the result.
#[test]
fn prepared_passes() {
    let mut random = Random(5);
    for case in cases() {
        let mut expected = of_the_rust(&case.planes);
        oracle::loop_filter::filter_frame(&mut expected, &case.modes.0, &case.coeffs.0, &case.config.0);
        assert_eq!(of_the_rust(&while_decoding(&case, false, &mut random)), expected);

        let mut expected = of_the_rust(&case.planes);
        let (references, inter_modes, config) = (&case.references.0, &case.inter_modes.0, &case.config.0);
        let (modes, coeffs) = (&case.modes.0, &case.coeffs.0);
        oracle::loop_filter::filter_inter_frame(&mut expected, modes, coeffs, references, inter_modes, config);
        assert_eq!(of_the_rust(&while_decoding(&case, true, &mut random)), expected);
    }
}

/// The planes that the prepared pass leaves. Nothing is known at first but the grid.
fn while_decoding(case: &Case, inter: bool, random: &mut Random) -> here::KeyframePlanes {
    let n = case.flags.len();
    let here::KeyframePlanes { mb_cols, mb_rows, y_stride, .. } = case.planes;
    let mut planes = case.planes.clone();
    [&mut planes.y, &mut planes.u, &mut planes.v].into_iter().for_each(|plane| plane.fill(0));
    let blank = here::InterFilterInfo { ref_frames: &vec![None; n], inter_modes: &vec![None; n] };
    let (modes, flags) = (vec![here::MacroblockModes::default(); n], vec![false; n]);
    let mut pass = here::FramePass::new(&mut planes, &modes, &flags, inter.then_some(&blank), &case.config.1)
        .expect("a pass over nothing yet");
    let mut sent = Vec::new();
    for row in 0..mb_rows {
        decode(case, row, &mut pass, inter);
        while pass.next() < (row + 1) * mb_cols {
            let (start, left) = (pass.next(), (row + 1) * mb_cols - pass.next());
            let count = 1 + random.below(left);
            let done = pass.advance(count).expect("accepted");
            assert_eq!((done.count, done.next), (count, start + count));
        }
        let here::FinalRows { luma, chroma } = pass.final_rows().expect("accepted");
        assert_eq!((luma == 16 * mb_rows, chroma == 8 * mb_rows), (pass.is_done(), pass.is_done()));
        sent.extend_from_slice(&pass.planes().y[sent.len()..luma * y_stride]);
    }
    assert_eq!(pass.smoothed(), smoothed_by_the_model(case, &case.config.0, inter));
    assert_eq!(pass.advance(1), Ok(here::Done { count: 0, next: n, smoothed: 0 }));
    assert_eq!(sent, planes.y);
    planes
}

/// Puts in the samples and records of a row of macroblocks.
fn decode(case: &Case, row: usize, pass: &mut here::FramePass<'_>, inter: bool) {
    let here::KeyframePlanes { mb_cols, y_stride, uv_stride, y, u, v, .. } = &case.planes;
    let lens = [16 * y_stride, 8 * uv_stride, 8 * uv_stride];
    for ((plane, decoded), len) in pass.planes_mut().into_iter().zip([y, u, v]).zip(lens) {
        plane[row * len..(row + 1) * len].copy_from_slice(&decoded[row * len..(row + 1) * len]);
    }
    let place = row * mb_cols..(row + 1) * mb_cols;
    let (ref_frames, inter_modes) = (&case.references.1[place.clone()], &case.inter_modes.1[place.clone()]);
    let info = here::InterFilterInfo { ref_frames, inter_modes };
    let (modes, flags) = (&case.modes.1[place.clone()], &case.flags[place.clone()]);
    pass.put(place.start, modes, flags, inter.then_some(&info)).expect("records of the picture");
}

/// Rows counted as final do not change any more, and the row below them can.
#[test]
fn final_rows_are_final() {
    let mut below_changed = 0;
    for case in cases() {
        let here::KeyframePlanes { mb_cols, y_stride, uv_stride, .. } = case.planes;
        let mut whole = case.planes.clone();
        here::filter_frame_flags(&mut whole, &case.modes.1, &case.flags, &case.config.1).expect("accepted");
        let mut planes = case.planes.clone();
        let mut next = 0;
        while next < case.flags.len() {
            next = here::filter_frame_from(&mut planes, &case.modes.1, &case.flags, &case.config.1, next, mb_cols)
                .expect("accepted")
                .next;
            let rows = here::final_rows(&planes, next).expect("accepted");
            let (luma, chroma) = (rows.luma * y_stride, rows.chroma * uv_stride);
            assert_eq!(planes.y[..luma], whole.y[..luma]);
            assert_eq!(planes.u[..chroma], whole.u[..chroma]);
            assert_eq!(planes.v[..chroma], whole.v[..chroma]);
            let below = luma..whole.y.len().min(luma + y_stride);
            below_changed += (planes.y[below.clone()] != whole.y[below]) as usize;
        }
        assert_eq!(planes, whole);
    }
    assert!(below_changed > 20, "the row below changed only {below_changed} times");
}

#[test]
fn sums_and_search() {
    let mut random = Random(3);
    for case in cases().take(60) {
        let here::KeyframePlanes { y_stride, uv_stride, mb_cols, mb_rows, .. } = case.planes;
        let (width, height) = (1 + random.below(16 * mb_cols), 1 + random.below(16 * mb_rows));
        let [y, u, v] = &case.source;
        let old_source = oracle::SourcePlanes { width, height, y, u, v, y_stride, uv_stride };
        let source = here::SourcePlanes { width, height, y, u, v, y_stride, uv_stride };
        let old = of_the_rust(&case.planes);
        let expected = oracle::loop_filter::reconstruction_ssd(&old, &old_source);
        assert_eq!(here::reconstruction_ssd(&case.planes, &source), Ok(expected));

        let (ref_frames, inter_modes) = (&case.references.0[..], &case.inter_modes.0[..]);
        let old_inter = oracle::InterFilterInfo { ref_frames, inter_modes };
        let (ref_frames, inter_modes) = (&case.references.1[..], &case.inter_modes.1[..]);
        let inter = here::InterFilterInfo { ref_frames, inter_modes };
        for (old_inter, inter) in [(None, None), (Some(&old_inter), Some(&inter))] {
            let expected = oracle::loop_filter::select_filter_params(
                &old,
                &case.modes.0,
                &case.flags,
                &case.config.0,
                &old_source,
                old_inter,
            );
            let (modes, flags, config) = (&case.modes.1, &case.flags, &case.config.1);
            assert_eq!(here::select_filter_params(&case.planes, modes, flags, config, &source, inter), Ok(expected));
            assert_eq!(here::select_filter_level(&case.planes, modes, flags, config, &source, inter), Ok(expected.0));

            let mut scratch = case.planes.clone();
            let lent = here::Scratch { y: &mut scratch.y, u: &mut scratch.u, v: &mut scratch.v };
            let choice = here::select_filter_params_in(&case.planes, modes, flags, config, &source, inter, lent);
            let choice = choice.expect("accepted");
            assert_eq!((choice.level, choice.sharpness), expected);
            assert!((19..=30).contains(&choice.candidates));
        }
    }
}

/// Sum, level and sharpness of the best pair: each scored by the Rust's pass over a copy and its sum.
fn best_by_the_rust(
    case: &Case,
    source: &oracle::SourcePlanes<'_>,
    inter: Option<&oracle::InterFilterInfo<'_>>,
) -> (u64, u8, u8) {
    let planes = of_the_rust(&case.planes);
    let pairs = (1..=63).flat_map(|level| (0..=7).map(move |sharpness| (level, sharpness)));
    let filtered = pairs.map(|(level, sharpness)| {
        let config = case.config.0.with_loop_filter_level(level).with_sharpness_level(sharpness);
        let (mut planes, modes, flags) = (planes.clone(), &case.modes.0, &case.flags);
        match inter {
            None => oracle::filter_frame_flags(&mut planes, modes, flags, &config),
            Some(inter) => {
                let (references, inter_modes) = (inter.ref_frames, inter.inter_modes);
                oracle::filter_inter_frame_flags(&mut planes, modes, flags, references, inter_modes, &config)
            }
        }
        (oracle::loop_filter::reconstruction_ssd(&planes, source), level, sharpness)
    });
    let unfiltered = oracle::loop_filter::reconstruction_ssd(&planes, source);
    filtered.chain([(unfiltered, 0, case.config.0.sharpness_level.min(7))]).min().expect("candidates")
}

/// The full search chooses what brute force over the Rust chooses, and leaves in scratch what the Rust's pass leaves. Its
/// sum is at most that of the pair which the Rust's search chooses.
#[test]
fn full_search() {
    let (mut random, mut better, mut filtered) = (Random(6), 0, 0);
    for case in cases().take(20) {
        let here::KeyframePlanes { y_stride, uv_stride, mb_cols, mb_rows, .. } = case.planes;
        let (width, height) = (1 + random.below(16 * mb_cols), 1 + random.below(16 * mb_rows));
        let [y, u, v] = &case.source;
        let old_source = oracle::SourcePlanes { width, height, y, u, v, y_stride, uv_stride };
        let source = here::SourcePlanes { width, height, y, u, v, y_stride, uv_stride };
        let (ref_frames, inter_modes) = (&case.references.0[..], &case.inter_modes.0[..]);
        let old_inter = oracle::InterFilterInfo { ref_frames, inter_modes };
        let (ref_frames, inter_modes) = (&case.references.1[..], &case.inter_modes.1[..]);
        let inter = here::InterFilterInfo { ref_frames, inter_modes };
        for (old_inter, inter) in [(None, None), (Some(&old_inter), Some(&inter))] {
            let (sum, level, sharpness) = best_by_the_rust(&case, &old_source, old_inter);
            let best = Ok(here::Best { level, sharpness, sum });
            let (planes, modes, flags, config) = (&case.planes, &case.modes.1, &case.flags, &case.config.1);
            assert_eq!(here::full_search(planes, modes, flags, config, &source, inter), best);

            let mut scratch = planes.clone();
            [&mut scratch.y, &mut scratch.u, &mut scratch.v].into_iter().for_each(|plane| plane.fill(7));
            let lent = here::Scratch { y: &mut scratch.y, u: &mut scratch.u, v: &mut scratch.v };
            assert_eq!(here::full_search_in(planes, modes, flags, config, &source, inter, lent), best);
            assert_eq!(here::reconstruction_ssd(&scratch, &source), Ok(sum));

            let lent = here::Scratch { y: &mut scratch.y, u: &mut scratch.u, v: &mut scratch.v };
            here::select_filter_params_in(planes, modes, flags, config, &source, inter, lent).expect("accepted");
            let searched = here::reconstruction_ssd(&scratch, &source).expect("accepted");
            assert!(sum <= searched, "{sum}, and {searched} by the search");
            (better, filtered) = (better + (sum < searched) as usize, filtered + (level > 0) as usize);
        }
    }
    assert!(better > 0 && filtered > 8, "better than the search {better} times, filtered {filtered} times");
}

#[test]
fn levels_limits_and_coefficients() {
    for case in cases() {
        for i in 0..case.flags.len() {
            let (old, new) = (&case.modes.0[i], &case.modes.1[i]);
            let expected = oracle::loop_filter::calculate_mb_filter_level(&case.config.0, old.segment_id, old.y_mode);
            assert_eq!(here::calculate_mb_filter_level(&case.config.1, new.segment_id, new.y_mode), expected);
            let (reference, inter_mode) = (case.references.0[i], case.inter_modes.0[i]);
            let expected = oracle::loop_filter::calculate_mb_filter_level_inter(
                &case.config.0,
                old.segment_id,
                reference,
                inter_mode,
                old.y_mode,
            );
            let (reference, inter_mode) = (case.references.1[i], case.inter_modes.1[i]);
            let level = here::calculate_mb_filter_level_inter(
                &case.config.1,
                new.segment_id,
                reference,
                inter_mode,
                new.y_mode,
            );
            assert_eq!(level, expected);
            assert_eq!(here::mb_has_coeffs(&case.coeffs.1[i]), case.flags[i]);
        }
        assert_eq!(case.config.1.ref_deltas(), case.config.0.ref_deltas());
        assert_eq!(case.config.1.mode_deltas(), case.config.0.mode_deltas());
    }
    for level in 0..=255 {
        for sharpness in 0..=255 {
            for key in [false, true] {
                let old = oracle::LoopFilterParams::derive(level, sharpness, key);
                let new = here::LoopFilterParams::derive(level, sharpness, key);
                assert_eq!((new.interior_limit, new.hev_threshold), (old.interior_limit, old.hev_threshold));
                assert_eq!((new.mbedge_limit, new.sub_bedge_limit), (old.mbedge_limit, old.sub_bedge_limit));
            }
        }
    }
}

/// The table has the Rust's limit of each level and sharpness that a header can have.
#[test]
fn table_of_interior_limits() {
    let limits = here::interior_limits();
    assert_eq!((limits.len(), limits[0].len()), (8, 64));
    for (sharpness, row) in (0..).zip(limits) {
        for (level, limit) in (0..).zip(row) {
            for key in [false, true] {
                let old = oracle::LoopFilterParams::derive(level, sharpness, key);
                assert_eq!(limit, old.interior_limit, "level {level}, sharpness {sharpness}, key {key}");
            }
        }
    }
}

/// The coefficients of a macroblock are counted in the order y2, y, u, v. With all from some place on set, the first of
/// them stands there; the Rust's test finds it.
#[test]
fn first_coefficients() {
    let mut coeffs = here::MbCoeffs::default();
    for place in (0..=400).rev() {
        let here::MbCoeffs { y2, y, u, v } = &mut coeffs;
        match place {
            0..16 => y2[place] = -1,
            16..272 => y[(place - 16) / 16][place % 16] = i16::MIN,
            272..336 => u[(place - 272) / 16][place % 16] = 256,
            336..400 => v[(place - 336) / 16][place % 16] = i16::MAX,
            _ => {}
        }
        let here::MbCoeffs { y2, y, u, v } = coeffs;
        let has = oracle::mb_has_coeffs(&oracle::MbCoeffs { y2, y, u, v });
        assert_eq!((here::first_coeff(&coeffs), here::mb_has_coeffs(&coeffs)), (place, has));
        assert_eq!(has, place < 400);
    }
}

#[test]
fn constants() {
    use oracle::loop_filter as old;
    assert_eq!(here::MAX_MB_SEGMENTS, old::MAX_MB_SEGMENTS);
    assert_eq!(here::MAX_REF_LF_DELTAS, old::MAX_REF_LF_DELTAS);
    assert_eq!(here::MAX_MODE_LF_DELTAS, old::MAX_MODE_LF_DELTAS);
}

#[test]
fn kernels_and_numbers() {
    let mut random = Random(4);
    for _ in 0..20_000 {
        let window = random.samples(12);
        let (base, limits) = (random.below(5), [0; 3].map(|_| random.below(60) as u8));
        let [hev, interior, edge] = limits;
        let (mut old, mut new, mut told) = (window.clone(), window.clone(), window.clone());
        let passes = |width| oracle::positions::passes(&window[base..base + width], edge, interior);
        match random.below(5) {
            0 => {
                let expected = oracle::loop_filter::common_adjust(hev % 2 == 0, &mut old, base);
                assert_eq!(here::common_adjust(hev % 2 == 0, &mut new, base), Ok(expected));
            }
            1 => {
                oracle::loop_filter::simple_segment(edge, &mut old, base);
                assert_eq!(here::simple_segment(edge, &mut new, base), Ok(()));
                assert_eq!(here::simple_segment_passed(edge, &mut told, base), Ok(passes(4)));
                assert_eq!(told, new);
            }
            2 => {
                oracle::loop_filter::subblock_filter(hev, interior, edge, &mut old, base);
                assert_eq!(here::subblock_filter(hev, interior, edge, &mut new, base), Ok(()));
                assert_eq!(here::subblock_filter_passed(hev, interior, edge, &mut told, base), Ok(passes(8)));
                assert_eq!(told, new);
            }
            3 => {
                oracle::loop_filter::mb_filter(hev, interior, edge, &mut old, base);
                assert_eq!(here::mb_filter(hev, interior, edge, &mut new, base), Ok(()));
                assert_eq!(here::mb_filter_passed(hev, interior, edge, &mut told, base), Ok(passes(8)));
                assert_eq!(told, new);
            }
            _ => {
                let v = random.below(2000) as i32 - 1000;
                assert_eq!(here::clamp_s8(v), oracle::loop_filter::clamp_s8(v));
                assert_eq!(here::s2u(v), oracle::loop_filter::s2u(v));
                assert_eq!(here::u2s(v as u8), oracle::loop_filter::u2s(v as u8));
            }
        }
        assert_eq!(new, old);
    }
}
