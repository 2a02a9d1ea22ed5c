//! Settings of a frame.

use oracle::FrameFilterConfig;
use rules::random::Random;

/// Levels and deltas as a frame header has them: 6 bits and a sign. All marks are random.
pub fn usual(random: &mut Random) -> FrameFilterConfig {
    let config = FrameFilterConfig::default()
        .with_loop_filter_level(8 + random.below(56) as u8)
        .with_sharpness_level(random.below(8) as u8);
    with_marks(with_deltas(config, || random.below(41) as i16 - 20), random.word())
}

/// Any header bytes and deltas, often extreme ones.
pub fn any(random: &mut Random) -> FrameFilterConfig {
    const ENDS: [i16; 12] = [i16::MIN, i16::MIN + 1, -128, -64, -63, -1, 0, 1, 63, 64, 127, i16::MAX];
    let config = FrameFilterConfig::default()
        .with_loop_filter_level(random.one_of(&[0, 1, 31, 62, 63, 64, 127, 128, 255]))
        .with_sharpness_level(random.one_of(&[0, 1, 4, 5, 7, 8, 255]));
    let delta = || match random.below(3) {
        0 => random.one_of(&ENDS),
        1 => random.word() as i16,
        _ => random.below(127) as i16 - 63,
    };
    with_marks(with_deltas(config, delta), random.word())
}

/// The marks are the bits of a number.
pub fn with_marks(config: FrameFilterConfig, marks: u64) -> FrameFilterConfig {
    let mark = |bit: u32| marks >> bit & 1 == 1;
    config
        .with_segmentation_enabled(mark(0))
        .with_segment_abs(mark(1))
        .with_delta_enabled(mark(2))
        .with_simple(mark(3))
        .with_key_frame(mark(4))
}

fn with_deltas(config: FrameFilterConfig, mut delta: impl FnMut() -> i16) -> FrameFilterConfig {
    config
        .with_segment_lf_level([0; 4].map(|_: i16| delta()))
        .with_ref_delta_current(delta())
        .with_bpred_mode_delta(delta())
        .with_ref_delta_last(delta())
        .with_ref_delta_golden(delta())
        .with_ref_delta_altref(delta())
        .with_zero_mv_mode_delta(delta())
        .with_other_mv_mode_delta(delta())
        .with_split_mv_mode_delta(delta())
}
