//! Settings of a frame: random and extreme numbers, every setting of the marks.

use crate::shrink::smaller_bytes;
use oracle::FrameFilterConfig;
use rules::random::Random;

/// How many ways there are to set the marks.
pub const MARKS: u32 = 32;

/// The same numbers, with the marks as the bits of `marks` say.
pub fn with_marks(config: FrameFilterConfig, marks: u32) -> FrameFilterConfig {
    let mark = |bit: u32| marks >> bit & 1 == 1;
    config
        .with_segmentation_enabled(mark(0))
        .with_segment_abs(mark(1))
        .with_delta_enabled(mark(2))
        .with_simple(mark(3))
        .with_key_frame(mark(4))
}

/// Random numbers of any size, all marks off.
pub fn numbers(random: &mut Random) -> FrameFilterConfig {
    const HEADERS: [u8; 9] = [0, 1, 62, 63, 64, 65, 127, 128, 255];
    const SHARPNESS: [u8; 6] = [0, 1, 7, 8, 9, 255];
    let extreme = random.below(4) == 0;
    let mut header = |ends: &[u8], usual: usize| match random.below(4) {
        _ if extreme => random.one_of(ends),
        0 => random.one_of(ends),
        1 => random.byte(),
        _ => random.below(usual) as u8,
    };
    let (level, sharpness) = (header(&HEADERS, 64), header(&SHARPNESS, 8));
    with_deltas(random, |random| if extreme { extreme_delta(random) } else { delta(random) })
        .with_loop_filter_level(level)
        .with_sharpness_level(sharpness)
}

/// Settings as a frame header has them: 6 bits and a sign, all marks random.
pub fn usual(random: &mut Random) -> FrameFilterConfig {
    let config = with_deltas(random, small_delta)
        .with_loop_filter_level(random.below(64) as u8)
        .with_sharpness_level(random.below(8) as u8);
    with_marks(config, random.below(MARKS as usize) as u32)
}

fn with_deltas(random: &mut Random, mut delta: impl FnMut(&mut Random) -> i16) -> FrameFilterConfig {
    FrameFilterConfig::default()
        .with_segment_lf_level([0; 4].map(|_| delta(random)))
        .with_ref_delta_current(delta(random))
        .with_bpred_mode_delta(delta(random))
        .with_ref_delta_last(delta(random))
        .with_ref_delta_golden(delta(random))
        .with_ref_delta_altref(delta(random))
        .with_zero_mv_mode_delta(delta(random))
        .with_other_mv_mode_delta(delta(random))
        .with_split_mv_mode_delta(delta(random))
}

fn delta(random: &mut Random) -> i16 {
    match random.below(4) {
        0 => extreme_delta(random),
        1 => random.word() as i16,
        _ => small_delta(random),
    }
}

fn small_delta(random: &mut Random) -> i16 {
    random.below(127) as i16 - 63
}

fn extreme_delta(random: &mut Random) -> i16 {
    random.one_of(&[i16::MIN, i16::MIN + 1, -256, -128, -64, -63, -1, 0, 1, 63, 64, 127, 256, i16::MAX - 1, i16::MAX])
}

/// The same settings with one mark off or one number nearer to 0.
pub fn simpler(config: &FrameFilterConfig) -> Vec<FrameFilterConfig> {
    type Mark = fn(&mut FrameFilterConfig) -> &mut bool;
    type Byte = fn(&mut FrameFilterConfig) -> &mut u8;
    type Delta = fn(&mut FrameFilterConfig) -> &mut i16;
    let marks: [Mark; 5] = [
        |c| &mut c.simple,
        |c| &mut c.key_frame,
        |c| &mut c.segmentation_enabled,
        |c| &mut c.segment_abs,
        |c| &mut c.delta_enabled,
    ];
    let bytes: [Byte; 2] = [|c| &mut c.loop_filter_level, |c| &mut c.sharpness_level];
    let deltas: [Delta; 12] = [
        |c| &mut c.segment_lf_level[0],
        |c| &mut c.segment_lf_level[1],
        |c| &mut c.segment_lf_level[2],
        |c| &mut c.segment_lf_level[3],
        |c| &mut c.ref_delta_current,
        |c| &mut c.bpred_mode_delta,
        |c| &mut c.ref_delta_last,
        |c| &mut c.ref_delta_golden,
        |c| &mut c.ref_delta_altref,
        |c| &mut c.zero_mv_mode_delta,
        |c| &mut c.other_mv_mode_delta,
        |c| &mut c.split_mv_mode_delta,
    ];
    let mut simpler = Vec::new();
    for mark in marks {
        let mut other = *config;
        if std::mem::replace(mark(&mut other), false) {
            simpler.push(other);
        }
    }
    for byte in bytes {
        let mut other = *config;
        for smaller in smaller_bytes(*byte(&mut other)) {
            *byte(&mut other) = smaller;
            simpler.push(other);
        }
    }
    for delta in deltas {
        let mut other = *config;
        let number = *delta(&mut other);
        for nearer in [0, number / 2, number - number.signum()] {
            if nearer.unsigned_abs() < number.unsigned_abs() {
                *delta(&mut other) = nearer;
                simpler.push(other);
            }
        }
    }
    simpler
}
