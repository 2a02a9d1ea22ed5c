//! Numbers, limits, kernels, levels, coefficients and final rows.

use crate::Section;
use crate::bytes::Bytes;
use crate::picture::{Layout, Pass, Records};
use crate::settings;
use oracle::{LoopFilterParams, MbCoeffs, loop_filter};
use rules::random::Random;

pub fn sections(random: &mut Random) -> Vec<Section> {
    let numbers: Vec<i32> = integers(random);
    let clamped = |v: &i32| Bytes::default().signed32(*v).signed8(loop_filter::clamp_s8(*v));
    let stored = |v: &i32| Bytes::default().signed32(*v).byte(loop_filter::s2u(*v));
    let signed = |v: u8| Bytes::default().byte(v).signed8(loop_filter::u2s(v));
    vec![
        Section::new("clamp_s8", numbers.iter().map(clamped)),
        Section::new("u2s", (0..=255).map(signed)),
        Section::new("s2u", numbers.iter().map(stored)),
        Section::new("derive", limits()),
        Section::new("common_adjust", (0..96).map(|i| adjust(random, i)).collect::<Vec<_>>()),
        Section::new("simple_segment", (0..128).map(|i| simple(random, i)).collect::<Vec<_>>()),
        Section::new("subblock_filter", (0..160).map(|i| normal(random, i, false)).collect::<Vec<_>>()),
        Section::new("mb_filter", (0..160).map(|i| normal(random, i, true)).collect::<Vec<_>>()),
        Section::new("calculate_mb_filter_level", (0..200).map(|_| key_level(random)).collect::<Vec<_>>()),
        Section::new("calculate_mb_filter_level_inter", (0..400).map(|_| inter_level(random)).collect::<Vec<_>>()),
        Section::new("mb_has_coeffs", coefficients(random)),
        Section::new("final_rows", final_rows(random)),
    ]
}

fn integers(random: &mut Random) -> Vec<i32> {
    let ends = [i32::MIN, i32::MIN + 1, i32::MAX - 1, i32::MAX, -65_536, -32_768, 32_767, 65_536];
    (-300..=300).chain(ends).chain((0..32).map(|_| random.word() as i32)).collect()
}

/// Every level of a frame header with every sharpness and more; then levels above 63.
fn limits() -> Vec<Bytes> {
    let sharpness = [0, 1, 2, 3, 4, 5, 6, 7, 8, 255];
    let levels = (0..64).chain([64, 65, 125, 126, 127, 128, 254, 255]);
    let mut records = Vec::new();
    for (level, sharpness) in levels.flat_map(|level| sharpness.map(|sharpness| (level, sharpness))) {
        for key in [false, true] {
            let p = LoopFilterParams::derive(level, sharpness, key);
            let answer = [p.interior_limit, p.hev_threshold, p.mbedge_limit, p.sub_bedge_limit];
            records.push(Bytes::default().bytes(&[level, sharpness, key.into()]).bytes(&answer));
        }
    }
    records
}

/// Samples on both sides of an edge at any place of the window.
fn segment(random: &mut Random, base: usize, half: usize) -> [u8; 16] {
    let (left, step) = (random.byte() as i32, random.one_of(&[0, 1, 2, 4, 8, 16, 40, 255]));
    let (right, spread) = (if random.yes() { left + step } else { left - step }, random.one_of(&[1, 2, 3, 5, 9]));
    let edge = base.min(16) + half;
    match random.below(8) {
        0 => std::array::from_fn(|_| random.byte()),
        1 => std::array::from_fn(|_| random.one_of(&[0, 1, 127, 128, 254, 255])),
        _ => std::array::from_fn(|i| {
            let side = if i < edge { left } else { right };
            (side + random.below(spread) as i32).clamp(0, 255) as u8
        }),
    }
}

/// A base for a window: each that fits, then each kind that does not.
fn base(i: usize, window: usize) -> usize {
    let last = 16 - window;
    let beyond = [last + 1, 15, 16, 17, 1 << 16, u32::MAX as usize - 1, usize::MAX];
    match i % 8 {
        7 => beyond[i / 8 % beyond.len()],
        _ => i % (last + 1),
    }
}

fn fits(base: usize, window: usize) -> bool {
    base.checked_add(window).is_some_and(|end| end <= 16)
}

/// Refusal 4, or 0.
fn refusal(base: usize, window: usize) -> u8 {
    if fits(base, window) { 0 } else { 4 }
}

fn adjust(random: &mut Random, i: usize) -> Bytes {
    let (base, outer) = (base(i, 4), random.yes());
    let before = segment(random, base, 2);
    let mut after = before;
    let by = if fits(base, 4) { loop_filter::common_adjust(outer, &mut after, base) } else { 0 };
    let head = Bytes::default().byte(outer.into()).size(base).byte(refusal(base, 4)).signed32(by);
    head.bytes(&before).bytes(&after)
}

fn simple(random: &mut Random, i: usize) -> Bytes {
    let base = base(i, 4);
    let (limit, before) = match i {
        // Document 01, figures I and J.
        0 => (20, four_then_zero([100, 100, 108, 108])),
        8 => (19, four_then_zero([100, 100, 108, 108])),
        16 => (8, four_then_zero([100, 100, 104, 100])),
        _ => (random.one_of(&[0, 8, 19, 20, 63, 63, 128, 255]), segment(random, base, 2)),
    };
    let base = if [0, 8, 16].contains(&i) { 0 } else { base };
    let mut after = before;
    if fits(base, 4) {
        loop_filter::simple_segment(limit, &mut after, base);
    }
    Bytes::default().byte(limit).size(base).byte(refusal(base, 4)).bytes(&before).bytes(&after)
}

fn four_then_zero(four: [u8; 4]) -> [u8; 16] {
    std::array::from_fn(|i| four.get(i).copied().unwrap_or(0))
}

/// Document 01, figures K and L first; then any.
fn normal(random: &mut Random, i: usize, macroblock: bool) -> Bytes {
    let base = if i == 0 { 0 } else { base(i, 8) };
    let any = [
        random.one_of(&[0, 1, 2, 3, 10, 255]),
        random.one_of(&[0, 1, 3, 9, 30, 63, 255]),
        random.one_of(&[0, 5, 20, 73, 128, 193, 255]),
    ];
    let derived = LoopFilterParams::derive(12 + random.below(52) as u8, random.below(4) as u8, random.yes());
    let derived = [derived.hev_threshold, derived.interior_limit, derived.mbedge_limit];
    let mut limits = if random.below(3) == 0 { any } else { derived };
    let mut before = segment(random, base, 4);
    if i == 0 {
        let [p, q] = if macroblock { [100, 108] } else { [108, 100] };
        (limits, before) = ([0, 1, 20], std::array::from_fn(|i| if i < 4 { p } else { q }));
    }
    let mut after = before;
    let [threshold, interior, edge] = limits;
    if fits(base, 8) {
        let kernel = if macroblock { loop_filter::mb_filter } else { loop_filter::subblock_filter };
        kernel(threshold, interior, edge, &mut after, base);
    }
    Bytes::default().bytes(&limits).size(base).byte(refusal(base, 8)).bytes(&before).bytes(&after)
}

/// A byte that 6 does not refuse, and now and then one that it refuses.
fn entry(random: &mut Random, largest: u8) -> u8 {
    if random.below(20) == 0 { random.one_of(&[largest + 1, 255]) } else { random.below(largest as usize + 1) as u8 }
}

fn level_settings(random: &mut Random) -> oracle::FrameFilterConfig {
    if random.below(4) > 0 { settings::usual(random) } else { settings::any(random) }
}

fn key_level(random: &mut Random) -> Bytes {
    let config = level_settings(random);
    let segment = random.one_of(&[0, 1, 2, 3, 4, 7, 255]);
    let mode = entry(random, 4);
    let level = if mode > 4 { [6, 0] } else { [0, level(Pass::Key, &config, segment, [0, 0], mode)] };
    Bytes::default().settings(&config).bytes(&[segment, mode]).bytes(&level)
}

fn inter_level(random: &mut Random) -> Bytes {
    let config = level_settings(random);
    let segment = random.one_of(&[0, 1, 2, 3, 4, 7, 255]);
    let (mode, reference, inter) = (entry(random, 4), entry(random, 3), entry(random, 5));
    let refused = mode > 4 || reference > 3 || inter > 5;
    let level = if refused { [6, 0] } else { [0, level(Pass::Inter, &config, segment, [reference, inter], mode)] };
    Bytes::default().settings(&config).bytes(&[segment, reference, inter, mode]).bytes(&level)
}

fn level(pass: Pass, config: &oracle::FrameFilterConfig, segment: u8, [reference, inter]: [u8; 2], mode: u8) -> u8 {
    let mut records = Records::new();
    records.push(mode, Some(segment), false, reference, inter);
    let level = records.level(pass, 0, config);
    if segment == 0 {
        records.modes[0].segment_id = None;
        assert_eq!(level, records.level(pass, 0, config), "no segment is segment 0");
    }
    level
}

/// One coefficient at each place, one that is 0, and none.
fn coefficients(random: &mut Random) -> Vec<Bytes> {
    let record = |at: usize, value: i16| {
        let mut all = MbCoeffs::default();
        match at {
            0..16 => all.y2[at] = value,
            16..272 => all.y[(at - 16) / 16][at % 16] = value,
            272..336 => all.u[(at - 272) / 16][at % 16] = value,
            336..400 => all.v[(at - 336) / 16][at % 16] = value,
            _ => {}
        }
        Bytes::default().size(at).signed16(value).byte(oracle::mb_has_coeffs(&all).into())
    };
    let mut records: Vec<Bytes> = Vec::new();
    for at in 0..400 {
        records.push(record(at, random.one_of(&[1, -1, 256, -256, i16::MIN, i16::MAX])));
    }
    records.extend([0, 15, 16, 399].map(|at| record(at, 0)));
    records.extend([400, usize::MAX].map(|at| record(at, 1)));
    records
}

fn final_rows(random: &mut Random) -> Vec<Bytes> {
    let mut records = Vec::new();
    let mut record = |columns: usize, rows: usize, start: usize| {
        let mut stride = || random.one_of(&[0, 1, 16, 64, 65_536, 65_537, usize::MAX]);
        let layout = Layout { columns, rows, y_stride: stride(), uv_stride: stride() };
        let answer = rules::final_rows(&layout, start);
        records.push(Bytes::default().place(&layout, start, 0).answer(answer));
    };
    for (columns, rows) in [(1, 1), (1, 4), (4, 1), (2, 3), (3, 3), (5, 4)] {
        (0..=columns * rows + 1).for_each(|start| record(columns, rows, start));
    }
    for (columns, rows) in [(0, 0), (0, 3), (3, 0), (0, usize::MAX), (1025, 0), (1025, 1), (1, 1025), (usize::MAX, 1)] {
        [0, 1, usize::MAX].into_iter().for_each(|start| record(columns, rows, start));
    }
    for start in [0, 1023, 1024, 1025, 1024 * 1023, 1024 * 1024, 1024 * 1024 + 1, usize::MAX] {
        record(1024, 1024, start);
    }
    records
}
