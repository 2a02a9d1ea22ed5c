//! The passes, over byte lists and over records.

use crate::Section;
use crate::bytes::Bytes;
use crate::picture::{self, Answer, LENGTHS, Layout, Lists, PASSES, Pass, Picture, Planes, Records};
use crate::settings;
use rules::random::Random;

/// A pass, or the frame call beside it, which leaves the planes alone at header level 0.
#[derive(Clone, Copy, Debug, PartialEq)]
pub enum Form {
    Pass,
    Frame,
}

impl Form {
    /// Whether the header level turns the filter off.
    fn skips(self, picture: &Picture) -> bool {
        self == Form::Frame && picture.config.loop_filter_level == 0
    }
}

/// What a call of a pass answers and leaves, by document 01 and the Rust.
fn expected(form: Form, picture: &Picture, answer: Answer) -> Planes {
    match answer {
        _ if form.skips(picture) => picture.planes.clone(),
        Ok([count, next]) if count > 0 => {
            let n = picture.layout.columns * picture.layout.rows;
            let (whole, steps) = (picture.unbroken(), picture.steps(0..n));
            assert!(whole == steps, "the Rust's macroblocks in turn leave what its pass leaves");
            if count == n { whole } else { picture.steps(next - count..next) }
        }
        _ => picture.planes.clone(),
    }
}

pub fn sections(form: Form, random: &mut Random) -> Vec<Section> {
    let mut sections = Vec::new();
    let prefix = if form == Form::Frame { "loop_" } else { "" };
    let name = |pass: Pass, more: &str| match pass {
        Pass::Key => format!("{prefix}filter_frame{more}"),
        Pass::Inter => format!("{prefix}filter_inter_frame{more}"),
    };
    // Of the calls that change samples, over byte lists and over records: key, inter.
    let [lists, record_lists] = if form == Form::Pass { [[12, 15], [18, 18]] } else { [[6, 8], [9, 9]] };
    for (pass, count) in PASSES.into_iter().zip(lists) {
        let records = (0..count).map(|i| ordinary(form, random, pass, i)).collect::<Vec<_>>();
        sections.push(Section::new(&name(pass, ""), records));
    }
    for pass in PASSES {
        sections.push(Section::new(&name(pass, ", nothing changes"), idle(form, random, pass)));
    }
    for pass in PASSES {
        let records = (0..4).map(|i| halted(form, random, pass, i)).collect::<Vec<_>>();
        sections.push(Section::new(&name(pass, ", halted and resumed"), records).marked(2));
    }
    for (pass, count) in PASSES.into_iter().zip(record_lists) {
        let records = (0..count).map(|i| over_records(form, random, pass, i)).collect::<Vec<_>>();
        sections.push(Section::new(&name(pass, "_records"), records));
    }
    for pass in PASSES {
        sections.push(Section::new(&name(pass, "_records, nothing changes"), idle_records(form, random, pass)));
    }
    sections
}

fn planes(bytes: Bytes, planes: &Planes) -> Bytes {
    planes.iter().fold(bytes, |bytes, plane| bytes.bytes(plane))
}

/// A picture of four macroblocks, and its byte lists. With usual settings the pass changes it.
pub fn drawn(random: &mut Random, pass: Pass, i: usize) -> (Picture, Lists) {
    loop {
        let layout = picture::layout(random, i);
        let lists = Lists::any(random, 4);
        let usual = i % 5 != 4;
        let config = if usual { settings::usual(random) } else { settings::any(random) };
        let (records, config) = (lists.records(pass), config.with_simple(i % 4 == 3));
        let planes = picture::planes(random, &layout);
        let picture = Picture { pass, layout, planes, records, config };
        if !usual || picture.unbroken() != picture.planes {
            return (picture, lists);
        }
    }
}

/// The same for a form of the pass. Every other frame call has header level 0, with settings at which the pass changes
/// the picture; the others have a level above it.
fn drawn_for(form: Form, random: &mut Random, pass: Pass, i: usize) -> (Picture, Lists) {
    loop {
        let (mut drawn, lists) = drawn(random, pass, i);
        if form == Form::Pass {
            return (drawn, lists);
        }
        if i % 2 == 1 {
            drawn.config.loop_filter_level = 0;
        }
        if form.skips(&drawn) == (i % 2 == 1) && drawn.unbroken() != drawn.planes {
            return (drawn, lists);
        }
    }
}

/// The whole pass, and now and then a part of it.
fn ordinary(form: Form, random: &mut Random, pass: Pass, i: usize) -> Bytes {
    let (drawn, lists) = drawn_for(form, random, pass, i);
    let (start, allowance) = [(0, usize::MAX), (0, 4), (0, 5), (1, 2), (3, usize::MAX)][i % 5];
    let answer = picture::rule(&drawn.layout, false, start, allowance);
    let after = expected(form, &drawn, answer);
    let head = Bytes::default().place(&drawn.layout, start, allowance).settings(&drawn.config);
    let head = lists.0.iter().fold(head, |head, list| head.bytes(list)).answer(answer);
    planes(planes(head, &drawn.planes), &after)
}

/// A call that is halted after some macroblocks, and the one that goes on to the end. Both calls of the pass change
/// samples.
fn halted(form: Form, random: &mut Random, pass: Pass, i: usize) -> Bytes {
    let allowance = 1 + i % 3;
    let (mut drawn, mut lists) = drawn_for(form, random, pass, i);
    let mut middle = drawn.steps(0..allowance);
    while middle == drawn.planes || middle == drawn.unbroken() {
        (drawn, lists) = drawn_for(form, random, pass, i);
        middle = drawn.steps(0..allowance);
    }
    let layout = drawn.layout;
    let left = |planes: Planes| if form.skips(&drawn) { drawn.planes.clone() } else { planes };
    let (middle, whole) = (left(middle), left(drawn.unbroken()));
    let [luma, chroma] = rules::final_rows(&layout, allowance).expect("a start in the grid");
    for (p, rows) in [luma, chroma, chroma].into_iter().enumerate() {
        let last = rows * layout.stride(p);
        assert!(middle[p][..last] == whole[p][..last], "the rows that are final stay");
    }
    let first = picture::rule(&layout, false, 0, allowance);
    let second = picture::rule(&layout, false, allowance, usize::MAX);
    let head = Bytes::default().place(&layout, 0, allowance).settings(&drawn.config);
    let head = planes(lists.0.iter().fold(head, |head, list| head.bytes(list)), &drawn.planes);
    planes(planes(head.answer(first), &middle).answer(second), &whole)
}

/// A layout at or beyond a boundary of a refusal, or an ordinary one.
pub fn boundary(random: &mut Random) -> Layout {
    let grids = [
        (2, 2),
        (2, 2),
        (1, 4),
        (4, 1),
        (1, 3),
        (3, 1),
        (5, 1),
        (1, 5),
        (1, 1),
        (0, 0),
        (0, 4),
        (4, 0),
        (usize::MAX, 0),
    ];
    let large = [(1025, 1), (1, 1025), (1024, 1024), (usize::MAX, 4), (4, usize::MAX)];
    let (columns, rows) = if random.below(6) == 0 { random.one_of(&large) } else { random.one_of(&grids) };
    let (y, uv) = (16 * columns.min(1024), 8 * columns.min(1024));
    let y_stride = random.one_of(&[y, y, y, y + 1, y.saturating_sub(1), 39, 41, 0, 65_536, 65_537, usize::MAX]);
    let uv_stride = random.one_of(&[uv, uv, uv, uv + 1, uv.saturating_sub(1), 11, 23, 0, 65_536, 65_537, usize::MAX]);
    let exact = random.below(3) > 0;
    Layout {
        columns,
        rows,
        y_stride: if exact { y } else { y_stride },
        uv_stride: if exact && random.yes() { uv } else { uv_stride },
    }
}

fn boundary_start(random: &mut Random) -> (usize, usize) {
    (random.one_of(&[0, 0, 1, 3, 4, 5, 6, usize::MAX]), random.one_of(&[0, 1, 4, 5, usize::MAX]))
}

/// Entries of which 6 may refuse some.
pub fn boundary_lists(random: &mut Random) -> Lists {
    let mut lists = Lists::any(random, 4);
    if random.below(3) == 0 {
        let (list, bytes) = random.one_of(&[(0, [5, 255]), (3, [4, 255]), (4, [6, 255])]);
        lists.0[list][random.below(4)] = random.one_of(&bytes);
    }
    lists
}

/// Calls on the program's own stripes that leave them: refused ones, those that do no macroblock, and levels of 0.
fn idle(form: Form, random: &mut Random, pass: Pass) -> Vec<Bytes> {
    let mut kept = Kept::new(&[0, 1, 2, 3, 5, 6, 7]);
    while kept.wants() {
        let (layout, lists) = (boundary(random), boundary_lists(random));
        let (start, allowance) = boundary_start(random);
        let config = quiet(random);
        let bad = lists.bad(pass);
        let answer = picture::rule(&layout, bad, start, allowance);
        let records = if bad { Records::new() } else { lists.records(pass) };
        if leaves_stripes(form, pass, layout, records, config, answer) {
            let head = Bytes::default().place(&layout, start, allowance).settings(&config);
            kept.offer(answer, lists.0.iter().fold(head, |head, list| head.bytes(list)).answer(answer));
        }
    }
    kept.records
}

/// Often the header's level 0 with nothing that changes it.
fn quiet(random: &mut Random) -> oracle::FrameFilterConfig {
    match random.below(4) {
        0 => oracle::FrameFilterConfig::default().with_loop_filter_level(0),
        1 => settings::any(random),
        _ => settings::usual(random),
    }
}

fn leaves_stripes(
    form: Form,
    pass: Pass,
    layout: Layout,
    records: Records,
    config: oracle::FrameFilterConfig,
    answer: Answer,
) -> bool {
    let stripes = picture::stripes(LENGTHS);
    expected(form, &Picture { pass, layout, planes: stripes.clone(), records, config }, answer) == stripes
}

/// Records of each answer, as many of one as of another.
pub struct Kept {
    wanted: Vec<(u8, usize)>,
    pub records: Vec<Bytes>,
}

impl Kept {
    pub fn new(numbers: &[u8]) -> Kept {
        Kept { wanted: numbers.iter().map(|number| (*number, 16)).collect(), records: Vec::new() }
    }

    pub fn wants(&self) -> bool {
        self.wanted.iter().any(|(_, left)| *left > 0)
    }

    pub fn offer(&mut self, answer: Answer, bytes: Bytes) {
        let number = answer.err().unwrap_or(0);
        let (_, left) = self.wanted.iter_mut().find(|wanted| wanted.0 == number).expect("an expected refusal");
        if *left > 0 {
            *left -= 1;
            self.records.push(bytes);
        }
    }
}

/// The n-th record of a fixed list over every mode, segment, flag, reference and inter mode. Of these the key pass sees
/// every combination of the first three in 70 records; pairs of reference and inter mode return after 24.
fn nth(n: usize) -> [u8; 6] {
    let segment = [None, Some(0), Some(1), Some(2), Some(3), Some(7), Some(255)][n % 7];
    let flag = (n / 35) % 2;
    let (reference, inter_mode) = (n % 24 / 6, n % 6);
    [(n % 5) as u8, segment.is_some().into(), segment.unwrap_or(0), flag as u8, reference as u8, inter_mode as u8]
}

fn record_list(first: usize) -> (Records, [u8; 24]) {
    let (mut records, mut bytes) = (Records::new(), [0; 24]);
    for m in 0..4 {
        let record = nth(first + m);
        bytes[6 * m..6 * m + 6].copy_from_slice(&record);
        let [mode, present, segment, flag, reference, inter_mode] = record;
        records.push(mode, (present != 0).then_some(segment), flag != 0, reference, inter_mode);
    }
    (records, bytes)
}

/// Segmentation and deltas on, with a number of its own for each field.
fn telling(i: usize) -> oracle::FrameFilterConfig {
    oracle::FrameFilterConfig::default()
        .with_simple(i % 3 == 1)
        .with_key_frame(i % 4 < 2)
        .with_loop_filter_level(12)
        .with_sharpness_level((i % 8) as u8)
        .with_segmentation_enabled(true)
        .with_segment_abs(i.is_multiple_of(2))
        .with_segment_lf_level([11, 18, 25, 32])
        .with_delta_enabled(true)
        .with_ref_delta_current(-5)
        .with_bpred_mode_delta(9)
        .with_ref_delta_last(-9)
        .with_ref_delta_golden(4)
        .with_ref_delta_altref(13)
        .with_zero_mv_mode_delta(-6)
        .with_other_mv_mode_delta(5)
        .with_split_mv_mode_delta(15)
}

/// The next four records of the list. Every third frame call has header level 0.
fn over_records(form: Form, random: &mut Random, pass: Pass, i: usize) -> Bytes {
    let layout = picture::layout(random, i);
    let (records, bytes) = record_list(4 * i);
    let mut config = telling(i);
    if form == Form::Frame && i.is_multiple_of(3) {
        config.loop_filter_level = 0;
    }
    let planes_before = picture::telling_planes(random, &layout);
    let drawn = Picture { pass, layout, planes: planes_before, records, config };
    let (start, allowance) = if i % 6 == 5 { (1, 2) } else { (0, usize::MAX) };
    let answer = picture::rule(&layout, false, start, allowance);
    let after = expected(form, &drawn, answer);
    assert!(!form.skips(&drawn) || drawn.unbroken() != drawn.planes, "the pass changes what the frame call leaves");
    let head = Bytes::default().place(&layout, start, allowance).settings(&config).bytes(&bytes).answer(answer);
    planes(planes(head, &drawn.planes), &after)
}

fn idle_records(form: Form, random: &mut Random, pass: Pass) -> Vec<Bytes> {
    let mut kept = Kept::new(&[0, 1, 2, 3, 5, 7]);
    while kept.wants() {
        let (layout, config) = (boundary(random), quiet(random));
        let (start, allowance) = boundary_start(random);
        let (records, bytes) = record_list(random.below(840));
        let answer = picture::rule(&layout, false, start, allowance);
        if leaves_stripes(form, pass, layout, records, config, answer) {
            let head = Bytes::default().place(&layout, start, allowance).settings(&config);
            kept.offer(answer, head.bytes(&bytes).answer(answer));
        }
    }
    kept.records
}
