//! Both passes with every level 0 to 63 at every sharpness 0 to 7, whose interior limit the library looks up, and at
//! some sharpness values above, whose limit it derives. The pictures are made of windows that the limits of the pair
//! decide on: with a limit that is one lower or one higher the Rust's kernel leaves another window.

use crate::Plan;
use crate::call::{ByteLists, Call, Done, FLAGS, Form, MODES, Memory, Outcome, PASSES, Pass, Planes, SIDE};
use crate::guard::SIDES;
use crate::kernels::{Kernel, Limits, Test};
use crate::pairs::{Taps, bent};
use crate::passes::{same, tight};
use crate::pictures::{entries, picture};
use crate::tally::{Kind, Tally};
use oracle::{FrameFilterConfig, LoopFilterParams};
use rules::random::Random;

const SHARPNESS: [u8; 12] = [0, 1, 2, 3, 4, 5, 6, 7, 8, 9, 200, 255];

const CLASSES: [&str; 13] = [
    "level 0",
    "level 63",
    "sharpness 0",
    "sharpness 7",
    "sharpness above 7",
    "key",
    "inter",
    "normal filter",
    "simple filter",
    "level of a segment",
    "edges between macroblocks",
    "inner edges",
    "random picture",
];

pub fn compare(plan: &Plan, tally: &mut Tally) {
    for pass in PASSES {
        tally.run(&format!("{}, every level and sharpness", pass.entry()), &CLASSES, |kind| {
            let (mut random, mut memory) = (Random::new(plan.seed), Memory::new());
            let rounds = if plan.long { 10 } else { 1 };
            (0..rounds).try_for_each(|_| each_pair(pass, &mut random, &mut memory, kind))
        });
    }
}

fn each_pair(pass: Pass, random: &mut Random, memory: &mut Memory, kind: &mut Kind) -> Result<(), String> {
    for sharpness in SHARPNESS {
        for level in 0..64 {
            for marks in 0..4 {
                let pair = Pair { level, sharpness, simple: marks & 1 == 1, key: marks & 2 == 2 };
                pair.compare(pass, random, memory, kind)?;
            }
        }
    }
    Ok(())
}

/// What a pass derives its limits from.
#[derive(Clone, Copy, Debug)]
struct Pair {
    level: u8,
    sharpness: u8,
    simple: bool,
    key: bool,
}

impl Pair {
    fn compare(&self, pass: Pass, random: &mut Random, memory: &mut Memory, kind: &mut Kind) -> Result<(), String> {
        for (index, drawn) in DRAWN.into_iter().enumerate() {
            // Each picture has the level of the header with one key mark and that of the segments with the other.
            let of_segment = (index % 2 == 1) != self.key;
            let call = self.call(pass, drawn, of_segment, random)?;
            self.classify(drawn, of_segment, kind);
            let (count, planes) = (call.macroblocks(), call.unbroken());
            if (planes == call.planes) != (self.level == 0) && drawn != Drawn::Random {
                return Err(format!("the Rust must change the windows, unless the level is 0\n{call}"));
            }
            same(&call, Outcome::new(Ok(Done { count, next: count }), planes), memory)?;
        }
        Ok(())
    }

    fn call(&self, pass: Pass, drawn: Drawn, of_segment: bool, random: &mut Random) -> Result<Call, String> {
        let config = self.config(of_segment, random);
        let (inner, turned) = match drawn {
            Drawn::Random => {
                let random_picture = picture(pass, 1 + random.below(3), 1 + random.below(3), random);
                return Ok(Call { config, ..random_picture });
            }
            Drawn::Between { turned } => (false, turned),
            Drawn::Inside { turned } => (true, turned),
        };
        let windows = self.windows(inner)?;
        let (columns, rows) = if inner { (1, windows.len()) } else { (2, 1) };
        let (columns, rows) = if turned { (rows, columns) } else { (columns, rows) };
        let (layout, allowance) = (tight(columns, rows), columns * rows);
        let planes = if inner { inside(&windows, turned) } else { between(&windows, turned) };
        let lists = lists(inner, allowance, random);
        let (form, side) = (Form::Pass, random.one_of(&SIDES));
        Ok(Call { form, pass, layout, planes, lists, config, start: 0, allowance, side })
    }

    /// The level as the header's, or as that of every segment.
    fn config(&self, of_segment: bool, random: &mut Random) -> FrameFilterConfig {
        let config = FrameFilterConfig::default().with_simple(self.simple).with_key_frame(self.key);
        let config = config.with_sharpness_level(self.sharpness);
        if !of_segment {
            return config.with_loop_filter_level(self.level);
        }
        let config = config.with_loop_filter_level(random.byte()).with_segmentation_enabled(true);
        config.with_segment_abs(true).with_segment_lf_level([self.level as i16; 4])
    }

    /// The windows that the limits of the pair decide on. At level 0, which filters nothing, those of level 1.
    fn windows(&self, inner: bool) -> Result<Vec<Taps>, String> {
        let limits = LoopFilterParams::derive(self.level.max(1), self.sharpness, self.key);
        let filter = Filter { simple: self.simple, inner, limits };
        let neighbours: Option<Vec<_>> = (0..6).map(|place| filter.at_the_interior_limit(place)).collect();
        let windows = match (self.simple, neighbours, filter.at_the_edge_limit()) {
            (true, _, Some(edge)) => edge.to_vec(),
            (false, Some(neighbours), edge) => neighbours.into_iter().chain(edge).flatten().collect(),
            _ => return Err(format!("no window is found that the limits decide on: {self:?}, inner edge {inner}")),
        };
        Ok(windows)
    }

    fn classify(&self, drawn: Drawn, of_segment: bool, kind: &mut Kind) {
        let classes = [
            ("level 0", self.level == 0),
            ("level 63", self.level == 63),
            ("sharpness 0", self.sharpness == 0),
            ("sharpness 7", self.sharpness == 7),
            ("sharpness above 7", self.sharpness > 7),
            ("key", self.key),
            ("inter", !self.key),
            ("normal filter", !self.simple),
            ("simple filter", self.simple),
            ("level of a segment", of_segment),
            ("edges between macroblocks", matches!(drawn, Drawn::Between { .. })),
            ("inner edges", matches!(drawn, Drawn::Inside { .. })),
            ("random picture", drawn == Drawn::Random),
        ];
        kind.add_cases(1);
        classes.into_iter().for_each(|(name, occurs)| kind.add_class(name, occurs as u64));
    }
}

/// How a picture is made. Turned, its rows are columns.
#[derive(Clone, Copy, PartialEq)]
enum Drawn {
    Between { turned: bool },
    Inside { turned: bool },
    Random,
}

const DRAWN: [Drawn; 5] = [
    Drawn::Between { turned: false },
    Drawn::Between { turned: true },
    Drawn::Inside { turned: false },
    Drawn::Inside { turned: true },
    Drawn::Random,
];

/// The filter of an edge between macroblocks or of an inner one.
struct Filter {
    simple: bool,
    inner: bool,
    limits: LoopFilterParams,
}

impl Filter {
    fn edge_limit(&self) -> u8 {
        if self.inner { self.limits.sub_bedge_limit } else { self.limits.mbedge_limit }
    }

    /// Whether the Rust's kernel changes a window by these two limits.
    fn changes(&self, taps: &Taps, interior: u8, edge: u8) -> bool {
        let limits = Limits { threshold: self.limits.hev_threshold, interior, edge };
        let kernel = match (self.simple, self.inner) {
            (true, _) => Kernel::Simple(edge),
            (false, true) => Kernel::Subblock(limits),
            (false, false) => Kernel::Macroblock(limits),
        };
        let mut left = *taps;
        kernel.call_rust(&mut left, (8 - kernel.width()) / 2, &mut 0);
        left != *taps
    }

    /// A window that is changed by the interior limit and not by one below it, and one that is changed by one above it
    /// and not by itself: the neighbours at one place differ so much.
    fn at_the_interior_limit(&self, place: usize) -> Option<[Taps; 2]> {
        let (limit, edge) = (self.limits.interior_limit, self.edge_limit());
        let deciding = |difference: u8| {
            let mut windows = steps([1, 2, 3, -1, -2, -3], 1).map(|taps| apart(taps, place, difference));
            windows.find(|taps| self.changes(taps, difference, edge) && !self.changes(taps, difference - 1, edge))
        };
        Some([deciding(limit)?, deciding(limit + 1)?])
    }

    /// The same of the edge limit, by the height of the edge.
    fn at_the_edge_limit(&self) -> Option<[Taps; 2]> {
        let (limit, interior) = (self.edge_limit(), self.limits.interior_limit);
        let deciding = |measure: u8| {
            let mut windows = steps(1..=100, 3).filter(|taps| Test::of(taps).edge == measure as u32);
            windows.find(|taps| self.changes(taps, interior, measure) && !self.changes(taps, interior, measure - 1))
        };
        Some([deciding(limit)?, deciding(limit + 1)?])
    }
}

/// Steps of these heights from p0 to q0, with p1 and q1 at most `bend` away from them, and level beyond.
fn steps(heights: impl IntoIterator<Item = i32>, bend: i32) -> impl Iterator<Item = Taps> {
    let bends = move || (-bend..=bend).flat_map(move |p| (-bend..=bend).map(move |q| (p, q)));
    heights.into_iter().flat_map(move |height| bends().map(move |(p, q)| bent(height, p, q)))
}

/// The window with the neighbours at one of the six places this far apart, the outer above the inner.
fn apart(mut taps: Taps, place: usize, difference: u8) -> Taps {
    let (outer, inner, beyond) =
        if place < 3 { (place, place + 1, 0..=place) } else { (place + 2, place + 1, place + 2..=7) };
    let by = taps[inner] + difference - taps[outer];
    taps[beyond].iter_mut().for_each(|tap| *tap += by);
    taps
}

/// Two macroblocks: each line of samples across the edge between them is one of the windows. The eight lines of u and
/// those of v have different ones.
fn between(windows: &[Taps], turned: bool) -> Planes {
    drawn(2, 1, turned, |plane, across, along| {
        let edge = SIDE[plane];
        windows[(along + [0, 0, 8][plane]) % windows.len()][across.clamp(edge - 4, edge + 3) + 4 - edge]
    })
}

/// A macroblock for each window: all of its lines are that window about its first inner edge. The edges between the
/// macroblocks lie along these lines.
fn inside(windows: &[Taps], turned: bool) -> Planes {
    drawn(1, windows.len(), turned, |plane, across, along| windows[along / SIDE[plane]][across.min(7)])
}

/// Planes without samples outside a grid so many macroblocks wide and high, or the other way round.
fn drawn(wide: usize, high: usize, turned: bool, sample: impl Fn(usize, usize, usize) -> u8) -> Planes {
    [0, 1, 2].map(|plane| {
        let (width, height) = (SIDE[plane] * wide, SIDE[plane] * high);
        match turned {
            false => (0..width * height).map(|i| sample(plane, i % width, i / width)).collect(),
            true => (0..width * height).map(|i| sample(plane, i / height, i % height)).collect(),
        }
    })
}

/// Lists of macroblocks that all have inner edges, by mode B or by their flags, or none of which has.
fn lists(inner: bool, n: usize, random: &mut Random) -> ByteLists {
    let by_mode = random.yes();
    std::array::from_fn(|list| match (list, inner) {
        (MODES, true) if by_mode => vec![4; n],
        (FLAGS, true) if !by_mode => (0..n).map(|_| random.one_of(&[1, 2, 255])).collect(),
        (MODES, false) => (0..n).map(|_| random.below(4) as u8).collect(),
        (FLAGS, false) => vec![0; n],
        _ => entries(list, n, random),
    })
}

#[cfg(test)]
mod tests {
    use super::*;

    /// The sharpness next to each, where it has another interior limit at the level: that one leaves other bytes of every picture.
    #[test]
    fn another_limit_leaves_other_bytes() {
        let mut random = Random::new(1);
        let limit = |level, sharpness| LoopFilterParams::derive(level, sharpness, true).interior_limit;
        let mut tried = 0;
        for (level, sharpness) in (1..64).flat_map(|level| (0..8_u8).map(move |sharpness| (level, sharpness))) {
            for other in [sharpness + 1, sharpness.wrapping_sub(1)] {
                if other > 8 || limit(level, sharpness) == limit(level, other) {
                    continue;
                }
                for (drawn, simple) in DRAWN[..4].iter().flat_map(|drawn| [(*drawn, false), (*drawn, true)]) {
                    let pair = Pair { level, sharpness, simple, key: random.yes() };
                    let call = pair.call(Pass::Key, drawn, random.yes(), &mut random).expect("windows");
                    let another = Call { config: call.config.with_sharpness_level(other), ..call.clone() };
                    assert!(call.unbroken() != another.unbroken(), "{pair:?} and sharpness {other}\n{call}");
                    tried += 1;
                }
            }
        }
        assert!(tried > 4_000, "only {tried} pictures were tried");
    }
}
