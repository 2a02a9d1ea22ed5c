//! The full search, which tries every level with every sharpness: random small pictures, ties, wide and high grids, any
//! stride, damaged calls and film frames. Each candidate is scored by the Rust's own pass and sum. Compared are the
//! refusal, level, sharpness and sum, every scratch sample, and that nothing else moved; and the sum is at most that of
//! the pair which the Rust's own search ends with.

use crate::Plan;
use crate::call::{Call, PASSES, Pass, Planes, SIDE, run_rust};
use crate::ffi;
use crate::guard;
use crate::pairs;
use crate::passes::{filtering, tight};
use crate::search::{Memory, Search, against_source, damage, damage_list, of_frame, of_size, rounds};
use crate::shrink::shrink;
use crate::soak::Draw;
use crate::sources::{self, ABOUT, STRIDES};
use crate::tally::{Kind, Tally};
use rules::Scored;
use rules::random::Random;
use std::fmt;

/// What the out-parameters and the numbers beside them hold before a call.
const UNTOUCHED: Out = Out { bytes: [0xA5; 5], sum: [0x5A5A_5A5A_5A5A_5A5A; 3] };

/// A tie that the level decides, though another candidate has a lower sharpness.
pub const LEVEL_FIRST: &str = "tie of a lower level with a lower sharpness";
const TIES: [&str; 4] = ["tie with unfiltered", "tie of levels", "tie of sharpness values", LEVEL_FIRST];

const CLASSES: [&str; 19] = [
    "unfiltered",
    "filtered",
    "another sharpness than the base",
    "better than the search",
    "as good as the search",
    "own sharpness above 7",
    "own sharpness above 7, unfiltered",
    "simple filter",
    "normal filter",
    "absolute segments",
    "absolute segments, filtered",
    "added segments",
    "deltas",
    "source equal to the reconstruction",
    "odd size",
    "width or height 0",
    "lists of wrong length",
    "lists of wrong length, a sum above 0",
    "scratch outside the grid",
];

const REFUSED: [&str; 8] =
    ["refused 1", "refused 2", "refused 3", "refused 8", "refused 9", "refused 6", "not refused", "zero grid"];

const SIZES: [&str; 4] = ["200 columns and more", "100 rows and more", ABOUT, "the best sum above 2^32"];

pub fn compare(plan: &Plan, tally: &mut Tally) {
    for pass in PASSES {
        let name = pass.full_search();
        let classes = [&CLASSES[..], &TIES[..3]].concat();
        tally.run(&format!("{name}, random pictures"), &classes, |kind| pictures(plan, pass, kind));
        tally.run(&format!("{name}, ties"), &FORCED.map(|(class, ..)| class), |kind| ties(plan, pass, kind));
        for (simple, filter, classes) in [(false, "normal", pairs::NORMAL), (true, "simple", pairs::SIMPLE)] {
            let name = format!("{name}, each pair the best, {filter} filter");
            tally.run(&name, &classes, |kind| pairs::each(plan.seed, pass, simple, kind));
        }
        tally.run(&format!("{name}, level before sharpness"), &[LEVEL_FIRST], |kind| {
            pairs::level_before_sharpness(plan.seed, pass, kind)
        });
        tally.run(&format!("{name}, damaged"), &REFUSED, |kind| damaged(plan, pass, kind));
        tally.run(&format!("{name}, any stride"), &STRIDES, |kind| strides(plan, pass, kind));
        tally.run(&format!("{name}, wide and high grids"), &SIZES, |kind| sizes(plan, pass, kind));
    }
    tally.run("full search on kept film", &["key", "inter", "filtered"], |kind| on_film(plan, kind));
}

/// The out-parameters among their neighbours in memory: level and sharpness, and the sum.
#[derive(Clone, Copy, Debug, PartialEq)]
struct Out {
    bytes: [u8; 5],
    sum: [u64; 3],
}

impl Out {
    fn of(best: &Scored) -> Out {
        let mut out = UNTOUCHED;
        (out.bytes[1], out.bytes[3], out.sum[1]) = (best.level, best.sharpness, best.sum);
        out
    }
}

#[derive(PartialEq)]
struct Outcome {
    answer: u8,
    out: Out,
    scratch: Planes,
    others_stay: bool,
}

/// What the rule and the Rust make of a full search.
pub struct Expected {
    outcome: Outcome,
    /// Every candidate, of a call that is not refused.
    scored: Vec<Scored>,
}

impl Expected {
    pub fn of(search: &Search) -> Expected {
        let answer = search.refusal();
        let mut outcome = Outcome { answer, out: UNTOUCHED, scratch: search.scratch.clone(), others_stay: true };
        let scored = if answer == 0 { by_brute_force(search) } else { Vec::new() };
        if let Some(best) = scored.iter().min() {
            outcome.out = Out::of(best);
            let chosen = search.candidate(best.level, best.sharpness);
            search.copy_grid([&chosen.y, &chosen.u, &chosen.v], outcome.scratch.each_mut().map(Vec::as_mut_slice));
        }
        Expected { outcome, scored }
    }

    pub fn answer(&self) -> u8 {
        self.outcome.answer
    }

    /// What is chosen, by a call that is not refused.
    pub fn best(&self) -> Option<Scored> {
        self.scored.iter().min().copied()
    }

    /// The sum of the pair that the Rust's own search ends with; where it has no such search, of the reconstruction.
    /// None of a call that is refused.
    fn of_the_search(&self, search: &Search) -> Option<u64> {
        self.best()?;
        let (level, sharpness) = search.rust().unwrap_or((0, search.call.config.sharpness_level.min(7)));
        let pair = self.scored.iter().find(|tried| (tried.level, tried.sharpness) == (level, sharpness));
        pair.map(|pair| pair.sum)
    }

    /// Which ties the chosen pair wins, by the names of their classes.
    pub fn ties(&self) -> [(&'static str, bool); 4] {
        let Some(best) = self.best() else {
            return TIES.map(|name| (name, false));
        };
        let wins = |against: &dyn Fn(&Scored) -> bool| {
            self.scored.iter().any(|other| other.sum == best.sum && *other != best && against(other))
        };
        let filtered = best.level > 0;
        let won = [
            !filtered && wins(&|_| true),
            filtered && wins(&|other| other.level > best.level),
            filtered && wins(&|other| other.level == best.level),
            filtered && wins(&|other| other.sharpness < best.sharpness),
        ];
        std::array::from_fn(|i| (TIES[i], won[i]))
    }
}

/// Every candidate with its sum: the Rust's own pass over the reconstruction, and the Rust's own sum.
fn by_brute_force(search: &Search) -> Vec<Scored> {
    let Call { pass, planes: lent, config, .. } = &search.call;
    let records = (search.has_grid() && search.right_lengths()).then(|| search.call.records());
    let mut planes = search.call.rust_planes();
    rules::scored(config.sharpness_level, |level, sharpness| {
        if let Some(records) = records.as_ref().filter(|_| level > 0) {
            let grid = [&mut planes.y[..], &mut planes.u, &mut planes.v];
            search.copy_grid(lent.each_ref().map(Vec::as_slice), grid);
            let config = config.with_loop_filter_level(level).with_sharpness_level(sharpness);
            run_rust(*pass, &mut planes, records, &config);
        }
        search.sum(&planes)
    })
}

fn library(search: &Search, memory: &mut Memory) -> Outcome {
    let ((answer, out), scratch, others_stay) = search.lending(memory, |lent, scratch| {
        let mut out = UNTOUCHED;
        let ([_, level, _, sharpness, _], [_, sum, _]) = (&mut out.bytes, &mut out.sum);
        let answer = guard::calling(search, || ffi::full_search(lent, scratch, level, sharpness, sum));
        (answer, out)
    });
    Outcome { answer, out, scratch, others_stay }
}

/// Compares, and answers what is expected.
pub fn same(search: &Search, memory: &mut Memory) -> Result<Expected, String> {
    let (expected, came) = (Expected::of(search), library(search, memory));
    if came != expected.outcome {
        let differs = |search: &Search| library(search, memory) != Expected::of(search).outcome;
        let smallest = shrink(search.clone(), Search::simpler, differs);
        let (expected, came) = (Expected::of(&smallest).outcome, library(&smallest, memory));
        return Err(format!("\n{smallest}\n  a full search of it\n  expected: {expected}\n  library:  {came}"));
    }
    let searched = expected.of_the_search(search);
    if searched.is_some_and(|searched| came.out.sum[1] > searched) {
        return Err(format!(
            "\n{search}\n  a full search of it\n  the Rust's own search: {searched:?}\n  library: {came}"
        ));
    }
    Ok(expected)
}

impl fmt::Display for Outcome {
    fn fmt(&self, f: &mut fmt::Formatter<'_>) -> fmt::Result {
        let sums = self.scratch.each_ref().map(|plane| plane.iter().map(|sample| *sample as u64).sum::<u64>());
        write!(f, "refusal {}, {:?}, scratch planes that sum to {sums:?}", self.answer, self.out)?;
        if self.others_stay { Ok(()) } else { write!(f, ", and something lent for reading has changed") }
    }
}

fn add_classes(kind: &mut Kind, classes: impl IntoIterator<Item = (&'static str, bool)>) {
    kind.add_cases(1);
    classes.into_iter().for_each(|(name, occurs)| kind.add_class(name, occurs as u64));
}

fn pictures(plan: &Plan, pass: Pass, kind: &mut Kind) -> Result<(), String> {
    rounds(plan, if plan.long { 20_000 } else { 1_500 }, kind, |random, memory, kind| {
        let mut search = of_size(pass, 1 + random.below(3), 1 + random.below(2), random);
        if random.below(20) == 0 {
            let list = random.below(search.call.lists_read().len());
            search.call.lists[list].push(0);
        }
        let expected = same(&search, memory)?;
        classify(&search, &expected, kind);
        Ok(())
    })
}

fn classify(search: &Search, expected: &Expected, kind: &mut Kind) {
    let Some(Scored { sum, level, sharpness }) = expected.best() else {
        return;
    };
    let (config, searched) = (&search.call.config, expected.of_the_search(search));
    let grid = |plane: usize| SIDE[plane] * search.call.layout.columns * SIDE[plane] * search.call.layout.rows;
    let [filtered, absolute] = [level > 0, config.segmentation_enabled && config.segment_abs];
    let classes = [
        ("unfiltered", !filtered),
        ("filtered", filtered),
        ("another sharpness than the base", sharpness != config.sharpness_level.min(7)),
        ("better than the search", searched.is_some_and(|searched| sum < searched)),
        ("as good as the search", filtered && searched == Some(sum)),
        ("own sharpness above 7", config.sharpness_level > 7),
        ("own sharpness above 7, unfiltered", config.sharpness_level > 7 && !filtered),
        ("simple filter", config.simple),
        ("normal filter", !config.simple),
        ("absolute segments", absolute),
        ("absolute segments, filtered", absolute && filtered),
        ("added segments", config.segmentation_enabled && !config.segment_abs),
        ("deltas", config.delta_enabled),
        ("source equal to the reconstruction", search.width * search.height > 0 && !filtered && sum == 0),
        ("odd size", search.width % 2 == 1 || search.height % 2 == 1),
        ("width or height 0", search.width == 0 || search.height == 0),
        ("lists of wrong length", !search.right_lengths()),
        ("lists of wrong length, a sum above 0", !search.right_lengths() && sum > 0),
        ("scratch outside the grid", (0..3).any(|plane| search.scratch[plane].len() > grid(plane))),
    ];
    add_classes(kind, classes.into_iter().chain(expected.ties()).filter(|(name, _)| *name != LEVEL_FIRST));
}

/// Pictures of which all candidates leave the same, or all levels do, or none leaves less than the reconstruction.
fn ties(plan: &Plan, pass: Pass, kind: &mut Kind) -> Result<(), String> {
    rounds(plan, if plan.long { 1_000 } else { 20 }, kind, |random, memory, kind| {
        FORCED.into_iter().try_for_each(|(class, level, force)| {
            let expected = loop {
                let mut search = of_size(pass, 1 + random.below(3), 1 + random.below(2), random);
                force(&mut search, random);
                let expected = same(&search, memory)?;
                // A pass over absolute segments may leave more than the reconstruction.
                if expected.best().is_some_and(|best| best.level == level) {
                    break expected;
                }
            };
            kind.add_cases(1);
            kind.add_class(class, expected.ties().iter().any(|(_, wins)| *wins) as u64);
            Ok(())
        })
    })
}

/// Ways to force a tie, and the level that wins it.
type Force = fn(&mut Search, &mut Random);
const FORCED: [(&str, u8, Force); 5] = [
    ("flat picture and flat source", 0, |search, random| {
        let sample = random.byte();
        let planes = [&mut search.call.planes, &mut search.source];
        planes.into_iter().flatten().for_each(|plane| plane.fill(sample));
    }),
    ("flat picture", 0, |search, random| {
        let sample = random.byte();
        search.call.planes.iter_mut().for_each(|plane| plane.fill(sample));
    }),
    ("source equal to the reconstruction", 0, |search, _| {
        let Call { planes, layout, .. } = &search.call;
        search.strides = [layout.y_stride, layout.uv_stride, layout.uv_stride];
        search.source = planes.clone();
    }),
    ("every level lowered to 0", 0, |search, _| {
        let config = search.call.config.with_delta_enabled(true).with_ref_delta_current(-63);
        search.call.config = config.with_segmentation_enabled(false).with_bpred_mode_delta(0);
        // No reference in any macroblock.
        search.call.lists[3].fill(0);
    }),
    ("absolute segments", 1, |search, random| {
        let config = search.call.config.with_segmentation_enabled(true).with_segment_abs(true);
        let levels = [0; 4].map(|_| 8 + random.below(56) as i16);
        let config = config.with_segment_lf_level(levels).with_delta_enabled(false);
        *search = against_source(Call { config, ..search.call.clone() }, |row, _| row, random);
    }),
];

/// One or two faults in a full search, each at its boundary.
fn damaged(plan: &Plan, pass: Pass, kind: &mut Kind) -> Result<(), String> {
    rounds(plan, if plan.long { 20_000 } else { 1_500 }, kind, |random, memory, kind| {
        let mut search = of_size(pass, 1 + random.below(2), 1, random);
        for _ in 0..1 + random.below(2) {
            damage(&mut search, random);
        }
        let answer = same(&search, memory)?.answer();
        kind.add_cases(1);
        let class = if answer == 0 { String::from("not refused") } else { format!("refused {answer}") };
        kind.add_class(&class, 1);
        kind.add_class("zero grid", (answer == 0 && !search.has_grid()) as u64);
        Ok(())
    })
}

fn strides(plan: &Plan, pass: Pass, kind: &mut Kind) -> Result<(), String> {
    rounds(plan, if plan.long { 1_000 } else { 120 }, kind, |random, memory, kind| {
        let search = sources::of_any_stride(pass, random);
        same(&search, memory)?;
        sources::count_strides(&search, kind);
        let refused = sources::refused_strides(&search, random);
        refused.into_iter().chain(sources::one_short(&search)).try_for_each(|refused| {
            let answer = same(&refused.search, memory)?.answer();
            refused.count(answer, kind)
        })
    })
}

fn sizes(plan: &Plan, pass: Pass, kind: &mut Kind) -> Result<(), String> {
    let most = if plan.long { 825 } else { 100 };
    rounds(plan, if plan.long { 20 } else { 1 }, kind, |random, memory, kind| {
        for (columns, rows) in [(200 + random.below(most), 1), (1, 100 + random.below(most))] {
            let call = filtering(pass, tight(columns, rows), random);
            let search = against_source(call, |row, random| row + random.below(3), random);
            same(&search, memory)?;
            add_classes(kind, [("200 columns and more", columns >= 200), ("100 rows and more", rows >= 100)]);
        }
        let mut search = sources::about_a_multiple(pass, random);
        same(&search, memory)?;
        add_classes(kind, [(ABOUT, true)]);
        sources::raise_above_it(&mut search);
        let best = same(&search, memory)?.best();
        add_classes(kind, [("the best sum above 2^32", best.is_some_and(|best| best.sum > 1 << 32))]);
        Ok(())
    })
}

/// Frames of the kept film against what the film's own settings leave.
fn on_film(plan: &Plan, kind: &mut Kind) -> Result<(), String> {
    let frames: Vec<_> = film::kept().into_iter().flat_map(|stream| stream.frames).collect();
    let step = if plan.long { 1 } else { 5 };
    kind.in_threads(plan.threads, |thread, kind| {
        let (mut random, mut memory) = (Random::new(plan.seed), Memory::new());
        for frame in frames.iter().step_by(step).skip(thread).step_by(plan.threads) {
            let search = of_frame(frame, &mut random);
            let best = same(&search, &mut memory)?.best();
            let filtered = best.is_some_and(|best| best.level > 0);
            let key = search.call.pass == Pass::Key;
            add_classes(kind, [("key", key), ("inter", !key), ("filtered", filtered)]);
        }
        Ok(())
    })
}

/// A full search as drawn or with one or two faults.
pub fn drawer(pass: Pass) -> Draw {
    let mut memory = Memory::new();
    Box::new(move |random, calls| {
        let mut search = of_size(pass, 1 + random.below(2), 1 + random.below(2), random);
        match random.below(4) {
            0 => {}
            1 => damage_list(&mut search, random),
            faults => (1..faults).for_each(|_| damage(&mut search, random)),
        }
        calls.add(pass.full_search(), same(&search, &mut memory)?.answer());
        Ok(())
    })
}
