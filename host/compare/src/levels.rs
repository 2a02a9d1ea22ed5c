//! The level of a macroblock in both passes, under random and extreme settings: every mode, reference and inter mode
//! up to a few above the last that stands for something, and segments below and above 4; and every byte in place of each.

use crate::call::Pass;
use crate::pictures::config;
use crate::shrink::{Cases, shrink, smaller_bytes};
use crate::soak::Calls;
use crate::tally::{Kind, Tally};
use crate::{Plan, ffi, settings};
use entries::bytes;
use oracle::{FrameFilterConfig, loop_filter};
use rules::random::Random;
use std::fmt;

const SEGMENTS: [u8; 7] = [0, 1, 2, 3, 4, 5, 255];
const MODES: u8 = 8;
const REFERENCES: u8 = 6;
const INTER_MODES: u8 = 8;

/// What a byte beside the level holds, and the level before a refused call. No level is that large.
const UNTOUCHED: u8 = 170;

const KEY_CLASSES: [&str; 6] =
    ["level 0", "level 1 to 62", "level 63", "one clamp would differ", "segment above 3", "refused: mode"];
const INTER_CLASSES: [&str; 13] = [
    "level 0",
    "level 1 to 62",
    "level 63",
    "one clamp would differ",
    "segment above 3",
    "no reference",
    "reference and Zero",
    "reference and Split",
    "reference and another inter mode",
    "refused: mode",
    "refused: reference",
    "refused: inter mode",
    "refused: two at once",
];

pub fn compare(plan: &Plan, tally: &mut Tally) {
    let rounds = if plan.long { 20_000 } else { 300 };
    let key = |config, segment, mode| Case { config, segment, mode, inter: None };
    tally.run("calculate_mb_filter_level", &KEY_CLASSES, |kind| {
        each_settings(plan, rounds, kind, |config, kind| {
            each_byte_pair(|segment, mode| key(*config, segment, mode).compare(kind))
        })
    });
    let few = if plan.long { 200 } else { 6 };
    for (name, classes, pass) in [("", &KEY_CLASSES[..], Pass::Key), ("_inter", &INTER_CLASSES[..], Pass::Inter)] {
        tally.run(&format!("calculate_mb_filter_level{name}, every byte"), classes, |kind| {
            each_settings(plan, few, kind, |config, kind| every_byte(*config, pass, kind))
        });
    }
    tally.run("calculate_mb_filter_level_inter", &INTER_CLASSES, |kind| {
        each_settings(plan, rounds, kind, |config, kind| {
            each_byte_pair(|segment, mode| {
                for reference in 0..REFERENCES {
                    for inter_mode in 0..INTER_MODES {
                        let inter = Some(Inter { reference, inter_mode });
                        Case { inter, ..key(*config, segment, mode) }.compare(kind)?;
                    }
                }
                Ok(())
            })
        })
    });
}

/// Every byte as the segment and as the mode, and in the inter pass as the reference and as the inter mode, beside usual
/// bytes; and every byte as all three that 6 judges.
fn every_byte(config: FrameFilterConfig, pass: Pass, kind: &mut Kind) -> Result<(), String> {
    let usual = |bound: usize, byte: u8| byte % bound as u8;
    for byte in 0..=255u8 {
        for other in 0..8 {
            let (reference, inter_mode) = (usual(4, other), usual(6, other));
            let inter = |reference, inter_mode| (pass == Pass::Inter).then_some(Inter { reference, inter_mode });
            let case = Case { config, segment: other, mode: usual(5, other), inter: inter(reference, inter_mode) };
            Case { segment: byte, ..case }.compare(kind)?;
            Case { mode: byte, ..case }.compare(kind)?;
            if pass == Pass::Inter {
                Case { inter: inter(byte, inter_mode), ..case }.compare(kind)?;
                Case { inter: inter(reference, byte), ..case }.compare(kind)?;
                Case { mode: byte, inter: inter(byte, byte), ..case }.compare(kind)?;
            }
        }
    }
    Ok(())
}

/// A call of each under any settings. One byte in eight is any.
pub fn draw(random: &mut Random, calls: &mut Calls) -> Result<(), String> {
    let config = config(random);
    let mut byte = |usual: u8| if random.below(8) == 0 { random.byte() } else { random.below(usual as usize) as u8 };
    let (segment, mode) = (byte(4), byte(5));
    let inter = Some(Inter { reference: byte(4), inter_mode: byte(6) });
    for (entry, inter) in [("calculate_mb_filter_level", None), ("calculate_mb_filter_level_inter", inter)] {
        let case = Case { config, segment, mode, inter };
        calls.add(entry, case.answers()[0].0);
        case.check()?;
    }
    Ok(())
}

/// Every setting of the marks on each of `rounds` random sets of numbers.
fn each_settings<F>(plan: &Plan, rounds: usize, kind: &mut Kind, compare: F) -> Result<(), String>
where
    F: Fn(&FrameFilterConfig, &mut Kind) -> Result<(), String> + Sync,
{
    kind.in_threads(plan.threads, |thread, kind| {
        let mut random = Random::new(plan.seed ^ (thread as u64 + 1) << 32);
        for _ in 0..rounds / plan.threads {
            let numbers = settings::numbers(&mut random);
            for marks in 0..settings::MARKS {
                compare(&settings::with_marks(numbers, marks), kind)?;
            }
        }
        Ok(())
    })
}

fn each_byte_pair(mut compare: impl FnMut(u8, u8) -> Result<(), String>) -> Result<(), String> {
    for segment in SEGMENTS {
        for mode in 0..MODES {
            compare(segment, mode)?;
        }
    }
    Ok(())
}

#[derive(Clone, Copy)]
struct Inter {
    reference: u8,
    inter_mode: u8,
}

/// One call: of the inter level if there is an `inter`, else of the key level.
#[derive(Clone, Copy)]
struct Case {
    config: FrameFilterConfig,
    segment: u8,
    mode: u8,
    inter: Option<Inter>,
}

impl Case {
    /// The Rust's level with the segment as given; `None` for refusal 6.
    fn rust(&self, segment: Option<u8>) -> Option<u8> {
        let mode = bytes::mode(self.mode)?;
        Some(match self.inter {
            None => loop_filter::calculate_mb_filter_level(&self.config, segment, mode),
            Some(Inter { reference, inter_mode }) => {
                let (reference, inter_mode) = (bytes::reference(reference)?, bytes::inter_mode(inter_mode)?);
                loop_filter::calculate_mb_filter_level_inter(&self.config, segment, reference, inter_mode, mode)
            }
        })
    }

    /// What the library answers, and the level between its neighbours in memory.
    fn library(&self, before: u8) -> (u8, [u8; 3]) {
        let Case { config, segment, mode, inter } = self;
        let mut out = [UNTOUCHED, before, UNTOUCHED];
        let level = &mut out[1];
        let answer = match inter {
            None => ffi::calculate_mb_filter_level(config, *segment, *mode, level),
            Some(Inter { reference, inter_mode }) => {
                ffi::calculate_mb_filter_level_inter(config, *segment, *reference, *inter_mode, *mode, level)
            }
        };
        (answer, out)
    }

    /// What the library must answer and leave, and what it did.
    fn answers(&self) -> [(u8, [u8; 3]); 2] {
        match self.rust(Some(self.segment)) {
            Some(level) => [(0, [UNTOUCHED, level, UNTOUCHED]), self.library(!level)],
            None => [(rules::BAD_ENTRY, [UNTOUCHED; 3]), self.library(UNTOUCHED)],
        }
    }

    fn differs(&self) -> bool {
        let [expected, library] = self.answers();
        expected != library
    }

    fn compare(&self, kind: &mut Kind) -> Result<(), String> {
        kind.add_cases(1);
        self.classify(kind);
        self.check()
    }

    fn check(&self) -> Result<(), String> {
        if self.segment == 0 && self.rust(None) != self.rust(Some(0)) {
            return Err(format!("the Rust's level without a segment must be that of segment 0\n{self}"));
        }
        if self.differs() {
            let case = shrink(*self, Case::simpler, Case::differs);
            let [(number, expected), (answer, library)] = case.answers();
            return Err(format!(
                "\n{case}\n  must answer {number} and leave {expected:?}\n  answers {answer} and leaves {library:?} (the level between its neighbours)"
            ));
        }
        Ok(())
    }

    fn simpler(&self) -> Cases<'_, Case> {
        let mut simpler: Vec<Case> =
            settings::simpler(&self.config).into_iter().map(|config| Case { config, ..*self }).collect();
        simpler.extend(smaller_bytes(self.segment).map(|segment| Case { segment, ..*self }));
        simpler.extend(smaller_bytes(self.mode).map(|mode| Case { mode, ..*self }));
        if let Some(Inter { reference, inter_mode }) = self.inter {
            let with = |reference, inter_mode| Case { inter: Some(Inter { reference, inter_mode }), ..*self };
            simpler.extend(smaller_bytes(reference).map(|smaller| with(smaller, inter_mode)));
            simpler.extend(smaller_bytes(inter_mode).map(|smaller| with(reference, smaller)));
        }
        Box::new(simpler.into_iter())
    }

    fn classify(&self, kind: &mut Kind) {
        let mut class = |name: &str, occurs: bool| kind.add_class(name, occurs as u64);
        let bad_mode = bytes::mode(self.mode).is_none();
        let bad_reference = self.inter.is_some_and(|inter| bytes::reference(inter.reference).is_none());
        let bad_inter_mode = self.inter.is_some_and(|inter| bytes::inter_mode(inter.inter_mode).is_none());
        match [bad_mode, bad_reference, bad_inter_mode] {
            [false, false, false] => {}
            [true, false, false] => return class("refused: mode", true),
            [false, true, false] => return class("refused: reference", true),
            [false, false, true] => return class("refused: inter mode", true),
            _ => return class("refused: two at once", true),
        }
        let level = self.rust(Some(self.segment)).expect("not refused");
        class("level 0", level == 0);
        class("level 1 to 62", (1..63).contains(&level));
        class("level 63", level == 63);
        class("one clamp would differ", level as i32 != self.clamped_once());
        class("segment above 3", self.config.segmentation_enabled && self.segment > 3);
        match self.inter {
            None => {}
            Some(Inter { reference: 0, .. }) => class("no reference", true),
            Some(Inter { inter_mode: 1, .. }) => class("reference and Zero", true),
            Some(Inter { inter_mode: 5, .. }) => class("reference and Split", true),
            Some(_) => class("reference and another inter mode", true),
        }
    }

    /// The level with the first clamp left out.
    fn clamped_once(&self) -> i32 {
        let config = &self.config;
        let segment = config.segment_lf_level[self.segment.min(3) as usize] as i32;
        let level = match (config.segmentation_enabled, config.segment_abs) {
            (false, _) => config.loop_filter_level as i32,
            (true, true) => segment,
            (true, false) => config.loop_filter_level as i32 + segment,
        };
        let (reference, inter_mode) = self.inter.map_or((0, 0), |inter| (inter.reference, inter.inter_mode));
        let reference_delta = config.ref_deltas()[reference as usize] as i32;
        let mode_delta = match (reference, inter_mode) {
            (0, _) if self.mode == 4 => config.bpred_mode_delta,
            (0, _) => 0,
            (_, 1) => config.zero_mv_mode_delta,
            (_, 5) => config.split_mv_mode_delta,
            _ => config.other_mv_mode_delta,
        };
        let deltas = if config.delta_enabled { reference_delta + mode_delta as i32 } else { 0 };
        (level + deltas).clamp(0, 63)
    }
}

impl fmt::Display for Case {
    fn fmt(&self, f: &mut fmt::Formatter<'_>) -> fmt::Result {
        write!(f, "  {:?}\n  segment {}, mode {}", self.config, self.segment, self.mode)?;
        match self.inter {
            None => write!(f, ", key level"),
            Some(Inter { reference, inter_mode }) => {
                write!(f, ", reference {reference}, inter mode {inter_mode}, inter level")
            }
        }
    }
}
