//! The four kernels on slices of 21 bytes to a mebibyte: windows all over them, at their ends, and at bases near the
//! largest usize and whole powers of 2 away. Every byte of the slice is compared.

use crate::Plan;
use crate::guard::{self, Guarded, SIDES, Side};
use crate::kernels::{ENTRIES, Kernel, KernelOf, NOT_TOLD, UNTOUCHED, middle, window};
use crate::shrink::{Cases, shrink};
use crate::soak::Draw;
use crate::tally::{Kind, Tally};
use rules::random::Random;
use std::fmt;

const LONGEST: usize = 1 << 20;

const CLASSES: [&str; 7] = [
    "4,096 bytes and more",
    "65,536 bytes and more",
    "at the start",
    "at the end",
    "refused: one byte short",
    "refused: base near the largest usize",
    "refused: base a power of 2 away",
];

pub fn compare(plan: &Plan, tally: &mut Tally) {
    for (name, _, kernel) in ENTRIES {
        tally.run(&format!("{name}, long slices"), &CLASSES, |kind| {
            let (mut random, mut memory) = (Random::new(plan.seed), Guarded::new(LONGEST));
            each_base(kernel, &mut random, &mut memory, kind)?;
            let rounds = if plan.long { 30 } else { 1 };
            (0..rounds).try_for_each(|_| each_length(kernel, &mut random, &mut memory, kind))
        });
    }
}

/// A call of each kernel on a slice of any length, at any base.
pub fn drawer() -> Draw {
    let mut memory = Guarded::new(LONGEST);
    Box::new(move |random, calls| {
        ENTRIES.into_iter().try_for_each(|(name, _, kernel)| {
            let any = 21 + random.below(8192);
            let len = random.one_of(&[32, 256, 4096, 65_536, any, any, any, any]);
            let (seg, bases) = (bytes(len, random), bases(len, random));
            let base = random.one_of(&bases);
            let case = Case::at(kernel, seg, base, random);
            calls.add(name, case.expected().refusal);
            case.check(&mut memory)
        })
    })
}

/// Every base of a slice of 257 and of one of 4,096 bytes. A window that fits is one that the kernel changes.
fn each_base(kernel: KernelOf, random: &mut Random, memory: &mut Guarded, kind: &mut Kind) -> Result<(), String> {
    for len in [257, 4096] {
        let seg = bytes(len, random);
        for base in 0..=len + 8 {
            let mut cases = std::iter::repeat_with(|| Case::at(kernel, seg.clone(), base, random));
            let case = cases.find(|case| !case.fits() || case.expected().seg != case.seg);
            case.expect("one of many").compare(memory, kind)?;
        }
    }
    Ok(())
}

/// Slices about every power of 2 and of other lengths, at some bases each.
fn each_length(kernel: KernelOf, random: &mut Random, memory: &mut Guarded, kind: &mut Kind) -> Result<(), String> {
    let powers = (5..=20).flat_map(|power| [(1 << power) - 1, 1 << power, (1 << power) + 1]);
    let others: Vec<usize> = (0..20).map(|_| 21 + random.below(100_000)).collect();
    for len in powers.chain(others) {
        let seg = bytes(len, random);
        for base in bases(len, random) {
            Case::at(kernel, seg.clone(), base, random).compare(memory, kind)?;
        }
    }
    Ok(())
}

/// Places all over a slice of `len` bytes, about its ends, and beyond it.
fn bases(len: usize, random: &mut Random) -> Vec<usize> {
    let ends = [0, 1, len - 9, len - 8, len - 7, len - 5, len - 4, len - 3, len - 1, len, len + 1];
    let inside: [usize; 8] = std::array::from_fn(|_| random.below(len - 8));
    let near = random.below(16);
    let far = [1 << 31, 1 << 32, 1 << 63, isize::MAX as usize].map(|power: usize| power | inside[0]);
    let last =
        [usize::MAX, usize::MAX - 3, usize::MAX - 7, usize::MAX - near, usize::MAX - len, usize::MAX - len + near];
    [&ends[..], &inside, &far, &last].concat()
}

fn bytes(len: usize, random: &mut Random) -> Vec<u8> {
    (0..len).map(|_| random.byte()).collect()
}

/// One call.
#[derive(Clone)]
struct Case {
    kernel: Kernel,
    seg: Vec<u8>,
    base: usize,
}

#[derive(PartialEq)]
struct Answer {
    refusal: u8,
    /// The adjustment between its neighbours in memory, and whether the test passed likewise.
    adjustment: [i32; 3],
    passed: [u8; 3],
    seg: Vec<u8>,
}

impl Case {
    /// A window that the kernel is chosen for, where it fits.
    fn at(kernel: KernelOf, mut seg: Vec<u8>, base: usize, random: &mut Random) -> Case {
        let taps = window(random);
        let kernel = kernel(&taps, random);
        if kernel.fits(seg.len(), base) {
            seg[base..base + kernel.width()].copy_from_slice(middle(&taps, kernel.width()));
        }
        Case { kernel, seg, base }
    }

    fn fits(&self) -> bool {
        self.kernel.fits(self.seg.len(), self.base)
    }

    fn expected(&self) -> Answer {
        let seg = self.seg.clone();
        let mut answer = Answer { refusal: 0, adjustment: [UNTOUCHED; 3], passed: [NOT_TOLD; 3], seg };
        if self.fits() {
            answer.passed[1] = self.kernel.passed(&self.seg[self.base..self.base + self.kernel.width()]);
            self.kernel.call_rust(&mut answer.seg, self.base, &mut answer.adjustment[1]);
        } else {
            answer.refusal = rules::NO_WINDOW;
        }
        answer
    }

    fn library(&self, memory: &mut Guarded, side: Side) -> Answer {
        let lent = memory.lend(side, &self.seg);
        let (mut adjustment, mut passed) = ([UNTOUCHED; 3], [NOT_TOLD; 3]);
        let what = format_args!("{self}\n  with {side}");
        let (told, test) = (&mut adjustment[1], &mut passed[1]);
        let refusal = guard::calling(&what, || self.kernel.call_library(lent, self.base, told, test));
        Answer { refusal, adjustment, passed, seg: lent.to_vec() }
    }

    fn compare(&self, memory: &mut Guarded, kind: &mut Kind) -> Result<(), String> {
        let (len, width) = (self.seg.len(), self.kernel.width());
        let beyond = self.base > 1 << 30;
        let classes = [
            ("4,096 bytes and more", len >= 4096),
            ("65,536 bytes and more", len >= 65_536),
            ("at the start", self.base == 0),
            ("at the end", self.base == len - width),
            ("refused: one byte short", self.base == len - width + 1),
            ("refused: base near the largest usize", self.base > usize::MAX - LONGEST),
            ("refused: base a power of 2 away", beyond && self.base <= usize::MAX - LONGEST),
        ];
        kind.add_cases(1);
        classes.into_iter().for_each(|(name, occurs)| kind.add_class(name, occurs as u64));
        self.check(memory)
    }

    fn differing(&self, memory: &mut Guarded) -> Option<Side> {
        let expected = self.expected();
        SIDES.into_iter().find(|side| self.library(memory, *side) != expected)
    }

    fn check(&self, memory: &mut Guarded) -> Result<(), String> {
        if self.differing(memory).is_none() {
            return Ok(());
        }
        let case = shrink(self.clone(), Case::simpler, |case| case.differing(memory).is_some());
        let side = case.differing(memory).expect("the case differs");
        let (expected, library) = (case.expected(), case.library(memory, side));
        Err(format!(
            "\n{case}\n  with {side}\n  expected: {}\n  library:  {}",
            case.left(&expected),
            case.left(&library)
        ))
    }

    /// Shorter slices, and bases nearer to 0.
    fn simpler(&self) -> Cases<'_, Case> {
        let len = self.seg.len();
        let lengths = [len / 2, len - len / 8, len.saturating_sub(1)].into_iter().filter(move |shorter| *shorter < len);
        let shorter = lengths.map(|shorter| Case { seg: self.seg[..shorter].to_vec(), ..self.clone() });
        let shorter = shorter.filter(|case| case.fits() == self.fits());
        let bases = [self.base / 2, self.base.saturating_sub(1)].into_iter().filter(|base| *base < self.base);
        let nearer = bases.map(|base| Case { base, ..self.clone() }).filter(|case| case.fits() == self.fits());
        Box::new(shorter.chain(nearer))
    }

    /// What a call leaves, against the slice lent.
    fn left(&self, answer: &Answer) -> String {
        let changed: Vec<(usize, u8)> =
            answer.seg.iter().copied().enumerate().filter(|(i, byte)| self.seg[*i] != *byte).take(16).collect();
        let Answer { refusal, adjustment, passed, .. } = answer;
        format!(
            "answers {refusal}, changes {changed:?} (place, byte), adjustment between its neighbours {adjustment:?}, \
             test between its neighbours {passed:?}"
        )
    }
}

impl fmt::Display for Case {
    fn fmt(&self, f: &mut fmt::Formatter<'_>) -> fmt::Result {
        write!(f, "  {}, base {}, slice of {} bytes", self.kernel, self.base, self.seg.len())?;
        if self.fits() {
            write!(f, ", window {:?}", &self.seg[self.base..self.base + self.kernel.width()])?;
        }
        Ok(())
    }
}
