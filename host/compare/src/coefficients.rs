//! `mb_has_coeffs` and `first_coeff` on the same lists: of 0 to 800 numbers with one number set at each place, with
//! several set, long ones, with every number set, and on the Rust's `MbCoeffs`, flattened in the order y2, y, u, v. No list
//! changes. The Rust has no `first_coeff`: of a list of 400 its own test says where the first number that is not 0 stands.

use crate::guard::{self, Guarded, SIDES, Side};
use crate::soak::Draw;
use crate::tally::{Kind, Tally};
use crate::{Plan, ffi};
use oracle::MbCoeffs;
use rules::random::Random;
use vp8_loop_filter_sys::{vp8lf_first_coeff, vp8lf_mb_has_coeffs};

const LONGEST: usize = 800;
/// Lengths of long lists.
const LONG: [usize; 8] = [1024, 4096, 4097, 32_768, 65_535, 65_536, 65_537, 1 << 20];
/// Numbers that are not 0; those with a low or a high byte of 0 among them.
const SET: [i16; 8] = [1, -1, 2, i16::MAX, i16::MIN, 256, -256, 255];

pub fn compare(plan: &Plan, tally: &mut Tally) {
    tally.run("coefficients, lists of 0 to 800", &["no number set", "one number set", "several set"], |kind| {
        let mut memory = Guarded::new((LONGEST + 2) * size_of::<i16>());
        let mut random = Random::new(plan.seed);
        (0..=LONGEST).try_for_each(|len| lists(len, &mut random, &mut memory, kind))
    });
    tally.run("coefficients, every number", &["one number set"], |kind| {
        let (mut random, mut memory) = (Random::new(plan.seed), Guarded::new(400 * size_of::<i16>()));
        (i16::MIN..=i16::MAX).filter(|number| *number != 0).try_for_each(|number| {
            let mut list = vec![0; random.one_of(&[1, 25, 400])];
            let place = random.below(list.len());
            list[place] = number;
            same(kind, "one number set", memory.lend(random.one_of(&SIDES), &list), place)
        })
    });
    tally.run("coefficients, long lists", &["no number set", "one number set"], |kind| {
        let (mut random, mut memory) = (Random::new(plan.seed), Guarded::new(2 << 20));
        LONG.into_iter().try_for_each(|len| long_lists(len, &mut random, &mut memory, kind))
    });
    tally.run(
        "coefficients, flattened MbCoeffs",
        &["no number set", "in y2", "in y", "in u", "in v", "in y2 and v"],
        |kind| {
            let mut memory = Guarded::new(400 * size_of::<i16>());
            let mut random = Random::new(plan.seed);
            let rounds = if plan.long { 1_000 } else { 20 };
            (0..rounds).try_for_each(|_| records(&mut random, &mut memory, kind))
        },
    );
    tally.run("coefficients, nothing to read after the first", &["one number set"], |kind| {
        let (mut random, mut memory) = (Random::new(plan.seed), Guarded::new((LONGEST + 1) * size_of::<i16>()));
        (0..=LONGEST).try_for_each(|place| unreadable_after(place, &mut random, &mut memory, kind))
    });
}

/// All 0, then one set at each place, then several; and all 0 with other numbers right before and after the list.
fn lists(len: usize, random: &mut Random, memory: &mut Guarded, kind: &mut Kind) -> Result<(), String> {
    for side in SIDES {
        let beside = memory.lend(side, &[vec![1], vec![0; len], vec![1]].concat());
        same(kind, "no number set", &beside[1..=len], len)?;
        let list = memory.lend(side, &vec![0; len]);
        same(kind, "no number set", list, len)?;
        for place in 0..len {
            list[place] = random.one_of(&SET);
            same(kind, "one number set", list, place)?;
            list[place] = 0;
        }
        for _ in 0..if len > 1 { 4 } else { 0 } {
            let first = random.below(len - 1);
            list[first] = random.one_of(&SET);
            list[first + 1 + random.below(len - 1 - first)] = random.one_of(&SET);
            same(kind, "several set", list, first)?;
            list.fill(0);
        }
    }
    Ok(())
}

/// All 0, then one set at the first place, at the last, and at some between.
fn long_lists(len: usize, random: &mut Random, memory: &mut Guarded, kind: &mut Kind) -> Result<(), String> {
    let list = memory.lend(random.one_of(&SIDES), &vec![0; len]);
    same(kind, "no number set", list, len)?;
    let some: [usize; 8] = std::array::from_fn(|_| random.below(len));
    for place in [0, len / 2, len - 1].into_iter().chain(some) {
        list[place] = random.one_of(&SET);
        same(kind, "one number set", list, place)?;
        list[place] = 0;
    }
    Ok(())
}

/// The Rust's record with nothing set, with one number set at each place, and with two set.
fn records(random: &mut Random, memory: &mut Guarded, kind: &mut Kind) -> Result<(), String> {
    let mut compare = |class: &str, coeffs: &MbCoeffs| {
        let flat = flatten(coeffs);
        let place = by_the_rust(&flat);
        SIDES.into_iter().try_for_each(|side| same(kind, class, memory.lend(side, &flat), place))
    };
    compare("no number set", &MbCoeffs::default())?;
    for index in 0..400 {
        let mut one = MbCoeffs::default();
        let (class, place) = match index {
            0..16 => ("in y2", &mut one.y2[index]),
            16..272 => ("in y", &mut one.y[(index - 16) / 16][index % 16]),
            272..336 => ("in u", &mut one.u[(index - 272) / 16][index % 16]),
            _ => ("in v", &mut one.v[(index - 336) / 16][index % 16]),
        };
        *place = random.one_of(&SET);
        if flatten(&one)[index] == 0 {
            return Err(format!("number {index} of the record must be number {index} of the list"));
        }
        compare(class, &one)?;
    }
    let mut two = MbCoeffs::default();
    two.y2[random.below(16)] = random.one_of(&SET);
    two.v[random.below(4)][random.below(16)] = random.one_of(&SET);
    compare("in y2 and v", &two)
}

/// Lists that go on in an unreadable page right after the first number that is not 0: whoever looks further ends the run.
fn unreadable_after(place: usize, random: &mut Random, memory: &mut Guarded, kind: &mut Kind) -> Result<(), String> {
    let mut list = vec![0; place + 1];
    list[place] = random.one_of(&SET);
    let list = memory.lend(Side::End, &list).as_ptr();
    for len in [place + 2, 2 * place + 2, place + 400, 1 << 20, isize::MAX as usize / 2] {
        let what =
            format_args!("  a list of {len} numbers, of which {} are memory: {place} of 0, and one set", place + 1);
        // SAFETY: less may be read than the functions are told. They read what may be read, or a fault ends the run.
        let answer =
            guard::calling(&what, || unsafe { (vp8lf_mb_has_coeffs(list, len), vp8lf_first_coeff(list, len)) });
        kind.add_cases(1);
        kind.add_class("one number set", 1);
        if answer != (true, place) {
            return Err(format!("\n{what}\n  expected (true, {place}), library {answer:?} (the test, the place)"));
        }
    }
    Ok(())
}

/// A call of each function on a list of any length with some numbers set. The Rust answers for one of 400, the number of
/// a record.
pub fn drawer() -> Draw {
    let mut memory = Guarded::new(LONGEST * size_of::<i16>());
    Box::new(move |random, calls| {
        let any = random.below(LONGEST + 1);
        let len = random.one_of(&[0, 1, 400, 400, any, any]);
        let mut list = vec![0; len];
        for _ in 0..if len > 0 { random.one_of(&[0, 0, 1, 1, 2, 400]) } else { 0 } {
            list[random.below(len)] = random.one_of(&SET);
        }
        let place = match len {
            400 => by_the_rust(&list),
            _ => list.iter().position(|number| *number != 0).unwrap_or(len),
        };
        calls.add("mb_has_coeffs", 0);
        calls.add("first_coeff", 0);
        check(memory.lend(random.one_of(&SIDES), &list), place)
    })
}

/// How many of 400 numbers stand before the first that is not 0: the Rust's test finds none in these alone, and one in
/// these with the next.
fn by_the_rust(list: &[i16]) -> usize {
    let counts: [usize; 400] = std::array::from_fn(|before| before + 1);
    counts.partition_point(|count| !oracle::mb_has_coeffs(&record(&list[..*count])))
}

/// The record whose first numbers are these, and whose others are 0.
fn record(list: &[i16]) -> MbCoeffs {
    let mut record = MbCoeffs::default();
    let MbCoeffs { y2, y, u, v, .. } = &mut record;
    let parts = [&mut y2[..], y.as_flattened_mut(), u.as_flattened_mut(), v.as_flattened_mut()];
    parts.into_iter().flatten().zip(list).for_each(|(place, number)| *place = *number);
    record
}

fn flatten(coeffs: &MbCoeffs) -> Vec<i16> {
    [&coeffs.y2[..], coeffs.y.as_flattened(), coeffs.u.as_flattened(), coeffs.v.as_flattened()].concat()
}

fn same(kind: &mut Kind, class: &str, list: &[i16], place: usize) -> Result<(), String> {
    kind.add_cases(1);
    kind.add_class(class, 1);
    check(list, place)
}

/// Calls both functions on a list whose first number that is not 0 stands at this place.
fn check(list: &[i16], place: usize) -> Result<(), String> {
    let what = format_args!("  mb_has_coeffs and first_coeff on a list of {} numbers", list.len());
    let before = list.to_vec();
    let answer = guard::calling(&what, || (ffi::mb_has_coeffs(list), ffi::first_coeff(list)));
    let expected = (place < list.len(), place);
    if answer == expected && list == before {
        return Ok(());
    }
    let left = if list == before { String::new() } else { format!(", which are left all 0 but {:?}", set(list)) };
    Err(format!(
        "\n{what}, all 0 but {:?} (place, number){left}\n  expected {expected:?}, library {answer:?} (the test, the place)",
        set(&before)
    ))
}

/// The numbers of a list that are not 0, with their places.
fn set(list: &[i16]) -> Vec<(usize, i16)> {
    list.iter().copied().enumerate().filter(|(_, number)| *number != 0).collect()
}
