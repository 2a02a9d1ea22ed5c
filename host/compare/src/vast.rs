//! Slices of more than 2^32 bytes: windows about 2^31 and 2^32, buffers and planes longer than they need be, and lists
//! whose length is right in 32 bits only. Little of such a slice is ever touched, so little of it is memory.

use crate::Plan;
use crate::call::{ByteLists, Call, FLAGS, Filter, Form, PASSES, Pass, Planes, SEGMENTS};
use crate::ffi::{self, Choice, Lists, Sought};
use crate::guard::{self, Guarded};
use crate::kernels::{ENTRIES, Kernel, KernelOf, NOT_TOLD, UNTOUCHED, middle, window};
use crate::passes::{filtering, tight, turned_off};
use crate::pictures::picture;
use crate::search::{Search, against_source};
use crate::smoothed::smoothed;
use crate::stills::Expected;
use crate::table::{TABLE, by_the_rust};
use crate::tally::{Kind, Tally};
use rules::Scored;
use rules::random::Random;

/// Of a slice with windows.
const LEN: usize = (1 << 32) + (1 << 16);
/// Of a plane: too short in 32 bits.
const PLANE: usize = (1 << 32) + 1;

/// How many bytes are compared about a window, after what is lent, and at the end of a slice.
const AROUND: usize = 64;

const KERNELS: [&str; 3] = ["window below 2^32", "window at 2^32 and above", "refused"];
const PLANES: [&str; 3] = ["long y", "long u", "long v"];
/// Of a search.
const LONG: [&str; 3] = ["long plane", "long source plane", "long scratch plane"];
const LIST: &str = "long list";

pub fn compare(plan: &Plan, tally: &mut Tally) {
    let (mut random, mut vast) = (Random::new(plan.seed), Guarded::new(2 * LEN));
    for (name, _, kernel) in ENTRIES {
        tally.run(&format!("{name}, above 2^32 bytes"), &KERNELS, |kind| kernels(kernel, &mut random, &mut vast, kind));
    }
    tally.run("interior_limits, 2^32 bytes and more", &["short in 32 bits"], |kind| table(&mut vast, kind));
    tally.run("coefficients, 2^32 numbers and more", &["one number set"], |kind| coefficients(plan, &mut vast, kind));
    for pass in PASSES {
        let classes = [&PLANES[..], &[LIST]].concat();
        for filter in [pass.into(), Filter::frame_call(pass)] {
            tally.run(&format!("{}, above 2^32 bytes", filter.entry()), &classes, |kind| {
                passes(filter, &mut random, &mut vast, kind)
            });
        }
        let classes = [&LONG[..], &[LIST]].concat();
        let name = format!("{} and {}, above 2^32 bytes", Sought::Params.entry(pass), pass.full_search());
        tally.run(&name, &classes, |kind| searches(pass, &mut random, &mut vast, kind));
    }
}

fn kernels(kernel: KernelOf, random: &mut Random, vast: &mut Guarded, kind: &mut Kind) -> Result<(), String> {
    let about = [1 << 31, 1 << 32].into_iter().flat_map(|power: usize| power - 9..power + 9);
    for base in [0, 1, 1 << 33, usize::MAX - 7].into_iter().chain(about).chain(LEN - 9..LEN + 2) {
        let taps = window(random);
        let kernel = kernel(&taps, random);
        let class = match kernel.fits(LEN, base) {
            true if base < 1 << 32 => "window below 2^32",
            true => "window at 2^32 and above",
            false => "refused",
        };
        kind.add_cases(1);
        kind.add_class(class, 1);
        at(kernel, &taps, base, &mut vast.all()[..LEN])?;
    }
    Ok(())
}

/// Compares one window and what lies about it.
fn at(kernel: Kernel, taps: &[u8; 8], base: usize, slice: &mut [u8]) -> Result<(), String> {
    let about = base.min(LEN).saturating_sub(AROUND)..base.saturating_add(AROUND).min(LEN);
    let (begin, width) = (base - about.start, kernel.width());
    let mut expected = (rules::NO_WINDOW, UNTOUCHED, NOT_TOLD, vec![0; about.len()]);
    if kernel.fits(LEN, base) {
        expected.0 = 0;
        expected.2 = kernel.passed(middle(taps, width));
        expected.3[begin..begin + width].copy_from_slice(middle(taps, width));
        slice[about.clone()].copy_from_slice(&expected.3);
        kernel.call_rust(&mut expected.3, begin, &mut expected.1);
    }
    let what = format!("  {kernel}, base {base}, slice of {LEN} bytes, window {taps:?}");
    let (mut adjustment, mut passed) = (UNTOUCHED, NOT_TOLD);
    let answer = guard::calling(&what, || kernel.call_library(slice, base, &mut adjustment, &mut passed));
    let library = (answer, adjustment, passed, slice[about.clone()].to_vec());
    slice[about].fill(0);
    if library == expected {
        return Ok(());
    }
    Err(format!(
        "\n{what}\n  expected {expected:?}\n  library  {library:?} (answer, adjustment, passed, bytes about the window)"
    ))
}

/// Lengths that are 0, 1, and one less than the table's in 32 bits.
fn table(vast: &mut Guarded, kind: &mut Kind) -> Result<(), String> {
    for len in [0, 1, TABLE - 1].map(|short| (1 << 32) + short) {
        let buffer = &mut vast.all()[..len];
        let what = format_args!("  interior_limits on a buffer of {len} zeros");
        let count = guard::calling(&what, || ffi::interior_limits(buffer));
        let (begin, rest) = buffer.split_at_mut(TABLE);
        let end = rest.len() - AROUND;
        let left = *begin == by_the_rust() && rest[..AROUND].iter().chain(&rest[end..]).all(|byte| *byte == 0);
        begin.fill(0);
        kind.add_cases(1);
        kind.add_class("short in 32 bits", 1);
        if count != TABLE || !left {
            return Err(format!(
                "\n{what}\n  expected count {TABLE}, library {count}; the buffer left as it must be: {left}"
            ));
        }
    }
    Ok(())
}

/// Lengths that are 0 and 1 in 32 bits, and in a long run a place that is.
fn coefficients(plan: &Plan, vast: &mut Guarded, kind: &mut Kind) -> Result<(), String> {
    let quick = [(1 << 32, 0), (1 << 32, 399), ((1 << 32) + 1, 0), ((1 << 32) + 1, 399)];
    let long = [((1 << 32) + 1, 1 << 32), ((1 << 32) + 2, (1 << 32) + 1)];
    for (len, place) in quick.into_iter().chain(long.into_iter().filter(|_| plan.long)) {
        let list: &mut [i16] = vast.all();
        list[place] = -256;
        let what = format_args!("  mb_has_coeffs and first_coeff on {len} numbers of which number {place} is set");
        let lent = &list[..len];
        let answer = guard::calling(&what, || (ffi::mb_has_coeffs(lent), ffi::first_coeff(lent)));
        list[place] = 0;
        kind.add_cases(1);
        kind.add_class("one number set", 1);
        if answer != (true, place) {
            return Err(format!("\n{what}\n  expected (true, {place}), library {answer:?} (the test, the place)"));
        }
    }
    Ok(())
}

/// Calls with slices of which one is vast: it has zeros after its bytes. Answers what the call does, and whether it leaves
/// each slice as it must, and zeros in the vast one.
fn with_long<const N: usize, A>(
    [before, after]: [&[Vec<u8>; N]; 2],
    (long, len): (usize, usize),
    vast: &mut Guarded,
    call: impl FnOnce([&mut [u8]; N]) -> A,
) -> (A, bool) {
    let (mut short, slice) = (before.clone(), &mut vast.all()[..len]);
    slice[..before[long].len()].copy_from_slice(&before[long]);
    let mut lent = short.each_mut().map(Vec::as_mut_slice);
    lent[long] = &mut *slice;
    let answer = call(lent);
    let others = (0..N).filter(|i| *i != long).all(|i| short[i] == after[i]);
    let (begin, rest) = slice.split_at_mut(after[long].len());
    let end = rest.len() - AROUND;
    let zeros = rest[..AROUND].iter().chain(&rest[end..]).all(|byte| *byte == 0);
    let left = others && zeros && begin == after[long];
    begin.fill(0);
    (answer, left)
}

/// Each plane longer than it need be, and each list of a length that is wrong by 2^32.
/// A frame call besides at header level 0.
fn passes(filter: Filter, random: &mut Random, vast: &mut Guarded, kind: &mut Kind) -> Result<(), String> {
    let call = filtering(filter, tight(2, 2), random);
    if filter.form == Form::Frame {
        pass(&turned_off(&call), vast, kind)?;
    }
    pass(&call, vast, kind)
}

fn pass(call: &Call, vast: &mut Guarded, kind: &mut Kind) -> Result<(), String> {
    let Call { form, pass, layout, config, start, allowance, .. } = call;
    for long in 0..3 + call.lists_read().len() {
        let len = if long < 3 { PLANE } else { (1 << 32) + call.macroblocks() };
        let judged = if long < 3 { call.clone() } else { longer_list(call, long - 3) };
        let expected = judged.expected();
        let done = expected.done();
        let told = [done.count, done.next, smoothed(&judged, &expected.planes)?];
        let before = told.map(|number| !number);
        let wanted = (expected.answer, if expected.answer == 0 { told } else { before });
        let what = format!("{call}\n  with slice {long} (planes, lists) of {len} bytes");
        let lent = [&slices(&judged.planes, &judged.lists), &slices(&expected.planes, &judged.lists)];
        let (library, stays) =
            with_long(lent, (long, len), vast, |[y, u, v, modes, segments, flags, references, inter_modes]| {
                let lists = Lists { modes, segments, flags, references, inter_modes };
                let (planes, mut out) = ([y, u, v], before);
                let answer = guard::calling(&what, || {
                    let out = out.each_mut();
                    ffi::filter_as(*form, *pass, planes, layout, &lists, config, *start, *allowance, out)
                });
                (answer, out)
            });
        kind.add_cases(1);
        kind.add_class(PLANES.get(long).unwrap_or(&LIST), 1);
        if library != wanted || !stays {
            return Err(format!(
                "\n{what}\n  expected {wanted:?}, library {library:?} (answer, count, next start, positions smoothed), \
                 slices left as they must be: {stays}"
            ));
        }
    }
    Ok(())
}

/// The same call with one more entry in a list, in which 6 is not judged: its first entry is 255.
fn longer_list(call: &Call, list: usize) -> Call {
    let mut longer = call.clone();
    longer.lists[list][0] = 255;
    longer.lists[list].push(0);
    longer
}

/// The slices of a pass.
fn slices([y, u, v]: &Planes, [modes, segments, flags, references, inter_modes]: &ByteLists) -> [Vec<u8>; 8] {
    [y, u, v, modes, segments, flags, references, inter_modes].map(Vec::clone)
}

/// The same for error sums, searches and full searches, with the planes of the source and the scratch planes. With lists of the right
/// length a level above 0 is chosen. Long lists are those in which 6 judges nothing: the others are read by every
/// candidate, which takes seconds.
fn searches(pass: Pass, random: &mut Random, vast: &mut Guarded, kind: &mut Kind) -> Result<(), String> {
    let search = loop {
        let search = against_source(picture(pass, 2, 1, random), |row, _| row, random);
        if search.by_the_rule().0 > 0 {
            break search;
        }
    };
    for long in (0..9).chain([9 + SEGMENTS, 9 + FLAGS]) {
        let (class, len) =
            if long < 9 { (LONG[long / 3], PLANE) } else { (LIST, (1 << 32) + search.call.macroblocks()) };
        let call = if long < 9 { search.call.clone() } else { longer_list(&search.call, long - 9) };
        let judged = Search { call, ..search.clone() };
        let expected = judged.expected();
        let what = format!("{search}\n  with slice {long} (planes, source, scratch planes, lists) of {len} bytes");
        let lent = [&all_slices(&judged, &search.scratch), &all_slices(&judged, &expected.scratch)];
        let (library, stays) =
            with_long(lent, (long, len), vast, |slices| guard::calling(&what, || sum_and_choices(&search, slices)));
        kind.add_cases(1);
        kind.add_class(class, 1);
        let choice = expected.choice();
        let choices =
            [choice, Choice { sharpness: BEFORE.sharpness, ..choice }].map(|choice| (expected.answer, choice));
        let best = Expected::of(&judged).best().ok_or_else(|| format!("the rule must not refuse\n{what}"))?;
        let wanted = (expected.sum.0, expected.sum.1[1], (expected.answer, best), choices);
        if library != wanted || !stays {
            return Err(format!(
                "\n{what}\n  expected {wanted:?}, library {library:?}, slices left as they must be: {stays}"
            ));
        }
    }
    Ok(())
}

fn all_slices(search: &Search, scratch: &Planes) -> [Vec<u8>; 14] {
    let slices = [&search.call.planes[..], &search.source, scratch, &search.call.lists].concat();
    slices.try_into().expect("fourteen slices")
}

/// What a choice holds before a search.
const BEFORE: Choice = Choice { level: 255, sharpness: 255, count: 255 };

type Answers = (u8, u64, (u8, Scored), [(u8, Choice); 2]);

/// The error sum, the full search, the search for level and sharpness, and after it the search for the level alone.
fn sum_and_choices(search: &Search, slices: [&mut [u8]; 14]) -> Answers {
    let [y, u, v, sy, su, sv, ty, tu, tv, modes, segments, flags, references, inter_modes] = slices;
    let source = search.lent_source([sy, su, sv]);
    let lists = Lists { modes, segments, flags, references, inter_modes };
    let Call { pass, layout, config, .. } = &search.call;
    let planes = [&*y, &*u, &*v];
    let asked = ffi::Search { pass: *pass, planes, layout, source: &source, lists: &lists, config };
    let (mut sum, mut best) = (u64::MAX, Scored { sum: u64::MAX, level: 255, sharpness: 255 });
    let refused = ffi::reconstruction_ssd(planes, layout, &source, &mut sum);
    let Scored { sum: least, level, sharpness } = &mut best;
    let full = ffi::full_search(&asked, [&mut *ty, &mut *tu, &mut *tv], level, sharpness, least);
    let choices = [Sought::Params, Sought::Level].map(|sought| {
        let mut choice = BEFORE;
        (ffi::select(&asked, sought, [&mut *ty, &mut *tu, &mut *tv], &mut choice), choice)
    });
    (refused, sum, (full, best), choices)
}
