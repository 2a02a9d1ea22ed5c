//! Both passes on wide, high and large grids, and on small grids with any stride up to the largest and above it.

use crate::Plan;
use crate::call::{Call, Memory, PASSES, Pass};
use crate::passes::{filtering, halted_and_whole, rounds, same, tight};
use crate::tally::{Kind, Tally};
use entries::Layout;
use rules::random::Random;

const SIZES: [&str; 8] = [
    "21 to 255 columns",
    "256 to 1023 columns",
    "21 to 255 rows",
    "256 to 1023 rows",
    "above 65,536 macroblocks",
    "halted",
    "halted above macroblock 65,536",
    "filtered",
];

const STRIDES: [&str; 12] = [
    "luma stride 1,001 to 65,535",
    "chroma stride 1,001 to 65,535",
    "luma stride 65,536",
    "chroma stride 65,536",
    "filtered",
    "refused: luma stride above 65,536",
    "refused: chroma stride above 65,536",
    "refused: luma stride below the row",
    "refused: chroma stride below the row",
    "refused: y one short",
    "refused: u one short",
    "refused: v one short",
];

pub fn compare(plan: &Plan, tally: &mut Tally) {
    for pass in PASSES {
        tally.run(&format!("{}, wide and high grids", pass.entry()), &SIZES, |kind| sizes(plan, pass, kind));
        tally.run(&format!("{}, any stride", pass.entry()), &STRIDES, |kind| strides(plan, pass, kind));
    }
}

fn sizes(plan: &Plan, pass: Pass, kind: &mut Kind) -> Result<(), String> {
    rounds(plan, if plan.long { 2_000 } else { 12 }, kind, |random, memory, kind| {
        shapes(random).into_iter().try_for_each(|shape| of_shape(pass, shape, random, memory, kind))
    })?;
    let (mut random, mut memory) = (Random::new(plan.seed), Memory::new());
    let every = (1..=128).flat_map(|long| [(long, 1), (1, long)]);
    every.into_iter().try_for_each(|shape| of_shape(pass, shape, &mut random, &mut memory, kind))?;
    // Starts and counts above 16 bits.
    let whole = filtering(pass, tight(260, 256), &mut random);
    size(&whole, 65_537 + random.below(1000), &mut memory, kind)
}

/// A picture of a shape, halted anywhere.
fn of_shape(
    pass: Pass,
    (columns, rows): (usize, usize),
    random: &mut Random,
    memory: &mut Memory,
    kind: &mut Kind,
) -> Result<(), String> {
    let whole = filtering(pass, tight(columns, rows), random);
    size(&whole, random.below(whole.macroblocks()), memory, kind)
}

/// Columns and rows: wide, high, and neither.
pub fn shapes(random: &mut Random) -> [(usize, usize); 4] {
    let wide = 256 + random.below(768);
    [
        (wide, 1 + random.below(2)),
        (1 + random.below(2), 1279 - wide),
        (21 + random.below(235), 1 + random.below(3)),
        (1 + random.below(30), 21 + random.below(235)),
    ]
}

fn size(whole: &Call, halt: usize, memory: &mut Memory, kind: &mut Kind) -> Result<(), String> {
    let filtered = halted_and_whole(whole, halt, memory)?;
    let (Layout { columns, rows, .. }, n) = (whole.layout, whole.macroblocks());
    let classes = [
        ("21 to 255 columns", (21..256).contains(&columns)),
        ("256 to 1023 columns", (256..1024).contains(&columns)),
        ("21 to 255 rows", (21..256).contains(&rows)),
        ("256 to 1023 rows", (256..1024).contains(&rows)),
        ("above 65,536 macroblocks", n > 65_536),
        ("halted", halt < n),
        ("halted above macroblock 65,536", (65_537..n).contains(&halt)),
        ("filtered", filtered),
    ];
    kind.add_cases(3);
    classes.into_iter().for_each(|(name, occurs)| kind.add_class(name, occurs as u64));
    Ok(())
}

/// A stride that 2 does not refuse: none to spare, any, a power of 2, or the largest.
pub fn stride(row: usize, random: &mut Random) -> usize {
    let (any, power) = (row + random.below(65_537 - row), 1 << random.below(17));
    random.one_of(&[row, any, any, any, any, row.max(power), 65_536])
}

fn strides(plan: &Plan, pass: Pass, kind: &mut Kind) -> Result<(), String> {
    rounds(plan, if plan.long { 2_000 } else { 100 }, kind, |random, memory, kind| {
        let (columns, rows) = random.one_of(&[(1, 1), (2, 1), (1, 2), (3, 1), (40, 1)]);
        let (y_stride, uv_stride) = (stride(16 * columns, random), stride(8 * columns, random));
        let call = filtering(pass, Layout { columns, rows, y_stride, uv_stride }, random);
        let expected = call.expected();
        let filtered = expected.planes != call.planes;
        same(&call, expected, memory)?;
        let classes = [
            ("luma stride 1,001 to 65,535", (1_001..65_536).contains(&y_stride)),
            ("chroma stride 1,001 to 65,535", (1_001..65_536).contains(&uv_stride)),
            ("luma stride 65,536", y_stride == 65_536),
            ("chroma stride 65,536", uv_stride == 65_536),
            ("filtered", filtered),
        ];
        kind.add_cases(1);
        classes.into_iter().for_each(|(name, occurs)| kind.add_class(name, occurs as u64));
        refused_strides(&call, random, memory, kind)?;
        one_short(call, memory, kind)
    })
}

/// Strides that 2 refuses, in planes that would be long enough for them.
fn refused_strides(call: &Call, random: &mut Random, memory: &mut Memory, kind: &mut Kind) -> Result<(), String> {
    let Layout { columns, y_stride, uv_stride, .. } = call.layout;
    let above = [65_537, 65_537 + random.below(1 << 20), 1 << 32 | 65_536];
    let above = above.map(|stride| (stride, stride)).into_iter().chain([(1 << 32 | y_stride, 1 << 32 | uv_stride)]);
    let classes = ["refused: luma stride above 65,536", "refused: chroma stride above 65,536"];
    let above = above.map(|strides| (strides, classes));
    let classes = ["refused: luma stride below the row", "refused: chroma stride below the row"];
    for ((luma, chroma), classes) in above.chain([((16 * columns - 1, 8 * columns - 1), classes)]) {
        let luma = Call { layout: Layout { y_stride: luma, ..call.layout }, ..call.clone() };
        let chroma = Call { layout: Layout { uv_stride: chroma, ..call.layout }, ..call.clone() };
        for (call, class) in [luma, chroma].iter().zip(classes) {
            refused(call, rules::BAD_STRIDE, class, memory, kind)?;
        }
    }
    Ok(())
}

/// Each plane one byte shorter than 3 allows.
fn one_short(mut call: Call, memory: &mut Memory, kind: &mut Kind) -> Result<(), String> {
    for (plane, class) in ["refused: y one short", "refused: u one short", "refused: v one short"].iter().enumerate() {
        let whole = call.planes[plane].clone();
        call.planes[plane].truncate(call.layout.least_length(plane) - 1);
        refused(&call, rules::SHORT_PLANE, class, memory, kind)?;
        call.planes[plane] = whole;
    }
    Ok(())
}

fn refused(call: &Call, number: u8, class: &str, memory: &mut Memory, kind: &mut Kind) -> Result<(), String> {
    let expected = call.expected();
    if expected.answer != number {
        return Err(format!("the rule must answer {number}, but answers {}\n{call}", expected.answer));
    }
    kind.add_cases(1);
    kind.add_class(class, 1);
    same(call, expected, memory).map(|_| ())
}
