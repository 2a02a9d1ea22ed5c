//! Error sums and searches that small pictures do not reach: sums above 32 bits, wide and high grids, and strides of the
//! planes and of the source up to the largest and above it.

use crate::Plan;
use crate::call::{Call, PASSES, Pass, SIDE};
use crate::ffi::{Layout, Sought};
use crate::grids;
use crate::passes::{filtering, tight};
use crate::pictures::on_layout;
use crate::search::{Memory, Search, against_source, draw, rounds};
use crate::soak::Draw;
use crate::tally::{Kind, Tally};
use rules::random::Random;

const SUMS: [&str; 7] = [
    "sum above 2^32",
    "sum above 2^40",
    "y alone above 2^32",
    "u alone above 2^32",
    "v alone above 2^32",
    "1024 columns",
    "1024 rows",
];

const SIZES: [&str; 6] =
    ["21 to 255 columns", "256 to 1024 columns", "21 to 255 rows", "256 to 1024 rows", "level 0", "level above 0"];

pub const STRIDES: [&str; 15] = [
    "luma stride 1,001 to 65,535",
    "chroma stride 1,001 to 65,535",
    "luma stride 65,536",
    "chroma stride 65,536",
    "source luma stride 1,001 to 60,000",
    "source luma stride 60,001 to 65,535",
    "source chroma stride 1,001 to 65,535",
    "source luma stride 65,536",
    "source chroma stride 65,536",
    "refused: source luma stride above 65,536",
    "refused: source chroma stride above 65,536",
    "refused: source stride below the row",
    "refused: source one short",
    "refused: plane one short",
    "refused: scratch plane one short",
];

pub const ABOUT: &str = "the best sum below a multiple of 2^32, that of level 0 above it";

pub fn compare(plan: &Plan, tally: &mut Tally) {
    tally.run("reconstruction_ssd, large sums", &SUMS, |kind| large_sums(plan, kind));
    for pass in PASSES {
        let name = Sought::Params.entry(pass);
        tally.run(&format!("{name}, wide and high grids"), &SIZES, |kind| sizes(plan, pass, kind));
        tally.run(&format!("{name}, any stride"), &STRIDES, |kind| strides(plan, pass, kind));
        tally.run(&format!("{name}, sums about a multiple of 2^32"), &[ABOUT], |kind| {
            rounds(plan, if plan.long { 200 } else { 3 }, kind, |random, memory, kind| {
                let search = about_a_multiple(pass, random);
                kind.add_cases(1);
                kind.add_class(ABOUT, 1);
                search.same(memory).map(|_| ())
            })
        });
    }
}

/// A search on a wide or a high grid, or with any strides of the source.
pub fn drawer(pass: Pass) -> Draw {
    let mut memory = Memory::new();
    Box::new(move |random, calls| {
        let (long, short) = (1 + random.below(100), 1 + random.below(2));
        let search = match random.below(4) {
            0 => against_source(filtering(pass, tight(long, short), random), |row, _| row, random),
            1 => against_source(filtering(pass, tight(short, long), random), |row, _| row, random),
            _ => against_source(filtering(pass, tight(short, 1), random), grids::stride, random),
        };
        draw(&search, &mut memory, calls)
    })
}

/// The whole picture against the source, samples far apart in all planes or in one.
fn large_sums(plan: &Plan, kind: &mut Kind) -> Result<(), String> {
    const FAR: [[bool; 3]; 5] =
        [[true; 3], [true, false, false], [false, true, false], [false, false, true], [true, false, true]];
    let mut grids = vec![(17, 17), (40, 30), (33, 40), (1024, 2), (2, 1024), (1024, 66)];
    if plan.long {
        grids.extend([(66, 1024), (400, 400)]);
    }
    let (mut random, mut memory) = (Random::new(plan.seed), Memory::new());
    for (columns, rows) in grids {
        for far in if columns * rows < 5_000 { &FAR[..] } else { &FAR[..1] } {
            let search = far_apart(tight(columns, rows), *far, &mut random);
            let (answer, sum) = search.same_sum(&mut memory)?;
            if answer != 0 {
                return Err(format!("the rule must not refuse, but answers {answer}\n{search}"));
            }
            let above = sum > 1 << 32;
            let alone = |plane: usize| above && (0..3).all(|other| far[other] == (other == plane));
            let classes = [
                ("sum above 2^32", above),
                ("sum above 2^40", sum > 1 << 40),
                ("y alone above 2^32", alone(0)),
                ("u alone above 2^32", alone(1)),
                ("v alone above 2^32", alone(2)),
                ("1024 columns", columns == 1024),
                ("1024 rows", rows == 1024),
            ];
            kind.add_cases(1);
            classes.into_iter().for_each(|(name, occurs)| kind.add_class(name, occurs as u64));
        }
    }
    Ok(())
}

/// A picture against a source of its size: equal, or with a difference of 240 or more in nearly every sample, in each
/// plane.
fn far_apart(layout: Layout, far: [bool; 3], random: &mut Random) -> Search {
    let call = on_layout(Pass::Key, layout, random);
    let ends = |random: &mut Random| if random.yes() { random.below(8) as u8 } else { 255 - random.below(8) as u8 };
    let planes = call.planes.each_ref().map(|plane| plane.iter().map(|_| ends(random)).collect::<Vec<u8>>());
    let source = std::array::from_fn(|plane| {
        let opposite = |sample: &u8| if far[plane] { 255 - sample } else { *sample };
        planes[plane].iter().map(opposite).collect()
    });
    let (width, height) = (16 * layout.columns, 16 * layout.rows);
    let strides = [layout.y_stride, layout.uv_stride, layout.uv_stride];
    let scratch = Default::default();
    Search { call: Call { planes, ..call }, source, width, height, strides, scratch }
}

/// Searches on the shapes that passes are compared on, and on the largest.
fn sizes(plan: &Plan, pass: Pass, kind: &mut Kind) -> Result<(), String> {
    let largest = [(1024, 1), (1, 1024)];
    rounds(plan, if plan.long { 200 } else { 3 }, kind, |random, memory, kind| {
        let small = (1..=32).flat_map(|long| [(long, 1), (1, long)]);
        for (columns, rows) in grids::shapes(random).into_iter().chain(largest).chain(small) {
            let rows = rows.min(1500 / columns);
            let call = filtering(pass, tight(columns, rows), random);
            let search = against_source(call, |row, random| row + random.below(3), random);
            let level = search.same(memory)?.choice().level;
            let classes = [
                ("21 to 255 columns", (21..256).contains(&columns)),
                ("256 to 1024 columns", columns >= 256),
                ("21 to 255 rows", (21..256).contains(&rows)),
                ("256 to 1024 rows", rows >= 256),
                ("level 0", level == 0),
                ("level above 0", level > 0),
            ];
            kind.add_cases(1);
            classes.into_iter().for_each(|(name, occurs)| kind.add_class(name, occurs as u64));
        }
        Ok(())
    })
}

fn strides(plan: &Plan, pass: Pass, kind: &mut Kind) -> Result<(), String> {
    rounds(plan, if plan.long { 2_000 } else { 120 }, kind, |random, memory, kind| {
        let search = of_any_stride(pass, random);
        search.same(memory)?;
        count_strides(&search, kind);
        refused_strides(&search, random).into_iter().chain(one_short(&search)).try_for_each(|refused| {
            let answer = refused.search.same(memory)?.answer;
            refused.count(answer, kind)
        })
    })
}

/// A search that is not refused, on a few macroblocks, with strides up to the largest.
pub fn of_any_stride(pass: Pass, random: &mut Random) -> Search {
    let (columns, rows) = random.one_of(&[(1, 1), (2, 1), (3, 1)]);
    // Strides of the planes are copied for every candidate, and seldom large.
    let mut stride = |row: usize| if random.below(4) == 0 { grids::stride(row, random) } else { row };
    let layout = Layout { columns, rows, y_stride: stride(16 * columns), uv_stride: stride(8 * columns) };
    loop {
        let search = against_source(on_layout(pass, layout, random), grids::stride, random);
        if search.width > 0 && search.height > 0 {
            return search;
        }
    }
}

pub fn count_strides(search: &Search, kind: &mut Kind) {
    let [luma, chroma, _] = search.strides;
    let Layout { y_stride, uv_stride, .. } = search.call.layout;
    let classes = [
        ("luma stride 1,001 to 65,535", (1_001..65_536).contains(&y_stride)),
        ("chroma stride 1,001 to 65,535", (1_001..65_536).contains(&uv_stride)),
        ("luma stride 65,536", y_stride == 65_536),
        ("chroma stride 65,536", uv_stride == 65_536),
        ("source luma stride 1,001 to 60,000", (1_001..60_001).contains(&luma)),
        ("source luma stride 60,001 to 65,535", (60_001..65_536).contains(&luma)),
        ("source chroma stride 1,001 to 65,535", (1_001..65_536).contains(&chroma)),
        ("source luma stride 65,536", luma == 65_536),
        ("source chroma stride 65,536", chroma == 65_536),
    ];
    kind.add_cases(1);
    classes.into_iter().for_each(|(name, occurs)| kind.add_class(name, occurs as u64));
}

/// A search that must be refused by a number, and its class.
pub struct Refused {
    pub search: Search,
    number: u8,
    class: &'static str,
}

impl Refused {
    /// Counts what is expected of it, which must be its number.
    pub fn count(&self, answer: u8, kind: &mut Kind) -> Result<(), String> {
        let Refused { search, number, class } = self;
        if answer != *number {
            return Err(format!("the rule must answer {number}, but answers {answer}\n{search}"));
        }
        kind.add_cases(1);
        kind.add_class(class, 1);
        Ok(())
    }
}

/// Strides of the source that 9 refuses.
pub fn refused_strides(search: &Search, random: &mut Random) -> Vec<Refused> {
    let wide = [0, 1].map(|plane| search.source().visible(plane).0);
    let [luma, chroma, _] = search.strides;
    let above = random.one_of(&[65_537, 65_538, 1 << 17, 1 << 32, 1 << 32 | luma, usize::MAX]);
    let changes = [
        ([above, chroma], "refused: source luma stride above 65,536"),
        ([luma, above], "refused: source chroma stride above 65,536"),
        ([wide[0] - 1, chroma], "refused: source stride below the row"),
        ([luma, wide[1] - 1], "refused: source stride below the row"),
    ];
    let refused = changes.map(|([luma, chroma], class)| {
        let search = Search { strides: [luma, chroma, chroma], ..search.clone() };
        Refused { search, number: rules::BAD_SOURCE, class }
    });
    refused.into()
}

/// Each plane, scratch plane and source plane one byte shorter than 3 and 9 allow.
pub fn one_short(search: &Search) -> Vec<Refused> {
    type Shorten = fn(&mut Search, usize);
    let shortened: [(Shorten, u8, &str); 3] = [
        (|search, plane| _ = search.source[plane].pop(), rules::BAD_SOURCE, "refused: source one short"),
        (
            |search, plane| search.scratch[plane].truncate(search.call.layout.least_length(plane) - 1),
            rules::SHORT_PLANE,
            "refused: scratch plane one short",
        ),
        (
            |search, plane| search.call.planes[plane].truncate(search.call.layout.least_length(plane) - 1),
            rules::SHORT_PLANE,
            "refused: plane one short",
        ),
    ];
    let all = (0..3).flat_map(|plane| shortened.map(|shortened| (plane, shortened)));
    let refused = all.map(|(plane, (shorten, number, class))| {
        let mut search = search.clone();
        shorten(&mut search, plane);
        Refused { search, number, class }
    });
    refused.collect()
}

/// Columns of macroblocks with edges to smooth; the others are flat.
const TEXTURED: usize = 8;

/// A search whose unfiltered sum lies above 2^32 and whose best sum lies below it. The flat part of the picture, which no
/// pass changes, makes up what is missing: the source differs there by as much.
pub fn about_a_multiple(pass: Pass, random: &mut Random) -> Search {
    let layout = tight(40, 10);
    loop {
        let mut call = filtering(pass, layout, random);
        (0..3).for_each(|plane| flatten(&mut call, plane));
        let (width, height) = (16 * layout.columns, 16 * layout.rows);
        let strides = [layout.y_stride, layout.uv_stride, layout.uv_stride];
        let scratch = call.planes.clone();
        let mut search = Search { source: Default::default(), call, width, height, strides, scratch };
        let like = search.candidate(20 + random.below(40) as u8, random.below(8) as u8);
        search.source = [like.y, like.u, like.v];
        let (level, sharpness, _) = search.by_the_rule();
        let [unfiltered, best] = [0, level].map(|level| search.sum(&search.candidate(level, sharpness)));
        if unfiltered > best + 1 && unfiltered < 1 << 32 {
            differ_by((1 << 32) - (unfiltered + best) / 2, &mut search);
            return search;
        }
    }
}

/// Lifts all sums of such a search above 2^32. The lowest rows of the flat part are as yet equal in the source, and their
/// samples add more than any pass takes away.
pub fn raise_above_it(search: &mut Search) {
    let (stride, from) = (search.strides[0], SIDE[0] * (TEXTURED + 1));
    search.source[0].chunks_exact_mut(stride).rev().take(20).for_each(|row| row[from..].fill(255));
}

/// Makes the picture 0 right of its first columns.
fn flatten(call: &mut Call, plane: usize) {
    let (stride, from) = (call.stride(plane), SIDE[plane] * TEXTURED);
    call.planes[plane].chunks_exact_mut(stride).for_each(|row| row[from..].fill(0));
}

/// Changes luma samples of the source, which are 0 inside the flat part, until they add `rest` to every sum.
fn differ_by(mut rest: u64, search: &mut Search) {
    let (stride, from) = (search.strides[0], SIDE[0] * (TEXTURED + 1));
    let flat = search.source[0].chunks_exact_mut(stride).take(search.height).flat_map(|row| &mut row[from..]);
    for sample in flat {
        *sample = rest.isqrt().min(255) as u8;
        rest -= (*sample as u64).pow(2);
    }
    assert!(rest == 0, "{rest} of the difference does not fit into the flat part");
}
