//! `final_rows` against document 01's reach.

use crate::ffi::{self, Layout};
use crate::passes::rounds;
use crate::reach::reached;
use crate::soak::Calls;
use crate::tally::{Kind, Tally};
use crate::{Plan, guard};
use rules::random::Random;

/// What the out-parameters and the numbers beside them hold before a call.
const UNTOUCHED: usize = 0x5A5A_5A5A_5A5A_5A5A;

const CLASSES: [&str; 7] =
    ["no row final", "some rows final", "all rows final", "within a row", "refused: 1", "refused: 7", "zero grid"];

pub fn compare(plan: &Plan, tally: &mut Tally) {
    tally.run("final_rows, every start of small grids", &CLASSES[..4], |kind| {
        let mut random = Random::new(plan.seed);
        for (columns, rows) in (1..=7).flat_map(|columns| (1..=7).map(move |rows| (columns, rows))) {
            for start in 0..=columns * rows {
                let layout = any_strides(columns, rows, &mut random);
                same(&layout, start, Ok(leading_rows(columns, rows, start)), kind)?;
            }
        }
        Ok(())
    });
    let times = if plan.long { 500_000 } else { 10_000 };
    tally.run("final_rows, any arguments", &CLASSES, |kind| {
        rounds(plan, times, kind, |random, _, kind| {
            let (layout, start) = any_arguments(random);
            same(&layout, start, rules::final_rows(&layout, start), kind)
        })
    });
}

/// A call with any arguments.
pub fn draw(random: &mut Random, calls: &mut Calls) -> Result<(), String> {
    let (layout, start) = any_arguments(random);
    let expected = rules::final_rows(&layout, start);
    calls.add("final_rows", expected.err().unwrap_or(0));
    check(&layout, start, expected)
}

fn any_arguments(random: &mut Random) -> (Layout, usize) {
    const SIZES: [usize; 12] = [0, 1, 2, 3, 80, 1023, 1024, 1025, 65_536, 1 << 32, 1 << 63, usize::MAX];
    let mut size = || if random.below(4) == 0 { 1 + random.below(1024) } else { random.one_of(&SIZES) };
    let (columns, rows) = (size(), size());
    let layout = any_strides(columns, rows, random);
    let n = columns.saturating_mul(rows);
    let any = random.below(n.saturating_add(2).min(1 << 21));
    let row = random.below(rows.min(1024) + 1).saturating_mul(columns);
    let boundaries = [row.saturating_sub(1), row, row.saturating_add(1), n, n.saturating_add(1)];
    (layout, random.one_of(&[&boundaries[..], &[0, any, 1 << 32, usize::MAX]].concat()))
}

/// The rows at the top of luma and of both chroma planes in which no sample can be reached.
fn leading_rows(columns: usize, rows: usize, start: usize) -> [usize; 2] {
    let layout = Layout { columns, rows, y_stride: 16 * columns, uv_stride: 8 * columns };
    let [y, u, v] = reached(&layout, start..columns * rows);
    let leading = |plane: &[bool], width: usize| plane.chunks(width).take_while(|row| !row.contains(&true)).count();
    let chroma = leading(&u, 8 * columns).min(leading(&v, 8 * columns));
    [leading(&y, 16 * columns), chroma]
}

fn any_strides(columns: usize, rows: usize, random: &mut Random) -> Layout {
    let mut stride = || random.one_of(&[0, 1, 16, 65_536, 65_537, usize::MAX]);
    Layout { columns, rows, y_stride: stride(), uv_stride: stride() }
}

fn same(layout: &Layout, start: usize, expected: Result<[usize; 2], u8>, kind: &mut Kind) -> Result<(), String> {
    kind.add_cases(1);
    let class = match expected {
        Ok(_) if layout.columns == 0 || layout.rows == 0 => "zero grid",
        Ok([0, _]) => "no row final",
        Ok([luma, _]) if luma == 16 * layout.rows => "all rows final",
        Ok(_) => "some rows final",
        Err(rules::GRID_TOO_LARGE) => "refused: 1",
        Err(_) => "refused: 7",
    };
    kind.add_class(class, 1);
    let inside = layout.columns > 0 && layout.columns <= 1024 && !start.is_multiple_of(layout.columns);
    kind.add_class("within a row", (inside && expected.is_ok()) as u64);
    check(layout, start, expected)
}

fn check(layout: &Layout, start: usize, expected: Result<[usize; 2], u8>) -> Result<(), String> {
    let mut out = [UNTOUCHED; 5];
    let [_, luma, _, chroma, _] = &mut out;
    let what = format_args!("  final_rows, {layout:?}, start {start}");
    let answer = guard::calling(&what, || ffi::final_rows(layout, start, luma, chroma));
    let mut left = [UNTOUCHED; 5];
    if let Ok([luma, chroma]) = expected {
        (left[1], left[3]) = (luma, chroma);
    }
    if (answer, out) == (expected.err().unwrap_or(0), left) {
        return Ok(());
    }
    Err(format!(
        "\n{what}\n  expected: {expected:?} (luma and chroma rows, or the refusal)\n  library:  answers {answer} and leaves {out:?} (luma and chroma rows among their neighbours)"
    ))
}

#[cfg(test)]
mod tests {
    use super::*;

    /// Rows end 3 above the row of macroblocks to go on in, also within that row.
    #[test]
    fn rows_end_three_above() {
        for (start, expected) in [(0, [0, 0]), (2, [0, 0]), (3, [13, 5]), (5, [13, 5]), (6, [29, 13]), (9, [48, 24])] {
            assert_eq!(leading_rows(3, 3, start), expected);
            let layout = Layout { columns: 3, rows: 3, y_stride: 0, uv_stride: 0 };
            assert_eq!(rules::final_rows(&layout, start), Ok(expected));
        }
    }
}
