//! Which samples macroblocks can reach (document 01, Halting).

use crate::call::SIDE;
use entries::Layout;
use std::ops::Range;

/// For each plane, by index, whether some macroblock of `later` can reach a sample: its own square, 3 columns left of
/// it along its rows, and 3 rows above it along its columns, inside the grid.
pub fn reached(layout: &Layout, later: Range<usize>) -> [Vec<bool>; 3] {
    std::array::from_fn(|plane| {
        let (side, stride) = (SIDE[plane], layout.stride(plane));
        let mut reached = vec![false; side * layout.rows * stride];
        for m in later.clone() {
            let (top, left) = (m / layout.columns * side, m % layout.columns * side);
            let rows_of_its_own = (top..top + side, left.saturating_sub(3)..left + side);
            let rows_above = (top.saturating_sub(3)..top, left..left + side);
            for (rows, columns) in [rows_of_its_own, rows_above] {
                rows.for_each(|row| reached[row * stride..][columns.clone()].fill(true));
            }
        }
        reached
    })
}

#[cfg(test)]
mod tests {
    use super::*;

    /// Document 01, figure N: 2 columns, 1 row, halted after 1.
    #[test]
    fn figure_n() {
        let layout = Layout { columns: 2, rows: 1, y_stride: 40, uv_stride: 20 };
        let [y, u, v] = reached(&layout, 1..2);
        for row in 0..16 {
            assert!((0..40).all(|column| y[40 * row + column] == (13..32).contains(&column)));
        }
        for row in 0..8 {
            assert!((0..20).all(|column| u[20 * row + column] == (5..16).contains(&column)));
        }
        assert_eq!(u, v);
    }
}
