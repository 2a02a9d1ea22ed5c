//! Which positions a pass smooths (change request 5), which the Rust does not tell. A macroblock is walked position by
//! position in the order of document 01's "Passes", with the Rust's own limits, and the Rust's own kernel at each position.
//! Whether a position's test passes is judged here from the text of "Kernels".

use crate::frame::KeyframePlanes;
use crate::loop_filter::{self, FrameFilterConfig, LoopFilterParams};
use std::ops::AddAssign;

/// How many positions were met, and what became of them.
#[derive(Clone, Copy, Debug, Default, PartialEq, Eq)]
pub struct Positions {
    /// Those of the edges that are filtered.
    pub met: usize,
    /// Those whose test passed when they were met.
    pub smoothed: usize,
    /// Those of the smoothed whose samples came out as they were.
    pub unchanged: usize,
    /// Those whose test would have come out otherwise on the planes first lent.
    pub turned: usize,
}

impl AddAssign for Positions {
    fn add_assign(&mut self, more: Positions) {
        self.met += more.met;
        self.smoothed += more.smoothed;
        self.unchanged += more.unchanged;
        self.turned += more.turned;
    }
}

/// The simple test on p1 p0 q0 q1, or the normal test on p3 to q3. The simple test has no interior limit.
pub fn passes(taps: &[u8], edge_limit: u8, interior_limit: u8) -> bool {
    let difference = |a: usize, b: usize| taps[a].abs_diff(taps[b]) as u32;
    let q0 = taps.len() / 2;
    let edge = 2 * difference(q0 - 1, q0) + difference(q0 - 2, q0 + 1) / 2 <= edge_limit as u32;
    let near = |a: usize| difference(a, a + 1) <= interior_limit as u32;
    edge && (taps.len() == 4 || (0..3).chain(4..7).all(near))
}

/// A pass that is walked one macroblock at a time.
pub struct Walk {
    lent: KeyframePlanes,
    pub planes: KeyframePlanes,
    config: FrameFilterConfig,
}

/// The edges of one kind that a macroblock has: its border or its inner ones, vertical or, `turned`, horizontal.
struct Edges {
    /// Column and row of the macroblock.
    place: [usize; 2],
    turned: bool,
    border: bool,
    limits: LoopFilterParams,
}

impl Walk {
    pub fn new(planes: KeyframePlanes, config: FrameFilterConfig) -> Walk {
        Walk { lent: planes.clone(), planes, config }
    }

    /// Filters macroblock `m` at its level, with its inner edges or without.
    pub fn step(&mut self, m: usize, level: u8, inner: bool) -> Positions {
        let mut positions = Positions::default();
        if level == 0 {
            return positions;
        }
        let limits = LoopFilterParams::derive(level, self.config.sharpness_level, self.config.key_frame);
        let place = [m % self.planes.mb_cols, m / self.planes.mb_cols];
        for turned in [false, true] {
            if place[turned as usize] > 0 {
                positions += self.edges(&Edges { place, turned, border: true, limits });
            }
            if inner {
                positions += self.edges(&Edges { place, turned, border: false, limits });
            }
        }
        positions
    }

    /// The edges of y, then of u and v. The simple filter has none of these.
    fn edges(&mut self, edges: &Edges) -> Positions {
        let mut positions = Positions::default();
        for plane in 0..if self.config.simple { 1 } else { 3 } {
            let side = if plane == 0 { 16 } else { 8 };
            let offsets = if edges.border { 0..1 } else { 4..side };
            for offset in offsets.step_by(4) {
                for position in 0..side {
                    positions += self.position(plane, edges, offset, position);
                }
            }
        }
        positions
    }

    fn position(&mut self, plane: usize, edges: &Edges, offset: usize, position: usize) -> Positions {
        let width = if self.config.simple { 4 } else { 8 };
        let (side, stride) = if plane == 0 { (16, self.planes.y_stride) } else { (8, self.planes.uv_stride) };
        let [column, row] = edges.place;
        let index = |tap: usize| match edges.turned {
            false => (side * row + position) * stride + side * column + offset + tap - width / 2,
            true => (side * row + offset + tap - width / 2) * stride + side * column + position,
        };
        let limits = &edges.limits;
        let edge_limit = if edges.border { limits.mbedge_limit } else { limits.sub_bedge_limit };
        let window = |samples: &[u8]| -> [u8; 8] { std::array::from_fn(|tap| samples[index(tap.min(width - 1))]) };
        let test = |window: &[u8; 8]| passes(&window[..width], edge_limit, limits.interior_limit);
        let (lent, samples) = (plane_of(&mut self.lent, plane), plane_of(&mut self.planes, plane));
        let (first, before) = (window(lent), window(samples));
        let mut after = before;
        self::filter(self.config.simple, edges.border, limits, edge_limit, &mut after[..width]);
        (0..width).for_each(|tap| samples[index(tap)] = after[tap]);
        let (smoothed, same) = (test(&before), after[..width] == before[..width]);
        Positions {
            met: 1,
            smoothed: smoothed as usize,
            unchanged: (smoothed && same) as usize,
            turned: (smoothed != test(&first)) as usize,
        }
    }
}

fn plane_of(planes: &mut KeyframePlanes, plane: usize) -> &mut [u8] {
    match plane {
        0 => &mut planes.y,
        1 => &mut planes.u,
        _ => &mut planes.v,
    }
}

/// The Rust's kernel of an edge on one window.
fn filter(simple: bool, border: bool, limits: &LoopFilterParams, edge_limit: u8, window: &mut [u8]) {
    let (threshold, interior) = (limits.hev_threshold, limits.interior_limit);
    match (simple, border) {
        (true, _) => loop_filter::simple_segment(edge_limit, window, 0),
        (false, true) => loop_filter::mb_filter(threshold, interior, edge_limit, window, 0),
        (false, false) => loop_filter::subblock_filter(threshold, interior, edge_limit, window, 0),
    }
}

#[cfg(test)]
mod tests {
    use super::*;

    /// Document 01, figure I, and each of the six neighbour differences at the interior limit and one above.
    #[test]
    fn tests_at_their_limits() {
        let step = [100, 100, 108, 108];
        assert_eq!([19, 20].map(|limit| passes(&step, limit, 0)), [false, true]);
        assert!(passes(&[7; 8], 0, 0));
        for higher in [0, 1, 2, 5, 6, 7] {
            let mut taps = [100; 8];
            taps[higher] = 103;
            assert_eq!([2, 3].map(|limit| passes(&taps, 255, limit)), [false, true], "{taps:?}");
        }
    }

    fn flat(mb_cols: usize, mb_rows: usize) -> KeyframePlanes {
        let [y, u, v] = [(256, 100), (64, 0), (64, 255)].map(|(area, sample)| vec![sample; area * mb_cols * mb_rows]);
        KeyframePlanes { y, u, v, y_stride: 16 * mb_cols, uv_stride: 8 * mb_cols, mb_cols, mb_rows }
    }

    /// Every position of a flat picture is smoothed, and no sample changes: 192 in a macroblock with all its edges.
    #[test]
    fn flat_pictures() {
        let met = |met| Positions { met, smoothed: met, unchanged: met, turned: 0 };
        for (simple, wanted) in [(false, [128, 160, 160, 192]), (true, [96, 112, 112, 128])] {
            let mut walk = Walk::new(flat(2, 2), FrameFilterConfig::default().with_simple(simple));
            assert_eq!([0, 1, 2, 3].map(|m| walk.step(m, 1, true)), wanted.map(met));
            assert_eq!(walk.step(3, 63, false), met(if simple { 32 } else { 64 }));
            assert_eq!((walk.step(0, 63, false), walk.step(3, 0, true)), (met(0), met(0)));
            assert!(walk.planes == flat(2, 2));
        }
    }
}
