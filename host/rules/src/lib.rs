//! Document 01's rules, once more in Rust: which call is refused and by which number, what a pass counts, which rows are
//! final, and which candidates a search and a full search score. The library's answers and the recorded ones are held to
//! them.

pub mod random;

/// The numbers of document 01's refusals.
pub const GRID_TOO_LARGE: u8 = 1;
pub const BAD_STRIDE: u8 = 2;
pub const SHORT_PLANE: u8 = 3;
pub const NO_WINDOW: u8 = 4;
pub const WRONG_LENGTH: u8 = 5;
pub const BAD_ENTRY: u8 = 6;
pub const START_TOO_LARGE: u8 = 7;
pub const SOURCE_TOO_LARGE: u8 = 8;
pub const BAD_SOURCE: u8 = 9;

/// How many samples wide and high a macroblock is in y, u and v.
pub const SIDE: [usize; 3] = [16, 8, 8];

/// The largest byte that a list may hold: modes, segments, flags, references, inter modes.
pub const LARGEST: [u8; 5] = [4, 255, 255, 3, 5];

/// Columns and rows of macroblocks, and the strides of the planes.
#[derive(Clone, Copy, Debug, PartialEq)]
pub struct Layout {
    pub columns: usize,
    pub rows: usize,
    pub y_stride: usize,
    pub uv_stride: usize,
}

impl Layout {
    pub fn stride(&self, plane: usize) -> usize {
        if plane == 0 { self.y_stride } else { self.uv_stride }
    }

    pub fn has_grid(&self) -> bool {
        self.columns > 0 && self.rows > 0
    }

    /// The least length of a plane that 3 does not refuse, where there is a grid.
    pub fn least_length(&self, plane: usize) -> usize {
        (SIDE[plane] * self.rows - 1) * self.stride(plane) + SIDE[plane] * self.columns
    }

    fn too_large(&self) -> bool {
        self.columns > 1024 || self.rows > 1024
    }

    /// 1, 2 and 3, of a layout with a grid, for each set of planes of these lengths.
    pub fn refusal(&self, lent: &[[usize; 3]]) -> Result<(), u8> {
        if self.too_large() {
            return Err(GRID_TOO_LARGE);
        }
        let off = |plane| self.stride(plane) < SIDE[plane] * self.columns || self.stride(plane) > 65_536;
        if (0..3).any(off) {
            return Err(BAD_STRIDE);
        }
        if lent.iter().any(|lengths| (0..3).any(|plane| lengths[plane] < self.least_length(plane))) {
            return Err(SHORT_PLANE);
        }
        Ok(())
    }
}

/// What a pass answers, by the numbers of its call: count and next start, or a refusal. `other_length` says whether some
/// list that the pass reads has another length than the number given.
pub fn pass(
    layout: &Layout,
    lengths: [usize; 3],
    other_length: impl Fn(usize) -> bool,
    bad_entry: bool,
    start: usize,
    allowance: usize,
) -> Result<[usize; 2], u8> {
    if !layout.has_grid() {
        return Ok([0, 0]);
    }
    layout.refusal(&[lengths])?;
    let n = layout.columns * layout.rows;
    if other_length(n) {
        return Err(WRONG_LENGTH);
    }
    if bad_entry {
        return Err(BAD_ENTRY);
    }
    if start > n {
        return Err(START_TOO_LARGE);
    }
    let count = allowance.min(n - start);
    Ok([count, start + count])
}

/// How many leading rows of luma and of chroma are final when the macroblocks before `start` are done: up to the first row
/// that a macroblock from the start on can reach. Or a refusal: zero columns or rows first, then 1, then 7. The strides
/// are not read.
pub fn final_rows(layout: &Layout, start: usize) -> Result<[usize; 2], u8> {
    let Layout { columns, rows, .. } = *layout;
    if !layout.has_grid() {
        return Ok([0, 0]);
    }
    if layout.too_large() {
        return Err(GRID_TOO_LARGE);
    }
    if start > columns * rows {
        return Err(START_TOO_LARGE);
    }
    let first = |side: usize| {
        let top = |m: usize| (m / columns * side).saturating_sub(3);
        (start..columns * rows).map(top).min().unwrap_or(rows * side)
    };
    Ok([first(16), first(8)])
}

/// The numbers of a source picture. Width and height are counted in luma samples.
#[derive(Clone, Copy, Debug)]
pub struct Source {
    pub width: usize,
    pub height: usize,
    pub y_stride: usize,
    pub uv_stride: usize,
    /// Of y, u and v.
    pub lengths: [usize; 3],
}

impl Source {
    /// Samples of a row, and rows, of a plane.
    pub fn visible(&self, plane: usize) -> (usize, usize) {
        match plane {
            0 => (self.width, self.height),
            _ => (self.width.div_ceil(2), self.height.div_ceil(2)),
        }
    }

    /// Of a source that has a sample.
    fn bad(&self, plane: usize) -> bool {
        let (wide, high) = self.visible(plane);
        let stride = if plane == 0 { self.y_stride } else { self.uv_stride };
        stride < wide || stride > 65_536 || self.lengths[plane] < (high - 1) * stride + wide
    }

    /// What a sum and a search refuse before they look at lists: 1, 2 and 3 of each set of planes lent, passed over
    /// without a grid; 8; 9.
    pub fn refusal(&self, layout: &Layout, lent: &[[usize; 3]]) -> Result<(), u8> {
        if layout.has_grid() {
            layout.refusal(lent)?;
        }
        if self.width.div_ceil(16) > layout.columns || self.height.div_ceil(16) > layout.rows {
            return Err(SOURCE_TOO_LARGE);
        }
        if self.width > 0 && self.height > 0 && (0..3).any(|plane| self.bad(plane)) {
            return Err(BAD_SOURCE);
        }
        Ok(())
    }
}

/// What a search chooses, `sum` being the error sum of a level and a sharpness: level, sharpness, and how many candidates
/// were scored at a level above 0.
pub fn choice(base_sharpness: u8, mut sum: impl FnMut(u8, u8) -> u64) -> (u8, u8, usize) {
    let base = base_sharpness.min(7);
    let (mut best, mut count) = ((0, base, sum(0, base)), 0);
    let mut consider = |best: &mut (u8, u8, u64), level: u8, sharpness: u8| {
        count += (level > 0) as usize;
        let sum = sum(level, sharpness);
        if sum < best.2 {
            *best = (level, sharpness, sum);
        }
    };
    for level in (4..=60).step_by(4).chain([63]) {
        consider(&mut best, level, base);
    }
    let winner = best.0;
    for level in (0..=63u8).filter(|level| level.abs_diff(winner) <= 3) {
        if level != best.0 {
            consider(&mut best, level, base);
        }
    }
    if best.0 > 0 {
        let level = best.0;
        for sharpness in (0..=7).filter(|sharpness| *sharpness != base) {
            consider(&mut best, level, sharpness);
        }
    }
    (best.0, best.1, count)
}

/// The candidates of a full search: unfiltered, which is level 0 with the base sharpness, and every level with every
/// sharpness.
pub fn candidates(base_sharpness: u8) -> impl Iterator<Item = (u8, u8)> {
    let pairs = (1..=63).flat_map(|level| (0..=7).map(move |sharpness| (level, sharpness)));
    std::iter::once((0, base_sharpness.min(7))).chain(pairs)
}

/// A candidate with its error sum. The least of several is the one that a full search chooses: by its sum, then its
/// level, then its sharpness.
#[derive(Clone, Copy, Debug, PartialEq, Eq, PartialOrd, Ord)]
pub struct Scored {
    pub sum: u64,
    pub level: u8,
    pub sharpness: u8,
}

/// Every candidate of a full search, `sum` being the error sum of a level and a sharpness.
pub fn scored(base_sharpness: u8, mut sum: impl FnMut(u8, u8) -> u64) -> Vec<Scored> {
    let score = |(level, sharpness)| Scored { sum: sum(level, sharpness), level, sharpness };
    candidates(base_sharpness).map(score).collect()
}
