//! Numbers, limits and the kernels on one window (RFC 6386, sections 15.2 to 15.4).

use crate::entries;
use crate::refusal::{Lent, Refusal, answer};

/// `v` limited to -128..=127.
pub fn clamp_s8(v: i32) -> i8 {
    entries::clamp_s8(v)
}

/// The sample `v` as a signed number: `v - 128`.
pub fn u2s(v: u8) -> i8 {
    entries::u2s(v)
}

/// The sample of a signed number: `v` limited to -128..=127, plus 128.
pub fn s2u(v: i32) -> u8 {
    entries::s2u(v)
}

/// The limits of a macroblock (RFC 6386, section 15.4).
#[derive(Debug, Clone, Copy, PartialEq, Eq)]
pub struct LoopFilterParams {
    /// The most that neighbouring samples on one side of an edge may differ.
    pub interior_limit: u8,
    /// The difference next to an edge above which its variance is high.
    pub hev_threshold: u8,
    /// The edge limit between macroblocks.
    pub mbedge_limit: u8,
    /// The edge limit inside a macroblock.
    pub sub_bedge_limit: u8,
}

impl LoopFilterParams {
    /// The limits for any level, any sharpness and the key mark.
    ///
    /// ```
    /// use vp8_loop_filter::LoopFilterParams;
    ///
    /// let limits = LoopFilterParams::derive(32, 4, true);
    /// assert_eq!((limits.interior_limit, limits.hev_threshold), (5, 1));
    /// assert_eq!((limits.mbedge_limit, limits.sub_bedge_limit), (73, 69));
    /// ```
    pub fn derive(loop_filter_level: u8, sharpness_level: u8, key_frame: bool) -> LoopFilterParams {
        let mut limits = LoopFilterParams { interior_limit: 0, hev_threshold: 0, mbedge_limit: 0, sub_bedge_limit: 0 };
        entries::derive(
            loop_filter_level,
            sharpness_level,
            key_frame,
            &mut limits.interior_limit,
            &mut limits.hev_threshold,
            &mut limits.mbedge_limit,
            &mut limits.sub_bedge_limit,
        );
        limits
    }
}

/// The number of values of the header's sharpness, which has 3 bits (RFC 6386, section 9.6).
pub const SHARPNESS_LEVELS: usize = 8;

/// The number of levels of a macroblock; the header's level has 6 bits (RFC 6386, section 9.6).
pub const FILTER_LEVELS: usize = 64;

/// The table of interior limits (RFC 6386, section 15.4). `limits[sharpness][level]` is what
/// [`LoopFilterParams::derive`] derives as `interior_limit` from that level and that sharpness, with either key mark.
///
/// The passes read the same table for sharpness 0 to 7, and derive the limit above that. Each call copies the table's 512
/// bytes: a caller that looks up many limits keeps the copy.
///
/// ```
/// use vp8_loop_filter::{LoopFilterParams, interior_limits};
///
/// let limits = interior_limits();
/// assert_eq!(limits[4][32], 5);
/// assert_eq!(limits[4][32], LoopFilterParams::derive(32, 4, true).interior_limit);
/// assert_eq!(limits.map(|row| row[63]), [63, 8, 7, 6, 5, 4, 3, 2]);
/// ```
pub fn interior_limits() -> [[u8; FILTER_LEVELS]; SHARPNESS_LEVELS] {
    let mut limits = [[0; FILTER_LEVELS]; SHARPNESS_LEVELS];
    // The buffer is as long as the table, so the count is its length.
    let _ = entries::interior_limits(limits.as_flattened_mut());
    limits
}

/// Moves p0 and q0 of the window p1 p0 q0 q1 at `base` towards each other, and answers what q0 lost. The outer taps
/// p1 and q1 count if `use_outer_taps`. Can be refused with 4.
pub fn common_adjust(use_outer_taps: bool, seg: &mut [u8], base: usize) -> Result<i32, Refusal> {
    let mut adjustment = 0;
    let number = entries::common_adjust(use_outer_taps, seg, base, &mut adjustment);
    answer(number, || Lent::window(4, base, seg.len())).map(|()| adjustment)
}

/// The simple filter on the window p1 p0 q0 q1 at `base`. Can be refused with 4.
///
/// ```
/// use vp8_loop_filter::simple_segment;
///
/// let mut row = [100, 100, 108, 108];
/// simple_segment(20, &mut row, 0)?;
/// assert_eq!(row, [100, 102, 106, 108]);
///
/// let refusal = simple_segment(20, &mut row, 1).unwrap_err();
/// assert_eq!(refusal.to_string(), "refused (4): a window of 4 bytes at base 1 does not fit into a slice of 4 bytes");
/// # Ok::<(), vp8_loop_filter::Refusal>(())
/// ```
pub fn simple_segment(edge_limit: u8, seg: &mut [u8], base: usize) -> Result<(), Refusal> {
    simple_segment_passed(edge_limit, seg, base).map(|_| ())
}

/// [`simple_segment`], and whether its test passed. A window whose test passes may come out as it was.
///
/// ```
/// use vp8_loop_filter::simple_segment_passed;
///
/// let mut row = [100, 100, 108, 108];
/// assert!(!simple_segment_passed(19, &mut row, 0)?);
/// assert!(simple_segment_passed(20, &mut row, 0)?);
/// assert_eq!(row, [100, 102, 106, 108]);
/// assert!(simple_segment_passed(0, &mut [7; 4], 0)?);
/// # Ok::<(), vp8_loop_filter::Refusal>(())
/// ```
pub fn simple_segment_passed(edge_limit: u8, seg: &mut [u8], base: usize) -> Result<bool, Refusal> {
    let mut passed = 0;
    let number = entries::simple_segment(edge_limit, seg, base, &mut passed);
    answer(number, || Lent::window(4, base, seg.len())).map(|()| passed != 0)
}

/// The normal filter of an inner edge on the window p3 to q3 at `base`. Can be refused with 4.
pub fn subblock_filter(
    hev_threshold: u8,
    interior_limit: u8,
    edge_limit: u8,
    seg: &mut [u8],
    base: usize,
) -> Result<(), Refusal> {
    subblock_filter_passed(hev_threshold, interior_limit, edge_limit, seg, base).map(|_| ())
}

/// [`subblock_filter`], and whether its test passed. A window whose test passes may come out as it was.
///
/// ```
/// use vp8_loop_filter::subblock_filter_passed;
///
/// let mut row = [108, 108, 108, 108, 100, 100, 100, 100];
/// assert!(!subblock_filter_passed(0, 1, 19, &mut row, 0)?);
/// assert!(subblock_filter_passed(0, 1, 20, &mut row, 0)?);
/// assert_eq!(row, [108, 108, 107, 105, 103, 101, 100, 100]);
/// assert!(subblock_filter_passed(0, 0, 0, &mut [7; 8], 0)?);
/// # Ok::<(), vp8_loop_filter::Refusal>(())
/// ```
pub fn subblock_filter_passed(
    hev_threshold: u8,
    interior_limit: u8,
    edge_limit: u8,
    seg: &mut [u8],
    base: usize,
) -> Result<bool, Refusal> {
    let mut passed = 0;
    let number = entries::subblock_filter(hev_threshold, interior_limit, edge_limit, seg, base, &mut passed);
    answer(number, || Lent::window(8, base, seg.len())).map(|()| passed != 0)
}

/// The normal filter of a macroblock edge on the window p3 to q3 at `base`. Can be refused with 4.
pub fn mb_filter(
    hev_threshold: u8,
    interior_limit: u8,
    edge_limit: u8,
    seg: &mut [u8],
    base: usize,
) -> Result<(), Refusal> {
    mb_filter_passed(hev_threshold, interior_limit, edge_limit, seg, base).map(|_| ())
}

/// [`mb_filter`], and whether its test passed. A window whose test passes may come out as it was.
///
/// ```
/// use vp8_loop_filter::mb_filter_passed;
///
/// let mut row = [100, 100, 100, 100, 108, 108, 108, 108];
/// assert!(!mb_filter_passed(0, 1, 19, &mut row, 0)?);
/// assert!(mb_filter_passed(0, 1, 20, &mut row, 0)?);
/// assert_eq!(row, [100, 101, 102, 103, 105, 106, 107, 108]);
/// assert!(mb_filter_passed(0, 0, 0, &mut [7; 8], 0)?);
/// # Ok::<(), vp8_loop_filter::Refusal>(())
/// ```
pub fn mb_filter_passed(
    hev_threshold: u8,
    interior_limit: u8,
    edge_limit: u8,
    seg: &mut [u8],
    base: usize,
) -> Result<bool, Refusal> {
    let mut passed = 0;
    let number = entries::mb_filter(hev_threshold, interior_limit, edge_limit, seg, base, &mut passed);
    answer(number, || Lent::window(8, base, seg.len())).map(|()| passed != 0)
}
