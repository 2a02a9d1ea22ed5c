//! Both passes, whole and halted (RFC 6386, sections 15 and 15.1).

use crate::config::FrameFilterConfig;
use crate::entries::{self, Form};
use crate::levels::mb_has_coeffs;
use crate::macroblock::{InterFilterInfo, InterMode, Lists, MacroblockModes, MbCoeffs, RefFrame};
use crate::planes::{Planes, PlanesMut};
use crate::refusal::{Lent, Refusal, answer};

/// What a halted call did.
#[derive(Debug, Clone, Copy, PartialEq, Eq)]
pub struct Done {
    /// The macroblocks done: the lesser of the allowance and those left. One of level 0 counts as done.
    pub count: usize,
    /// The start to go on from.
    pub next: usize,
    /// The positions smoothed: those whose test passed when their turn came, also if their samples came out as they were.
    /// A position is one segment across an edge. It is the call's own part: over the calls of a picture the parts add up to
    /// that of one call. At most 192 for each macroblock done, and 0 for one of level 0.
    pub smoothed: usize,
}

/// Leading rows of samples that no macroblock still to come can reach.
#[derive(Debug, Clone, Copy, PartialEq, Eq)]
pub struct FinalRows {
    /// Of the luma plane.
    pub luma: usize,
    /// Of each chroma plane.
    pub chroma: usize,
}

/// Filters a key frame. Can be refused with 1, 2, 3 or 5.
///
/// The header level alone is not tested, as in the Rust: [`loop_filter_frame`](crate::loop_filter_frame) leaves a frame of
/// header level 0 as it is.
///
/// ```
/// use vp8_loop_filter::{FrameFilterConfig, KeyframePlanes, MacroblockModes, MbCoeffs, filter_frame};
///
/// let (y, u, v) = (vec![100; 32 * 16], vec![128; 16 * 8], vec![128; 16 * 8]);
/// let mut planes = KeyframePlanes { y, u, v, y_stride: 32, uv_stride: 16, mb_cols: 2, mb_rows: 1 };
/// for row in planes.y.chunks_mut(32) {
///     row[16..].fill(108);
/// }
/// let config = FrameFilterConfig::default().with_key_frame(true).with_loop_filter_level(24);
/// filter_frame(&mut planes, &[MacroblockModes::default(); 2], &[MbCoeffs::default(); 2], &config)?;
/// assert_eq!(planes.y[12..20], [100, 101, 102, 103, 105, 106, 107, 108]);
/// # Ok::<(), vp8_loop_filter::Refusal>(())
/// ```
pub fn filter_frame<'a, P, M>(
    planes: &'a mut P,
    modes: &[M],
    coeffs: &[MbCoeffs],
    config: &FrameFilterConfig,
) -> Result<(), Refusal>
where
    PlanesMut<'a>: From<&'a mut P>,
    MacroblockModes: for<'m> From<&'m M>,
{
    whole(Form::Pass, planes.into(), &Lists::new(modes, coeffs.iter().map(mb_has_coeffs), None), config)
}

/// [`filter_frame`] with a flag for each macroblock in place of its coefficients: whether any is not 0.
///
/// Planes are lent for the call alone: a caller that has a `&mut` to them may use it again.
///
/// ```
/// use vp8_loop_filter::{FinalRows, FrameFilterConfig, KeyframePlanes, MacroblockModes, Refusal};
/// use vp8_loop_filter::{filter_frame_flags, final_rows};
///
/// fn twice(planes: &mut KeyframePlanes, config: &FrameFilterConfig) -> Result<FinalRows, Refusal> {
///     let modes = vec![MacroblockModes::default(); planes.mb_cols * planes.mb_rows];
///     let flags = vec![true; modes.len()];
///     filter_frame_flags(planes, &modes, &flags, config)?;
///     filter_frame_flags(planes, &modes, &flags, config)?;
///     final_rows(planes, modes.len())
/// }
///
/// let (y, u, v) = (vec![100; 256], vec![128; 64], vec![128; 64]);
/// let mut planes = KeyframePlanes { y, u, v, y_stride: 16, uv_stride: 8, mb_cols: 1, mb_rows: 1 };
/// assert_eq!(twice(&mut planes, &FrameFilterConfig::default())?, FinalRows { luma: 16, chroma: 8 });
/// # Ok::<(), vp8_loop_filter::Refusal>(())
/// ```
pub fn filter_frame_flags<'a, P, M>(
    planes: &'a mut P,
    modes: &[M],
    has_coeffs: &[bool],
    config: &FrameFilterConfig,
) -> Result<(), Refusal>
where
    PlanesMut<'a>: From<&'a mut P>,
    MacroblockModes: for<'m> From<&'m M>,
{
    whole(Form::Pass, planes.into(), &Lists::new(modes, has_coeffs.iter().copied(), None), config)
}

/// [`filter_frame_flags`] halted: from macroblock `start` in raster order, at most `allowance` macroblocks. Can be
/// refused with 7 too.
///
/// The calls on one picture share grid, strides, settings and records, begin at 0 and go on from [`Done::next`].
/// Together they leave what one call leaves. Samples and records of macroblocks not yet begun may still change between
/// calls: rows that [`final_rows`] counts do not depend on them. Each call turns all records into the library's lists; a
/// [`FramePass`](crate::FramePass) does so once.
///
/// So a caller decodes a row, puts its samples and records in, filters, asks [`final_rows`], sends, and repeats. That a row
/// once counted stays through all of this is the theorem `while-decoding` of `crates/calls/proofs/SentRows.antt`.
///
/// ```
/// use vp8_loop_filter::{FrameFilterConfig, IntraYMode, KeyframePlanes, MacroblockModes};
/// use vp8_loop_filter::{filter_frame_from, final_rows};
///
/// let (y, u, v) = (vec![100; 16 * 48], vec![128; 8 * 24], vec![128; 8 * 24]);
/// let mut planes = KeyframePlanes { y, u, v, y_stride: 16, uv_stride: 8, mb_cols: 1, mb_rows: 3 };
/// let modes = [MacroblockModes { y_mode: IntraYMode::B, segment_id: None }; 3];
/// let config = FrameFilterConfig::default().with_key_frame(true).with_loop_filter_level(24);
///
/// let (mut next, mut sendable, mut smoothed) = (0, Vec::new(), Vec::new());
/// while next < 3 {
///     // Here the next row of macroblocks is decoded.
///     let done = filter_frame_from(&mut planes, &modes, &[false; 3], &config, next, 1)?;
///     next = done.next;
///     sendable.push(final_rows(&planes, next)?.luma);
///     smoothed.push(done.smoothed);
/// }
/// assert_eq!(sendable, [13, 29, 48]);
/// // Each passes at every position of its inner edges, and from the second on of its top edge: the picture is flat.
/// assert_eq!(smoothed, [128, 160, 160]);
/// # Ok::<(), vp8_loop_filter::Refusal>(())
/// ```
pub fn filter_frame_from<'a, P, M>(
    planes: &'a mut P,
    modes: &[M],
    has_coeffs: &[bool],
    config: &FrameFilterConfig,
    start: usize,
    allowance: usize,
) -> Result<Done, Refusal>
where
    PlanesMut<'a>: From<&'a mut P>,
    MacroblockModes: for<'m> From<&'m M>,
{
    part(Form::Pass, planes.into(), &Lists::new(modes, has_coeffs.iter().copied(), None), config, start, allowance)
}

/// Filters an inter frame. Can be refused with 1, 2, 3 or 5. The header level alone is not tested:
/// [`loop_filter_inter_frame`](crate::loop_filter_inter_frame) leaves a frame of header level 0 as it is.
pub fn filter_inter_frame<'a, P, M>(
    planes: &'a mut P,
    modes: &[M],
    coeffs: &[MbCoeffs],
    ref_frames: &[Option<RefFrame>],
    inter_modes: &[Option<InterMode>],
    config: &FrameFilterConfig,
) -> Result<(), Refusal>
where
    PlanesMut<'a>: From<&'a mut P>,
    MacroblockModes: for<'m> From<&'m M>,
{
    let inter = InterFilterInfo { ref_frames, inter_modes };
    whole(Form::Pass, planes.into(), &Lists::new(modes, coeffs.iter().map(mb_has_coeffs), Some(&inter)), config)
}

/// [`filter_inter_frame`] with a flag for each macroblock in place of its coefficients: whether any is not 0.
pub fn filter_inter_frame_flags<'a, P, M>(
    planes: &'a mut P,
    modes: &[M],
    has_coeffs: &[bool],
    ref_frames: &[Option<RefFrame>],
    inter_modes: &[Option<InterMode>],
    config: &FrameFilterConfig,
) -> Result<(), Refusal>
where
    PlanesMut<'a>: From<&'a mut P>,
    MacroblockModes: for<'m> From<&'m M>,
{
    let inter = InterFilterInfo { ref_frames, inter_modes };
    whole(Form::Pass, planes.into(), &Lists::new(modes, has_coeffs.iter().copied(), Some(&inter)), config)
}

/// [`filter_inter_frame_flags`] halted, as [`filter_frame_from`] is. Can be refused with 7 too.
#[allow(clippy::too_many_arguments)]
pub fn filter_inter_frame_from<'a, P, M>(
    planes: &'a mut P,
    modes: &[M],
    has_coeffs: &[bool],
    ref_frames: &[Option<RefFrame>],
    inter_modes: &[Option<InterMode>],
    config: &FrameFilterConfig,
    start: usize,
    allowance: usize,
) -> Result<Done, Refusal>
where
    PlanesMut<'a>: From<&'a mut P>,
    MacroblockModes: for<'m> From<&'m M>,
{
    let inter = InterFilterInfo { ref_frames, inter_modes };
    part(
        Form::Pass,
        planes.into(),
        &Lists::new(modes, has_coeffs.iter().copied(), Some(&inter)),
        config,
        start,
        allowance,
    )
}

/// How many leading rows of samples are final when the macroblocks before `start` are done. Reads the grid alone. Can
/// be refused with 1 or 7.
pub fn final_rows<'a, P>(planes: &'a P, start: usize) -> Result<FinalRows, Refusal>
where
    Planes<'a>: From<&'a P>,
{
    let planes = Planes::from(planes);
    let mut rows = FinalRows { luma: 0, chroma: 0 };
    let Planes { mb_cols, mb_rows, y_stride, uv_stride, .. } = planes;
    let number = entries::final_rows(mb_cols, mb_rows, y_stride, uv_stride, start, &mut rows.luma, &mut rows.chroma);
    answer(number, || Lent::from(&planes).and_start(start)).map(|()| rows)
}

pub(crate) fn whole(
    form: Form,
    planes: PlanesMut<'_>,
    lists: &Lists,
    config: &FrameFilterConfig,
) -> Result<(), Refusal> {
    part(form, planes, lists, config, 0, usize::MAX).map(|_| ())
}

pub(crate) fn part(
    form: Form,
    mut planes: PlanesMut<'_>,
    lists: &Lists,
    config: &FrameFilterConfig,
    start: usize,
    allowance: usize,
) -> Result<Done, Refusal> {
    let (number, done) = call(form, &mut planes, lists, config, start, allowance);
    answer(number, || Lent::from(&planes).and_lists(&lists.lent).and_start(start)).map(|()| done)
}

/// One call of the library: what it returns, and what it wrote.
pub(crate) fn call(
    form: Form,
    planes: &mut PlanesMut<'_>,
    lists: &Lists,
    config: &FrameFilterConfig,
    start: usize,
    allowance: usize,
) -> (u8, Done) {
    let mut done = Done { count: 0, next: 0, smoothed: 0 };
    let Done { count, next, smoothed } = &mut done;
    let number = entries::filter(form, planes, &lists.bytes(), config, start, allowance, [count, next, smoothed]);
    (number, done)
}
