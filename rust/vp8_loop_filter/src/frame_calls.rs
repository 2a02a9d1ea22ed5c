//! The frame calls: both passes, turned off by a header level of 0 (RFC 6386, section 15).

use crate::config::FrameFilterConfig;
use crate::entries::Form;
use crate::levels::mb_has_coeffs;
use crate::macroblock::{InterFilterInfo, InterMode, Lists, MacroblockModes, MbCoeffs, RefFrame};
use crate::passes::{Done, part, whole};
use crate::planes::PlanesMut;
use crate::refusal::Refusal;

/// Filters a key frame, unless the header level is 0: then no sample changes, whatever deltas and segments say. With any
/// other level it does what [`filter_frame`](crate::filter_frame) does, and it is refused as that is.
///
/// This is what a decoder of VP8 calls. [`filter_frame`](crate::filter_frame) is the call of the Rust that is replaced,
/// which does not test the header level: it filters a macroblock that a delta or its segment lifts above level 0.
///
/// ```
/// use vp8_loop_filter::{FrameFilterConfig, KeyframePlanes, MacroblockModes, MbCoeffs};
/// use vp8_loop_filter::{filter_frame, loop_filter_frame};
///
/// let (y, u, v) = (vec![100; 32 * 16], vec![128; 16 * 8], vec![128; 16 * 8]);
/// let mut planes = KeyframePlanes { y, u, v, y_stride: 32, uv_stride: 16, mb_cols: 2, mb_rows: 1 };
/// for row in planes.y.chunks_mut(32) {
///     row[16..].fill(108);
/// }
/// let config = FrameFilterConfig::default().with_key_frame(true).with_loop_filter_level(0);
/// let lifted = config.with_delta_enabled(true).with_ref_delta_current(24);
/// let (modes, coeffs) = ([MacroblockModes::default(); 2], [MbCoeffs::default(); 2]);
///
/// loop_filter_frame(&mut planes, &modes, &coeffs, &lifted)?;
/// assert_eq!(planes.y[12..20], [100, 100, 100, 100, 108, 108, 108, 108]);
///
/// filter_frame(&mut planes, &modes, &coeffs, &lifted)?;
/// assert_eq!(planes.y[12..20], [100, 101, 102, 103, 105, 106, 107, 108]);
/// # Ok::<(), vp8_loop_filter::Refusal>(())
/// ```
pub fn loop_filter_frame<'a, P, M>(
    planes: &'a mut P,
    modes: &[M],
    coeffs: &[MbCoeffs],
    config: &FrameFilterConfig,
) -> Result<(), Refusal>
where
    PlanesMut<'a>: From<&'a mut P>,
    MacroblockModes: for<'m> From<&'m M>,
{
    whole(Form::Frame, planes.into(), &Lists::new(modes, coeffs.iter().map(mb_has_coeffs), None), config)
}

/// [`loop_filter_frame`] with a flag for each macroblock in place of its coefficients: whether any is not 0.
pub fn loop_filter_frame_flags<'a, P, M>(
    planes: &'a mut P,
    modes: &[M],
    has_coeffs: &[bool],
    config: &FrameFilterConfig,
) -> Result<(), Refusal>
where
    PlanesMut<'a>: From<&'a mut P>,
    MacroblockModes: for<'m> From<&'m M>,
{
    whole(Form::Frame, planes.into(), &Lists::new(modes, has_coeffs.iter().copied(), None), config)
}

/// [`loop_filter_frame_flags`] halted, as [`filter_frame_from`](crate::filter_frame_from) is. Can be refused with 7 too.
///
/// Macroblocks that header level 0 leaves alone count as done, so a caller's loop is the same at every level.
///
/// ```
/// use vp8_loop_filter::{Done, FrameFilterConfig, KeyframePlanes, MacroblockModes, loop_filter_frame_from};
///
/// let (y, u, v) = (vec![100; 16 * 48], vec![128; 8 * 24], vec![128; 8 * 24]);
/// let mut planes = KeyframePlanes { y, u, v, y_stride: 16, uv_stride: 8, mb_cols: 1, mb_rows: 3 };
/// let (modes, flags) = ([MacroblockModes::default(); 3], [true; 3]);
/// let off = FrameFilterConfig::default().with_key_frame(true).with_loop_filter_level(0);
///
/// let mut from = |start| loop_filter_frame_from(&mut planes, &modes, &flags, &off, start, 2);
/// assert_eq!(from(0)?, Done { count: 2, next: 2, smoothed: 0 });
/// assert_eq!(from(2)?, Done { count: 1, next: 3, smoothed: 0 });
/// assert_eq!(from(4).unwrap_err().number(), 7);
/// # Ok::<(), vp8_loop_filter::Refusal>(())
/// ```
pub fn loop_filter_frame_from<'a, P, M>(
    planes: &'a mut P,
    modes: &[M],
    has_coeffs: &[bool],
    config: &FrameFilterConfig,
    start: usize,
    allowance: usize,
) -> Result<Done, Refusal>
where
    PlanesMut<'a>: From<&'a mut P>,
    MacroblockModes: for<'m> From<&'m M>,
{
    part(Form::Frame, planes.into(), &Lists::new(modes, has_coeffs.iter().copied(), None), config, start, allowance)
}

/// Filters an inter frame, unless the header level is 0: [`filter_inter_frame`](crate::filter_inter_frame) as
/// [`loop_filter_frame`] is [`filter_frame`](crate::filter_frame).
pub fn loop_filter_inter_frame<'a, P, M>(
    planes: &'a mut P,
    modes: &[M],
    coeffs: &[MbCoeffs],
    ref_frames: &[Option<RefFrame>],
    inter_modes: &[Option<InterMode>],
    config: &FrameFilterConfig,
) -> Result<(), Refusal>
where
    PlanesMut<'a>: From<&'a mut P>,
    MacroblockModes: for<'m> From<&'m M>,
{
    let inter = InterFilterInfo { ref_frames, inter_modes };
    let lists = Lists::new(modes, coeffs.iter().map(mb_has_coeffs), Some(&inter));
    whole(Form::Frame, planes.into(), &lists, config)
}

/// [`loop_filter_inter_frame`] with a flag for each macroblock in place of its coefficients: whether any is not 0.
pub fn loop_filter_inter_frame_flags<'a, P, M>(
    planes: &'a mut P,
    modes: &[M],
    has_coeffs: &[bool],
    ref_frames: &[Option<RefFrame>],
    inter_modes: &[Option<InterMode>],
    config: &FrameFilterConfig,
) -> Result<(), Refusal>
where
    PlanesMut<'a>: From<&'a mut P>,
    MacroblockModes: for<'m> From<&'m M>,
{
    let inter = InterFilterInfo { ref_frames, inter_modes };
    whole(Form::Frame, planes.into(), &Lists::new(modes, has_coeffs.iter().copied(), Some(&inter)), config)
}

/// [`loop_filter_inter_frame_flags`] halted, as [`loop_filter_frame_from`] is. Can be refused with 7 too.
#[allow(clippy::too_many_arguments)]
pub fn loop_filter_inter_frame_from<'a, P, M>(
    planes: &'a mut P,
    modes: &[M],
    has_coeffs: &[bool],
    ref_frames: &[Option<RefFrame>],
    inter_modes: &[Option<InterMode>],
    config: &FrameFilterConfig,
    start: usize,
    allowance: usize,
) -> Result<Done, Refusal>
where
    PlanesMut<'a>: From<&'a mut P>,
    MacroblockModes: for<'m> From<&'m M>,
{
    let inter = InterFilterInfo { ref_frames, inter_modes };
    let lists = Lists::new(modes, has_coeffs.iter().copied(), Some(&inter));
    part(Form::Frame, planes.into(), &lists, config, start, allowance)
}
