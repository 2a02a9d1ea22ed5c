//! The C functions of the library, on slices and records. The one module with `unsafe`.
//!
//! Each function answers what its C function returns: where it can refuse, 0 or the number of the refusal. The hosts that
//! compare and time the library call it through this module too. It is no part of the crate's interface.

use crate::config::FrameFilterConfig;
use crate::planes::{Planes, PlanesMut, Scratch, SourcePlanes};
use vp8_loop_filter_sys as sys;

pub use sys::vp8lf_clamp_s8 as clamp_s8;
pub use sys::vp8lf_s2u as s2u;
pub use sys::vp8lf_u2s as u2s;

/// The byte lists of a picture, lent. Those of an inter frame have references and inter modes besides.
#[derive(Clone, Copy)]
pub struct ByteLists<'a> {
    pub modes: &'a [u8],
    pub segments: &'a [u8],
    pub flags: &'a [u8],
    pub inter: Option<[&'a [u8]; 2]>,
}

/// The pointer and length of a slice that is read.
fn lend<T>(slice: &[T]) -> (*const T, usize) {
    (slice.as_ptr(), slice.len())
}

/// The pointer and length of a slice that is written. The length is read first: the pointer is the slice's last use.
fn lend_mut(slice: &mut [u8]) -> (*mut u8, usize) {
    let len = slice.len();
    (slice.as_mut_ptr(), len)
}

pub fn derive(
    loop_filter_level: u8,
    sharpness_level: u8,
    key_frame: bool,
    interior_limit: &mut u8,
    hev_threshold: &mut u8,
    mbedge_limit: &mut u8,
    sub_bedge_limit: &mut u8,
) {
    // SAFETY: references to four numbers.
    unsafe {
        sys::vp8lf_derive(
            loop_filter_level,
            sharpness_level,
            key_frame,
            interior_limit,
            hev_threshold,
            mbedge_limit,
            sub_bedge_limit,
        )
    }
}

pub fn interior_limits(limits: &mut [u8]) -> usize {
    let (limits, len) = lend_mut(limits);
    // SAFETY: the slice's own pointer and length.
    unsafe { sys::vp8lf_interior_limits(limits, len) }
}

pub fn common_adjust(use_outer_taps: bool, seg: &mut [u8], base: usize, adjustment: &mut i32) -> u8 {
    let (seg, len) = lend_mut(seg);
    // SAFETY: the slice's own pointer and length, and a reference.
    unsafe { sys::vp8lf_common_adjust(use_outer_taps, seg, len, base, adjustment) }
}

pub fn simple_segment(edge_limit: u8, seg: &mut [u8], base: usize, passed: &mut u8) -> u8 {
    let (seg, len) = lend_mut(seg);
    // SAFETY: the slice's own pointer and length, and a reference.
    unsafe { sys::vp8lf_simple_segment(edge_limit, seg, len, base, passed) }
}

pub fn subblock_filter(
    hev_threshold: u8,
    interior_limit: u8,
    edge_limit: u8,
    seg: &mut [u8],
    base: usize,
    passed: &mut u8,
) -> u8 {
    let (seg, len) = lend_mut(seg);
    // SAFETY: the slice's own pointer and length, and a reference.
    unsafe { sys::vp8lf_subblock_filter(hev_threshold, interior_limit, edge_limit, seg, len, base, passed) }
}

pub fn mb_filter(
    hev_threshold: u8,
    interior_limit: u8,
    edge_limit: u8,
    seg: &mut [u8],
    base: usize,
    passed: &mut u8,
) -> u8 {
    let (seg, len) = lend_mut(seg);
    // SAFETY: the slice's own pointer and length, and a reference.
    unsafe { sys::vp8lf_mb_filter(hev_threshold, interior_limit, edge_limit, seg, len, base, passed) }
}

pub fn mb_has_coeffs(coeffs: &[i16]) -> bool {
    let (coeffs, len) = lend(coeffs);
    // SAFETY: the slice's own pointer and length.
    unsafe { sys::vp8lf_mb_has_coeffs(coeffs, len) }
}

pub fn first_coeff(coeffs: &[i16]) -> usize {
    let (coeffs, len) = lend(coeffs);
    // SAFETY: the slice's own pointer and length.
    unsafe { sys::vp8lf_first_coeff(coeffs, len) }
}

/// Calls a C function that takes the settings of a frame as numbers. They stand where the `;` is.
macro_rules! with_settings {
    ($entry:ident, $config:expr, [$($before:expr),*; $($after:expr),*]) => {{
        let FrameFilterConfig {
            simple, key_frame, loop_filter_level, sharpness_level, segmentation_enabled, segment_abs,
            segment_lf_level: [segment_level_0, segment_level_1, segment_level_2, segment_level_3],
            delta_enabled, ref_delta_current, bpred_mode_delta, ref_delta_last, ref_delta_golden, ref_delta_altref,
            zero_mv_mode_delta, other_mv_mode_delta, split_mv_mode_delta,
        } = *$config;
        // SAFETY: numbers, references, and each slice's own pointer and length. The borrows keep apart what is written
        // from all else.
        unsafe {
            sys::$entry(
                $($before,)*
                simple, key_frame, loop_filter_level, sharpness_level, segmentation_enabled, segment_abs,
                segment_level_0, segment_level_1, segment_level_2, segment_level_3,
                delta_enabled, ref_delta_current, bpred_mode_delta, ref_delta_last, ref_delta_golden, ref_delta_altref,
                zero_mv_mode_delta, other_mv_mode_delta, split_mv_mode_delta,
                $($after),*
            )
        }
    }};
}

pub fn calculate_mb_filter_level(config: &FrameFilterConfig, segment: u8, mode: u8, level: &mut u8) -> u8 {
    with_settings!(vp8lf_calculate_mb_filter_level, config, [; segment, mode, level])
}

pub fn calculate_mb_filter_level_inter(
    config: &FrameFilterConfig,
    segment: u8,
    reference: u8,
    inter_mode: u8,
    mode: u8,
    level: &mut u8,
) -> u8 {
    with_settings!(
        vp8lf_calculate_mb_filter_level_inter, config,
        [; segment, reference, inter_mode, mode, level]
    )
}

/// A pass itself, or the frame call beside it.
#[derive(Clone, Copy, Debug, PartialEq)]
pub enum Form {
    /// The header level is one number of the settings like the others.
    Pass,
    /// Header level 0 turns the filter off.
    Frame,
}

/// The inter pass if there are lists of references and inter modes, else the key pass; or the frame call of it. Its last
/// parameters are count, next start and positions smoothed.
pub fn filter(
    form: Form,
    planes: &mut PlanesMut<'_>,
    lists: &ByteLists<'_>,
    config: &FrameFilterConfig,
    start: usize,
    allowance: usize,
    [count, next, smoothed]: [&mut usize; 3],
) -> u8 {
    let PlanesMut { y_stride, uv_stride, mb_cols, mb_rows, .. } = *planes;
    let [y, u, v] = [&mut *planes.y, planes.u, planes.v].map(lend_mut);
    let [modes, segments, flags] = [lists.modes, lists.segments, lists.flags].map(lend);
    macro_rules! pass {
        ($entry:ident $(, $list:ident)*) => {
            with_settings!(
                $entry, config,
                [
                    y.0, y.1, u.0, u.1, v.0, v.1, mb_cols, mb_rows, y_stride, uv_stride,
                    modes.0, modes.1, segments.0, segments.1, flags.0, flags.1 $(, $list.0, $list.1)*
                    ; start, allowance, count, next, smoothed
                ]
            )
        };
    }
    match (lists.inter.map(|lists| lists.map(lend)), form) {
        (None, Form::Pass) => pass!(vp8lf_filter_frame),
        (None, Form::Frame) => pass!(vp8lf_loop_filter_frame),
        (Some([references, inter_modes]), Form::Pass) => {
            pass!(vp8lf_filter_inter_frame, references, inter_modes)
        }
        (Some([references, inter_modes]), Form::Frame) => {
            pass!(vp8lf_loop_filter_inter_frame, references, inter_modes)
        }
    }
}

pub fn final_rows(
    mb_cols: usize,
    mb_rows: usize,
    y_stride: usize,
    uv_stride: usize,
    start: usize,
    luma: &mut usize,
    chroma: &mut usize,
) -> u8 {
    // SAFETY: numbers and references.
    unsafe { sys::vp8lf_final_rows(mb_cols, mb_rows, y_stride, uv_stride, start, luma, chroma) }
}

pub fn reconstruction_ssd(planes: &Planes<'_>, src: &SourcePlanes<'_>, sum: &mut u64) -> u8 {
    let Planes { y, u, v, y_stride, uv_stride, mb_cols, mb_rows } = *planes;
    let [y, u, v, src_y, src_u, src_v] = [y, u, v, src.y, src.u, src.v].map(lend);
    // SAFETY: a reference, and each slice's own pointer and length.
    unsafe {
        sys::vp8lf_reconstruction_ssd(
            y.0,
            y.1,
            u.0,
            u.1,
            v.0,
            v.1,
            mb_cols,
            mb_rows,
            y_stride,
            uv_stride,
            src_y.0,
            src_y.1,
            src_u.0,
            src_u.1,
            src_v.0,
            src_v.1,
            src.width,
            src.height,
            src.y_stride,
            src.uv_stride,
            sum,
        )
    }
}

/// Calls a C function that searches. What it reads, the settings and scratch come as records; in brackets, the lists
/// that it reads besides, and its out-parameters.
macro_rules! search {
    (
        $entry:ident, ($planes:expr, $src:expr, $lists:expr, $base:expr, $scratch:expr),
        [$($list:expr),*], [$($out:expr),*]
    ) => {{
        let Planes { y, u, v, y_stride, uv_stride, mb_cols, mb_rows } = *$planes;
        let [y, u, v, src_y, src_u, src_v] = [y, u, v, $src.y, $src.u, $src.v].map(lend);
        let [modes, segments, flags] = [$lists.modes, $lists.segments, $lists.flags].map(lend);
        let [to_y, to_u, to_v] = [&mut *$scratch.y, $scratch.u, $scratch.v].map(lend_mut);
        with_settings!(
            $entry, $base,
            [
                y.0, y.1, u.0, u.1, v.0, v.1, mb_cols, mb_rows, y_stride, uv_stride,
                src_y.0, src_y.1, src_u.0, src_u.1, src_v.0, src_v.1,
                $src.width, $src.height, $src.y_stride, $src.uv_stride,
                modes.0, modes.1, segments.0, segments.1, flags.0, flags.1 $(, $list.0, $list.1)*
                ; to_y.0, to_y.1, to_u.0, to_u.1, to_v.0, to_v.1, $($out),*
            ]
        )
    }};
}

/// The search with the inter pass if there are lists of references and inter modes, else with the key pass; for level
/// and sharpness if there is a place for a sharpness, else for the level alone.
#[allow(clippy::too_many_arguments)]
pub fn select(
    planes: &Planes<'_>,
    src: &SourcePlanes<'_>,
    lists: &ByteLists<'_>,
    base: &FrameFilterConfig,
    scratch: &mut Scratch<'_>,
    level: &mut u8,
    sharpness: Option<&mut u8>,
    count: &mut usize,
) -> u8 {
    macro_rules! call {
        ($entry:ident, $lists:tt, $out:tt) => {
            search!($entry, (planes, src, lists, base, scratch), $lists, $out)
        };
    }
    match (lists.inter.map(|lists| lists.map(lend)), sharpness) {
        (None, Some(sharpness)) => call!(vp8lf_select_filter_params, [], [level, sharpness, count]),
        (None, None) => call!(vp8lf_select_filter_level, [], [level, count]),
        (Some([references, inter_modes]), Some(sharpness)) => {
            call!(vp8lf_select_filter_params_inter, [references, inter_modes], [level, sharpness, count])
        }
        (Some([references, inter_modes]), None) => {
            call!(vp8lf_select_filter_level_inter, [references, inter_modes], [level, count])
        }
    }
}

/// The full search with the inter pass if there are lists of references and inter modes, else with the key pass.
#[allow(clippy::too_many_arguments)]
pub fn full_search(
    planes: &Planes<'_>,
    src: &SourcePlanes<'_>,
    lists: &ByteLists<'_>,
    base: &FrameFilterConfig,
    scratch: &mut Scratch<'_>,
    level: &mut u8,
    sharpness: &mut u8,
    sum: &mut u64,
) -> u8 {
    macro_rules! call {
        ($entry:ident, $lists:tt) => {
            search!($entry, (planes, src, lists, base, scratch), $lists, [level, sharpness, sum])
        };
    }
    match lists.inter.map(|lists| lists.map(lend)) {
        None => call!(vp8lf_full_search, []),
        Some([references, inter_modes]) => call!(vp8lf_full_search_inter, [references, inter_modes]),
    }
}
