//! The C functions of `include/vp8_loop_filter.h`, on slices and the Rust's settings. `vp8_loop_filter` declares them.

pub mod bytes;

use oracle::FrameFilterConfig;
use vp8_loop_filter::entries::{self as lent, ByteLists};
use vp8_loop_filter::{Planes, PlanesMut, Scratch, SourcePlanes};

pub use rules::Layout;

pub use lent::{
    Form, clamp_s8, common_adjust, derive, first_coeff, interior_limits, mb_filter, mb_has_coeffs, s2u, simple_segment,
    subblock_filter, u2s,
};

/// Which pass a C function runs.
#[derive(Clone, Copy, Debug, PartialEq)]
pub enum Pass {
    Key,
    Inter,
}

impl Pass {
    /// The name of its C function after `vp8lf_`.
    pub fn entry(self) -> &'static str {
        match self {
            Pass::Key => "filter_frame",
            Pass::Inter => "filter_inter_frame",
        }
    }

    /// The name of the C function after `vp8lf_` that is the frame call beside it.
    pub fn frame_call(self) -> &'static str {
        match self {
            Pass::Key => "loop_filter_frame",
            Pass::Inter => "loop_filter_inter_frame",
        }
    }

    /// The name of the C function after `vp8lf_` that is the full search with it.
    pub fn full_search(self) -> &'static str {
        match self {
            Pass::Key => "full_search",
            Pass::Inter => "full_search_inter",
        }
    }
}

/// One byte a macroblock in each list. The key pass reads the first three.
#[derive(Clone, Copy)]
pub struct Lists<'a> {
    pub modes: &'a [u8],
    pub segments: &'a [u8],
    pub flags: &'a [u8],
    pub references: &'a [u8],
    pub inter_modes: &'a [u8],
}

impl Lists<'_> {
    /// The lists that a C function takes.
    fn of(&self, pass: Pass) -> ByteLists<'_> {
        let Lists { modes, segments, flags, references, inter_modes } = *self;
        ByteLists { modes, segments, flags, inter: (pass == Pass::Inter).then_some([references, inter_modes]) }
    }
}

/// The picture that a reconstruction is measured against. Width and height are counted in luma samples.
#[derive(Clone, Copy)]
pub struct Source<'a> {
    pub planes: [&'a [u8]; 3],
    pub width: usize,
    pub height: usize,
    pub y_stride: usize,
    pub uv_stride: usize,
}

impl Source<'_> {
    fn planes(&self) -> SourcePlanes<'_> {
        let Source { planes: [y, u, v], width, height, y_stride, uv_stride } = *self;
        SourcePlanes { width, height, y, u, v, y_stride, uv_stride }
    }
}

/// What a search reads.
#[derive(Clone, Copy)]
pub struct Search<'a> {
    pub pass: Pass,
    pub planes: [&'a [u8]; 3],
    pub layout: &'a Layout,
    pub source: &'a Source<'a>,
    pub lists: &'a Lists<'a>,
    pub config: &'a FrameFilterConfig,
}

/// What a search is for.
#[derive(Clone, Copy, Debug, PartialEq)]
pub enum Sought {
    /// Level and sharpness.
    Params,
    /// The level alone. The sharpness of the choice is not written.
    Level,
}

impl Sought {
    /// The name of its C function after `vp8lf_`.
    pub fn entry(self, pass: Pass) -> &'static str {
        match (self, pass) {
            (Sought::Params, Pass::Key) => "select_filter_params",
            (Sought::Params, Pass::Inter) => "select_filter_params_inter",
            (Sought::Level, Pass::Key) => "select_filter_level",
            (Sought::Level, Pass::Inter) => "select_filter_level_inter",
        }
    }
}

/// What a search answers.
#[derive(Clone, Copy, Debug, PartialEq)]
pub struct Choice {
    pub level: u8,
    pub sharpness: u8,
    pub count: usize,
}

pub fn calculate_mb_filter_level(config: &FrameFilterConfig, segment: u8, mode: u8, level: &mut u8) -> u8 {
    lent::calculate_mb_filter_level(&settings(config), segment, mode, level)
}

pub fn calculate_mb_filter_level_inter(
    config: &FrameFilterConfig,
    segment: u8,
    reference: u8,
    inter_mode: u8,
    mode: u8,
    level: &mut u8,
) -> u8 {
    lent::calculate_mb_filter_level_inter(&settings(config), segment, reference, inter_mode, mode, level)
}

/// Count, next start and positions smoothed go to `out`.
#[allow(clippy::too_many_arguments)]
pub fn filter(
    pass: Pass,
    planes: [&mut [u8]; 3],
    layout: &Layout,
    lists: &Lists,
    config: &FrameFilterConfig,
    start: usize,
    allowance: usize,
    out: [&mut usize; 3],
) -> u8 {
    filter_as(Form::Pass, pass, planes, layout, lists, config, start, allowance, out)
}

/// A pass, or the frame call beside it.
#[allow(clippy::too_many_arguments)]
pub fn filter_as(
    form: Form,
    pass: Pass,
    [y, u, v]: [&mut [u8]; 3],
    layout: &Layout,
    lists: &Lists,
    config: &FrameFilterConfig,
    start: usize,
    allowance: usize,
    out: [&mut usize; 3],
) -> u8 {
    let Layout { columns: mb_cols, rows: mb_rows, y_stride, uv_stride } = *layout;
    let mut planes = PlanesMut { y, u, v, y_stride, uv_stride, mb_cols, mb_rows };
    lent::filter(form, &mut planes, &lists.of(pass), &settings(config), start, allowance, out)
}

pub fn final_rows(layout: &Layout, start: usize, luma: &mut usize, chroma: &mut usize) -> u8 {
    let Layout { columns, rows, y_stride, uv_stride } = *layout;
    lent::final_rows(columns, rows, y_stride, uv_stride, start, luma, chroma)
}

pub fn reconstruction_ssd(planes: [&[u8]; 3], layout: &Layout, source: &Source, sum: &mut u64) -> u8 {
    lent::reconstruction_ssd(&reconstruction(planes, layout), &source.planes(), sum)
}

pub fn select(search: &Search, sought: Sought, scratch: [&mut [u8]; 3], choice: &mut Choice) -> u8 {
    let Choice { level, sharpness, count } = choice;
    select_into(search, sought, scratch, level, sharpness, count)
}

/// The same, with each out-parameter where the caller wants it.
pub fn select_into(
    search: &Search,
    sought: Sought,
    [y, u, v]: [&mut [u8]; 3],
    level: &mut u8,
    sharpness: &mut u8,
    count: &mut usize,
) -> u8 {
    let planes = reconstruction(search.planes, search.layout);
    let (source, lists, base) = (search.source.planes(), search.lists.of(search.pass), settings(search.config));
    let sharpness = (sought == Sought::Params).then_some(sharpness);
    lent::select(&planes, &source, &lists, &base, &mut Scratch { y, u, v }, level, sharpness, count)
}

/// The full search, with each out-parameter where the caller wants it.
pub fn full_search(
    search: &Search,
    [y, u, v]: [&mut [u8]; 3],
    level: &mut u8,
    sharpness: &mut u8,
    sum: &mut u64,
) -> u8 {
    let planes = reconstruction(search.planes, search.layout);
    let (source, lists, base) = (search.source.planes(), search.lists.of(search.pass), settings(search.config));
    lent::full_search(&planes, &source, &lists, &base, &mut Scratch { y, u, v }, level, sharpness, sum)
}

fn reconstruction<'a>([y, u, v]: [&'a [u8]; 3], layout: &Layout) -> Planes<'a> {
    let Layout { columns: mb_cols, rows: mb_rows, y_stride, uv_stride } = *layout;
    Planes { y, u, v, y_stride, uv_stride, mb_cols, mb_rows }
}

/// The Rust's settings as those of the crate that calls the library.
pub fn settings(config: &FrameFilterConfig) -> vp8_loop_filter::FrameFilterConfig {
    vp8_loop_filter::FrameFilterConfig {
        simple: config.simple,
        key_frame: config.key_frame,
        loop_filter_level: config.loop_filter_level,
        sharpness_level: config.sharpness_level,
        segmentation_enabled: config.segmentation_enabled,
        segment_abs: config.segment_abs,
        segment_lf_level: config.segment_lf_level,
        delta_enabled: config.delta_enabled,
        ref_delta_current: config.ref_delta_current,
        bpred_mode_delta: config.bpred_mode_delta,
        ref_delta_last: config.ref_delta_last,
        ref_delta_golden: config.ref_delta_golden,
        ref_delta_altref: config.ref_delta_altref,
        zero_mv_mode_delta: config.zero_mv_mode_delta,
        other_mv_mode_delta: config.other_mv_mode_delta,
        split_mv_mode_delta: config.split_mv_mode_delta,
    }
}
