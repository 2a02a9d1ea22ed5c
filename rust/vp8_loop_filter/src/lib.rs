//! The VP8 loop filter (RFC 6386, section 15) of the proved Rattle library, with the names of the Rust that it replaces.
//!
//! What each call answers and writes is what the library's contracts say. No call panics, whatever its arguments: a
//! call that cannot be done answers a [`Refusal`] with its number and what was expected, and changes nothing.
//!
//! - Planes are lent: a call takes a reference to [`KeyframePlanes`], to [`PlanesMut`] or [`Planes`], or to a caller's own
//!   record that these two are `From`.
//! - [`loop_filter_frame`] and [`loop_filter_inter_frame`] filter a frame as a decoder does: a header level of 0 turns the
//!   filter off. [`filter_frame`] and [`filter_inter_frame`] are the passes of the Rust, which do not test that level.
//!   A [`FramePass`] of either halts after some macroblocks and goes on later, and says which rows are final by then and
//!   how many positions were smoothed.
//! - [`select_filter_params`] and [`select_filter_level`] choose a level for an encoder, [`full_search`] the best of all
//!   levels and sharpness values for one that has the time, as for a still.
//! - [`LoopFilterParams::derive`], [`calculate_mb_filter_level`] and the kernels such as [`mb_filter`] are the parts.
//!   [`interior_limits`] is the table that the passes look limits up in.
//!
//! `docs/MIGRATING.md` has the lines that change in a caller of the Rust.

#![deny(missing_docs, unsafe_code)]

mod config;
#[allow(missing_docs, unsafe_code)]
#[doc(hidden)]
pub mod entries;
mod frame_calls;
mod frame_pass;
mod full_search;
mod kernels;
mod levels;
mod macroblock;
mod passes;
mod planes;
mod refusal;
mod search;

pub use config::{FrameFilterConfig, MAX_MB_SEGMENTS, MAX_MODE_LF_DELTAS, MAX_REF_LF_DELTAS};
pub use frame_calls::{
    loop_filter_frame, loop_filter_frame_flags, loop_filter_frame_from, loop_filter_inter_frame,
    loop_filter_inter_frame_flags, loop_filter_inter_frame_from,
};
pub use frame_pass::FramePass;
pub use full_search::{Best, full_search, full_search_in};
pub use kernels::{
    FILTER_LEVELS, LoopFilterParams, SHARPNESS_LEVELS, clamp_s8, common_adjust, interior_limits, mb_filter,
    mb_filter_passed, s2u, simple_segment, simple_segment_passed, subblock_filter, subblock_filter_passed, u2s,
};
pub use levels::{calculate_mb_filter_level, calculate_mb_filter_level_inter, first_coeff, mb_has_coeffs};
pub use macroblock::{InterFilterInfo, InterMode, IntraYMode, MacroblockModes, MbCoeffs, RefFrame};
pub use passes::{
    Done, FinalRows, filter_frame, filter_frame_flags, filter_frame_from, filter_inter_frame, filter_inter_frame_flags,
    filter_inter_frame_from, final_rows,
};
pub use planes::{KeyframePlanes, Planes, PlanesMut, Scratch, SourcePlanes};
pub use refusal::{Refusal, RefusalKind};
pub use search::{Choice, reconstruction_ssd, select_filter_level, select_filter_params, select_filter_params_in};

/// The code of the page is compiled with the documentation tests.
#[cfg(doctest)]
#[doc = include_str!("../../../docs/MIGRATING.md")]
struct Migrating;
