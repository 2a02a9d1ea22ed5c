//! The oracle: the VP8 loop filter in Rust that the Rattle crates replace.
//!
//! `original/` holds its five files byte for byte (`SHA256SUMS` has their checksums) and their licence. They
//! are compiled here as modules, without the feature `simd`. The module `shims` stands in for what they import and
//! the filter never runs.
//!
//! [`loop_filter`] is the original module. The functions that the original crate kept to itself are reached through
//! [`mb_has_coeffs`], [`filter_frame_flags`] and [`filter_inter_frame_flags`]; those private to the module through
//! [`opened`], which is a child of a second copy of its text. [`positions`] tells which positions its passes smooth.

#[path = "../original/frame.rs"]
#[allow(dead_code, clippy::all)]
#[rustfmt::skip]
pub mod frame;
#[path = "../original/loop_filter.rs"]
#[allow(dead_code, clippy::all)]
#[rustfmt::skip]
pub mod loop_filter;
#[path = "../original/macroblock.rs"]
#[allow(dead_code, clippy::all)]
#[rustfmt::skip]
pub mod macroblock;
#[path = "../original/motion_comp.rs"]
#[allow(dead_code, clippy::all)]
#[rustfmt::skip]
pub mod motion_comp;
#[path = "../original/near_mv.rs"]
#[allow(dead_code, clippy::all)]
#[rustfmt::skip]
pub mod near_mv;

pub mod positions;
mod shims;
pub use shims::coded_header;
use shims::{bool_decoder, intra_predict, inverse_transform, motion_vector, reconstruct};

include!(concat!(env!("OUT_DIR"), "/opened_module.rs"));
pub use loop_filter_opened::opened;

pub use coded_header::Vp8CodedHeader;
pub use frame::{KeyframePlanes, MbCoeffs};
pub use loop_filter::{FrameFilterConfig, InterFilterInfo, LoopFilterParams, SourcePlanes};
pub use macroblock::{IntraUvMode, IntraYMode, MacroblockModes};
pub use motion_comp::RefFrame;
pub use near_mv::InterMode;

/// Whether any of the 400 coefficients is not 0.
pub fn mb_has_coeffs(coeffs: &MbCoeffs) -> bool {
    loop_filter::mb_has_coeffs(coeffs)
}

/// The key pass, with one flag a macroblock in place of its coefficients.
pub fn filter_frame_flags(
    planes: &mut KeyframePlanes,
    modes: &[MacroblockModes],
    has_coeffs: &[bool],
    config: &FrameFilterConfig,
) {
    loop_filter::filter_frame_flags(planes, modes, has_coeffs, config)
}

/// The inter pass, with one flag a macroblock in place of its coefficients.
pub fn filter_inter_frame_flags(
    planes: &mut KeyframePlanes,
    modes: &[MacroblockModes],
    has_coeffs: &[bool],
    ref_frames: &[Option<RefFrame>],
    inter_modes: &[Option<InterMode>],
    config: &FrameFilterConfig,
) {
    loop_filter::filter_inter_frame_flags(planes, modes, has_coeffs, ref_frames, inter_modes, config)
}
