//! The level of a macroblock (RFC 6386, sections 9.3, 9.4 and 20.6), the coefficient test, and the first coefficient's
//! place.

use crate::config::FrameFilterConfig;
use crate::entries;
use crate::macroblock::{InterMode, IntraYMode, MbCoeffs, RefFrame, inter_mode_byte, mode_byte, reference_byte};

/// The level, 0 to 63, of a macroblock of a key frame.
///
/// ```
/// use vp8_loop_filter::{FrameFilterConfig, IntraYMode, calculate_mb_filter_level};
///
/// let config = FrameFilterConfig::default()
///     .with_loop_filter_level(10)
///     .with_segmentation_enabled(true)
///     .with_segment_lf_level([-20, 0, 0, 0])
///     .with_delta_enabled(true)
///     .with_ref_delta_current(5);
/// assert_eq!(calculate_mb_filter_level(&config, None, IntraYMode::Dc), 5);
/// ```
pub fn calculate_mb_filter_level(config: &FrameFilterConfig, segment_id: Option<u8>, y_mode: IntraYMode) -> u8 {
    let mut level = 0;
    // Only a byte that is no mode is refused.
    let _ = entries::calculate_mb_filter_level(config, segment_id.unwrap_or(0), mode_byte(y_mode), &mut level);
    level
}

/// The level, 0 to 63, of a macroblock of an inter frame.
pub fn calculate_mb_filter_level_inter(
    config: &FrameFilterConfig,
    segment_id: Option<u8>,
    ref_frame: Option<RefFrame>,
    inter_mode: Option<InterMode>,
    y_mode: IntraYMode,
) -> u8 {
    let (reference, inter_mode) = (reference_byte(ref_frame), inter_mode_byte(inter_mode));
    let (segment, mode) = (segment_id.unwrap_or(0), mode_byte(y_mode));
    let mut level = 0;
    // Only a byte that is no mode, reference or inter mode is refused.
    let _ = entries::calculate_mb_filter_level_inter(config, segment, reference, inter_mode, mode, &mut level);
    level
}

/// The coefficients of a macroblock in the order y2, y, u, v.
fn parts(coeffs: &MbCoeffs) -> [&[i16]; 4] {
    let MbCoeffs { y2, y, u, v } = coeffs;
    [y2, y.as_flattened(), u.as_flattened(), v.as_flattened()]
}

/// Whether any coefficient of a macroblock is not 0.
pub fn mb_has_coeffs(coeffs: &MbCoeffs) -> bool {
    parts(coeffs).into_iter().any(entries::mb_has_coeffs)
}

/// The place, 0 to 399, of the first coefficient of a macroblock that is not 0, counted in the order y2 (16), y (256),
/// u (64), v (64); 400 if all are 0. [`mb_has_coeffs`] says whether it is below 400.
///
/// ```
/// use vp8_loop_filter::{MbCoeffs, first_coeff};
///
/// let mut coeffs = MbCoeffs::default();
/// assert_eq!(first_coeff(&coeffs), 400);
/// coeffs.u[1][2] = -7;
/// assert_eq!(first_coeff(&coeffs), 16 + 256 + 16 + 2);
/// ```
pub fn first_coeff(coeffs: &MbCoeffs) -> usize {
    let mut passed = 0;
    for part in parts(coeffs) {
        let place = entries::first_coeff(part);
        passed += place;
        if place < part.len() {
            break;
        }
    }
    passed
}
