//! The settings of a frame.

/// The number of segments of a frame (RFC 6386, section 9.3).
pub const MAX_MB_SEGMENTS: usize = 4;

/// The number of reference deltas (RFC 6386, section 9.4).
pub const MAX_REF_LF_DELTAS: usize = 4;

/// The number of mode deltas (RFC 6386, section 9.4).
pub const MAX_MODE_LF_DELTAS: usize = 4;

macro_rules! config {
    ($($(#[$doc:meta])* $field:ident: $type:ty = $with:ident),* $(,)?) => {
        /// The settings of a frame (RFC 6386, sections 9.3, 9.4 and 9.6). Every value of every field is accepted.
        #[derive(Debug, Clone, Copy, PartialEq, Eq, Default)]
        pub struct FrameFilterConfig {
            $($(#[$doc])* pub $field: $type,)*
        }

        impl FrameFilterConfig {
            $(#[doc = concat!("Sets `", stringify!($field), "`.")]
            #[must_use]
            pub fn $with(mut self, v: $type) -> Self {
                self.$field = v;
                self
            })*
        }
    };
}

config! {
    /// The simple filter, else the normal one.
    simple: bool = with_simple,
    /// The key mark: which high-variance thresholds a pass derives, in the inter pass too.
    key_frame: bool = with_key_frame,
    /// The header's level.
    loop_filter_level: u8 = with_loop_filter_level,
    /// The header's sharpness.
    sharpness_level: u8 = with_sharpness_level,
    /// Whether the levels of the segments count.
    segmentation_enabled: bool = with_segmentation_enabled,
    /// The levels of the segments replace the header's level, else they are added to it.
    segment_abs: bool = with_segment_abs,
    /// The levels of the segments.
    segment_lf_level: [i16; MAX_MB_SEGMENTS] = with_segment_lf_level,
    /// Whether the deltas below count.
    delta_enabled: bool = with_delta_enabled,
    /// The delta of a macroblock without reference.
    ref_delta_current: i16 = with_ref_delta_current,
    /// The further delta of a macroblock without reference and with mode B.
    bpred_mode_delta: i16 = with_bpred_mode_delta,
    /// The delta of a macroblock with reference `Last`.
    ref_delta_last: i16 = with_ref_delta_last,
    /// The delta of a macroblock with reference `Golden`.
    ref_delta_golden: i16 = with_ref_delta_golden,
    /// The delta of a macroblock with reference `AltRef`.
    ref_delta_altref: i16 = with_ref_delta_altref,
    /// The further delta of a macroblock with a reference and inter mode `Zero`.
    zero_mv_mode_delta: i16 = with_zero_mv_mode_delta,
    /// The further delta of a macroblock with a reference and inter mode `Nearest`, `Near` or `New`, or none.
    other_mv_mode_delta: i16 = with_other_mv_mode_delta,
    /// The further delta of a macroblock with a reference and inter mode `Split`.
    split_mv_mode_delta: i16 = with_split_mv_mode_delta,
}

impl FrameFilterConfig {
    /// The reference deltas: none, `Last`, `Golden`, `AltRef`.
    pub fn ref_deltas(&self) -> [i16; MAX_REF_LF_DELTAS] {
        [self.ref_delta_current, self.ref_delta_last, self.ref_delta_golden, self.ref_delta_altref]
    }

    /// The mode deltas: B, `Zero`, other, `Split`.
    pub fn mode_deltas(&self) -> [i16; MAX_MODE_LF_DELTAS] {
        [self.bpred_mode_delta, self.zero_mv_mode_delta, self.other_mv_mode_delta, self.split_mv_mode_delta]
    }
}
