//! Stand-ins for the modules that the original files import and that the loop filter never runs. Records have the
//! fields that are read; functions panic.

/// The frame header. `FrameFilterConfig::keyframe` and `interframe` read it.
pub mod coded_header {
    #[derive(Debug, Clone, Copy, Default, PartialEq, Eq)]
    pub struct UpdateSegmentation {
        pub update_mb_segmentation_map: bool,
        pub segment_feature_mode_absolute: bool,
        pub loop_filter_update: [Option<i16>; 4],
        pub segment_prob: [Option<u8>; 3],
    }

    #[derive(Debug, Clone, Copy, Default, PartialEq, Eq)]
    pub struct MbLfAdjustments {
        pub loop_filter_adj_enable: bool,
        pub ref_frame_delta_update: [Option<i16>; 4],
        pub mb_mode_delta_update: [Option<i16>; 4],
    }

    #[derive(Debug, Clone, Copy, Default, PartialEq, Eq)]
    pub struct Vp8CodedHeader {
        pub color_space: Option<bool>,
        pub segmentation_enabled: bool,
        pub update_segmentation: Option<UpdateSegmentation>,
        pub filter_type: bool,
        pub loop_filter_level: u8,
        pub sharpness_level: u8,
        pub mb_lf_adjustments: MbLfAdjustments,
        pub mb_no_skip_coeff: bool,
        pub prob_skip_false: Option<u8>,
        pub intra_y_mode_prob_update: Option<[u8; 4]>,
        pub intra_uv_mode_prob_update: Option<[u8; 3]>,
    }
}

pub mod bool_decoder {
    #[derive(Debug, Clone, Copy, PartialEq, Eq)]
    pub struct BoolDecoderError;

    impl std::fmt::Display for BoolDecoderError {
        fn fmt(&self, f: &mut std::fmt::Formatter<'_>) -> std::fmt::Result {
            f.write_str("bool decoder")
        }
    }

    pub struct BoolDecoder<'a>(std::marker::PhantomData<&'a [u8]>);

    impl BoolDecoder<'_> {
        pub fn read_bool(&mut self, _prob: u8) -> Result<bool, BoolDecoderError> {
            unreachable!("the loop filter decodes nothing")
        }
    }
}

pub mod motion_vector {
    use super::bool_decoder::{BoolDecoder, BoolDecoderError};

    #[derive(Debug, Clone, Copy, Default, PartialEq, Eq)]
    pub struct Mv {
        pub row: i16,
        pub col: i16,
    }

    pub struct MvContexts;

    pub fn read_mv(_dec: &mut BoolDecoder<'_>, _contexts: &MvContexts) -> Result<Mv, BoolDecoderError> {
        unreachable!("the loop filter reads no motion vector")
    }
}

pub mod inverse_transform {
    pub fn clamp255(_v: i32) -> u8 {
        unreachable!("the loop filter predicts nothing")
    }

    pub fn inverse_wht_4x4(_coeffs: &[i16; 16], _residue: &mut [i16; 16]) {
        unreachable!("the loop filter transforms nothing")
    }

    pub fn inverse_dct_4x4_add_into(_coeffs: &[i16; 16], _plane: &mut [u8], _stride: usize, _row: usize, _col: usize) {
        unreachable!("the loop filter transforms nothing")
    }
}

pub mod intra_predict {
    pub const DEFAULT_LEFT_PIXEL: u8 = 129;
}

pub mod reconstruct {
    use crate::macroblock::{IntraBmode, IntraUvMode, IntraYMode};

    #[derive(Debug, Clone, Copy, PartialEq, Eq)]
    pub struct ReconstructError;

    impl std::fmt::Display for ReconstructError {
        fn fmt(&self, f: &mut std::fmt::Formatter<'_>) -> std::fmt::Result {
            f.write_str("reconstruct")
        }
    }

    #[derive(Default)]
    pub struct MbNeighbors {
        pub y_above: Option<[u8; 16]>,
        pub u_above: Option<[u8; 8]>,
        pub v_above: Option<[u8; 8]>,
        pub y_left: Option<[u8; 16]>,
        pub u_left: Option<[u8; 8]>,
        pub v_left: Option<[u8; 8]>,
        pub y_topleft: Option<u8>,
        pub u_topleft: Option<u8>,
        pub v_topleft: Option<u8>,
        pub y_above_right: Option<[u8; 4]>,
    }

    pub struct ReconstructedMb {
        pub y: [u8; 256],
        pub u: [u8; 64],
        pub v: [u8; 64],
    }

    impl Default for ReconstructedMb {
        fn default() -> Self {
            ReconstructedMb { y: [0; 256], u: [0; 64], v: [0; 64] }
        }
    }

    pub fn decode_keyframe_mb_bpred(
        _subblock_modes: Option<&[IntraBmode; 16]>,
        _uv_mode: IntraUvMode,
        _mb_skip_coeff: bool,
        _neighbors: &MbNeighbors,
        _y: &[[i16; 16]; 16],
        _u: &[[i16; 16]; 4],
        _v: &[[i16; 16]; 4],
    ) -> Result<ReconstructedMb, ReconstructError> {
        unreachable!("the loop filter reconstructs nothing")
    }

    #[allow(clippy::too_many_arguments)]
    pub fn decode_keyframe_mb_non_bpred(
        _y_mode: IntraYMode,
        _uv_mode: IntraUvMode,
        _mb_skip_coeff: bool,
        _neighbors: &MbNeighbors,
        _y2: &[i16; 16],
        _y: &[[i16; 16]; 16],
        _u: &[[i16; 16]; 4],
        _v: &[[i16; 16]; 4],
    ) -> Result<ReconstructedMb, ReconstructError> {
        unreachable!("the loop filter reconstructs nothing")
    }
}
