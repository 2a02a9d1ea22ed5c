//! The C functions of the proved VP8 loop filter, as `include/vp8_loop_filter.h` declares them, and the library linked.
//! The header says what each takes, answers and writes. The crate `vp8_loop_filter` has safe calls over them.
//!
//! A function that can refuse a call returns 0, or the number of the refusal; a refused call writes nothing.
//!
//! # Safety
//!
//! - A plane, list, buffer or scratch plane is a pointer with its true length: as many bytes may be read there, and
//!   written where the pointer is `*mut`. If the length is 0 it is not followed, and may be null.
//! - An out-parameter points to one number that may be written.
//! - What is written (planes of a pass, buffers, scratch planes, out-parameters) overlaps nothing else that the call is
//!   lent, and nobody else uses it while the call runs. What is only read may overlap what is only read.

#![deny(missing_docs)]
#![allow(clippy::too_many_arguments)]

unsafe extern "C" {
    /// `v` limited to -128..=127.
    pub safe fn vp8lf_clamp_s8(v: i32) -> i8;

    /// The sample `v` as a signed number: `v - 128`.
    pub safe fn vp8lf_u2s(v: u8) -> i8;

    /// The sample of a signed number: `v` limited to -128..=127, plus 128.
    pub safe fn vp8lf_s2u(v: i32) -> u8;

    /// The limits of a macroblock.
    ///
    /// # Safety
    ///
    /// The four out-parameters point to one byte each that may be written. They do not overlap.
    pub fn vp8lf_derive(
        loop_filter_level: u8,
        sharpness_level: u8,
        key_frame: bool,
        interior_limit: *mut u8,
        hev_threshold: *mut u8,
        mbedge_limit: *mut u8,
        sub_bedge_limit: *mut u8,
    );

    /// Writes the first bytes of the table of interior limits, as many as fit, and returns how many.
    ///
    /// # Safety
    ///
    /// `limits` points to `limits_len` bytes that may be written.
    pub fn vp8lf_interior_limits(limits: *mut u8, limits_len: usize) -> usize;

    /// Moves p0 and q0 of a window of four bytes towards each other. Refusal 4.
    ///
    /// # Safety
    ///
    /// `seg` points to `seg_len` bytes that may be read and written. `adjustment` points to one number
    /// that may be written, outside of them.
    pub fn vp8lf_common_adjust(
        use_outer_taps: bool,
        seg: *mut u8,
        seg_len: usize,
        base: usize,
        adjustment: *mut i32,
    ) -> u8;

    /// The simple filter on a window of four bytes, and whether its test passed. Refusal 4.
    ///
    /// # Safety
    ///
    /// `seg` points to `seg_len` bytes that may be read and written. `passed` points to one byte that may be written,
    /// outside of them.
    pub fn vp8lf_simple_segment(edge_limit: u8, seg: *mut u8, seg_len: usize, base: usize, passed: *mut u8) -> u8;

    /// The normal filter of an inner edge on a window of eight bytes, and whether its test passed. Refusal 4.
    ///
    /// # Safety
    ///
    /// `seg` points to `seg_len` bytes that may be read and written. `passed` points to one byte that may be written,
    /// outside of them.
    pub fn vp8lf_subblock_filter(
        hev_threshold: u8,
        interior_limit: u8,
        edge_limit: u8,
        seg: *mut u8,
        seg_len: usize,
        base: usize,
        passed: *mut u8,
    ) -> u8;

    /// The normal filter of a macroblock edge on a window of eight bytes, and whether its test passed. Refusal 4.
    ///
    /// # Safety
    ///
    /// `seg` points to `seg_len` bytes that may be read and written. `passed` points to one byte that may be written,
    /// outside of them.
    pub fn vp8lf_mb_filter(
        hev_threshold: u8,
        interior_limit: u8,
        edge_limit: u8,
        seg: *mut u8,
        seg_len: usize,
        base: usize,
        passed: *mut u8,
    ) -> u8;

    /// The level of a macroblock of a key frame. Refusal 6.
    ///
    /// # Safety
    ///
    /// `level` points to one byte that may be written.
    pub fn vp8lf_calculate_mb_filter_level(
        simple: bool,
        key_frame: bool,
        loop_filter_level: u8,
        sharpness_level: u8,
        segmentation_enabled: bool,
        segment_abs: bool,
        segment_level_0: i16,
        segment_level_1: i16,
        segment_level_2: i16,
        segment_level_3: i16,
        delta_enabled: bool,
        ref_delta_current: i16,
        bpred_mode_delta: i16,
        ref_delta_last: i16,
        ref_delta_golden: i16,
        ref_delta_altref: i16,
        zero_mv_mode_delta: i16,
        other_mv_mode_delta: i16,
        split_mv_mode_delta: i16,
        segment: u8,
        mode: u8,
        level: *mut u8,
    ) -> u8;

    /// The level of a macroblock of an inter frame. Refusal 6.
    ///
    /// # Safety
    ///
    /// `level` points to one byte that may be written.
    pub fn vp8lf_calculate_mb_filter_level_inter(
        simple: bool,
        key_frame: bool,
        loop_filter_level: u8,
        sharpness_level: u8,
        segmentation_enabled: bool,
        segment_abs: bool,
        segment_level_0: i16,
        segment_level_1: i16,
        segment_level_2: i16,
        segment_level_3: i16,
        delta_enabled: bool,
        ref_delta_current: i16,
        bpred_mode_delta: i16,
        ref_delta_last: i16,
        ref_delta_golden: i16,
        ref_delta_altref: i16,
        zero_mv_mode_delta: i16,
        other_mv_mode_delta: i16,
        split_mv_mode_delta: i16,
        segment: u8,
        reference: u8,
        inter_mode: u8,
        mode: u8,
        level: *mut u8,
    ) -> u8;

    /// Whether any coefficient is not 0.
    ///
    /// # Safety
    ///
    /// `coeffs` points to `coeffs_len` numbers that may be read.
    pub fn vp8lf_mb_has_coeffs(coeffs: *const i16, coeffs_len: usize) -> bool;

    /// The place, from 0, of the first coefficient that is not 0, or `coeffs_len` if all are 0.
    ///
    /// # Safety
    ///
    /// `coeffs` points to `coeffs_len` numbers that may be read.
    pub fn vp8lf_first_coeff(coeffs: *const i16, coeffs_len: usize) -> usize;

    /// The pass of a key frame. Refusals 1, 2, 3, 5, 6 and 7.
    ///
    /// # Safety
    ///
    /// As [the crate says](crate#safety) of planes that are written, of lists, and of the last three parameters.
    pub fn vp8lf_filter_frame(
        y: *mut u8,
        y_len: usize,
        u: *mut u8,
        u_len: usize,
        v: *mut u8,
        v_len: usize,
        mb_cols: usize,
        mb_rows: usize,
        y_stride: usize,
        uv_stride: usize,
        modes: *const u8,
        modes_len: usize,
        segments: *const u8,
        segments_len: usize,
        flags: *const u8,
        flags_len: usize,
        simple: bool,
        key_frame: bool,
        loop_filter_level: u8,
        sharpness_level: u8,
        segmentation_enabled: bool,
        segment_abs: bool,
        segment_level_0: i16,
        segment_level_1: i16,
        segment_level_2: i16,
        segment_level_3: i16,
        delta_enabled: bool,
        ref_delta_current: i16,
        bpred_mode_delta: i16,
        ref_delta_last: i16,
        ref_delta_golden: i16,
        ref_delta_altref: i16,
        zero_mv_mode_delta: i16,
        other_mv_mode_delta: i16,
        split_mv_mode_delta: i16,
        start: usize,
        allowance: usize,
        count: *mut usize,
        next: *mut usize,
        smoothed: *mut usize,
    ) -> u8;

    /// The pass of an inter frame. Refusals 1, 2, 3, 5, 6 and 7.
    ///
    /// # Safety
    ///
    /// As [the crate says](crate#safety) of planes that are written, of lists, and of the last three parameters.
    pub fn vp8lf_filter_inter_frame(
        y: *mut u8,
        y_len: usize,
        u: *mut u8,
        u_len: usize,
        v: *mut u8,
        v_len: usize,
        mb_cols: usize,
        mb_rows: usize,
        y_stride: usize,
        uv_stride: usize,
        modes: *const u8,
        modes_len: usize,
        segments: *const u8,
        segments_len: usize,
        flags: *const u8,
        flags_len: usize,
        references: *const u8,
        references_len: usize,
        inter_modes: *const u8,
        inter_modes_len: usize,
        simple: bool,
        key_frame: bool,
        loop_filter_level: u8,
        sharpness_level: u8,
        segmentation_enabled: bool,
        segment_abs: bool,
        segment_level_0: i16,
        segment_level_1: i16,
        segment_level_2: i16,
        segment_level_3: i16,
        delta_enabled: bool,
        ref_delta_current: i16,
        bpred_mode_delta: i16,
        ref_delta_last: i16,
        ref_delta_golden: i16,
        ref_delta_altref: i16,
        zero_mv_mode_delta: i16,
        other_mv_mode_delta: i16,
        split_mv_mode_delta: i16,
        start: usize,
        allowance: usize,
        count: *mut usize,
        next: *mut usize,
        smoothed: *mut usize,
    ) -> u8;

    /// The frame call of a key frame: the pass, turned off by header level 0. Refusals 1, 2, 3, 5, 6 and 7.
    ///
    /// # Safety
    ///
    /// As [the crate says](crate#safety) of planes that are written, of lists, and of the last three parameters.
    pub fn vp8lf_loop_filter_frame(
        y: *mut u8,
        y_len: usize,
        u: *mut u8,
        u_len: usize,
        v: *mut u8,
        v_len: usize,
        mb_cols: usize,
        mb_rows: usize,
        y_stride: usize,
        uv_stride: usize,
        modes: *const u8,
        modes_len: usize,
        segments: *const u8,
        segments_len: usize,
        flags: *const u8,
        flags_len: usize,
        simple: bool,
        key_frame: bool,
        loop_filter_level: u8,
        sharpness_level: u8,
        segmentation_enabled: bool,
        segment_abs: bool,
        segment_level_0: i16,
        segment_level_1: i16,
        segment_level_2: i16,
        segment_level_3: i16,
        delta_enabled: bool,
        ref_delta_current: i16,
        bpred_mode_delta: i16,
        ref_delta_last: i16,
        ref_delta_golden: i16,
        ref_delta_altref: i16,
        zero_mv_mode_delta: i16,
        other_mv_mode_delta: i16,
        split_mv_mode_delta: i16,
        start: usize,
        allowance: usize,
        count: *mut usize,
        next: *mut usize,
        smoothed: *mut usize,
    ) -> u8;

    /// The frame call of an inter frame: the pass, turned off by header level 0. Refusals 1, 2, 3, 5, 6 and 7.
    ///
    /// # Safety
    ///
    /// As [the crate says](crate#safety) of planes that are written, of lists, and of the last three parameters.
    pub fn vp8lf_loop_filter_inter_frame(
        y: *mut u8,
        y_len: usize,
        u: *mut u8,
        u_len: usize,
        v: *mut u8,
        v_len: usize,
        mb_cols: usize,
        mb_rows: usize,
        y_stride: usize,
        uv_stride: usize,
        modes: *const u8,
        modes_len: usize,
        segments: *const u8,
        segments_len: usize,
        flags: *const u8,
        flags_len: usize,
        references: *const u8,
        references_len: usize,
        inter_modes: *const u8,
        inter_modes_len: usize,
        simple: bool,
        key_frame: bool,
        loop_filter_level: u8,
        sharpness_level: u8,
        segmentation_enabled: bool,
        segment_abs: bool,
        segment_level_0: i16,
        segment_level_1: i16,
        segment_level_2: i16,
        segment_level_3: i16,
        delta_enabled: bool,
        ref_delta_current: i16,
        bpred_mode_delta: i16,
        ref_delta_last: i16,
        ref_delta_golden: i16,
        ref_delta_altref: i16,
        zero_mv_mode_delta: i16,
        other_mv_mode_delta: i16,
        split_mv_mode_delta: i16,
        start: usize,
        allowance: usize,
        count: *mut usize,
        next: *mut usize,
        smoothed: *mut usize,
    ) -> u8;

    /// How many leading rows are final once the macroblocks before `start` are done. Refusals 1 and 7.
    ///
    /// # Safety
    ///
    /// `luma` and `chroma` point to one number each that may be written. They do not overlap.
    pub fn vp8lf_final_rows(
        mb_cols: usize,
        mb_rows: usize,
        y_stride: usize,
        uv_stride: usize,
        start: usize,
        luma: *mut usize,
        chroma: *mut usize,
    ) -> u8;

    /// The error sum against a source. Refusals 1, 2, 3, 8, 9 and 10.
    ///
    /// # Safety
    ///
    /// As [the crate says](crate#safety) of planes that are read, and of `sum`.
    pub fn vp8lf_reconstruction_ssd(
        y: *const u8,
        y_len: usize,
        u: *const u8,
        u_len: usize,
        v: *const u8,
        v_len: usize,
        mb_cols: usize,
        mb_rows: usize,
        y_stride: usize,
        uv_stride: usize,
        src_y: *const u8,
        src_y_len: usize,
        src_u: *const u8,
        src_u_len: usize,
        src_v: *const u8,
        src_v_len: usize,
        width: usize,
        height: usize,
        src_y_stride: usize,
        src_uv_stride: usize,
        sum: *mut u64,
    ) -> u8;

    /// The search for level and sharpness with the key pass. Refusals 1, 2, 3, 6, 8, 9 and 10.
    ///
    /// # Safety
    ///
    /// As [the crate says](crate#safety) of planes that are read, of lists, of scratch planes, and of the last three
    /// parameters.
    pub fn vp8lf_select_filter_params(
        y: *const u8,
        y_len: usize,
        u: *const u8,
        u_len: usize,
        v: *const u8,
        v_len: usize,
        mb_cols: usize,
        mb_rows: usize,
        y_stride: usize,
        uv_stride: usize,
        src_y: *const u8,
        src_y_len: usize,
        src_u: *const u8,
        src_u_len: usize,
        src_v: *const u8,
        src_v_len: usize,
        width: usize,
        height: usize,
        src_y_stride: usize,
        src_uv_stride: usize,
        modes: *const u8,
        modes_len: usize,
        segments: *const u8,
        segments_len: usize,
        flags: *const u8,
        flags_len: usize,
        simple: bool,
        key_frame: bool,
        loop_filter_level: u8,
        sharpness_level: u8,
        segmentation_enabled: bool,
        segment_abs: bool,
        segment_level_0: i16,
        segment_level_1: i16,
        segment_level_2: i16,
        segment_level_3: i16,
        delta_enabled: bool,
        ref_delta_current: i16,
        bpred_mode_delta: i16,
        ref_delta_last: i16,
        ref_delta_golden: i16,
        ref_delta_altref: i16,
        zero_mv_mode_delta: i16,
        other_mv_mode_delta: i16,
        split_mv_mode_delta: i16,
        scratch_y: *mut u8,
        scratch_y_len: usize,
        scratch_u: *mut u8,
        scratch_u_len: usize,
        scratch_v: *mut u8,
        scratch_v_len: usize,
        level: *mut u8,
        sharpness: *mut u8,
        count: *mut usize,
    ) -> u8;

    /// The search for level and sharpness with the inter pass. Refusals 1, 2, 3, 6, 8, 9 and 10.
    ///
    /// # Safety
    ///
    /// As [the crate says](crate#safety) of planes that are read, of lists, of scratch planes, and of the last three
    /// parameters.
    pub fn vp8lf_select_filter_params_inter(
        y: *const u8,
        y_len: usize,
        u: *const u8,
        u_len: usize,
        v: *const u8,
        v_len: usize,
        mb_cols: usize,
        mb_rows: usize,
        y_stride: usize,
        uv_stride: usize,
        src_y: *const u8,
        src_y_len: usize,
        src_u: *const u8,
        src_u_len: usize,
        src_v: *const u8,
        src_v_len: usize,
        width: usize,
        height: usize,
        src_y_stride: usize,
        src_uv_stride: usize,
        modes: *const u8,
        modes_len: usize,
        segments: *const u8,
        segments_len: usize,
        flags: *const u8,
        flags_len: usize,
        references: *const u8,
        references_len: usize,
        inter_modes: *const u8,
        inter_modes_len: usize,
        simple: bool,
        key_frame: bool,
        loop_filter_level: u8,
        sharpness_level: u8,
        segmentation_enabled: bool,
        segment_abs: bool,
        segment_level_0: i16,
        segment_level_1: i16,
        segment_level_2: i16,
        segment_level_3: i16,
        delta_enabled: bool,
        ref_delta_current: i16,
        bpred_mode_delta: i16,
        ref_delta_last: i16,
        ref_delta_golden: i16,
        ref_delta_altref: i16,
        zero_mv_mode_delta: i16,
        other_mv_mode_delta: i16,
        split_mv_mode_delta: i16,
        scratch_y: *mut u8,
        scratch_y_len: usize,
        scratch_u: *mut u8,
        scratch_u_len: usize,
        scratch_v: *mut u8,
        scratch_v_len: usize,
        level: *mut u8,
        sharpness: *mut u8,
        count: *mut usize,
    ) -> u8;

    /// The search for a level with the key pass. Refusals 1, 2, 3, 6, 8, 9 and 10.
    ///
    /// # Safety
    ///
    /// As [the crate says](crate#safety) of planes that are read, of lists, of scratch planes, and of the last two
    /// parameters.
    pub fn vp8lf_select_filter_level(
        y: *const u8,
        y_len: usize,
        u: *const u8,
        u_len: usize,
        v: *const u8,
        v_len: usize,
        mb_cols: usize,
        mb_rows: usize,
        y_stride: usize,
        uv_stride: usize,
        src_y: *const u8,
        src_y_len: usize,
        src_u: *const u8,
        src_u_len: usize,
        src_v: *const u8,
        src_v_len: usize,
        width: usize,
        height: usize,
        src_y_stride: usize,
        src_uv_stride: usize,
        modes: *const u8,
        modes_len: usize,
        segments: *const u8,
        segments_len: usize,
        flags: *const u8,
        flags_len: usize,
        simple: bool,
        key_frame: bool,
        loop_filter_level: u8,
        sharpness_level: u8,
        segmentation_enabled: bool,
        segment_abs: bool,
        segment_level_0: i16,
        segment_level_1: i16,
        segment_level_2: i16,
        segment_level_3: i16,
        delta_enabled: bool,
        ref_delta_current: i16,
        bpred_mode_delta: i16,
        ref_delta_last: i16,
        ref_delta_golden: i16,
        ref_delta_altref: i16,
        zero_mv_mode_delta: i16,
        other_mv_mode_delta: i16,
        split_mv_mode_delta: i16,
        scratch_y: *mut u8,
        scratch_y_len: usize,
        scratch_u: *mut u8,
        scratch_u_len: usize,
        scratch_v: *mut u8,
        scratch_v_len: usize,
        level: *mut u8,
        count: *mut usize,
    ) -> u8;

    /// The search for a level with the inter pass. Refusals 1, 2, 3, 6, 8, 9 and 10.
    ///
    /// # Safety
    ///
    /// As [the crate says](crate#safety) of planes that are read, of lists, of scratch planes, and of the last two
    /// parameters.
    pub fn vp8lf_select_filter_level_inter(
        y: *const u8,
        y_len: usize,
        u: *const u8,
        u_len: usize,
        v: *const u8,
        v_len: usize,
        mb_cols: usize,
        mb_rows: usize,
        y_stride: usize,
        uv_stride: usize,
        src_y: *const u8,
        src_y_len: usize,
        src_u: *const u8,
        src_u_len: usize,
        src_v: *const u8,
        src_v_len: usize,
        width: usize,
        height: usize,
        src_y_stride: usize,
        src_uv_stride: usize,
        modes: *const u8,
        modes_len: usize,
        segments: *const u8,
        segments_len: usize,
        flags: *const u8,
        flags_len: usize,
        references: *const u8,
        references_len: usize,
        inter_modes: *const u8,
        inter_modes_len: usize,
        simple: bool,
        key_frame: bool,
        loop_filter_level: u8,
        sharpness_level: u8,
        segmentation_enabled: bool,
        segment_abs: bool,
        segment_level_0: i16,
        segment_level_1: i16,
        segment_level_2: i16,
        segment_level_3: i16,
        delta_enabled: bool,
        ref_delta_current: i16,
        bpred_mode_delta: i16,
        ref_delta_last: i16,
        ref_delta_golden: i16,
        ref_delta_altref: i16,
        zero_mv_mode_delta: i16,
        other_mv_mode_delta: i16,
        split_mv_mode_delta: i16,
        scratch_y: *mut u8,
        scratch_y_len: usize,
        scratch_u: *mut u8,
        scratch_u_len: usize,
        scratch_v: *mut u8,
        scratch_v_len: usize,
        level: *mut u8,
        count: *mut usize,
    ) -> u8;

    /// The full search, over all levels and sharpness values, with the key pass. Refusals 1, 2, 3, 6, 8, 9 and 10.
    ///
    /// # Safety
    ///
    /// As [the crate says](crate#safety) of planes that are read, of lists, of scratch planes, and of the last three
    /// parameters.
    pub fn vp8lf_full_search(
        y: *const u8,
        y_len: usize,
        u: *const u8,
        u_len: usize,
        v: *const u8,
        v_len: usize,
        mb_cols: usize,
        mb_rows: usize,
        y_stride: usize,
        uv_stride: usize,
        src_y: *const u8,
        src_y_len: usize,
        src_u: *const u8,
        src_u_len: usize,
        src_v: *const u8,
        src_v_len: usize,
        width: usize,
        height: usize,
        src_y_stride: usize,
        src_uv_stride: usize,
        modes: *const u8,
        modes_len: usize,
        segments: *const u8,
        segments_len: usize,
        flags: *const u8,
        flags_len: usize,
        simple: bool,
        key_frame: bool,
        loop_filter_level: u8,
        sharpness_level: u8,
        segmentation_enabled: bool,
        segment_abs: bool,
        segment_level_0: i16,
        segment_level_1: i16,
        segment_level_2: i16,
        segment_level_3: i16,
        delta_enabled: bool,
        ref_delta_current: i16,
        bpred_mode_delta: i16,
        ref_delta_last: i16,
        ref_delta_golden: i16,
        ref_delta_altref: i16,
        zero_mv_mode_delta: i16,
        other_mv_mode_delta: i16,
        split_mv_mode_delta: i16,
        scratch_y: *mut u8,
        scratch_y_len: usize,
        scratch_u: *mut u8,
        scratch_u_len: usize,
        scratch_v: *mut u8,
        scratch_v_len: usize,
        level: *mut u8,
        sharpness: *mut u8,
        sum: *mut u64,
    ) -> u8;

    /// The full search, over all levels and sharpness values, with the inter pass. Refusals 1, 2, 3, 6, 8, 9 and 10.
    ///
    /// # Safety
    ///
    /// As [the crate says](crate#safety) of planes that are read, of lists, of scratch planes, and of the last three
    /// parameters.
    pub fn vp8lf_full_search_inter(
        y: *const u8,
        y_len: usize,
        u: *const u8,
        u_len: usize,
        v: *const u8,
        v_len: usize,
        mb_cols: usize,
        mb_rows: usize,
        y_stride: usize,
        uv_stride: usize,
        src_y: *const u8,
        src_y_len: usize,
        src_u: *const u8,
        src_u_len: usize,
        src_v: *const u8,
        src_v_len: usize,
        width: usize,
        height: usize,
        src_y_stride: usize,
        src_uv_stride: usize,
        modes: *const u8,
        modes_len: usize,
        segments: *const u8,
        segments_len: usize,
        flags: *const u8,
        flags_len: usize,
        references: *const u8,
        references_len: usize,
        inter_modes: *const u8,
        inter_modes_len: usize,
        simple: bool,
        key_frame: bool,
        loop_filter_level: u8,
        sharpness_level: u8,
        segmentation_enabled: bool,
        segment_abs: bool,
        segment_level_0: i16,
        segment_level_1: i16,
        segment_level_2: i16,
        segment_level_3: i16,
        delta_enabled: bool,
        ref_delta_current: i16,
        bpred_mode_delta: i16,
        ref_delta_last: i16,
        ref_delta_golden: i16,
        ref_delta_altref: i16,
        zero_mv_mode_delta: i16,
        other_mv_mode_delta: i16,
        split_mv_mode_delta: i16,
        scratch_y: *mut u8,
        scratch_y_len: usize,
        scratch_u: *mut u8,
        scratch_u_len: usize,
        scratch_v: *mut u8,
        scratch_v_len: usize,
        level: *mut u8,
        sharpness: *mut u8,
        sum: *mut u64,
    ) -> u8;
}
