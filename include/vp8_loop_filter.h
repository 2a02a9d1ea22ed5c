/*
 * The VP8 loop filter (RFC 6386, section 15): the C functions of the Rattle library `loop_filter`.
 *
 * The functions of the library take numbers and slices, a pointer and a length each. The last part of this header has
 * structs of these and functions over the structs, which are the easier ones to call: examples/filter.c.
 *
 * What each function of the library answers and writes is proved. What no proof covers, and the caller must keep:
 *   - A pointer comes with its true length: as many numbers may be read there, and written if it does not point to
 *     const. An out-parameter points to one number that may be written.
 *   - What a call writes (the planes of a pass, the segment of a kernel, the buffer for the table of limits, scratch
 *     planes, out-parameters) overlaps nothing else that the call is given, and nobody else uses it while the call runs.
 *     So no list lies in a plane of a pass.
 *   - What nobody writes while the call runs may overlap: src_y may be y, and one list of zeros may be given as segments
 *     and as flags.
 *   - A bool is 0 or 1.
 * A pointer that comes with length 0 is not followed, and may be NULL. An out-parameter may not. What a pointer to const
 * points to is not written.
 *
 * Windows: p1 p0 q0 q1 or p3 p2 p1 p0 q0 q1 q2 q3, starting at index `base` of the slice `seg`, with the edge between
 * p0 and q0. All other bytes of the slice stay as they are.
 */
#ifndef VP8_LOOP_FILTER_H
#define VP8_LOOP_FILTER_H

#include <stdbool.h>
#include <stddef.h>
#include <stdint.h>

#ifdef __cplusplus
extern "C" {
#endif

/*
 * What a function that can refuse returns: 0, or the number of its refusal. A refused call changes no lent byte and
 * writes no out-parameter.
 */
enum vp8lf_refusal {
    /* Not refused. */
    VP8LF_OK = 0,
    /* Columns or rows above 1024. */
    VP8LF_GRID_TOO_LARGE = 1,
    /* Luma stride below 16 x columns, chroma stride below 8 x columns, or either above 65536. */
    VP8LF_BAD_STRIDE = 2,
    /* A plane or scratch plane shorter than (rows of samples - 1) x stride + samples a row, counted over the grid. */
    VP8LF_SHORT_PLANE = 3,
    /* A kernel window that does not fit into its slice at its base. */
    VP8LF_NO_WINDOW = 4,
    /* A list whose length is not columns x rows. */
    VP8LF_WRONG_LENGTH = 5,
    /* A mode above 4, a reference above 3 or an inter mode above 5. */
    VP8LF_BAD_ENTRY = 6,
    /* A start above columns x rows. */
    VP8LF_START_TOO_LARGE = 7,
    /* Source width above 16 x columns or height above 16 x rows. */
    VP8LF_SOURCE_TOO_LARGE = 8,
    /* In a source with samples, a stride below the row or above 65536, or a plane too short by the rule of 3. */
    VP8LF_BAD_SOURCE = 9,
    /* An error sum that exceeds 64 bits. */
    VP8LF_SUM_TOO_LARGE = 10
};

/* Numbers (RFC 6386, section 15.2). */

/* v limited to -128..127. */
int8_t vp8lf_clamp_s8(int32_t v);

/* The sample v as a signed number: v - 128. */
int8_t vp8lf_u2s(uint8_t v);

/* The sample of a signed number: v limited to -128..127, plus 128. */
uint8_t vp8lf_s2u(int32_t v);

/* Limits (RFC 6386, section 15.4). */

/* Derives the limits of a macroblock from any level, any sharpness and the key mark. Writes all four out-parameters. */
void vp8lf_derive(uint8_t loop_filter_level, uint8_t sharpness_level, bool key_frame, uint8_t *interior_limit,
                  uint8_t *hev_threshold, uint8_t *mbedge_limit, uint8_t *sub_bedge_limit);

/* The table of interior limits has a row for each sharpness 0 to 7, and in it a byte for each level 0 to 63. */
#define VP8LF_SHARPNESS_LEVELS 8
#define VP8LF_FILTER_LEVELS 64

/*
 * Writes the first bytes of the table of interior limits into the lent buffer, as many as fit, and returns how many:
 * 512 if it has 512 bytes or more. The buffer's other bytes stay. No call is refused; a buffer of length 0 gives 0.
 *
 * The byte at 64 x sharpness + level is the interior limit that vp8lf_derive writes for that level and that sharpness,
 * with either key mark. The passes read the same table for sharpness 0 to 7, and derive the limit above that.
 *
 *     uint8_t limits[VP8LF_SHARPNESS_LEVELS][VP8LF_FILTER_LEVELS];
 *     vp8lf_interior_limits((uint8_t *)limits, sizeof limits);
 *     limits[4][32];    (5, the interior limit of level 32 at sharpness 4)
 */
size_t vp8lf_interior_limits(uint8_t *limits, size_t limits_len);

/*
 * Kernels on one window (RFC 6386, sections 15.2 and 15.3). Each can be refused with VP8LF_NO_WINDOW only.
 *
 * The last three have a test, and write to *passed whether it passed: 1, or 0 if the window was left alone. A window
 * whose test passes may come out as it was.
 */

/*
 * Moves p0 and q0 of a window of four bytes towards each other, and writes what q0 lost to *adjustment. The outer
 * taps p1 and q1 count if use_outer_taps.
 */
uint8_t vp8lf_common_adjust(bool use_outer_taps, uint8_t *seg, size_t seg_len, size_t base, int32_t *adjustment);

/* The simple filter on a window of four bytes: changes at most p0 and q0. */
uint8_t vp8lf_simple_segment(uint8_t edge_limit, uint8_t *seg, size_t seg_len, size_t base, uint8_t *passed);

/* The normal filter of an inner edge on a window of eight bytes: changes at most p1 to q1. */
uint8_t vp8lf_subblock_filter(uint8_t hev_threshold, uint8_t interior_limit, uint8_t edge_limit, uint8_t *seg,
                              size_t seg_len, size_t base, uint8_t *passed);

/* The normal filter of a macroblock edge on a window of eight bytes: changes at most p2 to q2. */
uint8_t vp8lf_mb_filter(uint8_t hev_threshold, uint8_t interior_limit, uint8_t edge_limit, uint8_t *seg,
                        size_t seg_len, size_t base, uint8_t *passed);

/*
 * Levels (RFC 6386, sections 9.3, 9.4 and 20.6).
 *
 * The settings of a frame cross as numbers, always in this order. Every byte and every 16-bit number is accepted.
 *   simple                   the simple filter, else the normal one
 *   key_frame                the key mark: which thresholds a pass derives, in the inter pass too
 *   loop_filter_level        the header's level
 *   sharpness_level          the header's sharpness
 *   segmentation_enabled     whether the segments' levels count
 *   segment_abs              they replace the header's level, else are added to it
 *   segment_level_0 to _3
 *   delta_enabled            whether the deltas below are added
 *   ref_delta_current        added for a macroblock without reference
 *   bpred_mode_delta         and besides for such a macroblock of mode B
 *   ref_delta_last, ref_delta_golden, ref_delta_altref
 *                            added for a macroblock with that reference
 *   zero_mv_mode_delta       and besides for inter mode Zero
 *   other_mv_mode_delta      or for any inter mode but Zero and Split, and for none
 *   split_mv_mode_delta      or for inter mode Split
 *
 * The bytes of a macroblock:
 *   mode         0 Dc, 1 V, 2 H, 3 Tm, 4 B
 *   reference    0 none, 1 Last, 2 Golden, 3 AltRef
 *   inter mode   0 none, 1 Zero, 2 Nearest, 3 Near, 4 New, 5 Split
 *   segment      0 to 3; larger counts as 3, and none is written 0
 *   flag         0 no coefficients, else some
 */

/*
 * Writes the level, 0 to 63, of a macroblock of a key frame to *level. Can be refused with VP8LF_BAD_ENTRY only.
 */
uint8_t vp8lf_calculate_mb_filter_level(bool simple, bool key_frame, uint8_t loop_filter_level,
                                        uint8_t sharpness_level, bool segmentation_enabled, bool segment_abs,
                                        int16_t segment_level_0, int16_t segment_level_1, int16_t segment_level_2,
                                        int16_t segment_level_3, bool delta_enabled, int16_t ref_delta_current,
                                        int16_t bpred_mode_delta, int16_t ref_delta_last, int16_t ref_delta_golden,
                                        int16_t ref_delta_altref, int16_t zero_mv_mode_delta,
                                        int16_t other_mv_mode_delta, int16_t split_mv_mode_delta, uint8_t segment,
                                        uint8_t mode, uint8_t *level);

/*
 * Writes the level, 0 to 63, of a macroblock of an inter frame to *level. Can be refused with VP8LF_BAD_ENTRY only.
 */
uint8_t vp8lf_calculate_mb_filter_level_inter(bool simple, bool key_frame, uint8_t loop_filter_level,
                                              uint8_t sharpness_level, bool segmentation_enabled, bool segment_abs,
                                              int16_t segment_level_0, int16_t segment_level_1,
                                              int16_t segment_level_2, int16_t segment_level_3, bool delta_enabled,
                                              int16_t ref_delta_current, int16_t bpred_mode_delta,
                                              int16_t ref_delta_last, int16_t ref_delta_golden,
                                              int16_t ref_delta_altref, int16_t zero_mv_mode_delta,
                                              int16_t other_mv_mode_delta, int16_t split_mv_mode_delta,
                                              uint8_t segment, uint8_t reference, uint8_t inter_mode, uint8_t mode,
                                              uint8_t *level);

/* Whether any of coeffs_len coefficients is not 0. A macroblock's 400 are in order y2 (16), y (256), u (64), v (64). */
bool vp8lf_mb_has_coeffs(const int16_t *coeffs, size_t coeffs_len);

/*
 * The place, from 0, of the first of coeffs_len coefficients that is not 0, in the same order; coeffs_len if all are 0.
 * Neither of the two functions looks further than that place.
 */
size_t vp8lf_first_coeff(const int16_t *coeffs, size_t coeffs_len);

/*
 * Passes (RFC 6386, section 15.1), which can be halted. A header level of 0 by itself turns nothing off here: a decoder takes
 * the frame calls, below.
 *
 * The grid has mb_cols columns and mb_rows rows of macroblocks, 16 by 16 samples of y and 8 by 8 of u and of v each.
 * Row r of a plane begins at r x its stride. Samples outside the grid never change.
 *
 * Each list has one byte a macroblock, in raster order; the bytes are listed above.
 *
 * A call filters the macroblocks start, start + 1 and so on in raster order, as many as allowance says or as are left.
 * It writes how many it did to *count, and the start to go on from to *next. A macroblock of level 0 counts as done.
 * A call with zero columns or rows does nothing, whatever its other arguments: *count, *next and *smoothed are 0.
 * A start equal to mb_cols x mb_rows is accepted, with none left to do.
 *
 * It writes to *smoothed how many positions it smoothed. A position is one segment across an edge, 16 of them to an edge
 * of y and 8 to one of u or v. It counts if its kernel's test passes on the samples as they are when its turn comes, also
 * if they come out as they were. That is the call's own part: at most 192 for each macroblock done (128 in y, 32 in each
 * of u and v), and 0 for one of level 0. The parts of calls that go on from each other add up to what one call tells.
 *
 * Other calls can be refused, in this order: VP8LF_GRID_TOO_LARGE, VP8LF_BAD_STRIDE, VP8LF_SHORT_PLANE,
 * VP8LF_WRONG_LENGTH, VP8LF_BAD_ENTRY (anywhere in the lists, also where the call does no macroblock),
 * VP8LF_START_TOO_LARGE.
 *
 * A macroblock can reach its own square, 3 columns left of it along its rows, and 3 rows above it along its columns,
 * inside the grid, in each plane. Once the macroblocks before *next are done, each sample that no macroblock from
 * *next on can reach is final.
 */

/* The pass of a key frame. */
uint8_t vp8lf_filter_frame(uint8_t *y, size_t y_len, uint8_t *u, size_t u_len, uint8_t *v, size_t v_len,
                           size_t mb_cols, size_t mb_rows, size_t y_stride, size_t uv_stride, const uint8_t *modes,
                           size_t modes_len, const uint8_t *segments, size_t segments_len, const uint8_t *flags,
                           size_t flags_len, bool simple, bool key_frame, uint8_t loop_filter_level,
                           uint8_t sharpness_level, bool segmentation_enabled, bool segment_abs,
                           int16_t segment_level_0, int16_t segment_level_1, int16_t segment_level_2,
                           int16_t segment_level_3, bool delta_enabled, int16_t ref_delta_current,
                           int16_t bpred_mode_delta, int16_t ref_delta_last, int16_t ref_delta_golden,
                           int16_t ref_delta_altref, int16_t zero_mv_mode_delta, int16_t other_mv_mode_delta,
                           int16_t split_mv_mode_delta, size_t start, size_t allowance, size_t *count, size_t *next,
                           size_t *smoothed);

/* The pass of an inter frame. */
uint8_t vp8lf_filter_inter_frame(uint8_t *y, size_t y_len, uint8_t *u, size_t u_len, uint8_t *v, size_t v_len,
                                 size_t mb_cols, size_t mb_rows, size_t y_stride, size_t uv_stride,
                                 const uint8_t *modes, size_t modes_len, const uint8_t *segments,
                                 size_t segments_len, const uint8_t *flags, size_t flags_len,
                                 const uint8_t *references, size_t references_len, const uint8_t *inter_modes,
                                 size_t inter_modes_len, bool simple, bool key_frame, uint8_t loop_filter_level,
                                 uint8_t sharpness_level, bool segmentation_enabled, bool segment_abs,
                                 int16_t segment_level_0, int16_t segment_level_1, int16_t segment_level_2,
                                 int16_t segment_level_3, bool delta_enabled, int16_t ref_delta_current,
                                 int16_t bpred_mode_delta, int16_t ref_delta_last, int16_t ref_delta_golden,
                                 int16_t ref_delta_altref, int16_t zero_mv_mode_delta, int16_t other_mv_mode_delta,
                                 int16_t split_mv_mode_delta, size_t start, size_t allowance, size_t *count,
                                 size_t *next, size_t *smoothed);

/*
 * Frame calls: the passes, turned off by the frame header.
 *
 * A decoder or a viewer takes these. RFC 6386, section 15, leaves a frame alone if its header level is 0. The passes above
 * do not test that level, as the Rust that they replace does not: where a delta or a segment's level lifts a macroblock
 * above 0, they filter it.
 *
 * With loop_filter_level 0 a frame call changes no sample, and *smoothed is 0; with any other, 64 too, it does what the
 * pass does. It is refused as the pass is, before anything is skipped. Macroblocks that are skipped count as done, so
 * *count and *next are the pass's too, and vp8lf_final_rows counts rows as it does for the pass. What is said of a pass
 * elsewhere in this header holds of a frame call.
 */

/* The frame call of a key frame. */
uint8_t vp8lf_loop_filter_frame(uint8_t *y, size_t y_len, uint8_t *u, size_t u_len, uint8_t *v, size_t v_len,
                                size_t mb_cols, size_t mb_rows, size_t y_stride, size_t uv_stride,
                                const uint8_t *modes, size_t modes_len, const uint8_t *segments, size_t segments_len,
                                const uint8_t *flags, size_t flags_len, bool simple, bool key_frame,
                                uint8_t loop_filter_level, uint8_t sharpness_level, bool segmentation_enabled,
                                bool segment_abs, int16_t segment_level_0, int16_t segment_level_1,
                                int16_t segment_level_2, int16_t segment_level_3, bool delta_enabled,
                                int16_t ref_delta_current, int16_t bpred_mode_delta, int16_t ref_delta_last,
                                int16_t ref_delta_golden, int16_t ref_delta_altref, int16_t zero_mv_mode_delta,
                                int16_t other_mv_mode_delta, int16_t split_mv_mode_delta, size_t start,
                                size_t allowance, size_t *count, size_t *next, size_t *smoothed);

/* The frame call of an inter frame. */
uint8_t vp8lf_loop_filter_inter_frame(uint8_t *y, size_t y_len, uint8_t *u, size_t u_len, uint8_t *v, size_t v_len,
                                      size_t mb_cols, size_t mb_rows, size_t y_stride, size_t uv_stride,
                                      const uint8_t *modes, size_t modes_len, const uint8_t *segments,
                                      size_t segments_len, const uint8_t *flags, size_t flags_len,
                                      const uint8_t *references, size_t references_len, const uint8_t *inter_modes,
                                      size_t inter_modes_len, bool simple, bool key_frame, uint8_t loop_filter_level,
                                      uint8_t sharpness_level, bool segmentation_enabled, bool segment_abs,
                                      int16_t segment_level_0, int16_t segment_level_1, int16_t segment_level_2,
                                      int16_t segment_level_3, bool delta_enabled, int16_t ref_delta_current,
                                      int16_t bpred_mode_delta, int16_t ref_delta_last, int16_t ref_delta_golden,
                                      int16_t ref_delta_altref, int16_t zero_mv_mode_delta,
                                      int16_t other_mv_mode_delta, int16_t split_mv_mode_delta, size_t start,
                                      size_t allowance, size_t *count, size_t *next, size_t *smoothed);

/*
 * Writes how many rows of samples, from the top, are final once the macroblocks before start are done: of y to *luma,
 * of u and of v to *chroma. The strides are not read. Zero columns or rows give 0 and 0. Other calls can be refused,
 * in this order: VP8LF_GRID_TOO_LARGE, VP8LF_START_TOO_LARGE.
 */
uint8_t vp8lf_final_rows(size_t mb_cols, size_t mb_rows, size_t y_stride, size_t uv_stride, size_t start,
                         size_t *luma, size_t *chroma);

/* Error sums and the level search. */

/*
 * Writes to *sum the squared differences between the reconstruction and a source of width x height luma samples, chroma
 * halves rounded up. Width or height 0 sums to 0. Refused, in this order: VP8LF_GRID_TOO_LARGE, VP8LF_BAD_STRIDE,
 * VP8LF_SHORT_PLANE (these three not where columns or rows are 0), VP8LF_SOURCE_TOO_LARGE, VP8LF_BAD_SOURCE,
 * VP8LF_SUM_TOO_LARGE.
 */
uint8_t vp8lf_reconstruction_ssd(const uint8_t *y, size_t y_len, const uint8_t *u, size_t u_len, const uint8_t *v,
                                 size_t v_len, size_t mb_cols, size_t mb_rows, size_t y_stride, size_t uv_stride,
                                 const uint8_t *src_y, size_t src_y_len, const uint8_t *src_u, size_t src_u_len,
                                 const uint8_t *src_v, size_t src_v_len, size_t width, size_t height,
                                 size_t src_y_stride, size_t src_uv_stride, uint64_t *sum);

/*
 * The search for a level and a sharpness. A candidate is scored by the error sum of what one whole key pass leaves of the
 * reconstruction with that level and that sharpness in place of the settings' own. The candidates, in their order:
 *   - level 0, which is the unfiltered reconstruction, whatever the deltas;
 *   - the levels 4, 8 and so on to 60, then 63, at the base sharpness, which is the lesser of sharpness_level and 7;
 *   - the levels within 3 of the best so far, inside 0..63 and upward, at the base sharpness, passing over the level that
 *     is the best at that moment;
 *   - if the best level is not 0, that level at the other sharpness values 0 to 7, upward.
 * Only a strictly smaller sum replaces the best. What is chosen is the best of the candidates tried; a pair that was not
 * tried may have a smaller sum. Level 0 comes with the base sharpness.
 *
 * Writes the chosen pair to *level and *sharpness, and to *count how many candidates were scored at a level above 0, which
 * are 19 to 30. The scratch planes have the reconstruction's strides. Their grid is left as the chosen pair's pass leaves
 * it, for level 0 as an unfiltered copy of the reconstruction; scratch samples outside the grid stay.
 *
 * Zero columns or rows, and lists of wrong length, are answered as if no pass changed anything: level 0, the base
 * sharpness, the count 19, and the unfiltered copy.
 *
 * Refused as the sums are, with the scratch planes held to VP8LF_SHORT_PLANE after the planes; then, if there is a grid
 * and the lists have its length, VP8LF_BAD_ENTRY; VP8LF_SUM_TOO_LARGE comes last.
 */
uint8_t vp8lf_select_filter_params(
    const uint8_t *y, size_t y_len, const uint8_t *u, size_t u_len, const uint8_t *v, size_t v_len, size_t mb_cols,
    size_t mb_rows, size_t y_stride, size_t uv_stride, const uint8_t *src_y, size_t src_y_len, const uint8_t *src_u,
    size_t src_u_len, const uint8_t *src_v, size_t src_v_len, size_t width, size_t height, size_t src_y_stride,
    size_t src_uv_stride, const uint8_t *modes, size_t modes_len, const uint8_t *segments,
    size_t segments_len, const uint8_t *flags, size_t flags_len,
    bool simple, bool key_frame, uint8_t loop_filter_level, uint8_t sharpness_level,
    bool segmentation_enabled, bool segment_abs, int16_t segment_level_0, int16_t segment_level_1,
    int16_t segment_level_2, int16_t segment_level_3, bool delta_enabled, int16_t ref_delta_current,
    int16_t bpred_mode_delta, int16_t ref_delta_last, int16_t ref_delta_golden, int16_t ref_delta_altref,
    int16_t zero_mv_mode_delta, int16_t other_mv_mode_delta, int16_t split_mv_mode_delta,
    uint8_t *scratch_y, size_t scratch_y_len, uint8_t *scratch_u, size_t scratch_u_len, uint8_t *scratch_v,
    size_t scratch_v_len, uint8_t *level, uint8_t *sharpness, size_t *count);

/* The same with the inter pass. */
uint8_t vp8lf_select_filter_params_inter(
    const uint8_t *y, size_t y_len, const uint8_t *u, size_t u_len, const uint8_t *v, size_t v_len, size_t mb_cols,
    size_t mb_rows, size_t y_stride, size_t uv_stride, const uint8_t *src_y, size_t src_y_len, const uint8_t *src_u,
    size_t src_u_len, const uint8_t *src_v, size_t src_v_len, size_t width, size_t height, size_t src_y_stride,
    size_t src_uv_stride, const uint8_t *modes, size_t modes_len, const uint8_t *segments,
    size_t segments_len, const uint8_t *flags, size_t flags_len, const uint8_t *references, size_t references_len,
    const uint8_t *inter_modes, size_t inter_modes_len,
    bool simple, bool key_frame, uint8_t loop_filter_level, uint8_t sharpness_level,
    bool segmentation_enabled, bool segment_abs, int16_t segment_level_0, int16_t segment_level_1,
    int16_t segment_level_2, int16_t segment_level_3, bool delta_enabled, int16_t ref_delta_current,
    int16_t bpred_mode_delta, int16_t ref_delta_last, int16_t ref_delta_golden, int16_t ref_delta_altref,
    int16_t zero_mv_mode_delta, int16_t other_mv_mode_delta, int16_t split_mv_mode_delta,
    uint8_t *scratch_y, size_t scratch_y_len, uint8_t *scratch_u, size_t scratch_u_len, uint8_t *scratch_v,
    size_t scratch_v_len, uint8_t *level, uint8_t *sharpness, size_t *count);

/* The level of the same pair, with the same count, refusals and scratch. */
uint8_t vp8lf_select_filter_level(
    const uint8_t *y, size_t y_len, const uint8_t *u, size_t u_len, const uint8_t *v, size_t v_len, size_t mb_cols,
    size_t mb_rows, size_t y_stride, size_t uv_stride, const uint8_t *src_y, size_t src_y_len, const uint8_t *src_u,
    size_t src_u_len, const uint8_t *src_v, size_t src_v_len, size_t width, size_t height, size_t src_y_stride,
    size_t src_uv_stride, const uint8_t *modes, size_t modes_len, const uint8_t *segments,
    size_t segments_len, const uint8_t *flags, size_t flags_len,
    bool simple, bool key_frame, uint8_t loop_filter_level, uint8_t sharpness_level,
    bool segmentation_enabled, bool segment_abs, int16_t segment_level_0, int16_t segment_level_1,
    int16_t segment_level_2, int16_t segment_level_3, bool delta_enabled, int16_t ref_delta_current,
    int16_t bpred_mode_delta, int16_t ref_delta_last, int16_t ref_delta_golden, int16_t ref_delta_altref,
    int16_t zero_mv_mode_delta, int16_t other_mv_mode_delta, int16_t split_mv_mode_delta,
    uint8_t *scratch_y, size_t scratch_y_len, uint8_t *scratch_u, size_t scratch_u_len, uint8_t *scratch_v,
    size_t scratch_v_len, uint8_t *level, size_t *count);

/* The same with the inter pass. */
uint8_t vp8lf_select_filter_level_inter(
    const uint8_t *y, size_t y_len, const uint8_t *u, size_t u_len, const uint8_t *v, size_t v_len, size_t mb_cols,
    size_t mb_rows, size_t y_stride, size_t uv_stride, const uint8_t *src_y, size_t src_y_len, const uint8_t *src_u,
    size_t src_u_len, const uint8_t *src_v, size_t src_v_len, size_t width, size_t height, size_t src_y_stride,
    size_t src_uv_stride, const uint8_t *modes, size_t modes_len, const uint8_t *segments,
    size_t segments_len, const uint8_t *flags, size_t flags_len, const uint8_t *references, size_t references_len,
    const uint8_t *inter_modes, size_t inter_modes_len,
    bool simple, bool key_frame, uint8_t loop_filter_level, uint8_t sharpness_level,
    bool segmentation_enabled, bool segment_abs, int16_t segment_level_0, int16_t segment_level_1,
    int16_t segment_level_2, int16_t segment_level_3, bool delta_enabled, int16_t ref_delta_current,
    int16_t bpred_mode_delta, int16_t ref_delta_last, int16_t ref_delta_golden, int16_t ref_delta_altref,
    int16_t zero_mv_mode_delta, int16_t other_mv_mode_delta, int16_t split_mv_mode_delta,
    uint8_t *scratch_y, size_t scratch_y_len, uint8_t *scratch_u, size_t scratch_u_len, uint8_t *scratch_v,
    size_t scratch_v_len, uint8_t *level, size_t *count);

/*
 * The full search, for stills: the best of all pairs. The candidates are the unfiltered reconstruction and every level
 * 1 to 63 with every sharpness 0 to 7, 505 in all, each scored as those of the search above. The least sum is chosen; of
 * equal ones the unfiltered reconstruction, then the lower level, then the lower sharpness.
 *
 * Writes the chosen pair to *level and *sharpness and its error sum to *sum, which is at most that of the pair that
 * vp8lf_select_filter_params chooses on the same call. Level 0 is the unfiltered reconstruction, and comes with the base
 * sharpness. The scratch planes are left as the search leaves them for that pair.
 *
 * Zero columns or rows, and lists of wrong length, are answered as if no pass changed anything: level 0, the base
 * sharpness, the sum of the reconstruction, and the unfiltered copy. Refused as the search is, in the same order.
 *
 * A megapixel takes about a second with the normal filter and half a second with the simple one, on one core of an
 * x86-64 machine.
 */
uint8_t vp8lf_full_search(
    const uint8_t *y, size_t y_len, const uint8_t *u, size_t u_len, const uint8_t *v, size_t v_len, size_t mb_cols,
    size_t mb_rows, size_t y_stride, size_t uv_stride, const uint8_t *src_y, size_t src_y_len, const uint8_t *src_u,
    size_t src_u_len, const uint8_t *src_v, size_t src_v_len, size_t width, size_t height, size_t src_y_stride,
    size_t src_uv_stride, const uint8_t *modes, size_t modes_len, const uint8_t *segments,
    size_t segments_len, const uint8_t *flags, size_t flags_len,
    bool simple, bool key_frame, uint8_t loop_filter_level, uint8_t sharpness_level,
    bool segmentation_enabled, bool segment_abs, int16_t segment_level_0, int16_t segment_level_1,
    int16_t segment_level_2, int16_t segment_level_3, bool delta_enabled, int16_t ref_delta_current,
    int16_t bpred_mode_delta, int16_t ref_delta_last, int16_t ref_delta_golden, int16_t ref_delta_altref,
    int16_t zero_mv_mode_delta, int16_t other_mv_mode_delta, int16_t split_mv_mode_delta,
    uint8_t *scratch_y, size_t scratch_y_len, uint8_t *scratch_u, size_t scratch_u_len, uint8_t *scratch_v,
    size_t scratch_v_len, uint8_t *level, uint8_t *sharpness, uint64_t *sum);

/* The same with the inter pass. */
uint8_t vp8lf_full_search_inter(
    const uint8_t *y, size_t y_len, const uint8_t *u, size_t u_len, const uint8_t *v, size_t v_len, size_t mb_cols,
    size_t mb_rows, size_t y_stride, size_t uv_stride, const uint8_t *src_y, size_t src_y_len, const uint8_t *src_u,
    size_t src_u_len, const uint8_t *src_v, size_t src_v_len, size_t width, size_t height, size_t src_y_stride,
    size_t src_uv_stride, const uint8_t *modes, size_t modes_len, const uint8_t *segments,
    size_t segments_len, const uint8_t *flags, size_t flags_len, const uint8_t *references, size_t references_len,
    const uint8_t *inter_modes, size_t inter_modes_len,
    bool simple, bool key_frame, uint8_t loop_filter_level, uint8_t sharpness_level,
    bool segmentation_enabled, bool segment_abs, int16_t segment_level_0, int16_t segment_level_1,
    int16_t segment_level_2, int16_t segment_level_3, bool delta_enabled, int16_t ref_delta_current,
    int16_t bpred_mode_delta, int16_t ref_delta_last, int16_t ref_delta_golden, int16_t ref_delta_altref,
    int16_t zero_mv_mode_delta, int16_t other_mv_mode_delta, int16_t split_mv_mode_delta,
    uint8_t *scratch_y, size_t scratch_y_len, uint8_t *scratch_u, size_t scratch_u_len, uint8_t *scratch_v,
    size_t scratch_v_len, uint8_t *level, uint8_t *sharpness, uint64_t *sum);

/*
 * Structs, and the same calls over them.
 *
 * No struct crosses to the library: these functions are compiled with the caller, and pass its numbers on. Each is named
 * with the function of the library that it calls, answers its refusals, and writes through its last pointer only if it is
 * not refused.
 *
 * A plane or list that is NULL counts as empty, whatever its length says. So a pass over it is refused, with
 * VP8LF_SHORT_PLANE or VP8LF_WRONG_LENGTH.
 */

/* What the bytes of a macroblock stand for. */
enum vp8lf_mode { VP8LF_MODE_DC, VP8LF_MODE_V, VP8LF_MODE_H, VP8LF_MODE_TM, VP8LF_MODE_B };

enum vp8lf_reference {
    VP8LF_REFERENCE_NONE,
    VP8LF_REFERENCE_LAST,
    VP8LF_REFERENCE_GOLDEN,
    VP8LF_REFERENCE_ALTREF
};

enum vp8lf_inter_mode {
    VP8LF_INTER_MODE_NONE,
    VP8LF_INTER_MODE_ZERO,
    VP8LF_INTER_MODE_NEAREST,
    VP8LF_INTER_MODE_NEAR,
    VP8LF_INTER_MODE_NEW,
    VP8LF_INTER_MODE_SPLIT
};

/*
 * A picture. It is made by vp8lf_planes_of alone: later versions may add fields. A call that takes a pointer to const
 * does not write its samples.
 */
struct vp8lf_planes {
    uint8_t *y, *u, *v;
    size_t y_len, u_len, v_len;
    size_t mb_cols, mb_rows;
    size_t y_stride, uv_stride;
};

/* The settings of a frame, as they are listed above. What an initialiser leaves out is 0. */
struct vp8lf_settings {
    bool simple;
    bool key_frame;
    uint8_t loop_filter_level;
    uint8_t sharpness_level;
    bool segmentation_enabled;
    bool segment_abs;
    int16_t segment_level[4];
    bool delta_enabled;
    int16_t ref_delta_current;
    int16_t bpred_mode_delta;
    int16_t ref_delta_last;
    int16_t ref_delta_golden;
    int16_t ref_delta_altref;
    int16_t zero_mv_mode_delta;
    int16_t other_mv_mode_delta;
    int16_t split_mv_mode_delta;
};

/* One byte a macroblock in each list, in raster order. Calls without _inter in their name read the first three alone. */
struct vp8lf_lists {
    const uint8_t *modes;
    const uint8_t *segments;
    const uint8_t *flags;
    const uint8_t *references;
    const uint8_t *inter_modes;
    /* The length of each list. */
    size_t len;
};

/* The picture that a reconstruction is measured against. Width and height are in luma samples. */
struct vp8lf_source {
    const uint8_t *y, *u, *v;
    size_t y_len, u_len, v_len;
    size_t width, height;
    size_t y_stride, uv_stride;
};

/* Three planes for a search to work in, with the strides of the reconstruction. */
struct vp8lf_scratch {
    uint8_t *y, *u, *v;
    size_t y_len, u_len, v_len;
};

/* How many macroblocks a call did, the start to go on from, and how many positions the call smoothed. */
struct vp8lf_done {
    size_t count, next, smoothed;
};

/* Rows of samples, from the top: of y, and of u and of v. */
struct vp8lf_rows {
    size_t luma, chroma;
};

/* What a search chose, and how many candidates it scored at a level above 0. */
struct vp8lf_choice {
    uint8_t level, sharpness;
    size_t count;
};

/* What a full search chose, and its error sum. */
struct vp8lf_best {
    uint8_t level, sharpness;
    uint64_t sum;
};

/* A slice as two arguments: NULL has length 0. */
#define VP8LF_SLICE(pointer, len) (pointer), ((pointer) == NULL ? 0 : (len))
#define VP8LF_PLANES(p) \
    VP8LF_SLICE((p)->y, (p)->y_len), VP8LF_SLICE((p)->u, (p)->u_len), VP8LF_SLICE((p)->v, (p)->v_len)
#define VP8LF_GRID(p) (p)->mb_cols, (p)->mb_rows, (p)->y_stride, (p)->uv_stride
#define VP8LF_SOURCE(s) VP8LF_PLANES(s), (s)->width, (s)->height, (s)->y_stride, (s)->uv_stride
#define VP8LF_LISTS(l) \
    VP8LF_SLICE((l)->modes, (l)->len), VP8LF_SLICE((l)->segments, (l)->len), VP8LF_SLICE((l)->flags, (l)->len)
#define VP8LF_INTER_LISTS(l) \
    VP8LF_LISTS(l), VP8LF_SLICE((l)->references, (l)->len), VP8LF_SLICE((l)->inter_modes, (l)->len)
#define VP8LF_SETTINGS(s) \
    (s)->simple, (s)->key_frame, (s)->loop_filter_level, (s)->sharpness_level, (s)->segmentation_enabled, \
        (s)->segment_abs, (s)->segment_level[0], (s)->segment_level[1], (s)->segment_level[2], \
        (s)->segment_level[3], (s)->delta_enabled, (s)->ref_delta_current, (s)->bpred_mode_delta, \
        (s)->ref_delta_last, (s)->ref_delta_golden, (s)->ref_delta_altref, (s)->zero_mv_mode_delta, \
        (s)->other_mv_mode_delta, (s)->split_mv_mode_delta

/* What a refusal number means. */
static inline const char *vp8lf_refusal_text(uint8_t number)
{
    static const char *const texts[] = {
        "not refused",
        "columns or rows above 1024",
        "a luma stride below 16 x columns, a chroma stride below 8 x columns, or either above 65536",
        "a plane or scratch plane that is too short for the grid",
        "a window that does not fit into its slice at its base",
        "a list whose length is not columns x rows",
        "a mode above 4, a reference above 3 or an inter mode above 5",
        "a start above columns x rows",
        "a source wider than 16 x columns or higher than 16 x rows",
        "a source stride below its row or above 65536, or a source plane that is too short",
        "an error sum that exceeds 64 bits",
    };
    return number < sizeof texts / sizeof texts[0] ? texts[number] : "a number that is no refusal of this library";
}

/* A picture of these planes, in the order in which the functions of the library take them. */
static inline struct vp8lf_planes vp8lf_planes_of(uint8_t *y, size_t y_len, uint8_t *u, size_t u_len, uint8_t *v,
                                                  size_t v_len, size_t mb_cols, size_t mb_rows, size_t y_stride,
                                                  size_t uv_stride)
{
    struct vp8lf_planes planes;
    planes.y = y;
    planes.u = u;
    planes.v = v;
    planes.y_len = y_len;
    planes.u_len = u_len;
    planes.v_len = v_len;
    planes.mb_cols = mb_cols;
    planes.mb_rows = mb_rows;
    planes.y_stride = y_stride;
    planes.uv_stride = uv_stride;
    return planes;
}

/* vp8lf_calculate_mb_filter_level */
static inline uint8_t vp8lf_level(const struct vp8lf_settings *settings, uint8_t segment, uint8_t mode, uint8_t *level)
{
    return vp8lf_calculate_mb_filter_level(VP8LF_SETTINGS(settings), segment, mode, level);
}

/* vp8lf_calculate_mb_filter_level_inter */
static inline uint8_t vp8lf_level_inter(const struct vp8lf_settings *settings, uint8_t segment, uint8_t reference,
                                        uint8_t inter_mode, uint8_t mode, uint8_t *level)
{
    return vp8lf_calculate_mb_filter_level_inter(VP8LF_SETTINGS(settings), segment, reference, inter_mode, mode,
                                                 level);
}

/* vp8lf_filter_frame, which writes the planes. */
static inline uint8_t vp8lf_filter(struct vp8lf_planes *planes, const struct vp8lf_lists *lists,
                                   const struct vp8lf_settings *settings, size_t start, size_t allowance,
                                   struct vp8lf_done *done)
{
    return vp8lf_filter_frame(VP8LF_PLANES(planes), VP8LF_GRID(planes), VP8LF_LISTS(lists), VP8LF_SETTINGS(settings),
                              start, allowance, &done->count, &done->next, &done->smoothed);
}

/* vp8lf_filter_inter_frame, which writes the planes. */
static inline uint8_t vp8lf_filter_inter(struct vp8lf_planes *planes, const struct vp8lf_lists *lists,
                                         const struct vp8lf_settings *settings, size_t start, size_t allowance,
                                         struct vp8lf_done *done)
{
    return vp8lf_filter_inter_frame(VP8LF_PLANES(planes), VP8LF_GRID(planes), VP8LF_INTER_LISTS(lists),
                                    VP8LF_SETTINGS(settings), start, allowance, &done->count, &done->next,
                                    &done->smoothed);
}

/* vp8lf_loop_filter_frame, which writes the planes. */
static inline uint8_t vp8lf_loop_filter(struct vp8lf_planes *planes, const struct vp8lf_lists *lists,
                                        const struct vp8lf_settings *settings, size_t start, size_t allowance,
                                        struct vp8lf_done *done)
{
    return vp8lf_loop_filter_frame(VP8LF_PLANES(planes), VP8LF_GRID(planes), VP8LF_LISTS(lists),
                                   VP8LF_SETTINGS(settings), start, allowance, &done->count, &done->next,
                                   &done->smoothed);
}

/* vp8lf_loop_filter_inter_frame, which writes the planes. */
static inline uint8_t vp8lf_loop_filter_inter(struct vp8lf_planes *planes, const struct vp8lf_lists *lists,
                                              const struct vp8lf_settings *settings, size_t start, size_t allowance,
                                              struct vp8lf_done *done)
{
    return vp8lf_loop_filter_inter_frame(VP8LF_PLANES(planes), VP8LF_GRID(planes), VP8LF_INTER_LISTS(lists),
                                         VP8LF_SETTINGS(settings), start, allowance, &done->count, &done->next,
                                         &done->smoothed);
}

/* vp8lf_final_rows, which reads the grid alone: a picture whose strides or planes are refused elsewhere is answered. */
static inline uint8_t vp8lf_rows_final(const struct vp8lf_planes *planes, size_t start, struct vp8lf_rows *rows)
{
    return vp8lf_final_rows(VP8LF_GRID(planes), start, &rows->luma, &rows->chroma);
}

/* vp8lf_reconstruction_ssd, which writes neither picture. */
static inline uint8_t vp8lf_error_sum(const struct vp8lf_planes *planes, const struct vp8lf_source *source,
                                      uint64_t *sum)
{
    return vp8lf_reconstruction_ssd(VP8LF_PLANES(planes), VP8LF_GRID(planes), VP8LF_SOURCE(source), sum);
}

/* vp8lf_select_filter_params, which writes scratch and neither picture. */
static inline uint8_t vp8lf_search(const struct vp8lf_planes *planes, const struct vp8lf_source *source,
                                   const struct vp8lf_lists *lists, const struct vp8lf_settings *settings,
                                   struct vp8lf_scratch *scratch, struct vp8lf_choice *choice)
{
    return vp8lf_select_filter_params(VP8LF_PLANES(planes), VP8LF_GRID(planes), VP8LF_SOURCE(source),
                                      VP8LF_LISTS(lists), VP8LF_SETTINGS(settings), VP8LF_PLANES(scratch),
                                      &choice->level, &choice->sharpness, &choice->count);
}

/* vp8lf_select_filter_params_inter, which writes scratch and neither picture. */
static inline uint8_t vp8lf_search_inter(const struct vp8lf_planes *planes, const struct vp8lf_source *source,
                                         const struct vp8lf_lists *lists, const struct vp8lf_settings *settings,
                                         struct vp8lf_scratch *scratch, struct vp8lf_choice *choice)
{
    return vp8lf_select_filter_params_inter(VP8LF_PLANES(planes), VP8LF_GRID(planes), VP8LF_SOURCE(source),
                                            VP8LF_INTER_LISTS(lists), VP8LF_SETTINGS(settings), VP8LF_PLANES(scratch),
                                            &choice->level, &choice->sharpness, &choice->count);
}

/* vp8lf_select_filter_level, which writes scratch and neither picture. The sharpness of the choice stays as it is. */
static inline uint8_t vp8lf_search_level(const struct vp8lf_planes *planes, const struct vp8lf_source *source,
                                         const struct vp8lf_lists *lists, const struct vp8lf_settings *settings,
                                         struct vp8lf_scratch *scratch, struct vp8lf_choice *choice)
{
    return vp8lf_select_filter_level(VP8LF_PLANES(planes), VP8LF_GRID(planes), VP8LF_SOURCE(source),
                                     VP8LF_LISTS(lists), VP8LF_SETTINGS(settings), VP8LF_PLANES(scratch),
                                     &choice->level, &choice->count);
}

/* vp8lf_select_filter_level_inter, which writes scratch and neither picture. The sharpness of the choice stays as it is. */
static inline uint8_t vp8lf_search_level_inter(const struct vp8lf_planes *planes, const struct vp8lf_source *source,
                                               const struct vp8lf_lists *lists, const struct vp8lf_settings *settings,
                                               struct vp8lf_scratch *scratch, struct vp8lf_choice *choice)
{
    return vp8lf_select_filter_level_inter(VP8LF_PLANES(planes), VP8LF_GRID(planes), VP8LF_SOURCE(source),
                                           VP8LF_INTER_LISTS(lists), VP8LF_SETTINGS(settings), VP8LF_PLANES(scratch),
                                           &choice->level, &choice->count);
}

/* vp8lf_full_search, which writes scratch and neither picture. */
static inline uint8_t vp8lf_search_full(const struct vp8lf_planes *planes, const struct vp8lf_source *source,
                                        const struct vp8lf_lists *lists, const struct vp8lf_settings *settings,
                                        struct vp8lf_scratch *scratch, struct vp8lf_best *best)
{
    return vp8lf_full_search(VP8LF_PLANES(planes), VP8LF_GRID(planes), VP8LF_SOURCE(source), VP8LF_LISTS(lists),
                             VP8LF_SETTINGS(settings), VP8LF_PLANES(scratch), &best->level, &best->sharpness,
                             &best->sum);
}

/* vp8lf_full_search_inter, which writes scratch and neither picture. */
static inline uint8_t vp8lf_search_full_inter(const struct vp8lf_planes *planes, const struct vp8lf_source *source,
                                              const struct vp8lf_lists *lists, const struct vp8lf_settings *settings,
                                              struct vp8lf_scratch *scratch, struct vp8lf_best *best)
{
    return vp8lf_full_search_inter(VP8LF_PLANES(planes), VP8LF_GRID(planes), VP8LF_SOURCE(source),
                                   VP8LF_INTER_LISTS(lists), VP8LF_SETTINGS(settings), VP8LF_PLANES(scratch),
                                   &best->level, &best->sharpness, &best->sum);
}

#undef VP8LF_SLICE
#undef VP8LF_PLANES
#undef VP8LF_GRID
#undef VP8LF_SOURCE
#undef VP8LF_LISTS
#undef VP8LF_INTER_LISTS
#undef VP8LF_SETTINGS

#ifdef __cplusplus
}
#endif

#endif
