/* The passes and the frame calls with their arguments in records, for the programs that replay recordings. */
#ifndef PASSES_H
#define PASSES_H

#include "vp8_loop_filter.h"

struct settings {
    bool simple, key_frame;
    uint8_t level, sharpness;
    bool segmentation, segment_abs, deltas;
    /* The segments' levels; then current, B, Last, Golden, AltRef, Zero, other, Split. */
    int16_t segments[4], delta[8];
};

#define SETTINGS(s)                                                                                                 \
    (s).simple, (s).key_frame, (s).level, (s).sharpness, (s).segmentation, (s).segment_abs, (s).segments[0],       \
        (s).segments[1], (s).segments[2], (s).segments[3], (s).deltas, (s).delta[0], (s).delta[1], (s).delta[2],   \
        (s).delta[3], (s).delta[4], (s).delta[5], (s).delta[6], (s).delta[7]

/* A frame to be filtered: its planes, their grid, and the lists, which are modes, segments, flags, references, inter modes. */
struct frame {
    uint8_t *planes[3];
    size_t lengths[3];
    size_t columns, rows, y_stride, uv_stride;
    const uint8_t *lists[5];
    size_t listed;
    struct settings settings;
};

#define PLANES(f)                                                                                                   \
    (f)->planes[0], (f)->lengths[0], (f)->planes[1], (f)->lengths[1], (f)->planes[2], (f)->lengths[2],             \
        (f)->columns, (f)->rows, (f)->y_stride, (f)->uv_stride
#define KEY_LISTS(f) (f)->lists[0], (f)->listed, (f)->lists[1], (f)->listed, (f)->lists[2], (f)->listed
#define INTER_LISTS(f) KEY_LISTS(f), (f)->lists[3], (f)->listed, (f)->lists[4], (f)->listed

/* The pass of a frame, or its frame call. */
static uint8_t run_pass(bool frame_call, bool inter, const struct frame *f, size_t start, size_t allowance,
                        size_t *count, size_t *next, size_t *smoothed)
{
    if (inter)
        return (frame_call ? vp8lf_loop_filter_inter_frame : vp8lf_filter_inter_frame)(
            PLANES(f), INTER_LISTS(f), SETTINGS(f->settings), start, allowance, count, next, smoothed);
    return (frame_call ? vp8lf_loop_filter_frame : vp8lf_filter_frame)(
        PLANES(f), KEY_LISTS(f), SETTINGS(f->settings), start, allowance, count, next, smoothed);
}

#endif
