/*
 * Filters a small picture, one row of macroblocks a call, and sends on the rows that are final after each call.
 * It makes the frame call, as a viewer should: that leaves a frame alone if its header level is 0, as RFC 6386 asks.
 *
 *     cc -std=c99 -Wall -Wextra -Werror -Iinclude examples/filter.c target/staticlib/libloop_filter.a -o target/filter
 */
#include "vp8_loop_filter.h"

#include <stdio.h>
#include <string.h>

/* 3 x 2 macroblocks, in planes without padding. */
enum { COLUMNS = 3, ROWS = 2, Y_STRIDE = 16 * COLUMNS, UV_STRIDE = 8 * COLUMNS };

static uint8_t y[16 * ROWS * Y_STRIDE], u[8 * ROWS * UV_STRIDE], v[8 * ROWS * UV_STRIDE];

/* What went down the line: rows of luma, and rows of each chroma plane. And how many positions were smoothed. */
static uint8_t sent_y[sizeof y];
static struct vp8lf_rows sent;
static size_t smoothed;

/* Stands for the decoder: macroblocks of 100, 108 and 100 side by side, grey chroma. */
static void decode(void)
{
    for (size_t i = 0; i < sizeof y; i++)
        y[i] = i % Y_STRIDE / 16 == 1 ? 108 : 100;
    memset(u, 128, sizeof u);
    memset(v, 128, sizeof v);
}

/* Sends the rows that are final and not yet sent, and tells how many positions the call smoothed. */
static void send_down(struct vp8lf_rows final, size_t part)
{
    size_t from = sent.luma * Y_STRIDE, to = final.luma * Y_STRIDE;
    memcpy(sent_y + from, y + from, to - from);
    printf("luma rows %zu to %zu and chroma rows %zu to %zu are final, %zu positions smoothed\n", sent.luma, final.luma,
           sent.chroma, final.chroma, part);
    sent = final;
    smoothed += part;
}

static uint8_t filter(void)
{
    static const uint8_t modes[COLUMNS * ROWS], segments[COLUMNS * ROWS], flags[COLUMNS * ROWS];
    /* README: from here */
    struct vp8lf_planes planes =
        vp8lf_planes_of(y, sizeof y, u, sizeof u, v, sizeof v, COLUMNS, ROWS, Y_STRIDE, UV_STRIDE);
    struct vp8lf_lists lists = {.modes = modes, .segments = segments, .flags = flags, .len = COLUMNS * ROWS};
    struct vp8lf_settings settings = {.key_frame = true, .loop_filter_level = 24};
    struct vp8lf_done done = {.next = 0};
    while (done.next < lists.len) {             /* one row of macroblocks a call */
        struct vp8lf_rows final;
        uint8_t refusal = vp8lf_loop_filter(&planes, &lists, &settings, done.next, COLUMNS, &done);
        if (refusal == VP8LF_OK)
            refusal = vp8lf_rows_final(&planes, done.next, &final);
        if (refusal != VP8LF_OK)
            return refusal;                     /* vp8lf_refusal_text says why; nothing has changed */
        send_down(final, done.smoothed);        /* these rows will not change any more */
    }
    /* README: to here */
    return VP8LF_OK;
}

/* A call that is refused: the luma plane comes a byte short. */
static uint8_t filter_short_plane(void)
{
    static const uint8_t zeros[COLUMNS * ROWS];
    struct vp8lf_planes planes =
        vp8lf_planes_of(y, sizeof y - 1, u, sizeof u, v, sizeof v, COLUMNS, ROWS, Y_STRIDE, UV_STRIDE);
    struct vp8lf_lists lists = {.modes = zeros, .segments = zeros, .flags = zeros, .len = COLUMNS * ROWS};
    struct vp8lf_settings settings = {.key_frame = true, .loop_filter_level = 24};
    struct vp8lf_done done;
    return vp8lf_loop_filter(&planes, &lists, &settings, 0, COLUMNS * ROWS, &done);
}

int main(void)
{
    /* Both sides of the edge between the first two macroblocks: figure K of the scope paper. */
    static const uint8_t smooth[8] = {100, 101, 102, 103, 105, 106, 107, 108};
    uint8_t refusal;

    decode();
    refusal = filter_short_plane();
    printf("a short plane is refused with %d: %s\n", refusal, vp8lf_refusal_text(refusal));
    if (refusal != VP8LF_SHORT_PLANE)
        return 1;

    refusal = filter();
    if (refusal != VP8LF_OK) {
        printf("refused with %d: %s\n", refusal, vp8lf_refusal_text(refusal));
        return 1;
    }
    printf("the first edge:");
    for (size_t i = 12; i < 20; i++)
        printf(" %d", sent_y[i]);
    printf("\n");
    if (sent.luma != 16 * ROWS || sent.chroma != 8 * ROWS || memcmp(sent_y, y, sizeof y) != 0)
        return 1;
    /* All positions of the four left and the three top edges: 16 in luma, 8 in each chroma plane. */
    if (smoothed != 7 * (16 + 8 + 8))
        return 1;
    return memcmp(sent_y + 12, smooth, sizeof smooth) == 0 ? 0 : 1;
}
