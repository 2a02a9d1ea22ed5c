/*
 * film_test FILM.vplf: filters each frame of a film (host/film/README.md has the format) and holds it to the recorded
 * result: in one call, row by row, and seven macroblocks a call, by the pass and by the frame call. Between two calls
 * one that is refused changes nothing, and the rows that are final are already the result's. A frame call leaves a
 * frame alone whose header turns the filter off. How many such frames the pass filters is printed. However a frame is
 * cut into calls, their positions smoothed add up to the same; those of the frame calls are printed.
 */
#include "passes.h"

#include <stdio.h>
#include <stdlib.h>
#include <string.h>

enum { HEADER = 64, MACROBLOCK = 6 + 2 * 384 };

static unsigned frames, runs, left_alone, lifted;
/* Of the frame calls, each frame once. */
static unsigned long smoothed_in_all;
static const char *by = "";
static uint64_t sum = 0xCBF29CE484222325u;

static void fail(const char *what)
{
    printf("film: frame %u%s: %s\n", frames, by, what);
    exit(1);
}

/* FNV-1a, so that two processors can be held to each other by one line. */
static void add_to_sum(const uint8_t *bytes, size_t len)
{
    for (size_t i = 0; i < len; i++)
        sum = (sum ^ bytes[i]) * 0x100000001B3u;
}

static unsigned number(const uint8_t *at)
{
    return at[0] | (unsigned)at[1] << 8;
}

static int16_t signed_number(const uint8_t *at)
{
    int value = (int)number(at);
    return (int16_t)(value < 32768 ? value : value - 65536);
}

static struct settings read_settings(const uint8_t *header)
{
    /* The film has the reference deltas, then the mode deltas: B first. */
    static const int places[8] = {36, 44, 38, 40, 42, 46, 48, 50};
    struct settings s = {header[20] != 0, header[23] != 0, header[21], header[22],
                         header[24] != 0, header[25] != 0, header[26] != 0, {0}, {0}};
    for (int i = 0; i < 8; i++) {
        s.delta[i] = signed_number(header + places[i]);
        s.segments[i / 2] = signed_number(header + 28 + i / 2 * 2);
    }
    return s;
}

/* A frame of the film, its planes one after the other; what the filter adds to them stands behind them. */
struct recorded {
    struct frame frame;
    size_t n;
    const uint8_t *before, *added;
    uint8_t *samples, *after;
    /* The header level is 0, and the decoder of the RFC left the frame as it was. */
    bool turned_off;
};

static struct recorded read_frame(const uint8_t *bytes, size_t left)
{
    if (left < HEADER || memcmp(bytes, "VPLF\1\0\100\0", 8) != 0)
        fail("no header");
    size_t columns = number(bytes + 12), rows = number(bytes + 14), n = columns * rows;
    if (columns < 1 || columns > 1024 || rows < 1 || rows > 1024 || left - HEADER < MACROBLOCK * n)
        fail("its grid is no grid, or its bytes are not all there");
    const uint8_t *lists = bytes + HEADER;
    struct recorded r = {.n = n, .before = lists + 6 * n, .added = lists + 390 * n, .turned_off = bytes[56] != 0};
    r.samples = malloc(2 * 384 * n);
    if (r.samples == NULL)
        fail("no memory");
    r.after = r.samples + 384 * n;
    /* The film's lists: mode, reference, inter mode, segment, a flag that is not used here, flag. */
    r.frame = (struct frame){
        {r.samples, r.samples + 256 * n, r.samples + 320 * n}, {256 * n, 64 * n, 64 * n}, columns, rows,
        16 * columns, 8 * columns, {lists, lists + 3 * n, lists + 5 * n, lists + n, lists + 2 * n}, n,
        read_settings(bytes)};
    for (size_t i = 0; i < 384 * n; i++)
        r.after[i] = (uint8_t)(r.before[i] + r.added[i]);
    return r;
}

/* What the pass or the frame call leaves of a frame. */
static const uint8_t *result(const struct recorded *r, bool frame_call)
{
    return frame_call && r->turned_off ? r->before : r->after;
}

/* A start behind the last macroblock is refused; nothing changes. The copy is as long as the samples. */
static void refused_call(const struct recorded *r, bool frame_call, bool inter, uint8_t *copy)
{
    size_t count = 77, next = 78, smoothed = 79;
    memcpy(copy, r->samples, 384 * r->n);
    if (run_pass(frame_call, inter, &r->frame, r->n + 1, 1, &count, &next, &smoothed) != VP8LF_START_TOO_LARGE)
        fail("a start behind the last macroblock is not refused");
    if (count != 77 || next != 78 || smoothed != 79 || memcmp(copy, r->samples, 384 * r->n) != 0)
        fail("a refused call changed something");
}

/* The rows that are final are the result's; at the end all are. */
static void final_rows(const struct recorded *r, const uint8_t *left, size_t next)
{
    size_t luma = 0, chroma = 0, columns = r->frame.columns, n = r->n;
    if (vp8lf_final_rows(columns, r->frame.rows, 16 * columns, 8 * columns, next, &luma, &chroma) != VP8LF_OK)
        fail("final rows are refused");
    if (next == n && (luma != 16 * r->frame.rows || chroma != 8 * r->frame.rows))
        fail("rows are not final at the end");
    if (memcmp(r->samples, left, luma * 16 * columns) != 0
        || memcmp(r->samples + 256 * n, left + 256 * n, chroma * 8 * columns) != 0
        || memcmp(r->samples + 320 * n, left + 320 * n, chroma * 8 * columns) != 0)
        fail("a row that is final is not the result's");
}

/* One run over a frame, so many macroblocks a call. Answers how many positions were smoothed. */
static size_t run(const struct recorded *r, bool frame_call, size_t allowance, uint8_t *copy)
{
    const uint8_t *left = result(r, frame_call);
    bool inter = !r->frame.settings.key_frame;
    size_t count = 0, next = 0, smoothed = 0, total = 0;
    by = frame_call ? ", by the frame call" : ", by the pass";
    memcpy(r->samples, r->before, 384 * r->n);
    while (next < r->n) {
        size_t start = next, due = r->n - start < allowance ? r->n - start : allowance;
        if (run_pass(frame_call, inter, &r->frame, start, allowance, &count, &next, &smoothed) != VP8LF_OK)
            fail("refused");
        if (count != due || next != start + due)
            fail("another number of macroblocks was done");
        if (smoothed > 192 * count || (smoothed > 0 && left == r->before))
            fail("more positions smoothed than there are, or in a frame that is left alone");
        total += smoothed;
        refused_call(r, frame_call, inter, copy);
        final_rows(r, left, next);
    }
    add_to_sum(r->samples, 384 * r->n);
    if (memcmp(r->samples, left, 384 * r->n) != 0)
        fail("another result than the recorded one");
    runs++;
    by = "";
    return total;
}

/* Filters the first frame of the bytes, and answers its length. */
static size_t filter(const uint8_t *bytes, size_t left)
{
    struct recorded r = read_frame(bytes, left);
    uint8_t *copy = malloc(384 * r.n);
    if (copy == NULL)
        fail("no memory");
    for (int frame_call = 0; frame_call < 2; frame_call++) {
        size_t smoothed = run(&r, frame_call == 1, r.n, copy);
        if (run(&r, frame_call == 1, r.frame.columns, copy) != smoothed || run(&r, frame_call == 1, 7, copy) != smoothed)
            fail("the positions smoothed do not add up");
        smoothed_in_all += frame_call == 1 ? smoothed : 0;
    }
    left_alone += r.turned_off;
    lifted += r.turned_off && memcmp(r.before, r.after, 384 * r.n) != 0;
    free(copy);
    free(r.samples);
    return HEADER + MACROBLOCK * r.n;
}

static uint8_t *read_file(const char *path, size_t *len)
{
    FILE *file = fopen(path, "rb");
    if (file == NULL || fseek(file, 0, SEEK_END) != 0)
        return NULL;
    long end = ftell(file);
    rewind(file);
    uint8_t *bytes = end > 0 ? malloc((size_t)end) : NULL;
    *len = bytes == NULL ? 0 : fread(bytes, 1, (size_t)end, file);
    fclose(file);
    return bytes != NULL && *len == (size_t)end ? bytes : NULL;
}

int main(int argc, char **argv)
{
    size_t len = 0;
    uint8_t *bytes = argc == 2 ? read_file(argv[1], &len) : NULL;
    if (bytes == NULL) {
        fprintf(stderr, "usage: film_test FILM.vplf, a file that can be read\n");
        return 2;
    }
    for (size_t at = 0; at < len; frames++)
        at += filter(bytes + at, len - at);
    free(bytes);
    printf("film: %u frames, %u runs, all equal; frame calls left %u frames alone, %u of them filtered by the pass; "
           "%lu positions smoothed; sum %08lx%08lx\n",
           frames, runs, left_alone, lifted, smoothed_in_all, (unsigned long)(sum >> 32),
           (unsigned long)(sum & 0xFFFFFFFFu));
    return 0;
}
