/*
 * Replays the recorded calls of crates/replay and crates/replay_search, whose files stdin it reads one after the
 * other, through the C functions: each must answer and leave what the Rust answered and left, or document 01's
 * refusal. host/replay/src writes the records, section by section. Where that program calls a function that takes
 * records of macroblocks, this one calls the function over byte lists. The frame call is made on the call of each
 * pass too; at header level 0 it leaves the planes as they were. A full search, which is not recorded, is made on the
 * call of each search.
 */
#include "passes.h"

#include <stdio.h>
#include <stdlib.h>
#include <string.h>

static uint8_t input[1 << 20];
static size_t at, end;
static const char *section;
static unsigned record, calls;

static void fail(const char *what)
{
    printf("calls: %s, record %u: %s\n", section, record, what);
    exit(1);
}

static void expect(bool as_recorded, const char *what)
{
    if (!as_recorded)
        fail(what);
}

static const uint8_t *take(size_t len)
{
    if (len > end - at)
        fail("the recording ends");
    at += len;
    return input + at - len;
}

static uint8_t byte(void)
{
    return *take(1);
}

static uint32_t number(size_t len)
{
    const uint8_t *bytes = take(len);
    uint32_t value = 0;
    for (size_t i = 0; i < len; i++)
        value |= (uint32_t)bytes[i] << 8 * i;
    return value;
}

/* The largest number of four bytes stands for the largest size. */
static size_t size(void)
{
    uint32_t value = number(4);
    return value == UINT32_MAX ? SIZE_MAX : value;
}

/* Signed numbers are written with half their range added. */
static int32_t signed32(void)
{
    return (int32_t)((int64_t)number(4) - 2147483648LL);
}

static int16_t signed16(void)
{
    return (int16_t)((int32_t)number(2) - 32768);
}

static int8_t signed8(void)
{
    return (int8_t)(byte() - 128);
}

static struct settings settings(void)
{
    const uint8_t *b = take(7);
    struct settings s = {b[0] != 0, b[1] != 0, b[2], b[3], b[4] != 0, b[5] != 0, b[6] != 0, {0}, {0}};
    for (int i = 0; i < 12; i++)
        *(i < 4 ? &s.segments[i] : &s.delta[i - 4]) = signed16();
    return s;
}

static void clamp_s8(void)
{
    int32_t v = signed32();
    expect(vp8lf_clamp_s8(v) == signed8(), "the answer");
}

static void u2s(void)
{
    uint8_t v = byte();
    expect(vp8lf_u2s(v) == signed8(), "the answer");
}

static void s2u(void)
{
    int32_t v = signed32();
    expect(vp8lf_s2u(v) == byte(), "the answer");
}

static void derive(void)
{
    const uint8_t *b = take(3);
    uint8_t limits[4];
    vp8lf_derive(b[0], b[1], b[2] != 0, &limits[0], &limits[1], &limits[2], &limits[3]);
    expect(memcmp(limits, take(4), 4) == 0, "the limits");
}

static void common_adjust(void)
{
    bool outer = byte() != 0;
    size_t base = size();
    uint8_t refusal = byte(), seg[16];
    int32_t by = signed32(), adjustment = 77;
    memcpy(seg, take(16), 16);
    expect(vp8lf_common_adjust(outer, seg, 16, base, &adjustment) == refusal, "the refusal");
    expect(adjustment == (refusal ? 77 : by), "the adjustment");
    expect(memcmp(seg, take(16), 16) == 0, "the samples");
}

/* A refused call leaves the byte, which was 77. What changes has passed its test. */
static bool tells(uint8_t refusal, uint8_t passed, const uint8_t before[16], const uint8_t after[16])
{
    if (refusal != 0)
        return passed == 77;
    return passed == 1 || (passed == 0 && memcmp(before, after, 16) == 0);
}

static void simple_segment(void)
{
    uint8_t limit = byte(), seg[16], before[16], passed = 77;
    size_t base = size();
    uint8_t refusal = byte();
    memcpy(seg, take(16), 16);
    memcpy(before, seg, 16);
    expect(vp8lf_simple_segment(limit, seg, 16, base, &passed) == refusal, "the refusal");
    expect(memcmp(seg, take(16), 16) == 0, "the samples");
    expect(tells(refusal, passed, before, seg), "whether the test passed");
}

static void normal(uint8_t (*kernel)(uint8_t, uint8_t, uint8_t, uint8_t *, size_t, size_t, uint8_t *))
{
    const uint8_t *limits = take(3);
    size_t base = size();
    uint8_t refusal = byte(), seg[16], before[16], passed = 77;
    memcpy(seg, take(16), 16);
    memcpy(before, seg, 16);
    expect(kernel(limits[0], limits[1], limits[2], seg, 16, base, &passed) == refusal, "the refusal");
    expect(memcmp(seg, take(16), 16) == 0, "the samples");
    expect(tells(refusal, passed, before, seg), "whether the test passed");
}

static void subblock_filter(void)
{
    normal(vp8lf_subblock_filter);
}

static void mb_filter(void)
{
    normal(vp8lf_mb_filter);
}

static void same_level(uint8_t refusal, uint8_t level)
{
    expect(refusal == byte(), "the refusal");
    uint8_t recorded = byte();
    expect(level == (refusal ? 77 : recorded), "the level");
}

static void key_level(void)
{
    struct settings s = settings();
    const uint8_t *b = take(2);
    uint8_t level = 77, refusal = vp8lf_calculate_mb_filter_level(SETTINGS(s), b[0], b[1], &level);
    same_level(refusal, level);
}

static void inter_level(void)
{
    struct settings s = settings();
    const uint8_t *b = take(4);
    uint8_t level = 77, refusal = vp8lf_calculate_mb_filter_level_inter(SETTINGS(s), b[0], b[1], b[2], b[3], &level);
    same_level(refusal, level);
}

static void mb_has_coeffs(void)
{
    int16_t coeffs[400] = {0};
    size_t place = size();
    int16_t value = signed16();
    if (place < 400)
        coeffs[place] = value;
    expect(vp8lf_mb_has_coeffs(coeffs, 400) == (byte() != 0), "the answer");
}

/* The number of the refusal, and two numbers. A refused call leaves its out-parameters, which were 77 and 78. */
static void same_answer(uint8_t refusal, size_t first, size_t second)
{
    expect(refusal == byte(), "the refusal");
    size_t recorded_first = size(), recorded_second = size();
    expect(first == (refusal ? 77 : recorded_first), "the first number");
    expect(second == (refusal ? 78 : recorded_second), "the second number");
}

/* A layout, and start and allowance or width and height. */
struct place {
    size_t columns, rows, y_stride, uv_stride, first, second;
};

static struct place place(void)
{
    size_t n[6];
    for (int i = 0; i < 6; i++)
        n[i] = size();
    return (struct place){n[0], n[1], n[2], n[3], n[4], n[5]};
}

static void final_rows(void)
{
    struct place p = place();
    size_t luma = 77, chroma = 78;
    uint8_t refusal = vp8lf_final_rows(p.columns, p.rows, p.y_stride, p.uv_stride, p.first, &luma, &chroma);
    same_answer(refusal, luma, chroma);
}

/* The lengths of the planes of a recorded picture, and of its scratch planes. */
static const size_t LENGTHS[3] = {1280, 352, 348}, SCRATCH[3] = {1264, 344, 352};

static uint8_t planes[3][4096], scratch[3][4096];

static void read_planes(const size_t lengths[3])
{
    for (int p = 0; p < 3; p++)
        memcpy(planes[p], take(lengths[p]), lengths[p]);
}

static void same_planes(uint8_t held[3][4096], const size_t lengths[3])
{
    for (int p = 0; p < 3; p++)
        expect(memcmp(held[p], take(lengths[p]), lengths[p]) == 0, "the samples");
}

/* The picture that calls which change nothing are made on. */
static uint8_t stripe(size_t i)
{
    return i % 7 < 3 ? 100 : 108;
}

static void draw_stripes(uint8_t held[3][4096])
{
    for (size_t i = 0; i < 4096; i++)
        held[0][i] = held[1][i] = held[2][i] = stripe(i);
}

static void still_stripes(uint8_t held[3][4096])
{
    for (size_t i = 0; i < 4096; i++)
        expect(held[0][i] == stripe(i) && held[1][i] == stripe(i) && held[2][i] == stripe(i), "a sample changed");
}

static struct frame frame_of(const struct place *p, const size_t lengths[3])
{
    return (struct frame){.planes = {planes[0], planes[1], planes[2]},
                          .lengths = {lengths[0], lengths[1], lengths[2]},
                          .columns = p->columns,
                          .rows = p->rows,
                          .y_stride = p->y_stride,
                          .uv_stride = p->uv_stride};
}

static void read_lists(struct frame *f, size_t listed)
{
    f->listed = listed;
    for (int i = 0; i < 5; i++)
        f->lists[i] = take(listed);
}

/* Records of mode, whether there is a segment, segment, flag, reference and inter mode, as lists. None is segment 0. */
static void read_records(struct frame *f)
{
    static uint8_t lists[5][4];
    static const int from[5] = {0, 2, 3, 4, 5};
    const uint8_t *records = take(24);
    f->listed = 4;
    for (int i = 0; i < 20; i++) {
        const uint8_t *r = records + 6 * (i % 4);
        f->lists[i / 4] = lists[i / 4];
        lists[i / 4][i % 4] = i / 4 == 1 && r[1] == 0 ? 0 : r[from[i / 4]];
    }
}

/* The call as recorded; beside a pass the frame call: the same, but at header level 0 the planes as they were. */
static void call_pass(bool frame_call, bool inter, const struct frame *f, size_t start, size_t allowance)
{
    static uint8_t before[3][4096], came[3][4096];
    struct frame beside = *f;
    size_t count = 77, next = 78, smoothed = 79, beside_count = 77, beside_next = 78, beside_smoothed = 79;
    memcpy(before, planes, sizeof before);
    memcpy(came, planes, sizeof came);
    for (int p = 0; p < 3; p++)
        beside.planes[p] = came[p];
    uint8_t refusal = run_pass(frame_call, inter, f, start, allowance, &count, &next, &smoothed);
    same_answer(refusal, count, next);
    expect(refusal ? smoothed == 79 : smoothed <= 192 * count, "the positions smoothed");
    expect(refusal || smoothed > 0 || memcmp(before, planes, sizeof before) == 0, "none smoothed where samples change");
    if (frame_call)
        return;
    expect(run_pass(true, inter, &beside, start, allowance, &beside_count, &beside_next, &beside_smoothed) == refusal,
           "the refusal of the frame call beside it");
    expect(beside_count == count && beside_next == next, "a number of the frame call beside it");
    expect(beside_smoothed == (refusal == 0 && f->settings.level == 0 ? 0 : smoothed),
           "the positions smoothed by the frame call beside it");
    expect(memcmp(came, f->settings.level == 0 ? before : planes, sizeof came) == 0,
           "the samples of the frame call beside it");
}

/* Place, settings, lists or records. */
static struct frame read_call(struct place *p, bool records)
{
    *p = place();
    struct frame f = frame_of(p, LENGTHS);
    f.settings = settings();
    if (records)
        read_records(&f);
    else
        read_lists(&f, 4);
    return f;
}

/* The answer stands before the picture. */
static void changing(bool frame_call, bool inter, bool records)
{
    struct place p;
    struct frame f = read_call(&p, records);
    size_t answer = at;
    take(9);
    read_planes(LENGTHS);
    size_t after = at;
    at = answer;
    call_pass(frame_call, inter, &f, p.first, p.second);
    at = after;
    same_planes(planes, LENGTHS);
}

static void idle(bool frame_call, bool inter, bool records)
{
    struct place p;
    struct frame f = read_call(&p, records);
    draw_stripes(planes);
    call_pass(frame_call, inter, &f, p.first, p.second);
    still_stripes(planes);
}

static void halted(bool frame_call, bool inter)
{
    struct place p;
    struct frame f = read_call(&p, false);
    read_planes(LENGTHS);
    call_pass(frame_call, inter, &f, 0, p.second);
    same_planes(planes, LENGTHS);
    call_pass(frame_call, inter, &f, p.second, SIZE_MAX);
    same_planes(planes, LENGTHS);
}

static void film(bool inter)
{
    struct place p = place();
    size_t n = p.columns * p.rows, lengths[3] = {256 * n, 64 * n, 64 * n};
    expect(n <= 16, "a frame of more than 16 macroblocks");
    struct frame f = frame_of(&p, lengths);
    f.settings = settings();
    size_t answer = at;
    take(9);
    read_lists(&f, n);
    read_planes(lengths);
    size_t after = at;
    at = answer;
    call_pass(false, inter, &f, p.first, p.second);
    at = after;
    same_planes(planes, lengths);
}

/* A search: the reconstruction, the source's planes and strides, width and height. */
struct search {
    struct frame frame;
    const uint8_t *source[3];
    size_t strides[2], width, height;
};

#define SOURCE(s)                                                                                                   \
    (s)->source[0], LENGTHS[0], (s)->source[1], LENGTHS[1], (s)->source[2], LENGTHS[2], (s)->width, (s)->height,   \
        (s)->strides[0], (s)->strides[1]
#define SCRATCH_PLANES scratch[0], SCRATCH[0], scratch[1], SCRATCH[1], scratch[2], SCRATCH[2]

static uint8_t select_params(bool inter, const struct search *s, uint8_t *level, uint8_t *sharpness, size_t *count)
{
    const struct frame *f = &s->frame;
    if (inter)
        return vp8lf_select_filter_params_inter(PLANES(f), SOURCE(s), INTER_LISTS(f), SETTINGS(f->settings),
                                                SCRATCH_PLANES, level, sharpness, count);
    return vp8lf_select_filter_params(PLANES(f), SOURCE(s), KEY_LISTS(f), SETTINGS(f->settings), SCRATCH_PLANES, level,
                                      sharpness, count);
}

static uint8_t select_level(bool inter, const struct search *s, uint8_t *level, size_t *count)
{
    const struct frame *f = &s->frame;
    if (inter)
        return vp8lf_select_filter_level_inter(PLANES(f), SOURCE(s), INTER_LISTS(f), SETTINGS(f->settings),
                                               SCRATCH_PLANES, level, count);
    return vp8lf_select_filter_level(PLANES(f), SOURCE(s), KEY_LISTS(f), SETTINGS(f->settings), SCRATCH_PLANES, level,
                                     count);
}

static uint8_t full_search(bool inter, const struct search *s, uint8_t *level, uint8_t *sharpness, uint64_t *sum)
{
    const struct frame *f = &s->frame;
    if (inter)
        return vp8lf_full_search_inter(PLANES(f), SOURCE(s), INTER_LISTS(f), SETTINGS(f->settings), SCRATCH_PLANES,
                                       level, sharpness, sum);
    return vp8lf_full_search(PLANES(f), SOURCE(s), KEY_LISTS(f), SETTINGS(f->settings), SCRATCH_PLANES, level,
                             sharpness, sum);
}

/* The error sum of what scratch holds. */
static uint64_t scratch_sum(const struct search *s)
{
    struct search left = *s;
    uint64_t sum = 0;
    for (int p = 0; p < 3; p++) {
        left.frame.planes[p] = scratch[p];
        left.frame.lengths[p] = SCRATCH[p];
    }
    expect(vp8lf_reconstruction_ssd(PLANES(&left.frame), SOURCE(&left), &sum) == VP8LF_OK, "the sum of scratch");
    return sum;
}

/*
 * The full search on the call of a search, which has left scratch: refused alike, and no sum is larger than that of the
 * recorded pair. What it leaves in scratch has the sum that it answers.
 */
static void full(bool inter, const struct search *s, uint8_t refusal)
{
    static uint8_t before[3][4096];
    uint8_t level = 77, sharpness = 77;
    uint64_t sum = 78, searched = refusal ? 0 : scratch_sum(s);
    memcpy(before, scratch, sizeof before);
    expect(full_search(inter, s, &level, &sharpness, &sum) == refusal, "the refusal of the full search");
    if (refusal) {
        expect(level == 77 && sharpness == 77 && sum == 78, "an out-parameter of a refused full search");
        expect(memcmp(before, scratch, sizeof before) == 0, "scratch of a refused full search");
        return;
    }
    expect(level < 64 && sharpness < 8, "the pair of the full search");
    expect(sum <= searched, "the sum of the full search, which is larger than that of the search");
    expect(sum == scratch_sum(s), "the sum of what the full search leaves");
    memcpy(scratch, before, sizeof before);
}

/* The sum, and the search for both or for the level alone, held to the answers that stand at the same place. */
static void answers(bool inter, const struct search *s, bool both)
{
    uint64_t sum = 77;
    uint8_t level = 77, sharpness = 77;
    size_t count = 78;
    uint8_t refusal = vp8lf_reconstruction_ssd(PLANES(&s->frame), SOURCE(s), &sum);
    same_answer(refusal, (size_t)sum, refusal ? 78 : 0);
    refusal = both ? select_params(inter, s, &level, &sharpness, &count) : select_level(inter, s, &level, &count);
    const uint8_t *recorded = take(3);
    size_t candidates = size();
    expect(refusal == recorded[0], "the refusal of the search");
    expect(level == (refusal ? 77 : recorded[1]), "the level");
    expect(sharpness == (refusal || !both ? 77 : recorded[2]), "the sharpness");
    expect(count == (refusal ? 78 : candidates), "the count");
    if (both)
        full(inter, s, refusal);
}

static struct search read_search(void)
{
    struct search s;
    struct place p = place();
    s.frame = frame_of(&p, LENGTHS);
    s.frame.settings = settings();
    s.width = p.first;
    s.height = p.second;
    s.strides[0] = size();
    s.strides[1] = size();
    read_lists(&s.frame, 4);
    return s;
}

/* The picture, the source, and the scratch planes after the search; then the answers. */
static void search(bool inter, bool both)
{
    struct search s = read_search();
    read_planes(LENGTHS);
    for (int p = 0; p < 3; p++)
        s.source[p] = take(LENGTHS[p]);
    size_t after = at;
    take(SCRATCH[0] + SCRATCH[1] + SCRATCH[2]);
    draw_stripes(scratch);
    answers(inter, &s, both);
    size_t behind = at;
    at = after;
    same_planes(scratch, SCRATCH);
    at = behind;
}

/* Picture, source and scratch are stripes, and stay so. */
static void idle_search(bool inter, bool both)
{
    static uint8_t source[3][4096];
    struct search s = read_search();
    draw_stripes(planes);
    draw_stripes(source);
    draw_stripes(scratch);
    for (int p = 0; p < 3; p++)
        s.source[p] = source[p];
    answers(inter, &s, both);
    still_stripes(planes);
    still_stripes(source);
    still_stripes(scratch);
}

#define BOTH_PASSES(name, call_key, call_inter)                                                                     \
    static void key_##name(void) { call_key; }                                                                      \
    static void inter_##name(void) { call_inter; }

BOTH_PASSES(changing, changing(false, false, false), changing(false, true, false))
BOTH_PASSES(idle, idle(false, false, false), idle(false, true, false))
BOTH_PASSES(halted, halted(false, false), halted(false, true))
BOTH_PASSES(records, changing(false, false, true), changing(false, true, true))
BOTH_PASSES(idle_records, idle(false, false, true), idle(false, true, true))
BOTH_PASSES(film, film(false), film(true))

BOTH_PASSES(frame_changing, changing(true, false, false), changing(true, true, false))
BOTH_PASSES(frame_idle, idle(true, false, false), idle(true, true, false))
BOTH_PASSES(frame_halted, halted(true, false), halted(true, true))
BOTH_PASSES(frame_records, changing(true, false, true), changing(true, true, true))
BOTH_PASSES(frame_idle_records, idle(true, false, true), idle(true, true, true))

/* One record for the sum, the search for both, and the search for the level. */
static void twice(void (*searched)(bool, bool), bool inter)
{
    size_t begin = at;
    searched(inter, true);
    at = begin;
    searched(inter, false);
}

BOTH_PASSES(search, twice(search, false), twice(search, true))
BOTH_PASSES(idle_search, twice(idle_search, false), twice(idle_search, true))

/* The sections in the recording's order, with the calls of a record. */
static const struct {
    const char *name;
    void (*replay)(void);
    unsigned calls;
} SECTIONS[] = {
    {"clamp_s8", clamp_s8, 1},
    {"u2s", u2s, 1},
    {"s2u", s2u, 1},
    {"derive", derive, 1},
    {"common_adjust", common_adjust, 1},
    {"simple_segment", simple_segment, 1},
    {"subblock_filter", subblock_filter, 1},
    {"mb_filter", mb_filter, 1},
    {"calculate_mb_filter_level", key_level, 1},
    {"calculate_mb_filter_level_inter", inter_level, 1},
    {"mb_has_coeffs", mb_has_coeffs, 1},
    {"final_rows", final_rows, 1},
    {"filter_frame", key_changing, 1},
    {"filter_inter_frame", inter_changing, 1},
    {"filter_frame, nothing changes", key_idle, 1},
    {"filter_inter_frame, nothing changes", inter_idle, 1},
    {"filter_frame, halted and resumed", key_halted, 2},
    {"filter_inter_frame, halted and resumed", inter_halted, 2},
    {"filter_frame, recorded over records", key_records, 1},
    {"filter_inter_frame, recorded over records", inter_records, 1},
    {"filter_frame, recorded over records, nothing changes", key_idle_records, 1},
    {"filter_inter_frame, recorded over records, nothing changes", inter_idle_records, 1},
    {"filter_frame, film 64x64", key_film, 1},
    {"filter_inter_frame, film 64x64", inter_film, 1},
    {"filter_frame, film 16x16", key_film, 1},
    {"filter_inter_frame, film 16x16", inter_film, 1},
    {"loop_filter_frame", key_frame_changing, 1},
    {"loop_filter_inter_frame", inter_frame_changing, 1},
    {"loop_filter_frame, nothing changes", key_frame_idle, 1},
    {"loop_filter_inter_frame, nothing changes", inter_frame_idle, 1},
    {"loop_filter_frame, halted and resumed", key_frame_halted, 2},
    {"loop_filter_inter_frame, halted and resumed", inter_frame_halted, 2},
    {"loop_filter_frame, recorded over records", key_frame_records, 1},
    {"loop_filter_inter_frame, recorded over records", inter_frame_records, 1},
    {"loop_filter_frame, recorded over records, nothing changes", key_frame_idle_records, 1},
    {"loop_filter_inter_frame, recorded over records, nothing changes", inter_frame_idle_records, 1},
    {"sums and searches of the key pass", key_search, 4},
    {"sums and searches of the inter pass", inter_search, 4},
    {"sums and searches of the key pass, nothing changes", key_idle_search, 4},
    {"sums and searches of the inter pass, nothing changes", inter_idle_search, 4},
};

static void replay(size_t index)
{
    section = SECTIONS[index].name;
    unsigned count = number(2);
    for (record = 0; record < count; record++)
        SECTIONS[index].replay();
    calls += count * SECTIONS[index].calls;
    printf("%6u calls as recorded: %s\n", count * SECTIONS[index].calls, section);
}

int main(void)
{
    end = fread(input, 1, sizeof input, stdin);
    for (size_t i = 0; i < sizeof SECTIONS / sizeof *SECTIONS; i++)
        replay(i);
    if (at != end) {
        printf("calls: %lu bytes of the recording are left\n", (unsigned long)(end - at));
        return 1;
    }
    printf("calls: %u calls, all as recorded\n", calls);
    return 0;
}
