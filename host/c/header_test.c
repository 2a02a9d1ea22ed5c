/*
 * Compiles against include/vp8_loop_filter.h and calls each function: the bench figures A to O of document 01, the
 * ends of the numbers, every refusal, NULL with length 0, positions smoothed, the frame calls against the passes, and the
 * functions over structs against those of the library.
 */
#include "vp8_loop_filter.h"

#include <stdio.h>
#include <string.h>

static int checks, failures;

static void check(const char *what, long long expected, long long came)
{
    checks++;
    if (expected != came) {
        failures++;
        printf("header: %s: expected %lld, came %lld\n", what, expected, came);
    }
}

static void print_bytes(const char *name, const uint8_t *bytes, size_t len)
{
    printf(" %s", name);
    for (size_t i = 0; i < len; i++)
        printf(" %d", bytes[i]);
}

static void check_bytes(const char *what, const uint8_t *expected, const uint8_t *came, size_t len)
{
    checks++;
    if (memcmp(expected, came, len) != 0) {
        failures++;
        printf("header: %s:", what);
        print_bytes("expected", expected, len);
        print_bytes("came", came, len);
        printf("\n");
    }
}

static void numbers(void)
{
    check("clamp_s8(INT32_MIN)", -128, vp8lf_clamp_s8(INT32_MIN));
    check("clamp_s8(-129)", -128, vp8lf_clamp_s8(-129));
    check("clamp_s8(-128)", -128, vp8lf_clamp_s8(-128));
    check("clamp_s8(-1)", -1, vp8lf_clamp_s8(-1));
    check("clamp_s8(127)", 127, vp8lf_clamp_s8(127));
    check("clamp_s8(128)", 127, vp8lf_clamp_s8(128));
    check("clamp_s8(INT32_MAX)", 127, vp8lf_clamp_s8(INT32_MAX));
    check("u2s(0)", -128, vp8lf_u2s(0));
    check("u2s(128)", 0, vp8lf_u2s(128));
    check("u2s(255)", 127, vp8lf_u2s(255));
    check("s2u(INT32_MIN)", 0, vp8lf_s2u(INT32_MIN));
    check("s2u(-128)", 0, vp8lf_s2u(-128));
    check("s2u(0)", 128, vp8lf_s2u(0));
    check("s2u(127)", 255, vp8lf_s2u(127));
    check("s2u(INT32_MAX)", 255, vp8lf_s2u(INT32_MAX));
}

static void limits(const char *figure, uint8_t level, uint8_t sharpness, bool key, uint8_t interior, uint8_t threshold,
                   uint8_t macroblock, uint8_t inner)
{
    const uint8_t expected[4] = {interior, threshold, macroblock, inner};
    uint8_t came[4] = {99, 99, 99, 99};
    vp8lf_derive(level, sharpness, key, &came[0], &came[1], &came[2], &came[3]);
    check_bytes(figure, expected, came, 4);
}

/* Every length up to some bytes more than the table: the count, the bytes written and those after them. */
static void table_of_limits(void)
{
    uint8_t limits[VP8LF_SHARPNESS_LEVELS][VP8LF_FILTER_LEVELS], came[600], expected[600], other[3];
    memset(limits, 99, sizeof limits);
    check("the whole table", 512, (long long)vp8lf_interior_limits((uint8_t *)limits, sizeof limits));
    for (unsigned i = 0; i < 2 * 512; i++) {
        uint8_t sharpness = (uint8_t)(i / 2 / 64), level = i / 2 % 64, limit = 98;
        vp8lf_derive(level, sharpness, i % 2, &limit, &other[0], &other[1], &other[2]);
        check("an interior limit", limit, limits[sharpness][level]);
    }
    check("that of figure A", 63, limits[0][63]);
    check("that of figure B", 1, limits[0][0]);
    check("that of figure C", 5, limits[4][32]);
    check("that of figure D", 4, limits[5][32]);
    check("that of figure E", 1, limits[5][3]);
    for (size_t len = 0; len <= sizeof came; len++) {
        size_t count = len < sizeof limits ? len : sizeof limits;
        memset(came, 99, sizeof came);
        memset(expected, 99, sizeof expected);
        memcpy(expected, limits, count);
        check("the bytes written", (long long)count, (long long)vp8lf_interior_limits(came, len));
        check_bytes("a buffer", expected, came, sizeof came);
    }
    check("no buffer", 0, (long long)vp8lf_interior_limits(NULL, 0));
}

static void simple(const char *figure, uint8_t edge_limit, const uint8_t before[4], const uint8_t after[4], int test)
{
    uint8_t seg[4], passed = 99;
    memcpy(seg, before, 4);
    check(figure, VP8LF_OK, vp8lf_simple_segment(edge_limit, seg, 4, 0, &passed));
    check_bytes(figure, after, seg, 4);
    check("whether its test passed", test, passed);
}

/* The tests of the three kernels at their limits: a window that passes may come out as it was. */
static void tests_of_windows(void)
{
    static const uint8_t flat[8] = {100, 100, 100, 100, 100, 100, 100, 100};
    static const uint8_t slope[8] = {100, 103, 100, 100, 108, 108, 108, 108};
    for (int i = 0; i < 6; i++) {
        /* Flat: passes at limits of 0. The edge test is at 20, the largest difference of neighbours 3. */
        uint8_t seg[8], passed = 99, edge = i < 2 ? 0 : i < 4 ? 20 : 19, interior = i < 2 ? 0 : i == 3 ? 2 : 3;
        uint8_t test = i < 3, mb = (uint8_t)(i % 2);
        memcpy(seg, i < 2 ? flat : slope, 8);
        check("a kernel", VP8LF_OK,
              (mb ? vp8lf_mb_filter : vp8lf_subblock_filter)(0, interior, edge, seg, 8, 0, &passed));
        check("whether its test passed", test, passed);
        check("whether its bytes change", i == 2, memcmp(seg, i < 2 ? flat : slope, 8) != 0);
        memcpy(seg, i < 2 ? flat : slope, 8);
        check("a simple kernel", VP8LF_OK, vp8lf_simple_segment(edge, seg + 2, 4, 0, &passed));
        check("whether its test passed", i < 4, passed);
    }
}

static void windows(void)
{
    static const uint8_t up[10] = {7, 100, 100, 100, 100, 108, 108, 108, 108, 9};
    static const uint8_t down[10] = {7, 108, 108, 108, 108, 100, 100, 100, 100, 9};
    static const uint8_t k[10] = {7, 100, 101, 102, 103, 105, 106, 107, 108, 9};
    static const uint8_t l[10] = {7, 108, 108, 107, 105, 103, 101, 100, 100, 9};
    static const uint8_t step[4] = {100, 100, 108, 108};
    static const uint8_t outer[4] = {100, 102, 106, 108};
    static const uint8_t inner[4] = {100, 103, 105, 108};
    static const uint8_t tooth[4] = {100, 100, 104, 100};
    static const uint8_t j[4] = {100, 101, 102, 100};
    uint8_t seg[10];
    uint8_t passed = 99;
    int32_t adjustment;

    simple("I, limit 20", 20, step, outer, 1);
    simple("I, limit 19", 19, step, step, 0);
    simple("J", 8, tooth, j, 1);

    memcpy(seg, up, 10);
    check("K", VP8LF_OK, vp8lf_mb_filter(0, 1, 20, seg, 10, 1, &passed));
    check_bytes("K", k, seg, 10);
    check("whether its test passed", 1, passed);
    memcpy(seg, down, 10);
    passed = 99;
    check("L", VP8LF_OK, vp8lf_subblock_filter(0, 1, 20, seg, 10, 1, &passed));
    check_bytes("L", l, seg, 10);
    check("whether its test passed", 1, passed);

    memcpy(seg, step, 4);
    adjustment = 99;
    check("common_adjust with outer taps", VP8LF_OK, vp8lf_common_adjust(true, seg, 4, 0, &adjustment));
    check("its adjustment", 2, adjustment);
    check_bytes("its bytes", outer, seg, 4);
    memcpy(seg, step, 4);
    adjustment = 99;
    check("common_adjust without outer taps", VP8LF_OK, vp8lf_common_adjust(false, seg, 4, 0, &adjustment));
    check("its adjustment", 3, adjustment);
    check_bytes("its bytes", inner, seg, 4);
}

/* Every kernel refuses a slice of len bytes at base; the bytes and the out-parameters stay. */
static void refused(size_t len, size_t base)
{
    static const uint8_t lent[8] = {100, 100, 100, 100, 108, 108, 108, 108};
    uint8_t seg[8], passed = 99;
    int32_t adjustment = 99;
    memcpy(seg, lent, 8);
    check("mb_filter refuses", VP8LF_NO_WINDOW, vp8lf_mb_filter(0, 1, 20, seg, len, base, &passed));
    check("subblock_filter refuses", VP8LF_NO_WINDOW, vp8lf_subblock_filter(0, 1, 20, seg, len, base, &passed));
    if (len < 4 || base > len - 4) {
        check("simple_segment refuses", VP8LF_NO_WINDOW, vp8lf_simple_segment(20, seg, len, base, &passed));
        check("common_adjust refuses", VP8LF_NO_WINDOW, vp8lf_common_adjust(true, seg, len, base, &adjustment));
        check("the adjustment of a refused call", 99, adjustment);
    }
    check("the test of a refused call", 99, passed);
    check_bytes("the bytes of a refused call", lent, seg, 8);
}

/* The settings of the figures G and H, with every number that they leave open different. */
#define SETTINGS(header, adds, delta) \
    false, true, header, 0, true, false, adds, 1, 2, 3, true, delta, 4, 5, 6, 7, 8, 9, 10

static uint8_t level_out;

static long long key_level(uint8_t header, int16_t adds, int16_t delta, uint8_t segment, uint8_t mode)
{
    level_out = 99;
    return vp8lf_calculate_mb_filter_level(SETTINGS(header, adds, delta), segment, mode, &level_out);
}

static long long inter_level(uint8_t segment, uint8_t reference, uint8_t inter_mode, uint8_t mode)
{
    level_out = 99;
    return vp8lf_calculate_mb_filter_level_inter(SETTINGS(10, -20, 5), segment, reference, inter_mode, mode,
                                                 &level_out);
}

static void levels(void)
{
    check("G", VP8LF_OK, key_level(10, -20, 5, 0, 0));
    check("G", 5, level_out);
    check("H", VP8LF_OK, key_level(60, 10, -10, 0, 0));
    check("H", 53, level_out);
    check("mode B", VP8LF_OK, key_level(10, -20, 5, 0, 4));
    check("its level", 9, level_out);
    check("segment 255", VP8LF_OK, key_level(10, -20, 5, 255, 0));
    check("its level, that of segment 3", 18, level_out);
    check("mode 5", VP8LF_BAD_ENTRY, key_level(10, -20, 5, 0, 5));
    check("the level of a refused call", 99, level_out);

    check("no reference", VP8LF_OK, inter_level(0, 0, 0, 0));
    check("its level, that of G", 5, level_out);
    check("AltRef and Split", VP8LF_OK, inter_level(1, 3, 5, 4));
    check("its level", 28, level_out);
    check("reference 4", VP8LF_BAD_ENTRY, inter_level(0, 4, 0, 0));
    check("inter mode 6", VP8LF_BAD_ENTRY, inter_level(0, 0, 6, 0));
    check("mode 255", VP8LF_BAD_ENTRY, inter_level(0, 0, 0, 255));
    check("the level of a refused call", 99, level_out);
}

static void coefficients(void)
{
    int16_t coeffs[400] = {0};
    check("no coefficient", false, vp8lf_mb_has_coeffs(coeffs, 400));
    coeffs[399] = -256;
    check("the last coefficient", true, vp8lf_mb_has_coeffs(coeffs, 400));
    check("all but the last", false, vp8lf_mb_has_coeffs(coeffs, 399));
    check("the last alone", true, vp8lf_mb_has_coeffs(coeffs + 399, 1));
    check("an empty list", false, vp8lf_mb_has_coeffs(coeffs + 399, 0));
}

/* One number set at each place, and every number after it too. */
static void first_coefficients(void)
{
    static const int16_t numbers[] = {1, -1, 256, -256, INT16_MIN, INT16_MAX};
    int16_t coeffs[400] = {0};
    check("no first coefficient", 400, vp8lf_first_coeff(coeffs, 400));
    for (size_t place = 400; place-- > 0;) {
        for (size_t i = 0; i < sizeof numbers / sizeof *numbers; i++) {
            coeffs[place] = numbers[i];
            check("the first coefficient", place, vp8lf_first_coeff(coeffs, 400));
            check("it is the last", place, vp8lf_first_coeff(coeffs, place + 1));
            check("it is alone", 0, vp8lf_first_coeff(coeffs + place, 1));
            check("it comes after the list", place, vp8lf_first_coeff(coeffs, place));
            check("the test is answered from it", true, vp8lf_mb_has_coeffs(coeffs, place + 1));
            check("and without it", false, vp8lf_mb_has_coeffs(coeffs, place));
        }
    }
}

/* A grid of 2 columns by 1 row, every macroblock of mode Dc with coefficients; and a call on it. */
struct picture {
    uint8_t y[16 * 32], u[8 * 16], v[8 * 16];
    uint8_t modes[3], segments[3], flags[3], references[3], inter_modes[3];
};

struct call {
    size_t y_len, u_len, v_len, mb_cols, mb_rows, y_stride, uv_stride;
    size_t modes_len, segments_len, flags_len, references_len, inter_modes_len;
    size_t start, allowance;
};

static const struct call whole = {16 * 32, 8 * 16, 8 * 16, 2, 1, 32, 16, 2, 2, 2, 2, 2, 0, 2};
static size_t count_out, next_out, smoothed_out;

/* Samples that rise by 8 every 4 columns, up to 48, and then fall back. */
static struct picture sawtooth(void)
{
    struct picture p;
    memset(&p, 0, sizeof p);
    for (size_t i = 0; i < sizeof p.y; i++)
        p.y[i] = (uint8_t)(100 + i % 32 / 4 % 7 * 8);
    for (size_t i = 0; i < sizeof p.u; i++)
        p.u[i] = p.v[i] = (uint8_t)(100 + i % 16 / 4 % 7 * 8);
    memset(p.flags, 1, sizeof p.flags);
    return p;
}

/* Level 63 for every macroblock, in either pass. */
#define AT_63(simple) simple, true, 63, 0, false, false, 0, 0, 0, 0, false, 0, 0, 0, 0, 0, 0, 0, 0

static long long key_pass(struct picture *p, struct call c)
{
    count_out = next_out = smoothed_out = 99;
    return vp8lf_filter_frame(p->y, c.y_len, p->u, c.u_len, p->v, c.v_len, c.mb_cols, c.mb_rows, c.y_stride,
                              c.uv_stride, p->modes, c.modes_len, p->segments, c.segments_len, p->flags, c.flags_len,
                              AT_63(false), c.start, c.allowance, &count_out, &next_out, &smoothed_out);
}

static long long inter_pass(struct picture *p, struct call c)
{
    count_out = next_out = smoothed_out = 99;
    return vp8lf_filter_inter_frame(p->y, c.y_len, p->u, c.u_len, p->v, c.v_len, c.mb_cols, c.mb_rows, c.y_stride,
                                    c.uv_stride, p->modes, c.modes_len, p->segments, c.segments_len, p->flags,
                                    c.flags_len, p->references, c.references_len, p->inter_modes, c.inter_modes_len,
                                    AT_63(false), c.start, c.allowance, &count_out, &next_out, &smoothed_out);
}

/* Level 63 for every macroblock at each header level, by its segment or by a delta. */
static uint8_t header_level;
static bool by_segments;
#define LIFTED false, true, header_level, 0, by_segments, true, 63, 63, 63, 63, !by_segments, 63, 0, 0, 0, 0, 0, 0, 0

static long long key_frame_call(struct picture *p, struct call c)
{
    count_out = next_out = smoothed_out = 99;
    return vp8lf_loop_filter_frame(p->y, c.y_len, p->u, c.u_len, p->v, c.v_len, c.mb_cols, c.mb_rows, c.y_stride,
                                   c.uv_stride, p->modes, c.modes_len, p->segments, c.segments_len, p->flags,
                                   c.flags_len, LIFTED, c.start, c.allowance, &count_out, &next_out, &smoothed_out);
}

static long long inter_frame_call(struct picture *p, struct call c)
{
    count_out = next_out = smoothed_out = 99;
    return vp8lf_loop_filter_inter_frame(p->y, c.y_len, p->u, c.u_len, p->v, c.v_len, c.mb_cols, c.mb_rows,
                                         c.y_stride, c.uv_stride, p->modes, c.modes_len, p->segments, c.segments_len,
                                         p->flags, c.flags_len, p->references, c.references_len, p->inter_modes,
                                         c.inter_modes_len, LIFTED, c.start, c.allowance, &count_out, &next_out, &smoothed_out);
}

typedef long long (*pass)(struct picture *, struct call);

static bool same_columns(const uint8_t *a, const uint8_t *b, size_t stride, size_t rows, size_t from, size_t to)
{
    for (size_t i = 0; i < stride * rows; i++)
        if (i % stride >= from && i % stride < to && a[i] != b[i])
            return false;
    return true;
}

/* M: one macroblock of mode Dc without coefficients. */
static void figure_m(void)
{
    const struct call one = {16 * 32, 8 * 16, 8 * 16, 1, 1, 32, 16, 1, 1, 1, 1, 1, 0, 1};
    const struct picture before = sawtooth();
    struct picture p = before;
    for (int header = 0; header < 512; header++) {
        p.flags[0] = 0;
        count_out = next_out = smoothed_out = 99;
        check("M", VP8LF_OK,
              vp8lf_filter_frame(p.y, one.y_len, p.u, one.u_len, p.v, one.v_len, 1, 1, 32, 16, p.modes, 1, p.segments,
                                 1, p.flags, 1, header % 2 == 1, true, (uint8_t)(header / 2), 0, false, false, 0, 0,
                                 0, 0, false, 0, 0, 0, 0, 0, 0, 0, 0, 0, 1, &count_out, &next_out, &smoothed_out));
        check("its count", 1, (long long)count_out);
        check("its positions smoothed", 0, (long long)smoothed_out);
        p.flags[0] = 1;
        check_bytes("its planes", (const uint8_t *)&before, (const uint8_t *)&p, sizeof p);
    }
}

/* N and O, on a grid of 2 columns by 1 row. */
static void figures_n_and_o(pass filter)
{
    struct picture halted = sawtooth(), unbroken = halted, after_one;
    struct call c = whole;
    size_t total, part;
    check("one unbroken call", VP8LF_OK, filter(&unbroken, c));
    check("its count", 2, (long long)count_out);
    check("its next start", 2, (long long)next_out);
    total = smoothed_out;
    check("its positions smoothed, at most 192 a macroblock", true, total > 0 && total <= 2 * 192);

    c.allowance = 1;
    check("N, the first call", VP8LF_OK, filter(&halted, c));
    check("its count", 1, (long long)count_out);
    check("its next start", 1, (long long)next_out);
    part = smoothed_out;
    check("luma columns 0 to 12 are final", true, same_columns(halted.y, unbroken.y, 32, 16, 0, 13));
    check("luma column 13 is not", false, same_columns(halted.y, unbroken.y, 32, 16, 13, 14));
    check("chroma columns 0 to 4 are final", true,
          same_columns(halted.u, unbroken.u, 16, 8, 0, 5) && same_columns(halted.v, unbroken.v, 16, 8, 0, 5));
    check("chroma column 5 is not", false, same_columns(halted.u, unbroken.u, 16, 8, 5, 6));
    after_one = halted;
    c.start = 1;
    c.allowance = SIZE_MAX;
    check("N, the second call", VP8LF_OK, filter(&halted, c));
    check("its count", 1, (long long)count_out);
    check("its next start", 2, (long long)next_out);
    check("its positions smoothed and those of the first call", (long long)total, (long long)(part + smoothed_out));
    check_bytes("two calls are one", (const uint8_t *)&unbroken, (const uint8_t *)&halted, sizeof halted);
    check("the second changes something", true, memcmp(&after_one, &halted, sizeof halted) != 0);

    c.start = 2;
    check("O, start 2", VP8LF_OK, filter(&halted, c));
    check("its count", 0, (long long)count_out);
    check("its next start", 2, (long long)next_out);
    check("its positions smoothed", 0, (long long)smoothed_out);
    c.start = 3;
    check("O, start 3", VP8LF_START_TOO_LARGE, filter(&halted, c));
    check_bytes("O changes nothing", (const uint8_t *)&unbroken, (const uint8_t *)&halted, sizeof halted);
}

/* Flat planes: every position passes and no sample changes. The first macroblock has its inner edges alone. */
static void flat_planes(pass filter)
{
    struct picture p = sawtooth(), before;
    struct call c = whole;
    memset(p.y, 100, sizeof p.y);
    memset(p.u, 90, sizeof p.u);
    memset(p.v, 0, sizeof p.v);
    before = p;
    check("flat planes", VP8LF_OK, filter(&p, c));
    check("their positions smoothed", 128 + 160, (long long)smoothed_out);
    c.start = c.allowance = 1;
    check("flat planes from the second macroblock on", VP8LF_OK, filter(&p, c));
    check("its positions smoothed", 160, (long long)smoothed_out);
    check_bytes("what they leave", (const uint8_t *)&before, (const uint8_t *)&p, sizeof p);
}

static void refused_pass(const char *what, long long number, pass filter, struct picture p, struct call c)
{
    struct picture lent = p;
    check(what, number, filter(&p, c));
    check_bytes("the planes and lists of a refused call", (const uint8_t *)&lent, (const uint8_t *)&p, sizeof p);
    if (number != VP8LF_OK) {
        check("the count of a refused call", 99, (long long)count_out);
        check("the next start of a refused call", 99, (long long)next_out);
        check("the positions smoothed of a refused call", 99, (long long)smoothed_out);
    }
}

static void refused_passes(pass filter, bool inter)
{
    const struct picture p = sawtooth();
    struct picture bad;
    struct call c;
#define REFUSED(number, change) (c = whole, c.change, refused_pass(#change, number, filter, p, c))
    REFUSED(VP8LF_GRID_TOO_LARGE, mb_cols = 1025);
    REFUSED(VP8LF_GRID_TOO_LARGE, mb_rows = SIZE_MAX);
    REFUSED(VP8LF_BAD_STRIDE, y_stride = 31);
    REFUSED(VP8LF_BAD_STRIDE, y_stride = 65537);
    REFUSED(VP8LF_BAD_STRIDE, uv_stride = 15);
    REFUSED(VP8LF_BAD_STRIDE, uv_stride = SIZE_MAX);
    REFUSED(VP8LF_SHORT_PLANE, y_len = 16 * 32 - 1);
    REFUSED(VP8LF_SHORT_PLANE, u_len = 8 * 16 - 1);
    REFUSED(VP8LF_SHORT_PLANE, v_len = 0);
    REFUSED(VP8LF_WRONG_LENGTH, modes_len = 1);
    REFUSED(VP8LF_WRONG_LENGTH, segments_len = 3);
    REFUSED(VP8LF_WRONG_LENGTH, flags_len = 0);
    REFUSED(VP8LF_START_TOO_LARGE, start = 3);
    bad = p;
    bad.modes[1] = 5;
    c = whole;
    c.allowance = 1;
    refused_pass("mode 5 beyond the allowance", VP8LF_BAD_ENTRY, filter, bad, c);
    c.start = SIZE_MAX;
    refused_pass("mode 5 and a start too large", VP8LF_BAD_ENTRY, filter, bad, c);
    c.flags_len = 1;
    refused_pass("mode 5 and a list too short", VP8LF_WRONG_LENGTH, filter, bad, c);
    c.mb_rows = 0;
    refused_pass("a zero grid and all of these", VP8LF_OK, filter, bad, c);
    check("its count", 0, (long long)count_out);
    check("its next start", 0, (long long)next_out);
    check("its positions smoothed", 0, (long long)smoothed_out);
    if (inter) {
        REFUSED(VP8LF_WRONG_LENGTH, references_len = 1);
        REFUSED(VP8LF_WRONG_LENGTH, inter_modes_len = 3);
        bad = p;
        bad.references[0] = 4;
        refused_pass("reference 4", VP8LF_BAD_ENTRY, filter, bad, whole);
        bad = p;
        bad.inter_modes[0] = 6;
        refused_pass("inter mode 6", VP8LF_BAD_ENTRY, filter, bad, whole);
    }
}

/* A call with every fault, answered on a zero grid. It loses one after the other: refused for the first left. */
static void refused_in_order(pass filter)
{
    struct picture p = sawtooth();
    struct call c = {.mb_cols = 1025, .start = SIZE_MAX, .allowance = SIZE_MAX};
    p.modes[0] = 5;
    refused_pass("every fault on a zero grid", VP8LF_OK, filter, p, c);
    check("its count", 0, (long long)count_out);
    check("its next start", 0, (long long)next_out);
    check("its positions smoothed", 0, (long long)smoothed_out);
    c.mb_rows = whole.mb_rows;
    refused_pass("every fault", VP8LF_GRID_TOO_LARGE, filter, p, c);
    c.mb_cols = whole.mb_cols;
    refused_pass("strides and what follows", VP8LF_BAD_STRIDE, filter, p, c);
    c.y_stride = whole.y_stride;
    c.uv_stride = whole.uv_stride;
    refused_pass("planes and what follows", VP8LF_SHORT_PLANE, filter, p, c);
    c.y_len = whole.y_len;
    c.u_len = whole.u_len;
    c.v_len = whole.v_len;
    refused_pass("lists and what follows", VP8LF_WRONG_LENGTH, filter, p, c);
    c.modes_len = c.segments_len = c.flags_len = c.references_len = c.inter_modes_len = 2;
    refused_pass("a mode and a start", VP8LF_BAD_ENTRY, filter, p, c);
    p.modes[0] = 4;
    refused_pass("a start alone", VP8LF_START_TOO_LARGE, filter, p, c);
    c.start = 2;
    refused_pass("no fault, and none to do", VP8LF_OK, filter, p, c);
    check("its count", 0, (long long)count_out);
    check("its next start", 2, (long long)next_out);
}

/* The order of the passes' refusals; then the frame calls at header level 0, and at 63, where they are the passes. */
static void refused_frame_calls(void)
{
    refused_in_order(key_pass);
    refused_in_order(inter_pass);
    for (unsigned i = 0; i < 4; i++) {
        header_level = i % 2 == 0 ? 0 : 63;
        by_segments = i / 2 == 1;
        refused_passes(key_frame_call, false);
        refused_passes(inter_frame_call, true);
        refused_in_order(key_frame_call);
        refused_in_order(inter_frame_call);
        if (header_level > 0) {
            figures_n_and_o(key_frame_call);
            figures_n_and_o(inter_frame_call);
        }
    }
}

static void final_rows(size_t mb_cols, size_t mb_rows, size_t start, long long number, size_t luma, size_t chroma)
{
    size_t luma_out = 99, chroma_out = 99;
    check("final_rows", number, vp8lf_final_rows(mb_cols, mb_rows, 0, SIZE_MAX, start, &luma_out, &chroma_out));
    check("its luma rows", (long long)luma, (long long)luma_out);
    check("its chroma rows", (long long)chroma, (long long)chroma_out);
}

/* A flat picture of one macroblock that equals its source: no candidate is better than leaving it alone. */
static uint8_t flat[256], like[256], to_y[256], to_u[64], to_v[64];
static const uint8_t zero[1] = {0};
#define PICTURE flat, 256, flat, 64, flat, 64, 1, 1, 16, 8, like, 256, like, 64, like, 64, 16, 16, 16, 8
#define SCRATCH to_y, 256, to_u, 64, to_v, 64

static void search(void)
{
    uint64_t sum = 99;
    uint8_t level = 99, sharpness = 99;
    size_t count = 99;
#define SUM(width, height)                                                                                            \
    vp8lf_reconstruction_ssd(flat, 256, flat, 64, flat, 64, 1, 1, 16, 8, like, 256, like, 64, like, 64, width,       \
                             height, 16, 8, &sum)
    check("a source that is too wide", VP8LF_SOURCE_TOO_LARGE, SUM(17, 0));
    check("its sum", 99, (long long)sum);
    check("a source that is equal", VP8LF_OK, SUM(16, 16));
    check("its sum", 0, (long long)sum);
    like[0] = 3;
    check("a source that differs", VP8LF_OK, SUM(1, 1));
    check("its sum, 9 in each plane", 27, (long long)sum);
    like[0] = 0;
#define CHOSEN(call, wanted_sharpness)                                                                                \
    (level = 99, sharpness = 99, count = 99, check(#call, VP8LF_OK, call), check("its level", 0, level),             \
     check("its sharpness", wanted_sharpness, sharpness), check("its count", 19, (long long)count))
    CHOSEN(vp8lf_select_filter_params(PICTURE, zero, 1, zero, 1, zero, 1, AT_63(false), SCRATCH, &level, &sharpness,
                                      &count), 0);
    CHOSEN(vp8lf_select_filter_params_inter(PICTURE, zero, 1, zero, 1, zero, 1, zero, 1, zero, 1, AT_63(false), SCRATCH,
                                            &level, &sharpness, &count), 0);
    CHOSEN(vp8lf_select_filter_level(PICTURE, zero, 1, zero, 1, zero, 1, AT_63(true), SCRATCH, &level, &count), 99);
    CHOSEN(vp8lf_select_filter_level_inter(PICTURE, zero, 1, zero, 1, zero, 1, zero, 1, zero, 1, AT_63(true), SCRATCH,
                                           &level, &count), 99);
    check("a scratch plane that is short", VP8LF_SHORT_PLANE,
          vp8lf_select_filter_level(PICTURE, zero, 1, zero, 1, zero, 1, AT_63(true), to_y, 255, to_u, 64, to_v, 64,
                                    &level, &count));
}

static void full_search(void)
{
    uint64_t sum;
    uint8_t level, sharpness;
#define BEST_OF(call)                                                                                                 \
    (level = 99, sharpness = 99, sum = 99, check(#call, VP8LF_OK, call), check("its level", 0, level),               \
     check("its sharpness", 0, sharpness), check("its sum", 0, (long long)sum))
    BEST_OF(vp8lf_full_search(PICTURE, zero, 1, zero, 1, zero, 1, AT_63(false), SCRATCH, &level, &sharpness, &sum));
    BEST_OF(vp8lf_full_search_inter(PICTURE, zero, 1, zero, 1, zero, 1, zero, 1, zero, 1, AT_63(true), SCRATCH, &level,
                                    &sharpness, &sum));
    level = sharpness = 99;
    sum = 99;
    check("a scratch plane of a full search that is short", VP8LF_SHORT_PLANE,
          vp8lf_full_search(PICTURE, zero, 1, zero, 1, zero, 1, AT_63(true), to_y, 256, to_u, 64, to_v, 63, &level,
                            &sharpness, &sum));
    check("what a refused call leaves", 3 * 99, level + sharpness + (long long)sum);
}

/* NULL with length 0 is an empty slice to every function of the library. */
static void null_kernels_and_passes(void)
{
    struct picture p = sawtooth();
    int32_t adjustment = 99;
    uint8_t passed = 99;
    check("no coefficients", false, vp8lf_mb_has_coeffs(NULL, 0));
    check("no first coefficient", 0, vp8lf_first_coeff(NULL, 0));
    check("common_adjust without bytes", VP8LF_NO_WINDOW, vp8lf_common_adjust(true, NULL, 0, 0, &adjustment));
    check("simple_segment without bytes", VP8LF_NO_WINDOW, vp8lf_simple_segment(20, NULL, 0, 0, &passed));
    check("subblock_filter without bytes", VP8LF_NO_WINDOW,
          vp8lf_subblock_filter(0, 1, 20, NULL, 0, SIZE_MAX, &passed));
    check("mb_filter without bytes", VP8LF_NO_WINDOW, vp8lf_mb_filter(0, 1, 20, NULL, 0, 0, &passed));
    check("their tests", 99, passed);
#define NO_BYTES NULL, 0
#define LISTS p.modes, 2, p.segments, 2, p.flags, 2
#define HALT AT_63(false), 0, 2, &count_out, &next_out, &smoothed_out
    check("a pass without planes", VP8LF_SHORT_PLANE,
          vp8lf_filter_frame(NO_BYTES, NO_BYTES, NO_BYTES, 2, 1, 32, 16, LISTS, HALT));
    check("a pass without chroma", VP8LF_SHORT_PLANE,
          vp8lf_filter_frame(p.y, 512, p.u, 128, NO_BYTES, 2, 1, 32, 16, LISTS, HALT));
    check("a pass without lists", VP8LF_WRONG_LENGTH,
          vp8lf_filter_frame(p.y, 512, p.u, 128, p.v, 128, 2, 1, 32, 16, NO_BYTES, NO_BYTES, NO_BYTES, HALT));
    check("an inter pass without references", VP8LF_WRONG_LENGTH,
          vp8lf_filter_inter_frame(p.y, 512, p.u, 128, p.v, 128, 2, 1, 32, 16, LISTS, NO_BYTES, NO_BYTES, HALT));
    check("a pass over nothing", VP8LF_OK,
          vp8lf_filter_frame(NO_BYTES, NO_BYTES, NO_BYTES, 0, 1, 0, 0, NO_BYTES, NO_BYTES, NO_BYTES, HALT));
    check("its count, next start and positions smoothed", 0, (long long)(count_out + next_out + smoothed_out));
    count_out = next_out = smoothed_out = 99;
    check("an inter pass over nothing", VP8LF_OK,
          vp8lf_filter_inter_frame(NO_BYTES, NO_BYTES, NO_BYTES, 1, 0, 0, 0, NO_BYTES, NO_BYTES, NO_BYTES, NO_BYTES,
                                   NO_BYTES, HALT));
    check("its count, next start and positions smoothed", 0, (long long)(count_out + next_out + smoothed_out));
}

/* The same of the frame calls at a header level. */
static void null_frame_calls(uint8_t level)
{
    struct picture p = sawtooth();
    header_level = level;
#define HALT_LIFTED LIFTED, 0, 2, &count_out, &next_out, &smoothed_out
    count_out = next_out = smoothed_out = 99;
    check("a frame call without planes", VP8LF_SHORT_PLANE,
          vp8lf_loop_filter_frame(NO_BYTES, NO_BYTES, NO_BYTES, 2, 1, 32, 16, LISTS, HALT_LIFTED));
    check("a frame call without chroma", VP8LF_SHORT_PLANE,
          vp8lf_loop_filter_frame(p.y, 512, p.u, 128, NO_BYTES, 2, 1, 32, 16, LISTS, HALT_LIFTED));
    check("a frame call without lists", VP8LF_WRONG_LENGTH,
          vp8lf_loop_filter_frame(p.y, 512, p.u, 128, p.v, 128, 2, 1, 32, 16, NO_BYTES, NO_BYTES, NO_BYTES,
                                  HALT_LIFTED));
    check("an inter frame call without references", VP8LF_WRONG_LENGTH,
          vp8lf_loop_filter_inter_frame(p.y, 512, p.u, 128, p.v, 128, 2, 1, 32, 16, LISTS, NO_BYTES, NO_BYTES,
                                        HALT_LIFTED));
    check("the numbers of refused calls", 3 * 99, (long long)(count_out + next_out + smoothed_out));
    check("a frame call over nothing", VP8LF_OK,
          vp8lf_loop_filter_frame(NO_BYTES, NO_BYTES, NO_BYTES, 0, 1, 0, 0, NO_BYTES, NO_BYTES, NO_BYTES,
                                  HALT_LIFTED));
    check("its count, next start and positions smoothed", 0, (long long)(count_out + next_out + smoothed_out));
    count_out = next_out = smoothed_out = 99;
    check("an inter frame call over nothing", VP8LF_OK,
          vp8lf_loop_filter_inter_frame(NO_BYTES, NO_BYTES, NO_BYTES, 1, 0, 0, 0, NO_BYTES, NO_BYTES, NO_BYTES,
                                        NO_BYTES, NO_BYTES, HALT_LIFTED));
    check("its count, next start and positions smoothed", 0, (long long)(count_out + next_out + smoothed_out));
}

static void null_sums_and_searches(void)
{
    uint64_t sum = 99;
    struct vp8lf_choice chosen = {99, 99, 99};
#define NO_PLANES NO_BYTES, NO_BYTES, NO_BYTES
#define PLANES flat, 256, flat, 64, flat, 64, 1, 1, 16, 8
#define BEST &chosen.level, &chosen.sharpness, &chosen.count
    check("a sum without a source", VP8LF_OK, vp8lf_reconstruction_ssd(PLANES, NO_PLANES, 0, 5, 0, 0, &sum));
    check("it", 0, (long long)sum);
    check("a sum over a source without bytes", VP8LF_BAD_SOURCE,
          vp8lf_reconstruction_ssd(PLANES, NO_PLANES, 1, 1, 1, 1, &sum));
    check("a sum without planes", VP8LF_SHORT_PLANE,
          vp8lf_reconstruction_ssd(NO_PLANES, 1, 1, 16, 8, NO_PLANES, 0, 0, 0, 0, &sum));
    check("a search without scratch", VP8LF_SHORT_PLANE,
          vp8lf_select_filter_params(PLANES, NO_PLANES, 0, 0, 0, 0, NO_PLANES, AT_63(false), NO_PLANES, BEST));
    check("a search without lists", VP8LF_OK,
          vp8lf_select_filter_params(PLANES, NO_PLANES, 0, 0, 0, 0, NO_PLANES, AT_63(false), to_y, 256, to_u, 64, to_v,
                                     64, BEST));
    check("its candidates", 19, (long long)chosen.count);
    chosen.count = 99;
    check("an inter search without anything", VP8LF_OK,
          vp8lf_select_filter_params_inter(NO_PLANES, 0, 0, 0, 0, NO_PLANES, 0, 0, 0, 0, NO_PLANES, NO_BYTES, NO_BYTES,
                                           AT_63(false), NO_PLANES, BEST));
    check("its candidates", 19, (long long)chosen.count);
    chosen.count = 99;
    check("a level search without anything", VP8LF_OK,
          vp8lf_select_filter_level(NO_PLANES, 0, 0, 0, 0, NO_PLANES, 0, 0, 0, 0, NO_PLANES, AT_63(false), NO_PLANES,
                                    &chosen.level, &chosen.count));
    check("its candidates", 19, (long long)chosen.count);
    chosen.count = 99;
    check("an inter level search without anything", VP8LF_OK,
          vp8lf_select_filter_level_inter(NO_PLANES, 0, 0, 0, 0, NO_PLANES, 0, 0, 0, 0, NO_PLANES, NO_BYTES, NO_BYTES,
                                          AT_63(false), NO_PLANES, &chosen.level, &chosen.count));
    check("its candidates", 19, (long long)chosen.count);
}

static void null_full_searches(void)
{
    struct vp8lf_best best = {99, 99, 99};
#define LEAST &best.level, &best.sharpness, &best.sum
    check("a full search without scratch", VP8LF_SHORT_PLANE,
          vp8lf_full_search(PLANES, NO_PLANES, 0, 0, 0, 0, NO_PLANES, AT_63(false), NO_PLANES, LEAST));
    check("its sum", 99, (long long)best.sum);
    check("a full search over a source without bytes", VP8LF_BAD_SOURCE,
          vp8lf_full_search(PLANES, NO_PLANES, 1, 1, 1, 1, NO_PLANES, AT_63(false), to_y, 256, to_u, 64, to_v, 64,
                            LEAST));
    check("a full search without lists", VP8LF_OK,
          vp8lf_full_search(PLANES, NO_PLANES, 0, 0, 0, 0, NO_PLANES, AT_63(false), to_y, 256, to_u, 64, to_v, 64,
                            LEAST));
    check("its level and sum", 0, best.level + (long long)best.sum);
    best.level = 99;
    best.sum = 99;
    check("an inter full search without anything", VP8LF_OK,
          vp8lf_full_search_inter(NO_PLANES, 0, 0, 0, 0, NO_PLANES, 0, 0, 0, 0, NO_PLANES, NO_BYTES, NO_BYTES,
                                  AT_63(false), NO_PLANES, LEAST));
    check("its level and sum", 0, best.level + (long long)best.sum);
}

static void refusal_texts(void)
{
    static const char *const words[] = {"not refused", "1024", "luma stride", "scratch plane", "window", "list",
                                        "inter mode", "start", "wider", "source stride", "64 bits", "no refusal"};
    for (uint8_t number = 0; number < 12; number++)
        check(words[number], true, strstr(vp8lf_refusal_text(number), words[number]) != NULL);
    check("the text of 255", true, strcmp(vp8lf_refusal_text(255), vp8lf_refusal_text(11)) == 0);
}

/* Settings whose numbers all differ, with the five marks that the bits name; and the same as the library takes them. */
static struct vp8lf_settings settings_of(unsigned bits)
{
    struct vp8lf_settings s = {.simple = bits & 1,
                               .key_frame = bits >> 1 & 1,
                               .loop_filter_level = 30,
                               .sharpness_level = 3,
                               .segmentation_enabled = bits >> 2 & 1,
                               .segment_abs = bits >> 3 & 1,
                               .segment_level = {12, 13, 15, 18},
                               .delta_enabled = bits >> 4 & 1,
                               .ref_delta_current = -1,
                               .bpred_mode_delta = 2,
                               .ref_delta_last = -4,
                               .ref_delta_golden = 6,
                               .ref_delta_altref = -9,
                               .zero_mv_mode_delta = 14,
                               .other_mv_mode_delta = -11,
                               .split_mv_mode_delta = 5};
    return s;
}
#define NUMBERS_AT(level, bits)                                                                                      \
    (bits) & 1, (bits) >> 1 & 1, level, 3, (bits) >> 2 & 1, (bits) >> 3 & 1, 12, 13, 15, 18, (bits) >> 4 & 1, -1, 2, \
        -4, 6, -9, 14, -11, 5
#define NUMBERS(bits) NUMBERS_AT(30, bits)

/* Every segment, reference, inter mode and mode, and one of each that is refused. */
static void levels_of_structs(unsigned bits)
{
    const struct vp8lf_settings s = settings_of(bits);
    for (unsigned i = 0; i < 4 * 5 * 7 * 6; i++) {
        uint8_t segment = i % 4, reference = i / 4 % 5, inter_mode = i / 20 % 7, mode = (uint8_t)(i / 140);
        uint8_t expected = 99, came = 99;
        check("the refusal of vp8lf_level", vp8lf_calculate_mb_filter_level(NUMBERS(bits), segment, mode, &expected),
              vp8lf_level(&s, segment, mode, &came));
        check("its level", expected, came);
        check("the refusal of vp8lf_level_inter",
              vp8lf_calculate_mb_filter_level_inter(NUMBERS(bits), segment, reference, inter_mode, mode, &expected),
              vp8lf_level_inter(&s, segment, reference, inter_mode, mode, &came));
        check("its level", expected, came);
    }
}

/* 3 x 2 macroblocks, each plane, stride and list another. Between the rows of a plane are bytes outside the grid. */
struct frame {
    uint8_t y[50 * 32], u[27 * 16], v[27 * 16 + 1];
    uint8_t modes[6], segments[6], flags[6], references[6], inter_modes[6];
};

/* Steps taken round a circle, from a least number up. */
static void fill(uint8_t *bytes, size_t len, size_t least, size_t step, size_t circle)
{
    for (size_t i = 0; i < len; i++)
        bytes[i] = (uint8_t)(least + i * step % circle);
}

static struct frame uneven(void)
{
    struct frame f;
    fill(f.y, sizeof f.y, 100, 7, 11);
    fill(f.u, sizeof f.u, 120, 5, 9);
    fill(f.v, sizeof f.v, 140, 3, 8);
    fill(f.modes, 6, 0, 3, 5);
    fill(f.segments, 6, 0, 1, 4);
    fill(f.flags, 6, 0, 1, 2);
    fill(f.references, 6, 0, 3, 4);
    fill(f.inter_modes, 6, 0, 5, 6);
    return f;
}

static struct vp8lf_planes planes_of(struct frame *f)
{
    return vp8lf_planes_of(f->y, sizeof f->y, f->u, sizeof f->u, f->v, sizeof f->v, 3, 2, 50, 27);
}

static struct vp8lf_lists lists_of(const struct frame *f)
{
    struct vp8lf_lists l = {f->modes, f->segments, f->flags, f->references, f->inter_modes, 6};
    return l;
}
#define FRAME(f) (f).y, sizeof (f).y, (f).u, sizeof (f).u, (f).v, sizeof (f).v
#define THREE(f) (f).modes, 6, (f).segments, 6, (f).flags, 6
#define FIVE(f) THREE(f), (f).references, 6, (f).inter_modes, 6

static void same_frame(const char *what, const struct frame *expected, const struct frame *came)
{
    check_bytes(what, (const uint8_t *)expected, (const uint8_t *)came, sizeof *came);
}

/* Two calls of the key pass or of its frame call, then one that is refused. */
static void key_pass_of_structs(unsigned bits, uint8_t level, bool frame_call)
{
    struct vp8lf_settings s = settings_of(bits);
    struct frame expected = uneven(), came = expected;
    struct vp8lf_planes planes = planes_of(&came);
    struct vp8lf_lists lists = lists_of(&came);
    struct vp8lf_done done = {0, 0, 0};
    s.loop_filter_level = level;
    for (size_t start = 0; start < 6; start += 4) {
        check(frame_call ? "a call of vp8lf_loop_filter" : "a call of vp8lf_filter",
              (frame_call ? vp8lf_loop_filter_frame : vp8lf_filter_frame)(
                  FRAME(expected), 3, 2, 50, 27, THREE(expected), NUMBERS_AT(level, bits), start, 4, &count_out,
                  &next_out, &smoothed_out),
              (frame_call ? vp8lf_loop_filter : vp8lf_filter)(&planes, &lists, &s, done.next, 4, &done));
        check("its count", (long long)count_out, (long long)done.count);
        check("its next start", (long long)next_out, (long long)done.next);
        check("its positions smoothed", (long long)smoothed_out, (long long)done.smoothed);
        same_frame("its planes", &expected, &came);
    }
    check("a start that is too large", VP8LF_START_TOO_LARGE,
          (frame_call ? vp8lf_loop_filter : vp8lf_filter)(&planes, &lists, &s, 7, 4, &done));
    check("its next start stays", 6, (long long)done.next);
    check("its positions smoothed stay", (long long)smoothed_out, (long long)done.smoothed);
}

/* The same of the inter pass. */
static void inter_pass_of_structs(unsigned bits, uint8_t level, bool frame_call)
{
    struct vp8lf_settings s = settings_of(bits);
    struct frame expected = uneven(), came = expected;
    struct vp8lf_planes planes = planes_of(&came);
    struct vp8lf_lists lists = lists_of(&came);
    struct vp8lf_done done = {0, 0, 0};
    s.loop_filter_level = level;
    for (size_t start = 0; start < 6; start += 4) {
        check(frame_call ? "a call of vp8lf_loop_filter_inter" : "a call of vp8lf_filter_inter",
              (frame_call ? vp8lf_loop_filter_inter_frame : vp8lf_filter_inter_frame)(
                  FRAME(expected), 3, 2, 50, 27, FIVE(expected), NUMBERS_AT(level, bits), start, 4, &count_out,
                  &next_out, &smoothed_out),
              (frame_call ? vp8lf_loop_filter_inter : vp8lf_filter_inter)(&planes, &lists, &s, done.next, 4, &done));
        check("its count", (long long)count_out, (long long)done.count);
        check("its next start", (long long)next_out, (long long)done.next);
        check("its positions smoothed", (long long)smoothed_out, (long long)done.smoothed);
        same_frame("its planes", &expected, &came);
    }
    check("a start that is too large", VP8LF_START_TOO_LARGE,
          (frame_call ? vp8lf_loop_filter_inter : vp8lf_filter_inter)(&planes, &lists, &s, 7, 4, &done));
    check("its next start stays", 6, (long long)done.next);
    check("its positions smoothed stay", (long long)smoothed_out, (long long)done.smoothed);
}

/* Each plane as long as it must be, then one of them a byte short. */
static void short_planes_of_structs(void)
{
    const struct vp8lf_settings s = settings_of(0);
    struct frame f = uneven();
    const struct vp8lf_lists lists = lists_of(&f);
    struct vp8lf_done done;
    for (unsigned shorter = 0; shorter < 4; shorter++) {
        size_t y_len = 50 * 31 + 48 - (shorter == 1), u_len = 27 * 15 + 24 - (shorter == 2);
        size_t v_len = 27 * 15 + 24 - (shorter == 3);
        struct vp8lf_planes planes = vp8lf_planes_of(f.y, y_len, f.u, u_len, f.v, v_len, 3, 2, 50, 27);
        check("a plane that is short", shorter == 0 ? VP8LF_OK : VP8LF_SHORT_PLANE,
              vp8lf_filter(&planes, &lists, &s, 0, 6, &done));
    }
}

static void rows_of_structs(void)
{
    struct frame f = uneven();
    struct vp8lf_planes planes = planes_of(&f);
    for (size_t start = 0; start < 8; start++) {
        struct vp8lf_rows expected = {99, 99}, came = {99, 99};
        check("vp8lf_rows_final", vp8lf_final_rows(3, 2, 50, 27, start, &expected.luma, &expected.chroma),
              vp8lf_rows_final(&planes, start, &came));
        check("its luma rows", (long long)expected.luma, (long long)came.luma);
        check("its chroma rows", (long long)expected.chroma, (long long)came.chroma);
    }
}

/* The source is the frame shifted by some bytes, in planes with strides of their own. */
#define SOURCE(f) (f).y + 3, sizeof (f).y - 3, (f).u + 2, sizeof (f).u - 2, (f).v + 1, sizeof (f).v - 1, 41, 29, 49, 25

static struct vp8lf_source source_of(const struct frame *f)
{
    struct vp8lf_source source = {.y = f->y + 3,
                                  .u = f->u + 2,
                                  .v = f->v + 1,
                                  .y_len = sizeof f->y - 3,
                                  .u_len = sizeof f->u - 2,
                                  .v_len = sizeof f->v - 1,
                                  .width = 41,
                                  .height = 29,
                                  .y_stride = 49,
                                  .uv_stride = 25};
    return source;
}

static struct vp8lf_scratch scratch_of(struct frame *f)
{
    struct vp8lf_scratch scratch = {f->y, f->u, f->v, sizeof f->y, sizeof f->u, sizeof f->v};
    return scratch;
}

static struct frame wanted_scratch, scratch;
static struct vp8lf_choice wanted, chosen;

static void same_search(const char *what, uint8_t expected, uint8_t came)
{
    check(what, expected, came);
    check("its level", wanted.level, chosen.level);
    check("its sharpness", wanted.sharpness, chosen.sharpness);
    check("its count", (long long)wanted.count, (long long)chosen.count);
    same_frame("its scratch", &wanted_scratch, &scratch);
}

static void searches_of_structs(unsigned bits)
{
    const struct vp8lf_settings s = settings_of(bits);
    struct frame f = uneven();
    const struct vp8lf_planes planes = planes_of(&f);
    const struct vp8lf_source source = source_of(&f);
    const struct vp8lf_lists lists = lists_of(&f);
    struct vp8lf_scratch lent = scratch_of(&scratch);
    uint64_t expected = 99, came = 99;
    check("vp8lf_error_sum", vp8lf_reconstruction_ssd(FRAME(f), 3, 2, 50, 27, SOURCE(f), &expected),
          vp8lf_error_sum(&planes, &source, &came));
    check("its sum", (long long)expected, (long long)came);
#define READ FRAME(f), 3, 2, 50, 27, SOURCE(f)
#define WORK NUMBERS(bits), FRAME(wanted_scratch)
    same_search("vp8lf_search",
                vp8lf_select_filter_params(READ, THREE(f), WORK, &wanted.level, &wanted.sharpness, &wanted.count),
                vp8lf_search(&planes, &source, &lists, &s, &lent, &chosen));
    same_search("vp8lf_search_inter",
                vp8lf_select_filter_params_inter(READ, FIVE(f), WORK, &wanted.level, &wanted.sharpness, &wanted.count),
                vp8lf_search_inter(&planes, &source, &lists, &s, &lent, &chosen));
    wanted.sharpness = chosen.sharpness = 99;
    same_search("vp8lf_search_level",
                vp8lf_select_filter_level(READ, THREE(f), WORK, &wanted.level, &wanted.count),
                vp8lf_search_level(&planes, &source, &lists, &s, &lent, &chosen));
    same_search("vp8lf_search_level_inter",
                vp8lf_select_filter_level_inter(READ, FIVE(f), WORK, &wanted.level, &wanted.count),
                vp8lf_search_level_inter(&planes, &source, &lists, &s, &lent, &chosen));
}

/* What the pass with a pair leaves of a frame, for level 0 the frame itself. */
static struct frame filtered(bool inter, const struct frame *f, unsigned bits, uint8_t level, uint8_t sharpness)
{
    struct vp8lf_settings s = settings_of(bits);
    struct frame left = *f;
    struct vp8lf_planes planes = planes_of(&left);
    struct vp8lf_lists lists = lists_of(f);
    struct vp8lf_done done;
    s.loop_filter_level = level;
    s.sharpness_level = sharpness;
    if (level > 0 && inter)
        check("a candidate's pass", VP8LF_OK, vp8lf_filter_inter(&planes, &lists, &s, 0, 6, &done));
    else if (level > 0)
        check("a candidate's pass", VP8LF_OK, vp8lf_filter(&planes, &lists, &s, 0, 6, &done));
    return left;
}

static uint64_t sum_of(struct frame left, const struct vp8lf_source *against)
{
    const struct vp8lf_planes planes = planes_of(&left);
    uint64_t sum = 0;
    check("a candidate's sum", VP8LF_OK, vp8lf_error_sum(&planes, against, &sum));
    return sum;
}

/* The best of all pairs, and what its pass leaves, by the library's passes and sums. The settings' sharpness is 3. */
static struct vp8lf_best best_of(bool inter, const struct frame *f, unsigned bits, struct frame *left)
{
    const struct vp8lf_source source = source_of(f);
    struct vp8lf_best best = {0, 3, sum_of(*f, &source)};
    for (unsigned i = 8; i < 64 * 8; i++) {
        struct vp8lf_best tried = {(uint8_t)(i / 8), i % 8, 0};
        tried.sum = sum_of(filtered(inter, f, bits, tried.level, tried.sharpness), &source);
        if (tried.sum < best.sum)
            best = tried;
    }
    *left = filtered(inter, f, bits, best.level, best.sharpness);
    return best;
}

/* Where a frame has no sample of the grid: what scratch holds there stays. */
static void keep_outside(struct frame *left, const struct frame *before)
{
    for (size_t i = 0; i < sizeof left->y; i++)
        if (i % 50 >= 48)
            left->y[i] = before->y[i];
    for (size_t i = 0; i < sizeof left->v; i++)
        if (i % 27 >= 24 || i >= 27 * 16) {
            left->v[i] = before->v[i];
            if (i < sizeof left->u)
                left->u[i] = before->u[i];
        }
}

static void same_best(const char *what, uint8_t came, const struct vp8lf_best *expected, struct vp8lf_best *best)
{
    check(what, VP8LF_OK, came);
    check("its level", expected->level, best->level);
    check("its sharpness", expected->sharpness, best->sharpness);
    check("its sum", (long long)expected->sum, (long long)best->sum);
    same_frame("its scratch", &wanted_scratch, &scratch);
    best->level = best->sharpness = 99;
    best->sum = 99;
}

/* The full search, and the same over structs, in scratch of other bytes. */
static void full_searches_of_structs(unsigned bits, bool inter)
{
    const struct vp8lf_settings s = settings_of(bits);
    struct frame f = uneven(), before = f;
    const struct vp8lf_planes planes = planes_of(&f);
    const struct vp8lf_source source = source_of(&f);
    const struct vp8lf_lists lists = lists_of(&f);
    struct vp8lf_scratch lent = scratch_of(&scratch);
    const struct vp8lf_best expected = best_of(inter, &f, bits, &wanted_scratch);
    struct vp8lf_best best = {99, 99, 99};
    fill(before.y, sizeof before.y, 1, 3, 250);
    fill(before.u, sizeof before.u, 2, 5, 250);
    fill(before.v, sizeof before.v, 3, 7, 250);
    keep_outside(&wanted_scratch, &before);
    scratch = before;
#define SEARCHED NUMBERS(bits), FRAME(scratch), &best.level, &best.sharpness, &best.sum
    same_best("vp8lf_full_search",
              inter ? vp8lf_full_search_inter(READ, FIVE(f), SEARCHED) : vp8lf_full_search(READ, THREE(f), SEARCHED),
              &expected, &best);
    scratch = before;
    same_best("vp8lf_search_full",
              inter ? vp8lf_search_full_inter(&planes, &source, &lists, &s, &lent, &best)
                    : vp8lf_search_full(&planes, &source, &lists, &s, &lent, &best),
              &expected, &best);
}

/* A plane or list that is NULL is empty, whatever its length says. */
static void null_in_structs(void)
{
    const struct vp8lf_settings s = settings_of(0);
    struct frame f = uneven();
    struct vp8lf_planes planes = planes_of(&f);
    struct vp8lf_planes no_planes = vp8lf_planes_of(NULL, 9999, NULL, 9999, NULL, 9999, 3, 2, 50, 27);
    struct vp8lf_source source = source_of(&f), no_source = source;
    struct vp8lf_lists lists = lists_of(&f), no_lists = {.len = 6}, key_lists = lists;
    struct vp8lf_scratch lent = scratch_of(&scratch), no_scratch = lent;
    struct vp8lf_done done = {99, 99, 99};
    struct vp8lf_best best = {99, 99, 99};
    uint64_t sum = 99;
    no_source.u = NULL;
    no_scratch.v = NULL;
    key_lists.references = key_lists.inter_modes = NULL;
    check("planes that are NULL", VP8LF_SHORT_PLANE, vp8lf_filter(&no_planes, &lists, &s, 0, 6, &done));
    check("lists that are NULL", VP8LF_WRONG_LENGTH, vp8lf_filter(&planes, &no_lists, &s, 0, 6, &done));
    check("references that are NULL", VP8LF_WRONG_LENGTH, vp8lf_filter_inter(&planes, &key_lists, &s, 0, 6, &done));
    check("the numbers of a refused call", 3 * 99, (long long)(done.count + done.next + done.smoothed));
    check("references that are NULL in the key pass", VP8LF_OK, vp8lf_filter(&planes, &key_lists, &s, 0, 6, &done));
    check("a source plane that is NULL", VP8LF_BAD_SOURCE, vp8lf_error_sum(&planes, &no_source, &sum));
    check("a scratch plane that is NULL", VP8LF_SHORT_PLANE,
          vp8lf_search(&planes, &source, &lists, &s, &no_scratch, &chosen));
    check("a scratch plane of a full search that is NULL", VP8LF_SHORT_PLANE,
          vp8lf_search_full(&planes, &source, &lists, &s, &no_scratch, &best));
    check("its sum", 99, (long long)best.sum);
}

/* The same of the frame calls at a header level. */
static void null_in_frame_calls(uint8_t level)
{
    struct vp8lf_settings s = settings_of(0);
    struct frame f = uneven();
    struct vp8lf_planes planes = planes_of(&f);
    struct vp8lf_planes no_planes = vp8lf_planes_of(NULL, 9999, NULL, 9999, NULL, 9999, 3, 2, 50, 27);
    struct vp8lf_lists lists = lists_of(&f), no_lists = {.len = 6}, key_lists = lists;
    struct vp8lf_done done = {99, 99, 99};
    s.loop_filter_level = level;
    key_lists.references = key_lists.inter_modes = NULL;
    check("planes that are NULL", VP8LF_SHORT_PLANE, vp8lf_loop_filter(&no_planes, &lists, &s, 0, 6, &done));
    check("lists that are NULL", VP8LF_WRONG_LENGTH, vp8lf_loop_filter(&planes, &no_lists, &s, 0, 6, &done));
    check("references that are NULL", VP8LF_WRONG_LENGTH,
          vp8lf_loop_filter_inter(&planes, &key_lists, &s, 0, 6, &done));
    check("the numbers of refused calls", 3 * 99, (long long)(done.count + done.next + done.smoothed));
    check("references that are NULL in the key frame call", VP8LF_OK,
          vp8lf_loop_filter(&planes, &key_lists, &s, 0, 6, &done));
    check("its count and next start", 2 * 6, (long long)(done.count + done.next));
    check("whether positions are smoothed", level > 0, done.smoothed > 0);
}

static void structs(void)
{
    refusal_texts();
    for (unsigned bits = 0; bits < 32; bits++) {
        levels_of_structs(bits);
        for (unsigned i = 0; i < 4; i++) {
            key_pass_of_structs(bits, i % 2 * 30, i / 2 == 1);
            inter_pass_of_structs(bits, i % 2 * 30, i / 2 == 1);
        }
        searches_of_structs(bits);
        full_searches_of_structs(bits, false);
        full_searches_of_structs(bits, true);
    }
    short_planes_of_structs();
    rows_of_structs();
    null_in_structs();
}

/* Sharpness 2 at a header level. Where segments or deltas count, they lift every macroblock above 0. */
static struct vp8lf_settings lifting(unsigned bits, uint8_t level)
{
    struct vp8lf_settings s = settings_of(bits);
    s.loop_filter_level = level;
    s.sharpness_level = 2;
    for (int i = 0; i < 4; i++)
        s.segment_level[i] += 20;
    s.ref_delta_current = 21;
    s.ref_delta_last = 24;
    s.ref_delta_golden = 26;
    s.ref_delta_altref = 29;
    s.other_mv_mode_delta = 11;
    return s;
}

static bool lifts(const struct vp8lf_settings *s)
{
    return s->segmentation_enabled || s->delta_enabled;
}
#define FIELDS(s)                                                                                                    \
    (s)->simple, (s)->key_frame, (s)->loop_filter_level, (s)->sharpness_level, (s)->segmentation_enabled,            \
        (s)->segment_abs, (s)->segment_level[0], (s)->segment_level[1], (s)->segment_level[2],                       \
        (s)->segment_level[3], (s)->delta_enabled, (s)->ref_delta_current, (s)->bpred_mode_delta,                    \
        (s)->ref_delta_last, (s)->ref_delta_golden, (s)->ref_delta_altref, (s)->zero_mv_mode_delta,                  \
        (s)->other_mv_mode_delta, (s)->split_mv_mode_delta

/* The frame call of a frame, or its pass. */
static long long filter_frame(bool frame_call, bool inter, struct frame *f, const struct vp8lf_settings *s,
                              size_t start, size_t allowance)
{
    count_out = next_out = smoothed_out = 99;
    if (inter)
        return (frame_call ? vp8lf_loop_filter_inter_frame : vp8lf_filter_inter_frame)(
            FRAME(*f), 3, 2, 50, 27, FIVE(*f), FIELDS(s), start, allowance, &count_out, &next_out, &smoothed_out);
    return (frame_call ? vp8lf_loop_filter_frame : vp8lf_filter_frame)(
        FRAME(*f), 3, 2, 50, 27, THREE(*f), FIELDS(s), start, allowance, &count_out, &next_out, &smoothed_out);
}

/* The pass on one frame and the frame call on another: the same answer, count, next start and, above 0, positions. */
static void both_calls(bool inter, const struct vp8lf_settings *s, struct frame *passed, struct frame *came,
                       size_t start, size_t allowance)
{
    size_t left = start > 6 ? 0 : 6 - start, due = left < allowance ? left : allowance;
    long long answer = filter_frame(false, inter, passed, s, start, allowance);
    size_t count = count_out, next = next_out, smoothed = smoothed_out;
    check("the pass beside a frame call", start > 6 ? VP8LF_START_TOO_LARGE : VP8LF_OK, answer);
    check("its count", start > 6 ? 99 : (long long)due, (long long)count);
    check("the frame call beside a pass", answer, filter_frame(true, inter, came, s, start, allowance));
    check("its count", (long long)count, (long long)count_out);
    check("its next start", (long long)next, (long long)next_out);
    check("its positions smoothed", start <= 6 && s->loop_filter_level == 0 ? 0 : (long long)smoothed,
          (long long)smoothed_out);
}

/* Whether every macroblock has a level above 0, or none has. */
static void levels_of_frame(bool inter, const struct frame *f, const struct vp8lf_settings *s)
{
    for (size_t i = 0; i < 6; i++) {
        uint8_t level = 99;
        check("a macroblock", VP8LF_OK,
              inter ? vp8lf_level_inter(s, f->segments[i], f->references[i], f->inter_modes[i], f->modes[i], &level)
                    : vp8lf_level(s, f->segments[i], f->modes[i], &level));
        check("whether it is lifted", lifts(s), level > 0);
    }
}

/* Header level 0, so many macroblocks a call: the pass changes what is lifted, the frame call nothing. */
static void skipped(bool inter, unsigned bits, size_t allowance)
{
    const struct vp8lf_settings s = lifting(bits, 0);
    const struct frame before = uneven();
    struct frame passed = before, came = before;
    levels_of_frame(inter, &before, &s);
    for (size_t start = 0; start < 6; start += allowance) {
        both_calls(inter, &s, &passed, &came, start, allowance);
        same_frame("a frame of header level 0", &before, &came);
        both_calls(inter, &s, &passed, &came, start, 0);
    }
    both_calls(inter, &s, &passed, &came, 6, allowance);
    both_calls(inter, &s, &passed, &came, 7, allowance);
    same_frame("a frame of header level 0 at the end", &before, &came);
    check("whether the pass changes y", lifts(&s), memcmp(before.y, passed.y, sizeof before.y) != 0);
    check("whether it changes u", lifts(&s) && !s.simple, memcmp(before.u, passed.u, sizeof before.u) != 0);
    check("whether it changes v", lifts(&s) && !s.simple, memcmp(before.v, passed.v, sizeof before.v) != 0);
}

/* Another header level: after each call the frame is as the pass leaves it. */
static void filtered_alike(bool inter, unsigned bits, uint8_t level, size_t allowance)
{
    struct vp8lf_settings s = lifting(bits, level);
    const struct frame before = uneven();
    struct frame passed = before, came = before;
    s.sharpness_level = level % 3;
    for (size_t start = 0; start < 6; start += allowance) {
        both_calls(inter, &s, &passed, &came, start, allowance);
        same_frame("what a frame call leaves", &passed, &came);
        both_calls(inter, &s, &passed, &came, start, 0);
    }
    both_calls(inter, &s, &passed, &came, 6, allowance);
    both_calls(inter, &s, &passed, &came, 7, allowance);
    same_frame("what frame calls leave at the end", &passed, &came);
    if (lifts(&s) || level > 40)
        check("the pass changes y", true, memcmp(before.y, passed.y, sizeof before.y) != 0);
}

/* All marks at header level 0; and every other level, with absolute segments, with deltas, and with neither. */
static void frame_calls(void)
{
    static const unsigned marks[3] = {0, 12, 16};
    refused_frame_calls();
    null_frame_calls(0);
    null_frame_calls(63);
    null_in_frame_calls(0);
    null_in_frame_calls(30);
    for (unsigned i = 0; i < 2 * 32 * 7; i++)
        skipped(i % 2 == 1, i / 2 % 32, 1 + i / 64);
    for (unsigned level = 1; level < 256; level++)
        for (unsigned i = 0; i < 2 * 3; i++)
            filtered_alike(i % 2 == 1, marks[i / 2] + level % 4, (uint8_t)level, 1 + level % 7);
}

int main(void)
{
    numbers();
    limits("A", 63, 0, true, 63, 2, 193, 189);
    limits("B", 0, 0, true, 1, 0, 5, 1);
    limits("C", 32, 4, true, 5, 1, 73, 69);
    limits("D", 32, 5, false, 4, 2, 72, 68);
    limits("E", 3, 5, true, 1, 0, 11, 7);
    limits("F", 255, 0, true, 255, 2, 255, 255);
    table_of_limits();
    windows();
    tests_of_windows();
    for (size_t len = 0; len < 8; len++)
        refused(len, 0);
    refused(8, 1);
    refused(8, 5);
    refused(8, 8);
    refused(8, SIZE_MAX - 3);
    refused(8, SIZE_MAX);
    levels();
    coefficients();
    first_coefficients();
    figure_m();
    figures_n_and_o(key_pass);
    figures_n_and_o(inter_pass);
    flat_planes(key_pass);
    flat_planes(inter_pass);
    refused_passes(key_pass, false);
    refused_passes(inter_pass, true);
    final_rows(2, 3, 0, VP8LF_OK, 0, 0);
    final_rows(2, 3, 1, VP8LF_OK, 0, 0);
    final_rows(2, 3, 3, VP8LF_OK, 13, 5);
    final_rows(2, 3, 6, VP8LF_OK, 48, 24);
    final_rows(2, 3, 7, VP8LF_START_TOO_LARGE, 99, 99);
    final_rows(1025, 1, SIZE_MAX, VP8LF_GRID_TOO_LARGE, 99, 99);
    final_rows(0, SIZE_MAX, SIZE_MAX, VP8LF_OK, 0, 0);
    search();
    full_search();
    null_kernels_and_passes();
    null_sums_and_searches();
    null_full_searches();
    structs();
    frame_calls();
    if (failures > 0) {
        printf("header: %d of %d checks failed\n", failures, checks);
        return 1;
    }
    printf("header: %d checks passed\n", checks);
    return 0;
}
