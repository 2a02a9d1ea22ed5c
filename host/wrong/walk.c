/* What the faults of a pass may use: its macroblocks once more, position by position, on copies of the planes. */
enum { LEFT, VERTICAL, TOP, HORIZONTAL };

struct walk {
    uint8_t *lent[3], *now[3];
    size_t strides[3];
    bool kept, simple;
    /* Positions met, those that pass, those of them whose samples change, and those that pass on the planes first lent. */
    size_t met, passed, changed, passed_as_lent;
    /* Those that pass, by their kind of edge and by their plane. */
    size_t edges[4], planes[3];
};

/* Very long planes are not kept. */
static struct walk keep(bool simple, const uint8_t *y, size_t y_len, const uint8_t *u, size_t u_len, const uint8_t *v,
                        size_t v_len, size_t y_stride, size_t uv_stride)
{
    const uint8_t *planes[3] = {y, u, v};
    size_t lens[3] = {y_len, u_len, v_len};
    struct walk w = {.simple = simple, .strides = {y_stride, uv_stride, uv_stride}};
    w.kept = y_len <= 1 << 28 && u_len <= 1 << 28 && v_len <= 1 << 28;
    for (int p = 0; w.kept && p < 3; p++) {
        w.lent[p] = malloc(lens[p] + 1);
        w.now[p] = malloc(lens[p] + 1);
        for (size_t i = 0; i < lens[p]; i++)
            w.lent[p][i] = w.now[p][i] = planes[p][i];
    }
    return w;
}

static void drop(struct walk *w)
{
    for (int p = 0; p < 3; p++) {
        free(w->lent[p]);
        free(w->now[p]);
    }
}

/* Limits are as vp8lf_derive writes them. */
static uint8_t filtered(bool simple, bool border, const uint8_t limits[4], uint8_t *window)
{
    uint8_t passed = 0, edge_limit = limits[border ? 2 : 3];
    if (simple)
        real_vp8lf_simple_segment(edge_limit, window, 4, 0, &passed);
    else
        (border ? real_vp8lf_mb_filter : real_vp8lf_subblock_filter)(limits[1], limits[0], edge_limit, window, 8, 0,
                                                                     &passed);
    return passed;
}

static void position(struct walk *w, int plane, int edge, size_t first, size_t apart, const uint8_t limits[4])
{
    size_t width = w->simple ? 4 : 8;
    bool border = edge == LEFT || edge == TOP, changed = false;
    uint8_t window[8], lent[8], passed;
    for (size_t i = 0; i < width; i++) {
        window[i] = w->now[plane][first + i * apart];
        lent[i] = w->lent[plane][first + i * apart];
    }
    passed = filtered(w->simple, border, limits, window);
    for (size_t i = 0; i < width; i++) {
        changed = changed || w->now[plane][first + i * apart] != window[i];
        w->now[plane][first + i * apart] = window[i];
    }
    w->met++;
    w->passed += passed;
    w->changed += changed;
    w->passed_as_lent += filtered(w->simple, border, limits, lent);
    w->edges[edge] += passed;
    w->planes[plane] += passed;
}

static void step(struct walk *w, size_t m, size_t columns, uint8_t level, bool inner, uint8_t sharpness, bool key)
{
    uint8_t limits[4];
    size_t place[2] = {m % columns, m / columns}, half = w->simple ? 2 : 4;
    real_vp8lf_derive(level, sharpness, key, &limits[0], &limits[1], &limits[2], &limits[3]);
    for (int edge = LEFT; level > 0 && edge <= HORIZONTAL; edge++) {
        bool border = edge == LEFT || edge == TOP, turned = edge >= TOP;
        if (border ? place[turned] == 0 : !inner)
            continue;
        for (int p = 0; p < (w->simple ? 1 : 3); p++) {
            size_t side = p == 0 ? 16 : 8;
            for (size_t at = border ? 0 : 4; at < (border ? 1 : side); at += 4)
                for (size_t i = 0; i < side; i++) {
                    size_t column = side * place[0] + (turned ? i : at - half);
                    size_t row = side * place[1] + (turned ? at - half : i);
                    position(w, p, edge, row * w->strides[p] + column, turned ? w->strides[p] : 1, limits);
                }
        }
    }
}
