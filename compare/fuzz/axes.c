/* Trials of the calls on whole, index and real axes, and on segments over whole axes. */
#include "calls.h"
#include "culvraod.h"
#include "draw.h"
#include "model.h"
#include "trial.h"

#include <stdlib.h>

enum { LONGEST = 4096 };

void counted(int32_t code, const void *out, size_t size, const size_t *count, uint64_t wanted)
{
    if (code != ANSWERED)
        return;
    demand(*count == wanted, "another count than the rule's");
    may_write(out, size * *count);
}

typedef int32_t whole_marks(int32_t a, int32_t b, uint32_t m, int32_t *out, size_t len, int32_t *step, size_t *count);

/* Marks of a whole axis, or of segments over it. */
static void marks_of(whole_marks *call, bool segments)
{
    int32_t a, b;
    draw_whole_ends(&a, &b);
    uint32_t m = draw_limit_of_marks();
    struct marks marks = model_marks(a, b, m);
    size_t len = draw_length(marks.count, LONGEST), *count = RESULT(size_t);
    int32_t *out = LIST(int32_t, len), *step = RESULT(int32_t);
    int32_t code = CALLED(call(a, b, m, out, len, step, count));
    int32_t wanted = lower(WHOLES(a, b), marks.refused);
    if (segments)
        wanted = lower(wanted, segments_refused(model_count(a, b)));
    counted(code, out, sizeof *out, count, marks.count);
    settle(code, lower(wanted, model_fit(marks, len)));
}

static void whole_key_points(void)
{
    marks_of(culv_whole_key_points, false);
}

static void index_key_points(void)
{
    uint64_t a, b;
    draw_index_ends(&a, &b);
    uint32_t m = draw_limit_of_marks();
    int admitted = a <= 1000000000 && b <= 1000000000;
    struct marks marks = admitted ? model_marks((int64_t)a, (int64_t)b, m) : (struct marks){.refused = 1};
    size_t len = draw_length(marks.count, LONGEST), *count = RESULT(size_t);
    uint64_t *out = LIST(uint64_t, len), *step = RESULT(uint64_t);
    int32_t code = CALLED(culv_index_key_points(a, b, m, out, len, step, count));
    counted(code, out, sizeof *out, count, marks.count);
    settle(code, model_fit(marks, len));
}

static void real_key_points(void)
{
    static double listed[MOST_REAL_MARKS + 1];
    double a, b;
    uint32_t m;
    uint64_t marks = 0;
    draw_real_axis(&a, &b, &m);
    int32_t refused = model_real_marks(a, b, m, listed, &marks);
    size_t len = draw_length(marks, LONGEST), *count = RESULT(size_t);
    double *out = LIST(double, len);
    int32_t code = CALLED(culv_real_key_points(a, b, m, out, len, count));
    counted(code, out, sizeof *out, count, marks);
    for (uint64_t at = 0; code == ANSWERED && at < marks; at++)
        demand(out[at] == listed[at], "another mark than the rule's");
    settle(code, lower(refused, len < marks ? 13 : ANSWERED));
}

static void whole_map(void)
{
    int32_t a, b, p, q, place;
    draw_whole_ends(&a, &b);
    draw_film(&p, &q);
    int32_t v = draw_whole("v"), *pixel = RESULT(int32_t);
    int32_t code = CALLED(culv_whole_map(a, b, v, p, q, pixel));
    int32_t refused = lower(WHOLES(a, b, v), FILMS(p, q));
    settle(code, refused != 0 ? refused : model_place(a, b, v, p, q, &place));
}

static void whole_map_exact(void)
{
    int32_t a, b, p, q;
    draw_whole_ends(&a, &b);
    draw_film(&p, &q);
    int32_t v = draw_whole("v");
    uint32_t *quotient = RESULT(uint32_t), *remainder = RESULT(uint32_t);
    int32_t code = CALLED(culv_whole_map_exact(a, b, v, p, q, quotient, remainder));
    if (code == ANSWERED) {
        /* division read backwards: quotient lengths of the axis and the remainder are the whole way */
        uint64_t length = (uint64_t)llabs((int64_t)b - a), pixels = (uint64_t)llabs((int64_t)q - p);
        uint64_t way = pixels * (uint64_t)llabs((int64_t)v - a);
        demand(*remainder < length && *quotient * length + *remainder == way, "another quotient or remainder");
    }
    int32_t refused = lower(WHOLES(a, b, v), FILMS(p, q));
    settle(code, refused != 0 ? refused : a == b || (v < a && v < b) || (a < v && b < v) ? 18 : ANSWERED);
}

static void real_map(void)
{
    double a, b;
    int32_t p, q, place;
    draw_real_ends(&a, &b);
    draw_film(&p, &q);
    double v = draw_real("v");
    int32_t *pixel = RESULT(int32_t);
    int32_t code = CALLED(culv_real_map(a, b, v, p, q, pixel));
    settle(code, FILMS(p, q) != 0 ? 2 : model_place(a, b, v, p, q, &place));
}

static void whole_size(void)
{
    int32_t a, b;
    draw_whole_ends(&a, &b);
    uint64_t *n = RESULT(uint64_t);
    settle(CALLED(culv_whole_size(a, b, n)), WHOLES(a, b));
}

static void whole_index_of(void)
{
    int32_t a, b;
    draw_whole_ends(&a, &b);
    int32_t v = draw_whole("v");
    uint64_t *k = RESULT(uint64_t);
    settle(CALLED(culv_whole_index_of(a, b, v, k)), lower(WHOLES(a, b, v), v < a ? NONE : ANSWERED));
}

static void whole_from_index(void)
{
    int32_t a, b;
    draw_whole_ends(&a, &b);
    uint64_t k = draw_index();
    int32_t *v = RESULT(int32_t);
    settle(CALLED(culv_whole_from_index(a, b, k, v)), lower(WHOLES(a, b), model_value(a, k)));
}

static void whole_unmap(void)
{
    int32_t a, b, p, q;
    draw_whole_ends(&a, &b);
    draw_film(&p, &q);
    int32_t x = draw_pixel("x"), *v = RESULT(int32_t);
    int32_t code = CALLED(culv_whole_unmap(a, b, x, p, q, v));
    int32_t wanted = lower(WHOLES(a, b), FILMS(x, p, q));
    if (wanted == 0)
        wanted = model_value(a, (uint64_t)model_index(model_count(a, b), x, p, q));
    settle(code, wanted);
}

static void whole_unmap_directed(void)
{
    int32_t a, b, p, q;
    draw_whole_ends(&a, &b);
    draw_film(&p, &q);
    int32_t x = draw_pixel("x"), *v = RESULT(int32_t);
    int32_t code = CALLED(culv_whole_unmap_directed(a, b, x, p, q, v));
    int32_t wanted = lower(WHOLES(a, b), FILMS(x, p, q));
    if (wanted == 0) {
        /* an axis that descends is that of the negated values, upward */
        int falls = b < a;
        int64_t k = model_index(falls ? model_count(b, a) : model_count(a, b), x, p, q);
        int32_t value = model_value(falls ? -a : a, (uint64_t)k);
        wanted = falls && value == 10 ? 19 : value;
        demand(code != ANSWERED || *v == (falls ? a - k : a + k), "another value than the rule's");
    }
    settle(code, wanted);
}

static void real_unmap(void)
{
    double a, b, *v = RESULT(double);
    int32_t p, q, x = draw_pixel("x");
    draw_real_ends(&a, &b);
    draw_film(&p, &q);
    int32_t code = CALLED(culv_real_unmap(a, b, x, p, q, v));
    int inside = p != q && ((p <= x && x <= q) || (q <= x && x <= p));
    settle(code, lower(FILMS(x, p, q), inside ? ANSWERED : NONE));
}

/* ---- Segments over whole axes ---- */

/* 1 unless kind is one, and the number admitted where it is looked at. */
static int32_t value_refused(uint32_t kind, int32_t v)
{
    return kind > 2 ? 1 : kind == 2 ? 0 : WHOLES(v);
}

static void seg_whole_size(void)
{
    int32_t a, b;
    draw_whole_ends(&a, &b);
    uint64_t *n = RESULT(uint64_t);
    int32_t code = CALLED(culv_seg_whole_size(a, b, n));
    settle(code, lower(WHOLES(a, b), segments_refused(model_count(a, b))));
}

static void seg_whole_map(void)
{
    int32_t a, b, p, q, place;
    draw_whole_ends(&a, &b);
    draw_film(&p, &q);
    uint32_t kind = draw_kind();
    int32_t v = draw_whole("v"), *pixel = RESULT(int32_t);
    int32_t code = CALLED(culv_seg_whole_map(a, b, kind, v, p, q, pixel));
    int64_t n = model_count(a, b);
    int32_t wanted = lower(lower(WHOLES(a, b), value_refused(kind, v)), FILMS(p, q));
    wanted = lower(wanted, segments_refused(n));
    if (wanted == 0 && kind != 2)
        wanted = model_place(a, b, v, p, model_narrowed(n, p, q), &place);
    settle(code, wanted);
}

static void seg_whole_index_of(void)
{
    int32_t a, b;
    draw_whole_ends(&a, &b);
    uint32_t kind = draw_kind();
    int32_t v = draw_whole("v");
    uint64_t *k = RESULT(uint64_t);
    int32_t code = CALLED(culv_seg_whole_index_of(a, b, kind, v, k));
    int32_t wanted = lower(WHOLES(a, b), value_refused(kind, v));
    wanted = lower(wanted, segments_refused(model_count(a, b)));
    settle(code, lower(wanted, kind != 2 && v < a ? NONE : ANSWERED));
}

static void seg_whole_from_index(void)
{
    int32_t a, b;
    draw_whole_ends(&a, &b);
    uint64_t k = draw_index();
    uint32_t *kind = RESULT(uint32_t);
    int32_t *v = RESULT(int32_t);
    int32_t code = CALLED(culv_seg_whole_from_index(a, b, k, kind, v));
    int64_t n = model_count(a, b);
    int32_t wanted = lower(WHOLES(a, b), segments_refused(n));
    settle(code, lower(wanted, k > (uint64_t)n ? NONE : ANSWERED));
}

static void seg_whole_unmap(void)
{
    int32_t a, b, p, q;
    draw_whole_ends(&a, &b);
    draw_film(&p, &q);
    int32_t x = draw_pixel("x"), *v = RESULT(int32_t);
    uint32_t *kind = RESULT(uint32_t);
    int32_t code = CALLED(culv_seg_whole_unmap(a, b, x, p, q, kind, v));
    int64_t n = model_count(a, b);
    int32_t wanted = lower(lower(WHOLES(a, b), FILMS(x, p, q)), segments_refused(n));
    if (wanted == 0)
        wanted = (uint64_t)model_index(n + 1, x, p, q) > (uint64_t)n ? NONE : ANSWERED;
    settle(code, wanted);
}

static void seg_whole_key_points(void)
{
    marks_of(culv_seg_whole_key_points, true);
}

#define CALL(name) {"culv_" #name, name}

const struct call AXIS_CALLS[AXIS_COUNT] = {
    CALL(whole_key_points), CALL(index_key_points), CALL(whole_map), CALL(whole_map_exact), CALL(real_map), CALL(whole_size),
    CALL(whole_index_of), CALL(whole_from_index), CALL(whole_unmap), CALL(whole_unmap_directed), CALL(real_unmap),
    CALL(seg_whole_size), CALL(seg_whole_map), CALL(seg_whole_index_of), CALL(seg_whole_from_index),
    CALL(seg_whole_unmap), CALL(seg_whole_key_points), CALL(real_key_points),
};
