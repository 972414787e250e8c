#include "model.h"

#include <inttypes.h>
#include <math.h>
#include <stdio.h>
#include <string.h>

int32_t whole_refused(const int64_t *numbers, size_t count)
{
    for (size_t at = 0; at < count; at++)
        if (numbers[at] < -1000000000 || numbers[at] > 1000000000)
            return 1;
    return 0;
}

int32_t film_refused(const int32_t *numbers, size_t count)
{
    for (size_t at = 0; at < count; at++)
        if (numbers[at] < -1000000 || numbers[at] > 1000000)
            return 2;
    return 0;
}

int32_t lower(int32_t one, int32_t other)
{
    return one != 0 ? one : other;
}

/* ---- Marks ---- */

/* The step at a position among 1, 2, 5, 10, 20, 50 up to 1000000000. */
static int64_t step_at(int position)
{
    static const int64_t leading[] = {1, 2, 5};
    int64_t step = leading[position % 3];
    for (int zeros = position / 3; zeros > 0; zeros--)
        step *= 10;
    return step;
}

/* Powers of ten may have m parts, the other steps only fewer. */
static int64_t chosen_step(int64_t distance, uint32_t m)
{
    for (int position = 0; position < 28; position++) {
        int64_t step = step_at(position), cut = (distance + step - 1) / step;
        if (position % 3 == 0 ? cut <= m : cut < m)
            return step;
    }
    return 0;
}

/* The least multiple of the step that is not below n. */
static int64_t multiple_from(int64_t n, int64_t step)
{
    int64_t cut = n / step * step;
    return cut < n ? cut + step : cut;
}

struct marks model_marks(int64_t a, int64_t b, uint32_t m)
{
    int64_t low = a < b ? a : b, high = a < b ? b : a, step = chosen_step(high - low, m);
    if (step == 0)
        return (struct marks){.refused = 3};
    int64_t first = multiple_from(low, step), last = high / step * step;
    uint64_t count = last < first ? 0 : (uint64_t)((last - first) / step + 1);
    return (struct marks){.first = first, .step = step, .count = count};
}

int32_t model_fit(struct marks marks, size_t len)
{
    if (marks.refused != 0)
        return marks.refused;
    return len < marks.count ? 13 : ANSWERED;
}

/* ---- Places ---- */

int32_t model_place(double a, double b, double v, int32_t p, int32_t q, int32_t *place)
{
    int32_t length = q - p;
    double t = (v - a) / (b - a);
    *place = q;
    if (a == b) {
        *place = length / 2;
        return ANSWERED;
    }
    if (length == 0 || t == INFINITY)
        return ANSWERED;
    double product = length * t;
    double added = length > 0 ? floor(product + 0.001) : ceil(product - 0.001);
    if (isnan(t) || isinf(t))
        added = 0;
    if (added < -1e9 || added > 1e9)
        return 5;
    *place = p + (int32_t)added;
    return ANSWERED;
}

/* ---- Counts and readings ---- */

int64_t model_count(int32_t a, int32_t b)
{
    return b < a ? 0 : (int64_t)b - a + 1;
}

int32_t model_value(int32_t a, uint64_t k)
{
    if (k > INT32_MAX)
        return NONE;
    return a + (int64_t)k > INT32_MAX ? 10 : ANSWERED;
}

static int64_t floor_quotient(int64_t n, int64_t d)
{
    int64_t cut = n / d;
    return n % d != 0 && (n < 0) != (d < 0) ? cut - 1 : cut;
}

int64_t model_index(int64_t n, int32_t x, int32_t p, int32_t q)
{
    if (p == q)
        return x > p && n > 0 ? NONE : 0;
    int64_t k = floor_quotient((int64_t)(x - p) * n, q - p);
    return k < 0 ? 0 : k;
}

/* ---- Stepped lists and searches ---- */

static bool is_before(struct steps axis, double x)
{
    return (axis.a < axis.b && x < axis.b) || (axis.a > axis.b && x > axis.b);
}

bool model_has_entries(struct steps axis)
{
    return is_before(axis, axis.a) && is_before(axis, axis.a + axis.d);
}

static bool leads_away(struct steps axis)
{
    return (axis.a < axis.b && axis.d <= 0) || (axis.a > axis.b && axis.d >= 0);
}

struct list model_list(struct steps axis, double v)
{
    struct list list = {.first = axis.a};
    if (leads_away(axis))
        return (struct list){.refused = 6};
    if (!model_has_entries(axis))
        return list;
    for (double x = axis.a; is_before(axis, x); x += axis.d) {
        if (x + axis.d == x || ++list.count > MOST_ENTRIES)
            return (struct list){.refused = 7};
        list.last = x;
        list.holds |= x == v;
    }
    return list;
}

int64_t model_entry(struct steps axis, uint64_t count, double v)
{
    int64_t found = -1;
    double greatest = -INFINITY;
    for (uint64_t k = 0; k < count; k++) {
        double x = axis.a + (double)k * axis.d;
        if (x <= v && x > greatest) {
            found = (int64_t)k;
            greatest = x;
        }
    }
    return found;
}

int32_t method_refused(uint32_t method)
{
    return method > 3 ? 1 : 0;
}

int32_t model_found(struct list list, double v, uint32_t method)
{
    double least = fmin(list.first, list.last), greatest = fmax(list.first, list.last);
    if (isnan(v) && list.count > 0 && method != 0)
        return 9;
    switch (method) {
    case 0: return list.holds ? ANSWERED : NONE;
    case 1: return list.count > 0 && greatest >= v ? ANSWERED : NONE;
    case 2: return list.count > 0 && least <= v ? ANSWERED : NONE;
    default: return ANSWERED;
    }
}

int32_t model_search(const double *entries, size_t len, double target, uint32_t method)
{
    bool rises = true, falls = true;
    struct list list = {.count = len};
    for (size_t at = 0; at < len; at++) {
        rises &= at == 0 ? !isnan(entries[0]) : entries[at - 1] < entries[at];
        falls &= at == 0 ? !isnan(entries[0]) : entries[at - 1] > entries[at];
        list.holds |= entries[at] == target;
    }
    if (!rises && !falls)
        return 8;
    if (len > 0) {
        list.first = entries[0];
        list.last = entries[len - 1];
    }
    return model_found(list, target, method);
}

/* ---- Segments ---- */

int32_t segments_refused(int64_t n)
{
    return n == 0 || n > 16777216 ? 4 : 0;
}

int32_t model_narrowed(int64_t n, int32_t p, int32_t q)
{
    float quotient = (float)(q - p) / (float)n;
    return q - (int32_t)roundf(quotient);
}

/* ---- Rulers ---- */

int32_t draft_refused(struct draft draft)
{
    int32_t refused = lower(WHOLES(draft.a, draft.b), FILMS(draft.p, draft.q));
    return lower(refused, model_marks(draft.a, draft.b, draft.m).refused);
}

static uint8_t *put(uint8_t *out, uint32_t n)
{
    for (int byte = 0; byte < 4; byte++)
        *out++ = (uint8_t)(n >> 8 * byte);
    return out;
}

static uint8_t *put_mark(uint8_t *out, struct draft draft, int32_t needle)
{
    char label[12];
    int32_t place;
    model_place(draft.a, draft.b, needle, draft.p, draft.q, &place);
    snprintf(label, sizeof label, "%11" PRId32, needle);
    *out++ = 2;
    out = put(put(out, (uint32_t)needle), (uint32_t)place);
    memcpy(out, label, 11);
    return out + 11;
}

/* The axis's record has a byte more where there is a twist. */
size_t head_of(uint32_t kind)
{
    return kind > 3 ? 26 : 25;
}

size_t draft_size(struct draft draft)
{
    return head_of(draft.kind) + 20 * (size_t)draft_marks(draft).count;
}

/* Those of plotters; of kinds 3 and 6 without the last if it lies past the axis. */
struct marks draft_marks(struct draft draft)
{
    struct marks marks = model_marks(draft.a, draft.b, draft.m);
    int64_t most = draft.a < draft.b ? draft.b : draft.a;
    if ((draft.kind == 3 || draft.kind == 6) && marks.count > 0 && marks.first + (int64_t)(marks.count - 1) * marks.step > most)
        marks.count--;
    return marks;
}

size_t model_ruler(struct draft draft, uint8_t *out)
{
    struct marks marks = draft_marks(draft);
    uint8_t *at = out;
    *at++ = (uint8_t)draft.kind;
    at = put(put(put(at, (uint32_t)draft.a), (uint32_t)draft.b), (uint32_t)draft.p);
    at = put(put(put(at, (uint32_t)draft.q), draft.m), (uint32_t)marks.step);
    if (draft.kind > 3)
        *at++ = (uint8_t)draft.twist;
    for (uint64_t k = 0; k < marks.count; k++)
        at = put_mark(at, draft, (int32_t)(marks.first + (int64_t)k * marks.step));
    return (size_t)(at - out);
}

static uint32_t word(const uint8_t *at)
{
    return at[0] | (uint32_t)at[1] << 8 | (uint32_t)at[2] << 16 | (uint32_t)at[3] << 24;
}

struct draft draft_of(const uint8_t *bytes)
{
    return (struct draft){(int32_t)word(bytes + 1), (int32_t)word(bytes + 5), (int32_t)word(bytes + 9),
                          (int32_t)word(bytes + 13), word(bytes + 17), bytes[0], bytes[0] > 3 ? bytes[25] : 0};
}

bool model_is_ruler(const uint8_t *bytes, size_t len)
{
    static uint8_t written[1 << 20];
    if (len < 25 || len > sizeof written)
        return false;
    if ((bytes[0] != 1 && bytes[0] != 3 && bytes[0] != 5 && bytes[0] != 6) || len < head_of(bytes[0]))
        return false;
    struct draft draft = draft_of(bytes);
    if (draft.twist > 1 || draft_refused(draft) != 0 || len != draft_size(draft))
        return false;
    return model_ruler(draft, written) == len && memcmp(bytes, written, len) == 0;
}

size_t model_record(const uint8_t *bytes, size_t len, int32_t value)
{
    if (!model_is_ruler(bytes, len))
        return 0;
    for (size_t at = head_of(bytes[0]); at < len; at += 20)
        if ((int32_t)word(bytes + at + 1) == value)
            return at;
    return 0;
}
