/* The marks of a real axis, from request (d): each operation in plotters' order, the decade by powers of ten as C reads them. */
#include <math.h>

#include "model.h"

enum { MOST_ROUNDS = 20, MOST_ASKED = 1000 };
static const double EPSILON = 0x1p-52, FARTHEST = 1e6, NEAREST = 1e-3;

/* Lengths of axes that are marked lie between the first of these and ten times the last. */
static const double POWERS[] = {1e-3, 1e-2, 1e-1, 1e0, 1e1, 1e2, 1e3, 1e4, 1e5, 1e6};

struct scale {
    double step, grain;
};

static double over_multiple(double x, double s)
{
    double over = x - (s > 0 ? floor(x / s) : ceil(x / s)) * s;
    return fabs(over - s) < EPSILON ? 0 : over;
}

static double first_mark(double lo, double s)
{
    double first = lo - over_multiple(lo, s);
    return first < lo ? first + s : first;
}

static double last_mark(double hi, double s)
{
    return hi - over_multiple(hi, s);
}

static uint64_t points(double lo, double hi, double step, double parts)
{
    return (uint64_t)round(1 + (last_mark(hi, step / parts) - first_mark(lo, step / parts)) / step * parts);
}

static struct scale first_scale(double lo, double hi, uint32_t m)
{
    double decade = POWERS[0];
    for (size_t at = 0; at < sizeof POWERS / sizeof *POWERS && POWERS[at] <= hi - lo; at++)
        decade = POWERS[at];
    double grain = decade / 10;
    if (1 + (uint64_t)floor((hi - lo) / decade) > m)
        return (struct scale){decade * 10, grain * 10};
    return (struct scale){decade, grain};
}

/* False if there would be one round too many. */
static bool find_scale(double lo, double hi, uint32_t m, struct scale *found)
{
    struct scale now = first_scale(lo, hi, m);
    for (int begun = 0; begun < MOST_ROUNDS; begun++) {
        static const double parts[] = {2, 5, 10};
        *found = now;
        for (int at = 0; at < 3; at++) {
            if (points(lo, hi, now.step, parts[at]) > m)
                return true;
            found->step = now.step / parts[at];
        }
        now = (struct scale){now.step / 10, now.grain / 10};
    }
    return false;
}

/* Up to one more than there may be. */
static uint64_t list_marks(double lo, double hi, struct scale scale, double *list)
{
    double first = first_mark(lo, scale.step), last = last_mark(hi, scale.step);
    double base = floor(first / scale.grain) * scale.grain, distance = first - base;
    uint64_t count = 0;
    while (count <= MOST_REAL_MARKS && last - distance - base >= -EPSILON) {
        if (round(distance / scale.grain) * scale.grain < 0)
            distance += scale.grain;
        list[count++] = distance + base;
        distance += scale.step;
    }
    return count;
}

int32_t model_real_marks(double a, double b, uint32_t m, double *list, uint64_t *count)
{
    double lo = b < a ? b : a, hi = b < a ? a : b;
    struct scale scale;
    *count = 0;
    if (m == 0)
        return ANSWERED;
    if (!(fabs(a) <= FARTHEST && fabs(b) <= FARTHEST) || m > MOST_ASKED)
        return 17;
    if (fabs(lo - hi) < EPSILON) {
        list[(*count)++] = lo;
        return ANSWERED;
    }
    if (fabs(lo - hi) < NEAREST || !find_scale(lo, hi, m, &scale))
        return 17;
    *count = list_marks(lo, hi, scale, list);
    if (*count <= MOST_REAL_MARKS)
        return ANSWERED;
    *count = 0;
    return 17;
}
