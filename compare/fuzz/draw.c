#include "draw.h"

#include <math.h>
#include <string.h>

#include "trial.h"

static uint64_t state;

void seed(uint64_t n) { state = n; }

uint64_t bits(void)
{
    uint64_t z = state += 0x9e3779b97f4a7c15;
    z = (z ^ (z >> 30)) * 0xbf58476d1ce4e5b9;
    z = (z ^ (z >> 27)) * 0x94d049bb133111eb;
    return z ^ (z >> 31);
}

uint64_t below(uint64_t n) { return bits() % n; }

static int64_t within(int64_t least, int64_t greatest)
{
    return least + (int64_t)below((uint64_t)(greatest - least) + 1);
}

#define PICK(list) ((list)[below(sizeof(list) / sizeof *(list))])

static const int32_t WHOLES[] = {
    INT32_MIN, INT32_MIN + 1, -1000000001, -1000000000, -999999999, -1000, -7, -2, -1, 0,
    1, 2, 9, 1000, 999999999, 1000000000, 1000000001, INT32_MAX - 1, INT32_MAX,
};

static const int32_t PIXELS[] = {
    INT32_MIN, INT32_MIN + 1, -1000001, -1000000, -999999, -100, -1, 0,
    1, 2, 1000, 999999, 1000000, 1000001, INT32_MAX - 1, INT32_MAX,
};

static const double REALS[] = {
    0.0, -0.0, NAN, -NAN, INFINITY, -INFINITY, 5e-324, -5e-324, 0x1p-1022, -0x1p-1022,
    0x1.fffffffffffffp+1023, -0x1.fffffffffffffp+1023, 0.001, -0.001, 0.5, -0.5, 1.0, -1.0,
    0x1.fffffffffffffp-1, 0x1.0000000000001p+0, 49.0, -1e3, 1e9, -1e9, 0x1p53, -0x1p53,
    0x1.fffffffffffffp+52, 1000000000.999, -1000000000.999,
};

static const uint64_t EDGES[] = {
    0, 1, 2, 65535, 65536, 65537, 16777215, 16777216, 16777217, 999999999, 1000000000, 1000000001,
    INT32_MAX - 1, INT32_MAX, 0x80000000, UINT32_MAX - 1, UINT32_MAX, 0x100000000, INT64_MAX,
    0x8000000000000000, UINT64_MAX - 1, UINT64_MAX,
};

static int32_t held(int64_t n)
{
    return (int32_t)(n < INT32_MIN ? INT32_MIN : n > INT32_MAX ? INT32_MAX : n);
}

static int64_t power_of_ten(void)
{
    int64_t n = 1;
    for (uint64_t zeros = below(10); zeros > 0; zeros--)
        n *= 10;
    return below(2) ? n : -n;
}

int32_t any_whole(void)
{
    switch (below(16)) {
    case 0: return PICK(WHOLES);
    case 1: return (int32_t)(uint32_t)bits();
    case 2: case 3: case 4: return (int32_t)within(-30, 30);
    case 5: case 6: return held(power_of_ten() + within(-2, 2));
    case 7: case 8: return (int32_t)within(-1000000000, 1000000000);
    default: return (int32_t)(within(-1000000000, 1000000000) / (1 << below(30)));
    }
}

int32_t any_pixel(void)
{
    switch (below(20)) {
    case 0: return PICK(PIXELS);
    case 1: case 2: return (int32_t)within(-20, 20);
    case 3: return below(8) ? 0 : (int32_t)(uint32_t)bits();
    case 4: case 5: case 6: return (int32_t)within(-1000000, 1000000);
    default: return (int32_t)within(-3000, 3000);
    }
}

static double of_bits(uint64_t n)
{
    double real;
    memcpy(&real, &n, sizeof real);
    return real;
}

static double any_real(void)
{
    switch (below(16)) {
    case 0: return PICK(REALS);
    case 1: return of_bits(bits());
    case 2: return nextafter((double)any_whole(), below(2) ? INFINITY : -INFINITY);
    case 3: return ldexp((double)within(-1000, 1000), (int)within(-1074, 1023));
    case 4: case 5: case 6: return (double)within(-1000, 1000);
    case 7: return (double)any_whole();
    case 8: case 9: return (double)within(-100000, 100000) / 3.0;
    default: return (double)within(-1000000, 1000000) / (double)power_of_ten();
    }
}

int32_t draw_whole(const char *name)
{
    int32_t n = any_whole();
    note_whole(name, n);
    return n;
}

int32_t draw_pixel(const char *name)
{
    int32_t n = any_pixel();
    note_whole(name, n);
    return n;
}

double draw_real(const char *name)
{
    double n = any_real();
    note_real(name, n);
    return n;
}

static uint64_t any_natural(void)
{
    switch (below(8)) {
    case 0: return PICK(EDGES);
    case 1: return bits();
    case 2: return bits() >> below(64);
    default: return below(20);
    }
}

uint32_t draw_limit_of_marks(void)
{
    uint32_t m = (uint32_t)any_natural();
    note_natural("m", m);
    return m;
}

uint64_t draw_index(void)
{
    uint64_t k = any_natural();
    note_natural("k", k);
    return k;
}

static uint32_t choice(const char *name, uint32_t choices)
{
    uint32_t n = (uint32_t)(below(16) ? below(choices) : any_natural());
    note_natural(name, n);
    return n;
}

uint32_t draw_method(void) { return choice("method", 4); }
uint32_t draw_kind(void) { return choice("kind", 3); }

void draw_film(int32_t *p, int32_t *q)
{
    *p = draw_pixel("p");
    switch (below(8)) {
    case 0: *q = *p; break;
    case 1: *q = held(*p + within(-3, 3)); break;
    default: *q = any_pixel();
    }
    note_whole("q", *q);
}

void draw_whole_ends(int32_t *a, int32_t *b)
{
    *a = draw_whole("a");
    switch (below(8)) {
    case 0: *b = *a; break;
    case 1: *b = held(*a + within(-3, 3)); break;
    case 2: *b = held(*a + power_of_ten()); break;
    case 3: *b = held(*a + within(0, 100)); break;
    default: *b = any_whole();
    }
    note_whole("b", *b);
}

void draw_index_ends(uint64_t *a, uint64_t *b)
{
    *a = any_natural();
    *b = below(4) ? any_natural() : *a;
    note_natural("a", *a);
    note_natural("b", *b);
}

void draw_real_ends(double *a, double *b)
{
    *a = draw_real("a");
    switch (below(8)) {
    case 0: *b = below(2) ? *a : -*a; break;
    case 1: *b = nextafter(*a, any_real()); break;
    case 2: *b = *a + (double)power_of_ten(); break;
    case 3: *b = *a + (double)within(0, 100); break;
    default: *b = any_real();
    }
    note_real("b", *b);
}

void draw_real_axis(double *a, double *b, uint32_t *m)
{
    static const double lengths[] = {0x1p-52, 0.001, 0.01, 0.1, 1, 10, 100, 1000, 1e4, 1e5, 1e6};
    if (below(4) == 0) {
        draw_real_ends(a, b);
    } else {
        double length = lengths[below(11)] * (double)within(1, 9);
        *a = below(3) ? (double)within(-1000000, 1000000) / (double)power_of_ten() : 1e6;
        *b = *a + (below(2) ? length : -length) * (below(2) ? 1 : (double)below(1000) / 1000);
        if (below(8) == 0)
            *b = nextafter(*b, any_real());
        note_real("a", *a);
        note_real("b", *b);
    }
    if (below(8) == 0) {
        *m = draw_limit_of_marks();
        return;
    }
    *m = (uint32_t)below(below(4) ? 60 : 1003);
    note_natural("m", *m);
}

/* Into how many parts a step shall cut an axis: few, or about as many as a list may have. */
static int64_t parts(void)
{
    switch (below(64)) {
    case 0: return within(65530, 65545);
    case 1: return within(300, 70000);
    default: return within(1, 40);
    }
}

void draw_whole_steps(int32_t *a, int32_t *b, int32_t *d)
{
    draw_whole_ends(a, b);
    *d = any_whole();
    if (below(8) != 0)
        *d = held(((int64_t)*b - *a) / parts() + within(0, 1));
    note_whole("d", *d);
}

/* Steps that do not move, or make long lists, are rare: each costs as much as a thousand others. */
void draw_real_steps(double *a, double *b, double *d)
{
    draw_real_ends(a, b);
    *d = below(32) ? (*b - *a) / (double)parts() : any_real();
    if (below(16) == 0)
        *d = -*d;
    note_real("d", *d);
}

void draw_chart_steps(int32_t *a, int32_t *b, int32_t *d)
{
    if (below(4) == 0) {
        draw_whole_steps(a, b, d);
        return;
    }
    int64_t n = below(2) ? within(1022, 1027) : within(0, 40), step = 1 + (int64_t)below(below(2) ? 3 : 400000);
    int64_t sign = below(2) ? 1 : -1, length = n * step - (int64_t)below((uint64_t)step);
    *a = (int32_t)within(-1000000, 1000000);
    *b = held(*a + sign * length);
    *d = held(sign * step);
    note_whole("a", *a);
    note_whole("b", *b);
    note_whole("d", *d);
}

int32_t draw_pin(int32_t a, int32_t d)
{
    if (below(8) == 0)
        return draw_whole("pin");
    int32_t pin = held(a + within(-1, below(2) ? 1026 : 4) * d + within(-1, 1));
    note_whole("pin", pin);
    return pin;
}

void draw_counts(uint16_t *counts, size_t len)
{
    uint64_t kind = below(4);
    for (size_t k = 0; k < len; k++) {
        uint16_t little = (uint16_t)(kind == 3 ? bits() : k % 3);
        counts[k] = kind == 1 ? UINT16_MAX - little : little;
    }
}

size_t draw_length(uint64_t count, size_t most)
{
    uint64_t len = below(3) ? count + below(3) - 1 : below(40);
    if (below(64) == 0)
        len = below(most + 1);
    len = len > most ? below(most + 1) : len;
    note_natural("len", len);
    return (size_t)len;
}

static size_t list_length(void)
{
    return (size_t)(below(16) ? below(12) : below(LONGEST_LIST + 1));
}

/* Rises or falls by some steps, with an entry out of order at times. */
size_t draw_whole_list(int32_t *list)
{
    size_t len = list_length();
    int64_t at = any_whole(), step = any_whole();
    step /= below(2) ? 1 : LONGEST_LIST;
    for (size_t k = 0; k < len; k++) {
        list[k] = held(at);
        at += step;
    }
    if (len > 0 && below(8) == 0)
        list[below(len)] = any_whole();
    return len;
}

size_t draw_real_list(double *list)
{
    size_t len = list_length();
    double at = any_real(), step = any_real();
    for (size_t k = 0; k < len; k++) {
        list[k] = at;
        at += step;
    }
    if (len > 0 && below(8) == 0)
        list[below(len)] = any_real();
    return len;
}
