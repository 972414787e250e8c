/*
 * culvraod: marks, places, readings and labels of axes, as in the axis code
 * of the Rust crate plotters 0.3.7.
 *
 * Every call returns an int32_t:
 *    0   answered: the answer stands where the pointers point;
 *   -1   none: there is no such value (only calls that say so);
 *   1..  refused: of the numbers that apply the first of 23, 26, 27, 1, 2, 18, 3
 *        to 9, 20 to 22, 10, 19, 11, 12, 28, 17, 24, 25, 13 to 16, in this
 *        order; of a film, behind 23, that of its first border that is refused.
 *
 * Memory:
 *   - A list is a pointer and its length in entries. The pointer is valid even
 *     where the length is 0.
 *   - What one pointer of a call refers to must not overlap what another does.
 *   - Unless 0 is returned nothing is written, neither to a list nor through
 *     any other pointer.
 *   - On 0 a list is written from its first entry up to the count given back.
 *     All entries from there on keep their contents. (A chart is no such list:
 *     its calls say what they write.) culv_ruler_shift gives no count back: it
 *     leaves a ruler as long as the one that it was lent.
 *   - No call allocates or keeps a pointer after it has returned.
 *
 * Numbers:
 *   - Every combination of numbers may be passed.
 *   - Admitted are ends, values, steps and list entries from -1000000000 to
 *     1000000000 where they are whole, and all where they are doubles; ends of
 *     an index axis up to 1000000000; limits and pixels from -1000000 to
 *     1000000; methods up to 3; kinds up to 2.
 *   - An axis leads from a to b and a film from p to q; both may rise or fall.
 */
#ifndef CULVRAOD_H
#define CULVRAOD_H

#include <stddef.h>
#include <stdint.h>

#ifdef __cplusplus
extern "C" {
#endif

/* What a call returns. Each call lists the refusals that it can give. */
enum {
    CULV_NONE = -1,
    CULV_ANSWERED = 0,
    CULV_WHOLE_NOT_ADMITTED = 1,  /* a whole end, value, step or list entry is not admitted */
    CULV_LIMIT_NOT_ADMITTED = 2,  /* a limit or pixel is not admitted */
    CULV_NO_STEP = 3,             /* none of the 28 steps serves */
    CULV_NO_SEGMENTS = 4,         /* no segments, or too many of them */
    CULV_TOO_FAR = 5,             /* the place is too far from the first limit */
    CULV_STEP_AGAINST_AXIS = 6,   /* the step is zero or leads away from the end */
    CULV_LIST_TOO_LONG = 7,       /* a stepped list has too many entries */
    CULV_NOT_MONOTONE = 8,        /* the searched list neither rises nor falls strictly */
    CULV_NAN_TARGET = 9,          /* the target of the search is NaN */
    CULV_ABOVE_I32 = 10,          /* the value is above 2147483647 */
    CULV_NOT_PRINTABLE = 11,      /* NaN, an infinity, or a number of size 2^53 or more */
    CULV_TOO_MANY_DECIMALS = 12,  /* more decimals asked for than a label can have */
    CULV_OUT_TOO_SHORT = 13,      /* the list or the bytes to be written are too short */
    CULV_NOT_A_RULER = 14,        /* the bytes are no ruler, or none of the kind that is asked for */
    CULV_UNKNOWN_TWIST = 15,      /* the twist is neither 0 nor 1 */
    CULV_TWIST_LOST = 16,         /* a Z ruler is to move back */
    CULV_REAL_AXIS_NOT_MARKED = 17, /* the real axis, or its mark limit, has no marks */
    CULV_NOT_ON_AXIS = 18,        /* the needle lies off its axis, or the axis has no length */
    CULV_BELOW_I32 = 19,          /* the value is below -2147483647 */
    CULV_NO_CHART_ENTRY = 20,     /* the pin is at no entry, or the list is too long for a chart */
    CULV_COUNT_FULL = 21,         /* there are 65535 pins at the entry already */
    CULV_COUNT_EMPTY = 22,        /* there is no pin at the entry */
    CULV_BORDER_COUNT = 23,       /* a film without borders, or with more than 16 */
    CULV_TOO_MANY_DIGITS = 24,    /* more than 6 digits are to be decimals */
    CULV_NOT_A_DECIMAL = 25,      /* the text is printed of no admitted number */
    CULV_BAD_WEEK = 26,           /* the windows are no running week */
    CULV_BAD_MINUTE = 27,         /* the clock minute is above 10079 */
    CULV_TOO_SMALL = 28           /* the number of a scientific label is below 1e-307 in size, and not 0 */
};

/* The most marks that culv_real_key_points gives: a list of so many always
 * suffices. */
#define CULV_REAL_MARKS_MAX 2000

/* How many counts a chart has: so many are to be lent, and a list of more
 * entries has no chart. */
#define CULV_CHART_COUNTS 1024

/* ---- Axes of whole numbers and of indices ---- */

/*
 * Marks on the whole axis from a to b, with the mark limit m.
 *
 * Of the 28 steps 1, 2, 5, 10, 20, 50 up to 1000000000 the first is chosen
 * that divides the axis into at most m parts if it is a power of ten, and into
 * fewer than m parts otherwise. The marks are the multiples of that step,
 * ascending, from the least one not below the smaller end, to the larger end
 * cut to a multiple toward zero. When the larger end is below zero the last
 * mark may lie past it. There may be no mark, and there are at most m + 1.
 *
 * 0: *step is the step, *count the number of marks, out[0] to out[*count - 1]
 *    are the marks.
 * Refused:
 *    1: a or b is not admitted;
 *    3: no step serves: m is 0 and a is not b, or m is 1 and the ends are more
 *       than 1000000000 apart;
 *   13: len is less than the number of marks.
 */
int32_t culv_whole_key_points(int32_t a, int32_t b, uint32_t m,
                              int32_t *out, size_t len,
                              int32_t *step, size_t *count);

/*
 * Marks on the index axis from a to b, with the mark limit m. Steps and marks
 * are those of culv_whole_key_points.
 *
 * 0: *step is the step, *count the number of marks, out[0] to out[*count - 1]
 *    are the marks.
 * Refused:
 *    1: a or b is not admitted;
 *    3: no step serves: m is 0 and a is not b;
 *   13: len is less than the number of marks.
 */
int32_t culv_index_key_points(uint64_t a, uint64_t b, uint32_t m,
                              uint64_t *out, size_t len,
                              uint64_t *step, size_t *count);

/* ---- Axes of real numbers ---- */

/*
 * Marks on the real axis from a to b, with the mark limit m, as plotters gives
 * them; only the decade of the length, the greatest power of ten not above it,
 * is from a table of the doubles nearest to the powers of ten, so that marks do
 * not depend on a platform's logarithm.
 *
 * The marks ascend by a step of 1, 2 or 5 times a power of ten; every operation
 * is rounded as a double. If m is 0 there is none, whatever a and b are. Ends
 * closer than 2^-52 (DBL_EPSILON) have the smaller one as their only mark, a if
 * they are equal. In runs there were never more than m + 1.
 *
 * 0: *count is the number of marks, out[0] to out[*count - 1] are the marks.
 * Refused:
 *   17: m is not 0, and a or b is NaN or not from -1000000 to 1000000; or the
 *       ends differ by 2^-52 or more, but by less than 0.001; or m is above
 *       1000; or the step is not found in 20 rounds, or there are more than
 *       2000 marks, for which no input is known;
 *   13: len is less than the number of marks.
 */
int32_t culv_real_key_points(double a, double b, uint32_t m,
                             double *out, size_t len, size_t *count);

/* ---- Places on the film ---- */

/*
 * The pixel of the value v on the whole axis from a to b, on a film from p to
 * q. v may lie outside the axis.
 *
 * If a is b, the place is q - p halved and cut toward zero; p is not added.
 * Otherwise t is (v - a) / (b - a). If p is q, the place is q. If q is above
 * p, it is p plus the floor of (q - p) * t + 0.001; if below, p plus the
 * ceiling of (q - p) * t - 0.001. Every operation is rounded as a double.
 *
 * 0: *pixel is the place.
 * Refused:
 *    1: a, b or v is not admitted;
 *    2: p or q is not admitted;
 *    5: the whole number added to p is not within -1000000000 to 1000000000.
 */
int32_t culv_whole_map(int32_t a, int32_t b, int32_t v, int32_t p, int32_t q,
                       int32_t *pixel);

/*
 * How far the needle v of the whole axis from a to b lies from p, counted
 * exactly: |q - p| * |v - a| divided by |b - a|, in whole numbers. The needle
 * is *quotient pixels away from p, toward q, and *remainder parts of a pixel
 * more, of which |b - a| make one.
 *
 * The place that culv_whole_map gives for the same numbers is *quotient pixels
 * away from p, toward q, or one more; one more only where 1000 * *remainder is
 * at least 998 * |b - a|, counted in 64 bits. The mirrored needle (all five
 * numbers negated) has the same quotient and remainder.
 *
 * 0: *quotient, which is at most |q - p|, and *remainder, which is below
 *    |b - a|, are the answer.
 * Refused:
 *    1: a, b or v is not admitted;
 *    2: p or q is not admitted;
 *   18: a is b, or v lies off the axis.
 */
int32_t culv_whole_map_exact(int32_t a, int32_t b, int32_t v,
                             int32_t p, int32_t q,
                             uint32_t *quotient, uint32_t *remainder);

/*
 * The pixel of the value v on the real axis from a to b; -0.0 is 0.0. The place
 * is that of culv_whole_map, and besides, unless a is b or p is q: where t is
 * infinite, the place is q, or p if t is below zero; where t is NaN, the whole
 * number added to p is 0.
 *
 * 0: *pixel is the place.
 * Refused:
 *    2: p or q is not admitted;
 *    5: the whole number added to p is not within -1000000000 to 1000000000.
 */
int32_t culv_real_map(double a, double b, double v, int32_t p, int32_t q,
                      int32_t *pixel);

/* ---- Counts and indices of whole axes ---- */

/*
 * The number of values of the whole axis from a to b: b - a + 1, or 0 if b is
 * below a.
 *
 * 0: *n is the number.
 * Refused:
 *    1: a or b is not admitted.
 */
int32_t culv_whole_size(int32_t a, int32_t b, uint64_t *n);

/*
 * The index of the value v on the whole axis from a to b: v - a, even if v is
 * above b.
 *
 * 0: *k is the index.
 * None: v is below a.
 * Refused:
 *    1: a, b or v is not admitted.
 */
int32_t culv_whole_index_of(int32_t a, int32_t b, int32_t v, uint64_t *k);

/*
 * The value at the index k on the whole axis from a to b: a + k, even if that
 * is above b.
 *
 * 0: *v is the value.
 * None: k is above 2147483647.
 * Refused:
 *    1: a or b is not admitted;
 *   10: k is at most 2147483647, but a + k is above it.
 */
int32_t culv_whole_from_index(int32_t a, int32_t b, uint64_t k, int32_t *v);

/* ---- Readings ---- */

/*
 * The value of the whole axis from a to b at the pixel x of a film from p to q.
 *
 * With n as in culv_whole_size, its index is the floor of
 * (x - p) * n / (q - p), worked out exactly, and 0 where that is below zero;
 * the value is then that of culv_whole_from_index. If p is q, the index is 0,
 * but there is none where x is above p and n is not 0.
 *
 * 0: *v is the value.
 * None: the index is above 2147483647, or there is none.
 * Refused:
 *    1: a or b is not admitted;
 *    2: x, p or q is not admitted;
 *   10: the index is at most 2147483647, but a plus the index is above it.
 */
int32_t culv_whole_unmap(int32_t a, int32_t b, int32_t x, int32_t p, int32_t q,
                         int32_t *v);

/*
 * The value of the whole axis from a to b, by the way it runs, at the pixel x
 * of a film from p to q.
 *
 * If a is at most b, this is culv_whole_unmap, number for number. If b is below
 * a, the axis has the a - b + 1 values from a down to b; the index is that of
 * culv_whole_unmap for so many values, and the value is a minus the index, also
 * where that is below b.
 *
 * Where a is not b and p is not q, the mirrored axis (a, b, x, p and q negated)
 * has the negated value, or none where there is none, or 19 for 10 and 10 for
 * 19, or the same other refusal.
 *
 * 0: *v is the value.
 * None: the index is above 2147483647, or there is none.
 * Refused:
 *    1: a or b is not admitted;
 *    2: x, p or q is not admitted;
 *   10: the index is at most 2147483647, but a plus the index is above it (a at
 *       most b);
 *   19: the index is at most 2147483647, but a minus the index is below
 *       -2147483647 (b below a).
 */
int32_t culv_whole_unmap_directed(int32_t a, int32_t b, int32_t x,
                                  int32_t p, int32_t q, int32_t *v);

/*
 * The value of the real axis from a to b at the pixel x of a film from p to q:
 * (b - a) * ((x - p) / (q - p)) + a, every operation rounded as a double.
 *
 * 0: *v is the value, which may be infinite or NaN.
 * None: x is not from p to q, or p is q.
 * Refused:
 *    2: x, p or q is not admitted.
 */
int32_t culv_real_unmap(double a, double b, int32_t x, int32_t p, int32_t q,
                        double *v);

/* ---- Searches ---- */

/*
 * The index of an entry of a list of whole numbers, which strictly rises or
 * strictly falls and may have any length. method says which entry is meant:
 *    0   exact: the one that is target;
 *    1   up: the least one that is not below target;
 *    2   down: the greatest one that is not above target;
 *    3   nearest: of the last one before target and the next one, in the
 *        list's order, the one that differs less from it, the later one if
 *        they differ alike; the only one of them if there is no other.
 * In an empty list the nearest has the index 0.
 *
 * 0: *k is the index, counted from 0.
 * None: there is no such entry.
 * Refused:
 *    1: an entry, target or method is not admitted;
 *    8: the list neither strictly rises nor strictly falls.
 */
int32_t culv_search_whole(const int32_t *list, size_t len, int32_t target,
                          uint32_t method, uint64_t *k);

/*
 * The index of an entry of a list of doubles; -0.0 is 0.0. The entries are
 * those of culv_search_whole; the differences are rounded as doubles.
 *
 * 0: *k is the index, counted from 0.
 * None: there is no such entry.
 * Refused:
 *    1: method is not admitted;
 *    8: the list neither strictly rises nor strictly falls, or holds NaN;
 *    9: target is NaN, the list has entries, and method is not 0.
 */
int32_t culv_search_real(const double *list, size_t len, double target,
                         uint32_t method, uint64_t *k);

/* ---- Stepped lists ---- */

/*
 * The list of an axis from a to b by the step d is a, a + d, (a + d) + d and
 * so on while before b, so that b is never an entry. It is empty if a is b, or
 * if a + d has reached or passed b; otherwise it has two entries or more. On a
 * real axis every sum is rounded as a double, and -0.0 is 0.0; the list is
 * empty too if a, b or a + d is NaN, and has no end where the step is too small
 * to move a sum.
 *
 * Each of these calls stands for whole numbers and for doubles. It names its
 * refusals by their numbers, those that one of the two alone can give with its
 * kind; they mean:
 *    1: a, b, d, v or method is not admitted;
 *    2: x, p or q is not admitted;
 *    3: m is 0 and the list has entries, be there too many of them or without
 *       end;
 *    5: the whole number added to p is not within -1000000000 to 1000000000;
 *    6: a is below b and d is 0 or below, or a is above b and d is 0 or above;
 *    7: the list has more than 65536 entries;
 *    9: v is NaN, the list has entries, and method is not 0;
 *   13: len is less than the number of marks.
 */

/*
 * The list of the axis from a to b by the step d.
 *
 * 0: *count is the number of entries, out[0] to out[*count - 1] are the
 *    entries.
 * Refused: 1 (whole), 6, and 7 also where the list has more than len entries.
 */
int32_t culv_step_whole_values(int32_t a, int32_t b, int32_t d,
                               int32_t *out, size_t len, size_t *count);
int32_t culv_step_real_values(double a, double b, double d,
                              double *out, size_t len, size_t *count);

/*
 * The number of entries of the list.
 *
 * 0: *n is the number.
 * Refused: 1 (whole), 6, 7.
 */
int32_t culv_step_whole_size(int32_t a, int32_t b, int32_t d, uint64_t *n);
int32_t culv_step_real_size(double a, double b, double d, uint64_t *n);

/*
 * The entry of the list at the index k, counted from 0.
 *
 * 0: *v is the entry.
 * None: the list has no more than k entries.
 * Refused: 1 (whole), 6, 7.
 */
int32_t culv_step_whole_from_index(int32_t a, int32_t b, int32_t d, uint64_t k,
                                   int32_t *v);
int32_t culv_step_real_from_index(double a, double b, double d, uint64_t k,
                                  double *v);

/*
 * The index of v in the list, by the method of culv_search_whole and
 * culv_search_real.
 *
 * 0: *k is the index, counted from 0.
 * None: there is no such entry.
 * Refused: 1, 6, 7, 9 (real).
 */
int32_t culv_step_whole_index_of(int32_t a, int32_t b, int32_t d, int32_t v,
                                 uint32_t method, uint64_t *k);
int32_t culv_step_real_index_of(double a, double b, double d, double v,
                                uint32_t method, uint64_t *k);

/*
 * The pixel of the value v: that of culv_whole_map or culv_real_map on the axis
 * from a to b.
 *
 * 0: *pixel is the place.
 * Refused: 1 (whole), 2, 5, 6, 7.
 */
int32_t culv_step_whole_map(int32_t a, int32_t b, int32_t d, int32_t v,
                            int32_t p, int32_t q, int32_t *pixel);
int32_t culv_step_real_map(double a, double b, double d, double v,
                           int32_t p, int32_t q, int32_t *pixel);

/*
 * The entry of the list at the pixel x of a film from p to q.
 *
 * With n the number of entries, its index is the floor of
 * (x - p) * n / (q - p), worked out exactly, and 0 where that is below zero.
 * If p is q, the index is 0, but there is none where x is above p and n is not
 * 0.
 *
 * 0: *v is the entry.
 * None: there is no index, or no entry at it.
 * Refused: 1 (whole), 2, 6, 7.
 */
int32_t culv_step_whole_unmap(int32_t a, int32_t b, int32_t d, int32_t x,
                              int32_t p, int32_t q, int32_t *v);
int32_t culv_step_real_unmap(double a, double b, double d, int32_t x,
                             int32_t p, int32_t q, double *v);

/*
 * Marks of the axis, with the mark limit m: the entries of the list at the
 * indices that culv_index_key_points marks from 0 to the last one. There is
 * none if the list is empty, and there are at most m + 1.
 *
 * 0: *count is the number of marks, out[0] to out[*count - 1] are the marks.
 * Refused: 1 (whole), 3, 6, 7, 13.
 */
int32_t culv_step_whole_key_points(int32_t a, int32_t b, int32_t d, uint32_t m,
                                   int32_t *out, size_t len, size_t *count);
int32_t culv_step_real_key_points(double a, double b, double d, uint32_t m,
                                  double *out, size_t len, size_t *count);

/* ---- Segments ---- */

/*
 * Segments stand on an axis that has entries: each entry begins one, and one
 * value more stands behind all of them. In these calls a value is a kind and,
 * for the first two kinds, a number v:
 *    0   exact: where the segment of v begins;
 *    1   center: the middle of the segment of v;
 *    2   last: what stands behind all entries. v is not looked at where it is
 *        passed, and is 0 where it is given back.
 *
 * Each of these calls names its refusals by their numbers, which mean:
 *    1: a, b, d, v, method or kind is not admitted;
 *    2: x, p or q is not admitted;
 *    3: as where the axis is marked without segments;
 *    4: the whole axis has no values, b being below a, or more than 16777216,
 *       or the list is empty;
 *    5: neither 6 nor 7 applies, and the whole number added to p for the place
 *       of exact v is not within -1000000000 to 1000000000;
 *    6, 7: as for stepped lists;
 *   13: len is less than the number of marks.
 */

/*
 * The number of values of the segments over the whole axis from a to b: one
 * more than culv_whole_size gives.
 *
 * 0: *n is the number.
 * Refused: 1, 4.
 */
int32_t culv_seg_whole_size(int32_t a, int32_t b, uint64_t *n);

/*
 * The pixel of a value of the segments over the whole axis from a to b, on a
 * film from p to q. v may lie outside the axis.
 *
 * The margin is (q - p) / n, n being that of culv_whole_size, rounded as a
 * float and then to a whole number, halves away from zero. The place of exact
 * v is that of culv_whole_map with the limits p and q - margin. That of center
 * v is the sum of it and of the place of v + 1, halved and cut toward zero, if
 * v is from a to b - 1; otherwise it is the place of exact v plus half the
 * margin, cut toward zero. That of last is q.
 *
 * 0: *pixel is the place.
 * Refused: 1, 2, 4, 5.
 */
int32_t culv_seg_whole_map(int32_t a, int32_t b, uint32_t kind, int32_t v,
                           int32_t p, int32_t q, int32_t *pixel);

/*
 * The index of a value of the segments over the whole axis from a to b: that
 * of culv_whole_index_of for exact and center, and the number of values of the
 * axis for last.
 *
 * 0: *k is the index, counted from 0.
 * None: v is below a.
 * Refused: 1, 4.
 */
int32_t culv_seg_whole_index_of(int32_t a, int32_t b, uint32_t kind, int32_t v,
                                uint64_t *k);

/*
 * The value at the index k of the segments over the whole axis from a to b:
 * exact for each value of the axis, then last.
 *
 * 0: *kind and *v are the value.
 * None: k is above the index of last.
 * Refused: 1, 4.
 */
int32_t culv_seg_whole_from_index(int32_t a, int32_t b, uint64_t k,
                                  uint32_t *kind, int32_t *v);

/*
 * The value of the segments over the whole axis from a to b at the pixel x of
 * a film from p to q.
 *
 * With n as in culv_seg_whole_size, its index is the floor of
 * (x - p) * n / (q - p), worked out exactly, and 0 where that is below zero.
 * If p is q, the index is 0, but there is none where x is above p.
 *
 * 0: *kind and *v are the value.
 * None: there is no index, or no value at it.
 * Refused: 1, 2, 4.
 */
int32_t culv_seg_whole_unmap(int32_t a, int32_t b, int32_t x, int32_t p,
                             int32_t q, uint32_t *kind, int32_t *v);

/*
 * Marks of the segments over the whole axis from a to b, with the mark limit
 * m: those of culv_whole_key_points, each of which stands for center of it.
 *
 * 0: *step is the step, *count the number of marks, out[0] to out[*count - 1]
 *    are the marks.
 * Refused: 1, 3, 4, 13.
 */
int32_t culv_seg_whole_key_points(int32_t a, int32_t b, uint32_t m,
                                  int32_t *out, size_t len,
                                  int32_t *step, size_t *count);

/*
 * The calls that follow are on segments over the list of an axis by a step, that
 * of culv_step_whole_values or of culv_step_real_values.
 */

/*
 * The number of values: one more than the entries of the list.
 *
 * 0: *n is the number.
 * Refused: 1 (whole), 4, 6, 7.
 */
int32_t culv_seg_step_whole_size(int32_t a, int32_t b, int32_t d, uint64_t *n);
int32_t culv_seg_step_real_size(double a, double b, double d, uint64_t *n);

/*
 * The pixel of a value, on a film from p to q. v may lie outside the axis or
 * between entries.
 *
 * The margin is that of culv_seg_whole_map, n being the number of entries. The
 * place of exact v is that of culv_whole_map or culv_real_map on the axis from
 * a to b with the limits p and q - margin. That of center v is the sum of it
 * and of the place of the entry one after the index of v by the method of
 * culv_search_whole and culv_search_real, halved and cut toward zero. Where
 * there is no such index or no such entry it is the place of exact v plus half
 * the margin, cut toward zero. That of last is q.
 *
 * 0: *pixel is the place.
 * Refused: 1, 2, 4, 5, 6, 7, and 9 (real) where v is NaN, kind is 1, and method
 * is not 0.
 */
int32_t culv_seg_step_whole_map(int32_t a, int32_t b, int32_t d,
                                uint32_t method, uint32_t kind, int32_t v,
                                int32_t p, int32_t q, int32_t *pixel);
int32_t culv_seg_step_real_map(double a, double b, double d,
                               uint32_t method, uint32_t kind, double v,
                               int32_t p, int32_t q, int32_t *pixel);

/*
 * The index of a value: that of culv_step_whole_index_of or
 * culv_step_real_index_of for exact and center, and the number of entries for
 * last.
 *
 * 0: *k is the index, counted from 0.
 * None: there is no such entry.
 * Refused: 1, 4, 6, 7, and 9 (real) where v is NaN, kind is not 2, and method
 * is not 0.
 */
int32_t culv_seg_step_whole_index_of(int32_t a, int32_t b, int32_t d,
                                     uint32_t method, uint32_t kind,
                                     int32_t v, uint64_t *k);
int32_t culv_seg_step_real_index_of(double a, double b, double d,
                                    uint32_t method, uint32_t kind,
                                    double v, uint64_t *k);

/*
 * The value at the index k: exact for each entry, then last.
 *
 * 0: *kind and *v are the value.
 * None: k is above the index of last.
 * Refused: 1 (whole), 4, 6, 7.
 */
int32_t culv_seg_step_whole_from_index(int32_t a, int32_t b, int32_t d,
                                       uint64_t k, uint32_t *kind,
                                       int32_t *v);
int32_t culv_seg_step_real_from_index(double a, double b, double d,
                                      uint64_t k, uint32_t *kind,
                                      double *v);

/*
 * The value at the pixel x of a film from p to q. Its index is worked out as in
 * culv_seg_whole_unmap, with n the number of values.
 *
 * 0: *kind and *v are the value.
 * None: there is no index, or no value at it.
 * Refused: 1 (whole), 2, 4, 6, 7.
 */
int32_t culv_seg_step_whole_unmap(int32_t a, int32_t b, int32_t d, int32_t x,
                                  int32_t p, int32_t q, uint32_t *kind,
                                  int32_t *v);
int32_t culv_seg_step_real_unmap(double a, double b, double d, int32_t x,
                                 int32_t p, int32_t q, uint32_t *kind,
                                 double *v);

/*
 * Marks, with the mark limit m: those of culv_step_whole_key_points or
 * culv_step_real_key_points, each of which stands for center of it.
 *
 * 0: *count is the number of marks, out[0] to out[*count - 1] are the marks.
 * Refused: 1 (whole), 3, 4, 6, 7, 13.
 */
int32_t culv_seg_step_whole_key_points(int32_t a, int32_t b, int32_t d,
                                       uint32_t m, int32_t *out, size_t len,
                                       size_t *count);
int32_t culv_seg_step_real_key_points(double a, double b, double d,
                                      uint32_t m, double *out, size_t len,
                                      size_t *count);

/* ---- Fault charts ---- */

/*
 * A chart counts pins at the entries of a stepped list, that of
 * culv_step_whole_values: counts[k] is the number of pins at entry k. A pin
 * counts at the entry that culv_step_whole_index_of finds for it with method 2,
 * the greatest one that is not above the pin.
 *
 * A chart has CULV_CHART_COUNTS counts, however few entries its list has; the
 * caller keeps them, and lends them with the same a, b and d every time. len is
 * the number of counts lent; those from counts[CULV_CHART_COUNTS] on are neither
 * read nor written. No call writes a count past the list but culv_chart_clear,
 * which makes it zero.
 *
 * After any pins set and pulled on a chart that was cleared, each count is the
 * number of pins set at its entry less that of pins pulled there, those that
 * were refused left out. Two pins at different entries may be set or pulled in
 * either order. A pin that was set can be pulled, and the chart is as before.
 *
 * The refusals mean:
 *    1: a, b, d or pin is not admitted;
 *    6, 7: as for stepped lists;
 *   20: the list has more than CULV_CHART_COUNTS entries, or none of them is
 *       that of the pin;
 *   21: the count is 65535;
 *   22: the count is 0;
 *   13: len is less than CULV_CHART_COUNTS, which holds no chart: 21 and 22 are
 *       not met there.
 */

/*
 * Makes the counts an empty chart: the first CULV_CHART_COUNTS become 0.
 *
 * 0: that is done.
 * Refused: 1, 6, 7, 20 (too many entries), 13.
 */
int32_t culv_chart_clear(int32_t a, int32_t b, int32_t d,
                         uint16_t *counts, size_t len);

/*
 * Sets a pin: the count at its entry becomes one more. Every other count stays.
 *
 * 0: that is done.
 * Refused: 1, 6, 7, 20, 21, 13.
 */
int32_t culv_chart_set(int32_t a, int32_t b, int32_t d, int32_t pin,
                       uint16_t *counts, size_t len);

/*
 * Pulls a pin: the count at its entry becomes one less. Every other count stays.
 *
 * 0: that is done.
 * Refused: 1, 6, 7, 20, 22, 13.
 */
int32_t culv_chart_pull(int32_t a, int32_t b, int32_t d, int32_t pin,
                        uint16_t *counts, size_t len);

/* ---- Rulers as bytes ---- */

/*
 * The ruler of the whole axis from a to b, with the limits p and q on the film
 * and the mark limit m, written to out, which has len bytes.
 *
 * A ruler is a record for the axis and one for each mark, ascending. The
 * axis's has 25 bytes: the kind 1, a, b, p, q, m and the step. A mark's has 20:
 * the kind 2, the needle, its place, and the needle in base ten with blanks on
 * its left, 11 bytes in all. Numbers have four bytes, the lowest first. The
 * marks are those of culv_whole_key_points.
 *
 * 0: *bytes is the number of bytes written, 25 + 20 * *marks.
 * Refused:
 *    1: a or b is not admitted;
 *    2: p or q is not admitted;
 *    3: no step serves;
 *   13: len is too small.
 */
int32_t culv_ruler_write(int32_t a, int32_t b, int32_t p, int32_t q, uint32_t m,
                         uint8_t *out, size_t len, size_t *bytes, size_t *marks);

/*
 * The same with marks that stay on the axis: the multiples of the step from the
 * smaller end to the larger one, both included. The axis's record begins with
 * the kind 3; all else is as above, refusals too.
 */
int32_t culv_ruler_write_inside(int32_t a, int32_t b, int32_t p, int32_t q,
                                uint32_t m, uint8_t *out, size_t len,
                                size_t *bytes, size_t *marks);

/*
 * Both with the thread's twist, 0 for S and 1 for Z, as a last byte of the
 * axis's record, which then has 26: kind 5 is kind 1 with a twist, and kind 6
 * is kind 3.
 *
 * 0: *bytes is the number of bytes written, 26 + 20 * *marks.
 * Refused:
 *    1, 2, 3, 13: as above;
 *   15: twist is neither 0 nor 1.
 */
int32_t culv_ruler_write_twisted(int32_t a, int32_t b, int32_t p, int32_t q,
                                 uint32_t m, uint32_t twist, uint8_t *out,
                                 size_t len, size_t *bytes, size_t *marks);
int32_t culv_ruler_write_inside_twisted(int32_t a, int32_t b, int32_t p,
                                        int32_t q, uint32_t m, uint32_t twist,
                                        uint8_t *out, size_t len, size_t *bytes,
                                        size_t *marks);

/*
 * Moves a stored ruler of kind 1 or 3 over to kind 5 or 6, as S: out gets the
 * bytes that the writer with the twist 0 gives for its numbers.
 *
 * 0: *written is the number of bytes, len + 1.
 * Refused:
 *   13: the bytes are such a ruler, and out_len is too small;
 *   14: the bytes are no ruler of kind 1 or 3, whatever is lent.
 */
int32_t culv_ruler_upgrade(const uint8_t *bytes, size_t len, uint8_t *out,
                           size_t out_len, size_t *written);

/*
 * Moves an S ruler of kind 5 or 6 back to kind 1 or 3: out gets its old bytes.
 *
 * 0: *written is the number of bytes, len - 1.
 * Refused:
 *   13: the bytes are a ruler of kind 5 or 6, and out_len is too small;
 *   14: the bytes are no such ruler, whatever is lent;
 *   16: the twist is Z.
 */
int32_t culv_ruler_downgrade(const uint8_t *bytes, size_t len, uint8_t *out,
                             size_t out_len, size_t *written);

/*
 * Moves a ruler of any kind along the film, where it lies: the bytes become
 * those that its writer gives for p + c and q + c, with the same a, b, m, kind
 * and twist. They are as many as before. Only p, q and the places of the marks
 * change, each by c; if a is b, the places stay, since p is no part of them.
 *
 * 0: all bytes are those of the moved ruler.
 * Refused:
 *    2: the bytes are a ruler, and p + c or q + c is not admitted;
 *   14: the bytes are no ruler.
 */
int32_t culv_ruler_shift(uint8_t *bytes, size_t len, int32_t c);

/*
 * Reads a ruler of any kind: bytes that one of the four writers gives for the
 * numbers in them, and no others.
 *
 * 0: the numbers that it was written for, its step and the number of marks.
 * Refused:
 *   14: the bytes are no ruler.
 */
int32_t culv_ruler_read(const uint8_t *bytes, size_t len, int32_t *a, int32_t *b,
                        int32_t *p, int32_t *q, uint32_t *m, int32_t *step,
                        size_t *marks);

/*
 * The same, and *kind is the kind, 1, 3, 5 or 6, and *twist the twist: 0 where
 * the kind has none.
 */
int32_t culv_ruler_read_kind(const uint8_t *bytes, size_t len, int32_t *a,
                             int32_t *b, int32_t *p, int32_t *q, uint32_t *m,
                             int32_t *step, size_t *marks, uint32_t *kind,
                             uint32_t *twist);

/*
 * Where in a ruler of any kind the label of a mark lies, without its blanks.
 *
 * 0, always: *part_len bytes from bytes + *start on. Both are 0 where value is
 * no mark of the ruler, or the bytes are no ruler.
 */
int32_t culv_ruler_label(const uint8_t *bytes, size_t len, int32_t value,
                         size_t *start, size_t *part_len);

/*
 * Where in a pair of rulers the record of a mark lies: in the left one if value
 * is below zero, otherwise in the right one; the other is not looked at. The
 * two may be of different kinds.
 *
 * 0, always: *which is 0 for the left ruler or 1 for the right, and the record
 * is *part_len bytes from *start on in that ruler: 20, or 0 with *start 0 where
 * value is no mark of it, or its bytes are no ruler.
 */
int32_t culv_ruler_pair(const uint8_t *left, size_t left_len,
                        const uint8_t *right, size_t right_len, int32_t value,
                        uint32_t *which, size_t *start, size_t *part_len);

/* ---- Labels of real numbers ---- */

/*
 * The label of n: at most max_decimal decimals of its own, and zeros until
 * there are min_decimal. It is written to out, which has len bytes; 38 are
 * always enough. No byte of value 0 is put behind the label.
 *
 * n is shortened with a tolerance, at first 1 over ten to the power
 * max_decimal. Where that has reached 1, n stays as it is; else if the floor
 * of n, or else its ceiling, is nearer than the tolerance, it takes the place
 * of n; else ten times the fraction is shortened in the same way, with ten
 * times the tolerance, and a tenth of what that gives is added to the floor:
 * one decimal. Every operation is rounded as a double. Of what was found, the
 * whole part and the decimals are printed, the decimals rounded, a half away
 * from zero, without the zeros at their end, and filled up with zeros. Without
 * decimals the number is cut toward zero: 2.9 with max_decimal 0 is "2".
 * Where rounding makes a whole one of the decimals, it is carried into the
 * whole part. A label whose digits are all zero carries no minus sign:
 * -0.000001 with max_decimal 5 and min_decimal 1 is "0.0".
 *
 * 0: *written is the number of bytes of the label.
 * Refused:
 *   11: n is NaN, infinite, or of size 2^53 or more;
 *   12: max_decimal is above 10, or min_decimal above 20;
 *   13: len is less than the number of bytes of the label.
 */
int32_t culv_label(double n, uint32_t max_decimal, uint32_t min_decimal,
                   uint8_t *out, size_t len, size_t *written);

/*
 * The scientific label of n: "0" for zero of either sign; else the label of
 * culv_label, or the scientific text, a mantissa, the letter e and an exponent,
 * as "4.0e-7" is of 0.0000004 with max_decimal 5 and min_decimal 1. It is
 * written to out, which has len bytes; 29 are always enough.
 *
 * The decade of n is the greatest power of ten not above its size, from a table
 * of the doubles nearest to the powers of ten, so that no label depends on a
 * platform's logarithm; where n over it, and 0.00001, reach ten, the exponent
 * is one more, and the power ten times the decade. The mantissa is n over that
 * power, shortened with the tolerance 0.00001, with at least min_decimal
 * decimals. The scientific text is taken where the exponent is 3 or more in
 * size and either culv_label's text, its sign before zeros counted, has more
 * than one byte more, or n is shortened to zero there.
 *
 * 0: *written is the number of bytes of the label.
 * Refused:
 *   11: n is NaN, infinite, or of size 2^53 or more;
 *   12: max_decimal is above 10, or min_decimal above 20;
 *   28: n is not 0, but smaller in size than 1e-307;
 *   13: len is less than the number of bytes of the label.
 */
int32_t culv_label_scientific(double n, uint32_t max_decimal,
                              uint32_t min_decimal, uint8_t *out, size_t len,
                              size_t *written);

/* ---- Whole numbers with decimals ---- */

/* The most bytes that culv_decimal_print writes: so many always suffice. */
#define CULV_DECIMAL_MAX 12

/*
 * The text of the whole number x, its last f digits taken as decimals: -5 with
 * f = 2 is "-0.05". There are exactly f digits behind the point, and no point
 * if f is 0; before it at least one digit and no needless zero; a minus sign
 * only if x is below 0; no blanks, and no byte behind the text.
 *
 * 0: *written is the number of bytes, out[0] to out[*written - 1] are the text.
 * Refused:
 *    1: x is not admitted;
 *   24: f is above 6;
 *   13: len is less than the number of bytes.
 */
int32_t culv_decimal_print(int32_t x, uint32_t f, uint8_t *out, size_t len,
                           size_t *written);

/*
 * The number whose text with f decimals this is: exactly the texts that
 * culv_decimal_print writes for that f are read.
 *
 * 0: *x is the number.
 * Refused:
 *   24: f is above 6;
 *   25: the text is none that culv_decimal_print writes with f decimals.
 */
int32_t culv_decimal_read(const uint8_t *text, size_t len, uint32_t f,
                          int32_t *x);
/* ---- Several borders on one film ---- */

/* The most borders of a film. */
#define CULV_BORDERS_MAX 16

/*
 * The rulers of the borders of one film, all of kind 6, one behind another in
 * border order, under one mark limit m for the film. borders has five numbers
 * for each border, a, b, p, q and twist as culv_ruler_write_inside_twisted takes
 * them, so that len is five times the number of borders n.
 *
 * Each border may use m / n marks, and the first m % n of them one more: it gets
 * the very ruler that culv_ruler_write_inside_twisted gives it alone with that
 * share as its mark limit, whatever the other borders are. All together have at
 * most m + n marks. A ruler's first 26 bytes tell where it ends: its kind, axis,
 * limits, mark limit and twist give its number of marks, which take 20 bytes
 * each.
 *
 * 0: *bytes is the number of bytes written, *marks the number of marks of all
 *    rulers together.
 * Refused:
 *   23: n is 0 or above 16, or len is no multiple of five;
 *   else the first border that is refused decides, and nothing is written:
 *    1: a or b is not admitted;
 *    2: p or q is not admitted;
 *    3: no step serves for the border's share;
 *   13: the bytes that the rulers before it leave of out are too short for it;
 *   15: its twist is neither 0 nor 1.
 */
int32_t culv_film_write(const int32_t *borders, size_t len, uint32_t m,
                        uint8_t *out, size_t out_len, size_t *bytes,
                        size_t *marks);

/* ---- The running week ---- */

/*
 * A week has the minutes 0 to 10079. The mill runs in up to 32 windows of it,
 * each from its first minute up to, but without, its end. Windows are a list of
 * numbers, two for each window, first minute and end; len counts the numbers,
 * so that it is twice the number of windows. No windows at all are a week too.
 *
 * They are refused with 26 where a window is empty (its end is not above its
 * first minute), where one begins at the end of the one before or earlier,
 * where one ends beyond 10080, where there are more than 32, or where len is
 * odd.
 */

/*
 * The running minute of the clock minute clock: how many minutes before it lie
 * in windows.
 *
 * 0: *running is the running minute.
 * None: clock lies in no window.
 * Refused:
 *   26: the windows are no running week;
 *   27: clock is above 10079.
 */
int32_t culv_week_running(const uint32_t *windows, size_t len, uint32_t clock,
                          uint32_t *running);

/*
 * The clock minute of the running minute running: the one minute of the week of
 * which culv_week_running gives running. The two calls undo each other.
 *
 * 0: *clock is the clock minute.
 * None: running is not below the number of all minutes in windows.
 * Refused:
 *   26: the windows are no running week.
 */
int32_t culv_week_clock(const uint32_t *windows, size_t len, uint32_t running,
                        uint32_t *clock);

#ifdef __cplusplus
}
#endif

#endif
