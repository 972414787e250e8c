/* Prints marks of two axes, one the mirror of the other, and a value through the other calls on axes and segments. */
#include <inttypes.h>
#include <stdio.h>

#include "culvraod.h"

static int print_marks(int32_t a, int32_t b, uint32_t m)
{
    int32_t out[16], step;
    size_t count;
    int32_t code = culv_whole_key_points(a, b, m, out, 16, &step, &count);
    if (code != 0) {
        printf("refused %" PRId32 "\n", code);
        return 1;
    }
    printf("%" PRId32 "..%" PRId32 ", step %" PRId32 ":", a, b, step);
    for (size_t i = 0; i < count; i++)
        printf(" %" PRId32, out[i]);
    printf("\n");
    return 0;
}

static int print_whole(int32_t a, int32_t b, int32_t v)
{
    uint64_t n, k;
    int32_t pixel, at_index, at_pixel;
    if (culv_whole_size(a, b, &n) != 0 || culv_whole_index_of(a, b, v, &k) != 0
        || culv_whole_from_index(a, b, k, &at_index) != 0
        || culv_whole_map(a, b, v, 0, 120, &pixel) != 0
        || culv_whole_unmap(a, b, pixel, 0, 120, &at_pixel) != 0)
        return 1;
    printf("%" PRIu64 " values, %" PRId32 " at index %" PRIu64 ", %" PRId32 " at pixel %" PRId32 "\n",
           n, at_index, k, at_pixel, pixel);
    return 0;
}

static int print_real_marks(double a, double b, uint32_t m)
{
    double out[16];
    size_t count;
    if (culv_real_key_points(a, b, m, out, 16, &count) != 0)
        return 1;
    printf("%g..%g:", a, b);
    for (size_t i = 0; i < count; i++)
        printf(" %g", out[i]);
    printf("\n");
    return 0;
}

static int print_real(double a, double b, double v)
{
    int32_t pixel;
    double at_pixel;
    if (culv_real_map(a, b, v, 0, 49, &pixel) != 0
        || culv_real_unmap(a, b, pixel, 0, 49, &at_pixel) != 0)
        return 1;
    printf("%.17g at pixel %" PRId32 "\n", at_pixel, pixel);
    return 0;
}

/* The list has entries, but at most 16, as in the next function. */
static int print_stepped(int32_t a, int32_t b, int32_t d, int32_t v)
{
    int32_t list[16], marks[16], pixel, at_pixel, at_index;
    size_t count, marked;
    uint64_t n, k, found;
    if (culv_step_whole_values(a, b, d, list, 16, &count) != 0
        || culv_step_whole_size(a, b, d, &n) != 0
        || culv_step_whole_index_of(a, b, d, v, 3, &k) != 0
        || culv_search_whole(list, count, v, 3, &found) != 0
        || culv_step_whole_from_index(a, b, d, k, &at_index) != 0
        || culv_step_whole_map(a, b, d, v, 0, 120, &pixel) != 0
        || culv_step_whole_unmap(a, b, d, pixel, 0, 120, &at_pixel) != 0
        || culv_step_whole_key_points(a, b, d, 5, marks, 16, &marked) != 0)
        return 1;
    printf("%" PRIu64 " entries, the last %" PRId32 "; %" PRId32 " nearest, index %" PRIu64 " and %" PRIu64
           "; %" PRId32 " at pixel %" PRId32 "; %zu marks from %" PRId32 "\n",
           n, list[count - 1], at_index, k, found, at_pixel, pixel, marked, marks[0]);
    return 0;
}

static int print_stepped_real(double a, double b, double d, double v)
{
    double list[16], marks[16], at_pixel, at_index;
    int32_t pixel;
    size_t count, marked;
    uint64_t n, k, found;
    if (culv_step_real_values(a, b, d, list, 16, &count) != 0
        || culv_step_real_size(a, b, d, &n) != 0
        || culv_step_real_index_of(a, b, d, v, 3, &k) != 0
        || culv_search_real(list, count, v, 3, &found) != 0
        || culv_step_real_from_index(a, b, d, k, &at_index) != 0
        || culv_step_real_map(a, b, d, v, 0, 120, &pixel) != 0
        || culv_step_real_unmap(a, b, d, pixel, 0, 120, &at_pixel) != 0
        || culv_step_real_key_points(a, b, d, 5, marks, 16, &marked) != 0)
        return 1;
    printf("%" PRIu64 " entries, the last %g; %g nearest, index %" PRIu64 " and %" PRIu64
           "; %g at pixel %" PRId32 "; %zu marks from %g\n",
           n, list[count - 1], at_index, k, found, at_pixel, pixel, marked, marks[0]);
    return 0;
}

static int print_label(double n, uint32_t max_decimal, uint32_t min_decimal)
{
    uint8_t out[38];
    size_t written;
    if (culv_label(n, max_decimal, min_decimal, out, sizeof out, &written) != 0)
        return 1;
    printf("%.*s\n", (int)written, (const char *)out);
    return 0;
}

/* A histogram's axis: where the bucket of v begins, its middle, and the end of all buckets. */
static int print_segments(int32_t a, int32_t b, int32_t v)
{
    int32_t begin, middle, end, at_index, at_pixel, marks[16], step;
    uint32_t kind, read;
    size_t marked;
    uint64_t n, k;
    if (culv_seg_whole_size(a, b, &n) != 0 || culv_seg_whole_index_of(a, b, 0, v, &k) != 0
        || culv_seg_whole_from_index(a, b, k, &kind, &at_index) != 0
        || culv_seg_whole_map(a, b, 0, v, 0, 120, &begin) != 0
        || culv_seg_whole_map(a, b, 1, v, 0, 120, &middle) != 0
        || culv_seg_whole_map(a, b, 2, 0, 0, 120, &end) != 0
        || culv_seg_whole_unmap(a, b, 119, 0, 120, &read, &at_pixel) != 0
        || culv_seg_whole_key_points(a, b, 4, marks, 16, &step, &marked) != 0)
        return 1;
    printf("%" PRIu64 " values, kind %" PRIu32 " of %" PRId32 " at index %" PRIu64 "; from pixel %" PRId32
           " past %" PRId32 ", all end at %" PRId32 "; kind %" PRIu32 " at pixel 119; %zu marks from %" PRId32 "\n",
           n, kind, at_index, k, begin, middle, end, read, marked, marks[0]);
    return 0;
}

/* Segments over stepped axes, of whole and of real numbers, by the nearest entry. */
static int print_stepped_segments(void)
{
    int32_t whole_middle, real_middle, whole_at, whole_marks[16];
    double real_at, real_marks[16];
    uint32_t whole_kind, real_kind;
    size_t whole_marked, real_marked;
    uint64_t whole_n, real_n, whole_k, real_k;
    if (culv_seg_step_whole_size(0, 12, 3, &whole_n) != 0
        || culv_seg_step_real_size(0, 1, 0.25, &real_n) != 0
        || culv_seg_step_whole_map(0, 12, 3, 3, 1, 4, 0, 120, &whole_middle) != 0
        || culv_seg_step_real_map(0, 1, 0.25, 3, 1, 0.3, 0, 120, &real_middle) != 0
        || culv_seg_step_whole_index_of(0, 12, 3, 3, 1, 4, &whole_k) != 0
        || culv_seg_step_real_index_of(0, 1, 0.25, 3, 2, 0, &real_k) != 0
        || culv_seg_step_whole_from_index(0, 12, 3, 1, &whole_kind, &whole_at) != 0
        || culv_seg_step_real_unmap(0, 1, 0.25, 48, 0, 120, &real_kind, &real_at) != 0
        || culv_seg_step_whole_key_points(0, 12, 3, 2, whole_marks, 16, &whole_marked) != 0
        || culv_seg_step_real_key_points(0, 1, 0.25, 2, real_marks, 16, &real_marked) != 0)
        return 1;
    printf("%" PRIu64 " and %" PRIu64 " values, middles %" PRId32 " and %" PRId32 ", index %" PRIu64 " and %" PRIu64
           ", kind %" PRIu32 " of %" PRId32 ", kind %" PRIu32 " of %g, %zu and %zu marks\n",
           whole_n, real_n, whole_middle, real_middle, whole_k, real_k,
           whole_kind, whole_at, real_kind, real_at, whole_marked, real_marked);
    return 0;
}

int main(void)
{
    int failed = print_marks(3, 15, 4);
    failed |= print_marks(-15, -3, 4);
    failed |= print_whole(-15, -3, -10);
    failed |= print_real_marks(-0.05, 0.25, 4);
    failed |= print_real(0, 49, 1);
    failed |= print_stepped(8, -1, -4, 2);
    failed |= print_stepped_real(0, 1, 0.25, 0.4);
    failed |= print_label(-0.000001, 5, 1);
    failed |= print_label(1.25, 5, 0);
    failed |= print_segments(1, 4, 2);
    failed |= print_stepped_segments();
    return failed;
}
