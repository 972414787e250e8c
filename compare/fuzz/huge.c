/* Calls with lists of millions of entries, and with lengths that 32 bits do not hold. */
#define _GNU_SOURCE
#include <inttypes.h>
#include <math.h>
#include <stdbool.h>
#include <stdio.h>
#include <string.h>
#include <sys/mman.h>

#include "calls.h"
#include "culvraod.h"
#include "trial.h"

enum { PAGE = 4096 };
static const size_t MILLIONS = 4000000, WRAPPED = (size_t)1 << 32;

/* Zeros, of which only those take memory that are written to, up to a page that may not be touched. */
static void *zeros(size_t entries, size_t size)
{
    size_t bytes = entries * size, whole = (bytes + PAGE - 1) / PAGE * PAGE;
    uint8_t *all = mmap(NULL, whole + PAGE, PROT_READ | PROT_WRITE,
                        MAP_PRIVATE | MAP_ANONYMOUS | MAP_NORESERVE, -1, 0);
    demand(all != MAP_FAILED && mprotect(all + whole, PAGE, PROT_NONE) == 0, "no memory");
    return all + (whole - bytes);
}

static void give_back(void *memory, size_t entries, size_t size)
{
    size_t bytes = entries * size, whole = (bytes + PAGE - 1) / PAGE * PAGE;
    munmap((uint8_t *)memory - (whole - bytes), whole + PAGE);
}

static void begin(const char *what)
{
    trial_begin(0, what);
}

static void told(const char *what, int32_t code, int32_t wanted)
{
    settle(code, wanted);
    printf("%s: status %" PRId32 " after %.1f ms\n", what, code, last_took());
}

#define TOLD(what, call, wanted) (begin(what), told(what, CALLED(call), wanted))

/* All bytes from one on, and not too many of them, are zeros. */
static bool untouched(const void *memory, size_t from, size_t bytes)
{
    const uint8_t *at = memory;
    for (size_t k = from; k < bytes && k < from + 100000000; k++)
        if (at[k] != 0)
            return false;
    return true;
}

static void search_millions(void)
{
    int32_t *list = zeros(MILLIONS, sizeof *list);
    uint64_t k = 77;
    for (size_t at = 0; at < MILLIONS; at++)
        list[at] = (int32_t)(3 * at);
    TOLD("search_whole, 4000000 entries, exact", culv_search_whole(list, MILLIONS, 11999997, 0, &k), 0);
    demand(k == MILLIONS - 1, "another index");
    TOLD("search_whole, up past the end", culv_search_whole(list, MILLIONS, 11999998, 1, &k), -1);
    TOLD("search_whole, nearest", culv_search_whole(list, MILLIONS, 1000000000, 3, &k), 0);
    list[MILLIONS - 1] = 0;
    TOLD("search_whole, the last entry out of order", culv_search_whole(list, MILLIONS, 0, 2, &k), 8);
    list[MILLIONS - 1] = INT32_MAX;
    TOLD("search_whole, the last entry not admitted", culv_search_whole(list, MILLIONS, 0, 2, &k), 1);
    give_back(list, MILLIONS, sizeof *list);
}

static void search_real_millions(void)
{
    double *list = zeros(MILLIONS, sizeof *list);
    uint64_t k = 77;
    for (size_t at = 0; at < MILLIONS; at++)
        list[at] = -0.5 * (double)at;
    TOLD("search_real, 4000000 entries, down", culv_search_real(list, MILLIONS, -0.1, 2, &k), 0);
    demand(k == 1, "another index");
    TOLD("search_real, for NaN", culv_search_real(list, MILLIONS, NAN, 2, &k), 9);
    list[MILLIONS - 1] = NAN;
    TOLD("search_real, the last entry NaN", culv_search_real(list, MILLIONS, -0.1, 0, &k), 8);
    give_back(list, MILLIONS, sizeof *list);
}

/* Cut to 32 bits, the length would be 1, and the list could be searched. */
static void search_wrapped(void)
{
    size_t len = WRAPPED + 1;
    uint64_t k = 77;
    int32_t *list = zeros(len, sizeof *list);
    TOLD("search_whole, 4294967297 zeros", culv_search_whole(list, len, 0, 0, &k), 8);
    give_back(list, len, sizeof *list);
    demand(k == 77, "a write through a pointer");
}

static void marks_by_millions(void)
{
    size_t len = 5000002, count = 77;
    int32_t *out = zeros(len, sizeof *out), step = 77;
    TOLD("whole_key_points, m 4000000000 and a short list",
         culv_whole_key_points(-1000000000, 1000000000, 4000000000, out, len, &step, &count), 13);
    TOLD("whole_key_points, one entry too few",
         culv_whole_key_points(-2500000, 2500000, 4000000000, out, 5000000, &step, &count), 13);
    demand(untouched(out, 0, len * sizeof *out) && step == 77 && count == 77, "a write on a refusal");
    TOLD("whole_key_points, 5000001 marks",
         culv_whole_key_points(-2500000, 2500000, 4000000000, out, len, &step, &count), 0);
    demand(count == 5000001 && out[0] == -2500000 && out[5000000] == 2500000 && out[5000001] == 0, "other marks");
    give_back(out, len, sizeof *out);
}

/* Lists of gigabytes, which stay without memory as nothing but their front is written to. */
static void marks_wrapped(void)
{
    size_t len = WRAPPED, count = 77;
    uint64_t *out = zeros(len, sizeof *out), step = 77;
    int32_t whole_step = 77;
    TOLD("index_key_points, a list of 4294967296", culv_index_key_points(0, 10, 10, out, len, &step, &count), 0);
    demand(count == 11 && out[10] == 10 && untouched(out, 11 * sizeof *out, len * sizeof *out), "other marks");
    TOLD("index_key_points, 1000000001 marks and a list of one less",
         culv_index_key_points(0, 1000000000, UINT32_MAX, out, 1000000000, &step, &count), 13);
    TOLD("whole_key_points, 2000000001 marks and a list of one less",
         culv_whole_key_points(-1000000000, 1000000000, UINT32_MAX, (int32_t *)out, 2000000000, &whole_step, &count), 13);
    demand(untouched(out, 11 * sizeof *out, len * sizeof *out) && whole_step == 77, "a write on a refusal");
    give_back(out, len, sizeof *out);
}

static void rulers_by_millions(void)
{
    size_t len = 25 + 20 * 1000001, bytes = 77, marks = 77, start = 77, part = 77;
    int32_t a, b, p, q, step;
    uint32_t m, which;
    uint8_t none = 0, *ruler = zeros(len, 1);
    TOLD("ruler_write, a byte too few",
         culv_ruler_write(-500000, 500000, -1000, 1000, 2000000, ruler, len - 1, &bytes, &marks), 13);
    demand(untouched(ruler, 0, len) && bytes == 77 && marks == 77, "a write on a refusal");
    TOLD("ruler_write, 1000001 marks",
         culv_ruler_write(-500000, 500000, -1000, 1000, 2000000, ruler, len, &bytes, &marks), 0);
    demand(bytes == len && marks == 1000001, "other counts");
    TOLD("ruler_read, 1000001 marks", culv_ruler_read(ruler, len, &a, &b, &p, &q, &m, &step, &marks), 0);
    TOLD("ruler_label, the last of them", culv_ruler_label(ruler, len, 500000, &start, &part), 0);
    demand(start == len - 6 && part == 6, "another part");
    TOLD("ruler_pair, the last of them", culv_ruler_pair(&none, 0, ruler, len, 500000, &which, &start, &part), 0);
    demand(which == 1 && start == len - 20 && part == 20, "another part");
    TOLD("ruler_shift, 1000001 marks", culv_ruler_shift(ruler, len, 5), 0);
    TOLD("ruler_read, 1000001 marks moved", culv_ruler_read(ruler, len, &a, &b, &p, &q, &m, &step, &marks), 0);
    demand(p == -995 && q == 1005, "other limits");
    TOLD("ruler_shift, too far", culv_ruler_shift(ruler, len, 998996), 2);
    ruler[len - 1] ^= 1;
    TOLD("ruler_shift, the last byte damaged", culv_ruler_shift(ruler, len, -5), 14);
    TOLD("ruler_read, the last byte damaged", culv_ruler_read(ruler, len, &a, &b, &p, &q, &m, &step, &marks), 14);
    give_back(ruler, len, 1);
}

static void bytes_wrapped(void)
{
    size_t len = 40000000044, bytes = 77, marks = 77, start = 77, part = 77;
    int32_t a, b, p, q, step;
    uint32_t m;
    uint8_t *out = zeros(len, 1);
    TOLD("ruler_write, 2000000001 marks and a byte too few",
         culv_ruler_write(-1000000000, 1000000000, 0, 1, UINT32_MAX, out, len, &bytes, &marks), 13);
    TOLD("ruler_read, 40000000044 zeros", culv_ruler_read(out, len, &a, &b, &p, &q, &m, &step, &marks), 14);
    TOLD("ruler_label, 40000000044 zeros", culv_ruler_label(out, len, 0, &start, &part), 0);
    demand(untouched(out, 0, len) && bytes == 77 && marks == 77 && part == 0, "a write on a refusal");
    TOLD("ruler_write, 4294967306 bytes lent", culv_ruler_write(3, 15, 0, 120, 4, out, WRAPPED + 10, &bytes, &marks), 0);
    demand(bytes == 85 && marks == 3 && untouched(out, 85, len), "other counts");
    TOLD("label, 4294967296 bytes lent", culv_label(1.25, 5, 1, out, WRAPPED, &bytes), 0);
    demand(bytes == 4 && memcmp(out, "1.25", 4) == 0, "another label");
    give_back(out, len, 1);
}

/* Cut to 32 bits, the length would be 0. */
static void counts_wrapped(void)
{
    size_t len = WRAPPED;
    uint16_t *counts = zeros(len, sizeof *counts);
    begin("chart_set");
    told("chart_set, 4294967296 counts lent", CALLED_ANEW(counts[1023] = 0, culv_chart_set(0, 1024, 1, 1023, counts, len)), 0);
    demand(counts[1023] == 1 && untouched(counts, 2 * 1024, len * sizeof *counts), "another count");
    TOLD("chart_clear, 4294967296 counts lent", culv_chart_clear(0, 1024, 1, counts, len), 0);
    demand(untouched(counts, 0, len * sizeof *counts), "another count");
    give_back(counts, len, sizeof *counts);
}

void huge(void)
{
    search_millions();
    search_real_millions();
    search_wrapped();
    marks_by_millions();
    marks_wrapped();
    rulers_by_millions();
    bytes_wrapped();
    counts_wrapped();
}
