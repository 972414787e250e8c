/*
 * Writes the ruler of a draft and that of its mirror, of either kind, and prints beside each other the records that
 * must match: the mirror's are negated and stand in reverse order. Of kind 1 one ruler may have one mark more, its
 * last; the marks of kind 3 stay on the axis, and always match.
 *
 *   mirror [a b p q m]
 */
#include <inttypes.h>
#include <stdio.h>
#include <stdlib.h>
#include <string.h>

#include "culvraod.h"

enum { AXIS_BYTES = 25, MARK_BYTES = 20, LABEL_BYTES = 11 };

struct draft {
    int32_t a, b, p, q;
    uint32_t m;
};

struct ruler {
    uint8_t bytes[65536];
    size_t size, marks;
};

/* Four bytes, the lowest first. */
static int32_t number_at(const uint8_t *at)
{
    return (int32_t)(at[0] | (uint32_t)at[1] << 8 | (uint32_t)at[2] << 16 | (uint32_t)at[3] << 24);
}

static int write_ruler(int kind, struct draft draft, struct ruler *ruler)
{
    int32_t code = (kind == 1 ? culv_ruler_write : culv_ruler_write_inside)(
        draft.a, draft.b, draft.p, draft.q, draft.m, ruler->bytes, sizeof ruler->bytes, &ruler->size, &ruler->marks);
    printf("kind %d, %" PRId32 " %" PRId32 " %" PRId32 " %" PRId32 " %" PRIu32 ": ", kind, draft.a, draft.b, draft.p, draft.q,
           draft.m);
    if (code != 0)
        printf("refused %" PRId32 "\n", code);
    else
        printf("%zu bytes, %zu marks\n", ruler->size, ruler->marks);
    return code;
}

/* The first four numbers negated, the same kind, m and step. */
static int axes_match(const uint8_t *one, const uint8_t *other)
{
    if (one[0] != other[0])
        return 0;
    for (size_t at = 1; at < 17; at += 4)
        if (number_at(one + at) != -number_at(other + at))
            return 0;
    return memcmp(one + 17, other + 17, 8) == 0;
}

/* Needle and place negated, and the label that of the negated needle. */
static int marks_match(const uint8_t *one, const uint8_t *other)
{
    char label[LABEL_BYTES + 1];
    snprintf(label, sizeof label, "%11" PRId32, -number_at(one + 1));
    return number_at(one + 1) == -number_at(other + 1) && number_at(one + 5) == -number_at(other + 5)
        && memcmp(other + 9, label, LABEL_BYTES) == 0;
}

static const uint8_t *mark(const struct ruler *ruler, size_t k)
{
    return ruler->bytes + AXIS_BYTES + MARK_BYTES * k;
}

static void print_mark(const uint8_t *record)
{
    printf("%.*s at %" PRId32, LABEL_BYTES, (const char *)record + 9, number_at(record + 5));
}

static const char *said(int match)
{
    return match ? "match" : "differ";
}

static void print_difference(const struct ruler *one, const struct ruler *other)
{
    size_t both = one->marks < other->marks ? one->marks : other->marks;
    printf("axes %s, step %" PRId32 "\n", said(axes_match(one->bytes, other->bytes)), number_at(one->bytes + 21));
    for (size_t k = 0; k < both; k++) {
        const uint8_t *here = mark(one, k), *there = mark(other, both - 1 - k);
        print_mark(here);
        printf(" and ");
        print_mark(there);
        printf(" %s\n", said(marks_match(here, there)));
    }
    for (size_t k = both; k < one->marks; k++) {
        print_mark(mark(one, k));
        printf(" is one more\n");
    }
    for (size_t k = both; k < other->marks; k++) {
        print_mark(mark(other, k));
        printf(" is one more, of the mirror\n");
    }
}

static struct draft draft_of(int count, char **words)
{
    if (count != 6)
        return (struct draft){-15, -3, 0, 120, 4};
    return (struct draft){(int32_t)atoi(words[1]), (int32_t)atoi(words[2]), (int32_t)atoi(words[3]),
                          (int32_t)atoi(words[4]), (uint32_t)strtoul(words[5], NULL, 10)};
}

static int show(int kind, struct draft draft)
{
    static struct ruler one, other;
    if (write_ruler(kind, draft, &one) != 0)
        return 1;
    struct draft mirror = {-draft.a, -draft.b, -draft.p, -draft.q, draft.m};
    if (write_ruler(kind, mirror, &other) != 0)
        return 1;
    print_difference(&one, &other);
    return 0;
}

int main(int count, char **words)
{
    struct draft draft = draft_of(count, words);
    int first = show(1, draft), second = show(3, draft);
    return first || second;
}
