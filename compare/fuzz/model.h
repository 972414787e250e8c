/* What each call must return, from the scope document's rules and its table of refusals. */
#ifndef MODEL_H
#define MODEL_H

#include <stdbool.h>
#include <stddef.h>
#include <stdint.h>

enum { NONE = -1, ANSWERED = 0, MOST_ENTRIES = 65536 };

/* 0 if all are admitted, otherwise the refusal. */
int32_t whole_refused(const int64_t *numbers, size_t count);
int32_t film_refused(const int32_t *numbers, size_t count);
#define WHOLES(...) whole_refused((int64_t[]){__VA_ARGS__}, sizeof((int64_t[]){__VA_ARGS__}) / 8)
#define FILMS(...) film_refused((int32_t[]){__VA_ARGS__}, sizeof((int32_t[]){__VA_ARGS__}) / 4)

/* The lower of two refusals, 0 being none. */
int32_t lower(int32_t one, int32_t other);

struct marks {
    int32_t refused; /* 3 or 0 */
    int64_t first, step;
    uint64_t count;
};
struct marks model_marks(int64_t a, int64_t b, uint32_t m);

/* 13, if marks are refused by nothing else and do not fit. */
int32_t model_fit(struct marks marks, size_t len);

/* Marks of a real axis: 17, or how many they are; list has room for all that there may be. */
enum { MOST_REAL_MARKS = 2000 };
int32_t model_real_marks(double a, double b, uint32_t m, double *list, uint64_t *count);

/* The place on an axis with these ends, and 5 or 0. */
int32_t model_place(double a, double b, double v, int32_t p, int32_t q, int32_t *place);

/* The values of a whole axis, the status of the value at an index, and the index of a pixel, -1 for none. */
int64_t model_count(int32_t a, int32_t b);
int32_t model_value(int32_t a, uint64_t k);
int64_t model_index(int64_t n, int32_t x, int32_t p, int32_t q);

/* A stepped axis; the sums of a whole one are exact. */
struct steps {
    double a, b, d;
};

/* Its list: the refusal 6 or 7, or the number of entries, the first and last, and whether v is one. */
struct list {
    int32_t refused;
    uint64_t count;
    double first, last;
    bool holds;
};
struct list model_list(struct steps axis, double v);

/* The index of the greatest entry that is not above v, of a list with so many, or -1. */
int64_t model_entry(struct steps axis, uint64_t count, double v);

/* Whether the list has entries, be they refused with 6 or 7 or not. */
bool model_has_entries(struct steps axis);

/* 1 for a method that there is not. */
int32_t method_refused(uint32_t method);

/* 0, none or 9 for a search of a list with these entries, by a method that there is. */
int32_t model_found(struct list list, double v, uint32_t method);

/* The search of a lent list: the refusal 8, or as above. */
int32_t model_search(const double *list, size_t len, double target, uint32_t method);

/* 4 for segments over a whole axis, and their limit q less the margin. */
int32_t segments_refused(int64_t n);
int32_t model_narrowed(int64_t n, int32_t p, int32_t q);

/* Rulers of kind 1, 3, 5 or 6: what is written for a draft, and where in bytes a mark's record begins, or 0. */
struct draft {
    int32_t a, b, p, q;
    uint32_t m, kind, twist; /* twist is 0 where the kind has none */
};
size_t head_of(uint32_t kind);
size_t draft_size(struct draft draft);
int32_t draft_refused(struct draft draft);
struct marks draft_marks(struct draft draft);
size_t model_ruler(struct draft draft, uint8_t *out);
bool model_is_ruler(const uint8_t *bytes, size_t len);
size_t model_record(const uint8_t *bytes, size_t len, int32_t value);
struct draft draft_of(const uint8_t *bytes);

#endif
