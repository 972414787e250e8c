/* Random inputs, many of them at the edges of what is held and admitted. */
#ifndef DRAW_H
#define DRAW_H

#include <stddef.h>
#include <stdint.h>

void seed(uint64_t n);
uint64_t bits(void);
/* From 0 up to, but without, n. */
uint64_t below(uint64_t n);

int32_t any_whole(void);
int32_t any_pixel(void);

/* These note what they draw under the name. */
int32_t draw_whole(const char *name);
double draw_real(const char *name);
int32_t draw_pixel(const char *name);
uint32_t draw_limit_of_marks(void);
uint64_t draw_index(void);
/* 0 up to one more than there are. */
uint32_t draw_method(void);
uint32_t draw_kind(void);

void draw_film(int32_t *p, int32_t *q);
void draw_whole_ends(int32_t *a, int32_t *b);
void draw_index_ends(uint64_t *a, uint64_t *b);
void draw_real_ends(double *a, double *b);
/* Ends that are admitted for marks as a rule, and a mark limit. */
void draw_real_axis(double *a, double *b, uint32_t *m);
void draw_whole_steps(int32_t *a, int32_t *b, int32_t *d);
void draw_real_steps(double *a, double *b, double *d);
/* About as many entries as a chart has counts, as a rule, and a pin about one of them. */
void draw_chart_steps(int32_t *a, int32_t *b, int32_t *d);
int32_t draw_pin(int32_t a, int32_t d);
/* Counts that are near nothing, near full, or anything. */
void draw_counts(uint16_t *counts, size_t len);

/* A length of a lent list, about the count or not, but not above what can be lent. */
size_t draw_length(uint64_t count, size_t most);

/* Lists to be searched, most of which rise or fall. */
size_t draw_whole_list(int32_t *list);
size_t draw_real_list(double *list);
enum { LONGEST_LIST = 300 };

#endif
