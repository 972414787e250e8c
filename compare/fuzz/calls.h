/* A trial of each call: draws its input, calls it, and demands what the rules say. */
#ifndef CALLS_H
#define CALLS_H

#include <stddef.h>
#include <stdint.h>

struct call {
    const char *name;
    void (*trial)(void);
};

extern const struct call AXIS_CALLS[];
extern const struct call WHOLE_STEP_CALLS[];
extern const struct call REAL_STEP_CALLS[];
extern const struct call OTHER_CALLS[];
extern const struct call CHART_CALLS[];
enum { AXIS_COUNT = 18, STEP_COUNT = 13, OTHER_COUNT = 20, CHART_COUNT = 3 };

/* Trials that stand in files of their own. */
void decimal_print(void);
void decimal_read(void);
void film_write(void);
void week_running(void);
void week_clock(void);

/* Demands the count, and lets so many entries be written. */
void counted(int32_t code, const void *out, size_t size, const size_t *count, uint64_t wanted);

/* Calls with lists of millions of entries, and lengths beyond 32 bits. */
void huge(void);

#endif
