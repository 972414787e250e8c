/*
 * Calls every function of the C interface with random bytes and numbers and holds its status, its counts and all
 * memory in reach against the rules: fuzz calls COUNT SEED. Then it makes calls with huge lists.
 * fuzz bytes COUNT SEED and fuzz lines COUNT SEED write input for the ruler program.
 */
#include <stdio.h>
#include <stdlib.h>
#include <string.h>

#include "calls.h"
#include "draw.h"
#include "stream.h"
#include "trial.h"

enum { ALL = AXIS_COUNT + 2 * STEP_COUNT + OTHER_COUNT + CHART_COUNT };
_Static_assert((int)ALL == (int)CALLS, "another number of functions");

static struct call call_at(size_t at)
{
    if (at < AXIS_COUNT)
        return AXIS_CALLS[at];
    at -= AXIS_COUNT;
    if (at < STEP_COUNT)
        return WHOLE_STEP_CALLS[at];
    at -= STEP_COUNT;
    if (at < STEP_COUNT)
        return REAL_STEP_CALLS[at];
    at -= STEP_COUNT;
    return at < OTHER_COUNT ? OTHER_CALLS[at] : CHART_CALLS[at - OTHER_COUNT];
}

static void call_all(uint64_t count)
{
    prepare_memory();
    watch();
    for (uint64_t made = 0; made < count; made++) {
        size_t at = (size_t)below(ALL);
        struct call call = call_at(at);
        trial_begin(at, call.name);
        call.trial();
    }
    report();
    huge();
    printf("every status and every byte is as the rules have them\n");
}

int main(int arguments, char **argument)
{
    if (arguments != 4)
        return 2;
    uint64_t count = strtoull(argument[2], NULL, 10);
    seed(strtoull(argument[3], NULL, 10));
    if (strcmp(argument[1], "bytes") == 0)
        write_bytes(count);
    else if (strcmp(argument[1], "lines") == 0)
        write_lines(count);
    else
        call_all(count);
    return 0;
}
