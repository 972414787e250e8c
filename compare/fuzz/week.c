/* Trials of the calls on the running week. */
#include <stdbool.h>

#include "calls.h"
#include "culvraod.h"
#include "draw.h"
#include "model.h"
#include "trial.h"

enum { WEEK_END = 10080, MOST_NUMBERS = 80 };

/* Windows in order as a rule, some of them damaged, and some without any sense. */
static size_t draw_windows(uint32_t *numbers)
{
    size_t len = (size_t)(below(4) ? 2 * below(34) : below(MOST_NUMBERS));
    uint32_t next = 0, room = (uint32_t)(2 * WEEK_END / (len + 1));
    for (size_t at = 0; at < len; at++) {
        next += (uint32_t)below(room) + (below(8) > 0);
        numbers[at] = below(200) ? next : (uint32_t)draw_index();
    }
    return len;
}

static bool is_week(const uint32_t *numbers, size_t len)
{
    if (len % 2 == 1 || len > 64)
        return false;
    for (size_t at = 0; at < len; at += 2)
        if (numbers[at + 1] <= numbers[at] || numbers[at + 1] > WEEK_END || (at > 0 && numbers[at] <= numbers[at - 1]))
            return false;
    return true;
}

/* How many minutes of windows come before this one, and whether it lies in one. */
static uint32_t minutes_before(const uint32_t *numbers, size_t len, uint32_t minute, bool *inside)
{
    uint32_t count = 0;
    *inside = false;
    for (size_t at = 0; at < len; at += 2) {
        uint32_t first = numbers[at], end = numbers[at + 1];
        if (minute > first)
            count += (minute < end ? minute : end) - first;
        *inside = *inside || (first <= minute && minute < end);
    }
    return count;
}

static uint32_t draw_minute(const uint32_t *numbers, size_t len)
{
    uint32_t near = len > 0 && below(2) ? numbers[below(len)] : (uint32_t)below(WEEK_END + 2);
    uint32_t minute = below(16) ? near + (uint32_t)below(3) - 1 : (uint32_t)draw_index();
    note_natural("minute", minute);
    return minute;
}

void week_running(void)
{
    uint32_t drawn[MOST_NUMBERS];
    size_t len = draw_windows(drawn);
    uint32_t clock = draw_minute(drawn, len);
    const uint32_t *windows = lend_copy("windows", drawn, len, sizeof *drawn);
    uint32_t *running = RESULT(uint32_t);
    int32_t code = CALLED(culv_week_running(windows, len, clock, running));
    int32_t wanted = !is_week(drawn, len) ? 26 : clock >= WEEK_END ? 27 : ANSWERED;
    if (wanted == ANSWERED) {
        bool inside;
        uint32_t before = minutes_before(drawn, len, clock, &inside);
        wanted = inside ? ANSWERED : NONE;
        demand(code != ANSWERED || *running == before, "another running minute than the rule's");
    }
    settle(code, wanted);
}

void week_clock(void)
{
    uint32_t drawn[MOST_NUMBERS];
    size_t len = draw_windows(drawn);
    uint32_t running = draw_minute(drawn, len);
    const uint32_t *windows = lend_copy("windows", drawn, len, sizeof *drawn);
    uint32_t *clock = RESULT(uint32_t);
    int32_t code = CALLED(culv_week_clock(windows, len, running, clock));
    int32_t wanted = is_week(drawn, len) ? ANSWERED : 26;
    if (wanted == ANSWERED) {
        bool inside;
        wanted = running < minutes_before(drawn, len, WEEK_END, &inside) ? ANSWERED : NONE;
        if (code == ANSWERED)
            demand(minutes_before(drawn, len, *clock, &inside) == running && inside, "another clock minute than the rule's");
    }
    settle(code, wanted);
}
