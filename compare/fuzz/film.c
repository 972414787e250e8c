/* A trial of the call that writes several borders on one film. */
#include <string.h>

#include "calls.h"
#include "culvraod.h"
#include "draw.h"
#include "model.h"
#include "trial.h"

enum { MOST_BORDERS = 16, MOST_NUMBERS = 100, LONGEST_FILM = 26 * MOST_BORDERS + 20 * 400 };

/* Borders with sense as a rule, on short and long axes, and some of any numbers. */
static size_t draw_borders(int32_t *numbers)
{
    size_t n = (size_t)(below(16) ? 1 + below(MOST_BORDERS) : below(20));
    for (size_t at = 0; at < n; at++) {
        int32_t *five = numbers + 5 * at;
        int any = below(16) == 0, near = below(4) > 0;
        for (size_t k = 0; k < 2; k++) {
            five[k] = any ? any_whole() : any_whole() % (near ? 1000 : 1000000000);
            five[k + 2] = any ? any_pixel() : any_pixel() % 1000000;
        }
        five[4] = below(32) ? (int32_t)below(2) : (int32_t)bits();
    }
    return 5 * n - (n > 0 && !below(32) ? 1 + below(4) : 0);
}

/* The ruler that border i of n may have, by its share of the film's mark limit. */
static struct draft border_of(const int32_t *five, uint32_t m, uint32_t n, uint32_t i)
{
    return (struct draft){five[0], five[1], five[2], five[3], m / n + (i < m % n), 6, (uint32_t)five[4]};
}

/* The refusal of the first border that is refused, with so many bytes lent; the size and the marks of all, if none is. */
static int32_t film_wanted(const int32_t *numbers, uint32_t n, uint32_t m, uint64_t room, uint64_t *size, uint64_t *marks)
{
    *size = *marks = 0;
    for (uint32_t i = 0; i < n; i++) {
        struct draft draft = border_of(numbers + 5 * i, m, n, i);
        int32_t refused = draft_refused(draft);
        if (refused != 0)
            return refused;
        uint64_t count = draft_marks(draft).count, own = 26 + 20 * count;
        if (room - *size < own)
            return 13;
        if (draft.twist > 1)
            return 15;
        *size += own;
        *marks += count;
    }
    return ANSWERED;
}

void film_write(void)
{
    static uint8_t written[LONGEST_FILM];
    int32_t drawn[MOST_NUMBERS];
    size_t len = draw_borders(drawn);
    uint32_t n = (uint32_t)(len / 5), m = below(4) ? (uint32_t)below(300) : draw_limit_of_marks();
    uint64_t size, count;
    int32_t wanted = len % 5 != 0 || n == 0 || n > MOST_BORDERS ? 23 : ANSWERED;
    if (wanted == 23 || film_wanted(drawn, n, m, UINT64_MAX, &size, &count) != ANSWERED)
        size = below(400);
    size_t room = draw_length(size, LONGEST_FILM);
    if (wanted == ANSWERED)
        wanted = film_wanted(drawn, n, m, room, &size, &count);
    note_natural("mark limit of the film", m);
    const int32_t *borders = lend_copy("borders", drawn, len, sizeof *drawn);
    size_t *bytes = RESULT(size_t), *marks = RESULT(size_t);
    uint8_t *out = LIST(uint8_t, room);
    int32_t code = CALLED(culv_film_write(borders, len, m, out, room, bytes, marks));
    if (code == ANSWERED && wanted == ANSWERED) {
        size_t at = 0;
        for (uint32_t i = 0; i < n; i++)
            at += model_ruler(border_of(drawn + 5 * i, m, n, i), written + at);
        counted(code, out, 1, bytes, size);
        demand(*marks == count, "another count than the rule's");
        demand(at == size && memcmp(out, written, size) == 0, "other bytes than the rule's");
    }
    settle(code, wanted);
}
