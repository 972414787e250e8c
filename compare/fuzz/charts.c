/* Trials of the calls on fault charts, with a model from request (h): each pin's entry by a walk along the list. */
#include <string.h>

#include "calls.h"
#include "culvraod.h"
#include "draw.h"
#include "model.h"
#include "trial.h"

enum { COUNTS = 1024, MOST_COUNTS = 3000, FULL = 65535 };

/* An axis, how many counts are lent, what they hold, and the list of the axis. */
struct chart {
    int32_t a, b, d;
    size_t len;
    uint16_t held[MOST_COUNTS];
    struct list list;
};

static struct steps axis_of(const struct chart *chart)
{
    return (struct steps){chart->a, chart->b, chart->d};
}

static uint16_t *draw_chart(struct chart *chart)
{
    draw_chart_steps(&chart->a, &chart->b, &chart->d);
    chart->len = draw_length(COUNTS, MOST_COUNTS);
    draw_counts(chart->held, chart->len);
    chart->list = model_list(axis_of(chart), 0);
    return (uint16_t *)lend_copy("counts", chart->held, chart->len, sizeof *chart->held);
}

/* All counts are as they shall be; that one of them has changed is then right. */
static void counted_right(const struct chart *chart, const uint16_t *counts)
{
    size_t bytes = chart->len * sizeof *counts;
    demand(memcmp(counts, chart->held, bytes) == 0, "other counts than the rule's");
    may_write(counts, bytes);
}

static void chart_clear(void)
{
    static struct chart chart;
    uint16_t *counts = draw_chart(&chart);
    int32_t code = CALLED(culv_chart_clear(chart.a, chart.b, chart.d, counts, chart.len));
    int32_t wanted = lower(WHOLES(chart.a, chart.b, chart.d), chart.list.refused);
    wanted = lower(wanted, chart.list.count > COUNTS ? 20 : chart.len < COUNTS ? 13 : ANSWERED);
    if (code == ANSWERED) {
        memset(chart.held, 0, COUNTS * sizeof *chart.held);
        counted_right(&chart, counts);
    }
    settle(code, wanted);
}

typedef int32_t deed(int32_t a, int32_t b, int32_t d, int32_t pin, uint16_t *counts, size_t len);

/* One more or one less, unless the count is the last of its kind, which is refused with that number. */
static void pin_by(deed *call, int by, uint16_t last, int32_t refusal)
{
    static struct chart chart;
    uint16_t *counts = draw_chart(&chart);
    int32_t pin = draw_pin(chart.a, chart.d);
    int32_t code = CALLED_ANEW(memcpy(counts, chart.held, chart.len * sizeof *counts),
                               call(chart.a, chart.b, chart.d, pin, counts, chart.len));
    int32_t wanted = lower(WHOLES(chart.a, chart.b, chart.d, pin), chart.list.refused);
    int64_t k = wanted != 0 ? -1 : model_entry(axis_of(&chart), chart.list.count, pin);
    wanted = lower(wanted, k < 0 || chart.list.count > COUNTS ? 20 : chart.len < COUNTS ? 13 : ANSWERED);
    wanted = lower(wanted, wanted == 0 && chart.held[k] == last ? refusal : ANSWERED);
    if (code == ANSWERED && k >= 0) {
        chart.held[k] = (uint16_t)(chart.held[k] + by);
        counted_right(&chart, counts);
    }
    settle(code, wanted);
}

static void chart_set(void)
{
    pin_by(culv_chart_set, 1, FULL, 21);
}

static void chart_pull(void)
{
    pin_by(culv_chart_pull, -1, 0, 22);
}

#define CALL(name) {"culv_" #name, name}

const struct call CHART_CALLS[CHART_COUNT] = {CALL(chart_clear), CALL(chart_set), CALL(chart_pull)};
