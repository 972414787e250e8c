/*
 * Sets and pulls pins on the chart of a stepped list, one after the other, and prints what became of each; then the
 * entries that have pins.
 *
 *   chart [a b d [set|pull pin]...]
 */
#include <inttypes.h>
#include <stdio.h>
#include <stdlib.h>
#include <string.h>

#include "culvraod.h"

struct chart {
    int32_t a, b, d;
    uint16_t counts[CULV_CHART_COUNTS];
};

static int open_chart(struct chart *chart)
{
    uint64_t entries;
    printf("%" PRId32 "..%" PRId32 " by %" PRId32 ": ", chart->a, chart->b, chart->d);
    int32_t code = culv_chart_clear(chart->a, chart->b, chart->d, chart->counts, CULV_CHART_COUNTS);
    if (code != 0) {
        printf("refused %" PRId32 "\n", code);
        return code;
    }
    culv_step_whole_size(chart->a, chart->b, chart->d, &entries);
    printf("%" PRIu64 " entries\n", entries);
    return 0;
}

static void act(struct chart *chart, const char *deed, int32_t pin)
{
    int32_t code = (strcmp(deed, "set") == 0 ? culv_chart_set : culv_chart_pull)(
        chart->a, chart->b, chart->d, pin, chart->counts, CULV_CHART_COUNTS);
    if (code != 0)
        printf("%s %" PRId32 ": refused %" PRId32 "\n", deed, pin, code);
    else
        printf("%s %" PRId32 ": done\n", deed, pin);
}

static void print_pins(const struct chart *chart)
{
    int32_t value;
    for (size_t k = 0; k < CULV_CHART_COUNTS; k++)
        if (chart->counts[k] != 0 && culv_step_whole_from_index(chart->a, chart->b, chart->d, k, &value) == 0)
            printf("entry %zu, %" PRId32 ": %d\n", k, value, chart->counts[k]);
}

int main(int count, char **words)
{
    static char *shown[] = {"chart", "0", "100", "10", "set", "34", "set", "38", "pull", "30", "pull", "29", "set",
                            "-1", "set", "1000", "set", "90", "pull", "-2147483648"};
    static struct chart chart;
    if (count < 4) {
        words = shown;
        count = sizeof shown / sizeof *shown;
    }
    chart.a = (int32_t)atoi(words[1]);
    chart.b = (int32_t)atoi(words[2]);
    chart.d = (int32_t)atoi(words[3]);
    if (open_chart(&chart) != 0)
        return 1;
    for (int at = 4; at + 1 < count; at += 2)
        act(&chart, words[at], (int32_t)atoi(words[at + 1]));
    print_pins(&chart);
    return 0;
}
