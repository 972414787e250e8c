#include "stream.h"

#include <inttypes.h>
#include <stdio.h>

#include "draw.h"

void write_bytes(uint64_t count)
{
    for (uint64_t made = 0; made < count; made++)
        putchar((int)below(256));
}

/* A line as the ruler program wants it, but for one byte at times. */
static void write_line(void)
{
    char line[80];
    int len = snprintf(line, sizeof line, "rule %" PRId32 " %" PRId32 " %" PRId32 " %" PRId32 " %" PRIu64 "\n",
                       any_whole(), any_whole(), any_pixel(), any_pixel(), below(20));
    if (below(4) == 0)
        line[below((uint64_t)len)] = "rule -+0123456789\n\r\t"[below(20)];
    fwrite(line, 1, (size_t)len, stdout);
}

void write_lines(uint64_t count)
{
    for (uint64_t made = 0; made < count; made++)
        write_line();
}
