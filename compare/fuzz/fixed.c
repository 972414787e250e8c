/* Trials of whole numbers with decimals. */
#include <stdio.h>
#include <stdlib.h>
#include <string.h>

#include "calls.h"
#include "culvraod.h"
#include "draw.h"
#include "model.h"
#include "trial.h"

enum { MOST_TEXT = 40 };

static uint32_t draw_decimals(void)
{
    uint32_t f = below(16) ? (uint32_t)below(8) : (uint32_t)draw_index();
    note_natural("f", f);
    return f;
}

/* The text by C's own printing of both parts; f is at most 6. */
static size_t model_text(int32_t x, uint32_t f, char *text)
{
    int64_t one = 1;
    for (uint32_t k = 0; k < f; k++)
        one *= 10;
    long long size = llabs((long long)x);
    const char *sign = x < 0 ? "-" : "";
    int written = f == 0 ? snprintf(text, MOST_TEXT, "%s%lld", sign, size)
                         : snprintf(text, MOST_TEXT, "%s%lld.%0*lld", sign, size / one, (int)f, size % one);
    return (size_t)written;
}

void decimal_print(void)
{
    char text[MOST_TEXT];
    int32_t x = draw_whole("x");
    uint32_t f = draw_decimals();
    int32_t refused = lower(WHOLES(x), f > 6 ? 24 : 0);
    size_t length = refused != 0 ? 0 : model_text(x, f, text), len = draw_length(length, MOST_TEXT);
    size_t *written = RESULT(size_t);
    uint8_t *out = LIST(uint8_t, len);
    int32_t code = CALLED(culv_decimal_print(x, f, out, len, written));
    counted(code, out, 1, written, length);
    demand(code != ANSWERED || memcmp(out, text, length) == 0, "another text than the rule's");
    settle(code, lower(refused, len < length ? 13 : ANSWERED));
}

/* A printed text, perhaps damaged, or bytes without sense. */
static size_t draw_text(uint32_t f, char *text)
{
    static const char some[] = "-+.0123456789 ";
    int32_t x = any_whole();
    size_t len = below(8) ? model_text(x, f > 6 ? 6 : f, text) : (size_t)below(MOST_TEXT);
    if (below(8) == 0)
        for (size_t at = 0; at < len; at++)
            text[at] = below(2) ? some[below(sizeof some - 1)] : (char)bits();
    if (len > 0 && below(2))
        text[below(len)] = some[below(sizeof some - 1)];
    return len > 0 && below(8) == 0 ? len - 1 : len;
}

/* Whether the text is that of an admitted number, which is then *x: its digits without the point, by C's own reader. */
static int is_text(const char *text, size_t len, uint32_t f, int32_t *x)
{
    char digits[MOST_TEXT + 1], printed[MOST_TEXT];
    size_t count = 0;
    for (size_t at = 0; at < len; at++)
        if (text[at] != '.')
            digits[count++] = text[at];
    digits[count] = 0;
    long long number = strtoll(digits, NULL, 10);
    if (number < -1000000000 || number > 1000000000)
        return 0;
    *x = (int32_t)number;
    return model_text(*x, f, printed) == len && memcmp(printed, text, len) == 0;
}

void decimal_read(void)
{
    char drawn[MOST_TEXT];
    uint32_t f = draw_decimals();
    size_t len = draw_text(f, drawn);
    const uint8_t *text = lend_copy("text", drawn, len, 1);
    int32_t *x = RESULT(int32_t), wanted;
    int32_t code = CALLED(culv_decimal_read(text, len, f, x));
    int is = f <= 6 && is_text(drawn, len, f, &wanted);
    demand(code != ANSWERED || *x == wanted, "another number than the rule's");
    settle(code, f > 6 ? 24 : is ? ANSWERED : 25);
}
