/* Trials of searches, rulers and labels. */
#include <inttypes.h>
#include <math.h>
#include <stdio.h>
#include <string.h>

#include "calls.h"
#include "culvraod.h"
#include "draw.h"
#include "model.h"
#include "trial.h"

/* The search of a list of one kind of numbers; ADMITTED(..) is the refusal of those that are not admitted. */
#define SEARCH(kind, number, ADMITTED) \
    static void search_##kind(void) \
    { \
        number drawn[LONGEST_LIST]; \
        double entries[LONGEST_LIST]; \
        size_t len = draw_##kind##_list(drawn); \
        number target = len > 0 && below(2) ? drawn[below(len)] : draw_##kind("or target"); \
        note_##kind("target", target); \
        uint32_t method = draw_method(); \
        const number *list = lend_copy("list", drawn, len, sizeof *drawn); \
        uint64_t *k = RESULT(uint64_t); \
        int32_t code = CALLED(culv_search_##kind(list, len, target, method, k)); \
        int32_t wanted = lower(ADMITTED(target), method_refused(method)); \
        for (size_t at = 0; at < len; at++) { \
            entries[at] = drawn[at]; \
            wanted = lower(wanted, ADMITTED(drawn[at])); \
        } \
        settle(code, wanted != 0 ? wanted : model_search(entries, len, target, method)); \
    }

#define ALL_REALS(...) 0

SEARCH(whole, int32_t, WHOLES)
SEARCH(real, double, ALL_REALS)

/* ---- Rulers ---- */

enum { MOST_MARKS = 400, LONGEST_RULER = 26 + 20 * MOST_MARKS };

static struct draft draw_draft(void)
{
    struct draft draft;
    draw_whole_ends(&draft.a, &draft.b);
    draw_film(&draft.p, &draft.q);
    draft.m = draw_limit_of_marks();
    draft.kind = (uint32_t[]){1, 3, 5, 6}[below(4)];
    draft.twist = draft.kind > 3 ? (uint32_t)below(2) : 0;
    return draft;
}

typedef int32_t writer(int32_t, int32_t, int32_t, int32_t, uint32_t, uint8_t *, size_t, size_t *, size_t *);
typedef int32_t twisted(int32_t, int32_t, int32_t, int32_t, uint32_t, uint32_t, uint8_t *, size_t, size_t *, size_t *);

/* By the one or the other, as the kind has a twist or not. */
static void write_by(writer *write, twisted *twist, uint32_t kind)
{
    static uint8_t written[LONGEST_RULER];
    struct draft draft = draw_draft();
    draft.kind = kind;
    draft.twist = kind < 5 ? 0 : below(4) ? (uint32_t)below(2) : (uint32_t)draw_index();
    note_natural("twist", draft.twist);
    int32_t refused = draft_refused(draft), unknown = draft.twist > 1 ? 15 : 0;
    uint64_t count = refused != 0 ? 0 : draft_marks(draft).count, size = head_of(kind) + 20 * count;
    size_t len = draw_length(size, LONGEST_RULER);
    size_t *bytes = RESULT(size_t), *marks = RESULT(size_t);
    uint8_t *out = LIST(uint8_t, len);
    int32_t code = kind < 5
        ? CALLED(write(draft.a, draft.b, draft.p, draft.q, draft.m, out, len, bytes, marks))
        : CALLED(twist(draft.a, draft.b, draft.p, draft.q, draft.m, draft.twist, out, len, bytes, marks));
    if (code == ANSWERED) {
        counted(code, out, 1, bytes, size);
        demand(*marks == count, "another count than the rule's");
        demand(model_ruler(draft, written) == *bytes && memcmp(out, written, *bytes) == 0, "other bytes than the rule's");
    }
    settle(code, lower(refused, lower(len < size ? 13 : ANSWERED, unknown)));
}

static void ruler_write(void)
{
    write_by(culv_ruler_write, NULL, 1);
}

static void ruler_write_inside(void)
{
    write_by(culv_ruler_write_inside, NULL, 3);
}

static void ruler_write_twisted(void)
{
    write_by(NULL, culv_ruler_write_twisted, 5);
}

static void ruler_write_inside_twisted(void)
{
    write_by(NULL, culv_ruler_write_inside_twisted, 6);
}

/* Bytes without sense, behind a header with or without sense. */
static size_t draw_bytes(uint8_t *out)
{
    size_t len = (size_t)(below(8) ? below(120) : below(LONGEST_RULER));
    struct draft draft = draw_draft();
    for (size_t at = 0; at < len; at++)
        out[at] = (uint8_t)bits();
    if (below(2) && len >= 25 && draft_refused(draft) == 0 && draft_marks(draft).count < 50) {
        size_t right = model_ruler(draft, out);
        len = below(2) ? right : len;
        if (right > 25)
            out[25 + below(right - 25)] = (uint8_t)bits();
    }
    return len;
}

/* Another kind or twist, a byte changed, some cut off or added, or two records exchanged. */
static size_t damage(uint8_t *ruler, size_t len)
{
    uint8_t record[20];
    switch (below(6)) {
    case 0: ruler[0] = (uint8_t)bits(); return len;
    case 5: ruler[len > 25 ? 25 : 0] = (uint8_t)below(4); return len;
    case 4: ruler[below(len)] ^= (uint8_t)(1 << below(8)); return len;
    case 1: return below(len);
    case 2: return len + below(40) + 1;
    default:
        if (len < head_of(ruler[0]) + 40)
            return len;
        ruler += head_of(ruler[0]);
        memcpy(record, ruler, 20);
        memmove(ruler, ruler + 20, 20);
        memcpy(ruler + 20, record, 20);
        return len;
    }
}

/* A ruler, a damaged one, or other bytes. */
static const uint8_t *draw_ruler(const char *name, size_t *len)
{
    static uint8_t drawn[LONGEST_RULER + 64];
    struct draft draft = draw_draft();
    bool fits = draft_refused(draft) == 0 && draft_marks(draft).count <= MOST_MARKS;
    if (!fits || below(8) == 0)
        *len = draw_bytes(drawn);
    else
        *len = model_ruler(draft, drawn);
    if (fits && below(4) == 0 && *len > 0)
        *len = damage(drawn, *len);
    return lend_copy(name, drawn, *len, 1);
}

/* Where there is a mark, or anywhere. */
static int32_t draw_value(const uint8_t *ruler, size_t len)
{
    int32_t value = draw_whole("or value");
    size_t head = len == 0 ? 25 : head_of(ruler[0]);
    if (len >= head + 20 && below(4) != 0) {
        const uint8_t *at = ruler + head + 20 * below((len - head) / 20);
        memcpy(&value, at + 1, sizeof value);
    }
    note_whole("value", value);
    return value;
}

/* Both readers; the first tells nothing of the kind. */
static void read_by(bool tells)
{
    size_t len;
    const uint8_t *bytes = draw_ruler("bytes", &len);
    int32_t *a = RESULT(int32_t), *b = RESULT(int32_t), *p = RESULT(int32_t), *q = RESULT(int32_t);
    int32_t *step = RESULT(int32_t);
    uint32_t *m = RESULT(uint32_t), *kind = RESULT(uint32_t), *twist = RESULT(uint32_t);
    size_t *marks = RESULT(size_t);
    int32_t code = tells ? CALLED(culv_ruler_read_kind(bytes, len, a, b, p, q, m, step, marks, kind, twist))
                         : CALLED(culv_ruler_read(bytes, len, a, b, p, q, m, step, marks));
    if (code == ANSWERED) {
        struct draft held = draft_of(bytes);
        struct draft draft = {*a, *b, *p, *q, *m, tells ? *kind : held.kind, tells ? *twist : held.twist};
        demand(memcmp(&draft, &held, sizeof draft) == 0, "other numbers than those of the ruler");
        demand(head_of(held.kind) + 20 * *marks == len, "another count than that of the ruler");
    }
    settle(code, model_is_ruler(bytes, len) ? ANSWERED : 14);
}

static void ruler_read(void)
{
    read_by(false);
}

static void ruler_read_kind(void)
{
    read_by(true);
}

static void ruler_label(void)
{
    size_t len;
    const uint8_t *bytes = draw_ruler("bytes", &len);
    int32_t value = draw_value(bytes, len);
    size_t *start = RESULT(size_t), *part = RESULT(size_t), record = model_record(bytes, len, value);
    int32_t code = CALLED(culv_ruler_label(bytes, len, value, start, part));
    size_t wanted = record == 0 ? 0 : (size_t)snprintf(NULL, 0, "%" PRId32, value);
    demand(*part == wanted && *start == (record == 0 ? 0 : record + 20 - wanted), "another part than the rule's");
    settle(code, ANSWERED);
}

static void ruler_pair(void)
{
    size_t left_len, right_len;
    const uint8_t *left = draw_ruler("left", &left_len), *right = draw_ruler("right", &right_len);
    int32_t value = below(2) ? draw_value(left, left_len) : draw_value(right, right_len);
    uint32_t *which = RESULT(uint32_t);
    size_t *start = RESULT(size_t), *part = RESULT(size_t);
    int32_t code = CALLED(culv_ruler_pair(left, left_len, right, right_len, value, which, start, part));
    size_t record = value < 0 ? model_record(left, left_len, value) : model_record(right, right_len, value);
    demand(*which == (value < 0 ? 0 : 1) && *start == record && *part == (record == 0 ? 0 : 20),
           "another part than the rule's");
    settle(code, ANSWERED);
}

typedef int32_t mover(const uint8_t *, size_t, uint8_t *, size_t, size_t *);

/* Moves bytes over, which rulers without a twist can be, or back. */
static void move_by(mover *move, bool over)
{
    static uint8_t wanted[LONGEST_RULER];
    size_t len, size = 0;
    const uint8_t *bytes = draw_ruler("bytes", &len);
    bool moves = model_is_ruler(bytes, len) && (bytes[0] < 5) == over;
    bool lost = moves && !over && bytes[25] == 1;
    if (moves) {
        struct draft draft = draft_of(bytes);
        draft.kind = over ? (draft.kind == 1 ? 5 : 6) : (draft.kind == 5 ? 1 : 3);
        draft.twist = 0;
        size = model_ruler(draft, wanted);
    }
    size_t room = draw_length(size, LONGEST_RULER), *written = RESULT(size_t);
    uint8_t *out = LIST(uint8_t, room);
    int32_t code = CALLED(move(bytes, len, out, room, written));
    if (code == ANSWERED) {
        counted(code, out, 1, written, size);
        demand(memcmp(out, wanted, size) == 0, "other bytes than the rule's");
    }
    settle(code, !moves ? 14 : room < size ? 13 : lost ? 16 : ANSWERED);
}

static void ruler_upgrade(void)
{
    move_by(culv_ruler_upgrade, true);
}

static void ruler_downgrade(void)
{
    move_by(culv_ruler_downgrade, false);
}

/* The bytes are first put back as they were drawn, since a call may be made twice. */
static int32_t shift_drawn(uint8_t *bytes, const uint8_t *drawn, size_t len, int32_t c)
{
    memcpy(bytes, drawn, len);
    return culv_ruler_shift(bytes, len, c);
}

/* Moves a ruler along the film, as a rule to where its first limit is at an edge or between, or by anything. */
static void ruler_shift(void)
{
    static uint8_t drawn[LONGEST_RULER + 64], wanted[LONGEST_RULER];
    size_t len;
    uint8_t *bytes = (uint8_t *)draw_ruler("bytes", &len);
    bool is_ruler = model_is_ruler(bytes, len), moves = false;
    int32_t c = any_whole();
    if (is_ruler) {
        struct draft draft = draft_of(bytes);
        c = below(4) ? (int32_t)((int64_t)any_pixel() - draft.p) : c;
        int64_t p = (int64_t)draft.p + c, q = (int64_t)draft.q + c;
        draft.p = (int32_t)p;
        draft.q = (int32_t)q;
        moves = p == draft.p && q == draft.q && draft_refused(draft) == 0;
        if (moves)
            demand(model_ruler(draft, wanted) == len, "another length than before");
    }
    note_whole("c", c);
    memcpy(drawn, bytes, len);
    int32_t code = CALLED(shift_drawn(bytes, drawn, len, c));
    if (code == ANSWERED) {
        may_write(bytes, len);
        demand(moves && memcmp(bytes, wanted, len) == 0, "other bytes than the rule's");
    }
    settle(code, !is_ruler ? 14 : moves ? ANSWERED : 2);
}

/* ---- Labels ---- */

typedef int32_t printer(double, uint32_t, uint32_t, uint8_t *, size_t, size_t *);

/* How long the label is: what the call says itself, with bytes enough for every label. */
static size_t label_length(printer *print, double n, uint32_t max_decimal, uint32_t min_decimal)
{
    uint8_t out[38];
    size_t written = 0;
    print(n, max_decimal, min_decimal, out, sizeof out, &written);
    return written;
}

/* Request (b): a minus sign only on a number below zero, and never before zeros alone. */
static int sign_right(double n, const uint8_t *text, size_t length)
{
    size_t k = 0;
    while (k < length && (text[k] < '1' || '9' < text[k]))
        k++;
    return text[0] != '-' || (n < 0 && k < length);
}

/* A plain label; or a scientific one, whose number must not be too small. */
static void label_by(printer *print, bool scientific)
{
    double n = draw_real("n");
    uint32_t max_decimal = below(8) ? (uint32_t)below(12) : (uint32_t)draw_index();
    uint32_t min_decimal = below(8) ? (uint32_t)below(22) : (uint32_t)draw_index();
    note_natural("max_decimal", max_decimal);
    note_natural("min_decimal", min_decimal);
    size_t length = label_length(print, n, max_decimal, min_decimal), len = draw_length(length, 60);
    size_t *written = RESULT(size_t);
    uint8_t *out = LIST(uint8_t, len);
    int32_t code = CALLED(print(n, max_decimal, min_decimal, out, len, written));
    int32_t wanted = lower(fabs(n) < 0x1p53 ? 0 : 11, max_decimal > 10 || min_decimal > 20 ? 12 : 0);
    wanted = lower(wanted, scientific && n != 0 && fabs(n) < 1e-307 ? 28 : 0);
    counted(code, out, 1, written, length);
    demand(code != 0 || sign_right(n, out, length), "a minus sign where there may be none");
    settle(code, lower(wanted, len < length ? 13 : ANSWERED));
}

static void label(void)
{
    label_by(culv_label, false);
}

static void label_scientific(void)
{
    label_by(culv_label_scientific, true);
}

#define CALL(name) {"culv_" #name, name}

const struct call OTHER_CALLS[OTHER_COUNT] = {
    CALL(search_whole), CALL(search_real), CALL(ruler_write), CALL(ruler_write_inside),
    CALL(ruler_write_twisted), CALL(ruler_write_inside_twisted), CALL(ruler_read), CALL(ruler_read_kind),
    CALL(ruler_label), CALL(ruler_pair), CALL(ruler_upgrade), CALL(ruler_downgrade), CALL(ruler_shift), CALL(label),
    CALL(label_scientific),
    CALL(decimal_print), CALL(decimal_read),
    CALL(film_write), CALL(week_running), CALL(week_clock),
};
