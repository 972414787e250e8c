#define _GNU_SOURCE
#include "trial.h"

#include <inttypes.h>
#include <sanitizer/asan_interface.h>
#include <signal.h>
#include <stdbool.h>
#include <stdio.h>
#include <stdlib.h>
#include <string.h>
#include <sys/mman.h>
#include <sys/time.h>
#include <time.h>
#include <unistd.h>

#include "draw.h"

enum {
    PAGE = 4096,
    AREAS = 10,
    ROOM = 1 << 20,   /* bytes of an area between its two closed pages */
    GUARD = 64,       /* bytes on each side of lent memory that are looked at after each call */
    SECONDS = 20,     /* no call may take longer */
    HIGHEST = 28,
    STATUSES = HIGHEST + 2
};

/* Memory between two pages that may not be touched, and what it must hold. */
struct area {
    uint8_t *memory;
    uint8_t *wanted;
    size_t start, bytes, writable;
};

struct note {
    const char *name;
    char kind;
    int64_t whole;
    double real;
    const uint8_t *bytes;
};

struct counted {
    const char *name;
    uint64_t calls;
    int64_t slowest;
    uint64_t statuses[STATUSES];
};

static struct area areas[AREAS];
static size_t lent;
static uint8_t pattern[ROOM];
static struct note notes[32];
static size_t noted;
static struct counted counted[CALLS], *now;
static struct timespec began;
static volatile uint64_t serial;
static int64_t took;
static int32_t returned;

static void show(const struct note *note)
{
    switch (note->kind) {
    case 'i': fprintf(stderr, "  %s %" PRId64 "\n", note->name, note->whole); break;
    case 'u': fprintf(stderr, "  %s %" PRIu64 "\n", note->name, (uint64_t)note->whole); break;
    case 'd': fprintf(stderr, "  %s %.17g (%a)\n", note->name, note->real, note->real); break;
    default:
        fprintf(stderr, "  %s, %" PRId64 " bytes:", note->name, note->whole);
        for (int64_t at = 0; at < note->whole && at < 512; at++)
            fprintf(stderr, " %02x", note->bytes[at]);
        fprintf(stderr, "\n");
    }
}

static void fail(const char *what)
{
    fprintf(stderr, "%s: %s, in call %" PRIu64 "\n", now ? now->name : "?", what, serial);
    for (size_t at = 0; at < noted; at++)
        show(&notes[at]);
    _exit(1);
}

void demand(int holds, const char *what)
{
    if (!holds)
        fail(what);
}

static struct note *next_note(const char *name, char kind)
{
    demand(noted < sizeof notes / sizeof *notes, "too many notes");
    notes[noted] = (struct note){.name = name, .kind = kind};
    return &notes[noted++];
}

void note_whole(const char *name, int64_t n) { next_note(name, 'i')->whole = n; }
void note_natural(const char *name, uint64_t n) { next_note(name, 'u')->whole = (int64_t)n; }
void note_real(const char *name, double n) { next_note(name, 'd')->real = n; }

void prepare_memory(void)
{
    for (size_t at = 0; at < ROOM; at++)
        pattern[at] = (uint8_t)bits();
    for (size_t at = 0; at < AREAS; at++) {
        uint8_t *all = mmap(NULL, ROOM + 2 * PAGE, PROT_NONE, MAP_PRIVATE | MAP_ANONYMOUS, -1, 0);
        if (all == MAP_FAILED || mprotect(all + PAGE, ROOM, PROT_READ | PROT_WRITE) != 0)
            fail("no memory");
        areas[at].memory = all + PAGE;
        areas[at].wanted = malloc(ROOM);
        memcpy(areas[at].memory, pattern, ROOM);
        memcpy(areas[at].wanted, pattern, ROOM);
    }
}

void trial_begin(size_t call, const char *name)
{
    now = &counted[call];
    now->name = name;
    lent = noted = 0;
    serial++;
}

/* At the beginning of its area, at the end, or between. */
static size_t place_of(size_t bytes, size_t size)
{
    switch (below(3)) {
    case 0: return 0;
    case 1: return ROOM - bytes;
    default: return GUARD + below(64) * size;
    }
}

void *lend(size_t entries, size_t size)
{
    demand(lent < AREAS && entries * size <= ROOM - 2 * PAGE, "more lent than there is");
    struct area *area = &areas[lent++];
    area->bytes = entries * size;
    area->start = place_of(area->bytes, size);
    area->writable = 0;
    return area->memory + area->start;
}

void *lend_result(size_t size)
{
    void *result = lend(1, size);
    areas[lent - 1].writable = size;
    return result;
}

const void *lend_copy(const char *name, const void *from, size_t entries, size_t size)
{
    uint8_t *copy = lend(entries, size);
    struct area *area = &areas[lent - 1];
    memcpy(copy, from, area->bytes);
    memcpy(area->wanted + area->start, from, area->bytes);
    struct note *note = next_note(name, 'b');
    note->whole = (int64_t)area->bytes;
    note->bytes = area->wanted + area->start;
    return copy;
}

void may_write(const void *memory, size_t bytes)
{
    for (size_t at = 0; at < lent; at++)
        if (areas[at].memory + areas[at].start == memory) {
            demand(bytes <= areas[at].bytes, "more counted than was lent");
            areas[at].writable = bytes;
        }
}

/* Where the guard before lent memory begins, and that behind it ends. */
static size_t guard_begin(const struct area *area)
{
    return area->start < GUARD ? 0 : area->start - GUARD;
}

static size_t guard_end(const struct area *area)
{
    size_t end = area->start + area->bytes;
    return ROOM - end < GUARD ? ROOM : end + GUARD;
}

/* Only what the archive does through memcpy and memset is held against this; the rest shows in the guards. */
void call_begins(void)
{
    for (size_t at = 0; at < lent; at++) {
        struct area *area = &areas[at];
        uint8_t *begin = area->memory + area->start, *end = begin + area->bytes;
        ASAN_POISON_MEMORY_REGION(area->memory + guard_begin(area), area->start - guard_begin(area));
        ASAN_POISON_MEMORY_REGION(end, (size_t)(area->memory + guard_end(area) - end));
        ASAN_UNPOISON_MEMORY_REGION(begin, area->bytes);
    }
    clock_gettime(CLOCK_MONOTONIC, &began);
}

static int64_t since_begin(void)
{
    struct timespec end;
    clock_gettime(CLOCK_MONOTONIC, &end);
    return (end.tv_sec - began.tv_sec) * 1000000000 + end.tv_nsec - began.tv_nsec;
}

void call_ended(int32_t code)
{
    took = since_begin();
    returned = code;
}

int seems_slowest(void) { return took > now->slowest; }

void call_repeated(int32_t code)
{
    int64_t again = since_begin();
    demand(code == returned, "another status the second time");
    took = again < took ? again : took;
    now->slowest = took > now->slowest ? took : now->slowest;
}

int32_t call_done(void)
{
    for (size_t at = 0; at < lent; at++) {
        struct area *area = &areas[at];
        size_t begin = guard_begin(area);
        ASAN_UNPOISON_MEMORY_REGION(area->memory + begin, guard_end(area) - begin);
    }
    demand(returned >= -1 && returned <= HIGHEST, "a status that there is not");
    now->calls++;
    now->statuses[returned + 1]++;
    return returned;
}

double last_took(void) { return (double)took / 1e6; }

/* Everything but what was written to is as before; then the pattern is put back. */
static void settle_area(struct area *area, size_t written)
{
    size_t begin = guard_begin(area), behind = area->start + written;
    size_t size = guard_end(area);
    demand(memcmp(area->memory + begin, area->wanted + begin, area->start - begin) == 0,
           "a write before lent memory");
    demand(memcmp(area->memory + behind, area->wanted + behind, size - behind) == 0,
           "a write where nothing may be written");
    memcpy(area->memory + area->start, pattern + area->start, area->bytes);
    memcpy(area->wanted + area->start, pattern + area->start, area->bytes);
}

void settle(int32_t code, int32_t wanted)
{
    if (code != wanted) {
        fprintf(stderr, "returned %" PRId32 ", wanted %" PRId32 "\n", code, wanted);
        fail("another status than the rule's");
    }
    for (size_t at = 0; at < lent; at++)
        settle_area(&areas[at], code == 0 ? areas[at].writable : 0);
    if (serial % 65536 == 0)
        for (size_t at = 0; at < AREAS; at++)
            demand(memcmp(areas[at].memory, pattern, ROOM) == 0, "a write far off lent memory, lately");
}

static void on_tick(int signal)
{
    static uint64_t seen;
    static int ticks;
    (void)signal;
    ticks = seen == serial ? ticks + 1 : 0;
    seen = serial;
    if (ticks > SECONDS)
        fail("no end");
}

static void on_fault(int signal)
{
    fail(signal == SIGSEGV ? "memory that may not be touched" : "a fault");
}

void watch(void)
{
    struct itimerval second = {{1, 0}, {1, 0}};
    signal(SIGALRM, on_tick);
    signal(SIGSEGV, on_fault);
    signal(SIGBUS, on_fault);
    signal(SIGFPE, on_fault);
    signal(SIGILL, on_fault);
    setitimer(ITIMER_REAL, &second, NULL);
}

static void report_call(const struct counted *call)
{
    printf("%-32s %10" PRIu64 " calls, slowest %8.1f us, status:", call->name, call->calls, (double)call->slowest / 1e3);
    for (int status = -1; status < STATUSES - 1; status++)
        if (call->statuses[status + 1] > 0)
            printf(" %d: %" PRIu64, status, call->statuses[status + 1]);
    printf("\n");
}

void report(void)
{
    uint64_t calls = 0, tried = 0;
    const struct counted *slowest = counted;
    for (size_t at = 0; at < CALLS; at++) {
        if (counted[at].calls == 0)
            continue;
        report_call(&counted[at]);
        calls += counted[at].calls;
        tried++;
        if (counted[at].slowest > slowest->slowest)
            slowest = &counted[at];
    }
    printf("%" PRIu64 " calls of %" PRIu64 " functions; the slowest, of %s, took %.1f us\n",
           calls, tried, slowest->name, (double)slowest->slowest / 1e3);
}
