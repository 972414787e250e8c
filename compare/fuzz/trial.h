/* One trial: a call with drawn inputs, the memory lent to it, and what must be so afterwards. */
#ifndef TRIAL_H
#define TRIAL_H

#include <stddef.h>
#include <stdint.h>

/* How many functions are tried. */
enum { CALLS = 67 };

/* Begins a trial of the call with this name: nothing is lent and nothing noted. */
void trial_begin(size_t call, const char *name);

/* Remembers an input, to be shown if the trial fails. */
void note_whole(const char *name, int64_t n);
void note_natural(const char *name, uint64_t n);
void note_real(const char *name, double n);

/* Lends so many entries of that size, which hold a pattern. */
void *lend(size_t entries, size_t size);

/* Lends memory for one result, which is written if the call answers. */
void *lend_result(size_t size);

/* Lends what `from` holds, to be read only unless may_write says otherwise. */
const void *lend_copy(const char *name, const void *from, size_t entries, size_t size);

/* The call may write so many bytes, from the first one on, to what was lent. */
void may_write(const void *lent, size_t bytes);

#define RESULT(type) ((type *)lend_result(sizeof(type)))
#define LIST(type, entries) ((type *)lend(entries, sizeof(type)))

/*
 * Around the call itself: poisons what is not lent, and takes the time. A call that seems the slowest so far is made
 * twice, as the machine may have been at other work, and the shorter time counts.
 */
void call_begins(void);
void call_ended(int32_t code);
int seems_slowest(void);
void call_repeated(int32_t code);
int32_t call_done(void);
#define CALLED(call) CALLED_ANEW((void)0, call)

/* The same for a call that changes what it was lent, which is put back before the second time. */
#define CALLED_ANEW(put_back, call) \
    (call_begins(), call_ended(call), seems_slowest() ? (put_back, call_begins(), call_repeated(call)) : (void)0, \
     call_done())

/* What the last call took, in milliseconds. */
double last_took(void);

/* Stops the run, showing the trial, unless this holds. */
void demand(int holds, const char *what);

/* Demands the status, and that no byte has changed that may not. */
void settle(int32_t code, int32_t wanted);

void prepare_memory(void);
void watch(void);
void report(void);

#endif
