/* What the tests share that ask whether a call that waits can make progress. Their includer defines _GNU_SOURCE. */
#ifndef PROGRESS_H
#define PROGRESS_H

#include "check.h"

#include <fcntl.h>
#include <poll.h>

/* The bytes of a new pipe, of a small write, of a large one, and of "hello". */
enum { WHOLE = 65536, SMALL = 4096, LARGE = 70000, HELLO = 5 };

/* The next call that can make progress, from a number on, is that of the number, or isn't. */
static inline bool is_next(bindingclay clay, uint64_t number)
{
    bindingclay_answer next = bindingclay_next_ready(clay, number);
    return next.kind == BINDINGCLAY_DONE && next.value == number;
}

/* A call can make progress. */
#define CAN(clay, number) HOLDS(bindingclay_can_progress(clay, number) && is_next(clay, number))

/* A call can't: it has taken so many bytes, and trying it again changes none of this. */
static inline void waits_on(const char *file, int line, bindingclay clay, uint64_t number, uint64_t taken)
{
    for (int times = 0; times < 2; times++) {
        holds(file, line, "it can't make progress", !bindingclay_can_progress(clay, number) && !is_next(clay, number));
        answers(file, line, "bindingclay_taken", bindingclay_taken(clay, number), an_answer(BINDINGCLAY_DONE, taken, 0, false));
        answers(file, line, "again", again(clay, number), an_answer(BINDINGCLAY_PARKED, number, 0, false));
    }
}

#define WAITS_ON(clay, number, taken) waits_on(__FILE__, __LINE__, clay, number, taken)

/* No call of a number waits: trying it again is answered at once. */
static inline void is_gone(const char *file, int line, bindingclay clay, uint64_t number)
{
    bindingclay_answer none = an_answer(BINDINGCLAY_NO_CALL, 0, 0, false);
    holds(file, line, "it is answered at once", bindingclay_can_progress(clay, number) && !is_next(clay, number));
    answers(file, line, "bindingclay_taken", bindingclay_taken(clay, number), none);
    answers(file, line, "again", again(clay, number), none);
}

#define GONE(clay, number) is_gone(__FILE__, __LINE__, clay, number)

#endif
