/* Records, and want of memory. While steps are recorded, each request for memory is refused in turn: the call answers NO_MEMORY, and has changed
 * nothing. Made again, it leaves the record that it leaves anyway. And a kernel in a budget goes on once its record was handed out.
 *
 *   records_memory FOLDER    writes records to FOLDER, for piperun --check */
#define _GNU_SOURCE
#include "counted.h"
#include "records.h"

#include <fcntl.h>
#include <limits.h>
#include <poll.h>

enum { ROOM = 70000, UNWRITTEN = 0x5555 };

/* All that a call may write. */
static uint8_t into[ROOM];
static bindingclay_ends ends;
static bindingclay_pollfd entries[2];

/* What is written. */
static uint8_t large[ROOM];

static const char *folder;

/* How often NO_MEMORY was told in a round, and how many steps were made. */
static long told, steps;

static void clear(void)
{
    memset(into, UNTOUCHED, sizeof into);
    ends = (bindingclay_ends){ -7, -8 };
    entries[0] = (bindingclay_pollfd){ .fd = 0, .events = POLLIN, .revents = UNWRITTEN };
    entries[1] = (bindingclay_pollfd){ .fd = 1, .events = POLLIN, .revents = UNWRITTEN };
}

static bool is_clear(void)
{
    for (size_t i = 0; i < sizeof into; i++)
        if (into[i] != UNTOUCHED)
            return false;
    return ends.read_end == -7 && ends.write_end == -8 && entries[0].revents == UNWRITTEN && entries[1].revents == UNWRITTEN;
}

/* Makes a step, and again where there was no memory for it. */
#define MADE_SO(call, wanted) \
    do { \
        clear(); \
        bindingclay_answer got = call; \
        if (got.kind == BINDINGCLAY_NO_MEMORY) { \
            told++; \
            OTHER(got, BINDINGCLAY_NO_MEMORY); \
            HOLDS(is_clear()); \
            got = call; \
        } \
        answers(__FILE__, __LINE__, #call, got, wanted); \
        steps++; \
    } while (0)
#define MADE(call, kind, value) MADE_SO(call, an_answer(kind, value, 0, false))
#define MADE_FAULT(call, number) MADE_SO(call, an_answer(BINDINGCLAY_FAULT, 0, number, false))

enum { D = BINDINGCLAY_DONE, P = BINDINGCLAY_PARKED };

static void calls_that_are_done(bindingclay clay)
{
    MADE(bindingclay_start(clay), D, 1);
    MADE(bindingclay_pipe(clay, 1, false, &ends), D, 0);
    HOLDS(ends.read_end == 0 && ends.write_end == 1);
    MADE(put(clay, 1, 1, "hello"), D, 5);
    MADE(bindingclay_read(clay, 1, 0, into, 9), D, 5);
    HOLDS(memcmp(into, "hello\xa5", 6) == 0);
    MADE(bindingclay_pipe2(clay, 1, BINDINGCLAY_O_DIRECT | O_NONBLOCK, &ends), D, 0);
    MADE(open_text(clay, 1, "f", O_RDWR | O_CREAT), D, 4);
    MADE(bindingclay_write(clay, 1, 4, large, 10000), D, 10000);
    MADE(bindingclay_lseek(clay, 1, 4, 0, SEEK_SET), D, 0);
    MADE(bindingclay_splice(clay, 1, 4, NULL, 1, NULL, 100, 0), D, 100);
    MADE_FAULT(bindingclay_tee(clay, 1, 0, 3, 100, 0), EINVAL);
    MADE(bindingclay_get_fl(clay, 1, 1), D, O_WRONLY);
    MADE(bindingclay_set_fl(clay, 1, 1, 0), D, 0);
    MADE(bindingclay_set_pipe_sz(clay, 1, 1, 65536), D, 65536);
    MADE(bindingclay_get_pipe_sz(clay, 1, 1), D, 65536);
    MADE(bindingclay_dup(clay, 1, 1), D, 5);
    MADE(bindingclay_dup2(clay, 1, 1, 9), D, 9);
    MADE(bindingclay_dup_fd(clay, 1, 1, 6), D, 6);
    MADE(bindingclay_close(clay, 1, 6), D, 0);
    MADE(unlink_text(clay, 1, "f"), D, 0);
    MADE(bindingclay_read(clay, 1, 0, into, ROOM), D, 100);
    HOLDS(memcmp(into, large, 100) == 0);
}

static void calls_that_wait(bindingclay clay)
{
    uint8_t few[2];
    MADE(bindingclay_read(clay, 1, 0, into, 5), P, 1);
    MADE(bindingclay_poll(clay, 1, entries, 2, true), P, 2);
    MADE(put(clay, 1, 1, "hello"), D, 5);
    MADE(bindingclay_resume_poll(clay, 2, entries, 2), D, 1);
    HOLDS(entries[0].revents == POLLIN && entries[1].revents == 0);
    /* too little room is told, or that there is no memory: either way nothing changed */
    bindingclay_answer got = bindingclay_resume(clay, 1, few, 2);
    if (got.kind == BINDINGCLAY_NO_MEMORY)
        told++;
    else
        SHORT(got, 5);
    MADE(bindingclay_resume(clay, 1, into, 5), D, 5);
    HOLDS(memcmp(into, "hello\xa5", 6) == 0);
    MADE_SO(bindingclay_write(clay, 1, 1, large, 70000), that_waits(3, true));
    MADE(bindingclay_poll(clay, 1, entries, 2, false), D, 1);
    MADE(bindingclay_read(clay, 1, 0, into, 5000), D, 5000);
    MADE(bindingclay_resume(clay, 3, into, 0), D, 70000);
    MADE(bindingclay_read(clay, 1, 0, into, ROOM), D, 65000);
    HOLDS(memcmp(into, large + 5000, 65000) == 0 && into[65000] == UNTOUCHED);
    MADE(bindingclay_read(clay, 1, 0, into, 5), P, 4);
    MADE_FAULT(bindingclay_interrupt(clay, 4), EINTR);
    MADE(mkfifo_text(clay, 1, "q"), D, 0);
    MADE(open_text(clay, 1, "q", O_RDONLY), P, 5);
    MADE(bindingclay_fork(clay, 1), D, 2);
    MADE(open_text(clay, 2, "q", O_WRONLY), D, 6);
    MADE(bindingclay_resume(clay, 5, into, 0), D, 6);
    MADE(bindingclay_exit(clay, 2), D, 0);
    MADE(bindingclay_resume(clay, 99, into, 5), BINDINGCLAY_NO_CALL, 0);
    MADE(bindingclay_exit(clay, 2), BINDINGCLAY_NO_PROCESS, 0);
}

/* Drains a record, and again if there was no memory for it. */
static void drain_at_last(bindingclay clay, struct record *record)
{
    if (!drain(clay, record, 1000)) {
        told++;
        HOLDS(drain(clay, record, 1000));
    }
}

/* A round in which the request behind so many granted ones is refused; whether there was one. */
static bool round_without(long granted, struct record *record)
{
    bindingclay clay = new_kernel(1, ROOM);
    record->length = 0;
    told = steps = 0;
    refuse(granted, 1);
    bindingclay_answer got = bindingclay_record(clay, true);
    if (got.kind == BINDINGCLAY_NO_MEMORY) {
        told++;
        /* none goes on, and one can still begin */
        FAULT(bindingclay_recorded(clay, into, 1), EINVAL);
        got = bindingclay_record(clay, true);
    }
    DONE(got, 0);
    calls_that_are_done(clay);
    drain_at_last(clay, record);
    calls_that_wait(clay);
    drain_at_last(clay, record);
    bool was_refused = refused == 1;
    refuse_none();
    /* the index of calls that wait does without memory, and tells nothing of it */
    HOLDS(told <= refused);
    DONE(bindingclay_record(clay, false), 0);
    bindingclay_free(clay);
    HOLDS(atomic_load(&blocks_left) == 2);
    return was_refused;
}

static void each_request_is_refused(void)
{
    struct record whole = { NULL, 0, 0 }, other = { NULL, 0, 0 };
    long granted = 0, rounds_told = 0;
    keep_bytes(&whole, large, 1);
    keep_bytes(&other, large, 1);
    HOLDS(!round_without(LONG_MAX, &whole));
    save(&whole, folder, "memory", steps);
    while (checks_failed == 0 && round_without(granted, &other)) {
        rounds_told += told;
        HOLDS(other.length == whole.length && memcmp(other.text, whole.text, whole.length) == 0);
        granted++;
    }
    printf("each of %ld requests refused in turn, and %ld calls told it\n", granted, rounds_told);
    HOLDS(granted > 50 && rounds_told > 50);
    free(whole.text);
    free(other.text);
}

/* ---- A budget ---- */

/* The record fills the budget, until a call finds no memory that asks for none otherwise. Handed out, it leaves room for hundreds of lines: room for
 * lines that was taken before is kept, so it may be for half as many. */
static void a_budget_is_filled(void)
{
    struct record record = { NULL, 0, 0 };
    bindingclay_limits limits = BINDINGCLAY_LIMITS;
    bindingclay clay = { NULL };
    limits.memory = 38000;
    HOLDS(bindingclay_open_within(&limits, &clay.kernel));
    DONE(bindingclay_record(clay, true), 0);
    DONE(bindingclay_start(clay), 1);
    NEW_PIPE(clay, 1, false);
    long replies = 2;
    for (int turn = 0; turn < 5; turn++) {
        long closes = 0;
        DONE(put_many(clay, 1, 1, 100), 100);
        DONE(take(clay, 1, 0, 100), 100);
        bindingclay_answer got;
        while ((got = bindingclay_close(clay, 1, 9)).kind == BINDINGCLAY_FAULT && closes < 10000)
            closes++;
        OTHER(got, BINDINGCLAY_NO_MEMORY);
        HOLDS(closes > 250 && bindingclay_memory(clay).held <= limits.memory);
        HOLDS(drain(clay, &record, 1000));
        replies += closes + 2;
    }
    DONE(bindingclay_exit(clay, 1), 0);
    HOLDS(drain(clay, &record, 1000));
    save(&record, folder, "budget", replies + 1);
    bindingclay_free(clay);
    free(record.text);
}

/* Ended, a recording gives back its memory, and steps are made without it. */
static void an_end_gives_back(void)
{
    bindingclay clay = new_kernel(1, ROOM);
    DONE(bindingclay_record(clay, true), 0);
    DONE(bindingclay_start(clay), 1);
    uint64_t before = bindingclay_memory(clay).held;
    for (int i = 0; i < 1000; i++)
        FAULT(bindingclay_close(clay, 1, 5), EBADF);
    HOLDS(bindingclay_memory(clay).held > before + 10000);
    refuse(0, LONG_MAX);
    DONE(bindingclay_record(clay, false), 0);
    FAULT(bindingclay_close(clay, 1, 5), EBADF);
    DONE(bindingclay_exit(clay, 1), 0);
    HOLDS(refused == 0);
    refuse_none();
    HOLDS(bindingclay_memory(clay).held < before);
    bindingclay_free(clay);
}

int main(int argc, char **argv)
{
    if (argc != 2) {
        fprintf(stderr, "records_memory FOLDER\n");
        return 2;
    }
    folder = argv[1];
    for (size_t i = 0; i < sizeof large; i++)
        large[i] = (uint8_t)(i * 7 + i / 251);
    each_request_is_refused();
    a_budget_is_filled();
    an_end_gives_back();
    HOLDS(atomic_load(&blocks_left) == 0);
    return end();
}
