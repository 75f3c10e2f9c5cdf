/* Want of memory. Each request for memory is refused in turn: the call answers NO_MEMORY, has changed nothing, and is made again, with
 * the answer that it has anyway. And calls that take no memory are made where there is none. */
#define _GNU_SOURCE
#include "check.h"
#include "counted.h"

#include <fcntl.h>
#include <limits.h>
#include <poll.h>

enum { ROOM = 100000, UNWRITTEN = 0x5555 };

/* All that a call may write. */
static uint8_t into[ROOM];
static bindingclay_ends ends;
static bindingclay_pollfd entries[3];

/* What is written. */
static uint8_t large[300000];

/* How often NO_MEMORY was told in a round. */
static long told;

static void clear(void)
{
    memset(into, UNTOUCHED, sizeof into);
    ends = (bindingclay_ends){ -7, -8 };
    for (int i = 0; i < 3; i++)
        entries[i].revents = UNWRITTEN;
}

static bool is_clear(void)
{
    for (size_t i = 0; i < sizeof into; i++)
        if (into[i] != UNTOUCHED)
            return false;
    for (int i = 0; i < 3; i++)
        if (entries[i].revents != UNWRITTEN)
            return false;
    return ends.read_end == -7 && ends.write_end == -8;
}

/* Makes a call, and again where there was no memory for it. */
#define MADE_SO(call, wanted) \
    do { \
        clear(); \
        bindingclay_answer got = call; \
        if (got.kind == BINDINGCLAY_NO_MEMORY) { \
            told++; \
            OTHER(got, BINDINGCLAY_NO_MEMORY); \
            HOLDS(is_clear()); \
            got = call; \
        } \
        answers(__FILE__, __LINE__, #call, got, wanted); \
    } while (0)
#define MADE(call, kind, value) MADE_SO(call, an_answer(kind, value, 0, false))

enum { D = BINDINGCLAY_DONE, P = BINDINGCLAY_PARKED };

/* Pipes and a file: descriptors 0 and 1, 2 for the file, 3 and 4. */
static void bytes_in_turn(bindingclay clay)
{
    const uint64_t first = 0;
    MADE(bindingclay_start(clay), D, 1);
    MADE(bindingclay_pipe(clay, 1, false, &ends), D, 0);
    HOLDS(ends.read_end == 0 && ends.write_end == 1);
    MADE(bindingclay_read(clay, 1, 0, into, 5), P, 1);
    MADE(put(clay, 1, 1, "hello"), D, 5);
    MADE(bindingclay_resume(clay, 1, into, 5), D, 5);
    HOLDS(memcmp(into, "hello\xa5", 6) == 0);
    MADE_SO(bindingclay_write(clay, 1, 1, large, 70000), that_waits(2, true));
    MADE(bindingclay_read(clay, 1, 0, into, 5000), D, 5000);
    HOLDS(memcmp(into, large, 5000) == 0);
    MADE(bindingclay_resume(clay, 2, into, 0), D, 70000);
    MADE(open_text(clay, 1, "f", O_RDWR | O_CREAT), D, 2);
    MADE(bindingclay_write(clay, 1, 2, large, 10000), D, 10000);
    /* 65,000 bytes are held */
    MADE(bindingclay_splice(clay, 1, 2, &first, 1, NULL, 10000, 0), D, 536);
    MADE(bindingclay_pipe(clay, 1, false, &ends), D, 0);
    HOLDS(ends.read_end == 3 && ends.write_end == 4);
    MADE(bindingclay_tee(clay, 1, 0, 4, 60000, 0), D, 60000);
    MADE(bindingclay_splice(clay, 1, 0, NULL, 2, NULL, 50000, 0), D, 50000);
    MADE(bindingclay_lseek(clay, 1, 2, 9999, SEEK_SET), D, 9999);
    MADE(bindingclay_read(clay, 1, 2, into, 10000), D, 10000);
    HOLDS(into[0] == large[9999] && memcmp(into + 1, large + 5000, 9999) == 0);
    MADE(bindingclay_file_bytes(clay, bytes_of("f"), 1, into, 100), BINDINGCLAY_SHORT, 60000);
    MADE(bindingclay_file_bytes(clay, bytes_of("f"), 1, into, ROOM), D, 60000);
    HOLDS(memcmp(into, large, 10000) == 0 && memcmp(into + 10000, large + 5000, 50000) == 0);
    MADE(bindingclay_set_pipe_sz(clay, 1, 4, 1048576), D, 1048576);
    MADE(bindingclay_write(clay, 1, 4, large, 300000), D, 300000);
    MADE(bindingclay_read(clay, 1, 3, into, 70000), D, 70000);
    HOLDS(memcmp(into, large + 5000, 60000) == 0 && memcmp(into + 60000, large, 10000) == 0);
}

/* A FIFO, and calls that wait: process 2 is the child. */
static void waits_in_turn(bindingclay clay)
{
    MADE(mkfifo_text(clay, 1, "q"), D, 0);
    MADE(open_text(clay, 1, "q", O_RDONLY), P, 3);
    MADE(bindingclay_fork(clay, 1), D, 2);
    MADE(open_text(clay, 2, "q", O_WRONLY), D, 5);
    MADE(bindingclay_resume(clay, 3, into, 0), D, 5);
    entries[0] = (bindingclay_pollfd){ .fd = 5, .events = POLLIN };
    entries[1] = (bindingclay_pollfd){ .fd = -1, .events = POLLIN };
    entries[2] = (bindingclay_pollfd){ .fd = 2, .events = POLLOUT };
    MADE(bindingclay_poll(clay, 1, entries, 3, true), D, 1);
    HOLDS(entries[0].revents == 0 && entries[1].revents == 0 && entries[2].revents == POLLOUT);
    MADE(bindingclay_poll(clay, 1, entries, 2, true), P, 4);
    MADE(bindingclay_resume_poll(clay, 4, entries, 2), P, 4);
    MADE(put(clay, 2, 5, "hi"), D, 2);
    MADE(bindingclay_resume_poll(clay, 4, entries, 2), D, 1);
    HOLDS(entries[0].revents == POLLIN && entries[1].revents == 0);
    MADE(bindingclay_read(clay, 1, 5, into, 9), D, 2);
    MADE(bindingclay_splice(clay, 1, 5, NULL, 4, NULL, 9, 0), P, 5);
    MADE(bindingclay_tee(clay, 1, 5, 4, 9, 0), P, 6);
    MADE(put(clay, 2, 5, "bye"), D, 3);
    MADE(bindingclay_resume(clay, 6, into, 0), D, 3);
    MADE(bindingclay_resume(clay, 5, into, 0), D, 3);
    MADE(bindingclay_dup_fd(clay, 2, 5, 200), D, 200);
    MADE(bindingclay_exit(clay, 2), D, 0);
    MADE(bindingclay_read(clay, 1, 5, into, 9), D, 0);
    MADE(unlink_text(clay, 1, "f"), D, 0);
    MADE(unlink_text(clay, 1, "q"), D, 0);
}

/* A packet pipe of process 2, which ends. */
static void packets_in_turn(bindingclay clay)
{
    MADE(bindingclay_start(clay), D, 2);
    MADE(bindingclay_pipe2(clay, 2, BINDINGCLAY_O_DIRECT, &ends), D, 0);
    HOLDS(ends.read_end == 0 && ends.write_end == 1);
    MADE(bindingclay_read(clay, 2, 0, into, 9), P, 7);
    MADE(put(clay, 2, 1, "abc"), D, 3);
    MADE(bindingclay_resume(clay, 7, into, 9), D, 3);
    HOLDS(memcmp(into, "abc\xa5", 4) == 0);
    MADE(put(clay, 2, 1, "de"), D, 2);
    MADE(put(clay, 2, 1, "fgh"), D, 3);
    MADE(bindingclay_read(clay, 2, 0, into, 1), D, 1);
    HOLDS(memcmp(into, "d\xa5", 2) == 0);
    MADE(bindingclay_read(clay, 2, 0, into, 9), D, 3);
    HOLDS(memcmp(into, "fgh\xa5", 4) == 0);
    MADE(bindingclay_set_pipe_sz(clay, 2, 0, 8192), D, 8192);
    MADE_SO(bindingclay_write(clay, 2, 1, large, 10000), that_waits(8, true));
    MADE(bindingclay_read(clay, 2, 0, into, 5000), D, 4096);
    HOLDS(memcmp(into, large, 4096) == 0 && into[4096] == UNTOUCHED);
    MADE(bindingclay_set_pipe_sz(clay, 2, 1, 16384), D, 16384);
    MADE(bindingclay_resume(clay, 8, into, 0), D, 10000);
    MADE(bindingclay_read(clay, 2, 0, into, 5000), D, 4096);
    HOLDS(memcmp(into, large + 4096, 4096) == 0);
    MADE(bindingclay_read(clay, 2, 0, into, 5000), D, 1808);
    HOLDS(memcmp(into, large + 8192, 1808) == 0 && into[1808] == UNTOUCHED);
    MADE(bindingclay_write(clay, 2, 1, large, 16384), D, 16384);
    MADE(bindingclay_exit(clay, 2), D, 0);
}

/* A round in which the request behind so many granted ones is refused; whether there was one. */
static bool round_without(long granted)
{
    bindingclay clay = { &told };
    told = 0;
    refuse(granted, 1);
    if (!bindingclay_open(1, ROOM, &clay.kernel)) {
        told++;
        HOLDS(clay.kernel == &told);
        clay = new_kernel(1, ROOM);
    }
    bytes_in_turn(clay);
    waits_in_turn(clay);
    packets_in_turn(clay);
    bindingclay_free(clay);
    refuse_none();
    /* none was refused without being told */
    HOLDS(told == refused);
    HOLDS(atomic_load(&blocks_left) == 0);
    if (checks_failed > 0)
        printf("that was with request %ld refused\n", granted + 1);
    return refused > 0;
}

/* Calls that take no memory, and calls that are refused, where there is none. */
static void with_no_memory(void)
{
    bindingclay clay = kernel_with_process();
    NEW_PIPE(clay, 1, true);
    DONE(put(clay, 1, 1, "hello"), 5);
    DONE(open_text(clay, 1, "f", O_RDWR | O_CREAT), 2);
    DONE(put(clay, 1, 2, "abc"), 3);
    DONE(bindingclay_fork(clay, 1), 2);
    NEW_PIPE(clay, 1, false);
    PARKED(bindingclay_read(clay, 1, 3, into, 2), 1);
    PARKED(bindingclay_read(clay, 1, 3, into, 2), 2);
    refuse(0, LONG_MAX);
    DONE(bindingclay_dup(clay, 1, 0), 5);
    DONE(bindingclay_dup2(clay, 1, 0, 6), 6);
    DONE(bindingclay_lseek(clay, 1, 2, 1, SEEK_SET), 1);
    DONE(bindingclay_get_fl(clay, 1, 0), O_RDONLY | O_NONBLOCK);
    DONE(bindingclay_set_fl(clay, 1, 1, O_NONBLOCK), 0);
    DONE(bindingclay_get_pipe_sz(clay, 1, 0), 65536);
    DONE(bindingclay_owner(clay, 2), 1);
    FAULT(bindingclay_interrupt(clay, 1), EINTR);
    PARKED(bindingclay_resume(clay, 2, into, 2), 2);
    /* a read that doesn't wait takes none either */
    DONE(bindingclay_read(clay, 1, 0, into, 3), 3);
    HOLDS(memcmp(into, "hel", 3) == 0);
    DONE(bindingclay_read(clay, 1, 2, into, 3), 2);
    HOLDS(memcmp(into, "bc", 2) == 0);
    /* nor does a poll that doesn't wait: two bytes are left in the pipe, and a file is always ready */
    entries[0] = (bindingclay_pollfd){ .fd = 5, .events = POLLIN };
    entries[1] = (bindingclay_pollfd){ .fd = -1, .events = POLLIN };
    entries[2] = (bindingclay_pollfd){ .fd = 2, .events = POLLOUT };
    DONE(bindingclay_poll(clay, 1, entries, 3, true), 2);
    HOLDS(entries[0].revents == POLLIN && entries[1].revents == 0 && entries[2].revents == POLLOUT);
    /* and neither does what is refused for another reason */
    FAULT(bindingclay_write(clay, 1, 0, large, 300000), EBADF);
    FAULT(mkfifo_text(clay, 1, ""), ENOENT);
    FAULT(bindingclay_tee(clay, 1, 0, 1, 9, 0), EINVAL);
    OTHER(bindingclay_fork(clay, 3), BINDINGCLAY_NO_PROCESS);
    OTHER(bindingclay_resume(clay, 1, into, 2), BINDINGCLAY_NO_CALL);
    HOLDS(refused == 0);
    /* a name is copied first, and what a poll asks where it waits: nothing is in the second pipe */
    OTHER(mkfifo_text(clay, 1, "g"), BINDINGCLAY_NO_MEMORY);
    OTHER(unlink_text(clay, 1, "f"), BINDINGCLAY_NO_MEMORY);
    entries[0].fd = 3;
    OTHER(bindingclay_poll(clay, 1, entries, 1, true), BINDINGCLAY_NO_MEMORY);
    HOLDS(entries[0].revents == POLLIN);
    HOLDS(refused == 3);
    OTHER(bindingclay_interrupt(clay, 3), BINDINGCLAY_NO_CALL);
    DONE(bindingclay_close(clay, 1, 2), 0);
    DONE(bindingclay_exit(clay, 1), 0);
    DONE(bindingclay_exit(clay, 2), 0);
    HOLDS(refused == 3);
    refuse_none();
    /* nothing of these three was done: no FIFO, the file is there, and no number was given */
    DONE(bindingclay_start(clay), 1);
    FAULT(unlink_text(clay, 1, "g"), ENOENT);
    HAS_FILE(clay, "f", "abc");
    NEW_PIPE(clay, 1, false);
    PARKED(bindingclay_read(clay, 1, 0, into, 1), 3);
    refuse(0, LONG_MAX);
    bindingclay_free(clay);
    HOLDS(refused == 0 && atomic_load(&blocks_left) == 0);
    refuse_none();
}

enum { ROWS = 16 };

/* Once a descriptor is open, the first 16 have a row. Another one wants memory for its row, but not if it is open or below one that is. */
static void rows_without_memory(void)
{
    enum { OPEN = 99 };
    bindingclay clay = kernel_with_process();
    NEW_PIPE(clay, 1, true);
    DONE(bindingclay_fork(clay, 1), 2);
    DONE(bindingclay_dup2(clay, 2, 0, OPEN), OPEN);
    refuse(0, LONG_MAX);
    for (int32_t fd = 2; fd < ROWS; fd++)
        DONE(bindingclay_dup(clay, 1, 0), fd);
    HOLDS(refused == 0);
    OTHER(bindingclay_dup(clay, 1, 0), BINDINGCLAY_NO_MEMORY);
    OTHER(bindingclay_dup2(clay, 1, 0, ROWS), BINDINGCLAY_NO_MEMORY);
    OTHER(bindingclay_dup_fd(clay, 1, 0, ROWS), BINDINGCLAY_NO_MEMORY);
    HOLDS(refused == 3);
    FAULT(bindingclay_get_fl(clay, 1, ROWS), EBADF);
    DONE(bindingclay_dup2(clay, 2, 1, OPEN), OPEN);
    DONE(bindingclay_get_fl(clay, 2, OPEN), O_WRONLY | O_NONBLOCK);
    DONE(bindingclay_dup_fd(clay, 2, 0, ROWS), ROWS);
    DONE(bindingclay_close(clay, 2, OPEN), 0);
    HOLDS(refused == 3);
    refuse_none();
    DONE(bindingclay_dup(clay, 1, 0), ROWS);
    bindingclay_free(clay);
}

/* An open that has met its other end waits on where there is no memory for the row of its descriptor. */
static void an_open_without_a_row(void)
{
    bindingclay clay = kernel_with_process();
    DONE(mkfifo_text(clay, 1, "q"), 0);
    DONE(bindingclay_fork(clay, 1), 2);
    PARKED(open_text(clay, 1, "q", O_RDONLY), 1);
    DONE(open_text(clay, 2, "q", O_WRONLY), 0);
    DONE(open_text(clay, 1, "f", O_RDWR | O_CREAT), 0);
    for (int32_t fd = 1; fd < ROWS; fd++)
        DONE(bindingclay_dup(clay, 1, 0), fd);
    refuse(0, 1);
    OTHER(bindingclay_resume(clay, 1, into, 0), BINDINGCLAY_NO_MEMORY);
    HOLDS(refused == 1 && bindingclay_can_progress(clay, 1));
    DONE(bindingclay_resume(clay, 1, into, 0), ROWS);
    refuse_none();
    DONE(put(clay, 2, 0, "hello"), 5);
    READS(clay, 1, ROWS, 9, "hello");
    bindingclay_free(clay);
}

/* A read asks for memory only where it is to wait, and is made again after it found none. */
static void reads_that_wait(void)
{
    bindingclay clay = kernel_with_process();
    NEW_PIPE(clay, 1, false);
    clear();
    refuse(0, LONG_MAX);
    OTHER(bindingclay_read(clay, 1, 0, into, 6), BINDINGCLAY_NO_MEMORY);
    HOLDS(refused == 1 && is_clear());
    refuse_none();
    PARKED(bindingclay_read(clay, 1, 0, into, 6), 1);
    DONE(put(clay, 1, 1, "hello"), 5);
    refuse(0, LONG_MAX);
    DONE(bindingclay_read(clay, 1, 0, into, 6), 5);
    HOLDS(refused == 0 && memcmp(into, "hello\xa5", 6) == 0);
    refuse_none();
    bindingclay_free(clay);
}

/* A read of a packet that is held takes no memory, and neither do the calls that tell of the pipe or let packets go. */
static void packets_without_memory(void)
{
    bindingclay clay = kernel_with_process();
    DONE(bindingclay_pipe2(clay, 1, BINDINGCLAY_O_DIRECT, &ends), 0);
    for (int i = 0; i < 4; i++)
        DONE(put(clay, 1, 1, "hello"), 5);
    clear();
    entries[0] = (bindingclay_pollfd){ .fd = 0, .events = POLLIN };
    refuse(0, LONG_MAX);
    DONE(bindingclay_read(clay, 1, 0, into, 2), 2);
    HOLDS(memcmp(into, "he\xa5", 3) == 0);
    DONE(bindingclay_read(clay, 1, 0, into, ROOM), 5);
    HOLDS(memcmp(into, "hello\xa5", 6) == 0);
    DONE(bindingclay_poll(clay, 1, entries, 1, true), 1);
    DONE(bindingclay_get_fl(clay, 1, 1), O_WRONLY | BINDINGCLAY_O_DIRECT);
    DONE(bindingclay_set_fl(clay, 1, 1, O_NONBLOCK), 0);
    FAULT(bindingclay_set_pipe_sz(clay, 1, 1, 4096), EBUSY);
    FAULT(bindingclay_pipe2(clay, 1, O_APPEND, &ends), EINVAL);
    DONE(bindingclay_close(clay, 1, 1), 0);
    DONE(bindingclay_read(clay, 1, 0, into, ROOM), 5);
    DONE(bindingclay_exit(clay, 1), 0);
    HOLDS(refused == 0);
    refuse_none();
    bindingclay_free(clay);
    HOLDS(atomic_load(&blocks_left) == 0);
}

int main(void)
{
    for (size_t i = 0; i < sizeof large; i++)
        large[i] = (uint8_t)(i * 7 + i / 251);
    long granted = 0;
    while (checks_failed == 0 && round_without(granted))
        granted++;
    HOLDS(granted > 40);
    with_no_memory();
    rows_without_memory();
    an_open_without_a_row();
    reads_that_wait();
    packets_without_memory();
    return end();
}
