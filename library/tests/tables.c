/* Limits on what stands in tables: descriptors, open file descriptions and processes. Each is at its edge, below the usual number and above it. */
#include "check.h"

#include <fcntl.h>
#include <poll.h>

/* ---- Descriptors ---- */

/* Three descriptors: no fourth one is given, and none from 3 on is one (getrlimit, RLIMIT_NOFILE). */
static void descriptors(void)
{
    bindingclay_limits limits = BINDINGCLAY_LIMITS;
    limits.descriptors_max = 3;
    bindingclay clay = kernel_within(&limits);
    bindingclay_ends ends = NEW_PIPE(clay, 1, false), none = { UNTOUCHED, UNTOUCHED };
    HOLDS(ends.read_end == 0 && ends.write_end == 1);
    /* a pipe wants two, and takes none where there is one */
    FAULT(bindingclay_pipe(clay, 1, false, &none), EMFILE);
    FAULT(bindingclay_pipe2(clay, 1, BINDINGCLAY_O_DIRECT, &none), EMFILE);
    HOLDS(none.read_end == UNTOUCHED && none.write_end == UNTOUCHED);
    DONE(bindingclay_dup_fd(clay, 1, 0, 2), 2);
    FAULT(bindingclay_dup_fd(clay, 1, 0, 2), EMFILE);
    FAULT(bindingclay_dup_fd(clay, 1, 0, 0), EMFILE);
    FAULT(bindingclay_dup_fd(clay, 1, 0, 3), EINVAL);
    FAULT(bindingclay_dup_fd(clay, 1, 0, 255), EINVAL);
    FAULT(bindingclay_dup_fd(clay, 1, 0, -1), EINVAL);
    FAULT(bindingclay_dup_fd(clay, 1, 3, 3), EBADF);
    FAULT(bindingclay_dup(clay, 1, 0), EMFILE);
    FAULT(bindingclay_dup(clay, 1, 3), EBADF);
    FAULT(bindingclay_dup2(clay, 1, 0, 3), EBADF);
    FAULT(bindingclay_dup2(clay, 1, 0, 255), EBADF);
    FAULT(bindingclay_dup2(clay, 1, 0, -1), EBADF);
    DONE(bindingclay_dup2(clay, 1, 1, 2), 2);
    /* an open makes no file, and empties none */
    FAULT(open_text(clay, 1, "f", O_RDWR | O_CREAT), EMFILE);
    FAULT(open_text(clay, 1, "f", O_RDWR), ENOENT);
    DONE(bindingclay_close(clay, 1, 0), 0);
    DONE(open_text(clay, 1, "f", O_RDWR | O_CREAT), 0);
    DONE(put(clay, 1, 0, "hello"), 5);
    FAULT(open_text(clay, 1, "f", O_RDWR | O_TRUNC), EMFILE);
    HAS_FILE(clay, "f", "hello");
    /* a child has as many, and no more */
    DONE(bindingclay_fork(clay, 1), 2);
    FAULT(bindingclay_dup(clay, 2, 0), EMFILE);
    DONE(bindingclay_close(clay, 2, 1), 0);
    DONE(bindingclay_dup(clay, 2, 0), 1);
    FAULT(bindingclay_dup2(clay, 2, 0, 3), EBADF);
    bindingclay_free(clay);
}

/* More descriptors than usual: the table is full at the limit, and the least free one is found again wherever it is. */
static void many_descriptors(void)
{
    enum { MANY = 1000 };
    static const int32_t CLOSED[] = { 999, 0, 63, 64, 127, 128, 500, 511, 512, 998 };
    bindingclay_limits limits = BINDINGCLAY_LIMITS;
    limits.descriptors_max = MANY;
    bindingclay clay = kernel_within(&limits);
    DONE(open_text(clay, 1, "f", O_RDWR | O_CREAT), 0);
    for (int32_t fd = 1; fd < MANY; fd++)
        DONE(bindingclay_dup(clay, 1, 0), fd);
    FAULT(bindingclay_dup(clay, 1, 0), EMFILE);
    FAULT(open_text(clay, 1, "g", O_RDWR | O_CREAT), EMFILE);
    FAULT(bindingclay_dup_fd(clay, 1, 0, MANY - 1), EMFILE);
    FAULT(bindingclay_dup_fd(clay, 1, 0, MANY), EINVAL);
    FAULT(bindingclay_dup2(clay, 1, 0, MANY), EBADF);
    FAULT(bindingclay_close(clay, 1, MANY), EBADF);
    DONE(bindingclay_dup2(clay, 1, 0, MANY - 1), MANY - 1);
    for (size_t i = 0; i < sizeof CLOSED / sizeof *CLOSED; i++) {
        DONE(bindingclay_close(clay, 1, CLOSED[i]), 0);
        DONE(bindingclay_dup_fd(clay, 1, 1, 0), CLOSED[i]);
    }
    for (size_t i = 0; i < sizeof CLOSED / sizeof *CLOSED; i++)
        DONE(bindingclay_close(clay, 1, CLOSED[i]), 0);
    bindingclay_ends ends = NEW_PIPE(clay, 1, false);
    HOLDS(ends.read_end == 0 && ends.write_end == 63);
    DONE(bindingclay_dup_fd(clay, 1, 1, 129), 500);
    /* a child has as many */
    DONE(bindingclay_fork(clay, 1), 2);
    DONE(bindingclay_dup_fd(clay, 2, 1, 513), 998);
    DONE(bindingclay_dup(clay, 1, 1), 64);
    bindingclay_free(clay);
}

/* A poll takes as many entries as there may be descriptors. */
static void polls_within_many_descriptors(void)
{
    enum { ENTRIES = 300, UNASKED = 99 };
    bindingclay_limits limits = BINDINGCLAY_LIMITS;
    limits.descriptors_max = ENTRIES;
    bindingclay clay = kernel_within(&limits);
    NEW_PIPE(clay, 1, false);
    bindingclay_pollfd entries[ENTRIES + 1];
    for (int i = 0; i <= ENTRIES; i++)
        entries[i] = (bindingclay_pollfd){ 0, POLLIN, UNASKED };
    FAULT(bindingclay_poll(clay, 1, entries, ENTRIES + 1, false), EINVAL);
    FAULT(bindingclay_poll(clay, 1, entries, ENTRIES + 1, true), EINVAL);
    HOLDS(entries[0].revents == UNASKED);
    DONE(bindingclay_poll(clay, 1, entries, ENTRIES, false), 0);
    HOLDS(entries[0].revents == 0 && entries[ENTRIES - 1].revents == 0 && entries[ENTRIES].revents == UNASKED);
    PARKED(bindingclay_poll(clay, 1, entries, ENTRIES, true), 1);
    DONE(put(clay, 1, 1, "a"), 1);
    DONE(bindingclay_resume_poll(clay, 1, entries, ENTRIES), ENTRIES);
    HOLDS(entries[0].revents == POLLIN && entries[ENTRIES - 1].revents == POLLIN && entries[ENTRIES].revents == UNASKED);
    bindingclay_free(clay);
}

/* A poll takes 256 entries at least, and tells of those from the limit on that they aren't open. */
static void polls_within_few_descriptors(void)
{
    enum { ENTRIES = BINDINGCLAY_USUAL_DESCRIPTORS };
    bindingclay_limits limits = BINDINGCLAY_LIMITS;
    limits.descriptors_max = 3;
    bindingclay clay = kernel_within(&limits);
    NEW_PIPE(clay, 1, false);
    bindingclay_pollfd entries[ENTRIES + 1];
    for (int32_t fd = 0; fd <= ENTRIES; fd++)
        entries[fd] = (bindingclay_pollfd){ fd, POLLOUT, 0 };
    DONE(bindingclay_poll(clay, 1, entries, ENTRIES, true), ENTRIES - 1);
    HOLDS(entries[0].revents == 0 && entries[1].revents == POLLOUT);
    for (int32_t fd = 2; fd < ENTRIES; fd++)
        HOLDS(entries[fd].revents == POLLNVAL);
    FAULT(bindingclay_poll(clay, 1, entries, ENTRIES + 1, true), EINVAL);
    bindingclay_free(clay);
}

/* An open of a FIFO that waits keeps no descriptor: it may find none once it has met the other end. */
static void an_open_that_meets_at_the_limit(void)
{
    bindingclay_limits limits = BINDINGCLAY_LIMITS;
    limits.descriptors_max = 2;
    bindingclay clay = kernel_within(&limits);
    DONE(mkfifo_text(clay, 1, "q"), 0);
    PARKED(open_text(clay, 1, "q", O_RDONLY), 1);
    DONE(open_text(clay, 1, "q", O_WRONLY), 0);
    DONE(bindingclay_dup(clay, 1, 0), 1);
    FAULT(again(clay, 1), EMFILE);
    bindingclay_free(clay);
}

static void no_descriptors(void)
{
    bindingclay_limits limits = BINDINGCLAY_LIMITS;
    limits.descriptors_max = 0;
    bindingclay clay = kernel_within(&limits);
    bindingclay_ends ends;
    FAULT(bindingclay_pipe(clay, 1, false, &ends), EMFILE);
    FAULT(open_text(clay, 1, "f", O_RDWR | O_CREAT), EMFILE);
    FAULT(bindingclay_dup2(clay, 1, 0, 0), EBADF);
    DONE(mkfifo_text(clay, 1, "q"), 0);
    bindingclay_free(clay);
}

/* ---- What descriptors take ---- */

enum { MOST = BINDINGCLAY_MOST_DESCRIPTORS, ROW = sizeof(size_t), LITTLE = 1000 };

/* A kernel whose process has a pipe and may have so many descriptors. */
static bindingclay with_a_pipe(uint64_t most)
{
    bindingclay_limits limits = BINDINGCLAY_LIMITS;
    limits.descriptors_max = most;
    bindingclay clay = kernel_within(&limits);
    NEW_PIPE(clay, 1, false);
    return clay;
}

static uint64_t held(bindingclay clay)
{
    return bindingclay_memory(clay).held;
}

/* A high limit takes no memory by itself. */
static void many_that_nobody_opens(void)
{
    bindingclay few = with_a_pipe(2), most = with_a_pipe(MOST);
    HOLDS(held(most) < held(few) + LITTLE);
    bindingclay_free(few);
    bindingclay_free(most);
}

/* As many as there can be: the highest one takes a row of 8 bytes and a bit for each below it. */
static void the_most_descriptors(void)
{
    bindingclay clay = with_a_pipe(MOST);
    DONE(bindingclay_dup_fd(clay, 1, 0, MOST - 1), MOST - 1);
    HOLDS(held(clay) >= MOST * ROW && held(clay) < (MOST + MOST / 8) * ROW);
    FAULT(bindingclay_dup_fd(clay, 1, 0, MOST - 1), EMFILE);
    FAULT(bindingclay_dup_fd(clay, 1, 0, MOST), EINVAL);
    DONE(bindingclay_dup2(clay, 1, 1, MOST - 1), MOST - 1);
    FAULT(bindingclay_dup2(clay, 1, 1, MOST), EBADF);
    FAULT(bindingclay_dup2(clay, 1, 1, INT32_MAX), EBADF);
    DONE(put(clay, 1, MOST - 1, "hello"), 5);
    READS(clay, 1, 0, 9, "hello");
    DONE(bindingclay_exit(clay, 1), 0);
    HOLDS(held(clay) < MOST);
    bindingclay_free(clay);
}

/* Rows get more as descriptors are opened, and fewer as they are closed. A child has as many as its parent had. */
static void descriptors_that_come_and_go(void)
{
    bindingclay clay = with_a_pipe(MOST);
    uint64_t before = held(clay);
    for (int32_t fd = 2; fd < MOST; fd++)
        DONE(bindingclay_dup(clay, 1, 0), fd);
    FAULT(bindingclay_dup(clay, 1, 0), EMFILE);
    uint64_t all = held(clay) - before;
    HOLDS(all + LITTLE >= MOST * ROW && all < (MOST + MOST / 8) * ROW);
    DONE(bindingclay_fork(clay, 1), 2);
    HOLDS(held(clay) <= before + 2 * all + LITTLE);
    for (int32_t fd = MOST - 1; fd > 1; fd--)
        DONE(bindingclay_close(clay, 1, fd), 0);
    HOLDS(held(clay) <= before + all + LITTLE);
    DONE(bindingclay_exit(clay, 2), 0);
    HOLDS(held(clay) <= before + LITTLE);
    DONE(bindingclay_dup(clay, 1, 0), 2);
    bindingclay_free(clay);
}

/* Children with three descriptors each take little, however many they may have, and nothing once they exited. */
static void children_with_few_descriptors(void)
{
    enum { LAST = 1000, OF_A_CHILD = 700 };
    bindingclay clay = with_a_pipe(MOST);
    DONE(bindingclay_dup(clay, 1, 0), 2);
    uint64_t before = held(clay);
    for (uint32_t pid = 2; pid <= LAST; pid++)
        DONE(bindingclay_fork(clay, 1), pid);
    HOLDS(held(clay) <= before + (LAST - 1) * OF_A_CHILD);
    for (uint32_t pid = 2; pid <= LAST; pid++)
        DONE(bindingclay_exit(clay, pid), 0);
    HOLDS(held(clay) <= before);
    bindingclay_free(clay);
}

/* ---- Descriptions ---- */

/* Ends the one process, with all that it has open: another has pid 1, and room for a pipe. */
static void starts_again(bindingclay clay)
{
    DONE(bindingclay_exit(clay, 1), 0);
    DONE(bindingclay_start(clay), 1);
    NEW_PIPE(clay, 1, false);
}

/* Three descriptions: a duplicate and a child make none, and one that goes makes place for one. */
static void descriptions(void)
{
    bindingclay_limits limits = BINDINGCLAY_LIMITS;
    limits.descriptions_max = 3;
    bindingclay clay = kernel_within(&limits);
    bindingclay_ends none = { UNTOUCHED, UNTOUCHED };
    NEW_PIPE(clay, 1, false);
    /* a pipe wants two, and takes none where there may be one more */
    FAULT(bindingclay_pipe(clay, 1, false, &none), ENFILE);
    FAULT(bindingclay_pipe2(clay, 1, BINDINGCLAY_O_DIRECT, &none), ENFILE);
    HOLDS(none.read_end == UNTOUCHED && none.write_end == UNTOUCHED);
    DONE(open_text(clay, 1, "f", O_RDWR | O_CREAT), 2);
    /* an open makes no file */
    FAULT(open_text(clay, 1, "f", O_RDWR), ENFILE);
    FAULT(open_text(clay, 1, "g", O_RDWR | O_CREAT), ENFILE);
    FAULT(open_text(clay, 1, "g", O_RDWR), ENOENT);
    DONE(mkfifo_text(clay, 1, "q"), 0);
    FAULT(open_text(clay, 1, "q", O_RDONLY), ENFILE);
    FAULT(open_text(clay, 1, "q", O_WRONLY | O_NONBLOCK), ENFILE);
    DONE(bindingclay_dup(clay, 1, 2), 3);
    DONE(bindingclay_fork(clay, 1), 2);
    DONE(bindingclay_close(clay, 1, 2), 0);
    DONE(bindingclay_close(clay, 1, 3), 0);
    FAULT(open_text(clay, 1, "f", O_RDWR), ENFILE);
    /* the child has let go of the file too */
    DONE(bindingclay_close(clay, 2, 2), 0);
    DONE(bindingclay_close(clay, 2, 3), 0);
    DONE(open_text(clay, 1, "f", O_RDWR), 2);
    DONE(bindingclay_close(clay, 1, 2), 0);
    /* an open that waits has one */
    PARKED(open_text(clay, 1, "q", O_RDONLY), 1);
    FAULT(open_text(clay, 1, "f", O_RDWR), ENFILE);
    FAULT(bindingclay_interrupt(clay, 1), EINTR);
    DONE(open_text(clay, 1, "f", O_RDWR), 2);
    DONE(bindingclay_exit(clay, 2), 0);
    starts_again(clay);
    bindingclay_free(clay);
}

static void no_descriptions(void)
{
    bindingclay_limits limits = BINDINGCLAY_LIMITS;
    bindingclay_ends ends;
    limits.descriptions_max = 0;
    bindingclay clay = kernel_within(&limits);
    FAULT(bindingclay_pipe(clay, 1, false, &ends), ENFILE);
    FAULT(open_text(clay, 1, "f", O_RDWR | O_CREAT), ENFILE);
    DONE(mkfifo_text(clay, 1, "q"), 0);
    FAULT(open_text(clay, 1, "q", O_RDONLY), ENFILE);
    bindingclay_free(clay);
    limits.descriptions_max = 1;
    clay = kernel_within(&limits);
    FAULT(bindingclay_pipe(clay, 1, false, &ends), ENFILE);
    DONE(open_text(clay, 1, "f", O_RDWR | O_CREAT), 0);
    bindingclay_free(clay);
}

/* 100,000, and one more. */
static void many_descriptions(void)
{
    enum { GUESTS = 4, PIPES_OF_EACH = 12500, PIPES = GUESTS * PIPES_OF_EACH, NEXT = 2 * PIPES_OF_EACH };
    bindingclay_limits limits = BINDINGCLAY_LIMITS;
    bindingclay_ends ends;
    limits.descriptors_max = NEXT + 2;
    limits.descriptions_max = 2 * PIPES + 1;
    bindingclay clay = kernel_within(&limits);
    for (uint32_t pid = 1; pid <= GUESTS; pid++) {
        if (pid > 1)
            DONE(bindingclay_start(clay), pid);
        for (int i = 0; i < PIPES_OF_EACH; i++)
            NEW_PIPE(clay, pid, false);
    }
    FAULT(bindingclay_pipe(clay, 1, false, &ends), ENFILE);
    DONE(open_text(clay, 1, "f", O_RDWR | O_CREAT), NEXT);
    FAULT(open_text(clay, 1, "f", O_RDWR), ENFILE);
    DONE(bindingclay_close(clay, GUESTS, PIPES_OF_EACH), 0);
    FAULT(bindingclay_pipe(clay, GUESTS, false, &ends), ENFILE);
    DONE(open_text(clay, GUESTS, "f", O_RDWR), PIPES_OF_EACH);
    starts_again(clay);
    bindingclay_free(clay);
}

/* ---- Processes ---- */

static void processes(void)
{
    bindingclay_limits limits = BINDINGCLAY_LIMITS;
    limits.processes_max = 2;
    bindingclay clay = kernel_within(&limits);
    DONE(bindingclay_fork(clay, 1), 2);
    FAULT(bindingclay_start(clay), EAGAIN);
    FAULT(bindingclay_fork(clay, 1), EAGAIN);
    OTHER(bindingclay_fork(clay, 3), BINDINGCLAY_NO_PROCESS);
    DONE(bindingclay_exit(clay, 1), 0);
    DONE(bindingclay_start(clay), 1);
    FAULT(bindingclay_fork(clay, 2), EAGAIN);
    bindingclay_free(clay);
}

static void no_processes(void)
{
    bindingclay_limits limits = BINDINGCLAY_LIMITS;
    bindingclay clay = { NULL };
    limits.processes_max = 0;
    HOLDS(bindingclay_open_within(&limits, &clay.kernel));
    FAULT(bindingclay_start(clay), EAGAIN);
    OTHER(bindingclay_fork(clay, 1), BINDINGCLAY_NO_PROCESS);
    bindingclay_free(clay);
}

/* More than usual, and the least free pid among them. */
static void many_processes(void)
{
    enum { MANY = 5000 };
    static const uint32_t ENDED[] = { MANY, 1, 64, 65, 1024, 1025, 4096, 4097, 2500 };
    bindingclay_limits limits = BINDINGCLAY_LIMITS;
    limits.processes_max = MANY;
    limits.descriptors_max = 2;
    bindingclay clay = kernel_within(&limits);
    for (uint64_t pid = 2; pid <= MANY; pid++)
        DONE(bindingclay_start(clay), pid);
    FAULT(bindingclay_start(clay), EAGAIN);
    FAULT(bindingclay_fork(clay, MANY), EAGAIN);
    for (size_t i = 0; i < sizeof ENDED / sizeof *ENDED; i++) {
        DONE(bindingclay_exit(clay, ENDED[i]), 0);
        OTHER(bindingclay_exit(clay, ENDED[i]), BINDINGCLAY_NO_PROCESS);
        DONE(bindingclay_fork(clay, 2), ENDED[i]);
    }
    for (size_t i = 0; i < sizeof ENDED / sizeof *ENDED; i++)
        DONE(bindingclay_exit(clay, ENDED[i]), 0);
    DONE(bindingclay_start(clay), 1);
    DONE(bindingclay_start(clay), 64);
    OTHER(bindingclay_exit(clay, MANY + 1), BINDINGCLAY_NO_PROCESS);
    bindingclay_free(clay);
}

int main(void)
{
    descriptors();
    many_descriptors();
    polls_within_few_descriptors();
    polls_within_many_descriptors();
    an_open_that_meets_at_the_limit();
    no_descriptors();
    many_that_nobody_opens();
    the_most_descriptors();
    descriptors_that_come_and_go();
    children_with_few_descriptors();
    descriptions();
    no_descriptions();
    many_descriptions();
    processes();
    no_processes();
    many_processes();
    return end();
}
