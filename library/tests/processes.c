/* Kernels and processes: open, version, start, fork, exit (fork; _exit), and calls of a pid that has no process. */
#include "check.h"

#include <fcntl.h>

static void kernels(void)
{
    HOLDS(bindingclay_version() == BINDINGCLAY_VERSION);
    HOLDS(sizeof(bindingclay_answer) == 16);
    int mark;
    void *kernel = &mark;
    HOLDS(!bindingclay_open(1, BINDINGCLAY_MOST_FILE_BYTES + 1, &kernel));
    HOLDS(!bindingclay_open(1, UINT32_MAX, &kernel));
    HOLDS(kernel == &mark);
    bindingclay first = new_kernel(1, 0);
    bindingclay second = new_kernel(1, BINDINGCLAY_MOST_FILE_BYTES);
    HOLDS(first.kernel != second.kernel);
    /* what one has the other has not */
    DONE(bindingclay_start(first), 1);
    OTHER(bindingclay_exit(second, 1), BINDINGCLAY_NO_PROCESS);
    DONE(open_text(first, 1, "f", O_WRONLY | O_CREAT), 0);
    FAULT(put(first, 1, 0, "a"), EFBIG);
    bindingclay_free(first);
    DONE(bindingclay_start(second), 1);
    bindingclay_free(second);
}

static void pids(void)
{
    bindingclay clay = new_kernel(1, 0);
    for (uint64_t pid = 1; pid <= 1024; pid++)
        DONE(bindingclay_start(clay), pid);
    FAULT(bindingclay_start(clay), EAGAIN);
    FAULT(bindingclay_fork(clay, 1), EAGAIN);
    /* a pid that is free again is the least */
    DONE(bindingclay_exit(clay, 500), 0);
    DONE(bindingclay_exit(clay, 7), 0);
    DONE(bindingclay_fork(clay, 1024), 7);
    DONE(bindingclay_start(clay), 500);
    FAULT(bindingclay_start(clay), EAGAIN);
    bindingclay_free(clay);
}

static void fork_and_exit(void)
{
    bindingclay clay = kernel_with_process();
    bindingclay_ends ends = NEW_PIPE(clay, 1, false);
    DONE(bindingclay_fork(clay, 1), 2);
    /* the child's descriptors name the same ends: there is a writer until both have closed */
    DONE(put(clay, 2, ends.write_end, "child"), 5);
    DONE(bindingclay_close(clay, 1, ends.write_end), 0);
    READS(clay, 1, ends.read_end, 9, "child");
    PARKED(take(clay, 1, ends.read_end, 9), 1);
    /* a call that waits stays the parent's */
    DONE(bindingclay_fork(clay, 1), 3);
    DONE(bindingclay_exit(clay, 3), 0);
    PARKED(take(clay, 2, ends.read_end, 3), 2);
    /* the last writer ends: its own call is gone, and the parent's is at the end of file */
    DONE(bindingclay_exit(clay, 2), 0);
    OTHER(again(clay, 2), BINDINGCLAY_NO_CALL);
    OTHER(bindingclay_interrupt(clay, 2), BINDINGCLAY_NO_CALL);
    RESUMES(clay, 1, 9, "");
    OTHER(bindingclay_exit(clay, 2), BINDINGCLAY_NO_PROCESS);
    /* the pid is that of a process with no descriptor */
    DONE(bindingclay_start(clay), 2);
    FAULT(bindingclay_close(clay, 2, ends.read_end), EBADF);
    bindingclay_free(clay);
}

/* A pid that has no process is told before all else, and nothing is written. */
static void no_process(bindingclay clay, uint32_t pid)
{
    uint8_t into[4] = { UNTOUCHED, UNTOUCHED, UNTOUCHED, UNTOUCHED };
    uint8_t untouched[4] = { UNTOUCHED, UNTOUCHED, UNTOUCHED, UNTOUCHED };
    bindingclay_ends ends = { -7, -8 };
    bindingclay_pollfd entry = { .fd = 0, .events = 1, .revents = 77 };
    uint64_t offset = UINT64_MAX;
    OTHER(bindingclay_pipe(clay, pid, false, &ends), BINDINGCLAY_NO_PROCESS);
    OTHER(bindingclay_pipe2(clay, pid, BINDINGCLAY_O_DIRECT, &ends), BINDINGCLAY_NO_PROCESS);
    OTHER(mkfifo_text(clay, pid, ""), BINDINGCLAY_NO_PROCESS);
    OTHER(open_text(clay, pid, "", O_RDONLY), BINDINGCLAY_NO_PROCESS);
    OTHER(unlink_text(clay, pid, "/"), BINDINGCLAY_NO_PROCESS);
    OTHER(bindingclay_read(clay, pid, 0, into, sizeof into), BINDINGCLAY_NO_PROCESS);
    OTHER(bindingclay_read(clay, pid, 99, into, 0), BINDINGCLAY_NO_PROCESS);
    OTHER(put(clay, pid, 1, "a"), BINDINGCLAY_NO_PROCESS);
    OTHER(put(clay, pid, 99, ""), BINDINGCLAY_NO_PROCESS);
    OTHER(bindingclay_splice(clay, pid, 0, &offset, 1, &offset, 0, 0), BINDINGCLAY_NO_PROCESS);
    OTHER(bindingclay_tee(clay, pid, 0, 1, 0, 0), BINDINGCLAY_NO_PROCESS);
    OTHER(bindingclay_poll(clay, pid, &entry, 1, false), BINDINGCLAY_NO_PROCESS);
    OTHER(bindingclay_dup(clay, pid, 0), BINDINGCLAY_NO_PROCESS);
    OTHER(bindingclay_dup2(clay, pid, 0, -1), BINDINGCLAY_NO_PROCESS);
    OTHER(bindingclay_dup_fd(clay, pid, 0, 256), BINDINGCLAY_NO_PROCESS);
    OTHER(bindingclay_close(clay, pid, 0), BINDINGCLAY_NO_PROCESS);
    OTHER(bindingclay_lseek(clay, pid, 0, -1, SEEK_SET), BINDINGCLAY_NO_PROCESS);
    OTHER(bindingclay_get_fl(clay, pid, 0), BINDINGCLAY_NO_PROCESS);
    OTHER(bindingclay_set_fl(clay, pid, 0, O_NONBLOCK), BINDINGCLAY_NO_PROCESS);
    OTHER(bindingclay_get_pipe_sz(clay, pid, 0), BINDINGCLAY_NO_PROCESS);
    OTHER(bindingclay_set_pipe_sz(clay, pid, 0, UINT32_MAX), BINDINGCLAY_NO_PROCESS);
    OTHER(bindingclay_fork(clay, pid), BINDINGCLAY_NO_PROCESS);
    OTHER(bindingclay_exit(clay, pid), BINDINGCLAY_NO_PROCESS);
    HOLDS(memcmp(into, untouched, sizeof into) == 0);
    HOLDS(ends.read_end == -7 && ends.write_end == -8);
    HOLDS(entry.revents == 77);
}

static void pids_without_a_process(void)
{
    bindingclay clay = kernel_with_process();
    bindingclay_ends ends = NEW_PIPE(clay, 1, true);
    no_process(clay, 0);
    no_process(clay, 2);
    no_process(clay, 1025);
    no_process(clay, UINT32_MAX);
    /* nothing changed */
    FAULT(take(clay, 1, ends.read_end, 1), EAGAIN);
    DONE(bindingclay_start(clay), 2);
    bindingclay_free(clay);
}

int main(void)
{
    kernels();
    pids();
    fork_and_exit();
    pids_without_a_process();
    return end();
}
