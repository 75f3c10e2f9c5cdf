/* The calls of the front for threads that don't wait: what each answers and how each is refused, as POSIX and the pages of Linux say. */
#define _GNU_SOURCE
#include "shared.h"

#include <limits.h>
#include <stddef.h>

static bc_shared *shared;
static int sigpipes;

static void count_sigpipe(void *context, const bc_process *process)
{
    HOLDS(context == &sigpipes);
    /* the hook has no lock, so it may make calls */
    HOLDS(bc_waiting(process) == 0);
    sigpipes++;
}

static void pipes(void)
{
    bc_process process = new_process(shared);
    int ends[2];
    char into[8] = "";
    HOLDS(bc_pipe2(&process, ends, O_CLOEXEC) == 0 && ends[0] == 0 && ends[1] == 1);
    FAILS(bc_pipe2(&process, ends, O_APPEND), EINVAL);
    HOLDS(bc_write(&process, 1, "hello", 5) == 5);
    int held = 0;
    HOLDS(bc_ioctl(&process, 0, FIONREAD, &held) == 0 && held == 5);
    FAILS(bc_ioctl(&process, 0, TIOCSTI, &held), ENOTTY);
    FAILS(bc_ioctl(&process, 9, FIONREAD, &held), EBADF);
    HOLDS(bc_read(&process, 0, into, sizeof into) == 5 && memcmp(into, "hello", 5) == 0);
    FAILS(bc_read(&process, 1, into, 1), EBADF);
    FAILS(bc_write(&process, 0, into, 1), EBADF);
    FAILS(bc_lseek(&process, 0, 0, SEEK_SET), ESPIPE);
    HOLDS(bc_close(&process, 1) == 0);
    FAILS(bc_close(&process, 1), EBADF);
    HOLDS(bc_read(&process, 0, into, 1) == 0);
    HOLDS(bc_exit(&process) == 0);
    FAILS(bc_exit(&process), ESRCH);
}

/* pipe2(2), O_DIRECT; the number of the library's own does the same, which is another one on some processors. */
static void packets(void)
{
    static const int flags[] = { O_DIRECT, BINDINGCLAY_O_DIRECT };
    for (int i = 0; i < 2; i++) {
        bc_process process = new_process(shared);
        int ends[2];
        char into[8];
        HOLDS(bc_pipe2(&process, ends, flags[i] | O_NONBLOCK | O_CLOEXEC) == 0);
        HOLDS(bc_write(&process, 1, "ab", 2) == 2 && bc_write(&process, 1, "cd", 2) == 2 && bc_read(&process, 0, into, sizeof into) == 2);
        HOLDS(bc_fcntl(&process, 1, F_GETFL) == (O_WRONLY | O_DIRECT | O_NONBLOCK) && bc_fcntl(&process, 0, F_GETFL) == (O_RDONLY | O_NONBLOCK));
        HOLDS(bc_exit(&process) == 0);
    }
}

/* write: "EPIPE: An attempt is made to write to a pipe or FIFO that is not open for reading by any process". */
static void broken_pipes(void)
{
    bc_process process = new_process(shared);
    int ends[2];
    HOLDS(bc_pipe2(&process, ends, 0) == 0 && bc_close(&process, ends[0]) == 0);
    FAILS(bc_write(&process, ends[1], "a", 1), EPIPE);
    bc_on_sigpipe(shared, count_sigpipe, &sigpipes);
    FAILS(bc_write(&process, ends[1], "a", 1), EPIPE);
    HOLDS(sigpipes == 1);
    bc_on_sigpipe(shared, NULL, NULL);
    HOLDS(bc_exit(&process) == 0);
}

static void descriptors(void)
{
    bc_process process = new_process(shared);
    int ends[2];
    HOLDS(bc_pipe2(&process, ends, O_NONBLOCK) == 0);
    HOLDS(bc_dup(&process, 0) == 2);
    HOLDS(bc_dup2(&process, 0, 5) == 5);
    HOLDS(bc_dup2(&process, 0, 0) == 0);
    HOLDS(bc_dup3(&process, 1, 6, O_CLOEXEC) == 6);
    FAILS(bc_dup3(&process, 1, 1, 0), EINVAL);
    FAILS(bc_dup3(&process, 1, 6, O_NONBLOCK), EINVAL);
    FAILS(bc_dup(&process, 77), EBADF);
    HOLDS(bc_fcntl(&process, 0, F_DUPFD, 10) == 10);
    FAILS(bc_fcntl(&process, 0, F_DUPFD, -1), EINVAL);
    HOLDS(bc_fcntl(&process, 1, F_GETFL) == (O_WRONLY | O_NONBLOCK));
    HOLDS(bc_fcntl(&process, 1, F_SETFL, 0) == 0);
    HOLDS(bc_fcntl(&process, 1, F_GETFL) == O_WRONLY);
    HOLDS(bc_fcntl(&process, 0, F_GETFL) == (O_RDONLY | O_NONBLOCK));
    HOLDS(bc_fcntl(&process, 0, F_GETPIPE_SZ) == 65536);
    HOLDS(bc_fcntl(&process, 0, F_SETPIPE_SZ, 5000) == 8192);
    FAILS(bc_fcntl(&process, 0, F_SETPIPE_SZ, 1048577), EPERM);
    /* docs/LINUX.md, Numbers at the edge */
    FAILS(bc_fcntl(&process, 0, F_SETPIPE_SZ, -1), EPERM);
    FAILS(bc_fcntl(&process, 0, F_GETLK), EINVAL);
    char byte;
    FAILS(bc_read(&process, 0, &byte, 1), EAGAIN);
    HOLDS(bc_exit(&process) == 0);
}

static void files(void)
{
    bc_process process = new_process(shared);
    struct stat told;
    char into[8];
    FAILS(bc_open(&process, "file", O_RDONLY), ENOENT);
    HOLDS(bc_open(&process, "file", O_RDWR | O_CREAT | O_CLOEXEC, 0600) == 0);
    HOLDS(bc_write(&process, 0, "abcdef", 6) == 6);
    HOLDS(bc_lseek(&process, 0, 2, SEEK_SET) == 2);
    int behind = 0;
    HOLDS(bc_ioctl(&process, 0, FIONREAD, &behind) == 0 && behind == 4);
    HOLDS(bc_fstat(&process, 0, &told) == 0 && S_ISREG(told.st_mode) && told.st_size == 6);
    ino_t inode = told.st_ino;
    HOLDS(bc_mkfifo(&process, "fifo", 0600) == 0);
    FAILS(bc_mkfifo(&process, "fifo", 0600), EEXIST);
    HOLDS(bc_open(&process, "fifo", O_RDWR) == 1);
    HOLDS(bc_fstat(&process, 1, &told) == 0 && S_ISFIFO(told.st_mode) && told.st_ino != inode);
    FAILS(bc_fstat(&process, 2, &told), EBADF);
    HOLDS(bc_write(&process, 1, "12345", 5) == 5);
    /* an offset that is given is advanced, and the file's own stays (splice(2)) */
    off_t offset = 1;
    HOLDS(bc_splice(&process, 1, NULL, 0, &offset, 3, 0) == 3 && offset == 4);
    HOLDS(bc_read(&process, 0, into, sizeof into) == 4 && memcmp(into, "23ef", 4) == 0);
    FAILS(bc_splice(&process, 1, &offset, 0, NULL, 1, 0), ESPIPE);
    HOLDS(bc_unlink(&process, "fifo") == 0);
    FAILS(bc_unlink(&process, "fifo"), ENOENT);
    FAILS(bc_open(&process, "fifo", O_WRONLY | O_NONBLOCK), ENOENT);
    HOLDS(bc_exit(&process) == 0);
}

/* readv and writev: the buffers are filled and taken one after another, each whole before the next. */
static void several_buffers(void)
{
    bc_process process = new_process(shared);
    int ends[2];
    char first[3] = "", second[9] = "";
    struct iovec out[] = { { .iov_base = "abc", .iov_len = 3 }, { .iov_len = 0 }, { .iov_base = "defg", .iov_len = 4 } };
    struct iovec in[] = { { .iov_base = first, .iov_len = 2 }, { .iov_base = second, .iov_len = 8 } };
    HOLDS(bc_pipe2(&process, ends, 0) == 0);
    HOLDS(bc_writev(&process, 1, out, 3) == 7);
    HOLDS(bc_readv(&process, 0, in, 2) == 7);
    HOLDS(strcmp(first, "ab") == 0 && strcmp(second, "cdefg") == 0);
    HOLDS(bc_writev(&process, 1, out, 0) == 0);
    FAILS(bc_writev(&process, 1, out, -1), EINVAL);
    FAILS(bc_readv(&process, 0, in, 1025), EINVAL);
    struct iovec huge[] = { { .iov_base = first, .iov_len = SSIZE_MAX }, { .iov_base = second, .iov_len = 1 } };
    FAILS(bc_readv(&process, 0, huge, 2), EINVAL);
    FAILS(bc_readv(&process, 9, in, 2), EBADF);
    static char large[10000];
    struct iovec many[] = { { .iov_base = large, .iov_len = 6000 }, { .iov_base = large + 6000, .iov_len = 4000 } };
    memset(large, 'x', sizeof large);
    HOLDS(bc_writev(&process, 1, many, 2) == 10000);
    memset(large, 0, sizeof large);
    HOLDS(bc_readv(&process, 0, many, 2) == 10000 && large[0] == 'x' && large[9999] == 'x');
    HOLDS(bc_exit(&process) == 0);
}

/* The -1 of a call that failed, taken for a size, and the least that is none: nothing is read, written or moved, whoever asks. */
static void sizes_that_are_none(void)
{
    static const size_t no_sizes[] = { SIZE_MAX, (size_t)BINDINGCLAY_MOST_SIZE + 1, (size_t)UINT32_MAX + 1 };
    bc_process process = new_process(shared), gone = new_process(shared);
    char bytes[8] = "";
    int ends[2], held = 0;
    HOLDS(bc_pipe2(&process, ends, 0) == 0 && bc_pipe2(&process, ends, 0) == 0 && bc_write(&process, 1, "hello", 5) == 5);
    HOLDS(bc_exit(&gone) == 0);
    for (int i = 0; i < 3; i++) {
        volatile size_t size = no_sizes[i];
        struct iovec one = { .iov_base = bytes, .iov_len = size }, two[] = { { .iov_base = bytes, .iov_len = 1 }, { .iov_base = bytes, .iov_len = size - 1 } };
        FAILS(bc_write(&process, 1, bytes, size), EINVAL);
        FAILS(bc_read(&process, 0, bytes, size), EINVAL);
        FAILS(bc_writev(&process, 1, &one, 1), EINVAL);
        FAILS(bc_readv(&process, 0, two, 2), EINVAL);
        FAILS(bc_splice(&process, 0, NULL, 3, NULL, size, 0), EINVAL);
        FAILS(bc_tee(&process, 0, 3, size, 0), EINVAL);
        FAILS(bc_write(&gone, 1, bytes, size), EINVAL);
        FAILS(bc_read(&gone, 0, bytes, size), EINVAL);
        FAILS(bc_tee(&gone, 0, 3, size, 0), EINVAL);
        FAILS(bc_recorded(shared, bytes, size), EINVAL);
    }
    HOLDS(strcmp(bytes, "") == 0 && bc_ioctl(&process, 0, FIONREAD, &held) == 0 && held == 5);
    HOLDS(bc_tee(&process, 0, 3, BINDINGCLAY_MOST_SIZE, 0) == 5 && bc_ioctl(&process, 2, FIONREAD, &held) == 0 && held == 5);
    HOLDS(bc_exit(&process) == 0);
}

/* poll: "If none of the defined events have occurred .. poll() shall wait at least timeout milliseconds". */
static void polls(void)
{
    bc_process process = new_process(shared);
    int ends[2];
    HOLDS(bc_pipe2(&process, ends, 0) == 0);
    struct pollfd entries[] = { { .fd = 0, .events = POLLIN, .revents = 77 }, { .fd = -1, .events = POLLIN, .revents = 77 } };
    HOLDS(bc_poll(&process, entries, 2, 0) == 0 && entries[0].revents == 0);
    entries[0].revents = 77;
    double begun = seconds();
    HOLDS(bc_poll(&process, entries, 2, 30) == 0 && entries[0].revents == 0 && entries[1].revents == 0);
    HOLDS(seconds() - begun >= 0.030);
    HOLDS(bc_poll(&process, NULL, 0, 1) == 0);
    HOLDS(bc_write(&process, 1, "a", 1) == 1);
    HOLDS(bc_poll(&process, entries, 2, -1) == 1 && entries[0].revents == POLLIN);
    entries[0].fd = 9;
    HOLDS(bc_poll(&process, entries, 1, -1) == 1 && entries[0].revents == POLLNVAL);
    struct pollfd many[257];
    FAILS(bc_poll(&process, many, 257, 0), EINVAL);
    HOLDS(bc_exit(&process) == 0);
}

/* A handle is of one process, and of none that gets its pid later. */
static void processes(void)
{
    bc_process parent = new_process(shared), child, later, copy = parent;
    int ends[2];
    HOLDS(bc_pipe2(&parent, ends, 0) == 0);
    HOLDS(bc_fork(&parent, &child) == 2 && child.pid == 2);
    HOLDS(bc_write(&child, 1, "a", 1) == 1);
    HOLDS(bc_exit(&parent) == 0);
    HOLDS(bc_start(shared, &later) == 0 && later.pid == parent.pid);
    FAILS(bc_close(&copy, 0), ESRCH);
    FAILS(bc_fork(&copy, &copy), ESRCH);
    FAILS(bc_interrupt(&parent), ESRCH);
    char byte;
    HOLDS(bc_read(&child, 0, &byte, 1) == 1);
    /* a child may take its parent's place */
    HOLDS(bc_fork(&child, &child) == 3);
    HOLDS(bc_exit(&child) == 0 && bc_exit(&later) == 0);
    bc_process left = { .shared = shared, .pid = 70000, .birth = 1 };
    FAILS(bc_dup(&left, 0), ESRCH);
}

static void limits(void)
{
    bindingclay_limits few = BINDINGCLAY_LIMITS;
    bc_shared *bounded = NULL;
    few.waiting_calls = 0;
    need(bc_shared_open(&few, &bounded) == 0, "bc_shared_open");
    bc_process process = new_process(bounded);
    int ends[2];
    char byte;
    HOLDS(bc_pipe2(&process, ends, 0) == 0);
    FAILS(bc_read(&process, 0, &byte, 1), EAGAIN);
    HOLDS(bc_memory(bounded).held > 0);
    HOLDS(bc_shared_close(bounded) == 0);
    few = (bindingclay_limits)BINDINGCLAY_LIMITS;
    few.waiting_of_each = 0;
    need(bc_shared_open(&few, &bounded) == 0, "bc_shared_open");
    process = new_process(bounded);
    HOLDS(bc_pipe2(&process, ends, 0) == 0);
    FAILS(bc_read(&process, 0, &byte, 1), EAGAIN);
    HOLDS(bc_waiting(&process) == 0 && bc_shared_close(bounded) == 0);
    few.file_max = BINDINGCLAY_MOST_FILE_BYTES + 1;
    FAILS(bc_shared_open(&few, &bounded), ENOMEM);
}

/* More processes, descriptors and entries than usual, and fewer descriptions: a pid above 1,024 is one as any other. */
static void limits_of_tables(void)
{
    enum { PROCESSES = 1500, ENTRIES = 300 };
    static bc_process made[PROCESSES];
    bindingclay_limits limits = BINDINGCLAY_LIMITS;
    bc_shared *bounded = NULL;
    bc_process *last = &made[PROCESSES - 1], other;
    limits.processes_max = PROCESSES;
    limits.descriptors_max = ENTRIES;
    limits.descriptions_max = 3;
    need(bc_shared_open(&limits, &bounded) == 0, "bc_shared_open");
    for (uint32_t i = 0; i < PROCESSES; i++)
        HOLDS(bc_start(bounded, &made[i]) == 0 && made[i].pid == i + 1);
    FAILS(bc_start(bounded, &other), EAGAIN);
    FAILS(bc_fork(last, &other), EAGAIN);
    int ends[2];
    HOLDS(bc_pipe2(last, ends, 0) == 0);
    FAILS(bc_pipe2(last, ends, 0), ENFILE);
    HOLDS(bc_fcntl(last, 0, F_DUPFD, ENTRIES - 1) == ENTRIES - 1);
    FAILS(bc_fcntl(last, 0, F_DUPFD, ENTRIES), EINVAL);
    struct pollfd many[ENTRIES + 1];
    for (int i = 0; i <= ENTRIES; i++)
        many[i] = (struct pollfd){ .fd = 0, .events = POLLIN, .revents = 77 };
    FAILS(bc_poll(last, many, ENTRIES + 1, 1), EINVAL);
    HOLDS(many[0].revents == 77 && bc_poll(last, many, ENTRIES, 1) == 0 && many[ENTRIES - 1].revents == 0);
    HOLDS(bc_write(last, 1, "a", 1) == 1 && bc_poll(last, many, ENTRIES, -1) == ENTRIES && many[ENTRIES - 1].revents == POLLIN);
    HOLDS(bc_waiting(last) == 0 && bc_exit(last) == 0);
    FAILS(bc_waiting(last), ESRCH);
    HOLDS(bc_start(bounded, &other) == 0 && other.pid == PROCESSES);
    FAILS(bc_waiting(last), ESRCH);
    HOLDS(bc_shared_close(bounded) == 0);

    limits.processes_max = BINDINGCLAY_MOST_PROCESSES + 1;
    FAILS(bc_shared_open(&limits, &bounded), ENOMEM);
    limits.processes_max = UINT64_MAX;
    FAILS(bc_shared_open(&limits, &bounded), ENOMEM);
    /* a struct of an earlier version doesn't have it */
    limits.size = offsetof(bindingclay_limits, processes_max);
    need(bc_shared_open(&limits, &bounded) == 0, "bc_shared_open");
    HOLDS(bc_start(bounded, &other) == 0 && bc_shared_close(bounded) == 0);
}

int main(void)
{
    shared = new_shared();
    pipes();
    packets();
    broken_pipes();
    descriptors();
    files();
    several_buffers();
    sizes_that_are_none();
    polls();
    processes();
    limits();
    limits_of_tables();
    HOLDS(bc_shared_close(shared) == 0);
    return end();
}
