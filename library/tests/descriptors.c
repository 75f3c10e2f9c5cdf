/* Descriptors: dup, dup2, dup_fd, get_fl, set_fl, get_pipe_sz, set_pipe_sz, with each refusal (dup; fcntl; fcntl(2)). */
#include "check.h"

#include <fcntl.h>

static const int32_t NOT_OPEN[] = { 99, 255, 256, -1, INT32_MAX, INT32_MIN };
enum { NOT_OPEN_COUNT = sizeof NOT_OPEN / sizeof *NOT_OPEN };

static void dups(void)
{
    bindingclay clay = kernel_with_process();
    NEW_PIPE(clay, 1, true);
    for (int i = 0; i < NOT_OPEN_COUNT; i++)
        FAULT(bindingclay_dup(clay, 1, NOT_OPEN[i]), EBADF);
    DONE(bindingclay_dup(clay, 1, 1), 2);
    DONE(bindingclay_close(clay, 1, 1), 0);
    DONE(bindingclay_dup(clay, 1, 0), 1);
    /* 1 is a read end now, and 2 the write end */
    DONE(put(clay, 1, 2, "ab"), 2);
    READS(clay, 1, 1, 1, "a");
    READS(clay, 1, 0, 1, "b");
    /* there is a writer until its last descriptor is closed */
    FAULT(take(clay, 1, 0, 1), EAGAIN);
    DONE(bindingclay_close(clay, 1, 2), 0);
    READS(clay, 1, 0, 1, "");
    for (uint64_t fd = 2; fd <= 255; fd++)
        DONE(bindingclay_dup(clay, 1, 0), fd);
    FAULT(bindingclay_dup(clay, 1, 0), EMFILE);
    FAULT(bindingclay_dup(clay, 1, 256), EBADF);
    bindingclay_free(clay);
}

static void dups_to_a_target(void)
{
    bindingclay clay = kernel_with_process();
    NEW_PIPE(clay, 1, true);
    for (int i = 0; i < NOT_OPEN_COUNT; i++) {
        FAULT(bindingclay_dup2(clay, 1, NOT_OPEN[i], 5), EBADF);
        FAULT(bindingclay_dup2(clay, 1, NOT_OPEN[i], NOT_OPEN[i]), EBADF);
    }
    FAULT(bindingclay_dup2(clay, 1, 0, -1), EBADF);
    FAULT(bindingclay_dup2(clay, 1, 0, 256), EBADF);
    FAULT(bindingclay_dup2(clay, 1, 0, INT32_MIN), EBADF);
    DONE(bindingclay_dup2(clay, 1, 0, 0), 0);
    DONE(bindingclay_dup2(clay, 1, 1, 255), 255);
    DONE(bindingclay_dup2(clay, 1, 1, 255), 255);
    DONE(put(clay, 1, 255, "a"), 1);
    READS(clay, 1, 0, 5, "a");
    /* what the target named is closed: the last writer goes with it */
    DONE(bindingclay_dup2(clay, 1, 0, 1), 1);
    FAULT(take(clay, 1, 0, 5), EAGAIN);
    DONE(bindingclay_dup2(clay, 1, 0, 255), 255);
    READS(clay, 1, 0, 5, "");
    bindingclay_free(clay);
}

static void dups_from_a_number(void)
{
    bindingclay clay = kernel_with_process();
    NEW_PIPE(clay, 1, false);
    for (int i = 0; i < NOT_OPEN_COUNT; i++) {
        FAULT(bindingclay_dup_fd(clay, 1, NOT_OPEN[i], 0), EBADF);
        FAULT(bindingclay_dup_fd(clay, 1, NOT_OPEN[i], 256), EBADF);
    }
    FAULT(bindingclay_dup_fd(clay, 1, 0, -1), EINVAL);
    FAULT(bindingclay_dup_fd(clay, 1, 0, 256), EINVAL);
    FAULT(bindingclay_dup_fd(clay, 1, 0, INT32_MIN), EINVAL);
    DONE(bindingclay_dup_fd(clay, 1, 0, 0), 2);
    DONE(bindingclay_dup_fd(clay, 1, 0, 254), 254);
    DONE(bindingclay_dup_fd(clay, 1, 0, 254), 255);
    FAULT(bindingclay_dup_fd(clay, 1, 0, 254), EMFILE);
    FAULT(bindingclay_dup_fd(clay, 1, 0, 255), EMFILE);
    DONE(bindingclay_dup_fd(clay, 1, 0, 100), 100);
    bindingclay_free(clay);
}

static void flags(void)
{
    bindingclay clay = kernel_with_process();
    NEW_PIPE(clay, 1, false);
    for (int i = 0; i < NOT_OPEN_COUNT; i++) {
        FAULT(bindingclay_get_fl(clay, 1, NOT_OPEN[i]), EBADF);
        FAULT(bindingclay_set_fl(clay, 1, NOT_OPEN[i], O_NONBLOCK), EBADF);
    }
    DONE(bindingclay_dup(clay, 1, 0), 2);
    DONE(bindingclay_fork(clay, 1), 2);
    DONE(bindingclay_set_fl(clay, 1, 0, O_NONBLOCK), 0);
    /* flags are those of all that share the end, and not those of the other end */
    DONE(bindingclay_get_fl(clay, 1, 2), O_RDONLY | O_NONBLOCK);
    DONE(bindingclay_get_fl(clay, 2, 0), O_RDONLY | O_NONBLOCK);
    DONE(bindingclay_get_fl(clay, 1, 1), O_WRONLY);
    FAULT(take(clay, 2, 2, 1), EAGAIN);
    /* the others of the bits have no effect, the mode neither */
    DONE(bindingclay_set_fl(clay, 1, 1, O_APPEND | O_RDWR | O_CREAT | O_TRUNC | O_EXCL), 0);
    DONE(bindingclay_get_fl(clay, 1, 1), O_WRONLY | O_APPEND);
    DONE(bindingclay_set_fl(clay, 1, 1, UINT32_MAX), 0);
    DONE(bindingclay_get_fl(clay, 1, 1), O_WRONLY | O_APPEND | O_NONBLOCK);
    DONE(bindingclay_set_fl(clay, 1, 1, 0), 0);
    DONE(bindingclay_get_fl(clay, 1, 1), O_WRONLY);
    DONE(open_text(clay, 1, "f", O_RDWR | O_CREAT | O_APPEND | O_EXCL), 3);
    DONE(bindingclay_get_fl(clay, 1, 3), O_RDWR | O_APPEND);
    bindingclay_free(clay);
}

static void capacities(void)
{
    static const struct {
        uint32_t size, capacity;
    } SIZES[] = { { 0, 4096 }, { 1, 4096 }, { 4096, 4096 }, { 4097, 8192 }, { 65536, 65536 }, { 65537, 131072 },
        { 524289, 1048576 }, { 1048576, 1048576 } };
    bindingclay clay = kernel_with_process();
    NEW_PIPE(clay, 1, true);
    DONE(open_text(clay, 1, "f", O_RDWR | O_CREAT), 2);
    for (int i = 0; i < NOT_OPEN_COUNT; i++) {
        FAULT(bindingclay_get_pipe_sz(clay, 1, NOT_OPEN[i]), EBADF);
        FAULT(bindingclay_set_pipe_sz(clay, 1, NOT_OPEN[i], UINT32_MAX), EBADF);
    }
    FAULT(bindingclay_get_pipe_sz(clay, 1, 2), EBADF);
    FAULT(bindingclay_set_pipe_sz(clay, 1, 2, UINT32_MAX), EBADF);
    DONE(bindingclay_get_pipe_sz(clay, 1, 0), 65536);
    for (size_t i = 0; i < sizeof SIZES / sizeof *SIZES; i++) {
        DONE(bindingclay_set_pipe_sz(clay, 1, (int32_t)(i % 2), SIZES[i].size), SIZES[i].capacity);
        DONE(bindingclay_get_pipe_sz(clay, 1, 0), SIZES[i].capacity);
        DONE(bindingclay_get_pipe_sz(clay, 1, 1), SIZES[i].capacity);
    }
    FAULT(bindingclay_set_pipe_sz(clay, 1, 0, 1048577), EPERM);
    FAULT(bindingclay_set_pipe_sz(clay, 1, 0, UINT32_MAX), EPERM);
    DONE(put_many(clay, 1, 1, 1048577), 1048576);
    FAULT(bindingclay_set_pipe_sz(clay, 1, 0, 524288), EBUSY);
    DONE(bindingclay_get_pipe_sz(clay, 1, 0), 1048576);
    DONE(take(clay, 1, 0, 1048576 - 5000), 1048576 - 5000);
    FAULT(bindingclay_set_pipe_sz(clay, 1, 0, 4096), EBUSY);
    DONE(bindingclay_set_pipe_sz(clay, 1, 0, 4097), 8192);
    /* 5,000 are held */
    DONE(put_many(clay, 1, 1, 9000), 3192);
    DONE(take(clay, 1, 0, 9000), 8192);
    /* as many as there then is room for may be held, and no more */
    DONE(put_many(clay, 1, 1, 4097), 4097);
    FAULT(bindingclay_set_pipe_sz(clay, 1, 1, 4096), EBUSY);
    DONE(take(clay, 1, 0, 1), 1);
    DONE(bindingclay_set_pipe_sz(clay, 1, 1, 4096), 4096);
    bindingclay_free(clay);
}

int main(void)
{
    dups();
    dups_to_a_target();
    dups_from_a_number();
    flags();
    capacities();
    return end();
}
