/* The front for threads: polls, and when their time is up. */
#define _GNU_SOURCE
#include "bindingclay_shared_inside.h"

#include <errno.h>
#include <stddef.h>

/* A program's entries are handed to the library as they are. */
_Static_assert(sizeof(struct pollfd) == sizeof(bindingclay_pollfd), "an entry has the size of a struct pollfd");
_Static_assert(offsetof(struct pollfd, events) == offsetof(bindingclay_pollfd, events), "events are at one place");
_Static_assert(offsetof(struct pollfd, revents) == offsetof(bindingclay_pollfd, revents), "revents are at one place");

static struct timespec after(int milliseconds)
{
    struct timespec time;
    clock_gettime(CLOCK_MONOTONIC, &time);
    time.tv_sec += milliseconds / 1000;
    time.tv_nsec += (long)(milliseconds % 1000) * 1000000;
    if (time.tv_nsec >= 1000000000) {
        time.tv_sec++;
        time.tv_nsec -= 1000000000;
    }
    return time;
}

static bool is_before(const struct timespec *one, const struct timespec *other)
{
    return one->tv_sec < other->tv_sec || (one->tv_sec == other->tv_sec && one->tv_nsec < other->tv_nsec);
}

int bc_poll(const bc_process *process, struct pollfd *entries, nfds_t count, int timeout)
{
    static bindingclay_pollfd nothing;
    if (!bindingclay_c_is_size(count)) {
        errno = EINVAL;
        return -1;
    }
    const struct bc_room room = { .entries = count > 0 ? (bindingclay_pollfd *)(void *)entries : &nothing, .size = count };
    const struct timespec *deadline = bc_deadline(process);
    struct timespec time_out;
    bool is_timed = false;
    if (timeout > 0) {
        time_out = after(timeout);
        is_timed = deadline == NULL || is_before(&time_out, deadline);
        deadline = is_timed ? &time_out : deadline;
    }
    if (!bc_in(process))
        return -1;
    bindingclay_answer answer = bindingclay_poll(process->shared->clay, process->pid, room.entries, count, timeout != 0);
    answer = bc_awaited(process, answer, &room, deadline);
    if (is_timed && answer.kind == BINDINGCLAY_FAULT && answer.error == ETIMEDOUT) {
        for (nfds_t i = 0; i < count; i++)
            entries[i].revents = 0;
        return 0;
    }
    return (int)bc_concluded(process, answer);
}
