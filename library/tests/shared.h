/* What the tests of the front for threads share. A check may fail in any thread, so it counts under a lock. */
#ifndef SHARED_H
#define SHARED_H

#include "bindingclay_shared.h"

#include <errno.h>
#include <fcntl.h>
#include <stdio.h>
#include <string.h>
#include <sys/ioctl.h>
#include <unistd.h>

static pthread_mutex_t counting = PTHREAD_MUTEX_INITIALIZER;
static int checks_failed;

static inline bool holds(const char *file, int line, const char *what, bool condition)
{
    if (!condition) {
        int error = errno;
        pthread_mutex_lock(&counting);
        checks_failed++;
        printf("%s:%d: not so: %s (errno %d)\n", file, line, what, error);
        pthread_mutex_unlock(&counting);
    }
    return condition;
}

#define HOLDS(condition) holds(__FILE__, __LINE__, #condition, condition)

/* A call fails with an error. */
#define FAILS(call, number) (errno = 0, HOLDS((call) == -1), holds(__FILE__, __LINE__, #call " fails with " #number, errno == (number)))

static inline int end(void)
{
    return checks_failed == 0 ? 0 : 1;
}

/* Ends the program where it can't go on. */
static inline void need(bool condition, const char *what)
{
    if (!condition) {
        printf("the test can't go on: %s (errno %d)\n", what, errno);
        exit(1);
    }
}

static inline struct timespec in_milliseconds(long milliseconds)
{
    struct timespec time;
    clock_gettime(CLOCK_MONOTONIC, &time);
    time.tv_nsec += milliseconds % 1000 * 1000000;
    time.tv_sec += milliseconds / 1000 + time.tv_nsec / 1000000000;
    time.tv_nsec %= 1000000000;
    return time;
}

static inline double seconds(void)
{
    struct timespec time;
    clock_gettime(CLOCK_MONOTONIC, &time);
    return (double)time.tv_sec + (double)time.tv_nsec / 1e9;
}

/* Waits until so many calls of a process wait. */
static inline void until_waiting(const bc_process *process, int count)
{
    double begun = seconds();
    while (bc_waiting(process) != count) {
        need(seconds() - begun < 30, "nobody waits");
        usleep(500);
    }
}

static inline pthread_t thread_of(void *(*run)(void *), void *argument)
{
    pthread_t thread;
    need(pthread_create(&thread, NULL, run, argument) == 0, "a thread");
    return thread;
}

static inline bc_shared *new_shared(void)
{
    bc_shared *shared = NULL;
    need(bc_shared_open(NULL, &shared) == 0, "bc_shared_open");
    return shared;
}

static inline bc_process new_process(bc_shared *shared)
{
    bc_process process;
    need(bc_start(shared, &process) == 0, "bc_start");
    return process;
}

#endif
