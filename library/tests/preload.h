/* What the tests of bindingclay_preload share. They run on the host, and then over the layer, where the word "layer" is their first argument. What
 * they expect is what POSIX and Linux's manual pages say, so both have to answer alike. */
#ifndef PRELOAD_TEST_H
#define PRELOAD_TEST_H

#define _GNU_SOURCE
#include <errno.h>
#include <fcntl.h>
#include <poll.h>
#include <pthread.h>
#include <signal.h>
#include <stdbool.h>
#include <stdio.h>
#include <stdlib.h>
#include <string.h>
#include <sys/ioctl.h>
#include <sys/select.h>
#include <sys/socket.h>
#include <sys/stat.h>
#include <sys/uio.h>
#include <sys/wait.h>
#include <time.h>
#include <unistd.h>

static pthread_mutex_t counting = PTHREAD_MUTEX_INITIALIZER;
static int checks_failed;
static bool is_over_layer;

static inline bool holds(const char *file, int line, const char *what, bool condition)
{
    if (!condition) {
        int error = errno;
        pthread_mutex_lock(&counting);
        checks_failed++;
        fprintf(stderr, "%s:%d: not so: %s (errno %d)\n", file, line, what, error);
        pthread_mutex_unlock(&counting);
    }
    return condition;
}

#define HOLDS(condition) holds(__FILE__, __LINE__, #condition, condition)

/* A call fails with an error. */
#define FAILS(call, number) (errno = 0, HOLDS((call) == -1), holds(__FILE__, __LINE__, #call " fails with " #number, errno == (number)))

static inline void need(bool condition, const char *what)
{
    if (!condition) {
        perror(what);
        exit(1);
    }
}

/* Whether the host has a pipe at a number. At a number of the layer it has a placeholder, which is opened with O_PATH. */
static inline bool is_of_host(int fd)
{
    char path[40];
    int flags = 0;
    snprintf(path, sizeof path, "/proc/self/fdinfo/%d", fd);
    FILE *file = fopen(path, "r");
    need(file != NULL && fscanf(file, "pos: %*d flags: %o", (unsigned *)&flags) == 1, path);
    fclose(file);
    return (flags & O_PATH) == 0;
}

/* A descriptor of the layer, if the test is over it. */
#define OURS(fd) HOLDS(is_of_host(fd) == !is_over_layer)
/* A descriptor that was moved to the host. */
#define MOVED(fd) HOLDS(is_of_host(fd))

static inline void new_pipe(int ends[2], int flags)
{
    need(pipe2(ends, flags) == 0, "pipe2");
    OURS(ends[0]);
    OURS(ends[1]);
}

static inline void close_pipe(const int ends[2])
{
    HOLDS(close(ends[0]) == 0 && close(ends[1]) == 0);
}

static inline bool reads(int fd, const char *text)
{
    char into[64];
    ssize_t count = read(fd, into, sizeof into);
    return count == (ssize_t)strlen(text) && memcmp(into, text, (size_t)count) == 0;
}

static inline bool writes(int fd, const char *text)
{
    return write(fd, text, strlen(text)) == (ssize_t)strlen(text);
}

static inline double seconds(void)
{
    struct timespec time;
    clock_gettime(CLOCK_MONOTONIC, &time);
    return (double)time.tv_sec + (double)time.tv_nsec / 1e9;
}

static inline pthread_t thread_of(void *(*run)(void *), void *argument)
{
    pthread_t thread;
    need(pthread_create(&thread, NULL, run, argument) == 0, "a thread");
    return thread;
}

/* Waits until a thread sleeps, as the host tells it of its stack of calls. */
static inline void until_asleep(pid_t thread)
{
    char path[64], state = '?';
    double begun = seconds();
    snprintf(path, sizeof path, "/proc/self/task/%d/stat", (int)thread);
    while (state != 'S') {
        FILE *file = fopen(path, "r");
        need(file != NULL && fscanf(file, "%*d (%*[^)]) %c", &state) == 1 && seconds() - begun < 30, "a thread that sleeps");
        fclose(file);
        usleep(1000);
    }
}

static inline void on_signal(int signal, void (*handler)(int), int flags)
{
    struct sigaction action = { .sa_flags = flags };
    action.sa_handler = handler;
    need(sigaction(signal, &action, NULL) == 0, "sigaction");
}

static inline int end(void)
{
    return checks_failed == 0 ? 0 : 1;
}

#endif
