/* The calls of a program that runs over the host, if OVER_HOST is defined, and else over the front for threads. Over the front all threads are
 * threads of one process of a kernel, as they are of the host's process. begin_calls and end_calls stand around the calls. */
#ifndef CALLS_H
#define CALLS_H

#define _GNU_SOURCE
#include <errno.h>
#include <fcntl.h>
#include <poll.h>
#include <pthread.h>
#include <stdbool.h>
#include <stdint.h>
#include <stdio.h>
#include <stdlib.h>
#include <string.h>
#include <sys/stat.h>
#include <unistd.h>

/* Ends the program if a call failed. */
static inline long must(long answer, const char *what)
{
    if (answer < 0) {
        perror(what);
        exit(1);
    }
    return answer;
}

#ifdef OVER_HOST

static char folder[] = "/tmp/programs.XXXXXX";

/* Names of FIFOs and files are those of an empty folder. */
static inline void begin_calls(void)
{
    if (mkdtemp(folder) == NULL || chdir(folder) != 0)
        must(-1, folder);
}

static inline void end_calls(void)
{
    must(rmdir(folder), folder);
}

#define p_pipe2(ends, flags) must(pipe2(ends, flags), "pipe2")
#define p_open(name, flags) (int)must(open(name, flags, 0600), name)
#define p_mkfifo(name) must(mkfifo(name, 0600), name)
#define p_unlink(name) must(unlink(name), name)
#define p_close(fd) must(close(fd), "close")
#define p_read(fd, into, size) must(read(fd, into, size), "read")
#define p_write(fd, bytes, size) must(write(fd, bytes, size), "write")
#define p_splice(from, to, size) must(splice(from, NULL, to, NULL, size, 0), "splice")
#define p_tee(from, to, size) must(tee(from, to, size, 0), "tee")
#define p_poll(entries, count, timeout) must(poll(entries, count, timeout), "poll")

#else

#include "bindingclay_shared.h"

static bc_shared *shared;
static bc_process process;

static inline void begin_calls(void)
{
    must(bc_shared_open(NULL, &shared), "bc_shared_open");
    must(bc_start(shared, &process), "bc_start");
}

static inline void end_calls(void)
{
    must(bc_exit(&process), "bc_exit");
    must(bc_shared_close(shared), "bc_shared_close");
}

#define p_pipe2(ends, flags) must(bc_pipe2(&process, ends, flags), "pipe2")
#define p_open(name, flags) (int)must(bc_open(&process, name, flags), name)
#define p_mkfifo(name) must(bc_mkfifo(&process, name, 0600), name)
#define p_unlink(name) must(bc_unlink(&process, name), name)
#define p_close(fd) must(bc_close(&process, fd), "close")
#define p_read(fd, into, size) must(bc_read(&process, fd, into, size), "read")
#define p_write(fd, bytes, size) must(bc_write(&process, fd, bytes, size), "write")
#define p_splice(from, to, size) must(bc_splice(&process, from, NULL, to, NULL, size, 0), "splice")
#define p_tee(from, to, size) must(bc_tee(&process, from, to, size, 0), "tee")
#define p_poll(entries, count, timeout) must(bc_poll(&process, entries, count, timeout), "poll")

#endif

static inline pthread_t thread_of(void *(*run)(void *), void *argument)
{
    pthread_t thread;
    must(-(long)pthread_create(&thread, NULL, run, argument), "a thread");
    return thread;
}

#endif
