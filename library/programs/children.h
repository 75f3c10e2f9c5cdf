/* The children of a program that runs over the host or over the front. Over the host a child is made by fork, and over the front it is a thread over a
 * process of its own. Both begin with the descriptors of the program, and run a function with the child's calls, whose names begin with c_. */
#ifndef CHILDREN_H
#define CHILDREN_H

#include "calls.h"

#ifdef OVER_HOST

#include <sys/wait.h>

struct child {
    pid_t pid;
};

static inline void start_child(struct child *child, int (*run)(struct child *, void *), void *argument)
{
    child->pid = (pid_t)must(fork(), "fork");
    if (child->pid == 0)
        _exit(run(child, argument));
}

/* Waits for its end. Returns its status, or 128 if a signal ended it. */
static inline int end_of_child(const struct child *child)
{
    int status;
    must(waitpid(child->pid, &status, 0), "waitpid");
    return WIFEXITED(status) ? WEXITSTATUS(status) : 128;
}

#define c_open(child, name, flags) ((void)(child), open(name, flags, 0600))
#define c_mkfifo(child, name) ((void)(child), mkfifo(name, 0600))
#define c_read(child, fd, into, size) ((void)(child), read(fd, into, size))
#define c_write(child, fd, bytes, size) ((void)(child), write(fd, bytes, size))
#define c_dup2(child, fd, target) ((void)(child), dup2(fd, target))
#define c_close(child, fd) ((void)(child), close(fd))

#else

struct child {
    bc_process process;
    pthread_t thread;
    int (*run)(struct child *, void *);
    void *argument;
    int status;
};

static inline void *run_child(void *argument)
{
    struct child *child = argument;
    child->status = child->run(child, child->argument);
    must(bc_exit(&child->process), "bc_exit");
    return NULL;
}

static inline void start_child(struct child *child, int (*run)(struct child *, void *), void *argument)
{
    child->run = run;
    child->argument = argument;
    must(bc_fork(&process, &child->process), "bc_fork");
    child->thread = thread_of(run_child, child);
}

static inline int end_of_child(const struct child *child)
{
    pthread_join(child->thread, NULL);
    return child->status;
}

#define c_open(child, name, flags) bc_open(&(child)->process, name, flags)
#define c_mkfifo(child, name) bc_mkfifo(&(child)->process, name, 0600)
#define c_read(child, fd, into, size) bc_read(&(child)->process, fd, into, size)
#define c_write(child, fd, bytes, size) bc_write(&(child)->process, fd, bytes, size)
#define c_dup2(child, fd, target) bc_dup2(&(child)->process, fd, target)
#define c_close(child, fd) bc_close(&(child)->process, fd)

#endif

#endif
