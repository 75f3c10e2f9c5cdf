/* What the files of bindingclay_preload share: the host's own calls, the table of descriptors, and how a call goes into the layer. */
#ifndef PRELOAD_H
#define PRELOAD_H

#ifndef _GNU_SOURCE
#define _GNU_SOURCE
#endif
#include "bindingclay_shared.h"

#include <fcntl.h>
#include <poll.h>
#include <signal.h>
#include <spawn.h>
#include <stdatomic.h>
#include <stdint.h>
#include <stdio.h>
#include <stdlib.h>
#include <sys/epoll.h>
#include <sys/file.h>
#include <sys/ioctl.h>
#include <sys/select.h>
#include <sys/sendfile.h>
#include <sys/socket.h>
#include <sys/stat.h>
#include <sys/uio.h>
#include <unistd.h>

/* No program sees the names of this file. */
#pragma GCC visibility push(hidden)

/* ---- The host ---- */

/* The calls of the C library of which this object has its own. */
#define HOST_CALLS(X) \
    X(read) X(write) X(readv) X(writev) X(splice) X(tee) X(pipe2) X(close) X(close_range) X(dup) X(dup2) X(dup3) X(fcntl) X(fstat) X(lseek) \
    X(ioctl) X(isatty) X(openat) X(fopen) X(mkfifoat) X(unlinkat) X(poll) X(ppoll) X(select) X(pselect) X(fdopen) X(vdprintf) X(vmsplice) \
    X(sendfile) X(copy_file_range) X(epoll_ctl) X(pread) X(pwrite) X(ftruncate) X(fsync) X(fdatasync) X(fchmod) X(fchown) X(flock) \
    X(sendmsg) X(execv) X(execve) X(execvp) X(execvpe) X(fexecve) X(posix_spawn) X(posix_spawnp) X(system) X(popen)

struct host {
#define POINTER(name) __typeof__(name) *name;
    HOST_CALLS(POINTER)
#undef POINTER
};

/* The host's calls, which are looked up at the first use. */
const struct host *host(void);

/* ---- A call in the layer ---- */

/* The one process of the layer. Its kernel is null until the layer is there, and then all calls are the host's. */
extern bc_process layer;

/* A call of the program that is in the layer. It holds the lock, and its thread takes no signal but while it waits. */
struct visit {
    sigset_t before;
    struct visit *outer;
    /* Whether SIGPIPE is due, and whether a signal ended its wait. */
    bool is_broken, is_signalled;
    /* Whether it changes nothing that a poll could see. */
    bool is_quiet;
    /* How often pipes had been moved to the host as it began. */
    unsigned long moves;
};

void enter(struct visit *visit);

/* Goes out, and raises SIGPIPE if it is due. errno stays as it is. */
void leave(struct visit *visit);

/* Enters if fd is a descriptor of the layer. */
bool enter_for(int fd, struct visit *visit);

/* Leaves with an answer. Returns true if a move of the pipe to the host ended the call: then it has to be made again. */
bool leave_to_repeat(struct visit *visit, ssize_t answer);

/* Whether pipes were moved to the host since the visit began. */
bool is_moved(const struct visit *visit);

/* ---- Polls that sleep ---- */

/* A thread that sleeps in a poll of the host. After each step of the layer its eventfd is written to. */
struct poller {
    int event;
    struct poller *next;
};

/* Under the lock. */
void add_poller(struct poller *poller);
void remove_poller(struct poller *poller);

/* ---- Counts ---- */

enum count { PIPES, FIFO_OPENS, READS, WRITES, SPLICES, TEES, POLLS, DUPS, FLAGS, MOVES, HOST_PIPES, COUNTS };

/* Under the lock: how often each was done. At exit they are written to the file that BINDINGCLAY_PRELOAD_COUNT names. */
extern unsigned long counts[COUNTS];

/* Ends the program, as it could not go on without losing bytes. */
_Noreturn void die(const char *what);

/* ---- The table ---- */

/* Numbers from 3 to below MOST_NUMBERS may be descriptors of the layer. */
enum { LEAST_NUMBER = 3, MOST_NUMBERS = 4096, NO_FIFO = 0 };

/* What a number stands for. The host has a placeholder at that number, so that it gives it to nobody else. */
struct entry {
    /* The descriptor of the layer, and 1; 0 if the number is the host's. */
    _Atomic int taken;
    /* Entries with the same number are duplicates of one another. */
    unsigned description;
    /* Which pipe of the layer it is, counted from 1. */
    uint64_t pipe;
    /* O_DIRECT of an end of a packet pipe, and else 0: F_GETFL of a read end doesn't tell it. */
    int packets;
    /* The number of its FIFO, or NO_FIFO. */
    int fifo;
};

extern struct entry table[MOST_NUMBERS];

static inline bool is_ours(int fd)
{
    return fd >= LEAST_NUMBER && fd < MOST_NUMBERS && atomic_load_explicit(&table[fd].taken, memory_order_acquire) != 0;
}

/* Under the lock: the descriptor of the layer. */
static inline int layers(int fd)
{
    return table[fd].taken - 1;
}

/* Under the lock: makes a number one of a new description, or of that of another number. */
void enter_new(int fd, int of_layer, int packets, int fifo);
void enter_duplicate(int fd, int of_layer, int from);

/* ---- Moves to the host ---- */

/* Under the lock: makes pipes those of the host, with all bytes and flags: one of them, or all if pipe is 0. All calls that wait end. */
void move_pipe(uint64_t pipe);
void move_all(void);

/* Moves the pipe of a descriptor, if it is the layer's. */
void move_first(int fd);

/* ---- FIFOs ---- */

/* Reads which folder has the FIFOs of the layer. */
void find_folder(void);

/* Under the lock: from now on a FIFO is the host's, or all are. */
void give_up_fifo(int number);
void give_up_fifos(void);

#pragma GCC visibility pop

#endif
