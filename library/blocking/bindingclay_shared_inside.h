/* What the files of the front for threads share. No program includes it. */
#ifndef BINDINGCLAY_SHARED_INSIDE_H
#define BINDINGCLAY_SHARED_INSIDE_H

#include "bindingclay_shared.h"

#include <stdatomic.h>

/* The lists in which calls that wait are found by their numbers. */
enum { BC_LISTS = 256 };

/* A build for helgrind goes without what it doesn't know: atomics, sem_trywait, and that sem_post looks at nothing behind its increment. */
#ifdef BC_FOR_HELGRIND
enum { BC_KNOWS_ATOMICS = false };
#else
enum { BC_KNOWS_ATOMICS = true };
#endif

/* What a call waits for: a read for bytes, a write for room, and others for either. */
enum bc_kind { BC_OTHER, BC_READS, BC_WRITES, BC_OPENS, BC_KINDS };

/* Where a call that waits puts what it gives: the bytes of a read, or the revents of a poll, or neither. */
struct bc_room {
    enum bc_kind kind;
    /* The descriptor of a read or a write. */
    int fd;
    void *into;
    bindingclay_pollfd *entries;
    size_t size;
};

/* A call that waits, on the stack of its thread. It is in its list until it is answered. Its thread sleeps at the semaphore if it has no
 * deadline, as that is quicker, and else at the condition variable, whose time is that of CLOCK_MONOTONIC. */
struct bc_waiter {
    uint64_t number;
    uint32_t pid;
    bool is_listed;
    bool has_deadline;
    pthread_t thread;
    struct bc_waiter *next;
    struct bc_room room;
    /* Of a read or a write the group of its pipe, as bc_group_of tells it. */
    unsigned group;
    bindingclay_answer answer;
    sem_t answered;
    pthread_cond_t wakes;
};

/* A write whose next piece is to follow the one that waits, on the stack of its thread. By then only the number of its descriptor tells where that
 * goes. */
struct bc_pieces {
    uint32_t pid;
    int fd;
    bool is_listed;
    /* Whether the descriptor was closed, or made to name something else. */
    bool is_cut_off;
    struct bc_pieces *next;
};

/* A lock that is held for less time than a thread takes to fall asleep and wake. Of the threads that find it taken, one looks again and again,
 * and the others sleep in the queue behind it. Who looks lets a thread go on that makes call after call, for a while. So that one wakes nobody
 * between its calls, and what it needs stays in the cache of its processor. */
struct bc_lock {
    pthread_mutex_t mutex;
    /* Whether the mutex is locked, for those who look. It may be late. */
    atomic_bool is_taken;
    /* Whether who looks has waited long enough. Then is_taken isn't taken back, so that nobody goes before. */
    atomic_bool is_wanted;
    /* Whether who has the mutex has the queue too. */
    bool is_from_queue;
    /* The queue shares no cache line with the others, since those who wait at it would slow down who has the mutex. */
    char before[64];
    pthread_mutex_t queue;
    /* How many threads wait for the lock by the queue. */
    atomic_int queued;
    char behind[64];
};

/* What is kept of a pid: which of the processes that were made has it, or 0 if none does, and how many of its calls wait. */
struct bc_of_pid {
    uint64_t birth;
    uint32_t waiting;
};

struct bc_shared {
    bindingclay clay;
    struct bc_lock lock;
    pthread_condattr_t monotonic;
    /* How many times the lock was given back. */
    _Atomic uint64_t steps;
    /* From when on threads yield before they sleep, in nanoseconds of CLOCK_MONOTONIC. */
    _Atomic int64_t yields_from;
    /* The calls that wait, by number, and how many there are: in all, and of reads and writes. */
    struct bc_waiter *lists[BC_LISTS];
    uint32_t waiting;
    uint32_t waiting_alike[BC_KINDS];
    /* The reads and writes that wait, by the groups of their pipes. */
    uint32_t waiting_at[BC_KINDS][BC_LISTS];
    /* The calls that are answered, and whose threads aren't woken yet. */
    struct bc_waiter *answered;
    /* Those of them that whoever has the lock from the queue next will wake. There is none unless a thread waits by the queue. */
    struct bc_waiter *later;
    /* The writes of which pieces are to follow. */
    struct bc_pieces *pieces;
    /* How many times a thread looks at the kernel again after it gave the lock back, as it sleeps, runs a hook or leaves the queue. */
    atomic_uint inside;
    /* How many processes were made. */
    uint64_t born;
    bc_sigpipe_hook hook;
    void *context;
    bc_sleep_hook sleep_hook;
    void *sleep_context;
    /* The greatest pid, which is the limit processes_max, and what is kept of each pid from 0 on. */
    uint32_t most_pid;
    struct bc_of_pid of[];
};

/* ---- The lock ---- */

/* Takes the lock if somebody has it. */
void bc_lock_by_queue(bc_shared *shared);

/* Gives the lock back that was taken by the queue, and wakes those who are to be woken later. */
void bc_unlock_by_queue(bc_shared *shared);

/* Without the lock: wakes threads whose calls are answered, and that have no deadline. */
void bc_wake(struct bc_waiter *answered);

/* Under the lock: the thread looks at the kernel after it gives the lock back, so that may not go. */
static inline void bc_stay(bc_shared *shared)
{
    atomic_fetch_add_explicit(&shared->inside, 1, memory_order_relaxed);
}

/* Without the lock: the thread looks at the kernel no more. */
void bc_go(bc_shared *shared);

static inline bool bc_is_taken(struct bc_lock *lock)
{
    /* if none knows, each call goes by the queue */
    return !BC_KNOWS_ATOMICS || atomic_load_explicit(&lock->is_taken, memory_order_relaxed);
}

static inline void bc_mark(struct bc_lock *lock, bool is_taken)
{
    atomic_store_explicit(&lock->is_taken, is_taken, memory_order_relaxed);
}

/* Under the lock: whether another thread is sure to take the lock by the queue. It counts itself before it waits, and off under the lock. While it
 * is counted it waits for nothing but the lock, so nobody ends it or keeps it for good. */
static inline bool bc_is_queued(struct bc_lock *lock)
{
    return BC_KNOWS_ATOMICS && atomic_load_explicit(&lock->queued, memory_order_relaxed) > 0;
}

static inline void bc_lock(bc_shared *shared)
{
    if (bc_is_taken(&shared->lock))
        bc_lock_by_queue(shared);
    else
        pthread_mutex_lock(&shared->lock.mutex);
    bc_mark(&shared->lock, true);
}

/* Gives the mutex back. */
static inline void bc_unlock_mutex(bc_shared *shared)
{
    atomic_store_explicit(&shared->steps, atomic_load_explicit(&shared->steps, memory_order_relaxed) + 1, memory_order_relaxed);
    bc_mark(&shared->lock, atomic_load_explicit(&shared->lock.is_wanted, memory_order_relaxed));
    pthread_mutex_unlock(&shared->lock.mutex);
}

static inline void bc_unlock(bc_shared *shared)
{
    if (shared->lock.is_from_queue)
        bc_unlock_by_queue(shared);
    else
        bc_unlock_mutex(shared);
}

/* ---- Yields ---- */

/* When a thread began to yield, and how many steps were made before. */
struct bc_yield {
    int64_t begun;
    uint64_t steps;
};

/* Whether a thread may yield in place of sleeping. Whoever runs next on this processor often makes the step that it waits for, and then neither
 * thread has to call the host to sleep or to wake. But a yield may also give the processor to another program, for milliseconds. That is so if
 * it takes long, and the threads of this kernel made few steps meanwhile. Then no thread yields for a while. With a hook of sleeps none yields. */
bool bc_may_yield(bc_shared *shared, struct bc_yield *yield);

/* Yields once, without the lock. Returns whether the thread may yield again. */
bool bc_yield(bc_shared *shared, const struct bc_yield *yield);

/* ---- Calls ---- */

/* What the functions below do if there is more to do than usual. */
int64_t bc_concluded_otherwise(const bc_process *process, bindingclay_answer answer);
void bc_out_and_wake(bc_shared *shared);
bool bc_out_of_none(bc_shared *shared);
bindingclay_answer bc_wait(
    const bc_process *process, bindingclay_answer parked, const struct bc_room *room, const struct timespec *deadline);

/* Takes the lock. If the process is gone, gives it back, sets errno to ESRCH and returns false. */
static inline bool bc_in(const bc_process *process)
{
    bc_shared *shared = process->shared;
    bc_lock(shared);
    if (process->birth != 0 && process->pid <= shared->most_pid && shared->of[process->pid].birth == process->birth)
        return true;
    return bc_out_of_none(shared);
}

/* Tries again the calls that can make progress, gives the lock back, and wakes the threads whose calls are answered. The step that was made may have
 * helped so many of the calls that wait. */
static inline void bc_out_behind(bc_shared *shared, uint32_t helped)
{
    if (helped == 0 && shared->answered == NULL)
        bc_unlock(shared);
    else
        bc_out_and_wake(shared);
}

/* The group of what a descriptor names: each pipe is in one. */
static inline unsigned bc_group_of(const bc_process *process, int fd)
{
    bindingclay_node_facts facts = { 0, 0, 0 };
    bindingclay_fd_facts(process->shared->clay, process->pid, fd, &facts);
    return (unsigned)(facts.key % BC_LISTS);
}

/* How many calls that wait may have been helped by a step that is answered. A read makes room, so it helps the writes of its pipe, and a write helps
 * the reads of its pipe. Of other calls that wait nobody knows, and other steps may help all. */
static inline uint32_t bc_helped(const bc_process *process, enum bc_kind kind, int fd)
{
    const bc_shared *shared = process->shared;
    uint32_t others = shared->waiting - shared->waiting_alike[kind];
    if (others == 0 || (kind != BC_READS && kind != BC_WRITES))
        return others;
    enum bc_kind opposite = kind == BC_READS ? BC_WRITES : BC_READS;
    if (others > shared->waiting_alike[opposite])
        return others;
    return shared->waiting_at[opposite][bc_group_of(process, fd)];
}

static inline void bc_out(bc_shared *shared)
{
    bc_out_behind(shared, shared->waiting);
}

/* Does what bc_out_behind does, of a call that is answered so. If SIGPIPE is due, its thread stays until bc_concluded called the hook. */
static inline void bc_out_with(bc_shared *shared, bindingclay_answer answer, uint32_t helped)
{
    if (answer.sigpipe)
        bc_stay(shared);
    bc_out_behind(shared, helped);
}

/* What a call returns that was answered so: its value, or -1 with errno. Calls the hook of SIGPIPE first where it is due. */
static inline int64_t bc_concluded(const bc_process *process, bindingclay_answer answer)
{
    if (answer.kind == BINDINGCLAY_DONE && !answer.sigpipe)
        return (int64_t)answer.value;
    return bc_concluded_otherwise(process, answer);
}

/* bc_out_with, after a step that may help all, and then bc_concluded. */
static inline int64_t bc_done(const bc_process *process, bindingclay_answer answer)
{
    bc_out_with(process->shared, answer, process->shared->waiting);
    return bc_concluded(process, answer);
}

/* Under the lock, with the answer of a call: if the call waits, waits for its answer, to the deadline if there is one. Gives the lock back, in
 * any case. */
static inline bindingclay_answer bc_awaited(
    const bc_process *process, bindingclay_answer answer, const struct bc_room *room, const struct timespec *deadline)
{
    if (answer.kind == BINDINGCLAY_PARKED)
        return bc_wait(process, answer, room, deadline);
    bc_out_with(process->shared, answer, bc_helped(process, room->kind, room->fd));
    return answer;
}

/* The deadline of a handle, or null. */
static inline const struct timespec *bc_deadline(const bc_process *process)
{
    return process->has_deadline ? &process->deadline : NULL;
}

/* Under the lock: ends all calls of a process that wait, before it exits. The kernel drops them by that. */
void bc_abandon(bc_shared *shared, uint32_t pid);

/* Under the lock: whether a call that asks for no memory found none to be recorded. Then the recording has ended, and the call is to be made again. */
static inline bool bc_unrecorded(bc_shared *shared, bindingclay_answer answer)
{
    if (answer.kind != BINDINGCLAY_NO_MEMORY)
        return false;
    bindingclay_record(shared->clay, false);
    return true;
}

#endif
