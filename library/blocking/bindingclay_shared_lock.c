/* The front for threads: the lock where somebody has it, and yields. */
#define _GNU_SOURCE
#include "bindingclay_shared_inside.h"

#include <sched.h>

/* How long who looks for the lock lets others go on that make step after step, and how often it looks, in nanoseconds. From one look to the next
 * so few steps aren't step after step. */
enum { PATIENCE = 200000, LOOK = 1000, FEW_STEPS = 1 };

/* How often a lock is looked for in vain while no step is made, or it is wanted, before its thread sleeps. */
enum { MOST_STILL = 10 };

/* How many turns who looks for the lock pauses before it asks for the time: less than 3 microseconds. */
enum { TURNS = 64 };

/* From how many nanoseconds on a yield is slow, for itself and for each step that was made meanwhile; and for how long no thread yields then. */
enum { SLOW_YIELD = 50000, SLOW_STEP = 5000, PAUSE_OF_YIELDS = 20000000 };

static int64_t now(void)
{
    struct timespec time;
    clock_gettime(CLOCK_MONOTONIC, &time);
    return (int64_t)time.tv_sec * 1000000000 + time.tv_nsec;
}

/* ---- The lock ---- */

/* Pauses from one look to the next, and tells when that was over. */
static int64_t pause_from(int64_t looked)
{
    int64_t time;
    do {
        for (int i = 0; i < TURNS; i++)
#if defined(__x86_64__) || defined(__i386__)
            __builtin_ia32_pause();
#else
            atomic_signal_fence(memory_order_seq_cst);
#endif
        time = now();
    } while (time - looked < LOOK);
    return time;
}

static void want(struct bc_lock *lock, bool is_wanted)
{
    atomic_store_explicit(&lock->is_wanted, is_wanted, memory_order_relaxed);
}

/* With the queue: looks for the mutex, and tells whether it got it. */
static bool is_found(bc_shared *shared)
{
    struct bc_lock *lock = &shared->lock;
    uint64_t steps = atomic_load_explicit(&shared->steps, memory_order_relaxed);
    int64_t begun = now(), looked = begun;
    for (int still = 0; still < MOST_STILL;) {
        looked = pause_from(looked);
        uint64_t before = steps;
        steps = atomic_load_explicit(&shared->steps, memory_order_relaxed);
        bool is_late = looked - begun >= PATIENCE;
        if (is_late)
            want(lock, true);
        if ((is_late || steps - before <= FEW_STEPS) && pthread_mutex_trylock(&lock->mutex) == 0)
            return true;
        still += is_late || steps == before;
    }
    /* it sleeps now, and nobody is to wait until it is awake */
    want(lock, false);
    return false;
}

static void count_queued(struct bc_lock *lock, int more)
{
    if (BC_KNOWS_ATOMICS)
        atomic_fetch_add_explicit(&lock->queued, more, memory_order_relaxed);
}

void bc_lock_by_queue(bc_shared *shared)
{
    struct bc_lock *lock = &shared->lock;
    count_queued(lock, 1);
    pthread_mutex_lock(&lock->queue);
    if (!BC_KNOWS_ATOMICS || !is_found(shared))
        pthread_mutex_lock(&lock->mutex);
    lock->is_from_queue = true;
    want(lock, false);
    count_queued(lock, -1);
}

void bc_unlock_by_queue(bc_shared *shared)
{
    struct bc_waiter *later = shared->later;
    shared->later = NULL;
    shared->lock.is_from_queue = false;
    /* if none knows atomics, who closes the kernel waits at the queue too */
    if (BC_KNOWS_ATOMICS)
        bc_stay(shared);
    bc_unlock_mutex(shared);
    pthread_mutex_unlock(&shared->lock.queue);
    if (BC_KNOWS_ATOMICS)
        bc_go(shared);
    bc_wake(later);
}

void bc_go(bc_shared *shared)
{
    if (!BC_KNOWS_ATOMICS)
        bc_lock(shared);
    atomic_fetch_sub_explicit(&shared->inside, 1, memory_order_release);
    if (!BC_KNOWS_ATOMICS)
        bc_unlock(shared);
}

/* ---- Yields ---- */

bool bc_may_yield(bc_shared *shared, struct bc_yield *yield)
{
    yield->begun = now();
    yield->steps = BC_KNOWS_ATOMICS ? atomic_load_explicit(&shared->steps, memory_order_relaxed) : 0;
    /* if there is a hook of sleeps, nobody else makes progress and no signal comes until the thread is in it */
    bool is_useful = BC_KNOWS_ATOMICS && shared->sleep_hook == NULL;
    return is_useful && yield->begun >= atomic_load_explicit(&shared->yields_from, memory_order_relaxed);
}

bool bc_yield(bc_shared *shared, const struct bc_yield *yield)
{
    sched_yield();
    int64_t ended = now();
    int64_t made = (int64_t)(atomic_load_explicit(&shared->steps, memory_order_relaxed) - yield->steps);
    if (ended - yield->begun <= SLOW_YIELD + made * SLOW_STEP)
        return true;
    atomic_store_explicit(&shared->yields_from, ended + PAUSE_OF_YIELDS, memory_order_relaxed);
    return false;
}
