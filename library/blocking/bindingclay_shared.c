/* The front for threads: kernels, the calls that wait, and what ends them. */
#define _GNU_SOURCE
#include "bindingclay_shared_inside.h"

#include <errno.h>
#include <stddef.h>

/* How often a thread yields before it sleeps. */
enum { YIELDS = 8 };

static bindingclay_answer failed(int error)
{
    return (bindingclay_answer){ .kind = BINDINGCLAY_FAULT, .error = error };
}

/* ---- Kernels ---- */

/* The locks of a kernel that nobody shares yet. Returns whether there are all. */
static bool made_locks(bc_shared *shared)
{
    if (pthread_condattr_init(&shared->monotonic) != 0)
        return false;
    if (pthread_condattr_setclock(&shared->monotonic, CLOCK_MONOTONIC) == 0 && pthread_mutex_init(&shared->lock.mutex, NULL) == 0) {
        if (pthread_mutex_init(&shared->lock.queue, NULL) == 0)
            return true;
        pthread_mutex_destroy(&shared->lock.mutex);
    }
    pthread_condattr_destroy(&shared->monotonic);
    return false;
}

static void forget_locks(bc_shared *shared)
{
    pthread_mutex_destroy(&shared->lock.queue);
    pthread_mutex_destroy(&shared->lock.mutex);
    pthread_condattr_destroy(&shared->monotonic);
}

/* The limit on processes. A struct of an earlier version lacks it. */
static uint64_t processes_within(const bindingclay_limits *limits)
{
    bool has_it = limits->size >= offsetof(bindingclay_limits, processes_max) + sizeof limits->processes_max;
    return has_it ? limits->processes_max : BINDINGCLAY_USUAL_PROCESSES;
}

int bc_shared_open(const bindingclay_limits *limits, bc_shared **shared)
{
    static const bindingclay_limits none = BINDINGCLAY_LIMITS;
    const bindingclay_limits *within = limits != NULL ? limits : &none;
    uint64_t processes = processes_within(within);
    bc_shared *made = NULL;
    if (processes <= BINDINGCLAY_MOST_PROCESSES)
        made = calloc(1, sizeof *made + (size_t)(processes + 1) * sizeof *made->of);
    if (made != NULL && made_locks(made)) {
        made->most_pid = (uint32_t)processes;
        if (bindingclay_open_within(within, &made->clay.kernel)) {
            *shared = made;
            return 0;
        }
        forget_locks(made);
    }
    free(made);
    errno = ENOMEM;
    return -1;
}

int bc_shared_close(bc_shared *shared)
{
    bc_lock(shared);
    /* who is answered waits no more, but may not have gone yet */
    bool is_used = shared->waiting > 0 || bc_is_queued(&shared->lock) || atomic_load_explicit(&shared->inside, memory_order_acquire) > 0;
    bc_unlock(shared);
    if (is_used) {
        errno = EBUSY;
        return -1;
    }
    bindingclay_free(shared->clay);
    forget_locks(shared);
    free(shared);
    return 0;
}

void bc_on_sigpipe(bc_shared *shared, bc_sigpipe_hook hook, void *context)
{
    shared->hook = hook;
    shared->context = context;
}

void bc_on_sleep(bc_shared *shared, bc_sleep_hook hook, void *context)
{
    shared->sleep_hook = hook;
    shared->sleep_context = context;
}

bindingclay_memory_use bc_memory(bc_shared *shared)
{
    bc_lock(shared);
    bindingclay_memory_use memory = bindingclay_memory(shared->clay);
    bc_unlock(shared);
    return memory;
}

/* ---- The lists of calls that wait ---- */

static struct bc_waiter **list_of(bc_shared *shared, uint64_t number)
{
    return &shared->lists[number % BC_LISTS];
}

static void count_waiter(bc_shared *shared, const struct bc_waiter *waiter, int more)
{
    shared->waiting += (uint32_t)more;
    shared->of[waiter->pid].waiting += (uint32_t)more;
    if (waiter->room.kind == BC_READS || waiter->room.kind == BC_WRITES) {
        shared->waiting_alike[waiter->room.kind] += (uint32_t)more;
        shared->waiting_at[waiter->room.kind][waiter->group] += (uint32_t)more;
    }
}

static void enlist(bc_shared *shared, struct bc_waiter *waiter)
{
    struct bc_waiter **list = list_of(shared, waiter->number);
    waiter->next = *list;
    *list = waiter;
    waiter->is_listed = true;
    count_waiter(shared, waiter, 1);
}

static struct bc_waiter *waiter_of(bc_shared *shared, uint64_t number)
{
    struct bc_waiter *waiter = *list_of(shared, number);
    while (waiter != NULL && waiter->number != number)
        waiter = waiter->next;
    return waiter;
}

/* Takes a call off its list, with its answer. bc_out wakes its thread. */
static void answer_waiter(bc_shared *shared, struct bc_waiter *waiter, bindingclay_answer answer)
{
    struct bc_waiter **place = list_of(shared, waiter->number);
    while (*place != waiter)
        place = &(*place)->next;
    *place = waiter->next;
    waiter->is_listed = false;
    count_waiter(shared, waiter, -1);
    waiter->answer = answer;
    waiter->next = shared->answered;
    shared->answered = waiter;
}

/* What a call that waits answers as it ends: the count of a write that put in bytes, and else an error. */
static bindingclay_answer interrupted(bc_shared *shared, uint64_t number, int error)
{
    bindingclay_answer answer = bindingclay_interrupt(shared->clay, number);
    if (bc_unrecorded(shared, answer))
        answer = bindingclay_interrupt(shared->clay, number);
    return answer.kind == BINDINGCLAY_DONE ? answer : failed(error);
}

static void give_up(bc_shared *shared, struct bc_waiter *waiter, int error)
{
    answer_waiter(shared, waiter, interrupted(shared, waiter->number, error));
}

/* Tries again a call that can make progress. */
static void try_again(bc_shared *shared, uint64_t number)
{
    struct bc_waiter *waiter = waiter_of(shared, number);
    bindingclay_answer answer;
    if (waiter == NULL) {
        /* no thread waits for it, so nobody could be told */
        interrupted(shared, number, 0);
        return;
    }
    if (waiter->room.entries != NULL)
        answer = bindingclay_resume_poll(shared->clay, number, waiter->room.entries, waiter->room.size);
    else
        answer = bindingclay_resume(shared->clay, number, waiter->room.into, waiter->room.size);
    if (answer.kind == BINDINGCLAY_NO_MEMORY || answer.kind == BINDINGCLAY_SHORT)
        give_up(shared, waiter, ENOMEM);
    else if (answer.kind != BINDINGCLAY_PARKED)
        answer_waiter(shared, waiter, answer);
}

/* ---- In and out ---- */

bool bc_out_of_none(bc_shared *shared)
{
    bc_unlock(shared);
    errno = ESRCH;
    return false;
}

void bc_wake(struct bc_waiter *answered)
{
    for (struct bc_waiter *next; answered != NULL; answered = next) {
        /* a thread that is woken may leave at once, and its waiter with it. Then what is left of sem_post looks at nothing there any more */
        next = answered->next;
        sem_post(&answered->answered);
    }
}

/* Under the lock: takes the calls that are answered, and wakes those with a deadline, since they may leave as soon as the lock is free. Puts the
 * others before a list of calls whose threads are to be woken, and returns that. */
static struct bc_waiter *answered_before(bc_shared *shared, struct bc_waiter *list)
{
    for (struct bc_waiter *waiter = shared->answered, *next; waiter != NULL; waiter = next) {
        next = waiter->next;
        if (waiter->has_deadline) {
            pthread_cond_signal(&waiter->wakes);
        } else if (!BC_KNOWS_ATOMICS) {
            sem_post(&waiter->answered);
        } else {
            waiter->next = list;
            list = waiter;
        }
    }
    shared->answered = NULL;
    return list;
}

void bc_out_and_wake(bc_shared *shared)
{
    bindingclay_answer next;
    struct bc_waiter *woken = NULL;
    while (shared->waiting > 0 && (next = bindingclay_next_ready(shared->clay, 0)).kind == BINDINGCLAY_DONE)
        try_again(shared, next.value);
    if (bc_is_queued(&shared->lock))
        shared->later = answered_before(shared, shared->later);
    else
        woken = answered_before(shared, NULL);
    bc_unlock(shared);
    /* a thread that is woken under the lock would at once wait for the lock */
    bc_wake(woken);
}

static int error_of(bindingclay_answer answer)
{
    switch (answer.kind) {
    case BINDINGCLAY_FAULT:
        return answer.error;
    case BINDINGCLAY_NO_MEMORY:
        return ENOMEM;
    case BINDINGCLAY_CALLS_SPENT:
        return EAGAIN;
    default:
        /* BINDINGCLAY_NO_PROCESS, or BINDINGCLAY_NO_CALL of a process that exited */
        return ESRCH;
    }
}

int64_t bc_concluded_otherwise(const bc_process *process, bindingclay_answer answer)
{
    if (answer.sigpipe) {
        bc_shared *shared = process->shared;
        if (shared->hook != NULL)
            shared->hook(shared->context, process);
        bc_go(shared);
    }
    if (answer.kind == BINDINGCLAY_DONE)
        return (int64_t)answer.value;
    errno = error_of(answer);
    return -1;
}

/* ---- A thread that waits ---- */

/* Under the lock: sleeps until the call is answered, and gives the lock back. At the deadline it ends, if nobody answered it before. */
static void sleep_until(bc_shared *shared, struct bc_waiter *waiter, const struct timespec *deadline)
{
    while (waiter->is_listed) {
        /* who sleeps keeps neither the queue nor the mark */
        bc_unlock(shared);
        pthread_mutex_lock(&shared->lock.mutex);
        if (waiter->is_listed && pthread_cond_timedwait(&waiter->wakes, &shared->lock.mutex, deadline) != 0 && waiter->is_listed)
            give_up(shared, waiter, ETIMEDOUT);
        bc_mark(&shared->lock, true);
    }
    /* what it left may help others, if it ended by itself */
    if (shared->answered != NULL)
        bc_out_and_wake(shared);
    else
        bc_unlock(shared);
}

/* Under the lock: whether no other call of its kind waits at the pipes of its group. Where others wait at its own, the next step answers one that came
 * before, so that a yield would be in vain. */
static bool is_alone_at_its_pipe(const bc_shared *shared, const struct bc_waiter *waiter)
{
    bool has_pipe = waiter->room.kind == BC_READS || waiter->room.kind == BC_WRITES;
    return !has_pipe || shared->waiting_at[waiter->room.kind][waiter->group] == 1;
}

/* Yields some times, and tells whether the call is answered then. */
static bool is_answered_by_yields(bc_shared *shared, struct bc_waiter *waiter)
{
    struct bc_yield yield;
    bool is_quick = bc_may_yield(shared, &yield);
    for (int i = 0; i < YIELDS && is_quick; i++) {
        is_quick = bc_yield(shared, &yield);
        if (sem_trywait(&waiter->answered) == 0)
            return true;
    }
    return false;
}

/* Without the lock: sleeps by the hook, until the call is answered. */
static void sleep_by_hook(bc_shared *shared, struct bc_waiter *waiter)
{
    while (shared->sleep_hook(shared->sleep_context, &waiter->answered) != 0) {
        bc_lock(shared);
        if (waiter->is_listed)
            give_up(shared, waiter, EINTR);
        /* this posts its own semaphore too, so the next round doesn't sleep */
        bc_out(shared);
    }
}

/* Under the lock: gives it back, and sleeps until the call is answered. Signals of the host end no call, unless the hook of sleeps tells of one. */
static void sleep_on(bc_shared *shared, struct bc_waiter *waiter)
{
    bool may_be_next = is_alone_at_its_pipe(shared, waiter);
    bc_unlock(shared);
    if (may_be_next && is_answered_by_yields(shared, waiter))
        return;
    if (shared->sleep_hook != NULL)
        sleep_by_hook(shared, waiter);
    else
        while (sem_wait(&waiter->answered) != 0)
            ;
    if (!BC_KNOWS_ATOMICS) {
        bc_lock(shared);
        bc_unlock(shared);
    }
}

bindingclay_answer bc_wait(
    const bc_process *process, bindingclay_answer parked, const struct bc_room *room, const struct timespec *deadline)
{
    bc_shared *shared = process->shared;
    struct bc_waiter waiter = { .number = parked.value, .pid = process->pid, .thread = pthread_self(), .room = *room };
    waiter.has_deadline = deadline != NULL;
    bc_stay(shared);
    if (room->kind == BC_READS || room->kind == BC_WRITES)
        waiter.group = bc_group_of(process, room->fd);
    /* neither fails: they take no memory, and nobody has them */
    if (waiter.has_deadline)
        pthread_cond_init(&waiter.wakes, &shared->monotonic);
    else
        sem_init(&waiter.answered, 0, 0);
    enlist(shared, &waiter);
    /* a call that moved nothing as it began to wait helped no other, but an open is seen by another open */
    if (parked.moved || room->kind == BC_OPENS) {
        bc_out_and_wake(shared);
        bc_lock(shared);
    }
    if (waiter.has_deadline) {
        sleep_until(shared, &waiter, deadline);
        pthread_cond_destroy(&waiter.wakes);
    } else {
        sleep_on(shared, &waiter);
        sem_destroy(&waiter.answered);
    }
    /* else bc_concluded does */
    if (!waiter.answer.sigpipe)
        bc_go(shared);
    return waiter.answer;
}

/* ---- What ends calls that wait ---- */

/* What a call that waits answers if its process goes, by the kernel that still has it: the count of a write that put in bytes. */
static bindingclay_answer abandoned(const bc_shared *shared, uint64_t number)
{
    bindingclay_answer taken = bindingclay_taken(shared->clay, number);
    return taken.value > 0 ? taken : failed(ESRCH);
}

void bc_abandon(bc_shared *shared, uint32_t pid)
{
    for (int i = 0; i < BC_LISTS && shared->of[pid].waiting > 0; i++) {
        struct bc_waiter *next;
        for (struct bc_waiter *waiter = shared->lists[i]; waiter != NULL; waiter = next) {
            next = waiter->next;
            if (waiter->pid == pid)
                answer_waiter(shared, waiter, abandoned(shared, waiter->number));
        }
    }
}

int bc_interrupt(const bc_process *process)
{
    if (!bc_in(process))
        return -1;
    bc_shared *shared = process->shared;
    int ended = 0;
    for (int i = 0; i < BC_LISTS && shared->of[process->pid].waiting > 0; i++) {
        struct bc_waiter *next;
        for (struct bc_waiter *waiter = shared->lists[i]; waiter != NULL; waiter = next) {
            next = waiter->next;
            if (waiter->pid != process->pid)
                continue;
            give_up(shared, waiter, EINTR);
            ended++;
        }
    }
    bc_out(shared);
    return ended;
}

int bc_interrupt_thread(bc_shared *shared, pthread_t thread)
{
    bc_lock(shared);
    struct bc_waiter *found = NULL;
    for (int i = 0; i < BC_LISTS && found == NULL; i++) {
        found = shared->lists[i];
        while (found != NULL && !pthread_equal(found->thread, thread))
            found = found->next;
    }
    if (found != NULL)
        give_up(shared, found, EINTR);
    bc_out(shared);
    return found != NULL;
}

int bc_waiting(const bc_process *process)
{
    if (!bc_in(process))
        return -1;
    int waiting = (int)process->shared->of[process->pid].waiting;
    bc_out(process->shared);
    return waiting;
}
