/* The front for threads: a kernel isn't closed while a thread is in a call, waiting or on its way out, and is closed once none is. */
#define _GNU_SOURCE
#include "shared.h"

enum { ROUNDS = 60, THREADS = 3, TIMES = 5, LARGE = 200000 };

/* The linker takes what is here in place of pthread_mutex_unlock (--wrap). Threads that are slow stop for a while once they gave a lock back, so that
 * whoever closes the kernel comes before they look at it again. */
int __wrap_pthread_mutex_unlock(pthread_mutex_t *mutex);
int __real_pthread_mutex_unlock(pthread_mutex_t *mutex);
static _Thread_local bool is_slow;

int __wrap_pthread_mutex_unlock(pthread_mutex_t *mutex)
{
    int status = __real_pthread_mutex_unlock(mutex);
    if (is_slow)
        usleep(300);
    return status;
}

/* A thread that is stopped in a hook, which tells that it is there. */
struct stop {
    sem_t is_there, may_go;
};

static void new_stop(struct stop *stop)
{
    sem_init(&stop->is_there, 0, 0);
    sem_init(&stop->may_go, 0, 0);
}

static void forget(struct stop *stop)
{
    sem_destroy(&stop->is_there);
    sem_destroy(&stop->may_go);
}

static void stop_at(struct stop *stop)
{
    sem_post(&stop->is_there);
    while (sem_wait(&stop->may_go) != 0)
        ;
}

static void until_there(struct stop *stop)
{
    while (sem_wait(&stop->is_there) != 0)
        ;
}

/* What a thread does, in a kernel that another thread closes. */
struct caller {
    bc_process process;
    int fd;
    size_t size;
    ssize_t answer;
};

static void *write_some(void *argument)
{
    static const char bytes[LARGE];
    struct caller *caller = argument;
    caller->answer = bc_write(&caller->process, caller->fd, bytes, caller->size);
    return NULL;
}

static void *read_one(void *argument)
{
    char byte;
    struct caller *caller = argument;
    caller->answer = bc_read(&caller->process, caller->fd, &byte, 1);
    return NULL;
}

static void stop_with_sigpipe(void *context, const bc_process *process)
{
    (void)process;
    stop_at(context);
}

/* The hook of SIGPIPE is a part of the call, whether the call waited or not. */
static void in_the_hook_of_sigpipe(bool has_waited)
{
    bc_shared *shared = new_shared();
    struct caller caller = { .process = new_process(shared), .size = has_waited ? LARGE : 1 };
    struct stop stop;
    int ends[2];
    new_stop(&stop);
    bc_on_sigpipe(shared, stop_with_sigpipe, &stop);
    HOLDS(bc_pipe2(&caller.process, ends, 0) == 0);
    caller.fd = ends[1];
    if (!has_waited)
        HOLDS(bc_close(&caller.process, ends[0]) == 0);
    pthread_t thread = thread_of(write_some, &caller);
    if (has_waited) {
        until_waiting(&caller.process, 1);
        FAILS(bc_shared_close(shared), EBUSY);
        HOLDS(bc_close(&caller.process, ends[0]) == 0);
    }
    until_there(&stop);
    HOLDS(bc_waiting(&caller.process) == 0);
    FAILS(bc_shared_close(shared), EBUSY);
    /* nothing changed: the kernel still answers */
    HOLDS(bc_dup(&caller.process, ends[1]) == ends[0]);
    sem_post(&stop.may_go);
    pthread_join(thread, NULL);
    HOLDS(caller.answer == (has_waited ? 65536 : -1) && bc_shared_close(shared) == 0);
    forget(&stop);
}

/* Sleeps until the call is answered, and stops then. */
static int sleep_and_stop(void *context, sem_t *answered)
{
    while (sem_wait(answered) != 0)
        ;
    stop_at(context);
    return 0;
}

/* A call that is answered waits no more, but its thread has still to come back. */
static void behind_an_answer(void)
{
    bc_shared *shared = new_shared();
    struct caller caller = { .process = new_process(shared) };
    struct stop stop;
    int ends[2];
    new_stop(&stop);
    bc_on_sleep(shared, sleep_and_stop, &stop);
    HOLDS(bc_pipe2(&caller.process, ends, 0) == 0);
    caller.fd = ends[0];
    pthread_t thread = thread_of(read_one, &caller);
    until_waiting(&caller.process, 1);
    HOLDS(bc_write(&caller.process, ends[1], "a", 1) == 1 && bc_waiting(&caller.process) == 0);
    until_there(&stop);
    FAILS(bc_shared_close(shared), EBUSY);
    sem_post(&stop.may_go);
    pthread_join(thread, NULL);
    HOLDS(caller.answer == 1 && bc_shared_close(shared) == 0);
    forget(&stop);
}

/* Closes a kernel whose threads are on their way out. */
static void close_at_last(bc_shared *shared)
{
    while (bc_shared_close(shared) != 0)
        if (!HOLDS(errno == EBUSY))
            break;
}

static void *write_often(void *argument)
{
    struct caller *caller = argument;
    is_slow = true;
    for (int i = 0; i < TIMES; i++)
        caller->answer += bc_write(&caller->process, caller->fd, "a", 1);
    return NULL;
}

/* Threads write at once, so some of them come by the queue of the lock. Once their bytes are there, the kernel is closed. */
static void writers_on_their_way_out(void)
{
    bc_shared *shared = new_shared();
    bc_process process = new_process(shared);
    struct caller callers[THREADS];
    pthread_t threads[THREADS];
    int ends[2];
    HOLDS(bc_pipe2(&process, ends, 0) == 0);
    for (int i = 0; i < THREADS; i++) {
        callers[i] = (struct caller){ .process = process, .fd = ends[1] };
        threads[i] = thread_of(write_often, &callers[i]);
    }
    /* without a wait, since a thread that is woken comes too late */
    for (int held = 0; held < THREADS * TIMES;)
        HOLDS(bc_ioctl(&process, ends[0], FIONREAD, &held) == 0);
    close_at_last(shared);
    for (int i = 0; i < THREADS; i++) {
        pthread_join(threads[i], NULL);
        HOLDS(callers[i].answer == TIMES);
    }
}

/* Threads whose calls wait are answered: reads, one of them with a deadline, and a write in pieces. Then the kernel is closed. */
static void answered_on_their_way_out(void)
{
    bc_shared *shared = new_shared();
    bc_process process = new_process(shared);
    const struct timespec late = in_milliseconds(100000);
    int ends[2], full[2];
    static char into[LARGE];
    HOLDS(bc_pipe2(&process, ends, 0) == 0 && bc_pipe2(&process, full, 0) == 0);
    struct caller callers[THREADS] = { { .process = process, .fd = ends[0] }, { .process = bc_until(&process, &late), .fd = ends[0] },
        { .process = process, .fd = full[1], .size = LARGE } };
    pthread_t threads[THREADS];
    for (int i = 0; i < THREADS; i++)
        threads[i] = thread_of(callers[i].size > 0 ? write_some : read_one, &callers[i]);
    until_waiting(&process, THREADS);
    HOLDS(bc_write(&process, ends[1], "ab", 2) == 2);
    for (size_t got = 0; got < LARGE;)
        got += (size_t)bc_read(&process, full[0], into, sizeof into);
    close_at_last(shared);
    for (int i = 0; i < THREADS; i++) {
        pthread_join(threads[i], NULL);
        HOLDS(callers[i].answer == (callers[i].size > 0 ? LARGE : 1));
    }
}

int main(int count, char **words)
{
    int rounds = count > 1 ? atoi(words[1]) : ROUNDS;
    in_the_hook_of_sigpipe(false);
    in_the_hook_of_sigpipe(true);
    behind_an_answer();
    for (int i = 0; i < rounds; i++) {
        writers_on_their_way_out();
        answered_on_their_way_out();
    }
    return end();
}
