/* The front for threads: calls that wait, what answers each, and what ends each: another thread, its process's exit, a deadline. */
#define _GNU_SOURCE
#include "shared.h"

enum { LARGE = 300000, PINGS = 2000, SLEEPS = 100 };

static bc_shared *shared;

/* A call that a thread makes. */
struct job {
    bc_process process;
    ssize_t (*call)(const struct job *job);
    int fd, other;
    size_t size;
    char bytes[16];
    struct pollfd entry;
    ssize_t answer;
    int error;
    pthread_t thread;
};

static void *work(void *argument)
{
    struct job *job = argument;
    errno = 0;
    job->answer = job->call(job);
    job->error = errno;
    return NULL;
}

static ssize_t a_read(const struct job *job)
{
    return bc_read(&job->process, job->fd, (char *)(uintptr_t)job->bytes, sizeof job->bytes);
}

static ssize_t a_write(const struct job *job)
{
    static const char bytes[LARGE];
    return bc_write(&job->process, job->fd, bytes, job->size);
}

static ssize_t a_splice(const struct job *job)
{
    return bc_splice(&job->process, job->fd, NULL, job->other, NULL, 16, 0);
}

static ssize_t a_tee(const struct job *job)
{
    return bc_tee(&job->process, job->fd, job->other, 16, 0);
}

static ssize_t a_poll(const struct job *job)
{
    return bc_poll(&job->process, (struct pollfd *)(uintptr_t)&job->entry, 1, -1);
}

static ssize_t an_open(const struct job *job)
{
    return bc_open(&job->process, "fifo", O_RDONLY);
}

/* Begins a call in a thread, and waits until it waits. */
static void begin(struct job *job, const bc_process *process, ssize_t (*call)(const struct job *), int fd)
{
    job->process = *process;
    job->call = call;
    job->fd = fd;
    job->entry = (struct pollfd){ .fd = fd, .events = POLLIN };
    int before = bc_waiting(process);
    job->thread = thread_of(work, job);
    until_waiting(process, before + 1);
}

static bool ends_so(struct job *job, ssize_t answer, int error)
{
    pthread_join(job->thread, NULL);
    errno = job->error;
    return job->answer == answer && (answer >= 0 || job->error == error);
}

/* Each kind of call waits until another thread makes it possible. */
static void answered(void)
{
    bc_process process = new_process(shared);
    int ends[2], more[2];
    struct job job = { .size = 0 }, second = { .size = 0 };
    HOLDS(bc_pipe2(&process, ends, 0) == 0 && bc_pipe2(&process, more, 0) == 0);
    begin(&job, &process, a_read, ends[0]);
    HOLDS(bc_write(&process, ends[1], "hello", 5) == 5);
    HOLDS(ends_so(&job, 5, 0) && memcmp(job.bytes, "hello", 5) == 0);
    job.other = more[1];
    begin(&job, &process, a_splice, ends[0]);
    HOLDS(bc_write(&process, ends[1], "abc", 3) == 3);
    HOLDS(ends_so(&job, 3, 0));
    begin(&job, &process, a_tee, ends[0]);
    begin(&second, &process, a_poll, ends[0]);
    HOLDS(bc_write(&process, ends[1], "de", 2) == 2);
    HOLDS(ends_so(&job, 2, 0));
    HOLDS(ends_so(&second, 1, 0) && second.entry.revents == POLLIN);
    HOLDS(bc_read(&process, more[0], job.bytes, 16) == 5 && memcmp(job.bytes, "abcde", 5) == 0);
    HOLDS(bc_mkfifo(&process, "fifo", 0600) == 0);
    begin(&job, &process, an_open, 0);
    /* the two least free descriptors, of which either may be the reader's */
    int writer = bc_open(&process, "fifo", O_WRONLY);
    HOLDS(writer == 4 || writer == 5);
    HOLDS(ends_so(&job, 9 - writer, 0));
    HOLDS(bc_unlink(&process, "fifo") == 0 && bc_exit(&process) == 0);
}

/* A write of many bytes waits until all went in, and keeps few of them in the kernel. */
static void large_writes(int flags)
{
    bc_process process = new_process(shared);
    int ends[2];
    static char into[LARGE];
    struct job job = { .size = LARGE };
    HOLDS(bc_pipe2(&process, ends, flags) == 0);
    begin(&job, &process, a_write, ends[1]);
    /* the pipe holds 65,536 bytes in segments, and what waits has a copy of at most 8,193 */
    HOLDS(bc_memory(shared).held < 65536 + 65536);
    /* neither makes its descriptor name something else */
    HOLDS(bc_close(&process, bc_dup(&process, ends[1])) == 0 && bc_dup2(&process, ends[1], ends[1]) == ends[1]);
    size_t got = 0;
    while (got < LARGE) {
        ssize_t count = bc_read(&process, ends[0], into, 1 + got % 30000);
        if (!HOLDS(count > 0))
            break;
        got += (flags & O_DIRECT) == 0 ? (size_t)count : 4096;
    }
    HOLDS(ends_so(&job, LARGE, 0));
    HOLDS(bc_exit(&process) == 0);
}

/* The descriptor of a large write names another pipe before all bytes went in: the others go nowhere, and the write tells how many did. */
static void cut_off(bool by_a_new_pipe)
{
    bc_process process = new_process(shared);
    int ends[2], others[2], held = -1;
    static char into[LARGE];
    struct job job = { .size = LARGE };
    /* if it went on at the other pipe, it would wait there */
    const struct timespec late = in_milliseconds(10000);
    const bc_process timed = bc_until(&process, &late);
    HOLDS(bc_pipe2(&process, ends, 0) == 0 && bc_pipe2(&process, others, 0) == 0);
    begin(&job, &timed, a_write, ends[1]);
    if (by_a_new_pipe) {
        /* it may get the key and the descriptors of the one that goes */
        HOLDS(bc_read(&process, ends[0], into, LARGE) == 65536);
        HOLDS(bc_close(&process, ends[1]) == 0 && bc_close(&process, ends[0]) == 0);
        HOLDS(bc_pipe2(&process, others, 0) == 0 && others[1] == ends[1]);
    } else {
        HOLDS(bc_dup2(&process, others[1], ends[1]) == ends[1]);
        while (bc_read(&process, ends[0], into, LARGE) > 0)
            ;
    }
    pthread_join(job.thread, NULL);
    HOLDS(job.answer >= 65536 && job.answer < LARGE);
    HOLDS(bc_ioctl(&process, others[0], FIONREAD, &held) == 0 && held == 0);
    HOLDS(bc_exit(&process) == 0);
}

/* What other threads make of a call that waits. */
static void ended(void)
{
    bc_process process = new_process(shared), child;
    int ends[2], spare[2];
    struct job job = { .size = LARGE }, second = { .size = 0 };
    HOLDS(bc_pipe2(&process, ends, 0) == 0);
    begin(&job, &process, a_read, ends[0]);
    HOLDS(bc_interrupt_thread(shared, job.thread) == 1);
    HOLDS(ends_so(&job, -1, EINTR));
    HOLDS(bc_interrupt_thread(shared, pthread_self()) == 0);
    begin(&job, &process, a_read, ends[0]);
    begin(&second, &process, a_poll, ends[0]);
    HOLDS(bc_interrupt(&process) == 2 && bc_interrupt(&process) == 0);
    HOLDS(ends_so(&job, -1, EINTR) && ends_so(&second, -1, EINTR));
    /* a write that put in bytes answers their count (write: EINTR only "if .. no data was transferred") */
    begin(&job, &process, a_write, ends[1]);
    HOLDS(bc_interrupt(&process) == 1);
    HOLDS(ends_so(&job, 65536, 0));
    /* the last writer goes while a read waits: it is at the end */
    HOLDS(bc_pipe2(&process, spare, 0) == 0);
    begin(&job, &process, a_read, spare[0]);
    HOLDS(bc_close(&process, spare[1]) == 0);
    HOLDS(ends_so(&job, 0, 0));
    /* the end that a read waits at is closed: it goes on with what it named */
    HOLDS(bc_pipe2(&process, spare, 0) == 0);
    begin(&job, &process, a_read, spare[0]);
    HOLDS(bc_close(&process, spare[0]) == 0 && bc_write(&process, spare[1], "z", 1) == 1);
    HOLDS(ends_so(&job, 1, 0));
    /* its process exits, and that of another one doesn't end */
    HOLDS(bc_fork(&process, &child) > 0 && bc_pipe2(&process, spare, 0) == 0);
    begin(&job, &child, a_write, ends[1]);
    begin(&second, &process, a_read, spare[0]);
    FAILS(bc_shared_close(shared), EBUSY);
    HOLDS(bc_exit(&child) == 0);
    HOLDS(ends_so(&job, -1, ESRCH));
    HOLDS(bc_waiting(&process) == 1 && bc_exit(&process) == 0);
    HOLDS(ends_so(&second, -1, ESRCH));
}

/* A write that put in a part of its bytes answers their count if its process exits, as it does if it is interrupted. */
static void ended_behind_a_part(bool by_exit)
{
    bc_process process = new_process(shared), child;
    int ends[2];
    static char bytes[65536];
    struct job job = { .size = 5000 };
    HOLDS(bc_pipe2(&process, ends, 0) == 0 && bc_fork(&process, &child) > 0);
    HOLDS(bc_write(&process, ends[1], bytes, sizeof bytes) == sizeof bytes);
    begin(&job, &child, a_write, ends[1]);
    HOLDS(bc_read(&process, ends[0], bytes, 100) == 100);
    if (by_exit)
        HOLDS(bc_exit(&child) == 0);
    else
        HOLDS(bc_interrupt(&child) == 1 && bc_exit(&child) == 0);
    HOLDS(ends_so(&job, 100, 0));
    HOLDS(bc_exit(&process) == 0);
}

static void deadlines(void)
{
    bc_process process = new_process(shared), late;
    int ends[2];
    char byte;
    static char bytes[LARGE];
    struct timespec time = in_milliseconds(0), soon = in_milliseconds(40), none = { .tv_sec = 1, .tv_nsec = -1 };
    HOLDS(bc_pipe2(&process, ends, 0) == 0);
    late = bc_until(&process, &soon);
    FAILS(bc_read(&late, ends[0], &byte, 1), ETIMEDOUT);
    HOLDS(in_milliseconds(0).tv_sec > soon.tv_sec || in_milliseconds(0).tv_nsec >= soon.tv_nsec);
    late = bc_until(&process, &time);
    FAILS(bc_read(&late, ends[0], &byte, 1), ETIMEDOUT);
    struct pollfd entry = { .fd = ends[0], .events = POLLIN };
    FAILS(bc_poll(&late, &entry, 1, -1), ETIMEDOUT);
    FAILS(bc_poll(&late, &entry, 1, 100000), ETIMEDOUT);
    HOLDS(bc_poll(&late, &entry, 1, 0) == 0);
    HOLDS(bc_write(&late, ends[1], "a", 1) == 1 && bc_read(&late, ends[0], &byte, 1) == 1);
    HOLDS(bc_write(&late, ends[1], bytes, LARGE) == 65536);
    late = bc_until(&process, &none);
    FAILS(bc_write(&late, ends[1], bytes, LARGE), ETIMEDOUT);
    late = bc_until(&late, NULL);
    struct job job = { .size = LARGE };
    begin(&job, &late, a_write, ends[1]);
    HOLDS(bc_close(&process, ends[0]) == 0);
    HOLDS(ends_so(&job, -1, EPIPE));
    HOLDS(bc_exit(&process) == 0);
}

/* What a hook of sleeps counts, and what it makes of its first sleep. */
struct sleeps {
    pthread_mutex_t lock;
    int count;
    bool is_answered_first;
    const bc_process *process;
    int fd;
};

/* Tells of a signal in its first sleep, and sleeps in the others. */
static int sleep_and_count(void *context, sem_t *answered)
{
    struct sleeps *sleeps = context;
    pthread_mutex_lock(&sleeps->lock);
    bool is_first = sleeps->count++ == 0;
    pthread_mutex_unlock(&sleeps->lock);
    if (is_first && sleeps->is_answered_first)
        HOLDS(bc_write(sleeps->process, sleeps->fd, "ab", 2) == 2);
    return is_first ? -1 : sem_wait(answered);
}

/* A hook of sleeps ends a call, unless that is answered by then. Calls with a deadline sleep without it. */
static void slept_by_hook(void)
{
    bc_shared *own = new_shared();
    bc_process process = new_process(own), late;
    static char bytes[LARGE];
    char byte;
    int ends[2];
    struct sleeps sleeps = { .lock = PTHREAD_MUTEX_INITIALIZER, .process = &process };
    bc_on_sleep(own, sleep_and_count, &sleeps);
    HOLDS(bc_pipe2(&process, ends, 0) == 0);
    sleeps.fd = ends[1];
    FAILS(bc_read(&process, ends[0], &byte, 1), EINTR);
    HOLDS(sleeps.count == 2 && bc_waiting(&process) == 0);
    sleeps.count = 0;
    HOLDS(bc_write(&process, ends[1], bytes, LARGE) == 65536 && sleeps.count == 2);
    HOLDS(bc_read(&process, ends[0], bytes, LARGE) == 65536);
    sleeps.is_answered_first = true;
    for (int i = 0; i < 2; i++) {
        /* the second read is answered by what the first one left */
        sleeps.count = 0;
        HOLDS(bc_read(&process, ends[0], &byte, 1) == 1 && byte == "ab"[i]);
        HOLDS(sleeps.count == (i == 0 ? 2 : 0));
    }
    struct timespec soon = in_milliseconds(10);
    struct pollfd entry = { .fd = ends[0], .events = POLLIN };
    late = bc_until(&process, &soon);
    sleeps.count = 0;
    FAILS(bc_read(&late, ends[0], &byte, 1), ETIMEDOUT);
    HOLDS(bc_poll(&process, &entry, 1, 1) == 0 && sleeps.count == 0);
    /* another thread answers a call that sleeps by the hook, and so does an interrupt of another thread; no thread waits before the hook */
    struct job job = { .size = 0 };
    sleeps.count = 1;
    for (int i = 0; i < SLEEPS; i++) {
        begin(&job, &process, a_read, ends[0]);
        HOLDS(bc_write(&process, ends[1], "x", 1) == 1 && ends_so(&job, 1, 0));
    }
    begin(&job, &process, a_read, ends[0]);
    HOLDS(bc_interrupt(&process) == 1 && ends_so(&job, -1, EINTR) && sleeps.count == SLEEPS + 2);
    HOLDS(bc_exit(&process) == 0 && bc_shared_close(own) == 0);
}

static void *send_back(void *argument)
{
    const bc_process *process = argument;
    char byte;
    for (int i = 0; i < PINGS; i++)
        HOLDS(bc_read(process, 0, &byte, 1) == 1 && bc_write(process, 3, &byte, 1) == 1);
    return NULL;
}

/* Bytes go to another thread and back, each within ten seconds: a machine may stop a thread for one. */
static void ping_pongs(void)
{
    bc_process process = new_process(shared), timed;
    int ends[2];
    char byte = 'a';
    HOLDS(bc_pipe2(&process, ends, 0) == 0 && bc_pipe2(&process, ends, 0) == 0);
    pthread_t other = thread_of(send_back, &process);
    for (int i = 0; i < PINGS; i++) {
        double begun = seconds();
        struct timespec deadline = in_milliseconds(10000);
        timed = bc_until(&process, &deadline);
        HOLDS(bc_write(&process, 1, &byte, 1) == 1);
        HOLDS(bc_read(i % 2 == 0 ? &timed : &process, 2, &byte, 1) == 1);
        HOLDS(seconds() - begun < 10.0);
    }
    pthread_join(other, NULL);
    HOLDS(bc_exit(&process) == 0);
}

int main(void)
{
    shared = new_shared();
    answered();
    large_writes(0);
    large_writes(O_DIRECT);
    cut_off(false);
    cut_off(true);
    ended();
    ended_behind_a_part(false);
    ended_behind_a_part(true);
    deadlines();
    slept_by_hook();
    ping_pongs();
    HOLDS(bc_shared_close(shared) == 0);
    return end();
}
