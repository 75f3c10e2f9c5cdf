/* The front for threads: a storm. Eight threads share a kernel, and make calls at random as processes that fork and exit: reads and writes of all
 * sizes, polls, splices, tees and opens, with deadlines and without, while others interrupt them. Each thread has to come to its end.
 *
 *   shared_storm [SECONDS [FILE]]    takes so long, and records all steps into FILE, for piperun --check */
#define _GNU_SOURCE
#include "shared.h"

/* MOST: the bytes of a call. FEWEST: the calls that a thread makes at least, however late it gets its turn. */
enum { THREADS = 8, PIPES = 3, FDS = 2 * PIPES, MOST = 9000, FEWEST = 50 };

struct party {
    pthread_t thread;
    /* The process whose calls the thread makes: its own, or one that it shares with its neighbours. */
    bc_process process;
    uint32_t random;
    unsigned calls, waits_ended;
};

static bc_shared *shared;
static bc_process first;
static struct party parties[THREADS];
static double until;

static uint32_t drawn(struct party *party, uint32_t below)
{
    party->random = party->random * 1664525 + 1013904223;
    return (party->random >> 8) % below;
}

/* A call may fail for what other threads do, and for nothing else. */
static void judge(struct party *party, ssize_t answer)
{
    static const int ALLOWED[] = { 0, EINTR, ETIMEDOUT, EPIPE, ESRCH, EBADF, EMFILE, EAGAIN, EINVAL, ESPIPE, ENOENT, EEXIST, ENXIO, EBUSY };
    bool is_allowed = answer >= 0;
    for (size_t i = 0; i < sizeof ALLOWED / sizeof *ALLOWED; i++)
        is_allowed = is_allowed || errno == ALLOWED[i];
    HOLDS(is_allowed);
    party->calls++;
    if (answer < 0 && (errno == EINTR || errno == ETIMEDOUT || errno == ESRCH))
        party->waits_ended++;
}

/* A call that may wait. */
static void make_call(struct party *party, const bc_process *process)
{
    static const char out[MOST];
    char in[MOST];
    int fd = (int)drawn(party, FDS), other = (int)drawn(party, FDS);
    size_t size = 1 + drawn(party, MOST);
    struct iovec buffers[] = { { .iov_base = in, .iov_len = size }, { .iov_base = in, .iov_len = 100 } };
    struct pollfd entries[] = { { .fd = fd, .events = POLLIN }, { .fd = other, .events = POLLIN } };
    switch (drawn(party, 9)) {
    case 0:
    case 1:
        judge(party, bc_read(process, fd & ~1, in, size));
        break;
    case 2:
    case 3:
        judge(party, bc_write(process, fd | 1, out, size));
        break;
    case 4:
        judge(party, bc_splice(process, fd & ~1, NULL, other | 1, NULL, size, 0));
        break;
    case 5:
        judge(party, bc_tee(process, fd & ~1, other | 1, size, 0));
        break;
    case 6:
        judge(party, bc_poll(process, entries, 2, (int)drawn(party, 4) - 1));
        break;
    case 7:
        judge(party, bc_readv(process, fd & ~1, buffers, 2));
        break;
    default:
        judge(party, fd = bc_open(process, "fifo", drawn(party, 2) == 0 ? O_RDONLY : O_WRONLY));
        if (fd >= 0)
            judge(party, bc_close(process, fd));
    }
}

/* A step that never waits, and may end the calls of others. */
static void disturb(struct party *party)
{
    struct party *other = &parties[drawn(party, THREADS)];
    bc_process child;
    int answer;
    switch (drawn(party, 6)) {
    case 0:
        judge(party, bc_interrupt_thread(shared, other->thread));
        break;
    case 1:
        judge(party, bc_interrupt(&party->process));
        break;
    case 2:
        judge(party, bc_exit(&party->process));
        need(bc_fork(&first, &party->process) > 0, "bc_fork");
        break;
    case 3:
        answer = bc_fork(&party->process, &child);
        judge(party, answer);
        if (answer > 0) {
            const struct timespec soon = in_milliseconds(drawn(party, 2));
            const bc_process timed = bc_until(&child, &soon);
            make_call(party, &timed);
            judge(party, bc_exit(&child));
        }
        break;
    case 4:
        judge(party, bc_dup2(&party->process, (int)drawn(party, FDS), 20));
        break;
    default:
        judge(party, bc_fcntl(&party->process, (int)drawn(party, FDS), F_SETPIPE_SZ, 4096 << drawn(party, 3)));
    }
}

static void *take_part(void *argument)
{
    struct party *party = argument;
    /* all threads are there from here on, so any may be interrupted */
    pthread_mutex_lock(&counting);
    pthread_mutex_unlock(&counting);
    while (party->calls < FEWEST || seconds() < until) {
        /* most calls have a deadline, and those without one are interrupted */
        const struct timespec soon = in_milliseconds(1 + drawn(party, 3));
        const bc_process timed = bc_until(&party->process, drawn(party, 4) == 0 ? NULL : &soon);
        make_call(party, &timed);
        if (drawn(party, 3) == 0)
            disturb(party);
    }
    judge(party, bc_exit(&party->process));
    return NULL;
}

/* Interrupts one thread after another, as all may wait without a deadline, until all are at their ends. */
static void *interrupt_all(void *argument)
{
    const int *ended = argument;
    bool all = false;
    for (int turn = 0; !all; turn++) {
        usleep(500);
        bc_interrupt_thread(shared, parties[turn % THREADS].thread);
        pthread_mutex_lock(&counting);
        all = *ended == THREADS;
        pthread_mutex_unlock(&counting);
    }
    return NULL;
}

/* The record, and whether all threads are at their ends. */
static FILE *record;
static bool all_ended;

/* Writes what is recorded to the file until all threads are at their ends, and then what is left. */
static void *keep_record(void *unused)
{
    static char bytes[5000];
    bool was_all;
    ssize_t count;
    (void)unused;
    do {
        pthread_mutex_lock(&counting);
        was_all = all_ended;
        pthread_mutex_unlock(&counting);
        while ((count = bc_recorded(shared, bytes, sizeof bytes)) > 0)
            HOLDS(fwrite(bytes, 1, (size_t)count, record) == (size_t)count);
        HOLDS(count == 0);
        usleep(1000);
    } while (!was_all);
    return NULL;
}

static pthread_t begin_record(const char *path)
{
    need((record = fopen(path, "wb")) != NULL, "a file");
    HOLDS(bc_record(shared, true) == 0);
    return thread_of(keep_record, NULL);
}

static void end_record(pthread_t keeper)
{
    pthread_mutex_lock(&counting);
    all_ended = true;
    pthread_mutex_unlock(&counting);
    pthread_join(keeper, NULL);
    HOLDS(fclose(record) == 0);
}

int main(int count, char **words)
{
    int ends[2], ended = 0;
    unsigned calls = 0, waits_ended = 0;
    shared = new_shared();
    pthread_t keeper = count > 2 ? begin_record(words[2]) : pthread_self();
    first = new_process(shared);
    for (int i = 0; i < PIPES; i++)
        HOLDS(bc_pipe2(&first, ends, 0) == 0);
    HOLDS(bc_mkfifo(&first, "fifo", 0600) == 0);
    until = seconds() + (count > 1 ? atof(words[1]) : 1.0);
    for (int i = 0; i < THREADS; i++) {
        parties[i].random = (uint32_t)i;
        need(bc_fork(&first, &parties[i].process) > 0, "bc_fork");
    }
    pthread_mutex_lock(&counting);
    for (int i = 0; i < THREADS; i++)
        parties[i].thread = thread_of(take_part, &parties[i]);
    pthread_mutex_unlock(&counting);
    pthread_t interrupter = thread_of(interrupt_all, &ended);
    for (int i = 0; i < THREADS; i++) {
        pthread_join(parties[i].thread, NULL);
        pthread_mutex_lock(&counting);
        ended++;
        pthread_mutex_unlock(&counting);
    }
    pthread_join(interrupter, NULL);
    for (int i = 0; i < THREADS; i++) {
        calls += parties[i].calls;
        waits_ended += parties[i].waits_ended;
    }
    printf("%u calls, of which %u ended before they were answered\n", calls, waits_ended);
    HOLDS(calls >= THREADS * FEWEST && waits_ended > 0);
    HOLDS(bc_exit(&first) == 0);
    if (count > 2)
        end_record(keeper);
    HOLDS(bc_shared_close(shared) == 0);
    return end();
}
