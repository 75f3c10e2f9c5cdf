/* What calls of threads cost over library/blocking, beside the host's pipe, and where no call waits beside a byte queue under a lock. */
#define _GNU_SOURCE
#include "bench.h"
#include "bindingclay_shared.h"
#include "queue.h"

#include <fcntl.h>
#include <stdatomic.h>
#include <unistd.h>

enum { BYTES = 64, PIECE = 64 * KIB, PIECES = 256 * MIB / PIECE, LONG_PIECES = 4 * PIECES, TURNS = 5000 };
/* At once there are more pairs, so that threads that begin on one processor have time to part. */
enum { MOST_THREADS = 4, PAIRS_AT_ONCE = 50000 };
enum { MOST_SLEEPERS = 1000, QUICK_SLEEPERS = 100, PIPES_OF_ONE = 100, SPARE_DESCRIPTORS = 64, STACK = 65536, WHILE_OF_HOST = 20000 };
enum { GROUPS = 4, MEMBERS = 20, MESSAGES = 50, MESSAGE = 100, THREADS_OF_GROUP = 2 * MEMBERS };

enum kind { FRONT, HOST, QUEUE };

/* Two pipes, of the front or of the host, or a queue. */
struct pipes {
    enum kind kind;
    bc_process process;
    int there[2], back[2];
    struct queue *queue;
};

static bc_shared *shared;

static ssize_t get(const struct pipes *pipes, int fd, void *into, size_t size)
{
    if (pipes->kind == QUEUE)
        return (ssize_t)queue_read(pipes->queue, into, size);
    return pipes->kind == HOST ? read(fd, into, size) : bc_read(&pipes->process, fd, into, size);
}

static ssize_t put(const struct pipes *pipes, int fd, const void *bytes, size_t size)
{
    if (pipes->kind == QUEUE)
        return (ssize_t)queue_write(pipes->queue, bytes, size);
    return pipes->kind == HOST ? write(fd, bytes, size) : bc_write(&pipes->process, fd, bytes, size);
}

static void new_pipe(const struct pipes *pipes, int ends[2])
{
    need((pipes->kind == HOST ? pipe2(ends, 0) : bc_pipe2(&pipes->process, ends, 0)) == 0, "a pipe");
}

static void close_end(const struct pipes *pipes, int end)
{
    need((pipes->kind == HOST ? close(end) : bc_close(&pipes->process, end)) == 0, "close");
}

static struct pipes new_pipes(enum kind kind)
{
    struct pipes pipes = { .kind = kind };
    if (kind == QUEUE) {
        need((pipes.queue = malloc(sizeof *pipes.queue)) != NULL && queue_open(pipes.queue), "a queue");
        return pipes;
    }
    if (kind == FRONT)
        need(bc_start(shared, &pipes.process) == 0, "bc_start");
    new_pipe(&pipes, pipes.there);
    new_pipe(&pipes, pipes.back);
    return pipes;
}

static void some_pairs(const struct pipes *pipes, int times)
{
    char bytes[BYTES] = "", into[BYTES];
    for (int i = 0; i < times; i++) {
        need(put(pipes, pipes->there[1], bytes, sizeof bytes) == sizeof bytes, "write");
        need(get(pipes, pipes->there[0], into, sizeof into) == sizeof into, "read");
    }
}

/* Threads that make pairs at once, each at pipes that it alone has, or all at the same ones. */
struct crowd {
    struct pipes pipes[MOST_THREADS];
    unsigned threads;
    bool is_one_pipe;
};

struct pairing {
    pthread_t thread;
    const struct pipes *pipes;
    pthread_barrier_t *start;
    int times;
    double begun, ended;
};

static void *make_pairs(void *argument)
{
    struct pairing *pairing = argument;
    pthread_barrier_wait(pairing->start);
    pairing->begun = now();
    some_pairs(pairing->pipes, pairing->times);
    pairing->ended = now();
    return NULL;
}

/* How long it took from the first begin to the last end. */
static double from_first_to_last(const struct pairing *pairings, unsigned count)
{
    double begun = pairings[0].begun, ended = pairings[0].ended;
    for (unsigned i = 1; i < count; i++) {
        begun = pairings[i].begun < begun ? pairings[i].begun : begun;
        ended = pairings[i].ended > ended ? pairings[i].ended : ended;
    }
    return ended - begun;
}

/* How long each thread takes for a pair, if so many of them make pairs at once. One alone isn't the program's only thread either: as long as there is
 * no other, the C library takes a lock without atomic steps. */
static double pairs_at_once(const void *subject, int times)
{
    const struct crowd *crowd = subject;
    struct pairing pairings[MOST_THREADS];
    pthread_barrier_t start;
    need(pthread_barrier_init(&start, NULL, crowd->threads) == 0, "a barrier");
    for (unsigned i = 0; i < crowd->threads; i++) {
        pairings[i] = (struct pairing){ .pipes = &crowd->pipes[crowd->is_one_pipe ? 0 : i], .start = &start, .times = times };
        need(pthread_create(&pairings[i].thread, NULL, make_pairs, &pairings[i]) == 0, "a thread");
    }
    for (unsigned i = 0; i < crowd->threads; i++)
        pthread_join(pairings[i].thread, NULL);
    pthread_barrier_destroy(&start);
    return from_first_to_last(pairings, crowd->threads) / times;
}

static void crowds(void)
{
    static struct crowd ours, hosts, queues;
    const struct side sides[] = { { "bindingclay", pairs_at_once, &ours }, { "host's pipe", pairs_at_once, &hosts },
        { "queue under a lock", pairs_at_once, &queues } };
    static const struct {
        const char *what;
        unsigned threads;
        bool is_one_pipe;
    } ROWS[] = { { "write and read, one thread", 1, true }, { "write and read, two threads at one pipe", 2, true },
        { "write and read, two threads at pipes of their own", 2, false }, { "write and read, four threads at one pipe", 4, true },
        { "write and read, four threads at pipes of their own", 4, false } };
    for (size_t i = 0; i < MOST_THREADS; i++) {
        ours.pipes[i] = new_pipes(FRONT);
        hosts.pipes[i] = new_pipes(HOST);
        queues.pipes[i] = new_pipes(QUEUE);
    }
    for (size_t i = 0; i < sizeof ROWS / sizeof *ROWS; i++) {
        ours.threads = hosts.threads = queues.threads = ROWS[i].threads;
        ours.is_one_pipe = hosts.is_one_pipe = queues.is_one_pipe = ROWS[i].is_one_pipe;
        compare(&(struct row){ "threads", ROWS[i].what, BYTES, "ns", 30, PAIRS_AT_ONCE }, sides, 3);
    }
}

/* A thread that goes along with the one that measures. */
struct other {
    pthread_t thread;
    const struct pipes *pipes;
    int times;
};

static void *send_back(void *argument)
{
    const struct other *other = argument;
    const struct pipes *pipes = other->pipes;
    char byte;
    for (int i = 0; i < other->times; i++) {
        need(get(pipes, pipes->there[0], &byte, 1) == 1, "read");
        need(put(pipes, pipes->back[1], &byte, 1) == 1, "write");
    }
    return NULL;
}

/* A byte that goes to another thread and back. */
static double ping_pong(const void *subject, int times)
{
    const struct pipes *pipes = subject;
    struct other other = { .pipes = pipes, .times = times };
    char byte = 'a';
    need(pthread_create(&other.thread, NULL, send_back, &other) == 0, "a thread");
    double begun = now();
    for (int i = 0; i < times; i++) {
        need(put(pipes, pipes->there[1], &byte, 1) == 1, "write");
        need(get(pipes, pipes->back[0], &byte, 1) == 1, "read");
    }
    double each = (now() - begun) / times;
    pthread_join(other.thread, NULL);
    return each;
}

static void *send_pieces(void *argument)
{
    static char bytes[PIECE];
    const struct other *other = argument;
    for (int i = 0; i < other->times; i++)
        need(put(other->pipes, other->pipes->there[1], bytes, PIECE) == PIECE, "write");
    return NULL;
}

/* 64 KiB of a stream from thread to thread. */
static double stream(const void *subject, int times)
{
    static char into[PIECE];
    const struct pipes *pipes = subject;
    struct other other = { .pipes = pipes, .times = times };
    double begun = now();
    need(pthread_create(&other.thread, NULL, send_pieces, &other) == 0, "a thread");
    for (size_t left = (size_t)times * PIECE; left > 0;) {
        ssize_t count = get(pipes, pipes->there[0], into, PIECE);
        need(count > 0, "read");
        left -= (size_t)count;
    }
    double each = (now() - begun) / times;
    pthread_join(other.thread, NULL);
    return each;
}

/* A group: each of its senders writes messages to each of its receivers, which has a pipe of its own. */
struct group {
    struct pipes pipes;
    int ends[MEMBERS][2];
    int messages;
};

/* One of the threads of a group: a sender, or the receiver of a pipe. */
struct member {
    pthread_t thread;
    const struct group *group;
    int pipe;
};

static void *send_to_all(void *argument)
{
    const struct member *member = argument;
    const struct group *group = member->group;
    static const char message[MESSAGE];
    for (int i = 0; i < group->messages * MEMBERS; i++)
        need(put(&group->pipes, group->ends[i % MEMBERS][1], message, MESSAGE) == MESSAGE, "write");
    return NULL;
}

static void *receive_all(void *argument)
{
    const struct member *member = argument;
    const struct group *group = member->group;
    char message[MESSAGE];
    for (ssize_t left = (ssize_t)MEMBERS * group->messages * MESSAGE; left > 0;) {
        ssize_t count = get(&group->pipes, group->ends[member->pipe][0], message, MESSAGE);
        need(count > 0, "read");
        left -= count;
    }
    return NULL;
}

static void new_group(struct group *group, enum kind kind, int messages)
{
    group->pipes.kind = kind;
    group->messages = messages;
    if (kind == FRONT)
        need(bc_start(shared, &group->pipes.process) == 0, "bc_start");
    for (int i = 0; i < MEMBERS; i++)
        new_pipe(&group->pipes, group->ends[i]);
}

static void end_group(struct group *group)
{
    for (int i = 0; i < MEMBERS; i++)
        for (int end = 0; end < 2; end++)
            close_end(&group->pipes, group->ends[i][end]);
    if (group->pipes.kind == FRONT)
        need(bc_exit(&group->pipes.process) == 0, "bc_exit");
}

/* A message of 100 bytes, among 160 threads in four groups. Each sender makes so many for each receiver of its group. */
static double messages(const void *subject, int times)
{
    static struct group groups[GROUPS];
    static struct member members[GROUPS * THREADS_OF_GROUP];
    const struct pipes *like = subject;
    for (int i = 0; i < GROUPS; i++)
        new_group(&groups[i], like->kind, times);
    double begun = now();
    for (int i = 0; i < GROUPS * THREADS_OF_GROUP; i++) {
        struct member *member = &members[i];
        *member = (struct member){ .group = &groups[i / THREADS_OF_GROUP], .pipe = i / 2 % MEMBERS };
        need(pthread_create(&member->thread, NULL, i % 2 == 0 ? receive_all : send_to_all, member) == 0, "a thread");
    }
    for (int i = 0; i < GROUPS * THREADS_OF_GROUP; i++)
        pthread_join(members[i].thread, NULL);
    double each = (now() - begun) / ((double)GROUPS * MEMBERS * MEMBERS * times);
    for (int i = 0; i < GROUPS; i++)
        end_group(&groups[i]);
    return each;
}

/* A thread that waits for the end of a pipe. */
struct sleeper {
    pthread_t thread;
    struct pipes pipes;
    int ends[2];
};

static struct sleeper sleepers[MOST_SLEEPERS];
static int sleeper_count = MOST_SLEEPERS;
static atomic_int fallen_asleep;

static void *sleep_long(void *argument)
{
    const struct sleeper *sleeper = argument;
    char byte;
    atomic_fetch_add(&fallen_asleep, 1);
    need(get(&sleeper->pipes, sleeper->ends[0], &byte, 1) == 0, "the end of a pipe");
    return NULL;
}

/* Waits until all of them wait. What the host's threads do isn't told, so they have a while. */
static void await_sleepers(enum kind kind)
{
    while (atomic_load(&fallen_asleep) < sleeper_count)
        usleep(1000);
    for (int i = 0; kind == FRONT && i < sleeper_count; i += PIPES_OF_ONE)
        while (bc_waiting(&sleepers[i].pipes.process) < PIPES_OF_ONE)
            usleep(1000);
    if (kind == HOST)
        usleep(WHILE_OF_HOST);
}

/* Begins a thread with a small stack, as there may be many. */
static pthread_t small_thread(void *(*start)(void *), void *argument)
{
    pthread_attr_t attributes;
    pthread_t thread;
    need(pthread_attr_init(&attributes) == 0 && pthread_attr_setstacksize(&attributes, STACK) == 0, "a stack");
    need(pthread_create(&thread, &attributes, start, argument) == 0, "a thread");
    pthread_attr_destroy(&attributes);
    return thread;
}

/* Many threads that wait, each at a pipe of its own. */
static void put_to_sleep(enum kind kind)
{
    atomic_store(&fallen_asleep, 0);
    for (int i = 0; i < sleeper_count; i++) {
        struct sleeper *sleeper = &sleepers[i];
        sleeper->pipes = (struct pipes){ .kind = kind };
        if (kind == FRONT && i % PIPES_OF_ONE == 0)
            need(bc_start(shared, &sleeper->pipes.process) == 0, "bc_start");
        else if (kind == FRONT)
            sleeper->pipes.process = sleeper[-1].pipes.process;
        new_pipe(&sleeper->pipes, sleeper->ends);
        sleeper->thread = small_thread(sleep_long, sleeper);
    }
    await_sleepers(kind);
}

static void wake(enum kind kind)
{
    for (int i = 0; i < sleeper_count; i++)
        close_end(&sleepers[i].pipes, sleepers[i].ends[1]);
    for (int i = 0; i < sleeper_count; i++) {
        pthread_join(sleepers[i].thread, NULL);
        close_end(&sleepers[i].pipes, sleepers[i].ends[0]);
    }
    for (int i = 0; kind == FRONT && i < sleeper_count; i += PIPES_OF_ONE)
        need(bc_exit(&sleepers[i].pipes.process) == 0, "bc_exit");
}

/* A byte there and back, beside many threads that wait at other pipes. */
static double beside_sleepers(const void *subject, int times)
{
    const struct pipes *pipes = subject;
    put_to_sleep(pipes->kind);
    double each = ping_pong(pipes, times);
    wake(pipes->kind);
    return each;
}

static void sleeping(const struct pipes *ours, const struct pipes *host)
{
    const struct side sides[] = { { "bindingclay", beside_sleepers, ours }, { "the same without them", ping_pong, ours },
        { "host's pipe", beside_sleepers, host } };
    sleeper_count = pace == QUICK ? QUICK_SLEEPERS : MOST_SLEEPERS;
    size_t size = (size_t)sleeper_count, count = most_descriptors() < 2 * size + SPARE_DESCRIPTORS ? 2 : 3;
    compare(&(struct row){ "threads", "a byte there and back, beside threads that wait", size, "ns", 12, TURNS }, sides, count);
}

/* Workers that take jobs from one pipe, and answer by another. A job is a byte, of which one ends the worker. */
struct pool {
    struct pipes pipes;
    unsigned workers;
};

enum { JOB = 'j', NO_MORE = 'n' };

static void *work(void *argument)
{
    const struct pool *pool = argument;
    char job;
    while (get(&pool->pipes, pool->pipes.there[0], &job, 1) == 1 && job != NO_MORE)
        need(put(&pool->pipes, pool->pipes.back[1], &job, 1) == 1, "write");
    return NULL;
}

/* A job for one of them, and its answer. */
static double jobs(const void *subject, int times)
{
    static pthread_t workers[MOST_SLEEPERS];
    struct pool pool = *(const struct pool *)subject;
    const struct pipes *pipes = &pool.pipes;
    char job = JOB, no_more = NO_MORE;
    for (unsigned i = 0; i < pool.workers; i++)
        workers[i] = small_thread(work, &pool);
    usleep(WHILE_OF_HOST);
    double begun = now();
    for (int i = 0; i < times; i++) {
        need(put(pipes, pipes->there[1], &job, 1) == 1, "write");
        need(get(pipes, pipes->back[0], &job, 1) == 1, "read");
    }
    double each = (now() - begun) / times;
    for (unsigned i = 0; i < pool.workers; i++)
        need(put(pipes, pipes->there[1], &no_more, 1) == 1, "write");
    for (unsigned i = 0; i < pool.workers; i++)
        pthread_join(workers[i], NULL);
    return each;
}

static void pools(void)
{
    static const unsigned WORKERS[] = { 63, 300, 1000 };
    struct pool ours = { .pipes = new_pipes(FRONT) }, host = { .pipes = new_pipes(HOST) };
    const struct side sides[] = { { "bindingclay", jobs, &ours }, { "host's pipe", jobs, &host } };
    for (size_t i = 0; i < (pace == QUICK ? 1 : sizeof WORKERS / sizeof *WORKERS); i++) {
        ours.workers = host.workers = WORKERS[i];
        compare(&(struct row){ "threads", "a job for one of so many threads, and its answer", WORKERS[i], "ns", 12, TURNS }, sides, 2);
    }
}

int main(int count, char **words)
{
    begin(count, words);
    need(bc_shared_open(NULL, &shared) == 0, "bc_shared_open");
    struct pipes ours = new_pipes(FRONT), host = new_pipes(HOST);
    const struct side there_and_back[] = { { "bindingclay", ping_pong, &ours }, { "host's pipe", ping_pong, &host } };
    const struct side streams[] = { { "bindingclay", stream, &ours }, { "host's pipe", stream, &host } };
    const struct side groups[] = { { "bindingclay", messages, &ours }, { "host's pipe", messages, &host } };
    bool is_long = pace == LONG;
    const struct row of_stream = { "threads", is_long ? "64 KiB of a stream of 1 GiB" : "64 KiB of a stream of 256 MiB", PIECE, "ns", 30,
        is_long ? LONG_PIECES : PIECES };
    crowds();
    compare(&(struct row){ "threads", "a byte there and back", 1, "ns", 30, TURNS }, there_and_back, 2);
    compare(&of_stream, streams, 2);
    compare(&(struct row){ "threads", "a message among 160 threads, in four groups", MESSAGE, "ns", 30, MESSAGES }, groups, 2);
    sleeping(&ours, &host);
    pools();
    return 0;
}
