/* The front for threads within budgets and with each request for memory refused in turn: nothing waits for ever, and nothing is left. Threads that
 * meet a refusal exit their processes, which takes no memory, and so the others come to their ends. An alarm ends a program that waits longer. */
#define _GNU_SOURCE
#include "counted.h"
#include "shared.h"

/* Link with -Wl,--wrap=calloc too. */
void *__wrap_calloc(size_t count, size_t size)
{
    void *block = __wrap_malloc(count * size);
    return block != NULL ? memset(block, 0, count * size) : NULL;
}

/* How many bytes go through, and how long a run may take, in seconds. */
enum { BYTES = 100000, PIECE = 7000, LONGEST = 60 };

/* A writer, a mover and a reader, with a pipe between each two. */
struct run {
    bc_process writer, mover, reader;
    /* Whether all bytes came to each. */
    bool wrote, moved, read;
};

/* Whether a call was refused: for want of memory, or as another thread went for want of it. */
static bool fails(ssize_t answer)
{
    if (answer < 0)
        HOLDS(errno == ENOMEM || errno == EPIPE);
    return answer < 0;
}

static void *run_writer(void *argument)
{
    struct run *run = argument;
    static const char bytes[BYTES];
    ssize_t put = 0, all = 0;
    while (all < BYTES && !fails(put = bc_write(&run->writer, 1, bytes, (size_t)(BYTES - all))))
        all += put;
    run->wrote = all == BYTES;
    bc_exit(&run->writer);
    return NULL;
}

static void *run_mover(void *argument)
{
    struct run *run = argument;
    ssize_t moved = 0, all = 0;
    while (!fails(moved = bc_splice(&run->mover, 0, NULL, 3, NULL, PIECE, 0)) && moved > 0)
        all += moved;
    run->moved = all == BYTES;
    bc_exit(&run->mover);
    return NULL;
}

static void *run_reader(void *argument)
{
    struct run *run = argument;
    char into[PIECE];
    struct iovec buffers[] = { { .iov_base = into, .iov_len = 1000 }, { .iov_base = into + 1000, .iov_len = PIECE - 1000 } };
    struct pollfd entry = { .fd = 2, .events = POLLIN };
    ssize_t got = 0, all = 0;
    while (!fails(bc_poll(&run->reader, &entry, 1, -1)) && !fails(got = bc_readv(&run->reader, 2, buffers, 2)) && got > 0)
        all += got;
    run->read = all == BYTES;
    bc_exit(&run->reader);
    return NULL;
}

static void keep(const bc_process *process, int fd)
{
    for (int other = 0; other < 4; other++)
        if (other != fd)
            HOLDS(bc_close(process, other) == 0);
}

/* Makes the processes. Returns false if memory runs out before. */
static bool made(bc_shared *shared, struct run *run)
{
    int ends[2];
    bool is_there = bc_start(shared, &run->mover) == 0 && bc_pipe2(&run->mover, ends, 0) == 0 && bc_pipe2(&run->mover, ends, 0) == 0
        && bc_fork(&run->mover, &run->writer) > 0 && bc_fork(&run->mover, &run->reader) > 0;
    if (!is_there) {
        HOLDS(errno == ENOMEM);
        return false;
    }
    keep(&run->writer, 1);
    keep(&run->reader, 2);
    HOLDS(bc_close(&run->mover, 1) == 0 && bc_close(&run->mover, 2) == 0);
    return true;
}

/* One run, within limits, and with one request refused behind those that are granted, if that isn't below 0. Returns whether all bytes went
 * through. */
static bool went_through(const bindingclay_limits *limits, long granted)
{
    struct run run = { .wrote = false };
    bc_shared *shared;
    pthread_t threads[3];
    long before = atomic_load(&blocks_left);
    alarm(LONGEST);
    if (bc_shared_open(limits, &shared) != 0) {
        HOLDS(errno == ENOMEM && atomic_load(&blocks_left) == before);
        return false;
    }
    if (made(shared, &run)) {
        refuse(granted, granted < 0 ? 0 : 1);
        threads[0] = thread_of(run_reader, &run);
        threads[1] = thread_of(run_mover, &run);
        threads[2] = thread_of(run_writer, &run);
        for (int i = 0; i < 3; i++)
            pthread_join(threads[i], NULL);
        refuse_none();
    }
    HOLDS(bc_shared_close(shared) == 0);
    HOLDS(atomic_load(&blocks_left) == before);
    return run.wrote && run.moved && run.read;
}

static bc_process opener;

static void *open_fifo(void *argument)
{
    int *fd = argument;
    *fd = bc_open(&opener, "fifo", O_RDONLY);
    HOLDS(*fd >= 0 || errno == ENOMEM);
    return NULL;
}

/* An open waits for another one, which a refusal makes fail once. */
static bool opened(long granted)
{
    bc_shared *shared = new_shared();
    int fd = -1;
    opener = new_process(shared);
    HOLDS(bc_mkfifo(&opener, "fifo", 0600) == 0);
    pthread_t thread = thread_of(open_fifo, &fd);
    until_waiting(&opener, 1);
    refuse(granted, 1);
    int other = bc_open(&opener, "fifo", O_WRONLY);
    bool is_there = other >= 0;
    HOLDS(is_there || errno == ENOMEM);
    if (!is_there)
        HOLDS(bc_open(&opener, "fifo", O_WRONLY) >= 0);
    pthread_join(thread, NULL);
    refuse_none();
    is_there = is_there && fd >= 0 && refused == 0;
    HOLDS(bc_exit(&opener) == 0 && bc_shared_close(shared) == 0);
    return is_there;
}

int main(void)
{
    bindingclay_limits limits = BINDINGCLAY_LIMITS;
    int refused_runs = 0, budgets = 0;
    HOLDS(went_through(NULL, -1));
    for (long granted = 0; granted < 300; granted += granted < 60 ? 1 : 7)
        refused_runs += !went_through(NULL, granted);
    for (limits.memory = 0; limits.memory < 300000; limits.memory += 3000)
        budgets += !went_through(&limits, -1);
    limits.memory = 1 << 20;
    HOLDS(went_through(&limits, -1));
    long granted = 0;
    while (!opened(granted) && granted < 100)
        granted++;
    HOLDS(granted > 0 && granted < 100);
    printf("%d runs ended by a refusal, %d by a budget\n", refused_runs, budgets);
    HOLDS(refused_runs > 0 && budgets > 0);
    return end();
}
