/* How many bytes of memory idle pipes, names and waiting calls take. A kernel that makes a thousand of them is asked before and behind what it
 * holds. */
#define _GNU_SOURCE
#include "bench.h"
#include "queue.h"

#include <fcntl.h>
#include <poll.h>

enum { MANY = 1000, PIPES_OF_ONE = 100 };

/* A pipe, and the process that has its ends. */
struct idle {
    uint32_t pid;
    bindingclay_ends ends;
};

static struct idle idle[MANY];

static void new_pipes(bindingclay clay)
{
    for (size_t i = 0; i < MANY; i++)
        done(bindingclay_pipe(clay, idle[i].pid, false, &idle[i].ends));
}

static void new_fifos(bindingclay clay)
{
    for (size_t i = 0; i < MANY; i++) {
        uint8_t name[8];
        int size = snprintf((char *)name, sizeof name, "%04zu", i);
        done(bindingclay_mkfifo(clay, 1, name, (size_t)size));
    }
}

static void new_files(bindingclay clay)
{
    for (size_t i = 0; i < MANY; i++) {
        uint8_t name[8];
        int size = snprintf((char *)name, sizeof name, "%04zu", i);
        uint64_t fd = done(bindingclay_open_name(clay, 1, name, (size_t)size, O_RDWR | O_CREAT));
        done(bindingclay_close(clay, 1, (int32_t)fd));
    }
}

static void new_reads(bindingclay clay)
{
    uint8_t into[1];
    for (size_t i = 0; i < MANY; i++)
        parked(bindingclay_read(clay, idle[i].pid, idle[i].ends.read_end, into, sizeof into));
}

static void new_polls(bindingclay clay)
{
    for (size_t i = 0; i < MANY; i++) {
        const struct idle *one = &idle[i];
        bindingclay_pollfd entries[] = { { one->ends.read_end, POLLIN, 0 }, { idle[i ^ 1].ends.read_end, POLLIN, 0 } };
        parked(bindingclay_poll(clay, one->pid, entries, 2, true));
    }
}

/* What is made of each kind, and whether there have to be pipes before. */
struct kind {
    const char *what;
    void (*make)(bindingclay clay);
    bool wants_pipes;
};

static double held_by_each(const void *subject, int times)
{
    const struct kind *kind = subject;
    bindingclay clay = new_kernel();
    uint32_t pid = 0;
    (void)times;
    for (size_t i = 0; i < MANY; i++) {
        if (i % PIPES_OF_ONE == 0)
            pid = (uint32_t)done(bindingclay_start(clay));
        idle[i].pid = pid;
    }
    if (kind->wants_pipes)
        new_pipes(clay);
    uint64_t before = bindingclay_memory(clay).held;
    kind->make(clay);
    double each = (double)(bindingclay_memory(clay).held - before) / MANY;
    bindingclay_free(clay);
    return each;
}

static double queue_size(const void *subject, int times)
{
    (void)subject;
    (void)times;
    return sizeof(struct queue);
}

int main(int count, char **words)
{
    static const struct kind PIPES = { "an idle pipe", new_pipes, false };
    static const struct kind OTHERS[] = { { "a FIFO with a name of 4 bytes", new_fifos, false },
        { "an empty file with a name of 4 bytes", new_files, false }, { "a waiting read", new_reads, true },
        { "a waiting poll of 2 entries", new_polls, true } };
    const struct side pipes[] = { { "bindingclay", held_by_each, &PIPES }, { "queue under a lock", queue_size, NULL } };
    begin(count, words);
    compare(&(struct row){ "memory", PIPES.what, MANY, "bytes", 1, 1 }, pipes, 2);
    for (size_t i = 0; i < sizeof OTHERS / sizeof *OTHERS; i++) {
        const struct side other = { "bindingclay", held_by_each, &OTHERS[i] };
        compare(&(struct row){ "memory", OTHERS[i].what, MANY, "bytes", 1, 1 }, &other, 1);
    }
    return 0;
}
