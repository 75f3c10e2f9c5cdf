/* What calls cost that don't wait: pairs of a write and a read, pipes, polls. Beside them are the host's own, and a byte queue under a lock. */
#define _GNU_SOURCE
#include "bench.h"
#include "queue.h"

#include <fcntl.h>
#include <poll.h>
#include <unistd.h>

enum { LARGEST = 64 * KIB, PIECE = 4 * KIB, PIECES = LARGEST / PIECE, MOST_ENTRIES = 256, QUARTER_PAGE = 1024 };

/* What is written, and what is read into. Each is longer than is used, so that they and the handle stand at different places of their pages. A load
 * waits for a store a little before it to the same place of another page, as if the two met. A pair of 512 bytes took 2 ns longer for it. */
static uint8_t data[LARGEST + QUARTER_PAGE], into[MIB + QUARTER_PAGE];

/* A pipe of ours, one of the host and a queue, and how many bytes go through them at once. */
struct through {
    bindingclay clay;
    bindingclay_ends ends;
    int host[2];
    struct queue *queue;
    size_t size;
};

static double our_pairs(const void *subject, int times)
{
    const struct through through = *(const struct through *)subject;
    double begun = now();
    for (int i = 0; i < times; i++) {
        done(bindingclay_write(through.clay, 1, through.ends.write_end, data, through.size));
        done(bindingclay_read(through.clay, 1, through.ends.read_end, into, through.size));
    }
    return (now() - begun) / times;
}

static double host_pairs(const void *subject, int times)
{
    const struct through through = *(const struct through *)subject;
    double begun = now();
    for (int i = 0; i < times; i++) {
        as_host(write(through.host[1], data, through.size));
        as_host(read(through.host[0], into, through.size));
    }
    return (now() - begun) / times;
}

static double queue_pairs(const void *subject, int times)
{
    const struct through through = *(const struct through *)subject;
    double begun = now();
    for (int i = 0; i < times; i++) {
        need(queue_write(through.queue, data, through.size) == through.size, "a queue");
        need(queue_read(through.queue, into, through.size) == through.size, "a queue");
    }
    return (now() - begun) / times;
}

static void pairs(struct through through)
{
    static const struct {
        size_t size;
        int times;
    } SIZES[] = { { 1, 1000 }, { 64, 1000 }, { 512, 1000 }, { 4096, 500 }, { LARGEST, 30 } };
    const struct side sides[] = { { "bindingclay", our_pairs, &through }, { "host's pipe", host_pairs, &through },
        { "queue under a lock", queue_pairs, &through } };
    for (size_t i = 0; i < sizeof SIZES / sizeof *SIZES; i++) {
        through.size = SIZES[i].size;
        compare(&(struct row){ "bytes", "write and read", through.size, "ns", 500, SIZES[i].times }, sides, 3);
    }
}

static void packets(struct through through)
{
    const struct side sides[] = { { "bindingclay", our_pairs, &through }, { "host's packet pipe", host_pairs, &through } };
    as_host(pipe2(through.host, O_DIRECT));
    done(bindingclay_pipe2(through.clay, 1, BINDINGCLAY_O_DIRECT, &through.ends));
    through.size = 64;
    compare(&(struct row){ "bytes", "write and read of a packet", through.size, "ns", 500, 1000 }, sides, 2);
    through.size = 4096;
    compare(&(struct row){ "bytes", "write and read of a packet", through.size, "ns", 500, 500 }, sides, 2);
}

/* The same of a kernel whose steps are recorded. What was recorded is handed out before a sample. */
static double recorded_pairs(const void *subject, int times)
{
    const struct through *through = subject;
    while (done(bindingclay_recorded(through->clay, into, MIB)) > 0)
        continue;
    return our_pairs(subject, times);
}

static void records(struct through through)
{
    struct through recorded = through;
    const struct side sides[] = { { "bindingclay", recorded_pairs, &recorded }, { "host's pipe", host_pairs, &through },
        { "without a record", our_pairs, &through } };
    recorded.clay = new_kernel();
    done(bindingclay_record(recorded.clay, true));
    done(bindingclay_start(recorded.clay));
    done(bindingclay_pipe(recorded.clay, 1, false, &recorded.ends));
    recorded.size = through.size = 64;
    compare(&(struct row){ "bytes", "write and read, recorded", through.size, "ns", 500, 200 }, sides, 3);
    bindingclay_free(recorded.clay);
}

/* A pipe that is filled piece by piece, and emptied so. */
static double our_fills(const void *subject, int times)
{
    const struct through through = *(const struct through *)subject;
    double begun = now();
    for (int i = 0; i < times; i++) {
        for (int piece = 0; piece < PIECES; piece++)
            done(bindingclay_write(through.clay, 1, through.ends.write_end, data, PIECE));
        for (int piece = 0; piece < PIECES; piece++)
            done(bindingclay_read(through.clay, 1, through.ends.read_end, into, PIECE));
    }
    return (now() - begun) / times;
}

static double host_fills(const void *subject, int times)
{
    const struct through through = *(const struct through *)subject;
    double begun = now();
    for (int i = 0; i < times; i++) {
        for (int piece = 0; piece < PIECES; piece++)
            as_host(write(through.host[1], data, PIECE));
        for (int piece = 0; piece < PIECES; piece++)
            as_host(read(through.host[0], into, PIECE));
    }
    return (now() - begun) / times;
}

static double queue_fills(const void *subject, int times)
{
    const struct through through = *(const struct through *)subject;
    double begun = now();
    for (int i = 0; i < times; i++) {
        for (int piece = 0; piece < PIECES; piece++)
            need(queue_write(through.queue, data, PIECE) == PIECE, "a queue");
        for (int piece = 0; piece < PIECES; piece++)
            need(queue_read(through.queue, into, PIECE) == PIECE, "a queue");
    }
    return (now() - begun) / times;
}

static void fills(struct through through)
{
    const struct side sides[] = { { "bindingclay", our_fills, &through }, { "host's pipe", host_fills, &through },
        { "queue under a lock", queue_fills, &through } };
    compare(&(struct row){ "bytes", "fill and drain by 4,096 bytes", LARGEST, "ns", 500, 50 }, sides, 3);
}

/* A pipe that is made, and its two ends closed. */
static double our_pipes(const void *subject, int times)
{
    const struct through through = *(const struct through *)subject;
    double begun = now();
    for (int i = 0; i < times; i++) {
        bindingclay_ends ends;
        done(bindingclay_pipe(through.clay, 1, false, &ends));
        done(bindingclay_close(through.clay, 1, ends.read_end));
        done(bindingclay_close(through.clay, 1, ends.write_end));
    }
    return (now() - begun) / times;
}

static double host_pipes(const void *subject, int times)
{
    (void)subject;
    double begun = now();
    for (int i = 0; i < times; i++) {
        int host[2];
        as_host(pipe(host));
        as_host(close(host[0]));
        as_host(close(host[1]));
    }
    return (now() - begun) / times;
}

/* Entries that are polled, all of them ends of one pipe, of which every other is ready. */
struct polled {
    bindingclay clay;
    size_t count;
    bindingclay_pollfd *entries;
    struct pollfd *host_entries;
};

static double our_polls(const void *subject, int times)
{
    const struct polled polled = *(const struct polled *)subject;
    double begun = now();
    for (int i = 0; i < times; i++)
        done(bindingclay_poll(polled.clay, 1, polled.entries, polled.count, false));
    return (now() - begun) / times;
}

static double host_polls(const void *subject, int times)
{
    const struct polled polled = *(const struct polled *)subject;
    double begun = now();
    for (int i = 0; i < times; i++)
        as_host(poll(polled.host_entries, polled.count, 0));
    return (now() - begun) / times;
}

static void polls(const struct through *through)
{
    static const struct {
        size_t count;
        int times;
    } COUNTS[] = { { 2, 1000 }, { 16, 500 }, { MOST_ENTRIES, 60 } };
    bindingclay_pollfd entries[MOST_ENTRIES];
    struct pollfd host_entries[MOST_ENTRIES];
    struct polled polled = { through->clay, 0, entries, host_entries };
    const struct side sides[] = { { "bindingclay", our_polls, &polled }, { "host's poll", host_polls, &polled } };
    for (size_t i = 0; i < MOST_ENTRIES; i++) {
        int32_t end = i % 2 == 0 ? through->ends.read_end : through->ends.write_end;
        entries[i] = (bindingclay_pollfd){ .fd = end, .events = POLLIN | POLLOUT };
        host_entries[i] = (struct pollfd){ .fd = through->host[i % 2], .events = POLLIN | POLLOUT };
    }
    for (size_t i = 0; i < sizeof COUNTS / sizeof *COUNTS; i++) {
        polled.count = COUNTS[i].count;
        compare(&(struct row){ "polls", "poll, by entries", polled.count, "ns", 500, COUNTS[i].times }, sides, 2);
    }
}

int main(int count, char **words)
{
    static struct queue queue;
    struct through through = { .clay = new_kernel(), .queue = &queue };
    const struct side pipes[] = { { "bindingclay", our_pipes, &through }, { "host's pipe", host_pipes, &through } };
    begin(count, words);
    need(queue_open(&queue), "a queue");
    as_host(pipe(through.host));
    done(bindingclay_start(through.clay));
    done(bindingclay_pipe(through.clay, 1, false, &through.ends));
    for (size_t i = 0; i < sizeof data; i++)
        data[i] = (uint8_t)(i * 7);
    pairs(through);
    packets(through);
    fills(through);
    records(through);
    compare(&(struct row){ "pipes", "pipe and two closes", 2, "ns", 500, 200 }, pipes, 2);
    polls(&through);
    bindingclay_free(through.clay);
    return 0;
}
