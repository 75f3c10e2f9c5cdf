/* What calls cost beside many others that wait at the same pipe. A token is a byte for the first of so many readers, who reads it and waits again. A
 * step in vain changes nothing at the pipe, and bindingclay_next_ready after it has to find that out. Beside each is the same among few. */
#define _GNU_SOURCE
#include "bench.h"

#include <poll.h>
#include <unistd.h>

/* How many bytes a new pipe can hold; the sizes of small writes, none of which fits in the room that is left; the entries of a large poll. */
enum { WHOLE = 65536, ROOM = 64, SIZES = 64, ENTRIES = 256, FEW = 10, TIMES = 1000 };

/* A pipe at which calls wait that give to another pipe, if they give anything. */
struct crowd {
    bindingclay clay;
    uint32_t pid;
    bindingclay_ends ends, other;
};

enum kind { READS, LARGE_WRITES, SMALL_WRITES, POLLS, LARGE_POLLS, SPLICES, TEES, KINDS };

/* What waits, and how many bytes are in the pipe. */
static const struct {
    const char *what;
    uint32_t bytes;
} kinds[KINDS] = {
    [READS] = { "a step in vain beside reads", 0 },
    [LARGE_WRITES] = { "a step in vain beside large writes", WHOLE },
    [SMALL_WRITES] = { "a step in vain beside writes of 64 sizes", WHOLE - ROOM },
    [POLLS] = { "a step in vain beside polls", 0 },
    [LARGE_POLLS] = { "a step in vain beside polls of 256 entries", 0 },
    [SPLICES] = { "a step in vain beside splices to one pipe", 0 },
    [TEES] = { "a step in vain beside tees to one pipe", 0 },
};

static uint8_t bytes[WHOLE];

static bindingclay_answer polls(const struct crowd *crowd, size_t count)
{
    bindingclay_pollfd entries[ENTRIES];
    for (size_t i = 0; i < count; i++)
        entries[i] = (bindingclay_pollfd){ .fd = i % 2 == 0 ? crowd->ends.read_end : crowd->other.read_end, .events = POLLIN };
    return bindingclay_poll(crowd->clay, crowd->pid, entries, count, true);
}

/* A call of the kind begins to wait, as one of many. */
static void wait_there(const struct crowd *crowd, enum kind kind, size_t number)
{
    bindingclay clay = crowd->clay;
    uint32_t pid = crowd->pid;
    switch (kind) {
    case READS:
        parked(bindingclay_read(clay, pid, crowd->ends.read_end, bytes, 1));
        break;
    case LARGE_WRITES:
        parked(bindingclay_write(clay, pid, crowd->ends.write_end, bytes, WHOLE));
        break;
    case SMALL_WRITES:
        parked(bindingclay_write(clay, pid, crowd->ends.write_end, bytes, ROOM + 1 + number % SIZES));
        break;
    case POLLS:
        parked(polls(crowd, 1));
        break;
    case LARGE_POLLS:
        parked(polls(crowd, ENTRIES));
        break;
    case SPLICES:
        parked(bindingclay_splice(clay, pid, crowd->ends.read_end, NULL, crowd->other.write_end, NULL, 1, 0));
        break;
    default:
        parked(bindingclay_tee(clay, pid, crowd->ends.read_end, crowd->other.write_end, 1, 0));
    }
}

static struct crowd new_crowd(enum kind kind, size_t count)
{
    struct crowd crowd = { .clay = new_kernel() };
    crowd.pid = (uint32_t)done(bindingclay_start(crowd.clay));
    done(bindingclay_pipe(crowd.clay, crowd.pid, false, &crowd.ends));
    done(bindingclay_pipe(crowd.clay, crowd.pid, false, &crowd.other));
    if (kinds[kind].bytes > 0)
        done(bindingclay_write(crowd.clay, crowd.pid, crowd.ends.write_end, bytes, kinds[kind].bytes));
    for (size_t i = 0; i < count; i++)
        wait_there(&crowd, kind, i);
    need(bindingclay_next_ready(crowd.clay, 0).kind == BINDINGCLAY_NO_CALL, "calls of which none can make progress");
    return crowd;
}

static double tokens(const void *subject, int times)
{
    const struct crowd *crowd = subject;
    double begun = now();
    for (int i = 0; i < times; i++) {
        done(bindingclay_write(crowd->clay, crowd->pid, crowd->ends.write_end, bytes, 1));
        done(bindingclay_resume(crowd->clay, done(bindingclay_next_ready(crowd->clay, 0)), bytes, 1));
        wait_there(crowd, READS, 0);
    }
    return (now() - begun) / times;
}

static double steps_in_vain(const void *subject, int times)
{
    const struct crowd *crowd = subject;
    double begun = now();
    for (int i = 0; i < times; i++) {
        done(bindingclay_set_fl(crowd->clay, crowd->pid, crowd->ends.read_end, 0));
        need(bindingclay_next_ready(crowd->clay, 0).kind == BINDINGCLAY_NO_CALL, "a step in vain");
    }
    return (now() - begun) / times;
}

static double questions(const void *subject, int times)
{
    const struct crowd *crowd = subject;
    double begun = now();
    for (int i = 0; i < times; i++)
        need(bindingclay_next_ready(crowd->clay, 0).kind == BINDINGCLAY_NO_CALL, "a question in vain");
    return (now() - begun) / times;
}

/* The nanoseconds of a call that waits, as its process exits with so many, which stand in their queues. */
static double exits(const void *subject, int times)
{
    size_t count = *(const size_t *)subject;
    double took = 0;
    for (int i = 0; i < times; i++) {
        struct crowd crowd = new_crowd(READS, count);
        double begun = now();
        done(bindingclay_exit(crowd.clay, crowd.pid));
        took += now() - begun;
        bindingclay_free(crowd.clay);
    }
    return took / times / (double)count;
}

/* A row of many calls of a kind, beside few. */
static void row_of(const char *what, double (*sample)(const void *subject, int times), enum kind kind, size_t count)
{
    struct crowd few = new_crowd(kind, FEW), many = new_crowd(kind, count);
    struct side sides[] = { { "bindingclay", sample, &many }, { "the same beside 10", sample, &few } };
    compare(&(struct row){ "queues", what, count, "ns", 100, TIMES }, sides, 2);
    bindingclay_free(few.clay);
    bindingclay_free(many.clay);
}

int main(int count, char **words)
{
    static const size_t READERS[] = { 100, 1000, 10000, 100000 };
    begin(count, words);
    size_t most = pace == QUICK ? 1000 : 100000;
    for (size_t i = 0; i < sizeof READERS / sizeof *READERS && READERS[i] <= most; i++)
        row_of("a token among readers", tokens, READS, READERS[i]);
    /* a large poll takes 4,096 bytes */
    for (enum kind kind = READS; kind < KINDS; kind++)
        row_of(kinds[kind].what, steps_in_vain, kind, kind == LARGE_POLLS ? most / 10 : most);
    row_of("next_ready where nothing was touched", questions, READS, most);
    size_t leaving = 10 * most, staying = FEW;
    struct side sides[] = { { "bindingclay", exits, &leaving }, { "the same of 10", exits, &staying } };
    compare(&(struct row){ "queues", "a read that waits, at the exit of its process", leaving, "ns", 3, 1 }, sides, 2);
    return 0;
}
