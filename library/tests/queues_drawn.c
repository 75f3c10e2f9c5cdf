/* The queues of calls that wait, beside each call asked by itself: after every step of a drawn course bindingclay_next_ready names just the least
 * of the calls that bindingclay_can_progress tells of, from 0 and from a drawn number on. Calls of all kinds wait, with polls of up to 16 entries.
 * Now and then memory is refused to a step, and in some rounds to half of the steps and to all questions, so that calls wait without places.
 *
 *   queues_drawn STEPS */
#define _GNU_SOURCE
#include "check.h"
#include "counted.h"

#include <fcntl.h>
#include <limits.h>
#include <poll.h>

enum { PROCESSES = 4, PIPES = 5, FDS = 14, ENTRIES = 16, SIZE = 6000, MANY = 60, KINDS = 7, ROUND = 250 };

static bindingclay clay;
static uint32_t state = 1;

/* The numbers of the calls that wait, in rising order. */
static uint64_t waiting[MANY + 1];
static int count;

/* How many calls began to wait, by what facts tell of their kinds; how many questions named one; and how many were refused memory. */
static long began[KINDS], named, refused_questions;

static uint32_t drawn(uint32_t below)
{
    state = (uint32_t)((state * UINT64_C(1103515245) + 12345) % 2147483648u);
    return state / 65536 % below;
}

static int32_t drawn_fd(void)
{
    return (int32_t)drawn(FDS);
}

static bindingclay_answer polls(uint32_t pid)
{
    static const short EVENTS[] = { 0, POLLIN, POLLOUT, POLLIN | POLLOUT };
    bindingclay_pollfd entries[ENTRIES];
    size_t entry_count = 1 + drawn(ENTRIES);
    for (size_t i = 0; i < entry_count; i++)
        entries[i] = (bindingclay_pollfd){ .fd = drawn_fd() - (drawn(8) == 0 ? FDS : 0), .events = EVENTS[drawn(4)] };
    return bindingclay_poll(clay, pid, entries, entry_count, true);
}

static bindingclay_answer opens(uint32_t pid)
{
    static const uint32_t FLAGS[] = { O_RDONLY, O_WRONLY, O_RDWR };
    static const char *const NAMES[] = { "fifo", "other fifo", "file" };
    uint32_t name = drawn(3);
    switch (drawn(4)) {
    case 0:
        return mkfifo_text(clay, pid, NAMES[drawn(2)]);
    case 1:
        return unlink_text(clay, pid, NAMES[name]);
    default:
        return open_text(clay, pid, NAMES[name], FLAGS[drawn(3)] | (name == 2 ? O_CREAT : 0));
    }
}

static bindingclay_answer moves(uint32_t pid)
{
    static uint8_t bytes[SIZE];
    int32_t fd = drawn_fd(), to = drawn_fd();
    uint32_t size = drawn(2) == 0 ? drawn(SIZE) : 1 + drawn(16);
    switch (drawn(6)) {
    case 0:
    case 1:
        return bindingclay_read(clay, pid, fd, bytes, size);
    case 2:
    case 3:
        return bindingclay_write(clay, pid, fd, bytes, size);
    case 4:
        return bindingclay_splice(clay, pid, fd, NULL, to, NULL, size, 0);
    default:
        return bindingclay_tee(clay, pid, fd, to, size, 0);
    }
}

static bindingclay_answer changes(uint32_t pid)
{
    int32_t fd = drawn_fd();
    bindingclay_ends ends;
    switch (drawn(12)) {
    case 0:
        return bindingclay_pipe2(clay, pid, drawn(6) == 0 ? BINDINGCLAY_O_DIRECT : 0, &ends);
    case 1:
        return bindingclay_close(clay, pid, fd);
    case 2:
        return bindingclay_dup2(clay, pid, fd, drawn_fd());
    case 3:
        return bindingclay_set_fl(clay, pid, fd, drawn(4) == 0 ? BINDINGCLAY_O_DIRECT : 0);
    case 4:
        return bindingclay_lseek(clay, pid, fd, drawn(SIZE), 0);
    case 5:
        return bindingclay_fork(clay, pid);
    case 6:
        return bindingclay_exit(clay, 1 + drawn(4 * PROCESSES));
    default:
        return bindingclay_set_pipe_sz(clay, pid, fd, 4096u << drawn(3));
    }
}

/* A call that waits is tried again, or ended, mostly the one that is named next; if none waits, nothing is done. */
static bindingclay_answer goes_on(void)
{
    static uint8_t into[BINDINGCLAY_MOST_CAPACITY];
    bindingclay_answer next = bindingclay_next_ready(clay, 0);
    uint64_t number = count == 0 ? 0 : waiting[drawn((uint32_t)count)];
    if (next.kind == BINDINGCLAY_DONE && drawn(4) != 0)
        number = next.value;
    if (drawn(8) == 0)
        return bindingclay_interrupt(clay, number);
    bindingclay_answer answer = bindingclay_resume(clay, number, into, sizeof into);
    bindingclay_pollfd entries[ENTRIES];
    return answer.kind == BINDINGCLAY_SHORT ? bindingclay_resume_poll(clay, number, entries, ENTRIES) : answer;
}

static bindingclay_answer step(void)
{
    uint32_t pid = 1 + drawn(PROCESSES), kind = drawn(100);
    if (count == MANY)
        return bindingclay_interrupt(clay, waiting[drawn((uint32_t)count)]);
    if (kind < 45)
        return moves(pid);
    if (kind < 55)
        return polls(pid);
    if (kind < 63)
        return opens(pid);
    if (kind < 75)
        return changes(pid);
    return goes_on();
}

/* Notes which calls wait after a step. */
static void note(bindingclay_answer answer)
{
    int kept = 0;
    for (int i = 0; i < count; i++)
        if (bindingclay_owner(clay, waiting[i]).kind == BINDINGCLAY_DONE)
            waiting[kept++] = waiting[i];
    count = kept;
    if (answer.kind != BINDINGCLAY_PARKED || (count > 0 && answer.value <= waiting[count - 1]))
        return;
    bindingclay_waiting_facts facts;
    DONE(bindingclay_call_facts(clay, answer.value, &facts), 0);
    began[facts.kind]++;
    waiting[count++] = answer.value;
}

/* The call that is named next, from a number on, is the least of those that can make progress, whether questions lack memory or not. */
static void asks_from(uint64_t from, bool lacks_memory)
{
    if (lacks_memory)
        refuse((long)drawn(4), LONG_MAX);
    bindingclay_answer next = bindingclay_next_ready(clay, from);
    refused_questions += lacks_memory && refused != 0;
    refuse_none();
    for (int i = 0; i < count; i++)
        if (waiting[i] >= from && bindingclay_can_progress(clay, waiting[i])) {
            named += DONE(next, waiting[i]);
            return;
        }
    OTHER(next, BINDINGCLAY_NO_CALL);
}

/* A kernel with some pipes, most of which are soon full, that all of its processes have. */
static void begin(void)
{
    clay = kernel_with_process();
    count = 0;
    for (int i = 0; i < PIPES; i++) {
        bindingclay_ends ends = NEW_PIPE(clay, 1, false);
        if (i > 0)
            DONE(bindingclay_set_pipe_sz(clay, 1, ends.write_end, 4096), 4096);
    }
    for (uint32_t pid = 2; pid <= PROCESSES; pid++)
        DONE(bindingclay_fork(clay, 1), pid);
}

static void a_round(void)
{
    bool lacks_memory = drawn(4) == 0;
    begin();
    for (int i = 0; i < ROUND; i++) {
        if (lacks_memory && drawn(2) == 0)
            refuse((long)drawn(4), LONG_MAX);
        else if (drawn(10) == 0)
            refuse((long)drawn(6), 1 + (long)drawn(4));
        bindingclay_answer answer = step();
        refuse_none();
        note(answer);
        if (drawn(4) != 0)
            asks_from(0, lacks_memory);
        if (drawn(4) == 0 && count > 0)
            asks_from(waiting[drawn((uint32_t)count)] + drawn(2), lacks_memory);
    }
    bindingclay_free(clay);
    HOLDS(bytes_left == 0);
}

int main(int words, char **word)
{
    if (words != 2 || atol(word[1]) < 10000) {
        fprintf(stderr, "%s STEPS: STEPS is 10000 or more\n", word[0]);
        return 2;
    }
    long steps = atol(word[1]);
    for (long made = 0; made < steps; made += ROUND)
        a_round();
    for (int kind = 1; kind < KINDS; kind++)
        HOLDS(began[kind] * 1000 >= steps);
    HOLDS(named * 20 >= steps && refused_questions * 5000 >= steps);
    printf("%ld steps: %ld reads, %ld writes, %ld opens, %ld splices, %ld tees and %ld polls waited; %ld questions named one, and %ld lacked memory\n",
        steps, began[1], began[2], began[3], began[4], began[5], began[6], named, refused_questions);
    return end();
}
