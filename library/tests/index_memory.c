/* What a kernel takes that it doesn't count, and what polls that wait take with their places in queues, as docs/EMBEDDING.md says both. */
#define _GNU_SOURCE
#include "check.h"
#include "counted.h"

#include <poll.h>

enum { PIPES = 120, CALLS = 300 };

/* Two blocks: that of the kernel, and that of its count. */
static void what_is_not_counted(void)
{
    bindingclay clay = new_kernel(1, BINDINGCLAY_MOST_FILE_BYTES);
    HOLDS(bindingclay_memory(clay).held == 0 && blocks_left == 2 && bytes_left < 1500);
    bindingclay_free(clay);
    HOLDS(blocks_left == 0);
}

static uint64_t held(bindingclay clay)
{
    return bindingclay_memory(clay).held;
}

/* The bytes that polls of so many entries each take, at pipes of their own. Once they were asked about, questions take no more. */
static uint64_t memory_of_polls(size_t entries)
{
    bindingclay clay = kernel_with_process();
    bindingclay_ends ends[PIPES];
    bindingclay_pollfd asked[PIPES];
    for (int i = 0; i < PIPES; i++)
        ends[i] = NEW_PIPE(clay, 1, false);
    uint64_t before = held(clay);
    for (size_t call = 0; call < CALLS; call++) {
        for (size_t i = 0; i < entries; i++)
            asked[i] = (bindingclay_pollfd){ .fd = ends[(call + i) % PIPES].read_end, .events = POLLIN };
        PARKED(bindingclay_poll(clay, 1, asked, entries, true), call + 1);
    }
    OTHER(bindingclay_next_ready(clay, 0), BINDINGCLAY_NO_CALL);
    uint64_t memory = held(clay) - before;
    OTHER(bindingclay_next_ready(clay, 0), BINDINGCLAY_NO_CALL);
    HOLDS(held(clay) - before == memory);
    /* a byte that comes and goes touches one pipe, at which each poll waits that has it */
    DONE(put(clay, 1, ends[0].write_end, "a"), 1);
    DONE(take(clay, 1, ends[0].read_end, 1), 1);
    OTHER(bindingclay_next_ready(clay, 0), BINDINGCLAY_NO_CALL);
    bindingclay_free(clay);
    return memory;
}

/* A poll stands in a queue at each pipe at which it waits. Beside that it has what it asks and what it keeps of each entry. */
static void polls_are_indexed_by_entries(void)
{
    enum { KEY = 176, CALL = 350, ENTRY = 32, PLACE = 60, MOST_KEYS = 2 * PIPES };
    static const size_t entries[] = { 1, 10, PIPES };
    for (int i = 0; i < 3; i++) {
        size_t places = CALLS * entries[i];
        uint64_t memory = memory_of_polls(entries[i]);
        printf("polls of %zu entries: %.1f bytes an entry\n", entries[i], (double)memory / (double)places);
        HOLDS(memory <= KEY * MOST_KEYS + CALL * CALLS + (ENTRY + PLACE) * places);
        HOLDS(memory >= PLACE / 2 * (places - PIPES));
    }
}

int main(void)
{
    what_is_not_counted();
    polls_are_indexed_by_entries();
    return end();
}
