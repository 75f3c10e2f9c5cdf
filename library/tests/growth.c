/* What calls cost as files and pipes fill up. growth N: beside N slots. Memory is counted by malloc's own sizes. Time is compared with that of a
 * sixteenth of N, with a wide margin, if N is large enough to tell. */
#define _GNU_SOURCE
#include "growth.h"

#include <fcntl.h>
#include <limits.h>

enum { SEGMENT = 4096, MOST_SPARE = 256, MOST_CAPACITY = 1048576 };

/* A kernel that keeps so many segments for further bytes, with process 1. */
static bindingclay kernel_that_keeps(uint64_t segments)
{
    bindingclay_limits limits = BINDINGCLAY_LIMITS;
    limits.spare_max = segments * SEGMENT;
    return kernel_within(&limits);
}

/* Bytes of many slots: each of so many splices moves one byte to the end of file f, descriptor 2, from one of two pipes in turn, so that no
 * two slots go on one where the other ends and become one. The second pipe is closed then. */
static void fill_by_bytes(bindingclay clay, long count)
{
    NEW_PIPE(clay, 1, false);
    DONE(open_text(clay, 1, "f", O_RDWR | O_CREAT), 2);
    bindingclay_ends second = NEW_PIPE(clay, 1, false);
    for (long i = 0; i < count; i++) {
        if (i % (2 * SEGMENT) == 0) {
            DONE(put_many(clay, 1, 1, SEGMENT), SEGMENT);
            DONE(put_many(clay, 1, second.write_end, SEGMENT), SEGMENT);
        }
        DONE(bindingclay_splice(clay, 1, i % 2 == 0 ? 0 : second.read_end, NULL, 2, NULL, 1, 0), 1);
    }
    OTHER(bindingclay_close(clay, 1, second.read_end), BINDINGCLAY_DONE);
    OTHER(bindingclay_close(clay, 1, second.write_end), BINDINGCLAY_DONE);
}

/* A splice of a file of many slots takes the memory of what comes out, and gives back what it doesn't use: a pipe has at most 512 slots, each
 * is copied once at most, and the slices of the file are listed meanwhile. */
static void a_splice_of_many_slots(long count)
{
    bindingclay clay = kernel_that_keeps(MOST_SPARE);
    fill_by_bytes(clay, count);
    bindingclay_ends ends = NEW_PIPE(clay, 1, false);
    DONE(bindingclay_set_pipe_sz(clay, 1, ends.write_end, MOST_CAPACITY), MOST_CAPACITY);
    const uint64_t first = 0;
    long moved = count < MOST_CAPACITY ? count : MOST_CAPACITY;
    long before = bytes_left;
    most_bytes = before;
    DONE(bindingclay_splice(clay, 1, 2, &first, ends.write_end, NULL, MOST_CAPACITY, 0), moved);
    HOLDS(most_bytes - before <= 64 * count + (512 + 2) * (SEGMENT + 128));
    /* all that it made is a segment for each 4,096 bytes, and what is spare */
    HOLDS(bytes_left - before <= (moved / SEGMENT + 2 + MOST_SPARE) * (SEGMENT + 128));
    OTHER(bindingclay_exit(clay, 1), BINDINGCLAY_DONE);
    DONE(bindingclay_start(clay), 1);
    OTHER(unlink_text(clay, 1, "f"), BINDINGCLAY_DONE);
    OTHER(bindingclay_exit(clay, 1), BINDINGCLAY_DONE);
    /* the table of segments keeps its length */
    HOLDS(bytes_left <= (MOST_SPARE + 8) * (SEGMENT + 128) + 2 * (count + moved) / SEGMENT * 128);
    bindingclay_free(clay);
    HOLDS(bytes_left == 0);
}

/* A splice of all that a pipe holds to an empty one takes the places of a new pipe alone, however many slots go. Each pipe keeps its capacity. */
static void a_splice_of_all(void)
{
    enum { NEW_PLACES = 128, HALF = MOST_CAPACITY / 2 };
    bindingclay clay = kernel_with_process();
    bindingclay_ends from = NEW_PIPE(clay, 1, false), to = NEW_PIPE(clay, 1, false);
    DONE(bindingclay_set_pipe_sz(clay, 1, from.write_end, MOST_CAPACITY), MOST_CAPACITY);
    DONE(bindingclay_set_pipe_sz(clay, 1, to.write_end, HALF), HALF);
    DONE(put_many(clay, 1, from.write_end, HALF), HALF);
    long before = bytes_left;
    most_bytes = before;
    DONE(bindingclay_splice(clay, 1, from.read_end, NULL, to.write_end, NULL, MOST_CAPACITY, 0), HALF);
    HOLDS(most_bytes - before <= NEW_PLACES);
    DONE(bindingclay_get_pipe_sz(clay, 1, from.write_end), MOST_CAPACITY);
    DONE(bindingclay_get_pipe_sz(clay, 1, to.write_end), HALF);
    DONE(bindingclay_held(clay, 1, from.read_end), 0);
    DONE(put_many(clay, 1, from.write_end, MOST_CAPACITY), MOST_CAPACITY);
    DONE(take(clay, 1, to.read_end, MOST_CAPACITY), HALF);
    bindingclay_free(clay);
    HOLDS(bytes_left == 0);
}

/* A page that goes from one pipe to another with places for it takes at most one block of the least size, which is 24 bytes in glibc, and gives it
 * back, and so does a part of one. Both pipes keep the order of their bytes. */
static void splices_of_a_page(void)
{
    enum { PAGES = 4, PART = 1000, REST = PAGES * SEGMENT - SEGMENT - PART, LEAST = 24 };
    static uint8_t bytes[PAGES * SEGMENT], into[PAGES * SEGMENT];
    for (size_t i = 0; i < sizeof bytes; i++)
        bytes[i] = (uint8_t)(i % 251);
    bindingclay clay = kernel_with_process();
    bindingclay_ends from = NEW_PIPE(clay, 1, false), to = NEW_PIPE(clay, 1, false);
    DONE(bindingclay_write(clay, 1, from.write_end, bytes, sizeof bytes), sizeof bytes);
    DONE(put_many(clay, 1, to.write_end, 2 * SEGMENT), 2 * SEGMENT);
    DONE(take(clay, 1, to.read_end, SEGMENT), SEGMENT);
    long before = bytes_left;
    most_bytes = before;
    DONE(bindingclay_splice(clay, 1, from.read_end, NULL, to.write_end, NULL, SEGMENT, 0), SEGMENT);
    DONE(bindingclay_splice(clay, 1, from.read_end, NULL, to.write_end, NULL, PART, 0), PART);
    HOLDS(most_bytes - before <= LEAST);
    HOLDS(bytes_left == before);
    DONE(take(clay, 1, to.read_end, SEGMENT), SEGMENT);
    DONE(bindingclay_read(clay, 1, to.read_end, into, sizeof into), SEGMENT + PART);
    DONE(bindingclay_read(clay, 1, from.read_end, into + SEGMENT + PART, REST), REST);
    HOLDS(memcmp(into, bytes, sizeof into) == 0);
    bindingclay_free(clay);
    HOLDS(bytes_left == 0);
}

/* A splice of a file without memory for all of it leaves what it found. */
static void a_splice_without_memory(long count)
{
    bindingclay clay = kernel_that_keeps(0);
    fill_by_bytes(clay, count);
    bindingclay_ends ends = NEW_PIPE(clay, 1, false);
    /* the places of the pipe's slots, which stay with it if the call that made them is refused */
    static const uint8_t more_than_a_segment[SEGMENT + 1];
    DONE(bindingclay_write(clay, 1, ends.write_end, more_than_a_segment, SEGMENT + 1), SEGMENT + 1);
    DONE(take(clay, 1, ends.read_end, SEGMENT + 1), SEGMENT + 1);
    /* a slot, so that the second slice of the file on becomes one with what stands before it */
    DONE(put(clay, 1, ends.write_end, "a"), 1);
    const uint64_t first = 0;
    long granted = 0;
    for (;; granted++) {
        long blocks = blocks_left;
        refuse(granted, 1);
        bindingclay_answer got = bindingclay_splice(clay, 1, 2, &first, ends.write_end, NULL, 1000, 0);
        refuse_none();
        if (got.kind != BINDINGCLAY_NO_MEMORY) {
            DONE(got, count < 1000 ? count : 1000);
            break;
        }
        HOLDS(blocks_left == blocks);
    }
    HOLDS(granted >= 8);
    bindingclay_free(clay);
    HOLDS(bytes_left == 0);
}

/* A read gives all that a pipe holds, 251 bytes over and over. */
static bool gives_pattern(bindingclay clay, int32_t read_end, uint8_t *bytes)
{
    memset(bytes, 0, MOST_CAPACITY);
    bool as_wanted = DONE(bindingclay_read(clay, 1, read_end, bytes, MOST_CAPACITY), MOST_CAPACITY);
    for (long i = 0; as_wanted && i < MOST_CAPACITY; i++)
        as_wanted = bytes[i] == i % 251;
    return as_wanted;
}

/* A copy of a full pipe shares its bytes: it takes three segments at most, and each of the two pipes gives all of them. */
static void a_tee_of_a_full_pipe(void)
{
    bindingclay clay = kernel_with_process();
    uint8_t *bytes = needed(malloc(MOST_CAPACITY));
    for (long i = 0; i < MOST_CAPACITY; i++)
        bytes[i] = (uint8_t)(i % 251);
    bindingclay_ends full = NEW_PIPE(clay, 1, false), copy = NEW_PIPE(clay, 1, false);
    DONE(bindingclay_set_pipe_sz(clay, 1, full.write_end, MOST_CAPACITY), MOST_CAPACITY);
    DONE(bindingclay_set_pipe_sz(clay, 1, copy.write_end, MOST_CAPACITY), MOST_CAPACITY);
    DONE(bindingclay_write(clay, 1, full.write_end, bytes, MOST_CAPACITY), MOST_CAPACITY);
    uint64_t before = bindingclay_memory(clay).held;
    DONE(bindingclay_tee(clay, 1, full.read_end, copy.write_end, MOST_CAPACITY, 0), MOST_CAPACITY);
    HOLDS(bindingclay_memory(clay).held - before <= 3 * SEGMENT);
    HOLDS(gives_pattern(clay, full.read_end, bytes));
    HOLDS(gives_pattern(clay, copy.read_end, bytes));
    bindingclay_free(clay);
    free(bytes);
    HOLDS(bytes_left == 0);
}

/* A file that is emptied gives back all but what is spare. */
static void an_emptied_file(long count)
{
    bindingclay clay = kernel_that_keeps(MOST_SPARE);
    fill_by_bytes(clay, 1);
    long before = bytes_left;
    OTHER(bindingclay_exit(clay, 1), BINDINGCLAY_DONE);
    bindingclay_free(clay);
    clay = kernel_that_keeps(MOST_SPARE);
    fill_by_bytes(clay, count);
    HOLDS(bytes_left - before >= 24 * count);
    DONE(open_text(clay, 1, "f", O_RDWR | O_TRUNC), 3);
    HOLDS(bytes_left - before <= (count / SEGMENT + 2 + MOST_SPARE) * 128 + MOST_SPARE * SEGMENT);
    bindingclay_free(clay);
}

/* A byte is put into a pipe, and spliced to a place of the file or else written there. */
static void change(bindingclay clay, bool is_written, uint64_t place)
{
    if (is_written) {
        if (bindingclay_lseek(clay, 1, 2, (int64_t)place, SEEK_SET).kind != BINDINGCLAY_DONE || put(clay, 1, 2, "b").value != 1)
            HOLDS(false);
    } else if (put(clay, 1, 1, "b").value != 1 || bindingclay_splice(clay, 1, 0, NULL, 2, &place, 1, 0).value != 1)
        HOLDS(false);
}

/* The seconds of a change of one byte, at places that lie so far apart: the least of five rounds. */
static double seconds_of_a_change(bindingclay clay, bool is_written, uint64_t apart)
{
    enum { ROUNDS = 1000 };
    double least = 1e9;
    for (int run = 0; run < 5; run++) {
        double begun = seconds();
        for (uint64_t i = 0; i < ROUNDS; i++)
            change(clay, is_written, i * apart);
        double taken = (seconds() - begun) / ROUNDS;
        least = taken < least ? taken : least;
    }
    return least;
}

/* The seconds for each slot of writes at places all over a file, which copy its slots together. */
static double seconds_of_a_sweep(bindingclay clay, long slots)
{
    double begun = seconds();
    for (long place = 0; place < slots; place += 64)
        change(clay, true, (uint64_t)place);
    return (seconds() - begun) / (double)slots;
}

/* The seconds that it takes to move so many bytes by one place. */
static double seconds_of_a_move(size_t size)
{
    enum { ROUNDS = 1000 };
    char *bytes = needed(malloc(size + 1));
    memset(bytes, 'a', size + 1);
    double least = 1e9;
    for (int run = 0; run < 5; run++) {
        double begun = seconds();
        for (int i = 0; i < ROUNDS; i++)
            memmove(bytes + (i & 1), bytes + !(i & 1), size);
        double taken = (seconds() - begun) / ROUNDS;
        least = taken < least ? taken : least;
    }
    free(bytes);
    return least;
}

/* The kinds of changes of a file that are measured. */
enum { KINDS = 4 };

/* Measures each kind of change of a file of so many slots, and keeps the least seconds. */
static void measure_changes(long slots, double least[KINDS])
{
    bindingclay clay = kernel_with_process();
    fill_by_bytes(clay, slots);
    double taken[KINDS];
    taken[0] = seconds_of_a_change(clay, false, 1);
    taken[1] = seconds_of_a_change(clay, false, (uint64_t)slots / 1000 + 1);
    taken[2] = seconds_of_a_change(clay, true, 1);
    taken[3] = seconds_of_a_sweep(clay, slots);
    bindingclay_free(clay);
    for (int kind = 0; kind < KINDS; kind++)
        least[kind] = taken[kind] < least[kind] ? taken[kind] : least[kind];
}

/* A change of a file costs what it changes, however many slots there are, and wherever it is; and once for 64 slots that come or go the list
 * of the chunks behind moves: 48 bytes for each 64 slots at most. If something else took the processor meanwhile, it is measured again. */
static void a_change_among_many_slots(long count)
{
    enum { MOST_TRIES = 5 };
    const char *of[KINDS] = { "splices into the front", "splices far apart", "writes into the front", "slots copied together" };
    double few[KINDS] = { 1e9, 1e9, 1e9, 1e9 }, many[KINDS] = { 1e9, 1e9, 1e9, 1e9 };
    double list = seconds_of_a_move((size_t)(count / 64 * 48)) / 64;
    bool is_flat = false;
    for (int attempt = 0; attempt < MOST_TRIES && !is_flat; attempt++) {
        measure_changes(count / 16, few);
        measure_changes(count, many);
        is_flat = true;
        for (int kind = 0; kind < KINDS; kind++)
            is_flat = is_flat && many[kind] < 4 * (few[kind] + list);
        if (count < LARGE)
            break;
    }
    HOLDS(is_flat || count < LARGE);
    for (int kind = 0; kind < KINDS; kind++)
        printf("%s, of %ld %.0f ns each, of %ld %.0f ns\n", of[kind], count / 16, few[kind] * 1e9, count, many[kind] * 1e9);
}

/* The byte of a slot of scattered_file. */
static uint8_t byte_of(long slot)
{
    return (uint8_t)('a' + slot % 26);
}

/* A file f, descriptor 2, of so many slots of a byte, each of which keeps a segment of its own; file g, descriptor 3, shares the first of
 * these segments. */
static void scattered_file(bindingclay clay, long slots, long shared)
{
    uint8_t *bytes = needed(malloc(SEGMENT));
    NEW_PIPE(clay, 1, false);
    DONE(open_text(clay, 1, "f", O_RDWR | O_CREAT), 2);
    DONE(open_text(clay, 1, "g", O_RDWR | O_CREAT), 3);
    bindingclay_ends copies = NEW_PIPE(clay, 1, false);
    for (long i = 0; i < slots; i++) {
        memset(bytes, byte_of(i), SEGMENT);
        DONE(bindingclay_write(clay, 1, 1, bytes, SEGMENT), SEGMENT);
        if (i < shared) {
            DONE(bindingclay_tee(clay, 1, 0, copies.write_end, 1, 0), 1);
            DONE(bindingclay_splice(clay, 1, copies.read_end, NULL, 3, NULL, 1, 0), 1);
        }
        DONE(bindingclay_splice(clay, 1, 0, NULL, 2, NULL, 1, 0), 1);
        DONE(take(clay, 1, 0, SEGMENT - 1), SEGMENT - 1);
    }
    free(bytes);
}

/* Whether a file has the bytes of so many slots, of which each at a multiple of `every` was written over by 'Z'; with 0 none was. */
static bool has_slots(bindingclay clay, const char *name, long slots, long every)
{
    uint8_t *into = needed(malloc((size_t)slots + 1));
    bindingclay_answer got = bindingclay_file_bytes(clay, bytes_of(name), 1, into, (size_t)slots + 1);
    bool as_wanted = got.kind == BINDINGCLAY_DONE && got.value == (uint64_t)slots;
    for (long i = 0; as_wanted && i < slots; i++)
        as_wanted = into[i] == (every != 0 && i % every == 0 ? 'Z' : byte_of(i));
    free(into);
    return as_wanted;
}

/* Writes copy scattered slots together, and so give back the segments that nobody else holds. A file that shares them keeps its bytes. */
static void writes_that_copy_together(long count)
{
    enum { APART = 64, SHARED = 100 };
    long slots = count / 16;
    long shared = slots < SHARED ? slots : SHARED;
    bindingclay clay = kernel_that_keeps(MOST_SPARE);
    long before = bytes_left;
    scattered_file(clay, slots, shared);
    HOLDS(bytes_left - before >= slots * SEGMENT);
    for (long place = 0; place < slots; place += APART) {
        DONE(bindingclay_lseek(clay, 1, 2, place, SEEK_SET), place);
        DONE(put(clay, 1, 2, "Z"), 1);
    }
    HOLDS(has_slots(clay, "f", slots, APART));
    HOLDS(has_slots(clay, "g", shared, 0));
    /* two for each 4,096 bytes, 16 for the chunk behind the last write, those of g, and what is spare */
    HOLDS(bytes_left - before <= (2 * slots / SEGMENT + 16 + shared + MOST_SPARE + 8) * (SEGMENT + 128) + 176 * slots);
    bindingclay_free(clay);
    HOLDS(bytes_left == 0);
}

/* A write over a slot that another file shares, in which a request for memory is refused: it changes nothing, or if that would have served to
 * copy slots together it is made without that. It returns whether a request was refused. */
static bool a_write_without_memory(long granted, long *passed_over)
{
    enum { SLOTS = 200 };
    bindingclay clay = kernel_with_process();
    scattered_file(clay, SLOTS, 1);
    DONE(bindingclay_lseek(clay, 1, 2, 0, SEEK_SET), 0);
    long blocks = blocks_left;
    refuse(granted, 1);
    bindingclay_answer got = put(clay, 1, 2, "Z");
    refuse_none();
    bool was_refused = refused != 0;
    if (got.kind == BINDINGCLAY_NO_MEMORY) {
        HOLDS(was_refused);
        HOLDS(blocks_left == blocks);
        HOLDS(has_slots(clay, "f", SLOTS, 0));
    } else {
        DONE(got, 1);
        HOLDS(has_slots(clay, "f", SLOTS, SLOTS));
        *passed_over += was_refused;
    }
    HOLDS(has_slots(clay, "g", 1, 0));
    bindingclay_free(clay);
    HOLDS(bytes_left == 0);
    return was_refused;
}

static void writes_without_memory(void)
{
    long granted = 0, passed_over = 0;
    while (a_write_without_memory(granted, &passed_over))
        granted++;
    HOLDS(passed_over >= 2);
    HOLDS(granted - passed_over >= 2);
}

/* A write within segments that nothing else shares goes over the bytes there, and asks for no memory. It asks for some if it goes on behind the
 * end, or if a pipe shares some of the bytes, which keeps what it got. */
static void writes_over_bytes(void)
{
    enum { SEGMENTS = 8 };
    static uint8_t bytes[SEGMENTS * SEGMENT], into[SEGMENTS * SEGMENT];
    bindingclay clay = kernel_with_process();
    NEW_PIPE(clay, 1, false);
    DONE(open_text(clay, 1, "f", O_RDWR | O_CREAT), 2);
    DONE(bindingclay_write(clay, 1, 2, bytes, sizeof bytes), sizeof bytes);
    long blocks = blocks_left;
    refuse(0, LONG_MAX);
    /* parts of one segment, all of one, and bytes of two, of three and of all */
    static const int FROM[] = { 0, 1000, SEGMENT - 64, SEGMENT, SEGMENT - 1, 3 * SEGMENT - 1000, 2 * SEGMENT + 7, 0 },
                     SIZE[] = { 1, 3000, 64, SEGMENT, 2, SEGMENT, 2 * SEGMENT + 1, SEGMENTS * SEGMENT };
    for (int i = 0; i < (int)(sizeof FROM / sizeof *FROM); i++) {
        memset(bytes + FROM[i], 'a' + i, (size_t)SIZE[i]);
        DONE(bindingclay_lseek(clay, 1, 2, FROM[i], SEEK_SET), FROM[i]);
        DONE(bindingclay_write(clay, 1, 2, bytes + FROM[i], (size_t)SIZE[i]), SIZE[i]);
        DONE(bindingclay_lseek(clay, 1, 2, 0, SEEK_SET), 0);
        DONE(bindingclay_read(clay, 1, 2, into, sizeof into), sizeof into);
        HOLDS(memcmp(into, bytes, sizeof into) == 0);
    }
    DONE(bindingclay_lseek(clay, 1, 2, sizeof bytes - 1, SEEK_SET), sizeof bytes - 1);
    HOLDS(refused == 0);
    OTHER(put(clay, 1, 2, "no"), BINDINGCLAY_NO_MEMORY);
    refuse_none();
    HOLDS(blocks_left <= blocks);
    const uint64_t front = 0;
    DONE(bindingclay_splice(clay, 1, 2, &front, 1, NULL, 64, 0), 64);
    refuse(0, LONG_MAX);
    DONE(bindingclay_lseek(clay, 1, 2, SEGMENT - 1, SEEK_SET), SEGMENT - 1);
    OTHER(put(clay, 1, 2, "no"), BINDINGCLAY_NO_MEMORY);
    HOLDS(refused >= 1);
    refuse_none();
    DONE(bindingclay_lseek(clay, 1, 2, 0, SEEK_SET), 0);
    DONE(put(clay, 1, 2, "yes"), 3);
    DONE(bindingclay_read(clay, 1, 0, into, 64), 64);
    HOLDS(memcmp(into, bytes, 64) == 0);
    memcpy(bytes, "yes", 3);
    DONE(bindingclay_file_bytes(clay, bytes_of("f"), 1, into, sizeof into), sizeof into);
    HOLDS(memcmp(into, bytes, sizeof into) == 0);
    bindingclay_free(clay);
    HOLDS(bytes_left == 0);
}

/* Bytes that are spliced into a file one by one, one behind the other, are one slot where they go on one where the other ends. */
static void bytes_one_by_one(long count)
{
    bindingclay clay = kernel_with_process();
    DONE(open_text(clay, 1, "g", O_RDWR | O_CREAT), 0);
    bindingclay_ends ends = NEW_PIPE(clay, 1, false);
    long before = bytes_left;
    for (long i = 0; i < count; i++) {
        if (i % SEGMENT == 0)
            DONE(put_many(clay, 1, ends.write_end, SEGMENT), SEGMENT);
        DONE(bindingclay_splice(clay, 1, ends.read_end, NULL, 0, NULL, 1, 0), 1);
    }
    HOLDS(bytes_left - before <= (count / SEGMENT + 2) * (SEGMENT + 512) + SEGMENT);
    bindingclay_free(clay);
}

int main(int words, char **word)
{
    long count = count_of(words, word);
    a_splice_of_many_slots(count);
    a_splice_of_all();
    splices_of_a_page();
    a_splice_without_memory(count);
    a_tee_of_a_full_pipe();
    an_emptied_file(count);
    a_change_among_many_slots(count);
    writes_that_copy_together(count);
    writes_without_memory();
    writes_over_bytes();
    bytes_one_by_one(count);
    return end();
}
