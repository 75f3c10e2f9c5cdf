/* Limits that a host sets: each at its edge, and one above it, in each call that it can refuse. tables.c has those on tables. */
#include "check.h"

#include <fcntl.h>
#include <poll.h>

enum { SEGMENT = 4096 };

static bool is_refused(const bindingclay_limits *limits)
{
    void *kernel = &kernel;
    bool open = bindingclay_open_within(limits, &kernel);
    return !open && kernel == &kernel;
}

/* How many bytes a kernel within these limits keeps once 1,048,576 bytes were in a pipe and were taken out. */
static uint64_t spare_within(const bindingclay_limits *limits)
{
    bindingclay clay = kernel_within(limits);
    bindingclay_ends ends = NEW_PIPE(clay, 1, true);
    DONE(bindingclay_set_pipe_sz(clay, 1, ends.read_end, BINDINGCLAY_MOST_CAPACITY), BINDINGCLAY_MOST_CAPACITY);
    DONE(put_many(clay, 1, ends.write_end, BINDINGCLAY_MOST_CAPACITY), BINDINGCLAY_MOST_CAPACITY);
    DONE(take(clay, 1, ends.read_end, BINDINGCLAY_MOST_CAPACITY), BINDINGCLAY_MOST_CAPACITY);
    bindingclay_segment_use use;
    bindingclay_stats(clay, &use);
    bindingclay_memory_use memory = bindingclay_memory(clay);
    HOLDS(use.used == 0 && memory.spare == use.spare * SEGMENT && memory.spare <= memory.held);
    bindingclay_free(clay);
    return memory.spare;
}

/* ---- The struct ---- */

/* An earlier version's struct: what it doesn't have is as if nobody had set it. */
static void structs_that_are_smaller(void)
{
    HOLDS(sizeof(bindingclay_limits) == 88);
    bindingclay_limits limits = { .size = 16, .first_call = 7, .memory = 0, .names = 0, .waiting_calls = 0, .capacity = 0, .file_max = 0,
        .descriptors_max = 0, .spare_max = 0, .descriptions_max = 0, .processes_max = 0, .waiting_of_each = 0 };
    bindingclay clay = kernel_within(&limits);
    DONE(mkfifo_text(clay, 1, "a"), 0);
    bindingclay_ends ends = NEW_PIPE(clay, 1, false);
    DONE(bindingclay_set_pipe_sz(clay, 1, ends.read_end, BINDINGCLAY_MOST_CAPACITY), BINDINGCLAY_MOST_CAPACITY);
    PARKED(take(clay, 1, ends.read_end, 1), 7);
    DONE(open_text(clay, 1, "f", O_RDWR | O_CREAT), 2);
    DONE(put(clay, 1, 2, "hello"), 5);
    HOLDS(bindingclay_memory(clay).most == UINT64_MAX);
    bindingclay_free(clay);

    limits.size = 8;
    clay = kernel_within(&limits);
    PARKED(take(clay, 1, NEW_PIPE(clay, 1, false).read_end, 1), 1);
    bindingclay_free(clay);

    limits.size = 24;
    limits.memory = 0;
    bindingclay without = { NULL };
    HOLDS(bindingclay_open_within(&limits, &without.kernel));
    OTHER(bindingclay_start(without), BINDINGCLAY_NO_MEMORY);
    bindingclay_free(without);

    /* the fields that 0.7.0 had: a process has 256 descriptors */
    limits = (bindingclay_limits)BINDINGCLAY_LIMITS;
    limits.size = 48;
    limits.names = 0;
    limits.descriptors_max = 3;
    clay = kernel_within(&limits);
    FAULT(mkfifo_text(clay, 1, "a"), ENOSPC);
    for (int i = 0; i < BINDINGCLAY_USUAL_DESCRIPTORS / 2; i++)
        NEW_PIPE(clay, 1, false);
    FAULT(bindingclay_dup(clay, 1, 0), EMFILE);
    bindingclay_free(clay);

    /* those that 0.8.0 had: memory is kept as if nobody had said how much */
    limits.size = 56;
    limits.spare_max = 0;
    HOLDS(spare_within(&limits) >= BINDINGCLAY_MOST_CAPACITY);

    /* without the last three: there are descriptions and processes as if nobody had said how many */
    limits.size = 64;
    limits.descriptors_max = 3;
    limits.descriptions_max = limits.processes_max = 0;
    clay = kernel_within(&limits);
    NEW_PIPE(clay, 1, false);
    for (uint64_t pid = 2; pid <= BINDINGCLAY_USUAL_PROCESSES; pid++)
        DONE(bindingclay_start(clay), pid);
    FAULT(bindingclay_start(clay), EAGAIN);
    bindingclay_free(clay);
    limits.size = 72;
    clay = kernel_within(&limits);
    FAULT(open_text(clay, 1, "f", O_RDONLY | O_CREAT), ENFILE);
    DONE(bindingclay_fork(clay, 1), 2);
    bindingclay_free(clay);

    /* without the last one: as many calls of a process wait as of all */
    limits = (bindingclay_limits)BINDINGCLAY_LIMITS;
    limits.size = 80;
    limits.waiting_calls = 3;
    limits.waiting_of_each = 0;
    clay = kernel_within(&limits);
    NEW_PIPE(clay, 1, false);
    for (uint64_t i = 1; i <= 3; i++)
        PARKED(take(clay, 1, 0, 1), i);
    FAULT(take(clay, 1, 0, 1), EAGAIN);
    bindingclay_free(clay);
}

static void structs_of_no_version(void)
{
    struct {
        bindingclay_limits limits;
        uint64_t later;
    } longer = { .limits = BINDINGCLAY_LIMITS };
    longer.limits.size = sizeof longer;
    HOLDS(is_refused(&longer.limits));
    bindingclay_limits limits = BINDINGCLAY_LIMITS;
    for (uint64_t size = 0; size < sizeof longer + 8; size++)
        if (size % 8 != 0 || size == 0 || size > sizeof limits) {
            longer.limits.size = size;
            HOLDS(is_refused(&longer.limits));
        }
}

/* Whether a limit is taken at its greatest value, and refused above it. */
static bool ends_at(size_t field, uint64_t greatest)
{
    bindingclay_limits limits = BINDINGCLAY_LIMITS;
    uint64_t *limit = (uint64_t *)(void *)((char *)&limits + field);
    *limit = greatest;
    void *kernel = NULL;
    if (!bindingclay_open_within(&limits, &kernel))
        return false;
    bindingclay_free((bindingclay){ kernel });
    *limit = greatest + 1;
    bool ends = is_refused(&limits);
    /* no bit of the word is lost */
    *limit = ((uint64_t)1 << 32) + 3;
    ends = ends && is_refused(&limits);
    *limit = UINT64_MAX;
    return ends && is_refused(&limits);
}

static void fields_that_are_too_great(void)
{
    bindingclay_limits limits = BINDINGCLAY_LIMITS;
    limits.capacity = BINDINGCLAY_MOST_CAPACITY + 1;
    HOLDS(is_refused(&limits));
    limits.capacity = BINDINGCLAY_MOST_CAPACITY;
    limits.file_max = BINDINGCLAY_MOST_FILE_BYTES + 1;
    HOLDS(is_refused(&limits));
    limits.capacity = UINT32_MAX;
    limits.file_max = UINT32_MAX;
    HOLDS(is_refused(&limits));
    HOLDS(ends_at(offsetof(bindingclay_limits, descriptors_max), BINDINGCLAY_MOST_DESCRIPTORS));
    HOLDS(ends_at(offsetof(bindingclay_limits, descriptions_max), BINDINGCLAY_MOST_DESCRIPTIONS));
    HOLDS(ends_at(offsetof(bindingclay_limits, processes_max), BINDINGCLAY_MOST_PROCESSES));
    void *kernel = &kernel;
    HOLDS(!bindingclay_open(1, BINDINGCLAY_MOST_FILE_BYTES + 1, &kernel) && kernel == &kernel);
}

/* ---- Names ---- */

static void names(void)
{
    bindingclay_limits limits = BINDINGCLAY_LIMITS;
    limits.names = 3;
    bindingclay clay = kernel_within(&limits);
    DONE(mkfifo_text(clay, 1, "a"), 0);
    DONE(open_text(clay, 1, "b", O_RDWR | O_CREAT), 0);
    DONE(mkfifo_text(clay, 1, "c"), 0);
    FAULT(mkfifo_text(clay, 1, "d"), ENOSPC);
    FAULT(open_text(clay, 1, "d", O_RDWR | O_CREAT), ENOSPC);
    FAULT(open_text(clay, 1, "d", O_RDWR | O_CREAT | O_EXCL), ENOSPC);
    /* other refusals, and opens of what is there */
    FAULT(open_text(clay, 1, "d", O_RDWR), ENOENT);
    FAULT(mkfifo_text(clay, 1, "a"), EEXIST);
    FAULT(mkfifo_text(clay, 1, ""), ENOENT);
    FAULT(open_text(clay, 1, "b", O_RDWR | O_CREAT | O_EXCL), EEXIST);
    DONE(open_text(clay, 1, "b", O_RDWR | O_CREAT), 1);
    /* a name that goes makes place for one */
    DONE(unlink_text(clay, 1, "b"), 0);
    DONE(open_text(clay, 1, "d", O_RDWR | O_CREAT), 2);
    FAULT(mkfifo_text(clay, 1, "e"), ENOSPC);
    DONE(unlink_text(clay, 1, "a"), 0);
    DONE(mkfifo_text(clay, 1, "e"), 0);
    FAULT(open_text(clay, 1, "a", O_RDWR | O_CREAT), ENOSPC);
    bindingclay_free(clay);
}

static void no_names(void)
{
    bindingclay_limits limits = BINDINGCLAY_LIMITS;
    limits.names = 0;
    bindingclay clay = kernel_within(&limits);
    FAULT(mkfifo_text(clay, 1, "a"), ENOSPC);
    FAULT(open_text(clay, 1, "a", O_WRONLY | O_CREAT), ENOSPC);
    FAULT(open_text(clay, 1, "a", O_WRONLY), ENOENT);
    NEW_PIPE(clay, 1, false);
    bindingclay_free(clay);
}

/* ---- Calls that wait ---- */

enum { EMPTY_READ = 0, EMPTY_WRITE, FULL_READ, FULL_WRITE, FILE_END, FREE_PIPE, FREE_WRITE };

/* A kernel within limits, in which so many calls of process 1 wait, with an empty pipe 0 1, a pipe 2 3 that is full but for 10 bytes, a file 4
 * of 5 bytes, and a FIFO "q". */
static bindingclay waiting_within(const bindingclay_limits *limits, uint64_t waiting)
{
    bindingclay clay = kernel_within(limits);
    NEW_PIPE(clay, 1, false);
    NEW_PIPE(clay, 1, false);
    DONE(put_many(clay, 1, FULL_WRITE, 65526), 65526);
    DONE(open_text(clay, 1, "f", O_RDWR | O_CREAT), FILE_END);
    DONE(put(clay, 1, FILE_END, "hello"), 5);
    DONE(mkfifo_text(clay, 1, "q"), 0);
    for (uint64_t i = 1; i <= waiting; i++)
        PARKED(take(clay, 1, EMPTY_READ, 1), limits->first_call + i - 1);
    return clay;
}

/* One in which so many calls may wait, and all these do. */
static bindingclay full_of_calls(uint64_t waiting_calls)
{
    bindingclay_limits limits = BINDINGCLAY_LIMITS;
    limits.waiting_calls = waiting_calls;
    return waiting_within(&limits, waiting_calls);
}

/* Each call that would wait, where no more may: it has taken nothing. */
static void refuses_each_call(bindingclay clay)
{
    uint8_t into[4] = { UNTOUCHED, UNTOUCHED, UNTOUCHED, UNTOUCHED };
    FAULT(bindingclay_read(clay, 1, EMPTY_READ, into, 4), EAGAIN);
    HOLDS(into[0] == UNTOUCHED && into[3] == UNTOUCHED);
    FAULT(put_many(clay, 1, FULL_WRITE, 11), EAGAIN);
    FAULT(put_many(clay, 1, FULL_WRITE, 4096), EAGAIN);
    FAULT(put_many(clay, 1, FULL_WRITE, 4097), EAGAIN);
    FAULT(put_many(clay, 1, FULL_WRITE, 100000), EAGAIN);
    FAULT(open_text(clay, 1, "q", O_RDONLY), EAGAIN);
    FAULT(open_text(clay, 1, "q", O_WRONLY), EAGAIN);
    uint64_t start = 0;
    FAULT(bindingclay_splice(clay, 1, EMPTY_READ, NULL, FULL_WRITE, NULL, 9, 0), EAGAIN);
    FAULT(bindingclay_splice(clay, 1, EMPTY_READ, NULL, FILE_END, NULL, 9, 0), EAGAIN);
    FAULT(bindingclay_tee(clay, 1, EMPTY_READ, FULL_WRITE, 9, 0), EAGAIN);
    DONE(bindingclay_splice(clay, 1, FILE_END, &start, FULL_WRITE, NULL, 5, 0), 5);
    DONE(put(clay, 1, FULL_WRITE, "67890"), 5);
    /* now pipe 2 3 is full */
    FAULT(bindingclay_splice(clay, 1, FILE_END, &start, FULL_WRITE, NULL, 5, 0), EAGAIN);
    bindingclay_pollfd entries[] = { { EMPTY_READ, POLLIN, UNTOUCHED }, { FULL_WRITE, POLLOUT, UNTOUCHED } };
    FAULT(bindingclay_poll(clay, 1, entries, 2, true), EAGAIN);
    HOLDS(entries[0].revents == UNTOUCHED && entries[1].revents == UNTOUCHED);
    DONE(bindingclay_poll(clay, 1, entries, 2, false), 0);
    /* nothing was taken, and nothing went in but those 10 bytes */
    uint8_t *bytes = needed(malloc(70000));
    DONE(bindingclay_read(clay, 1, FULL_READ, bytes, 70000), 65536);
    HOLDS(bytes[65525] == 'a' && memcmp(bytes + 65526, "hello67890", 10) == 0);
    free(bytes);
    HAS_FILE(clay, "f", "hello");
    FAULT(open_text(clay, 1, "q", O_WRONLY | O_NONBLOCK), ENXIO);
}

static void calls_that_wait(void)
{
    bindingclay clay = full_of_calls(3);
    refuses_each_call(clay);
    FAULT(take(clay, 1, EMPTY_READ, 1), EAGAIN);
    /* one that ends makes place for one, and no number was lost */
    FAULT(bindingclay_interrupt(clay, 2), EINTR);
    PARKED(open_text(clay, 1, "q", O_RDONLY), 4);
    FAULT(take(clay, 1, EMPTY_READ, 1), EAGAIN);
    /* the open of the other end waits for nobody */
    DONE(open_text(clay, 1, "q", O_WRONLY), 5);
    DONE(again(clay, 4), 6);
    PARKED(take(clay, 1, EMPTY_READ, 1), 5);
    FAULT(take(clay, 1, EMPTY_READ, 1), EAGAIN);
    /* a process that ends takes its calls with it */
    DONE(bindingclay_exit(clay, 1), 0);
    DONE(bindingclay_start(clay), 1);
    bindingclay_ends ends = NEW_PIPE(clay, 1, false);
    for (uint64_t i = 6; i <= 8; i++)
        PARKED(take(clay, 1, ends.read_end, 1), i);
    FAULT(take(clay, 1, ends.read_end, 1), EAGAIN);
    bindingclay_free(clay);
}

/* The last call that may wait, of each kind. */
static void the_last_that_may_wait(void)
{
    bindingclay_limits limits = BINDINGCLAY_LIMITS;
    limits.waiting_calls = 1;
    bindingclay clay = kernel_within(&limits);
    NEW_PIPE(clay, 1, false);
    NEW_PIPE(clay, 1, false);
    DONE(put_many(clay, 1, FULL_WRITE, 65536), 65536);
    DONE(mkfifo_text(clay, 1, "q"), 0);
    uint64_t number = 0;
    bindingclay_pollfd entry = { EMPTY_READ, POLLIN, 0 };
    PARKED(take(clay, 1, EMPTY_READ, 1), ++number);
    FAULT(bindingclay_interrupt(clay, number), EINTR);
    PARKED(put_many(clay, 1, FULL_WRITE, 5), ++number);
    FAULT(bindingclay_interrupt(clay, number), EINTR);
    PARKED(put_many(clay, 1, FULL_WRITE, 5000), ++number);
    FAULT(bindingclay_interrupt(clay, number), EINTR);
    PARKED(open_text(clay, 1, "q", O_RDONLY), ++number);
    FAULT(bindingclay_interrupt(clay, number), EINTR);
    PARKED(bindingclay_splice(clay, 1, EMPTY_READ, NULL, FULL_WRITE, NULL, 9, 0), ++number);
    FAULT(bindingclay_interrupt(clay, number), EINTR);
    PARKED(bindingclay_tee(clay, 1, EMPTY_READ, FULL_WRITE, 9, 0), ++number);
    FAULT(bindingclay_interrupt(clay, number), EINTR);
    PARKED(bindingclay_poll(clay, 1, &entry, 1, true), ++number);
    FAULT(take(clay, 1, EMPTY_READ, 1), EAGAIN);
    /* two ends of a FIFO: the first waits, the second meets it and needs no place */
    FAULT(bindingclay_interrupt(clay, number), EINTR);
    PARKED(open_text(clay, 1, "q", O_WRONLY), ++number);
    DONE(open_text(clay, 1, "q", O_RDONLY), 4);
    DONE(again(clay, number), 5);
    bindingclay_free(clay);
}

static void none_may_wait(void)
{
    bindingclay clay = full_of_calls(0);
    refuses_each_call(clay);
    bindingclay_free(clay);
}

/* A process of which as many calls wait as may: those of another process still do. */
static void calls_of_each_process(void)
{
    bindingclay_limits limits = BINDINGCLAY_LIMITS;
    limits.waiting_of_each = 2;
    bindingclay clay = waiting_within(&limits, 2);
    DONE(bindingclay_fork(clay, 1), 2);
    refuses_each_call(clay);
    PARKED(take(clay, 2, EMPTY_READ, 1), 3);
    PARKED(open_text(clay, 2, "q", O_RDONLY), 4);
    FAULT(take(clay, 2, EMPTY_READ, 1), EAGAIN);
    FAULT(take(clay, 1, EMPTY_READ, 1), EAGAIN);
    /* a call that ends makes place for one of its own process */
    FAULT(bindingclay_interrupt(clay, 3), EINTR);
    FAULT(take(clay, 1, EMPTY_READ, 1), EAGAIN);
    PARKED(take(clay, 2, EMPTY_READ, 1), 5);
    /* one that is tried again, and waits on, needs no other place */
    PARKED(again(clay, 1), 1);
    DONE(bindingclay_exit(clay, 1), 0);
    FAULT(take(clay, 2, EMPTY_READ, 1), EAGAIN);
    /* a child and a process that has the pid again begin with none */
    DONE(bindingclay_fork(clay, 2), 1);
    PARKED(take(clay, 1, EMPTY_READ, 1), 6);
    PARKED(take(clay, 1, EMPTY_READ, 1), 7);
    FAULT(take(clay, 1, EMPTY_READ, 1), EAGAIN);
    bindingclay_free(clay);

    limits.waiting_of_each = 0;
    clay = waiting_within(&limits, 0);
    refuses_each_call(clay);
    bindingclay_free(clay);

    /* no bit of the word is lost */
    limits.waiting_of_each = (uint64_t)1 << 32;
    bindingclay_free(waiting_within(&limits, 3));
}

/* Where both limits are set, each refuses what is above it. */
static void calls_of_all_and_of_each(void)
{
    bindingclay_limits limits = BINDINGCLAY_LIMITS;
    limits.waiting_calls = 3;
    limits.waiting_of_each = 2;
    bindingclay clay = waiting_within(&limits, 2);
    DONE(bindingclay_fork(clay, 1), 2);
    refuses_each_call(clay);
    PARKED(take(clay, 2, EMPTY_READ, 1), 3);
    FAULT(take(clay, 2, EMPTY_READ, 1), EAGAIN);
    FAULT(bindingclay_interrupt(clay, 1), EINTR);
    PARKED(take(clay, 2, EMPTY_READ, 1), 4);
    /* one of process 1 waits, and three in all */
    FAULT(take(clay, 1, EMPTY_READ, 1), EAGAIN);
    bindingclay_free(clay);
}

/* It is looked at before whether a number is left, and before memory is asked for. */
static void calls_of_each_come_first(void)
{
    bindingclay_limits limits = BINDINGCLAY_LIMITS;
    limits.first_call = UINT64_MAX - 1;
    limits.waiting_of_each = 1;
    bindingclay clay = waiting_within(&limits, 1);
    FAULT(take(clay, 1, EMPTY_READ, 1), EAGAIN);
    FAULT(bindingclay_interrupt(clay, UINT64_MAX - 1), EINTR);
    OTHER(take(clay, 1, EMPTY_READ, 1), BINDINGCLAY_CALLS_SPENT);
    bindingclay_free(clay);

    limits.first_call = 1;
    clay = waiting_within(&limits, 1);
    limits.memory = bindingclay_memory(clay).peak;
    bindingclay_free(clay);
    clay = waiting_within(&limits, 1);
    FAULT(put_many(clay, 1, FULL_WRITE, BINDINGCLAY_MOST_CAPACITY), EAGAIN);
    bindingclay_free(clay);
    limits.waiting_of_each = 2;
    clay = waiting_within(&limits, 1);
    OTHER(put_many(clay, 1, FULL_WRITE, BINDINGCLAY_MOST_CAPACITY), BINDINGCLAY_NO_MEMORY);
    bindingclay_free(clay);
}

/* ---- Capacities ---- */

static void capacities(void)
{
    bindingclay_limits limits = BINDINGCLAY_LIMITS;
    limits.capacity = 131072;
    bindingclay clay = kernel_within(&limits);
    bindingclay_ends ends = NEW_PIPE(clay, 1, false);
    DONE(bindingclay_set_pipe_sz(clay, 1, ends.read_end, 131072), 131072);
    FAULT(bindingclay_set_pipe_sz(clay, 1, ends.read_end, 131073), EPERM);
    FAULT(bindingclay_set_pipe_sz(clay, 1, ends.read_end, 1048576), EPERM);
    FAULT(bindingclay_set_pipe_sz(clay, 1, ends.read_end, UINT32_MAX), EPERM);
    DONE(bindingclay_get_pipe_sz(clay, 1, ends.read_end), 131072);
    DONE(bindingclay_set_pipe_sz(clay, 1, ends.read_end, 0), 4096);
    FAULT(bindingclay_set_pipe_sz(clay, 1, 9, 131073), EBADF);
    bindingclay_free(clay);

    /* between two powers of two: what a size is rounded up to counts */
    limits.capacity = 131071;
    clay = kernel_within(&limits);
    ends = NEW_PIPE(clay, 1, false);
    FAULT(bindingclay_set_pipe_sz(clay, 1, ends.read_end, 65537), EPERM);
    DONE(bindingclay_set_pipe_sz(clay, 1, ends.read_end, 65536), 65536);
    bindingclay_free(clay);

    /* a new pipe has its 65,536 bytes all the same */
    limits.capacity = 4096;
    clay = kernel_within(&limits);
    ends = NEW_PIPE(clay, 1, false);
    DONE(bindingclay_get_pipe_sz(clay, 1, ends.read_end), 65536);
    FAULT(bindingclay_set_pipe_sz(clay, 1, ends.read_end, 4097), EPERM);
    DONE(bindingclay_set_pipe_sz(clay, 1, ends.read_end, 4096), 4096);
    bindingclay_free(clay);

    limits.capacity = 0;
    clay = kernel_within(&limits);
    ends = NEW_PIPE(clay, 1, false);
    FAULT(bindingclay_set_pipe_sz(clay, 1, ends.read_end, 1), EPERM);
    bindingclay_free(clay);
}

/* ---- Files, numbers ---- */

static void files(void)
{
    bindingclay_limits limits = BINDINGCLAY_LIMITS;
    limits.file_max = 5;
    bindingclay clay = kernel_within(&limits);
    DONE(open_text(clay, 1, "f", O_RDWR | O_CREAT), 0);
    DONE(put(clay, 1, 0, "hello!"), 5);
    FAULT(put(clay, 1, 0, "!"), EFBIG);
    HAS_FILE(clay, "f", "hello");
    bindingclay_free(clay);
}

static void numbers(void)
{
    bindingclay_limits limits = BINDINGCLAY_LIMITS;
    limits.first_call = UINT64_MAX - 1;
    bindingclay clay = kernel_within(&limits);
    NEW_PIPE(clay, 1, false);
    PARKED(take(clay, 1, EMPTY_READ, 1), UINT64_MAX - 1);
    OTHER(take(clay, 1, EMPTY_READ, 1), BINDINGCLAY_CALLS_SPENT);
    bindingclay_free(clay);
}

/* ---- Memory ---- */

/* Calls that take memory, up to the first one that finds none. Whether none did. */
static bool all_find_memory(bindingclay clay)
{
    bindingclay_ends ends;
    uint8_t *bytes = needed(calloc(30000, 1));
    bool all = bindingclay_start(clay).kind == BINDINGCLAY_DONE && bindingclay_pipe(clay, 1, false, &ends).kind == BINDINGCLAY_DONE
        && bindingclay_write(clay, 1, 1, bytes, 30000).kind == BINDINGCLAY_DONE && mkfifo_text(clay, 1, "a").kind == BINDINGCLAY_DONE
        && open_text(clay, 1, "f", O_RDWR | O_CREAT).kind == BINDINGCLAY_DONE
        && bindingclay_tee(clay, 1, 0, 2, 1, 0).kind == BINDINGCLAY_FAULT
        && bindingclay_splice(clay, 1, 0, NULL, 2, NULL, 30000, 0).kind == BINDINGCLAY_DONE
        && bindingclay_read(clay, 1, 0, bytes, 9).kind == BINDINGCLAY_PARKED && bindingclay_fork(clay, 1).kind == BINDINGCLAY_DONE
        && bindingclay_file_bytes(clay, bytes_of("f"), 1, bytes, 30000).kind == BINDINGCLAY_DONE;
    free(bytes);
    return all;
}

static void memory(void)
{
    bindingclay_limits limits = BINDINGCLAY_LIMITS;
    limits.spare_max = BINDINGCLAY_MOST_CAPACITY;
    bindingclay clay = { NULL };
    HOLDS(bindingclay_open_within(&limits, &clay.kernel));
    bindingclay_memory_use use = bindingclay_memory(clay);
    HOLDS(use.held == 0 && use.peak == 0 && use.most == UINT64_MAX && use.spare == 0);
    HOLDS(all_find_memory(clay));
    use = bindingclay_memory(clay);
    HOLDS(30000 < use.held && use.held < use.peak && use.most == UINT64_MAX);
    bindingclay_free(clay);

    /* as much as that run took is enough, and one byte less isn't */
    limits.memory = use.peak;
    HOLDS(bindingclay_open_within(&limits, &clay.kernel));
    HOLDS(all_find_memory(clay));
    bindingclay_memory_use within = bindingclay_memory(clay);
    HOLDS(within.held == use.held && within.peak == use.peak && within.most == use.peak && within.spare == use.spare);
    bindingclay_free(clay);
    limits.memory = use.peak - 1;
    HOLDS(bindingclay_open_within(&limits, &clay.kernel));
    HOLDS(!all_find_memory(clay));
    HOLDS(bindingclay_memory(clay).peak < use.peak);
    bindingclay_free(clay);
}

/* Whole segments are kept, up to the limit. */
static void memory_that_is_kept(void)
{
    bindingclay_limits limits = BINDINGCLAY_LIMITS;
    HOLDS(spare_within(&limits) >= BINDINGCLAY_MOST_CAPACITY);
    limits.spare_max = UINT64_MAX - 1;
    HOLDS(spare_within(&limits) >= BINDINGCLAY_MOST_CAPACITY);
    for (uint64_t most = 0; most <= BINDINGCLAY_MOST_CAPACITY; most += 100 * SEGMENT - 1) {
        limits.spare_max = most;
        HOLDS(spare_within(&limits) == most / SEGMENT * SEGMENT);
    }
    /* if nobody says how much, it is a sixteenth of the kernel's memory */
    limits.spare_max = UINT64_MAX;
    limits.memory = 16 * 50 * SEGMENT - 1;
    HOLDS(spare_within(&limits) == 49 * SEGMENT);
    limits.memory = 16 * 50 * SEGMENT;
    HOLDS(spare_within(&limits) == 50 * SEGMENT);
}

/* A call that finds no memory gives back what was kept, and finds it as it is made again. */
static void memory_that_is_given_back(void)
{
    enum { MEMORY = 4000000, LONG = 3500000 };
    bindingclay_limits limits = BINDINGCLAY_LIMITS;
    limits.memory = MEMORY;
    limits.spare_max = MEMORY;
    bindingclay clay = kernel_within(&limits);
    bindingclay_ends ends = NEW_PIPE(clay, 1, false);
    DONE(bindingclay_set_pipe_sz(clay, 1, ends.read_end, BINDINGCLAY_MOST_CAPACITY), BINDINGCLAY_MOST_CAPACITY);
    DONE(put_many(clay, 1, ends.write_end, BINDINGCLAY_MOST_CAPACITY), BINDINGCLAY_MOST_CAPACITY);
    DONE(take(clay, 1, ends.read_end, BINDINGCLAY_MOST_CAPACITY), BINDINGCLAY_MOST_CAPACITY);
    DONE(put_many(clay, 1, ends.write_end, SEGMENT), SEGMENT);
    HOLDS(bindingclay_memory(clay).spare >= BINDINGCLAY_MOST_CAPACITY - SEGMENT);
    DONE(bindingclay_set_pipe_sz(clay, 1, ends.read_end, SEGMENT), SEGMENT);
    OTHER(put_many(clay, 1, ends.write_end, LONG), BINDINGCLAY_NO_MEMORY);
    HOLDS(bindingclay_memory(clay).spare == 0);
    PARKED(put_many(clay, 1, ends.write_end, LONG), 1);
    bindingclay_free(clay);
}

/* A guest at its limit gives some back, and goes on. */
static void a_guest_at_its_limit(void)
{
    bindingclay_limits limits = BINDINGCLAY_LIMITS;
    limits.memory = 100000;
    bindingclay clay = kernel_within(&limits);
    bindingclay_ends ends = NEW_PIPE(clay, 1, true);
    uint64_t put_in = 0;
    while (put_many(clay, 1, ends.write_end, 4096).kind == BINDINGCLAY_DONE)
        put_in += 4096;
    HOLDS(0 < put_in && bindingclay_memory(clay).held <= 100000);
    bindingclay_answer none = put_many(clay, 1, ends.write_end, 4096);
    HOLDS(none.kind == BINDINGCLAY_NO_MEMORY || none.error == EAGAIN);
    DONE(take(clay, 1, ends.read_end, 4096), 4096);
    DONE(put_many(clay, 1, ends.write_end, 4096), 4096);
    uint64_t held = bindingclay_memory(clay).held;
    DONE(bindingclay_exit(clay, 1), 0);
    bindingclay_memory_use after = bindingclay_memory(clay);
    HOLDS(after.held <= held && after.spare <= after.held);
    DONE(bindingclay_start(clay), 1);
    bindingclay_free(clay);
}

int main(void)
{
    structs_that_are_smaller();
    structs_of_no_version();
    fields_that_are_too_great();
    names();
    no_names();
    calls_that_wait();
    the_last_that_may_wait();
    none_may_wait();
    calls_of_each_process();
    calls_of_all_and_of_each();
    calls_of_each_come_first();
    capacities();
    files();
    numbers();
    memory();
    memory_that_is_kept();
    memory_that_is_given_back();
    a_guest_at_its_limit();
    return end();
}
