/* Whether a call that waits can make progress: each kind of call that waits for bytes or room, beside each step that may help it. The answers are
 * those of read, write and poll of POSIX.1-2017, of splice(2), tee(2) and pipe(7), and of the header. */
#define _GNU_SOURCE
#include "progress.h"

/* Descriptors of processes 1 and 2: the pipe that a call takes from, the one that it puts into, another pipe, and a file of "hello". */
enum { FROM_READ, FROM_WRITE, INTO_READ, INTO_WRITE, OTHER_READ, OTHER_WRITE, FILE_FD };

/* Calls that want bytes, and calls that want room. */
enum kind { READ, SPLICE, TEE, POLL, SMALL_WRITE, LARGE_WRITE };

static bindingclay_pollfd entry;

/* The call of a kind, which process 2 makes. */
static bindingclay_answer begin(bindingclay clay, enum kind kind, bool wants_room)
{
    switch (kind) {
    case READ:
        return take(clay, 2, FROM_READ, 9);
    case SPLICE:
        return bindingclay_splice(clay, 2, FROM_READ, NULL, INTO_WRITE, NULL, 100, 0);
    case TEE:
        return bindingclay_tee(clay, 2, FROM_READ, INTO_WRITE, 100, 0);
    case POLL:
        entry = (bindingclay_pollfd){ wants_room ? INTO_WRITE : FROM_READ, wants_room ? POLLOUT : POLLIN, 77 };
        return bindingclay_poll(clay, 2, &entry, 1, true);
    case SMALL_WRITE:
        return put_many(clay, 2, INTO_WRITE, SMALL);
    default:
        return put_many(clay, 2, INTO_WRITE, LARGE);
    }
}

/* A kernel whose call 1 is one of process 2 that waits. If it wants room, the pipe that it puts into is full, and the other one has bytes. */
static bindingclay with_call(enum kind kind, bool wants_room)
{
    bindingclay clay = kernel_with_process();
    for (int i = 0; i < 3; i++)
        NEW_PIPE(clay, 1, false);
    DONE(open_text(clay, 1, "f", O_RDWR | O_CREAT), FILE_FD);
    DONE(put(clay, 1, FILE_FD, "hello"), HELLO);
    DONE(bindingclay_fork(clay, 1), 2);
    if (wants_room) {
        DONE(put(clay, 1, FROM_WRITE, "hello"), HELLO);
        if (kind != LARGE_WRITE)
            DONE(put_many(clay, 1, INTO_WRITE, WHOLE), WHOLE);
    }
    answers(__FILE__, __LINE__, "begin", begin(clay, kind, wants_room), that_waits(1, kind == LARGE_WRITE));
    return clay;
}

/* The poll of number 1 finds so much. */
static void finds(bindingclay clay, int16_t revents)
{
    DONE(bindingclay_resume_poll(clay, 1, &entry, 1), 1);
    HOLDS(entry.revents == revents);
}

/* What call 1 answers after the bytes "hello" came. */
static void gets_bytes(bindingclay clay, enum kind kind)
{
    if (kind == READ)
        RESUMES(clay, 1, 9, "hello");
    else if (kind == POLL)
        finds(clay, POLLIN);
    else
        DONE(again(clay, 1), HELLO);
}

/* What it answers after the last writer left. */
static void meets_the_end(bindingclay clay, enum kind kind)
{
    if (kind == POLL)
        finds(clay, POLLHUP);
    else
        DONE(again(clay, 1), 0);
}

/* What it answers after room for at least 8,192 bytes came. */
static void gets_room(bindingclay clay, enum kind kind)
{
    if (kind == POLL)
        finds(clay, POLLOUT);
    else
        DONE(again(clay, 1), kind == SMALL_WRITE ? SMALL : kind == LARGE_WRITE ? LARGE : HELLO);
}

/* What it answers after the last reader left. A write that has bytes in the pipe tells them. */
static void is_broken(bindingclay clay, enum kind kind)
{
    if (kind == POLL)
        finds(clay, POLLERR);
    else if (kind == LARGE_WRITE)
        DONE_WITH_SIGPIPE(again(clay, 1), WHOLE);
    else
        FAULT(again(clay, 1), EPIPE);
}

/* Process 1 moves bytes as call 2, which waits. */
static void other_waits(bindingclay clay, int32_t from, int32_t to)
{
    PARKED(bindingclay_splice(clay, 1, from, NULL, to, NULL, 8192, 0), 2);
}

/* What may help call 1, in two steps: after the first one it still waits, and after the second one it can make progress. */
typedef void step(bindingclay clay);

struct helps {
    step *first;
    step *then;
    void (*answers)(bindingclay clay, enum kind kind);
};

static void bytes_elsewhere(bindingclay clay)
{
    DONE(put(clay, 1, OTHER_WRITE, "hello"), HELLO);
}

static void a_write(bindingclay clay)
{
    DONE(put(clay, 1, FROM_WRITE, "hello"), HELLO);
}

static void a_splice_at_the_end(bindingclay clay)
{
    DONE(bindingclay_splice(clay, 1, FILE_FD, NULL, FROM_WRITE, NULL, 100, 0), 0);
}

static void a_splice_of_bytes(bindingclay clay)
{
    const uint64_t start = 0;
    DONE(bindingclay_splice(clay, 1, FILE_FD, &start, FROM_WRITE, NULL, 100, 0), HELLO);
}

static void a_tee_of_bytes(bindingclay clay)
{
    DONE(bindingclay_tee(clay, 1, OTHER_READ, FROM_WRITE, 100, 0), HELLO);
}

static void bytes_for_a_call_that_waits(bindingclay clay)
{
    other_waits(clay, OTHER_READ, FROM_WRITE);
    WAITS_ON(clay, 2, 0);
    bytes_elsewhere(clay);
}

static void the_end_of_it_with_bytes(bindingclay clay)
{
    CAN(clay, 2);
    DONE(again(clay, 2), HELLO);
}

static void one_of_two_writers_goes(bindingclay clay)
{
    DONE(bindingclay_close(clay, 2, FROM_WRITE), 0);
}

static void a_close_of_the_writer(bindingclay clay)
{
    DONE(bindingclay_close(clay, 1, FROM_WRITE), 0);
}

static void a_dup2_over_the_writer(bindingclay clay)
{
    DONE(bindingclay_dup2(clay, 1, OTHER_READ, FROM_WRITE), FROM_WRITE);
}

static void an_exit(bindingclay clay)
{
    DONE(bindingclay_exit(clay, 1), 0);
}

static void a_call_keeps_the_writer(bindingclay clay)
{
    other_waits(clay, OTHER_READ, FROM_WRITE);
    one_of_two_writers_goes(clay);
    a_close_of_the_writer(clay);
}

static void an_interrupt(bindingclay clay)
{
    FAULT(bindingclay_interrupt(clay, 2), EINTR);
}

static void a_call_keeps_the_writer_and_meets_the_end(bindingclay clay)
{
    a_call_keeps_the_writer(clay);
    for (uint32_t pid = 1; pid <= 2; pid++)
        DONE(bindingclay_close(clay, pid, OTHER_WRITE), 0);
}

static void the_end_of_it_without_bytes(bindingclay clay)
{
    CAN(clay, 2);
    DONE(again(clay, 2), 0);
}

static const struct helps WITH_BYTES[] = { { bytes_elsewhere, a_write, gets_bytes }, { a_splice_at_the_end, a_splice_of_bytes, gets_bytes },
    { bytes_elsewhere, a_tee_of_bytes, gets_bytes }, { bytes_for_a_call_that_waits, the_end_of_it_with_bytes, gets_bytes },
    { one_of_two_writers_goes, a_close_of_the_writer, meets_the_end }, { one_of_two_writers_goes, a_dup2_over_the_writer, meets_the_end },
    { one_of_two_writers_goes, an_exit, meets_the_end }, { a_call_keeps_the_writer, an_interrupt, meets_the_end },
    { a_call_keeps_the_writer_and_meets_the_end, the_end_of_it_without_bytes, meets_the_end } };

static void a_read_of_nothing(bindingclay clay)
{
    DONE(take(clay, 1, INTO_READ, 0), 0);
}

static void a_read(bindingclay clay)
{
    DONE(take(clay, 1, INTO_READ, 8192), 8192);
}

static void a_splice_for_room(bindingclay clay)
{
    DONE(bindingclay_splice(clay, 1, INTO_READ, NULL, OTHER_WRITE, NULL, 8192, 0), 8192);
}

static void the_capacity_that_it_has(bindingclay clay)
{
    DONE(bindingclay_set_pipe_sz(clay, 1, INTO_READ, WHOLE), WHOLE);
}

static void a_greater_capacity(bindingclay clay)
{
    DONE(bindingclay_set_pipe_sz(clay, 1, INTO_READ, 2 * WHOLE), 2 * WHOLE);
}

static void the_other_pipe_is_full(bindingclay clay)
{
    DONE(put_many(clay, 1, OTHER_WRITE, WHOLE), WHOLE);
    other_waits(clay, INTO_READ, OTHER_WRITE);
    WAITS_ON(clay, 2, 0);
}

static void room_for_a_call_that_waits(bindingclay clay)
{
    the_other_pipe_is_full(clay);
    DONE(take(clay, 1, OTHER_READ, WHOLE), WHOLE);
}

static void the_end_of_it_with_room(bindingclay clay)
{
    CAN(clay, 2);
    DONE(again(clay, 2), 8192);
}

static void one_of_two_readers_goes(bindingclay clay)
{
    DONE(bindingclay_close(clay, 2, INTO_READ), 0);
}

static void a_close_of_the_reader(bindingclay clay)
{
    DONE(bindingclay_close(clay, 1, INTO_READ), 0);
}

static void a_dup2_over_the_reader(bindingclay clay)
{
    DONE(bindingclay_dup2(clay, 1, OTHER_READ, INTO_READ), INTO_READ);
}

static void a_call_keeps_the_reader(bindingclay clay)
{
    the_other_pipe_is_full(clay);
    one_of_two_readers_goes(clay);
    a_close_of_the_reader(clay);
}

static void a_call_keeps_the_reader_and_is_broken(bindingclay clay)
{
    a_call_keeps_the_reader(clay);
    for (uint32_t pid = 1; pid <= 2; pid++)
        DONE(bindingclay_close(clay, pid, OTHER_READ), 0);
}

static void the_error_that_ends_it(bindingclay clay)
{
    CAN(clay, 2);
    FAULT(again(clay, 2), EPIPE);
}

static const struct helps WITH_ROOM[] = { { a_read_of_nothing, a_read, gets_room }, { bytes_elsewhere, a_splice_for_room, gets_room },
    { the_capacity_that_it_has, a_greater_capacity, gets_room }, { room_for_a_call_that_waits, the_end_of_it_with_room, gets_room },
    { one_of_two_readers_goes, a_close_of_the_reader, is_broken }, { one_of_two_readers_goes, a_dup2_over_the_reader, is_broken },
    { one_of_two_readers_goes, an_exit, is_broken }, { a_call_keeps_the_reader, an_interrupt, is_broken },
    { a_call_keeps_the_reader_and_is_broken, the_error_that_ends_it, is_broken } };

/* A call of a kind waits, and the steps of a row are made. */
static void try_row(enum kind kind, bool wants_room, const struct helps *row)
{
    uint64_t taken = kind == LARGE_WRITE ? WHOLE : 0;
    bindingclay clay = with_call(kind, wants_room);
    WAITS_ON(clay, 1, taken);
    row->first(clay);
    WAITS_ON(clay, 1, taken);
    row->then(clay);
    CAN(clay, 1);
    DONE(bindingclay_taken(clay, 1), taken);
    row->answers(clay, kind);
    GONE(clay, 1);
    bindingclay_free(clay);
}

static void each_kind_beside_each_step(void)
{
    static const enum kind OF_BYTES[] = { READ, SPLICE, TEE, POLL }, OF_ROOM[] = { SMALL_WRITE, LARGE_WRITE, SPLICE, TEE, POLL };
    for (size_t i = 0; i < sizeof OF_BYTES / sizeof *OF_BYTES; i++)
        for (size_t j = 0; j < sizeof WITH_BYTES / sizeof *WITH_BYTES; j++)
            try_row(OF_BYTES[i], false, &WITH_BYTES[j]);
    for (size_t i = 0; i < sizeof OF_ROOM / sizeof *OF_ROOM; i++)
        for (size_t j = 0; j < sizeof WITH_ROOM / sizeof *WITH_ROOM; j++)
            try_row(OF_ROOM[i], true, &WITH_ROOM[j]);
}

/* A call that is interrupted, or whose process exits, is gone. */
static void calls_that_go(void)
{
    for (int kind = READ; kind <= LARGE_WRITE; kind++) {
        bool wants_room = kind == SMALL_WRITE || kind == LARGE_WRITE;
        bindingclay clay = with_call((enum kind)kind, wants_room);
        WAITS_ON(clay, 1, kind == LARGE_WRITE ? WHOLE : 0);
        if (kind == LARGE_WRITE)
            DONE(bindingclay_interrupt(clay, 1), WHOLE);
        else
            FAULT(bindingclay_interrupt(clay, 1), EINTR);
        GONE(clay, 1);
        bindingclay_free(clay);
        clay = with_call((enum kind)kind, wants_room);
        DONE(bindingclay_exit(clay, 2), 0);
        GONE(clay, 1);
        bindingclay_free(clay);
    }
}

int main(void)
{
    each_kind_beside_each_step();
    calls_that_go();
    return end();
}
