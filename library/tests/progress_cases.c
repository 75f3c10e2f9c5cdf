/* Whether a call that waits can make progress: amounts of bytes and of room, packets, files, FIFOs, polls and numbers. The answers are those of
 * write, open and poll of POSIX.1-2017, of splice(2), pipe(2), pipe(7) and fifo(7), and of the header. */
#define _GNU_SOURCE
#include "progress.h"

/* A large write makes progress by a byte of room. Each time it has taken as many bytes as went in. */
static void a_large_write_in_turns(void)
{
    bindingclay clay = kernel_with_process();
    NEW_PIPE(clay, 1, false);
    PARKED_WITH_BYTES(put_many(clay, 1, 1, LARGE), 1);
    WAITS_ON(clay, 1, WHOLE);
    DONE(take(clay, 1, 0, 1), 1);
    CAN(clay, 1);
    PARKED_WITH_BYTES(again(clay, 1), 1);
    WAITS_ON(clay, 1, WHOLE + 1);
    DONE(take(clay, 1, 0, 4462), 4462);
    CAN(clay, 1);
    PARKED_WITH_BYTES(again(clay, 1), 1);
    WAITS_ON(clay, 1, LARGE - 1);
    DONE(take(clay, 1, 0, 1), 1);
    CAN(clay, 1);
    /* it isn't tried by being asked */
    DONE(bindingclay_taken(clay, 1), LARGE - 1);
    DONE(again(clay, 1), LARGE);
    GONE(clay, 1);
    bindingclay_free(clay);
}

/* A write of at most 4,096 bytes goes in whole, and a poll finds room where there is room for as many. */
static void room_for_a_whole_write(void)
{
    bindingclay clay = kernel_with_process();
    NEW_PIPE(clay, 1, false);
    DONE(put_many(clay, 1, 1, WHOLE), WHOLE);
    PARKED(put_many(clay, 1, 1, SMALL), 1);
    bindingclay_pollfd out = { .fd = 1, .events = POLLIN | POLLOUT };
    PARKED(bindingclay_poll(clay, 1, &out, 1, true), 2);
    PARKED(put(clay, 1, 1, "z"), 3);
    DONE(take(clay, 1, 0, SMALL - 1), SMALL - 1);
    WAITS_ON(clay, 1, 0);
    WAITS_ON(clay, 2, 0);
    CAN(clay, 3);
    DONE(take(clay, 1, 0, 1), 1);
    CAN(clay, 1);
    CAN(clay, 2);
    /* each of them can, and the first that is tried takes the room */
    DONE(again(clay, 1), SMALL);
    WAITS_ON(clay, 2, 0);
    WAITS_ON(clay, 3, 0);
    bindingclay_free(clay);
}

/* An answer tells whether its step put bytes of a write into the pipe, and the write waits on. The answer that ends a write doesn't. */
static void what_moved(void)
{
    bindingclay clay = kernel_with_process();
    NEW_PIPE(clay, 1, false);
    NEW_PIPE(clay, 1, false);
    bindingclay_pollfd out = { .fd = 1, .events = POLLOUT };
    PARKED(take(clay, 1, 0, 9), 1);
    PARKED_WITH_BYTES(put_many(clay, 1, 1, WHOLE + 4), 2);
    /* in vain, by each function that tries again */
    PARKED(again(clay, 2), 2);
    PARKED(bindingclay_resume_poll(clay, 2, &out, 1), 2);
    PARKED(bindingclay_resume_of(clay, 1, 2, NULL, 0), 2);
    /* a write that has to go in whole, and one of a byte, find no room */
    PARKED(put_many(clay, 1, 1, SMALL), 3);
    PARKED(put(clay, 1, 1, "z"), 4);
    /* calls that never tell it, though a splice and a tee are of bytes */
    PARKED(bindingclay_poll(clay, 1, &out, 1, true), 5);
    PARKED(bindingclay_splice(clay, 1, 2, NULL, 1, NULL, 9, 0), 6);
    PARKED(bindingclay_tee(clay, 1, 2, 1, 9, 0), 7);
    SHORT(again(clay, 1), 9);
    RESUMES(clay, 1, 9, "aaaaaaaaa");
    DONE(take(clay, 1, 0, WHOLE), WHOLE - 9);
    DONE(again(clay, 4), 1);
    DONE(put_many(clay, 1, 1, WHOLE - 2), WHOLE - 2);
    /* one byte at a time, and the last one ends the write */
    PARKED_WITH_BYTES(again(clay, 2), 2);
    PARKED(again(clay, 2), 2);
    DONE(take(clay, 1, 0, 1), 1);
    PARKED_WITH_BYTES(bindingclay_resume_poll(clay, 2, &out, 1), 2);
    DONE(take(clay, 1, 0, 1), 1);
    PARKED_WITH_BYTES(bindingclay_resume_of(clay, 1, 2, NULL, 0), 2);
    DONE(take(clay, 1, 0, 1), 1);
    DONE(again(clay, 2), WHOLE + 4);
    OTHER(again(clay, 2), BINDINGCLAY_NO_CALL);
    PARKED(again(clay, 3), 3);
    FAULT(bindingclay_interrupt(clay, 3), EINTR);
    bindingclay_free(clay);
}

/* Two reads wait, and one of them gets what came. A read that is told to have too little room can still make progress. */
static void who_comes_first(void)
{
    bindingclay clay = kernel_with_process();
    NEW_PIPE(clay, 1, false);
    PARKED(take(clay, 1, 0, 9), 1);
    PARKED(take(clay, 1, 0, 9), 2);
    DONE(put(clay, 1, 1, "hello"), HELLO);
    SHORT(again(clay, 1), HELLO);
    CAN(clay, 1);
    CAN(clay, 2);
    RESUMES(clay, 2, 9, "hello");
    WAITS_ON(clay, 1, 0);
    DONE(put(clay, 1, 1, ""), 0);
    WAITS_ON(clay, 1, 0);
    bindingclay_free(clay);
}

/* A packet takes a place, however few bytes it has: a read of one byte makes room for one packet. */
static void packets(void)
{
    bindingclay clay = kernel_with_process();
    bindingclay_ends ends;
    DONE(bindingclay_pipe2(clay, 1, BINDINGCLAY_O_DIRECT, &ends), 0);
    PARKED(take(clay, 1, 0, 9), 1);
    WAITS_ON(clay, 1, 0);
    DONE(put(clay, 1, 1, "hello"), HELLO);
    CAN(clay, 1);
    RESUMES(clay, 1, 9, "hello");
    PARKED_WITH_BYTES(put_many(clay, 1, 1, LARGE), 2);
    PARKED(put(clay, 1, 1, "z"), 3);
    bindingclay_pollfd out = { .fd = 1, .events = POLLOUT };
    PARKED(bindingclay_poll(clay, 1, &out, 1, true), 4);
    WAITS_ON(clay, 2, WHOLE);
    WAITS_ON(clay, 3, 0);
    WAITS_ON(clay, 4, 0);
    DONE(take(clay, 1, 0, 1), 1);
    for (uint64_t number = 2; number <= 4; number++)
        CAN(clay, number);
    PARKED_WITH_BYTES(again(clay, 2), 2);
    WAITS_ON(clay, 2, WHOLE + 4096);
    WAITS_ON(clay, 3, 0);
    DONE(take(clay, 1, 0, 1), 1);
    DONE(again(clay, 2), LARGE);
    WAITS_ON(clay, 4, 0);
    DONE(bindingclay_set_pipe_sz(clay, 1, 0, 2 * WHOLE), 2 * WHOLE);
    DONE(again(clay, 3), 1);
    CAN(clay, 4);
    DONE(bindingclay_resume_poll(clay, 4, &out, 1), 1);
    bindingclay_free(clay);
}

/* A splice from a file waits for room. It ends with 0 where nothing is left behind its offset. */
static void sources_that_end(void)
{
    for (int way = 0; way < 5; way++) {
        const uint64_t first = 1, *from_offset = way == 4 ? &first : NULL;
        bindingclay clay = kernel_with_process();
        NEW_PIPE(clay, 1, false);
        DONE(open_text(clay, 1, "f", O_RDWR | O_CREAT), 2);
        DONE(put(clay, 1, 2, "hello"), HELLO);
        DONE(bindingclay_lseek(clay, 1, 2, 0, SEEK_SET), 0);
        DONE(put_many(clay, 1, 1, WHOLE), WHOLE);
        PARKED(bindingclay_splice(clay, 1, 2, from_offset, 1, NULL, 100, 0), 1);
        DONE(bindingclay_lseek(clay, 1, 2, 4, SEEK_SET), 4);
        DONE(open_text(clay, 1, "f", O_RDONLY), 3);
        WAITS_ON(clay, 1, 0);
        if (way == 0)
            DONE(bindingclay_lseek(clay, 1, 2, 1000, SEEK_SET), 1000);
        else if (way == 1)
            DONE(take(clay, 1, 2, 1), 1);
        else if (way == 2)
            DONE(put(clay, 1, 2, "O"), 1);
        else if (way == 3)
            DONE(open_text(clay, 1, "f", O_WRONLY | O_TRUNC), 4);
        if (way == 4) {
            /* at an offset that was given, the file's own doesn't matter */
            DONE(bindingclay_lseek(clay, 1, 2, 1000, SEEK_SET), 1000);
            WAITS_ON(clay, 1, 0);
            DONE(open_text(clay, 1, "f", O_WRONLY | O_TRUNC), 4);
        }
        CAN(clay, 1);
        DONE(again(clay, 1), 0);
        GONE(clay, 1);
        bindingclay_free(clay);
    }
}

/* A splice from a file gets room, and one into a file without room gets bytes, which ends it by an error. */
static void files(void)
{
    bindingclay clay = new_kernel(1, HELLO);
    DONE(bindingclay_start(clay), 1);
    NEW_PIPE(clay, 1, false);
    NEW_PIPE(clay, 1, false);
    DONE(open_text(clay, 1, "f", O_RDWR | O_CREAT), 4);
    DONE(put(clay, 1, 4, "hello"), HELLO);
    DONE(put_many(clay, 1, 1, WHOLE), WHOLE);
    const uint64_t start = 0;
    PARKED(bindingclay_splice(clay, 1, 4, &start, 1, NULL, 100, 0), 1);
    PARKED(bindingclay_splice(clay, 1, 2, NULL, 4, NULL, 100, 0), 2);
    PARKED(bindingclay_splice(clay, 1, 2, NULL, 4, &start, 3, 0), 3);
    for (uint64_t number = 1; number <= 3; number++)
        WAITS_ON(clay, number, 0);
    DONE(take(clay, 1, 0, 1), 1);
    CAN(clay, 1);
    DONE(again(clay, 1), 1);
    DONE(put(clay, 1, 3, "HELLO"), HELLO);
    CAN(clay, 2);
    CAN(clay, 3);
    FAULT(again(clay, 2), EFBIG);
    DONE(again(clay, 3), 3);
    HAS_FILE(clay, "f", "HELlo");
    bindingclay_free(clay);
}

/* An open of a FIFO makes progress once it met its other end, and then for good. */
static void opens(void)
{
    for (int way = 0; way < 4; way++) {
        bool reads = way % 2 == 0;
        bindingclay clay = kernel_with_process();
        DONE(mkfifo_text(clay, 1, "q"), 0);
        DONE(mkfifo_text(clay, 1, "r"), 0);
        PARKED(open_text(clay, 1, "q", reads ? O_RDONLY : O_WRONLY), 1);
        WAITS_ON(clay, 1, 0);
        /* one of the same end, and ends of another FIFO, don't help */
        PARKED(open_text(clay, 1, "q", reads ? O_RDONLY : O_WRONLY), 2);
        DONE(open_text(clay, 1, "r", O_RDWR), 0);
        DONE(unlink_text(clay, 1, "r"), 0);
        WAITS_ON(clay, 1, 0);
        WAITS_ON(clay, 2, 0);
        DONE(open_text(clay, 1, "q", way >= 2 ? O_RDWR : reads ? O_WRONLY : O_RDONLY), 1);
        CAN(clay, 1);
        DONE(bindingclay_close(clay, 1, 1), 0);
        CAN(clay, 1);
        DONE(again(clay, 1), 1);
        GONE(clay, 1);
        CAN(clay, 2);
        FAULT(bindingclay_interrupt(clay, 2), EINTR);
        GONE(clay, 2);
        bindingclay_free(clay);
    }
}

/* An open that is interrupted, or whose process exits, is gone, and nobody met it. */
static void opens_that_go(void)
{
    bindingclay clay = kernel_with_process();
    DONE(mkfifo_text(clay, 1, "q"), 0);
    DONE(bindingclay_start(clay), 2);
    PARKED(open_text(clay, 2, "q", O_RDONLY), 1);
    PARKED(open_text(clay, 2, "q", O_RDONLY), 2);
    FAULT(bindingclay_interrupt(clay, 1), EINTR);
    GONE(clay, 1);
    WAITS_ON(clay, 2, 0);
    DONE(bindingclay_exit(clay, 2), 0);
    GONE(clay, 2);
    PARKED(open_text(clay, 1, "q", O_WRONLY), 3);
    WAITS_ON(clay, 3, 0);
    bindingclay_free(clay);
}

/* An open that waits is a writer. An error that ends it is the end of the file for a read. */
static void an_open_that_fails(void)
{
    bindingclay clay = kernel_with_process();
    DONE(mkfifo_text(clay, 1, "q"), 0);
    DONE(bindingclay_start(clay), 2);
    PARKED(open_text(clay, 2, "q", O_WRONLY), 1);
    DONE(open_text(clay, 1, "q", O_RDONLY), 0);
    PARKED(take(clay, 1, 0, 9), 2);
    NEW_PIPE(clay, 2, false);
    DONE(bindingclay_dup_fd(clay, 2, 0, 2), 2);
    for (int32_t fd = 3; fd < 256; fd++)
        DONE(bindingclay_dup(clay, 2, 0), fd);
    WAITS_ON(clay, 2, 0);
    CAN(clay, 1);
    FAULT(again(clay, 1), EMFILE);
    CAN(clay, 2);
    RESUMES(clay, 2, 9, "");
    bindingclay_free(clay);
}

/* A poll can make progress where one of its entries can: entries with a negative descriptor never do, and no entries neither. */
static void polls(void)
{
    bindingclay clay = kernel_with_process();
    NEW_PIPE(clay, 1, false);
    NEW_PIPE(clay, 1, false);
    bindingclay_pollfd entries[] = { { -1, POLLIN, 0 }, { 1, POLLIN, 0 }, { 0, POLLIN, 0 }, { 2, POLLIN, 0 } };
    PARKED(bindingclay_poll(clay, 1, entries, 4, true), 1);
    PARKED(bindingclay_poll(clay, 1, entries, 1, true), 2);
    PARKED(bindingclay_poll(clay, 1, NULL, 0, true), 3);
    /* it asks what it found open when it began */
    DONE(bindingclay_close(clay, 1, 2), 0);
    DONE(put(clay, 1, 3, "hello"), HELLO);
    CAN(clay, 1);
    DONE(bindingclay_resume_poll(clay, 1, entries, 4), 1);
    HOLDS(entries[0].revents == 0 && entries[1].revents == 0 && entries[2].revents == 0 && entries[3].revents == POLLIN);
    WAITS_ON(clay, 2, 0);
    WAITS_ON(clay, 3, 0);
    bindingclay_free(clay);
}

static void numbers_without_a_call(void)
{
    static const uint64_t NUMBERS[] = { 0, 1, 2, UINT64_MAX - 1, UINT64_MAX };
    bindingclay clay = new_kernel(UINT64_MAX - 1, 0);
    for (size_t i = 0; i < sizeof NUMBERS / sizeof *NUMBERS; i++)
        GONE(clay, NUMBERS[i]);
    DONE(bindingclay_start(clay), 1);
    NEW_PIPE(clay, 1, false);
    PARKED(take(clay, 1, 0, 9), UINT64_MAX - 1);
    WAITS_ON(clay, UINT64_MAX - 1, 0);
    GONE(clay, UINT64_MAX);
    bindingclay_free(clay);
    clay = new_kernel(0, 0);
    DONE(bindingclay_start(clay), 1);
    NEW_PIPE(clay, 1, false);
    GONE(clay, 0);
    PARKED_WITH_BYTES(put_many(clay, 1, 1, LARGE), 0);
    WAITS_ON(clay, 0, WHOLE);
    GONE(clay, 1);
    bindingclay_free(clay);
}

int main(void)
{
    a_large_write_in_turns();
    room_for_a_whole_write();
    what_moved();
    who_comes_first();
    packets();
    sources_that_end();
    files();
    opens();
    opens_that_go();
    an_open_that_fails();
    polls();
    numbers_without_a_call();
    return end();
}
