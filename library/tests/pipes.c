/* Pipes: pipe, read, write and close, with each refusal (pipe; read; write; close; pipe(7)). */
#include "check.h"

#include <fcntl.h>

/* Descriptors that are never open. */
static const int32_t NOT_OPEN[] = { 99, 255, 256, -1, INT32_MAX, INT32_MIN };
enum { NOT_OPEN_COUNT = sizeof NOT_OPEN / sizeof *NOT_OPEN };

static void ends_of_pipes(void)
{
    bindingclay clay = kernel_with_process();
    bindingclay_ends ends = NEW_PIPE(clay, 1, false);
    HOLDS(ends.read_end == 0 && ends.write_end == 1);
    ends = NEW_PIPE(clay, 1, true);
    HOLDS(ends.read_end == 2 && ends.write_end == 3);
    DONE(bindingclay_get_fl(clay, 1, 0), O_RDONLY);
    DONE(bindingclay_get_fl(clay, 1, 1), O_WRONLY);
    DONE(bindingclay_get_fl(clay, 1, 2), O_RDONLY | O_NONBLOCK);
    DONE(bindingclay_get_fl(clay, 1, 3), O_WRONLY | O_NONBLOCK);
    /* the read end gets the least free descriptor, and the write end the next one */
    DONE(bindingclay_close(clay, 1, 1), 0);
    ends = NEW_PIPE(clay, 1, false);
    HOLDS(ends.read_end == 1 && ends.write_end == 4);
    bindingclay_free(clay);
}

static void full_tables(void)
{
    bindingclay clay = kernel_with_process();
    for (int i = 0; i < 127; i++)
        NEW_PIPE(clay, 1, false);
    DONE(bindingclay_dup(clay, 1, 0), 254);
    /* one descriptor is free */
    bindingclay_ends ends = { -7, -8 };
    FAULT(bindingclay_pipe(clay, 1, false, &ends), EMFILE);
    DONE(bindingclay_dup(clay, 1, 0), 255);
    FAULT(bindingclay_pipe(clay, 1, false, &ends), EMFILE);
    HOLDS(ends.read_end == -7 && ends.write_end == -8);
    DONE(bindingclay_close(clay, 1, 255), 0);
    DONE(bindingclay_close(clay, 1, 254), 0);
    ends = NEW_PIPE(clay, 1, false);
    HOLDS(ends.read_end == 254 && ends.write_end == 255);
    bindingclay_free(clay);
}

static void full_system(void)
{
    bindingclay clay = new_kernel(1, 0);
    bindingclay_ends ends = { -7, -8 };
    /* 16 processes with 128 pipes have 4,096 open file descriptions */
    for (uint32_t pid = 1; pid <= 16; pid++) {
        DONE(bindingclay_start(clay), pid);
        for (int i = 0; i < 128; i++)
            NEW_PIPE(clay, pid, false);
    }
    DONE(bindingclay_start(clay), 17);
    FAULT(bindingclay_pipe(clay, 17, false, &ends), ENFILE);
    FAULT(open_text(clay, 17, "f", O_RDONLY | O_CREAT), ENFILE);
    /* EMFILE comes first */
    FAULT(bindingclay_pipe(clay, 1, false, &ends), EMFILE);
    /* one more is possible, and not two */
    DONE(bindingclay_close(clay, 1, 0), 0);
    FAULT(bindingclay_pipe(clay, 17, false, &ends), ENFILE);
    HOLDS(ends.read_end == -7 && ends.write_end == -8);
    DONE(open_text(clay, 17, "f", O_RDONLY | O_CREAT), 0);
    DONE(bindingclay_close(clay, 1, 1), 0);
    DONE(bindingclay_close(clay, 1, 2), 0);
    ends = NEW_PIPE(clay, 17, false);
    HOLDS(ends.read_end == 1 && ends.write_end == 2);
    bindingclay_free(clay);
}

static void reads_of_pipes(void)
{
    bindingclay clay = kernel_with_process();
    NEW_PIPE(clay, 1, true);
    for (int i = 0; i < NOT_OPEN_COUNT; i++) {
        FAULT(take(clay, 1, NOT_OPEN[i], 5), EBADF);
        FAULT(take(clay, 1, NOT_OPEN[i], 0), EBADF);
    }
    FAULT(take(clay, 1, 1, 5), EBADF);
    FAULT(take(clay, 1, 1, 0), EBADF);
    FAULT(take(clay, 1, 0, 5), EAGAIN);
    READS(clay, 1, 0, 0, "");
    DONE(put(clay, 1, 1, "hello"), 5);
    DONE(put(clay, 1, 1, " you"), 4);
    READS(clay, 1, 0, 0, "");
    READS(clay, 1, 0, 3, "hel");
    READS(clay, 1, 0, 3, "lo ");
    READS(clay, 1, 0, 3, "you");
    FAULT(take(clay, 1, 0, 1), EAGAIN);
    /* the bytes come before the end of file, which comes again and again */
    DONE(put(clay, 1, 1, "bye"), 3);
    DONE(bindingclay_close(clay, 1, 1), 0);
    READS(clay, 1, 0, 100, "bye");
    READS(clay, 1, 0, 100, "");
    READS(clay, 1, 0, 100, "");
    bindingclay_free(clay);
}

static void small_writes(void)
{
    bindingclay clay = kernel_with_process();
    NEW_PIPE(clay, 1, true);
    for (int i = 0; i < NOT_OPEN_COUNT; i++) {
        FAULT(put(clay, 1, NOT_OPEN[i], "a"), EBADF);
        FAULT(put(clay, 1, NOT_OPEN[i], ""), EBADF);
    }
    FAULT(put(clay, 1, 0, "a"), EBADF);
    FAULT(put(clay, 1, 0, ""), EBADF);
    DONE(put(clay, 1, 1, ""), 0);
    /* 4,096 bytes go in whole or not at all: 61,441 leave room for one less */
    DONE(put_many(clay, 1, 1, 61441), 61441);
    FAULT(put_many(clay, 1, 1, 4096), EAGAIN);
    DONE(put_many(clay, 1, 1, 4095), 4095);
    FAULT(put(clay, 1, 1, "a"), EAGAIN);
    DONE(put(clay, 1, 1, ""), 0);
    DONE(take(clay, 1, 0, 4096), 4096);
    DONE(put_many(clay, 1, 1, 4096), 4096);
    DONE(take(clay, 1, 0, 70000), 65536);
    bindingclay_free(clay);
}

static void large_writes(void)
{
    bindingclay clay = kernel_with_process();
    NEW_PIPE(clay, 1, true);
    /* where it may not wait, as much goes in as there is room for */
    DONE(put_many(clay, 1, 1, 70000), 65536);
    FAULT(put_many(clay, 1, 1, 4097), EAGAIN);
    DONE(take(clay, 1, 0, 10), 10);
    DONE(put_many(clay, 1, 1, 4097), 10);
    /* where it may, it waits until all went in */
    DONE(bindingclay_set_fl(clay, 1, 1, 0), 0);
    DONE(take(clay, 1, 0, 65536), 65536);
    PARKED_WITH_BYTES(put_many(clay, 1, 1, 70000), 1);
    PARKED(again(clay, 1), 1);
    DONE(take(clay, 1, 0, 4463), 4463);
    PARKED_WITH_BYTES(again(clay, 1), 1);
    DONE(take(clay, 1, 0, 1), 1);
    DONE(again(clay, 1), 70000);
    DONE(take(clay, 1, 0, 70000), 65536);
    FAULT(take(clay, 1, 0, 1), EAGAIN);
    bindingclay_free(clay);
}

/* Of more than 16,777,216 bytes the first so many are written: the count tells. */
static void longest_writes(void)
{
    bindingclay clay = kernel_with_process();
    NEW_PIPE(clay, 1, false);
    PARKED_WITH_BYTES(put_many(clay, 1, 1, 16777217), 1);
    /* 65,536 went in as it began, and as many go in at each turn: 256 times in all */
    for (int turn = 1; turn < 255; turn++) {
        DONE(take(clay, 1, 0, 65536), 65536);
        PARKED_WITH_BYTES(again(clay, 1), 1);
    }
    DONE(take(clay, 1, 0, 65536), 65536);
    DONE(again(clay, 1), 16777216);
    DONE(take(clay, 1, 0, 65537), 65536);
    /* so it is with a read, which waits where there is nothing */
    PARKED(take(clay, 1, 0, 16777217), 2);
    PARKED(again(clay, 2), 2);
    bindingclay_free(clay);
}

static void without_a_reader(void)
{
    bindingclay clay = kernel_with_process();
    NEW_PIPE(clay, 1, false);
    PARKED_WITH_BYTES(put_many(clay, 1, 1, 70000), 1);
    PARKED(put(clay, 1, 1, "b"), 2);
    DONE(bindingclay_close(clay, 1, 0), 0);
    /* of the one some bytes were taken, of the other none */
    DONE_WITH_SIGPIPE(again(clay, 1), 65536);
    FAULT(again(clay, 2), EPIPE);
    FAULT(put(clay, 1, 1, "b"), EPIPE);
    FAULT(put_many(clay, 1, 1, 70000), EPIPE);
    DONE(put(clay, 1, 1, ""), 0);
    bindingclay_free(clay);
}

static void closes(void)
{
    bindingclay clay = kernel_with_process();
    NEW_PIPE(clay, 1, false);
    for (int i = 0; i < NOT_OPEN_COUNT; i++)
        FAULT(bindingclay_close(clay, 1, NOT_OPEN[i]), EBADF);
    DONE(bindingclay_close(clay, 1, 0), 0);
    FAULT(bindingclay_close(clay, 1, 0), EBADF);
    DONE(bindingclay_close(clay, 1, 1), 0);
    FAULT(bindingclay_close(clay, 1, 1), EBADF);
    bindingclay_free(clay);
}

int main(void)
{
    ends_of_pipes();
    full_tables();
    full_system();
    reads_of_pipes();
    small_writes();
    large_writes();
    longest_writes();
    without_a_reader();
    closes();
    return end();
}
