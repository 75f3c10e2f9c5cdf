/* Calls that wait: their numbers, resume and interrupt, and the room of a read that is resumed (read; write; open; poll, EINTR). */
#include "check.h"

#include <fcntl.h>
#include <poll.h>

static void no_calls(void)
{
    bindingclay clay = kernel_with_process();
    static const uint64_t NUMBERS[] = { 0, 1, 2, UINT64_MAX - 1, UINT64_MAX };
    for (size_t i = 0; i < sizeof NUMBERS / sizeof *NUMBERS; i++) {
        bindingclay_pollfd entry = { .revents = 77 };
        OTHER(again(clay, NUMBERS[i]), BINDINGCLAY_NO_CALL);
        OTHER(bindingclay_interrupt(clay, NUMBERS[i]), BINDINGCLAY_NO_CALL);
        OTHER(bindingclay_resume_poll(clay, NUMBERS[i], &entry, 1), BINDINGCLAY_NO_CALL);
        OTHER(bindingclay_owner(clay, NUMBERS[i]), BINDINGCLAY_NO_CALL);
        OTHER(bindingclay_resume_of(clay, 0, NUMBERS[i], NULL, 0), BINDINGCLAY_NO_CALL);
        OTHER(bindingclay_interrupt_of(clay, 1, NUMBERS[i]), BINDINGCLAY_NO_CALL);
        OTHER(bindingclay_resume_poll_of(clay, 1, NUMBERS[i], &entry, 1), BINDINGCLAY_NO_CALL);
        HOLDS(entry.revents == 77);
    }
    bindingclay_free(clay);
}

static void numbers(void)
{
    bindingclay clay = new_kernel(UINT64_MAX - 3, 0);
    DONE(bindingclay_start(clay), 1);
    NEW_PIPE(clay, 1, false);
    PARKED(take(clay, 1, 0, 1), UINT64_MAX - 3);
    PARKED(take(clay, 1, 0, 1), UINT64_MAX - 2);
    FAULT(bindingclay_interrupt(clay, UINT64_MAX - 3), EINTR);
    PARKED(take(clay, 1, 0, 1), UINT64_MAX - 1);
    /* that was the last number, whichever calls ended */
    FAULT(bindingclay_interrupt(clay, UINT64_MAX - 1), EINTR);
    OTHER(take(clay, 1, 0, 1), BINDINGCLAY_CALLS_SPENT);
    bindingclay_pollfd entry = { .fd = 0, .events = 1, .revents = 77 };
    OTHER(bindingclay_poll(clay, 1, &entry, 1, true), BINDINGCLAY_CALLS_SPENT);
    HOLDS(entry.revents == 77);
    DONE(mkfifo_text(clay, 1, "q"), 0);
    OTHER(open_text(clay, 1, "q", O_RDONLY), BINDINGCLAY_CALLS_SPENT);
    NEW_PIPE(clay, 1, false);
    OTHER(bindingclay_splice(clay, 1, 0, NULL, 3, NULL, 5, 0), BINDINGCLAY_CALLS_SPENT);
    OTHER(bindingclay_tee(clay, 1, 0, 3, 5, 0), BINDINGCLAY_CALLS_SPENT);
    /* no byte of a write is taken that can't wait */
    OTHER(put_many(clay, 1, 1, 70000), BINDINGCLAY_CALLS_SPENT);
    DONE(put(clay, 1, 1, "a"), 1);
    RESUMES(clay, UINT64_MAX - 2, 1, "a");
    OTHER(take(clay, 1, 0, 1), BINDINGCLAY_CALLS_SPENT);
    bindingclay_free(clay);
    clay = new_kernel(UINT64_MAX, 0);
    DONE(bindingclay_start(clay), 1);
    NEW_PIPE(clay, 1, false);
    OTHER(take(clay, 1, 0, 1), BINDINGCLAY_CALLS_SPENT);
    bindingclay_free(clay);
}

/* A kernel whose first number is 0, with a process and a pipe. */
static bindingclay numbered_from_0(void)
{
    bindingclay clay = new_kernel(0, 0);
    DONE(bindingclay_start(clay), 1);
    NEW_PIPE(clay, 1, false);
    return clay;
}

/* The first number may be 0, and then the next one is 1. */
static void a_first_number_of_0(void)
{
    bindingclay clay = numbered_from_0();
    OTHER(bindingclay_owner(clay, 0), BINDINGCLAY_NO_CALL);
    PARKED(take(clay, 1, 0, 1), 0);
    DONE(bindingclay_owner(clay, 0), 1);
    PARKED(bindingclay_poll(clay, 1, NULL, 0, true), 1);
    DONE(put(clay, 1, 1, "a"), 1);
    RESUMES(clay, 0, 1, "a");
    OTHER(again(clay, 0), BINDINGCLAY_NO_CALL);
    FAULT(bindingclay_interrupt(clay, 1), EINTR);
    PARKED(take(clay, 1, 0, 1), 2);
    OTHER(bindingclay_interrupt(clay, 0), BINDINGCLAY_NO_CALL);
    bindingclay_free(clay);
}

/* A call whose number is 0 is resumed and interrupted as any other, by its number alone and by its process too. */
static void whatever_is_done_with_0(void)
{
    for (int way = 0; way < 2; way++) {
        bindingclay clay = numbered_from_0();
        bindingclay_pollfd entry = { .fd = 0, .events = POLLIN, .revents = 77 };
        PARKED(bindingclay_poll(clay, 1, &entry, 1, true), 0);
        OTHER(bindingclay_resume_poll_of(clay, 2, 0, &entry, 1), BINDINGCLAY_NO_CALL);
        DONE(put(clay, 1, 1, "a"), 1);
        DONE(way == 0 ? bindingclay_resume_poll(clay, 0, &entry, 1) : bindingclay_resume_poll_of(clay, 1, 0, &entry, 1), 1);
        HOLDS(entry.revents == POLLIN);
        bindingclay_free(clay);

        clay = numbered_from_0();
        PARKED(take(clay, 1, 0, 1), 0);
        OTHER(bindingclay_resume_of(clay, 2, 0, NULL, 0), BINDINGCLAY_NO_CALL);
        PARKED(way == 0 ? again(clay, 0) : bindingclay_resume_of(clay, 1, 0, NULL, 0), 0);
        OTHER(bindingclay_interrupt_of(clay, 2, 0), BINDINGCLAY_NO_CALL);
        DONE(bindingclay_owner(clay, 0), 1);
        FAULT(way == 0 ? bindingclay_interrupt(clay, 0) : bindingclay_interrupt_of(clay, 1, 0), EINTR);
        OTHER(bindingclay_owner(clay, 0), BINDINGCLAY_NO_CALL);
        OTHER(again(clay, 0), BINDINGCLAY_NO_CALL);
        PARKED(take(clay, 1, 0, 1), 1);
        bindingclay_free(clay);
    }
}

static void room_of_a_read(void)
{
    bindingclay clay = kernel_with_process();
    NEW_PIPE(clay, 1, false);
    PARKED(take(clay, 1, 0, 5), 1);
    uint8_t into[5];
    memset(into, UNTOUCHED, sizeof into);
    /* where there is nothing to read it waits on, however little room there is */
    PARKED(bindingclay_resume(clay, 1, into, 4), 1);
    PARKED(bindingclay_resume(clay, 1, NULL, 0), 1);
    /* too little room for what there is: it isn't tried */
    DONE(put(clay, 1, 1, "hello"), 5);
    SHORT(bindingclay_resume(clay, 1, into, 4), 5);
    SHORT(bindingclay_resume(clay, 1, into, 0), 5);
    for (size_t i = 0; i < sizeof into; i++)
        HOLDS(into[i] == UNTOUCHED);
    /* nothing changed: it gives its bytes where there is room */
    RESUMES(clay, 1, 5, "hello");
    OTHER(again(clay, 1), BINDINGCLAY_NO_CALL);
    /* more room than it asked for stays as it is, and so do bytes that it didn't ask for */
    PARKED(take(clay, 1, 0, 2), 2);
    DONE(put(clay, 1, 1, "hello"), 5);
    RESUMES(clay, 2, 9, "he");
    READS(clay, 1, 0, 9, "llo");
    /* a read that waits on writes nothing */
    PARKED(take(clay, 1, 0, 2), 3);
    PARKED(bindingclay_resume(clay, 3, into, sizeof into), 3);
    HOLDS(into[0] == UNTOUCHED);
    FAULT(bindingclay_interrupt(clay, 3), EINTR);
    /* of what it asked for the room has to hold no more than there is, and at the end of the file nothing */
    PARKED(take(clay, 1, 0, 4096), 4);
    DONE(put(clay, 1, 1, "abc"), 3);
    SHORT(bindingclay_resume(clay, 4, into, 2), 3);
    RESUMES(clay, 4, 3, "abc");
    PARKED(take(clay, 1, 0, 4096), 5);
    DONE(bindingclay_close(clay, 1, 1), 0);
    DONE(bindingclay_resume(clay, 5, NULL, 0), 0);
    /* room for the greatest capacity is always enough */
    static uint8_t most[1048576];
    bindingclay_ends ends = NEW_PIPE(clay, 1, false);
    DONE(bindingclay_set_pipe_sz(clay, 1, ends.write_end, sizeof most), sizeof most);
    PARKED(take(clay, 1, ends.read_end, 16777216), 6);
    DONE(put_many(clay, 1, ends.write_end, sizeof most), sizeof most);
    SHORT(bindingclay_resume(clay, 6, most, sizeof most - 1), sizeof most);
    DONE(bindingclay_resume(clay, 6, most, sizeof most), sizeof most);
    bindingclay_free(clay);
}

static void kept_ends(void)
{
    bindingclay clay = kernel_with_process();
    NEW_PIPE(clay, 1, false);
    /* a read that waits is a reader, though its descriptor is closed */
    PARKED(take(clay, 1, 0, 9), 1);
    DONE(bindingclay_close(clay, 1, 0), 0);
    DONE(put(clay, 1, 1, "a"), 1);
    RESUMES(clay, 1, 9, "a");
    FAULT(put(clay, 1, 1, "a"), EPIPE);
    /* a write that waits is a writer */
    bindingclay_ends ends = NEW_PIPE(clay, 1, false);
    PARKED_WITH_BYTES(put_many(clay, 1, ends.write_end, 65537), 2);
    DONE(bindingclay_close(clay, 1, ends.write_end), 0);
    DONE(take(clay, 1, ends.read_end, 70000), 65536);
    PARKED(take(clay, 1, ends.read_end, 9), 3);
    DONE(again(clay, 2), 65537);
    RESUMES(clay, 3, 9, "a");
    READS(clay, 1, ends.read_end, 9, "");
    /* it waits as it began, whatever the flags are by then */
    ends = NEW_PIPE(clay, 1, false);
    PARKED(take(clay, 1, ends.read_end, 9), 4);
    DONE(bindingclay_set_fl(clay, 1, ends.read_end, O_NONBLOCK), 0);
    PARKED(bindingclay_resume(clay, 4, (uint8_t[9]){ 0 }, 9), 4);
    FAULT(take(clay, 1, ends.read_end, 9), EAGAIN);
    bindingclay_free(clay);
}

static void interrupted(void)
{
    bindingclay clay = kernel_with_process();
    NEW_PIPE(clay, 1, false);
    PARKED(take(clay, 1, 0, 9), 1);
    FAULT(bindingclay_interrupt(clay, 1), EINTR);
    OTHER(bindingclay_interrupt(clay, 1), BINDINGCLAY_NO_CALL);
    /* a write that took bytes answers their count */
    PARKED_WITH_BYTES(put_many(clay, 1, 1, 70000), 2);
    DONE(take(clay, 1, 0, 4), 4);
    PARKED_WITH_BYTES(again(clay, 2), 2);
    DONE(bindingclay_interrupt(clay, 2), 65540);
    /* of a small one none was taken */
    PARKED(put(clay, 1, 1, "b"), 3);
    FAULT(bindingclay_interrupt(clay, 3), EINTR);
    DONE(take(clay, 1, 0, 70000), 65536);
    bindingclay_free(clay);
}

/* Of a call that waits the process is told, and it alone gets what was meant for it. */
static void whose_call(void)
{
    bindingclay clay = kernel_with_process();
    NEW_PIPE(clay, 1, false);
    DONE(bindingclay_fork(clay, 1), 2);
    PARKED(take(clay, 2, 0, 5), 1);
    bindingclay_pollfd entry = { .fd = 0, .events = 1, .revents = 77 };
    PARKED(bindingclay_poll(clay, 1, &entry, 1, true), 2);
    DONE(bindingclay_owner(clay, 1), 2);
    DONE(bindingclay_owner(clay, 2), 1);
    DONE(put(clay, 1, 1, "hello"), 5);
    uint8_t into[5] = { 0 };
    OTHER(bindingclay_resume_of(clay, 1, 1, into, sizeof into), BINDINGCLAY_NO_CALL);
    OTHER(bindingclay_interrupt_of(clay, 1, 1), BINDINGCLAY_NO_CALL);
    OTHER(bindingclay_resume_of(clay, 3, 1, into, sizeof into), BINDINGCLAY_NO_CALL);
    OTHER(bindingclay_resume_poll_of(clay, 2, 2, &entry, 1), BINDINGCLAY_NO_CALL);
    HOLDS(into[0] == 0 && entry.revents == 77);
    /* all is as it was */
    DONE(bindingclay_resume_poll_of(clay, 1, 2, &entry, 1), 1);
    HOLDS(entry.revents == 1);
    DONE(bindingclay_resume_of(clay, 2, 1, into, sizeof into), 5);
    HOLDS(memcmp(into, "hello", 5) == 0);
    OTHER(bindingclay_owner(clay, 1), BINDINGCLAY_NO_CALL);
    PARKED(take(clay, 2, 0, 1), 3);
    FAULT(bindingclay_interrupt_of(clay, 2, 3), EINTR);
    OTHER(bindingclay_owner(clay, 3), BINDINGCLAY_NO_CALL);
    /* an exit takes the calls of a process along, so that who gets its pid has none of them */
    PARKED(take(clay, 2, 0, 1), 4);
    PARKED(bindingclay_resume_of(clay, 2, 4, NULL, 0), 4);
    OTHER(bindingclay_exit(clay, 2), BINDINGCLAY_DONE);
    DONE(bindingclay_fork(clay, 1), 2);
    OTHER(bindingclay_owner(clay, 4), BINDINGCLAY_NO_CALL);
    OTHER(bindingclay_resume_of(clay, 2, 4, NULL, 0), BINDINGCLAY_NO_CALL);
    OTHER(bindingclay_interrupt_of(clay, 2, 4), BINDINGCLAY_NO_CALL);
    PARKED(bindingclay_poll(clay, 2, NULL, 0, true), 5);
    PARKED(bindingclay_resume_poll_of(clay, 2, 5, NULL, 0), 5);
    bindingclay_free(clay);
}

/* A pointer to no bytes may be null. */
static void null_pointers(void)
{
    bindingclay clay = kernel_with_process();
    NEW_PIPE(clay, 1, false);
    DONE(bindingclay_read(clay, 1, 0, NULL, 0), 0);
    DONE(bindingclay_write(clay, 1, 1, NULL, 0), 0);
    DONE(bindingclay_poll(clay, 1, NULL, 0, false), 0);
    PARKED(bindingclay_poll(clay, 1, NULL, 0, true), 1);
    PARKED(bindingclay_resume_poll(clay, 1, NULL, 0), 1);
    PARKED(bindingclay_resume(clay, 1, NULL, 0), 1);
    FAULT(bindingclay_mkfifo(clay, 1, NULL, 0), ENOENT);
    FAULT(bindingclay_open_name(clay, 1, NULL, 0, O_RDWR | O_CREAT), ENOENT);
    FAULT(bindingclay_unlink(clay, 1, NULL, 0), ENOENT);
    FAULT(bindingclay_file_bytes(clay, NULL, 0, NULL, 0), ENOENT);
    DONE(open_text(clay, 1, "f", O_RDWR | O_CREAT), 2);
    DONE(bindingclay_file_bytes(clay, bytes_of("f"), 1, NULL, 0), 0);
    bindingclay_free(clay);
}

int main(void)
{
    null_pointers();
    no_calls();
    numbers();
    a_first_number_of_0();
    whatever_is_done_with_0();
    room_of_a_read();
    kept_ends();
    interrupted();
    whose_call();
    return end();
}
