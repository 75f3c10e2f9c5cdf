/* Packet pipes: calls on them that wait, ends that are shared and go, and limits of a kernel (pipe(2), O_DIRECT). */
#define _GNU_SOURCE
#include "packets.h"

/* A write of several packets that waits goes in piece by piece, whatever the reads ask for. */
static void writes_that_wait(void)
{
    bindingclay clay = kernel_with_packets(0);
    DONE(bindingclay_set_fl(clay, 1, PIPE_READ, O_NONBLOCK), 0);
    DONE(bindingclay_set_pipe_sz(clay, 1, PIPE_READ, 4096), 4096);
    PARKED_WITH_BYTES(put_from(clay, 1, PIPE_WRITE, 0, 10000), 1);
    PARKED(again(clay, 1), 1);
    READS(clay, 1, PIPE_READ, 0, "");
    PARKED(again(clay, 1), 1);
    READS_FROM(clay, 1, PIPE_READ, 100, 0, 100);
    FAULT(take(clay, 1, PIPE_READ, 1), EAGAIN);
    PARKED_WITH_BYTES(again(clay, 1), 1);
    READS_FROM(clay, 1, PIPE_READ, 5000, 4096, 4096);
    DONE(again(clay, 1), 10000);
    OTHER(again(clay, 1), BINDINGCLAY_NO_CALL);
    READS_FROM(clay, 1, PIPE_READ, 1, 8192, 1);
    FAULT(take(clay, 1, PIPE_READ, 1), EAGAIN);
    /* with two places, five packets: two, then one, then two as they fit */
    DONE(bindingclay_set_pipe_sz(clay, 1, PIPE_READ, 8192), 8192);
    PARKED_WITH_BYTES(put_from(clay, 1, PIPE_WRITE, 0, 4 * PACKET + 1), 2);
    READS_FROM(clay, 1, PIPE_READ, 1, 0, 1);
    PARKED_WITH_BYTES(again(clay, 2), 2);
    READS_FROM(clay, 1, PIPE_READ, MOST_ROOM, PACKET, PACKET);
    READS_FROM(clay, 1, PIPE_READ, 7, 2 * PACKET, 7);
    FAULT(take(clay, 1, PIPE_READ, 1), EAGAIN);
    DONE(again(clay, 2), 4 * PACKET + 1);
    READS_FROM(clay, 1, PIPE_READ, PACKET - 1, 3 * PACKET, PACKET - 1);
    READS_FROM(clay, 1, PIPE_READ, PACKET, 4 * PACKET, 1);
    FAULT(take(clay, 1, PIPE_READ, 1), EAGAIN);
    /* one packet waits for one place, and a larger capacity is one */
    DONE(put_from(clay, 1, PIPE_WRITE, 0, 1), 1);
    DONE(put_from(clay, 1, PIPE_WRITE, 1, 1), 1);
    PARKED(put_from(clay, 1, PIPE_WRITE, 2, 3), 3);
    PARKED(put_from(clay, 1, PIPE_WRITE, 5, 2 * PACKET), 4);
    PARKED(again(clay, 3), 3);
    READS_FROM(clay, 1, PIPE_READ, 9, 0, 1);
    DONE(again(clay, 3), 3);
    PARKED(again(clay, 4), 4);
    DONE(bindingclay_set_pipe_sz(clay, 1, PIPE_READ, 16384), 16384);
    DONE(again(clay, 4), 2 * PACKET);
    READS_FROM(clay, 1, PIPE_READ, 9, 1, 1);
    READS_FROM(clay, 1, PIPE_READ, 2, 2, 2);
    READS_FROM(clay, 1, PIPE_READ, MOST_ROOM, 5, PACKET);
    READS_FROM(clay, 1, PIPE_READ, MOST_ROOM, 5 + PACKET, PACKET);
    FAULT(take(clay, 1, PIPE_READ, 1), EAGAIN);
    bindingclay_free(clay);
}

/* Two large writes that wait take turns as they are resumed, and no packet has bytes of both. */
static void writes_in_turn(void)
{
    bindingclay clay = kernel_with_packets(0);
    DONE(bindingclay_set_pipe_sz(clay, 1, PIPE_READ, 4096), 4096);
    PARKED_WITH_BYTES(put_from(clay, 1, PIPE_WRITE, 0, PACKET + 1), 1);
    PARKED(put_from(clay, 1, PIPE_WRITE, 20000, PACKET + 2), 2);
    PARKED(again(clay, 2), 2);
    READS_FROM(clay, 1, PIPE_READ, 9, 0, 9);
    PARKED_WITH_BYTES(again(clay, 2), 2);
    PARKED(again(clay, 1), 1);
    READS_FROM(clay, 1, PIPE_READ, MOST_ROOM, 20000, PACKET);
    DONE(again(clay, 1), PACKET + 1);
    PARKED(again(clay, 2), 2);
    READS_FROM(clay, 1, PIPE_READ, MOST_ROOM, PACKET, 1);
    DONE(again(clay, 2), PACKET + 2);
    READS_FROM(clay, 1, PIPE_READ, MOST_ROOM, 20000 + PACKET, 2);
    bindingclay_free(clay);
}

/* Of more than 16,777,216 bytes the first so many are written, a full pipe at each turn. */
static void longest_writes(void)
{
    bindingclay clay = kernel_with_packets(0);
    enum { TURNS = BINDINGCLAY_MOST_BYTES / BINDINGCLAY_MOST_CAPACITY, PLACES = BINDINGCLAY_MOST_CAPACITY / PACKET };
    DONE(bindingclay_set_pipe_sz(clay, 1, PIPE_READ, BINDINGCLAY_MOST_CAPACITY), BINDINGCLAY_MOST_CAPACITY);
    PARKED_WITH_BYTES(put_from(clay, 1, PIPE_WRITE, 0, BINDINGCLAY_MOST_BYTES + 1), 1);
    for (size_t turn = 1; turn <= TURNS; turn++) {
        for (size_t i = 0; i < PLACES; i++)
            READS_FROM(clay, 1, PIPE_READ, 1, ((turn - 1) * PLACES + i) * PACKET, 1);
        if (turn < TURNS - 1)
            PARKED_WITH_BYTES(again(clay, 1), 1);
        else if (turn == TURNS - 1)
            DONE(again(clay, 1), BINDINGCLAY_MOST_BYTES);
    }
    PARKED(take(clay, 1, PIPE_READ, 1), 2);
    bindingclay_free(clay);
}

static void interrupted_writes(void)
{
    bindingclay clay = kernel_with_packets(0);
    DONE(bindingclay_set_pipe_sz(clay, 1, PIPE_READ, 4096), 4096);
    PARKED_WITH_BYTES(put_from(clay, 1, PIPE_WRITE, 0, 3 * PACKET), 1);
    PARKED(put_from(clay, 1, PIPE_WRITE, 50000, 3 * PACKET), 2);
    PARKED(put(clay, 1, PIPE_WRITE, "abc"), 3);
    /* of the one a packet went in, of the others none */
    DONE(bindingclay_interrupt(clay, 1), PACKET);
    FAULT(bindingclay_interrupt(clay, 2), EINTR);
    FAULT(bindingclay_interrupt(clay, 3), EINTR);
    READS_FROM(clay, 1, PIPE_READ, MOST_ROOM, 0, PACKET);
    PARKED(take(clay, 1, PIPE_READ, 1), 4);
    FAULT(bindingclay_interrupt(clay, 4), EINTR);
    bindingclay_free(clay);
}

/* A read that waits gets one packet, into room for what it asked for or for what there is. */
static void reads_that_wait(void)
{
    bindingclay clay = kernel_with_packets(0);
    uint8_t into[PACKET + 1];
    PARKED(take(clay, 1, PIPE_READ, 10000), 1);
    PARKED(take(clay, 1, PIPE_READ, 2), 2);
    PARKED(take(clay, 1, PIPE_READ, 10000), 3);
    PARKED(again(clay, 1), 1);
    READS(clay, 1, PIPE_READ, 0, "");
    DONE(put(clay, 1, PIPE_WRITE, ""), 0);
    PARKED(again(clay, 1), 1);
    DONE(put(clay, 1, PIPE_WRITE, "hello"), 5);
    DONE(put(clay, 1, PIPE_WRITE, "you"), 3);
    DONE(put_from(clay, 1, PIPE_WRITE, 0, PACKET + 1), PACKET + 1);
    SHORT(again(clay, 1), 5);
    SHORT(bindingclay_resume(clay, 1, into, 4), 5);
    RESUMES(clay, 1, 5, "hello");
    /* of the second packet two bytes were asked for, and the third is lost */
    SHORT(bindingclay_resume(clay, 2, into, 1), 2);
    RESUMES(clay, 2, 2, "yo");
    SHORT(bindingclay_resume(clay, 3, into, PACKET - 1), PACKET);
    memset(into, UNTOUCHED, sizeof into);
    has_from(__FILE__, __LINE__, bindingclay_resume(clay, 3, into, PACKET), into, PACKET, 0, PACKET);
    READS_FROM(clay, 1, PIPE_READ, 9, PACKET, 1);
    /* the end of the file ends it too */
    PARKED(take(clay, 1, PIPE_READ, 9), 4);
    DONE(bindingclay_close(clay, 1, PIPE_WRITE), 0);
    RESUMES(clay, 4, 9, "");
    bindingclay_free(clay);
}

static void polls_that_wait(void)
{
    bindingclay clay = kernel_with_packets(0);
    bindingclay_pollfd entry = { .fd = PIPE_READ, .events = POLLIN, .revents = -1 };
    PARKED(bindingclay_poll(clay, 1, &entry, 1, true), 1);
    PARKED(bindingclay_resume_poll(clay, 1, &entry, 1), 1);
    DONE(put(clay, 1, PIPE_WRITE, "a"), 1);
    DONE(bindingclay_resume_poll(clay, 1, &entry, 1), 1);
    HOLDS(entry.revents == POLLIN);
    for (int i = 1; i < 16; i++)
        DONE(put(clay, 1, PIPE_WRITE, "a"), 1);
    entry = (bindingclay_pollfd){ .fd = PIPE_WRITE, .events = POLLOUT, .revents = -1 };
    PARKED(bindingclay_poll(clay, 1, &entry, 1, true), 2);
    READS(clay, 1, PIPE_READ, 0, "");
    PARKED(bindingclay_resume_poll(clay, 2, &entry, 1), 2);
    READS(clay, 1, PIPE_READ, 1, "a");
    DONE(bindingclay_resume_poll(clay, 2, &entry, 1), 1);
    HOLDS(entry.revents == POLLOUT);
    bindingclay_free(clay);
}

/* The last writer goes while packets are held: they come first, one by one, and then the end of the file, again and again. */
static void without_a_writer(void)
{
    bindingclay clay = kernel_with_packets(0);
    DONE(bindingclay_dup(clay, 1, PIPE_WRITE), 2);
    DONE(put(clay, 1, PIPE_WRITE, "abc"), 3);
    DONE(put(clay, 1, 2, "de"), 2);
    DONE(bindingclay_close(clay, 1, PIPE_WRITE), 0);
    POLLS(clay, PIPE_READ, POLLIN, POLLIN);
    DONE(bindingclay_close(clay, 1, 2), 0);
    POLLS(clay, PIPE_READ, POLLIN, POLLIN | POLLHUP);
    READS(clay, 1, PIPE_READ, 2, "ab");
    POLLS(clay, PIPE_READ, POLLIN, POLLIN | POLLHUP);
    READS(clay, 1, PIPE_READ, 9, "de");
    POLLS(clay, PIPE_READ, POLLIN, POLLHUP);
    READS(clay, 1, PIPE_READ, 9, "");
    READS(clay, 1, PIPE_READ, 9, "");
    bindingclay_free(clay);
}

/* The last reader goes while packets are held: they are lost, and no more go in. */
static void without_a_reader(void)
{
    bindingclay clay = kernel_with_packets(0);
    DONE(bindingclay_set_pipe_sz(clay, 1, PIPE_READ, 8192), 8192);
    DONE(put(clay, 1, PIPE_WRITE, "abc"), 3);
    PARKED_WITH_BYTES(put_from(clay, 1, PIPE_WRITE, 0, 10000), 1);
    PARKED(put(clay, 1, PIPE_WRITE, "b"), 2);
    DONE(bindingclay_dup(clay, 1, PIPE_READ), 2);
    DONE(bindingclay_close(clay, 1, PIPE_READ), 0);
    POLLS(clay, PIPE_WRITE, POLLOUT, 0);
    PARKED(again(clay, 1), 1);
    DONE(bindingclay_close(clay, 1, 2), 0);
    POLLS(clay, PIPE_WRITE, POLLOUT, POLLERR);
    /* of the one a packet went in, of the other none */
    DONE_WITH_SIGPIPE(again(clay, 1), PACKET);
    FAULT(again(clay, 2), EPIPE);
    FAULT(put(clay, 1, PIPE_WRITE, "b"), EPIPE);
    FAULT(put_from(clay, 1, PIPE_WRITE, 0, 10000), EPIPE);
    DONE(put(clay, 1, PIPE_WRITE, ""), 0);
    DONE(bindingclay_set_fl(clay, 1, PIPE_WRITE, O_NONBLOCK), 0);
    FAULT(put(clay, 1, PIPE_WRITE, "b"), EPIPE);
    bindingclay_free(clay);
}

/* Who has a copy of an end: by dup, dup2 and fork; and what is left as one closes or exits. */
static void shared_ends(void)
{
    bindingclay clay = kernel_with_packets(0);
    DONE(bindingclay_dup_fd(clay, 1, PIPE_WRITE, 10), 10);
    DONE(bindingclay_dup2(clay, 1, PIPE_READ, 11), 11);
    DONE(bindingclay_get_fl(clay, 1, 10), O_WRONLY | DIRECT);
    DONE(bindingclay_get_fl(clay, 1, 11), O_RDONLY);
    DONE(bindingclay_fork(clay, 1), 2);
    DONE(bindingclay_get_fl(clay, 2, PIPE_WRITE), O_WRONLY | DIRECT);
    DONE(put(clay, 2, PIPE_WRITE, "abc"), 3);
    DONE(put(clay, 1, 10, "de"), 2);
    READS(clay, 1, 11, 1, "a");
    READS(clay, 2, PIPE_READ, 9, "de");
    DONE(put(clay, 2, 10, "fg"), 2);
    DONE(put(clay, 2, 10, "hi"), 2);
    PARKED_WITH_BYTES(put_from(clay, 2, PIPE_WRITE, 0, 70000), 1);
    /* the parent has the child's packets, and 14 of the write that is gone */
    DONE(bindingclay_exit(clay, 2), 0);
    OTHER(again(clay, 1), BINDINGCLAY_NO_CALL);
    DONE(bindingclay_close(clay, 1, PIPE_WRITE), 0);
    DONE(bindingclay_dup2(clay, 1, 11, 10), 10);
    READS(clay, 1, PIPE_READ, 9, "fg");
    READS(clay, 1, 10, 9, "hi");
    for (size_t i = 0; i < 14; i++)
        READS_FROM(clay, 1, 11, MOST_ROOM, i * PACKET, PACKET);
    READS(clay, 1, PIPE_READ, 9, "");
    /* all ends close while packets are held, and another pipe has none of them */
    bindingclay_ends ends = NEW_PACKETS(clay, 1, O_NONBLOCK);
    DONE(put_from(clay, 1, ends.write_end, 0, 70000), 65536);
    DONE(bindingclay_close(clay, 1, ends.read_end), 0);
    DONE(bindingclay_close(clay, 1, ends.write_end), 0);
    ends = NEW_PACKETS(clay, 1, O_NONBLOCK);
    FAULT(take(clay, 1, ends.read_end, 9), EAGAIN);
    DONE(put(clay, 1, ends.write_end, "a"), 1);
    READS(clay, 1, ends.read_end, 9, "a");
    bindingclay_free(clay);
}

/* The limits of a kernel count for packet pipes too. */
static void within_limits(void)
{
    bindingclay clay = { NULL };
    bindingclay_limits limits = BINDINGCLAY_LIMITS;
    limits.capacity = 32768;
    limits.waiting_calls = 1;
    if (!HOLDS(bindingclay_open_within(&limits, &clay.kernel)))
        return;
    DONE(bindingclay_start(clay), 1);
    NEW_PACKETS(clay, 1, 0);
    DONE(bindingclay_get_pipe_sz(clay, 1, PIPE_READ), FIRST_CAPACITY);
    FAULT(bindingclay_set_pipe_sz(clay, 1, PIPE_READ, FIRST_CAPACITY), EPERM);
    DONE(bindingclay_set_pipe_sz(clay, 1, PIPE_READ, 4096), 4096);
    PARKED_WITH_BYTES(put_from(clay, 1, PIPE_WRITE, 0, PACKET + 1), 1);
    FAULT(put(clay, 1, PIPE_WRITE, "a"), EAGAIN);
    READS_FROM(clay, 1, PIPE_READ, 9, 0, 9);
    /* a write that would wait puts in nothing */
    FAULT(put_from(clay, 1, PIPE_WRITE, 0, PACKET + 1), EAGAIN);
    DONE(again(clay, 1), PACKET + 1);
    READS_FROM(clay, 1, PIPE_READ, 9, PACKET, 1);
    bindingclay_free(clay);
    /* and so does the last number of a call */
    clay = new_kernel(UINT64_MAX, 0);
    DONE(bindingclay_start(clay), 1);
    NEW_PACKETS(clay, 1, 0);
    OTHER(take(clay, 1, PIPE_READ, 1), BINDINGCLAY_CALLS_SPENT);
    OTHER(put_from(clay, 1, PIPE_WRITE, 0, FIRST_CAPACITY + 1), BINDINGCLAY_CALLS_SPENT);
    OTHER(take(clay, 1, PIPE_READ, 1), BINDINGCLAY_CALLS_SPENT);
    DONE(put_from(clay, 1, PIPE_WRITE, 0, FIRST_CAPACITY), FIRST_CAPACITY);
    OTHER(put(clay, 1, PIPE_WRITE, "a"), BINDINGCLAY_CALLS_SPENT);
    READS_FROM(clay, 1, PIPE_READ, MOST_ROOM, 0, PACKET);
    bindingclay_free(clay);
}

int main(void)
{
    writes_that_wait();
    writes_in_turn();
    longest_writes();
    interrupted_writes();
    reads_that_wait();
    polls_that_wait();
    without_a_writer();
    without_a_reader();
    shared_ends();
    within_limits();
    return end();
}
