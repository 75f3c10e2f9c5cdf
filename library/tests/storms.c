/* Many calls that wait, and processes that end under them. 200 calls of one process wait, and it exits. Then four guests make calls at random
 * in one kernel: they end each other's processes and calls, and use numbers of calls that are gone. Which processes there are, and whose calls
 * wait, is kept here too, and each answer is held to it. So is what is told of each call before it is tried again: whether it can make progress. At
 * the end nothing is left. Link with -Wl,--wrap=malloc,--wrap=realloc,--wrap=free.
 *
 *   storms CALLS    so many calls of each guest */
#define _GNU_SOURCE
#include "check.h"
#include "counted.h"

#include <fcntl.h>
#include <limits.h>
#include <poll.h>

enum { MOST_PROCESSES = 1024, MOST_SPARE = 16777216, SEGMENT = 4096 };

/* What a kernel holds beside the segments that it keeps for further bytes. */
static uint64_t beside_spare(bindingclay clay)
{
    bindingclay_memory_use use = bindingclay_memory(clay);
    HOLDS(use.spare <= MOST_SPARE && use.spare <= use.held);
    return use.held - use.spare;
}

/* Whether no call of a number waits: each function that is given a number says so, and writes nothing. */
static bool is_no_call(bindingclay clay, uint32_t pid, uint64_t number)
{
    uint8_t byte = UNTOUCHED;
    bindingclay_pollfd entry = { .fd = 0, .events = POLLIN, .revents = 77 };
    return OTHER(bindingclay_owner(clay, number), BINDINGCLAY_NO_CALL) && HOLDS(bindingclay_can_progress(clay, number))
        && OTHER(bindingclay_taken(clay, number), BINDINGCLAY_NO_CALL)
        && OTHER(bindingclay_resume(clay, number, &byte, 1), BINDINGCLAY_NO_CALL)
        && OTHER(bindingclay_resume_poll(clay, number, &entry, 1), BINDINGCLAY_NO_CALL)
        && OTHER(bindingclay_interrupt(clay, number), BINDINGCLAY_NO_CALL)
        && OTHER(bindingclay_resume_of(clay, pid, number, &byte, 1), BINDINGCLAY_NO_CALL)
        && OTHER(bindingclay_resume_poll_of(clay, pid, number, &entry, 1), BINDINGCLAY_NO_CALL)
        && OTHER(bindingclay_interrupt_of(clay, pid, number), BINDINGCLAY_NO_CALL) && HOLDS(byte == UNTOUCHED && entry.revents == 77);
}

/* ---- 200 calls of one process ---- */

/* There are as many calls of each kind. A large write has so many bytes, of which the kernel keeps a copy. */
enum { CALLS_OF_ONE = 200, KINDS_OF_WAITING = 8, LARGE = 70000 };

/* The ends of an empty pipe and of a full one. */
enum { EMPTY_READ = 0, EMPTY_WRITE, FULL_READ, FULL_WRITE };

/* A call of process 2 that waits. Nobody but such calls opens the two FIFOs. */
static bindingclay_answer waits(bindingclay clay, int kind)
{
    bindingclay_pollfd entry = { .fd = EMPTY_READ, .events = POLLIN, .revents = 77 };
    switch (kind) {
    case 0:
        return take(clay, 2, EMPTY_READ, 100);
    case 1:
        return put(clay, 2, FULL_WRITE, "z");
    case 2:
        return put_many(clay, 2, FULL_WRITE, LARGE);
    case 3:
        return bindingclay_splice(clay, 2, EMPTY_READ, NULL, FULL_WRITE, NULL, 100, 0);
    case 4:
        return bindingclay_tee(clay, 2, EMPTY_READ, FULL_WRITE, 100, 0);
    case 5:
        return bindingclay_poll(clay, 2, &entry, 1, true);
    case 6:
        return open_text(clay, 2, "without a writer", O_RDONLY);
    default:
        return open_text(clay, 2, "without a reader", O_WRONLY);
    }
}

/* Process 2 begins 200 calls, whose numbers begin with first, and exits. Call 1 is one of process 1, and waits on. The exit asks for nothing but
 * smaller blocks for the calls that are left and for their numbers, each time that they were halved, and succeeds where these are refused. */
static void exits_with_many_calls(bindingclay clay, uint64_t first)
{
    DONE(bindingclay_fork(clay, 1), 2);
    uint64_t before = beside_spare(clay);
    for (uint64_t i = 0; i < CALLS_OF_ONE; i++)
        PARKED(waits(clay, (int)(i % KINDS_OF_WAITING)), first + i);
    for (uint64_t i = 0; i < CALLS_OF_ONE; i++)
        DONE(bindingclay_owner(clay, first + i), 2);
    HOLDS(beside_spare(clay) - before >= (uint64_t)LARGE * CALLS_OF_ONE / KINDS_OF_WAITING);
    refuse(0, LONG_MAX);
    DONE(bindingclay_exit(clay, 2), 0);
    HOLDS(1 << refused / 2 <= CALLS_OF_ONE);
    refuse_none();
    for (uint64_t i = 0; i < CALLS_OF_ONE; i++)
        is_no_call(clay, 2, first + i);
    /* another process of the same pid has none of them */
    DONE(bindingclay_fork(clay, 1), 2);
    for (uint64_t i = 0; i < CALLS_OF_ONE; i++)
        is_no_call(clay, 2, first + i);
    DONE(bindingclay_exit(clay, 2), 0);
    DONE(bindingclay_owner(clay, 1), 1);
}

/* Nothing was done of what those calls waited for, and the ends that they kept are gone. */
static void nothing_was_done(bindingclay clay)
{
    FAULT(open_text(clay, 1, "without a writer", O_WRONLY | O_NONBLOCK), ENXIO);
    PARKED(open_text(clay, 1, "without a reader", O_RDONLY), 2 + 2 * CALLS_OF_ONE);
    FAULT(bindingclay_interrupt(clay, 2 + 2 * CALLS_OF_ONE), EINTR);
    DONE(put(clay, 1, EMPTY_WRITE, "hello"), 5);
    RESUMES(clay, 1, 9, "hello");
    DONE(take(clay, 1, FULL_READ, LARGE), 65536);
    DONE(bindingclay_close(clay, 1, FULL_WRITE), 0);
    READS(clay, 1, FULL_READ, LARGE, "");
}

static void many_calls_of_one_process(void)
{
    bindingclay clay = kernel_with_process();
    NEW_PIPE(clay, 1, false);
    NEW_PIPE(clay, 1, false);
    DONE(put_many(clay, 1, FULL_WRITE, 65536), 65536);
    DONE(mkfifo_text(clay, 1, "without a writer"), 0);
    DONE(mkfifo_text(clay, 1, "without a reader"), 0);
    PARKED(take(clay, 1, EMPTY_READ, 9), 1);
    exits_with_many_calls(clay, 2);
    uint64_t left = beside_spare(clay);
    /* tables keep their length, and queues at most a few calls that ended: as many once more leave hardly more */
    exits_with_many_calls(clay, 2 + CALLS_OF_ONE);
    HOLDS(beside_spare(clay) <= left + left / 8);
    nothing_was_done(clay);
    bindingclay_free(clay);
    HOLDS(blocks_left == 0 && bytes_left == 0);
}

/* ---- A storm of four guests ---- */

enum { GUESTS = 4, MOST_CALLS = 100000, ROOM = 6000, NAMES = 3 };

static bindingclay clay;

/* Which processes there are. */
static bool is_there[MOST_PROCESSES + 2];

/* The process of each call that waits, by its number, and 0 of one that doesn't. */
static uint32_t owner_of[2 * MOST_CALLS + 1];

/* The number of the first call of a storm, and that of the next one. */
static uint64_t first_number, next_number;

static struct guest {
    uint32_t pid;
    uint32_t random;
} guests[GUESTS];

static uint8_t into[ROOM + 1];

static uint32_t drawn(struct guest *guest, uint32_t below)
{
    guest->random = (uint32_t)((guest->random * UINT64_C(1103515245) + 12345) % 2147483648u);
    return guest->random / 65536 % below;
}

/* A number that this storm was given, half the time one of the last 16; or the next one, which no call has. */
static uint64_t drawn_number(struct guest *guest)
{
    uint32_t given = (uint32_t)(next_number - first_number);
    bool is_late = drawn(guest, 2) == 0 && given > 16;
    return is_late ? next_number - drawn(guest, 16) : first_number + drawn(guest, given + 1);
}

static const char *drawn_name(struct guest *guest)
{
    static const char *const NAME[NAMES] = { "q", "r", "f" };
    return NAME[drawn(guest, NAMES)];
}

/* Notes a new process, which has the least pid that was free. */
static void comes(bindingclay_answer answer)
{
    uint32_t least = 1;
    while (is_there[least])
        least++;
    if (least > MOST_PROCESSES)
        FAULT(answer, EAGAIN);
    else if (DONE(answer, least))
        is_there[least] = true;
}

/* Notes the exit of a process. Its calls are gone with it. */
static void goes(uint32_t pid, bindingclay_answer answer)
{
    if (!is_there[pid]) {
        OTHER(answer, BINDINGCLAY_NO_PROCESS);
        return;
    }
    DONE(answer, 0);
    is_there[pid] = false;
    for (uint64_t number = 0; number < next_number; number++)
        if (owner_of[number] == pid)
            owner_of[number] = 0;
}

/* Whether a call has ended: it is done, or it failed and the reason is told. */
static bool is_end(bindingclay_answer answer)
{
    return !answer.moved
        && (answer.kind == BINDINGCLAY_DONE || (answer.kind == BINDINGCLAY_FAULT && answer.error != 0 && answer.value == 0));
}

/* How many calls that waited were tried again after it was told that they can make progress, and after it was told that they can't. */
static long tried_in_time, tried_in_vain;

/* How many bytes the call of a number has taken, if it waits. */
static uint64_t taken_by(uint64_t number)
{
    bindingclay_answer taken = bindingclay_taken(clay, number);
    if (owner_of[number] == 0)
        OTHER(taken, BINDINGCLAY_NO_CALL);
    else
        HOLDS(taken.kind == BINDINGCLAY_DONE && taken.value < ROOM);
    return taken.value;
}

/* Tries a call again, and it makes progress exactly if that was told before. There is room for all that a read may give, so only a poll is told to be
 * short: of its one entry. */
static void resume(uint64_t number)
{
    uint32_t owner = owner_of[number];
    bool can = bindingclay_can_progress(clay, number);
    uint64_t taken = taken_by(number);
    bindingclay_answer answer = bindingclay_resume(clay, number, into, ROOM);
    if (answer.kind == BINDINGCLAY_SHORT) {
        bindingclay_pollfd entry = { .fd = 0, .events = 0, .revents = 0 };
        SHORT(answer, 1);
        answer = bindingclay_resume_poll(clay, number, &entry, 1);
        DONE(answer, 1);
        HOLDS(entry.revents != 0);
    }
    if (owner == 0) {
        HOLDS(can);
        OTHER(answer, BINDINGCLAY_NO_CALL);
        return;
    }
    *(can ? &tried_in_time : &tried_in_vain) += 1;
    if (answer.kind == BINDINGCLAY_PARKED) {
        answers(__FILE__, __LINE__, "a call that waits on", answer, that_waits(number, can));
        HOLDS(can == (taken_by(number) > taken));
    } else {
        HOLDS(can && is_end(answer));
        owner_of[number] = 0;
    }
}

static void interrupt(uint64_t number)
{
    uint32_t owner = owner_of[number];
    bindingclay_answer answer = bindingclay_interrupt(clay, number);
    if (owner == 0)
        OTHER(answer, BINDINGCLAY_NO_CALL);
    else if (answer.kind == BINDINGCLAY_FAULT)
        FAULT(answer, EINTR);
    else
        /* a write that took some of its bytes */
        HOLDS(is_end(answer) && answer.value > 0 && answer.value < ROOM && !answer.sigpipe);
    owner_of[number] = 0;
}

/* Notes a call of a process: it has ended, or it waits under the next number. */
static void begun(uint32_t pid, bindingclay_answer answer)
{
    if (!is_there[pid]) {
        OTHER(answer, BINDINGCLAY_NO_PROCESS);
    } else if (answer.kind == BINDINGCLAY_PARKED) {
        owner_of[next_number] = pid;
        answers(__FILE__, __LINE__, "a call that waits", answer, that_waits(next_number, taken_by(next_number) > 0));
        next_number++;
    } else {
        HOLDS(is_end(answer));
    }
}

static bindingclay_answer moves(struct guest *guest, uint32_t pid, int32_t fd)
{
    static uint8_t bytes[ROOM];
    int32_t to = (int32_t)drawn(guest, 12);
    uint32_t size = drawn(guest, ROOM);
    switch (drawn(guest, 4)) {
    case 0:
        return bindingclay_write(clay, pid, fd, bytes, size);
    case 1:
        return bindingclay_read(clay, pid, fd, into, size);
    case 2:
        return bindingclay_splice(clay, pid, fd, NULL, to, NULL, size, 0);
    default:
        return bindingclay_tee(clay, pid, fd, to, size, 0);
    }
}

static bindingclay_answer names_or_closes(struct guest *guest, uint32_t pid, int32_t fd)
{
    static const uint32_t FLAGS[] = { O_RDONLY, O_WRONLY, O_RDWR, O_RDWR | O_CREAT };
    const char *name = drawn_name(guest);
    bindingclay_ends ends;
    bindingclay_pollfd entry = { .fd = fd, .events = POLLIN, .revents = 0 };
    switch (drawn(guest, 8)) {
    case 0:
        return unlink_text(clay, pid, name);
    case 1:
        return mkfifo_text(clay, pid, name);
    case 2:
    case 3:
        return open_text(clay, pid, name, FLAGS[drawn(guest, 4)]);
    case 4:
        return bindingclay_poll(clay, pid, &entry, 1, true);
    case 5:
        return bindingclay_dup(clay, pid, fd);
    case 6:
        return bindingclay_pipe2(clay, pid, drawn(guest, 2) == 0 ? BINDINGCLAY_O_DIRECT : 0, &ends);
    default:
        return bindingclay_close(clay, pid, fd);
    }
}

/* One call of a guest: of its own process, or of a process or a number that it makes up. */
static void call(struct guest *guest)
{
    uint64_t number = drawn_number(guest);
    uint32_t other = 1 + drawn(guest, 16), pid = drawn(guest, 8) == 0 ? other : guest->pid;
    int32_t fd = (int32_t)drawn(guest, 12);
    uint32_t kind = drawn(guest, 100);
    if (kind < 50)
        begun(pid, moves(guest, pid, fd));
    else if (kind < 70)
        begun(pid, names_or_closes(guest, pid, fd));
    else if (kind < 80)
        resume(number);
    else if (kind < 88)
        interrupt(number);
    else if (kind < 94)
        comes(bindingclay_fork(clay, guest->pid));
    else
        goes(other, bindingclay_exit(clay, other));
}

/* The kernel tells of each number that it gave whose call waits under it. */
static void owners_are_told(void)
{
    for (uint64_t number = 0; number <= next_number; number++)
        if (owner_of[number] != 0)
            DONE(bindingclay_owner(clay, number), owner_of[number]);
        else
            OTHER(bindingclay_owner(clay, number), BINDINGCLAY_NO_CALL);
}

/* Just the calls that wait and can make progress are told, one after another. */
static void tells_all_ready(void)
{
    bindingclay_answer next = bindingclay_next_ready(clay, 0);
    for (uint64_t number = first_number; number < next_number; number++)
        if (owner_of[number] != 0 && bindingclay_can_progress(clay, number)) {
            DONE(next, number);
            next = bindingclay_next_ready(clay, number + 1);
        }
    OTHER(next, BINDINGCLAY_NO_CALL);
}

/* Tries each call again that can make progress, until none is told. Then none of those that wait makes progress. */
static void try_all(void)
{
    bindingclay_answer next;
    while ((next = bindingclay_next_ready(clay, 0)).kind == BINDINGCLAY_DONE)
        resume(next.value);
    for (uint64_t number = first_number; number < next_number; number++)
        if (owner_of[number] != 0) {
            resume(number);
            HOLDS(owner_of[number] != 0 && !bindingclay_can_progress(clay, number));
        }
}

/* Ends all processes and takes all names away: then none of the calls waits. */
static void leave(void)
{
    for (uint32_t pid = 0; pid <= MOST_PROCESSES; pid++)
        goes(pid, bindingclay_exit(clay, pid));
    comes(bindingclay_start(clay));
    static const char *const NAME[NAMES] = { "q", "r", "f" };
    for (int i = 0; i < NAMES; i++) {
        bindingclay_answer answer = unlink_text(clay, 1, NAME[i]);
        HOLDS(answer.kind == BINDINGCLAY_DONE || (answer.kind == BINDINGCLAY_FAULT && answer.error == ENOENT));
    }
    goes(1, bindingclay_exit(clay, 1));
    for (uint64_t number = 0; number <= next_number; number++)
        is_no_call(clay, 1, number);
}

/* A guest whose process was ended starts another one, with a pipe that is soon full. */
static void start(struct guest *guest)
{
    bindingclay_answer answer = bindingclay_start(clay);
    comes(answer);
    guest->pid = (uint32_t)answer.value;
    bindingclay_ends ends = NEW_PIPE(clay, guest->pid, false);
    DONE(bindingclay_set_pipe_sz(clay, guest->pid, ends.write_end, 4096), 4096);
}

/* All calls of the guests, in turns, of which some wait. Now and then those are tried again that can make progress. */
static void storm(long calls)
{
    first_number = next_number;
    for (uint32_t i = 0; i < GUESTS; i++)
        guests[i] = (struct guest){ 0, i + 1 };
    for (long turn = 0; turn < calls; turn++) {
        for (int i = 0; i < GUESTS; i++) {
            if (!is_there[guests[i].pid])
                start(&guests[i]);
            call(&guests[i]);
        }
        if (turn % 50 == 0)
            owners_are_told();
        if (turn % 10 == 0)
            tells_all_ready();
        if (turn % 20 == 0)
            try_all();
    }
    HOLDS(next_number - first_number >= (uint64_t)calls / 8);
    owners_are_told();
}

/* The same storm twice in one kernel. Tables keep their length, and the second storm makes them a little longer. If a storm lost a segment,
 * the second one would leave a segment more. */
static void storms(long calls)
{
    clay = new_kernel(0, BINDINGCLAY_MOST_FILE_BYTES);
    storm(calls);
    leave();
    uint64_t left = beside_spare(clay), peak = bindingclay_memory(clay).peak;
    storm(calls);
    leave();
    HOLDS(beside_spare(clay) < left + SEGMENT);
    HOLDS(tried_in_time >= calls / 50 && tried_in_vain >= calls / 50);
    printf("%" PRIu64 " calls waited, tried again %ld times in time and %ld in vain; %" PRIu64 " bytes at most, and %" PRIu64
           " left beside what is spare\n",
        next_number, tried_in_time, tried_in_vain, peak, left);
    bindingclay_free(clay);
    HOLDS(blocks_left == 0 && bytes_left == 0);
}

/* ---- A crowd ---- */

/* How many calls wait at most. */
enum { MOST_WAITING = 1000 };

static long waiting_calls(void)
{
    long waiting = 0;
    for (uint64_t number = 0; number < next_number; number++)
        waiting += owner_of[number] != 0;
    return waiting;
}

/* A step of a guest. Seldom is a call tried again or interrupted, so that more and more wait, up to the most. */
static void crowd_step(struct guest *guest, long waiting)
{
    int32_t fd = (int32_t)drawn(guest, 4);
    uint32_t kind = drawn(guest, 256);
    if (kind < 200 && waiting < MOST_WAITING) {
        begun(guest->pid, moves(guest, guest->pid, fd));
    } else if (kind < 224 && waiting < MOST_WAITING) {
        begun(guest->pid, names_or_closes(guest, guest->pid, fd));
    } else if (kind < 250) {
        bindingclay_answer next = bindingclay_next_ready(clay, drawn_number(guest));
        if (next.kind == BINDINGCLAY_DONE)
            resume(next.value);
    } else {
        interrupt(drawn_number(guest));
    }
}

/* Many calls wait at once. After each step just those are told that can make progress. Now and then a guest's process ends. */
static void crowd(long steps)
{
    clay = new_kernel(0, BINDINGCLAY_MOST_FILE_BYTES);
    first_number = next_number = 0;
    long most = 0;
    for (long step = 0; step < steps; step++) {
        struct guest *guest = &guests[step % GUESTS];
        if (step % 4096 == 4095)
            goes(guest->pid, bindingclay_exit(clay, guest->pid));
        if (!is_there[guest->pid])
            start(guest);
        long waiting = waiting_calls();
        most = waiting > most ? waiting : most;
        crowd_step(guest, waiting);
        tells_all_ready();
    }
    printf("up to %ld calls waited at once\n", most);
    HOLDS(most >= MOST_WAITING || steps < 10000);
    try_all();
    leave();
    bindingclay_free(clay);
    HOLDS(blocks_left == 0 && bytes_left == 0);
}

int main(int words, char **word)
{
    long calls = words == 2 ? atol(word[1]) : 0;
    if (calls < 1 || calls > MOST_CALLS / GUESTS) {
        fprintf(stderr, "storms CALLS: from 1 to %d\n", MOST_CALLS / GUESTS);
        return 2;
    }
    many_calls_of_one_process();
    storms(calls);
    crowd(calls / 2);
    return end();
}
