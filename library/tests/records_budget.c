/* A guest of a kernel that records, in each budget from nothing to 1 MiB above what it needs. The host hands the record out behind each call. Whatever
 * the budget is, that never asks for memory, and what ends something is made: a close, an interrupt and an exit.
 * Link with -Wl,--wrap=malloc,--wrap=realloc,--wrap=free.
 *
 *   records_budget STEP FOLDER    tries every STEPth budget, and writes some of the records to FOLDER, for piperun --check */
#define _GNU_SOURCE
#include "counted.h"
#include "records.h"

#include <fcntl.h>
#include <limits.h>
#include <poll.h>

enum { MANY = 100000, ABOVE = 1024 * 1024, LEFT = 280000, KEPT = 2 * 65536, MUCH_LESS = 65536 };

/* Bytes of which no four neighbours are equal, so that a record has two letters for each. */
static uint8_t mixed[MANY];
static uint8_t into[MANY];

/* As many as one read gives at most. */
static uint8_t wide[16777216];

static const char *folder;

/* What the guest in one budget came to. */
struct session {
    bindingclay clay;
    struct record *record;
    /* How many steps were made, and how many calls found no memory. */
    long steps, refused;
};

/* Hands the record out. */
static void hand_out(struct session *session)
{
    HOLDS(drain(session->clay, session->record, 4096));
}

/* A call that may find no memory: whether it was made. */
static bool is_made(struct session *session, bindingclay_answer got)
{
    bool is_made = got.kind != BINDINGCLAY_NO_MEMORY;
    hand_out(session);
    session->steps += is_made;
    session->refused += !is_made;
    return is_made;
}

/* A call that ends something: it finds what it needs. */
#define ENDS(session, call, kind, number) \
    do { \
        answers(__FILE__, __LINE__, #call, call, an_answer(kind, 0, number, false)); \
        hand_out(session); \
        (session)->steps++; \
    } while (0)

/* Writes a file and reads it. */
static void file_is_read(struct session *session)
{
    bindingclay clay = session->clay;
    bindingclay_answer got = open_text(clay, 1, "f", O_RDWR | O_CREAT);
    if (!is_made(session, got))
        return;
    int32_t fd = (int32_t)got.value;
    for (size_t at = 0; at < MANY; at += 20000)
        is_made(session, bindingclay_write(clay, 1, fd, mixed + at, 20000));
    is_made(session, bindingclay_lseek(clay, 1, fd, 0, SEEK_SET));
    is_made(session, bindingclay_read(clay, 1, fd, into, MANY));
    ENDS(session, bindingclay_close(clay, 1, fd), BINDINGCLAY_DONE, 0);
}

/* Calls that wait at a pipe: one is answered, and the others are interrupted. */
static void pipe_is_read(struct session *session)
{
    bindingclay clay = session->clay;
    bindingclay_ends ends;
    if (!is_made(session, bindingclay_pipe(clay, 1, false, &ends)))
        return;
    bindingclay_answer read = bindingclay_read(clay, 1, ends.read_end, into, 5000);
    bool waits = is_made(session, read);
    bindingclay_pollfd entries[2] = { { .fd = ends.read_end, .events = POLLIN }, { .fd = 9, .events = POLLIN } };
    bindingclay_answer poll = bindingclay_poll(clay, 1, entries, 1, true);
    if (is_made(session, poll))
        ENDS(session, bindingclay_interrupt(clay, poll.value), BINDINGCLAY_FAULT, EINTR);
    bool wrote = is_made(session, bindingclay_write(clay, 1, ends.write_end, mixed, 5000));
    if (waits && wrote)
        waits = !is_made(session, bindingclay_resume(clay, read.value, into, sizeof into));
    if (waits)
        ENDS(session, bindingclay_interrupt(clay, read.value), BINDINGCLAY_FAULT, EINTR);
    is_made(session, bindingclay_poll(clay, 1, entries, 2, false));
    if (is_made(session, bindingclay_fork(clay, 1)))
        ENDS(session, bindingclay_exit(clay, 2), BINDINGCLAY_DONE, 0);
    ENDS(session, bindingclay_close(clay, 1, ends.read_end), BINDINGCLAY_DONE, 0);
    ENDS(session, bindingclay_close(clay, 1, ends.write_end), BINDINGCLAY_DONE, 0);
}

/* The guest within a budget: what it came to, and the most memory that it had. */
static struct session in_budget(uint64_t memory, struct record *record, uint64_t *peak)
{
    bindingclay_limits limits = BINDINGCLAY_LIMITS;
    struct session session = { .record = record };
    record->length = 0;
    limits.memory = memory;
    if (!bindingclay_open_within(&limits, &session.clay.kernel))
        return session;
    if (bindingclay_record(session.clay, true).kind == BINDINGCLAY_DONE && is_made(&session, bindingclay_start(session.clay))) {
        file_is_read(&session);
        pipe_is_read(&session);
        ENDS(&session, bindingclay_exit(session.clay, 1), BINDINGCLAY_DONE, 0);
    }
    *peak = bindingclay_memory(session.clay).peak;
    HOLDS(*peak <= memory);
    bindingclay_free(session.clay);
    return session;
}

static void each_budget(uint64_t step)
{
    struct record record = { NULL, 0, 0 };
    uint64_t needs = 0, peak = 0;
    keep_bytes(&record, mixed, 1);
    HOLDS(in_budget(1 << 30, &record, &needs).refused == 0);
    long tried = 0, whole = 0, made = 0;
    for (uint64_t memory = 0; memory < needs + ABOVE; memory += step) {
        struct session session = in_budget(memory, &record, &peak);
        tried++;
        made += session.steps;
        whole += session.steps > 0 && session.refused == 0;
        HOLDS(memory < needs || session.refused == 0);
        if (session.steps > 0 && tried % 16 == 0) {
            char name[32];
            snprintf(name, sizeof name, "budget-%" PRIu64, memory);
            save(&record, folder, name, session.steps);
        }
    }
    HOLDS(peak == needs && whole > 0 && whole < tried);
    printf("%ld budgets of up to %" PRIu64 " bytes, %ld of which were enough; %ld steps made\n", tried, needs + ABOVE, whole, made);
    free(record.text);
}

/* A guest leaves 280,000 bytes of a budget, and reads 100,000 of its own. The record of these takes twice as many. Of what was handed out a record keeps
 * no more room than two of 65,536 bytes. */
static void little_is_left(void)
{
    struct record record = { NULL, 0, 0 };
    bindingclay_limits limits = BINDINGCLAY_LIMITS;
    struct session session = { .record = &record };
    limits.memory = 8 * 1024 * 1024;
    HOLDS(bindingclay_open_within(&limits, &session.clay.kernel));
    DONE(bindingclay_record(session.clay, true), 0);
    HOLDS(is_made(&session, bindingclay_start(session.clay)));
    HOLDS(is_made(&session, open_text(session.clay, 1, "f", O_RDWR | O_CREAT)));
    bool grows = true;
    while (grows && limits.memory - bindingclay_memory(session.clay).held > LEFT + 2 * MANY)
        grows = is_made(&session, bindingclay_write(session.clay, 1, 0, mixed, MANY));
    while (grows && limits.memory - bindingclay_memory(session.clay).held > LEFT)
        grows = is_made(&session, bindingclay_write(session.clay, 1, 0, mixed, 1000));
    HOLDS(is_made(&session, bindingclay_lseek(session.clay, 1, 0, 0, SEEK_SET)));
    is_made(&session, bindingclay_read(session.clay, 1, 0, into, MANY));
    HOLDS(is_made(&session, bindingclay_read(session.clay, 1, 0, into, 20000)));
    HOLDS(bindingclay_memory(session.clay).held <= limits.memory - LEFT + KEPT);
    HOLDS(is_made(&session, bindingclay_read(session.clay, 1, 0, into, 1000)));
    ENDS(&session, bindingclay_close(session.clay, 1, 0), BINDINGCLAY_DONE, 0);
    ENDS(&session, bindingclay_exit(session.clay, 1), BINDINGCLAY_DONE, 0);
    save(&record, folder, "little_is_left", session.steps);
    bindingclay_free(session.clay);
    free(record.text);
}

/* A guest with far more room for bytes than it has memory reads what is there: of a pipe, of a file, and as a call that waited. */
static void much_room(void)
{
    struct record record = { NULL, 0, 0 };
    bindingclay_limits limits = BINDINGCLAY_LIMITS;
    struct session session = { .record = &record };
    bindingclay_ends ends;
    limits.memory = MUCH_LESS;
    HOLDS(bindingclay_open_within(&limits, &session.clay.kernel));
    bindingclay clay = session.clay;
    DONE(bindingclay_record(clay, true), 0);
    HOLDS(is_made(&session, bindingclay_start(clay)));
    HOLDS(is_made(&session, bindingclay_pipe(clay, 1, false, &ends)));
    HOLDS(is_made(&session, put(clay, 1, ends.write_end, "hello")));
    bindingclay_answer got = bindingclay_read(clay, 1, ends.read_end, wide, sizeof wide);
    HOLDS(is_made(&session, got) && got.value == 5 && memcmp(wide, "hello", 6) == 0);
    bindingclay_answer waits = bindingclay_read(clay, 1, ends.read_end, wide, sizeof wide);
    HOLDS(is_made(&session, waits) && waits.kind == BINDINGCLAY_PARKED);
    HOLDS(is_made(&session, put(clay, 1, ends.write_end, "again")));
    got = bindingclay_resume(clay, waits.value, wide, sizeof wide);
    HOLDS(is_made(&session, got) && got.value == 5 && memcmp(wide, "again", 6) == 0);
    HOLDS(is_made(&session, open_text(clay, 1, "f", O_RDWR | O_CREAT)));
    HOLDS(is_made(&session, put(clay, 1, 2, "file")));
    HOLDS(is_made(&session, bindingclay_lseek(clay, 1, 2, 1, SEEK_SET)));
    got = bindingclay_read(clay, 1, 2, wide, sizeof wide);
    HOLDS(is_made(&session, got) && got.value == 3 && memcmp(wide, "ilein", 5) == 0);
    HOLDS(session.refused == 0);
    save(&record, folder, "much_room", session.steps);
    bindingclay_free(clay);
    free(record.text);
}

/* With all that is recorded handed out, 64 calls that end something ask for no memory, and nor does the next hand-out. What was read doesn't matter
 * then. */
static void without_memory(void)
{
    enum { COPIES = 60 };
    /* the host's own room for the text is there before */
    struct record record = { .text = needed(malloc(8 * MANY)), .room = 8 * MANY };
    struct session session = { .clay = new_kernel(1, MANY), .record = &record };
    bindingclay clay = session.clay;
    DONE(bindingclay_record(clay, true), 0);
    HOLDS(is_made(&session, bindingclay_start(clay)));
    HOLDS(is_made(&session, open_text(clay, 1, "f", O_RDWR | O_CREAT)));
    HOLDS(is_made(&session, bindingclay_write(clay, 1, 0, mixed, MANY)));
    HOLDS(is_made(&session, bindingclay_lseek(clay, 1, 0, 0, SEEK_SET)));
    for (int i = 0; i < COPIES; i++)
        HOLDS(is_made(&session, bindingclay_dup(clay, 1, 0)));
    bindingclay_ends ends;
    HOLDS(is_made(&session, bindingclay_pipe(clay, 1, false, &ends)));
    HOLDS(is_made(&session, bindingclay_fork(clay, 1)));
    HOLDS(is_made(&session, bindingclay_read(clay, 1, ends.read_end, into, 1)));
    DONE(bindingclay_read(clay, 1, 0, into, MANY), MANY);
    session.steps++;
    for (int round = 0; round < 2; round++) {
        refuse(0, LONG_MAX);
        hand_out(&session);
        if (round == 0) {
            for (int i = 1; i <= COPIES; i++)
                DONE(bindingclay_close(clay, 1, i), 0);
            FAULT(bindingclay_interrupt(clay, 1), EINTR);
            FAULT(bindingclay_close(clay, 1, 200), EBADF);
            DONE(bindingclay_exit(clay, 1), 0);
            DONE(bindingclay_exit(clay, 2), 0);
            session.steps += COPIES + 4;
        }
        hand_out(&session);
        refuse_none();
        /* a recording goes on */
        HOLDS(is_made(&session, bindingclay_start(clay)));
    }
    save(&record, folder, "without_memory", session.steps);
    bindingclay_free(clay);
    free(record.text);
}

int main(int argc, char **argv)
{
    long step = argc == 3 ? strtol(argv[1], NULL, 10) : 0;
    if (step < 1) {
        fprintf(stderr, "records_budget STEP FOLDER\n");
        return 2;
    }
    folder = argv[2];
    for (size_t i = 0; i < sizeof mixed; i++)
        mixed[i] = (uint8_t)(i * 7 + i / 251);
    little_is_left();
    much_room();
    without_memory();
    each_budget((uint64_t)step);
    HOLDS(atomic_load(&blocks_left) == 0);
    return end();
}
