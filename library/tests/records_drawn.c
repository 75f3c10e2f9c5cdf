/* Records of runs that are drawn at random. Guests make calls of every kind, with flags, names, offsets and numbers that are good or bad, in
 * kernels of drawn limits and budgets. In every other run the record is handed out after each call: it has grown by the line of the step and
 * the text of its answer, or not at all if no step was made. In the others it is handed out at times, in pieces of drawn sizes.
 *
 *   records_drawn RUNS FOLDER    writes a record of each run to FOLDER, for piperun --check */
#define _GNU_SOURCE
#include "records.h"
#include "script_text.h"

enum { MOST_STEPS = 150, MOST_SIZE = 9000, POLLED = 2 };

static uint32_t state;

static uint32_t drawn(uint32_t below)
{
    state = (uint32_t)((state * UINT64_C(1103515245) + 12345) % 2147483648u);
    return (uint32_t)(state / 65536 % below);
}

static bool one_in(uint32_t count)
{
    return drawn(count) == 0;
}

/* Whether the call was refused before it came to a step, as its flags have another bit, or its number says no place. */
static bool is_no_step;

/* The number of the first call of this run, and of the next one that waits. */
static uint64_t first_number, next_number;

static int32_t drawn_fd(void)
{
    static const int32_t ODD[] = { -1, 77, 255, INT32_MIN, INT32_MAX };
    return one_in(20) ? ODD[drawn(5)] : (int32_t)drawn(7);
}

static uint32_t drawn_size(void)
{
    static const uint32_t ODD[] = { 0, 1, 3, 4, 5, 4096, 4097, MOST_SIZE };
    return one_in(2) ? ODD[drawn(8)] : drawn(MOST_SIZE);
}

static uint32_t drawn_bits(const struct named *table)
{
    uint32_t bits = 0;
    for (const struct named *row = table; row->name != NULL; row++)
        if (one_in(5))
            bits |= row->bits;
    return bits;
}

/* Now and then a bit that is no flag of the call. */
static uint32_t drawn_flags(const struct named *table)
{
    uint32_t bits = drawn_bits(table);
    is_no_step = one_in(20);
    return is_no_step ? bits | 1u << 20 : bits;
}

static void drawn_name(void)
{
    static const char *const NAMES[] = { "q", "r", "f", "-", "a b", "%41", "#", "\x01\xff\n", "a/b", "" };
    const char *name = NAMES[one_in(2) ? drawn(3) : drawn(10)];
    byte_count = strlen(name);
    memcpy(bytes, name, byte_count);
    if (one_in(100)) {
        byte_count = 254 + drawn(5);
        memset(bytes, 'n', byte_count);
    }
}

/* Bytes with runs and without. */
static void drawn_bytes(void)
{
    byte_count = 0;
    for (uint32_t size = drawn_size(); byte_count < size;) {
        size_t left = size - byte_count, run = one_in(3) ? 1 + drawn(5000) : 1 + drawn(4);
        memset(bytes + byte_count, (int)drawn(256), run < left ? run : left);
        byte_count += run < left ? run : left;
    }
}

/* Offsets: in the file, behind its end, and above any. */
static uint64_t drawn_offset(void)
{
    return one_in(10) ? UINT64_MAX - drawn(2) * (UINT64_MAX / 2) : drawn(20000);
}

/* ---- Calls: each says what its answer tells ---- */

static enum told moves(uint32_t pid)
{
    uint64_t from = drawn_offset(), to = drawn_offset();
    int32_t fd = drawn_fd();
    switch (drawn(5)) {
    case 0:
        answer = bindingclay_splice(clay, pid, fd, one_in(4) ? &from : NULL, drawn_fd(), one_in(4) ? &to : NULL, drawn_size(),
            drawn_flags(SPLICE_FLAGS));
        return COUNT;
    case 1:
        answer = bindingclay_tee(clay, pid, fd, drawn_fd(), drawn_size(), drawn_flags(SPLICE_FLAGS));
        return COUNT;
    case 2:
        answer = bindingclay_read(clay, pid, fd, into, drawn_size());
        return DATA;
    default:
        drawn_bytes();
        answer = bindingclay_write(clay, pid, fd, bytes, byte_count);
        return COUNT;
    }
}

static enum told names(uint32_t pid)
{
    uint32_t mode = drawn(4);
    drawn_name();
    switch (drawn(5)) {
    case 0:
        answer = bindingclay_mkfifo(clay, pid, bytes, byte_count);
        return NOTHING;
    case 1:
        answer = bindingclay_unlink(clay, pid, bytes, byte_count);
        return NOTHING;
    default:
        /* 3 is no mode; what is no flag has no effect here */
        answer = bindingclay_open_name(clay, pid, bytes, byte_count, mode | (one_in(2) ? O_CREAT : 0) | drawn_flags(OPEN_FLAGS));
        is_no_step = mode == 3;
        return FD;
    }
}

static enum told polls(uint32_t pid)
{
    entry_count = POLLED;
    for (size_t i = 0; i < entry_count; i++)
        entries[i] = (bindingclay_pollfd){ .fd = drawn_fd(), .events = (int16_t)(drawn_bits(EVENTS) | (one_in(9) ? POLLPRI : 0)) };
    answer = bindingclay_poll(clay, pid, entries, entry_count, one_in(2));
    return MASKS;
}

static enum told on_descriptors(uint32_t pid)
{
    int32_t fd = drawn_fd(), whence = (int32_t)drawn(4);
    switch (drawn(9)) {
    case 0:
        answer = bindingclay_dup(clay, pid, fd);
        return FD;
    case 1:
        answer = bindingclay_dup2(clay, pid, fd, drawn_fd());
        return FD;
    case 2:
        answer = bindingclay_dup_fd(clay, pid, fd, drawn_fd());
        return FD;
    case 3:
        answer = bindingclay_lseek(clay, pid, fd, (int64_t)drawn(3000) - 1000, whence);
        is_no_step = whence == 3;
        return OFFSET;
    case 4:
        answer = bindingclay_get_fl(clay, pid, fd);
        return FLAGS;
    case 5:
        answer = bindingclay_set_fl(clay, pid, fd, drawn_flags(OPEN_FLAGS));
        is_no_step = false;
        return NOTHING;
    case 6:
        answer = bindingclay_get_pipe_sz(clay, pid, fd);
        return SIZE;
    case 7:
        answer = bindingclay_set_pipe_sz(clay, pid, fd, 4096u << drawn(10));
        return SIZE;
    default:
        answer = bindingclay_close(clay, pid, fd);
        return NOTHING;
    }
}

static enum told makes(uint32_t pid)
{
    switch (drawn(8)) {
    case 0:
        answer = bindingclay_start(clay);
        return PID;
    case 1:
        answer = bindingclay_fork(clay, pid);
        return PID;
    case 2:
        answer = bindingclay_exit(clay, one_in(9) ? pid : 2);
        return NOTHING;
    case 3:
    case 4:
        answer = bindingclay_pipe2(clay, pid, drawn_flags(PIPE_FLAGS), &ends);
        return FDS;
    default:
        answer = bindingclay_pipe(clay, pid, one_in(4), &ends);
        return FDS;
    }
}

/* Tries a call again, or ends it. Its number may be of none. */
static enum told goes_on(void)
{
    static const enum told TOLD[] = { [BINDINGCLAY_READ] = DATA, [BINDINGCLAY_WRITE] = COUNT, [BINDINGCLAY_OPEN] = FD,
        [BINDINGCLAY_SPLICE] = COUNT, [BINDINGCLAY_TEE] = COUNT, [BINDINGCLAY_POLL] = MASKS };
    uint64_t number = first_number + drawn((uint32_t)(next_number - first_number) + 1);
    bindingclay_answer ready = bindingclay_next_ready(clay, 0);
    bindingclay_waiting_facts facts = { .kind = BINDINGCLAY_READ };
    if (ready.kind == BINDINGCLAY_DONE && !one_in(4))
        number = ready.value;
    bindingclay_call_facts(clay, number, &facts);
    entry_count = POLLED;
    if (one_in(6))
        answer = bindingclay_interrupt(clay, number);
    else if (facts.kind == BINDINGCLAY_POLL && !one_in(5))
        answer = bindingclay_resume_poll(clay, number, entries, entry_count);
    else
        answer = bindingclay_resume(clay, number, into, one_in(4) ? drawn(5) : MOST_SIZE);
    return TOLD[facts.kind];
}

static enum told make_call(void)
{
    uint32_t pid = one_in(10) ? drawn(5) : 1, kind = drawn(next_number == first_number ? 82 : 100);
    is_no_step = false;
    if (kind < 40)
        return moves(pid);
    if (kind < 50)
        return names(pid);
    if (kind < 57)
        return polls(pid);
    if (kind < 72)
        return on_descriptors(pid);
    return kind < 80 ? makes(pid) : goes_on();
}

/* ---- Runs ---- */

static struct record record;

/* How many steps were made in all, how many calls made none, and how many found no memory. */
static long made, unmade, without_memory;

/* The record grew by one line and the text of the answer if a step was made, and else by nothing. */
static void grew(size_t before, bool is_step, enum told told)
{
    const char *from = record.text + before;
    size_t grown = record.length - before;
    if (!is_step) {
        HOLDS(grown == 0);
        return;
    }
    say_answer(told, answer.value);
    size_t wanted = text_length + 6;
    bool is_told = grown > wanted && memcmp(from + grown - wanted, "# => ", 5) == 0
        && memcmp(from + grown - 1 - text_length, text, text_length) == 0 && from[grown - 1] == '\n';
    /* one line is in front of it */
    is_told = is_told && memchr(from, '\n', grown) == from + grown - wanted - 1;
    if (!is_told) {
        checks_failed++;
        printf("%.*s: and not %.200s\n", (int)(grown < 300 ? grown : 300), from, text);
    }
}

/* Makes a call; whether it was a step. */
static bool step(bool is_watched)
{
    size_t before = record.length;
    enum told told = make_call();
    bool is_step = !is_no_step && answer.kind != BINDINGCLAY_NO_MEMORY && answer.kind != BINDINGCLAY_SHORT;
    if (is_no_step && answer.kind != BINDINGCLAY_NO_MEMORY)
        FAULT(answer, EINVAL);
    if (answer.kind == BINDINGCLAY_PARKED && answer.value == next_number)
        next_number++;
    without_memory += answer.kind == BINDINGCLAY_NO_MEMORY;
    *(is_step ? &made : &unmade) += 1;
    if (is_watched && drain(clay, &record, 1000))
        grew(before, is_step, told);
    else if (one_in(10))
        drain(clay, &record, 1 + drawn(200));
    return is_step;
}

static bindingclay drawn_kernel(void)
{
    bindingclay_limits limits = BINDINGCLAY_LIMITS;
    bindingclay opened = { NULL };
    first_number = one_in(8) ? UINT64_MAX - 1 - drawn(3) : drawn(100);
    limits.first_call = next_number = first_number;
    limits.names = one_in(3) ? drawn(4) : UINT64_MAX;
    limits.waiting_calls = one_in(3) ? drawn(4) : UINT64_MAX;
    limits.waiting_of_each = one_in(3) ? drawn(3) : UINT64_MAX;
    limits.capacity = one_in(3) ? 65536 : BINDINGCLAY_MOST_CAPACITY;
    limits.file_max = one_in(3) ? 5000 : BINDINGCLAY_MOST_FILE_BYTES;
    limits.descriptors_max = one_in(3) ? 3 + drawn(4) : BINDINGCLAY_USUAL_DESCRIPTORS;
    limits.descriptions_max = one_in(3) ? 5 + drawn(4) : BINDINGCLAY_USUAL_DESCRIPTIONS;
    limits.processes_max = one_in(3) ? 1 + drawn(3) : BINDINGCLAY_USUAL_PROCESSES;
    /* a recording takes 8,192 bytes as it begins */
    limits.memory = one_in(4) ? 10000 + drawn(60000) : UINT64_MAX;
    HOLDS(bindingclay_open_within(&limits, &opened.kernel));
    return opened;
}

/* Ends a run. Whatever its budget is, handing out asks for no memory. */
static void finish(const char *folder, long run, long steps)
{
    char name[32];
    HOLDS(drain(clay, &record, 4096));
    snprintf(name, sizeof name, "drawn%ld", run);
    save(&record, folder, name, steps);
    bindingclay_free(clay);
}

/* Begins a run: a process with two pipes, of which one may be a packet pipe, and a file. Answers how many of these steps were made. */
static long begin_run(bool is_watched)
{
    long steps = 0;
    record.length = 0;
    clay = drawn_kernel();
    DONE(bindingclay_record(clay, true), 0);
    bindingclay_answer answers[] = { bindingclay_start(clay), bindingclay_pipe(clay, 1, false, &ends),
        bindingclay_pipe2(clay, 1, one_in(3) ? BINDINGCLAY_O_DIRECT : 0, &ends), open_text(clay, 1, "f", O_RDWR | O_CREAT) };
    for (size_t i = 0; i < sizeof answers / sizeof *answers; i++)
        steps += answers[i].kind != BINDINGCLAY_NO_MEMORY;
    if (is_watched)
        drain(clay, &record, 4096);
    return steps;
}

int main(int argc, char **argv)
{
    long runs = argc == 3 ? atol(argv[1]) : 0;
    if (runs < 1) {
        fprintf(stderr, "records_drawn RUNS FOLDER\n");
        return 2;
    }
    shows_runs = true;
    for (long run = 0; run < runs && checks_failed == 0; run++) {
        bool is_watched = run % 2 == 0;
        state = (uint32_t)run;
        long steps = begin_run(is_watched);
        for (uint32_t left = 20 + drawn(MOST_STEPS); left > 0; left--)
            steps += step(is_watched);
        finish(argv[2], run, steps);
    }
    printf("%ld runs of %ld steps; %ld calls made none, %ld of them as they found no memory\n", runs, made, unmade, without_memory);
    HOLDS(made > 10 * runs && unmade > without_memory && without_memory > 0);
    free(record.text);
    return end();
}
