/* What calls cost beside others that wait. growth_waits N: beside N of them. Time is compared with that beside a sixteenth of N, with a wide
 * margin, if N is large enough to tell. */
#define _GNU_SOURCE
#include "growth.h"

#include <limits.h>
#include <poll.h>

/* A kernel, and the pipe in it that is measured. */
struct place { bindingclay clay; bindingclay_ends ends; };

/* The seconds of a round: the least of five runs. */
static double least_of_five(int rounds, void (*round)(const struct place *), struct place place)
{
    double least = 1e9;
    for (int run = 0; run < 5; run++) {
        double begun = seconds();
        for (int i = 0; i < rounds; i++)
            round(&place);
        double taken = (seconds() - begun) / rounds;
        least = taken < least ? taken : least;
    }
    return least;
}

/* A fork, a read of the child that waits, and the child's exit. */
static void exit_a_child(const struct place *place)
{
    uint32_t child = (uint32_t)bindingclay_fork(place->clay, 1).value;
    bindingclay_answer waits = take(place->clay, child, place->ends.read_end, 1);
    if (waits.kind != BINDINGCLAY_PARKED || bindingclay_exit(place->clay, child).kind != BINDINGCLAY_DONE)
        HOLDS(false);
}

static double seconds_of_an_exit(struct place place)
{
    return least_of_five(2000, exit_a_child, place);
}

/* An exit costs what its process has, however many calls of others wait. */
static void an_exit_beside_calls_that_wait(long count)
{
    bindingclay clay = kernel_with_process();
    bindingclay_ends ends = NEW_PIPE(clay, 1, false);
    double few = 0;
    for (long i = 0; i < count; i++) {
        if (i == count / 16)
            few = seconds_of_an_exit((struct place){clay, ends});
        if (take(clay, 1, ends.read_end, 1).kind != BINDINGCLAY_PARKED)
            HOLDS(false);
    }
    double many = seconds_of_an_exit((struct place){clay, ends});
    if (count >= LARGE)
        HOLDS(many < 8 * few);
    printf("an exit beside %ld calls that wait %.0f ns, beside %ld %.0f ns\n", count / 16, few * 1e9, count, many * 1e9);
    OTHER(bindingclay_exit(clay, 1), BINDINGCLAY_DONE);
    bindingclay_free(clay);
}

/* How many pipes have calls that wait beside the one that is measured. */
enum { OTHER_PIPES = 100 };

/* One round: a read begins to wait, and nobody can make progress. A byte helps it, so it is told. It is resumed, and again nobody can. */
static void serve_one(const struct place *place)
{
    bindingclay clay = place->clay;
    bindingclay_ends ends = place->ends;
    uint8_t byte = 0;
    bindingclay_answer waits = take(clay, 1, ends.read_end, 1);
    bool as_wanted = waits.kind == BINDINGCLAY_PARKED && bindingclay_next_ready(clay, 0).kind == BINDINGCLAY_NO_CALL;
    as_wanted = as_wanted && put(clay, 1, ends.write_end, "a").value == 1;
    bindingclay_answer next = bindingclay_next_ready(clay, 0);
    as_wanted = as_wanted && next.kind == BINDINGCLAY_DONE && next.value == waits.value;
    as_wanted = as_wanted && bindingclay_resume(clay, waits.value, &byte, 1).value == 1 && byte == 'a';
    if (!as_wanted || bindingclay_next_ready(clay, 0).kind != BINDINGCLAY_NO_CALL)
        HOLDS(false);
}

static double seconds_of_a_service(struct place place)
{
    return least_of_five(1000, serve_one, place);
}

/* The next call that can make progress is found among those at the pipe that was touched, however many wait at others. */
static void the_next_beside_calls_that_wait(long count)
{
    bindingclay clay = kernel_with_process();
    bindingclay_ends ends = NEW_PIPE(clay, 1, false), others[OTHER_PIPES];
    for (int i = 0; i < OTHER_PIPES; i++)
        others[i] = NEW_PIPE(clay, 1, false);
    double few = 0;
    for (long i = 0; i < count; i++) {
        if (i == count / 16)
            few = seconds_of_a_service((struct place){clay, ends});
        if (take(clay, 1, others[i % OTHER_PIPES].read_end, 1).kind != BINDINGCLAY_PARKED)
            HOLDS(false);
    }
    double many = seconds_of_a_service((struct place){clay, ends});
    if (count >= LARGE)
        HOLDS(many < 8 * few);
    printf("a read that waits, is told and resumed, beside %ld calls that wait %.0f ns, beside %ld %.0f ns\n", count / 16, few * 1e9, count,
           many * 1e9);
    OTHER(bindingclay_exit(clay, 1), BINDINGCLAY_DONE);
    OTHER(bindingclay_next_ready(clay, 0), BINDINGCLAY_NO_CALL);
    bindingclay_free(clay);
    HOLDS(bytes_left == 0);
}

/* The seconds of a question which call can make progress, where none can. */
static double seconds_of_a_question(bindingclay clay)
{
    double begun = seconds();
    OTHER(bindingclay_next_ready(clay, 0), BINDINGCLAY_NO_CALL);
    return seconds() - begun;
}

/* The seconds of a byte that comes to a pipe, until it is read and nobody can make progress any more. */
static double seconds_of_a_byte(bindingclay clay, bindingclay_ends ends)
{
    enum { ROUNDS = 8 };
    uint8_t byte = 0;
    double begun = seconds();
    for (int i = 0; i < ROUNDS; i++) {
        int served = 0;
        bindingclay_answer next;
        if (put(clay, 1, ends.write_end, "a").value != 1)
            HOLDS(false);
        while ((next = bindingclay_next_ready(clay, 0)).kind == BINDINGCLAY_DONE)
            served += bindingclay_resume(clay, next.value, &byte, 1).value == 1;
        HOLDS(served == 1);
    }
    return (seconds() - begun) / ROUNDS;
}

/* Among many readers of a pipe a byte costs little more than among a few, once each was entered in the queue of the pipe. */
static void a_byte_for_many_readers(long count)
{
    bindingclay clay = kernel_with_process();
    bindingclay_ends ends = NEW_PIPE(clay, 1, false);
    double few = 0;
    for (long i = 0; i < count; i++) {
        if (i == count / 16) {
            seconds_of_a_question(clay);
            few = seconds_of_a_byte(clay, ends);
        }
        if (take(clay, 1, ends.read_end, 1).kind != BINDINGCLAY_PARKED)
            HOLDS(false);
    }
    seconds_of_a_question(clay);
    double many = seconds_of_a_byte(clay, ends);
    if (count >= LARGE)
        HOLDS(many < 8 * few);
    printf("a byte for one of %ld readers of a pipe %.0f ns, of %ld %.0f ns\n", count / 16, few * 1e9, count, many * 1e9);
    bindingclay_free(clay);
    HOLDS(bytes_left == 0);
}

/* A step at a pipe that changes nothing, and the question after it. */
static void step_in_vain(const struct place *place)
{
    if (bindingclay_set_fl(place->clay, 1, place->ends.read_end, 0).kind != BINDINGCLAY_DONE
        || bindingclay_next_ready(place->clay, 0).kind != BINDINGCLAY_NO_CALL)
        HOLDS(false);
}

static double seconds_of_a_step_in_vain(struct place place)
{
    return least_of_five(1000, step_in_vain, place);
}

/* Where no memory is left hardly any call more can begin to wait, as it would have no place in a queue: so questions cost what they did. */
static void questions_without_memory(long count)
{
    bindingclay clay = kernel_with_process();
    struct place place = {clay, NEW_PIPE(clay, 1, false)};
    /* the table of calls has room for more of them then */
    for (long i = 0; i < count - count / 8; i++)
        if (take(clay, 1, place.ends.read_end, 1).kind != BINDINGCLAY_PARKED)
            HOLDS(false);
    double with_memory = seconds_of_a_step_in_vain(place);
    refuse(0, LONG_MAX);
    long more = 0;
    uint8_t byte;
    while (bindingclay_read(clay, 1, place.ends.read_end, &byte, 1).kind == BINDINGCLAY_PARKED)
        more++;
    HOLDS(refused != 0 && more < 1024);
    double without = seconds_of_a_step_in_vain(place);
    refuse_none();
    if (count >= LARGE)
        HOLDS(without < 16 * with_memory);
    printf("a step in vain beside %ld calls %.0f ns, and once memory had run out, beside %ld more, %.0f ns\n", count, with_memory * 1e9, more,
           without * 1e9);
    /* where eight have no places, a call that finds no memory makes them, and waits when it is made again */
    HOLDS(take(clay, 1, place.ends.read_end, 1).kind == BINDINGCLAY_PARKED || take(clay, 1, place.ends.read_end, 1).kind == BINDINGCLAY_PARKED);
    bindingclay_free(clay);
    HOLDS(bytes_left == 0);
}

/* The bytes that a new pipe can hold, and how many sizes of writes wait at one, the least of which doesn't fit. */
enum { WHOLE = 65536, SIZES = 64, ROOM = 64 };

/* What waits at the pipe that is measured. */
enum waiting { READS, WRITES, WRITES_OF_MANY_SIZES, POLLS, POLLS_OF_MANY, SPLICES, TEES };

/* How calls of a kind are named, how many entries its polls have, and how many bytes are in the pipe. */
static const struct kind {
    const char *name;
    size_t entries;
    uint32_t bytes;
} kinds[] = {
    [READS] = {"reads", 0, 0},
    [WRITES] = {"writes", 0, WHOLE},
    [WRITES_OF_MANY_SIZES] = {"writes of 64 sizes", 0, WHOLE - ROOM},
    [POLLS] = {"polls", 1, 0},
    [POLLS_OF_MANY] = {"polls of 16 entries", 16, 0},
    [SPLICES] = {"splices", 0, 0},
    [TEES] = {"tees", 0, 0},
};

/* A call of this kind waits at the pipe; a splice and a tee wait to give to another one. */
static bindingclay_answer wait_there(enum waiting kind, struct place place, bindingclay_ends other, long round)
{
    static const uint8_t bytes[ROOM + SIZES];
    bindingclay_pollfd entries[16];
    for (size_t i = 0; i < kinds[kind].entries; i++)
        entries[i] = (bindingclay_pollfd){i % 2 == 0 ? place.ends.read_end : other.read_end, POLLIN, 0};
    switch (kind) {
    case READS:
        return take(place.clay, 1, place.ends.read_end, 1);
    case WRITES:
        return put(place.clay, 1, place.ends.write_end, "a");
    case WRITES_OF_MANY_SIZES:
        return bindingclay_write(place.clay, 1, place.ends.write_end, bytes, ROOM + 1 + (size_t)(round % SIZES));
    case POLLS:
    case POLLS_OF_MANY:
        return bindingclay_poll(place.clay, 1, entries, kinds[kind].entries, true);
    case SPLICES:
        return bindingclay_splice(place.clay, 1, place.ends.read_end, NULL, other.write_end, NULL, 1, 0);
    case TEES:
        return bindingclay_tee(place.clay, 1, place.ends.read_end, other.write_end, 1, 0);
    }
    abort();
}

/* The first call of a queue answers for all of it, and a write that is too large for all larger ones: a step at the pipe asks no more of them. */
static void a_step_beside_one_queue(long count, enum waiting kind)
{
    bindingclay clay = kernel_with_process();
    struct place place = {clay, NEW_PIPE(clay, 1, false)};
    bindingclay_ends other = NEW_PIPE(clay, 1, false);
    if (kinds[kind].bytes != 0)
        DONE(put_many(clay, 1, place.ends.write_end, kinds[kind].bytes), kinds[kind].bytes);
    double few = 0;
    for (long i = 0; i < count; i++) {
        if (i == count / 16) {
            seconds_of_a_question(clay);
            few = seconds_of_a_step_in_vain(place);
        }
        if (wait_there(kind, place, other, i).kind != BINDINGCLAY_PARKED)
            HOLDS(false);
    }
    seconds_of_a_question(clay);
    double many = seconds_of_a_step_in_vain(place);
    if (count >= LARGE)
        HOLDS(many < 8 * few);
    printf("a step in vain beside %ld %s of one pipe %.0f ns, beside %ld %.0f ns\n", count / 16, kinds[kind].name, few * 1e9, count,
           many * 1e9);
    OTHER(bindingclay_exit(clay, 1), BINDINGCLAY_DONE);
    bindingclay_free(clay);
    HOLDS(bytes_left == 0);
}

/* Calls that were interrupted before anybody asked cost the next question something, and the one after it nothing. */
static void a_question_after_interrupted_calls(long count)
{
    enum { STAY = 10, ROUNDS = 1000 };
    bindingclay clay = kernel_with_process();
    bindingclay_ends ends = NEW_PIPE(clay, 1, false);
    for (int i = 0; i < STAY; i++)
        HOLDS(take(clay, 1, ends.read_end, 1).kind == BINDINGCLAY_PARKED);
    double taken[2];
    for (int many = 0; many < 2; many++) {
        for (long i = 0; i < (many ? count : 1); i++) {
            bindingclay_answer waits = take(clay, 1, ends.read_end, 1);
            if (waits.kind != BINDINGCLAY_PARKED || bindingclay_interrupt(clay, waits.value).kind != BINDINGCLAY_FAULT)
                HOLDS(false);
        }
        seconds_of_a_question(clay);
        double begun = seconds();
        for (int i = 0; i < ROUNDS; i++)
            if (bindingclay_next_ready(clay, 0).kind != BINDINGCLAY_NO_CALL)
                HOLDS(false);
        taken[many] = (seconds() - begun) / ROUNDS;
    }
    if (count >= LARGE)
        HOLDS(taken[1] < 8 * taken[0]);
    printf("a question after an interrupted call %.0f ns, after %ld %.0f ns\n", taken[0] * 1e9, count, taken[1] * 1e9);
    bindingclay_free(clay);
    HOLDS(bytes_left == 0);
}

/* What calls that ended had is given back, once few wait: their table as they end, and their queues at the next question. */
static void memory_of_calls_that_ended(long count)
{
    bindingclay clay = kernel_with_process();
    bindingclay_ends ends = NEW_PIPE(clay, 1, false);
    DONE(bindingclay_fork(clay, 1), 2);
    long at_first = bytes_left;
    for (long i = 0; i < count; i++)
        if (take(clay, 2, ends.read_end, 1).kind != BINDINGCLAY_PARKED)
            HOLDS(false);
    long taken = bytes_left - at_first;
    OTHER(bindingclay_exit(clay, 2), BINDINGCLAY_DONE);
    long before = bytes_left;
    seconds_of_a_question(clay);
    long queues = before - bytes_left, left = bytes_left - at_first;
    if (count >= LARGE)
        HOLDS(queues >= 24 * count && taken >= queues + 64 * count && 64 * left < taken);
    printf("%ld calls took %ld bytes, %ld of them for their queues; %ld are left\n", count, taken, queues, left);
    bindingclay_free(clay);
    HOLDS(bytes_left == 0);
}

/* From some request for memory on all are refused: of the calls that wait all the same one is told. It returns whether a request was refused. */
static bool waits_without_memory(long granted)
{
    enum { PIPES = 3, READS = 24 };
    bindingclay clay = kernel_with_process();
    bindingclay_ends ends[PIPES];
    uint64_t first = 0;
    uint8_t byte = 0;
    for (int i = 0; i < PIPES; i++)
        ends[i] = NEW_PIPE(clay, 1, false);
    refuse(granted, LONG_MAX);
    for (int i = 0; i < READS; i++) {
        bindingclay_answer waits = bindingclay_read(clay, 1, ends[i % PIPES].read_end, &byte, 1);
        if (waits.kind == BINDINGCLAY_PARKED && i % PIPES == 2 && first == 0)
            first = waits.value;
    }
    OTHER(bindingclay_next_ready(clay, 0), BINDINGCLAY_NO_CALL);
    bool was_refused = refused != 0;
    refuse_none();
    DONE(put(clay, 1, ends[2].write_end, "a"), 1);
    refuse(0, LONG_MAX);
    bindingclay_answer next = bindingclay_next_ready(clay, 0);
    refuse_none();
    if (first == 0) {
        HOLDS(next.kind == BINDINGCLAY_NO_CALL);
    } else {
        DONE(next, first);
        OTHER(bindingclay_next_ready(clay, first + READS), BINDINGCLAY_NO_CALL);
        DONE(bindingclay_resume(clay, first, &byte, 1), 1);
        OTHER(bindingclay_next_ready(clay, 0), BINDINGCLAY_NO_CALL);
    }
    bindingclay_free(clay);
    HOLDS(bytes_left == 0);
    return was_refused;
}

static void waits_without_any_memory(void)
{
    long granted = 0;
    while (waits_without_memory(granted))
        granted++;
    HOLDS(granted >= 4);
}

int main(int words, char **word)
{
    long count = count_of(words, word);
    an_exit_beside_calls_that_wait(count);
    the_next_beside_calls_that_wait(count);
    questions_without_memory(count);
    a_byte_for_many_readers(count);
    for (enum waiting kind = READS; kind <= TEES; kind++)
        a_step_beside_one_queue(count, kind);
    a_question_after_interrupted_calls(count);
    memory_of_calls_that_ended(count);
    waits_without_any_memory();
    return end();
}
