/* Two kernels in two threads, without a lock: neither knows of the other. Then two further threads go on with them. */
#include "check.h"
#include "counted.h"

#include <fcntl.h>
#include <pthread.h>

enum { ROUNDS = 3000 };

struct party {
    bindingclay clay;
    /* A byte by which the two differ. */
    uint8_t mark;
    /* The number of its next call that waits. */
    uint64_t number;
    /* Whether all went as it should: the checks themselves print and count, and so are made by one thread alone. */
    bool as_wanted;
};

static bool is_done(bindingclay_answer answer, uint64_t value)
{
    return answer.kind == BINDINGCLAY_DONE && answer.value == value && answer.error == 0 && !answer.sigpipe && !answer.moved;
}

/* A write through a pipe, a tee and a file, and all of it read back. */
static bool bytes_go_round(bindingclay clay, uint8_t mark, size_t size)
{
    uint8_t out[5000], in[5000], file[5000];
    for (size_t i = 0; i < size; i++)
        out[i] = (uint8_t)(mark + i * 7 + i / 251);
    memset(in, UNTOUCHED, size);
    memset(file, UNTOUCHED, size);
    return is_done(bindingclay_write(clay, 1, 1, out, size), size)
        && is_done(bindingclay_tee(clay, 1, 0, 3, (uint32_t)size, 0), size)
        && is_done(bindingclay_lseek(clay, 1, 4, 0, SEEK_SET), 0)
        && is_done(bindingclay_splice(clay, 1, 2, NULL, 4, NULL, (uint32_t)size, 0), size)
        && is_done(bindingclay_read(clay, 1, 0, in, size), size)
        && memcmp(out, in, size) == 0
        && is_done(bindingclay_file_bytes(clay, bytes_of("f"), 1, file, 5000), size)
        && memcmp(out, file, size) == 0
        && is_done(open_text(clay, 1, "f", O_RDWR | O_TRUNC), 5)
        && is_done(bindingclay_close(clay, 1, 5), 0);
}

/* Processes, and a call that waits. */
static bool processes_come_and_go(bindingclay clay, uint64_t number)
{
    uint8_t in[1];
    bindingclay_answer parked = bindingclay_read(clay, 1, 0, in, 1);
    return parked.kind == BINDINGCLAY_PARKED && parked.value == number
        && is_done(bindingclay_fork(clay, 1), 2)
        && is_done(bindingclay_write(clay, 2, 1, bytes_of("c"), 1), 1)
        && is_done(bindingclay_exit(clay, 2), 0)
        && is_done(bindingclay_resume(clay, number, in, 1), 1)
        && in[0] == 'c';
}

static void *take_part(void *argument)
{
    struct party *party = argument;
    for (uint64_t round = 0; round < ROUNDS && party->as_wanted; round++)
        party->as_wanted = bytes_go_round(party->clay, party->mark, 1 + round)
            && processes_come_and_go(party->clay, party->number++);
    return NULL;
}

static struct party new_party(uint8_t mark)
{
    struct party party = { .clay = new_kernel(mark, 5000), .mark = mark, .number = mark, .as_wanted = true };
    DONE(bindingclay_start(party.clay), 1);
    NEW_PIPE(party.clay, 1, false);
    NEW_PIPE(party.clay, 1, false);
    DONE(open_text(party.clay, 1, "f", O_RDWR | O_CREAT), 4);
    return party;
}

/* Gives each kernel to a thread of its own, and waits for both. */
static void in_two_threads(struct party *parties)
{
    pthread_t threads[2];
    for (int i = 0; i < 2; i++)
        if (!HOLDS(pthread_create(&threads[i], NULL, take_part, &parties[i]) == 0))
            exit(1);
    for (int i = 0; i < 2; i++) {
        HOLDS(pthread_join(threads[i], NULL) == 0);
        HOLDS(parties[i].as_wanted);
    }
}

int main(void)
{
    struct party parties[2] = { new_party('x'), new_party('y') };
    in_two_threads(parties);
    /* other threads go on with them: the end of one and the start of the next order them */
    in_two_threads(parties);
    HOLDS(atomic_load(&blocks_left) > 0);
    for (int i = 0; i < 2; i++)
        bindingclay_free(parties[i].clay);
    HOLDS(atomic_load(&blocks_left) == 0);
    return end();
}
