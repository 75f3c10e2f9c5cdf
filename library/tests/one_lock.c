/* One kernel, and four threads that share it under one lock for a second at least. Each is a process that writes to its own pipe and reads
 * from the one before it, so that they make a ring; what goes around has to come in order. At the end every descriptor is closed, and no
 * memory is left. */
#define _POSIX_C_SOURCE 200809L
#include "check.h"
#include "counted.h"

#include <pthread.h>
#include <time.h>

/* How many bytes a call has at most, and how many writes and reads a thread makes at least, however late it gets its turn. */
enum { THREADS = 4, MOST = 9000, FEWEST_TURNS = 100 };

static bindingclay clay;
static pthread_mutex_t lock = PTHREAD_MUTEX_INITIALIZER;
static bindingclay_ends pipes[THREADS];
static struct timespec begun;

/* A thread: what it may only touch itself, but for the answers' lines, which stand under the lock. */
struct party {
    uint32_t pid;
    int32_t read_end, write_end;
    /* How many bytes it has written and read; the byte behind n of them is byte_at(n). */
    uint64_t written, read;
    /* How many of its calls waited. */
    uint64_t waited;
    uint32_t random;
};

static uint8_t byte_at(uint64_t place)
{
    return (uint8_t)(place * 31 + place / 256);
}

static uint32_t drawn(struct party *party, uint32_t below)
{
    party->random = party->random * 1664525 + 1013904223;
    return (party->random >> 8) % below;
}

static double seconds(void)
{
    struct timespec now;
    clock_gettime(CLOCK_MONOTONIC, &now);
    return (double)(now.tv_sec - begun.tv_sec) + (double)(now.tv_nsec - begun.tv_nsec) / 1e9;
}

/* A call under the lock. */
#define LOCKED(call) \
    pthread_mutex_lock(&lock); \
    bindingclay_answer answer = call; \
    pthread_mutex_unlock(&lock)

static bindingclay_answer write_once(struct party *party, const uint8_t *bytes, size_t size)
{
    LOCKED(bindingclay_write(clay, party->pid, party->write_end, bytes, size));
    return answer;
}

static bindingclay_answer read_once(struct party *party, uint8_t *bytes, size_t size)
{
    LOCKED(bindingclay_read(clay, party->pid, party->read_end, bytes, size));
    return answer;
}

static bindingclay_answer resume_once(uint64_t number, uint8_t *bytes, size_t size)
{
    LOCKED(bindingclay_resume(clay, number, bytes, size));
    return answer;
}

static bindingclay_answer interrupt_once(uint64_t number)
{
    LOCKED(bindingclay_interrupt(clay, number));
    return answer;
}

/* Tries a call that waits again some times, and then interrupts it: nobody waits for ever. */
static bindingclay_answer waited_for(struct party *party, bindingclay_answer answer, uint8_t *bytes, size_t size)
{
    for (int turn = 0; answer.kind == BINDINGCLAY_PARKED && turn < 20; turn++) {
        party->waited++;
        answer = resume_once(answer.value, bytes, size);
    }
    return answer.kind == BINDINGCLAY_PARKED ? interrupt_once(answer.value) : answer;
}

static void under_lock(bool condition, const char *what)
{
    pthread_mutex_lock(&lock);
    holds(__FILE__, __LINE__, what, condition);
    pthread_mutex_unlock(&lock);
}

/* How many bytes a call moved: one that was interrupted before it moved any says EINTR. */
static uint64_t moved(bindingclay_answer answer)
{
    bool interrupted = answer.kind == BINDINGCLAY_FAULT && answer.error == EINTR;
    under_lock(interrupted || answer.kind == BINDINGCLAY_DONE, "a call is done or interrupted");
    return answer.kind == BINDINGCLAY_DONE ? answer.value : 0;
}

static void *take_part(void *argument)
{
    struct party *party = argument;
    uint8_t out[MOST], in[MOST];
    for (int turn = 0; turn < FEWEST_TURNS || seconds() < 1.0; turn++) {
        size_t size = 1 + drawn(party, MOST);
        for (size_t i = 0; i < size; i++)
            out[i] = byte_at(party->written + i);
        party->written += moved(waited_for(party, write_once(party, out, size), in, 0));
        size = 1 + drawn(party, MOST);
        uint64_t count = moved(waited_for(party, read_once(party, in, size), in, size));
        bool in_order = count <= size;
        for (size_t i = 0; in_order && i < count; i++)
            in_order = in[i] == byte_at(party->read + i);
        under_lock(in_order, "the bytes come in order");
        party->read += count;
    }
    return NULL;
}

/* Closes what a party reads from, and tells how many bytes were left in it. No writer is left by then. */
static uint64_t left_behind(const struct party *party)
{
    uint8_t in[MOST];
    uint64_t count = 0;
    for (;;) {
        bindingclay_answer answer = bindingclay_read(clay, party->pid, party->read_end, in, sizeof in);
        HOLDS(answer.kind == BINDINGCLAY_DONE);
        if (answer.kind != BINDINGCLAY_DONE || answer.value == 0)
            break;
        for (uint64_t i = 0; i < answer.value; i++)
            HOLDS(in[i] == byte_at(party->read + count + i));
        count += answer.value;
    }
    DONE(bindingclay_close(clay, party->pid, party->read_end), 0);
    return count;
}

/* Four pipes, and a process for each party, with the two ends that it needs. */
static void make_a_ring(struct party *parties)
{
    DONE(bindingclay_start(clay), 1);
    for (int i = 0; i < THREADS; i++)
        pipes[i] = NEW_PIPE(clay, 1, false);
    for (int i = 0; i < THREADS; i++) {
        int before = (i + THREADS - 1) % THREADS;
        parties[i] = (struct party){ .pid = (uint32_t)i + 2, .read_end = pipes[before].read_end,
            .write_end = pipes[i].write_end, .random = (uint32_t)i };
        DONE(bindingclay_fork(clay, 1), parties[i].pid);
        for (int j = 0; j < THREADS; j++) {
            if (j != before)
                DONE(bindingclay_close(clay, parties[i].pid, pipes[j].read_end), 0);
            if (j != i)
                DONE(bindingclay_close(clay, parties[i].pid, pipes[j].write_end), 0);
        }
    }
    DONE(bindingclay_exit(clay, 1), 0);
}

int main(void)
{
    struct party parties[THREADS];
    pthread_t threads[THREADS];
    clay = new_kernel(1, 0);
    make_a_ring(parties);
    clock_gettime(CLOCK_MONOTONIC, &begun);
    for (int i = 0; i < THREADS; i++)
        if (!HOLDS(pthread_create(&threads[i], NULL, take_part, &parties[i]) == 0))
            exit(1);
    for (int i = 0; i < THREADS; i++)
        HOLDS(pthread_join(threads[i], NULL) == 0);
    uint64_t waited = 0;
    for (int i = 0; i < THREADS; i++) {
        waited += parties[i].waited;
        DONE(bindingclay_close(clay, parties[i].pid, parties[i].write_end), 0);
    }
    HOLDS(waited > 0);
    /* what one party wrote, the next one read, or it is left in the pipe */
    for (int i = 0; i < THREADS; i++) {
        const struct party *writer = &parties[(i + THREADS - 1) % THREADS];
        HOLDS(writer->written > 0);
        HOLDS(parties[i].read + left_behind(&parties[i]) == writer->written);
    }
    for (int i = 0; i < THREADS; i++)
        DONE(bindingclay_exit(clay, parties[i].pid), 0);
    HOLDS(atomic_load(&blocks_left) > 0);
    bindingclay_free(clay);
    HOLDS(atomic_load(&blocks_left) == 0);
    return end();
}
