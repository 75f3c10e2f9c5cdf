/* A program over the front for threads that has no race: valgrind's tools for threads say nothing of it. Threads answer each other, write more than
 * fits, poll, splice, exit and are interrupted. */
#define _GNU_SOURCE
#include "shared.h"

enum { TURNS = 100, LARGE = 150000 };

static bc_shared *shared;
static bc_process process;

/* Ends of pipes: of the one to the other thread, and of the one back. */
static int there[2], back[2];
/* What only the thread writes that has the byte. */
static int turns;

static void *send_back(void *argument)
{
    char byte;
    (void)argument;
    while (bc_read(&process, there[0], &byte, 1) == 1) {
        turns++;
        HOLDS(bc_write(&process, back[1], &byte, 1) == 1);
    }
    HOLDS(bc_close(&process, back[1]) == 0);
    return NULL;
}

static void there_and_back(void)
{
    char byte = 'a';
    HOLDS(bc_pipe2(&process, there, 0) == 0 && bc_pipe2(&process, back, 0) == 0);
    pthread_t other = thread_of(send_back, NULL);
    for (int i = 0; i < TURNS; i++) {
        turns++;
        HOLDS(bc_write(&process, there[1], &byte, 1) == 1 && bc_read(&process, back[0], &byte, 1) == 1);
    }
    HOLDS(bc_close(&process, there[1]) == 0 && bc_read(&process, back[0], &byte, 1) == 0);
    pthread_join(other, NULL);
    HOLDS(turns == 2 * TURNS && bc_close(&process, there[0]) == 0 && bc_close(&process, back[0]) == 0);
}

static void *write_many(void *argument)
{
    static const char bytes[LARGE];
    (void)argument;
    HOLDS(bc_write(&process, there[1], bytes, LARGE) == LARGE && bc_close(&process, there[1]) == 0);
    return NULL;
}

static void *move_all(void *argument)
{
    (void)argument;
    while (bc_splice(&process, there[0], NULL, back[1], NULL, 5000, 0) > 0)
        ;
    HOLDS(bc_close(&process, back[1]) == 0);
    return NULL;
}

/* A stream through two pipes, of which this thread polls the second. */
static void a_stream(void)
{
    static char into[LARGE];
    size_t got = 0;
    HOLDS(bc_pipe2(&process, there, 0) == 0 && bc_pipe2(&process, back, 0) == 0);
    pthread_t writer = thread_of(write_many, NULL), mover = thread_of(move_all, NULL);
    struct pollfd entry = { .fd = back[0], .events = POLLIN };
    while (bc_poll(&process, &entry, 1, -1) == 1 && (entry.revents & POLLIN) != 0)
        got += (size_t)bc_read(&process, back[0], into, 7000);
    pthread_join(writer, NULL);
    pthread_join(mover, NULL);
    HOLDS(got == LARGE && bc_close(&process, there[0]) == 0 && bc_close(&process, back[0]) == 0);
}

static void *wait_twice(void *argument)
{
    const bc_process *child = argument;
    char byte;
    FAILS(bc_read(child, 0, &byte, 1), EINTR);
    FAILS(bc_read(child, 0, &byte, 1), ESRCH);
    return NULL;
}

static void ends(void)
{
    bc_process child = new_process(shared);
    int own[2];
    HOLDS(bc_pipe2(&child, own, 0) == 0);
    pthread_t other = thread_of(wait_twice, &child);
    until_waiting(&child, 1);
    HOLDS(bc_interrupt(&child) == 1);
    until_waiting(&child, 1);
    HOLDS(bc_exit(&child) == 0);
    pthread_join(other, NULL);
}

int main(void)
{
    shared = new_shared();
    process = new_process(shared);
    there_and_back();
    a_stream();
    ends();
    HOLDS(bc_exit(&process) == 0 && bc_shared_close(shared) == 0);
    return end();
}
