/* Three processes wait on each other: a writer of 200,000 bytes, one that moves them from a pipe to another, and a reader. After each call,
 * those that wait and can get on are tried again, until none can. Build it like example.c.
 */
#include "bindingclay.h"

#include <stdio.h>

enum { WRITER, MOVER, READER, GUESTS, BYTES = 200000 };

static bindingclay clay;
static uint32_t pid[GUESTS];
static bool waits[GUESTS];
static uint64_t number[GUESTS], count[GUESTS];
static uint8_t bytes[BYTES];

/* The next call of a process. Descriptors 0 and 1 are a pipe, and 2 and 3 another. */
static bindingclay_answer call(int guest)
{
    if (guest == WRITER)
        return bindingclay_write(clay, pid[guest], 1, bytes, BYTES - count[guest]);
    if (guest == MOVER)
        return bindingclay_splice(clay, pid[guest], 0, NULL, 3, NULL, 4096, 0);
    return bindingclay_read(clay, pid[guest], 2, bytes, 1000);
}

/* A process goes on with an answer, until a call of it waits, or moves nothing more: then it exits. */
static void goes_on(int guest, bindingclay_answer answer)
{
    for (; answer.kind == BINDINGCLAY_DONE && answer.value > 0; answer = call(guest))
        count[guest] += answer.value;
    waits[guest] = answer.kind == BINDINGCLAY_PARKED;
    number[guest] = answer.value;
    if (!waits[guest])
        bindingclay_exit(clay, pid[guest]);
}

/* The process whose call waits under a number. */
static int waiting(uint64_t call)
{
    int guest = 0;
    while (!waits[guest] || number[guest] != call)
        guest++;
    return guest;
}

/* Tries again each call that can get on, until none can: each may have helped any other. */
static void try_all(void)
{
    bindingclay_answer next;
    while ((next = bindingclay_next_ready(clay, 0)).kind == BINDINGCLAY_DONE)
        goes_on(waiting(next.value), bindingclay_resume(clay, next.value, bytes, sizeof bytes));
}

int main(void)
{
    static const char KEEPS[GUESTS][5] = { ".w..", "r..w", "..r." };
    bindingclay_ends ends;
    if (!bindingclay_open(1, 0, &clay.kernel))
        return 1;
    pid[WRITER] = (uint32_t)bindingclay_start(clay).value;
    bindingclay_pipe(clay, pid[WRITER], false, &ends);
    bindingclay_pipe(clay, pid[WRITER], false, &ends);
    pid[MOVER] = (uint32_t)bindingclay_fork(clay, pid[WRITER]).value;
    pid[READER] = (uint32_t)bindingclay_fork(clay, pid[WRITER]).value;
    for (int guest = 0; guest < GUESTS; guest++)
        for (int32_t fd = 0; fd < 4; fd++)
            if (KEEPS[guest][fd] == '.')
                bindingclay_close(clay, pid[guest], fd);

    for (int guest = 0; guest < GUESTS; guest++) {
        goes_on(guest, call(guest));
        try_all();
    }
    for (int guest = 0; guest < GUESTS; guest++)
        printf("process %d: %d bytes%s\n", (int)pid[guest], (int)count[guest], waits[guest] ? ", and it waits" : "");
    bindingclay_free(clay);
    return 0;
}
