/* Records of the front for threads: what is recorded of calls that wait, and that each call comes to its end where no memory is left for the
 * record. An alarm ends a program that waits longer. */
#define _GNU_SOURCE
#include "shared.h"

enum { ROOM = 4000, LONGEST = 60 };

/* Whether what is handed out next is a text. */
static bool hands_out(bc_shared *shared, const char *text)
{
    static char got[ROOM];
    size_t all = 0;
    ssize_t count;
    while ((count = bc_recorded(shared, got + all, sizeof got - all)) > 0)
        all += (size_t)count;
    if (count == 0 && all == strlen(text) && memcmp(got, text, all) == 0)
        return true;
    printf("recorded is %.*s, and not %s\n", (int)all, got, text);
    return false;
}

static void when_it_begins(void)
{
    bc_shared *shared = new_shared();
    char byte;
    FAILS(bc_recorded(shared, &byte, 1), EINVAL);
    HOLDS(bc_record(shared, false) == 0);
    HOLDS(bc_record(shared, true) == 0);
    FAILS(bc_record(shared, true), EINVAL);
    HOLDS(bc_recorded(shared, NULL, 0) == 0);
    HOLDS(bc_recorded(shared, &byte, 1) == 1 && byte == 'p');
    HOLDS(bc_record(shared, false) == 0);
    FAILS(bc_recorded(shared, &byte, 1), EINVAL);
    HOLDS(bc_shared_close(shared) == 0);
    shared = new_shared();
    new_process(shared);
    FAILS(bc_record(shared, true), EINVAL);
    HOLDS(bc_shared_close(shared) == 0);
}

static void *read_five(void *argument)
{
    char into[5];
    HOLDS(bc_read(argument, 0, into, 5) == 5 && memcmp(into, "hello", 5) == 0);
    return NULL;
}

/* A thread waits to read, and another one writes: the try that answers the first is recorded behind the write. */
static void a_call_that_waits(void)
{
    bc_shared *shared = new_shared();
    int ends[2];
    HOLDS(bc_record(shared, true) == 0);
    HOLDS(hands_out(shared, "piperun 2\n# piperun --first-call 1 --file-max 16777216 --names-max 18446744073709551615 --waiting-max "
                            "18446744073709551615 --capacity-max 1048576 --descriptors-max 256\n"));
    bc_process process = new_process(shared);
    HOLDS(bc_pipe2(&process, ends, 0) == 0);
    pthread_t thread = thread_of(read_five, &process);
    until_waiting(&process, 1);
    HOLDS(hands_out(shared, "start\n# => pid 1\n1 pipe\n# => fds 0 1\n1 read 0 5\n# => parked 1\n"));
    HOLDS(bc_write(&process, 1, "hello", 5) == 5);
    pthread_join(thread, NULL);
    HOLDS(bc_exit(&process) == 0);
    HOLDS(hands_out(shared, "1 write 1 68656c6c6f\n# => count 5\nresume 1\n# => data 68656c6c6f\n1 exit\n# => ok\n"));
    HOLDS(hands_out(shared, ""));
    HOLDS(bc_shared_close(shared) == 0);
}

/* A read that follows one with nothing to read looks first whether there is something. That is no step. */
static void reads_that_look(void)
{
    bc_shared *shared = new_shared();
    int ends[2];
    char byte;
    HOLDS(bc_record(shared, true) == 0);
    bc_process process = new_process(shared);
    HOLDS(bc_pipe2(&process, ends, 0) == 0);
    while (bc_recorded(shared, &byte, 1) > 0)
        ;
    const struct timespec soon = in_milliseconds(10);
    const bc_process late = bc_until(&process, &soon);
    FAILS(bc_read(&late, 0, &byte, 1), ETIMEDOUT);
    HOLDS(hands_out(shared, "1 read 0 1\n# => parked 1\ninterrupt 1\n# => EINTR\n"));
    HOLDS(bc_write(&process, 1, "a", 1) == 1 && bc_read(&process, 0, &byte, 1) == 1 && byte == 'a');
    HOLDS(hands_out(shared, "1 write 1 61\n# => count 1\n1 read 0 1\n# => data 61\n"));
    HOLDS(bc_exit(&process) == 0 && bc_shared_close(shared) == 0);
}

/* ---- No memory for the record ---- */

/* A call that waits, and the error by which it has to end. */
struct waiting {
    bc_process process;
    int error;
};

static void *wait_to_read(void *argument)
{
    struct waiting *waiting = argument;
    char byte;
    FAILS(bc_read(&waiting->process, 0, &byte, 1), waiting->error);
    return NULL;
}

/* Fills the memory of the kernel with the record of calls that fail, until one finds none. */
static void fill(const bc_process *process)
{
    int calls = 0;
    while (bc_close(process, 99) != 0 && errno == EBADF)
        calls++;
    HOLDS(errno == ENOMEM && calls > 100);
}

/* Whether the recording ended, counted here, or has these lines at its end: a short line may find the last bytes of the room. */
static int unrecorded = 0;
static bool ended_or_has(bc_shared *shared, const char *lines)
{
    static char record[65536];
    size_t size = 0, length = strlen(lines);
    ssize_t got;
    while ((got = bc_recorded(shared, record + size, sizeof record - size)) > 0)
        size += (size_t)got;
    unrecorded += got < 0;
    if (got < 0)
        return errno == EINVAL;
    return size >= length && memcmp(record + size - length, lines, length) == 0;
}

enum ending { BY_INTERRUPT, BY_THREAD, BY_DEADLINE, BY_EXIT, ENDINGS };

/* Ends a call that waits where its end can hardly be recorded: it ends all the same, and the recording with it if there is no room. */
static void ends_without_memory(enum ending ending)
{
    static const int ERRORS[] = { [BY_INTERRUPT] = EINTR, [BY_THREAD] = EINTR, [BY_DEADLINE] = ETIMEDOUT, [BY_EXIT] = ESRCH };
    bindingclay_limits limits = BINDINGCLAY_LIMITS;
    bc_shared *shared;
    int ends[2];
    char byte;
    limits.memory = 40000;
    need(bc_shared_open(&limits, &shared) == 0, "bc_shared_open");
    HOLDS(bc_record(shared, true) == 0);
    bc_process process = new_process(shared);
    HOLDS(bc_pipe2(&process, ends, 0) == 0);
    const struct timespec late = in_milliseconds(3000);
    struct waiting waiting = { bc_until(&process, ending == BY_DEADLINE ? &late : NULL), ERRORS[ending] };
    pthread_t thread = thread_of(wait_to_read, &waiting);
    until_waiting(&process, 1);
    fill(&process);
    if (ending == BY_INTERRUPT)
        HOLDS(bc_interrupt(&process) == 1);
    if (ending == BY_THREAD)
        HOLDS(bc_interrupt_thread(shared, thread) == 1);
    if (ending == BY_EXIT)
        HOLDS(bc_exit(&process) == 0);
    pthread_join(thread, NULL);
    HOLDS(ended_or_has(shared, ending == BY_EXIT ? "1 exit\n# => ok\n" : "interrupt 1\n# => EINTR\n"));
    if (ending != BY_EXIT)
        HOLDS(bc_write(&process, 1, "a", 1) == 1 && bc_read(&process, 0, &byte, 1) == 1 && bc_exit(&process) == 0);
    HOLDS(bc_shared_close(shared) == 0);
}

int main(void)
{
    alarm(LONGEST);
    when_it_begins();
    a_call_that_waits();
    reads_that_look();
    for (enum ending ending = BY_INTERRUPT; ending < ENDINGS; ending++)
        ends_without_memory(ending);
    HOLDS(unrecorded > 0);
    return end();
}
