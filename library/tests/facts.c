/* What is told without a step: bytes held, what descriptors and names stand for, calls that wait, processes, and segments (pipe(7), FIONREAD;
 * fstat; stat; the header). */
#define _GNU_SOURCE
#include "check.h"

#include <fcntl.h>
#include <poll.h>

static const int32_t NOT_OPEN[] = { 99, 255, 256, -1, INT32_MAX, INT32_MIN };
enum { NOT_OPEN_COUNT = sizeof NOT_OPEN / sizeof *NOT_OPEN };

/* Descriptors of the first pipe of a process, and of what it opens behind it. */
enum { PIPE_READ, PIPE_WRITE, NEXT, BEHIND };

static bindingclay_node_facts untouched_node(void)
{
    bindingclay_node_facts facts;
    memset(&facts, UNTOUCHED, sizeof facts);
    return facts;
}

static bool is_untouched(const void *facts, size_t size)
{
    const uint8_t *bytes = facts;
    for (size_t i = 0; i < size; i++)
        if (bytes[i] != UNTOUCHED)
            return false;
    return true;
}

/* The facts of a descriptor that is open. */
static bindingclay_node_facts of_fd(bindingclay clay, uint32_t pid, int32_t fd)
{
    bindingclay_node_facts facts = untouched_node();
    DONE(bindingclay_fd_facts(clay, pid, fd, &facts), 0);
    return facts;
}

static bindingclay_answer name_facts(bindingclay clay, const char *name, bindingclay_node_facts *facts)
{
    return bindingclay_name_facts(clay, bytes_of(name), strlen(name), facts);
}

/* Those of a name that stands for something. */
static bindingclay_node_facts of_name(bindingclay clay, const char *name)
{
    bindingclay_node_facts facts = untouched_node();
    DONE(name_facts(clay, name, &facts), 0);
    return facts;
}

static bool is_same(bindingclay_node_facts one, bindingclay_node_facts other)
{
    return one.kind == other.kind && one.key == other.key;
}

static void is_refused(bindingclay clay, uint32_t pid, int32_t fd, uint8_t kind, int32_t error)
{
    bindingclay_node_facts facts = untouched_node();
    ANSWERS(bindingclay_held(clay, pid, fd), kind, 0, error, false);
    ANSWERS(bindingclay_fd_facts(clay, pid, fd, &facts), kind, 0, error, false);
    HOLDS(is_untouched(&facts, sizeof facts));
}

static void refusals(void)
{
    bindingclay clay = kernel_with_process();
    NEW_PIPE(clay, 1, false);
    for (int i = 0; i < NOT_OPEN_COUNT; i++)
        is_refused(clay, 1, NOT_OPEN[i], BINDINGCLAY_FAULT, EBADF);
    /* without a process no descriptor is looked at */
    is_refused(clay, 0, PIPE_READ, BINDINGCLAY_NO_PROCESS, 0);
    is_refused(clay, 2, PIPE_READ, BINDINGCLAY_NO_PROCESS, 0);
    is_refused(clay, UINT32_MAX, -1, BINDINGCLAY_NO_PROCESS, 0);
    DONE(bindingclay_close(clay, 1, PIPE_READ), 0);
    is_refused(clay, 1, PIPE_READ, BINDINGCLAY_FAULT, EBADF);
    DONE(bindingclay_exit(clay, 1), 0);
    is_refused(clay, 1, PIPE_WRITE, BINDINGCLAY_NO_PROCESS, 0);
    bindingclay_free(clay);
}

static void bytes_held(void)
{
    bindingclay clay = kernel_with_process();
    NEW_PIPE(clay, 1, true);
    DONE(bindingclay_held(clay, 1, PIPE_READ), 0);
    DONE(put(clay, 1, PIPE_WRITE, "hello"), 5);
    DONE(bindingclay_held(clay, 1, PIPE_READ), 5);
    DONE(bindingclay_held(clay, 1, PIPE_WRITE), 5);
    READS(clay, 1, PIPE_READ, 2, "he");
    DONE(bindingclay_held(clay, 1, PIPE_WRITE), 3);
    DONE(put_many(clay, 1, PIPE_WRITE, 70000), 65533);
    DONE(bindingclay_held(clay, 1, PIPE_READ), 65536);
    /* by each descriptor that names it, also of another process, and without a reader */
    DONE(bindingclay_dup2(clay, 1, PIPE_WRITE, 255), 255);
    DONE(bindingclay_fork(clay, 1), 2);
    DONE(bindingclay_exit(clay, 1), 0);
    DONE(bindingclay_close(clay, 2, PIPE_READ), 0);
    DONE(bindingclay_held(clay, 2, 255), 65536);
    /* a file is no pipe */
    DONE(open_text(clay, 2, "f", O_RDWR | O_CREAT), PIPE_READ);
    DONE(put(clay, 2, PIPE_READ, "abc"), 3);
    FAULT(bindingclay_held(clay, 2, PIPE_READ), EBADF);
    bindingclay_free(clay);
}

static void bytes_of_packets(void)
{
    bindingclay clay = kernel_with_process();
    bindingclay_ends ends;
    DONE(bindingclay_pipe2(clay, 1, O_NONBLOCK | BINDINGCLAY_O_DIRECT, &ends), 0);
    DONE(put(clay, 1, ends.write_end, "hello"), 5);
    DONE(put_many(clay, 1, ends.write_end, 5000), 5000);
    /* packets of 5, 4,096 and 904 bytes */
    DONE(bindingclay_held(clay, 1, ends.read_end), 5005);
    HOLDS(of_fd(clay, 1, ends.write_end).size == 5005);
    HOLDS(of_fd(clay, 1, ends.write_end).kind == BINDINGCLAY_PACKET_PIPE);
    /* the rest of a packet that is read goes with it */
    READS(clay, 1, ends.read_end, 1, "h");
    DONE(bindingclay_held(clay, 1, ends.read_end), 5000);
    DONE(take(clay, 1, ends.read_end, 9000), 4096);
    DONE(bindingclay_held(clay, 1, ends.read_end), 904);
    bindingclay_free(clay);
}

static void pipes_and_files(void)
{
    bindingclay clay = kernel_with_process();
    NEW_PIPE(clay, 1, false);
    NEW_PIPE(clay, 1, false);
    DONE(open_text(clay, 1, "f", O_RDWR | O_CREAT), 4);
    DONE(open_text(clay, 1, "g", O_RDWR | O_CREAT), 5);
    DONE(open_text(clay, 1, "f", O_RDONLY), 6);
    bindingclay_node_facts pipe = of_fd(clay, 1, PIPE_READ), other = of_fd(clay, 1, NEXT);
    bindingclay_node_facts file = of_fd(clay, 1, 4), second = of_fd(clay, 1, 5);
    HOLDS(pipe.kind == BINDINGCLAY_PIPE && pipe.size == 0);
    HOLDS(file.kind == BINDINGCLAY_FILE && file.size == 0);
    /* two descriptors have one key exactly if they stand for one thing */
    HOLDS(is_same(pipe, of_fd(clay, 1, PIPE_WRITE)));
    HOLDS(is_same(file, of_fd(clay, 1, 6)));
    HOLDS(!is_same(pipe, other) && !is_same(file, second) && !is_same(pipe, file) && !is_same(other, file));
    DONE(put(clay, 1, PIPE_WRITE, "hello"), 5);
    DONE(put(clay, 1, 4, "abc"), 3);
    DONE(bindingclay_lseek(clay, 1, 4, 100, SEEK_SET), 100);
    DONE(put(clay, 1, 4, "d"), 1);
    HOLDS(of_fd(clay, 1, PIPE_READ).size == 5 && of_fd(clay, 1, 6).size == 101);
    /* a key stays, whatever becomes of the other descriptors */
    DONE(bindingclay_fork(clay, 1), 2);
    DONE(unlink_text(clay, 1, "f"), 0);
    DONE(bindingclay_dup2(clay, 2, PIPE_WRITE, 9), 9);
    DONE(bindingclay_exit(clay, 1), 0);
    NEW_PIPE(clay, 2, false);
    HOLDS(is_same(pipe, of_fd(clay, 2, 9)) && is_same(file, of_fd(clay, 2, 4)) && is_same(second, of_fd(clay, 2, 5)));
    HOLDS(!is_same(pipe, of_fd(clay, 2, 7)));
    bindingclay_free(clay);
}

static void names(void)
{
    bindingclay clay = kernel_with_process();
    bindingclay_node_facts facts = untouched_node();
    FAULT(name_facts(clay, "f", &facts), ENOENT);
    FAULT(bindingclay_name_facts(clay, NULL, 0, &facts), ENOENT);
    FAULT(name_facts(clay, "a/b", &facts), ENOENT);
    FAULT(bindingclay_name_facts(clay, bytes_of("f\0"), 2, &facts), ENOENT);
    HOLDS(is_untouched(&facts, sizeof facts));
    DONE(open_text(clay, 1, "f", O_RDWR | O_CREAT), 0);
    DONE(put(clay, 1, 0, "hello"), 5);
    DONE(mkfifo_text(clay, 1, "p"), 0);
    HOLDS(of_name(clay, "f").kind == BINDINGCLAY_FILE && of_name(clay, "f").size == 5);
    HOLDS(of_name(clay, "p").kind == BINDINGCLAY_PIPE && of_name(clay, "p").size == 0);
    HOLDS(is_same(of_name(clay, "f"), of_fd(clay, 1, 0)));
    DONE(open_text(clay, 1, "p", O_RDWR), 1);
    DONE(put(clay, 1, 1, "abc"), 3);
    HOLDS(is_same(of_name(clay, "p"), of_fd(clay, 1, 1)) && of_name(clay, "p").size == 3);
    /* it opened nothing: the name alone is left, and needs no process */
    DONE(bindingclay_exit(clay, 1), 0);
    HOLDS(of_name(clay, "f").size == 5);
    HOLDS(of_name(clay, "p").size == 0);
    DONE(bindingclay_start(clay), 1);
    DONE(unlink_text(clay, 1, "f"), 0);
    FAULT(name_facts(clay, "f", &facts), ENOENT);
    HOLDS(is_untouched(&facts, sizeof facts));
    bindingclay_free(clay);
}

/* A name of 255 bytes is found, and one of 256 stands for nothing. */
static void long_names(void)
{
    bindingclay clay = kernel_with_process();
    uint8_t name[256];
    memset(name, 'n', sizeof name);
    bindingclay_node_facts facts = untouched_node();
    DONE(bindingclay_mkfifo(clay, 1, name, 255), 0);
    FAULT(bindingclay_name_facts(clay, name, 256, &facts), ENOENT);
    FAULT(bindingclay_name_facts(clay, name, 254, &facts), ENOENT);
    HOLDS(is_untouched(&facts, sizeof facts));
    DONE(bindingclay_name_facts(clay, name, 255, &facts), 0);
    HOLDS(facts.kind == BINDINGCLAY_PIPE && facts.size == 0);
    bindingclay_free(clay);
}

static void no_call(bindingclay clay, uint64_t number)
{
    bindingclay_waiting_facts facts;
    memset(&facts, UNTOUCHED, sizeof facts);
    OTHER(bindingclay_call_facts(clay, number, &facts), BINDINGCLAY_NO_CALL);
    HOLDS(is_untouched(&facts, sizeof facts));
}

static void is_call(bindingclay clay, uint64_t number, uint32_t kind, uint32_t pid, int32_t first, int32_t second)
{
    bindingclay_waiting_facts facts;
    memset(&facts, UNTOUCHED, sizeof facts);
    DONE(bindingclay_call_facts(clay, number, &facts), 0);
    HOLDS(facts.kind == kind && facts.pid == pid);
    HOLDS(facts.first == first && facts.second == second);
}

static void calls(void)
{
    bindingclay clay = kernel_with_process();
    NEW_PIPE(clay, 1, false);
    NEW_PIPE(clay, 1, false);
    DONE(bindingclay_fork(clay, 1), 2);
    DONE(mkfifo_text(clay, 1, "p"), 0);
    bindingclay_pollfd entries[] = { { -7, POLLIN, 0 }, { PIPE_READ, POLLIN, 0 } };
    no_call(clay, 1);
    PARKED(take(clay, 2, PIPE_READ, 9), 1);
    PARKED_WITH_BYTES(put_many(clay, 1, BEHIND, 70000), 2);
    PARKED(open_text(clay, 2, "p", O_RDONLY), 3);
    PARKED(bindingclay_splice(clay, 1, PIPE_READ, NULL, BEHIND, NULL, 9, 0), 4);
    PARKED(bindingclay_tee(clay, 2, PIPE_READ, BEHIND, 9, 0), 5);
    PARKED(bindingclay_poll(clay, 1, entries, 2, true), 6);
    PARKED(bindingclay_poll(clay, 2, entries + 1, 1, true), 7);
    PARKED(bindingclay_poll(clay, 2, NULL, 0, true), 8);
    is_call(clay, 1, BINDINGCLAY_READ, 2, PIPE_READ, -1);
    is_call(clay, 2, BINDINGCLAY_WRITE, 1, BEHIND, -1);
    is_call(clay, 3, BINDINGCLAY_OPEN, 2, -1, -1);
    is_call(clay, 4, BINDINGCLAY_SPLICE, 1, PIPE_READ, BEHIND);
    is_call(clay, 5, BINDINGCLAY_TEE, 2, PIPE_READ, BEHIND);
    is_call(clay, 6, BINDINGCLAY_POLL, 1, -7, -1);
    is_call(clay, 7, BINDINGCLAY_POLL, 2, PIPE_READ, -1);
    is_call(clay, 8, BINDINGCLAY_POLL, 2, -1, -1);
    no_call(clay, 0);
    no_call(clay, 9);
    no_call(clay, UINT64_MAX);
    /* a descriptor that is closed is told as before, and a call that is answered no more */
    DONE(bindingclay_close(clay, 2, PIPE_READ), 0);
    is_call(clay, 1, BINDINGCLAY_READ, 2, PIPE_READ, -1);
    DONE(put(clay, 1, PIPE_WRITE, "a"), 1);
    RESUMES(clay, 1, 9, "a");
    no_call(clay, 1);
    DONE(bindingclay_exit(clay, 2), 0);
    no_call(clay, 8);
    is_call(clay, 6, BINDINGCLAY_POLL, 1, -7, -1);
    bindingclay_free(clay);
}

static void no_process(bindingclay clay, uint32_t pid)
{
    bindingclay_process process;
    memset(&process, UNTOUCHED, sizeof process);
    OTHER(bindingclay_process_facts(clay, pid, &process), BINDINGCLAY_NO_PROCESS);
    HOLDS(is_untouched(&process, sizeof process));
}

static void holds_of(bindingclay clay, uint32_t pid, uint64_t descriptors, uint64_t waiting_calls)
{
    bindingclay_process process;
    memset(&process, UNTOUCHED, sizeof process);
    DONE(bindingclay_process_facts(clay, pid, &process), 0);
    HOLDS(process.descriptors == descriptors && process.waiting_calls == waiting_calls);
}

static void processes(void)
{
    bindingclay clay = kernel_with_process();
    no_process(clay, 0);
    no_process(clay, 2);
    no_process(clay, UINT32_MAX);
    holds_of(clay, 1, 0, 0);
    NEW_PIPE(clay, 1, false);
    DONE(bindingclay_dup_fd(clay, 1, PIPE_READ, 200), 200);
    DONE(bindingclay_dup2(clay, 1, PIPE_READ, 200), 200);
    holds_of(clay, 1, 3, 0);
    /* a child has its parent's descriptors, and none of its calls */
    PARKED(take(clay, 1, PIPE_READ, 1), 1);
    PARKED(take(clay, 1, PIPE_READ, 1), 2);
    DONE(bindingclay_fork(clay, 1), 2);
    holds_of(clay, 1, 3, 2);
    holds_of(clay, 2, 3, 0);
    /* an open that waits has no descriptor yet */
    DONE(mkfifo_text(clay, 1, "p"), 0);
    PARKED(open_text(clay, 2, "p", O_RDONLY), 3);
    holds_of(clay, 2, 3, 1);
    DONE(open_text(clay, 1, "p", O_WRONLY), NEXT);
    DONE(again(clay, 3), NEXT);
    holds_of(clay, 1, 4, 2);
    holds_of(clay, 2, 4, 0);
    /* what a call keeps is no descriptor once that is closed */
    DONE(bindingclay_close(clay, 1, PIPE_READ), 0);
    DONE(bindingclay_close(clay, 1, 200), 0);
    FAULT(bindingclay_close(clay, 1, 200), EBADF);
    holds_of(clay, 1, 2, 2);
    FAULT(bindingclay_interrupt(clay, 2), EINTR);
    holds_of(clay, 1, 2, 1);
    DONE(put(clay, 1, PIPE_WRITE, "a"), 1);
    holds_of(clay, 1, 2, 1);
    RESUMES(clay, 1, 9, "a");
    holds_of(clay, 1, 2, 0);
    DONE(bindingclay_exit(clay, 1), 0);
    no_process(clay, 1);
    holds_of(clay, 2, 4, 0);
    DONE(bindingclay_start(clay), 1);
    holds_of(clay, 1, 0, 0);
    bindingclay_free(clay);
}

static bindingclay_segment_use segments(bindingclay clay)
{
    bindingclay_segment_use use;
    memset(&use, UNTOUCHED, sizeof use);
    bindingclay_stats(clay, &use);
    HOLDS(use.spare <= 4096);
    return use;
}

static void segment_counts(void)
{
    bindingclay clay = kernel_with_process();
    NEW_PIPE(clay, 1, false);
    NEW_PIPE(clay, 1, false);
    HOLDS(segments(clay).used == 0 && segments(clay).spare == 0);
    DONE(put(clay, 1, PIPE_WRITE, "hello"), 5);
    HOLDS(segments(clay).used == 1);
    /* what a tee copies is shared */
    DONE(bindingclay_tee(clay, 1, PIPE_READ, BEHIND, 5, 0), 5);
    HOLDS(segments(clay).used == 1);
    READS(clay, 1, PIPE_READ, 9, "hello");
    HOLDS(segments(clay).used == 1);
    READS(clay, 1, NEXT, 9, "hello");
    HOLDS(segments(clay).used == 0);
    DONE(put_many(clay, 1, PIPE_WRITE, 65536), 65536);
    HOLDS(segments(clay).used == 16);
    DONE(open_text(clay, 1, "f", O_RDWR | O_CREAT), 4);
    DONE(put(clay, 1, 4, "abc"), 3);
    DONE(bindingclay_exit(clay, 1), 0);
    /* the file has its name, and the pipes are gone */
    HOLDS(segments(clay).used == 1);
    DONE(bindingclay_start(clay), 1);
    DONE(unlink_text(clay, 1, "f"), 0);
    DONE(bindingclay_exit(clay, 1), 0);
    HOLDS(segments(clay).used == 0);
    bindingclay_free(clay);
}

int main(void)
{
    refusals();
    bytes_held();
    bytes_of_packets();
    pipes_and_files();
    names();
    long_names();
    calls();
    processes();
    segment_counts();
    return end();
}
