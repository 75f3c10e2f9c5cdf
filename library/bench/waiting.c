/* What a read costs that waits beside many others: the read, a write of one byte, bindingclay_next_ready, and the resumption. Beside them is the
 * host's epoll over as many pipes, if a program may have so many descriptors. */
#define _GNU_SOURCE
#include "bench.h"

#include <sys/epoll.h>
#include <unistd.h>

/* Further reads wait at the same pipes. Within the usual limits a process has at most 256 descriptors, and a kernel 4,096 descriptions. */
enum { MOST_PIPES = 1000, PIPES_OF_ONE = 100, TIMES = 1000, SPARE_DESCRIPTORS = 64 };

/* A pipe on which one read waits by turns. Beside it so many reads wait, and the host watches as many pipes. */
struct beside {
    bindingclay clay;
    uint32_t pid;
    bindingclay_ends ends;
    size_t waiting;
    bool has_host;
    int epoll, host[2], (*idle)[2];
};

/* The write, the question which call can get on, and its resumption, of a read that waits under a number. */
static void let_go_on(const struct beside *beside, uint64_t number)
{
    static const uint8_t byte = 7;
    uint8_t into[1];
    done(bindingclay_write(beside->clay, beside->pid, beside->ends.write_end, &byte, 1));
    need(done(bindingclay_next_ready(beside->clay, 0)) == number, "the read that can get on");
    done(bindingclay_resume(beside->clay, number, into, sizeof into));
}

static uint64_t wait_for_byte(const struct beside *beside)
{
    uint8_t into[1];
    return parked(bindingclay_read(beside->clay, beside->pid, beside->ends.read_end, into, sizeof into));
}

static double four_calls(const void *subject, int times)
{
    double begun = now();
    for (int i = 0; i < times; i++)
        let_go_on(subject, wait_for_byte(subject));
    return (now() - begun) / times;
}

/* What two looks at the clock take at least, which is no part of what is between them. */
static double looks(int times)
{
    double least = 0;
    for (int i = 0; i < times; i++) {
        double begun = now(), took = now() - begun;
        least = i == 0 || took < least ? took : least;
    }
    return least;
}

static double three_calls(const void *subject, int times)
{
    double took = 0;
    for (int i = 0; i < times; i++) {
        uint64_t number = wait_for_byte(subject);
        double begun = now();
        let_go_on(subject, number);
        took += now() - begun;
    }
    return took / times - looks(times);
}

static double host_calls(const void *subject, int times)
{
    const struct beside *beside = subject;
    struct epoll_event event;
    char byte = 7;
    double begun = now();
    for (int i = 0; i < times; i++) {
        as_host(write(beside->host[1], &byte, 1));
        need(epoll_wait(beside->epoll, &event, 1, -1) == 1 && event.data.fd == beside->host[0], "epoll_wait");
        as_host(read(beside->host[0], &byte, 1));
    }
    return (now() - begun) / times;
}

/* Lets reads wait on pipes of their own, or some of them on each pipe. As a host does, it asks behind each of them which call can get on. */
static void fill(bindingclay clay, size_t waiting)
{
    size_t pipes = waiting < MOST_PIPES ? waiting : MOST_PIPES;
    uint32_t pid = 0;
    for (size_t i = 0; i < pipes; i++) {
        bindingclay_ends ends;
        uint8_t into[1];
        if (i % PIPES_OF_ONE == 0)
            pid = (uint32_t)done(bindingclay_start(clay));
        done(bindingclay_pipe(clay, pid, false, &ends));
        for (size_t of_pipe = i; of_pipe < waiting; of_pipe += pipes) {
            parked(bindingclay_read(clay, pid, ends.read_end, into, sizeof into));
            need(bindingclay_next_ready(clay, 0).kind == BINDINGCLAY_NO_CALL, "reads of which none can get on");
        }
    }
}

static void new_watched(int epoll, int ends[2])
{
    as_host(pipe(ends));
    struct epoll_event event = { .events = EPOLLIN, .data.fd = ends[0] };
    need(epoll_ctl(epoll, EPOLL_CTL_ADD, ends[0], &event) == 0, "epoll_ctl");
}

static void close_both(const int ends[2])
{
    as_host(close(ends[0]));
    as_host(close(ends[1]));
}

static void fill_host(struct beside *beside)
{
    beside->has_host = 2 * beside->waiting + SPARE_DESCRIPTORS <= most_descriptors();
    if (!beside->has_host)
        return;
    need((beside->idle = calloc(beside->waiting, sizeof *beside->idle)) != NULL, "calloc");
    need((beside->epoll = epoll_create1(0)) >= 0, "epoll_create1");
    new_watched(beside->epoll, beside->host);
    for (size_t i = 0; i < beside->waiting; i++)
        new_watched(beside->epoll, beside->idle[i]);
}

static struct beside new_beside(size_t waiting)
{
    struct beside beside = { .clay = new_kernel(), .waiting = waiting };
    beside.pid = (uint32_t)done(bindingclay_start(beside.clay));
    done(bindingclay_pipe(beside.clay, beside.pid, false, &beside.ends));
    fill(beside.clay, waiting);
    fill_host(&beside);
    return beside;
}

static void end(struct beside *beside)
{
    bindingclay_free(beside->clay);
    if (!beside->has_host)
        return;
    for (size_t i = 0; i < beside->waiting; i++)
        close_both(beside->idle[i]);
    close_both(beside->host);
    as_host(close(beside->epoll));
    free(beside->idle);
}

/* The rows of so many reads that wait, beside the host, and beside few reads if there are any. */
static void rows(const struct beside *beside, const struct beside *few)
{
    static const struct {
        const char *what;
        double (*sample)(const void *subject, int times);
    } ROWS[] = { { "write, next_ready, resume", three_calls }, { "read that waits, write, next_ready, resume", four_calls } };
    for (size_t i = 0; i < sizeof ROWS / sizeof *ROWS; i++) {
        struct side sides[MOST_SIDES] = { { "bindingclay", ROWS[i].sample, beside } };
        size_t count = 1;
        if (beside->has_host)
            sides[count++] = (struct side){ "host's write, epoll_wait, read", host_calls, beside };
        if (few != NULL)
            sides[count++] = (struct side){ "the same beside 10 reads", ROWS[i].sample, few };
        compare(&(struct row){ "waiting", ROWS[i].what, beside->waiting, "ns", 300, TIMES }, sides, count);
    }
}

int main(int count, char **words)
{
    static const size_t COUNTS[] = { 1000, 100000, 1000000 };
    begin(count, words);
    struct beside few = new_beside(10);
    rows(&few, NULL);
    for (size_t i = 0; i < sizeof COUNTS / sizeof *COUNTS - (pace == LONG ? 0 : 1); i++) {
        struct beside many = new_beside(COUNTS[i]);
        rows(&many, &few);
        end(&many);
    }
    end(&few);
    return 0;
}
