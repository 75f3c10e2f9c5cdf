/* What a tee and a splice of 1 MiB cost, beside memcpy and the host's own. */
#define _GNU_SOURCE
#include "bench.h"

#include <fcntl.h>
#include <unistd.h>

enum { QUARTER_PAGE = 1024 };

static uint8_t data[MIB + QUARTER_PAGE], into[MIB + QUARTER_PAGE];

/* Three pipes of 1 MiB: the first one stays full, a tee fills the second one, and a splice empties that into the third. */
struct pipes {
    bindingclay clay;
    bindingclay_ends first, second, third;
    int host_first[2], host_second[2], host_third[2];
};

/* What both took. */
struct moved {
    double tee, splice;
};

static struct moved our_moves(const struct pipes *pipes)
{
    double begun = now();
    done(bindingclay_tee(pipes->clay, 1, pipes->first.read_end, pipes->second.write_end, MIB, 0));
    double between = now();
    done(bindingclay_splice(pipes->clay, 1, pipes->second.read_end, NULL, pipes->third.write_end, NULL, MIB, 0));
    double ended = now();
    need(done(bindingclay_read(pipes->clay, 1, pipes->third.read_end, into, MIB)) == MIB, "a splice of 1 MiB");
    return (struct moved){ between - begun, ended - between };
}

static struct moved host_moves(const struct pipes *pipes)
{
    double begun = now();
    as_host(tee(pipes->host_first[0], pipes->host_second[1], MIB, 0));
    double between = now();
    as_host(splice(pipes->host_second[0], NULL, pipes->host_third[1], NULL, MIB, 0));
    double ended = now();
    need(as_host(read(pipes->host_third[0], into, MIB)) == MIB, "the host's splice of 1 MiB");
    return (struct moved){ between - begun, ended - between };
}

static double our_tee(const void *subject, int times)
{
    (void)times;
    return our_moves(subject).tee;
}

static double our_splice(const void *subject, int times)
{
    (void)times;
    return our_moves(subject).splice;
}

static double host_tee(const void *subject, int times)
{
    (void)times;
    return host_moves(subject).tee;
}

static double host_splice(const void *subject, int times)
{
    (void)times;
    return host_moves(subject).splice;
}

static double copies(const void *subject, int times)
{
    (void)subject;
    double begun = now();
    for (int i = 0; i < times; i++) {
        memcpy(into, data, MIB);
        __asm__ volatile("" ::: "memory");
    }
    return (now() - begun) / times;
}

static bindingclay_ends large_pipe(bindingclay clay)
{
    bindingclay_ends ends;
    done(bindingclay_pipe(clay, 1, false, &ends));
    done(bindingclay_set_pipe_sz(clay, 1, ends.write_end, MIB));
    return ends;
}

/* Whether the host lets a pipe hold 1 MiB. */
static bool large_host_pipe(int ends[2])
{
    as_host(pipe(ends));
    return fcntl(ends[1], F_SETPIPE_SZ, MIB) >= MIB;
}

static void moves(bindingclay clay)
{
    struct pipes pipes = { .clay = clay, .first = large_pipe(clay), .second = large_pipe(clay), .third = large_pipe(clay) };
    const struct side tees[] = { { "bindingclay", our_tee, &pipes }, { "memcpy", copies, NULL }, { "host's tee", host_tee, &pipes } },
                      splices[] = { { "bindingclay", our_splice, &pipes }, { "memcpy", copies, NULL }, { "host's splice", host_splice, &pipes } };
    bool host = large_host_pipe(pipes.host_first) && large_host_pipe(pipes.host_second) && large_host_pipe(pipes.host_third);
    done(bindingclay_write(clay, 1, pipes.first.write_end, data, MIB));
    if (host)
        as_host(write(pipes.host_first[1], data, MIB));
    compare(&(struct row){ "moves", "tee", MIB, "ns", 500, 1 }, tees, host ? 3 : 2);
    compare(&(struct row){ "moves", "splice", MIB, "ns", 500, 1 }, splices, host ? 3 : 2);
}

int main(int count, char **words)
{
    bindingclay clay = new_kernel();
    begin(count, words);
    done(bindingclay_start(clay));
    for (size_t i = 0; i < sizeof data; i++)
        data[i] = (uint8_t)(i * 7);
    moves(clay);
    bindingclay_free(clay);
    return 0;
}
