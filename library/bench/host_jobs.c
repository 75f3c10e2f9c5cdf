/* Does a job of crates/pl_bench by the host's pipes, and prints the nanoseconds that a round takes: host_jobs JOB ROUNDS. */
#define _GNU_SOURCE
#include <pthread.h>
#include <stdatomic.h>
#include <stdbool.h>
#include <stdio.h>
#include <stdlib.h>
#include <string.h>
#include <time.h>
#include <unistd.h>

enum { SMALL = 64, LARGE = 65536, PIPES = 4, MOST_THREADS = 64, STACK = 262144 };

/* What a thread does by its number: it makes pairs at a pipe, or thread 0 sends pieces, and the others receive them. */
struct job {
    const char *name;
    unsigned threads;
    bool makes_pairs, at_own_pipe, is_answered;
    size_t size; /* 0: it moves nothing, and loads a word */
};

static const struct job JOBS[] = {
    { "alone", 1, true, false, false, SMALL },
    { "handed", 1, true, false, false, SMALL },
    { "pairs", 1, true, false, false, SMALL },
    { "pingpong", 2, false, false, true, 1 },
    { "readers", 64, false, false, false, 1 },
    { "answered", 64, false, false, true, 1 },
    { "stream", 2, false, false, false, LARGE },
    { "glance", 1, false, false, false, 0 },
    { "own2", 2, true, true, false, SMALL },
    { "own4", 4, true, true, false, SMALL },
    { "one2", 2, true, false, false, SMALL },
    { "one4", 4, true, false, false, SMALL },
};

static const struct job *job;
static long rounds;
static int ends[PIPES][2];

static void need(bool condition, const char *what)
{
    if (!condition) {
        perror(what);
        exit(1);
    }
}

static void put(int fd, const void *bytes, size_t size)
{
    need(write(fd, bytes, size) == (ssize_t)size, "write");
}

static void make_pairs(unsigned number)
{
    const int *pipe = ends[job->at_own_pipe ? number % PIPES : 0];
    char bytes[SMALL] = "", into[SMALL];
    for (long i = 0; i < rounds; i++) {
        put(pipe[1], bytes, sizeof bytes);
        need(read(pipe[0], into, sizeof into) > 0, "read");
    }
}

/* a thousand loads a round */
static void load_a_word(void)
{
    static atomic_ullong word;
    for (long i = 0; i < 1000 * rounds; i++)
        (void)atomic_load(&word);
}

static void send_pieces(void)
{
    static char bytes[LARGE];
    char answer;
    for (long i = 0; i < rounds; i++) {
        put(ends[0][1], bytes, job->size);
        need(!job->is_answered || read(ends[1][0], &answer, 1) == 1, "read");
    }
    need(close(ends[0][1]) == 0, "close");
}

static void receive_pieces(void)
{
    char *into = malloc(job->size);
    need(into != NULL, "malloc");
    while (read(ends[0][0], into, job->size) > 0)
        if (job->is_answered)
            put(ends[1][1], into, 1);
    free(into);
}

static void *work(void *argument)
{
    const unsigned number = *(const unsigned *)argument;
    if (job->makes_pairs)
        make_pairs(number);
    else if (job->size == 0)
        load_a_word();
    else if (number == 0)
        send_pieces();
    else
        receive_pieces();
    return NULL;
}

static double now(void)
{
    struct timespec t;
    clock_gettime(CLOCK_MONOTONIC, &t);
    return (double)t.tv_sec * 1e9 + (double)t.tv_nsec;
}

static void do_job(void)
{
    static unsigned numbers[MOST_THREADS];
    pthread_t threads[MOST_THREADS];
    pthread_attr_t small;
    need(pthread_attr_init(&small) == 0 && pthread_attr_setstacksize(&small, STACK) == 0, "a small stack");
    for (unsigned i = 0; i < job->threads; i++) {
        numbers[i] = i;
        need(pthread_create(&threads[i], &small, work, &numbers[i]) == 0, "a thread");
    }
    for (unsigned i = 0; i < job->threads; i++)
        pthread_join(threads[i], NULL);
    pthread_attr_destroy(&small);
}

int main(int count, char **words)
{
    for (size_t i = 0; count == 3 && i < sizeof JOBS / sizeof *JOBS; i++)
        if (strcmp(JOBS[i].name, words[1]) == 0)
            job = &JOBS[i];
    if (job == NULL || (rounds = atol(words[2])) <= 0) {
        fprintf(stderr, "usage: host_jobs JOB ROUNDS\n");
        return 2;
    }
    for (size_t i = 0; i < PIPES; i++)
        need(pipe(ends[i]) == 0, "a pipe");
    const double begun = now();
    do_job();
    printf("%.0f\n", (now() - begun) / (double)rounds);
    return 0;
}
