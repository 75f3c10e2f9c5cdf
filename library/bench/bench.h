/* What the programs of this folder share: samples, and the rows that they print. The one word of a program's command line says how long it measures:
 * quick, usual or long. */
#ifndef BENCH_H
#define BENCH_H

#include "bindingclay.h"

#include <stdio.h>
#include <string.h>
#include <sys/resource.h>
#include <sys/types.h>
#include <time.h>

enum { KIB = 1024, MIB = 1 << 20, MOST_ROUNDS = 500, QUICK_ROUNDS = 3, QUICK_PART = 20, MOST_SIDES = 4 };

/* How long is measured: just so that each row has a figure, as usual, or longer. */
enum pace { QUICK, USUAL, LONG };

static enum pace pace = USUAL;

/* One of those that are compared: what does something so many times, and tells how much each took in the unit of the row. */
struct side {
    const char *name;
    double (*sample)(const void *subject, int times);
    const void *subject;
};

/* What is compared: how many rounds take a sample of each side in turn, and how many times it is done for a sample. */
struct row {
    const char *group, *what;
    size_t size;
    const char *unit;
    int rounds, times;
};

/* Of many samples the least one, the middle one, and the one that nine tenths don't exceed. */
struct figures {
    double least, median, ninetieth;
};

static inline void need(bool condition, const char *what)
{
    if (!condition) {
        perror(what);
        exit(1);
    }
}

static inline double now(void)
{
    struct timespec t;
    clock_gettime(CLOCK_MONOTONIC, &t);
    return (double)t.tv_sec * 1e9 + (double)t.tv_nsec;
}

/* The value of a call that has to be done. */
static inline uint64_t done(bindingclay_answer answer)
{
    if (answer.kind != BINDINGCLAY_DONE) {
        fprintf(stderr, "a call answered kind %d, error %d\n", answer.kind, answer.error);
        exit(1);
    }
    return answer.value;
}

/* The number of a call that has to wait. */
static inline uint64_t parked(bindingclay_answer answer)
{
    if (answer.kind != BINDINGCLAY_PARKED) {
        fprintf(stderr, "a call that should wait answered kind %d, error %d\n", answer.kind, answer.error);
        exit(1);
    }
    return answer.value;
}

/* What the host answered, which can't be a failure. */
static inline size_t as_host(ssize_t answer)
{
    need(answer >= 0, "the host");
    return (size_t)answer;
}

static inline bindingclay new_kernel(void)
{
    bindingclay clay;
    need(bindingclay_open(1, BINDINGCLAY_MOST_FILE_BYTES, &clay.kernel), "bindingclay_open");
    return clay;
}

/* Takes the command line of a program. */
static inline void begin(int count, char **words)
{
    static const char *const PACES[] = { [QUICK] = "quick", [USUAL] = "usual", [LONG] = "long" };
    for (size_t i = 0; count > 1 && i < sizeof PACES / sizeof *PACES; i++)
        if (strcmp(words[1], PACES[i]) == 0)
            pace = (enum pace)i;
}

/* Lets the program have as many descriptors as it may, and tells how many. */
static inline size_t most_descriptors(void)
{
    struct rlimit limit;
    need(getrlimit(RLIMIT_NOFILE, &limit) == 0, "getrlimit");
    limit.rlim_cur = limit.rlim_max;
    need(setrlimit(RLIMIT_NOFILE, &limit) == 0, "setrlimit");
    return (size_t)limit.rlim_cur;
}

static inline int by_amount(const void *left, const void *right)
{
    double one = *(const double *)left, other = *(const double *)right;
    return (one > other) - (one < other);
}

static inline struct figures figures_of(double *samples, int count)
{
    qsort(samples, (size_t)count, sizeof *samples, by_amount);
    double median = (samples[(count - 1) / 2] + samples[count / 2]) / 2;
    return (struct figures){ samples[0], median, samples[(count * 9 + 9) / 10 - 1] };
}

/* Prints a row, with what is beside it if there is such. Tabs separate its cells. */
static inline void print_row(const struct row *row, struct figures ours, const char *beside, struct figures theirs)
{
    printf("%s\t%s\t%zu\t%s\t%.2f\t%.2f\t%.2f\t", row->group, row->what, row->size, row->unit, ours.least, ours.median, ours.ninetieth);
    if (beside != NULL)
        printf("%s\t%.2f\t%.2f\t%.2f\n", beside, theirs.least, theirs.median, theirs.ninetieth);
    else
        printf("\t\t\t\n");
    fflush(stdout);
}

/* Takes samples of all sides in turn, so that what else the machine does counts for each of them. The first side is ours, and each other one makes
 * a row. */
static inline void compare(const struct row *row, const struct side *sides, size_t count)
{
    static double samples[MOST_SIDES][MOST_ROUNDS];
    struct figures figures[MOST_SIDES];
    int rounds = pace == QUICK && row->rounds > QUICK_ROUNDS ? QUICK_ROUNDS : row->rounds;
    int times = pace == QUICK ? (row->times + QUICK_PART - 1) / QUICK_PART : row->times;
    for (int round = 0; round < rounds; round++)
        for (size_t i = 0; i < count; i++)
            samples[i][round] = sides[i].sample(sides[i].subject, times);
    for (size_t i = 0; i < count; i++)
        figures[i] = figures_of(samples[i], rounds);
    for (size_t i = 1; i < count; i++)
        print_row(row, figures[0], sides[i].name, figures[i]);
    if (count == 1)
        print_row(row, figures[0], NULL, figures[0]);
}

#endif
