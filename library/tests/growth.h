/* What the tests of growth share. Their includer defines _GNU_SOURCE. */
#ifndef GROWTH_H
#define GROWTH_H

#include "check.h"
#include "counted.h"

#include <time.h>

/* From here on a time tells something. */
enum { LARGE = 16384 };

static inline double seconds(void)
{
    struct timespec now;
    clock_gettime(CLOCK_MONOTONIC, &now);
    return (double)now.tv_sec + (double)now.tv_nsec / 1e9;
}

/* The one word of a test's arguments, a number of 16 or more. */
static inline long count_of(int words, char **word)
{
    if (words != 2 || atol(word[1]) < 16) {
        fprintf(stderr, "%s N: N is 16 or more\n", word[0]);
        exit(2);
    }
    return atol(word[1]);
}

#endif
