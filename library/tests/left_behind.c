/* What guests leave of a budget of 8 MiB once they left: the next can use nine tenths of it. */
#include "check.h"

#include <fcntl.h>

enum { BUDGET = 8 << 20, BLOCK = 65536, PIPES = 100 };

static bindingclay new_budget(void)
{
    bindingclay clay;
    bindingclay_limits limits = BINDINGCLAY_LIMITS;
    limits.memory = BUDGET;
    if (!bindingclay_open_within(&limits, &clay.kernel))
        exit(1);
    DONE(bindingclay_start(clay), 1);
    return clay;
}

/* A file as long as memory lets it be: how many bytes it has. It is gone after that. */
static long bytes_for_a_file(bindingclay clay)
{
    long bytes = 0;
    bindingclay_answer file = open_text(clay, 1, "file", O_CREAT | O_RDWR);
    HOLDS(file.kind == BINDINGCLAY_DONE);
    while (put_many(clay, 1, (int32_t)file.value, BLOCK).kind == BINDINGCLAY_DONE)
        bytes += BLOCK;
    OTHER(bindingclay_close(clay, 1, (int32_t)file.value), BINDINGCLAY_DONE);
    OTHER(unlink_text(clay, 1, "file"), BINDINGCLAY_DONE);
    return bytes;
}

static const char *name_of(long i)
{
    static char name[32];
    snprintf(name, sizeof name, "%08ld", i);
    return name;
}

/* Each guest does a thing until there is no memory, then takes it back, and returns how often it did it. */
static long reads_that_wait(bindingclay clay)
{
    bindingclay_ends ends = NEW_PIPE(clay, 1, false);
    DONE(bindingclay_fork(clay, 1), 2);
    long count = 0;
    while (take(clay, 2, ends.read_end, 1).kind == BINDINGCLAY_PARKED)
        count++;
    OTHER(bindingclay_exit(clay, 2), BINDINGCLAY_DONE);
    return count;
}

/* The last names go first, or the first ones. One that isn't the guest's stays. */
static long names(bindingclay clay, bool last_first, bool are_fifos)
{
    OTHER(mkfifo_text(clay, 1, "another's"), BINDINGCLAY_DONE);
    long count = 0;
    for (;; count++) {
        bindingclay_answer made = are_fifos ? mkfifo_text(clay, 1, name_of(count)) : open_text(clay, 1, name_of(count), O_CREAT | O_RDONLY);
        if (made.kind != BINDINGCLAY_DONE)
            break;
        if (!are_fifos)
            OTHER(bindingclay_close(clay, 1, (int32_t)made.value), BINDINGCLAY_DONE);
    }
    for (long i = 0; i < count; i++)
        OTHER(unlink_text(clay, 1, name_of(last_first ? count - 1 - i : i)), BINDINGCLAY_DONE);
    return count;
}

static long fifos(bindingclay clay)
{
    return names(clay, false, true);
}

static long fifos_from_the_last(bindingclay clay)
{
    return names(clay, true, true);
}

static long files(bindingclay clay)
{
    return names(clay, false, false);
}

/* As many pipes as processes can have, or as a kernel can. */
static long pipes(bindingclay clay)
{
    long count = 0, processes = 0;
    for (bool goes_on = true; goes_on; processes++) {
        bindingclay_answer child = bindingclay_fork(clay, 1);
        goes_on = child.kind == BINDINGCLAY_DONE;
        for (int i = 0; goes_on && i < PIPES; i++) {
            bindingclay_ends ends;
            goes_on = bindingclay_pipe(clay, (uint32_t)child.value, false, &ends).kind == BINDINGCLAY_DONE;
            count += goes_on;
        }
    }
    for (uint32_t pid = 2; pid < processes + 1; pid++)
        bindingclay_exit(clay, pid);
    return count;
}

static const struct guest {
    const char *name;
    long (*lives)(bindingclay clay);
} guests[] = {
    { "reads that wait", reads_that_wait }, { "FIFOs", fifos }, { "FIFOs, the last first", fifos_from_the_last }, { "files", files },
    { "pipes", pipes },
};

int main(void)
{
    bindingclay clay = new_budget();
    long at_first = bytes_for_a_file(clay);
    bindingclay_free(clay);
    HOLDS(at_first > BUDGET / 4 * 3);
    for (size_t i = 0; i < sizeof guests / sizeof *guests; i++) {
        clay = new_budget();
        long count = guests[i].lives(clay);
        OTHER(bindingclay_next_ready(clay, 0), BINDINGCLAY_NO_CALL);
        long left = bytes_for_a_file(clay);
        printf("after %ld %s a file has %ld%% of the bytes that one had at first\n", count, guests[i].name, 100 * left / at_first);
        HOLDS(count >= 1000 && 10 * left >= 9 * at_first);
        bindingclay_free(clay);
    }
    return end();
}
