/* A parent and its child talk through a pipe. Build, with the library installed below PREFIX:
 *
 *   cc example.c $(PKG_CONFIG_PATH=PREFIX/lib/pkgconfig pkg-config --cflags --libs bindingclay)
 */
#include "bindingclay.h"

#include <stdio.h>
#include <stdlib.h>

/* The value of an answer. Here no call may fail or find no memory; one that waits answers its number. */
static uint64_t value(bindingclay_answer answer)
{
    if (answer.kind != BINDINGCLAY_DONE && answer.kind != BINDINGCLAY_PARKED) {
        fprintf(stderr, "a call answered kind %d, error %d\n", answer.kind, answer.error);
        exit(1);
    }
    return answer.value;
}

int main(void)
{
    bindingclay clay;
    if (!bindingclay_open(1, BINDINGCLAY_MOST_FILE_BYTES, &clay.kernel))
        return 1;
    uint32_t parent = (uint32_t)value(bindingclay_start(clay));
    bindingclay_ends ends;
    value(bindingclay_pipe(clay, parent, false, &ends));
    uint32_t child = (uint32_t)value(bindingclay_fork(clay, parent));
    value(bindingclay_close(clay, child, ends.write_end));

    /* nothing was written yet: the child's read waits, under a number */
    uint8_t into[16];
    bindingclay_answer answer = bindingclay_read(clay, child, ends.read_end, into, sizeof into);
    if (answer.kind == BINDINGCLAY_PARKED) {
        value(bindingclay_write(clay, parent, ends.write_end, (const uint8_t *)"hello", 5));
        answer = bindingclay_resume(clay, answer.value, into, sizeof into);
    }
    printf("the child read %.*s\n", (int)value(answer), (const char *)into);

    /* the parent ends, and so does what the child can read */
    value(bindingclay_exit(clay, parent));
    printf("and then %d bytes\n", (int)value(bindingclay_read(clay, child, ends.read_end, into, sizeof into)));
    bindingclay_free(clay);
    return 0;
}
