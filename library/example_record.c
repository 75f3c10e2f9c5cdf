/* A run that prints its record, which piperun --check passes. Build, with the library installed below PREFIX:
 *
 *   cc example_record.c $(PKG_CONFIG_PATH=PREFIX/lib/pkgconfig pkg-config --cflags --libs bindingclay) -o example_record
 *   ./example_record > FILE && piperun --check FILE
 */
#include "bindingclay.h"

#include <stdio.h>

/* Prints what the kernel has of its record. Returns whether all of it was printed. A run that is longer does so now and then, as the record is in
 * the kernel's memory until then. */
static bool print_record(bindingclay clay)
{
    uint8_t bytes[4096];
    bindingclay_answer answer;
    while ((answer = bindingclay_recorded(clay, bytes, sizeof bytes)).kind == BINDINGCLAY_DONE && answer.value > 0)
        if (fwrite(bytes, 1, answer.value, stdout) != answer.value)
            return false;
    return answer.kind == BINDINGCLAY_DONE && fflush(stdout) == 0;
}

/* A process reads from a pipe before it wrote to it. */
static void talk(bindingclay clay)
{
    uint8_t into[16];
    bindingclay_ends ends;
    uint32_t pid = (uint32_t)bindingclay_start(clay).value;
    bindingclay_pipe(clay, pid, false, &ends);
    bindingclay_answer answer = bindingclay_read(clay, pid, ends.read_end, into, sizeof into);
    bindingclay_write(clay, pid, ends.write_end, (const uint8_t *)"hello", 5);
    if (answer.kind == BINDINGCLAY_PARKED)
        bindingclay_resume(clay, answer.value, into, sizeof into);
    bindingclay_exit(clay, pid);
}

int main(void)
{
    bindingclay clay;
    if (!bindingclay_open(1, BINDINGCLAY_MOST_FILE_BYTES, &clay.kernel))
        return 1;
    /* before the first process, as a record has all steps */
    bool is_recorded = bindingclay_record(clay, true).kind == BINDINGCLAY_DONE;
    talk(clay);
    is_recorded = is_recorded && print_record(clay);
    bindingclay_free(clay);
    return is_recorded ? 0 : 1;
}
