/* A logger over a FIFO with ten writers, each a thread. A line is at most PIPE_BUF bytes, so it comes whole (write: "not interleaved"), and those
 * of one writer come in order. It prints how many lines of each writer came, and whether all were so. */
#include "calls.h"

enum { WRITERS = 10, LINES = 300, LINE = 100, BUFFER = 4096 };

static void *run_writer(void *argument)
{
    const int *writer = argument;
    char line[LINE + 1];
    int fd = p_open("log", O_WRONLY);
    for (int i = 0; i < LINES; i++) {
        snprintf(line, sizeof line, "%d %d ", *writer, i);
        size_t size = strlen(line);
        memset(line + size, 'a' + *writer, LINE - 1 - size);
        line[LINE - 1] = '\n';
        p_write(fd, line, LINE);
    }
    p_close(fd);
    return NULL;
}

/* Whether a line is whole, and the next one of its writer. */
static bool is_next(const char *line, int *came)
{
    char *behind;
    long writer = strtol(line, &behind, 10), number = strtol(behind, &behind, 10);
    if (writer < 0 || writer >= WRITERS || number != came[writer] || line[LINE - 1] != '\n')
        return false;
    came[writer]++;
    for (behind++; behind < line + LINE - 1; behind++)
        if (*behind != 'a' + writer)
            return false;
    return true;
}

int main(void)
{
    pthread_t threads[WRITERS];
    int numbers[WRITERS], came[WRITERS] = { 0 };
    char bytes[BUFFER + LINE];
    size_t held = 0;
    bool all_so = true;
    begin_calls();
    p_mkfifo("log");
    for (int i = 0; i < WRITERS; i++) {
        numbers[i] = i;
        threads[i] = thread_of(run_writer, &numbers[i]);
    }
    /* the logger keeps a write end too, as its writers come and go, and so it counts the lines */
    int fd = p_open("log", O_RDWR);
    for (int left = WRITERS * LINES; left > 0;) {
        held += (size_t)p_read(fd, bytes + held, BUFFER);
        size_t first = 0;
        for (; held - first >= LINE; first += LINE, left--)
            all_so = all_so && is_next(bytes + first, came);
        memmove(bytes, bytes + first, held - first);
        held -= first;
    }
    for (int i = 0; i < WRITERS; i++) {
        pthread_join(threads[i], NULL);
        printf("writer %d: %d lines\n", i, came[i]);
    }
    p_close(fd);
    p_unlink("log");
    printf("%s, and %zu bytes more\n", all_so ? "all whole and in order" : "NOT all whole and in order", held);
    end_calls();
    return 0;
}
