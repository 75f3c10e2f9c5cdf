/* A loop that polls two pipes and a third one, by which another thread wakes it to say that there is no more (a self-pipe). It prints how many bytes
 * came by each pipe, and that a poll without anything to tell ends by its time. */
#include "calls.h"

enum { PIPES = 2, BYTES = 20000, PIECE = 700 };

static int pipes[PIPES][2], wake[2];

static void *run_writer(void *argument)
{
    const int *fd = argument;
    static const char bytes[PIECE];
    for (int left = BYTES; left > 0; left -= PIECE)
        p_write(*fd, bytes, left < PIECE ? left : PIECE);
    return NULL;
}

/* Reads what there is, and tells how much, until the self-pipe says that there is no more. */
static void loop(long *counts)
{
    char bytes[BYTES];
    struct pollfd entries[PIPES + 1];
    for (int i = 0; i <= PIPES; i++)
        entries[i] = (struct pollfd){ .fd = i < PIPES ? pipes[i][0] : wake[0], .events = POLLIN };
    for (;;) {
        p_poll(entries, PIPES + 1, -1);
        bool is_last = true;
        for (int i = 0; i < PIPES; i++) {
            if ((entries[i].revents & POLLIN) == 0)
                continue;
            counts[i] += p_read(pipes[i][0], bytes, sizeof bytes);
            is_last = false;
        }
        if (is_last && (entries[PIPES].revents & POLLIN) != 0)
            return;
    }
}

static void *run_loop(void *argument)
{
    loop(argument);
    return NULL;
}

int main(void)
{
    pthread_t writers[PIPES];
    long counts[PIPES] = { 0 };
    begin_calls();
    for (int i = 0; i < PIPES; i++)
        p_pipe2(pipes[i], 0);
    p_pipe2(wake, O_NONBLOCK);
    pthread_t looper = thread_of(run_loop, counts);
    for (int i = 0; i < PIPES; i++)
        writers[i] = thread_of(run_writer, &pipes[i][1]);
    for (int i = 0; i < PIPES; i++)
        pthread_join(writers[i], NULL);
    p_write(wake[1], "w", 1);
    pthread_join(looper, NULL);
    for (int i = 0; i < PIPES; i++)
        printf("pipe %d: %ld bytes\n", i, counts[i]);
    struct pollfd entry = { .fd = pipes[0][0], .events = POLLIN };
    printf("a poll of 20 ms tells %ld\n", p_poll(&entry, 1, 20));
    p_close(pipes[0][1]);
    printf("a poll behind the last writer tells %ld", p_poll(&entry, 1, -1));
    printf(": %s\n", entry.revents == POLLHUP ? "POLLHUP" : "something else");
    end_calls();
    return 0;
}
