/* A stream to two consumers: a thread copies it to a second pipe by tee, and moves what it copied on by splice. It prints the sum of what each
 * consumer read. */
#include "calls.h"

enum { BYTES = 1000000, PIECE = 10000 };

/* The source, and the pipes to the consumers. */
static int source[2], first[2], second[2];

struct consumer {
    int fd;
    uint64_t bytes, sum;
};

static void *run_producer(void *argument)
{
    char bytes[PIECE];
    (void)argument;
    for (int done = 0; done < BYTES; done += PIECE) {
        for (int i = 0; i < PIECE; i++)
            bytes[i] = (char)((done + i) * 31 + (done + i) / 256);
        p_write(source[1], bytes, PIECE);
    }
    p_close(source[1]);
    return NULL;
}

static void *run_copier(void *argument)
{
    long count;
    (void)argument;
    while ((count = p_tee(source[0], first[1], PIECE)) > 0)
        while (count > 0)
            count -= p_splice(source[0], second[1], (size_t)count);
    p_close(source[0]);
    p_close(first[1]);
    p_close(second[1]);
    return NULL;
}

static void *run_consumer(void *argument)
{
    struct consumer *consumer = argument;
    char bytes[PIECE];
    long count;
    while ((count = p_read(consumer->fd, bytes, PIECE)) > 0) {
        for (long i = 0; i < count; i++)
            consumer->sum = consumer->sum * 31 + (uint8_t)bytes[i];
        consumer->bytes += (uint64_t)count;
    }
    p_close(consumer->fd);
    return NULL;
}

int main(void)
{
    struct consumer one = { .bytes = 0 }, other = { .bytes = 0 };
    begin_calls();
    p_pipe2(source, 0);
    p_pipe2(first, 0);
    p_pipe2(second, 0);
    one.fd = first[0];
    other.fd = second[0];
    pthread_t threads[] = { thread_of(run_producer, NULL), thread_of(run_copier, NULL), thread_of(run_consumer, &one),
        thread_of(run_consumer, &other) };
    for (int i = 0; i < 4; i++)
        pthread_join(threads[i], NULL);
    printf("%llu bytes of sum %llx\n", (unsigned long long)one.bytes, (unsigned long long)one.sum);
    printf("%llu bytes of sum %llx\n", (unsigned long long)other.bytes, (unsigned long long)other.sum);
    end_calls();
    return 0;
}
