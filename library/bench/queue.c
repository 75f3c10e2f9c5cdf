#define _GNU_SOURCE
#include "queue.h"

#include <string.h>

int queue_open(struct queue *queue)
{
    pthread_mutexattr_t attributes;
    queue->first = queue->held = 0;
    /* Processes may share the lock. Otherwise the C library takes it without atomic steps while there is one thread, and a queue is for more. */
    return pthread_mutexattr_init(&attributes) == 0 && pthread_mutexattr_setpshared(&attributes, PTHREAD_PROCESS_SHARED) == 0 &&
        pthread_mutex_init(&queue->lock, &attributes) == 0;
}

static size_t smaller(size_t one, size_t other)
{
    return one < other ? one : other;
}

size_t queue_write(struct queue *queue, const void *bytes, size_t size)
{
    pthread_mutex_lock(&queue->lock);
    size_t count = smaller(size, QUEUE_BYTES - queue->held);
    size_t from = (queue->first + queue->held) % QUEUE_BYTES;
    size_t before_end = smaller(count, QUEUE_BYTES - from);
    memcpy(queue->bytes + from, bytes, before_end);
    memcpy(queue->bytes, (const uint8_t *)bytes + before_end, count - before_end);
    queue->held += count;
    pthread_mutex_unlock(&queue->lock);
    return count;
}

size_t queue_read(struct queue *queue, void *into, size_t size)
{
    pthread_mutex_lock(&queue->lock);
    size_t count = smaller(size, queue->held);
    size_t before_end = smaller(count, QUEUE_BYTES - queue->first);
    memcpy(into, queue->bytes + queue->first, before_end);
    memcpy((uint8_t *)into + before_end, queue->bytes, count - before_end);
    queue->first = (queue->first + count) % QUEUE_BYTES;
    queue->held -= count;
    pthread_mutex_unlock(&queue->lock);
    return count;
}
