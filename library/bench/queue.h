/* A byte queue as a program might have one of its own in place of a pipe: a ring of 64 KiB under a lock. */
#ifndef QUEUE_H
#define QUEUE_H

#include <pthread.h>
#include <stdint.h>
#include <sys/types.h>

enum { QUEUE_BYTES = 65536 };

struct queue {
    pthread_mutex_t lock;
    size_t first, held;
    uint8_t bytes[QUEUE_BYTES];
};

/* Makes an empty queue. Returns whether the host has a lock for it. */
int queue_open(struct queue *queue);

/* Puts in as many of the bytes as there is room for, and tells how many. */
size_t queue_write(struct queue *queue, const void *bytes, size_t size);

/* Takes out at most size bytes, and tells how many. */
size_t queue_read(struct queue *queue, void *into, size_t size);

#endif
