/* The memory of a program, counted, and refused on demand. Link with -Wl,--wrap=malloc,--wrap=realloc,--wrap=free. */
#ifndef COUNTED_H
#define COUNTED_H

#include <malloc.h>
#include <stdatomic.h>
#include <stdbool.h>
#include <stddef.h>

void *__real_malloc(size_t size);
void *__real_realloc(void *block, size_t size);
void __real_free(void *block);

/* Blocks that were given and not given back. */
static atomic_long blocks_left;

/* The bytes of these blocks, as the allocator rounds them, and the most that they ever were. */
static atomic_long bytes_left;
static atomic_long most_bytes;

/* How many requests are granted before the refused ones; below 0, all are granted. */
static long granted_before = -1;

/* How many requests are refused then. */
static long to_refuse;

static long refused;

static inline bool is_refused(void)
{
    if (granted_before < 0 || to_refuse == 0)
        return false;
    if (granted_before > 0) {
        granted_before--;
        return false;
    }
    to_refuse--;
    refused++;
    return true;
}

/* From here on, so many requests are granted, then so many refused, and then all are granted. */
static inline void refuse(long granted, long count)
{
    granted_before = granted;
    to_refuse = count;
    refused = 0;
}

static inline void refuse_none(void)
{
    granted_before = -1;
}

static inline void count_bytes(long more)
{
    long now = atomic_fetch_add(&bytes_left, more) + more;
    long most = atomic_load(&most_bytes);
    while (most < now && !atomic_compare_exchange_weak(&most_bytes, &most, now))
        ;
}

void *__wrap_malloc(size_t size)
{
    void *block = is_refused() ? NULL : __real_malloc(size);
    if (block != NULL) {
        atomic_fetch_add(&blocks_left, 1);
        count_bytes((long)malloc_usable_size(block));
    }
    return block;
}

void *__wrap_realloc(void *block, size_t size)
{
    long before = (long)malloc_usable_size(block);
    /* Who gives back more than half of a block goes on with all of it where that is refused, so that no answer tells it. */
    bool gives_back = (long)size < before / 2;
    if (!gives_back && is_refused())
        return NULL;
    void *moved = __real_realloc(block, size);
    if (moved == NULL)
        return NULL;
    if (block == NULL)
        atomic_fetch_add(&blocks_left, 1);
    count_bytes((long)malloc_usable_size(moved) - before);
    return moved;
}

void __wrap_free(void *block)
{
    if (block != NULL) {
        atomic_fetch_sub(&blocks_left, 1);
        count_bytes(-(long)malloc_usable_size(block));
    }
    __real_free(block);
}

#endif
