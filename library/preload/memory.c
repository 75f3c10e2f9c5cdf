/* Memory of the layer's own, for which the linker takes the layer's malloc, calloc, realloc and free (--wrap). A program may call write in a signal
 * handler, which may interrupt its malloc. All is asked for under the lock, so there is none here. */
#define _GNU_SOURCE
#include <stddef.h>
#include <stdint.h>
#include <string.h>
#include <sys/mman.h>

/* Blocks have 2^5 to 2^28 bytes with their heads. Those of at most 2^16 are cut from regions of 2^20; each larger one is a region. */
enum { LEAST = 5, CUT = 16, REGION = 20, MOST = 28 };

struct block {
    size_t power;
    struct block *next;
};

_Static_assert(sizeof(struct block) == 16, "what is behind a head is aligned as malloc aligns it");

static struct block *free_blocks[MOST + 1];
static char *rest, *rest_end;

#pragma GCC visibility push(hidden)
void *__wrap_malloc(size_t size);
void *__wrap_calloc(size_t count, size_t size);
void *__wrap_realloc(void *bytes, size_t size);
void __wrap_free(void *bytes);
#pragma GCC visibility pop

static char *new_region(size_t size)
{
    void *region = mmap(NULL, size, PROT_READ | PROT_WRITE, MAP_PRIVATE | MAP_ANONYMOUS, -1, 0);
    return region != MAP_FAILED ? region : NULL;
}

static struct block *new_block(size_t power)
{
    size_t size = (size_t)1 << power;
    if (power > CUT)
        return (struct block *)(void *)new_region(size);
    if ((size_t)(rest_end - rest) < size) {
        char *region = new_region((size_t)1 << REGION);
        if (region == NULL)
            return NULL;
        rest = region;
        rest_end = region + ((size_t)1 << REGION);
    }
    rest += size;
    return (struct block *)(void *)(rest - size);
}

void *__wrap_malloc(size_t size)
{
    size_t power = LEAST;
    while (power <= MOST && ((size_t)1 << power) - sizeof(struct block) < size)
        power++;
    if (power > MOST)
        return NULL;
    struct block *block = free_blocks[power];
    if (block != NULL)
        free_blocks[power] = block->next;
    else
        block = new_block(power);
    if (block == NULL)
        return NULL;
    block->power = power;
    return block + 1;
}

void __wrap_free(void *bytes)
{
    if (bytes == NULL)
        return;
    struct block *block = (struct block *)bytes - 1;
    if (block->power > CUT) {
        munmap(block, (size_t)1 << block->power);
        return;
    }
    block->next = free_blocks[block->power];
    free_blocks[block->power] = block;
}

void *__wrap_realloc(void *bytes, size_t size)
{
    if (bytes == NULL)
        return __wrap_malloc(size);
    size_t room = ((size_t)1 << ((struct block *)bytes - 1)->power) - sizeof(struct block);
    if (size <= room)
        return bytes;
    void *moved = __wrap_malloc(size);
    if (moved != NULL) {
        memcpy(moved, bytes, room);
        __wrap_free(bytes);
    }
    return moved;
}

void *__wrap_calloc(size_t count, size_t size)
{
    if (size > 0 && count > SIZE_MAX / size)
        return NULL;
    void *bytes = __wrap_malloc(count * size);
    /* a block may have been another's */
    return bytes != NULL ? memset(bytes, 0, count * size) : NULL;
}
