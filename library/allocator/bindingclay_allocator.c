/* What libbindingclay_allocator.a calls in place of malloc, calloc, realloc and free, and what is called there by the names of bindingclay.h. A block
 * has its size before it, so that an allocator is told it, and also which kernel's allocator it is of. A handle is such a block. So each function
 * that takes one finds the allocator of its kernel, and sets it for as long as it runs. */
#include "bindingclay_allocator_inside.h"

#include <string.h>

/* What install.sh writes for the four functions into the archive. */
void *bindingclay_malloc(size_t size);
void *bindingclay_calloc(size_t count, size_t size);
void *bindingclay_realloc(void *block, size_t size);

/* What is before a block. */
struct before {
    size_t size;
    /* Null: of the allocator that is set. */
    struct bindingclay_kept *kept;
};

/* The bytes before a block, which keep its alignment. */
enum { BEFORE = 16 };

_Static_assert(sizeof(struct before) <= BEFORE, "what is before a block");

static void *allocate_by_malloc(void *context, size_t size)
{
    (void)context;
    return malloc(size);
}

static void release_by_free(void *context, void *block, size_t size)
{
    (void)context, (void)size;
    free(block);
}

static void *reallocate_by_realloc(void *context, void *block, size_t size, size_t new_size)
{
    (void)context, (void)size;
    return realloc(block, new_size);
}

static const bindingclay_allocator by_malloc = { allocate_by_malloc, release_by_free, reallocate_by_realloc, NULL };
static const bindingclay_allocator *of_all = &by_malloc;

/* What is set for a thread, and what the kernel keeps on which it makes a call. That goes before. */
static _Thread_local struct {
    const bindingclay_allocator *set;
    struct bindingclay_kept *kept;
} of_thread;

void bindingclay_set_allocator(const bindingclay_allocator *allocator)
{
    of_all = allocator != NULL ? allocator : &by_malloc;
}

const bindingclay_allocator *bindingclay_use_allocator(const bindingclay_allocator *allocator)
{
    const bindingclay_allocator *before = of_thread.set;
    of_thread.set = allocator;
    return before;
}

/* The allocator of a kernel, or that which is set. */
static const bindingclay_allocator *allocator_of(const struct bindingclay_kept *kept)
{
    if (kept != NULL)
        return &kept->allocator;
    return of_thread.set != NULL ? of_thread.set : of_all;
}

/* ---- Blocks ---- */

/* A block from what an allocator gave, with what is before it; null of null. */
static void *block_of(unsigned char *given, struct before before)
{
    if (given == NULL)
        return NULL;
    memcpy(given, &before, sizeof before);
    return given + BEFORE;
}

/* What an allocator gave for a block, and what it has before it. */
static unsigned char *given_for(void *block, struct before *before)
{
    unsigned char *given = (unsigned char *)block - BEFORE;
    memcpy(before, given, sizeof *before);
    return given;
}

/* One block less is of a kernel's allocator. */
static void count_off(struct bindingclay_kept *kept)
{
    if (--kept->blocks == 0) {
        bindingclay_allocator allocator = kept->allocator;
        allocator.release(allocator.context, kept, sizeof *kept);
    }
}

void *bindingclay_malloc(size_t size)
{
    struct bindingclay_kept *kept = of_thread.kept;
    const bindingclay_allocator *allocator = allocator_of(kept);
    if (size > SIZE_MAX - BEFORE)
        return NULL;
    void *block = block_of(allocator->allocate(allocator->context, size + BEFORE), (struct before){ size + BEFORE, kept });
    if (kept != NULL && block != NULL)
        kept->blocks++;
    return block;
}

void *bindingclay_calloc(size_t count, size_t size)
{
    void *block = size == 0 || count <= SIZE_MAX / size ? bindingclay_malloc(count * size) : NULL;
    return block != NULL ? memset(block, 0, count * size) : NULL;
}

void *bindingclay_realloc(void *block, size_t size)
{
    struct before before;
    if (block == NULL)
        return bindingclay_malloc(size);
    if (size > SIZE_MAX - BEFORE)
        return NULL;
    unsigned char *given = given_for(block, &before);
    const bindingclay_allocator *allocator = allocator_of(before.kept);
    struct before behind = { size + BEFORE, before.kept };
    if (allocator->reallocate != NULL)
        return block_of(allocator->reallocate(allocator->context, given, before.size, behind.size), behind);
    unsigned char *moved = allocator->allocate(allocator->context, behind.size);
    if (moved == NULL)
        return NULL;
    memcpy(moved, given, before.size < behind.size ? before.size : behind.size);
    allocator->release(allocator->context, given, before.size);
    return block_of(moved, behind);
}

void bindingclay_release(void *block)
{
    struct before before;
    if (block == NULL)
        return;
    unsigned char *given = given_for(block, &before);
    const bindingclay_allocator *allocator = allocator_of(before.kept);
    allocator->release(allocator->context, given, before.size);
    if (before.kept != NULL)
        count_off(before.kept);
}

/* ---- Kernels that keep an allocator ---- */

/* Sets what the thread takes memory of, and returns what it was. */
static struct bindingclay_kept *swap(struct bindingclay_kept *kept)
{
    struct bindingclay_kept *before = of_thread.kept;
    of_thread.kept = kept;
    return before;
}

struct bindingclay_kept *bindingclay_begin_open(const bindingclay_allocator *allocator, struct bindingclay_kept **before)
{
    if (allocator == NULL)
        allocator = &by_malloc;
    struct bindingclay_kept *kept = allocator->allocate(allocator->context, sizeof *kept);
    if (kept != NULL) {
        /* one more than there are blocks, so that it stays while a kernel is opened */
        *kept = (struct bindingclay_kept){ *allocator, 1 };
        *before = swap(kept);
    }
    return kept;
}

void bindingclay_end_open(struct bindingclay_kept *kept, struct bindingclay_kept *before)
{
    swap(before);
    count_off(kept);
}

bool bindingclay_open_with(const bindingclay_limits *limits, const bindingclay_allocator *allocator, void **kernel)
{
    static const bindingclay_limits none = BINDINGCLAY_LIMITS;
    struct bindingclay_kept *before, *kept = bindingclay_begin_open(allocator, &before);
    if (kept == NULL)
        return false;
    bool is_open = bindingclay_open_within(limits != NULL ? limits : &none, kernel);
    bindingclay_end_open(kept, before);
    return is_open;
}

/* ---- Calls on a kernel ---- */

/* The allocator that a kernel keeps, or null. */
static struct bindingclay_kept *kept_by(bindingclay clay)
{
    struct before before;
    given_for(clay.kernel, &before);
    return before.kept;
}

/* A function of bindingclay.h, over the one of the library, which install.sh gave another name. What finds the thread's own is not inline, so that a
 * call on another kernel saves no registers for it. */
#define CALL(type, name, parameters, arguments) \
    type bindingclay_inner_##name parameters; \
    __attribute__((noinline)) static type call_of_kept_##name parameters \
    { \
        struct bindingclay_kept *before = swap(kept_by(clay)); \
        type answer = bindingclay_inner_##name arguments; \
        swap(before); \
        return answer; \
    } \
    type bindingclay_##name parameters \
    { \
        return kept_by(clay) != NULL ? call_of_kept_##name arguments : bindingclay_inner_##name arguments; \
    }

#define CALL_OF_NOTHING(name, parameters, arguments) \
    void bindingclay_inner_##name parameters; \
    void bindingclay_##name parameters \
    { \
        struct bindingclay_kept *kept = kept_by(clay); \
        struct bindingclay_kept *before = kept != NULL ? swap(kept) : NULL; \
        bindingclay_inner_##name arguments; \
        if (kept != NULL) \
            swap(before); \
    }

/* what calls.awk makes of bindingclay.h */
#include "bindingclay_allocator_calls.h"
