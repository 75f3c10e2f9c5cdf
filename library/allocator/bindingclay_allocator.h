/* Memory of the library from an allocator of yours, and not from malloc. Include this header in place of bindingclay.h, or before it, and link with
 * libbindingclay_allocator.a in place of libbindingclay.a. That archive has the front for threads too.
 *
 * bindingclay_open_with gives a kernel its allocator as it is opened. The kernel keeps it: each call on it, in any thread, and bindingclay_free find
 * it by themselves.
 *
 * bindingclay_open and bindingclay_open_within take the allocator that is set, for all threads or for this one. Such a kernel doesn't keep it. Each
 * later call on it, and bindingclay_free, has to find the same one set, and nothing checks this. */
#ifndef BINDINGCLAY_ALLOCATOR_H
#define BINDINGCLAY_ALLOCATOR_H

#ifdef BINDINGCLAY_H
#error "include bindingclay_allocator.h before bindingclay.h"
#endif

/* What bindingclay.h gives the block of a budget back by. */
#define BINDINGCLAY_FREE bindingclay_release

#ifdef __cplusplus
extern "C" {
#endif
void bindingclay_release(void *block);
#ifdef __cplusplus
}
#endif

#include "bindingclay.h"

#ifdef __cplusplus
extern "C" {
#endif

/* An allocator. It is called in the thread of the call that wants memory, and makes no call of the library. That of one kernel alone needs no lock:
 * it is called only in calls on that kernel, of which there is one at a time. */
typedef struct {
    /* Gives a block of size bytes, at an address that is a multiple of 16, or null. size is above 0. */
    void *(*allocate)(void *context, size_t size);
    /* Takes a block back, with the size that it was asked with last. */
    void (*release)(void *context, void *block, size_t size);
    /* Gives a block of new_size bytes that begins with the bytes of the old one, which goes. Or gives null, and the old one stays. If this function is
     * null, a block is allocated, and the bytes are copied. */
    void *(*reallocate)(void *context, void *block, size_t size, size_t new_size);
    void *context;
} bindingclay_allocator;

/* Does what bindingclay_open_within does, with an allocator that the kernel keeps. Null limits are BINDINGCLAY_LIMITS, and a null allocator is
 * malloc. What is set for a thread has no effect on such a kernel, and stays as it is.
 *
 * The struct is copied, so it may go at once. The copy is in 40 bytes of the allocator itself, which no budget counts. All that the kernel has is of
 * its allocator, and comes back to it by bindingclay_free. If the answer is false, all that was taken came back. In memory that processes share the
 * copy has the addresses of the three functions: they are the same in processes that are forked from the one that opened the kernel. */
bool bindingclay_open_with(const bindingclay_limits *limits, const bindingclay_allocator *allocator, void **kernel);

/* Does what bc_shared_open of bindingclay_shared.h does, with an allocator that the kernel keeps, as bindingclay_open_with has it. The front's lock
 * and lists are in its memory too. bc_readv and bc_writev take their buffer of what is set, since they do so without the lock. */
struct bc_shared;
int bc_shared_open_with(const bindingclay_limits *limits, const bindingclay_allocator *allocator, struct bc_shared **shared);

/* ---- Kernels that don't keep theirs ---- */

/* Sets the allocator of all threads that have none of their own. Null is malloc, as at first. It isn't copied. Call this before other threads make
 * calls, and while there is no kernel that takes what is set. */
void bindingclay_set_allocator(const bindingclay_allocator *allocator);

/* Sets the allocator of this thread, and returns the one that it had. Null is the allocator of all threads. It isn't copied. */
const bindingclay_allocator *bindingclay_use_allocator(const bindingclay_allocator *allocator);

#ifdef __cplusplus
}
#endif

#endif
