/* What the files of allocator/ share. No program includes it. */
#ifndef BINDINGCLAY_ALLOCATOR_INSIDE_H
#define BINDINGCLAY_ALLOCATOR_INSIDE_H

#include "bindingclay_allocator.h"

/* The allocator that a kernel keeps, in memory that it gave itself, and how many blocks are of it. It goes with the last of them. */
struct bindingclay_kept {
    bindingclay_allocator allocator;
    size_t blocks;
};

/* Copies an allocator into memory that it gives. Null is malloc. What the thread takes from then on is of the copy, and *before is what it was of.
 * Null if there is no memory: then nothing changed. */
struct bindingclay_kept *bindingclay_begin_open(const bindingclay_allocator *allocator, struct bindingclay_kept **before);

/* Ends that. If no block is of the copy, it goes. */
void bindingclay_end_open(struct bindingclay_kept *kept, struct bindingclay_kept *before);

#endif
