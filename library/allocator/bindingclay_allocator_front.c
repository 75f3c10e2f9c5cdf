/* A kernel of the front for threads that keeps its allocator. */
#include "bindingclay_allocator_inside.h"

#include "bindingclay_shared.h"

#include <errno.h>

int bc_shared_open_with(const bindingclay_limits *limits, const bindingclay_allocator *allocator, bc_shared **shared)
{
    struct bindingclay_kept *before, *kept = bindingclay_begin_open(allocator, &before);
    int opened = -1;
    if (kept != NULL) {
        opened = bc_shared_open(limits, shared);
        bindingclay_end_open(kept, before);
    }
    if (opened != 0)
        errno = ENOMEM;
    return opened;
}
