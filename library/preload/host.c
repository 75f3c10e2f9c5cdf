/* The host's own calls, by dlsym. */
#include "preload.h"

#include <dlfcn.h>

static struct host calls;
static atomic_bool are_known;

/* A pointer to a function, as dlsym gives it. */
#define LOOK_UP(name) *(void **)(void *)&calls.name = dlsym(RTLD_NEXT, #name);

const struct host *host(void)
{
    if (!atomic_load_explicit(&are_known, memory_order_acquire)) {
        /* threads that look them up at once find the same */
        HOST_CALLS(LOOK_UP)
        atomic_store_explicit(&are_known, true, memory_order_release);
    }
    return &calls;
}
