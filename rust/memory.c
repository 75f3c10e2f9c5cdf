/* Memory for the library from malloc, realloc and free. A request of no bytes is one of as many as it is to be aligned to. */
#include <stdbool.h>
#include <stddef.h>
#include <stdlib.h>

typedef struct {
    bool found;
    void *pointer;
} tried;

tried rattle_alloc(size_t size, size_t align)
{
    void *block = malloc(size == 0 ? align : size);
    return (tried){block != NULL, block};
}

tried rattle_realloc(void *block, size_t kept, size_t size, size_t align)
{
    (void)kept;
    void *moved = realloc(block, size == 0 ? align : size);
    return (tried){moved != NULL, moved};
}

void rattle_dealloc(void *block)
{
    free(block);
}
