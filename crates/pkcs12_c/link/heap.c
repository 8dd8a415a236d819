/* The allocator that the archive of Rattle's compiler calls, in the terms of the C library's. */
#include <stddef.h>
#include <stdint.h>
#include <stdlib.h>

/* Returned in two registers: whether there is memory, and where. */
struct block {
    uint64_t given;
    void *at;
};
static char nothing[16];

static struct block block_at(void *at)
{
    struct block block = {at != NULL, at ? at : nothing};
    return block;
}

struct block rattle_alloc(size_t size, size_t align)
{
    return block_at(malloc(size ? size : align));
}

struct block rattle_realloc(void *at, size_t old, size_t size, size_t align)
{
    (void)old;
    return block_at(realloc(at, size ? size : align));
}

void rattle_dealloc(void *at)
{
    free(at);
}
