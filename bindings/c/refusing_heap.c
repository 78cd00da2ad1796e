/* Instead of the heap's object: the call of this number finds no memory, and later calls do. */
#include "own_heap.h"
#include "refusing_heap.h"

#include <stdlib.h>
#include <string.h>

long refused_call;
static char nothing;

static struct tried tried(void *block)
{
    return (struct tried){block != NULL, block != NULL ? block : &nothing};
}

static bool is_refused(void)
{
    return refused_call > 0 && --refused_call == 0;
}

struct tried rattle_alloc(size_t size, size_t alignment)
{
    (void)alignment;
    return tried(is_refused() ? NULL : malloc(size ? size : 1));
}

/* Only the first `kept` bytes stay, as of a block that moves. */
struct tried rattle_realloc(void *block, size_t kept, size_t size, size_t alignment)
{
    struct tried made = rattle_alloc(size, alignment);
    if (!made.ok) return made;
    memcpy(made.block, block, kept);
    free(block);
    return made;
}

void rattle_dealloc(void *block)
{
    free(block);
}
