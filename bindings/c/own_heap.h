/* The library's calls for memory, which a test defines in place of the heap's object. A refusal isn't `ok`. */
#include <stdbool.h>
#include <stddef.h>

struct tried {
    bool ok;
    void *block;
};

struct tried rattle_alloc(size_t size, size_t alignment);
struct tried rattle_realloc(void *block, size_t kept, size_t size, size_t alignment);
void rattle_dealloc(void *block);
