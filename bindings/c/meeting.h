/* A call that a test makes from inside another one, during that thread's next call for memory. */
#include <stddef.h>

static __thread void (*inside)(void);

/* Makes this call, once. */
static inline void meet(void)
{
    void (*call)(void) = inside;
    inside = NULL;
    if (call) call();
}
