/* The names that three calls had in version 0.1, which no header declares. Programs that were linked then call them: each is exported,
 * and is the same function as the one that has its new name. A name that isn't exported is a null pointer here. */
#include "check.h"
#include <yarib.h>

enum yarib_status yarib_forward(const yarib *table, yarib *forwarding) __attribute__((weak));
enum yarib_status yarib_share(const yarib *forwarding, yarib *other) __attribute__((weak));
enum yarib_status yarib_follow(yarib *table) __attribute__((weak));

int main(void)
{
    CHECK(yarib_forward == yarib_fib_new);
    CHECK(yarib_share == yarib_fib_clone);
    CHECK(yarib_follow == yarib_fib_attach);
    return 0;
}
