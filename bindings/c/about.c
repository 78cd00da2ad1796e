/* What the library says of itself, and the test of the processor. None of this is proved.
 *
 * bindings/build defines YARIB_BUILD: the sum of the sources, and the logic that proves them. */
#include "yarib.h"

#include <cpuid.h>
#include <stdbool.h>
#include <unistd.h>

#ifndef YARIB_BUILD
#define YARIB_BUILD "sources unknown"
#endif

const char *yarib_version(void)
{
    return YARIB_VERSION;
}

const char *yarib_build(void)
{
    return YARIB_BUILD;
}

const char *yarib_status_text(enum yarib_status status)
{
    static const char *const texts[] = {"done", "nothing", "bad number", "bad command", "no memory", "bad size", "none left",
        "bad text", "bad length", "bad bits", "wrong kind", "busy", "bad file", "not added", "no barrier", "forked"};
    return (size_t)status < sizeof texts / sizeof *texts ? texts[status] : "unknown status";
}

/* Returns true if the processor has what the compiler of the proved code may use: x86-64-v2. */
static bool has_instructions(void)
{
    const unsigned needed = bit_SSE3 | bit_SSSE3 | bit_CMPXCHG16B | bit_SSE4_1 | bit_SSE4_2 | bit_POPCNT;
    unsigned eax, ebx, ecx, edx;
    return __get_cpuid(1, &eax, &ebx, &ecx, &edx) && (ecx & needed) == needed;
}

/* Ends the program with a message instead of an illegal instruction later, when the library is loaded. */
__attribute__((constructor)) static void check_processor(void)
{
    static const char text[] = "yarib: this processor is too old for the library, which needs x86-64-v2 (SSE4.2 and POPCNT)\n";
    if (has_instructions()) return;
    (void)!write(STDERR_FILENO, text, sizeof text - 1);
    _exit(127);
}
