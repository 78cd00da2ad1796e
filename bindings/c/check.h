/* What each test of the library for C needs. */
#include <stdint.h>
#include <stdio.h>
#include <stdlib.h>
#include <unistd.h>

/* How many comparisons the test made, and its process: a child of it doesn't report them. */
static unsigned long comparisons;
static int counting;

__attribute__((constructor)) static void begin_count(void)
{
    counting = getpid();
}

/* Prints the number of comparisons when the test ends, so that one that was emptied is noticed. */
__attribute__((destructor)) static void print_count(void)
{
    if (getpid() == counting) printf("%lu comparisons\n", comparisons);
}

/* Counts a comparison, and ends the test with a message unless the condition holds. */
#define CHECK(holds) (__atomic_fetch_add(&comparisons, 1, __ATOMIC_RELAXED), \
    (holds) ? (void)0 : (fprintf(stderr, "%s:%d: %s\n", __FILE__, __LINE__, #holds), _Exit(1)))

/* Returns a number that looks random, the same ones in each run. */
static inline uint32_t draw(void)
{
    static uint64_t last = 1;
    last = last * 6364136223846793005u + 1442695040888963407u;
    return (uint32_t)(last >> 32);
}
