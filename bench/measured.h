/* What the benches in C share: a check, random numbers, times, and prefixes as in a full Internet table. */
#ifndef YARIB_BENCH_MEASURED_H
#define YARIB_BENCH_MEASURED_H

#include <stdint.h>
#include <stdio.h>
#include <stdlib.h>
#include <time.h>

/* Ends the bench with a message unless the condition holds. */
#define need(...) ((__VA_ARGS__) ? (void)0 : (fprintf(stderr, "%s:%d: a call failed\n", __FILE__, __LINE__), exit(1)))

/* Returns a number that looks random, the same ones in each run. */
static inline uint32_t draw(void)
{
    static uint64_t last = 7;
    last = last * 6364136223846793005u + 1442695040888963407u;
    return (uint32_t)(last >> 32);
}

/* Returns the time of a clock, in units of which a second has that many. */
static inline double time_of(clockid_t clock, double a_second)
{
    struct timespec time;
    clock_gettime(clock, &time);
    return ((double)time.tv_sec + (double)time.tv_nsec / 1e9) * a_second;
}

/* Orders numbers for qsort. */
static inline int by_number(const void *one, const void *other)
{
    double first = *(const double *)one, second = *(const double *)other;
    return first < second ? -1 : first > second;
}

/* Sorts the times of calls, and prints the time that each of some percentages of them took at most. */
static inline void print_times(const char *name, double *times, size_t count)
{
    static const double parts[] = {50, 99, 99.9, 99.99};
    qsort(times, count, sizeof *times, by_number);
    printf("%s:", name);
    for (size_t k = 0; k < sizeof parts / sizeof *parts; k++) printf(" %g %% %.1f,", parts[k], times[(size_t)((double)count / 100 * parts[k])]);
    printf(" most %.1f\n", times[count - 1]);
}

/* Draws a length. How many prefixes have each is as in a full table, in thousandths. */
static inline uint8_t draw_full_length(void)
{
    static const struct { uint16_t upto; uint8_t len; } parts[] = {{600, 24}, {690, 23}, {800, 22}, {850, 21}, {897, 20}, {922, 19},
        {936, 18}, {944, 17}, {958, 16}, {960, 15}, {962, 14}, {963, 13}, {964, 12}, {976, 32}, {984, 29}, {990, 28}, {1000, 25}};
    uint32_t drawn = draw() % 1000;
    for (size_t k = 0; ; k++) if (drawn < parts[k].upto) return parts[k].len;
}

/* Draws the base of a prefix of this length, of the unicast addresses 1.0.0.0 to 223.255.255.255. */
static inline uint32_t draw_base(uint8_t len)
{
    uint32_t address = 0x01000000 + (uint32_t)((uint64_t)draw() * 0xdf000000 >> 32);
    return len == 0 ? 0 : address & 0xffffffffu << (32 - len);
}

#endif
