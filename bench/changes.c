/* Times single changes of a followed table: builds a table of ROUTES random prefixes with the lengths of a full Internet table,
 * attaches a forwarding table, and executes CHANGES random commands, each a withdrawal, a replacement or an insertion of one of the
 * prefixes. Then it changes 400 prefixes of each of some short lengths. It prints percentiles in microseconds of the thread's
 * processor time, how many changes took over 2 ms, and the bytes that the table is said to take at the start, after each tenth part, and at the end.
 *
 *   bindings/build && gcc -O2 -I bindings/c bench/changes.c bindings/out/libyarib.a -o changes && ./changes 1000000 3000000 */
#define _POSIX_C_SOURCE 200809L
#include "measured.h"

#include <routes.h>

struct prefix {
    uint32_t base;
    uint8_t len;
    uint8_t is_in;
};

static double now(void) { return time_of(CLOCK_THREAD_CPUTIME_ID, 1e6); }

/* Executes a random command on the prefix, and returns the time that it took. */
static double change(yarib *table, struct prefix *prefix)
{
    uint32_t operation = !prefix->is_in ? YARIB_ADD : draw() % 2 ? YARIB_REPLACE : YARIB_WITHDRAW;
    uint32_t preference = draw() % 100;
    const yarib_command command = put_command(operation, 1, prefix->base, prefix->len, preference, draw() % 64);
    yarib_reply reply;
    double from = now();
    need(yarib_apply(table, &command, &reply) == YARIB_DONE);
    double spent = now() - from;
    if (reply.code == YARIB_ADDED || reply.code == YARIB_EXISTS) prefix->is_in = 1;
    else if (reply.code != YARIB_REPLACED) prefix->is_in = 0;
    return spent;
}

static int by_time(const void *one, const void *other)
{
    float a = *(const float *)one, b = *(const float *)other;
    return (a > b) - (a < b);
}

static void show(const char *name, float *times, size_t count)
{
    static const double parts[] = {0.5, 0.9, 0.99, 0.999, 0.9999};
    qsort(times, count, sizeof *times, by_time);
    printf("%-10s", name);
    for (size_t k = 0; k < sizeof parts / sizeof *parts; k++) printf(" %g%% %.1f", parts[k] * 100, times[(size_t)((double)(count - 1) * parts[k])]);
    size_t long_ones = 0;
    while (long_ones < count && times[count - 1 - long_ones] > 2000) long_ones++;
    printf(" worst %.1f, %zu over 2 ms\n", times[count - 1], long_ones);
}

int main(int count, char **words)
{
    need(count == 3);
    size_t routes = strtoul(words[1], NULL, 10), changes = strtoul(words[2], NULL, 10), bytes;
    struct prefix *prefixes = malloc(routes * sizeof *prefixes);
    float *times = malloc((changes + 400) * sizeof *times);
    yarib table = YARIB_EMPTY;
    need(prefixes && times && yarib_new(&table, YARIB_MAX_LIMIT, YARIB_PLAIN) == YARIB_DONE);
    for (size_t k = 0; k < routes; k++) {
        prefixes[k].len = draw_full_length();
        prefixes[k].base = draw_base(prefixes[k].len);
        prefixes[k].is_in = 0;
        change(&table, &prefixes[k]);
    }
    double from = now();
    need(yarib_fib_attach(&table) == YARIB_DONE && yarib_memory(&table, &bytes) == YARIB_DONE);
    printf("attach %.0f ms, %zu bytes\n", (now() - from) / 1e3, bytes);
    for (size_t k = 0; k < changes; k++) {
        times[k] = (float)change(&table, &prefixes[draw() % routes]);
        if ((k + 1) % (changes / 10) == 0) {
            need(yarib_memory(&table, &bytes) == YARIB_DONE);
            printf("%zu changes, %zu bytes\n", k + 1, bytes);
        }
    }
    show("all", times, changes);
    for (uint8_t len = 0; len <= 24; len += 4) {
        size_t tried = len == 0 ? 6 : len == 4 ? 60 : 400;
        for (size_t k = 0; k < tried; k++) {
            struct prefix prefix = {.base = draw_base(len), .len = len};
            times[k] = (float)change(&table, &prefix);
            if (prefix.is_in && k % 2) change(&table, &prefix);
        }
        char name[8];
        snprintf(name, sizeof name, "/%d", len);
        show(name, times, tried);
    }
    need(yarib_memory(&table, &bytes) == YARIB_DONE);
    printf("at the end %zu bytes\n", bytes);
    yarib_free(&table);
    free(prefixes);
    free(times);
    return 0;
}
