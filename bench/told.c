/* Compares the time of yarib_apply_changed with that of yarib_apply: for each size, in a plain table of that many routes of two feeds,
 * whose prefixes have the lengths of a full Internet table, it executes random commands, each a withdrawal, a replacement or an
 * insertion, 1,000 by the one call and 1,000 by the other in turn. It prints the nanoseconds of processor time of a command, the median
 * of these thousands, and the ratio:
 *
 *   bindings/build && gcc -O2 -I bindings/c bench/told.c bindings/out/libyarib.a -o told && ./told 1000 100000 1000000 */
#define _POSIX_C_SOURCE 200809L
#include "measured.h"

#include <routes.h>

enum { FEEDS = 2, AT_ONCE = 1000, TURNS = 1000 };

struct prefix {
    uint32_t base;
    uint8_t len;
    uint8_t is_in[FEEDS];
};

static yarib_command commands[AT_ONCE];
static double times[2][TURNS];

/* Returns a random command of a random feed on the prefix that the table isn't to refuse. */
static yarib_command draw_command(struct prefix *prefix)
{
    uint32_t feed = draw() % FEEDS;
    uint8_t *is_in = &prefix->is_in[feed];
    uint32_t operation = !*is_in ? YARIB_ADD : draw() % 2 ? YARIB_REPLACE : YARIB_WITHDRAW;
    *is_in = operation != YARIB_WITHDRAW;
    return put_command(operation, feed + 1, prefix->base, prefix->len, draw() % 100, draw() % 64);
}

/* Executes the commands by one of the calls, and returns the nanoseconds that a command took. */
static double execute(yarib *table, size_t count, int tells)
{
    yarib_reply reply;
    yarib_change change;
    double from = time_of(CLOCK_THREAD_CPUTIME_ID, 1e9);
    if (tells) {
        for (size_t k = 0; k < count; k++) need(yarib_apply_changed(table, &commands[k], &reply, &change) == YARIB_DONE);
    } else {
        for (size_t k = 0; k < count; k++) need(yarib_apply(table, &commands[k], &reply) == YARIB_DONE);
    }
    return (time_of(CLOCK_THREAD_CPUTIME_ID, 1e9) - from) / (double)count;
}

static double median(double *of)
{
    qsort(of, TURNS, sizeof *of, by_number);
    return of[TURNS / 2];
}

/* Fills a table, which has half of the routes that may be in it, as it has after many random commands. */
static void fill(yarib *table, struct prefix *prefixes, size_t count)
{
    need(yarib_new(table, YARIB_MAX_LIMIT, YARIB_PLAIN) == YARIB_DONE);
    for (size_t k = 0; k < count; k++) {
        uint8_t len = draw_full_length();
        prefixes[k] = (struct prefix){.base = draw_base(len), .len = len};
        for (uint32_t feed = 0; feed < FEEDS; feed++) {
            if (draw() % 3 == 0) continue;
            prefixes[k].is_in[feed] = 1;
            commands[0] = put_command(YARIB_ADD, feed + 1, prefixes[k].base, len, draw() % 100, draw() % 64);
            execute(table, 1, 0);
        }
    }
}

int main(int count, char **words)
{
    for (int word = 1; word < count; word++) {
        size_t routes = strtoul(words[word], NULL, 10), prefixes_in = routes * 3 / (2 * FEEDS);
        struct prefix *prefixes = malloc(prefixes_in * sizeof *prefixes);
        yarib table = YARIB_EMPTY;
        need(prefixes);
        fill(&table, prefixes, prefixes_in);
        for (size_t turn = 0; turn < 2 * TURNS; turn++) {
            for (size_t k = 0; k < AT_ONCE; k++) commands[k] = draw_command(&prefixes[draw() % prefixes_in]);
            times[turn % 2][turn / 2] = execute(&table, AT_ONCE, turn % 2);
        }
        double plain = median(times[0]), telling = median(times[1]);
        printf("%8zu routes: apply %.1f ns, apply_changed %.1f ns, ratio %.2f\n", routes, plain, telling, telling / plain);
        yarib_free(&table);
        free(prefixes);
    }
    return 0;
}
