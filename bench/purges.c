/* Times purges: builds a table of ROUTES random prefixes with the lengths of a full Internet table. Another feed then adds best
 * routes to COUNT random ones of them, and purges them, three times for each count from 0 to a tenth of ROUTES; then the same with a
 * forwarding table attached. It prints the milliseconds of the thread's processor time of each purge, and the nanoseconds of an
 * insertion when the table is built.
 *
 *   bindings/build && gcc -O2 -I bindings/c bench/purges.c bindings/out/libyarib.a -o purges && ./purges 1000000 */
#define _POSIX_C_SOURCE 200809L
#include "measured.h"

#include <routes.h>

struct prefix {
    uint32_t base;
    uint8_t len;
};

static double now(void) { return time_of(CLOCK_THREAD_CPUTIME_ID, 1e3); }

static yarib_reply applied(yarib *table, uint32_t operation, uint32_t feed, struct prefix prefix, uint32_t preference)
{
    const yarib_command command = put_command(operation, feed, prefix.base, prefix.len, preference, draw() % 64);
    yarib_reply reply;
    need(yarib_apply(table, &command, &reply) == YARIB_DONE);
    return reply;
}

/* Returns the time of a purge of this many routes. */
static double purge(yarib *table, const struct prefix *prefixes, size_t routes, size_t count)
{
    size_t added = 0;
    while (added < count) added += applied(table, YARIB_ADD, 2, prefixes[draw() % routes], 0).code == YARIB_ADDED;
    double from = now();
    yarib_reply reply = applied(table, YARIB_PURGE, 2, prefixes[0], 0);
    double spent = now() - from;
    need(reply.code == YARIB_PURGED && reply.count == count);
    return spent;
}

int main(int count, char **words)
{
    need(count == 2);
    size_t routes = strtoul(words[1], NULL, 10);
    struct prefix *prefixes = malloc(routes * sizeof *prefixes);
    yarib table = YARIB_EMPTY;
    need(routes >= 10 && prefixes && yarib_new(&table, YARIB_MAX_LIMIT, YARIB_PLAIN) == YARIB_DONE);
    for (size_t k = 0; k < routes; k++) {
        prefixes[k].len = draw_full_length();
        prefixes[k].base = draw_base(prefixes[k].len);
    }
    double from = now();
    for (size_t k = 0; k < routes; k++) applied(&table, YARIB_ADD, 1, prefixes[k], 1);
    printf("insertion %.1f ns\n", (now() - from) * 1e6 / (double)routes);
    for (int attached = 0; attached < 2; attached++) {
        if (attached) need(yarib_fib_attach(&table) == YARIB_DONE);
        for (size_t few = 0; few <= routes / 10; few = few ? few * 10 : 10) {
            printf("%s, %zu routes:", attached ? "attached" : "not attached", few);
            for (int k = 0; k < 3; k++) printf(" %.3f", purge(&table, prefixes, routes, few));
            printf("\n");
        }
    }
    yarib_free(&table);
    free(prefixes);
    return 0;
}
