/* A purge of few routes takes about as long as what it removes, however large the table is, whether or not a forwarding table is
 * attached. 600,000 prefixes are of feed 1. Feed 2 has 10 of them, which it has added before the others, among them or after them.
 * Each purge is the best of five, so that other programs don't count. */
#define _POSIX_C_SOURCE 200809L
#include "check.h"
#include "routes.h"

#include <time.h>

enum { ROUTES = 600000, FEW = 10, TRIES = 5 };

/* In milliseconds of the thread's processor time. A walk over the table takes at least 15. */
static const double MOST = 3;

static double now(void)
{
    struct timespec time;
    CHECK(clock_gettime(CLOCK_THREAD_CPUTIME_ID, &time) == 0);
    return (double)time.tv_sec * 1e3 + (double)time.tv_nsec / 1e6;
}

static yarib_reply applied(yarib *table, uint32_t operation, uint32_t feed, uint32_t k)
{
    /* From 1.0.0.0 to 218.0.0.0, a /24 in every 6,089 addresses. */
    const yarib_command command = put_command(operation, feed, (0x01000000 + k * 6089) & 0xffffff00, 24, feed == 1, k);
    yarib_reply reply;
    CHECK(yarib_apply(table, &command, &reply) == YARIB_DONE);
    return reply;
}

static void add_few(yarib *table)
{
    for (uint32_t k = 0; k < FEW; k++) CHECK(applied(table, YARIB_ADD, 2, k * (ROUTES / FEW) + ROUTES / FEW - 1).code == YARIB_ADDED);
}

/* Purges feed 2, and returns the time that it took. */
static double purge(yarib *table)
{
    double from = now();
    yarib_reply reply = applied(table, YARIB_PURGE, 2, 0);
    double spent = now() - from;
    CHECK(reply.code == YARIB_PURGED && reply.count == FEW);
    return spent;
}

int main(void)
{
    yarib table = YARIB_EMPTY;
    CHECK(yarib_new(&table, ROUTES, YARIB_PLAIN) == YARIB_DONE);
    add_few(&table);
    for (uint32_t k = 0; k < ROUTES; k++) CHECK(applied(&table, YARIB_ADD, 1, k).code == YARIB_ADDED);
    for (int attached = 0; attached < 2; attached++) {
        double best = 1e9;
        if (attached) CHECK(yarib_fib_attach(&table) == YARIB_DONE);
        for (int k = 0; k < TRIES; k++) {
            if (attached || k) add_few(&table);
            double spent = purge(&table);
            if (spent < best) best = spent;
        }
        if (best > MOST) fprintf(stderr, "%s: %.3f ms\n", attached ? "attached" : "not attached", best);
        CHECK(best <= MOST);
    }
    yarib_free(&table);
    return 0;
}
