/* Times each of 200,000 changes of a concurrent table of 1,000,000 routes with a forwarding table attached, in no other thread's
 * presence. The lengths of the prefixes are about those of a full Internet table; a third of the changes each withdraws a route, adds it
 * again, or gives one another router. It prints the microseconds of processor time and of a clock that most changes take at most:
 *
 *     bindings/build && gcc -O2 -I bindings/c bench/latency.c bindings/out/libyarib.a -pthread -o latency && ./latency */
#define _POSIX_C_SOURCE 200809L
#include "measured.h"

#include <yarib.h>

enum { ROUTES = 1000000, CHANGES = 200000 };

/* Of 100,000 prefixes, how many have each length. */
static const uint32_t shares[] = {[8] = 2, [9] = 2, [10] = 4, [11] = 11, [12] = 32, [13] = 62, [14] = 125, [15] = 215, [16] = 1400,
    [17] = 850, [18] = 1450, [19] = 2650, [20] = 4650, [21] = 5400, [22] = 11700, [23] = 10400, [24] = 61047};

static yarib_concurrent table = YARIB_CONCURRENT_INIT;
static yarib_command routes[ROUTES];
static double processor[CHANGES], clock_time[CHANGES];

static uint8_t draw_length(void)
{
    uint32_t drawn = draw() % 100000;
    uint8_t length = 8;
    for (; drawn >= shares[length]; length++) drawn -= shares[length];
    return length;
}

static double now(clockid_t which) { return time_of(which, 1e6); }

/* Fills the table with routes to random prefixes. */
static void fill(void)
{
    yarib_reply reply;
    need(yarib_concurrent_new(&table, ROUTES) == YARIB_DONE);
    for (uint32_t k = 0; k < ROUTES;) {
        uint8_t length = draw_length();
        yarib_command add = {.operation = YARIB_ADD, .feed = 1, .base = draw() >> (32 - length) << (32 - length), .len = length,
            .hop = YARIB_VIA, .via = draw() % 64};
        need(yarib_concurrent_apply(&table, &add, &reply) == YARIB_DONE);
        if (reply.code == YARIB_ADDED) routes[k++] = add;
    }
    need(yarib_concurrent_fib_attach(&table) == YARIB_DONE);
}

int main(void)
{
    yarib_command *chosen = routes;
    yarib_reply reply;
    fill();
    for (int k = 0; k < CHANGES; k++) {
        /* What is withdrawn is added again by the next change. */
        if (k % 3 != 1) chosen = &routes[draw() % ROUTES];
        yarib_command change = *chosen;
        change.operation = k % 3 == 0 ? YARIB_WITHDRAW : k % 3 == 1 ? YARIB_ADD : YARIB_REPLACE;
        if (k % 3 == 2) change.via = chosen->via = draw() % 64;
        double began = now(CLOCK_MONOTONIC), spent = now(CLOCK_THREAD_CPUTIME_ID);
        need(yarib_concurrent_apply(&table, &change, &reply) == YARIB_DONE);
        processor[k] = now(CLOCK_THREAD_CPUTIME_ID) - spent;
        clock_time[k] = now(CLOCK_MONOTONIC) - began;
        need(reply.code == (k % 3 == 0 ? YARIB_WITHDRAWN : k % 3 == 1 ? YARIB_ADDED : YARIB_REPLACED));
    }
    print_times("processor time", processor, CHANGES);
    print_times("clock", clock_time, CHANGES);
    return yarib_concurrent_free(&table) == YARIB_DONE ? 0 : 1;
}
