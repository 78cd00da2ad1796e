/* Times a concurrent table of the library for C beside a plain table, over 200,000 prefixes with a forwarding table attached. It
 * prints nanoseconds of processor time of the calling thread, the least of interleaved rounds:
 *
 *     bindings/build && gcc -O2 -I bindings/c bench/concurrent.c bindings/out/libyarib.a -pthread -o concurrent && ./concurrent */
#define _POSIX_C_SOURCE 200809L
#include "measured.h"

#include <pthread.h>
#include <stdatomic.h>
#include <yarib.h>

enum { PREFIXES = 200000, ASKED = 1 << 20, CHANGES = 20000, BATCH = 1000, ROUNDS = 7, WAYS = 12 };

static yarib plain = YARIB_EMPTY;
static yarib_concurrent table = YARIB_CONCURRENT_EMPTY;
static yarib_command commands[PREFIXES];
static yarib_reply replies[PREFIXES];
static uint32_t asked[ASKED];
static atomic_int ended;
static unsigned long sum;

static double now(void) { return time_of(CLOCK_THREAD_CPUTIME_ID, 1e9); }

static void *look_up(void *unused)
{
    for (uint32_t k = 0; !ended; k = (k + 1) % ASKED) {
        yarib_route one;
        need(yarib_concurrent_look_up_one(&table, asked[k], &one) == YARIB_DONE);
    }
    return unused;
}

/* A look-up of one address of as many as `mask` says and one. */
static double look_ups(int is_concurrent, uint32_t mask)
{
    double from = now();
    for (uint32_t k = 0; k < ASKED; k++) {
        yarib_route one;
        if (is_concurrent) need(yarib_concurrent_look_up_one(&table, asked[k & mask], &one) == YARIB_DONE);
        else need(yarib_look_up_one(&plain, asked[k & mask], &one) == YARIB_DONE);
        sum += one.via;
    }
    return (now() - from) / ASKED;
}

/* A command that replaces a route, by itself or in batches. */
static double changes(int is_concurrent, size_t batch)
{
    size_t start = draw() % (PREFIXES - CHANGES);
    for (size_t k = start; k < start + CHANGES; k++) commands[k].via = draw();
    double from = now();
    for (size_t k = start; k < start + CHANGES; k += batch) {
        if (batch == 1 && is_concurrent) need(yarib_concurrent_apply(&table, &commands[k], replies) == YARIB_DONE);
        else if (batch == 1) need(yarib_apply(&plain, &commands[k], replies) == YARIB_DONE);
        else if (is_concurrent) need(yarib_concurrent_apply_each(&table, &commands[k], batch, replies, batch) == YARIB_DONE);
        else need(yarib_apply_each(&plain, &commands[k], batch, replies, batch) == YARIB_DONE);
    }
    return (now() - from) / CHANGES;
}

int main(void)
{
    static const char *const names[WAYS / 2] = {"one look-up, in cache", "one look-up, out of cache", "one change",
        "a change in batches of 1,000", "one change beside a reader", "one look-up, again"};
    double least[WAYS];
    pthread_t reader;
    size_t one, both;
    for (int k = 0; k < PREFIXES; k++) {
        uint8_t len = (uint8_t)(draw() % 4 ? 24 : 12 + draw() % 12);
        commands[k] = (yarib_command){.operation = YARIB_ADD, .feed = 1, .base = draw() >> (32 - len) << (32 - len), .len = len,
                                      .hop = YARIB_VIA, .via = draw()};
    }
    for (int k = 0; k < ASKED; k++) asked[k] = commands[draw() % PREFIXES].base | (draw() & 255);
    need(yarib_new(&plain, 1000000, YARIB_PLAIN) == YARIB_DONE && yarib_concurrent_new(&table, 1000000) == YARIB_DONE);
    need(yarib_apply_each(&plain, commands, PREFIXES, replies, PREFIXES) == YARIB_DONE);
    need(yarib_concurrent_apply_each(&table, commands, PREFIXES, replies, PREFIXES) == YARIB_DONE);
    need(yarib_fib_attach(&plain) == YARIB_DONE && yarib_concurrent_fib_attach(&table) == YARIB_DONE);
    for (int k = 0; k < PREFIXES; k++) commands[k].operation = YARIB_REPLACE;
    for (int k = 0; k < WAYS; k++) least[k] = 1e18;
    for (int k = 0; k < ROUNDS * WAYS; k++) {
        int way = k % WAYS, is_concurrent = way % 2;
        double took;
        if (way == 8) {
            ended = 0;
            need(pthread_create(&reader, NULL, look_up, NULL) == 0);
        }
        if (way < 2) took = look_ups(is_concurrent, 15);
        else if (way < 4 || way >= 10) took = look_ups(is_concurrent, ASKED - 1);
        else took = changes(is_concurrent, way == 6 || way == 7 ? BATCH : 1);
        if (way == 9) {
            ended = 1;
            pthread_join(reader, NULL);
        }
        if (took < least[way]) least[way] = took;
    }
    for (int k = 0; k < WAYS; k += 2) printf("%s: %.1f ns plain, %.1f concurrent\n", names[k / 2], least[k], least[k + 1]);
    need(yarib_memory(&plain, &one) == YARIB_DONE && yarib_concurrent_memory(&table, &both) == YARIB_DONE);
    printf("memory: %zu bytes plain, %zu concurrent; sum %lu\n", one, both, sum);
    yarib_free(&plain);
    yarib_concurrent_free(&table);
    return 0;
}
