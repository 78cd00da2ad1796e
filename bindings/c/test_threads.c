/* Four threads that read one handle and one that changes it. Each call is right or busy, and at the end nothing is lost. The next hop
 * to 10.0.0.0/8 goes up with each change, so no reader sees it go down. */
#define _POSIX_C_SOURCE 200809L
#include "check.h"

#include <pthread.h>
#include <sched.h>
#include <stdatomic.h>
#include <yarib.h>

enum { READERS = 4, CHANGES = 2000, ROUTES = 300, CROWD = 400 };

static yarib table = YARIB_EMPTY;
static atomic_int ended;
static atomic_long answered, busy;

static yarib_command add(uint32_t feed, uint32_t base, uint8_t len, uint32_t via)
{
    return (yarib_command){.operation = YARIB_ADD, .feed = feed, .base = base, .len = len, .hop = YARIB_VIA, .via = via};
}

/* Returns true if the status isn't busy; any other than done is a fault. */
static int is_done(enum yarib_status status)
{
    CHECK(status == YARIB_DONE || status == YARIB_BUSY);
    atomic_fetch_add(status == YARIB_DONE ? &answered : &busy, 1);
    return status == YARIB_DONE;
}

/* Queries in each way. `last` is the highest next hop seen. */
static void read_once(int way, uint32_t *last)
{
    static const uint32_t asked[] = {0x0a010203, 0x0b000001, 0xc0000200};
    const yarib_selection all = {.part = YARIB_EXACT, .base = 10u << 24, .len = 8};
    const yarib_route place = {.base = 10u << 24, .len = 8};
    yarib_route found[3] = {{0}};
    uint32_t hops[3] = {0};
    size_t total = 0;
    int done = 0;
    if (way == 0) done = is_done(yarib_look_up_one(&table, asked[0], found));
    if (way == 1) done = is_done(yarib_look_up(&table, asked, 3, found, 3));
    if (way == 1 && done) CHECK(found[1].hop == YARIB_NO_ROUTE && found[2].via == 9 && found[2].len == 24);
    if (way == 2) done = is_done(yarib_look_up_all(&table, asked[0], 0, found, 1, &total));
    if (way == 3) done = is_done(yarib_select(&table, &all, 0, found, 1, &total));
    if (way == 4) done = is_done(yarib_routes_from(&table, &place, found, 1, &total));
    if (way == 5 && is_done(yarib_hops(&table, asked, 3, 0, 1, hops, 3))) {
        CHECK(hops[1] == 0 && hops[2] == 9);
        found[0].via = hops[0];
        done = 1;
    }
    if (way == 6 && is_done(yarib_count(&table, &total))) CHECK(total == ROUTES + 2);
    if (way == 7 && is_done(yarib_memory(&table, &total))) CHECK(total >= 62 * ROUTES);
    if (!done) return;
    CHECK(found[0].via >= *last && found[0].via <= CHANGES);
    *last = found[0].via;
}

static void *reader(void *unused)
{
    uint32_t last = 0;
    for (int way = 0; !atomic_load(&ended); way = (way + 1) % 8) {
        read_once(way, &last);
        if (way == 7) sched_yield();
    }
    return unused;
}

static void change_all(void)
{
    for (uint32_t k = 1; k <= CHANGES; k++) {
        yarib_command command = add(1, 10u << 24, 8, k);
        yarib_reply reply;
        command.operation = YARIB_REPLACE;
        while (!is_done(yarib_apply(&table, &command, &reply))) sched_yield();
        CHECK(reply.code == YARIB_REPLACED);
    }
}

static void round_of(int is_followed)
{
    pthread_t threads[READERS];
    uint32_t last = CHANGES;
    size_t total;
    atomic_store(&ended, 0);
    CHECK(yarib_new(&table, 1000, YARIB_PLAIN) == YARIB_DONE);
    for (uint32_t k = 0; k < ROUTES + 2; k++) {
        yarib_command one = k < ROUTES ? add(2, (172u << 24) + (k << 8), 24, k) : add(1, 10u << 24, 8, 0);
        yarib_reply reply;
        if (k == ROUTES + 1) one = add(1, 0xc0000200, 24, 9);
        CHECK(yarib_apply(&table, &one, &reply) == YARIB_DONE && reply.code == YARIB_ADDED);
    }
    if (is_followed) CHECK(yarib_fib_attach(&table) == YARIB_DONE);
    for (int k = 0; k < READERS; k++) CHECK(pthread_create(&threads[k], NULL, reader, NULL) == 0);
    change_all();
    atomic_store(&ended, 1);
    for (int k = 0; k < READERS; k++) pthread_join(threads[k], NULL);
    CHECK(yarib_count(&table, &total) == YARIB_DONE && total == ROUTES + 2);
    for (int way = 0; way < 8; way++) read_once(way, &last);
    CHECK(yarib_free(&table) == YARIB_DONE && table.inside == NULL);
}

static void *visitor(void *unused)
{
    uint32_t last = 0;
    for (int k = 0; k < 16; k++) read_once(k % 8, &last);
    return unused;
}

/* More threads than have a place, which come and go. */
static void crowd(void)
{
    static pthread_t threads[CROWD];
    yarib_command command = add(1, 10u << 24, 8, 0), other = add(1, 0xc0000200, 24, 9);
    yarib_reply reply;
    CHECK(yarib_new(&table, 1000, YARIB_PLAIN) == YARIB_DONE && yarib_apply(&table, &command, &reply) == YARIB_DONE);
    CHECK(yarib_apply(&table, &other, &reply) == YARIB_DONE);
    for (uint32_t k = 0; k < ROUTES; k++) {
        other = add(2, (172u << 24) + (k << 8), 24, k);
        CHECK(yarib_apply(&table, &other, &reply) == YARIB_DONE);
    }
    command.operation = YARIB_REPLACE;
    for (int round = 0; round < 3; round++) {
        for (int k = 0; k < CROWD; k++) CHECK(pthread_create(&threads[k], NULL, visitor, NULL) == 0);
        command.via = (uint32_t)round;
        while (!is_done(yarib_apply(&table, &command, &reply))) sched_yield();
        for (int k = 0; k < CROWD; k++) pthread_join(threads[k], NULL);
    }
    CHECK(yarib_free(&table) == YARIB_DONE && table.inside == NULL);
}

int main(void)
{
    crowd();
    for (int k = 0; k < 3; k++) round_of(k == 2);
    printf("%ld answered, %ld busy\n", (long)answered, (long)busy);
    return 0;
}
