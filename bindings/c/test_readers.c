/* Threads that read a concurrent table and one that changes it all the time. Each call of a reader is answered, from one published
 * table, no reader finds an earlier table than before, and each finds at least the table that was published when it began.
 *
 * Table k has routes to PREFIXES prefixes, all with the next hop k. A table with an odd number also has a longer prefix in each
 * of them. */
#define _POSIX_C_SOURCE 200809L
#include "check.h"

#include <pthread.h>
#include <sched.h>
#include <stdatomic.h>
#include <unistd.h>
#include <yarib.h>

/* The first TELLING ways to read show which table it is. */
enum { READERS = 4, CHANGES = 200, PREFIXES = 64, CROWD = 400, TELLING = 9, WAYS = 11 };

static yarib_concurrent table = YARIB_CONCURRENT_EMPTY, nothing = YARIB_CONCURRENT_EMPTY;
static atomic_int ended;
static atomic_uint published;
static atomic_long answered;

static yarib_command command(uint32_t operation, uint32_t k, uint8_t len, uint32_t via)
{
    return (yarib_command){.operation = operation, .feed = 1, .base = k << 24, .len = len, .hop = YARIB_VIA, .via = via};
}

/* Publishes table k by a table that was made aside. */
static void publish_aside(uint32_t k)
{
    yarib aside = YARIB_INIT;
    yarib_reply reply;
    CHECK(yarib_new(&aside, 2 * PREFIXES, YARIB_PLAIN) == YARIB_DONE);
    for (uint32_t j = 0; j < (k % 2 ? 2 : 1) * PREFIXES; j++) {
        yarib_command add = command(YARIB_ADD, j % PREFIXES, j < PREFIXES ? 8 : 16, k);
        CHECK(yarib_apply(&aside, &add, &reply) == YARIB_DONE && reply.code == YARIB_ADDED);
    }
    CHECK(yarib_concurrent_replace(&table, 2 * PREFIXES, &aside) == YARIB_DONE && yarib_free(&aside) == YARIB_DONE);
}

/* Publishes table k by changes of the one before. */
static void publish_changes(uint32_t k)
{
    yarib_command batch[2 * PREFIXES];
    yarib_reply replies[2 * PREFIXES];
    for (uint32_t j = 0; j < PREFIXES; j++) {
        batch[2 * j] = command(k == 0 ? YARIB_ADD : YARIB_REPLACE, j, 8, k);
        batch[2 * j + 1] = command(k % 2 ? YARIB_ADD : YARIB_WITHDRAW, j, 16, k);
    }
    CHECK(yarib_concurrent_apply_each(&table, batch, 2 * PREFIXES, replies, 2 * PREFIXES) == YARIB_DONE);
    for (uint32_t j = 0; k > 0 && j < PREFIXES; j++) {
        CHECK(replies[2 * j].code == YARIB_REPLACED);
        CHECK(replies[2 * j + 1].code == (k % 2 ? YARIB_ADDED : YARIB_WITHDRAWN));
    }
}

static void publish(uint32_t k)
{
    if (k % 20 == 7) publish_aside(k);
    else publish_changes(k);
    atomic_store(&published, k);
}

/* The answer is the best route of this address in table k. */
static void check_answer(const yarib_route *answer, uint32_t address, uint32_t k)
{
    CHECK(answer->hop == YARIB_VIA && answer->via == k && answer->base == (address & 0xff000000));
    CHECK(answer->len == (k % 2 && (address & 0xff0000) == 0 ? 16 : 8));
}

/* Reads in one way, compares all that was found with one table, and returns the number of that table. */
static uint32_t read_once(int way)
{
    static __thread uint32_t asked[PREFIXES], hops[PREFIXES];
    static __thread yarib_route found[2 * PREFIXES + 1];
    const yarib_selection within = {.part = YARIB_WITHIN, .base = 5u << 24, .len = 8};
    const yarib_route from = {0};
    yarib_difference difference;
    uint32_t k = 0;
    size_t total, right;
    for (uint32_t j = 0; j < PREFIXES; j++) asked[j] = j << 24 | (j % 3 == 0 ? 0x010000 : 7);
    if (way == 0) {
        CHECK(yarib_concurrent_look_up_one(&table, asked[5], found) == YARIB_DONE);
        check_answer(found, asked[5], k = found[0].via);
    } else if (way == 1) {
        CHECK(yarib_concurrent_look_up(&table, asked, PREFIXES, found, PREFIXES) == YARIB_DONE);
        k = found[0].via;
        for (uint32_t j = 0; j < PREFIXES; j++) check_answer(&found[j], asked[j], k);
    } else if (way == 2) {
        CHECK(yarib_concurrent_hops(&table, asked, PREFIXES, UINT32_MAX, UINT32_MAX, hops, PREFIXES) == YARIB_DONE);
        k = hops[0];
        for (uint32_t j = 0; j < PREFIXES; j++) CHECK(hops[j] == k);
    } else if (way == 3 || way == 4 || way == 7) {
        yarib copy = YARIB_INIT;
        if (way == 3) CHECK(yarib_concurrent_routes(&table, 0, found, 2 * PREFIXES + 1, &total) == YARIB_DONE);
        if (way == 4) CHECK(yarib_concurrent_routes_from(&table, &from, found, 2 * PREFIXES + 1, &total) == YARIB_DONE);
        if (way == 7) CHECK(yarib_concurrent_copy(&table, 2 * PREFIXES, &copy) == YARIB_DONE);
        if (way == 7) CHECK(yarib_routes(&copy, 0, found, 2 * PREFIXES + 1, &total) == YARIB_DONE && yarib_free(&copy) == YARIB_DONE);
        k = found[0].via;
        right = k % 2 ? 2 * PREFIXES : PREFIXES;
        CHECK(total == right);
        for (uint32_t j = 0; j < right; j++) {
            uint32_t lower = k % 2 ? j % 2 : 0, base = (k % 2 ? j / 2 : j) << 24;
            CHECK(found[j].via == k && found[j].base == base && found[j].len == (lower ? 16 : 8));
        }
    } else if (way == 5 || way == 6) {
        if (way == 5) CHECK(yarib_concurrent_look_up_all(&table, 5u << 24, 0, found, 3, &total) == YARIB_DONE);
        else CHECK(yarib_concurrent_select(&table, &within, 0, found, 3, &total) == YARIB_DONE);
        k = found[0].via;
        right = k % 2 ? 2 : 1;
        CHECK(total == right && found[right - 1].via == k);
    } else if (way == 8) {
        CHECK(yarib_concurrent_first_difference(&table, &nothing, 1, 5u << 24 | 7, &difference) == YARIB_DONE);
        check_answer(&difference.before, 5u << 24 | 7, k = difference.before.via);
        CHECK(difference.last == (k % 2 ? 0x0500ffffu : 0x05ffffffu) && difference.after.hop == YARIB_NO_ROUTE);
    } else if (way == 9) {
        CHECK(yarib_concurrent_count(&table, &total) == YARIB_DONE && (total == PREFIXES || total == 2 * PREFIXES));
    } else {
        CHECK(yarib_concurrent_memory(&table, &total) == YARIB_DONE && total >= 2 * 48 * PREFIXES);
    }
    atomic_fetch_add(&answered, 1);
    return k;
}

static void *reader(void *unused)
{
    uint32_t last = 0;
    for (int way = 0; !atomic_load(&ended); way = (way + 1) % WAYS) {
        uint32_t least = atomic_load(&published), k = read_once(way);
        if (way < TELLING) {
            CHECK(k >= least && k >= last && k <= CHANGES);
            last = k;
        }
    }
    return unused;
}

/* With forwarding tables there are fewer changes: each writes 16 MB of each of them. */
static void round_of(int is_attached)
{
    const uint32_t changes = is_attached ? CHANGES / 5 : CHANGES;
    pthread_t threads[READERS];
    atomic_store(&ended, 0);
    CHECK(yarib_concurrent_new(&table, 2 * PREFIXES) == YARIB_DONE);
    publish(0);
    if (is_attached) CHECK(yarib_concurrent_fib_attach(&table) == YARIB_DONE);
    for (int k = 0; k < READERS; k++) CHECK(pthread_create(&threads[k], NULL, reader, NULL) == 0);
    for (uint32_t k = 1; k <= changes; k++) publish(k);
    atomic_store(&ended, 1);
    for (int k = 0; k < READERS; k++) pthread_join(threads[k], NULL);
    for (int way = 0; way < TELLING; way++) CHECK(read_once(way) == changes);
}

static void *visitor(void *unused)
{
    uint32_t last = 0;
    for (int k = 0; k < 2 * WAYS; k++) {
        uint32_t least = atomic_load(&published), found = read_once(k % WAYS);
        CHECK(k % WAYS >= TELLING || (found >= least && found >= last));
        if (k % WAYS < TELLING) last = found;
        sched_yield();
    }
    return unused;
}

/* More threads than have a place, which come and go. */
static void crowd(void)
{
    static pthread_t threads[CROWD];
    uint32_t next = 0;
    CHECK(yarib_concurrent_new(&table, 2 * PREFIXES) == YARIB_DONE);
    publish(next);
    for (int round = 0; round < 3; round++) {
        for (int k = 0; k < CROWD; k++) {
            CHECK(pthread_create(&threads[k], NULL, visitor, NULL) == 0);
            if (k % 20 == 0) publish(++next);
        }
        for (int k = 0; k < 20; k++) publish(++next);
        for (int k = 0; k < CROWD; k++) pthread_join(threads[k], NULL);
    }
}

static void *until_freed(void *unused)
{
    yarib_route found;
    enum yarib_status status;
    while ((status = yarib_concurrent_look_up_one(&table, 5u << 24, &found)) == YARIB_DONE) CHECK(found.base == 5u << 24);
    CHECK(status == YARIB_NOTHING);
    return unused;
}

/* A table is replaced and freed under its readers. */
static void free_early(void)
{
    pthread_t threads[READERS];
    for (int round = 0; round < 20; round++) {
        CHECK(yarib_concurrent_new(&table, 2 * PREFIXES) == YARIB_DONE);
        publish(0);
        for (int k = 0; k < READERS; k++) CHECK(pthread_create(&threads[k], NULL, until_freed, NULL) == 0);
        for (uint32_t k = 1; k < 20; k++) publish(k);
        CHECK(yarib_concurrent_free(&table) == YARIB_DONE && table.inside == NULL);
        for (int k = 0; k < READERS; k++) pthread_join(threads[k], NULL);
    }
}

int main(void)
{
    alarm(600);
    CHECK(yarib_concurrent_new(&nothing, 1) == YARIB_DONE);
    crowd();
    for (int k = 0; k < 3; k++) round_of(k == 2);
    free_early();
    CHECK(yarib_concurrent_free(&table) == YARIB_DONE && yarib_concurrent_free(&nothing) == YARIB_DONE);
    printf("%ld answered\n", (long)answered);
    return 0;
}
