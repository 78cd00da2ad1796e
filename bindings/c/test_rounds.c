/* A followed table uses the memory again that its changes leave unused. No clause limits this memory. The table here has a block for
 * each of 40,000 host routes, so a round of marking takes about 13,000 changes of them: after 130,000 changes the memory stays the
 * same during all that follow, to a fiftieth. A rebuild in between would change it. The forwarding table then answers as a new one
 * does, and takes at most twice its memory. A purge of few routes, or of none, doesn't rebuild it either, while a purge of many routes
 * does. An empty table gives memory back. It prints the sizes. */
#include "check.h"
#include "routes.h"

#include <string.h>

enum { PREFIXES = 60000, HOSTS = 40000, FIRST = 130000, MORE = 390000, STEP = 1000, FEW = 500, MANY = 20000 };

static struct prefix {
    uint32_t base;
    uint8_t len, is_in;
} prefixes[PREFIXES];

static yarib_reply apply_by(yarib *table, uint32_t feed, uint32_t operation, const struct prefix *prefix)
{
    const yarib_command command = put_command(operation, feed, prefix->base, prefix->len, feed == 1, draw());
    yarib_reply reply;
    CHECK(yarib_apply(table, &command, &reply) == YARIB_DONE);
    return reply;
}

static void apply(yarib *table, uint32_t operation, struct prefix *prefix)
{
    apply_by(table, 1, operation, prefix);
    prefix->is_in = operation != YARIB_WITHDRAW;
}

/* Makes this number of changes: each replaces the route of a prefix, withdraws it or adds it again. */
static void change(yarib *table, uint32_t count)
{
    for (uint32_t k = 0; k < count; k++) {
        struct prefix *prefix = &prefixes[draw() % PREFIXES];
        if (!prefix->is_in) apply(table, YARIB_ADD, prefix);
        else apply(table, draw() % 4 == 0 ? YARIB_WITHDRAW : YARIB_REPLACE, prefix);
    }
}

/* The answers at both ends of each prefix, and next to them, are those of a new forwarding table. Returns its memory. */
static size_t compare(yarib *table)
{
    yarib fresh = YARIB_EMPTY;
    CHECK(yarib_fib_new(table, &fresh) == YARIB_DONE);
    for (uint32_t k = 0; k < PREFIXES; k++) {
        uint32_t first = prefixes[k].base, last = first | (prefixes[k].len == 32 ? 0 : UINT32_MAX >> prefixes[k].len);
        uint32_t edges[4] = {first - 1, first, last, last + 1};
        yarib_route found[4], wanted[4];
        memset(found, 0, sizeof found);
        memset(wanted, 0, sizeof wanted);
        CHECK(yarib_look_up(table, edges, 4, found, 4) == YARIB_DONE && yarib_look_up(&fresh, edges, 4, wanted, 4) == YARIB_DONE);
        CHECK(memcmp(found, wanted, sizeof found) == 0);
    }
    size_t bytes = memory_of(&fresh);
    yarib_free(&fresh);
    return bytes;
}

/* Adds best routes of feed 2 to this many of the prefixes, and purges them. Only a rebuild returns memory. */
static void purge(yarib *table, uint32_t count, bool is_rebuilt)
{
    size_t before = memory_of(table), added = 0;
    for (uint32_t k = 0; k < count; k++)
        added += apply_by(table, 2, YARIB_ADD, &prefixes[k * (PREFIXES / count)]).code == YARIB_ADDED;
    const struct prefix none = {0};
    yarib_reply reply = apply_by(table, 2, YARIB_PURGE, &none);
    CHECK(reply.code == YARIB_PURGED && reply.count == added);
    size_t after = memory_of(table);
    if (is_rebuilt != (after < before)) fprintf(stderr, "before a purge of %u routes %zu, after it %zu\n", count, before, after);
    CHECK(is_rebuilt == (after < before) && after > 64 << 20);
    compare(table);
}

int main(void)
{
    yarib table = YARIB_EMPTY;
    CHECK(yarib_new(&table, 1000000, YARIB_PLAIN) == YARIB_DONE);
    for (uint32_t k = 0; k < PREFIXES; k++) {
        uint8_t len = k < HOSTS ? 32 : 8 + draw() % 17;
        prefixes[k] = (struct prefix){.base = len == 32 ? draw() : draw() >> (32 - len) << (32 - len), .len = len};
        if (len < 16) prefixes[k].len = 24; /* seldom a prefix that covers many entries */
        apply(&table, YARIB_ADD, &prefixes[k]);
    }
    CHECK(yarib_fib_attach(&table) == YARIB_DONE);
    change(&table, FIRST);
    compare(&table);
    size_t first = memory_of(&table), fresh;
    for (uint32_t k = 0; k < MORE; k += STEP) {
        change(&table, STEP);
        size_t later = memory_of(&table), differ = later > first ? later - first : first - later;
        if (differ > first / 50) fprintf(stderr, "after %d changes %zu, after %u more %zu\n", FIRST, first, k + STEP, later);
        CHECK(differ <= first / 50);
    }
    fresh = compare(&table);
    printf("after %d changes and more %zu, a new one %zu\n", FIRST, first, fresh);
    CHECK(first <= 2 * fresh);
    purge(&table, 0, false);
    purge(&table, FEW, false);
    purge(&table, MANY, true);
    for (uint32_t k = 0; k < PREFIXES; k++) apply(&table, YARIB_WITHDRAW, &prefixes[k]);
    for (uint32_t k = 0; k < 20000; k++) apply(&table, k % 2 ? YARIB_WITHDRAW : YARIB_ADD, &prefixes[0]);
    size_t empty = memory_of(&table);
    fresh = compare(&table);
    printf("without routes %zu, a new one %zu\n", empty, fresh);
    CHECK(empty <= 2 * fresh);
    yarib_free(&table);
    return 0;
}
