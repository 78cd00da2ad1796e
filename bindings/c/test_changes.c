/* A followed table over 10,000,000 changes: its memory stays about the same, and its look-ups stay right. The table has about 20,000
 * routes of eight feeds. A change adds a route to a random prefix, mostly of 12 to 32 bits, or replaces or withdraws a random route. At
 * the end yarib_memory reports at most 1.2 times what it reported after the first 1,000,000 changes, and the answers are those of a new
 * forwarding table. It prints the sizes. */
#include "check.h"
#include "routes.h"

#include <string.h>

enum { PLACES = 27000, CHANGES = 10000000, FIRST = 1000000, FEEDS = 8, ADDRESSES = 1000000 };

static struct place {
    uint32_t base;
    uint8_t len, feed;
    bool is_in;
} places[PLACES];

static size_t count(yarib *table)
{
    size_t routes;
    CHECK(yarib_count(table, &routes) == YARIB_DONE);
    return routes;
}

static uint32_t apply(yarib *table, uint32_t operation, const struct place *place)
{
    yarib_command command = put_command(operation, place->feed, place->base, place->len, draw() % 4, 0);
    if (draw() % 16) command.via = draw() % 64;
    else command.hop = YARIB_DISCARD;
    yarib_reply reply;
    CHECK(yarib_apply(table, &command, &reply) == YARIB_DONE);
    return reply.code;
}

/* Most prefixes have 16 to 24 bits, one of eight has 12 to 15 or 25 to 32, one of 1,024 has 8 to 11, and one of 65,536 has fewer. */
static uint8_t draw_len(void)
{
    uint32_t one = draw() % 65536;
    if (one == 0) return draw() % 8;
    if (one < 64) return 8 + draw() % 4;
    if (one < 8192) return draw() % 4 == 0 ? 12 + draw() % 4 : 25 + draw() % 8;
    return 16 + draw() % 9;
}

static void change(yarib *table)
{
    struct place *place = &places[draw() % PLACES];
    if (!place->is_in) {
        place->len = draw_len();
        place->base = place->len == 0 ? 0 : draw() >> (32 - place->len) << (32 - place->len);
        place->feed = 1 + draw() % FEEDS;
        place->is_in = apply(table, YARIB_ADD, place) == YARIB_ADDED;
    } else if (draw() % 3 == 0) {
        CHECK(apply(table, YARIB_WITHDRAW, place) == YARIB_WITHDRAWN);
        place->is_in = false;
    } else {
        CHECK(apply(table, YARIB_REPLACE, place) == YARIB_REPLACED);
    }
}

static void compare_at(yarib *table, yarib *fresh, const uint32_t *addresses, size_t size)
{
    yarib_route found[4], wanted[4];
    memset(found, 0, sizeof found);
    memset(wanted, 0, sizeof wanted);
    CHECK(yarib_look_up(table, addresses, size, found, size) == YARIB_DONE);
    CHECK(yarib_look_up(fresh, addresses, size, wanted, size) == YARIB_DONE);
    CHECK(memcmp(found, wanted, sizeof found) == 0);
}

/* The answers at both ends of each prefix, next to them, and at random addresses are those of a new forwarding table. */
static void compare(yarib *table)
{
    yarib fresh = YARIB_EMPTY;
    uint32_t attached = 0, addresses[4];
    CHECK(yarib_fib_is_attached(table, &attached) == YARIB_DONE && attached == 1);
    CHECK(yarib_fib_new(table, &fresh) == YARIB_DONE);
    for (uint32_t k = 0; k < PLACES; k++) {
        uint32_t first = places[k].base, last = first | (places[k].len == 32 ? 0 : UINT32_MAX >> places[k].len);
        const uint32_t edges[4] = {first - 1, first, last, last + 1};
        compare_at(table, &fresh, edges, 4);
    }
    for (uint32_t k = 0; k < ADDRESSES; k += 4) {
        for (int j = 0; j < 4; j++) addresses[j] = draw();
        compare_at(table, &fresh, addresses, 4);
    }
    yarib_free(&fresh);
}

int main(void)
{
    yarib table = YARIB_EMPTY;
    size_t first = 0, last = 0;
    CHECK(yarib_new(&table, 1000000, YARIB_PLAIN) == YARIB_DONE && yarib_fib_attach(&table) == YARIB_DONE);
    for (uint32_t k = 1; k <= CHANGES; k++) {
        change(&table);
        if (k % FIRST != 0) continue;
        last = memory_of(&table);
        if (k == FIRST) first = last;
        printf("after %u changes %zu routes, %zu bytes\n", k, count(&table), last);
    }
    CHECK(last <= first + first / 5);
    compare(&table);
    yarib_free(&table);
    return 0;
}
