/* Counts the library's calls for memory: how many a new route makes, and that no other command makes any. */
#include "check.h"
#include "refusing_heap.h"
#include "routes.h"

/* More than 65,536 prefixes, and a number of calls that is never reached. */
enum { MANY = 66000, MOST = 1000000000, SECOND = 64 };

/* Returns the number of calls for memory since the last time. */
static long requests(void)
{
    long made = MOST - refused_call;
    refused_call = MOST;
    return made;
}

/* Executes a command, and returns its reply's code. */
static uint32_t applied(yarib *table, uint32_t operation, uint32_t feed, uint32_t base, uint8_t len)
{
    const yarib_command command = put_command(operation, feed, base, len, 1, 0);
    yarib_reply reply;
    CHECK(yarib_apply(table, &command, &reply) == YARIB_DONE);
    return reply.code;
}

/* New prefixes in order, and the number of nodes that each needs. */
static const struct new_prefix {
    uint32_t base;
    uint8_t len;
    long nodes;
} new_prefixes[] = {
    /* In an empty table; below a leaf; a fork next to the leaf; at that fork. */
    {0x0a010000, 16, 1}, {0x0a010200, 24, 1}, {0x0a020000, 16, 2}, {0x0a000000, 14, 1},
    /* Above a full node; next to it; above it below a fork. */
    {0x0a000000, 8, 1}, {0xc0000200, 24, 2}, {0x00000000, 1, 1},
    /* Above a leaf; next to a leaf below a full node; above that fork; at it. */
    {0xc0000000, 8, 1}, {0xc0000300, 24, 2}, {0xc0000000, 16, 1}, {0xc0000200, 23, 1},
    /* Next to a full node; next to a fork; at the root. */
    {0xc1000000, 8, 2}, {0xd0000000, 8, 2}, {0x00000000, 0, 1},
};

/* A new prefix needs one node or two; a second call for memory that is freed at once would be counted too. */
static void add_each_kind(yarib *table)
{
    for (size_t k = 0; k < sizeof new_prefixes / sizeof *new_prefixes; k++) {
        requests();
        CHECK(applied(table, YARIB_ADD, 1, new_prefixes[k].base, new_prefixes[k].len) == YARIB_ADDED);
        CHECK(requests() == new_prefixes[k].nodes);
    }
    CHECK(applied(table, YARIB_PURGE, 1, 0, 0) == YARIB_PURGED);
    CHECK(requests() == 0);
}

/* A look-up through 33 nested prefixes makes no call, and a list of all offers of a prefix as many as it grows. */
static void look_up_deep(yarib *table)
{
    yarib_route routes[YARIB_MAX_FEED + YARIB_MAX_PREFIX_LENGTH];
    size_t total;
    for (uint32_t len = 0; len <= YARIB_MAX_PREFIX_LENGTH; len++) CHECK(applied(table, YARIB_ADD, 1, 0, len) == YARIB_ADDED);
    for (uint32_t feed = 2; feed <= YARIB_MAX_FEED; feed++) CHECK(applied(table, YARIB_ADD, feed, 0, 24) == YARIB_ADDED);
    requests();
    CHECK(applied(table, YARIB_LOOKUP, 1, 0, 0) == YARIB_FOUND);
    CHECK(requests() == 0);
    CHECK(yarib_look_up_all(table, 0, 0, routes, sizeof routes / sizeof *routes, &total) == YARIB_DONE);
    CHECK(total == sizeof routes / sizeof *routes && requests() <= 7);
    for (uint32_t feed = 1; feed <= YARIB_MAX_FEED; feed++) CHECK(applied(table, YARIB_PURGE, feed, 0, 0) == YARIB_PURGED);
    CHECK(requests() == 0);
}

/* Two nodes for each prefix but the first, a node and a list for each second offer, and the marks for purges once. */
static void add_many(yarib *table)
{
    requests();
    for (uint32_t k = 0; k < MANY; k++) {
        CHECK(applied(table, YARIB_ADD, 1, k << 8, 24) == YARIB_ADDED);
        if (k % 2 == 0) CHECK(applied(table, YARIB_ADD, SECOND, k << 8, 24) == YARIB_ADDED);
    }
    CHECK(requests() == 3L * MANY);
}

/* Each other command at each prefix, look-ups of all prefixes at once, and a count. */
static void execute_others(yarib *table)
{
    static uint32_t addresses[MANY];
    static yarib_route answers[MANY];
    size_t routes;
    for (uint32_t k = 0; k < MANY; k++) {
        addresses[k] = k << 8;
        CHECK(applied(table, YARIB_ADD, 1, k << 8, 24) == YARIB_EXISTS);
        CHECK(applied(table, YARIB_REPLACE, 1, k << 8, 24) == YARIB_REPLACED);
        CHECK(applied(table, YARIB_LOOKUP, 1, k << 8, 0) == YARIB_FOUND);
        CHECK(applied(table, YARIB_WITHDRAW, 2, k << 8, 24) == YARIB_MISSING);
        CHECK(applied(table, YARIB_DUMP, 1, 0, 0) == YARIB_DUMPED);
    }
    CHECK(yarib_look_up(table, addresses, MANY, answers, MANY) == YARIB_DONE && answers[MANY - 1].hop == YARIB_VIA);
    CHECK(yarib_count(table, &routes) == YARIB_DONE && routes == MANY + MANY / 2);
    CHECK(requests() == 0);
}

/* Withdraws half of the routes and purges the others. */
static void remove_all(yarib *table)
{
    for (uint32_t k = 0; k < MANY / 2; k++) CHECK(applied(table, YARIB_WITHDRAW, 1, k << 8, 24) == YARIB_WITHDRAWN);
    CHECK(applied(table, YARIB_PURGE, 1, 0, 0) == YARIB_PURGED && applied(table, YARIB_PURGE, SECOND, 0, 0) == YARIB_PURGED);
    CHECK(requests() == 0);
}

/* Entries for which room was reserved make no call, nor does a second reservation of the same room. */
static void fill_reserved(yarib *table, size_t entries)
{
    CHECK(yarib_reserve(table, entries) == YARIB_DONE);
    requests();
    for (size_t k = 0; k < entries; k++) {
        CHECK(yarib_reserve(table, entries - k) == YARIB_DONE);
        CHECK(applied(table, YARIB_DUMP, 1, 0, 0) == YARIB_DUMPED);
    }
    CHECK(requests() == 0);
}

int main(void)
{
    yarib table = YARIB_EMPTY;
    refused_call = MOST;
    CHECK(yarib_new(&table, YARIB_MAX_LIMIT, YARIB_PLAIN) == YARIB_DONE);
    add_each_kind(&table);
    look_up_deep(&table);
    add_many(&table);
    execute_others(&table);
    remove_all(&table);
    CHECK(yarib_new(&table, YARIB_MAX_LIMIT, YARIB_JOURNALED) == YARIB_DONE);
    const size_t sizes[] = {1, 7, 100, 5000};
    for (size_t k = 0; k < sizeof sizes / sizeof *sizes; k++) fill_reserved(&table, sizes[k]);
    yarib_free(&table);
    return 0;
}
