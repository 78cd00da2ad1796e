/* Which best routes commands change, compared with a model: a plain array of each feed's routes to a few prefixes, some inside others. Each
 * change is what the model has before and after the command, and a forwarding plane that only applies the changes has the best routes
 * of the table. Also done to a table with a journal, to one with a forwarding table, and to a concurrent one. */
#include "check.h"
#include "routes.h"

#include <string.h>

enum { FEEDS = 5, PREFIXES = 12, COMMANDS = 20000, LIMIT = 9 };
enum way { PLAIN, JOURNALED, FOLLOWED, CONCURRENT, WAYS };

/* The prefixes in the order of a table. */
static const yarib_prefix prefixes[PREFIXES] = {{0, 0}, {0, 32}, {10u << 24, 7}, {10u << 24, 8}, {10u << 24, 9}, {10u << 24, 32},
    {(10u << 24) + 1, 32}, {(10u << 24) + 256, 24}, {11u << 24, 8}, {128u << 24, 1}, {255u << 24, 8}, {0xffffffff, 32}};

static yarib table = YARIB_INIT;
static yarib_concurrent concurrent = YARIB_CONCURRENT_INIT;
static enum way way;

/* Each feed's routes, from feed 1 on; the best routes that only the changes keep. */
static yarib_route routes[FEEDS + 1][PREFIXES], plane[PREFIXES];

static bool is_none(const yarib_route *route)
{
    return route->hop == YARIB_NO_ROUTE;
}

/* The best route of the model to a prefix, without those of a feed, if that isn't 0. */
static yarib_route best_of(int prefix, uint32_t without)
{
    yarib_route best = {0};
    for (uint32_t feed = 1; feed <= FEEDS; feed++) {
        const yarib_route *one = &routes[feed][prefix];
        if (feed != without && !is_none(one) && (is_none(&best) || one->pref < best.pref)) best = *one;
    }
    return best;
}

static enum yarib_status apply(const yarib_command *command, yarib_reply *reply)
{
    return way == CONCURRENT ? yarib_concurrent_apply(&concurrent, command, reply) : yarib_apply(&table, command, reply);
}

static enum yarib_status apply_changed(const yarib_command *command, yarib_reply *reply, yarib_change *change)
{
    if (way == CONCURRENT) return yarib_concurrent_apply_changed(&concurrent, command, reply, change);
    return yarib_apply_changed(&table, command, reply, change);
}

static enum yarib_status purge_changes(uint32_t feed, size_t skip, yarib_change *changes, size_t room, size_t *total)
{
    if (way == CONCURRENT) return yarib_concurrent_purge_changes(&concurrent, feed, skip, changes, room, total);
    return yarib_purge_changes(&table, feed, skip, changes, room, total);
}

/* Executes the command in the model, and returns the code of its reply. */
static uint32_t change_model(const yarib_command *command, int prefix)
{
    yarib_route *route = &routes[command->feed][prefix];
    int count = 0;
    for (int k = 0; k < PREFIXES; k++) count += !is_none(&routes[command->feed][k]);
    if (command->operation == YARIB_ADD && !is_none(route)) return YARIB_EXISTS;
    if (command->operation == YARIB_ADD && count == LIMIT) return YARIB_FULL;
    if (command->operation != YARIB_ADD && is_none(route)) return YARIB_MISSING;
    *route = (yarib_route){0};
    if (command->operation == YARIB_WITHDRAW) return YARIB_WITHDRAWN;
    *route = (yarib_route){.base = command->base, .len = command->len, .pref = command->pref, .feed = command->feed, .hop = command->hop,
        .via = command->hop == YARIB_VIA ? command->via : 0};
    return command->operation == YARIB_ADD ? YARIB_ADDED : YARIB_REPLACED;
}

/* Applies a change of this prefix to the forwarding plane. */
static void install(const yarib_change *change, int prefix)
{
    CHECK(change->base == prefixes[prefix].base && change->len == prefixes[prefix].len);
    CHECK(is_same_route(&plane[prefix], &change->before));
    plane[prefix] = change->after;
}

static void change_one(void)
{
    int prefix = (int)(draw() % PREFIXES);
    yarib_command command = put_command(YARIB_ADD + draw() % 3, 1 + draw() % FEEDS, prefixes[prefix].base, prefixes[prefix].len, draw() % 3, draw() % 2);
    if (draw() % 8 == 0) command.hop = YARIB_DISCARD;
    yarib_route before = best_of(prefix, 0), after;
    yarib_reply reply;
    yarib_change change;
    CHECK(apply_changed(&command, &reply, &change) == YARIB_DONE);
    CHECK(reply.code == change_model(&command, prefix));
    after = best_of(prefix, 0);
    if (is_same_route(&before, &after)) {
        CHECK(is_none(&change.before) && is_none(&change.after) && change.base == 0 && change.len == 0);
    } else {
        CHECK(is_same_route(&change.before, &before) && is_same_route(&change.after, &after));
        install(&change, prefix);
    }
}

/* The changes of a purge, in one piece and in pieces, and then the purge. */
static void purge(void)
{
    uint32_t feed = 1 + draw() % FEEDS;
    yarib_change changes[PREFIXES + 1], one;
    const yarib_command command = {.operation = YARIB_PURGE, .feed = feed};
    yarib_reply reply;
    size_t total, seen, found = 0;
    CHECK(purge_changes(feed, 0, changes, PREFIXES + 1, &total) == YARIB_DONE);
    for (int k = 0; k < PREFIXES; k++) {
        yarib_route before = best_of(k, 0), after = best_of(k, feed);
        if (is_same_route(&before, &after)) continue;
        CHECK(found < total && is_same_route(&changes[found].before, &before) && is_same_route(&changes[found].after, &after));
        CHECK(purge_changes(feed, found, &one, 1, &seen) == YARIB_DONE && seen == total);
        CHECK(one.base == changes[found].base && one.len == changes[found].len && is_same_route(&one.after, &after));
        install(&changes[found++], k);
    }
    memset(&one, 99, sizeof one);
    CHECK(found == total && purge_changes(feed, total, &one, 1, &seen) == YARIB_DONE && seen == total && one.base == 0x63636363);
    CHECK(purge_changes(feed, 0, &one, 0, &seen) == YARIB_DONE && seen == total);
    CHECK(apply(&command, &reply) == YARIB_DONE && reply.code == YARIB_PURGED);
    memset(routes[feed], 0, sizeof routes[feed]);
}

static enum yarib_status select_by_hop(uint32_t hop, uint32_t via, size_t skip, yarib_route *found, size_t room, size_t *total)
{
    const yarib_selection best = {.only_best = 1};
    if (way == CONCURRENT) return yarib_concurrent_select_by_hop(&concurrent, &best, hop, via, skip, found, room, total);
    return yarib_select_by_hop(&table, &best, hop, via, skip, found, room, total);
}

/* The best routes that use a next hop, or any for 0, are those of the forwarding plane: in one piece and in pieces; and their number. */
static void compare_hop(uint32_t hop, uint32_t via)
{
    yarib_route found[PREFIXES], one;
    size_t total, seen, next = 0;
    CHECK(select_by_hop(hop, via, 0, found, PREFIXES, &total) == YARIB_DONE);
    for (int k = 0; k < PREFIXES; k++) {
        if (is_none(&plane[k]) || (hop != 0 && plane[k].hop != hop) || (hop == YARIB_VIA && plane[k].via != via)) continue;
        CHECK(next < total && is_same_route(&plane[k], &found[next]));
        CHECK(select_by_hop(hop, via, next++, &one, 1, &seen) == YARIB_DONE && seen == total && is_same_route(&plane[k], &one));
    }
    CHECK(next == total && select_by_hop(hop, via, 0, &one, 0, &seen) == YARIB_DONE && seen == total);
}

static enum yarib_status hop_counts(size_t skip, yarib_hop_count *counts, size_t room, size_t *total)
{
    if (way == CONCURRENT) return yarib_concurrent_hop_counts(&concurrent, skip, counts, room, total);
    return yarib_hop_counts(&table, skip, counts, room, total);
}

/* The count of a next hop is that of the forwarding plane, and it comes after the counts before it; no count if the plane doesn't use it. */
static size_t compare_count(const yarib_hop_count *counts, size_t next, uint32_t hop, uint32_t via)
{
    uint32_t uses = 0;
    for (int k = 0; k < PREFIXES; k++) uses += plane[k].hop == hop && plane[k].via == via;
    if (uses == 0) return next;
    CHECK(counts[next].hop == hop && counts[next].via == via && counts[next].routes == uses);
    return next + 1;
}

/* The counts are those of the forwarding plane: discarded packets, and then the routers in order; in one piece and in pieces. */
static void compare_counts(void)
{
    yarib_hop_count counts[PREFIXES + 1] = {{0}}, one;
    size_t total, seen, next;
    CHECK(hop_counts(0, counts, PREFIXES + 1, &total) == YARIB_DONE && total <= PREFIXES && counts[total].hop == 0);
    next = compare_count(counts, 0, YARIB_DISCARD, 0);
    for (uint32_t via = 0; via < 3; via++) next = compare_count(counts, next, YARIB_VIA, via);
    CHECK(next == total);
    for (size_t k = 0; k < total; k++) {
        CHECK(hop_counts(k, &one, 1, &seen) == YARIB_DONE && seen == total && memcmp(&one, &counts[k], sizeof one) == 0);
    }
    memset(&one, 99, sizeof one);
    CHECK(hop_counts(total, &one, 1, &seen) == YARIB_DONE && seen == total && one.hop == 0x63636363);
    CHECK(hop_counts(0, &one, 0, &seen) == YARIB_DONE && seen == total && one.hop == 0x63636363);
}

/* The forwarding plane has the table's best routes, and those of each next hop. Only a router has an address. */
static void compare(void)
{
    const yarib_selection best = {.only_best = 1};
    yarib_route found[PREFIXES];
    size_t total, next = 0;
    CHECK((way == CONCURRENT ? yarib_concurrent_select(&concurrent, &best, 0, found, PREFIXES, &total)
        : yarib_select(&table, &best, 0, found, PREFIXES, &total)) == YARIB_DONE);
    for (int k = 0; k < PREFIXES; k++) if (!is_none(&plane[k])) CHECK(next < total && is_same_route(&plane[k], &found[next++]));
    CHECK(next == total);
    compare_hop(0, 1);
    for (uint32_t via = 0; via < 3; via++) compare_hop(YARIB_VIA, via);
    compare_hop(YARIB_DISCARD, 1);
    compare_counts();
}

/* What the calls don't do: they write nothing, and change nothing. */
static void refuse(void)
{
    yarib_command command = put_command(YARIB_ADD, 1, 10u << 24, 8, 1, 1);
    yarib_reply reply;
    yarib_change change;
    size_t total = 99;
    memset(&reply, 99, sizeof reply);
    memset(&change, 99, sizeof change);
    for (uint32_t operation = YARIB_LOOKUP; operation <= YARIB_PURGE + 1; operation++) {
        command.operation = operation;
        CHECK(apply_changed(&command, &reply, &change) == YARIB_BAD_COMMAND);
    }
    command.operation = YARIB_ADD;
    command.hop = YARIB_NO_ROUTE;
    CHECK(apply_changed(&command, &reply, &change) == YARIB_BAD_COMMAND);
    command.feed = YARIB_MAX_FEED + 1;
    CHECK(apply_changed(&command, &reply, &change) == YARIB_BAD_NUMBER);
    CHECK(purge_changes(0, 0, &change, 1, &total) == YARIB_BAD_NUMBER);
    CHECK(purge_changes(YARIB_MAX_FEED + 1, 0, &change, 1, &total) == YARIB_BAD_NUMBER);
    CHECK(total == 99 && reply.code == 0x63636363 && change.before.base == 0x63636363 && change.base == 0x63636363 && change.len == 99);
    compare();
}

static void begin(void)
{
    memset(routes, 0, sizeof routes);
    memset(plane, 0, sizeof plane);
    yarib_reply reply;
    yarib_change change = {.base = 99};
    size_t total = 99;
    CHECK(yarib_free(&table) == YARIB_DONE && yarib_concurrent_free(&concurrent) == YARIB_DONE);
    CHECK(apply_changed(&add_eight, &reply, &change) == YARIB_NOTHING && purge_changes(1, 0, &change, 1, &total) == YARIB_NOTHING);
    CHECK(change.base == 99 && total == 99);
    if (way == CONCURRENT) CHECK(yarib_concurrent_new(&concurrent, LIMIT) == YARIB_DONE);
    else CHECK(yarib_new(&table, LIMIT, way == JOURNALED ? YARIB_JOURNALED : YARIB_PLAIN) == YARIB_DONE);
    if (way == FOLLOWED) CHECK(yarib_fib_attach(&table) == YARIB_DONE);
}

/* A journal has the commands, and answers them again with the same replies. */
static void replay(size_t commands)
{
    yarib_entry entry;
    size_t total;
    CHECK(yarib_journal(&table, 0, &entry, 0, &total) == YARIB_DONE && total == commands);
}

int main(void)
{
    yarib forwarding = YARIB_INIT;
    yarib_reply reply;
    yarib_change change;
    size_t total;
    for (way = PLAIN; way < WAYS; way++) {
        int commands = way == FOLLOWED ? COMMANDS / 10 : COMMANDS;
        begin();
        for (int k = 0; k < commands; k++) {
            if (draw() % 40 == 0) purge();
            else change_one();
            if (k % 100 == 0) refuse();
        }
        compare();
        if (way == JOURNALED) replay((size_t)commands);
    }
    CHECK(yarib_new(&table, LIMIT, YARIB_PLAIN) == YARIB_DONE && yarib_fib_new(&table, &forwarding) == YARIB_DONE);
    CHECK(yarib_apply_changed(&forwarding, &add_eight, &reply, &change) == YARIB_WRONG_KIND);
    CHECK(yarib_purge_changes(&forwarding, 1, 0, &change, 1, &total) == YARIB_WRONG_KIND);
    CHECK(yarib_free(&forwarding) == YARIB_DONE && yarib_free(&table) == YARIB_DONE);
    return yarib_concurrent_free(&concurrent) == YARIB_DONE ? 0 : 1;
}
