/* Each status of each call, and that after it nothing has changed and nothing was written. */
#include "check.h"
#include "routes.h"

#include <string.h>

/* What is to stay is filled with this byte, and compared. */
enum { MARK = 0x5a };

static const yarib_route start;

static const yarib_selection all = {.part = YARIB_ALL};

static int is_marked(const void *place, size_t size)
{
    const unsigned char *bytes = place;
    for (size_t k = 0; k < size; k++) {
        if (bytes[k] != MARK) return 0;
    }
    return 1;
}

static size_t count_of(yarib *table)
{
    size_t total;
    CHECK(yarib_count(table, &total) == YARIB_DONE);
    return total;
}

/* A handle that holds nothing answers each call so. */
static void nothing(yarib *empty)
{
    uint32_t address = 1, hop = 9;
    yarib other = YARIB_EMPTY;
    yarib_route route;
    yarib_hop_count count;
    yarib_entry entry;
    yarib_difference range;
    yarib_reply reply;
    size_t total;
    memset(&count, MARK, sizeof count);
    memset(&route, MARK, sizeof route);
    memset(&reply, MARK, sizeof reply);
    memset(&total, MARK, sizeof total);
    CHECK(yarib_apply(empty, &add_eight, &reply) == YARIB_NOTHING && is_marked(&reply, sizeof reply));
    CHECK(yarib_apply_each(empty, &add_eight, 1, &reply, 1) == YARIB_NOTHING && is_marked(&reply, sizeof reply));
    CHECK(yarib_reserve(empty, 1) == YARIB_NOTHING);
    CHECK(yarib_look_up(empty, &address, 1, &route, 1) == YARIB_NOTHING && is_marked(&route, sizeof route));
    CHECK(yarib_look_up_one(empty, 1, &route) == YARIB_NOTHING && is_marked(&route, sizeof route));
    CHECK(yarib_look_up_text(empty, "10.0.0.1", 8, &route) == YARIB_NOTHING && is_marked(&route, sizeof route));
    CHECK(yarib_look_up_text(empty, "10.0.0.1", 7, &route) == YARIB_BAD_TEXT && is_marked(&route, sizeof route));
    CHECK(yarib_hops(empty, &address, 1, 2, 3, &hop, 1) == YARIB_NOTHING && hop == 9);
    CHECK(yarib_look_up_all(empty, 1, 0, &route, 1, &total) == YARIB_NOTHING && is_marked(&route, sizeof route));
    CHECK(yarib_routes(empty, 0, &route, 1, &total) == YARIB_NOTHING && is_marked(&route, sizeof route));
    CHECK(yarib_routes_from(empty, &start, &route, 1, &total) == YARIB_NOTHING && is_marked(&route, sizeof route));
    CHECK(yarib_select(empty, &all, 0, &route, 1, &total) == YARIB_NOTHING && is_marked(&route, sizeof route));
    CHECK(yarib_select_by_hop(empty, &all, YARIB_VIA, 1, 0, &route, 1, &total) == YARIB_NOTHING && is_marked(&route, sizeof route));
    CHECK(yarib_select_by_hop(empty, &all, YARIB_DISCARD + 1, 1, 0, &route, 1, &total) == YARIB_NOTHING);
    CHECK(yarib_hop_counts(empty, 0, &count, 1, &total) == YARIB_NOTHING && is_marked(&count, sizeof count));
    CHECK(yarib_count(empty, &total) == YARIB_NOTHING && yarib_fib_attach(empty) == YARIB_NOTHING);
    CHECK(yarib_journal(empty, 0, &entry, 1, &total) == YARIB_NOTHING);
    CHECK(yarib_first_difference(empty, &other, 0, 0, &range) == YARIB_NOTHING);
    CHECK(yarib_fib_new(empty, &other) == YARIB_NOTHING && yarib_fib_clone(empty, &other) == YARIB_NOTHING);
    CHECK(yarib_memory(empty, &total) == YARIB_NOTHING && is_marked(&total, sizeof total));
    CHECK(yarib_free(empty) == YARIB_DONE && yarib_free(empty) == YARIB_DONE);
}

/* Numbers and commands that there are not. */
static void faults(void)
{
    yarib table = YARIB_EMPTY;
    yarib_reply reply, replies[3];
    CHECK(yarib_new(&table, 0, YARIB_PLAIN) == YARIB_BAD_NUMBER && yarib_new(&table, 1000001, YARIB_PLAIN) == YARIB_BAD_NUMBER);
    CHECK(yarib_new(&table, 1, 2) == YARIB_BAD_NUMBER && table.inside == NULL);
    CHECK(yarib_new(&table, 1, YARIB_PLAIN) == YARIB_DONE && yarib_apply(&table, &add_eight, &reply) == YARIB_DONE);
    CHECK(yarib_new(&table, 0, YARIB_PLAIN) == YARIB_BAD_NUMBER && count_of(&table) == 1);
    yarib_command commands[] = {add_eight, add_eight, add_eight};
    commands[0].feed = 0;
    commands[1].feed = YARIB_MAX_FEED + 1;
    memset(&reply, MARK, sizeof reply);
    CHECK(yarib_apply(&table, &commands[0], &reply) == YARIB_BAD_NUMBER);
    CHECK(yarib_apply(&table, &commands[1], &reply) == YARIB_BAD_NUMBER);
    commands[2].operation = 0;
    CHECK(yarib_apply(&table, &commands[2], &reply) == YARIB_BAD_COMMAND);
    commands[2].operation = YARIB_PURGE + 1;
    CHECK(yarib_apply(&table, &commands[2], &reply) == YARIB_BAD_COMMAND);
    commands[2] = add_eight;
    commands[2].len = 33;
    CHECK(yarib_apply(&table, &commands[2], &reply) == YARIB_BAD_COMMAND);
    commands[2].len = 7;
    CHECK(yarib_apply(&table, &commands[2], &reply) == YARIB_DONE && reply.code == YARIB_FULL);
    commands[2].len = 6;
    memset(&reply, MARK, sizeof reply);
    CHECK(yarib_apply(&table, &commands[2], &reply) == YARIB_BAD_COMMAND);
    commands[2] = add_eight;
    commands[2].hop = 3;
    CHECK(yarib_apply(&table, &commands[2], &reply) == YARIB_BAD_COMMAND && is_marked(&reply, sizeof reply));
    CHECK(yarib_apply_each(&table, commands, 3, replies, 2) == YARIB_BAD_SIZE);
    commands[1] = (yarib_command){.operation = YARIB_DUMP, .feed = YARIB_MAX_FEED};
    CHECK(yarib_apply_each(&table, commands, 3, replies, 3) == YARIB_DONE && count_of(&table) == 1);
    CHECK(replies[0].code == YARIB_UNANSWERED && replies[0].count == YARIB_BAD_NUMBER);
    CHECK(replies[1].code == YARIB_DUMPED && replies[1].count == 1);
    CHECK(replies[2].code == YARIB_UNANSWERED && replies[2].count == YARIB_BAD_COMMAND);
    yarib_free(&table);
}

/* The calls that a table, a table without a journal, and a forwarding table don't support. */
static void kinds(void)
{
    yarib table = YARIB_EMPTY, forwarding = YARIB_EMPTY, other = YARIB_EMPTY;
    yarib_reply reply;
    yarib_route route, routes[2];
    yarib_hop_count count;
    yarib_entry entry;
    yarib_difference range;
    uint32_t address = add_eight.base, hops[2] = {9, 9};
    size_t total;
    CHECK(yarib_new(&table, 9, YARIB_JOURNALED) == YARIB_DONE && yarib_apply(&table, &add_eight, &reply) == YARIB_DONE);
    CHECK(yarib_reserve(&table, 1000) == YARIB_DONE && yarib_reserve(&table, (size_t)-1) == YARIB_NO_MEMORY);
    CHECK(yarib_journal(&table, 0, &entry, 1, &total) == YARIB_DONE && total == 1);
    CHECK(memcmp(&entry.command, &add_eight, sizeof(uint32_t) * 5 + 2) == 0 && entry.reply.code == YARIB_ADDED);
    CHECK(yarib_fib_new(&table, &forwarding) == YARIB_DONE && yarib_fib_clone(&forwarding, &other) == YARIB_DONE);
    CHECK(yarib_fib_clone(&table, &other) == YARIB_WRONG_KIND);
    CHECK(yarib_memory(&table, &total) == YARIB_DONE && total == 62 + 56);
    CHECK(yarib_fib_attach(&table) == YARIB_WRONG_KIND && yarib_fib_attach(&forwarding) == YARIB_WRONG_KIND);
    CHECK(yarib_memory(&forwarding, &total) == YARIB_DONE && total >= (size_t)1 << 26);
    CHECK(yarib_apply(&forwarding, &add_eight, &reply) == YARIB_WRONG_KIND);
    CHECK(yarib_count(&forwarding, &total) == YARIB_WRONG_KIND);
    CHECK(yarib_apply_each(&forwarding, &add_eight, 1, &reply, 1) == YARIB_DONE);
    CHECK(reply.code == YARIB_UNANSWERED && reply.count == YARIB_WRONG_KIND && yarib_reserve(&forwarding, 1) == YARIB_DONE);
    CHECK(yarib_routes(&forwarding, 0, &route, 1, &total) == YARIB_WRONG_KIND);
    CHECK(yarib_routes_from(&forwarding, &start, &route, 1, &total) == YARIB_WRONG_KIND);
    CHECK(yarib_select(&forwarding, &all, 0, &route, 1, &total) == YARIB_WRONG_KIND);
    CHECK(yarib_select_by_hop(&forwarding, &all, YARIB_VIA, 1, 0, &route, 1, &total) == YARIB_WRONG_KIND);
    CHECK(yarib_hop_counts(&forwarding, 0, &count, 1, &total) == YARIB_WRONG_KIND);
    CHECK(yarib_look_up_all(&forwarding, address, 0, &route, 1, &total) == YARIB_WRONG_KIND);
    CHECK(yarib_journal(&forwarding, 0, &entry, 1, &total) == YARIB_WRONG_KIND);
    CHECK(yarib_fib_new(&forwarding, &other) == YARIB_WRONG_KIND);
    CHECK(yarib_first_difference(&table, &forwarding, 0, 0, &range) == YARIB_WRONG_KIND);
    yarib_free(&table);
    CHECK(yarib_look_up(&other, &address, 1, &route, 1) == YARIB_DONE && route.via == 7 && route.len == 8);
    CHECK(yarib_look_up(&other, &address, 1, routes, 2) == YARIB_BAD_SIZE);
    CHECK(yarib_hops(&other, &address, 1, 2, 3, hops, 2) == YARIB_BAD_SIZE && hops[0] == 9);
    CHECK(yarib_hops(&other, &address, 1, 2, 3, hops, 1) == YARIB_DONE && hops[0] == 7 && hops[1] == 9);
    yarib_free(&forwarding);
    CHECK(yarib_look_up(&other, &address, 1, &route, 1) == YARIB_DONE && route.feed == 1);
    CHECK(yarib_new(&other, 1, YARIB_PLAIN) == YARIB_DONE && yarib_look_up(&other, &address, 1, &route, 1) == YARIB_DONE);
    CHECK(route.hop == YARIB_NO_ROUTE && yarib_journal(&other, 0, &entry, 1, &total) == YARIB_WRONG_KIND);
    yarib_free(&other);
}

static yarib_command add(uint32_t feed, uint32_t base, uint8_t len, uint32_t preference)
{
    return put_command(YARIB_ADD, feed, base, len, preference, feed);
}

/* Returns the number of selected routes, and writes the first of them. */
static size_t selected(yarib *table, uint32_t part, uint32_t base, uint8_t len, uint32_t feed, uint8_t best, yarib_route *first)
{
    yarib_selection asked = {.part = part, .feed = feed, .base = base, .len = len, .only_best = best};
    size_t total;
    CHECK(yarib_select(table, &asked, 0, first, 1, &total) == YARIB_DONE);
    return total;
}

/* Routes by prefix: the prefix itself, longer and shorter ones, of a feed, and the best ones. */
static void parts(void)
{
    const yarib_command commands[] = {add(1, 10u << 24, 8, 5), add(2, 10u << 24, 8, 4), add(1, 10u << 24, 16, 1), add(2, 11u << 24, 8, 1),
                                      add(3, 0, 0, 9), add(3, 0x0a00ffff, 32, 2)};
    const yarib_selection best = {.only_best = 1}, by_two = {.feed = 2}, within = {.part = YARIB_WITHIN, .base = 10u << 24, .len = 8};
    yarib_selection faulty = {.part = 4};
    yarib table = YARIB_EMPTY;
    yarib_reply replies[6];
    yarib_route first, rest[6];
    size_t total = 99;
    CHECK(yarib_new(&table, 9, YARIB_PLAIN) == YARIB_DONE && yarib_apply_each(&table, commands, 6, replies, 6) == YARIB_DONE);
    CHECK(selected(&table, YARIB_ALL, 1, 99, 0, 0, &first) == 6 && first.len == 0);
    CHECK(selected(&table, YARIB_ALL, 0, 0, 0, 1, &first) == 5 && selected(&table, YARIB_ALL, 0, 0, 1, 1, &first) == 1 && first.len == 16);
    CHECK(selected(&table, YARIB_WITHIN, 10u << 24, 8, 0, 0, &first) == 4 && first.feed == 2);
    CHECK(selected(&table, YARIB_WITHIN, 10u << 24, 8, 1, 0, &first) == 2 && first.len == 8);
    CHECK(selected(&table, YARIB_WITHIN, 10u << 24, 9, 0, 0, &first) == 2 && first.len == 16);
    CHECK(selected(&table, YARIB_WITHIN, 12u << 24, 8, 0, 0, &first) == 0);
    CHECK(selected(&table, YARIB_COVERING, 0x0a00ffff, 32, 0, 0, &first) == 5 && first.len == 0);
    CHECK(selected(&table, YARIB_COVERING, 11u << 24, 16, 0, 0, &first) == 2);
    CHECK(selected(&table, YARIB_EXACT, 10u << 24, 8, 0, 0, &first) == 2 && is_put_by(&first, &commands[1]));
    CHECK(selected(&table, YARIB_EXACT, 10u << 24, 9, 0, 0, &first) == 0);
    CHECK(yarib_select(&table, &all, 4, rest, 6, &total) == YARIB_DONE && total == 6 && rest[0].base == 0x0a00ffff && rest[1].base == 11u << 24);
    CHECK(yarib_select_by_hop(&table, &all, YARIB_VIA, 1, 0, rest, 6, &total) == YARIB_DONE && total == 2
        && is_put_by(&rest[0], &commands[0]) && is_put_by(&rest[1], &commands[2]));
    CHECK(yarib_select_by_hop(&table, &best, YARIB_VIA, 1, 0, rest, 6, &total) == YARIB_DONE && total == 1
        && is_put_by(&rest[0], &commands[2]));
    CHECK(yarib_select_by_hop(&table, &within, YARIB_VIA, 3, 0, rest, 6, &total) == YARIB_DONE && total == 1
        && is_put_by(&rest[0], &commands[5]));
    CHECK(yarib_select_by_hop(&table, &by_two, YARIB_VIA, 1, 0, rest, 6, &total) == YARIB_DONE && total == 0);
    CHECK(yarib_select_by_hop(&table, &all, YARIB_DISCARD, 1, 0, rest, 6, &total) == YARIB_DONE && total == 0);
    CHECK(yarib_select_by_hop(&table, &all, 0, 1, 0, rest, 6, &total) == YARIB_DONE && total == 6);
    total = 99;
    memset(rest, MARK, sizeof rest);
    CHECK(yarib_select(&table, &faulty, 0, rest, 6, &total) == YARIB_BAD_NUMBER);
    CHECK(yarib_select_by_hop(&table, &faulty, YARIB_VIA, 1, 0, rest, 6, &total) == YARIB_BAD_NUMBER);
    CHECK(yarib_select_by_hop(&table, &all, YARIB_DISCARD + 1, 1, 0, rest, 6, &total) == YARIB_BAD_NUMBER);
    CHECK(yarib_select_by_hop(&table, &all, 256 + YARIB_VIA, 1, 0, rest, 6, &total) == YARIB_BAD_NUMBER);
    faulty = (yarib_selection){.feed = YARIB_MAX_FEED + 1};
    CHECK(yarib_select(&table, &faulty, 0, rest, 6, &total) == YARIB_BAD_NUMBER);
    faulty = (yarib_selection){.only_best = 2};
    CHECK(yarib_select(&table, &faulty, 0, rest, 6, &total) == YARIB_BAD_NUMBER);
    faulty = (yarib_selection){.part = YARIB_EXACT, .len = 33};
    CHECK(yarib_select(&table, &faulty, 0, rest, 6, &total) == YARIB_BAD_LENGTH);
    CHECK(yarib_select_by_hop(&table, &faulty, YARIB_DISCARD + 1, 1, 0, rest, 6, &total) == YARIB_BAD_NUMBER);
    CHECK(yarib_select_by_hop(&table, &faulty, YARIB_VIA, 1, 0, rest, 6, &total) == YARIB_BAD_LENGTH);
    faulty = (yarib_selection){.part = YARIB_WITHIN, .base = 1, .len = 31};
    CHECK(yarib_select(&table, &faulty, 0, rest, 6, &total) == YARIB_BAD_BITS);
    CHECK(total == 99 && is_marked(rest, sizeof rest));
    yarib_free(&table);
}

/* The page from a position on is the part of the whole list that doesn't come before it, and what follows the page stays. */
static void check_page(yarib *table, const yarib_route *listed, size_t count, const yarib_route *from, size_t room)
{
    yarib_route page[40];
    size_t used, first = 0;
    while (first < count && precedes(&listed[first], from)) first++;
    size_t wanted = count - first < room ? count - first : room;
    memset(page, MARK, sizeof page);
    CHECK(yarib_routes_from(table, from, page, room, &used) == YARIB_DONE && used == wanted);
    for (size_t k = 0; k < used; k++) CHECK(is_same_route(&page[k], &listed[first + k]));
    CHECK(is_marked(page + used, (40 - used) * sizeof *page));
}

/* Routes from a position on, of random tables: each size of page, and positions that are and that are not those of a route. */
static void pages(void)
{
    static const uint8_t lens[] = {0, 1, 2, 8, 23, 24, 25, 31, 32};
    uint32_t draw = 7;
    for (int seed = 0; seed < 40; seed++) {
        yarib table = YARIB_EMPTY;
        yarib_route listed[300], from = {0}, page[7];
        yarib_reply reply;
        size_t count, used = 99, passed = 0;
        CHECK(yarib_new(&table, 1000, seed % 2 ? YARIB_JOURNALED : YARIB_PLAIN) == YARIB_DONE);
        for (int k = 0; k < seed * 7; k++) {
            draw = draw * 1664525u + 1013904223u;
            uint8_t len = lens[(draw >> 8) % 9];
            uint32_t base = (draw >> 12 & 3) * 0x55555555u + (draw >> 16 & 31);
            yarib_command command = add(1 + (draw >> 21) % 4u, len == 0 ? 0 : base >> (32 - len) << (32 - len), len, draw >> 30);
            CHECK(yarib_apply(&table, &command, &reply) == YARIB_DONE);
        }
        CHECK(yarib_routes(&table, 0, listed, 300, &count) == YARIB_DONE && count <= 300);
        for (size_t k = 0; k < count; k++) {
            yarib_route near = listed[k];
            for (near.feed = 0; near.feed < 66; near.feed += 1 + near.feed / 5 * 20) {
                const yarib_route other = position(near.base, near.len, (k + near.feed) % 4, near.feed);
                check_page(&table, listed, count, &near, k % 40);
                check_page(&table, listed, count, &other, k % 40);
            }
            near.len = near.base & 1 || near.len == 32 ? 32 : near.len + 1;
            check_page(&table, listed, count, &near, 40);
        }
        from = position(UINT32_MAX, 32, UINT32_MAX, UINT32_MAX);
        check_page(&table, listed, count, &from, 40);
        from = (yarib_route){0};
        do {
            CHECK(yarib_routes_from(&table, &from, page, 7, &used) == YARIB_DONE);
            for (size_t k = 0; k < used; k++) CHECK(is_same_route(&page[k], &listed[passed + k]));
            passed += used;
            if (used > 0) from = page[used - 1];
            from.feed++;
        } while (used == 7);
        CHECK(passed == count);
        from = (yarib_route){.base = 1, .len = 31};
        memset(page, MARK, sizeof page);
        CHECK(yarib_routes_from(&table, &from, page, 7, &used) == YARIB_BAD_BITS);
        from = (yarib_route){.len = 33};
        CHECK(yarib_routes_from(&table, &from, page, 7, &used) == YARIB_BAD_LENGTH && is_marked(page, sizeof page));
        yarib_free(&table);
    }
}

/* A table with a forwarding table that follows it answers as a table without one, after each of many commands. */
static void followed(void)
{
    yarib one = YARIB_EMPTY, other = YARIB_EMPTY;
    yarib_difference range;
    uint32_t draw = 1, asked[64];
    size_t bytes;
    CHECK(yarib_new(&one, 50, YARIB_PLAIN) == YARIB_DONE && yarib_new(&other, 50, YARIB_PLAIN) == YARIB_DONE);
    CHECK(yarib_memory(&one, &bytes) == YARIB_DONE && bytes == 0);
    CHECK(yarib_fib_attach(&one) == YARIB_DONE && yarib_fib_attach(&one) == YARIB_DONE);
    CHECK(yarib_memory(&one, &bytes) == YARIB_DONE && bytes >= (size_t)1 << 26);
    for (int k = 0; k < 2000; k++) {
        yarib_reply replies[2];
        yarib_route answers[2][64];
        for (int j = 0; j < 64; j++) {
            draw = draw * 1664525u + 1013904223u;
            asked[j] = draw >> 31 << 31 | (draw >> 8 & 0x1ffu);
        }
        uint8_t len = (uint8_t)(k % 499 == 0 ? 1 : 20 + draw % 13u);
        uint32_t base = asked[0] >> (32 - len) << (32 - len);
        yarib_command command = add(1 + draw % 3u, base, len, draw % 5u);
        command.operation = k % 501 == 500 ? YARIB_PURGE : 1 + (draw >> 16) % 4u;
        CHECK(yarib_apply(&one, &command, &replies[0]) == YARIB_DONE && yarib_apply(&other, &command, &replies[1]) == YARIB_DONE);
        CHECK(yarib_look_up(&one, asked, 64, answers[0], 64) == YARIB_DONE);
        CHECK(yarib_look_up(&other, asked, 64, answers[1], 64) == YARIB_DONE);
        for (int j = 0; j < 64; j++) CHECK(is_same_route(&answers[0][j], &answers[1][j]));
    }
    CHECK(yarib_memory(&one, &bytes) == YARIB_DONE && bytes >= (size_t)1 << 26);
    CHECK(yarib_first_difference(&one, &other, 1, 0, &range) == YARIB_NONE_LEFT && count_of(&one) == count_of(&other));
    yarib_free(&one);
    yarib_free(&other);
}

/* Two tables, from each address on. */
static void differences(void)
{
    yarib old = YARIB_EMPTY, new = YARIB_EMPTY;
    yarib_reply reply;
    yarib_difference range;
    CHECK(yarib_new(&old, 9, YARIB_PLAIN) == YARIB_DONE && yarib_new(&new, 9, YARIB_JOURNALED) == YARIB_DONE);
    CHECK(yarib_first_difference(&old, &new, 0, 0, &range) == YARIB_NONE_LEFT);
    CHECK(yarib_first_difference(&old, &new, 2, 0, &range) == YARIB_BAD_NUMBER);
    CHECK(yarib_apply(&new, &add_eight, &reply) == YARIB_DONE);
    CHECK(yarib_first_difference(&old, &new, 0, 0, &range) == YARIB_DONE);
    CHECK(range.first == 10u << 24 && range.last == (11u << 24) - 1 && range.before.hop == YARIB_NO_ROUTE);
    CHECK(range.after.hop == YARIB_VIA && range.after.via == 7 && range.after.len == 0 && range.after.feed == 0);
    CHECK(yarib_first_difference(&new, &old, 1, (10u << 24) + 5, &range) == YARIB_DONE);
    CHECK(range.first == (10u << 24) + 5 && is_put_by(&range.before, &add_eight) && range.after.hop == YARIB_NO_ROUTE);
    CHECK(yarib_first_difference(&old, &new, 1, 11u << 24, &range) == YARIB_NONE_LEFT);
    yarib_free(&old);
    yarib_free(&new);
}

/* Texts, and room for them. */
static void texts(void)
{
    yarib_prefix prefix = {3, 4}, bad = {1, 8}, longer = {0, 33};
    uint32_t address = 9;
    char text[20];
    size_t used = 77;
    CHECK(yarib_prefix_parse("10.0.0.0/8x", 10, &prefix) == YARIB_DONE && prefix.base == 10u << 24 && prefix.len == 8);
    CHECK(yarib_prefix_parse("10.0.0.0/08", 11, &prefix) == YARIB_BAD_TEXT);
    CHECK(yarib_prefix_parse("", 0, &prefix) == YARIB_BAD_TEXT);
    CHECK(yarib_prefix_parse("10.0.0.0/33", 11, &prefix) == YARIB_BAD_LENGTH);
    CHECK(yarib_prefix_parse("10.0.0.1/8", 10, &prefix) == YARIB_BAD_BITS && prefix.base == 10u << 24 && prefix.len == 8);
    CHECK(yarib_address_parse("255.255.255.255", 15, &address) == YARIB_DONE && address == 0xffffffffu);
    CHECK(yarib_address_parse("256.0.0.0", 9, &address) == YARIB_BAD_TEXT && address == 0xffffffffu);
    memset(text, MARK, sizeof text);
    CHECK(yarib_prefix_print(&prefix, text, 9, &used) == YARIB_BAD_SIZE);
    CHECK(yarib_address_print(address, text, 14, &used) == YARIB_BAD_SIZE);
    CHECK(yarib_prefix_print(&bad, text, 20, &used) == YARIB_BAD_BITS);
    CHECK(yarib_prefix_print(&longer, text, 20, &used) == YARIB_BAD_LENGTH);
    CHECK(used == 77 && is_marked(text, sizeof text));
    CHECK(yarib_prefix_print(&prefix, text, 10, &used) == YARIB_DONE && used == 10 && memcmp(text, "10.0.0.0/8\x5a", 11) == 0);
    CHECK(yarib_address_print(address, text, 15, &used) == YARIB_DONE && used == 15 && memcmp(text, "255.255.255.255", 15) == 0);
}

/* Names, and what a handle is assigned. */
static void names(void)
{
    yarib handle;
    handle = YARIB_EMPTY;
    CHECK(handle.inside == NULL && yarib_free(&handle) == YARIB_DONE);
    char version[32];
    snprintf(version, sizeof version, "%d.%d.", YARIB_VERSION_MAJOR, YARIB_VERSION_MINOR);
    CHECK(strcmp(yarib_version(), YARIB_VERSION) == 0 && strncmp(YARIB_VERSION, version, strlen(version)) == 0);
    CHECK(strncmp(yarib_build(), "sources ", 8) == 0 && strstr(yarib_build(), " logic "));
    CHECK(strcmp(yarib_status_text(YARIB_DONE), "done") == 0 && strcmp(yarib_status_text(YARIB_BUSY), "busy") == 0);
    CHECK(strcmp(yarib_status_text(YARIB_WRONG_KIND), "wrong kind") == 0);
    CHECK(strcmp(yarib_status_text(YARIB_BAD_FILE), "bad file") == 0 && strcmp(yarib_status_text(YARIB_NOT_ADDED), "not added") == 0);
    CHECK(strcmp(yarib_status_text(YARIB_NO_BARRIER), "no barrier") == 0 && strcmp(yarib_status_text(YARIB_FORKED), "forked") == 0);
    CHECK(strcmp(yarib_status_text((enum yarib_status)16), "unknown status") == 0);
}

/* The feeds of these prefixes are the same in each language's package. */
static void feeds_of_a_source(void)
{
    static const struct { uint32_t base; uint8_t len; uint32_t feed; } prefixes[] = {
        {0, 0, 1}, {0x0a000000, 8, 11}, {0x0a010000, 16, 38}, {0xc0000200, 24, 2}, {UINT32_MAX, 32, 11}, {1u << 31, 1, 8}};
    for (size_t k = 0; k < sizeof prefixes / sizeof *prefixes; k++) {
        CHECK(yarib_source_feed(prefixes[k].base, prefixes[k].len, 1, YARIB_MAX_FEED) == prefixes[k].feed);
        CHECK(yarib_source_feed(prefixes[k].base, prefixes[k].len, 7, 1) == 7);
    }
}

int main(void)
{
    yarib empty = YARIB_EMPTY;
    nothing(&empty);
    faults();
    kinds();
    parts();
    pages();
    followed();
    differences();
    texts();
    names();
    feeds_of_a_source();
    return 0;
}
