/* No size of what is listed, reserved or built makes a call run out of memory, and what is after a list's end stays as it was. */
#include "check.h"

#include <string.h>
#include <yarib.h>

enum { ROUTES = 400000, COVERING = 33 * 3, ALL = ROUTES + COVERING, ROOM = ALL + 10, MARK = 0x5a };

static yarib_route found[ROOM];

static void add(yarib *table, uint32_t feed, uint32_t base, uint8_t len, uint32_t via)
{
    yarib_command command = {.operation = YARIB_ADD, .feed = feed, .base = base, .len = len, .hop = YARIB_VIA, .via = via};
    yarib_reply reply;
    CHECK(yarib_apply(table, &command, &reply) == YARIB_DONE && reply.code == YARIB_ADDED);
}

static void mark(void)
{
    memset(found, MARK, sizeof found);
}

/* A list has this size, and the places after its end hold what they held. */
static void check_end(size_t total, size_t size)
{
    const unsigned char *rest = (const unsigned char *)(found + size);
    CHECK(total == size && found[size - 1].hop == YARIB_VIA);
    for (size_t k = 0; k < (ROOM - size) * sizeof *found; k++) CHECK(rest[k] == MARK);
}

static void lists(const yarib *table)
{
    const yarib_selection all = {.part = YARIB_WITHIN}, covering = {.part = YARIB_COVERING, .len = 32};
    const yarib_route first = {0};
    size_t total;
    mark();
    CHECK(yarib_routes(table, 0, found, ROOM, &total) == YARIB_DONE);
    check_end(total, ALL);
    mark();
    CHECK(yarib_routes_from(table, &first, found, ROOM, &total) == YARIB_DONE);
    check_end(total, ALL);
    mark();
    CHECK(yarib_select(table, &all, 0, found, ROOM, &total) == YARIB_DONE);
    check_end(total, ALL);
    mark();
    CHECK(yarib_select(table, &covering, 0, found, ROOM, &total) == YARIB_DONE);
    check_end(total, COVERING);
    mark();
    CHECK(yarib_look_up_all(table, 0, 0, found, ROOM, &total) == YARIB_DONE);
    check_end(total, COVERING);
}

static void answers(const yarib *table)
{
    for (uint32_t k = 1; k <= ROUTES; k += 997) {
        yarib_route answer;
        CHECK(yarib_look_up_one(table, k << 4 | 1, &answer) == YARIB_DONE && answer.len == 32 && answer.via == k);
    }
}

static void journal(void)
{
    yarib table = YARIB_EMPTY;
    yarib_entry entries[10];
    size_t total;
    CHECK(yarib_new(&table, 1000000, YARIB_JOURNALED) == YARIB_DONE && yarib_reserve(&table, 3000000) == YARIB_DONE);
    for (uint32_t k = 0; k < 5; k++) add(&table, 1, k << 12, 32, k);
    memset(entries, MARK, sizeof entries);
    CHECK(yarib_journal(&table, 0, entries, 10, &total) == YARIB_DONE && total == 5 && entries[4].command.via == 4);
    for (const unsigned char *rest = (unsigned char *)(entries + 5); rest < (unsigned char *)(entries + 10); rest++) CHECK(*rest == MARK);
    yarib_free(&table);
}

int main(void)
{
    yarib table = YARIB_EMPTY, forwarding = YARIB_EMPTY;
    CHECK(yarib_new(&table, 1000000, YARIB_PLAIN) == YARIB_DONE);
    for (uint32_t k = 1; k <= ROUTES; k++) add(&table, 1, k << 4 | 1, 32, k);
    for (uint32_t k = 0; k < COVERING; k++) add(&table, 2 + k % 3, 0, k / 3, k);
    lists(&table);
    answers(&table);
    CHECK(yarib_fib_new(&table, &forwarding) == YARIB_DONE);
    answers(&forwarding);
    CHECK(yarib_fib_attach(&table) == YARIB_DONE);
    answers(&table);
    journal();
    yarib_free(&forwarding);
    yarib_free(&table);
    return 0;
}
