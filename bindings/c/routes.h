/* Routes for the tests and benches: how they are made, compared, sorted and written. Only this file of them names each field. */
#ifndef YARIB_TEST_ROUTES_H
#define YARIB_TEST_ROUTES_H

#include <stdbool.h>
#include <stdio.h>
#include <yarib.h>

/* Room for the text of a route and its end. */
enum { MAX_ROUTE_TEXT = 100 };

/* Returns the size of a table, or SIZE_MAX if the call fails. */
static inline size_t memory_of(const yarib *table)
{
    size_t bytes;
    return yarib_memory(table, &bytes) == YARIB_DONE ? bytes : SIZE_MAX;
}

/* A route to 10.0.0.0/8 of feed 1. */
static const yarib_command add_eight = {
    .operation = YARIB_ADD, .feed = 1, .base = 10u << 24, .len = 8, .pref = 5, .hop = YARIB_VIA, .via = 7};

/* Returns a command that adds or replaces this route. The caller changes the hop of a route that discards. */
static inline yarib_command put_command(uint32_t operation, uint32_t feed, uint32_t base, uint8_t len, uint32_t preference, uint32_t via)
{
    return (yarib_command){.operation = operation, .feed = feed, .base = base, .len = len, .pref = preference, .hop = YARIB_VIA, .via = via};
}

/* Returns a position in the order of a table's routes. */
static inline yarib_route position(uint32_t base, uint8_t len, uint32_t preference, uint32_t feed)
{
    return (yarib_route){.base = base, .len = len, .pref = preference, .feed = feed};
}

/* Returns true if the routes have the same fields. */
static inline bool is_same_route(const yarib_route *one, const yarib_route *other)
{
    return one->base == other->base && one->len == other->len && one->pref == other->pref && one->feed == other->feed
        && one->via == other->via && one->hop == other->hop;
}

/* Returns true if a route is the one that the command puts into the table. */
static inline bool is_put_by(const yarib_route *route, const yarib_command *command)
{
    const yarib_route expected = {.base = command->base, .len = command->len, .pref = command->pref, .feed = command->feed,
        .hop = command->hop, .via = command->via};
    return is_same_route(route, &expected);
}

/* Returns true if a route comes before a position in the order of the table. */
static inline bool precedes(const yarib_route *route, const yarib_route *place)
{
    if (route->base != place->base) return route->base < place->base;
    if (route->len != place->len) return route->len < place->len;
    return route->pref != place->pref ? route->pref < place->pref : route->feed < place->feed;
}

/* Writes a route as the program prints it, by the library's calls. Returns true if none fails. */
static inline bool write_route(char text[MAX_ROUTE_TEXT], const yarib_route *route)
{
    const yarib_prefix prefix = {route->base, route->len};
    size_t used;
    if (yarib_prefix_print(&prefix, text, YARIB_MAX_PREFIX_TEXT, &used) != YARIB_DONE) return false;
    text += used;
    text += sprintf(text, " feed %u pref %u via ", route->feed, route->pref);
    used = 0;
    if (route->hop == YARIB_DISCARD) text += sprintf(text, "discard");
    else if (yarib_address_print(route->via, text, YARIB_MAX_ADDRESS_TEXT, &used) != YARIB_DONE) return false;
    text[used] = '\0';
    return true;
}

/* Writes an address without the library's calls. Returns its size. */
static inline int write_address(char *text, uint32_t address)
{
    return sprintf(text, "%u.%u.%u.%u", address >> 24, address >> 16 & 255, address >> 8 & 255, address & 255);
}

/* Writes the line of a feed file that adds a route, without the library's calls. Returns its size. */
static inline int write_line(char *text, const yarib_route *route)
{
    int size = sprintf(text, "add ");
    size += write_address(text + size, route->base);
    size += sprintf(text + size, "/%u %u ", route->len, route->pref);
    size += route->hop == YARIB_DISCARD ? sprintf(text + size, "discard") : write_address(text + size, route->via);
    return size + sprintf(text + size, "\n");
}

#endif
