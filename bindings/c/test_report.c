/* Answers the lines of a feed file, well formed and of one feed, and writes what `yarib run` writes of it.
 *
 *     test_report FILE LIMIT KIND
 *
 * The final table is also queried in other ways, which have to agree with it. */
#include "check.h"
#include "routes.h"

#include <string.h>

enum { ASKED = 999, PAGE = 100 };

static yarib table = YARIB_EMPTY;

static void put(const yarib_route *route)
{
    char text[MAX_ROUTE_TEXT];
    CHECK(write_route(text, route));
    fputs(text, stdout);
}

static uint32_t read_address(const char *text)
{
    uint32_t address;
    CHECK(yarib_address_parse(text, strlen(text), &address) == YARIB_DONE);
    return address;
}

/* The command of a line, which has no fault. */
static yarib_command read_line(char *line)
{
    static const char *names[] = {"", "add", "replace", "withdraw", "lookup", "dump", "purge"};
    const char *word = strtok(line, " ");
    uint32_t operation = 0;
    while (strcmp(names[operation], word) != 0) operation++;
    if (operation > YARIB_LOOKUP) return (yarib_command){.operation = operation, .feed = 1};
    word = strtok(NULL, " ");
    if (operation == YARIB_LOOKUP) return (yarib_command){.operation = operation, .feed = 1, .base = read_address(word)};
    yarib_prefix prefix;
    CHECK(yarib_prefix_parse(word, strlen(word), &prefix) == YARIB_DONE);
    yarib_command command = {.operation = operation, .feed = 1, .base = prefix.base, .len = prefix.len};
    if (operation == YARIB_WITHDRAW) return command;
    const char *preference = strtok(NULL, " "), *hop = strtok(NULL, " ");
    bool is_discard = strcmp(hop, "discard") == 0;
    command = put_command(operation, 1, prefix.base, prefix.len, (uint32_t)strtoul(preference, NULL, 10), is_discard ? 0 : read_address(hop));
    if (is_discard) command.hop = YARIB_DISCARD;
    return command;
}

static void report(int line, const yarib_reply *reply)
{
    static const char *said[] = {"",        "added", "exists",   "full",   "replaced", "withdrawn",
                                 "missing", "route ", "no route", "dumped", "purged"};
    printf("1:%d %s", line, said[reply->code]);
    if (reply->code == YARIB_FOUND) put(&reply->route);
    if (reply->code >= YARIB_DUMPED) printf(" %u", reply->count);
    printf("\n");
}

/* Every kind of query has the answer of the command `lookup`. */
static void ask(const yarib_route *routes, size_t size)
{
    uint32_t asked[ASKED];
    uint32_t hops[ASKED], forwarded_hops[ASKED];
    yarib_route answers[ASKED], forwarded[ASKED], shared[ASKED], all[YARIB_MAX_FEED * (YARIB_MAX_PREFIX_LENGTH + 1)];
    yarib forwarding = YARIB_EMPTY, other = YARIB_EMPTY;
    for (uint32_t k = 0; k < ASKED; k++) asked[k] = k % 3 && size ? routes[k * 7 % size].base + k : k * 4294967u;
    CHECK(yarib_look_up(&table, asked, ASKED, answers, ASKED) == YARIB_DONE);
    CHECK(yarib_fib_new(&table, &forwarding) == YARIB_DONE && yarib_fib_clone(&forwarding, &other) == YARIB_DONE);
    CHECK(yarib_look_up(&forwarding, asked, ASKED, forwarded, ASKED) == YARIB_DONE);
    CHECK(yarib_hops(&forwarding, asked, ASKED, 0, 1, forwarded_hops, ASKED) == YARIB_DONE);
    CHECK(yarib_hops(&table, asked, ASKED, 0, 1, hops, ASKED) == YARIB_DONE);
    yarib_free(&forwarding);
    CHECK(yarib_look_up(&other, asked, ASKED, shared, ASKED) == YARIB_DONE);
    yarib_free(&other);
    for (uint32_t k = 0; k < ASKED; k++) {
        yarib_command command = {.operation = YARIB_LOOKUP, .feed = 1, .base = asked[k]};
        yarib_route none = {.hop = YARIB_NO_ROUTE}, found, one;
        yarib_reply reply;
        size_t total;
        CHECK(yarib_apply(&table, &command, &reply) == YARIB_DONE);
        CHECK(yarib_look_up_all(&table, asked[k], 0, all, sizeof all / sizeof *all, &total) == YARIB_DONE);
        found = reply.code == YARIB_FOUND ? reply.route : none;
        CHECK(is_same_route(&found, &answers[k]) && is_same_route(&found, &forwarded[k]) && is_same_route(&found, &shared[k]));
        CHECK(yarib_look_up_one(&table, asked[k], &one) == YARIB_DONE && is_same_route(&found, &one));
        CHECK(hops[k] == (found.hop == YARIB_VIA ? found.via : found.hop == YARIB_DISCARD) && forwarded_hops[k] == hops[k]);
        CHECK(total == 0 ? found.hop == YARIB_NO_ROUTE : is_same_route(&found, &all[0]));
    }
}

/* The table in pages, and in one piece. */
static yarib_route *all_routes(size_t *size)
{
    size_t total;
    CHECK(yarib_count(&table, size) == YARIB_DONE);
    yarib_route *routes = malloc((*size + 1) * sizeof *routes), page[PAGE];
    CHECK(routes && yarib_routes(&table, 0, routes, *size, &total) == YARIB_DONE && total == *size);
    for (size_t skip = 0; skip <= *size; skip += PAGE) {
        CHECK(yarib_routes(&table, skip, page, PAGE, &total) == YARIB_DONE && total == *size);
        for (size_t k = 0; k < PAGE && skip + k < *size; k++) CHECK(is_same_route(&page[k], &routes[skip + k]));
    }
    return routes;
}

/* Each entry of the journal gives the same reply in an empty table of the same limit, which then has the same routes. */
static void follow(uint32_t limit, uint32_t kind)
{
    yarib again = YARIB_EMPTY;
    yarib_difference range;
    yarib_entry entry;
    size_t total, seen;
    if (kind == YARIB_PLAIN) {
        CHECK(yarib_journal(&table, 0, &entry, 1, &total) == YARIB_WRONG_KIND);
        return;
    }
    CHECK(yarib_new(&again, limit, YARIB_PLAIN) == YARIB_DONE && yarib_journal(&table, 0, &entry, 0, &total) == YARIB_DONE);
    for (size_t k = 0; k < total; k++) {
        yarib_reply reply;
        CHECK(yarib_journal(&table, k, &entry, 1, &seen) == YARIB_DONE && seen == total);
        CHECK(yarib_apply(&again, &entry.command, &reply) == YARIB_DONE);
        CHECK(reply.code == entry.reply.code && reply.count == entry.reply.count);
        CHECK(is_same_route(&reply.route, &entry.reply.route));
    }
    CHECK(yarib_first_difference(&table, &again, 1, 0, &range) == YARIB_NONE_LEFT);
    yarib_free(&again);
}

int main(int count, char **words)
{
    char line[256];
    CHECK(count == 4);
    uint32_t limit = (uint32_t)atoi(words[2]), kind = (uint32_t)atoi(words[3]);
    FILE *file = fopen(words[1], "r");
    CHECK(file && yarib_new(&table, limit, kind) == YARIB_DONE);
    for (int number = 1; fgets(line, sizeof line, file); number++) {
        line[strcspn(line, "\n")] = '\0';
        if (!line[0] || line[0] == '#' || (number == 1 && strcmp(line, "version 2") == 0)) continue;
        yarib_command command = read_line(line);
        yarib_reply reply;
        CHECK(yarib_apply(&table, &command, &reply) == YARIB_DONE);
        report(number, &reply);
    }
    fclose(file);
    size_t size;
    yarib_route *routes = all_routes(&size);
    printf("table %zu\n", size);
    for (size_t k = 0; k < size; k++) {
        put(&routes[k]);
        printf("\n");
    }
    ask(routes, size);
    follow(limit, kind);
    free(routes);
    yarib_free(&table);
    return 0;
}
