/* Each allocation fails in turn: the status says so, all is as it was, and the same call then succeeds. */
#include "check.h"
#include "refusing_heap.h"
#include "routes.h"

#include <string.h>

enum { ROUTES = 60 };

static int refused;

/* Returns the numbers of routes and entries by calls that don't allocate. */
static size_t sizes_of(yarib *table, uint32_t kind)
{
    size_t routes, entries = 0;
    yarib_entry entry;
    CHECK(yarib_count(table, &routes) == YARIB_DONE);
    if (kind == YARIB_JOURNALED) CHECK(yarib_journal(table, 0, &entry, 0, &entries) == YARIB_DONE);
    return routes * 1000 + entries;
}

/* Returns the command of the route k: 20 prefixes of three feeds. */
static yarib_command add(uint32_t k)
{
    return put_command(YARIB_ADD, 1 + k / 20, k % 20 << 24, 8, k, k);
}

/* Fills a table of 20 prefixes with the routes of three feeds. */
static void fill(yarib *table, uint32_t kind)
{
    for (uint32_t k = 0; k < ROUTES; k++) {
        const yarib_command command = add(k);
        yarib_reply reply = {.code = 99};
        size_t before = sizes_of(table, kind);
        uint32_t status = yarib_apply(table, &command, &reply);
        if (status != YARIB_DONE) {
            CHECK(status == YARIB_NO_MEMORY && reply.code == 99 && sizes_of(table, kind) == before);
            refused++;
            CHECK(yarib_apply(table, &command, &reply) == YARIB_DONE);
        }
        CHECK(reply.code == YARIB_ADDED);
    }
}

/* Makes each query that allocates, and makes it again after a refusal. */
static void ask(yarib *table)
{
    yarib_route all[ROUTES] = {{0}};
    const yarib_command fifth = add(5), sixth = add(6);
    uint32_t address = 5u << 24, status;
    size_t total = 99;
    while ((status = yarib_routes(table, 0, all, ROUTES, &total)) != YARIB_DONE) {
        CHECK(status == YARIB_NO_MEMORY && total == 99 && all[0].feed == 0);
        refused++;
    }
    CHECK(total == ROUTES && all[ROUTES - 1].base == 19u << 24);
    while ((status = yarib_look_up_all(table, address, 0, all, ROUTES, &total)) != YARIB_DONE) {
        CHECK(status == YARIB_NO_MEMORY && total == ROUTES);
        refused++;
    }
    CHECK(total == 3 && is_put_by(&all[0], &fifth));
    const yarib_selection asked = {.part = YARIB_EXACT, .base = 6u << 24, .len = 8};
    while ((status = yarib_select(table, &asked, 0, all, ROUTES, &total)) != YARIB_DONE) {
        CHECK(status == YARIB_NO_MEMORY && total == 3 && is_put_by(&all[0], &fifth));
        refused++;
    }
    CHECK(total == 3 && is_put_by(&all[0], &sixth));
    yarib_hop_count counts[ROUTES] = {{0}};
    while ((status = yarib_hop_counts(table, 0, counts, ROUTES, &total)) != YARIB_DONE) {
        CHECK(status == YARIB_NO_MEMORY && total == 3 && counts[0].hop == 0);
        refused++;
    }
    CHECK(total == 20 && counts[19].hop == YARIB_VIA && counts[19].via == 19 && counts[19].routes == 1);
    const yarib_route first = {0};
    long left = refused_call;
    refused_call = 1;
    CHECK(yarib_routes_from(table, &first, all, ROUTES, &total) == YARIB_DONE && total == ROUTES && all[3].base == 1u << 24);
    CHECK(refused_call == 1); /* it doesn't allocate */
    refused_call = left;
}

/* Makes two handles on a forwarding table. */
static void forward(yarib *table)
{
    yarib forwarding = YARIB_EMPTY, other = YARIB_EMPTY;
    const yarib_command fifth = add(5);
    uint32_t address = 5u << 24, status;
    yarib_route answer;
    while ((status = yarib_fib_new(table, &forwarding)) != YARIB_DONE) {
        CHECK(status == YARIB_NO_MEMORY && forwarding.inside == NULL);
        refused++;
    }
    while ((status = yarib_fib_clone(&forwarding, &other)) != YARIB_DONE) {
        CHECK(status == YARIB_NO_MEMORY && other.inside == NULL);
        refused++;
    }
    CHECK(yarib_look_up(&other, &address, 1, &answer, 1) == YARIB_DONE && is_put_by(&answer, &fifth));
    yarib_free(&forwarding);
    yarib_free(&other);
}

/* A table of this kind from its making on, with one refusal: whether there was a call for memory left to be refused. */
static int refuse_table(long number, uint32_t kind)
{
    yarib table = YARIB_EMPTY;
    uint32_t status;
    refused_call = number;
    while ((status = yarib_new(&table, 100, kind)) != YARIB_DONE) {
        CHECK(status == YARIB_NO_MEMORY && table.inside == NULL);
        refused++;
    }
    fill(&table, kind);
    ask(&table);
    yarib_free(&table);
    return refused_call == 0;
}

/* What a followed table answers is right whether or not its forwarding table is still there. */
static void ask_followed(yarib *table, uint32_t routes)
{
    for (uint32_t k = 0; k < 20; k++) {
        uint32_t address = k << 24 | 5;
        yarib_route answer;
        CHECK(yarib_look_up(table, &address, 1, &answer, 1) == YARIB_DONE);
        CHECK(k < routes ? answer.base == k << 24 && answer.via == k : answer.hop == YARIB_NO_ROUTE);
    }
}

/* A table with a forwarding table that follows it, from the making of the forwarding table on: if memory runs out for it, the
 * command is still answered, and the next call makes a new one. */
static int refuse_followed(long number)
{
    yarib table = YARIB_EMPTY;
    uint32_t status;
    size_t bytes;
    refused_call = 0;
    CHECK(yarib_new(&table, 100, YARIB_PLAIN) == YARIB_DONE);
    refused_call = number;
    while ((status = yarib_fib_attach(&table)) != YARIB_DONE) {
        CHECK(status == YARIB_NO_MEMORY && yarib_memory(&table, &bytes) == YARIB_DONE && bytes == 0);
        refused++;
    }
    for (uint32_t k = 0; k < 20; k++) {
        const yarib_command command = put_command(YARIB_ADD, 1, k << 24, 24, k, k);
        yarib_reply reply = {.code = 99};
        while ((status = yarib_apply(&table, &command, &reply)) != YARIB_DONE) {
            CHECK(status == YARIB_NO_MEMORY && reply.code == 99);
            ask_followed(&table, k);
            refused++;
        }
        CHECK(reply.code == YARIB_ADDED && yarib_memory(&table, &bytes) == YARIB_DONE);
        ask_followed(&table, k + 1);
        if (bytes < (size_t)1 << 26) {
            refused++;
            while ((status = yarib_fib_attach(&table)) != YARIB_DONE) CHECK(status == YARIB_NO_MEMORY);
        }
        ask_followed(&table, k + 1);
    }
    CHECK(yarib_memory(&table, &bytes) == YARIB_DONE && bytes >= (size_t)1 << 26);
    yarib_free(&table);
    return refused_call == 0;
}

/* The same of a forwarding table. */
static int refuse_forwarding(long number, uint32_t kind)
{
    yarib table = YARIB_EMPTY;
    refused_call = 0;
    CHECK(yarib_new(&table, 100, kind) == YARIB_DONE);
    fill(&table, kind);
    refused_call = number;
    forward(&table);
    yarib_free(&table);
    return refused_call == 0;
}

/* Checks that both calls that read the concurrent table find the routes of the first `routes` bytes, but the withdrawn one. */
static void ask_concurrent(const yarib_concurrent *table, uint32_t routes, uint32_t withdrawn)
{
    yarib_route answer;
    size_t total;
    CHECK(yarib_concurrent_count(table, &total) == YARIB_DONE && total == routes - (withdrawn < routes));
    for (uint32_t k = 0; k < 24; k++) {
        CHECK(yarib_concurrent_look_up_one(table, k << 24 | 5, &answer) == YARIB_DONE);
        CHECK(k < routes && k != withdrawn ? answer.base == k << 24 && answer.via == k : answer.hop == YARIB_NO_ROUTE);
    }
}

/* Executes a command in a concurrent table until memory is found. After each refusal readers have what they had. Returns 1 if it is a
 * command that doesn't allocate, which was refused because the other side lacks an add. */
static int apply_concurrent(yarib_concurrent *table, yarib_command command, uint32_t routes, uint32_t withdrawn)
{
    yarib_reply reply = {.code = 99};
    uint32_t status;
    int is_late = 0;
    while ((status = yarib_concurrent_apply(table, &command, &reply)) != YARIB_DONE) {
        CHECK(status == YARIB_NO_MEMORY && reply.code == 99);
        ask_concurrent(table, routes, withdrawn);
        refused++;
        is_late |= command.operation != YARIB_ADD;
    }
    CHECK(reply.code == (command.operation == YARIB_ADD ? YARIB_ADDED : YARIB_WITHDRAWN));
    return is_late;
}

/* A concurrent table from its creation on: a change that is refused isn't made. A change that is refused only in the second side is
 * kept, and made there before the next change. */
static int refuse_concurrent(long number, int is_attached, int *late)
{
    yarib_concurrent table = YARIB_CONCURRENT_EMPTY;
    yarib_command batch[4];
    yarib_reply replies[4];
    const uint32_t first = is_attached ? 5 : 20, all = first + 4, none = 99;
    uint32_t status;
    size_t bytes;
    refused_call = is_attached ? 0 : number;
    while ((status = yarib_concurrent_new(&table, 100)) != YARIB_DONE) {
        CHECK(status == YARIB_NO_MEMORY && table.inside == NULL);
        refused++;
    }
    if (is_attached) refused_call = number;
    while (is_attached && (status = yarib_concurrent_fib_attach(&table)) != YARIB_DONE) {
        CHECK(status == YARIB_NO_MEMORY && yarib_concurrent_memory(&table, &bytes) == YARIB_DONE);
        ask_concurrent(&table, 0, none);
        refused++;
    }
    /* Both sides have a forwarding table, also after a refusal. */
    for (uint32_t k = 0; k < 2 && is_attached && refused_call == 0; k++) {
        uint32_t attached = 0;
        CHECK(yarib_concurrent_fib_is_attached(&table, &attached) == YARIB_DONE && attached == 1);
        apply_concurrent(&table, put_command(k ? YARIB_WITHDRAW : YARIB_ADD, 1, 9u << 24, 8, 0, 9), 0, none);
    }
    for (uint32_t k = 0; k < first; k++) {
        yarib_command command = put_command(YARIB_ADD, 1, k << 24, k % 3 ? 8 : 25, k, k);
        apply_concurrent(&table, command, k, none);
        ask_concurrent(&table, k + 1, none);
        command.operation = YARIB_WITHDRAW;
        *late += apply_concurrent(&table, command, k + 1, none);
        ask_concurrent(&table, k + 1, k);
        command.operation = YARIB_ADD;
        apply_concurrent(&table, command, k + 1, k);
        ask_concurrent(&table, k + 1, none);
    }
    /* Of a batch those commands are published that found memory. */
    for (uint32_t k = 0; k < 4; k++) batch[k] = put_command(YARIB_ADD, 1, (first + k) << 24, 8, 0, first + k);
    while ((status = yarib_concurrent_apply_each(&table, batch, 4, replies, 4)) != YARIB_DONE) {
        CHECK(status == YARIB_NO_MEMORY);
        ask_concurrent(&table, first, none);
        refused++;
    }
    for (uint32_t k = 0; k < 4; k++) {
        if (replies[k].code == YARIB_ADDED) continue;
        CHECK(replies[k].code == YARIB_UNANSWERED && replies[k].count == YARIB_NO_MEMORY);
        ask_concurrent(&table, all, first + k);
        refused++;
        apply_concurrent(&table, batch[k], all, first + k);
    }
    ask_concurrent(&table, all, none);
    /* Two more changes show the other side. */
    batch[0].operation = YARIB_WITHDRAW;
    *late += apply_concurrent(&table, batch[0], all, none);
    ask_concurrent(&table, all, first);
    batch[0].operation = YARIB_ADD;
    apply_concurrent(&table, batch[0], all, first);
    ask_concurrent(&table, all, none);
    long left = refused_call;
    refused_call = 0;
    if (is_attached) {
        CHECK(yarib_concurrent_fib_attach(&table) == YARIB_DONE);
        for (uint32_t k = 0; k < 2; k++) {
            CHECK(yarib_concurrent_memory(&table, &bytes) == YARIB_DONE && bytes >= (size_t)2 << 26);
            batch[0].operation = k ? YARIB_ADD : YARIB_WITHDRAW;
            apply_concurrent(&table, batch[0], all, k ? first : none);
        }
        ask_concurrent(&table, all, none);
    }
    CHECK(yarib_concurrent_free(&table) == YARIB_DONE && table.inside == NULL);
    return left == 0;
}

/* A copy of a concurrent table, and its replacement: what is refused leaves both tables as they were. */
static int refuse_copies(long number, int is_attached)
{
    yarib_concurrent table = YARIB_CONCURRENT_EMPTY, fresh = YARIB_CONCURRENT_EMPTY;
    yarib other = YARIB_EMPTY, copy = YARIB_EMPTY;
    yarib_command command = put_command(YARIB_ADD, 1, 0, 8, 0, 0);
    yarib_reply reply;
    yarib_route answer;
    uint32_t attached = 9;
    enum yarib_status status;
    refused_call = 0;
    CHECK(yarib_concurrent_new(&table, 100) == YARIB_DONE && yarib_new(&other, 100, YARIB_PLAIN) == YARIB_DONE);
    CHECK(yarib_concurrent_apply(&table, &command, &reply) == YARIB_DONE);
    if (is_attached) CHECK(yarib_concurrent_fib_attach(&table) == YARIB_DONE);
    for (uint32_t k = 0; k < 5; k++) {
        command = put_command(YARIB_ADD, 1, k << 24, k % 3 ? 8 : 25, k, k);
        CHECK(yarib_apply(&other, &command, &reply) == YARIB_DONE);
    }
    /* A copy has no forwarding table, so one round of them is enough. */
    if (!is_attached) refused_call = number;
    while ((status = yarib_concurrent_copy(&table, 100, &copy)) != YARIB_DONE) {
        CHECK(status == YARIB_NO_MEMORY && copy.inside == NULL);
        refused++;
    }
    if (is_attached) refused_call = number;
    while ((status = yarib_concurrent_replace(&table, 100, &other)) != YARIB_DONE) {
        CHECK(status == YARIB_NO_MEMORY);
        ask_concurrent(&table, 1, 99);
        refused++;
    }
    for (uint32_t k = 5; k < 7; k++) {
        apply_concurrent(&table, put_command(YARIB_ADD, 1, k << 24, 8, k, k), k, 99);
        ask_concurrent(&table, k + 1, 99);
        CHECK(yarib_concurrent_fib_is_attached(&table, &attached) == YARIB_DONE && (attached || !is_attached || refused_call == 0));
    }
    while ((status = yarib_concurrent_replace(&fresh, 100, &other)) != YARIB_DONE) {
        CHECK(status == YARIB_NO_MEMORY && fresh.inside == NULL);
        refused++;
    }
    ask_concurrent(&fresh, 5, 99);
    CHECK(yarib_look_up_one(&copy, 5, &answer) == YARIB_DONE && answer.hop == YARIB_VIA && answer.via == 0);
    long left = refused_call;
    refused_call = 0;
    CHECK(yarib_concurrent_free(&table) == YARIB_DONE && yarib_concurrent_free(&fresh) == YARIB_DONE);
    CHECK(yarib_free(&other) == YARIB_DONE && yarib_free(&copy) == YARIB_DONE);
    return left == 0;
}

/* A view of a forwarding table with one route: while a call for memory is refused, nothing is written. */
static int refuse_view(long number)
{
    static uint32_t entries[1 << 24];
    yarib table = YARIB_EMPTY, forwarding = YARIB_EMPTY;
    uint32_t blocks[256] = {0}, routers[8] = {0};
    yarib_view view = {entries, YARIB_VIEW_ENTRIES, blocks, 256, routers, 8};
    yarib_command command = {.operation = YARIB_ADD, .feed = 1, .base = 0x01020304, .len = 32, .hop = YARIB_VIA, .via = 6};
    yarib_reply reply;
    enum yarib_status status;
    refused_call = 0;
    CHECK(yarib_new(&table, 1, YARIB_PLAIN) == YARIB_DONE && yarib_apply(&table, &command, &reply) == YARIB_DONE);
    CHECK(yarib_fib_new(&table, &forwarding) == YARIB_DONE);
    memset(entries, 0, sizeof entries);
    refused_call = number;
    while ((status = yarib_view_write(&forwarding, &view)) != YARIB_DONE) {
        CHECK(status == YARIB_NO_MEMORY && view.router_count == 8 && entries[0x010203] == 0 && blocks[4] == 0 && routers[2] == 0);
        refused++;
    }
    long left = refused_call;
    refused_call = 0;
    CHECK(view.router_count == 3 && routers[2] == 6 && yarib_view_look_up(&view, 0x01020304) == 2);
    CHECK(yarib_view_look_up(&view, 0x01020305) == YARIB_NUMBER_NO_ROUTE);
    CHECK(yarib_free(&table) == YARIB_DONE && yarib_free(&forwarding) == YARIB_DONE);
    return left == 0;
}

static void refuse_plain(void)
{
    for (uint32_t kind = YARIB_PLAIN; kind <= YARIB_JOURNALED; kind++) {
        long number = 1;
        while (refuse_table(number, kind)) number++;
        CHECK(number > ROUTES / 2);
        number = 1;
        while (refuse_forwarding(number, kind)) number++;
        CHECK(number > 4);
    }
    long number = 1;
    while (refuse_followed(number)) number++;
    CHECK(number > 10);
    number = 1;
    while (refuse_view(number)) number++;
    CHECK(number > 3);
}

/* With an argument, only concurrent tables are tried. */
int main(int count, char **words)
{
    (void)words;
    if (count == 1) refuse_plain();
    for (int is_attached = 0; is_attached < 2; is_attached++) {
        long number = 1;
        int late = 0;
        while (refuse_concurrent(number, is_attached, &late)) number++;
        CHECK(number > (is_attached ? 30 : 80) && late >= (is_attached ? 4 : 10));
        /* With forwarding tables every third call: each round makes six of them. */
        for (number = 1; refuse_copies(number, is_attached);) number += is_attached ? 3 : 1;
        CHECK(number > 20);
    }
    printf("refused %d\n", refused);
    return 0;
}
