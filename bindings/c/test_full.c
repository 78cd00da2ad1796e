/* A table of the size of the Internet's, and its forwarding tables, views and copies: no call refuses this size, and each copy has all
 * of its routes. */
#include "check.h"
#include "routes.h"

#include <string.h>

enum { ROUTES = 1050000, OF_FIRST = 600000, LIMIT = 1000000, ROUTERS = 5000, BATCH = 50000, EVERY = 97, ADDRESSES = ROUTES / EVERY + 1 };

static yarib table = YARIB_INIT, copy = YARIB_INIT;
static yarib_concurrent shared = YARIB_CONCURRENT_INIT, other = YARIB_CONCURRENT_INIT;
static uint32_t addresses[ADDRESSES], numbers[ADDRESSES];
static yarib_hop_count counts[ROUTERS + 1];

static uint32_t base_of(uint32_t route)
{
    return (route + (1 << 16)) << 8;
}

static uint32_t router_of(uint32_t route)
{
    return (10u << 24) + route % ROUTERS;
}

/* Adds all routes to a table or to a concurrent one; the other handle is null. */
static void fill(yarib *plain, yarib_concurrent *concurrent)
{
    static yarib_command commands[BATCH];
    static yarib_reply replies[BATCH];
    for (uint32_t first = 0; first < ROUTES; first += BATCH) {
        for (uint32_t k = 0; k < BATCH; k++)
            commands[k] = put_command(YARIB_ADD, first + k < OF_FIRST ? 1 : 2, base_of(first + k), 24, 1, router_of(first + k));
        if (plain) CHECK(yarib_apply_each(plain, commands, BATCH, replies, BATCH) == YARIB_DONE);
        else CHECK(yarib_concurrent_apply_each(concurrent, commands, BATCH, replies, BATCH) == YARIB_DONE);
        for (uint32_t k = 0; k < BATCH; k++) CHECK(replies[k].code == YARIB_ADDED);
    }
}

static void check_answer(uint32_t k, const yarib_route *answer)
{
    CHECK(answer->base == base_of(k * EVERY) && answer->len == 24 && answer->via == router_of(k * EVERY));
}

static void check_answers(const yarib *asked)
{
    static yarib_route answers[ADDRESSES];
    memset(answers, 0, sizeof answers);
    CHECK(yarib_look_up(asked, addresses, ADDRESSES, answers, ADDRESSES) == YARIB_DONE);
    for (uint32_t k = 0; k < ADDRESSES; k++) check_answer(k, &answers[k]);
}

static void check_concurrent_answers(const yarib_concurrent *asked)
{
    static yarib_route answers[ADDRESSES];
    memset(answers, 0, sizeof answers);
    CHECK(yarib_concurrent_look_up(asked, addresses, ADDRESSES, answers, ADDRESSES) == YARIB_DONE);
    for (uint32_t k = 0; k < ADDRESSES; k++) check_answer(k, &answers[k]);
}

/* Each router has the same number of routes, in the order of addresses. */
static void check_counts(size_t total)
{
    CHECK(total == ROUTERS);
    for (uint32_t k = 0; k < ROUTERS; k++)
        CHECK(counts[k].hop == YARIB_VIA && counts[k].via == router_of(k) && counts[k].routes == ROUTES / ROUTERS);
    memset(counts, 0, sizeof counts);
}

/* The view of a forwarding table, or of a table with an attached one. */
static void check_view(const yarib *viewed)
{
    size_t blocks, routers;
    CHECK(yarib_view_sizes(viewed, &blocks, &routers) == YARIB_DONE && routers >= ROUTERS);
    yarib_view view = {malloc(4 * YARIB_VIEW_ENTRIES), YARIB_VIEW_ENTRIES, malloc(4 * blocks), blocks, malloc(4 * routers), routers};
    CHECK(view.entries && view.blocks && view.routers && yarib_view_write(viewed, &view) == YARIB_DONE);
    CHECK(yarib_view_look_up_each(&view, addresses, ADDRESSES, numbers, ADDRESSES) == YARIB_DONE);
    for (uint32_t k = 0; k < ADDRESSES; k++) {
        CHECK(numbers[k] >= YARIB_FIRST_ROUTER && numbers[k] < view.router_count);
        CHECK(view.routers[numbers[k]] == router_of(k * EVERY));
    }
    free(view.entries);
    free(view.blocks);
    free(view.routers);
}

/* Forwarding tables that are made, copied, viewed and attached. */
static void forward(void)
{
    yarib forwarding = YARIB_INIT, clone = YARIB_INIT;
    uint32_t attached = 0;
    CHECK(yarib_fib_new(&table, &forwarding) == YARIB_DONE && yarib_fib_clone(&forwarding, &clone) == YARIB_DONE);
    check_answers(&forwarding);
    CHECK(yarib_free(&forwarding) == YARIB_DONE);
    check_answers(&clone);
    check_view(&clone);
    CHECK(yarib_free(&clone) == YARIB_DONE);
    CHECK(yarib_fib_attach(&table) == YARIB_DONE && yarib_fib_is_attached(&table, &attached) == YARIB_DONE && attached == 1);
    check_answers(&table);
    check_view(&table);
}

/* A route that covers all others comes and goes: the attached forwarding table is filled again, and stays right. */
static void cover(void)
{
    yarib_command all = put_command(YARIB_ADD, 3, 0, 0, 1, 7);
    yarib_route answer;
    yarib_reply reply;
    uint32_t attached = 0;
    CHECK(yarib_apply(&table, &all, &reply) == YARIB_DONE && reply.code == YARIB_ADDED);
    check_answers(&table);
    CHECK(yarib_look_up_one(&table, 1, &answer) == YARIB_DONE && answer.len == 0 && answer.via == 7);
    all.operation = YARIB_WITHDRAW;
    CHECK(yarib_apply(&table, &all, &reply) == YARIB_DONE && reply.code == YARIB_WITHDRAWN);
    check_answers(&table);
    CHECK(yarib_look_up_one(&table, 1, &answer) == YARIB_DONE && answer.hop == 0);
    CHECK(yarib_fib_is_attached(&table, &attached) == YARIB_DONE && attached == 1);
}

/* A concurrent table that is copied, and one that another replaces, have the routes of the first one. */
static void compare_copies(void)
{
    yarib_difference found;
    size_t total;
    CHECK(yarib_concurrent_copy(&shared, LIMIT, &copy) == YARIB_DONE && yarib_count(&copy, &total) == YARIB_DONE && total == ROUTES);
    CHECK(yarib_first_difference(&table, &copy, 1, 0, &found) == YARIB_NONE_LEFT);
    CHECK(yarib_concurrent_new(&other, LIMIT) == YARIB_DONE && yarib_concurrent_replace(&other, LIMIT, &copy) == YARIB_DONE);
    CHECK(yarib_concurrent_count(&other, &total) == YARIB_DONE && total == ROUTES);
    CHECK(yarib_concurrent_first_difference(&shared, &other, 1, 0, &found) == YARIB_NONE_LEFT);
    CHECK(yarib_free(&copy) == YARIB_DONE && yarib_concurrent_free(&other) == YARIB_DONE);
}

int main(void)
{
    size_t total;
    for (uint32_t k = 0; k < ADDRESSES; k++) addresses[k] = base_of(k * EVERY) + k % 256;
    CHECK(yarib_new(&table, LIMIT, YARIB_PLAIN) == YARIB_DONE);
    fill(&table, NULL);
    CHECK(yarib_count(&table, &total) == YARIB_DONE && total == ROUTES);
    CHECK(yarib_hop_counts(&table, 0, counts, ROUTERS + 1, &total) == YARIB_DONE);
    check_counts(total);
    forward();
    cover();
    CHECK(yarib_concurrent_new(&shared, LIMIT) == YARIB_DONE);
    fill(NULL, &shared);
    CHECK(yarib_concurrent_hop_counts(&shared, 0, counts, ROUTERS + 1, &total) == YARIB_DONE);
    check_counts(total);
    compare_copies();
    CHECK(yarib_concurrent_fib_attach(&shared) == YARIB_DONE);
    check_concurrent_answers(&shared);
    CHECK(yarib_concurrent_free(&shared) == YARIB_DONE && yarib_free(&table) == YARIB_DONE);
    return 0;
}
