/* Calls on a handle during another call on it. The library gets its memory from the functions below, which make these calls from
 * inside: so it is known which call is under way. Those that must not run return YARIB_BUSY and change nothing; reading calls run
 * during reading calls. */
#include "check.h"
#include "own_heap.h"
#include "routes.h"

static yarib table = YARIB_EMPTY, other = YARIB_EMPTY, forwarding = YARIB_EMPTY;
static void (*inside)(void);
static int entered;

/* Makes the calls that are to be made during the next call for memory or its release. */
static void meet(void)
{
    void (*call)(void) = inside;
    inside = NULL;
    if (call) {
        entered++;
        call();
    }
}

struct tried rattle_alloc(size_t size, size_t alignment)
{
    (void)alignment;
    meet();
    return (struct tried){true, malloc(size ? size : 1)};
}

struct tried rattle_realloc(void *block, size_t kept, size_t size, size_t alignment)
{
    (void)kept;
    (void)alignment;
    meet();
    return (struct tried){true, realloc(block, size ? size : 1)};
}

void rattle_dealloc(void *block)
{
    meet();
    free(block);
}

static const yarib_command dump = {.operation = YARIB_DUMP, .feed = 1};

/* The status of each reading call on the table, if it is the same for all. */
static enum yarib_status reading(void)
{
    const uint32_t address = 10u << 24;
    const yarib_route start = {0};
    const yarib_selection all = {.part = YARIB_ALL};
    yarib_route route;
    yarib_entry entry;
    yarib_change one;
    yarib_hop_count hop_count;
    yarib_difference range;
    uint32_t hop, attached;
    size_t total, other_total;
    yarib_view view = {&hop, 1, &hop, 1, &hop, 1};
    enum yarib_status status = yarib_look_up_one(&table, address, &route), compared, viewed;
    CHECK(yarib_look_up(&table, &address, 1, &route, 1) == status);
    CHECK(yarib_hops(&table, &address, 1, 0, 1, &hop, 1) == status);
    CHECK(yarib_look_up_all(&table, address, 0, &route, 1, &total) == status);
    CHECK(yarib_routes(&table, 0, &route, 1, &total) == status);
    CHECK(yarib_routes_from(&table, &start, &route, 1, &total) == status);
    CHECK(yarib_select(&table, &all, 0, &route, 1, &total) == status);
    CHECK(yarib_select_by_hop(&table, &all, YARIB_VIA, 1, 0, &route, 1, &total) == status);
    CHECK(yarib_hop_counts(&table, 0, &hop_count, 1, &total) == status);
    CHECK(yarib_purge_changes(&table, 1, 0, &one, 1, &total) == status);
    CHECK(yarib_count(&table, &total) == status);
    CHECK(yarib_memory(&table, &total) == status);
    CHECK(yarib_fib_is_attached(&table, &attached) == status);
    viewed = status == YARIB_DONE ? YARIB_WRONG_KIND : status;
    CHECK(yarib_view_sizes(&table, &total, &other_total) == viewed && yarib_view_write(&table, &view) == viewed);
    CHECK(yarib_journal(&table, 0, &entry, 1, &total) == status);
    compared = yarib_first_difference(&table, &other, 0, 0, &range);
    CHECK(compared == status && yarib_first_difference(&other, &table, 0, 0, &range) == status);
    CHECK(yarib_fib_new(&table, &forwarding) == status);
    return status;
}

/* Every change of the table is busy, and so is every call that would make something in it. */
static void changes_are_busy(void)
{
    yarib_reply reply = {.code = 99};
    yarib_change change = {.base = 99};
    CHECK(yarib_apply_changed(&table, &add_eight, &reply, &change) == YARIB_BUSY && reply.code == 99 && change.base == 99);
    CHECK(yarib_new(&table, 1, YARIB_PLAIN) == YARIB_BUSY && yarib_new(&table, 0, YARIB_PLAIN) == YARIB_BUSY);
    CHECK(yarib_apply(&table, &add_eight, &reply) == YARIB_BUSY && yarib_apply(&table, &dump, &reply) == YARIB_BUSY);
    CHECK(yarib_apply_each(&table, &add_eight, 1, &reply, 1) == YARIB_BUSY && reply.code == 99);
    CHECK(yarib_reserve(&table, 1000) == YARIB_BUSY && yarib_fib_attach(&table) == YARIB_BUSY);
    CHECK(yarib_fib_new(&other, &table) == YARIB_BUSY && yarib_fib_clone(&forwarding, &table) == YARIB_BUSY);
    CHECK(yarib_free(&table) == YARIB_BUSY);
}

static void during_change(void)
{
    changes_are_busy();
    CHECK(reading() == YARIB_BUSY);
    changes_are_busy();
}

static void during_reading(void)
{
    changes_are_busy();
    CHECK(reading() == YARIB_DONE);
    changes_are_busy();
}

/* The same from inside a call that reads another handle, so that the thread's place is in use. */
static void read_inside(void)
{
    yarib_route route;
    size_t total;
    inside = during_reading;
    CHECK(yarib_routes(&table, 0, &route, 1, &total) == YARIB_DONE && total == 1);
}

static void change_inside(void)
{
    inside = during_change;
    CHECK(yarib_reserve(&table, 200) == YARIB_DONE);
}

static void during_share(void)
{
    uint32_t address = 10u << 24, hop = 0;
    yarib third = YARIB_EMPTY;
    yarib_route route;
    CHECK(yarib_free(&forwarding) == YARIB_BUSY && yarib_look_up_one(&other, address, &route) == YARIB_BUSY);
    CHECK(yarib_hops(&forwarding, &address, 1, 0, 1, &hop, 1) == YARIB_DONE && hop == 7);
    CHECK(yarib_fib_clone(&forwarding, &third) == YARIB_DONE && yarib_free(&third) == YARIB_DONE);
}

/* The table has the one route, and nothing is under way. */
static void whole(void)
{
    yarib_route route;
    size_t total;
    CHECK(entered >= 1 && inside == NULL);
    entered = 0;
    CHECK(yarib_count(&table, &total) == YARIB_DONE && total == 1 && reading() == YARIB_DONE);
    CHECK(yarib_look_up_one(&table, 0x0a010203, &route) == YARIB_DONE && route.via == 7 && route.len == 8);
}

int main(void)
{
    yarib_reply reply;
    yarib_route route;
    yarib_difference range;
    const yarib_selection all = {.part = YARIB_ALL};
    yarib_command another = add_eight;
    size_t total;
    another.base = 11u << 24;
    CHECK(yarib_new(&table, 10, YARIB_JOURNALED) == YARIB_DONE && yarib_new(&other, 10, YARIB_JOURNALED) == YARIB_DONE);
    CHECK(yarib_apply(&other, &another, &reply) == YARIB_DONE);
    inside = during_change;
    CHECK(yarib_apply(&table, &add_eight, &reply) == YARIB_DONE && reply.code == YARIB_ADDED);
    whole();
    inside = during_change;
    CHECK(yarib_reserve(&table, 100) == YARIB_DONE);
    whole();
    inside = during_reading;
    CHECK(yarib_routes(&table, 0, &route, 1, &total) == YARIB_DONE && total == 1);
    whole();
    inside = during_reading;
    CHECK(yarib_look_up_all(&table, 10u << 24, 0, &route, 1, &total) == YARIB_DONE && total == 1);
    whole();
    inside = during_reading;
    CHECK(yarib_select(&table, &all, 0, &route, 1, &total) == YARIB_DONE && total == 1);
    whole();
    inside = read_inside;
    CHECK(yarib_routes(&other, 0, &route, 1, &total) == YARIB_DONE && entered == 2);
    whole();
    inside = change_inside;
    CHECK(yarib_routes(&other, 0, &route, 1, &total) == YARIB_DONE && entered == 2);
    whole();
    /* One handle twice is busy with itself. */
    CHECK(yarib_first_difference(&table, &table, 0, 0, &range) == YARIB_BUSY && yarib_fib_new(&table, &table) == YARIB_BUSY);
    CHECK(yarib_fib_clone(&forwarding, &forwarding) == YARIB_BUSY);
    /* A call inside another one has a place lent to it, which it gives back. */
    for (int k = 0; k < 3000; k++) CHECK(yarib_first_difference(&table, &other, 0, 0, &range) == YARIB_DONE);
    inside = during_share;
    entered = 0;
    CHECK(yarib_fib_clone(&forwarding, &other) == YARIB_DONE && entered == 1);
    /* A table that is freed or replaced by a new one is in use until then. */
    inside = during_change;
    entered = 0;
    CHECK(yarib_new(&table, 10, YARIB_PLAIN) == YARIB_DONE && entered == 1);
    CHECK(yarib_apply_each(&table, &another, 1, &reply, 1) == YARIB_DONE && reply.code == YARIB_ADDED);
    inside = during_change;
    CHECK(yarib_free(&table) == YARIB_DONE && entered == 2 && table.inside == NULL);
    CHECK(yarib_free(&other) == YARIB_DONE && yarib_free(&forwarding) == YARIB_DONE);
    return 0;
}
