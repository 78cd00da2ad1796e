/* Calls that read a handle write nothing through its pointer. The library gets the memory of its tables from one range, which is
 * then made read-only: a write there ends this program by a signal. The one exception is yarib_fib_clone, which counts the handles of
 * a forwarding table atomically. */
#define _GNU_SOURCE
#include "check.h"
#include "own_heap.h"
#include "routes.h"

#include <signal.h>
#include <string.h>
#include <sys/mman.h>
#include <sys/wait.h>
#include <unistd.h>

enum { ROUTES = 3000, ASKED = 300, ROOM = 70 };
static const size_t WHOLE = (size_t)1 << 30;

static char *range;
static size_t given;
static bool is_frozen;

static bool is_in_range(const void *block)
{
    return (const char *)block >= range && (const char *)block < range + WHOLE;
}

struct tried rattle_alloc(size_t size, size_t alignment)
{
    (void)alignment;
    if (is_frozen) return (struct tried){true, malloc(size ? size : 1)};
    void *block = range + given;
    given += (size + 63) / 64 * 64;
    CHECK(given <= WHOLE);
    return (struct tried){true, block};
}

void rattle_dealloc(void *block)
{
    if (is_in_range(block)) CHECK(!is_frozen);
    else free(block);
}

struct tried rattle_realloc(void *block, size_t kept, size_t size, size_t alignment)
{
    struct tried made = rattle_alloc(size, alignment);
    memcpy(made.block, block, kept < size ? kept : size);
    rattle_dealloc(block);
    return made;
}

static void freeze(bool is_now)
{
    is_frozen = is_now;
    CHECK(mprotect(range, WHOLE, is_now ? PROT_READ : PROT_READ | PROT_WRITE) == 0);
}

static yarib_command add(uint32_t feed)
{
    static const uint8_t lens[] = {0, 1, 8, 12, 16, 20, 24, 24, 24, 25, 30, 32};
    uint8_t len = lens[draw() % 12];
    uint32_t base = len ? draw() >> (32 - len) << (32 - len) : 0;
    uint32_t via = draw();
    return put_command(YARIB_ADD, feed, base, len, draw() % 3, via);
}

static void fill(yarib *table, uint32_t kind)
{
    CHECK(yarib_new(table, 1000000, kind) == YARIB_DONE);
    for (uint32_t k = 0; k < ROUTES; k++) {
        yarib_command command = add(1 + k % 5);
        yarib_reply reply;
        CHECK(yarib_apply(table, &command, &reply) == YARIB_DONE);
    }
}

/* Makes the queries that any handle answers. */
static void look_up(const yarib *handle)
{
    uint32_t asked[ASKED], hops[ASKED];
    yarib_route found[ASKED], one;
    size_t total;
    for (int k = 0; k < ASKED; k++) asked[k] = draw();
    CHECK(yarib_look_up(handle, asked, ASKED, found, ASKED) == YARIB_DONE);
    CHECK(yarib_hops(handle, asked, ASKED, 0, 1, hops, ASKED) == YARIB_DONE);
    for (int k = 0; k < ASKED; k++) {
        CHECK(yarib_look_up_one(handle, asked[k], &one) == YARIB_DONE && one.via == found[k].via && hops[k] == one.via);
    }
    CHECK(yarib_memory(handle, &total) == YARIB_DONE);
    CHECK(yarib_fib_is_attached(handle, hops) == YARIB_DONE);
}

/* Writes a view of what the handle holds. */
static void show(const yarib *handle)
{
    size_t blocks, routers;
    CHECK(yarib_view_sizes(handle, &blocks, &routers) == YARIB_DONE);
    yarib_view view = {malloc(4 * YARIB_VIEW_ENTRIES), YARIB_VIEW_ENTRIES, malloc(4 * blocks), blocks, malloc(4 * routers), routers};
    CHECK(view.entries && view.blocks && view.routers && yarib_view_write(handle, &view) == YARIB_DONE);
    free(view.entries);
    free(view.blocks);
    free(view.routers);
}

/* Makes the queries that a table answers. */
static void ask(const yarib *table, const yarib *other, bool is_journaled)
{
    yarib_route routes[ROOM], from = {0};
    yarib_entry entries[ROOM];
    yarib_difference range_of;
    yarib made = YARIB_EMPTY;
    size_t total;
    look_up(table);
    CHECK(yarib_count(table, &total) == YARIB_DONE && total > ROOM);
    CHECK(yarib_routes(table, 5, routes, ROOM, &total) == YARIB_DONE);
    CHECK(yarib_routes_from(table, &from, routes, ROOM, &total) == YARIB_DONE && total == ROOM);
    for (uint32_t part = YARIB_ALL; part <= YARIB_EXACT; part++) {
        for (uint8_t best = 0; best < 2; best++) {
            const yarib_selection asked = {.part = part, .base = routes[30].base, .len = routes[30].len, .only_best = best};
            CHECK(yarib_select(table, &asked, 0, routes, ROOM, &total) == YARIB_DONE);
        }
    }
    yarib_hop_count counts[ROOM];
    CHECK(yarib_hop_counts(table, 0, counts, ROOM, &total) == YARIB_DONE && total > 0);
    for (int k = 0; k < ASKED; k++) CHECK(yarib_look_up_all(table, draw(), 0, routes, ROOM, &total) == YARIB_DONE);
    CHECK(yarib_journal(table, 3, entries, ROOM, &total) == (is_journaled ? YARIB_DONE : YARIB_WRONG_KIND));
    for (uint32_t by = 0; by < 2; by++) {
        CHECK(yarib_first_difference(table, other, by, 0, &range_of) == YARIB_DONE);
        CHECK(yarib_first_difference(other, table, by, range_of.last + 1, &range_of) == YARIB_DONE);
    }
    CHECK(yarib_fib_new(table, &made) == YARIB_DONE && yarib_free(&made) == YARIB_DONE);
}

/* A change does write there: this program would notice. */
static void change_ends_by_a_signal(yarib *table)
{
    int status;
    pid_t child = fork();
    if (child == 0) {
        yarib_command command = add(9);
        yarib_reply reply;
        signal(SIGSEGV, SIG_DFL);
        _exit(yarib_apply(table, &command, &reply) == YARIB_DONE ? 0 : 1);
    }
    CHECK(child > 0 && waitpid(child, &status, 0) == child && WIFSIGNALED(status) && WTERMSIG(status) == SIGSEGV);
}

int main(void)
{
    yarib plain = YARIB_EMPTY, journaled = YARIB_EMPTY, followed = YARIB_EMPTY, forwarding = YARIB_EMPTY;
    range = mmap(NULL, WHOLE, PROT_READ | PROT_WRITE, MAP_PRIVATE | MAP_ANONYMOUS | MAP_NORESERVE, -1, 0);
    CHECK(range != MAP_FAILED);
    fill(&plain, YARIB_PLAIN);
    fill(&journaled, YARIB_JOURNALED);
    fill(&followed, YARIB_PLAIN);
    CHECK(yarib_fib_attach(&followed) == YARIB_DONE && yarib_fib_new(&plain, &forwarding) == YARIB_DONE);
    freeze(true);
    ask(&plain, &journaled, false);
    ask(&journaled, &followed, true);
    ask(&followed, &plain, false);
    look_up(&forwarding);
    show(&forwarding);
    show(&followed);
    change_ends_by_a_signal(&plain);
    freeze(false);
    CHECK(yarib_free(&plain) == YARIB_DONE && yarib_free(&journaled) == YARIB_DONE);
    CHECK(yarib_free(&followed) == YARIB_DONE && yarib_free(&forwarding) == YARIB_DONE);
    return 0;
}
