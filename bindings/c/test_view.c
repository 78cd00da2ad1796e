/* Views: every number is compared with what the table answers at the edges of all its prefixes, over arrays that are read-only and
 * end at a page that can't be read. Arrays that are too small, that no view is in, or that another table filled are tried too. */
#define _GNU_SOURCE
#include "check.h"
#include "routes.h"

#include <string.h>
#include <sys/mman.h>
#include <unistd.h>

enum { MOST = 150000, PAGE = 4096 };

/* The edges of all prefixes, and the addresses next to them. */
static uint32_t edges[4 * MOST];
static size_t edge_count;

static void note_edges(uint32_t base, uint8_t len)
{
    uint32_t last = base | (len == 32 ? 0 : 0xffffffffu >> len);
    const uint32_t all[] = {base, last, base - 1, last + 1};
    for (int k = 0; k < 4 && edge_count < 4 * MOST; k++) edges[edge_count++] = all[k];
}

/* Executes a command of a random route. Only the first `routers` routers are used; 0.0.0.0 and 0.0.0.1 are among them. */
static void change(yarib *table, uint32_t operation, uint32_t routers)
{
    static const uint8_t lens[] = {0, 1, 7, 8, 9, 15, 16, 17, 22, 23, 24, 24, 24, 25, 26, 30, 31, 32};
    uint8_t len = lens[draw() % (sizeof lens)];
    uint32_t base = draw() & (len == 0 ? 0 : 0xffffffffu << (32 - len));
    if (draw() % 3 == 0) base &= 0xff0f00ff & (len == 0 ? 0 : 0xffffffffu << (32 - len));
    uint32_t feed = 1 + draw() % 3, preference = draw() % 3;
    yarib_command command = put_command(operation, feed, base, len, preference, 0);
    if (draw() % 8 == 0) command.hop = YARIB_DISCARD;
    command.via = draw() % routers;
    yarib_reply reply;
    CHECK(yarib_apply(table, &command, &reply) == YARIB_DONE);
    note_edges(base, len);
}

/* An array of numbers that ends where a page that can't be read begins. */
static uint32_t *guarded(size_t count)
{
    size_t bytes = (count * sizeof(uint32_t) + PAGE - 1) / PAGE * PAGE;
    char *block = mmap(NULL, bytes + PAGE, PROT_READ | PROT_WRITE, MAP_PRIVATE | MAP_ANONYMOUS | MAP_NORESERVE, -1, 0);
    CHECK(block != MAP_FAILED && mprotect(block + bytes, PAGE, PROT_NONE) == 0);
    return (uint32_t *)(void *)(block + bytes) - count;
}

static void protect(uint32_t *array, size_t count, int access)
{
    size_t bytes = (count * sizeof(uint32_t) + PAGE - 1) / PAGE * PAGE;
    CHECK(mprotect((char *)(array + count) - bytes, bytes, access) == 0);
}

static void freeze(const yarib_view *view, size_t routers, int access)
{
    protect(view->entries, view->entry_count, access);
    protect(view->blocks, view->block_count, access);
    protect(view->routers, routers, access);
}

static void drop_array(uint32_t *array, size_t count)
{
    size_t bytes = (count * sizeof(uint32_t) + PAGE - 1) / PAGE * PAGE;
    CHECK(munmap((char *)(array + count) - bytes, bytes + PAGE) == 0);
}

static yarib_view array_of(size_t blocks, size_t routers)
{
    return (yarib_view){guarded(YARIB_VIEW_ENTRIES), YARIB_VIEW_ENTRIES, guarded(blocks), blocks, guarded(routers), routers};
}

/* Compares the answers of the view to all edges with those that the handle gives. */
static void compare(const yarib *table, const yarib_view *view)
{
    static uint32_t numbers[4 * MOST + 1];
    numbers[edge_count] = 77;
    CHECK(yarib_view_look_up_each(view, edges, edge_count, numbers, edge_count) == YARIB_DONE && numbers[edge_count] == 77);
    for (size_t k = 0; k < edge_count; k++) {
        yarib_route answer;
        CHECK(yarib_look_up_one(table, edges[k], &answer) == YARIB_DONE);
        uint32_t number = yarib_view_look_up(view, edges[k]);
        CHECK(number == numbers[k] && (number < YARIB_FIRST_ROUTER || number < view->router_count));
        if (answer.hop == YARIB_NO_ROUTE) CHECK(number == YARIB_NUMBER_NO_ROUTE);
        else if (answer.hop == YARIB_DISCARD) CHECK(number == YARIB_NUMBER_DISCARD);
        else CHECK(number >= YARIB_FIRST_ROUTER && view->routers[number] == answer.via);
    }
}

/* Writes a view of the table, with arrays just as large as they have to be, and returns it. */
static yarib_view written(const yarib *table, size_t *room)
{
    size_t blocks, routers;
    CHECK(yarib_view_sizes(table, &blocks, &routers) == YARIB_DONE && blocks > 0 && routers > 1);
    yarib_view view = array_of(blocks, routers);
    CHECK(yarib_view_write(table, &view) == YARIB_DONE);
    CHECK(view.router_count >= YARIB_FIRST_ROUTER && view.router_count <= routers);
    *room = routers;
    return view;
}

static void forget(yarib_view *view, size_t room)
{
    drop_array(view->entries, view->entry_count);
    drop_array(view->blocks, view->block_count);
    drop_array(view->routers, room);
}

/* A view of a forwarding table, and one of a table with a forwarding table, during changes. */
static void compare_tables(uint32_t count, uint32_t routers)
{
    yarib table = YARIB_EMPTY, forwarding = YARIB_EMPTY;
    size_t room, other_room;
    edge_count = 0;
    CHECK(yarib_new(&table, YARIB_MAX_LIMIT, YARIB_PLAIN) == YARIB_DONE);
    for (uint32_t k = 0; k < count; k++) change(&table, YARIB_ADD, routers);
    CHECK(yarib_fib_new(&table, &forwarding) == YARIB_DONE && yarib_fib_attach(&table) == YARIB_DONE);
    yarib_view view = written(&forwarding, &room);
    CHECK(view.block_count <= 256 * ((size_t)count + 1) && room <= (size_t)count + 4);
    freeze(&view, room, PROT_READ);
    compare(&forwarding, &view);
    for (uint32_t k = 0; k < 30 && k < count; k++) change(&table, 1 + draw() % 3, routers);
    yarib_view changed = written(&table, &other_room);
    compare(&table, &changed);
    /* The first view still shows the table before the changes, also without its handle. */
    compare(&forwarding, &view);
    CHECK(routers > 2000 || view.router_count <= routers + YARIB_FIRST_ROUTER);
    /* A view is written over another. */
    freeze(&view, room, PROT_READ | PROT_WRITE);
    changed.router_count = other_room;
    CHECK(yarib_view_write(&forwarding, &changed) == YARIB_DONE || changed.router_count == other_room);
    yarib_free(&table);
    yarib_free(&forwarding);
    forget(&view, room);
    forget(&changed, other_room);
}

/* The published one of a concurrent table's two tables answers as its view, after each change. */
static void compare_concurrent(void)
{
    yarib_concurrent table = YARIB_CONCURRENT_EMPTY;
    yarib model = YARIB_EMPTY;
    size_t room = 7, blocks = 7;
    uint32_t attached = 7;
    edge_count = 0;
    CHECK(yarib_concurrent_new(&table, 5000) == YARIB_DONE && yarib_new(&model, 5000, YARIB_PLAIN) == YARIB_DONE);
    CHECK(yarib_concurrent_fib_is_attached(&table, &attached) == YARIB_DONE && attached == 0);
    CHECK(yarib_concurrent_view_sizes(&table, &blocks, &room) == YARIB_WRONG_KIND && blocks == 7 && room == 7);
    CHECK(yarib_concurrent_fib_attach(&table) == YARIB_DONE);
    for (uint32_t k = 0; k < 40; k++) {
        yarib_command command = {.operation = 1 + (k % 4 == 3) * 2, .feed = 1, .base = (0x0a000000 + (k / 4 << 8)) | (k % 2 ? k : 0),
            .len = k % 2 ? 32 : 24, .hop = k % 5 ? YARIB_VIA : YARIB_DISCARD, .via = k % 7};
        yarib_reply reply, right;
        if (k % 2 == 0) command.base &= 0xffffff00;
        note_edges(command.base, command.len);
        CHECK(yarib_concurrent_apply(&table, &command, &reply) == YARIB_DONE && yarib_apply(&model, &command, &right) == YARIB_DONE);
        CHECK(reply.code == right.code && yarib_concurrent_fib_is_attached(&table, &attached) == YARIB_DONE && attached == 1);
        CHECK(yarib_concurrent_view_sizes(&table, &blocks, &room) == YARIB_DONE && blocks > 0 && room > 1);
        yarib_view view = array_of(blocks, room), small = view;
        small.blocks++;
        small.block_count--;
        if (blocks >= 256) CHECK(yarib_concurrent_view_write(&table, &small) == YARIB_BAD_SIZE && small.router_count == room);
        CHECK(yarib_concurrent_view_write(&table, &view) == YARIB_DONE && view.router_count <= room);
        compare(&model, &view);
        forget(&view, room);
    }
    CHECK(yarib_concurrent_free(&table) == YARIB_DONE && yarib_free(&model) == YARIB_DONE);
}

/* The sizes of a new forwarding table: 256 numbers for each /24 with a longer prefix, and a number for each router that an answer
 * has. A change needs at most one more of each. Catches a yarib_view_sizes that writes larger sizes. */
static void bound_sizes(void)
{
    const uint32_t changes = 300;
    for (uint32_t count = 0; count < 40; count += 1 + count / 2) {
        yarib table = YARIB_EMPTY, forwarding = YARIB_EMPTY;
        size_t blocks, routers, longer = (count + 2) / 4;
        CHECK(yarib_new(&table, 100, YARIB_PLAIN) == YARIB_DONE);
        for (uint32_t k = 0; k < count; k++) {
            yarib_command command = put_command(YARIB_ADD, 1, 0x0a000000 + (k / 4 << 8) + k % 4, 32, 0, k);
            if (k % 2 == 0) command.base = 0x0b000000 + (k << 8), command.len = 24;
            yarib_reply reply;
            CHECK(yarib_apply(&table, &command, &reply) == YARIB_DONE && reply.code == YARIB_ADDED);
        }
        CHECK(yarib_fib_new(&table, &forwarding) == YARIB_DONE && yarib_fib_attach(&table) == YARIB_DONE);
        CHECK(yarib_view_sizes(&forwarding, &blocks, &routers) == YARIB_DONE);
        CHECK(blocks == (longer ? 256 * longer : 1) && routers > count + 1 && routers < count + 4);
        for (uint32_t k = 0; k < changes; k++) {
            yarib_command command = put_command(k % 2 ? YARIB_WITHDRAW : YARIB_ADD, 2, 0x0c000000 + (k % 7 << 8), 32, 0, k);
            yarib_reply reply;
            CHECK(yarib_apply(&table, &command, &reply) == YARIB_DONE);
        }
        CHECK(yarib_view_sizes(&table, &blocks, &routers) == YARIB_DONE);
        CHECK(blocks <= 256 * (longer + changes) && routers < count + 4 + changes);
        yarib_free(&table);
        yarib_free(&forwarding);
    }
}

/* Each array one number too small, and a handle without a forwarding table: nothing is written. */
static void refuse(void)
{
    yarib table = YARIB_EMPTY, forwarding = YARIB_EMPTY;
    size_t blocks = 7, routers = 8;
    CHECK(yarib_view_sizes(&table, &blocks, &routers) == YARIB_NOTHING);
    CHECK(yarib_new(&table, 10, YARIB_PLAIN) == YARIB_DONE);
    CHECK(yarib_view_sizes(&table, &blocks, &routers) == YARIB_WRONG_KIND && blocks == 7 && routers == 8);
    yarib_command command = {.operation = YARIB_ADD, .feed = 1, .base = 0x0a010203, .len = 32, .hop = YARIB_VIA, .via = 5};
    yarib_reply reply;
    CHECK(yarib_apply(&table, &command, &reply) == YARIB_DONE && yarib_fib_new(&table, &forwarding) == YARIB_DONE);
    CHECK(yarib_view_sizes(&forwarding, &blocks, &routers) == YARIB_DONE && blocks == 256);
    yarib_view view = array_of(blocks, routers), wrong;
    CHECK(yarib_view_write(&table, &view) == YARIB_WRONG_KIND);
    for (int k = 0; k < 4; k++) {
        wrong = view;
        if (k == 0) wrong.entries++, wrong.entry_count--;
        if (k == 1) wrong.entry_count++;
        if (k == 2) wrong.blocks++, wrong.block_count--;
        if (k == 3) wrong.router_count = 2;
        yarib_view before = wrong;
        CHECK(yarib_view_write(&forwarding, &wrong) == YARIB_BAD_SIZE && memcmp(&before, &wrong, sizeof wrong) == 0);
    }
    for (size_t k = 0; k < YARIB_VIEW_ENTRIES; k++) CHECK(view.entries[k] == 0);
    for (size_t k = 0; k < blocks; k++) CHECK(view.blocks[k] == 0);
    CHECK(yarib_view_write(&forwarding, &view) == YARIB_DONE && view.router_count == 3 && view.routers[2] == 5);
    uint32_t addresses[2] = {0x0a010203, 0x0a010204}, numbers[2] = {9, 9};
    CHECK(yarib_view_look_up_each(&view, addresses, 2, numbers, 1) == YARIB_BAD_SIZE && numbers[0] == 9);
    CHECK(yarib_view_look_up_each(&view, addresses, 2, numbers, 2) == YARIB_DONE && numbers[0] == 2 && numbers[1] == 0);
    CHECK(yarib_fib_attach(&table) == YARIB_DONE && yarib_view_sizes(&table, &blocks, &routers) == YARIB_DONE);
    yarib_free(&table);
    CHECK(yarib_new(&table, 10, YARIB_JOURNALED) == YARIB_DONE && yarib_view_sizes(&table, &blocks, &routers) == YARIB_WRONG_KIND);
    yarib_free(&table);
    yarib_free(&forwarding);
    forget(&view, routers);
}

/* A look-up in arrays that no view is in reads nothing beyond them. */
static void look_up_in_noise(void)
{
    for (size_t size = 0; size < 40; size++) {
        yarib_view view = {guarded(size * 1000), size * 1000, guarded(size * 300), size * 300, guarded(1), 1};
        for (size_t k = 0; k < view.entry_count; k++) view.entries[k] = draw() % 4 ? 0x80000000u + draw() % 60 : draw() * 7;
        for (size_t k = 0; k < view.block_count; k++) view.blocks[k] = draw();
        for (size_t k = 0; k < 20000; k++) yarib_view_look_up(&view, k % 2 ? draw() : draw() % (size * 256000 + 1));
        forget(&view, 1);
    }
}

int main(void)
{
    refuse();
    bound_sizes();
    look_up_in_noise();
    compare_concurrent();
    for (uint32_t round = 0; round < 6; round++) compare_tables(1 + draw() % 2000, 1 + draw() % 40);
    compare_tables(0, 1);
    /* Enough routers that several share a place for a kept number. */
    compare_tables(100000, 0xffffffff);
    return 0;
}
