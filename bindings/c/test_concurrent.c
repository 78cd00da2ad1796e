/* Concurrent tables, call by call. The library gets its memory from the functions below, which make other calls from inside a call
 * or hold a reading call where it is: so it is known which calls run at the same time. */
#define _POSIX_C_SOURCE 200809L
#include "check.h"
#include "meeting.h"
#include "own_heap.h"
#include "routes.h"

#include <pthread.h>
#include <semaphore.h>
#include <stdatomic.h>
#include <string.h>
#include <time.h>
#include <unistd.h>

enum { ROOM = 600, LIMIT = 100 };

static yarib_concurrent table = YARIB_CONCURRENT_EMPTY;

/* The same routes as the published table, by a table of its own. */
static yarib model = YARIB_EMPTY;

/* Whether this thread's next call for memory is refused. */
static __thread bool is_refused;
static int entered;

/* The block of this size or a larger one that was given last, until it is given back. */
enum { LARGE = 100000 };
static void *large;

struct tried rattle_alloc(size_t size, size_t alignment)
{
    (void)alignment;
    meet();
    if (is_refused) return (struct tried){false, &large};
    void *block = malloc(size ? size : 1);
    if (size >= LARGE) large = block;
    return (struct tried){true, block};
}

struct tried rattle_realloc(void *block, size_t kept, size_t size, size_t alignment)
{
    (void)kept;
    (void)alignment;
    meet();
    if (is_refused) return (struct tried){false, &large};
    if (block == large) large = NULL;
    block = realloc(block, size ? size : 1);
    if (size >= LARGE) large = block;
    return (struct tried){true, block};
}

void rattle_dealloc(void *block)
{
    if (block == large) large = NULL;
    free(block);
}

static yarib_command command(uint32_t operation, uint32_t feed, uint32_t base, uint8_t len, uint32_t via)
{
    return put_command(operation, feed, base, len, via % 4, via);
}

static yarib_command add(uint32_t byte, uint32_t via)
{
    return command(YARIB_ADD, 1, byte << 24, 8, via);
}

/* Each reading call gives what it gives of the model. */
static void compare(void)
{
    static __thread yarib_route found[ROOM], expected[ROOM];
    static __thread uint32_t asked[ROOM], hops[ROOM], others[ROOM];
    const yarib_selection within = {.part = YARIB_WITHIN, .base = 10u << 24, .len = 8};
    const yarib_route from = {.base = 9u << 24, .len = 8};
    yarib_route one;
    size_t total, right;
    for (uint32_t k = 0; k < ROOM; k++) asked[k] = k << 23 | 5;
    memset(found, 0, sizeof found);
    memset(expected, 0, sizeof expected);
    CHECK(yarib_concurrent_routes(&table, 0, found, ROOM, &total) == YARIB_DONE);
    CHECK(yarib_routes(&model, 0, expected, ROOM, &right) == YARIB_DONE && total == right);
    CHECK(memcmp(found, expected, sizeof found) == 0);
    CHECK(yarib_concurrent_count(&table, &total) == YARIB_DONE && total == right);
    CHECK(yarib_concurrent_routes_from(&table, &from, found, ROOM, &total) == YARIB_DONE);
    CHECK(yarib_routes_from(&model, &from, expected, ROOM, &right) == YARIB_DONE && total == right);
    CHECK(memcmp(found, expected, sizeof found) == 0);
    CHECK(yarib_concurrent_select(&table, &within, 1, found, ROOM, &total) == YARIB_DONE);
    CHECK(yarib_select(&model, &within, 1, expected, ROOM, &right) == YARIB_DONE && total == right);
    CHECK(memcmp(found, expected, sizeof found) == 0);
    CHECK(yarib_concurrent_look_up_all(&table, 10u << 24, 0, found, ROOM, &total) == YARIB_DONE);
    CHECK(yarib_look_up_all(&model, 10u << 24, 0, expected, ROOM, &right) == YARIB_DONE && total == right);
    CHECK(memcmp(found, expected, sizeof found) == 0);
    CHECK(yarib_concurrent_look_up(&table, asked, ROOM, found, ROOM) == YARIB_DONE);
    CHECK(yarib_look_up(&model, asked, ROOM, expected, ROOM) == YARIB_DONE && memcmp(found, expected, sizeof found) == 0);
    CHECK(yarib_concurrent_hops(&table, asked, ROOM, 1, 2, hops, ROOM) == YARIB_DONE);
    CHECK(yarib_hops(&model, asked, ROOM, 1, 2, others, ROOM) == YARIB_DONE && memcmp(hops, others, sizeof hops) == 0);
    CHECK(yarib_concurrent_look_up_text(&table, "10.0.0.0", 8, &one) == YARIB_DONE);
    CHECK(yarib_look_up_text(&model, "10.0.0.0", 8, expected) == YARIB_DONE && memcmp(&one, expected, sizeof one) == 0);
    CHECK(yarib_concurrent_look_up_one(&table, 10u << 24, &one) == YARIB_DONE);
    CHECK(yarib_look_up_one(&model, 10u << 24, expected) == YARIB_DONE && memcmp(&one, expected, sizeof one) == 0);
    CHECK(yarib_concurrent_memory(&table, &total) == YARIB_DONE && yarib_memory(&model, &right) == YARIB_DONE);
    CHECK(total == 2 * right);
}

static void change_model(const yarib_command *one, yarib_reply *reply)
{
    CHECK(yarib_apply(&model, one, reply) == YARIB_DONE);
}

/* Executes a command in both, with the same reply. */
static void change(yarib_command one)
{
    yarib_reply reply, right;
    memset(&reply, 0, sizeof reply);
    memset(&right, 0, sizeof right);
    CHECK(yarib_concurrent_apply(&table, &one, &reply) == YARIB_DONE);
    change_model(&one, &right);
    CHECK(memcmp(&reply, &right, sizeof reply) == 0);
}

/* Both sides are as the model, which an add and its withdrawal show. */
static void compare_both(void)
{
    for (int k = 0; k < 3; k++) {
        compare();
        change(command(k % 2 ? YARIB_WITHDRAW : YARIB_ADD, 7, 77u << 24, 9, 7));
    }
    change(command(YARIB_WITHDRAW, 7, 77u << 24, 9, 7));
    compare();
}

static void begin(void)
{
    CHECK(yarib_concurrent_new(&table, LIMIT) == YARIB_DONE && yarib_new(&model, LIMIT, YARIB_PLAIN) == YARIB_DONE);
    for (uint32_t k = 0; k < 20; k++) change(add(k, k));
    compare();
}

/* Any change, and any end of the table, is busy. */
static void changes_are_busy(void)
{
    const yarib_command one = add(200, 1);
    yarib_reply reply = {.code = 99};
    CHECK(yarib_concurrent_apply(&table, &one, &reply) == YARIB_BUSY && yarib_concurrent_fib_attach(&table) == YARIB_BUSY);
    CHECK(yarib_concurrent_apply_each(&table, &one, 1, &reply, 1) == YARIB_BUSY && reply.code == 99);
    CHECK(yarib_concurrent_apply_each(&table, &one, 1, &reply, 0) == YARIB_BUSY);
    CHECK(yarib_concurrent_new(&table, 5) == YARIB_BUSY && yarib_concurrent_free(&table) == YARIB_BUSY);
    CHECK(yarib_concurrent_replace(&table, 5, &model) == YARIB_BUSY);
    entered++;
}

/* During a change readers have the table before it. */
static void during_change(void)
{
    changes_are_busy();
    compare();
    changes_are_busy();
}

static void change_meets_readers(void)
{
    const yarib_command batch[] = {add(100, 1), add(5, 9), add(101, 2), command(YARIB_WITHDRAW, 1, 3u << 24, 8, 0), {.feed = 1},
        command(YARIB_REPLACE, 1, 4u << 24, 8, 77), command(YARIB_LOOKUP, 1, 101u << 24, 0, 0), command(YARIB_PURGE, 2, 0, 0, 0)};
    yarib_reply replies[8], right[8];
    yarib_command one = add(60, 60);
    memset(replies, 0, sizeof replies);
    memset(right, 0, sizeof right);
    begin();
    inside = during_change;
    CHECK(yarib_concurrent_apply(&table, &one, replies) == YARIB_DONE && entered == 2);
    change_model(&one, right);
    compare();
    inside = during_change;
    CHECK(yarib_concurrent_apply_each(&table, batch, 8, replies, 8) == YARIB_DONE && entered == 4);
    CHECK(yarib_apply_each(&model, batch, 8, right, 8) == YARIB_DONE && memcmp(replies, right, sizeof right) == 0);
    CHECK(right[1].code == YARIB_EXISTS && right[4].count == YARIB_BAD_COMMAND && right[6].route.via == 2);
    compare_both();
    /* The first call for memory is the other side's, which lacks an add. */
    change(add(102, 1));
    inside = during_change;
    CHECK(yarib_concurrent_apply_each(&table, batch, 8, replies, 8) == YARIB_DONE && entered == 6);
    CHECK(yarib_apply_each(&model, batch, 8, right, 8) == YARIB_DONE);
    compare_both();
    inside = during_change;
    CHECK(yarib_concurrent_fib_attach(&table) == YARIB_DONE && yarib_fib_attach(&model) == YARIB_DONE && entered == 8);
    for (int k = 0; k < 3; k++) {
        size_t bytes;
        CHECK(yarib_concurrent_memory(&table, &bytes) == YARIB_DONE && bytes >= (size_t)2 << 26);
        change(add(103 + (uint32_t)k, 1));
    }
    entered = 0;
}

static void change_once(void)
{
    change(add(50, 50));
    compare();
    changes_are_busy();
    compare();
}

/* A change during a reading call of the same thread is published. The next one would wait for that call, and is busy. */
static void reader_meets_changes(void)
{
    static yarib_route found[ROOM], expected[ROOM];
    size_t total, right;
    begin();
    CHECK(yarib_routes(&model, 0, expected, ROOM, &right) == YARIB_DONE);
    inside = change_once;
    CHECK(yarib_concurrent_routes(&table, 0, found, ROOM, &total) == YARIB_DONE && total == right && entered == 1);
    CHECK(memcmp(found, expected, sizeof found) == 0);
    compare_both();
    entered = 0;
}

/* Executes commands in a copy of the table, which then replaces it. */
static void apply_aside(const yarib_command *commands, size_t size, yarib_reply *replies)
{
    yarib aside = YARIB_EMPTY;
    CHECK(yarib_concurrent_copy(&table, LIMIT, &aside) == YARIB_DONE && yarib_apply_each(&aside, commands, size, replies, size) == YARIB_DONE);
    compare();
    CHECK(yarib_concurrent_replace(&table, LIMIT, &aside) == YARIB_DONE && yarib_free(&aside) == YARIB_DONE);
}

/* Every command from any state leaves both sides as the model, and each way to execute it. */
static void change_at_random(void)
{
    uint64_t state = 5;
    begin();
    for (int k = 0; k < 3000; k++) {
        yarib_command batch[9];
        yarib_reply replies[9], right[9];
        size_t size = (size_t)k % 9;
        memset(replies, 0, sizeof replies);
        memset(right, 0, sizeof right);
        for (size_t j = 0; j < size; j++) {
            state = state * 6364136223846793005u + 1442695040888963407u;
            uint32_t drawn = (uint32_t)(state >> 33), operation = drawn % 64 == 0 ? YARIB_PURGE : 1 + drawn % 5;
            batch[j] = command(operation, 1 + drawn / 64 % 2, (drawn / 512 % 40) << 24, 8, drawn / 20000);
        }
        if (k % 100 == 0) batch[0].feed = YARIB_MAX_FEED + 1;
        if (state >> 60 == 7) apply_aside(batch, size, replies);
        else CHECK(yarib_concurrent_apply_each(&table, batch, size, replies, size) == YARIB_DONE);
        CHECK(yarib_apply_each(&model, batch, size, right, size) == YARIB_DONE);
        CHECK(memcmp(replies, right, size * sizeof *replies) == 0);
        compare();
    }
    compare_both();
}

/* The commands of a large batch are kept, and given back. */
static void change_many(void)
{
    enum { MANY = 5000 };
    static yarib_command batch[MANY];
    static yarib_reply replies[MANY];
    size_t total;
    CHECK(yarib_concurrent_new(&table, MANY) == YARIB_DONE && yarib_new(&model, MANY, YARIB_PLAIN) == YARIB_DONE);
    for (uint32_t k = 0; k < MANY; k++) batch[k] = command(YARIB_ADD, 1, k << 16, 16, k);
    for (int k = 0; k < 2; k++) {
        CHECK(yarib_concurrent_apply_each(&table, batch, MANY, replies, MANY) == YARIB_DONE);
        CHECK(yarib_apply_each(&model, batch, MANY, replies, MANY) == YARIB_DONE);
        compare();
        change(command(YARIB_PURGE, 1, 0, 0, 0));
        CHECK(yarib_concurrent_count(&table, &total) == YARIB_DONE && total == (size_t)k);
        change(command(YARIB_ADD, 2, 0, 0, 1));
        compare_both();
    }
}

/* The list of a large batch is used for smaller ones if memory runs out, and else given back. */
static void keep_lists(void)
{
    enum { MANY = 5000 };
    static yarib_command batch[MANY];
    static yarib_reply replies[MANY];
    begin();
    for (uint32_t k = 0; k < MANY; k++) batch[k] = command(YARIB_REPLACE, 1, k % 20 << 24, 8, k);
    CHECK(yarib_concurrent_apply_each(&table, batch, MANY, replies, MANY) == YARIB_DONE && large != NULL);
    CHECK(yarib_apply_each(&model, batch, MANY, replies, MANY) == YARIB_DONE);
    is_refused = true;
    for (uint32_t k = 0; k < 3; k++) change(command(YARIB_REPLACE, 1, k << 24, 8, 7));
    is_refused = false;
    CHECK(large != NULL);
    change(command(YARIB_REPLACE, 1, 0, 8, 8));
    CHECK(large == NULL);
    compare_both();
}

/* An end of the table inside a reading call of its own thread is busy. A new table is published, and the call goes on with its own. */
static void end_in_own_call(void)
{
    size_t total;
    CHECK(yarib_concurrent_free(&table) == YARIB_BUSY && yarib_concurrent_fib_attach(&table) == YARIB_BUSY);
    CHECK(yarib_concurrent_count(&table, &total) == YARIB_DONE && total == 20);
    CHECK(yarib_concurrent_new(&table, LIMIT) == YARIB_DONE && yarib_concurrent_count(&table, &total) == YARIB_DONE && total == 0);
    CHECK(yarib_concurrent_new(&table, LIMIT) == YARIB_BUSY);
    entered++;
}

static void reader_meets_end(void)
{
    static yarib_route found[ROOM], expected[ROOM];
    const yarib_command one = add(7, 7);
    yarib_reply reply;
    size_t total, right;
    begin();
    change(command(YARIB_DUMP, 1, 0, 0, 0));
    CHECK(yarib_routes(&model, 0, expected, ROOM, &right) == YARIB_DONE);
    entered = 0;
    inside = end_in_own_call;
    CHECK(yarib_concurrent_routes(&table, 0, found, ROOM, &total) == YARIB_DONE && total == right && entered == 1);
    CHECK(memcmp(found, expected, sizeof found) == 0);
    for (int k = 0; k < 2; k++) CHECK(yarib_concurrent_apply(&table, &one, &reply) == YARIB_DONE);
    CHECK(reply.code == YARIB_EXISTS && yarib_concurrent_count(&table, &total) == YARIB_DONE && total == 1);
    entered = 0;
}

/* A table grows between the calls of a save, which list its routes: the file has the routes of a single table. */
static bool is_plain;

static void grow(void)
{
    const yarib_command one = add(150, 1);
    yarib_reply reply;
    enum yarib_status status = is_plain ? yarib_apply(&model, &one, &reply) : yarib_concurrent_apply(&table, &one, &reply);
    if (status == YARIB_BUSY) inside = grow;
    else CHECK(status == YARIB_DONE && reply.code == YARIB_ADDED);
}

static void save_meets_changes(void)
{
    for (int k = 0; k < 2; k++) {
        FILE *file = tmpfile();
        yarib copy = YARIB_EMPTY;
        yarib_loaded loaded;
        is_plain = k;
        begin();
        inside = grow;
        CHECK(file && (is_plain ? yarib_save(&model, 1, file) : yarib_concurrent_save(&table, 1, file)) == YARIB_DONE);
        rewind(file);
        CHECK(yarib_new(&copy, LIMIT, YARIB_PLAIN) == YARIB_DONE && yarib_load(&copy, 1, file, &loaded) == YARIB_DONE);
        CHECK(inside == NULL && loaded.routes == 21 && yarib_free(&copy) == YARIB_DONE && fclose(file) == 0);
    }
}

/* A table that is to replace the published one: routes of three feeds, two of them to the same prefix. */
static void make_other(yarib *aside, uint32_t kind)
{
    yarib_reply reply;
    yarib_command commands[] = {add(3, 33), add(90, 1), command(YARIB_ADD, 2, 90u << 24, 8, 2), command(YARIB_ADD, YARIB_MAX_FEED, 0, 0, 5)};
    commands[3].hop = YARIB_DISCARD;
    CHECK(yarib_new(aside, LIMIT, kind) == YARIB_DONE);
    for (int k = 0; k < 4; k++) CHECK(yarib_apply(aside, &commands[k], &reply) == YARIB_DONE && reply.code == YARIB_ADDED);
}

/* The model has the same routes from now on. */
static void make_model(void)
{
    make_other(&model, YARIB_PLAIN);
}

/* Until a replacement is published readers have the table before it, and changes are busy. */
static void during_replacement(void)
{
    during_change();
    inside = during_replacement;
}

static void replace(void)
{
    yarib aside = YARIB_EMPTY;
    yarib_route found;
    uint32_t attached = 9;
    size_t total;
    for (uint32_t kind = YARIB_PLAIN; kind <= YARIB_JOURNALED; kind++) {
        begin();
        make_other(&aside, kind);
        entered = 0;
        inside = during_replacement;
        CHECK(yarib_concurrent_replace(&table, LIMIT, &aside) == YARIB_DONE && entered > 10);
        inside = NULL;
        make_model();
        compare_both();
        CHECK(yarib_count(&aside, &total) == YARIB_DONE && total == 4);
        CHECK(yarib_concurrent_fib_is_attached(&table, &attached) == YARIB_DONE && attached == 0);
    }
    /* The limit of both sides is 2, and feed 1 has two routes. */
    CHECK(yarib_concurrent_replace(&table, 2, &aside) == YARIB_DONE);
    for (int k = 0; k < 2; k++) {
        yarib_reply reply;
        const yarib_command third = add(91, 1), other_feed = command(k ? YARIB_WITHDRAW : YARIB_ADD, 2, 1u << 24, 8, 1);
        CHECK(yarib_concurrent_apply(&table, &third, &reply) == YARIB_DONE && reply.code == YARIB_FULL);
        CHECK(yarib_concurrent_apply(&table, &other_feed, &reply) == YARIB_DONE);
    }
    compare();
    /* What is refused leaves all as it was. */
    CHECK(yarib_concurrent_replace(&table, 1, &aside) == YARIB_NOT_ADDED && yarib_concurrent_replace(&table, 0, &aside) == YARIB_BAD_NUMBER);
    CHECK(yarib_concurrent_replace(&table, 1000001, &aside) == YARIB_BAD_NUMBER && yarib_free(&aside) == YARIB_DONE);
    CHECK(yarib_concurrent_replace(&table, 0, &aside) == YARIB_NOTHING);
    CHECK(yarib_fib_new(&model, &aside) == YARIB_DONE && yarib_concurrent_replace(&table, 0, &aside) == YARIB_WRONG_KIND);
    compare();
    /* A table with a forwarding table gets one for each side. */
    CHECK(yarib_concurrent_fib_attach(&table) == YARIB_DONE);
    make_other(&aside, YARIB_PLAIN);
    CHECK(yarib_concurrent_replace(&table, LIMIT, &aside) == YARIB_DONE);
    for (int k = 0; k < 2; k++) {
        CHECK(yarib_concurrent_fib_is_attached(&table, &attached) == YARIB_DONE && attached == 1);
        CHECK(yarib_concurrent_look_up_one(&table, 90u << 24, &found) == YARIB_DONE && found.via == 1);
        change(command(k ? YARIB_WITHDRAW : YARIB_ADD, 7, 77u << 24, 9, 7));
    }
    CHECK(yarib_free(&aside) == YARIB_DONE && yarib_concurrent_free(&table) == YARIB_DONE);
    /* An empty handle becomes a concurrent table. */
    CHECK(yarib_concurrent_replace(&table, LIMIT, &model) == YARIB_DONE);
    compare_both();
    entered = 0;
}

static yarib copied = YARIB_EMPTY;

static void busy_copy(void)
{
    size_t total;
    CHECK(yarib_count(&copied, &total) == YARIB_BUSY && yarib_free(&copied) == YARIB_BUSY);
    CHECK(yarib_concurrent_copy(&table, LIMIT, &copied) == YARIB_BUSY);
}

/* While a copy is made of the list, changes don't wait for it. The list's own call for memory is the first. */
static void change_under_copy(void)
{
    if (entered++ < 3) {
        inside = change_under_copy;
        return;
    }
    for (uint32_t k = 0; k < 4; k++) change(add(120 + k, k));
    busy_copy();
}

static void copy(void)
{
    static yarib_route found[ROOM], expected[ROOM];
    yarib_concurrent empty = YARIB_CONCURRENT_INIT;
    yarib_reply reply;
    const yarib_command one = add(200, 1);
    size_t total, right;
    begin();
    change(command(YARIB_ADD, YARIB_MAX_FEED, 0, 0, 5));
    CHECK(yarib_new(&copied, 1, YARIB_JOURNALED) == YARIB_DONE && yarib_apply(&copied, &one, &reply) == YARIB_DONE);
    CHECK(yarib_routes(&model, 0, expected, ROOM, &right) == YARIB_DONE && right == 21);
    /* What is refused leaves all as it was. */
    CHECK(yarib_concurrent_copy(&table, 19, &copied) == YARIB_NOT_ADDED && yarib_concurrent_copy(&table, 0, &copied) == YARIB_BAD_NUMBER);
    CHECK(yarib_concurrent_copy(&empty, 0, &copied) == YARIB_NOTHING);
    CHECK(yarib_count(&copied, &total) == YARIB_DONE && total == 1);
    entered = 0;
    inside = change_under_copy;
    CHECK(yarib_concurrent_copy(&table, 20, &copied) == YARIB_DONE && entered == 4);
    CHECK(yarib_routes(&copied, 0, found, ROOM, &total) == YARIB_DONE && total == right && memcmp(found, expected, sizeof found) == 0);
    CHECK(yarib_apply(&copied, &one, &reply) == YARIB_DONE && reply.code == YARIB_FULL);
    compare_both();
    CHECK(yarib_free(&copied) == YARIB_DONE);
    entered = 0;
}

/* A table for calls inside which others are made, and a concurrent one to compare with. */
static yarib other = YARIB_EMPTY;
static yarib_concurrent second = YARIB_CONCURRENT_EMPTY;

/* The number of reading calls under way, each inside another one, and the status of a comparison then. */
static int to_nest;
static enum yarib_status nested_status;

static void nest(void)
{
    yarib_difference found;
    yarib_route route;
    size_t total;
    if (to_nest-- == 0) {
        CHECK(yarib_concurrent_first_difference(&table, &second, 1, 0, &found) == nested_status);
        entered++;
        return;
    }
    inside = nest;
    CHECK(yarib_routes(&other, 0, &route, 1, &total) == YARIB_DONE && total == 1);
}

/* A comparison needs two of the 1,024 places. If there is only one, it doesn't wait for the other one. */
static void compare_in_last_places(void)
{
    for (int left = 2; left > 0; left--) {
        to_nest = 1024 - left;
        nested_status = left == 2 ? YARIB_NONE_LEFT : YARIB_BUSY;
        entered = 0;
        nest();
        CHECK(entered == 1 && inside == NULL);
    }
    entered = 0;
}

/* Two concurrent tables differ where their models do. */
static void compare_tables(void)
{
    yarib_concurrent empty = YARIB_CONCURRENT_EMPTY;
    yarib aside = YARIB_EMPTY;
    yarib_difference found, right;
    begin();
    make_other(&aside, YARIB_PLAIN);
    CHECK(yarib_concurrent_replace(&second, LIMIT, &aside) == YARIB_DONE);
    for (uint32_t by = 0; by < 2; by++) {
        int ranges = 0;
        uint64_t from = 0;
        enum yarib_status status = YARIB_DONE;
        for (; from < (uint64_t)1 << 32 && status == YARIB_DONE; from = (uint64_t)found.last + 1, ranges++) {
            memset(&found, 0, sizeof found);
            memset(&right, 0, sizeof right);
            status = yarib_concurrent_first_difference(&table, &second, by, (uint32_t)from, &found);
            CHECK(status == yarib_first_difference(&model, &aside, by, (uint32_t)from, &right) && memcmp(&found, &right, sizeof found) == 0);
        }
        CHECK(ranges > 20);
    }
#ifndef YARIB_CHECK
    CHECK(yarib_concurrent_first_difference(&table, &table, 0, 0, &found) == YARIB_BUSY);
#endif
    CHECK(yarib_concurrent_first_difference(&table, &empty, 9, 0, &found) == YARIB_NOTHING);
    CHECK(yarib_concurrent_first_difference(&empty, &table, 9, 0, &found) == YARIB_NOTHING);
    CHECK(yarib_concurrent_first_difference(&table, &second, 9, 0, &found) == YARIB_BAD_NUMBER);
    CHECK(yarib_concurrent_replace(&second, LIMIT, &model) == YARIB_DONE);
    CHECK(yarib_concurrent_first_difference(&table, &second, 1, 0, &found) == YARIB_NONE_LEFT);
    compare_in_last_places();
    /* After both calls, no reader is left. */
    compare_both();
    CHECK(yarib_concurrent_free(&second) == YARIB_DONE && yarib_free(&aside) == YARIB_DONE);
}

static sem_t is_inside, may_leave;
static atomic_int is_over, is_held;
static bool is_lent;

static void stop(void)
{
    CHECK(sem_post(&is_inside) == 0 && sem_wait(&may_leave) == 0);
}

static yarib_route held_routes[ROOM];
static size_t held_total;

static void read_held(void)
{
    inside = stop;
    CHECK(yarib_concurrent_routes(&table, 0, held_routes, ROOM, &held_total) == YARIB_DONE);
}

/* A reading call that stops where it is: with its thread's place, or inside another call of it, so with a place that is lent. */
static void *reader(void *unused)
{
    yarib_route route;
    size_t total;
    inside = read_held;
    if (is_lent) CHECK(yarib_routes(&other, 0, &route, 1, &total) == YARIB_DONE);
    else read_held();
    return unused;
}

/* The ways to end a table or to change it that wait for the reader. */
static enum { CHANGE, BATCH, FREE, NEW, REPLACE, ATTACH, LOAD, WAYS } way;

/* While the reader is held, nothing may be allocated for its side, the second one that gets a forwarding table. */
static void check_side(void)
{
    size_t bytes;
    CHECK(yarib_concurrent_memory(&table, &bytes) != YARIB_DONE || bytes < (size_t)2 << 26 || !atomic_load(&is_held));
    inside = check_side;
}

static void load_one(void)
{
    yarib_loaded loaded;
    FILE *file = tmpfile();
    CHECK(file && fputs("add 71.0.0.0/8 1 192.0.2.1\n", file) >= 0);
    rewind(file);
    CHECK(yarib_concurrent_load(&table, 1, file, &loaded) == YARIB_DONE && loaded.routes == 1 && fclose(file) == 0);
}

static void *writer(void *unused)
{
    yarib_command one = add(71, 71);
    yarib_reply reply;
    if (way == ATTACH) inside = check_side;
    if (way == CHANGE) CHECK(yarib_concurrent_apply(&table, &one, &reply) == YARIB_DONE);
    if (way == BATCH) CHECK(yarib_concurrent_apply_each(&table, &one, 1, &reply, 1) == YARIB_DONE);
    if (way == FREE) CHECK(yarib_concurrent_free(&table) == YARIB_DONE);
    if (way == NEW) CHECK(yarib_concurrent_new(&table, LIMIT) == YARIB_DONE);
    if (way == REPLACE) CHECK(yarib_concurrent_replace(&table, LIMIT, &other) == YARIB_DONE);
    if (way == ATTACH) CHECK(yarib_concurrent_fib_attach(&table) == YARIB_DONE);
    if (way == LOAD) load_one();
    atomic_store(&is_over, 1);
    return unused;
}

/* While a reader is held, the first change is published, and what needs the reader's side waits. Other readers don't. */
static void reader_is_held(void)
{
    const struct timespec moment = {.tv_nsec = 30000000};
    static yarib_route expected[ROOM];
    const yarib_command first = add(70, 70), one = add(71, 71);
    yarib_reply reply;
    pthread_t threads[2];
    size_t right, total;
    begin();
    CHECK(yarib_routes(&model, 0, expected, ROOM, &right) == YARIB_DONE);
    CHECK(pthread_create(&threads[0], NULL, reader, NULL) == 0 && sem_wait(&is_inside) == 0);
    if (way == CHANGE) change(add(70, 70));
    if (way == BATCH) {
        CHECK(yarib_concurrent_apply_each(&table, &first, 1, &reply, 1) == YARIB_DONE);
        change_model(&first, &reply);
    }
    compare();
    atomic_store(&is_over, 0);
    atomic_store(&is_held, 1);
    CHECK(pthread_create(&threads[1], NULL, writer, NULL) == 0);
    /* The lowest bit of the handle says that the change is under way. */
    while (((uintptr_t)__atomic_load_n(&table.inside, __ATOMIC_SEQ_CST) & 1) == 0) CHECK(!atomic_load(&is_over));
    while (way == ATTACH && (yarib_concurrent_memory(&table, &total) != YARIB_DONE || total < (size_t)2 << 26)) nanosleep(&moment, NULL);
    while (way == LOAD && (yarib_concurrent_count(&table, &total) != YARIB_DONE || total != right + 1)) nanosleep(&moment, NULL);
    nanosleep(&moment, NULL);
    CHECK(!atomic_load(&is_over));
    if (way == FREE) CHECK(yarib_concurrent_count(&table, &total) == YARIB_NOTHING);
    else if (way == NEW || way == REPLACE) CHECK(yarib_concurrent_count(&table, &total) == YARIB_DONE && total == (way == REPLACE));
    else if (way == ATTACH || way == LOAD) CHECK(yarib_concurrent_count(&table, &total) == YARIB_DONE && total == right + (way == LOAD));
    else compare();
    CHECK(yarib_concurrent_apply(&table, &one, &reply) == YARIB_BUSY && yarib_concurrent_free(&table) == YARIB_BUSY);
    atomic_store(&is_held, 0);
    CHECK(sem_post(&may_leave) == 0 && pthread_join(threads[0], NULL) == 0 && pthread_join(threads[1], NULL) == 0);
    CHECK(atomic_load(&is_over) && held_total == right && memcmp(held_routes, expected, sizeof expected) == 0);
    if (way == CHANGE || way == BATCH) {
        change_model(&one, &reply);
        compare_both();
    }
}

/* An empty handle, and arguments that are invalid. */
static void statuses(void)
{
    yarib_concurrent empty = YARIB_CONCURRENT_EMPTY;
    const yarib_selection all = {.part = YARIB_ALL}, no_part = {.part = 9}, no_len = {.part = YARIB_EXACT, .len = 33};
    const yarib_route start = {0}, no_place = {.len = 33}, no_bits = {.base = 1, .len = 8};
    const yarib_command one = add(1, 1);
    yarib_command fault = one;
    yarib_reply reply = {.code = 99};
    yarib_route route = {.via = 99};
    yarib_hop_count count = {.via = 99};
    uint32_t address = 1, hop = 99;
    yarib_view view = {&address, 1, &address, 1, &hop, 1};
    size_t total = 99, other_total = 99;
    CHECK(yarib_concurrent_apply(&empty, &one, &reply) == YARIB_NOTHING && yarib_concurrent_fib_attach(&empty) == YARIB_NOTHING);
    CHECK(yarib_concurrent_apply_each(&empty, &one, 1, &reply, 0) == YARIB_BAD_SIZE);
    CHECK(yarib_concurrent_apply_each(&empty, &one, 1, &reply, 1) == YARIB_NOTHING && reply.code == 99);
    CHECK(yarib_concurrent_look_up(&empty, &address, 1, &route, 0) == YARIB_BAD_SIZE);
    CHECK(yarib_concurrent_look_up(&empty, &address, 1, &route, 1) == YARIB_NOTHING);
    CHECK(yarib_concurrent_look_up_one(&empty, 1, &route) == YARIB_NOTHING);
    CHECK(yarib_concurrent_look_up_text(&empty, "1.1.1.1", 7, &route) == YARIB_NOTHING);
    CHECK(yarib_concurrent_look_up_text(&empty, "1.1.1.", 6, &route) == YARIB_BAD_TEXT);
    CHECK(yarib_concurrent_fib_is_attached(&empty, &hop) == YARIB_NOTHING && hop == 99);
    CHECK(yarib_concurrent_view_sizes(&empty, &total, &other_total) == YARIB_NOTHING && other_total == 99);
    CHECK(yarib_concurrent_view_write(&empty, &view) == YARIB_NOTHING);
    CHECK(yarib_concurrent_hops(&empty, &address, 1, 0, 1, &hop, 0) == YARIB_BAD_SIZE);
    CHECK(yarib_concurrent_hops(&empty, &address, 1, 0, 1, &hop, 1) == YARIB_NOTHING && hop == 99);
    CHECK(yarib_concurrent_look_up_all(&empty, 1, 0, &route, 1, &total) == YARIB_NOTHING);
    CHECK(yarib_concurrent_routes(&empty, 0, &route, 1, &total) == YARIB_NOTHING);
    CHECK(yarib_concurrent_routes_from(&empty, &start, &route, 1, &total) == YARIB_NOTHING);
    CHECK(yarib_concurrent_select(&empty, &all, 0, &route, 1, &total) == YARIB_NOTHING && route.via == 99);
    CHECK(yarib_concurrent_select_by_hop(&empty, &all, YARIB_VIA, 1, 0, &route, 1, &total) == YARIB_NOTHING && route.via == 99);
    CHECK(yarib_concurrent_hop_counts(&empty, 0, &count, 1, &total) == YARIB_NOTHING && count.via == 99);
    CHECK(yarib_concurrent_count(&empty, &total) == YARIB_NOTHING && yarib_concurrent_memory(&empty, &total) == YARIB_NOTHING);
    CHECK(total == 99 && yarib_concurrent_free(&empty) == YARIB_DONE);
    CHECK(yarib_concurrent_new(&empty, 0) == YARIB_BAD_NUMBER && yarib_concurrent_new(&empty, 1000001) == YARIB_BAD_NUMBER);
    CHECK(empty.inside == NULL);
    begin();
    CHECK(yarib_concurrent_new(&table, 0) == YARIB_BAD_NUMBER);
    fault.feed = YARIB_MAX_FEED + 1;
    CHECK(yarib_concurrent_apply(&table, &fault, &reply) == YARIB_BAD_NUMBER);
    fault = one;
    fault.hop = 0;
    CHECK(yarib_concurrent_apply(&table, &fault, &reply) == YARIB_BAD_COMMAND && reply.code == 99);
    CHECK(yarib_concurrent_apply_each(&table, &one, 1, &reply, 0) == YARIB_BAD_SIZE);
    CHECK(yarib_concurrent_look_up(&table, &address, 1, &route, 0) == YARIB_BAD_SIZE);
    CHECK(yarib_concurrent_hops(&table, &address, 1, 0, 1, &hop, 0) == YARIB_BAD_SIZE);
    CHECK(yarib_concurrent_look_up_text(&table, "10.0.0.0/8", 10, &route) == YARIB_BAD_TEXT);
    CHECK(yarib_concurrent_view_sizes(&table, &total, &other_total) == YARIB_WRONG_KIND && other_total == 99);
    CHECK(yarib_concurrent_view_write(&table, &view) == YARIB_WRONG_KIND && view.router_count == 1 && address == 1);
    CHECK(yarib_concurrent_select(&table, &no_part, 0, &route, 1, &total) == YARIB_BAD_NUMBER);
    CHECK(yarib_concurrent_select(&table, &no_len, 0, &route, 1, &total) == YARIB_BAD_LENGTH);
    CHECK(yarib_concurrent_select_by_hop(&table, &all, YARIB_DISCARD + 1, 1, 0, &route, 1, &total) == YARIB_BAD_NUMBER);
    CHECK(yarib_concurrent_routes_from(&table, &no_place, &route, 1, &total) == YARIB_BAD_LENGTH);
    CHECK(yarib_concurrent_routes_from(&table, &no_bits, &route, 1, &total) == YARIB_BAD_BITS && route.via == 99);
    compare_both();
}

static void reader_is_held_in_each_way(void)
{
    for (int k = 0; k < 2 * WAYS; k++) {
        way = k % WAYS;
        is_lent = k >= WAYS;
        reader_is_held();
    }
}

/* The tests. Each begins with its own tables. */
static const struct {
    const char *name;
    void (*run)(void);
} tests[] = {{"statuses", statuses}, {"change_meets_readers", change_meets_readers}, {"reader_meets_changes", reader_meets_changes},
    {"change_at_random", change_at_random}, {"change_many", change_many}, {"keep_lists", keep_lists},
    {"reader_meets_end", reader_meets_end}, {"replace", replace}, {"copy", copy}, {"compare_tables", compare_tables}, {"save_meets_changes", save_meets_changes}, {"reader_is_held", reader_is_held_in_each_way}};

/* With an argument, only the test with this name is run; the status is 2 if no test has it. */
int main(int size, char **words)
{
    yarib_command one = add(1, 1);
    yarib_reply reply;
    int run = 0;
    alarm(600);
    CHECK(sem_init(&is_inside, 0, 0) == 0 && sem_init(&may_leave, 0, 0) == 0);
    CHECK(yarib_new(&other, 1, YARIB_PLAIN) == YARIB_DONE && yarib_apply(&other, &one, &reply) == YARIB_DONE);
    for (size_t k = 0; k < sizeof tests / sizeof *tests; k++) {
        if (size > 1 && strcmp(words[1], tests[k].name) != 0) continue;
        tests[k].run();
        run++;
    }
    CHECK(yarib_concurrent_free(&table) == YARIB_DONE && table.inside == NULL && yarib_concurrent_free(&table) == YARIB_DONE);
    CHECK(yarib_free(&model) == YARIB_DONE && yarib_free(&other) == YARIB_DONE);
    return run > 0 ? 0 : 2;
}
