/* A followed table is followed as long as memory suffices, its look-ups read the forwarding table, and no change or second request
 * builds another. The heap here gives the forwarding table's entries, the one block of 64 MiB, pages of their own: while these can't
 * be read, a look-up that reads them ends its process by a signal. */
#define _GNU_SOURCE
#include "check.h"
#include "own_heap.h"
#include "routes.h"

#include <signal.h>
#include <string.h>
#include <sys/mman.h>
#include <sys/wait.h>
#include <unistd.h>

enum { ROUTES = 30000, FEW = 900 };
static const size_t ENTRIES = (size_t)1 << 26;

static char *entries;
static int built;
static bool is_refusing, is_usual, is_filling;

void begin_filling(void)
{
    is_filling = true;
}

void end_filling(void)
{
    is_filling = false;
}

struct tried rattle_alloc(size_t size, size_t alignment)
{
    (void)alignment;
    if (is_refusing) return (struct tried){false, NULL};
    /* A forwarding table gets its memory when it is attached, and not when it is written. */
    CHECK(is_filling || size != ENTRIES);
    if (size != ENTRIES || is_usual) return (struct tried){true, malloc(size ? size : 1)};
    built++;
    entries = mmap(NULL, size, PROT_READ | PROT_WRITE, MAP_PRIVATE | MAP_ANONYMOUS, -1, 0);
    CHECK(entries != MAP_FAILED);
    return (struct tried){true, entries};
}

void rattle_dealloc(void *block)
{
    if (block != entries || !block) {
        free(block);
        return;
    }
    CHECK(munmap(entries, ENTRIES) == 0);
    entries = NULL;
}

struct tried rattle_realloc(void *block, size_t kept, size_t size, size_t alignment)
{
    struct tried made = rattle_alloc(size, alignment);
    if (!made.ok) return made;
    memcpy(made.block, block, kept < size ? kept : size);
    rattle_dealloc(block);
    return made;
}

static bool is_attached(const yarib *table)
{
    uint32_t attached = 7;
    CHECK(yarib_fib_is_attached(table, &attached) == YARIB_DONE && attached <= 1 && !is_filling);
    return attached == 1;
}

static uint32_t applied_to(yarib *table, uint32_t operation, uint32_t feed, uint32_t k, uint8_t len)
{
    const yarib_command command = put_command(operation, feed, 0x0a000000 + 256 * k, len, k % 7, k);
    yarib_reply reply;
    CHECK(yarib_apply(table, &command, &reply) == YARIB_DONE);
    return reply.code;
}

static uint32_t applied(yarib *table, uint32_t operation, uint32_t feed, uint32_t k)
{
    return applied_to(table, operation, feed, k, 24);
}

/* The ways to look up an address. */
static void look_up(const yarib *table, int way)
{
    uint32_t address = 0x0a000001, hop;
    yarib_route answer;
    if (way == 0) CHECK(yarib_look_up_one(table, address, &answer) == YARIB_DONE && answer.via == 0);
    if (way == 1) CHECK(yarib_look_up(table, &address, 1, &answer, 1) == YARIB_DONE && answer.via == 0);
    if (way == 2) CHECK(yarib_hops(table, &address, 1, 1, 2, &hop, 1) == YARIB_DONE && hop == 0);
}

/* Returns true if this look-up reads the entries. */
static bool reads_entries(const yarib *table, int way)
{
    int status;
    pid_t child = fork();
    CHECK(child >= 0);
    if (child == 0) {
        CHECK(signal(SIGSEGV, SIG_DFL) != SIG_ERR && mprotect(entries, ENTRIES, PROT_NONE) == 0);
        look_up(table, way);
        _exit(0);
    }
    CHECK(waitpid(child, &status, 0) == child);
    if (WIFSIGNALED(status)) CHECK(WTERMSIG(status) == SIGSEGV);
    else CHECK(WIFEXITED(status) && WEXITSTATUS(status) == 0);
    return WIFSIGNALED(status);
}

/* The table is followed by its one forwarding table, which each look-up reads. */
static void check_followed(yarib *table)
{
    CHECK(is_attached(table) && built == 1 && entries);
    for (int way = 0; way < 3; way++) {
        look_up(table, way);
        CHECK(reads_entries(table, way));
    }
    CHECK(yarib_fib_attach(table) == YARIB_DONE && built == 1);
}

static yarib_concurrent shared = YARIB_CONCURRENT_EMPTY;

/* Makes a change of the concurrent table. Returns whether its published table is followed then. */
static bool changed(uint32_t preference)
{
    const yarib_command command = put_command(YARIB_REPLACE, 1, 0x0a000000, 32, preference, 9);
    yarib_reply reply;
    uint32_t attached = 7;
    CHECK(yarib_concurrent_apply(&shared, &command, &reply) == YARIB_DONE && reply.code == YARIB_REPLACED);
    CHECK(yarib_concurrent_fib_is_attached(&shared, &attached) == YARIB_DONE && attached <= 1);
    return attached == 1;
}

/* Each of the two tables of a concurrent one is followed as long as memory suffices, and the published one says so. */
static void follow_concurrent(void)
{
    yarib_command add = {.operation = YARIB_ADD, .feed = 1, .base = 0x0a000000, .len = 32, .hop = YARIB_VIA, .via = 9};
    yarib_reply reply;
    uint32_t attached = 7;
    is_usual = true;
    CHECK(yarib_concurrent_new(&shared, 5) == YARIB_DONE && yarib_concurrent_apply(&shared, &add, &reply) == YARIB_DONE);
    CHECK(!changed(1) && !changed(2) && yarib_concurrent_fib_attach(&shared) == YARIB_DONE && !is_filling);
    CHECK(yarib_concurrent_fib_is_attached(&shared, &attached) == YARIB_DONE && attached == 1);
    for (uint32_t k = 0; k < 4; k++) CHECK(changed(k));
    is_refusing = true;
    CHECK(!changed(5));
    is_refusing = false;
    /* Only one of the two has lost its forwarding table. */
    for (uint32_t k = 0; k < 4; k++) CHECK(changed(k) == (k % 2 == 0));
    is_refusing = true;
    CHECK(!changed(6) && !changed(7) && yarib_concurrent_fib_attach(&shared) == YARIB_NO_MEMORY);
    is_refusing = false;
    CHECK(!changed(8) && !changed(9) && yarib_concurrent_fib_attach(&shared) == YARIB_DONE && changed(1) && changed(2));
    CHECK(yarib_concurrent_free(&shared) == YARIB_DONE);
    is_usual = false;
}

int main(void)
{
    yarib table = YARIB_EMPTY, other = YARIB_EMPTY;
    uint32_t attached = 7;
    CHECK(yarib_fib_is_attached(&table, &attached) == YARIB_NOTHING && attached == 7);
    CHECK(yarib_new(&table, ROUTES, YARIB_PLAIN) == YARIB_DONE && !is_attached(&table));
    CHECK(yarib_fib_attach(&table) == YARIB_DONE && is_attached(&table));
    for (uint32_t k = 0; k < ROUTES; k++) {
        CHECK(applied(&table, YARIB_ADD, 1, k) == YARIB_ADDED && is_attached(&table));
        if (k == FEW) check_followed(&table);
    }
    check_followed(&table);
    CHECK(applied(&table, YARIB_ADD, 1, ROUTES) == YARIB_FULL);
    for (uint32_t k = 0; k < FEW; k++) CHECK(applied(&table, YARIB_ADD, 2, k) == YARIB_ADDED);
    for (uint32_t k = 1; k < ROUTES; k += 2) CHECK(applied(&table, YARIB_REPLACE, 1, k) == YARIB_REPLACED);
    for (uint32_t k = 1; k < ROUTES; k += 3) CHECK(applied(&table, YARIB_WITHDRAW, 1, k) == YARIB_WITHDRAWN);
    CHECK(applied(&table, YARIB_PURGE, 2, 0) == YARIB_PURGED && applied(&table, YARIB_PURGE, 3, 0) == YARIB_PURGED);
    CHECK(applied(&table, YARIB_LOOKUP, 1, 0) == YARIB_FOUND && applied(&table, YARIB_DUMP, 1, 0) == YARIB_DUMPED);
    check_followed(&table);
    CHECK(applied_to(&table, YARIB_ADD, 3, 0, 32) == YARIB_ADDED);
    /* Without memory a command that changes no answer leaves it followed, and a change may end that: then is_attached says so. A
     * change of a prefix longer than 24 bits always needs memory. */
    is_refusing = true;
    CHECK(applied(&table, YARIB_ADD, 1, 0) == YARIB_EXISTS && applied(&table, YARIB_WITHDRAW, 9, 0) == YARIB_MISSING);
    CHECK(applied(&table, YARIB_REPLACE, 9, 0) == YARIB_MISSING && is_attached(&table) && entries);
    CHECK(applied(&table, YARIB_REPLACE, 1, 0) == YARIB_REPLACED && is_attached(&table) && entries);
    CHECK(applied_to(&table, YARIB_REPLACE, 3, 0, 32) == YARIB_REPLACED && !is_attached(&table) && !entries);
    CHECK(yarib_fib_attach(&table) == YARIB_NO_MEMORY && !is_attached(&table));
    is_refusing = false;
    CHECK(yarib_fib_attach(&table) == YARIB_DONE && is_attached(&table) && built == 2);
    yarib_free(&table);
    CHECK(!entries && yarib_new(&other, 5, YARIB_JOURNALED) == YARIB_DONE && !is_attached(&other));
    yarib_free(&other);
    follow_concurrent();
    return 0;
}
