/* The size that yarib_memory reports for a table and the memory that the library's heap gives for it differ by at most a factor of 1.3,
 * and by 16 KiB for the handle and for pages that are not full. This is tested for 1 to YARIB_MAX_FEED feeds with the same prefixes,
 * with different ones and with some in common, and for several kinds of prefixes. After filling the table, the heap's pages are
 * counted, and the blocks in use; after withdrawals and purges only the blocks in use, since slabs may be partly empty then. If only
 * prefixes that contain others are withdrawn, the heap gives up to twice the reported size. For a journal, which grows by doubling, it
 * also gives up to twice the reported size, and for a forwarding table at most a hundredth more. */
#define _GNU_SOURCE
#include "heap.c"

#include "check.h"
#include "routes.h"

#include <malloc.h>
#include <sys/wait.h>
#include <unistd.h>

enum { SLACK = 16384, MOST = 1000000 };

/* The prefixes of a table: with the lengths of a router's table; host routes; chains of prefixes, each inside the previous one; or all
 * prefixes up to a length. */
enum shape { ROUTER, HOSTS, NESTED, ALL };

/* The feeds that offer a prefix: all of them, one of them in turn, or a random half of them. */
enum who { EACH, ONE, SOME };

static const char *const shapes[] = {"a router's prefixes", "host routes", "nested prefixes", "all prefixes"};
static const char *const whose[] = {"by each feed", "by one feed each", "by some feeds"};

static struct prefix {
    uint32_t base;
    uint8_t len;
} prefixes[MOST];

/* Returns the size of a chunk's used slabs, in whole pages, or of the blocks in use in them. */
static size_t used_of(const struct chunk *chunk, bool by_pages)
{
    bool is_unused[CHUNK / SLAB] = {true};
    size_t bytes = 4096;
    for (size_t k = 0; k < chunk->unused; k++) is_unused[chunk->numbers[k]] = true;
    for (size_t k = 0; k < CHUNK / SLAB; k++) {
        const struct slab *slab = (const struct slab *)((const char *)chunk + k * SLAB);
        if (is_unused[k]) continue;
        bytes += by_pages ? (size_t)(slab->fresh - (const char *)slab + 4095) / 4096 * 4096 : slab->used * slab->size;
    }
    return bytes;
}

/* Returns how many bytes were given and not freed, including malloc's own for each block and the rest of a mapping's last page. */
static size_t given(bool by_pages)
{
    struct mallinfo2 now = mallinfo2();
    size_t bytes = now.uordblks + now.hblkhd;
    for (uintptr_t k = 0; k < sizeof begins; k++) {
        if (begins[k] == SLABS) bytes += used_of((struct chunk *)(k * CHUNK), by_pages);
        if (begins[k] == MAPPING) bytes += ((struct mapping *)(k * CHUNK))->size;
    }
    return bytes;
}

static bool is_near(size_t said, size_t taken)
{
    printf(", told %zu, given %zu", said, taken);
    return said <= SLACK + taken / 10 * 13 && taken <= SLACK + said / 10 * 13;
}

/* Returns a random bit that depends only on the prefix, the feed and the purpose. */
static bool coin(uint32_t k, uint32_t feed, uint32_t purpose)
{
    uint64_t mixed = ((uint64_t)k << 16 | feed << 4 | purpose) * 0x9e3779b97f4a7c15u;
    return (mixed ^ mixed >> 29) * 0xbf58476d1ce4e5b9u >> 63;
}

static bool offers(enum who who, uint32_t feeds, uint32_t k, uint32_t feed)
{
    return who == EACH || (who == ONE ? k % feeds + 1 == feed : coin(k, feed, 0));
}

static void choose(enum shape shape, uint32_t count)
{
    static const uint8_t lens[] = {24, 24, 24, 24, 24, 24, 24, 24, 23, 22, 22, 21, 20, 19, 16, 12};
    uint32_t mixed = 0;
    for (uint32_t k = 0; k < count; k++) {
        uint8_t len = shape == HOSTS ? 32 : lens[draw() % 16];
        uint32_t base = draw();
        if (shape == NESTED) {
            len = 16 + k % 17;
            mixed = k % 17 == 0 ? base : mixed;
            base = mixed;
        }
        if (shape == ALL) {
            for (len = 0; (k + 1) >> (len + 1); len++) continue;
            base = len == 0 ? 0 : (k + 1) << (32 - len);
        }
        prefixes[k] = (struct prefix){.base = len == 0 ? 0 : base >> (32 - len) << (32 - len), .len = len};
    }
}

static yarib_command command_of(uint32_t operation, uint32_t feed, uint32_t k)
{
    return put_command(operation, feed, prefixes[k].base, prefixes[k].len, feed * 7 % 9, k);
}

static uint32_t apply(yarib *table, uint32_t operation, uint32_t feed, uint32_t k)
{
    yarib_command command = command_of(operation, feed, k);
    yarib_reply reply;
    CHECK(yarib_apply(table, &command, &reply) == YARIB_DONE);
    return reply.code;
}

/* Adds the routes of the feeds, one feed after another. */
static void fill(yarib *table, uint32_t kind, enum who who, uint32_t count, uint32_t feeds)
{
    CHECK(yarib_new(table, 1000000, kind) == YARIB_DONE);
    for (uint32_t feed = 1; feed <= feeds; feed++)
        for (uint32_t k = 0; k < count; k++) if (offers(who, feeds, k, feed)) apply(table, YARIB_ADD, feed, k);
}

static void measure(enum shape shape, enum who who, uint32_t count, uint32_t feeds)
{
    yarib table = YARIB_EMPTY;
    choose(shape, count);
    size_t pages = given(true), blocks = given(false);
    printf("%u of %s %s, %u feeds", count, shapes[shape], whose[who], feeds);
    fill(&table, YARIB_PLAIN, who, count, feeds);
    size_t said = memory_of(&table);
    CHECK(is_near(said, given(true) - pages) && is_near(said, given(false) - blocks));
    for (uint32_t feed = 1; feed <= feeds; feed++)
        for (uint32_t k = 0; k < count; k++)
            if (offers(who, feeds, k, feed) && coin(k, feed, 1)) apply(&table, YARIB_WITHDRAW, feed, k);
    CHECK(is_near(memory_of(&table), given(false) - blocks));
    for (uint32_t feed = 1; feed <= feeds / 2; feed++) CHECK(apply(&table, YARIB_PURGE, feed, 0) == YARIB_PURGED);
    CHECK(is_near(memory_of(&table), given(false) - blocks));
    for (uint32_t k = 0; k < count; k++) if (offers(who, feeds, k, feeds)) apply(&table, YARIB_ADD, feeds, k);
    CHECK(is_near(memory_of(&table), given(false) - blocks));
    for (uint32_t feed = 1; feed <= feeds; feed++) CHECK(apply(&table, YARIB_PURGE, feed, 0) == YARIB_PURGED);
    printf("\n");
    /* malloc counts the freed blocks that a thread keeps for itself, a few of each size. */
    CHECK(memory_of(&table) == 0 && given(false) - blocks <= 2 * SLACK);
    yarib_free(&table);
}

/* If prefixes that contain others are withdrawn, their nodes stay. */
static void measure_left(enum shape shape, enum who who, uint32_t count, uint32_t feeds)
{
    yarib table = YARIB_EMPTY;
    choose(shape, count);
    size_t blocks = given(false);
    fill(&table, YARIB_PLAIN, who, count, feeds);
    for (uint32_t k = 0; k < count / 2; k++) CHECK(apply(&table, YARIB_WITHDRAW, 1, k) == YARIB_WITHDRAWN);
    size_t taken = given(false) - blocks, said = memory_of(&table);
    printf("without prefixes that contain others: told %zu, given %zu\n", said, taken);
    CHECK(said <= SLACK + taken / 10 * 13 && taken <= SLACK + 2 * said);
    yarib_free(&table);
}

static void measure_concurrent(enum shape shape, enum who who, uint32_t count, uint32_t feeds)
{
    yarib_concurrent table = YARIB_CONCURRENT_EMPTY;
    choose(shape, count);
    size_t pages = given(true), bytes;
    CHECK(yarib_concurrent_new(&table, 1000000) == YARIB_DONE);
    for (uint32_t feed = 1; feed <= feeds; feed++) {
        for (uint32_t k = 0; k < count; k++) {
            yarib_command command = command_of(YARIB_ADD, feed, k);
            yarib_reply reply;
            if (offers(who, feeds, k, feed)) CHECK(yarib_concurrent_apply(&table, &command, &reply) == YARIB_DONE);
        }
    }
    CHECK(yarib_concurrent_memory(&table, &bytes) == YARIB_DONE);
    printf("a concurrent table, %u feeds", feeds);
    CHECK(is_near(bytes, given(true) - pages));
    printf("\n");
    CHECK(yarib_concurrent_free(&table) == YARIB_DONE);
}

static void measure_journal(enum shape shape, enum who who, uint32_t count, uint32_t feeds)
{
    yarib table = YARIB_EMPTY;
    choose(shape, count);
    size_t before = given(true);
    fill(&table, YARIB_JOURNALED, who, count, feeds);
    size_t taken = given(true) - before, said = memory_of(&table);
    printf("with a journal, %u feeds: told %zu, given %zu\n", feeds, said, taken);
    CHECK(said <= SLACK + taken / 10 * 13 && taken <= SLACK + 2 * said);
    yarib_free(&table);
}

static void measure_forwarding(enum shape shape, enum who who, uint32_t count, uint32_t feeds)
{
    yarib table = YARIB_EMPTY, forwarding = YARIB_EMPTY;
    choose(shape, count);
    fill(&table, YARIB_PLAIN, who, count, feeds);
    size_t before = given(true), plain = memory_of(&table);
    CHECK(yarib_fib_new(&table, &forwarding) == YARIB_DONE);
    size_t taken = given(true) - before, said = memory_of(&forwarding);
    printf("a forwarding table: told %zu, given %zu\n", said, taken);
    CHECK(said <= taken && taken <= said + said / 100);
    yarib_free(&forwarding);
    CHECK(yarib_fib_attach(&table) == YARIB_DONE);
    taken = given(true) - before;
    said = memory_of(&table) - plain;
    printf("one beside a table: told %zu, given %zu\n", said, taken);
    CHECK(said <= taken && taken <= said + said / 100);
    yarib_free(&table);
}

/* Measures in a process of its own, whose allocator has kept nothing of an earlier table. */
static void apart(void (*one)(enum shape, enum who, uint32_t, uint32_t), enum shape shape, enum who who, uint32_t count, uint32_t feeds)
{
    int status;
    pid_t child = fork();
    if (child == 0) {
        one(shape, who, count, feeds);
        exit(0);
    }
    CHECK(child > 0 && waitpid(child, &status, 0) == child && status == 0);
}

int main(void)
{
    static const uint32_t feeds[] = {1, 2, 8, 33, YARIB_MAX_FEED};
    setvbuf(stdout, NULL, _IONBF, 0); /* so that printing doesn't allocate */
    apart(measure, ROUTER, EACH, 0, 1);
    for (uint32_t count = 100; count <= MOST; count *= 10) apart(measure, ROUTER, EACH, count, 1);
    for (int k = 0; k < 5; k++) for (enum who who = EACH; who <= SOME; who++) apart(measure, ROUTER, who, 10000, feeds[k]);
    for (enum shape shape = HOSTS; shape <= ALL; shape++) for (int k = 0; k < 5; k++) apart(measure, shape, EACH, 4095, feeds[k]);
    apart(measure_left, ALL, EACH, 4095, 1);
    for (int k = 0; k < 5; k++) apart(measure_concurrent, ROUTER, EACH, 10000, feeds[k]);
    for (int k = 0; k < 5; k++) apart(measure_journal, ROUTER, EACH, 10000, feeds[k]);
    apart(measure_forwarding, ROUTER, EACH, 100000, 2);
    return 0;
}
