/* Times look-ups of the library for C beside DPDK's rte_lpm with the same prefixes, in one process and in interleaved rounds of
 * 4,000,000 look-ups each. It prints the least nanoseconds of the thread's processor time for one address, of any 1,000,000 look-ups
 * in a row. Its words are the number of prefixes and of rounds (200,000 and
 * 9). Each rte_lpm and each view that is called huge has its memory in huge pages, if the kernel gives them:
 *
 *     bindings/build
 *     gcc -O2 -march=native -I bindings/c bench/lookups.c bindings/out/libyarib.a -pthread $(pkg-config --cflags --libs libdpdk) -o lookups
 *     ./lookups 200000 9 */
#define _GNU_SOURCE
#include "measured.h"

#include <rte_eal.h>
#include <rte_lpm.h>
#include <sys/mman.h>
#include <yarib.h>

enum { ASKED = 4000000, SLICE = 1000000, AT_ONCE = 256, ROUTERS = 64 };

/* What is looked up in, and the results of one round. */
static struct rte_lpm *lpm, *huge_lpm;
static yarib table = YARIB_EMPTY, forwarding = YARIB_EMPTY;
static yarib_view view, huge_view;
static uint32_t *asked, *slice, found[AT_ONCE];
static yarib_route routes[AT_ONCE];
static uint64_t sum;

static double now(void) { return time_of(CLOCK_THREAD_CPUTIME_ID, 1e9); }

static void by_lpm(struct rte_lpm *table)
{
    for (uint32_t k = 0; k < SLICE; k++) {
        uint32_t hop = 0;
        if (rte_lpm_lookup(table, slice[k], &hop) == 0) sum += hop;
    }
}

static void by_lpm_bulk(struct rte_lpm *table)
{
    for (uint32_t k = 0; k + AT_ONCE <= SLICE; k += AT_ONCE) {
        rte_lpm_lookup_bulk(table, slice + k, found, AT_ONCE);
        sum += found[0] & 0xffffff;
    }
}

static void by_view(const yarib_view *view)
{
    for (uint32_t k = 0; k < SLICE; k++) sum += yarib_view_look_up(view, slice[k]);
}

static void by_view_each(const yarib_view *view)
{
    for (uint32_t k = 0; k + AT_ONCE <= SLICE; k += AT_ONCE) {
        need(yarib_view_look_up_each(view, slice + k, AT_ONCE, found, AT_ONCE) == YARIB_DONE);
        sum += found[0];
    }
}

static void by_handle(const yarib *handle)
{
    for (uint32_t k = 0; k < SLICE; k++) {
        yarib_route answer;
        need(yarib_look_up_one(handle, slice[k], &answer) == YARIB_DONE);
        sum += answer.via;
    }
}

static void by_handle_each(const yarib *handle)
{
    for (uint32_t k = 0; k + AT_ONCE <= SLICE; k += AT_ONCE) {
        need(yarib_look_up(handle, slice + k, AT_ONCE, routes, AT_ONCE) == YARIB_DONE);
        sum += routes[0].via;
    }
}

static void by_hops(const yarib *handle)
{
    for (uint32_t k = 0; k + AT_ONCE <= SLICE; k += AT_ONCE) {
        need(yarib_hops(handle, slice + k, AT_ONCE, 0, 0, found, AT_ONCE) == YARIB_DONE);
        sum += found[0];
    }
}

static void run(int way)
{
    if (way == 0) by_lpm(lpm);
    if (way == 1) by_lpm(huge_lpm);
    if (way == 2) by_view(&view);
    if (way == 3) by_view(&huge_view);
    if (way == 4) by_handle(&forwarding);
    if (way == 5) by_handle(&table);
    if (way == 6) by_lpm_bulk(lpm);
    if (way == 7) by_lpm_bulk(huge_lpm);
    if (way == 8) by_view_each(&view);
    if (way == 9) by_view_each(&huge_view);
    if (way == 10) by_hops(&forwarding);
    if (way == 11) by_handle_each(&forwarding);
}

static const char *const names[] = {"rte_lpm_lookup", "rte_lpm_lookup, huge", "yarib_view_look_up", "yarib_view_look_up, huge",
    "yarib_look_up_one", "yarib_look_up_one, attached", "rte_lpm_lookup_bulk", "rte_lpm_lookup_bulk, huge", "yarib_view_look_up_each",
    "yarib_view_look_up_each, huge", "yarib_hops", "yarib_look_up"};
enum { WAYS = sizeof names / sizeof *names };

static void *pages(size_t size, int is_huge)
{
    size_t step = (size_t)1 << 21;
    void *block = aligned_alloc(step, (size + step - 1) / step * step);
    need(block != NULL && madvise(block, size, is_huge ? MADV_HUGEPAGE : MADV_NOHUGEPAGE) == 0);
    return block;
}

static void write_view(yarib_view *view, int is_huge)
{
    need(yarib_view_sizes(&forwarding, &view->block_count, &view->router_count) == YARIB_DONE);
    view->entry_count = YARIB_VIEW_ENTRIES;
    view->entries = pages(4 * view->entry_count, is_huge);
    view->blocks = pages(4 * view->block_count, is_huge);
    view->routers = pages(4 * view->router_count, is_huge);
    double from = now();
    need(yarib_view_write(&forwarding, view) == YARIB_DONE);
    printf("yarib_view_write%s: %.0f ms\n", is_huge ? ", huge" : "", (now() - from) / 1e6);
}

/* Returns a copy of an rte_lpm whose tables are in huge pages: a look-up reads nothing else. */
static struct rte_lpm *copy_lpm(const struct rte_lpm *from, size_t blocks)
{
    struct rte_lpm *copy = pages(sizeof *copy, 1);
    *copy = *from;
    copy->tbl8 = pages(blocks * RTE_LPM_TBL8_GROUP_NUM_ENTRIES * sizeof *copy->tbl8, 1);
    for (size_t k = 0; k < blocks * RTE_LPM_TBL8_GROUP_NUM_ENTRIES; k++) copy->tbl8[k] = from->tbl8[k];
    return copy;
}

static const uint8_t lengths[] = {24, 24, 24, 24, 24, 24, 24, 24, 24, 24, 24, 24, 23, 23, 22, 22, 21, 20, 19, 16, 18, 17, 28, 12};

static void fill(uint32_t prefixes, uint32_t *bases, uint8_t *lens)
{
    struct rte_lpm_config config = {.max_rules = 2 * prefixes + 1024, .number_tbl8s = 1 << 16};
    need((lpm = rte_lpm_create("table", SOCKET_ID_ANY, &config)) != NULL && yarib_new(&table, 1000000, YARIB_PLAIN) == YARIB_DONE);
    for (uint32_t k = 0; k < prefixes; k++) {
        lens[k] = lengths[draw() % sizeof lengths];
        bases[k] = draw() >> (32 - lens[k]) << (32 - lens[k]);
        yarib_command add = {.operation = YARIB_ADD, .feed = 1, .base = bases[k], .len = lens[k], .hop = YARIB_VIA,
                             .via = 2 + draw() % ROUTERS};
        yarib_reply reply;
        need(yarib_apply(&table, &add, &reply) == YARIB_DONE);
        if (reply.code == YARIB_ADDED) need(rte_lpm_add(lpm, add.base, add.len, add.via) == 0);
    }
    need(yarib_fib_new(&table, &forwarding) == YARIB_DONE && yarib_fib_attach(&table) == YARIB_DONE);
    huge_lpm = copy_lpm(lpm, config.number_tbl8s);
}

/* Draws addresses, nine tenths of which are in one of the prefixes, and compares the next hops of some. */
static void draw_addresses(uint32_t prefixes, const uint32_t *bases, const uint8_t *lens)
{
    need((asked = malloc(ASKED * sizeof *asked)) != NULL);
    for (uint32_t k = 0; k < ASKED; k++) {
        uint32_t one = draw() % prefixes;
        asked[k] = draw() % 10 == 0 ? draw() : bases[one] | (draw() & 0xffffffff >> lens[one]);
    }
    for (uint32_t k = 0; k < ASKED; k++) {
        uint32_t hop = 0, number = yarib_view_look_up(&view, asked[k]);
        yarib_route answer;
        need(yarib_look_up_one(&forwarding, asked[k], &answer) == YARIB_DONE);
        if (rte_lpm_lookup(lpm, asked[k], &hop) != 0) hop = 0;
        need(answer.via == hop && view.routers[number] == hop && number == yarib_view_look_up(&huge_view, asked[k]));
    }
}

int main(int count, char **words)
{
    char *options[] = {words[0], "--no-huge", "--no-pci", "--no-shconf", "-m", "2048", "--log-level=1", NULL};
    uint32_t prefixes = count > 1 ? (uint32_t)atoi(words[1]) : 200000, rounds = count > 2 ? (uint32_t)atoi(words[2]) : 9;
    uint32_t *bases = malloc(prefixes * sizeof *bases);
    uint8_t *lens = malloc(prefixes);
    double least[WAYS];
    need(bases && lens && rte_eal_init(7, options) >= 0);
    fill(prefixes, bases, lens);
    write_view(&view, 0);
    write_view(&huge_view, 1);
    view.routers[0] = view.routers[1] = 0;
    draw_addresses(prefixes, bases, lens);
    for (int way = 0; way < WAYS; way++) least[way] = 1e18;
    for (uint32_t k = 0; k < rounds * WAYS; k++) {
        for (slice = asked; slice < asked + ASKED; slice += SLICE) {
            double from = now();
            run(k % WAYS);
            double taken = (now() - from) / SLICE;
            if (taken < least[k % WAYS]) least[k % WAYS] = taken;
        }
    }
    for (int way = 0; way < WAYS; way++) printf("%s: %.1f ns\n", names[way], least[way]);
    printf("sum %lu\n", (unsigned long)sum);
    return 0;
}
