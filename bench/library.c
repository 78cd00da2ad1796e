/* Times the library for C over the prefixes and addresses of a file of 32-bit numbers: how many there are of each, then base and
 * length of each prefix, then the addresses. It prints names and nanoseconds of processor time, each for one prefix or address. */
#define _POSIX_C_SOURCE 200809L
#include "measured.h"

#include <routes.h>

enum { CHUNK = 4096 };

static uint32_t *numbers, prefixes, addresses;
static const uint32_t *asked;
static yarib_route *answers;

static double seconds(void) { return time_of(CLOCK_PROCESS_CPUTIME_ID, 1); }

static void say(const char *name, double from, uint32_t count)
{
    printf("%s %.0f\n", name, (seconds() - from) / count * 1e9);
}

static yarib_command command(uint32_t k)
{
    return put_command(YARIB_ADD, 1, numbers[2 + 2 * k], (uint8_t)numbers[3 + 2 * k], k, k);
}

static void apply(const char *name, uint32_t kind)
{
    yarib table = YARIB_EMPTY;
    yarib_reply reply;
    need(yarib_new(&table, 1000000, kind) == YARIB_DONE);
    double from = seconds();
    for (uint32_t k = 0; k < prefixes; k++) {
        yarib_command one = command(k);
        need(yarib_apply(&table, &one, &reply) == YARIB_DONE);
    }
    say(name, from, prefixes);
    yarib_free(&table);
}

static void fill(yarib *table)
{
    yarib_command commands[CHUNK];
    yarib_reply replies[CHUNK];
    need(yarib_new(table, 1000000, YARIB_PLAIN) == YARIB_DONE);
    double from = seconds();
    for (uint32_t start = 0; start < prefixes; start += CHUNK) {
        uint32_t size = prefixes - start < CHUNK ? prefixes - start : CHUNK;
        for (uint32_t k = 0; k < size; k++) commands[k] = command(start + k);
        need(yarib_apply_each(table, commands, size, replies, size) == YARIB_DONE);
    }
    say("apply_each", from, prefixes);
}

static void look_up(const char *name, yarib *table, uint32_t size)
{
    double from = seconds();
    for (uint32_t k = 0; k + size <= addresses; k += size) {
        need(yarib_look_up(table, asked + k, size, answers + k, size) == YARIB_DONE);
    }
    say(name, from, addresses);
}

static void look_up_one(const char *name, const yarib *table)
{
    double from = seconds();
    for (uint32_t k = 0; k < addresses; k++) need(yarib_look_up_one(table, asked[k], answers + k) == YARIB_DONE);
    say(name, from, addresses);
}

static void view(const yarib *forwarding)
{
    yarib_view view = {.entry_count = YARIB_VIEW_ENTRIES};
    uint32_t *found = malloc(((size_t)addresses + 1) * sizeof *found), sum = 0;
    need(found && yarib_view_sizes(forwarding, &view.block_count, &view.router_count) == YARIB_DONE);
    view.entries = malloc(view.entry_count * sizeof *view.entries);
    view.blocks = malloc((view.block_count + 1) * sizeof *view.blocks);
    view.routers = malloc((view.router_count + 1) * sizeof *view.routers);
    need(view.entries && view.blocks && view.routers && yarib_view_write(forwarding, &view) == YARIB_DONE);
    double from = seconds();
    for (uint32_t k = 0; k < addresses; k++) sum += yarib_view_look_up(&view, asked[k]);
    say("view_1", from, addresses);
    from = seconds();
    for (uint32_t k = 0; k + 256 <= addresses; k += 256) {
        need(yarib_view_look_up_each(&view, asked + k, 256, found + k, 256) == YARIB_DONE);
    }
    say("view_256", from, addresses);
    printf("sum %lu\n", (unsigned long)sum + found[0]);
    free(found);
    free(view.entries);
    free(view.blocks);
    free(view.routers);
}

int main(int count, char **words)
{
    yarib table = YARIB_EMPTY, forwarding = YARIB_EMPTY;
    need(count == 2);
    FILE *file = fopen(words[1], "rb");
    uint32_t sizes[2];
    need(file && fread(sizes, sizeof *sizes, 2, file) == 2);
    prefixes = sizes[0];
    addresses = sizes[1];
    size_t rest = 2 * (size_t)prefixes + addresses;
    numbers = malloc((rest + 2) * sizeof *numbers);
    answers = malloc(((size_t)addresses + 1) * sizeof *answers);
    need(numbers && answers && fread(numbers + 2, sizeof *numbers, rest, file) == rest);
    fclose(file);
    asked = numbers + 2 + 2 * (size_t)prefixes;
    apply("apply", YARIB_PLAIN);
    apply("apply_journaled", YARIB_JOURNALED);
    fill(&table);
    look_up("look_up_1", &table, 1);
    look_up("look_up_256", &table, 256);
    look_up("look_up_4096", &table, CHUNK);
    double from = seconds();
    need(yarib_fib_new(&table, &forwarding) == YARIB_DONE);
    say("forward", from, prefixes);
    look_up("forwarding_1", &forwarding, 1);
    look_up("forwarding_256", &forwarding, 256);
    look_up("forwarding_4096", &forwarding, CHUNK);
    look_up_one("forwarding_one", &forwarding);
    view(&forwarding);
    unsigned long sum = 0;
    for (uint32_t k = 0; k < addresses; k++) sum += answers[k].via;
    printf("sum %lu\n", sum);
    from = seconds();
    yarib_free(&table);
    say("free", from, prefixes);
    yarib_free(&forwarding);
    return 0;
}
