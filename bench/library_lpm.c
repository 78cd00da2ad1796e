/* Times DPDK's rte_lpm over the prefixes and addresses of a file of 32-bit numbers, as bench/library.c does the library
 for C: a number * of 24 bits for each prefix instead of a route. It prints names and nanoseconds of processor time,
 each for one prefix or address. */
#define _POSIX_C_SOURCE 200809L
#include "measured.h"

#include <rte_eal.h>
#include <rte_lpm.h>

static double seconds(void) { return time_of(CLOCK_PROCESS_CPUTIME_ID, 1); }

int main(int count, char **words)
{
    char *options[] = {words[0], "--no-huge", "--no-pci", "--no-shconf", "-m", "2048", "--log-level=1", NULL};
    uint32_t sizes[2];
    need(count == 2 && rte_eal_init(7, options) >= 0);
    FILE *file = fopen(words[1], "rb");
    need(file && fread(sizes, sizeof *sizes, 2, file) == 2);
    uint32_t prefixes = sizes[0], addresses = sizes[1];
    size_t rest = 2 * (size_t)prefixes + addresses;
    uint32_t *numbers = malloc(rest * sizeof *numbers), *found = malloc((addresses + 1) * sizeof *found);
    need(numbers && found && fread(numbers, sizeof *numbers, rest, file) == rest);
    const uint32_t *asked = numbers + 2 * (size_t)prefixes;
    struct rte_lpm_config config = {.max_rules = 2 * prefixes + 1024, .number_tbl8s = 1 << 16};
    struct rte_lpm *table = rte_lpm_create("table", SOCKET_ID_ANY, &config);
    need(table != NULL);
    double from = seconds();
    for (uint32_t k = 0; k < prefixes; k++) {
        need(rte_lpm_add(table, numbers[2 * k], (uint8_t)numbers[2 * k + 1], k & 0xffffff) == 0);
    }
    printf("apply %.0f\n", (seconds() - from) / prefixes * 1e9);
    from = seconds();
    unsigned long sum = 0;
    for (uint32_t k = 0; k < addresses; k++) {
        uint32_t hop = 0;
        if (rte_lpm_lookup(table, asked[k], &hop) == 0) sum += hop;
    }
    printf("forwarding_1 %.0f\n", (seconds() - from) / addresses * 1e9);
    from = seconds();
    for (uint32_t k = 0; k + 256 <= addresses; k += 256) rte_lpm_lookup_bulk(table, asked + k, found + k, 256);
    printf("forwarding_256 %.0f\n", (seconds() - from) / addresses * 1e9);
    printf("sum %lu\n", sum + found[0]);
    return 0;
}
