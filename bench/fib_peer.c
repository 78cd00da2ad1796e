/* A forwarding table in plain C with the same entries, blocks and answers as rt_fib. It is made from the prefixes of a
   file of 32-bit numbers and looks up the file's addresses. The file has the number of each, then base and length of
   each prefix, then the addresses (bench/library.py writes it). The program prints names and nanoseconds of processor time
   for all calls together, the bytes of the table, and the sum of the bases and lengths of the prefixes that look-ups find. */
#define _POSIX_C_SOURCE 200809L
#include "measured.h"

enum { ENTRIES = 1 << 24, AT_ONCE = 16, CHUNK = 256 };
#define LONG 0x80000000u

/* The same size in bytes as an answer of rt_fib. */
struct answer {
    uint32_t is_found, base, len, feed, preference, is_via, via;
};

static uint32_t (*blocks)[CHUNK], *entries, block_count;
static struct answer *answers;

static uint64_t nanoseconds(void)
{
    struct timespec now;
    clock_gettime(CLOCK_PROCESS_CPUTIME_ID, &now);
    return (uint64_t)now.tv_sec * 1000000000 + (uint64_t)now.tv_nsec;
}

/* The block of the entry; it is made if the entry has none. */
static uint32_t *block_at(uint32_t entry)
{
    if (entries[entry] < LONG) {
        if ((block_count & (block_count - 1)) == 0) {
            blocks = realloc(blocks, (block_count ? 2 * (size_t)block_count : 1) * sizeof *blocks);
            need(blocks != NULL);
        }
        for (int k = 0; k < CHUNK; k++) blocks[block_count][k] = entries[entry];
        entries[entry] = LONG + block_count++;
    }
    return blocks[entries[entry] - LONG];
}

/* Puts in a prefix when all that are shorter are there. Of two of the same the first stays. */
static void put_in(const uint32_t *pair, uint32_t number)
{
    uint32_t base = pair[0], len = pair[1], first = base >> 8;
    uint32_t *places = len > 24 ? block_at(first) + (base & 255) : entries + first;
    uint32_t count = 1u << ((len > 24 ? 32 : 24) - len);
    const struct answer *before = answers + *places;
    if (before->is_found && before->len == len) return;
    answers[number] = (struct answer){1, base, len, 1, number - 1, 1, number - 1};
    for (uint32_t k = 0; k < count; k++) places[k] = number;
}

static void make(const uint32_t *pairs, uint32_t count)
{
    entries = calloc(ENTRIES, sizeof *entries);
    answers = calloc((size_t)count + 1, sizeof *answers);
    uint32_t starts[34] = {0}, *order = malloc(((size_t)count + 1) * sizeof *order);
    need(entries && answers && order);
    for (uint32_t k = 0; k < count; k++) starts[pairs[2 * (size_t)k + 1] + 1]++;
    for (int len = 0; len < 33; len++) starts[len + 1] += starts[len];
    for (uint32_t k = 0; k < count; k++) order[starts[pairs[2 * (size_t)k + 1]]++] = k;
    for (uint32_t k = 0; k < count; k++) put_in(pairs + 2 * (size_t)order[k], order[k] + 1);
    free(order);
}

static inline struct answer answer_by(uint32_t entry, uint32_t address)
{
    return answers[entry < LONG ? entry : blocks[entry - LONG][address & 255]];
}

static uint64_t number_of(struct answer found)
{
    return found.is_found ? (uint64_t)found.base + found.len : 0;
}

static uint64_t look_up(const uint32_t *asked, uint32_t count)
{
    uint64_t sum = 0;
    for (uint32_t k = 0; k < count; k++) sum += number_of(answer_by(entries[asked[k] >> 8], asked[k]));
    return sum;
}

/* The answers to `count` addresses, with several reads in progress at once. */
static __attribute__((noinline)) void look_up_some(const uint32_t *asked, uint32_t count, struct answer *found)
{
    for (uint32_t start = 0; start < count; start += AT_ONCE) {
        uint32_t read[AT_ONCE], size = count - start < AT_ONCE ? count - start : AT_ONCE;
        for (uint32_t k = 0; k < size; k++) read[k] = entries[asked[start + k] >> 8];
        for (uint32_t k = 0; k < size; k++) found[start + k] = answer_by(read[k], asked[start + k]);
    }
}

static uint64_t look_up_each(const uint32_t *asked, uint32_t count)
{
    struct answer found[CHUNK];
    uint64_t sum = 0;
    for (uint32_t start = 0; start < count; start += CHUNK) {
        uint32_t size = count - start < CHUNK ? count - start : CHUNK;
        look_up_some(asked + start, size, found);
        for (uint32_t k = 0; k < size; k++) sum += number_of(found[k]);
    }
    return sum;
}

int main(int count, char **words)
{
    uint32_t sizes[2];
    need(count == 2);
    FILE *file = fopen(words[1], "rb");
    need(file && fread(sizes, sizeof *sizes, 2, file) == 2);
    size_t rest = 2 * (size_t)sizes[0] + sizes[1];
    uint32_t *numbers = malloc((rest + 1) * sizeof *numbers);
    need(numbers && fread(numbers, sizeof *numbers, rest, file) == rest);
    const uint32_t *asked = numbers + 2 * (size_t)sizes[0];
    uint64_t from = nanoseconds();
    make(numbers, sizes[0]);
    printf("new %lu\n", (unsigned long)(nanoseconds() - from));
    from = nanoseconds();
    uint64_t found = look_up(asked, sizes[1]);
    printf("look_up %lu\n", (unsigned long)(nanoseconds() - from));
    from = nanoseconds();
    uint64_t same = look_up_each(asked, sizes[1]);
    printf("look_up_each %lu\n", (unsigned long)(nanoseconds() - from));
    need(found == same);
    size_t bytes = ENTRIES * sizeof *entries + block_count * sizeof *blocks + ((size_t)sizes[0] + 1) * sizeof *answers;
    printf("memory %lu\nfound %lu\n", (unsigned long)bytes, (unsigned long)found);
    return 0;
}
