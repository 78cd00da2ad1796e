/* Times how long the library for C takes to load a table of random prefixes with the lengths of a full Internet table, to attach a
 * forwarding table before or after that, and to free each. It prints the least milliseconds of the thread's processor time of all
 * rounds. Its words are the number of prefixes and of rounds (1,000,000 and 3):
 *
 *     bindings/build && gcc -O2 -I bindings/c bench/loading.c bindings/out/libyarib.a -pthread -o loading && ./loading 1000000 3 */
#define _POSIX_C_SOURCE 200809L
#include "measured.h"

#include <pthread.h>
#include <routes.h>

static yarib_command *commands;
static size_t prefixes = 1000000;

static double now(void) { return time_of(CLOCK_THREAD_CPUTIME_ID, 1e3); }

static void draw_commands(void)
{
    need((commands = calloc(prefixes, sizeof *commands)) != NULL);
    for (size_t k = 0; k < prefixes; k++) {
        uint8_t len = draw_full_length();
        uint32_t base = draw_base(len);
        commands[k] = put_command(YARIB_ADD, 1, base, len, (uint32_t)k, draw() % 64);
    }
}

static void add_each(yarib *table)
{
    yarib_reply reply;
    for (size_t k = 0; k < prefixes; k++) need(yarib_apply(table, &commands[k], &reply) == YARIB_DONE);
}

static void attach(yarib *table)
{
    need(yarib_fib_attach(table) == YARIB_DONE);
}

static void clear(yarib *table)
{
    need(yarib_free(table) == YARIB_DONE);
}

enum { ADD, ATTACH_AFTER, FREE, ADD_ATTACHED, FREE_ATTACHED, ADD_JOURNALED, FREE_JOURNALED, FREE_AMONG_THREADS, PARTS };
static const char *const names[] = {"add", "attach afterwards", "free", "add with a forwarding table attached before", "free both",
    "add with a journal", "free with a journal", "free in a process of two threads"};
static double least[PARTS];

static void take(int part, void (*call)(yarib *), yarib *table)
{
    double from = now();
    call(table);
    double taken = now() - from;
    if (least[part] == 0 || taken < least[part]) least[part] = taken;
}

static void run_alone(void)
{
    yarib table = YARIB_EMPTY;
    need(yarib_new(&table, 1000000, YARIB_PLAIN) == YARIB_DONE);
    take(ADD, add_each, &table);
    take(FREE, clear, &table);
    need(yarib_new(&table, 1000000, YARIB_PLAIN) == YARIB_DONE);
    take(ADD, add_each, &table);
    take(ATTACH_AFTER, attach, &table);
    clear(&table);
    need(yarib_new(&table, 1000000, YARIB_PLAIN) == YARIB_DONE);
    attach(&table);
    take(ADD_ATTACHED, add_each, &table);
    take(FREE_ATTACHED, clear, &table);
    need(yarib_new(&table, 1000000, YARIB_JOURNALED) == YARIB_DONE);
    take(ADD_JOURNALED, add_each, &table);
    take(FREE_JOURNALED, clear, &table);
}

static void *run_threaded(void *rounds)
{
    for (uint32_t k = 0; k < *(uint32_t *)rounds; k++) {
        yarib table = YARIB_EMPTY;
        need(yarib_new(&table, 1000000, YARIB_PLAIN) == YARIB_DONE);
        add_each(&table);
        take(FREE_AMONG_THREADS, clear, &table);
    }
    return NULL;
}

int main(int count, char **words)
{
    uint32_t rounds = 3;
    pthread_t thread;
    if (count > 1) prefixes = strtoul(words[1], NULL, 10);
    if (count > 2) rounds = (uint32_t)strtoul(words[2], NULL, 10);
    draw_commands();
    for (uint32_t k = 0; k < rounds; k++) run_alone();
    need(pthread_create(&thread, NULL, run_threaded, &rounds) == 0 && pthread_join(thread, NULL) == 0);
    for (int part = 0; part < PARTS; part++) printf("%s: %.0f ms\n", names[part], least[part]);
    printf("attached before / after: %.2f\n", least[ADD_ATTACHED] / (least[ADD] + least[ATTACH_AFTER]));
    return 0;
}
