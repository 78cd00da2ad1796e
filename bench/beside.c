/* Times each of CHANGES changes of a concurrent table while two threads look addresses up in it and BUSY processes keep the processors
 * busy. The table has 200,000 routes and a forwarding table. Each change adds a route or withdraws it again. It prints the time of all
 * changes by the clock, what most changes take at most, and how many addresses were looked up meanwhile:
 *
 *     bindings/build && gcc -O2 -I bindings/c bench/beside.c bindings/out/libyarib.a -pthread -o beside && ./beside 8 */
#define _POSIX_C_SOURCE 200809L
#include "measured.h"

#include <pthread.h>
#include <signal.h>
#include <stdatomic.h>
#include <sys/wait.h>
#include <unistd.h>
#include <yarib.h>

enum { ROUTES = 200000, CHANGES = 5000, READERS = 2, AT_ONCE = 256, MOST_BUSY = 64 };

static yarib_concurrent table = YARIB_CONCURRENT_INIT;
static double clock_time[CHANGES], processor[CHANGES];
static atomic_int is_over;
static atomic_size_t looked_up;
static pid_t busy[MOST_BUSY];
static int busy_ones;

static void end_busy(void)
{
    for (; busy_ones > 0; busy_ones--) kill(busy[busy_ones - 1], SIGKILL), waitpid(busy[busy_ones - 1], NULL, 0);
}

static double now(clockid_t which) { return time_of(which, 1e6); }

/* Returns a number that looks random, from a state of the thread's own. */
static uint32_t draw_from(uint64_t *last)
{
    *last = *last * 6364136223846793005u + 1442695040888963407u;
    return (uint32_t)(*last >> 32);
}

static void *read_on(void *seed)
{
    uint64_t last = (uintptr_t)seed;
    while (!atomic_load(&is_over)) {
        uint32_t asked[AT_ONCE];
        yarib_route answers[AT_ONCE];
        for (int k = 0; k < AT_ONCE; k++) asked[k] = draw_from(&last);
        need(yarib_concurrent_look_up(&table, asked, AT_ONCE, answers, AT_ONCE) == YARIB_DONE);
        atomic_fetch_add(&looked_up, AT_ONCE);
    }
    return NULL;
}

/* A process that ends with this one, or after ten minutes. */
static void start_busy(void)
{
    pid_t parent = getpid(), child = fork();
    need(child >= 0);
    if (child == 0) {
        for (alarm(600);;) {
            for (volatile int k = 0; k < 1 << 24; k++) continue;
            if (getppid() != parent) _exit(0);
        }
    }
    busy[busy_ones++] = child;
}

static void fill(void)
{
    yarib_reply reply;
    need(yarib_concurrent_new(&table, 1000000) == YARIB_DONE);
    for (int k = 0; k < ROUTES; k++) {
        uint8_t length = (uint8_t)(16 + draw() % 9);
        yarib_command add = {.operation = YARIB_ADD, .feed = 1, .base = draw() >> (32 - length) << (32 - length), .len = length,
            .hop = YARIB_VIA, .via = draw() % 64};
        need(yarib_concurrent_apply(&table, &add, &reply) == YARIB_DONE);
    }
    need(yarib_concurrent_fib_attach(&table) == YARIB_DONE);
}

int main(int count, char **words)
{
    const struct timespec moment = {.tv_nsec = 1000000};
    int wanted = count > 1 ? atoi(words[1]) : 8;
    pthread_t threads[READERS];
    yarib_reply reply;
    need(wanted >= 0 && wanted <= MOST_BUSY && atexit(end_busy) == 0);
    fill();
    while (busy_ones < wanted) start_busy();
    for (uintptr_t k = 0; k < READERS; k++) need(pthread_create(&threads[k], NULL, read_on, (void *)(k + 1)) == 0);
    while (atomic_load(&looked_up) < READERS * 10 * AT_ONCE) nanosleep(&moment, NULL);
    atomic_store(&looked_up, 0);
    double began = now(CLOCK_MONOTONIC);
    for (uint32_t k = 0; k < CHANGES; k++) {
        yarib_command change = {.operation = k % 2 ? YARIB_WITHDRAW : YARIB_ADD, .feed = 2, .base = 10u << 24 | (k / 2 % 250) << 8, .len = 24,
            .hop = YARIB_VIA, .via = k};
        double start = now(CLOCK_MONOTONIC), spent = now(CLOCK_THREAD_CPUTIME_ID);
        need(yarib_concurrent_apply(&table, &change, &reply) == YARIB_DONE);
        processor[k] = now(CLOCK_THREAD_CPUTIME_ID) - spent;
        clock_time[k] = now(CLOCK_MONOTONIC) - start;
        need(reply.code == (k % 2 ? YARIB_WITHDRAWN : YARIB_ADDED));
    }
    double taken = now(CLOCK_MONOTONIC) - began;
    size_t looked = atomic_load(&looked_up);
    atomic_store(&is_over, 1);
    for (int k = 0; k < READERS; k++) pthread_join(threads[k], NULL);
    printf("%d changes in %.2f s beside %d readers and %d busy processes; %.2f million look-ups a second\n", CHANGES, taken / 1e6, READERS,
        busy_ones, (double)looked / taken);
    end_busy();
    print_times("clock", clock_time, CHANGES);
    print_times("processor time", processor, CHANGES);
    return yarib_concurrent_free(&table) == YARIB_DONE ? 0 : 1;
}
