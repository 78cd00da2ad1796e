/* A thread's first reading calls where memory is short, in a signal handler, and after which the library is unloaded. The functions below
 * replace the C library's malloc, so it is known whether a call allocates, and a signal can come in the midst of an allocation.
 *
 *     test_first_calls [keys]               # the library that is linked
 *     test_first_calls LIBRARY.so [keys]    # built with LOADED: the one that is loaded from this file
 *
 * With the word keys, other code has taken those keys of threads whose values need no memory. */
#define _GNU_SOURCE
#include "check.h"
#include "routes.h"

#include <dlfcn.h>
#include <pthread.h>
#include <semaphore.h>
#include <signal.h>
#include <string.h>
#include <unistd.h>

void *__libc_malloc(size_t size);
void *__libc_calloc(size_t count, size_t size);
void *__libc_realloc(void *block, size_t size);

/* Whether this thread may allocate, whether it does, and what it does in the midst of its next allocation. */
static __thread bool has_no_memory, is_allocating;
static __thread void (*inside)(void);

static bool is_refused(void)
{
    void (*call)(void) = inside;
    /* A signal handler that allocates during an allocation would wait for itself. */
    CHECK(!is_allocating);
    inside = NULL;
    if (call) {
        is_allocating = true;
        call();
        is_allocating = false;
    }
    return has_no_memory;
}

void *malloc(size_t size)
{
    return is_refused() ? NULL : __libc_malloc(size);
}

void *calloc(size_t count, size_t size)
{
    return is_refused() ? NULL : __libc_calloc(count, size);
}

void *realloc(void *block, size_t size)
{
    return is_refused() ? NULL : __libc_realloc(block, size);
}

/* The library's calls: linked, or loaded. */
#define CALLS(CALL) \
    CALL(yarib_new) CALL(yarib_apply) CALL(yarib_free) CALL(yarib_fib_new) CALL(yarib_look_up) CALL(yarib_look_up_one) \
    CALL(yarib_look_up_text) CALL(yarib_hops) CALL(yarib_routes) CALL(yarib_routes_from) CALL(yarib_count) CALL(yarib_memory) \
    CALL(yarib_journal) CALL(yarib_fib_is_attached) CALL(yarib_first_difference) CALL(yarib_concurrent_new) \
    CALL(yarib_concurrent_apply) CALL(yarib_concurrent_free) CALL(yarib_concurrent_look_up) CALL(yarib_concurrent_look_up_one) \
    CALL(yarib_concurrent_hops) CALL(yarib_concurrent_count) CALL(yarib_concurrent_routes)

#ifdef LOADED
#define DECLARE(name) static __typeof__(&name) call_##name;
#else
#define DECLARE(name) static __typeof__(&name) call_##name = name;
#endif
CALLS(DECLARE)

static yarib table = YARIB_EMPTY, other = YARIB_EMPTY, forwarding = YARIB_EMPTY;
static yarib_concurrent concurrent = YARIB_CONCURRENT_EMPTY;

static void make(void)
{
    yarib_command command = add_eight;
    yarib_reply reply;
    CHECK(call_yarib_new(&table, 1000, YARIB_JOURNALED) == YARIB_DONE && call_yarib_new(&other, 10, YARIB_PLAIN) == YARIB_DONE);
    CHECK(call_yarib_concurrent_new(&concurrent, 1000) == YARIB_DONE);
    for (uint32_t k = 0; k < 100; k++) {
        command.base = (10 + k) << 24;
        CHECK(call_yarib_apply(&table, &command, &reply) == YARIB_DONE && reply.code == YARIB_ADDED);
        CHECK(call_yarib_concurrent_apply(&concurrent, &command, &reply) == YARIB_DONE && reply.code == YARIB_ADDED);
    }
    CHECK(call_yarib_fib_new(&table, &forwarding) == YARIB_DONE);
}

static void unmake(void)
{
    CHECK(call_yarib_free(&table) == YARIB_DONE && call_yarib_free(&other) == YARIB_DONE && call_yarib_free(&forwarding) == YARIB_DONE);
    CHECK(call_yarib_concurrent_free(&concurrent) == YARIB_DONE);
}

/* The reading calls that allocate nothing: their status for a plain table, and for the concurrent one. */
static void read_all(enum yarib_status expected)
{
    const uint32_t address = 10u << 24 | 5;
    const yarib_route start = {0};
    yarib_route route;
    yarib_entry entry;
    yarib_difference range;
    uint32_t hop;
    size_t total;
    CHECK(call_yarib_look_up_one(&table, address, &route) == expected && (expected != YARIB_DONE || route.via == 7));
    CHECK(call_yarib_look_up_text(&table, "10.0.0.5", 8, &route) == expected);
    CHECK(call_yarib_look_up(&table, &address, 1, &route, 1) == expected && call_yarib_count(&table, &total) == expected);
    CHECK(call_yarib_routes_from(&table, &start, &route, 1, &total) == expected && call_yarib_memory(&table, &total) == expected);
    CHECK(call_yarib_journal(&table, 0, &entry, 1, &total) == expected && call_yarib_fib_is_attached(&table, &hop) == expected);
    CHECK(call_yarib_first_difference(&table, &other, 0, 0, &range) == expected);
    CHECK(call_yarib_hops(&forwarding, &address, 1, 0, 1, &hop, 1) == YARIB_DONE && hop == 7);
    CHECK(call_yarib_concurrent_look_up_one(&concurrent, address, &route) == YARIB_DONE && route.via == 7);
    CHECK(call_yarib_concurrent_look_up(&concurrent, &address, 1, &route, 1) == YARIB_DONE && route.via == 7);
    CHECK(call_yarib_concurrent_hops(&concurrent, &address, 1, 0, 1, &hop, 1) == YARIB_DONE && hop == 7);
    CHECK(call_yarib_concurrent_count(&concurrent, &total) == YARIB_DONE && total == 100);
}

static void in_thread(void *(*run)(void *))
{
    pthread_t thread;
    CHECK(pthread_create(&thread, NULL, run, NULL) == 0 && pthread_join(thread, NULL) == 0);
}

static void *read_without_memory(void *unused)
{
    has_no_memory = true;
    read_all(YARIB_DONE);
    has_no_memory = false;
    return unused;
}

static int handled;
static enum yarib_status status_of_handler;

static void handle(int unused)
{
    (void)unused;
    read_all(status_of_handler);
    handled++;
}

static void interrupt(void)
{
    CHECK(raise(SIGUSR1) == 0);
}

/* The handler's calls are the first of a thread, which a signal interrupts while it allocates. */
static void *read_first_in_handler(void *unused)
{
    inside = interrupt;
    void *volatile block = malloc(1000); /* so that the compiler keeps the call */
    free(block);
    CHECK(handled == 1);
    return unused;
}

/* A handler reads during reading calls and changes of its thread, and before the thread's own first call is over. */
static void *read_in_handler(void *unused)
{
    static yarib_route found[100];
    const yarib_command again = add_eight;
    yarib_reply reply;
    size_t total;
    handled = 0;
    inside = interrupt;
    CHECK(call_yarib_routes(&table, 0, found, 100, &total) == YARIB_DONE && total == 100 && handled == 1);
    inside = interrupt;
    CHECK(call_yarib_concurrent_routes(&concurrent, 0, found, 100, &total) == YARIB_DONE && total == 100 && handled == 2);
    status_of_handler = YARIB_BUSY;
    inside = interrupt;
    for (int k = 0; handled == 2; k++) CHECK(k < 1000 && call_yarib_apply(&table, &again, &reply) == YARIB_DONE);
    status_of_handler = YARIB_DONE;
    inside = NULL;
    read_all(YARIB_DONE);
    return unused;
}

#ifdef LOADED
static sem_t has_read, may_end;

static void *read_and_stay(void *unused)
{
    read_all(YARIB_DONE);
    CHECK(sem_post(&has_read) == 0 && sem_wait(&may_end) == 0);
    return unused;
}

static void *load(const char *name)
{
    void *library = dlopen(name, RTLD_NOW);
    CHECK(library != NULL);
#define FIND(name) CHECK((*(void **)&call_##name = dlsym(library, #name)) != NULL);
    CALLS(FIND)
    return library;
}

/* A thread that has read ends after the library is unloaded. */
static void unload(void *library)
{
    pthread_t thread;
    CHECK(sem_init(&has_read, 0, 0) == 0 && sem_init(&may_end, 0, 0) == 0);
    CHECK(pthread_create(&thread, NULL, read_and_stay, NULL) == 0 && sem_wait(&has_read) == 0);
    unmake();
    CHECK(dlclose(library) == 0 && sem_post(&may_end) == 0 && pthread_join(thread, NULL) == 0);
}
#endif

/* Takes keys of threads until the C library has to allocate memory for the values of the next one, before the library takes one. */
__attribute__((constructor(101))) static void take_keys(void)
{
    pthread_key_t key;
    for (int k = 0; k < 40 && getenv("KEYS"); k++) CHECK(pthread_key_create(&key, NULL) == 0);
}

int main(int size, char **words)
{
    alarm(120);
    CHECK(signal(SIGUSR1, handle) != SIG_ERR);
    if (size > 1 && strcmp(words[size - 1], "keys") == 0 && !getenv("KEYS")) {
        CHECK(setenv("KEYS", "", 1) == 0);
        execv("/proc/self/exe", words);
    }
#ifdef LOADED
    void *library = load(words[1]);
#else
    (void)words;
#endif
    make();
    in_thread(read_without_memory);
    in_thread(read_first_in_handler);
    in_thread(read_in_handler);
#ifdef LOADED
    unload(library);
#else
    unmake();
#endif
    return 0;
}
