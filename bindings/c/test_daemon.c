/* What a daemon does to the library: it forks, sandboxes itself, cancels threads, and shares processors with busy processes. The library
 * gets its memory from the functions below, where a test holds a call; and calls the kernel by the functions below them,
 * which may refuse. So nothing depends on when a thread runs. */
#define _GNU_SOURCE
#include "check.h"
#include "meeting.h"
#include "own_heap.h"
#include "routes.h"

#include <errno.h>
#include <linux/filter.h>
#include <linux/futex.h>
#include <linux/membarrier.h>
#include <linux/seccomp.h>
#include <pthread.h>
#include <semaphore.h>
#include <signal.h>
#include <stdarg.h>
#include <stdatomic.h>
#include <stddef.h>
#include <string.h>
#include <sys/prctl.h>
#include <sys/syscall.h>
#include <sys/wait.h>
#include <time.h>
#include <unistd.h>

enum { LIMIT = 1000, ROUTES = 50 };

/* How far this thread's blocks are from the beginning of a cache line. */
static __thread size_t offset;

struct tried rattle_alloc(size_t size, size_t alignment)
{
    (void)alignment;
    meet();
    char *block = offset > 0 ? aligned_alloc(64, (offset + size + 63) / 64 * 64) : malloc(size ? size : 1);
    return (struct tried){block != NULL, block + offset};
}

struct tried rattle_realloc(void *block, size_t kept, size_t size, size_t alignment)
{
    (void)kept;
    (void)alignment;
    meet();
    return (struct tried){true, realloc(block, size ? size : 1)};
}

void rattle_dealloc(void *block)
{
    free((char *)block - offset);
}

/* How many barriers the kernel executes before it refuses them, and what the library has called. Whether a nap ends only by a wake, and
 * whether a wake does nothing. */
static atomic_int barriers_left = 1 << 30, yields, naps, wakes, are_naps_endless, are_wakes_lost;

/* The call that is let go before the next nap begins, after its thread has looked for it, if any. */
static _Atomic(struct held *) early;
static void let_go_early(void);

long syscall(long number, ...)
{
    va_list words;
    va_start(words, number);
    long result, first = va_arg(words, long), second = va_arg(words, long), third = va_arg(words, long), fourth = va_arg(words, long);
    va_end(words);
    if (number == SYS_futex && second == FUTEX_WAKE_PRIVATE) {
        atomic_fetch_add(&wakes, 1);
        if (atomic_load(&are_wakes_lost)) return 0;
    } else if (number == SYS_futex && second == FUTEX_WAIT_PRIVATE) {
        if (atomic_load(&are_naps_endless)) fourth = 0;
        let_go_early();
        atomic_fetch_add(&naps, 1);
    }
    if (number == SYS_membarrier && first == MEMBARRIER_CMD_PRIVATE_EXPEDITED && atomic_fetch_sub(&barriers_left, 1) <= 0) {
        errno = EPERM;
        return -1;
    }
    register long in_r10 __asm__("r10") = fourth;
    __asm__ volatile("syscall" : "=a"(result) : "0"(number), "D"(first), "S"(second), "d"(third), "r"(in_r10) : "rcx", "r11", "memory");
    if (result >= -4095 && result < 0) {
        errno = (int)-result;
        return -1;
    }
    return result;
}

int sched_yield(void)
{
    atomic_fetch_add(&yields, 1);
    return 0;
}

static yarib table = YARIB_EMPTY, other = YARIB_EMPTY;
static yarib_concurrent concurrent = YARIB_CONCURRENT_EMPTY;

static yarib_command command(uint32_t operation, uint32_t byte)
{
    return put_command(operation, 1, byte << 24, 8, 0, byte);
}

static enum yarib_status change(uint32_t operation, uint32_t byte)
{
    const yarib_command one = command(operation, byte);
    yarib_reply reply;
    return yarib_apply(&table, &one, &reply);
}

static enum yarib_status change_concurrent(uint32_t operation, uint32_t byte)
{
    const yarib_command one = command(operation, byte);
    yarib_reply reply;
    return yarib_concurrent_apply(&concurrent, &one, &reply);
}

static void begin(void)
{
    yarib_command one = command(YARIB_ADD, 1);
    yarib_reply reply;
    CHECK(yarib_new(&table, LIMIT, YARIB_JOURNALED) == YARIB_DONE && yarib_concurrent_new(&concurrent, LIMIT) == YARIB_DONE);
    CHECK(yarib_new(&other, LIMIT, YARIB_PLAIN) == YARIB_DONE && yarib_apply(&other, &one, &reply) == YARIB_DONE);
    for (uint32_t k = 1; k <= ROUTES; k++) {
        CHECK(change(YARIB_ADD, k) == YARIB_DONE && change_concurrent(YARIB_ADD, k) == YARIB_DONE);
    }
}

static void end(void)
{
    CHECK(yarib_free(&table) == YARIB_DONE && yarib_free(&other) == YARIB_DONE && yarib_concurrent_free(&concurrent) == YARIB_DONE);
}

/* A thread that makes a call which is held in its midst, until it may go on. */
struct held {
    pthread_t thread;
    sem_t is_inside, may_leave;
    void (*call)(void);
};

static __thread struct held *mine;

static void stop(void)
{
    CHECK(sem_post(&mine->is_inside) == 0 && sem_wait(&mine->may_leave) == 0);
}

static void *run_held(void *held)
{
    mine = held;
    mine->call();
    return NULL;
}

static void hold(struct held *held, void (*call)(void))
{
    held->call = call;
    CHECK(sem_init(&held->is_inside, 0, 0) == 0 && sem_init(&held->may_leave, 0, 0) == 0);
    CHECK(pthread_create(&held->thread, NULL, run_held, held) == 0 && sem_wait(&held->is_inside) == 0);
}

static void let_go(struct held *held)
{
    CHECK(sem_post(&held->may_leave) == 0 && pthread_join(held->thread, NULL) == 0);
}

static void let_go_early(void)
{
    struct held *held = atomic_exchange(&early, NULL);
    if (!held) return;
    let_go(held);
    CHECK(atomic_load(&wakes) == 1);
}

/* The calls that are held. A list that is read stays whole. */
static void read_plain(void)
{
    yarib_route found[ROUTES + 9];
    size_t total;
    inside = stop;
    CHECK(yarib_routes(&table, 0, found, ROUTES + 9, &total) == YARIB_DONE && total == ROUTES && found[ROUTES - 1].via == ROUTES);
}

static void read_concurrent(void)
{
    yarib_route found[ROUTES + 9];
    size_t total;
    inside = stop;
    CHECK(yarib_concurrent_routes(&concurrent, 0, found, ROUTES + 9, &total) == YARIB_DONE && total == ROUTES);
    CHECK(found[0].via == 1 && found[ROUTES - 1].via == ROUTES);
}

/* The same inside a call of its thread, so with a place that is lent. */
static void read_concurrent_inside(void)
{
    yarib_route found;
    size_t total;
    inside = read_concurrent;
    CHECK(yarib_routes(&other, 0, &found, 1, &total) == YARIB_DONE);
}

static void change_plain(void)
{
    inside = stop;
    CHECK(yarib_reserve(&table, 1000) == YARIB_DONE);
}

static void change_concurrent_held(void)
{
    inside = stop;
    CHECK(change_concurrent(YARIB_ADD, 99) == YARIB_DONE && inside == NULL);
}

/* Has a place, and is in no call. */
static void stay(void)
{
    yarib_route route;
    CHECK(yarib_look_up_one(&table, 1, &route) == YARIB_DONE);
    stop();
}

/* Runs a test in a child of a fork, which must end well, and in time. */
static void in_child(void (*call)(void))
{
    int status;
    pid_t child = fork();
    CHECK(child >= 0);
    if (child == 0) {
        alarm(20);
        call();
        _exit(0);
    }
    CHECK(waitpid(child, &status, 0) == child && WIFEXITED(status) && WEXITSTATUS(status) == 0);
}

/* Tables of the child's own can be made and changed. */
static void use_own_tables(void)
{
    yarib plain = YARIB_EMPTY;
    yarib_concurrent own = YARIB_CONCURRENT_EMPTY;
    yarib_reply reply;
    size_t total;
    CHECK(yarib_new(&plain, LIMIT, YARIB_PLAIN) == YARIB_DONE && yarib_concurrent_new(&own, LIMIT) == YARIB_DONE);
    for (uint32_t k = 1; k <= 3; k++) {
        const yarib_command one = command(YARIB_ADD, k);
        CHECK(yarib_apply(&plain, &one, &reply) == YARIB_DONE && yarib_concurrent_apply(&own, &one, &reply) == YARIB_DONE);
    }
    CHECK(yarib_count(&plain, &total) == YARIB_DONE && total == 3 && yarib_concurrent_count(&own, &total) == YARIB_DONE && total == 3);
    CHECK(yarib_free(&plain) == YARIB_DONE && yarib_concurrent_free(&own) == YARIB_DONE);
}

static void change_in_child(void)
{
    size_t total;
    for (uint32_t k = 100; k < 103; k++) {
        CHECK(change(YARIB_ADD, k) == YARIB_DONE && change_concurrent(YARIB_ADD, k) == YARIB_DONE);
    }
    CHECK(yarib_count(&table, &total) == YARIB_DONE && total == ROUTES + 3);
    CHECK(yarib_concurrent_count(&concurrent, &total) == YARIB_DONE && total == ROUTES + 3);
    use_own_tables();
    end();
}

static void fork_in_child(void)
{
    in_child(change_in_child);
    change_in_child();
}

/* In a child every table that other threads only read works. */
static void fork_beside_readers(void)
{
    struct held plain, front, inner;
    begin();
    hold(&plain, read_plain);
    hold(&front, read_concurrent);
    hold(&inner, read_concurrent_inside);
    in_child(fork_in_child);
    let_go(&plain);
    let_go(&front);
    let_go(&inner);
    change_in_child();
}

/* A child says which tables another thread was changing. Those are readable if they are concurrent, and all others work. */
static void meet_changes_in_child(void)
{
    const yarib_command one = command(YARIB_ADD, 100);
    yarib_route route;
    yarib_reply reply;
    yarib_loaded loaded;
    FILE *file = tmpfile();
    size_t total;
    CHECK(yarib_look_up_one(&table, 1, &route) == YARIB_FORKED && yarib_count(&table, &total) == YARIB_FORKED);
    CHECK(change(YARIB_ADD, 100) == YARIB_FORKED && yarib_new(&table, 1, YARIB_PLAIN) == YARIB_FORKED);
    CHECK(yarib_free(&table) == YARIB_FORKED && file && yarib_load(&table, 1, file, &loaded) == YARIB_FORKED);
    CHECK(yarib_concurrent_count(&concurrent, &total) == YARIB_DONE && total == ROUTES);
    CHECK(yarib_concurrent_look_up_one(&concurrent, 1u << 24, &route) == YARIB_DONE && route.via == 1);
    CHECK(change_concurrent(YARIB_ADD, 100) == YARIB_FORKED && yarib_concurrent_free(&concurrent) == YARIB_FORKED);
    CHECK(yarib_concurrent_apply_each(&concurrent, &one, 1, &reply, 1) == YARIB_FORKED);
    CHECK(yarib_concurrent_new(&concurrent, 1) == YARIB_FORKED && yarib_concurrent_fib_attach(&concurrent) == YARIB_FORKED);
    CHECK(yarib_apply(&other, &one, &reply) == YARIB_DONE && yarib_free(&other) == YARIB_DONE);
    use_own_tables();
}

static void fork_beside_changes(void)
{
    struct held plain, back;
    begin();
    hold(&plain, change_plain);
    hold(&back, change_concurrent_held);
    in_child(meet_changes_in_child);
    CHECK(change(YARIB_ADD, 100) == YARIB_BUSY && change_concurrent(YARIB_ADD, 100) == YARIB_BUSY);
    let_go(&plain);
    let_go(&back);
    CHECK(change(YARIB_ADD, 100) == YARIB_DONE && change_concurrent(YARIB_ADD, 100) == YARIB_DONE);
    end();
}

/* The reading call in which a process is forked goes on in the child, where changes wait for it. */
static void meet_own_call(void)
{
    CHECK(change(YARIB_ADD, 100) == YARIB_BUSY && change_concurrent(YARIB_ADD, 100) == YARIB_DONE);
    CHECK(change_concurrent(YARIB_ADD, 101) == YARIB_BUSY);
}

static pid_t forked;

static void fork_here(void)
{
    forked = fork();
    CHECK(forked >= 0);
    if (forked == 0) meet_own_call();
}

static void read_both(void)
{
    yarib_route found;
    size_t total;
    inside = fork_here;
    CHECK(yarib_concurrent_routes(&concurrent, 0, &found, 1, &total) == YARIB_DONE && total == ROUTES);
}

static void fork_while_reading(void)
{
    yarib_route found;
    size_t total;
    int status;
    begin();
    inside = read_both;
    CHECK(yarib_routes(&table, 0, &found, 1, &total) == YARIB_DONE && total == ROUTES);
    if (forked == 0) {
        CHECK(change(YARIB_ADD, 100) == YARIB_DONE && change_concurrent(YARIB_ADD, 101) == YARIB_DONE);
        end();
        _exit(0);
    }
    CHECK(waitpid(forked, &status, 0) == forked && WIFEXITED(status) && WEXITSTATUS(status) == 0);
    end();
}

/* Every change is refused by the status YARIB_NO_BARRIER, and changes nothing. */
static void changes_are_refused(void)
{
    const yarib_command one = command(YARIB_ADD, 100);
    yarib_reply reply = {.code = 99};
    yarib_loaded loaded;
    FILE *file = tmpfile();
    size_t total;
    CHECK(file && change(YARIB_ADD, 100) == YARIB_NO_BARRIER && yarib_apply_each(&table, &one, 1, &reply, 1) == YARIB_NO_BARRIER);
    CHECK(yarib_new(&table, 1, YARIB_PLAIN) == YARIB_NO_BARRIER && yarib_free(&table) == YARIB_NO_BARRIER);
    CHECK(yarib_load(&table, 1, file, &loaded) == YARIB_NO_BARRIER && loaded.line == 0);
    CHECK(yarib_concurrent_apply_each(&concurrent, &one, 1, &reply, 1) == YARIB_NO_BARRIER && reply.code == 99);
    CHECK(change_concurrent(YARIB_ADD, 100) == YARIB_NO_BARRIER && yarib_concurrent_new(&concurrent, 1) == YARIB_NO_BARRIER);
    CHECK(yarib_concurrent_free(&concurrent) == YARIB_NO_BARRIER && yarib_concurrent_fib_attach(&concurrent) == YARIB_NO_BARRIER);
    CHECK(yarib_concurrent_load(&concurrent, 1, file, &loaded) == YARIB_NO_BARRIER && loaded.line == 0);
    CHECK(yarib_count(&table, &total) == YARIB_DONE && total == ROUTES && yarib_concurrent_count(&concurrent, &total) == YARIB_DONE);
    CHECK(total == ROUTES && fclose(file) == 0);
}

/* The kernel refuses barriers once threads have read, as after seccomp. */
static void refuse_barriers(void)
{
    struct held idle;
    begin();
    hold(&idle, stay);
    atomic_store(&barriers_left, 0);
    changes_are_refused();
    let_go(&idle);
    /* No thread is left that reads without a barrier. */
    CHECK(change(YARIB_ADD, 100) == YARIB_DONE && change_concurrent(YARIB_ADD, 100) == YARIB_DONE);
    atomic_store(&barriers_left, 1 << 30);
    end();
}

/* Refused in the midst of a change that would end what a held reader reads: the reader's table stays, and a free is undone. */
static void refuse_in_midst(bool is_free, bool is_published, int allowed, enum yarib_status expected)
{
    struct held reader, idle;
    size_t total, before = is_free || expected != YARIB_DONE ? ROUTES : 0;
    begin();
    hold(&idle, stay);
    if (!is_published) CHECK(change_concurrent(YARIB_DUMP, 0) == YARIB_DONE);
    hold(&reader, allowed % 2 ? read_concurrent : read_concurrent_inside);
    atomic_store(&barriers_left, allowed);
    CHECK((is_free ? yarib_concurrent_free(&concurrent) : yarib_concurrent_new(&concurrent, LIMIT)) == expected);
    CHECK(yarib_concurrent_count(&concurrent, &total) == YARIB_DONE && total == before);
    let_go(&reader);
    let_go(&idle);
    atomic_store(&barriers_left, 1 << 30);
    CHECK(change_concurrent(YARIB_ADD, 100) == YARIB_DONE && change_concurrent(YARIB_ADD, 101) == YARIB_DONE);
    CHECK(yarib_concurrent_count(&concurrent, &total) == YARIB_DONE && total == before + 2);
    end();
}

static void refuse_barriers_in_midst(void)
{
    refuse_in_midst(false, true, 0, YARIB_NO_BARRIER);
    refuse_in_midst(false, true, 1, YARIB_DONE);
    refuse_in_midst(false, false, 0, YARIB_DONE);
    for (int allowed = 0; allowed < 3; allowed++) refuse_in_midst(true, true, allowed, YARIB_NO_BARRIER);
    for (int allowed = 0; allowed < 2; allowed++) refuse_in_midst(true, false, allowed, YARIB_NO_BARRIER);
}

/* A daemon forbids membarrier, and all threads with it, by a real filter. */
static void be_in_sandbox(void)
{
    struct sock_filter steps[] = {
        BPF_STMT(BPF_LD | BPF_W | BPF_ABS, offsetof(struct seccomp_data, nr)),
        BPF_JUMP(BPF_JMP | BPF_JEQ | BPF_K, SYS_membarrier, 0, 1),
        BPF_STMT(BPF_RET | BPF_K, SECCOMP_RET_ERRNO | EPERM),
        BPF_STMT(BPF_RET | BPF_K, SECCOMP_RET_ALLOW),
    };
    const struct sock_fprog filter = {sizeof steps / sizeof *steps, steps};
    struct held idle;
    begin();
    hold(&idle, stay);
    if (prctl(PR_SET_NO_NEW_PRIVS, 1, 0, 0, 0) == 0
        && syscall(SYS_seccomp, SECCOMP_SET_MODE_FILTER, SECCOMP_FILTER_FLAG_TSYNC, &filter) == 0) changes_are_refused();
    let_go(&idle);
    end();
}

static void sandbox(void)
{
    in_child(be_in_sandbox);
}

/* A thread that is to be cancelled still may be: what it called left that as it was. */
static void check_cancellable(void)
{
    int state;
    CHECK(pthread_setcancelstate(PTHREAD_CANCEL_DISABLE, &state) == 0 && state == PTHREAD_CANCEL_ENABLE);
    CHECK(pthread_setcancelstate(PTHREAD_CANCEL_ENABLE, &state) == 0);
}

/* A thread that is to be cancelled makes a change that waits for a reader. */
static atomic_int may_change, is_waiting, is_over;

static void *change_while_cancelled(void *unused)
{
    while (!atomic_load(&may_change)) continue;
    atomic_store(&is_waiting, 1);
    CHECK(change_concurrent(YARIB_ADD, 100) == YARIB_DONE);
    check_cancellable();
    atomic_store(&is_over, 1);
    CHECK(pthread_setcancelstate(PTHREAD_CANCEL_DISABLE, NULL) == 0);
    return unused;
}

static void cancel(void)
{
    const struct timespec moment = {.tv_nsec = 50000000};
    struct held reader;
    pthread_t thread;
    void *result;
    begin();
    hold(&reader, read_concurrent);
    CHECK(change_concurrent(YARIB_ADD, 99) == YARIB_DONE);
    CHECK(pthread_create(&thread, NULL, change_while_cancelled, NULL) == 0 && pthread_cancel(thread) == 0);
    atomic_store(&may_change, 1);
    while (!atomic_load(&is_waiting)) continue;
    CHECK(nanosleep(&moment, NULL) == 0 && !atomic_load(&is_over));
    let_go(&reader);
    CHECK(pthread_join(thread, &result) == 0 && result == NULL && atomic_load(&is_over));
    CHECK(change_concurrent(YARIB_ADD, 101) == YARIB_DONE);
    end();
}

/* A thread that is to be cancelled loads routes from a pipe and saves them. */
static FILE *saved;

static void *load_while_cancelled(void *file)
{
    yarib_loaded loaded;
    while (!atomic_load(&may_change)) continue;
    CHECK(yarib_load(&table, 2, file, &loaded) == YARIB_DONE && loaded.routes == 1);
    check_cancellable();
    CHECK(yarib_save(&table, 2, saved) == YARIB_DONE);
    check_cancellable();
    atomic_store(&is_over, 1);
    CHECK(pthread_setcancelstate(PTHREAD_CANCEL_DISABLE, NULL) == 0);
    return NULL;
}

static void cancel_load(void)
{
    static const char line[] = "add 10.0.0.0/8 1 192.0.2.1\n";
    pthread_t thread;
    void *result;
    int ends[2];
    begin();
    atomic_store(&may_change, 0);
    atomic_store(&is_over, 0);
    CHECK(pipe(ends) == 0 && write(ends[1], line, strlen(line)) == (ssize_t)strlen(line) && close(ends[1]) == 0);
    FILE *file = fdopen(ends[0], "r");
    saved = tmpfile();
    CHECK(file && saved && pthread_create(&thread, NULL, load_while_cancelled, file) == 0 && pthread_cancel(thread) == 0);
    atomic_store(&may_change, 1);
    CHECK(pthread_join(thread, &result) == 0 && result == NULL && atomic_load(&is_over));
    CHECK(fclose(file) == 0 && fclose(saved) == 0 && change(YARIB_ADD, 101) == YARIB_DONE);
    end();
}

/* A load waits for the lock of its file, and reads nothing before. */
static void *load_locked(void *file)
{
    yarib_loaded loaded;
    atomic_store(&is_waiting, 1);
    CHECK(yarib_load(&table, 2, file, &loaded) == YARIB_DONE && loaded.routes == 1);
    atomic_store(&is_over, 1);
    return NULL;
}

static void lock_file(void)
{
    const struct timespec moment = {.tv_nsec = 50000000};
    FILE *file = tmpfile();
    pthread_t thread;
    begin();
    atomic_store(&is_waiting, 0);
    atomic_store(&is_over, 0);
    CHECK(file && fputs("add 10.0.0.0/8 1 192.0.2.1\n", file) >= 0);
    rewind(file);
    flockfile(file);
    CHECK(pthread_create(&thread, NULL, load_locked, file) == 0);
    while (!atomic_load(&is_waiting)) continue;
    CHECK(nanosleep(&moment, NULL) == 0 && !atomic_load(&is_over) && ftell(file) == 0);
    funlockfile(file);
    CHECK(pthread_join(thread, NULL) == 0 && atomic_load(&is_over) && fclose(file) == 0);
    end();
}

/* While more processes are busy than there are processors, a change that waits doesn't yield, and takes hardly any time of a processor. */
static double processor_time;

static void *change_late(void *unused)
{
    struct timespec taken;
    CHECK(change_concurrent(YARIB_ADD, 100) == YARIB_DONE);
    CHECK(clock_gettime(CLOCK_THREAD_CPUTIME_ID, &taken) == 0);
    processor_time = (double)taken.tv_sec + (double)taken.tv_nsec / 1e9;
    return unused;
}

static void wait_beside_busy(void)
{
    enum { BUSY_ONES = 8 };
    const struct timespec wait = {.tv_nsec = 500000000};
    struct held reader;
    pthread_t thread;
    pid_t busy[BUSY_ONES];
    begin();
    for (int k = 0; k < BUSY_ONES; k++) {
        CHECK((busy[k] = fork()) >= 0);
        if (busy[k] == 0) for (alarm(60);;) continue;
    }
    hold(&reader, read_concurrent);
    CHECK(change_concurrent(YARIB_ADD, 99) == YARIB_DONE);
    CHECK(pthread_create(&thread, NULL, change_late, NULL) == 0);
    CHECK(nanosleep(&wait, NULL) == 0);
    let_go(&reader);
    CHECK(pthread_join(thread, NULL) == 0 && atomic_load(&yields) == 0);
    CHECK(processor_time < 0.25 && atomic_load(&naps) > 0);
    for (int k = 0; k < BUSY_ONES; k++) CHECK(kill(busy[k], SIGKILL) == 0 && waitpid(busy[k], NULL, 0) == busy[k]);
    end();
}

/* A change that naps is woken by the call that it waits for, be that before the nap begins or during it, and by no other call. */
static void be_woken(void (*call)(void), bool is_early)
{
    struct held reader;
    pthread_t thread;
    yarib_route route;
    begin();
    CHECK(yarib_concurrent_look_up_one(&concurrent, 1 << 24, &route) == YARIB_DONE);
    hold(&reader, call);
    CHECK(change_concurrent(YARIB_ADD, 99) == YARIB_DONE);
    atomic_store(&are_naps_endless, 1);
    atomic_store(&naps, 0);
    atomic_store(&wakes, 0);
    if (is_early) atomic_store(&early, &reader);
    CHECK(pthread_create(&thread, NULL, change_late, NULL) == 0);
    if (!is_early) {
        while (atomic_load(&naps) == 0) continue;
        /* This thread read before the change was published. */
        for (int k = 0; k < 10; k++) CHECK(yarib_look_up_one(&table, 1 << 24, &route) == YARIB_DONE && route.via == 1);
        for (int k = 0; k < 10; k++) CHECK(yarib_concurrent_look_up_one(&concurrent, 99 << 24, &route) == YARIB_DONE && route.via == 99);
        CHECK(atomic_load(&wakes) == 0);
        let_go(&reader);
    }
    CHECK(pthread_join(thread, NULL) == 0 && atomic_load(&wakes) == 1 && atomic_load(&naps) == 1);
    atomic_store(&are_naps_endless, 0);
    end();
}

/* A nap ends by itself too. */
static void miss_wake(void)
{
    const struct timespec moment = {.tv_nsec = 50000000};
    struct held reader;
    pthread_t thread;
    begin();
    hold(&reader, read_concurrent);
    CHECK(change_concurrent(YARIB_ADD, 99) == YARIB_DONE);
    atomic_store(&are_wakes_lost, 1);
    CHECK(pthread_create(&thread, NULL, change_late, NULL) == 0 && nanosleep(&moment, NULL) == 0);
    let_go(&reader);
    CHECK(pthread_join(thread, NULL) == 0);
    atomic_store(&are_wakes_lost, 0);
    end();
}

static void wake(void)
{
    for (int is_early = 0; is_early < 2; is_early++) {
        be_woken(read_concurrent, is_early);
        be_woken(read_concurrent_inside, is_early);
    }
    miss_wake();
}

/* What each reading call reads of a concurrent table is at the begin of a cache line, whatever the heap gives. */
static void lines(void)
{
    yarib_concurrent one = YARIB_CONCURRENT_INIT;
    for (offset = 48; offset > 0; offset -= 16) {
        CHECK(yarib_concurrent_new(&one, LIMIT) == YARIB_DONE && (uintptr_t)one.inside % 64 == 0);
        CHECK(yarib_concurrent_free(&one) == YARIB_DONE);
    }
}

static const struct {
    const char *name;
    void (*run)(void);
} tests[] = {{"fork_beside_readers", fork_beside_readers}, {"fork_beside_changes", fork_beside_changes},
    {"fork_while_reading", fork_while_reading}, {"refuse_barriers", refuse_barriers},
    {"refuse_barriers_in_midst", refuse_barriers_in_midst}, {"sandbox", sandbox}, {"cancel", cancel}, {"cancel_load", cancel_load},
    {"lock_file", lock_file}, {"wait_beside_busy", wait_beside_busy}, {"wake", wake}, {"lines", lines}};

/* With an argument, only the test with this name is run; the status is 2 if no test has it. */
int main(int size, char **words)
{
    int run = 0;
    alarm(120);
    for (size_t k = 0; k < sizeof tests / sizeof *tests; k++) {
        if (size > 1 && strcmp(words[1], tests[k].name) != 0) continue;
        tests[k].run();
        run++;
    }
    return run > 0 ? 0 : 2;
}
