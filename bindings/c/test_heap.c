/* Tests of the library's heap by itself: random calls of several threads, with the contents of each block; the memory that it gives back;
 * the time of the program's next allocation; and the state after a refusal and after a fork. */
#define _DEFAULT_SOURCE
#include "check.h"
#include "layer.h"

#include <pthread.h>
#include <string.h>
#include <sys/mman.h>
#include <sys/prctl.h>
#include <sys/resource.h>
#include <sys/wait.h>
#include <time.h>
#include <unistd.h>

enum { THREADS = 4, SHELVES = 512, CALLS = 200000 };

/* True if sanitizers or valgrind run the tests: they keep memory that was freed. */
static bool is_watched;

/* A block and what each of its bytes holds. Threads take blocks from shelves and put others there, so they free each other's. */
struct held {
    unsigned char *at;
    size_t size;
    unsigned char fill;
};
static struct held shelves[SHELVES];
static pthread_mutex_t locks[SHELVES];

static uint32_t draw_below(uint64_t *last, uint32_t below)
{
    *last = *last * 6364136223846793005u + 1442695040888963407u;
    return (uint32_t)((*last >> 32) * below >> 32);
}

static void check(const struct held *one)
{
    for (size_t k = 0; k < one->size; k++) CHECK(one->at[k] == one->fill);
}

static void fill(struct held *one, uint64_t *last)
{
    one->fill = draw_below(last, 256);
    memset(one->at, one->fill, one->size);
}

static size_t drawn_size(uint64_t *last)
{
    return draw_below(last, 8) == 0 ? draw_below(last, 3000) : draw_below(last, 140);
}

static void visit(struct held *one, uint64_t *last)
{
    size_t alignment = (size_t)1 << draw_below(last, 5);
    if (one->at) check(one);
    if (!one->at) {
        one->size = drawn_size(last);
        struct tried made = rattle_alloc(one->size, alignment);
        CHECK(made.ok && (uintptr_t)made.block % alignment == 0);
        one->at = made.block;
        fill(one, last);
    } else if (draw_below(last, 3) == 0) {
        size_t size = drawn_size(last), kept = size < one->size ? size : one->size;
        struct tried moved = rattle_realloc(one->at, kept, size, 1);
        CHECK(moved.ok);
        *one = (struct held){moved.block, kept, one->fill};
        check(one);
        one->size = size;
        fill(one, last);
    } else {
        rattle_dealloc(one->at);
        one->at = NULL;
    }
}

static void *work(void *seed)
{
    static __thread struct frees frees;
    uint64_t last = (uintptr_t)seed;
    for (int k = 0; k < (is_watched ? CALLS / 5 : CALLS); k++) {
        uint32_t shelf = draw_below(&last, SHELVES), end = draw_below(&last, 400);
        /* Half of the time blocks are kept to be freed together. */
        if (end == 0) end_frees();
        if (end == 1) begin_frees(&frees);
        pthread_mutex_lock(&locks[shelf]);
        visit(&shelves[shelf], &last);
        pthread_mutex_unlock(&locks[shelf]);
    }
    end_frees();
    return NULL;
}

static void run_threads(uintptr_t seed, void (*meanwhile)(void))
{
    pthread_t threads[THREADS];
    for (int k = 0; k < THREADS; k++) CHECK(pthread_create(&threads[k], NULL, work, (void *)(seed + k)) == 0);
    if (meanwhile) meanwhile();
    for (int k = 0; k < THREADS; k++) pthread_join(threads[k], NULL);
}

/* A child allocates and frees, also blocks of its parent, whose threads were in the middle of calls. */
static void fork_meanwhile(void)
{
    for (int k = 0; k < 50; k++) {
        struct tried before = rattle_alloc(40, 8);
        pid_t child = fork();
        CHECK(child >= 0 && before.ok);
        if (child == 0) {
            void *held[16] = {NULL};
            alarm(60);
            for (int j = 0; j < 5000; j++) {
                struct tried one = rattle_alloc(1 + j % 128, 8);
                CHECK(one.ok);
                if (held[j % 16]) rattle_dealloc(held[j % 16]);
                held[j % 16] = one.block;
            }
            for (int j = 0; j < 16; j++) rattle_dealloc(held[j]);
            rattle_dealloc(before.block);
            _exit(0);
        }
        int status;
        CHECK(waitpid(child, &status, 0) == child && status == 0);
        rattle_dealloc(before.block);
    }
}

/* Returns the number of the process's bytes that a field of smaps gives. The kernel counts these bytes for each call. The counters of
 * statm can be wrong by 128 KiB for each processor. */
static size_t mapped_bytes(const char *field)
{
    char line[256];
    size_t length = strlen(field), kilobytes;
    bool is_found = false;
    FILE *file = fopen("/proc/self/smaps_rollup", "r");
    CHECK(file);
    while (!is_found && fgets(line, sizeof line, file))
        is_found = strncmp(line, field, length) == 0 && sscanf(line + length, ": %zu", &kilobytes) == 1;
    fclose(file);
    CHECK(is_found);
    return kilobytes * 1024;
}

/* Returns the size of the memory in use, without the pages of mapped files. */
static size_t resident_bytes(void)
{
    return mapped_bytes("Anonymous");
}

/* Returns the size of the part of it that is in huge pages. */
static size_t huge_bytes(void)
{
    return mapped_bytes("AnonHugePages");
}

/* Returns the size of the address space. */
static size_t space_bytes(void)
{
    size_t pages = 0;
    FILE *file = fopen("/proc/self/statm", "r");
    CHECK(file && fscanf(file, "%zu", &pages) == 1);
    fclose(file);
    return pages * 4096;
}

/* Returns the size of what the process may write to, which the kernel gives at once if memory is locked. */
static size_t writable_bytes(void)
{
    char line[256];
    size_t kilobytes = 0;
    FILE *file = fopen("/proc/self/status", "r");
    CHECK(file);
    while (fgets(line, sizeof line, file) && sscanf(line, "VmData: %zu", &kilobytes) != 1) continue;
    fclose(file);
    CHECK(kilobytes > 0);
    return kilobytes * 1024;
}

/* Returns true if the kernel gives huge pages to a process that asks for them by madvise. */
static bool has_huge_pages(void)
{
    char line[256] = "";
    FILE *file = fopen("/sys/kernel/mm/transparent_hugepage/enabled", "r");
    if (file && !fgets(line, sizeof line, file)) line[0] = '\0';
    if (file) fclose(file);
    return strstr(line, "[madvise]") || strstr(line, "[always]");
}

static double seconds(void)
{
    struct timespec now;
    clock_gettime(CLOCK_THREAD_CPUTIME_ID, &now);
    return now.tv_sec + now.tv_nsec / 1e9;
}

/* The blocks that are kept at the end are nearly as many as can be. */
enum { MANY = 64 * 31250 + 63 };
static void *many[MANY];

/* Frees many small blocks in a random order, together if `is_kept`. The next allocations take less than a millisecond, and the memory is
 * given back. */
static void give_back_many(bool is_kept)
{
    struct frees frees;
    uint64_t last = 5;
    for (size_t k = 0; k < MANY; k++) many[k] = NULL;
    size_t before = resident_bytes();
    for (size_t k = 0; k < MANY; k++) {
        struct tried made = rattle_alloc(40, 8);
        CHECK(made.ok);
        memset(many[k] = made.block, 1, 40);
    }
    for (uint32_t k = MANY - 1; k > 0; k--) {
        uint32_t other = draw_below(&last, k + 1);
        void *one = many[k];
        many[k] = many[other];
        many[other] = one;
    }
    size_t full = resident_bytes();
    if (has_huge_pages()) CHECK(huge_bytes() >= 32 << 20);
    if (is_kept) begin_frees(&frees);
    for (size_t k = 0; k < MANY; k++) {
        CHECK(*(unsigned char *)many[k] == 1);
        rattle_dealloc(many[k]);
    }
    if (is_kept) end_frees();
    size_t after = resident_bytes();
    double start = seconds();
    for (size_t size = 1024; size <= 1 << 20; size *= 2) {
        void *volatile block = malloc(size); /* so that the compiler keeps the call */
        free(block);
    }
    double taken = seconds() - start;
    printf("%zu bytes for each block, %zu left of each, %.3f ms for the next allocations\n", (full - before) / MANY,
        (after > before ? after - before : 0) / MANY, taken * 1e3);
    CHECK((full - before) / MANY <= 44);
    /* A slab stays for the next block, and with it a huge page, until a call frees a whole table. */
    CHECK(after <= before + (full - before) / (is_kept ? 100 : 30));
    CHECK(taken < 1e-3);
}

/* A few small blocks take a few small pages. */
static void take_few(void)
{
    size_t before = resident_bytes();
    for (size_t k = 0; k < 1000; k++) {
        struct tried made = rattle_alloc(40, 8);
        CHECK(made.ok);
        memset(many[k] = made.block, 1, 40);
    }
    CHECK(resident_bytes() <= before + (1 << 18));
    for (size_t k = 0; k < 1000; k++) rattle_dealloc(many[k]);
}

/* The heap may write to little more than what it has given out, and so takes no more if memory is locked: a small table takes less than
 * a MiB, and a large one no more than twice its size. */
static void open_in_steps(void)
{
    struct tried one = rattle_alloc(2000, 8), other = rattle_alloc(2000, 8);
    size_t before = writable_bytes(), resident = resident_bytes();
    CHECK(one.ok && other.ok);
    bool is_locked = mlockall(MCL_FUTURE) == 0;
    for (size_t k = 0; k < MANY; k++) {
        struct tried made = rattle_alloc(40, 8);
        CHECK(made.ok);
        many[k] = made.block;
        size_t given = 40 * (k + 1), most = 2 * given + (1 << 20);
        if ((k & (k + 1)) != 0) continue;
        CHECK(writable_bytes() <= before + most);
        if (is_locked) CHECK(resident_bytes() <= resident + most);
    }
    struct tried large = rattle_alloc(8 << 20, 8);
    CHECK(large.ok && writable_bytes() <= before + 2 * 40 * (size_t)MANY + (10 << 20));
    rattle_dealloc(large.block);
    CHECK(munlockall() == 0);
    for (size_t k = 0; k < MANY; k++) rattle_dealloc(many[k]);
    rattle_dealloc(one.block);
    rattle_dealloc(other.block);
}

static void give_back(void)
{
    give_back_many(false);
}

static void *give_back_kept(void *unused)
{
    give_back_many(true);
    give_back_many(false);
    return unused;
}

/* Blocks are kept only if there is more than one thread, and no longer than they are to be. */
static void give_back_together(void)
{
    pthread_t thread;
    CHECK(pthread_create(&thread, NULL, give_back_kept, NULL) == 0 && pthread_join(thread, NULL) == 0);
}

/* Allocates until 150 MB more are in use. Refusals leave what is held, and after a free there is memory again. */
static void refuse(void)
{
    size_t size = 0, bytes = 0, most = space_bytes() + (150u << 20);
    struct rlimit limit = {.rlim_cur = most, .rlim_max = most};
    CHECK(setrlimit(RLIMIT_AS, &limit) == 0);
    struct tried made;
    for (; (made = rattle_alloc(1 + size % 128, 1)).ok; size++) {
        CHECK((bytes += 1 + size % 128) < most);
        *(unsigned char *)made.block = size;
        if (size < MANY) many[size] = made.block;
    }
    CHECK(size >= 1000000 && made.block != NULL);
    size_t kept = size < MANY ? size : MANY;
    CHECK(!rattle_realloc(many[0], 1, (size_t)1 << 31, 1).ok);
    for (size_t k = 0; k < kept; k++) CHECK(*(unsigned char *)many[k] == (unsigned char)k);
    for (size_t k = 0; k < kept; k++) rattle_dealloc(many[k]);
    for (size_t k = 0; k < kept / 2; k++) CHECK(rattle_alloc(1 + k % 128, 1).ok);
}

/* Sizes in MiB, smaller and larger than the smallest block with its own mapping. A resized block keeps its beginning. */
static const unsigned char sizes[] = {3, 4, 5, 64, 5, 200, 66, 4, 3, 1, 9, 8, 130, 2, 40};

static void write_ends(unsigned char *block, size_t size, unsigned char k)
{
    for (size_t j = 0; j < 4096; j++) block[j] = block[size - 1 - j] = k;
    for (size_t j = 0; j < size; j += 4096) block[j] = k;
}

static void check_ends(const unsigned char *block, size_t size, unsigned char k)
{
    for (size_t j = 0; j < 4096; j++) CHECK(block[j] == k);
    for (size_t j = 0; j < size; j += 4096) CHECK(block[j] == k);
}

/* Resizes two large blocks in turn, so that one is in the other's way, and frees them. */
static void *resize_two(void *unused)
{
    struct tried both[2] = {rattle_alloc(100, 8), rattle_alloc(8 << 20, 8)};
    size_t held[2] = {100, 8 << 20};
    CHECK(both[0].ok && both[1].ok && (uintptr_t)both[1].block % 16 == 0);
    memset(both[0].block, 0, 100);
    write_ends(both[1].block, held[1], 1);
    for (size_t k = 0; k < sizeof sizes; k++) {
        size_t one = k % 2, size = ((size_t)sizes[k] << 20) + k, kept = size < held[one] ? size : held[one];
        both[one] = rattle_realloc(both[one].block, kept, size, 8);
        CHECK(both[one].ok && (uintptr_t)both[one].block % 16 == 0);
        if (k > 0) check_ends(both[one].block, kept / 4096 * 4096, k > 1 ? k - 2 : 1);
        write_ends(both[one].block, held[one] = size, k);
    }
    for (size_t k = sizeof sizes - 2; k < sizeof sizes; k++) check_ends(both[k % 2].block, held[k % 2] / 4096 * 4096, k);
    rattle_dealloc(both[0].block);
    rattle_dealloc(both[1].block);
    return unused;
}

static void resize_large(void)
{
    pthread_t threads[THREADS];
    size_t before = resident_bytes();
    for (int k = 0; k < THREADS; k++) CHECK(pthread_create(&threads[k], NULL, resize_two, NULL) == 0);
    for (int k = 0; k < THREADS; k++) CHECK(pthread_join(threads[k], NULL) == 0);
    /* malloc keeps some of the smaller blocks for each thread. */
    if (!is_watched) CHECK(resident_bytes() <= before + THREADS * (8 << 20));
}

/* Large blocks are in huge pages if there are any, keep what they hold, and are given back at once. */
static void map_large(void)
{
    size_t before = resident_bytes(), space = space_bytes(), huge = huge_bytes();
    CHECK(!rattle_alloc((size_t)1 << 62, 8).ok && !rattle_alloc((size_t)1 << 48, 8).ok);
    struct tried large = rattle_alloc(64 << 20, 8);
    CHECK(large.ok);
    write_ends(large.block, 64 << 20, 7);
    CHECK(space_bytes() <= space + (65 << 20) && resident_bytes() <= before + (65 << 20));
    printf("%zu of 64 MiB in huge pages\n", (huge_bytes() - huge) >> 20);
    if (has_huge_pages()) CHECK(huge_bytes() >= huge + (32 << 20));
    CHECK(!rattle_realloc(large.block, 64 << 20, (size_t)1 << 62, 8).ok && !rattle_realloc(large.block, 64 << 20, (size_t)1 << 48, 8).ok);
    check_ends(large.block, 64 << 20, 7);
    rattle_dealloc(large.block);
    CHECK(resident_bytes() <= before + (1 << 20));
}

/* Returns true if the kernel can find memory before it is written. */
static bool fills(void)
{
    void *page = mmap(NULL, 4096, PROT_READ | PROT_WRITE, MAP_PRIVATE | MAP_ANONYMOUS, -1, 0);
    bool is_done = page != MAP_FAILED && madvise(page, 4096, 23 /* MADV_POPULATE_WRITE */) == 0;
    munmap(page, 4096);
    return is_done;
}

/* Only between begin_filling and end_filling are large blocks in memory before they are written, also what a resized one gets more. */
static void fill_large(void)
{
    size_t before = resident_bytes();
    begin_filling();
    struct tried filled = rattle_alloc(16 << 20, 8);
    if (fills()) CHECK(resident_bytes() >= before + (16 << 20));
    filled = rattle_realloc(filled.block, 16 << 20, 48 << 20, 8);
    if (fills()) CHECK(resident_bytes() >= before + (48 << 20));
    filled = rattle_realloc(filled.block, 8 << 20, 8 << 20, 8);
    end_filling();
    CHECK(filled.ok && resident_bytes() <= before + (9 << 20));
    struct tried later = rattle_alloc(16 << 20, 8);
    CHECK(later.ok && resident_bytes() <= before + (11 << 20));
    filled = rattle_realloc(filled.block, 8 << 20, 24 << 20, 8);
    CHECK(filled.ok && resident_bytes() <= before + (13 << 20));
    write_ends(later.block, 16 << 20, 5);
    write_ends(filled.block, 24 << 20, 6);
    check_ends(later.block, 16 << 20, 5);
    rattle_dealloc(later.block);
    rattle_dealloc(filled.block);
}

/* Without huge pages large blocks are what they are with them, and if no mapping is found for them they come from malloc. */
static void map_refused(void)
{
    struct rlimit whole, limit;
    CHECK(prctl(PR_SET_THP_DISABLE, 1, 0, 0, 0) == 0);
    size_t huge = huge_bytes();
    resize_two(NULL);
    struct tried large = rattle_alloc(30 << 20, 8);
    write_ends(large.block, 30 << 20, 3);
    CHECK(huge_bytes() == huge && getrlimit(RLIMIT_AS, &whole) == 0);
    limit = whole;
    limit.rlim_cur = space_bytes() + (60 << 20);
    CHECK(setrlimit(RLIMIT_AS, &limit) == 0);
    struct tried other = rattle_alloc(8 << 20, 8);
    CHECK(large.ok && other.ok && !rattle_alloc(90 << 20, 8).ok);
    write_ends(other.block, 8 << 20, 4);
    CHECK(!rattle_realloc(large.block, 30 << 20, 100 << 20, 8).ok);
    check_ends(large.block, 30 << 20, 3);
    other = rattle_realloc(other.block, 8 << 20, 20 << 20, 8);
    CHECK(other.ok);
    check_ends(other.block, 8 << 20, 4);
    CHECK(setrlimit(RLIMIT_AS, &whole) == 0);
    other = rattle_realloc(other.block, 20 << 20, 90 << 20, 8);
    CHECK(other.ok);
    check_ends(other.block, 8 << 20, 4);
    rattle_dealloc(other.block);
    rattle_dealloc(large.block);
    CHECK(prctl(PR_SET_THP_DISABLE, 0, 0, 0, 0) == 0);
}

/* Rounds of calls, after which every block is as it was left. */
static void call(uintptr_t first, uintptr_t last, void (*meanwhile)(void))
{
    for (uintptr_t seed = first; seed <= last; seed++) run_threads(100 * seed, meanwhile);
    for (int k = 0; k < SHELVES; k++) {
        if (!shelves[k].at) continue;
        check(&shelves[k]);
        rattle_dealloc(shelves[k].at);
        shelves[k].at = NULL;
    }
}

static void call_threads(void)
{
    call(1, 3, NULL);
}

static void call_and_fork(void)
{
    call(4, 4, fork_meanwhile);
}

static const struct {
    const char *name;
    void (*run)(void);
} tests[] = {{"steps", open_in_steps}, {"few", take_few}, {"calls", call_threads}, {"forks", call_and_fork}, {"give_back", give_back},
    {"give_back_together", give_back_together}, {"resizes", resize_large}, {"large", map_large}, {"fills", fill_large}, {"large_refused", map_refused}, {"refuse", refuse}};

/* With an argument, only the test with this name is run; the status is 2 if no test has it. With a second one, a sanitizer or valgrind runs
 * it. They run only calls and resizes: they need more memory and time, and report what a child's missing threads held. */
int main(int size, char **words)
{
    int run = 0;
    is_watched = size > 2;
    alarm(600);
    for (int k = 0; k < SHELVES; k++) CHECK(pthread_mutex_init(&locks[k], NULL) == 0);
    for (size_t k = 0; k < sizeof tests / sizeof *tests; k++) {
        if (size > 1 && strcmp(words[1], tests[k].name) != 0) continue;
        tests[k].run();
        run++;
    }
    return run > 0 ? 0 : 2;
}
