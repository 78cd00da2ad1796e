// The lock's algorithm in plain C: the same words, steps and order, each access sequentially consistent. It also has
// the same spinning between two loads of a spin word, the same bells for places that sleep during long waits, and the
// same naps at the door. Its arguments are the passages in all, the levels and the threads; it times them as the lock's
// benchmark does, in one line on standard error.
#define _GNU_SOURCE
#include <linux/futex.h>
#include <pthread.h>
#include <stdatomic.h>
#include <stdint.h>
#include <stdio.h>
#include <stdlib.h>
#include <sys/syscall.h>
#include <time.h>
#include <unistd.h>

#ifndef SPACING
#define SPACING 8
#endif
#ifndef PATIENCE
#define PATIENCE 14
#endif
#ifndef CROWDED
#define CROWDED 4
#endif
#ifndef FORGOTTEN
#define FORGOTTEN 10000
#endif
#ifndef NAPS
#define NAPS 8
#endif
#ifndef LOOKS
#define LOOKS 4
#endif
#ifndef SPINS
#define SPINS 7
#endif
#ifndef SHARE
#define SHARE 200 // microseconds
#endif

typedef _Atomic uint64_t word;

struct tree {
    int levels;
    uint64_t places;
    word *words;
    uint64_t count; // what is done inside
};

static word *at(struct tree *t, uint64_t number) { return &t->words[number * SPACING]; }

static uint64_t before(struct tree *t, int h) { return t->places - (t->places >> (h - 1)); }

static word *c_word(struct tree *t, int h, uint64_t node, uint64_t side) { return at(t, 2 * (before(t, h) + node) + side); }

static word *t_word(struct tree *t, int h, uint64_t node) { return at(t, 2 * (t->places - 1) + before(t, h) + node); }

static word *p_word(struct tree *t, int h, uint64_t place) { return at(t, 3 * (t->places - 1) + (h - 1) * t->places + place); }

// A place's bell comes after the tree and after the lock's making word, which this lock doesn't use.
static word *bell_word(struct tree *t, uint64_t place) { return at(t, 3 * (t->places - 1) + t->levels * t->places + 1 + place); }

// As crossbeam's Backoff spins: twice as long each time, up to 64 pauses.
static void back_off(unsigned step) {
    for (unsigned i = 0; i < 1u << (step < 6 ? step : 6); i++) __builtin_ia32_pause();
}

// Waits until the spin word is at least this value: for a while by loading it again and again, and then asleep.
static void wait_for(struct tree *t, uint64_t place, word *spin, uint64_t least) {
    word *bell = bell_word(t, place);
    for (unsigned step = 0; atomic_load(spin) < least; step++) {
        if (step < PATIENCE) {
            back_off(step);
            continue;
        }
        atomic_store(bell, 1);
        if (atomic_load(spin) < least) {
            syscall(SYS_futex, bell, FUTEX_WAIT_PRIVATE, 1, 0, 0, 0);
        } else {
            atomic_store(bell, 0);
        }
    }
}

// Wakes a place that sleeps, once its spin word was stored in.
static void ring(struct tree *t, uint64_t place) {
    word *bell = bell_word(t, place);
    if (atomic_load(bell) == 1) {
        atomic_store(bell, 0);
        syscall(SYS_futex, bell, FUTEX_WAKE_PRIVATE, 1, 0, 0, 0);
    }
}

static void enter_level(struct tree *t, int h, uint64_t p) {
    uint64_t u = p + 1, node = p >> h, side = (p >> (h - 1)) & 1;
    word *turn = t_word(t, h, node), *mine = p_word(t, h, p);
    atomic_store(c_word(t, h, node, side), u);
    atomic_store(turn, u);
    atomic_store(mine, 0);
    uint64_t r = atomic_load(c_word(t, h, node, 1 - side));
    if (r == 0 || atomic_load(turn) != u) return;
    word *other = p_word(t, h, r - 1);
    if (atomic_load(other) == 0) {
        atomic_store(other, 1);
        ring(t, r - 1);
    }
    wait_for(t, p, mine, 1);
    if (atomic_load(turn) != u) return;
    wait_for(t, p, mine, 2);
}

static void leave_level(struct tree *t, int h, uint64_t p) {
    uint64_t u = p + 1, node = p >> h, side = (p >> (h - 1)) & 1;
    atomic_store(c_word(t, h, node, side), 0);
    uint64_t r = atomic_load(t_word(t, h, node));
    if (r != u) {
        atomic_store(p_word(t, h, r - 1), 2);
        ring(t, r - 1);
    }
}

static int is_taken(struct tree *t) {
    return atomic_load(c_word(t, t->levels, 0, 0)) != 0 || atomic_load(c_word(t, t->levels, 0, 1)) != 0;
}

// Returns true if somebody is at the root at one of the next few looks.
static int is_taken_again(struct tree *t) {
    for (unsigned look = 0; look < LOOKS; look++) {
        if (is_taken(t)) return 1;
        for (unsigned step = 0; step < SPINS; step++) back_off(step);
    }
    return 0;
}

// Naps until nobody is at the root, but at most NAPS times.
static void nap_while_taken(struct tree *t, uint64_t place) {
    uint64_t length = SHARE * 1000ull << t->levels;
    struct timespec time = {length / 1000000000, length % 1000000000};
    for (unsigned nap = 0; nap < NAPS; nap++) {
        syscall(SYS_futex, bell_word(t, place), FUTEX_WAIT_PRIVATE, 0, &time, 0, 0);
        if (!is_taken_again(t)) return;
    }
}

// Naps if somebody is at the root, as at CROWDED entries before this one in a row. Returns what the place remembers then: how
// many entries in a row found somebody or, from CROWDED on, how many since then found nobody.
static unsigned throttle_if_contended(struct tree *t, uint64_t place, unsigned crowded) {
    if (!is_taken(t)) return crowded >= CROWDED && crowded < CROWDED + FORGOTTEN ? crowded + 1 : 0;
    if (crowded < CROWDED) return crowded + 1;
    nap_while_taken(t, place);
    return CROWDED;
}

struct job {
    struct tree *tree;
    uint64_t place, times;
};

static void *run(void *arg) {
    struct job *j = arg;
    struct tree *t = j->tree;
    unsigned crowded = 0;
    for (uint64_t i = 0; i < j->times; i++) {
        crowded = throttle_if_contended(t, j->place, crowded);
        for (int h = 1; h <= t->levels; h++) enter_level(t, h, j->place);
        t->count++;
        for (int h = t->levels; h >= 1; h--) leave_level(t, h, j->place);
    }
    return 0;
}

static void times(int levels, unsigned threads, uint64_t passages) {
    struct tree t = {.levels = levels, .places = 1ull << levels};
    uint64_t words = 3 * (t.places - 1) + levels * t.places + 1 + t.places;
    t.words = aligned_alloc(64, (words * SPACING + 8) / 8 * 64);
    for (uint64_t i = 0; i < words * SPACING; i++) atomic_init(&t.words[i], 0);
    pthread_t id[64];
    struct job jobs[64];
    struct timespec a, b;
    clock_gettime(CLOCK_MONOTONIC, &a);
    for (unsigned i = 0; i < threads; i++) {
        jobs[i] = (struct job){&t, i, passages / threads};
        if (pthread_create(&id[i], 0, run, &jobs[i])) exit(1);
    }
    for (unsigned i = 0; i < threads; i++) pthread_join(id[i], 0);
    clock_gettime(CLOCK_MONOTONIC, &b);
    if (t.count != passages) fprintf(stderr, "c: %lu of %lu passages\n", t.count, passages);
    fprintf(stderr, "%d %u %lu %lu\n", levels, threads, passages,
            (uint64_t)(b.tv_sec - a.tv_sec) * 1000000000u + b.tv_nsec - a.tv_nsec);
    free(t.words);
}

int main(int argc, char **argv) {
    uint64_t passages = argc > 1 ? strtoull(argv[1], 0, 10) : 3000;
    int levels = argc > 2 ? atoi(argv[2]) : 6;
    unsigned threads = argc > 3 ? atoi(argv[3]) : 1;
    times(levels, threads, passages / threads * threads);
}
