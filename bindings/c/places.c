/* Which handles the reading calls under way read, and how a change finds out. handles.c and readers.c use this.
 *
 * A reading call writes the handle into a place, and then reads the handle's word. A change marks or changes the word, and then reads
 * the places. One of the two sees the other, if neither reads before its own write is seen. For a change, and for a reading call with
 * a lent place, an instruction of the processor sees to that. A reading call of a thread with a place of its own has none: the
 * change has the kernel put a barrier into every running thread instead (membarrier). So such a call takes some 3 ns, and the
 * processor goes on to the next look-up while this one waits for memory.
 *
 * A thread has a place of its own from its first reading call to its end, if there is one and the kernel has the barrier. Any other
 * reading call, and one inside another call of its thread, has a place that is lent to it until it ends. No call allocates memory, waits
 * or takes a lock here, so the first reading call of a thread may be made where memory is short and in a signal handler. */
#define _GNU_SOURCE
#include "layer.h"

#include <limits.h>
#include <linux/futex.h>
#include <linux/membarrier.h>
#include <pthread.h>
#include <stdlib.h>
#include <sys/syscall.h>
#include <time.h>
#include <unistd.h>

#ifndef __x86_64__
#error "a handle's word needs pointers of 48 bits: x86-64"
#endif

/* Places, and how many of them may be a thread's own: a change reads all that were ever in use. */
enum { PLACES = 1024, OWN_PLACES = 256 };

/* glibc keeps the values of this many keys in the thread itself, and allocates memory for those of others. */
enum { KEYS_OF_THREAD = 32 };

/* A change that waits spins so often, twice as long each time, and then naps, twice as long after so many naps: so a nap takes about a
 * tenth of the time that it has waited. */
enum { SPINS = 7, NAPS = 8, NAPS_THAT_GROW = 12 * NAPS };

__thread struct thread this_thread;

static struct place places[PLACES] __attribute__((aligned(64)));

/* The number of the first places that were ever in use, and of those that are a thread's own. */
static int used __attribute__((aligned(64))), owned;

struct naps naps __attribute__((aligned(64)));

uintptr_t forks;

/* Has leave_own_place called when a thread ends. */
static pthread_key_t key;
static bool has_key;

static bool membarrier(int command)
{
    return syscall(SYS_membarrier, command, 0, 0) == 0;
}

static void leave_own_place(void *own)
{
    this_thread.place = NULL;
    __atomic_fetch_sub(&owned, 1, __ATOMIC_SEQ_CST);
    __atomic_store_n(&((struct place *)own)->owner, NULL, __ATOMIC_RELEASE);
}

/* In the child of a fork there are no other threads. What they read isn't read any more, and what they changed stays marked by the
 * number of forks before. */
static void forget_threads(void)
{
    for (int k = 0; k < used; k++) {
        if (places[k].owner != &this_thread) places[k] = (struct place){NULL};
    }
    owned = this_thread.place != NULL;
    forks = (forks + 1) & UINT16_MAX;
}

__attribute__((constructor)) static void begin(void)
{
    has_key = pthread_key_create(&key, leave_own_place) == 0;
    pthread_atfork(NULL, NULL, forget_threads);
}

/* A program that unloads the library, as part of a library of its own, must not call it when a thread ends later. */
__attribute__((destructor)) static void end(void)
{
    if (has_key) pthread_key_delete(key);
    has_key = false;
}

/* Takes a place for this thread, if it is free. */
static bool take(struct place *place)
{
    const void *nobody = NULL;
    int before = __atomic_load_n(&used, __ATOMIC_SEQ_CST), after = (int)(place - places) + 1;
    if (__atomic_load_n(&place->owner, __ATOMIC_RELAXED)
        || !__atomic_compare_exchange_n(&place->owner, &nobody, &this_thread, 0, __ATOMIC_SEQ_CST, __ATOMIC_RELAXED)) return false;
    while (before < after && !__atomic_compare_exchange_n(&used, &before, after, 0, __ATOMIC_SEQ_CST, __ATOMIC_SEQ_CST)) continue;
    return true;
}

/* Takes a place for this thread until it ends, if there is one. */
static void take_own_place(void)
{
    struct place *place = places;
    this_thread.is_known = true;
    if (!has_key || key >= KEYS_OF_THREAD || !membarrier(MEMBARRIER_CMD_REGISTER_PRIVATE_EXPEDITED)) return;
    while (place < places + OWN_PLACES && !take(place)) place++;
    if (place == places + OWN_PLACES) return;
    __atomic_fetch_add(&owned, 1, __ATOMIC_SEQ_CST);
    if (pthread_setspecific(key, place) == 0) this_thread.place = place;
    else leave_own_place(place);
}

struct place *enter_lent_place(const void *handle, uint64_t since)
{
    if (!this_thread.is_known) {
        take_own_place();
        if (this_thread.place) return enter_place(handle, since);
    }
    /* The one that was lent to this thread before is mostly free. */
    struct place *place = this_thread.lent ? this_thread.lent : places;
    for (int k = 0; !take(place); k++) {
        if (k == PLACES) return NULL;
        if (++place == places + PLACES) place = places;
    }
    this_thread.lent = place;
    __atomic_store_n(&place->since, since, __ATOMIC_RELAXED);
    __atomic_store_n(&place->reading, handle, __ATOMIC_SEQ_CST);
    return place;
}

void *marked(const void *contents)
{
    return (void *)((uintptr_t)contents | CHANGING | forks << 48);
}

enum yarib_status mark(void **word, void **found)
{
    *found = __atomic_load_n(word, __ATOMIC_RELAXED);
    enum yarib_status status = status_of(*found);
    if (status != YARIB_DONE) return status;
    bool is_done = __atomic_compare_exchange_n(word, found, marked(*found), 0, __ATOMIC_SEQ_CST, __ATOMIC_RELAXED);
    return is_done ? YARIB_DONE : YARIB_BUSY;
}

void unmark(void **word, void *contents)
{
    if (((uintptr_t)contents & ~CONTENTS) != 0) abort();
    __atomic_store_n(word, contents, __ATOMIC_RELEASE);
}

enum yarib_status see_readers(void)
{
    if (__atomic_load_n(&owned, __ATOMIC_SEQ_CST) == (this_thread.place != NULL)) return YARIB_DONE;
    /* After a fork the kernel has forgotten that this process registered for barriers, so it registers again. */
    bool is_done = membarrier(MEMBARRIER_CMD_PRIVATE_EXPEDITED)
        || (membarrier(MEMBARRIER_CMD_REGISTER_PRIVATE_EXPEDITED) && membarrier(MEMBARRIER_CMD_PRIVATE_EXPEDITED));
    return is_done ? YARIB_DONE : YARIB_NO_BARRIER;
}

enum readers find_readers(const void *handle, uint64_t published)
{
    enum readers found = NOBODY;
    for (int k = 0; k < __atomic_load_n(&used, __ATOMIC_SEQ_CST); k++) {
        const struct place *place = &places[k];
        if (__atomic_load_n(&place->reading, __ATOMIC_ACQUIRE) != handle) continue;
        if (__atomic_load_n(&place->since, __ATOMIC_ACQUIRE) >= published) continue;
        if (__atomic_load_n(&place->owner, __ATOMIC_RELAXED) == &this_thread) return THIS_THREAD;
        found = OTHER_THREADS;
    }
    return found;
}

/* Rests longer each time, and naps after some times. A yield would give away a whole time slice on a busy machine, and a nap by the
 * C library's call would be a point where the thread may be cancelled, and would leave its change for good. */
void rest(unsigned *times, uint64_t seen)
{
    if (*times < SPINS) {
        for (unsigned k = 0; k < 1u << *times; k++) __builtin_ia32_pause();
    } else {
        const struct timespec nap = {.tv_nsec = 50000L << (*times - SPINS) / NAPS};
        syscall(SYS_futex, &naps.awaited, FUTEX_WAIT_PRIVATE, (uint32_t)seen, &nap);
    }
    if (*times < SPINS + NAPS_THAT_GROW) ++*times;
}

void wake_changes(void)
{
    __atomic_store_n(&naps.awaited, 0, __ATOMIC_SEQ_CST);
    syscall(SYS_futex, &naps.awaited, FUTEX_WAKE_PRIVATE, INT_MAX);
}

enum yarib_status wait_for_readers(const void *handle, uint64_t published)
{
    enum readers readers;
    uint64_t seen = 0;
    unsigned times = 0;
    if (see_readers() != YARIB_DONE) return YARIB_NO_BARRIER;
    while ((readers = find_readers(handle, published)) == OTHER_THREADS) {
        rest(&times, seen);
        if (times < SPINS) continue;
        /* It looks once more before it naps, since a call that has ended can't wake it. */
        seen = __atomic_load_n(&naps.awaited, __ATOMIC_SEQ_CST);
        if (seen < published) __atomic_store_n(&naps.awaited, seen = published, __ATOMIC_SEQ_CST);
    }
    return readers == NOBODY ? YARIB_DONE : YARIB_BUSY;
}
