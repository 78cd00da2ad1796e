/* What the unproved layer of C shares: the proved calls that its files pass arguments on to, and the places of the calls that read. It
 * isn't installed, and the library exports none of it. */
#ifndef YARIB_LAYER_H
#define YARIB_LAYER_H

#include "yarib.h"

#include <stdbool.h>

#pragma GCC visibility push(hidden)

/* The library's heap. A refusal isn't `ok`. The first `kept` bytes of a block that is resized stay, which are at most `size`. */
struct tried {
    bool ok;
    void *block;
};
struct tried rattle_alloc(size_t size, size_t alignment);
struct tried rattle_realloc(void *block, size_t kept, size_t size, size_t alignment);
void rattle_dealloc(void *block);

/* Blocks that a thread frees together. */
enum { KEPT_BLOCKS = 64 };
struct frees {
    size_t size;
    void *blocks[KEPT_BLOCKS];
};

/* What a heap that replaces the library's may lack. From begin_frees to end_frees the heap keeps some of the blocks that this thread
 * frees. From begin_filling to end_filling it has the kernel find the memory of the large blocks that this thread allocates, so that
 * later writes don't wait for it. */
#pragma weak begin_frees
#pragma weak end_frees
#pragma weak begin_filling
#pragma weak end_filling
void begin_frees(struct frees *frees);
void end_frees(void);
void begin_filling(void);
void end_filling(void);

/* Attaches a forwarding table to a table, as proved_yarib_fib_attach does. */
enum yarib_status attach(yarib *table);

/* Frees what a handle holds, as proved_yarib_free does. */
enum yarib_status free_contents(yarib *table);

/* The calls that only pass their arguments on: the name, the parameters after the handle, and the arguments for them. The proved call of
 * the name takes the handle first. These are the reading calls that plain and concurrent tables have. */
#define READING_CALLS(CALL) \
    CALL(look_up, (const uint32_t *addresses, size_t size, yarib_route *answers, size_t room), (addresses, size, answers, room)) \
    CALL(look_up_one, (uint32_t address, yarib_route *answer), (address, answer)) \
    CALL(hops, (const uint32_t *addresses, size_t size, uint32_t no_route, uint32_t discard, uint32_t *hops, size_t room), \
        (addresses, size, no_route, discard, hops, room)) \
    CALL(look_up_all, (uint32_t address, size_t skip, yarib_route *routes, size_t room, size_t *total), \
        (address, skip, routes, room, total)) \
    CALL(routes, (size_t skip, yarib_route *routes, size_t room, size_t *total), (skip, routes, room, total)) \
    CALL(routes_from, (const yarib_route *from, yarib_route *routes, size_t room, size_t *used), (from, routes, room, used)) \
    CALL(select, (const yarib_selection *asked, size_t skip, yarib_route *routes, size_t room, size_t *total), \
        (asked, skip, routes, room, total)) \
    CALL(select_by_hop, (const yarib_selection *asked, uint32_t hop, uint32_t via, size_t skip, yarib_route *routes, size_t room, \
        size_t *total), (asked, hop, via, skip, routes, room, total)) \
    CALL(hop_counts, (size_t skip, yarib_hop_count *counts, size_t room, size_t *total), (skip, counts, room, total)) \
    CALL(purge_changes, (uint32_t feed, size_t skip, yarib_change *changes, size_t room, size_t *total), \
        (feed, skip, changes, room, total)) \
    CALL(count, (size_t *total), (total)) \
    CALL(fib_is_attached, (uint32_t *attached), (attached)) \
    CALL(view_sizes, (size_t *blocks, size_t *routers), (blocks, routers))

/* One more of these, whose proved call has the parts of the view as its parameters. */
#define VIEW_CALLS(CALL) \
    CALL(view_write, (yarib_view *view), (view->entries, view->entry_count, view->blocks, view->block_count, view->routers, \
        view->router_count, &view->router_count))

/* The reading calls that only plain tables have, and the changes of them. */
#define PLAIN_READING_CALLS(CALL) \
    CALL(journal, (size_t skip, yarib_entry *entries, size_t room, size_t *total), (skip, entries, room, total)) \
    CALL(memory, (size_t *bytes), (bytes))
#define CHANGES(CALL) \
    CALL(new, (uint32_t limit, uint32_t kind), (limit, kind)) \
    CALL(apply, (const yarib_command *command, yarib_reply *reply), (command, reply)) \
    CALL(apply_changed, (const yarib_command *command, yarib_reply *reply, yarib_change *change), (command, reply, change)) \
    CALL(apply_each, (const yarib_command *commands, size_t size, yarib_reply *replies, size_t room), (commands, size, replies, room)) \
    CALL(reserve, (size_t entries), (entries))

/* What is in the brackets. */
#define LIST(...) __VA_ARGS__

/* bindings/build renames the proved calls of these names, and hides them. A proved call must be the only one that uses its handle. */
#define DECLARE_PROVED(name, parameters, arguments) uint32_t proved_yarib_##name(yarib *table, LIST parameters);
READING_CALLS(DECLARE_PROVED)
PLAIN_READING_CALLS(DECLARE_PROVED)
CHANGES(DECLARE_PROVED)
void proved_yarib_free(yarib *table);
uint32_t proved_yarib_first_difference(yarib *old_table, yarib *new_table, uint32_t by, uint32_t from, yarib_difference *difference);
uint32_t proved_yarib_fib_new(yarib *table, yarib *forwarding);
uint32_t proved_yarib_fib_clone(yarib *forwarding, yarib *other);
uint32_t proved_yarib_fib_attach(yarib *table);
uint32_t proved_yarib_view_write(yarib *table, uint32_t *entries, size_t entry_count, uint32_t *blocks, size_t block_count,
    uint32_t *routers, size_t router_count, size_t *used);

/* Routes of a table. */
struct list {
    yarib_route *routes;
    size_t size;
};

/* Lists the routes of a feed, or with 0 of all feeds, as one of two handles has them; the other one is null. */
enum yarib_status list_routes(const yarib *table, const yarib_concurrent *concurrent, uint32_t feed, struct list *list);
void free_list(struct list *list);

/* Makes a table of these routes in an empty handle, with a forwarding table if that is to be. Returns YARIB_NOT_ADDED if a feed has more of
 * them than the limit. */
enum yarib_status make_table(uint32_t limit, const struct list *list, bool is_followed, yarib *made);

/* Replaces what a handle holds by a copy of the published table. */
enum yarib_status copy_published(const yarib_concurrent *table, uint32_t limit, yarib *copy);

/* Executes an add in a table, during a change of it. */
struct adder {
    enum yarib_status (*add)(void *table, const yarib_command *command, yarib_reply *reply);
    void *table;
};

/* Adds the routes of a feed file, as yarib_load does. `loaded` is zero before. */
enum yarib_status add_lines(FILE *file, uint32_t feed, const struct adder *adder, yarib_loaded *loaded);

/* A place, with a cache line of its own: the handle that a call of its owner reads, and the number of publications that the call saw
 * before it. The owner is a thread: the address of its own data. */
struct place {
    const void *reading;
    uint64_t since;
    const void *owner;
    char apart[64 - 2 * sizeof(void *) - sizeof(uint64_t)];
};

/* What is a thread's own: its place, if it has one; the place that was last lent to it; whether it has requested a place of its own. */
struct thread {
    struct place *place, *lent;
    bool is_known;
};

/* bindings/build puts what is a thread's own into the memory that it begins with. Other such memory is allocated when it is first used. */
extern __thread struct thread this_thread;

/* The mark of a handle's word that a change, or an end, has under way. Its upper 16 bits differ between a fork's child and its parent. */
#define CHANGING ((uintptr_t)1)
#define CONTENTS (((uintptr_t)1 << 48) - 1 - CHANGING)

/* A reading call's entry and exit have no calls and few stores of their own: the processor has the next look-up under way only as far as
 * there is room for both. */
#define SHORT static inline __attribute__((always_inline))

/* Enters a reading call with a place that is lent to it, or with one that its thread has from now on. */
struct place *enter_lent_place(const void *handle, uint64_t since);

/* Enters a reading call of a handle, and returns its place, or null if no place is free. `since` is 0 for a plain table. */
SHORT struct place *enter_place(const void *handle, uint64_t since)
{
    struct place *place = this_thread.place;
    if (!place || place->reading) return enter_lent_place(handle, since);
    if (since > 0) __atomic_store_n(&place->since, since, __ATOMIC_RELAXED);
    __atomic_store_n(&place->reading, handle, __ATOMIC_RELEASE);
    /* Keeps the compiler from reading the word first; the barrier of a change keeps the processor from it. */
    __atomic_signal_fence(__ATOMIC_SEQ_CST);
    return place;
}

SHORT void leave_place(struct place *place)
{
    __atomic_store_n(&place->reading, NULL, __ATOMIC_RELEASE);
    if (place != this_thread.place) __atomic_store_n(&place->owner, NULL, __ATOMIC_RELEASE);
}

/* A reading call: its copy of a table's handle, and its place. */
struct reading {
    yarib table;
    struct place *place;
};

/* The body of a reading call of `handle`, which `enter` enters and `leave` leaves: a call with `own.table`. */
#define READ(enter, leave, handle, call) \
    struct reading own; \
    enum yarib_status status = enter(handle, &own); \
    if (status != YARIB_DONE) return status; \
    status = call; \
    leave(own.place); \
    return status

/* Marks a handle's word for a change and writes what it was to `found`, or returns why not. The change ends with what it is then. */
enum yarib_status mark(void **word, void **found);
void unmark(void **word, void *contents);

/* How often this process and those before it were forked since the library was loaded: at most 16 bits. */
extern uintptr_t forks;

/* Says why a call can't use what it finds in a handle's word, or YARIB_DONE: YARIB_BUSY if a change has marked the word, or YARIB_FORKED if
 * the thread that did so isn't in this process. */
SHORT enum yarib_status status_of(const void *word)
{
    if (((uintptr_t)word & CHANGING) == 0) return YARIB_DONE;
    return (uintptr_t)word >> 48 == forks ? YARIB_BUSY : YARIB_FORKED;
}

/* Returns a word with these contents and the mark of a change. */
void *marked(const void *contents);

/* The body of a change of `handle`: a call with `own`, which enter_change has made a copy of the handle. The handle gets what is there
 * then. */
#define CHANGE(handle, call) \
    __typeof__(*(handle)) own; \
    enum yarib_status status = enter_change(handle, &own); \
    if (status != YARIB_DONE) return status; \
    status = call; \
    unmark(&(handle)->inside, own.inside); \
    return status

/* Has every reader that entered before seen in its place. Returns YARIB_NO_BARRIER if the kernel refuses it. */
enum yarib_status see_readers(void);

/* The publication that all calls under way came before. */
#define NEVER UINT64_MAX

/* Says whose calls are under way that read the handle and may have read its word before this publication: this thread's, or else those of
 * others, of which it knows only after see_readers. */
enum readers { NOBODY, OTHER_THREADS, THIS_THREAD };
enum readers find_readers(const void *handle, uint64_t published);

/* Waits until no such call is left. Returns YARIB_BUSY if one is this thread's, and YARIB_NO_BARRIER if it can't know of all. */
enum yarib_status wait_for_readers(const void *handle, uint64_t published);

/* The publication whose change naps until the reading calls end that saw an older number, or 0. The first of these calls that ends makes it
 * 0 and wakes the changes. If it misses that, the nap ends by itself. */
struct naps {
    uint64_t awaited;
    char apart[64 - sizeof(uint64_t)];
};
extern struct naps naps;
void wake_changes(void);

/* Rests before the next attempt. `times` is 0 at first. It doesn't nap, or is woken, if `awaited` isn't what was seen there. */
void rest(unsigned *times, uint64_t seen);

#pragma GCC visibility pop

#endif
