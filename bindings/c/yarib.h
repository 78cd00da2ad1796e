/* yarib: IPv4 routing tables whose answers are proved.
 *
 * The library is for Linux on x86-64-v2 (SSE4.2 and POPCNT), with glibc 2.32 or later; there is none for musl. On an older
 * processor it ends the program with a message and status 127 when it is loaded.
 *
 *     #include <yarib.h>
 *
 *     yarib table = YARIB_INIT;
 *     if (yarib_new(&table, 1000000, YARIB_PLAIN) != YARIB_DONE) return 1;
 *     yarib_command add = {.operation = YARIB_ADD, .feed = 1, .base = 0x0a000000, .len = 8, .pref = 10,
 *                          .hop = YARIB_VIA, .via = 0xc0000201};
 *     yarib_reply reply;
 *     if (yarib_apply(&table, &add, &reply) != YARIB_DONE) return 1;                // reply.code is YARIB_ADDED
 *     yarib_route answer;
 *     if (yarib_look_up_one(&table, 0x0a010203, &answer) != YARIB_DONE) return 1;   // answer is that route
 *     yarib_free(&table);
 *
 * Numbers. An address is a uint32_t in host byte order; 10.0.0.0 is 0x0a000000. Feeds are 1 to YARIB_MAX_FEED. The
 * lowest preference number is preferred; between equal preferences, the lowest feed. Sizes count elements, not bytes.
 *
 * Statuses. Every call returns an enum yarib_status, except yarib_version, yarib_build and yarib_status_text, which return strings, and
 * yarib_view_look_up and yarib_source_feed, which return numbers. YARIB_DONE is 0. If a call returns another status, the handles are
 * unchanged and nothing was written, except by yarib_save, yarib_load, the same calls of a concurrent table, and
 * yarib_concurrent_fib_attach. If several statuses apply, the call returns the first of them in this order: YARIB_FORKED,
 * YARIB_NO_BARRIER and YARIB_BUSY (any call with a handle), then the call's Errors as they are listed, from left to right.
 *
 * Ownership. Initialize a handle with YARIB_INIT, fill it with yarib_new, yarib_fib_new or yarib_fib_clone, and release it with yarib_free;
 * a second yarib_free is harmless. Never copy a handle: both copies would own its contents. Passing a pointer to it is
 * fine. No call keeps a pointer to your arrays, strings or structs.
 *
 * Threads. A call that takes a handle as const yarib * reads it; any number of these may use a handle at the same time. Any other
 * call changes it, and needs the handle for itself. If a change begins while any other call uses the handle, the change returns
 * YARIB_BUSY and does nothing. If any call begins while a change uses the handle, that call returns YARIB_BUSY and does nothing. The
 * call that was there first isn't affected; if two begin at the same time, both may return YARIB_BUSY. Nothing waits, and no call can
 * damage what a handle holds. So call again later; or protect the handle with a read-write lock of your own, and no call is ever
 * busy. While 1,024 reading calls in threads after the 256th are under way, the next one in such a thread is busy too.
 * Only a concurrent table (yarib_concurrent_new) is different: its readers are never busy and never wait, and a change of it may wait
 * for readers. It takes twice the memory.
 *
 * Daemons. In the child of a fork, every handle works that no other thread was changing. One that was being changed returns
 * YARIB_FORKED, except from the reading calls of a concurrent table. Changes need the kernel's call membarrier, if other threads have read
 * before: a sandbox that forbids it later makes every change YARIB_NO_BARRIER. No call is a point where its thread is cancelled.
 * docs/DAEMON.md of the repository says more.
 *
 * Costs. n is the number of routes, k that of the elements which the call is given, writes or removes. Each route that is looked up, added,
 * changed or withdrawn takes at most 33 steps down a tree. F is the work for the entries of an attached forwarding table that a prefix
 * covers: 2 to the power of 24 less the prefix's length, at least 1, and rarely all of them. The last column says whether a signal
 * handler may make the call, also during any other call of its thread.
 *
 *     Call                                           Cost           Allocates    Waits             In a handler
 *     yarib_new                                      1, n to free   yes          no                no
 *     yarib_free                                     n              no           no                no
 *     yarib_apply, yarib_apply_each                  k (1 + F)      for adds     no                no
 *     yarib_apply_changed                            1 + F          for adds     no                no
 *     yarib_reserve                                  n              yes          no                no
 *     yarib_load                                     k (1 + F)      yes          for the file      no
 *     yarib_save                                     n              yes          for the file      no
 *     yarib_look_up, yarib_hops                      k              no           no                yes
 *     yarib_look_up_one, yarib_look_up_text          1              no           no                yes
 *     yarib_look_up_all                              k              yes          no                no
 *     yarib_select, yarib_select_by_hop              n in the part  yes          no                no
 *     yarib_hop_counts                               n log(k)       yes          no                no
 *     yarib_routes                                   n              yes          no                no
 *     yarib_routes_from, yarib_journal               k              no           no                yes
 *     yarib_purge_changes                            n              no           no                yes
 *     yarib_count, yarib_memory                      1              no           no                yes
 *     yarib_fib_is_attached, yarib_view_sizes        1              no           no                yes
 *     yarib_first_difference                         n              no           no                yes
 *     yarib_fib_new, yarib_fib_attach                n + 2^24       yes          no                no
 *     yarib_fib_clone                                1              yes          no                no
 *     yarib_view_write                               n + 2^24       yes          no                no
 *     yarib_view_look_up, yarib_view_look_up_each    k              no           no                yes
 *     yarib_prefix_parse and the other texts         1              no           no                yes
 *     yarib_concurrent_copy                          n              yes          no                no
 *     yarib_concurrent_replace                       n (+ 2^24)     yes          for readers       no
 *
 * Each other call of a concurrent table costs what the same call of a table does, and may be made in a handler if that may. A change takes
 * twice as long, and waits for readers; so do yarib_concurrent_new and yarib_concurrent_free.
 *
 * Pointers must not be null, even for arrays without elements. No memory that a call writes may overlap other memory that is
 * passed to it. If a call takes two handles, they must be different. Define YARIB_CHECK before you include this header,
 * and each call first tests by assert what can be tested of these rules (yarib_check.h).
 *
 * docs/LIBRARY-C.md of the repository says what each call promises, and what of that is proved of the library's code and
 * what is tested. Your obligations are the rules in this comment; the proofs assume that you keep them.
 */
#ifndef YARIB_H
#define YARIB_H

#include <stddef.h>
#include <stdint.h>
#include <stdio.h>

#ifdef __cplusplus
extern "C" {
#endif

#define YARIB_VERSION_MAJOR 0
#define YARIB_VERSION_MINOR 3
#define YARIB_VERSION "0.3.0"

/* A handle to a table or to a forwarding table. C code must not read or write its contents. In this header the word table means a
 * routing table, with or without a journal. A parameter named `table` may also be a handle to a forwarding table, if the Errors of
 * the call don't list YARIB_WRONG_KIND. */
typedef struct yarib {
    void *inside;
} yarib;

/* The initializer of an empty handle, also of a static one, in C and C++. */
#define YARIB_INIT {NULL}

/* An empty handle, for assignment. Don't assign it to a handle that holds something, since its contents would leak: call yarib_free. */
#ifdef __cplusplus
#define YARIB_EMPTY (yarib())
#else
#define YARIB_EMPTY ((yarib){NULL})
#endif

/* The limits. */
#define YARIB_MAX_FEED 64
#define YARIB_MAX_LIMIT 1000000
#define YARIB_MAX_PREFIX_LENGTH 32
#define YARIB_MAX_PREFIX_TEXT 18
#define YARIB_MAX_ADDRESS_TEXT 15

/* The result of a call. */
enum yarib_status {
    YARIB_DONE = 0,
    YARIB_NOTHING = 1,      /* the handle is empty */
    YARIB_BAD_NUMBER = 2,   /* a limit, a feed or a choice is out of range */
    YARIB_BAD_COMMAND = 3,  /* the command is invalid: its operation, next hop or prefix */
    YARIB_NO_MEMORY = 4,    /* out of memory */
    YARIB_BAD_SIZE = 5,     /* two arrays differ in size, or the buffer is too small */
    YARIB_NONE_LEFT = 6,    /* the tables' answers are the same from this address on */
    YARIB_BAD_TEXT = 7,     /* the form of the text is invalid */
    YARIB_BAD_LENGTH = 8,   /* a prefix length is over 32 */
    YARIB_BAD_BITS = 9,     /* a bit of the address past the length is set */
    YARIB_WRONG_KIND = 10,  /* the handle holds something that doesn't support this call */
    YARIB_BUSY = 11,        /* another call uses the handle */
    YARIB_BAD_FILE = 12,    /* the file can't be read or written */
    YARIB_NOT_ADDED = 13,   /* a route isn't added: its feed has one to this prefix, or is at its limit */
    YARIB_NO_BARRIER = 14,  /* the kernel refuses the call membarrier, which it allowed before */
    YARIB_FORKED = 15       /* a thread of the parent process was changing the handle when this process was forked */
};

/* The compiler warns of a call whose status isn't used. */
#ifdef __GNUC__
#define YARIB_STATUS __attribute__((warn_unused_result)) enum yarib_status
#else
#define YARIB_STATUS enum yarib_status
#endif

/* Returns the version of the library, such as "0.3.0"; YARIB_VERSION is the version of this header. */
const char *yarib_version(void);

/* Returns what the library was made of: the sum of the proved sources, the logic that proves them, and the sum of the C files, as
 * "sources 40ab17443b4bf59b2521fb7733e013a7 logic dac8208d650f15bf layer 0123456789ab". */
const char *yarib_build(void);

/* Returns the name of a status, such as "no memory", or "unknown status". */
const char *yarib_status_text(enum yarib_status status);

/* The kind of table that yarib_new creates. A table has fewer than two nodes for each route, however long it is used; what else a
 * table without a journal allocates is only tested (yarib_memory). A journal keeps every answered command with its reply, 56 bytes
 * each, until the table is freed: choose it to explain each answer later. */
enum yarib_kind { YARIB_PLAIN = 0, YARIB_JOURNALED = 1 };

enum yarib_operation {
    YARIB_ADD = 1,  /* insert a route, unless the feed has one to this prefix or is at its limit */
    YARIB_REPLACE,  /* change preference and next hop of the feed's route to this prefix */
    YARIB_WITHDRAW, /* remove the feed's route to this prefix */
    YARIB_LOOKUP,   /* find the best route of the longest prefix that covers the address `base` */
    YARIB_DUMP,     /* count the routes of all feeds */
    YARIB_PURGE     /* remove all routes of the feed */
};

enum yarib_hop {
    YARIB_NO_ROUTE = 0, /* no prefix covers the address */
    YARIB_VIA = 1,      /* packets go to the router with the address `via` */
    YARIB_DISCARD = 2   /* packets are discarded */
};

enum yarib_code {
    YARIB_UNANSWERED = 0, /* only from yarib_apply_each: no reply; `count` holds the status */
    YARIB_ADDED = 1,
    YARIB_EXISTS,     /* the feed has a route to this prefix; nothing changed */
    YARIB_FULL,       /* the feed is at its limit; nothing changed */
    YARIB_REPLACED,
    YARIB_WITHDRAWN,
    YARIB_MISSING,    /* the feed has no route to this prefix; nothing changed */
    YARIB_FOUND,      /* `route` is the best route */
    YARIB_NOT_FOUND,  /* no prefix covers the address */
    YARIB_DUMPED,     /* the table has `count` routes */
    YARIB_PURGED      /* `count` routes were removed */
};

/* A route. If hop is YARIB_NO_ROUTE, it holds no route, and all other fields are 0. */
typedef struct yarib_route {
    uint32_t base;
    uint32_t pref;
    uint32_t via;
    uint32_t feed;
    uint8_t len;
    uint8_t hop;
} yarib_route;

/* A command of a feed. Fields that its operation doesn't use are not read. */
typedef struct yarib_command {
    uint32_t operation;
    uint32_t feed;
    uint32_t base;
    uint32_t pref;
    uint32_t via;
    uint8_t len;
    uint8_t hop;
} yarib_command;

typedef struct yarib_reply {
    uint32_t code;
    uint32_t count;
    yarib_route route;
} yarib_reply;

/* An entry of the journal: a command and its reply. Fields that the command doesn't use are 0. */
typedef struct yarib_entry {
    yarib_command command;
    yarib_reply reply;
} yarib_entry;

/* The prefixes that a selection covers. */
enum yarib_part {
    YARIB_ALL = 0,      /* all prefixes; `base` and `len` are not read */
    YARIB_WITHIN = 1,   /* the prefix of `base` and `len`, and longer prefixes inside it */
    YARIB_COVERING = 2, /* this prefix, and shorter prefixes that contain it */
    YARIB_EXACT = 3     /* only this prefix */
};

/* A selection of routes. `part` is an enum yarib_part. `feed` is a feed, or 0 for all feeds. If `only_best` is 1, only the
 * best route of each prefix is selected; with a feed, only those best routes that belong to the feed. */
typedef struct yarib_selection {
    uint32_t part;
    uint32_t feed;
    uint32_t base;
    uint8_t len;
    uint8_t only_best;
} yarib_selection;

typedef struct yarib_prefix {
    uint32_t base;
    uint8_t len;
} yarib_prefix;

/* A range of addresses, from first to last. The old table answers `before` for each of them, the new table `after`. */
typedef struct yarib_difference {
    uint32_t first;
    uint32_t last;
    yarib_route before;
    yarib_route after;
} yarib_difference;

/* A prefix whose best route has changed. A route that wasn't there before, or isn't there after, has the hop YARIB_NO_ROUTE. So a program
 * that installs best routes removes the prefix if `after` has this hop, and installs or replaces its next hop if not. If both have
 * it, no best route has changed, and all fields are 0. */
typedef struct yarib_change {
    yarib_route before;
    yarib_route after;
    uint32_t base;
    uint8_t len;
} yarib_change;

/* The number of best routes that use a next hop. `hop` is YARIB_VIA for the router with the address `via`, or YARIB_DISCARD for routes that
 * discard packets; then `via` is 0. */
typedef struct yarib_hop_count {
    uint32_t hop;
    uint32_t via;
    uint32_t routes;
} yarib_hop_count;

/* Creates an empty table that allows each feed up to `limit` routes. `limit` is 1 to YARIB_MAX_LIMIT, `kind` an enum yarib_kind.
 * If it succeeds, the handle's previous contents are freed.
 * Errors: YARIB_BAD_NUMBER, YARIB_NO_MEMORY. */
YARIB_STATUS yarib_new(yarib *table, uint32_t limit, uint32_t kind);

/* Frees the contents of the handle, which is empty then. A handle that is empty already, even one that was never filled, stays empty.
 * Returns YARIB_DONE, YARIB_BUSY, YARIB_NO_BARRIER or YARIB_FORKED. */
enum yarib_status yarib_free(yarib *table);

/* Executes a command, writes its reply, and appends both to the journal if there is one. For a table without a journal, only an
 * add that inserts a route can run out of memory.
 * Errors: YARIB_NOTHING, YARIB_BAD_NUMBER (the feed), YARIB_BAD_COMMAND, YARIB_WRONG_KIND, YARIB_NO_MEMORY. */
YARIB_STATUS yarib_apply(yarib *table, const yarib_command *command, yarib_reply *reply);

/* Executes an add, a replace or a withdraw as yarib_apply does, and writes what it has changed: the best routes to its prefix before and
 * after, if they differ. The best routes to all other prefixes are the same. It takes little more time than yarib_apply.
 * Errors: YARIB_NOTHING, YARIB_BAD_NUMBER (the feed), YARIB_BAD_COMMAND (also for any other command), YARIB_WRONG_KIND, YARIB_NO_MEMORY. */
YARIB_STATUS yarib_apply_changed(yarib *table, const yarib_command *command, yarib_reply *reply, yarib_change *change);

/* Executes the commands in order and writes each reply at the command's index. If a command fails, its reply has the code
 * YARIB_UNANSWERED and, as `count`, the status that yarib_apply would have returned; the remaining commands are executed. On a
 * forwarding table every command fails in this way, and the call returns YARIB_DONE.
 * Errors: YARIB_BAD_SIZE (the sizes differ), YARIB_NOTHING. */
YARIB_STATUS yarib_apply_each(yarib *table, const yarib_command *commands, size_t size, yarib_reply *replies, size_t room);

/* Reserves capacity for this many further journal entries, so that appending them doesn't allocate. For a table without a journal,
 * and for a forwarding table, does nothing and returns YARIB_DONE.
 * Errors: YARIB_NOTHING, YARIB_NO_MEMORY. */
YARIB_STATUS yarib_reserve(yarib *table, size_t entries);

/* Writes for each address the best route of the longest prefix that covers it. For a table, 32 or more addresses in one call
 * take less time than one call each.
 * Errors: YARIB_BAD_SIZE (the sizes differ), YARIB_NOTHING. */
YARIB_STATUS yarib_look_up(const yarib *table, const uint32_t *addresses, size_t size, yarib_route *answers, size_t room);

/* Writes the best route of the longest prefix that covers the address. Faster than an array of one.
 * Errors: YARIB_NOTHING. */
YARIB_STATUS yarib_look_up_one(const yarib *table, uint32_t address, yarib_route *answer);

/* Parses an address as yarib_address_parse does, and does for it what yarib_look_up_one does.
 * Errors: YARIB_BAD_TEXT, YARIB_NOTHING. */
YARIB_STATUS yarib_look_up_text(const yarib *table, const char *text, size_t size, yarib_route *answer);

/* Writes for each address the router of its best route: `via`, or `discard` if packets are discarded, or `no_route` if no prefix covers
 * the address. Choose two numbers that no route has as `via`. For a forwarding table this is the fastest look-up of many.
 * Errors: YARIB_BAD_SIZE (the sizes differ), YARIB_NOTHING. */
YARIB_STATUS yarib_hops(const yarib *table, const uint32_t *addresses, size_t size, uint32_t no_route, uint32_t discard,
    uint32_t *hops, size_t room);

/* Writes the routes whose prefix covers the address, the best first: those from the index `skip` on, up to `room` of them.
 * Writes their number, skipped ones included, to `total`.
 * Errors: YARIB_NOTHING, YARIB_WRONG_KIND, YARIB_NO_MEMORY. */
YARIB_STATUS yarib_look_up_all(const yarib *table, uint32_t address, size_t skip, yarib_route *routes, size_t room,
    size_t *total);

/* Writes the routes sorted by base, length, preference and feed: those from the index `skip` on, up to `room` of them. Writes the
 * number of all routes to `total`. Allocates memory for all routes.
 * Errors: YARIB_NOTHING, YARIB_WRONG_KIND, YARIB_NO_MEMORY. */
YARIB_STATUS yarib_routes(const yarib *table, size_t skip, yarib_route *routes, size_t room, size_t *total);

/* Writes the routes at and after the position `from`, in the same order, up to `room` of them, and their number to `used`. `base`, `len`,
 * `pref` and `feed` of `from` are the position; a route there need not exist. If `pref` and `feed` are 0, the position is before all
 * routes to the prefix; if all fields are 0, it is before all routes. To get the next page, pass a copy of the last route of this page
 * with `feed` increased by 1, even if the table has changed. If `used` is less than `room`, no routes follow. Doesn't allocate, and
 * visits only what it writes.
 * Errors: YARIB_NOTHING, YARIB_BAD_LENGTH, YARIB_BAD_BITS, YARIB_WRONG_KIND. */
YARIB_STATUS yarib_routes_from(const yarib *table, const yarib_route *from, yarib_route *routes, size_t room, size_t *used);

/* Writes the selected routes in the same order: those from the index `skip` on, up to `room` of them. Writes the number of all
 * selected routes to `total`. Visits only their part of the table, and allocates memory for them.
 * Errors: YARIB_NOTHING, YARIB_BAD_NUMBER (part, feed or only_best), YARIB_BAD_LENGTH, YARIB_BAD_BITS, YARIB_WRONG_KIND,
 * YARIB_NO_MEMORY. */
YARIB_STATUS yarib_select(const yarib *table, const yarib_selection *asked, size_t skip, yarib_route *routes, size_t room,
    size_t *total);

/* Writes those of the selected routes that have a next hop, as yarib_select writes them. `hop` is YARIB_VIA for the routes via the router
 * with the address `via`, YARIB_DISCARD for those that discard packets, or 0 for all next hops; `via` is only read with YARIB_VIA. With
 * `only_best` these are the best routes that use the next hop: before a router goes down, the prefixes that will need another one. `total`
 * is their number, also if `room` is 0.
 * Errors: those of yarib_select, with YARIB_BAD_NUMBER for the hop too. */
YARIB_STATUS yarib_select_by_hop(const yarib *table, const yarib_selection *asked, uint32_t hop, uint32_t via, size_t skip,
    yarib_route *routes, size_t room, size_t *total);

/* Writes how many best routes use each next hop: first YARIB_DISCARD, if a best route discards packets, and then the routers by their
 * addresses. Writes the counts from the index `skip` on, up to `room` of them, and the number of these next hops, skipped ones included, to
 * `total`; it is at most the number of routes. A next hop that no best route uses has no count. All counts add up to the number of
 * prefixes. Visits each prefix once, and allocates memory for each next hop, not for each route.
 * Errors: YARIB_NOTHING, YARIB_WRONG_KIND, YARIB_NO_MEMORY. */
YARIB_STATUS yarib_hop_counts(const yarib *table, size_t skip, yarib_hop_count *counts, size_t room, size_t *total);

/* Writes which best routes a purge of the feed would change, sorted by base and length: the changes from the index `skip` on, up to
 * `room` of them. Writes their number, skipped ones included, to `total`; it is at most the number of the feed's routes. Call this before
 * the purge. Doesn't allocate, but visits each prefix.
 * Errors: YARIB_NOTHING, YARIB_BAD_NUMBER (the feed), YARIB_WRONG_KIND. */
YARIB_STATUS yarib_purge_changes(const yarib *table, uint32_t feed, size_t skip, yarib_change *changes, size_t room, size_t *total);

/* Writes the number of routes to `total`.
 * Errors: YARIB_NOTHING, YARIB_WRONG_KIND. */
YARIB_STATUS yarib_count(const yarib *table, size_t *total);

/* Writes the entries of the journal from the index `skip` on, up to `room` of them, and the number of all entries to `total`.
 * Errors: YARIB_NOTHING, YARIB_WRONG_KIND (the handle doesn't hold a table with a journal). */
YARIB_STATUS yarib_journal(const yarib *table, size_t skip, yarib_entry *entries, size_t room, size_t *total);

/* Finds the first range at or after the address `from` where the two tables' answers differ; a range that contains `from` is
 * reported from `from` on. Compares next hops if `by` is 0, whole routes if it is 1. When comparing next hops, only `hop` and `via`
 * of the answers are set; all else is 0. To continue, pass `last` + 1, unless `last` is 255.255.255.255. The handles must be
 * different.
 * Errors: YARIB_NOTHING (either handle), YARIB_BAD_NUMBER (by), YARIB_WRONG_KIND (either handle), YARIB_NONE_LEFT (no further
 * range). */
YARIB_STATUS yarib_first_difference(const yarib *old_table, const yarib *new_table, uint32_t by, uint32_t from,
    yarib_difference *difference);

/* Builds a forwarding table from the table's current answers. It takes 64 MiB or more, and a look-up takes two or three reads. Later
 * changes of the table don't change it. Its handle is for yarib_look_up, yarib_look_up_one, yarib_hops, yarib_fib_clone, yarib_view_sizes,
 * yarib_view_write, yarib_memory and yarib_free; yarib_apply_each and yarib_reserve do nothing to it. If yarib_fib_new succeeds, the previous contents of
 * `forwarding` are freed.
 * Errors: YARIB_NOTHING, YARIB_WRONG_KIND (the first handle doesn't hold a table), YARIB_NO_MEMORY. */
YARIB_STATUS yarib_fib_new(const yarib *table, yarib *forwarding);

/* Makes `other` a second handle to the same forwarding table, so that two owners can each free their own; for look-ups on several
 * threads one handle is enough. The forwarding table is freed with its last handle. If it succeeds, the previous contents of `other`
 * are freed. The handles must be different.
 * Errors: YARIB_NOTHING, YARIB_WRONG_KIND (the first handle doesn't hold a forwarding table), YARIB_NO_MEMORY. */
YARIB_STATUS yarib_fib_clone(const yarib *forwarding, yarib *other);

/* Builds a forwarding table and attaches it to `table`, a table without a journal; does nothing if one is attached. From then on
 * every command updates it, and look-ups use it. A command takes a little more time: a change of a prefix of length 8 about
 * a millisecond, of a shorter one longer. A purge takes as long as withdrawing each route, or as a rebuild of the forwarding table
 * if that is faster. Another change rebuilds it too, rarely, if the table has become much smaller. If a command finds no memory for
 * the update, the command is still answered, the forwarding table is freed (no status says so, but
 * yarib_fib_is_attached does), and look-ups use the table until this is called again.
 * Errors: YARIB_NOTHING, YARIB_WRONG_KIND (the handle doesn't hold a table without a journal), YARIB_NO_MEMORY. */
YARIB_STATUS yarib_fib_attach(yarib *table);

/* Writes 1 to `attached` if a forwarding table is attached to `table`, else 0: also for a forwarding table. It becomes 0 only if a
 * command that inserts, changes or removes routes finds no memory for the update.
 * Errors: YARIB_NOTHING. */
YARIB_STATUS yarib_fib_is_attached(const yarib *table, uint32_t *attached);

/* A view: the next hops of a forwarding table as numbers, in three arrays of yours. A look-up in a view is the fastest: it reads one
 * number or two, and takes no handle, so it is never busy. A view is a snapshot: later changes of the table don't change it, and it
 * stays valid after yarib_free, until you free or change its arrays. Look-ups only read it, in any number of threads at once.
 *
 *     size_t blocks, routers;
 *     if (yarib_view_sizes(&forwarding, &blocks, &routers) != YARIB_DONE) return 1;
 *     yarib_view view = {malloc(4 * YARIB_VIEW_ENTRIES), YARIB_VIEW_ENTRIES, malloc(4 * blocks), blocks, malloc(4 * routers), routers};
 *     if (yarib_view_write(&forwarding, &view) != YARIB_DONE) return 1;             // after a test of the three pointers
 *     uint32_t number = yarib_view_look_up(&view, 0x0a010203);
 *     if (number >= YARIB_FIRST_ROUTER) printf("via %x\n", view.routers[number]);
 */
typedef struct yarib_view {
    uint32_t *entries;
    size_t entry_count;
    uint32_t *blocks;
    size_t block_count;
    uint32_t *routers; /* the address of each router; those before YARIB_FIRST_ROUTER mean nothing */
    size_t router_count;
} yarib_view;

/* The number of entries, and the numbers that look-ups return. */
#define YARIB_VIEW_ENTRIES ((size_t)1 << 24)
#define YARIB_NUMBER_NO_ROUTE 0 /* no prefix covers the address */
#define YARIB_NUMBER_DISCARD 1  /* packets are discarded */
#define YARIB_FIRST_ROUTER 2    /* this number or a higher one is the router's index in `routers` */

/* Writes the sizes of the arrays `blocks` and `routers`, at least 1 and 2. A later change of the table may change them.
 * Errors: YARIB_NOTHING, YARIB_WRONG_KIND (the handle holds neither a forwarding table nor a table with an attached one). */
YARIB_STATUS yarib_view_sizes(const yarib *table, size_t *blocks, size_t *routers);

/* Writes a view of the current answers into the arrays of `view`, and the number of routers to its `router_count`, at most its value
 * before: before you write the same view again, set it to the size of the array. Mostly each router has one number; if there are
 * thousands of routers, some have several. Allocates 4 bytes for each answer and router, and frees them.
 * Errors: YARIB_NOTHING, YARIB_WRONG_KIND (as in yarib_view_sizes), YARIB_NO_MEMORY, YARIB_BAD_SIZE (there aren't
 * YARIB_VIEW_ENTRIES entries, or an array is too small). */
YARIB_STATUS yarib_view_write(const yarib *table, yarib_view *view);

/* Returns the number of the next hop for the address. Allocates nothing. */
uint32_t yarib_view_look_up(const yarib_view *view, uint32_t address);

/* Writes the number of the next hop for each address. The two arrays have the same size.
 * Errors: YARIB_BAD_SIZE. */
YARIB_STATUS yarib_view_look_up_each(const yarib_view *view, const uint32_t *addresses, size_t size, uint32_t *numbers, size_t room);

/* Writes a size in bytes. For a forwarding table it is the memory of the forwarding table; each of its handles reports the whole
 * size. For a table it is an estimate: 52 for each prefix, 10 for each node (at most two a prefix), 24 for each prefix with several
 * routes and 16 for each route that its list has room for, 56 for each journal entry, 524,288 from 16,384 prefixes on until there are
 * fewer than 4,096, and the size of an attached forwarding table.
 *
 * For a table without a journal, the estimate and what the library's heap gives differ by at most a factor of 1.3, and by 16 KiB, for
 * any number of feeds, also after routes were withdrawn or purged. There are two exceptions, in which the heap gives up to twice the
 * estimate. If mostly prefixes that contain others were withdrawn, or mostly prefixes inside others, then nodes stay larger than they
 * have to be. If there is a journal and yarib_reserve was never called, the journal has room for more entries than it has. Reserved
 * capacity isn't counted. Slabs that are partly empty after many routes were removed come on top.
 * Errors: YARIB_NOTHING. */
YARIB_STATUS yarib_memory(const yarib *table, size_t *bytes);

/* Writes the feed's routes to the file as a feed file of version 2, which yarib_load and the program read, and flushes the file. Other
 * calls may use the table while the routes are written: they are copied first, with about 60 bytes of memory for each, which are freed.
 * Errors: YARIB_NOTHING, YARIB_BAD_NUMBER (the feed), YARIB_WRONG_KIND, YARIB_NO_MEMORY, YARIB_BAD_FILE (a part of the routes may be
 * written; errno says why). */
YARIB_STATUS yarib_save(const yarib *table, uint32_t feed, FILE *file);

/* The result of yarib_load. It is written by every call, also by one that fails: then with zeros, unless a line was read. */
typedef struct yarib_loaded {
    size_t routes; /* the number of routes that were added */
    size_t line;   /* the number of the last line that was read, from 1: if a line's route can't be added, the number of this line */
    uint32_t code; /* YARIB_EXISTS or YARIB_FULL if the call returns YARIB_NOT_ADDED, else of no meaning */
} yarib_loaded;

/* Adds the routes of a feed file to the feed, from the current position of the file to its end, and writes what it did to `loaded`. Each
 * line that isn't empty or a comment must be an add. It stops at the first line that can't be added, after which it doesn't read on;
 * the routes of the lines before it stay. The whole call is one change: meanwhile other calls on the handle are busy, however long the
 * file takes. Its thread isn't cancelled meanwhile. Memory is allocated only for routes, and by the C library for the file.
 * Errors, without a result: YARIB_NOTHING, YARIB_BAD_NUMBER (the feed), YARIB_WRONG_KIND.
 * Errors, with a result: YARIB_BAD_FILE (the file can't be read, or its error indicator was set before), YARIB_BAD_TEXT (the line isn't an
 * add), YARIB_BAD_LENGTH, YARIB_BAD_BITS, YARIB_NO_MEMORY, YARIB_NOT_ADDED. */
YARIB_STATUS yarib_load(yarib *table, uint32_t feed, FILE *file, yarib_loaded *loaded);

/* A concurrent table: one thread changes it while any number of threads read it. It has no journal.
 *
 * A reading call never waits, never returns YARIB_BUSY, and gets one published table. Whatever runs meanwhile, all answers and
 * routes that the call writes come from the table before a change or after it. yarib_concurrent_apply publishes the table after
 * its command, yarib_concurrent_apply_each the table after all its commands at once. A change is published when the call
 * returns: reading calls that begin later see it.
 *
 * Only one change runs at a time: during another change, or during yarib_concurrent_new or yarib_concurrent_free, it returns
 * YARIB_BUSY. A change waits for each reading call that began before the previous publication and still runs. While 1,024 reading
 * calls in threads after the 256th are under way, the next one in such a thread waits for one of them.
 *
 * It takes twice the memory of a table, since it holds two: readers use one while a change is made in the other. It also holds the
 * commands of the last change, 24 bytes each. If a change returns YARIB_NO_MEMORY, it is not made, and readers have the
 * published table. This may happen to every change, also to a withdrawal, as long as no memory is found for the previous one
 * in the second table.
 *
 * Initialize a handle with YARIB_CONCURRENT_INIT and never copy it. It must exist as long as a call may use it. In the child of a fork,
 * after a change of another thread was under way, its reading calls go on with the published table, and its changes return YARIB_FORKED. */
typedef struct yarib_concurrent {
    void *inside;
} yarib_concurrent;

/* As YARIB_INIT and YARIB_EMPTY. */
#define YARIB_CONCURRENT_INIT {NULL}
#ifdef __cplusplus
#define YARIB_CONCURRENT_EMPTY (yarib_concurrent())
#else
#define YARIB_CONCURRENT_EMPTY ((yarib_concurrent){NULL})
#endif

/* Creates an empty table that allows each feed up to `limit` routes. If it succeeds, the handle's previous contents are freed after the last
 * reading call that uses them: it waits for those calls, except for one of its own thread, which the next change waits for.
 * Errors: YARIB_BAD_NUMBER, YARIB_NO_MEMORY. */
YARIB_STATUS yarib_concurrent_new(yarib_concurrent *table, uint32_t limit);

/* Frees the contents of the handle, which is empty then: reading calls that begin later return YARIB_NOTHING. Any thread may call it at
 * any time. It waits for the reading calls that run. Returns YARIB_DONE; YARIB_BUSY during a change, or a reading call of its own
 * thread; YARIB_NO_BARRIER; or YARIB_FORKED. */
enum yarib_status yarib_concurrent_free(yarib_concurrent *table);

/* Publishes a table in one step that allows each feed up to `limit` routes and has the routes of `other`: load a table aside, and let
 * it replace the one that readers have. Each reading call gets the table before or the new one. `other` is a table of any kind; it is
 * only read, and its routes are copied. If readers had a forwarding table, they have one again. The previous contents are freed as by
 * yarib_concurrent_new, and the whole call is one change. Of an empty handle it makes a concurrent table.
 * Errors: YARIB_NOTHING (`other`), YARIB_WRONG_KIND (`other`), YARIB_NO_MEMORY (to list its routes), YARIB_BAD_NUMBER, YARIB_NO_MEMORY,
 * YARIB_NOT_ADDED (a feed has more routes than `limit`). */
YARIB_STATUS yarib_concurrent_replace(yarib_concurrent *table, uint32_t limit, const yarib *other);

/* Executes a command, writes its reply, and publishes the table.
 * Errors: YARIB_NOTHING, YARIB_NO_MEMORY (for the previous change), YARIB_BAD_NUMBER (the feed), YARIB_BAD_COMMAND, YARIB_NO_MEMORY. */
YARIB_STATUS yarib_concurrent_apply(yarib_concurrent *table, const yarib_command *command, yarib_reply *reply);

/* Executes an add, a replace or a withdraw, writes its reply and what it has changed, as yarib_apply_changed does, and publishes the table.
 * Errors: those of yarib_concurrent_apply. */
YARIB_STATUS yarib_concurrent_apply_changed(yarib_concurrent *table, const yarib_command *command, yarib_reply *reply,
    yarib_change *change);

/* Executes the commands in order, as yarib_apply_each does, and then publishes the table once. If commands fail, the table after all
 * others is published.
 * Errors: YARIB_BAD_SIZE (the sizes differ), YARIB_NOTHING, YARIB_NO_MEMORY (for the previous change, or to keep the commands). */
YARIB_STATUS yarib_concurrent_apply_each(yarib_concurrent *table, const yarib_command *commands, size_t size,
    yarib_reply *replies, size_t room);

/* Attaches a forwarding table to each of the two tables, 128 MiB or more together, as yarib_fib_attach does. It waits for the reading
 * calls that run. If it returns YARIB_NO_MEMORY or YARIB_NO_BARRIER, one of the two may have a forwarding table. If a later change finds no memory to
 * update one of them, that one is freed, and look-ups in its table are slower until this is called again; the answers stay right.
 * Errors: YARIB_NOTHING, YARIB_NO_MEMORY. */
YARIB_STATUS yarib_concurrent_fib_attach(yarib_concurrent *table);

/* Adds the routes of a feed file, as yarib_load does, and then publishes the table once: also if a line can't be added, with the routes of
 * the lines before it. The whole call is one change: meanwhile other changes are busy. It keeps 24 bytes for each line until its end.
 * Errors, without a result: YARIB_NOTHING, YARIB_BAD_NUMBER (the feed), YARIB_NO_MEMORY (for the previous change).
 * Errors, with a result: those of yarib_load. */
YARIB_STATUS yarib_concurrent_load(yarib_concurrent *table, uint32_t feed, FILE *file, yarib_loaded *loaded);

/* The reading calls. Each does what the call without `concurrent` in its name does to a table, and has its errors except YARIB_BUSY and
 * YARIB_WRONG_KIND. To read all routes of one published table, read them in one call: pages come from the tables that are published
 * when their calls run. yarib_concurrent_memory counts both tables, the second one as large as the published one.
 * yarib_concurrent_save writes the routes of one published table, and a change doesn't wait for the file. */
YARIB_STATUS yarib_concurrent_look_up(const yarib_concurrent *table, const uint32_t *addresses, size_t size, yarib_route *answers,
    size_t room);
YARIB_STATUS yarib_concurrent_look_up_one(const yarib_concurrent *table, uint32_t address, yarib_route *answer);
YARIB_STATUS yarib_concurrent_look_up_text(const yarib_concurrent *table, const char *text, size_t size, yarib_route *answer);
YARIB_STATUS yarib_concurrent_hops(const yarib_concurrent *table, const uint32_t *addresses, size_t size, uint32_t no_route,
    uint32_t discard, uint32_t *hops, size_t room);
YARIB_STATUS yarib_concurrent_look_up_all(const yarib_concurrent *table, uint32_t address, size_t skip, yarib_route *routes,
    size_t room, size_t *total);
YARIB_STATUS yarib_concurrent_routes(const yarib_concurrent *table, size_t skip, yarib_route *routes, size_t room, size_t *total);
YARIB_STATUS yarib_concurrent_routes_from(const yarib_concurrent *table, const yarib_route *from, yarib_route *routes, size_t room,
    size_t *used);
YARIB_STATUS yarib_concurrent_select(const yarib_concurrent *table, const yarib_selection *asked, size_t skip, yarib_route *routes,
    size_t room, size_t *total);
YARIB_STATUS yarib_concurrent_select_by_hop(const yarib_concurrent *table, const yarib_selection *asked, uint32_t hop, uint32_t via,
    size_t skip, yarib_route *routes, size_t room, size_t *total);
YARIB_STATUS yarib_concurrent_hop_counts(const yarib_concurrent *table, size_t skip, yarib_hop_count *counts, size_t room, size_t *total);
YARIB_STATUS yarib_concurrent_purge_changes(const yarib_concurrent *table, uint32_t feed, size_t skip, yarib_change *changes, size_t room,
    size_t *total);
YARIB_STATUS yarib_concurrent_count(const yarib_concurrent *table, size_t *total);
YARIB_STATUS yarib_concurrent_memory(const yarib_concurrent *table, size_t *bytes);
YARIB_STATUS yarib_concurrent_save(const yarib_concurrent *table, uint32_t feed, FILE *file);

/* Writes 1 to `attached` if a forwarding table is attached to the published table, else 0. It becomes 0 only if a change finds no memory
 * for the update: then it may be 0 for one of the two tables only, so for every second published table.
 * Errors: YARIB_NOTHING. */
YARIB_STATUS yarib_concurrent_fib_is_attached(const yarib_concurrent *table, uint32_t *attached);

/* Do for the published table what yarib_view_sizes and yarib_view_write do. A change may wait until yarib_concurrent_view_write has
 * written the view. A change between the two calls may make an array too small: then get the sizes again.
 * Errors: those of yarib_view_sizes and yarib_view_write, except YARIB_BUSY. YARIB_WRONG_KIND means that no forwarding table is attached to
 * the published table. */
YARIB_STATUS yarib_concurrent_view_sizes(const yarib_concurrent *table, size_t *blocks, size_t *routers);
YARIB_STATUS yarib_concurrent_view_write(const yarib_concurrent *table, yarib_view *view);

/* Makes `copy` a table without a journal that allows each feed up to `limit` routes and has the routes of the published table: one that
 * stays as it is. A change waits only while the routes are listed, not while the copy is made of them. If it succeeds, the previous
 * contents of `copy` are freed.
 * Errors: YARIB_NOTHING, YARIB_NO_MEMORY (to list the routes), YARIB_BAD_NUMBER, YARIB_NO_MEMORY, YARIB_NOT_ADDED (a feed has more
 * routes than `limit`). */
YARIB_STATUS yarib_concurrent_copy(const yarib_concurrent *table, uint32_t limit, yarib *copy);

/* Does for two published tables what yarib_first_difference does. Each call compares those that are published when it runs: to compare
 * two tables range by range while they change, copy them before. The handles must be different; one handle twice is YARIB_BUSY, and so is
 * a call during 1,024 others.
 * Errors: YARIB_NOTHING (either handle), YARIB_BAD_NUMBER (by), YARIB_NONE_LEFT (no further range). */
YARIB_STATUS yarib_concurrent_first_difference(const yarib_concurrent *old_table, const yarib_concurrent *new_table, uint32_t by,
    uint32_t from, yarib_difference *difference);

/* Returns the feed that holds a prefix of a source of more than YARIB_MAX_LIMIT routes: one of `feeds` feeds from `first` on, always the
 * same one. So the table's answers are those of a single feed without its limit. About 1,990,000 routes fit into two feeds before an
 * add to one of them is YARIB_FULL. */
static inline uint32_t yarib_source_feed(uint32_t base, uint8_t len, uint32_t first, uint32_t feeds)
{
    return first + (uint32_t)((uint64_t)((base + len) * 2654435769u) * feeds >> 32);
}

/* Parses a prefix such as 10.0.0.0/8, without leading zeros and without a bit set past the length. The text needs no terminating null.
 * Errors: YARIB_BAD_TEXT, YARIB_BAD_LENGTH, YARIB_BAD_BITS. */
YARIB_STATUS yarib_prefix_parse(const char *text, size_t size, yarib_prefix *prefix);

/* Writes a prefix as text, without a terminating null, and its length, at most YARIB_MAX_PREFIX_TEXT, to `used`.
 * Errors: YARIB_BAD_LENGTH, YARIB_BAD_BITS, YARIB_BAD_SIZE. */
YARIB_STATUS yarib_prefix_print(const yarib_prefix *prefix, char *text, size_t room, size_t *used);

/* Parses an address such as 10.0.0.1. The text needs no terminating null.
 * Errors: YARIB_BAD_TEXT. */
YARIB_STATUS yarib_address_parse(const char *text, size_t size, uint32_t *address);

/* Writes an address as text, without a terminating null, and its length, at most YARIB_MAX_ADDRESS_TEXT, to `used`.
 * Errors: YARIB_BAD_SIZE. */
YARIB_STATUS yarib_address_print(uint32_t address, char *text, size_t room, size_t *used);

#ifdef YARIB_CHECK
#include "yarib_check.h"
#endif

#ifdef __cplusplus
}
#endif

#endif
