/* Concurrent tables: one thread changes a table while any number of threads read it without waiting (left-right, by Ramalhete and
 * Correia).
 *
 * A concurrent table is two tables of the proved library, the sides. Readers use the front. A change is made in the back, which then
 * becomes the front. The other side, now the back, lacks this change: its commands are kept, and the next change first executes them
 * there. So both sides execute the same commands, and each call of a reader gets one published table. If memory runs out for a
 * kept command, it stays kept, the new change isn't begun, and readers have the front. A table that replaces the whole one has new
 * sides, to which the handle's word then leads.
 *
 * The next change must not begin while a reader is still in the back, or in sides that were replaced. A reading call writes into its
 * place (places.c) the number of publications that it saw, then the handle, and then reads the handle's word and the front. A change
 * waits for each place with this handle and a number that is older than the publication. A reader that it doesn't see reads the front
 * later, and so the new one. A reading call never waits or repeats anything. It writes no memory that another reader reads, unless it
 * wakes a change that naps until this call ends. */
#include "layer.h"

#include <stdlib.h>

/* Room for more commands than this is given back when the back has them. */
#define KEPT 1024

/* The size of a cache line: what readers read is in lines that nothing else is written to. */
#define LINE ((size_t)64)

struct sides {
    /* The front's handle. Readers copy it. Only a publication writes it. */
    yarib front;
    char apart[LINE - sizeof(yarib)];
    /* Only changes use the rest. `published` is the number of the publication after which readers may still be in the back or in the
     * sides before, which are null if there are none; 0 if none are. The back lacks the commands from `start` to `end`. */
    yarib back;
    struct sides *before;
    uint64_t published;
    yarib_command *lacking;
    size_t start, end, room;
    void *block;
};

/* The number of publications of all concurrent tables. */
static struct {
    uint64_t number;
    char apart[LINE - sizeof(uint64_t)];
} publications __attribute__((aligned(64))) = {.number = 1};

/* Makes readers that come from now on use the other side. */
static void publish(struct sides *sides)
{
    void *front = sides->front.inside;
    __atomic_store_n(&sides->front.inside, sides->back.inside, __ATOMIC_SEQ_CST);
    sides->back.inside = front;
    sides->published = __atomic_add_fetch(&publications.number, 1, __ATOMIC_SEQ_CST);
}

/* Makes readers that come from now on use these sides, or none. Returns the number of the publication. */
static uint64_t publish_sides(yarib_concurrent *table, const struct sides *sides)
{
    __atomic_store_n(&table->inside, marked(sides), __ATOMIC_SEQ_CST);
    return __atomic_add_fetch(&publications.number, 1, __ATOMIC_SEQ_CST);
}

static void destroy(struct sides *sides)
{
    free_contents(&sides->front);
    free_contents(&sides->back);
    if (sides->room > 0) rattle_dealloc(sides->lacking);
    rattle_dealloc(sides->block);
}

/* Waits until no reader is in the back or in the sides before, and frees these. Or returns why it can't. */
static enum yarib_status settle(const yarib_concurrent *table, struct sides *sides)
{
    enum yarib_status status = sides->published == 0 ? YARIB_DONE : wait_for_readers(table, sides->published);
    if (status != YARIB_DONE) return status;
    if (sides->before) destroy(sides->before);
    sides->before = NULL;
    sides->published = 0;
    return YARIB_DONE;
}

static bool is_change(const yarib_reply *reply)
{
    return reply->code == YARIB_ADDED || reply->code == YARIB_REPLACED || reply->code == YARIB_WITHDRAWN
        || (reply->code == YARIB_PURGED && reply->count > 0);
}

/* Makes in the back the changes that it lacks. Returns false if memory runs out: then it lacks the rest. */
static bool catch_up(struct sides *sides)
{
    for (; sides->start < sides->end; sides->start++) {
        yarib_reply reply;
        enum yarib_status status = proved_yarib_apply(&sides->back, &sides->lacking[sides->start], &reply);
        if (status == YARIB_NO_MEMORY) return false;
        /* It was a change in the front. */
        if (status != YARIB_DONE || !is_change(&reply)) abort();
    }
    sides->start = sides->end = 0;
    return true;
}

/* Makes room for this many commands that a side lacks. Returns false if memory runs out. */
static bool reserve(struct sides *sides, size_t size)
{
    if (size == 0 || (size <= sides->room && (size > KEPT || sides->room <= KEPT))) return true;
    struct tried made = sides->room > 0
        ? rattle_realloc(sides->lacking, sides->end * sizeof(yarib_command), size * sizeof(yarib_command), sizeof(uint32_t))
        : rattle_alloc(size * sizeof(yarib_command), sizeof(uint32_t));
    if (!made.ok) return size <= sides->room;
    sides->lacking = made.block;
    sides->room = size;
    return true;
}

/* Makes the back ready for this many commands. */
static enum yarib_status prepare(struct sides *sides, size_t size)
{
    if (!sides) return YARIB_NOTHING;
    return catch_up(sides) && reserve(sides, size) ? YARIB_DONE : YARIB_NO_MEMORY;
}

/* Keeps a command for the other side, if it has changed the table. */
static void keep(struct sides *sides, const yarib_command *command, const yarib_reply *reply)
{
    if (is_change(reply)) sides->lacking[sides->end++] = *command;
}

/* Enters a change: marks the handle and waits until no reader is in the back. Or returns why it can't. */
static enum yarib_status enter_change(yarib_concurrent *table, yarib_concurrent *own)
{
    enum yarib_status status = mark(&table->inside, &own->inside);
    if (status != YARIB_DONE || !own->inside) return status;
    status = settle(table, own->inside);
    if (status != YARIB_DONE) unmark(&table->inside, own->inside);
    return status;
}

/* Makes sides that both have these routes. */
static enum yarib_status make_sides(uint32_t limit, const struct list *list, bool is_followed, struct sides **made)
{
    struct sides sides = {.room = 0};
    struct tried tried = {false, NULL};
    enum yarib_status status = make_table(limit, list, is_followed, &sides.front);
    if (status == YARIB_DONE) status = make_table(limit, list, is_followed, &sides.back);
    if (status == YARIB_DONE) tried = rattle_alloc(sizeof sides + LINE, LINE);
    if (tried.ok) {
        sides.block = tried.block;
        *made = (struct sides *)(((uintptr_t)tried.block + LINE - 1) & ~(LINE - 1));
        **made = sides;
        return YARIB_DONE;
    }
    free_contents(&sides.front);
    free_contents(&sides.back);
    return status == YARIB_DONE ? YARIB_NO_MEMORY : status;
}

/* Publishes a new table, and frees the one before. As long as a reading call hinders that, the next change does it. */
static enum yarib_status renew(yarib_concurrent *table, yarib_concurrent *own, uint32_t limit, const struct list *list, bool is_followed)
{
    struct sides *made;
    enum yarib_status status = make_sides(limit, list, is_followed, &made);
    if (status != YARIB_DONE) return status;
    made->before = own->inside;
    made->published = publish_sides(table, made);
    own->inside = made;
    settle(table, made);
    return YARIB_DONE;
}

enum yarib_status yarib_concurrent_new(yarib_concurrent *table, uint32_t limit)
{
    const struct list none = {NULL, 0};
    CHANGE(table, renew(table, &own, limit, &none, false));
}

/* The new table has a forwarding table if readers had one. */
static enum yarib_status replace(yarib_concurrent *table, yarib_concurrent *own, uint32_t limit, const yarib *other)
{
    struct list list;
    uint32_t is_attached;
    enum yarib_status status = list_routes(other, NULL, 0, &list);
    if (status != YARIB_DONE) return status;
    if (yarib_concurrent_fib_is_attached(table, &is_attached) != YARIB_DONE) is_attached = 0;
    status = renew(table, own, limit, &list, is_attached);
    free_list(&list);
    return status;
}

enum yarib_status yarib_concurrent_replace(yarib_concurrent *table, uint32_t limit, const yarib *other)
{
    CHANGE(table, replace(table, &own, limit, other));
}

/* Empties the handle, and frees the sides after their last reader. */
static enum yarib_status empty(yarib_concurrent *table, yarib_concurrent *own)
{
    if (!own->inside) return YARIB_DONE;
    if (see_readers() != YARIB_DONE) return YARIB_NO_BARRIER;
    if (find_readers(table, NEVER) == THIS_THREAD) return YARIB_BUSY;
    enum yarib_status status = wait_for_readers(table, publish_sides(table, NULL));
    if (status != YARIB_DONE) return status;
    destroy(own->inside);
    own->inside = NULL;
    return YARIB_DONE;
}

enum yarib_status yarib_concurrent_free(yarib_concurrent *table)
{
    CHANGE(table, empty(table, &own));
}

/* Keeps the commands that were executed in the back, and publishes it if they changed it. */
static enum yarib_status finish(struct sides *sides, enum yarib_status status, const yarib_command *commands, const yarib_reply *replies,
    size_t size)
{
    if (status != YARIB_DONE) return status;
    for (size_t k = 0; k < size; k++) keep(sides, &commands[k], &replies[k]);
    if (sides->end > 0) publish(sides);
    return YARIB_DONE;
}

/* With a change, it is written. */
static enum yarib_status apply(struct sides *sides, const yarib_command *command, yarib_reply *reply, yarib_change *change)
{
    enum yarib_status status = prepare(sides, 1);
    if (status != YARIB_DONE) return status;
    status = change ? proved_yarib_apply_changed(&sides->back, command, reply, change) : proved_yarib_apply(&sides->back, command, reply);
    return finish(sides, status, command, reply, 1);
}

enum yarib_status yarib_concurrent_apply(yarib_concurrent *table, const yarib_command *command, yarib_reply *reply)
{
    CHANGE(table, apply(own.inside, command, reply, NULL));
}

enum yarib_status yarib_concurrent_apply_changed(yarib_concurrent *table, const yarib_command *command, yarib_reply *reply,
    yarib_change *change)
{
    CHANGE(table, apply(own.inside, command, reply, change));
}

static enum yarib_status apply_each(struct sides *sides, const yarib_command *commands, size_t size, yarib_reply *replies, size_t room)
{
    if (size != room) return YARIB_BAD_SIZE;
    enum yarib_status status = prepare(sides, size);
    if (status == YARIB_DONE) status = proved_yarib_apply_each(&sides->back, commands, size, replies, room);
    return finish(sides, status, commands, replies, size);
}

enum yarib_status yarib_concurrent_apply_each(yarib_concurrent *table, const yarib_command *commands, size_t size,
    yarib_reply *replies, size_t room)
{
    CHANGE(table, apply_each(own.inside, commands, size, replies, room));
}

/* Adds a route to the back, which isn't published meanwhile. */
static enum yarib_status add_to_back(void *argument, const yarib_command *command, yarib_reply *reply)
{
    struct sides *sides = argument;
    if (sides->end == sides->room && !reserve(sides, 2 * sides->room)) return YARIB_NO_MEMORY;
    enum yarib_status status = proved_yarib_apply(&sides->back, command, reply);
    if (status == YARIB_DONE) keep(sides, command, reply);
    return status;
}

/* After a load the other side becomes the same at once. As long as a reading call hinders that, the next change does it. */
static enum yarib_status load(const yarib_concurrent *table, struct sides *sides, uint32_t feed, FILE *file, yarib_loaded *loaded)
{
    const struct adder adder = {add_to_back, sides};
    if (sides && (feed < 1 || feed > YARIB_MAX_FEED)) return YARIB_BAD_NUMBER;
    enum yarib_status status = prepare(sides, KEPT);
    if (status != YARIB_DONE) return status;
    status = add_lines(file, feed, &adder, loaded);
    if (sides->end == 0) return status;
    publish(sides);
    if (settle(table, sides) == YARIB_DONE) prepare(sides, 1);
    return status;
}

enum yarib_status yarib_concurrent_load(yarib_concurrent *table, uint32_t feed, FILE *file, yarib_loaded *loaded)
{
    *loaded = (yarib_loaded){0};
    CHANGE(table, load(table, own.inside, feed, file, loaded));
}

/* Each side gets its forwarding table while it is the back. */
static enum yarib_status attach_both(const yarib_concurrent *table, struct sides *sides)
{
    if (find_readers(table, NEVER) == THIS_THREAD) return YARIB_BUSY;
    enum yarib_status status = prepare(sides, 0);
    if (status == YARIB_DONE) status = attach(&sides->back);
    if (status != YARIB_DONE) return status;
    publish(sides);
    status = settle(table, sides);
    return status == YARIB_DONE ? attach(&sides->back) : status;
}

enum yarib_status yarib_concurrent_fib_attach(yarib_concurrent *table)
{
    CHANGE(table, attach_both(table, own.inside));
}

/* Enters a reading call, whose copy of the front's handle is empty if the concurrent table is. Returns YARIB_BUSY if no place is free. */
SHORT enum yarib_status try_to_enter(const yarib_concurrent *table, struct reading *own)
{
    own->place = enter_place(table, __atomic_load_n(&publications.number, __ATOMIC_SEQ_CST));
    if (!own->place) return YARIB_BUSY;
    const struct sides *sides = (struct sides *)((uintptr_t)__atomic_load_n(&table->inside, __ATOMIC_SEQ_CST) & CONTENTS);
    own->table.inside = sides ? __atomic_load_n(&sides->front.inside, __ATOMIC_SEQ_CST) : NULL;
    return YARIB_DONE;
}

/* Enters a reading call. It waits only while no place is free. */
SHORT enum yarib_status enter(const yarib_concurrent *table, struct reading *own)
{
    unsigned times = 0;
    while (try_to_enter(table, own) != YARIB_DONE) rest(&times, __atomic_load_n(&naps.awaited, __ATOMIC_RELAXED));
    return YARIB_DONE;
}

/* Leaves a reading call, and wakes a change that may nap until then. */
SHORT void leave(struct place *place)
{
    uint64_t since = place->since;
    leave_place(place);
    if (since < __atomic_load_n(&naps.awaited, __ATOMIC_RELAXED)) wake_changes();
}

#define DEFINE(name, parameters, arguments) \
    enum yarib_status yarib_concurrent_##name(const yarib_concurrent *table, LIST parameters) \
    { \
        READ(enter, leave, table, proved_yarib_##name(&own.table, LIST arguments)); \
    }
READING_CALLS(DEFINE)
VIEW_CALLS(DEFINE)

enum yarib_status yarib_concurrent_look_up_text(const yarib_concurrent *table, const char *text, size_t size, yarib_route *answer)
{
    uint32_t address;
    enum yarib_status status = yarib_address_parse(text, size, &address);
    return status == YARIB_DONE ? yarib_concurrent_look_up_one(table, address, answer) : status;
}

/* Compares an old table that a call has entered with a published one. It has a place already, so it doesn't wait for another one: calls
 * that do could wait for one another. */
static enum yarib_status compare(yarib *old, const yarib_concurrent *table, uint32_t by, uint32_t from, yarib_difference *difference)
{
    READ(try_to_enter, leave, table, proved_yarib_first_difference(old, &own.table, by, from, difference));
}

enum yarib_status yarib_concurrent_first_difference(const yarib_concurrent *table, const yarib_concurrent *new_table, uint32_t by,
    uint32_t from, yarib_difference *difference)
{
    if (table == new_table) return YARIB_BUSY;
    READ(enter, leave, table, compare(&own.table, new_table, by, from, difference));
}

static enum yarib_status memory_of_both(yarib *front, size_t *bytes)
{
    enum yarib_status status = proved_yarib_memory(front, bytes);
    if (status == YARIB_DONE) *bytes *= 2;
    return status;
}

enum yarib_status yarib_concurrent_memory(const yarib_concurrent *table, size_t *bytes)
{
    READ(enter, leave, table, memory_of_both(&own.table, bytes));
}
