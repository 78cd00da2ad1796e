/* The calls of yarib.h that take a handle. Each passes its arguments on to the proved call of the same name, and keeps apart the
 * calls that use a handle at the same time. Any number of reading calls run side by side, and a change runs by itself. A call that
 * would break this returns YARIB_BUSY and touches nothing else, so no call can lose or damage what a handle holds.
 *
 * A handle is one word: the pointer of the proved library. It is aligned, so its lowest bit is free: it says that a change is under
 * way. A proved call gets a copy of the pointer on this stack, since it takes the contents out of its handle and puts them back.
 *
 * A reading call writes the handle into its place, and reads the word after it. A change marks the word, and then looks at the places
 * (places.c): either it sees the reader there, or the reader sees the mark. A reading call writes no memory that another thread reads.
 *
 * bindings/build renames the proved calls to proved_yarib_.., and hides them. */
#include "layer.h"

/* Enters a reading call and makes its copy of the handle, or returns why not. */
SHORT enum yarib_status enter_reading(const yarib *handle, struct reading *own)
{
    own->place = enter_place(handle, 0);
    if (!own->place) return YARIB_BUSY;
    own->table.inside = __atomic_load_n(&handle->inside, __ATOMIC_ACQUIRE);
    enum yarib_status status = status_of(own->table.inside);
    if (status != YARIB_DONE) leave_place(own->place);
    return status;
}

/* Enters a change and makes its copy of the handle, or returns why not. */
static enum yarib_status enter_change(yarib *handle, yarib *own)
{
    enum yarib_status status = mark(&handle->inside, &own->inside);
    if (status != YARIB_DONE) return status;
    status = see_readers();
    if (status == YARIB_DONE && find_readers(handle, NEVER) != NOBODY) status = YARIB_BUSY;
    if (status != YARIB_DONE) unmark(&handle->inside, own->inside);
    return status;
}

enum yarib_status free_contents(yarib *table)
{
    struct frees frees;
    if (begin_frees) begin_frees(&frees);
    proved_yarib_free(table);
    if (end_frees) end_frees();
    return YARIB_DONE;
}

enum yarib_status attach(yarib *table)
{
    /* The forwarding table has room that only later changes write to. */
    if (begin_filling) begin_filling();
    enum yarib_status status = proved_yarib_fib_attach(table);
    if (end_filling) end_filling();
    return status;
}

enum yarib_status yarib_free(yarib *table)
{
    CHANGE(table, free_contents(&own));
}

enum yarib_status yarib_fib_attach(yarib *table)
{
    CHANGE(table, attach(&own));
}

static enum yarib_status add_to_own(void *own, const yarib_command *command, yarib_reply *reply)
{
    return proved_yarib_apply(own, command, reply);
}

static enum yarib_status load(yarib *own, uint32_t feed, FILE *file, yarib_loaded *loaded)
{
    size_t total;
    const struct adder adder = {add_to_own, own};
    enum yarib_status status = proved_yarib_count(own, &total);
    if (status != YARIB_NOTHING && (feed < 1 || feed > YARIB_MAX_FEED)) status = YARIB_BAD_NUMBER;
    return status == YARIB_DONE ? add_lines(file, feed, &adder, loaded) : status;
}

enum yarib_status yarib_load(yarib *table, uint32_t feed, FILE *file, yarib_loaded *loaded)
{
    *loaded = (yarib_loaded){0};
    CHANGE(table, load(&own, feed, file, loaded));
}

enum yarib_status yarib_concurrent_copy(const yarib_concurrent *table, uint32_t limit, yarib *copy)
{
    CHANGE(copy, copy_published(table, limit, &own));
}

#define DEFINE_CHANGE(name, parameters, arguments) \
    enum yarib_status yarib_##name(yarib *table, LIST parameters) { CHANGE(table, proved_yarib_##name(&own, LIST arguments)); }
CHANGES(DEFINE_CHANGE)

#define DEFINE(name, parameters, arguments) \
    enum yarib_status yarib_##name(const yarib *table, LIST parameters) \
    { \
        READ(enter_reading, leave_place, table, proved_yarib_##name(&own.table, LIST arguments)); \
    }
READING_CALLS(DEFINE)
PLAIN_READING_CALLS(DEFINE)
VIEW_CALLS(DEFINE)

enum yarib_status yarib_look_up_text(const yarib *table, const char *text, size_t size, yarib_route *answer)
{
    uint32_t address;
    READ(enter_reading, leave_place, table, (status = yarib_address_parse(text, size, &address)) == YARIB_DONE
        ? (enum yarib_status)proved_yarib_look_up_one(&own.table, address, answer) : status);
}

/* Compares the contents of an old handle with a table. */
static enum yarib_status compare(yarib *old, const yarib *table, uint32_t by, uint32_t from, yarib_difference *difference)
{
    READ(enter_reading, leave_place, table, proved_yarib_first_difference(old, &own.table, by, from, difference));
}

/* One handle twice is busy with itself: the proved call needs two. */
enum yarib_status yarib_first_difference(const yarib *old_table, const yarib *new_table, uint32_t by, uint32_t from,
    yarib_difference *difference)
{
    if (old_table == new_table) return YARIB_BUSY;
    READ(enter_reading, leave_place, old_table, compare(&own.table, new_table, by, from, difference));
}

/* Fills a handle from the contents of another one by a proved call. */
static enum yarib_status fill(yarib *contents, yarib *table, uint32_t (*call)(yarib *contents, yarib *table))
{
    CHANGE(table, call(contents, &own));
}

enum yarib_status yarib_fib_new(const yarib *table, yarib *forwarding)
{
    READ(enter_reading, leave_place, table, fill(&own.table, forwarding, proved_yarib_fib_new));
}

enum yarib_status yarib_fib_clone(const yarib *forwarding, yarib *other)
{
    READ(enter_reading, leave_place, forwarding, fill(&own.table, other, proved_yarib_fib_clone));
}

/* The names that three calls had in version 0.1. No header declares them: they are exported for programs that were linked with
 * libyarib.so.0 and call them. */
enum yarib_status yarib_forward(const yarib *table, yarib *forwarding) __attribute__((alias("yarib_fib_new")));
enum yarib_status yarib_share(const yarib *forwarding, yarib *other) __attribute__((alias("yarib_fib_clone")));
enum yarib_status yarib_follow(yarib *table) __attribute__((alias("yarib_fib_attach")));
