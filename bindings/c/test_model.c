/* A model of how reading calls and changes keep apart (places.c, handles.c, readers.c), and a search through all its interleavings. Each
 * thread's stores wait in a buffer of its own until the memory has them, as on x86-64; a locked instruction, and the kernel's barrier, first
 * empty the buffer. In no state may a table be changed or freed in which a reader is, and no state is without a way on. Each wrong
 * protocol of the list below must have such a state.
 *
 * These are the atomic steps of the code that the model has, by function. bindings/tests/test_c_model.py compares them with the code:
 *
 *     enter_place: store place->since RELAXED, store place->reading RELEASE, signal_fence SEQ_CST
 *     leave_place: store place->reading RELEASE, store place->owner RELEASE
 *     leave_own_place: fetch_sub owned SEQ_CST, store owner RELEASE
 *     take: load used SEQ_CST, load place->owner RELAXED, compare_exchange place->owner SEQ_CST, compare_exchange used SEQ_CST
 *     take_own_place: fetch_add owned SEQ_CST
 *     enter_lent_place: store place->since RELAXED, store place->reading SEQ_CST
 *     mark: load word RELAXED, compare_exchange word SEQ_CST
 *     unmark: store word RELEASE
 *     see_readers: load owned SEQ_CST, barrier, barrier
 *     find_readers: load used SEQ_CST, load place->reading ACQUIRE, load place->since ACQUIRE, load place->owner RELAXED
 *     wake_changes: store naps.awaited SEQ_CST
 *     wait_for_readers: load naps.awaited SEQ_CST, store naps.awaited SEQ_CST
 *     enter_reading: load handle->inside ACQUIRE
 *     publish: store sides->front.inside SEQ_CST, add_fetch publications.number SEQ_CST
 *     publish_sides: store table->inside SEQ_CST, add_fetch publications.number SEQ_CST
 *     try_to_enter: load publications.number SEQ_CST, load table->inside SEQ_CST, load sides->front.inside SEQ_CST
 *     enter: load naps.awaited RELAXED
 *     leave: load naps.awaited RELAXED
 *
 * Those on naps decide only when a thread looks again, and in the model it may do so at any time.
 *
 *     test_model         # all of it
 *     test_model NAME    # the wrong protocol of this name; the status is 1 if a wrong state is found */
#include "check.h"

#include <stdbool.h>
#include <string.h>

typedef unsigned char u8;

/* The threads; sides and tables that a writer makes; the number of values in memory. A thread's place is the one of its number. */
enum { THREADS = 3, SIDES = 3, TABLES = 7, STORES = 5 };
enum { INSIDE, PUBLICATIONS, OWNED, USED, FRONT, READING = FRONT + SIDES, SINCE = READING + THREADS, VALUES = SINCE + THREADS };

/* What a handle's word holds: a mark, and the number of its sides from 1 on. A plain handle has no sides. */
enum { MARK = 128 };

/* A thread: its next step; calls that are over; values that it has read; and its stores that the memory doesn't have yet. */
struct thread {
    u8 step, calls, since, word, table, version, seen, place;
    u8 published, sides, after_wait, flushed, back, tables[2];
    u8 made, before, old[2];
    u8 size, stores[STORES][2];
};

struct state {
    u8 memory[VALUES];
    u8 version[TABLES], is_freed[TABLES], are_freed[SIDES + 1];
    u8 returned, tables;
    struct thread threads[THREADS];
};

/* What is wrong in a protocol. */
static const char *wrong;

static bool is_wrong(const char *name)
{
    return wrong && strcmp(wrong, name) == 0;
}

/* What is tried: the kind of each thread, a reader with a place of its own or a lent one, or a writer; the number of a reader's calls; and
 * a writer's changes, which are `c` for one of a plain table, or those of a concurrent table: `A` for one in the back, `N` for new sides, `H`
 * for new sides whose wait is hindered, so that the next change waits, and `F` for none, the table's end. */
static const char *kinds, *script;
static u8 calls;
static const char *fault;

static bool is_plain(void)
{
    return script[0] == 'c';
}

static u8 load(const struct state *state, int thread, int value)
{
    const struct thread *own = &state->threads[thread];
    for (int k = own->size; k-- > 0;) if (own->stores[k][0] == value) return own->stores[k][1];
    return state->memory[value];
}

static void store(struct state *state, int thread, int value, u8 stored)
{
    struct thread *own = &state->threads[thread];
    own->stores[own->size][0] = (u8)value;
    own->stores[own->size++][1] = stored;
}

/* The memory gets the first of a thread's stores. */
static void drain_one(struct state *state, int thread)
{
    struct thread *own = &state->threads[thread];
    state->memory[own->stores[0][0]] = own->stores[0][1];
    memmove(own->stores, own->stores + 1, sizeof own->stores - sizeof *own->stores);
    memset(own->stores[--own->size], 0, sizeof *own->stores);
}

/* A locked instruction: what it does next is done in memory. */
static u8 *lock(struct state *state, int thread, int value)
{
    while (state->threads[thread].size > 0) drain_one(state, thread);
    return &state->memory[value];
}

/* The steps of readers and writers. */
enum { BEGIN, ENTER, SET_SINCE, SET_READING, READ_WORD, READ_FRONT, READ, READ_ON, LEAVE, END, OVER };
enum { W_MARK = 20, W_OWNED, W_BARRIER, W_PLACE, W_SINCE, W_READY, W_CHANGE, W_CHANGED, W_FRONT, W_NUMBER, W_SIDES, W_SIDES_NUMBER,
    W_SETTLED, W_UNMARK };

static bool is_reader(int thread)
{
    return kinds[thread] != 'W';
}

/* A reader is in this table. */
static bool is_in(const struct state *state, int thread, u8 table)
{
    u8 step = state->threads[thread].step;
    return is_reader(thread) && (step == READ_ON || step == READ) && (is_plain() || state->threads[thread].table == table);
}

static void free_table(struct state *state, u8 table)
{
    state->is_freed[table] = 1;
    for (int k = 0; kinds[k]; k++) if (is_in(state, k, table)) fault = "a table is freed under a reader";
}

static void change_table(const struct state *state, u8 table)
{
    for (int k = 0; kinds[k]; k++) if (is_in(state, k, table)) fault = "a table is changed under a reader";
}

static void read_table(struct state *state, int thread)
{
    struct thread *own = &state->threads[thread];
    if (state->is_freed[own->table]) fault = "a reader reads what is freed";
    if (own->step == READ_ON && state->version[own->table] != own->version) fault = "an answer changes under a reader";
    own->version = state->version[own->table];
    if (!is_plain() && own->version < own->seen) fault = "a reader misses a change that has returned";
}

/* The next step of a reader: false if there is none. */
static bool step_reader(struct state *state, int thread)
{
    struct thread *own = &state->threads[thread];
    bool is_own = kinds[thread] == 'O';
    switch (own->step) {
    case BEGIN: {
        /* It takes its place: used and owned are counted. */
        if (is_own && is_wrong("a place is counted late") && own->calls == 0) { own->step = ENTER; return true; }
        u8 *used = lock(state, thread, USED);
        if (*used <= thread) *used = (u8)(thread + 1);
        if (is_own && own->place == 0) { state->memory[OWNED]++; own->place = 1; }
        own->step = ENTER;
        return true;
    }
    case ENTER:
        own->seen = state->returned;
        own->since = load(state, thread, PUBLICATIONS);
        if (is_wrong("a reader claims the next publication")) own->since++;
        own->step = is_wrong("the word is read before the place is written") ? READ_WORD : SET_SINCE;
        return true;
    case SET_SINCE:
        if (!is_plain()) store(state, thread, SINCE + thread, own->since);
        own->step = SET_READING;
        return true;
    case SET_READING:
        if (is_own || is_wrong("a lent place is written without a fence")) store(state, thread, READING + thread, 1);
        else *lock(state, thread, READING + thread) = 1;
        own->step = is_wrong("the word is read before the place is written") ? READ_FRONT : READ_WORD;
        return true;
    case READ_WORD:
        own->word = load(state, thread, INSIDE);
        own->step = is_wrong("the word is read before the place is written") ? SET_SINCE : READ_FRONT;
        return true;
    case READ_FRONT:
        own->word &= is_plain() ? MARK : MARK - 1;
        own->step = READ;
        if (is_plain() ? own->word == MARK && !is_wrong("a reader ignores the mark") : own->word == 0) own->step = LEAVE;
        else if (!is_plain() && state->are_freed[own->word]) fault = "a reader reads sides that are freed";
        else own->table = is_plain() ? 0 : load(state, thread, FRONT + own->word - 1);
        return true;
    case READ:
        read_table(state, thread);
        own->step = READ_ON;
        return true;
    case READ_ON:
        read_table(state, thread);
        own->step = LEAVE;
        return true;
    case LEAVE:
        store(state, thread, READING + thread, 0);
        own->since = own->word = own->table = own->version = own->seen = 0;
        own->step = ++own->calls < calls ? BEGIN : END;
        return true;
    case END:
        lock(state, thread, OWNED);
        if (own->place) state->memory[OWNED]--;
        own->step = OVER;
        return true;
    }
    return false;
}

/* Begins to wait for readers of what was published: `on` is the step after the wait. */
static void wait_for(struct thread *own, u8 on)
{
    own->after_wait = on;
    own->step = is_wrong("no wait") ? on : W_OWNED;
    own->place = own->flushed = 0;
}

/* The place of a reader, as a change finds it. */
static void step_place(struct state *state, int thread)
{
    struct thread *own = &state->threads[thread];
    if (own->place == load(state, thread, USED) || (is_wrong("only the first place is read") && own->place == 1)) own->step = own->after_wait;
    else if (load(state, thread, READING + own->place) == 0) own->place++;
    else own->step = W_SINCE;
}

static void step_since(struct state *state, int thread)
{
    struct thread *own = &state->threads[thread];
    u8 since = load(state, thread, SINCE + own->place);
    own->step = W_PLACE;
    if (is_plain()) {
        store(state, thread, INSIDE, 0);
        own->calls++;
        own->step = W_MARK;
    } else if (since + is_wrong("the last reader isn't waited for") >= own->published) {
        own->place++;
    } else {
        own->place = 0;
    }
}

/* Makes the new sides of a change, or none for `F`. */
static void make_sides(struct state *state, int thread, char change)
{
    struct thread *own = &state->threads[thread];
    own->before = own->sides;
    for (int k = 0; k < 2; k++) own->old[k] = own->tables[k];
    own->sides = change == 'F' ? 0 : (u8)(own->made + 2);
    own->step = is_wrong("the number is published before the sides") ? W_SIDES_NUMBER : W_SIDES;
    if (change == 'F') return;
    own->made++;
    own->version++;
    own->back = 1;
    for (int k = 0; k < 2; k++) {
        own->tables[k] = state->tables++;
        state->version[own->tables[k]] = own->version;
    }
    store(state, thread, FRONT + own->sides - 1, own->tables[0]);
}

/* Frees the sides before, if there are any, after the wait. */
static void free_sides(struct state *state, int thread)
{
    struct thread *own = &state->threads[thread];
    own->published = 0;
    if (!own->before) return;
    for (int k = 0; k < 2; k++) free_table(state, own->old[k]);
    state->are_freed[own->before] = 1;
    for (int k = 0; kinds[k]; k++) {
        if (is_reader(k) && state->threads[k].step == READ_FRONT && (state->threads[k].word & (MARK - 1)) == own->before
            && !is_wrong("the word is read before the place is written")) fault = "sides are freed under a reader";
    }
    own->before = own->old[0] = own->old[1] = 0;
}

/* The next step of a writer. */
static bool step_writer(struct state *state, int thread)
{
    struct thread *own = &state->threads[thread];
    char change = script[own->calls];
    switch (own->step) {
    case W_MARK: {
        if (!change) return false;
        u8 *word = lock(state, thread, INSIDE);
        if (*word & MARK) return !!(own->calls++, 1);
        own->sides = *word;
        *word |= MARK;
        own->step = W_READY;
        if (is_plain()) wait_for(own, W_READY);
        else if (own->published > 0) wait_for(own, W_READY);
        return true;
    }
    case W_OWNED:
        own->step = load(state, thread, OWNED) == 0 || is_wrong("no barrier") ? W_PLACE : W_BARRIER;
        return true;
    case W_BARRIER:
        own->step = W_PLACE;
        return true;
    case W_PLACE:
        step_place(state, thread);
        return true;
    case W_SINCE:
        step_since(state, thread);
        return true;
    case W_READY:
        own->step = W_CHANGE;
        if (!is_plain()) free_sides(state, thread);
        if (strchr("NHF", change)) make_sides(state, thread, change);
        return true;
    case W_CHANGE:
        change_table(state, own->tables[own->back]);
        own->step = W_CHANGED;
        return true;
    case W_CHANGED:
        change_table(state, own->tables[own->back]);
        state->version[own->tables[own->back]] = (u8)(own->version + 1);
        own->version++;
        own->step = is_plain() ? W_UNMARK : is_wrong("the number is published first") ? W_NUMBER : W_FRONT;
        return true;
    case W_FRONT:
        *lock(state, thread, FRONT + own->sides - 1) = own->tables[own->back];
        own->back = 1 - own->back;
        own->step = is_wrong("the number is published first") ? W_UNMARK : W_NUMBER;
        return true;
    case W_NUMBER:
        own->published = ++*lock(state, thread, PUBLICATIONS);
        own->step = is_wrong("the number is published first") ? W_FRONT : W_UNMARK;
        return true;
    case W_SIDES:
        *lock(state, thread, INSIDE) = MARK | own->sides;
        own->step = W_SIDES_NUMBER;
        if (is_wrong("the number is published before the sides")) wait_for(own, W_SETTLED);
        return true;
    case W_SIDES_NUMBER:
        own->published = ++*lock(state, thread, PUBLICATIONS);
        if (is_wrong("the number is published before the sides")) own->step = W_SIDES;
        else if (change == 'H') own->step = W_UNMARK;
        else if (is_wrong(change == 'F' ? "free doesn't wait" : "new doesn't wait")) own->step = W_SETTLED;
        else wait_for(own, W_SETTLED);
        return true;
    case W_SETTLED:
        free_sides(state, thread);
        own->step = W_UNMARK;
        return true;
    case W_UNMARK:
        store(state, thread, INSIDE, own->sides);
        own->place = own->flushed = own->after_wait = 0;
        own->calls++;
        if (!is_plain() && own->sides) state->returned = own->version;
        own->step = W_MARK;
        return true;
    }
    return false;
}

/* The states that were found: a table of hashes, which holds the index of each state. */
enum { MOST = 1 << 23 };
static struct state *found;
static unsigned *indices;
static unsigned size;

static bool is_new(const struct state *state)
{
    unsigned long hash = 14695981039346656037u;
    for (size_t k = 0; k < sizeof *state; k++) hash = (hash ^ ((const u8 *)state)[k]) * 1099511628211u;
    for (unsigned at = (unsigned)(hash ^ hash >> 29) % (2 * MOST);; at = (at + 1) % (2 * MOST)) {
        if (indices[at] == 0) {
            CHECK(size < MOST - 1);
            found[++size] = *state;
            indices[at] = size;
            return true;
        }
        if (memcmp(&found[indices[at]], state, sizeof *state) == 0) return false;
    }
}

/* Finds the states that one step of any thread leads to. Returns their number. */
static int find_next(const struct state *state)
{
    int steps = 0;
    for (int k = 0; kinds[k]; k++) {
        struct state next = *state;
        if (state->threads[k].size > 0) {
            drain_one(&next, k);
            is_new(&next);
            steps++;
            next = *state;
        }
        if (state->threads[k].step == W_BARRIER && !is_reader(k)) {
            /* The kernel interrupts the threads one after another. */
            int left = 0;
            for (int j = 0; kinds[j]; j++) {
                if (next.threads[k].flushed >> j & 1) continue;
                struct state flushed = *state;
                lock(&flushed, j, 0);
                flushed.threads[k].flushed |= (u8)(1 << j);
                is_new(&flushed);
                steps++, left++;
            }
            if (left > 0) continue;
        }
        if (state->threads[k].size < STORES && (is_reader(k) ? step_reader : step_writer)(&next, k)) {
            is_new(&next);
            steps++;
        }
    }
    return steps;
}

static bool is_over(const struct state *state)
{
    for (int k = 0; kinds[k]; k++) {
        const struct thread *one = &state->threads[k];
        if (one->size > 0 || (is_reader(k) ? one->step != OVER : script[one->calls] != '\0')) return false;
    }
    return (state->memory[INSIDE] & MARK) == 0;
}

/* Searches all states. Returns what is wrong in one of them, or null. */
static const char *search(const char *given_kinds, u8 given_calls, const char *given_script)
{
    struct state first;
    kinds = given_kinds;
    calls = given_calls;
    script = given_script;
    memset(&first, 0, sizeof first);
    memset(indices, 0, 2 * MOST * sizeof *indices);
    first.memory[INSIDE] = is_plain() ? 0 : 1;
    first.memory[PUBLICATIONS] = 1;
    first.memory[FRONT] = 0;
    first.tables = 2;
    for (int k = 0; kinds[k]; k++) {
        if (is_reader(k)) continue;
        first.threads[k].step = W_MARK;
        first.threads[k].tables[1] = is_plain() ? 0 : 1;
        first.threads[k].back = 1;
    }
    size = 0;
    fault = NULL;
    is_new(&first);
    for (unsigned k = 1; k <= size && !fault; k++) {
        struct state state = found[k];
        if (find_next(&state) == 0 && !is_over(&state)) fault = "no thread has a step";
    }
    return fault;
}

/* What is searched: two readers and a writer, or a reader and two writers of a plain table. */
static const struct {
    const char *kinds;
    u8 calls;
    const char *script;
} searches[] = {{"LW", 2, "AFNA"}, {"OW", 2, "AFNA"}, {"LW", 3, "AAAA"}, {"LWW", 2, "cc"}, {"OW", 3, "AAAA"}, {"OW", 3, "ANAN"},
    {"OWW", 2, "cc"}, {"OOW", 1, "ccc"}, {"LLW", 2, "ccc"}, {"OOW", 1, "FNA"}, {"LLW", 2, "AA"}, {"OLW", 1, "AFN"}, {"OLW", 2, "ccc"},
    {"OOW", 1, "AA"}, {"OOW", 1, "NA"}, {"OOW", 1, "HA"}, {"OW", 2, "HFNA"}, {"OLW", 1, "ANA"}, {"OLW", 1, "AAA"}};

static const char *const wrong_protocols[] = {"no barrier", "a place is counted late", "a reader claims the next publication",
    "the word is read before the place is written", "a lent place is written without a fence",
    "a reader ignores the mark", "no wait", "only the first place is read", "the last reader isn't waited for",
    "the number is published first", "the number is published before the sides", "new doesn't wait", "free doesn't wait"};

static const char *search_all(bool is_told)
{
    for (size_t k = 0; k < sizeof searches / sizeof *searches; k++) {
        const char *told = search(searches[k].kinds, searches[k].calls, searches[k].script);
        if (is_told) printf("%s, %d calls, %s: %u states\n", searches[k].kinds, searches[k].calls, searches[k].script, size);
        if (told) return told;
    }
    return NULL;
}

int main(int count, char **words)
{
    setvbuf(stdout, NULL, _IOLBF, 0);
    found = malloc(MOST * sizeof *found);
    indices = malloc(2 * MOST * sizeof *indices);
    CHECK(found && indices);
    if (count > 1) {
        wrong = words[1];
        const char *told = search_all(false);
        printf("%s: %s\n", wrong, told ? told : "no wrong state");
        return told ? 1 : 0;
    }
    const char *told = search_all(true);
    if (told) printf("%s\n", told);
    CHECK(!told);
    for (size_t k = 0; k < sizeof wrong_protocols / sizeof *wrong_protocols; k++) {
        wrong = wrong_protocols[k];
        told = search_all(false);
        printf("%s: %s\n", wrong, told ? told : "no wrong state");
        CHECK(told);
    }
    return 0;
}
