/* Saving and loading the routes of a table and of a concurrent one: what is written and read, byte for byte; each line that isn't an
 * add; files that can't be written or read after each of their bytes; each allocation refused in turn; calls meanwhile.
 *
 * With arguments it reads lines from standard input, and prints 1 for each line that loads, else 0: the argument
 * "2" loads each after the line `version 2`. */
#define _GNU_SOURCE
#include "check.h"
#include "refusing_heap.h"
#include "routes.h"

#include <errno.h>
#include <string.h>
#include <sys/types.h>

enum { ROUTES = 3000, LINE = 160 };

/* One of the two kinds of handles, which all tests try. */
static bool is_concurrent;
static yarib plain = YARIB_EMPTY, other = YARIB_EMPTY;
static yarib_concurrent shared = YARIB_CONCURRENT_EMPTY;

static enum yarib_status new_table(uint32_t limit)
{
    return is_concurrent ? yarib_concurrent_new(&shared, limit) : yarib_new(&plain, limit, YARIB_PLAIN);
}

static void free_table(void)
{
    CHECK((is_concurrent ? yarib_concurrent_free(&shared) : yarib_free(&plain)) == YARIB_DONE);
}

static enum yarib_status apply(const yarib_command *command, yarib_reply *reply)
{
    return is_concurrent ? yarib_concurrent_apply(&shared, command, reply) : yarib_apply(&plain, command, reply);
}

static enum yarib_status save(uint32_t feed, FILE *file)
{
    return is_concurrent ? yarib_concurrent_save(&shared, feed, file) : yarib_save(&plain, feed, file);
}

static enum yarib_status load(uint32_t feed, FILE *file, yarib_loaded *loaded)
{
    return is_concurrent ? yarib_concurrent_load(&shared, feed, file, loaded) : yarib_load(&plain, feed, file, loaded);
}

static size_t count(void)
{
    size_t total;
    CHECK((is_concurrent ? yarib_concurrent_count(&shared, &total) : yarib_count(&plain, &total)) == YARIB_DONE);
    return total;
}

static yarib_command add(uint32_t feed, uint32_t base, uint8_t len, uint32_t preference, bool is_discard, uint32_t via)
{
    uint32_t masked = len == 0 ? 0 : base & 0xffffffffu << (32 - len);
    yarib_command command = put_command(YARIB_ADD, feed, masked, len, preference, is_discard ? 0 : via);
    if (is_discard) command.hop = YARIB_DISCARD;
    return command;
}

static uint32_t added(yarib_command command)
{
    yarib_reply reply;
    CHECK(apply(&command, &reply) == YARIB_DONE);
    return reply.code;
}

/* Fills a table with the routes of three feeds, most of them of the second. */
static void fill(uint32_t routes)
{
    CHECK(new_table(YARIB_MAX_LIMIT) == YARIB_DONE);
    for (uint32_t k = 0; k < routes; k++) {
        uint32_t feed = draw() % 5 == 0 ? 1 + draw() % 3 : 2;
        added(add(feed, draw(), (uint8_t)(draw() % 33), draw() % 3 ? draw() % 100 : draw(), draw() % 9 == 0, draw()));
    }
}

/* Writes the expected file of the feed's routes, by other means than the library's. Returns its size. */
static size_t expect(uint32_t feed, char *text)
{
    static yarib_route routes[4 * ROUTES];
    char *at = text + sprintf(text, "version 2\n");
    size_t total;
    CHECK((is_concurrent ? yarib_concurrent_routes(&shared, 0, routes, 4 * ROUTES, &total)
        : yarib_routes(&plain, 0, routes, 4 * ROUTES, &total)) == YARIB_DONE && total <= 4 * ROUTES);
    for (size_t k = 0; k < total; k++) {
        if (routes[k].feed == feed) at += write_line(at, &routes[k]);
    }
    return (size_t)(at - text);
}

static char text[ROUTES * LINE], again[ROUTES * LINE];

/* A stream over memory that fails after a number of bytes, and makes a call before its first one. */
struct stream {
    char *bytes;
    size_t size, at, most;
    void (*meanwhile)(void);
};

static void meet(struct stream *stream)
{
    void (*call)(void) = stream->meanwhile;
    stream->meanwhile = NULL;
    if (call) call();
}

static ssize_t write_stream(void *cookie, const char *bytes, size_t size)
{
    struct stream *stream = cookie;
    meet(stream);
    size_t room = stream->most - stream->at, done = size < room ? size : room;
    memcpy(stream->bytes + stream->at, bytes, done);
    stream->at += done;
    errno = ENOSPC;
    return done == 0 && size > 0 ? 0 : (ssize_t)done;
}

static ssize_t read_stream(void *cookie, char *bytes, size_t size)
{
    struct stream *stream = cookie;
    meet(stream);
    size_t end = stream->size < stream->most ? stream->size : stream->most, done = end - stream->at < size ? end - stream->at : size;
    memcpy(bytes, stream->bytes + stream->at, done);
    stream->at += done;
    errno = EIO;
    return done == 0 && stream->most <= stream->size ? -1 : (ssize_t)done;
}

static FILE *opened(struct stream *stream, const char *how)
{
    const cookie_io_functions_t calls = {.read = read_stream, .write = write_stream};
    FILE *file = fopencookie(stream, how, calls);
    CHECK(file);
    return file;
}

/* Saves the feed to memory. Returns the size. */
static size_t saved(uint32_t feed, char *bytes, size_t room)
{
    struct stream stream = {.bytes = bytes, .most = room};
    FILE *file = opened(&stream, "w");
    CHECK(save(feed, file) == YARIB_DONE);
    size_t size = stream.at; /* before fclose could write the rest */
    CHECK(fclose(file) == 0);
    return size;
}

static enum yarib_status loaded_from(const char *bytes, size_t size, uint32_t feed, yarib_loaded *loaded)
{
    struct stream stream = {.bytes = (char *)bytes, .size = size, .most = size + 1};
    FILE *file = opened(&stream, "r");
    enum yarib_status status = load(feed, file, loaded);
    CHECK(fclose(file) == 0);
    return status;
}

/* What is saved is expected, and loads again, also over other feeds' routes; then both sides of a concurrent table are the same. */
static void save_and_load(uint32_t routes)
{
    yarib_loaded loaded;
    fill(routes);
    for (uint32_t feed = 1; feed <= 4; feed++) {
        size_t size = expect(feed, text), lines = 0;
        for (size_t k = 0; k < size; k++) lines += text[k] == '\n';
        CHECK(saved(feed, again, sizeof again) == size && memcmp(text, again, size) == 0);
        size_t before = count();
        CHECK(loaded_from(text, size, 60 + feed, &loaded) == YARIB_DONE);
        CHECK(loaded.routes == lines - 1 && loaded.line == lines && count() == before + lines - 1);
        for (int side = 0; side < 3; side++) {
            CHECK(saved(60 + feed, again, sizeof again) == size && memcmp(text, again, size) == 0);
            CHECK(added((yarib_command){.operation = YARIB_PURGE, .feed = 9}) == YARIB_PURGED);
        }
    }
    free_table();
}

/* Texts, and what loading them into an empty feed with a limit of 3 does. Before, it has a route to 9.0.0.0/8. */
static const struct {
    const char *text;
    enum yarib_status status;
    size_t routes, line;
    uint32_t code;
} texts[] = {
    {"", YARIB_DONE, 0, 0, 0},
    {"\n", YARIB_DONE, 0, 1, 0},
    {"# nothing\n\n#", YARIB_DONE, 0, 3, 0},
    {"version 2\n", YARIB_DONE, 0, 1, 0},
    {"version 2", YARIB_DONE, 0, 1, 0},
    {"add 10.0.0.0/8 1 192.0.2.1\n", YARIB_DONE, 1, 1, 0},
    {"add 10.0.0.0/8 1 192.0.2.1", YARIB_DONE, 1, 1, 0},
    {"version 2\nadd 10.0.0.0/8 4294967295 discard\nadd 0.0.0.0/0 0 0.0.0.0", YARIB_DONE, 2, 3, 0},
    {"add 10.0.0.0/8 1 192.0.2.1\nadd 10.0.0.0/8 2 192.0.2.1\n", YARIB_NOT_ADDED, 1, 2, YARIB_EXISTS},
    {"add 9.0.0.0/8 1 192.0.2.1\n", YARIB_NOT_ADDED, 0, 1, YARIB_EXISTS},
    {"add 1.0.0.0/8 1 1.1.1.1\nadd 2.0.0.0/8 1 1.1.1.1\n\nadd 3.0.0.0/8 1 1.1.1.1\nx", YARIB_NOT_ADDED, 2, 4, YARIB_FULL},
    {"add 10.0.0.0/8 1 192.0.2.1\nversion 2\n", YARIB_BAD_TEXT, 1, 2, 0},
    {"version 2\nversion 2\n", YARIB_BAD_TEXT, 0, 2, 0},
    {"version 2 \n", YARIB_BAD_TEXT, 0, 1, 0},
    {"version 2\r\n", YARIB_BAD_TEXT, 0, 1, 0},
    {"version 1\n", YARIB_BAD_TEXT, 0, 1, 0},
    {"add 10.0.0.0/8 1 discard\n", YARIB_BAD_TEXT, 0, 1, 0},
    {"version 2\nadd 10.0.0.0/8 1 discar\n", YARIB_BAD_TEXT, 0, 2, 0},
    {"version 2\nadd 10.0.0.0/8 1 discardx\n", YARIB_BAD_TEXT, 0, 2, 0},
    {"version 2\nadd 10.0.0.0/8 1 \n", YARIB_BAD_TEXT, 0, 2, 0},
    {"\nadd 10.0.0.0/8 1\n", YARIB_BAD_TEXT, 0, 2, 0},
    {"add 10.0.0.0/8 1 192.0.2.1 \n", YARIB_BAD_TEXT, 0, 1, 0},
    {" add 10.0.0.0/8 1 192.0.2.1\n", YARIB_BAD_TEXT, 0, 1, 0},
    {"add  10.0.0.0/8 1 192.0.2.1\n", YARIB_BAD_TEXT, 0, 1, 0},
    {"add 10.0.0.0/8 1 192.0.2.1\r\n", YARIB_BAD_TEXT, 0, 1, 0},
    {"add 10.0.0.0/8 1 192.0.2.256\n", YARIB_BAD_TEXT, 0, 1, 0},
    {"add 10.0.0.0/8 01 192.0.2.1\n", YARIB_BAD_TEXT, 0, 1, 0},
    {"add 10.0.0.0/8 00 192.0.2.1\n", YARIB_BAD_TEXT, 0, 1, 0},
    {"add 10.0.0.0/8 +1 192.0.2.1\n", YARIB_BAD_TEXT, 0, 1, 0},
    {"add 10.0.0.0/8 1: 192.0.2.1\n", YARIB_BAD_TEXT, 0, 1, 0},
    {"add 10.0.0.0/8 1/ 192.0.2.1\n", YARIB_BAD_TEXT, 0, 1, 0},
    {"add 10.0.0.0/8 4294967296 192.0.2.1\n", YARIB_BAD_TEXT, 0, 1, 0},
    {"add 10.0.0.0/8 9999999999 192.0.2.1\n", YARIB_BAD_TEXT, 0, 1, 0},
    {"add 10.0.0.0/8 18446744073709551617 192.0.2.1\n", YARIB_BAD_TEXT, 0, 1, 0},
    {"add 10.0.0.0/33 1 192.0.2.1\n", YARIB_BAD_LENGTH, 0, 1, 0},
    {"add 10.0.0.0/33 1\n", YARIB_BAD_TEXT, 0, 1, 0},
    {"add 10.0.0.1/8 1 192.0.2.1 x\n", YARIB_BAD_TEXT, 0, 1, 0},
    {"add 10.0.0.1/8 1 192.0.2.1\n", YARIB_BAD_BITS, 0, 1, 0},
    {"add 10.0.0.0 1 192.0.2.1\n", YARIB_BAD_TEXT, 0, 1, 0},
    {"ADD 10.0.0.0/8 1 192.0.2.1\n", YARIB_BAD_TEXT, 0, 1, 0},
    {"adda 10.0.0.0/8 1 192.0.2.1\n", YARIB_BAD_TEXT, 0, 1, 0},
    {"replace 9.0.0.0/8 1 192.0.2.1\n", YARIB_BAD_TEXT, 0, 1, 0},
    {"withdraw 9.0.0.0/8\n", YARIB_BAD_TEXT, 0, 1, 0},
    {"lookup 9.0.0.0\n", YARIB_BAD_TEXT, 0, 1, 0},
    {"version 2\npurge\n", YARIB_BAD_TEXT, 0, 2, 0},
};

static void load_texts(void)
{
    for (size_t k = 0; k < sizeof texts / sizeof *texts; k++) {
        yarib_loaded loaded = {99, 99, 0};
        CHECK(new_table(3) == YARIB_DONE && added(add(1, 9u << 24, 8, 7, false, 7)) == YARIB_ADDED);
        if (loaded_from(texts[k].text, strlen(texts[k].text), 1, &loaded) != texts[k].status || loaded.routes != texts[k].routes
            || loaded.line != texts[k].line || (texts[k].code != 0 && loaded.code != texts[k].code)
            || count() != 1 + texts[k].routes) {
            fprintf(stderr, "%s:%d: text %zu: %s\n", __FILE__, __LINE__, k, texts[k].text);
            exit(1);
        }
    }
    /* Lines of 127 to 131 bytes: a comment, and one with a byte of each kind. */
    for (size_t size = 127; size <= 131; size++) {
        for (int end = 0; end < 2; end++) {
            yarib_loaded loaded;
            memset(text, 0x80, size);
            text[0] = '#';
            text[1] = 0;
            text[size] = '\n';
            CHECK(new_table(3) == YARIB_DONE);
            CHECK(loaded_from(text, size + (size_t)end, 1, &loaded) == (size <= 128 ? YARIB_DONE : YARIB_BAD_TEXT));
            CHECK(loaded.routes == 0 && loaded.line == 1);
            memcpy(text, "add 10.0.0.0/8 1 192.0.2.1", 26);
            CHECK(loaded_from(text, size + (size_t)end, 1, &loaded) == YARIB_BAD_TEXT && loaded.line == 1);
        }
    }
    /* A byte 0 isn't the end of a line. */
    yarib_loaded loaded;
    CHECK(loaded_from("\0\n", 2, 1, &loaded) == YARIB_BAD_TEXT && loaded_from("#\0\nx", 4, 1, &loaded) == YARIB_BAD_TEXT);
    CHECK(loaded.line == 2 && count() == 0);
    /* It doesn't read beyond the line at which it stops. */
    static char lines[] = "add 1.0.0.0/8 1 1.1.1.1\nadd 1.0.0.0/8 1 1.1.1.1\nadd 2.0.0.0/8 1 1.1.1.1\n";
    struct stream stream = {.bytes = lines, .size = sizeof lines - 1, .most = sizeof lines};
    FILE *file = opened(&stream, "r");
    CHECK(load(1, file, &loaded) == YARIB_NOT_ADDED && loaded.line == 2);
    CHECK(load(1, file, &loaded) == YARIB_DONE && loaded.line == 1 && loaded.routes == 1 && count() == 2);
    CHECK(fclose(file) == 0);
    free_table();
}

/* A file that fails after each number of its bytes: what was written is the beginning of the right text, and what was loaded are
 * the routes of its whole lines. */
static void fail_files(void)
{
    yarib_loaded loaded;
    fill(40);
    size_t size = expect(2, text);
    for (size_t most = 0; most <= size; most++) {
        struct stream stream = {.bytes = again, .most = most};
        FILE *file = opened(&stream, "w");
        errno = 0;
        enum yarib_status status = save(2, file);
        CHECK(status == (most < size ? YARIB_BAD_FILE : YARIB_DONE) && (status == YARIB_DONE || errno == ENOSPC));
        CHECK(stream.at == most && memcmp(text, again, most) == 0);
        fclose(file);
        stream.at = 0;
        file = opened(&stream, "w");
        setvbuf(file, NULL, _IONBF, 0);
        CHECK(save(2, file) == (most < size ? YARIB_BAD_FILE : YARIB_DONE) && memcmp(text, again, most) == 0);
        fclose(file);
    }
    size_t before = count();
    for (size_t most = 0; most <= size; most++) {
        struct stream stream = {.bytes = text, .size = size, .most = most};
        FILE *file = opened(&stream, "r");
        size_t lines = 0;
        for (size_t k = 0; k < most; k++) lines += text[k] == '\n';
        errno = 0;
        CHECK(load(50, file, &loaded) == YARIB_BAD_FILE && errno == EIO);
        CHECK(loaded.routes == (lines == 0 ? 0 : lines - 1) && count() == before + loaded.routes);
        /* The indicator stays, so nothing is added then either. */
        CHECK(load(51, file, &loaded) == YARIB_BAD_FILE && loaded.routes == 0);
        fclose(file);
        CHECK(added((yarib_command){.operation = YARIB_PURGE, .feed = 50}) == YARIB_PURGED && count() == before);
    }
    FILE *full = fopen("/dev/full", "w"), *folder = fopen(".", "r");
    CHECK(full && folder && save(2, full) == YARIB_BAD_FILE && load(50, folder, &loaded) == YARIB_BAD_FILE && count() == before);
    fclose(full);
    fclose(folder);
    free_table();
}

/* Statuses of an empty handle, of an invalid feed, and of what isn't a table. Nothing is written or read then. */
static void refuse(void)
{
    struct stream stream = {.bytes = again, .most = sizeof again}, lines = {.bytes = text, .size = 5, .most = 6};
    FILE *file = opened(&stream, "w"), *from = opened(&lines, "r");
    yarib_loaded loaded = {77, 78, 79};
    CHECK(save(0, file) == YARIB_NOTHING && load(YARIB_MAX_FEED + 1, from, &loaded) == YARIB_NOTHING);
    CHECK(loaded.routes == 0 && loaded.line == 0 && loaded.code == 0);
    CHECK(new_table(3) == YARIB_DONE);
    for (uint32_t k = 0; k < 5; k++) {
        const uint32_t feeds[] = {0, YARIB_MAX_FEED + 1, 0xffffffff, 257, 65537};
        loaded = (yarib_loaded){77, 78, 79};
        CHECK(save(feeds[k], file) == YARIB_BAD_NUMBER && load(feeds[k], from, &loaded) == YARIB_BAD_NUMBER);
        CHECK(loaded.routes == 0 && loaded.line == 0 && loaded.code == 0);
    }
    if (!is_concurrent) {
        CHECK(yarib_fib_new(&plain, &other) == YARIB_DONE);
        CHECK(yarib_save(&other, YARIB_MAX_FEED + 1, file) == YARIB_BAD_NUMBER && yarib_load(&other, 0, from, &loaded) == YARIB_BAD_NUMBER);
        CHECK(yarib_save(&other, 1, file) == YARIB_WRONG_KIND && yarib_load(&other, 1, from, &loaded) == YARIB_WRONG_KIND);
        CHECK(yarib_new(&other, 3, YARIB_JOURNALED) == YARIB_DONE);
        CHECK(loaded_from("add 1.0.0.0/8 1 2.2.2.2", 23, YARIB_MAX_FEED, &loaded) == YARIB_DONE && loaded.routes == 1);
        CHECK(yarib_free(&other) == YARIB_DONE);
    }
    CHECK(fflush(file) == 0 && stream.at == 0 && lines.at == 0);
    CHECK(fclose(file) == 0 && fclose(from) == 0);
    free_table();
}

/* A journal has an entry for each line that was loaded. */
static void load_journaled(void)
{
    yarib_entry entries[4];
    yarib_loaded loaded;
    size_t total;
    CHECK(yarib_new(&plain, 3, YARIB_JOURNALED) == YARIB_DONE);
    CHECK(loaded_from("add 1.0.0.0/8 1 2.2.2.2\n#\nadd 1.0.0.0/8 1 2.2.2.2\n", 50, YARIB_MAX_FEED, &loaded) == YARIB_NOT_ADDED && loaded.line == 3);
    CHECK(yarib_journal(&plain, 0, entries, 4, &total) == YARIB_DONE && total == 2);
    CHECK(entries[0].command.feed == YARIB_MAX_FEED && entries[0].reply.code == YARIB_ADDED && entries[1].reply.code == YARIB_EXISTS);
    CHECK(yarib_free(&plain) == YARIB_DONE);
}

/* Each allocation of a save and of a load fails in turn, but for those of the C library. */
static void refuse_memory(void)
{
    yarib_loaded loaded;
    fill(30);
    size_t size = expect(2, text), lines = 0, before = count();
    for (size_t k = 0; k < size; k++) lines += text[k] == '\n';
    int number = 1;
    for (bool is_refused = true; is_refused; number++) {
        struct stream stream = {.bytes = again, .most = sizeof again};
        FILE *file = opened(&stream, "w");
        refused_call = number;
        enum yarib_status status = save(2, file);
        is_refused = refused_call == 0;
        refused_call = 0;
        CHECK(status == (is_refused ? YARIB_NO_MEMORY : YARIB_DONE) && (!is_refused || (fflush(file) == 0 && stream.at == 0)));
        CHECK(fclose(file) == 0 && (is_refused || (stream.at == size && memcmp(text, again, size) == 0)));
    }
    CHECK(number > 3);
    number = 1;
    size_t most = 0;
    int late = 0;
    for (bool is_refused = true; is_refused; number++) {
        refused_call = number;
        enum yarib_status status = loaded_from(text, size, 50, &loaded);
        is_refused = refused_call == 0;
        refused_call = 0;
        /* The second side of a concurrent table gets the routes once they are published, or with the next change. */
        bool is_late = is_concurrent && is_refused && status == YARIB_DONE, is_whole = !is_refused || is_late;
        CHECK(status == (is_whole ? YARIB_DONE : YARIB_NO_MEMORY) && count() == before + loaded.routes);
        bool is_begun = !is_concurrent || is_whole || loaded.line > 0;
        if (!is_begun) CHECK(loaded.routes == 0);
        else CHECK(is_whole ? loaded.line == lines && loaded.routes == lines - 1 : loaded.line == loaded.routes + 2);
        late += is_late;
        CHECK(loaded.routes >= most && (most = loaded.routes) == loaded.routes);
        CHECK(added((yarib_command){.operation = YARIB_PURGE, .feed = 50}) == YARIB_PURGED && count() == before);
        CHECK(added((yarib_command){.operation = YARIB_DUMP, .feed = 50}) == YARIB_DUMPED && count() == before);
    }
    CHECK(number > 20 && (late > 9) == is_concurrent);
    free_table();
}

static size_t seen, steps;

/* While a file is loaded into a table, all other calls on it are busy; readers of a concurrent one have what is published. */
static void during_load(void)
{
    const yarib_command one = add(3, 99u << 24, 8, 1, false, 1);
    yarib_reply reply;
    yarib_route route;
    yarib_loaded loaded;
    size_t total;
    CHECK(apply(&one, &reply) == YARIB_BUSY && load(3, stdin, &loaded) == YARIB_BUSY);
    if (!is_concurrent) {
        CHECK(yarib_count(&plain, &total) == YARIB_BUSY && yarib_look_up_one(&plain, 1, &route) == YARIB_BUSY);
        CHECK(yarib_save(&plain, 1, stdout) == YARIB_BUSY);
    } else {
        CHECK(count() == seen && yarib_concurrent_free(&shared) == YARIB_BUSY);
    }
    steps++;
}

/* While routes are written, the table may change: what is written are the routes before. */
static void during_save(void)
{
    CHECK(added(add(2, 99u << 24, 8, 1, false, 1)) == YARIB_ADDED && added(add(2, 98u << 24, 8, 1, false, 1)) == YARIB_ADDED);
    steps++;
}

static void meet_calls(void)
{
    yarib_loaded loaded;
    steps = 0;
    CHECK(new_table(YARIB_MAX_LIMIT) == YARIB_DONE);
    for (uint32_t k = 0; k < 10; k++) CHECK(added(add(2, k << 24, 8, k, false, k)) == YARIB_ADDED);
    size_t size = expect(2, text);
    struct stream stream = {.bytes = again, .most = sizeof again, .meanwhile = during_save};
    FILE *file = opened(&stream, "w");
    CHECK(save(2, file) == YARIB_DONE && stream.at == size && memcmp(text, again, size) == 0 && fclose(file) == 0 && steps == 1);
    stream = (struct stream){.bytes = text, .size = size, .most = size + 1, .meanwhile = during_load};
    file = opened(&stream, "r");
    seen = 12;
    CHECK(load(1, file, &loaded) == YARIB_DONE && loaded.routes == 10 && fclose(file) == 0 && steps == 2 && count() == 22);
    free_table();
}

/* Reads the next line of a long file, one at a time. Until its end no route is published. */
static uint32_t next_line, lines_in_all;
static long left_at_1024;

static ssize_t read_next(void *cookie, char *bytes, size_t size)
{
    (void)cookie;
    during_load();
    if (next_line == 1024) left_at_1024 = refused_call;
    if (next_line == lines_in_all) return 0;
    CHECK(size > 40);
    int used = sprintf(bytes, "add %u.%u.0.0/16 %u 1.1.1.1\n", next_line >> 8, next_line & 255, next_line);
    next_line++;
    return used;
}

/* A concurrent table is published once, after all lines, and then both sides have all of them. */
static void load_many(uint32_t lines)
{
    const cookie_io_functions_t calls = {.read = read_next};
    FILE *file = fopencookie(NULL, "r", calls);
    yarib_loaded loaded;
    next_line = 0;
    seen = 0;
    lines_in_all = lines;
    CHECK(file && new_table(YARIB_MAX_LIMIT) == YARIB_DONE);
    CHECK(load(1, file, &loaded) == YARIB_DONE && loaded.routes == lines && loaded.line == lines && count() == lines);
    CHECK(fclose(file) == 0);
    for (int side = 0; side < 3; side++) {
        CHECK(count() == lines && added((yarib_command){.operation = YARIB_DUMP, .feed = 1}) == YARIB_DUMPED);
        CHECK(added(add(2, (uint32_t)side << 24, 8, 1, false, 1)) == YARIB_ADDED);
        CHECK(added((yarib_command){.operation = YARIB_PURGE, .feed = 2}) == YARIB_PURGED);
    }
    free_table();
}

/* There is room for 1,024 lines at first. If no memory is found for more, the lines before are loaded. */
static void refuse_room(void)
{
    const cookie_io_functions_t calls = {.read = read_next};
    const long many = 1000000;
    yarib_loaded loaded;
    for (long number = many; number > 0; number = number == many ? many - left_at_1024 + 1 : 0) {
        FILE *file = fopencookie(NULL, "r", calls);
        next_line = 0;
        seen = 0;
        lines_in_all = 1100;
        CHECK(file && new_table(YARIB_MAX_LIMIT) == YARIB_DONE);
        refused_call = number;
        enum yarib_status status = load(1, file, &loaded);
        CHECK(number == many ? status == YARIB_DONE && count() == 1100 : status == YARIB_NO_MEMORY && count() == 1024);
        CHECK(number == many || (refused_call == 0 && loaded.routes == 1024 && loaded.line == 1025));
        refused_call = 0;
        CHECK(fclose(file) == 0);
        free_table();
    }
}

static void load_lines(bool has_version)
{
    char line[LINE], file[2 * LINE];
    while (fgets(line, sizeof line, stdin)) {
        yarib_loaded loaded;
        CHECK(new_table(1) == YARIB_DONE);
        int size = sprintf(file, "%s%s", has_version ? "version 2\n" : "", line);
        enum yarib_status status = loaded_from(file, (size_t)size, 1, &loaded);
        CHECK(loaded.routes <= 1 && loaded.line <= 2 && count() == loaded.routes);
        printf("%d\n", status == YARIB_DONE);
    }
    free_table();
}

static void refuse_and_save(void)
{
    refuse();
    save_and_load(0);
    save_and_load(ROUTES);
}

static void load_journaled_plain(void)
{
    if (!is_concurrent) load_journaled();
}

/* Runs a test of a table, and then of a concurrent one. */
static const struct {
    const char *name;
    void (*run)(void);
} tests[] = {{"save", refuse_and_save}, {"texts", load_texts}, {"fail", fail_files}, {"memory", refuse_memory}, {"meet", meet_calls},
    {"journaled", load_journaled_plain}};

/* With an argument, only the test with this name is run, and lines reads a text of the version in the second one; the status is 2 if
 * there is none. */
int main(int size, char **words)
{
    int run = 0;
    if (size > 2 && strcmp(words[1], "lines") == 0) {
        load_lines(strcmp(words[2], "2") == 0);
        return 0;
    }
    for (size_t k = 0; k < 2 * sizeof tests / sizeof *tests; k++) {
        is_concurrent = k % 2 == 1;
        if (size > 1 && strcmp(words[1], tests[k / 2].name) != 0) continue;
        tests[k / 2].run();
        run++;
    }
    if (size > 1 && strcmp(words[1], "many") != 0) return run > 0 ? 0 : 2;
    is_concurrent = true;
    for (uint32_t lines = 1023; lines <= 1025; lines++) load_many(lines);
    load_many(5 * 1024);
    refuse_room();
    return 0;
}
