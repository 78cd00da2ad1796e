/* Feed files of a feed's routes: the calls of yarib.h that save them, and how the calls that load them read lines. */
#define _POSIX_C_SOURCE 200809L
#include "layer.h"

#include <inttypes.h>
#include <pthread.h>
#include <stdlib.h>
#include <string.h>

/* The largest number of bytes of a line, without its end. */
enum { LONGEST = 128 };

/* The first line of a file of version 2, which has `discard`. */
#define VERSION "version 2"

/* Writes the line of a route. Returns false if the file refuses it. */
static bool write_route(FILE *file, const yarib_route *route)
{
    const yarib_prefix prefix = {route->base, route->len};
    char text[YARIB_MAX_PREFIX_TEXT], hop[YARIB_MAX_ADDRESS_TEXT] = "discard";
    size_t size = 0, hop_size = strlen("discard");
    if (yarib_prefix_print(&prefix, text, sizeof text, &size) != YARIB_DONE) abort();
    if (route->hop == YARIB_VIA && yarib_address_print(route->via, hop, sizeof hop, &hop_size) != YARIB_DONE) abort();
    return fprintf(file, "add %.*s %" PRIu32 " %.*s\n", (int)size, text, route->pref, (int)hop_size, hop) > 0;
}

static enum yarib_status save(const yarib *table, const yarib_concurrent *concurrent, uint32_t feed, FILE *file)
{
    struct list list;
    /* 0 would select the routes of all feeds. */
    enum yarib_status status = list_routes(table, concurrent, feed == 0 ? YARIB_MAX_FEED + 1 : feed, &list);
    if (status != YARIB_DONE) return status;
    int before;
    pthread_setcancelstate(PTHREAD_CANCEL_DISABLE, &before);
    bool is_written = fputs(VERSION "\n", file) >= 0;
    for (size_t k = 0; k < list.size && is_written; k++) is_written = write_route(file, &list.routes[k]);
    free_list(&list);
    is_written = is_written && fflush(file) == 0;
    pthread_setcancelstate(before, NULL);
    return is_written ? YARIB_DONE : YARIB_BAD_FILE;
}

enum yarib_status yarib_save(const yarib *table, uint32_t feed, FILE *file)
{
    return save(table, NULL, feed, file);
}

enum yarib_status yarib_concurrent_save(const yarib_concurrent *table, uint32_t feed, FILE *file)
{
    return save(NULL, table, feed, file);
}

/* A line of a file, without its end. `size` is LONGEST + 1 if it is longer than a line may be: then its rest isn't read. */
struct line {
    char text[LONGEST + 1];
    size_t size;
};

/* Reads the next line. Returns false if there is none. */
static bool read_line(FILE *file, struct line *line)
{
    int byte = EOF;
    line->size = 0;
    while (line->size <= LONGEST && (byte = getc_unlocked(file)) != EOF && byte != '\n') line->text[line->size++] = (char)byte;
    return line->size > 0 || byte != EOF;
}

/* Cuts off the first field of a text, up to a space or to the end, which is empty then. */
static size_t cut(const char **text, size_t *size)
{
    const char *space = memchr(*text, ' ', *size);
    size_t field = space ? (size_t)(space - *text) : *size, passed = space ? field + 1 : field;
    *text += passed;
    *size -= passed;
    return field;
}

/* Parses a preference: a decimal without leading zeros. */
static bool parse_pref(const char *text, size_t size, uint32_t *pref)
{
    uint64_t read = 0;
    if (size == 0 || size > 10 || (size > 1 && *text == '0')) return false;
    for (size_t k = 0; k < size; k++) {
        if (text[k] < '0' || text[k] > '9') return false;
        read = 10 * read + (uint64_t)(text[k] - '0');
    }
    *pref = (uint32_t)read;
    return read <= UINT32_MAX;
}

static bool is_text(const char *text, size_t size, const char *expected)
{
    return size == strlen(expected) && memcmp(text, expected, size) == 0;
}

/* Parses a line `add PREFIX PREF HOP` into a command, without its feed. */
static enum yarib_status parse_add(const struct line *line, bool has_discard, yarib_command *command)
{
    const char *rest = line->text, *at = rest;
    size_t left = line->size, spaces = 0, size;
    yarib_prefix prefix;
    for (size_t k = 0; k < left; k++) spaces += rest[k] == ' ';
    if (left > LONGEST || spaces != 3 || !is_text(at, cut(&rest, &left), "add")) return YARIB_BAD_TEXT;
    at = rest;
    size = cut(&rest, &left);
    enum yarib_status status = yarib_prefix_parse(at, size, &prefix);
    if (status != YARIB_DONE) return status;
    *command = (yarib_command){.operation = YARIB_ADD, .base = prefix.base, .len = prefix.len, .hop = YARIB_VIA};
    at = rest;
    size = cut(&rest, &left);
    if (!parse_pref(at, size, &command->pref)) return YARIB_BAD_TEXT;
    if (!has_discard || !is_text(rest, left, "discard")) return yarib_address_parse(rest, left, &command->via);
    command->hop = YARIB_DISCARD;
    return YARIB_DONE;
}

/* Adds the route of a line, if it has one. */
static enum yarib_status add_line(const struct line *line, uint32_t feed, const struct adder *adder, bool *has_discard,
    yarib_loaded *loaded)
{
    yarib_command command;
    yarib_reply reply;
    if (++loaded->line == 1 && is_text(line->text, line->size, VERSION)) {
        *has_discard = true;
        return YARIB_DONE;
    }
    if (line->size == 0 || (line->size <= LONGEST && line->text[0] == '#')) return YARIB_DONE;
    enum yarib_status status = parse_add(line, *has_discard, &command);
    command.feed = feed;
    if (status == YARIB_DONE) status = adder->add(adder->table, &command, &reply);
    if (status != YARIB_DONE) return status;
    loaded->code = reply.code;
    if (reply.code != YARIB_ADDED) return YARIB_NOT_ADDED;
    loaded->routes++;
    return YARIB_DONE;
}

enum yarib_status add_lines(FILE *file, uint32_t feed, const struct adder *adder, yarib_loaded *loaded)
{
    enum yarib_status status = YARIB_DONE;
    bool has_discard = false;
    struct line line;
    int before;
    /* A thread that is cancelled as it reads would leave its change for good. */
    pthread_setcancelstate(PTHREAD_CANCEL_DISABLE, &before);
    flockfile(file);
    /* A read error ends a line like the end of the file, so it is looked for first. */
    while (status == YARIB_DONE && read_line(file, &line) && !ferror(file)) status = add_line(&line, feed, adder, &has_discard, loaded);
    if (status == YARIB_DONE && ferror(file)) status = YARIB_BAD_FILE;
    funlockfile(file);
    pthread_setcancelstate(before, NULL);
    return status;
}
