/* A daemon in small: it loads a feed file, looks up in two threads while the standard input changes the table, reads the file again when
 * it is told to, and at the end saves the routes and prints where packets go another way than at the start.
 *
 *     example_daemon FILE SAVED     # standard input has lines: add PREFIX ROUTER, withdraw PREFIX, look ADDRESS, reload */
#include <pthread.h>
#include <stdatomic.h>
#include <stdbool.h>
#include <stdio.h>
#include <string.h>
#include <yarib.h>

enum { LIMIT = 1000000, READERS = 2 };

static yarib_concurrent table = YARIB_CONCURRENT_INIT;
static atomic_bool is_ended;
static atomic_ulong answered;

/* What a forwarding thread does: it never waits for a change. */
static void *look_up(void *unused)
{
    uint32_t address = 0;
    yarib_route answer;
    do {
        if (yarib_concurrent_look_up_one(&table, address += 2654435769u, &answer) == YARIB_DONE) answered++;
    } while (!is_ended);
    return unused;
}

static bool complain(const char *what, enum yarib_status status)
{
    fprintf(stderr, "%s: %s\n", what, yarib_status_text(status));
    return false;
}

/* Loads a file aside, and publishes its routes in one step. If a line is wrong, the published table stays. */
static bool load(const char *name)
{
    yarib aside = YARIB_INIT;
    yarib_loaded loaded;
    FILE *file = fopen(name, "r");
    if (!file) return complain(name, YARIB_BAD_FILE);
    enum yarib_status status = yarib_new(&aside, LIMIT, YARIB_PLAIN);
    if (status == YARIB_DONE) status = yarib_load(&aside, 1, file, &loaded);
    if (status == YARIB_DONE) status = yarib_concurrent_replace(&table, LIMIT, &aside);
    fclose(file);
    yarib_free(&aside);
    return status == YARIB_DONE || complain(name, status);
}

static bool save(const char *name)
{
    FILE *file = fopen(name, "w");
    if (!file) return complain(name, YARIB_BAD_FILE);
    enum yarib_status status = yarib_concurrent_save(&table, 1, file);
    if (fclose(file) != 0 && status == YARIB_DONE) status = YARIB_BAD_FILE;
    return status == YARIB_DONE || complain(name, status);
}

/* Prints a text before an address, or before what else a route says. */
static void show(const char *before, uint32_t address, uint32_t hop)
{
    static const char *const others[] = {[YARIB_NO_ROUTE] = "no route", [YARIB_DISCARD] = "discard"};
    char text[YARIB_MAX_ADDRESS_TEXT];
    size_t used;
    if (hop != YARIB_VIA) printf("%s%s", before, others[hop]);
    else if (yarib_address_print(address, text, sizeof text, &used) == YARIB_DONE) printf("%s%.*s", before, (int)used, text);
}

static void show_answer(const char *address)
{
    yarib_route answer;
    enum yarib_status status = yarib_concurrent_look_up_text(&table, address, strlen(address), &answer);
    if (status != YARIB_DONE) {
        complain(address, status);
        return;
    }
    show("", answer.via, answer.hop);
    printf("\n");
}

/* Adds or withdraws a route of feed 1. A change is in each look-up that begins after it. */
static void change(uint32_t operation, const char *prefix, const char *router)
{
    yarib_command command = {.operation = operation, .feed = 1, .hop = YARIB_VIA};
    yarib_prefix read;
    yarib_reply reply;
    enum yarib_status status = yarib_prefix_parse(prefix, strlen(prefix), &read);
    if (status == YARIB_DONE && operation == YARIB_ADD) status = yarib_address_parse(router, strlen(router), &command.via);
    if (status == YARIB_DONE) {
        command.base = read.base;
        command.len = read.len;
        status = yarib_concurrent_apply(&table, &command, &reply);
    }
    if (status != YARIB_DONE) complain(prefix, status);
    else if (reply.code == YARIB_EXISTS) fprintf(stderr, "%s: has a route\n", prefix);
    else if (reply.code == YARIB_MISSING) fprintf(stderr, "%s: has no route\n", prefix);
}

static void obey(const char *file)
{
    char line[128], first[64], second[64];
    while (fgets(line, sizeof line, stdin)) {
        if (sscanf(line, "add %63s %63s", first, second) == 2) change(YARIB_ADD, first, second);
        else if (sscanf(line, "withdraw %63s", first) == 1) change(YARIB_WITHDRAW, first, "");
        else if (sscanf(line, "look %63s", first) == 1) show_answer(first);
        else if (strcmp(line, "reload\n") == 0) (void)load(file);
        else fprintf(stderr, "unknown: %s", line);
    }
}

/* Prints where packets go another way than in the table of the start. Both tables are copies, so no change disturbs the comparison. */
static bool compare(const yarib *start)
{
    yarib now = YARIB_INIT;
    yarib_difference range = {.last = UINT32_MAX};
    enum yarib_status status = yarib_concurrent_copy(&table, LIMIT, &now);
    while (status == YARIB_DONE && (status = yarib_first_difference(start, &now, 0, range.last + 1, &range)) == YARIB_DONE) {
        show("", range.first, YARIB_VIA);
        show(" to ", range.last, YARIB_VIA);
        show(": ", range.before.via, range.before.hop);
        show(", then ", range.after.via, range.after.hop);
        printf("\n");
        if (range.last == UINT32_MAX) status = YARIB_NONE_LEFT;
    }
    yarib_free(&now);
    return status == YARIB_NONE_LEFT || complain("comparison", status);
}

int main(int size, char **words)
{
    yarib start = YARIB_INIT;
    pthread_t readers[READERS];
    if (size != 3 || !load(words[1])) return 1;
    if (yarib_concurrent_fib_attach(&table) != YARIB_DONE) fprintf(stderr, "look-ups are slow: no memory for a forwarding table\n");
    enum yarib_status status = yarib_concurrent_copy(&table, LIMIT, &start);
    if (status != YARIB_DONE) return !complain("copy", status);
    for (int k = 0; k < READERS; k++) if (pthread_create(&readers[k], NULL, look_up, NULL) != 0) return 1;
    obey(words[1]);
    is_ended = true;
    for (int k = 0; k < READERS; k++) pthread_join(readers[k], NULL);
    bool is_done = save(words[2]) && compare(&start) && answered > 0 && fflush(stdout) == 0;
    yarib_free(&start);
    yarib_concurrent_free(&table);
    return !is_done;
}
