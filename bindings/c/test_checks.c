/* With YARIB_CHECK each call tests what its caller owes: a null pointer in the place of each argument, memory that is read and written
 * at once, and one handle in the place of two end the program by an assert. The rest of the arguments is as it should be. */
#define YARIB_CHECK
#include "check.h"

#include <signal.h>
#include <stdbool.h>
#include <string.h>
#include <sys/resource.h>
#include <sys/wait.h>
#include <yarib.h>

static yarib t, u;
static yarib_concurrent k, l;
static yarib_command command;
static yarib_reply reply;
static yarib_route route, routes[2];
static yarib_selection selection;
static yarib_entry entry;
static yarib_difference difference;
static yarib_prefix prefix;
static uint32_t address, hop;
static uint32_t numbers[2];
static yarib_view view = {numbers, 1, numbers, 1, numbers, 1};
static yarib_view no_entries = {NULL, 1, numbers, 1, numbers, 1};
static yarib_view no_blocks = {numbers, 1, NULL, 1, numbers, 1};
static yarib_view no_routers = {numbers, 1, numbers, 1, NULL, 1};
static size_t size, other;
static yarib_loaded loaded;
static yarib_change change;
static yarib_hop_count hop_count;
static char text[20];
static union {
    yarib_command commands[2];
    yarib_reply replies[2];
    yarib_change changes[2];
    yarib_route routes[2];
    yarib_selection selection;
    uint32_t numbers[8];
} both;

/* A call that must end the program. */
#define FAULT(call) case __COUNTER__: (void)!(call); break

static int fault(int number)
{
    switch (number) {
    FAULT(yarib_new(NULL, 1, 0));
    FAULT(yarib_free(NULL));
    FAULT(yarib_apply(NULL, &command, &reply));
    FAULT(yarib_apply(&t, NULL, &reply));
    FAULT(yarib_apply(&t, &command, NULL));
    FAULT(yarib_apply(&t, both.commands, both.replies));
    FAULT(yarib_apply_changed(NULL, &command, &reply, &change));
    FAULT(yarib_apply_changed(&t, NULL, &reply, &change));
    FAULT(yarib_apply_changed(&t, &command, NULL, &change));
    FAULT(yarib_apply_changed(&t, &command, &reply, NULL));
    FAULT(yarib_apply_changed(&t, both.commands, both.replies, &change));
    FAULT(yarib_apply_changed(&t, both.commands, &reply, both.changes));
    FAULT(yarib_apply_changed(&t, &command, both.replies, both.changes));
    FAULT(yarib_hop_counts(NULL, 0, &hop_count, 1, &size));
    FAULT(yarib_hop_counts(&t, 0, NULL, 1, &size));
    FAULT(yarib_hop_counts(&t, 0, &hop_count, 1, NULL));
    FAULT(yarib_purge_changes(NULL, 1, 0, &change, 1, &size));
    FAULT(yarib_purge_changes(&t, 1, 0, NULL, 1, &size));
    FAULT(yarib_purge_changes(&t, 1, 0, &change, 1, NULL));
    FAULT(yarib_apply_each(NULL, &command, 1, &reply, 1));
    FAULT(yarib_apply_each(&t, NULL, 1, &reply, 1));
    FAULT(yarib_apply_each(&t, &command, 1, NULL, 1));
    FAULT(yarib_apply_each(&t, both.commands, 1, both.replies, 1));
    FAULT(yarib_reserve(NULL, 1));
    FAULT(yarib_look_up(NULL, &address, 1, &route, 1));
    FAULT(yarib_look_up(&t, NULL, 1, &route, 1));
    FAULT(yarib_look_up(&t, &address, 1, NULL, 1));
    FAULT(yarib_look_up(&t, both.numbers, 1, both.routes, 1));
    FAULT(yarib_look_up_one(NULL, 1, &route));
    FAULT(yarib_look_up_one(&t, 1, NULL));
    FAULT(yarib_look_up_text(NULL, text, 1, &route));
    FAULT(yarib_look_up_text(&t, NULL, 1, &route));
    FAULT(yarib_look_up_text(&t, text, 1, NULL));
    FAULT(yarib_look_up_text(&t, (char *)both.routes, 1, both.routes));
    FAULT(yarib_hops(NULL, &address, 1, 0, 1, &hop, 1));
    FAULT(yarib_hops(&t, NULL, 1, 0, 1, &hop, 1));
    FAULT(yarib_hops(&t, &address, 1, 0, 1, NULL, 1));
    FAULT(yarib_hops(&t, both.numbers, 2, 0, 1, both.numbers + 1, 2));
    FAULT(yarib_look_up_all(NULL, 1, 0, routes, 2, &size));
    FAULT(yarib_look_up_all(&t, 1, 0, NULL, 2, &size));
    FAULT(yarib_look_up_all(&t, 1, 0, routes, 2, NULL));
    FAULT(yarib_routes(NULL, 0, routes, 2, &size));
    FAULT(yarib_routes(&t, 0, NULL, 2, &size));
    FAULT(yarib_routes(&t, 0, routes, 2, NULL));
    FAULT(yarib_routes_from(NULL, &route, routes, 2, &size));
    FAULT(yarib_routes_from(&t, NULL, routes, 2, &size));
    FAULT(yarib_routes_from(&t, &route, NULL, 2, &size));
    FAULT(yarib_routes_from(&t, &route, routes, 2, NULL));
    FAULT(yarib_routes_from(&t, &routes[1], routes, 2, &size));
    FAULT(yarib_select(NULL, &selection, 0, routes, 2, &size));
    FAULT(yarib_select(&t, NULL, 0, routes, 2, &size));
    FAULT(yarib_select(&t, &selection, 0, NULL, 2, &size));
    FAULT(yarib_select(&t, &selection, 0, routes, 2, NULL));
    FAULT(yarib_select(&t, &both.selection, 0, both.routes, 2, &size));
    FAULT(yarib_select_by_hop(NULL, &selection, 0, 0, 0, routes, 2, &size));
    FAULT(yarib_select_by_hop(&t, NULL, 0, 0, 0, routes, 2, &size));
    FAULT(yarib_select_by_hop(&t, &selection, 0, 0, 0, NULL, 2, &size));
    FAULT(yarib_select_by_hop(&t, &selection, 0, 0, 0, routes, 2, NULL));
    FAULT(yarib_select_by_hop(&t, &both.selection, 0, 0, 0, both.routes, 2, &size));
    FAULT(yarib_count(NULL, &size));
    FAULT(yarib_count(&t, NULL));
    FAULT(yarib_journal(NULL, 0, &entry, 1, &size));
    FAULT(yarib_journal(&t, 0, NULL, 1, &size));
    FAULT(yarib_journal(&t, 0, &entry, 1, NULL));
    FAULT(yarib_first_difference(NULL, &u, 0, 0, &difference));
    FAULT(yarib_first_difference(&t, NULL, 0, 0, &difference));
    FAULT(yarib_first_difference(&t, &u, 0, 0, NULL));
    FAULT(yarib_first_difference(&t, &t, 0, 0, &difference));
    FAULT(yarib_fib_new(NULL, &u));
    FAULT(yarib_fib_new(&t, NULL));
    FAULT(yarib_fib_new(&t, &t));
    FAULT(yarib_fib_clone(NULL, &u));
    FAULT(yarib_fib_clone(&t, NULL));
    FAULT(yarib_fib_clone(&t, &t));
    FAULT(yarib_fib_attach(NULL));
    FAULT(yarib_fib_is_attached(NULL, &hop));
    FAULT(yarib_fib_is_attached(&t, NULL));
    FAULT(yarib_view_sizes(NULL, &size, &other));
    FAULT(yarib_view_sizes(&t, NULL, &other));
    FAULT(yarib_view_sizes(&t, &size, NULL));
    FAULT(yarib_view_sizes(&t, &size, &size));
    FAULT(yarib_view_write(NULL, &view));
    FAULT(yarib_view_write(&t, NULL));
    FAULT(yarib_view_write(&t, &no_entries));
    FAULT(yarib_view_write(&t, &no_blocks));
    FAULT(yarib_view_write(&t, &no_routers));
    FAULT(yarib_view_look_up(NULL, 1));
    FAULT(yarib_view_look_up(&no_entries, 1));
    FAULT(yarib_view_look_up(&no_blocks, 1));
    FAULT(yarib_view_look_up(&no_routers, 1));
    FAULT(yarib_view_look_up_each(NULL, &address, 1, &hop, 1));
    FAULT(yarib_view_look_up_each(&no_entries, &address, 1, &hop, 1));
    FAULT(yarib_view_look_up_each(&no_blocks, &address, 1, &hop, 1));
    FAULT(yarib_view_look_up_each(&no_routers, &address, 1, &hop, 1));
    FAULT(yarib_view_look_up_each(&view, NULL, 1, &hop, 1));
    FAULT(yarib_view_look_up_each(&view, &address, 1, NULL, 1));
    FAULT(yarib_view_look_up_each(&view, both.numbers, 2, both.numbers + 1, 2));
    FAULT(yarib_memory(NULL, &size));
    FAULT(yarib_memory(&t, NULL));
    FAULT(yarib_concurrent_new(NULL, 1));
    FAULT(yarib_concurrent_free(NULL));
    FAULT(yarib_concurrent_apply(NULL, &command, &reply));
    FAULT(yarib_concurrent_apply(&k, NULL, &reply));
    FAULT(yarib_concurrent_apply(&k, &command, NULL));
    FAULT(yarib_concurrent_apply(&k, both.commands, both.replies));
    FAULT(yarib_concurrent_apply_changed(NULL, &command, &reply, &change));
    FAULT(yarib_concurrent_apply_changed(&k, NULL, &reply, &change));
    FAULT(yarib_concurrent_apply_changed(&k, &command, NULL, &change));
    FAULT(yarib_concurrent_apply_changed(&k, &command, &reply, NULL));
    FAULT(yarib_concurrent_apply_changed(&k, both.commands, both.replies, &change));
    FAULT(yarib_concurrent_apply_changed(&k, both.commands, &reply, both.changes));
    FAULT(yarib_concurrent_apply_changed(&k, &command, both.replies, both.changes));
    FAULT(yarib_concurrent_hop_counts(NULL, 0, &hop_count, 1, &size));
    FAULT(yarib_concurrent_hop_counts(&k, 0, NULL, 1, &size));
    FAULT(yarib_concurrent_hop_counts(&k, 0, &hop_count, 1, NULL));
    FAULT(yarib_concurrent_purge_changes(NULL, 1, 0, &change, 1, &size));
    FAULT(yarib_concurrent_purge_changes(&k, 1, 0, NULL, 1, &size));
    FAULT(yarib_concurrent_purge_changes(&k, 1, 0, &change, 1, NULL));
    FAULT(yarib_concurrent_apply_each(NULL, &command, 1, &reply, 1));
    FAULT(yarib_concurrent_apply_each(&k, NULL, 1, &reply, 1));
    FAULT(yarib_concurrent_apply_each(&k, &command, 1, NULL, 1));
    FAULT(yarib_concurrent_apply_each(&k, both.commands, 1, both.replies, 1));
    FAULT(yarib_concurrent_replace(NULL, 1, &t));
    FAULT(yarib_concurrent_replace(&k, 1, NULL));
    FAULT(yarib_concurrent_copy(NULL, 1, &t));
    FAULT(yarib_concurrent_copy(&k, 1, NULL));
    FAULT(yarib_concurrent_first_difference(NULL, &l, 0, 0, &difference));
    FAULT(yarib_concurrent_first_difference(&k, NULL, 0, 0, &difference));
    FAULT(yarib_concurrent_first_difference(&k, &l, 0, 0, NULL));
    FAULT(yarib_concurrent_first_difference(&k, &k, 0, 0, &difference));
    FAULT(yarib_concurrent_fib_attach(NULL));
    FAULT(yarib_concurrent_look_up(NULL, &address, 1, &route, 1));
    FAULT(yarib_concurrent_look_up(&k, NULL, 1, &route, 1));
    FAULT(yarib_concurrent_look_up(&k, &address, 1, NULL, 1));
    FAULT(yarib_concurrent_look_up(&k, both.numbers, 1, both.routes, 1));
    FAULT(yarib_concurrent_look_up_one(NULL, 1, &route));
    FAULT(yarib_concurrent_look_up_one(&k, 1, NULL));
    FAULT(yarib_concurrent_look_up_text(NULL, text, 1, &route));
    FAULT(yarib_concurrent_look_up_text(&k, NULL, 1, &route));
    FAULT(yarib_concurrent_look_up_text(&k, text, 1, NULL));
    FAULT(yarib_concurrent_look_up_text(&k, (char *)both.routes, 1, both.routes));
    FAULT(yarib_concurrent_hops(NULL, &address, 1, 0, 1, &hop, 1));
    FAULT(yarib_concurrent_hops(&k, NULL, 1, 0, 1, &hop, 1));
    FAULT(yarib_concurrent_hops(&k, &address, 1, 0, 1, NULL, 1));
    FAULT(yarib_concurrent_hops(&k, both.numbers, 2, 0, 1, both.numbers + 1, 2));
    FAULT(yarib_concurrent_look_up_all(NULL, 1, 0, routes, 2, &size));
    FAULT(yarib_concurrent_look_up_all(&k, 1, 0, NULL, 2, &size));
    FAULT(yarib_concurrent_look_up_all(&k, 1, 0, routes, 2, NULL));
    FAULT(yarib_concurrent_routes(NULL, 0, routes, 2, &size));
    FAULT(yarib_concurrent_routes(&k, 0, NULL, 2, &size));
    FAULT(yarib_concurrent_routes(&k, 0, routes, 2, NULL));
    FAULT(yarib_concurrent_routes_from(NULL, &route, routes, 2, &size));
    FAULT(yarib_concurrent_routes_from(&k, NULL, routes, 2, &size));
    FAULT(yarib_concurrent_routes_from(&k, &route, NULL, 2, &size));
    FAULT(yarib_concurrent_routes_from(&k, &route, routes, 2, NULL));
    FAULT(yarib_concurrent_routes_from(&k, &routes[1], routes, 2, &size));
    FAULT(yarib_concurrent_select(NULL, &selection, 0, routes, 2, &size));
    FAULT(yarib_concurrent_select(&k, NULL, 0, routes, 2, &size));
    FAULT(yarib_concurrent_select(&k, &selection, 0, NULL, 2, &size));
    FAULT(yarib_concurrent_select(&k, &selection, 0, routes, 2, NULL));
    FAULT(yarib_concurrent_select(&k, &both.selection, 0, both.routes, 2, &size));
    FAULT(yarib_concurrent_select_by_hop(NULL, &selection, 0, 0, 0, routes, 2, &size));
    FAULT(yarib_concurrent_select_by_hop(&k, NULL, 0, 0, 0, routes, 2, &size));
    FAULT(yarib_concurrent_select_by_hop(&k, &selection, 0, 0, 0, NULL, 2, &size));
    FAULT(yarib_concurrent_select_by_hop(&k, &selection, 0, 0, 0, routes, 2, NULL));
    FAULT(yarib_concurrent_select_by_hop(&k, &both.selection, 0, 0, 0, both.routes, 2, &size));
    FAULT(yarib_concurrent_count(NULL, &size));
    FAULT(yarib_concurrent_count(&k, NULL));
    FAULT(yarib_concurrent_memory(NULL, &size));
    FAULT(yarib_concurrent_memory(&k, NULL));
    FAULT(yarib_save(NULL, 1, stdin));
    FAULT(yarib_save(&t, 1, NULL));
    FAULT(yarib_load(NULL, 1, stdin, &loaded));
    FAULT(yarib_load(&t, 1, NULL, &loaded));
    FAULT(yarib_load(&t, 1, stdin, NULL));
    FAULT(yarib_concurrent_save(NULL, 1, stdin));
    FAULT(yarib_concurrent_save(&k, 1, NULL));
    FAULT(yarib_concurrent_load(NULL, 1, stdin, &loaded));
    FAULT(yarib_concurrent_load(&k, 1, NULL, &loaded));
    FAULT(yarib_concurrent_load(&k, 1, stdin, NULL));
    FAULT(yarib_concurrent_fib_is_attached(NULL, &hop));
    FAULT(yarib_concurrent_fib_is_attached(&k, NULL));
    FAULT(yarib_concurrent_view_sizes(NULL, &size, &other));
    FAULT(yarib_concurrent_view_sizes(&k, NULL, &other));
    FAULT(yarib_concurrent_view_sizes(&k, &size, NULL));
    FAULT(yarib_concurrent_view_sizes(&k, &size, &size));
    FAULT(yarib_concurrent_view_write(NULL, &view));
    FAULT(yarib_concurrent_view_write(&k, NULL));
    FAULT(yarib_concurrent_view_write(&k, &no_entries));
    FAULT(yarib_concurrent_view_write(&k, &no_blocks));
    FAULT(yarib_concurrent_view_write(&k, &no_routers));
    FAULT(yarib_prefix_parse(NULL, 1, &prefix));
    FAULT(yarib_prefix_parse(text, 1, NULL));
    FAULT(yarib_prefix_print(NULL, text, 20, &size));
    FAULT(yarib_prefix_print(&prefix, NULL, 20, &size));
    FAULT(yarib_prefix_print(&prefix, text, 20, NULL));
    FAULT(yarib_address_parse(NULL, 1, &address));
    FAULT(yarib_address_parse(text, 1, NULL));
    FAULT(yarib_address_print(1, NULL, 20, &size));
    FAULT(yarib_address_print(1, text, 20, NULL));
    default: return 0;
    }
    return 1;
}

enum { FAULTS = __COUNTER__ };

int main(void)
{
    const struct rlimit none = {0, 0};
    setrlimit(RLIMIT_CORE, &none);
    for (int number = 0; number < FAULTS; number++) {
        int status;
        pid_t child = fork();
        if (child == 0) {
            if (!freopen("/dev/null", "w", stderr)) _exit(2);
            memset(&both, 0, sizeof both);
            fault(number);
            _exit(0);
        }
        CHECK(child > 0 && waitpid(child, &status, 0) == child);
        bool is_noticed = WIFSIGNALED(status) && WTERMSIG(status) == SIGABRT;
        if (!is_noticed) fprintf(stderr, "fault %d of %d isn't noticed\n", number, FAULTS);
        CHECK(is_noticed);
    }
    return 0;
}
