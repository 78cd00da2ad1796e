/* yarib.h includes this file if YARIB_CHECK is defined. Each call then first tests some of its caller's obligations by assert: no null
 * pointers, two different handles, and no overlap of the commands, addresses, position or selection that it reads with the results that it
 * writes. */
#ifndef YARIB_CHECK_H
#define YARIB_CHECK_H

#include <assert.h>

/* Returns true if two memory ranges don't overlap. */
static inline int yarib_are_apart(const void *one, size_t size, const void *other, size_t other_size)
{
    uintptr_t first = (uintptr_t)one, second = (uintptr_t)other;
    return size == 0 || other_size == 0 || first + size <= second || second + other_size <= first;
}

static inline YARIB_STATUS yarib_new_checked(yarib *table, uint32_t limit, uint32_t kind)
{
    assert(table != NULL);
    return yarib_new(table, limit, kind);
}
#define yarib_new yarib_new_checked

static inline enum yarib_status yarib_free_checked(yarib *table)
{
    assert(table != NULL);
    return yarib_free(table);
}
#define yarib_free yarib_free_checked

static inline YARIB_STATUS yarib_apply_checked(yarib *table, const yarib_command *command, yarib_reply *reply)
{
    assert(table != NULL && command != NULL && reply != NULL);
    assert(yarib_are_apart(command, sizeof *command, reply, sizeof *reply));
    return yarib_apply(table, command, reply);
}
#define yarib_apply yarib_apply_checked

static inline YARIB_STATUS yarib_apply_changed_checked(yarib *table, const yarib_command *command, yarib_reply *reply,
    yarib_change *change)
{
    assert(table != NULL && command != NULL && reply != NULL && change != NULL);
    assert(yarib_are_apart(command, sizeof *command, reply, sizeof *reply));
    assert(yarib_are_apart(command, sizeof *command, change, sizeof *change));
    assert(yarib_are_apart(reply, sizeof *reply, change, sizeof *change));
    return yarib_apply_changed(table, command, reply, change);
}
#define yarib_apply_changed yarib_apply_changed_checked

static inline YARIB_STATUS yarib_apply_each_checked(yarib *table, const yarib_command *commands, size_t size,
    yarib_reply *replies, size_t room)
{
    assert(table != NULL && commands != NULL && replies != NULL);
    assert(yarib_are_apart(commands, size * sizeof *commands, replies, room * sizeof *replies));
    return yarib_apply_each(table, commands, size, replies, room);
}
#define yarib_apply_each yarib_apply_each_checked

static inline YARIB_STATUS yarib_reserve_checked(yarib *table, size_t entries)
{
    assert(table != NULL);
    return yarib_reserve(table, entries);
}
#define yarib_reserve yarib_reserve_checked

static inline YARIB_STATUS yarib_look_up_checked(const yarib *table, const uint32_t *addresses, size_t size,
    yarib_route *answers, size_t room)
{
    assert(table != NULL && addresses != NULL && answers != NULL);
    assert(yarib_are_apart(addresses, size * sizeof *addresses, answers, room * sizeof *answers));
    return yarib_look_up(table, addresses, size, answers, room);
}
#define yarib_look_up yarib_look_up_checked

static inline YARIB_STATUS yarib_look_up_one_checked(const yarib *table, uint32_t address, yarib_route *answer)
{
    assert(table != NULL && answer != NULL);
    return yarib_look_up_one(table, address, answer);
}
#define yarib_look_up_one yarib_look_up_one_checked

static inline YARIB_STATUS yarib_look_up_text_checked(const yarib *table, const char *text, size_t size, yarib_route *answer)
{
    assert(table != NULL && text != NULL && answer != NULL);
    assert(yarib_are_apart(text, size, answer, sizeof *answer));
    return yarib_look_up_text(table, text, size, answer);
}
#define yarib_look_up_text yarib_look_up_text_checked

static inline YARIB_STATUS yarib_hops_checked(const yarib *table, const uint32_t *addresses, size_t size, uint32_t no_route,
    uint32_t discard, uint32_t *hops, size_t room)
{
    assert(table != NULL && addresses != NULL && hops != NULL);
    assert(yarib_are_apart(addresses, size * sizeof *addresses, hops, room * sizeof *hops));
    return yarib_hops(table, addresses, size, no_route, discard, hops, room);
}
#define yarib_hops yarib_hops_checked

static inline YARIB_STATUS yarib_look_up_all_checked(const yarib *table, uint32_t address, size_t skip,
    yarib_route *routes, size_t room, size_t *total)
{
    assert(table != NULL && routes != NULL && total != NULL);
    return yarib_look_up_all(table, address, skip, routes, room, total);
}
#define yarib_look_up_all yarib_look_up_all_checked

static inline YARIB_STATUS yarib_routes_checked(const yarib *table, size_t skip, yarib_route *routes, size_t room, size_t *total)
{
    assert(table != NULL && routes != NULL && total != NULL);
    return yarib_routes(table, skip, routes, room, total);
}
#define yarib_routes yarib_routes_checked

static inline YARIB_STATUS yarib_routes_from_checked(const yarib *table, const yarib_route *from, yarib_route *routes, size_t room,
    size_t *used)
{
    assert(table != NULL && from != NULL && routes != NULL && used != NULL);
    assert(yarib_are_apart(from, sizeof *from, routes, room * sizeof *routes));
    return yarib_routes_from(table, from, routes, room, used);
}
#define yarib_routes_from yarib_routes_from_checked

static inline YARIB_STATUS yarib_select_checked(const yarib *table, const yarib_selection *asked, size_t skip, yarib_route *routes,
    size_t room, size_t *total)
{
    assert(table != NULL && asked != NULL && routes != NULL && total != NULL);
    assert(yarib_are_apart(asked, sizeof *asked, routes, room * sizeof *routes));
    return yarib_select(table, asked, skip, routes, room, total);
}
#define yarib_select yarib_select_checked

static inline YARIB_STATUS yarib_select_by_hop_checked(const yarib *table, const yarib_selection *asked, uint32_t hop,
    uint32_t via, size_t skip, yarib_route *routes, size_t room, size_t *total)
{
    assert(table != NULL && asked != NULL && routes != NULL && total != NULL);
    assert(yarib_are_apart(asked, sizeof *asked, routes, room * sizeof *routes));
    return yarib_select_by_hop(table, asked, hop, via, skip, routes, room, total);
}
#define yarib_select_by_hop yarib_select_by_hop_checked

static inline YARIB_STATUS yarib_hop_counts_checked(const yarib *table, size_t skip, yarib_hop_count *counts, size_t room, size_t *total)
{
    assert(table != NULL && counts != NULL && total != NULL);
    return yarib_hop_counts(table, skip, counts, room, total);
}
#define yarib_hop_counts yarib_hop_counts_checked

static inline YARIB_STATUS yarib_purge_changes_checked(const yarib *table, uint32_t feed, size_t skip, yarib_change *changes,
    size_t room, size_t *total)
{
    assert(table != NULL && changes != NULL && total != NULL);
    return yarib_purge_changes(table, feed, skip, changes, room, total);
}
#define yarib_purge_changes yarib_purge_changes_checked

static inline YARIB_STATUS yarib_count_checked(const yarib *table, size_t *total)
{
    assert(table != NULL && total != NULL);
    return yarib_count(table, total);
}
#define yarib_count yarib_count_checked

static inline YARIB_STATUS yarib_journal_checked(const yarib *table, size_t skip, yarib_entry *entries, size_t room,
    size_t *total)
{
    assert(table != NULL && entries != NULL && total != NULL);
    return yarib_journal(table, skip, entries, room, total);
}
#define yarib_journal yarib_journal_checked

static inline YARIB_STATUS yarib_first_difference_checked(const yarib *old_table, const yarib *new_table, uint32_t by,
    uint32_t from, yarib_difference *difference)
{
    assert(old_table != NULL && new_table != NULL && difference != NULL && old_table != new_table);
    return yarib_first_difference(old_table, new_table, by, from, difference);
}
#define yarib_first_difference yarib_first_difference_checked

static inline YARIB_STATUS yarib_fib_new_checked(const yarib *table, yarib *forwarding)
{
    assert(table != NULL && forwarding != NULL && table != forwarding);
    return yarib_fib_new(table, forwarding);
}
#define yarib_fib_new yarib_fib_new_checked

static inline YARIB_STATUS yarib_fib_clone_checked(const yarib *forwarding, yarib *other)
{
    assert(forwarding != NULL && other != NULL && forwarding != other);
    return yarib_fib_clone(forwarding, other);
}
#define yarib_fib_clone yarib_fib_clone_checked

static inline YARIB_STATUS yarib_fib_attach_checked(yarib *table)
{
    assert(table != NULL);
    return yarib_fib_attach(table);
}
#define yarib_fib_attach yarib_fib_attach_checked

static inline YARIB_STATUS yarib_fib_is_attached_checked(const yarib *table, uint32_t *attached)
{
    assert(table != NULL && attached != NULL);
    return yarib_fib_is_attached(table, attached);
}
#define yarib_fib_is_attached yarib_fib_is_attached_checked

static inline YARIB_STATUS yarib_view_sizes_checked(const yarib *table, size_t *blocks, size_t *routers)
{
    assert(table != NULL && blocks != NULL && routers != NULL && blocks != routers);
    return yarib_view_sizes(table, blocks, routers);
}
#define yarib_view_sizes yarib_view_sizes_checked

static inline YARIB_STATUS yarib_view_write_checked(const yarib *table, yarib_view *view)
{
    assert(table != NULL && view != NULL && view->entries != NULL && view->blocks != NULL && view->routers != NULL);
    return yarib_view_write(table, view);
}
#define yarib_view_write yarib_view_write_checked

static inline uint32_t yarib_view_look_up_checked(const yarib_view *view, uint32_t address)
{
    assert(view != NULL && view->entries != NULL && view->blocks != NULL && view->routers != NULL);
    return yarib_view_look_up(view, address);
}
#define yarib_view_look_up yarib_view_look_up_checked

static inline YARIB_STATUS yarib_view_look_up_each_checked(const yarib_view *view, const uint32_t *addresses, size_t size,
    uint32_t *numbers, size_t room)
{
    assert(view != NULL && view->entries != NULL && view->blocks != NULL && view->routers != NULL);
    assert(addresses != NULL && numbers != NULL);
    assert(yarib_are_apart(addresses, size * sizeof *addresses, numbers, room * sizeof *numbers));
    return yarib_view_look_up_each(view, addresses, size, numbers, room);
}
#define yarib_view_look_up_each yarib_view_look_up_each_checked

static inline YARIB_STATUS yarib_memory_checked(const yarib *table, size_t *bytes)
{
    assert(table != NULL && bytes != NULL);
    return yarib_memory(table, bytes);
}
#define yarib_memory yarib_memory_checked

static inline YARIB_STATUS yarib_concurrent_new_checked(yarib_concurrent *table, uint32_t limit)
{
    assert(table != NULL);
    return yarib_concurrent_new(table, limit);
}
#define yarib_concurrent_new yarib_concurrent_new_checked

static inline enum yarib_status yarib_concurrent_free_checked(yarib_concurrent *table)
{
    assert(table != NULL);
    return yarib_concurrent_free(table);
}
#define yarib_concurrent_free yarib_concurrent_free_checked

static inline YARIB_STATUS yarib_concurrent_apply_checked(yarib_concurrent *table, const yarib_command *command,
    yarib_reply *reply)
{
    assert(table != NULL && command != NULL && reply != NULL);
    assert(yarib_are_apart(command, sizeof *command, reply, sizeof *reply));
    return yarib_concurrent_apply(table, command, reply);
}
#define yarib_concurrent_apply yarib_concurrent_apply_checked

static inline YARIB_STATUS yarib_concurrent_apply_changed_checked(yarib_concurrent *table, const yarib_command *command,
    yarib_reply *reply, yarib_change *change)
{
    assert(table != NULL && command != NULL && reply != NULL && change != NULL);
    assert(yarib_are_apart(command, sizeof *command, reply, sizeof *reply));
    assert(yarib_are_apart(command, sizeof *command, change, sizeof *change));
    assert(yarib_are_apart(reply, sizeof *reply, change, sizeof *change));
    return yarib_concurrent_apply_changed(table, command, reply, change);
}
#define yarib_concurrent_apply_changed yarib_concurrent_apply_changed_checked

static inline YARIB_STATUS yarib_concurrent_apply_each_checked(yarib_concurrent *table, const yarib_command *commands,
    size_t size, yarib_reply *replies, size_t room)
{
    assert(table != NULL && commands != NULL && replies != NULL);
    assert(yarib_are_apart(commands, size * sizeof *commands, replies, room * sizeof *replies));
    return yarib_concurrent_apply_each(table, commands, size, replies, room);
}
#define yarib_concurrent_apply_each yarib_concurrent_apply_each_checked

static inline YARIB_STATUS yarib_concurrent_fib_attach_checked(yarib_concurrent *table)
{
    assert(table != NULL);
    return yarib_concurrent_fib_attach(table);
}
#define yarib_concurrent_fib_attach yarib_concurrent_fib_attach_checked

static inline YARIB_STATUS yarib_concurrent_look_up_checked(const yarib_concurrent *table, const uint32_t *addresses,
    size_t size, yarib_route *answers, size_t room)
{
    assert(table != NULL && addresses != NULL && answers != NULL);
    assert(yarib_are_apart(addresses, size * sizeof *addresses, answers, room * sizeof *answers));
    return yarib_concurrent_look_up(table, addresses, size, answers, room);
}
#define yarib_concurrent_look_up yarib_concurrent_look_up_checked

static inline YARIB_STATUS yarib_concurrent_look_up_one_checked(const yarib_concurrent *table, uint32_t address,
    yarib_route *answer)
{
    assert(table != NULL && answer != NULL);
    return yarib_concurrent_look_up_one(table, address, answer);
}
#define yarib_concurrent_look_up_one yarib_concurrent_look_up_one_checked

static inline YARIB_STATUS yarib_concurrent_look_up_text_checked(const yarib_concurrent *table, const char *text, size_t size,
    yarib_route *answer)
{
    assert(table != NULL && text != NULL && answer != NULL);
    assert(yarib_are_apart(text, size, answer, sizeof *answer));
    return yarib_concurrent_look_up_text(table, text, size, answer);
}
#define yarib_concurrent_look_up_text yarib_concurrent_look_up_text_checked

static inline YARIB_STATUS yarib_concurrent_hops_checked(const yarib_concurrent *table, const uint32_t *addresses,
    size_t size, uint32_t no_route, uint32_t discard, uint32_t *hops, size_t room)
{
    assert(table != NULL && addresses != NULL && hops != NULL);
    assert(yarib_are_apart(addresses, size * sizeof *addresses, hops, room * sizeof *hops));
    return yarib_concurrent_hops(table, addresses, size, no_route, discard, hops, room);
}
#define yarib_concurrent_hops yarib_concurrent_hops_checked

static inline YARIB_STATUS yarib_concurrent_look_up_all_checked(const yarib_concurrent *table, uint32_t address, size_t skip,
    yarib_route *routes, size_t room, size_t *total)
{
    assert(table != NULL && routes != NULL && total != NULL);
    return yarib_concurrent_look_up_all(table, address, skip, routes, room, total);
}
#define yarib_concurrent_look_up_all yarib_concurrent_look_up_all_checked

static inline YARIB_STATUS yarib_concurrent_routes_checked(const yarib_concurrent *table, size_t skip, yarib_route *routes,
    size_t room, size_t *total)
{
    assert(table != NULL && routes != NULL && total != NULL);
    return yarib_concurrent_routes(table, skip, routes, room, total);
}
#define yarib_concurrent_routes yarib_concurrent_routes_checked

static inline YARIB_STATUS yarib_concurrent_routes_from_checked(const yarib_concurrent *table, const yarib_route *from,
    yarib_route *routes, size_t room, size_t *used)
{
    assert(table != NULL && from != NULL && routes != NULL && used != NULL);
    assert(yarib_are_apart(from, sizeof *from, routes, room * sizeof *routes));
    return yarib_concurrent_routes_from(table, from, routes, room, used);
}
#define yarib_concurrent_routes_from yarib_concurrent_routes_from_checked

static inline YARIB_STATUS yarib_concurrent_select_checked(const yarib_concurrent *table, const yarib_selection *asked,
    size_t skip, yarib_route *routes, size_t room, size_t *total)
{
    assert(table != NULL && asked != NULL && routes != NULL && total != NULL);
    assert(yarib_are_apart(asked, sizeof *asked, routes, room * sizeof *routes));
    return yarib_concurrent_select(table, asked, skip, routes, room, total);
}
#define yarib_concurrent_select yarib_concurrent_select_checked

static inline YARIB_STATUS yarib_concurrent_select_by_hop_checked(const yarib_concurrent *table, const yarib_selection *asked, uint32_t hop,
    uint32_t via, size_t skip, yarib_route *routes, size_t room, size_t *total)
{
    assert(table != NULL && asked != NULL && routes != NULL && total != NULL);
    assert(yarib_are_apart(asked, sizeof *asked, routes, room * sizeof *routes));
    return yarib_concurrent_select_by_hop(table, asked, hop, via, skip, routes, room, total);
}
#define yarib_concurrent_select_by_hop yarib_concurrent_select_by_hop_checked

static inline YARIB_STATUS yarib_concurrent_hop_counts_checked(const yarib_concurrent *table, size_t skip, yarib_hop_count *counts,
    size_t room, size_t *total)
{
    assert(table != NULL && counts != NULL && total != NULL);
    return yarib_concurrent_hop_counts(table, skip, counts, room, total);
}
#define yarib_concurrent_hop_counts yarib_concurrent_hop_counts_checked

static inline YARIB_STATUS yarib_concurrent_purge_changes_checked(const yarib_concurrent *table, uint32_t feed, size_t skip,
    yarib_change *changes, size_t room, size_t *total)
{
    assert(table != NULL && changes != NULL && total != NULL);
    return yarib_concurrent_purge_changes(table, feed, skip, changes, room, total);
}
#define yarib_concurrent_purge_changes yarib_concurrent_purge_changes_checked

static inline YARIB_STATUS yarib_concurrent_count_checked(const yarib_concurrent *table, size_t *total)
{
    assert(table != NULL && total != NULL);
    return yarib_concurrent_count(table, total);
}
#define yarib_concurrent_count yarib_concurrent_count_checked

static inline YARIB_STATUS yarib_concurrent_memory_checked(const yarib_concurrent *table, size_t *bytes)
{
    assert(table != NULL && bytes != NULL);
    return yarib_concurrent_memory(table, bytes);
}
#define yarib_concurrent_memory yarib_concurrent_memory_checked

static inline YARIB_STATUS yarib_save_checked(const yarib *table, uint32_t feed, FILE *file)
{
    assert(table != NULL && file != NULL);
    return yarib_save(table, feed, file);
}
#define yarib_save yarib_save_checked

static inline YARIB_STATUS yarib_load_checked(yarib *table, uint32_t feed, FILE *file, yarib_loaded *loaded)
{
    assert(table != NULL && file != NULL && loaded != NULL);
    return yarib_load(table, feed, file, loaded);
}
#define yarib_load yarib_load_checked

static inline YARIB_STATUS yarib_concurrent_save_checked(const yarib_concurrent *table, uint32_t feed, FILE *file)
{
    assert(table != NULL && file != NULL);
    return yarib_concurrent_save(table, feed, file);
}
#define yarib_concurrent_save yarib_concurrent_save_checked

static inline YARIB_STATUS yarib_concurrent_replace_checked(yarib_concurrent *table, uint32_t limit, const yarib *other)
{
    assert(table != NULL && other != NULL);
    return yarib_concurrent_replace(table, limit, other);
}
#define yarib_concurrent_replace yarib_concurrent_replace_checked

static inline YARIB_STATUS yarib_concurrent_copy_checked(const yarib_concurrent *table, uint32_t limit, yarib *copy)
{
    assert(table != NULL && copy != NULL);
    return yarib_concurrent_copy(table, limit, copy);
}
#define yarib_concurrent_copy yarib_concurrent_copy_checked

static inline YARIB_STATUS yarib_concurrent_first_difference_checked(const yarib_concurrent *old_table,
    const yarib_concurrent *new_table, uint32_t by, uint32_t from, yarib_difference *difference)
{
    assert(old_table != NULL && new_table != NULL && difference != NULL && old_table != new_table);
    return yarib_concurrent_first_difference(old_table, new_table, by, from, difference);
}
#define yarib_concurrent_first_difference yarib_concurrent_first_difference_checked

static inline YARIB_STATUS yarib_concurrent_load_checked(yarib_concurrent *table, uint32_t feed, FILE *file,
    yarib_loaded *loaded)
{
    assert(table != NULL && file != NULL && loaded != NULL);
    return yarib_concurrent_load(table, feed, file, loaded);
}
#define yarib_concurrent_load yarib_concurrent_load_checked

static inline YARIB_STATUS yarib_concurrent_fib_is_attached_checked(const yarib_concurrent *table, uint32_t *attached)
{
    assert(table != NULL && attached != NULL);
    return yarib_concurrent_fib_is_attached(table, attached);
}
#define yarib_concurrent_fib_is_attached yarib_concurrent_fib_is_attached_checked

static inline YARIB_STATUS yarib_concurrent_view_sizes_checked(const yarib_concurrent *table, size_t *blocks, size_t *routers)
{
    assert(table != NULL && blocks != NULL && routers != NULL && blocks != routers);
    return yarib_concurrent_view_sizes(table, blocks, routers);
}
#define yarib_concurrent_view_sizes yarib_concurrent_view_sizes_checked

static inline YARIB_STATUS yarib_concurrent_view_write_checked(const yarib_concurrent *table, yarib_view *view)
{
    assert(table != NULL && view != NULL && view->entries != NULL && view->blocks != NULL && view->routers != NULL);
    return yarib_concurrent_view_write(table, view);
}
#define yarib_concurrent_view_write yarib_concurrent_view_write_checked

static inline YARIB_STATUS yarib_prefix_parse_checked(const char *text, size_t size, yarib_prefix *prefix)
{
    assert(text != NULL && prefix != NULL);
    return yarib_prefix_parse(text, size, prefix);
}
#define yarib_prefix_parse yarib_prefix_parse_checked

static inline YARIB_STATUS yarib_prefix_print_checked(const yarib_prefix *prefix, char *text, size_t room, size_t *used)
{
    assert(prefix != NULL && text != NULL && used != NULL);
    return yarib_prefix_print(prefix, text, room, used);
}
#define yarib_prefix_print yarib_prefix_print_checked

static inline YARIB_STATUS yarib_address_parse_checked(const char *text, size_t size, uint32_t *address)
{
    assert(text != NULL && address != NULL);
    return yarib_address_parse(text, size, address);
}
#define yarib_address_parse yarib_address_parse_checked

static inline YARIB_STATUS yarib_address_print_checked(uint32_t address, char *text, size_t room, size_t *used)
{
    assert(text != NULL && used != NULL);
    return yarib_address_print(address, text, room, used);
}
#define yarib_address_print yarib_address_print_checked

#endif
