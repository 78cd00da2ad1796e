/* Lists of a table's routes, and tables that are made of a list: for saves, copies, and tables that replace others.
 *
 * A list is the result of one reading call, so it has the routes of one published table. What is made of it reads no table, however
 * long that takes. */
#include "layer.h"

/* Makes the call yarib_select for one of two handles, the other one is null. */
static enum yarib_status choose(const yarib *table, const yarib_concurrent *concurrent, const yarib_selection *asked,
    yarib_route *routes, size_t room, size_t *total)
{
    if (table) return yarib_select(table, asked, 0, routes, room, total);
    return yarib_concurrent_select(concurrent, asked, 0, routes, room, total);
}

void free_list(struct list *list)
{
    if (list->routes) rattle_dealloc(list->routes);
    list->routes = NULL;
}

enum yarib_status list_routes(const yarib *table, const yarib_concurrent *concurrent, uint32_t feed, struct list *list)
{
    const yarib_selection asked = {.part = YARIB_ALL, .feed = feed};
    yarib_route none;
    size_t room = 0;
    list->routes = NULL;
    /* The table may grow between two calls. */
    for (;;) {
        enum yarib_status status = choose(table, concurrent, &asked, list->routes ? list->routes : &none, room, &list->size);
        if (status == YARIB_DONE && list->size <= room) return status;
        free_list(list);
        if (status != YARIB_DONE) return status;
        room = list->size;
        struct tried made = rattle_alloc(room * sizeof *list->routes, sizeof(uint32_t));
        if (!made.ok) return YARIB_NO_MEMORY;
        list->routes = made.block;
    }
}

enum yarib_status make_table(uint32_t limit, const struct list *list, bool is_followed, yarib *made)
{
    enum yarib_status status = proved_yarib_new(made, limit, YARIB_PLAIN);
    for (size_t k = 0; k < list->size && status == YARIB_DONE; k++) {
        const yarib_route *route = &list->routes[k];
        const yarib_command add = {.operation = YARIB_ADD, .feed = route->feed, .base = route->base, .len = route->len,
            .pref = route->pref, .hop = route->hop, .via = route->via};
        yarib_reply reply;
        status = proved_yarib_apply(made, &add, &reply);
        if (status == YARIB_DONE && reply.code != YARIB_ADDED) status = YARIB_NOT_ADDED;
    }
    if (status == YARIB_DONE && is_followed) status = attach(made);
    if (status != YARIB_DONE) free_contents(made);
    return status;
}

enum yarib_status copy_published(const yarib_concurrent *table, uint32_t limit, yarib *copy)
{
    struct list list;
    yarib made = YARIB_INIT;
    enum yarib_status status = list_routes(NULL, table, 0, &list);
    if (status != YARIB_DONE) return status;
    status = make_table(limit, &list, false, &made);
    free_list(&list);
    if (status != YARIB_DONE) return status;
    free_contents(copy);
    *copy = made;
    return YARIB_DONE;
}
