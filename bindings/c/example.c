/* Two feeds, a look-up, the table after a withdrawal, and where it differs from the one before. */
#include <stdio.h>
#include <string.h>
#include <yarib.h>

static const char *text_of(uint32_t address)
{
    static char text[YARIB_MAX_ADDRESS_TEXT + 1];
    size_t used = 0;
    if (yarib_address_print(address, text, YARIB_MAX_ADDRESS_TEXT, &used) != YARIB_DONE) return "";
    text[used] = '\0';
    return text;
}

static yarib_command add(uint32_t feed, const char *prefix, const char *via)
{
    yarib_command command = {.operation = YARIB_ADD, .feed = feed, .hop = YARIB_VIA};
    yarib_prefix read;
    if (yarib_prefix_parse(prefix, strlen(prefix), &read) != YARIB_DONE) return (yarib_command){0};
    command.base = read.base;
    command.len = read.len;
    return yarib_address_parse(via, strlen(via), &command.via) == YARIB_DONE ? command : (yarib_command){0};
}

static void show(const char *said, const yarib_route *route)
{
    if (route->hop == YARIB_NO_ROUTE) {
        printf("%s: no route\n", said);
    } else {
        printf("%s: %s/%u of feed %u", said, text_of(route->base), route->len, route->feed);
        printf(" via %s\n", route->hop == YARIB_VIA ? text_of(route->via) : "discard");
    }
}

int main(void)
{
    yarib before = YARIB_INIT, after = YARIB_INIT;
    yarib_command commands[] = {add(1, "10.0.0.0/8", "192.0.2.1"), add(2, "10.1.0.0/16", "192.0.2.2")};
    yarib_command withdrawal = {.operation = YARIB_WITHDRAW, .feed = 2, .base = 0x0a010000, .len = 16};
    yarib_reply replies[2], reply;
    yarib_difference range;
    uint32_t address = 0x0a010203;
    yarib_route answer;

    if (yarib_new(&before, 1000, YARIB_PLAIN) || yarib_new(&after, 1000, YARIB_PLAIN)) return 1;
    if (yarib_apply_each(&before, commands, 2, replies, 2) || yarib_apply_each(&after, commands, 2, replies, 2)) return 1;
    if (yarib_apply(&after, &withdrawal, &reply) || reply.code != YARIB_WITHDRAWN) return 1;

    if (yarib_look_up_one(&before, address, &answer)) return 1;
    show("10.1.2.3 before", &answer);
    if (yarib_look_up_one(&after, address, &answer)) return 1;
    show("10.1.2.3 after", &answer);
    if (yarib_first_difference(&before, &after, 0, 0, &range) == YARIB_DONE) {
        printf("from %s", text_of(range.first));
        printf(" to %s packets go another way\n", text_of(range.last));
    }
    yarib_free(&before);
    yarib_free(&after);
    return 0;
}
