/* One thread changes two routes at once, a hundred times, while two threads look both up. */
#include <pthread.h>
#include <stdatomic.h>
#include <stdio.h>
#include <yarib.h>

static yarib_concurrent table;
static atomic_int is_ended, disagreed;

static void *look_up(void *unused)
{
    const uint32_t addresses[] = {0x0a000001, 0x0b000001};
    yarib_route answers[2];
    while (!is_ended) {
        if (yarib_concurrent_look_up(&table, addresses, 2, answers, 2) != YARIB_DONE) continue;
        if (answers[0].via != answers[1].via) disagreed++;
    }
    return unused;
}

int main(void)
{
    yarib_command both[] = {
        {.operation = YARIB_ADD, .feed = 1, .base = 10u << 24, .len = 8, .hop = YARIB_VIA, .via = 0xc0000201},
        {.operation = YARIB_ADD, .feed = 1, .base = 11u << 24, .len = 8, .hop = YARIB_VIA, .via = 0xc0000201}};
    yarib_reply replies[2];
    pthread_t readers[2];

    if (yarib_concurrent_new(&table, 1000) || yarib_concurrent_apply_each(&table, both, 2, replies, 2)) return 1;
    for (int k = 0; k < 2; k++) if (pthread_create(&readers[k], NULL, look_up, NULL)) return 1;
    for (uint32_t change = 0; change < 100; change++) {
        for (int k = 0; k < 2; k++) {
            both[k].operation = YARIB_REPLACE;
            both[k].via = 0xc0000202 + change;
        }
        if (yarib_concurrent_apply_each(&table, both, 2, replies, 2)) return 1;
    }
    is_ended = 1;
    for (int k = 0; k < 2; k++) pthread_join(readers[k], NULL);
    printf("100 changes, %d answers from two tables\n", disagreed);
    yarib_concurrent_free(&table);
    return 0;
}
