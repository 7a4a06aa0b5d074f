/* Counts visits, and prints the number before and after. */
#include <stdio.h>
#include <ucstore.h>

int main(void) {
    struct ucstore store = {0};
    struct ucstore_options options;
    const uint8_t key[] = {'v'}, two[8] = {2}, three[8] = {3};
    uint8_t now[8] = {0}, then[8] = {0};
    uint64_t before = 0;
    size_t size = 0;

    ucstore_options_init(&options);
    ucstore_create(&store, UCSTORE_COUNTER, &options);
    ucstore_merge(&store, key, sizeof key, two, sizeof two);
    ucstore_snapshot(&store, &before);
    ucstore_merge(&store, key, sizeof key, three, sizeof three);
    ucstore_get(&store, key, sizeof key, now, sizeof now, &size);
    ucstore_get_at(&store, key, sizeof key, before, then, sizeof then, &size);
    printf("%d visits, %d before\n", now[0], then[0]);
    /* If the store is not open, each call fails, this one too. */
    return ucstore_close(&store) == UCSTORE_OK ? 0 : 1;
}
