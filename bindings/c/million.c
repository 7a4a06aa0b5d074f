/* Puts a million values without another call in between, and counts them. Prints the duration of the puts. */
#include <stdio.h>
#include <string.h>
#include <time.h>
#include <ucstore.h>

#define PUTS UINT64_C(1000000)
#define KEYS UINT64_C(300000)

enum { NUMBER = 8, ROW = 4 * NUMBER };

/* Encodes a number as big-endian bytes, so that keys sort by number. */
static void lay_out(uint64_t number, uint8_t *text) {
    for (int place = NUMBER; place-- > 0; number >>= 8) {
        text[place] = (uint8_t)number;
    }
}

static bool put_all(struct ucstore *store) {
    for (uint64_t number = 0; number < PUTS; number++) {
        uint8_t key[NUMBER], value[NUMBER];
        lay_out(number % KEYS, key);
        lay_out(number, value);
        if (ucstore_put(store, key, NUMBER, value, NUMBER) != UCSTORE_OK) {
            return false;
        }
    }
    return true;
}

/* Returns true if the last key has its last value. */
static bool has_last(struct ucstore *store) {
    uint8_t key[NUMBER], wanted[NUMBER], value[NUMBER] = {0};
    size_t size = 0;
    lay_out((PUTS - 1) % KEYS, key);
    lay_out(PUTS - 1, wanted);
    return ucstore_get(store, key, NUMBER, value, NUMBER, &size) == UCSTORE_OK && size == NUMBER &&
           memcmp(value, wanted, NUMBER) == 0;
}

/* Returns true if each key has a row: a scan into an empty buffer returns their total size. */
static bool has_all(struct ucstore *store) {
    size_t size = 0;
    uint64_t rows = 0;
    return ucstore_scan(store, NULL, 0, NULL, 0, false, UINT64_MAX, NULL, 0, &size, &rows) == UCSTORE_OK &&
           size == KEYS * ROW;
}

int main(void) {
    struct ucstore store = {0};
    struct ucstore_options options;
    clock_t begun = clock();
    bool is_right;
    ucstore_options_init(&options);
    is_right = ucstore_create(&store, UCSTORE_APPEND, &options) == UCSTORE_OK && put_all(&store);
    printf("a million puts in %.2f s\n", (double)(clock() - begun) / CLOCKS_PER_SEC);
    is_right = is_right && has_last(&store) && has_all(&store);
    return ucstore_close(&store) == UCSTORE_OK && is_right ? 0 : 1;
}
