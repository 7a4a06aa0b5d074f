/* The costs of the operator `mixed` beside those of `counter`:
 *
 *     PROGRAM counter|mixed KEYS ADDITIONS
 *
 * It adds 1 ADDITIONS times to KEYS keys in turn, with the operands made beforehand, and prints the nanoseconds of an addition and the
 * bytes that the store allocates for each. Then it adds 1,000 times to one more key of a store that doesn't flush, reads it, and prints
 * the nanoseconds of a read. All values are checked. */
#define _POSIX_C_SOURCE 200112L

#include <inttypes.h>
#include <malloc.h>
#include <stdio.h>
#include <stdlib.h>
#include <string.h>
#include <time.h>
#include <ucstore.h>

enum { KEY = 8, ROOM = 32, DEEP = 1000, READS = 20000 };

static uint8_t operand[ROOM];
static size_t operand_length;

static void expect(bool is_right, const char *what) {
    if (!is_right) {
        fprintf(stderr, "mixed: %s\n", what);
        exit(1);
    }
}

static double now(void) {
    struct timespec time;
    clock_gettime(CLOCK_PROCESS_CPUTIME_ID, &time);
    return (double)time.tv_sec * 1e9 + (double)time.tv_nsec;
}

static void put_key(uint8_t *key, uint64_t number) {
    for (int place = KEY; place-- > 0; number >>= 8) {
        key[place] = (uint8_t)number;
    }
}

/* Adds 1 to a key. The call is a function of its own, which callgrind counts. */
__attribute__((noinline)) static void add(struct ucstore *store, uint64_t number) {
    uint8_t key[KEY];
    put_key(key, number);
    expect(ucstore_merge(store, key, KEY, operand, operand_length) == UCSTORE_OK, "an addition fails");
}

__attribute__((noinline)) static uint64_t read_sum(struct ucstore *store, uint64_t number) {
    uint8_t key[KEY], value[KEY];
    uint64_t sum = 0;
    size_t size = 0;
    put_key(key, number);
    expect(ucstore_get(store, key, KEY, value, sizeof value, &size) == UCSTORE_OK && size == sizeof value, "a read fails");
    for (int place = KEY; place-- > 0;) {
        sum = sum << 8 | value[place];
    }
    return sum;
}

static void create(struct ucstore *store, uint32_t merge_operator, uint64_t buffer) {
    struct ucstore_options options;
    memset(store, 0, sizeof *store);
    expect(ucstore_options_init(&options) == UCSTORE_OK, "there are no options");
    options.write_buffer_size = buffer;
    expect(ucstore_create(store, merge_operator, &options) == UCSTORE_OK, "the store isn't created");
}

int main(int count, char **words) {
    const uint8_t one[8] = {1};
    struct ucstore store;
    uint64_t keys, additions, at;
    size_t before;
    double begun;
    bool is_mixed;
    expect(count == 4, "PROGRAM counter|mixed KEYS ADDITIONS");
    is_mixed = strcmp(words[1], "mixed") == 0;
    keys = strtoull(words[2], NULL, 10);
    additions = strtoull(words[3], NULL, 10);
    memcpy(operand, one, sizeof one);
    operand_length = sizeof one;
    if (is_mixed) {
        expect(ucstore_operand(UCSTORE_ADD, 0, one, sizeof one, operand, sizeof operand, &operand_length) == UCSTORE_OK, "there is no operand");
    }

    create(&store, is_mixed ? UCSTORE_MIXED : UCSTORE_COUNTER, UINT64_C(4) << 20);
    before = mallinfo2().uordblks;
    begun = now();
    for (at = 0; at < additions; at++) {
        add(&store, at % keys);
    }
    printf("addition %.0f ns\n", (now() - begun) / (double)additions);
    printf("memory %.2f bytes\n", (double)(mallinfo2().uordblks - before) / (double)keys);
    for (at = 0; at < keys; at++) {
        expect(read_sum(&store, at) == additions / keys + (at < additions % keys), "a sum is wrong");
    }
    expect(ucstore_close(&store) == UCSTORE_OK, "the store isn't closed");

    create(&store, is_mixed ? UCSTORE_MIXED : UCSTORE_COUNTER, UINT64_C(1) << 40);
    for (at = 0; at < DEEP; at++) {
        add(&store, 0);
    }
    begun = now();
    for (at = 0; at < READS; at++) {
        expect(read_sum(&store, 0) == DEEP, "a sum is wrong");
    }
    printf("read of %d additions %.0f ns\n", DEEP, (now() - begun) / READS);
    expect(ucstore_close(&store) == UCSTORE_OK, "the store isn't closed");
    return 0;
}
