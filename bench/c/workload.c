/* Works over each store, with their times:
 *
 *     PROGRAM puts|counters WRITES SIZE GETS SCANS [FOLDER]
 *
 * WRITES writes of 300,000 keys are written in batches of SIZE. All of them put numbers, or half of them merge some. The
 * store flushes and compacts meanwhile as it does by itself. Then what is gathered is flushed, all waits until nothing is
 * left to be compacted, a snapshot is taken, all rows are read once, and keys are looked up and scanned at it.
 *
 * At last 20,000 writes are gathered, one by one, and a fifth as many keys are looked up at the last sequence, half of them
 * keys of these writes.
 *
 * It prints the nanoseconds of the writes, of what was left then, of the lookups and of the scans, how many runs there are,
 * and a checksum of what was read until then; then the nanoseconds of a call that writes, the median, of 99.9 percent and
 * the longest, and those of the last lookups, and the checksum of all. Writes and keys are made before any clock starts. */
#define _POSIX_C_SOURCE 200112L

#include "store.h"

#include <inttypes.h>
#include <string.h>
#include <time.h>

static const uint64_t KEYS = 300000, MOST_ROWS = 50;
enum { GATHERED = 20000 };

static uint64_t state = 1;

/* A number below a limit, by SplitMix64. */
static uint64_t draw(uint64_t limit) {
    uint64_t mixed;
    state += UINT64_C(0x9e3779b97f4a7c15);
    mixed = (state ^ state >> 30) * UINT64_C(0xbf58476d1ce4e5b9);
    mixed = (mixed ^ mixed >> 27) * UINT64_C(0x94d049bb133111eb);
    return (mixed ^ mixed >> 31) % limit;
}

static void draw_key(uint8_t *key) {
    char text[KEY + 1];
    snprintf(text, sizeof text, "account/%08u", (unsigned)draw(KEYS));
    memcpy(key, text, KEY);
}

static int64_t now(void) {
    struct timespec time;
    clock_gettime(CLOCK_MONOTONIC, &time);
    return (int64_t)time.tv_sec * 1000000000 + time.tv_nsec;
}

static void add_writes(bool merges, size_t writes, size_t size) {
    for (size_t place = 0; place < writes; place++) {
        uint8_t key[KEY], number[NUMBER] = {0};
        uint64_t value = draw(1000000);
        draw_key(key);
        for (int byte = 0; byte < 4; byte++) {
            number[byte] = (uint8_t)(value >> 8 * byte);
        }
        add_write(place / size, merges && draw(2) == 0, key, number);
    }
}

/* Times each call too. */
static int64_t time_writes(size_t batches, int64_t *calls) {
    int64_t start = now(), before = start;
    for (size_t batch = 0; batch < batches; batch++) {
        int64_t behind;
        write_batch(batch);
        behind = now();
        calls[batch] = behind - before;
        before = behind;
    }
    return before - start;
}

static int compare(const void *one, const void *other) {
    const int64_t *a = (const int64_t *)one, *b = (const int64_t *)other;
    return (*a > *b) - (*a < *b);
}

/* Adds writes of drawn keys, one to a place, and tells their keys. */
static uint8_t *add_gathered(size_t first) {
    uint8_t *keys = (uint8_t *)malloc(GATHERED * KEY);
    expect(keys != NULL, "there is no memory for keys");
    for (size_t place = 0; place < GATHERED; place++) {
        uint8_t number[NUMBER] = {1};
        draw_key(keys + place * KEY);
        add_write(first + place, false, keys + place * KEY, number);
    }
    return keys;
}

static int64_t time_settling(void) {
    int64_t start = now();
    settle();
    return now() - start;
}

static uint8_t *draw_keys(size_t count) {
    uint8_t *keys = (uint8_t *)malloc(count * KEY + 1);
    expect(keys != NULL, "there is no memory for keys");
    for (size_t place = 0; place < count; place++) {
        draw_key(keys + place * KEY);
    }
    return keys;
}

static int64_t time_gets(size_t count, uint64_t *sum) {
    uint8_t *keys = draw_keys(count);
    int64_t start = now(), spent;
    for (size_t place = 0; place < count; place++) {
        *sum = get(keys + place * KEY, *sum);
    }
    spent = now() - start;
    free(keys);
    return spent;
}

static int64_t time_scans(size_t count, uint64_t *sum) {
    uint8_t *keys = draw_keys(count);
    int64_t start = now(), spent;
    for (size_t place = 0; place < count; place++) {
        *sum = scan(keys + place * KEY, (size_t)(1 + place % MOST_ROWS), *sum);
    }
    spent = now() - start;
    free(keys);
    return spent;
}

/* Gathers writes, and looks keys up, every second of them of these writes. */
static int64_t time_gathered(size_t first, size_t count, uint64_t *sum) {
    uint8_t *gathered = add_gathered(first), *keys = draw_keys(count);
    int64_t start, spent;
    for (size_t place = 0; place < GATHERED; place++) {
        write_batch(first + place);
    }
    for (size_t place = 0; place < count; place += 2) {
        memcpy(keys + place * KEY, gathered + draw(GATHERED) * KEY, KEY);
    }
    read_last();
    start = now();
    for (size_t place = 0; place < count; place++) {
        *sum = get(keys + place * KEY, *sum);
    }
    spent = now() - start;
    free(gathered);
    free(keys);
    return spent;
}

/* A number of the command line, at least 1. */
static size_t number(const char *word) {
    size_t value = (size_t)strtoull(word, NULL, 10);
    expect(value > 0, "a number isn't above 0");
    return value;
}

int main(int count, char **words) {
    struct settings settings = {false, 0, NULL};
    size_t writes, size, batches;
    uint64_t sum = 0;
    int64_t writing, settling, gets, scans, last;
    int64_t *calls;
    expect(count >= 6, "usage: PROGRAM puts|counters WRITES SIZE GETS SCANS [FOLDER]");
    writes = number(words[2]);
    size = number(words[3]);
    settings.merges = strcmp(words[1], "counters") == 0;
    settings.size = size;
    settings.folder = count > 6 ? words[6] : NULL;
    batches = (writes + size - 1) / size;
    open_store(&settings, batches + GATHERED);
    add_writes(settings.merges, writes, size);
    calls = (int64_t *)malloc(batches * sizeof *calls);
    expect(calls != NULL, "there is no memory for times");
    writing = time_writes(batches, calls);
    qsort(calls, batches, sizeof *calls, compare);
    settling = time_settling();
    take_snapshot();
    sum = scan((const uint8_t *)"account/00000000", (size_t)KEYS, sum);
    gets = time_gets(number(words[4]), &sum);
    scans = time_scans(number(words[5]), &sum);
    printf("%" PRId64 " %" PRId64 " %" PRId64 " %" PRId64 " %" PRIu64 " %016" PRIx64, writing, settling, gets, scans, count_runs(), sum);
    last = time_gathered(batches, number(words[4]) / 5 + 1, &sum);
    printf(" %" PRId64 " %" PRId64 " %" PRId64 " %" PRId64 " %016" PRIx64 "\n", calls[batches / 2], calls[batches * 999 / 1000],
           calls[batches - 1], last, sum);
    free(calls);
    close_store();
    return 0;
}
