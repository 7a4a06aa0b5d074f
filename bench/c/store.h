/* The functions of a store for workload.c: ucstore.c, rocksdb.c and leveldb.c have these functions. A program has one store, and ends
 * itself where a call fails. */
#ifndef BENCH_C_STORE_H
#define BENCH_C_STORE_H

#include <stdbool.h>
#include <stddef.h>
#include <stdint.h>
#include <stdio.h>
#include <stdlib.h>

enum { KEY = 16, NUMBER = 8 };

/* How the store is opened and written. */
struct settings {
    /* Whether the writes have merges, which add numbers. */
    bool merges;
    /* The number of writes in a batch. */
    size_t size;
    /* A folder in memory, for a store that has no environment in memory. */
    const char *folder;
};

void open_store(const struct settings *settings, size_t batches);

/* Adds a write to a batch, before any clock starts. A number has 8 bytes, low byte first. */
void add_write(size_t batch, bool merges, const uint8_t *key, const uint8_t *number);

void write_batch(size_t batch);

/* Flushes what is gathered, and waits until nothing is left to be compacted. */
void settle(void);

/* Takes the snapshot at which all is read. */
void take_snapshot(void);

/* From now on keys are looked up at the last sequence. */
void read_last(void);

/* Looks a key up, and adds what is found to a sum. */
uint64_t get(const uint8_t *key, uint64_t sum);

/* Reads the first rows from a key on, and adds them to a sum. */
uint64_t scan(const uint8_t *low, size_t limit, uint64_t sum);

/* The number of files or runs. */
uint64_t count_runs(void);

void close_store(void);

static inline void expect(bool done, const char *what) {
    if (!done) {
        fprintf(stderr, "%s\n", what);
        exit(1);
    }
}

/* Ends the program if a call told an error. */
static inline void expect_none(const char *error) {
    expect(error == NULL, error);
}

static inline uint64_t with_bytes(uint64_t sum, const uint8_t *bytes, size_t length) {
    for (size_t place = 0; place < length; place++) {
        sum = sum * 31 + bytes[place];
    }
    return sum;
}

static inline uint64_t with_nothing(uint64_t sum) {
    return sum * 31 + 1;
}

#endif
