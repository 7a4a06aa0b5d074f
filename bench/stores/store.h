/* The functions of a database for workload.c: ours.c, rocksdb.c, leveldb.c, lmdb.c, sqlite.c and redis.c have these functions. A
 * program has one database, which threads share, and ends itself where a call fails. */
#ifndef BENCH_STORES_STORE_H
#define BENCH_STORES_STORE_H

#include <stdbool.h>
#include <stddef.h>
#include <stdint.h>
#include <stdio.h>
#include <stdlib.h>

/* Bytes that are lent. */
struct text {
    const uint8_t *bytes;
    size_t length;
};

struct settings {
    /* Where its files are. A database that can be kept in memory has none if this is null. */
    const char *folder;
    /* Whether a write is on the device when it is acknowledged. */
    bool is_synced;
};

/* The works that a database cannot do. */
extern const bool has_memory, has_merges, has_scans;

void open_store(const struct settings *settings);

/* The data of one thread. A session is used by one thread at a time. */
struct session *open_session(void);

void put(struct session *session, struct text key, struct text value);

/* Adds a number to that of a key. */
void add(struct session *session, struct text key, uint64_t number);

void delete_key(struct session *session, struct text key);

/* Looks a key up. The value is lent until the session's next call. */
bool get(struct session *session, struct text key, struct text *value);

/* Looks keys up together, and says how many have a value. */
size_t get_many(struct session *session, const struct text *keys, size_t count);

/* Reads the first rows, at most `limit`, from a key on, and says how many bytes they have. */
uint64_t scan(struct session *session, struct text low, uint64_t limit);

/* Reads the last rows, at most `limit`, up to a key, the greatest first, and says how many bytes they have. */
uint64_t scan_back(struct session *session, struct text high, uint64_t limit);

void close_session(struct session *session);

/* Waits until nothing is left to be flushed and compacted. */
void settle(void);

/* Writes a checkpoint, if there is such a thing, so that an opening is short. */
void checkpoint(void);

void close_store(void);

static inline void expect(bool done, const char *what) {
    if (!done) {
        fprintf(stderr, "%s\n", what);
        exit(1);
    }
}

/* Ends the program if a call told an error. */
static inline void expect_none(const char *error) {
    expect(error == NULL, error);
}

static inline void *allocate(size_t count, size_t size) {
    void *made = calloc(count, size);
    expect(made != NULL, "there is no memory");
    return made;
}

/* A number as 8 bytes, low byte first, and back; 0 for any other text. */
static inline void put_number(uint8_t *bytes, uint64_t number) {
    for (size_t place = 0; place < 8; place++) {
        bytes[place] = (uint8_t)(number >> 8 * place);
    }
}

static inline uint64_t number_of(const uint8_t *bytes, size_t length) {
    uint64_t number = 0;
    for (size_t place = 8; length == 8 && place-- > 0;) {
        number = number << 8 | bytes[place];
    }
    return number;
}

#endif
