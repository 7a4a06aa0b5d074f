/* RocksDB, which threads share as it is: it flushes and compacts by threads of its own. */
#define _POSIX_C_SOURCE 200112L

/* How it is opened, settled, read at a snapshot and closed. */
#include "../c/rocksdb.c"

#include "store.h"

/* How the newest is read. */
static rocksdb_readoptions_t *newest;

void open_shared(void) {
    const struct settings settings = {false, 1, NULL};
    open_store(&settings, 1);
    newest = rocksdb_readoptions_create();
}

void start_compactors(size_t count) {
    (void)count;
}

void stop_compactors(void) {
}

void put(const uint8_t *key, const uint8_t *number) {
    char *error = NULL;
    rocksdb_put(db, writing, (const char *)key, KEY, (const char *)number, NUMBER, &error);
    expect_none(error);
}

const char *last_work(void) {
    return "-";
}

void show(void) {
}

struct reader *open_reader(void) {
    return NULL;
}

void renew(struct reader *reader) {
    (void)reader;
}

bool look_up(struct reader *reader, const uint8_t *key, uint8_t *number) {
    char *error = NULL, *value;
    size_t length = 0;
    (void)reader;
    value = rocksdb_get(db, newest, (const char *)key, KEY, &length, &error);
    expect_none(error);
    if (value == NULL) {
        return false;
    }
    expect(length == NUMBER, "a value isn't a number");
    memcpy(number, value, NUMBER);
    rocksdb_free(value);
    return true;
}

void close_reader(struct reader *reader) {
    (void)reader;
}

void close_shared(void) {
    rocksdb_readoptions_destroy(newest);
    close_store();
}
