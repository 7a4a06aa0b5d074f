/* LevelDB in a folder of files in memory, by its C interface. It always writes a log, and waits for no device here. It flushes
 * as its memtables are full, and compacts by one thread of its own. It has no merges. */
#include "store.h"

#include <leveldb/c.h>

static leveldb_t *db;
static leveldb_options_t *options;
static leveldb_cache_t *cache;
static leveldb_filterpolicy_t *filter;
static leveldb_writeoptions_t *writing;
static leveldb_readoptions_t *reading;
static leveldb_writebatch_t **batches;
static size_t batch_count;
static const leveldb_snapshot_t *snapshot;
static leveldb_iterator_t *rows;

/* Tables whose blocks all stay in memory, with a filter, as those of ours. */
static void set_options(void) {
    options = leveldb_options_create();
    cache = leveldb_cache_create_lru((size_t)1 << 30);
    filter = leveldb_filterpolicy_create_bloom(10);
    leveldb_options_set_create_if_missing(options, 1);
    leveldb_options_set_error_if_exists(options, 1);
    leveldb_options_set_write_buffer_size(options, 4 << 20);
    leveldb_options_set_compression(options, leveldb_no_compression);
    leveldb_options_set_cache(options, cache);
    leveldb_options_set_filter_policy(options, filter);
}

void open_store(const struct settings *settings, size_t count) {
    char *error = NULL;
    expect(!settings->merges, "LevelDB has no merges");
    expect(settings->folder != NULL, "there is no folder");
    set_options();
    db = leveldb_open(options, settings->folder, &error);
    expect_none(error);
    writing = leveldb_writeoptions_create();
    batches = (leveldb_writebatch_t **)calloc(count, sizeof *batches);
    expect(batches != NULL, "there is no memory for batches");
    batch_count = count;
    for (size_t place = 0; place < count; place++) {
        batches[place] = leveldb_writebatch_create();
    }
}

void add_write(size_t batch, bool merges, const uint8_t *key, const uint8_t *number) {
    (void)merges;
    leveldb_writebatch_put(batches[batch], (const char *)key, KEY, (const char *)number, NUMBER);
}

void write_batch(size_t batch) {
    char *error = NULL;
    leveldb_write(db, writing, batches[batch], &error);
    expect_none(error);
}

/* There is no call that only waits: this compacts all. */
void settle(void) {
    leveldb_compact_range(db, NULL, 0, NULL, 0);
}

void take_snapshot(void) {
    snapshot = leveldb_create_snapshot(db);
    reading = leveldb_readoptions_create();
    leveldb_readoptions_set_snapshot(reading, snapshot);
    rows = leveldb_create_iterator(db, reading);
}

void read_last(void) {
    leveldb_readoptions_set_snapshot(reading, NULL);
}

uint64_t get(const uint8_t *key, uint64_t sum) {
    char *error = NULL, *value;
    size_t length = 0;
    value = leveldb_get(db, reading, (const char *)key, KEY, &length, &error);
    expect_none(error);
    sum = value == NULL ? with_nothing(sum) : with_bytes(sum, (const uint8_t *)value, length);
    leveldb_free(value);
    return sum;
}

uint64_t scan(const uint8_t *low, size_t limit, uint64_t sum) {
    char *error = NULL;
    leveldb_iter_seek(rows, (const char *)low, KEY);
    for (; limit > 0 && leveldb_iter_valid(rows); limit--) {
        size_t key_length = 0, length = 0;
        const char *key = leveldb_iter_key(rows, &key_length), *value = leveldb_iter_value(rows, &length);
        sum = with_bytes(with_bytes(sum, (const uint8_t *)key, key_length), (const uint8_t *)value, length);
        leveldb_iter_next(rows);
    }
    leveldb_iter_get_error(rows, &error);
    expect_none(error);
    return sum;
}

/* The files: level 0 has one for each run, and a deeper level is one run. */
uint64_t count_runs(void) {
    uint64_t runs = 0;
    char name[] = "leveldb.num-files-at-level0";
    for (char level = '0'; level <= '6'; level++) {
        char *said;
        name[sizeof name - 2] = level;
        said = leveldb_property_value(db, name);
        runs += said == NULL ? 0 : level == '0' ? strtoull(said, NULL, 10) : strtoull(said, NULL, 10) > 0;
        leveldb_free(said);
    }
    return runs;
}

void close_store(void) {
    leveldb_iter_destroy(rows);
    leveldb_readoptions_destroy(reading);
    leveldb_release_snapshot(db, snapshot);
    for (size_t place = 0; place < batch_count; place++) {
        leveldb_writebatch_destroy(batches[place]);
    }
    free(batches);
    leveldb_writeoptions_destroy(writing);
    leveldb_close(db);
    leveldb_options_destroy(options);
    leveldb_filterpolicy_destroy(filter);
    leveldb_cache_destroy(cache);
}
