/* RocksDB in its memory environment, without a log, by its C interface. It flushes as its memtables are full, and compacts by
 * one thread of its own. */
#define _POSIX_C_SOURCE 200112L

#include "store.h"

#include <rocksdb/c.h>
#include <string.h>
#include <time.h>

static rocksdb_t *db;
static rocksdb_env_t *env;
static rocksdb_options_t *options;
static rocksdb_writeoptions_t *writing;
static rocksdb_readoptions_t *reading;
static rocksdb_writebatch_t **batches;
static size_t batch_count;
static const rocksdb_snapshot_t *snapshot;
static rocksdb_iterator_t *rows;

/* The number that 8 bytes stand for, low byte first; 0 for any other text. */
static uint64_t number_in(const char *text, size_t length) {
    uint64_t number = 0;
    for (int place = NUMBER - 1; length == NUMBER && place >= 0; place--) {
        number = number << 8 | (uint8_t)text[place];
    }
    return number;
}

/* The sum of some operands and a number, as 8 bytes that the caller frees. */
static char *sum_of(uint64_t sum, const char *const *operands, const size_t *lengths, int count, unsigned char *success,
                    size_t *length) {
    char *result = (char *)malloc(NUMBER);
    for (int place = 0; place < count; place++) {
        sum += number_in(operands[place], lengths[place]);
    }
    for (int place = 0; result != NULL && place < NUMBER; place++) {
        result[place] = (char)(sum >> 8 * place);
    }
    *success = result != NULL;
    *length = NUMBER;
    return result;
}

static char *merge_all(void *state, const char *key, size_t key_length, const char *existing, size_t existing_length,
                       const char *const *operands, const size_t *lengths, int count, unsigned char *success,
                       size_t *length) {
    (void)state, (void)key, (void)key_length;
    return sum_of(existing == NULL ? 0 : number_in(existing, existing_length), operands, lengths, count, success, length);
}

static char *merge_some(void *state, const char *key, size_t key_length, const char *const *operands,
                        const size_t *lengths, int count, unsigned char *success, size_t *length) {
    (void)state, (void)key, (void)key_length;
    return sum_of(0, operands, lengths, count, success, length);
}

static void keep_state(void *state) {
    (void)state;
}

static const char *counter(void *state) {
    (void)state;
    return "counter";
}

/* Tables whose blocks all stay in memory, with a filter, as those of ours. */
static void set_tables(void) {
    rocksdb_block_based_table_options_t *tables = rocksdb_block_based_options_create();
    rocksdb_cache_t *cache = rocksdb_cache_create_lru((size_t)1 << 30);
    rocksdb_block_based_options_set_block_cache(tables, cache);
    rocksdb_block_based_options_set_filter_policy(tables, rocksdb_filterpolicy_create_bloom(10));
    rocksdb_options_set_block_based_table_factory(options, tables);
    rocksdb_cache_destroy(cache);
    rocksdb_block_based_options_destroy(tables);
}

/* The picks of our default options. */
static void set_compactions(void) {
    rocksdb_universal_compaction_options_t *picks = rocksdb_universal_compaction_options_create();
    rocksdb_universal_compaction_options_set_size_ratio(picks, 1);
    rocksdb_universal_compaction_options_set_min_merge_width(picks, 2);
    rocksdb_universal_compaction_options_set_max_size_amplification_percent(picks, 200);
    rocksdb_options_set_compaction_style(options, rocksdb_universal_compaction);
    rocksdb_options_set_universal_compaction_options(options, picks);
    rocksdb_options_set_level0_file_num_compaction_trigger(options, 4);
    rocksdb_universal_compaction_options_destroy(picks);
}

static void set_options(bool merges) {
    options = rocksdb_options_create();
    env = rocksdb_create_mem_env();
    rocksdb_options_set_env(options, env);
    rocksdb_options_set_create_if_missing(options, 1);
    rocksdb_options_set_write_buffer_size(options, 4 << 20);
    rocksdb_options_set_compression(options, rocksdb_no_compression);
    /* One flushes, and one compacts. */
    rocksdb_options_set_max_background_jobs(options, 2);
    if (merges) {
        rocksdb_options_set_merge_operator(
            options, rocksdb_mergeoperator_create(NULL, keep_state, merge_all, merge_some, NULL, counter));
    }
    set_compactions();
    set_tables();
}

void open_store(const struct settings *settings, size_t count) {
    char *error = NULL;
    set_options(settings->merges);
    db = rocksdb_open(options, "/counters", &error);
    expect_none(error);
    writing = rocksdb_writeoptions_create();
    rocksdb_writeoptions_disable_WAL(writing, 1);
    batches = (rocksdb_writebatch_t **)calloc(count, sizeof *batches);
    expect(batches != NULL, "there is no memory for batches");
    batch_count = count;
    for (size_t place = 0; place < count; place++) {
        batches[place] = rocksdb_writebatch_create();
    }
}

void add_write(size_t batch, bool merges, const uint8_t *key, const uint8_t *number) {
    (merges ? rocksdb_writebatch_merge : rocksdb_writebatch_put)(batches[batch], (const char *)key, KEY,
                                                                (const char *)number, NUMBER);
}

void write_batch(size_t batch) {
    char *error = NULL;
    rocksdb_write(db, writing, batches[batch], &error);
    expect_none(error);
}

static bool is_busy(void) {
    static const char *const NAMES[] = {"rocksdb.num-running-flushes", "rocksdb.num-running-compactions",
                                        "rocksdb.mem-table-flush-pending"};
    for (size_t place = 0; place < sizeof NAMES / sizeof NAMES[0]; place++) {
        uint64_t value = 1;
        if (rocksdb_property_int(db, NAMES[place], &value) != 0 || value != 0) {
            return true;
        }
    }
    return false;
}

/* Flushes what is in memory, and waits until nothing was running in several looks. Whether compactions are pending isn't asked:
 * it is also said where there are enough runs and none are picked. */
void settle(void) {
    const struct timespec millisecond = {0, 1000000};
    rocksdb_flushoptions_t *flushing = rocksdb_flushoptions_create();
    char *error = NULL;
    int idle = 0;
    rocksdb_flush(db, flushing, &error);
    expect_none(error);
    rocksdb_flushoptions_destroy(flushing);
    while (idle < 3) {
        idle = is_busy() ? 0 : idle + 1;
        nanosleep(&millisecond, NULL);
    }
}

void take_snapshot(void) {
    snapshot = rocksdb_create_snapshot(db);
    reading = rocksdb_readoptions_create();
    rocksdb_readoptions_set_snapshot(reading, snapshot);
    rows = rocksdb_create_iterator(db, reading);
}

void read_last(void) {
    rocksdb_readoptions_set_snapshot(reading, NULL);
}

uint64_t get(const uint8_t *key, uint64_t sum) {
    char *error = NULL, *value;
    size_t length = 0;
    value = rocksdb_get(db, reading, (const char *)key, KEY, &length, &error);
    expect_none(error);
    sum = value == NULL ? with_nothing(sum) : with_bytes(sum, (const uint8_t *)value, length);
    rocksdb_free(value);
    return sum;
}

uint64_t scan(const uint8_t *low, size_t limit, uint64_t sum) {
    char *error = NULL;
    rocksdb_iter_seek(rows, (const char *)low, KEY);
    for (; limit > 0 && rocksdb_iter_valid(rows); limit--) {
        size_t key_length = 0, length = 0;
        const char *key = rocksdb_iter_key(rows, &key_length), *value = rocksdb_iter_value(rows, &length);
        sum = with_bytes(with_bytes(sum, (const uint8_t *)key, key_length), (const uint8_t *)value, length);
        rocksdb_iter_next(rows);
    }
    rocksdb_iter_get_error(rows, &error);
    expect_none(error);
    return sum;
}

/* The files: level 0 has one for each run, and a deeper level is one run. */
uint64_t count_runs(void) {
    uint64_t files = 0;
    char name[64];
    for (int level = 0; level < rocksdb_options_get_num_levels(options); level++) {
        char *said;
        snprintf(name, sizeof name, "rocksdb.num-files-at-level%d", level);
        said = rocksdb_property_value(db, name);
        files += said == NULL ? 0 : level == 0 ? strtoull(said, NULL, 10) : strtoull(said, NULL, 10) > 0;
        rocksdb_free(said);
    }
    return files;
}

void close_store(void) {
    rocksdb_iter_destroy(rows);
    rocksdb_readoptions_destroy(reading);
    rocksdb_release_snapshot(db, snapshot);
    for (size_t place = 0; place < batch_count; place++) {
        rocksdb_writebatch_destroy(batches[place]);
    }
    free(batches);
    rocksdb_writeoptions_destroy(writing);
    rocksdb_close(db);
    rocksdb_options_destroy(options);
    rocksdb_env_destroy(env);
}
