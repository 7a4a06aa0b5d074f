/* RocksDB by its C interface: universal compaction, and the options of our own database. In memory it has no log. */
#include "store.h"

#include <rocksdb/c.h>
#include <string.h>
#include <unistd.h>

const bool has_memory = true, has_merges = true, has_scans = true;

static rocksdb_t *db;
static rocksdb_env_t *env;
static rocksdb_options_t *options;
static rocksdb_writeoptions_t *writing;
static rocksdb_readoptions_t *reading;

struct session {
    rocksdb_pinnableslice_t *value;
};

static const char *as_chars(struct text text) {
    return (const char *)text.bytes;
}

/* The sum of some operands and a number, as 8 bytes that the caller frees. */
static char *sum_of(uint64_t sum, const char *const *operands, const size_t *lengths, int count, unsigned char *success,
                    size_t *length) {
    uint8_t *result = (uint8_t *)malloc(8);
    for (int place = 0; place < count; place++) {
        sum += number_of((const uint8_t *)operands[place], lengths[place]);
    }
    if (result != NULL) {
        put_number(result, sum);
    }
    *success = result != NULL;
    *length = 8;
    return (char *)result;
}

static char *merge_all(void *state, const char *key, size_t key_length, const char *existing, size_t existing_length,
                       const char *const *operands, const size_t *lengths, int count, unsigned char *success,
                       size_t *length) {
    (void)state, (void)key, (void)key_length;
    return sum_of(existing == NULL ? 0 : number_of((const uint8_t *)existing, existing_length), operands, lengths, count,
                  success, length);
}

static char *merge_some(void *state, const char *key, size_t key_length, const char *const *operands,
                        const size_t *lengths, int count, unsigned char *success, size_t *length) {
    (void)state, (void)key, (void)key_length;
    return sum_of(0, operands, lengths, count, success, length);
}

static void keep_state(void *state) {
    (void)state;
}

static const char *counter(void *state) {
    (void)state;
    return "counter";
}

/* Tables whose blocks all stay in memory, with a filter, as those of ours. */
static void set_tables(void) {
    rocksdb_block_based_table_options_t *tables = rocksdb_block_based_options_create();
    rocksdb_cache_t *cache = rocksdb_cache_create_lru((size_t)8 << 30);
    rocksdb_block_based_options_set_block_cache(tables, cache);
    rocksdb_block_based_options_set_filter_policy(tables, rocksdb_filterpolicy_create_bloom(10));
    rocksdb_options_set_block_based_table_factory(options, tables);
    rocksdb_cache_destroy(cache);
    rocksdb_block_based_options_destroy(tables);
}

static void set_compactions(void) {
    rocksdb_universal_compaction_options_t *picks = rocksdb_universal_compaction_options_create();
    rocksdb_options_set_compaction_style(options, rocksdb_universal_compaction);
    rocksdb_options_set_universal_compaction_options(options, picks);
    rocksdb_options_set_level0_file_num_compaction_trigger(options, 4);
    /* One flushes, and two compact, as our own threads do. */
    rocksdb_options_set_max_background_jobs(options, 3);
    rocksdb_universal_compaction_options_destroy(picks);
}

void open_store(const struct settings *settings) {
    char *error = NULL;
    options = rocksdb_options_create();
    env = settings->folder == NULL ? rocksdb_create_mem_env() : rocksdb_create_default_env();
    rocksdb_options_set_env(options, env);
    rocksdb_options_set_create_if_missing(options, 1);
    rocksdb_options_set_write_buffer_size(options, 4 << 20);
    rocksdb_options_set_compression(options, rocksdb_no_compression);
    rocksdb_options_set_merge_operator(
        options, rocksdb_mergeoperator_create(NULL, keep_state, merge_all, merge_some, NULL, counter));
    set_compactions();
    set_tables();
    db = rocksdb_open(options, settings->folder == NULL ? "/store" : settings->folder, &error);
    expect_none(error);
    writing = rocksdb_writeoptions_create();
    rocksdb_writeoptions_disable_WAL(writing, settings->folder == NULL);
    rocksdb_writeoptions_set_sync(writing, settings->is_synced);
    reading = rocksdb_readoptions_create();
}

struct session *open_session(void) {
    return (struct session *)allocate(1, sizeof(struct session));
}

void put(struct session *session, struct text key, struct text value) {
    char *error = NULL;
    (void)session;
    rocksdb_put(db, writing, as_chars(key), key.length, as_chars(value), value.length, &error);
    expect_none(error);
}

void add(struct session *session, struct text key, uint64_t number) {
    uint8_t operand[8];
    char *error = NULL;
    (void)session;
    put_number(operand, number);
    rocksdb_merge(db, writing, as_chars(key), key.length, (const char *)operand, sizeof operand, &error);
    expect_none(error);
}

void delete_key(struct session *session, struct text key) {
    char *error = NULL;
    (void)session;
    rocksdb_delete(db, writing, as_chars(key), key.length, &error);
    expect_none(error);
}

/* Releases the value that is lent. */
static void take_back(struct session *session) {
    if (session->value != NULL) {
        rocksdb_pinnableslice_destroy(session->value);
        session->value = NULL;
    }
}

bool get(struct session *session, struct text key, struct text *value) {
    char *error = NULL;
    take_back(session);
    session->value = rocksdb_get_pinned(db, reading, as_chars(key), key.length, &error);
    expect_none(error);
    if (session->value == NULL) {
        return false;
    }
    value->bytes = (const uint8_t *)rocksdb_pinnableslice_value(session->value, &value->length);
    return true;
}

enum { MOST_KEYS = 256 };

size_t get_many(struct session *session, const struct text *keys, size_t count) {
    const char *texts[MOST_KEYS] = {NULL};
    char *values[MOST_KEYS], *errors[MOST_KEYS];
    size_t key_lengths[MOST_KEYS] = {0}, value_lengths[MOST_KEYS], found = 0;
    (void)session;
    expect(count <= MOST_KEYS, "there are too many keys");
    for (size_t place = 0; place < count; place++) {
        texts[place] = as_chars(keys[place]);
        key_lengths[place] = keys[place].length;
    }
    rocksdb_multi_get(db, reading, count, texts, key_lengths, values, value_lengths, errors);
    for (size_t place = 0; place < count; place++) {
        expect_none(errors[place]);
        found += values[place] != NULL;
        rocksdb_free(values[place]);
    }
    return found;
}

uint64_t scan(struct session *session, struct text low, uint64_t limit) {
    rocksdb_iterator_t *rows = rocksdb_create_iterator(db, reading);
    uint64_t bytes = 0;
    (void)session;
    rocksdb_iter_seek(rows, as_chars(low), low.length);
    for (; limit > 0 && rocksdb_iter_valid(rows); limit--) {
        size_t key_length, value_length;
        rocksdb_iter_key(rows, &key_length);
        rocksdb_iter_value(rows, &value_length);
        bytes += key_length + value_length;
        rocksdb_iter_next(rows);
    }
    rocksdb_iter_destroy(rows);
    return bytes;
}

uint64_t scan_back(struct session *session, struct text high, uint64_t limit) {
    rocksdb_iterator_t *rows = rocksdb_create_iterator(db, reading);
    uint64_t bytes = 0;
    (void)session;
    rocksdb_iter_seek_for_prev(rows, as_chars(high), high.length);
    for (; limit > 0 && rocksdb_iter_valid(rows); limit--) {
        size_t key_length, value_length;
        rocksdb_iter_key(rows, &key_length);
        rocksdb_iter_value(rows, &value_length);
        bytes += key_length + value_length;
        rocksdb_iter_prev(rows);
    }
    rocksdb_iter_destroy(rows);
    return bytes;
}

void close_session(struct session *session) {
    take_back(session);
    free(session);
}

/* A property that is a number. */
static uint64_t property(const char *name) {
    uint64_t value = 1;
    expect(rocksdb_property_int(db, name, &value) == 0, name);
    return value;
}

/* Whether something runs. Whether compactions are pending isn't asked: that is also said where none are picked. */
static bool is_busy(void) {
    return property("rocksdb.num-running-flushes") + property("rocksdb.num-running-compactions") +
               property("rocksdb.mem-table-flush-pending") >
           0;
}

void settle(void) {
    char *error = NULL;
    rocksdb_flushoptions_t *flushing = rocksdb_flushoptions_create();
    rocksdb_flush(db, flushing, &error);
    expect_none(error);
    rocksdb_flushoptions_destroy(flushing);
    for (int idle = 0; idle < 3;) {
        idle = is_busy() ? 0 : idle + 1;
        usleep(1000);
    }
}

void checkpoint(void) {
    settle();
}

void close_store(void) {
    rocksdb_close(db);
    rocksdb_readoptions_destroy(reading);
    rocksdb_writeoptions_destroy(writing);
    rocksdb_options_destroy(options);
    rocksdb_env_destroy(env);
}
