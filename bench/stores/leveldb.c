/* LevelDB by its C interface. It has no merges: a number is read and written back, under a lock. */
#include "store.h"

#include <leveldb/c.h>
#include <pthread.h>
#include <string.h>

const bool has_memory = false, has_merges = false, has_scans = true;

static leveldb_t *db;
static leveldb_options_t *options;
static leveldb_cache_t *cache;
static leveldb_filterpolicy_t *filter;
static leveldb_writeoptions_t *writing;
static leveldb_readoptions_t *reading;

struct session {
    char *value;
};

static const char *as_chars(struct text text) {
    return (const char *)text.bytes;
}

void open_store(const struct settings *settings) {
    char *error = NULL;
    expect(settings->folder != NULL, "LevelDB has no environment in memory");
    options = leveldb_options_create();
    cache = leveldb_cache_create_lru((size_t)8 << 30);
    filter = leveldb_filterpolicy_create_bloom(10);
    leveldb_options_set_create_if_missing(options, 1);
    leveldb_options_set_write_buffer_size(options, 4 << 20);
    leveldb_options_set_compression(options, leveldb_no_compression);
    leveldb_options_set_cache(options, cache);
    leveldb_options_set_filter_policy(options, filter);
    db = leveldb_open(options, settings->folder, &error);
    expect_none(error);
    writing = leveldb_writeoptions_create();
    leveldb_writeoptions_set_sync(writing, settings->is_synced);
    reading = leveldb_readoptions_create();
}

struct session *open_session(void) {
    return (struct session *)allocate(1, sizeof(struct session));
}

void put(struct session *session, struct text key, struct text value) {
    char *error = NULL;
    (void)session;
    leveldb_put(db, writing, as_chars(key), key.length, as_chars(value), value.length, &error);
    expect_none(error);
}

void add(struct session *session, struct text key, uint64_t number) {
    static pthread_mutex_t lock = PTHREAD_MUTEX_INITIALIZER;
    struct text value;
    uint8_t sum[8];
    pthread_mutex_lock(&lock);
    put_number(sum, number + (get(session, key, &value) ? number_of(value.bytes, value.length) : 0));
    put(session, key, (struct text){sum, sizeof sum});
    pthread_mutex_unlock(&lock);
}

void delete_key(struct session *session, struct text key) {
    char *error = NULL;
    (void)session;
    leveldb_delete(db, writing, as_chars(key), key.length, &error);
    expect_none(error);
}

bool get(struct session *session, struct text key, struct text *value) {
    char *error = NULL;
    leveldb_free(session->value);
    session->value = leveldb_get(db, reading, as_chars(key), key.length, &value->length, &error);
    expect_none(error);
    value->bytes = (const uint8_t *)session->value;
    return session->value != NULL;
}

size_t get_many(struct session *session, const struct text *keys, size_t count) {
    struct text value;
    size_t found = 0;
    for (size_t place = 0; place < count; place++) {
        found += get(session, keys[place], &value);
    }
    return found;
}

uint64_t scan(struct session *session, struct text low, uint64_t limit) {
    leveldb_iterator_t *rows = leveldb_create_iterator(db, reading);
    uint64_t bytes = 0;
    (void)session;
    leveldb_iter_seek(rows, as_chars(low), low.length);
    for (; limit > 0 && leveldb_iter_valid(rows); limit--) {
        size_t key_length, value_length;
        leveldb_iter_key(rows, &key_length);
        leveldb_iter_value(rows, &value_length);
        bytes += key_length + value_length;
        leveldb_iter_next(rows);
    }
    leveldb_iter_destroy(rows);
    return bytes;
}

uint64_t scan_back(struct session *session, struct text high, uint64_t limit) {
    leveldb_iterator_t *rows = leveldb_create_iterator(db, reading);
    uint64_t bytes = 0;
    (void)session;
    leveldb_iter_seek(rows, as_chars(high), high.length);
    if (!leveldb_iter_valid(rows)) {
        leveldb_iter_seek_to_last(rows);
    } else {
        size_t length;
        const char *key = leveldb_iter_key(rows, &length);
        if (length != high.length || memcmp(key, high.bytes, length) != 0) {
            leveldb_iter_prev(rows);
        }
    }
    for (; limit > 0 && leveldb_iter_valid(rows); limit--) {
        size_t key_length, value_length;
        leveldb_iter_key(rows, &key_length);
        leveldb_iter_value(rows, &value_length);
        bytes += key_length + value_length;
        leveldb_iter_prev(rows);
    }
    leveldb_iter_destroy(rows);
    return bytes;
}

void close_session(struct session *session) {
    leveldb_free(session->value);
    free(session);
}

/* There is no call that only waits: this compacts all. */
void settle(void) {
    leveldb_compact_range(db, NULL, 0, NULL, 0);
}

void checkpoint(void) {
    settle();
}

void close_store(void) {
    leveldb_close(db);
    leveldb_readoptions_destroy(reading);
    leveldb_writeoptions_destroy(writing);
    leveldb_options_destroy(options);
    leveldb_cache_destroy(cache);
    leveldb_filterpolicy_destroy(filter);
}
