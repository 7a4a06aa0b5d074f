/* Tests the results and the errors of each function of `ucstore_db.h`.
 *
 *     db_test FOLDER
 *
 * FOLDER must be an empty directory. Prints a line if all tests pass. */
#define _XOPEN_SOURCE 700

#include <pthread.h>
#include <signal.h>
#include <stdio.h>
#include <stdlib.h>
#include <string.h>
#include <sys/resource.h>
#include <sys/wait.h>
#include <time.h>
#include <ucstore_db.h>
#include <unistd.h>

#define CHECK(test)                                                                            \
    do {                                                                                       \
        if (!(test)) {                                                                         \
            fprintf(stderr, "%s:%d: %s (%s)\n", __FILE__, __LINE__, #test, ucstore_db_error_text()); \
            exit(1);                                                                           \
        }                                                                                      \
    } while (0)
#define OK(call) CHECK((call) == UCSTORE_DB_OK)

enum { PATH = 4096, KINDS = 5 };

static const char *top;
static const uint8_t one[8] = {1};

/* Returns the path of a file or directory below FOLDER. */
static const char *below(const char *name) {
    static char path[PATH];
    snprintf(path, sizeof path, "%s/%s", top, name);
    return path;
}

static struct ucstore_db_options counters(void) {
    struct ucstore_db_options options;
    OK(ucstore_db_options_init(&options, sizeof options));
    options.merge_operator = UCSTORE_DB_COUNTER;
    return options;
}

static struct ucstore_db *open_with(const char *name, const struct ucstore_db_options *options) {
    struct ucstore_db *db = NULL;
    OK(ucstore_db_open(below(name), options, &db));
    return db;
}

static struct ucstore_db *open_texts(const char *name) {
    struct ucstore_db_options options;
    OK(ucstore_db_options_init(&options, sizeof options));
    options.merge_operator = UCSTORE_DB_APPEND;
    return open_with(name, &options);
}

static void put(struct ucstore_db *db, const char *key, const char *value) {
    OK(ucstore_db_put(db, key, strlen(key), value, strlen(value)));
}

/* Returns true if a call failed with a status, and its message contains a string. */
static bool is_refused(int32_t status, int32_t wanted, const char *text) {
    return status == wanted && strstr(ucstore_db_error_text(), text) != NULL;
}

/* Returns true if a key has this value. */
static bool has(struct ucstore_db *db, const char *key, const char *value) {
    char room[64];
    size_t size = 0;
    return ucstore_db_get(db, key, strlen(key), room, sizeof room, &size) == UCSTORE_DB_OK && size == strlen(value) &&
           memcmp(room, value, size) == 0;
}

static void try_versions(void) {
    struct ucstore_db_options options;
    CHECK(ucstore_db_version() == UCSTORE_DB_ABI);
    OK(ucstore_db_options_init(&options, sizeof options));
    CHECK(options.size == sizeof options && options.sync == UCSTORE_DB_SYNC_ALWAYS && options.compactors == 2);
    CHECK(options.write_buffer_size == 4 << 20 && options.checkpoint_least == 64 << 20 && options.event == NULL);
    CHECK(options.compact_when_idle_milliseconds == 0 && options.checkpoint_bytes_per_second == 0 && options.checkpoint_ratio == 0);
}

/* A program compiled with another header has a smaller or a larger struct of options. */
static void try_sizes_of_options(void) {
    struct {
        struct ucstore_db_options options;
        uint64_t later[4];
    } program;
    const size_t first = offsetof(struct ucstore_db_options, recover_to), larger = sizeof program.options + sizeof program.later[0];
    struct ucstore_db *db = NULL;
    memset(&program, 'm', sizeof program);
    OK(ucstore_db_options_init(&program.options, first));
    CHECK(program.options.size == first && program.options.compactors == 2);
    CHECK(program.options.recover_to == 0x6d6d6d6d6d6d6d6d && program.options.marks_count == 0x6d6d6d6d6d6d6d6d);
    /* Bytes past its size are not read. */
    OK(ucstore_db_in_memory(&program.options, &db));
    put(db, "a", "1");
    OK(ucstore_db_close(db));
    OK(ucstore_db_options_init(&program.options, larger));
    CHECK(program.options.size == larger && program.later[0] == 0 && program.later[1] == 0x6d6d6d6d6d6d6d6d);
    OK(ucstore_db_in_memory(&program.options, &db));
    OK(ucstore_db_close(db));
    /* The library does not know the option that is set. */
    program.later[0] = 1;
    CHECK(is_refused(ucstore_db_in_memory(&program.options, &db), UCSTORE_DB_BAD_SIZE, "size"));
    CHECK(is_refused(ucstore_db_options_init(&program.options, first - 1), UCSTORE_DB_BAD_SIZE, "size"));
    CHECK(is_refused(ucstore_db_options_init(&program.options, SIZE_MAX), UCSTORE_DB_BAD_SIZE, "size"));
    CHECK(is_refused(ucstore_db_options_init(NULL, first), UCSTORE_DB_NULL, "null"));
    program.options.size = SIZE_MAX;
    CHECK(is_refused(ucstore_db_in_memory(&program.options, &db), UCSTORE_DB_BAD_SIZE, "size"));
}

static void try_refused_options(void) {
    struct ucstore_db_options options = counters();
    struct ucstore_db *db = NULL;
    CHECK(is_refused(ucstore_db_open(NULL, &options, &db), UCSTORE_DB_NULL, "null"));
    CHECK(is_refused(ucstore_db_open(below("none"), NULL, &db), UCSTORE_DB_NULL, "null"));
    CHECK(is_refused(ucstore_db_open(below("none"), &options, NULL), UCSTORE_DB_NULL, "null"));
    options.size = 8;
    CHECK(is_refused(ucstore_db_in_memory(&options, &db), UCSTORE_DB_BAD_SIZE, "size"));
    options = counters();
    options.merge_operator = 5;
    CHECK(is_refused(ucstore_db_in_memory(&options, &db), UCSTORE_DB_UNKNOWN_OPERATOR, "operator"));
    options = counters();
    options.sync = 3;
    CHECK(is_refused(ucstore_db_in_memory(&options, &db), UCSTORE_DB_BAD_OPTION, "option"));
    options = counters();
    options.write_buffer_size = 0;
    CHECK(is_refused(ucstore_db_in_memory(&options, &db), UCSTORE_DB_BAD_OPTION, "option"));
    CHECK(is_refused(ucstore_db_open(below("none"), &options, &db), UCSTORE_DB_BAD_OPTION, "option"));
    options = counters();
    options.sync = UCSTORE_DB_SYNC_EVERY;
    options.sync_milliseconds = 0;
    CHECK(is_refused(ucstore_db_open(below("none"), &options, &db), UCSTORE_DB_BAD_OPTION, "option"));
    CHECK(db == NULL && access(below("none"), F_OK) != 0);
}

static void try_refused_folders(void) {
    struct ucstore_db_options options = counters(), existing = options;
    struct ucstore_db *first = open_with("refused", &options), *other = NULL;
    CHECK(is_refused(ucstore_db_open(below("refused"), &options, &other), UCSTORE_DB_LOCKED, "LOCK"));
    OK(ucstore_db_close(first));
    existing.must_exist = 1;
    CHECK(is_refused(ucstore_db_open(below("none"), &existing, &other), UCSTORE_DB_MISSING, "none") && access(below("none"), F_OK) != 0);
    OK(ucstore_db_close(open_with("refused", &existing)));
    options.merge_operator = UCSTORE_DB_MAXIMUM;
    CHECK(is_refused(ucstore_db_open(below("refused"), &options, &other), UCSTORE_DB_OTHER_OPERATOR, "names counter"));
    CHECK(is_refused(ucstore_db_open(below("refused/LOCK/x"), &options, &other), UCSTORE_DB_FILE, "LOCK"));
    CHECK(other == NULL);
}

static void try_readers(void) {
    struct ucstore_db_options options = counters(), reading = options;
    struct ucstore_db *owner, *reader = NULL;
    uint64_t sequence = 0;
    const char one[8] = {1};
    char value[8];
    size_t size = 0;
    reading.read_only = 1;
    CHECK(is_refused(ucstore_db_open(below("unread"), &reading, &reader), UCSTORE_DB_MISSING, "unread"));
    CHECK(reader == NULL && access(below("unread"), F_OK) != 0);
    owner = open_with("beside", &options);
    OK(ucstore_db_merge(owner, "k", 1, one, 8));
    reader = open_with("beside", &reading);
    OK(ucstore_db_merge(owner, "k", 1, one, 8));
    OK(ucstore_db_get(reader, "k", 1, value, 8, &size));
    CHECK(size == 8 && value[0] == 1);
    OK(ucstore_db_refresh(reader, &sequence));
    OK(ucstore_db_get(reader, "k", 1, value, 8, &size));
    CHECK(sequence == 2 && size == 8 && value[0] == 2);
    OK(ucstore_db_checkpoint(owner));
    OK(ucstore_db_merge(owner, "k", 1, one, 8));
    OK(ucstore_db_refresh(reader, &sequence));
    CHECK(sequence == 3);
    CHECK(is_refused(ucstore_db_put(reader, "k", 1, one, 8), UCSTORE_DB_READ_ONLY, "opened to be read"));
    CHECK(is_refused(ucstore_db_refresh(owner, &sequence), UCSTORE_DB_FILE, "wasn't opened to be read") && sequence == 3);
    CHECK(ucstore_db_refresh(reader, NULL) == UCSTORE_DB_NULL && ucstore_db_refresh(NULL, &sequence) == UCSTORE_DB_NULL);
    OK(ucstore_db_end(reader));
    CHECK(ucstore_db_refresh(reader, &sequence) == UCSTORE_DB_CLOSED);
    OK(ucstore_db_close(reader));
    OK(ucstore_db_close(owner));
}

static void try_null(struct ucstore_db *db) {
    size_t size = 0;
    uint64_t lengths[2] = {1, 1};
    CHECK(ucstore_db_put(NULL, "k", 1, "v", 1) == UCSTORE_DB_NULL);
    CHECK(ucstore_db_put(db, NULL, 1, "v", 1) == UCSTORE_DB_NULL);
    CHECK(ucstore_db_get(db, "k", 1, NULL, 1, &size) == UCSTORE_DB_NULL);
    CHECK(ucstore_db_get(db, "k", 1, NULL, 0, NULL) == UCSTORE_DB_NULL);
    CHECK(ucstore_db_put(db, "k", SIZE_MAX, "v", 1) == UCSTORE_DB_TOO_LONG);
    CHECK(ucstore_db_get_many(db, "abc", 3, lengths, 2, lengths, NULL, 0, &size) == UCSTORE_DB_BAD_KEYS);
    CHECK(ucstore_db_write(db, NULL) == UCSTORE_DB_NULL);
    CHECK(!ucstore_db_cursor_valid(NULL) && ucstore_db_cursor_key(NULL, &size) == NULL && size == 0);
    CHECK(ucstore_db_cursor_next(NULL) == UCSTORE_DB_NULL && ucstore_db_cursor_status(NULL) == UCSTORE_DB_NULL);
    OK(ucstore_db_close(NULL));
    OK(ucstore_db_batch_close(NULL));
    OK(ucstore_db_snapshot_close(NULL));
    OK(ucstore_db_cursor_close(NULL));
}

static void try_lookups(struct ucstore_db *db) {
    const uint64_t lengths[] = {1, 2, 0, 1};
    uint64_t found[4];
    char room[9] = "........";
    size_t size = 77;
    put(db, "a", "first");
    put(db, "", "empty");
    put(db, "b", "");
    CHECK(ucstore_db_get(db, "none", 4, room, 8, &size) == UCSTORE_DB_NOT_FOUND && size == 77);
    OK(ucstore_db_get(db, "a", 1, room, 2, &size));
    CHECK(size == 5 && memcmp(room, "fi......", 8) == 0);
    OK(ucstore_db_get(db, NULL, 0, room, 8, &size));
    CHECK(size == 5 && memcmp(room, "empty...", 8) == 0);
    OK(ucstore_db_get(db, "b", 1, NULL, 0, &size));
    CHECK(size == 0);
    OK(ucstore_db_get_many(db, "bnoa", 4, lengths, 4, found, room, 8, &size));
    CHECK(size == 10 && memcmp(room, "emptyfir", 8) == 0);
    CHECK(found[0] == 0 && found[1] == UINT64_MAX && found[2] == 5 && found[3] == 5);
    OK(ucstore_db_get_many(db, NULL, 0, NULL, 0, NULL, NULL, 0, &size));
    CHECK(size == 0);
}

/* Returns true if an estimate is near 640: each sampled lookup counts for 64. */
static bool is_near(uint64_t estimate) {
    return estimate >= 640 - 3 * 64 && estimate <= 640 + 3 * 64;
}

/* Looks up keys that are in a run, in the memtable and nowhere. */
static void try_sources(void) {
    struct ucstore_db *db = open_texts("sources");
    struct ucstore_db_stats stats;
    put(db, "run", "v");
    OK(ucstore_db_flush(db));
    put(db, "memtable", "v");
    for (int round = 0; round < 640; round++) {
        CHECK(has(db, "run", "v") && has(db, "memtable", "v") && !has(db, "nowhere", "v"));
    }
    stats.size = sizeof stats;
    OK(ucstore_db_stats(db, &stats));
    CHECK(stats.lookups == 3 * 640 && is_near(stats.lookups_by_memtable));
    CHECK(is_near(stats.lookups_by_filters) && is_near(stats.lookups_by_runs));
    OK(ucstore_db_close(db));
}

static void try_batches(struct ucstore_db *db) {
    struct ucstore_db_batch *batch = NULL;
    uint64_t count = 0;
    OK(ucstore_db_batch_create(&batch));
    OK(ucstore_db_write(db, batch));
    OK(ucstore_db_batch_put(batch, "p", 1, "1", 1));
    OK(ucstore_db_batch_merge(batch, "p", 1, "2", 1));
    OK(ucstore_db_batch_delete(batch, "a", 1));
    OK(ucstore_db_batch_delete_range(batch, "b", 1, "c", 1));
    OK(ucstore_db_batch_count(batch, &count));
    CHECK(count == 4 && has(db, "a", "first"));
    OK(ucstore_db_write_with(db, batch, false));
    CHECK(has(db, "p", "1,2") && !has(db, "a", "first") && !has(db, "b", ""));
    OK(ucstore_db_batch_clear(batch));
    OK(ucstore_db_batch_merge(batch, "p", 1, "3", 1));
    OK(ucstore_db_write_with(db, batch, true));
    OK(ucstore_db_batch_close(batch));
    CHECK(has(db, "p", "1,2,3"));
    OK(ucstore_db_delete(db, "p", 1));
    OK(ucstore_db_delete_range(db, NULL, 0, "z", 1));
    CHECK(!has(db, "p", "1,2,3") && !has(db, "", "empty"));
    OK(ucstore_db_sync(db));
}

/* Returns true if a cursor is positioned at this row. */
static bool is_at(const struct ucstore_db_cursor *cursor, const char *key, const char *value) {
    size_t key_length = 0, value_length = 0;
    const char *found = ucstore_db_cursor_key(cursor, &key_length), *under = ucstore_db_cursor_value(cursor, &value_length);
    return ucstore_db_cursor_valid(cursor) && key_length == strlen(key) && value_length == strlen(value) &&
           memcmp(found, key, key_length) == 0 && memcmp(under, value, value_length) == 0;
}

static void try_cursors(struct ucstore_db *db) {
    struct ucstore_db_cursor *cursor = NULL;
    size_t length = 7;
    put(db, "a", "1");
    put(db, "b", "2");
    put(db, "b\xff", "3");
    put(db, "c", "4");
    OK(ucstore_db_cursor(db, "a\1", 2, "c", 1, true, &cursor));
    put(db, "ba", "late");
    CHECK(is_at(cursor, "b", "2"));
    OK(ucstore_db_cursor_seek(cursor, "b\x01", 2));
    CHECK(is_at(cursor, "b\xff", "3"));
    OK(ucstore_db_cursor_next(cursor));
    CHECK(!ucstore_db_cursor_valid(cursor) && ucstore_db_cursor_key(cursor, &length) == NULL && length == 0);
    OK(ucstore_db_cursor_next(cursor));
    OK(ucstore_db_cursor_status(cursor));
    OK(ucstore_db_cursor_seek(cursor, NULL, 0));
    CHECK(is_at(cursor, "b", "2"));
    OK(ucstore_db_cursor_close(cursor));
    OK(ucstore_db_prefix(db, "b\xff", 2, &cursor));
    CHECK(is_at(cursor, "b\xff", "3"));
    OK(ucstore_db_cursor_next(cursor));
    CHECK(!ucstore_db_cursor_valid(cursor));
    OK(ucstore_db_cursor_close(cursor));
    OK(ucstore_db_prefix(db, "\xff\xff", 2, &cursor));
    CHECK(!ucstore_db_cursor_valid(cursor));
    OK(ucstore_db_cursor_close(cursor));
}

/* Moves a cursor both ways. The database has a, b, b\xff, ba and c. */
static void try_back(struct ucstore_db *db) {
    struct ucstore_db_cursor *cursor = NULL;
    OK(ucstore_db_cursor(db, "a\1", 2, "c", 1, true, &cursor));
    OK(ucstore_db_cursor_last(cursor));
    CHECK(is_at(cursor, "b\xff", "3"));
    OK(ucstore_db_cursor_prev(cursor));
    CHECK(is_at(cursor, "ba", "late"));
    OK(ucstore_db_cursor_next(cursor));
    CHECK(is_at(cursor, "b\xff", "3"));
    OK(ucstore_db_cursor_next(cursor));
    CHECK(!ucstore_db_cursor_valid(cursor));
    OK(ucstore_db_cursor_prev(cursor));
    CHECK(!ucstore_db_cursor_valid(cursor));
    OK(ucstore_db_cursor_seek_for_prev(cursor, "bb", 2));
    CHECK(is_at(cursor, "ba", "late"));
    OK(ucstore_db_cursor_seek_for_prev(cursor, "ba", 2));
    CHECK(is_at(cursor, "ba", "late"));
    OK(ucstore_db_cursor_prev(cursor));
    CHECK(is_at(cursor, "b", "2"));
    OK(ucstore_db_cursor_prev(cursor));
    CHECK(!ucstore_db_cursor_valid(cursor));
    OK(ucstore_db_cursor_next(cursor));
    CHECK(!ucstore_db_cursor_valid(cursor));
    OK(ucstore_db_cursor_status(cursor));
    OK(ucstore_db_cursor_seek_for_prev(cursor, "z", 1));
    CHECK(is_at(cursor, "b\xff", "3"));
    OK(ucstore_db_cursor_seek_for_prev(cursor, "a", 1));
    CHECK(!ucstore_db_cursor_valid(cursor));
    OK(ucstore_db_cursor_first(cursor));
    CHECK(is_at(cursor, "b", "2"));
    OK(ucstore_db_cursor_next(cursor));
    CHECK(is_at(cursor, "ba", "late"));
    OK(ucstore_db_cursor_close(cursor));
    CHECK(ucstore_db_cursor_first(NULL) == UCSTORE_DB_NULL && ucstore_db_cursor_last(NULL) == UCSTORE_DB_NULL);
    CHECK(ucstore_db_cursor_prev(NULL) == UCSTORE_DB_NULL);
    CHECK(ucstore_db_cursor_seek_for_prev(NULL, "a", 1) == UCSTORE_DB_NULL);
}

static void try_pages(struct ucstore_db *db) {
    struct ucstore_db_cursor *cursor = NULL;
    uint64_t lengths[6];
    char room[16];
    size_t rows = 9, size = 0;
    OK(ucstore_db_cursor(db, NULL, 0, NULL, 0, false, &cursor));
    CHECK(ucstore_db_cursor_page(cursor, lengths, 6, room, 1, &rows, &size) == UCSTORE_DB_ROOM && size == 2 && rows == 9);
    CHECK(ucstore_db_cursor_page(cursor, lengths, 1, room, 16, &rows, &size) == UCSTORE_DB_ROOM && is_at(cursor, "a", "1"));
    OK(ucstore_db_cursor_page(cursor, lengths, 6, room, 5, &rows, &size));
    CHECK(rows == 2 && size == 4 && memcmp(room, "a1b2", 4) == 0 && lengths[0] == 1 && lengths[3] == 1);
    OK(ucstore_db_cursor_page(cursor, lengths, 3, room, 16, &rows, &size));
    CHECK(rows == 1 && size == 6 && memcmp(room, "balate", 6) == 0 && lengths[0] == 2 && lengths[1] == 4);
    OK(ucstore_db_cursor_page(cursor, lengths, 6, room, 16, &rows, &size));
    CHECK(rows == 2 && size == 5);
    OK(ucstore_db_cursor_page(cursor, lengths, 6, room, 16, &rows, &size));
    CHECK(rows == 0 && size == 0);
    OK(ucstore_db_cursor_close(cursor));
}

static void try_snapshots(struct ucstore_db *db) {
    struct ucstore_db_snapshot *before = NULL, *again = NULL;
    struct ucstore_db_cursor *cursor = NULL;
    uint64_t sequence = 0, length = 1, found = 0;
    char room[4];
    size_t size = 0;
    OK(ucstore_db_snapshot(db, &before));
    OK(ucstore_db_delete(db, "a", 1));
    OK(ucstore_db_snapshot_again(before, &again));
    OK(ucstore_db_snapshot_close(before));
    OK(ucstore_db_snapshot_sequence(again, &sequence));
    CHECK(sequence > 0 && !has(db, "a", "1"));
    OK(ucstore_db_snapshot_get(again, "a", 1, room, sizeof room, &size));
    CHECK(size == 1 && room[0] == '1');
    OK(ucstore_db_snapshot_get_many(again, "a", 1, &length, 1, &found, room, sizeof room, &size));
    CHECK(found == 1 && ucstore_db_snapshot_get(again, "zz", 2, room, 4, &size) == UCSTORE_DB_NOT_FOUND);
    OK(ucstore_db_snapshot_cursor(again, NULL, 0, NULL, 0, false, &cursor));
    CHECK(is_at(cursor, "a", "1"));
    OK(ucstore_db_cursor_close(cursor));
    OK(ucstore_db_snapshot_prefix(again, "c", 1, &cursor));
    OK(ucstore_db_snapshot_close(again));
    /* Snapshots and cursors outlive the database. */
    OK(ucstore_db_close(db));
    CHECK(is_at(cursor, "c", "4"));
    OK(ucstore_db_cursor_seek(cursor, "c", 1));
    CHECK(is_at(cursor, "c", "4"));
    OK(ucstore_db_cursor_close(cursor));
}

/* Begins a transaction that has read a key, and puts another one. */
static struct ucstore_db_transaction *begin(struct ucstore_db *db, const char *read, const char *put) {
    struct ucstore_db_transaction *transaction = NULL;
    char room[8];
    size_t size = 0;
    OK(ucstore_db_transaction_begin(db, &transaction));
    ucstore_db_transaction_get(transaction, read, strlen(read), room, sizeof room, &size);
    OK(ucstore_db_transaction_put(transaction, put, strlen(put), "1", 1));
    return transaction;
}

static void try_transactions(void) {
    struct ucstore_db *db = open_texts("transactions");
    struct ucstore_db_transaction *one = NULL, *none = NULL;
    uint64_t lengths[6];
    char room[16];
    size_t rows = 9, size = 0;
    CHECK(ucstore_db_transaction_begin(NULL, &one) == UCSTORE_DB_NULL && ucstore_db_transaction_begin(db, NULL) == UCSTORE_DB_NULL);
    CHECK(ucstore_db_transaction_commit(NULL) == UCSTORE_DB_NULL && ucstore_db_transaction_rollback(none) == UCSTORE_DB_NULL);
    OK(ucstore_db_transaction_close(NULL));
    put(db, "a", "1");
    put(db, "b", "2");
    /* Own writes are read, and written at the commit. */
    one = begin(db, "a", "c");
    OK(ucstore_db_transaction_merge(one, "b", 1, "3", 1));
    OK(ucstore_db_transaction_delete(one, "a", 1));
    OK(ucstore_db_transaction_delete_range(one, "x", 1, "y", 1));
    CHECK(ucstore_db_transaction_get(one, "a", 1, room, 16, &size) == UCSTORE_DB_NOT_FOUND);
    OK(ucstore_db_transaction_get_unchecked(one, "b", 1, room, 2, &size));
    CHECK(size == 3 && memcmp(room, "2,", 2) == 0);
    CHECK(ucstore_db_transaction_page(one, NULL, 0, NULL, 0, false, lengths, 6, room, 1, &rows, &size) == UCSTORE_DB_ROOM);
    CHECK(rows == 9 && size == 4);
    OK(ucstore_db_transaction_page(one, NULL, 0, NULL, 0, false, lengths, 2, room, 16, &rows, &size));
    CHECK(rows == 1 && size == 4 && memcmp(room, "b2,3", 4) == 0 && lengths[0] == 1 && lengths[1] == 3);
    OK(ucstore_db_transaction_page(one, "b\0", 2, "d", 1, true, lengths, 6, room, 16, &rows, &size));
    CHECK(rows == 1 && size == 2 && memcmp(room, "c1", 2) == 0);
    OK(ucstore_db_transaction_page(one, "c\0", 2, NULL, 0, false, lengths, 6, room, 16, &rows, &size));
    CHECK(rows == 0 && size == 0 && has(db, "a", "1"));
    OK(ucstore_db_transaction_commit(one));
    CHECK(ucstore_db_transaction_commit(one) == UCSTORE_DB_CLOSED && ucstore_db_transaction_rollback(one) == UCSTORE_DB_CLOSED);
    CHECK(ucstore_db_transaction_put(one, "a", 1, "1", 1) == UCSTORE_DB_CLOSED);
    OK(ucstore_db_transaction_close(one));
    CHECK(has(db, "b", "2,3") && has(db, "c", "1") && !has(db, "a", "1"));
    /* A read that has changed is a conflict. */
    one = begin(db, "a", "d");
    put(db, "a", "1");
    CHECK(is_refused(ucstore_db_transaction_commit(one), UCSTORE_DB_CONFLICT, "conflict: key \"a\" has changed"));
    OK(ucstore_db_transaction_close(one));
    one = begin(db, "a", "d");
    OK(ucstore_db_transaction_page(one, "b", 1, "c", 1, true, lengths, 6, room, 16, &rows, &size));
    put(db, "bb", "1");
    CHECK(is_refused(ucstore_db_transaction_commit(one), UCSTORE_DB_CONFLICT, "range \"b\" to \"c\" has changed"));
    OK(ucstore_db_transaction_close(one));
    /* One that is rolled back, or closed, writes nothing. */
    one = begin(db, "a", "d");
    OK(ucstore_db_transaction_rollback(one));
    OK(ucstore_db_transaction_close(one));
    OK(ucstore_db_transaction_close(begin(db, "a", "d")));
    CHECK(!has(db, "d", "1"));
    /* A transaction outlives its database, and is refused. */
    one = begin(db, "a", "d");
    OK(ucstore_db_end(db));
    CHECK(ucstore_db_transaction_commit(one) == UCSTORE_DB_CLOSED && ucstore_db_transaction_begin(db, &none) == UCSTORE_DB_CLOSED);
    OK(ucstore_db_transaction_close(one));
    OK(ucstore_db_close(db));
}

/* The events and the progress that callbacks have reported, and the last text. */
struct told {
    pthread_mutex_t lock;
    struct ucstore_db *db;
    unsigned events[KINDS], openings;
    int32_t status;
    uint64_t read, whole;
    char text[256];
};

/* Returns a batch that puts a key of one byte to a value of one byte, at a sequence number below 256. */
static const uint8_t *batch_at(uint8_t sequence, char key, char value) {
    static uint8_t batch[17] = {0, 0, 0, 0, 0, 0, 0, 0, 1, 0, 0, 0, 1, 1, 0, 1, 0};
    batch[0] = sequence;
    batch[14] = (uint8_t)key;
    batch[16] = (uint8_t)value;
    return batch;
}

/* Makes a backup, which is a database of its own. */
static void try_backup(void) {
    struct ucstore_db *db = open_texts("origin"), *backup;
    uint64_t sequence = 0;
    OK(ucstore_db_put(db, "a", 1, "1", 1));
    OK(ucstore_db_backup(db, below("backup"), &sequence));
    CHECK(sequence == 1);
    OK(ucstore_db_put(db, "a", 1, "2", 1));
    CHECK(is_refused(ucstore_db_backup(db, below("backup"), &sequence), UCSTORE_DB_FILE, "backup"));
    CHECK(ucstore_db_backup(NULL, below("other"), &sequence) == UCSTORE_DB_NULL);
    CHECK(ucstore_db_backup(db, NULL, &sequence) == UCSTORE_DB_NULL && ucstore_db_backup(db, below("other"), NULL) == UCSTORE_DB_NULL);
    OK(ucstore_db_end(db));
    CHECK(ucstore_db_backup(db, below("other"), &sequence) == UCSTORE_DB_CLOSED && sequence == 1);
    OK(ucstore_db_close(db));
    backup = open_texts("backup");
    CHECK(has(backup, "a", "1"));
    OK(ucstore_db_close(backup));
}

/* Recovers a database to a sequence number, with snapshots at marks, after a checkpoint at one of them. */
static void try_recovery(void) {
    static const uint64_t marks[] = {20, 7};
    struct ucstore_db_options options;
    struct ucstore_db *db = open_texts("parts"), *other = NULL;
    struct ucstore_db_snapshot *snapshot = NULL, *unset = NULL;
    uint64_t sequence = 0;
    OK(ucstore_db_options_init(&options, sizeof options));
    CHECK(options.recover_to == UINT64_MAX && options.give_up_until == UINT64_MAX && options.marks_count == 0);
    OK(ucstore_db_write_bytes(db, batch_at(7, 'a', '1'), 17, true));
    OK(ucstore_db_snapshot(db, &snapshot));
    OK(ucstore_db_write_bytes(db, batch_at(20, 'a', '2'), 17, false));
    OK(ucstore_db_write_bytes(db, batch_at(0, 'a', '3'), 17, true));
    CHECK(is_refused(ucstore_db_write_bytes(db, batch_at(21, 'a', '4'), 17, true), UCSTORE_DB_SEQUENCE_BACK, "above the last"));
    CHECK(is_refused(ucstore_db_write_bytes(db, batch_at(30, 'a', '4'), 16, true), UCSTORE_DB_NOT_A_BATCH, "write batch"));
    CHECK(ucstore_db_write_bytes(db, NULL, 17, true) == UCSTORE_DB_NULL);
    OK(ucstore_db_in_memory(&options, &other));
    CHECK(is_refused(ucstore_db_checkpoint_to(other, snapshot), UCSTORE_DB_OTHER_DATABASE, "another database"));
    OK(ucstore_db_close(other));
    OK(ucstore_db_checkpoint_to(db, snapshot));
    OK(ucstore_db_checkpoint_to(db, snapshot));
    OK(ucstore_db_next_log(db));
    CHECK(ucstore_db_next_log(NULL) == UCSTORE_DB_NULL);
    CHECK(ucstore_db_checkpoint_to(db, NULL) == UCSTORE_DB_NULL && ucstore_db_checkpoint_to(NULL, snapshot) == UCSTORE_DB_NULL);
    OK(ucstore_db_snapshot_close(snapshot));
    CHECK(ucstore_db_take_mark(db, 7, &unset) == UCSTORE_DB_NOT_PROTECTED && unset == NULL);
    OK(ucstore_db_close(db));
    options.recover_to = 8;
    CHECK(is_refused(ucstore_db_open(below("parts"), &options, &db), UCSTORE_DB_NOT_RECOVERABLE, "000001.log can't be recovered at"));
    options.recover_to = 20;
    options.give_up_until = 20;
    CHECK(is_refused(ucstore_db_open(below("parts"), &options, &db), UCSTORE_DB_NOT_RECOVERABLE, "20 was acknowledged"));
    options.give_up_until = 21;
    options.marks_count = 2;
    CHECK(ucstore_db_open(below("parts"), &options, &db) == UCSTORE_DB_NULL);
    options.marks = marks;
    db = open_with("parts", &options);
    CHECK(has(db, "a", "2"));
    OK(ucstore_db_take_mark(db, 7, &snapshot));
    OK(ucstore_db_snapshot_sequence(snapshot, &sequence));
    CHECK(sequence == 7 && ucstore_db_take_mark(db, 7, &unset) == UCSTORE_DB_NOT_PROTECTED);
    OK(ucstore_db_snapshot_close(snapshot));
    put(db, "b", "1");
    OK(ucstore_db_close(db));
    db = open_texts("parts");
    CHECK(has(db, "a", "2") && has(db, "b", "1"));
    OK(ucstore_db_close(db));
}

static void hear_event(void *context, const struct ucstore_db_event *event) {
    struct told *told = (struct told *)context;
    struct ucstore_db_stats stats;
    stats.size = sizeof stats;
    CHECK(event->kind < KINDS && pthread_mutex_lock(&told->lock) == 0);
    told->events[event->kind]++;
    told->status = event->status;
    snprintf(told->text, sizeof told->text, "%s", event->text);
    CHECK(pthread_mutex_unlock(&told->lock) == 0);
    /* A callback may call the database. */
    CHECK(told->db == NULL || ucstore_db_stats(told->db, &stats) == UCSTORE_DB_OK);
}

static void hear_progress(void *context, const struct ucstore_db_progress *progress) {
    struct told *told = (struct told *)context;
    CHECK(progress->read >= told->read && progress->read <= progress->whole && strstr(progress->file, ".") != NULL);
    told->openings++;
    told->read = progress->read;
    told->whole = progress->whole;
}

/* Background threads make callbacks that call the database until it is closed. */
static void try_events_of_a_close(struct told *told, const struct ucstore_db_options *usual) {
    struct ucstore_db_options options = *usual;
    char key[16];
    options.write_buffer_size = 300;
    for (int round = 0; round < 10; round++) {
        OK(ucstore_db_in_memory(&options, &told->db));
        for (int number = 0; number < 200; number++) {
            snprintf(key, sizeof key, "%d", number);
            OK(ucstore_db_merge(told->db, key, strlen(key), one, sizeof one));
        }
        OK(ucstore_db_close(told->db));
        told->db = NULL;
    }
}

static void try_events(void) {
    static struct told told;
    struct ucstore_db_options options = counters();
    struct ucstore_db_stats stats;
    char room[2048], cut[10];
    size_t size = 0;
    CHECK(pthread_mutex_init(&told.lock, NULL) == 0);
    options.event = hear_event;
    options.progress = hear_progress;
    options.event_context = options.progress_context = &told;
    told.db = open_with("events", &options);
    for (int round = 0; round < 4; round++) {
        OK(ucstore_db_merge(told.db, "k", 1, one, sizeof one));
        OK(ucstore_db_flush(told.db));
    }
    OK(ucstore_db_compact(told.db));
    OK(ucstore_db_checkpoint(told.db));
    CHECK(told.events[UCSTORE_DB_FLUSHED] == 4 && told.events[UCSTORE_DB_CHECKPOINTED] == 1);
    CHECK(strcmp(told.text, "000002-4.runs") == 0 || told.events[UCSTORE_DB_COMPACTED] > 0);
    stats.size = 1;
    CHECK(ucstore_db_stats(told.db, &stats) == UCSTORE_DB_BAD_SIZE);
    memset(&stats, 'm', sizeof stats);
    stats.size = offsetof(struct ucstore_db_stats, lookups_by_memtable);
    OK(ucstore_db_stats(told.db, &stats));
    CHECK(stats.size == offsetof(struct ucstore_db_stats, lookups_by_memtable) && stats.checkpoints == 1);
    CHECK(stats.lookups_by_memtable == 0x6d6d6d6d6d6d6d6d);
    stats.size = sizeof stats;
    OK(ucstore_db_stats(told.db, &stats));
    CHECK(stats.batches == 4 && stats.flushes == 4 && stats.checkpoints == 1 && stats.syncs >= 4 && stats.last == 4);
    CHECK(stats.user_bytes == 4 * 24 && stats.logged_bytes == 4 * 35 && stats.base_bytes > 0);
    CHECK(stats.flush_bytes > 0 && stats.compaction_read >= stats.compaction_written);
    CHECK(stats.run_files >= 1 && stats.run_files <= 4 && stats.kept_bytes == 0);
    CHECK(stats.size == sizeof stats && stats.sync_p50 <= stats.sync_p99);
    OK(ucstore_db_stats_text(told.db, room, sizeof room, &size));
    CHECK(strlen(room) == size && strstr(room, "write amplification") != NULL);
    OK(ucstore_db_stats_text(told.db, cut, sizeof cut, &size));
    CHECK(strlen(cut) == 9 && strncmp(cut, "** Database", 9) == 0);
    OK(ucstore_db_close(told.db));
    told.db = NULL;
    OK(ucstore_db_close(open_with("events", &options)));
    try_events_of_a_close(&told, &options);
    CHECK(told.openings > 0 && told.read == told.whole && told.whole > 0);
    CHECK(pthread_mutex_destroy(&told.lock) == 0);
}

/* Inverts a byte of a file. */
static void damage(const char *name, long place) {
    FILE *file = fopen(below(name), "r+b");
    int byte;
    CHECK(file != NULL && fseek(file, place, SEEK_SET) == 0);
    byte = fgetc(file);
    CHECK(byte != EOF && fseek(file, place, SEEK_SET) == 0 && fputc(byte ^ 0xff, file) != EOF && fclose(file) == 0);
}

static void try_damage(void) {
    struct ucstore_db_options options;
    struct ucstore_db *db = open_texts("damage");
    put(db, "a", "1");
    put(db, "b", "2");
    put(db, "c", "3");
    OK(ucstore_db_close(db));
    /* A record has a header of 7 bytes, a batch header of 12, a mark of 4 and a put of 5: this offset is in the second record. */
    damage("damage/000001.log", 34);
    db = NULL;
    OK(ucstore_db_options_init(&options, sizeof options));
    CHECK(is_refused(ucstore_db_open(below("damage"), &options, &db), UCSTORE_DB_DAMAGED, "000001.log is damaged at 28"));
    CHECK(db == NULL);
    options.recovers_to_fault = 1;
    db = open_with("damage", &options);
    CHECK(has(db, "a", "1") && !has(db, "b", "2"));
    CHECK(is_refused(ucstore_db_put(db, "k", 1, "v", 1), UCSTORE_DB_READ_ONLY, "000001.log is damaged at 28"));
    CHECK(is_refused(ucstore_db_failure(db), UCSTORE_DB_READ_ONLY, "000001.log"));
    OK(ucstore_db_close(db));
}

/* A write that does not fit fails, and acknowledged writes stay. A write that fits succeeds. */
static void try_full_device(void) {
    static char value[3000];
    static struct told told;
    struct ucstore_db_options options;
    struct rlimit limit, before;
    struct ucstore_db *db;
    OK(ucstore_db_options_init(&options, sizeof options));
    options.merge_operator = UCSTORE_DB_APPEND;
    options.event = hear_event;
    options.event_context = &told;
    CHECK(pthread_mutex_init(&told.lock, NULL) == 0);
    db = open_with("full", &options);
    put(db, "a", "1");
    OK(ucstore_db_failure(db));
    CHECK(signal(SIGXFSZ, SIG_IGN) != SIG_ERR && getrlimit(RLIMIT_FSIZE, &before) == 0);
    limit = before;
    limit.rlim_cur = 2000;
    CHECK(setrlimit(RLIMIT_FSIZE, &limit) == 0);
    for (int round = 0; round < 2; round++) {
        CHECK(is_refused(ucstore_db_put(db, "b", 1, value, sizeof value), UCSTORE_DB_FILE, "000001.log: File too large"));
    }
    CHECK(told.events[UCSTORE_DB_FAILED] == 1 && told.status == UCSTORE_DB_FILE && strstr(told.text, "000001.log") != NULL);
    put(db, "c", "3");
    CHECK(setrlimit(RLIMIT_FSIZE, &before) == 0);
    OK(ucstore_db_put(db, "b", 1, value, sizeof value));
    OK(ucstore_db_sync(db));
    OK(ucstore_db_checkpoint(db));
    OK(ucstore_db_failure(db));
    OK(ucstore_db_close(db));
    db = open_texts("full");
    CHECK(has(db, "a", "1") && has(db, "c", "3"));
    OK(ucstore_db_close(db));
}

/* A database that was shut down rejects writes, and can still be read. Its directory can be opened again. */
static void try_end(void) {
    struct ucstore_db *db = open_texts("ended"), *again;
    put(db, "a", "1");
    OK(ucstore_db_end(db));
    CHECK(is_refused(ucstore_db_put(db, "b", 1, "2", 1), UCSTORE_DB_CLOSED, "closed") && has(db, "a", "1"));
    CHECK(ucstore_db_end(db) == UCSTORE_DB_CLOSED && ucstore_db_failure(db) == UCSTORE_DB_CLOSED);
    again = open_texts("ended");
    CHECK(has(again, "a", "1"));
    OK(ucstore_db_close(db));
    OK(ucstore_db_close(again));
}

static void try_memory(void) {
    struct ucstore_db_options options = counters();
    struct ucstore_db *db = NULL;
    uint64_t found = 0;
    size_t size = 0;
    OK(ucstore_db_in_memory(&options, &db));
    OK(ucstore_db_merge(db, "k", 1, one, sizeof one));
    OK(ucstore_db_merge(db, "k", 1, one, sizeof one));
    OK(ucstore_db_checkpoint(db));
    OK(ucstore_db_sync(db));
    OK(ucstore_db_get(db, "k", 1, &found, sizeof found, &size));
    CHECK(found == 2 && size == sizeof found);
    OK(ucstore_db_close(db));
}

/* Returns the statistics of a database. */
static struct ucstore_db_stats stats_of(struct ucstore_db *db) {
    struct ucstore_db_stats stats;
    memset(&stats, 0, sizeof stats);
    stats.size = sizeof stats;
    OK(ucstore_db_stats(db, &stats));
    return stats;
}

/* Returns true if the counter k is three. */
static bool is_three(struct ucstore_db *db) {
    uint64_t found = 0;
    size_t size = 0;
    return ucstore_db_get(db, "k", 1, &found, sizeof found, &size) == UCSTORE_DB_OK && found == 3 && size == sizeof found;
}

/* An idle database compacts to one run, unless the option says that it never does. */
static void try_idle(void) {
    struct ucstore_db_options options = counters();
    struct ucstore_db *idle = NULL, *other = NULL;
    struct ucstore_db_stats stats;
    const struct timespec pause = {0, 10000000};
    int run, wait;
    options.compact_when_idle_milliseconds = 0;
    OK(ucstore_db_in_memory(&options, &other));
    options.compact_when_idle_milliseconds = 20;
    OK(ucstore_db_in_memory(&options, &idle));
    for (run = 0; run < 3; run++) {
        OK(ucstore_db_merge(idle, "k", 1, one, sizeof one));
        OK(ucstore_db_merge(other, "k", 1, one, sizeof one));
        OK(ucstore_db_flush(idle));
        OK(ucstore_db_flush(other));
    }
    stats = stats_of(idle);
    /* It is counted once the runs are replaced. */
    for (wait = 0; wait < 2000 && (stats.runs > 1 || stats.compactions == 0); wait++) {
        CHECK(nanosleep(&pause, NULL) == 0);
        stats = stats_of(idle);
    }
    CHECK(stats.runs == 1 && stats.compactions > 0 && stats.last == 3 && is_three(idle));
    stats = stats_of(other);
    CHECK(stats.runs == 3 && stats.compactions == 0 && stats.last == 3);
    OK(ucstore_db_close(idle));
    OK(ucstore_db_close(other));
}

/* Checks the statuses in a forked child. */
static bool is_forked(struct ucstore_db *db, struct ucstore_db_cursor *cursor) {
    size_t size = 0;
    return is_refused(ucstore_db_put(db, "k", 1, "v", 1), UCSTORE_DB_FORKED, "forked") &&
           ucstore_db_get(db, "k", 1, NULL, 0, &size) == UCSTORE_DB_FORKED && !ucstore_db_cursor_valid(cursor) &&
           ucstore_db_cursor_close(cursor) == UCSTORE_DB_FORKED && ucstore_db_close(db) == UCSTORE_DB_FORKED;
}

static void try_fork(void) {
    struct ucstore_db *db = open_texts("forked");
    struct ucstore_db_cursor *cursor = NULL;
    int question[2], answer[2];
    char byte = 0;
    pid_t child;
    put(db, "k", "v");
    OK(ucstore_db_cursor(db, NULL, 0, NULL, 0, false, &cursor));
    CHECK(pipe(question) == 0 && pipe(answer) == 0);
    child = fork();
    if (child == 0) {
        byte = is_forked(db, cursor) ? 'y' : 'n';
        /* The child stays until the parent has opened the directory again. */
        close(question[1]);
        _exit(write(answer[1], &byte, 1) == 1 && read(question[0], &byte, 1) == 0 ? 0 : 1);
    }
    put(db, "k", "w");
    OK(ucstore_db_cursor_close(cursor));
    OK(ucstore_db_close(db));
    CHECK(read(answer[0], &byte, 1) == 1 && byte == 'y');
    db = open_texts("forked");
    CHECK(has(db, "k", "w") && close(question[1]) == 0 && waitpid(child, NULL, 0) == child);
    OK(ucstore_db_close(db));
    CHECK(close(question[0]) == 0 && close(answer[0]) == 0 && close(answer[1]) == 0);
}

int main(int argc, char **argv) {
    struct ucstore_db *db;
    if (argc != 2) {
        fprintf(stderr, "db_test FOLDER\n");
        return 2;
    }
    top = argv[1];
    try_versions();
    try_sizes_of_options();
    try_refused_options();
    try_refused_folders();
    try_readers();
    try_fork();
    try_end();
    try_memory();
    db = open_texts("texts");
    try_null(db);
    try_lookups(db);
    try_batches(db);
    try_cursors(db);
    try_back(db);
    try_pages(db);
    try_snapshots(db);
    try_transactions();
    try_sources();
    try_backup();
    try_recovery();
    try_events();
    try_idle();
    try_damage();
    try_full_device();
    printf("calls of the database are as they have to be\n");
    return 0;
}
