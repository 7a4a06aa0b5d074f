/* The database of bindings/rust/ucstore-db by its header for C. */
#include "store.h"

#include <ucstore_db.h>

const bool has_memory = true, has_merges = true, has_scans = true;

static struct ucstore_db *db;

enum { ROOM = 1 << 16, MOST_KEYS = 256 };

struct session {
    uint8_t room[ROOM];
};

static void expect_ok(int32_t status) {
    expect(status == UCSTORE_DB_OK, ucstore_db_error_text());
}

void open_store(const struct settings *settings) {
    struct ucstore_db_options options;
    expect_ok(ucstore_db_options_init(&options, sizeof options));
    options.merge_operator = UCSTORE_DB_COUNTER;
    options.sync = settings->is_synced ? UCSTORE_DB_SYNC_ALWAYS : UCSTORE_DB_SYNC_NEVER;
    expect_ok(settings->folder == NULL ? ucstore_db_in_memory(&options, &db) : ucstore_db_open(settings->folder, &options, &db));
}

struct session *open_session(void) {
    return (struct session *)allocate(1, sizeof(struct session));
}

void put(struct session *session, struct text key, struct text value) {
    (void)session;
    expect_ok(ucstore_db_put(db, key.bytes, key.length, value.bytes, value.length));
}

void add(struct session *session, struct text key, uint64_t number) {
    uint8_t operand[8];
    (void)session;
    put_number(operand, number);
    expect_ok(ucstore_db_merge(db, key.bytes, key.length, operand, sizeof operand));
}

void delete_key(struct session *session, struct text key) {
    (void)session;
    expect_ok(ucstore_db_delete(db, key.bytes, key.length));
}

bool get(struct session *session, struct text key, struct text *value) {
    int32_t status = ucstore_db_get(db, key.bytes, key.length, session->room, ROOM, &value->length);
    if (status == UCSTORE_DB_NOT_FOUND) {
        return false;
    }
    expect_ok(status);
    expect(value->length <= ROOM, "a value has no room");
    value->bytes = session->room;
    return true;
}

size_t get_many(struct session *session, const struct text *keys, size_t count) {
    uint8_t all[MOST_KEYS * 16] = {0};
    uint64_t lengths[MOST_KEYS] = {0}, value_lengths[MOST_KEYS];
    size_t used = 0, size = 0, found = 0;
    expect(count <= MOST_KEYS, "there are too many keys");
    for (size_t place = 0; place < count; place++) {
        for (size_t byte = 0; byte < keys[place].length; byte++) {
            all[used++] = keys[place].bytes[byte];
        }
        lengths[place] = keys[place].length;
    }
    expect_ok(ucstore_db_get_many(db, all, used, lengths, count, value_lengths, session->room, ROOM, &size));
    for (size_t place = 0; place < count; place++) {
        found += value_lengths[place] != UINT64_MAX;
    }
    return found;
}

uint64_t scan(struct session *session, struct text low, uint64_t limit) {
    struct ucstore_db_cursor *rows;
    uint64_t bytes = 0;
    (void)session;
    expect_ok(ucstore_db_cursor(db, low.bytes, low.length, NULL, 0, false, &rows));
    for (; limit > 0 && ucstore_db_cursor_valid(rows); limit--) {
        size_t key_length, value_length;
        ucstore_db_cursor_key(rows, &key_length);
        ucstore_db_cursor_value(rows, &value_length);
        bytes += key_length + value_length;
        expect_ok(ucstore_db_cursor_next(rows));
    }
    expect_ok(ucstore_db_cursor_status(rows));
    expect_ok(ucstore_db_cursor_close(rows));
    return bytes;
}

uint64_t scan_back(struct session *session, struct text high, uint64_t limit) {
    struct ucstore_db_cursor *rows;
    uint64_t bytes = 0;
    (void)session;
    expect_ok(ucstore_db_cursor(db, NULL, 0, NULL, 0, false, &rows));
    expect_ok(ucstore_db_cursor_seek_for_prev(rows, high.bytes, high.length));
    for (; limit > 0 && ucstore_db_cursor_valid(rows); limit--) {
        size_t key_length, value_length;
        ucstore_db_cursor_key(rows, &key_length);
        ucstore_db_cursor_value(rows, &value_length);
        bytes += key_length + value_length;
        expect_ok(ucstore_db_cursor_prev(rows));
    }
    expect_ok(ucstore_db_cursor_status(rows));
    expect_ok(ucstore_db_cursor_close(rows));
    return bytes;
}

void close_session(struct session *session) {
    free(session);
}

void settle(void) {
    expect_ok(ucstore_db_flush(db));
    expect_ok(ucstore_db_compact(db));
}

void checkpoint(void) {
    expect_ok(ucstore_db_checkpoint(db));
}

void close_store(void) {
    expect_ok(ucstore_db_close(db));
}
