/* LMDB: one writer at a time, and readers of its memory map. A read transaction is renewed for each call, so that it sees
 * what was written. It has no merges: a number is read and written back in one transaction. */
#include "store.h"

#include <lmdb.h>
#include <string.h>

const bool has_memory = false, has_merges = false, has_scans = true;

static MDB_env *env;
static MDB_dbi table;

struct session {
    MDB_txn *reading;
    MDB_cursor *rows;
    bool is_reading;
};

static void expect_ok(int status) {
    expect(status == MDB_SUCCESS, mdb_strerror(status));
}

static MDB_val val_of(struct text text) {
    return (MDB_val){text.length, (void *)text.bytes};
}

void open_store(const struct settings *settings) {
    MDB_txn *opening;
    expect(settings->folder != NULL, "LMDB has no environment in memory");
    expect_ok(mdb_env_create(&env));
    expect_ok(mdb_env_set_mapsize(env, (size_t)64 << 30));
    expect_ok(mdb_env_open(env, settings->folder, (settings->is_synced ? 0 : MDB_NOSYNC | MDB_WRITEMAP) | MDB_NOTLS, 0644));
    expect_ok(mdb_txn_begin(env, NULL, 0, &opening));
    expect_ok(mdb_dbi_open(opening, NULL, 0, &table));
    expect_ok(mdb_txn_commit(opening));
}

struct session *open_session(void) {
    struct session *session = (struct session *)allocate(1, sizeof *session);
    expect_ok(mdb_txn_begin(env, NULL, MDB_RDONLY, &session->reading));
    expect_ok(mdb_cursor_open(session->reading, table, &session->rows));
    mdb_txn_reset(session->reading);
    return session;
}

/* Ends what the session reads. */
static void end_reading(struct session *session) {
    if (session->is_reading) {
        mdb_txn_reset(session->reading);
        session->is_reading = false;
    }
}

/* Begins to read what is there now. */
static void begin_reading(struct session *session) {
    end_reading(session);
    expect_ok(mdb_txn_renew(session->reading));
    session->is_reading = true;
}

void put(struct session *session, struct text key, struct text value) {
    MDB_txn *writing;
    MDB_val at = val_of(key), what = val_of(value);
    end_reading(session);
    expect_ok(mdb_txn_begin(env, NULL, 0, &writing));
    expect_ok(mdb_put(writing, table, &at, &what, 0));
    expect_ok(mdb_txn_commit(writing));
}

void add(struct session *session, struct text key, uint64_t number) {
    MDB_txn *writing;
    MDB_val at = val_of(key), what;
    uint8_t sum[8];
    end_reading(session);
    expect_ok(mdb_txn_begin(env, NULL, 0, &writing));
    if (mdb_get(writing, table, &at, &what) == MDB_SUCCESS) {
        number += number_of((const uint8_t *)what.mv_data, what.mv_size);
    }
    put_number(sum, number);
    what = (MDB_val){sizeof sum, sum};
    expect_ok(mdb_put(writing, table, &at, &what, 0));
    expect_ok(mdb_txn_commit(writing));
}

void delete_key(struct session *session, struct text key) {
    MDB_txn *writing;
    MDB_val at = val_of(key);
    int status;
    end_reading(session);
    expect_ok(mdb_txn_begin(env, NULL, 0, &writing));
    status = mdb_del(writing, table, &at, NULL);
    expect(status == MDB_SUCCESS || status == MDB_NOTFOUND, mdb_strerror(status));
    expect_ok(mdb_txn_commit(writing));
}

/* Looks a key up in what is read already. */
static bool find(struct session *session, struct text key, struct text *value) {
    MDB_val at = val_of(key), what;
    int status = mdb_get(session->reading, table, &at, &what);
    expect(status == MDB_SUCCESS || status == MDB_NOTFOUND, mdb_strerror(status));
    if (status == MDB_SUCCESS) {
        *value = (struct text){(const uint8_t *)what.mv_data, what.mv_size};
    }
    return status == MDB_SUCCESS;
}

bool get(struct session *session, struct text key, struct text *value) {
    begin_reading(session);
    return find(session, key, value);
}

size_t get_many(struct session *session, const struct text *keys, size_t count) {
    struct text value;
    size_t found = 0;
    begin_reading(session);
    for (size_t place = 0; place < count; place++) {
        found += find(session, keys[place], &value);
    }
    return found;
}

uint64_t scan(struct session *session, struct text low, uint64_t limit) {
    MDB_val key = val_of(low), value;
    uint64_t bytes = 0;
    int status;
    begin_reading(session);
    expect_ok(mdb_cursor_renew(session->reading, session->rows));
    status = mdb_cursor_get(session->rows, &key, &value, MDB_SET_RANGE);
    for (; limit > 0 && status == MDB_SUCCESS; limit--) {
        bytes += key.mv_size + value.mv_size;
        status = mdb_cursor_get(session->rows, &key, &value, MDB_NEXT);
    }
    return bytes;
}

uint64_t scan_back(struct session *session, struct text high, uint64_t limit) {
    MDB_val key = val_of(high), value;
    uint64_t bytes = 0;
    int status;
    begin_reading(session);
    expect_ok(mdb_cursor_renew(session->reading, session->rows));
    status = mdb_cursor_get(session->rows, &key, &value, MDB_SET_RANGE);
    if (status == MDB_NOTFOUND) {
        status = mdb_cursor_get(session->rows, &key, &value, MDB_LAST);
    } else if (status == MDB_SUCCESS && (key.mv_size != high.length || memcmp(key.mv_data, high.bytes, high.length) != 0)) {
        status = mdb_cursor_get(session->rows, &key, &value, MDB_PREV);
    }
    for (; limit > 0 && status == MDB_SUCCESS; limit--) {
        bytes += key.mv_size + value.mv_size;
        status = mdb_cursor_get(session->rows, &key, &value, MDB_PREV);
    }
    return bytes;
}

void close_session(struct session *session) {
    mdb_cursor_close(session->rows);
    mdb_txn_abort(session->reading);
    free(session);
}

void settle(void) {
}

void checkpoint(void) {
    expect_ok(mdb_env_sync(env, 1));
}

void close_store(void) {
    mdb_env_close(env);
}
