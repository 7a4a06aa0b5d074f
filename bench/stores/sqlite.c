/* SQLite with a write-ahead log: a table of keys and values without row numbers. A thread has a connection of its own. */
#include "store.h"

#include <sqlite3.h>

const bool has_memory = false, has_merges = true, has_scans = true;

static const struct settings *opened;
static char path[4096];

enum statement { PUT, ADD, DELETE_KEY, GET, SCAN, SCAN_BACK, STATEMENTS };

static const char *const texts[STATEMENTS] = {
    "INSERT INTO rows VALUES (?1, ?2) ON CONFLICT (key) DO UPDATE SET value = ?2",
    "INSERT INTO rows VALUES (?1, ?2) ON CONFLICT (key) DO UPDATE SET value = value + ?2",
    "DELETE FROM rows WHERE key = ?1",
    "SELECT value FROM rows WHERE key = ?1",
    "SELECT key, value FROM rows WHERE key >= ?1 ORDER BY key LIMIT ?2",
    "SELECT key, value FROM rows WHERE key <= ?1 ORDER BY key DESC LIMIT ?2",
};

struct session {
    sqlite3 *db;
    sqlite3_stmt *statements[STATEMENTS];
};

static void expect_status(struct session *session, int status, int wanted) {
    expect(status == wanted, sqlite3_errmsg(session->db));
}

static void run(struct session *session, const char *text) {
    expect_status(session, sqlite3_exec(session->db, text, NULL, NULL, NULL), SQLITE_OK);
}

struct session *open_session(void) {
    struct session *session = (struct session *)allocate(1, sizeof *session);
    expect_status(session, sqlite3_open(path, &session->db), SQLITE_OK);
    sqlite3_busy_timeout(session->db, 60000);
    run(session, "PRAGMA journal_mode = WAL");
    run(session, opened->is_synced ? "PRAGMA synchronous = FULL" : "PRAGMA synchronous = OFF");
    run(session, "PRAGMA cache_size = -1000000");
    run(session, "CREATE TABLE IF NOT EXISTS rows (key BLOB PRIMARY KEY, value) WITHOUT ROWID");
    for (size_t place = 0; place < STATEMENTS; place++) {
        expect_status(session, sqlite3_prepare_v2(session->db, texts[place], -1, &session->statements[place], NULL), SQLITE_OK);
    }
    return session;
}

void open_store(const struct settings *settings) {
    expect(settings->folder != NULL, "SQLite is measured with its files alone");
    opened = settings;
    snprintf(path, sizeof path, "%s/store.db", settings->folder);
    close_session(open_session());
}

/* A statement with its first place filled. A value that is lent is taken back: it keeps what is read from going on. */
static sqlite3_stmt *begin(struct session *session, enum statement which, struct text key) {
    sqlite3_stmt *statement = session->statements[which];
    sqlite3_reset(session->statements[GET]);
    sqlite3_reset(statement);
    sqlite3_bind_blob64(statement, 1, key.bytes, key.length, SQLITE_STATIC);
    return statement;
}

/* Runs a statement without rows. */
static void finish(struct session *session, sqlite3_stmt *statement) {
    expect_status(session, sqlite3_step(statement), SQLITE_DONE);
    sqlite3_reset(statement);
}

void put(struct session *session, struct text key, struct text value) {
    sqlite3_stmt *statement = begin(session, PUT, key);
    sqlite3_bind_blob64(statement, 2, value.bytes, value.length, SQLITE_STATIC);
    finish(session, statement);
}

void add(struct session *session, struct text key, uint64_t number) {
    sqlite3_stmt *statement = begin(session, ADD, key);
    sqlite3_bind_int64(statement, 2, (sqlite3_int64)number);
    finish(session, statement);
}

void delete_key(struct session *session, struct text key) {
    finish(session, begin(session, DELETE_KEY, key));
}

bool get(struct session *session, struct text key, struct text *value) {
    sqlite3_stmt *statement = begin(session, GET, key);
    int status = sqlite3_step(statement);
    if (status == SQLITE_ROW) {
        value->bytes = (const uint8_t *)sqlite3_column_blob(statement, 0);
        value->length = (size_t)sqlite3_column_bytes(statement, 0);
        return true;
    }
    expect_status(session, status, SQLITE_DONE);
    return false;
}

size_t get_many(struct session *session, const struct text *keys, size_t count) {
    struct text value;
    size_t found = 0;
    run(session, "BEGIN");
    for (size_t place = 0; place < count; place++) {
        found += get(session, keys[place], &value);
    }
    sqlite3_reset(session->statements[GET]);
    run(session, "COMMIT");
    return found;
}

/* Reads the rows of a statement that begins at a key. */
static uint64_t read_rows(struct session *session, int place, struct text key, uint64_t limit) {
    sqlite3_stmt *statement = begin(session, place, key);
    uint64_t bytes = 0;
    int status;
    sqlite3_bind_int64(statement, 2, (sqlite3_int64)limit);
    for (status = sqlite3_step(statement); status == SQLITE_ROW; status = sqlite3_step(statement)) {
        bytes += (uint64_t)sqlite3_column_bytes(statement, 0) + (uint64_t)sqlite3_column_bytes(statement, 1);
    }
    expect_status(session, status, SQLITE_DONE);
    sqlite3_reset(statement);
    return bytes;
}

uint64_t scan(struct session *session, struct text low, uint64_t limit) {
    return read_rows(session, SCAN, low, limit);
}

uint64_t scan_back(struct session *session, struct text high, uint64_t limit) {
    return read_rows(session, SCAN_BACK, high, limit);
}

void close_session(struct session *session) {
    for (size_t place = 0; place < STATEMENTS; place++) {
        sqlite3_finalize(session->statements[place]);
    }
    expect(sqlite3_close(session->db) == SQLITE_OK, "a connection isn't closed");
    free(session);
}

void settle(void) {
}

void checkpoint(void) {
    struct session *session = open_session();
    run(session, "PRAGMA wal_checkpoint(TRUNCATE)");
    close_session(session);
}

void close_store(void) {
}
