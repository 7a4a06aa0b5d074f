/* SQLite with a write-ahead log: one writer at a time (BEGIN IMMEDIATE), so no transaction is tried twice. A thread has a connection of
 * its own. */
#include "transfers.h"

#include <sqlite3.h>

static char path[4096];
static bool is_synced_on_commit;

enum statement { BEGIN, COMMIT, PUT, GET, STATEMENTS };

static const char *const texts[STATEMENTS] = {
    "BEGIN IMMEDIATE",
    "COMMIT",
    "INSERT INTO accounts VALUES (?1, ?2) ON CONFLICT (key) DO UPDATE SET balance = ?2",
    "SELECT balance FROM accounts WHERE key = ?1",
};

struct session {
    sqlite3 *db;
    sqlite3_stmt *statements[STATEMENTS];
};

static void expect_status(struct session *session, int status, int wanted) {
    expect(status == wanted, sqlite3_errmsg(session->db));
}

static void run(struct session *session, const char *text) {
    expect_status(session, sqlite3_exec(session->db, text, NULL, NULL, NULL), SQLITE_OK);
}

struct session *open_session(void) {
    struct session *session = calloc(1, sizeof *session);
    expect(session != NULL, "there is no memory");
    expect_status(session, sqlite3_open(path, &session->db), SQLITE_OK);
    sqlite3_busy_timeout(session->db, 60000);
    run(session, "PRAGMA journal_mode = WAL");
    run(session, is_synced_on_commit ? "PRAGMA synchronous = FULL" : "PRAGMA synchronous = OFF");
    run(session, "PRAGMA cache_size = -1000000");
    run(session, "CREATE TABLE IF NOT EXISTS accounts (key BLOB PRIMARY KEY, balance INTEGER) WITHOUT ROWID");
    for (int place = 0; place < STATEMENTS; place++) {
        expect_status(session, sqlite3_prepare_v2(session->db, texts[place], -1, &session->statements[place], NULL), SQLITE_OK);
    }
    return session;
}

void open_store(const char *folder, bool is_synced) {
    is_synced_on_commit = is_synced;
    snprintf(path, sizeof path, "%s/store.db", folder);
    close_session(open_session());
}

static void finish(struct session *session, enum statement which) {
    expect_status(session, sqlite3_step(session->statements[which]), SQLITE_DONE);
    sqlite3_reset(session->statements[which]);
}

static void put(struct session *session, uint64_t account, uint64_t balance) {
    char key[KEY];
    put_key(key, account);
    sqlite3_bind_blob(session->statements[PUT], 1, key, KEY, SQLITE_STATIC);
    sqlite3_bind_int64(session->statements[PUT], 2, (sqlite3_int64)balance);
    finish(session, PUT);
}

uint64_t balance_of(struct session *session, uint64_t account) {
    char key[KEY];
    put_key(key, account);
    sqlite3_bind_blob(session->statements[GET], 1, key, KEY, SQLITE_STATIC);
    expect_status(session, sqlite3_step(session->statements[GET]), SQLITE_ROW);
    uint64_t balance = (uint64_t)sqlite3_column_int64(session->statements[GET], 0);
    sqlite3_reset(session->statements[GET]);
    return balance;
}

void set_balances(struct session *session, uint64_t accounts, uint64_t balance) {
    finish(session, BEGIN);
    for (uint64_t account = 0; account < accounts; account++) {
        put(session, account, balance);
    }
    finish(session, COMMIT);
}

uint64_t transfer(struct session *session, uint64_t from, uint64_t to, uint64_t amount) {
    finish(session, BEGIN);
    uint64_t held = balance_of(session, from), other = balance_of(session, to);
    if (held >= amount) {
        put(session, from, held - amount);
        put(session, to, other + amount);
    }
    finish(session, COMMIT);
    return 1;
}

void read_and_write(struct session *session, uint64_t from, uint64_t to) {
    transfer(session, from, to, 0);
}

void close_session(struct session *session) {
    for (int place = 0; place < STATEMENTS; place++) {
        sqlite3_finalize(session->statements[place]);
    }
    sqlite3_close(session->db);
    free(session);
}

void close_store(void) {
}
