/* LMDB: one writer at a time, so no transaction is tried twice. */
#include "transfers.h"

#include <lmdb.h>
#include <string.h>

static MDB_env *env;
static MDB_dbi table;

struct session {
    int unused;
};

static void expect_ok(int status) {
    expect(status == MDB_SUCCESS, mdb_strerror(status));
}

void open_store(const char *folder, bool is_synced) {
    MDB_txn *opening;
    expect_ok(mdb_env_create(&env));
    expect_ok(mdb_env_set_mapsize(env, (size_t)8 << 30));
    expect_ok(mdb_env_open(env, folder, (is_synced ? 0 : MDB_NOSYNC | MDB_WRITEMAP) | MDB_NOTLS, 0644));
    expect_ok(mdb_txn_begin(env, NULL, 0, &opening));
    expect_ok(mdb_dbi_open(opening, NULL, 0, &table));
    expect_ok(mdb_txn_commit(opening));
}

struct session *open_session(void) {
    struct session *session = calloc(1, sizeof *session);
    expect(session != NULL, "there is no memory");
    return session;
}

static uint64_t get(MDB_txn *txn, uint64_t account) {
    char key[KEY];
    MDB_val at = {KEY, key}, found;
    uint64_t balance;
    put_key(key, account);
    expect_ok(mdb_get(txn, table, &at, &found));
    memcpy(&balance, found.mv_data, BALANCE);
    return balance;
}

static void put(MDB_txn *txn, uint64_t account, uint64_t balance) {
    char key[KEY];
    MDB_val at = {KEY, key}, value = {BALANCE, &balance};
    put_key(key, account);
    expect_ok(mdb_put(txn, table, &at, &value, 0));
}

void set_balances(struct session *session, uint64_t accounts, uint64_t balance) {
    MDB_txn *txn;
    (void)session;
    expect_ok(mdb_txn_begin(env, NULL, 0, &txn));
    for (uint64_t account = 0; account < accounts; account++) {
        put(txn, account, balance);
    }
    expect_ok(mdb_txn_commit(txn));
}

uint64_t transfer(struct session *session, uint64_t from, uint64_t to, uint64_t amount) {
    MDB_txn *txn;
    (void)session;
    expect_ok(mdb_txn_begin(env, NULL, 0, &txn));
    uint64_t held = get(txn, from), other = get(txn, to);
    if (held >= amount) {
        put(txn, from, held - amount);
        put(txn, to, other + amount);
    }
    expect_ok(mdb_txn_commit(txn));
    return 1;
}

void read_and_write(struct session *session, uint64_t from, uint64_t to) {
    transfer(session, from, to, 0);
}

uint64_t balance_of(struct session *session, uint64_t account) {
    MDB_txn *txn;
    (void)session;
    expect_ok(mdb_txn_begin(env, NULL, MDB_RDONLY, &txn));
    uint64_t balance = get(txn, account);
    mdb_txn_abort(txn);
    return balance;
}

void close_session(struct session *session) {
    free(session);
}

void close_store(void) {
    mdb_env_close(env);
}
