/* RocksDB's OptimisticTransactionDB by its interface for C. Both keys are read for an update, so that a transfer conflicts if another one
 * has written one of them, and is tried again after a wait that grows. */
#include "transfers.h"

#include <rocksdb/c.h>
#include <string.h>
#include <time.h>

static rocksdb_optimistictransactiondb_t *transactions;
static rocksdb_t *db;
static rocksdb_options_t *options;
static rocksdb_writeoptions_t *writing;
static rocksdb_readoptions_t *reading;
static rocksdb_optimistictransaction_options_t *beginning;

struct session {
    uint64_t state;
    /* A transaction whose memory the next one takes. */
    rocksdb_transaction_t *transaction;
};

static void expect_ok(const char *error) {
    expect(error == NULL, error);
}

void open_store(const char *folder, bool is_synced) {
    char *error = NULL;
    options = rocksdb_options_create();
    rocksdb_options_set_create_if_missing(options, 1);
    rocksdb_options_set_compression(options, rocksdb_no_compression);
    transactions = rocksdb_optimistictransactiondb_open(options, folder, &error);
    expect_ok(error);
    db = rocksdb_optimistictransactiondb_get_base_db(transactions);
    writing = rocksdb_writeoptions_create();
    rocksdb_writeoptions_set_sync(writing, is_synced);
    reading = rocksdb_readoptions_create();
    beginning = rocksdb_optimistictransaction_options_create();
    /* Reads are checked from the beginning on. */
    rocksdb_optimistictransaction_options_set_set_snapshot(beginning, 1);
}

struct session *open_session(void) {
    struct session *session = calloc(1, sizeof *session);
    expect(session != NULL, "there is no memory");
    session->state = (uint64_t)(uintptr_t)session;
    return session;
}

void set_balances(struct session *session, uint64_t accounts, uint64_t balance) {
    rocksdb_writebatch_t *batch = rocksdb_writebatch_create();
    char key[KEY], *error = NULL;
    (void)session;
    for (uint64_t account = 0; account < accounts; account++) {
        put_key(key, account);
        rocksdb_writebatch_put(batch, key, KEY, (const char *)&balance, BALANCE);
    }
    rocksdb_write(db, writing, batch, &error);
    expect_ok(error);
    rocksdb_writebatch_destroy(batch);
}

static uint64_t balance_in(char *value, size_t size) {
    uint64_t balance;
    expect(value != NULL && size == BALANCE, "an account has no balance");
    memcpy(&balance, value, BALANCE);
    rocksdb_free(value);
    return balance;
}

static uint64_t get_for_update(rocksdb_transaction_t *transaction, const char *key) {
    char *error = NULL, *value;
    size_t size;
    value = rocksdb_transaction_get_for_update(transaction, reading, key, KEY, &size, 1, &error);
    expect_ok(error);
    return balance_in(value, size);
}

static void put(rocksdb_transaction_t *transaction, const char *key, uint64_t balance) {
    char *error = NULL;
    rocksdb_transaction_put(transaction, key, KEY, (const char *)&balance, BALANCE, &error);
    expect_ok(error);
}

static void wait_after(struct session *session, uint64_t tries) {
    uint64_t most = 1000u << (tries < 12 ? tries : 12);
    session->state = session->state * 6364136223846793005u + 1442695040888963407u;
    struct timespec time = {0, (long)((session->state >> 33) % most)};
    if (tries > 3) {
        nanosleep(&time, NULL);
    }
}

uint64_t transfer(struct session *session, uint64_t from, uint64_t to, uint64_t amount) {
    char first[KEY], second[KEY];
    put_key(first, from);
    put_key(second, to);
    for (uint64_t tries = 1;; tries++) {
        uint64_t held, other;
        char *error = NULL;
        session->transaction = rocksdb_optimistictransaction_begin(transactions, writing, beginning, session->transaction);
        held = get_for_update(session->transaction, first);
        other = get_for_update(session->transaction, second);
        if (held >= amount) {
            put(session->transaction, first, held - amount);
            put(session->transaction, second, other + amount);
        }
        rocksdb_transaction_commit(session->transaction, &error);
        if (error == NULL) {
            return tries;
        }
        /* It conflicts, or what it is compared with isn't in memory any more. */
        expect(strncmp(error, "Resource busy", 13) == 0 || strncmp(error, "Operation failed. Try again", 27) == 0, error);
        rocksdb_free(error);
        wait_after(session, tries);
    }
}

uint64_t balance_of(struct session *session, uint64_t account) {
    char key[KEY], *error = NULL, *value;
    size_t size;
    (void)session;
    put_key(key, account);
    value = rocksdb_get(db, reading, key, KEY, &size, &error);
    expect_ok(error);
    return balance_in(value, size);
}

void read_and_write(struct session *session, uint64_t from, uint64_t to) {
    rocksdb_writebatch_t *batch = rocksdb_writebatch_create();
    uint64_t held = balance_of(session, from), other = balance_of(session, to);
    char first[KEY], second[KEY], *error = NULL;
    put_key(first, from);
    put_key(second, to);
    rocksdb_writebatch_put(batch, first, KEY, (const char *)&held, BALANCE);
    rocksdb_writebatch_put(batch, second, KEY, (const char *)&other, BALANCE);
    rocksdb_write(db, writing, batch, &error);
    expect_ok(error);
    rocksdb_writebatch_destroy(batch);
}

void close_session(struct session *session) {
    if (session->transaction != NULL) {
        rocksdb_transaction_destroy(session->transaction);
    }
    free(session);
}

void close_store(void) {
    rocksdb_optimistictransactiondb_close_base_db(db);
    rocksdb_optimistictransactiondb_close(transactions);
    rocksdb_optimistictransaction_options_destroy(beginning);
    rocksdb_readoptions_destroy(reading);
    rocksdb_writeoptions_destroy(writing);
    rocksdb_options_destroy(options);
}
