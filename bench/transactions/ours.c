/* The database of bindings/rust/ucstore-db by its header for C. A transfer that conflicts is tried again, after a wait that grows. */
#include "transfers.h"

#include <string.h>
#include <time.h>
#include <ucstore_db.h>

static struct ucstore_db *db;

struct session {
    uint64_t state;
};

static void expect_ok(int32_t status) {
    expect(status == UCSTORE_DB_OK, ucstore_db_error_text());
}

void open_store(const char *folder, bool is_synced) {
    struct ucstore_db_options options;
    expect_ok(ucstore_db_options_init(&options, sizeof options));
    options.sync = is_synced ? UCSTORE_DB_SYNC_ALWAYS : UCSTORE_DB_SYNC_NEVER;
    expect_ok(ucstore_db_open(folder, &options, &db));
}

struct session *open_session(void) {
    struct session *session = calloc(1, sizeof *session);
    expect(session != NULL, "there is no memory");
    session->state = (uint64_t)(uintptr_t)session;
    return session;
}

void set_balances(struct session *session, uint64_t accounts, uint64_t balance) {
    struct ucstore_db_batch *batch;
    char key[KEY];
    (void)session;
    expect_ok(ucstore_db_batch_create(&batch));
    for (uint64_t account = 0; account < accounts; account++) {
        put_key(key, account);
        expect_ok(ucstore_db_batch_put(batch, key, KEY, &balance, BALANCE));
    }
    expect_ok(ucstore_db_write(db, batch));
    expect_ok(ucstore_db_batch_close(batch));
}

static void wait_after(struct session *session, uint64_t tries) {
    uint64_t most = 1000u << (tries < 12 ? tries : 12);
    session->state = session->state * 6364136223846793005u + 1442695040888963407u;
    struct timespec time = {0, (long)((session->state >> 33) % most)};
    if (tries > 3) {
        nanosleep(&time, NULL);
    }
}

uint64_t transfer(struct session *session, uint64_t from, uint64_t to, uint64_t amount) {
    char first[KEY], second[KEY];
    put_key(first, from);
    put_key(second, to);
    for (uint64_t tries = 1;; tries++) {
        struct ucstore_db_transaction *transaction;
        uint64_t held, other;
        size_t size;
        int32_t status;
        expect_ok(ucstore_db_transaction_begin(db, &transaction));
        expect_ok(ucstore_db_transaction_get(transaction, first, KEY, &held, BALANCE, &size));
        expect_ok(ucstore_db_transaction_get(transaction, second, KEY, &other, BALANCE, &size));
        if (held >= amount) {
            held -= amount;
            other += amount;
            expect_ok(ucstore_db_transaction_put(transaction, first, KEY, &held, BALANCE));
            expect_ok(ucstore_db_transaction_put(transaction, second, KEY, &other, BALANCE));
        }
        status = ucstore_db_transaction_commit(transaction);
        expect_ok(ucstore_db_transaction_close(transaction));
        if (status != UCSTORE_DB_CONFLICT) {
            expect_ok(status);
            return tries;
        }
        wait_after(session, tries);
    }
}

void read_and_write(struct session *session, uint64_t from, uint64_t to) {
    struct ucstore_db_batch *batch;
    char first[KEY], second[KEY];
    uint64_t held, other;
    size_t size;
    (void)session;
    put_key(first, from);
    put_key(second, to);
    expect_ok(ucstore_db_get(db, first, KEY, &held, BALANCE, &size));
    expect_ok(ucstore_db_get(db, second, KEY, &other, BALANCE, &size));
    expect_ok(ucstore_db_batch_create(&batch));
    expect_ok(ucstore_db_batch_put(batch, first, KEY, &held, BALANCE));
    expect_ok(ucstore_db_batch_put(batch, second, KEY, &other, BALANCE));
    expect_ok(ucstore_db_write(db, batch));
    expect_ok(ucstore_db_batch_close(batch));
}

uint64_t balance_of(struct session *session, uint64_t account) {
    char key[KEY];
    uint64_t balance;
    size_t size;
    (void)session;
    put_key(key, account);
    expect_ok(ucstore_db_get(db, key, KEY, &balance, BALANCE, &size));
    return balance;
}

void close_session(struct session *session) {
    free(session);
}

void close_store(void) {
    expect_ok(ucstore_db_close(db));
}
