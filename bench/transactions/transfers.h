/* The functions of a database for transfers.c: ours.c, lmdb.c and sqlite.c have them. A program has one database, which threads share,
 * and ends itself where a call fails. */
#ifndef BENCH_TRANSACTIONS_TRANSFERS_H
#define BENCH_TRANSACTIONS_TRANSFERS_H

#include <stdbool.h>
#include <stddef.h>
#include <stdint.h>
#include <stdio.h>
#include <stdlib.h>

/* The bytes of a key and of a balance. */
enum { KEY = 12, BALANCE = 8 };

void open_store(const char *folder, bool is_synced);

/* The data of one thread. A session is used by one thread at a time. */
struct session *open_session(void);

/* Sets the balances of all accounts. */
void set_balances(struct session *session, uint64_t accounts, uint64_t balance);

/* Reads the balances of two accounts, and moves an amount from the first to the second if that has it, in one transaction. Returns the
 * number of times that the transaction was tried. */
uint64_t transfer(struct session *session, uint64_t from, uint64_t to, uint64_t amount);

/* Reads two balances and writes them, without a transaction. */
void read_and_write(struct session *session, uint64_t from, uint64_t to);

/* Reads the balance of an account. */
uint64_t balance_of(struct session *session, uint64_t account);

void close_session(struct session *session);

void close_store(void);

static inline void expect(bool done, const char *what) {
    if (!done) {
        fprintf(stderr, "%s\n", what);
        exit(1);
    }
}

static inline void put_key(char *key, uint64_t account) {
    char text[KEY + 12];
    snprintf(text, sizeof text, "acct%08u", (unsigned)account);
    for (size_t place = 0; place < KEY; place++) {
        key[place] = text[place];
    }
}

#endif
