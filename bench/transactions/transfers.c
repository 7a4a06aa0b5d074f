/* Moves money between accounts by threads, and prints how many transfers a second there are.
 *
 *     transfers FOLDER synced|unsynced ACCOUNTS TRANSFERS THREADS [plain]
 *
 * A line has thousands of transfers a second, tries for each transfer, and how much longer the slowest thread took than the fastest, in
 * percent. The sum of all balances is compared. With `plain` the two balances are read and written without a transaction. */
#include "transfers.h"

#include <pthread.h>
#include <string.h>
#include <time.h>

enum { MOST_THREADS = 64, BALANCE_AT_FIRST = 1000 };

static uint64_t accounts, transfers;
static bool is_plain;

struct work {
    pthread_t thread;
    uint64_t state, tries;
    double took;
};

static double now(void) {
    struct timespec time;
    clock_gettime(CLOCK_MONOTONIC, &time);
    return (double)time.tv_sec + (double)time.tv_nsec / 1e9;
}

static uint64_t draw(struct work *work, uint64_t limit) {
    work->state = work->state * 6364136223846793005u + 1442695040888963407u;
    return (work->state >> 33) % limit;
}

static void *move_money(void *at) {
    struct work *work = at;
    struct session *session = open_session();
    double begun = now();
    for (uint64_t left = transfers; left > 0; left--) {
        uint64_t from = draw(work, accounts), to = (from + 1 + draw(work, accounts - 1)) % accounts;
        uint64_t amount = 1 + draw(work, 100);
        if (is_plain) {
            read_and_write(session, from, to);
            work->tries++;
        } else {
            work->tries += transfer(session, from, to, amount);
        }
    }
    work->took = now() - begun;
    close_session(session);
    return NULL;
}

static void check_sum(void) {
    struct session *session = open_session();
    uint64_t sum = 0;
    for (uint64_t account = 0; account < accounts; account++) {
        sum += balance_of(session, account);
    }
    expect(sum == accounts * BALANCE_AT_FIRST, "money was lost or made");
    close_session(session);
}

int main(int count, char **words) {
    static struct work works[MOST_THREADS];
    double begun, took, slowest = 0, fastest = 1e9;
    uint64_t threads, tries = 0;
    expect(count == 6 || count == 7, "transfers FOLDER synced|unsynced ACCOUNTS TRANSFERS THREADS [plain]");
    accounts = strtoull(words[3], NULL, 10);
    threads = strtoull(words[5], NULL, 10);
    is_plain = count == 7;
    expect(accounts > 1 && threads > 0 && threads <= MOST_THREADS, "a number is out of range");
    transfers = strtoull(words[4], NULL, 10) / threads;
    open_store(words[1], strcmp(words[2], "synced") == 0);
    struct session *session = open_session();
    set_balances(session, accounts, BALANCE_AT_FIRST);
    close_session(session);
    begun = now();
    for (uint64_t place = 0; place < threads; place++) {
        works[place].state = place + 1;
        expect(pthread_create(&works[place].thread, NULL, move_money, &works[place]) == 0, "no thread can be started");
    }
    for (uint64_t place = 0; place < threads; place++) {
        pthread_join(works[place].thread, NULL);
        tries += works[place].tries;
        slowest = works[place].took > slowest ? works[place].took : slowest;
        fastest = works[place].took < fastest ? works[place].took : fastest;
    }
    took = now() - begun;
    if (!is_plain) {
        check_sum();
    }
    close_store();
    printf("%.1f %.2f %.0f\n", (double)(transfers * threads) / took / 1000, (double)tries / (double)(transfers * threads),
           100 * (slowest / fastest - 1));
    return 0;
}
