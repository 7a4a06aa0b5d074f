/* The functions of a store for threads.c, beside those of ../c/store.h: ucstore.c and rocksdb.c have these functions. One
 * thread writes, others read, and others compact. */
#ifndef BENCH_VIEWS_STORE_H
#define BENCH_VIEWS_STORE_H

#include "../c/store.h"

/* Opens the store as in ../c, but that nothing is compacted by the thread that writes. */
void open_shared(void);

/* Threads that compact beside the caller, where the store has none of its own. */
void start_compactors(size_t count);
void stop_compactors(void);

void put(const uint8_t *key, const uint8_t *number);

/* The effects of the last `put`, as far as they are known. */
const char *last_work(void);

/* Lets others read what was put so far. */
void show(void);

/* The handle by which a thread reads. */
struct reader;

struct reader *open_reader(void);

/* Reads what was shown last from now on. */
void renew(struct reader *reader);

/* Looks a key up, and says whether it has a number. */
bool look_up(struct reader *reader, const uint8_t *key, uint8_t *number);

void close_reader(struct reader *reader);

/* Closes the store, which was settled and has a snapshot. */
void close_shared(void);

#endif
