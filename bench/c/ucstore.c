/* The store of this repository, by its C library. It has no threads: it compacts by itself, on the caller's. A batch of one
 * write is one call for that, without a batch. */
#include "store.h"

#include <string.h>
#include <ucstore.h>

enum { PAGE = 64 };

struct write {
    bool merges;
    uint8_t key[KEY], number[NUMBER];
};

static struct ucstore store;
/* One of them is there: `writes` if each batch has one write. */
static struct ucstore_batch *batches;
static struct write *writes;
static size_t batch_count;
static uint64_t snapshot;
static bool reads_last;

/* A key whose last byte is above all digits. */
static const uint8_t BEHIND_ALL[KEY] = {'b'};

static void expect_ok(int32_t status, const char *what) {
    expect(status == UCSTORE_OK, what);
}

void open_store(const struct settings *settings, size_t count) {
    struct ucstore_options options;
    expect_ok(ucstore_options_init(&options), "there are no options");
    expect_ok(ucstore_create(&store, UCSTORE_COUNTER, &options), "the store isn't created");
    if (settings->size == 1) {
        writes = (struct write *)calloc(count, sizeof *writes);
    } else {
        batches = (struct ucstore_batch *)calloc(count, sizeof *batches);
    }
    expect(writes != NULL || batches != NULL, "there is no memory for batches");
    batch_count = count;
}

static void keep_write(struct write *write, bool merges, const uint8_t *key, const uint8_t *number) {
    write->merges = merges;
    memcpy(write->key, key, KEY);
    memcpy(write->number, number, NUMBER);
}

static void add_operation(struct ucstore_batch *batch, bool merges, const uint8_t *key, const uint8_t *number) {
    expect_ok((merges ? ucstore_batch_merge : ucstore_batch_put)(batch, key, KEY, number, NUMBER), "a batch takes no write");
}

void add_write(size_t place, bool merges, const uint8_t *key, const uint8_t *number) {
    if (writes != NULL) {
        keep_write(&writes[place], merges, key, number);
    } else {
        add_operation(&batches[place], merges, key, number);
    }
}

void write_batch(size_t place) {
    if (writes != NULL) {
        const struct write *one = &writes[place];
        expect_ok((one->merges ? ucstore_merge : ucstore_put)(&store, one->key, KEY, one->number, NUMBER), "nothing is written");
    } else {
        expect_ok(ucstore_write(&store, &batches[place]), "a batch isn't written");
    }
}

void settle(void) {
    bool compacted = true;
    expect_ok(ucstore_flush(&store), "the store isn't flushed");
    while (compacted) {
        expect_ok(ucstore_compact(&store, &compacted), "the store isn't compacted");
    }
}

void take_snapshot(void) {
    expect_ok(ucstore_snapshot(&store, &snapshot), "there is no snapshot");
}

void read_last(void) {
    reads_last = true;
}

uint64_t get(const uint8_t *key, uint64_t sum) {
    uint8_t number[NUMBER];
    size_t size = 0;
    int32_t status = reads_last ? ucstore_get(&store, key, KEY, number, sizeof number, &size)
                                : ucstore_get_at(&store, key, KEY, snapshot, number, sizeof number, &size);
    if (status == UCSTORE_NOT_FOUND) {
        return with_nothing(sum);
    }
    expect(status == UCSTORE_OK && size == NUMBER, "a key isn't looked up");
    return with_bytes(sum, number, NUMBER);
}

/* Adds the rows of a page, each a key and a value after their lengths, and copies the last key. */
static uint64_t with_rows(uint64_t sum, const uint8_t *row, uint64_t count, uint8_t *last) {
    for (; count > 0; count--, row += 16 + KEY + NUMBER) {
        sum = with_bytes(with_bytes(sum, row + 8, KEY), row + 16 + KEY, NUMBER);
        memcpy(last, row + 8, KEY);
    }
    return sum;
}

uint64_t scan(const uint8_t *key, size_t limit, uint64_t sum) {
    static uint8_t page[PAGE * (16 + KEY + NUMBER)];
    uint8_t low[KEY + 1];
    size_t low_length = KEY, size = 0;
    uint64_t rows = PAGE;
    memcpy(low, key, KEY);
    /* Only the first scan, which isn't measured, has more than a page. The next page begins after the last key. */
    while (limit > 0 && rows == PAGE) {
        expect_ok(ucstore_scan_at(&store, low, low_length, BEHIND_ALL, KEY, true, snapshot, limit < PAGE ? limit : PAGE, page,
                                  sizeof page, &size, &rows), "the keys aren't scanned");
        expect(size <= sizeof page, "a page has no room for its rows");
        sum = with_rows(sum, page, rows, low);
        low[KEY] = 0;
        low_length = KEY + 1;
        limit -= (size_t)rows;
    }
    return sum;
}

uint64_t count_runs(void) {
    struct ucstore_report report = {0};
    report.size = sizeof report;
    expect_ok(ucstore_report(&store, &report), "there is no report");
    return report.runs;
}

void close_store(void) {
    for (size_t place = 0; batches != NULL && place < batch_count; place++) {
        expect_ok(ucstore_batch_close(&batches[place]), "a batch isn't freed");
    }
    free(batches);
    free(writes);
    expect_ok(ucstore_close(&store), "the store isn't closed");
}
