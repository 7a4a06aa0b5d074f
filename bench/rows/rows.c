/* Prints the nanoseconds of a row or a call: `rows COUNT RUNS WORK [CALLS]`.
 *
 * COUNT rows are put in a drawn order, and flushed to RUNS runs of like size, whose keys interleave. WORK is `forward` or `back`, all
 * rows by pages of 256; `ten` or `ten-back`, ten rows from a drawn key on; `get`, a drawn key; or `many`, one of 32 that are looked up at
 * once. */
#include <string.h>
#include <ucstore.h>

#include "rows.h"

/* The bytes of a row in a page: two lengths, a key and a value. */
enum { LENGTH = 8, ROW = 2 * LENGTH + KEY + VALUE };

static struct ucstore store;
static struct ucstore_view view;
static uint8_t page[PAGE * ROW];
static uint8_t keys[MANY * KEY];
static uint64_t key_lengths[MANY], value_lengths[MANY];

static void expect_ok(int32_t status, const char *what) {
    expect(status == UCSTORE_OK, what);
}

/* Returns the numbers below `count` in a drawn order. */
static uint64_t *drawn_order(uint64_t count) {
    uint64_t state = 88172645463325252;
    uint64_t *order = (uint64_t *)malloc(count * sizeof *order);
    expect(order != NULL, "there is no memory for the order");
    for (uint64_t place = 0; place < count; place++) {
        uint64_t other = draw(&state) % (place + 1);
        order[place] = order[other];
        order[other] = place;
    }
    return order;
}

static void fill(uint64_t count, uint64_t runs) {
    struct ucstore_options options;
    expect_ok(ucstore_options_init(&options), "there are no options");
    options.write_buffer_size = UINT64_MAX;
    options.compacts_itself = 0;
    options.compaction_trigger = options.stop_trigger = 255;
    expect_ok(ucstore_create(&store, UCSTORE_COUNTER, &options), "the store isn't created");
    uint64_t *order = drawn_order(count);
    uint64_t part = (count + runs - 1) / runs;
    uint8_t key[KEY], value[VALUE];
    memset(value, 'v', VALUE);
    for (uint64_t place = 0; place < count; place++) {
        spell(order[place], key);
        expect_ok(ucstore_put(&store, key, KEY, value, VALUE), "a row isn't written");
        if ((place + 1) % part == 0) {
            expect_ok(ucstore_flush(&store), "nothing is flushed");
        }
    }
    free(order);
    expect_ok(ucstore_flush(&store), "nothing is flushed");
    expect_ok(ucstore_view(&store, &view), "there is no view");
}

/* Reads all rows by pages, and returns their number. After a page the next one begins just above its last key, or ends below it. */
static uint64_t read_all(bool is_back) {
    uint8_t bound[KEY + 1] = {0};
    size_t length = 0, size;
    uint64_t rows, all = 0;
    do {
        if (is_back) {
            expect_ok(ucstore_view_scan_back(&view, bound, 0, bound, length, length > 0, PAGE, page, sizeof page, &size, &rows), "no page");
        } else {
            expect_ok(ucstore_view_scan(&view, bound, length, bound, 0, false, PAGE, page, sizeof page, &size, &rows), "no page");
        }
        all += rows;
        if (rows > 0) {
            memcpy(bound, page + (rows - 1) * ROW + LENGTH, KEY);
            length = is_back ? KEY : KEY + 1;
        }
    } while (rows > 0);
    return all;
}

static void read_ten(const uint8_t *key, bool is_back) {
    size_t size;
    uint64_t rows;
    if (is_back) {
        expect_ok(ucstore_view_scan_back(&view, key, 0, key, KEY, true, FEW, page, sizeof page, &size, &rows), "no rows");
    } else {
        expect_ok(ucstore_view_scan(&view, key, KEY, key, 0, false, FEW, page, sizeof page, &size, &rows), "no rows");
    }
}

/* Looks up drawn keys, 32 at once, and returns their number. */
static uint64_t look_up_many(uint64_t count, uint64_t calls) {
    uint64_t state = 88172645463325252;
    size_t size;
    for (int place = 0; place < MANY; place++) {
        key_lengths[place] = KEY;
    }
    for (uint64_t call = 0; call < calls; call++) {
        for (int place = 0; place < MANY; place++) {
            spell(draw(&state) % count, keys + place * KEY);
        }
        expect_ok(ucstore_view_get_many(&view, keys, sizeof keys, key_lengths, MANY, value_lengths, MANY, page, sizeof page, &size), "no rows");
        expect(size == MANY * VALUE, "rows are missing");
    }
    return calls * MANY;
}

/* Does the work, and returns the number of rows or calls. */
static uint64_t work_on(const char *work, uint64_t count, uint64_t calls) {
    bool is_back = strcmp(work, "back") == 0 || strcmp(work, "ten-back") == 0;
    if (is_back ? work[0] == 'b' : strcmp(work, "forward") == 0) {
        expect(read_all(is_back) == count, "rows are missing");
        return count;
    }
    if (strcmp(work, "many") == 0) {
        return look_up_many(count, (calls == 0 ? LOOKUPS : calls) / MANY);
    }
    bool looks_up = strcmp(work, "get") == 0;
    uint64_t state = 88172645463325252;
    uint8_t key[KEY];
    size_t size;
    if (calls == 0) {
        calls = looks_up ? LOOKUPS : FEW_SCANS;
    }
    for (uint64_t call = 0; call < calls; call++) {
        spell(draw(&state) % count, key);
        if (looks_up) {
            expect_ok(ucstore_view_get(&view, key, KEY, page, VALUE, &size), "a row isn't found");
        } else {
            read_ten(key, is_back);
        }
    }
    return calls;
}

int main(int argc, char **argv) {
    expect(argc >= 4, "usage: rows COUNT RUNS WORK [CALLS]");
    uint64_t count = strtoull(argv[1], NULL, 10), runs = strtoull(argv[2], NULL, 10);
    fill(count, runs);
    double begin = nanoseconds();
    uint64_t done = work_on(argv[3], count, argc > 4 ? strtoull(argv[4], NULL, 10) : 0);
    printf("%s %llu %.1f\n", argv[3], (unsigned long long)runs, (nanoseconds() - begin) / (double)done);
    return 0;
}
