/* Opens a store from a write-ahead log, as ../report/rocksdb.cc does:
 *
 *     opening --make WRITES > LOG    writes a log of counters, half of them merged, in batches of 1,000
 *     opening [--values] < LOG       opens it, and prints how many runs there are, or how many keys with a checksum of all
 *
 * With `--values` it prints what RocksDB's program prints. */
#include <inttypes.h>
#include <stdbool.h>
#include <stdio.h>
#include <stdlib.h>
#include <string.h>
#include <ucstore.h>

enum { KEYS = 300000, KEY = 16, NUMBER = 8, BATCH = 1000, PAGE = 1 << 20 };

struct bytes {
    uint8_t *at;
    size_t size, room;
};

static uint64_t state = 1;

static void expect(bool done, const char *what) {
    if (!done) {
        fprintf(stderr, "%s\n", what);
        exit(1);
    }
}

/* A number below a limit, by SplitMix64. */
static uint64_t draw(uint64_t limit) {
    uint64_t mixed;
    state += UINT64_C(0x9e3779b97f4a7c15);
    mixed = (state ^ state >> 30) * UINT64_C(0xbf58476d1ce4e5b9);
    mixed = (mixed ^ mixed >> 27) * UINT64_C(0x94d049bb133111eb);
    return (mixed ^ mixed >> 31) % limit;
}

static void make_room(struct bytes *bytes, size_t more) {
    if (bytes->room - bytes->size < more) {
        bytes->room = 2 * bytes->room + more;
        bytes->at = (uint8_t *)realloc(bytes->at, bytes->room);
        expect(bytes->at != NULL, "there is no memory");
    }
}

static void add_operation(struct ucstore_batch *batch) {
    char key[KEY + 1];
    uint8_t number[NUMBER] = {(uint8_t)(1 + draw(9))};
    bool merges = draw(2) == 0;
    snprintf(key, sizeof key, "account/%08u", (unsigned)draw(KEYS));
    expect((merges ? ucstore_batch_merge : ucstore_batch_put)(batch, (const uint8_t *)key, KEY, number, NUMBER) == UCSTORE_OK,
           "a batch takes no operation");
}

/* Writes the records of batches, which a store numbers. */
static void make_log(uint64_t writes) {
    struct ucstore_options options;
    struct ucstore store = {0};
    struct ucstore_batch batch = {0};
    uint8_t room[2 * BATCH * (KEY + NUMBER + 3)];
    uint64_t length = 0;
    size_t size = 0;
    expect(ucstore_options_init(&options) == UCSTORE_OK, "there are no options");
    expect(ucstore_create(&store, UCSTORE_COUNTER, &options) == UCSTORE_OK, "the store isn't created");
    for (; writes > 0; length += size) {
        for (ucstore_batch_clear(&batch), size = 0; writes > 0 && size < BATCH; writes--, size++) {
            add_operation(&batch);
        }
        expect(ucstore_prepare(&store, &batch, length, room, sizeof room, &size) == UCSTORE_OK, "a batch isn't prepared");
        expect(fwrite(room, 1, size, stdout) == size, "the log isn't written");
        expect(ucstore_commit(&store) == UCSTORE_OK, "a batch isn't taken");
    }
    ucstore_batch_close(&batch);
    ucstore_close(&store);
}

static struct bytes read_log(void) {
    struct bytes log = {NULL, 0, 0};
    size_t count;
    do {
        make_room(&log, PAGE);
        count = fread(log.at + log.size, 1, log.room - log.size, stdin);
        log.size += count;
    } while (count > 0);
    return log;
}

static uint64_t with_bytes(uint64_t sum, const uint8_t *bytes, size_t length) {
    for (size_t place = 0; place < length; place++) {
        sum = sum * 31 + bytes[place];
    }
    return sum;
}

/* All values have as many bytes. */
static void print_values(struct ucstore *store) {
    struct bytes rows = {NULL, 0, 0};
    size_t size = (16 + KEY + NUMBER) * (size_t)KEYS;
    uint64_t count = 0, sum = 0;
    make_room(&rows, size);
    expect(ucstore_scan(store, rows.at, 0, NULL, 0, false, KEYS, rows.at, rows.room, &size, &count) == UCSTORE_OK, "no scan");
    for (const uint8_t *row = rows.at; row < rows.at + size; row += 16 + KEY + NUMBER) {
        sum = with_bytes(with_bytes(sum, row + 8, KEY), row + 16 + KEY, NUMBER);
    }
    printf("keys %" PRIu64 " checksum %016" PRIx64 "\n", count, sum);
    free(rows.at);
}

static void open_log(bool shows_values) {
    struct ucstore_options options;
    struct ucstore store = {0};
    struct ucstore_ended ended = {0, 0, 0};
    struct ucstore_report report = {0};
    struct bytes log = read_log();
    expect(ucstore_options_init(&options) == UCSTORE_OK, "there are no options");
    expect(ucstore_open(&store, UCSTORE_COUNTER, &options, log.at, log.size, &ended) == UCSTORE_OK, "the log isn't opened");
    expect(ended.kind == UCSTORE_CLEAN, "the log isn't whole");
    report.size = sizeof report;
    expect(ucstore_report(&store, &report) == UCSTORE_OK, "there is no report");
    if (shows_values) {
        print_values(&store);
    } else {
        printf("runs %" PRIu64 " last %" PRIu64 "\n", report.runs, report.last);
    }
    free(log.at);
    ucstore_close(&store);
}

int main(int count, char **words) {
    if (count > 2 && strcmp(words[1], "--make") == 0) {
        make_log(strtoull(words[2], NULL, 10));
    } else {
        open_log(count > 1 && strcmp(words[1], "--values") == 0);
    }
    return 0;
}
