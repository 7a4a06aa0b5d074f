/* Calls each function of handles and logs once with success and once with an error, and compares the results with values computed by
 * hand. */
#include <stdio.h>
#include <stdlib.h>
#include <string.h>
#include <ucstore.h>

#define CHECK(test)                                                  \
    do {                                                             \
        if (!(test)) {                                               \
            printf("%s:%d: %s\n", __FILE__, __LINE__, #test);        \
            exit(1);                                                 \
        }                                                            \
    } while (0)

/* Sizes of structs; bytes of four runs, each with a key of one byte, a value of one byte and 8 bytes of sequence number; and a length of
 * a log at which no header fits the block. */
enum { OPTIONS_SIZE = 48, REPORT_SIZE = 64, INPUT_BYTES = 40, BLOCK_END = 32762 };

/* A batch with the sequence number 1: a put of 1 under a, and a deletion of b. */
static const uint8_t numbered[] = {1, 0, 0, 0, 0, 0, 0, 0, 2, 0, 0, 0, 1, 1, 'a', 1, '1', 0, 1, 'b'};

/* A batch without a sequence number: a deletion of b. */
static const uint8_t unnumbered[] = {0, 0, 0, 0, 0, 0, 0, 0, 1, 0, 0, 0, 0, 1, 'b'};

/* A batch with the last sequence number: a deletion of b. */
static const uint8_t last_one[] = {255, 255, 255, 255, 255, 255, 255, 0, 1, 0, 0, 0, 0, 1, 'b'};

/* The bytes of an empty batch. */
static const uint8_t no_operations[] = {0, 0, 0, 0, 0, 0, 0, 0, 0, 0, 0, 0};

/* A put of 1 under a, and a deletion of b. */
static const uint8_t two_operations[] = {0, 0, 0, 0, 0, 0, 0, 0, 2, 0, 0, 0, 1, 1, 'a', 1, '1', 0, 1, 'b'};

/* A merge of 2 into a, and a deletion of the range from c to d. */
static const uint8_t other_operations[] = {0, 0, 0, 0, 0, 0, 0, 0, 2, 0, 0, 0, 2, 1, 'a', 1, '2', 15, 1, 'c', 1, 'd'};

/* The log of the first batch: a masked CRC-32C, the length, FULL, and the batch. */
static const uint8_t history[] = {98, 33, 102, 255, 20, 0, 1, 1, 0, 0, 0, 0, 0, 0, 0, 2, 0, 0, 0, 1, 1, 'a', 1, '1', 0, 1, 'b'};

/* The log of a checkpoint: puts of 1,2 under a and 3 under b, numbered from 1. */
static const uint8_t piece[] = {176, 2, 185, 166, 24, 0, 1, 1, 0, 0, 0, 0, 0, 0, 0, 2, 0, 0, 0, 1, 1, 'a', 3, '1', ',', '2', 1, 1,
                                'b', 1, '3'};

/* The writes of the log in the format of `ucstore_log_next`. */
static const uint8_t laid[] = {1, 0, 0, 0, 0, 0, 0, 0, 1, 1, 0, 0, 0, 0, 0, 0, 0, 'a', 1, 0, 0, 0, 0, 0, 0, 0, '1',
                               2, 0, 0, 0, 0, 0, 0, 0, 0, 1, 0, 0, 0, 0, 0, 0, 0, 'b', 0, 0, 0, 0, 0, 0, 0, 0};

/* The log of two empty batches, numbered from 1. Each one's mark says that the log was durable up to its record. */
static const uint8_t marked_log[] = {197, 142, 72, 77, 16, 0, 1, 1, 0, 0, 0, 0, 0, 0, 0, 0, 0, 0, 0, 3, 2, 's', 0,
                                     245, 110, 166, 13, 16, 0, 1, 2, 0, 0, 0, 0, 0, 0, 0, 0, 0, 0, 0, 3, 2, 's', 0};

/* A row: 1,2 under a. */
static const uint8_t row[] = {1, 0, 0, 0, 0, 0, 0, 0, 'a', 3, 0, 0, 0, 0, 0, 0, 0, '1', ',', '2'};

/* A row: 1 under a, and two unused bytes of the buffer. */
static const uint8_t old_row[] = {1, 0, 0, 0, 0, 0, 0, 0, 'a', 1, 0, 0, 0, 0, 0, 0, 0, '1', 0, 0};

/* The lengths of two, three and four keys of one byte. */
static const uint64_t ones[] = {1, 1, 1, 1};

static struct ucstore store;

/* Returns the bytes of a string. */
static const uint8_t *bytes(const char *text) {
    return (const uint8_t *)text;
}

/* Returns true if a buffer begins with a string. */
static bool begins(const uint8_t *room, const char *text) {
    return memcmp(room, text, strlen(text)) == 0;
}

/* Returns true if each byte of a buffer is this one. */
static bool all(const uint8_t *room, size_t length, uint8_t byte) {
    for (size_t place = 0; place < length; place++) {
        if (room[place] != byte) {
            return false;
        }
    }
    return true;
}

/* Returns the default options. */
static struct ucstore_options usual(void) {
    struct ucstore_options options;
    memset(&options, 0, sizeof options);
    CHECK(ucstore_options_init(&options) == UCSTORE_OK && options.size == OPTIONS_SIZE && sizeof options == OPTIONS_SIZE);
    return options;
}

/* Creates a store with the default options, which appends. */
static int32_t create(void) {
    const struct ucstore_options options = usual();
    return ucstore_create(&store, UCSTORE_APPEND, &options);
}

/* Puts one byte under a key of one byte. */
static int32_t put(const char *key, const char *value) {
    return ucstore_put(&store, bytes(key), 1, bytes(value), 1);
}

/* Merges one byte into a key of one byte. */
static int32_t merge(const char *key, const char *operand) {
    return ucstore_merge(&store, bytes(key), 1, bytes(operand), 1);
}

/* Deletes a key of one byte. */
static int32_t delete_one(const char *key) {
    return ucstore_delete(&store, bytes(key), 1);
}

/* Deletes the keys from one byte to below another one. */
static int32_t delete_range(const char *begin, const char *end) {
    return ucstore_delete_range(&store, bytes(begin), 1, bytes(end), 1);
}

/* Returns true if a snapshot has this status and sequence number. */
static bool keep(int32_t status, uint64_t seq) {
    uint64_t told = 7;
    return ucstore_snapshot(&store, &told) == status && told == seq;
}

/* Returns true if the last sequence number has this status and value. */
static bool last(int32_t status, uint64_t seq) {
    uint64_t told = 7;
    return ucstore_last(&store, &told) == status && told == seq;
}

/* Returns true if the snapshots have this status and number. */
static bool keeps(uint64_t *room, size_t room_length, int32_t status, size_t count) {
    size_t told = 7;
    return ucstore_snapshots(&store, room, room_length, &told) == status && told == count;
}

/* Returns true if a lookup of a key of one byte has this status and size. */
static bool get(const char *key, uint8_t *room, size_t room_length, int32_t status, size_t size) {
    size_t told = 7;
    return ucstore_get(&store, bytes(key), 1, room, room_length, &told) == status && told == size;
}

/* The same at a sequence number. */
static bool get_at(const char *key, uint64_t at, uint8_t *room, size_t room_length, int32_t status, size_t size) {
    size_t told = 7;
    return ucstore_get_at(&store, bytes(key), 1, at, room, room_length, &told) == status && told == size;
}

/* Returns true if a scan of at most nine rows below a key of one byte, or of all rows, has this status, total size and number of rows
 * copied. */
static bool scan(const char *high, uint8_t *room, size_t room_length, int32_t status, size_t size, uint64_t rows) {
    size_t told = 7;
    uint64_t found = 7;
    const int32_t answer = ucstore_scan(&store, NULL, 0, bytes(high), high != NULL ? 1 : 0, high != NULL, 9, room, room_length,
                                        &told, &found);
    return answer == status && told == size && found == rows;
}

/* The same for all keys at a sequence number. */
static bool scan_at(uint64_t at, uint8_t *room, size_t room_length, int32_t status, size_t size, uint64_t rows) {
    size_t told = 7;
    uint64_t found = 7;
    const int32_t answer = ucstore_scan_at(&store, NULL, 0, NULL, 0, false, at, 9, room, room_length, &told, &found);
    return answer == status && told == size && found == rows;
}

/* Returns a report of this size that no call has filled in. */
static struct ucstore_report unreported(size_t size) {
    const struct ucstore_report report = {size, 7, 7, 7, 7, 7, 7, 7};
    return report;
}

/* Returns true if two reports are equal in each field. */
static bool same(const struct ucstore_report *one, const struct ucstore_report *other) {
    return one->size == other->size && one->runs == other->runs && one->snapshots == other->snapshots &&
           one->points == other->points && one->fragments == other->fragments && one->bytes == other->bytes &&
           one->gathered == other->gathered && one->last == other->last;
}

/* Returns true if no call has filled in a report. */
static bool is_unreported(const struct ucstore_report *report, size_t size) {
    const struct ucstore_report untold = unreported(size);
    return same(report, &untold);
}

/* Returns true if a log ended so. */
static bool ends(const struct ucstore_ended *ended, uint32_t kind, uint32_t fault, uint64_t place) {
    return ended->kind == kind && ended->fault == fault && ended->place == place;
}

/* Returns true if no call has filled in an end: each of its numbers was 7 before. */
static bool is_untold(const struct ucstore_ended *ended) {
    return ends(ended, 7, 7, 7);
}

/* Single operations: then a has 1,2, and b to d have no value. */
static void write_singly(void) {
    CHECK(put("a", "1") == UCSTORE_OK && merge("a", "2") == UCSTORE_OK && put("b", "3") == UCSTORE_OK);
    CHECK(delete_one("b") == UCSTORE_OK && put("c", "4") == UCSTORE_OK && delete_range("c", "d") == UCSTORE_OK);
}

/* Looks up keys, with a buffer for the whole value and for one byte of it. */
static void look_up(void) {
    uint8_t room[] = {'.', '.', '.', '.'}, cell[] = {'.', '.'};
    CHECK(get("a", room, sizeof room, UCSTORE_OK, 3) && begins(room, "1,2."));
    CHECK(get("c", room, sizeof room, UCSTORE_NOT_FOUND, 7) && begins(room, "1,2."));
    CHECK(get("a", cell, 1, UCSTORE_OK, 3) && begins(cell, "1."));
}

/* Looks up keys at the snapshot, and at a sequence number without one. */
static void look_back(void) {
    uint8_t room[] = {'.', '.', '.', '.'};
    CHECK(get_at("a", 6, room, sizeof room, UCSTORE_OK, 3) && begins(room, "1,2."));
    CHECK(get_at("a", 5, room, sizeof room, UCSTORE_NOT_PROTECTED, 7) && begins(room, "1,2."));
    CHECK(get_at("b", 6, room, sizeof room, UCSTORE_NOT_FOUND, 7) && begins(room, "1,2."));
}

/* Scans all keys with a buffer for the row, and those below b with a buffer that is too small. */
static void scan_all(void) {
    uint8_t room[sizeof row] = {0}, cells[sizeof row] = {0};
    CHECK(scan(NULL, room, sizeof room, UCSTORE_OK, 20, 1) && memcmp(room, row, sizeof row) == 0);
    CHECK(scan("b", cells, 19, UCSTORE_OK, 20, 0) && all(cells, sizeof cells, 0));
}

/* Scans at the snapshot, and at a sequence number without one. */
static void scan_back(void) {
    uint8_t room[sizeof row] = {0};
    CHECK(scan_at(6, room, sizeof room, UCSTORE_OK, 20, 1) && memcmp(room, row, sizeof row) == 0);
    CHECK(scan_at(5, room, sizeof room, UCSTORE_NOT_PROTECTED, 7, 7) && memcmp(room, row, sizeof row) == 0);
}

/* Takes a snapshot at 6 twice, and releases it once. Lists the remaining one, in a buffer for three and for none. */
static void take_snapshots(void) {
    uint64_t seqs[] = {7, 7, 7};
    CHECK(last(UCSTORE_OK, 6));
    CHECK(keep(UCSTORE_OK, 6) && keep(UCSTORE_OK, 6));
    CHECK(ucstore_release(&store, 6) == UCSTORE_OK);
    CHECK(ucstore_release(&store, 0) == UCSTORE_NOT_PROTECTED);
    CHECK(keeps(seqs, 3, UCSTORE_OK, 1));
    CHECK(keeps(NULL, 0, UCSTORE_OK, 1));
    CHECK(seqs[0] == 6 && seqs[1] == 7 && seqs[2] == 7);
}

/* Returns true if a report of a view, or of the store if there is none, has these numbers. Its bytes are not compared. A wrong size fails. */
static bool reports(struct ucstore_view *view, struct ucstore_report wanted) {
    struct ucstore_report refused = unreported(0), told = unreported(REPORT_SIZE);
    CHECK((view != NULL ? ucstore_view_report(view, &refused) : ucstore_report(&store, &refused)) == UCSTORE_BAD_SIZE);
    CHECK((view != NULL ? ucstore_view_report(view, &told) : ucstore_report(&store, &told)) == UCSTORE_OK);
    wanted.bytes = told.bytes;
    return sizeof told == REPORT_SIZE && is_unreported(&refused, 0) && same(&told, &wanted);
}

/* Reports six writes in a run and one in the memtable, flushes that, and compacts. No compaction of two runs is due. */
static void compact(void) {
    const struct ucstore_report wanted = {REPORT_SIZE, 1, 1, 5, 1, 0, 1, 7};
    bool compacted = true;
    CHECK(put("c", "5") == UCSTORE_OK);
    CHECK(reports(NULL, wanted));
    CHECK(ucstore_flush(&store) == UCSTORE_OK);
    CHECK(ucstore_compact(&store, &compacted) == UCSTORE_OK && !compacted);
    CHECK(delete_one("c") == UCSTORE_OK);
}

/* Each step from creating a store to closing it. No second one is created or closed. */
static void store_lives(void) {
    CHECK(create() == UCSTORE_OK);
    CHECK(create() == UCSTORE_HAS_STORE);
    write_singly();
    look_up();
    scan_all();
    take_snapshots();
    compact();
    look_up();
    look_back();
    scan_back();
    CHECK(ucstore_close(&store) == UCSTORE_OK);
    CHECK(ucstore_close(&store) == UCSTORE_NO_STORE);
}

/* Opens a store from a part of the log, then one from all of it, which keeps the greater byte string and is written to. */
static void log_is_opened(void) {
    const struct ucstore_options options = usual();
    struct ucstore_ended torn = {7, 7, 7}, clean = {7, 7, 7};
    uint8_t cell[] = {'.', '.'};
    CHECK(ucstore_open(&store, UCSTORE_MAXIMUM, &options, history, sizeof history - 1, &torn) == UCSTORE_OK);
    CHECK(ends(&torn, UCSTORE_TORN, 0, 0));
    CHECK(ucstore_close(&store) == UCSTORE_OK);
    CHECK(ucstore_open(&store, UCSTORE_MAXIMUM, &options, history, sizeof history, &clean) == UCSTORE_OK);
    CHECK(ends(&clean, UCSTORE_CLEAN, 0, 0));
    CHECK(get("a", cell, 1, UCSTORE_OK, 1) && begins(cell, "1."));
    /* Writes a batch without a sequence number after the sequence number 2, and a part of one, which fails. */
    CHECK(ucstore_write_bytes(&store, unnumbered, sizeof unnumbered) == UCSTORE_OK && last(UCSTORE_OK, 3));
    CHECK(ucstore_write_bytes(&store, unnumbered, 13) == UCSTORE_NOT_A_BATCH && last(UCSTORE_OK, 3));
    CHECK(ucstore_close(&store) == UCSTORE_OK);
}

/* Returns true if a batch given as bytes is prepared with this status for a log of this length, with this record size. */
static bool prepare_bytes(const uint8_t *batch, size_t batch_length, uint64_t offset, uint8_t *room, size_t room_length,
                          int32_t status, size_t size) {
    size_t told = 7;
    return ucstore_prepare_bytes(&store, batch, batch_length, offset, room, room_length, &told) == status && told == size;
}

/* Writes fail without a store. */
static void refuse_writes(void) {
    bool compacted = false;
    CHECK(ucstore_write_bytes(&store, numbered, sizeof numbered) == UCSTORE_NO_STORE);
    CHECK(put("a", "1") == UCSTORE_NO_STORE);
    CHECK(delete_one("a") == UCSTORE_NO_STORE);
    CHECK(merge("a", "1") == UCSTORE_NO_STORE);
    CHECK(delete_range("a", "b") == UCSTORE_NO_STORE);
    CHECK(ucstore_flush(&store) == UCSTORE_NO_STORE);
    CHECK(ucstore_compact(&store, &compacted) == UCSTORE_NO_STORE && !compacted);
    CHECK(prepare_bytes(numbered, sizeof numbered, 0, NULL, 0, UCSTORE_NO_STORE, 7));
    CHECK(ucstore_commit(&store) == UCSTORE_NO_STORE);
    CHECK(ucstore_give_up(&store) == UCSTORE_NO_STORE);
}

/* Reads and snapshots fail without a store. */
static void refuse_reads(void) {
    CHECK(keep(UCSTORE_NO_STORE, 7));
    CHECK(last(UCSTORE_NO_STORE, 7));
    CHECK(keeps(NULL, 0, UCSTORE_NO_STORE, 7));
    CHECK(ucstore_release(&store, 0) == UCSTORE_NO_STORE);
    CHECK(get("a", NULL, 0, UCSTORE_NO_STORE, 7));
    CHECK(get_at("a", 0, NULL, 0, UCSTORE_NO_STORE, 7));
    CHECK(scan(NULL, NULL, 0, UCSTORE_NO_STORE, 7, 7));
    CHECK(scan_at(0, NULL, 0, UCSTORE_NO_STORE, 7, 7));
}

/* Creation fails with options out of range, of an older header with one field less, and with an unknown operator. */
static void refuse_options(void) {
    struct ucstore_options narrow = usual(), high = usual(), unbuffered = usual(), old = usual();
    const struct ucstore_options options = usual();
    struct ucstore_ended ended = {7, 7, 7};
    narrow.min_merge_width = 1;
    high.stop_trigger = 256;
    unbuffered.max_write_buffer_number = 0;
    old.size = OPTIONS_SIZE - 8;
    CHECK(ucstore_create(&store, UCSTORE_APPEND, &narrow) == UCSTORE_BAD_OPTION);
    CHECK(ucstore_create(&store, UCSTORE_APPEND, &high) == UCSTORE_BAD_OPTION);
    CHECK(ucstore_create(&store, UCSTORE_APPEND, &unbuffered) == UCSTORE_BAD_OPTION);
    CHECK(ucstore_create(&store, UCSTORE_APPEND, &old) == UCSTORE_BAD_SIZE);
    CHECK(ucstore_create(&store, 5, &options) == UCSTORE_UNKNOWN_OPERATOR);
    CHECK(ucstore_open(&store, UCSTORE_APPEND, &high, history, sizeof history, &ended) == UCSTORE_BAD_OPTION && is_untold(&ended));
}

/* Statuses of a handle without a store, and openings that fail. */
static void no_store(void) {
    refuse_writes();
    refuse_reads();
    refuse_options();
    CHECK(ucstore_close(&store) == UCSTORE_NO_STORE && store.at == NULL);
}

/* Opens a store of four runs with one put each, without automatic compaction. */
static void open_four_runs(void) {
    struct ucstore_options options = usual();
    options.compacts_itself = 0;
    CHECK(ucstore_create(&store, UCSTORE_APPEND, &options) == UCSTORE_OK);
    for (int run = 0; run < 4; run++) {
        CHECK(put("a", "1") == UCSTORE_OK);
        CHECK(ucstore_flush(&store) == UCSTORE_OK);
    }
}

/* Returns the number of runs. */
static uint64_t runs(void) {
    struct ucstore_report report = unreported(REPORT_SIZE);
    CHECK(ucstore_report(&store, &report) == UCSTORE_OK);
    return report.runs;
}

/* Returns true if taking a job has this status and result. The result is unchanged on failure. */
static bool take(struct ucstore_job *job, int32_t status, bool taken) {
    bool told = status == UCSTORE_OK ? !taken : taken;
    return ucstore_job(&store, job, &told) == status && told == taken;
}

/* The same for the end of a job, whose result says whether a run was installed. */
static bool end(struct ucstore_job *job, int32_t status, bool installed) {
    bool told = status == UCSTORE_OK ? !installed : installed;
    return ucstore_job_end(&store, job, &told) == status && told == installed;
}

/* Returns true if the input size of a job has this status and value. */
static bool input_bytes(struct ucstore_job *job, int32_t status, uint64_t size) {
    uint64_t told = 7;
    return ucstore_job_input_bytes(job, &told) == status && told == size;
}

/* Takes a job and ends it without a run. The store then has its runs for the next one. */
static void give_back_job(void) {
    struct ucstore_job job = {0};
    CHECK(take(&job, UCSTORE_OK, true));
    CHECK(end(&job, UCSTORE_OK, false));
    CHECK(ucstore_job_close(&job) == UCSTORE_OK);
    CHECK(runs() == 4);
}

/* Takes a job, runs it, and ends it. It stays in its handle until it is closed. */
static void compact_by_job(void) {
    struct ucstore_job job = {0};
    CHECK(take(&job, UCSTORE_OK, true));
    CHECK(ucstore_job_run(&job) == UCSTORE_OK);
    CHECK(end(&job, UCSTORE_OK, true));
    CHECK(ucstore_job_run(&job) == UCSTORE_JOB_ENDED);
    CHECK(take(&job, UCSTORE_HAS_JOB, false));
    CHECK(ucstore_job_close(&job) == UCSTORE_OK);
    CHECK(runs() == 1);
}

/* Takes a job twice into one handle, then a second one, for which nothing is left. The first is closed after its store. */
static void refuse_second_job(void) {
    struct ucstore_job job = {0}, other = {0};
    CHECK(take(&job, UCSTORE_OK, true));
    CHECK(take(&job, UCSTORE_HAS_JOB, false));
    CHECK(take(&other, UCSTORE_OK, false));
    CHECK(input_bytes(&other, UCSTORE_NO_JOB, 7));
    CHECK(input_bytes(&job, UCSTORE_OK, INPUT_BYTES));
    CHECK(ucstore_close(&store) == UCSTORE_OK && ucstore_job_close(&job) == UCSTORE_OK);
    CHECK(ucstore_job_close(&job) == UCSTORE_NO_JOB);
}

/* Each step of jobs that are taken, run and ended. */
static void jobs_end(void) {
    open_four_runs();
    give_back_job();
    compact_by_job();
    CHECK(ucstore_close(&store) == UCSTORE_OK);
    open_four_runs();
    refuse_second_job();
}

/* Statuses of handles without a job or a store. */
static void no_job(void) {
    struct ucstore_job job = {0};
    CHECK(end(&job, UCSTORE_NO_JOB, false));
    CHECK(ucstore_job_run(&job) == UCSTORE_NO_JOB);
    CHECK(take(&job, UCSTORE_NO_STORE, false));
    CHECK(ucstore_job_close(&job) == UCSTORE_NO_JOB);
}

/* Returns true if a lookup of a key of one byte in a view has this status and size. */
static bool view_get(struct ucstore_view *view, const char *key, uint8_t *room, size_t room_length, int32_t status, size_t size) {
    size_t told = 7;
    return ucstore_view_get(view, bytes(key), 1, room, room_length, &told) == status && told == size;
}

/* The same for a at a sequence number. */
static bool view_get_at(struct ucstore_view *view, uint64_t at, uint8_t *room, size_t room_length, int32_t status, size_t size) {
    size_t told = 7;
    return ucstore_view_get_at(view, bytes("a"), 1, at, room, room_length, &told) == status && told == size;
}

/* Returns true if a lookup of the keys b and a, with these lengths, has this status and size of values. */
static bool view_get_many(struct ucstore_view *view, const uint64_t *key_lengths, uint64_t *lengths, uint8_t *room,
                          size_t room_length, int32_t status, size_t size) {
    size_t told = 7;
    const int32_t answer = ucstore_view_get_many(view, bytes("ba"), 2, key_lengths, 2, lengths, 2, room, room_length, &told);
    return answer == status && told == size;
}

/* Returns true if a scan of at most nine rows of a view has this status, total size and number of rows copied. */
static bool view_scan(struct ucstore_view *view, uint8_t *room, size_t room_length, int32_t status, size_t size, uint64_t rows) {
    size_t told = 7;
    uint64_t found = 7;
    const int32_t answer = ucstore_view_scan(view, NULL, 0, NULL, 0, false, 9, room, room_length, &told, &found);
    return answer == status && told == size && found == rows;
}

/* The same against the order of keys. */
static bool view_scan_back(struct ucstore_view *view, uint8_t *room, size_t room_length, int32_t status, size_t size,
                           uint64_t rows) {
    size_t told = 7;
    uint64_t found = 7;
    const int32_t answer = ucstore_view_scan_back(view, NULL, 0, NULL, 0, false, 9, room, room_length, &told, &found);
    return answer == status && told == size && found == rows;
}

/* The same at a sequence number. */
static bool view_scan_at(struct ucstore_view *view, uint64_t at, uint8_t *room, size_t room_length, int32_t status, size_t size,
                         uint64_t rows) {
    size_t told = 7;
    uint64_t found = 7;
    const int32_t answer = ucstore_view_scan_at(view, NULL, 0, NULL, 0, false, at, 9, room, room_length, &told, &found);
    return answer == status && told == size && found == rows;
}

/* Returns true if the last sequence number of a view has this status and value. */
static bool view_last(struct ucstore_view *view, int32_t status, uint64_t seq) {
    uint64_t told = 7;
    return ucstore_view_last(view, &told) == status && told == seq;
}

/* Looks up keys in a view: at the last sequence number, at the snapshot of that time, and at a sequence number without one. */
static void view_look_up(struct ucstore_view *view) {
    uint8_t room[] = {'.', '.', '.', '.'}, then[] = {'.', '.', '.', '.'};
    CHECK(view_get(view, "a", room, sizeof room, UCSTORE_OK, 3) && begins(room, "1,2."));
    CHECK(view_get(view, "b", room, sizeof room, UCSTORE_NOT_FOUND, 7) && begins(room, "1,2."));
    CHECK(view_get_at(view, 1, then, sizeof then, UCSTORE_OK, 1) && begins(then, "1..."));
    CHECK(view_get_at(view, 2, then, sizeof then, UCSTORE_NOT_PROTECTED, 7) && begins(then, "1..."));
}

/* Looks up two keys at once in a view. With a wrong length the call fails. */
static void view_look_up_many(struct ucstore_view *view) {
    const uint64_t wrong[] = {1, 2};
    uint64_t lengths[] = {7, 7};
    uint8_t room[] = {'.', '.', '.', '.'};
    CHECK(view_get_many(view, wrong, lengths, room, sizeof room, UCSTORE_BAD_KEYS, 7));
    CHECK(lengths[0] == 7 && lengths[1] == 7 && begins(room, "...."));
    CHECK(view_get_many(view, ones, lengths, room, sizeof room, UCSTORE_OK, 3));
    CHECK(lengths[0] == UINT64_MAX && lengths[1] == 3 && begins(room, "1,2."));
}

/* Scans a view: at the last sequence number, at the snapshot of that time, and at a sequence number without one. */
static void view_scan_all(struct ucstore_view *view) {
    uint8_t room[sizeof row] = {0}, then[sizeof row] = {0}, back[sizeof row] = {0};
    CHECK(view_scan(view, room, sizeof room, UCSTORE_OK, 20, 1) && memcmp(room, row, sizeof row) == 0);
    CHECK(view_scan_back(view, back, sizeof back, UCSTORE_OK, 20, 1) && memcmp(back, row, sizeof row) == 0);
    CHECK(view_scan_at(view, 1, then, sizeof then, UCSTORE_OK, 18, 1) && memcmp(then, old_row, sizeof old_row) == 0);
    CHECK(view_scan_at(view, 2, then, sizeof then, UCSTORE_NOT_PROTECTED, 7, 7) && memcmp(then, old_row, sizeof old_row) == 0);
}

/* All reads of a view of the first two writes: one in a run, and one in the memtable. */
static void read_view(struct ucstore_view *view) {
    const struct ucstore_report wanted = {REPORT_SIZE, 1, 1, 1, 0, 0, 1, 2};
    view_look_up(view);
    view_look_up_many(view);
    view_scan_all(view);
    CHECK(reports(view, wanted) && view_last(view, UCSTORE_OK, 2));
}

/* Changes that no view shows: a write, a flush, a deletion, the release of the snapshot, and a compaction. */
static void go_on(void) {
    bool compacted = true;
    CHECK(put("b", "3") == UCSTORE_OK && ucstore_flush(&store) == UCSTORE_OK && delete_range("a", "z") == UCSTORE_OK);
    CHECK(ucstore_release(&store, 1) == UCSTORE_OK && ucstore_compact(&store, &compacted) == UCSTORE_OK);
}

/* Views of a store that is used and closed. The second handle stays open when the first is closed. */
static void views_stay(void) {
    struct ucstore_view view = {0}, again = {0};
    CHECK(create() == UCSTORE_OK && put("a", "1") == UCSTORE_OK && keep(UCSTORE_OK, 1));
    CHECK(merge("a", "2") == UCSTORE_OK && ucstore_view(&store, &view) == UCSTORE_OK);
    go_on();
    read_view(&view);
    CHECK(ucstore_view_again(&view, &again) == UCSTORE_OK && ucstore_view_close(&view) == UCSTORE_OK);
    CHECK(ucstore_close(&store) == UCSTORE_OK);
    read_view(&again);
    CHECK(ucstore_view_close(&again) == UCSTORE_OK);
}

/* Reads fail without a view. */
static void refuse_view_reads(struct ucstore_view *view) {
    uint64_t lengths[] = {7, 7};
    struct ucstore_report report = unreported(REPORT_SIZE);
    CHECK(view_get(view, "a", NULL, 0, UCSTORE_NO_VIEW, 7));
    CHECK(view_get_at(view, 0, NULL, 0, UCSTORE_NO_VIEW, 7));
    CHECK(view_get_many(view, ones, lengths, NULL, 0, UCSTORE_NO_VIEW, 7) && lengths[0] == 7 && lengths[1] == 7);
    CHECK(view_scan(view, NULL, 0, UCSTORE_NO_VIEW, 7, 7));
    CHECK(view_scan_back(view, NULL, 0, UCSTORE_NO_VIEW, 7, 7));
    CHECK(view_scan_at(view, 0, NULL, 0, UCSTORE_NO_VIEW, 7, 7));
    CHECK(view_last(view, UCSTORE_NO_VIEW, 7));
    CHECK(ucstore_view_report(view, &report) == UCSTORE_NO_VIEW && is_unreported(&report, REPORT_SIZE));
}

/* Statuses of a handle without a view, and of a handle with one. A view needs a store. */
static void no_view(void) {
    struct ucstore_view view = {0}, again = {0}, other = {0};
    CHECK(ucstore_view(&store, &view) == UCSTORE_NO_STORE);
    CHECK(ucstore_view_again(&view, &again) == UCSTORE_NO_VIEW);
    refuse_view_reads(&view);
    CHECK(create() == UCSTORE_OK && ucstore_view(&store, &view) == UCSTORE_OK);
    CHECK(ucstore_view(&store, &view) == UCSTORE_HAS_VIEW);
    CHECK(ucstore_view_again(&other, &view) == UCSTORE_HAS_VIEW);
    CHECK(ucstore_view_close(&view) == UCSTORE_OK);
    CHECK(ucstore_view_close(&view) == UCSTORE_NO_VIEW);
    CHECK(ucstore_close(&store) == UCSTORE_OK);
}

/* Returns true if a place is after these numbers of bytes and batches, with this last sequence number. */
static bool is_at(const struct ucstore_log_place *place, uint64_t offset, uint64_t seq, uint64_t batches) {
    return place->offset == offset && place->last == seq && place->batches == batches;
}

/* Returns true if a step of a walk over the log has this status, size and number of writes, and reports no end. */
static bool step(struct ucstore_log_place *place, uint8_t *room, size_t room_length, int32_t status, size_t size, uint64_t count) {
    size_t told = 7;
    uint64_t found = 7;
    struct ucstore_ended ended = {7, 7, 7};
    const int32_t answer = ucstore_log_next(history, sizeof history, place, room, room_length, &told, &found, &ended);
    return answer == status && told == size && found == count && is_untold(&ended);
}

/* A walk over the log of one batch: with a buffer that is too small, then one that is large enough, then the end. */
static void log_is_walked(void) {
    struct ucstore_log_place place = {0, 0, 0};
    struct ucstore_ended ended = {7, 7, 7};
    uint8_t room[sizeof laid] = {0};
    size_t size = 7;
    uint64_t count = 7;
    CHECK(step(&place, room, 52, UCSTORE_ROOM, 53, 7) && is_at(&place, 0, 0, 0) && all(room, sizeof room, 0));
    CHECK(step(&place, room, 53, UCSTORE_OK, 53, 2) && is_at(&place, 27, 2, 1));
    CHECK(sizeof room == 53 && memcmp(room, laid, sizeof laid) == 0);
    CHECK(ucstore_log_next(history, sizeof history, &place, NULL, 0, &size, &count, &ended) == UCSTORE_LOG_ENDS);
    CHECK(ended.kind == UCSTORE_CLEAN && is_at(&place, 27, 2, 1));
}

/* Places with more batches than bytes before them, and past the log. */
static void no_walk(void) {
    struct ucstore_log_place crowded = {0, 0, 1}, past = {28, 0, 0};
    CHECK(step(&crowded, NULL, 0, UCSTORE_BAD_PLACE, 7, 7) && is_at(&crowded, 0, 0, 1));
    CHECK(step(&past, NULL, 0, UCSTORE_BAD_PLACE, 7, 7) && is_at(&past, 28, 0, 0));
}

/* Returns true if the search for damage after an offset has this status and answer. */
static bool told(uint64_t end, uint64_t seq, int32_t status, bool found, uint64_t at) {
    bool is_told = status != UCSTORE_OK;
    uint64_t place = 7;
    const int32_t answer = ucstore_log_first_told(marked_log, sizeof marked_log, end, seq, &is_told, &place);
    return answer == status && is_told == (status != UCSTORE_OK || found) && place == at;
}

/* The second batch tells that the first one was durable. Nothing tells it of the second one, and there is no place past the log. */
static void damage_is_told(void) {
    CHECK(sizeof marked_log == 46 && told(0, 0, UCSTORE_OK, true, 23));
    CHECK(told(0, 2, UCSTORE_OK, false, 7) && told(23, 1, UCSTORE_OK, false, 7));
    CHECK(told(46, 0, UCSTORE_OK, false, 7) && told(47, 0, UCSTORE_BAD_PLACE, false, 7));
}

/* The mark of a batch in that log, of one without a mark, and of no bytes. */
static void marks_are_read(void) {
    bool marked = false;
    uint64_t unsynced = 7;
    CHECK(ucstore_log_mark(marked_log + 7, 16, &marked, &unsynced) == UCSTORE_OK && marked && unsynced == 0);
    unsynced = 7;
    CHECK(ucstore_log_mark(numbered, sizeof numbered, &marked, &unsynced) == UCSTORE_OK && !marked && unsynced == 7);
    CHECK(ucstore_log_mark(NULL, 0, &marked, &unsynced) == UCSTORE_OK && !marked && unsynced == 7);
}

/* Bytes of marks: one that fits the buffer, one that does not, and one that is too large. */
static void marks_are_laid_out(void) {
    uint8_t room[] = {7, 7, 7, 7, 7, 7};
    size_t size = 9;
    CHECK(ucstore_log_mark_bytes(300, room, 4, &size) == UCSTORE_ROOM && size == 5 && all(room, sizeof room, 7));
    CHECK(ucstore_log_mark_bytes((uint64_t)1 << 63, room, sizeof room, &size) == UCSTORE_BAD_PLACE && size == 5);
    CHECK(all(room, sizeof room, 7) && ucstore_log_mark_bytes(300, room, sizeof room, &size) == UCSTORE_OK && size == 5);
    CHECK(room[0] == 3 && room[1] == 3 && room[2] == 's' && room[3] == 172 && room[4] == 2 && room[5] == 7);
}

/* Returns true if the next batch of the log has this status, and reports an end or none. */
static bool replay(struct ucstore_log_place *place, bool may_skip, int32_t status, bool is_told) {
    struct ucstore_ended ended = {7, 7, 7};
    return ucstore_replay(&store, history, sizeof history, place, may_skip, &ended) == status && is_untold(&ended) != is_told;
}

/* Replays the log to a store, up to its end. After another write to the store, the place is no longer the store's. */
static void log_is_replayed(void) {
    struct ucstore_log_place place = {0, 0, 0};
    CHECK(replay(&place, false, UCSTORE_NO_STORE, false));
    CHECK(create() == UCSTORE_OK);
    CHECK(replay(&place, false, UCSTORE_OK, false));
    CHECK(is_at(&place, 27, 2, 1));
    CHECK(replay(&place, false, UCSTORE_LOG_ENDS, true));
    CHECK(put("c", "1") == UCSTORE_OK && last(UCSTORE_OK, 3));
    CHECK(replay(&place, true, UCSTORE_BAD_PLACE, false));
    CHECK(ucstore_close(&store) == UCSTORE_OK);
}

/* Starts a checkpoint without a view, then twice of one that shows 1,2 under a and 3 under b. Its view and store are closed. */
static void begin_checkpoint(struct ucstore_checkpoint *checkpoint) {
    struct ucstore_view view = {0};
    CHECK(ucstore_checkpoint(&view, checkpoint) == UCSTORE_NO_VIEW);
    CHECK(create() == UCSTORE_OK && put("a", "1") == UCSTORE_OK && put("b", "3") == UCSTORE_OK);
    CHECK(merge("a", "2") == UCSTORE_OK && ucstore_view(&store, &view) == UCSTORE_OK);
    CHECK(ucstore_close(&store) == UCSTORE_OK && ucstore_checkpoint(&view, checkpoint) == UCSTORE_OK);
    CHECK(ucstore_checkpoint(&view, checkpoint) == UCSTORE_HAS_CHECKPOINT);
    CHECK(ucstore_view_close(&view) == UCSTORE_OK);
}

/* Returns true if the next piece of at most nine rows has this status and size, for a log of this length. `done` is the flag after and
 * before the call. */
static bool next_piece(struct ucstore_checkpoint *checkpoint, uint64_t offset, uint8_t *room, size_t room_length, bool *done,
                       int32_t status, size_t size) {
    size_t told = 9;
    return ucstore_checkpoint_next(checkpoint, offset, 9, room, room_length, &told, done) == status && told == size;
}

/* Copies both rows at once, if they fit, and then none. */
static void checkpoint_is_laid_out(void) {
    struct ucstore_checkpoint checkpoint = {0};
    uint8_t small[31], room[32];
    bool refused = true, first = true, second = false;
    memset(small, 7, sizeof small);
    memset(room, 7, sizeof room);
    begin_checkpoint(&checkpoint);
    CHECK(next_piece(&checkpoint, 0, small, 30, &refused, UCSTORE_ROOM, 31) && refused && all(small, sizeof small, 7));
    CHECK(next_piece(&checkpoint, 0, room, sizeof room, &first, UCSTORE_OK, 31) && !first);
    CHECK(sizeof piece == 31 && memcmp(room, piece, sizeof piece) == 0 && room[31] == 7);
    CHECK(next_piece(&checkpoint, 31, room, sizeof room, &second, UCSTORE_OK, 0) && second);
    CHECK(memcmp(room, piece, sizeof piece) == 0 && room[31] == 7);
    CHECK(ucstore_checkpoint_close(&checkpoint) == UCSTORE_OK);
    CHECK(ucstore_checkpoint_close(&checkpoint) == UCSTORE_NO_CHECKPOINT);
}

/* A piece needs a checkpoint. */
static void no_checkpoint(void) {
    struct ucstore_checkpoint checkpoint = {0};
    uint8_t room[] = {7};
    bool done = false;
    CHECK(next_piece(&checkpoint, 0, room, sizeof room, &done, UCSTORE_NO_CHECKPOINT, 9) && !done && room[0] == 7);
}

/* Returns true if the source of a key of one byte has this status and value: in a view, or in the store if there is none. */
static bool source(struct ucstore_view *view, const char *key, int32_t status, uint32_t place) {
    uint32_t told = 7;
    const int32_t answer = view != NULL ? ucstore_view_source(view, bytes(key), 1, &told)
                                        : ucstore_source(&store, bytes(key), 1, &told);
    return answer == status && told == place;
}

/* Returns true if the keys a to e have these sources. */
static bool sources(struct ucstore_view *view, const uint32_t *places) {
    return source(view, "a", UCSTORE_OK, places[0]) && source(view, "b", UCSTORE_OK, places[1]) &&
           source(view, "c", UCSTORE_OK, places[2]) && source(view, "d", UCSTORE_OK, places[3]) &&
           source(view, "e", UCSTORE_OK, places[4]);
}

/* Sources of lookups in a store, and in a view of it after later writes: a has an operand over a value in a run, b was put and c deleted
 * since, d has only an operand, and e nothing. */
static void sources_are_told(void) {
    static const uint32_t first[] = {UCSTORE_RUNS, UCSTORE_MEMTABLE, UCSTORE_MEMTABLE, UCSTORE_FILTERS, UCSTORE_FILTERS};
    static const uint32_t flushed[] = {UCSTORE_RUNS, UCSTORE_RUNS, UCSTORE_RUNS, UCSTORE_RUNS, UCSTORE_FILTERS};
    static const uint32_t deleted[] = {UCSTORE_MEMTABLE, UCSTORE_MEMTABLE, UCSTORE_MEMTABLE, UCSTORE_MEMTABLE, UCSTORE_MEMTABLE};
    struct ucstore_view view = {0};
    CHECK(source(NULL, "a", UCSTORE_NO_STORE, 7));
    CHECK(source(&view, "a", UCSTORE_NO_VIEW, 7));
    CHECK(create() == UCSTORE_OK && put("a", "1") == UCSTORE_OK && ucstore_flush(&store) == UCSTORE_OK);
    CHECK(merge("a", "2") == UCSTORE_OK && put("b", "1") == UCSTORE_OK && delete_one("c") == UCSTORE_OK);
    CHECK(merge("d", "1") == UCSTORE_OK);
    CHECK(sources(NULL, first));
    CHECK(ucstore_view(&store, &view) == UCSTORE_OK && ucstore_flush(&store) == UCSTORE_OK);
    CHECK(sources(NULL, flushed));
    CHECK(delete_range("a", "f") == UCSTORE_OK);
    CHECK(sources(NULL, deleted));
    CHECK(sources(&view, first));
    CHECK(ucstore_view_close(&view) == UCSTORE_OK && ucstore_close(&store) == UCSTORE_OK);
}

/* Puts 1 under a, and deletes b. */
static void gather_two(struct ucstore_batch *batch) {
    CHECK(ucstore_batch_put(batch, bytes("a"), 1, bytes("1"), 1) == UCSTORE_OK);
    CHECK(ucstore_batch_delete(batch, bytes("b"), 1) == UCSTORE_OK);
}

/* Returns true if a batch has this number of operations and these bytes, and the rest of the buffer is unchanged. */
static bool has(struct ucstore_batch *batch, uint64_t operations, const uint8_t *text, size_t length) {
    uint8_t room[24];
    size_t size = 7;
    uint64_t count = 7;
    memset(room, 7, sizeof room);
    return ucstore_batch_count(batch, &count) == UCSTORE_OK && count == operations &&
           ucstore_batch_bytes(batch, room, sizeof room, &size) == UCSTORE_OK && size == length &&
           memcmp(room, text, length) == 0 && all(room + length, sizeof room - length, 7);
}

/* A batch from its first operation to its close. */
static void batch_is_gathered(void) {
    struct ucstore_batch batch = {0};
    uint8_t room[10];
    size_t size = 7;
    memset(room, 7, sizeof room);
    CHECK(has(&batch, 0, no_operations, sizeof no_operations));
    CHECK(ucstore_batch_clear(&batch) == UCSTORE_OK);
    gather_two(&batch);
    CHECK(has(&batch, 2, two_operations, sizeof two_operations));
    /* Copies only the bytes that fit. */
    CHECK(ucstore_batch_bytes(&batch, room, 9, &size) == UCSTORE_OK && size == 20);
    CHECK(memcmp(room, two_operations, 9) == 0 && room[9] == 7);
    CHECK(ucstore_batch_clear(&batch) == UCSTORE_OK);
    CHECK(has(&batch, 0, no_operations, sizeof no_operations));
    CHECK(ucstore_batch_merge(&batch, bytes("a"), 1, bytes("2"), 1) == UCSTORE_OK);
    CHECK(ucstore_batch_delete_range(&batch, bytes("c"), 1, bytes("d"), 1) == UCSTORE_OK);
    CHECK(has(&batch, 2, other_operations, sizeof other_operations));
    /* It is closed twice, and is empty in between. */
    CHECK(ucstore_batch_close(&batch) == UCSTORE_OK);
    CHECK(has(&batch, 0, no_operations, sizeof no_operations));
    CHECK(ucstore_batch_close(&batch) == UCSTORE_OK);
}

/* Returns true if a batch is prepared with this status for a log of this length, with this record size. */
static bool prepare(struct ucstore_batch *batch, uint64_t offset, uint8_t *room, size_t room_length, int32_t status, size_t size) {
    size_t told = 7;
    return ucstore_prepare(&store, batch, offset, room, room_length, &told) == status && told == size;
}

/* Prepares a batch for an empty log, with a buffer that is too small, and one that is large enough. It is not visible before the commit. */
static void record_batch(struct ucstore_batch *batch) {
    uint8_t small[28] = {0}, room[28] = {0};
    CHECK(prepare(batch, BLOCK_END, small, 27, UCSTORE_ROOM, 33) && all(small, sizeof small, 0));
    CHECK(prepare(batch, 0, room, 27, UCSTORE_OK, 27));
    CHECK(sizeof history == 27 && memcmp(room, history, sizeof history) == 0 && room[27] == 0);
    CHECK(last(UCSTORE_OK, 0) && ucstore_commit(&store) == UCSTORE_OK && last(UCSTORE_OK, 2));
}

/* A batch that is written again gets other sequence numbers. An empty one gets none. */
static void write_again(struct ucstore_batch *batch) {
    struct ucstore_batch none = {0};
    CHECK(ucstore_write(&store, batch) == UCSTORE_OK && last(UCSTORE_OK, 4));
    CHECK(ucstore_write(&store, &none) == UCSTORE_OK && last(UCSTORE_OK, 4));
    CHECK(has(batch, 2, two_operations, sizeof two_operations));
}

/* With sequence numbers exhausted, a batch with operations fails. */
static void spend_sequences(struct ucstore_batch *batch) {
    struct ucstore_batch none = {0};
    CHECK(ucstore_write_bytes(&store, last_one, sizeof last_one) == UCSTORE_OK);
    CHECK(ucstore_write(&store, batch) == UCSTORE_SEQUENCES_SPENT);
    CHECK(ucstore_write(&store, &none) == UCSTORE_OK);
    CHECK(prepare(batch, 0, NULL, 0, UCSTORE_SEQUENCES_SPENT, 7));
    CHECK(last(UCSTORE_OK, (UINT64_C(1) << 56) - 1));
}

/* Writes and prepares a batch. Both fail without a store. */
static void batch_is_written(void) {
    struct ucstore_batch batch = {0};
    gather_two(&batch);
    CHECK(ucstore_write(&store, &batch) == UCSTORE_NO_STORE);
    CHECK(prepare(&batch, 0, NULL, 0, UCSTORE_NO_STORE, 7));
    CHECK(has(&batch, 2, two_operations, sizeof two_operations));
    CHECK(create() == UCSTORE_OK);
    record_batch(&batch);
    write_again(&batch);
    spend_sequences(&batch);
    CHECK(ucstore_close(&store) == UCSTORE_OK && ucstore_batch_close(&batch) == UCSTORE_OK);
}

/* A record that does not fit the buffer is not prepared. No header is in the last six bytes of a block. */
static void need_room(void) {
    uint8_t room[28] = {0};
    CHECK(prepare_bytes(numbered, sizeof numbered, BLOCK_END, room, 27, UCSTORE_ROOM, 33) && all(room, sizeof room, 0));
    CHECK(ucstore_commit(&store) == UCSTORE_OK && last(UCSTORE_OK, 0));
}

/* Records of batches. Nothing is visible before the commit. */
static void record_bytes(void) {
    uint8_t room[28] = {0};
    CHECK(prepare_bytes(numbered, sizeof numbered, 0, room, 27, UCSTORE_OK, 27));
    CHECK(memcmp(room, history, sizeof history) == 0 && room[27] == 0);
    CHECK(last(UCSTORE_OK, 0) && ucstore_commit(&store) == UCSTORE_OK && last(UCSTORE_OK, 2));
}

/* Batches that are not prepared: malformed ones, and one not above the last sequence number. One that is discarded is not written. */
static void refuse_back(void) {
    const uint8_t none[] = {1};
    uint8_t room[27] = {0};
    CHECK(prepare_bytes(none, sizeof none, 0, room, sizeof room, UCSTORE_NOT_A_BATCH, 7) && all(room, sizeof room, 0));
    CHECK(prepare_bytes(numbered, sizeof numbered, 0, room, sizeof room, UCSTORE_SEQUENCE_BACK, 7) && all(room, sizeof room, 0));
    CHECK(ucstore_write_bytes(&store, numbered, sizeof numbered) == UCSTORE_SEQUENCE_BACK);
    CHECK(prepare_bytes(unnumbered, sizeof unnumbered, 0, room, sizeof room, UCSTORE_OK, 22));
    CHECK(ucstore_give_up(&store) == UCSTORE_OK && ucstore_commit(&store) == UCSTORE_OK && last(UCSTORE_OK, 2));
}

/* Batches that are written in two steps. */
static void two_steps(void) {
    CHECK(create() == UCSTORE_OK);
    need_room();
    record_bytes();
    refuse_back();
    CHECK(ucstore_close(&store) == UCSTORE_OK);
}

/* Returns true if a lookup of keys of these lengths, with space for four results, has this status, lengths of values, values and total
 * size. */
static bool many(const char *keys, const uint64_t *key_lengths, size_t count, int32_t status, const uint64_t *wanted,
                 const char *values, size_t size) {
    uint64_t lengths[] = {7, 7, 7, 7};
    uint8_t room[] = {'.', '.', '.', '.'};
    size_t told = 7;
    const int32_t answer =
        ucstore_get_many(&store, bytes(keys), strlen(keys), key_lengths, count, lengths, 4, room, sizeof room, &told);
    return answer == status && memcmp(lengths, wanted, sizeof lengths) == 0 && begins(room, values) && told == size;
}

/* Looks up four keys, of which b has no value, and one is repeated. Then a key, another of three bytes, and two without a value. */
static void find_four(void) {
    static const uint64_t four[] = {2, 1, UINT64_MAX, 1}, one[] = {1, UINT64_MAX, UINT64_MAX, UINT64_MAX};
    static const uint64_t uneven[] = {1, 3, 0, 0};
    CHECK(many("caba", ones, 4, UCSTORE_OK, four, "3311", 4));
    CHECK(many("abca", uneven, 4, UCSTORE_OK, one, "1...", 1));
}

/* Looks up keys with a buffer that is too small for their values, and no keys. */
static void find_some(void) {
    uint64_t lengths[] = {7, 7};
    uint8_t room[] = {'.', '.', '.'};
    size_t size = 7, none = 7;
    CHECK(ucstore_get_many(&store, bytes("ac"), 2, ones, 2, lengths, 2, room, 2, &size) == UCSTORE_OK);
    CHECK(lengths[0] == 1 && lengths[1] == 2 && begins(room, "13.") && size == 3);
    CHECK(ucstore_get_many(&store, NULL, 0, NULL, 0, NULL, 0, NULL, 0, &none) == UCSTORE_OK && none == 0);
}

/* Lengths whose sum is not that of the keys, and fewer lengths than results. A sum does not wrap. */
static void refuse_lengths(const uint64_t *untold) {
    static const uint64_t fewer[] = {1, 1, 1, 0}, more[] = {1, 1, 1, 2}, wrapping[] = {UINT64_MAX, 1, 2, 2};
    CHECK(many("caba", fewer, 4, UCSTORE_BAD_KEYS, untold, "....", 7));
    CHECK(many("caba", more, 4, UCSTORE_BAD_KEYS, untold, "....", 7));
    CHECK(many("caba", wrapping, 4, UCSTORE_BAD_KEYS, untold, "....", 7));
    CHECK(many("cab", ones, 3, UCSTORE_BAD_KEYS, untold, "....", 7));
}

/* Lookups of several keys without a store, and with a store that has a value of one byte and one of two. */
static void many_keys(void) {
    static const uint64_t untold[] = {7, 7, 7, 7};
    CHECK(many("caba", ones, 4, UCSTORE_NO_STORE, untold, "....", 7));
    CHECK(create() == UCSTORE_OK && put("a", "1") == UCSTORE_OK);
    CHECK(ucstore_put(&store, bytes("c"), 1, bytes("33"), 2) == UCSTORE_OK);
    find_four();
    find_some();
    refuse_lengths(untold);
    CHECK(ucstore_close(&store) == UCSTORE_OK);
}

int main(void) {
    store_lives();
    log_is_opened();
    no_store();
    jobs_end();
    no_job();
    views_stay();
    no_view();
    log_is_walked();
    no_walk();
    damage_is_told();
    marks_are_read();
    marks_are_laid_out();
    log_is_replayed();
    checkpoint_is_laid_out();
    no_checkpoint();
    sources_are_told();
    batch_is_gathered();
    batch_is_written();
    two_steps();
    many_keys();
    printf("ok\n");
    return 0;
}
