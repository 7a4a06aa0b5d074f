/* The functions of `ucstore.h` that play.c calls, implemented by a database in a directory, so that play.c plays its cases over a
 * database. Each store has its own directory below the one in the environment variable FOLDER. Linked in place of the library.
 *
 * A batch given as bytes is decoded, and a prepared batch is kept here. Sequence numbers are the database's own, so files with
 * `sequence` in a batch cannot be played, and neither can reports. */
#include <stdio.h>
#include <stdlib.h>
#include <string.h>
#include <ucstore.h>
#include <ucstore_db.h>

enum { NAMES = 16, FOLDER = 4096, HEADER = 12 };

/* Kinds of writes: the tags of RocksDB's batches (`dbformat.h`). */
enum kind { DELETE = 0, PUT = 1, MERGE = 2, DELETE_RANGE = 15 };

/* The database, and the prepared batch. */
static struct ucstore_db *db;
static struct ucstore_db_batch *prepared;
static struct ucstore_db_options kept;
static char folder[FOLDER];
static unsigned stores;

/* Snapshots, in the order in which they were taken. */
static struct {
    struct ucstore_db_snapshot *snapshot;
    uint64_t sequence;
} snapshots[NAMES];
static size_t snapshot_count;

static void expect(int32_t status) {
    if (status != UCSTORE_DB_OK) {
        fprintf(stderr, "db_store: %s\n", ucstore_db_error_text());
        exit(2);
    }
}

/* Statuses below 64 are those of the store. */
static int32_t answered(int32_t status) {
    if (status >= UCSTORE_DB_FILE) {
        expect(status);
    }
    return status;
}

int32_t ucstore_options_init(struct ucstore_options *options) {
    ucstore_db_options_init(&kept, sizeof kept);
    options->write_buffer_size = kept.write_buffer_size;
    options->compaction_trigger = kept.compaction_trigger;
    options->stop_trigger = kept.stop_trigger;
    options->size_ratio = kept.size_ratio;
    options->max_size_amplification_percent = kept.max_size_amplification_percent;
    options->min_merge_width = kept.min_merge_width;
    options->max_merge_width = kept.max_merge_width;
    options->compacts_itself = 1;
    return UCSTORE_OK;
}

/* Converts options to those of the same names. A store that compacts automatically gets threads for it. */
static void keep_options(uint32_t merge_operator, const struct ucstore_options *options) {
    kept.merge_operator = merge_operator;
    kept.sync = UCSTORE_DB_SYNC_NEVER;
    kept.write_buffer_size = options->write_buffer_size;
    kept.compaction_trigger = options->compaction_trigger;
    kept.stop_trigger = options->stop_trigger;
    kept.size_ratio = options->size_ratio;
    kept.max_size_amplification_percent = options->max_size_amplification_percent;
    kept.min_merge_width = options->min_merge_width;
    kept.max_merge_width = options->max_merge_width;
    kept.compactors = options->compacts_itself ? 2 : 0;
}

static int32_t open_folder(struct ucstore *store) {
    int32_t status = answered(ucstore_db_open(folder, &kept, &db));
    store->at = status == UCSTORE_DB_OK ? db : NULL;
    return status;
}

int32_t ucstore_create(struct ucstore *store, uint32_t merge_operator, const struct ucstore_options *options) {
    const char *above = getenv("FOLDER");
    keep_options(merge_operator, options);
    snprintf(folder, sizeof folder, "%s/%u", above != NULL ? above : ".", stores++);
    return open_folder(store);
}

/* The directory has the contents of the log. */
int32_t ucstore_open(struct ucstore *store, uint32_t merge_operator, const struct ucstore_options *options, const uint8_t *log,
                     size_t log_length, struct ucstore_ended *ended) {
    (void)log, (void)log_length;
    keep_options(merge_operator, options);
    ended->kind = UCSTORE_CLEAN;
    return open_folder(store);
}

int32_t ucstore_give_up(struct ucstore *store) {
    expect(ucstore_db_batch_close(prepared));
    prepared = NULL;
    return store->at != NULL ? UCSTORE_OK : UCSTORE_NO_STORE;
}

int32_t ucstore_close(struct ucstore *store) {
    if (ucstore_give_up(store) == UCSTORE_NO_STORE) {
        return UCSTORE_NO_STORE;
    }
    for (; snapshot_count > 0; snapshot_count--) {
        expect(ucstore_db_snapshot_close(snapshots[snapshot_count - 1].snapshot));
    }
    expect(ucstore_db_close(db));
    store->at = NULL;
    return UCSTORE_OK;
}

/* Writes. */

/* Returns the byte string at an offset, after its length as a varint: seven bits per byte, the low ones first. */
static const uint8_t *read_text(const uint8_t *at, const uint8_t **text, size_t *length) {
    size_t read = *at & 0x7f;
    for (int bits = 7; *at++ & 0x80; bits += 7) {
        read |= (size_t)(*at & 0x7f) << bits;
    }
    *text = at;
    *length = read;
    return at + read;
}

/* Adds the operation at an offset to a batch, and returns the offset after it. */
static const uint8_t *add_operation(struct ucstore_db_batch *batch, const uint8_t *at) {
    const uint8_t *first, *second = NULL;
    size_t first_length, second_length = 0;
    enum kind kind = (enum kind)*at;
    at = read_text(at + 1, &first, &first_length);
    if (kind == DELETE) {
        expect(ucstore_db_batch_delete(batch, first, first_length));
        return at;
    }
    at = read_text(at, &second, &second_length);
    expect((kind == PUT     ? ucstore_db_batch_put
            : kind == MERGE ? ucstore_db_batch_merge
                            : ucstore_db_batch_delete_range)(batch, first, first_length, second, second_length));
    return at;
}

int32_t ucstore_prepare_bytes(struct ucstore *store, const uint8_t *batch, size_t batch_length, uint64_t log_length,
                              uint8_t *room, size_t room_length, size_t *size) {
    const uint8_t *at = batch + HEADER;
    (void)log_length, (void)room, (void)room_length;
    if (ucstore_give_up(store) == UCSTORE_NO_STORE) {
        return UCSTORE_NO_STORE;
    }
    expect(ucstore_db_batch_create(&prepared));
    while (at < batch + batch_length) {
        at = add_operation(prepared, at);
    }
    *size = 0;
    return UCSTORE_OK;
}

int32_t ucstore_commit(struct ucstore *store) {
    int32_t status = prepared != NULL ? answered(ucstore_db_write(db, prepared)) : UCSTORE_OK;
    ucstore_give_up(store);
    return status;
}

int32_t ucstore_write_bytes(struct ucstore *store, const uint8_t *batch, size_t batch_length) {
    size_t size = 0;
    int32_t status = ucstore_prepare_bytes(store, batch, batch_length, 0, NULL, 0, &size);
    return status == UCSTORE_OK ? ucstore_commit(store) : status;
}

int32_t ucstore_put(struct ucstore *store, const uint8_t *key, size_t key_length, const uint8_t *value, size_t value_length) {
    (void)store;
    return answered(ucstore_db_put(db, key, key_length, value, value_length));
}

int32_t ucstore_merge(struct ucstore *store, const uint8_t *key, size_t key_length, const uint8_t *operand,
                      size_t operand_length) {
    (void)store;
    return answered(ucstore_db_merge(db, key, key_length, operand, operand_length));
}

int32_t ucstore_delete(struct ucstore *store, const uint8_t *key, size_t key_length) {
    (void)store;
    return answered(ucstore_db_delete(db, key, key_length));
}

int32_t ucstore_delete_range(struct ucstore *store, const uint8_t *begin, size_t begin_length, const uint8_t *end,
                             size_t end_length) {
    (void)store;
    return answered(ucstore_db_delete_range(db, begin, begin_length, end, end_length));
}

int32_t ucstore_flush(struct ucstore *store) {
    (void)store;
    return answered(ucstore_db_flush(db));
}

int32_t ucstore_compact(struct ucstore *store, bool *compacted) {
    (void)store;
    *compacted = false;
    return answered(ucstore_db_compact(db));
}

/* Snapshots. */

int32_t ucstore_snapshot(struct ucstore *store, uint64_t *seq) {
    (void)store;
    if (snapshot_count == NAMES) {
        return UCSTORE_OUT_OF_MEMORY;
    }
    expect(ucstore_db_snapshot(db, &snapshots[snapshot_count].snapshot));
    expect(ucstore_db_snapshot_sequence(snapshots[snapshot_count].snapshot, seq));
    snapshots[snapshot_count++].sequence = *seq;
    return UCSTORE_OK;
}

/* Returns the index of the snapshot at a sequence number, or the number of snapshots. */
static size_t place_of(uint64_t seq) {
    size_t place = 0;
    while (place < snapshot_count && snapshots[place].sequence != seq) {
        place++;
    }
    return place;
}

int32_t ucstore_release(struct ucstore *store, uint64_t seq) {
    size_t place = place_of(seq);
    (void)store;
    if (place == snapshot_count) {
        return UCSTORE_NOT_PROTECTED;
    }
    expect(ucstore_db_snapshot_close(snapshots[place].snapshot));
    memmove(&snapshots[place], &snapshots[place + 1], (--snapshot_count - place) * sizeof snapshots[0]);
    return UCSTORE_OK;
}

/* Snapshots of one sequence number are adjacent, since sequence numbers only increase. */
int32_t ucstore_snapshots(struct ucstore *store, uint64_t *room, size_t room_length, size_t *count) {
    (void)store;
    *count = 0;
    for (size_t place = 0; place < snapshot_count; place++) {
        if (place > 0 && snapshots[place].sequence == snapshots[place - 1].sequence) {
            continue;
        }
        if (*count < room_length) {
            room[*count] = snapshots[place].sequence;
        }
        ++*count;
    }
    return UCSTORE_OK;
}

/* Reads. */

int32_t ucstore_get(struct ucstore *store, const uint8_t *key, size_t key_length, uint8_t *room, size_t room_length,
                    size_t *size) {
    (void)store;
    return answered(ucstore_db_get(db, key, key_length, room, room_length, size));
}

int32_t ucstore_get_at(struct ucstore *store, const uint8_t *key, size_t key_length, uint64_t at, uint8_t *room,
                       size_t room_length, size_t *size) {
    size_t place = place_of(at);
    (void)store;
    return place == snapshot_count
               ? UCSTORE_NOT_PROTECTED
               : answered(ucstore_db_snapshot_get(snapshots[place].snapshot, key, key_length, room, room_length, size));
}

/* Copies a byte string after its length, and returns the offset after it. */
static uint8_t *put_text(uint8_t *at, const char *text, size_t length) {
    for (int place = 0; place < 8; place++) {
        *at++ = (uint8_t)((uint64_t)length >> (8 * place));
    }
    memcpy(at, text, length);
    return at + length;
}

/* Copies the rows of a cursor in the format of `ucstore_scan`, and closes the cursor. */
static int32_t put_rows(struct ucstore_db_cursor *cursor, uint64_t limit, uint8_t *room, size_t room_length, size_t *size,
                        uint64_t *rows) {
    uint8_t *at = room;
    for (*rows = 0; *rows < limit && ucstore_db_cursor_valid(cursor); ++*rows) {
        size_t key_length, value_length;
        const char *key = ucstore_db_cursor_key(cursor, &key_length);
        const char *value = ucstore_db_cursor_value(cursor, &value_length);
        if (room_length - (size_t)(at - room) < 16 + key_length + value_length) {
            return UCSTORE_ROOM;
        }
        at = put_text(put_text(at, key, key_length), value, value_length);
        expect(ucstore_db_cursor_next(cursor));
    }
    *size = (size_t)(at - room);
    expect(ucstore_db_cursor_status(cursor));
    expect(ucstore_db_cursor_close(cursor));
    return UCSTORE_OK;
}

int32_t ucstore_scan(struct ucstore *store, const uint8_t *low, size_t low_length, const uint8_t *high, size_t high_length,
                     bool bounded, uint64_t limit, uint8_t *room, size_t room_length, size_t *size, uint64_t *rows) {
    struct ucstore_db_cursor *cursor;
    (void)store;
    expect(ucstore_db_cursor(db, low, low_length, high, high_length, bounded, &cursor));
    return put_rows(cursor, limit, room, room_length, size, rows);
}

int32_t ucstore_scan_at(struct ucstore *store, const uint8_t *low, size_t low_length, const uint8_t *high, size_t high_length,
                        bool bounded, uint64_t at, uint64_t limit, uint8_t *room, size_t room_length, size_t *size,
                        uint64_t *rows) {
    struct ucstore_db_cursor *cursor;
    size_t place = place_of(at);
    (void)store;
    if (place == snapshot_count) {
        return UCSTORE_NOT_PROTECTED;
    }
    expect(ucstore_db_snapshot_cursor(snapshots[place].snapshot, low, low_length, high, high_length, bounded, &cursor));
    return put_rows(cursor, limit, room, room_length, size, rows);
}

int32_t ucstore_last(struct ucstore *store, uint64_t *seq) {
    struct ucstore_db_stats stats;
    (void)store;
    stats.size = sizeof stats;
    expect(ucstore_db_stats(db, &stats));
    *seq = stats.last;
    return UCSTORE_OK;
}

int32_t ucstore_report(struct ucstore *store, struct ucstore_report *report) {
    (void)store, (void)report;
    fprintf(stderr, "db_store: a database has no report\n");
    exit(2);
}
