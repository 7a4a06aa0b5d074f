/* 50,000 random operations for each operator, compared with a plain dictionary, whose copies are the snapshots and the views: writes,
 * batches by handle and as bytes, snapshots, views, checkpoints, jobs, reads, scans and compactions. Then the log of all batches is opened
 * and walked, whole and torn. The arguments are the number of operations, and the seed. */
#include <stdio.h>
#include <stdlib.h>
#include <string.h>
#include <ucstore.h>

#define CHECK(test)                                                  \
    do {                                                             \
        if (!(test)) {                                               \
            printf("%s:%d: %s\n", __FILE__, __LINE__, #test);        \
            exit(1);                                                 \
        }                                                            \
    } while (0)

enum { TEXT = 12, VALUE = 1 << 12, KEYS = 100, MOST_KEEPS = 12, MOST_VIEWS = 4, MOST_JOBS = 3, BATCH = 12 + 9 * (3 + 2 * TEXT), MOST_LOG = 1 << 24 };

/* Kinds of writes: the tags of RocksDB's batches (`dbformat.h`). */
enum kind { DELETE = 0, PUT = 1, MERGE = 2, DELETE_RANGE = 15 };

/* A write. `value` is the value of a put, the operand of a merge or the end of a range. */
struct write {
    enum kind kind;
    uint8_t key[TEXT], value[TEXT];
    size_t key_length, value_length;
};

struct value {
    bool held;
    size_t size;
    uint8_t bytes[VALUE];
};

/* A value for each key: index 7 is key `k7`. */
struct dictionary {
    struct value at[KEYS];
};

/* A snapshot, the number of times it was taken, and its expected contents. */
struct snapshot {
    uint64_t at, taken;
    struct dictionary held;
};

/* The store, or a view of it, to read. */
struct moment {
    struct ucstore_view view;
    uint64_t last;
    struct dictionary now;
    struct snapshot snapshots[MOST_KEEPS];
    size_t snapshot_count;
};

static uint32_t merge_operator;
static struct ucstore store;

/* The batch that is reused for writes. */
static struct ucstore_batch gathered;

/* The expected contents of the store and of each view. */
static struct moment live, views[MOST_VIEWS];

/* Jobs that were taken out of the store, and whether they were run and ended. */
static struct ucstore_job jobs[MOST_JOBS];
static bool ran[MOST_JOBS], finished[MOST_JOBS];

/* True if full memtables are left to jobs. Then the store may flush the memtables of a job before that ends. */
static bool leaves_flushes;

/* All writes in order, and a log with a batch for each call. */
static struct write *writes;
static size_t count, most_writes;
static uint8_t *history;
static size_t history_length;

/* Indexes of the keys in byte order. */
static int in_order[KEYS];

static uint64_t state;

/* Returns a pseudorandom number below a limit (Knuth's constants). */
static uint64_t draw(uint64_t limit) {
    state = state * UINT64_C(6364136223846793005) + UINT64_C(1442695040888963407);
    return (state >> 33) % limit;
}

static int compare(const uint8_t *left, size_t left_length, const uint8_t *right, size_t right_length) {
    int order = memcmp(left, right, left_length < right_length ? left_length : right_length);
    return order != 0 ? order : (left_length > right_length) - (left_length < right_length);
}

static size_t key_text(int key, uint8_t *text) {
    return (size_t)snprintf((char *)text, TEXT, "k%d", key);
}

static int by_text(const void *left, const void *right) {
    uint8_t one[TEXT], other[TEXT];
    size_t one_length = key_text(*(const int *)left, one), other_length = key_text(*(const int *)right, other);
    return compare(one, one_length, other, other_length);
}

static uint64_t number(const uint8_t *text) {
    uint64_t sum = 0;
    for (int place = 7; place >= 0; place--) {
        sum = sum << 8 | text[place];
    }
    return sum;
}

static void push_number(uint8_t *bytes, size_t *size, uint64_t value) {
    for (int place = 0; place < 8; place++) {
        bytes[(*size)++] = (uint8_t)(value >> (8 * place));
    }
}

static void push_text(uint8_t *bytes, size_t *size, const uint8_t *text, size_t length) {
    push_number(bytes, size, length);
    memcpy(bytes + *size, text, length);
    *size += length;
}

/* The expected contents. */

static void set(struct value *value, const uint8_t *text, size_t length) {
    memcpy(value->bytes, text, length);
    value->size = length;
}

static void add(struct value *value, const uint8_t *text, size_t length) {
    CHECK(value->size + length <= VALUE);
    memcpy(value->bytes + value->size, text, length);
    value->size += length;
}

static uint64_t number_in(const uint8_t *text, size_t length) {
    return length == 8 ? number(text) : 0;
}

static void merge(struct value *value, const struct write *w) {
    uint64_t sum;
    size_t size = 0;
    if (!value->held) {
        value->size = 0;
    }
    switch (merge_operator) {
    case UCSTORE_APPEND:
        if (value->held) {
            add(value, (const uint8_t *)",", 1);
        }
        add(value, w->value, w->value_length);
        break;
    case UCSTORE_COUNTER:
        sum = number_in(value->bytes, value->size) + number_in(w->value, w->value_length);
        push_number(value->bytes, &size, sum);
        value->size = size;
        break;
    case UCSTORE_MAXIMUM:
        if (compare(value->bytes, value->size, w->value, w->value_length) < 0) {
            set(value, w->value, w->value_length);
        }
        break;
    default:
        add(value, w->value, w->value_length);
        if (value->size > 4) {
            memmove(value->bytes, value->bytes + value->size - 4, 4);
            value->size = 4;
        }
    }
    value->held = true;
}

static bool covers(const struct write *w, int key) {
    uint8_t text[TEXT];
    size_t length = key_text(key, text);
    return compare(w->key, w->key_length, text, length) <= 0 && compare(text, length, w->value, w->value_length) < 0;
}

static void apply(struct dictionary *held, const struct write *w) {
    struct value *value = &held->at[atoi((const char *)w->key + 1)];
    switch (w->kind) {
    case PUT:
        set(value, w->value, w->value_length);
        value->held = true;
        break;
    case DELETE:
        value->held = false;
        break;
    case MERGE:
        merge(value, w);
        break;
    case DELETE_RANGE:
        for (int key = 0; key < KEYS; key++) {
            held->at[key].held = held->at[key].held && !covers(w, key);
        }
    }
}

static void copy(struct dictionary *to, const struct dictionary *from) {
    for (int key = 0; key < KEYS; key++) {
        to->at[key].held = from->at[key].held;
        set(&to->at[key], from->at[key].bytes, from->at[key].size);
    }
}

static void copy_snapshot(struct snapshot *to, const struct snapshot *from) {
    to->at = from->at;
    to->taken = from->taken;
    copy(&to->held, &from->held);
}

static void copy_moment(struct moment *to, const struct moment *from) {
    to->last = from->last;
    copy(&to->now, &from->now);
    to->snapshot_count = from->snapshot_count;
    for (size_t place = 0; place < from->snapshot_count; place++) {
        copy_snapshot(&to->snapshots[place], &from->snapshots[place]);
    }
}

/* Views. */

/* Takes a view, closes one, or creates another handle to one. */
static void view(void) {
    uint64_t one = draw(MOST_VIEWS), behind = 1 + draw(MOST_VIEWS - 1);
    struct moment *drawn = &views[one], *other = &views[(one + behind) % MOST_VIEWS];
    if (drawn->view.at == NULL) {
        CHECK(ucstore_view(&store, &drawn->view) == UCSTORE_OK && drawn->view.at != NULL);
        copy_moment(drawn, &live);
    } else if (draw(2) == 0) {
        CHECK(ucstore_view_close(&drawn->view) == UCSTORE_OK && drawn->view.at == NULL);
    } else if (other->view.at == NULL) {
        CHECK(ucstore_view_again(&drawn->view, &other->view) == UCSTORE_OK && other->view.at != NULL);
        copy_moment(other, drawn);
    } else {
        CHECK(ucstore_view(&store, &drawn->view) == UCSTORE_HAS_VIEW);
        CHECK(ucstore_view_again(&drawn->view, &other->view) == UCSTORE_HAS_VIEW);
    }
}

/* Writes. */

static size_t draw_key(uint8_t *text) {
    return key_text((int)draw(KEYS), text);
}

static struct write draw_write(void) {
    struct write w;
    uint64_t kind = draw(20);
    memset(&w, 0, sizeof w);
    w.kind = kind < 9 ? PUT : kind < 16 ? MERGE : kind < 19 ? DELETE : DELETE_RANGE;
    w.key_length = draw_key(w.key);
    if (w.kind == DELETE_RANGE) {
        w.value_length = draw_key(w.value);
    } else if (w.kind != DELETE) {
        w.value_length = draw(3) == 0 ? 8 : (size_t)draw(TEXT + 1);
        for (size_t place = 0; place < w.value_length; place++) {
            w.value[place] = (uint8_t)draw(256);
        }
    }
    return w;
}

/* Compacts until no compaction is due. */
static void compact(void) {
    bool compacted = true;
    while (compacted) {
        CHECK(ucstore_compact(&store, &compacted) == UCSTORE_OK);
    }
}

static int32_t write_alone(const struct write *w) {
    switch (w->kind) {
    case PUT:
        return ucstore_put(&store, w->key, w->key_length, w->value, w->value_length);
    case DELETE:
        return ucstore_delete(&store, w->key, w->key_length);
    case MERGE:
        return ucstore_merge(&store, w->key, w->key_length, w->value, w->value_length);
    default:
        return ucstore_delete_range(&store, w->key, w->key_length, w->value, w->value_length);
    }
}

/* Adds a record to a batch (RocksDB, `write_batch.cc`): its tag, and each byte string after its length. */
static void push_record(uint8_t *batch, size_t *size, const struct write *w) {
    batch[(*size)++] = (uint8_t)w->kind;
    batch[(*size)++] = (uint8_t)w->key_length;
    memcpy(batch + *size, w->key, w->key_length);
    *size += w->key_length;
    if (w->kind != DELETE) {
        batch[(*size)++] = (uint8_t)w->value_length;
        memcpy(batch + *size, w->value, w->value_length);
        *size += w->value_length;
    }
    batch[8]++;
}

/* Gives the next batch its own sequence number, or 0, which means the next one. A number that is not above the last one fails. */
static void number_batch(uint8_t *batch, size_t size) {
    size_t place = 0, record = 99;
    uint64_t back = draw(count + 1);
    push_number(batch, &place, back);
    if (back > 0 && batch[8] > 0) {
        CHECK(ucstore_write_bytes(&store, batch, size) == UCSTORE_SEQUENCE_BACK);
        CHECK(ucstore_prepare_bytes(&store, batch, size, history_length, history, 0, &record) == UCSTORE_SEQUENCE_BACK && record == 99);
    }
    place = 0;
    push_number(batch, &place, draw(2) == 0 ? 0 : count + 1);
}

static int32_t gather(const struct write *w) {
    switch (w->kind) {
    case PUT:
        return ucstore_batch_put(&gathered, w->key, w->key_length, w->value, w->value_length);
    case DELETE:
        return ucstore_batch_delete(&gathered, w->key, w->key_length);
    case MERGE:
        return ucstore_batch_merge(&gathered, w->key, w->key_length, w->value, w->value_length);
    default:
        return ucstore_batch_delete_range(&gathered, w->key, w->key_length, w->value, w->value_length);
    }
}

/* Returns true if the batch has this number of operations and these bytes. */
static bool is_gathered(uint64_t operations, const uint8_t *batch, size_t size) {
    uint8_t room[BATCH + 1];
    size_t told = 99, fits = (size_t)draw(size + 1);
    uint64_t found = 99;
    room[fits] = 77;
    CHECK(ucstore_batch_count(&gathered, &found) == UCSTORE_OK);
    CHECK(ucstore_batch_bytes(&gathered, room, fits, &told) == UCSTORE_OK);
    return found == operations && told == size && memcmp(room, batch, fits) == 0 && room[fits] == 77;
}

/* Adds writes to a batch, whose bytes must be these: to the memory of the previous batch, or to a new one. */
static void gather_all(const struct write *drawn, size_t length, const uint8_t *batch, size_t size) {
    if (draw(4) == 0) {
        CHECK(ucstore_batch_close(&gathered) == UCSTORE_OK && gathered.at == NULL);
    }
    CHECK(ucstore_batch_clear(&gathered) == UCSTORE_OK);
    for (size_t place = 0; place < length; place++) {
        CHECK(gather(&drawn[place]) == UCSTORE_OK);
    }
    CHECK(is_gathered(length, batch, size));
}

/* Counts a record that was added to the log. */
static void recorded(int32_t status, size_t record) {
    CHECK(status == UCSTORE_OK && record <= MOST_LOG - history_length);
    history_length += record;
}

/* Prepares a batch, and adds its record to the log. */
static void log_batch(const uint8_t *batch, size_t size) {
    size_t record = 99;
    int32_t status = ucstore_prepare_bytes(&store, batch, size, history_length, history + history_length,
                                           MOST_LOG - history_length, &record);
    recorded(status, record);
}

/* The same with the batch handle. */
static void log_gathered(void) {
    size_t record = 99;
    int32_t status = ucstore_prepare(&store, &gathered, history_length, history + history_length,
                                     MOST_LOG - history_length, &record);
    recorded(status, record);
}

static void wrote(const struct write *w) {
    CHECK(count < most_writes);
    apply(&live.now, w);
    writes[count++] = *w;
    live.last = count;
}

/* A single write, which is in the log as its own batch. It discards the batch that was prepared for that. */
static void write_one(void) {
    uint8_t batch[BATCH] = {0};
    size_t size = 12;
    struct write w = draw_write();
    push_record(batch, &size, &w);
    log_batch(batch, size);
    CHECK(draw(2) == 0 || ucstore_give_up(&store) == UCSTORE_OK);
    CHECK(write_alone(&w) == UCSTORE_OK);
    CHECK(ucstore_commit(&store) == UCSTORE_OK);
    wrote(&w);
}

/* A batch, by its handle or as bytes, in two steps or in one. No read sees it while it is prepared. */
static void write_batch(void) {
    struct write drawn[8];
    uint8_t batch[BATCH] = {0};
    size_t size = 12, length = (size_t)draw(9);
    bool by_handle = draw(2) == 0;
    uint64_t last = 0;
    for (size_t place = 0; place < length; place++) {
        drawn[place] = draw_write();
        push_record(batch, &size, &drawn[place]);
    }
    gather_all(drawn, length, batch, size);
    if (by_handle) {
        log_gathered();
    } else {
        number_batch(batch, size);
        log_batch(batch, size);
    }
    CHECK(ucstore_last(&store, &last) == UCSTORE_OK && last == count);
    view();
    if (draw(2) == 0) {
        CHECK((by_handle ? ucstore_write(&store, &gathered) : ucstore_write_bytes(&store, batch, size)) == UCSTORE_OK);
    }
    CHECK(ucstore_commit(&store) == UCSTORE_OK);
    for (size_t place = 0; place < length; place++) {
        wrote(&drawn[place]);
    }
    memset(batch, 0, 8);
    CHECK(is_gathered(length, batch, size));
    batch[8]++;
    CHECK(ucstore_write_bytes(&store, batch, size) == UCSTORE_NOT_A_BATCH);
}

/* Snapshots. */

static struct snapshot *snapshot_at(struct moment *of, uint64_t at) {
    for (size_t place = 0; place < of->snapshot_count; place++) {
        if (of->snapshots[place].at == at) {
            return &of->snapshots[place];
        }
    }
    return NULL;
}

/* Returns a sequence number: mostly that of a snapshot. */
static uint64_t draw_sequence(struct moment *of) {
    return of->snapshot_count > 0 && draw(8) != 0 ? of->snapshots[draw(of->snapshot_count)].at : draw(of->last + 2);
}

static void take(void) {
    uint64_t at = UINT64_MAX;
    if (live.snapshot_count < MOST_KEEPS) {
        CHECK(ucstore_snapshot(&store, &at) == UCSTORE_OK && at == count);
        if (snapshot_at(&live, at) == NULL) {
            struct snapshot *taken = &live.snapshots[live.snapshot_count++];
            taken->at = at;
            taken->taken = 0;
            copy(&taken->held, &live.now);
        }
        snapshot_at(&live, at)->taken++;
    }
}

static void release(void) {
    uint64_t at = draw_sequence(&live);
    struct snapshot *snapshot = snapshot_at(&live, at);
    CHECK(ucstore_release(&store, at) == (snapshot != NULL ? UCSTORE_OK : UCSTORE_NOT_PROTECTED));
    if (snapshot != NULL && --snapshot->taken == 0) {
        copy_snapshot(snapshot, &live.snapshots[--live.snapshot_count]);
    }
}

static void check_snapshots(void) {
    uint64_t room[MOST_KEEPS + 1];
    size_t found = 99, fits = (size_t)draw(MOST_KEEPS + 1);
    room[fits] = 77;
    CHECK(ucstore_snapshots(&store, room, fits, &found) == UCSTORE_OK && found == live.snapshot_count && room[fits] == 77);
    for (size_t place = 0; place < found && place < fits; place++) {
        CHECK(snapshot_at(&live, room[place]) != NULL && (place == 0 || room[place - 1] < room[place]));
    }
}

/* Returns the store, or an open view. */
static struct moment *draw_moment(void) {
    struct moment *drawn = &views[draw(MOST_VIEWS)];
    return draw(2) == 0 || drawn->view.at == NULL ? &live : drawn;
}

static int32_t report_of(struct moment *of, struct ucstore_report *report) {
    return of == &live ? ucstore_report(&store, report) : ucstore_view_report(&of->view, report);
}

static void check_report(struct moment *of) {
    struct ucstore_report report;
    uint64_t last = 99;
    report.size = sizeof report - 1;
    CHECK(report_of(of, &report) == UCSTORE_BAD_SIZE);
    report.size = sizeof report;
    CHECK(report_of(of, &report) == UCSTORE_OK && report.size == sizeof report);
    CHECK(report.snapshots == of->snapshot_count && report.last == of->last);
    CHECK(report.gathered <= of->last && report.runs <= 256);
    CHECK((of == &live ? ucstore_last(&store, &last) : ucstore_view_last(&of->view, &last)) == UCSTORE_OK && last == of->last);
}

/* Checks the source of a key. A source that has nothing of the key must not be returned. */
static void check_source(struct moment *of) {
    uint8_t text[TEXT];
    int key = (int)draw(KEYS);
    size_t length = key_text(key, text);
    struct ucstore_report report;
    uint32_t source = 7;
    int32_t status = of == &live ? ucstore_source(&store, text, length, &source)
                                 : ucstore_view_source(&of->view, text, length, &source);
    report.size = sizeof report;
    CHECK(report_of(of, &report) == UCSTORE_OK);
    CHECK(status == UCSTORE_OK && source <= UCSTORE_RUNS);
    CHECK(source != UCSTORE_MEMTABLE || report.gathered > 0);
    CHECK(source != UCSTORE_RUNS || report.runs > 0);
    CHECK(source != UCSTORE_FILTERS || report.gathered > 0 || !of->now.at[key].held);
}

/* Jobs. */

/* Ends a job, and keeps it. Its run is installed if there is one, and if it was not flushed before. */
static void end_job(size_t one) {
    bool installed = !ran[one], before, taken;
    struct ucstore_job none = {0};
    uint64_t bytes = 1;
    CHECK(ucstore_job_input_bytes(&none, &bytes) == UCSTORE_NO_JOB && bytes == 1);
    CHECK(ucstore_job_input_bytes(&jobs[one], &bytes) == UCSTORE_OK && (bytes == 0 || bytes > 8));
    CHECK(ucstore_job_end(&store, &jobs[one], &installed) == UCSTORE_OK && jobs[one].at != NULL);
    CHECK(installed ? ran[one] : leaves_flushes || !ran[one]);
    before = taken = installed;
    CHECK(ucstore_job_end(&store, &jobs[one], &installed) == UCSTORE_JOB_ENDED && installed == before);
    CHECK(ucstore_job_run(&jobs[one]) == UCSTORE_JOB_ENDED);
    CHECK(ucstore_job(&store, &jobs[one], &taken) == UCSTORE_HAS_JOB && taken == before);
    finished[one] = true;
}

/* Frees a job. */
static void close_job(size_t one) {
    CHECK(ucstore_job_close(&jobs[one]) == UCSTORE_OK && jobs[one].at == NULL);
    CHECK(ucstore_job_close(&jobs[one]) == UCSTORE_NO_JOB);
}

/* Takes a job, runs one, ends one, or frees one that has ended. */
static void job(void) {
    size_t one = (size_t)draw(MOST_JOBS);
    bool before = draw(2) == 0, taken = before;
    if (jobs[one].at == NULL) {
        CHECK(ucstore_job(&store, &jobs[one], &taken) == UCSTORE_OK && taken == (jobs[one].at != NULL));
        ran[one] = finished[one] = false;
    } else if (finished[one]) {
        close_job(one);
    } else if (draw(2) == 0) {
        CHECK(ucstore_job(&store, &jobs[one], &taken) == UCSTORE_HAS_JOB && taken == before);
        CHECK(ucstore_job_run(&jobs[one]) == UCSTORE_OK);
        ran[one] = true;
    } else {
        end_job(one);
    }
}

/* Ends some jobs on the store, or frees those that are left without it. */
static void close_jobs(bool with_store) {
    for (size_t one = 0; one < MOST_JOBS; one++) {
        if (jobs[one].at == NULL) {
            continue;
        }
        if (with_store && !finished[one] && draw(2) == 0) {
            end_job(one);
        } else if (!with_store) {
            CHECK(draw(2) == 0 || ucstore_job_run(&jobs[one]) == (finished[one] ? UCSTORE_JOB_ENDED : UCSTORE_OK));
            close_job(one);
        }
    }
}

/* Reads. */

/* Returns true if a buffer has the first bytes of a value, and is unchanged after them. */
static bool has(const uint8_t *room, size_t room_length, size_t whole, const uint8_t *text, size_t length) {
    size_t fits = length < room_length ? length : room_length;
    for (size_t place = fits; place < whole; place++) {
        if (room[place] != 0xAA) {
            return false;
        }
    }
    return memcmp(room, text, fits) == 0;
}

static void check_value(int32_t status, const struct value *value, const uint8_t *room, size_t room_length, size_t size) {
    if (value->held) {
        CHECK(status == UCSTORE_OK && size == value->size && has(room, room_length, VALUE, value->bytes, value->size));
    } else {
        CHECK(status == UCSTORE_NOT_FOUND && size == 99 && has(room, 0, VALUE, room, 0));
    }
}

static void get(struct moment *of) {
    static uint8_t room[VALUE];
    uint8_t text[TEXT];
    int key = (int)draw(KEYS);
    size_t length = key_text(key, text), size = 99, room_length = draw(4) == 0 ? (size_t)draw(16) : (size_t)VALUE;
    uint64_t at = draw_sequence(of);
    struct snapshot *snapshot = snapshot_at(of, at);
    int32_t status;
    memset(room, 0xAA, VALUE);
    status = of == &live ? ucstore_get_at(&store, text, length, at, room, room_length, &size)
                         : ucstore_view_get_at(&of->view, text, length, at, room, room_length, &size);
    if (snapshot == NULL) {
        CHECK(status == UCSTORE_NOT_PROTECTED && size == 99 && has(room, 0, VALUE, room, 0));
    } else {
        check_value(status, &snapshot->held.at[key], room, room_length, size);
    }
    size = 99;
    memset(room, 0xAA, VALUE);
    status = of == &live ? ucstore_get(&store, text, length, room, room_length, &size)
                         : ucstore_view_get(&of->view, text, length, room, room_length, &size);
    check_value(status, &of->now.at[key], room, room_length, size);
}

/* Looks up a few keys at once, some of them repeated. */
static void get_many(struct moment *of) {
    enum { MANY = 9 };
    static uint8_t room[MANY * VALUE], wanted[MANY * VALUE];
    uint8_t keys[MANY * TEXT];
    int drawn[MANY];
    uint64_t key_lengths[MANY], lengths[MANY];
    size_t keys_length = 0, wanted_length = 0, size = 99, length = (size_t)draw(MANY + 1),
           room_length = draw(2) == 0 ? (size_t)draw(100) : sizeof room;
    int32_t status;
    for (size_t place = 0; place < length; place++) {
        drawn[place] = (int)draw(KEYS);
        key_lengths[place] = key_text(drawn[place], keys + keys_length);
        keys_length += (size_t)key_lengths[place];
    }
    memset(room, 0xAA, sizeof room);
    status = of == &live ? ucstore_get_many(&store, keys, keys_length, key_lengths, length, lengths, length, room, room_length, &size)
                         : ucstore_view_get_many(&of->view, keys, keys_length, key_lengths, length, lengths, length, room,
                                                 room_length, &size);
    CHECK(status == UCSTORE_OK);
    for (size_t place = 0; place < length; place++) {
        const struct value *value = &of->now.at[drawn[place]];
        CHECK(lengths[place] == (value->held ? value->size : UINT64_MAX));
        if (value->held) {
            memcpy(wanted + wanted_length, value->bytes, value->size);
            wanted_length += value->size;
        }
    }
    CHECK(size == wanted_length && has(room, room_length, sizeof room, wanted, wanted_length));
}

/* Writes the expected rows of a scan that fit a buffer, one after the other. */
struct rows {
    uint8_t bytes[KEYS * VALUE];
    size_t size, fits;
    uint64_t count;
};

static bool is_within(int key, const struct write *range, bool bounded) {
    uint8_t text[TEXT];
    size_t length = key_text(key, text);
    return bounded ? covers(range, key) : compare(range->key, range->key_length, text, length) <= 0;
}

static void push_rows(const struct dictionary *held, const struct write *range, bool bounded, uint64_t limit, size_t room,
                      struct rows *rows) {
    uint8_t text[TEXT];
    uint64_t found = 0;
    rows->size = rows->fits = 0;
    rows->count = 0;
    for (int place = 0; place < KEYS && found < limit; place++) {
        int key = in_order[place];
        const struct value *value = &held->at[key];
        if (value->held && is_within(key, range, bounded)) {
            push_text(rows->bytes, &rows->size, text, key_text(key, text));
            push_text(rows->bytes, &rows->size, value->bytes, value->size);
            found++;
            if (rows->size <= room) {
                rows->count = found;
                rows->fits = rows->size;
            }
        }
    }
}

static void scan(struct moment *of) {
    static struct rows wanted;
    static uint8_t room[KEYS * VALUE];
    struct write range;
    size_t size = 99, room_length = draw(2) == 0 ? (size_t)draw(400) : sizeof room;
    uint64_t at = draw_sequence(of), limit = draw(2) == 0 ? draw(6) : UINT64_MAX, shown = 99;
    bool bounded = draw(2) == 0;
    struct snapshot *snapshot = snapshot_at(of, at);
    int32_t status;
    range.key_length = draw_key(range.key);
    range.value_length = draw_key(range.value);
    status = of == &live ? ucstore_scan_at(&store, range.key, range.key_length, range.value, range.value_length, bounded, at,
                                           limit, room, room_length, &size, &shown)
                         : ucstore_view_scan_at(&of->view, range.key, range.key_length, range.value, range.value_length,
                                                bounded, at, limit, room, room_length, &size, &shown);
    if (snapshot == NULL) {
        CHECK(status == UCSTORE_NOT_PROTECTED && size == 99 && shown == 99);
    } else {
        push_rows(&snapshot->held, &range, bounded, limit, room_length, &wanted);
        CHECK(status == UCSTORE_OK && shown == wanted.count && size == wanted.size);
        CHECK(memcmp(room, wanted.bytes, wanted.fits) == 0);
    }
    push_rows(&of->now, &range, bounded, limit, room_length, &wanted);
    status = of == &live ? ucstore_scan(&store, range.key, range.key_length, range.value, range.value_length, bounded, limit,
                                        room, room_length, &size, &shown)
                         : ucstore_view_scan(&of->view, range.key, range.key_length, range.value, range.value_length, bounded,
                                             limit, room, room_length, &size, &shown);
    CHECK(status == UCSTORE_OK && shown == wanted.count && size == wanted.size && memcmp(room, wanted.bytes, wanted.fits) == 0);
}

/* Transactions. */

static bool is_unchanged(const struct moment *of, int key) {
    const struct value *before = &of->now.at[key], *now = &live.now.at[key];
    return before->held == now->held && (!now->held || (before->size == now->size && memcmp(before->bytes, now->bytes, now->size) == 0));
}

/* Adds a drawn read of a view to a read set, and returns true if it is unchanged in the store. */
static bool draw_read(const struct moment *of, struct ucstore_reads *reads) {
    uint8_t text[TEXT];
    struct write range;
    int key = (int)draw(KEYS);
    bool bounded = draw(4) > 0, unchanged = true;
    if (draw(2) == 0) {
        CHECK(ucstore_reads_key(reads, text, key_text(key, text)) == UCSTORE_OK);
        return is_unchanged(of, key);
    }
    range.key_length = draw_key(range.key);
    range.value_length = draw_key(range.value);
    CHECK(ucstore_reads_range(reads, range.key, range.key_length, range.value, range.value_length, bounded) == UCSTORE_OK);
    for (key = 0; key < KEYS; key++) {
        unchanged = unchanged && (!is_within(key, &range, bounded) || is_unchanged(of, key));
    }
    return unchanged;
}

/* Judges drawn reads of a view, and prepares a batch if they are unchanged. */
static void judge(struct moment *of) {
    const uint8_t batch[12] = {0};
    struct ucstore_reads reads = {0};
    uint8_t room[64];
    size_t size = 99, length = (size_t)draw(4), wanted = SIZE_MAX, changed = 99, counted = 99;
    int32_t status;
    if (of == &live || of->view.at == NULL) {
        return;
    }
    for (size_t place = 0; place < length; place++) {
        if (!draw_read(of, &reads) && wanted == SIZE_MAX) {
            wanted = place;
        }
    }
    CHECK(ucstore_reads_count(&reads, &counted) == UCSTORE_OK && counted == length);
    status = ucstore_first_changed(&store, &of->view, &reads, &changed);
    CHECK(wanted == SIZE_MAX ? status == UCSTORE_OK && changed == 99 : status == UCSTORE_READ_CHANGED && changed == wanted);
    changed = 99;
    status = ucstore_prepare_if(&store, &of->view, &reads, batch, sizeof batch, 0, room, sizeof room, &size, &changed);
    if (wanted == SIZE_MAX) {
        CHECK(status == UCSTORE_OK && changed == 99 && size == 19);
        CHECK(ucstore_give_up(&store) == UCSTORE_OK);
    } else {
        CHECK(status == UCSTORE_READ_CHANGED && changed == wanted && size == 99);
    }
    CHECK(ucstore_reads_clear(&reads) == UCSTORE_OK && ucstore_reads_count(&reads, &counted) == UCSTORE_OK && counted == 0);
    CHECK(ucstore_reads_close(&reads) == UCSTORE_OK && reads.at == NULL);
}

/* Logs. */

/* Format of a write in the output of ucstore_log_next. */
static void push_write(uint8_t *bytes, size_t *size, uint64_t sequence, const struct write *w) {
    push_number(bytes, size, sequence);
    bytes[(*size)++] = (uint8_t)w->kind;
    push_text(bytes, size, w->key, w->key_length);
    push_text(bytes, size, w->value, w->kind == DELETE ? 0 : w->value_length);
}

/* Walks a part of the log, and returns where it ends. `place` gets the last position. */
static struct ucstore_ended walk(size_t length, struct ucstore_log_place *place) {
    static uint8_t room[8 * (33 + 2 * TEXT)], wanted[sizeof room];
    struct ucstore_ended ended = {7, 7, 7};
    int32_t status = UCSTORE_OK;
    memset(place, 0, sizeof *place);
    while (status == UCSTORE_OK) {
        size_t size = 99, wanted_size = 0, room_length = draw(3) == 0 ? (size_t)draw(100) : sizeof room;
        struct ucstore_log_place before = *place;
        uint64_t found = 99;
        status = ucstore_log_next(history, length, place, room, room_length, &size, &found, &ended);
        if (status == UCSTORE_ROOM) {
            CHECK(size > room_length && memcmp(&before, place, sizeof before) == 0 && found == 99);
            status = ucstore_log_next(history, length, place, room, sizeof room, &size, &found, &ended);
        }
        if (status == UCSTORE_OK) {
            for (uint64_t sequence = before.last + 1; sequence <= place->last; sequence++) {
                push_write(wanted, &wanted_size, sequence, &writes[sequence - 1]);
            }
            CHECK(found == place->last - before.last && size == wanted_size && memcmp(room, wanted, size) == 0);
            CHECK(place->offset > before.offset && place->offset <= length);
        }
    }
    CHECK(status == UCSTORE_LOG_ENDS);
    return ended;
}

/* Returns true if a store has the first writes, and no others. */
static void check_store(struct ucstore *opened, uint64_t last) {
    static struct rows wanted;
    static struct dictionary held;
    static uint8_t room[KEYS * VALUE];
    struct write all;
    size_t size = 0;
    uint64_t at = 0, found = 0;
    memset(&held, 0, sizeof held);
    memset(&all, 0, sizeof all);
    for (uint64_t sequence = 1; sequence <= last; sequence++) {
        apply(&held, &writes[sequence - 1]);
    }
    push_rows(&held, &all, false, UINT64_MAX, sizeof room, &wanted);
    CHECK(ucstore_last(opened, &at) == UCSTORE_OK && at == last);
    CHECK(ucstore_scan(opened, all.key, 0, all.key, 0, false, UINT64_MAX, room, sizeof room, &size, &found) == UCSTORE_OK);
    CHECK(size == wanted.size && found == wanted.count && memcmp(room, wanted.bytes, size) == 0);
}

/* Replays the first bytes of the log to a store. They end as a walk says. */
static void replay(size_t length, const struct ucstore_log_place *end, const struct ucstore_ended *walked) {
    struct ucstore again = {0};
    struct ucstore_options options;
    struct ucstore_log_place place = {0, 0, 0}, before;
    struct ucstore_ended ended = {7, 7, 7};
    int32_t status = UCSTORE_OK;
    CHECK(ucstore_options_init(&options) == UCSTORE_OK);
    /* More memtables than the maximum number of runs. */
    options.write_buffer_size = 500;
    CHECK(ucstore_create(&again, merge_operator, &options) == UCSTORE_OK);
    while (status == UCSTORE_OK) {
        before = place;
        status = ucstore_replay(&again, history, length, &place, draw(2) == 0, &ended);
        CHECK(status == UCSTORE_OK ? place.offset > before.offset : memcmp(&before, &place, sizeof place) == 0);
    }
    CHECK(status == UCSTORE_LOG_ENDS && memcmp(&place, end, sizeof place) == 0);
    CHECK(ended.kind == walked->kind && ended.fault == walked->fault && ended.place == walked->place);
    check_store(&again, place.last);
    CHECK(ucstore_close(&again) == UCSTORE_OK);
}

/* A batch of the log that does not follow the last sequence number is written if gaps are allowed. */
static void skip(void) {
    const uint8_t later[] = {9, 0, 0, 0, 0, 0, 0, 0, 1, 0, 0, 0, 1, 1, 'a', 1, 'b'};
    struct ucstore made = {0}, again = {0};
    struct ucstore_options options;
    struct ucstore_log_place place = {0, 0, 0};
    struct ucstore_ended ended = {7, 7, 7};
    uint8_t log[64];
    uint64_t last = 99;
    size_t size = 0;
    CHECK(ucstore_options_init(&options) == UCSTORE_OK);
    CHECK(ucstore_create(&made, UCSTORE_APPEND, &options) == UCSTORE_OK);
    CHECK(ucstore_prepare_bytes(&made, later, sizeof later, 0, log, sizeof log, &size) == UCSTORE_OK);
    CHECK(ucstore_create(&again, UCSTORE_APPEND, &options) == UCSTORE_OK);
    CHECK(ucstore_replay(&again, log, size, &place, false, &ended) == UCSTORE_SEQUENCE_GAP);
    CHECK(place.offset == 0 && ended.kind == 7 && ucstore_last(&again, &last) == UCSTORE_OK && last == 0);
    CHECK(ucstore_replay(&again, log, size, &place, true, &ended) == UCSTORE_OK);
    CHECK(place.offset == size && place.last == 9 && ucstore_last(&again, &last) == UCSTORE_OK && last == 9);
    CHECK(ucstore_put(&again, log, 1, log, 1) == UCSTORE_OK);
    CHECK(ucstore_replay(&again, log, size, &place, true, &ended) == UCSTORE_BAD_PLACE && place.last == 9);
    CHECK(ucstore_close(&again) == UCSTORE_OK && ucstore_close(&made) == UCSTORE_OK);
}

/* Lays out a batch of one deletion with a mark, for a log of some length. Returns the length of its record. */
static size_t marked_record(struct ucstore *of, uint64_t unsynced, uint64_t length, uint8_t *room, size_t room_length) {
    const uint8_t header[] = {0, 0, 0, 0, 0, 0, 0, 0, 1, 0, 0, 0}, body[] = {0, 1, 'a'};
    uint8_t batch[64], plain[sizeof header + sizeof body], expected[128];
    struct ucstore_report report, unknown;
    uint64_t before = 99;
    size_t size = 99, expected_size = 99;
    report.size = sizeof report;
    unknown.size = sizeof report - 1;
    unknown.last = 99;
    memcpy(batch, header, sizeof header);
    CHECK(ucstore_log_mark_bytes(unsynced, batch + sizeof header, 12, &size) == UCSTORE_OK);
    memcpy(batch + sizeof header + size, body, sizeof body);
    CHECK(ucstore_prepare_bytes(of, batch, sizeof header + size + sizeof body, length, expected, sizeof expected, &expected_size) ==
          UCSTORE_OK);
    memcpy(plain, header, sizeof header);
    memcpy(plain + sizeof header, body, sizeof body);
    CHECK(ucstore_prepare_marked(of, plain, sizeof plain, unsynced, length, room, expected_size - 1, &size) == UCSTORE_ROOM);
    CHECK(size == expected_size);
    CHECK(ucstore_prepare_marked(of, plain, sizeof plain, unsynced, length, room, room_length, &size) == UCSTORE_OK);
    CHECK(size == expected_size && memcmp(room, expected, size) == 0);
    CHECK(ucstore_prepare_marked(of, plain, sizeof plain, UINT64_MAX / 2 + 1, length, room, room_length, &size) == UCSTORE_BAD_PLACE);
    CHECK(size == expected_size && memcmp(room, expected, size) == 0);
    CHECK(ucstore_last(of, &before) == UCSTORE_OK);
    CHECK(ucstore_commit_report(of, &unknown) == UCSTORE_BAD_SIZE && unknown.last == 99);
    CHECK(ucstore_commit_report(of, &report) == UCSTORE_OK && report.last == before + 1 && report.gathered == report.last);
    return size;
}

/* Marks of batches, as bytes and read again. */
static void marks(void) {
    const uint8_t header[] = {0, 0, 0, 0, 0, 0, 0, 0, 0, 0, 0, 0}, of_300[] = {3, 3, 's', 0xac, 0x02};
    const uint64_t greatest = UINT64_MAX / 2;
    uint8_t batch[24], room[6] = {7, 7, 7, 7, 7, 7};
    uint64_t unsynced = 77;
    size_t size = 99;
    bool marked = true;
    CHECK(ucstore_log_mark_bytes(300, room, 4, &size) == UCSTORE_ROOM && size == 5 && room[0] == 7);
    CHECK(ucstore_log_mark_bytes(300, room, 6, &size) == UCSTORE_OK && size == 5);
    CHECK(memcmp(room, of_300, 5) == 0 && room[5] == 7);
    CHECK(ucstore_log_mark_bytes(greatest + 1, room, 6, &size) == UCSTORE_BAD_PLACE && size == 5 && room[0] == 3);
    memcpy(batch, header, sizeof header);
    CHECK(ucstore_log_mark_bytes(greatest, batch + 12, 12, &size) == UCSTORE_OK && size == 12);
    CHECK(ucstore_log_mark(batch, 23, &marked, &unsynced) == UCSTORE_OK && !marked && unsynced == 77);
    CHECK(ucstore_log_mark(NULL, 0, &marked, &unsynced) == UCSTORE_OK && !marked && unsynced == 77);
    CHECK(ucstore_log_mark(batch, 24, &marked, &unsynced) == UCSTORE_OK && marked && unsynced == greatest);
    memcpy(batch + 12, of_300, 5);
    CHECK(ucstore_log_mark(batch, 17, &marked, &unsynced) == UCSTORE_OK && marked && unsynced == 300);
}

/* The first batch of a log is damaged. The second one says that it was durable, or nothing of it. */
static void told_damage(void) {
    for (uint64_t unsynced = 0; unsynced < 40; unsynced++) {
        struct ucstore made = {0};
        struct ucstore_options options;
        uint8_t log[128];
        uint64_t place = 77;
        size_t second, length;
        bool told = true;
        CHECK(ucstore_options_init(&options) == UCSTORE_OK);
        CHECK(ucstore_create(&made, UCSTORE_APPEND, &options) == UCSTORE_OK);
        second = marked_record(&made, 0, 0, log, sizeof log);
        length = second + marked_record(&made, unsynced, second, log + second, sizeof log - second);
        CHECK(second == 26);
        log[20] ^= 1;
        CHECK(ucstore_log_first_told(log, second, 0, 0, &told, &place) == UCSTORE_OK && !told && place == 77);
        CHECK(ucstore_log_first_told(log, length, 0, 2, &told, &place) == UCSTORE_OK && !told && place == 77);
        CHECK(ucstore_log_first_told(log, length, length + 1, 0, &told, &place) == UCSTORE_BAD_PLACE && place == 77);
        CHECK(ucstore_log_first_told(log, length, 0, 0, &told, &place) == UCSTORE_OK && told == (unsynced < second));
        CHECK(place == (told ? second : 77));
        CHECK(ucstore_close(&made) == UCSTORE_OK);
    }
}

/* The files that an opening reads of a folder, and a log that is missing. */
static void folder_files(void) {
    const struct ucstore_folder_base bases[] = {{4, 7}, {4, 9}, {2, 99}};
    const struct ucstore_folder_listed logs[] = {{4, true}, {6, false}, {5, true}, {3, true}};
    struct ucstore_folder_found found = {7, 7, 7, 7, 7, false};
    uint64_t missing = 99;
    CHECK(ucstore_folder_find(bases, 3, logs, 4, &found, &missing) == UCSTORE_OK && missing == 99);
    CHECK(found.base == 4 && found.past == 9 && found.least == 2);
    CHECK(found.log == 5 && found.top == 6 && found.is_there);
    CHECK(ucstore_folder_find(bases, 1, logs + 1, 3, &found, &missing) == UCSTORE_LOG_MISSING);
    CHECK(missing == 4 && found.least == 2);
    CHECK(ucstore_folder_find(NULL, 0, NULL, 0, &found, &missing) == UCSTORE_OK);
    CHECK(found.base == 1 && found.past == 0 && found.log == 1 && !found.is_there);
}

/* The next operation is this one, and is done. */
static void expect_step(struct ucstore_folder_state *folder,
                        int32_t (*next)(const struct ucstore_folder_state *, struct ucstore_folder_step *),
                        int32_t (*told)(struct ucstore_folder_state *, bool), uint32_t kind, uint64_t number, uint64_t count) {
    struct ucstore_folder_step step = {99, 99, 99};
    CHECK(next(folder, &step) == UCSTORE_OK);
    CHECK(step.kind == kind && step.number == number && step.count == count);
    CHECK(told(folder, true) == UCSTORE_OK);
}

/* The machine of a folder: a log, the next one, and a base. */
static void folder_machine(void) {
    const struct ucstore_folder_found found = {1, 0, 1, 1, 1, false};
    struct ucstore_folder_state folder, old;
    struct ucstore_folder_step step = {99, 99, 99};
    CHECK(ucstore_folder_open(&found, 0, false, &folder) == UCSTORE_OK);
    expect_step(&folder, ucstore_folder_next_write, ucstore_folder_told_write, UCSTORE_FOLDER_CREATE_LOG, 1, 0);
    expect_step(&folder, ucstore_folder_next_write, ucstore_folder_told_write, UCSTORE_FOLDER_SYNC_NAMES, 0, 0);
    CHECK(ucstore_folder_append(&folder, &step) == UCSTORE_OK && ucstore_folder_ask_next(&folder) == UCSTORE_OK);
    CHECK(step.kind == UCSTORE_FOLDER_APPEND && step.number == 1 && step.count == 0);
    expect_step(&folder, ucstore_folder_next_make, ucstore_folder_told_make, UCSTORE_FOLDER_CREATE_LOG, 2, 0);
    expect_step(&folder, ucstore_folder_next_write, ucstore_folder_told_write, UCSTORE_FOLDER_APPEND, 1, 0);
    expect_step(&folder, ucstore_folder_next_make, ucstore_folder_told_make, UCSTORE_FOLDER_SYNC_NAMES, 0, 0);
    CHECK(ucstore_folder_ask_sync(&folder) == UCSTORE_OK && folder.synced == 0);
    expect_step(&folder, ucstore_folder_next_sync, ucstore_folder_told_sync, UCSTORE_FOLDER_SYNC_LOG, 1, 1);
    CHECK(folder.count == 1 && folder.synced == 1 && ucstore_folder_ask_switch(&folder) == UCSTORE_OK);
    expect_step(&folder, ucstore_folder_next_write, ucstore_folder_told_write, UCSTORE_FOLDER_SYNC_LOG, 1, 1);
    CHECK(folder.log == 2 && folder.count == 0 && ucstore_folder_ask_checkpoint(&folder, 2, 0) == UCSTORE_OK);
    expect_step(&folder, ucstore_folder_next_checkpoint, ucstore_folder_told_checkpoint, UCSTORE_FOLDER_WRITE_BASE, 2, 0);
    CHECK(ucstore_folder_told_checkpoint(&folder, false) == UCSTORE_OK);
    CHECK(ucstore_folder_next_checkpoint(&folder, &step) == UCSTORE_OK && step.kind == UCSTORE_FOLDER_NOTHING);
    folder.writer = 99;
    old = folder;
    step.kind = 77;
    CHECK(ucstore_folder_next_write(&folder, &step) == UCSTORE_NO_FOLDER && step.kind == 77);
    CHECK(ucstore_folder_append(&folder, &step) == UCSTORE_NO_FOLDER && step.kind == 77);
    CHECK(ucstore_folder_told_write(&folder, true) == UCSTORE_NO_FOLDER);
    CHECK(memcmp(&folder, &old, sizeof old) == 0);
}

/* The run files that an opening finds, and a run that is missing. */
static void run_folder_files(void) {
    const uint64_t named[] = {3, 7}, listed[] = {9, 7, 3}, last[] = {UINT64_MAX};
    uint64_t next = 77, missing = 77;
    CHECK(ucstore_run_folder_find(named, 2, listed, 3, &next, &missing) == UCSTORE_OK && next == 10 && missing == 0);
    CHECK(ucstore_run_folder_find(named, 2, listed, 2, &next, &missing) == UCSTORE_OK && next == 0 && missing == 3);
    CHECK(ucstore_run_folder_find(NULL, 0, NULL, 0, &next, &missing) == UCSTORE_OK && next == 1 && missing == 0);
    CHECK(ucstore_run_folder_find(NULL, 0, last, 1, &next, &missing) == UCSTORE_OK && next == 0 && missing == 0);
}

/* The checkpointer's next operation is this one, and is done. */
static void expect_run_step(struct ucstore_folder_state *folder, struct ucstore_run_folder_state *runs, uint32_t kind, uint64_t number) {
    struct ucstore_folder_step step = {99, 99, 99};
    CHECK(ucstore_run_folder_next_checkpoint(folder, runs, &step) == UCSTORE_OK);
    CHECK(step.kind == kind && step.number == number && step.count == 0);
    CHECK(ucstore_run_folder_told_checkpoint(folder, runs, true) == UCSTORE_OK);
}

/* The machine of a folder whose checkpoint is a list: two runs, one of which the next list keeps. */
static void run_folder_machine(void) {
    const struct ucstore_folder_found found = {1, 0, 1, 2, 2, true};
    const uint64_t named[] = {5, 6};
    struct ucstore_folder_state folder;
    struct ucstore_run_folder_state runs, old;
    struct ucstore_folder_step step = {99, 99, 99};
    CHECK(ucstore_folder_open(&found, 0, true, &folder) == UCSTORE_OK && ucstore_run_folder_open(&folder, 5, &runs) == UCSTORE_OK);
    expect_step(&folder, ucstore_folder_next_write, ucstore_folder_told_write, UCSTORE_FOLDER_SYNC_NAMES, 0, 0);
    expect_step(&folder, ucstore_folder_next_write, ucstore_folder_told_write, UCSTORE_FOLDER_SYNC_NAMES, 0, 0);
    CHECK(ucstore_run_folder_ask_checkpoint(&folder, &runs, 2, 0, named, 1, NULL, 0, 2) == UCSTORE_OK && runs.next == 5);
    CHECK(ucstore_run_folder_ask_checkpoint(&folder, &runs, 2, 0, NULL, 0, NULL, 0, 2) == UCSTORE_OK && runs.next == 7);
    for (uint64_t run = 5; run < 7; run++) {
        expect_run_step(&folder, &runs, UCSTORE_RUN_FOLDER_WRITE_RUN, run);
        expect_run_step(&folder, &runs, UCSTORE_RUN_FOLDER_SYNC_RUN, run);
    }
    expect_run_step(&folder, &runs, UCSTORE_FOLDER_SYNC_NAMES, 0);
    expect_run_step(&folder, &runs, UCSTORE_FOLDER_WRITE_BASE, 2);
    expect_run_step(&folder, &runs, UCSTORE_FOLDER_SYNC_BASE, 0);
    expect_run_step(&folder, &runs, UCSTORE_FOLDER_NAME_BASE, 2);
    expect_run_step(&folder, &runs, UCSTORE_FOLDER_SYNC_NAMES, 0);
    CHECK(!runs.is_read && folder.base == 2);
    CHECK(ucstore_run_folder_next_removal(&folder, &runs, 4, named, 2, &step) == UCSTORE_OK && step.kind == UCSTORE_FOLDER_NOTHING);
    expect_run_step(&folder, &runs, UCSTORE_RUN_FOLDER_READ_BACK, 0);
    expect_run_step(&folder, &runs, UCSTORE_FOLDER_REMOVE_LOG, 1);
    expect_run_step(&folder, &runs, UCSTORE_FOLDER_REMOVE_BASE, 1);
    CHECK(ucstore_run_folder_next_removal(&folder, &runs, 5, named, 2, &step) == UCSTORE_OK && step.kind == UCSTORE_FOLDER_NOTHING);
    CHECK(ucstore_run_folder_next_removal(&folder, &runs, 4, named, 2, &step) == UCSTORE_OK);
    CHECK(step.kind == UCSTORE_RUN_FOLDER_REMOVE_RUN && step.number == 4);
    runs.phase = 99;
    old = runs;
    step.kind = 77;
    CHECK(ucstore_run_folder_next_checkpoint(&folder, &runs, &step) == UCSTORE_NO_FOLDER && step.kind == 77);
    CHECK(ucstore_run_folder_told_checkpoint(&folder, &runs, true) == UCSTORE_NO_FOLDER);
    CHECK(memcmp(&runs, &old, sizeof old) == 0);
}

/* The machine of a folder of whose last log five batches are kept. */
static void folder_gives_up(void) {
    const struct ucstore_folder_found found = {1, 0, 1, 2, 3, true};
    struct ucstore_folder_state folder;
    CHECK(ucstore_folder_open(&found, 5, false, &folder) == UCSTORE_OK);
    expect_step(&folder, ucstore_folder_next_write, ucstore_folder_told_write, UCSTORE_FOLDER_SYNC_NAMES, 0, 0);
    expect_step(&folder, ucstore_folder_next_write, ucstore_folder_told_write, UCSTORE_FOLDER_REMOVE_LOG, 3, 0);
    expect_step(&folder, ucstore_folder_next_write, ucstore_folder_told_write, UCSTORE_FOLDER_SET_ASIDE, 2, 0);
    expect_step(&folder, ucstore_folder_next_write, ucstore_folder_told_write, UCSTORE_FOLDER_COPY_LOG, 2, 5);
    expect_step(&folder, ucstore_folder_next_write, ucstore_folder_told_write, UCSTORE_FOLDER_SYNC_COPY, 0, 0);
    expect_step(&folder, ucstore_folder_next_write, ucstore_folder_told_write, UCSTORE_FOLDER_NAME_COPY, 2, 0);
    CHECK(folder.synced == 0);
    expect_step(&folder, ucstore_folder_next_write, ucstore_folder_told_write, UCSTORE_FOLDER_SYNC_NAMES, 0, 0);
    expect_step(&folder, ucstore_folder_next_write, ucstore_folder_told_write, UCSTORE_FOLDER_NOTHING, 0, 0);
    CHECK(folder.count == 5 && folder.synced == 5);
}

/* Opens the first bytes of the log, which end as a walk says. */
static struct ucstore_ended reopen(size_t length) {
    struct ucstore opened = {0};
    struct ucstore_options options;
    struct ucstore_log_place place;
    struct ucstore_ended walked = walk(length, &place), ended = {7, 7, 7};
    CHECK(ucstore_options_init(&options) == UCSTORE_OK);
    options.write_buffer_size = draw(2) == 0 ? 500 : options.write_buffer_size;
    CHECK(ucstore_open(&opened, merge_operator, &options, history, length, &ended) == UCSTORE_OK);
    CHECK(ended.kind == walked.kind && ended.fault == walked.fault && ended.place == walked.place);
    check_store(&opened, place.last);
    CHECK(ucstore_close(&opened) == UCSTORE_OK);
    replay(length, &place, &ended);
    return ended;
}

/* Checkpoints. */

/* Writes a view as a log, piece by piece, with some buffers that are too small. Returns the length of the log. */
static size_t lay_out(struct ucstore_view *view, uint8_t *log, size_t log_room) {
    struct ucstore_checkpoint checkpoint = {0};
    uint64_t most = draw(40);
    size_t length = 0, size = 99;
    bool done = false;
    CHECK(ucstore_checkpoint(view, &checkpoint) == UCSTORE_OK && checkpoint.at != NULL);
    CHECK(ucstore_checkpoint(view, &checkpoint) == UCSTORE_HAS_CHECKPOINT);
    while (!done) {
        size_t room = draw(3) == 0 ? (size_t)draw(100) : log_room - length;
        int32_t status = ucstore_checkpoint_next(&checkpoint, length, most, log + length, room, &size, &done);
        if (status == UCSTORE_ROOM) {
            CHECK(size > room && !done);
        } else {
            CHECK(status == UCSTORE_OK && size <= room && done == (size == 0));
            length += size;
        }
    }
    CHECK(ucstore_checkpoint_next(&checkpoint, length, most, log, 0, &size, &done) == UCSTORE_OK && done && size == 0);
    CHECK(ucstore_checkpoint_close(&checkpoint) == UCSTORE_OK && checkpoint.at == NULL);
    CHECK(ucstore_checkpoint_close(&checkpoint) == UCSTORE_NO_CHECKPOINT);
    return length;
}

/* Returns true if a store that is opened from a checkpoint has its rows, numbered from 1, and no others. */
static void check_checkpoint(struct moment *of) {
    static struct rows wanted;
    static uint8_t log[2 * KEYS * VALUE], room[KEYS * VALUE];
    struct ucstore opened = {0};
    struct ucstore_view shown = {0};
    struct ucstore_options options;
    struct ucstore_ended ended = {7, 7, 7};
    struct write all;
    size_t length, size = 99;
    uint64_t last = 99, found = 99;
    memset(&all, 0, sizeof all);
    CHECK((of == &live ? ucstore_view(&store, &shown) : ucstore_view_again(&of->view, &shown)) == UCSTORE_OK);
    length = lay_out(&shown, log, sizeof log);
    CHECK(ucstore_view_close(&shown) == UCSTORE_OK);
    CHECK(ucstore_options_init(&options) == UCSTORE_OK);
    CHECK(ucstore_open(&opened, merge_operator, &options, log, length, &ended) == UCSTORE_OK && ended.kind == UCSTORE_CLEAN);
    push_rows(&of->now, &all, false, UINT64_MAX, sizeof room, &wanted);
    CHECK(ucstore_last(&opened, &last) == UCSTORE_OK && last == wanted.count && last <= of->last);
    CHECK(ucstore_scan(&opened, all.key, 0, all.key, 0, false, UINT64_MAX, room, sizeof room, &size, &found) == UCSTORE_OK);
    CHECK(size == wanted.size && found == wanted.count && memcmp(room, wanted.bytes, size) == 0);
    CHECK(ucstore_close(&opened) == UCSTORE_OK);
}

/* Runs as files. */

enum { RUN_FILE = 2 * KEYS * VALUE };

/* Reads the file of the run at a place of a view, at most `piece` bytes at a time. Returns its size. */
static size_t read_file(struct ucstore_view *view, size_t place, size_t piece, uint8_t *file, size_t file_room) {
    struct ucstore_run run;
    uint64_t size = 99;
    size_t length = 0, count = 1;
    run.at = NULL;
    CHECK(ucstore_run(view, place, &run) == UCSTORE_OK && run.at != NULL);
    CHECK(ucstore_run_size(&run, &size) == UCSTORE_OK && size <= file_room);
    while (count > 0) {
        size_t left = file_room - length;
        CHECK(ucstore_run_read(&run, length, file + length, left < piece ? left : piece, &count) == UCSTORE_OK);
        length += count;
    }
    CHECK(length == size && ucstore_run_close(&run) == UCSTORE_OK && run.at == NULL);
    return length;
}

/* Reads a file piece by piece. Its run has a range of sequence numbers. */
static void read_pieces(struct ucstore_run_file *file, const uint8_t *bytes, size_t length, uint64_t low, uint64_t high) {
    uint64_t least = 0, greatest = 0;
    size_t offset = 99;
    file->at = NULL;
    CHECK(ucstore_run_file_open(file, (size_t)draw(2) * length) == UCSTORE_OK);
    for (size_t begin = 0, end; begin < length; begin = end) {
        size_t most = (size_t)(1 + draw(70000));
        end = length - begin < most ? length : begin + most;
        CHECK(ucstore_run_file_append(file, bytes + begin, end - begin) == UCSTORE_OK);
    }
    CHECK(ucstore_run_file_read(file, &least, &greatest, &offset) == UCSTORE_OK && least == low && greatest == high && offset == 99);
}

/* Opens a store from the files of the runs of a view, the oldest first. */
static void open_runs(struct ucstore_view *view, uint64_t runs, struct ucstore *opened) {
    static uint8_t file[RUN_FILE];
    struct ucstore_options options;
    uint64_t before = 0;
    CHECK(ucstore_options_init(&options) == UCSTORE_OK);
    CHECK(ucstore_create(opened, merge_operator, &options) == UCSTORE_OK);
    for (uint64_t place = runs; place-- > 0;) {
        uint64_t id = 0, low = 0, high = 0, given = 0, last = 0;
        size_t length = read_file(view, (size_t)place, (size_t)(1 + draw(70000)), file, sizeof file), offset = 99;
        CHECK(ucstore_view_run(view, (size_t)place, &id, &low, &high) == UCSTORE_OK && before < low && low <= high);
        if (draw(2) == 0) {
            struct ucstore_run_file pieces;
            read_pieces(&pieces, file, length, low, high);
            CHECK(ucstore_add_run_file(opened, &pieces, &given) == UCSTORE_OK && pieces.at == NULL);
        } else {
            CHECK(ucstore_add_run(opened, file, length, &given, &offset) == UCSTORE_OK);
        }
        CHECK(given == runs - place && offset == 99);
        CHECK(ucstore_last(opened, &last) == UCSTORE_OK && last == high);
        before = high;
    }
}

/* A store that is opened from the runs of a view reads as the view, which has no writes in memtables. */
static void check_run_files(void) {
    struct ucstore opened;
    struct ucstore_view shown;
    struct ucstore_report report;
    opened.at = NULL;
    shown.at = NULL;
    report.size = sizeof report;
    CHECK(ucstore_flush(&store) == UCSTORE_OK && ucstore_view(&store, &shown) == UCSTORE_OK);
    CHECK(ucstore_view_report(&shown, &report) == UCSTORE_OK && report.gathered == 0);
    open_runs(&shown, report.runs, &opened);
    check_store(&opened, report.last);
    CHECK(ucstore_close(&opened) == UCSTORE_OK && ucstore_view_close(&shown) == UCSTORE_OK);
}

/* Opens the log whole, torn, followed by zeros as a crash may leave them, and with a bit of its last byte changed. */
static void check_log(void) {
    uint8_t bit = (uint8_t)(1 << draw(8));
    CHECK(reopen(history_length).kind == UCSTORE_CLEAN);
    CHECK(history_length + 100 <= MOST_LOG);
    memset(history + history_length, 0, 100);
    CHECK(reopen(history_length + 100).kind == UCSTORE_CLEAN);
    for (int turn = 0; turn < 4; turn++) {
        reopen((size_t)draw(history_length));
    }
    history[history_length - 1] ^= bit;
    CHECK(reopen(history_length).kind == UCSTORE_LOG_FAULT);
    history[history_length - 1] ^= bit;
}

static void step(void) {
    uint64_t choice = draw(110);
    if (choice < 40) {
        write_one();
    } else if (choice < 48) {
        write_batch();
    } else if (choice < 55) {
        take();
    } else if (choice < 62) {
        release();
        check_snapshots();
        check_report(draw_moment());
        check_source(draw_moment());
    } else if (choice < 63) {
        compact();
    } else if (choice < 64) {
        CHECK(ucstore_flush(&store) == UCSTORE_OK);
    } else if (choice < 92) {
        get(draw_moment());
    } else if (choice < 96) {
        get_many(draw_moment());
    } else if (choice < 99) {
        scan(draw_moment());
    } else if (choice < 101) {
        judge(draw_moment());
    } else if (choice < 104) {
        view();
        check_checkpoint(draw_moment());
        check_run_files();
    } else {
        job();
    }
}

/* Closes the views. They still show their contents. */
static void close_views(void) {
    for (size_t place = 0; place < MOST_VIEWS; place++) {
        struct moment *of = &views[place];
        if (of->view.at != NULL) {
            check_report(of);
            get(of);
            scan(of);
            CHECK(ucstore_view_close(&of->view) == UCSTORE_OK);
        }
        CHECK(ucstore_view_close(&of->view) == UCSTORE_NO_VIEW);
    }
}

static void soak(uint32_t drawn_operator, size_t operations) {
    struct ucstore_options options;
    uint64_t last = 0;
    merge_operator = drawn_operator;
    count = history_length = 0;
    memset(&live, 0, sizeof live);
    CHECK(ucstore_options_init(&options) == UCSTORE_OK);
    options.write_buffer_size = 64;
    options.compacts_itself = (uint32_t)draw(2);
    options.max_write_buffer_number = 1 + (uint32_t)draw(4);
    leaves_flushes = options.max_write_buffer_number > 1;
    CHECK(ucstore_create(&store, merge_operator, &options) == UCSTORE_OK && store.at != NULL);
    for (size_t done = 0; done < operations; done++) {
        step();
        CHECK(ucstore_last(&store, &last) == UCSTORE_OK && last == count);
    }
    check_log();
    close_jobs(true);
    CHECK(ucstore_batch_close(&gathered) == UCSTORE_OK && gathered.at == NULL);
    CHECK(ucstore_close(&store) == UCSTORE_OK && store.at == NULL);
    close_jobs(false);
    close_views();
    printf("operator %u: %zu operations, %zu writes\n", (unsigned)merge_operator, operations, count);
}

/* Writes a batch durably, as the header says, with a buffer that grows. */
static void write_durably(const uint8_t *batch, size_t size) {
    size_t record = 0, room = 0;
    while (ucstore_prepare_bytes(&store, batch, size, history_length, history + history_length, room, &record) == UCSTORE_ROOM) {
        CHECK(room < record && record <= MOST_LOG - history_length);
        room = record;
    }
    history_length += record;
    CHECK(ucstore_commit(&store) == UCSTORE_OK);
}

/* More runs than there are slots, with the greatest triggers and no earlier compaction. The log has all batches, and opens with memtables
 * of one byte. */
static void durable(void) {
    static const uint8_t one[] = {0, 0, 0, 0, 0, 0, 0, 0, 1, 0, 0, 0, 2, 1, 'k', 8, 1, 0, 0, 0, 0, 0, 0, 0};
    struct ucstore_options options;
    struct ucstore_ended ended = {7, 7, 7};
    uint8_t sum[8];
    size_t size = 0;
    uint64_t last = 0;
    history_length = 0;
    CHECK(ucstore_options_init(&options) == UCSTORE_OK);
    options.write_buffer_size = 1;
    options.compaction_trigger = 255;
    options.stop_trigger = 255;
    options.max_size_amplification_percent = UINT32_MAX;
    options.min_merge_width = 300;
    options.compacts_itself = 0;
    CHECK(ucstore_create(&store, UCSTORE_COUNTER, &options) == UCSTORE_OK);
    for (int done = 0; done < 1000; done++) {
        write_durably(one, sizeof one);
    }
    CHECK(ucstore_close(&store) == UCSTORE_OK);
    CHECK(ucstore_open(&store, UCSTORE_COUNTER, &options, history, history_length, &ended) == UCSTORE_OK);
    CHECK(ended.kind == UCSTORE_CLEAN && ucstore_last(&store, &last) == UCSTORE_OK && last == 1000);
    CHECK(ucstore_get(&store, (const uint8_t *)"k", 1, sum, sizeof sum, &size) == UCSTORE_OK);
    CHECK(size == 8 && number(sum) == 1000);
    CHECK(ucstore_close(&store) == UCSTORE_OK);
}

/* Lengths of 0 with null pointers. */
static void nothing_is_read(void) {
    struct ucstore_batch batch = {0};
    struct ucstore_view shown = {0};
    struct ucstore_options options;
    struct ucstore_ended ended = {7, 7, 7};
    struct ucstore_log_place place = {0, 0, 0};
    size_t size = 99;
    uint64_t rows = 99;
    CHECK(ucstore_options_init(&options) == UCSTORE_OK);
    CHECK(ucstore_open(&store, UCSTORE_APPEND, &options, NULL, 0, &ended) == UCSTORE_OK && ended.kind == UCSTORE_CLEAN);
    CHECK(ucstore_write_bytes(&store, NULL, 0) == UCSTORE_NOT_A_BATCH);
    CHECK(ucstore_prepare_bytes(&store, NULL, 0, 0, NULL, 0, &size) == UCSTORE_NOT_A_BATCH && size == 99);
    CHECK(ucstore_write(&store, &batch) == UCSTORE_OK && ucstore_last(&store, &rows) == UCSTORE_OK && rows == 0);
    CHECK(ucstore_batch_put(&batch, NULL, 0, NULL, 0) == UCSTORE_OK && ucstore_batch_merge(&batch, NULL, 0, NULL, 0) == UCSTORE_OK);
    CHECK(ucstore_batch_delete(&batch, NULL, 0) == UCSTORE_OK && ucstore_batch_delete_range(&batch, NULL, 0, NULL, 0) == UCSTORE_OK);
    CHECK(ucstore_batch_bytes(&batch, NULL, 0, &size) == UCSTORE_OK && size == 23);
    CHECK(ucstore_prepare(&store, &batch, 0, NULL, 0, &size) == UCSTORE_ROOM && size == 30);
    CHECK(ucstore_batch_close(&batch) == UCSTORE_OK && batch.at == NULL);
    CHECK(ucstore_get_many(&store, NULL, 0, NULL, 0, NULL, 0, NULL, 0, &size) == UCSTORE_OK && size == 0);
    CHECK(ucstore_put(&store, NULL, 0, NULL, 0) == UCSTORE_OK);
    CHECK(ucstore_merge(&store, NULL, 0, NULL, 0) == UCSTORE_OK);
    CHECK(ucstore_get(&store, NULL, 0, NULL, 0, &size) == UCSTORE_OK && size == 1);
    CHECK(ucstore_get_at(&store, NULL, 0, 0, NULL, 0, &size) == UCSTORE_NOT_PROTECTED);
    CHECK(ucstore_snapshots(&store, NULL, 0, &size) == UCSTORE_OK && size == 0);
    CHECK(ucstore_snapshot(&store, &rows) == UCSTORE_OK && rows == 2);
    CHECK(ucstore_snapshots(&store, NULL, 0, &size) == UCSTORE_OK && size == 1);
    CHECK(ucstore_scan_at(&store, NULL, 0, NULL, 0, true, 2, 9, NULL, 0, &size, &rows) == UCSTORE_OK && size == 0 && rows == 0);
    CHECK(ucstore_scan_at(&store, NULL, 0, NULL, 0, false, 2, 9, NULL, 0, &size, &rows) == UCSTORE_OK && size == 17 && rows == 0);
    CHECK(ucstore_scan(&store, NULL, 0, NULL, 0, false, 9, NULL, 0, &size, &rows) == UCSTORE_OK && size == 17 && rows == 0);
    CHECK(ucstore_view(&store, &shown) == UCSTORE_OK);
    CHECK(ucstore_view_get_many(&shown, NULL, 0, NULL, 0, NULL, 0, NULL, 0, &size) == UCSTORE_OK && size == 0);
    CHECK(ucstore_view_get(&shown, NULL, 0, NULL, 0, &size) == UCSTORE_OK && size == 1);
    CHECK(ucstore_view_get_at(&shown, NULL, 0, 0, NULL, 0, &size) == UCSTORE_NOT_PROTECTED);
    CHECK(ucstore_view_scan_at(&shown, NULL, 0, NULL, 0, true, 2, 9, NULL, 0, &size, &rows) == UCSTORE_OK && size == 0);
    CHECK(ucstore_view_scan(&shown, NULL, 0, NULL, 0, false, 9, NULL, 0, &size, &rows) == UCSTORE_OK && size == 17 && rows == 0);
    CHECK(ucstore_view_close(&shown) == UCSTORE_OK && shown.at == NULL);
    CHECK(ucstore_delete_range(&store, NULL, 0, NULL, 0) == UCSTORE_OK);
    CHECK(ucstore_delete(&store, NULL, 0) == UCSTORE_OK);
    CHECK(ucstore_log_next(NULL, 0, &place, NULL, 0, &size, &rows, &ended) == UCSTORE_LOG_ENDS && ended.kind == UCSTORE_CLEAN);
    CHECK(ucstore_close(&store) == UCSTORE_OK);
}

/* Statuses of a handle without a store. */
static void without_store(void) {
    struct ucstore_batch batch = {0};
    struct ucstore_view shown = {0};
    struct ucstore_reads reads = {0};
    struct ucstore_report report;
    const uint8_t text[] = {'a'};
    const uint64_t length = 1;
    uint8_t room[4];
    size_t size = 0, found = 7;
    uint64_t seq = 7;
    uint32_t source = 7;
    bool compacted = true;
    report.size = sizeof report;
    CHECK(ucstore_put(&store, text, 1, text, 1) == UCSTORE_NO_STORE);
    CHECK(ucstore_delete(&store, text, 1) == UCSTORE_NO_STORE);
    CHECK(ucstore_merge(&store, text, 1, text, 1) == UCSTORE_NO_STORE);
    CHECK(ucstore_delete_range(&store, text, 1, text, 1) == UCSTORE_NO_STORE);
    CHECK(ucstore_write_bytes(&store, text, 1) == UCSTORE_NO_STORE);
    CHECK(ucstore_write(&store, &batch) == UCSTORE_NO_STORE);
    CHECK(ucstore_prepare(&store, &batch, 0, room, sizeof room, &size) == UCSTORE_NO_STORE && size == 0);
    CHECK(ucstore_get_many(&store, text, 1, &length, 1, &seq, 1, room, sizeof room, &size) == UCSTORE_NO_STORE && seq == 7);
    CHECK(ucstore_prepare_bytes(&store, text, 1, 0, room, sizeof room, &size) == UCSTORE_NO_STORE && size == 0);
    CHECK(ucstore_prepare_marked(&store, text, 1, 0, 0, room, sizeof room, &size) == UCSTORE_NO_STORE && size == 0);
    CHECK(ucstore_prepare_if(&store, &shown, &reads, text, 1, 0, room, sizeof room, &size, &found) == UCSTORE_NO_STORE);
    CHECK(ucstore_first_changed(&store, &shown, &reads, &found) == UCSTORE_NO_STORE && size == 0 && found == 7);
    CHECK(ucstore_commit(&store) == UCSTORE_NO_STORE);
    CHECK(ucstore_commit_report(&store, &report) == UCSTORE_NO_STORE);
    CHECK(ucstore_give_up(&store) == UCSTORE_NO_STORE);
    CHECK(ucstore_flush(&store) == UCSTORE_NO_STORE);
    CHECK(ucstore_snapshot(&store, &seq) == UCSTORE_NO_STORE && seq == 7);
    CHECK(ucstore_release(&store, 0) == UCSTORE_NO_STORE);
    CHECK(ucstore_last(&store, &seq) == UCSTORE_NO_STORE && seq == 7);
    CHECK(ucstore_get(&store, text, 1, room, sizeof room, &size) == UCSTORE_NO_STORE);
    CHECK(ucstore_source(&store, text, 1, &source) == UCSTORE_NO_STORE && source == 7);
    CHECK(ucstore_get_at(&store, text, 1, 0, room, sizeof room, &size) == UCSTORE_NO_STORE);
    CHECK(ucstore_scan(&store, text, 1, text, 1, false, 9, room, sizeof room, &size, &seq) == UCSTORE_NO_STORE && seq == 7);
    CHECK(ucstore_scan_at(&store, text, 1, text, 1, false, 0, 9, room, sizeof room, &size, &seq) == UCSTORE_NO_STORE && seq == 7);
    CHECK(ucstore_snapshots(&store, &seq, 1, &found) == UCSTORE_NO_STORE && seq == 7 && found == 7);
    CHECK(ucstore_report(&store, &report) == UCSTORE_NO_STORE);
    CHECK(ucstore_compact(&store, &compacted) == UCSTORE_NO_STORE && compacted);
    CHECK(ucstore_close(&store) == UCSTORE_NO_STORE);
}

/* Statuses of a handle without a view. */
static void without_view(void) {
    struct ucstore_view none = {0}, other = {0};
    struct ucstore_report report;
    const uint8_t text[] = {'a'};
    const uint64_t length = 1;
    uint8_t room[4];
    size_t size = 0;
    uint64_t seq = 7;
    uint32_t source = 7;
    report.size = sizeof report;
    CHECK(ucstore_view(&store, &none) == UCSTORE_NO_STORE && none.at == NULL);
    CHECK(ucstore_view_again(&none, &other) == UCSTORE_NO_VIEW && other.at == NULL);
    CHECK(ucstore_view_last(&none, &seq) == UCSTORE_NO_VIEW);
    CHECK(ucstore_view_report(&none, &report) == UCSTORE_NO_VIEW);
    CHECK(ucstore_view_get(&none, text, 1, room, sizeof room, &size) == UCSTORE_NO_VIEW);
    CHECK(ucstore_view_source(&none, text, 1, &source) == UCSTORE_NO_VIEW && source == 7);
    CHECK(ucstore_view_get_at(&none, text, 1, 0, room, sizeof room, &size) == UCSTORE_NO_VIEW);
    CHECK(ucstore_view_get_many(&none, text, 1, &length, 1, &seq, 1, room, sizeof room, &size) == UCSTORE_NO_VIEW);
    CHECK(ucstore_view_scan(&none, text, 1, text, 1, false, 9, room, sizeof room, &size, &seq) == UCSTORE_NO_VIEW);
    CHECK(ucstore_view_scan_at(&none, text, 1, text, 1, false, 0, 9, room, sizeof room, &size, &seq) == UCSTORE_NO_VIEW);
    CHECK(ucstore_view_close(&none) == UCSTORE_NO_VIEW && seq == 7 && size == 0);
}

/* Statuses of a handle without a checkpoint. */
static void without_checkpoint(void) {
    struct ucstore_view shown = {0};
    struct ucstore_checkpoint none = {0};
    uint8_t room[] = {0xAA};
    size_t size = 99;
    bool done = true;
    CHECK(ucstore_checkpoint(&shown, &none) == UCSTORE_NO_VIEW && none.at == NULL);
    CHECK(ucstore_checkpoint_next(&none, 0, 9, room, sizeof room, &size, &done) == UCSTORE_NO_CHECKPOINT);
    CHECK(ucstore_checkpoint_close(&none) == UCSTORE_NO_CHECKPOINT && room[0] == 0xAA && size == 99 && done);
    CHECK(strcmp(ucstore_status_text(UCSTORE_NO_CHECKPOINT), "checkpoint is not open") == 0);
    CHECK(strcmp(ucstore_status_text(UCSTORE_BAD_RUN + 1), ucstore_status_text(-1)) == 0);
}

/* Statuses of handles without a run, and of places that have none. */
static void without_run(struct ucstore_view *view, uint64_t runs) {
    struct ucstore nothing;
    struct ucstore_view unseen;
    struct ucstore_run none;
    uint8_t room[] = {0xAA};
    uint64_t id = 7, low = 7, high = 7;
    size_t count = 7, offset = 7;
    nothing.at = NULL;
    unseen.at = NULL;
    none.at = NULL;
    CHECK(ucstore_view_run(&unseen, 0, &id, &low, &high) == UCSTORE_NO_VIEW && ucstore_run(&unseen, 0, &none) == UCSTORE_NO_VIEW);
    CHECK(ucstore_view_run(view, (size_t)runs, &id, &low, &high) == UCSTORE_BAD_RUN);
    CHECK(ucstore_run(view, (size_t)runs, &none) == UCSTORE_BAD_RUN && ucstore_run(view, SIZE_MAX, &none) == UCSTORE_BAD_RUN);
    CHECK(ucstore_run_size(&none, &id) == UCSTORE_BAD_RUN && ucstore_run_read(&none, 0, room, 1, &count) == UCSTORE_BAD_RUN);
    CHECK(ucstore_run_close(&none) == UCSTORE_BAD_RUN && ucstore_add_run(&nothing, room, 1, &id, &offset) == UCSTORE_NO_STORE);
    CHECK(id == 7 && low == 7 && high == 7 && count == 7 && offset == 7 && room[0] == 0xAA && none.at == NULL);
    CHECK(ucstore_run(view, 0, &none) == UCSTORE_OK && ucstore_run(view, 0, &none) == UCSTORE_OK);
    CHECK(ucstore_run_read(&none, SIZE_MAX, room, 1, &count) == UCSTORE_OK && count == 0);
    CHECK(ucstore_run_read(&none, 0, NULL, 0, &count) == UCSTORE_OK && count == 0 && room[0] == 0xAA);
    CHECK(ucstore_run(view, (size_t)runs, &none) == UCSTORE_BAD_RUN && none.at == NULL);
}

/* A file is refused with any one byte changed, and cut at any place. */
static void damaged_files(uint8_t *file, size_t length) {
    struct ucstore opened;
    struct ucstore_options options;
    uint64_t id = 7, last = 7;
    size_t offset = 7;
    opened.at = NULL;
    CHECK(ucstore_options_init(&options) == UCSTORE_OK && ucstore_create(&opened, UCSTORE_APPEND, &options) == UCSTORE_OK);
    for (size_t place = 0; place < length; place++) {
        uint8_t bit = (uint8_t)(1 << draw(8));
        file[place] ^= bit;
        CHECK(ucstore_add_run(&opened, file, length, &id, &offset) == UCSTORE_RUN_DAMAGED);
        CHECK(offset == (place + 68 < length ? 0 : length));
        file[place] ^= bit;
        CHECK(ucstore_add_run(&opened, file, place, &id, &offset) == UCSTORE_RUN_DAMAGED && offset == place);
    }
    CHECK(id == 7 && ucstore_last(&opened, &last) == UCSTORE_OK && last == 0);
    CHECK(ucstore_close(&opened) == UCSTORE_OK);
}

/* The file of a run that is read piece by piece: what has no file, is read too early or twice, is damaged, or doesn't fit. */
static void pieces_of_a_file(const uint8_t *bytes, size_t length, uint64_t low, uint64_t high) {
    struct ucstore opened, nothing;
    struct ucstore_run_file file;
    struct ucstore_options options;
    uint64_t id = 7, least = 7, greatest = 7;
    size_t offset = 7;
    opened.at = nothing.at = file.at = NULL;
    CHECK(ucstore_options_init(&options) == UCSTORE_OK && ucstore_create(&opened, UCSTORE_APPEND, &options) == UCSTORE_OK);
    CHECK(ucstore_run_file_append(&file, bytes, 1) == UCSTORE_BAD_RUN && ucstore_run_file_close(&file) == UCSTORE_BAD_RUN);
    CHECK(ucstore_run_file_read(&file, &least, &greatest, &offset) == UCSTORE_BAD_RUN);
    CHECK(ucstore_add_run_file(&opened, &file, &id) == UCSTORE_BAD_RUN && file.at == NULL);
    CHECK(ucstore_run_file_open(&file, 0) == UCSTORE_OK && file.at != NULL && ucstore_run_file_append(&file, NULL, 0) == UCSTORE_OK);
    CHECK(ucstore_add_run_file(&opened, &file, &id) == UCSTORE_BAD_RUN && file.at != NULL);
    CHECK(ucstore_run_file_append(&file, bytes, length - 1) == UCSTORE_OK);
    CHECK(ucstore_run_file_read(&file, &least, &greatest, &offset) == UCSTORE_RUN_DAMAGED && offset == length - 1 && file.at == NULL);
    CHECK(least == 7 && greatest == 7 && id == 7);
    read_pieces(&file, bytes, length, low, high);
    CHECK(ucstore_run_file_append(&file, bytes, 1) == UCSTORE_BAD_RUN);
    offset = 7;
    CHECK(ucstore_run_file_read(&file, &least, &greatest, &offset) == UCSTORE_BAD_RUN && least == 7 && greatest == 7 && offset == 7);
    CHECK(ucstore_add_run_file(&nothing, &file, &id) == UCSTORE_NO_STORE && file.at != NULL && id == 7);
    CHECK(ucstore_add_run_file(&opened, &file, &id) == UCSTORE_OK && file.at == NULL && id == 1);
    read_pieces(&file, bytes, length, low, high);
    CHECK(ucstore_add_run_file(&opened, &file, &id) == UCSTORE_BAD_RUN && file.at == NULL && id == 1);
    read_pieces(&file, bytes, length, low, high);
    CHECK(ucstore_run_file_open(&file, 1) == UCSTORE_OK && ucstore_run_file_close(&file) == UCSTORE_OK && file.at == NULL);
    read_pieces(&file, bytes, length, low, high);
    CHECK(ucstore_run_file_close(&file) == UCSTORE_OK && file.at == NULL && ucstore_close(&opened) == UCSTORE_OK);
}

/* Two runs as files: in order, out of order, and added to a store that has writes of its own. */
static void run_files(void) {
    static uint8_t older[RUN_FILE], newer[RUN_FILE];
    const uint8_t text[] = {'a', 'b', 'c'};
    uint8_t room[8];
    struct ucstore from, opened;
    struct ucstore_view view;
    struct ucstore_options options;
    uint64_t id = 7, low = 7, high = 7;
    size_t older_length, newer_length, offset = 7, size = 7;
    from.at = NULL;
    opened.at = NULL;
    view.at = NULL;
    CHECK(ucstore_options_init(&options) == UCSTORE_OK);
    options.compacts_itself = 0;
    CHECK(ucstore_create(&from, UCSTORE_APPEND, &options) == UCSTORE_OK);
    CHECK(ucstore_put(&from, text, 1, text, 1) == UCSTORE_OK && ucstore_put(&from, text + 1, 1, text, 1) == UCSTORE_OK);
    CHECK(ucstore_flush(&from) == UCSTORE_OK && ucstore_merge(&from, text, 1, text + 2, 1) == UCSTORE_OK);
    CHECK(ucstore_delete_range(&from, text + 1, 1, text + 2, 1) == UCSTORE_OK && ucstore_flush(&from) == UCSTORE_OK);
    CHECK(ucstore_view(&from, &view) == UCSTORE_OK && ucstore_close(&from) == UCSTORE_OK);
    CHECK(ucstore_view_run(&view, 0, &id, &low, &high) == UCSTORE_OK && id == 2 && low == 3 && high == 4);
    CHECK(ucstore_view_run(&view, 1, &id, &low, &high) == UCSTORE_OK && id == 1 && low == 1 && high == 2);
    without_run(&view, 2);
    newer_length = read_file(&view, 0, 7, newer, sizeof newer);
    older_length = read_file(&view, 1, RUN_FILE, older, sizeof older);
    CHECK(ucstore_view_close(&view) == UCSTORE_OK);
    damaged_files(newer, newer_length);
    pieces_of_a_file(newer, newer_length, 3, 4);
    CHECK(ucstore_create(&opened, UCSTORE_APPEND, &options) == UCSTORE_OK);
    CHECK(ucstore_add_run(&opened, older, older_length, &id, &offset) == UCSTORE_OK && id == 1);
    CHECK(ucstore_add_run(&opened, older, older_length, &id, &offset) == UCSTORE_BAD_RUN);
    CHECK(ucstore_put(&opened, text, 1, text, 1) == UCSTORE_OK);
    CHECK(ucstore_add_run(&opened, newer, newer_length, &id, &offset) == UCSTORE_BAD_RUN && id == 1 && offset == 7);
    CHECK(ucstore_close(&opened) == UCSTORE_OK && ucstore_create(&opened, UCSTORE_APPEND, &options) == UCSTORE_OK);
    CHECK(ucstore_add_run(&opened, older, older_length, &id, &offset) == UCSTORE_OK);
    CHECK(ucstore_add_run(&opened, newer, newer_length, &id, &offset) == UCSTORE_OK && id == 2);
    CHECK(ucstore_add_run(&opened, older, older_length, &id, &offset) == UCSTORE_BAD_RUN && id == 2 && offset == 7);
    CHECK(ucstore_last(&opened, &high) == UCSTORE_OK && high == 4);
    CHECK(ucstore_get(&opened, text, 1, room, sizeof room, &size) == UCSTORE_OK && size == 3 && memcmp(room, "a,c", 3) == 0);
    CHECK(ucstore_get(&opened, text + 1, 1, room, sizeof room, &size) == UCSTORE_NOT_FOUND);
    CHECK(ucstore_merge(&opened, text, 1, text + 1, 1) == UCSTORE_OK && ucstore_flush(&opened) == UCSTORE_OK);
    CHECK(ucstore_last(&opened, &high) == UCSTORE_OK && high == 5);
    CHECK(ucstore_get(&opened, text, 1, room, sizeof room, &size) == UCSTORE_OK && size == 5 && memcmp(room, "a,c,b", 5) == 0);
    CHECK(ucstore_close(&opened) == UCSTORE_OK);
}

/* A transaction that reads in a view, and is prepared in its store. */
static void transactions(void) {
    struct ucstore opened = {0};
    struct ucstore_view shown = {0};
    struct ucstore_reads reads = {0};
    struct ucstore_options options;
    const uint8_t batch[] = {0, 0, 0, 0, 0, 0, 0, 0, 1, 0, 0, 0, 1, 1, 'r', 1, '1'}, faulty[] = {1};
    uint8_t room[64] = {0};
    size_t size = 99, changed = 99;
    uint64_t last = 0;
    CHECK(ucstore_options_init(&options) == UCSTORE_OK && ucstore_create(&opened, UCSTORE_APPEND, &options) == UCSTORE_OK);
    CHECK(ucstore_prepare_if(&opened, &shown, &reads, batch, sizeof batch, 0, room, 64, &size, &changed) == UCSTORE_NO_VIEW);
    CHECK(ucstore_first_changed(&opened, &shown, &reads, &changed) == UCSTORE_NO_VIEW && changed == 99);
    CHECK(ucstore_put(&opened, (const uint8_t *)"b", 1, (const uint8_t *)"1", 1) == UCSTORE_OK);
    CHECK(ucstore_view(&opened, &shown) == UCSTORE_OK);
    CHECK(ucstore_reads_key(&reads, (const uint8_t *)"a", 1) == UCSTORE_OK);
    CHECK(ucstore_reads_range(&reads, (const uint8_t *)"b", 1, (const uint8_t *)"b\0", 2, true) == UCSTORE_OK);
    CHECK(ucstore_prepare_if(&opened, &shown, &reads, faulty, 1, 0, room, 64, &size, &changed) == UCSTORE_NOT_A_BATCH);
    CHECK(ucstore_prepare_if(&opened, &shown, &reads, batch, sizeof batch, 0, room, 1, &size, &changed) == UCSTORE_ROOM);
    CHECK(size == 24 && changed == 99 && room[0] == 0);
    /* A key outside of what was read, and one that has its value again. */
    CHECK(ucstore_put(&opened, (const uint8_t *)"b\0", 2, (const uint8_t *)"1", 1) == UCSTORE_OK);
    CHECK(ucstore_delete_range(&opened, (const uint8_t *)"", 0, (const uint8_t *)"z", 1) == UCSTORE_OK);
    CHECK(ucstore_put(&opened, (const uint8_t *)"b", 1, (const uint8_t *)"1", 1) == UCSTORE_OK);
    CHECK(ucstore_prepare_if(&opened, &shown, &reads, batch, sizeof batch, 0, room, 64, &size, &changed) == UCSTORE_OK);
    CHECK(size == 24 && changed == 99);
    CHECK(ucstore_commit(&opened) == UCSTORE_OK && ucstore_last(&opened, &last) == UCSTORE_OK && last == 5);
    CHECK(ucstore_get(&opened, (const uint8_t *)"r", 1, room, 64, &size) == UCSTORE_OK && size == 1);
    /* A range deletion changes the range, and a put the key that was not there. */
    CHECK(ucstore_delete_range(&opened, (const uint8_t *)"b", 1, (const uint8_t *)"c", 1) == UCSTORE_OK);
    CHECK(ucstore_prepare_if(&opened, &shown, &reads, batch, sizeof batch, 0, room, 64, &size, &changed) == UCSTORE_READ_CHANGED);
    CHECK(changed == 1 && size == 1);
    CHECK(ucstore_put(&opened, (const uint8_t *)"a", 1, (const uint8_t *)"", 0) == UCSTORE_OK);
    CHECK(ucstore_first_changed(&opened, &shown, &reads, &changed) == UCSTORE_READ_CHANGED && changed == 0);
    CHECK(ucstore_reads_close(&reads) == UCSTORE_OK && ucstore_view_close(&shown) == UCSTORE_OK);
    CHECK(ucstore_close(&opened) == UCSTORE_OK);
}

/* A store of 255 runs, whose next compaction has all of them. */
static void open_full(struct ucstore *full) {
    struct ucstore_options options;
    const uint8_t text[] = {'a'};
    CHECK(ucstore_options_init(&options) == UCSTORE_OK);
    options.write_buffer_size = 1;
    options.compaction_trigger = 255;
    options.stop_trigger = 255;
    options.compacts_itself = 0;
    CHECK(ucstore_create(full, UCSTORE_APPEND, &options) == UCSTORE_OK);
    for (int run = 0; run < 255; run++) {
        CHECK(ucstore_put(full, text, 1, text, 1) == UCSTORE_OK && ucstore_flush(full) == UCSTORE_OK);
    }
}

/* Ends a flush job, and frees it. Returns true if its run was installed. */
static bool end_flush(struct ucstore_job *job) {
    bool installed = false;
    CHECK(ucstore_job_end(&store, job, &installed) == UCSTORE_OK && ucstore_job_close(job) == UCSTORE_OK);
    return installed;
}

/* Returns the number of runs. */
static uint64_t runs(void) {
    struct ucstore_report report;
    report.size = sizeof report;
    CHECK(ucstore_report(&store, &report) == UCSTORE_OK);
    return report.runs;
}

/* Full memtables that are left to jobs: one is flushed by its job, one by a write, and one by a snapshot. */
static void flush_jobs(void) {
    struct ucstore_options options;
    struct ucstore_job out = {0}, other = {0};
    const uint8_t text[] = {'a'};
    uint64_t seq = 0;
    bool told = false;
    CHECK(ucstore_options_init(&options) == UCSTORE_OK && options.max_write_buffer_number == 1);
    options.write_buffer_size = 100;
    options.max_write_buffer_number = 2;
    CHECK(ucstore_create(&store, UCSTORE_APPEND, &options) == UCSTORE_OK);
    for (int write = 0; write < 30 && !told; write++) {
        CHECK(ucstore_job(&store, &out, &told) == UCSTORE_OK && runs() == 0);
        CHECK(ucstore_put(&store, text, 1, text, 1) == UCSTORE_OK);
    }
    /* One flush is out at a time, and later writes are not in it. */
    CHECK(told && ucstore_job(&store, &other, &told) == UCSTORE_OK && !told);
    CHECK(ucstore_job_run(&out) == UCSTORE_OK && end_flush(&out) && runs() == 1);
    CHECK(ucstore_flush(&store) == UCSTORE_OK && runs() == 2);
    /* A write flushes all memtables once two are full: the job comes too late. */
    for (told = false; !told;) {
        CHECK(ucstore_put(&store, text, 1, text, 1) == UCSTORE_OK && ucstore_job(&store, &out, &told) == UCSTORE_OK);
    }
    while (runs() == 2) {
        CHECK(ucstore_put(&store, text, 1, text, 1) == UCSTORE_OK);
    }
    CHECK(ucstore_job_run(&out) == UCSTORE_OK && !end_flush(&out) && runs() == 3);
    /* So does a snapshot. A job that is not run leaves its writes for another one. */
    for (told = false; !told;) {
        CHECK(ucstore_put(&store, text, 1, text, 1) == UCSTORE_OK && ucstore_job(&store, &out, &told) == UCSTORE_OK);
    }
    CHECK(!end_flush(&out) && ucstore_job(&store, &out, &told) == UCSTORE_OK && told);
    CHECK(ucstore_snapshot(&store, &seq) == UCSTORE_OK && ucstore_job_run(&out) == UCSTORE_OK && !end_flush(&out));
    CHECK(ucstore_close(&store) == UCSTORE_OK);
}

/* Errors of jobs, and errors that jobs cause. */
static void refused_jobs(void) {
    struct ucstore other = {0};
    struct ucstore_job none = {0}, out = {0};
    const uint8_t text[] = {'a'};
    uint64_t seq = 7;
    bool told = true;
    CHECK(ucstore_job(&store, &none, &told) == UCSTORE_NO_STORE && told && none.at == NULL);
    CHECK(ucstore_job_run(&none) == UCSTORE_NO_JOB && ucstore_job_close(&none) == UCSTORE_NO_JOB);
    CHECK(ucstore_job_end(&store, &none, &told) == UCSTORE_NO_JOB && told);
    open_full(&store);
    open_full(&other);
    CHECK(ucstore_job(&store, &out, &told) == UCSTORE_OK && told);
    CHECK(ucstore_job(&store, &none, &told) == UCSTORE_OK && !told && none.at == NULL);
    CHECK(ucstore_job_end(&other, &out, &told) == UCSTORE_NOT_OF_STORE && !told && out.at != NULL);
    CHECK(ucstore_put(&store, text, 1, text, 1) == UCSTORE_OK && ucstore_flush(&store) == UCSTORE_OK);
    CHECK(ucstore_put(&store, text, 1, text, 1) == UCSTORE_OK);
    CHECK(ucstore_put(&store, text, 1, text, 1) == UCSTORE_RUNS_CLAIMED);
    CHECK(ucstore_flush(&store) == UCSTORE_RUNS_CLAIMED && ucstore_snapshot(&store, &seq) == UCSTORE_RUNS_CLAIMED && seq == 7);
    CHECK(ucstore_job_run(&out) == UCSTORE_OK && ucstore_job_run(&out) == UCSTORE_OK);
    CHECK(ucstore_job_end(&store, &out, &told) == UCSTORE_OK && told && out.at != NULL);
    CHECK(ucstore_job_close(&out) == UCSTORE_OK && out.at == NULL);
    CHECK(ucstore_snapshot(&store, &seq) == UCSTORE_OK && seq == 257);
    CHECK(ucstore_close(&other) == UCSTORE_OK);
    CHECK(ucstore_close(&store) == UCSTORE_OK);
}

/* Errors. */
static void refusals(void) {
    struct ucstore_options options;
    struct ucstore_ended ended = {7, 7, 7};
    struct ucstore_log_place place = {0, 0, 1};
    const uint8_t text[] = {'a'};
    const uint64_t lengths[] = {2, UINT64_MAX};
    uint8_t room[4];
    size_t size = 0;
    uint64_t seq = 7;
    CHECK(ucstore_version() == UCSTORE_ABI);
    CHECK(strcmp(ucstore_status_text(UCSTORE_ROOM), "buffer too small") == 0);
    CHECK(ucstore_log_next(text, 1, &place, room, sizeof room, &size, &seq, &ended) == UCSTORE_BAD_PLACE && place.batches == 1);
    CHECK(ucstore_create(&store, UCSTORE_TAIL, &options) == UCSTORE_BAD_SIZE && store.at == NULL);
    CHECK(ucstore_options_init(&options) == UCSTORE_OK && options.write_buffer_size == 4194304 && options.size == sizeof options);
    CHECK(ucstore_create(&store, 5, &options) == UCSTORE_UNKNOWN_OPERATOR && store.at == NULL);
    options.min_merge_width = 1;
    CHECK(ucstore_create(&store, UCSTORE_TAIL, &options) == UCSTORE_BAD_OPTION && store.at == NULL);
    options.min_merge_width = 2;
    options.stop_trigger = 256;
    CHECK(ucstore_create(&store, UCSTORE_TAIL, &options) == UCSTORE_BAD_OPTION && store.at == NULL);
    options.stop_trigger = 3;
    CHECK(ucstore_create(&store, UCSTORE_TAIL, &options) == UCSTORE_BAD_OPTION && store.at == NULL);
    options.stop_trigger = 4;
    place.offset = 2;
    CHECK(ucstore_log_next(text, 1, &place, room, sizeof room, &size, &seq, &ended) == UCSTORE_BAD_PLACE && place.offset == 2);
    CHECK(ucstore_replay(&store, text, 1, &place, true, &ended) == UCSTORE_NO_STORE && ended.kind == 7);
    CHECK(ucstore_open(&store, UCSTORE_TAIL, &options, text, 1, &ended) == UCSTORE_OK);
    CHECK(ended.kind == UCSTORE_TORN && ended.fault == 0 && ended.place == 0);
    CHECK(ucstore_replay(&store, text, 1, &place, true, &ended) == UCSTORE_BAD_PLACE && place.offset == 2);
    CHECK(ucstore_create(&store, UCSTORE_TAIL, &options) == UCSTORE_HAS_STORE);
    CHECK(ucstore_put(&store, text, 1, text, 0) == UCSTORE_OK);
    CHECK(ucstore_snapshot(&store, &seq) == UCSTORE_OK && seq == 1);
    CHECK(ucstore_get_at(&store, text, 1, 1, room, 0, &size) == UCSTORE_OK && size == 0);
    CHECK(ucstore_release(&store, 9) == UCSTORE_NOT_PROTECTED);
    CHECK(ucstore_get_many(&store, text, 1, lengths, 0, &seq, 0, room, sizeof room, &size) == UCSTORE_BAD_KEYS && size == 0);
    CHECK(ucstore_get_many(&store, text, 1, lengths, 1, &seq, 1, room, sizeof room, &size) == UCSTORE_BAD_KEYS && seq == 1);
    CHECK(ucstore_get_many(&store, text, 1, lengths, 2, &seq, 1, room, sizeof room, &size) == UCSTORE_BAD_KEYS && seq == 1);
    CHECK(ucstore_write_bytes(&store, text, 1) == UCSTORE_NOT_A_BATCH);
    CHECK(ucstore_prepare_bytes(&store, text, 1, 0, room, sizeof room, &size) == UCSTORE_NOT_A_BATCH);
    CHECK(ucstore_close(&store) == UCSTORE_OK && store.at == NULL);
    CHECK(ucstore_close(&store) == UCSTORE_NO_STORE);
}

int main(int argc, char **argv) {
    size_t operations = argc > 1 ? (size_t)strtoull(argv[1], NULL, 10) : 50000;
    state = argc > 2 ? strtoull(argv[2], NULL, 10) : 1;
    for (int key = 0; key < KEYS; key++) {
        in_order[key] = key;
    }
    qsort(in_order, KEYS, sizeof in_order[0], by_text);
    most_writes = 8 * operations;
    writes = (struct write *)calloc(most_writes, sizeof *writes);
    history = (uint8_t *)malloc(MOST_LOG);
    CHECK(writes != NULL && history != NULL);
    without_store();
    without_view();
    without_checkpoint();
    run_files();
    transactions();
    refusals();
    refused_jobs();
    flush_jobs();
    nothing_is_read();
    durable();
    skip();
    marks();
    told_damage();
    folder_files();
    folder_machine();
    folder_gives_up();
    run_folder_files();
    run_folder_machine();
    for (uint32_t one = UCSTORE_APPEND; one <= UCSTORE_TAIL; one++) {
        soak(one, operations);
    }
    free(writes);
    free(history);
    printf("ok\n");
    return 0;
}
