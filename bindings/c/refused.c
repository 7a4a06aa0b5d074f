/* Fails each allocation of each call in turn: once alone, and once with all later ones. A call whose allocation fails must return
 * UCSTORE_OUT_OF_MEMORY and change nothing. At the end all memory must be freed. The arguments are the number of calls, and the seed.
 *
 * Linked with `-Wl,--wrap=malloc,--wrap=realloc,--wrap=free`. */
#include <stdio.h>
#include <stdlib.h>
#include <string.h>
#include <ucstore.h>

#define CHECK(test)                                                  \
    do {                                                             \
        if (!(test)) {                                               \
            printf("%s:%d: %s\n", __FILE__, __LINE__, #test);        \
            exit(1);                                                 \
        }                                                            \
    } while (0)

#ifdef __cplusplus
extern "C" {
#endif
void *__real_malloc(size_t size);
void *__real_realloc(void *block, size_t size);
void __real_free(void *block);
void *__wrap_malloc(size_t size);
void *__wrap_realloc(void *block, size_t size);
void __wrap_free(void *block);
#ifdef __cplusplus
}
#endif

enum { TEXT = 40, ROOM = 1 << 18, KEYS = 84, MOST_KEEPS = 4, BATCH = 12 + 20 * (3 + 2 * TEXT), MOST_LOG = 1 << 21 };

/* Number of allocations that succeed before one fails, if any does, and whether all later ones fail too. */
static bool refuses, lasts, refused;
static size_t granted;

/* Number of blocks in use, and number of failed allocations. */
static long live;
static size_t refusals;

static bool is_refused(void) {
    if (!refuses || granted-- > 0) {
        return false;
    }
    granted = 0;
    refuses = lasts;
    refused = true;
    refusals++;
    return true;
}

void *__wrap_malloc(size_t size) {
    void *block = is_refused() ? NULL : __real_malloc(size);
    live += block != NULL;
    return block;
}

void *__wrap_realloc(void *block, size_t size) {
    void *moved = is_refused() ? NULL : __real_realloc(block, size);
    live += block == NULL && moved != NULL;
    return moved;
}

void __wrap_free(void *block) {
    live -= block != NULL;
    __real_free(block);
}

static uint64_t state;

/* Returns a pseudorandom number below a limit (Knuth's constants). */
static uint64_t draw(uint64_t limit) {
    state = state * UINT64_C(6364136223846793005) + UINT64_C(1442695040888963407);
    return (state >> 33) % limit;
}

static struct ucstore store;
static struct ucstore_batch gathered;

/* A view, another handle to it, and a job. */
static struct ucstore_view shown, again;
static struct ucstore_job out;

/* A checkpoint of the view, the values of the view at its start, and the pieces so far. */
static struct ucstore_checkpoint begun;
static uint64_t begun_lengths[KEYS];
static uint8_t begun_values[ROOM], pieces[ROOM];
static size_t begun_size, pieces_length, piece;
static bool is_laid_out;

static uint8_t history[MOST_LOG];
static size_t history_length;

/* Size of the prepared batch's log record. */
static size_t prepared;

/* All keys of one to three letters, one after the other. */
static uint8_t keys[3 * KEYS];
static uint64_t key_lengths[KEYS];
static size_t keys_length;

/* The visible state of a store: the last sequence number, and the rows there and at each snapshot; the number of writes in memtables, the
 * views and jobs, and the values of the views. It makes no scan of a view, which would sort before the tested scan. */
struct held {
    uint64_t last;
    uint64_t keeps[MOST_KEEPS], value_lengths[KEYS];
    size_t keep_count, size, batch_length, values_length;
    bool is_shown, is_again, is_out, is_begun;
    uint8_t rows[ROOM], batch[BATCH], values[ROOM];
};

static void lay_out_keys(void) {
    size_t count = 0;
    for (int letters = 1; letters <= 3; letters++) {
        for (int number = 0; number < 1 << (2 * letters); number++) {
            key_lengths[count++] = (uint64_t)letters;
            for (int place = 0; place < letters; place++) {
                keys[keys_length++] = (uint8_t)('a' + (number >> (2 * place)) % 4);
            }
        }
    }
    CHECK(count == KEYS);
}

static void look_at_views(struct held *held) {
    held->is_out = out.at != NULL;
    held->is_begun = begun.at != NULL;
    held->is_shown = shown.at != NULL;
    held->is_again = again.at != NULL;
    held->values_length = 0;
    if (held->is_shown) {
        CHECK(ucstore_view_get_many(&shown, keys, keys_length, key_lengths, KEYS, held->value_lengths, KEYS, held->values, ROOM,
                                    &held->values_length) == UCSTORE_OK && held->values_length <= ROOM);
    }
}

static void look(struct held *held) {
    static const uint8_t none[1] = {0};
    uint64_t count;
    size_t size;
    CHECK(ucstore_last(&store, &held->last) == UCSTORE_OK);
    CHECK(ucstore_snapshots(&store, held->keeps, MOST_KEEPS, &held->keep_count) == UCSTORE_OK && held->keep_count <= MOST_KEEPS);
    CHECK(ucstore_scan(&store, none, 0, none, 0, false, UINT64_MAX, held->rows, ROOM, &held->size, &count) == UCSTORE_OK);
    for (size_t place = 0; place < held->keep_count; place++) {
        CHECK(ucstore_scan_at(&store, none, 0, none, 0, false, held->keeps[place], UINT64_MAX, held->rows + held->size,
                              ROOM - held->size, &size, &count) == UCSTORE_OK);
        held->size += size;
        CHECK(held->size <= ROOM);
    }
    CHECK(ucstore_batch_bytes(&gathered, held->batch, BATCH, &held->batch_length) == UCSTORE_OK && held->batch_length <= BATCH);
    look_at_views(held);
}

static bool are_same_views(const struct held *one, const struct held *other) {
    return one->is_out == other->is_out && one->is_shown == other->is_shown && one->is_again == other->is_again
        && one->is_begun == other->is_begun
        && one->values_length == other->values_length
        && memcmp(one->values, other->values, one->values_length) == 0
        && (!one->is_shown || memcmp(one->value_lengths, other->value_lengths, sizeof one->value_lengths) == 0);
}

static bool is_same(const struct held *one, const struct held *other) {
    return one->last == other->last && one->keep_count == other->keep_count
        && memcmp(one->keeps, other->keeps, one->keep_count * sizeof one->keeps[0]) == 0 && one->size == other->size
        && memcmp(one->rows, other->rows, one->size) == 0 && one->batch_length == other->batch_length
        && memcmp(one->batch, other->batch, one->batch_length) == 0 && are_same_views(one, other);
}

/* A call with its random arguments, so that it can be repeated. */
struct call {
    int kind;
    uint8_t key[TEXT], value[TEXT], batch[BATCH];
    size_t key_length, value_length, batch_length;
    uint64_t at;
};

enum {
    PUT, DELETE, MERGE, DELETE_RANGE, BATCH_PUT, BATCH_DELETE, BATCH_MERGE, BATCH_DELETE_RANGE, WRITE, WRITE_BYTES, PREPARE,
    PREPARE_BYTES, FLUSH, SNAPSHOT, RELEASE, GET, SOURCE, GET_AT, GET_MANY, SCAN, SCAN_AT, VIEW, VIEW_AGAIN, VIEW_GET, VIEW_SOURCE,
    VIEW_GET_AT, VIEW_GET_MANY, VIEW_SCAN, VIEW_SCAN_BACK, VIEW_SCAN_AT, VIEW_CLOSE, CHECKPOINT, CHECKPOINT_NEXT, JOB, JOB_RUN,
    JOB_END, COMPACT, OPEN, REPLAY, NEXT, FIRST_TOLD, MARK_BYTES, KINDS
};

static size_t draw_text(uint8_t *text, size_t most) {
    size_t length = 1 + (size_t)draw(most);
    for (size_t place = 0; place < length; place++) {
        text[place] = (uint8_t)('a' + draw(4));
    }
    return length;
}

/* Returns one of 84 keys. */
static size_t draw_key(uint8_t *text) {
    return draw_text(text, 3);
}

static size_t draw_value(uint8_t *text) {
    return draw_text(text, TEXT - 1);
}

static void push_text(struct call *call, const uint8_t *text, size_t length) {
    call->batch[call->batch_length++] = (uint8_t)length;
    memcpy(call->batch + call->batch_length, text, length);
    call->batch_length += length;
}

/* Returns a batch with the sequence number 0, which means the next one. */
static void draw_batch(struct call *call) {
    static const uint8_t TAGS[] = {1, 1, 0, 2, 2, 15};
    uint64_t count = draw(20);
    uint8_t text[TEXT];
    call->batch[8] = (uint8_t)count;
    call->batch_length = 12;
    while (count-- > 0) {
        uint8_t tag = TAGS[draw(sizeof TAGS)];
        call->batch[call->batch_length++] = tag;
        push_text(call, text, draw_key(text));
        if (tag != 0) {
            push_text(call, text, tag == 15 ? draw_key(text) : draw_value(text));
        }
    }
}

static bool gathers(int kind) {
    return kind >= BATCH_PUT && kind <= BATCH_DELETE_RANGE;
}

static struct call draw_call(const struct held *held) {
    struct call call;
    memset(&call, 0, sizeof call);
    call.kind = (int)draw(KINDS);
    if (call.kind == SNAPSHOT && held->keep_count == MOST_KEEPS) {
        call.kind = RELEASE;
    }
    if (gathers(call.kind) && held->batch_length > BATCH - (3 + 2 * TEXT)) {
        call.kind = WRITE;
    }
    call.key_length = draw_key(call.key);
    call.value_length = call.kind == DELETE_RANGE || call.kind == BATCH_DELETE_RANGE || call.kind == SCAN || call.kind == SCAN_AT
        ? draw_key(call.value)
        : draw_value(call.value);
    draw_batch(&call);
    call.at = held->keep_count > 0 ? held->keeps[draw(held->keep_count)] : 0;
    return call;
}

/* Opens the log through another handle, and closes it. */
static int32_t open_log(void) {
    struct ucstore opened = {0};
    struct ucstore_options options;
    struct ucstore_ended ended = {0, 0, 0};
    int32_t status;
    CHECK(ucstore_options_init(&options) == UCSTORE_OK);
    options.write_buffer_size = 1000;
    status = ucstore_open(&opened, UCSTORE_APPEND, &options, history, history_length, &ended);
    CHECK((status == UCSTORE_OK) == (opened.at != NULL));
    CHECK(status != UCSTORE_OK || (ended.kind == UCSTORE_CLEAN && ucstore_close(&opened) == UCSTORE_OK));
    return status;
}

/* Replays the log's batches to a store in another handle, and closes it. A batch that fails is not written. Single writes are not in
 * the log. */
static int32_t replay_log(void) {
    struct ucstore again = {0};
    struct ucstore_options options;
    struct ucstore_log_place place = {0, 0, 0};
    struct ucstore_ended ended = {7, 7, 7};
    uint64_t last = 7;
    int32_t status;
    CHECK(ucstore_options_init(&options) == UCSTORE_OK);
    options.write_buffer_size = 1000;
    status = ucstore_create(&again, UCSTORE_APPEND, &options);
    while (status == UCSTORE_OK) {
        status = ucstore_replay(&again, history, history_length, &place, true, &ended);
    }
    if (again.at != NULL) {
        CHECK(ucstore_last(&again, &last) == UCSTORE_OK && last == place.last);
        CHECK(ucstore_close(&again) == UCSTORE_OK);
    }
    CHECK(status != UCSTORE_LOG_ENDS || (ended.kind == UCSTORE_CLEAN && place.offset == history_length));
    return status;
}

/* Looks for damage in the log, whose batches have no marks. */
static int32_t find_told(void) {
    uint64_t place = 7;
    bool told = true;
    int32_t status = ucstore_log_first_told(history, history_length, 0, 0, &told, &place);
    CHECK(told == (status != UCSTORE_OK) && place == 7);
    return status;
}

/* Lays out a mark, and reads it again. */
static int32_t lay_mark(uint64_t unsynced) {
    uint8_t batch[24] = {0};
    uint64_t found = 0;
    size_t size = 7;
    bool marked = false;
    int32_t status = ucstore_log_mark_bytes(unsynced, batch + 12, 12, &size);
    CHECK(status == UCSTORE_OK || (size == 7 && batch[12] == 0));
    CHECK(status != UCSTORE_OK || (ucstore_log_mark(batch, 24, &marked, &found) == UCSTORE_OK && marked && found == unsynced));
    return status;
}

/* Ends the job, and frees it. */
static int32_t end_job(void) {
    bool installed = false;
    int32_t status = ucstore_job_end(&store, &out, &installed);
    CHECK(status != UCSTORE_OK || ucstore_job_close(&out) == UCSTORE_OK);
    return status;
}

static int32_t try_call(const struct call *call) {
    static uint8_t room[ROOM];
    struct ucstore_log_place place = {0, 0, 0};
    struct ucstore_ended ended = {0, 0, 0};
    size_t size = 0;
    uint64_t number = 0, parts[2] = {1, call->key_length - 1}, lengths[2] = {0, 0};
    uint32_t source = 0;
    bool told = false;
    switch (call->kind) {
    case PUT:
        return ucstore_put(&store, call->key, call->key_length, call->value, call->value_length);
    case DELETE:
        return ucstore_delete(&store, call->key, call->key_length);
    case MERGE:
        return ucstore_merge(&store, call->key, call->key_length, call->value, call->value_length);
    case DELETE_RANGE:
        return ucstore_delete_range(&store, call->key, call->key_length, call->value, call->value_length);
    case BATCH_PUT:
        return ucstore_batch_put(&gathered, call->key, call->key_length, call->value, call->value_length);
    case BATCH_DELETE:
        return ucstore_batch_delete(&gathered, call->key, call->key_length);
    case BATCH_MERGE:
        return ucstore_batch_merge(&gathered, call->key, call->key_length, call->value, call->value_length);
    case BATCH_DELETE_RANGE:
        return ucstore_batch_delete_range(&gathered, call->key, call->key_length, call->value, call->value_length);
    case WRITE:
        return ucstore_write(&store, &gathered);
    case WRITE_BYTES:
        return ucstore_write_bytes(&store, call->batch, call->batch_length);
    case PREPARE:
        return ucstore_prepare(&store, &gathered, history_length, history + history_length, MOST_LOG - history_length, &prepared);
    case PREPARE_BYTES:
        return ucstore_prepare_bytes(&store, call->batch, call->batch_length, history_length, history + history_length,
                                     MOST_LOG - history_length, &prepared);
    case FLUSH:
        return ucstore_flush(&store);
    case SNAPSHOT:
        return ucstore_snapshot(&store, &number);
    case RELEASE:
        return ucstore_release(&store, call->at);
    case GET:
        return ucstore_get(&store, call->key, call->key_length, room, ROOM, &size);
    case SOURCE:
        return ucstore_source(&store, call->key, call->key_length, &source);
    case GET_AT:
        return ucstore_get_at(&store, call->key, call->key_length, call->at, room, ROOM, &size);
    case GET_MANY:
        return ucstore_get_many(&store, call->key, call->key_length, parts, 2, lengths, 2, room, ROOM, &size);
    case SCAN:
        return ucstore_scan(&store, call->key, call->key_length, call->value, call->value_length, false, UINT64_MAX, room, ROOM,
                            &size, &number);
    case SCAN_AT:
        return ucstore_scan_at(&store, call->key, call->key_length, call->value, call->value_length, false, call->at,
                               UINT64_MAX, room, ROOM, &size, &number);
    case VIEW:
        return ucstore_view(&store, &shown);
    case VIEW_AGAIN:
        return ucstore_view_again(&shown, &again);
    case VIEW_GET:
        return ucstore_view_get(&shown, call->key, call->key_length, room, ROOM, &size);
    case VIEW_SOURCE:
        return ucstore_view_source(&shown, call->key, call->key_length, &source);
    case VIEW_GET_AT:
        return ucstore_view_get_at(&shown, call->key, call->key_length, call->at, room, ROOM, &size);
    case VIEW_GET_MANY:
        return ucstore_view_get_many(&shown, call->key, call->key_length, parts, 2, lengths, 2, room, ROOM, &size);
    case VIEW_SCAN:
        return ucstore_view_scan(&shown, call->key, call->key_length, call->value, call->value_length, false, UINT64_MAX, room,
                                 ROOM, &size, &number);
    case VIEW_SCAN_BACK:
        return ucstore_view_scan_back(&shown, call->key, call->key_length, call->value, call->value_length, false, UINT64_MAX,
                                      room, ROOM, &size, &number);
    case VIEW_SCAN_AT:
        return ucstore_view_scan_at(&again, call->key, call->key_length, call->value, call->value_length, false, call->at,
                                    UINT64_MAX, room, ROOM, &size, &number);
    case VIEW_CLOSE:
        ucstore_view_close(&again);
        return ucstore_view_close(&shown);
    case CHECKPOINT:
        return ucstore_checkpoint(&shown, &begun);
    case CHECKPOINT_NEXT:
        return ucstore_checkpoint_next(&begun, pieces_length, 30, pieces + pieces_length, ROOM - pieces_length, &piece,
                                       &is_laid_out);
    case JOB:
        return ucstore_job(&store, &out, &told);
    case JOB_RUN:
        return ucstore_job_run(&out);
    case JOB_END:
        return end_job();
    case COMPACT:
        return ucstore_compact(&store, &told);
    case OPEN:
        return open_log();
    case REPLAY:
        return replay_log();
    case NEXT:
        return ucstore_log_next(history, history_length, &place, room, ROOM, &size, &number, &ended);
    case FIRST_TOLD:
        return find_told();
    default:
        return lay_mark(call->at);
    }
}

/* Tries a call with a failure after a number of allocations. Returns true if one failed. */
static bool try_refused(const struct call *call, size_t before, int32_t *status) {
    granted = before;
    refused = false;
    refuses = true;
    *status = try_call(call);
    refuses = false;
    return refused;
}

/* Tries a call with each of its allocations failing, and then without a failure, unless it has succeeded already. */
static int32_t with_refusals(const struct call *call, struct held *held) {
    static struct held found;
    int32_t status = UCSTORE_OUT_OF_MEMORY;
    size_t before = 0;
    long blocks = live;
    while (try_refused(call, before++, &status) && status == UCSTORE_OUT_OF_MEMORY) {
        CHECK(call->kind >= OPEN ? live == blocks : true);
        look(&found);
        CHECK(is_same(&found, held));
    }
    CHECK(status != UCSTORE_OUT_OF_MEMORY);
    return status;
}

/* Records the contents of the view of a checkpoint that has just been started. */
static void begin_pieces(const struct held *held) {
    memcpy(begun_lengths, held->value_lengths, sizeof begun_lengths);
    memcpy(begun_values, held->values, held->values_length);
    begun_size = held->values_length;
    pieces_length = 0;
}

/* Opens the pieces, which must have the values of the view. */
static void check_pieces(void) {
    static uint64_t lengths[KEYS];
    static uint8_t values[ROOM];
    struct ucstore opened = {0};
    struct ucstore_options options;
    struct ucstore_ended ended = {7, 7, 7};
    size_t size = 0;
    CHECK(ucstore_options_init(&options) == UCSTORE_OK);
    CHECK(ucstore_open(&opened, UCSTORE_APPEND, &options, pieces, pieces_length, &ended) == UCSTORE_OK && ended.kind == UCSTORE_CLEAN);
    CHECK(ucstore_get_many(&opened, keys, keys_length, key_lengths, KEYS, lengths, KEYS, values, ROOM, &size) == UCSTORE_OK);
    CHECK(size == begun_size && memcmp(values, begun_values, size) == 0 && memcmp(lengths, begun_lengths, sizeof lengths) == 0);
    CHECK(ucstore_close(&opened) == UCSTORE_OK);
}

/* Appends the piece, or ends the checkpoint if no row was left. */
static void take_piece(void) {
    pieces_length += piece;
    if (is_laid_out) {
        check_pieces();
        CHECK(ucstore_checkpoint_close(&begun) == UCSTORE_OK);
    }
}

/* Commits the prepared batch while each allocation fails. */
static void commit(void) {
    granted = 0;
    refused = false;
    refuses = true;
    CHECK(ucstore_commit(&store) == UCSTORE_OK && !refused);
    refuses = false;
    history_length += prepared;
}

static void step(struct held *held) {
    static struct held before;
    struct call call = draw_call(held);
    int32_t status = with_refusals(&call, held);
    CHECK(status == UCSTORE_OK || status == UCSTORE_NOT_FOUND || status == UCSTORE_NOT_PROTECTED || status == UCSTORE_LOG_ENDS
          || status == UCSTORE_NO_VIEW || status == UCSTORE_HAS_VIEW || status == UCSTORE_NO_JOB || status == UCSTORE_HAS_JOB
          || status == UCSTORE_NO_CHECKPOINT || status == UCSTORE_HAS_CHECKPOINT);
    if (call.kind == PREPARE || call.kind == PREPARE_BYTES) {
        /* No read sees the batch before it is committed. */
        look(&before);
        CHECK(is_same(&before, held));
        commit();
    }
    if (call.kind == CHECKPOINT && status == UCSTORE_OK) {
        begin_pieces(held);
    }
    if (call.kind == CHECKPOINT_NEXT && status == UCSTORE_OK) {
        take_piece();
    }
    if (call.kind == WRITE) {
        CHECK(ucstore_batch_clear(&gathered) == UCSTORE_OK);
    }
    look(held);
}

/* Creates a store, after each of its allocations has failed. */
static void create(void) {
    struct ucstore_options options;
    int32_t status = UCSTORE_OUT_OF_MEMORY;
    CHECK(ucstore_options_init(&options) == UCSTORE_OK);
    options.write_buffer_size = 1000;
    options.max_write_buffer_number = lasts ? 3 : 1;
    for (size_t before = 0; status == UCSTORE_OUT_OF_MEMORY; before++) {
        CHECK(store.at == NULL && live == 0);
        granted = before;
        refuses = true;
        status = ucstore_create(&store, UCSTORE_APPEND, &options);
        refuses = false;
    }
    CHECK(status == UCSTORE_OK);
}

static uint64_t runs(void) {
    struct ucstore_report report;
    report.size = sizeof report;
    CHECK(ucstore_report(&store, &report) == UCSTORE_OK);
    return report.runs;
}

/* Ends the job, if one is out. Then writes until all runs are compacted to one: none stays claimed. */
static void compact_all(void) {
    static const uint8_t value[1 << 14] = {0};
    bool is_out = out.at != NULL, told = false;
    CHECK(end_job() == (is_out ? UCSTORE_OK : UCSTORE_NO_JOB));
    for (uint8_t key = 0; key < 100 && runs() != 1; key++) {
        CHECK(ucstore_put(&store, &key, 1, value, sizeof value) == UCSTORE_OK && ucstore_flush(&store) == UCSTORE_OK);
        for (told = true; told;) {
            CHECK(ucstore_compact(&store, &told) == UCSTORE_OK);
        }
    }
    CHECK(runs() == 1);
}

/* Writes, reads and compacts a store, and closes it. */
static void soak(size_t calls) {
    static struct held held;
    create();
    history_length = 0;
    look(&held);
    while (calls-- > 0) {
        step(&held);
    }
    compact_all();
    CHECK(ucstore_batch_close(&gathered) == UCSTORE_OK);
    CHECK(ucstore_close(&store) == UCSTORE_OK);
    ucstore_view_close(&again);
    ucstore_view_close(&shown);
    ucstore_checkpoint_close(&begun);
    CHECK(live == 0);
}

/* A store with two runs, as a view. */
static void open_runs(struct ucstore_view *view) {
    struct ucstore from;
    struct ucstore_options options;
    from.at = view->at = NULL;
    CHECK(ucstore_options_init(&options) == UCSTORE_OK && ucstore_create(&from, UCSTORE_APPEND, &options) == UCSTORE_OK);
    for (size_t key = 0; key < KEYS; key++) {
        CHECK(ucstore_merge(&from, keys + key, 1, keys, 3) == UCSTORE_OK);
        if (key == KEYS / 2) {
            CHECK(ucstore_delete_range(&from, keys, 1, NULL, 0) == UCSTORE_OK && ucstore_flush(&from) == UCSTORE_OK);
        }
    }
    CHECK(ucstore_flush(&from) == UCSTORE_OK && ucstore_view(&from, view) == UCSTORE_OK && ucstore_close(&from) == UCSTORE_OK);
}

/* Reads the run of a view at a place, and adds it to a store, by one call or piece by piece. */
static int32_t add_one(struct ucstore_view *view, size_t place, bool by_pieces, struct ucstore *opened) {
    static uint8_t bytes[ROOM];
    struct ucstore_run run;
    struct ucstore_run_file file;
    uint64_t id = 0, low = 0, high = 0;
    size_t length = 0, offset = 0;
    int32_t status;
    run.at = file.at = NULL;
    status = ucstore_run(view, place, &run);
    if (status != UCSTORE_OK) {
        CHECK(run.at == NULL);
        return status;
    }
    CHECK(ucstore_run_read(&run, 0, bytes, sizeof bytes, &length) == UCSTORE_OK && ucstore_run_close(&run) == UCSTORE_OK);
    if (!by_pieces) {
        return ucstore_add_run(opened, bytes, length, &id, &offset);
    }
    status = ucstore_run_file_open(&file, 1);
    if (status == UCSTORE_OK) {
        status = ucstore_run_file_append(&file, bytes, length);
        if (status != UCSTORE_OK) {
            CHECK(file.at != NULL && ucstore_run_file_close(&file) == UCSTORE_OK);
            return status;
        }
        status = ucstore_run_file_read(&file, &low, &high, &offset);
    }
    if (status == UCSTORE_OK) {
        status = ucstore_add_run_file(opened, &file, &id);
    }
    CHECK(file.at == NULL);
    return status;
}

/* Opens a store from the runs of a view, while each allocation fails in turn. A run that isn't added changes nothing. */
static void refuse_runs(void) {
    struct ucstore_view view;
    struct ucstore opened;
    struct ucstore_options options;
    uint64_t last = 0;
    open_runs(&view);
    for (size_t way = 0; way < 4; way++) {
        size_t allowed = 0, failed = 0;
        bool is_whole = false;
        while (!is_whole) {
            int32_t status;
            size_t before = refusals;
            opened.at = NULL;
            CHECK(ucstore_options_init(&options) == UCSTORE_OK && ucstore_create(&opened, UCSTORE_APPEND, &options) == UCSTORE_OK);
            CHECK(add_one(&view, 1, false, &opened) == UCSTORE_OK && ucstore_last(&opened, &last) == UCSTORE_OK);
            lasts = way % 2 == 1;
            granted = allowed++;
            refuses = true;
            status = add_one(&view, 0, way >= 2, &opened);
            refuses = false;
            is_whole = refusals == before;
            /* A block that isn't made smaller does no harm. */
            CHECK(status == UCSTORE_OK || (status == UCSTORE_OUT_OF_MEMORY && !is_whole));
            if (status != UCSTORE_OK) {
                uint64_t still = 0;
                failed++;
                CHECK(ucstore_last(&opened, &still) == UCSTORE_OK && still == last && add_one(&view, 0, way >= 2, &opened) == UCSTORE_OK);
            }
            CHECK(ucstore_close(&opened) == UCSTORE_OK);
        }
        CHECK(failed > 3);
    }
    lasts = false;
    CHECK(ucstore_view_close(&view) == UCSTORE_OK);
}

int main(int argc, char **argv) {
    size_t calls = argc > 1 ? (size_t)strtoull(argv[1], NULL, 10) : 1000;
    state = argc > 2 ? strtoull(argv[2], NULL, 10) : 1;
    lay_out_keys();
    refuse_runs();
    CHECK(live == 0);
    soak(calls);
    lasts = true;
    soak(calls);
    printf("%zu calls, %zu refused allocations\n", 2 * calls, refusals);
    return 0;
}
