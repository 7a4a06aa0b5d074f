/* Tests promises of ucstore.h that no contract states: the memory that calls allocate and free, the size of a checkpoint's pieces, and
 * that a job ends on its own store only.
 *
 * Linked with `-Wl,--wrap=malloc,--wrap=realloc,--wrap=free`. */
#include <stdio.h>
#include <stdlib.h>
#include <string.h>
#include <ucstore.h>

#define CHECK(test)                                                  \
    do {                                                             \
        if (!(test)) {                                               \
            printf("%s:%d: %s\n", __FILE__, __LINE__, #test);        \
            exit(1);                                                 \
        }                                                            \
    } while (0)

#ifdef __cplusplus
extern "C" {
#endif
void *__real_malloc(size_t size);
void *__real_realloc(void *block, size_t size);
void __real_free(void *block);
void *__wrap_malloc(size_t size);
void *__wrap_realloc(void *block, size_t size);
void __wrap_free(void *block);
#ifdef __cplusplus
}
#endif

/* Number of allocations that succeed before one fails, if one does. */
static bool refuses;
static size_t granted;

/* Number of bytes requested, and number of blocks freed, since `count_anew`. */
static size_t asked, freed;

static bool is_refused(void) {
    bool refused = refuses && granted == 0;
    granted -= refuses && granted > 0;
    refuses = refuses && !refused;
    return refused;
}

void *__wrap_malloc(size_t size) {
    asked += size;
    return is_refused() ? NULL : __real_malloc(size);
}

void *__wrap_realloc(void *block, size_t size) {
    asked += size;
    return is_refused() ? NULL : __real_realloc(block, size);
}

void __wrap_free(void *block) {
    freed += block != NULL;
    __real_free(block);
}

static void count_anew(void) {
    asked = freed = 0;
}

/* A call that frees no run and no memtable frees one or two lists of the previous version. */
enum { MANY = 20000, FEW_BLOCKS = 8, FEW_BYTES = 1 << 16, ROWS = 70000, MOST_ROWS = 65536, LOG = 1 << 22 };

static struct ucstore store;
static uint8_t logged[LOG];

/* Creates a store without automatic compaction, whose memtables have this size. */
static void open_store(struct ucstore *opened, uint32_t buffers, uint64_t size) {
    struct ucstore_options options;
    CHECK(ucstore_options_init(&options) == UCSTORE_OK);
    options.compacts_itself = 0;
    options.compaction_trigger = options.stop_trigger = 255;
    options.max_write_buffer_number = buffers;
    options.write_buffer_size = size;
    CHECK(ucstore_create(opened, UCSTORE_APPEND, &options) == UCSTORE_OK);
}

static void key_of(uint32_t number, uint8_t *key) {
    for (int place = 0; place < 4; place++) {
        key[place] = (uint8_t)(number >> (24 - 8 * place));
    }
}

static void put(uint32_t number) {
    uint8_t key[4];
    key_of(number, key);
    CHECK(ucstore_put(&store, key, sizeof key, key, sizeof key) == UCSTORE_OK);
}

static struct ucstore_report reported(struct ucstore *of) {
    struct ucstore_report report;
    report.size = sizeof report;
    CHECK(ucstore_report(of, &report) == UCSTORE_OK);
    return report;
}

/* Puts until the store has a flush job, and runs that. */
static void run_flush(struct ucstore_job *job) {
    bool taken = false;
    for (uint32_t number = 0; !taken; number++) {
        put(number);
        CHECK(ucstore_job(&store, job, &taken) == UCSTORE_OK);
    }
    CHECK(ucstore_job_run(job) == UCSTORE_OK);
}

static bool end(struct ucstore_job *job) {
    bool installed = false;
    count_anew();
    CHECK(ucstore_job_end(&store, job, &installed) == UCSTORE_OK);
    return installed;
}

/* Jobs end on their own store only. */

/* Creates a store whose keys have this value, in runs, or in a full memtable. */
static void fill(struct ucstore *filled, const char *value, bool in_runs) {
    struct ucstore_options options;
    CHECK(ucstore_options_init(&options) == UCSTORE_OK);
    options.compacts_itself = 0;
    options.compaction_trigger = 2;
    options.stop_trigger = 200;
    options.max_write_buffer_number = in_runs ? 1 : 2;
    options.write_buffer_size = in_runs ? 1 << 20 : 20;
    CHECK(ucstore_create(filled, UCSTORE_APPEND, &options) == UCSTORE_OK);
    for (uint8_t key = 'a'; key < 'c'; key++) {
        CHECK(ucstore_put(filled, &key, 1, (const uint8_t *)value, 6) == UCSTORE_OK);
        CHECK(!in_runs || ucstore_flush(filled) == UCSTORE_OK);
    }
}

static void check_values(struct ucstore *filled, const char *value) {
    uint8_t room[8];
    size_t size = 0;
    for (uint8_t key = 'a'; key < 'c'; key++) {
        CHECK(ucstore_get(filled, &key, 1, room, sizeof room, &size) == UCSTORE_OK);
        CHECK(size == 6 && memcmp(room, value, size) == 0);
    }
}

/* Checks that the store rejects the job, and neither changes. */
static void refuse(struct ucstore *other, struct ucstore_job *job, const char *value) {
    bool installed = true;
    uint64_t runs = reported(other).runs, gathered = reported(other).gathered;
    void *at = job->at;
    CHECK(ucstore_job_end(other, job, &installed) == UCSTORE_NOT_OF_STORE && installed && job->at == at);
    CHECK(reported(other).runs == runs && reported(other).gathered == gathered);
    check_values(other, value);
}

/* Two equal stores have a job out, or one of them has. The other store rejects each job, whether it was run or not; then it ends on its
 * own store. */
static void end_crosswise(bool in_runs, bool both) {
    struct ucstore first = {0}, second = {0};
    struct ucstore_job of_first = {0}, of_second = {0};
    bool taken = false, installed = false;
    fill(&first, "first.", in_runs);
    fill(&second, "second", in_runs);
    CHECK(ucstore_job(&first, &of_first, &taken) == UCSTORE_OK && taken);
    CHECK(!both || (ucstore_job(&second, &of_second, &taken) == UCSTORE_OK && taken));
    refuse(&second, &of_first, "second");
    CHECK(ucstore_job_run(&of_first) == UCSTORE_OK);
    refuse(&second, &of_first, "second");
    if (both) {
        CHECK(ucstore_job_run(&of_second) == UCSTORE_OK);
        refuse(&first, &of_second, "first.");
        CHECK(ucstore_job_end(&second, &of_second, &installed) == UCSTORE_OK && installed);
        CHECK(ucstore_job_close(&of_second) == UCSTORE_OK);
    }
    installed = false;
    CHECK(ucstore_job_end(&first, &of_first, &installed) == UCSTORE_OK && installed);
    CHECK(reported(&first).runs == 1 && reported(&first).gathered == 0);
    check_values(&first, "first.");
    check_values(&second, "second");
    CHECK(ucstore_job_close(&of_first) == UCSTORE_OK);
    CHECK(ucstore_close(&first) == UCSTORE_OK && ucstore_close(&second) == UCSTORE_OK);
}

/* A job that outlives its store is rejected by an equal store that is opened in the same handle. */
static void outlive(bool in_runs) {
    struct ucstore behind = {0};
    struct ucstore_job job = {0}, own = {0};
    bool taken = false;
    fill(&behind, "before", in_runs);
    CHECK(ucstore_job(&behind, &job, &taken) == UCSTORE_OK && taken && ucstore_job_run(&job) == UCSTORE_OK);
    CHECK(ucstore_close(&behind) == UCSTORE_OK);
    fill(&behind, "second", in_runs);
    CHECK(ucstore_job(&behind, &own, &taken) == UCSTORE_OK && taken);
    refuse(&behind, &job, "second");
    CHECK(ucstore_job_close(&job) == UCSTORE_OK && ucstore_job_close(&own) == UCSTORE_OK);
    CHECK(ucstore_close(&behind) == UCSTORE_OK);
}

static void jobs_end_on_their_own_store(void) {
    for (int kind = 0; kind < 2; kind++) {
        end_crosswise(kind == 0, true);
        end_crosswise(kind == 0, false);
        outlive(kind == 0);
    }
}

/* Ending a job frees no run. */

static void late_flush_is_kept(void) {
    struct ucstore_job job = {0};
    open_store(&store, 2, (uint64_t)MANY * 16);
    run_flush(&job);
    CHECK(ucstore_flush(&store) == UCSTORE_OK && !end(&job) && freed == 0);
    CHECK(ucstore_job_close(&job) == UCSTORE_OK && freed > FEW_BLOCKS);
    CHECK(ucstore_close(&store) == UCSTORE_OK);
}

/* No slot is left for the run, since a compaction has all others. */
static void flush_without_a_slot_is_kept(void) {
    struct ucstore_job compaction = {0}, job = {0};
    bool taken = false;
    open_store(&store, 2, (uint64_t)MANY * 16);
    for (uint32_t run = 0; run < 255; run++) {
        put(run);
        CHECK(ucstore_flush(&store) == UCSTORE_OK);
    }
    CHECK(ucstore_job(&store, &compaction, &taken) == UCSTORE_OK && taken);
    put(0);
    CHECK(ucstore_flush(&store) == UCSTORE_OK && reported(&store).runs == 256);
    run_flush(&job);
    CHECK(!end(&job) && freed <= FEW_BLOCKS && reported(&store).gathered > 0);
    CHECK(ucstore_job_close(&job) == UCSTORE_OK && ucstore_job_close(&compaction) == UCSTORE_OK);
    CHECK(ucstore_close(&store) == UCSTORE_OK);
}

/* Each allocation of the call fails in turn, until none is left. */
static void flush_without_memory_is_kept(void) {
    struct ucstore_job job = {0};
    bool installed = false;
    open_store(&store, 2, (uint64_t)MANY * 16);
    for (size_t tries = 0; !installed; tries++) {
        run_flush(&job);
        refuses = true;
        granted = tries;
        installed = end(&job);
        CHECK(freed <= FEW_BLOCKS && installed == refuses && (installed || reported(&store).runs == 0));
        refuses = false;
        CHECK(ucstore_job_close(&job) == UCSTORE_OK && tries < 100 && (installed || tries < 99));
    }
    CHECK(reported(&store).runs == 1 && ucstore_close(&store) == UCSTORE_OK);
}

/* Between the preparation of a batch and its commit. */
static void flush_ends_beside_a_prepared_batch(void) {
    const uint8_t text[] = {'b'};
    struct ucstore_batch batch = {0};
    struct ucstore_job job = {0};
    uint8_t room[64];
    size_t size = 0;
    open_store(&store, 2, 100);
    run_flush(&job);
    CHECK(ucstore_batch_put(&batch, text, 1, text, 1) == UCSTORE_OK);
    CHECK(ucstore_prepare(&store, &batch, 0, room, sizeof room, &size) == UCSTORE_OK);
    CHECK(end(&job) && reported(&store).runs == 1 && reported(&store).gathered == 0);
    CHECK(ucstore_commit(&store) == UCSTORE_OK && reported(&store).gathered == 1);
    CHECK(ucstore_get(&store, text, 1, room, sizeof room, &size) == UCSTORE_OK && size == 1 && room[0] == 'b');
    CHECK(ucstore_job_close(&job) == UCSTORE_OK && ucstore_batch_close(&batch) == UCSTORE_OK);
    CHECK(ucstore_close(&store) == UCSTORE_OK);
}

/* Memtables are full at the size that the header says. */

static void range_deletions_fill_a_memtable(void) {
    const uint8_t behind[] = {255};
    open_store(&store, 1, 1 << 20);
    for (uint32_t number = 0; number < 65; number++) {
        uint8_t key[4];
        key_of(number, key);
        CHECK(reported(&store).runs == 0);
        CHECK(ucstore_delete_range(&store, key, sizeof key, behind, 1) == UCSTORE_OK);
    }
    CHECK(reported(&store).runs == 1 && reported(&store).gathered == 1);
    CHECK(ucstore_close(&store) == UCSTORE_OK);
}

/* Writes a batch of one put in one of the possible ways. */
static void write_by(int way, struct ucstore_batch *batch) {
    uint8_t bytes[64];
    size_t size = 0;
    struct ucstore_log_place place = {0, 0, 0};
    struct ucstore_ended ended;
    switch (way) {
    case 0:
        CHECK(ucstore_write(&store, batch) == UCSTORE_OK);
        return;
    case 1:
        CHECK(ucstore_prepare(&store, batch, 0, bytes, sizeof bytes, &size) == UCSTORE_OK);
        CHECK(ucstore_commit(&store) == UCSTORE_OK);
        return;
    default:
        CHECK(ucstore_last(&store, &place.last) == UCSTORE_OK);
        CHECK(ucstore_prepare(&store, batch, 0, bytes, sizeof bytes, &size) == UCSTORE_OK);
        CHECK(ucstore_give_up(&store) == UCSTORE_OK);
        CHECK(ucstore_replay(&store, bytes, size, &place, false, &ended) == UCSTORE_OK);
    }
}

static void batches_fill_memtables(void) {
    struct ucstore_batch batch = {0};
    for (int way = 0; way < 3; way++) {
        uint64_t most = 0;
        open_store(&store, 2, 1000);
        for (uint32_t number = 0; number < 500; number++) {
            uint8_t key[4];
            key_of(number, key);
            CHECK(ucstore_batch_put(&batch, key, sizeof key, key, sizeof key) == UCSTORE_OK);
            write_by(way, &batch);
            CHECK(ucstore_batch_clear(&batch) == UCSTORE_OK);
            most = reported(&store).gathered > most ? reported(&store).gathered : most;
        }
        CHECK(most == 125 && reported(&store).runs > 0);
        CHECK(ucstore_close(&store) == UCSTORE_OK);
    }
    CHECK(ucstore_batch_close(&batch) == UCSTORE_OK);
}

/* Views and checkpoints. */

/* Returns the number of bytes that a scan of one row allocates. */
static size_t scan(struct ucstore_view *view) {
    uint8_t room[64];
    size_t size = 0;
    uint64_t rows = 0;
    count_anew();
    CHECK(ucstore_view_scan(view, NULL, 0, NULL, 0, false, 1, room, sizeof room, &size, &rows) == UCSTORE_OK && rows == 1);
    return asked;
}

static void views_sort_once(void) {
    struct ucstore_view view = {0}, again = {0};
    open_store(&store, 1, 1 << 26);
    for (uint32_t number = 0; number < MANY; number++) {
        put(number * 2654435761u);
    }
    CHECK(ucstore_view(&store, &view) == UCSTORE_OK);
    CHECK(scan(&view) > FEW_BYTES && scan(&view) <= FEW_BYTES);
    CHECK(ucstore_view_again(&view, &again) == UCSTORE_OK && scan(&again) <= FEW_BYTES);
    CHECK(ucstore_view_close(&view) == UCSTORE_OK && scan(&again) <= FEW_BYTES);
    CHECK(ucstore_view_close(&again) == UCSTORE_OK && ucstore_close(&store) == UCSTORE_OK);
}

/* After many views between writes, taking one allocates as little as an early one did, so a lookup searches few memtables. */
static void frozen_memtables_are_joined(void) {
    struct ucstore_view view = {0};
    size_t most = 0;
    open_store(&store, 1, 1 << 26);
    for (uint32_t number = 0; number < MANY; number++) {
        put(number);
        count_anew();
        CHECK(ucstore_view(&store, &view) == UCSTORE_OK && ucstore_view_close(&view) == UCSTORE_OK);
        most = number + 8 > MANY && asked > most ? asked : most;
    }
    CHECK(most > 0 && most <= FEW_BYTES / 8);
    CHECK(ucstore_close(&store) == UCSTORE_OK);
}

static void pieces_have_their_rows(void) {
    struct ucstore_view view = {0};
    struct ucstore_checkpoint checkpoint = {0};
    struct ucstore_log_place place = {0, 0, 0};
    struct ucstore_ended ended;
    struct ucstore read = {0};
    size_t size = 0;
    bool done = false;
    open_store(&store, 1, 1 << 26);
    for (uint32_t number = 0; number < ROWS; number++) {
        put(number);
    }
    CHECK(ucstore_view(&store, &view) == UCSTORE_OK && ucstore_checkpoint(&view, &checkpoint) == UCSTORE_OK);
    CHECK(ucstore_checkpoint_next(&checkpoint, 0, UINT64_MAX, logged, sizeof logged, &size, &done) == UCSTORE_OK && !done);
    open_store(&read, 1, 1 << 26);
    CHECK(ucstore_replay(&read, logged, size, &place, false, &ended) == UCSTORE_OK);
    CHECK(place.last == MOST_ROWS && place.offset == size);
    /* The memtables of the view were sorted before the first piece, and are not sorted again. */
    count_anew();
    CHECK(ucstore_checkpoint_next(&checkpoint, size, 1, logged, sizeof logged, &size, &done) == UCSTORE_OK && !done);
    CHECK(asked <= FEW_BYTES);
    CHECK(ucstore_checkpoint_close(&checkpoint) == UCSTORE_OK && ucstore_view_close(&view) == UCSTORE_OK);
    CHECK(ucstore_close(&read) == UCSTORE_OK && ucstore_close(&store) == UCSTORE_OK);
}

static const struct {
    const char *name;
    void (*holds)(void);
} promises[] = {
    {"jobs_end_on_their_own_store", jobs_end_on_their_own_store},
    {"late_flush_is_kept", late_flush_is_kept},
    {"flush_without_a_slot_is_kept", flush_without_a_slot_is_kept},
    {"flush_without_memory_is_kept", flush_without_memory_is_kept},
    {"flush_ends_beside_a_prepared_batch", flush_ends_beside_a_prepared_batch},
    {"range_deletions_fill_a_memtable", range_deletions_fill_a_memtable},
    {"batches_fill_memtables", batches_fill_memtables},
    {"views_sort_once", views_sort_once},
    {"frozen_memtables_are_joined", frozen_memtables_are_joined},
    {"pieces_have_their_rows", pieces_have_their_rows},
};

/* Tests all promises, or those named by the arguments. */
int main(int argc, char **argv) {
    size_t held = 0;
    for (size_t one = 0; one < sizeof promises / sizeof *promises; one++) {
        bool named = argc < 2;
        for (int word = 1; word < argc; word++) {
            named = named || strcmp(argv[word], promises[one].name) == 0;
        }
        if (named) {
            promises[one].holds();
            held++;
        }
    }
    printf("%zu promises hold\n", held);
    return held > 0 ? 0 : 1;
}
