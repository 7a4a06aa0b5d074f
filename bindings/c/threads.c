/* Threads share a store for a second: one writes batches that increment every key, four read views, in which all keys must have the
 * same count, and two run compaction jobs. Prints a line if every view was consistent. */
#define _POSIX_C_SOURCE 200112L

#include <pthread.h>
#include <sched.h>
#include <stdio.h>
#include <stdlib.h>
#include <time.h>
#include <ucstore.h>

#define CHECK(test)                                                  \
    do {                                                             \
        if (!(test)) {                                               \
            printf("%s:%d: %s\n", __FILE__, __LINE__, #test);        \
            exit(1);                                                 \
        }                                                            \
    } while (0)

enum { KEYS = 50, READERS = 4, COMPACTORS = 2, NUMBER = 8 };

/* The store, and a flag that is set while it is written to. */
static pthread_mutex_t store_lock = PTHREAD_MUTEX_INITIALIZER;
static struct ucstore store;
static bool is_written = true;

/* The newest view, which the writer puts here. */
static pthread_mutex_t view_lock = PTHREAD_MUTEX_INITIALIZER;
static struct ucstore_view newest;

static void lock(pthread_mutex_t *mutex) {
    CHECK(pthread_mutex_lock(mutex) == 0);
}

static void unlock(pthread_mutex_t *mutex) {
    CHECK(pthread_mutex_unlock(mutex) == 0);
}

static bool goes_on(void) {
    bool found;
    lock(&store_lock);
    found = is_written;
    unlock(&store_lock);
    return found;
}

static uint64_t number(const uint8_t *text) {
    uint64_t sum = 0;
    for (int place = NUMBER; place-- > 0;) {
        sum = sum << 8 | text[place];
    }
    return sum;
}

/* Returns the count of all keys of a view. */
static uint64_t count_in(struct ucstore_view *view) {
    uint8_t keys[KEYS], values[KEYS * NUMBER];
    uint64_t key_lengths[KEYS], lengths[KEYS], last = 0;
    size_t size = 0;
    for (int key = 0; key < KEYS; key++) {
        keys[key] = (uint8_t)key;
        key_lengths[key] = 1;
    }
    CHECK(ucstore_view_get_many(view, keys, KEYS, key_lengths, KEYS, lengths, KEYS, values, sizeof values, &size)
          == UCSTORE_OK);
    CHECK(size == sizeof values && ucstore_view_last(view, &last) == UCSTORE_OK);
    for (int key = 0; key < KEYS; key++) {
        CHECK(lengths[key] == NUMBER && KEYS * number(values + NUMBER * key) == last);
    }
    return last / KEYS;
}

/* Returns true if a scan of a view finds each key once with its count. */
static bool has_all(struct ucstore_view *view, uint64_t count) {
    enum { ROW = NUMBER + 1 + NUMBER + NUMBER };
    uint8_t rows[KEYS * ROW];
    uint64_t shown = 0;
    size_t size = 0;
    CHECK(ucstore_view_scan(view, NULL, 0, NULL, 0, false, UINT64_MAX, rows, sizeof rows, &size, &shown) == UCSTORE_OK);
    for (int key = 0; key < KEYS && shown == KEYS; key++) {
        const uint8_t *row = rows + ROW * key;
        if (row[NUMBER] != key || number(row + ROW - NUMBER) != count) {
            return false;
        }
    }
    return shown == KEYS && size == sizeof rows;
}

/* Increments each key, and publishes a view to the readers. */
static void write_one(struct ucstore_batch *batch) {
    struct ucstore_view view = {0}, older;
    int32_t status;
    lock(&store_lock);
    status = ucstore_write(&store, batch);
    CHECK(status == UCSTORE_OK || status == UCSTORE_RUNS_CLAIMED);
    CHECK(status != UCSTORE_OK || ucstore_view(&store, &view) == UCSTORE_OK);
    unlock(&store_lock);
    if (status == UCSTORE_OK) {
        lock(&view_lock);
        older = newest;
        newest = view;
        unlock(&view_lock);
        ucstore_view_close(&older);
    }
}

static double seconds(void) {
    struct timespec now;
    CHECK(clock_gettime(CLOCK_MONOTONIC, &now) == 0);
    return (double)now.tv_sec + (double)now.tv_nsec / 1e9;
}

static void *write_all(void *unused) {
    static const uint8_t one[NUMBER] = {1};
    struct ucstore_batch batch = {0};
    double start = seconds();
    for (int key = 0; key < KEYS; key++) {
        uint8_t text = (uint8_t)key;
        CHECK(ucstore_batch_merge(&batch, &text, 1, one, NUMBER) == UCSTORE_OK);
    }
    while (seconds() < start + 1) {
        write_one(&batch);
    }
    CHECK(ucstore_batch_close(&batch) == UCSTORE_OK);
    lock(&store_lock);
    is_written = false;
    unlock(&store_lock);
    return unused;
}

static void *read_all(void *unused) {
    uint64_t before = 0;
    while (goes_on()) {
        struct ucstore_view view = {0};
        int32_t status;
        lock(&view_lock);
        status = ucstore_view_again(&newest, &view);
        unlock(&view_lock);
        if (status == UCSTORE_OK) {
            uint64_t count = count_in(&view);
            CHECK(count >= before && has_all(&view, count));
            before = count;
            CHECK(ucstore_view_close(&view) == UCSTORE_OK);
        } else {
            CHECK(status == UCSTORE_NO_VIEW && before == 0);
        }
    }
    return unused;
}

static void *compact_all(void *unused) {
    struct ucstore_job job = {0};
    while (goes_on()) {
        bool taken = false, installed = false;
        lock(&store_lock);
        CHECK(ucstore_job(&store, &job, &taken) == UCSTORE_OK);
        unlock(&store_lock);
        if (taken) {
            CHECK(ucstore_job_run(&job) == UCSTORE_OK);
            lock(&store_lock);
            /* A write may have flushed the memtables of the job. */
            CHECK(ucstore_job_end(&store, &job, &installed) == UCSTORE_OK);
            unlock(&store_lock);
            CHECK(ucstore_job_close(&job) == UCSTORE_OK);
        } else {
            sched_yield();
        }
    }
    return unused;
}

int main(void) {
    void *(*const work[])(void *) = {write_all, read_all, compact_all};
    pthread_t threads[1 + READERS + COMPACTORS];
    struct ucstore_options options;
    CHECK(ucstore_options_init(&options) == UCSTORE_OK);
    options.write_buffer_size = 4096;
    options.compacts_itself = 0;
    options.max_write_buffer_number = 2;
    CHECK(ucstore_create(&store, UCSTORE_COUNTER, &options) == UCSTORE_OK);
    for (int one = 0; one < 1 + READERS + COMPACTORS; one++) {
        CHECK(pthread_create(&threads[one], NULL, work[one == 0 ? 0 : one <= READERS ? 1 : 2], NULL) == 0);
    }
    for (int one = 0; one < 1 + READERS + COMPACTORS; one++) {
        CHECK(pthread_join(threads[one], NULL) == 0);
    }
    CHECK(ucstore_close(&store) == UCSTORE_OK);
    CHECK(count_in(&newest) > 0 && ucstore_view_close(&newest) == UCSTORE_OK);
    printf("all views agree\n");
    return 0;
}
