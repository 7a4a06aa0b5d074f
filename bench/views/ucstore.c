/* The store of this repository, which threads share: a lock around each call on it, jobs for those that compact, and
 * views for those that read. */
#define _POSIX_C_SOURCE 200112L

/* How it is settled, read at a snapshot and closed. */
#include "../c/ucstore.c"

#include "store.h"

#include <pthread.h>

/* After how many writes compactors look whether there is something to do: about a tenth of a memtable. */
enum { WRITES_TO_LOOK = 10000, MOST_COMPACTORS = 8 };

static pthread_mutex_t store_lock = PTHREAD_MUTEX_INITIALIZER;
static pthread_cond_t is_grown = PTHREAD_COND_INITIALIZER, is_compacted = PTHREAD_COND_INITIALIZER;
static bool is_over;
static pthread_t compactors[MOST_COMPACTORS];
static size_t compactor_count;

/* The newest view. */
static pthread_mutex_t view_lock = PTHREAD_MUTEX_INITIALIZER;
static struct ucstore_view newest;

/* Other effects of the last `put`. */
static size_t writes_put;
static bool has_waited, has_waited_for_jobs;

struct reader {
    struct ucstore_view view;
};

static void lock(pthread_mutex_t *mutex) {
    expect(pthread_mutex_lock(mutex) == 0, "a lock isn't taken");
}

static void unlock(pthread_mutex_t *mutex) {
    expect(pthread_mutex_unlock(mutex) == 0, "a lock isn't given back");
}

void open_shared(void) {
    struct ucstore_options opening;
    expect_ok(ucstore_options_init(&opening), "there are no options");
    opening.compacts_itself = 0;
    expect_ok(ucstore_create(&store, UCSTORE_COUNTER, &opening), "the store isn't created");
}

/* Takes, runs, ends and frees jobs: the runs that one had under the lock. */
static void *compact_all(void *unused) {
    struct ucstore_job job = {0};
    bool taken = false, installed = false;
    lock(&store_lock);
    while (!is_over) {
        expect_ok(ucstore_job(&store, &job, &taken), "no job is taken");
        if (!taken) {
            expect(pthread_cond_wait(&is_grown, &store_lock) == 0, "a thread doesn't wait");
            continue;
        }
        unlock(&store_lock);
        expect_ok(ucstore_job_run(&job), "a job isn't run");
        lock(&store_lock);
        expect_ok(ucstore_job_end(&store, &job, &installed), "a job isn't ended");
        expect(installed, "a job's run is refused");
        pthread_cond_signal(&is_compacted);
        unlock(&store_lock);
        expect_ok(ucstore_job_close(&job), "a job isn't freed");
        lock(&store_lock);
    }
    unlock(&store_lock);
    return unused;
}

void start_compactors(size_t count) {
    expect(count <= MOST_COMPACTORS, "there are too many compactors");
    is_over = false;
    for (compactor_count = 0; compactor_count < count; compactor_count++) {
        expect(pthread_create(&compactors[compactor_count], NULL, compact_all, NULL) == 0, "a thread isn't started");
    }
}

void stop_compactors(void) {
    lock(&store_lock);
    is_over = true;
    pthread_cond_broadcast(&is_grown);
    unlock(&store_lock);
    for (size_t place = 0; place < compactor_count; place++) {
        expect(pthread_join(compactors[place], NULL) == 0, "a thread isn't joined");
    }
}

void put(const uint8_t *key, const uint8_t *number) {
    int32_t status;
    has_waited = pthread_mutex_trylock(&store_lock) != 0;
    if (has_waited) {
        lock(&store_lock);
    }
    status = ucstore_put(&store, key, KEY, number, NUMBER);
    has_waited_for_jobs = status == UCSTORE_RUNS_CLAIMED;
    while (status == UCSTORE_RUNS_CLAIMED) {
        expect(pthread_cond_wait(&is_compacted, &store_lock) == 0, "a thread doesn't wait");
        status = ucstore_put(&store, key, KEY, number, NUMBER);
    }
    expect_ok(status, "nothing is written");
    if (++writes_put % WRITES_TO_LOOK == 0) {
        pthread_cond_broadcast(&is_grown);
    }
    unlock(&store_lock);
}

const char *last_work(void) {
    struct ucstore_report report = {0};
    report.size = sizeof report;
    lock(&store_lock);
    expect_ok(ucstore_report(&store, &report), "there is no report");
    unlock(&store_lock);
    /* A flush leaves the memtable with the write alone that found it full. */
    if (has_waited_for_jobs) {
        return "wait for jobs";
    }
    return report.gathered <= 1 ? "flush" : has_waited ? "wait for the lock" : "write";
}

void show(void) {
    struct ucstore_view view = {0}, older;
    lock(&store_lock);
    expect_ok(ucstore_view(&store, &view), "there is no view");
    unlock(&store_lock);
    lock(&view_lock);
    older = newest;
    newest = view;
    unlock(&view_lock);
    expect(older.at == NULL || ucstore_view_close(&older) == UCSTORE_OK, "a view isn't closed");
}

struct reader *open_reader(void) {
    struct reader *reader = (struct reader *)calloc(1, sizeof *reader);
    expect(reader != NULL, "there is no memory for a reader");
    return reader;
}

void renew(struct reader *reader) {
    expect(reader->view.at == NULL || ucstore_view_close(&reader->view) == UCSTORE_OK, "a view isn't closed");
    lock(&view_lock);
    expect_ok(ucstore_view_again(&newest, &reader->view), "a view isn't there again");
    unlock(&view_lock);
}

bool look_up(struct reader *reader, const uint8_t *key, uint8_t *number) {
    size_t size = 0;
    int32_t status = ucstore_view_get(&reader->view, key, KEY, number, NUMBER, &size);
    expect(status == UCSTORE_NOT_FOUND || (status == UCSTORE_OK && size == NUMBER), "a key isn't looked up");
    return status == UCSTORE_OK;
}

void close_reader(struct reader *reader) {
    expect(reader->view.at == NULL || ucstore_view_close(&reader->view) == UCSTORE_OK, "a view isn't closed");
    free(reader);
}

void close_shared(void) {
    expect(newest.at == NULL || ucstore_view_close(&newest) == UCSTORE_OK, "a view isn't closed");
    close_store();
}
