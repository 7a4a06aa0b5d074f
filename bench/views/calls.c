/* The time that views and jobs take of the thread that owns a store:
 *
 *     PROGRAM views RUNS TIMES
 *     PROGRAM jobs RUNS POINTS TIMES
 *
 * `views`: the store has RUNS runs of 1,000 points. It prints the median nanoseconds of a view and its close where
 * nothing was written since the last one, of one after a write, and of a view that is there again and its close, each
 * TIMES times.
 *
 * `jobs`: the store has RUNS runs of POINTS points, which one job compacts, TIMES times anew. Ending it frees the old
 * runs. It prints the median and the longest nanoseconds of taking and ending a job together, and the median of either;
 * the same where a view keeps the old runs for another thread to free, and taking it is a part of ending; and the
 * median of running. */
#define _POSIX_C_SOURCE 200112L

#include "keys.h"
#include "times.h"

#include <inttypes.h>
#include <ucstore.h>

/* The number of calls that are measured at once where a call is about as long as a look at the clock. */
enum { AT_ONCE = 100 };

static struct ucstore store;

static void expect_ok(int32_t status, const char *what) {
    expect(status == UCSTORE_OK, what);
}

/* A store that flushes and compacts nothing by itself, and from a number of runs on gives out jobs. */
static void create(uint32_t trigger) {
    struct ucstore_options options;
    expect_ok(ucstore_options_init(&options), "there are no options");
    options.compacts_itself = 0;
    options.write_buffer_size = UINT64_C(1) << 40;
    options.compaction_trigger = trigger;
    options.stop_trigger = 255;
    expect_ok(ucstore_create(&store, UCSTORE_COUNTER, &options), "the store isn't created");
}

/* Sets a drawn key to its own number. */
static void put(uint64_t place) {
    uint8_t key[KEY], number[NUMBER];
    uint64_t value = drawn(place) % 100000000;
    put_key(key, value);
    put_number(number, value);
    expect_ok(ucstore_put(&store, key, KEY, number, NUMBER), "nothing is written");
}

static void put_runs(uint64_t runs, uint64_t points) {
    for (uint64_t run = 0; run < runs; run++) {
        for (uint64_t place = 0; place < points; place++) {
            put(run * points + place);
        }
        expect_ok(ucstore_flush(&store), "the store isn't flushed");
    }
}

static void expect_runs(uint64_t runs) {
    struct ucstore_report report = {0};
    report.size = sizeof report;
    expect_ok(ucstore_report(&store, &report), "there is no report");
    expect(report.runs == runs, "there are other runs");
}

/* Makes sure that a view has the keys of the first places. */
static void check_view(struct ucstore_view *view, uint64_t count) {
    for (uint64_t place = 0; place < count; place++) {
        uint8_t key[KEY], number[NUMBER];
        uint64_t wanted = drawn(place) % 100000000;
        size_t size = 0;
        put_key(key, wanted);
        expect_ok(ucstore_view_get(view, key, KEY, number, NUMBER, &size), "a key isn't there");
        expect(size == NUMBER && number_of(number) == wanted, "a key has another one's value");
    }
}

static void take(struct ucstore_view *view) {
    expect_ok(ucstore_view(&store, view), "there is no view");
}

static void drop(struct ucstore_view *view) {
    expect_ok(ucstore_view_close(view), "a view isn't closed");
}

/* The median of a view and its close, of many at once, or each after a write. */
static int64_t time_views(uint64_t count) {
    struct times times = {{0}, 0, 0};
    struct ucstore_view view = {0};
    for (uint64_t one = 0; one < count; one++) {
        int64_t start = now();
        for (int place = 0; place < AT_ONCE; place++) {
            take(&view);
            drop(&view);
        }
        add_time(&times, (now() - start) / AT_ONCE);
    }
    return time_at(&times, 500);
}

static int64_t time_views_behind_writes(uint64_t count, uint64_t written) {
    struct times times = {{0}, 0, 0};
    struct ucstore_view view = {0};
    for (uint64_t one = 0; one < count; one++) {
        int64_t start;
        put(written + one);
        start = now();
        take(&view);
        drop(&view);
        add_time(&times, now() - start);
    }
    return time_at(&times, 500);
}

static int64_t time_again(uint64_t count) {
    struct times times = {{0}, 0, 0};
    struct ucstore_view view = {0}, again = {0};
    take(&view);
    for (uint64_t one = 0; one < count; one++) {
        int64_t start = now();
        for (int place = 0; place < AT_ONCE; place++) {
            expect_ok(ucstore_view_again(&view, &again), "a view isn't there again");
            drop(&again);
        }
        add_time(&times, (now() - start) / AT_ONCE);
    }
    drop(&view);
    return time_at(&times, 500);
}

static void measure_views(uint64_t runs, uint64_t count) {
    const uint64_t points = 1000;
    struct ucstore_view view = {0};
    int64_t still, behind, again;
    create(255);
    put_runs(runs, points);
    still = time_views(count);
    again = time_again(count);
    behind = time_views_behind_writes(count, runs * points);
    expect_runs(runs);
    take(&view);
    expect_ok(ucstore_close(&store), "the store isn't closed");
    check_view(&view, runs * points + count);
    drop(&view);
    printf("%" PRId64 " %" PRId64 " %" PRId64 "\n", still, behind, again);
}

/* The times of jobs: of the owner's calls together and each, and of running. */
struct job_times {
    struct times owner, taking, ending, running;
};

/* Takes, runs and ends a job. A view keeps the old runs, if that is wanted. */
static void time_job(struct job_times *times, struct ucstore_view *view, bool keeps) {
    struct ucstore_job job = {0};
    bool taken = false, installed = false;
    int64_t start = now(), got, ran, ended;
    expect_ok(ucstore_job(&store, &job, &taken), "no job is taken");
    got = now();
    expect(taken, "there is no job");
    expect_ok(ucstore_job_run(&job), "a job isn't run");
    ran = now();
    if (keeps) {
        take(view);
    }
    expect_ok(ucstore_job_end(&store, &job, &installed), "a job isn't ended");
    ended = now();
    expect(installed, "a job's run is refused");
    expect_ok(ucstore_job_close(&job), "a job isn't freed");
    add_time(&times->taking, got - start);
    add_time(&times->running, ran - got);
    add_time(&times->ending, ended - ran);
    add_time(&times->owner, got - start + ended - ran);
}

/* A job over runs of a store that is made for it, with a look at all keys before it is closed. */
static void measure_job(struct job_times *times, uint64_t runs, uint64_t points, bool keeps) {
    struct ucstore_view old = {0}, view = {0};
    create((uint32_t)runs);
    put_runs(runs, points);
    expect_runs(runs);
    time_job(times, &old, keeps);
    expect_runs(1);
    if (keeps) {
        drop(&old);
    }
    take(&view);
    check_view(&view, runs * points);
    drop(&view);
    expect_ok(ucstore_close(&store), "the store isn't closed");
}

static void print_owner(const struct job_times *times) {
    printf("%" PRId64 " %" PRId64 " %" PRId64 " %" PRId64 " ", time_at(&times->owner, 500), times->owner.longest,
           time_at(&times->taking, 500), time_at(&times->ending, 500));
}

static void measure_jobs(uint64_t runs, uint64_t points, uint64_t count) {
    static struct job_times freeing, keeping;
    for (uint64_t one = 0; one < count; one++) {
        measure_job(&freeing, runs, points, false);
        measure_job(&keeping, runs, points, true);
    }
    print_owner(&freeing);
    print_owner(&keeping);
    printf("%" PRId64 "\n", time_at(&freeing.running, 500));
}

/* A number of the command line, at least 1. */
static uint64_t number(const char *word) {
    uint64_t value = strtoull(word, NULL, 10);
    expect(value > 0, "a number isn't above 0");
    return value;
}

int main(int count, char **words) {
    if (count == 4 && strcmp(words[1], "views") == 0) {
        measure_views(number(words[2]), number(words[3]));
    } else {
        expect(count == 5 && strcmp(words[1], "jobs") == 0, "usage: PROGRAM views RUNS TIMES|jobs RUNS POINTS TIMES");
        measure_jobs(number(words[2]), number(words[3]), number(words[4]));
    }
    return 0;
}
