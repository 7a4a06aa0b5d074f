/* One measurement of a database in a folder. It prints a line of names and figures.
 *
 *     costs leave FOLDER ROWS         puts rows, and makes a checkpoint of the runs as they are
 *     costs compact FOLDER            compacts all to one run, and makes a checkpoint
 *     costs open FOLDER               opens the database, and reads a key
 *     costs overwrite FOLDER ROWS     puts a drawn key of the rows as many times, with the default options
 *     costs alone FOLDER ROWS         the same without checkpoints
 *     costs add FOLDER ROWS MIB       puts MiB of new rows, and makes a checkpoint
 *
 * A key has 16 bytes and a value 100. Nothing is synced but what checkpoints sync. */
#define _GNU_SOURCE
#include <inttypes.h>
#include <stdio.h>
#include <stdlib.h>
#include <string.h>
#include <sys/resource.h>
#include <time.h>

#include <ucstore_db.h>

enum { KEY = 16, VALUE = 100 };

static struct ucstore_db *db;

static void expect_ok(int32_t status) {
    if (status != UCSTORE_DB_OK) {
        fprintf(stderr, "costs: %s\n", ucstore_db_error_text());
        exit(1);
    }
}

static uint64_t now(void) {
    struct timespec time;
    clock_gettime(CLOCK_MONOTONIC, &time);
    return (uint64_t)time.tv_sec * 1000000000 + (uint64_t)time.tv_nsec;
}

/* Processor time of the process in microseconds. */
static uint64_t processor_time(void) {
    struct rusage usage;
    getrusage(RUSAGE_SELF, &usage);
    return (uint64_t)(usage.ru_utime.tv_sec + usage.ru_stime.tv_sec) * 1000000 +
           (uint64_t)(usage.ru_utime.tv_usec + usage.ru_stime.tv_usec);
}

/* Returns a figure of the process's status in kB. */
static uint64_t memory(const char *name) {
    char line[256];
    uint64_t found = 0;
    FILE *status = fopen("/proc/self/status", "r");
    while (status != NULL && fgets(line, sizeof line, status) != NULL) {
        if (strncmp(line, name, strlen(name)) == 0) {
            found = strtoull(line + strlen(name) + 1, NULL, 10);
        }
    }
    if (status != NULL) {
        fclose(status);
    }
    return found;
}

/* Draws the next number. */
static uint64_t draw(uint64_t *state) {
    *state ^= *state << 13;
    *state ^= *state >> 7;
    *state ^= *state << 17;
    return *state;
}

/* Returns the number of times that another thread took this one's processor. */
static long preemptions(void) {
    struct rusage usage;
    getrusage(RUSAGE_THREAD, &usage);
    return usage.ru_nivcsw;
}

/* Puts the row of a number, in no order of the numbers. Returns the time it took. */
static uint64_t put(uint64_t number) {
    char key[KEY + 1], value[VALUE];
    uint64_t mixed = number * UINT64_C(0x9E3779B97F4A7C15), begun;
    snprintf(key, sizeof key, "%016" PRIx64, mixed);
    memset(value, 'v', sizeof value);
    begun = now();
    expect_ok(ucstore_db_put(db, key, KEY, value, VALUE));
    return now() - begun;
}

static struct ucstore_db_options usual_options(void) {
    struct ucstore_db_options options;
    expect_ok(ucstore_db_options_init(&options, sizeof options));
    options.sync = UCSTORE_DB_SYNC_NEVER;
    return options;
}

/* Options of a database that makes no checkpoint by itself. */
static struct ucstore_db_options quiet_options(void) {
    struct ucstore_db_options options = usual_options();
    options.checkpoint_least = UINT64_MAX;
    return options;
}

static struct ucstore_db_stats stats(void) {
    struct ucstore_db_stats found = {.size = sizeof found};
    expect_ok(ucstore_db_stats(db, &found));
    return found;
}

static void print_runs(void) {
    expect_ok(ucstore_db_checkpoint(db));
    printf("runs %" PRIu64 " bytes %" PRIu64 "\n", stats().runs, stats().bytes);
}

static void leave(uint64_t rows) {
    for (uint64_t number = 0; number < rows; number++) {
        put(number);
    }
    print_runs();
}

static void compact(const char *folder) {
    struct ucstore_db_options options = quiet_options();
    options.compaction_trigger = 1;
    options.max_size_amplification_percent = 0;
    options.compactors = 0;
    expect_ok(ucstore_db_open(folder, &options, &db));
    expect_ok(ucstore_db_flush(db));
    expect_ok(ucstore_db_compact(db));
    print_runs();
}

static void open_once(const char *folder) {
    char value[VALUE];
    size_t size;
    struct ucstore_db_options options = quiet_options();
    uint64_t begun = now();
    expect_ok(ucstore_db_open(folder, &options, &db));
    uint64_t microseconds = (now() - begun) / 1000, processors = processor_time(), most = memory("VmHWM"), after = memory("VmRSS");
    expect_ok(ucstore_db_get(db, "0000000000000000", KEY, value, sizeof value, &size));
    printf("us %" PRIu64 " processors_us %" PRIu64 " hwm_kb %" PRIu64 " rss_kb %" PRIu64 " runs %" PRIu64 " bytes %" PRIu64 "\n",
           microseconds, processors, most, after, stats().runs, stats().bytes);
}

static void overwrite(uint64_t rows) {
    uint64_t state = UINT64_C(88172645463325252), longest = 0, longest_running = 0, late = 0, late_running = 0, begun = now();
    for (uint64_t count = 0; count < rows; count++) {
        long before = preemptions();
        uint64_t taken = put(draw(&state) % rows);
        longest = taken > longest ? taken : longest;
        late += taken > 10000000;
        // A machine with other work takes the processor away for some milliseconds.
        if (preemptions() == before) {
            longest_running = taken > longest_running ? taken : longest_running;
            late_running += taken > 10000000;
        }
    }
    uint64_t all = now() - begun;
    struct ucstore_db_stats found = stats();
    printf("ms %" PRIu64 " longest_us %" PRIu64 " above_10ms %" PRIu64 " not_preempted_longest_us %" PRIu64
           " not_preempted_above_10ms %" PRIu64 " logged %" PRIu64 " written %" PRIu64 " checkpoints %" PRIu64
           "\n", all / 1000000, longest / 1000, late, longest_running / 1000, late_running, found.logged_bytes,
           found.base_bytes, found.checkpoints);
}

static void add(uint64_t rows, uint64_t mebibytes) {
    uint64_t count = (mebibytes << 20) / (KEY + VALUE), before;
    for (uint64_t number = 0; number < count; number++) {
        put(rows + number);
    }
    before = stats().base_bytes;
    uint64_t begun = now();
    expect_ok(ucstore_db_checkpoint(db));
    uint64_t taken = (now() - begun) / 1000000;
    printf("written %" PRIu64 " ms %" PRIu64 " logged %" PRIu64 " bytes %" PRIu64 "\n", stats().base_bytes - before, taken,
           stats().logged_bytes, stats().bytes);
}

int main(int count, char **words) {
    const char *work = count > 1 ? words[1] : "", *folder = count > 2 ? words[2] : NULL;
    uint64_t rows = count > 3 ? strtoull(words[3], NULL, 10) : 0, mebibytes = count > 4 ? strtoull(words[4], NULL, 10) : 0;
    if (folder == NULL) {
        fprintf(stderr, "usage: costs WORK FOLDER [ROWS [MIB]]\n");
        return 2;
    }
    if (strcmp(work, "open") == 0) {
        open_once(folder);
    } else if (strcmp(work, "compact") == 0) {
        compact(folder);
    } else {
        struct ucstore_db_options options = strcmp(work, "overwrite") == 0 ? usual_options() : quiet_options();
        expect_ok(ucstore_db_open(folder, &options, &db));
        if (strcmp(work, "leave") == 0) {
            leave(rows);
        } else if (strcmp(work, "add") == 0) {
            add(rows, mebibytes);
        } else {
            overwrite(rows);
        }
    }
    expect_ok(ucstore_db_close(db));
    return 0;
}
