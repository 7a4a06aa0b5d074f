/* The costs and gains of an option of a database:
 *
 *     PROGRAM KEYS WRITES LOOKUPS SCANS [OPTION VALUE]
 *
 * A database in memory gets WRITES puts of drawn keys, of KEYS, one by one. Keys have 16 bytes and values 100. Right after the last
 * one LOOKUPS of these keys are looked up, and SCANS scans read ten rows each, while what is left is flushed and compacted.
 *
 * It prints a line: the nanoseconds of a put, those that all threads took of processors for it meanwhile, how many runs there were
 * after the last put, the nanoseconds of a lookup and of a scan, and the KiB of memory that the process had at most. */
#define _POSIX_C_SOURCE 200809L

#include <ucstore_db.h>

#include <inttypes.h>
#include <stdio.h>
#include <stdlib.h>
#include <string.h>
#include <sys/resource.h>
#include <time.h>

enum { KEY = 16, VALUE = 100, ROWS = 10 };

static struct ucstore_db *db;
static uint64_t keys, writes;

static void expect_ok(int32_t status) {
    if (status != UCSTORE_DB_OK) {
        fprintf(stderr, "tuning: %s\n", ucstore_db_error_text());
        exit(1);
    }
}

/* The number at a place of a drawn sequence, by SplitMix64. */
static uint64_t drawn(uint64_t place) {
    uint64_t mixed = place * UINT64_C(0x9e3779b97f4a7c15);
    mixed = (mixed ^ (mixed >> 30)) * UINT64_C(0xbf58476d1ce4e5b9);
    mixed = (mixed ^ (mixed >> 27)) * UINT64_C(0x94d049bb133111eb);
    return mixed ^ (mixed >> 31);
}

/* The key of a place's number. */
static void write_key(char key[KEY + 1], uint64_t place) {
    snprintf(key, KEY + 1, "%016" PRIx64, drawn(place) % keys);
}

static int64_t now(void) {
    struct timespec time;
    clock_gettime(CLOCK_MONOTONIC, &time);
    return (int64_t)time.tv_sec * 1000000000 + time.tv_nsec;
}

static struct rusage used(void) {
    struct rusage usage;
    getrusage(RUSAGE_SELF, &usage);
    return usage;
}

static int64_t nanoseconds_of(struct timeval time) {
    return (int64_t)time.tv_sec * 1000000000 + (int64_t)time.tv_usec * 1000;
}

/* The processor time of all threads. */
static int64_t processor_time(void) {
    struct rusage usage = used();
    return nanoseconds_of(usage.ru_utime) + nanoseconds_of(usage.ru_stime);
}

static void set_option(struct ucstore_db_options *options, const char *name, uint64_t value) {
    if (strcmp(name, "write_buffer_size") == 0) {
        options->write_buffer_size = value;
    } else if (strcmp(name, "compaction_trigger") == 0) {
        options->compaction_trigger = (uint32_t)value;
    } else if (strcmp(name, "max_size_amplification_percent") == 0) {
        options->max_size_amplification_percent = (uint32_t)value;
    } else {
        fprintf(stderr, "tuning: no option %s\n", name);
        exit(2);
    }
}

static void put_all(void) {
    char key[KEY + 1];
    char value[VALUE];
    for (uint64_t place = 0; place < writes; place++) {
        write_key(key, place);
        memset(value, (int)place, VALUE);
        expect_ok(ucstore_db_put(db, key, KEY, value, VALUE));
    }
}

static void look_up_all(uint64_t lookups) {
    char key[KEY + 1];
    char room[VALUE];
    size_t size;
    for (uint64_t place = 0; place < lookups; place++) {
        write_key(key, place % writes);
        expect_ok(ucstore_db_get(db, key, KEY, room, VALUE, &size));
    }
}

static void scan_all(uint64_t scans) {
    char key[KEY + 1];
    for (uint64_t place = 0; place < scans; place++) {
        struct ucstore_db_cursor *cursor;
        write_key(key, place % writes);
        expect_ok(ucstore_db_cursor(db, key, KEY, NULL, 0, false, &cursor));
        for (int row = 0; row < ROWS && ucstore_db_cursor_valid(cursor); row++) {
            expect_ok(ucstore_db_cursor_next(cursor));
        }
        ucstore_db_cursor_close(cursor);
    }
}

int main(int count, char **words) {
    struct ucstore_db_options options;
    struct ucstore_db_stats stats = {.size = sizeof stats};
    if (count != 5 && count != 7) {
        fprintf(stderr, "usage: PROGRAM KEYS WRITES LOOKUPS SCANS [OPTION VALUE]\n");
        return 2;
    }
    keys = strtoull(words[1], NULL, 10);
    writes = strtoull(words[2], NULL, 10);
    uint64_t lookups = strtoull(words[3], NULL, 10), scans = strtoull(words[4], NULL, 10);
    expect_ok(ucstore_db_options_init(&options, sizeof options));
    if (count == 7) {
        set_option(&options, words[5], strtoull(words[6], NULL, 10));
    }
    expect_ok(ucstore_db_in_memory(&options, &db));

    int64_t processor = processor_time(), begun = now();
    put_all();
    int64_t behind_puts = now();
    processor = processor_time() - processor;
    expect_ok(ucstore_db_stats(db, &stats));
    int64_t before_lookups = now();
    look_up_all(lookups);
    int64_t behind_lookups = now();
    scan_all(scans);
    int64_t behind_scans = now();

    printf("%" PRId64 " %" PRId64 " %" PRIu64 " %" PRId64 " %" PRId64 " %ld\n", (behind_puts - begun) / (int64_t)writes,
           processor / (int64_t)writes, stats.runs, (behind_lookups - before_lookups) / (int64_t)lookups,
           (behind_scans - behind_lookups) / (int64_t)scans, used().ru_maxrss);
    expect_ok(ucstore_db_close(db));
    return 0;
}
