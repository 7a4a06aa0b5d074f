/* Runs works over a database, one after the other, and prints a line for each:
 *
 *     PROGRAM FOLDER|memory synced|unsynced THREADS KEYS VALUE WORK[:OPERATIONS][:THREADS]..
 *
 * KEYS is how many keys there are, of 16 bytes, VALUE how many bytes a value has, and OPERATIONS how many a work has: KEYS
 * where it says none. The works have the names of RocksDB's db_bench and of YCSB:
 *
 * - fillseq, fillrandom, overwrite: sets keys, in order or drawn; deleterandom; mergerandom: adds to drawn counters;
 * - readrandom, multireadrandom (32 keys a call), readseq and readreverse (all rows in their order, or against it), seekrandom and
 *   seekreverse (a scan of ten rows);
 * - readwhilewriting: lookups, while one thread more sets drawn keys;
 * - load, and a to f: YCSB's workloads, whose keys are drawn by a power law; a-even, b-even and c-even draw them evenly. The scans of e
 *   have 1 to 100 rows, f reads, and writes what it read;
 * - checkpoint: sets drawn keys beside a thread that makes checkpoints; open: closes, and opens again.
 *
 * A line has the work, its threads, its operations, the nanoseconds of all, and of one operation the nanoseconds of the
 * median, the 99th and the 99.9th percent and the longest; then the KiB of memory that the process has, and with it the server
 * whose id STORE_SERVER names, if it does; and the KiB that the process wrote to files since the line before: the pages that it
 * made dirty, as /proc/self/io counts them, also through a map.
 *
 * Two words aren't works, and have no line: `settle` waits until nothing is left to be compacted, and `check` checks that a database
 * without rows gives back what is written. A database whose keys have no order leaves out the works that scan.
 *
 * A value begins with the number of its key. So each value that is read is checked. */
#define _POSIX_C_SOURCE 200809L

#include "../views/times.h"
#include "check.h"
#include "keys.h"
#include "zipf.h"

#include <inttypes.h>
#include <pthread.h>
#include <stdatomic.h>
#include <string.h>

enum { MOST_THREADS = 64, TOGETHER = 32, VALUES = 1 << 20, MOST_VALUE = 1 << 16 };

static struct settings settings;
static uint64_t keys, seed;
static size_t value_length;
static struct zipf few;
static uint8_t values[VALUES + MOST_VALUE];

/* The number that the next record of YCSB gets. */
static _Atomic uint64_t records;

static _Atomic bool is_over;

/* A thread that works. */
struct worker {
    pthread_t thread;
    const struct work *work;
    struct session *session;
    uint64_t first, count;
    struct times times;
};

struct work {
    const char *name;
    void (*run)(struct worker *worker, uint64_t place);
    /* The work of one thread more meanwhile, if there is one. */
    void (*beside)(struct worker *worker, uint64_t place);
};

/* The number at a place of a drawn sequence, by SplitMix64. */
static uint64_t drawn(uint64_t place) {
    uint64_t mixed = (place + seed) * UINT64_C(0x9e3779b97f4a7c15);
    mixed = (mixed ^ mixed >> 30) * UINT64_C(0xbf58476d1ce4e5b9);
    mixed = (mixed ^ mixed >> 27) * UINT64_C(0x94d049bb133111eb);
    return mixed ^ mixed >> 31;
}

/* A drawn value that begins with a number. */
static struct text value_in(uint8_t *room, uint64_t number, uint64_t place) {
    memcpy(room, values + drawn(place) % VALUES, value_length);
    put_number(room, number);
    return (struct text){room, value_length};
}

static void set_key(struct worker *worker, uint64_t number, uint64_t place) {
    uint8_t key[KEY], value[MOST_VALUE];
    put(worker->session, key_in(key, 'k', number), value_in(value, number, place));
}

static void look_up(struct worker *worker, uint64_t number) {
    uint8_t key[KEY];
    struct text value;
    if (get(worker->session, key_in(key, 'k', number), &value)) {
        expect(value.length == value_length && number_of(value.bytes, 8) == number, "a key has another one's value");
    }
}

static void read_rows(struct worker *worker, uint64_t number, uint64_t limit) {
    uint8_t key[KEY];
    scan(worker->session, key_in(key, 'k', number), limit);
}

static void fill_in_order(struct worker *worker, uint64_t place) {
    set_key(worker, place % keys, place);
}

static void fill_drawn(struct worker *worker, uint64_t place) {
    set_key(worker, drawn(place) % keys, place);
}

static void read_drawn(struct worker *worker, uint64_t place) {
    look_up(worker, drawn(place) % keys);
}

static void read_together(struct worker *worker, uint64_t place) {
    uint8_t rooms[TOGETHER][KEY];
    struct text texts[TOGETHER];
    for (size_t one = 0; one < TOGETHER; one++) {
        texts[one] = key_in(rooms[one], 'k', drawn(place * TOGETHER + one) % keys);
    }
    get_many(worker->session, texts, TOGETHER);
}

static void read_all(struct worker *worker, uint64_t place) {
    (void)place;
    read_rows(worker, 0, UINT64_MAX);
}

static void seek_drawn(struct worker *worker, uint64_t place) {
    read_rows(worker, drawn(place) % keys, 10);
}

/* Reads rows up to a key, the greatest first. */
static void read_rows_back(struct worker *worker, uint64_t number, uint64_t limit) {
    uint8_t key[KEY];
    expect(scan_back(worker->session, key_in(key, 'k', number), limit) > 0 || limit == 0, "a scan has no rows");
}

static void read_all_back(struct worker *worker, uint64_t place) {
    (void)place;
    read_rows_back(worker, UINT64_MAX, UINT64_MAX);
}

static void seek_drawn_back(struct worker *worker, uint64_t place) {
    read_rows_back(worker, drawn(place) % keys, 10);
}

static void add_drawn(struct worker *worker, uint64_t place) {
    uint8_t key[KEY];
    add(worker->session, key_in(key, 'm', drawn(place) % keys), 1);
}

static void delete_drawn(struct worker *worker, uint64_t place) {
    uint8_t key[KEY];
    delete_key(worker->session, key_in(key, 'k', drawn(place) % keys));
}

static void make_checkpoint(struct worker *worker, uint64_t place) {
    (void)worker, (void)place;
    checkpoint();
}

/* A record of YCSB, by the power law. */
static uint64_t frequent(uint64_t place) {
    double share = (double)(drawn(place) >> 11) / (double)(UINT64_C(1) << 53);
    return drawn(zipf_rank(&few, share)) % keys;
}

static uint64_t even(uint64_t place) {
    return drawn(place) % keys;
}

/* One of the last records, the last most often. */
static uint64_t recent(uint64_t place) {
    double share = (double)(drawn(place) >> 11) / (double)(UINT64_C(1) << 53);
    uint64_t rank = zipf_rank(&few, share), last = atomic_load(&records);
    return last - 1 - rank % last;
}

static void insert_next(struct worker *worker, uint64_t place) {
    set_key(worker, atomic_fetch_add(&records, 1), place);
}

/* Whether the operation at a place is one of a number of a hundred. */
static bool is_among(uint64_t place, uint64_t of_hundred) {
    return drawn(~place) % 100 < of_hundred;
}

static void read_or_update(struct worker *worker, uint64_t place, uint64_t reads, uint64_t record) {
    if (is_among(place, reads)) {
        look_up(worker, record);
    } else {
        set_key(worker, record, place);
    }
}

static void ycsb_a(struct worker *worker, uint64_t place) {
    read_or_update(worker, place, 50, frequent(place));
}

static void ycsb_b(struct worker *worker, uint64_t place) {
    read_or_update(worker, place, 95, frequent(place));
}

static void ycsb_c(struct worker *worker, uint64_t place) {
    look_up(worker, frequent(place));
}

static void ycsb_d(struct worker *worker, uint64_t place) {
    if (is_among(place, 95)) {
        look_up(worker, recent(place));
    } else {
        insert_next(worker, place);
    }
}

static void ycsb_e(struct worker *worker, uint64_t place) {
    if (is_among(place, 95)) {
        read_rows(worker, frequent(place), 1 + drawn(place ^ keys) % 100);
    } else {
        insert_next(worker, place);
    }
}

static void ycsb_f(struct worker *worker, uint64_t place) {
    uint64_t record = frequent(place);
    look_up(worker, record);
    if (!is_among(place, 50)) {
        set_key(worker, record, place);
    }
}

static void even_a(struct worker *worker, uint64_t place) {
    read_or_update(worker, place, 50, even(place));
}

static void even_b(struct worker *worker, uint64_t place) {
    read_or_update(worker, place, 95, even(place));
}

static void even_c(struct worker *worker, uint64_t place) {
    look_up(worker, even(place));
}

static void open_again(struct worker *worker, uint64_t place) {
    (void)place;
    close_session(worker->session);
    close_store();
    open_store(&settings);
    worker->session = open_session();
    look_up(worker, 0);
}

static const struct work works[] = {
    {"fillseq", fill_in_order, NULL},
    {"fillrandom", fill_drawn, NULL},
    {"overwrite", fill_drawn, NULL},
    {"readrandom", read_drawn, NULL},
    {"multireadrandom", read_together, NULL},
    {"readseq", read_all, NULL},
    {"readreverse", read_all_back, NULL},
    {"seekrandom", seek_drawn, NULL},
    {"seekreverse", seek_drawn_back, NULL},
    {"mergerandom", add_drawn, NULL},
    {"deleterandom", delete_drawn, NULL},
    {"readwhilewriting", read_drawn, fill_drawn},
    {"checkpoint", fill_drawn, make_checkpoint},
    {"open", open_again, NULL},
    {"load", insert_next, NULL},
    {"a", ycsb_a, NULL},
    {"b", ycsb_b, NULL},
    {"c", ycsb_c, NULL},
    {"d", ycsb_d, NULL},
    {"e", ycsb_e, NULL},
    {"f", ycsb_f, NULL},
    {"a-even", even_a, NULL},
    {"b-even", even_b, NULL},
    {"c-even", even_c, NULL},
};

static void *work_all(void *state) {
    struct worker *worker = (struct worker *)state;
    worker->session = open_session();
    for (uint64_t place = worker->first; place < worker->first + worker->count; place++) {
        int64_t begin = now();
        worker->work->run(worker, place);
        add_time(&worker->times, now() - begin);
    }
    close_session(worker->session);
    return NULL;
}

/* Works until the others are done. */
static void *work_beside(void *state) {
    struct worker *worker = (struct worker *)state;
    worker->session = open_session();
    for (uint64_t place = worker->first; !atomic_load(&is_over); place++) {
        worker->work->beside(worker, place);
    }
    close_session(worker->session);
    return NULL;
}

static void start(struct worker *worker, void *(*work)(void *)) {
    expect(pthread_create(&worker->thread, NULL, work, worker) == 0, "a thread isn't started");
}

static void join(struct worker *worker) {
    expect(pthread_join(worker->thread, NULL) == 0, "a thread isn't joined");
}

/* The KiB of memory that a process has. */
static uint64_t memory_of(const char *process) {
    char path[64];
    uint64_t pages = 0;
    FILE *file;
    snprintf(path, sizeof path, "/proc/%s/statm", process);
    file = fopen(path, "r");
    expect(file != NULL && fscanf(file, "%*s %" SCNu64, &pages) == 1, "there is no /proc/PROCESS/statm");
    fclose(file);
    return pages * 4;
}

/* The KiB of memory of this process, and of the server that has the rows, if there is one. */
static uint64_t memory(void) {
    const char *server = getenv("STORE_SERVER");
    return memory_of("self") + (server == NULL ? 0 : memory_of(server));
}

/* The KiB that this process wrote to files. */
static uint64_t written(void) {
    char name[32];
    uint64_t bytes = 0, value;
    FILE *file = fopen("/proc/self/io", "r");
    expect(file != NULL, "there is no /proc/self/io");
    while (fscanf(file, "%31s %" SCNu64, name, &value) == 2) {
        if (strcmp(name, "write_bytes:") == 0) {
            bytes = value;
        }
    }
    fclose(file);
    return bytes / 1024;
}

static struct worker workers[MOST_THREADS + 1];

/* Runs a work by a number of threads, and prints its line. */
static void measure(const struct work *work, size_t threads, uint64_t operations) {
    static struct times times;
    static uint64_t written_before;
    struct worker *beside = &workers[threads];
    uint64_t written_now;
    int64_t begin, spent;
    memset(&times, 0, sizeof times);
    memset(workers, 0, sizeof workers);
    /* Other works draw other numbers. */
    seed += UINT64_C(1) << 40;
    atomic_store(&is_over, false);
    begin = now();
    for (size_t place = 0; place < threads; place++) {
        uint64_t share = operations / threads;
        workers[place].work = work;
        workers[place].first = share * place;
        workers[place].count = share;
        start(&workers[place], work_all);
    }
    if (work->beside != NULL) {
        beside->work = work;
        beside->first = UINT64_C(1) << 39;
        start(beside, work_beside);
    }
    for (size_t place = 0; place < threads; place++) {
        join(&workers[place]);
        add_times(&times, &workers[place].times);
    }
    spent = now() - begin;
    if (work->beside != NULL) {
        atomic_store(&is_over, true);
        join(beside);
    }
    written_now = written();
    printf("%s %zu %" PRIu64 " %" PRId64 " %" PRId64 " %" PRId64 " %" PRId64 " %" PRId64 " %" PRIu64 " %" PRIu64 "\n", work->name,
           threads, times.count, spent, time_at(&times, 500), time_at(&times, 990), time_at(&times, 999), times.longest, memory(),
           written_now - written_before);
    written_before = written_now;
    fflush(stdout);
}

static uint64_t number(const char *word) {
    uint64_t value = strtoull(word, NULL, 10);
    expect(value > 0, "a number isn't above 0");
    return value;
}

static const struct work *work_of(const char *name, size_t length) {
    for (size_t place = 0; place < sizeof works / sizeof works[0]; place++) {
        if (strlen(works[place].name) == length && memcmp(works[place].name, name, length) == 0) {
            return &works[place];
        }
    }
    expect(false, name);
    return NULL;
}

/* Whether a work scans. */
static bool is_scan(const struct work *work) {
    return work->run == read_all || work->run == read_all_back || work->run == seek_drawn || work->run == seek_drawn_back ||
           work->run == ycsb_e;
}

/* Runs a work, whose name a word begins with. */
static void run_work(const char *word, size_t threads) {
    size_t length = strcspn(word, ":");
    const char *rest = word + length;
    const struct work *work = work_of(word, length);
    uint64_t operations = keys;
    if (*rest == ':') {
        operations = number(rest + 1);
        rest += 1 + strcspn(rest + 1, ":");
    }
    if (*rest == ':') {
        threads = number(rest + 1);
    }
    expect(threads <= MOST_THREADS, "there are too many threads");
    if (has_scans || !is_scan(work)) {
        measure(work, threads, operations);
    }
}

static void run_word(const char *word, size_t threads) {
    if (strcmp(word, "settle") == 0) {
        settle();
    } else if (strcmp(word, "check") == 0) {
        check_store(&settings);
    } else {
        run_work(word, threads);
    }
}

int main(int count, char **words) {
    expect(count > 6, "usage: PROGRAM FOLDER|memory synced|unsynced THREADS KEYS VALUE WORK[:OPERATIONS][:THREADS]..");
    settings.folder = strcmp(words[1], "memory") == 0 ? NULL : words[1];
    settings.is_synced = strcmp(words[2], "synced") == 0;
    keys = number(words[4]);
    value_length = number(words[5]);
    expect(value_length >= 8 && value_length <= MOST_VALUE, "a value has 8 bytes to 64 KiB");
    few = zipf_of(keys);
    for (size_t place = 0; place < sizeof values; place++) {
        values[place] = (uint8_t)drawn(place);
    }
    open_store(&settings);
    for (int place = 6; place < count; place++) {
        run_word(words[place], number(words[3]));
    }
    close_store();
    return 0;
}
