/* Works of threads over a store, with their times:
 *
 *     PROGRAM lookups READERS SECONDS
 *     PROGRAM writes WRITES
 *
 * `lookups`: the store has 300,000 keys. One thread goes on to set drawn ones, and shows what it wrote after each 1,000
 * writes, and one compacts. Meanwhile readers look drawn keys up, one by one, and renew what they read after each 1,000
 * lookups. It prints the lookups and the writes a second, and of a lookup the nanoseconds of the median, the 99th and
 * the 99.9th percent, the longest, and what one took of processors, all else that readers do included.
 *
 * `writes`: one thread sets WRITES keys drawn of as many, one by one, while two compact. Then it looks a million of the
 * keys up, in the runs that there are. It prints the nanoseconds of all, the median, the 99.9th percent, the longest, the
 * nanoseconds of all lookups, the KiB that the process had at most before them, and what the longest write was.
 *
 * A value is the number of its write, from which its key is drawn. So each lookup is checked, and each key at last. */
#define _POSIX_C_SOURCE 200112L

#include "keys.h"
#include "store.h"
#include "times.h"

#include <inttypes.h>
#include <pthread.h>
#include <sys/resource.h>

enum { FILLED = 300000, PER_ROUND = 1000, MOST_READERS = 16, BEHIND = 1000000 };

/* The writes before any thread is started, each of a key of its own, and how many keys there are. */
static uint64_t filled, keys;

/* When threads stop. */
static int64_t end;

/* A thread that reads: the place from which on its keys are drawn, the times of its lookups, and what it took of
 * processors. */
struct reading {
    pthread_t thread;
    uint64_t first;
    struct times times;
    int64_t spent;
};

static struct reading readings[MOST_READERS];

/* The number of the key of a write. 7919 divides no number of keys. */
static uint64_t key_of(uint64_t write) {
    return (write <= filled ? write * 7919 : drawn(write)) % keys;
}

static void put_write(uint64_t write) {
    uint8_t key[KEY], number[NUMBER];
    put_key(key, key_of(write));
    put_number(number, write);
    put(key, number);
}

/* Looks a key up, which is there. */
static void check_lookup(struct reader *reader, uint64_t wanted, struct times *times) {
    uint8_t key[KEY], number[NUMBER];
    int64_t start;
    bool found;
    put_key(key, wanted);
    start = now();
    found = look_up(reader, key, number);
    add_time(times, now() - start);
    expect(found && key_of(number_of(number)) == wanted, "a key has another one's value");
}

static void *read_drawn(void *state) {
    struct reading *reading = (struct reading *)state;
    struct reader *reader = open_reader();
    /* On the thread's own stack, since what threads share is slower to write to. */
    struct times times = {{0}, 0, 0};
    uint64_t next = reading->first;
    while (now() < end) {
        renew(reader);
        for (int place = 0; place < PER_ROUND; place++) {
            check_lookup(reader, drawn(next++) % keys, &times);
        }
    }
    close_reader(reader);
    reading->times = times;
    reading->spent = processor_time();
    return NULL;
}

/* Writes until threads stop. The state is the number of the last write. */
static void *write_drawn(void *state) {
    uint64_t *last = (uint64_t *)state;
    while (now() < end) {
        for (int place = 0; place < PER_ROUND; place++) {
            put_write(++*last);
        }
        show();
    }
    return NULL;
}

/* Settles the store, makes sure that each key has its newest value, and closes it. */
static void check_all(uint64_t last) {
    uint64_t *newest = (uint64_t *)calloc(keys, sizeof *newest);
    expect(newest != NULL, "there is no memory for what was written");
    for (uint64_t write = 1; write <= last; write++) {
        newest[key_of(write)] = write;
    }
    settle();
    take_snapshot();
    for (uint64_t place = 0; place < keys; place++) {
        uint8_t key[KEY], number[NUMBER];
        put_key(key, place);
        put_number(number, newest[place]);
        expect(get(key, 0) == (newest[place] == 0 ? with_nothing(0) : with_bytes(0, number, NUMBER)),
               "a key hasn't its newest value");
    }
    free(newest);
    close_shared();
}

/* A store with all keys, settled and read once. */
static void fill(void) {
    struct reader *reader;
    struct times unused = {{0}, 0, 0};
    filled = keys = FILLED;
    open_shared();
    for (uint64_t write = 1; write <= filled; write++) {
        put_write(write);
    }
    settle();
    show();
    reader = open_reader();
    renew(reader);
    for (uint64_t key = 0; key < keys; key++) {
        check_lookup(reader, key, &unused);
    }
    close_reader(reader);
}

static void start_thread(pthread_t *thread, void *(*work)(void *), void *state) {
    expect(pthread_create(thread, NULL, work, state) == 0, "a thread isn't started");
}

static void join_thread(pthread_t thread) {
    expect(pthread_join(thread, NULL) == 0, "a thread isn't joined");
}

/* Runs a writer and readers, and says the number of the last write. */
static uint64_t run_threads(size_t count, int64_t seconds) {
    pthread_t writer;
    uint64_t last = filled;
    start_compactors(1);
    end = now() + seconds * 1000000000;
    start_thread(&writer, write_drawn, &last);
    for (size_t place = 0; place < count; place++) {
        readings[place].first = (uint64_t)(place + 1) << 48;
        start_thread(&readings[place].thread, read_drawn, &readings[place]);
    }
    for (size_t place = 0; place < count; place++) {
        join_thread(readings[place].thread);
    }
    join_thread(writer);
    stop_compactors();
    return last;
}

static void measure_lookups(size_t count, uint64_t seconds) {
    static struct times times;
    int64_t spent = 0;
    uint64_t last;
    expect(count <= MOST_READERS, "there are too many readers");
    fill();
    last = run_threads(count, (int64_t)seconds);
    for (size_t place = 0; place < count; place++) {
        add_times(&times, &readings[place].times);
        spent += readings[place].spent;
    }
    check_all(last);
    printf("%" PRIu64 " %" PRIu64 " %" PRId64 " %" PRId64 " %" PRId64 " %" PRId64 " %" PRId64 "\n",
           times.count / seconds, (last - filled) / seconds, time_at(&times, 500), time_at(&times, 990),
           time_at(&times, 999), times.longest, spent / (int64_t)times.count);
}

/* The KiB that the process had at most. */
static long most_memory(void) {
    struct rusage usage;
    expect(getrusage(RUSAGE_SELF, &usage) == 0, "the memory isn't told");
    return usage.ru_maxrss;
}

/* Looks drawn keys up, of which some were never written, and returns how long that took. */
static int64_t time_lookups(void) {
    struct reader *reader;
    int64_t begin;
    show();
    reader = open_reader();
    renew(reader);
    begin = now();
    for (uint64_t place = 0; place < BEHIND; place++) {
        uint8_t key[KEY], number[NUMBER];
        uint64_t wanted = drawn((UINT64_C(1) << 48) + place) % keys;
        put_key(key, wanted);
        expect(!look_up(reader, key, number) || key_of(number_of(number)) == wanted, "a key has another one's value");
    }
    begin = now() - begin;
    close_reader(reader);
    return begin;
}

static void measure_writes(uint64_t count) {
    static struct times times;
    const char *longest = "";
    int64_t begin, spent, lookups;
    long memory;
    keys = count;
    open_shared();
    start_compactors(2);
    begin = now();
    for (uint64_t write = 1; write <= count; write++) {
        int64_t before = times.longest, called = now();
        put_write(write);
        add_time(&times, now() - called);
        if (times.longest > before) {
            longest = last_work();
        }
    }
    spent = now() - begin;
    stop_compactors();
    memory = most_memory();
    lookups = time_lookups();
    check_all(count);
    printf("%" PRId64 " %" PRId64 " %" PRId64 " %" PRId64 " %" PRId64 " %ld %s\n", spent, time_at(&times, 500),
           time_at(&times, 999), times.longest, lookups, memory, longest);
}

/* A number of the command line, at least 1. */
static uint64_t number(const char *word) {
    uint64_t value = strtoull(word, NULL, 10);
    expect(value > 0, "a number isn't above 0");
    return value;
}

int main(int count, char **words) {
    if (count == 4 && strcmp(words[1], "lookups") == 0) {
        measure_lookups((size_t)number(words[2]), number(words[3]));
    } else {
        expect(count == 3 && strcmp(words[1], "writes") == 0, "usage: PROGRAM lookups READERS SECONDS|writes WRITES");
        measure_writes(number(words[2]));
    }
    return 0;
}
