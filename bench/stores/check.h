/* Checks that a database without rows gives back what is written to it, by each call of store.h. One session writes and another
 * reads, so that a store with a connection for each thread shows to one what another wrote. The rows stay: their keys begin with
 * letters that no work has. */
#ifndef BENCH_STORES_CHECK_H
#define BENCH_STORES_CHECK_H

#include "keys.h"

#include <string.h>

enum { CHECKED = 1000, LONGEST = 1 << 16, ASKED = 32, COUNTERS = 20 };

/* Two sessions, and whether each third key was deleted. */
struct check {
    struct session *writer, *reader;
    bool has_gaps;
};

/* The value of a key after a number of writes. It has any bytes, also those that end a line. */
static struct text checked_value(uint8_t *room, uint64_t number, uint64_t writes) {
    size_t length = 8 + (number * 37 + writes) % 1000;
    for (size_t place = 0; place < length; place++) {
        room[place] = (uint8_t)(number + writes * 101 + place * 7);
    }
    return (struct text){room, length};
}

/* Odd numbers are written twice. */
static uint64_t writes_of(uint64_t number) {
    return 1 + number % 2;
}

static bool is_there(const struct check *check, uint64_t number) {
    return number < CHECKED && !(check->has_gaps && number % 3 == 0);
}

static void write_checked(struct check *check) {
    static uint8_t room[LONGEST];
    uint8_t key[KEY];
    for (uint64_t number = 0; number < CHECKED; number++) {
        for (uint64_t writes = 1; writes <= writes_of(number); writes++) {
            put(check->writer, key_in(key, 'c', number), checked_value(room, number, writes));
        }
    }
}

static void delete_checked(struct check *check) {
    uint8_t key[KEY];
    for (uint64_t number = 0; number <= CHECKED; number += 3) {
        delete_key(check->writer, key_in(key, 'c', number));
    }
    check->has_gaps = true;
}

static void check_lookups(const struct check *check) {
    static uint8_t room[LONGEST];
    uint8_t key[KEY];
    for (uint64_t number = 0; number < CHECKED + ASKED; number++) {
        struct text value, wanted = checked_value(room, number, writes_of(number));
        bool is_found = get(check->reader, key_in(key, 'c', number), &value);
        expect(is_found == is_there(check, number), "a key has no value, or a deleted key has one");
        expect(!is_found || (value.length == wanted.length && memcmp(value.bytes, wanted.bytes, wanted.length) == 0),
               "a key has another value");
    }
}

static void check_together(const struct check *check) {
    uint8_t rooms[ASKED][KEY];
    struct text texts[ASKED];
    for (uint64_t first = 0; first <= CHECKED; first += ASKED) {
        size_t wanted = 0;
        for (size_t one = 0; one < ASKED; one++) {
            texts[one] = key_in(rooms[one], 'c', first + one);
            wanted += is_there(check, first + one);
        }
        expect(get_many(check->reader, texts, ASKED) == wanted, "another number of keys is found together");
    }
}

static void check_scan(const struct check *check, uint64_t low, uint64_t limit) {
    static uint8_t room[LONGEST];
    uint8_t key[KEY];
    uint64_t wanted = 0, rows = 0;
    for (uint64_t number = low; number < CHECKED && rows < limit; number++) {
        if (is_there(check, number)) {
            wanted += KEY + checked_value(room, number, writes_of(number)).length;
            rows++;
        }
    }
    expect(scan(check->reader, key_in(key, 'c', low), limit) == wanted, "a scan has other rows");
}

static void check_scan_back(const struct check *check, uint64_t high, uint64_t limit) {
    static uint8_t room[LONGEST];
    uint8_t key[KEY];
    uint64_t wanted = 0, rows = 0;
    for (uint64_t number = high < CHECKED ? high + 1 : CHECKED; number-- > 0 && rows < limit;) {
        if (is_there(check, number)) {
            wanted += KEY + checked_value(room, number, writes_of(number)).length;
            rows++;
        }
    }
    expect(scan_back(check->reader, key_in(key, 'c', high), limit) == wanted, "a scan in reverse has other rows");
}

static void check_rows(const struct check *check) {
    check_lookups(check);
    check_together(check);
    for (uint64_t low = 0; has_scans && low <= CHECKED; low += 125) {
        check_scan(check, low, 1);
        check_scan(check, low, 100);
        check_scan(check, low, UINT64_MAX);
        check_scan_back(check, low, 1);
        check_scan_back(check, low, 100);
        check_scan_back(check, low, UINT64_MAX);
    }
}

/* A sum: 8 bytes, or the digits that a database of strings keeps. */
static uint64_t sum_in(struct text text) {
    uint64_t sum = 0;
    if (text.length == 8) {
        return number_of(text.bytes, text.length);
    }
    for (size_t place = 0; place < text.length; place++) {
        sum = sum * 10 + text.bytes[place] - '0';
    }
    return sum;
}

static void check_sums(const struct check *check) {
    uint8_t key[KEY];
    struct text value;
    for (uint64_t number = 0; number < COUNTERS; number++) {
        struct text counter = key_in(key, 'd', number);
        add(check->writer, counter, number);
        add(check->reader, counter, 1000);
        expect(get(check->writer, counter, &value) && sum_in(value) == 1000 + number, "a counter has another sum");
    }
}

static void check_long_value(const struct check *check) {
    static uint8_t room[LONGEST];
    uint8_t key[KEY];
    struct text value, long_key = key_in(key, 'e', 0);
    for (size_t place = 0; place < LONGEST; place++) {
        room[place] = (uint8_t)(place * 7 + place / 256);
    }
    put(check->writer, long_key, (struct text){room, LONGEST});
    expect(get(check->reader, long_key, &value) && value.length == LONGEST && memcmp(value.bytes, room, LONGEST) == 0,
           "a long value is another");
}

static void open_sessions(struct check *check) {
    check->writer = open_session();
    check->reader = open_session();
}

static void close_sessions(struct check *check) {
    close_session(check->writer);
    close_session(check->reader);
}

/* A database with files is opened again in between. */
static void check_store(const struct settings *settings) {
    struct check check = {0};
    open_sessions(&check);
    write_checked(&check);
    check_rows(&check);
    settle();
    delete_checked(&check);
    check_rows(&check);
    if (settings->folder != NULL) {
        close_sessions(&check);
        close_store();
        open_store(settings);
        open_sessions(&check);
    }
    check_rows(&check);
    check_sums(&check);
    check_long_value(&check);
    close_sessions(&check);
}

#endif
