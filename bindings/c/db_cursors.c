/* Tests the moves of cursors of `ucstore_db.h` against a sorted list.
 *
 *     db_cursors ROUNDS ROWS SEED
 *
 * Under each operator, ROUNDS cursors make random moves of all six kinds, over random writes, while another thread writes, flushes and
 * compacts. Then cursors move over ROWS rows, each way. Each lent key and value is read again before the next move. Prints a line if
 * all tests pass. */
#define _XOPEN_SOURCE 700

#include <pthread.h>
#include <stdio.h>
#include <stdlib.h>
#include <string.h>
#include <ucstore_db.h>

#define CHECK(test)                                                                            \
    do {                                                                                       \
        if (!(test)) {                                                                         \
            fprintf(stderr, "%s:%d: %s (%s)\n", __FILE__, __LINE__, #test, ucstore_db_error_text()); \
            exit(1);                                                                           \
        }                                                                                      \
    } while (0)
#define OK(call) CHECK((call) == UCSTORE_DB_OK)

/* Bytes of a key and of a value, the most rows of a list, and the operators. */
enum { KEY = 3, VALUE = 200, ROWS = 300, OPERATORS = 4, MOVES = 60, BATCH = 1000 };

/* A key with its value. */
struct row {
    uint8_t key[KEY], value[VALUE];
    size_t key_length, value_length;
};

/* Rows in the order of their keys. */
struct list {
    struct row rows[ROWS];
    size_t count;
};

/* A byte string. */
struct text {
    const uint8_t *bytes;
    size_t length;
};

/* A cursor, with the rows of its range, and the number of the row at which it is: `wanted.count` if there is none. */
struct moved {
    struct ucstore_db_cursor *cursor;
    struct list wanted;
    size_t at;
};

/* A database that a thread writes to, flushes and compacts until the end. */
struct shared {
    struct ucstore_db *db;
    pthread_mutex_t lock;
    bool ends;
};

static uint64_t drawn;

/* Returns a number below a limit, by Knuth's constants. */
static size_t below(size_t limit) {
    drawn = drawn * 6364136223846793005u + 1442695040888963407u;
    return (size_t)(drawn >> 33) % limit;
}

static int compare(struct text one, struct text other) {
    const size_t least = one.length < other.length ? one.length : other.length;
    const int order = least == 0 ? 0 : memcmp(one.bytes, other.bytes, least);
    return order != 0 ? order : (one.length > other.length) - (one.length < other.length);
}

static struct text text_of(const uint8_t *bytes, size_t length) {
    struct text text;
    text.bytes = bytes;
    text.length = length;
    return text;
}

static struct text key_of(const struct row *row) {
    return text_of(row->key, row->key_length);
}

/* Returns the number of the first row of a list at or above a key. */
static size_t first_from(const struct list *list, struct text key) {
    size_t at = 0;
    while (at < list->count && compare(key_of(&list->rows[at]), key) < 0) {
        at++;
    }
    return at;
}

/* Removes rows of a list. */
static void remove_rows(struct list *list, size_t first, size_t end) {
    memmove(&list->rows[first], &list->rows[end], (list->count - end) * sizeof list->rows[0]);
    list->count -= end - first;
}

/* Returns the row of a key, which is added with an empty value if it is missing. */
static struct row *row_at(struct list *list, struct text key, bool *is_new) {
    const size_t at = first_from(list, key);
    struct row *row = &list->rows[at];
    *is_new = at == list->count || compare(key_of(row), key) != 0;
    if (*is_new) {
        CHECK(list->count < ROWS);
        memmove(row + 1, row, (list->count - at) * sizeof *row);
        memset(row, 0, sizeof *row);
        memcpy(row->key, key.bytes, key.length);
        row->key_length = key.length;
        list->count++;
    }
    return row;
}

static uint64_t number_of(const uint8_t *bytes, size_t length) {
    uint64_t number = 0;
    size_t place;
    for (place = 0; length == 8 && place < 8; place++) {
        number |= (uint64_t)bytes[place] << 8 * place;
    }
    return number;
}

/* Merges an operand into the value of a row, as the operator says. */
static void merge(uint32_t merge_operator, struct row *row, bool is_new, struct text operand) {
    uint8_t both[2 * VALUE];
    size_t length = row->value_length, place;
    uint64_t sum = number_of(row->value, length) + number_of(operand.bytes, operand.length);
    memcpy(both, row->value, length);
    if (merge_operator == UCSTORE_DB_APPEND && !is_new) {
        both[length++] = ',';
    }
    memcpy(both + length, operand.bytes, operand.length);
    length += operand.length;
    if (merge_operator == UCSTORE_DB_COUNTER) {
        for (place = 0; place < 8; place++) {
            row->value[place] = (uint8_t)(sum >> 8 * place);
        }
        row->value_length = 8;
    } else if (merge_operator == UCSTORE_DB_MAXIMUM) {
        if (compare(text_of(row->value, row->value_length), operand) < 0) {
            memcpy(row->value, operand.bytes, operand.length);
            row->value_length = operand.length;
        }
    } else {
        const size_t kept = merge_operator == UCSTORE_DB_TAIL && length > 4 ? 4 : length;
        CHECK(kept <= VALUE);
        memcpy(row->value, both + length - kept, kept);
        row->value_length = kept;
    }
}

/* Draws a key of up to three bytes, the least and the greatest bytes among them, into `key`, and returns its length. */
static size_t draw_key(uint8_t *key) {
    static const uint8_t bytes[] = {0, 1, 'a', 'b', 254, 255};
    const size_t length = below(KEY + 1);
    size_t place;
    for (place = 0; place < length; place++) {
        key[place] = bytes[below(sizeof bytes)];
    }
    return length;
}

/* Writes to a database and to the list. */
static void write_one(struct ucstore_db *db, uint32_t merge_operator, struct list *list) {
    uint8_t key[KEY], end[KEY], value[24];
    const size_t key_length = draw_key(key), end_length = draw_key(end), kind = below(16), length = below(2) == 0 ? 8 : below(24);
    const struct text low = text_of(key, key_length), high = text_of(end, end_length), operand = text_of(value, length);
    struct row *row;
    bool is_new;
    memset(value, (int)below(256), sizeof value);
    if (kind == 0) {
        OK(ucstore_db_delete_range(db, key, key_length, end, end_length));
        if (compare(low, high) < 0) {
            remove_rows(list, first_from(list, low), first_from(list, high));
        }
    } else if (kind < 4) {
        const size_t at = first_from(list, low);
        OK(ucstore_db_delete(db, key, key_length));
        if (at < list->count && compare(key_of(&list->rows[at]), low) == 0) {
            remove_rows(list, at, at + 1);
        }
    } else {
        row = row_at(list, low, &is_new);
        if (kind < 10 && row->value_length + length < VALUE) {
            OK(ucstore_db_merge(db, key, key_length, value, length));
            merge(merge_operator, row, is_new, operand);
        } else {
            OK(ucstore_db_put(db, key, key_length, value, length));
            memcpy(row->value, value, length);
            row->value_length = length;
        }
    }
}

/* Checks that a cursor is at its row, which it lends. */
static void check_lent(const struct moved *moved) {
    size_t key_length = 1, value_length = 1;
    const char *key = ucstore_db_cursor_key(moved->cursor, &key_length), *value = ucstore_db_cursor_value(moved->cursor, &value_length);
    const struct row *row = &moved->wanted.rows[moved->at];
    OK(ucstore_db_cursor_status(moved->cursor));
    if (moved->at == moved->wanted.count) {
        CHECK(!ucstore_db_cursor_valid(moved->cursor) && key == NULL && value == NULL && key_length + value_length == 0);
        return;
    }
    CHECK(ucstore_db_cursor_valid(moved->cursor) && key_length == row->key_length && value_length == row->value_length);
    CHECK(memcmp(key, row->key, key_length) == 0 && memcmp(value, row->value, value_length) == 0);
}

/* Moves a cursor, and its number. */
static void move(struct moved *moved) {
    struct ucstore_db_cursor *cursor = moved->cursor;
    const size_t count = moved->wanted.count, kind = below(10);
    uint8_t bytes[KEY];
    const size_t length = draw_key(bytes);
    const struct text key = text_of(bytes, length);
    size_t at;
    if (kind == 0) {
        OK(ucstore_db_cursor_first(cursor));
        moved->at = 0;
    } else if (kind == 1) {
        OK(ucstore_db_cursor_last(cursor));
        moved->at = count == 0 ? 0 : count - 1;
    } else if (kind == 2) {
        OK(ucstore_db_cursor_seek(cursor, bytes, length));
        moved->at = first_from(&moved->wanted, key);
    } else if (kind == 3) {
        OK(ucstore_db_cursor_seek_for_prev(cursor, bytes, length));
        at = first_from(&moved->wanted, key);
        if (at == count || compare(key_of(&moved->wanted.rows[at]), key) != 0) {
            at = at == 0 ? count : at - 1;
        }
        moved->at = at;
    } else if (kind < 7) {
        OK(ucstore_db_cursor_next(cursor));
        moved->at += moved->at < count;
    } else {
        OK(ucstore_db_cursor_prev(cursor));
        if (moved->at < count) {
            moved->at = moved->at == 0 ? count : moved->at - 1;
        }
    }
}

/* Draws a range below or above the keys of the other thread, and keeps its rows. Returns whether it is bounded. */
static bool draw_range(struct list *wanted, struct row *low, struct row *high) {
    const bool is_low = below(2) == 0, is_bounded = is_low || below(2) == 0;
    low->key_length = draw_key(low->key);
    high->key_length = draw_key(high->key);
    if (is_low && (high->key_length == 0 || high->key[0] > 0x80)) {
        high->key[0] = 0x80;
        high->key_length = 1;
    }
    if (!is_low && (low->key_length == 0 || low->key[0] < 0x80)) {
        low->key[0] = 0x81;
        low->key_length = 1;
    }
    if (is_bounded) {
        remove_rows(wanted, first_from(wanted, key_of(high)), wanted->count);
    }
    remove_rows(wanted, 0, first_from(wanted, key_of(low)));
    return is_bounded;
}

/* Moves a cursor over a range, also after later writes, which it does not see. */
static void try_cursor(struct ucstore_db *db, uint32_t merge_operator, struct list *list) {
    static struct moved moved;
    struct row low, high;
    bool is_bounded;
    int step;
    moved.wanted = *list;
    moved.at = 0;
    is_bounded = draw_range(&moved.wanted, &low, &high);
    OK(ucstore_db_cursor(db, low.key, low.key_length, high.key, high.key_length, is_bounded, &moved.cursor));
    for (step = 0; step < MOVES; step++) {
        check_lent(&moved);
        if (below(4) == 0) {
            write_one(db, merge_operator, list);
            check_lent(&moved);
        }
        move(&moved);
    }
    check_lent(&moved);
    OK(ucstore_db_cursor_close(moved.cursor));
}

/* Writes keys that begin with the byte 80, flushes and compacts. */
static void *write_beside(void *argument) {
    struct shared *shared = (struct shared *)argument;
    uint8_t key[5] = {0x80}, value[40] = {0};
    uint32_t number;
    bool ends = false;
    for (number = 0; !ends; number++) {
        memcpy(key + 1, &number, sizeof number);
        OK(ucstore_db_put(shared->db, key, sizeof key, value, sizeof value));
        if (number % 32 == 0) {
            OK(ucstore_db_flush(shared->db));
        }
        if (number % 256 == 0) {
            OK(ucstore_db_compact(shared->db));
            OK(ucstore_db_delete_range(shared->db, "\x80", 1, "\x81", 1));
        }
        CHECK(pthread_mutex_lock(&shared->lock) == 0);
        ends = shared->ends;
        CHECK(pthread_mutex_unlock(&shared->lock) == 0);
    }
    return NULL;
}

/* Moves cursors under an operator. */
static void try_operator(uint32_t merge_operator, int rounds) {
    static struct list list;
    struct ucstore_db_options options;
    struct shared shared;
    pthread_t thread;
    int round, count;
    list.count = 0;
    OK(ucstore_db_options_init(&options, sizeof options));
    options.merge_operator = merge_operator;
    options.write_buffer_size = 2000;
    options.compact_when_idle_milliseconds = 1;
    OK(ucstore_db_in_memory(&options, &shared.db));
    shared.ends = false;
    CHECK(pthread_mutex_init(&shared.lock, NULL) == 0);
    CHECK(pthread_create(&thread, NULL, write_beside, &shared) == 0);
    for (round = 0; round < rounds; round++) {
        for (count = (int)below(20); count > 0; count--) {
            write_one(shared.db, merge_operator, &list);
        }
        try_cursor(shared.db, merge_operator, &list);
    }
    CHECK(pthread_mutex_lock(&shared.lock) == 0);
    shared.ends = true;
    CHECK(pthread_mutex_unlock(&shared.lock) == 0);
    CHECK(pthread_join(thread, NULL) == 0 && pthread_mutex_destroy(&shared.lock) == 0);
    OK(ucstore_db_close(shared.db));
}

static void print_number(uint32_t number, uint8_t key[4]) {
    key[0] = (uint8_t)(number >> 24);
    key[1] = (uint8_t)(number >> 16);
    key[2] = (uint8_t)(number >> 8);
    key[3] = (uint8_t)number;
}

/* Checks that a cursor is at the row of a number. */
static void check_number(const struct ucstore_db_cursor *cursor, uint32_t number) {
    uint8_t wanted[4];
    size_t length = 0;
    const char *found = ucstore_db_cursor_key(cursor, &length);
    print_number(number, wanted);
    CHECK(length == 4 && memcmp(found, wanted, 4) == 0);
    found = ucstore_db_cursor_value(cursor, &length);
    CHECK(length == number % 50);
    CHECK(length == 0 || (found[0] == (char)number && found[length - 1] == (char)number));
}

/* Fills a database with rows, in the order of a multiplication. */
static void fill(struct ucstore_db *db, uint32_t rows) {
    struct ucstore_db_batch *batch = NULL;
    uint8_t key[4], value[50];
    uint32_t place;
    OK(ucstore_db_batch_create(&batch));
    for (place = 0; place < rows; place++) {
        /* Prime to the number of rows: each number comes once. */
        const uint32_t number = (uint32_t)((uint64_t)place * 1000003 % rows);
        print_number(number, key);
        memset(value, (int)(number & 0xff), sizeof value);
        OK(ucstore_db_batch_put(batch, key, sizeof key, value, number % 50));
        if (place % BATCH == BATCH - 1 || place + 1 == rows) {
            OK(ucstore_db_write(db, batch));
            OK(ucstore_db_batch_clear(batch));
        }
    }
    OK(ucstore_db_batch_close(batch));
}

/* Moves a cursor over all rows forwards, and backwards, and in steps of two forwards and one backwards over some. */
static void try_all(uint32_t rows) {
    struct ucstore_db_options options;
    struct ucstore_db *db = NULL;
    struct ucstore_db_cursor *cursor = NULL;
    uint32_t number;
    OK(ucstore_db_options_init(&options, sizeof options));
    OK(ucstore_db_in_memory(&options, &db));
    fill(db, rows);
    OK(ucstore_db_cursor(db, NULL, 0, NULL, 0, false, &cursor));
    for (number = 0; number < rows; number++) {
        check_number(cursor, number);
        OK(ucstore_db_cursor_next(cursor));
    }
    CHECK(!ucstore_db_cursor_valid(cursor));
    OK(ucstore_db_cursor_last(cursor));
    for (number = rows; number > 0; number--) {
        check_number(cursor, number - 1);
        OK(ucstore_db_cursor_prev(cursor));
    }
    CHECK(!ucstore_db_cursor_valid(cursor));
    OK(ucstore_db_cursor_first(cursor));
    for (number = 0; number < rows / 100; number++) {
        OK(ucstore_db_cursor_next(cursor));
        OK(ucstore_db_cursor_next(cursor));
        check_number(cursor, number + 2);
        OK(ucstore_db_cursor_prev(cursor));
        check_number(cursor, number + 1);
    }
    OK(ucstore_db_cursor_close(cursor));
    OK(ucstore_db_close(db));
}

int main(int argc, char **argv) {
    uint32_t merge_operator;
    if (argc != 4) {
        fprintf(stderr, "db_cursors ROUNDS ROWS SEED\n");
        return 2;
    }
    drawn = strtoull(argv[3], NULL, 10);
    for (merge_operator = 0; merge_operator < OPERATORS; merge_operator++) {
        try_operator(merge_operator, atoi(argv[1]));
    }
    try_all((uint32_t)strtoul(argv[2], NULL, 10));
    printf("cursors move as they have to\n");
    return 0;
}
