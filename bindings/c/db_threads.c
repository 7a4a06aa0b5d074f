/* Eight threads share a database. Each batch counts a key and a total, so that the total is always the sum:
 *
 *     db_threads FOLDER
 *
 * The threads also read, flush, compact and make checkpoints. Prints a line if every read was consistent. */
#include <pthread.h>
#include <stdio.h>
#include <stdlib.h>
#include <string.h>
#include <ucstore_db.h>

#define CHECK(test)                                                                            \
    do {                                                                                       \
        if (!(test)) {                                                                         \
            fprintf(stderr, "%s:%d: %s (%s)\n", __FILE__, __LINE__, #test, ucstore_db_error_text()); \
            exit(1);                                                                           \
        }                                                                                      \
    } while (0)
#define OK(call) CHECK((call) == UCSTORE_DB_OK)

enum { THREADS = 8, ROUNDS = 400, KEYS = 16 };

static struct ucstore_db *db;
static const uint8_t one[8] = {1};

/* Number of events, which several threads report. */
static pthread_mutex_t lock = PTHREAD_MUTEX_INITIALIZER;
static unsigned events;

static void hear(void *context, const struct ucstore_db_event *event) {
    CHECK(context == &events && event->kind <= UCSTORE_DB_STALLED && pthread_mutex_lock(&lock) == 0);
    events++;
    CHECK(pthread_mutex_unlock(&lock) == 0);
}

static bool has_heard(void) {
    CHECK(pthread_mutex_lock(&lock) == 0);
    bool has = events > 0;
    CHECK(pthread_mutex_unlock(&lock) == 0);
    return has;
}

/* Opens the database in a directory, with small memtables and checkpoints. */
static struct ucstore_db *opened(const char *folder) {
    struct ucstore_db_options options;
    struct ucstore_db *found = NULL;
    OK(ucstore_db_options_init(&options, sizeof options));
    options.merge_operator = UCSTORE_DB_COUNTER;
    options.sync = UCSTORE_DB_SYNC_EVERY;
    options.sync_milliseconds = 5;
    options.write_buffer_size = 2000;
    options.checkpoint_least = 20000;
    options.event = hear;
    options.event_context = &events;
    OK(ucstore_db_open(folder, &options, &found));
    return found;
}

/* Returns the sum of the keys' counts in a snapshot, which must be the total. */
static uint64_t sum_of(struct ucstore_db_snapshot *snapshot) {
    struct ucstore_db_cursor *cursor = NULL;
    uint64_t sum = 0, whole = 0, count = 0;
    OK(ucstore_db_snapshot_cursor(snapshot, NULL, 0, NULL, 0, false, &cursor));
    while (ucstore_db_cursor_valid(cursor)) {
        size_t key_length, size;
        const char *key = ucstore_db_cursor_key(cursor, &key_length);
        memcpy(&count, ucstore_db_cursor_value(cursor, &size), sizeof count);
        CHECK(size == sizeof count);
        if (*key == 'w') {
            whole = count;
        } else {
            sum += count;
        }
        OK(ucstore_db_cursor_next(cursor));
    }
    OK(ucstore_db_cursor_status(cursor));
    OK(ucstore_db_cursor_close(cursor));
    CHECK(sum == whole);
    return whole;
}

/* A snapshot taken at the start, which all threads read. */
static struct ucstore_db_snapshot *first;

static void read_first(void) {
    uint64_t found = 0;
    size_t size = 0;
    OK(ucstore_db_snapshot_get(first, "begun", 5, &found, sizeof found, &size));
    CHECK(found == 1 && ucstore_db_snapshot_get(first, "whole", 5, &found, sizeof found, &size) == UCSTORE_DB_NOT_FOUND);
}

static void read_db(void) {
    struct ucstore_db_snapshot *snapshot = NULL;
    uint64_t sum, found = 0;
    size_t size = 0;
    OK(ucstore_db_snapshot(db, &snapshot));
    sum = sum_of(snapshot);
    CHECK(sum == sum_of(snapshot));
    OK(ucstore_db_snapshot_close(snapshot));
    CHECK(ucstore_db_get(db, "whole", 5, &found, sizeof found, &size) == UCSTORE_DB_NOT_FOUND || found >= sum);
}

/* Each thread has its own error message. */
static void check_said(unsigned number) {
    size_t size = 0;
    if (number % 2 == 0) {
        CHECK(ucstore_db_sync(NULL) == UCSTORE_DB_NULL && strstr(ucstore_db_error_text(), "null") != NULL);
    } else {
        CHECK(ucstore_db_get(db, "none", 4, NULL, 0, &size) == UCSTORE_DB_NOT_FOUND);
        CHECK(strstr(ucstore_db_error_text(), "key not found") != NULL);
    }
}

static void *work(void *context) {
    unsigned number = *(const unsigned *)context;
    struct ucstore_db_batch *batch = NULL;
    OK(ucstore_db_batch_create(&batch));
    for (unsigned round = 0; round < ROUNDS; round++) {
        char key = (char)('A' + (number * 7 + round) % KEYS);
        OK(ucstore_db_batch_clear(batch));
        OK(ucstore_db_batch_merge(batch, &key, 1, one, sizeof one));
        OK(ucstore_db_batch_merge(batch, "whole", 5, one, sizeof one));
        OK(ucstore_db_write(db, batch));
        read_first();
        if (round % 16 == number) {
            read_db();
        }
        if (round % 100 == 10 * number) {
            OK((number % 3 == 0 ? ucstore_db_flush : number % 3 == 1 ? ucstore_db_compact : ucstore_db_checkpoint)(db));
        }
    }
    OK(ucstore_db_batch_close(batch));
    check_said(number);
    return NULL;
}

int main(int argc, char **argv) {
    struct ucstore_db_snapshot *snapshot = NULL;
    pthread_t threads[THREADS];
    unsigned numbers[THREADS];
    if (argc != 2) {
        fprintf(stderr, "db_threads FOLDER\n");
        return 2;
    }
    db = opened(argv[1]);
    OK(ucstore_db_merge(db, "begun", 5, one, sizeof one));
    OK(ucstore_db_snapshot(db, &first));
    OK(ucstore_db_delete(db, "begun", 5));
    for (unsigned number = 0; number < THREADS; number++) {
        numbers[number] = number;
        CHECK(pthread_create(&threads[number], NULL, work, &numbers[number]) == 0);
    }
    for (unsigned number = 0; number < THREADS; number++) {
        CHECK(pthread_join(threads[number], NULL) == 0);
    }
    read_first();
    OK(ucstore_db_snapshot_close(first));
    OK(ucstore_db_close(db));
    db = opened(argv[1]);
    OK(ucstore_db_snapshot(db, &snapshot));
    CHECK(sum_of(snapshot) == THREADS * ROUNDS && has_heard());
    OK(ucstore_db_snapshot_close(snapshot));
    OK(ucstore_db_close(db));
    printf("threads of the database see each moment whole\n");
    return 0;
}
