/* Counts in eight threads until it is killed, and prints each number once it is acknowledged:
 *
 *     db_count FOLDER          counts
 *     db_count FOLDER read     prints the last number of each thread
 *     db_count FOLDER follow   reads beside the process that counts: for each line of input it catches up, and prints `followed`, the
 *                              sequence number, and the number of each thread
 *
 * Each thread writes the same number under two keys at once, so both always have the same number. */
#include <pthread.h>
#include <stdio.h>
#include <stdlib.h>
#include <string.h>
#include <ucstore_db.h>

enum { THREADS = 8, LINE = 64 };

static struct ucstore_db *db;

static void check(int32_t status) {
    if (status != UCSTORE_DB_OK) {
        fprintf(stderr, "db_count: %s\n", ucstore_db_error_text());
        exit(1);
    }
}

/* Returns the number that a thread has written under both of its keys. */
static uint64_t counted(unsigned thread) {
    const uint64_t lengths[2] = {2, 2};
    uint64_t found[2], values[2] = {0, 0};
    char keys[LINE];
    size_t size = 0;
    snprintf(keys, sizeof keys, "a%ub%u", thread, thread);
    check(ucstore_db_get_many(db, keys, 4, lengths, 2, found, values, sizeof values, &size));
    if (values[0] != values[1]) {
        fprintf(stderr, "db_count: thread %u has half of a batch\n", thread);
        exit(1);
    }
    return values[0];
}

static void *count(void *context) {
    static const uint8_t one[8] = {1};
    unsigned thread = *(const unsigned *)context;
    struct ucstore_db_batch *batch = NULL;
    char key[LINE], line[LINE];
    check(ucstore_db_batch_create(&batch));
    snprintf(key, sizeof key, "a%u", thread);
    check(ucstore_db_batch_merge(batch, key, 2, one, sizeof one));
    *key = 'b';
    check(ucstore_db_batch_merge(batch, key, 2, one, sizeof one));
    for (uint64_t number = counted(thread) + 1;; number++) {
        check(ucstore_db_write(db, batch));
        /* One call writes a line. */
        snprintf(line, sizeof line, "counted %u %llu\n", thread, (unsigned long long)number);
        fputs(line, stdout);
        if (thread == 0 && number % 20 == 0) {
            check(ucstore_db_checkpoint(db));
        }
        counted((thread + 1) % THREADS);
    }
    return NULL;
}

/* Prints the numbers of all threads at one moment. */
static void print_followed(void) {
    uint64_t lengths[2 * THREADS], found[2 * THREADS], values[2 * THREADS], numbers[2 * THREADS], last;
    struct ucstore_db_snapshot *snapshot = NULL;
    char keys[4 * THREADS + 1];
    size_t size = 0, next = 0;
    for (unsigned place = 0; place < 2 * THREADS; place++) {
        lengths[place] = 2;
        snprintf(keys + 2 * place, 3, "%c%u", place < THREADS ? 'a' : 'b', place % THREADS);
    }
    check(ucstore_db_snapshot(db, &snapshot));
    check(ucstore_db_snapshot_sequence(snapshot, &last));
    check(ucstore_db_snapshot_get_many(snapshot, keys, 4 * THREADS, lengths, 2 * THREADS, found, values, sizeof values, &size));
    check(ucstore_db_snapshot_close(snapshot));
    for (unsigned place = 0; place < 2 * THREADS; place++) {
        numbers[place] = found[place] == sizeof *values ? values[next++] : 0;
    }
    printf("followed %llu", (unsigned long long)last);
    for (unsigned thread = 0; thread < THREADS; thread++) {
        if (numbers[thread] != numbers[THREADS + thread]) {
            fprintf(stderr, "db_count: a reader has half of a batch of thread %u\n", thread);
            exit(1);
        }
        printf(" %llu", (unsigned long long)numbers[thread]);
    }
    printf("\n");
}

static void follow(void) {
    char line[LINE];
    uint64_t last;
    while (fgets(line, sizeof line, stdin) != NULL) {
        check(ucstore_db_refresh(db, &last));
        print_followed();
    }
}

int main(int argc, char **argv) {
    struct ucstore_db_options options;
    int is_following = argc > 2 && strcmp(argv[2], "follow") == 0;
    unsigned numbers[THREADS];
    pthread_t threads[THREADS];
    setvbuf(stdout, NULL, _IOLBF, BUFSIZ);
    check(ucstore_db_options_init(&options, sizeof options));
    options.merge_operator = UCSTORE_DB_COUNTER;
    options.write_buffer_size = 2000;
    options.checkpoint_least = 20000;
    options.read_only = (uint32_t)is_following;
    check(ucstore_db_open(argc > 1 ? argv[1] : "", &options, &db));
    if (is_following) {
        follow();
    }
    for (unsigned thread = 0; thread < THREADS && !is_following; thread++) {
        numbers[thread] = thread;
        if (argc > 2) {
            printf("counted %u %llu\n", thread, (unsigned long long)counted(thread));
        } else if (pthread_create(&threads[thread], NULL, count, &numbers[thread]) != 0) {
            return 1;
        }
    }
    if (argc == 2) {
        pthread_join(threads[0], NULL);
    }
    check(ucstore_db_close(db));
    return 0;
}
