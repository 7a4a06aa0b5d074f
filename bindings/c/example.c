/* Counts the words of files in a directory, each file in its own thread, and prints the count of each word:
 *
 *     example FOLDER FILE..
 *
 * The words of a line are durable before the next line is read, together with the offset after the line. So the program may be killed
 * at any time, and continues where it was: each word is counted once. */
#include <pthread.h>
#include <stdio.h>
#include <stdlib.h>
#include <string.h>
#include <ucstore_db.h>

static struct ucstore_db *db;

static void check(bool done, const char *why) {
    if (!done) {
        fprintf(stderr, "example: %s\n", why);
        exit(1);
    }
}

static void ok(int32_t status) {
    check(status == UCSTORE_DB_OK, ucstore_db_error_text());
}

/* Counts the words of a file. The key of its name after a tab, which no word contains, holds the offset to start at. */
static void *count(void *name) {
    static const uint8_t one[8] = {1};
    char key[4096], line[4096], *rest;
    size_t size, length = (size_t)snprintf(key, sizeof key, "\t%s", (const char *)name);
    long place = 0;
    struct ucstore_db_batch *batch;
    FILE *file = fopen((const char *)name, "r");
    ucstore_db_get(db, key, length, &place, sizeof place, &size);
    check(file != NULL && fseek(file, place, SEEK_SET) == 0, "can't read a file");
    ok(ucstore_db_batch_create(&batch));
    while (fgets(line, sizeof line, file) != NULL) {
        for (char *word = strtok_r(line, " \t\n", &rest); word != NULL; word = strtok_r(NULL, " \t\n", &rest)) {
            ok(ucstore_db_batch_merge(batch, word, strlen(word), one, sizeof one));
        }
        place = ftell(file);
        ok(ucstore_db_batch_put(batch, key, length, &place, sizeof place));
        ok(ucstore_db_write(db, batch));
        ok(ucstore_db_batch_clear(batch));
    }
    ok(ucstore_db_batch_close(batch));
    fclose(file);
    return NULL;
}

/* Prints each word with its count. */
static void print_counts(void) {
    struct ucstore_db_cursor *cursor;
    size_t length, size;
    uint64_t times;
    for (ok(ucstore_db_cursor(db, "\n", 1, NULL, 0, false, &cursor)); ucstore_db_cursor_valid(cursor);
         ok(ucstore_db_cursor_next(cursor))) {
        const char *word = ucstore_db_cursor_key(cursor, &length);
        memcpy(&times, ucstore_db_cursor_value(cursor, &size), sizeof times);
        printf("%.*s %llu\n", (int)length, word, (unsigned long long)times);
    }
    ok(ucstore_db_cursor_close(cursor));
}

int main(int argc, char **argv) {
    pthread_t *threads = (pthread_t *)calloc((size_t)argc + 1, sizeof *threads);
    struct ucstore_db_options options;
    check(argc > 1 && threads != NULL, "usage: example FOLDER FILE..");
    ucstore_db_options_init(&options, sizeof options);
    options.merge_operator = UCSTORE_DB_COUNTER;
    ok(ucstore_db_open(argv[1], &options, &db));
    for (int file = 2; file < argc; file++) {
        check(pthread_create(&threads[file], NULL, count, argv[file]) == 0, "can't start a thread");
    }
    for (int file = 2; file < argc; file++) {
        pthread_join(threads[file], NULL);
    }
    print_counts();
    ok(ucstore_db_close(db));
    free(threads);
    return 0;
}
