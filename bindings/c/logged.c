/* Counts words, and continues where it was stopped:
 *
 *     logged LOG < TEXT
 *
 * Each line is a batch of merges. It is in the log's file before it is in the store. */
#define _POSIX_C_SOURCE 200112L

#include <stdio.h>
#include <stdlib.h>
#include <string.h>
#include <sys/stat.h>
#include <ucstore.h>
#include <unistd.h>

/* Lines and words are shorter than LINE bytes. */
enum { LINE = 128, ROOM = 1 << 16 };

static struct ucstore store;
static struct ucstore_batch batch;
static FILE *file;
static uint64_t length;

static void expect(bool done, const char *what) {
    if (!done) {
        fprintf(stderr, "logged: %s\n", what);
        exit(1);
    }
}

static uint64_t number(const uint8_t *text) {
    uint64_t value = 0;
    for (int place = 7; place >= 0; place--) {
        value = value << 8 | text[place];
    }
    return value;
}

/* Returns all bytes of the log's file, which the caller frees. A file that cannot be read to its end is rejected. */
static uint8_t *read_log(size_t *log_length) {
    struct stat found;
    size_t have = 0;
    uint8_t *log;
    expect(fstat(fileno(file), &found) == 0 && (uint64_t)found.st_size < SIZE_MAX, "can't tell the log's size");
    *log_length = (size_t)found.st_size;
    log = (uint8_t *)malloc(*log_length + 1);
    expect(log != NULL, "there is no memory for the log");
    rewind(file);
    while (have < *log_length) {
        size_t count = fread(log + have, 1, *log_length - have, file);
        expect(count > 0, "can't read the log");
        have += count;
    }
    expect(getc(file) == EOF && !ferror(file), "can't read the log");
    return log;
}

/* Returns the offset after the last complete batch of the log. */
static uint64_t end_of(const uint8_t *log, size_t log_length) {
    static uint8_t room[ROOM];
    struct ucstore_log_place place = {0, 0, 0};
    struct ucstore_ended ended = {0, 0, 0};
    int32_t status = UCSTORE_OK;
    while (status == UCSTORE_OK) {
        size_t size = 0;
        uint64_t writes = 0;
        status = ucstore_log_next(log, log_length, &place, room, ROOM, &size, &writes, &ended);
    }
    expect(status == UCSTORE_LOG_ENDS, "can't read the log");
    return place.offset;
}

/* Opens the store from the log, and cuts off an incomplete batch at its end. */
static void open_store(const char *name) {
    struct ucstore_options options;
    struct ucstore_ended ended = {0, 0, 0};
    size_t log_length;
    uint8_t *log;
    file = fopen(name, "a+b");
    expect(file != NULL, "can't open the log");
    log = read_log(&log_length);
    ucstore_options_init(&options);
    expect(ucstore_open(&store, UCSTORE_COUNTER, &options, log, log_length, &ended) == UCSTORE_OK, "can't open the store");
    expect(ended.kind == UCSTORE_CLEAN || ended.kind == UCSTORE_TORN, "the log is damaged");
    length = end_of(log, log_length);
    expect(ftruncate(fileno(file), (off_t)length) == 0, "can't cut the log");
    free(log);
}

/* Appends the batch to the log's file, syncs it, and commits it to the store. A program that continues after a failed write must first
 * cut off the record: a second record would get the same sequence number, and reading the log would stop there. */
static void write_batch(void) {
    static uint8_t record[ROOM];
    size_t size = 0;
    expect(ucstore_prepare(&store, &batch, length, record, sizeof record, &size) == UCSTORE_OK, "the batch isn't taken");
    expect(fwrite(record, 1, size, file) == size && fflush(file) == 0 && fsync(fileno(file)) == 0, "can't write the log");
    length += size;
    ucstore_commit(&store);
    ucstore_batch_clear(&batch);
}

/* Counts the words of a line. */
static void count_words(char *line) {
    static const uint8_t one[8] = {1};
    for (char *word = strtok(line, " \t\n"); word != NULL; word = strtok(NULL, " \t\n")) {
        expect(ucstore_batch_merge(&batch, (const uint8_t *)word, strlen(word), one, sizeof one) == UCSTORE_OK,
               "there is no memory for the batch");
    }
    write_batch();
}

/* Prints the words with their counts, one page of rows at a time. */
static void print_counts(void) {
    static uint8_t room[ROOM];
    uint8_t low[LINE + 1] = {0};
    size_t low_length = 0, size = 0;
    uint64_t rows = 1;
    while (rows > 0) {
        const uint8_t *row = room;
        expect(ucstore_scan(&store, low, low_length, low, 0, false, 100, room, ROOM, &size, &rows) == UCSTORE_OK,
               "can't scan the store");
        for (uint64_t place = 0; place < rows; place++) {
            size_t word_length = (size_t)number(row);
            printf("%.*s %llu\n", (int)word_length, (const char *)row + 8, (unsigned long long)number(row + 16 + word_length));
            /* No key is between a word and the same word with a zero byte appended. */
            memcpy(low, row + 8, word_length);
            low[word_length] = 0;
            low_length = word_length + 1;
            row += 24 + word_length;
        }
    }
}

int main(int argc, char **argv) {
    char line[LINE];
    expect(argc == 2, "usage: logged LOG < TEXT");
    open_store(argv[1]);
    while (fgets(line, sizeof line, stdin) != NULL) {
        count_words(line);
    }
    print_counts();
    ucstore_batch_close(&batch);
    expect(ucstore_close(&store) == UCSTORE_OK && fclose(file) == 0, "can't close");
    return 0;
}
