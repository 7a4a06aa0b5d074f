/* Plays files of cases, which the README of bindings/cases describes:
 *
 *     play FILE..
 *
 * Each file is played unchanged, and with a flush, all compactions, or a reopening after each command. A case with other output is
 * printed with its place. */
#include <ctype.h>
#include <stdarg.h>
#include <stdio.h>
#include <stdlib.h>
#include <string.h>
#include <ucstore.h>

#define PAGE_ROWS UINT64_C(100)

enum { LINE = 1 << 14, WORDS = 12, NAMES = 16, LONG_RUN = 16, MOST_BYTES = 1 << 22 };

/* Kinds of writes: the tags of RocksDB's batches (`dbformat.h`). */
enum kind { DELETE = 0, PUT = 1, MERGE = 2, DELETE_RANGE = 15 };

/* Commands added after each command. */
enum way { NOTHING, FLUSH, COMPACTIONS, REOPENING, WAYS };

struct bytes {
    uint8_t at[MOST_BYTES];
    size_t size;
};

static struct ucstore store;
static struct ucstore_options options;
static uint32_t merge_operator;
static enum way way;
static bool is_durable, is_prepared;

/* The log, a batch, and the bytes that the prepared batch adds to the log. */
static struct bytes history, batch, record;

/* The words of a command, the two byte strings they encode, the result of a read, and the output of a case. */
static char *words[WORDS];
static int word_count;
static struct bytes first, second, room, said;

/* Snapshots by name. */
static struct {
    char name[LINE];
    uint64_t sequence;
} snapshots[NAMES];
static size_t snapshot_count;

/* Action at the last line of a batch. */
static void (*end_batch)(void);

/* The file being played, and the current line. */
static const char *file_name, *file_text, *line;

/* Returns the number of a line, from 1. */
static unsigned number_of(const char *at) {
    unsigned number = 1;
    for (const char *place = file_text; place < at; place++) {
        number += *place == '\n';
    }
    return number;
}

/* Exits with an error in a file of cases. */
static void fault(const char *what) {
    fprintf(stderr, "%s:%u: %s\n", file_name, number_of(line), what);
    exit(2);
}

static void push(struct bytes *bytes, const void *from, size_t size) {
    if (size > MOST_BYTES - bytes->size) {
        fault("a case is too large");
    }
    memcpy(bytes->at + bytes->size, from, size);
    bytes->size += size;
}

static void push_byte(struct bytes *bytes, unsigned byte) {
    uint8_t one = (uint8_t)byte;
    push(bytes, &one, 1);
}

static void push_number(struct bytes *bytes, uint64_t number, int size) {
    for (int place = 0; place < size; place++) {
        push_byte(bytes, (unsigned)(number >> (8 * place) & 0xff));
    }
}

static uint64_t number_at(const uint8_t *text) {
    uint64_t number = 0;
    for (int place = 7; place >= 0; place--) {
        number = number << 8 | text[place];
    }
    return number;
}

static void say(const char *format, ...) {
    char text[LINE];
    va_list arguments;
    va_start(arguments, format);
    vsnprintf(text, sizeof text, format, arguments);
    va_end(arguments);
    push(&said, text, strlen(text));
}

/* Decoding of words. */

static bool is_plain(unsigned byte) {
    return byte > 0 && byte < 0x80 && (isalnum((int)byte) || strchr("_/.,-", (int)byte) != NULL);
}

/* Decodes a quoted string, and returns the rest of the word. */
static const char *read_quoted(const char *at, struct bytes *text) {
    for (; *at != '"'; at += *at == '\\' ? 4 : 1) {
        unsigned byte = (unsigned char)*at;
        if (byte == 0 || (byte == '\\' && sscanf(at, "\\x%2x", &byte) != 1)) {
            fault("what stands between quotes is no text");
        }
        push_byte(text, byte);
    }
    return at + 1;
}

/* Decodes a piece without its count, and returns the rest of the word. */
static const char *read_one(const char *at, struct bytes *text) {
    char *behind;
    if (strncmp(at, "u64:", 4) == 0) {
        push_number(text, strtoull(at + 4, &behind, 10), 8);
        return behind;
    }
    if (*at == '"') {
        return read_quoted(at + 1, text);
    }
    for (; is_plain((unsigned char)*at); at++) {
        push_byte(text, (unsigned char)*at);
    }
    return at;
}

/* Decodes a word: pieces with `+` between them. */
static void read_text(const char *at, struct bytes *text) {
    text->size = 0;
    do {
        size_t begin = text->size, length, times = strspn(at, "0123456789");
        bool is_repeated = times > 0 && at[times] == '*';
        times = is_repeated ? (size_t)strtoull(at, NULL, 10) : 1;
        at = read_one(is_repeated ? strchr(at, '*') + 1 : at, text);
        for (length = text->size - begin; times > 1; times--) {
            push(text, text->at + begin, length);
        }
    } while (*at++ == '+');
    if (at[-1] != 0) {
        fault("a word spells no text");
    }
}

/* Encoding of words. */

static void say_piece(const uint8_t *text, size_t length) {
    size_t plain = 0;
    while (plain < length && is_plain(text[plain])) {
        plain++;
    }
    if (plain == length && length > 0) {
        push(&said, text, length);
        return;
    }
    push_byte(&said, '"');
    for (size_t place = 0; place < length; place++) {
        uint8_t byte = text[place];
        say(byte > 0x20 && byte < 0x7f && byte != '"' && byte != '\\' ? "%c" : "\\x%02x", byte);
    }
    push_byte(&said, '"');
}

/* Returns the number of repetitions of the first byte. */
static size_t run_of(const uint8_t *text, size_t length) {
    size_t count = 0;
    while (count < length && text[count] == text[0]) {
        count++;
    }
    return count;
}

/* Prints a byte string as a word. A byte that is repeated often is a piece with a count. */
static void say_text(const uint8_t *text, size_t length) {
    size_t size = run_of(text, length);
    if (size >= LONG_RUN) {
        say("%zu*", size);
        say_piece(text, 1);
    } else {
        while (size < length && run_of(text + size, length - size) < LONG_RUN) {
            size++;
        }
        say_piece(text, size);
    }
    if (size < length) {
        push_byte(&said, '+');
        say_text(text + size, length - size);
    }
}

/* Prints a value. A value that may be a counter's is a number. */
static void say_value(const uint8_t *value, size_t length) {
    if (merge_operator == UCSTORE_COUNTER && length == 8) {
        say("u64:%llu", (unsigned long long)number_at(value));
    } else {
        say_text(value, length);
    }
    push_byte(&said, '\n');
}

/* Output of a command. */

/* Returns true if a call succeeded, and prints the name of its status otherwise. */
static bool is_done(int32_t status) {
    static const char *const names[] = {
        "ok", "out of memory", "no store", "has store", "not found", "not protected", "unknown operator",
        "bad option", "bad size", "ids spent", "sequences spent", "too long", "not a batch", "bad place", "room",
        "log ends", "sequence back", "bad keys", "batch full",
    };
    if (status != UCSTORE_OK) {
        say("error: %s\n", status >= 0 && (size_t)status < sizeof names / sizeof names[0] ? names[status] : "unknown");
    }
    return status == UCSTORE_OK;
}

/* Returns the index of a word, or the number of words. */
static int place_of(const char *word) {
    int place = 1;
    while (place < word_count && strcmp(words[place], word) != 0) {
        place++;
    }
    return place;
}

/* Returns the number that follows a word, or a default if the word is missing. */
static uint64_t number_behind(const char *word, uint64_t otherwise) {
    int place = place_of(word) + 1;
    return place < word_count ? strtoull(words[place], NULL, 10) : otherwise;
}

/* Returns the sequence number of a snapshot's name, or of a number. */
static uint64_t sequence_of(const char *name) {
    for (size_t place = 0; place < snapshot_count; place++) {
        if (strcmp(snapshots[place].name, name) == 0) {
            return snapshots[place].sequence;
        }
    }
    if (!isdigit((unsigned char)*name)) {
        fault("a snapshot has an unknown name");
    }
    return strtoull(name, NULL, 10);
}

/* Returns true if a read is at a snapshot, and stores its sequence number. */
static bool is_at(uint64_t *sequence) {
    int place = place_of("at") + 1;
    if (place < word_count) {
        *sequence = sequence_of(words[place]);
    }
    return place < word_count;
}

/* Stores. */

static void set_option(const char *word) {
    struct ucstore_options *o = &options;
    unsigned long long bytes;
    if (strcmp(word, "durable") == 0) {
        is_durable = true;
    } else if (sscanf(word, "write_buffer_size=%llu", &bytes) == 1) {
        o->write_buffer_size = bytes;
    } else if (sscanf(word, "compaction_trigger=%u", &o->compaction_trigger) != 1 &&
               sscanf(word, "stop_trigger=%u", &o->stop_trigger) != 1 &&
               sscanf(word, "size_ratio=%u", &o->size_ratio) != 1 &&
               sscanf(word, "max_size_amplification_percent=%u", &o->max_size_amplification_percent) != 1 &&
               sscanf(word, "min_merge_width=%u", &o->min_merge_width) != 1 &&
               sscanf(word, "max_merge_width=%u", &o->max_merge_width) != 1 &&
               sscanf(word, "compacts_itself=%u", &o->compacts_itself) != 1 &&
               sscanf(word, "max_write_buffer_number=%u", &o->max_write_buffer_number) != 1) {
        fault("an option has an unknown name");
    }
}

static void create(void) {
    static const char *const operators[] = {"append", "counter", "maximum", "tail", "mixed"};
    for (merge_operator = UCSTORE_APPEND; strcmp(words[1], operators[merge_operator]) != 0; merge_operator++) {
        if (merge_operator == UCSTORE_MIXED) {
            fault("an operator has an unknown name");
        }
    }
    is_durable = way == REOPENING;
    is_prepared = false;
    history.size = snapshot_count = 0;
    ucstore_options_init(&options);
    for (int place = 2; place < word_count; place++) {
        set_option(words[place]);
    }
    ucstore_close(&store);
    is_done(ucstore_create(&store, merge_operator, &options));
}

static void close_store(void) {
    is_done(ucstore_close(&store));
}

static void reopen(void) {
    struct ucstore_ended ended = {0, 0, 0};
    is_prepared = false;
    close_store();
    is_done(ucstore_open(&store, merge_operator, &options, history.at, history.size, &ended));
    if (ended.kind != UCSTORE_CLEAN) {
        say("error: the log isn't clean\n");
    }
}

static void flush(void) {
    is_prepared = false;
    is_done(ucstore_flush(&store));
}

static void compact(void) {
    bool compacted = true;
    while (compacted && is_done(ucstore_compact(&store, &compacted))) {
    }
}

/* Writes. */

static void prepare(void) {
    is_prepared = is_done(
        ucstore_prepare_bytes(&store, batch.at, batch.size, history.size, record.at, MOST_BYTES, &record.size));
}

static void commit(void) {
    if (is_done(ucstore_commit(&store)) && is_prepared) {
        push(&history, record.at, record.size);
    }
    is_prepared = false;
}

static void give_up(void) {
    is_prepared = false;
    is_done(ucstore_give_up(&store));
}

/* Writes the batch. If the store is durable, it is also in the log. */
static void write_batch(void) {
    is_prepared = false;
    if (!is_durable) {
        is_done(ucstore_write_bytes(&store, batch.at, batch.size));
        return;
    }
    prepare();
    if (is_prepared) {
        commit();
    }
}

/* Writes bytes that are not a batch. */
static void write_raw(void) {
    is_prepared = false;
    read_text(words[1], &first);
    is_done(ucstore_write_bytes(&store, first.at, first.size));
}

static void begin_batch(uint64_t sequence) {
    batch.size = 0;
    push_number(&batch, sequence, 8);
    push_number(&batch, 0, 4);
}

/* Appends a byte string after its length as a varint: seven bits per byte, the low ones first. */
static void push_text(const struct bytes *text) {
    size_t length = text->size;
    for (; length >= 0x80; length >>= 7) {
        push_byte(&batch, (unsigned)(length & 0x7f) | 0x80);
    }
    push_byte(&batch, (unsigned)length);
    push(&batch, text->at, text->size);
}

/* Adds the write to the batch. Two bytes of the count are enough. */
static void push_write(enum kind kind) {
    push_byte(&batch, kind);
    push_text(&first);
    if (kind != DELETE) {
        push_text(&second);
    }
    if (++batch.at[8] == 0) {
        batch.at[9]++;
    }
}

/* Returns true if the command is a write, and decodes its arguments. */
static bool read_write(enum kind *kind) {
    static const struct {
        const char *name;
        enum kind kind;
    } writes[] = {{"put", PUT}, {"merge", MERGE}, {"delete", DELETE}, {"range", DELETE_RANGE}};
    for (size_t place = 0; place < sizeof writes / sizeof writes[0]; place++) {
        if (strcmp(words[0], writes[place].name) == 0) {
            *kind = writes[place].kind;
            read_text(words[1], &first);
            read_text(*kind == DELETE ? "\"\"" : words[2], &second);
            return true;
        }
    }
    return false;
}

static int32_t write_alone(enum kind kind) {
    is_prepared = false;
    switch (kind) {
    case PUT:
        return ucstore_put(&store, first.at, first.size, second.at, second.size);
    case MERGE:
        return ucstore_merge(&store, first.at, first.size, second.at, second.size);
    case DELETE:
        return ucstore_delete(&store, first.at, first.size);
    default:
        return ucstore_delete_range(&store, first.at, first.size, second.at, second.size);
    }
}

static void write_one(enum kind kind) {
    if (is_durable) {
        begin_batch(0);
        push_write(kind);
        write_batch();
    } else {
        is_done(write_alone(kind));
    }
}

/* Reads. */

static void get(void) {
    uint64_t at = 0;
    size_t size = 0;
    int32_t status;
    read_text(words[1], &first);
    status = is_at(&at) ? ucstore_get_at(&store, first.at, first.size, at, room.at, MOST_BYTES, &size)
                        : ucstore_get(&store, first.at, first.size, room.at, MOST_BYTES, &size);
    if (size > MOST_BYTES) {
        fault("a value is too large");
    }
    if (status == UCSTORE_NOT_FOUND) {
        say("no value\n");
    } else if (is_done(status)) {
        say_value(room.at, size);
    }
}

/* Fetches the first rows from `first` to below `second`. */
static bool fetch(bool bounded, uint64_t limit, uint64_t *rows) {
    uint64_t at = 0;
    size_t size = 0;
    int32_t status = is_at(&at) ? ucstore_scan_at(&store, first.at, first.size, second.at, second.size, bounded, at,
                                                  limit, room.at, MOST_BYTES, &size, rows)
                                : ucstore_scan(&store, first.at, first.size, second.at, second.size, bounded, limit,
                                               room.at, MOST_BYTES, &size, rows);
    if (size > MOST_BYTES) {
        fault("a page is too large");
    }
    return is_done(status);
}

/* Prints the rows of a page, or counts them. The next page begins after the last key. */
static void take_rows(uint64_t rows, bool is_counted) {
    const uint8_t *row = room.at;
    for (; rows > 0; rows--) {
        size_t key = (size_t)number_at(row), value = (size_t)number_at(row + 8 + key);
        if (!is_counted) {
            say_text(row + 8, key);
            push_byte(&said, ' ');
            say_value(row + 16 + key, value);
        }
        first.size = 0;
        push(&first, row + 8, key);
        push_byte(&first, 0);
        row += 16 + key + value;
    }
}

/* Reads rows from `first` to below `second`, page by page. */
static void read_rows(bool bounded, bool is_counted) {
    uint64_t left = number_behind("limit", UINT64_MAX), count = 0, rows = PAGE_ROWS;
    while (rows == PAGE_ROWS) {
        if (!fetch(bounded, left - count < PAGE_ROWS ? left - count : PAGE_ROWS, &rows)) {
            return;
        }
        take_rows(rows, is_counted);
        count += rows;
    }
    if (is_counted) {
        say("%llu\n", (unsigned long long)count);
    } else if (count == 0) {
        say("no rows\n");
    }
}

static void scan(void) {
    int texts = place_of("at") < place_of("limit") ? place_of("at") : place_of("limit");
    read_text(texts > 1 ? words[1] : "\"\"", &first);
    read_text(texts > 2 ? words[2] : "\"\"", &second);
    read_rows(texts > 2, strcmp(words[0], "count") == 0);
}

/* Reads the rows of a prefix, up to the least key above all keys that begin with it, if there is one. */
static void scan_prefix(void) {
    read_text(words[1], &first);
    read_text(words[1], &second);
    while (second.size > 0 && second.at[second.size - 1] == 0xff) {
        second.size--;
    }
    if (second.size > 0) {
        second.at[second.size - 1]++;
    }
    read_rows(second.size > 0, false);
}

/* Snapshots and statistics. */

static void take_snapshot(void) {
    uint64_t sequence = 0;
    is_prepared = false;
    if (is_done(ucstore_snapshot(&store, &sequence))) {
        size_t place = 0;
        while (place < snapshot_count && strcmp(snapshots[place].name, words[1]) != 0) {
            place++;
        }
        if (place == NAMES) {
            fault("there are too many snapshots");
        }
        snapshot_count += place == snapshot_count;
        strcpy(snapshots[place].name, words[1]);
        snapshots[place].sequence = sequence;
    }
}

static void release(void) {
    is_done(ucstore_release(&store, sequence_of(words[1])));
}

static void say_snapshots(void) {
    uint64_t sequences[NAMES] = {0};
    size_t count = 0;
    if (is_done(ucstore_snapshots(&store, sequences, NAMES, &count)) && count <= NAMES) {
        for (size_t place = 0; place < count; place++) {
            say("%s%llu", place > 0 ? " " : "", (unsigned long long)sequences[place]);
        }
        say(count > 0 ? "\n" : "none\n");
    }
}

static void say_last(void) {
    uint64_t sequence = 0;
    if (is_done(ucstore_last(&store, &sequence))) {
        say("%llu\n", (unsigned long long)sequence);
    }
}

static void say_report(void) {
    struct ucstore_report report;
    report.size = sizeof report;
    if (is_done(ucstore_report(&store, &report))) {
        say("runs %llu, gathered %llu, snapshots %llu, last %llu\n", (unsigned long long)report.runs,
            (unsigned long long)report.gathered, (unsigned long long)report.snapshots, (unsigned long long)report.last);
    }
}

/* Cases. */

static void run_command(void) {
    static const struct {
        const char *name;
        void (*run)(void);
    } commands[] = {
        {"create", create}, {"reopen", reopen}, {"close", close_store}, {"flush", flush}, {"compact", compact},
        {"commit", commit}, {"give", give_up}, {"raw", write_raw}, {"get", get}, {"scan", scan}, {"count", scan},
        {"prefix", scan_prefix}, {"snapshot", take_snapshot}, {"release", release}, {"snapshots", say_snapshots},
        {"last", say_last}, {"report", say_report},
    };
    for (size_t place = 0; place < sizeof commands / sizeof commands[0]; place++) {
        if (strcmp(words[0], commands[place].name) == 0) {
            commands[place].run();
            return;
        }
    }
    fault("a command has an unknown name");
}

/* Does the extra commands of the way after a command, unless that would discard the prepared batch. */
static void put_behind(void) {
    size_t count = 0;
    if (store.at == NULL || is_prepared) {
        return;
    }
    if (way == FLUSH || way == COMPACTIONS) {
        flush();
    }
    if (way == COMPACTIONS) {
        compact();
    }
    if (way == REOPENING && is_done(ucstore_snapshots(&store, NULL, 0, &count)) && count == 0) {
        reopen();
    }
}

/* Ends a batch after its last line. */
static void finish(void) {
    if (end_batch != NULL) {
        end_batch();
        end_batch = NULL;
        put_behind();
    }
}

/* Splits a line into words. A missing word encodes an empty byte string. */
static void split(char *text) {
    static char missing[] = "?";
    word_count = 0;
    for (char *word = strtok(text, " "); word != NULL; word = strtok(NULL, " ")) {
        if (word_count == WORDS) {
            fault("a line has too many words");
        }
        words[word_count++] = word;
    }
    for (int place = word_count; place < WORDS; place++) {
        words[place] = missing;
    }
}

/* Does the command of a line. */
static void run_line(char *text) {
    bool is_indented = *text == ' ';
    enum kind kind;
    split(text);
    if (is_indented && end_batch != NULL && read_write(&kind)) {
        push_write(kind);
        return;
    }
    finish();
    if (strcmp(words[0], "batch") == 0 || strcmp(words[0], "prepare") == 0) {
        begin_batch(number_behind("sequence", 0));
        end_batch = *words[0] == 'b' ? write_batch : prepare;
        return;
    }
    if (read_write(&kind)) {
        write_one(kind);
    } else {
        run_command();
    }
    put_behind();
}

/* Copies the line up to its end or the part's, and replaces `#` by a number, if there is one. */
static void fill(char *text, const char *part, const char *number) {
    size_t length = strlen(text);
    for (; *part != '\n'; part++) {
        bool is_number = number != NULL && *part == '#';
        length += (size_t)snprintf(text + length, LINE - length, is_number ? "%s" : "%.1s", is_number ? number : part);
        if (length >= LINE) {
            fault("a line is too long");
        }
    }
}

/* Does the command of a line: the number of times that `times` says, with the index in place of `#`. */
static void run_times(void) {
    size_t indent = strspn(line, " ");
    unsigned times = 1;
    int skipped = 0;
    bool is_repeated = sscanf(line + indent, "times %u %n", &times, &skipped) == 1;
    for (unsigned place = 0; place < times; place++) {
        char text[LINE] = "", number[LINE];
        snprintf(text, LINE, "%s", indent > 0 ? " " : "");
        snprintf(number, LINE, "%03u", place);
        fill(text, line + indent + skipped, is_repeated ? number : NULL);
        run_line(text);
    }
}

static void next_line(void) {
    line = strchr(line, '\n') + 1;
}

/* Plays the case that begins at the line, up to its expected output. */
static void play_case(void) {
    said.size = 0;
    for (; strncmp(line, "----\n", 5) != 0; next_line()) {
        if (*line == 0) {
            fault("a case has no line ----");
        }
        if (*line != '#') {
            run_times();
        }
    }
    finish();
    next_line();
}

/* Prints lines with a mark before each. */
static void print_lines(const char *mark, const char *text, size_t size) {
    while (size > 0) {
        size_t length = (size_t)((const char *)memchr(text, '\n', size) - text) + 1;
        printf("%s%.*s", mark, (int)length, text);
        text += length;
        size -= length;
    }
}

/* Prints the expected and the actual output, from the first different line on. */
static void print_difference(const char *wanted, size_t size) {
    const char *came = (const char *)said.at;
    size_t same = 0;
    for (size_t place = 0; place < size && place < said.size && wanted[place] == came[place]; place++) {
        same = wanted[place] == '\n' ? place + 1 : same;
    }
    print_lines("  ", wanted, same);
    print_lines("- ", wanted + same, size - same);
    print_lines("+ ", came + same, said.size - same);
}

/* Returns true if the case that begins at the line has the expected output. */
static bool is_right(void) {
    static const char *const behind[] = {"nothing", "a flush", "all compactions", "a reopening"};
    unsigned number = number_of(line);
    const char *wanted;
    size_t size;
    bool is_same;
    play_case();
    for (wanted = line; *line != 0 && *line != '\n';) {
        next_line();
    }
    size = (size_t)(line - wanted);
    is_same = said.size == size && memcmp(said.at, wanted, size) == 0;
    if (!is_same) {
        printf("%s:%u: with %s behind each command\n", file_name, number, behind[way]);
        print_difference(wanted, size);
    }
    return is_same;
}

/* Plays the cases of the file. Returns their number, and adds the number of failures. */
static unsigned play_file(unsigned *failures) {
    unsigned cases = 0;
    for (line = file_text; *line != 0;) {
        if (*line == '#' || *line == '\n') {
            next_line();
        } else {
            *failures += !is_right();
            cases++;
        }
    }
    ucstore_close(&store);
    return cases;
}

/* Reads a file, and ends its last line. */
static void read_file(const char *name) {
    static struct bytes text;
    FILE *file = fopen(name, "rb");
    file_name = name;
    file_text = line = (const char *)text.at;
    text.size = 0;
    if (file == NULL) {
        fault("the file can't be opened");
    }
    text.size = fread(text.at, 1, MOST_BYTES, file);
    fclose(file);
    push(&text, "\n", 2);
}

int main(int argc, char **argv) {
    unsigned cases = 0, failures = 0;
    for (int place = 1; place < argc; place++) {
        int ways;
        read_file(argv[place]);
        /* The number of runs depends on the commands added after each command. */
        ways = strstr(file_text, "\nreport\n") != NULL ? 1 : WAYS;
        for (int next = 0; next < ways; next++) {
            way = (enum way)next;
            cases += play_file(&failures);
        }
    }
    printf("%u cases played, %u failed\n", cases, failures);
    return failures > 0 || cases == 0;
}
