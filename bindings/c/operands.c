/* Operands of UCSTORE_MIXED: their bytes, bad payloads, and merges of each. */
#include <stdio.h>
#include <stdlib.h>
#include <string.h>
#include <ucstore.h>

#define CHECK(test)                                                  \
    do {                                                             \
        if (!(test)) {                                               \
            printf("%s:%d: %s\n", __FILE__, __LINE__, #test);        \
            exit(1);                                                 \
        }                                                            \
    } while (0)

enum { ROOM = 400 };

static const uint8_t KEY[] = {'k'};

/* Merges a payload into a key by an operator. */
static void merge_as(struct ucstore *store, uint32_t part, uint32_t parameter, const void *payload, size_t length) {
    uint8_t room[ROOM];
    size_t size;
    CHECK(ucstore_operand(part, parameter, (const uint8_t *)payload, length, room, sizeof room, &size) == UCSTORE_OK);
    CHECK(size <= length + 8 && ucstore_operand_check(room, size) == UCSTORE_OK);
    CHECK(ucstore_merge(store, KEY, sizeof KEY, room, size) == UCSTORE_OK);
}

/* Checks the key's value. */
static void expect(struct ucstore *store, const void *value, size_t length) {
    uint8_t room[ROOM];
    size_t size;
    CHECK(ucstore_get(store, KEY, sizeof KEY, room, sizeof room, &size) == UCSTORE_OK);
    CHECK(size == length && memcmp(room, value, length) == 0);
}

/* The operators, one after the other, over one key. */
static void try_values(void) {
    const uint8_t five[8] = {5}, two[8] = {2}, seven[8] = {7};
    struct ucstore store = {0};
    struct ucstore_options options;
    CHECK(ucstore_options_init(&options) == UCSTORE_OK);
    CHECK(ucstore_create(&store, UCSTORE_MIXED, &options) == UCSTORE_OK);
    merge_as(&store, UCSTORE_ADD, 0, five, sizeof five);
    merge_as(&store, UCSTORE_ADD, 0, two, sizeof two);
    expect(&store, seven, sizeof seven);
    merge_as(&store, UCSTORE_MIN_U64, 0, five, sizeof five);
    merge_as(&store, UCSTORE_MAX_U64, 0, two, sizeof two);
    expect(&store, five, sizeof five);
    merge_as(&store, UCSTORE_SET, 0, "b", 1);
    merge_as(&store, UCSTORE_APPEND_BYTES, ';', "c", 1);
    expect(&store, "b;c", 3);
    merge_as(&store, UCSTORE_TAIL_BYTES, 2, "d", 1);
    expect(&store, "cd", 2);
    merge_as(&store, UCSTORE_MAX_BYTES, 0, "cda", 3);
    merge_as(&store, UCSTORE_MIN_BYTES, 0, "ce", 2);
    expect(&store, "cda", 3);
    merge_as(&store, UCSTORE_OR, 0, "\x04", 1);
    merge_as(&store, UCSTORE_AND, 0, "\x67\xff\xff", 3);
    merge_as(&store, UCSTORE_XOR, 0, "\0\0\x01", 3);
    expect(&store, "gd`", 3);
    merge_as(&store, UCSTORE_MAX_REGISTERS, 0, "agaa", 4);
    expect(&store, "ggaa", 4);
    merge_as(&store, UCSTORE_SET, 0, "\xff\xff\xff\xff\xff\xff\xff\xff", 8);
    merge_as(&store, UCSTORE_ADD_U64, 0, five, sizeof five);
    expect(&store, "\xff\xff\xff\xff\xff\xff\xff\xff", 8);
    merge_as(&store, UCSTORE_SET, 0, "\1\0a\2\0bb", 7);
    merge_as(&store, UCSTORE_SET_UNION, 0, "\0\0\1\0b", 5);
    merge_as(&store, UCSTORE_SET_UNION, 0, "\1\0b\1\0c", 6);
    expect(&store, "\0\0\1\0a\1\0b\2\0bb\1\0c", 15);
    CHECK(ucstore_merge(&store, KEY, sizeof KEY, (const uint8_t *)"no operand", 10) == UCSTORE_OK);
    expect(&store, "no operand", 10);
    CHECK(ucstore_close(&store) == UCSTORE_OK);
}

/* Payloads and operands that are none, and buffers that are too small: nothing is written. */
static void try_bad(void) {
    const uint8_t numbers[] = {UCSTORE_ADD, UCSTORE_MAX_U64, UCSTORE_MIN_U64, UCSTORE_ADD_U64};
    const uint32_t unknown[][2] = {{0, 0}, {15, 0}, {261, 0}, {UCSTORE_ADD, 1}, {UCSTORE_APPEND_BYTES, 256}, {UCSTORE_TAIL_BYTES, 1 << 16}};
    uint8_t room[ROOM] = {77}, eight[8] = {0}, long_bytes[300] = {0};
    size_t size = 99, at;
    for (at = 0; at < sizeof numbers; at++) {
        CHECK(ucstore_operand(numbers[at], 0, eight, 7, room, sizeof room, &size) == UCSTORE_BAD_OPERAND);
        CHECK(ucstore_operand(numbers[at], 0, room, 9, room, 0, &size) == UCSTORE_BAD_OPERAND);
    }
    for (at = 0; at < sizeof unknown / sizeof unknown[0]; at++) {
        CHECK(ucstore_operand(unknown[at][0], unknown[at][1], eight, 8, room, sizeof room, &size) == UCSTORE_UNKNOWN_OPERATOR);
    }
    CHECK(ucstore_operand(UCSTORE_SET_UNION, 0, (const uint8_t *)"\1\0b\1\0a", 6, room, sizeof room, &size) == UCSTORE_BAD_OPERAND);
    CHECK(ucstore_operand(UCSTORE_SET_UNION, 0, (const uint8_t *)"\1\0a\1\0a", 6, room, sizeof room, &size) == UCSTORE_BAD_OPERAND);
    CHECK(ucstore_operand(UCSTORE_SET_UNION, 0, (const uint8_t *)"\1\0a\2\0b", 6, room, sizeof room, &size) == UCSTORE_BAD_OPERAND);
    CHECK(ucstore_operand(UCSTORE_SET_UNION, 1, eight, 0, room, sizeof room, &size) == UCSTORE_UNKNOWN_OPERATOR);
    CHECK(size == 99 && room[0] == 77);
    CHECK(ucstore_operand(UCSTORE_ADD, 0, eight, 8, room, 9, &size) == UCSTORE_ROOM && size == 10 && room[0] == 77);
    CHECK(ucstore_operand(UCSTORE_OR, 0, long_bytes, 254, room, sizeof room, &size) == UCSTORE_OK && size == 256);
    CHECK(ucstore_operand(UCSTORE_OR, 0, long_bytes, 255, room, sizeof room, &size) == UCSTORE_OK && size == 261);
    CHECK(ucstore_operand_check(room, size) == UCSTORE_OK);
    CHECK(ucstore_operand_check(room + 1, size - 1) == UCSTORE_BAD_OPERAND);
    CHECK(ucstore_operand_check(room, 0) == UCSTORE_BAD_OPERAND);
    /* A length that lies takes no time and no memory. */
    memcpy(room, "\xff\xff\xff\xff\xff\x06", 6);
    CHECK(ucstore_operand_check(room, 6) == UCSTORE_BAD_OPERAND);
}

/* A million additions on one key are one part of 8 bytes, and a read of them is their sum. */
static void try_many(void) {
    const uint8_t one[8] = {1}, million[8] = {0x40, 0x42, 0x0f};
    static struct ucstore store;
    bool is_compacted = true;
    struct ucstore_options options;
    struct ucstore_report report;
    uint64_t sequence, at;
    CHECK(ucstore_options_init(&options) == UCSTORE_OK);
    /* Two runs are always compacted. */
    options.compaction_trigger = 2;
    options.max_size_amplification_percent = 0;
    CHECK(ucstore_create(&store, UCSTORE_MIXED, &options) == UCSTORE_OK);
    CHECK(ucstore_put(&store, (const uint8_t *)"z", 1, one, 1) == UCSTORE_OK);
    CHECK(ucstore_snapshot(&store, &sequence) == UCSTORE_OK);
    for (at = 0; at < 1000000; at++) {
        merge_as(&store, UCSTORE_ADD, 0, one, sizeof one);
    }
    CHECK(ucstore_flush(&store) == UCSTORE_OK);
    while (is_compacted) {
        CHECK(ucstore_compact(&store, &is_compacted) == UCSTORE_OK);
    }
    report.size = sizeof report;
    CHECK(ucstore_report(&store, &report) == UCSTORE_OK);
    CHECK(report.points == 2 && report.bytes == (1 + 1 + 8) + (sizeof KEY + 10 + 8));
    expect(&store, million, sizeof million);
    CHECK(ucstore_close(&store) == UCSTORE_OK);
}

int main(void) {
    try_values();
    try_bad();
    try_many();
    printf("operands: each operator and each bad payload\n");
    return 0;
}
