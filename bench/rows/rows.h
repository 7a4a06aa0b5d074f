/* Rows that both programs store and read: keys of 16 digits that count up from 0, each with a value of 100 bytes. */
#pragma once

#include <stdbool.h>
#include <stdint.h>
#include <stdio.h>
#include <stdlib.h>
#include <time.h>

enum { KEY = 16, VALUE = 100, PAGE = 256, FEW = 10, FEW_SCANS = 200000, LOOKUPS = 500000, MANY = 32 };

static inline void expect(bool holds, const char *what) {
    if (!holds) {
        fprintf(stderr, "%s\n", what);
        exit(1);
    }
}

static inline double nanoseconds(void) {
    struct timespec now;
    clock_gettime(CLOCK_MONOTONIC, &now);
    return now.tv_sec * 1e9 + now.tv_nsec;
}

/* Draws a number by xorshift64. */
static inline uint64_t draw(uint64_t *state) {
    *state ^= *state << 13;
    *state ^= *state >> 7;
    return *state ^= *state << 17;
}

/* Writes the key of a row. */
static inline void spell(uint64_t row, uint8_t key[KEY]) {
    for (int place = KEY; place-- > 0; row /= 10) {
        key[place] = (uint8_t)('0' + row % 10);
    }
}
