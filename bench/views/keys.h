/* Keys by their numbers, and drawn numbers. */
#ifndef BENCH_VIEWS_KEYS_H
#define BENCH_VIEWS_KEYS_H

#include "../c/store.h"

#include <string.h>

/* The number at a place of a drawn sequence, by SplitMix64. */
static inline uint64_t drawn(uint64_t place) {
    uint64_t mixed = place * UINT64_C(0x9e3779b97f4a7c15);
    mixed = (mixed ^ mixed >> 30) * UINT64_C(0xbf58476d1ce4e5b9);
    mixed = (mixed ^ mixed >> 27) * UINT64_C(0x94d049bb133111eb);
    return mixed ^ mixed >> 31;
}

/* The key of a number: `account/` and eight digits. */
static inline void put_key(uint8_t *key, uint64_t number) {
    memcpy(key, "account/", KEY / 2);
    for (size_t place = KEY; place-- > KEY / 2; number /= 10) {
        key[place] = (uint8_t)('0' + number % 10);
    }
}

/* A number as 8 bytes, low byte first, and back. */
static inline void put_number(uint8_t *bytes, uint64_t number) {
    for (size_t place = 0; place < NUMBER; place++) {
        bytes[place] = (uint8_t)(number >> 8 * place);
    }
}

static inline uint64_t number_of(const uint8_t *bytes) {
    uint64_t number = 0;
    for (size_t place = NUMBER; place-- > 0;) {
        number = number << 8 | bytes[place];
    }
    return number;
}

#endif
