/* Keys of 16 bytes. */
#ifndef BENCH_STORES_KEYS_H
#define BENCH_STORES_KEYS_H

#include "store.h"

enum { KEY = 16 };

/* The key of a number: a letter and fifteen digits. */
static inline struct text key_in(uint8_t *room, char letter, uint64_t number) {
    room[0] = (uint8_t)letter;
    for (size_t place = KEY; place-- > 1; number /= 10) {
        room[place] = (uint8_t)('0' + number % 10);
    }
    return (struct text){room, KEY};
}

#endif
