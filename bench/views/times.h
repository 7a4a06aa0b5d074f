/* Times in nanoseconds, and how many there were of each size: to the nanosecond below 128, and to one part in 64 above.
 * */
#ifndef BENCH_VIEWS_TIMES_H
#define BENCH_VIEWS_TIMES_H

#include <stddef.h>
#include <stdint.h>
#include <time.h>

enum { PARTS = 64, SIZES = 59 * PARTS };

struct times {
    uint64_t counts[SIZES];
    uint64_t count;
    int64_t longest;
};

static inline int64_t at_clock(clockid_t clock) {
    struct timespec time;
    clock_gettime(clock, &time);
    return (int64_t)time.tv_sec * 1000000000 + time.tv_nsec;
}

static inline int64_t now(void) {
    return at_clock(CLOCK_MONOTONIC);
}

/* The processor time of the calling thread. */
static inline int64_t processor_time(void) {
    return at_clock(CLOCK_THREAD_CPUTIME_ID);
}

static inline void add_time(struct times *times, int64_t time) {
    uint64_t rest = (uint64_t)time;
    size_t halvings = 0;
    for (; rest >= 2 * PARTS; halvings++) {
        rest /= 2;
    }
    times->counts[halvings * PARTS + rest]++;
    times->count++;
    if (time > times->longest) {
        times->longest = time;
    }
}

static inline void add_times(struct times *times, const struct times *others) {
    for (size_t size = 0; size < SIZES; size++) {
        times->counts[size] += others->counts[size];
    }
    times->count += others->count;
    if (others->longest > times->longest) {
        times->longest = others->longest;
    }
}

/* The time that `share` of a thousand do not exceed: the least one of its size. */
static inline int64_t time_at(const struct times *times, uint64_t share) {
    uint64_t below = times->counts[0];
    size_t size = 0, halvings;
    while (below * 1000 < times->count * share) {
        below += times->counts[++size];
    }
    halvings = size < 2 * PARTS ? 0 : size / PARTS - 1;
    return (int64_t)((uint64_t)(size - halvings * PARTS) << halvings);
}

#endif
