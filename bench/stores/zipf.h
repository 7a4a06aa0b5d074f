/* Numbers of which few are drawn often, as YCSB draws them: the share of the n-th falls with n to the power of 0.99
 * (Gray et al., "Quickly Generating Billion-Record Synthetic Databases"), and a hash spreads them. */
#ifndef BENCH_STORES_ZIPF_H
#define BENCH_STORES_ZIPF_H

#include <math.h>
#include <stdint.h>

struct zipf {
    uint64_t items;
    double theta, alpha, eta, zeta;
};

static inline double zeta_of(uint64_t items, double theta) {
    double sum = 0;
    for (uint64_t place = 1; place <= items; place++) {
        sum += pow(1 / (double)place, theta);
    }
    return sum;
}

static inline struct zipf zipf_of(uint64_t items) {
    const double theta = 0.99;
    double zeta = zeta_of(items, theta);
    double eta = (1 - pow(2 / (double)items, 1 - theta)) / (1 - zeta_of(2, theta) / zeta);
    return (struct zipf){items, theta, 1 / (1 - theta), eta, zeta};
}

/* The number at a share between 0 and 1 of all draws: the most frequent are the least. */
static inline uint64_t zipf_rank(const struct zipf *zipf, double share) {
    double scaled = share * zipf->zeta;
    if (scaled < 1) {
        return 0;
    }
    if (scaled < 1 + pow(0.5, zipf->theta)) {
        return 1;
    }
    return (uint64_t)((double)zipf->items * pow(zipf->eta * share - zipf->eta + 1, zipf->alpha)) % zipf->items;
}

#endif
