/* Gives each store of a process a unique number, by which it recognizes its jobs. `tools/install` compiles this into the library. It is
 * not proved: the prover's language has no static variables. */
#include "ucstore.h"

int32_t numbered_ucstore_create(struct ucstore *store, uint32_t merge_operator, const struct ucstore_options *options, uint64_t number);
int32_t numbered_ucstore_open(struct ucstore *store, uint32_t merge_operator, const struct ucstore_options *options, const uint8_t *log,
                              size_t log_length, struct ucstore_ended *ended, uint64_t number);

/* Starts at 1, for any number of threads. A process cannot open 2^64 stores. */
static uint64_t next_number(void) {
    static uint64_t given;
    return __atomic_add_fetch(&given, 1, __ATOMIC_RELAXED);
}

int32_t ucstore_create(struct ucstore *store, uint32_t merge_operator, const struct ucstore_options *options) {
    return numbered_ucstore_create(store, merge_operator, options, next_number());
}

int32_t ucstore_open(struct ucstore *store, uint32_t merge_operator, const struct ucstore_options *options, const uint8_t *log,
                     size_t log_length, struct ucstore_ended *ended) {
    return numbered_ucstore_open(store, merge_operator, options, log, log_length, ended, next_number());
}
