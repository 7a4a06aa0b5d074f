/* Prints the nanoseconds of the same work in LMDB: `lmdb COUNT FOLDER`. A cursor reads rows, and key and value of each are copied. */
#include <lmdb.h>
#include <string.h>

#include "rows.h"

static MDB_cursor *cursor;
static uint8_t copy[KEY + VALUE];

static void expect_ok(int status, const char *what) {
    expect(status == 0, what);
}

/* Reads at most `most` rows, the first by one move and the others by another. Returns their number. */
static uint64_t read_rows(MDB_val key, MDB_cursor_op first, MDB_cursor_op next, uint64_t most) {
    MDB_val value;
    uint64_t rows = 0;
    for (MDB_cursor_op move = first; rows < most && mdb_cursor_get(cursor, &key, &value, move) == 0; move = next) {
        memcpy(copy, key.mv_data, KEY);
        memcpy(copy + KEY, value.mv_data, VALUE);
        rows++;
    }
    return rows;
}

int main(int argc, char **argv) {
    expect(argc == 3, "usage: lmdb COUNT FOLDER");
    uint64_t count = strtoull(argv[1], NULL, 10), state = 88172645463325252;
    MDB_env *env;
    MDB_txn *txn;
    MDB_dbi dbi;
    uint8_t bytes[KEY], filling[VALUE];
    memset(filling, 'v', VALUE);
    MDB_val key = {KEY, bytes}, value = {VALUE, filling};
    expect_ok(mdb_env_create(&env), "there is no environment");
    expect_ok(mdb_env_set_mapsize(env, (size_t)1 << 31), "the map has no size");
    expect_ok(mdb_env_open(env, argv[2], MDB_NOSYNC, 0600), "nothing is opened");
    expect_ok(mdb_txn_begin(env, NULL, 0, &txn), "there is no transaction");
    expect_ok(mdb_dbi_open(txn, NULL, 0, &dbi), "there is no table");
    for (uint64_t row = 0; row < count; row++) {
        spell(row, bytes);
        expect_ok(mdb_put(txn, dbi, &key, &value, MDB_APPEND), "a row isn't written");
    }
    expect_ok(mdb_txn_commit(txn), "nothing is committed");
    expect_ok(mdb_txn_begin(env, NULL, MDB_RDONLY, &txn), "there is no transaction");
    expect_ok(mdb_cursor_open(txn, dbi, &cursor), "there is no cursor");

    double begin = nanoseconds();
    expect(read_rows(key, MDB_FIRST, MDB_NEXT, UINT64_MAX) == count, "rows are missing");
    printf("forward lmdb %.1f\n", (nanoseconds() - begin) / (double)count);
    begin = nanoseconds();
    expect(read_rows(key, MDB_LAST, MDB_PREV, UINT64_MAX) == count, "rows are missing");
    printf("back lmdb %.1f\n", (nanoseconds() - begin) / (double)count);
    begin = nanoseconds();
    for (int call = 0; call < FEW_SCANS; call++) {
        spell(draw(&state) % count, bytes);
        expect(read_rows(key, MDB_SET_RANGE, MDB_NEXT, FEW) > 0, "no rows");
    }
    printf("ten lmdb %.1f\n", (nanoseconds() - begin) / FEW_SCANS);
    begin = nanoseconds();
    for (int call = 0; call < FEW_SCANS; call++) {
        spell(draw(&state) % count, bytes);
        expect(read_rows(key, MDB_SET_RANGE, MDB_PREV, FEW) > 0, "no rows");
    }
    printf("ten-back lmdb %.1f\n", (nanoseconds() - begin) / FEW_SCANS);
    begin = nanoseconds();
    for (int call = 0; call < LOOKUPS; call++) {
        spell(draw(&state) % count, bytes);
        expect_ok(mdb_get(txn, dbi, &key, &value), "a row isn't found");
        memcpy(copy, value.mv_data, VALUE);
    }
    printf("get lmdb %.1f\n", (nanoseconds() - begin) / LOOKUPS);
    return 0;
}
