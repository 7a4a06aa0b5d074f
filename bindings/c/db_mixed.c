/* One database with a counter, a maximum, a feed and a set, and a snapshot of all. */
#include <stdio.h>
#include <string.h>
#include <ucstore_db.h>

static int failed(void) {
    fprintf(stderr, "%s\n", ucstore_db_error_text());
    return 1;
}

int main(void) {
    const unsigned char two[8] = {2, 0, 0, 0, 0, 0, 0, 0}, less_one[8] = {255, 255, 255, 255, 255, 255, 255, 255};
    /* Two members in order, each after its length. */
    const char tags[] = "\4\0blue\3\0new";
    unsigned char now[8] = {0}, then[8] = {0}, set[32] = {0};
    size_t size = 0;
    struct ucstore_db_options options;
    struct ucstore_db *db;
    struct ucstore_db_batch *batch;
    struct ucstore_db_snapshot *before;
    ucstore_db_options_init(&options, sizeof options);
    if (ucstore_db_open("site", &options, &db) != UCSTORE_DB_OK) return failed();
    ucstore_db_batch_create(&batch);
    ucstore_db_batch_merge_as(batch, UCSTORE_DB_ADD, 0, "visits", 6, two, sizeof two);
    ucstore_db_batch_merge_as(batch, UCSTORE_DB_MAX_BYTES, 0, "last", 4, "2026-01-02", 10);
    ucstore_db_batch_merge_as(batch, UCSTORE_DB_APPEND_BYTES, ',', "feed", 4, "login", 5);
    ucstore_db_batch_merge_as(batch, UCSTORE_DB_SET_UNION, 0, "tags", 4, tags, sizeof tags - 1);
    if (ucstore_db_write(db, batch) != UCSTORE_DB_OK) return failed();
    ucstore_db_batch_close(batch);
    if (ucstore_db_snapshot(db, &before) != UCSTORE_DB_OK) return failed();
    if (ucstore_db_merge_as(db, UCSTORE_DB_ADD, 0, "visits", 6, less_one, sizeof less_one) != UCSTORE_DB_OK) return failed();
    ucstore_db_get(db, "visits", 6, now, sizeof now, &size);
    ucstore_db_snapshot_get(before, "visits", 6, then, sizeof then, &size);
    ucstore_db_snapshot_get(before, "tags", 4, set, sizeof set, &size);
    printf("%d visits, %d before, %s\n", now[0], then[0], size == sizeof tags - 1 && memcmp(set, tags, size) == 0 ? "2 tags" : "no tags");
    ucstore_db_snapshot_close(before);
    return ucstore_db_close(db);
}
