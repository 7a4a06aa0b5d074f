/* Counts visits in a directory, and prints the number before and after. */
#include <stdio.h>
#include <ucstore_db.h>

static int failed(void) {
    fprintf(stderr, "%s\n", ucstore_db_error_text());
    return 1;
}

int main(void) {
    struct ucstore_db_options options;
    struct ucstore_db_snapshot *before;
    struct ucstore_db *db;
    uint8_t now[8] = {0}, then[8] = {0}, two[8] = {2}, three[8] = {3};
    size_t size = 0;

    ucstore_db_options_init(&options, sizeof options);
    options.merge_operator = UCSTORE_DB_COUNTER;
    if (ucstore_db_open("visits", &options, &db) != UCSTORE_DB_OK) return failed();
    ucstore_db_merge(db, "visits", 6, two, sizeof two);
    ucstore_db_snapshot(db, &before);
    ucstore_db_merge(db, "visits", 6, three, sizeof three);
    ucstore_db_get(db, "visits", 6, now, sizeof now, &size);
    ucstore_db_snapshot_get(before, "visits", 6, then, sizeof then, &size);
    printf("%d visits, %d before\n", now[0], then[0]);
    ucstore_db_snapshot_close(before);
    return ucstore_db_close(db);
}
