/* commits DB controller|orchestrator COUNT GROUP: the upserts that a controller makes for so many CreateVolume calls, in plain SQLite: two rows for each, and a
   transaction for a group of so many calls. Or those of an orchestrator for the commands about so many volumes and their replies: one row for each line.
   It prints the seconds from the end of the first group to the end of the last one. */
#define _POSIX_C_SOURCE 199309L /* clock_gettime */
#include <sqlite3.h>
#include <stdint.h>
#include <stdio.h>
#include <stdlib.h>
#include <string.h>
#include <time.h>

static sqlite3 *db;

static void must(int code) {
    if (code == SQLITE_OK || code == SQLITE_DONE) return;
    fprintf(stderr, "%s\n", sqlite3_errmsg(db));
    exit(1);
}

static void number(unsigned char *to, uint64_t n) {
    for (int at = 7; at >= 0; at--, n >>= 8) to[at] = (unsigned char)n;
}

static void put(sqlite3_stmt *upsert, uint64_t key, const unsigned char *value, int length) {
    unsigned char bytes[8];
    number(bytes, key);
    must(sqlite3_bind_blob(upsert, 1, bytes, 8, SQLITE_TRANSIENT));
    must(sqlite3_bind_blob(upsert, 2, value, length, SQLITE_TRANSIENT));
    must(sqlite3_step(upsert));
    must(sqlite3_reset(upsert));
}

static void put_head(sqlite3_stmt *upsert, uint64_t next_id, uint64_t session) {
    unsigned char head[18] = {3, 0};
    number(head + 2, next_id);
    number(head + 10, session);
    put(upsert, 0, head, 18);
}

/* a live volume of this id and of a name after it, with the reply to the call of this number */
static void put_row(sqlite3_stmt *upsert, uint64_t id) {
    unsigned char row[49] = {3, 1, 7};
    char name[24];
    snprintf(name, sizeof name, "v%06llu", (unsigned long long)id);
    memcpy(row + 3, name, 7);
    number(row + 10, 10);
    row[18] = 1, row[19] = 0, row[20] = 1, row[21] = 0;
    number(row + 22, 1);
    number(row + 30, id);
    row[38] = 129, row[39] = 0;
    number(row + 40, id);
    row[48] = 0;
    put(upsert, id, row, 49);
}

static void put_orchestrator_head(sqlite3_stmt *upsert) {
    unsigned char head[14] = {3, 2};
    number(head + 2, 1);
    memcpy(head + 10, "\1\2n1", 4);
    put(upsert, 0, head, 14);
}

/* what an orchestrator's row has after each line about the volume: the goal, the tries, and the entry */
enum { NO_GOAL, CREATE, USE, STOP, DELETE };

#define ENTRY(attached, staged, published) "\1\2n1\0\1\0" attached staged "\1\2/a" published

static const struct {
    unsigned char has_id, exists, goal;
    const char *entries;
    int size;
} steps[12] = {
    {0, 2, CREATE, "", 1},
    {1, 1, NO_GOAL, "", 1},
    {1, 1, USE, ENTRY("\2", "\0", "\0"), 14},
    {1, 1, USE, ENTRY("\1", "\2", "\0"), 14},
    {1, 1, USE, ENTRY("\1", "\1", "\2"), 14},
    {1, 1, NO_GOAL, ENTRY("\1", "\1", "\1"), 14},
    {1, 1, STOP, ENTRY("\1", "\1", "\2"), 14},
    {1, 1, STOP, ENTRY("\1", "\2", "\0"), 14},
    {1, 1, STOP, ENTRY("\2", "\0", "\0"), 14},
    {1, 1, NO_GOAL, "", 1},
    {1, 2, DELETE, "", 1},
    {1, 0, NO_GOAL, "", 1},
};

static void put_known(sqlite3_stmt *upsert, uint64_t id, int step) {
    unsigned char row[96] = {3, 7}, *at = row + 2;
    char name[24];
    snprintf(name, sizeof name, "v%06llu", (unsigned long long)id);
    memcpy(at, name, 7), at += 7;
    number(at, 10), at += 8;
    number(at, 0), at += 8;
    memcpy(at, "\1\0\1", 3), at += 3;
    *at++ = steps[step].has_id;
    if (steps[step].has_id) number(at, id), at += 8;
    *at++ = steps[step].exists;
    *at++ = steps[step].goal;
    if (steps[step].goal == USE) memcpy(at, "\2n1\2/a\0\1\0", 9), at += 9;
    if (steps[step].goal == STOP) memcpy(at, "\2n1\2/a", 6), at += 6;
    *at++ = steps[step].goal != NO_GOAL;
    memcpy(at, steps[step].entries, (size_t)steps[step].size), at += steps[step].size;
    put(upsert, id, row, (int)(at - row));
}

static sqlite3_stmt *begin, *commit, *upsert;

static void transact(int is_begun) {
    must(sqlite3_step(is_begun ? begin : commit));
    must(sqlite3_reset(is_begun ? begin : commit));
}

static uint64_t group, inside; /* how many make a transaction, and how many are in this one */
static double begun, now;

static void one_begins(void) {
    if (inside++ == 0) transact(1);
}

static void one_ends(int is_last) {
    struct timespec time;
    if (inside < group && !is_last) return;
    transact(0);
    inside = 0;
    clock_gettime(CLOCK_MONOTONIC, &time);
    now = (double)time.tv_sec + (double)time.tv_nsec / 1e9;
    if (begun == 0) begun = now;
}

static void serve_controller(uint64_t count) {
    put_head(upsert, 1, 0);
    for (uint64_t id = 1; id <= count; id++) {
        one_begins();
        put_head(upsert, id + 1, 1);
        put_row(upsert, id);
        one_ends(id == count);
    }
}

/* All volumes are created, then used, no longer used, and deleted. */
static void serve_orchestrator(uint64_t count) {
    static const int passes[] = {0, 2, 6, 10, 12};
    put_orchestrator_head(upsert);
    for (int pass = 0; pass < 4; pass++)
        for (uint64_t id = 1; id <= count; id++)
            for (int step = passes[pass]; step < passes[pass + 1]; step++) {
                one_begins();
                put_known(upsert, id, step);
                one_ends(step == 11 && id == count);
            }
}

int main(int count_of_words, char **words) {
    if (count_of_words != 5) return 2;
    uint64_t count = strtoull(words[3], NULL, 10);
    group = strtoull(words[4], NULL, 10);
    must(sqlite3_open(words[1], &db));
    must(sqlite3_exec(db, "PRAGMA locking_mode=EXCLUSIVE; PRAGMA journal_mode=WAL; PRAGMA synchronous=FULL;"
        "CREATE TABLE IF NOT EXISTS parts (key BLOB NOT NULL PRIMARY KEY, value BLOB NOT NULL)", NULL, NULL, NULL));
    must(sqlite3_prepare_v2(db, "BEGIN", -1, &begin, NULL));
    must(sqlite3_prepare_v2(db, "COMMIT", -1, &commit, NULL));
    must(sqlite3_prepare_v2(db, "INSERT INTO parts (key, value) VALUES (?1, ?2) ON CONFLICT (key) DO UPDATE SET value = excluded.value", -1, &upsert, NULL));
    if (strcmp(words[2], "controller") == 0) serve_controller(count);
    else serve_orchestrator(count);
    sqlite3_finalize(begin);
    sqlite3_finalize(commit);
    sqlite3_finalize(upsert);
    must(sqlite3_close(db));
    printf("%.6f\n", now - begun);
    return 0;
}
