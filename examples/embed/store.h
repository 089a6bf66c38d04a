/* A store over SQLite for what the library makes: the file that `csi-replay` has too. */
#include "tufayon.h"
#include <sqlite3.h>
#include <stdio.h>
#include <stdlib.h>
#include <string.h>
#include <unistd.h> /* read, write */

static sqlite3 *db;
static sqlite3_stmt *put_in, *take_out;
static tufayon_plugin held; /* what it is the store of */

static void must(int good, const char *why) {
    if (!good) fprintf(stderr, "%s: %s\n", why, sqlite3_errmsg(db)), exit(1);
}
static void run(const char *sql) { must(sqlite3_exec(db, sql, NULL, NULL, NULL) == SQLITE_OK, "the store"); }
static sqlite3_stmt *prepared(const char *sql) {
    sqlite3_stmt *made;
    must(sqlite3_prepare_v2(db, sql, -1, &made, NULL) == SQLITE_OK, "the store");
    return made;
}
static void big(uint8_t *to, uint64_t number, int size) {
    for (; size-- > 0; number >>= 8) to[size] = (uint8_t)number;
}

/* The store's transaction, which begins with the first change since the last commit, and where it ends. */
static int is_begun;
static void begin(void) {
    if (!is_begun) run("BEGIN");
    is_begun = 1;
}
static void commit(void) {
    if (is_begun) run("COMMIT");
    is_begun = 0;
}

/* Puts what the last call changed into the transaction, behind what calls before it changed. */
static void put_changes(void) {
    static uint8_t *value, none[1];
    static size_t room, size;
    size_t place = 0;
    uint64_t key;
    uint32_t ending;
    while ((ending = tufayon_changed(&held, place, &key, value ? value : none, room, &size)) != TUFAYON_NO_MORE) {
        sqlite3_stmt *change = ending == TUFAYON_TAKE_OUT ? take_out : put_in;
        uint8_t name[8];
        if (ending == TUFAYON_NO_ROOM && (value = realloc(value, room = size)) != NULL) continue; /* once more */
        must(ending == TUFAYON_DONE || ending == TUFAYON_TAKE_OUT, "the change");
        if (place++ == 0) begin();
        big(name, key, sizeof name);
        must(sqlite3_bind_blob(change, 1, name, 8, SQLITE_TRANSIENT) == SQLITE_OK, "the store");
        if (ending == TUFAYON_DONE) must(sqlite3_bind_blob(change, 2, value, (int)size, SQLITE_STATIC) == SQLITE_OK, "the store");
        must(sqlite3_step(change) == SQLITE_DONE && sqlite3_reset(change) == SQLITE_OK, "the store");
    }
}

/* The bytes of the record whose parts the store has, and how many: none where it has no part. */
static uint8_t *load(size_t *size) {
    uint8_t *bytes = malloc(5);
    sqlite3_stmt *all = prepared("SELECT key, value FROM parts ORDER BY key");
    uint32_t parts = 0;
    for (must(bytes != NULL, "memory"), *size = 5; sqlite3_step(all) == SQLITE_ROW; big(bytes + 1, ++parts, 4)) {
        size_t length = (size_t)sqlite3_column_bytes(all, 1);
        must(sqlite3_column_bytes(all, 0) == 8 && length > 0, "no record");
        must((bytes = realloc(bytes, *size + 12 + length)) != NULL, "memory");
        memcpy(bytes + *size, sqlite3_column_blob(all, 0), 8);
        big(bytes + *size + 8, length, 4);
        memcpy(bytes + *size + 12, sqlite3_column_blob(all, 1), length);
        bytes[0] = bytes[17]; /* the version, in front of the first part's value */
        *size += 12 + length;
    }
    must(sqlite3_finalize(all) == SQLITE_OK, "the store");
    return *size = parts > 0 ? *size : 0, bytes;
}

static void open_store(const char *name) {
    must(sqlite3_open(name, &db) == SQLITE_OK, "the store");
    run("PRAGMA journal_mode = WAL; PRAGMA synchronous = FULL; CREATE TABLE IF NOT EXISTS parts (key BLOB NOT NULL PRIMARY KEY, value BLOB NOT NULL)");
    put_in = prepared("INSERT INTO parts (key, value) VALUES (?1, ?2) ON CONFLICT (key) DO UPDATE SET value = excluded.value");
    take_out = prepared("DELETE FROM parts WHERE key = ?1");
}

static void close_store(void) {
    tufayon_free(&held);
    must(!sqlite3_finalize(put_in) && !sqlite3_finalize(take_out) && !sqlite3_close(db), "the store");
}
