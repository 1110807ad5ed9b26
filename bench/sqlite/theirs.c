/* SQLite in WAL mode with synchronous=FULL: the bytes put into a blob, and a row for each change. */
#include "sides.h"

#include <sqlite3.h>
#include <stdio.h>
#include <string.h>
#include <unistd.h>

static sqlite3 *base;
static sqlite3_stmt *insert;

static void run(const char *sql) {
    must(sqlite3_exec(base, sql, NULL, NULL, NULL) == SQLITE_OK, sqlite3_errmsg(base));
}

static void close_base(void) {
    sqlite3_finalize(insert);
    insert = NULL;
    must(sqlite3_close(base) == SQLITE_OK, "sqlite3_close");
}

static void remove_files(const char *path) {
    char name[320];
    unlink(path);
    snprintf(name, sizeof name, "%s-wal", path);
    unlink(name);
    snprintf(name, sizeof name, "%s-shm", path);
    unlink(name);
}

static int open_base(const char *directory, int fresh) {
    char path[300];
    snprintf(path, sizeof path, "%s/theirs.db", directory);
    if (fresh) remove_files(path);
    if (sqlite3_open(path, &base) != SQLITE_OK) return sqlite3_errcode(base);
    /* a closed base keeps its log, so that the damage finds it */
    must(sqlite3_db_config(base, SQLITE_DBCONFIG_NO_CKPT_ON_CLOSE, 1, (int *)NULL) == SQLITE_OK, "db_config");
    run("PRAGMA journal_mode=WAL; PRAGMA synchronous=FULL;");
    if (!fresh) return 0;
    run("CREATE TABLE page(id INTEGER PRIMARY KEY, body BLOB); CREATE TABLE line(page INTEGER, body BLOB);");
    for (int i = 0; i < PAGES; i++) run("INSERT INTO page(body) VALUES (zeroblob(244))");
    run("PRAGMA wal_checkpoint(TRUNCATE)");
    return 0;
}

static void put(uint32_t page, const char *piece) {
    sqlite3_blob *blob;
    must(sqlite3_blob_open(base, "main", "page", "body", page, 1, &blob) == SQLITE_OK, sqlite3_errmsg(base));
    must(sqlite3_blob_write(blob, piece, PIECE, 100) == SQLITE_OK, sqlite3_errmsg(base));
    must(sqlite3_blob_close(blob) == SQLITE_OK, sqlite3_errmsg(base));
}

static int put_text(uint32_t page, char *piece) {
    sqlite3_blob *blob = NULL;
    int answer = sqlite3_blob_open(base, "main", "page", "body", page, 0, &blob);
    if (answer == SQLITE_OK) answer = sqlite3_blob_read(blob, piece, PIECE, 100);
    sqlite3_blob_close(blob);
    return answer;
}

static void row(uint32_t page, const char *piece) {
    if (insert == NULL)
        must(sqlite3_prepare_v2(base, "INSERT INTO line VALUES (?, ?)", -1, &insert, NULL) == SQLITE_OK, "prepare");
    sqlite3_bind_int(insert, 1, (int)page);
    sqlite3_bind_blob(insert, 2, piece, PIECE, SQLITE_STATIC);
    must(sqlite3_step(insert) == SQLITE_DONE && sqlite3_reset(insert) == SQLITE_OK, sqlite3_errmsg(base));
}

static int row_text(uint32_t page, char *piece) {
    sqlite3_stmt *query;
    const char *sql = "SELECT body FROM line WHERE page = ? ORDER BY rowid DESC LIMIT 1";
    if (sqlite3_prepare_v2(base, sql, -1, &query, NULL) != SQLITE_OK) return sqlite3_errcode(base);
    sqlite3_bind_int(query, 1, (int)page);
    int answer = sqlite3_step(query);
    if (answer == SQLITE_ROW && sqlite3_column_bytes(query, 0) == PIECE)
        memcpy(piece, sqlite3_column_blob(query, 0), PIECE);
    sqlite3_finalize(query);
    return answer == SQLITE_ROW ? 0 : answer;
}

static void checkpoint(void) {
    run("PRAGMA wal_checkpoint(TRUNCATE)");
}

const struct side sqlite_blob = {
    "SQLite, a blob's bytes", open_base, put, put_text, checkpoint, close_base, "theirs.db", "theirs.db-wal"
};
const struct side sqlite_row = {
    "SQLite, a row", open_base, row, row_text, checkpoint, close_base, "theirs.db", "theirs.db-wal"
};
