/* Saves the same rows by the same statement through the stock SQLite library: peer DB COUNT */
#include <sqlite3.h>
#include <stdio.h>
#include <stdlib.h>
#include <string.h>

static void must(int code, sqlite3 *db)
{
    if (code != SQLITE_OK && code != SQLITE_ROW && code != SQLITE_DONE) {
        fprintf(stderr, "%s\n", sqlite3_errmsg(db));
        exit(1);
    }
}

/* Runs a pragma and stops unless it answers this. */
static void must_answer(sqlite3 *db, const char *pragma, const char *wanted)
{
    sqlite3_stmt *asked;
    must(sqlite3_prepare_v2(db, pragma, -1, &asked, 0), db);
    must(sqlite3_step(asked), db);
    const char *told = (const char *)sqlite3_column_text(asked, 0);
    if (told == 0 || strcmp(told, wanted) != 0) {
        fprintf(stderr, "%s: not %s\n", pragma, wanted);
        exit(1);
    }
    must(sqlite3_finalize(asked), db);
}

/* As the other holds its file: one writer, a log beside the file, and a sync at each commit. */
static sqlite3 *open_as_the_other(const char *path)
{
    sqlite3 *db;
    must(sqlite3_open(path, &db), db);
    must_answer(db, "PRAGMA locking_mode = EXCLUSIVE", "exclusive");
    must_answer(db, "PRAGMA journal_mode = WAL", "wal");
    must(sqlite3_exec(db, "PRAGMA synchronous = FULL", 0, 0, 0), db);
    must_answer(db, "PRAGMA synchronous", "2");
    return db;
}

static void make_tables(sqlite3 *db)
{
    must(sqlite3_exec(db,
        "BEGIN;"
        "CREATE TABLE station (one INTEGER PRIMARY KEY CHECK (one = 1),"
        " layout INTEGER NOT NULL, circuit INTEGER NOT NULL,"
        " member INTEGER NOT NULL, members INTEGER NOT NULL) STRICT;"
        "CREATE TABLE acceptor_row (number INTEGER PRIMARY KEY,"
        " promised_round INTEGER NOT NULL, promised_owner INTEGER NOT NULL,"
        " vote_round INTEGER, vote_owner INTEGER, tape BLOB) STRICT;"
        "INSERT INTO station VALUES (1, 1, 7, 2, 3);"
        "COMMIT", 0, 0, 0), db);
}

static void save(sqlite3 *db, sqlite3_stmt *put, int place)
{
    unsigned char frames[64];
    memset(frames, place % 64, sizeof frames);
    must(sqlite3_bind_int(put, 1, place % 500 + 1), db);
    must(sqlite3_bind_int(put, 2, place / 500 + 1), db);
    must(sqlite3_bind_int(put, 3, 2), db);
    must(sqlite3_bind_int(put, 4, place / 500 + 1), db);
    must(sqlite3_bind_int(put, 5, 2), db);
    must(sqlite3_bind_blob(put, 6, frames, sizeof frames, SQLITE_STATIC), db);
    must(sqlite3_step(put), db);
    must(sqlite3_reset(put), db);
}

int main(int argc, char **argv)
{
    if (argc != 3) {
        fprintf(stderr, "usage: peer DB COUNT\n");
        return 2;
    }
    sqlite3 *db = open_as_the_other(argv[1]);
    make_tables(db);
    sqlite3_stmt *put;
    must(sqlite3_prepare_v2(db,
        "INSERT INTO acceptor_row VALUES (?1, ?2, ?3, ?4, ?5, ?6) ON CONFLICT (number) DO UPDATE SET"
        " promised_round = excluded.promised_round, promised_owner = excluded.promised_owner,"
        " vote_round = excluded.vote_round, vote_owner = excluded.vote_owner, tape = excluded.tape", -1, &put, 0), db);
    int count = atoi(argv[2]);
    for (int place = 0; place < count; place++)
        save(db, put, place);
    must(sqlite3_finalize(put), db);
    must(sqlite3_close(db), db);
    return 0;
}
