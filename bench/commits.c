// Changes of one node in a SQLite file by the C library, with the statements of a cell's store: each puts the node,
// and sets the next instance if it is another, in a transaction of its own, with a log that is synced at each commit.
// Usage: commits FILE COUNT (FILE :memory: for memory). Prints commits a second.
#include <sqlite3.h>
#include <stdio.h>
#include <stdlib.h>
#include <time.h>

static void done(int code, int wanted, sqlite3 *db) {
    if (code != wanted) {
        fprintf(stderr, "%s\n", sqlite3_errmsg(db));
        exit(1);
    }
}

static void run(sqlite3 *db, const char *text) { done(sqlite3_exec(db, text, 0, 0, 0), SQLITE_OK, db); }

int main(int argc, char **argv) {
    if (argc != 3) return 2;
    long count = strtol(argv[2], 0, 10);
    sqlite3 *db;
    sqlite3_stmt *put, *next;
    done(sqlite3_open(argv[1], &db), SQLITE_OK, db);
    run(db, "PRAGMA journal_mode = WAL");
    run(db, "PRAGMA synchronous = FULL");
    run(db, "PRAGMA foreign_keys = ON");
    run(db, "CREATE TABLE meta (id INTEGER NOT NULL PRIMARY KEY, version INTEGER NOT NULL, cell TEXT NOT NULL, secret BLOB NOT NULL, "
            "epoch INTEGER NOT NULL, next_instance INTEGER NOT NULL) STRICT");
    run(db, "INSERT INTO meta VALUES (1, 3, 'c', zeroblob(32), 1, 5)");
    run(db, "CREATE TABLE nodes (name TEXT NOT NULL PRIMARY KEY, instance INTEGER NOT NULL UNIQUE, kind INTEGER NOT NULL, life INTEGER NOT NULL, "
            "content_gen INTEGER NOT NULL, acl_gen INTEGER NOT NULL, lock_gen INTEGER NOT NULL, acl_read TEXT NOT NULL, acl_write TEXT NOT NULL, "
            "acl_change TEXT NOT NULL, content BLOB NOT NULL) STRICT");
    done(sqlite3_prepare_v2(db,
             "INSERT INTO nodes (name, instance, kind, life, content_gen, acl_gen, lock_gen, acl_read, acl_write, acl_change, content) "
             "VALUES (?1, ?2, ?3, ?4, ?5, ?6, 0, ?7, ?8, ?9, ?10) ON CONFLICT (name) DO UPDATE SET instance = excluded.instance, kind = excluded.kind, "
             "life = excluded.life, content_gen = excluded.content_gen, acl_gen = excluded.acl_gen, acl_read = excluded.acl_read, "
             "acl_write = excluded.acl_write, acl_change = excluded.acl_change, content = excluded.content",
             -1, &put, 0),
         SQLITE_OK, db);
    done(sqlite3_prepare_v2(db, "UPDATE meta SET next_instance = ?1 WHERE id = 1 AND next_instance <> ?1", -1, &next, 0), SQLITE_OK, db);
    struct timespec start, end;
    clock_gettime(CLOCK_MONOTONIC, &start);
    for (long i = 1; i <= count; i++) {
        run(db, "BEGIN IMMEDIATE");
        sqlite3_bind_text(put, 1, "/ls/c/f", -1, SQLITE_STATIC);
        sqlite3_bind_int64(put, 2, 4);
        sqlite3_bind_int64(put, 3, 0);
        sqlite3_bind_int64(put, 4, 0);
        sqlite3_bind_int64(put, 5, i);
        sqlite3_bind_int64(put, 6, 1);
        sqlite3_bind_text(put, 7, "base", -1, SQLITE_STATIC);
        sqlite3_bind_text(put, 8, "base", -1, SQLITE_STATIC);
        sqlite3_bind_text(put, 9, "base", -1, SQLITE_STATIC);
        sqlite3_bind_blob(put, 10, "b", 1, SQLITE_STATIC);
        done(sqlite3_step(put), SQLITE_DONE, db);
        sqlite3_reset(put);
        sqlite3_bind_int64(next, 1, 5);
        done(sqlite3_step(next), SQLITE_DONE, db);
        sqlite3_reset(next);
        run(db, "COMMIT");
    }
    clock_gettime(CLOCK_MONOTONIC, &end);
    double took = (double)(end.tv_sec - start.tv_sec) + (double)(end.tv_nsec - start.tv_nsec) / 1e9;
    printf("%.0f commits a second\n", (double)count / took);
    sqlite3_finalize(put);
    sqlite3_finalize(next);
    sqlite3_close(db);
    return 0;
}
