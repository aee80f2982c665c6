// The lines `at`, `move`, `cancel` and `next` of jobs on libsqlite3, with a commit after every so many lines: bench-jobs.c DATABASE LINES
#include <sqlite3.h>
#include <stdio.h>
#include <stdlib.h>
#include <string.h>

static sqlite3 *base;

static int checked(int status) {
    if (status == SQLITE_OK || status == SQLITE_DONE || status == SQLITE_ROW) return status;
    fprintf(stderr, "%s\n", sqlite3_errmsg(base));
    exit(1);
}

static sqlite3_stmt *prepared(const char *text) {
    sqlite3_stmt *statement;
    checked(sqlite3_prepare_v2(base, text, -1, &statement, 0));
    return statement;
}

static int run(sqlite3_stmt *statement) {
    int status = checked(sqlite3_step(statement));
    sqlite3_reset(statement);
    return status;
}

int main(int count, char **words) {
    static char line[1 << 17], payload[1 << 17];
    long many = count > 2 ? atol(words[2]) : 1, lines = 0, open = 0, id, deadline;
    checked(sqlite3_open(words[1], &base));
    checked(sqlite3_exec(base, "pragma journal_mode = wal; pragma synchronous = full; create table if not exists job (id integer primary key autoincrement, "
                               "deadline integer, payload blob); create index if not exists by_deadline on job (deadline)", 0, 0, 0));
    sqlite3_stmt *begin = prepared("begin immediate"), *commit = prepared("commit");
    sqlite3_stmt *at = prepared("insert into job (deadline, payload) values (?1, ?2)"), *move = prepared("update job set deadline = ?2 where id = ?1");
    sqlite3_stmt *cancel = prepared("delete from job where id = ?1"), *next = prepared("select min(deadline) from job");
    while (fgets(line, sizeof line, stdin)) {
        if (!open) run(begin);
        open = 1;
        if (sscanf(line, "at %ld %131000[^\n]", &deadline, payload) == 2) {
            sqlite3_bind_int64(at, 1, deadline);
            sqlite3_bind_blob(at, 2, payload, strlen(payload), SQLITE_STATIC);
            run(at);
            printf("%lld\n", (long long)sqlite3_last_insert_rowid(base));
        } else if (sscanf(line, "move %ld %ld", &id, &deadline) == 2) {
            sqlite3_bind_int64(move, 1, id);
            sqlite3_bind_int64(move, 2, deadline);
            run(move);
            puts("done");
        } else if (sscanf(line, "cancel %ld", &id) == 1) {
            sqlite3_bind_int64(cancel, 1, id);
            run(cancel);
            puts("done");
        } else {
            checked(sqlite3_step(next));
            printf("%lld\n", (long long)sqlite3_column_int64(next, 0));
            sqlite3_reset(next);
        }
        if (++lines % many == 0) {
            run(commit);
            open = 0;
            fflush(stdout);
        }
    }
    if (open) run(commit);
    return 0;
}
