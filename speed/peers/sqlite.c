/* The school's policy and the same work in SQLite, in memory: checks by a recursive query, an assignment and its removal with shedding, and a
   load. It takes a request, `WORK ROUNDS`, and writes how many answers were yes (or done). */
#include <sqlite3.h>
#include <stdio.h>
#include <stdlib.h>
#include <string.h>

static sqlite3 *db;

static void must(int ok) {
    if (ok) return;
    fprintf(stderr, "sqlite: %s\n", sqlite3_errmsg(db));
    exit(1);
}

static void run(const char *sql) { must(sqlite3_exec(db, sql, 0, 0, 0) == SQLITE_OK); }

static sqlite3_stmt *prepared(const char *sql) {
    sqlite3_stmt *s;
    must(sqlite3_prepare_v2(db, sql, -1, &s, 0) == SQLITE_OK);
    return s;
}

/* One statement with up to three numbers; its one result, or 0. */
static int ask(sqlite3_stmt *s, int a, int b, int c) {
    int result = 0, n = sqlite3_bind_parameter_count(s);
    if (n > 0) sqlite3_bind_int(s, 1, a);
    if (n > 1) sqlite3_bind_int(s, 2, b);
    if (n > 2) sqlite3_bind_int(s, 3, c);
    int step = sqlite3_step(s);
    if (step == SQLITE_ROW) result = sqlite3_column_int(s, 0);
    else must(step == SQLITE_DONE);
    sqlite3_reset(s);
    return result;
}

static void tables(void) {
    run("create table lines (senior integer, junior integer, primary key (senior, junior)) without rowid;"
        "create table assigned (user integer, role integer, primary key (user, role)) without rowid;"
        "create table grants (op integer, obj integer, role integer, primary key (op, obj, role)) without rowid;"
        "create table sessions (session integer primary key, user integer);"
        "create table active (session integer, role integer, primary key (session, role)) without rowid;");
}

static void fill(void) {
    sqlite3_stmt *line = prepared("insert into lines values (?, ?)"), *assigned = prepared("insert into assigned values (?, ?)"),
                 *grant = prepared("insert into grants values (?, ?, ?)"), *session = prepared("insert into sessions values (?, ?)"),
                 *active = prepared("insert into active values (?, ?)");
    run("begin");
    for (int b = 0; b < 16; b++) {
        ask(line, b * 4 + 3, b * 4, 0);
        ask(line, b * 4 + 3, b * 4 + 1, 0);
    }
    for (int n = 0; n < 768; n++) ask(grant, n / 16 % 3, n / 48 * 16 + n % 16, n / 48 * 4 + n / 16 % 3);
    for (int u = 0; u < 64; u++) {
        ask(assigned, u, u % 16 * 4 + 3, 0);
        ask(assigned, u, (u % 16 + 1) % 16 * 4 + 2, 0);
    }
    for (int s = 0; s < 16; s++) {
        ask(session, s, s, 0);
        ask(active, s, s * 4 + 3, 0);
    }
    run("commit");
    sqlite3_finalize(line), sqlite3_finalize(assigned), sqlite3_finalize(grant), sqlite3_finalize(session), sqlite3_finalize(active);
}

int main(void) {
    char work[16];
    long rounds, yes = 0;
    if (scanf("%15s %ld", work, &rounds) != 2) return 1;
    must(sqlite3_open(":memory:", &db) == SQLITE_OK);
    tables();
    fill();
    sqlite3_stmt *check = prepared("with recursive effective(role) as (select role from active where session = ?1 union select junior from lines join effective on senior = role)"
                                   " select exists (select 1 from grants join effective using (role) where op = ?2 and obj = ?3)");
    sqlite3_stmt *assign = prepared("insert into assigned values (?, ?)"), *deassign = prepared("delete from assigned where user = ? and role = ?");
    sqlite3_stmt *shed = prepared("delete from active where session in (select session from sessions where user = ?1) and role not in"
                                  " (with recursive held(role) as (select role from assigned where user = ?1 union select junior from lines join held on senior = role) select role from held)");
    for (long i = 0; i < rounds; i++) {
        int u = (int)(i % 8) * 2, spare = (u + 2) % 16 * 4 + 1;
        if (!strcmp(work, "check")) yes += ask(check, u, (int)(i / 8 % 4), (int)(i % 8 * 32 + i / 32 % 32));
        else if (!strcmp(work, "assign")) {
            ask(assign, u, spare, 0);
            ask(deassign, u, spare, 0);
            ask(shed, u, 0, 0);
            yes++;
        } else {
            run("delete from lines; delete from assigned; delete from grants; delete from sessions; delete from active");
            fill();
            yes++;
        }
    }
    printf("%ld\n", yes);
    return 0;
}
