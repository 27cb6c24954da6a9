/* What SQLite itself takes for the rows of a request and of a list of 1,000, in C with prepared
 * statements over tables in memory: without lines, rights, rules and texts. It prints the
 * milliseconds of a processor of each. cc -O2 bench/rt.c -lsqlite3 */
#include <sqlite3.h>
#include <stdio.h>
#include <stdlib.h>
#include <sys/resource.h>

enum { REQUESTS = 1000, SHOWN = 20000, LISTED = 100 };

static const char *TABLES =
    "CREATE TABLE queue (name TEXT NOT NULL PRIMARY KEY, lifecycle TEXT NOT NULL, level TEXT) STRICT;"
    "CREATE TABLE request (id INTEGER PRIMARY KEY, queue TEXT NOT NULL, subject TEXT NOT NULL,"
    " status TEXT NOT NULL, owner TEXT, level TEXT, created INTEGER NOT NULL, opened INTEGER NOT NULL,"
    " turn INTEGER NOT NULL, since INTEGER NOT NULL, due INTEGER) STRICT;"
    "CREATE TABLE watcher (request INTEGER NOT NULL, role INTEGER NOT NULL, person TEXT NOT NULL,"
    " PRIMARY KEY (request, role, person)) STRICT;"
    "CREATE TABLE link (source INTEGER NOT NULL, kind INTEGER NOT NULL, target INTEGER NOT NULL,"
    " PRIMARY KEY (source, kind, target)) STRICT;"
    "INSERT INTO queue VALUES ('general', 'default', NULL);"
    "WITH RECURSIVE n(i) AS (SELECT 1 UNION ALL SELECT i + 1 FROM n WHERE i < 1000)"
    " INSERT INTO request SELECT i, 'general', 'printer broken', 'stalled', NULL, NULL, 29546970,"
    " 29546970, 0, 29546970, NULL FROM n;"
    "INSERT INTO watcher SELECT id, 1, 'ann' FROM request;";

static sqlite3 *file;

static sqlite3_stmt *prepared(const char *text) {
    sqlite3_stmt *statement;
    if (sqlite3_prepare_v2(file, text, -1, &statement, 0) != SQLITE_OK) exit(1);
    return statement;
}

/* Reads each column of each row, and tells how many rows there were. */
static int rows(sqlite3_stmt *statement, int number) {
    int count = 0;
    if (number) sqlite3_bind_int(statement, 1, number);
    while (sqlite3_step(statement) == SQLITE_ROW) {
        for (int column = 0; column < sqlite3_column_count(statement); column++)
            sqlite3_column_text(statement, column);
        count++;
    }
    sqlite3_reset(statement);
    return count;
}

static double milliseconds(void) {
    struct rusage used;
    getrusage(RUSAGE_SELF, &used);
    return (used.ru_utime.tv_sec + used.ru_stime.tv_sec) * 1e3 +
           (used.ru_utime.tv_usec + used.ru_stime.tv_usec) / 1e3;
}

int main(void) {
    if (sqlite3_open(":memory:", &file) || sqlite3_exec(file, TABLES, 0, 0, 0)) return 1;
    sqlite3_stmt *request = prepared("SELECT * FROM request WHERE id = ?");
    sqlite3_stmt *queue = prepared("SELECT * FROM queue WHERE name = 'general'");
    sqlite3_stmt *watchers = prepared("SELECT * FROM watcher WHERE request = ?");
    sqlite3_stmt *links = prepared("SELECT * FROM link WHERE source = ?");
    sqlite3_stmt *list = prepared("SELECT id, status, owner, due, subject FROM request"
                                  " WHERE queue = 'general' ORDER BY id");
    double began = milliseconds();
    for (int time = 0; time < SHOWN; time++) {
        int number = time * 7 % REQUESTS + 1;
        if (rows(request, number) + rows(queue, 0) + rows(watchers, number) != 3) return 1;
        rows(links, number);
    }
    double shown = milliseconds();
    for (int time = 0; time < LISTED; time++)
        if (rows(list, 0) != REQUESTS) return 1;
    printf("%.6f %.6f\n", (shown - began) / SHOWN, (milliseconds() - shown) / LISTED);
    return 0;
}
