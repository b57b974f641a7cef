// Does a work over SQLite in memory by prepared statements, and prints the rows as the shell of SQLite does.
//
// It reads lines. `+SQL` prepares the next statement. Any other line runs one: its number, from 0 on, and behind a tab
// each of the values that are bound to its parameters in turn, a whole number as it is, and a text behind a `'`. What
// goes wrong is told on standard error, and the status is 1.
#define _GNU_SOURCE
#include <sqlite3.h>
#include <stdio.h>
#include <stdlib.h>
#include <string.h>

enum { MOST = 16, LINE_ROOM = 4096, NUMBER_ROOM = 20 };

static sqlite3 *database;
static sqlite3_stmt *statements[MOST];
static int count;

static void fail(const char *what, const char *why) {
    fprintf(stderr, "%s: %s\n", what, why);
    exit(1);
}

static void refuse(const char *what) { fail(what, sqlite3_errmsg(database)); }

static void prepare(const char *sql) {
    if (count == MOST) fail(sql, "too many statements");
    int told = sqlite3_prepare_v3(database, sql, -1, SQLITE_PREPARE_PERSISTENT, &statements[count++], NULL);
    if (told != SQLITE_OK) refuse(sql);
}

// The number that stands here, and goes behind it. Reading is no part of SQLite's work, so it is quicker than strtoll.
static sqlite3_int64 number_at(char **at) {
    char *first = *at + (**at == '-'), *end = first;
    sqlite3_uint64 number = 0;
    for (; *end >= '0' && *end <= '9'; end++) number = number * 10 + (sqlite3_uint64)(*end - '0');
    if (end == first) fail(*at, "no number");
    number = **at == '-' ? -number : number;
    *at = end;
    return (sqlite3_int64)number;
}

// Binds the values that stand here, each behind a tab. A text isn't copied: the line outlives the run of the statement.
static void bind_values(sqlite3_stmt *statement, char *at) {
    int place = 0, told = SQLITE_OK;
    while (*at == '\t' && told == SQLITE_OK) {
        char *value = ++at;
        place++;
        if (*value == '\'') {
            at = strchrnul(value, '\t');
            told = sqlite3_bind_text(statement, place, value + 1, (int)(at - value - 1), SQLITE_STATIC);
        } else {
            told = sqlite3_bind_int64(statement, place, number_at(&at));
        }
    }
    if (told != SQLITE_OK) refuse(sqlite3_sql(statement));
    if (*at || place != sqlite3_bind_parameter_count(statement)) fail(sqlite3_sql(statement), "other values are given");
}

// Prints a number. If a statement were asked for it as a text, it would have to make one in memory of its own.
static void print_number(sqlite3_int64 number) {
    char digits[NUMBER_ROOM], *first = digits + NUMBER_ROOM;
    sqlite3_uint64 rest = number < 0 ? -(sqlite3_uint64)number : (sqlite3_uint64)number;
    do {
        *--first = (char)('0' + rest % 10);
    } while (rest /= 10);
    if (number < 0) *--first = '-';
    fwrite_unlocked(first, 1, (size_t)(digits + NUMBER_ROOM - first), stdout);
}

// Prints a row as the shell does: a bar between two cells, and nothing for NULL.
static void print_row(sqlite3_stmt *statement) {
    int columns = sqlite3_data_count(statement);
    for (int it = 0; it < columns; it++) {
        if (it) putchar_unlocked('|');
        if (sqlite3_column_type(statement, it) == SQLITE_INTEGER) {
            print_number(sqlite3_column_int64(statement, it));
        } else {
            const char *text = (const char *)sqlite3_column_text(statement, it);
            if (text) fwrite_unlocked(text, 1, (size_t)sqlite3_column_bytes(statement, it), stdout);
        }
    }
    putchar_unlocked('\n');
}

static void run(char *at) {
    sqlite3_int64 number = number_at(&at);
    if (number < 0 || number >= count) fail("a line", "no statement has its number");
    sqlite3_stmt *statement = statements[number];
    bind_values(statement, at);
    int told;
    while ((told = sqlite3_step(statement)) == SQLITE_ROW) print_row(statement);
    if (told != SQLITE_DONE) refuse(sqlite3_sql(statement));
    sqlite3_reset(statement);
}

int main(void) {
    static char line[LINE_ROOM];
    // there is one thread, so nothing is locked, and nobody asks how much memory SQLite has taken
    sqlite3_config(SQLITE_CONFIG_SINGLETHREAD);
    sqlite3_config(SQLITE_CONFIG_MEMSTATUS, 0);
    if (sqlite3_open(":memory:", &database) != SQLITE_OK) refuse("the database");
    while (fgets_unlocked(line, LINE_ROOM, stdin)) {
        char *end = strchr(line, '\n');
        if (!end) fail(line, "it is too long, or has no end");
        *end = 0;
        if (*line == '+')
            prepare(line + 1);
        else
            run(line);
    }
    if (ferror(stdin)) fail("standard input", "it can't be read");
    while (count) sqlite3_finalize(statements[--count]);
    if (sqlite3_close(database) != SQLITE_OK) refuse("the database");
    if (fflush(stdout) || ferror(stdout)) fail("standard output", "it can't be written");
    return 0;
}
