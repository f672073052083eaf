/* What operators, requests and the rows of files need of a register, as plain C over libsqlite3. There is one statement for each row
   and each change, one transaction for each window, and one query for each list.

       plain_register open DATABASE                         opens it, and reads each row once
       plain_register check DATABASE                        opens it, and checks it by integrity_check and foreign_key_check
       plain_register keep DATABASE COUNT LENGTH WINDOW     file 1 is received: COUNT rows of LENGTH octets, WINDOW in a transaction
       plain_register lend DATABASE WINDOW STEP             the outgoing file 1 is sent: its rows are read by STEP, and marked by WINDOW
       plain_register fetch DATABASE NO STEP FILE           the incoming file NO is written to FILE, its rows read by STEP
       plain_register submit DATABASE FILE NAME             FILE is registered as an outgoing file of this name, in blocks
       plain_register release DATABASE NO                   an End-to-End Response is issued
       plain_register show DATABASE in|out NO               prints a file with rows and octets, an incoming one also with its response
       plain_register list DATABASE in|out|issued|received  prints all entries, files also with their rows and octets

   It prints two numbers at the end. They are the processor time in nanoseconds up to the end of the opening, which reads the schema,
   and in all. The journal mode is that of the database, a write-ahead log, with synchronous=FULL, and the log isn't checkpointed at the
   end. */
#include <sqlite3.h>
#include <stdio.h>
#include <stdlib.h>
#include <string.h>
#include <time.h>

enum { BLOCK = 1024 };

static sqlite3 *db;

static void fail(const char *what) {
    fprintf(stderr, "%s: %s\n", what, db ? sqlite3_errmsg(db) : "");
    exit(1);
}

static void run(const char *text) {
    if (sqlite3_exec(db, text, NULL, NULL, NULL) != SQLITE_OK) fail(text);
}

static sqlite3_stmt *prepared(const char *text) {
    sqlite3_stmt *statement;
    if (sqlite3_prepare_v2(db, text, -1, &statement, NULL) != SQLITE_OK) fail(text);
    return statement;
}

static void step(sqlite3_stmt *statement) {
    if (sqlite3_step(statement) != SQLITE_DONE) fail("step");
    sqlite3_reset(statement);
}

static long long spent(void) {
    struct timespec time;
    clock_gettime(CLOCK_PROCESS_CPUTIME_ID, &time);
    return time.tv_sec * 1000000000LL + time.tv_nsec;
}

/* Prints the rows of a statement, with commas between. */
static void print_rows(sqlite3_stmt *select) {
    FILE *out = fopen("/dev/null", "wb");
    while (sqlite3_step(select) == SQLITE_ROW) {
        for (int at = 0; at < sqlite3_column_count(select); at++) {
            const unsigned char *text = sqlite3_column_text(select, at);
            fputs(text ? (const char *)text : "", out);
            fputc(',', out);
        }
        fputc('\n', out);
    }
    fclose(out);
    sqlite3_reset(select);
}

/* Reads each column of each row of a table. */
static void read_all(const char *table) {
    char text[64];
    snprintf(text, sizeof text, "SELECT * FROM %s", table);
    sqlite3_stmt *select = prepared(text);
    size_t sum = 0;
    while (sqlite3_step(select) == SQLITE_ROW) {
        for (int at = 0; at < sqlite3_column_count(select); at++) {
            const unsigned char *octets = sqlite3_column_blob(select, at);
            if (octets) sum += octets[sqlite3_column_bytes(select, at) - 1];
        }
    }
    sqlite3_finalize(select);
    if (sum == 1) putchar('\n');
}

static void read_each(void) {
    static const char *tables[] = {"about", "in_file", "in_row", "out_file", "out_row", "issued", "received", "received_note"};
    for (size_t at = 0; at < sizeof tables / sizeof *tables; at++) read_all(tables[at]);
}

static void keep(int count, int size, int window) {
    char *body = malloc(size + 1);
    memset(body, 'A', size);
    run("INSERT INTO in_file VALUES (1, 'ASN.0001', '20240131', '1015300001', 'O0177CARMAKER', 'O0013SUPPLIER', 'U', 0, '', 'open')");
    sqlite3_stmt *insert = prepared("INSERT INTO in_row VALUES (1, ?1, ?2)");
    for (int at = 0; at < count; at++) {
        if (at % window == 0) run("BEGIN IMMEDIATE");
        sqlite3_bind_int(insert, 1, at);
        sqlite3_bind_blob(insert, 2, body, size, SQLITE_STATIC);
        step(insert);
        if (at + 1 == count) run("UPDATE in_file SET state = 'whole' WHERE no = 1");
        if (at + 1 == count || (at + 1) % window == 0) run("COMMIT");
    }
}

/* Reads the next rows of a file, one after another; it returns how many there were. */
static int read_rows(sqlite3_stmt *select, int number, int from, int step_size, unsigned char **octets, size_t *length, size_t *room) {
    int rows = 0;
    *length = 0;
    sqlite3_bind_int(select, 1, number);
    sqlite3_bind_int(select, 2, from);
    sqlite3_bind_int(select, 3, step_size);
    for (; sqlite3_step(select) == SQLITE_ROW; rows++) {
        size_t size = sqlite3_column_bytes(select, 0);
        if (*length + size > *room) *octets = realloc(*octets, *room = 2 * (*length + size));
        memcpy(*octets + *length, sqlite3_column_blob(select, 0), size);
        *length += size;
    }
    sqlite3_reset(select);
    return rows;
}

static void mark_at(sqlite3_stmt *mark, int at) {
    sqlite3_bind_int(mark, 1, at);
    run("BEGIN IMMEDIATE");
    step(mark);
    run("COMMIT");
}

static void lend(int window, int step_size) {
    sqlite3_stmt *select = prepared("SELECT body FROM out_row WHERE no = ?1 AND pos >= ?2 ORDER BY pos LIMIT ?3");
    sqlite3_stmt *mark = prepared("UPDATE out_file SET mark = ?1 WHERE no = 1");
    unsigned char *octets = NULL;
    size_t length = 0, room = 0;
    for (int from = 0, rows; (rows = read_rows(select, 1, from, step_size, &octets, &length, &room)) > 0; from += rows) {
        for (int at = from; at < from + rows; at++) {
            if (at > 0 && at % window == 0) mark_at(mark, at);
        }
    }
    run("BEGIN IMMEDIATE; UPDATE out_file SET state = 'closing' WHERE no = 1; COMMIT");
    run("BEGIN IMMEDIATE; UPDATE out_file SET state = 'handed' WHERE no = 1; COMMIT");
}

static void fetch(int number, int step_size, const char *path) {
    sqlite3_stmt *select = prepared("SELECT body FROM in_row WHERE no = ?1 AND pos >= ?2 ORDER BY pos LIMIT ?3");
    unsigned char *octets = NULL;
    size_t length = 0, room = 0;
    FILE *file = fopen(path, "wb");
    if (!file) fail(path);
    for (int from = 0, rows; (rows = read_rows(select, number, from, step_size, &octets, &length, &room)) > 0; from += rows) {
        fwrite(octets, 1, length, file);
    }
    fclose(file);
}

static void submit(const char *path, const char *name) {
    FILE *file = fopen(path, "rb");
    unsigned char block[BLOCK];
    if (!file) fail(path);
    run("BEGIN IMMEDIATE");
    sqlite3_stmt *insert = prepared("INSERT INTO out_file SELECT coalesce(max(no), 0) + 1, ?1, '20240201', '0800000001', "
                                    "'O0013SUPPLIER', 'O0177CARMAKER', 'U', 0, '', 0, 'waiting', '' FROM out_file");
    sqlite3_bind_text(insert, 1, name, -1, SQLITE_STATIC);
    step(insert);
    sqlite3_int64 number = sqlite3_last_insert_rowid(db);
    sqlite3_stmt *add = prepared("INSERT INTO out_row VALUES (?1, ?2, ?3)");
    size_t size;
    for (int at = 0; (size = fread(block, 1, BLOCK, file)) > 0; at++) {
        sqlite3_bind_int64(add, 1, number);
        sqlite3_bind_int(add, 2, at);
        sqlite3_bind_blob(add, 3, block, size, SQLITE_STATIC);
        step(add);
    }
    run("COMMIT");
    fclose(file);
}

static void release(int number) {
    sqlite3_stmt *insert = prepared("INSERT INTO issued SELECT no, 'EERP', '', '', 0 FROM in_file WHERE no = ?1 AND state = 'whole'");
    sqlite3_bind_int(insert, 1, number);
    run("BEGIN IMMEDIATE");
    step(insert);
    run("COMMIT");
}

static void show(const char *side, int number) {
    sqlite3_stmt *select =
        prepared(strcmp(side, "in") == 0
                     ? "SELECT f.*, (SELECT count(*) FROM in_row WHERE no = f.no), (SELECT sum(length(body)) FROM in_row WHERE no = f.no), i.kind "
                       "FROM in_file f LEFT JOIN issued i ON i.no = f.no WHERE f.no = ?1"
                     : "SELECT f.*, (SELECT count(*) FROM out_row WHERE no = f.no), (SELECT sum(length(body)) FROM out_row WHERE no = f.no) "
                       "FROM out_file f WHERE f.no = ?1");
    sqlite3_bind_int(select, 1, number);
    print_rows(select);
}

/* The query for all entries of a list. */
static const char *text_of_list(const char *list) {
    if (strcmp(list, "in") == 0)
        return "SELECT f.*, (SELECT count(*) FROM in_row WHERE no = f.no), (SELECT sum(length(body)) FROM in_row WHERE no = f.no), i.kind "
               "FROM in_file f LEFT JOIN issued i ON i.no = f.no ORDER BY f.no";
    if (strcmp(list, "out") == 0)
        return "SELECT f.*, (SELECT count(*) FROM out_row WHERE no = f.no), (SELECT sum(length(body)) FROM out_row WHERE no = f.no) "
               "FROM out_file f ORDER BY f.no";
    if (strcmp(list, "issued") == 0) return "SELECT * FROM issued ORDER BY no";
    return "SELECT r.*, n.creator, n.note, f.no FROM received r LEFT JOIN received_note n ON n.no = r.no LEFT JOIN out_file f ON "
           "f.dataset = r.dataset AND f.date = r.date AND f.time = r.time AND f.originator = r.originator AND f.destination = r.destination "
           "ORDER BY r.no";
}

static void perform(const char *act, char **words, int count) {
    if (strcmp(act, "open") == 0 && count == 0) read_each();
    else if (strcmp(act, "check") == 0 && count == 0) print_rows(prepared("PRAGMA integrity_check")), print_rows(prepared("PRAGMA foreign_key_check"));
    else if (strcmp(act, "keep") == 0 && count == 3) keep(atoi(words[0]), atoi(words[1]), atoi(words[2]));
    else if (strcmp(act, "lend") == 0 && count == 2) lend(atoi(words[0]), atoi(words[1]));
    else if (strcmp(act, "fetch") == 0 && count == 3) fetch(atoi(words[0]), atoi(words[1]), words[2]);
    else if (strcmp(act, "submit") == 0 && count == 2) submit(words[0], words[1]);
    else if (strcmp(act, "release") == 0 && count == 1) release(atoi(words[0]));
    else if (strcmp(act, "show") == 0 && count == 2) show(words[0], atoi(words[1]));
    else if (strcmp(act, "list") == 0 && count == 1) print_rows(prepared(text_of_list(words[0])));
    else fail("words");
}

int main(int count, char **words) {
    if (count < 3) fail("words");
    if (sqlite3_open(words[2], &db) != SQLITE_OK) fail(words[2]);
    run("PRAGMA journal_mode = WAL; PRAGMA synchronous = FULL; PRAGMA foreign_keys = ON; SELECT count(*) FROM about");
    sqlite3_db_config(db, SQLITE_DBCONFIG_NO_CKPT_ON_CLOSE, 1, NULL);
    long long opened = spent();
    perform(words[1], words + 3, count - 3);
    printf("%lld %lld\n", opened, spent());
    sqlite3_close_v2(db);
    return 0;
}
