/* What the station does to its database when a file is received or sent, as plain C over libsqlite3. There is one statement for each row
   and each change, and one transaction for each window. It takes the octets of the partner's side as they are, and checks nothing.

       plain_store receive DATABASE IN OUT CREDIT      the file in the session of IN is received
       plain_store send DATABASE IN OUT CREDIT BUFFER  the first outgoing file that waits is sent; the frames of IN are only counted

   It prints two numbers: the processor time in nanoseconds up to the end of the opening, which reads the schema, and in all. The journal
   mode is that of the database, a write-ahead log, with synchronous=FULL, and the log isn't checkpointed at the end. */
#include <sqlite3.h>
#include <stdio.h>
#include <stdlib.h>
#include <string.h>
#include <time.h>

enum { BLOCK = 1024, ROOM = 1 << 17, LENT = 64 };

static sqlite3 *db;
static sqlite3_int64 number;
static FILE *in, *out;
static unsigned char frame[ROOM];

static void fail(const char *what) {
    fprintf(stderr, "%s: %s\n", what, db ? sqlite3_errmsg(db) : "");
    exit(1);
}

static void run(const char *text) {
    if (sqlite3_exec(db, text, NULL, NULL, NULL) != SQLITE_OK) fail(text);
}

static sqlite3_stmt *prepared(const char *text) {
    sqlite3_stmt *statement;
    if (sqlite3_prepare_v2(db, text, -1, &statement, NULL) != SQLITE_OK) fail(text);
    return statement;
}

static void step(sqlite3_stmt *statement) {
    if (sqlite3_step(statement) != SQLITE_DONE) fail("step");
    sqlite3_reset(statement);
}

/* Finds the number of the file. */
static void find_number(const char *text) {
    sqlite3_stmt *statement = prepared(text);
    if (sqlite3_step(statement) != SQLITE_ROW) fail(text);
    number = sqlite3_column_int64(statement, 0);
    sqlite3_finalize(statement);
}

/* A change of the file, in a transaction of its own. */
static void change(sqlite3_stmt *statement) {
    run("BEGIN IMMEDIATE");
    step(statement);
    run("COMMIT");
}

static long long spent(void) {
    struct timespec time;
    clock_gettime(CLOCK_PROCESS_CPUTIME_ID, &time);
    return time.tv_sec * 1000000000LL + time.tv_nsec;
}

/* The next command of IN; its length, or 0 at the end. */
static size_t next(void) {
    unsigned char head[4];
    if (fread(head, 1, 4, in) != 4) return 0;
    size_t length = ((size_t)head[1] << 16 | head[2] << 8 | head[3]) - 4;
    if (length > ROOM || fread(frame, 1, length, in) != length) fail("frame");
    return length;
}

static void answer(const char *octets, size_t length) {
    unsigned char head[4] = {0x10, (length + 4) >> 16, (length + 4) >> 8, length + 4};
    fwrite(head, 1, 4, out);
    fwrite(octets, 1, length, out);
    fflush(out);
}

/* The rows that were received and aren't stored yet, and the octets after them. */
static unsigned char *came;
static size_t length, room;
static sqlite3_int64 kept;
static int is_unstructured;
static size_t record_ends[1 << 16], records;

static void take(const unsigned char *payload, size_t size) {
    for (size_t at = 0; at < size;) {
        size_t count = payload[at] & 63;
        if (length + count > room) came = realloc(came, room = 2 * (length + count));
        memcpy(came + length, payload + at + 1, count);
        length += count;
        if (!is_unstructured && payload[at] & 128) record_ends[records++] = length;
        at += count + 1;
    }
}

static void keep_row(sqlite3_stmt *insert, const unsigned char *row, size_t size) {
    sqlite3_bind_int64(insert, 1, kept++);
    sqlite3_bind_blob(insert, 2, row, size, SQLITE_STATIC);
    step(insert);
}

/* Stores the complete rows, and at the end of the file the rest. */
static void keep(sqlite3_stmt *insert, int is_end) {
    size_t at = 0;
    if (is_unstructured) {
        for (; length - at >= BLOCK; at += BLOCK) keep_row(insert, came + at, BLOCK);
        if (is_end && length > at) keep_row(insert, came + at, length - at), at = length;
    } else {
        for (size_t which = 0; which < records; which++) {
            keep_row(insert, came + at, record_ends[which] - at);
            at = record_ends[which];
        }
        records = 0;
    }
    memmove(came, came + at, length - at);
    length -= at;
}

static void receive(int credit) {
    find_number("SELECT coalesce(max(no), 0) + 1 FROM in_file");
    sqlite3_stmt *start = prepared("INSERT INTO in_file VALUES "
                                   "(?4, trim(?1), '20240131', '1015300001', 'O0177CARMAKER', 'O0013SUPPLIER', ?2, ?3, '', 'open')");
    sqlite3_stmt *insert = prepared("INSERT INTO in_row VALUES (?3, ?1, ?2)");
    sqlite3_stmt *end = prepared("UPDATE in_file SET state = 'whole' WHERE no = ?1");
    sqlite3_bind_int64(start, 4, number);
    sqlite3_bind_int64(insert, 3, number);
    sqlite3_bind_int64(end, 1, number);
    int left = credit;
    for (size_t size; (size = next()) > 0;) {
        if (frame[0] == 'H') {
            char format[2] = {frame[106], 0}, longest[6] = {0};
            memcpy(longest, frame + 107, 5);
            is_unstructured = format[0] == 'U';
            sqlite3_bind_text(start, 1, (char *)frame + 1, 26, SQLITE_TRANSIENT);
            sqlite3_bind_text(start, 2, format, -1, SQLITE_TRANSIENT);
            sqlite3_bind_int64(start, 3, atoi(longest));
            change(start);
            answer("200000000000000000", 18);
        } else if (frame[0] == 'D') {
            take(frame + 1, size - 1);
            if (--left > 0) continue;
            left = credit;
            if (is_unstructured ? length >= BLOCK : records > 0) {
                run("BEGIN IMMEDIATE");
                keep(insert, 0);
                run("COMMIT");
            }
            answer("C  ", 3);
        } else if (frame[0] == 'T') {
            run("BEGIN IMMEDIATE");
            keep(insert, 1);
            step(end);
            run("COMMIT");
            answer("4N", 2);
        }
    }
}

/* Reads the next rows of the file after those that are there. */
static void lend(sqlite3_stmt *select, sqlite3_int64 from) {
    sqlite3_bind_int64(select, 1, from);
    sqlite3_bind_int64(select, 2, LENT);
    while (sqlite3_step(select) == SQLITE_ROW) {
        size_t size = sqlite3_column_bytes(select, 0);
        if (length + size > room) came = realloc(came, room = 2 * (length + size));
        memcpy(came + length, sqlite3_column_blob(select, 0), size);
        length += size;
    }
    sqlite3_reset(select);
}

static void send_file(int credit, size_t buffer) {
    find_number("SELECT coalesce(min(no), 1) FROM out_file WHERE state = 'waiting'");
    sqlite3_stmt *select = prepared("SELECT body FROM out_row WHERE no = ?3 AND pos >= ?1 ORDER BY pos LIMIT ?2");
    sqlite3_stmt *mark = prepared("UPDATE out_file SET mark = ?1 WHERE no = ?2");
    sqlite3_stmt *set = prepared("UPDATE out_file SET state = ?1 WHERE no = ?2");
    sqlite3_bind_int64(select, 3, number);
    sqlite3_bind_int64(mark, 2, number);
    sqlite3_bind_int64(set, 2, number);
    sqlite3_int64 lent = 0, marked = 0;
    size_t begin = 0, gone = 0;
    int left = credit;
    for (;;) {
        if (length - begin < buffer) {
            memmove(came, came + begin, length - begin);
            length -= begin;
            begin = 0;
            size_t before = length;
            lend(select, lent);
            lent += (length - before + BLOCK - 1) / BLOCK;
        }
        if (length == begin) break;
        size_t size = 1;
        frame[0] = 'D';
        while (size + 1 < buffer && length > begin) {
            size_t count = length - begin < 63 ? length - begin : 63;
            if (count > buffer - size - 1) count = buffer - size - 1;
            memcpy(frame + size + 1, came + begin, count);
            begin += count;
            gone += count;
            frame[size] = count | (length == begin ? 128 : 0);
            size += count + 1;
        }
        answer((char *)frame, size);
        if (--left > 0) continue;
        left = credit;
        if ((sqlite3_int64)(gone / BLOCK) == marked) continue;
        marked = gone / BLOCK;
        sqlite3_bind_int64(mark, 1, marked);
        change(mark);
    }
    sqlite3_bind_text(set, 1, "closing", -1, SQLITE_STATIC);
    change(set);
    sqlite3_bind_text(set, 1, "handed", -1, SQLITE_STATIC);
    change(set);
}

int main(int count, char **words) {
    if (count < 6) fail("words");
    if (sqlite3_open(words[2], &db) != SQLITE_OK) fail(words[2]);
    run("PRAGMA journal_mode = WAL; PRAGMA synchronous = FULL; PRAGMA foreign_keys = ON; SELECT count(*) FROM about");
    long long opened = spent();
    sqlite3_db_config(db, SQLITE_DBCONFIG_NO_CKPT_ON_CLOSE, 1, NULL);
    in = fopen(words[3], "rb");
    out = fopen(words[4], "wb");
    if (!in || !out) fail("files");
    if (strcmp(words[1], "receive") == 0) receive(atoi(words[5]));
    else send_file(atoi(words[5]), atoi(words[6]));
    fclose(out);
    printf("%lld %lld\n", opened, spent());
    sqlite3_close_v2(db);
    return 0;
}
