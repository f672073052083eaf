#!/usr/bin/env python3
"""Lets stock sqlite3 read the databases that the built program writes, and gives the program databases that stock sqlite3 wrote.

    checks/scenarios/stock_sqlite.py

The tables below are those of a station's database. The SQL that makes them is generated from these lines, and not taken from the station's code.
What a viewer adds is removed by the commands of docs/howto/troubleshooting.md. The last line is `N passed, M failed`.

Shows: stock sqlite3 finds the tables, with the columns and keys that the script has of its own, and no error in them. Another program's database,
of each kind, is refused and left as it was. So is one of schema 1 by each command that only opens it, until it is migrated. A view, an index and
what `ANALYZE` makes are removed by the commands of docs/howto/troubleshooting.md, and the database opens again
"""

import re
import shutil
import sqlite3
import subprocess
import sys
import tempfile
from pathlib import Path

sys.path.insert(0, str(Path(__file__).resolve().parents[1] / "lib"))

import oftp
from program import PROGRAM, ROOT

BOOK = ROOT / "examples/supplier/book.toml"
ONE_FILE = ROOT / "examples/one_file.octets"
GUIDE = ROOT / "docs/howto/troubleshooting.md"
OURS = ["--book", BOOK]
SECONDS = 60
BLOCK = 1024

# The columns of a file's identity.
FILE = ["dataset", "date", "time", "originator", "destination"]


class Table:
    """A table: its columns in order, its primary key, its unique key, and the table to which its `no` refers."""

    def __init__(self, columns, primary="no", unique=(), refers=None):
        self.columns = [pair.split() for pair in columns.split(", ")]
        self.primary = primary.split()
        self.unique = list(unique)
        self.refers = refers

    def text(self, name):
        """The SQL that makes it."""
        alone = self.primary[0] if len(self.primary) == 1 else None
        parts = []
        for column, kind in self.columns:
            key = " PRIMARY KEY" if column == alone else ""
            reference = f" REFERENCES {self.refers} (no)" if self.refers and column == "no" else ""
            parts.append(f"{column} {kind} NOT NULL{key}{reference}")
        if alone is None:
            parts.append(f"PRIMARY KEY ({', '.join(self.primary)})")
        if self.unique:
            parts.append(f"UNIQUE ({', '.join(self.unique)})")
        return f"CREATE TABLE {name} ({', '.join(parts)}) STRICT"


HEADER = (
    "no INTEGER, dataset TEXT, date TEXT, time TEXT, originator TEXT, destination TEXT, "
    "format TEXT, longest INTEGER, description TEXT, "
)
ROWS = "no INTEGER, pos INTEGER, body BLOB"
TABLES = {
    "about": Table("id INTEGER, schema INTEGER", primary="id"),
    "in_file": Table(HEADER + "state TEXT", unique=FILE),
    "in_row": Table(ROWS, primary="no pos", refers="in_file"),
    "out_file": Table(HEADER + "mark INTEGER, state TEXT, reason TEXT", unique=FILE),
    "out_row": Table(ROWS, primary="no pos", refers="out_file"),
    "issued": Table("no INTEGER, kind TEXT, reason TEXT, note TEXT, sent INTEGER", refers="in_file"),
    "received": Table(
        "no INTEGER, kind TEXT, dataset TEXT, date TEXT, time TEXT, originator TEXT, destination TEXT, reason TEXT",
        unique=["kind", *FILE],
    ),
    "received_note": Table("no INTEGER, creator TEXT, note TEXT", refers="received"),
}
FIRST = [name for name in TABLES if name != "received_note"]

# Responses received under schema 1: number, kind, dataset and reason.
RESPONSES = [(1, "NERP", "INV.7", "09"), (2, "EERP", "INV.8", ""), (3, "NERP", "INV.9", "23")]

# Changes after which the tables aren't those of a station.
WRONG = {
    "another program's table": "CREATE TABLE t (a)",
    "a view": "CREATE VIEW v AS SELECT no FROM in_file",
    "an index": "CREATE INDEX i ON received (date)",
    "a trigger": "CREATE TRIGGER g AFTER INSERT ON about BEGIN DELETE FROM about; END",
    "a missing table": "DROP TABLE received_note",
    "a column less": "ALTER TABLE received_note DROP COLUMN note",
    "a column more": "ALTER TABLE received_note ADD COLUMN more TEXT",
    "a column of another name": "ALTER TABLE received_note RENAME COLUMN note TO words",
    "a column that may be NULL": f"DROP TABLE received_note; {TABLES['received_note'].text('received_note').replace('note TEXT NOT NULL', 'note TEXT')}",
    "no reference": f"DROP TABLE received_note; {TABLES['received_note'].text('received_note').replace(' REFERENCES received (no)', '')}",
    "a table that isn't STRICT": f"DROP TABLE received_note; {TABLES['received_note'].text('received_note').removesuffix(' STRICT')}",
    "an empty about": "DELETE FROM about",
    "two rows in about": "INSERT INTO about VALUES (2, 2)",
    "another id": "UPDATE about SET id = 2",
    "schema 1 with the tables of schema 2": "UPDATE about SET schema = 1",
    "schema 7": "UPDATE about SET schema = 7",
    "a text in a number's place": "DROP TABLE about; CREATE TABLE about (id INTEGER NOT NULL PRIMARY KEY, schema ANY NOT NULL) STRICT; INSERT INTO about VALUES (1, '2')",
}

# What a viewer adds: its type, its name in docs/howto/troubleshooting.md, and what makes it. They are in the order of the command that removes them.
ADDED = [
    ("view", "name_of_the_view", "CREATE VIEW name_of_the_view AS SELECT no FROM in_file"),
    ("index", "name_of_the_index", "CREATE INDEX name_of_the_index ON received (date)"),
    ("table", "sqlite_stat1", "ANALYZE"),
]


class Unlike(Exception):
    """Something isn't as it should be."""


def expect(got, wanted, what):
    if got != wanted:
        raise Unlike(f"{what}: wanted {wanted!r}, got {got!r}")


def run(*words):
    """The lines and the status of a run of the program."""
    done = subprocess.run([PROGRAM, *words], capture_output=True, timeout=SECONDS, check=False)
    return done.stdout.decode(), done.stderr.decode(), done.returncode


def expect_run(words, out, err="", status=0):
    expect(run(*words), (out, err, status), " ".join(str(word) for word in words))


def log_of(db):
    return db.with_name(db.name + "-wal")


def look(db, question):
    """What stock sqlite3 returns. It gets a copy of the file and its log, since it may write to both."""
    with tempfile.TemporaryDirectory() as room:
        copy = Path(room) / "copy.db"
        shutil.copy(db, copy)
        if log_of(db).exists():
            shutil.copy(log_of(db), log_of(copy))
        conn = sqlite3.connect(copy)
        answer = question(conn)
        conn.close()
    return answer


def ask(db, sql):
    """The rows of a query."""
    return look(db, lambda conn: conn.execute(sql).fetchall())


def dump(db):
    """All content of a database, as the statements that make it."""
    return look(db, lambda conn: list(conn.iterdump()))


def write(db, *texts):
    """Lets stock sqlite3 write a database."""
    with sqlite3.connect(db) as conn:
        for text in texts:
            conn.executescript(text)
    conn.close()


def make_tables(db, names, schema):
    write(db, *(TABLES[name].text(name) for name in names), f"INSERT INTO about VALUES (1, {schema})")


def expect_sound(db):
    expect(ask(db, "PRAGMA integrity_check"), [("ok",)], "integrity_check")
    expect(ask(db, "PRAGMA foreign_key_check"), [], "foreign_key_check")


def expect_tables(db):
    """The tables are those of schema 2, and there are no others."""
    own = "type = 'index' AND name LIKE 'sqlite_autoindex_%'"
    expect(ask(db, f"SELECT name FROM sqlite_schema WHERE NOT ({own})"), [(name,) for name in TABLES], "objects")
    strict = "SELECT name, type, strict FROM pragma_table_list WHERE schema = 'main' AND name NOT LIKE 'sqlite_%'"
    expect(sorted(ask(db, strict)), sorted((name, "table", 1) for name in TABLES), "table_list")
    for name, table in TABLES.items():
        expect_table(db, name, table)
    expect(ask(db, "SELECT id, schema FROM about"), [(1, 2)], "about")


def expect_table(db, name, table):
    keys = {column: place for place, column in enumerate(table.primary, 1)}
    columns = ask(db, f"SELECT name, type, \"notnull\", dflt_value, pk FROM pragma_table_info('{name}') ORDER BY cid")
    expect(columns, [(column, kind, 1, None, keys.get(column, 0)) for column, kind in table.columns], f"columns of {name}")
    unique = [
        (origin, [column for (column,) in ask(db, f"SELECT name FROM pragma_index_info('{index}') ORDER BY seqno")])
        for index, origin in ask(db, f"SELECT name, origin FROM pragma_index_list('{name}') WHERE \"unique\" = 1 AND partial = 0")
    ]
    wanted = [("u", table.unique)] if table.unique else []
    wanted += [("pk", table.primary)] if len(table.primary) > 1 else []
    expect(sorted(unique), sorted(wanted), f"keys of {name}")
    references = ask(db, f"SELECT \"table\", \"from\", \"to\" FROM pragma_foreign_key_list('{name}')")
    expect(references, [(table.refers, "no", "no")] if table.refers else [], f"references of {name}")


def sent_file(octets):
    """The fields of the SFID in a stream of commands, and the octets of its file, which has no compressed subrecord."""
    commands = [oftp.read(frame[4:]) for frame in oftp.frames_of(octets)]
    header = next(fields for kind, fields in commands if kind == "SFID")
    content = b""
    for kind, fields in commands:
        if kind == "DATA":
            content += without_headers(fields["payload"])
    return header, content


def without_headers(payload):
    content = b""
    while payload:
        size = payload[0] & 0x3F
        content += payload[1 : 1 + size]
        payload = payload[1 + size :]
    return content


def an_empty_database(room):
    db = room / "station.db"
    for _ in range(2):
        expect_run(["init", "--db", db], "done: init\n")
        expect_sound(db)
        expect_tables(db)
    for name in TABLES:
        if name != "about":
            expect(ask(db, f"SELECT count(*) FROM {name}"), [(0,)], name)


def a_received_file(room):
    db, out = room / "station.db", room / "out"
    expect_run(["feed", "--db", db, "--book", BOOK, ONE_FILE, out], "end: partner 00\n")
    expect_file(db)


def expect_file(db):
    """The file of the example is there, in a database with the station's tables."""
    expect_sound(db)
    expect_tables(db)
    header, content = sent_file(ONE_FILE.read_bytes())
    named = tuple(header[name] for name in FILE)
    files = ask(db, f"SELECT no, {', '.join(FILE)}, format, longest, description, state FROM in_file")
    expect(files, [(1, *named, header["format"], int(header["longest"]), header["description"], "whole")], "in_file")
    rows = [(1, at // BLOCK, content[at : at + BLOCK]) for at in range(0, len(content), BLOCK)]
    expect(ask(db, "SELECT no, pos, body FROM in_row ORDER BY no, pos"), rows, "in_row")


def a_database_that_stock_sqlite3_wrote_again(room):
    db, out = room / "station.db", room / "out"
    expect_run(["feed", "--db", db, "--book", BOOK, ONE_FILE, out], "end: partner 00\n")
    # It checkpoints the log into the file, and removes the log.
    write(db, "PRAGMA wal_checkpoint(TRUNCATE)", "PRAGMA journal_mode = DELETE")
    expect_run(["init", "--db", db], "done: init\n")
    expect_file(db)
    expect_run(["release", "--db", db, "--book", BOOK, "1"], "done: release 1\n")
    expect_file(db)
    expect(ask(db, "SELECT no, kind, reason, note, sent FROM issued"), [(1, "EERP", "", "", 0)], "issued")


def a_database_that_stock_sqlite3_made(room):
    db = room / "station.db"
    make_tables(db, TABLES, 2)
    expect_run(["init", "--db", db], "done: init\n")
    expect_sound(db)
    expect_tables(db)


def a_database_of_schema_1(room):
    db = room / "station.db"
    make_tables(db, FIRST, 1)
    for no, kind, dataset, reason in RESPONSES:
        values = f"{no}, '{kind}', '{dataset}', '20240201', '0800000001', 'O0013SUPPLIER', 'O0177CARMAKER', '{reason}'"
        write(db, f"INSERT INTO received VALUES ({values})")
    for words in (["init"], ["report", "in"], ["release", *OURS, "1"], ["run", *OURS], ["listen", *OURS], ["http"], ["backup", room / "copy"]):
        expect_refused(db, [words[0], "--db", db, *words[1:]])
    received = ask(db, "SELECT * FROM received ORDER BY no")
    for _ in range(2):
        expect_run(["migrate", "--db", db], "done: migrate\n")
        expect_sound(db)
        expect_tables(db)
        expect(ask(db, "SELECT * FROM received ORDER BY no"), received, "received")
        notes = [(no, "", "") for no, kind, _, _ in RESPONSES if kind == "NERP"]
        expect(ask(db, "SELECT no, creator, note FROM received_note ORDER BY no"), notes, "received_note")


def expect_refused(db, words):
    """The program refuses the database, and leaves it unchanged."""
    octets, held = db.read_bytes(), dump(db)
    expect_run(words, "", "fault: 6 store 3\n", 1)
    if db.read_bytes() != octets:
        raise Unlike(f"{words[0]} wrote into the database that it refused")
    # There may be a log beside it, but without a change.
    expect(dump(db), held, f"what is there after {words[0]}")


def a_wrong_schema(edit):
    """The row for one way in which it is wrong."""

    def row(room):
        db = room / "station.db"
        make_tables(db, TABLES, 2)
        write(db, edit)
        for command in ("init", "migrate"):
            expect_refused(db, [command, "--db", db])
        expect_refused(db, ["report", "--db", db, "in"])

    return row


def tables_made_in_another_order(room):
    for names, schema in ((TABLES, 2), (FIRST, 1)):
        db = room / f"schema_{schema}.db"
        make_tables(db, [*(name for name in names if name != "in_file"), "in_file"], schema)
        for command in ("init", "migrate"):
            expect_refused(db, [command, "--db", db])


def what_a_viewer_added(room):
    """What a viewer adds is refused. The commands of docs/howto/troubleshooting.md show it and remove it, and the database opens again as it was."""
    text = GUIDE.read_text(encoding="utf-8").partition("\n## Leave the tables alone\n")[2].partition("\n## ")[0]
    shows, removes = re.findall(r'^    sudo -u oftp sqlite3 station\.db "(.*)"$', text, re.M)
    db, own = room / "station.db", {("table", name) for name in TABLES}
    expect_run(["feed", "--db", db, "--book", BOOK, ONE_FILE, room / "out"], "end: partner 00\n")
    expect(len(removes.split("; ")), len(ADDED), "how many kinds docs/howto/troubleshooting.md removes")
    for (kind, name, makes), statement in zip(ADDED, removes.split("; ")):
        expect(set(ask(db, shows)), own, "what is there")
        write(db, makes)
        expect_refused(db, ["report", "--db", db, "in"])
        added = set(ask(db, shows)) - own
        # Some builds of sqlite3 make the table sqlite_stat4 too.
        expect(((kind, name) in added, {it for it, _ in added}), (True, {kind}), f"what is there after {makes}")
        write(db, *(statement.replace(name, it) for _, it in added))
        expect_run(["init", "--db", db], "done: init\n")
        expect_file(db)


def no_tables_to_bring_to_schema_2(room):
    db = room / "station.db"
    write(db, "VACUUM")
    expect(run("migrate", "--db", db), ("", "fault: 6 store 3\n", 1), "migrate")


def no_database(room):
    db = room / "station.db"
    db.write_bytes(b"no database, but some other file\n" * 99)
    before = db.read_bytes()
    expect_run(["init", "--db", db], "", "fault: 6 store 1\n", 1)
    expect(db.read_bytes(), before, "the file")


ROWS_OF_ALL = {
    row.__name__.replace("_", " "): row
    for row in (
        an_empty_database,
        a_received_file,
        a_database_that_stock_sqlite3_wrote_again,
        a_database_that_stock_sqlite3_made,
        a_database_of_schema_1,
        tables_made_in_another_order,
        what_a_viewer_added,
        no_tables_to_bring_to_schema_2,
        no_database,
    )
} | {f"wrong schema: {name}": a_wrong_schema(edit) for name, edit in WRONG.items()}


def main():
    failed = 0
    for name, row in ROWS_OF_ALL.items():
        with tempfile.TemporaryDirectory() as room:
            try:
                row(Path(room))
            except (Unlike, OSError, sqlite3.Error, subprocess.TimeoutExpired) as why:
                failed += 1
                print(f"{name}: {why}")
    print(f"{len(ROWS_OF_ALL) - failed} passed, {failed} failed")
    return 1 if failed else 0


if __name__ == "__main__":
    sys.exit(main())
