#!/usr/bin/env python3
"""Audits databases of the built program: of a life's later moments against its earlier ones, and after losses that stock sqlite3 makes.

    checks/scenarios/audit.py

A database lives through sessions, operators' commands and answers, and is copied after each. Each copy is sound, and has lost nothing of those
before it. Then stock sqlite3 makes one loss after another in a copy of the last one. The audit has to print just the lines that are written
beside it, with status 1. Against the record of a station that had the last copy each of them is told, too, and so is another value of any other
column. No database that is audited changes. The last line is `N passed, M failed`.
"""

import hashlib
import shutil
import sqlite3
import subprocess
import sys
import tempfile
from pathlib import Path

sys.path.insert(0, str(Path(__file__).resolve().parents[1] / "lib"))

from program import PROGRAM, ROOT
from services import Resident, Wrong

BOOK = ROOT / "examples/supplier/book.toml"
ONE_FILE = ROOT / "examples/one_file.octets"
SECONDS = 60
IDENTITY = "'INV.7', '20240131', '1015300007', 'O0013SUPPLIER', 'O0177CARMAKER'"

# What the answers of partners, and files of other formats, leave in the tables: each step is one that changes of a register can make.
LATER = [
    "UPDATE out_file SET state = 'closing', mark = 2 WHERE no = 1",
    "UPDATE out_file SET state = 'handed' WHERE no = 1",
    f"UPDATE out_file SET state = 'delivered' WHERE no = 1; INSERT INTO received VALUES (1, 'EERP', {IDENTITY}, '')",
    f"INSERT INTO received VALUES (2, 'NERP', {IDENTITY.replace('INV.7', 'INV.8')}, '34'); INSERT INTO received_note VALUES (2, 'O0177CARMAKER', 'no part')",
    "UPDATE issued SET sent = 1 WHERE no = 1",
    f"INSERT INTO in_file VALUES (2, {IDENTITY.replace('INV.7', 'ASN.2')}, 'V', 80, 'a note', 'open'); INSERT INTO in_row VALUES (2, 0, x'4142')",
    "INSERT INTO in_row VALUES (2, 1, x'43')",
    "DELETE FROM in_row WHERE no = 2 AND pos = 1; UPDATE in_file SET description = 'another' WHERE no = 2",
    "UPDATE in_file SET state = 'whole' WHERE no = 2",
    "INSERT INTO issued VALUES (2, 'NERP', '34', 'broken', 0)",
]

# A text that belongs to no entry. The register is the same with it.
STRAY_TEXT = "INSERT INTO received_note VALUES (1, '', 'x')"

# What stands for the lines if a row refers to one that isn't there: no command opens such a database.
UNOPENED = None

# Losses: what stock sqlite3 does, the lines of an audit of the database alone, and those against the older one that come behind them.
LOSSES = [
    ("UPDATE in_file SET dataset = 'ASN.3' WHERE no = 1", [], ["in 1 has another identity"]),
    ("UPDATE in_file SET time = '1015300009' WHERE no = 2", [], ["in 2 has another identity"]),
    ("UPDATE in_file SET description = 'x' WHERE no = 2", [], ["in 2 has another description"]),
    ("UPDATE in_file SET longest = 81 WHERE no = 2", [], ["in 2 has another longest record"]),
    ("UPDATE in_file SET state = 'open' WHERE no = 2", ["in 2 has a response, and isn't whole"], ["in 2 has lost its state"]),
    ("UPDATE in_file SET format = 'T' WHERE no = 1", [], ["in 1 has another format"]),
    ("UPDATE in_file SET state = 'half' WHERE no = 2", ["in 2 has a value that no entry has"], ["in 2 is missing"]),
    ("UPDATE in_file SET longest = 0 WHERE no = 2", ["in 2 has a longest record that its format doesn't allow", "row 0 of in 2 has a length that the format doesn't allow"],
     ["in 2 has another longest record"]),
    ("UPDATE in_row SET body = x'4143' WHERE no = 2 AND pos = 0", [], ["row 0 of in 2 has other octets"]),
    ("UPDATE in_row SET body = x'41' WHERE no = 1 AND pos = 1", ["row 1 of in 1 has a length that the format doesn't allow"], ["row 1 of in 1 has other octets"]),
    ("DELETE FROM in_row WHERE no = 1 AND pos = 2", [], ["in 1 has another number of rows", "row 2 of in 1 is missing"]),
    ("DELETE FROM in_row WHERE no = 1 AND pos = 1", ["row 1 of in 1 is missing"], ["row 1 of in 1 is missing"]),
    ("DELETE FROM in_file WHERE no = 2", UNOPENED, []),
    ("UPDATE in_file SET no = 4 WHERE no = 2", UNOPENED, []),
    ("UPDATE out_file SET destination = 'O0177OTHER' WHERE no = 1", [], ["out 1 has another identity"]),
    ("UPDATE out_file SET state = 'handed' WHERE no = 1", [], ["out 1 has lost its state"]),
    ("UPDATE out_file SET state = 'waiting', mark = 0 WHERE no = 1", [], ["out 1 has lost its state"]),
    ("UPDATE out_file SET state = 'refused', reason = '13' WHERE no = 1", [], ["out 1 has lost its state"]),
    ("UPDATE out_file SET mark = 4 WHERE no = 1", ["out 1 has a mark above its rows"], []),
    ("UPDATE out_file SET reason = '13' WHERE no = 1", ["out 1 has a value that no entry has"], ["out 1 is missing"]),
    ("UPDATE out_row SET body = zeroblob(1024) WHERE no = 1 AND pos = 0", [], ["row 0 of out 1 has other octets"]),
    ("DELETE FROM out_row WHERE no = 1", ["out 1 has a mark above its rows"],
     ["out 1 has another number of rows", "row 0 of out 1 is missing", "row 1 of out 1 is missing", "row 2 of out 1 is missing"]),
    ("DELETE FROM out_file WHERE no = 1", UNOPENED, []),
    ("DELETE FROM issued WHERE no = 2", [], ["issued 2 is missing"]),
    ("UPDATE issued SET sent = 0 WHERE no = 1", [], ["issued 1 was sent, and is due again"]),
    ("UPDATE issued SET note = 'other' WHERE no = 2", [], ["issued 2 has another text"]),
    ("UPDATE issued SET reason = '35' WHERE no = 2", [], ["issued 2 has another reason"]),
    ("UPDATE issued SET kind = 'NERP', reason = '34' WHERE no = 1", [], ["issued 1 is of another kind", "issued 1 has another reason"]),
    ("UPDATE issued SET note = 'x' WHERE no = 1", ["issued 1 has a reason, a creator or a text, and is an EERP"], ["issued 1 has another text"]),
    ("UPDATE issued SET sent = 2 WHERE no = 1", ["issued 1 has a value that no entry has"], ["issued 1 is missing"]),
    ("DELETE FROM received WHERE no = 1", ["received 1 is missing"], ["received 1 is missing"]),
    ("UPDATE received SET dataset = 'INV.9' WHERE no = 2", [], ["received 2 has another identity"]),
    ("UPDATE received SET reason = '35' WHERE no = 2", [], ["received 2 has another reason"]),
    ("UPDATE received_note SET creator = 'O0177OTHER' WHERE no = 2", [], ["received 2 has another creator"]),
    ("UPDATE received_note SET note = '' WHERE no = 2", [], ["received 2 has another text"]),
    (STRAY_TEXT, ["received 1 has a reason, a creator or a text, and is an EERP", "text of received 1 belongs to no entry"],
     ["received 1 has another text"]),
    ("INSERT INTO received_note VALUES (7, '', '')", UNOPENED, []),
    ("UPDATE received SET kind = 'EERP' WHERE no = 2", ["received 2 has a value that no entry has", "text of received 2 belongs to no entry"], ["received 2 is missing"]),
    ("DELETE FROM received_note WHERE no = 2", ["received 2 has a value that no entry has"], ["received 2 is missing"]),
]

# Other values of the columns of which no loss above changes one alone.
CHANGES = [
    *(f"UPDATE in_file SET {column} = '{value}' WHERE no = 1" for column, value in (("date", "20240201"), ("originator", "O0177OTHER"), ("destination", "O0013OTHER"))),
    *(f"UPDATE out_file SET {column} = '{value}' WHERE no = 1" for column, value in (
        ("dataset", "INV.9"), ("date", "20240201"), ("time", "1015300009"), ("originator", "O0013OTHER"), ("format", "T"), ("description", "x"))),
    "UPDATE out_file SET format = 'F', longest = 1024 WHERE no = 1",
    "UPDATE out_file SET format = 'F', longest = 1025 WHERE no = 1",
    *(f"UPDATE received SET {column} = '{value}' WHERE no = 2" for column, value in (
        ("date", "20240201"), ("time", "1015300009"), ("originator", "O0013OTHER"), ("destination", "O0177OTHER"))),
]
OTHER_REGISTER = "register: no entry of the record has it"
# The errors of a register that can't be read.
UNREADABLE = ("fault: 3 office\n", "fault: 6 store 1\n")


class Unlike(Exception):
    """Something isn't as it should be."""


def run(*words):
    """The output, the line of an error and the status of a run of the program."""
    done = subprocess.run([PROGRAM, *words], capture_output=True, timeout=SECONDS, check=False)
    return done.stdout.decode(), done.stderr.decode(), done.returncode


def expect(got, wanted, what):
    if got != wanted:
        raise Unlike(f"{what}: wanted {wanted!r}, got {got!r}")


def expect_lines(words, lines):
    """An audit prints just these lines, and leaves its databases as they were."""
    files = [Path(word) for word in words[1::2] if Path(word).is_file()]
    before = [sum_of(file) for file in files]
    expect(run("audit", *words), ("".join(f"{line}\n" for line in lines), "", 1 if lines else 0), " ".join(str(word) for word in words))
    expect([sum_of(file) for file in files], before, "the databases behind it")


def sum_of(file):
    return hashlib.sha256(file.read_bytes()).hexdigest()


def write(database, text):
    """Lets stock sqlite3 write a database. The references of the tables aren't kept."""
    with sqlite3.connect(database) as conn:
        conn.executescript(text)
    conn.close()


def copied(room, database, name):
    """A copy by stock sqlite3, in one file."""
    copy = room / name
    copy.unlink(missing_ok=True)
    source, target = sqlite3.connect(database), sqlite3.connect(copy)
    source.backup(target)
    target.execute("PRAGMA journal_mode = DELETE")
    for conn in (source, target):
        conn.close()
    return copy


def begun(room):
    """A database with a file that came, a file that is to be sent, and a release, and the copies after each."""
    database, content, copies = room / "db", room / "content", []
    content.write_bytes(bytes(range(256)) * 10)
    steps = [
        ("init", "--db", database),
        ("feed", "--db", database, "--book", BOOK, ONE_FILE, room / "answer"),
        ("submit", "--db", database, "--book", BOOK, "--dataset", "INV.7", "--date", "20240131", "--time", "1015300007",
         "--to", "O0177CARMAKER", "--format", "U", content),
        ("release", "--db", database, "--book", BOOK, "1"),
    ]
    for words in steps:
        out, err, status = run(*words)
        expect((err, status), ("", 0), words[0])
        copies.append(copied(room, database, f"copy{len(copies)}"))
    return copies


def lived(room):
    """The copies of a whole life, from its beginning on."""
    copies = begun(room)
    for text in LATER:
        copies.append(copied(room, copies[-1], f"copy{len(copies)}"))
        write(copies[-1], text)
    return copies


def try_life(copies):
    """Each moment of a life is sound, and has lost nothing of any before it."""
    for place, later in enumerate(copies):
        expect_lines(["--db", later], [])
        for earlier in copies[:place]:
            expect_lines(["--db", later, "--old", earlier], [])


def recorded(room, whole):
    """The record of a station that had this database."""
    home = room / "station"
    (home / "record").mkdir(parents=True)
    copied(home, whole, "database")
    with Resident(home, "--record", home / "record", book=BOOK) as station:
        station.give("stop")
        station.ends()
    expect_lines(["--db", whole, "--record", home / "record"], [])
    return home / "record"


def try_change(room, whole, text):
    """What stock sqlite3 does is told against the record, in a line or as an entry that can't be read."""
    spoilt = copied(room, whole, "spoilt")
    write(spoilt, text)
    out, err, status = run("audit", "--db", spoilt, "--record", room / "station/record")
    expect(status, 1, f"the status of an audit against the record, which says {out!r} and {err!r}")
    expect(OTHER_REGISTER in out.splitlines() or err in UNREADABLE, True, f"whether {out!r} and {err!r} tell that the register is another one")


def try_loss(room, whole, text, alone, against):
    """A loss is told, alone, against the database that hadn't it, and against its record."""
    if text != STRAY_TEXT:
        try_change(room, whole, text)
    spoilt = copied(room, whole, "spoilt")
    write(spoilt, text)
    if alone is UNOPENED:
        expect(run("audit", "--db", spoilt), ("", "fault: 6 store 1\n", 1), "a row that refers to none")
        return
    expect_lines(["--db", spoilt], alone)
    expect_lines(["--db", spoilt, "--old", whole], alone + against)


def try_refusals(room, whole):
    """What isn't a station's database, or can't be read, or is held by a station, isn't audited, and none is made."""
    expect(run("audit", "--db", room / "none"), ("", "fault: 6 store 1\n", 1), "no database")
    expect((room / "none").exists(), False, "a database that an audit made")
    other = room / "other"
    write(other, "CREATE TABLE t (a)")
    expect(run("audit", "--db", other), ("", "fault: 6 store 3\n", 1), "another database")
    expect(run("audit", "--db", whole, "--old", other), ("", "fault: 6 store 3\n", 1), "another older database")
    spoilt = copied(room, whole, "spoilt")
    write(spoilt, "UPDATE in_file SET state = 'half' WHERE no = 2")
    expect(run("audit", "--db", whole, "--old", spoilt), ("", "fault: 6 store 1\n", 1), "an older database with an entry that can't be read")
    with Resident(room) as station:
        expect(run("audit", "--db", station.database), ("", "fault: 6 store 1\n", 1), "a database that a station holds")


def main():
    results = {True: 0, False: 0}

    def note(what, call, *given):
        try:
            call(*given)
        except (Unlike, Wrong, subprocess.TimeoutExpired, sqlite3.Error) as why:
            print(f"{what}: {why}")
            results[False] += 1
        else:
            results[True] += 1

    with tempfile.TemporaryDirectory() as name:
        room = Path(name)
        copies = lived(room)
        note("a life", try_life, copies)
        note("refusals", try_refusals, room, copies[-1])
        note("the record", recorded, room, copies[-1])
        for text, alone, against in LOSSES:
            note(text, try_loss, room, copies[-1], text, alone, against)
        for text in CHANGES:
            note(text, try_change, room, copies[-1], text)
    print(f"{results[True]} passed, {results[False]} failed")
    return 1 if results[False] else 0


if __name__ == "__main__":
    sys.exit(main())
