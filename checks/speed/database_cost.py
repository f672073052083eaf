#!/usr/bin/env python3
"""The cost of a register in a database, compared with the same work over stock sqlite3.

    checks/speed/database_cost.py [--assert] [--runs N]       with `--assert` it fails if a bound is exceeded; each time is the least of
                                                              N runs (default: 3). What is wanted is printed beside the bound

Files are received and sent by `feed` in one session, at large and at small windows, over a database on this disk. A plain C program over
libsqlite3 (`plain_store.c`) does the same with its own database. It has one statement for each row and one transaction for each window, with the
same journal mode and synchronous=FULL. Without a C compiler or sqlite3.h, Python's sqlite3 does it. Then come the memory for a file of 64 MiB, the
opening of 100 MiB, and a report and a session over 10,000 files. They are compared with Python's sqlite3, which reads the same, and with a quarter
of each. Each bound is a ratio of processor times, so that it holds on any machine, loaded or idle. It takes the program as it was last built; the
last line is `N passed, M failed`.

Shows: what a register in a database costs, compared with plain C over libsqlite3 that does the same, and with a quarter of as much. It fails if
either takes more times the processor time of the other than its bound says. The bound is two and a half times what was measured of the checked
program
"""

import argparse
import os
import shutil
import sqlite3
import subprocess
import sys
import tempfile
import time
from pathlib import Path

sys.path.insert(0, str(Path(__file__).resolve().parents[1] / "lib"))

import one_file
from filled import BLOCK, copied, fill_large, fill_many, fill_out, opened, settle
from measured import Taken, by_processor, run, run_quietly, shown
from one_file import BOOK, FILE, MEBI, frame_of
from program import PROGRAM, ROOT
from row_files import in_subrecords

# Each case: its name, the octets of the file, the buffer, the credit, and the octets of a DATA. These are as many as the buffer allows if there is
# no number. Then come how many times the processor time of stock sqlite3 it should take, and may take. It may take two and a half times what the
# checked program took, which is slower than the proved one.
RECEIVED = [
    ("a file comes in, large windows", 8 * MEBI, 16384, 99, None, 1.5, 18),
    ("a file comes in, small windows", MEBI, 128, 2, None, 1.3, 7),
    ("500 times 16 rows come in", 500 * 16 * BLOCK, 8324, 2, 8 * BLOCK, 1.5, 10),
]
SENT = [
    ("a file goes out, large windows", 8 * MEBI, 16384, 99, 1.5, 35),
    ("a file goes out, small windows", MEBI, 128, 2, 1.3, 4),
]
# The same for what reads the register.
OPENED = (8, 60)
REPORTED = (2, 25)
# How many times the time of a quarter an act may take that grows with the register. One that grew as its square would take sixteen times as much.
MOST_GROWTH = 8


class Room:
    """A folder with what the runs need: books, octets, and databases to copy."""

    def __init__(self, path):
        self.path = path
        self.plain = build_plain(path)
        self.empty = path / "empty"
        run_quietly([PROGRAM, "init", "--db", self.empty])
        settle(self.empty)

    def book(self, buffer, credit):
        path = self.path / f"book_{buffer}_{credit}.toml"
        path.write_text(BOOK.format(buffer=buffer, credit=credit))
        return path

    def copy_of(self, database):
        return copied(database, self.path / "copy")


def build_plain(path):
    """The C program, or None where it can't be built."""
    words = ["cc", "-O2", "-o", path / "plain_store", ROOT / "checks/speed/plain_store.c", "-lsqlite3"]
    if shutil.which("cc") and subprocess.run(words, capture_output=True, check=False).returncode == 0:
        return path / "plain_store"
    return None


def make(size, buffer, credit, carried, path):
    """Writes the octets of a session with one file."""
    size, carried = int(size), int(carried)
    if carried == 0:
        one_file.make(size, buffer, credit, path)
        return
    opening = frame_of("SSID", code="O0177CARMAKER", password="CARPW", buffer=buffer, credit=credit, mode="B")
    offer = frame_of("SFID", size=str((size + 1023) // 1024), **FILE)
    pieces = [b"A" * min(carried, size - at) for at in range(0, size, carried)]
    frames = [frame_of("DATA", payload=in_subrecords(piece, at == len(pieces) - 1)) for at, piece in enumerate(pieces)]
    end = frame_of("EFID", records="0", units=str(size))
    Path(path).write_bytes(b"".join([opening, offer, *frames, end, frame_of("ESID", reason="00")]))


def full_payload(buffer):
    """How many octets of a file the fullest DATA carries."""
    whole, rest = divmod(buffer - 1, 64)
    return whole * 63 + max(rest - 1, 0)


def receive(room, size, buffer, credit, carried, runs):
    """The least that the program and plain sqlite3 take for one file that is received."""
    given, answer, book = room.path / "given", room.path / "answer", room.book(buffer, credit)
    # In a process of its own, because the reported memory of a program is at least that of the script that starts it.
    run_quietly([sys.executable, __file__, "--make", str(size), str(buffer), str(credit), str(carried or 0), given])
    taken, plain = [], []
    for _ in range(runs):
        database = room.copy_of(room.empty)
        taken.append(run([PROGRAM, "feed", "--db", database, "--book", book, given, answer]))
        check_received(database, size, answer)
        database = room.copy_of(room.empty)
        if room.plain:
            plain.append(run([room.plain, "receive", database, given, answer, credit]))
            check_received(database, size, answer)
        else:
            plain.append(receive_by_python(database, size, credit * (carried or full_payload(buffer))))
    return by_processor(taken), by_processor(plain)


def check_received(database, size, answer):
    """The file is there, whole, and so is its answer."""
    connection = sqlite3.connect(database)
    found = connection.execute("SELECT state, (SELECT sum(length(body)) FROM in_row) FROM in_file").fetchall()
    connection.close()
    if found != [("whole", size)] or answer.read_bytes()[-6:] != frame_of("EFPA", change="N"):
        raise SystemExit(f"the file wasn't taken: {found}")


def receive_by_python(database, size, window):
    """What Python's sqlite3 takes for the same statements."""
    body = b"A" * BLOCK
    begin = time.monotonic(), time.process_time()
    connection = opened(database)
    connection.execute("INSERT INTO in_file VALUES (1, 'ASN.0001', '20240131', '1015300001', 'A', 'B', 'U', 0, '', 'open')")
    kept = 0
    for came in range(window, size, window):
        if came // BLOCK > kept:
            connection.execute("BEGIN IMMEDIATE")
            for at in range(kept, came // BLOCK):
                connection.execute("INSERT INTO in_row VALUES (1, ?, ?)", (at, body))
            connection.execute("COMMIT")
            kept = came // BLOCK
    connection.execute("BEGIN IMMEDIATE")
    for at in range(kept, size // BLOCK):
        connection.execute("INSERT INTO in_row VALUES (1, ?, ?)", (at, body))
    connection.execute("UPDATE in_file SET state = 'whole'")
    connection.execute("COMMIT")
    taken = Taken(time.monotonic() - begin[0], time.process_time() - begin[1])
    connection.close()
    return taken


def send(room, size, buffer, credit, runs):
    """The least that the program and plain sqlite3 take for one file that is sent."""
    given, answer, book = room.path / "given", room.path / "answer", room.book(buffer, credit)
    frames = -(-size // full_payload(buffer))
    opening = frame_of("SSID", code="O0177CARMAKER", password="CARPW", buffer=str(buffer), credit=str(credit), mode="B")
    answers = [frame_of("SFPA", count="0"), frame_of("CDT") * (frames // credit), frame_of("EFPA"), frame_of("ESID", reason="00")]
    given.write_bytes(b"".join([frame_of("SSRM"), opening, *answers]))
    full = room.path / "full"
    fill_out(room.empty, full, size)
    taken, plain = [], []
    for _ in range(runs):
        database = room.copy_of(full)
        role = ["--role", "initiator", "--partner", "O0177CARMAKER"]
        taken.append(run([PROGRAM, "feed", "--db", database, "--book", book, *role, given, answer]))
        check_sent(database, answer, frames)
        database = room.copy_of(full)
        if room.plain:
            plain.append(run([room.plain, "send", database, given, answer, credit, buffer]))
            check_sent(database, answer, frames)
        else:
            plain.append(send_by_python(database, size, credit * full_payload(buffer)))
    return by_processor(taken), by_processor(plain)


def check_sent(database, answer, frames):
    connection = sqlite3.connect(database)
    found = connection.execute("SELECT state FROM out_file").fetchall()
    connection.close()
    octets = answer.read_bytes()
    if found != [("handed",)] or len(octets) < frames * 100:
        raise SystemExit(f"the file wasn't sent: {found}")


def send_by_python(database, size, window):
    begin = time.monotonic(), time.process_time()
    connection = opened(database)
    marked = 0
    for gone in range(window, size + 1, window):
        query = "SELECT body FROM out_row WHERE no = 1 AND pos >= ? ORDER BY pos LIMIT ?"
        b"".join(body for (body,) in connection.execute(query, (marked, gone // BLOCK - marked)))
        if gone // BLOCK > marked:
            marked = gone // BLOCK
            connection.execute("UPDATE out_file SET mark = ? WHERE no = 1", (marked,))
    for state in ("closing", "handed"):
        connection.execute("UPDATE out_file SET state = ? WHERE no = 1", (state,))
    taken = Taken(time.monotonic() - begin[0], time.process_time() - begin[1])
    connection.close()
    return taken


def idle_session(room):
    """The octets of a partner that is called and gets nothing."""
    given = room.path / "idle"
    opening = frame_of("SSID", code="O0177CARMAKER", password="CARPW", buffer="128", credit="2", mode="B")
    given.write_bytes(b"".join([frame_of("SSRM"), opening, frame_of("ESID", reason="00")]))
    return given


def read_by_python(database):
    """What Python's sqlite3 takes to read each octet of the received files."""
    begin = time.monotonic(), time.process_time()
    connection = opened(database)
    sum(len(body) for (body,) in connection.execute("SELECT body FROM in_row"))
    connection.close()
    return Taken(time.monotonic() - begin[0], time.process_time() - begin[1])


def report_by_python(database):
    """What Python's sqlite3 takes to list the received files: each with its number of rows and of octets, and its response."""
    begin = time.monotonic(), time.process_time()
    connection = opened(database)
    rows = "(SELECT count(*) FROM in_row WHERE no = f.no), (SELECT sum(length(body)) FROM in_row WHERE no = f.no)"
    query = f"SELECT f.*, {rows}, i.kind FROM in_file f LEFT JOIN issued i ON i.no = f.no ORDER BY f.no"
    with open(os.devnull, "w", encoding="utf-8") as nowhere:
        for row in connection.execute(query):
            print(*row, sep=",", file=nowhere)
    connection.close()
    return Taken(time.monotonic() - begin[0], time.process_time() - begin[1])


class Told:
    """Prints the figures, and counts those within their bounds."""

    def __init__(self, plain):
        self.passed = 0
        self.failed = 0
        print(f"{'seconds (of the processor)':<44} station           {plain}")

    def beside(self, name, taken, plain, wanted, most):
        times = taken.processor / plain.processor
        line = f"{name:<42} {shown(taken)} {shown(plain)} {times:6.2f} times, wanted {wanted}, bound {most}"
        self.judge(times <= most, line)

    def grows(self, name, whole, quarter):
        """Four times as much data takes little more than four times as long."""
        times = whole.processor / quarter.processor
        line = f"{name:<42} {shown(whole)} {shown(quarter)} {times:6.2f} times what a quarter does, bound {MOST_GROWTH}"
        self.judge(times <= MOST_GROWTH, line)

    def memory(self, name, taken, plain, mebis):
        line = f"{name:<42} {shown(taken)} {shown(plain)} {taken.memory // 1024} MiB, bound {mebis} MiB"
        self.judge(taken.memory <= mebis * 1024, line)

    def judge(self, is_good, line):
        self.passed += is_good
        self.failed += not is_good
        print(line if is_good else f"{line}: TOO MUCH", flush=True)


def measure(room, runs):
    told = Told("plain C" if room.plain else "Python")
    for name, size, buffer, credit, carried, wanted, most in RECEIVED:
        told.beside(name, *receive(room, size, buffer, credit, carried, runs), wanted, most)
    for name, size, buffer, credit, wanted, most in SENT:
        told.beside(name, *send(room, size, buffer, credit, runs), wanted, most)
    told.memory("64 MiB come in", *receive(room, 64 * MEBI, 16384, 99, None, 1), 128)
    large = [fill_large(room.empty, room.path / f"large_{mebis}", mebis) for mebis in (100, 25)]
    openings = [least(runs, ["init", "--db", database]) for database in large]
    told.beside("100 MiB are opened", openings[0], by_processor(read_by_python(large[0]) for _ in range(runs)), *OPENED)
    told.grows("100 MiB are opened", *openings)
    many = [fill_many(room.empty, room.path / f"many_{files}", files) for files in (10_000, 2_500)]
    reported = [least(runs, ["report", "--db", database, "in"]) for database in many]
    told.beside("10,000 files are reported", reported[0], by_processor(report_by_python(many[0]) for _ in range(runs)), *REPORTED)
    told.grows("10,000 files are reported", *reported)
    told.grows("a session with nothing, over 10,000 files", *(least(runs, idle_words(room, database)) for database in many))
    return told


def idle_words(room, database):
    """The arguments of a session that has nothing to do."""
    role = ["--role", "initiator", "--partner", "O0177CARMAKER"]
    return ["feed", "--db", database, "--book", room.book(128, 2), *role, idle_session(room), room.path / "answer"]


def least(runs, words):
    return by_processor(run([PROGRAM, *words]) for _ in range(runs))


def main():
    if sys.argv[1:2] == ["--make"]:
        make(*sys.argv[2:])
        return 0
    parser = argparse.ArgumentParser(description=__doc__.splitlines()[0])
    parser.add_argument("--assert", action="store_true", dest="is_asserted")
    parser.add_argument("--runs", type=int, default=3)
    taken = parser.parse_args()
    with tempfile.TemporaryDirectory() as path:
        told = measure(Room(Path(path)), taken.runs)
    print(f"{told.passed} passed, {told.failed} failed")
    return 1 if taken.is_asserted and told.failed else 0


if __name__ == "__main__":
    sys.exit(main())
