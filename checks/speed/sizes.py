#!/usr/bin/env python3
"""Brings the program to its limits, and prints the time and the memory of each case as rows of a table in Markdown.

    checks/speed/sizes.py [--whole]       the largest texts, books and credits, files at the limit of octets and of records and beyond; with
                                          `--whole` each of these files in each format, and registers of 10,000 files

A file goes from one station to the other: it is submitted and sent at the car maker, received at the supplier and fetched there. The octets
out of each are the input of the other, and what is fetched has to be what was submitted. A file with one more octet or record is refused,
submitted or offered. The reported memory of a program is at least that of this script. The last line is `N passed, M failed`.

Shows: a file of 67,108,864 octets goes from one station to another, and an octet or a record more is refused, submitted or offered. 1,000 partners
and one more; texts of 999 octets. The greatest buffer and credit (`--whole` for each format, 1,000,000 records and 10,000 files). It prints what
each takes
"""

import argparse
import os
import sqlite3
import subprocess
import sys
import tempfile
import time
from pathlib import Path

sys.path.insert(0, str(Path(__file__).resolve().parents[1] / "lib"))

import oftp
import tables
from one_file import BOOK
from program import PROGRAM

MEBI = 1024 * 1024
MOST_OCTETS = 64 * MEBI
MOST_ROWS = 1_000_000
MOST_FILES = 10_000
LONGEST_BOOK = 16 * MEBI
CAR_MAKER, SUPPLIER = "O0177CARMAKER", "O0013SUPPLIER"
PASSWORDS = {CAR_MAKER: "CARPW", SUPPLIER: "SUPPW"}
STAMP = {"date": "20240131", "time": "1015300001"}
BUFFER, CREDIT = 16384, 99
TEXT = "€" * 333
# The content of each row of a file, so that lost or exchanged octets are noticed.
RECORD = bytes(place % 251 for place in range(20_000))


class Failed(Exception):
    """The program does something else than it should."""


def frame(kind, **fields):
    return oftp.frame(oftp.spell(kind, {name: value if isinstance(value, (str, bytes)) else str(value) for name, value in fields.items()}))


class Size:
    """A file: its format, its longest record, its number of rows and their length in octets, and the length of the last one."""

    def __init__(self, form, longest, rows, size, last=None):
        self.form = form
        self.longest = longest
        self.rows = rows
        self.size = size
        self.last = size if last is None else last

    def octets(self):
        return (self.rows - 1) * self.size + self.last

    def records(self):
        for number in range(self.rows):
            size = self.size if number < self.rows - 1 else self.last
            yield RECORD[number % 97 : number % 97 + size]

    def write_local(self, path):
        """The file's local form."""
        with open(path, "wb") as file:
            for record in self.records():
                file.write(b"%05d" % len(record) + record if self.form == "V" else record)

    def write_stream(self, path):
        """A session in which it is received."""
        with open(path, "wb") as file:
            file.write(opening())
            names = {"dataset": "ASN.0001", **STAMP, "originator": CAR_MAKER, "destination": SUPPLIER}
            file.write(frame("SFID", **names, format=self.form, longest=self.longest, size=min(self.octets() // 1024, 65536)))
            payload = b""
            for part in self.subrecords():
                if len(payload) + len(part) > BUFFER - 1:
                    file.write(oftp.frame(b"D" + payload))
                    payload = b""
                payload += part
            file.write(oftp.frame(b"D" + payload))
            file.write(frame("EFID", records=0 if self.form in "UT" else self.rows, units=self.octets()))

    def subrecords(self):
        is_stream = self.form in "UT"
        for number, record in enumerate(self.records(), 1):
            for at in range(0, max(len(record), 1), 63):
                part = record[at : at + 63]
                is_last = at + 63 >= len(record) and (not is_stream or number == self.rows)
                yield bytes([len(part) | (0x80 if is_last else 0)]) + part


def opening():
    return frame("SSID", code=CAR_MAKER, password="CARPW", buffer=99999, credit=999, mode="B")


# Files at the limits of octets and of rows, and with one octet or one row more.
AT_LIMIT = {
    "U": Size("U", 0, 65_536, 1024),
    "T": Size("T", 0, 65_536, 1024),
    "F of 16,384": Size("F", 16_384, 4096, 16_384),
    "V of 16,384": Size("V", 16_384, 4096, 16_384),
    "F of 67, 1,000,000 rows": Size("F", 67, MOST_ROWS, 67),
    "V of 0 and 1, 1,000,000 rows": Size("V", 1, MOST_ROWS, 0, 1),
}
ABOVE = {
    "U, an octet more": Size("U", 0, 65_537, 1024, 1),
    "T, an octet more": Size("T", 0, 65_537, 1024, 1),
    "F of 8,065, an octet more": Size("F", 8065, 8321, 8065),
    "V, an octet more": Size("V", 16_384, 4097, 16_384, 1),
    "F of 1, a row more": Size("F", 1, MOST_ROWS + 1, 1),
    "V of 0 and 1, a row more": Size("V", 1, MOST_ROWS + 1, 0, 1),
}
IN_SHORT = ["F of 16,384", "V, an octet more", "F of 1, a row more"]


class Station:
    """A database, and the program over it."""

    def __init__(self, room, code, other):
        self.room = room
        self.database = room / code
        self.book = room / f"{code}.toml"
        self.other = other
        own = {SUPPLIER: code, CAR_MAKER: other, "CARPW": PASSWORDS[other], "SUPPW": PASSWORDS[code]}
        words = BOOK.format(buffer=BUFFER, credit=CREDIT).split("'")
        self.book.write_text("'".join(own.get(word, word) for word in words))

    def give(self, command, *words, line=None, book=True, database=True):
        """Runs a command. It returns the seconds and the MiB that it took."""
        over = [*(["--db", self.database] if database else []), *(["--book", self.book] if book else [])]
        words = [PROGRAM, command, *over, *words]
        told = self.room / "told"
        begin = time.monotonic()
        with open(told, "wb") as out:
            ends = [(os.POSIX_SPAWN_DUP2, out.fileno(), 1), (os.POSIX_SPAWN_DUP2, out.fileno(), 2)]
            pid = os.posix_spawn(str(PROGRAM), [str(word) for word in words], os.environ, file_actions=ends)
            _, _, used = os.wait4(pid, 0)
        seconds = time.monotonic() - begin
        if line is not None and told.read_text() != f"{line}\n":
            raise Failed(f"{command} tells {told.read_text()[:200]!r}, and not {line!r}")
        return seconds, used.ru_maxrss / 1024

    def feed(self, given, answer, line, *role):
        return self.give("feed", *role, given, answer, line=line)

    def called(self):
        return ["--role", "initiator", "--partner", self.other]


def submission(size, path, to=SUPPLIER, dataset="ASN.0001", description=""):
    names = ["--dataset", dataset, "--date", STAMP["date"], "--time", STAMP["time"], "--to", to, "--description", description]
    return [*names, "--format", size.form, "--longest", str(size.longest), path]


def pass_on(room, size):
    """A file goes from the car maker to the supplier. It returns what each of the four commands took."""
    car_maker = Station(room, CAR_MAKER, SUPPLIER)
    supplier = Station(room, SUPPLIER, CAR_MAKER)
    file, fetched = room / "file", room / "fetched"
    size.write_local(file)
    taken = [car_maker.give("submit", *submission(size, file), line="done: submit 1")]
    # What the supplier will answer: CDT after each 99 DATA, of which the number of frames is known once the file is out.
    answers, out, back = room / "answers", room / "out", room / "back"
    begin = frame("SSRM") + frame("SSID", code=SUPPLIER, password="SUPPW", buffer=BUFFER, credit=CREDIT, mode="B") + frame("SFPA", count=0)
    answers.write_bytes(begin + frame("CDT") * windows_of(size) + frame("EFPA") + frame("ESID", reason="00"))
    taken.append(car_maker.feed(answers, out, "end: partner 00", *car_maker.called()))
    taken.append(supplier.feed(out, back, "end: own 00"))
    if back.read_bytes() != answers.read_bytes():
        raise Failed("one station has out something else than the other read")
    taken.append(supplier.give("fetch", "1", fetched, line="done: fetch 1", book=False))
    if subprocess.run(["cmp", "-s", file, fetched], check=False).returncode:
        raise Failed("what is fetched isn't what was submitted")
    return taken


def windows_of(size):
    """How many windows of DATA a file fills, each DATA as full as the filling rule makes it."""
    payloads, free = 0, 0
    left = size.octets() if size.form in "UT" else None
    for record in [left] if left is not None else (len(record) for record in size.records()):
        while record is not None:
            if free < min(record, 1) + 1:
                payloads += 1
                free = BUFFER - 1
            part = min(63, record, free - 1)
            free -= 1 + part
            record = None if record == part else record - part
    return payloads // CREDIT


def refuse(room, size, is_whole):
    """A file beyond a limit is refused, submitted or offered: in memory, and with `--whole` over a database too. It returns what that
    took."""
    supplier = Station(room, SUPPLIER, CAR_MAKER)
    size.write_local(room / "file")
    taken = [supplier.give("submit", *submission(size, room / "file", to=CAR_MAKER), line="refused: 4 limit")]
    size.write_stream(room / "given")
    taken.append(supplier.give("feed", room / "given", room / "answer", line="end: own 06", database=False))
    if not is_whole:
        return taken
    taken.append(supplier.feed(room / "given", room / "answer", "end: own 06"))
    states = read(supplier.database, "SELECT (SELECT count(*) FROM out_file), state FROM in_file")
    if states != [(0, "open")]:
        raise Failed(f"{states} is left")
    return taken


def read(database, query):
    connection = sqlite3.connect(database)
    try:
        return connection.execute(query).fetchall()
    finally:
        connection.close()


def texts(room):
    """Descriptions and texts of 999 octets, received and sent."""
    station = Station(room, SUPPLIER, CAR_MAKER)
    names = {"dataset": "ASN.0001", **STAMP}
    inward = {**names, "originator": CAR_MAKER, "destination": SUPPLIER}
    outward = {**names, "originator": SUPPLIER, "destination": CAR_MAKER}
    (room / "file").write_bytes(b"ABC")
    size = Size("U", 0, 1, 3)
    taken = [station.give("submit", *submission(size, room / "file", to=CAR_MAKER, description=TEXT), line="done: submit 1")]
    long = submission(size, room / "file", to=CAR_MAKER, dataset="ASN.0002", description=f"{TEXT}a")
    station.give("submit", *long, line="refused: 5 field")
    offer = frame("SFID", **inward, format="U", description=TEXT) + frame("DATA", payload=b"\x80") + frame("EFID", records=0, units=0)
    refusal = frame("NERP", **inward, creator=CAR_MAKER, reason="99", text=TEXT)
    (room / "given").write_bytes(opening() + offer + refusal + frame("ESID", reason="99", text=TEXT))
    taken.append(station.feed(room / "given", room / "answer", "end: partner 99"))
    taken.append(station.give("refuse", "1", "99", TEXT, line="done: refuse 1"))
    answers = [frame("SSRM"), opening(), frame("RTR"), frame("SFNA", reason="99", retry="N", text=TEXT), frame("ESID", reason="00")]
    (room / "given").write_bytes(b"".join(answers))
    taken.append(station.feed(room / "given", room / "answer", "end: partner 00", *station.called()))
    own = frame("SSID", code=SUPPLIER, password="SUPPW", buffer=BUFFER, credit=CREDIT, mode="B")
    back = {**names, "originator": SUPPLIER, "destination": CAR_MAKER, "creator": SUPPLIER}
    wanted = [own, frame("NERP", **back, reason="99", text=TEXT), frame("SFID", **outward, format="U", description=TEXT), frame("CD")]
    if (room / "answer").read_bytes() != b"".join(wanted):
        raise Failed("other octets go out")
    found = tables.read(station.database)
    columns = {"in_file": "description", "out_file": "description", "issued": "note", "received_note": "note"}
    kept = [found[table][0][column] for table, column in columns.items()]
    if kept != [TEXT] * 4:
        raise Failed(f"texts of {[len(text.encode()) for text in kept]} octets are kept")
    return taken


def partners(room):
    """A book of 1,000 partners, the last of which calls. One of 1,001 is refused, and so is one of more than 16 MiB, or without an end."""
    station = Station(room, SUPPLIER, CAR_MAKER)
    usual = station.book.read_text()
    station_part, partner = usual.split("[[partner]]")
    more = [f"[[partner]]{partner.replace(CAR_MAKER, f'O{number:04}')}" for number in range(1000)]
    station.book.write_text("\n".join([station_part, *more[:999], f"[[partner]]{partner}"]))
    taken = [station.give("check", line="ok: 1000 partners", database=False)]
    (room / "given").write_bytes(opening() + frame("ESID", reason="00"))
    taken.append(station.feed(room / "given", room / "answer", "end: partner 00"))
    station.book.write_text("\n".join([station_part, *more, f"[[partner]]{partner}"]))
    taken.append(station.give("check", line="fault: 5 book 7", database=False))
    for length, line in ((LONGEST_BOOK - 1, "ok: 1 partners"), (LONGEST_BOOK, "ok: 1 partners"), (LONGEST_BOOK + 1, "fault: 7 file")):
        station.book.write_text(usual + "\n#".ljust(length - len(usual.encode()), "-"))
        taken.append(station.give("check", line=line, database=False))
    station.book = Path("/dev/zero")
    taken.append(station.give("check", line="fault: 7 file", database=False))
    return taken


def many_in(room):
    """10,000 files of an octet are received in one session; they are listed, and their End-to-End Responses are sent in one session."""
    station = Station(room, SUPPLIER, CAR_MAKER)
    names = {**STAMP, "originator": CAR_MAKER, "destination": SUPPLIER, "format": "U"}
    with open(room / "given", "wb") as given:
        given.write(opening())
        for number in range(MOST_FILES):
            given.write(frame("SFID", dataset=f"ASN.{number:05}", **names))
            given.write(frame("DATA", payload=b"\x81A") + frame("EFID", records=0, units=1))
        given.write(frame("ESID", reason="00"))
    taken = [station.feed(room / "given", room / "answer", "end: partner 00")]
    taken.append(station.give("report", "in", book=False))
    if len((room / "told").read_bytes().splitlines()) != 1 + MOST_FILES:
        raise Failed("the report has another number of lines")
    taken.append(station.give("release", str(MOST_FILES), line=f"done: release {MOST_FILES}"))
    change(station.database, f"INSERT INTO issued SELECT no, 'EERP', '', '', 0 FROM in_file WHERE no < {MOST_FILES}")
    (room / "given").write_bytes(frame("SSRM") + opening() + frame("RTR") * MOST_FILES + frame("ESID", reason="00"))
    taken.append(station.feed(room / "given", room / "answer", "end: partner 00", *station.called()))
    if read(station.database, "SELECT count(*) FROM issued WHERE sent = 1") != [(MOST_FILES,)]:
        raise Failed("not all responses are sent")
    return taken


def many_out(room):
    """10,000 files are sent in one session, and their End-to-End Responses are received in another."""
    station = Station(room, SUPPLIER, CAR_MAKER)
    (room / "file").write_bytes(b"A")
    size = Size("U", 0, 1, 1)
    taken = [station.give("submit", *submission(size, room / "file", to=CAR_MAKER, dataset="A0"), line="done: submit 1")]
    numbers = f"WITH RECURSIVE n(i) AS (SELECT 2 UNION ALL SELECT i + 1 FROM n WHERE i < {MOST_FILES})"
    columns = "date, time, originator, destination, format, longest, description, mark, state, reason"
    change(
        station.database,
        f"{numbers} INSERT INTO out_file (no, dataset, {columns}) SELECT i, 'A' || i, {columns} FROM n, out_file WHERE no = 1",
        f"{numbers} INSERT INTO out_row SELECT i, 0, body FROM n, out_row WHERE no = 1",
    )
    taken.append(station.give("report", "out", book=False))
    answers = (frame("SFPA", count=0) + frame("EFPA")) * MOST_FILES
    (room / "given").write_bytes(frame("SSRM") + opening() + answers + frame("ESID", reason="00"))
    taken.append(station.feed(room / "given", room / "answer", "end: partner 00", *station.called()))
    names = {**STAMP, "originator": CAR_MAKER, "destination": SUPPLIER}
    with open(room / "given", "wb") as given:
        given.write(opening())
        for number in [0, *range(2, MOST_FILES + 1)]:
            given.write(frame("EERP", dataset=f"A{number}", **names))
        given.write(frame("ESID", reason="00"))
    taken.append(station.feed(room / "given", room / "answer", "end: partner 00"))
    if read(station.database, "SELECT count(*) FROM out_file WHERE state = 'delivered'") != [(MOST_FILES,)]:
        raise Failed("not all files are delivered")
    return taken


def change(database, *statements):
    connection = sqlite3.connect(database)
    with connection:
        for statement in statements:
            connection.execute(statement)
    connection.close()


def cases(is_whole):
    """Each case: its name, its function with its arguments, and the columns' names."""
    passed = "submitted, out, in, fetched"
    for name, size in AT_LIMIT.items():
        if is_whole or name in IN_SHORT:
            yield f"{name}: {size.octets():,} octets", pass_on, [size], passed
    for name, size in ABOVE.items():
        if is_whole or name in IN_SHORT:
            yield f"{name}: {size.octets():,} octets", refuse, [size, is_whole], "submitted, offered in memory" + ", offered" * is_whole
    yield "texts of 999 octets", texts, [], "submitted, in, refused, out"
    yield "1,000 partners, and one more", partners, [], "checked, called, checked"
    if is_whole:
        yield "10,000 files that came", many_in, [], "in, listed, released, responses out"
        yield "10,000 files that go", many_out, [], "submitted, listed, out, responses in"


def main():
    parser = argparse.ArgumentParser(description=__doc__.splitlines()[0])
    parser.add_argument("--whole", action="store_true")
    passed, failed = 0, 0
    print("| What | Is | Seconds | MiB |\n|---|---|---|---|")
    for name, function, given, steps in cases(parser.parse_args().whole):
        with tempfile.TemporaryDirectory() as room:
            try:
                taken = function(Path(room), *given)
            except (Failed, tables.Damaged) as why:
                failed += 1
                print(f"{name}: {why}", flush=True)
                continue
        passed += 1
        print(f"| {name} | {steps} | {', '.join(f'{seconds:.2f}' for seconds, _ in taken)} |", end="")
        print(f" {', '.join(f'{memory:.0f}' for _, memory in taken)} |", flush=True)
    print(f"{passed} passed, {failed} failed")
    return 1 if failed else 0


if __name__ == "__main__":
    sys.exit(main())
