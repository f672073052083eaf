#!/usr/bin/env python3
"""How much of the cost is the toolchain library's, and how much the station's: the station, the library and plain C at the same work.

    checks/speed/library_alone.py [--assert] [--runs N] [--proved | --library PROGRAM] [--rows N]

`library_store.rattle` uses only the library, with the statements of the station's store: it contains no crate of the station. It is built as the
checked station is, so OFTP_STATION names that one; with `--proved` as the proved one. `--library` names a built one. Plain C over libsqlite3 does the
same twice: with the octets of the session (`plain_store.c`), and the statements alone (`plain_register.c`). All times are processor times without the
opening, except those of the opening itself. Each is the least of N runs (default: 3), which take turns. The station is `run`, which keeps its
database open. Files of short records have `--rows` of them (default: 20,000). With `--assert` it fails if the ratio of the station's time to the
library's exceeds its bound. The last line is `N passed, M failed`.

Shows: by hand, since it builds a program: the station, the toolchain's library alone and plain C at the same files. Each is without its opening, and
the opening itself is shown too. The library is `library_store.rattle`, which has the statements of the store and no crate of ours. With `--assert` it
fails where the station takes more times as long as the library than its bound says
"""

import argparse

import sqlite3
import subprocess
import sys
import tempfile
from pathlib import Path
from typing import NamedTuple, Optional

sys.path.insert(0, str(Path(__file__).resolve().parents[1] / "lib"))

import oftp
from filled import BLOCK, MEBI, OURS, OUTGOING, THEIRS, copied, fill_large, settle
from holding import Holding, spoken, taken_answers
from measured import run_quietly
from one_file import BOOK, FILE, frame_of
from program import PROGRAM, ROOT

# How many rows the station reads at a time, like `library_store` and plain C.
STEP = 64


class Case(NamedTuple):
    """A file: what happens to it, its number of rows and their length in octets, and its format. Also the buffer and the credit of its session. Then
    come how many times plain C's time it should take, and how many times the library's time it may take."""

    name: str
    way: str
    rows: int
    length: int
    form: str
    buffer: int
    credit: int
    wanted: Optional[float]
    most: float

    def longest(self):
        return 0 if self.form == "U" else self.length

    def units(self):
        return self.rows * self.length

    def in_data(self):
        """How many octets of the file the fullest DATA carries."""
        if self.form != "U":
            return (self.buffer - 1) // (self.length + -(-self.length // 63)) * self.length
        whole, rest = divmod(self.buffer - 1, 64)
        return whole * 63 + max(rest - 1, 0)

    def data(self):
        """How many DATA it fills."""
        return -(-self.units() // self.in_data())

    def window(self):
        """How many rows are stored or marked in one transaction."""
        return max(self.credit * self.in_data() // self.length, 1)


def cases(short):
    """The files; those of short records have this many."""
    return [
        Case("a file comes, large windows", "in", 8192, BLOCK, "U", 16384, 99, 1.3, 2),
        Case("a file comes, small windows", "in", 1024, BLOCK, "U", 128, 2, 1.3, 2),
        Case("a file goes, large windows", "out", 8192, BLOCK, "U", 16384, 99, 1.5, 2),
        Case("a file goes, small windows", "out", 1024, BLOCK, "U", 128, 2, 1.1, 2),
        # With the command that asks for it, and the transfer of its octets from one to the other.
        Case("a file is fetched", "fetch", 8192, BLOCK, "U", 16384, 99, 1.5, 3),
        Case("V of one octet comes", "in", short, 1, "V", 16384, 99, None, 2),
        Case("F of 67 octets comes", "in", short, 67, "F", 16384, 99, None, 2),
        # Its rows are read twice, because the number of its octets is sent first.
        Case("V of one octet goes", "out", short, 1, "V", 16384, 99, None, 3),
        Case("V of one octet is fetched", "fetch", short, 1, "V", 16384, 99, None, 2),
    ]


class Room:
    """A folder with what the runs need: programs, books and databases."""

    def __init__(self, path, library):
        self.path = path
        self.library = library
        self.store, self.register = (self.built(name) for name in ("plain_store", "plain_register"))
        self.empty = path / "empty"
        run_quietly([PROGRAM, "init", "--db", self.empty])
        settle(self.empty)

    def built(self, name):
        run_quietly(["cc", "-O2", "-o", self.path / name, ROOT / f"checks/speed/{name}.c", "-lsqlite3"])
        return self.path / name

    def book(self, case):
        path = self.path / "book.toml"
        path.write_text(BOOK.format(buffer=case.buffer, credit=case.credit))
        return path

    def copy_of(self, database):
        return copied(database, self.path / "copy")

    def full(self, case):
        """A database with the file of a case, which is waiting or whole."""
        side = "out" if case.way == "out" else "in"
        names = (*OUTGOING.values(), OURS, THEIRS) if side == "out" else ("ASN.0001", "20240131", "1015300001", THEIRS, OURS)
        rest = (0, "waiting", "") if side == "out" else ("whole",)
        full = copied(self.empty, self.path / "full")
        connection = sqlite3.connect(full)
        with connection:
            values = (1, *names, case.form, case.longest(), "", *rest)
            connection.execute(f"INSERT INTO {side}_file VALUES ({', '.join('?' * len(values))})", values)
            rows = ((at, b"A" * case.length) for at in range(case.rows))
            connection.executemany(f"INSERT INTO {side}_row VALUES (1, ?, ?)", rows)
        connection.close()
        settle(full)
        return full


class Spent(NamedTuple):
    """The processor seconds of an opening, and of what came after it."""

    opening: float
    rest: float


def spent_by(*words):
    """What a program took that prints two numbers at its end."""
    told = subprocess.run([str(word) for word in words], check=True, capture_output=True, text=True).stdout.split()
    opened, done = (int(number) / 1e9 for number in told)
    return Spent(opened, done - opened)


# ---- the four at one file


def file_frames(case):
    """The frames with which a file is sent to the station."""
    subrecord = b"".join(piece_of(case.length, at) for at in range(0, case.length, 63))
    records = case.in_data() // case.length
    if case.form == "U":
        # In a stream only the last subrecord has the end flag.
        units = [min(case.in_data(), case.units() - at) for at in range(0, case.units(), case.in_data())]
        payloads = [stream_of(count, number == len(units) - 1) for number, count in enumerate(units)]
    else:
        payloads = [subrecord * min(records, case.rows - at) for at in range(0, case.rows, records)]
    offer = frame_of("SFID", **{**FILE, "format": case.form, "longest": str(case.longest()), "size": str(case.units() // BLOCK + 1)})
    end = frame_of("EFID", records="0" if case.form == "U" else str(case.rows), units=str(case.units()))
    return [offer, *(oftp.frame(b"D" + payload) for payload in payloads), end]


def piece_of(length, at):
    """The subrecord of a record from an octet on."""
    count = min(63, length - at)
    return bytes([count | (0x80 if at + count == length else 0)]) + b"A" * count


def stream_of(count, is_last):
    pieces = [min(63, count - at) for at in range(0, count, 63)]
    flags = [0x80 if is_last and number == len(pieces) - 1 else 0 for number in range(len(pieces))]
    return b"".join(bytes([flag | size]) + b"A" * size for flag, size in zip(flags, pieces))


def by_station(room, case, database):
    """What the station takes, without its opening; for a fetched file with the command that asks for it."""
    with Holding(room.path / "station", database, room.book(case)) as station:
        opening = station.taken()
        command = 0.0
        if case.way == "in":
            station.session(*file_frames(case), credit=case.credit, buffer=case.buffer)
        elif case.way == "out":
            said = station.session(*taken_answers(1, case.data(), case.credit), credit=case.credit, buffer=case.buffer)
            if len(said) < case.units():
                raise SystemExit(f"{case.name}: {len(said)} octets went")
        else:
            command = station.command("fetch", "1", room.path / "fetched")
        return Spent(opening, station.taken() - opening + command)


def by_library(room, case, database, many=1, step=STEP, how="steps"):
    """What the library takes for the statements alone; this many rows are added in a statement, and this many read in a step."""
    copy = room.copy_of(database)
    if case.way == "in":
        return spent_by(room.library, "keep", copy, case.rows, case.length, case.window(), many)
    if case.way == "out":
        return spent_by(room.library, "lend", copy, case.rows, case.window(), STEP)
    return spent_by(room.library, "fetch", copy, case.rows, step, how, room.path / "fetched")


def by_plain_statements(room, case, database):
    copy = room.copy_of(database)
    if case.way == "in":
        return spent_by(room.register, "keep", copy, case.rows, case.length, case.window())
    if case.way == "out":
        return spent_by(room.register, "lend", copy, case.window(), STEP)
    return spent_by(room.register, "fetch", copy, 1, STEP, room.path / "fetched")


def by_plain_session(room, case, database):
    """What plain C takes with the octets of the session; nothing if there is no session."""
    given, answer = room.path / "given", room.path / "answer"
    if case.way == "fetch" or (case.way == "out" and case.form != "U"):
        return None
    copy = room.copy_of(database)
    if case.way == "in":
        given.write_bytes(spoken(*file_frames(case), credit=case.credit, buffer=case.buffer))
        return spent_by(room.store, "receive", copy, given, answer, case.credit)
    given.write_bytes(b"")
    return spent_by(room.store, "send", copy, given, answer, case.credit, case.buffer)


def least(found):
    found = [it.rest for it in found if it is not None]
    return min(found) if found else None


# ---- output


class Told:
    """Prints the figures, and counts those within their bounds."""

    def __init__(self):
        self.passed = 0
        self.failed = 0

    def judge(self, is_good, line):
        self.passed += is_good
        self.failed += not is_good
        print(line if is_good else f"{line}: TOO MUCH", flush=True)


def times(one, other):
    return "     -" if not one or not other else f"{one / other:6.2f}"


def seconds(taken):
    return "      -" if taken is None else f"{taken * 1000:7.1f}"


def told_file(told, room, case, runs):
    """The four at one file, in milliseconds, and their ratios."""
    database = room.empty if case.way == "in" else room.full(case)
    ways = [by_station, by_library, by_plain_session, by_plain_statements]
    found = [[way(room, case, database) for way in ways] for _ in range(runs)]
    station, library, session, statements = (least(column) for column in zip(*found))
    ratios = [times(station, session or statements), times(library, statements), times(station, library)]
    line = f"{case.name:<28} {' '.join(map(seconds, [station, library, session, statements]))}   {'  '.join(ratios)}"
    per_row = f"{station / case.rows * 1e6:7.1f} {library / case.rows * 1e6:7.1f}"
    wanted = "" if case.wanted is None else f", wanted {case.wanted} times plain C"
    told.judge(station <= case.most * library, f"{line}   {per_row} bound {case.most}{wanted}")


def told_many(room, case, runs):
    """What the library would take if a statement added several rows."""
    print(f"{case.name}, by the library alone, microseconds a row:")
    for many, said in ((1, "a row a statement, as the store does"), (0, "the same, prepared once"), (8, "8 rows a statement"), (64, "64 rows a statement")):
        taken = least(by_library(room, case, room.empty, many) for _ in range(runs))
        print(f"  {said:<40} {taken / case.rows * 1e6:7.1f}", flush=True)


def told_steps(room, case, runs):
    """What the library would take if a file were read in another way."""
    print(f"{case.name}, by the library alone, microseconds a row:")
    database = room.full(case)
    ways = [
        (STEP, "steps", f"{STEP} rows a step, as the store does"),
        (8 * STEP, "steps", f"{8 * STEP} rows a step"),
        (case.rows, "stream", "one query, row by row"),
    ]
    for step, how, said in ways:
        taken = least(by_library(room, case, database, step=step, how=how) for _ in range(runs))
        print(f"  {said:<40} {taken / case.rows * 1e6:7.1f}", flush=True)


def told_counts(room, files, rows, runs):
    """What the library would take if one statement counted the rows of all files of a list."""
    database = copied(room.empty, room.path / "full")
    connection = sqlite3.connect(database)
    with connection:
        names = ("20240131", "1015300001", THEIRS, OURS, "U", 0, "", "whole")
        headers = ((no, f"ASN.{no}", *names) for no in range(1, files + 1))
        connection.executemany(f"INSERT INTO in_file VALUES ({', '.join('?' * (len(names) + 2))})", headers)
        bodies = ((no, at, b"A" * BLOCK) for no in range(1, files + 1) for at in range(rows))
        connection.executemany("INSERT INTO in_row VALUES (?, ?, ?)", bodies)
    connection.close()
    settle(database)
    print(f"the rows of {files} files of {rows} blocks are counted, by the library alone, microseconds a file:")
    for how, said in (("each", "a statement for each file, as the store does"), ("together", "one statement for all, which reads each row")):
        taken = least(spent_by(room.library, "count", room.copy_of(database), files, how) for _ in range(runs))
        print(f"  {said:<50} {taken / files * 1e6:7.1f}", flush=True)


def told_matches(room, count, runs):
    """What the library would take if one join looked up the files of all received responses."""
    database = copied(room.empty, room.path / "full")
    connection = sqlite3.connect(database)
    with connection:
        names = ("20240131", "1015300001", OURS, THEIRS)
        headers = ((no, f"ASN.{no}", *names, "U", 0, "", 0, "delivered", "") for no in range(1, count + 1))
        connection.executemany(f"INSERT INTO out_file VALUES ({', '.join('?' * 12)})", headers)
        responses = ((no, "EERP", f"ASN.{no}", *names, "") for no in range(1, count + 1))
        connection.executemany("INSERT INTO received VALUES (?, ?, ?, ?, ?, ?, ?, ?)", responses)
    connection.close()
    settle(database)
    print(f"the files of {count} received responses are looked up, by the library alone, microseconds a response:")
    for how, said in (("each", "a statement for each response, as the store does"), ("together", "one join for all")):
        taken = least(spent_by(room.library, "match", room.copy_of(database), how) for _ in range(runs))
        print(f"  {said:<50} {taken / count * 1e6:7.1f}", flush=True)


def told_opening(told, room, mebis, runs):
    """The opening of a register, compared with plain C that reads each row of it, and with plain C that checks it."""
    database = fill_large(room.empty, room.path / "large", mebis)
    station, library, read, tested = [], [], [], []
    book = room.book(cases(1)[0])
    for _ in range(runs):
        with Holding(room.path / "station", database, book) as holding:
            station.append(holding.taken())
        library.append(spent_by(room.library, "open", database).opening)
        read.append(sum(spent_by(room.register, "open", database)))
        tested.append(sum(spent_by(room.register, "check", database)))
    found = [min(it) for it in (station, library, read, tested)]
    ratios = [times(found[0], found[2]), times(found[0], found[3]), times(found[0], found[1])]
    line = f"the opening of {mebis} MiB: station, library, C that reads, C that tests: {' '.join(map(seconds, found))}   {'  '.join(ratios)}"
    told.judge(found[0] <= 1.5 * found[1], f"{line} bound 1.5")


def measure(room, runs, short):
    told = Told()
    print("milliseconds of the processor: station, library, plain C with its session, plain C's statements alone;")
    print("times: station by plain C, library by plain C's statements, station by library; microseconds a row: station, library")
    for case in cases(short):
        told_file(told, room, case, runs)
    for case in cases(short):
        # Other ways of using the library.
        if case.way == "in" and case.form != "F" and case.buffer > 128:
            told_many(room, case, runs)
        if case.way == "fetch" and case.form == "U":
            told_steps(room, case, runs)
    told_counts(room, 1000, 20, runs)
    told_matches(room, 1000, runs)
    told_opening(told, room, 25, runs)
    return told


def main():
    parser = argparse.ArgumentParser(description=__doc__.splitlines()[0])
    parser.add_argument("--assert", action="store_true", dest="is_asserted")
    parser.add_argument("--runs", type=int, default=3)
    parser.add_argument("--proved", action="store_true")
    parser.add_argument("--library", type=Path)
    parser.add_argument("--rows", type=int, default=20_000)
    taken = parser.parse_args()
    with tempfile.TemporaryDirectory() as path:
        library = taken.library or Path(path) / "library_store"
        if taken.library is None:
            words = ["--proved"] if taken.proved else []
            subprocess.run([str(ROOT / "checks/speed/library_store.sh"), *words, str(library)], check=True)
        told = measure(Room(Path(path), library.absolute()), taken.runs, taken.rows)
    print(f"{told.passed} passed, {told.failed} failed")
    return 1 if taken.is_asserted and told.failed else 0


if __name__ == "__main__":
    sys.exit(main())
