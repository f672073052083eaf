#!/usr/bin/env python3
"""Compares lists beside files of very many records with lists beside files of blocks.

    checks/speed/list_of_records.py

Two registers have a received file and a waiting one, of some 200,000 octets each. The files are in V in one register, in records of one octet, and in
U in the other. Over each, `run` lists its files several times. The first time it reads each record, and afterwards it knows the numbers of octets. So
each later list may take MOST times the processor time that it takes beside blocks. A line has both times. Another says what each opening took. The
last line is `N passed, M failed`.

Shows: two stations that keep their databases open, each with a received and a waiting file of some 200,000 octets. One is over files in V, in records
of one octet, and the second over files in U. Each list is asked for five times. It fails if one takes more than three times the processor time that
it takes beside blocks, and 5 ms. The first that reads the records is excepted. With a program that counted the octets of such a file for each list,
all failed
"""

import sqlite3
import sys
import tempfile
from pathlib import Path

sys.path.insert(0, str(Path(__file__).resolve().parents[1] / "lib"))

from filled import BLOCK, NUMBERS, OUTGOING, OURS, THEIRS, settle
from holding import Holding
from measured import run_quietly
from one_file import BOOK
from program import PROGRAM

OCTETS = 200_000
# How many times the time beside blocks a list may take, and the seconds that may be chance.
MOST = 3
NOISE = 0.005
# How often a list is asked for. The least time after the first counts.
OFTEN = 5

LISTS = {
    "report in": lambda station: station.command("report", "in"),
    "report out": lambda station: station.command("report", "out"),
    "GET /in": lambda station: station.request("/in"),
    "GET /out": lambda station: station.request("/out"),
    "GET /in/1": lambda station: station.request("/in/1"),
}


def filled(empty, full, kind, longest, size):
    """A copy of an empty database with a received and a waiting file of this format, whose rows have this size."""
    full.write_bytes(empty.read_bytes())
    connection = sqlite3.connect(full)
    came = ("LARGE.1", "20240131", "1015300001", THEIRS, OURS, kind, longest)
    went = (*OUTGOING.values(), OURS, THEIRS, kind, longest)
    given = {"from": 0, "to": OCTETS // size - 1, "body": b"A" * size}
    with connection:
        connection.execute("INSERT INTO in_file VALUES (1, ?, ?, ?, ?, ?, ?, ?, '', 'whole')", came)
        connection.execute("INSERT INTO out_file VALUES (1, ?, ?, ?, ?, ?, ?, ?, '', 0, 'waiting', '')", went)
        for table in ("in_row", "out_row"):
            connection.execute(f"{NUMBERS} INSERT INTO {table} SELECT 1, i, :body FROM n", given)
    connection.close()
    settle(full)
    return full


def times(station, ask):
    """The processor seconds of the station for the first list, and the least for a later one."""
    taken = []
    for _ in range(OFTEN):
        before = station.taken()
        ask(station)
        taken.append(station.taken() - before)
    return taken[0], min(taken[1:])


def measured(folder, empty, kind, longest, size):
    """The times of each list over the register with files of this format."""
    book = folder / "book.toml"
    book.write_text(BOOK.format(buffer=16384, credit=99))
    database = filled(empty, folder / f"filled-{kind}", kind, longest, size)
    with Holding(folder / kind, database, book) as station:
        print(f"{kind}: the opening took {station.taken():.3f} s of the processor, {station.memory() / 1024:.0f} MiB", flush=True)
        return {name: times(station, ask) for name, ask in LISTS.items()}


def main():
    with tempfile.TemporaryDirectory() as path:
        folder = Path(path)
        empty = folder / "empty"
        run_quietly([PROGRAM, "init", "--db", empty])
        settle(empty)
        blocks = measured(folder, empty, "U", 0, BLOCK)
        records = measured(folder, empty, "V", 1, 1)
    failed = 0
    for name in LISTS:
        (_, least), (first, later) = blocks[name], records[name]
        is_well = later <= MOST * least + NOISE
        failed += not is_well
        line = f"{name:<10} beside blocks {least * 1000:7.2f} ms; beside records {first * 1000:7.2f} ms the first time, {later * 1000:7.2f} ms later"
        print(line if is_well else f"{line}: TOO MUCH", flush=True)
    print(f"{len(LISTS) - failed} passed, {failed} failed")
    return 1 if failed else 0


if __name__ == "__main__":
    sys.exit(main())
