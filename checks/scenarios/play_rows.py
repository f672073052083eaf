#!/usr/bin/env python3
"""Plays the rows of rows/ over the built program, and reports which frame, line or table differs.

    checks/scenarios/play_rows.py [ROW ..]        rows by their names; all if none is named

A row is a text file (rows/README.md). It has sessions, as the frames of both sides in the order in which a partner sees them. It has operator's
commands, and what is left in the database. Each row is played over a database in three ways. Each session's octets come from a file in one piece;
or from a pipe that gives one octet at each read. Or they come as a conversation, in which the partner waits for each answer before it goes on. What
is left has to be a register, the same in each way, and the one in the row. A row of only one session is played in each way over a register in
memory too.

Each row that has no error of the book or the database is also lived by one `run`, three times. The operator's commands ask it between the sessions,
and the octets come in pieces of one octet, of 7 and of 100. Behind each piece, once its answers are there, something is looked up over HTTP or
through the socket for commands. It shows what the model of a station has at that moment (checks/lib/model.py). The life in pieces of one octet is recorded,
and its record, played over a new database, has to give the same tables. The last line is `N passed, M failed`.

Shows: the rows, each in one piece, octet by octet and as a conversation, against the script's own table of the commands. They are over a database,
and those of one session in memory too. Stock sqlite3 reads what is left. Those without an error of the book or the database are lived by one `run`
too. They are in pieces of one octet, of 7 and of 100, with the operator's commands between the sessions. A look-up behind each piece (behind each
seventh of more than 300) shows what the model has. A record of each life, played again, gives the same tables
"""

import os
import subprocess
import sys
import tempfile
from concurrent.futures import ProcessPoolExecutor
from functools import partial
from pathlib import Path

sys.path.insert(0, str(Path(__file__).resolve().parents[1] / "lib"))

import replays
import tables
from acts import as_conversation, check_left, in_one_piece, octet_by_octet, play_act
from lives import Life, is_lived
from row_files import ROWS, Bad, Row, Statement
from services import Wrong

WAYS = [in_one_piece, octet_by_octet, as_conversation]
# The lengths of pieces in a life.
LENGTHS = [1, 7, 100]
# The one whose life is recorded.
RECORDED = 1


def play_over_database(row, way):
    """Plays a row over a database. It returns why it differs, or None, and the tables that are left."""
    with tempfile.TemporaryDirectory() as room:
        database = Path(room) / "database"
        for number, act in enumerate(row.acts, 1):
            fault = play_act(way, act, Path(room), database)
            if fault:
                return f"act {number}, {type(act).__name__.lower()}: {fault}", None
        try:
            left = tables.read(database)
        except tables.Damaged as why:
            return None if row.is_damaged else str(why), None
        if row.is_damaged:
            return "a database is left", left
        return tables.unfit(left) or check_left(row, left), left


def play_over_memory(row, way):
    with tempfile.TemporaryDirectory() as room:
        return play_act(way, row.acts[0], Path(room), None)


def record_in(room, size, is_ours):
    """The folder of the record of a life in pieces of this size, if that has one: not where another program changes the tables."""
    if size != RECORDED or not is_ours:
        return None
    record = room / "record"
    record.mkdir()
    return record


def live(row, size):
    """Plays a row over a life of `run`, its octets in pieces of this size. It returns why it differs, or None, and the tables that are left."""
    # Where another program changes the tables, they may be none that the model has.
    looks = not any(isinstance(act, Statement) for act in row.acts)
    with tempfile.TemporaryDirectory() as room, Life(Path(room), record_in(Path(room), size, looks)) as life:
        try:
            for number, act in enumerate(row.acts, 1):
                fault = life.play(act, lambda session: life.hold(session, size, looks))
                if fault:
                    return f"act {number}, {type(act).__name__.lower()}: {fault}", None
            life.end()
            left = tables.read(life.database)
            if life.record and life.books:
                replays.expect_same(Path(room), life.database, life.record, life.books)
        except (Wrong, tables.Damaged, OSError, subprocess.SubprocessError) as why:
            return str(why), None
        return tables.unfit(left) or check_left(row, left), left


def ways_of(row):
    """The ways in which a row is played over a database, by their names: each returns why it differs, or None, and the tables."""
    for way in WAYS:
        yield way.__name__.replace("_", " "), partial(play_over_database, row, way)
    for size in LENGTHS[: None if row.sessions() else 1] if is_lived(row) else []:
        yield f"in a life, in pieces of {size}", partial(live, row, size)


def play(path):
    """Plays a row in each way. It returns what differs, one text for each."""
    try:
        row = Row(path)
    except Bad as why:
        return [str(why)]
    faults = []
    first = None
    for name, way in ways_of(row):
        fault, left = way()
        first = first or left
        if not fault and left and any(left[table] != first[table] for table in tables.TABLES):
            fault = "what is left isn't the same as in one piece"
        if fault:
            faults.append(f"{name}, over a database: {fault}")
    for way in WAYS if row.is_one_session() else []:
        fault = play_over_memory(row, way)
        if fault:
            faults.append(f"{way.__name__.replace('_', ' ')}, in memory: {fault}")
    return faults


def main():
    paths = sorted(ROWS.glob("*/*.row"))
    if len(sys.argv) > 1:
        paths = [path for path in paths if path.stem in sys.argv[1:]]
    failed = 0
    with ProcessPoolExecutor(max_workers=os.cpu_count()) as players:
        for path, faults in zip(paths, players.map(play, paths)):
            failed += bool(faults)
            for fault in faults:
                print(f"{path.relative_to(ROWS)}: {fault}")
    print(f"{len(paths) - failed} passed, {failed} failed")
    return 1 if failed or not paths else 0


if __name__ == "__main__":
    sys.exit(main())
