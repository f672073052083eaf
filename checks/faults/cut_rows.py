#!/usr/bin/env python3
"""Cuts the sessions of the rows off, each at one octet after another, within a life of `run`.

    checks/faults/cut_rows.py [--every N] [ROW ..]    at each Nth octet (default: 251), and at, before and behind the end of each frame

        ROW ..    these rows by their names (default: all that a station can play)

The partner of a session is gone after a number of octets. It says no more and hears the rest, it closes the connection, or resets it. What it
heard, the station's line and the tables have to be those of the model of a station (checks/lib/model.py). Then it holds the whole session with the
same station again, which goes as in the model. If this leaves what the row has at this place, the rest of the row follows, and ends as the row
says. Where several rows begin alike, what they share is cut once. In sessions of more than 20,000 octets N is 50 times as much. The last line is `N
passed, M failed`.

Shows: the sessions of the rows, in lives of `run`, end after one octet after another. These are around the end of each frame, and each 251st
(`--every 1` for each). The partner says no more, closes or resets. What it heard and what is left is the model's. Then the same station hears the
whole session, and ends as the row does if what is left allows it
"""

import argparse
import functools
import itertools
import os
import shutil
import subprocess
import sys
import tempfile
from concurrent.futures import ProcessPoolExecutor
from pathlib import Path
from typing import NamedTuple

sys.path.insert(0, str(Path(__file__).resolve().parents[1] / "lib"))

import acts
import oftp
import tables
from lives import CUTS, Life, is_lived
from row_files import ROWS, Row, Session, Statement
from services import Wrong

# Sessions of more octets than this are cut at fewer places.
LONG, LESS = 20_000, 50


class Case(NamedTuple):
    """A cut: the row, the number of the act, and the folders before the act and behind it. Also the number of octets, and how the partner is
    gone."""

    path: Path
    number: int
    before: Path
    behind: Path
    place: int
    how: str


@functools.lru_cache(maxsize=4)
def row_at(path):
    return Row(path)


@functools.lru_cache(maxsize=4)
def tables_of(folder):
    return tables.read(folder / "database")


def places(octets, every):
    """Each Nth octet, and those around the ends of frames."""
    ends = [0, *itertools.accumulate(len(frame) for frame in oftp.frames_of(octets))]
    near = {end + step for end in ends for step in (-1, 0, 1)}
    return sorted(place for place in near | {*range(0, len(octets), every)} if 0 <= place < len(octets))


def folders_of(row, room):
    """The folder before each act, and that behind the last one."""
    now = room / "now"
    now.mkdir(parents=True)
    for number, act in enumerate(row.acts):
        yield shutil.copytree(now, room / str(number))
        why = acts.play_act(acts.in_one_piece, act, now, now / "database")
        if why:
            raise SystemExit(f"{row.name} goes otherwise: {why}")
    yield now


def cases_of(path, room, every, known):
    """Each cut of a row, but for those that are known: of the same octets, by the same book, over the same tables."""
    row = row_at(path)
    if not is_lived(row) or any(isinstance(act, Statement) for act in row.acts):
        return
    folders = list(folders_of(row, room / path.stem))
    for number, act in enumerate(row.acts):
        octets = act.joined("in") if isinstance(act, Session) else b""
        begun = repr(tables.read(folders[number] / "database"))
        for place in places(octets, every * LESS if len(octets) > LONG else every):
            key = hash((begun, act.book, *act.role, octets[:place]))
            if key not in known:
                known.add(key)
                yield Case(path, number, folders[number], folders[number + 1], place, CUTS[len(known) % len(CUTS)])


def play(case):
    """Plays a case. It returns why it fails, or None, and whether the rest of the row followed."""
    row = row_at(case.path)
    act = row.acts[case.number]
    with tempfile.TemporaryDirectory() as path:
        room = Path(shutil.copytree(case.before, path, dirs_exist_ok=True))
        with Life(room) as life:
            life.serve(act.book)
            why = life.cut(act, case.place, case.how)
            if why:
                return why, False
            why = life.cut(act, len(act.joined("in")), "ends")
            if why:
                return f"held again: {why}", False
            found, wanted = tables.read(life.database), tables_of(case.behind)
            if any(found[table] != wanted[table] for table in tables.TABLES):
                return None, False
            return go_on(row, case.number + 1, life), True


def go_on(row, first, life):
    """The rest of the row follows. It returns why it differs, or None."""
    for number, act in enumerate(row.acts[first:], first + 1):
        why = life.play(act, lambda session: life.hold(session, len(session.joined("in")) or 1, looks=False))
        if why:
            return f"then act {number}: {why}"
    life.end()
    left = tables.read(life.database)
    return tables.unfit(left) or acts.check_left(row, left)


def told(case):
    """Why a case failed, or None, and whether the rest of the row followed."""
    try:
        why, is_row = play(case)
    except (Wrong, tables.Damaged, OSError, subprocess.SubprocessError) as fault:
        why, is_row = repr(fault), False
    return why and f"{case.path.relative_to(ROWS)}, act {case.number + 1}, {case.how} after {case.place} octets: {why}", is_row


def main():
    parser = argparse.ArgumentParser(description=__doc__.splitlines()[0])
    parser.add_argument("--every", type=int, default=251)
    parser.add_argument("rows", nargs="*", metavar="ROW")
    given = parser.parse_args()
    paths = [path for path in sorted(ROWS.glob("*/*.row")) if not given.rows or path.stem in given.rows]
    if Path("/dev/shm").is_dir():
        tempfile.tempdir = "/dev/shm"
    known, faults, ended = set(), [], 0
    with tempfile.TemporaryDirectory() as room, ProcessPoolExecutor(max_workers=os.cpu_count()) as players:
        cases = [case for path in paths for case in cases_of(path, Path(room), given.every, known)]
        for why, is_row in players.map(told, cases, chunksize=8):
            faults += [why] if why else []
            ended += is_row
    print("".join(f"{why}\n" for why in faults[:20]), end="")
    print(f"{len(cases)} cuts, behind {ended} of which the row went on to its end")
    print(f"{len(cases) - len(faults)} passed, {len(faults)} failed")
    return 1 if faults or not ended else 0


if __name__ == "__main__":
    sys.exit(main())
