#!/usr/bin/env python3
"""Measures what a record costs: beside a station without one, beside `feed`, and as it is read.

    checks/speed/recorded.py [--assert]

Three stations receive 8 MiB in large windows by turns: without a record, with one, and with one that isn't synced. The least time of each counts.
With a record a session may take 1.3 times as long on the clock, and 1.1 times without syncs. `replay` of such a session may take the processor no
longer than `feed` of its octets, with a record and without one, each over a new database. A record that is read to its end may take a processor 10 s for 1 GB. That is what `audit`
takes against it, without what it takes against a record of four entries. Over a register of 100 MiB
a mark may take a tenth of what the record adds to the start: by a clock that passes an hour in a second, five marks are made. With `--assert` it fails
if something takes longer than it may. The last line is `N passed, M failed`.

Shows: what a record adds to a session of 8 MiB, synced and not; what `replay` takes beside `feed`, which records or not; what reading a record takes;
what it adds to a start over 100 MiB, and what a mark takes then. It fails where that is more than 1.3 and 1.1 times, longer than `feed`, more than 10 s
of a processor for 1 GB, or for a mark more than a tenth of what it adds
"""

import argparse
import contextlib
import shutil
import subprocess
import sys
import tempfile
import time
from pathlib import Path

sys.path.insert(0, str(Path(__file__).resolve().parents[1] / "lib"))

from filled import BLOCK, MEBI, fill_large, settle
from holding import Holding, spoken
from measured import by_processor, run, run_quietly
from one_file import BOOK, FILE, data_frames, frame_of
from program import PROGRAM
from shims import compile_library

SIZE, BUFFER = 8 * MEBI, 16384
OFTEN, ROUNDS = 7, 4
# The random error of the clock, in seconds.
OFF = 0.0002
WORDS = {"without a record": [], "with a record": ["--record"], "without syncs": ["--record-sync", "no", "--record"]}
MOST = {"with a record": 1.3, "without syncs": 1.1}


def file_of(name, size=SIZE):
    """The frames with which a file is sent to the station."""
    offer = frame_of("SFID", size=str(size // BLOCK), **{**FILE, "dataset": name})
    return [offer, *data_frames(size, BUFFER), frame_of("EFID", records="0", units=str(size))]


class Room:
    """A folder with a book, an empty database, and stations that keep records or none."""

    def __init__(self, path):
        self.path = path
        self.book, self.empty = path / "book.toml", path / "empty"
        self.book.write_text(BOOK.format(buffer=BUFFER, credit=99))
        run_quietly([PROGRAM, "init", "--db", self.empty])

    def station(self, name, database=None, **how):
        folder = self.path / name
        (folder / "record").mkdir(parents=True)
        words = WORDS[name] + ([folder / "record"] if WORDS[name] else [])
        return Holding(folder, database or self.empty, self.book, *words, **how)

    def again(self, name):
        """A new database."""
        path = self.path / name
        for end in ("", "-wal"):
            Path(f"{path}{end}").unlink(missing_ok=True)
        shutil.copyfile(self.empty, path)
        return path


def clocked(station, frames):
    begin = time.perf_counter()
    station.session(*frames)
    return time.perf_counter() - begin


def sessions(room):
    """Whether sessions with a record take no longer than they may."""
    with contextlib.ExitStack() as stack:
        stations = {name: stack.enter_context(room.station(name)) for name in WORDS}
        least, turn = {}, 0
        while turn < OFTEN or (turn < OFTEN * ROUNDS and not are_held(least)):
            frames = file_of(f"IN.{turn}")
            for name, station in stations.items():
                least[name] = min(least.get(name, 999), clocked(station, frames))
            turn += 1
    for name, most in MOST.items():
        first, second = least["without a record"], least[name]
        line = f"  8 MiB come in: {first * 1000:.1f} ms without a record, {second * 1000:.1f} ms {name}, {second / first:.2f} times"
        print(line if is_held(least, name) else f"{line}: TOO MUCH, it may be {most} times", flush=True)
    return [is_held(least, name) for name in MOST]


def is_held(least, name):
    return least[name] <= MOST[name] * least["without a record"] + OFF


def are_held(least):
    return all(is_held(least, name) for name in MOST)


def short_record(room, database):
    """A record of four entries, with the register that a database has."""
    record = room.path / "short"
    record.mkdir()
    # It is refused, and changes nothing.
    words = [PROGRAM, "release", "--db", database, "--book", room.book, "--record", record, "99"]
    subprocess.run(words, stdout=subprocess.DEVNULL, check=False)
    return record


def audited(database, record):
    """The seconds of a processor that an audit of a database against a record takes."""
    return by_processor([run([PROGRAM, "audit", "--db", database, "--record", record]) for _ in range(3)]).processor


def replays(room):
    """Whether a record is replayed as fast as its octets are fed, and read as fast as it may be."""
    name = "with a record"
    shutil.rmtree(room.path / name)
    with room.station(name) as station:
        station.session(*file_of("IN", 64 * MEBI))
        run_quietly([PROGRAM, "stop", "--db", station.database])
        station.program.wait()
    record, heard = station.database.parent / "record", room.path / "heard"
    heard.write_bytes(spoken(*file_of("IN", 64 * MEBI)))
    of_book, own = ["--book", room.book], room.path / "own"
    replayed, fed, recorded = [], [], []
    for _ in range(3):
        shutil.rmtree(own, ignore_errors=True)
        own.mkdir()
        replayed.append(run([PROGRAM, "replay", "--record", record, "--db", room.again("again"), *of_book]))
        fed.append(run([PROGRAM, "feed", "--db", room.again("fed"), *of_book, heard, room.path / "said"]))
        recorded.append(run([PROGRAM, "feed", "--db", room.again("fed"), *of_book, "--record", own, heard, room.path / "said"]))
    replayed, fed, recorded = (by_processor(runs).processor for runs in (replayed, fed, recorded))
    short = short_record(room, station.database)
    read = audited(station.database, record) - audited(station.database, short)
    size = sum(file.stat().st_size for file in record.iterdir())
    per_gigabyte = read / size * 1e9
    told = [
        (f"a session of 64 MiB: {fed:.2f} s by `feed`, {replayed:.2f} s by `replay`, {replayed / fed:.2f} times", replayed <= fed + OFF),
        (f"it is recorded in {recorded:.2f} s by `feed`, and replayed in {replayed / recorded:.2f} times that", replayed <= recorded + OFF),
        (f"a record of {size / 1e6:.0f} MB is read in {read:.2f} s, {per_gigabyte:.1f} s for 1 GB", 0 < per_gigabyte <= 10),
    ]
    for line, is_well in told:
        print(f"  {line}{'' if is_well else ': TOO MUCH'}", flush=True)
    return [is_well for _, is_well in told]


def marks(room):
    """Whether a mark of a register of 100 MiB takes no longer than it may."""
    settle(room.empty)
    large = fill_large(room.empty, room.path / "large", 100)
    hours = {"LD_PRELOAD": str(compile_library(room.path, "fast_clock")), "CLOCK_RATE": "3600"}
    begun = {}
    for name in ("without a record", "with a record"):
        shutil.rmtree(room.path / name, ignore_errors=True)
        with room.station(name, large, environment=hours) as station:
            begun[name] = station.taken()
            time.sleep(5.5)
            mark = (station.taken() - begun[name]) / 5
    first, second = begun.values()
    is_well = mark <= (second - first) / 10
    line = f"  a start over 100 MiB takes {first:.2f} s, {second:.2f} s with a record, and a mark then {mark:.3f} s"
    print(f"{line}{'' if is_well else ': TOO MUCH'}", flush=True)
    return [is_well]


def main():
    parser = argparse.ArgumentParser(description=__doc__.splitlines()[0])
    parser.add_argument("--assert", action="store_true", dest="is_asserted")
    taken = parser.parse_args()
    with tempfile.TemporaryDirectory() as path:
        room = Room(Path(path))
        done = sessions(room) + replays(room) + marks(room)
    failed = done.count(False)
    print(f"{len(done) - failed} passed, {failed} failed")
    return 1 if taken.is_asserted and failed else 0


if __name__ == "__main__":
    sys.exit(main())
