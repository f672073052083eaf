#!/usr/bin/env python3
"""Ends the input of a session, or lets its reader or its writer fail, at one octet after another.

    checks/faults/ports_fail.py [--every N]      at each Nth octet (default: 97), and before and after the end of each frame

The sessions are those of some rows, in memory if a row begins with one, and over the database that the acts before them leave. Each time the line,
the octets out and the tables have to be those of the model of a station (checks/lib/model.py). They have everything that the octets received or sent
answer, and what the piece asked for whose answers were about to be written. Then the partner goes on. A file that it sent is offered again, continues
from the Restart position that the station answers, and is fetched whole. Or it is refused by SFNA 13 because it is whole already. Otherwise the
session is held once more. Reads and writes of one octet change nothing. It needs a C compiler. The last line is `N passed, M failed`.

Shows: where there is a C compiler: eight rows whose input ends, or whose reader or writer fails, and which then go on. This is at about the end of
each frame and at each 97th octet (`--every 1` for each octet)
"""

import argparse
import copy
import itertools
import os
import subprocess
import sys
import tempfile
from concurrent.futures import ThreadPoolExecutor
from pathlib import Path

sys.path.insert(0, str(Path(__file__).resolve().parents[1] / "lib"))

import acts
import goes_on
import model
import oftp
import tables
from goes_on import Wrong
from row_files import ROWS, Row, Session, content
from shims import compile_library

# Rows whose sessions are broken, and the octets of the file that the partner sends in them, if any.
BROKEN = {
    "receiving/empty_file": b"",
    "taken_up/broken_and_taken_up": content(0, 2500),
    "receiving/wrong_count": None,
    "listening/repeated_end_response": None,
    "taken_up/direction_asked_for": None,
    "sending/three_octets_out": None,
    "sending/broken_on_the_way": None,
    "sending/refusal_goes_out": None,
}


class Broken:
    """A session of a row, with its folder and its octets out when nothing breaks."""

    def __init__(self, act, base, is_in_memory, file):
        self.act = act
        self.base = base
        self.overs = [True, False] if is_in_memory else [True]
        self.file = file
        self.octets = act.joined("in")
        self.whole = act.joined("out")
        found = tables.read(base / "database") if (base / "database").exists() else model.Register().tables()
        self.register = goes_on.register_of(found)

    def ways(self, every):
        """Each way in which it is broken: its name, the number of octets, and the environment."""
        for place in places(self.octets, every):
            yield "cut", place
            yield "read", place
        for place in places(self.whole, every):
            yield "write", place
        yield "nothing", len(self.whole) // 2
        yield "piece", 1

    def play(self, how, place, library):
        for is_over_database in self.overs:
            with tempfile.TemporaryDirectory() as path:
                room = Path(path).resolve()
                for file in self.base.iterdir():
                    (room / file.name).write_bytes(file.read_bytes())
                self.play_in(room, how, place, library, is_over_database)

    def play_in(self, room, how, place, library, is_over_database):
        given, answer = room / "given", room / "answer"
        given.write_bytes(self.octets[:place] if how == "cut" else self.octets)
        answer.write_bytes(b"")
        session = goes_on.session_of(self.act, copy.deepcopy(self.register))
        line = model.play(session, self.octets[:place] if how in ("cut", "read") else self.octets)
        out, fault, left = b"".join(session.out), "", session.register.tables()
        set_to = {"LD_PRELOAD": str(library), "READ_FILE": str(given), "WRITE_FILE": str(answer)}
        if how == "read":
            set_to["READ_MOST"] = str(place)
            fault = "fault: 1 read\n" if line == "end: input\n" else ""
        elif how in ("write", "nothing"):
            set_to["WRITE_MOST"] = str(place)
            set_to |= {"WRITE_NOTHING": "1"} if how == "nothing" else {}
            fault = "fault: 2 write\n"
            left = next(there for until, there in goes_on.after_pieces(self.act, self.register) if until > place)
            out = out[:place]
        elif how == "piece":
            set_to["PORT_PIECE"] = "1"
        words = acts.words_of(self.act, room / "database" if is_over_database else None, given, answer)
        done = subprocess.run(words, capture_output=True, env={**os.environ, **set_to}, check=False, timeout=60)
        wanted = ("", fault, 1) if fault else (line, "", 0)
        if (done.stdout.decode(), done.stderr.decode(), done.returncode) != wanted:
            raise Wrong(f"it tells {done.stdout!r}, {done.stderr!r}, status {done.returncode}, and not {wanted}")
        if answer.read_bytes() != out:
            raise Wrong(f"{len(answer.read_bytes())} octets are out, and not {len(out)}, or other ones")
        if is_over_database:
            goes_on.compare(room, left)
            goes_on.go_on(self.act, room, left, self.file)


def places(octets, every):
    """Each Nth octet, and those around the ends of frames."""
    ends = list(itertools.accumulate(len(frame) for frame in oftp.frames_of(octets)))
    near = {end + step for end in ends for step in (-1, 0, 1, 2)}
    return sorted(place for place in near | {*range(0, len(octets), every)} if place < len(octets))


def sessions_of(name, file, room):
    """Each session of a row, with the folder as the acts before it left it."""
    row = Row(ROWS / f"{name}.row")
    now = room / name.replace("/", "_")
    now.mkdir()
    for number, act in enumerate(row.acts):
        if isinstance(act, Session):
            base = room / f"{now.name}_{number}"
            base.mkdir()
            for path in now.iterdir():
                (base / path.name).write_bytes(path.read_bytes())
            yield Broken(act, base, number == 0, file)
        why = acts.play_act(acts.in_one_piece, act, now, now / "database")
        if why:
            raise SystemExit(f"{name} goes otherwise: {why}")


def told(broken, how, place, library):
    """Why a case failed, or None."""
    try:
        broken.play(how, place, library)
    except (Wrong, tables.Damaged, OSError, subprocess.SubprocessError) as why:
        return f"{how} at {place}: {why}"
    return None


def main():
    parser = argparse.ArgumentParser(description=__doc__.splitlines()[0])
    parser.add_argument("--every", type=int, default=97)
    every = parser.parse_args().every
    passed, failed = 0, 0
    if Path("/dev/shm").is_dir():
        tempfile.tempdir = "/dev/shm"
    with tempfile.TemporaryDirectory() as path, ThreadPoolExecutor(max_workers=os.cpu_count()) as players:
        library = compile_library(Path(path), "fail_ports")
        for name, file in BROKEN.items():
            cases = [(broken, *way) for broken in sessions_of(name, file, Path(path)) for way in broken.ways(every)]
            faults = [why for why in players.map(lambda case: told(*case, library), cases) if why]
            print("".join(f"{name}: {why}\n" for why in faults[:5]), end="")
            print(f"{name}: broken in {len(cases)} ways", flush=True)
            failed += len(faults)
            passed += len(cases) - len(faults)
    print(f"{passed} passed, {failed} failed")
    return 1 if failed else 0


if __name__ == "__main__":
    sys.exit(main())
