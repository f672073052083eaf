#!/usr/bin/env python3
"""Joins two stations, each the program over a database of its own, and breaks their connection.

    checks/faults/two_stations.py [--every N]              the connection breaks after each Nth octet in turn (default: 29)
    checks/faults/two_stations.py --stops [--every N]      the supplier is killed at each Nth of its calls on its database instead
    checks/faults/two_stations.py --residents ..           the same, where both stations are `run`, which is asked to call

The car maker has a file of 2,500 octets for the supplier. In one round the car maker begins a session. Then the supplier's operator releases the
file, if it is there, and the supplier begins a session. In the first round the connection breaks after a number of octets, in either direction. Or
one of the supplier's three programs is killed before it writes, syncs or truncates a file of its database. With `run` these are one program, from
its opening on. The second round isn't broken. Then the file is delivered at the car maker and whole at the supplier. There is one response for it
at either side, whatever broke. `--stops` needs a C compiler. The last line is `N passed, M failed`.

Shows: two programs whose connection breaks after one octet in 29 (`--every 1` for each). Where there is a C compiler, one of them is killed at
each call on its database (`--stops`). After a second round the file is delivered, whole and answered once. With `--residents` each is `run` and is
asked to call
"""

import argparse
import contextlib
import os
import select
import shutil
import socket
import subprocess
import sys
import tempfile
from concurrent.futures import ThreadPoolExecutor
from pathlib import Path
from typing import NamedTuple

sys.path.insert(0, str(Path(__file__).resolve().parents[1] / "lib"))

import tables
from pairs import book_of
from passage import Passage
from program import PROGRAM, ROOT
from row_files import content
from services import LONG, Wrong
from shims import compile_library, stopping
from staying import held_port

FILE = content(0, 2500)
# How a call may end, by its status and its line.
WHOLE = [(0, "end: own 00"), (0, "end: partner 00")]
BROKEN = [*WHOLE, (0, "end: input"), (1, "fault: 1 read"), (1, "fault: 2 write"), (1, "fault: 8 socket"), (1, "fault: 3 office")]
IDENTITY = ["--dataset", "ASN.0001", "--date", "20240131", "--time", "1015300001"]


class Stop:
    """Where a station is stopped: at this call of this one of its programs, counted from 1. The file `reached` is made then."""

    def __init__(self, library, program, call):
        self.library = library
        self.program = program
        self.call = call
        self.reached = None


class Station:
    """A station: its database, its book, the other's code, and where it is stopped. Each session and each command is a program of its
    own."""

    # How many of its programs can be stopped.
    stopped = 3

    def __init__(self, room, name, other, stop=None):
        self.database = room / name
        self.book = ROOT / "examples" / name / "book.toml"
        self.other = other
        self.stop = stop
        self.programs = 0

    def environment(self):
        """The environment of its next program."""
        self.programs += 1
        if self.stop is None or self.stop.program != self.programs:
            return None
        return {**os.environ, **stopping("kill", self.stop.call, self.stop.library, self.stop.reached)}

    def is_stopped(self):
        return self.stop is not None and self.stop.reached.exists()

    def give(self, command, *rest):
        words = [PROGRAM, command, "--db", self.database, "--book", self.book, *rest]
        return subprocess.run(words, capture_output=True, check=False, timeout=60, env=self.environment())

    def begin(self):
        """Starts it, if it isn't a program for one session."""

    def end_of_stop(self):
        """Its program, which was stopped, has ended."""

    def end(self):
        """Ends it."""

    def meet(self, called, octets):
        """A session with the other station, which breaks after this many octets, if a number is given. It returns how many passed."""
        return join(self, called, octets)

    def begin_session(self, is_caller, given, answer):
        role = ["--role", "initiator", "--partner", self.other] if is_caller else []
        words = [PROGRAM, "feed", "--db", self.database, "--book", self.book, *role, f"/dev/fd/{given}", f"/dev/fd/{answer}"]
        pipes = {"stdout": subprocess.PIPE, "stderr": subprocess.PIPE}
        return subprocess.Popen(words, pass_fds=[given, answer], env=self.environment(), **pipes)


class Resident(Station):
    """A station as `run`: one program, which commands ask. It calls the other station through this script."""

    stopped = 1

    def __init__(self, room, name, other, stop=None):
        super().__init__(room, name, other, stop)
        self.post = socket.create_server(("127.0.0.1", 0))
        self.book = room / f"{name}.toml"
        self.book.write_text(book_of(name, {}, self.post.getsockname()[1]))
        self.holder = held_port()
        self.port = self.holder.getsockname()[1]
        self.run = None

    def begin(self):
        if self.run and self.run.poll() is None:
            return
        words = [PROGRAM, "run", "--db", self.database, "--book", self.book, "--port", str(self.port)]
        self.run = subprocess.Popen(words, stdout=subprocess.PIPE, stderr=subprocess.PIPE, env=self.environment())
        ready, _, _ = select.select([self.run.stdout], [], [], LONG)
        if (not ready or self.run.stdout.readline() != b"ready\n") and not self.is_stopped():
            raise Wrong(f"{self.database.name} doesn't start")

    def end_of_stop(self):
        self.run.wait(LONG)

    def end(self):
        if self.run:
            self.run.kill()
            self.run.communicate()
        self.post.close()
        self.holder.close()

    def meet(self, called, octets):
        words = [PROGRAM, "call", "--db", self.database, "--book", self.book, "--partner", self.other]
        passage = Counted(octets)
        with subprocess.Popen(words, stdout=subprocess.PIPE, stderr=subprocess.PIPE) as command:
            try:
                passage.carry(self.awaited(command), called.port)
                out, err = command.communicate(timeout=LONG)
            finally:
                command.kill()
        is_broken = self.is_stopped() or called.is_stopped() or passage.is_broken
        ended = (command.returncode, (out + err).decode().strip())
        if ended not in (BROKEN if is_broken else WHOLE):
            raise Wrong(f"a call ended by {ended}")
        return passage.passed

    def awaited(self, command):
        """The connection of the call that a command asks for, or None if the command ends without one."""
        while command.poll() is None:
            ready, _, _ = select.select([self.post], [], [], 0.01)
            if ready:
                return self.post.accept()[0]
        return None


class Counted(Passage):
    """A connection that breaks after this many octets, in either direction, if a number is given."""

    def __init__(self, most):
        super().__init__([])
        self.most = most
        self.passed = 0

    def carry(self, end, port):
        """Joins this connection, if there is one, with one to the station that is called, and passes on the octets of both."""
        if end is None:
            return
        try:
            other = socket.create_connection(("127.0.0.1", port))
        except ConnectionRefusedError:
            end.close()  # the station was stopped
            return
        self.join(end, other)
        self.pass_all()

    def pass_on(self, side):
        if not self.is_open:
            return
        piece, before = side.hear(), side.passed
        most = len(side.octets) if self.most is None else before + self.most - self.passed
        side.say(min(len(side.octets), most))
        self.passed += side.passed - before
        if self.passed == self.most:
            self.is_broken = True
            self.hang_up()
        elif not piece:
            side.fall_silent()
            self.open.remove(side)
            self.is_open = bool(self.open)


def join(caller, called, octets):
    """A session of two stations. It breaks after this many octets, if a number is given. It returns how many passed."""
    programs, sources, sinks = [], [], []
    for station, is_caller in ((caller, True), (called, False)):
        given, sink = os.pipe()
        source, answer = os.pipe()
        programs.append(station.begin_session(is_caller, given, answer))
        os.close(given)
        os.close(answer)
        sources.append(source)
        sinks.append(sink)
    try:
        passed = pass_on({sources[0]: sinks[1], sources[1]: sinks[0]}, octets)
        told = [program.communicate(timeout=60) for program in programs]
    finally:
        for program in programs:
            program.kill()
    was_stopped = caller.is_stopped() or called.is_stopped()
    is_broken = was_stopped or (octets is not None and passed == octets)
    for program, (out, err) in zip(programs, told):
        is_killed = was_stopped and program.returncode == -9
        if program.returncode != 0 and not is_killed and not (is_broken and err == b"fault: 2 write\n"):
            raise Wrong(f"a session ended by status {program.returncode}, {out!r}, {err!r}")
    return passed


def pass_on(ends, octets):
    """Passes octets on from each source to its sink, until the sources end, or this many have passed. It closes all."""
    passed = 0
    while ends and passed != octets:
        ready, _, _ = select.select(list(ends), [], [], 60)
        if not ready:
            raise Wrong("nothing passes any more")
        piece = os.read(ready[0], 4096 if octets is None else min(octets - passed, 4096))
        try:
            os.write(ends[ready[0]], piece)
        except BrokenPipeError:
            piece = b""  # the session has ended on that side
        passed += len(piece)
        if not piece:
            os.close(ends.pop(ready[0]))
            os.close(ready[0])
    for source, sink in ends.items():
        os.close(source)
        os.close(sink)
    return passed


def play_round(car_maker, supplier, octets):
    """One round, which breaks after this many octets, if a number is given. It returns how many passed."""
    car_maker.begin()
    supplier.begin()
    passed = car_maker.meet(supplier, octets)
    supplier.give("release", "1")
    if octets is None or passed == octets:
        return passed + supplier.meet(car_maker, None)
    return passed + supplier.meet(car_maker, octets - passed)


class Setting(NamedTuple):
    """What each case begins with: a folder, the car maker's database with its file, and the kind of the stations."""

    room: Path
    first: Path
    kind: type

    def play(self, octets, stop=None):
        """Both rounds, over databases of their own, and what is left afterwards. It returns how many octets passed in the first."""
        with tempfile.TemporaryDirectory(dir=self.room) as path, contextlib.ExitStack() as stack:
            folder = Path(path)
            for end in ("", "-wal"):
                if Path(f"{self.first}{end}").exists():
                    shutil.copyfile(f"{self.first}{end}", folder / f"carmaker{end}")
            car_maker = self.kind(folder, "carmaker", "O0013SUPPLIER")
            stack.callback(car_maker.end)
            if stop is not None:
                stop.reached = folder / "reached"
            supplier = self.kind(folder, "supplier", "O0177CARMAKER", stop)
            stack.callback(supplier.end)
            passed = play_round(car_maker, supplier, octets)
            if stop is not None:
                if not supplier.is_stopped():
                    return None
                supplier.end_of_stop()
            supplier.stop = None
            if octets is not None or stop is not None:
                play_round(car_maker, supplier, None)
            check(tables.read(car_maker.database), tables.read(supplier.database))
            return passed


def check(at_car_maker, at_supplier):
    """The file is delivered, whole, and answered once."""
    for name, found in (("the car maker", at_car_maker), ("the supplier", at_supplier)):
        why = tables.unfit(found)
        if why:
            raise Wrong(f"{name}: {why}")
    if [(file["state"], file["reason"]) for file in at_car_maker["out_file"]] != [("delivered", "")]:
        raise Wrong(f"the file isn't delivered: {at_car_maker['out_file']}")
    bodies = tables.bodies(at_supplier, "in_file", 1)
    if [file["state"] for file in at_supplier["in_file"]] != ["whole"] or [len(body) for body in bodies] != [1024, 1024, 452]:
        raise Wrong(f"the file isn't whole: {at_supplier['in_file']}, {len(bodies)} rows")
    if b"".join(bodies) != FILE:
        raise Wrong("the file that came isn't the one that was sent")
    if [(row["no"], row["kind"], row["sent"]) for row in at_supplier["issued"]] != [(1, "EERP", 1)] or at_supplier["received"]:
        raise Wrong(f"the supplier's responses: {at_supplier['issued']}, {at_supplier['received']}")
    if [(row["no"], row["kind"]) for row in at_car_maker["received"]] != [(1, "EERP")] or at_car_maker["issued"]:
        raise Wrong(f"the car maker's responses: {at_car_maker['received']}, {at_car_maker['issued']}")


def told(setting, octets):
    """Why a case failed, or None."""
    try:
        setting.play(octets)
    except (Wrong, OSError, tables.Damaged, subprocess.SubprocessError) as why:
        return f"broken after {octets} octets: {why}"
    return None


def told_of_stop(setting, stop):
    """Whether there is such a call, and why the case failed, or None."""
    try:
        return setting.play(None, stop) is not None, None
    except (Wrong, OSError, tables.Damaged, subprocess.SubprocessError) as why:
        return True, f"program {stop.program} of the supplier, killed at call {stop.call}: {why}"


def break_each(setting, whole, every, players):
    """Breaks the connection after each of these octets. It returns how many cases there are, and why some failed."""
    places = range(1, whole, every)
    return len(places), [why for why in players.map(lambda octets: told(setting, octets), places) if why]


def stop_each(setting, every, players):
    """Kills each program of the supplier at each of these calls. It returns how many cases there are, and why some failed."""
    library = compile_library(setting.room, "stop_calls")
    cases, faults = 0, []
    for program in range(1, setting.kind.stopped + 1):
        at, is_there = 1, True
        while is_there:
            calls = range(at, at + 16 * every, every)
            tried = list(players.map(lambda call: told_of_stop(setting, Stop(library, program, call)), calls))
            reached = [why for was_reached, why in tried if was_reached]
            cases, faults = cases + len(reached), faults + [why for why in reached if why]
            at, is_there = at + 16 * every, len(reached) == len(calls)
        if at == 1 + 16 * every and not reached:
            cases, faults = cases + 1, [*faults, f"program {program} of the supplier: no call of it is stopped"]
        print(f"program {program} of the supplier: {cases} stops so far", flush=True)
    return cases, faults


def main():
    parser = argparse.ArgumentParser(description=__doc__.splitlines()[0])
    parser.add_argument("--every", type=int, default=29)
    parser.add_argument("--stops", action="store_true")
    parser.add_argument("--residents", action="store_true")
    given = parser.parse_args()
    with tempfile.TemporaryDirectory() as path:
        room = Path(path)
        first = room / "carmaker"
        (room / "file").write_bytes(FILE)
        done = Station(room, "carmaker", "O0013SUPPLIER").give("submit", *IDENTITY, "--to", "O0013SUPPLIER", "--format", "U", room / "file")
        if done.stdout != b"done: submit 1\n":
            raise SystemExit(f"the file isn't submitted: {done}")
        setting = Setting(room, first, Resident if given.residents else Station)
        whole = setting.play(None)
        print(f"{whole} octets pass in a round that doesn't break")
        with ThreadPoolExecutor(max_workers=os.cpu_count()) as players:
            if given.stops:
                cases, faults = stop_each(setting, given.every, players)
            else:
                cases, faults = break_each(setting, whole, given.every, players)
    print("".join(f"{why}\n" for why in faults), end="")
    print(f"{cases + 1 - len(faults)} passed, {len(faults)} failed")
    return 1 if faults else 0


if __name__ == "__main__":
    sys.exit(main())
