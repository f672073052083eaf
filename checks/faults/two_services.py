#!/usr/bin/env python3
"""Joins two stations as processes, breaks their connection, kills them at random moments, and tests what they promise each other.

    checks/faults/two_services.py [--seconds N | --minutes N] [--seed N]       default: 30 seconds, and another seed each time

Each station is the program over a database of its own. A round is a few commands of both operators (submit, release, refuse), some of which are
killed. Then comes a session, in which one station calls the other. All octets of a session pass through this script. It may break the connection
within a frame or after a number of octets, by an end, a reset or silence in one direction. It may kill either program by SIGKILL, after a time or
at a place in the octets. After each round stock sqlite3 reads both databases, which have to keep what two stations promise (`promised`). A file
that one has as handed over is whole and equal at the other. What it has as delivered or returned was answered so there. After a number of rounds
there are two sessions that nothing breaks. Then all files are delivered or returned.

Four pairs of stations run in parallel. In every other pair the services of one station run from the first life to the last. They are its
`listen`, which is never killed, and its `http`, which gets a request between two rounds; strangers call, too. Their memory and descriptors at the
end are compared with those at the beginning (checks/lib/staying.py).

The check goes on beyond its time until programs and commands were killed, connections broken and transfers continued. It goes on until all that
may happen to a session has happened to one (checks/lib/passage.py). It fails if another five minutes don't bring that. The seed is printed. It
repeats the choices, but not how far a program is when it is killed. After a failure the history of the pair is printed too, and its files are
kept. The last line is `N passed, M failed`.

Shows: pairs of stations as processes for 30 s (`--minutes N` for longer), with files and responses both ways. Connections are cut within a frame,
reset or silent, and either program and the operators' commands are killed by SIGKILL. After each session what either has as handed over is whole
and equal at the other, and what it has as answered was answered there. Once nothing breaks any more, all is answered. Services that stay have at
the end the memory and descriptors that they had at the beginning
"""

import argparse
import contextlib
import random
import socket
import subprocess
import sys
import tempfile
import time
from collections import Counter
from concurrent.futures import ThreadPoolExecutor
from pathlib import Path

sys.path.insert(0, str(Path(__file__).resolve().parents[1] / "lib"))

import killed
import tables
from joined import Session
from killed import Wrong
from pairs import STAMP, answered, book_of, local_form, promised, settings_of, taken_back
from passage import TROUBLES, Trouble, Usual
from staying import Services, held_port

PAIRS = 4
ROUNDS_OF_A_LIFE = 24
FILES = 10
LONG = 60
# What has to occur. If some of it hasn't when the time is up, lives of this many seconds follow, for at most this many in all.
SECONDS_MORE = 10
LONGEST = 300
WANTED = ["commands killed", "programs killed", "connections broken", "transfers that went on", *TROUBLES]


class Station(killed.Station):
    """A station from its first day on: its database, its book, and the partner's code. Also the rows of each submitted file, and its long-running
    services, if any."""

    def __init__(self, room, chance, name, book, partner, services=None):
        super().__init__(room, chance)
        self.begin_anew()
        self.name = name
        self.partner = partner
        self.services = services
        self.book.write_text(book)
        self.given = {}
        self.held = tables.read(self.database)

    def look(self):
        """Its tables now. Nothing that was answered is lost, and each file is as it was submitted."""
        before, self.held = self.held, tables.read(self.database)
        why = tables.unfit(self.held) or taken_back(before, self.held)
        if why:
            raise Wrong(f"{self.name}: {why}")
        for file in self.held["out_file"]:
            if tables.bodies(self.held, "out_file", file["no"]) != self.given[file["no"]]:
                raise Wrong(f"{self.name}: file {file['no']} isn't the one that was handed in")


# ---- the life of a pair


class Staying:
    """The long-running services of the supplier's station, in the folder of each life."""

    def __init__(self, room, chance, port):
        self.folder = Path(tempfile.mkdtemp(dir=room))
        self.settings = settings_of(chance)
        book = self.folder / "book.toml"
        book.write_text(book_of("supplier", self.settings, port))
        self.services = Services(self.folder, book)


class Pair:
    """Two stations from their first day on, and their history in words."""

    def __init__(self, room, chance, post, port, staying=None):
        self.chance = chance
        self.post = post
        self.port = port
        self.usual = Usual()
        self.room = Path(tempfile.mkdtemp(dir=room))
        self.count = Counter()
        self.told = []
        self.stations = [self.station("carmaker", "O0013SUPPLIER"), self.station("supplier", "O0177CARMAKER", staying)]

    def station(self, name, partner, staying=None):
        folder = self.room / name
        if staying:
            folder.symlink_to(staying.folder)
        else:
            folder.mkdir()
        settings = staying.settings if staying else settings_of(self.chance)
        self.told.append(f"{name}: {settings}")
        book = book_of(name, settings, self.post.getsockname()[1])
        return Station(folder, self.chance, name, book, partner, staying.services if staying else None)

    def give(self, station, wanted, *words):
        """An operator's command, which has to print this line. Unless it is refused it may be killed, and then it may print nothing."""
        if wanted.startswith("done") and self.chance.random() < 0.2:
            line, was_killed = station.until_killed(words[0], station.words(*words))
            self.count["commands killed"] += was_killed
        else:
            done = subprocess.run(station.words(*words), capture_output=True, check=False, timeout=LONG)
            line, was_killed = done.stdout + done.stderr, False
        self.told.append(f"{station.name}: {' '.join(map(str, words))}: {line.decode().strip()}{', killed' if was_killed else ''}")
        if line.decode() != f"{wanted}\n" and (line or not was_killed):
            raise Wrong(f"{station.name}: told {line!r}, not {wanted!r}")

    def submit(self, station):
        """A file is submitted, or one with the same identity again."""
        files = {file["dataset"]: file["no"] for file in tables.read(station.database)["out_file"]}
        is_again = bool(files) and self.chance.random() < 0.15
        if len(files) == FILES and not is_again:
            return
        number = self.chance.randint(1, len(files)) if is_again else len(files) + 1
        form = self.chance.choice("UUTFV")
        longest = 0 if form in "UT" else self.chance.choice([1, 80, 1200])
        octets, rows = local_form(self.chance, form, longest)
        path = station.room / "given"
        path.write_bytes(octets)
        if not is_again:
            station.given[number] = rows
        words = ["--dataset", f"FILE.{number}", *STAMP, "--to", station.partner, "--format", form]
        wanted = "refused: 1 duplicate" if is_again else f"done: submit {number}"
        self.give(station, wanted, "submit", *words, *(["--longest", str(longest)] if longest else []), path)

    def answer(self, station, number=None):
        """A received file is released or refused: a whole one, once."""
        held = tables.read(station.database)
        number = number or self.chance.randint(1, len(held["in_file"]) + 1)
        states = [file["state"] for file in held["in_file"] if file["no"] == number]
        is_due = states == ["whole"] and number not in [row["no"] for row in held["issued"]]
        words = ["release", str(number)]
        if self.chance.random() < 0.4:
            words = ["refuse", str(number), self.chance.choice(["01", "12", "99"]), self.chance.choice(["", "WRONG PLANT", "à revoir"])]
        wanted = f"done: {words[0]} {number}" if is_due else "refused: 3 state" if states else "refused: 2 unknown"
        self.give(station, wanted, *words)

    def session(self, caller, listener, troubles):
        service = listener.services.listen if listener.services else None
        port = service.port if service else self.port
        words = [caller.words("call", "--partner", caller.partner), listener.words("listen", "--port", str(port))]
        session = Session(self.post, port, words, troubles, service)
        self.told.append(f"{caller.name} calls {listener.name}; {', '.join(map(str, troubles)) or 'nothing breaks'}")
        try:
            lines = session.play()
        finally:
            said = session.said.words(session.sides)
            self.told += said
        self.told.append(f"    the caller: {lines[0]}, the listener: {lines[1]}")
        if not session.is_broken and sorted(lines) != ["end: own 00", "end: partner 00"]:
            raise Wrong("nothing broke, and the session has another end")
        if session.sides:
            self.usual.learn(time.monotonic() - session.begin, session.sides)
        self.count["programs killed"] += len(session.killed)
        self.count += session.befell
        self.count["transfers that went on"] += sum(": SFPA" in line and "'0'" not in line for line in said)
        self.count["files told as whole already"] += sum(": SFNA reason='13'" in line for line in said)
        self.count["connections broken"] += session.is_broken and not session.killed

    def look(self):
        """Reads both databases, and tests the promise in both directions."""
        for station in self.stations:
            station.look()
        one, other = self.stations
        for sender, receiver in ((one, other), (other, one)):
            why = promised(sender.held, receiver.held) or answered(sender.held, receiver.held)
            if why:
                raise Wrong(f"from {sender.name} to {receiver.name}: {why}")

    def round(self):
        for station in self.stations:
            for _ in range(self.chance.randint(0, 2)):
                self.chance.choice([self.submit, self.submit, self.answer])(station)
        caller, listener = self.chance.sample(self.stations, 2)
        troubles = [Trouble(self.chance, self.usual) for _ in range(self.chance.choice([0, 1, 1, 1, 1, 2]))]
        self.session(caller, listener, troubles)
        self.look()
        for station in self.stations:
            if station.services:
                station.services.meet(self.chance)
        self.count["rounds"] += 1

    def settle(self):
        """Nothing breaks any more: all waiting files are handed over, and answered."""
        one, other = self.stations
        self.session(one, other, [])
        self.look()
        for station in self.stations:
            for file in station.held["in_file"]:
                while file["no"] not in [row["no"] for row in tables.read(station.database)["issued"]]:
                    self.answer(station, file["no"])
        self.session(other, one, [])
        self.look()
        for station in self.stations:
            for file in station.held["out_file"]:
                if file["state"] not in ("delivered", "returned"):
                    raise Wrong(f"{station.name}: nothing breaks any more, and this isn't answered: {file}")
                self.count[file["state"]] += 1
            station.tables()
        self.count["rounds"] += 1


class Lives:
    """Lives of pairs, one after another: what they did, what their services held, and why some failed."""

    def __init__(self, room, chance, is_staying):
        self.room = room
        self.chance = chance
        self.is_staying = is_staying
        self.count = Counter()
        self.told = []
        self.whys = []

    def go_on(self, until):
        """At least one life, and more until the time is up."""
        with contextlib.ExitStack() as stack:
            post = stack.enter_context(socket.create_server(("127.0.0.1", 0)))
            port = stack.enter_context(held_port()).getsockname()[1]
            try:
                staying = Staying(self.room, self.chance, post.getsockname()[1]) if self.is_staying else None
            except Wrong as why:
                self.whys.append(f"before any life: {why}")
                return self
            services = stack.enter_context(staying.services) if staying else None
            while self.live(Pair(self.room, self.chance, post, port, staying), until) and time.monotonic() < until:
                pass
            if services and not self.whys:
                told, self.whys = services.settle()
                self.told += told
        return self

    def live(self, pair, until):
        """A life. It returns whether all went well."""
        try:
            for _ in range(ROUNDS_OF_A_LIFE):
                if time.monotonic() < until:
                    pair.round()
            pair.settle()
        except (Wrong, tables.Damaged, OSError, subprocess.SubprocessError) as why:
            told = "\n".join(pair.told)
            self.whys.append(f"{told}\n{type(why).__name__}: {why}; it is kept in {killed.keep(pair.room)}")
        self.count += pair.count
        return not self.whys


def live_side_by_side(lives, until, players):
    """Lives of pairs in parallel. It returns what all of them did so far, what their services held, and why some failed."""
    count, told, whys = Counter(), [], []
    for it in players.map(lambda it: it.go_on(until), lives):
        count += it.count
        told += it.told
        whys += it.whys
    return count, told, whys


def missing(count):
    """What has to occur and hasn't yet."""
    return [name for name in WANTED if not count[name]]


def main():
    parser = argparse.ArgumentParser(description=__doc__.splitlines()[0])
    parser.add_argument("--seconds", type=float, default=30)
    parser.add_argument("--minutes", type=lambda count: 60 * float(count), dest="seconds", default=argparse.SUPPRESS)
    parser.add_argument("--seed", type=int, default=random.SystemRandom().randrange(10**6))
    taken = parser.parse_args()
    print(f"seed {taken.seed}", flush=True)
    until = time.monotonic() + taken.seconds
    last = until + LONGEST
    with tempfile.TemporaryDirectory() as room, ThreadPoolExecutor(max_workers=PAIRS) as players:
        lives = [Lives(Path(room), random.Random(f"{taken.seed} {place}"), place % 2 == 1) for place in range(PAIRS)]
        count, told, faults = live_side_by_side(lives, until, players)
        while missing(count) and not faults and time.monotonic() < last:
            count, told, faults = live_side_by_side(lives, time.monotonic() + SECONDS_MORE, players)
    print("".join(f"{line}\n" for line in faults + told), end="")
    rounds = count.pop("rounds", 0)
    print(", ".join(f"{number} {name}" for name, number in sorted(count.items())))
    faults += [f"no {name}" for name in missing(count)]
    print("".join(f"no {name}, in {rounds} rounds\n" for name in missing(count)), end="")
    print(f"{rounds} passed, {len(faults)} failed")
    return 1 if faults or not rounds else 0


if __name__ == "__main__":
    sys.exit(main())
