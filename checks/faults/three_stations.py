#!/usr/bin/env python3
"""Lets three stations exchange files, each with both others and with a fourth partner that misbehaves, and tests what each two promise.

    checks/faults/three_stations.py [--seconds N | --minutes N] [--seed N]       default: 30 seconds, and another seed each time

A supplier and two car makers are the program, each over a database of its own. The fourth partner is in each book, and is this script. A round is a
few commands of each operator (submit, release, refuse), some of which are killed, and then a session. Either it is of two stations, through this
script, which breaks the connection and kills the programs (checks/lib/joined.py). Or the fourth partner calls a station, or is called by it. It sends
what the step tables allow and what they don't (checks/lib/partner.py), in changed octets, too. It gives its files the names of others' files, says
that they are another's, and answers files that aren't for it. It says that it is another station. It ends where it likes, or the station is killed.

After each round stock sqlite3 reads all three databases. Each two of them have to keep what two stations promise (checks/lib/pairs.py). That is of
the files that go from the code of either to that of the other. A file that one has as handed over is whole and equal at the other. What it has as
delivered or returned was answered so there, and what is whole there is one of its own. After a number of rounds each two have sessions that nothing
breaks. Then all files between them are delivered or returned.

Two lives run in parallel. In the second one a station begins a new database. From then on what is left of the promise is tested between it and the
others (docs/PROMISES.md, P13). The check goes on beyond its time until programs and commands were killed, connections broken and transfers continued.
It goes on until a station has had a whole file from the fourth partner and one has handed a file over to it. It fails if another five minutes don't
bring that. The seed is printed. It repeats the choices, but not how far a program is when it is killed. After a failure the history of the life is
printed too, and its files are kept. The last line is `N passed, M failed`.

Shows: three stations as processes for 30 s (`--minutes N` for longer). Each exchanges files with both others and with a fourth partner that sends
anything at all. That one gives its files the names of others' files, says that they are another's, and answers files that aren't for it. It says that
it is another station. Connections are cut, reset or silent, and programs and commands are killed. After each session each two stations have what they
promise each other, of the files between their two codes. Once nothing breaks any more, all of these are answered. In every other life a station
begins a new database, and what is left of the promise is tested from then on
"""

import argparse
import contextlib
import itertools
import random
import re
import socket
import struct
import subprocess
import sys
import tempfile
import threading
import time
from collections import Counter
from concurrent.futures import ThreadPoolExecutor
from pathlib import Path

sys.path.insert(0, str(Path(__file__).resolve().parents[1] / "lib"))

import killed
import model
import oftp
import tables
from joined import Session
from killed import Wrong
from pairs import STAMP, answered, left_of_promise, local_form, promised, rows_here, settings_of, taken_back, twice
from partner import Partner, change
from passage import Trouble, Usual
from ready import ready_to_read
from services import LONG
from staying import hear, held_port, say

LIVES = 2
ROUNDS_OF_A_LIFE = 40
CODES = {"supplier": "O0013SUPPLIER", "carmaker": "O0177CARMAKER", "other carmaker": "O0188CARMAKER"}
FOURTH = "O0099OTHER"
# The names of the files of all stations: each sends a file of each name to each partner.
DATASETS = [f"FILE.{number}" for number in range(1, 6)]
PATIENCE = ["--patience", "2"]
# How often the session of a round is one with the fourth partner, and how often the station is killed in it.
WITH_FOURTH, KILLED = 0.4, 0.2
SECONDS_MORE, LONGEST = 10, 300
FROM_FOURTH, TO_FOURTH = "whole files from the fourth partner", "files handed over to the fourth partner"
WANTED = ["commands killed", "programs killed", "connections broken", "transfers that went on", FROM_FOURTH, TO_FOURTH]
LINE = re.compile(r"end: (own|partner) \d\d|end: input|fault: (1 read|2 write|8 socket)")


def password(code, other):
    """What a station sends to another one as its password."""
    return f"{code[1:5]}{other[1:5]}"


class Station(killed.Station):
    """A station from its first day on: its database, its book, and the rows of each submitted file."""

    def __init__(self, room, chance, name, address):
        room.mkdir()
        super().__init__(room, chance)
        self.name, self.code = name, CODES[name]
        self.partners = [code for code in (*CODES.values(), FOURTH) if code != self.code]
        settings = settings_of(chance)
        of_partners = {it: {"expects": password(it, self.code), "sends": password(self.code, it), "mode": "B"} for it in self.partners}
        self.terms = {"code": self.code, **settings, "restart": "NY"[settings["restart"] == "true"], "partners": of_partners}
        self.book.write_text(model.text_of(self.terms, address))
        # The rows of each file that an operator gave, and those of which a command has printed that they are submitted.
        self.given, self.told = {}, set()
        self.held = tables.read(self.database)
        # Whether this is a new database, which began after the others.
        self.is_new = False

    def renew(self):
        """It begins a new database."""
        self.begin_anew()
        self.given, self.told = {}, set()
        self.held = tables.read(self.database)
        self.is_new = True

    def look(self):
        """Its tables now. Nothing that was answered is lost, nothing is there twice, each file is as it was submitted, and what came is for it."""
        before, self.held = self.held, tables.read(self.database)
        why = tables.unfit(self.held) or taken_back(before, self.held) or twice(self.held)
        if why:
            raise Wrong(f"{self.name}: {why}")
        there = {(file["dataset"], file["destination"]): rows_here(self.held, "out_file", file) for file in self.held["out_file"]}
        if not self.told <= set(there) or any(rows != self.given[names] for names, rows in there.items()):
            raise Wrong(f"{self.name}: the files aren't those that were handed in")
        for file in self.held["in_file"]:
            if file["destination"] != self.code or file["originator"] not in self.partners:
                raise Wrong(f"{self.name}: this came: {file}")


class Misbehaving(Partner):
    """The fourth partner. The names of its files are those of others, and it interferes with what goes on between others."""

    def __init__(self, *given):
        super().__init__(*given)
        self.mistakes = self.chance.choice([0, 0, 0.03])
        self.patience = self.chance.choice([20, 60, 90])

    def breaks(self):
        """As a rule it goes on, so that it has files, and the station has files of it."""
        return self.chance.random() < 0.02

    def names(self):
        """The name of a file that others have, too, as a rule."""
        if self.chance.random() < 0.2:
            return super().names()
        return {"dataset": self.chance.choice(DATASETS), "date": STAMP[1], "time": STAMP[3]}

    def ssid(self):
        """It says that it is another one now and then, whose password it doesn't have."""
        if self.chance.random() < 0.9:
            return super().ssid()
        other = self.chance.choice([code for code in self.passwords if code != self.code])
        return self.spell("SSID", code=other, password=self.passwords[self.code], buffer=2048, credit=2, mode="B")

    def originator(self):
        """Its file is another's now and then."""
        return self.code if self.chance.random() < 0.8 else self.chance.choice(list(self.passwords))

    def response(self, kind, **said):
        """It answers a file that is for another one now and then, under its own code or that one's."""
        sent = self.session.register.out_file
        if not sent or self.chance.random() < 0.7:
            return super().response(kind, **said)
        file = self.chance.choice(sent)
        names = {name: file[name] for name in ("dataset", "date", "time")}
        originator = self.chance.choice([self.code, self.code, file["destination"]])
        return self.spell(kind, **names, destination=self.station, originator=originator, **said)


class Life:
    """Three stations from their first day on, and their history in words."""

    def __init__(self, room, chance, post, port, is_yearly):
        self.chance, self.post, self.port = chance, post, port
        # The round in which a station begins a new database, if one does.
        self.year = chance.randrange(5, ROUNDS_OF_A_LIFE) if is_yearly else None
        self.usual, self.count, self.told = Usual(), Counter(), []
        self.room = Path(tempfile.mkdtemp(dir=room))
        address = f"127.0.0.1:{post.getsockname()[1]}"
        self.stations = [Station(self.room / name.replace(" ", "_"), chance, name, address) for name in CODES]
        self.told += [f"{it.name}: buffer {it.terms['buffer']}, credit {it.terms['credit']}, restart {it.terms['restart']}" for it in self.stations]

    # operators

    def give(self, station, wanted, *words):
        """An operator's command, which has to print this line. Unless it is refused it may be killed, and then it may print nothing. It
        returns whether it printed the line."""
        if wanted.startswith("done") and self.chance.random() < 0.2:
            line, was_killed = station.until_killed(words[0], station.words(*words))
            self.count["commands killed"] += was_killed
        else:
            done = subprocess.run(station.words(*words), capture_output=True, check=False, timeout=LONG)
            line, was_killed = done.stdout + done.stderr, False
        self.told.append(f"{station.name}: {' '.join(map(str, words))}: {line.decode().strip()}{', killed' if was_killed else ''}")
        if line.decode() != f"{wanted}\n" and (line or not was_killed):
            raise Wrong(f"{station.name}: told {line!r}, not {wanted!r}")
        return bool(line)

    def submit(self, station):
        """A file is submitted to any partner, or one with the same identity again."""
        files = {(file["dataset"], file["destination"]) for file in tables.read(station.database)["out_file"]}
        dataset, to = names = (self.chance.choice(DATASETS), self.chance.choice(station.partners))
        form = self.chance.choice("UUTFV")
        longest = 0 if form in "UT" else self.chance.choice([1, 80, 1200])
        octets, rows = local_form(self.chance, form, longest)
        path = station.room / "given"
        path.write_bytes(octets)
        if names not in files:
            station.given[names] = rows
        words = ["--dataset", dataset, *STAMP, "--to", to, "--format", form, *(["--longest", str(longest)] if longest else [])]
        wanted = "refused: 1 duplicate" if names in files else f"done: submit {len(files) + 1}"
        if self.give(station, wanted, "submit", *words, path):
            station.told.add(names)

    def answer(self, station, number=None):
        """A received file is released or refused: a whole one, once."""
        held = tables.read(station.database)
        number = number or self.chance.randint(1, len(held["in_file"]) + 1)
        states = [file["state"] for file in held["in_file"] if file["no"] == number]
        is_due = states == ["whole"] and number not in [row["no"] for row in held["issued"]]
        words = ["release", str(number)]
        if self.chance.random() < 0.4:
            words = ["refuse", str(number), self.chance.choice(["01", "12", "99"]), self.chance.choice(["", "WRONG PLANT", "à revoir"])]
        self.give(station, f"done: {words[0]} {number}" if is_due else "refused: 3 state" if states else "refused: 2 unknown", *words)

    # sessions

    def session(self, caller, listener, troubles):
        """A session of two stations."""
        words = [caller.words("call", "--partner", listener.code), listener.words("listen", "--port", str(self.port))]
        session = Session(self.post, self.port, words, troubles)
        self.told.append(f"{caller.name} calls {listener.name}; {', '.join(map(str, troubles)) or 'nothing breaks'}")
        try:
            lines = session.play()
        finally:
            said = session.said.words(session.sides)
            self.told += said
        self.told.append(f"    the caller: {lines[0]}, the listener: {lines[1]}")
        if not session.is_broken and sorted(lines) != ["end: own 00", "end: partner 00"]:
            raise Wrong("nothing broke, and the session has another end")
        if session.sides:
            self.usual.learn(time.monotonic() - session.begin, session.sides)
        self.count["programs killed"] += len(session.killed)
        self.count["transfers that went on"] += sum(": SFPA" in line and "'0'" not in line for line in said)
        self.count["connections broken"] += session.is_broken and not session.killed

    def misbehave(self, station):
        """A session of a station with the fourth partner, whoever calls."""
        chance, is_called = self.chance, self.chance.random() < 0.5
        octets = self.octets(station, is_called)
        end = chance.choice([len(octets), len(octets), chance.randint(0, len(octets))])
        words = station.words("call", "--partner", FOURTH, *PATIENCE) if is_called else station.words("listen", "--port", str(self.port), *PATIENCE)
        self.told.append(f"{station.name} {'calls' if is_called else 'is called by'} the fourth partner, who says {end} of {len(octets)} octets:")
        self.told += [f"    {oftp.shown(frame)[:150]}" for frame in oftp.frames_of(octets)]
        while ready_to_read([self.post], 0):
            self.post.accept()[0].close()  # one that was killed before
        with subprocess.Popen(words, stdout=subprocess.PIPE, stderr=subprocess.PIPE) as program:
            killer = threading.Timer(chance.uniform(0, 0.3), program.kill)
            is_killed = chance.random() < KILLED
            if is_killed:
                killer.start()
            try:
                self.converse(program, is_called, octets[:end])
                out, err = program.communicate(timeout=LONG)
            finally:
                killer.cancel()
                program.kill()
        line = (out + err).decode().removesuffix("\n")
        self.told.append(f"    {line}")
        if not (LINE.fullmatch(line) and program.returncode in (0, 1)) and not (is_killed and program.returncode == -9):
            raise Wrong(f"{station.name} told {line!r}, with status {program.returncode}")
        self.count["sessions with the fourth partner"] += 1

    def octets(self, station, is_called):
        """What the fourth partner says in a session with a station."""
        passwords = {code: password(code, station.code) for code in station.partners}
        session = model.Session(station.terms, model.register_of(station.held), FOURTH if is_called else None)
        partner = Misbehaving(self.chance, session, FOURTH, passwords)
        frames = [oftp.frame(command) for command in partner.talk()]
        for _ in range(self.chance.choice([0, 0, 0, 0, 1, 3])):
            frames = change(self.chance, partner, frames) if frames else frames
        return b"".join(frames)

    def converse(self, program, is_called, octets):
        """The fourth partner says this, hears the station, and hangs up, unless the station has ended before it is connected."""
        end = None
        while not end and program.poll() is None:
            if is_called:
                ready = ready_to_read([self.post], 0.005)
                end = self.post.accept()[0] if ready else None
                continue
            try:
                end = socket.create_connection(("127.0.0.1", self.port))
            except ConnectionRefusedError:
                time.sleep(0.005)
        if not end:
            return
        with end:
            end.settimeout(LONG)
            sizes = random.Random(self.chance.random())
            most = self.chance.choice([5, 200, 4096, 65536])
            is_reset = self.chance.random() < 0.2
            if is_reset:
                end.setsockopt(socket.SOL_SOCKET, socket.SO_LINGER, struct.pack("ii", 1, 0))
            writer = threading.Thread(target=say, args=(end, octets, lambda: sizes.randint(1, most)))
            writer.start()
            if not is_reset:
                hear(end)
            writer.join()

    # what they promise

    def look(self):
        """Reads all databases, and tests the promise of each two in both directions."""
        for station in self.stations:
            station.look()
        for sender, receiver in itertools.permutations(self.stations, 2):
            why = self.wrong(sender, receiver)
            if why:
                raise Wrong(f"from {sender.name} to {receiver.name}: {why}")

    def wrong(self, sender, receiver):
        """Why the promise doesn't hold in this direction, or None."""
        codes = (sender.code, receiver.code)
        why = None if receiver.is_new else answered(sender.held, receiver.held, codes)
        if sender.is_new or receiver.is_new:
            return why or left_of_promise(sender.held, receiver.held, codes, sender.is_new)
        return why or promised(sender.held, receiver.held, codes)

    def round(self):
        if self.count["rounds"] == self.year:
            station = self.chance.choice(self.stations)
            station.renew()
            self.told.append(f"{station.name} begins a new database")
            self.count["new databases"] += 1
        for station in self.stations:
            for _ in range(self.chance.randint(0, 2)):
                self.chance.choice([self.submit, self.submit, self.answer])(station)
        for station in self.stations:
            station.look()
        if self.chance.random() < WITH_FOURTH:
            self.misbehave(self.chance.choice(self.stations))
        else:
            caller, listener = self.chance.sample(self.stations, 2)
            self.session(caller, listener, [Trouble(self.chance, self.usual) for _ in range(self.chance.choice([0, 1, 1, 1, 1, 2]))])
        self.look()
        self.count["rounds"] += 1

    def settle(self):
        """Nothing breaks any more: all files between the stations are handed over, and answered."""
        for one, other in itertools.combinations(self.stations, 2):
            self.session(one, other, [])
        for station in self.stations:
            for file in tables.read(station.database)["in_file"]:
                while file["state"] == "whole" and file["no"] not in [row["no"] for row in tables.read(station.database)["issued"]]:
                    self.answer(station, file["no"])
        for one, other in itertools.combinations(self.stations, 2):
            self.session(other, one, [])
        self.look()
        for station in self.stations:
            self.tell_ends(station)
        self.count["rounds"] += 1

    def tell_ends(self, station):
        """Counts what became of a station's files. Those for another station are answered, unless one of the two has a new database."""
        new = [it.code for it in self.stations if it.is_new or station.is_new]
        for file in station.held["out_file"]:
            is_for_fourth = file["destination"] == FOURTH
            if not is_for_fourth and file["state"] not in ("delivered", "returned") and file["destination"] not in new:
                raise Wrong(f"{station.name}: nothing breaks any more, and this isn't answered: {file}")
            self.count[TO_FOURTH] += is_for_fourth and file["state"] in ("handed", "delivered", "returned")
            self.count[file["state"]] += not is_for_fourth
        came = [file for file in station.held["in_file"] if file["originator"] == FOURTH]
        self.count[FROM_FOURTH] += sum(file["state"] == "whole" for file in came)
        station.tables()


class Lives:
    """Lives, one after another: what they did, and why one failed."""

    def __init__(self, room, chance, is_yearly):
        self.room, self.chance, self.is_yearly = room, chance, is_yearly
        self.count, self.whys = Counter(), []

    def go_on(self, until):
        """At least one life, and more until the time is up."""
        with contextlib.ExitStack() as stack:
            post = stack.enter_context(socket.create_server(("127.0.0.1", 0)))
            port = stack.enter_context(held_port()).getsockname()[1]
            while self.live(Life(self.room, self.chance, post, port, self.is_yearly), until) and time.monotonic() < until:
                pass

    def live(self, life, until):
        """A life. It returns whether all went well."""
        try:
            for _ in range(ROUNDS_OF_A_LIFE):
                if time.monotonic() < until:
                    life.round()
            life.settle()
        except (Wrong, tables.Damaged, OSError, subprocess.SubprocessError, LookupError, ValueError) as why:
            told = "\n".join(life.told)
            self.whys.append(f"{told}\n{type(why).__name__}: {why}; it is kept in {killed.keep(life.room)}")
        self.count += life.count
        return not self.whys


def main():
    parser = argparse.ArgumentParser(description=__doc__.splitlines()[0])
    parser.add_argument("--seconds", type=float, default=30)
    parser.add_argument("--minutes", type=lambda count: 60 * float(count), dest="seconds", default=argparse.SUPPRESS)
    parser.add_argument("--seed", type=int, default=random.SystemRandom().randrange(10**6))
    taken = parser.parse_args()
    print(f"seed {taken.seed}", flush=True)
    until = time.monotonic() + taken.seconds
    last = until + LONGEST
    with tempfile.TemporaryDirectory() as room, ThreadPoolExecutor(max_workers=LIVES) as players:
        lives = [Lives(Path(room), random.Random(f"{taken.seed} {place}"), place == 1) for place in range(LIVES)]
        while True:
            list(players.map(lambda it, until=until: it.go_on(until), lives))
            count = sum((it.count for it in lives), Counter())
            faults = [why for it in lives for why in it.whys]
            missing = [name for name in WANTED if not count[name] and not faults]
            if not missing or time.monotonic() > last:
                break
            until = time.monotonic() + SECONDS_MORE
    rounds = count.pop("rounds", 0)
    print("".join(f"{line}\n" for line in faults), end="")
    print(", ".join(f"{number} {name}" for name, number in sorted(count.items())))
    print("".join(f"no {name}, in {rounds} rounds\n" for name in missing), end="")
    print(f"{rounds} passed, {len(faults) + len(missing)} failed")
    return 1 if faults or missing or not rounds else 0


if __name__ == "__main__":
    sys.exit(main())
