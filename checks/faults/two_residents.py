#!/usr/bin/env python3
"""Joins two stations that hold their databases, which call each other while their operators work. It breaks their connections, kills them at
random moments, and tests what they promise each other.

    checks/faults/two_residents.py [--seconds N | --minutes N] [--seed N]       30 seconds, and another seed each time, where none is given

Each station is `run` over a database of its own, and calls by its clock each second. All octets of a session pass through this script, which
breaks connections and kills stations as checks/faults/two_services.py does. It kills stations between sessions, too; a station that was killed is
started again. Two operators work beside each station all the time. One submits, releases, refuses and has the partner called, and another fetches,
reports and asks by HTTP. Some of their commands are killed, and some lose their station: these end with `fault: 3 office`, and what they asked is
done or not done.

After each round both stations are stopped for a moment, and stock sqlite3 reads copies of both databases. What a command said is done is there,
once. So is each file whose end a station has answered, with its octets, and each end response that it has answered. Both hold what two stations
promise (checks/lib/pairs.py). At the end nothing breaks any more: then all is delivered or returned. The record of each station, played over a new database,
has to give the same tables.

Two pairs live at once. In the second one the supplier's station is never killed. What it holds at the end is compared with what it held at the
beginning (checks/lib/staying.py), and behind ten minutes, too. It goes on behind its time until commands and stations were killed, commands lost
their station, connections broke and transfers went on. It fails if five minutes more don't bring them. The seed is printed: it repeats what each
chooses, and not when. At a failure what happened to the pair last is printed too, and what is left is kept. The last line is `N passed, M failed`.

Shows: two pairs of `run` for 30 s (`--minutes N` for longer), which call by their clocks and when they are asked. Connections are cut, reset or
silent, and stations are killed by SIGKILL at any moment, also while they open. Two operators work at each station all the time; their commands are
killed or lose their station. After each round what a command said is done is there, once. So are what was accepted and each response that was
answered, and both stations have what they promise each other. At the end all is answered, and a station that stayed has the memory and descriptors
that it had. The record of each station, played again, gives the same tables
"""

import argparse
import contextlib
import itertools
import random
import re
import shutil
import signal
import socket
import subprocess
import sys
import tempfile
import threading
import time
from collections import Counter, deque
from concurrent.futures import ThreadPoolExecutor
from pathlib import Path
from typing import NamedTuple

sys.path.insert(0, str(Path(__file__).resolve().parents[1] / "lib"))

import killed
import oftp
import replays
import tables
from killed import Wrong
from listing_files import ask
from pairs import IDENTITY, MOST, STAMP, answered, book_of, local_form, promised, rows_here, settings_of, taken_back, twice
from passage import Passage, Said, Trouble, Usual
from program import PROGRAM
from ready import ready_to_read
from services import Resident
from staying import OPENS, StayingStation, converse, frame, held_port

LONG = 60
PATIENCE = 2
# How many files a station hands in: some at first, and then so many in a second.
FILES = 20
FILES_IN_A_SECOND = 0.4
# Which share of the commands is killed.
KILLED = 0.2
TEN_MINUTES = 600
LONGEST = 300
WANTED = ["commands killed", "commands cut off", "stations killed", "connections broken"]
# So does this where both agree that a transfer may go on, as the first pair always does.
WENT_ON = "transfers that went on"
LINE = re.compile(r"session (?:O\w+|-) (?:in|out): (?:end: (?:own 00|partner 00|input)|fault: (?:1 read|2 write|8 socket))")
CUT_OFF = (1, b"", b"fault: 3 office\n")


class Given(NamedTuple):
    """A file that was handed in: as the operator had it, its rows, and its number once a command has printed that."""

    octets: bytes
    rows: list
    number: int = 0


class Issued(NamedTuple):
    """A response that was asked for: its kind, reason and text, and whether a command has printed that it is done."""

    kind: str
    reason: str
    note: str
    is_told: bool = False


class Known(NamedTuple):
    """What is known of a station at a moment: what was handed in and asked for, and what it has answered to its partner."""

    given: dict
    issued: dict
    accepted: set
    filed: set


class Door:
    """Commands pass while it is open. Who shuts it waits until none is within."""

    def __init__(self):
        self.change = threading.Condition()
        self.within = 0
        self.is_shut = False

    @contextlib.contextmanager
    def passed(self):
        with self.change:
            self.change.wait_for(lambda: not self.is_shut)
            self.within += 1
        try:
            yield
        finally:
            with self.change:
                self.within -= 1
                self.change.notify_all()

    @contextlib.contextmanager
    def shut(self):
        with self.change:
            self.change.wait_for(lambda: not self.is_shut)
            self.is_shut = True
            self.change.wait_for(lambda: not self.within)
        try:
            yield
        finally:
            with self.change:
                self.is_shut = False
                self.change.notify_all()


# ---- a station


class Station(killed.Station):
    """A station that holds its database, with its book, its partner's code, and what is known of it."""

    def __init__(self, room, chance, name, partner, book, stays):
        room.mkdir()
        super().__init__(room, chance)
        self.name, self.partner, self.stays = name, partner, stays
        self.book.write_text(book)
        self.given, self.issued, self.accepted, self.filed = {}, {}, set(), set()
        self.held = tables.read(self.database)
        self.known = Known({}, {}, set(), set())
        self.holders = [held_port(), held_port()]
        self.port, self.requests = (it.getsockname()[1] for it in self.holders)
        self.door = Door()
        self.life, self.heeding = threading.Lock(), threading.Lock()
        self.resident = None
        self.lines, self.faults = room / "lines", room / "faults"
        self.record = room / "record"
        self.record.mkdir()
        self.deaths = self.readies = self.read_to = 0
        self.has_ended = False
        self.ends = Counter()

    # its process

    def start(self):
        """Starts it, and waits until it is ready. It answers whether it was, or was killed before."""
        words = ["--http-port", str(self.requests), "--call-every", "1", "--patience", str(PATIENCE), "--admission", "5", "--record", self.record]
        with self.life, open(self.lines, "ab") as output, open(self.faults, "ab") as faults:
            if self.has_ended:
                return True
            if self.resident:
                self.heed(has_died=True)
            deaths, readies = self.deaths, self.readies
            how = {"book": self.book, "port": self.port, "output": output, "faults": faults}
            self.resident = StayingStation(self.room, have_tasks_done, *words, **how) if self.stays else Resident(self.room, *words, **how)
            self.resident.requests = self.requests
        until = time.monotonic() + LONG
        while self.readies == readies:
            is_running = self.is_running()
            if not is_running and self.has_died(deaths):
                return False
            if not is_running or time.monotonic() > until:
                raise Wrong(f"{self.name}: it doesn't start: {self.faults.read_bytes()!r}")
            time.sleep(0.005)
            self.heed()
        return True

    def is_running(self):
        return self.resident.program.poll() is None

    def die(self):
        """Kills it. A command that was beside it at any time until its end can tell that it died."""
        with self.life:
            self.deaths += 1
            self.resident.program.kill()
            self.resident.program.wait()
            self.deaths += 1

    def has_died(self, deaths):
        """Whether it died since it had died so often."""
        with self.life:
            return self.deaths > deaths

    def revive(self):
        """Starts it again where it is dead, once no command is beside it."""
        with self.door.shut():
            while not self.is_running() and not self.start():
                pass

    def stop(self):
        """Stops it where it stands, so that its files may be copied. A dead one is as it is."""
        program = self.resident.program
        program.send_signal(signal.SIGSTOP)
        while program.poll() is None and state_of(program.pid) != "T":
            time.sleep(0.001)

    def go_on(self):
        self.resident.program.send_signal(signal.SIGCONT)

    def end(self):
        with self.life:
            self.has_ended = True
            if self.resident:
                self.resident.program.kill()
                self.resident.program.wait()
        for holder in self.holders:
            holder.close()

    def heed(self, has_died=False):
        """Looks at what it has printed since: that it is ready, or a line of a session that may be. Where it died, a line that was begun is passed over."""
        with self.heeding:
            with open(self.lines, "rb") as file:
                file.seek(self.read_to)
                told = file.read()
            lines, _, begun = told.rpartition(b"\n")
            self.read_to += len(told) - (0 if has_died else len(begun))
            for line in lines.decode().splitlines():
                if line == "ready":
                    self.readies += 1
                elif not LINE.fullmatch(line):
                    raise Wrong(f"{self.name} told {line!r}")
                else:
                    self.ends[line.partition(": ")[2]] += 1
        faults = self.faults.read_bytes()
        if faults:
            raise Wrong(f"{self.name} told {faults!r}")

    # what it holds

    def note(self):
        """What is known of it now. Nothing is asked of it meanwhile."""
        self.known = Known({**self.given}, {**self.issued}, {*self.accepted}, {*self.filed})

    def copy(self):
        for end in ("", "-wal"):
            shutil.copyfile(f"{self.database}{end}", self.room / f"copy{end}")

    def look(self):
        """Reads the copy: nothing is taken back, nothing is there twice, and all is there that is known."""
        before, self.held = self.held, tables.read(self.room / "copy")
        why = tables.unfit(self.held) or taken_back(before, self.held) or twice(self.held)
        why = why or self.handed_in_amiss() or self.issued_amiss() or self.answered_amiss()
        if why:
            raise Wrong(f"{self.name}: {why}")

    def handed_in_amiss(self):
        """Why the files to go out aren't those that were handed in, or None."""
        there = {file["dataset"]: file for file in self.held["out_file"]}
        for dataset, given in self.known.given.items():
            file = there.pop(dataset, None)
            if given.number and (file is None or file["no"] != given.number):
                return f"{dataset} was handed in as {given.number}, and {file} is there"
            if file and rows_here(self.held, "out_file", file) != given.rows:
                return f"{file} isn't the one that was handed in"
        return f"nobody handed in {there}" if there else None

    def issued_amiss(self):
        """Why the responses aren't those that were asked for, or None."""
        there = {row["no"]: (row["kind"], row["reason"], row["note"]) for row in self.held["issued"]}
        for number, asked in self.known.issued.items():
            found = there.pop(number, None)
            if found != asked[:3] and (found or asked.is_told):
                return f"{asked} was asked for {number}, and {found} is there"
        return f"nobody asked for {there}" if there else None

    def answered_amiss(self):
        """What was answered to the partner and isn't there, or None."""
        whole = {identity_of(file) for file in self.held["in_file"] if file["state"] == "whole"}
        came = {(row["kind"], *identity_of(row)) for row in self.held["received"]}
        lost = [*(self.known.accepted - whole), *(self.known.filed - came)]
        return f"it was answered, and isn't there: {lost}" if lost else None


def state_of(process):
    """The letter of the state in which a process is, or none where it is gone."""
    try:
        return Path(f"/proc/{process}/stat").read_text().rpartition(")")[2].split()[0]
    except (FileNotFoundError, ProcessLookupError):
        return ""


def identity_of(fields):
    return tuple(fields[name] for name in IDENTITY)


def have_tasks_done(resident):
    """The tasks of a station that stays: a session of its partner's, a command, and a request."""
    converse(resident, OPENS + frame("ESID", reason="00"), lambda: len(OPENS))
    done = resident.give("init")
    if done.stdout != b"done: init\n":
        raise Wrong(f"init told {done}")
    port, resident.port = resident.port, resident.requests
    try:
        ask(resident, [b"GET /in/1 HTTP/1.1\r\n\r\n"])
    finally:
        resident.port = port


# ---- its operators


# The commands that change a database, which they have themselves while their station is dead.
RECORDED = ("submit", "release", "refuse", "call")


class Operator:
    """Who gives commands beside a station, one after another, some of which are killed."""

    def __init__(self, pair, station, other):
        self.pair, self.station, self.other = pair, station, other
        self.chance = station.chance

    def work(self):
        """Gives commands until all is over."""
        while not self.pair.is_over.is_set():
            with self.station.door.passed():
                self.chance.choice(self.acts())()
            time.sleep(self.chance.uniform(0, 0.05))

    def acts(self):
        raise NotImplementedError

    def give(self, command, *rest):
        """What a command tells, or None where that isn't known: it was killed within its line, or within a report, or its station was."""
        station = self.station
        of_book = ["--book", station.book] if command not in ("fetch", "report", "init") else []
        recorded = ["--record", station.record] if command in RECORDED else []
        words = [PROGRAM, command, "--db", station.database, *of_book, *recorded, *rest]
        deaths = station.deaths
        if not self.pair.is_calm and self.chance.random() < KILLED:
            done = station.end_of(command, words)
        else:
            ran = subprocess.run(words, capture_output=True, check=False, timeout=LONG)
            done = (ran.returncode, ran.stdout, ran.stderr)
        self.pair.tell(f"{station.name}: {command} {' '.join(map(str, rest))}: {done}"[:300])
        if done == CUT_OFF and station.has_died(deaths):
            self.pair.count["commands cut off"] += 1
            return None
        if done[0] == -9:
            self.pair.count["commands killed"] += 1
            lines, newline, _ = done[1].decode(errors="replace").rpartition("\n")
            return None if command == "report" else lines + newline or None
        if done[0] not in (0, 1) or done[2] and command != "call":
            raise Wrong(f"{station.name}: {command} told {done}")
        return (done[1] + done[2]).decode()

    def expect(self, told, *wanted):
        """A command printed one of these lines, or nothing where that isn't known."""
        if told is not None and told not in [f"{line}\n" for line in wanted]:
            raise Wrong(f"{self.station.name}: told {told!r}, not one of {wanted}")


class Clerk(Operator):
    """Submits files, releases and refuses those that came, and has the partner called."""

    def acts(self):
        return [self.submit, self.submit, self.answer, self.answer, self.call]

    def submit(self):
        """A file is handed in, or one of the same name again."""
        given = self.station.given
        if given and self.chance.random() < 0.15:
            self.hand_in(self.chance.choice(list(given)))
        elif len(given) < FILES + FILES_IN_A_SECOND * (time.monotonic() - self.pair.begin):
            self.hand_in(f"FILE.{len(given) + 1}")

    def hand_in(self, dataset):
        station = self.station
        form = self.chance.choice("UUTFV")
        longest = 0 if form in "UT" else self.chance.choice([1, 80, 1200])
        before = station.given.get(dataset)
        if before and not before.number:
            return  # it isn't known whether it is there
        octets, rows = local_form(self.chance, form, longest)
        path = station.room / "given"
        path.write_bytes(octets)
        if not before:
            station.given[dataset] = Given(octets, rows)
        words = ["--dataset", dataset, *STAMP, "--to", station.partner, "--format", form]
        told = self.give("submit", *words, *(["--longest", str(longest)] if longest else []), path)
        if before:
            self.expect(told, "refused: 1 duplicate")
        elif told is not None:
            done = re.fullmatch(r"done: submit (\d+)\n", told)
            if not done:
                raise Wrong(f"{station.name}: told {told!r} of {dataset}")
            station.given[dataset] = station.given[dataset]._replace(number=int(done[1]))

    def answer(self):
        """A file that came is released or refused, a whole one once."""
        files = self.station.held["in_file"]
        file = self.chance.choice([*files, None])
        number = file["no"] if file else len(files) + 1000
        kind = self.chance.choice(["EERP", "EERP", "NERP"])
        self.answer_by(number, kind, "unknown" if not file else file["state"])

    def answer_by(self, number, kind, state):
        """Releases or refuses a file, of which it is known that it was so."""
        station = self.station
        before = station.issued.get(number)
        asked = Issued(kind, "", "")
        if kind == "NERP":
            asked = Issued(kind, self.chance.choice(["01", "12", "99"]), self.chance.choice(["", "WRONG PLANT", "à revoir"]))
        if state == "unknown":
            self.ask_for(number, asked, "refused: 2 unknown")
        elif before and before.is_told:
            self.ask_for(number, asked, "refused: 3 state")
        elif before:
            self.ask_again(number, before, state)
        else:
            self.ask_first(number, asked, state)

    def ask_for(self, number, asked, *wanted):
        """Has a response issued. It returns what the command printed, which is one of these lines."""
        words = ["release", str(number)] if asked.kind == "EERP" else ["refuse", str(number), asked.reason, asked.note]
        told = self.give(*words)
        self.expect(told, *(line.format(command=words[0]) for line in wanted))
        return told

    def ask_first(self, number, asked, state):
        """Has a response issued for the first time. The file may be whole by now."""
        self.station.issued[number] = asked
        told = self.ask_for(number, asked, f"done: {{command}} {number}", *(["refused: 3 state"] if state == "open" else []))
        if told == "refused: 3 state\n":
            del self.station.issued[number]
        elif told is not None:
            self.station.issued[number] = asked._replace(is_told=True)

    def ask_again(self, number, before, state):
        """Has a response issued of which it isn't known whether it is."""
        told = self.ask_for(number, before, f"done: {{command}} {number}", "refused: 3 state")
        if told is not None and (told != "refused: 3 state\n" or state == "whole"):
            self.station.issued[number] = before._replace(is_told=True)

    def call(self):
        """The station is asked to call its partner."""
        told = self.give("call", "--partner", self.station.partner, "--patience", str(PATIENCE))
        if told is not None and not LINE.fullmatch(f"session - out: {told.strip()}"):
            raise Wrong(f"{self.station.name}: call told {told!r}")


class Looker(Operator):
    """Fetches files that came, and looks at reports and lists."""

    def acts(self):
        return [self.fetch, self.fetch, self.report, self.request]

    def fetch(self):
        """A whole file is fetched: it is the one that was handed in there, or isn't made at all."""
        whole = [file for file in self.station.held["in_file"] if file["state"] == "whole"]
        if not whole:
            return
        file = self.chance.choice(whole)
        fetched = self.station.room / "fetched"
        fetched.unlink(missing_ok=True)
        told = self.give("fetch", str(file["no"]), fetched)
        self.expect(told, f"done: fetch {file['no']}")
        is_there = fetched.exists()
        if is_there and fetched.read_bytes() != self.other.given[file["dataset"]].octets:
            raise Wrong(f"{self.station.name}: {file} was fetched with other octets")
        if told is not None and not is_there:
            raise Wrong(f"{self.station.name}: {told!r}, and there is no file")

    def told_files(self):
        """The files of which a command has printed that they are submitted."""
        # The other operator may submit one meanwhile.
        return [dataset for dataset, given in [*self.station.given.items()] if given.number]

    def expect_all(self, files, text, what):
        lost = {*files} - {*re.findall(r"FILE\.\d+", text)}
        if lost:
            raise Wrong(f"{self.station.name}: {what} hasn't {lost}")

    def report(self):
        kind = self.chance.choice(["in", "out", "issued", "received"])
        files = self.told_files()
        told = self.give("report", kind)
        if told is not None and kind == "out":
            self.expect_all(files, told, "report out")

    def request(self):
        """A list by HTTP is whole, where the station lives."""
        files, deaths = self.told_files(), self.station.deaths
        try:
            with socket.create_connection(("127.0.0.1", self.station.requests), timeout=LONG) as caller:
                caller.sendall(b"GET /out HTTP/1.1\r\n\r\n")
                reply = b""
                while piece := caller.recv(65536):
                    reply += piece
        except OSError as why:
            reply = str(why).encode()
        if self.station.has_died(deaths) or not self.station.is_running():
            return
        if not reply.startswith(b"HTTP/1.1 200"):
            raise Wrong(f"{self.station.name}: a request is answered by {reply[:100]!r}")
        self.expect_all(files, reply.decode(), "/out")


# ---- a connection between both


class Heard(Said):
    """What both say, and what is known of them by that: a station has answered the end of a file, or a response."""

    def __init__(self, stations):
        super().__init__()
        self.stations = stations
        self.file = self.response = None

    def tell(self, name, spelled):
        super().tell(name, spelled)
        if spelled[4:5] in (b"D", b"C"):
            return
        kind, fields = oftp.read(spelled[4:])
        station = self.stations[name]
        if kind == "SFID":
            self.file = identity_of(fields)
        elif kind == "EFPA" or kind == "SFNA" and fields["reason"] == "13":
            station.accepted.add(self.file)
        elif kind in ("EERP", "NERP"):
            # It goes the other way than its file.
            self.response = (kind, *identity_of({**fields, "originator": fields["destination"], "destination": fields["originator"]}))
        elif kind == "RTR":
            station.filed.add(self.response)


class Joined(Passage):
    """A connection between both stations. In the place of one that is never killed the other one is."""

    def __init__(self, pair, caller, listener, troubles):
        super().__init__(troubles, Heard({"caller": caller, "listener": listener}))
        self.pair, self.stations = pair, (caller, listener)
        self.has_killed = False

    def kill(self, place):
        self.has_killed = True
        self.pair.kill(self.stations[place])


# ---- the life of a pair


class Pair:
    """Two stations from their first day on, and what happened to them last, in words."""

    def __init__(self, room, chance, stays):
        self.chance, self.stays = chance, stays
        self.room = Path(tempfile.mkdtemp(dir=room))
        self.begin = time.monotonic()
        self.usual = Usual()
        self.count, self.told = Counter(), deque(maxlen=1000)
        self.is_over, self.is_calm = threading.Event(), False
        self.posts = [socket.create_server(("127.0.0.1", 0)) for _ in range(2)]
        self.stations = [self.station("carmaker", "O0013SUPPLIER", 0, False), self.station("supplier", "O0177CARMAKER", 1, stays)]
        self.beside = ThreadPoolExecutor(max_workers=64)
        self.tasks = []
        self.operators, self.open = [], set()
        self.compared = []
        self.lock = threading.Lock()

    def station(self, name, partner, place, stays):
        settings = settings_of(self.chance)
        while not self.stays and not may_go_on(settings):
            settings = settings_of(self.chance)
        self.tell(f"{name}: {settings}")
        book = book_of(name, settings, self.posts[place].getsockname()[1])
        return Station(self.room / name, self.chance, name, partner, book, stays)

    def tell(self, line):
        self.told.append(f"{time.monotonic() - self.begin:8.3f} {line}")

    def do_beside(self, task, *given):
        with self.lock:
            self.tasks.append(self.beside.submit(task, *given))

    def see_through(self):
        """Raises what went wrong beside."""
        with self.lock:
            over = [it for it in self.tasks if it.done()]
            self.tasks = [it for it in self.tasks if it not in over]
        for it in over:
            it.result()

    def kill(self, station):
        """Kills a station, or the other one where it is never killed, and has it started again."""
        if station.stays:
            station = self.stations[0]
        self.tell(f"{station.name} is killed")
        self.count["stations killed"] += 1
        station.die()
        self.do_beside(station.revive)

    def receive(self, place):
        """Passes on who calls: the station of this place is the caller."""
        caller, listener = self.stations[place], self.stations[1 - place]
        while not self.is_over.is_set() or self.is_calm:
            ready = ready_to_read([self.posts[place]], 0.05)
            if ready:
                self.do_beside(self.pass_on, self.posts[place].accept()[0], caller, listener)

    def pass_on(self, end, caller, listener):
        """A connection of both, and what is done to it."""
        try:
            other = socket.create_connection(("127.0.0.1", listener.port))
        except OSError:
            end.close()
            return
        troubles = [] if self.is_calm else [Trouble(self.chance, self.usual) for _ in range(self.chance.choice([0, 0, 1, 1, 2]))]
        joined = Joined(self, caller, listener, troubles)
        self.open.add(joined)
        try:
            joined.join(end, other)
            joined.pass_all()
        finally:
            self.open.discard(joined)
            said = joined.said.words(joined.sides)
            self.tell("\n".join([f"{caller.name} calls {listener.name}; {', '.join(map(str, troubles)) or 'nothing breaks'}", *said]))
        self.usual.learn(time.monotonic() - joined.begin, joined.sides)
        self.count["sessions"] += 1
        self.count[WENT_ON] += sum(": SFPA" in line and "'0'" not in line for line in said)
        self.count["connections broken"] += joined.is_broken and not joined.has_killed

    def look(self):
        """Stops both stations for a moment, and tests what they hold."""
        with contextlib.ExitStack() as stack:
            for station in self.stations:
                stack.enter_context(station.door.shut())
            for station in self.stations:
                station.note()
            for station in self.stations:
                stack.callback(station.go_on)
                station.stop()
            for station in self.stations:
                station.copy()
        for station in self.stations:
            station.heed()
            station.look()
        one, other = self.stations
        for sender, receiver in ((one, other), (other, one)):
            why = promised(sender.held, receiver.held) or answered(sender.held, receiver.held)
            if why:
                raise Wrong(f"from {sender.name} to {receiver.name}: {why}")
        self.see_through()
        for it in self.operators:
            if it.done():
                it.result()
        self.count["rounds"] += 1

    def live(self, seconds):
        """Rounds for so many seconds, and then all is settled."""
        for station in self.stations:
            station.start()
        holders = [station.resident for station in self.stations if station.stays]
        for holder in holders:
            holder.begin()
        for place in range(2):
            self.do_beside(self.receive, place)
            for kind in (Clerk, Looker):
                operator = kind(self, self.stations[place], self.stations[1 - place])
                self.operators.append(self.beside.submit(operator.work))
        again = self.begin + TEN_MINUTES
        until = time.monotonic() + seconds
        last = until + LONGEST
        while (now := time.monotonic()) < until or now < last and self.missing():
            time.sleep(self.chance.choice([*[self.chance.uniform(0.1, 0.6)] * 7, PATIENCE + 0.5]))
            for station in self.chance.choice([[], [], self.stations[:1], self.stations[1:], self.stations]):
                self.kill(station)
            self.look()
            if now > again:
                again = float("inf")
                self.compare(holders)
        self.settle()
        self.compare(holders)

    def missing(self):
        """What has to come and hasn't yet."""
        return [name for name in [*WANTED, *([] if self.stays else [WENT_ON])] if not self.count[name]]

    def compare(self, holders):
        """Compares what the stations that stay hold with what they held before."""
        with contextlib.ExitStack() as stack:
            for station in self.stations:
                stack.enter_context(station.door.shut())
            for holder in holders:
                holder.callers = self.count["sessions"]
                told, whys = holder.compared()
                self.compared.append(told)
                if whys:
                    raise Wrong(whys[0])

    def settle(self):
        """Nothing breaks any more: all that waits is handed over, and answered."""
        self.is_calm = True
        self.is_over.set()
        for it in self.operators:
            it.result()
        until = time.monotonic() + 2 * LONG
        clerks = [Clerk(self, *self.stations), Clerk(self, *self.stations[::-1])]
        while not self.is_settled(clerks):
            if time.monotonic() > until:
                open_files = [file for station in self.stations for file in station.held["out_file"] if not is_answered(file)]
                raise Wrong(f"nothing breaks any more, and this isn't answered: {open_files}")
            # Time for a session: of two that call each other one gives way within a second.
            time.sleep(PATIENCE + 0.5)
        self.is_calm = False
        for station in self.stations:
            for file in station.held["out_file"]:
                self.count[file["state"]] += 1
            station.tables()

    def is_settled(self, clerks):
        """Whether all is answered. What isn't, and is whole, is released."""
        for station in self.stations:
            station.revive()
        self.look()
        for clerk in clerks:
            told = {number for number, asked in clerk.station.issued.items() if asked.is_told}
            for file in clerk.station.held["in_file"]:
                if file["state"] == "whole" and file["no"] not in told:
                    clerk.answer_by(file["no"], "EERP", "whole")
        return not self.open and all(is_answered(file) for station in self.stations for file in station.held["out_file"])

    def end(self):
        self.is_over.set()
        self.is_calm = False
        for station in self.stations:
            station.end()
        for post in self.posts:
            post.close()
        self.beside.shutdown(cancel_futures=True)


def may_go_on(settings):
    """Whether a transfer between stations of these settings may go on: then the largest files take more than a window."""
    return settings["restart"] == "true" and settings["buffer"] * settings["credit"] < MOST


def is_answered(file):
    return file["state"] in ("delivered", "returned")


def lived(room, chance, stays, seconds):
    """The life of a pair. It answers what it did, what its station held that stayed, and why it went wrong, if it did."""
    pair = Pair(room, chance, stays)
    fault = None
    try:
        pair.live(seconds)
        pair.end()
        for station in pair.stations:
            why = replays.why_other(station.room, station.database, station.record, [station.book.read_text()])
            if why:
                raise Wrong(f"{station.name}: {why}")
    except (Wrong, tables.Damaged, oftp.Unreadable, OSError, subprocess.SubprocessError) as why:
        fault = f"{type(why).__name__}: {why}"
        pair.tell(fault)
    finally:
        pair.end()
    whys = [f"no {name}" for name in pair.missing()]
    if fault:
        told = "\n".join(pair.told)
        whys = [f"{told}\n{fault}; it is kept in {killed.keep(pair.room)}"]
    for station in pair.stations:
        for line, number in station.ends.items():
            pair.count[f"lines `{line}`"] += number
    return pair.count, pair.compared, whys


def main():
    parser = argparse.ArgumentParser(description=__doc__.splitlines()[0])
    parser.add_argument("--seconds", type=float, default=30)
    parser.add_argument("--minutes", type=lambda count: 60 * float(count), dest="seconds", default=argparse.SUPPRESS)
    parser.add_argument("--seed", type=int, default=random.SystemRandom().randrange(10**6))
    taken = parser.parse_args()
    print(f"seed {taken.seed}", flush=True)
    with tempfile.TemporaryDirectory() as room, ThreadPoolExecutor(max_workers=2) as players:
        lives = [players.submit(lived, Path(room), random.Random(f"{taken.seed} {stays}"), stays, taken.seconds) for stays in (False, True)]
        came = [it.result() for it in lives]
    count = sum((it[0] for it in came), Counter())
    whys = [why for it in came for why in it[2]]
    print("".join(f"{line}\n" for line in itertools.chain(whys, *(it[1] for it in came))), end="")
    rounds = count.pop("rounds", 0)
    print(", ".join(f"{number} {name}" for name, number in sorted(count.items())))
    print(f"{rounds} passed, {len(whys)} failed")
    return 1 if whys or not rounds else 0


if __name__ == "__main__":
    sys.exit(main())
