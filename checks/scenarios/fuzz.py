#!/usr/bin/env python3
"""Plays random sessions over the built program and over a model of a station (checks/lib/model.py), and reports differences.

    checks/scenarios/fuzz.py [--seconds N | --minutes N] [--seed N] [--sessions N] [--jobs N] [--steps]

        default: 20 seconds, another seed each time, and a process for each processor; --steps prints how often each step was made

A life is a database, or a register in memory, and what is done to it. There are sessions in both roles with three partners, whose commands follow
what the model of the station sends, with mistakes of every kind. Submissions, releases, refusals and fetches come between them. The octets of a
session are then changed here and there. Each time the octets out, the lines, the exit status and the tables have to be the model's. A life has a seed
of its own. If something differs, the seed is printed, with all that was done in words, and `--seed N --sessions 1` plays that life again. The check
goes on beyond its time until each step of the step tables was made. Each thing that can be done beside a session or to it must have been done too,
unless `--sessions` gives their number. It fails if another five minutes leave one out.

There are three kinds of lives. In the first one the octets are given to `feed` in a file, or through a pipe in pieces of random sizes.

In the second one the book is that of services that run from life to life. Partners call that `listen` over a socket, and that `http` gets a request
between two acts.

The third one is lived by one `run`, from its first act to its last. Partners call it, and it is asked to call them, and to read another book. The
octets come in pieces. Between two pieces reports, fetches and requests have to show what the model has at that moment. They do so once the station
has said all that it has to, and also before, when it may be any of several. Orders (submissions, releases and refusals) have to wait for the
session's end, and to be done then, in their order, unless the command is gone. An order beside a caller who isn't let in yet is done at once. Some
sessions are cut off, by a close or by a reset. What is left has to be what the model had after the last change of which an octet of the answer was
read. Or it is what the model had after a later one. At the end the station is killed, or ended by SIGTERM, some within a session. A life in which one
of several registers was left may go on otherwise when it is played again. Each second of these lives is recorded, and its record, played over a new
database, has to give the same tables.

The memory and descriptors of services and stations at the end are compared with those at the beginning (checks/lib/staying.py). The last
line is `N passed, M failed`, which counts sessions.

Shows: random sessions in both roles with three partners, right, wrong, changed, cut and in pieces. An operator's commands come between them, for 20 s
(`--minutes N` for more). The sessions are by `feed`, over sockets to services that stay, and in lives that one `run` lives from its first act to its
last. Octets, lines, exit statuses and tables are those of a model that was written apart from the station's code (`checks/lib/model.py`). In the
lives of `run` there are look-ups between two pieces of a session, by the commands and by HTTP. They show what the model has at that moment. Orders
within a session are done behind it in their order, or not at all if their command is gone. There are calls; and sessions that are closed, reset or
end with a kill. After these the database has what the model had after the last answered change, or after a later one that was asked for. The record of such a life,
played again, gives the same tables
"""

import argparse
import collections
import contextlib
import itertools
import multiprocessing
import os
import random
import shutil
import socket
import subprocess
import sys
import tempfile
import threading
import time
from pathlib import Path
from typing import Callable, NamedTuple

sys.path.insert(0, str(Path(__file__).resolve().parents[1] / "lib"))

import acts
import model
import oftp
import replays
import tables
from listing_files import END, ask, compare_report, reply_for, shown
from partner import RECORDS, STATION, TEXTS, Partner, change
from program import PROGRAM
from ready import ready_to_read
from services import LONG, Wrong, answer_to, expect
from staying import OPENS, Services, StayingStation, converse, frame, held_port
from talk import Talk, line_of, lines_of_a_cut, told_by_call

STATIONS = [STATION] * 30 + ["O0013"]
PARTNERS = {"O0177CARMAKER": "CARPW", "O0099OTHER": "", "A-(B&C)/D.9": "12345678"}
SIZES = [0, 1, 2, 62, 63, 64, 65, 125, 126, 127, 250, 1023, 1024, 1025, 2047, 2048, 2049, 2500, 2500, 3000, 4096, 5000]
# What has to occur: each step of the step tables, these answers and turns, and these changes of a file's state. Also what is done beside a session or
# to it. If some of it hasn't when the time is up, sessions follow for at most this many seconds more.
LONGEST = 300
# One call of `Played.play` uses fewer seeds than this.
SEEDS = 10**7
# The number of books of services for this many consecutive seeds.
BOOKS, SEEDS_OF_BOOKS = 4, 10**6
REASONS = {"SFNA": "01 02 03 05 06 13 14 99", "ESID": "01 02 03 04 06 07 10 12"}
TURNS = "SSRM,SSID,SFPA,SFPA later,DATA,CDT,EFID,EFPA N,EFPA Y,EFNA 10,EFNA 11,RTR,EERP,NERP 09,SFID,SFID later,CD,ESID 00".split(",")
REFUSALS = [f"{kind} {reason}" for kind, reasons in REASONS.items() for reason in reasons.split()]
CHANGES = [
    *("EFID: open to whole", "SFPA: waiting to closing", "SFPA: closing to waiting", "CDT: waiting to closing", "EFPA: closing to handed"),
    *("SFNA: closing to handed", "SFNA: waiting to refused", "SFNA: closing to refused", "EFNA: closing to waiting"),
    *("EERP: handed to delivered", "NERP: handed to returned"),
]
BESIDE = [
    *("an order waits for the end", "an order is given up", "an order before the partner is let in", "a look-up shows what the model has"),
    *("a look-up shows one of several", "close", "reset", "kill", "one of several is left", "an order behind a cut"),
]
WANTED = {*(f"{phase}: {kind}" for phase, kind in model.STEPS), *TURNS, *REFUSALS, *CHANGES, *BESIDE}


class Differs(Exception):
    """The program differs from the model."""


class Order(NamedTuple):
    """An operator's command that changes something: its words, and the octets of its file if it has one. Also what it does to a register of the
    model, which returns a number or refuses."""

    act: str
    words: list
    content: bytes
    do: Callable

    def line(self, register):
        """What it prints once it is done to this register, and its exit status."""
        try:
            return f"done: {self.act} {self.do(register)}\n", 0
        except model.Refused as why:
            return f"refused: {why}\n", 1


# -- a life


def draw_book(chance, is_whole=False):
    """A book in the model's form. Unless it has to be whole, a partner is missing now and then."""
    partners = {code: {"expects": password, "sends": chance.choice(["SUPPW", ""])} for code, password in PARTNERS.items()}
    if chance.random() < 0.05 and not is_whole:
        del partners[chance.choice(list(PARTNERS))]
    for partner in partners.values():
        partner["mode"] = "B" if chance.random() < 0.9 else chance.choice("SR")
    buffer, credit = chance.choice([128, 128, 129, 130, 192, 1025, 2048, 16384]), chance.choice([1, 1, 2, 2, 3, 7, 99])
    code, restart = chance.choice(STATIONS), chance.choice("YYYYN")
    return {"code": code, "buffer": buffer, "credit": credit, "restart": restart, "partners": partners}


class Staying:
    """The long-running services, each pair with a book, in the folder of a process for its lives. A seed determines the book. Beside them are the
    ports of the stations that live there, one after another. Of each there are its callers, and by how many KiB its memory grew."""

    def __init__(self, room, stack):
        self.room = room
        self.stack = stack
        self.there = {}
        self.ports = [stack.enter_context(held_port()).getsockname()[1] for _ in range(2)]
        self.stations = []

    def of(self, seed):
        """The services for the life of a seed, and their book. They are started for the first such life."""
        name = f"book {seed // SEEDS_OF_BOOKS} {seed % BOOKS}"
        if name not in self.there:
            book = draw_book(random.Random(name), is_whole=True)
            (self.room / name).write_text(model.text_of(book))
            self.there[name] = self.stack.enter_context(Services(self.room, self.room / name)), book
        return self.there[name]

    def settle(self):
        """The memory and descriptors of each, in words, and why that is too much."""
        came = [services.settle() for services, _ in self.there.values()]
        lines = [line for told, _ in came for line in told]
        if self.stations:
            callers, grown = zip(*self.stations)
            lines.append(f"run: {len(callers)} lives with {sum(callers)} callers, and at most {max(grown)} KiB of memory more at the end of one")
        return lines, [why for _, whys in came for why in whys]


class Life:
    """A register of the program and one of the model, and what is done to both, or ten sessions in memory. Sessions are given to `feed`."""

    def __init__(self, seed, room, staying):
        self.chance = random.Random(seed)
        self.seed = seed
        self.staying = staying
        self.room = room
        self.database = room / "database"
        # The address of each partner.
        self.address = "127.0.0.1:1"
        self.register = model.Register()
        self.told = []
        self.steps = collections.Counter()
        self.sessions = 0
        for end in ("", "-wal", "-station"):
            Path(f"{self.database}{end}").unlink(missing_ok=True)

    def live(self):
        self.take_book(draw_book(self.chance))
        if self.chance.random() < 0.45:
            for _ in range(10):
                self.register = model.Register()
                self.hold_session_over([None], 0.1)
        else:
            self.act_often()

    def act_often(self):
        """Sessions, what an operator does between them, and another book now and then."""
        for _ in range(self.chance.choice([3, 10, 25, 50])):
            if self.chance.random() < 0.05:
                self.change_book()
            self.act()
            self.compare_tables()
            self.look_up_between()

    def act(self):
        chance = self.chance
        unanswered = self.unanswered()
        if unanswered and chance.random() < 0.3:
            self.carry_out(self.draw_answer(chance.choice(unanswered)))
        elif chance.random() < 0.1:
            number = chance.randint(1, len(self.register.in_file) + 1)
            if chance.random() < 0.3:
                expect(self.fetch(number), fetched_of(self.register, number), "what is fetched")
            else:
                self.carry_out(self.draw_answer(number))
        elif chance.random() < 0.3:
            self.carry_out(self.draw_submission())
        else:
            self.hold_session()

    def unanswered(self):
        """The numbers of the files that may be released or refused."""
        whole = [file["no"] for file in self.register.in_file if file["state"] == "whole"]
        return [number for number in whole if not self.register.find("issued", no=number)]

    def take_book(self, book):
        """A book for all that follows: `served` is that by which callers are served."""
        self.book = self.served = book
        (self.room / "book").write_text(model.text_of(book, self.address))
        modes = " ".join(partner["mode"] for partner in book["partners"].values())
        self.told.append(f"the book: {book['code']}, buffer {book['buffer']}, credit {book['credit']}")
        self.told.append(f"    restart {book['restart']}, {' '.join(book['partners'])}: {modes}")

    def change_book(self):
        self.take_book(draw_book(self.chance))

    def calling_book(self):
        """The book by which partners are called."""
        return self.book

    def look_up_between(self):
        """What is asked between two acts beside them."""

    def give(self, *words, **how):
        return subprocess.run([PROGRAM, *words], capture_output=True, check=False, timeout=LONG, cwd=self.room, **how)

    # sessions

    def hold_session(self):
        """A session over the database; over an empty register also in memory."""
        is_empty = not any(map(any, (self.register.in_file, self.register.out_file, self.register.received)))
        self.hold_session_over([None, self.database] if is_empty else [self.database], 0.5)

    def hold_session_over(self, places, share):
        """A session, played in each of these places: over a database, or in memory."""
        called, book, octets = self.draw_session(share)
        session = model.Session(book, self.register, called)
        self.follow(session, octets)
        line = model.play(session, octets)
        self.told.append(f"    {line.strip()}")
        for place in places:
            self.compare_session(session, place, octets, line)
        self.sessions += 1

    def draw_session(self, share):
        """Whom the station calls, as it does in a share of the sessions; the book; and the octets of the partner."""
        chance = self.chance
        code = chance.choice([*PARTNERS] + [*PARTNERS][:1] * 4)
        called = code if code in self.calling_book()["partners"] and chance.random() < share else None
        book = self.calling_book() if called else self.served
        partner = Partner(chance, model.Session(book, self.register.copied(), called), code, PARTNERS)
        frames = [oftp.frame(command) for command in partner.talk()]
        for _ in range(chance.choice([0, 0, 0, 0, 0, 1, 1, 3])):
            frames = change(chance, partner, frames) if frames else frames
        return called, book, b"".join(frames)

    def follow(self, session, octets):
        """What the model does with these octets is noted in words, and counted."""
        self.told.append(f"session, {'the station calls ' + session.called if session.called else 'called'}, {len(octets)} octets come")
        self.note(session, 0)
        take = session.take

        def noted(command):
            phase, states, shown_so_far = session.phase, self.states(), len(session.out)
            self.told.append(f"    in   {oftp.shown(oftp.frame(command))[:150]}")
            take(command)
            self.note(session, shown_so_far)
            kind = oftp.KIND_OF.get(command[:1].decode("latin-1"))
            changed = {f"{kind}: {states[file]} to {state}" for file, state in self.states().items() if states.get(file, state) != state}
            self.steps.update([f"{phase}: {kind}", *changed])

        session.take = noted

    def states(self):
        return {(side, file["no"]): file["state"] for side in ("in_file", "out_file") for file in getattr(self.register, side)}

    def note(self, session, shown_so_far):
        """The octets that were sent."""
        for spelled in session.out[shown_so_far:]:
            kind, fields = oftp.read(spelled[4:])
            is_later = fields.get("count", fields.get("restart", "0")) not in "0YN"
            detail = fields.get("change") or fields.get("reason") or ("later" if is_later else "")
            self.steps.update([f"{kind} {detail}".strip()])
            self.told.append(f"    out  {oftp.shown(spelled)[:150]}")

    def compare_session(self, session, database, octets, line):
        answer = self.room / "answer"
        answer.unlink(missing_ok=True)
        role = ["--role", "initiator", "--partner", session.called] if session.called else []
        words = ["feed", *(["--db", database] if database else []), "--book", "book", *role]
        if self.chance.random() < 0.5:
            (self.room / "given").write_bytes(octets)
            done = self.give(*words, "given", answer)
        else:
            source, sink = os.pipe2(os.O_DIRECT)
            most = self.longest_piece(octets)
            sizes = random.Random(self.chance.random())
            writer = threading.Thread(target=write_pieces, args=(sink, octets, sizes, most))
            writer.start()
            done = self.give(*words, f"/dev/fd/{source}", answer, pass_fds=[source])
            os.close(source)
            writer.join()
        where = "over the database" if database else "in memory"
        got = acts.octets_in(answer)
        if (done.stdout.decode(), done.stderr, done.returncode) != (line, b"", 0):
            raise Differs(f"{where} it ends by {done.stdout!r}, {done.stderr!r}, status {done.returncode}, and not by {line!r}")
        self.compare_octets(where, got, b"".join(session.out))

    def longest_piece(self, octets):
        return self.chance.choice([1, 5, 200, 4096]) if len(octets) < 3000 else 4096

    def compare_octets(self, where, got, wanted):
        for number, (want, found) in enumerate(zip([*oftp.frames_of(wanted), b""], [*oftp.frames_of(got), b""]), 1):
            if want != found:
                raise Differs(f"{where} frame {number} out is {acts.shown(found)}, and not {acts.shown(want)}")
        if got != wanted:
            raise Differs(f"{where} {len(got)} octets are out, and not {len(wanted)}")

    # an operator

    def draw_submission(self):
        chance = self.chance
        form = chance.choice("FVUT")
        longest = chance.choice(RECORDS) if form in "FV" else 0
        if form in "UT":
            content = chance.randbytes(chance.choice(SIZES))
        else:
            count = min(chance.choice([0, 1, 2, 3, 10, 64, 65, 150]), 1 + 6000 // longest)
            sizes = [longest if form == "F" else chance.randint(0, chance.choice([0, 3, longest])) for _ in range(count)]
            content = b"".join((f"{size:05}".encode() if form == "V" else b"") + chance.randbytes(size) for size in sizes)
        names = {"dataset": f"INV.{chance.randint(1, 9)}", "date": "20240201", "time": "0800000001", "description": chance.choice(TEXTS)}
        fields = {**names, "to": chance.choice([*PARTNERS] + [*PARTNERS][:1] * 4), "format": form, "longest": longest}
        if chance.random() < 0.1:
            wrong = {"dataset": ["a", "A" * 27], "date": ["2024020"], "time": ["080000000X"], "to": ["O0013"], "longest": [0, 7, 16385]}
            name = chance.choice([*wrong, "description", "format"])
            fields[name] = chance.choice({**wrong, "description": ["a" * 1000], "format": [*"FVUT"]}[name])
        words = [word for name, value in fields.items() for word in (f"--{name}", str(value))]
        told = " ".join(f"{name}={str(value)[:40]!r}" for name, value in fields.items())
        self.told.append(f"submit {told}, {len(content)} octets")
        book = self.book
        return Order("submit", words, content, lambda register: model.submit(register, book, fields, content))

    def draw_answer(self, number):
        """A release or a refusal of the file of this number."""
        chance = self.chance
        if chance.random() < 0.5:
            self.told.append(f"release {number}")
            return Order("release", [str(number)], b"", lambda register: model.issue(register, number, "EERP"))
        reason, text = chance.choice(["00", "09", "99"]), chance.choice([*TEXTS, "a" * 1000])
        self.told.append(f"refuse {number} {reason} {text[:40]!r}")
        return Order("refuse", [str(number), reason, text], b"", lambda register: model.issue(register, number, "NERP", reason, text))

    def carry_out(self, order):
        """An order is given, and its line is the model's."""
        file = []
        if order.act == "submit":
            (self.room / "content").write_bytes(order.content)
            file = ["content"]
        line, status = order.line(self.register)
        self.told.append(f"    {line.strip()}")
        done = self.give(order.act, "--db", "database", "--book", "book", *order.words, *file)
        if (done.stdout.decode(), done.stderr, done.returncode) != (line, b"", status):
            raise Differs(f"it tells {done.stdout!r}, {done.stderr!r}, status {done.returncode}, and not {line!r}")

    def fetch(self, number):
        """What the command tells, its exit status, and what it writes."""
        fetched = self.room / "fetched"
        fetched.unlink(missing_ok=True)
        self.told.append(f"fetch {number}")
        done = self.give("fetch", "--db", "database", str(number), "fetched")
        return done.stdout, done.stderr, done.returncode, fetched.read_bytes() if fetched.exists() else None

    def compare_tables(self):
        why = unlike(tables.read(self.database), self.register)
        if why:
            raise Differs(why)


def fetched_of(register, number):
    """What `fetch` tells, its exit status, and what it writes, by a register of the model."""
    try:
        return f"done: fetch {number}\n".encode(), b"", 0, model.fetch(register, number)
    except model.Refused as why:
        return f"refused: {why}\n".encode(), b"", 1, None


def unlike(found, register):
    """How the tables that are found differ from those of a register, or None."""
    wanted = register.tables()
    for table in tables.TABLES:
        for want, got in [*zip(wanted[table], found[table]), (len(wanted[table]), len(found[table]))]:
            if want != got:
                return f"in {table} is left {str(got)[:400]}, and not {str(want)[:400]}"
    return None


class ServedLife(Life):
    """A life over the database of long-running services, by their book."""

    def live(self):
        self.services, book = self.staying.of(self.seed)
        self.give("init", "--db", "database")
        self.take_book(book)
        self.act_often()

    def change_book(self):
        """The services keep theirs."""

    def compare_session(self, session, database, octets, line):
        """A session of a caller goes over a socket to the long-running service."""
        if session.called or not database:
            super().compare_session(session, database, octets, line)
            return
        most = self.longest_piece(octets)
        sizes = random.Random(self.chance.random())
        got = converse(self.services.listen, octets, lambda: sizes.randint(1, most))
        told = self.services.listen.either()
        if f"{told}\n" != line:
            raise Differs(f"over a socket it ends by {told!r}, and not by {line!r}")
        self.compare_octets("over a socket", got, b"".join(session.out))
        self.services.listen.look()

    def look_up_between(self):
        if self.chance.random() < 0.2:
            self.services.meet_request(self.chance)


# -- the life of a station that keeps its database open


class ResidentLife(Life):
    """A life of one `run`, from its first act to its last."""

    def live(self):
        port, self.requests = self.staying.ports
        with contextlib.ExitStack() as stack:
            self.post = stack.enter_context(socket.create_server(("127.0.0.1", 0)))
            self.post.settimeout(LONG)
            self.address = f"127.0.0.1:{self.post.getsockname()[1]}"
            self.take_book(draw_book(self.chance))
            book = self.room / "served"
            book.write_text(model.text_of(self.served, self.address))
            words = ["--http-port", str(self.requests)]
            # Each second life is recorded.
            self.books = [book.read_text()]
            record = self.room / "record"
            shutil.rmtree(record, ignore_errors=True)
            if self.seed % 2:
                record.mkdir()
                words += ["--record", record]
            self.station = stack.enter_context(StayingStation(self.room, self.have_tasks_done, *words, book=book, port=port))
            self.station.begin()
            self.act_often()
            self.compare_memory()
            self.end()
            self.compare_tables()
            self.look_up_without()
            why = replays.why_other(self.room, self.database, record, self.books) if record.is_dir() else None
            if why:
                raise Differs(why)

    def change_book(self):
        """The operator takes another one. The station may read it too; if not, it calls and serves callers by the one that it has."""
        served = self.served
        super().change_book()
        if self.chance.random() < 0.5:
            self.served = served
            return
        (self.room / "served").write_text(model.text_of(self.served, self.address))
        self.books.append((self.room / "served").read_text())
        self.told.append("    which the station reads")
        expect(self.give("reload", "--db", "database").stdout, b"done: reload\n", "reload")

    def calling_book(self):
        return self.served

    def have_tasks_done(self, station):
        """What changes nothing: a session, and a request."""
        converse(station, OPENS + frame("ESID", reason="00"), lambda: len(OPENS))
        station.either()
        ask(station, [b"GET /in/1 HTTP/1.1\r\n\r\n"], port=self.requests)

    def compare_memory(self):
        before = self.station.memory
        _, whys = self.station.compared()
        if whys:
            raise Wrong(whys[0])
        self.staying.stations.append((self.station.callers, max(now - then for then, now in zip(before, self.station.memory))))

    def end(self):
        """The end of the station, in some lives within a session. It has told nothing but the lines that were read."""
        how = self.chance.choice(["terminate", "kill", "kill within a session"])
        self.told.append(f"the end of the station: {how}")
        if how == "kill within a session":
            self.hold_session(is_last=True)
        getattr(self.station.program, how.split()[0])()
        expect(self.station.rest(), [b"", b""], "what the station told besides its lines")

    def look_up_without(self):
        """A report without a station shows the same."""
        why = self.report()(self.register)
        if why:
            raise Differs(why)

    # sessions

    def hold_session(self, is_last=False):
        """A session over a socket, of which some are cut off. In the last one the station is killed."""
        chance = self.chance
        called, book, octets = self.draw_session(0.3)
        cut = "kill" if is_last else chance.choice([None, None, None, "close", "reset"])
        if cut:
            octets = octets[: chance.randint(0, len(octets))]
        session = model.Session(book, self.register, called)
        self.follow(session, octets)
        # The orders that wait for its end, each with its connection.
        self.waiting = []
        with contextlib.ExitStack() as self.beside:
            talk = Talk(self.beside.enter_context(self.connected(called)), session)
            self.say_all(talk, octets)
            if cut == "kill" and not session.end:
                self.kill_within(talk)
            elif cut in ("close", "reset"):
                self.cut_off(talk, cut)
            else:
                self.finish(talk)
        self.sessions += 1
        if not is_last:
            self.station.look()

    def connected(self, called):
        """The connection of a partner who calls, or of one whom the station is asked to call."""
        if not called:
            return self.station.caller()
        words = [PROGRAM, "call", "--db", "database", "--book", "book", "--partner", called]
        self.calling = subprocess.Popen(words, stdout=subprocess.PIPE, stderr=subprocess.PIPE, cwd=self.room)
        self.beside.callback(self.calling.kill)
        connection = self.post.accept()[0]
        connection.settimeout(LONG)
        return connection

    def say_all(self, talk, octets):
        """Says these octets in pieces, and stops at some places."""
        chance = self.chance
        most = self.longest_piece(octets)
        ends = [*itertools.accumulate(map(len, oftp.frames_of(octets)))] or [0]
        stops = sorted({chance.choice([chance.choice(ends), chance.randint(0, len(octets))]) for _ in range(chance.choice([0, 0, 1, 2, 4]))})
        at = 0
        for stop in [*stops, len(octets)]:
            while at < stop:
                size = min(chance.randint(1, most), stop - at)
                talk.say(octets[at : at + size])
                at += size
            if stop in stops:
                stops.remove(stop)
                self.chance.choice([self.stop_within, self.stop_within, self.look_up_at_once])(talk)

    def look_up_at_once(self, talk):
        """A look-up while the station may not have heard all. It shows what the model had after the last change of which an answer was read, or after
        a later one."""
        talk.read_what_is_there()
        if not talk.session.end:
            self.told.append(f"    where {len(talk.got)} of {len(talk.wanted())} octets of answers were read:")
            registers = talk.may_be_left()
            self.look_up(registers)
            self.steps.update(["a look-up shows one of several"] if len(registers) > 1 else [])

    def stop_within(self, talk):
        """Once the station has said all that it has to, things are looked up and orders are given."""
        self.wait(talk)
        if talk.session.end:
            return
        is_let_in = hasattr(talk.session, "partner") or talk.session.called and talk.got
        for _ in range(self.chance.choice([1, 1, 2, 3])):
            if self.chance.random() < 0.6 or talk.session.called and not is_let_in:
                self.look_up([self.register])
                self.steps.update(["a look-up shows what the model has"])
            elif is_let_in:
                self.order_within()
            else:
                self.carry_out(self.draw_order())
                self.steps.update(["an order before the partner is let in"])
        if any(ready_to_read([client for _, client in self.waiting], 0)):
            raise Differs("an order is answered within a session")
        talk.begin()

    def wait(self, talk):
        """The station has said what it has to by now."""
        talk.wait()
        self.compare_octets("in a part of a session", talk.got, talk.wanted())

    def finish(self, talk):
        """The partner says no more, and hears the rest."""
        talk.finish()
        self.compare_octets("over a socket", talk.got, talk.wanted())
        told = self.station.either()
        if told != line_of(talk):
            raise Differs(f"the session ends by {told!r}, and not by {line_of(talk)!r}")
        self.told.append(f"    {told}")
        self.compare_call(talk, told)
        self.settle([self.register])

    def cut_off(self, talk, how):
        """Cuts the session off, half of the times once all is answered. Then it is known what was heard, where the connection is closed."""
        if self.chance.random() < 0.5:
            self.wait(talk)
        is_known = talk.is_answered() and how == "close"
        self.compare_beginning(talk)
        talk.cut(is_reset=how == "reset")
        told = self.station.either()
        self.told.append(f"    {how} where {len(talk.got)} of {len(talk.wanted())} octets of answers were read: {told}")
        if is_known and told != line_of(talk) or told not in [line_of(talk), *lines_of_a_cut(talk)]:
            raise Differs(f"a session that is cut off ends by {told!r}, and not by {line_of(talk)!r}")
        self.compare_call(talk, told)
        registers = [self.register] if talk.session.end and told == line_of(talk) else talk.may_be_left()
        self.steps.update([how, *["one of several is left"] * (len(registers) > 1), *["an order behind a cut"] * bool(self.waiting)])
        self.settle(registers)

    def kill_within(self, talk):
        """Kills the station. What waits for the end of the session isn't done."""
        self.station.program.kill()
        self.station.program.wait()
        talk.finish()
        self.compare_beginning(talk)
        self.told.append(f"    killed where {len(talk.got)} of {len(talk.wanted())} octets of answers went out")
        self.steps.update(["kill"])
        self.waiting = []
        self.settle(talk.may_be_left())

    def compare_beginning(self, talk):
        """What was read is the beginning of what the station has to say."""
        if not talk.wanted().startswith(talk.got):
            self.compare_octets("before a cut", talk.got, talk.wanted())

    def compare_call(self, talk, told):
        """The command that had the station call tells how the session ended."""
        if talk.session.called:
            out, err = self.calling.communicate(timeout=LONG)
            expect((self.calling.returncode, out, err), told_by_call(told), "the command `call`")

    def settle(self, registers):
        """The orders that waited were done to one of these registers, which is then that of the model."""
        answers = [answer_to(client) for _, client in self.waiting]
        found = tables.read(self.database) if len(registers) > 1 else None
        whys = []
        for register in reversed(registers):
            lines = [order.line(register) for order, _ in self.waiting]
            wanted = [(b"", line.strip()) for line, _ in lines]
            why = f"orders are answered {answers}, and not {wanted}" if answers != wanted else found and unlike(found, register)
            if not why:
                self.register = register
                self.told += [f"    done behind it: {line.strip()}" for line, _ in lines]
                return
            whys.append(why)
        raise Differs("; or ".join(whys))

    # an operator beside it

    def draw_order(self):
        chance = self.chance
        unanswered = self.unanswered()
        if unanswered and chance.random() < 0.5:
            return self.draw_answer(chance.choice(unanswered))
        if chance.random() < 0.2:
            return self.draw_answer(chance.randint(1, len(self.register.in_file) + 1))
        return self.draw_submission()

    def order_within(self):
        """An order that has to wait for the end of the session. Some commands are gone before that: nothing is done for them. The look-up
        shows nothing of it; it is answered only once the station has heard the order."""
        order = self.draw_order()
        book = (self.room / "book").read_bytes()
        client = self.beside.enter_context(self.station.asked(order.act, *order.words, book=book, content=order.content))
        if self.chance.random() < 0.15:
            self.told.append("    which is given up within the session")
            self.steps.update(["an order is given up"])
            client.close()
        else:
            self.told.append("    which waits for the end of the session")
            self.steps.update(["an order waits for the end"])
            self.waiting.append((order, client))
        self.look_up([self.register])

    def look_up_between(self):
        if self.chance.random() < 0.2:
            self.look_up([self.register])

    def look_up(self, registers):
        """A look-up, which shows what one of these registers has."""
        judge = self.chance.choice([self.report, self.fetch_any, self.request, self.request])()
        whys = [judge(register) for register in registers]
        if all(whys):
            raise Differs("; or ".join(whys))

    # Each of these asks, and returns what says of a register how it differs, or None.

    def report(self):
        kind = self.chance.choice(["in", "out", "issued", "received"])
        self.told.append(f"report {kind}")
        done = self.give("report", "--db", "database", kind)
        expect((done.returncode, done.stderr), (0, b""), "the report")
        return lambda register: why_not(compare_report, shown(register.tables()), kind, done.stdout.decode())

    def fetch_any(self):
        whole = [file["no"] for file in self.register.in_file if file["state"] == "whole"]
        number = self.chance.choice(whole or [1]) if self.chance.random() < 0.8 else self.chance.randint(1, len(self.register.in_file) + 1)
        found = self.fetch(number)
        return lambda register: why_not(expect, found, fetched_of(register, number), f"fetch {number}")

    def request(self):
        chance = self.chance
        numbers = [f"/{side}/{chance.randint(1, len(getattr(self.register, f'{side}_file')) + 1)}" for side in ("in", "out")]
        target = chance.choice(["/in", "/out", "/responses", *numbers])
        self.told.append(f"GET {target}")
        reply = ask(self.station, [f"GET {target} HTTP/1.1".encode() + END + END], port=self.requests)
        return lambda register: why_not(expect, reply, reply_for(shown(register.tables()), target), f"the reply for {target}")


def why_not(test, *given):
    """Why a test fails, or None."""
    try:
        test(*given)
    except Wrong as why:
        return str(why)
    return None


def write_pieces(sink, octets, sizes, most):
    """Writes octets so that each read gets a piece of a random size."""
    at = 0
    try:
        while at < len(octets):
            at += os.write(sink, octets[at : at + sizes.randint(1, most)])
    except BrokenPipeError:
        pass  # the session ended before its input did
    os.close(sink)


# -- many lives


def play_life(seed, room, staying):
    """Plays the life of a seed, which determines its kind. It returns the life, and what differs, in words, or None."""
    life = random.Random(f"kind {seed}").choice([Life, ServedLife, ResidentLife])(seed, room, staying)
    try:
        life.live()
    except (Differs, Wrong, tables.Damaged, subprocess.SubprocessError, OSError, LookupError, ValueError) as why:
        said = why if isinstance(why, Differs) else repr(why)
        return life, f"seed {seed}:\n  " + "\n  ".join([*life.told, f"BUT {said}"])
    return life, None


def work(share):
    """Plays one life after another, until the time is over, this many sessions were held, or something differs. It returns the sessions,
    the steps, the memory and descriptors of the services, and what went wrong."""
    seeds, deadline, most = share
    sessions, steps, told, whys = 0, collections.Counter(), [], []
    with tempfile.TemporaryDirectory() as path, contextlib.ExitStack() as stack:
        staying = Staying(Path(path), stack)
        for seed in seeds:
            life, why = play_life(seed, Path(path), staying)
            sessions += life.sessions
            steps += life.steps
            whys += [why] if why else []
            if why or sessions >= most or time.monotonic() > deadline:
                break
        if not whys:
            told, whys = staying.settle()
    return sessions, steps, told, whys


class Played:
    """What was played so far: sessions, steps, and how many lives differed."""

    def __init__(self, taken):
        self.jobs = min(taken.jobs, taken.sessions or taken.jobs)
        self.most = -(-(taken.sessions or 10**9) // self.jobs)
        self.first = taken.seed
        self.sessions = 0
        self.failed = 0
        self.steps = collections.Counter()

    def play(self, seconds):
        """Plays lives of new seeds for this many seconds, in a process for each job."""
        deadline = time.monotonic() + seconds
        shares = [(range(self.first + job, self.first + SEEDS, self.jobs), deadline, self.most) for job in range(self.jobs)]
        self.first += SEEDS
        with multiprocessing.Pool(self.jobs) as pool:
            for sessions, steps, told, whys in pool.imap_unordered(work, shares):
                self.sessions += sessions
                self.steps += steps
                self.failed += len(whys)
                print("".join(f"{line}\n" for line in whys + told), end="", flush=True)

    def missing(self):
        return sorted(WANTED - set(self.steps))


def main():
    parser = argparse.ArgumentParser(description=__doc__.splitlines()[0])
    parser.add_argument("--seconds", type=float, default=20)
    parser.add_argument("--minutes", type=lambda count: 60 * float(count), dest="seconds", default=argparse.SUPPRESS)
    parser.add_argument("--seed", type=int, default=random.randrange(10**9))
    parser.add_argument("--sessions", type=int)
    parser.add_argument("--jobs", type=int, default=os.cpu_count())
    parser.add_argument("--steps", action="store_true")
    taken = parser.parse_args()
    if Path("/dev/shm").is_dir():
        tempfile.tempdir = "/dev/shm"
    print(f"seed {taken.seed}", flush=True)
    played = Played(taken)
    played.play(taken.seconds)
    last = time.monotonic() + LONGEST
    while played.missing() and not taken.sessions and not played.failed and time.monotonic() < last:
        played.play(10)
    if taken.steps:
        print("\n".join(f"{count:8} {step}" for step, count in sorted(played.steps.items())))
    if played.missing():
        played.failed += not taken.sessions
        print(f"never seen: {', '.join(played.missing())}")
    print(f"{played.steps.total()} steps, {len(played.steps)} of them different, in {played.sessions} sessions")
    print(f"{played.sessions} passed, {played.failed} failed")
    return 1 if played.failed or not played.sessions else 0


if __name__ == "__main__":
    sys.exit(main())
