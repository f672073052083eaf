#!/usr/bin/env python3
"""Stops `run` at each of its calls on its database and its record within one life, and has another one go on.

    checks/faults/stop_a_life.py [--every N]      at each Nth call (default: 1)

In the life a file is submitted. A partner's file of 2,500 octets comes in two sessions, since it breaks off in the first. The submitted one goes
out in the second. The file is released; and the station calls, its End-to-End Response goes out, and the partner's comes. The partner sends one
command at a time, and between two of them something is looked up, mostly over HTTP. At the call on the database, or at the sync of its record, the
station is killed before the call, or killed after half of a write. Or it gets an error, then and at each later call. What is left has each change whose command told that it is
done, or of whose answer an octet was read. It has at most one change more, as in the model of a station (checks/lib/model.py). Another `run` opens
it, shows the same, and lives the life to its end. What broke is done again, by a partner that knows only what it heard. Then both files and both
responses are there, once. Both lives are recorded in one folder, and `replay` of that over a new database gives the same tables. It needs a C compiler.
The last line is `N passed, M failed`.

Shows: where there is a C compiler: `run` is killed, torn and failed at each write and sync on its database, and at each sync of its record, within
one life. In it are a submitted file that goes out, a partner's that comes in two sessions, its release, a call with both responses, and look-ups.
What is left has each change that was answered or told as done, and at most one more. Another `run` shows the same and lives the life to its end.
What both recorded, played again, gives the same tables
"""

import argparse
import os
import subprocess
import sys
import tempfile
from concurrent.futures import ProcessPoolExecutor
from pathlib import Path

sys.path.insert(0, str(Path(__file__).resolve().parents[1] / "lib"))

import goes_on
import model
import oftp
import replays
import tables
from lives import Life, wait
from row_files import ROWS, Session, content
from services import CARMAKER, LONG, Wrong, expect
from shims import compile_library, stopping

BOOK = ROWS / "books/usual.toml"
WAYS = ["kill", "tear", "fail"]
# The partner's file, and how many octets of it come in the first session; the file that is submitted for it.
FILE, FIRST = content(0, 2500), 2250
SUBMITTED = content(0, 250)
IDENTITY = {"dataset": "INV.0001", "date": "20240201", "time": "0800000001"}
NO_RESOURCES = oftp.frame(oftp.spell("ESID", {"reason": "08"}))
OFFICE, RECORD = b"fault: 3 office\n", b"fault: 7 file\n"
# How many lives are tried at once, until one of them goes through.
AT_ONCE = 16


class Stopped(Exception):
    """The station was stopped, which may have left one of these registers."""

    def __init__(self, registers):
        super().__init__()
        self.registers = registers


class Partner:
    """A partner that knows what it has sent and heard. It knows whether its file is answered, whether it has the station's, and whether its
    response to that is."""

    def __init__(self):
        self.is_answered = self.has_file = self.has_sent = False

    def next_command(self, session):
        """Its next command, by the phase of the station's session."""
        return getattr(self, f"when_it_{session.phase.replace(' ', '_')}")(session)

    def when_it_calls(self, _session):
        return oftp.spell("SSRM", {})

    def when_it_awaits_SSID(self, _session):
        return oftp.spell("SSID", {"code": CARMAKER, "password": "CARPW", "buffer": "128", "credit": "2", "mode": "B"})

    def when_it_listens(self, session):
        if not self.is_answered:
            return goes_on.offer(goes_on.GREATEST)[4:]
        if session.called and self.has_file and not self.has_sent:
            names = {"destination": "O0013SUPPLIER", "originator": CARMAKER}
            return oftp.spell("EERP", {**IDENTITY, **names})
        is_over = oftp.read(session.out[-1][4:])[0] == "CD"
        return oftp.spell("ESID", {"reason": "00"}) if is_over else oftp.spell("CD", {})

    def when_it_receives(self, session):
        at = session.taker.units()
        if at == len(FILE):
            return oftp.spell("EFID", {"records": "0", "units": str(at)})
        return next(goes_on.data_frames(FILE[at:]))[4:]

    def when_it_offers(self, _session):
        return oftp.spell("SFNA", {"reason": "13"}) if self.has_file else oftp.spell("SFPA", {"count": "0"})

    def when_it_sends(self, _session):
        return oftp.spell("CDT", {})

    def when_it_awaits_EFPA(self, _session):
        self.has_file = True
        return oftp.spell("EFPA", {})

    def when_it_awaits_RTR(self, _session):
        return oftp.spell("RTR", {})

    def hear(self, command, answer):
        """What the station answers to a command."""
        asked, (kind, fields) = oftp.KIND_OF[command[:1].decode()], oftp.read(answer[4:])
        self.is_answered |= kind == "EFPA" or (asked, kind, fields.get("reason")) == ("SFID", "SFNA", "13")
        self.has_sent |= (asked, kind) == ("EERP", "RTR")


class Lived(Life):
    """The life from one of its steps on, over this register."""

    steps = ["submit", "first_session", "second_session", "release", "call"]

    def __init__(self, room, partner, register, at, reached=None, **how):
        super().__init__(room, **how)
        self.partner = partner
        self.known = register
        self.at = at
        self.reached = reached
        self.is_ready = self.has_failed = False

    def live(self):
        for self.at in range(self.at, len(self.steps)):
            getattr(self, self.steps[self.at])()

    def serve(self, book):
        try:
            super().serve(book)
            self.is_ready = True
        except Wrong as why:
            raise self.stopped([self.known]) or why

    def register(self):
        return self.known.copied()

    def stopped(self, registers):
        """That the station was stopped, where it was, and may have left these registers."""
        return Stopped(registers) if self.reached and self.reached.exists() else None

    def order(self, command, words, do):
        """An operator's command, which does this to the register."""
        after = self.known.copied()
        try:
            wanted = 0, f"done: {command} {do(after)}\n".encode(), b""
        except model.Refused as why:
            wanted = 1, f"refused: {why}\n".encode(), b""
        done = self.station.give(command, *words)
        came = done.returncode, done.stdout, done.stderr
        if came != wanted:
            raise self.stopped([self.known, after]) or Wrong(f"{command} tells {came}, and not {wanted}")
        self.known = after

    def submit(self):
        (self.room / "file").write_bytes(SUBMITTED)
        fields = {**IDENTITY, "to": CARMAKER, "format": "U", "longest": 0, "description": ""}
        words = [word for name in (*IDENTITY, "to", "format") for word in (f"--{name}", fields[name])]
        self.order("submit", [*words, self.room / "file"], lambda register: model.submit(register, goes_on.book_of(BOOK), fields, SUBMITTED))

    def release(self):
        self.order("release", ["1"], lambda register: model.issue(register, 1, "EERP"))

    def first_session(self):
        self.converse([], FIRST)

    def second_session(self):
        self.converse([], None)

    def call(self):
        self.converse(["--role", "initiator", "--partner", CARMAKER], None)

    def converse(self, role, most):
        """A session, command by command, which the partner breaks off once it has sent so many octets of its file, if a number is given."""
        act = Session(BOOK)
        act.role = role
        talk = None
        try:
            with self.talk(act) as talk:
                self.say_all(talk, most)
                self.known = talk.session.register
        except (Wrong, OSError, subprocess.SubprocessError) as why:
            raise self.stopped(self.left_by(talk)) or why

    def next_line(self):
        """The line of a session, or of the station, where its record failed at the end of that."""
        told = super().next_line()
        self.has_failed = told.encode() + b"\n" == RECORD
        return told

    def left_by(self, talk):
        """What may be left of a session: the register of the last answer of which an octet was read, and the next one."""
        if talk is None:
            return [self.known]
        talk.got = talk.got.removesuffix(NO_RESOURCES)
        if not talk.wanted().startswith(talk.got):
            raise Wrong(f"before its stop the station said {talk.got[-40:]!r}")
        return talk.may_be_left()

    def say_all(self, talk, most):
        session = talk.session
        wait(talk)
        while session.end is None:
            if most and session.phase == "receives" and session.taker.units() >= most:
                talk.cut(is_reset=False)
                expect(self.told(talk), f"session {CARMAKER} in: end: input", "the line")
                return
            command, said = self.partner.next_command(session), len(session.out)
            talk.say(oftp.frame(command))
            wait(talk)
            if len(session.out) > said:
                self.partner.hear(command, session.out[said])
            if not session.end:
                self.look(session.register)
        why = self.finish(talk, talk.wanted(), talk.ends())
        if why:
            raise Wrong(why)

    def expect_whole(self):
        """Both files and both responses are there, once."""
        found = tables.read(self.database)
        expect(tables.unfit(found), None, "the tables")
        expect([(file["state"], b"".join(tables.bodies(found, "in_file", 1))) for file in found["in_file"]], [("whole", FILE)], "what came")
        expect([(file["dataset"], file["state"]) for file in found["out_file"]], [("INV.0001", "delivered")], "what went out")
        expect([(row["kind"], row["sent"]) for row in found["issued"]], [("EERP", 1)], "the response of the station")
        expect([(row["kind"], row["dataset"]) for row in found["received"]], [("EERP", "INV.0001")], "the response of the partner")


def play(how, number, library):
    """A life that is stopped in this way at the call of this number. It returns whether there is such a call."""
    with tempfile.TemporaryDirectory() as path:
        room, record, reached = (Path(path) / name for name in ("room", "record", "reached"))
        partner = Partner()
        room.mkdir()
        record.mkdir()
        with Lived(room, partner, model.Register(), 0, reached, record=record, environment=stopping(how, number, library, reached)) as life:
            try:
                life.serve(BOOK)
                life.live()
                left = life.known
            except Stopped as stop:
                left = register_left(life, how, stop.registers)
        with Lived(room, partner, left, life.at, record=record) as next_life:
            next_life.serve(BOOK)
            for _ in range(12):
                next_life.look(left)
            expect(next_life.unlike_left(left), None, "what the next station makes of it")
            next_life.live()
            next_life.expect_whole()
            next_life.end()
        replays.expect_same(Path(path), next_life.database, record, next_life.books)
        return reached.exists()


def register_left(life, how, registers):
    """Which of these registers is left: there is at most one change more than what was answered."""
    if len(registers) > 2:
        raise Wrong(f"{len(registers)} registers may be left")
    expect_ended(life, how)
    whys = [life.unlike_left(register) for register in registers]
    if None not in whys:
        raise Wrong(f"step {life.steps[life.at]}: {'; or '.join(whys)}")
    return registers[whys.index(None)]


def expect_ended(life, how):
    """The station has ended as one that is stopped in this way. What failed before it was ready was its first line. A sync of the record that failed is
    told as such."""
    told = life.station.rest()
    faults = [OFFICE, RECORD] if life.is_ready and not life.has_failed else [b""]
    wanted = [(-9, b"")] if how != "fail" else [(1, fault) for fault in faults]
    came = life.station.program.returncode, told[1]
    if came not in wanted:
        raise Wrong(f"it ends by {came}, and not by one of {wanted}")


def told(case):
    """Whether there is such a call, and why the case failed, or None."""
    try:
        return play(*case), None
    except (Wrong, Stopped, tables.Damaged, OSError, subprocess.SubprocessError) as why:
        return True, f"{case[0]} at call {case[1]}: {why!r}"


def stop_each(how, every, library, players):
    """Stops lives at each of these calls, until one goes through. It returns how many were stopped, and why some failed."""
    count, faults, at, is_there = 0, [], 1, True
    while is_there:
        came = list(players.map(told, [(how, number, library) for number in range(at, at + AT_ONCE * every, every)]))
        faults += [why for _, why in came if why]
        count += sum(was_there for was_there, _ in came)
        is_there = all(was_there for was_there, _ in came) and len(faults) < AT_ONCE
        at += AT_ONCE * every
    print("".join(f"{why}\n" for why in faults[:5]), end="")
    print(f"{how}: {count} lives stopped", flush=True)
    return count, faults


def main():
    parser = argparse.ArgumentParser(description=__doc__.splitlines()[0])
    parser.add_argument("--every", type=int, default=1)
    every = parser.parse_args().every
    if Path("/dev/shm").is_dir():
        tempfile.tempdir = "/dev/shm"
    counts, faults = [], []
    with tempfile.TemporaryDirectory() as room, ProcessPoolExecutor(max_workers=os.cpu_count()) as players:
        library = compile_library(Path(room), "stop_calls")
        for how in WAYS:
            count, whys = stop_each(how, every, library, players)
            counts.append(count)
            faults += whys
    print(f"{sum(counts) - len(faults)} passed, {len(faults)} failed")
    return 1 if faults or not all(counts) else 0


if __name__ == "__main__":
    sys.exit(main())
