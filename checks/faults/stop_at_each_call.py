#!/usr/bin/env python3
"""Stops each command of a day and of some rows at each of its calls on the database, and refuses its allocations one after another.

    checks/faults/stop_at_each_call.py [--allocations N|all] [--every N] [--refuse] [ROW ..]

        --allocations N    N allocations of each command, evenly spread (default: 25), or all
        --every N          each Nth call (default: each)
        --refuse           only allocations, no calls
        ROW ..             these of the rows below (default: all)

The commands are those of the rows below, each over the database that the ones before it left. At each call that changes a file of the
database the program is killed before the call, or killed after half of a write. Or it gets an error, then and at each later call. Each time,
the output has to be a beginning of the whole answer, except for a final ESID 08. The tables, read by stock sqlite3 and listed by the
program, have to hold all that it answers, and at most the next change. Then the command runs again, and ends as usual. A session also goes
on as the model of a station does (checks/lib/model.py). A file that was received in part continues from the Restart position that the
station answers, and is fetched whole. It needs a C compiler. The last line is `N passed, M failed`.

Shows: where there is a C compiler: each command of the day and of seven more rows is killed, torn and failed. That is at each write and sync
on the database. Each has 25 of its allocations refused. Then a partner's file goes on and is fetched whole. It prints how many of how many
calls and allocations were tried, and fails where a command that writes isn't stopped
"""

import argparse
import os
import shutil
import subprocess
import sys
import tempfile
from concurrent.futures import ThreadPoolExecutor
from pathlib import Path

sys.path.insert(0, str(Path(__file__).resolve().parents[1] / "lib"))

import acts
import goes_on
import model
import oftp
import tables
from goes_on import Wrong
from program import PROGRAM
from row_files import ROWS, Call, Row, Session, content
from shims import compile_library, stopping

# The rows, and the octets of the file that the partner sends in them, if it then continues it.
STOPPED = {
    "day/a_day": content(0, 2500),
    "receiving/empty_file": b"",
    "receiving/wrong_count": None,
    "taken_up/broken_and_taken_up": content(0, 2500),
    "listening/repeated_end_response": None,
    "sending/three_octets_out": None,
    "sending/refusal_goes_out": None,
    "operator/migrated": None,
}
NO_RESOURCES = oftp.frame(oftp.spell("ESID", {"reason": "08"}))
# Rows whose first session also runs in memory, with each of its allocations refused.
IN_MEMORY = ["receiving/empty_file", "taken_up/broken_and_taken_up", "listening/repeated_end_response"]
OURS = {"about": [{"id": 1, "schema": 2}]}
# What the program may report if the disk fails, which may also be the disk of a fetched file, and if memory is refused.
FAULTS = {
    "fail": ["fault: 6 store 1\n", "fault: 3 office\n", "fault: 7 file\n"],
    "refuse": ["fault: 4 memory\n", "fault: 3 office\n", "fault: 6 store 2\n"],
}


def given(words, room, environment):
    """Runs the program with these arguments in a folder."""
    return subprocess.run(words, cwd=room, capture_output=True, env={**os.environ, **environment}, check=False, timeout=60)


class Command:
    """A command of a row, with its folder, its output, and the tables that it may leave."""

    def __init__(self, act, base, file):
        self.act = act
        self.base = base
        # A session in which the station calls sends no file of the partner's.
        self.file = None if isinstance(act, Call) or act.role else file
        self.name = act.words[0] if isinstance(act, Call) else f"session {len(act.joined('in'))}"
        with tempfile.TemporaryDirectory() as room:
            self.line, self.whole, _, self.left = self.run(Path(room), {})
            self.pieces = []
            self.states = self.all_states()

    def all_states(self):
        """The tables one after another, with the number of octets that are out by then. Each change of a session is made before the frame
        that answers it, as in the model of a station."""
        before = tables.read(self.base / "database")
        opened = before if before["about"] else {**model.Register().tables(), **OURS}
        states = [(0, before), (0, opened)]
        if isinstance(self.act, Call):
            return [*states, (0, self.left)]
        register = goes_on.register_of(opened)
        self.pieces = [out for out, _ in goes_on.after_pieces(self.act, register)]
        session = goes_on.session_of(self.act, register)
        model.play(session, self.act.joined("in"))
        return states + [(out, {**found, **OURS}) for out, found in session.moments]

    def lacks(self, how):
        """Why there should be a call that is stopped in this way, or None: each command allocates memory, and one that changes tables
        writes."""
        if how == "refuse":
            return "takes memory, and no allocation is refused"
        return "changes the tables, and no call on the database is stopped" if self.left != self.states[0][1] else None

    def run(self, room, environment):
        """Runs the command in a copy of its folder. It returns the output, the octets out, the status, and the tables left."""
        shutil.copytree(self.base, room, dirs_exist_ok=True)
        done = given(self.words(room), room, environment)
        out = acts.octets_in(room / "answer") if isinstance(self.act, Session) else b""
        return done.stdout, out, (done.returncode, done.stderr.decode()), tables.read(room / "database")

    def words(self, room):
        if isinstance(self.act, Session):
            source = room / "given"
            source.write_bytes(self.act.joined("in"))
            return acts.words_of(self.act, room / "database", source, room / "answer")
        options = {"--db": room / "database", "--book": self.act.book}
        taken = [word for option in acts.OPTIONS[self.act.words[0]] for word in (option, options[option])]
        return [PROGRAM, self.act.words[0], *taken, *self.act.words[1:]]

    def stop(self, how, number, library):
        """Stops the command at this call. It returns whether there is such a call."""
        with tempfile.TemporaryDirectory() as path:
            room = Path(path) / "room"
            reached = Path(path) / "reached"
            line, out, ended, left = self.run(room, stopping(how, number, library, reached))
            if not reached.exists():
                return False
            self.judge(how, line, out, ended, left)
            self.judge_next(room, left)
        return True

    def judge(self, how, line, out, ended, left):
        status, told = ended
        if status == 0 or (status, line) == (1, self.line):
            if (line, out, left) != (self.line, self.whole, self.left):
                raise Wrong("it ended as always, and left something else")
            return
        if how in FAULTS and (status != 1 or told not in FAULTS[how]):
            raise Wrong(f"status {status}, {told!r}")
        if how not in FAULTS and status != -9:
            raise Wrong(f"status {status}, {told!r}")
        if told == "fault: 7 file\n" and self.name != "fetch":
            raise Wrong("no file is made")
        if told == "fault: 3 office\n" and isinstance(self.act, Session):
            if not out.endswith(NO_RESOURCES):
                raise Wrong("the partner isn't told by ESID 08")
            out = out[: -len(NO_RESOURCES)]
        if not self.whole.startswith(out) or not self.line.startswith(line):
            raise Wrong(f"what came out begins no whole answer: {len(out)} octets, {line!r}")
        if left not in self.allowed(line, out):
            raise Wrong(f"{len(out)} octets and {line!r} are out, and the tables don't fit them")

    def allowed(self, line, out):
        """The tables that may be left: those with each change that an octet answered, and at most those of the piece that was heard next."""
        if line:
            return [self.left]
        first = max((at for at, (there, _) in enumerate(self.states) if there < len(out)), default=0)
        last = next((until for until in self.pieces if until > len(out)), len(out))
        return [left for there, left in self.states[first:] if there <= last]

    def judge_next(self, room, left):
        """The program opens what is left, changes nothing of it, and does the same command again."""
        database = room / "database"
        if left["about"] == OURS["about"]:
            done = given([PROGRAM, "report", "--db", database, "in"], room, {})
            if done.returncode != 0 or len(done.stdout.splitlines()) != 1 + len(left["in_file"]) or tables.read(database) != left:
                raise Wrong(f"the program tells other tables: status {done.returncode}, {done.stdout!r}, {done.stderr!r}")
        if isinstance(self.act, Session):
            goes_on.go_on(self.act, room, left, self.file)
            return
        done = given(self.words(room), room, {})
        if done.stderr or tables.read(database) != self.left:
            raise Wrong(f"given again, it doesn't end as always: {done.stdout!r}, {done.stderr!r}")


class InMemory(Command):
    """A session with a register in memory, which leaves no tables."""

    def words(self, room):
        (room / "given").write_bytes(self.act.joined("in"))
        return acts.words_of(self.act, None, room / "given", room / "answer")

    def all_states(self):
        return [(0, self.left)]

    def judge_next(self, room, left):
        if self.run(room, {}) != (self.line, self.whole, (0, ""), self.left):
            raise Wrong("with ample memory it doesn't end as always")


def commands_of(name, file, room):
    """Each command of a row except reports, with the folder as the ones before it left it."""
    now = room / name.replace("/", "_")
    now.mkdir()
    for number, act in enumerate(Row(ROWS / f"{name}.row").acts):
        base = room / f"{now.name}_{number}"
        shutil.copytree(now, base)
        if isinstance(act, Session) or (isinstance(act, Call) and act.words[0] != "report"):
            yield Command(act, base, file)
        why = acts.play_act(acts.in_one_piece, act, now, now / "database")
        if why:
            raise SystemExit(f"{name} goes otherwise: {why}")
        for name in ("given", "answer"):
            (now / name).unlink(missing_ok=True)


def all_commands(room, names):
    for name in names:
        yield from commands_of(name, STOPPED[name], room)
    (room / "empty").mkdir()
    for name in IN_MEMORY:
        if name in names:
            yield InMemory(Row(ROWS / f"{name}.row").sessions()[0], room / "empty", None)


def count_of(command, library, how):
    """The number of calls of a command at which it can be stopped."""
    if not is_there(command, library, how, 1):
        return 0
    count = 1
    while is_there(command, library, how, 2 * count):
        count *= 2
    low, high = count, 2 * count
    while high - low > 1:
        middle = (low + high) // 2
        low, high = (middle, high) if is_there(command, library, how, middle) else (low, middle)
    return low


def is_there(command, library, how, number):
    with tempfile.TemporaryDirectory() as path:
        reached = Path(path) / "reached"
        room = Path(path) / "room"
        shutil.copytree(command.base, room)
        given(command.words(room), room, stopping(how, number, library, reached))
        return reached.exists()


def ways_of(command, taken):
    """The ways in which a command is stopped."""
    return ["refuse"] if taken.refuse or isinstance(command, InMemory) else ["kill", "tear", "fail", "refuse"]


def numbers_of(command, how, count, taken):
    """The calls at which a command is stopped: each, each Nth, or some that are evenly spread."""
    if how != "refuse":
        return range(1, count + 1, taken.every)
    is_each = taken.allocations == "all" or isinstance(command, InMemory)
    return range(1, count + 1, 1 if is_each else max(count // int(taken.allocations), 1))


def stop_each(command, how, numbers, library, runners):
    """Stops a command at each of these calls. It returns how many went well, and what went wrong."""

    def one(number):
        try:
            return None if command.stop(how, number, library) else "there is no such call"
        except (Wrong, tables.Damaged, subprocess.SubprocessError) as why:
            return str(why)

    return [f"{command.name}, {how} at {number}: {why}" for number, why in zip(numbers, runners.map(one, numbers)) if why]


def stop_in_all_ways(command, taken, libraries, runners):
    """Stops a command in each way at its calls, and prints how often. It returns how many went well, and what went wrong."""
    passed, failed, tried = 0, 0, []
    for how in ways_of(command, taken):
        library = libraries["refuse" if how == "refuse" else "fail"]
        count = count_of(command, library, how if how == "refuse" else "fail")
        numbers = numbers_of(command, how, count, taken)
        faults = stop_each(command, how, numbers, library, runners)
        if not numbers and command.lacks(how):
            faults = [f"{command.name}, {how}: it {command.lacks(how)}"]
        print("\n".join(faults[:5]), end="\n" if faults else "")
        failed += len(faults)
        passed += max(len(numbers) - len(faults), 0)
        tried.append(f"{how} at {len(numbers)} of {count}")
    print(f"{command.name}: {', '.join(tried)}", flush=True)
    return passed, failed


def read_words():
    parser = argparse.ArgumentParser(description=__doc__.splitlines()[0])
    parser.add_argument("--allocations", default="25")
    parser.add_argument("--every", type=int, default=1)
    parser.add_argument("--refuse", action="store_true")
    parser.add_argument("rows", nargs="*", metavar="ROW")
    taken = parser.parse_args()
    if not set(taken.rows) <= set(STOPPED):
        parser.error(f"the rows are {', '.join(STOPPED)}")
    if taken.allocations != "all" and not taken.allocations.strip("0").isdecimal():
        parser.error("--allocations takes a number from 1 on, or all")
    return taken


def main():
    taken = read_words()
    passed, failed = 0, 0
    with tempfile.TemporaryDirectory() as path, ThreadPoolExecutor(max_workers=os.cpu_count()) as runners:
        room = Path(path)
        libraries = {how: compile_library(room, name) for how, name in (("fail", "stop_calls"), ("refuse", "refuse_allocation"))}
        for command in all_commands(room, taken.rows or STOPPED):
            well, ill = stop_in_all_ways(command, taken, libraries, runners)
            passed += well
            failed += ill
    print(f"{passed} passed, {failed} failed")
    return 1 if failed or not passed else 0


if __name__ == "__main__":
    sys.exit(main())
