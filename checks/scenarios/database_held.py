#!/usr/bin/env python3
"""Tries commands over a database that another process has locked.

    checks/scenarios/database_held.py

The holder is a session of the program that waits for its partner. Or it is this script, which takes the locks of SQLite as the program does.
A second command waits for the database. If it is released within ten seconds, the command is carried out. Otherwise the command ends with
`fault: 6 store 1`, and the holder's session goes on undisturbed. Meanwhile stock sqlite3 finds the database locked. A command that waits for
who writes or reads its pipe holds no database. All cases run in parallel, so it takes some twelve seconds. The last line is `N passed, M
failed`.

Shows: commands over a database that another process locks; `submit` and `fetch` that wait for who writes or reads their pipe, and lock none
"""

import fcntl
import os
import sqlite3
import subprocess
import sys
import tempfile
import time
from concurrent.futures import ThreadPoolExecutor
from pathlib import Path

sys.path.insert(0, str(Path(__file__).resolve().parents[1] / "lib"))

import row_files
from program import PROGRAM
from services import free_port

BOOK = row_files.ROWS / "books/usual.toml"
# Where SQLite's locks on a database file are: the pending, the reserved and the shared ones.
LOCKS = (1 << 30, 512)
PATIENCE = 10
# The time of a command besides its wait, on a loaded machine.
SLACK = 25
# How often a case that is late is repeated.
TIMES = 3


class Wrong(Exception):
    """A case that failed."""


class Late(Exception):
    """A case that shows nothing, because this machine was too busy for it to be in time."""


class SessionHolds:
    """A session of the program, which has greeted its partner and waits."""

    def __init__(self, database):
        source, self.sink = os.pipe()
        self.answers, answer = os.pipe()
        words = [PROGRAM, "feed", "--db", database, "--book", BOOK, f"/dev/fd/{source}", f"/dev/fd/{answer}"]
        self.program = subprocess.Popen(words, stdout=subprocess.PIPE, stderr=subprocess.PIPE, pass_fds=[source, answer])
        os.close(source)
        os.close(answer)
        row = row_files.Row(row_files.ROWS / "receiving/one_octet.row")
        self.steps = row.sessions()[0].steps
        self.greeting = os.read(self.answers, 4096)

    def give_up(self):
        """The partner goes on, and a file is received: nothing of the session is lost by what others tried."""
        octets = self.greeting
        for side, wanted in self.steps[1:]:
            if side == "in":
                os.write(self.sink, wanted)
            else:
                octets += os.read(self.answers, len(wanted))
        os.close(self.sink)
        out, err = self.program.communicate(timeout=30)
        os.close(self.answers)
        if (out, err) != (b"end: partner 00\n", b"") or octets != b"".join(wanted for side, wanted in self.steps if side == "out"):
            raise Wrong(f"the holder's session ended by {out!r}, {err!r}, after {len(octets)} octets")


class ScriptHolds:
    """This script, with the locks alone."""

    def __init__(self, database):
        self.file = open(database, "r+b")
        fcntl.lockf(self.file, fcntl.LOCK_EX | fcntl.LOCK_NB, LOCKS[1], LOCKS[0])

    def give_up(self):
        self.file.close()


def case(holder, command, seconds):
    """Locks a database for this many seconds, or until the command ends if there is no number, and runs the command meanwhile."""
    with tempfile.TemporaryDirectory() as room:
        database = Path(room) / "database"
        subprocess.run([PROGRAM, "init", "--db", database], check=True, capture_output=True)
        holds = holder(database)
        begin = time.monotonic()
        words = [PROGRAM, command[0], "--db", database, *command[1:]]
        waiting = subprocess.Popen(words, stdout=subprocess.PIPE, stderr=subprocess.PIPE)
        if seconds is None:
            out, err = waiting.communicate(timeout=PATIENCE + SLACK)
            holds.give_up()
        else:
            time.sleep(seconds)
            if waiting.poll() is not None and time.monotonic() - begin < PATIENCE - 1:
                raise Wrong(f"it didn't wait: {waiting.communicate()}")
            holds.give_up()
            given_up = time.monotonic() - begin
            out, err = waiting.communicate(timeout=PATIENCE + SLACK)
            if given_up > PATIENCE - 1:
                raise Late(f"it was given up after {given_up:.1f} s")
        check(waiting.returncode, out, err, time.monotonic() - begin, seconds)


def check(status, out, err, taken, seconds):
    if seconds is None:
        if (status, out, err) != (1, b"", b"fault: 6 store 1\n"):
            raise Wrong(f"status {status}, {out!r}, {err!r}")
        if not PATIENCE - 1 <= taken <= PATIENCE + SLACK:
            raise Wrong(f"it waited {taken:.1f} s")
    elif (status, err) != (0, b"") or out == b"":
        raise Wrong(f"status {status}, {out!r}, {err!r}")


def is_locked_for_others(holder, _command, _seconds):
    """Stock sqlite3 can't read while the program holds the database, and can afterwards."""
    with tempfile.TemporaryDirectory() as room:
        database = Path(room) / "database"
        holds = holder(database)
        connection = sqlite3.connect(database, timeout=0)
        try:
            connection.execute("SELECT * FROM about")
            raise Wrong("sqlite3 reads what is held")
        except sqlite3.OperationalError:
            pass
        finally:
            connection.close()
        holds.give_up()
        connection = sqlite3.connect(database, timeout=0)
        if connection.execute("SELECT * FROM about").fetchall() != [(1, 2)]:
            raise Wrong("sqlite3 reads other tables")
        connection.close()


def expect_free(database):
    """Another command finds the database free, long before it would give up. It returns the report of the outgoing files."""
    begin = time.monotonic()
    done = subprocess.run([PROGRAM, "report", "--db", database, "out"], capture_output=True, timeout=PATIENCE + SLACK, check=False)
    if (done.returncode, done.stderr) != (0, b"") or time.monotonic() - begin > PATIENCE - 1:
        raise Wrong(f"a report beside it: status {done.returncode}, {done.stderr!r}, after {time.monotonic() - begin:.1f} s")
    return done.stdout


def begun(*words):
    return subprocess.Popen([PROGRAM, *words], stdin=subprocess.PIPE, stdout=subprocess.PIPE, stderr=subprocess.PIPE)


def submitting(database, book, file="/dev/stdin"):
    """A command that submits a file, or what is written to it."""
    identity = ["--dataset", "INV.1", "--date", "20240201", "--time", "0800000001", "--to", "O0177CARMAKER", "--format", "U"]
    return begun("submit", "--db", database, "--book", book, *identity, file)


def expect_ended(program, wanted, written=b""):
    """It ends so, once this was written to it."""
    out, err = program.communicate(written, timeout=PATIENCE + SLACK)
    if (program.returncode, out, err) != wanted:
        raise Wrong(f"{program.args[1]} ended with status {program.returncode}, {out!r}, {err!r}")


def expect_submitted(database):
    if b",U,1,2,0,waiting," not in expect_free(database):
        raise Wrong(f"it submitted {expect_free(database)!r}")


def submits_what_comes(room):
    """`submit` reads a pipe before it opens the database. Its errors are told in the usual order."""
    database = room / "database"
    submit = submitting(database, BOOK)
    time.sleep(1)
    expect_free(database)
    expect_ended(submit, (0, b"done: submit 1\n", b""), b"hi")
    expect_submitted(database)
    expect_ended(submitting(database, room / "none", room), (1, b"", b"fault: 7 file\n"))
    expect_ended(submitting(database, BOOK, room), (1, b"", b"fault: 7 file\n"))
    holds = ScriptHolds(database)
    for program in [submitting(database, BOOK, room), submitting(database, BOOK)]:
        expect_ended(program, (1, b"", b"fault: 6 store 1\n"), b"hi")
    holds.give_up()


def submits_beside_who_comes(room):
    """What came from the pipe is submitted by a station that has started meanwhile."""
    database = room / "database"
    submit = submitting(database, BOOK)
    time.sleep(1)
    station = begun("run", "--db", database, "--book", BOOK, "--port", str(free_port()))
    try:
        line = station.stdout.readline()
        if line != b"ready\n":
            raise Wrong(f"the station told {line!r}, {station.stderr.read()!r}")
        expect_ended(submit, (0, b"done: submit 1\n", b""), b"hi")
    finally:
        station.kill()
        station.communicate()
    expect_submitted(database)


def fetches_into_a_pipe(room):
    """`fetch` closes the database before it opens a pipe, which waits for a reader."""
    database, given, pipe = room / "database", room / "given", room / "pipe"
    given.write_bytes(row_files.Row(row_files.ROWS / "receiving/one_octet.row").sessions()[0].joined("in"))
    expect_ended(begun("feed", "--db", database, "--book", BOOK, given, "/dev/null"), (0, b"end: partner 00\n", b""))
    os.mkfifo(pipe)
    expect_ended(begun("fetch", "--db", database, "2", pipe), (1, b"refused: 2 unknown\n", b""))
    fetch = begun("fetch", "--db", database, "1", pipe)
    try:
        time.sleep(1)
        expect_free(database)
        if pipe.read_bytes() != b"A":
            raise Wrong("another file was fetched")
        expect_ended(fetch, (0, b"done: fetch 1\n", b""))
    finally:
        fetch.kill()
        fetch.communicate()


def pipe(run, _command, _seconds):
    with tempfile.TemporaryDirectory() as room:
        run(Path(room))


CASES = [
    (case, SessionHolds, ["report", "in"], None),
    (case, ScriptHolds, ["init"], None),
    (case, SessionHolds, ["report", "in"], 2),
    (case, ScriptHolds, ["release", "--book", BOOK, "1"], None),
    (case, ScriptHolds, ["report", "out"], 4),
    (case, ScriptHolds, ["backup", "nowhere/copy"], None),
    (is_locked_for_others, SessionHolds, ["sqlite3"], 0),
    (pipe, submits_what_comes, ["submit"], 0),
    (pipe, submits_beside_who_comes, ["submit"], 0),
    (pipe, fetches_into_a_pipe, ["fetch"], 0),
]


def told(what):
    """Runs a case, once more if it was late. It returns the case, and why it failed, or None."""
    run, holder, command, seconds = what
    until = "until it ends" if seconds is None else f"for {seconds} s"
    name = f"{command[0]} over a database that {holder.__name__.replace('Holds', '').lower()} holds {until}"
    if run is pipe:
        name = holder.__name__.replace("_", " ")
    for _ in range(TIMES):
        try:
            run(holder, command, seconds)
        except Late as late:
            why = late
            continue
        except (Wrong, OSError, subprocess.SubprocessError) as wrong:
            return name, wrong
        return name, None
    return name, why


def main():
    failed = 0
    with ThreadPoolExecutor(max_workers=len(CASES)) as runners:
        for name, why in runners.map(told, CASES):
            failed += why is not None
            print(f"{name}: {why or 'as it must be'}")
    print(f"{len(CASES) - failed} passed, {failed} failed")
    return 1 if failed else 0


if __name__ == "__main__":
    sys.exit(main())
