#!/usr/bin/env python3
"""Takes backups of a database while files are submitted, and kills the command and the station that serves it at random moments.

    checks/faults/backups.py [--seconds N | --minutes N] [--seed N]       default: 20 seconds, and another seed each time

Two others submit one file after another, of a size that makes SQLite checkpoint often. Each trial takes a backup to the same name, and kills the
command, the station, or neither. Afterwards the name has the file from before or a whole backup. In that stock sqlite3 finds no error, and its tables
are those of a register. It has all that was answered before the backup began, and nothing that began after its end. The check goes on beyond its time
until enough of each were killed. At the end the database has all that was answered, and no temporary file is left beside the backup. A station opens
a copy of the last one. The seed is printed. After a failure all files are kept in a folder. The last line is `N passed, M failed`.

Shows: backups for 20 s (`--minutes N` for longer) of a station to which two others hand in files all the time. Either program is killed by SIGKILL at
random moments. The file at the name is the backup from earlier or a whole new one. Stock sqlite3 finds no error in it; it has all that was answered
before it began, and nothing that began after its end. No draft is left, and a station opens a copy
"""

import argparse
import os
import random
import shutil
import subprocess
import sys
import tempfile
import threading
import time
from pathlib import Path

sys.path.insert(0, str(Path(__file__).resolve().parents[1] / "lib"))

import tables
from killed import keep
from program import PROGRAM
from services import BOOK, CARMAKER, LONG, Resident, Wrong, expect

STAMP = ["--date", "20240201", "--time", "0800000001", "--to", CARMAKER, "--format", "U"]
# Some 15 pages of a database, which is checkpointed after 1,000.
SIZE = 40_000
DONE = (0, b"done: backup\n", b"")
KILLED = -9
# How many backups and how many stations have to be killed. If there were fewer when the time is up, the check goes on for at most this many
# seconds.
KILLS = 3
LONGEST = 300
# What a command may print while its station is killed.
GONE = [b"fault: 3 office\n", b"fault: 6 store 1\n"]


class Submitting(threading.Thread):
    """Submits one file after another, and notes those that it began and those that were answered."""

    def __init__(self, name, room, database):
        super().__init__()
        self.prefix = name
        self.file = room / "file"
        self.database = database
        self.begun, self.answered = [], []
        self.is_over = False
        self.why = None

    def run(self):
        while not (self.is_over or self.why):
            name = f"{self.prefix}.{len(self.begun)}"
            self.begun.append(name)
            words = [PROGRAM, "submit", "--db", self.database, "--book", BOOK, "--dataset", name, *STAMP, self.file]
            done = subprocess.run(words, capture_output=True, timeout=LONG, check=False)
            if done.returncode == 0:
                self.answered.append(name)
            elif done.stderr not in GONE:
                self.why = f"submit: {done}"


class Trials:
    """A station, those who submit files to it, and the name of the backups."""

    def __init__(self, room, chance):
        self.room, self.chance = room, chance
        (room / "file").write_bytes(os.urandom(SIZE))
        (room / "backups").mkdir()
        self.to = room / "backups/copy"
        self.station = self.started()
        self.others = [Submitting(name, room, self.station.database) for name in ("A", "B")]
        self.kept = None
        self.usual = 0.2
        self.count = self.done = self.commands_killed = self.stations_killed = 0

    def started(self):
        """A station that is ready. Those who submit may lock the database in turn for the ten seconds that one waits for it, on a busy machine. Then
        it is started again, as a supervisor does."""
        until = time.monotonic() + LONG
        while True:
            station = Resident(self.room)
            line = station.either()
            if line == "ready":
                return station
            station.program.wait(LONG)
            if line != "fault: 6 store 1" or time.monotonic() > until:
                raise Wrong(f"the station's first line: {line!r}")

    def names(self, which):
        return {name for other in self.others for name in getattr(other, which)}

    def trial(self):
        """A backup, during which the command or the station is killed, or neither."""
        whom = self.chance.choice(["nobody", "the command", "the station"])
        answered = self.names("answered")
        begin = time.monotonic()
        with subprocess.Popen(self.words(), stdout=subprocess.PIPE, stderr=subprocess.PIPE) as program:
            if whom != "nobody":
                time.sleep(self.chance.uniform(0, 1.2 * self.usual))
                (program if whom == "the command" else self.station.program).kill()
            out, err = program.communicate(timeout=LONG)
        told = program.returncode, out, err
        begun = self.names("begun")
        if told == DONE and whom == "nobody":
            self.usual = (2 * self.usual + time.monotonic() - begin) / 3
        self.count += 1
        self.done += told == DONE
        self.look(whom, told, answered, begun)
        if whom == "the station":
            self.stations_killed += 1
            self.station.program.wait(LONG)
            self.station = self.started()

    def words(self):
        return [PROGRAM, "backup", "--db", self.station.database, self.to]

    def look(self, whom, told, answered, begun):
        """The command printed one of the allowed results, and the name has the file that fits it."""
        is_killed = told[0] == KILLED and whom == "the command"
        is_gone = (told[0], told[1]) == (1, b"") and told[2] in GONE and whom == "the station"
        if not (told == DONE or is_killed or is_gone):
            raise Wrong(f"{told}, where {whom} was killed")
        self.commands_killed += is_killed
        octets = self.to.read_bytes() if self.to.exists() else None
        if told[1] != DONE[1] and octets == self.kept:
            return
        names = names_in(self.to)
        if not answered <= names <= begun:
            raise Wrong(f"without {answered - names}, with {names - begun}")
        self.kept = octets

    def is_enough(self):
        return min(self.commands_killed, self.stations_killed, self.done) >= KILLS

    def end(self):
        """Nobody submits any more. The last backup has everything, and no other file lies beside it."""
        for other in self.others:
            other.is_over = True
        for other in self.others:
            other.join()
        expect([other.why for other in self.others if other.why], [], "what went wrong")
        done = subprocess.run(self.words(), capture_output=True, timeout=LONG, check=False)
        expect((done.returncode, done.stdout, done.stderr), DONE, "the last backup")
        self.station.program.terminate()
        self.station.program.wait(LONG)
        expect(sorted(path.name for path in self.to.parent.iterdir()), ["copy"], "what lies beside the last backup")
        expect(tables.read(self.to), tables.read(self.station.database), "the tables of the last backup")
        expect(self.names("answered") - names_in(self.station.database), set(), "what was answered and isn't there")
        self.open()

    def open(self):
        """A station opens a copy of the last backup, and lists its files."""
        copy = self.room / "opened"
        shutil.copy(self.to, copy)
        done = subprocess.run([PROGRAM, "report", "--db", copy, "out"], capture_output=True, timeout=LONG, check=False)
        expect((done.returncode, done.stderr, done.stdout.count(b"\n")), (0, b"", len(names_in(self.to)) + 1), "its report")


def names_in(database):
    """The files in a database, whose tables have to be those of a register."""
    found = tables.read(database)
    why = tables.unfit(found)
    if why:
        raise Wrong(why)
    return {entry["dataset"] for entry in found["out_file"]}


def play(trials, seconds):
    for other in trials.others:
        other.start()
    begin = time.monotonic()
    while time.monotonic() - begin < seconds or not trials.is_enough():
        if time.monotonic() - begin > seconds + LONGEST:
            raise Wrong("too few were killed")
        trials.trial()
    trials.end()


def main():
    parser = argparse.ArgumentParser(description=__doc__.splitlines()[0])
    parser.add_argument("--seconds", type=float, default=20)
    parser.add_argument("--minutes", type=float)
    parser.add_argument("--seed", type=int, default=random.randrange(1 << 32))
    taken = parser.parse_args()
    print(f"seed {taken.seed}", flush=True)
    with tempfile.TemporaryDirectory() as path:
        trials = Trials(Path(path), random.Random(taken.seed))
        try:
            play(trials, taken.minutes * 60 if taken.minutes else taken.seconds)
            why = None
        except (Wrong, OSError, subprocess.SubprocessError, tables.Damaged) as fault:
            why = f"{type(fault).__name__}: {fault}; what is left is kept in {keep(path)}"
        finally:
            for other in trials.others:
                other.is_over = True
            trials.station.program.kill()
            trials.station.program.wait()
            for other in trials.others:
                if other.is_alive():
                    other.join()
    killed = f"{trials.commands_killed} commands and {trials.stations_killed} stations were killed"
    print(f"{trials.count} backups, of which {trials.done} were done; {killed}; {len(trials.names('answered'))} files were handed in")
    print(f"backups: {why or 'as they must be'}")
    print(f"{0 if why else 1} passed, {1 if why else 0} failed")
    return 1 if why else 0


if __name__ == "__main__":
    sys.exit(main())
