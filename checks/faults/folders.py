#!/usr/bin/env python3
"""Has files collected into a folder and offered from one, and kills the command, or the station that holds the database, at random moments.

    checks/faults/folders.py [--seconds N | --minutes N] [--seed N]       20 seconds, and another seed each time, where none is given

Each trial begins with a database of incoming files, some of them open, some answered, and a folder with files of others. It calls `collect`, with its
release or without, until a call comes to an end. Or it puts files into two folders, under the same names and moments of change, some of which were
there before. Then it calls `offer` for either until a call for each comes to an end. Each call but the last is killed, or the station is. Behind each
call the folders and the tables are looked at, by stock sqlite3. Of `collect`: no name in the folder has half a file or another's, and each file that
is released is there. Of `offer`: each file is in one place, and the register has none twice. Some calls of `offer` are given a record length that no
file has. Then each file in `refused` has its whole line, and a line without its file is that of one in `taken`. What is refused is put into the
folder again. Behind the last call each file that was to be collected is there once, and released once if that was asked for. Each file that was
offered is in the register once and is put away, and no line is left. One more call does nothing but tell what it leaves. It goes on behind its time
until enough of each were killed. The seed is printed, and at a failure all that is left is kept in a folder. The last line is `N passed, M failed`.

Shows: `collect`, and `offer` over two folders with files of the same names and times. They are killed by SIGKILL at random moments for 20 s
(`--minutes N` for longer), again and again until a call comes to an end. They are alone and beside a station, which is killed too. After each call no
file is half, another's or in two places. What is released is in the folder, and the register has no file twice. At the end each file that is whole
and unanswered is in the folder once, and released once with `--release`. Each that was offered is in the register once, and in `sent`. Another call
does nothing
"""

import argparse
import os
import random
import signal
import subprocess
import sys
import tempfile
import time
from pathlib import Path

sys.path.insert(0, str(Path(__file__).resolve().parents[1] / "lib"))

import filled
import tables
from killed import keep
from program import PROGRAM
from services import BOOK, CARMAKER, LONG, Resident, Wrong, expect

OURS = "O0013SUPPLIER"
DRAFT = ".oftp_station_"
# The lock, which a kill leaves in a folder.
LOCK = ".oftp_station_lock"
KILLED = -9
# How many commands have to be killed of each kind, and how many stations. Where fewer were when the time is up, it goes on for so many seconds
# at most.
KILLS = 3
LONGEST = 300
# After how many calls that are killed one is let go on to its end.
MOST_CALLS = 25
# What a command tells beside a station that is killed.
GONE = [b"fault: 3 office\n", b"fault: 6 store 1\n"]
# What incoming files are called, with the name that each has in the folder.
NAMES = {"A/B": "A+B", "..": "..", "-.&()": "-.&()", "A": "A", "SCHEDULE.1": "SCHEDULE.1", "Z" * 26: "Z" * 26}
OTHERS = {"lower.case": b"A", "NAME_WITH_A_LINE": b"B", ".HIDDEN": b"C"}
# What `offer` says of them each time.
LEFT = b"left: NAME_WITH_A_LINE: no dataset name\nleft: lower.case: no dataset name\n"
# What refuses each file, since no length is a multiple of 3, and the line for it.
IN_THREES = ("--format", "F", "--longest", "3")
IN_NONE = b"refused: 5 field\n"
# How many calls of a round do so, at most.
MOST_REFUSING = 4


class Trials:
    """The databases, the folders, and how many were killed."""

    def __init__(self, room, chance):
        self.room, self.chance = room, chance
        self.usual = {}
        self.counts = {}
        self.room_now = None
        self.station = None
        self.number = 0

    def count(self, what):
        self.counts[what] = self.counts.get(what, 0) + 1

    def is_enough(self):
        wanted = [f"{command}{beside}" for command in ("collect", "offer") for beside in ("", " beside a station", ", whose station is killed")]
        return all(self.counts.get(what, 0) >= KILLS for what in wanted)

    def trial(self):
        """A new database, alone or held by a station, and one of the commands over it."""
        self.number += 1
        self.room_now = self.room / str(self.number)
        self.room_now.mkdir()
        is_beside = self.chance.random() < 0.5
        self.database = self.room_now / "database"
        (self.collect if self.chance.random() < 0.5 else self.offer)(is_beside)
        self.end_station()
        # What is left of a trial that came out right isn't looked at again.
        subprocess.run(["rm", "-rf", self.room_now], check=True)

    def start_station(self):
        self.station = Resident(self.room_now)
        self.station.__enter__()

    def end_station(self):
        if self.station:
            self.station.program.kill()
            self.station.program.wait()
            self.station = None

    def words(self, command, *rest):
        return [PROGRAM, command, "--db", self.database, "--book", BOOK, *rest]

    def until_done(self, commands, look):
        """Gives one of the commands after another until a call of each comes to an end. Behind each call it is looked at what is left."""
        left = list(commands)
        for number in range(MOST_CALLS + len(commands)):
            words = self.chance.choice(left)
            told = self.call(words, number >= MOST_CALLS)
            look()
            if told is not None:
                expect(told[::2], (0, b""), f"the last call, which told {told}")
                left.remove(words)
                if not left:
                    return
        raise Wrong("no call comes to an end")

    def call(self, words, is_last):
        """Gives the command, and kills it, or the station, or lets it end. It returns what it printed, where it came to an end by itself."""
        name = f"{words[1]}{' beside a station' if self.station else ''}"
        usual = self.usual.setdefault(name, 0.1)
        kinds = ["nobody"] if is_last else ["the command"] * 4 + (["the station"] if self.station else []) + ["nobody"] * (self.chance.random() < 0.2)
        whom = self.chance.choice(kinds)
        begin = time.monotonic()
        with subprocess.Popen(words, stdout=subprocess.PIPE, stderr=subprocess.PIPE) as program:
            if whom != "nobody":
                time.sleep(self.chance.uniform(0, 1.1 * usual))
                (program if whom == "the command" else self.station.program).kill()
            out, err = program.communicate(timeout=LONG)
        told = program.returncode, out, err
        if whom == "nobody" or told[0] == 0:
            self.usual[name] = max(0.01, (2 * usual + time.monotonic() - begin) / 3)
        is_gone = told[0] == 1 and err in GONE and whom == "the station"
        if whom == "the station":
            self.station.program.wait(LONG)
            self.start_station()
        if told[0] == KILLED and whom == "the command":
            self.count(name)
            return None
        if is_gone:
            self.count(f"{words[1]}, whose station is killed")
            return None
        return told

    def tables(self):
        """The tables that are left. A station is suspended meanwhile, so that what is read is what a kill would leave."""
        if not self.station:
            return read(self.database)
        process = self.station.program
        process.send_signal(signal.SIGSTOP)
        os.waitid(os.P_PID, process.pid, os.WSTOPPED | os.WNOWAIT)
        try:
            return read(self.database)
        finally:
            process.send_signal(signal.SIGCONT)

    # ---- collect

    def collect(self, is_beside):
        """Incoming files are collected, in one call after another."""
        chance = self.chance
        wanted, others = self.fill()
        folder = self.room_now / "in"
        folder.mkdir()
        for name, octets in OTHERS.items():
            (folder / name).write_bytes(octets)
        releases = chance.random() < 0.6
        if is_beside:
            self.start_station()
        words = self.words("collect", "--to", folder, *(["--release"] if releases else []))

        def look():
            there = collected(folder)
            for name, octets in there.items():
                expect(name in wanted, True, f"whether {name} is to be collected")
                expect(octets == wanted[name][1], True, f"whether {name} has its octets")
            issued = [entry["no"] for entry in self.tables()["issued"]]
            expect(len(set(issued)), len(issued), "how many files are released, of the responses")
            missing = [name for name, (no, _) in wanted.items() if no in issued and name not in there]
            expect(missing, [], "what is released, and isn't there")

        before = dict(wanted)
        self.until_done([words], look)
        expect(collected(folder).keys(), before.keys(), "what is in the folder")
        issued = {entry["no"] for entry in self.tables()["issued"]}
        expect(issued - others, {no for no, _ in before.values()} if releases else set(), "what is released")
        done = subprocess.run(words, capture_output=True, timeout=LONG, check=False)
        expect((done.returncode, done.stdout, done.stderr), (0, b"", b""), "one more call")
        expect(sorted(path.name for path in folder.iterdir() if path.name in OTHERS), sorted(OTHERS), "the files of others")
        self.count("trials of collect")

    def fill(self):
        """A database of incoming files: the names that they are to have, with their numbers and octets; and the numbers that are answered."""
        chance = self.chance
        done = subprocess.run([PROGRAM, "init", "--db", self.database], capture_output=True, timeout=LONG, check=False)
        expect(done.stdout, b"done: init\n", "init")
        wanted, answered = {}, set()
        connection = filled.opened(self.database)
        connection.execute("BEGIN")
        for no in range(1, chance.randint(2, 12) + 1):
            name = chance.choice(list(NAMES))
            state = chance.choice(["whole"] * 4 + ["open", "answered"])
            octets = chance.randbytes(chance.choice([1, 1024, 1025, 50_000])) if state != "open" else b""
            clock = f"0800{no:06}"
            values = (no, name, "20240131", clock, CARMAKER, OURS, "open" if state == "open" else "whole")
            connection.execute("INSERT INTO in_file VALUES (?, ?, ?, ?, ?, ?, 'U', 0, '', ?)", values)
            rows = [(no, at // tables.BLOCK, octets[at : at + tables.BLOCK]) for at in range(0, len(octets), tables.BLOCK)]
            connection.executemany("INSERT INTO in_row VALUES (?, ?, ?)", rows)
            if state == "whole":
                wanted[f"{no:07}_{NAMES[name]}_20240131_{clock}_{CARMAKER}"] = (no, octets)
            if state == "answered":
                answered.add(no)
        connection.execute("COMMIT")
        connection.close()
        filled.settle(self.database)
        for no in answered:
            done = subprocess.run(self.words("release", str(no)), capture_output=True, timeout=LONG, check=False)
            expect(done.returncode, 0, "a release")
        return wanted, answered

    # ---- offer

    def offer(self, is_beside):
        """Files are put into two folders and offered, under the same names and moments of change, also again."""
        chance = self.chance
        folders = [self.room_now / name for name in ("out", "other")]
        for folder in folders:
            folder.mkdir()
            for name, octets in OTHERS.items():
                (folder / name).write_bytes(octets)
        if is_beside:
            self.start_station()
        names = [f"INV.{number}" for number in range(6)]
        moments = [1706770800_123400000 + number * 100_000 for number in range(2)]
        commands = [self.words("offer", "--to", CARMAKER, "--from", folder) for folder in folders]
        offered = {}

        def look():
            places = contents(folders)
            expect(shown(places), shown(offered), "the files that there are, each in one place, by the beginnings of their contents")
            handed_in = registered(self.tables())
            expect(len(set(handed_in)), len(handed_in), "how many files the register has, of their contents")
            gone = [octets for octets, place in places.items() if place.parent.name == "sent" and octets not in handed_in]
            expect(shown(gone), [], "what is put away, and isn't in the register")
            expect([folder for folder in folders if has_wrong_lines(folder)], [], "where a refused file and a line don't go together")

        for _ in range(chance.randint(1, 3)):
            for name in chance.sample(names, chance.randint(1, len(names))):
                moment = chance.choice(moments)
                for folder in folders:
                    octets = os.urandom(chance.choice([16, 1024, 40_000]))
                    draft = folder / "draft"
                    draft.write_bytes(octets)
                    os.utime(draft, ns=(moment, moment))
                    draft.rename(folder / name)
                    offered[octets] = name
            for _ in range(chance.randint(0, MOST_REFUSING)):
                self.call([*chance.choice(commands), *IN_THREES], False)
                look()
            self.until_done(commands, look)
            while any([put_back(folder) for folder in folders]):
                self.until_done(commands, look)
            expect([refused_in(folder) for folder in folders], [[], []], "what is left of refusals")
            places = contents(folders)
            expect({place.parent.name for place in places.values()}, {"sent"}, "where the files are")
            expect(shown(registered(self.tables())), shown(offered), "what the register has, by the beginnings of the contents")
        for folder, words in zip(folders, commands):
            done = subprocess.run(words, capture_output=True, timeout=LONG, check=False)
            expect((done.returncode, done.stdout, done.stderr), (0, LEFT, b""), "one more call")
            expect(sorted(path.name for path in folder.iterdir() if path.is_file()), sorted(OTHERS), "the files of others")
        for entry in self.tables()["out_file"]:
            name = f"{entry['no']:07}_{entry['dataset']}_{entry['date']}_{entry['time']}_{CARMAKER}"
            octets = next(path for path in (folder / "sent" / name for folder in folders) if path.exists()).read_bytes()
            expect(offered[octets], entry["dataset"], f"the name of {name}")
        self.count("trials of offer")


def read(database):
    found = tables.read(database)
    why = tables.unfit(found)
    if why:
        raise Wrong(why)
    return found


def collected(folder):
    """What is in the folder beside the files of others, and drafts that nobody finished."""
    paths = [path for path in folder.iterdir() if path.name not in OTHERS and not path.name.startswith(DRAFT)]
    return {path.name: path.read_bytes() for path in paths}


def refused_in(folder):
    """What is in the folder of refused files, and their lines."""
    refused = folder / "refused"
    return sorted(refused.iterdir()) if refused.exists() else []


def has_wrong_lines(folder):
    """Whether a refused file hasn't its whole line beside it. Or a line is neither that of a refused file nor that of a taken one."""
    for path in refused_in(folder):
        if path.suffix == ".line":
            dataset, date, clock, code = path.stem.split("_")
            is_right = path.with_suffix("").exists() or (folder / "taken" / f"{date}_{clock}_{dataset}_{code}").exists()
        else:
            line = path.with_name(f"{path.name}.line")
            is_right = line.exists() and line.read_bytes() == IN_NONE
        if not is_right:
            return True
    return False


def put_back(folder):
    """Puts refused files into their folder again, without their lines. Whether there were any."""
    files = [path for path in refused_in(folder) if path.suffix != ".line"]
    for path in files:
        place = folder / path.name.split("_")[0]
        if not place.exists():
            path.rename(place)
            path.with_name(f"{path.name}.line").unlink()
    return bool(files)


def contents(folders):
    """Where each file is that was offered, by its octets. None is in two places."""
    places = {}
    for path in (path for folder in folders for path in folder.rglob("*")):
        if path.is_file() and path.name not in OTHERS and path.name != LOCK and path.suffix != ".line":
            octets = path.read_bytes()
            expect(octets in places, False, f"whether {path} is {places.get(octets)}, too")
            places[octets] = path
    return places


def shown(contents_of_files):
    """The beginnings of contents, which tell them apart."""
    return sorted(octets[:8].hex() for octets in contents_of_files)


def registered(found):
    """The contents of the outgoing files."""
    return [b"".join(tables.bodies(found, "out_file", entry["no"])) for entry in found["out_file"]]


def play(trials, seconds):
    begin = time.monotonic()
    while time.monotonic() - begin < seconds or not trials.is_enough():
        if time.monotonic() - begin > seconds + LONGEST:
            raise Wrong(f"too few were killed: {trials.counts}")
        trials.trial()


def main():
    parser = argparse.ArgumentParser(description=__doc__.splitlines()[0])
    parser.add_argument("--seconds", type=float, default=20)
    parser.add_argument("--minutes", type=float)
    parser.add_argument("--seed", type=int, default=random.randrange(1 << 32))
    taken = parser.parse_args()
    print(f"seed {taken.seed}", flush=True)
    with tempfile.TemporaryDirectory() as path:
        trials = Trials(Path(path), random.Random(taken.seed))
        try:
            play(trials, taken.minutes * 60 if taken.minutes else taken.seconds)
            why = None
        except (Wrong, OSError, subprocess.SubprocessError, tables.Damaged) as fault:
            trials.end_station()
            why = f"{type(fault).__name__}: {fault}; what is left is kept in {keep(path)}"
        finally:
            trials.end_station()
    print("; ".join(f"{what}: {count}" for what, count in sorted(trials.counts.items())))
    print(f"folders: {why or 'as they must be'}")
    print(f"{0 if why else 1} passed, {1 if why else 0} failed")
    return 1 if why else 0


if __name__ == "__main__":
    sys.exit(main())
