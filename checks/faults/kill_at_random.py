#!/usr/bin/env python3
"""Kills the program by SIGKILL at random moments, and checks what it leaves.

    checks/faults/kill_at_random.py [--seconds N | --minutes N] [--seed N]       default: 30 seconds, and another seed each time

Each trial runs one command over the database that earlier trials left. It is a session in which a file is received, through a pipe in pieces of
random sizes, or in which a file is sent. It is a session in which responses are received, or sent; or it is `submit`, `release` or `refuse`. After a
random time it is killed, unless it ended before. Then stock sqlite3 reads the tables, and the program lists them by `report`. They have to hold all
changes that the octets and the lines answered. They hold at most the next one too, and what is in the same piece of the partner's octets. They never
hold less, and never half a change. The next trial goes on from there. The check goes on beyond its time until a trial of each kind was killed, and
fails if another five minutes bring none. The seed is printed. After a failure all files are kept in a folder.

Over each of the five databases `listen` and `http` run from the first trial to the last. Some of the sessions that receive something go to
that `listen`, and half of these are cut off. Between two trials a stranger calls, or a request asks for the database. The memory and
descriptors of the services at the end are compared with those at the beginning (checks/lib/staying.py). The last line is `N passed, M
failed`.

Shows: the program killed at random moments for 30 s (`--minutes N` for longer), and sessions of services that stay cut off. What was answered is
there
"""

import argparse
import contextlib
import random
import subprocess
import sys
import tempfile
import time
from pathlib import Path

sys.path.insert(0, str(Path(__file__).resolve().parents[1] / "lib"))

import tables
from killed import BLOCK, BUFFER, CREDIT, Station, Wrong, keep, rows_of
from staying import Services, frame

# How many octets of a file a full DATA carries: up to 63 after each header octet.
FULL = (BUFFER - 1) // 64 * 63 + max((BUFFER - 1) % 64 - 1, 0)
WINDOW = FULL * CREDIT
FILES_OF_A_DATABASE = 6
# How many octets of a session the program reads at once, at most. What is done of them before their answers go out is the next change, and all that
# follow it within such a piece.
PIECE = 65_536
# Some trials of each kind have to be killed. If there was none when the time is up, the check goes on for at most this many seconds.
LONGEST = 300
PARTNER = {"originator": "O0177CARMAKER", "destination": "O0013SUPPLIER"}
STAMP = {"date": "20240131", "time": "1015300001"}
OPENS = frame("SSID", code="O0177CARMAKER", password="CARPW", buffer=str(BUFFER), credit=str(CREDIT), mode="B")
ENDS = frame("ESID", reason="00")


def data_frames(octets):
    """The DATA of an unstructured file from a block on, each as full as the buffer allows."""
    frames = []
    for at in range(0, len(octets), FULL):
        piece = octets[at : at + FULL]
        payload = b"".join(
            bytes([min(63, len(piece) - begin) | (0x80 if at + begin + 63 >= len(octets) else 0)]) + piece[begin : begin + 63]
            for begin in range(0, len(piece), 63)
        )
        frames.append(frame("DATA", payload=payload))
    return frames or [frame("DATA", payload=b"\x80")]


def count(commands, kind):
    return sum(1 for which, _ in commands if which == kind)


class FileIn:
    """A file is received, and is offered again after each kill, from any position."""

    name = "a file comes in"

    def __init__(self, station):
        self.station = station
        self.number = 0
        self.begin_file()

    def begin_file(self):
        chance = self.station.chance
        if self.number % FILES_OF_A_DATABASE == 0:
            self.station.begin_anew()
            self.number = 0
        self.number += 1
        self.octets = chance.randbytes(chance.choice([0, 1, 5000, 200_000, 400_000, WINDOW * 10]))
        # What is left of it: its state and its number of blocks, or None if there is none.
        self.left = None

    def trial(self):
        chance = self.station.chance
        kept = self.left[1] if self.left else 0
        offered = chance.choice([0, kept, kept + 3, chance.randint(0, 600)])
        begin = min(offered, kept)
        frames = data_frames(self.octets[begin * BLOCK :])
        offer = frame("SFID", dataset=f"ASN.{self.number:04}", format="U", restart=str(offered), **STAMP, **PARTNER)
        end = frame("EFID", records="0", units=str(len(self.octets)))
        if self.is_whole():
            frames, end = [], b""
        commands, is_broken = self.station.session(self.name, b"".join([OPENS, offer, *frames, end, ENDS]))
        ends = self.ends(begin, len(OPENS + offer), [len(it) for it in frames], len(end))
        allowed = self.allowed(begin, ends, commands)
        self.look()
        if self.left not in (allowed if is_broken else allowed[-1:]):
            raise Wrong(f"{self.left} is left, and it should be one of {allowed}")
        if self.is_whole() and (count(commands, "EFPA") or count(commands, "SFNA")):
            self.begin_file()

    def is_whole(self):
        return self.left is not None and self.left[0] == "whole"

    def look(self):
        """Reads what is left of the file: its blocks are a beginning of those that were offered."""
        found = self.station.tables()
        file = [entry for entry in found["in_file"] if entry["no"] == self.number]
        bodies = tables.bodies(found, "in_file", self.number)
        if bodies != rows_of(self.octets)[: len(bodies)]:
            raise Wrong("the rows kept aren't those that came")
        self.left = (file[0]["state"], len(bodies)) if file else None

    def ends(self, begin, opened, frames, end):
        """The states one after another, each with the number of octets of the partner after which it is reached. They are before the file, once it
        has begun, after each window, and whole."""
        states = [(0, self.left), (opened, ("open", begin))]
        for windows in range(1, len(frames) // CREDIT + 1):
            states.append((opened + sum(frames[: windows * CREDIT]), self.kept_at(begin, windows)))
        return [*states, (opened + sum(frames) + end, ("whole", len(rows_of(self.octets))))]

    def allowed(self, begin, ends, commands):
        """What may be left: the last state that was answered, the next one, and those that the same piece brings."""
        if self.is_whole() or count(commands, "EFPA"):
            return [ends[-1][1]]
        answers = [fields for kind, fields in commands if kind == "SFPA"]
        if answers and answers[0].get("count", str(begin)) != str(begin):
            raise Wrong(f"the station takes the file from row {answers[0]}, not {begin}")
        first = 1 + count(commands, "CDT") if answers else 0
        following = ends[first + 1 :]
        return [ends[first][1], *(left for at, left in following if at < following[0][0] + PIECE)]

    def kept_at(self, begin, windows):
        """What is stored after this many windows: only full blocks."""
        return ("open", min(begin * BLOCK + windows * WINDOW, len(self.octets)) // BLOCK)


class FileOut:
    """A file is sent, and is offered again after each kill. The partner accepts it from any position, up to the offered one."""

    name = "a file goes out"

    def __init__(self, station):
        self.station = station
        self.number = 0
        self.begin_file()

    def begin_file(self):
        station = self.station
        if self.number % FILES_OF_A_DATABASE == 0:
            station.begin_anew()
            self.number = 0
        self.number += 1
        self.octets = station.chance.randbytes(station.chance.choice([0, 1, 5000, 200_000, 400_000, WINDOW * 10]))
        path = station.room / "file"
        path.write_bytes(self.octets)
        subprocess.run([*submission(station, f"INV.{self.number:04}"), path], check=True, capture_output=True)
        self.left = ("waiting", 0)

    def trial(self):
        chance = self.station.chance
        state, offered = self.left
        begin = chance.choice([offered, chance.randint(0, offered)])
        is_duplicate = state == "closing" and chance.random() < 0.5
        frames = data_frames(self.octets[begin * BLOCK :])
        answer = frame("SFNA", reason="13") if is_duplicate else frame("SFPA", count=str(begin))
        credits = frame("CDT") * (0 if is_duplicate else len(frames) // CREDIT)
        end = b"" if is_duplicate else frame("EFPA")
        octets = b"".join([frame("SSRM"), OPENS, answer, credits, end, ENDS])
        commands, is_broken = self.station.session(self.name, octets, *self.station.called())
        self.compare_frames(commands, offered, frames)
        allowed = [("handed", offered)] if is_duplicate else self.allowed(begin, len(frames), commands)
        if is_duplicate and not count(commands, "CD"):
            allowed = [self.left, *allowed]
        self.look()
        if self.left not in (allowed if is_broken else allowed[-1:]):
            raise Wrong(f"{self.left} is left, and it should be one of {allowed}")
        if self.left[0] == "handed":
            self.begin_file()

    def compare_frames(self, commands, offered, frames):
        """The octets out are those of the file, from the position that the partner asked for."""
        offers = [fields for kind, fields in commands if kind == "SFID" and fields]
        if offers and offers[0]["restart"] != str(offered):
            raise Wrong(f"row {offers[0]['restart']} is offered, not {offered}")
        sent = [fields["payload"] for kind, fields in commands if kind == "DATA" and fields]
        if any(frame("DATA", payload=payload) != wanted for payload, wanted in zip(sent, frames)):
            raise Wrong("the file goes out with other octets")

    def look(self):
        found = self.station.tables()
        if len(found["out_file"]) != self.number:
            raise Wrong(f"{len(found['out_file'])} files are there, and {self.number} were submitted")
        file = found["out_file"][-1]
        if tables.bodies(found, "out_file", self.number) != rows_of(self.octets):
            raise Wrong("the rows to be sent aren't those of the file")
        self.left = (file["state"], file["mark"])

    def allowed(self, begin, frames, commands):
        """What may be left: each state from the last answered one on, since all that the partner sends is one piece. A CDT that was read is
        answered by the next DATA, and the last one by EFID."""
        sent = count(commands, "DATA")
        states = self.states(begin, frames)
        if count(commands, "CD"):
            return states[-1:]
        if count(commands, "EFID"):
            return states[-2:]
        windows = -(-sent // CREDIT) - 1 if sent else 0
        return states[1 + windows if sent else 0 :]

    def states(self, begin, frames):
        """The states of the file: before the session, once the start is answered, after each CDT, when its end is sent, and at the end."""
        states = [self.left, ("waiting", 0) if self.left[0] == "closing" else self.left]
        for windows in range(1, frames // CREDIT + 1):
            states.append(("waiting", begin + min(windows * WINDOW, len(self.octets) - begin * BLOCK) // BLOCK))
        mark = states[-1][1]
        return [*states, ("closing", mark), ("handed", mark)]


def submission(station, dataset):
    """The words of a command that submits a file."""
    options = ["--dataset", dataset, "--date", STAMP["date"], "--time", STAMP["time"], "--to", "O0177CARMAKER", "--format", "U"]
    return station.words("submit", *options)


class Submission:
    """The operator submits files."""

    name = "submit"

    def __init__(self, station):
        self.station = station
        self.files = []

    def trial(self):
        station = self.station
        if len(self.files) >= 4 * FILES_OF_A_DATABASE:
            station.begin_anew()
            self.files = []
        octets = station.chance.randbytes(station.chance.choice([0, 10, 50_000, 300_000]))
        path = station.room / "file"
        path.write_bytes(octets)
        number = len(self.files) + 1
        line, _ = station.until_killed(self.name, [*submission(station, f"INV.{number:04}"), path])
        found = station.tables()
        self.check(octets, line, found)

    def check(self, octets, line, found):
        number = len(self.files) + 1
        if line and not f"done: submit {number}\n".encode().startswith(line):
            raise Wrong(f"it told {line!r}")
        if len(found["out_file"]) not in ([number] if line else [number - 1, number]):
            raise Wrong(f"it told {line!r}, and {len(found['out_file'])} files are there")
        if len(found["out_file"]) == number:
            self.files.append(octets)
        for at, wanted in enumerate(self.files, 1):
            if tables.bodies(found, "out_file", at) != rows_of(wanted) or found["out_file"][at - 1]["state"] != "waiting":
                raise Wrong(f"file {at} isn't the one that was submitted")


class Release:
    """The operator releases and refuses files that were received, and their responses are sent."""

    name = "release"
    files = 12

    def __init__(self, station):
        self.station = station
        self.begin_anew()

    def begin_anew(self):
        """A database with whole files."""
        station = self.station
        station.begin_anew()
        given = station.room / "given"
        files = [
            frame("SFID", dataset=f"ASN.{number:04}", format="U", **STAMP, **PARTNER)
            + frame("DATA", payload=b"\x80")
            + frame("EFID", records="0", units="0")
            for number in range(1, self.files + 1)
        ]
        given.write_bytes(b"".join([OPENS, *files, ENDS]))
        subprocess.run(station.words("feed", given, station.room / "answer"), check=True, capture_output=True)
        # The kind of each issued response, in order.
        self.issued = []
        self.sent = 0

    def trial(self):
        if self.sent == self.files:
            self.begin_anew()
        is_session = self.sent < len(self.issued) and (len(self.issued) == self.files or self.station.chance.random() < 0.4)
        if is_session:
            self.send()
        else:
            self.issue()

    def issue(self):
        number = len(self.issued) + 1
        kind = self.station.chance.choice(["EERP", "NERP"])
        words = ("release", str(number)) if kind == "EERP" else ("refuse", str(number), "12", "WRONG PLANT")
        line, _ = self.station.until_killed(self.name, self.station.words(*words))
        issued = self.look()
        if line and not f"done: {words[0]} {number}\n".encode().startswith(line):
            raise Wrong(f"it told {line!r}")
        if [row["kind"] for row in issued] not in ([*self.issued, kind], *([] if line else [self.issued])):
            raise Wrong(f"it told {line!r}, and {issued} are issued")
        self.issued = [row["kind"] for row in issued]

    def send(self):
        due = len(self.issued) - self.sent
        octets = b"".join([frame("SSRM"), OPENS, frame("RTR") * due, ENDS])
        commands, _ = self.station.session("responses go out", octets, *self.station.called())
        kinds = [kind for kind, _ in commands if kind in ("EERP", "NERP")]
        if kinds != self.issued[self.sent : self.sent + len(kinds)]:
            raise Wrong(f"{kinds} went out, of {self.issued} from {self.sent} on")
        issued = self.look()
        sent = [row["sent"] for row in issued]
        least = self.sent + (len(kinds) if count(commands, "CD") else max(len(kinds) - 1, 0))
        # The answers to all of them are one piece.
        if not least <= sum(sent) <= len(self.issued) or sent != sorted(sent, reverse=True):
            raise Wrong(f"{kinds} went out from {self.sent} on, and {sent} are sent")
        self.sent = sum(sent)

    def look(self):
        return self.station.tables()["issued"]


class Responses:
    """The partner sends responses to files that the station doesn't know."""

    name = "responses come"

    def __init__(self, station):
        self.station = station
        self.filed = 0

    def trial(self):
        if self.filed > 200:
            self.station.begin_anew()
            self.filed = 0
        # The partner sends again what wasn't answered, and the last one that was.
        first = max(self.filed - 1, 0)
        sent = [self.spelled(number) for number in range(first, first + 30)]
        commands, _ = self.station.session(self.name, b"".join([OPENS, *sent, ENDS]))
        answered = count(commands, "RTR")
        received = self.station.tables()["received"]
        least = max(self.filed, first + answered)
        ahead = 1 + PIECE // min(map(len, sent))
        if not least <= len(received) <= max(self.filed, first + min(answered + ahead, len(sent))):
            raise Wrong(f"{answered} were answered from {first} on, and {len(received)} are filed")
        for number, row in enumerate(received):
            if (row["dataset"], row["kind"]) != (f"INV.{number:04}", self.kind(number)):
                raise Wrong(f"response {number} is {row}")
        self.filed = len(received)

    def kind(self, number):
        return "NERP" if number % 3 == 0 else "EERP"

    def spelled(self, number):
        kind = self.kind(number)
        more = {"creator": "O0177CARMAKER", "reason": "09", "text": "NO PLANT"} if kind == "NERP" else {}
        return frame(kind, dataset=f"INV.{number:04}", **STAMP, **PARTNER, **more)


SCENARIOS = [FileIn, FileOut, Submission, Release, Responses]


class Running:
    """A scenario, and the services that run over its database."""

    def __init__(self, scenario, room, chance, stack):
        folder = room / scenario.__name__
        folder.mkdir()
        self.name = scenario.name
        self.chance = chance
        self.station = Station(folder, chance)
        self.station.services = stack.enter_context(Services(folder, self.station.book))
        self.scenario = scenario(self.station)
        self.trials = 0

    def go_on(self):
        """A trial, and then a caller of the services. It returns why that went wrong, or None."""
        try:
            self.scenario.trial()
            self.station.services.meet(self.chance)
        except (Wrong, tables.Damaged, OSError, subprocess.SubprocessError) as why:
            return f"{self.name}: {type(why).__name__}: {why}; it is kept in {keep(self.station.room)}"
        self.trials += 1
        return None

    def settle(self):
        """Prints what was done, and returns why it wasn't enough, or what was leaked."""
        told, whys = self.station.services.settle()
        cuts = f", {self.station.cuts} cut off" if self.station.cuts else ""
        print("\n    ".join([f"{self.name}: {self.trials} trials, {self.station.kills} programs killed{cuts}", *told]))
        return [f"{self.name}: {why}" for why in [*whys, *([] if self.station.kills else ["the program was never killed"])]]


def try_in_turn(running, seconds):
    """Trials of each scenario in turn until the time is up. It returns why one went wrong, or None."""
    end = time.monotonic() + seconds
    last = end + LONGEST
    while time.monotonic() < end or (time.monotonic() < last and not all(it.station.kills for it in running)):
        for it in running:
            why = it.go_on()
            if why:
                return why
    return None


def run_all(room, seconds, chance):
    """Runs the scenarios in parallel. It returns how many trials went well, and what went wrong."""
    with contextlib.ExitStack() as stack:
        try:
            running = [Running(scenario, room, chance, stack) for scenario in SCENARIOS]
        except Wrong as why:
            return 0, [f"before any trial: {why}"]
        why = try_in_turn(running, seconds)
        whys = [why] if why else [why for it in running for why in it.settle()]
    return sum(it.trials for it in running), whys


def main():
    parser = argparse.ArgumentParser(description=__doc__.splitlines()[0])
    parser.add_argument("--seconds", type=float, default=30)
    parser.add_argument("--minutes", type=lambda count: 60 * float(count), dest="seconds", default=argparse.SUPPRESS)
    parser.add_argument("--seed", type=int, default=random.SystemRandom().randrange(10**6))
    taken = parser.parse_args()
    print(f"seed {taken.seed}", flush=True)
    with tempfile.TemporaryDirectory() as room:
        passed, whys = run_all(Path(room), taken.seconds, random.Random(taken.seed))
    print("".join(f"{why}\n" for why in whys), end="")
    print(f"{passed} passed, {len(whys)} failed")
    return 1 if whys or not passed else 0


if __name__ == "__main__":
    sys.exit(main())
