#!/usr/bin/env python3
"""What a station that keeps its database open takes for each command, request and session, as its register grows.

    checks/speed/growth.py [--assert] [--large] [--whole] [--only size|count]

Stock sqlite3 fills registers of 10 and 100 MiB in two files, and of 1,000 and 10,000 received and sent files. `--large` and `--whole` add one of 1
GiB and one of 100,000 files. Over each, `run` does what operators and partners ask for, each act several times. A line has the average of the
processor seconds of the station, and of those of the command that asked it. An act with the same result however large the register is may take at
most MOST times what it takes over the smallest one. A list may take MOST times the ratio of its numbers of entries. A session with files may also
take WALK for each answered response. It looks for the responses that are due once for all its files, past all of them, whether it receives or sends
files. A line says what this look took over a larger register. With `--whole` a line also has what the same act takes as a program of its own, with
its opening. It has how much memory that has. It also has what plain C over libsqlite3 (`plain_store.c`, `plain_register.c`) takes for it over the
same database without opening it. With `--assert` it fails if one takes longer. The last line is `N passed, M failed`.

Shows: a station that keeps its database open (`run`), over registers of 10 and 100 MiB and of 1,000 and 10,000 files. It shows what each command,
request and session takes of the processor. `--large` is for 1 GiB and 100,000 too. `--whole` is for these, and also with its opening, its memory,
and compared with plain C. It fails if one takes three times as long over the larger register. It fails if the time of a list grows more than three
times as much as the number of its entries. A session may take 50 ms more for 100,000 answered responses, however many files it has. Its one look
for a response that is due passes them, and a line says what that takes. With a program that read each row of a file to count its octets, the lists
failed
"""

import argparse
import sqlite3
import subprocess
import sys
import tempfile
from pathlib import Path
from typing import Callable, NamedTuple

sys.path.insert(0, str(Path(__file__).resolve().parents[1] / "lib"))

import services
from filled import BLOCK, MEBI, OURS, THEIRS, copied, fill_large, fill_many, settle
from holding import Holding, spoken, taken_answers
from listing_files import ask
from measured import run, run_quietly
from one_file import BOOK, FILE, data_frames, frame_of
from program import PROGRAM, ROOT

# How many times the time over the smallest register an act may take (2 is wanted), and the seconds that may be chance.
MOST = 3
NOISE = 0.002
# The seconds that a session may take to pass an answered response where it looks for those that are due: 50 ms for 100,000.
WALK = 0.050 / 100_000
# The act that shows what this look takes: the smallest session that has only one.
LOOKING = "10 KB come in"
SMALL = 10 * 1024
# How often each small act is done.
OFTEN = 20
# How many rows plain C reads at a time, like the station.
STEP = 64


class Register(NamedTuple):
    """A database: its name, its file, and how many files were received and sent before those that are added for the acts. Also how many of the
    received ones are answered, and how many times the smallest it is."""

    name: str
    database: Path
    came: int
    went: int
    answered: int
    times: int


class Act(NamedTuple):
    """An act: its name, its function, how often it is done, and whether its result has all entries. Also in how many parts one act is done. The
    last is whether it looks once in all its parts for the responses that are due, past all answered ones. `do` gets a station and how often it was
    done before. For a `Held` one it returns the processor seconds of the command. For an `Alone` one it returns what a program of its own took.
    `plain` has the arguments for plain C."""

    name: str
    do: Callable
    plain: Callable
    often: int = OFTEN
    is_list: bool = False
    parts: int = 1
    walks: bool = False


class Room:
    """A folder with what the runs need: a book, content, programs and the registers."""

    def __init__(self, path, is_large, is_whole):
        self.path = path
        self.is_large, self.is_whole = is_large, is_whole
        self.empty = path / "empty"
        run_quietly([PROGRAM, "init", "--db", self.empty])
        settle(self.empty)
        self.book = path / "book.toml"
        self.book.write_text(BOOK.format(buffer=16384, credit=99))
        self.content = path / "content"
        self.content.write_bytes(b"A" * SMALL)
        if is_whole:
            for name in ("plain_store", "plain_register"):
                run_quietly(["cc", "-O2", "-o", path / name, ROOT / f"checks/speed/{name}.c", "-lsqlite3"])

    def by_size(self):
        for mebis in (10, 100, 1024) if self.is_large else (10, 100):
            database = fill_large(self.empty, self.path / "register", mebis)
            yield with_small(Register(f"{mebis:,} MiB", database, 2, 0, 0, 1))

    def by_count(self):
        for count in (1_000, 10_000, 100_000) if self.is_large else (1_000, 10_000):
            database = fill_many(self.empty, self.path / "register", count)
            yield with_small(Register(f"{count:,} files", database, count, count, count, count // 1000))


def with_small(register):
    """The register with small received files that are whole and aren't answered: those that are released, and those that are refused."""
    connection = sqlite3.connect(register.database)
    with connection:
        for at in range(1, 2 * OFTEN + 1):
            values = (register.came + at, f"SMALL.{at}", "20240131", "1015300001", THEIRS, OURS)
            connection.execute("INSERT INTO in_file VALUES (?, ?, ?, ?, ?, ?, 'U', 0, '', 'whole')", values)
            rows = [(register.came + at, pos, b"A" * BLOCK) for pos in range(SMALL // BLOCK)]
            connection.executemany("INSERT INTO in_row VALUES (?, ?, ?)", rows)
    connection.close()
    settle(register.database)
    return register


class Held(Holding):
    """A station over a copy of a register, which it keeps open. Each act returns what the command beside it took."""

    def __init__(self, room, register):
        self.room, self.register, self.files = room, register, OFTEN
        super().__init__(room.path / "station", register.database, room.book)

    def session(self, *frames):
        super().session(*frames)
        return 0.0


class Alone:
    """A copy of a register that no station keeps open. Each act is a program of its own, which opens it."""

    def __init__(self, room, register):
        self.room, self.register, self.files = room, register, 1
        self.database = copied(register.database, room.path / "alone")

    def command(self, name, *words):
        return run([PROGRAM, name, "--db", self.database, *words])

    def request(self, target):
        service = Waiting(services.free_port())
        words = ["http", "--db", self.database, "--port", str(service.port), "--requests", "1"]
        return run([PROGRAM, *words], lambda: ask(service, [f"GET {target} HTTP/1.1\r\n\r\n".encode()]))

    def session(self, *frames):
        given, answer = self.room.path / "given", self.room.path / "answer"
        given.write_bytes(spoken(*frames))
        return self.command("feed", "--book", self.room.book, given, answer)


class Waiting(services.Service):
    """A service that another process starts: callers wait for it."""

    patience = Holding.patience

    def __init__(self, port):
        self.port = port
        self.program = self

    def poll(self):
        return None


class Plain:
    """A copy of a register for plain C."""

    def __init__(self, room, register):
        self.room, self.register = room, register
        self.database = copied(register.database, room.path / "plain")

    def taken(self, words):
        """The processor seconds of plain C, without opening the database."""
        program, act, *rest = words
        command = [self.room.path / program, act, self.database, *rest]
        told = subprocess.run([str(word) for word in command], check=True, capture_output=True, text=True).stdout.split()
        return (int(told[1]) - int(told[0])) / 1e9

    def receive(self, *frames):
        given, answer = self.room.path / "given", self.room.path / "answer"
        given.write_bytes(spoken(*frames))
        return ["plain_store", "receive", given, answer, 99]

    def send(self):
        given, answer = self.room.path / "given", self.room.path / "answer"
        given.write_bytes(b"")
        return ["plain_store", "send", given, answer, 99, 16384]


def file_of(name, size):
    """The frames with which a file is sent to the station."""
    offer = frame_of("SFID", size=str(size // BLOCK), **{**FILE, "dataset": name})
    return [offer, *data_frames(size, 16384), frame_of("EFID", records="0", units=str(size))]


def submit(it, at):
    identity = ["--dataset", f"NEW.{at}", "--date", "20240201", "--time", "0800000001", "--to", THEIRS, "--format", "U"]
    return it.command("submit", "--book", it.room.book, *identity, it.room.content)


def released(it, at):
    """The number of a file that is released, shown and fetched."""
    return it.register.came + 1 + at


def refused(it, at):
    return it.register.came + OFTEN + 1 + at


def listed(kind):
    return lambda it: ["plain_register", "list", kind]


ACTS = [
    Act("submit of 10 KB", submit, lambda it: ["plain_register", "submit", it.room.content, "NEW"]),
    # Before responses are due, because these would be sent first.
    Act("10 KB go out", lambda it, at: it.session(*taken_answers(it.files, 1)), lambda it: it.send(), 1, parts=OFTEN, walks=True),
    Act(
        "release",
        lambda it, at: it.command("release", "--book", it.room.book, str(released(it, at))),
        lambda it: ["plain_register", "release", released(it, 0)],
    ),
    Act(
        "refuse",
        lambda it, at: it.command("refuse", "--book", it.room.book, str(refused(it, at)), "99", "no"),
        lambda it: ["plain_register", "release", refused(it, 0)],
    ),
    Act(
        "fetch of 10 KB",
        lambda it, at: it.command("fetch", str(released(it, at)), it.room.path / "fetched"),
        lambda it: ["plain_register", "fetch", released(it, 0), STEP, it.room.path / "fetched"],
    ),
    Act("GET /in/NO", lambda it, at: it.request(f"/in/{released(it, at)}"), lambda it: ["plain_register", "show", "in", released(it, 0)]),
    Act("GET /out/NO", lambda it, at: it.request(f"/out/{it.register.went + 1}"), lambda it: ["plain_register", "show", "out", it.register.went + 1]),
    Act(LOOKING, lambda it, at: it.session(*file_of(f"CAME.{at}", SMALL)), lambda it: it.receive(*file_of("CAME", SMALL)), walks=True),
    Act("report in", lambda it, at: it.command("report", "in"), listed("in"), 3, True),
    Act("report out", lambda it, at: it.command("report", "out"), listed("out"), 3, True),
    Act("report issued", lambda it, at: it.command("report", "issued"), listed("issued"), 3, True),
    Act("report received", lambda it, at: it.command("report", "received"), listed("received"), 3, True),
    Act("GET /in", lambda it, at: it.request("/in"), listed("in"), 3, True),
    Act("GET /out", lambda it, at: it.request("/out"), listed("out"), 3, True),
    Act("GET /responses", lambda it, at: it.request("/responses"), listed("received"), 3, True),
    # After the others, because an opening takes longer then.
    Act(
        "8 MiB come in",
        lambda it, at: it.session(*file_of(f"LARGE.{3 + at}", 8 * MEBI)),
        lambda it: it.receive(*file_of("LARGE.3", 8 * MEBI)),
        2,
        walks=True,
    ),
]


class Cost(NamedTuple):
    """The average processor seconds of an act: the station's, and the command's."""

    station: float
    command: float


def cost_of(station, act):
    before = station.taken()
    commands = [act.do(station, at) for at in range(act.often)]
    times = act.often * act.parts
    return Cost((station.taken() - before) / times, sum(commands) / times)


def may_take(act, least, register):
    """How long a part of an act may take that takes this long over the smallest register of its kind."""
    times = register.times if act.is_list else 1
    walk = WALK * register.answered / act.parts if act.walks else 0
    return MOST * times * least + walk + NOISE


def told_of_walk(cost, least, register):
    """The line on the walk past all answered responses, which is what a small session takes longer than over the smallest register."""
    longer = cost.station - least.station
    each = longer / register.answered * 1e6
    return f"  a look past {register.answered:,} answered responses took {longer * 1000:.1f} ms, {each:.2f} microseconds for each"


def told_beside(act, cost, alone, plain):
    """What a line has of the act as a program of its own, and of plain C."""
    taken, of_plain = act.do(alone, 0), plain.taken(act.plain(plain))
    opened = f"with its opening {taken.processor * 1000:10.1f} ms, {taken.memory / 1024:6.0f} MiB"
    return f"; {opened}; plain C {of_plain * 1000:9.2f} ms, {sum(cost) / of_plain:6.1f} times"


def measure(room, registers):
    """Measures registers of one kind, the smallest first. It returns how many of the comparisons passed and failed."""
    passed, failed, least = 0, 0, {}
    for register in registers:
        beside = (Alone(room, register), Plain(room, register)) if room.is_whole else ()
        with Held(room, register) as station:
            print(f"{register.name}: the opening took {station.taken():.3f} s of the processor, {station.memory() / 1024:.0f} MiB", flush=True)
            for act in ACTS:
                cost = cost_of(station, act)
                first = least.setdefault(act.name, cost)
                is_well = sum(cost) <= may_take(act, sum(first), register)
                passed += is_well
                failed += not is_well
                line = f"  {act.name:<16} station {cost.station * 1000:9.2f} ms, command {cost.command * 1000:7.2f} ms"
                line += told_beside(act, cost, *beside) if beside else ""
                print(line if is_well else f"{line}: TOO MUCH", flush=True)
                if act.name == LOOKING and register.answered and cost is not first:
                    print(told_of_walk(cost, first, register), flush=True)
            print(f"  the station had {station.memory() / 1024:.0f} MiB at most", flush=True)
    return passed, failed


def main():
    parser = argparse.ArgumentParser(description=__doc__.splitlines()[0])
    parser.add_argument("--assert", action="store_true", dest="is_asserted")
    parser.add_argument("--large", action="store_true")
    parser.add_argument("--whole", action="store_true")
    parser.add_argument("--only", choices=["size", "count"])
    taken = parser.parse_args()
    with tempfile.TemporaryDirectory() as path:
        room = Room(Path(path), taken.large or taken.whole, taken.whole)
        kinds = {"size": room.by_size, "count": room.by_count}
        counts = [measure(room, registers()) for kind, registers in kinds.items() if taken.only in (None, kind)]
    passed, failed = (sum(column) for column in zip(*counts))
    print(f"{passed} passed, {failed} failed")
    return 1 if taken.is_asserted and failed else 0


if __name__ == "__main__":
    sys.exit(main())
