#!/usr/bin/env python3
"""Has commands write down what they do with names and files, and looks at what a loss of power would leave at each moment.

    checks/faults/power_losses.py [--without] [CASE ..]

A loss may come before each sync of a command and behind its end. It takes back what wasn't synced: all of it, or contents alone, or these and one
name (checks/lib/losses.py). In each of these worlds what a line has told is there, and no name has half a file. No response is issued of a file that
isn't in the folder. The next call goes on, so that each file is collected, released or handed in once, and none is lost. With `--without` each sync
is left out in turn, and it is printed which of the cases fail then. It needs a C compiler. The last line is `N passed, M failed`.

Shows: where there is a C compiler: what a loss of power may leave before each sync of `init`, `submit`, `fetch`, `backup`, `collect` and `offer`.
What the next call makes of it, in some 200 worlds. Names that weren't synced are taken back, all, none or one. Contents that weren't synced are
gone, also those of other programs. What was told is there, no name has half a file, and each file is collected, released or handed in once.
`--without` leaves out one sync after another, and prints what is noticed
"""

import argparse
import os
import shutil
import subprocess
import sys
import tempfile
from pathlib import Path

sys.path.insert(0, str(Path(__file__).resolve().parents[1] / "lib"))

import tables
from losses import Losses, read_log
from program import PROGRAM
from row_files import ROWS, Row
from services import BOOK, CARMAKER, LONG, Wrong, expect
from shims import compile_library

MOMENT = 1_706_770_800_123_400_000
TAKEN = f"20240201_0700001234_INV.1_{CARMAKER}"
COLLECTED = f"0000001_ASN.0001_20240131_1015300001_{CARMAKER}"
# The content of the file that the sessions of these rows bring, and of those that are offered.
COME, ONE, TWO = b"A", b"ONE" * 3, b"TWO" * 5
# What refuses each file whose length isn't a multiple of 7, and the line for it.
IN_SEVENS = ("--format", "F", "--longest", "7")
IN_NONE = "refused: 5 field\n"
DATABASE = ["--db", "database"]
FILES = [*DATABASE, "--book", BOOK]
OFFER = ["offer", *FILES, "--to", CARMAKER, "--from", "out"]
COLLECT = ["collect", *FILES, "--to", "in"]
FIRST, AGAIN = "done: offer 1 INV.1\n", "done: fetch 1\n"


def run(room, words, **environment):
    environment = {**os.environ, **{name: str(value) for name, value in environment.items()}}
    done = subprocess.run([PROGRAM, *words], cwd=room, env=environment, capture_output=True, timeout=LONG, check=False)
    return done.returncode, done.stdout.decode(), done.stderr.decode()


def put(folder, octets, name="INV.1"):
    folder.mkdir(exist_ok=True)
    (folder / name).write_bytes(octets)
    os.utime(folder / name, ns=(MOMENT, MOMENT))


def receive(room):
    """A database with a file that came."""
    given = Row(ROWS / "receiving/one_octet.row").sessions()[0].joined("in")
    (room / "given").write_bytes(given)
    expect(run(room, ["feed", *FILES, "given", "/dev/null"])[0], 0, "the session")
    (room / "given").unlink()


def submit(octets):
    """The command that submits what is offered in other cases, with its stamps."""
    identity = ["--dataset", "INV.1", "--date", "20240201", "--time", "0700001234"]
    return ["submit", *FILES, *identity, "--to", CARMAKER, "--format", "U", octets]


def found(room):
    """The tables that are left."""
    left = tables.read(room / "database")
    why = tables.unfit(left)
    if why:
        raise Wrong(why)
    return left


def handed_in(room):
    left = found(room)
    return sorted((entry["dataset"], b"".join(tables.bodies(left, "out_file", entry["no"]))) for entry in left["out_file"])


class Case:
    """Commands over what is there before. It tells whether a world that a loss leaves is as it must be, also once the next call has gone on."""

    # The files before that nobody has synced; where the first command is killed.
    unsynced, killed = (), None

    def prepare(self, room):
        """What is there before."""

    def words(self):
        """The commands."""

    def look(self, room, told):
        """Looks at a world, and at what the next call makes of it."""


class Submit(Case):
    """A database is made, and a file is submitted."""

    def prepare(self, room):
        (room / "content").write_bytes(ONE)

    def words(self):
        return [["init", *DATABASE], submit("content")]

    def look(self, room, told):
        if "done: init" in told:
            expect(run(room, ["report", *DATABASE, "in"])[0], 0, "a report over the database")
        if "done: submit" in told:
            expect(handed_in(room), [("INV.1", ONE)], "what is handed in")
        else:
            expect(run(room, submit("content"))[1] in ("done: submit 1\n", "refused: 1 duplicate\n"), True, "whether the next call goes on")


class Fetch(Case):
    """A file is fetched, in the place of another one."""

    def __init__(self, old):
        self.old = old

    def prepare(self, room):
        receive(room)
        if self.old:
            (room / "file").write_bytes(self.old)

    def words(self):
        return [["fetch", *DATABASE, "1", "file"]]

    def look(self, room, told):
        path = room / "file"
        content = path.read_bytes() if path.exists() else None
        expect(content in ([COME] if told else [COME, self.old]), True, f"whether {content} may be there")
        expect((run(room, self.words()[0]), path.read_bytes()), ((0, AGAIN, ""), COME), "the next call")


class Backup(Case):
    """A database is copied, in the place of a backup from before its file came."""

    def __init__(self, has_old):
        self.has_old = has_old

    def prepare(self, room):
        expect(run(room, ["init", *DATABASE])[0], 0, "init")
        if self.has_old:
            expect(run(room, ["backup", *DATABASE, "copy"])[0], 0, "the backup from before")
        receive(room)

    def words(self):
        return [["backup", *DATABASE, "copy"]]

    def look(self, room, told):
        copy = room / "copy"
        if told or copy.exists():
            count = len(tables.read(copy)["in_file"])
            expect(count in ([1] if told else [1] + [0] * self.has_old), True, f"whether a backup of {count} files may be there")
            shutil.copyfile(copy, room / "opened")
            expect(run(room, ["report", "--db", "opened", "in"])[0], 0, "a report over the backup")
        else:
            expect(self.has_old, False, "whether the backup from before is gone")
        expect(run(room, self.words()[0])[1], "done: backup\n", "the next call")


class Collect(Case):
    """A file is collected, and released if that is asked for. It is collected by one call, or by one behind a call that was killed. Or somebody has
    put it back into the folder and hasn't synced it."""

    def __init__(self, rest, killed=None, is_back=False):
        self.rest, self.killed, self.is_back = list(rest), killed, is_back
        if is_back:
            self.unsynced = (COLLECTED,)

    def prepare(self, room):
        receive(room)
        (room / "in").mkdir()
        if self.is_back:
            (room / "in" / COLLECTED).write_bytes(COME)

    def words(self):
        return [[*COLLECT, *self.rest]] * (2 if self.killed else 1)

    def look(self, room, told):
        path = room / "in" / COLLECTED
        is_issued = bool(found(room)["issued"])
        content = path.read_bytes() if path.exists() else None
        may_be = [COME] if told or is_issued else [COME, None] + [b""] * self.is_back
        expect(content in may_be, True, f"whether {content} may be there, released {is_issued}")
        if content == b"":
            path.unlink()
        done = run(room, [*COLLECT, "--release"])
        expect((done[0], done[2], path.read_bytes()), (0, "", COME), "the next call, and what is there then")
        expect([entry["no"] for entry in found(room)["issued"]], [1], "what is released then")


class Offer(Case):
    """Two files are offered: by one call, or by one behind a call that was killed. Their producer has synced them, or hasn't; or another file has
    the date and the time of one."""

    def __init__(self, unsynced=(), killed=None, other=None):
        self.unsynced, self.killed, self.other = unsynced, killed, other

    def prepare(self, room):
        expect(run(room, ["init", *DATABASE])[0], 0, "init")
        put(room / "out", ONE)
        if self.other:
            expect(run(room, OFFER, LD_PRELOAD=LIBRARY[0], KILL_PATH=TAKEN)[0], -9, "the call that is killed")
            put(room / "other", self.other)
            expect(run(room, submit("other/INV.1"))[1], "done: submit 1\n", "the other file")
        put(room / "out", TWO, "INV.2")

    def words(self):
        return [OFFER] * (2 if self.killed else 1)

    def look(self, room, told):
        others = [("INV.1", self.other)] if self.other else []
        for no, entry in enumerate(handed_in(room)):
            expect(entry in others or entry in [("INV.1", ONE), ("INV.2", TWO)] or not entry[1], True, f"whether file {no} may be handed in")
        before = handed_in(room)
        for name, octets in (("INV.1", ONE), ("INV.2", TWO)):
            if f" {name}\n" in told:
                expect((name, octets) in before, True, f"whether {name} is handed in, as it was told")
        done = run(room, OFFER)
        expect(done[::2], (0, ""), f"the next call, which told {done[1]}")
        after = handed_in(room)
        wanted = sorted([*others, ("INV.1", ONE), ("INV.2", TWO)])
        if self.unsynced:
            expect([name for name, _ in after], [name for name, _ in wanted], "the names of what is handed in then")
            expect([entry for entry in before if entry not in after], [], "what isn't handed in any more")
        else:
            expect(after, wanted, "what is handed in then")
        expect(run(room, OFFER), (0, "", ""), "one more call")


class Refuse(Case):
    """A file is refused by `offer` in one call. Or it is handed in behind a call that was killed once it had written the line."""

    def __init__(self, is_killed):
        self.killed = ".line" if is_killed else None

    def prepare(self, room):
        expect(run(room, ["init", *DATABASE])[0], 0, "init")
        put(room / "out", ONE)

    def words(self):
        return [[*OFFER, *IN_SEVENS], OFFER] if self.killed else [[*OFFER, *IN_SEVENS]]

    def look(self, room, told):
        done = run(room, OFFER)
        expect(done[::2], (0, ""), f"the next call, which told {done[1]}")
        refused = room / "out/refused"
        left = sorted(path.name for path in refused.iterdir()) if refused.exists() else []
        is_refused = bool([name for name in left if not name.endswith(".line")])
        expect([name.removesuffix(".line") for name in left], left[:1] * 2 if is_refused else [], "what is refused, and its line")
        if is_refused:
            expect((refused / left[0]).read_bytes(), ONE, "the refused file")
            expect((refused / left[1]).read_text(), IN_NONE, "its line")
        expect(handed_in(room), [] if is_refused else [("INV.1", ONE)], "what is handed in")


CASES = {
    "submit": Submit(),
    "fetch": Fetch(None),
    "fetch over another file": Fetch(b"OLD"),
    "backup": Backup(False),
    "backup over another one": Backup(True),
    "collect": Collect([]),
    "collect with release": Collect(["--release"]),
    "collect behind one that was killed": Collect(["--release"], COLLECTED),
    "collect what was put back": Collect(["--release"], is_back=True),
    "offer": Offer(),
    "offer what nobody has synced": Offer(("INV.1", "INV.2")),
    "offer behind one that was killed": Offer(killed=TAKEN),
    "offer beside a file of that time": Offer(other=TWO),
    "refuse": Refuse(False),
    "refuse, killed behind its line": Refuse(True),
}
LIBRARY = []


def played(case, room):
    """Lets the commands of a case write down what they do. Returns the losses, and the log."""
    live, kept = room / "live", room / "kept"
    for folder in (live, kept):
        folder.mkdir(parents=True)
    case.prepare(live)
    losses = Losses(live, kept, case.unsynced)
    for number, words in enumerate(case.words()):
        killed = {"KILL_PATH": case.killed} if case.killed and number == 0 else {}
        done = run(live, words, LD_PRELOAD=LIBRARY[0], CALLS=room / "calls", KEPT=kept, **killed)
        expect(done[0] == -9, bool(killed), f"whether {words[0]} is killed, which told {done}")
    return losses, read_log(room / "calls")


def look_at_all(case, room, losses, log, without=None):
    """Looks at each world. Returns how many there are."""
    worlds = losses.left(log, without)
    for left in worlds:
        again = room / "again"
        shutil.rmtree(again, ignore_errors=True)
        again.mkdir()
        losses.put(left, again)
        try:
            case.look(again, left.told)
        except (Wrong, OSError, tables.Damaged) as why:
            raise Wrong(f"a loss {left.loss.replace(str(losses.folder) + '/', '')}: {why}") from why
    return len(worlds)


def leave_out(name, case, room, losses, log):
    """Leaves out each sync that isn't one of the database, and prints what is noticed."""
    for number, event in enumerate(log):
        path = event.first.replace(str(losses.folder), ".")
        if not event.what.startswith("sync") or path.startswith("./database"):
            continue
        try:
            look_at_all(case, room, losses, log, number)
            noticed = "nothing"
        except Wrong as why:
            noticed = str(why)[:150]
        print(f"{name}, without the {event.what} {path}: {noticed}", flush=True)


def main():
    parser = argparse.ArgumentParser(description=__doc__.splitlines()[0])
    parser.add_argument("--without", action="store_true")
    parser.add_argument("cases", nargs="*", metavar="CASE")
    taken = parser.parse_args()
    failed = worlds = 0
    with tempfile.TemporaryDirectory() as path:
        room = Path(os.path.realpath(path))
        LIBRARY.append(compile_library(room, "log_syncs"))
        names = taken.cases or list(CASES)
        for name in names:
            try:
                here = room / name.replace(" ", "_")
                losses, log = played(CASES[name], here)
                worlds += look_at_all(CASES[name], here, losses, log)
                if taken.without:
                    leave_out(name, CASES[name], here, losses, log)
            except (Wrong, OSError, subprocess.SubprocessError, tables.Damaged) as why:
                failed += 1
                print(f"{name}: {type(why).__name__}: {why}")
    print(f"{worlds} worlds were looked at")
    print(f"{len(names) - failed} passed, {failed} failed")
    return 1 if failed else 0


if __name__ == "__main__":
    sys.exit(main())
