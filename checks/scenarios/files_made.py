#!/usr/bin/env python3
"""Checks the files that the program makes: their permissions, what remains of a replaced file, and temporary files.

    checks/scenarios/files_made.py

The program is stopped while it writes a file, and killed there. What only the superuser may try (files of other users) is tried as
superuser, and otherwise reported as not tried. In addition, content longer than that of any file that is kept is submitted, in each format.
The last line is `N passed, M failed`.

Shows: the modes of all that the program makes, under several umasks, what a replaced file keeps, and who owns a backup. Drafts while they are
written and after a kill, and those of another user; content that is too long, in each format
"""

import fcntl
import os
import shutil
import signal
import subprocess
import sys
import tempfile
import time
from concurrent.futures import ThreadPoolExecutor
from pathlib import Path

sys.path.insert(0, str(Path(__file__).resolve().parents[1] / "lib"))

import one_file
import row_files
from program import PROGRAM
from services import BOOK, LONG, Wrong, expect

MASKS = [0o000, 0o022, 0o027, 0o077, 0o277]
DRAFT = ".oftp_station_"
# More than the local form of any file that is kept.
TOO_LONG = 72_108_866
# A user and groups that exist on no machine.
USER, GROUP, OTHER_GROUP, FOREIGN = 54_321, 54_322, 54_323, 54_324


class NotTried(Exception):
    """What isn't tried here, and what is missing for it."""


def run(room, *words, mask=0o022, how=None):
    """What the program prints in this folder under a umask, and its status."""
    done = subprocess.run([PROGRAM, *words], cwd=room, umask=mask, capture_output=True, timeout=LONG, check=False, **(how or {}))
    return done.returncode, done.stdout.decode(), done.stderr.decode()


def copy_program(to):
    """Copies the program by a process of its own: one that another thread begins meanwhile would have the copy open, and it couldn't be run."""
    subprocess.run(["cp", PROGRAM, to], check=True)


def expect_done(told, line):
    expect(told, (0, f"{line}\n", ""), line)


def mode_of(path):
    return path.stat().st_mode & 0o7777


def drafts_in(folder):
    return sorted(path.name for path in folder.iterdir() if path.name.startswith(DRAFT))


def receive(room, row="receiving/one_octet"):
    """A database with the file of a row, which is whole."""
    given = room / "given"
    given.write_bytes(row_files.Row(row_files.ROWS / f"{row}.row").sessions()[0].joined("in"))
    expect_done(run(room, "feed", "--db", "db", "--book", BOOK, "given", "/dev/null"), "end: partner 00")


def receive_large(room):
    """A database with a file that takes a while to fetch."""
    (room / "book").write_text(one_file.BOOK.format(buffer=16384, credit=99))
    one_file.make(one_file.MOST // 2, 16384, 99, room / "given")
    expect_done(run(room, "feed", "--db", "db", "--book", "book", "given", "/dev/null"), "end: partner 00")


# ---- who may read what


def made_for_one_user(room):
    """A database, its log and a trace belong to their user alone, whatever the umask; existing ones stay as they are."""
    for mask in MASKS:
        folder = room / f"{mask:o}"
        folder.mkdir()
        given = folder / "given"
        given.write_bytes(row_files.Row(row_files.ROWS / "receiving/one_octet.row").sessions()[0].joined("in"))
        words = ["feed", "--db", "db", "--book", BOOK, "--trace", "trace", "given", "/dev/null"]
        expect_done(run(folder, *words, mask=mask), "end: partner 00")
        expect([mode_of(folder / name) for name in ("db", "db-wal", "trace")], [0o600] * 3, f"modes under {mask:o}")
        (folder / "trace").chmod(0o640)
        (folder / "db").chmod(0o640)
        expect(run(folder, *words, mask=mask)[0], 0, "again")
        expect([mode_of(folder / name) for name in ("db", "trace")], [0o640] * 2, "modes of what was there")


def fetched_as_the_umask_says(room):
    receive(room)
    for mask in MASKS:
        expect_done(run(room, "fetch", "--db", "db", "1", f"{mask:o}", mask=mask), "done: fetch 1")
        expect(mode_of(room / f"{mask:o}"), 0o666 & ~mask, f"the mode under {mask:o}")
    expect(drafts_in(room), [], "drafts")


def replaced_as_it_was(room):
    """A replaced file keeps its permissions, but no set-user-id or set-group-id bit."""
    receive(room)
    fetched = room / "fetched"
    for mode, kept in ((0o640, 0o640), (0o604, 0o604), (0o4755, 0o755), (0o2770, 0o770), (0o1777, 0o777)):
        fetched.write_bytes(b"OLD")
        fetched.chmod(mode)
        expect_done(run(room, "fetch", "--db", "db", "1", "fetched", mask=0o077), "done: fetch 1")
        expect((mode_of(fetched), fetched.read_bytes()), (kept, b"A"), f"a file of mode {mode:o}")


def replaced_with_its_owner(room):
    """The superuser keeps a file's owner and group. Another user keeps its group, if he is a member, and otherwise gives the new group no
    more permissions than everyone has."""
    if os.geteuid() != 0:
        raise NotTried("the superuser: files of other users")
    receive(room)
    fetched = room / "fetched"
    fetched.write_bytes(b"OLD")
    os.chown(fetched, FOREIGN, OTHER_GROUP)
    fetched.chmod(0o640)
    expect_done(run(room, "fetch", "--db", "db", "1", "fetched"), "done: fetch 1")
    about = fetched.stat()
    expect((about.st_uid, about.st_gid, mode_of(fetched)), (FOREIGN, OTHER_GROUP, 0o640), "the file of another user")
    with tempfile.TemporaryDirectory(dir="/tmp") as path:
        home = Path(path)
        copy_program(home / "program")
        for name in ("db", "db-wal"):
            shutil.copy(room / name, home / name)
            os.chown(home / name, USER, GROUP)
        home.chmod(0o777)
        (home / "program").chmod(0o755)
        for group, mode, kept_group, kept in ((OTHER_GROUP, 0o662, OTHER_GROUP, 0o662), (FOREIGN, 0o676, GROUP, 0o666)):
            file = home / f"fetched-{group}"
            file.write_bytes(b"OLD")
            os.chown(file, FOREIGN, group)
            file.chmod(mode)
            words = [home / "program", "fetch", "--db", "db", "1", file.name]
            who = {"user": USER, "group": GROUP, "extra_groups": [OTHER_GROUP], "umask": 0o022}
            done = subprocess.run(words, cwd=home, capture_output=True, timeout=LONG, check=False, **who)
            expect((done.returncode, done.stderr), (0, b""), "the fetch of another user")
            about = file.stat()
            expect((about.st_uid, about.st_gid, mode_of(file)), (USER, kept_group, kept), f"a file of group {group}")


def copied_as_the_database_is(room):
    """A backup is readable by its user alone if the database is. Otherwise it has the permissions of the database, whatever it replaces and
    whatever the umask."""
    receive(room)
    for mask in MASKS:
        for mode in (0o600, 0o640, 0o660):
            (room / "db").chmod(mode)
            expect_done(run(room, "backup", "--db", "db", "copy", mask=mask), "done: backup")
            expect(mode_of(room / "copy"), mode, f"a copy of a database of mode {mode:o} under {mask:o}")
            (room / "copy").chmod(0o644)
    expect(sorted(path.name for path in room.iterdir()), ["copy", "db", "db-wal", "given"], "the files")


def copied_with_its_owner(room):
    """A backup by the superuser belongs to the database's user and group. Another user can't make one in a folder of someone else."""
    if os.geteuid() != 0:
        raise NotTried("the superuser: backups of other users")
    receive(room)
    for name in ("db", "db-wal"):
        os.chown(room / name, USER, GROUP)
    expect_done(run(room, "backup", "--db", "db", "copy"), "done: backup")
    about = (room / "copy").stat()
    expect((about.st_uid, about.st_gid, mode_of(room / "copy")), (USER, GROUP, 0o600), "the copy")
    with tempfile.TemporaryDirectory(dir="/tmp") as path:
        home = Path(path)
        copy_program(home / "program")
        (home / "program").chmod(0o755)
        (home / "own").mkdir()
        for name in ("db", "db-wal"):
            shutil.copy(room / name, home / "own" / name)
            os.chown(home / "own" / name, USER, GROUP)
        os.chown(home / "own", USER, GROUP)
        home.chmod(0o755)
        (home / "old").write_bytes(b"OLD")
        for to, told in (("copy", (1, b"", b"fault: 7 file\n")), ("old", (1, b"", b"fault: 7 file\n")), ("own/copy", (0, b"done: backup\n", b""))):
            words = [home / "program", "backup", "--db", "own/db", to]
            done = subprocess.run(words, cwd=home, capture_output=True, timeout=LONG, check=False, user=USER, group=GROUP, extra_groups=[])
            expect((done.returncode, done.stdout, done.stderr), told, f"a backup to {to}")
        expect((home / "old").read_bytes(), b"OLD", "the file that isn't his")


# ---- temporary files


class Stopped:
    """A fetch that is stopped while its temporary file is written, within this folder. It is killed if it doesn't go on."""

    def __init__(self, room, name):
        self.words = [PROGRAM, "fetch", "--db", "db", "1", name]
        self.room = room
        self.draft = None
        self.before = set(drafts_in(room))
        self.begin()

    def __enter__(self):
        until = time.monotonic() + LONG
        while not self.draft:
            if time.monotonic() > until:
                self.dies()
                raise Wrong(f"no draft of {self.words[-1]} was seen within {LONG} s")
            # If it was finished before it was seen, it writes once more.
            if self.program.poll() is not None:
                self.begin()
            for draft in set(drafts_in(self.room)) - self.before:
                self.see(self.room / draft)
        return self

    def __exit__(self, *_why):
        self.dies()

    def begin(self):
        self.program = subprocess.Popen(self.words, cwd=self.room, umask=0, stdout=subprocess.PIPE, stderr=subprocess.PIPE)

    def see(self, draft):
        """Stops the program. It has to be writing the temporary file then, or else it goes on."""
        try:
            self.program.send_signal(signal.SIGSTOP)
            time.sleep(0.1)
            if 0 < draft.stat().st_size < one_file.MOST // 2:
                self.draft = draft
                return
        except FileNotFoundError:
            pass
        self.program.send_signal(signal.SIGCONT)

    def goes_on(self):
        self.program.send_signal(signal.SIGCONT)
        out, err = self.program.communicate(timeout=LONG)
        expect_done((self.program.returncode, out.decode(), err.decode()), "done: fetch 1")

    def dies(self):
        self.program.kill()
        self.program.wait()


def draft_of_one_user(room):
    """While a temporary file is written nobody else may read it; the file then has the mode that the umask gives."""
    receive_large(room)
    with Stopped(room, "fetched") as stopped:
        expect(f"{mode_of(stopped.draft):o}", "600", "the draft's mode")
        stopped.goes_on()
    expect((mode_of(room / "fetched"), (room / "fetched").stat().st_size), (0o666, one_file.MOST // 2), "the file")
    expect(drafts_in(room), [], "drafts")


def drafts_left_by_a_kill(room):
    """The temporary file of a process that was killed is removed by the next fetch, and one that is still written is not."""
    receive_large(room)
    copy = room / "copy"
    for name in ("", "-wal"):
        shutil.copy(room / f"db{name}", room / f"copy{name}")
    with Stopped(room, "killed") as killed:
        killed.dies()
        expect(drafts_in(room), [killed.draft.name], "the draft that is left")
    with Stopped(room, "living") as living:
        expect(drafts_in(room), [living.draft.name], "the draft that is written, without the one of the killed fetch")
        (room / f"{DRAFT}notes").write_bytes(b"no draft")
        expect_done(run(room, "fetch", "--db", copy, "1", "other"), "done: fetch 1")
        expect(drafts_in(room), sorted([living.draft.name, f"{DRAFT}notes"]), "the drafts beside another fetch")
        living.goes_on()
    expect(drafts_in(room), [f"{DRAFT}notes"], "the drafts at the end")


def drafts_of_another_user(room):
    """In a folder that several users share, each one removes the temporary files of his own killed processes alone; the superuser removes
    those of all."""
    if os.geteuid() != 0:
        raise NotTried("the superuser: temporary files of other users")
    receive(room)
    with tempfile.TemporaryDirectory(dir="/tmp") as path:
        home = Path(path)
        home.chmod(0o777)
        copy_program(home / "program")
        (home / "program").chmod(0o755)
        own, foreign = home / f"{DRAFT}1", home / f"{DRAFT}2"
        for name in ("db", "db-wal"):
            shutil.copy(room / name, home / name)
        for name, user in (("db", USER), ("db-wal", USER), (own.name, USER), (foreign.name, FOREIGN)):
            (home / name).touch(0o600)
            os.chown(home / name, user, GROUP)
        words = [home / "program", "fetch", "--db", "db", "1", "fetched"]
        done = subprocess.run(words, cwd=home, capture_output=True, timeout=LONG, check=False, user=USER, group=GROUP, extra_groups=[])
        expect((done.returncode, done.stdout, done.stderr), (0, b"done: fetch 1\n", b""), "the fetch")
        expect(drafts_in(home), [foreign.name], "the drafts behind the fetch of one user")
        expect_done(run(home, "fetch", "--db", "db", "1", "fetched"), "done: fetch 1")
        expect(drafts_in(home), [], "the drafts behind the fetch of the superuser")


def logs_of_drafts(room):
    """With the temporary file of a killed backup its log is removed; with one that is still written it isn't."""
    receive(room)
    for number in (1, 2):
        (room / f"{DRAFT}{number}").write_bytes(b"a copy")
        (room / f"{DRAFT}{number}-wal").write_bytes(b"its log")
    with open(room / f"{DRAFT}2", "rb") as living:
        fcntl.flock(living, fcntl.LOCK_EX)
        expect_done(run(room, "backup", "--db", "db", "copy"), "done: backup")
        expect(drafts_in(room), [f"{DRAFT}2", f"{DRAFT}2-wal"], "the drafts beside a backup")
        # Another thread's new process may still have the file open, and with it the lock.
        fcntl.flock(living, fcntl.LOCK_UN)
    expect_done(run(room, "fetch", "--db", "db", "1", "fetched"), "done: fetch 1")
    expect(drafts_in(room), [], "the drafts at the end")


def names_of_drafts_taken(room):
    """A thousand files with names of temporary files don't prevent a fetch."""
    receive(room)
    for number in range(1000):
        (room / f"{DRAFT}{number}").mkdir()
    os.mkfifo(room / f"{DRAFT}1000")
    (room / f"{DRAFT}1001").symlink_to("given")
    expect_done(run(room, "fetch", "--db", "db", "1", "fetched"), "done: fetch 1")
    expect(((room / "fetched").read_bytes(), len(drafts_in(room)), (room / "given").exists()), (b"A", 1002, True), "what is there")


# ---- content that is too long


def submit(room, form, longest, file):
    identity = ["--dataset", "INV.1", "--date", "20240201", "--time", "0800000001", "--to", "O0177CARMAKER"]
    return run(room, "submit", "--db", "db", "--book", BOOK, *identity, "--format", form, "--longest", str(longest), file)


def too_long(room):
    """Content that is too long is refused for its length, and content that isn't a file of its format for that, however long it is."""
    refused = {line: (1, f"refused: {line}\n", "") for line in ("4 limit", "5 field")}
    zeros, records = room / "zeros", room / "records"
    for size, form, longest, line in (
        (TOO_LONG + 7, "U", 0, "4 limit"),
        (TOO_LONG + 7, "U", 1, "5 field"),
        (1_000 * 80_000, "F", 1_000, "4 limit"),
        (1_000 * 80_000 + 1, "F", 1_000, "5 field"),
        (16_384 * 10**6, "F", 16_384, "4 limit"),
        (TOO_LONG, "V", 80, "5 field"),
    ):
        with open(zeros, "wb") as file:
            file.truncate(size)
        expect(submit(room, form, longest, "zeros"), refused[line], f"{size} octets of {form}")
    record = b"16000" + b"A" * 16_000
    for count, rest, longest, line in (
        (5_000, b"", 16_000, "4 limit"),
        (5_000, b"1", 16_000, "5 field"),
        (5_000, b"00002A", 16_000, "5 field"),
        (5_000, b"00002AA", 16_000, "4 limit"),
        (5_000, b"16001" + b"A" * 16_001, 16_000, "5 field"),
        (4_506, b"x" * 16_000, 16_000, "5 field"),
        (5_000, b"", 15_999, "5 field"),
    ):
        records.write_bytes(record * count + rest)
        expect(submit(room, "V", longest, "records"), refused[line], f"{count} records and {rest[:8]!r}")
    for form, longest, line in (("U", 0, "4 limit"), ("F", 7, "4 limit"), ("V", 7, "5 field")):
        expect(submit(room, form, longest, "/dev/zero"), refused[line], f"a device without end as {form}")


CASES = [
    made_for_one_user,
    fetched_as_the_umask_says,
    replaced_as_it_was,
    replaced_with_its_owner,
    copied_as_the_database_is,
    copied_with_its_owner,
    draft_of_one_user,
    drafts_left_by_a_kill,
    drafts_of_another_user,
    logs_of_drafts,
    names_of_drafts_taken,
    too_long,
]


def tried(case):
    """Runs a case. It returns the result, and whether it failed."""
    with tempfile.TemporaryDirectory() as room:
        try:
            case(Path(room))
        except NotTried as why:
            return f"NOT TRIED without {why}", False
        except (Wrong, OSError, subprocess.SubprocessError) as why:
            return f"{case.__name__.replace('_', ' ')}: {type(why).__name__}: {why}", True
    return f"{case.__name__.replace('_', ' ')}: as it must be", False


def main():
    with ThreadPoolExecutor(max_workers=len(CASES)) as runners:
        tries = list(runners.map(tried, CASES))
    print("\n".join(told for told, _ in tries))
    failed = sum(has_failed for _, has_failed in tries)
    print(f"{sum(told.endswith('as it must be') for told, _ in tries)} passed, {failed} failed")
    return 1 if failed else 0


if __name__ == "__main__":
    sys.exit(main())
