#!/usr/bin/env python3
"""Tries `collect` and `offer` over folders: many at once, folders that others use, fill or hold, and requests that a kill left on their way.

    checks/scenarios/folders.py [WORD ..]       all cases, or those whose names have one of these words

Each case has a database of its own, and all run at once, so it takes some thirty seconds. A folder that can't be written is tried as another user
where the superuser runs this, who may write any. Only then are a subfolder and a file tried that are another user's. The last line is
`N passed, M failed`.

Shows: `collect` and `offer`: four of each at once, alone and beside a station. Two folders for one partner at once, twelve times 30 files of the
same names and times. They are alone, beside a station and with the same contents. Two stations that collect into one folder; subfolders that are
links, pipes or another user's. A folder that a reader locks, and a lock that is a link, a pipe, open to others or another user's. A call that is
killed while its request waits for a session's end, and the next call. 10,000 files of others, and a name that is no text; a folder over which
another command goes. A folder that can't be written, and a file that can't be read. Files of an old database in `sent`, and of others in `refused`;
for the superuser, another user's file in a sticky folder
"""

import fcntl
import os
import shutil
import subprocess
import sys
import tempfile
import time
from concurrent.futures import ThreadPoolExecutor
from pathlib import Path

sys.path.insert(0, str(Path(__file__).resolve().parents[1] / "lib"))

import filled
import row_files
import tables
from program import PROGRAM
from services import BOOK, CARMAKER, LONG, NotTried, Resident, Wrong, expect

OURS = "O0013SUPPLIER"
ANOTHER = "O0013OTHERPLANT"
MANY = 40
ROUNDS = 12
FILES_OF_A_ROUND = 30
LOCK = ".oftp_station_lock"
FILES_OF_OTHERS = 10_000
# A user that no machine has.
USER = 54_321
SESSION = row_files.Row(row_files.ROWS / "listening/nothing_waiting.row").sessions()[0]
GREETING, SSID, ANSWER = (octets for _, octets in SESSION.steps[:3])


def words(database, command, *rest):
    return [PROGRAM, command, "--db", database, "--book", BOOK, *rest]


def run(database, command, *rest):
    done = subprocess.run(words(database, command, *rest), capture_output=True, timeout=LONG, check=False)
    return done.returncode, done.stdout.decode(), done.stderr.decode()


def started(database, command, *rest):
    return subprocess.Popen(words(database, command, *rest), stdout=subprocess.PIPE, stderr=subprocess.PIPE)


def told(program):
    out, err = program.communicate(timeout=LONG)
    return program.returncode, out.decode(), err.decode()


def incoming(room, count, destination=OURS):
    """A database of so many incoming files, with the names under which they are collected and their octets."""
    database = room / "database"
    subprocess.run([PROGRAM, "init", "--db", database], capture_output=True, timeout=LONG, check=True)
    wanted = {}
    connection = filled.opened(database)
    connection.execute("BEGIN")
    for no in range(1, count + 1):
        octets = os.urandom(tables.BLOCK)
        values = (no, f"ASN.{no}", "20240131", f"08000{no:05}", CARMAKER, destination)
        connection.execute("INSERT INTO in_file VALUES (?, ?, ?, ?, ?, ?, 'U', 0, '', 'whole')", values)
        connection.execute("INSERT INTO in_row VALUES (?, 0, ?)", (no, octets))
        wanted[f"{no:07}_ASN.{no}_20240131_08000{no:05}_{CARMAKER}"] = octets
    connection.execute("COMMIT")
    connection.close()
    filled.settle(database)
    return database, wanted


def outgoing(room, count, name="out"):
    """A folder of so many files to be offered, and their octets."""
    folder = room / name
    folder.mkdir(exist_ok=True)
    octets = [os.urandom(64) for _ in range(count)]
    for number, content in enumerate(octets):
        (folder / f"INV.{number}").write_bytes(content)
    return folder, octets


def within(folder):
    """What is in a folder, beside the lock that a kill leaves."""
    return {path.name: path.read_bytes() for path in folder.iterdir() if path.name != LOCK}


def contents_sent(database):
    found = tables.read(database)
    return sorted(b"".join(tables.bodies(found, "out_file", entry["no"])) for entry in found["out_file"])


def issued(database):
    return [entry["no"] for entry in tables.read(database)["issued"]]


def expect_each_once(programs, line):
    """Each has ended well, and all that they have printed is this line for each number, once."""
    out = []
    for status, lines, err in programs:
        expect((status, err), (0, ""), f"the command, which told {lines!r}")
        out += [" ".join(text.split()[:3]) for text in lines.splitlines()]
    expect(sorted(out), sorted(f"{line} {no}" for no in range(1, MANY + 1)), "the lines")


def several(database, count, *rest):
    with ThreadPoolExecutor(max_workers=count) as runners:
        return list(runners.map(lambda _: run(database, *rest), range(count)))


def several_that_collect(room):
    """Several that collect at once fetch and release each file once."""
    database, wanted = incoming(room, MANY)
    (room / "in").mkdir()
    expect_each_once(several(database, 4, "collect", "--to", room / "in", "--release"), "done: collect")
    expect(within(room / "in"), wanted, "the files")
    expect(issued(database), list(range(1, MANY + 1)), "what is released")


def several_that_offer(room):
    """Several that offer at once hand each file in once."""
    folder, octets = outgoing(room, MANY)
    expect_each_once(several(room / "database", 4, "offer", "--to", CARMAKER, "--from", folder), "done: offer")
    expect(contents_sent(room / "database"), sorted(octets), "what is handed in")
    expect(len(within(folder / "sent")), MANY, "how many files are put away")


def several_beside_a_station(room):
    """So they do beside a station."""
    database, wanted = incoming(room, MANY)
    folder, octets = outgoing(room, MANY)
    (room / "in").mkdir()
    with Resident(room):
        expect_each_once(several(database, 4, "collect", "--to", room / "in", "--release"), "done: collect")
        expect_each_once(several(database, 4, "offer", "--to", CARMAKER, "--from", folder), "done: offer")
    expect(within(room / "in"), wanted, "the files")
    expect(contents_sent(database), sorted(octets), "what is handed in")


def two_folders(room, is_equal):
    """Two that offer at once from two folders, for one partner, files of the same names and times. Each file is handed in, also if both have the
    same content."""
    wanted = []
    for number in range(ROUNDS):
        folders = []
        for name in ("one", "two"):
            folder, octets = outgoing(room, FILES_OF_A_ROUND, name)
            for at in range(FILES_OF_A_ROUND):
                path = folder / f"INV.{at}"
                if is_equal:
                    octets[at] = f"{number} {at}".encode()
                    path.write_bytes(octets[at])
                os.utime(path, ns=(0, 0))
            folders.append(folder)
            wanted += octets
        programs = [started(room / "database", "offer", "--to", CARMAKER, "--from", folder) for folder in folders]
        for program in programs:
            status, lines, err = told(program)
            expect((status, lines.count("done: offer"), err), (0, FILES_OF_A_ROUND, ""), f"round {number}: a command, which told {lines!r}")
    found = contents_sent(room / "database")
    expect(len(found), len(wanted), "how many files are handed in")
    expect(found == sorted(wanted), True, "whether they have the contents of those that were offered")
    expect([len(within(folder / "sent")) for folder in folders], [ROUNDS * FILES_OF_A_ROUND] * 2, "how many files are put away")


def two_folders_at_once(room):
    """Two folders for one partner, alone: one command waits for the other."""
    two_folders(room, False)


def two_folders_beside_a_station(room):
    """Beside a station their requests come in turn."""
    with Resident(room):
        two_folders(room, False)


def two_folders_of_equal_files(room):
    """So two of which both have the same files."""
    with Resident(room):
        two_folders(room, True)


def two_stations_that_collect(room):
    """Two stations whose files have the same names, since they are one partner's with the same number, name and time. They collect into one folder.
    The second one writes over nothing, and releases nothing."""
    (room / "in").mkdir()
    kept = {}
    for number, destination in enumerate((OURS, ANOTHER)):
        here = room / destination
        here.mkdir()
        database, wanted = incoming(here, 2, destination)
        if number == 0:
            kept = wanted
            expect(run(database, "collect", "--to", room / "in", "--release")[0], 0, "the first station's")
            continue
        for rest in ((), ("--release",)):
            expect(run(database, "collect", "--to", room / "in", *rest), (1, "", "fault: 7 file\n"), "the second station's")
        expect(issued(database), [], "what the second station has released")
    expect(within(room / "in"), kept, "the files")


def left_of(names):
    """The lines of files that `offer` leaves, since their names are no dataset names."""
    return "".join(f"left: {name}: no dataset name\n" for name in sorted(names))


def subfolder_of_another(room):
    """A subfolder that is a link, or another user's, is a fault, and nothing is taken."""
    kinds = ["a link", "a pipe", "a file"] + (["another user's"] if os.geteuid() == 0 else [])
    for name in ("taken", "sent", "refused"):
        for kind in kinds:
            here = room / f"{name} {kind}"
            here.mkdir()
            folder, _ = outgoing(here, 1)
            place = folder / name
            if kind == "a link":
                (here / "elsewhere").mkdir()
                place.symlink_to(here / "elsewhere")
            elif kind == "a pipe":
                os.mkfifo(place)
            elif kind == "a file":
                place.write_bytes(b"")
            else:
                place.mkdir()
                os.chown(place, USER, USER)
            told = run(here / "database", "offer", "--to", CARMAKER, "--from", folder)
            left = left_of([name]) if kind == "a file" else ""
            expect(told, (1, left, "fault: 7 file\n"), f"offer where {name} is {kind}")
            expect((folder / "INV.0").exists(), True, f"whether the file is there where {name} is {kind}")
            expect(contents_sent(here / "database"), [], f"what is handed in where {name} is {kind}")


def room_of_what_is_taken(room):
    """Nobody else may write in the folder of what is taken, whoever has made it, and whatever the umask is."""
    for mode, wanted in ((0o777, 0o755), (0o2770, 0o2750), (0o755, 0o755), (None, 0o755)):
        folder, _ = outgoing(room, 1, f"out_{mode}")
        if mode:
            (folder / "taken").mkdir()
            (folder / "taken").chmod(mode)
        how = {"umask": 0}
        given = words(room / "database", "offer", "--to", CARMAKER, "--from", folder)
        done = subprocess.run(given, capture_output=True, timeout=LONG, check=False, **how)
        expect(done.returncode, 0, "offer")
        expect((folder / "taken").stat().st_mode & 0o7777, wanted, f"its mode, of {mode}")


def taken_that_is_no_file(room):
    """What is no regular file in the place of what was taken is refused as it is, and nothing is handed in."""
    for kind in ("link", "pipe", "folder"):
        here = room / kind
        name = f"20240201_0700001234_INV.1_{CARMAKER}"
        (here / "out/taken").mkdir(parents=True)
        (here / "elsewhere").write_bytes(b"KEPT")
        place = here / "out/taken" / name
        if kind == "link":
            place.symlink_to(here / "elsewhere")
        elif kind == "pipe":
            os.mkfifo(place)
        else:
            place.mkdir()
        told = run(here / "database", "offer", "--to", CARMAKER, "--from", here / "out")
        expect(told, (1, "fault: 7 file INV.1\n", ""), f"offer of a {kind}")
        wanted = f"INV.1_20240201_0700001234_{CARMAKER}"
        expect(sorted(os.listdir(here / "out/refused")), [wanted, f"{wanted}.line"], f"what is refused of a {kind}")
        expect(os.path.islink(here / "out/refused" / wanted), kind == "link", f"whether a {kind} is as it was")
        expect((os.listdir(here / "out/taken"), contents_sent(here / "database")), ([], []), f"what is taken and handed in of a {kind}")


def line_of_what_is_refused(room):
    """The line of a refused file is written over no link that has its name."""
    folder, _ = outgoing(room, 1)
    os.utime(folder / "INV.0", ns=(0, 0))
    (folder / "refused").mkdir()
    (room / "elsewhere").write_bytes(b"KEPT")
    name = f"INV.0_19700101_0000000001_{CARMAKER}"
    (folder / "refused" / f"{name}.line").symlink_to(room / "elsewhere")
    told = run(room / "database", "offer", "--to", CARMAKER, "--from", folder, "--format", "F", "--longest", "3")
    expect(told, (1, "refused: 5 field INV.0\n", ""), "offer")
    expect((room / "elsewhere").read_bytes(), b"KEPT", "what the link leads to")
    expect((folder / "refused" / f"{name}.line").read_bytes(), b"refused: 5 field\n", "the line")


def sent_beside_an_old_database(room):
    """A file of a new database is put over none of an old one that has the same number, name, date and time."""
    contents = [b"ONE", b"TWO", b"TWO"]
    folder = room / "out"
    folder.mkdir()
    for number, content in enumerate(contents):
        (folder / "INV.0").write_bytes(content)
        os.utime(folder / "INV.0", ns=(0, 0))
        told = run(room / f"database_{number}", "offer", "--to", CARMAKER, "--from", folder)
        expect(told, (0, "done: offer 1 INV.0\n", ""), f"offer for database {number}")
    name = f"0000001_INV.0_19700101_0000000001_{CARMAKER}"
    expect(within(folder / "sent"), dict(zip((name, f"{name}_2", f"{name}_3"), contents)), "what is put away")


def refused_beside_another(room):
    """So a refused file is put over none, nor its line over that of another file; a line without a file is nobody's."""
    name = f"INV.1_20240201_0700001234_{CARMAKER}"
    taken, refused = room / "out/taken", room / "out/refused"
    for folder in (taken, refused):
        folder.mkdir(parents=True)
    kept = {name: b"KEPT", f"{name}.line": b"ITS LINE\n"}
    for file, content in kept.items():
        (refused / file).write_bytes(content)
    words_of_it = ("offer", "--to", CARMAKER, "--from", room / "out")
    for rest, line, left in ((("--format", "F", "--longest", "3"), "refused: 5 field", True), ((), "done: offer 1", False)):
        (taken / f"20240201_0700001234_INV.1_{CARMAKER}").write_bytes(b"CONTENT")
        (refused / f"{name}_2.line").write_bytes(b"NOBODY'S")
        told = run(room / "database", *words_of_it, *rest)
        expect(told, (1 if left else 0, f"{line} INV.1\n", ""), "offer")
        own = {f"{name}_2": b"CONTENT", f"{name}_2.line": b"refused: 5 field\n"} if left else {}
        expect(within(refused), kept | own, f"what is refused behind {line}")
        for file in own:
            (refused / file).unlink()


def partner_in(service):
    """A partner who is let in, and is then silent."""
    caller = service.caller()
    caller.sendall(SSID)
    begun = b""
    while len(begun) < len(GREETING + ANSWER):
        begun += caller.recv(4096)
    expect(begun, GREETING + ANSWER, "what the partner read")
    return caller


def killed_while_it_waits(database, command, *rest):
    """A command that is killed while the station keeps its request for the session's end."""
    with started(database, command, *rest) as program:
        time.sleep(2)
        expect(program.poll(), None, "whether it waits")
        program.kill()
        program.communicate()


def request_of_a_killed_offer(room):
    """A file that a killed call has asked to be handed in is put away. The station hands it in behind the look-up of the next one."""
    folder, octets = outgoing(room, 1)
    with Resident(room) as service:
        with partner_in(service):
            killed_while_it_waits(service.database, "offer", "--to", CARMAKER, "--from", folder)
            expect(len(within(folder / "taken")), 1, "how many files are taken")
            again = started(service.database, "offer", "--to", CARMAKER, "--from", folder)
            time.sleep(1)
        expect(told(again), (0, "done: offer 1 INV.0\n", ""), "the next call")
    expect(contents_sent(room / "database"), octets, "what is handed in")
    expect([len(within(folder / name)) for name in ("taken", "sent", "refused")], [0, 1, 0], "where the file is")


def request_of_a_killed_collect(room):
    """A file that a killed call has asked to be released, and that the station releases behind the look-up of the next one, is done."""
    database, wanted = incoming(room, 1)
    (room / "in").mkdir()
    name = next(iter(wanted))
    with Resident(room) as service:
        with partner_in(service):
            killed_while_it_waits(database, "collect", "--to", room / "in", "--release")
            expect(within(room / "in"), wanted, "the files")
            again = started(database, "collect", "--to", room / "in", "--release")
            time.sleep(1)
        expect(told(again), (0, f"done: collect 1 {name}\n", ""), "the next call")
        expect(run(database, "release", "1")[1], "refused: 3 state\n", "a release")
    expect((within(room / "in"), issued(database)), (wanted, [1]), "the files, and what is released")


def folder_of_others(room):
    """A folder that is full of others' files, and has names that are no text."""
    database, wanted = incoming(room, 3)
    folder = room / "both"
    folder.mkdir()
    for number in range(FILES_OF_OTHERS):
        (folder / f"other_{number}").write_bytes(b"A")
    (Path(os.fsdecode(os.fsencode(folder) + b"/INV\xff"))).write_bytes(b"A")
    (folder / "INV.1").write_bytes(b"OFFERED")
    expect(run(database, "collect", "--to", folder, "--release")[0], 0, "collect")
    status, out, err = run(database, "offer", "--to", CARMAKER, "--from", folder)
    others = [*wanted, *(f"other_{number}" for number in range(FILES_OF_OTHERS))]
    expect((status, out, err), (0, left_of(others) + "done: offer 1 INV.1\n", ""), "offer")
    expect(all((folder / name).read_bytes() == octets for name, octets in wanted.items()), True, "whether the files are there")
    expect(len(os.listdir(folder)), FILES_OF_OTHERS + 1 + 3 + 3, "how many names the folder has")
    expect(contents_sent(database), [b"OFFERED"], "what is handed in")


def folder_that_a_reader_locks(room):
    """Who may read a folder, and locks it or a file in it, keeps nobody from it."""
    database, wanted = incoming(room, 1)
    folder, octets = outgoing(room, 1)
    held = [os.open(path, os.O_RDONLY) for path in (folder, folder / "INV.0")]
    for file in held:
        fcntl.flock(file, fcntl.LOCK_EX)
    name = next(iter(wanted))
    expect(run(database, "collect", "--to", folder, "--release"), (0, f"done: collect 1 {name}\n", ""), "collect")
    told = run(database, "offer", "--to", CARMAKER, "--from", folder)
    expect(told, (0, left_of([name]) + "done: offer 1 INV.0\n", ""), "offer")
    expect((contents_sent(database), issued(database)), (octets, [1]), "what is handed in and released")
    for file in held:
        os.close(file)


def lock_of_another(room):
    """A lock that others may open, that is a link or another user's, is a fault; one that a kill has left isn't."""
    folder, octets = outgoing(room, 1)
    lock = folder / LOCK

    def expect_fault(what):
        expect(run(room / "database", "offer", "--to", CARMAKER, "--from", folder), (1, "", "fault: 7 file\n"), what)

    lock.write_bytes(b"")
    lock.chmod(0o644)
    expect_fault("a lock that others may read")
    if os.geteuid() == 0:
        lock.chmod(0o600)
        os.chown(lock, USER, USER)
        expect_fault("another user's lock")
    lock.unlink()
    os.mkfifo(lock)
    expect_fault("a pipe in place of a lock")
    lock.unlink()
    lock.write_bytes(b"")
    lock.chmod(0o600)
    expect(run(room / "database", "offer", "--to", CARMAKER, "--from", folder), (0, "done: offer 1 INV.0\n", ""), "offer behind a kill")
    expect((contents_sent(room / "database"), lock.exists()), (octets, False), "what is handed in, and whether the lock is left")


def folder_that_is_held(room):
    """A folder over which another command goes is waited for, ten seconds at most. Nothing is done then."""
    database, _ = incoming(room, 1)
    folder, _ = outgoing(room, 1)
    held = os.open(folder / LOCK, os.O_RDWR | os.O_CREAT, 0o600)
    fcntl.flock(held, fcntl.LOCK_EX)
    begin = time.monotonic()
    with started(database, "collect", "--to", folder, "--release") as collect:
        expect(run(database, "offer", "--to", CARMAKER, "--from", folder), (1, "", "fault: 7 file\n"), "offer")
        expect(told(collect), (1, "", "fault: 7 file\n"), "collect")
    expect(time.monotonic() - begin >= 9, True, "whether it was waited")
    expect((list(within(folder)), issued(database)), (["INV.0"], []), "what the folder has, and what is released")
    with started(database, "collect", "--to", folder) as collect:
        time.sleep(1)
        os.close(held)
        expect(told(collect)[0], 0, "collect once the folder is free")


class Home:
    """A folder with the program, a book and a database, whose commands another user gives where the superuser runs this."""

    def __init__(self, path):
        self.path, self.database = Path(path), Path(path) / "database"
        self.path.chmod(0o755)
        # By a process of its own: another thread's child would hold the copy open for writing, and it couldn't be run meanwhile.
        subprocess.run(["cp", PROGRAM, self.path / "program"], check=True)
        shutil.copy(BOOK, self.path / "book")
        self.how = {"user": USER, "group": USER, "extra_groups": []} if os.geteuid() == 0 else {}

    def hand_over(self, *paths):
        """Gives that user what is there of these."""
        for there in (path for path in paths if self.how and path.exists()):
            os.chown(there, USER, USER)

    def give(self, *rest):
        given = [self.path / "program", rest[0], "--db", self.database, "--book", self.path / "book", *rest[1:]]
        done = subprocess.run(given, capture_output=True, timeout=LONG, check=False, **self.how)
        return done.returncode, done.stdout.decode(), done.stderr.decode()


def file_of_another_in_a_sticky_folder(room):
    """A file that only another user may move gets its line and stays, and the others are handed in, also those that are taken already."""
    if os.geteuid() != 0:
        raise NotTried("the superuser: another user's file in a sticky folder")
    with tempfile.TemporaryDirectory(dir="/tmp") as path:
        home = Home(path)
        folder, _ = outgoing(home.path, 3)
        folder.chmod(0o1777)
        home.hand_over(home.path, home.path / "book", folder / "INV.1", folder / "INV.2")

        def expect_told(status, lines, what):
            expect(home.give("offer", "--to", CARMAKER, "--from", folder), (status, lines, ""), what)

        expect_told(1, "fault: 7 file INV.0\ndone: offer 1 INV.1\ndone: offer 2 INV.2\n", "offer")
        expect((folder / "INV.0").exists(), True, "whether the file is there")
        left = folder / f"taken/20240201_0700001234_INV.9_{CARMAKER}"
        left.write_bytes(b"LEFT")
        home.hand_over(left)
        expect_told(1, "fault: 7 file INV.0\ndone: offer 3 INV.9\n", "offer with a file that is taken")
        home.hand_over(folder / "INV.0")
        expect_told(0, "done: offer 4 INV.0\n", "offer once the file may be moved")


def folder_that_is_not_written(room):
    """A folder that may not be written, and a file that may not be read."""
    with tempfile.TemporaryDirectory(dir="/tmp") as path:
        at_home = Home(path)
        home, give = at_home.path, at_home.give
        database, _ = incoming(home, 1)
        folder, _ = outgoing(home, 2)
        (folder / "INV.0").chmod(0)
        (home / "in").mkdir()
        (home / "in").chmod(0o555)
        at_home.hand_over(home, home / "book", database, Path(f"{database}-wal"), folder, folder / "INV.1")
        expect(give("collect", "--to", home / "in", "--release"), (1, "", "fault: 7 file\n"), "collect")
        expect(issued(database), [], "what is released")
        status, out, err = give("offer", "--to", CARMAKER, "--from", folder)
        expect((status, sorted(out.splitlines()), err), (1, ["done: offer 1 INV.1", "fault: 7 file INV.0"], ""), "offer")
        expect([len(os.listdir(folder / name)) for name in ("taken", "sent", "refused")], [1, 1, 0], "where the files are")
        folder.chmod(0o555)
        shutil.copy(home / "book", folder / "INV.3")
        expect(give("offer", "--to", CARMAKER, "--from", folder), (1, "", "fault: 7 file\n"), "offer of a folder that isn't written")
        expect((folder / "INV.3").exists(), True, "whether the file is there")


CASES = [
    several_that_collect,
    several_that_offer,
    several_beside_a_station,
    two_folders_at_once,
    two_folders_beside_a_station,
    two_folders_of_equal_files,
    two_stations_that_collect,
    subfolder_of_another,
    room_of_what_is_taken,
    taken_that_is_no_file,
    line_of_what_is_refused,
    sent_beside_an_old_database,
    refused_beside_another,
    folder_that_a_reader_locks,
    lock_of_another,
    request_of_a_killed_offer,
    request_of_a_killed_collect,
    folder_of_others,
    folder_that_is_held,
    folder_that_is_not_written,
    file_of_another_in_a_sticky_folder,
]


def tried(case):
    """Runs a case. It returns the result, and whether it failed."""
    with tempfile.TemporaryDirectory() as room:
        try:
            case(Path(room))
        except NotTried as why:
            return f"NOT TRIED without {why}", False
        except (Wrong, OSError, subprocess.SubprocessError) as why:
            return f"{case.__name__.replace('_', ' ')}: {type(why).__name__}: {why}", True
    return f"{case.__name__.replace('_', ' ')}: as it must be", False


def main():
    cases = [case for case in CASES if not sys.argv[1:] or any(word in case.__name__ for word in sys.argv[1:])]
    with ThreadPoolExecutor(max_workers=len(CASES)) as runners:
        tries = list(runners.map(tried, cases))
    print("\n".join(told for told, _ in tries))
    failed = sum(has_failed for _, has_failed in tries)
    print(f"{sum(told.endswith('as it must be') for told, _ in tries)} passed, {failed} failed")
    return 1 if failed or not cases else 0


if __name__ == "__main__":
    sys.exit(main())
