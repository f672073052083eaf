#!/usr/bin/env python3
"""The command `evidence` of real processes, over the record of a station that sent a file to another one and got one from it.

    checks/scenarios/evidence_folders.py [WORD ..]      all cases, or those whose names have one of these words

One of two stations records. Each sends the other a file; one is released, the other refused. What `evidence` writes of each is compared with the files
that were sent, with the record, and with what `show` and `report` tell. `verify.sh` is run by sh, with sha256sum. The last line is `N passed, M failed`.

Shows: `evidence` of a file that came and of one that went, with its content, its sessions and its response. It has the record up to its last session;
`verify.sh` plays that, and a changed octet is told. A number that no file has, and a record without a session of the file. A folder that is there,
and a record that is cut off or was changed
"""

import contextlib
import hashlib
import os
import random
import re
import shutil
import subprocess
import sys
import tempfile
from concurrent.futures import ThreadPoolExecutor
from pathlib import Path

sys.path.insert(0, str(Path(__file__).resolve().parents[1] / "lib"))

import told
from pairs import book_of
from program import PROGRAM
from services import LONG, NotTried, Resident, Wrong, expect, free_port

# What the texts of a folder say of the file that came, and of the one that went: its sessions, its response and its state.
OF_WAYS = {
    "in": ((("SFID", "nothing"), ("nothing", "EERP")), ["kind: EERP"], "answered"),
    "out": ((("nothing", "SFID"), ("NERP", "nothing")), ["kind: NERP", "reason: 34", "text: no part 7"], "returned"),
}
MOMENT = re.compile(r"\d{4}-\d\d-\d\dT\d\d:\d\d:\d\d\.\d{6}Z")


def run(*words, **how):
    done = subprocess.run(words, capture_output=True, timeout=LONG, check=False, **how)
    return done.returncode, done.stdout.decode(), done.stderr.decode()


def give(station, book, command, *words):
    status, _, faults = run(PROGRAM, command, "--db", station.database, "--book", book, *words)
    expect((status, faults), (0, ""), command)


def stop(station):
    expect(run(PROGRAM, "stop", "--db", station.database), (0, "done: stop\n", ""), "stop")
    station.program.wait(LONG)


def exchanged(room):
    """The folder of a station with its book, its database and its record. They are of a file that came and was released, and one that went and was
    refused. The second is what it sent, and the first what it got."""
    homes = [room / name for name in ("supplier", "carmaker")]
    ports = [free_port(), free_port()]
    for home, port in zip(homes, reversed(ports)):
        (home / "record").mkdir(parents=True)
        (home / "book.toml").write_text(book_of(home.name, {"buffer": 1024, "credit": 2, "restart": "true"}, port))
        (home / "file").write_bytes(os.urandom(5000))
    books = [home / "book.toml" for home in homes]
    codes = [told.book_in(book)["code"] for book in books]
    with contextlib.ExitStack() as both:
        stations = [both.enter_context(Resident(home, "--record", home / "record", book=book, port=port)) for home, book, port in zip(homes, books, ports)]
        for at in (0, 1):
            stamp = ["--dataset", f"F{at}", "--date", "20240201", "--time", "0800000001", "--to", codes[1 - at], "--format", "U"]
            give(stations[at], books[at], "submit", *stamp, homes[at] / "file")
        give(stations[0], books[0], "call", "--partner", codes[1])
        give(stations[0], books[0], "release", "1")
        give(stations[1], books[1], "refuse", "1", "34", "no part 7")
        give(stations[1], books[1], "call", "--partner", codes[0])
        for station in stations:
            stop(station)
    return homes[0], {"in": (homes[1] / "file").read_bytes(), "out": (homes[0] / "file").read_bytes()}


def asked(home, way, to, no="1", record="record"):
    """What `evidence` prints, with its exit status."""
    return run(PROGRAM, "evidence", "--record", home / record, "--db", home / "database", f"--{way}", "--to", to, no)


def written(home, way, to):
    """A folder of evidence that is whole."""
    expect(asked(home, way, to), (0, "done: evidence 1\n", ""), f"evidence of the file that goes {way}")
    return to


def verified(room, folder, book):
    """What `verify.sh` prints, with its exit status. The program has its name there, since the script looks for that."""
    names = room / "names"
    names.mkdir(exist_ok=True)
    with contextlib.suppress(FileExistsError):
        (names / "oftp_station").symlink_to(PROGRAM)
    status, out, _ = run("sh", folder / "verify.sh", book, env={**os.environ, "PATH": f"{names}:{os.environ['PATH']}"})
    return status, out


def files_in(folder):
    return sorted(path for path in folder.rglob("*") if path.is_file())


def names_in(folder):
    return [str(path.relative_to(folder)) for path in files_in(folder)]


def whole(room):
    """The folders of both files: which files they have, the sums, the content and the record, and that `verify.sh` passes."""
    home, contents = exchanged(room)
    days = names_in(home / "record")
    sessions = [f"session-{place}.{ending}" for place in (1, 2) for ending in ("in", "out", "txt")]
    for way, content in contents.items():
        folder = written(home, way, room / way)
        expect(names_in(folder), sorted(["README", "SHA256SUMS", "content", *(f"record/{day}" for day in days), *sessions, "verify.sh"]), "the files")
        expect({oct(path.stat().st_mode)[-3:] for path in files_in(folder)}, {"600"}, "the modes of the files")
        expect([oct(path.stat().st_mode)[-3:] for path in (folder, folder / "record")], ["700", "700"], "the modes of the folders")
        expect((folder / "content").read_bytes(), content, "the content")
        for day in days:
            expect((folder / "record" / day).read_bytes(), (home / "record" / day).read_bytes(), "a day of the record")
        sums = {f"{hashlib.sha256(path.read_bytes()).hexdigest()}  {path.relative_to(folder)}" for path in files_in(folder) if path.name != "SHA256SUMS"}
        expect(set((folder / "SHA256SUMS").read_text().splitlines()), sums, "the sums")
        expect(run("sha256sum", "-c", "SHA256SUMS", cwd=folder)[0], 0, "sha256sum")
        status, out = verified(room, folder, home / "book.toml")
        expect((status, out.splitlines()[-1][:8]), (0, "same: 2 "), "verify.sh")


def texts(room):
    """What the `README` and the words of the sessions say."""
    home, contents = exchanged(room)
    partner = told.book_in(room / "carmaker/book.toml")["code"]
    version, sources = run(PROGRAM, "version")[1].splitlines()
    for way, (sessions, response, state) in OF_WAYS.items():
        folder = written(home, way, room / way)
        lines = (folder / "README").read_text().splitlines()
        facts = [f"way: {way}", "number: 1", "format: U", "octets: 5000", f"SHA-256 of its content: {hashlib.sha256(contents[way]).hexdigest()}"]
        facts += [*response, f"state: {state}", f"program: {version}", f"SHA-256 of its sources: {sources.removeprefix('sources ')}"]
        expect([fact for fact in facts if fact not in lines], [], "what the README lacks")
        begun = [line for line in lines if line.startswith("session ")]
        for place, (line, (heard, said)) in enumerate(zip(begun, sessions, strict=True), 1):
            wanted = rf"session {place}: with {partner} at \S+, from {MOMENT.pattern} to {MOMENT.pattern}; heard: {heard}; said: {said}"
            expect(bool(re.fullmatch(wanted, line)), True, f"the line of a session: {line}")
        answered = [line for line in lines if line.startswith("moment: ")]
        expect([bool(MOMENT.fullmatch(line.removeprefix("moment: "))) for line in answered], [True], "when it was answered")
        for place in (1, 2):
            words = (folder / f"session-{place}.txt").read_text().splitlines()
            for ending, mark in (("in", " < "), ("out", " > ")):
                status, shown, _ = run(PROGRAM, "show", folder / f"session-{place}.{ending}")
                own = [line.split(mark, 1)[1] for line in words if mark in line]
                expect(status, 0, f"show of session-{place}.{ending}")
                commands = [[line for line in side if not line.startswith("DATA ")] for side in (shown.splitlines(), own)]
                expect(commands[1], commands[0], f"the words of session-{place}.{ending}")


def changed(room):
    """A changed octet of a file fails the sums, and so does `verify.sh`, unless that was changed itself."""
    home, _ = exchanged(room)
    folder = written(home, "in", room / "in")
    chance = random.Random(1)
    for path in files_in(folder):
        if path.name == "SHA256SUMS":
            continue
        octets = path.read_bytes()
        for place in sorted(chance.sample(range(len(octets)), 3)):
            path.write_bytes(octets[:place] + bytes([octets[place] ^ 1]) + octets[place + 1 :])
            expect(run("sha256sum", "-c", "SHA256SUMS", cwd=folder)[0], 1, f"sha256sum with octet {place} of {path.name} changed")
            if path.name != "verify.sh":
                expect(verified(room, folder, home / "book.toml")[0] != 0, True, f"whether verify.sh fails with octet {place} of {path.name} changed")
        path.write_bytes(octets)
    # A record that was changed with its sum is told by its own digests.
    (day,) = (folder / "record").iterdir()
    octets = day.read_bytes()
    before = hashlib.sha256(octets).hexdigest()
    octets = octets[:-1] + bytes([octets[-1] ^ 1])
    day.write_bytes(octets)
    sums = folder / "SHA256SUMS"
    sums.write_text(sums.read_text().replace(before, hashlib.sha256(octets).hexdigest()))
    status, out = verified(room, folder, home / "book.toml")
    expect((status, out.splitlines()[-1][:9]), (1, "differs: "), "verify.sh with a changed record and its sum")


def refused(room):
    """A number that no file has, and a record without a session of the file. Also a folder that is there or can't be made, and a record that isn't
    there."""
    home, _ = exchanged(room)
    to = room / "to"
    for way in ("in", "out"):
        expect(asked(home, way, to, "2"), (1, "refused: 2 unknown\n", ""), "a number that no file has")
    (home / "nothing").mkdir()
    expect(asked(home, "in", to, record="nothing"), (1, "refused: 2 unknown\n", ""), "an empty record")
    expect(to.exists(), False, "whether the folder is there")
    expect(asked(home, "in", to, record="nowhere"), (1, "", "fault: 7 file\n"), "no record")
    shutil.rmtree(to)
    to.mkdir()
    (to / "mine").write_bytes(b"mine")
    for there in (to, home / "book.toml", room / "nowhere/to"):
        expect(asked(home, "in", there), (1, "", "fault: 7 file\n"), f"evidence to {there.name}")
    expect(names_in(to), ["mine"], "what is in the folder")


def broken(room):
    """A record that is cut off, or in which an octet was changed, is told, and the folder has no sums."""
    home, _ = exchanged(room)
    (day,) = (home / "record").iterdir()
    octets = day.read_bytes()
    place = random.Random(2).randrange(len(octets))
    damaged = {"cut": octets[:-1], "changed": octets[:place] + bytes([octets[place] ^ 1]) + octets[place + 1 :]}
    for name, record in damaged.items():
        day.write_bytes(record)
        to = room / name
        status, out, faults = asked(home, "in", to)
        expect((status, out[:9], out.count("\n"), faults), (1, "differs: ", 1, ""), f"evidence by a record that is {name}")
        expect((to / "SHA256SUMS").exists(), False, "whether there are sums")


def days(room):
    """Of the days of a record those are copied that end with the file's last session. What a later run of the station records isn't looked for."""
    home, contents = exchanged(room)
    (day,) = (home / "record").iterdir()
    day.rename(day.with_stem("20200101"))
    with Resident(home, "--record", home / "record", book=home / "book.toml") as station:
        stop(station)
    expect(len(names_in(home / "record")), 2, "how many days there are")
    folder = written(home, "in", room / "in")
    expect(names_in(folder / "record"), ["20200101.record"], "the days in the folder")
    expect((folder / "content").read_bytes(), contents["in"], "the content")
    status, out = verified(room, folder, home / "book.toml")
    expect((status, out.splitlines()[-1][:8]), (0, "same: 2 "), "verify.sh")


CASES = [whole, texts, changed, refused, broken, days]


def tried(case):
    """Runs a case. It returns its result, and whether it failed."""
    with tempfile.TemporaryDirectory() as room:
        try:
            case(Path(room))
        except NotTried as why:
            return f"NOT TRIED without {why}", False
        except (Wrong, OSError, subprocess.SubprocessError, ValueError, LookupError) as why:
            return f"{case.__name__.replace('_', ' ')}: {type(why).__name__}: {why}", True
    return f"{case.__name__.replace('_', ' ')}: as it must be", False


def main():
    cases = [case for case in CASES if not sys.argv[1:] or any(word in case.__name__ for word in sys.argv[1:])]
    with ThreadPoolExecutor(max_workers=4) as runners:
        tries = list(runners.map(tried, cases))
    print("".join(f"{told_of}\n" for told_of, _ in tries), end="")
    failed = sum(has_failed for _, has_failed in tries)
    print(f"{sum(told_of.endswith('as it must be') for told_of, _ in tries)} passed, {failed} failed")
    return 1 if failed or not cases else 0


if __name__ == "__main__":
    sys.exit(main())
