#!/usr/bin/env python3
"""Tries `--record` and `replay` as processes.

    checks/scenarios/recording.py [WORD ..]      all cases, or those whose names have one of these words

The last line is `N passed, M failed`.

Shows: what a station recorded, played over a new database, gives the tables that the station has, read by stock sqlite3. That is after sessions
with a partner who calls and who is called, with files both ways. It is after operators' commands and after a book that was read again. It is
after SIGKILL between any two octets of sessions and within commands, with a start again each time, also as days turn. It goes on from a backup.
Of two replays at once one plays it all, and one that is killed leaves nothing that is called the same and isn't. A record that is cut off, or in
which an octet was changed, is told, and so is a database that isn't the station's. A station goes on behind the last whole entry, also of days
before. One that can't write its record ends with `fault: 7 file`. What `listen`, `call`, `feed` and commands without a station record gives their
tables, too, also after kills of commands and of `feed`. No password of a session or a book is in a record, and sessions with wrong ones are
played as they were. The register is marked each hour if no session goes on, and before a backup. A mark reads no rows of a file that was whole at
one before. A part of a record is played from an entry, and up to one. An audit against a record tells a database that isn't the last one of it,
or never was. `explain` shows what isn't to be seen in a changed record by its escape. It tells of each session, or of the one with a number,
which may be 0
"""

import contextlib
import datetime
import fcntl
import hashlib
import os
import random
import shutil
import signal
import socket
import struct
import subprocess
import sys
import tempfile
import threading
import time
from concurrent.futures import ThreadPoolExecutor
from pathlib import Path

sys.path.insert(0, str(Path(__file__).resolve().parents[1] / "lib"))

import filled
import one_file
import row_files
import tables
from program import PROGRAM, ROOT
from services import BOOK, CARMAKER, LONG, NotTried, Resident, Service, Wrong, expect, free_port, rest_of
from shims import compile_library

IDENTITY = ["--date", "20240201", "--to", CARMAKER, "--format", "U"]


def session_of(name):
    return row_files.Row(row_files.ROWS / f"{name}.row").sessions()[0]


def recording(room, *words, **how):
    """A station with a record."""
    folder = room / "record"
    folder.mkdir(exist_ok=True)
    return Resident(room, "--record", folder, *words, **how)


def replayed(room, database="again", book=BOOK):
    """What `replay` over this database comes to."""
    words = [PROGRAM, "replay", "--record", room / "record", "--db", room / database, "--book", book]
    done = subprocess.run(words, capture_output=True, timeout=LONG * 5, check=False)
    return done.returncode, done.stdout.decode(), done.stderr.decode()


def expect_same(room, sessions=None, calls=None, database="again", book=BOOK, station="database"):
    """The record gives the tables of the station over a new database, or over this one."""
    status, out, err = replayed(room, database, book)
    if (status, err) != (0, "") or not out.startswith("same: "):
        raise Wrong(f"replay: {status}, {out!r}, {err!r}")
    if sessions is not None:
        expect(out, f"same: {sessions} sessions, {calls} calls\n", "replay")
    expect(tables.read(room / database), tables.read(room / station), "the tables")


def converse(service, octets):
    with service.caller() as caller:
        caller.sendall(octets)
        caller.shutdown(socket.SHUT_WR)
        rest_of(caller)
    return service.line()


def submit(service, name, file, book=BOOK):
    """Submits a file under a name."""
    words = [PROGRAM, "submit", "--db", service.database, "--book", book, *IDENTITY, "--dataset", name, "--time", "0800000001", file]
    return subprocess.run(words, capture_output=True, timeout=LONG, check=False).stdout.decode()


def commands(room):
    """Operators' commands, done and refused."""
    file = room / "file"
    file.write_bytes(bytes(range(256)) * 10)
    with recording(room, "--jobs", "6") as service:
        expect(submit(service, "A", file), "done: submit 1\n", "submit")
        expect(submit(service, "A", file), "refused: 1 duplicate\n", "submit again")
        expect(submit(service, "B", file), "done: submit 2\n", "submit of another one")
        expect(converse(service, session_of("receiving/one_octet").joined("in"))[:8], "session ", "the line")
        expect(service.give("release", "1").stdout, b"done: release 1\n", "release")
        expect(service.give("refuse", "1", "12", "no").stdout, b"refused: 3 state\n", "refuse")
        service.ends()
    expect([oct(file.stat().st_mode)[-3:] for file in (room / "record").iterdir()], ["600"], "the modes")
    expect(list(users_in(room)), [str(os.geteuid())] * 5, "the users of the calls")
    program = subprocess.run([PROGRAM, "version"], capture_output=True, timeout=LONG, check=True).stdout.rstrip()
    expect(program in file_of(room).read_bytes()[:300], True, "whether the beginning has the program's version and its sources")
    expect_same(room, 1, 5)
    # It goes on from its end, too.
    expect_same(room, 0, 0)


def rows(room):
    """Sessions of rows, as a caller plays them, one after another."""
    names = ["opening/wrong_password", "receiving/one_octet", "listening/nothing_waiting"]
    names += sorted(path.relative_to(row_files.ROWS).with_suffix("").as_posix() for path in (row_files.ROWS / "receiving").glob("*.row"))[:25]
    with recording(room) as service:
        for name in names:
            for session in row_files.Row(row_files.ROWS / f"{name}.row").sessions():
                if not session.role and session.book == BOOK and not session.closes():
                    converse(service, session.joined("in"))
    with recording(room, "--jobs", "1") as service:
        converse(service, session_of("listening/nothing_waiting").joined("in"))
        service.ends()
    expect_same(room)


def two_books(room, ports):
    """The books of the station and of its partner, which call each other at these ports."""
    book, theirs = room / "book", room / "theirs"
    book.write_text(BOOK.read_text().replace("127.0.0.1:3305", f"127.0.0.1:{ports[1]}"))
    theirs.write_text((ROOT / "examples/carmaker/book.toml").read_text().replace("127.0.0.1:3306", f"127.0.0.1:{ports[0]}"))
    return book, theirs


def two_stations(room):
    """Files both ways between two stations, of which each calls the other."""
    ports = [free_port(), free_port()]
    folder, file = room / "partner", room / "file"
    folder.mkdir()
    file.write_bytes(random.Random(7).randbytes(200_000))
    book, theirs = two_books(room, ports)
    with recording(room, book=book, port=ports[0]) as service, Resident(folder, book=theirs, port=ports[1]) as partner:
        for name in ("A", "B"):
            expect(submit(service, name, file, book)[:13], "done: submit ", "submit")
        offer = ["submit", "--db", partner.database, "--book", theirs, "--dataset", "C", "--to", "O0013SUPPLIER", "--format", "U", file]
        expect(subprocess.run([PROGRAM, *offer], capture_output=True, timeout=LONG, check=False).stdout, b"done: submit 1\n", "their submit")
        call = [PROGRAM, "call", "--db", service.database, "--book", book, "--partner", CARMAKER]
        expect(subprocess.run(call, capture_output=True, timeout=LONG, check=False).stdout[:5], b"end: ", "the call")
        service.line()
        call = [PROGRAM, "call", "--db", partner.database, "--book", theirs, "--partner", "O0013SUPPLIER"]
        expect(subprocess.run(call, capture_output=True, timeout=LONG, check=False).stdout[:5], b"end: ", "their call")
        service.line()
        for number in ("1", "2"):
            release = [PROGRAM, "release", "--db", partner.database, "--book", theirs, number]
            expect(subprocess.run(release, capture_output=True, timeout=LONG, check=False).stdout[:13], b"done: release", "their release")
        subprocess.run(call, capture_output=True, timeout=LONG, check=False)
        service.line()
        time.sleep(0.2)
        resend = [PROGRAM, "resend", "--db", service.database, "--book", book, "1"]
        expect(subprocess.run(resend, capture_output=True, timeout=LONG, check=False).stdout, b"done: resend 1 3\n", "resend")
    with recording(room, "--jobs", "1", book=book, port=ports[0]) as service:
        expect(submit(service, "D", file, book)[:13], "done: submit ", "submit")
        service.ends()
    expect_same(room, book=book)
    explained = subprocess.run([PROGRAM, "explain", "--record", room / "record"], capture_output=True, timeout=LONG, check=False)
    expect((explained.returncode, explained.stdout), (0, b""), "what is to be told of a partner who keeps to the standard")


def book_read_again(room):
    """A session by a book that the station has read again is played by that one. What isn't done of a resend isn't done again."""
    first, book, file = room / "first", room / "book", room / "file"
    first.write_text(BOOK.read_text().replace(CARMAKER, "O0188CARMAKER"))
    shutil.copyfile(first, book)
    file.write_bytes(b"ABC")
    octets = session_of("receiving/one_octet").joined("in")
    with recording(room, book=book) as service:
        expect(converse(service, octets), "session - in: end: own 03", "a caller who isn't in the book")
        book.write_text(BOOK.read_text())
        expect(service.give("reload").stdout, b"done: reload\n", "reload")
        expect(converse(service, octets)[:25], f"session {CARMAKER} in: "[:25], "the same caller")
        expect(submit(service, "A", file), "done: submit 1\n", "submit")
        expect(service.give("resend", "--book", BOOK, "1").stdout, b"refused: 3 state\n", "resend of what still goes out")
        expect(service.give("stop").stdout, b"done: stop\n", "stop")
        service.ends()
    expect_same(room, 1, 2, book=first)


def killed(room, seed, **how):
    """SIGKILL at any moment of sessions and commands, with a start again each time."""
    chance = random.Random(seed)
    file = room / "file"
    file.write_bytes(bytes(5000))
    whole = [one_file.session(30_000, 128, 2), session_of("receiving/one_octet").joined("in"), one_file.session(3000, 2048, 5)]
    for turn in range(6):
        with recording(room, **how) as service:
            for octets in chance.sample(whole, 2):
                with service.caller() as caller, contextlib.suppress(OSError):
                    cut = chance.randrange(len(octets) + 1)
                    caller.sendall(octets[:cut])
                    if chance.random() < 0.5:
                        caller.shutdown(socket.SHUT_WR)
                        rest_of(caller)
                    time.sleep(chance.choice([0, 0.01, 0.1]))
            asked = service.asked("submit", *command_of(turn), book=BOOK.read_bytes(), content=file.read_bytes()) if chance.random() < 0.7 else None
            time.sleep(chance.choice([0, 0, 0.002, 0.02]))
            service.program.kill()
            service.program.wait()
            if asked:
                asked.close()
    with recording(room, "--jobs", "1", **how) as service:
        submit(service, "LAST", file)
        service.ends()
    expect_same(room)


def asked_only(service, number, book):
    """Asks the station itself for a release. The command `release` would open the database, once the station is killed, and record nothing."""
    with contextlib.suppress(OSError, Wrong), service.asked("release", number, book=book.read_bytes()) as client:
        rest_of(client)


def killed_beside_a_partner(room, seed):
    """SIGKILL at any moment of sessions with another station, which send files both ways, and responses."""
    chance = random.Random(seed)
    ports = [free_port(), free_port()]
    folder, file = room / "partner", room / "file"
    folder.mkdir()
    book, theirs = two_books(room, ports)
    with Resident(folder, book=theirs, port=ports[1]) as partner:
        for turn in range(5):
            with recording(room, "--call-every", "1", book=book, port=ports[0]) as service:
                file.write_bytes(chance.randbytes(chance.choice([1, 5_000, 300_000])))
                submit(service, f"OUT{turn}", file, book)
                theirs_of = ["--book", theirs, "--to", "O0013SUPPLIER", "--format", "U", "--dataset", f"IN{turn}"]
                subprocess.run([PROGRAM, "submit", "--db", partner.database, *theirs_of, file], capture_output=True, timeout=LONG, check=False)
                asks = [["call", "--db", partner.database, "--book", theirs, "--partner", "O0013SUPPLIER"]]
                asks += [["release", "--db", partner.database, "--book", theirs, str(number)] for number in range(1, turn + 1)]
                own = [threading.Thread(target=asked_only, args=(service, str(number), book), daemon=True) for number in range(1, turn + 1)]
                asks = [subprocess.Popen([PROGRAM, *words], stdout=subprocess.DEVNULL, stderr=subprocess.DEVNULL) for words in chance.sample(asks, len(asks))]
                for ask in own:
                    ask.start()
                time.sleep(chance.choice([0, 0.01, 0.05, 0.2, 0.5, 1.2, 1.5]))
                service.program.kill()
                service.program.wait()
                for ask in asks:
                    ask.wait(LONG)
                for ask in own:
                    ask.join(LONG)
    with recording(room, "--jobs", "1", book=book, port=ports[0]) as service:
        submit(service, "LAST", file, book)
        service.ends()
    expect_same(room, book=book)


def many(room, case, count):
    """A case with each of the first seeds, in a folder of its own."""

    def one(seed):
        folder = room / str(seed)
        folder.mkdir()
        case(folder, seed)

    with ThreadPoolExecutor(max_workers=4) as runners:
        list(runners.map(one, range(count)))


def killed_at_moments(room):
    """SIGKILL while callers talk and commands ask."""
    many(room, killed, 12)


def passing_days(room):
    """What lets the clock of a program pass fifty days in a second."""
    if not shutil.which("cc"):
        raise NotTried("a C compiler: days that turn")
    return {"LD_PRELOAD": str(compile_library(room, "fast_days")), "DAYS_RATE": "4320000", "DAYS_FROM": str(int(time.time()))}


def killed_as_days_turn(room):
    """SIGKILL while callers talk and commands ask, by a clock that passes fifty days in a second."""
    days = passing_days(room)

    def one(folder, seed):
        killed(folder, seed, environment=days)
        expect(len(list((folder / "record").iterdir())) > 4, True, "that days turned")

    many(room, one, 8)


def killed_beside_partners(room):
    """SIGKILL while two stations talk."""
    many(room, killed_beside_a_partner, 4)


def command_of(turn):
    """The options with which a file is submitted."""
    return [*IDENTITY, "--dataset", f"T{turn}", "--time", "0800000001"]


def file_of(room):
    """The only file of the record."""
    (file,) = (room / "record").glob("*.record")
    return file


def one_session(room):
    with recording(room, "--jobs", "1") as service:
        converse(service, session_of("receiving/one_octet").joined("in"))
        service.ends()


def changed_octet(room):
    """A changed octet anywhere is told, and no station goes on behind it."""
    one_session(room)
    file = file_of(room)
    octets = file.read_bytes()
    for place in sorted(random.Random(1).sample(range(len(octets)), 25)):
        file.write_bytes(octets[:place] + bytes([octets[place] ^ 1]) + octets[place + 1 :])
        (room / "again").unlink(missing_ok=True)
        (room / "again-wal").unlink(missing_ok=True)
        status, out, err = replayed(room)
        expect((status, out[:9], err), (1, "differs: ", ""), f"replay with octet {place} changed")
    done = subprocess.run([PROGRAM, "run", "--db", room / "database", "--book", BOOK, "--record", room / "record", "--jobs", "1", "--port", str(free_port())], capture_output=True, timeout=LONG, check=False)
    expect((done.returncode, done.stderr), (1, b"fault: 7 file\n"), "a station over a changed record")


def cut_record(room):
    """A record that is cut off is told, and a station cuts off what is behind the last whole entry."""
    one_session(room)
    file = file_of(room)
    octets = file.read_bytes()
    file.write_bytes(octets[:-1])
    status, out, err = replayed(room)
    expect((status, out[-12:], err), (1, "it is cut off\n"[-12:], ""), "replay")
    one_session(room)
    shutil.rmtree(room / "record" / "none", ignore_errors=True)
    (room / "again").unlink()
    (room / "again-wal").unlink(missing_ok=True)
    expect_same(room, 2, 0)


def entries_from(octets, at):
    """The places of the entries from a place on, each with its kind, its moment, and its end."""
    while at < len(octets):
        end = at + 54 + int.from_bytes(octets[at + 14 : at + 18], "big")
        yield at, octets[at + 5], octets[at + 6 : at + 14], end
        at = end


def first_pieces(octets, at):
    """The ends of the first eight entries from a place on that a session heard at once."""
    found = [(end, (kind, moment)) for _, kind, moment, end in entries_from(octets, at) if kind == OCTETS_IN]
    for first in range(len(found) - 7):
        if len({mark for _, mark in found[first : first + 8]}) == 1:
            return [end for end, _ in found[first : first + 8]]
    raise Wrong("no octets were recorded as eight pieces")


@contextlib.contextmanager
def heard_at_once(room, octets, count, *words):
    """A station that finds so many octets of a session at once, behind its first hundred."""
    with recording(room, *words) as service, service.caller() as caller:
        caller.sendall(octets[:100])
        time.sleep(0.4)
        service.program.send_signal(signal.SIGSTOP)
        caller.sendall(octets[100 : 100 + count])
        time.sleep(0.1)
        service.program.send_signal(signal.SIGCONT)
        yield service, caller


def lengths_heard(octets):
    """How many octets a session heard at once, one time after another."""
    marks, lengths = [None], []
    for at, kind, moment, end in entries_from(octets, 0):
        if kind == OCTETS_IN and (kind, moment) == marks[-1]:
            lengths[-1] += end - at - 71
        elif kind == OCTETS_IN:
            lengths.append(end - at - 71)
        marks.append((kind, moment))
    return lengths


def most_at_once(room):
    """A session hears 65,536 octets at once and no more: one below that, just as many, and one more."""
    octets = one_file.session(120_000, 128, 2)
    for count, lengths in ((65_535, [65_535]), (65_536, [65_536]), (65_537, [65_536, 1])):
        again = room / str(count)
        again.mkdir()
        with heard_at_once(again, octets, count, "--jobs", "1") as (service, caller):
            time.sleep(0.4)
            caller.sendall(octets[100 + count :])
            caller.shutdown(socket.SHUT_WR)
            rest_of(caller)
            expect(service.line()[-15:], "end: partner 00", "the line")
            service.ends()
        heard = lengths_heard(file_of(again).read_bytes())
        expect([length for length in heard if length in lengths][: len(lengths)], lengths, f"what is heard of {count} octets")
        expect_same(again, 1, 0)


def killed_within(room, seed):
    """SIGKILL while a session hears what came at once, with hundreds of windows in it."""
    chance = random.Random(seed)
    octets = one_file.session(60_000, 128, 2)
    with heard_at_once(room, octets, len(octets)) as (service, _):
        time.sleep(chance.choice([0, 0.005, 0.02, 0.08, 0.3]) * chance.random())
        service.program.kill()
        service.program.wait()
    file = room / "file"
    file.write_bytes(b"x")
    with recording(room, "--jobs", "1") as service:
        submit(service, "LAST", file)
        service.ends()
    expect_same(room)


def killed_within_pieces(room):
    """SIGKILL within what a session hears at once."""
    many(room, killed_within, 12)


def torn_pieces(room):
    """A kill within the write of eight pieces, and one right behind it: nothing of them was handed to the session."""
    octets = one_file.session(60_000, 128, 2)
    with recording(room) as service, service.caller() as caller:
        caller.sendall(octets[:100])
        time.sleep(0.5)
        service.program.send_signal(signal.SIGSTOP)
        files = {name: (room / name).read_bytes() for name in ("database", "database-wal") if (room / name).exists()}
        size = file_of(room).stat().st_size
        caller.sendall(octets[100:])
        service.program.send_signal(signal.SIGCONT)
        caller.shutdown(socket.SHUT_WR)
        rest_of(caller)
        service.program.kill()
        service.program.wait()
    record = file_of(room).read_bytes()
    ends = first_pieces(record, size)
    for name, cut in (("within", ends[4] + 100), ("behind", ends[7])):
        again = room / name
        (again / "record").mkdir(parents=True)
        for file, content in files.items():
            (again / file).write_bytes(content)
        (again / "record" / file_of(room).name).write_bytes(record[:cut])
        with recording(again, "--jobs", "1") as service:
            file = again / "file"
            file.write_bytes(bytes(10))
            submit(service, "LAST", file)
            service.ends()
        expect_same(again)


def backup(room):
    """The record goes on from a backup that was made between two stations' lives."""
    one_session(room)
    copied = subprocess.run([PROGRAM, "backup", "--db", room / "database", room / "copy"], capture_output=True, timeout=LONG, check=False)
    expect(copied.stdout, b"done: backup\n", "backup")
    file = room / "file"
    file.write_bytes(b"ABC")
    with recording(room, "--jobs", "1") as service:
        expect(submit(service, "A", file), "done: submit 1\n", "submit")
        service.ends()
    expect_same(room, 0, 1, database="copy")


def lost_database(room):
    """A station is killed, and its database is lost: it is the backup and the record since, and the next life goes on there. As docs/howto/backup.md says."""
    file = room / "file"
    file.write_bytes(b"ABC")
    with recording(room) as service:
        expect(submit(service, "A", file), "done: submit 1\n", "submit")
        expect(service.give("backup", room / "copy").stdout, b"done: backup\n", "backup")
        expect(submit(service, "B", file), "done: submit 2\n", "submit behind the backup")
        expect(converse(service, session_of("receiving/one_octet").joined("in"))[-15:], "end: partner 00", "the session")
        expect(service.give("release", "1").stdout, b"done: release 1\n", "release")
        service.program.kill()
        service.program.wait()
    copied(room, "lost")
    for end in ("", "-wal"):
        (room / f"database{end}").unlink(missing_ok=True)
    shutil.copyfile(room / "copy", room / "database")
    expect(replayed(room, "database"), (0, "same: 1 sessions, 2 calls\n", ""), "replay over the backup")
    expect(tables.read(room / "database"), tables.read(room / "lost"), "the tables")
    with recording(room, "--jobs", "1") as service:
        expect(submit(service, "C", file), "done: submit 3\n", "submit to the next life")
        service.ends()
    expect_same(room, 1, 4)


def replay_words(room, database, book=BOOK):
    return [PROGRAM, "replay", "--record", room / "record", "--db", room / database, "--book", book]


def recorded_life(room):
    """A backup between two commands and sessions, of which one takes a while to be played."""
    file = room / "file"
    file.write_bytes(b"ABC")
    with recording(room) as service:
        expect(submit(service, "A", file), "done: submit 1\n", "submit")
        expect(service.give("backup", room / "copy").stdout, b"done: backup\n", "backup")
        for turn in range(3):
            converse(service, one_file.session(400_000, 1024, 3).replace(b"ASN.0001", b"ASN.%04d" % turn))
            expect(submit(service, f"B{turn}", file), f"done: submit {turn + 2}\n", "submit behind the backup")
        service.give("stop")
        service.ends()


def two_replays(room):
    """Of two replays at once over one database one plays it all. The other one waits for the database in vain, or has it behind the first."""
    recorded_life(room)
    for turn in range(4):
        for end in ("", "-wal"):
            (room / f"again{end}").unlink(missing_ok=True)
        begun = [subprocess.Popen(replay_words(room, "again"), stdout=subprocess.PIPE, stderr=subprocess.PIPE) for _ in range(2)]
        told = sorted((b"".join(program.communicate(timeout=LONG)), program.returncode) for program in begun)
        expect((b"same: 3 sessions, 4 calls\n", 0) in told, True, f"whether one of two replays is the whole: {told}")
        others = [line for line, _ in told if line not in (b"same: 3 sessions, 4 calls\n", b"same: 0 sessions, 0 calls\n", b"fault: 6 store 1\n")]
        expect(others, [], "what else the two replays tell")
        expect(tables.read(room / "again"), tables.read(room / "database"), f"the tables of turn {turn}")


def killed_replays(room):
    """A replay that is killed over a copy of the backup is begun again over another copy. Over what it left it plays on from there, or tells that it can't."""
    recorded_life(room)
    chance = random.Random(3)
    for turn in range(12):
        for end in ("", "-wal"):
            (room / f"again{end}").unlink(missing_ok=True)
        shutil.copyfile(room / "copy", room / "again")
        with subprocess.Popen(replay_words(room, "again"), stdout=subprocess.DEVNULL) as program:
            time.sleep(chance.uniform(0, 0.25))
            program.kill()
        status, out, err = replayed(room, "again")
        if status == 0:
            expect(tables.read(room / "again"), tables.read(room / "database"), f"the tables behind a killed replay, turn {turn}")
        else:
            expect((status, out.startswith("differs: ") or err.startswith("fault: 6")), (1, True), f"what is told behind a killed replay: {out}{err}")
    for end in ("", "-wal"):
        (room / f"again{end}").unlink(missing_ok=True)
    shutil.copyfile(room / "copy", room / "again")
    expect_same(room, 3, 3)


def hundred_partners(room):
    """A book of a hundred partners, each with passwords of its own. A later book has them in another order, and with their keys turned."""
    partner = "\n[[partner]]\ncode = 'O0013P%03d'\nexpects = 'IN%03d'\nsends = 'OUT%03d'\nmode = 'B'\naddress = '127.0.0.1:1'\n"
    turned = "\n[[partner]]\nsends = 'OUT%03d'\nexpects = 'IN%03d'\ncode = 'O0013P%03d'\nmode = 'B'\naddress = '127.0.0.1:1'\n"
    first, second = room / "first.toml", room / "second.toml"
    first.write_text(BOOK.read_text() + "".join(partner % (n, n, n) for n in range(100)))
    second.write_text(BOOK.read_text() + "".join(turned % (n, n, n) for n in reversed(range(100))))
    with recording(room, book=first) as service:
        for number, line in ((7, "end: partner 00"), (99, "end: partner 00"), (50, "end: own 04")):
            octets = one_file.session(3000, 128, 2).replace(b"ASN.0001", b"ASN.%04d" % number)
            octets = octets.replace(b"O0177CARMAKER", (b"O0013P%03d" % number).ljust(13)).replace(b"CARPW", b"IN%03d" % (number if number != 50 else 51))
            expect(converse(service, octets)[-len(line) :], line, f"the session of partner {number}")
        service.give("stop")
        service.ends()
    octets = file_of(room).read_bytes()
    expect([word for n in range(100) for word in (b"IN%03d" % n, b"OUT%03d" % n) if word in octets], [], "the passwords in the record")
    # The caller with another one's password isn't let in, so no session is recorded of it.
    expect_same(room, 2, 0, book=second)


def without_a_book(room):
    """Without a book a command is played, which has its own, and a station whose book has passwords is told."""
    (room / "record").mkdir()
    (room / "file").write_bytes(b"ABC")
    expect(alone(room, "submit", *IDENTITY, "--dataset", "A", "--time", "0800000001", room / "file"), "done: submit 1\n", "submit")
    words = [PROGRAM, "replay", "--record", room / "record", "--db"]
    done = subprocess.run([*words, room / "again"], capture_output=True, timeout=LONG, check=False)
    expect((done.returncode, done.stdout, done.stderr), (0, b"same: 0 sessions, 1 calls\n", b""), "replay of a command")
    expect(tables.read(room / "again"), tables.read(room / "database"), "the tables")
    one_session(room)
    done = subprocess.run([*words, room / "third"], capture_output=True, timeout=LONG, check=False)
    expect((done.returncode, done.stdout[-9:], done.stderr), (1, b"the book\n", b""), "replay of a station")


def password_over_a_socket(room):
    """The password of a caller comes in pieces, cut at each of its octets, and none of it is in the record."""
    octets = session_of("receiving/one_octet").joined("in")
    with recording(room) as service:
        for cut in range(30, 41):
            with service.caller() as caller:
                caller.setsockopt(socket.IPPROTO_TCP, socket.TCP_NODELAY, 1)
                for piece in (octets[:cut], octets[cut : cut + 1], octets[cut + 1 :]):
                    caller.sendall(piece)
                    time.sleep(0.03)
                caller.shutdown(socket.SHUT_WR)
                rest_of(caller)
            # Behind the first session the file is there already, and its answers are out of their place.
            service.line()
        service.give("stop")
        service.ends()
    expect(b"CARPW" in file_of(room).read_bytes(), False, "whether the password is in the record")
    expect(octets_in(room, OCTETS_IN).count(b"*****   "), 11, "the hidden passwords")
    expect_same(room, 11, 0)


def days(room):
    """A file for each day, which follows the one before: a day that is missing is told, and the first ones may be gone."""
    file = room / "file"
    for number, day in enumerate(("20200101", "20200102", None), 1):
        file.write_bytes(bytes(number))
        with recording(room, "--jobs", "1") as service:
            expect(submit(service, f"D{number}", file), f"done: submit {number}\n", "submit")
            service.ends()
        for end in ("", "-wal"):
            if (room / f"database{end}").exists():
                shutil.copyfile(room / f"database{end}", room / f"copy{number}{end}")
        if number == 2:
            # The clock was set back.
            (newest,) = [path for path in (room / "record").iterdir() if path.stem > "20210101"]
            newest.rename(newest.with_stem("29990101"))
            with recording(room, "--jobs", "1") as service:
                converse(service, session_of("listening/nothing_waiting").joined("in"))
                service.ends()
        if day:
            (newest,) = [path for path in (room / "record").iterdir() if path.stem > "20210101"]
            newest.rename(newest.with_stem(day))
    expect_same(room, 1, 3)
    middle = room / "record/20200102.record"
    middle.rename(room / "away")
    status, out, _ = replayed(room, "third")
    expect((status, out.split(", ")[1]), (1, "entry 1: it doesn't follow the day before\n"), "replay without a day")
    (room / "away").rename(middle)
    (room / "record/20200101.record").unlink()
    expect_same(room, 1, 2, database="copy1")


def torn_days(room):
    """A station that begins on a later day goes on behind the last whole entry of the days before, whichever of them were torn, or have no whole entry. So it does
    in a file of its day that has none. While another one still writes the file of a day before, it doesn't begin."""
    file, record = room / "file", room / "record"
    file.write_bytes(b"ABC")

    def lived(name):
        with recording(room, "--jobs", "1") as service:
            expect(submit(service, name, file), f"done: submit {name[1:]}\n", "submit")
            service.ends()
        return max(record.glob("*.record"))

    first = lived("A1").rename(record / "20200101.record")
    begun = first.read_bytes()[:30]
    first.write_bytes(first.read_bytes() + begun)
    second = lived("A2").rename(record / "20200102.record")
    second.write_bytes(second.read_bytes() + begun)
    today = f"{datetime.datetime.now(datetime.timezone.utc):%Y%m%d}"
    for day, octets in (("20200103", b""), ("20200104", begun), (today, begun)):
        (record / f"{day}.record").write_bytes(octets)
    with open(second, "rb") as written:
        fcntl.flock(written, fcntl.LOCK_EX)
        refused = subprocess.run([PROGRAM, "release", "--db", room / "other", "--book", BOOK, "--record", record, "1"], capture_output=True, timeout=LONG, check=False)
        expect((refused.returncode, refused.stderr), (1, b"fault: 7 file\n"), "while the file of a day before is written")
    third = lived("A3")
    expect_same(room, 0, 3)
    second.rename(room / "away")
    expect(replayed(room, "third")[:2], (1, f"differs: {third.name}, entry 1: it doesn't follow the day before\n"), "replay without the second day")


def two_in_one_folder(room):
    """A second station doesn't write to the record of the first one, and no station to a folder that isn't there."""
    one_session(room)
    (room / "other").mkdir()
    words = ["run", "--db", room / "other/database", "--book", BOOK, "--jobs", "1", "--port", str(free_port())]
    with recording(room):
        pipe = room / "pipe"
        pipe.mkdir()
        os.mkfifo(pipe / file_of(room).name)
        for folder in (room / "record", room / "nowhere", BOOK, pipe):
            done = subprocess.run([PROGRAM, *words, "--record", folder], capture_output=True, timeout=LONG, check=False)
            expect((done.returncode, done.stdout, done.stderr), (1, b"", b"fault: 7 file\n"), f"a station with {folder.name}")


def without_syncing(room):
    """`--record-sync no` leaves the syncing out, and nothing else."""
    with recording(room, "--record-sync", "no", "--jobs", "2") as service:
        converse(service, one_file.session(300_000, 128, 2))
        converse(service, session_of("receiving/one_octet").joined("in"))
        service.ends()
    expect_same(room, 2, 0)


def other_database(room):
    """A database that the record never had, and another book."""
    one_session(room)
    subprocess.run([PROGRAM, "submit", "--db", room / "again", "--book", BOOK, *IDENTITY, "--dataset", "A", BOOK], capture_output=True, timeout=LONG, check=True)
    status, out, _ = replayed(room)
    expect((status, out[:9]), (1, "differs: "), "replay over another database")
    other = room / "other"
    other.write_text(BOOK.read_text().replace("SUPPW", "OTHER"))
    status, out, _ = replayed(room, "third", other)
    expect((status, out[-9:]), (1, "the book\n"), "replay by another book")
    expect(b"SUPPW" in file_of(room).read_bytes()[:1000], False, "whether the opening has a password")


@contextlib.contextmanager
def disk_of(folder, size):
    """A small disk at this folder."""
    folder.mkdir()
    if subprocess.run(["mount", "-t", "tmpfs", "-o", f"size={size}", "small", folder], capture_output=True, check=False).returncode:
        raise NotTried("the right to mount: a full disk")
    try:
        yield
    finally:
        subprocess.run(["umount", folder], check=False)


def full_disk_as_days_turn(room):
    """A disk that is full again and again, as days turn, leaves entries that are cut off on days before. Once it has room the record goes on behind them."""
    days, file = passing_days(room), room / "file"
    file.write_bytes(random.Random(7).randbytes(3000))
    with disk_of(room / "record", 65_536):
        for turn in range(2, 8):
            with recording(room, environment=days) as service:
                while submit(service, f"A{time.time_ns()}", file).startswith("done: "):
                    pass
                service.ends(1, b"fault: 7 file\n")
            subprocess.run(["mount", "-o", f"remount,size={65_536 * turn}", room / "record"], check=True)
        with recording(room, "--jobs", "1", environment=days) as service:
            expect(submit(service, "LAST", file)[:6], "done: ", "submit with room")
            service.ends()
        expect_same(room)


def full_disk_of_the_database(room):
    """An office that fails is as a kill: what it was to do is done or not, and the record goes on from there."""
    small, folder = room / "small", room / "record"
    folder.mkdir()
    with disk_of(small, 400_000):
        with Resident(small, "--record", folder) as service:
            expect(converse(service, one_file.session(600_000, 128, 2)), f"session {CARMAKER} in: fault: 3 office", "the line")
            service.ends(1, b"fault: 3 office\n")
        subprocess.run(["mount", "-o", "remount,size=4000000", small], check=True)
        with Resident(small, "--record", folder, "--jobs", "1") as service:
            converse(service, one_file.session(100_000, 128, 2))
            service.ends()
        expect_same(room, station="small/database")


def full_disk(room):
    """A station whose disk is full ends, and nothing is answered that isn't recorded."""
    with disk_of(room / "record", 65_536):
        file = room / "file"
        file.write_bytes(bytes(100_000))
        with recording(room) as service:
            told = submit(service, "A", file)
            expect(told, "", "what the command printed")
            service.ends(1, b"fault: 7 file\n")
        expect(len(tables.read(room / "database")["out_file"]), 0, "the files that were submitted")
        file.write_bytes(b"ABC")
        with recording(room, "--jobs", "1") as service:
            expect(submit(service, "B", file), "done: submit 1\n", "submit of a small file")
            service.ends()
        expect_same(room, 0, 1)


# The kinds of entries that are looked for.
OPENING, SESSION, OCTETS_IN, OCTETS_OUT, END, CALL, BACKUP, MARK = 1, 2, 3, 4, 5, 6, 7, 8


def entries_of(file):
    """The entries of a day's file: each with its kind, and its content."""
    octets, at = file.read_bytes(), 0
    while at < len(octets):
        kind, (count,) = octets[at + 5], struct.unpack(">I", octets[at + 14 : at + 18])
        yield kind, octets[at + 22 : at + 22 + count]
        at += 22 + count + 32


def users_in(room):
    """The users of the operators' calls: each is the first text of its entry, behind a number, a code and its length."""
    for kind, content in entries_of(file_of(room)):
        if kind == CALL:
            (count,) = struct.unpack(">I", content[9:13])
            yield content[13 : 13 + count].decode()


def octets_in(room, wanted):
    """The octets of entries of this kind, behind a number, a code and two empty texts in each entry."""
    return b"".join(content[17:] for kind, content in entries_of(file_of(room)) if kind == wanted)


def said_in(room):
    """The octets that went out."""
    return octets_in(room, OCTETS_OUT)


def hidden(octets, password=b"SUPPW"):
    """The same octets, with `*` for each character of the password behind the code of an SSID."""
    return octets.replace(password + bytes(3).replace(b"\0", b" "), b"*" * len(password) + b"   ", 1)


def copied(room, name):
    """Copies the database under another name."""
    for end in ("", "-wal"):
        if (room / f"database{end}").exists():
            shutil.copyfile(room / f"database{end}", room / f"{name}{end}")


def kinds_in(room):
    return [kind for kind, _ in entries_of(file_of(room))]


def alone(room, name, *words, status=0, database="database", book=BOOK):
    """What a command prints that has the database itself, and records."""
    named = [PROGRAM, name, "--db", room / database, *(["--book", book] if book else []), "--record", room / "record", *words]
    done = subprocess.run(named, capture_output=True, timeout=LONG, check=False)
    if done.returncode != status:
        raise Wrong(f"{name}: {done.returncode}, {done.stdout!r}, {done.stderr!r}")
    return (done.stdout + done.stderr).decode()


def commands_alone(room):
    """Each command that changes the database, without a station, done and refused, and a station between them."""
    (room / "record").mkdir()
    for folder in ("offered", "collected"):
        (room / folder).mkdir()
    (room / "file").write_bytes(bytes(range(256)) * 10)
    for name in ("ONE", "TWO"):
        (room / "offered" / name).write_bytes(name.encode() * 100)
    offer = ["--to", CARMAKER, "--from", room / "offered"]
    for name, status in (("A", 0), ("A", 1), ("B", 0)):
        alone(room, "submit", *IDENTITY, "--dataset", name, "--time", "0800000001", room / "file", status=status)
    expect(len(alone(room, "offer", *offer).splitlines()), 2, "the lines of offer")
    with recording(room, "--jobs", "1") as service:
        converse(service, session_of("receiving/one_octet").joined("in"))
        service.ends()
    expect(alone(room, "collect", "--to", room / "collected", "--release")[:16], "done: collect 1 ", "collect")
    expect(alone(room, "release", "1", status=1), "refused: 3 state\n", "release")
    expect(alone(room, "refuse", "7", "12", "no", status=1), "refused: 2 unknown\n", "refuse")
    expect(alone(room, "resend", "1", status=1), "refused: 3 state\n", "resend of what still goes out")
    expect_same(room, 1, 9)
    # Of each program there is its beginning and its end.
    kinds = kinds_in(room)
    expect((kinds.count(OPENING), kinds.count(MARK), kinds.count(CALL)), (9, 9, 9), "the entries")


def killed_command(room, seed):
    """SIGKILL at any moment of commands that have the database themselves."""
    chance = random.Random(seed)
    (room / "record").mkdir()
    (room / "file").write_bytes(bytes(200_000))
    for turn in range(8):
        words = ["submit", "--db", room / "database", "--book", BOOK, "--record", room / "record", *command_of(turn), room / "file"]
        with subprocess.Popen([PROGRAM, *words], stdout=subprocess.DEVNULL, stderr=subprocess.DEVNULL) as command:
            time.sleep(chance.choice([0, 0.002, 0.005, 0.01, 0.02, 0.05]))
            command.kill()
    alone(room, "submit", *IDENTITY, "--dataset", "LAST", room / "file")
    expect_same(room)


def killed_commands(room):
    """SIGKILL within commands that have the database themselves."""
    many(room, killed_command, 12)


def listen_and_call(room):
    """`listen` and `call` with a record, each with the other, and a command between them."""
    ports = [free_port(), free_port()]
    book, theirs = two_books(room, ports)
    folder = room / "partner"
    for made in (folder, room / "record", folder / "record"):
        made.mkdir()
    (room / "file").write_bytes(random.Random(9).randbytes(100_000))
    alone(room, "submit", *IDENTITY, "--dataset", "A", room / "file", book=book)
    words = ["listen", "--db", folder / "database", "--book", theirs, "--record", folder / "record", "--sessions", "2", "--port", str(ports[1])]
    with subprocess.Popen([PROGRAM, *words], stdout=subprocess.PIPE) as listener:
        for _ in range(100):
            with contextlib.suppress(OSError), socket.create_connection(("127.0.0.1", ports[1])):
                break
            time.sleep(0.05)
        expect(alone(room, "call", "--partner", CARMAKER, book=book), "end: partner 00\n", "the call")
        expect(listener.wait(LONG), 0, "the exit status of listen")
    expect(alone(folder, "release", "1", book=theirs), "done: release 1\n", "their release")
    expect_same(room, 1, 1, book=book)
    expect_same(folder, 1, 1, book=theirs)


def fed(room, octets, *words, status=0):
    """What `feed` prints of a session with these octets, with a record."""
    (room / "in").write_bytes(octets)
    return alone(room, "feed", *words, room / "in", room / "out", status=status)


# What `feed` records of a session in one piece.
FED = [OPENING, SESSION, OCTETS_IN, OCTETS_OUT, END, MARK]


def feeds(room):
    """`feed` twice, once to the end and once in a file's midst, then for a partner who is called: each is recorded, and strangers aren't."""
    (room / "record").mkdir()
    (room / "file").write_bytes(bytes(250))
    whole = session_of("receiving/one_octet").joined("in")
    expect(fed(room, whole), "end: partner 00\n", "the whole session")
    expect(kinds_in(room), FED, "the entries of one session")
    expect(said_in(room), hidden((room / "out").read_bytes()[-len(said_in(room)) :]), "the octets that went out")
    expect_same(room, 1, 0)
    copied(room, "once")
    broken = one_file.session(30_000, 128, 2).replace(b"ASN.0001", b"ASN.0002")
    expect(fed(room, broken[: len(broken) // 2]), "end: input\n", "the broken session")
    expect(tables.read(room / "database")["in_file"] != tables.read(room / "once")["in_file"], True, "whether a beginning was kept")
    copied(room, "twice")
    expect_same(room, 1, 0, database="once")
    alone(room, "submit", *IDENTITY, "--dataset", "A", room / "file")
    called = session_of("sending/credit_of_one")
    expect(fed(room, called.joined("in"), *called.role), "end: partner 00\n", "the session of a call")
    expect_same(room, 1, 1, database="twice")
    before = len(kinds_in(room))
    expect(fed(room, session_of("opening/wrong_password").joined("in")), "end: own 04\n", "a stranger")
    expect(fed(room, b""), "end: input\n", "nobody")
    expect(kinds_in(room)[before:], [OPENING, MARK] * 2, "the entries of strangers")
    (room / "new-again").mkdir()
    expect_same(room, 3, 1, database="new-again/database")


def feeds_refused(room):
    """`feed` without a database records nothing, and writes to no file of the record. Without its folder OUT isn't made."""
    (room / "record").mkdir()
    octets = session_of("receiving/one_octet").joined("in")
    (room / "in").write_bytes(octets)
    words = [PROGRAM, "feed", "--book", BOOK, "--record", room / "record", room / "in", room / "out"]
    expect(subprocess.run(words, capture_output=True, timeout=LONG, check=False).returncode, 2, "feed with a record, and a register in memory")
    expect(list((room / "record").iterdir()), [], "the record")
    fed(room, octets)
    before = file_of(room).read_bytes()
    (room / "led").symlink_to(file_of(room))
    for name in (file_of(room), room / "led"):
        expect(alone(room, "feed", room / "in", name, status=1), "fault: 7 file\n", "OUT that is the record")
    expect(file_of(room).read_bytes(), before, "the record")
    words = ["feed", "--db", room / "database", "--book", BOOK, "--record", room / "nowhere", room / "in", room / "other"]
    expect(subprocess.run([PROGRAM, *words], capture_output=True, timeout=LONG, check=False).stderr, b"fault: 7 file\n", "feed without the folder")
    expect((room / "other").exists(), False, "whether OUT was made")
    expect_same(room, 1, 0)


# Passwords of a partner who is called: what each is in a record, where CARPW is expected, and how its session ends.
PASSWORDS = [
    (b"CARPW   ", b"*****   ", "end: partner 00\n"),
    (b"CARPX   ", b"****?   ", "end: own 04\n"),
    (b"XXXXX   ", b"?????   ", "end: own 04\n"),
    (b"CARP    ", b"****    ", "end: own 04\n"),
    (b"CARPWS  ", b"*****?  ", "end: own 04\n"),
    (b"        ", b"        ", "end: own 04\n"),
    (b"CARPWORD", b"*****???", "end: own 04\n"),
    (b"carpw   ", b"!!!!!   ", "end: own 06\n"),
    (b"CAR PW  ", b"*** ??  ", "end: own 06\n"),
    (b"*****   ", b"!!!!!   ", "end: own 06\n"),
    (b"?????   ", b"!!!!!   ", "end: own 06\n"),
    (b"CARPW\0\xff\r", b"*****!!!", "end: own 06\n"),
]


def in_pieces(room, octets, sizes, *words):
    """What `feed` prints whose partner's octets come in pieces of these sizes."""
    named = ["feed", "--db", room / "database", "--book", BOOK, "--record", room / "record", *words, "/dev/stdin", room / "out"]
    with subprocess.Popen([PROGRAM, *named], bufsize=0, stdin=subprocess.PIPE, stdout=subprocess.PIPE) as program:
        with contextlib.suppress(BrokenPipeError):
            for size in sizes:
                program.stdin.write(octets[:size])
                octets = octets[size:]
                time.sleep(0.005)
            program.stdin.write(octets)
        return program.communicate()[0].decode()


def passwords(room):
    """No password of a session is in a record, right or wrong, whichever pieces it comes in. Its length is, and the replay ends as the session did."""
    (room / "record").mkdir()
    (room / "file").write_bytes(bytes(250))
    alone(room, "submit", *IDENTITY, "--dataset", "A", room / "file")
    copied(room, "begun")
    called = session_of("sending/credit_of_one")
    octets, heard = called.joined("in"), b""
    for turn, (password, recorded, line) in enumerate(PASSWORDS):
        other = octets.replace(b"CARPW   ", password, 1)
        expect(fed(room, other, *called.role), line, f"the session with {password}")
        expect(octets_in(room, OCTETS_IN)[len(heard) :][54:62], recorded, f"{password} in the record")
        heard = octets_in(room, OCTETS_IN)
        # The same, cut within SSRM, at each place of the password, and behind it.
        sizes = [23, 23 + 4, 1] if turn % 2 else [53, *[1] * 10]
        # The file has gone by then, so its answers are out of their place.
        again = line.replace("partner 00", "own 02")
        expect(in_pieces(room, other, sizes, *called.role), again, f"the session with {password} in pieces")
        expect(octets_in(room, OCTETS_IN)[len(heard) :][54:62], recorded, f"{password} in the record, in pieces")
        heard = octets_in(room, OCTETS_IN)
    expect(fed(room, session_of("receiving/one_octet").joined("in")), "end: partner 00\n", "a caller")
    expect(octets_in(room, OCTETS_IN)[len(heard) :][31:39], b"*****   ", "the password of a caller")
    expect([word in file_of(room).read_bytes() for word in (b"CARPW", b"SUPPW", b"carpw", b"CARPX")], [False] * 4, "whether a password is in the record")
    expect_same(room, 2 * len(PASSWORDS) + 1, 0, database="begun")
    told = subprocess.run([PROGRAM, "explain", "--record", room / "record"], capture_output=True, timeout=LONG, check=False).stdout.decode()
    expect(told.count("SSIDPSWD"), 2 * sum(line == "end: own 06\n" for _, _, line in PASSWORDS), "what is told of passwords")


# Ways in which a book may be written, with CARPW and SUPPW as passwords.
BOOKS = [
    "expects = 'CARPW'\nsends = 'SUPPW'",
    '"expects" = "CARPW"\n\'sends\' = "SUPPW"',
    'expects = """CARPW"""\nsends = \'\'\'SUPPW\'\'\'',
    'expects = """\nCARPW"""\nsends = \'\'\'\nSUPPW\'\'\'',
    "expects\t =\t'CARPW' # expects = 'CARPW'\nsends='SUPPW'",
    # The rest of a password behind an escape, in a string of one line and of several.
    'expects = "\\u0043ARPW"\nsends = """\\\n  \\U00000053\\x55PPW"""',
    # Keys that are spelled by escapes.
    '"\\u0065xpects" = "CARPW"\n"s\\U00000065nd\\x73" = \'SUPPW\'',
    # Comments with a quote that isn't closed.
    "# expects = 'open\nexpects = 'CARPW'\n# sends = \"\nsends = '''SUPPW'''",
]


def books_with_passwords(room):
    """No password of a book is in a record, whichever way it is written: neither of the start, nor of commands, nor of `reload`."""
    whole = BOOK.read_text()
    (room / "file").write_bytes(b"ABC")
    for turn, keys in enumerate(BOOKS):
        folder = room / str(turn)
        (folder / "record").mkdir(parents=True)
        book = folder / "book.toml"
        book.write_text(whole.replace("expects = 'CARPW'\nsends = 'SUPPW'", keys))
        expect(keys in book.read_text(), True, "the book's keys")
        with recording(folder, book=book) as service:
            submit(service, "A", room / "file", book)
            book.write_text(book.read_text() + "# again\n")
            expect(service.give("reload").stdout, b"done: reload\n", "reload")
            expect(submit(service, "B", room / "file", book), "done: submit 2\n", "submit")
            converse(service, session_of("listening/nothing_waiting").joined("in"))
            service.give("stop")
            service.ends()
        octets = file_of(folder).read_bytes()
        expect([word in octets for word in (b"ARPW", b"PPW")], [False, False], f"whether the end of a password is in the record by {keys!r}")
        book.write_text(whole.replace("expects = 'CARPW'\nsends = 'SUPPW'", keys))
        expect_same(folder, 1, 2, book=book)


def books_changed(room):
    """A station that is started by one book after another is replayed by the last one, which has all passwords, and goes on from a backup between."""
    first, second = room / "first.toml", room / "second.toml"
    first.write_text(BOOK.read_text())
    # Another size of buffers, other names of keys, and one more partner, by whom the octets of sessions are others.
    second.write_text(BOOK.read_text().replace("buffer = 128", "buffer = 256") + "\n[[partner]]\ncode = 'O0013NEWONE'\nexpects = 'NEWPW'\nsends = 'SUPPW'\nmode = 'B'\naddress = '127.0.0.1:1'\n")
    expect("buffer = 256" in second.read_text(), True, "the second book")
    for turn, book in enumerate((first, second, first)):
        with recording(room, book=book) as service:
            converse(service, one_file.session(3000, 128, 2).replace(b"ASN.0001", b"ASN.%04d" % turn))
            if turn == 1:
                expect(service.give("backup", room / "copy").stdout, b"done: backup\n", "backup")
                converse(service, one_file.session(3000, 128, 2).replace(b"ASN.0001", b"ASN.0009"))
            service.give("stop")
            service.ends()
    expect_same(room, 4, 0, book=second)
    expect_same(room, 2, 0, database="copy", book=second)
    status, out, _ = replayed(room, "other", first)
    expect((status, out[-9:]), (1, "the book\n"), "replay by a book without the password of a partner")


def passwords_changed(room):
    """Once a password was changed, the book from before plays up to that, and the new one goes on over the same database."""
    before, behind = room / "before.toml", room / "behind.toml"
    before.write_text(BOOK.read_text())
    behind.write_text(BOOK.read_text().replace("CARPW", "NEWPW"))
    for name, book, password in ((b"ASN.0001", before, b"CARPW"), (b"ASN.0002", behind, b"NEWPW")):
        with recording(room, book=book) as service:
            session = one_file.session(3000, 128, 2).replace(b"ASN.0001", name).replace(b"CARPW", password)
            expect(converse(service, session), "session O0177CARMAKER in: end: partner 00", f"the session with {password}")
            service.give("stop")
            service.ends()
    status, out, _ = replayed(room, "new", behind)
    expect((status, out[-19:]), (1, " entry 1: the book\n"), "replay by the new book alone")
    status, out, _ = replayed(room, "again", before)
    expect((status, out[-11:], tables.read(room / "again") == tables.read(room / "database")), (1, ": the book\n", False), "replay by the book from before")
    expect_same(room, 1, 0, book=behind)


def killed_feed(room, seed):
    """SIGKILL at any moment of `feed`, whose partner sends in pieces."""
    chance = random.Random(seed)
    (room / "record").mkdir()
    for turn in range(6):
        octets = one_file.session(30_000, 128, 2) if turn % 2 else session_of("receiving/one_octet").joined("in")
        words = ["feed", "--db", room / "database", "--book", BOOK, "--record", room / "record", "/dev/stdin", "/dev/null"]
        with subprocess.Popen([PROGRAM, *words], bufsize=0, stdin=subprocess.PIPE, stdout=subprocess.DEVNULL, stderr=subprocess.DEVNULL) as program:
            # It may have ended by itself.
            with contextlib.suppress(BrokenPipeError):
                for _ in range(3):
                    count = chance.randrange(len(octets) + 1)
                    program.stdin.write(octets[:count])
                    octets = octets[count:]
                    time.sleep(chance.choice([0, 0.002, 0.01, 0.05]))
            program.kill()
    fed(room, session_of("listening/nothing_waiting").joined("in"))
    expect_same(room)


def killed_feeds(room):
    """SIGKILL within sessions of `feed`."""
    many(room, killed_feed, 12)


def backups_recorded(room):
    """A backup of a station and one without a station are in the record, with their paths, and it goes on from either."""
    (room / "record").mkdir()
    (room / "file").write_bytes(b"ABC")
    with recording(room) as service:
        expect(submit(service, "A", room / "file"), "done: submit 1\n", "submit")
        expect(service.give("backup", room / "copy").stdout, b"done: backup\n", "backup")
        expect(submit(service, "B", room / "file"), "done: submit 2\n", "submit behind the backup")
        service.give("stop")
        service.ends()
    expect(alone(room, "backup", room / "second", book=None), "done: backup\n", "backup without a station")
    alone(room, "submit", *IDENTITY, "--dataset", "C", room / "file")
    paths = [content for kind, content in entries_of(file_of(room)) if kind == BACKUP]
    expect([str(room / name).encode() in content for name, content in zip(("copy", "second"), paths, strict=True)], [True, True], "the paths")
    expect_same(room, 0, 2, database="copy")
    expect_same(room, 0, 1, database="second")
    expect_same(room, 0, 3)


def parts(room):
    """`--from` begins with an entry, and `--to` ends with one. What names none is refused."""
    (room / "record").mkdir()
    (room / "file").write_bytes(b"ABC")
    for name in ("A", "B", "C"):
        alone(room, "submit", *IDENTITY, "--dataset", name, room / "file")
    day, kinds = file_of(room).stem, kinds_in(room)
    expect(kinds, [OPENING, CALL, END, MARK] * 3, "the entries")
    expect(list(users_in(room)), [str(os.geteuid())] * 3, "the users of the calls")

    def part(database, *words):
        named = [PROGRAM, "replay", "--record", room / "record", "--db", room / database, "--book", BOOK, *words]
        done = subprocess.run(named, capture_output=True, timeout=LONG, check=False)
        return done.returncode, (done.stdout + done.stderr).decode()

    same = {2: 0, 3: 1, 4: 1, 5: 1, 6: 1, 7: 2, 12: 3, 13: 3}
    for last, calls in same.items():
        expect(part(f"to{last}", "--to", f"{day}:{last}"), (0, f"same: 0 sessions, {calls} calls\n"), f"up to entry {last}")
    expect(part("to4", "--from", f"{day}:5"), (0, "same: 0 sessions, 2 calls\n"), "from the next one on")
    expect(part("to7", "--from", f"{day}:8", "--to", f"{day}:10"), (0, "same: 0 sessions, 0 calls\n"), "a part in the middle")
    expect(part("other", "--from", f"{day}:4"), (1, f"differs: {day}.record, entry 4: the register\n"), "another database")
    expect(part("other", "--from", f"{day}:13"), (1, "refused: 2 unknown\n"), "an entry that isn't there")
    for wrong in ("1", f"{day}", f"{day}:", f"{day}:x", f"{day}:-1", f"{day}:+1", f"{day[1:]}:1", f"{day}1:1", ":", ""):
        expect(part("other", "--to", wrong), (1, "refused: 5 field\n"), f"the end {wrong!r}")
        expect(part("other", "--from", wrong), (1, "refused: 5 field\n"), f"the beginning {wrong!r}")
    (room / "none").mkdir()
    done = subprocess.run([PROGRAM, "replay", "--record", room / "nowhere", "--db", room / "unmade", "--book", BOOK], capture_output=True, timeout=LONG, check=False)
    expect((done.stderr, (room / "unmade").exists()), (b"fault: 7 file\n", False), "replay of no folder")


def marks(room):
    """The register is marked each hour, by a clock that passes an hour in a second, and only if no session goes on."""
    if not shutil.which("cc"):
        raise NotTried("a C compiler: marks of each hour")
    hours = {"LD_PRELOAD": str(compile_library(room, "fast_clock")), "CLOCK_RATE": "3600"}
    (room / "record").mkdir()
    with recording(room, "--patience", "86400", "--longest", "86400", "--admission", "86400", environment=hours) as service:
        time.sleep(3.5)
        idle = kinds_in(room).count(MARK)
        with service.caller() as caller:
            octets = session_of("receiving/one_octet").joined("in")
            caller.sendall(octets[:70])
            time.sleep(0.5)
            begun = kinds_in(room).count(MARK)
            time.sleep(2.5)
            during = kinds_in(room).count(MARK)
            caller.sendall(octets[70:])
            caller.shutdown(socket.SHUT_WR)
            rest_of(caller)
        service.line()
        time.sleep(0.5)
        behind = kinds_in(room).count(MARK)
        service.give("stop")
        service.ends()
    expect(idle, 3, "the marks of three hours")
    expect((during, behind), (begun, begun + 1), "the marks during a session and behind it")
    expect_same(room, 1, 0)


def registers_in(room):
    """The digests of the register that the openings and marks of the record have."""
    places = {OPENING: 1, MARK: 0}
    return [texts_of(content)[places[kind]] for kind, content in entries_of(file_of(room)) if kind in places]


def texts_of(content):
    """The two texts of a content."""
    first, at = text_at(content, 9)
    return first, text_at(content, at)[0]


def text_at(content, at):
    """The text at a place of a content, and the place behind it."""
    end = at + 4 + struct.unpack_from(">I", content, at)[0]
    return content[at + 4 : end], end


def marks_of_much(room):
    """The rows of a file that is whole are read once: three marks take less than a tenth of what the beginning took. A file that isn't whole at a mark
    and is at the next has the digest that the next station finds, and so have files that come and go between marks."""
    if not shutil.which("cc"):
        raise NotTried("a C compiler: marks of a large register")
    hours = {"LD_PRELOAD": str(compile_library(room, "fast_clock")), "CLOCK_RATE": "3600"}
    patient = ["--patience", "86400", "--longest", "86400", "--admission", "86400"]
    (room / "record").mkdir()
    subprocess.run([PROGRAM, "init", "--db", room / "empty"], stdout=subprocess.DEVNULL, timeout=LONG, check=True)
    filled.settle(room / "empty")
    filled.fill_large(room / "empty", room / "database", 32)
    shutil.copyfile(room / "database", room / "again")
    first, second = row_files.Row(row_files.ROWS / "taken_up/broken_and_taken_up.row").sessions()
    with recording(room, *patient, environment=hours) as service:
        begun = service.taken()
        time.sleep(3.5)
        marked = service.taken() - begun
        for octets in (first.joined("in"), second.joined("in")):
            converse(service, octets)
            time.sleep(1.2)
        expect(submit(service, "A", BOOK), "done: submit 1\n", "submit")
        time.sleep(1.2)
        service.give("stop")
        service.ends()
    if marked > begun / 10:
        raise Wrong(f"three marks take {marked:.3f} s of a processor, and the beginning {begun:.3f}")
    with recording(room) as service:
        service.give("stop")
        service.ends()
    found = registers_in(room)
    expect(len(found) >= 9, True, f"whether there are three marks and three more, and not {found}")
    expect(len(set(found)), 4, "the registers: at first, with a part of a file, with the whole file, and with the submitted one")
    expect(found[-3], found[-2], "the digest of the last mark, and the one that the next station finds")
    expect_same(room)


def put(file, kind, content):
    """Appends an entry to a day's file, as a station does."""
    octets = file.read_bytes()
    body = octets[:5] + bytes([kind]) + bytes(8) + struct.pack(">II", len(content), 2**32 - 1 - len(content)) + content
    file.write_bytes(octets + body + hashlib.sha256(hashlib.sha256(body).digest() + octets[-32:]).digest())


def spelled(text):
    return struct.pack(">I", len(text)) + text


def hostile_record(room):
    """What isn't to be seen in a record that somebody has written is shown by its escape."""
    one_session(room)
    octets = session_of("opening/wrong_password").joined("in")
    put(file_of(room), SESSION, struct.pack(">QB", 5, 1) + spelled("A\x1b[2J\u202eB".encode()) + spelled(b"x\ny"))
    put(file_of(room), 3, struct.pack(">QB", 5, 0) + spelled(b"") * 2 + octets[:-1] + b"?")
    done = subprocess.run([PROGRAM, "explain", "--record", room / "record", "--session", "5"], capture_output=True, timeout=LONG, check=False)
    expect(done.stdout.decode().splitlines()[0], "session 5: A\\u{1b}[2J\\u{202e}B x\\u{a}y", "the line of the session")


def told_of(room, *words):
    """The status of `explain` over the record, and the sessions that it tells of."""
    done = subprocess.run([PROGRAM, "explain", "--record", room / "record", *words], capture_output=True, timeout=LONG, check=False)
    lines = (done.stdout + done.stderr).decode().splitlines()
    return done.returncode, [line.split(": ")[0] for line in lines if not line.startswith(("command", " "))]


def sessions_explained(room):
    """The first session of a station has the number 0, and is told of alone by it. Without a number each session is told of."""
    octets = session_of("receiving/one_octet").joined("in")
    with recording(room, "--jobs", "2") as service:
        for name in (b"first_name", b"other_name"):
            converse(service, octets.replace(b"ASN.0001  ", name))
        service.ends()
    numbers = [struct.unpack(">Q", content[:8])[0] for kind, content in entries_of(file_of(room)) if kind == SESSION]
    expect(numbers[0], 0, "the number of the first session")
    expect(told_of(room), (1, [f"session {number}" for number in numbers]), "each session")
    for number in numbers:
        expect(told_of(room, "--session", str(number)), (1, [f"session {number}"]), f"session {number}")
    expect(told_of(room, "--session", str(max(numbers) + 1)), (1, ["refused"]), "a session that there isn't")


def audits(room):
    """An audit against the record: the last register, an earlier one, one that it hasn't, a record that is cut off, and a killed station."""
    (room / "record").mkdir()
    (room / "file").write_bytes(b"ABC")
    for name in ("A", "B"):
        alone(room, "submit", *IDENTITY, "--dataset", name, room / "file")
        for end in ("", "-wal"):
            if (room / f"database{end}").exists():
                shutil.copyfile(room / f"database{end}", room / f"{name}{end}")

    def audit(database):
        done = subprocess.run([PROGRAM, "audit", "--db", room / database, "--record", room / "record"], capture_output=True, timeout=LONG, check=False)
        return done.returncode, (done.stdout + done.stderr).decode()

    expect(audit("database"), (0, ""), "the database")
    expect(audit("A"), (1, "register: the record goes on behind it\n"), "an earlier database")
    done = subprocess.run([PROGRAM, "submit", "--db", room / "B", "--book", BOOK, *IDENTITY, "--dataset", "C", BOOK], capture_output=True, timeout=LONG, check=False)
    expect(done.returncode, 0, "a change that isn't recorded")
    expect(audit("B"), (1, "register: no entry of the record has it\n"), "a database that the record hasn't")
    file = file_of(room)
    file.write_bytes(file.read_bytes()[:-1])
    expect(audit("database"), (1, f"differs: {file.name}, entry 8: it is cut off\n"), "a record that is cut off")
    expect(subprocess.run([PROGRAM, "audit", "--db", room / "database", "--record", room / "nowhere"], capture_output=True, timeout=LONG, check=False).stderr, b"fault: 7 file\n", "no record")
    killed_behind_the_copy(room / "killed")


def killed_behind_the_copy(room):
    """A station is killed behind an answered command. Neither its database nor a copy from before the command passes as the last register."""
    room.mkdir()
    (room / "file").write_bytes(b"ABC")
    with recording(room) as service:
        expect(submit(service, "A", room / "file"), "done: submit 1\n", "submit")
        expect(service.give("backup", room / "copy").stdout, b"done: backup\n", "backup")
        expect(submit(service, "B", room / "file"), "done: submit 2\n", "submit behind the copy")
        service.program.kill()
    for database, line in (("copy", "the record goes on behind it"), ("database", "no entry of the record has it")):
        done = subprocess.run([PROGRAM, "audit", "--db", room / database, "--record", room / "record"], capture_output=True, timeout=LONG, check=False)
        expect((done.returncode, done.stdout.decode()), (1, f"register: {line}\n"), f"{database} of a killed station")


CASES = [without_a_book, two_replays, killed_replays, hundred_partners, password_over_a_socket, commands, rows, two_stations, book_read_again, killed_at_moments, killed_as_days_turn, killed_beside_partners, changed_octet, cut_record, most_at_once, killed_within_pieces, torn_pieces, backup, lost_database, days, torn_days, two_in_one_folder, without_syncing, other_database, full_disk, full_disk_as_days_turn, full_disk_of_the_database, commands_alone, killed_commands, listen_and_call, feeds, feeds_refused, passwords, books_with_passwords, books_changed, passwords_changed, killed_feeds, backups_recorded, parts, marks, marks_of_much, hostile_record, sessions_explained, audits]


def tried(case):
    """Runs a case. It returns its result, and whether it failed."""
    with tempfile.TemporaryDirectory() as room:
        try:
            case(Path(room))
        except NotTried as why:
            return f"NOT TRIED without {why}", False
        except (Wrong, OSError, subprocess.SubprocessError, ValueError, LookupError) as why:
            return f"{case.__name__.replace('_', ' ')}: {type(why).__name__}: {why}", True
    return f"{case.__name__.replace('_', ' ')}: as it must be", False


def main():
    cases = [case for case in CASES if not sys.argv[1:] or any(word in case.__name__ for word in sys.argv[1:])]
    with ThreadPoolExecutor(max_workers=4) as runners:
        tries = list(runners.map(tried, cases))
    print("".join(f"{told}\n" for told, _ in tries), end="")
    failed = sum(has_failed for _, has_failed in tries)
    print(f"{sum(told.endswith('as it must be') for told, _ in tries)} passed, {failed} failed")
    return 1 if failed or not cases else 0


if __name__ == "__main__":
    sys.exit(main())
