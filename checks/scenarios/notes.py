#!/usr/bin/env python3
"""Has the program print each note, and compares the notes with the tables of docs/COMMANDS.md.

    checks/scenarios/notes.py [CASE ..]

Each case is a command line that fails, is refused or ends a session. It is given three times. Without `--notes`, standard error has the `fault:`
line alone or nothing. With `--notes`, one note more is there. With standard error on a pseudo-terminal, the same note is there. The files beside it
are the same each time. The note has to be the one that is written here, with its path, line, address, number or process. It has to have the form of
one row of the table, under the line that the command prints. Each row has to be met by some case: those of what is wrong for a moment alone take a C
compiler. No note has a password of the book. `check --explain` prints all that a faulty book has, and the same line as `check`. The last line is
`N passed, M failed`.
"""

import os
import pty
import re
import resource
import shutil
import socket
import sqlite3
import subprocess
import sys
import tempfile
import threading
from concurrent.futures import ThreadPoolExecutor
from pathlib import Path
from typing import NamedTuple

sys.path.insert(0, str(Path(__file__).resolve().parents[1] / "lib"))

from program import PROGRAM, ROOT
from row_files import ROWS
from services import Service, Wrong, expect, free_port
from shims import compile_library

COMMANDS = ROOT / "docs/COMMANDS.md"
USUAL = (ROWS / "books/usual.toml").read_text()
SESSION = ROOT / "examples/one_file.octets"
LONG = 120
# What stands in a row of the table for something else.
WORDS = {
    "WHO": "(own|partner)", "RR": r"\d\d", "WORDS": "[a-z ]+", "NO": r"\d+", "NUMBER": r"\d+", "LINE": r"\d+", "WHY": "[A-Z][A-Za-z ]+", "PORT": r"\d+",
    "WHAT": r"(the text|(station: |partner [^:]*: )?[a-z]+): ([^:]|HOST:PORT)*", "KEY": r"(station: |partner [^:]*: )?[a-z]+",
}
WORDS |= {word: ".+" for word in "CODE DATABASE BOOK PATH ADDRESS DATASET DATE TIME VALUE".split()}
class Case(NamedTuple):
    """A command line, the line that it prints, its note, and what it runs with."""

    words: list
    line: str
    note: str
    options: dict = {}


def run(words, stderr, room, options):
    """The status, the standard output and the standard error of a command."""
    output = options.get("output", subprocess.PIPE)
    return subprocess.run(
        [PROGRAM, *words], stdout=output, stderr=stderr, cwd=room, timeout=LONG, check=False, preexec_fn=options.get("before")
    )


def on_terminal(words, room, options):
    """What a command prints on standard error where that is a terminal."""
    ours, theirs = pty.openpty()
    heard = []

    def listen():
        try:
            while piece := os.read(ours, 4096):
                heard.append(piece)
        except OSError:
            pass

    listener = threading.Thread(target=listen)
    listener.start()
    run(words, theirs, room, options)
    os.close(theirs)
    listener.join()
    os.close(ours)
    return b"".join(heard).decode().replace("\r\n", "\n")


def files_in(room):
    return sorted(str(path.relative_to(room)) for path in room.rglob("*"))


def tried(case, room):
    """Gives a case its command line three times, and returns its note."""
    faults = f"{case.line}\n" if case.line.startswith("fault") else ""
    plain = run(case.words, subprocess.PIPE, room, case.options)
    there = files_in(room)
    expect(plain.stderr.decode(), faults, f"{case.words} without notes, on standard error")
    if not faults and plain.stdout is not None:
        expect(plain.stdout.decode(), f"{case.line}\n", f"{case.words} without notes, on standard output")
    noted = run([*case.words, "--notes"], subprocess.PIPE, room, case.options)
    text = noted.stderr.decode()
    expect((noted.returncode, noted.stdout), (plain.returncode, plain.stdout), f"{case.words} with notes")
    expect(text.startswith(faults), True, f"{case.words} with notes: {text!r}")
    note = text[len(faults):]
    expect(bool(re.fullmatch(f"{case.note}\n", note)), True, f"{case.words}: {note!r}, and wanted {case.note!r}")
    expect(on_terminal(case.words, room, case.options), text, f"{case.words} on a terminal")
    expect(files_in(room), there, f"{case.words}: what notes leave")
    for password in ("CARPW", "SUPPW", "secret"):
        expect(password in note, False, f"{case.words}: a password in its note")
    return note[:-1]


# ---- cases


def of_session(words, line, note):
    """A session of octets, with a register in memory."""
    return Case(["feed", "--book", "book", *words, "out"], line, note)


def ends(room):
    octets = SESSION.read_bytes()
    (room / "whole").write_bytes(octets)
    (room / "cut").write_bytes(octets[:200])
    (room / "empty").write_bytes(b"")
    (room / "foreign").write_bytes(octets.replace(b"CARPW   ", b"WRONG   "))
    shutil.copy(ROOT / "examples/supplier/book.toml", room / "supplier")
    book = ["feed", "--book", "supplier"]
    yield Case([*book, "whole", "out"], "end: partner 00", "note: end: partner 00: normal")
    yield Case([*book, "foreign", "out"], "end: own 04", "note: end: own 04: invalid password")
    yield Case([*book, "empty", "out"], "end: input", "note: end: input: the connection ended during the session")


def books(room):
    """Books with one error each: what stands in the place of what, and the note's end."""
    for name, old, new, note in (
        ("toml", "credit = 2", "credit = ", r":5: the text: is no TOML in UTF-8"),
        ("none", "[station]", "[stations]", r":1: station: is missing"),
        ("table", "[station]", "station = 3\n[other]", r":2: station: has to be a table"),
        ("buffer", "buffer = 128", "buffer = 127", r":4: station: buffer: has to be 128 to 16384"),
        ("credit", "credit = 2", "credit = '2'", r":5: station: credit: has to be a whole number"),
        ("credits", "credit = 2", "credit = 100", r":5: station: credit: has to be 1 to 99"),
        ("restart", "restart = true", "restart = 1", r":6: station: restart: has to be true or false"),
        ("code", "code = 'O0177CARMAKER'", "code = 'o0177'", r":9: partner number 1: code: has to be 1 to 25 of 0-9 A-Z / - \. & \( \)"),
        ("password", "expects = 'CARPW'", "expects = 'secret'", r":10: partner O0177CARMAKER: expects: has to be at most 8 of 0-9 A-Z / - \. & \( \)"),
        ("missing", "sends = 'SUPPW'\n", "", r":8: partner O0177CARMAKER: sends: is missing"),
        ("text", "sends = 'SUPPW'", "sends = 7", r":11: partner O0177CARMAKER: sends: has to be a text, in quotes"),
        ("mode", "mode = 'B'", "mode = 'X'", r":12: partner O0177CARMAKER: mode: has to be S, R or B"),
        ("address", "address = '127.0.0.1:3305'", "address = ''", r":13: partner O0177CARMAKER: address: has to be HOST:PORT, of 1 to 255 octets"),
        ("twice", "code = 'O0177CARMAKER'", "code = 'O0013SUPPLIER'", r":9: partner O0013SUPPLIER: code: is the code of the station or of a partner above, too"),
    ):
        expect(USUAL.count(old), 1, f"{old} in the book")
        (room / name).write_text(USUAL.replace(old, new))
        words = ["check", "--book", name]
        yield Case(words, run(words, subprocess.PIPE, room, {}).stderr.decode().strip(), f"note: {name}{note}")
    many = "".join(f"[[partner]]\ncode='P{number}'\nexpects=''\nsends=''\nmode='B'\naddress='h:1'\n" for number in range(1001))
    (room / "many").write_text(USUAL.partition("[[partner]]")[0] + many)
    yield Case(["check", "--book", "many"], "fault: 5 book 7", r"note: many:8: partner: has more than 1000 partners")
    (room / "latin").write_bytes(b"\xff" + USUAL.encode())
    yield Case(["check", "--book", "latin"], "fault: 5 book 1", r"note: latin:1: the text: is no TOML in UTF-8")


def databases(room):
    (room / "folder").mkdir()
    (room / "text").write_text("no database, but a text of some length\n" * 9)
    with sqlite3.connect(room / "other") as other:
        other.execute("CREATE TABLE other (x)")
    other.close()
    report = ["report", "in", "--db"]
    yield Case([*report, "folder"], "fault: 6 store 1", "note: folder: is a folder")
    yield Case([*report, "text"], "fault: 6 store 1", "note: text: is no database of SQLite")
    yield Case([*report, ":memory:"], "fault: 6 store 1", "note: :memory:: an empty path and :memory: keep nothing")
    yield Case([*report, "none/database"], "fault: 6 store 1", "note: none/database: No such file or directory")
    yield Case([*report, "other"], "fault: 6 store 3", r"note: other: has other tables than this station's: another program's, or those of schema 1 \(migrate\)")
    yield Case(["migrate", "--db", "nowhere"], "fault: 6 store 3", "note: nowhere: isn't there")


def paths(room):
    (room / "folder").mkdir()
    (room / "file").write_text("a file")
    (room / "long").write_bytes(b"#" * 16_777_217)
    (room / "copy-wal").write_text("a log")
    subprocess.run([PROGRAM, "init", "--db", "database"], cwd=room, stdout=subprocess.DEVNULL, check=True)
    files = ["--db", "database", "--book", "book"]
    submit = ["submit", *files, "--dataset", "A", "--date", "20240201", "--time", "0600000001", "--to", "O0177CARMAKER", "--format", "U"]
    for words, note in (
        (["check", "--book", "none"], "none: No such file or directory"),
        (["check", "--book", "folder"], "folder: is a folder, and a file is needed"),
        (["check", "--book", "file/book"], "file/book: Not a directory"),
        (["check", "--book", "long"], "long: has more than 16777216 octets"),
        (["check", "--book", "a\x1b[2Jb"], r"a\\u{1b}\[2Jb: No such file or directory"),
        ([*submit, "none"], "none: No such file or directory"),
        ([*submit, "folder"], "folder: is a folder, and a file is needed"),
        (["show", "none"], "none: No such file or directory"),
        (["collect", *files, "--to", "file"], "file: is no folder"),
        (["offer", *files, "--to", "O0177CARMAKER", "--from", "none"], "none: No such file or directory"),
        (["offer", *files, "--to", "O0177CARMAKER", "--from", "folder", "--events", "none/events"], "none/events: No such file or directory"),
        (["run", *files, "--record", "none"], "none: No such file or directory"),
        ([*submit, "--record", "file", "file"], "file: is no folder"),
        (["backup", "--db", "database", "--record", "none", "kept"], "none: No such file or directory"),
        (["feed", *files, "--record", "none", "file", "out"], "none: No such file or directory"),
        (["backup", "--db", "database", "none/copy"], "none/copy: No such file or directory"),
        (["backup", "--db", "database", "folder"], "folder: is a folder, and a file is needed"),
        (["backup", "--db", "database", "database"], "database: the command or a database needs it: name another file"),
        (["backup", "--db", "database", "copy"], r"copy: has a log or a journal beside it \(-wal, -journal\): move it away"),
        (["call", *files, "--partner", "O0177CARMAKER", "--trace", "book"], "book: the command or a database needs it: name another file"),
    ):
        yield Case(words, "fault: 7 file", f"note: {note}")


def sockets(room):
    port, held = free_port(), socket.create_server(("127.0.0.1", free_port()))
    taken = held.getsockname()[1]
    for name, address in (("gone", f"127.0.0.1:{port}"), ("bare", "localhost"), ("unnamed", "no.such.host.invalid:3305"), ("mute", f"127.0.0.1:{taken}")):
        (room / name).write_text(USUAL.replace("127.0.0.1:3305", address))
    call = ["call", "--db", "database", "--partner", "O0177CARMAKER"]
    yield Case([*call, "--book", "gone"], "fault: 8 socket", f"note: O0177CARMAKER at 127.0.0.1:{port}: Connection refused")
    yield Case([*call, "--book", "bare"], "fault: 8 socket", "note: O0177CARMAKER at localhost: has to be HOST:PORT with a port of 1 to 65535")
    yield Case([*call, "--book", "unnamed"], "fault: 8 socket", "note: O0177CARMAKER at no.such.host.invalid:3305: the name has no address")
    yield Case([*call, "--book", "mute", "--patience", "1"], "fault: 1 read", "note: O0177CARMAKER: the connection broke, or nothing came or went in time")
    for command in (["http"], ["listen", "--book", "book"], ["run", "--book", "book"]):
        yield Case([*command, "--db", "database", "--port", str(taken)], "fault: 8 socket", f"note: 127.0.0.1:{taken}: Address already in use")
    run_at = ["run", "--book", "book", "--db", "database", "--port", str(port), "--http-port", str(taken)]
    yield Case(run_at, "fault: 8 socket", f"note: 127.0.0.1:{taken}: Address already in use")
    held.close()


def refusals(room):
    files = ["--db", "database", "--book", "book"]

    def submit(name="A", date="20240201", time="0600000001", to="O0177CARMAKER", form="U", longest="0", text="", file="file"):
        named = ["--dataset", name, "--date", date, "--time", time, "--to", to, "--format", form, "--longest", longest, "--description", text]
        return ["submit", *files, *named, file]

    (room / "file").write_text("a file")
    with open(room / "huge", "wb") as huge:
        huge.truncate(67_108_865)
    shutil.copy(ROOT / "examples/supplier/book.toml", room / "supplier")
    shutil.copy(SESSION, room / "octets")
    (room / "cut").write_bytes(SESSION.read_bytes()[:600])
    for number, octets in ((1, "octets"), (1, "cut")):
        subprocess.run([PROGRAM, "feed", "--db", f"{octets}.db", "--book", "supplier", octets, "out"], cwd=room, stdout=subprocess.DEVNULL, check=True)
    subprocess.run([PROGRAM, *submit()], cwd=room, stdout=subprocess.DEVNULL, check=True)
    at = ["--db", "octets.db", "--book", "supplier"]
    (room / "twin.db").write_bytes(b"")
    long = "x" * 1000
    yield Case(submit(), "refused: 1 duplicate", "note: A 20240201 0600000001 to O0177CARMAKER: was handed in already")
    yield Case(["release", *files, "7"], "refused: 2 unknown", "note: 7: no incoming file has this number")
    yield Case(["fetch", "--db", "database", "8", "out"], "refused: 2 unknown", "note: 8: no incoming file has this number")
    yield Case(submit(to="NOBODY"), "refused: 2 unknown", "note: NOBODY: no partner in book has this code")
    yield Case(["call", *files, "--partner", "NOBODY"], "refused: 2 unknown", "note: NOBODY: no partner in book has this code")
    yield Case(["offer", *files, "--to", "NOBODY", "--from", "."], "refused: 2 unknown", "note: NOBODY: no partner in book has this code")
    yield Case(["feed", "--book", "book", "--role", "initiator", "file", "out"], "refused: 2 unknown", "note: --partner: an initiator needs it")
    (room / "events").write_text('{"at":"2026-11-01T10:00:00.000000Z","event":"submitted","way":"out","no":1}\n')
    yield Case(["history", "--events", "events", "9"], "refused: 2 unknown", "note: 9: no event of events has this number")
    yield Case(["resend", *files, "9"], "refused: 2 unknown", "note: 9: no outgoing file has this number")
    yield Case(["resend", *files, "1"], "refused: 3 state", "note: 1: this outgoing file isn't sent yet")
    yield Case(["stop", "--db", "database"], "fault: 8 socket", "note: the station: isn't there, or ended before this command's turn: nothing was done")
    yield Case(["fetch", "--db", "cut.db", "1", "out2"], "refused: 3 state", "note: 1: this incoming file isn't whole yet")
    subprocess.run([PROGRAM, "release", *at, "1"], cwd=room, stdout=subprocess.DEVNULL, check=True)
    yield Case(["release", *at, "1"], "refused: 3 state", r"note: 1: this incoming file was released already \(EERP\)")
    subprocess.run([PROGRAM, "feed", "--db", "other.db", "--book", "supplier", "octets", "out"], cwd=room, stdout=subprocess.DEVNULL, check=True)
    subprocess.run([PROGRAM, "refuse", "--db", "other.db", "--book", "supplier", "1", "34", "no"], cwd=room, stdout=subprocess.DEVNULL, check=True)
    yield Case(["release", "--db", "other.db", "--book", "supplier", "1"], "refused: 3 state", r"note: 1: this incoming file was refused already \(NERP\)")
    yield Case(submit(file="huge", time="0600000009"), "refused: 4 limit", "note: database: has room for 1000000 files, each of 67108864 octets and 1000000 records at most")
    for words, note in (
        (submit(name="small"), r"--dataset small: 1 to 26 of 0-9 A-Z / - \. & \( \)"),
        (submit(date="2024"), "--date 2024: a date CCYYMMDD, eight digits"),
        (submit(time="060000"), "--time 060000: a time HHMMSScccc, ten digits"),
        (submit(longest="5"), "--longest 5: 1 to 16384 in formats F and V, and 0 in U and T"),
        (submit(text=long), f"--description {long}: at most 999 octets of UTF-8"),
        (submit(form="F", longest="4"), "FILE file: whole records of --longest in F, records after five digits of their length in V"),
        (["offer", *files, "--to", "O0177CARMAKER", "--from", ".", "--longest", "5"], "--longest 5: 1 to 16384 in formats F and V, and 0 in U and T"),
        (["refuse", *at, "1", "34", long], f"TEXT {long}: at most 999 octets of UTF-8"),
    ):
        yield Case(words, "refused: 5 field", f"note: {note}")


def outputs(room):
    with open("/dev/full", "wb") as full:
        yield Case(["init", "--db", "database"], "fault: 2 write", "note: output: nobody takes it, or its disk is full", {"output": full})


def memory(room):
    with open(room / "huge", "wb") as huge:
        huge.truncate(60_000_000)
    few = {"before": lambda: resource.setrlimit(resource.RLIMIT_AS, (50_000_000, 50_000_000))}
    submit = ["submit", "--db", "database", "--book", "book", "--dataset", "A", "--date", "20240201", "--time", "0600000001", "--to", "O0177CARMAKER"]
    yield Case([*submit, "--format", "U", "huge"], "fault: 4 memory", "note: memory: this process gets no more", few)


def held(room):
    with Service(room, "run") as station:
        expect(station.line(), "ready", "a station")
        note = f"note: database: process {station.program.pid} has it open"
        yield Case(["feed", "--db", "database", "--book", "book", "book", "out"], "fault: 6 store 1", note)


def deserted(room):
    """A station that takes a request and dies."""
    subprocess.run([PROGRAM, "init", "--db", "database"], cwd=room, stdout=subprocess.DEVNULL, check=True)
    path = room / "database-station"
    with socket.socket(socket.AF_UNIX) as station:
        station.bind(str(path))
        station.listen()

        def serve():
            while True:
                try:
                    command = station.accept()[0]
                except OSError:
                    return
                with command:
                    command.sendall(b"1")
                    command.recv(65536)

        threading.Thread(target=serve, daemon=True).start()
        note = "note: database: a read or a write failed, or the station over it is gone; report shows what is done"
        yield Case(["report", "--db", "database", "in"], "fault: 3 office", note)
        station.shutdown(socket.SHUT_RDWR)


def once(library, **names):
    """An environment in which a call fails so often, for one command."""
    return {"before": lambda: os.environ.update(LD_PRELOAD=str(library), **names)}


def emptied(room, library):
    """As `once`, over a database whose file is whole only behind the command's own look at it."""

    def begin():
        for path in room.glob("moving*"):
            path.unlink()
        shutil.copy(room / "cut.db", room / "moving")
        os.environ.update(LD_PRELOAD=str(library), SWAP_PATH="moving", SWAP_LOOK="2", SWAP_FILE=str(room / "whole.db"))

    return {"before": begin}


def folded(room, name, octets):
    """A database that has heard these octets, all of it in its first file."""
    (room / name).write_bytes(octets)
    words = [PROGRAM, "feed", "--db", f"{name}.db", "--book", "supplier", name, "out"]
    subprocess.run(words, cwd=room, stdout=subprocess.DEVNULL, check=True)
    with sqlite3.connect(room / f"{name}.db") as database:
        database.execute("PRAGMA wal_checkpoint(TRUNCATE)")
    database.close()


def moments(room):
    """What is wrong for a moment, and is well when the note looks at it."""
    if not shutil.which("cc"):
        print("NOT TRIED without a C compiler: notes of what is wrong for a moment, and whether each row of the table is met")
        return
    library = compile_library(room, "edge_calls")
    subprocess.run([PROGRAM, "init", "--db", "database"], cwd=room, stdout=subprocess.DEVNULL, check=True)
    shutil.copy(ROOT / "examples/supplier/book.toml", room / "supplier")
    for name, most in (("cut", 600), ("whole", None)):
        folded(room, name, SESSION.read_bytes()[:most])
    failing = once(library, FAIL_CALL="open", FAIL_NUMBER="5", FAIL_TIMES="2", FAIL_PATH="database")
    note = "note: database: can't be opened: its disk failed, it is damaged, or it was locked till now"
    yield Case(["report", "--db", "database", "in"], "fault: 6 store 1", note, failing)
    failing = once(library, FAIL_CALL="open", FAIL_NUMBER="5", FAIL_TIMES="1", FAIL_PATH="book")
    yield Case(["check", "--book", "book"], "fault: 7 file", "note: book: can't be read or made, and works now: try again", failing)
    note = "note: 1: this incoming file was in another state: look at report in"
    yield Case(["release", "--db", "moving", "--book", "supplier", "1"], "refused: 3 state", note, emptied(room, library))
    yield from reached_late(room, library)


def reached_late(room, library):
    """Partners and ports that can't be reached, or not at once."""
    call = ["call", "--db", "database", "--partner", "O0177CARMAKER", "--patience", "1", "--book"]
    with socket.create_server(("127.0.0.1", 0)) as partner:
        address = f"127.0.0.1:{partner.getsockname()[1]}"
        (room / "late").write_text(USUAL.replace("127.0.0.1:3305", address))
        # The station's own socket is tried twice before the partner.
        failing = once(library, FAIL_CALL="connect", FAIL_NUMBER="111", FAIL_TIMES="3")
        note = f"note: O0177CARMAKER at {address}: couldn't be reached, and can be now: try again"
        yield Case([*call, "late"], "fault: 8 socket", note, failing)
    with socket.create_server(("127.0.0.1", 0), backlog=0) as full:
        address = full.getsockname()
        (room / "full").write_text(USUAL.replace("127.0.0.1:3305", f"127.0.0.1:{address[1]}"))
        waiting = [socket.socket() for _ in range(4)]
        for one in waiting:
            one.setblocking(False)
            one.connect_ex(address)
        yield Case([*call, "full"], "fault: 8 socket", f"note: O0177CARMAKER at 127.0.0.1:{address[1]}: nobody answered in time")
        for one in waiting:
            one.close()
    port = free_port()
    listen = ["listen", "--db", "database", "--book", "book", "--port", str(port)]
    failing = once(library, FAIL_CALL="bind", FAIL_NUMBER="98", FAIL_TIMES="1")
    yield Case(listen, "fault: 8 socket", f"note: 127.0.0.1:{port}: couldn't be reached, and can be now: try again", failing)
    yield Case([*listen, "--address", "no.such.host.invalid"], "fault: 8 socket", f"note: no.such.host.invalid:{port}: the name has no address")


def explained(room):
    """All that a faulty book has, with the line of `check`; and warnings alone, beside which it is ok."""
    text = USUAL.replace("buffer = 128", "buffer = 1").replace("sends = 'SUPPW'", "sent = 'SUPPW'").replace("127.0.0.1:3305", "127.0.0.1")
    text = text.replace("mode = 'B'", "mode = 'B'\noverdue = '24h'")
    (room / "faulty").write_text(text)
    (room / "faulty").chmod(0o644)
    ran = run(["check", "--book", "faulty", "--explain", "--notes"], subprocess.PIPE, room, {})
    lines = [
        "note: faulty:4: station: buffer: has to be 128 to 16384",
        "warning: faulty:11: sent: is ignored; sends is the nearest",
        "note: faulty:8: partner O0177CARMAKER: sends: is missing",
        "warning: faulty:14: partner O0177CARMAKER: address: can't be called: HOST:PORT, with a port of 1 to 65535",
        "warning: faulty:1: the text: may be read by others than its owner, with its passwords",
    ]
    expect(ran.stdout.decode().splitlines(), lines, "a faulty book, explained")
    expect((ran.returncode, ran.stderr), (1, b"fault: 5 book 5\n"), "a faulty book, explained")
    (room / "warned").write_text(USUAL.replace("127.0.0.1:3305", "no.such.host.invalid:3305"))
    (room / "warned").chmod(0o600)
    ran = run(["check", "--book", "warned", "--explain", "--resolve"], subprocess.PIPE, room, {})
    more = "warning: warned:13: partner O0177CARMAKER: address: can't be called: its host has no address now"
    expect((ran.returncode, ran.stdout.decode().splitlines(), ran.stderr), (0, [more, "ok: 1 partners"], b""), "a book with a warning")
    lines.append(more)
    return lines


# ---- the tables


def rows():
    """Each note of the table, with the lines that it stands beside, and each warning."""
    part = COMMANDS.read_text(encoding="utf-8").partition("\n## Notes\n")[2].partition("\n## ")[0]
    told, lines = {}, []
    for row in part.splitlines():
        cells = [cell.strip() for cell in row.strip("|").split("|")]
        texts = [re.findall("`([^`]+)`", cell) for cell in cells]
        if texts[0] and texts[0][0].startswith("warning: "):
            told[texts[0][0]] = []
        elif len(cells) == 2 and texts[1] and texts[1][0].startswith("note: "):
            lines = texts[0] or lines
            told[texts[1][0]] = lines
    return told


def pattern_of(template):
    """The form of the lines that a row of a table tells of."""
    pieces = re.split(r"\b(HOST:PORT|[A-Z]+)\b", template)
    return "".join(WORDS.get(piece, re.escape(piece)) if at % 2 else re.escape(piece) for at, piece in enumerate(pieces))


def is_told(line, told):
    """Whether a line that was printed is one of these lines of the table."""
    return any(re.fullmatch(re.sub(r"\b(RR|N)\b", r"\\d+", each), line) for each in told)


CASES = [ends, books, databases, paths, sockets, refusals, outputs, memory, held, deserted, moments]


def tried_all(cases):
    """The notes of these cases, each with the line beside it."""
    with tempfile.TemporaryDirectory(prefix="notes-") as room:
        room = Path(room)
        (room / "book").write_text(USUAL)
        return [(case.line, tried(case, room)) for case in cases(room)]


def main():
    names = sys.argv[1:]
    chosen = [cases for cases in CASES if not names or cases.__name__ in names]
    passed = failed = 0
    notes = []
    with ThreadPoolExecutor(4) as pool:
        for cases, running in [(cases, pool.submit(tried_all, cases)) for cases in chosen]:
            try:
                notes += running.result()
                passed += 1
            except (Wrong, OSError, subprocess.SubprocessError) as why:
                failed += 1
                print(f"{cases.__name__}: {why}")
    if not names and not failed and shutil.which("cc"):
        for try_it in (lambda: compare(notes),):
            try:
                passed += try_it()
            except Wrong as why:
                failed += 1
                print(why)
    print(f"{passed} passed, {failed} failed")
    return 1 if failed or not passed else 0


def compare(notes):
    """Compares the notes, and what is explained, with the tables. Returns the number of rows."""
    with tempfile.TemporaryDirectory(prefix="notes-") as room:
        lines = explained(Path(room))
    told = rows()
    met = set()
    for line, note in notes + [("check", line) for line in lines if line.startswith("warning: ")]:
        fitting = [template for template in told if re.fullmatch(pattern_of(template), note)]
        expect(len(fitting) > 0, True, f"docs/COMMANDS.md has no row for {note!r}")
        if line != "check":
            beside = [template for template in fitting if is_told(line, told[template])]
            expect(len(beside) > 0, True, f"docs/COMMANDS.md has no row for {note!r} beside {line!r}")
            fitting = beside
        met |= set(fitting)
    expect(sorted(set(told) - met), [], "rows of docs/COMMANDS.md that no case meets")
    return len(told)


if __name__ == "__main__":
    sys.exit(main())
