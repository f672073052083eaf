#!/usr/bin/env python3
"""Lets calls of the program for sockets, for a trace and for files of a folder fail. It puts others' files between two of its calls, and checks
what the program does when it gives a file its name.

    checks/faults/edge_calls.py

Out of memory is reported as such, wherever the machine has none, and any other error as before. A caller that is gone before it is accepted, or
that can't be accepted for the moment, ends no service. A fetched file and a backup are synced before they get their names, and the names before
the line is printed. A file that `offer` can't read or move for the moment waits for the next call, and the others don't. A link or a pipe that
comes between its look and its open isn't followed, nor by `collect`. An `offer` that is killed between the taking of a file and its submission
takes no file of another folder for its own. One that is killed at any call of a refusal leaves no line without its file for good. The lock of a
folder that goes away between a look and an open is tried again. It needs a C compiler. The last line is `N passed, M failed`.

Shows: where there is a C compiler: calls for sockets and a trace that fail. Allocations that are refused while a trace is compared with the
database, and which fault reports it. Callers who can't be accepted for the moment, by `listen`, by `http` and at the sockets of `run`. Each
listener of `run` that fails for good, also within a session. The syncs and the name of a fetched file and of a backup, in their order. A file of
`offer` whose move, open or reading fails for the moment. A refusal that is killed at each of its calls, and the next `offer`. A folder's lock that
goes away or is exchanged behind a look. A link or a pipe that comes to the place of a file between two calls of `offer` and `collect`. An `offer`
that is killed between the taking of a file and its submission, while another folder has one of its name and time
"""

import bisect
import contextlib
import errno
import fcntl
import functools
import os
import socket
import subprocess
import sys
import tempfile
import time
from pathlib import Path

sys.path.insert(0, str(Path(__file__).resolve().parents[1] / "lib"))

import tables
from program import PROGRAM
from row_files import ROWS, Row
from services import BOOK, CARMAKER, LONG, Resident, Service, Wrong, answer_to, expect, free_port, rest_of
from shims import compile_library, stopping

# More allocations than a session with a database makes. Also how many are refused one after another, up to the last one before the answer's file
# is opened. The last of them are those of the trace, and the others those of the database.
MOST, SOME = 1 << 14, 8
MEMORY, SOCKET, FILE, STORE = "fault: 4 memory\n", "fault: 8 socket\n", "fault: 7 file\n", "fault: 6 store 2\n"


def failing(library, call, number, times=1, path=""):
    named = {"FAIL_CALL": call, "FAIL_NUMBER": str(number), "FAIL_TIMES": str(times), "FAIL_PATH": path}
    return {"LD_PRELOAD": str(library), **named}


def run(room, environment, *words):
    environment = {**os.environ, **environment}
    done = subprocess.run([PROGRAM, *words], cwd=room, env=environment, capture_output=True, timeout=LONG, check=False)
    return done.returncode, done.stdout.decode(), done.stderr.decode()


def ask(service, port=None):
    """The reply to a request for a list."""
    with service.caller() if port is None else socket.create_connection(("127.0.0.1", port), timeout=LONG) as client:
        client.sendall(b"GET /in HTTP/1.1\r\n\r\n")
        return rest_of(client)


def first_of(connection, count):
    """This many octets, or those before the end."""
    octets = b""
    while len(octets) < count and (piece := connection.recv(count - len(octets))):
        octets += piece
    return octets


def sockets_without_memory(room, library):
    for call, number, line in (
        ("socket", errno.ENOMEM, MEMORY),
        ("socket", errno.ENOBUFS, MEMORY),
        ("socket", errno.EMFILE, SOCKET),
        ("bind", errno.ENOMEM, MEMORY),
        ("bind", errno.EADDRINUSE, SOCKET),
    ):
        told = run(room, failing(library, call, number, 9), "listen", "--db", "db", "--book", BOOK, "--port", "20999")
        expect(told, (1, "", line), f"{call} of listen that fails by {number}")
    with socket.create_server(("127.0.0.1", 0)) as partner:
        book = room / "book"
        book.write_text(BOOK.read_text().replace("127.0.0.1:3305", f"127.0.0.1:{partner.getsockname()[1]}"))
        words = ["call", "--db", "db", "--book", book, "--partner", CARMAKER]
        for patience in ("0", "5"):
            for number, line in ((errno.ENOMEM, MEMORY), (errno.ENOBUFS, MEMORY), (errno.ECONNREFUSED, SOCKET)):
                told = run(room, failing(library, "connect", number, 9), *words, "--patience", patience)
                expect(told, (1, "", line), f"connect that fails by {number}, with patience {patience}")


def trace_without_memory(room, library):
    given = room / "given"
    given.write_bytes(Row(ROWS / "listening/one_end_response.row").sessions()[0].joined("in"))
    words = ["feed", "--book", BOOK, "--trace", "trace", "given", "/dev/null"]
    for number, line in ((errno.ENOMEM, MEMORY), (errno.EACCES, FILE)):
        told = run(room, failing(library, "open", number, 9, "trace"), *words)
        expect(told, (1, "", line), f"a trace whose open fails by {number}")


def trace_whose_allocations_are_refused(room, _library):
    """Nor is a refused allocation an error of the file, while a trace that is there is compared with the files of the database."""
    library = compile_library(room, "refuse_allocation")
    given, reached = room / "given", room / "reached"
    given.write_bytes(Row(ROWS / "listening/one_end_response.row").sessions()[0].joined("in"))

    def refused(number, answer):
        reached.unlink(missing_ok=True)
        words = ["feed", "--db", "db", "--book", BOOK, "--trace", "trace", "given", answer]
        return run(room, stopping("refuse", number, library, reached), *words)

    expect(refused(0, "/dev/null"), (0, "end: partner 00\n", ""), "the session")
    last = bisect.bisect_left(range(MOST), True, key=lambda number: refused(number + 1, "none/answer") and not reached.exists())
    told = [refused(number, "/dev/null") for number in range(last - SOME + 1, last + 1)]
    for number, line in enumerate(told, last - SOME + 1):
        if line not in ((1, "", MEMORY), (1, "", STORE)):
            raise Wrong(f"allocation {number} of {last} was refused, and told as {line}")
    expect(told[-1], (1, "", MEMORY), "the last refused allocation")


def knock(come):
    """Somebody comes to a door that fails, and may find nobody any more."""
    with contextlib.suppress(OSError), come():
        pass


def callers_that_pass(room, library):
    """None of these ends a service, and the next caller is served."""
    greeting = Row(ROWS / "opening/wrong_password.row").sessions()[0].steps[0][1]
    passing = ("EPERM", "ENOMEM", "ENFILE", "EMFILE", "EPROTO", "ENOPROTOOPT", "ENETDOWN", "ENETUNREACH", "ECONNABORTED", "ENOBUFS", "EHOSTUNREACH")
    for name in passing:
        folder = room / name
        folder.mkdir()
        with Service(folder, "listen", environment=failing(library, "accept4", getattr(errno, name), 3)) as service:
            with service.caller() as caller:
                caller.shutdown(socket.SHUT_WR)
                expect(rest_of(caller), greeting, f"{name}: the station sent")
            expect(service.line(), "end: input", f"{name}: the line")
            service.ends()
    (room / "EINVAL").mkdir()
    with Service(room / "EINVAL", "listen", environment=failing(library, "accept4", errno.EINVAL, 3)) as service:
        knock(service.caller)
        service.ends(1, SOCKET.encode())


def requests_that_pass(room, library):
    """Nor does one end `http`."""
    for name in ("EMFILE", "ECONNABORTED", "ENOMEM"):
        folder = room / name
        folder.mkdir()
        with Service(folder, "http", "--requests", "1", environment=failing(library, "accept4", getattr(errno, name), 3)) as service:
            expect(ask(service)[:12], b"HTTP/1.1 200", f"{name}: the reply")
            service.ends()


def callers_of_a_station_that_pass(room, library):
    """Nor do they end a station that keeps its database open, at whichever of its three sockets."""
    greeting = Row(ROWS / "opening/wrong_password.row").sessions()[0].steps[0][1]
    for name in ("EMFILE", "ECONNABORTED", "ENOMEM"):
        folder = room / name
        folder.mkdir()
        port = free_port()
        with Resident(
            folder, "--jobs", "2", "--http-port", str(port), environment=failing(library, "accept4", getattr(errno, name), 9)
        ) as service:
            expect(service.give("report", "in").returncode, 0, f"{name}: an operator's command")
            expect(ask(service, port)[:12], b"HTTP/1.1 200", f"{name}: the reply")
            with service.caller() as caller:
                caller.shutdown(socket.SHUT_WR)
                expect(rest_of(caller), greeting, f"{name}: the station sent")
            expect(service.line(), "session - in: end: input", f"{name}: the line")
            service.ends()


def door_of_a_station_that_fails(room, library):
    """An error of one of its three listeners that doesn't pass ends a station once somebody comes there. It prints nothing for it but the fault."""
    for place in range(3):
        folder = room / str(place)
        folder.mkdir()
        ports = [free_port(), free_port()]
        failed = failing(library, "accept4", errno.EINVAL, 1000)
        failed["FAIL_PORT"] = str([*ports, 0][place])
        with Resident(folder, "--http-port", str(ports[1]), port=ports[0], environment=failed) as service:
            knock(service.client if place == 2 else functools.partial(service.caller, port=ports[place]))
            service.ends(1, SOCKET.encode())
            expect(service.socket.exists(), False, "whether the socket is left")


def door_that_fails_within_a_session(room, library):
    """The session goes on to its end, and then the station ends. Who waits is told so, and nothing was begun of what it asked."""
    session = Row(ROWS / "listening/nothing_waiting.row").sessions()[0]
    begun = room / "begun"
    failed = {**failing(library, "accept4", errno.EINVAL), "FAIL_PORT": "0", "FAIL_FROM": str(begun)}
    with Resident(room, environment=failed) as service, service.caller() as caller:
        caller.sendall(session.steps[1][1])
        opened = b"".join(octets for side, octets in session.steps[:3] if side == "out")
        expect(first_of(caller, len(opened)), opened, "the station sent")
        with service.asked("release", "1", book=BOOK.read_bytes()) as waiting:
            begun.touch()
            with service.client():
                expect(answer_to(waiting), (b"", SOCKET.strip()), "the answer to a command that waits")
                caller.sendall(session.joined("in")[len(session.steps[1][1]) :])
                expect(opened + rest_of(caller), session.joined("out"), "the station sent in all")
                expect(service.line() + "\n", f"session {CARMAKER} in: {session.end[1]}", "the line")
        service.ends(1, SOCKET.encode())


def name_is_kept(room, library):
    given = room / "given"
    given.write_bytes(Row(ROWS / "receiving/one_octet.row").sessions()[0].joined("in"))
    expect(run(room, {}, "feed", "--db", "db", "--book", BOOK, "given", "/dev/null")[0], 0, "the session")
    (room / "folder").mkdir()
    for name in ("fetched", "fetched", "folder/fetched"):
        expect_kept(room, library, "done: fetch 1\n", "fetch", "--db", "db", "1", name)


def expect_kept(room, library, line, *words):
    """A command that prints this line has synced what it made, then named it, and then synced the name."""
    calls = room / "calls"
    calls.unlink(missing_ok=True)
    expect(run(room, {"LD_PRELOAD": str(library), "CALLS": str(calls)}, *words), (0, line, ""), words[0])
    lines = calls.read_text().splitlines()
    expect(lines[lines.index("rename") - 1 :], ["sync of a file", "rename", "sync of a folder"], f"the last calls of {words[0]}")


def name_of_a_backup_is_kept(room, library):
    expect(run(room, {}, "init", "--db", "db")[0], 0, "init")
    for name in ("copy", "copy"):
        expect_kept(room, library, "done: backup\n", "backup", "--db", "db", name)
    with Resident(room) as service:
        expect_kept(room, library, "done: backup\n", "backup", "--db", service.database, "copy")


MOMENT = 1_706_770_800_123_400_000
TAKEN = f"20240201_0700001234_INV.1_{CARMAKER}"
OTHER_TAKEN = f"20240201_0700001234_INV.2_{CARMAKER}"
REFUSED = f"INV.1_20240201_0700001234_{CARMAKER}"
# What refuses each file whose length isn't a multiple of 3, and the line for it.
IN_THREES = ("--format", "F", "--longest", "3")
IN_NONE = "refused: 5 field\n"
LOCK = ".oftp_station_lock"
# So many files, and how many calls of a collect open or remove its lock and the file by which it asks for the mode.
FILES, OF_ALL = 8, 4
INCOMING = f"0000001_ASN.0001_20240131_1015300001_{CARMAKER}"


def put(folder, octets, name="INV.1"):
    """A file to be offered, always with the same last change."""
    folder.mkdir(exist_ok=True)
    (folder / name).write_bytes(octets)
    os.utime(folder / name, ns=(MOMENT, MOMENT))


def words_of_offer(folder="out"):
    return ["offer", "--db", "database", "--book", BOOK, "--to", CARMAKER, "--from", folder]


def offer(room, environment, folder="out", rest=()):
    return run(room, environment, *words_of_offer(folder), *rest)


def handed_in(room):
    """The outgoing files: the time and the content of each."""
    found = tables.read(room / "database")
    return [(entry["time"], b"".join(tables.bodies(found, "out_file", entry["no"]))) for entry in found["out_file"]]


def names(folder):
    return sorted(path.name for path in folder.iterdir())


def put_away(room):
    """What is taken, sent and refused."""
    return [names(room / "out" / name) for name in ("taken", "sent", "refused")]


def taken_file_that_cannot_be_read_now(room, library):
    """It stays where it is, behind its line, and the next call hands it in."""
    for call, number in (
        ("open", errno.EMFILE),
        ("open", errno.ENFILE),
        ("open", errno.EIO),
        ("open", errno.EACCES),
        ("open", errno.ENOMEM),
        ("read", errno.EIO),
        ("read", errno.ENOMEM),
    ):
        what = f"a file whose {call} fails by {number}"
        here = room / f"{call}_{number}"
        here.mkdir()
        put(here / "out", b"CONTENT")
        told = offer(here, failing(library, call, number, 9, TAKEN))
        expect(told, (1, "", MEMORY) if number == errno.ENOMEM else (1, "fault: 7 file INV.1\n", ""), what)
        expect(put_away(here), [[TAKEN], [], []], f"{what}: where it is")
        expect(offer(here, {}), (0, "done: offer 1 INV.1\n", ""), f"the next call behind {what}")
        expect(handed_in(here), [("0700001234", b"CONTENT")], f"{what}: what is handed in")


def file_that_cannot_be_moved(room, library):
    """It stays in the folder, behind its line, and the others are handed in, also what an earlier call has taken."""
    for number in (errno.EPERM, errno.EACCES, errno.EBUSY, errno.ENOMEM):
        what = f"a file whose move fails by {number}"
        here = room / str(number)
        here.mkdir()
        put(here / "out", b"TAKEN")
        expect(offer(here, {"LD_PRELOAD": str(library), "KILL_PATH": TAKEN}), (-9, "", ""), "the call that is killed")
        put(here / "out", b"STAYS")
        put(here / "out", b"GOES", "INV.2")
        told = offer(here, failing(library, "rename", number, 9, "/INV.1"))
        if number == errno.ENOMEM:
            expect((told, names(here / "out/taken")), ((1, "", MEMORY), [TAKEN]), what)
            continue
        expect(told, (1, "fault: 7 file INV.1\ndone: offer 1 INV.1\ndone: offer 2 INV.2\n", ""), what)
        expect((here / "out/INV.1").read_bytes(), b"STAYS", f"{what}: what it has")
        expect(handed_in(here), [("0700001234", b"TAKEN"), ("0700001234", b"GOES")], f"{what}: what is handed in")
        expect(offer(here, {}), (0, "done: offer 3 INV.1\n", ""), f"the next call behind {what}")
        expect(handed_in(here)[2:], [("0700001235", b"STAYS")], f"{what}: what is handed in then")


def taken_file_that_cannot_be_moved(room, library):
    """It stays where it is, behind its line, and the others go on. The next call puts it away, and hands it in no second time."""
    failed = failing(library, "rename", errno.EPERM, 9, TAKEN)
    for rest in ((), IN_THREES):
        here = room / str(len(rest))
        here.mkdir()
        put(here / "out", b"CONTENT")
        put(here / "out", b"OTHER", "INV.2")
        is_refused = rest == IN_THREES
        other = IN_NONE.replace("\n", " INV.2\n") if is_refused else "done: offer 2 INV.2\n"
        expect(offer(here, failed, rest=rest), (1, f"fault: 7 file INV.1\n{other}", ""), f"a taken file that can't be moved {rest}")
        name = f"INV.2_20240201_0700001234_{CARMAKER}"
        wanted = [[], [name, f"{name}.line"]] if is_refused else [[f"0000002_{name}"], []]
        expect(put_away(here), [[TAKEN], *wanted], f"where the files are {rest}")
        expect(offer(here, {}), (0, "done: offer 1 INV.1\n", ""), f"the next call {rest}")
        expect(len(handed_in(here)), 1 if is_refused else 2, f"how many files are handed in {rest}")


def refusal_that_is_killed(room, library):
    """At each of its calls that leave something, a file in `refused` has its whole line. A line without its file is gone once the next call has
    handed the file in, or has refused it."""
    for again in ((), IN_THREES):
        for number in range(1, 20):
            here = room / f"{len(again)}_{number}"
            here.mkdir()
            put(here / "out", b"CONTENT")
            stop = {"LD_PRELOAD": str(library), "STOP_PATH": REFUSED, "STOP_AT": str(number)}
            told = offer(here, stop, rest=IN_THREES)
            refused = here / "out/refused"
            is_there = (refused / REFUSED).exists()
            what = f"a call that is killed at call {number}"
            expect(names(here / "out/taken"), [] if is_there else [TAKEN], f"what is taken behind {what}")
            wanted = (0, "", "") if is_there else (1, IN_NONE.replace("\n", " INV.1\n"), "") if again else (0, "done: offer 1 INV.1\n", "")
            expect(offer(here, {}, rest=again), wanted, f"the next call behind {what}")
            left = [REFUSED, f"{REFUSED}.line"] if is_there or again else []
            expect(names(refused), left, f"what is refused behind {what} and the next one")
            if left:
                expect((refused / left[1]).read_text(), IN_NONE, f"the line behind {what} and the next one")
            expect(names(here / "out/taken"), [], f"what is taken behind {what} and the next one")
            if told[0] != -9:
                break
        expect(number >= 5, True, f"whether {number - 1} calls are enough")


def lock_that_goes_away(room, library):
    """Between a look and an open: it is tried again as if it had been locked, also where another command's is there then."""
    for look in (1, 2):
        for kind in ("nothing", "another", "a held one"):
            here = room / f"{look} {kind}"
            here.mkdir()
            put(here / "out", b"CONTENT")
            for path in (here / "out" / LOCK, here / "another"):
                path.touch(0o600)
            held = os.open(here / "another", os.O_RDWR)
            if kind == "a held one":
                fcntl.flock(held, fcntl.LOCK_EX)
            swap = {"SWAP_PATH": LOCK, "SWAP_LOOK": str(look), "SWAP_FILE": "" if kind == "nothing" else str(here / "another")}
            how = {"cwd": here, "env": {**os.environ, "LD_PRELOAD": str(library), **swap}}
            with subprocess.Popen([PROGRAM, *words_of_offer()], stdout=subprocess.PIPE, stderr=subprocess.PIPE, **how) as program:
                time.sleep(0.5 if kind == "a held one" else 0)
                os.close(held)
                told = program.communicate(timeout=LONG)
            expect((program.returncode, *told), (0, b"done: offer 1 INV.1\n", b""), f"a lock behind whose look {look} is {kind}")


def taken_file_that_is_exchanged(room, library):
    """What comes to its place between two calls of the program isn't read: neither a link's target, nor a pipe, which nobody writes."""
    for target in ("secret", None):
        for look in (1, 2, 3, 4):
            here = room / f"{target}_{look}"
            here.mkdir()
            (here / "secret").write_bytes(b"SECRET")
            put(here / "out", b"CONTENT")
            swap = {"LD_PRELOAD": str(library), "SWAP_PATH": TAKEN, "SWAP_LOOK": str(look)}
            status, out, err = offer(here, swap | ({"SWAP_TARGET": str(here / "secret")} if target else {}))
            what = f"{target or 'a pipe'} behind look {look}"
            expect([content for _, content in handed_in(here) if content != b"CONTENT"], [], f"{what}: what else is handed in")
            expect((here / "secret").read_bytes(), b"SECRET", f"{what}: what the link leads to")
            is_told = (status, out) == (0, "done: offer 1 INV.1\n") or status == 1 and "fault: 7 file" in out + err
            expect(is_told, True, f"{what}: whether {out!r} and {err!r} are told")


def name_that_is_taken_before_it_is_collected(room, library):
    """A link that comes to the name of a file between two calls of the program isn't followed, and nothing is released beside it."""
    given = room / "given"
    given.write_bytes(Row(ROWS / "receiving/one_octet.row").sessions()[0].joined("in"))
    for look in (1, 2, 3):
        here = room / str(look)
        here.mkdir()
        (here / "in").mkdir()
        (here / "kept").write_bytes(b"KEPT")
        expect(run(here, {}, "feed", "--db", "database", "--book", BOOK, given, "/dev/null")[0], 0, "the session")
        swap = {"LD_PRELOAD": str(library), "SWAP_PATH": INCOMING, "SWAP_LOOK": str(look), "SWAP_TARGET": str(here / "kept")}
        told = run(here, swap, "collect", "--db", "database", "--book", BOOK, "--to", "in", "--release")
        what = f"a link behind look {look}"
        expect((here / "kept").read_bytes(), b"KEPT", f"{what}: what it leads to")
        path = here / "in" / INCOMING
        is_written = path.is_file() and not path.is_symlink() and path.read_bytes() == b"A"
        issued = [entry["no"] for entry in tables.read(here / "database")["issued"]]
        wanted = ((0, f"done: collect 1 {INCOMING}\n", ""), [1]) if is_written else ((1, "", FILE), [])
        expect((told, issued), wanted, f"{what}: what is told, and what is released")


def mode_that_is_asked_once(room, library):
    """Each further file of a collect takes four calls at its draft: it is opened, written, synced and named."""
    for number in range(FILES):
        octets = Row(ROWS / "receiving/one_octet.row").sessions()[0].joined("in")
        (room / "given").write_bytes(octets.replace(b"ASN.0001", b"ASN.%04d" % number))
        expect(run(room, {}, "feed", "--db", "database", "--book", BOOK, "given", "/dev/null")[0], 0, "the session")
    (room / "in").mkdir()
    stop = {"LD_PRELOAD": str(library), "STOP_PATH": "/.oftp_station_", "STOP_AT": str(OF_ALL + 4 * FILES + 1)}
    status, out, _ = run(room, stop, "collect", "--db", "database", "--book", BOOK, "--to", "in", "--release")
    expect((status, out.count("done: collect")), (0, FILES), "what so few calls collect")


def offer_that_is_killed_before_it_hands_in(room, library):
    """Another folder's file of the same name and time is handed in meanwhile, and isn't taken for its own. Nor is a file of the same content lost,
    which the register has then under that name and time."""
    for content, is_beside in ((b"OTHER", False), (b"OTHER", True), (b"CONTENT", False), (b"CONTENT", True)):
        here = room / f"{content.decode()}_{is_beside}"
        here.mkdir()
        put(here / "one", b"CONTENT")
        put(here / "two", content)
        with Resident(here) if is_beside else contextlib.nullcontext():
            told = offer(here, {"LD_PRELOAD": str(library), "KILL_PATH": TAKEN}, "one")
            expect((told, names(here / "one/taken")), ((-9, "", ""), [TAKEN]), "the call that is killed, and what it has taken")
            expect(offer(here, {}, "two"), (0, "done: offer 1 INV.1\n", ""), "the other folder's")
            no = 1 if content == b"CONTENT" else 2
            expect(offer(here, {}, "one"), (0, f"done: offer {no} INV.1\n", ""), "the next call")
            expect(offer(here, {}, "one"), (0, "", ""), "one more call")
        wanted = [("0700001234", content), ("0700001235", b"CONTENT")][:no]
        expect(handed_in(here), wanted, "what is handed in")
        expect(names(here / "one/sent"), [f"000000{no}_INV.1_20240201_{wanted[-1][0]}_{CARMAKER}"], "what is put away")


CASES = [
    taken_file_that_cannot_be_read_now,
    file_that_cannot_be_moved,
    taken_file_that_cannot_be_moved,
    refusal_that_is_killed,
    lock_that_goes_away,
    taken_file_that_is_exchanged,
    name_that_is_taken_before_it_is_collected,
    mode_that_is_asked_once,
    offer_that_is_killed_before_it_hands_in,
    sockets_without_memory,
    trace_without_memory,
    trace_whose_allocations_are_refused,
    callers_that_pass,
    requests_that_pass,
    callers_of_a_station_that_pass,
    door_of_a_station_that_fails,
    door_that_fails_within_a_session,
    name_is_kept,
    name_of_a_backup_is_kept,
]


def main():
    failed = 0
    with tempfile.TemporaryDirectory() as path:
        library = compile_library(Path(path), "edge_calls")
        for case in CASES:
            room = Path(path) / case.__name__
            room.mkdir()
            try:
                case(room, library)
            except (Wrong, OSError, subprocess.SubprocessError, tables.Damaged, ValueError) as why:
                failed += 1
                print(f"{case.__name__.replace('_', ' ')}: {type(why).__name__}: {why}")
    print(f"{len(CASES) - failed} passed, {failed} failed")
    return 1 if failed else 0


if __name__ == "__main__":
    sys.exit(main())
