#!/usr/bin/env python3
"""Tries `listen`, `call` and `http` as processes, with partners and callers that this script plays over sockets.

    checks/scenarios/sockets.py

Some of the callers are slow, silent, gone, or send on after the end. Each case has a port and a database of its own, and all run in
parallel, so it takes some twenty seconds. The last line is `N passed, M failed`.

Shows: `listen`, `call` and `http` as processes: callers who are slow, silent, gone or reset. 1 MiB after the station's ESID; 200 connections; heads
in pieces. A port in use; no descriptor for a caller, for the database of a partner or of a request; requests that open no database. SIGTERM within
a session; a service that is suspended again and again; an operator while the services run
"""

import contextlib
import fcntl
import re
import resource
import signal
import socket
import struct
import subprocess
import sys
import tempfile
import threading
import time
from concurrent.futures import ThreadPoolExecutor
from pathlib import Path

sys.path.insert(0, str(Path(__file__).resolve().parents[1] / "lib"))

import acts
import oftp
import row_files
import tables
from program import PROGRAM, ROOT
from ready import ready_to_read
from services import BOOK, CARMAKER, LONG, NotTried, Service, Wrong, expect, free_port, port_of_ipv6, rest_of

# Where SQLite's locks on a database file are: the pending, the reserved and the shared ones.
LOCKS = (1 << 30, 512)
# A busy host has stopped all of this for nine seconds. What needs no wait may take this many seconds, and no partner that isn't silent is
# given up within them.
SOON = 25
PATIENT = "12"
GREATEST = {"buffer": "16384", "credit": "99"}


def row_of(name):
    return row_files.Row(row_files.ROWS / f"{name}.row")


def steps_of(row):
    """The steps of a row's first session, and the line for its end."""
    session = row_of(row).sessions()[0]
    return session.steps, session.end[1]


def expect_left(database, *rows):
    """The database has these rows, each of other tables, and nothing else."""
    both, left = row_files.Remains(), tables.read(database)
    both.left = {table: entries for row in rows for table, entries in row.left.items()}
    expect(len(both.left), sum(len(row.left) for row in rows), "tables of which a row says what is left")
    expect((tables.unfit(left), acts.check_left(both, left)), (None, None), "what is left")


def receive(connection, size):
    """This many octets, or those before the end."""
    octets = b""
    while len(octets) < size:
        piece = connection.recv(size - len(octets))
        if not piece:
            break
        octets += piece
    return octets


def converse(connection, steps):
    """Plays the partner's side of a session, and closes."""
    with connection:
        for side, octets in steps:
            if side == "in":
                connection.sendall(octets)
            else:
                expect(receive(connection, len(octets)), octets, "the station sent")
        expect(rest_of(connection), b"", "behind its last answer")


def play(service, row, host="127.0.0.1"):
    """A session of a row with the service, and the line for it."""
    steps, end = steps_of(row)
    converse(service.caller(host), steps)
    expect(service.line() + "\n", end, "the line")


# ---- listen


def sessions_one_after_another(room):
    """Each line is printed before the next session begins; the port is free again at once."""
    with Service(room, "listen", "--sessions", "2") as service:
        play(service, "receiving/file_in_one_session")
        play(service, "opening/wrong_password")
        service.ends()
    with Service(room, "listen", port=service.port) as again:
        play(again, "opening/unknown_code")
        again.ends()


def rows_over_loopback(room):
    """Two callers at once, which send all that two rows have and then nothing more. Each reads what its row has, and the tables are those of
    both."""
    rows = [row_of("receiving/empty_file"), row_of("listening/repeated_end_response")]
    with Service(room, "listen", "--sessions", "2") as service:
        callers = [service.caller() for _ in rows]
        for caller, row in zip(callers, rows):
            caller.sendall(row.sessions()[0].joined("in"))
            caller.shutdown(socket.SHUT_WR)
        for caller, row in zip(callers, rows):
            with caller:
                expect(rest_of(caller), row.sessions()[0].joined("out"), f"{row.name}: the station sent")
            expect(service.line() + "\n", row.sessions()[0].end[1], "the line")
        service.ends()
        expect_left(service.database, *rows)


def many_connections(room):
    steps, end = steps_of("opening/wrong_password")
    with Service(room, "listen", "--sessions", "200") as service:
        for _ in range(200):
            converse(service.caller(), steps)
            expect(service.line() + "\n", end, "the line")
        service.ends()


def octet_each_two_seconds(room):
    """A slow partner isn't silent, although all its octets together take longer than the timeout (`--patience`)."""
    steps, end = steps_of("opening/wrong_password")
    with Service(room, "listen", "--patience", PATIENT) as service:
        caller = service.caller()
        expect(receive(caller, len(steps[0][1])), steps[0][1], "the greeting")
        for place in range(8):
            caller.sendall(steps[1][1][place : place + 1])
            time.sleep(2)
        converse(caller, [("in", steps[1][1][8:]), steps[2]])
        expect(service.line() + "\n", end, "the line")
        service.ends()


def silent_partner(room):
    with Service(room, "listen", "--patience", PATIENT, "--sessions", "2") as service:
        begin = time.monotonic()
        with service.caller() as caller:
            expect(service.fault(), "fault: 1 read", "the line")
            if not int(PATIENT) - 0.5 <= time.monotonic() - begin <= int(PATIENT) + SOON:
                raise Wrong(f"it waited {time.monotonic() - begin:.1f} s")
            expect(rest_of(caller), steps_of("opening/wrong_password")[0][0][1], "the greeting")
        play(service, "receiving/one_octet")
        service.ends()


def who_reads_nothing(room, within=contextlib.nullcontext):
    """The station has a file for a partner, which answers the offer and then reads nothing."""
    book = room / "book"
    book.write_text(BOOK.read_text().replace("buffer = 128", "buffer = 16384").replace("credit = 2", "credit = 99"))
    file = room / "file"
    file.write_bytes(bytes(1 << 21))
    with Service(room, "listen", "--patience", PATIENT, book=book) as service:
        service.submit(file)
        with service.caller(is_narrow=True) as caller:
            opening = oftp.spell("SSID", {"code": CARMAKER, "password": "CARPW", "mode": "B", **GREATEST})
            for command in (opening, b"R", oftp.spell("SFPA", {"count": "0"})):
                caller.sendall(oftp.frame(command))
            with within(service.program):
                expect(service.fault(), "fault: 2 write", "the line")
        service.ends()


def partner_that_reads_nothing(room):
    who_reads_nothing(room)


@contextlib.contextmanager
def suspended(program):
    """The program is suspended for a moment twice a second."""
    is_over = threading.Event()

    def suspend():
        while not is_over.wait(0.5):
            program.send_signal(signal.SIGSTOP)
            time.sleep(0.02)
            program.send_signal(signal.SIGCONT)

    suspending = threading.Thread(target=suspend)
    suspending.start()
    try:
        yield
    finally:
        is_over.set()
        suspending.join()


def suspended_again_and_again(room):
    """A read or a write that is interrupted has no more time than one that isn't."""
    with Service(room, "listen", "--patience", "2") as service, service.caller() as caller:
        caller.sendall(oftp.frame(oftp.spell("SSID", {"code": CARMAKER, "password": "CARPW", "mode": "B", **GREATEST})))
        with suspended(service.program):
            expect(service.fault(), "fault: 1 read", "the line")
        service.ends()
    who_reads_nothing(room, suspended)


def callers_who_leave(room):
    """One leaves at once, one within a session, and one by a reset; then a session is served."""
    steps, _ = steps_of("receiving/one_octet")
    with Service(room, "listen", "--sessions", "4") as service:
        service.caller().close()
        if service.either() not in ("end: input", "fault: 1 read", "fault: 2 write"):
            raise Wrong("the line of one who left at once")
        with service.caller() as caller:
            receive(caller, len(steps[0][1]))
            caller.sendall(steps[1][1][:10])
            caller.shutdown(socket.SHUT_WR)
            expect(rest_of(caller), b"", "behind the greeting")
        expect(service.line(), "end: input", "the line of one who left")
        caller = service.caller()
        receive(caller, len(steps[0][1]))
        caller.setsockopt(socket.SOL_SOCKET, socket.SO_LINGER, struct.pack("ii", 1, 0))
        caller.close()
        expect(service.fault(), "fault: 1 read", "the line of one who reset")
        play(service, "receiving/one_octet")
        service.ends()


def octets_after_the_end(room):
    """What is sent after the station's ESID doesn't prevent the partner from reading it. A host that stalls within the five seconds in which the
    station drops it resets the connection, so there is one more try."""
    try:
        sends_on_after_the_end(room)
    except ConnectionError:
        sends_on_after_the_end(room)


def sends_on_after_the_end(room):
    steps, end = steps_of("opening/wrong_password")
    with Service(room, "listen") as service:
        with service.caller() as caller:
            caller.sendall(steps[1][1] + bytes(1 << 20))
            time.sleep(0.5)
            expect(rest_of(caller), steps[0][1] + steps[2][1], "the station sent")
        expect(service.line() + "\n", end, "the line")
        service.ends()


def partner_who_stays_after_the_end(room):
    """A partner that doesn't close holds the station for a bounded time."""
    steps, end = steps_of("opening/wrong_password")
    with Service(room, "listen", "--sessions", "2", "--patience", "0") as service:
        with service.caller() as caller:
            caller.sendall(steps[1][1])
            expect(rest_of(caller), steps[0][1] + steps[2][1], "the station sent")
            begin = time.monotonic()
            expect(service.line() + "\n", end, "the line")
            if time.monotonic() - begin > 5 + SOON:
                raise Wrong(f"it stayed for {time.monotonic() - begin:.1f} s")
            play(service, "receiving/one_octet")
        service.ends()


def stopped_within_a_session(room):
    """What was answered before a SIGTERM is there."""
    steps, _ = steps_of("receiving/file_in_one_session")
    with Service(room, "listen", "--sessions", "9") as service:
        play(service, "receiving/one_octet")
        caller = service.caller()
        for side, octets in steps[:-1]:
            if side == "in":
                caller.sendall(octets.replace(b"ASN.0001", b"ASN.0002"))
            else:
                expect(receive(caller, len(octets)), octets, "the station sent")
        service.program.terminate()
        expect(rest_of(caller), b"", "behind its last answer")
        service.program.wait(LONG)
        caller.close()
        files = [(entry["dataset"], entry["state"]) for entry in tables.read(service.database)["in_file"]]
        expect(files, [("ASN.0001", "whole"), ("ASN.0002", "whole")], "the files")


def kinds_of(octets):
    """The kinds of the commands in whole frames."""
    return [oftp.read(frame[4:])[0] for frame in oftp.frames_of(octets)]


def summed(kinds):
    """Kinds of commands of one side, where DATA that follow another one are left out."""
    return [kind for before, kind in zip([None, *kinds], kinds) if (before, kind) != ("DATA", "DATA")]


def traced(room):
    """A trace has a line for each command of both directions and one for the end, with the time, but no password. DATA are summed up."""
    trace = room / "trace"
    rows = ["receiving/file_in_one_session", "opening/wrong_password"]
    with Service(room, "listen", "--sessions", "3", "--trace", trace) as service:
        for row in rows:
            play(service, row)
        with service.caller() as caller:
            caller.sendall(b"\x20\x00\x00\x05\x43")
            rest_of(caller)
        service.line()
        service.ends()
    told = trace.read_text()
    if re.search("PW|PASS", told):
        raise Wrong("a password is in the trace")
    lines = [re.fullmatch(r"20\d\d-\d\d-\d\dT\d\d:\d\d:\d\d\.\d{6}Z (?:([<>]) )?(.*)", line) for line in told.splitlines()]
    sessions = "\n".join(f"{line[1]} {line[2]}" for line in lines).split("\nNone end: ")
    expect(len(sessions), 4, "how many sessions are traced")
    for row, session in zip(rows, sessions):
        steps, _ = steps_of(row)
        for mark, side in ("<", "in"), (">", "out"):
            found = [line.split()[1].rstrip(",:") for line in session.splitlines() if line.startswith(mark)]
            expect(summed(found), summed(kinds_of(b"".join(octets for way, octets in steps if way == side))), f"{row}: {side}")
    expect("< fault at octet 0: no stream header begins so" in sessions[2], True, "the fault is told")


def no_descriptor_for_a_caller(room):
    """A caller for whom the service has no descriptor waits until there is one."""
    steps, end = steps_of("opening/wrong_password")
    with Service(room, "listen", "--sessions", "2") as service:
        caller = service.caller()
        expect(receive(caller, len(steps[0][1])), steps[0][1], "the greeting")
        before = resource.prlimit(service.program.pid, resource.RLIMIT_NOFILE)
        resource.prlimit(service.program.pid, resource.RLIMIT_NOFILE, (0, before[1]))
        converse(caller, steps[1:])
        expect(service.line() + "\n", end, "the line")
        time.sleep(1)
        resource.prlimit(service.program.pid, resource.RLIMIT_NOFILE, before)
        play(service, "receiving/one_octet")
        service.ends()


def no_descriptor_for_the_database(room):
    """Strangers who take all descriptors leave those that the database of a partner needs, who is let in."""
    steps, end = steps_of("receiving/one_octet")
    with Service(room, "listen", "--sessions", "100") as service, contextlib.ExitStack() as stack:
        partner = stack.enter_context(service.caller())
        expect(receive(partner, len(steps[0][1])), steps[0][1], "the greeting")
        before = resource.prlimit(service.program.pid, resource.RLIMIT_NOFILE)
        resource.prlimit(service.program.pid, resource.RLIMIT_NOFILE, (40, before[1]))
        strangers = [stack.enter_context(service.caller()) for _ in range(60)]
        # The last of them aren't greeted.
        expect(receive(strangers[0], len(steps[0][1])), steps[0][1], "the greeting of a stranger")
        time.sleep(1)
        expect(ready_to_read(strangers[-5:], 0), [], "whether all have a descriptor")
        converse(partner, steps[1:])
        expect(service.line() + "\n", end, "the line of the partner")
        for stranger in strangers:
            stranger.close()
        expect({service.either() for _ in strangers} - {"end: input", "fault: 1 read"}, set(), "the lines of the strangers")
        play(service, "opening/wrong_password")


def no_descriptor_at_all(room):
    """If no descriptor is left to a service, a partner who is let in waits for one, ten seconds at most. The service goes on."""
    steps, end = steps_of("receiving/one_octet")
    with Service(room, "listen", "--sessions", "2") as service:
        before = resource.prlimit(service.program.pid, resource.RLIMIT_NOFILE)
        for seconds in (11, 2):
            partner = service.caller()
            expect(receive(partner, len(steps[0][1])), steps[0][1], "the greeting")
            resource.prlimit(service.program.pid, resource.RLIMIT_NOFILE, (0, before[1]))
            partner.sendall(steps[1][1])
            time.sleep(seconds)
            expect(service.program.poll(), None, "whether it has ended")
            if seconds == 11:
                expect((service.fault(), rest_of(partner)), ("fault: 6 store 1", b""), "the fault, and what the partner gets")
            resource.prlimit(service.program.pid, resource.RLIMIT_NOFILE, before)
        converse(partner, steps[2:])
        expect(service.line() + "\n", end, "the line")
        service.ends()


def no_descriptor_for_a_reply(room):
    """Nor does that end `http`."""
    with Service(room, "http", "--requests", "2") as service:
        before = resource.prlimit(service.program.pid, resource.RLIMIT_NOFILE)
        for _ in range(2):
            with service.caller() as client:
                client.sendall(b"GET /in HT")
                time.sleep(1)
                resource.prlimit(service.program.pid, resource.RLIMIT_NOFILE, (0, before[1]))
                client.sendall(b"TP/1.1\r\n\r\n")
                time.sleep(2)
                resource.prlimit(service.program.pid, resource.RLIMIT_NOFILE, before)
                expect(rest_of(client)[:12], b"HTTP/1.1 200", "the reply")
        service.ends()


def nothing_to_print_to(room):
    """A service whose line can't be written ends, and what was answered is kept."""
    steps, _ = steps_of("receiving/one_octet")
    with open("/dev/full", "wb") as output, Service(room, "listen", "--sessions", "2", output=output) as service:
        converse(service.caller(), steps)
        service.ends(1, b"fault: 2 write\n")
        expect(tables.read(service.database)["in_file"][0]["state"], "whole", "the file")


def nothing_to_print_faults_to(room):
    """An error that can't be printed ends no service."""
    with open("/dev/full", "wb") as faults, Service(room, "listen", "--patience", PATIENT, "--sessions", "2", faults=faults) as service:
        with service.caller() as caller:
            rest_of(caller)
        play(service, "receiving/one_octet")
        service.ends()


def operator_while_it_listens(room):
    with Service(room, "listen", "--sessions", "2") as service:
        play(service, "receiving/one_octet")
        expect(service.give("release", "1").stdout, b"done: release 1\n", "release")
        expect(service.give("fetch", "1", room / "fetched").stdout, b"done: fetch 1\n", "fetch")
        expect((room / "fetched").read_bytes(), b"A", "the file")
        play(service, "opening/wrong_password")
        service.ends()


@contextlib.contextmanager
def held(database):
    """Another process, which is this script, locks the database."""
    with open(database, "r+b") as file:
        fcntl.lockf(file, fcntl.LOCK_EX, LOCKS[1], LOCKS[0])
        yield


def database_held(room):
    """A partner is sent away while another process locks the database, and the next one is served."""
    with Service(room, "listen", "--sessions", "3") as service:
        play(service, "opening/wrong_password")
        with held(service.database):
            begin = time.monotonic()
            greeting, ssid = (octets for _, octets in steps_of("receiving/one_octet")[0][:2])
            with service.caller() as caller:
                caller.sendall(ssid)
                expect(rest_of(caller), greeting, "the station sent")
            expect(service.fault(), "fault: 6 store 1", "the line")
            if not 9 <= time.monotonic() - begin <= 10 + SOON:
                raise Wrong(f"it waited {time.monotonic() - begin:.1f} s")
        play(service, "receiving/one_octet")
        service.ends()


def other_address(room):
    with Service(room, "listen", "--address", "127.0.0.2", port=free_port("127.0.0.2")) as service:
        play(service, "receiving/one_octet", "127.0.0.2")
        service.ends()


def address_of_ipv6(room):
    port = port_of_ipv6("a service at an address of it")
    with Service(room, "listen", "--address", "::1", port=port) as service:
        play(service, "opening/wrong_password", "::1")
        service.ends()


def sockets_that_fail(room):
    """A port in use, and invalid addresses; errors of the book and of the database come first."""
    with socket.socket() as taken:
        taken.bind(("127.0.0.1", 0))
        taken.listen()
        port = taken.getsockname()[1]
        for command in ("listen", "http"):
            with Service(room, command, port=port) as service:
                service.ends(1, b"fault: 8 socket\n")
        with Service(room, "listen", book=room / "none", port=port) as service:
            service.ends(1, b"fault: 7 file\n")
        with Service(room, "listen", "--address", "192.0.2.1") as service:
            service.ends(1, b"fault: 8 socket\n")
        (room / "folder").mkdir()
        (room / "folder/database").mkdir()
        with Service(room / "folder", "http", port=port) as service:
            service.ends(1, b"fault: 6 store 1\n")


# ---- call


def book_with(room, address):
    book = room / "book"
    book.write_text(BOOK.read_text().replace("127.0.0.1:3305", address))
    return book


def call(room, address, *words, partner=CARMAKER):
    words = [PROGRAM, "call", "--db", room / "database", "--book", book_with(room, address), "--partner", partner, *words]
    return subprocess.Popen(words, stdout=subprocess.PIPE, stderr=subprocess.PIPE)


def told(program):
    out, err = program.communicate(timeout=LONG)
    return program.returncode, out, err


def calls(room):
    """The station calls a partner; also one that then sends nothing, and one that closes at once."""
    steps, end = steps_of("calling/initiator_alone")
    with socket.socket() as partner:
        partner.bind(("127.0.0.1", 0))
        partner.listen()
        partner.settimeout(LONG)
        address = f"localhost:{partner.getsockname()[1]}"
        program = call(room, address)
        converse(partner.accept()[0], steps)
        expect(told(program), (0, end.encode(), b""), "the call")
        program = call(room, address, "--patience", "1")
        with partner.accept()[0]:
            expect(told(program), (1, b"", b"fault: 1 read\n"), "the call of a silent partner")
        program = call(room, address)
        partner.accept()[0].close()
        expect(told(program), (0, b"end: input\n", b""), "the call of one who left")
    expect(told(call(room, address)), (1, b"", b"fault: 8 socket\n"), "the call of nobody")
    expect(told(call(room, "nowhere")), (1, b"", b"fault: 8 socket\n"), "the call of no address")
    expect(told(call(room, address, partner="O0099OTHER")), (1, b"refused: 2 unknown\n", b""), "the call of a stranger")


def row_over_loopback(room):
    """The station calls a partner that sends all of a row at once. It sends what the row has, and the tables are those of the row."""
    row = row_of("sending/three_octets_out")
    *before, session = row.acts
    for act in before:
        expect(acts.play_act(acts.in_one_piece, act, room, room / "database"), None, "before the call")
    with socket.create_server(("127.0.0.1", 0)) as partner:
        partner.settimeout(LONG)
        program = call(room, f"127.0.0.1:{partner.getsockname()[1]}")
        with partner.accept()[0] as caller:
            caller.sendall(session.joined("in"))
            caller.shutdown(socket.SHUT_WR)
            expect(rest_of(caller), session.joined("out"), "the station sent")
        expect(told(program), (0, session.end[1].encode(), b""), "the call")
    expect_left(room / "database", row)


def partner_who_does_not_answer(room):
    """A partner's machine leaves a connection without an answer: the call is given up in time, and locks no database until then."""
    with socket.socket() as partner, socket.socket() as other:
        partner.bind(("127.0.0.1", 0))
        # With one connection waiting to be accepted the queue is full, and the next one isn't answered.
        partner.listen(0)
        other.connect(partner.getsockname())
        begin = time.monotonic()
        with call(room, f"127.0.0.1:{partner.getsockname()[1]}", "--patience", "15") as program:
            time.sleep(1)
            words = [PROGRAM, "report", "--db", room / "database", "out"]
            report = subprocess.run(words, capture_output=True, timeout=LONG, check=False)
            expect((report.returncode, report.stderr, program.poll()), (0, b"", None), "a report while it connects")
            expect(told(program), (1, b"", b"fault: 8 socket\n"), "the call of one who doesn't answer")
        took = time.monotonic() - begin
        if not 15 <= took < 15 + SOON:
            raise Wrong(f"the call took {took:.1f} s")


def two_programs(room):
    """A car maker calls a supplier, which has a file for it."""
    port = free_port()
    supplier, carmaker = room / "supplier", room / "carmaker"
    books = {}
    for station in (supplier, carmaker):
        station.mkdir()
        books[station] = station / "book"
        text = (ROOT / "examples" / station.name / "book.toml").read_text()
        books[station].write_text(text.replace("127.0.0.1:3306", f"127.0.0.1:{port}"))
    file = room / "file"
    file.write_bytes(row_files.content(0, 2500))
    with Service(supplier, "listen", book=books[supplier], port=port) as service:
        service.submit(file)
        words = ["--db", carmaker / "database", "--book", books[carmaker], "--partner", "O0013SUPPLIER"]
        while True:
            done = subprocess.run([PROGRAM, "call", *words], capture_output=True, timeout=LONG, check=False)
            if done.stderr != b"fault: 8 socket\n":
                break
            time.sleep(0.05)
        expect((done.returncode, done.stderr), (0, b""), f"the call, which told {done.stdout!r}")
        service.line()
        service.ends()
    fetched = room / "fetched"
    words = [PROGRAM, "fetch", "--db", carmaker / "database", "1", fetched]
    expect(subprocess.run(words, capture_output=True, timeout=LONG, check=False).stdout, b"done: fetch 1\n", "fetch")
    expect(fetched.read_bytes(), file.read_bytes(), "the file")


# ---- http


def ask(service, *pieces):
    """The reply to a request that comes in these pieces. The caller keeps its own side open."""
    with service.caller() as caller:
        for piece in pieces:
            caller.sendall(piece)
            time.sleep(0.01)
        return rest_of(caller)


def expect_reply(reply, status, body):
    head, _, rest = reply.partition(b"\r\n\r\n")
    lines = head.split(b"\r\n")
    expect(lines[0].split()[1:2], [status], "the status")
    if b"Connection: close" not in lines or f"Content-Length: {len(rest)}".encode() not in lines:
        raise Wrong(f"the head {head!r}")
    if body is not None:
        expect(rest, body, "the body")


def requests(room):
    get = b"GET /in HTTP/1.1\r\nHost: a\r\n\r\n"
    with Service(room, "http", "--requests", "9") as service:
        expect_reply(ask(service, get), b"200", b"[]")
        expect_reply(ask(service, *(bytes([octet]) for octet in get)), b"200", b"[]")
        expect_reply(ask(service, b"HEAD /in HTTP/1.1\r\n\r\n"), b"405", None)
        expect_reply(ask(service, b"GET /in HTTP/1.1\r\nConnection: keep-alive\r\n\r\n" + get), b"200", b"[]")
        expect_reply(ask(service, b"GET /in/7 HTTP/1.0\r\n\r\n"), b"404", None)
        expect_reply(ask(service, b"GET /in HTTP/1.1\r\nX: " + b"a" * 9000), b"400", None)
        # A body of 1 MiB: the request is too long if its head comes with more of it than a request may have.
        reply = ask(service, b"POST /in HTTP/1.1\r\nContent-Length: 1048576\r\n\r\n" + bytes(1 << 20))
        expect_reply(reply, b"400" if b" 400 " in reply else b"405", None)
        with service.caller() as caller:
            caller.sendall(get[:-2])
            caller.shutdown(socket.SHUT_WR)
            expect(rest_of(caller), b"", "the reply to half a head")
        caller = service.caller()
        caller.setsockopt(socket.SOL_SOCKET, socket.SO_LINGER, struct.pack("ii", 1, 0))
        caller.close()
        service.ends()


def slow_request(room):
    """A request has ten seconds, however slowly it arrives."""
    with Service(room, "http", "--requests", "2") as service:
        begin = time.monotonic()
        with service.caller() as caller:
            try:
                while time.monotonic() - begin < 10 + SOON:
                    caller.sendall(b"G")
                    time.sleep(0.5)
                raise Wrong("it waited on")
            except ConnectionError:
                pass
            if time.monotonic() - begin < 9:
                raise Wrong(f"it waited {time.monotonic() - begin:.1f} s")
        expect_reply(ask(service, b"GET /out HTTP/1.1\r\n\r\n"), b"200", b"[]")
        service.ends()


def listing_of_a_held_database(room):
    """A request gets no reply while another process locks the database, and the next one gets its reply."""
    get = b"GET /in HTTP/1.1\r\n\r\n"
    with Service(room, "http", "--requests", "3") as service:
        expect_reply(ask(service, get), b"200", b"[]")
        with held(service.database):
            expect(ask(service, get), b"", "the reply")
            expect(service.fault(), "fault: 6 store 1", "the line")
        expect_reply(ask(service, get), b"200", b"[]")
        service.ends()


def requests_that_ask_no_database(room):
    """Octets that aren't a request, a target without a route and another method on a list are answered while another process locks the database. So
    they are answered without it."""
    with Service(room, "http", "--requests", "11") as service:
        expect_reply(ask(service, b"GET /out/1 HTTP/1.1\r\n\r\n"), b"404", None)
        with held(service.database):
            expect_reply(ask(service, b"GET /in HTTP/2.0\r\n\r\n"), b"400", None)
            expect_reply(ask(service, b"GET /in HTTP/1.1\r\nX: " + b"a" * 9000), b"400", None)
            for target in (b"/", b"/inn", b"/in/01", b"/in/1x", b"/out/12345678", b"/in/1?all"):
                expect_reply(ask(service, b"GET " + target + b" HTTP/1.1\r\n\r\n"), b"404", None)
            expect_reply(ask(service, b"POST /responses HTTP/1.1\r\n\r\n"), b"405", None)
        expect_reply(ask(service, b"POST /in/1 HTTP/1.1\r\n\r\n"), b"404", None)
        service.ends()


def listing_while_it_listens(room):
    """Both services share one database."""
    with Service(room, "listen", "--sessions", "1") as listener, Service(room, "http", "--requests", "1") as lister:
        play(listener, "receiving/one_octet")
        reply = ask(lister, b"GET /in/1 HTTP/1.1\r\n\r\n")
        expect_reply(reply, b"200", None)
        if b"ASN.0001" not in reply:
            raise Wrong(f"it shows {reply!r}")
        listener.ends()
        lister.ends()


CASES = [
    sessions_one_after_another,
    rows_over_loopback,
    many_connections,
    octet_each_two_seconds,
    silent_partner,
    partner_that_reads_nothing,
    suspended_again_and_again,
    callers_who_leave,
    octets_after_the_end,
    partner_who_stays_after_the_end,
    stopped_within_a_session,
    traced,
    no_descriptor_for_a_caller,
    no_descriptor_for_the_database,
    no_descriptor_at_all,
    no_descriptor_for_a_reply,
    nothing_to_print_to,
    nothing_to_print_faults_to,
    operator_while_it_listens,
    database_held,
    other_address,
    address_of_ipv6,
    sockets_that_fail,
    calls,
    row_over_loopback,
    partner_who_does_not_answer,
    two_programs,
    requests,
    slow_request,
    listing_of_a_held_database,
    requests_that_ask_no_database,
    listing_while_it_listens,
]


def tried(case):
    """Runs a case. It returns its result: `as it must be`, why it isn't tried, or why it failed, and whether it failed."""
    with tempfile.TemporaryDirectory() as room:
        try:
            case(Path(room))
        except NotTried as why:
            return f"NOT TRIED without {why}", False
        except (Wrong, OSError, subprocess.SubprocessError) as why:
            return f"{case.__name__.replace('_', ' ')}: {type(why).__name__}: {why}", True
    return f"{case.__name__.replace('_', ' ')}: as it must be", False


def main():
    with ThreadPoolExecutor(max_workers=len(CASES)) as runners:
        tries = list(runners.map(tried, CASES))
    print("\n".join(told for told, _ in tries))
    failed = sum(has_failed for _, has_failed in tries)
    print(f"{sum(told.endswith('as it must be') for told, _ in tries)} passed, {failed} failed")
    return 1 if failed else 0


if __name__ == "__main__":
    sys.exit(main())
