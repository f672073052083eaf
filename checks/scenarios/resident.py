#!/usr/bin/env python3
"""Tries `run` as a process: partners, commands and false clients, all at its sockets.

    checks/scenarios/resident.py [WORD ..]       all cases, or those whose names have one of these words

Each case has a port and a database of its own, and all run at once, so it takes some forty seconds. The last line is `N passed, M failed`.

Shows: `run` as a process. Its lines; the order of its faults. Each command asks it, 40 at once and with 64 MiB, also one that comes while it opens
its database. A fetch is answered by octets, and no file is made. A stale socket, its mode, a file in its place, a long path, a link. Two stations
over one database, one that waits for it, and four that begin at once. Requests of commands that are none, cut, dripping or never taken; 100 silent
commands and callers. 90 who ask by HTTP, of whom 64 are kept, and a reply that is longer than the buffers, and isn't read. The hosts that may be
named, also at other addresses. At each of its three sockets: what is meant for another one, zeros, anything at all, halves and resets. There are 20
who drip, and 80 who are silent. Callers who aren't let in, one who begins the longest of frames, and 140 with a partner behind them. One who is let
in after the long session of another. A partner who falls silent, one whose pauses are long together, one beside syncs that take long, one who takes
no octet of his file, partners who don't close. Look-ups between two halves of a frame, also of an outgoing file. What changes something, copies or
calls waits for the end of a session, longer than ten seconds. A backup, what is done while its command copies, and one that copies too long or is
gone. Calls of a partner who is there, leaves, is silent, isn't there, doesn't answer, or calls itself at the same moment. Two stations and three in
a circle whose calls meet, by commands and by their clocks. Calls by the clock, of several partners and for a file that isn't confirmed; a trace.
SIGKILL before each command is heard, within a call, and among 8 who submit and 8 who fetch, release and refuse; SIGTERM within a session. Answers
that end at each octet or are none
"""

import contextlib
import os
import re
import resource
import shutil
import signal
import socket
import stat
import struct
import subprocess
import sys
import tempfile
import threading
import time
from concurrent.futures import ThreadPoolExecutor
from pathlib import Path

sys.path.insert(0, str(Path(__file__).resolve().parents[1] / "lib"))

import filled
import holding
import one_file
import row_files
import staying
import tables
from channel import CONTENT, KINDS, OUTPUT, ended, request_of, spelled
from passage import Passage
from program import PROGRAM, ROOT
from ready import ready_to_read
from services import BOOK, CARMAKER, LONG, NotTried, Resident, Service, Wrong, answer_to, expect, free_port, port_of_ipv6, rest_of
from shims import compile_library

# What may be added to any time on a machine with other work.
SOON = 25
# The seconds of a patience or an admission, if what is done within it takes no time. A machine with other work has stopped all of this for nine
# seconds.
PATIENT = 12
READY = b"1"
# The KiB that may be made before a partner reads: 2 MiB, 32 DATA of 16,384 octets, and room to copy both.
MOST_AHEAD = 12 * 1024
IDENTITY = ["--dataset", "INV.1", "--date", "20240201", "--time", "0800000001", "--to", CARMAKER, "--format", "U"]


def session_of(name):
    return row_files.Row(row_files.ROWS / f"{name}.row").sessions()[0]


ONE_OCTET = session_of("receiving/one_octet")
NOTHING_WAITING = session_of("listening/nothing_waiting")
WRONG = session_of("opening/wrong_password")
GREETING, SSID = (octets for _, octets in NOTHING_WAITING.steps[:2])
# What the station sends to a partner who is let in, up to its own SSID.
OPENED = b"".join(octets for side, octets in NOTHING_WAITING.steps[:3] if side == "out")


def told(program, limit=LONG):
    out, err = program.communicate(timeout=limit)
    return program.returncode, out, err


def given(service, command, *words):
    """What a command over the database of the service comes to."""
    done = service.give(command, *words)
    return done.returncode, done.stdout, done.stderr


def play(service, session, code=CARMAKER):
    """Plays a session, and expects its line."""
    with service.caller() as caller:
        caller.sendall(session.joined("in"))
        caller.shutdown(socket.SHUT_WR)
        expect(rest_of(caller), session.joined("out"), "the station sent")
    expect(service.line() + "\n", f"session {code} in: {session.end[1]}", "the line")


def within(begin, most, what):
    took = time.monotonic() - begin
    if took > most + SOON:
        raise Wrong(f"{what} took {took:.1f} s")


def lines(room):
    """A line for each session, with the code of whoever is let in; and the station ends after so many jobs."""
    with Resident(room, "--jobs", "5") as service:
        play(service, ONE_OCTET)
        play(service, WRONG, "-")
        expect(given(service, "report", "in")[0], 0, "a report")
        expect(given(service, "release", "1"), (0, b"done: release 1\n", b""), "a release")
        play(service, session_of("opening/unknown_code"), "-")
        service.ends()
        expect(service.socket.exists(), False, "whether the socket is left")


def operator_beside_it(room):
    """An operator's commands ask it, and the database has what they did."""
    file = room / "file"
    file.write_bytes(bytes(range(256)) * 1000)
    with Resident(room) as service:
        play(service, ONE_OCTET)
        expect(given(service, "init"), (0, b"done: init\n", b""), "init")
        expect(given(service, "submit", *IDENTITY, file), (0, b"done: submit 1\n", b""), "submit")
        expect(given(service, "submit", *IDENTITY, file), (1, b"refused: 1 duplicate\n", b""), "submit again")
        expect(given(service, "fetch", "1", room / "fetched"), (0, b"done: fetch 1\n", b""), "fetch")
        expect(given(service, "fetch", "2", room / "none"), (1, b"refused: 2 unknown\n", b""), "fetch of none")
        expect(given(service, "release", "1"), (0, b"done: release 1\n", b""), "release")
        expect(given(service, "refuse", "1", "12", "no"), (1, b"refused: 3 state\n", b""), "refuse")
        report = given(service, "report", "out")
        expect((report[0], report[1].count(b"\n")), (0, 2), "the report")
        expect((room / "fetched").read_bytes(), b"A", "the file")
    expect(tables.unfit(tables.read(service.database)), None, "the tables")
    expect(len(tables.read(service.database)["out_file"]), 1, "how many files were submitted")


def largest_file(room):
    """A file of 64 MiB goes there, and none that is larger."""
    file, larger = room / "file", room / "larger"
    file.write_bytes(bytes(1 << 26))
    larger.write_bytes(bytes((1 << 26) + 1))
    with Resident(room) as service:
        # On a machine with other work this takes a minute.
        expect(told(started(service, "submit", *IDENTITY, larger), LONG * 10), (1, b"refused: 4 limit\n", b""), "submit of too much")
        expect(told(started(service, "submit", *IDENTITY, file), LONG * 10), (0, b"done: submit 1\n", b""), "submit")


def many_at_once(room):
    """Commands that come at once are done one after another, each once."""
    file = room / "file"
    file.write_bytes(b"A")
    with Resident(room) as service:
        words = [[f"--dataset=INV.{number}", *IDENTITY[2:], file] for number in range(40)]
        with ThreadPoolExecutor(max_workers=40) as runners:
            done = list(runners.map(lambda given_words: given(service, "submit", *given_words), words))
        expect(sorted(done), sorted((0, f"done: submit {number}\n".encode(), b"") for number in range(1, 41)), "the lines")


def stale_socket(room):
    """The socket of a station that was killed keeps nobody away, and the next one takes it over. Nobody else may connect to it."""
    with Resident(room) as service:
        mode = os.stat(service.socket).st_mode
        expect((stat.S_ISSOCK(mode), stat.S_IMODE(mode)), (True, 0o600), "the socket's file")
    expect(service.socket.exists(), True, "whether a socket is left")
    expect(given(service, "report", "in")[0], 0, "a report without a station")
    with Resident(room) as again:
        expect(given(again, "report", "in")[0], 0, "a report")
        again.program.send_signal(signal.SIGTERM)
        again.program.wait(LONG)
    expect(given(again, "init"), (0, b"done: init\n", b""), "init without a station")


def file_in_the_place_of_the_socket(room):
    """A file that is no socket stays, and the station doesn't start."""
    (room / "database-station").write_bytes(b"A")
    service = Resident(room)
    service.ends(1, b"fault: 8 socket\n")
    expect((room / "database-station").read_bytes(), b"A", "the file")


def two_stations(room):
    """A second station over the database gives up, and takes nothing away from the first."""
    with Resident(room) as service:
        begin = time.monotonic()
        Resident(room).ends(1, b"fault: 6 store 1\n")
        within(begin, 10, "the second station")
        expect(given(service, "report", "in")[0], 0, "a report")
        play(service, NOTHING_WAITING)


def faults_in_order(room):
    """The book, the database, the trace, and then the sockets."""
    port = free_port()
    with socket.create_server(("127.0.0.1", port)):
        (room / "folder").mkdir()
        (room / "folder/database").mkdir()
        faulty = room / "faulty"
        faulty.write_text("no book")
        Resident(room / "folder", "--trace", room / "none/trace", book=faulty, port=port).ends(1, b"fault: 5 book 1\n")
        Resident(room / "folder", "--trace", room / "none/trace", port=port).ends(1, b"fault: 6 store 1\n")
        Resident(room, "--trace", room / "none/trace", port=port).ends(1, b"fault: 7 file\n")
        Resident(room, port=port).ends(1, b"fault: 8 socket\n")
        Resident(room, "--http-port", str(port)).ends(1, b"fault: 8 socket\n")
    expect((room / "database-station").exists(), False, "whether a socket is there")


def long_path(room):
    """A path longer than a socket's address has room for, found through a link, too."""
    folder = room / ("long" * 40)
    folder.mkdir()
    with Resident(folder) as service:
        expect(given(service, "init"), (0, b"done: init\n", b""), "init")
        link = room / "link"
        link.symlink_to(service.database)
        done = subprocess.run([PROGRAM, "report", "--db", link, "in"], capture_output=True, timeout=LONG, check=False)
        expect((done.returncode, done.stderr), (0, b""), "a report through a link")


def long_name(room):
    """The longest name of a database behind which the socket's has room in an address, the next longer one, and one of 200 octets."""
    for length in (80, 81, 200):
        named, folder, file = room / ("n" * length), room / str(length), room / "file"
        folder.mkdir()
        file.write_bytes(b"A")
        subprocess.run([PROGRAM, "init", "--db", named], stdout=subprocess.DEVNULL, timeout=LONG, check=True)
        (folder / "database").symlink_to(named)
        socket_of = Path(f"{named}-station") if length <= 80 else room / f".oftp_station_of_{named.stat().st_ino}"
        with Resident(folder) as service:
            expect(stat.S_IMODE(socket_of.stat().st_mode), 0o600, f"the mode of the socket at {length}")
            play(service, ONE_OCTET)
            expect(given(service, "submit", *IDENTITY, file), (0, b"done: submit 1\n", b""), "submit")
            expect(given(service, "fetch", "1", folder / "fetched"), (0, b"done: fetch 1\n", b""), "fetch")
            expect(given(service, "backup", folder / "copy"), (0, b"done: backup\n", b""), "backup")
        with Resident(folder) as service:
            expect(given(service, "release", "1"), (0, b"done: release 1\n", b""), "release by a station that takes over the socket")
        expect(given(service, "report", "in")[0], 0, "a report beside no station")
        socket_of.unlink()
        for words in (("fetch", "1", socket_of), ("backup", socket_of)):
            expect(given(service, *words), (1, b"", b"fault: 7 file\n"), f"{words[0]} under the name of the socket at {length}")
            expect(socket_of.exists(), False, "whether a file has that name")


def second_station_takes_over(room):
    """A station that waits for the database of another one has it once that one is killed, with its socket. So it does under another name of the
    database too."""
    link = room / "link"
    with Resident(room) as first:
        link.symlink_to(first.database)
        words = [PROGRAM, "run", "--db", link, "--book", BOOK, "--port", str(free_port())]
        with subprocess.Popen(words, stdout=subprocess.PIPE, stderr=subprocess.PIPE) as second:
            time.sleep(1)
            expect(given(first, "report", "in")[0], 0, "a report while another station waits")
            expect(second.poll(), None, "whether it waits")
            first.program.kill()
            try:
                expect(second.stdout.readline(), b"ready\n", "the first line of the second station")
                expect(given(first, "init"), (0, b"done: init\n", b""), "init")
                expect(Path(f"{link}-station").exists(), False, "whether a socket is beside the link")
            finally:
                second.kill()


def two_at_once(room):
    """Of stations that begin at once over one database one serves, and the others give up."""
    stations = [Resident(room) for _ in range(4)]
    try:
        until = time.monotonic() + LONG
        while sum(station.program.poll() is None for station in stations) > 1 and time.monotonic() < until:
            time.sleep(0.02)
        serving = [station for station in stations if station.program.poll() is None]
        expect(len(serving), 1, "how many serve")
        expect(serving[0].line(), "ready", "the first line")
        for station in stations:
            if station not in serving:
                station.ends(1, b"fault: 6 store 1\n")
        expect(given(serving[0], "report", "in")[0], 0, "a report")
        play(serving[0], NOTHING_WAITING)
    finally:
        for station in stations:
            station.program.kill()
            station.program.wait()


def commands_that_come_while_it_opens(room):
    """Commands that come once the station has the database locked, and before it listens, ask it as soon as it does."""
    file, hidden = room / "file", room / "hidden"
    file.write_bytes(b"A")
    with Resident(room) as service, contextlib.ExitStack() as stack:
        service.socket.rename(hidden)
        asked = [started(service, *words) for words in (["init"], ["report", "in"], ["submit", *IDENTITY, file], ["fetch", "1", room / "fetched"], ["backup", room / "to"])]
        asked.append(call(service, BOOK))
        for program in asked:
            stack.enter_context(program)
        time.sleep(1)
        expect([program.poll() for program in asked], [None] * 6, "whether they wait")
        hidden.rename(service.socket)
        init, report, submit, fetch, backup, called = (told(program) for program in asked)
        expect(init, (0, b"done: init\n", b""), "init")
        expect((report[0], report[2]), (0, b""), "the report")
        expect(submit, (0, b"done: submit 1\n", b""), "submit")
        expect(fetch, (1, b"refused: 2 unknown\n", b""), "fetch")
        expect(backup, (0, b"done: backup\n", b""), "backup")
        expect(called, (1, b"", b"fault: 8 socket\n"), "the call of nobody")


def false_clients(room):
    """What is no request is closed without an answer and without a change, and so is a request that no command makes."""
    for_nothing = [
        struct.pack(">I", 65),
        struct.pack(">II", 1, 83886081),
        spelled(),
        spelled(b""),
        spelled(bytes([12])),
        spelled(b"init"),
        spelled(bytes([KINDS["init"]]), b""),
        spelled(bytes([KINDS["fetch"]]), bytes(7)),
        spelled(bytes([KINDS["report"]]), bytes([5])),
        spelled(bytes([KINDS["outgoing"]]), b"\xff"),
        spelled(bytes([KINDS["backup"]])),
        request_of("init") + b"A",
    ]
    with Resident(room) as service:
        for octets in for_nothing:
            with service.client() as client:
                expect(client.recv(1), READY, "the first octet")
                client.sendall(octets)
                with contextlib.suppress(ConnectionResetError):
                    expect(client.recv(1), b"", f"what answers {octets[:40]!r}")
        with service.client() as client:
            client.recv(1)
            client.sendall(request_of("init"))
            expect(answer_to(client), (b"", "done: init"), "the answer to init")
        expect(given(service, "report", "in")[0], 0, "a report")


def half_requests(room):
    """A command that is gone within its request asks for nothing."""
    request = request_of("submit", *IDENTITY, book=BOOK.read_bytes(), content=b"A")
    with Resident(room) as service:
        for size in (0, 3, 4, 100, len(request) - 1):
            with service.client() as client:
                client.recv(1)
                client.sendall(request[:size])
        expect(given(service, "report", "out")[1].count(b"\n"), 1, "lines of the report")
        with service.client() as client:
            client.recv(1)
            for place in range(0, len(request), 7):
                client.sendall(request[place : place + 7])
            expect(answer_to(client), (b"", "done: submit 1"), "the answer to a request that drips")


def octets_of_a_fetch(room):
    """A fetch is answered by the file's octets, and the station makes no file under the name in the request."""
    with Resident(room, cwd=room) as service:
        play(service, ONE_OCTET)
        with service.client() as client:
            expect(client.recv(1), READY, "the first octet")
            client.sendall(request_of("fetch", "1"))
            expect(answer_to(client), (b"A", "done: fetch 1"), "the answer")
    expect(sorted(path.name for path in room.iterdir()), ["database", "database-station", "database-wal"], "the files")


def silent_clients(room):
    """As many silent clients as there are places, on either socket, delay neither a command nor a partner."""
    with Resident(room, "--admission", "600") as service, contextlib.ExitStack() as stack:
        for _ in range(100):
            stack.enter_context(service.client())
            stack.enter_context(service.caller())
        begin = time.monotonic()
        expect(given(service, "report", "in")[0], 0, "a report")
        within(begin, 0, "a report")
        begin = time.monotonic()
        play(service, NOTHING_WAITING)
        within(begin, 0, "a session")


def clients_that_read_nothing(room):
    """Commands that don't take their answers, each of a mebibyte, delay nobody while those take less than 64 MiB. One more look-up waits for
    those who take nothing for half a minute."""
    book = room / "book"
    book.write_text(one_file.BOOK.format(buffer=16384, credit=99))
    with Resident(room, book=book) as service, contextlib.ExitStack() as stack:
        with service.caller() as caller:
            caller.sendall(one_file.session(one_file.MEBI, 16384, 99))
            caller.shutdown(socket.SHUT_WR)
            rest_of(caller)
        expect(service.line(), f"session {CARMAKER} in: end: partner 00", "the line")
        hold_answers(service, stack, 63)
        begin = time.monotonic()
        expect(given(service, "report", "in")[0], 0, "a report")
        play(service, NOTHING_WAITING)
        within(begin, 0, "a report and a session")
        hold_answers(service, stack, 40)
        expect(given(service, "fetch", "1", room / "fetched"), (0, b"done: fetch 1\n", b""), "fetch")
        within(begin, 30, "a fetch")
        expect((room / "fetched").read_bytes(), b"A" * one_file.MEBI, "the file")


def clients_that_leave_the_end(room):
    """Commands that take all of an answer of eight mebibytes but its end cost the station what is left, and not the whole answer each."""
    book, size = room / "book", 8 * one_file.MEBI
    book.write_text(one_file.BOOK.format(buffer=16384, credit=99))
    with Resident(room, book=book) as service, contextlib.ExitStack() as stack:
        with service.caller() as caller:
            caller.sendall(one_file.session(size, 16384, 99))
            caller.shutdown(socket.SHUT_WR)
            rest_of(caller)
        expect(service.line(), f"session {CARMAKER} in: end: partner 00", "the line")
        leave_the_end(service, stack, size)
        first = memory_of(service)
        for _ in range(7):
            leave_the_end(service, stack, size)
        # Half of an answer is given back once it went, which may be a moment after it was read.
        until = time.monotonic() + PATIENT
        while memory_of(service) - first >= size and time.monotonic() < until:
            time.sleep(0.05)
        more = memory_of(service) - first
        expect(more < size, True, f"whether {more} octets more are little for seven such answers")


def leave_the_end(service, stack, size):
    """A command fetches a file and takes nothing of its last octets, which a socket's buffer doesn't hold."""
    client = stack.enter_context(service.asked("fetch", "1"))
    left = size - one_file.MEBI // 2
    while left > 0:
        left -= len(client.recv(left))


def memory_of(service):
    """The station's memory, in octets."""
    status = Path(f"/proc/{service.program.pid}/status").read_text()
    return int(re.search(r"VmRSS:\s*(\d+)", status)[1]) * 1024


def hold_answers(service, stack, count):
    """So many commands fetch a file and take nothing of it."""
    for _ in range(count):
        client = stack.enter_context(service.client())
        expect(client.recv(1), READY, "the first octet")
        client.sendall(request_of("fetch", "1"))


def strangers(room):
    """Who isn't let in in time is sent away, keeps nobody waiting, and changes nothing."""
    with Resident(room, "--admission", str(PATIENT)) as service:
        begin = time.monotonic()
        with service.caller() as silent, service.caller() as slow:
            slow.sendall(SSID[:10])
            play(service, NOTHING_WAITING)
            expect(given(service, "report", "in")[0], 0, "a report")
            for _ in range(2):
                expect(service.line(), "session - in: fault: 1 read", "the line of a stranger")
            expect((rest_of(silent), rest_of(slow)), (GREETING, GREETING), "they read")
        expect(PATIENT <= time.monotonic() - begin, True, "whether they had their time")
        within(begin, PATIENT, "the strangers")
    left = tables.read(service.database)
    expect([*left["in_file"], *left["out_file"], *left["issued"], *left["received"]], [], "what they changed")


def silent_partner(room):
    """A partner who is let in and then sends nothing is waited for until its timeout (`--patience`), and the service goes on."""
    with Resident(room, "--patience", str(PATIENT)) as service:
        with service.caller() as caller:
            caller.sendall(SSID)
            expect(service.line(), f"session {CARMAKER} in: fault: 1 read", "the line")
        play(service, ONE_OCTET)


def patience_of_each_wait(room):
    """Each wait has the patience: a partner whose pauses are shorter may take longer in all."""
    with Resident(room, "--patience", str(PATIENT)) as service, service.caller() as caller:
        begin = time.monotonic()
        for octets in [octets for side, octets in ONE_OCTET.steps if side == "in"]:
            for piece in (octets[:3], octets[3:]):
                time.sleep(2)
                caller.sendall(piece)
        expect(time.monotonic() - begin > PATIENT + 2, True, "whether all of it took longer than the patience")
        expect(rest_of(caller), ONE_OCTET.joined("out"), "the station sent")
        expect(service.line() + "\n", f"session {CARMAKER} in: {ONE_OCTET.end[1]}", "the line")


def slow_syncs(room):
    """A partner who answers at once isn't given up where each sync takes longer than the patience with him."""
    if not shutil.which("cc"):
        raise NotTried("a C compiler: syncs that take long")
    slow = {"LD_PRELOAD": str(compile_library(room, "slow_syncs")), "SYNC_TAKES": "3000000"}
    with Resident(room, "--patience", "2", environment=slow) as service, service.caller() as caller:
        for side, octets in ONE_OCTET.steps:
            if side == "in":
                caller.sendall(octets)
            else:
                expect(caller.recv(len(octets), socket.MSG_WAITALL), octets, "the station's answer")
        expect(service.line() + "\n", f"session {CARMAKER} in: {ONE_OCTET.end[1]}", "the line")


def time_of_another_session(room):
    """Who was let in waits for another's session, however long that is. A stranger has his own time, which no session moves."""
    with Resident(room, "--admission", str(PATIENT)) as service, service.caller() as first:
        first.sendall(SSID)
        heard(first, OPENED)
        begin = time.monotonic()
        with service.caller() as late, service.caller() as silent:
            heard(late, GREETING)
            heard(silent, GREETING)
            late.sendall(NOTHING_WAITING.joined("in"))
            expect(service.line(), "session - in: fault: 1 read", "the line of the silent one")
            within(begin, PATIENT, "the silent one")
            time.sleep(2)
            first.sendall(NOTHING_WAITING.joined("in")[len(SSID) :])
            expect(service.line() + "\n", f"session {CARMAKER} in: {NOTHING_WAITING.end[1]}", "the line of the first")
            expect(GREETING + rest_of(late), NOTHING_WAITING.joined("out"), "the station sent to the late one")
            expect(service.line() + "\n", f"session {CARMAKER} in: {NOTHING_WAITING.end[1]}", "his line")


def longest_frame_of_a_stranger(room):
    """One who begins the longest of frames in the place of an SSID holds the station for his admission, and no longer."""
    port = free_port()
    with Resident(room, "--http-port", str(port), "--admission", str(PATIENT)) as service, service.caller() as caller:
        caller.sendall(bytes([0x10, 0x01, 0x86, 0xA3]) + bytes(1000))
        begin = time.monotonic()
        expect(given(service, "report", "in")[0], 0, "a report")
        expect(get(port, "/in")[0], 200, "a list")
        expect(service.line(), "session - in: fault: 1 read", "the line of the stranger")
        within(begin, PATIENT, "a report, a list and the stranger")
        play(service, NOTHING_WAITING)


def more_callers_than_places(room):
    """A partner behind more silent callers than there are places is served once the first of them are gone."""
    with Resident(room, "--admission", str(PATIENT)) as service, contextlib.ExitStack() as stack:
        for _ in range(140):
            stack.enter_context(service.caller())
        begin = time.monotonic()
        with service.caller() as caller:
            caller.sendall(NOTHING_WAITING.joined("in"))
            caller.shutdown(socket.SHUT_WR)
            expect(rest_of(caller), NOTHING_WAITING.joined("out"), "the station sent")
        within(begin, PATIENT, "a partner behind them")
        before = {*iter(service.line, f"session {CARMAKER} in: {NOTHING_WAITING.end[1].strip()}")}
        expect(before, {"session - in: fault: 1 read"}, "the lines of those before him")


def started(service, command, *words):
    """A command over the database of the service, which isn't waited for."""
    book = ["--book", BOOK] if command in ("submit", "release", "refuse") else []
    words = [PROGRAM, command, "--db", service.database, *book, *words]
    return subprocess.Popen(words, stdout=subprocess.PIPE, stderr=subprocess.PIPE)


def heard(connection, octets):
    """Reads these octets, and no more."""
    come = b""
    while len(come) < len(octets):
        piece = connection.recv(len(octets) - len(come))
        if not piece:
            raise Wrong(f"the station sent {come!r} and closed")
        come += piece
    expect(come, octets, "the station sent")


def look_up_all(service, port, room):
    """Each way to look something up, of which none waits for anybody."""
    begin = time.monotonic()
    expect(given(service, "report", "in")[0], 0, "a report")
    expect(given(service, "fetch", "1", room / "fetched"), (0, b"done: fetch 1\n", b""), "fetch")
    expect(given(service, "init"), (0, b"done: init\n", b""), "init")
    status, body = get(port, "/in")
    expect((status, b"ASN.0001" in body), (200, True), "the list")
    expect(get(port, "/")[0], 200, "the page")
    within(begin, 2, "the look-ups")


def look_ups_within_a_session(room):
    """Between two pieces of a partner's octets, look-ups are answered. What changes something waits for the session's end, longer than a
    database is waited for, and is done before the next session."""
    port = free_port()
    file = room / "file"
    file.write_bytes(b"A")
    session = session_of("receiving/file_in_one_session")
    octets = [piece.replace(b"ASN.0001", b"ASN.0002") for side, piece in session.steps if side == "in"]
    with Resident(room, "--http-port", str(port)) as service, service.caller() as caller, service.caller() as next_caller:
        play(service, ONE_OCTET)
        caller.sendall(octets[0])
        begun = GREETING + session.steps[2][1]
        heard(caller, begun)
        look_up_all(service, port, room)
        with started(service, "submit", *IDENTITY, file) as submit, started(service, "release", "1") as release:
            next_caller.sendall(NOTHING_WAITING.joined("in"))
            for piece in octets[1:-1]:
                # Half a frame, and then the other half.
                caller.sendall(piece[:3])
                expect(get(port, "/in/1")[0], 200, "an entry")
                caller.sendall(piece[3:])
            look_up_all(service, port, room)
            time.sleep(11)
            expect((submit.poll(), release.poll()), (None, None), "whether they wait")
            look_up_all(service, port, room)
            caller.sendall(octets[-1])
            expect(service.line(), f"session {CARMAKER} in: {session.end[1].strip()}", "the line")
            expect(told(submit), (0, b"done: submit 1\n", b""), "submit")
            expect(told(release), (0, b"done: release 1\n", b""), "release")
        expect(begun + rest_of(caller), session.joined("out"), "the station sent")
        next_caller.shutdown(socket.SHUT_WR)
        expect(b"ASN.0001" in rest_of(next_caller), True, "whether the next session has the end response")
        expect(service.line(), f"session {CARMAKER} in: end: input", "the line")


def outgoing_files_within_a_session(room):
    """So are those of an outgoing file: its entry by HTTP, and whether it has a content, as `offer` asks."""
    port = free_port()
    file = room / "file"
    file.write_bytes(b"A")
    session = session_of("receiving/file_in_one_session")
    with Resident(room, "--http-port", str(port)) as service, service.caller() as caller:
        expect(given(service, "submit", *IDENTITY, file), (0, b"done: submit 1\n", b""), "submit")
        caller.sendall(session.steps[1][1])
        heard(caller, GREETING + session.steps[2][1])
        begin = time.monotonic()
        status, body = get(port, "/out/1")
        expect((status, b"INV.1" in body), (200, True), "the entry")
        for content, end in ((b"A", "same"), (b"B", "other")):
            with service.client() as client:
                expect(client.recv(1), READY, "the first octet")
                client.sendall(spelled(bytes([KINDS["holds"]]), struct.pack(">Q", 1), content))
                expect(answer_to(client), (b"", end), f"whether the file has {content}")
        within(begin, 2, "the look-ups")


def what_waits_for_the_end(room):
    """What refuses a file, copies the database or calls waits for the end of a session too."""
    copy = room / "copy"
    with calling(room) as (partner, service, book), service.caller() as caller:
        play(service, ONE_OCTET)
        caller.sendall(SSID)
        heard(caller, OPENED)
        with started(service, "refuse", "1", "12", "no") as refuse, started(service, "backup", copy) as backup, call(service, book) as called:
            time.sleep(3)
            expect([program.poll() for program in (refuse, backup, called)], [None] * 3, "whether they wait")
            expect((copy.exists(), ready_to_read([partner], 0)), (False, []), "whether there is a copy, or a call")
            caller.sendall(NOTHING_WAITING.joined("in")[len(SSID) :])
            expect(service.line() + "\n", f"session {CARMAKER} in: {NOTHING_WAITING.end[1]}", "the line")
            expect(told(refuse), (0, b"done: refuse 1\n", b""), "refuse")
            expect(told(backup), (0, b"done: backup\n", b""), "the backup")
            partner.accept()[0].close()
            expect(told(called), (0, b"end: input\n", b""), "the call")
            expect(service.line(), f"session {CARMAKER} out: end: input", "the line of the call")


def many_changes_behind_a_session(room):
    """150 changes that come within a session are all done after it, and a look-up comes before them."""
    book = BOOK.read_bytes()
    with Resident(room) as service, contextlib.ExitStack() as stack, service.caller() as caller:
        caller.sendall(SSID)
        heard(caller, OPENED)
        words = [["submit", f"--dataset=INV.{number}", *IDENTITY[2:]] for number in range(150)]
        asked = [stack.enter_context(service.asked(*it, book=book, content=b"A")) for it in words]
        with service.asked("report", "in") as client:
            expect(answer_to(client)[1], "listed", "a report beside them")
        caller.close()
        with ThreadPoolExecutor(max_workers=150) as readers:
            ends = sorted(ending for _, ending in readers.map(answer_to, asked))
        expect(ends, sorted(f"done: submit {number}" for number in range(1, 151)), "the ends")


def called_one_after_another(room):
    """A partner is connected only once the session of the call before is over, however many are to be called."""
    codes = [CARMAKER, "O0188CARMAKER", "O0199CARMAKER"]
    own, first = BOOK.read_text().split("[[partner]]")
    with contextlib.ExitStack() as stack:
        partners = [stack.enter_context(socket.create_server(("127.0.0.1", 0))) for _ in codes]
        book = room / "book"
        texts = [first.replace(CARMAKER, code).replace("3305", str(it.getsockname()[1])) for code, it in zip(codes, partners)]
        book.write_text("[[partner]]".join([own, *texts]))
        service = stack.enter_context(Resident(room, book=book))
        asked = [stack.enter_context(service.asked("call", code)) for code in codes]
        for number, partner in enumerate(partners):
            partner.settimeout(LONG)
            called = stack.enter_context(partner.accept()[0])
            expect(ready_to_read(partners[number + 1 :], 1), [], f"who is connected beside call {number + 1}")
            called.close()
            expect(answer_to(asked[number])[1], "end: input", f"call {number + 1}")


def who_waits_at_the_last_job(room):
    """After the last job what waits is told that the station ends, and nothing of it is done."""
    book = BOOK.read_bytes()
    with Resident(room, "--jobs", "3") as service, contextlib.ExitStack() as stack, service.caller() as caller:
        caller.sendall(SSID)
        heard(caller, OPENED)
        words = [["submit", f"--dataset=INV.{number}", *IDENTITY[2:]] for number in range(4)]
        asked = [stack.enter_context(service.asked(*it, book=book, content=b"A")) for it in words]
        with service.asked("report", "in") as client:
            expect(answer_to(client)[1], "listed", "a report, behind which all have come")
        caller.close()
        expect(service.line(), f"session {CARMAKER} in: end: input", "the first job")
        expect([answer_to(client)[1] for client in asked], ["done: submit 1", *["fault: 8 socket"] * 3], "the ends")
        service.ends()


def who_comes_at_the_last_job(room):
    """Of five commands that come at once to a station of one job each is done or told that the station ends. So is one that was never accepted."""
    file = room / "file"
    file.write_bytes(b"A")
    for number in range(8):
        folder = room / str(number)
        folder.mkdir()
        with Resident(folder, "--jobs", "1") as service:
            words = [["submit", "--book", BOOK, f"--dataset=INV.{it}", *IDENTITY[2:], file] for it in range(5)]
            told_of = [told(program) for program in [begun(service, *it) for it in words]]
            service.ends()
            kinds = [(status, out.partition(b": ")[0], err) for status, out, err in told_of]
            done = kinds.count((0, b"done", b""))
            expect(kinds.count((1, b"", b"fault: 8 socket\n")) + done, 5, f"how many are done or told of the end, of {kinds}")
            report = given(service, "report", "out")[1].splitlines()
            expect(len(report) - 1, done, "how many the register has")


def callers_in_their_order(room):
    """Callers who are let in during a session are served in the order in which they were. One who isn't keeps none of those behind him waiting."""
    octets = ONE_OCTET.joined("in")
    names = [b"ASN.%04d" % number for number in range(1, 9)]
    with Resident(room, "--admission", "600") as service, contextlib.ExitStack() as stack, service.caller() as first:
        first.sendall(SSID)
        heard(first, OPENED)
        stack.enter_context(service.caller()).sendall(SSID[:10])
        callers = [stack.enter_context(service.caller()) for _ in names]
        # A busy station may hear one before the next has said anything.
        for caller, name in zip(callers, names):
            caller.sendall(octets.replace(b"ASN.0001", name))
            caller.shutdown(socket.SHUT_WR)
        first.sendall(NOTHING_WAITING.joined("in")[len(SSID) :])
        for line in [NOTHING_WAITING.end[1], *[ONE_OCTET.end[1]] * len(names)]:
            expect(service.line() + "\n", f"session {CARMAKER} in: {line}", "the line")
    files = sorted((entry["no"], entry["dataset"].encode()) for entry in tables.read(service.database)["in_file"])
    expect([name for _, name in files], names, "the files in their order")


def partners_who_keep_open(room):
    """Partners who don't close behind the station's last word keep nobody waiting, and can read it."""
    with Resident(room, "--admission", "600") as service, contextlib.ExitStack() as stack:
        begin = time.monotonic()
        callers = [stack.enter_context(service.caller()) for _ in range(10)]
        for caller in callers:
            caller.sendall(WRONG.joined("in"))
            expect(service.line() + "\n", f"session - in: {WRONG.end[1]}", "the line")
        play(service, NOTHING_WAITING)
        within(begin, 5, "a session behind them")
        for caller in callers:
            expect(rest_of(caller), WRONG.joined("out"), "the station sent")


RIGHT = {
    "a partner": b"".join(octets for side, octets in ONE_OCTET.steps if side == "in"),
    "a command": request_of("report", "in"),
    "a request": b"GET /in HTTP/1.1\r\n\r\n",
}


def callers_of(service, port):
    """How each of the three sockets is connected to, by who should call there."""
    request = lambda: socket.create_connection(("127.0.0.1", port), timeout=LONG)
    return {"a partner": service.caller, "a command": service.client, "a request": request}


def everybody_is_served(service, port, most=0):
    """A session, a command and a request go within so many seconds. It returns what they took."""
    begin = time.monotonic()
    play(service, NOTHING_WAITING)
    expect(given(service, "report", "in")[0], 0, "a report")
    expect(get(port, "/in")[0], 200, "a list")
    within(begin, most, "a session, a report and a list")
    return time.monotonic() - begin


def say_and_leave(connect, octets, is_reset):
    """One who says this, and then nothing more, or resets the connection."""
    with connect() as caller, contextlib.suppress(ConnectionError):
        if is_reset:
            caller.setsockopt(socket.SOL_SOCKET, socket.SO_LINGER, struct.pack("ii", 1, 0))
        caller.sendall(octets)
        if not is_reset:
            caller.shutdown(socket.SHUT_WR)
            rest_of(caller)


def false_octets_at_each_socket(room):
    """What isn't meant for a socket, zeros, anything at all, half of what is right, and resets end nothing at any of the three."""
    port = free_port()
    with Resident(room, "--http-port", str(port)) as service:
        for who, connect in callers_of(service, port).items():
            others = [octets for other, octets in RIGHT.items() if other != who]
            for octets in [*others, bytes(20_000), os.urandom(20_000), RIGHT[who][:9], b""]:
                for is_reset in (False, True):
                    say_and_leave(connect, octets, is_reset)
        # Each of the twelve who called where partners call has a line.
        strange = [service.line() for _ in range(12)]
        expect([line for line in strange if not line.startswith(("session - in: end: ", "session - in: fault: "))], [], "the lines of strangers")
        everybody_is_served(service, port)
    expect(tables.read(service.database)["in_file"], [], "the files")


def slow_callers_at_each_socket(room):
    """Callers who drip what is right, an octet at a time, delay nobody, at each of the three sockets. Each is heard in the end, a request if it comes
    within its ten seconds."""
    port = free_port()
    with Resident(room, "--http-port", str(port), "--admission", "600") as service, contextlib.ExitStack() as stack:
        begin = time.monotonic()
        callers = {who: [stack.enter_context(connect()) for _ in range(20)] for who, connect in callers_of(service, port).items()}
        took = []
        for at in range(8):
            drip(callers, at, at + 1)
            took.append(everybody_is_served(service, port))
        if min(took) > 5:
            raise Wrong(f"beside slow callers a session, a report and a list took {min(took):.1f} s at least")
        drip(callers, 8, None)
        answers = {"a partner": OPENED, "a command": READY, "a request": b"HTTP/1.1 200"}
        if time.monotonic() - begin >= 10:
            del answers["a request"]
        for who, answer in answers.items():
            expect({rest_of(caller)[: len(answer)] for caller in callers[who]}, {answer}, f"what {who} that dripped is answered")


def drip(callers, at, end):
    """Each of these callers says these of his octets. A request may be closed by now, on a slow machine."""
    for who, connected in callers.items():
        for caller in connected:
            with contextlib.suppress(ConnectionError):
                caller.sendall(RIGHT[who][at:end])


def silent_callers_at_each_socket(room):
    """Eighty callers who say nothing at each of the three sockets, more than there are places for commands and for requests. Whoever comes behind
    them is served, a request once the others' ten seconds are over."""
    port = free_port()
    with Resident(room, "--http-port", str(port), "--admission", "600") as service, contextlib.ExitStack() as stack:
        for connect in callers_of(service, port).values():
            for _ in range(80):
                stack.enter_context(connect())
        everybody_is_served(service, port, 12)


def partner_who_reads_nothing(room):
    """A partner who is let in, asks for the file that waits for it and takes nothing of it has the patience. The station goes on."""
    port = free_port()
    book, file = room / "book", room / "file"
    book.write_text(one_file.BOOK.format(buffer=16384, credit=99))
    file.write_bytes(bytes(one_file.MEBI * 2))
    opening = one_file.frame_of("SSID", code=CARMAKER, password="CARPW", buffer="16384", credit="99", mode="B")
    with Resident(room, "--http-port", str(port), "--patience", str(PATIENT // 2), book=book) as service:
        expect(given(service, "submit", *IDENTITY, file)[0], 0, "submit")
        with service.caller(is_narrow=True) as partner:
            partner.sendall(opening + one_file.frame_of("CD") + one_file.frame_of("SFPA", count="0"))
            expect(service.line(), f"session {CARMAKER} in: fault: 2 write", "the line")
        expect(get(port, "/out")[0], 200, "a list")
        expect(given(service, "report", "out")[0], 0, "a report")


def what_is_asked_for_ahead(room):
    """Of what a partner asks for before it reads, the station makes 2 MiB and about 32 buffers, and the rest as it is read."""
    book, file, files = room / "book", room / "file", 4
    book.write_text(one_file.BOOK.format(buffer=16384, credit=99))
    file.write_bytes(bytes(one_file.MEBI * 8))
    answers = holding.taken_answers(files, len(one_file.data_frames(one_file.MEBI * 8, 16384)))
    with Resident(room, book=book) as service:
        for number in range(files):
            identity = ["--dataset", f"INV.{number}", *IDENTITY[2:]]
            expect(given(service, "submit", *identity, file)[0], 0, "submit")
        staying.forget_peak(service.program.pid)
        before = staying.memory_of(service.program.pid, "VmHWM")
        with service.caller(is_narrow=True) as partner:
            partner.sendall(holding.spoken(*answers))
            wait_for_quiet(service.program.pid)
            grown = staying.memory_of(service.program.pid, "VmHWM") - before
            if grown > MOST_AHEAD:
                raise Wrong(f"{grown} KiB are made ahead, and {MOST_AHEAD} are allowed")
            partner.setsockopt(socket.SOL_SOCKET, socket.SO_RCVBUF, one_file.MEBI)
            size = sum(len(piece) for piece in iter(lambda: partner.recv(one_file.MEBI), b""))
        if size < files * 8 * one_file.MEBI:
            raise Wrong(f"only {size} octets came")
        expect(service.line(), f"session {CARMAKER} in: end: partner 00", "the line")


def wait_for_quiet(process):
    """Waits until a process has taken no time for a second."""
    last, since, begin = None, time.monotonic(), time.monotonic()
    while time.monotonic() < min(since + 1, begin + LONG):
        taken = Path(f"/proc/{process}/schedstat").read_text().split()[0]
        if taken != last:
            last, since = taken, time.monotonic()
        time.sleep(0.02)


# ---- backups


def begin_backup(client):
    """Asks for a backup, and waits until the database's files may be copied."""
    client.recv(1)
    client.sendall(request_of("backup", "copy"))
    sign = b""
    while len(sign) < 9 and (piece := client.recv(9 - len(sign))):
        sign += piece
    expect(sign, struct.pack(">BI", CONTENT, 4) + b"copy", "what tells that the files may be copied")


def backups(room):
    """A backup is a job, and has the register as it stands."""
    file, copy = room / "file", room / "copy"
    file.write_bytes(bytes(300_000))
    with Resident(room, "--jobs", "3") as service:
        play(service, ONE_OCTET)
        expect(given(service, "submit", *IDENTITY, file), (0, b"done: submit 1\n", b""), "submit")
        expect(given(service, "backup", copy), (0, b"done: backup\n", b""), "the backup")
        service.ends()
    expect(tables.read(copy), tables.read(service.database), "the tables")
    expect(sorted(path.name for path in room.iterdir()), ["copy", "database", "database-wal", "file"], "the files")


def backup_holds_still(room):
    """While a command copies the database's files no job is done, and who asks by HTTP or calls isn't kept waiting."""
    port, file = free_port(), room / "file"
    file.write_bytes(b"A")
    with Resident(room, "--http-port", str(port)) as service, service.client() as client:
        begin_backup(client)
        words = [PROGRAM, "submit", "--db", service.database, "--book", BOOK, *IDENTITY, file]
        with subprocess.Popen(words, stdout=subprocess.PIPE, stderr=subprocess.PIPE) as program:
            time.sleep(2)
            expect(program.poll(), None, "whether the file waits")
            expect(get(port, "/out"), (200, b"[]"), "the list")
            with service.caller() as caller:
                expect(caller.recv(len(GREETING)), GREETING, "the greeting")
            client.shutdown(socket.SHUT_WR)
            expect(answer_to(client), (b"", "done: backup"), "the answer")
            expect(told(program), (0, b"done: submit 1\n", b""), "the file")


def backup_of_who_is_gone(room):
    """A command that is gone while it copies, or says what it may not, keeps nobody waiting."""
    with Resident(room) as service:
        for octets in (b"", b"A"):
            with service.client() as client:
                begin_backup(client)
                client.sendall(octets)
            begin = time.monotonic()
            expect(given(service, "report", "in")[0], 0, "a report")
            within(begin, 0, "the report")


def backup_that_takes_too_long(room):
    """A command that copies for longer than half a minute is ended with an error, and keeps nobody waiting any longer."""
    with Resident(room) as service, service.client() as client:
        begin = time.monotonic()
        begin_backup(client)
        expect(given(service, "report", "in")[0], 0, "a report")
        within(begin, 0, "the report")
        expect(given(service, "release", "1")[0], 1, "a release")
        expect(time.monotonic() - begin >= 30, True, "whether the release waits")
        within(begin, 30, "the release")
        expect(answer_to(client), (b"", "fault: 7 file"), "the answer")


# ---- calls


def book_with(room, address):
    book = room / "book"
    book.write_text(BOOK.read_text().replace("127.0.0.1:3305", address))
    return book


@contextlib.contextmanager
def calling(room, *words, host="127.0.0.1"):
    """Who is called, and a station with a book that has the address."""
    with socket.create_server(("127.0.0.1", 0)) as partner:
        partner.settimeout(LONG)
        book = book_with(room, f"{host}:{partner.getsockname()[1]}")
        with Resident(room, *words, book=book) as service:
            yield partner, service, book


def call(service, book, *words, partner=CARMAKER):
    words = [PROGRAM, "call", "--db", service.database, "--book", book, "--partner", partner, *words]
    return subprocess.Popen(words, stdout=subprocess.PIPE, stderr=subprocess.PIPE)


def converse(connection, session):
    """Plays the partner's side of a session, and closes."""
    with connection:
        connection.sendall(session.joined("in"))
        connection.shutdown(socket.SHUT_WR)
        expect(rest_of(connection), session.joined("out"), "the station sent")


def calls(room):
    """`call` has the station call: a partner who is there, one who leaves, one who is silent, and nobody."""
    session = session_of("calling/initiator_alone")
    trace = room / "trace"
    with calling(room, host="localhost") as (partner, service, book):
        with call(service, book, "--trace", trace) as program:
            converse(partner.accept()[0], session)
            expect(told(program), (0, session.end[1].encode(), b""), "the call")
        expect(service.line() + "\n", f"session {CARMAKER} out: {session.end[1]}", "the line")
        # Of a command what it says in words, without its fields.
        told_of = [re.sub("^([<>][^:]*):.*", r"\1", line.split(" ", 1)[1]) for line in trace.read_text().splitlines()]
        wanted = {"< SSRM", "> SSID from O0013SUPPLIER", session.end[1].strip()}
        expect((told_of[:1], told_of[-1:], wanted - set(told_of)), (["< SSRM"], [session.end[1].strip()], set()), "the trace")
        with call(service, book) as program:
            partner.accept()[0].close()
            expect(told(program), (0, b"end: input\n", b""), "the call of one who left")
        expect(service.line(), f"session {CARMAKER} out: end: input", "the line")
        with call(service, book, "--patience", "1") as program, partner.accept()[0]:
            expect(told(program), (1, b"", b"fault: 1 read\n"), "the call of a silent partner")
        expect(service.line(), f"session {CARMAKER} out: fault: 1 read", "the line")
    with Resident(room, book=book) as service:
        with call(service, book) as program:
            expect(told(program), (1, b"", b"fault: 8 socket\n"), "the call of nobody")
        expect(service.line(), f"session {CARMAKER} out: fault: 8 socket", "the line")
        with call(service, BOOK, "--partner", "O0099OTHER") as program:
            expect(told(program)[0], 2, "a partner twice")
        words = [PROGRAM, "call", "--db", service.database, "--book", BOOK, "--partner", "O0099OTHER"]
        done = subprocess.run(words, capture_output=True, timeout=LONG, check=False)
        expect((done.returncode, done.stdout, done.stderr), (1, b"refused: 2 unknown\n", b""), "the call of a stranger")


def call_of_ipv6(room):
    """A partner whose address is one of IPv6 is called there."""
    port = port_of_ipv6("a call of a partner")
    session = session_of("calling/initiator_alone")
    book = book_with(room, f"[::1]:{port}")
    with socket.create_server(("::1", port), family=socket.AF_INET6) as partner, Resident(room, book=book) as service:
        partner.settimeout(LONG)
        with call(service, book) as program:
            converse(partner.accept()[0], session)
            expect(told(program), (0, session.end[1].encode(), b""), "the call")
        expect(service.line() + "\n", f"session {CARMAKER} out: {session.end[1]}", "the line")


def book_of_a_call(room):
    """`call` uses the book of the station: a change holds, for calls of either side, once the station has read its book again."""
    port, book, theirs, folder = free_port(), room / "book", room / "theirs", room / "partner"
    folder.mkdir()
    theirs.write_text((ROOT / "examples/carmaker/book.toml").read_text().replace("127.0.0.1:3306", f"127.0.0.1:{port}"))
    back = [PROGRAM, "call", "--db", folder / "own", "--book", theirs, "--partner", "O0013SUPPLIER"]
    with Service(folder, "listen", "--sessions", "9", book=theirs) as partner:
        partner.caller().close()
        right = BOOK.read_text().replace("127.0.0.1:3305", f"127.0.0.1:{partner.port}")
        book.write_text(right.replace("CARPW", "OLDPW"))
        with Resident(room, book=book, port=port) as service:
            book.write_text(right)
            with call(service, book) as program:
                expect(told(program), (0, b"end: own 04\n", b""), "the call by the old book")
            expect(service.line(), f"session {CARMAKER} out: end: own 04", "its line")
            done = subprocess.run(back, capture_output=True, timeout=LONG, check=False)
            expect((done.returncode, done.stdout), (0, b"end: partner 04\n"), "the partner's call, by the old book")
            expect(service.line(), "session - in: end: own 04", "its line")
            expect(given(service, "reload"), (0, b"done: reload\n", b""), "reload")
            with call(service, book) as program:
                expect(told(program), (0, b"end: partner 00\n", b""), "the call by the new book")
            expect(service.line(), f"session {CARMAKER} out: end: partner 00", "its line")
            done = subprocess.run(back, capture_output=True, timeout=LONG, check=False)
            expect((done.returncode, done.stdout), (0, b"end: partner 00\n"), "the partner's call by the new book")
            expect(service.line(), f"session {CARMAKER} in: end: own 00", "its line")


def traced(room):
    """The trace has each session with its end: of a partner, of one who isn't let in, and of one who is called. It has no password."""
    trace, session = room / "trace", session_of("calling/initiator_alone")
    with calling(room, "--trace", trace) as (partner, service, book):
        play(service, ONE_OCTET)
        play(service, WRONG, "-")
        with call(service, book) as program:
            converse(partner.accept()[0], session)
            expect(told(program), (0, session.end[1].encode(), b""), "the call")
    text = trace.read_text()
    lines = [line.split(" ", 1)[1] for line in text.splitlines()]
    ends = [it.end[1].strip() for it in (ONE_OCTET, WRONG, session)]
    expect([line for line in lines if line[0] not in "<>"], ends, "the ends of the sessions")
    expect([word for word in ("CARPW", "SUPPW", "WRONG") if word in text], [], "passwords in the trace")


def call_that_is_a_job(room):
    """A session with a partner who is called is a job, as one with a caller is."""
    session = session_of("calling/initiator_alone")
    with calling(room, "--jobs", "2") as (partner, service, book):
        for number in range(2):
            expect(service.program.poll(), None, f"whether it ended after {number} jobs")
            with call(service, book) as program:
                converse(partner.accept()[0], session)
                expect(told(program), (0, session.end[1].encode(), b""), "the call")
            expect(service.line() + "\n", f"session {CARMAKER} out: {session.end[1]}", "the line")
        service.ends()


def partner_who_does_not_answer(room):
    """Connecting to a partner whose machine doesn't answer delays nobody."""
    with contextlib.ExitStack() as stack:
        partner, other = (stack.enter_context(socket.socket()) for _ in range(2))
        partner.bind(("127.0.0.1", 0))
        # With one who waits to be accepted the queue is full, and whoever comes next isn't answered.
        partner.listen(0)
        other.connect(partner.getsockname())
        book = book_with(room, f"127.0.0.1:{partner.getsockname()[1]}")
        service = stack.enter_context(Resident(room, book=book))
        begin = time.monotonic()
        with call(service, book, "--patience", str(PATIENT)) as program:
            time.sleep(0.5)
            expect(given(service, "report", "out")[0], 0, "a report while it connects")
            play(service, NOTHING_WAITING)
            expect(program.poll(), None, "whether it still connects")
            expect(told(program), (1, b"", b"fault: 8 socket\n"), "the call")
        expect(time.monotonic() - begin >= PATIENT, True, "whether it connects for as long as the patience")
        within(begin, PATIENT, "the call")


# Codes in their order, and those who call the one behind them, the last one the first. Two are each other's partner, three stand in a circle.
CIRCLE = ["O0001LEAST", "O0002MIDDLE", "O0003GREATEST"]
ENDS = [(0, b"end: own 00\n", b""), (0, b"end: partner 00\n", b"")]


class Meeting:
    """Stations that call each other through this script. Their first calls wait here until all have come, and so meet each other."""

    def __init__(self, room, count, *words):
        self.stations, self.passing = [], []
        self.is_over = threading.Event()
        ports = [free_port() for _ in range(count)]
        self.posts = [socket.create_server(("127.0.0.1", 0)) for _ in range(count)]
        for place, code in enumerate(CIRCLE[:count]):
            folder = room / code
            folder.mkdir()
            book = folder / "book"
            text = f'[station]\ncode = "{code}"\nbuffer = 4096\ncredit = 50\nrestart = true\n'
            for other in {(place + 1) % count, (place - 1) % count}:
                address = f"127.0.0.1:{self.posts[other].getsockname()[1]}"
                text += f'[[partner]]\ncode = "{CIRCLE[other]}"\nexpects = "PW"\nsends = "PW"\nmode = "B"\naddress = "{address}"\n'
            book.write_text(text)
            self.stations.append(Resident(folder, *words, book=book, port=ports[place]))
            self.stations[-1].book = book

    def __enter__(self):
        for station in self.stations:
            expect(station.either(), "ready", "the first line")
        return self

    def __exit__(self, *_why):
        self.is_over.set()
        for station in self.stations:
            station.program.kill()
            station.program.communicate()
        for it in self.passing:
            it.join()
        for post in self.posts:
            post.close()

    def next_of(self, place):
        """The place of the station that the one of this place calls."""
        return (place + 1) % len(self.stations)

    def submit(self, place, octets):
        """Hands in a file for the station that is called."""
        station = self.stations[place]
        file = station.book.parent / "file"
        file.write_bytes(octets)
        words = ["--dataset", "INV.1", "--date", "20240201", "--time", "0800000001", "--to", CIRCLE[self.next_of(place)], "--format", "U", file]
        done = told(begun(station, "submit", "--book", station.book, *words))
        expect(done, (0, b"done: submit 1\n", b""), "submit")

    def call(self, place):
        """The command that has the station of this place call the next one."""
        station = self.stations[place]
        return call(station, station.book, partner=CIRCLE[self.next_of(place)])

    def let_meet(self):
        """Waits until all have called, and passes their calls on, and then all that come."""
        first = []
        for place, _ in enumerate(self.stations):
            post = self.posts[self.next_of(place)]
            post.settimeout(LONG)
            first.append((post.accept()[0], self.next_of(place)))
        # By now each waits for the one that it has called.
        time.sleep(0.3)
        for end, place in first:
            self.pass_on(end, place)
        self.begin(self.pass_all)

    def begin(self, task):
        def see_through():
            # What doesn't pass any more is seen by who waits for it.
            with contextlib.suppress(Wrong, OSError):
                task()

        self.passing.append(threading.Thread(target=see_through))
        self.passing[-1].start()

    def pass_all(self):
        while not self.is_over.is_set():
            for post in ready_to_read(self.posts, 0.05):
                self.pass_on(post.accept()[0], self.posts.index(post))

    def pass_on(self, end, place):
        passage = Passage([])
        passage.join(end, socket.create_connection(("127.0.0.1", self.stations[place].port)))
        self.begin(passage.pass_all)

    def wait_until_whole(self, place, octets):
        """Waits until the station of this place has the file that was handed in for it."""
        station = self.stations[place]
        file = station.book.parent / "fetched"
        until = time.monotonic() + LONG
        while given(station, "fetch", "1", file)[0] != 0 and time.monotonic() < until:
            time.sleep(0.1)
        expect(file.exists() and file.read_bytes(), octets, "the file")

    def expect_no_fault(self):
        # None sees that another one ends.
        for station in self.stations:
            station.program.send_signal(signal.SIGSTOP)
        for station in self.stations:
            station.program.kill()
        for station in self.stations:
            expect([told_here for told_here in station.rest() if b"fault" in told_here], [], "the lines")


def calls_that_meet(room, count):
    """Each of these stations is asked to call the next one at the same moment, and has a file for it. Each call is made in the end, at once."""
    with Meeting(room, count) as meeting:
        places = range(count)
        for place in places:
            meeting.submit(place, f"from {place}".encode())
        with contextlib.ExitStack() as stack:
            asked = [stack.enter_context(meeting.call(place)) for place in places]
            meeting.let_meet()
            begin = time.monotonic()
            ends = [told(program) for program in asked]
            within(begin, 4, "the calls")
        expect([end for end in ends if end not in ENDS], [], "how the calls ended")
        for place in places:
            meeting.wait_until_whole(meeting.next_of(place), f"from {place}".encode())
        meeting.expect_no_fault()


def two_that_call_each_other(room):
    """Two stations whose commands have them call each other at the same moment."""
    calls_that_meet(room, 2)


def three_that_call_in_a_circle(room):
    """Three stations, each of which calls the next one at the same moment."""
    calls_that_meet(room, 3)


def two_whose_clocks_meet(room):
    """Two stations that call each other by their clocks at the same moment, each with a file for the other."""
    with Meeting(room, 2, "--call-every", "1") as meeting:
        for place in range(2):
            meeting.submit(place, f"from {place}".encode())
        meeting.let_meet()
        begin = time.monotonic()
        for place in range(2):
            meeting.wait_until_whole(meeting.next_of(place), f"from {place}".encode())
        within(begin, 4, "both files")
        meeting.expect_no_fault()


def callers_who_stop_no_call(room):
    """Callers who aren't let in, or have left, don't have a call given up whose partner doesn't answer yet."""
    session = session_of("calling/initiator_alone")
    with socket.create_server(("127.0.0.1", 0)) as partner, contextlib.ExitStack() as stack:
        partner.settimeout(LONG)
        book = book_with(room, f"127.0.0.1:{partner.getsockname()[1]}")
        service = stack.enter_context(Resident(room, book=book))
        program = stack.enter_context(call(service, book))
        called = partner.accept()[0]
        for said in (b"", WRONG.joined("in"), SSID[:10]):
            stack.enter_context(service.caller()).sendall(said)
        # It sees at once that this one has spoken and left.
        service.program.send_signal(signal.SIGSTOP)
        with service.caller() as caller:
            caller.sendall(SSID)
        service.program.send_signal(signal.SIGCONT)
        called.settimeout(6)
        with contextlib.suppress(TimeoutError):
            raise Wrong(f"the call says {called.recv(100)!r}")
        called.settimeout(LONG)
        converse(called, session)
        expect(told(program), (0, session.end[1].encode(), b""), "the call")


def calls_while_it_is_called(room, own, least):
    """A call whose partner doesn't answer, since it calls itself, gives way to that after so many seconds, and is made again."""
    session = session_of("calling/initiator_alone")
    of_station = lambda octets: octets.replace(b"O0013SUPPLIER", own)
    answer = of_station(NOTHING_WAITING.joined("out"))
    with socket.create_server(("127.0.0.1", 0)) as partner:
        partner.settimeout(LONG)
        book = book_with(room, f"127.0.0.1:{partner.getsockname()[1]}")
        book.write_bytes(of_station(book.read_bytes()))
        with Resident(room, book=book) as service, call(service, book) as program, partner.accept()[0] as called, service.caller() as caller:
            called.settimeout(LONG)
            # A greeting is no answer. It shows that the session of the call has begun.
            called.sendall(GREETING)
            heard(called, of_station(session.steps[1][1]))
            begin = time.monotonic()
            caller.sendall(SSID)
            heard(caller, answer[: len(OPENED)])
            within(begin, least, "the answer")
            if time.monotonic() - begin < least - 0.1:
                raise Wrong(f"it gave way after {time.monotonic() - begin:.1f} s")
            expect(called.recv(100), b"", "the call said")
            caller.sendall(NOTHING_WAITING.joined("in")[len(SSID) :])
            caller.shutdown(socket.SHUT_WR)
            expect(rest_of(caller), answer[len(OPENED) :], "the station sent")
            expect(service.line() + "\n", f"session {CARMAKER} in: {NOTHING_WAITING.end[1]}", "the line")
            with partner.accept()[0] as again:
                again.sendall(session.joined("in"))
                again.shutdown(socket.SHUT_WR)
                expect(rest_of(again), of_station(session.joined("out")), "the station sent")
            expect(told(program), (0, session.end[1].encode(), b""), "the call")
            expect(service.line() + "\n", f"session {CARMAKER} out: {session.end[1]}", "the line")


def partner_who_calls_while_it_is_called(room):
    """The station's code is the lesser one."""
    calls_while_it_is_called(room, b"O0013SUPPLIER", 1)


def partner_of_a_lesser_code_who_calls(room):
    """The station's code is the greater one, and the partner doesn't give way."""
    calls_while_it_is_called(room, b"O0913SUPPLIER", 4)


def clock(room):
    """The station calls a partner by itself once something waits for it, and not before. It waits twice as long behind each call of one that isn't
    there."""
    file = room / "file"
    file.write_bytes(b"ABC")
    with socket.create_server(("127.0.0.1", 0)) as partner:
        book = book_with(room, f"127.0.0.1:{partner.getsockname()[1]}")
        with Resident(room, "--call-every", "1", book=book) as service:
            partner.settimeout(3)
            with contextlib.suppress(TimeoutError):
                partner.accept()
                raise Wrong("it called for nothing")
            partner.settimeout(LONG)
            expect(given(service, "submit", *IDENTITY, file)[0], 0, "submit")
            with partner.accept()[0] as connection:
                # It is gone before the next turn, which comes after this session.
                partner.close()
                begin = time.monotonic()
                greet_and_leave(connection)
            expect(service.line(), f"session {CARMAKER} out: end: input", "the line")
            for _ in range(3):
                expect(service.line(), f"session {CARMAKER} out: fault: 8 socket", "the line")
            # The calls come after 2, 4 and 8 seconds.
            if time.monotonic() - begin < 10:
                raise Wrong("it called three times within ten seconds")


def greet_and_leave(connection, *frames):
    """Speaks for a partner who is called: greets, says these frames, and ends."""
    connection.sendall(b"".join([GREETING, *frames]))
    connection.shutdown(socket.SHUT_WR)
    rest_of(connection)


def clock_of_who_has_not_confirmed(room):
    """By its clock the station calls a partner to whom it has sent all of a file, and who hasn't said that he has it."""
    file = room / "file"
    file.write_bytes(b"ABC")
    opening = one_file.frame_of("SSID", code=CARMAKER, password="CARPW", buffer="128", credit="2", mode="B")
    with socket.create_server(("127.0.0.1", 0)) as partner:
        partner.settimeout(LONG)
        book = book_with(room, f"127.0.0.1:{partner.getsockname()[1]}")
        with Resident(room, "--call-every", "1", book=book) as service:
            expect(given(service, "submit", *IDENTITY, file)[0], 0, "submit")
            with partner.accept()[0] as connection:
                greet_and_leave(connection, opening, one_file.frame_of("SFPA", count="0"))
            expect(service.line(), f"session {CARMAKER} out: end: input", "the line")
            expect(b",closing," in given(service, "report", "out")[1], True, "whether the file is closing")
            partner.accept()[0].close()


def book_of_many(room, codes, posts):
    """A book with a partner of each of these codes, who is called at the post at its place."""
    book = room / "book"
    station, one = BOOK.read_text().split("[[partner]]")
    addresses = [f"127.0.0.1:{post.getsockname()[1]}" for post in posts]
    partners = [one.replace(CARMAKER, code).replace("127.0.0.1:3305", address) for code, address in zip(codes, addresses)]
    book.write_text("[[partner]]".join([station, *partners]))
    return book


def clock_of_several_partners(room):
    """At its turn the station calls each partner for whom something waits, in the order of the book, and no other one."""
    codes = [CARMAKER, "O0042IDLE", "O0001TRUCKS"]
    file = room / "file"
    file.write_bytes(b"ABC")
    with contextlib.ExitStack() as stack:
        posts = [stack.enter_context(socket.create_server(("127.0.0.1", 0))) for _ in codes]
        book = book_of_many(room, codes, posts)
        with Resident(room, book=book) as service:
            for number, code in enumerate((codes[2], codes[0]), 1):
                words = [code if word == CARMAKER else word for word in IDENTITY]
                done = told(begun(service, "submit", "--book", book, *words, file))
                expect(done, (0, f"done: submit {number}\n".encode(), b""), "submit")
        service = stack.enter_context(Resident(room, "--call-every", "1", book=book))
        for post in (posts[0], posts[2]):
            post.settimeout(LONG)
            with post.accept()[0] as connection:
                greet_and_leave(connection)
        lines = [service.line() for _ in range(2)]
        expect(lines, [f"session {code} out: end: input" for code in (codes[0], codes[2])], "the lines")
        expect(ready_to_read([posts[1]], 2), [], "whether it calls one for whom nothing waits")


def clock_of_who_only_calls(room):
    """By its clock the station never calls a partner from whom it only receives, though a response is due to him. It calls him once his mode is
    another one."""
    with socket.create_server(("127.0.0.1", 0)) as partner:
        book = book_with(room, f"127.0.0.1:{partner.getsockname()[1]}")
        both_ways = book.read_text()
        book.write_text(both_ways.replace("mode = 'B'", "mode = 'R'"))
        with Resident(room, "--call-every", "1", book=book) as service:
            with service.caller() as caller:
                caller.sendall(ONE_OCTET.joined("in"))
                caller.shutdown(socket.SHUT_WR)
                rest_of(caller)
            expect(service.line() + "\n", f"session {CARMAKER} in: {ONE_OCTET.end[1]}", "the line")
            expect(given(service, "release", "1"), (0, b"done: release 1\n", b""), "a release")
            partner.settimeout(4)
            with contextlib.suppress(TimeoutError):
                partner.accept()
                raise Wrong("it called who only calls")
        book.write_text(both_ways)
        partner.settimeout(LONG)
        with Resident(room, "--call-every", "1", book=book):
            partner.accept()[0].close()


# ---- HTTP


def ask(port, *pieces):
    """The reply to a request that comes in these pieces."""
    with socket.create_connection(("127.0.0.1", port), timeout=LONG) as caller:
        for piece in pieces:
            caller.sendall(piece)
            time.sleep(0.01)
        return rest_of(caller)


def get(port, target, *fields):
    lines = [f"GET {target} HTTP/1.1", *fields, "", ""]
    head, _, body = ask(port, "\r\n".join(lines).encode()).partition(b"\r\n\r\n")
    return int(head.split()[1]), body


def requests(room):
    """The register and the page by HTTP, for whoever asks this host."""
    port = free_port()
    with Resident(room, "--http-port", str(port), "--host", "station.example") as service:
        play(service, ONE_OCTET)
        status, body = get(port, "/in")
        expect((status, b"ASN.0001" in body), (200, True), "the list")
        expect(get(port, "/in/1")[0], 200, "an entry")
        expect(get(port, "/in/2")[0], 404, "no entry")
        expect(get(port, "/nothing")[0], 404, "no page")
        status, page = get(port, "/")
        expect((status, page.startswith(b"<!doctype html>")), (200, True), "the page")
        expect(ask(port, b"POST / HTTP/1.1\r\n\r\n").split()[1], b"404", "another method for the page")
        for host in ("127.0.0.1", f"127.0.0.1:{port}", "localhost", f"LocalHost:{port}", "station.example", "STATION.example:80"):
            expect(get(port, "/in", f"Host: {host}")[0], 200, f"the host {host}")
            expect(get(port, "/", f"host:{host}")[0], 200, f"the host {host}")
        for host in ("", "elsewhere", "127.0.0.2", "station.example.elsewhere", "localhost.elsewhere:80", "[::1]", "[::1", ":80", "127.0.0.1 elsewhere"):
            expect(get(port, "/in", f"Host: {host}"), (400, b'{"error":400}'), f"the host {host}")
            expect(get(port, "/", "Host: localhost", f"Host: {host}")[0], 400, f"the host {host} behind another")
        expect(ask(port, b"nothing\r\n\r\n").split()[1], b"400", "what is no request")
        expect(ask(port, b"GET /in HTTP/1.1\r\nX: " + b"a" * 9000).split()[1], b"400", "a head that is too long")


def expect_hosts(room, address, own, *hosts, called=None):
    """At an address, with this port for partners, a request to the one that is called may name these hosts, and no other address."""
    port = free_port(address)
    with Resident(room, "--address", address, "--http-port", str(port), port=own):
        others = ("127.0.0.1", "127.0.0.3", "[::2]", "0.0.0.0", "[::]")
        for host, status in ({host: b"400" for host in others} | {host: b"200" for host in hosts}).items():
            with socket.create_connection((called or address, port), timeout=LONG) as caller:
                caller.sendall(f"GET /in HTTP/1.1\r\nHost: {host}\r\n\r\n".encode())
                expect(rest_of(caller).split()[1], status, f"the host {host} at {address}")


def host_of_another_address(room):
    """A request may name the address that was called, where it isn't the usual one, and no other one."""
    expect_hosts(room, "127.0.0.2", free_port("127.0.0.2"), "127.0.0.2", "127.0.0.2:80", "localhost")


def host_of_ipv6(room):
    """The same where the address is one of IPv6."""
    expect_hosts(room, "::1", port_of_ipv6("the hosts that a request may name"), "[::1]", "[::1]:80", "localhost")


def slow_requests(room):
    """Sixty who send half a head delay nobody, and each has ten seconds."""
    port = free_port()
    with Resident(room, "--http-port", str(port)) as service, contextlib.ExitStack() as stack:
        begin = time.monotonic()
        slow = []
        for _ in range(60):
            caller = stack.enter_context(socket.create_connection(("127.0.0.1", port), timeout=LONG))
            caller.sendall(b"GET /in HT")
            slow.append(caller)
        expect(get(port, "/in")[0], 200, "a list")
        expect(given(service, "report", "in")[0], 0, "a report")
        play(service, NOTHING_WAITING)
        within(begin, 2, "what isn't slow")
        for caller in slow:
            expect(rest_of(caller), b"", "what half a head is answered")
        if time.monotonic() - begin < 9:
            raise Wrong("they had less than ten seconds")
        expect(get(port, "/in")[0], 200, "a list")


def host_of_all_addresses(room):
    """If all addresses are bound, a request may name the one that it came to. So may one of IPv4 that came to a socket of IPv6."""
    own = port_of_ipv6("the hosts that a request to any address may name")
    expect_hosts(room, "::", own, "127.0.0.1", "127.0.0.1:80", "[::ffff:127.0.0.1]", "localhost", called="127.0.0.1")


def narrow_visitor(service, port):
    """A connection to the station's port for requests that buffers few octets."""
    own, service.port = service.port, port
    try:
        return service.caller(is_narrow=True)
    finally:
        service.port = own


def request_that_is_not_read(room):
    """Who doesn't read a reply that is longer than what the system buffers delays nobody, and has ten seconds."""
    port = free_port()
    subprocess.run([PROGRAM, "init", "--db", room / "empty"], capture_output=True, timeout=LONG, check=True)
    filled.settle(room / "empty")
    filled.fill_many(room / "empty", room / "database", 2000)
    with Resident(room, "--http-port", str(port)) as service, contextlib.ExitStack() as stack:
        before = held_by(service)
        whole = len(get(port, "/in")[1])
        begin = time.monotonic()
        slow = [stack.enter_context(narrow_visitor(service, port)) for _ in range(6)]
        for caller in slow:
            caller.sendall(b"GET /in HTTP/1.1\r\n\r\n")
        expect(given(service, "report", "issued")[0], 0, "a report")
        expect(get(port, "/")[0], 200, "the page")
        play(service, NOTHING_WAITING)
        within(begin, 2, "what is read")
        while held_by(service) > before:
            within(begin, 12, "the time of those who don't read")
            time.sleep(0.1)
        expect(time.monotonic() - begin >= 10, True, "whether they had ten seconds")
        expect(max(len(rest_of(caller)) for caller in slow) < whole, True, "whether none has the whole reply")


def held_by(service):
    """How many descriptors the station has open."""
    return len(staying.descriptors_of(service.program.pid))


def most_requests_at_once(room):
    """Of ninety who ask 64 are kept at once, and the others are answered once some of these are gone."""
    port = free_port()
    with Resident(room, "--http-port", str(port)) as service, contextlib.ExitStack() as stack:
        before = held_by(service)
        # All have come when it next looks.
        service.program.send_signal(signal.SIGSTOP)
        callers = [stack.enter_context(socket.create_connection(("127.0.0.1", port), timeout=LONG)) for _ in range(90)]
        for place, caller in enumerate(callers):
            caller.sendall(b"GET /in HT" if place < 64 else b"GET /in HTTP/1.1\r\n\r\n")
        begin = time.monotonic()
        service.program.send_signal(signal.SIGCONT)
        while held_by(service) < before + 64:
            within(begin, 0, "the time until 64 are kept")
            time.sleep(0.02)
        answered = ready_to_read(callers[64:], 3)
        # Each of the 64 has ten seconds.
        if answered and time.monotonic() - begin < 10:
            raise Wrong(f"{len(answered)} are answered beside 64")
        expect(held_by(service) <= before + 64, True, "whether no more are kept")
        for caller in callers[:26]:
            caller.close()
        for caller in callers[64:]:
            expect(rest_of(caller)[:12], b"HTTP/1.1 200", "what the others are answered")


def session_without_memory(room):
    """A session for which there is no memory ends with that line, and the station goes on: the next session brings the same file."""
    book = room / "book"
    book.write_text(one_file.BOOK.format(buffer=16384, credit=99))
    octets = one_file.session(one_file.MEBI, 16384, 99)
    with Resident(room, book=book) as service:
        play(service, NOTHING_WAITING)
        process = service.program.pid
        before = resource.prlimit(process, resource.RLIMIT_DATA)
        resource.prlimit(process, resource.RLIMIT_DATA, (1024 * staying.memory_of(process, "VmData"), before[1]))
        with service.caller() as caller, contextlib.suppress(OSError):
            caller.sendall(octets)
            rest_of(caller)
        expect(service.line(), f"session {CARMAKER} in: fault: 4 memory", "the line")
        resource.prlimit(process, resource.RLIMIT_DATA, before)
        with service.caller() as caller:
            caller.sendall(octets)
            rest_of(caller)
        expect(service.line(), f"session {CARMAKER} in: end: partner 00", "the line of the next one")
        expect(given(service, "fetch", "1", room / "fetched"), (0, b"done: fetch 1\n", b""), "fetch")
        expect((room / "fetched").read_bytes(), b"A" * one_file.MEBI, "the file")


def let_no_file_be_written(service):
    """From now on each write of the station to a file fails, as on a disk that is full."""
    resource.prlimit(service.program.pid, resource.RLIMIT_FSIZE, (0, 0))


def office_that_fails(room):
    """A station whose database can't be written ends with `fault: 3 office`, within a session as within a command. The next one finds what was
    answered, and goes on."""
    file = room / "file"
    file.write_bytes(bytes(300_000))
    # So a file that gets too long is an error of its write, and kills nobody.
    with Resident(room, restore_signals=False) as service:
        play(service, ONE_OCTET)
        let_no_file_be_written(service)
        expect(given(service, "submit", *IDENTITY, file), (1, b"", b"fault: 3 office\n"), "submit")
        service.ends(1, b"fault: 3 office\n")
        expect(service.socket.exists(), False, "whether the socket is left")
    with Resident(room, restore_signals=False) as service:
        expect(given(service, "release", "1"), (0, b"done: release 1\n", b""), "a release")
        let_no_file_be_written(service)
        with service.caller() as caller:
            caller.sendall(ONE_OCTET.joined("in").replace(b"ASN.0001", b"ASN.0002"))
            caller.shutdown(socket.SHUT_WR)
            said = rest_of(caller)
        expect(said[-7:-4], b"F08", "the end that the station sent")
        expect(service.line(), f"session {CARMAKER} in: fault: 3 office", "the line")
        service.ends(1, b"fault: 3 office\n")
        expect(service.socket.exists(), False, "whether the socket is left")
    with Resident(room) as service:
        expect(given(service, "release", "1"), (1, b"refused: 3 state\n", b""), "the release again")
        expect(given(service, "submit", *IDENTITY, file), (0, b"done: submit 1\n", b""), "submit")
    expect(tables.unfit(tables.read(service.database)), None, "the tables")


def filled_station(room):
    """A database with an incoming file, and so much else that a station doesn't keep all of its pages in memory."""
    large = room / "large"
    large.write_bytes(bytes(12 << 20))
    with Resident(room) as service:
        play(service, ONE_OCTET)
        expect(given(service, "submit", *IDENTITY, large), (0, b"done: submit 1\n", b""), "submit")


def let_no_file_be_read(service):
    """From now on the station reads nothing more of its database, as on a disk that is gone."""
    for ending in ("", "-wal"):
        os.truncate(f"{service.database}{ending}", 0)


def request_for_an_office_that_fails(room):
    """A request for which the database can't be read gets 503, or 405, and ends the station with `fault: 3 office`: between two sessions, and
    within one."""
    filled_station(room)
    port = free_port()
    copies = {name: (room / name).read_bytes() for name in ("database", "database-wal")}
    with Resident(room, "--http-port", str(port)) as service:
        let_no_file_be_read(service)
        expect(get(port, "/in"), (503, b'{"error":503}'), "the reply")
        service.ends(1, b"fault: 3 office\n")
        expect(service.socket.exists(), False, "whether the socket is left")
    for name, octets in copies.items():
        (room / name).write_bytes(octets)
    with Resident(room, "--http-port", str(port)) as service, service.caller() as caller:
        caller.sendall(SSID)
        heard(caller, OPENED)
        let_no_file_be_read(service)
        expect(ask(port, b"POST /in/1 HTTP/1.1\r\n\r\n").split()[1], b"405", "the reply within a session")
        expect(service.line(), f"session {CARMAKER} in: fault: 3 office", "the line")
        caller.close()
        service.ends(1, b"fault: 3 office\n")
    for name, octets in copies.items():
        (room / name).write_bytes(octets)
    with Resident(room, "--http-port", str(port)) as service:
        expect(get(port, "/in/1")[0], 200, "the file that came before")


def commands_that_are_interrupted(room):
    """A command that is interrupted while it waits for the end of a session has done nothing. One that isn't, is carried out."""
    file = room / "file"
    file.write_bytes(b"A")
    other = [word.replace("INV.1", "INV.2") for word in IDENTITY]
    with socket.create_server(("127.0.0.1", 0)) as partner, Resident(room) as service, service.caller() as caller:
        book = book_with(room, f"127.0.0.1:{partner.getsockname()[1]}")
        play(service, ONE_OCTET)
        caller.sendall(SSID)
        heard(caller, OPENED)
        waiting = [
            started(service, "submit", *IDENTITY, file),
            started(service, "refuse", "1", "12", "no"),
            call(service, book),
            started(service, "submit", *other, file),
        ]
        time.sleep(3)
        expect([program.poll() for program in waiting], [None] * 4, "whether they wait")
        for program in waiting[:3]:
            program.send_signal(signal.SIGINT)
            program.communicate(timeout=LONG)
        caller.sendall(NOTHING_WAITING.joined("in")[len(SSID) :])
        expect(service.line() + "\n", f"session {CARMAKER} in: {NOTHING_WAITING.end[1]}", "the line")
        expect(told(waiting[3]), (0, b"done: submit 1\n", b""), "the submit that goes on")
        expect(given(service, "report", "out")[1].count(b"\n"), 2, "the lines of the report of outgoing files")
        expect(given(service, "report", "in")[1].strip()[-5:], b",none", "the response of the incoming file")
        expect(ready_to_read([partner], 1), [], "whether the partner is called")


def killed_within_a_command(room):
    """A command whose station is killed within it says so, and doesn't say that anything is done."""
    with socket.create_server(("127.0.0.1", 0)) as partner:
        partner.settimeout(LONG)
        book = book_with(room, f"127.0.0.1:{partner.getsockname()[1]}")
        with Resident(room, book=book) as service, call(service, book) as program, partner.accept()[0]:
            service.program.kill()
            expect(told(program), (1, b"", b"fault: 3 office\n"), "the call")


def with_files(room, count):
    """A database with so many whole files of one octet."""
    with Resident(room, "--jobs", str(count)) as service:
        octets = ONE_OCTET.joined("in")
        for number in range(1, count + 1):
            with service.caller() as caller:
                caller.sendall(octets.replace(b"ASN.0001", b"ASN.%04d" % number))
                caller.shutdown(socket.SHUT_WR)
                rest_of(caller)
            service.line()
        service.ends()


def killed_before_it_hears_a_command(room):
    """Each command whose station is killed before it has heard the request says so, and has done nothing."""
    file, fetched = room / "file", room / "fetched"
    file.write_bytes(b"A")
    with_files(room, 2)
    with Resident(room) as service:
        service.program.send_signal(signal.SIGSTOP)
        asked = [
            begun(service, "init"),
            begun(service, "submit", "--book", BOOK, *IDENTITY, file),
            begun(service, "release", "--book", BOOK, "1"),
            begun(service, "refuse", "--book", BOOK, "2", "12", "no"),
            begun(service, "fetch", "1", fetched),
            begun(service, "report", "in"),
            begun(service, "call", "--book", BOOK, "--partner", CARMAKER),
        ]
        until_connected(asked)
        service.program.kill()
        for program in asked:
            expect(told(program), (1, b"", b"fault: 3 office\n"), f"{program.args[1]} of a station that is killed")
    expect_untouched(room, service.database)


def begun(service, command, *words):
    """A command over the database of the service, which goes on."""
    words = [PROGRAM, command, "--db", service.database, *words]
    return subprocess.Popen(words, stdin=subprocess.DEVNULL, stdout=subprocess.PIPE, stderr=subprocess.PIPE)


def connected_sockets():
    """What the links of /proc/PID/fd call the connected sockets of Unix's kind."""
    rows = [line.split() for line in Path("/proc/net/unix").read_text().splitlines()[1:]]
    return {f"socket:[{row[6]}]" for row in rows if row[5] == "03"}


def until_connected(programs):
    """Waits until each of these commands has connected to the station that it asks."""
    until = time.monotonic() + LONG
    for program in programs:
        while not connected_sockets() & set(staying.descriptors_of(program.pid).values()):
            if time.monotonic() > until or program.poll() is not None:
                raise Wrong(f"{program.args[1]} doesn't connect")
            time.sleep(0.01)


def expect_untouched(room, database):
    found = tables.read(database)
    expect((found["out_file"], found["issued"], tables.unfit(found)), ([], [], None), "what was asked of a station that was killed")
    expect([path.name for path in room.iterdir() if path.name.startswith((".oftp_station_", "fetched"))], [], "the files")


def false_station(room, answer):
    """What each command comes to whose station says this behind its request, and is gone. Nothing is asked of the database."""
    path = room / "database-station"
    path.unlink(missing_ok=True)
    with socket.socket(socket.AF_UNIX) as listener:
        listener.bind(str(path))
        listener.listen()
        listener.settimeout(LONG)

        def serve():
            with listener.accept()[0] as client, contextlib.suppress(ConnectionError):
                client.settimeout(LONG)
                client.sendall(answer[:1])
                if answer:
                    client.recv(4)
                    client.sendall(answer[1:])
                    client.shutdown(socket.SHUT_WR)
                    rest_of(client)

        with ThreadPoolExecutor(max_workers=1) as runners:
            for words in (["submit", "--book", BOOK, *IDENTITY, room / "file"], ["fetch", "1", room / "fetched"], ["report", "in"]):
                served = runners.submit(serve)
                command, *rest = words
                words = [PROGRAM, command, "--db", room / "database", *rest]
                done = subprocess.run(words, capture_output=True, timeout=LONG, check=False)
                served.result()
                yield command, (done.returncode, done.stdout, done.stderr)


def answers_that_are_cut(room):
    """A command whose station is gone within its answer, at any octet, or answers what is none, says that it is gone. No line but a report's is
    printed, and no file is made."""
    (room / "file").write_bytes(b"A")
    with_files(room, 1)
    whole = READY + struct.pack(">BI", CONTENT, 2) + b"AB" + ended(1)
    answers = [whole[:size] for size in range(len(whole))]
    answers += [b"2" + whole[1:], READY + struct.pack(">BI", 4, 1) + b"A" + ended(1), READY + struct.pack(">BI", OUTPUT, 65537) + bytes(65537) + ended(1)]
    answers += [READY + ended(0), READY + ended(4), READY + ended(17)[:-1], READY + ended(21, 6), READY + ended(1, 1)]
    for answer in answers:
        for command, came in false_station(room, answer):
            printed = b"AB" if command == "report" and answer in whole and len(answer) >= len(whole) - 10 else b""
            expect(came, (1, printed, b"fault: 3 office\n"), f"{command}, answered by {answer[:40]!r}")
            expect((room / "fetched").exists(), False, "whether a file is made")
    expect_untouched(room, room / "database")


def killed_while_files_are_answered(room):
    """Files are fetched, released and refused while the station is killed. Each response that a command confirmed is there, once, and none that
    nobody asked for; what was fetched is whole."""
    files = 60
    with_files(room, files)
    is_killed = threading.Event()
    told_of, cut = {}, []

    def answer(number):
        kind, words = ("EERP", ["release", str(number)]) if number % 2 else ("NERP", ["refuse", str(number), "12", "no"])
        fetched = room / f"fetched_{number}"
        for asked in (["fetch", str(number), fetched], words):
            if is_killed.is_set():
                break
            done = given(service, *asked)
            if done[0] != 0:
                cut.append(done)
            elif asked is words:
                told_of[number] = kind
        if len(told_of) >= files // 2:
            is_killed.set()
        return fetched.read_bytes() if fetched.exists() else b"A"

    with Resident(room) as service:
        with ThreadPoolExecutor(max_workers=8) as runners:
            came = [runners.submit(answer, number) for number in range(1, files + 1)]
            expect(is_killed.wait(LONG), True, f"whether half of them were answered, of which {cut} weren't")
            service.program.kill()
        expect({it.result() for it in came}, {b"A"}, "what was fetched")
    expect(set(cut) <= {(1, b"", b"fault: 3 office\n")}, True, f"whether {cut} says that the station is gone")
    found = tables.read(service.database)
    issued = {row["no"]: row["kind"] for row in found["issued"]}
    expect((tables.unfit(found), len(issued)), (None, len(found["issued"])), "the tables")
    expect({number: issued.get(number) for number in told_of}, told_of, "the responses that were told")
    expect({number for number, kind in issued.items() if kind != ("EERP" if number % 2 else "NERP")}, set(), "responses nobody asked for")


def submitted_until_a_kill(room, tried):
    """Eight at a time submit files until the station is killed: the names of those that were answered, and what became of the others."""
    file = room / "file"
    file.write_bytes(b"A")
    answered, failed = [], []
    is_killed = threading.Event()

    def submit_on(worker):
        for number in range(1000):
            name = f"INV.{tried}.{worker}.{number}"
            done = given(service, "submit", f"--dataset={name}", *IDENTITY[2:], file)
            if done[0] == 0:
                answered.append(name)
            else:
                failed.append(done)
            if is_killed.is_set():
                return

    with Resident(room) as service:
        with ThreadPoolExecutor(max_workers=8) as runners:
            workers = [runners.submit(submit_on, worker) for worker in range(8)]
            time.sleep(2)
            service.program.kill()
            is_killed.set()
        for worker in workers:
            worker.result()
    return answered, failed


def killed_while_files_are_submitted(room):
    """What was answered before a kill is there, and each command was answered or says that it isn't known. A command that begins after the kill does
    without a station, so on a busy machine a kill may cut none off. Then the next station is killed."""
    answered, failed = [], []
    for tried in range(20):
        more_answered, more_failed = submitted_until_a_kill(room, tried)
        answered += more_answered
        failed += more_failed
        if len(answered) > 8 and failed:
            break
    expect(set(failed) <= {(1, b"", b"fault: 3 office\n")}, True, f"whether {failed} says that the station is gone")
    expect((len(answered) > 8, len(failed) > 0), (True, True), "whether commands were answered, and others cut off")
    found = {entry["dataset"] for entry in tables.read(room / "database")["out_file"]}
    expect(set(answered) - found, set(), "what was answered and isn't there")


def stopped_within_a_session(room):
    """What was answered before a SIGTERM is there."""
    session = session_of("receiving/file_in_one_session")
    with Resident(room) as service, service.caller() as caller:
        play(service, ONE_OCTET)
        octets = b""
        wanted = b"".join(octets for side, octets in session.steps[:-1] if side == "out")
        caller.sendall(b"".join(octets for side, octets in session.steps[:-1] if side == "in").replace(b"ASN.0001", b"ASN.0002"))
        while len(octets) < len(wanted):
            octets += caller.recv(65536)
        service.program.terminate()
        service.program.wait(LONG)
    files = [(entry["dataset"], entry["state"]) for entry in tables.read(service.database)["in_file"]]
    expect(files, [("ASN.0001", "whole"), ("ASN.0002", "whole")], "the files")


def nothing_to_print_to(room):
    """A station whose line can't be written ends."""
    with open("/dev/full", "wb") as output:
        service = Resident(room, output=output)
        expect(service.program.wait(LONG), 1, "the exit status")
        expect(service.program.stderr.read(), b"fault: 2 write\n", "the fault")


CASES = [
    lines,
    operator_beside_it,
    largest_file,
    many_at_once,
    many_changes_behind_a_session,
    called_one_after_another,
    who_waits_at_the_last_job,
    who_comes_at_the_last_job,
    stale_socket,
    file_in_the_place_of_the_socket,
    two_stations,
    second_station_takes_over,
    two_at_once,
    commands_that_come_while_it_opens,
    faults_in_order,
    long_path,
    long_name,
    false_clients,
    half_requests,
    octets_of_a_fetch,
    silent_clients,
    clients_that_read_nothing,
    clients_that_leave_the_end,
    strangers,
    silent_partner,
    patience_of_each_wait,
    slow_syncs,
    time_of_another_session,
    longest_frame_of_a_stranger,
    more_callers_than_places,
    look_ups_within_a_session,
    outgoing_files_within_a_session,
    what_waits_for_the_end,
    callers_in_their_order,
    partners_who_keep_open,
    backups,
    backup_holds_still,
    backup_of_who_is_gone,
    backup_that_takes_too_long,
    calls,
    book_of_a_call,
    call_of_ipv6,
    traced,
    call_that_is_a_job,
    partner_who_does_not_answer,
    two_that_call_each_other,
    three_that_call_in_a_circle,
    two_whose_clocks_meet,
    callers_who_stop_no_call,
    partner_who_calls_while_it_is_called,
    partner_of_a_lesser_code_who_calls,
    clock,
    clock_of_who_has_not_confirmed,
    clock_of_several_partners,
    clock_of_who_only_calls,
    requests,
    host_of_another_address,
    host_of_ipv6,
    host_of_all_addresses,
    slow_requests,
    request_that_is_not_read,
    most_requests_at_once,
    false_octets_at_each_socket,
    slow_callers_at_each_socket,
    silent_callers_at_each_socket,
    partner_who_reads_nothing,
    what_is_asked_for_ahead,
    session_without_memory,
    office_that_fails,
    request_for_an_office_that_fails,
    commands_that_are_interrupted,
    killed_within_a_command,
    killed_before_it_hears_a_command,
    answers_that_are_cut,
    killed_while_files_are_answered,
    killed_while_files_are_submitted,
    stopped_within_a_session,
    nothing_to_print_to,
]


def tried(case):
    """Runs a case. It returns its result: `as it must be`, why it isn't tried, or why it failed, and whether it failed."""
    with tempfile.TemporaryDirectory() as room:
        try:
            case(Path(room))
        except NotTried as why:
            return f"NOT TRIED without {why}", False
        except (Wrong, OSError, subprocess.SubprocessError, ValueError, LookupError, struct.error) as why:
            return f"{case.__name__.replace('_', ' ')}: {type(why).__name__}: {why}", True
    return f"{case.__name__.replace('_', ' ')}: as it must be", False


def main():
    cases = [case for case in CASES if not sys.argv[1:] or any(word in case.__name__ for word in sys.argv[1:])]
    with ThreadPoolExecutor(max_workers=len(CASES)) as runners:
        tries = list(runners.map(tried, cases))
    print("".join(f"{told_of}\n" for told_of, _ in tries), end="")
    failed = sum(has_failed for _, has_failed in tries)
    print(f"{sum(told_of.endswith('as it must be') for told_of, _ in tries)} passed, {failed} failed")
    return 1 if failed or not cases else 0


if __name__ == "__main__":
    sys.exit(main())
