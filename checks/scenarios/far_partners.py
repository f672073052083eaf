#!/usr/bin/env python3
"""`run` with partners who are far away: each packet takes a tenth of a second there and back, or nearly six seconds.

    checks/scenarios/far_partners.py

On this machine alone a connection is made at once, so nothing shows what a station does while one is being made. It tries partners who are called
by the clock while the session of another lasts, none of whom is connected before his turn. It tries two stations whose clocks have them call each
other, each with a file for the other. It tries look-ups beside a session with a partner who answers after a while. It wants a network namespace of
its own (checks/lib/far.py). The last line is `N passed, M failed`.

Shows: where a network namespace can be made: `run` with partners at a distance of a tenth of a second. Those whom the clock has it call are
connected one after another, each once and each with his SSID at once. That is while the session of the first lasts for seconds. Two whose clocks
meet have each other's file. Reports are asked for beside a session with a far partner. A partner whose connection takes nearly six seconds is called
once
"""

import contextlib
import socket
import subprocess
import sys
import tempfile
import threading
import time
from pathlib import Path

sys.path.insert(0, str(Path(__file__).resolve().parents[1] / "lib"))

import far
import one_file
import row_files
from pairs import book_of
from program import PROGRAM
from services import BOOK, CARMAKER, LONG, Resident, Wrong, expect, free_port

# How long a packet takes in one direction, and what anything may take beside that on a loaded machine, in seconds.
DELAY, LOADED = 0.05, 2
# The same of a partner whose connection takes longer than the five seconds that a connected call waits for its session.
SLOW = 2.8
# How long the first of several sessions lasts.
HOLDS = 6
CODES = [CARMAKER, "O0042TRUCKS", "O0001BUSES"]
OURS = "O0013SUPPLIER"
STAMP = ["--date", "20240201", "--time", "0800000001", "--format", "U"]
GREETING = row_files.Row(row_files.ROWS / "listening/nothing_waiting.row").sessions()[0].steps[0][1]


class Called:
    """A partner who is called: he greets, waits for an SSID, and leaves after a while. It is noted how long each call waited for it."""

    def __init__(self, holds):
        self.post = socket.create_server((far.HERE, 0))
        self.port = self.post.getsockname()[1]
        self.holds, self.waited = holds, []
        self.thread = threading.Thread(target=self.answer, daemon=True)
        self.thread.start()

    def answer(self):
        with contextlib.suppress(OSError):
            while True:
                with self.post.accept()[0] as connection:
                    self.hear(connection)

    def hear(self, connection):
        connection.settimeout(LONG)
        connection.sendall(GREETING)
        begin = time.monotonic()
        has_ssid = bool(connection.recv(65536))
        self.waited.append((time.monotonic() - begin, has_ssid))
        if has_ssid:
            time.sleep(self.holds)


def book_of_many(room, partners):
    """A book in which each of these is called at his port of the far address."""
    station, one = BOOK.read_text().split("[[partner]]")
    entries = [one.replace(CARMAKER, code).replace("127.0.0.1:3305", f"{far.THERE}:{partner.port}") for code, partner in partners.items()]
    book = room / "book"
    book.write_text("[[partner]]".join([station, *entries]))
    return book


def give(service, book, command, *words):
    words = ["--db", service.database, *(["--book", book] if book else []), *words]
    done = subprocess.run([PROGRAM, command, *words], capture_output=True, timeout=LONG, check=False)
    return done.returncode, done.stdout.decode(), done.stderr.decode()


def submit(service, book, to, octets):
    file = book.parent / "file"
    file.write_bytes(octets)
    expect(give(service, book, "submit", "--dataset", "INV.1", *STAMP, "--to", to, file)[0], 0, "submit")


def calls_behind_a_long_session(room):
    """Each partner is called in his turn: he isn't connected, waiting for an SSID, while the long session of the one before lasts."""
    partners = {code: Called(0.2 if number else HOLDS) for number, code in enumerate(CODES)}
    book = book_of_many(room, partners)
    with Resident(room, book=book) as service:
        for code in CODES:
            submit(service, book, code, b"ABC")
    with Resident(room, "--call-every", "1", "--jobs", "3", book=book) as service:
        lines = sorted(service.line() for _ in CODES)
    expect(lines, sorted(f"session {code} out: end: input" for code in CODES), "the lines")
    for code, partner in partners.items():
        expect([has_ssid for _, has_ssid in partner.waited], [True], f"whether each call to {code} had its session")
        expect(partner.waited[0][0] < 2 * DELAY + LOADED, True, f"whether {code} waits {partner.waited[0][0]:.1f} s for his SSID")


def two_whose_clocks_meet(room):
    """Two stations call each other by their clocks: each has the other's file in the end, and no call is lost."""
    ports = [free_port(far.HERE) for _ in range(2)]
    names = ["supplier", "carmaker"]
    with contextlib.ExitStack() as stack:
        stations = []
        for place, name in enumerate(names):
            here = room / name
            here.mkdir()
            book = here / "book"
            book.write_text(book_of(name, {}, ports[1 - place]).replace("127.0.0.1", far.THERE))
            words = ["--address", far.HERE, "--call-every", "1"]
            stations.append((stack.enter_context(Resident(here, *words, book=book, port=ports[place])), book))
        for (service, book), to in zip(stations, (CARMAKER, OURS)):
            submit(service, book, to, to.encode())
        for (service, _), to in zip(stations, (OURS, CARMAKER)):
            until_whole(service, room / "fetched")
            expect((room / "fetched").read_bytes(), to.encode(), "the file that came")


def until_whole(service, file):
    until = time.monotonic() + LONG
    while give(service, None, "fetch", "1", file)[0] != 0:
        if time.monotonic() > until:
            raise Wrong("the file doesn't come")
        time.sleep(0.1)


def look_ups_beside_a_far_session(room):
    """While a far partner sends a file in small windows, each report is answered at once, and the file is whole in the end."""
    session = one_file.session(20_000, 1024, 2)
    book = room / "book"
    book.write_text(one_file.BOOK.format(buffer=1024, credit=2))
    with Resident(room, "--address", far.HERE, book=book) as service, socket.create_connection((far.THERE, service.port), timeout=LONG) as caller:
        caller.sendall(session[:2000])
        times = []
        sending = threading.Thread(target=send_slowly, args=(caller, session[2000:]))
        sending.start()
        while sending.is_alive():
            begin = time.monotonic()
            expect(give(service, None, "report", "in")[0], 0, "a report")
            times.append(time.monotonic() - begin)
        expect(max(times) < LOADED, True, f"whether a report takes {max(times):.1f} s beside the session")
        expect(service.line(), f"session {CARMAKER} in: end: partner 00", "the line of the session")
    print(f"{len(times)} reports beside a session at {2 * DELAY * 1000:.0f} ms: {max(times) * 1000:.0f} ms at most")


def send_slowly(caller, octets):
    for at in range(0, len(octets), 4000):
        caller.sendall(octets[at : at + 4000])
        time.sleep(2 * DELAY)
    caller.shutdown(socket.SHUT_WR)
    while caller.recv(65536):
        pass


def call_that_takes_long(room):
    """A partner whose connection takes longer than a connected call waits for its session, while nothing else happens, is called once."""
    partner = Called(0.2)
    book = book_of_many(room, {CARMAKER: partner})
    with Resident(room, book=book) as service:
        expect(give(service, book, "call", "--partner", CARMAKER), (0, "end: input\n", ""), "the call")
    expect([has_ssid for _, has_ssid in partner.waited], [True], "whether each call had its session")


# With each case, how long a packet takes in one direction, in seconds.
CASES = [(calls_behind_a_long_session, DELAY), (two_whose_clocks_meet, DELAY), (look_ups_beside_a_far_session, DELAY), (call_that_takes_long, SLOW)]


def main():
    try:
        device = far.enter()
    except far.NoNetwork as why:
        print(f"NOT TRIED without a network namespace: partners who are far away ({why})")
        print("0 passed, 0 failed")
        return 0
    failed = 0
    for case, delay in CASES:
        with far.far_away(device, delay), tempfile.TemporaryDirectory() as room:
            try:
                case(Path(room))
            except (Wrong, OSError, subprocess.SubprocessError) as why:
                failed += 1
                print(f"{case.__name__.replace('_', ' ')}: {type(why).__name__}: {why}")
    print(f"{len(CASES) - failed} passed, {failed} failed")
    return 1 if failed else 0


if __name__ == "__main__":
    sys.exit(main())
