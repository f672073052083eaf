#!/usr/bin/env python3
"""Tries `listen` with callers that aren't admitted: they send nothing, too little or the wrong thing, and many call at a time.

    checks/scenarios/strangers.py [WORD ..]       all cases, or those whose names have one of these words

They delay no partner for longer than the time that a caller has to be admitted. They delay no operator at all: no database is opened for them. A
partner that was admitted has a time limit, too. Each case has a port and a database of its own, and all run in parallel, so it takes some thirty
seconds. Each wait has a limit, so that it takes little longer with a station that sends, ends or prints nothing. The last line is `N passed, M
failed`.

Shows: `listen` with callers who aren't let in: 1,000 who say nothing, a hundred at a time and one each hundredth of a second. A hundred with a
wrong password, and ones who drip. A partner with a password is served within one admission, no database is opened, and what the rows have is
answered however it is cut. A caller who says nothing where no admission is given, a session and a call that take too long
"""

import collections
import contextlib
import fcntl
import socket
import subprocess
import sys
import tempfile
import time
from concurrent.futures import ThreadPoolExecutor
from pathlib import Path

sys.path.insert(0, str(Path(__file__).resolve().parents[1] / "lib"))

import oftp
import row_files
from program import PROGRAM
from services import BOOK, CARMAKER, Service, Wrong, expect

# How many callers are silent in all, and how many of them at once.
STRANGERS = 1000
AT_ONCE = 100
# The seconds that they have to be admitted, and the longer time that some cases need, however loaded the machine is. Also what they have if
# nothing is said.
ADMISSION = 2
LONG_ADMISSION = 12
USUAL_ADMISSION = 30
# The tolerance on a loaded machine.
SOON = 25
# The seconds for which an opening waits for a locked database, and the tolerance where none is opened.
OPENING = 10
NO_OPENING = 9
# The limit of each wait for octets, a line or an end.
LIMIT = ADMISSION + SOON
# Where SQLite's locks on a database file are: the pending, the reserved and the shared ones.
LOCKS = (1 << 30, 512)


def session_of(name):
    return row_files.Row(row_files.ROWS / f"{name}.row").sessions()[0]


NOTHING_WAITING = session_of("listening/nothing_waiting")
GREETING, SSID = (octets for _, octets in NOTHING_WAITING.steps[:2])
SILENCE = "fault: 1 read"


def within(begin, least, most, what, late=SOON):
    """What began then took this many seconds."""
    took = time.monotonic() - begin
    if not least <= took <= most + late:
        raise Wrong(f"{what} took {took:.1f} s, and {least} to {most} are right")


def receive(connection, what, size=1 << 20):
    """The octets up to the end, or this many."""
    octets = b""
    try:
        while len(octets) < size and (piece := connection.recv(size - len(octets))):
            octets += piece
    except TimeoutError as why:
        raise Wrong(f"{what}: {octets!r}, and then neither more nor the end for {connection.gettimeout():.0f} s") from why
    return octets


def drip(caller, octets, pause, most):
    """Sends octets one by one, with this pause after each, until the station closes the connection."""
    begin = time.monotonic()
    with contextlib.suppress(ConnectionError):
        for place in range(len(octets)):
            within(begin, 0, most, "the time in which it is heard")
            caller.sendall(octets[place : place + 1])
            time.sleep(pause)
        raise Wrong("it was heard to the end")


def play(service, session, size=None, beside=None):
    """Plays a session, what the partner sends in pieces of this size, and expects its line. Lines of sessions that end as `beside` are
    skipped."""
    with service.caller() as caller:
        caller.setsockopt(socket.IPPROTO_TCP, socket.TCP_NODELAY, 1)
        for side, octets in session.steps:
            if side == "out":
                expect(receive(caller, "the station sent", len(octets)), octets, "the station sent")
                continue
            for place in range(0, len(octets), size or len(octets)):
                caller.sendall(octets[place : place + (size or len(octets))])
                time.sleep(0.001 if size else 0)
        caller.shutdown(socket.SHUT_WR)
        expect(receive(caller, "behind its last answer"), b"", "behind its last answer")
    line = service.line() + "\n"
    while beside and line == beside.end[1]:
        line = service.line() + "\n"
    expect(line, session.end[1], "the line")


def play_in_time(service, beside=None):
    """A partner with a password is served after at most the time that a caller has to be admitted."""
    begin = time.monotonic()
    play(service, NOTHING_WAITING, beside=beside)
    within(begin, 0, ADMISSION, "a partner's session")


def send_away(stranger):
    """A silent caller is greeted and sent away."""
    with stranger:
        expect(receive(stranger, "a stranger reads"), GREETING, "a stranger reads")


@contextlib.contextmanager
def held(database):
    """Another process, which is this script, locks the database."""
    with open(database, "r+b") as file:
        fcntl.lockf(file, fcntl.LOCK_EX, LOCKS[1], LOCKS[0])
        yield


class Listening(Service):
    """`listen` for this many sessions."""

    patience = LIMIT

    def __init__(self, room, sessions, *words):
        super().__init__(room, "listen", "--sessions", str(sessions), *words)

    def ends_behind(self, count):
        """It ends by itself, and has printed the lines of this many silent callers, and nothing else."""
        out, err = self.rest()
        lines = dict(collections.Counter(err.decode().splitlines()))
        expect((self.program.returncode, out, lines), (0, b"", {SILENCE: count}), "its status, output, and how many of each fault")


def hundred_at_a_time(room):
    """A hundred silent callers, ten times, and a partner after each hundred."""
    rounds = STRANGERS // AT_ONCE
    with Listening(room, STRANGERS + rounds, "--admission", str(ADMISSION)) as service:
        for _ in range(rounds):
            strangers = [service.caller() for _ in range(AT_ONCE)]
            play_in_time(service)
            for stranger in strangers:
                send_away(stranger)
        service.ends_behind(STRANGERS)


def one_after_another(room):
    """A thousand silent callers, one each hundredth of a second, and a partner after each fifty."""
    strangers = collections.deque()
    with Listening(room, STRANGERS + STRANGERS // 50, "--admission", str(ADMISSION)) as service:
        for number in range(STRANGERS):
            if len(strangers) == AT_ONCE:
                send_away(strangers.popleft())
            strangers.append(service.caller())
            time.sleep(0.01)
            if number % 50 == 49:
                play_in_time(service)
        for stranger in strangers:
            send_away(stranger)
        service.ends_behind(STRANGERS)


def each_behind_the_one_before(room):
    """Silent callers, each after the end of the one before it, and a partner beside each."""
    with Listening(room, 8, "--admission", str(ADMISSION)) as service:
        for _ in range(4):
            stranger = service.caller()
            begin = time.monotonic()
            play_in_time(service)
            send_away(stranger)
            within(begin, ADMISSION - 0.5, ADMISSION, "the stranger's admission")
        service.ends_behind(4)


def usual_admission(room):
    """A silent caller has thirty seconds where nothing else is said."""
    with Listening(room, 1) as service:
        service.patience = USUAL_ADMISSION + SOON
        stranger = service.caller()
        begin = time.monotonic()
        send_away(stranger)
        within(begin, USUAL_ADMISSION - 0.5, USUAL_ADMISSION, "the stranger's admission")
        service.ends_behind(1)


def wrong_passwords(room):
    """A hundred callers with a wrong password that don't close."""
    wrong = session_of("opening/wrong_password")
    with Listening(room, AT_ONCE + 1) as service:
        strangers = [service.caller() for _ in range(AT_ONCE)]
        for stranger in strangers:
            stranger.sendall(wrong.joined("in"))
        play_in_time(service, beside=wrong)
        for stranger in strangers:
            stranger.close()


def operators_beside_them(room):
    """While a hundred callers are silent, an operator's commands are carried out at once, and the tables have nothing else."""
    with Listening(room, AT_ONCE + 1, "--admission", "60") as service:
        strangers = [service.caller() for _ in range(AT_ONCE)]
        for stranger in strangers:
            expect(receive(stranger, "a stranger reads", len(GREETING)), GREETING, "a stranger reads")
        for kind in ("in", "out", "issued", "received"):
            done = service.give("report", kind)
            expect((done.returncode, done.stderr), (0, b""), f"report {kind}")
        for stranger in strangers:
            stranger.close()
        play(service, NOTHING_WAITING, beside=session_of("opening/silent_partner"))


def stamps(room):
    """The files of a case, with their sizes and times. None is opened: that would release a lock of this script."""
    return sorted((path.name, path.stat().st_size, path.stat().st_mtime_ns) for path in room.iterdir())


def no_database_for_them(room):
    """Another process locks the database: a caller that isn't admitted is answered nevertheless, and one that would be admitted is sent
    away."""
    rows = ["opening/wrong_password", "opening/unknown_code", "opening/other_level", "opening/no_credit"]
    with Listening(room, len(rows) + 5, "--admission", str(ADMISSION)) as service:
        play(service, NOTHING_WAITING)
        before = stamps(room)
        with held(service.database):
            for row in rows:
                begin = time.monotonic()
                play(service, session_of(row))
                within(begin, 0, 0, f"{row} beside a locked database", NO_OPENING)
            with service.caller() as caller:
                caller.sendall(b"\x20\x00\x00\x05\x43")
                sent_away = GREETING + oftp.frame(oftp.spell("ESID", {"reason": "02"}))
                expect(receive(caller, "one who speaks otherwise reads"), sent_away, "one who speaks otherwise reads")
            expect(service.line(), "end: own 02", "the line of one who speaks otherwise")
            send_away(service.caller())
            expect(service.fault(), SILENCE, "the line of a stranger")
            expect(stamps(room), before, "the files")
            begin = time.monotonic()
            with service.caller() as caller:
                caller.sendall(SSID)
                expect(receive(caller, "a partner reads"), GREETING, "a partner reads")
            expect(service.fault(), "fault: 6 store 1", "the line of a partner")
            within(begin, OPENING - 1, OPENING, "the wait for the database")
        play(service, NOTHING_WAITING)
        service.ends()


def octet_by_octet(room):
    """The answers are those of the rows, in whatever pieces a caller sends its octets."""
    rows = [f"opening/{path.stem}" for path in sorted((row_files.ROWS / "opening").glob("*.row"))]
    sessions = [session_of(row) for row in ["listening/nothing_waiting", "malicious/unknown_command", "malicious/frame_too_short", *rows]]
    sessions = [session for session in sessions if session.book == NOTHING_WAITING.book and not session.role and not session.closes()]
    if len(sessions) < 6:
        raise Wrong(f"{len(sessions)} rows are of the usual book")
    with Listening(room, 3 * len(sessions)) as service:
        for size in (None, 1, 40):
            for session in sessions:
                play(service, session, size)
        service.ends()


def octet_now_and_then(room):
    """A caller whose SSID takes longer than its time."""
    with Listening(room, 2, "--admission", str(ADMISSION)) as service:
        begin = time.monotonic()
        with service.caller() as caller:
            drip(caller, SSID, 0.8, ADMISSION)
        within(begin, ADMISSION - 0.5, ADMISSION, "its admission")
        expect(service.fault(), SILENCE, "the line")
        play(service, NOTHING_WAITING)
        service.ends()


def longest_frame_now_and_then(room):
    """A caller that begins the longest of frames doesn't hold the station for longer than its time."""
    with Listening(room, 2, "--admission", str(ADMISSION)) as service:
        with service.caller() as caller:
            caller.sendall(bytes([0x10, 0x01, 0x86, 0xA3]) + bytes(1000))
            play_in_time(service)
            expect(service.fault(), SILENCE, "the line")
        service.ends()


def patience_within_the_admission(room):
    """The admission alone bounds who isn't let in, also where a wait of a session (`--patience`) may be shorter."""
    with Listening(room, 2, "--admission", "3", "--patience", "1") as service:
        begin = time.monotonic()
        send_away(service.caller())
        within(begin, 2.5, 3, "the silence")
        expect(service.fault(), SILENCE, "the line")
        play(service, NOTHING_WAITING)
        service.ends()


def time_of_another_session(room):
    """A caller that sends its SSID during the long session of another is let in, and waits. One that says nothing has its own time."""
    opened = b"".join(octets for side, octets in NOTHING_WAITING.steps[:3] if side == "out")
    with Listening(room, 3, "--admission", str(LONG_ADMISSION)) as service:
        with service.caller() as late, service.caller() as silent, service.caller() as first:
            begin = time.monotonic()
            for caller in (late, silent):
                expect(receive(caller, "a late one reads", len(GREETING)), GREETING, "a late one reads")
            first.sendall(SSID)
            expect(receive(first, "the first reads", len(opened)), opened, "the first reads")
            late.sendall(NOTHING_WAITING.joined("in"))
            expect(service.fault(), SILENCE, "the line of the silent one")
            within(begin, LONG_ADMISSION - 1, LONG_ADMISSION, "the silent one")
            time.sleep(2)
            first.shutdown(socket.SHUT_WR)
            expect(service.line(), "end: input", "the line of the first")
            what = "one who sends its SSID during that session reads"
            expect(GREETING + receive(late, what), NOTHING_WAITING.joined("out"), what)
        expect(service.line() + "\n", NOTHING_WAITING.end[1], "its line")
        service.ends()


def longest_session(room):
    """A partner that was admitted and keeps sending has its time, and no more."""
    command = oftp.frame(b"D" + bytes(9999))
    with Listening(room, 2, "--longest", "4", "--patience", "0") as service:
        begin = time.monotonic()
        with service.caller() as caller:
            caller.sendall(SSID)
            drip(caller, command, 0.1, 4)
        within(begin, 3.5, 4, "the session")
        expect(service.fault(), SILENCE, "the line")
        play(service, NOTHING_WAITING)
        service.ends()


def longest_call(room):
    """So has a partner that was called, and sends nothing."""
    with socket.create_server(("127.0.0.1", 0)) as partner:
        partner.settimeout(LIMIT)
        book = room / "book"
        book.write_text(BOOK.read_text().replace("127.0.0.1:3305", f"127.0.0.1:{partner.getsockname()[1]}"))
        words = [PROGRAM, "call", "--db", room / "database", "--book", book, "--partner", CARMAKER, "--longest", "3", "--patience", "0"]
        begin = time.monotonic()
        with subprocess.Popen(words, stdout=subprocess.PIPE, stderr=subprocess.PIPE) as program, partner.accept()[0]:
            try:
                told = program.communicate(timeout=LIMIT)
            except subprocess.TimeoutExpired as why:
                raise Wrong(f"the call goes on after {LIMIT} s") from why
            finally:
                program.kill()
        expect((program.returncode, *told), (1, b"", f"{SILENCE}\n".encode()), "the call")
        within(begin, 2.5, 3, "the call")


def traced(room):
    """Each session is separate in the trace, and each octet is there once."""
    trace = room / "trace"
    wrong = session_of("opening/wrong_password")
    with Listening(room, 3, "--admission", str(LONG_ADMISSION), "--trace", trace) as service:
        stranger = service.caller()
        for session in (NOTHING_WAITING, wrong):
            play(service, session)
        send_away(stranger)
        expect(service.fault(), SILENCE, "the line")
        service.ends()
    wanted = []
    for session in (NOTHING_WAITING, wrong):
        wanted += [f"{'<' if side == 'in' else '>'} {oftp.read(octets[4:])[0]}" for side, octets in session.steps]
        wanted.append(session.end[1].strip())
    lines = [line.split(" ", 1)[1] for line in trace.read_text().splitlines()]
    found = [" ".join(line.split()[:2]).rstrip(",:") if line[0] in "<>" else line for line in lines]
    expect(found, [*wanted, "> SSRM", SILENCE], "the trace")


CASES = [
    hundred_at_a_time,
    one_after_another,
    each_behind_the_one_before,
    usual_admission,
    wrong_passwords,
    operators_beside_them,
    no_database_for_them,
    octet_by_octet,
    octet_now_and_then,
    longest_frame_now_and_then,
    patience_within_the_admission,
    time_of_another_session,
    longest_session,
    longest_call,
    traced,
]


def tried(case):
    """Runs a case, and returns why it failed, or None."""
    with tempfile.TemporaryDirectory() as room:
        try:
            case(Path(room))
        except (Wrong, OSError, subprocess.SubprocessError) as why:
            return f"{type(why).__name__}: {why}"
    return None


def main():
    cases = [case for case in CASES if not sys.argv[1:] or any(word in case.__name__ for word in sys.argv[1:])]
    with ThreadPoolExecutor(max_workers=len(CASES)) as runners:
        whys = list(runners.map(tried, cases))
    for case, why in zip(cases, whys):
        print(f"{case.__name__.replace('_', ' ')}: {why or 'as it must be'}")
    failed = sum(why is not None for why in whys)
    print(f"{len(cases) - failed} passed, {failed} failed")
    return 1 if failed else 0


if __name__ == "__main__":
    sys.exit(main())
