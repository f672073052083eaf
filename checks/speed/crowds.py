#!/usr/bin/env python3
"""Measures a station that holds its database beside a crowd. There are as many connections at each door as it has places, who send nothing, drip,
wait or take nothing.

    checks/speed/crowds.py [--assert]

Each act is done over an idle station and beside each crowd, and its least time counts. Each line has both times and the bound. This is the
milliseconds that are wanted or three times what the idle station takes, whichever is more. With `--assert` it fails if something takes longer. A
crowd is also ten partners who are called at once, none of whom answers. Beside a session at full speed a report and `/in/NO` take at most 300 ms.
Answers of 128 MiB that nobody reads take less than that, since the next waits for room once 64 MiB are held. All come whole in the end. Who comes
to a door without a place is served once there is one. The 129th caller is greeted after five seconds and within six, since the oldest stranger
leaves for him. A partner who has answered the greeting leaves for nobody. A session of 8 MiB beside six clients that ask without end takes at most
four times as long as alone. They ask for an entry or for a list of 3 MB. The last line is `N passed, M failed`.

Shows: a station beside as many strangers, commands and clients over HTTP as it has places, who send nothing, drip, wait or take nothing. It is also
beside ten calls of partners who don't answer. It fails if a greeting, a report or `/in/NO` takes more than 50 ms, or an answer after the session
before more than 100 ms. Three times what the idle station takes counts if that is more. It fails if a report or `/in/NO` takes more than 300 ms
beside a session at full speed. It fails if its memory passes 128 MiB, also beside answers of 128 MiB that nobody reads. It fails if the place of
another one at a full door isn't what COMMANDS.md says. It fails if a session of 8 MiB beside six clients that ask without end takes more than four
times as long as alone. They ask for an entry, or for a list of 3 MB
"""

import argparse
import contextlib
import itertools
import socket
import statistics
import subprocess
import sys
import tempfile
import threading
import time
from concurrent.futures import ThreadPoolExecutor
from pathlib import Path

sys.path.insert(0, str(Path(__file__).resolve().parents[1] / "lib"))

import filled
import one_file
import row_files
from program import PROGRAM
from services import CARMAKER, READY, Resident, Wrong, answer_to, expect, free_port, rest_of

# The places of each door.
PARTNERS, COMMANDS, REQUESTS = 128, 256, 64
# How often an act is done, and how often all of it is done again as long as it takes too long.
TIMES, ROUNDS = 5, 4
# How long a stranger stays in any case, in seconds.
SHELTER = 5
NOTHING_WAITING = row_files.Row(row_files.ROWS / "listening/nothing_waiting.row").sessions()[0]
GREETING, SSID = (octets for _, octets in NOTHING_WAITING.steps[:2])
OPENED = b"".join(octets for side, octets in NOTHING_WAITING.steps[:3] if side == "out")
LONGEST_FRAME = bytes([0x10, 0x01, 0x86, 0xA3]) + bytes(1000)
MOST_MEMORY = 128 * 1024
# How many times as long a session may take beside clients that ask without end.
MOST_TIMES = 4
# The milliseconds of a look-up beside a session at full speed.
FULL_SPEED = 300
# How many files a list of 3 MB has.
FILES = 15000
# How many are called at once, and how many ask for a large file.
CALLED, FETCHING = 10, 16
# How many octets of answers are held before the next one waits for room.
HELD = 64 << 20
NOBODY = "nobody"


def exactly(connection, octets, what):
    found = b""
    while len(found) < len(octets) and (piece := connection.recv(len(octets) - len(found))):
        found += piece
    expect(found, octets, what)


class Crowd:
    """A station, and those who are connected to it."""

    def __init__(self, service, http):
        self.service, self.http = service, http
        self.stack = contextlib.ExitStack()

    def visitor(self):
        client = socket.create_connection(("127.0.0.1", self.http), timeout=60)
        return client

    def keep(self, connection):
        return self.stack.enter_context(connection)

    def leave(self):
        self.stack.close()


# ---- the crowds


def strangers(crowd, octets=b"", count=PARTNERS - 2):
    for _ in range(count):
        caller = crowd.keep(crowd.service.caller())
        exactly(caller, GREETING, "the greeting of a stranger")
        caller.sendall(octets)


def silent(crowd):
    strangers(crowd)


def frames(crowd):
    strangers(crowd, LONGEST_FRAME)


def dripping(crowd):
    callers = [crowd.keep(crowd.service.caller()) for _ in range(PARTNERS - 2)]
    is_over = threading.Event()

    def drip():
        for octet in LONGEST_FRAME:
            if is_over.wait(0.02):
                return
            for caller in callers:
                with contextlib.suppress(OSError):
                    caller.sendall(bytes([octet]))

    thread = threading.Thread(target=drip)
    thread.start()
    crowd.stack.callback(thread.join)
    crowd.stack.callback(is_over.set)


def commands(crowd):
    book = (row_files.ROWS / "books/usual.toml").read_bytes()
    for _ in range(COMMANDS - 1):
        crowd.keep(crowd.service.asked("release", "99", book=book))


def readers(crowd):
    for _ in range(REQUESTS - 1):
        client = crowd.keep(crowd.visitor())
        client.setsockopt(socket.SOL_SOCKET, socket.SO_RCVBUF, 4096)
        client.sendall(b"GET / HTTP/1.1\r\n\r\n")


CODES = [f"O0177CALLED{number}" for number in range(CALLED)]


def book_of_calls(room, stack):
    """A book with ten partners more, at a machine that doesn't answer: with one who waits to be accepted its queue is full."""
    machine, other = stack.enter_context(socket.socket()), stack.enter_context(socket.socket())
    machine.bind(("127.0.0.1", 0))
    machine.listen(0)
    other.connect(machine.getsockname())
    address = f"127.0.0.1:{machine.getsockname()[1]}"
    partners = [f"[[partner]]\ncode = '{code}'\nexpects = 'CARPW'\nsends = 'SUPPW'\nmode = 'B'\naddress = '{address}'\n" for code in CODES]
    book = Path(room) / "book"
    book.write_text("\n".join([(row_files.ROWS / "books/usual.toml").read_text(encoding="utf-8"), *partners]), encoding="utf-8")
    return book


def calls(crowd):
    for code in CODES:
        crowd.keep(crowd.service.asked("call", code))


CROWDS = {
    NOBODY: lambda crowd: None,
    "126 silent strangers": silent,
    "126 strangers who drip": dripping,
    "126 strangers who begin the longest frame": frames,
    "255 commands that wait": commands,
    "63 clients over HTTP that read nothing": readers,
    "ten partners who are called at once": calls,
}


# ---- the acts


def greeted(crowd):
    begin = time.monotonic()
    with crowd.service.caller() as caller:
        exactly(caller, GREETING, "the greeting")
        return time.monotonic() - begin


def reported(crowd):
    begin = time.monotonic()
    with crowd.service.asked("report", "in") as client:
        expect(answer_to(client)[1], "listed", "a report")
    return time.monotonic() - begin


def listed(crowd, status=b"404"):
    begin = time.monotonic()
    with crowd.visitor() as client:
        client.sendall(b"GET /in/1 HTTP/1.1\r\n\r\n")
        expect(rest_of(client)[:12], b"HTTP/1.1 " + status, "a reply")
    return time.monotonic() - begin


def listed_entry(crowd):
    return listed(crowd, b"200")


def next_served(crowd):
    """From the end of a session to the first answer of the partner that waits for it."""
    with crowd.service.caller() as first, crowd.service.caller() as second:
        first.sendall(SSID)
        exactly(first, OPENED, "the first is let in")
        exactly(second, GREETING, "the greeting of the second")
        second.sendall(SSID)
        time.sleep(0.05)
        begin = time.monotonic()
        first.close()
        exactly(second, OPENED[len(GREETING) :], "the second is let in")
        return time.monotonic() - begin


# The milliseconds of each act, and whether it is done beside a session whose partner is silent.
ACTS = [
    ("SSRM after a connection", greeted, 50, True),
    ("a report", reported, 50, True),
    ("GET /in/NO", listed, 50, True),
    ("an answer after the session before", next_served, 100, False),
]


def least(act, crowd, bound):
    """The least time of an act, in milliseconds."""
    found = float("inf")
    for _ in range(ROUNDS):
        for _ in range(TIMES):
            found = min(found, act(crowd) * 1000)
        if found <= bound:
            break
    return found


def measure(name, make, idle):
    """Does each act beside a crowd, and yields its name, its time and its bound."""
    with tempfile.TemporaryDirectory() as room, contextlib.ExitStack() as machines:
        http = free_port()
        book = book_of_calls(room, machines)
        with Resident(Path(room), "--http-port", str(http), "--admission", "120", "--patience", "120", book=book) as service:
            crowd = Crowd(service, http)
            with contextlib.ExitStack() as last:
                partner = last.enter_context(service.caller())
                partner.sendall(SSID)
                exactly(partner, OPENED, "the silent partner is let in")
                make(crowd)
                time.sleep(0.2)
                for act, do, wanted, is_beside in ACTS:
                    if is_beside:
                        bound = max(wanted, 3 * idle.get(act, 0))
                        yield act, least(do, crowd, bound), bound
            # The session before has ended. Commands that waited for that are served now, and the act of two partners needs both places.
            for act, do, wanted, is_beside in ACTS:
                if not is_beside:
                    bound = max(wanted, 3 * idle.get(act, 0))
                    yield act, least(do, crowd, bound), bound
            yield "KiB of memory", peak(service), MOST_MEMORY
            crowd.leave()


def peak(service):
    status = Path(f"/proc/{service.program.pid}/status").read_text(encoding="ascii")
    return next(int(line.split()[1]) for line in status.splitlines() if line.startswith("VmHWM"))


# ---- the doors


def full_door_of_partners(room):
    """The 129th caller is greeted once the oldest stranger has had five seconds. Who was let in leaves for nobody."""
    with Resident(room, "--admission", "120", "--patience", "120") as service, contextlib.ExitStack() as stack:
        let_in = [stack.enter_context(service.caller()) for _ in range(2)]
        for partner in let_in:
            partner.sendall(SSID)
        exactly(let_in[0], OPENED, "the first is let in")
        begin = time.monotonic()
        silent = [stack.enter_context(service.caller()) for _ in range(PARTNERS - 2)]
        for caller in silent:
            exactly(caller, GREETING, "the greeting")
        late = stack.enter_context(service.caller())
        exactly(late, GREETING, "the greeting of the 129th")
        took = time.monotonic() - begin
        if not SHELTER <= took <= SHELTER + 1:
            raise Wrong(f"{took:.2f} s until the 129th is greeted, which is 5 to 6 s")
        expect(service.line(), "session - in: fault: 1 read", "the line of the stranger that left")
        expect(rest_of(silent[0]), b"", "the end of the oldest stranger")
        let_in[0].close()
        expect(service.line(), f"session {CARMAKER} in: end: input", "the line of the first")
        exactly(let_in[1], OPENED, "the second is let in")


def full_door_of_commands(room):
    """The 257th command waits until another one is gone."""
    with Resident(room) as service, contextlib.ExitStack() as stack:
        first = service.client()
        exactly(first, READY, "the first command is heard")
        for _ in range(COMMANDS - 1):
            exactly(stack.enter_context(service.client()), READY, "a command is heard")
        late = stack.enter_context(service.client())
        late.settimeout(1)
        with contextlib.suppress(TimeoutError):
            raise Wrong(f"the 257th is told {late.recv(1)!r} while 256 are there")
        first.close()
        late.settimeout(60)
        exactly(late, READY, "the 257th is heard once one is gone")


def full_door_of_requests(room):
    """The 65th client over HTTP waits until another one is gone, and ten seconds at most."""
    http = free_port()
    with Resident(room, "--http-port", str(http)) as service, contextlib.ExitStack() as stack:
        crowd = Crowd(service, http)
        begin = time.monotonic()
        for _ in range(REQUESTS):
            stack.enter_context(crowd.visitor())
        time.sleep(0.2)
        listed(crowd)
        took = time.monotonic() - begin
        expect(took >= 9, True, f"{took:.2f} s until the 65th was served, whose place is free after ten")


DOORS = [full_door_of_partners, full_door_of_commands, full_door_of_requests]


# ---- a session at full speed


def session_of(number):
    """The octets of a session with a file of 8 MiB."""
    opening = one_file.frame_of("SSID", code=CARMAKER, password="CARPW", buffer="16384", credit="99", mode="B")
    offer = one_file.frame_of("SFID", size="8192", **{**one_file.FILE, "dataset": f"ASN.{number:04}"})
    end = one_file.frame_of("EFID", records="0", units=str(8 * one_file.MEBI))
    data = one_file.data_frames(8 * one_file.MEBI, 16384)
    return b"".join([opening, offer, *data, end, one_file.frame_of("ESID", reason="00")])


def time_of_session(service, octets):
    begin = time.monotonic()
    with service.caller() as caller:
        sender = threading.Thread(target=caller.sendall, args=(octets,))
        sender.start()
        rest_of(caller)
        sender.join()
    expect(service.line(), f"session {CARMAKER} in: end: partner 00", "the line of the session")
    return time.monotonic() - begin


def at_full_speed(room):
    """What a report and `/in/NO` take beside sessions of 8 MiB at full speed, in milliseconds. It is the middle one of five, the least of some
    rounds."""
    (room / "book").write_text(one_file.BOOK.format(buffer=16384, credit=99))
    http = free_port()
    with Resident(room, "--http-port", str(http), book=room / "book") as service:
        crowd = Crowd(service, http)
        is_over = threading.Event()
        time_of_session(service, session_of(1))

        def send():
            for number in itertools.count(2):
                if is_over.is_set():
                    return
                time_of_session(service, session_of(number))

        thread = threading.Thread(target=send)
        thread.start()
        time.sleep(0.2)
        found = {}
        for _ in range(ROUNDS):
            for act, do in (("a report", reported), ("GET /in/NO", listed_entry)):
                found[act] = min(found.get(act, float("inf")), statistics.median(do(crowd) * 1000 for _ in range(TIMES)))
        is_over.set()
        thread.join()
        return found


def held_answers(room):
    """Sixteen commands ask for a file of 8 MiB and don't read: what the station takes for that, in KiB. Then each reads, and has it whole."""
    (room / "book").write_text(one_file.BOOK.format(buffer=16384, credit=99))
    with Resident(room, book=room / "book") as service, contextlib.ExitStack() as stack:
        time_of_session(service, session_of(1))
        before = peak(service)
        clients = [stack.enter_context(service.asked("fetch", "1")) for _ in range(FETCHING)]
        until = time.monotonic() + 10
        while peak(service) * 1024 < HELD and time.monotonic() < until:
            time.sleep(0.1)
        with service.caller() as caller:
            exactly(caller, GREETING, "the greeting beside them")
        expect(peak(service) * 1024 >= HELD, True, f"whether some 64 MiB are held, in {peak(service)} KiB")
        with ThreadPoolExecutor(FETCHING) as readers:
            for content, ending in readers.map(answer_to, clients):
                expect((len(content), ending), (8 << 20, "done: fetch 1"), "an answer")
        return peak(service) - before


def beside_clients(room, target, most):
    """How many times as long a session of 8 MiB takes beside six clients that ask for this without end. It is tried again while it is more."""
    (room / "book").write_text(one_file.BOOK.format(buffer=16384, credit=99))
    subprocess.run([PROGRAM, "init", "--db", room / "empty"], check=True, capture_output=True)
    filled.settle(room / "empty")
    filled.fill_many(room / "empty", room / "database", FILES)
    http = free_port()
    with Resident(room, "--http-port", str(http), book=room / "book") as service:
        numbers = itertools.count(1)
        alone = min(time_of_session(service, session_of(next(numbers))) for _ in range(3))
        is_over = threading.Event()

        def ask():
            while not is_over.is_set():
                with contextlib.suppress(OSError), socket.create_connection(("127.0.0.1", http), timeout=60) as client:
                    client.sendall(f"GET {target} HTTP/1.1\r\n\r\n".encode())
                    rest_of(client)

        threads = [threading.Thread(target=ask) for _ in range(6)]
        for thread in threads:
            thread.start()
        beside = float("inf")
        for _ in range(3 * ROUNDS):
            beside = min(beside, time_of_session(service, session_of(next(numbers))))
            if beside <= most * alone:
                break
        is_over.set()
        for thread in threads:
            thread.join()
        return beside / alone


def tell(name, is_right, why=""):
    print(f"{name}: {'as it must be' if is_right else why}", flush=True)
    return is_right


def try_door(door):
    name = door.__name__.replace("_", " ")
    with tempfile.TemporaryDirectory() as room:
        try:
            door(Path(room))
        except (Wrong, OSError) as why:
            return tell(name, False, f"{type(why).__name__}: {why}")
    return tell(name, True)


def bounded(name, found, bound):
    return tell(f"{name}: {found:.1f}, at most {bound:.1f}", found <= bound, "TOO MUCH")


def results():
    """Does all, and yields whether each is right."""
    idle = {}
    for name, make in CROWDS.items():
        for act, found, bound in measure(name, make, idle):
            if name == NOBODY:
                idle[act] = found
            yield bounded(f"{act}, beside {name}", found, bound)
    yield from map(try_door, DOORS)
    with tempfile.TemporaryDirectory() as room:
        for act, found in at_full_speed(Path(room)).items():
            yield bounded(f"{act}, beside a session at full speed", found, FULL_SPEED)
    with tempfile.TemporaryDirectory() as room:
        yield bounded("KiB of memory beside answers of 128 MiB that nobody reads", held_answers(Path(room)), MOST_MEMORY)
    for target, what in (("/in/1", "an entry"), ("/in", "a list of 3 MB")):
        with tempfile.TemporaryDirectory() as room:
            yield bounded(f"times as long for 8 MiB, beside six clients that ask for {what} without end", beside_clients(Path(room), target, MOST_TIMES), MOST_TIMES)


def main():
    parser = argparse.ArgumentParser()
    parser.add_argument("--assert", dest="is_asserting", action="store_true")
    is_asserting = parser.parse_args().is_asserting
    done = list(results())
    print(f"{sum(done)} passed, {len(done) - sum(done)} failed")
    sys.exit(1 if is_asserting and not all(done) else 0)


if __name__ == "__main__":
    main()
