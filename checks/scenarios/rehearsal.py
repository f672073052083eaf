#!/usr/bin/env python3
"""Makes records of captures by examples/interop/record_of_capture, and replays them.

    checks/scenarios/rehearsal.py [WORD ..]      all cases, or those whose names have one of these words

The last line is `N passed, M failed`.

Shows: what tcpdump captured of a day between two stations gives a record. It has files of each format both ways, transfers that break and go on, and
responses. `replay` plays the record to the same octets and to the same reports. By a book of which the product's octets aren't, `replay` tells the
first entry that differs. Segments that come twice, late or in part give the same record. What a capture lacks is told, and what is none is refused
"""

import contextlib
import os
import random
import shutil
import socket
import struct
import subprocess
import sys
import tempfile
import threading
import time
from concurrent.futures import ThreadPoolExecutor
from pathlib import Path

sys.path.insert(0, str(Path(__file__).resolve().parents[1] / "lib"))

import oftp
import row_files
from pairs import book_of
from program import PROGRAM, ROOT
from services import BOOK, CARMAKER, LONG, NotTried, Resident, Wrong, expect, free_port

SCRIPT = ROOT / "examples/interop/record_of_capture"
STATION = "O0013SUPPLIER"
RECORDS = {"F": (80, b"0123456789" * 40), "V": (9, b"00003abc0000000009123456789"), "U": (None, bytes(range(256)) * 20), "T": (None, b"a line\r\n" * 99)}
LARGE, BREAK = 300_000, 100_000


def recorded(room, capture, port, book=BOOK, name="record"):
    """What the script says of a capture, its notes, and its status."""
    words = [SCRIPT, "--capture", capture, "--port", str(port), "--book", book, "--to", room / name]
    environment = {**os.environ, "OFTP_STATION": str(PROGRAM)}
    done = subprocess.run(words, env=environment, capture_output=True, text=True, timeout=LONG, check=False)
    return done.returncode, done.stdout, done.stderr


def replayed(room, book, name="record", database="again"):
    words = [PROGRAM, "replay", "--record", room / name, "--db", room / database, "--book", book]
    done = subprocess.run(words, capture_output=True, text=True, timeout=LONG, check=False)
    return done.returncode, done.stdout + done.stderr


# ---- a day between two stations, through relays that break


class Relay:
    """A place at which connections are taken and passed on. The next one breaks behind so many octets of its caller."""

    def __init__(self, target):
        self.target, self.limit = target, None
        self.listener = socket.create_server(("127.0.0.1", free_port()))
        self.port = self.listener.getsockname()[1]
        threading.Thread(target=self.serve, daemon=True).start()

    def serve(self):
        while True:
            caller, _ = self.listener.accept()
            limit, self.limit = self.limit, None
            called = socket.create_connection(("127.0.0.1", self.target))
            for source, sink, most in ((caller, called, limit), (called, caller, None)):
                threading.Thread(target=passed_on, args=(source, sink, most), daemon=True).start()


def passed_on(source, sink, most):
    count = 0
    with contextlib.suppress(OSError):
        while octets := source.recv(65536):
            sink.sendall(octets)
            count += len(octets)
            if most is not None and count >= most:
                source.shutdown(socket.SHUT_RDWR)
                break
        sink.shutdown(socket.SHUT_RDWR if most is not None else socket.SHUT_WR)


@contextlib.contextmanager
def capturing(path, ports):
    """A capture of what goes over these ports of this machine."""
    if not shutil.which("tcpdump"):
        raise NotTried("tcpdump: a record of a capture of two stations")
    what = " or ".join(f"tcp port {port}" for port in ports)
    words = ["tcpdump", "-i", "lo", "-U", "--immediate-mode", "-B", "65536", "-w", path, what]
    with subprocess.Popen(words, stderr=subprocess.PIPE) as tracer:
        line = tracer.stderr.readline()
        while line and b"listening on" not in line:
            line = tracer.stderr.readline()
        if not line:
            raise NotTried("tcpdump at lo: a record of a capture of two stations")
        yield
        size = None
        while size != (size := path.stat().st_size):
            time.sleep(1)
        tracer.terminate()


class Side:
    """A station with its book, its partner's code, and what it is given."""

    def __init__(self, station, book, partner):
        self.station, self.book, self.partner = station, book, partner

    def give(self, command, *words, of_book=True):
        given = [PROGRAM, command, "--db", self.station.database, *(["--book", self.book] if of_book else []), *words]
        done = subprocess.run(given, capture_output=True, timeout=LONG, check=False)
        return done.returncode, done.stdout.decode()

    def submit(self, name, form, content):
        file = self.station.database.parent / name
        file.write_bytes(content)
        longest = ["--longest", str(RECORDS[form][0])] if RECORDS[form][0] else []
        words = ["--dataset", name, "--date", "20240201", "--time", "0800000001", "--to", self.partner, "--format", form, *longest, "--description", f"of {name}"]
        expect(self.give("submit", *words, file)[0], 0, f"submit of {name}")

    def call(self):
        return self.give("call", "--partner", self.partner)[1]

    def calls_well(self):
        expect(self.call().rsplit(" ", 1)[-1], "00\n", "the call")


def day(one, other, out, into):
    """Files of each format each way, one that breaks and goes on each way, and responses each way."""
    for side, relay in ((one, out), (other, into)):
        for form, (_, content) in RECORDS.items():
            side.submit(f"{form}.1", form, content)
        side.submit("EMPTY", "U", b"")
        side.calls_well()
        side.submit("LARGE", "U", random.Random(3).randbytes(LARGE))
        relay.limit = BREAK
        side.call()
        side.calls_well()
        side.submit("ROWS", "F", RECORDS["F"][1] * 400)
        relay.limit = BREAK
        side.call()
        side.calls_well()
    for side in (one, other):
        expect(side.give("refuse", "2", "34", "no part 7")[0], 0, "refuse")
        for number in ("1", "3", "5", "6", "7"):
            expect(side.give("release", number)[0], 0, f"release {number}")
        side.calls_well()


def two_of_ours(room):
    """A day of two stations, as tcpdump captured it beside one of them."""
    homes, ports = [room / name for name in ("supplier", "carmaker")], [free_port(), free_port()]
    out, into = Relay(ports[1]), Relay(ports[0])
    books = []
    for home, relay in zip(homes, (out, into)):
        home.mkdir()
        books.append(home / "book.toml")
        books[-1].write_text(book_of(home.name, {"buffer": 1024, "credit": 7, "restart": "true"}, relay.port))
    with contextlib.ExitStack() as both:
        stations = [both.enter_context(Resident(home, book=book, port=port)) for home, book, port in zip(homes, books, ports)]
        one, other = [Side(station, book, code) for station, book, code in zip(stations, books, (CARMAKER, STATION))]
        with capturing(room / "capture", [ports[0], out.port]):
            day(one, other, out, into)
        reports = [one.give("report", which, of_book=False) for which in ("in", "out", "issued", "received")]
        for station in stations:
            station.program.terminate()
    status, told, notes = recorded(room, room / "capture", ports[0], books[0])
    expect((status, notes, told.split("; next:")[0]), (0, "", "done: 12 sessions, 13 calls"), "the script")
    expect(replayed(room, books[0]), (0, "same: 12 sessions, 13 calls\n"), "replay")
    for which, report in zip(("in", "out", "issued", "received"), reports):
        done = subprocess.run([PROGRAM, "report", "--db", room / "again", which], capture_output=True, timeout=LONG, check=True)
        expect((0, done.stdout.decode()), report, f"report {which}")
    by_other_book(room, books[0], ports[0])


def by_other_book(room, book, port):
    """By a book with another credit the first octets that go out are others: the entry of the first SSID is told."""
    other = room / "other.toml"
    other.write_text(book.read_text().replace("credit = 7", "credit = 8"))
    expect(recorded(room, room / "capture", port, other, "other")[0], 0, "the script by another book")
    status, told = replayed(room, other, "other", "by another book")
    expect((status, told.startswith("differs: "), told.endswith(": the octets that went out\n")), (1, True, True), f"replay by another book: {told}")


# ---- captures that are made here


def packet(moment, source, target, sequence, flags, payload=b""):
    """A packet of a capture of Ethernet with IP version 4."""
    tcp = struct.pack(">HHIIBBHHH", source, target, sequence % 2**32, 0, 5 << 4, flags, 65535, 0, 0) + payload
    ip = struct.pack(">BBHHHBBH4s4s", 0x45, 0, 20 + len(tcp), 0, 0, 64, 6, 0, bytes([127, 0, 0, 1]), bytes([127, 0, 0, 1])) + tcp
    frame = bytes(12) + b"\x08\x00" + ip
    return struct.pack("<4I", moment // 10**6, moment % 10**6, len(frame), len(frame)) + frame


HEAD = struct.pack("<IHHiIII", 0xA1B2C3D4, 2, 4, 0, 0, 262144, 1)
PORT, FAR = 3305, 40000


def segments_of(steps, begin=2**32 - 50):
    """The packets of a session in which a partner calls, with sequence numbers that wrap."""
    next_of = {"in": begin + 1, "out": begin + 1}
    made = [(FAR, PORT, begin, 2, b""), (PORT, FAR, begin, 18, b"")]
    for side, octets in steps:
        ends = (FAR, PORT) if side == "in" else (PORT, FAR)
        made.append((*ends, next_of[side], 24, octets))
        next_of[side] += len(octets)
    return made


def captured(path, segments):
    path.write_bytes(HEAD + b"".join(packet(1_700_000_000_000_000 + at, *segment) for at, segment in enumerate(segments)))
    return path


def steps_of(name):
    return row_files.Row(row_files.ROWS / f"{name}.row").sessions()[0].steps


def segments(room):
    """Segments that come twice, in another order, or with octets that were there give the same record."""
    steps = steps_of("receiving/one_octet")
    plain = segments_of(steps)
    expect(recorded(room, captured(room / "plain", plain), PORT)[0], 0, "the script")
    expect(replayed(room, BOOK), (0, "same: 1 sessions, 0 calls\n"), "replay")
    twice = [again for segment in plain for again in (segment, segment)]
    late = list(plain)
    places = [at for at, (source, *_, payload) in enumerate(plain) if source == FAR and payload]
    source, target, sequence, flags, payload = late[places[1]]
    # The second segment comes in three parts: the last first, then one with octets of the first one, too.
    parts = [(source, target, sequence + at, flags, payload[at : at + 9]) for at in range(0, len(payload), 9)]
    late[places[1] : places[1] + 1] = [*parts[::-1], (source, target, sequence + 3, flags, payload[3:12])]
    for name, given in (("twice", twice), ("late", late)):
        expect(recorded(room, captured(room / f"{name}.pcap", given), PORT, name=name)[0], 0, name)
        expect(replayed(room, BOOK, name, f"{name}.db"), (0, "same: 1 sessions, 0 calls\n"), f"replay of {name}")


def late_response(room):
    """A response in the session of its file is told, and issued behind it."""
    steps = list(steps_of("receiving/one_octet"))
    (sfid,) = [octets for _, octets in steps if octets[4:5] == b"H"]
    _, fields = oftp.read(sfid[4:])
    eerp = {name: fields[name] for name in ("dataset", "date", "time")} | {"destination": fields["originator"], "originator": fields["destination"]}
    steps.insert(len(steps) - 1, ("out", oftp.frame(oftp.spell("EERP", eerp))))
    status, told, notes = recorded(room, captured(room / "capture", segments_of(steps)), PORT)
    expect((status, told.split(";")[0]), (0, "done: 1 sessions, 1 calls"), "the script")
    expect(notes, f"note: session 1: it responds to {fields['dataset']}, which came in it; this station does so in the next session\n", "the note")


def lacking(room):
    """A connection without its beginning, a caller who wasn't let in, and one whose octets are lacking."""
    plain = segments_of(steps_of("receiving/one_octet"))
    headless = [(FAR + 1, PORT, 5, 24, b"x"), *plain]
    status, _, notes = recorded(room, captured(room / "headless.pcap", headless), PORT, name="headless")
    expect((status, notes), (0, "note: 1 connections have no beginning in the capture, and are left out\n"), "one without its beginning")
    away = segments_of(steps_of("opening/wrong_password"))
    status, told, notes = recorded(room, captured(room / "away.pcap", away), PORT, name="away")
    expect((status, notes.splitlines()[0]), (1, "note: a caller wasn't let in, and is left out"), "a caller who isn't let in")
    places = [at for at, (source, *_, payload) in enumerate(plain) if source == FAR and payload]
    holed = plain[: places[1]] + plain[places[1] + 1 :]
    status, told, notes = recorded(room, captured(room / "holed.pcap", holed), PORT, name="holed")
    expect((status, notes.startswith("note: a connection lacks octets in the capture, and ends before them: ")), (0, True), f"octets that are lacking: {told}{notes}")


def refused(room):
    """No capture, one that is cut off in its packets, a folder that is there, and a book by which no station starts."""
    file = room / "file"
    file.write_bytes(b"\x0a\x0d\x0d\x0a" + bytes(40))
    expect(recorded(room, file, PORT)[::2], (1, f"{file}: no capture of tcpdump: make one of it by `editcap -F pcap`\n"), "pcapng")
    short = HEAD + struct.pack("<4I", 1, 1, 10, 99) + bytes(10)
    file.write_bytes(short)
    expect(recorded(room, file, PORT)[::2], (1, f"{file}: packets that are cut off: capture with `tcpdump -s 0`\n"), "short packets")
    plain = captured(room / "plain", segments_of(steps_of("receiving/one_octet")))
    (room / "there").mkdir()
    expect(recorded(room, plain, PORT, name="there")[::2], (2, f"{room / 'there'} is there already: give a folder that isn't\n"), "a folder")
    status, _, told = recorded(room, plain, PORT, book=plain, name="by no book")
    expect((status, "a book by which the station doesn't start: fault: 5 book" in told), (1, True), told)


CASES = {case.__name__: case for case in (two_of_ours, segments, late_response, lacking, refused)}


def tried(name):
    with tempfile.TemporaryDirectory() as folder:
        try:
            CASES[name](Path(folder))
        except NotTried as what:
            print(f"NOT TRIED without {what}")
        except (Wrong, OSError, subprocess.SubprocessError, ValueError, LookupError) as why:
            print(f"FAIL {name}: {type(why).__name__}: {why}")
            return False
    return True


def main():
    names = [name for name in CASES if not sys.argv[1:] or any(word in name for word in sys.argv[1:])]
    with ThreadPoolExecutor(4) as pool:
        done = list(pool.map(tried, names))
    print(f"{sum(done)} passed, {len(done) - sum(done)} failed")
    return int(not all(done) or not done)


if __name__ == "__main__":
    sys.exit(main())
