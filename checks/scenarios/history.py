#!/usr/bin/env python3
"""The command `history` of real processes, over events that two stations wrote, and over files that no station writes.

    checks/scenarios/history.py [WORD ..]      all cases, or those whose names have one of these words

Two stations send each other a file, release one and refuse the other. What `history` prints of each file is compared with what Python reads of the
same events. It has the lines, the local time, and the state, which is the one in the reports. A file that is cut, foreign lines, lines of a later
version, lines that are no UTF-8 and one that never ends stop nothing. They are counted. The last line is `N passed, M failed`.

Shows: `history` of the files of two stations each way, with the local time, and what their states prove, and `--json`. Events that are damaged,
foreign or of a later version; a number that no event has, and events that can't be read
"""

import contextlib
import datetime
import json
import os
import subprocess
import sys
import tempfile
import zoneinfo
from concurrent.futures import ThreadPoolExecutor
from pathlib import Path

sys.path.insert(0, str(Path(__file__).resolve().parents[1] / "lib"))

import told
from pairs import book_of
from program import PROGRAM
from services import LONG, NotTried, Resident, Wrong, expect, free_port

ZONE = "Pacific/Kiritimati"
PROVES = {
    ("in", "answered"): "the file is here, whole, and the partner has its response",
    ("out", "delivered"): "the file is whole at the partner, record by record; it was released there, and that receipt is kept there",
    ("out", "returned"): "the file is whole at the partner, record by record; it was refused there, and that response is kept there",
    ("out", "waiting"): "nothing of the partner",
}


def asked(path, *words, zone=ZONE, notes=()):
    """What `history` prints of the events of a file, with its exit status."""
    command = [PROGRAM, "history", "--events", path, *words, *notes]
    done = subprocess.run(command, env={**os.environ, "TZ": zone}, capture_output=True, timeout=LONG, check=False)
    return done.returncode, done.stdout.decode(), done.stderr.decode()


def told_by(path, *words, zone=ZONE):
    """The lines of a `history` that is done."""
    status, lines, faults = asked(path, *words, zone=zone)
    expect((status, faults), (0, ""), f"history {words}")
    return lines.splitlines()


def local(at, zone):
    """A time of an event as `history` spells it."""
    time = datetime.datetime.fromisoformat(at.replace("Z", "+00:00")).astimezone(zoneinfo.ZoneInfo(zone))
    offset = time.strftime("%z")
    return f"{time:%Y-%m-%d %H:%M:%S} {offset[:3]}:{offset[3:]}"


def line_of(event, zone=ZONE):
    """The line of an event."""
    details = [(" {}", "dataset"), (" {}", "date"), (" {}", "time"), (" with {}", "partner"), (", session {}", "session"), (", {} rows", "rows")]
    details += [(", {} octets", "units"), (", {}", "kind"), (", reason {}", "reason"), (" {}", "words"), (", text {}", "text")]
    tail = "".join(text.format(event[key]) for text, key in details if key in event)
    return f"{local(event['at'], zone)} {event['way']} {event['no']} {event['event']}:{tail}"


def proof_of(way, no, state):
    return f"by these events {way} {no} is {state}; between two such stations this proves: {PROVES[way, state]}"


# ---- two stations


def give(station, book, command, *words):
    done = subprocess.run([PROGRAM, command, "--db", station.database, "--book", book, *words], capture_output=True, timeout=LONG, check=False)
    expect(done.returncode, 0, f"{command}: {done.stderr}")


def exchanged(room):
    """The events of two stations that sent each other a file. One is released, the other refused."""
    homes = [room / name for name in ("supplier", "carmaker")]
    ports = [free_port(), free_port()]
    for home, port in zip(homes, reversed(ports)):
        home.mkdir()
        (home / "book.toml").write_text(book_of(home.name, {"buffer": 1024, "credit": 2, "restart": "true"}, port))
        (home / "file").write_bytes(os.urandom(5000))
    books = [home / "book.toml" for home in homes]
    codes = [told.book_in(book)["code"] for book in books]
    with contextlib.ExitStack() as both:
        stations = [both.enter_context(Resident(home, "--events", home / "events", book=book, port=port)) for home, book, port in zip(homes, books, ports)]
        for at in (0, 1):
            stamp = ["--dataset", f"F{at}", "--date", "20240201", "--time", "0800000001", "--to", codes[1 - at], "--format", "U"]
            give(stations[at], books[at], "submit", *stamp, homes[at] / "file")
        give(stations[0], books[0], "call", "--partner", codes[1])
        give(stations[0], books[0], "release", "1")
        give(stations[1], books[1], "refuse", "1", "34", "no part 7")
        give(stations[1], books[1], "call", "--partner", codes[0])
        for station in stations:
            subprocess.run([PROGRAM, "stop", "--db", station.database], capture_output=True, timeout=LONG, check=True)
            station.program.wait(LONG)
    return [home / "events" for home in homes]


def events_in(path):
    return [json.loads(line) for line in path.read_bytes().splitlines()]


def of_file(events, way, no):
    return [event for event in events if event.get("way") == way and event.get("no") == no]


def two_stations(room):
    """What `history` tells of each file of two stations: all its events and no others, and what its state proves."""
    paths = exchanged(room)
    for path, outgoing in zip(paths, ("returned", "delivered")):
        events = events_in(path)
        of_ways = {"in": "answered", "out": outgoing}
        parts = []
        for way, state in of_ways.items():
            of_one = of_file(events, way, 1)
            words = [event["event"] for event in of_one]
            expect(len(words) >= 4 and words[-1].startswith("response"), True, f"the events of {way} 1: {words}")
            lines = [line_of(event) for event in of_one] + [proof_of(way, 1, state)]
            expect(told_by(path, f"--{way}", "1"), lines, f"{way} 1")
            expect([json.loads(line) for line in told_by(path, "--json", f"--{way}", "1")], of_one, f"{way} 1 as JSON")
            parts += lines
        expect(told_by(path, "1"), parts, "both ways")
        expect(told_by(path, "--in", "1", "--out"), parts, "both ways by their options")
        expect(told_by(path, "1", zone="")[0], line_of(of_file(events, "in", 1)[0], "UTC"), "UTC")
        expect(asked(path, "2"), (1, "refused: 2 unknown\n", ""), "a number that no event has")


# ---- files that no station writes


def event(name, no=1, way="out", **more):
    """An event of a file as a line has it."""
    known = {"at": "2026-11-01T10:00:00.000000Z", "event": name, "partner": "P", "way": way, "no": no, "dataset": "D", "date": "20240201", "time": "0800000001"}
    return {**known, "originator": "O", "destination": "P", **more}


def written(path, *lines):
    path.write_bytes(b"".join(line if isinstance(line, bytes) else json.dumps(line).encode() + b"\n" for line in lines))
    return path


def damaged(room):
    """A cut line at the end and within, garbage, and octets that are no UTF-8. Also JSON that is no event, and a line that is too long."""
    first, last = event("submitted"), event("sent")
    foreign = [b"garbage\n", b"\n", b"\xff\xfe\n", b'{"at":"2026', b"\n", b"[1]\n", b'{"at":1,"event":"sent","way":"out","no":1}\n', b"x" * 70000 + b"\n"]
    count = 7
    path = written(room / "events", first, *foreign, last)
    lines = [line_of(first), line_of(last)]
    closing = "by these events out 1 is closing; between two such stations this proves: nothing yet: the file's end may have gone out, and the next session finds out"
    passed = "passed over: {} lines that are no events"
    expect(told_by(path, "1"), [*lines, closing, passed.format(count)], "damaged lines")
    expect([json.loads(line) for line in told_by(path, "--json", "1")], [first, last], "the events")
    for octets in range(1, 120):
        path.write_bytes(json.dumps(first).encode() + b"\n" + json.dumps(last).encode()[:octets])
        expect(told_by(path, "1")[-1], passed.format(1), f"a line that is cut after {octets} octets")
    path.write_bytes(json.dumps(first).encode() + b"\n" + json.dumps(last).encode())
    expect(told_by(path, "1"), [*lines, closing], "a last line without its end")
    path.write_bytes(b"x" * 30_000_000)
    expect(asked(path, "1"), (1, "refused: 2 unknown\n", ""), "a line that never ends")


def later(room):
    """Lines of a later version: keys and words that this one doesn't know are passed on, and change no state."""
    first, unknown = event("submitted", novel={"a": [1]}), event("weighed")
    path = written(room / "events", first, unknown)
    expect(told_by(path, "1"), [line_of(first), line_of(unknown), proof_of("out", 1, "waiting")], "a later version")
    path = written(path, {"at": "soon", "event": "weighed", "way": "out", "no": 1})
    expect(told_by(path, "1"), ["soon out 1 weighed:", "no event says how out 1 stands"], "no time, and no state")


def told_apart(room):
    """Files with other numbers and ways are others. An offer that was refused has no number: it is of the file with its name."""
    came, refused = event("came", way="in", rows=1), event("refused file", way="in", reason="13", words="duplicate file")
    del refused["no"]
    other = {**refused, "dataset": "E"}
    path = written(room / "events", refused, event("came", no=2, way="in"), event("submitted"), came, other, refused)
    whole = "by these events in 1 is whole; between two such stations this proves: the file is here, whole; if it names the partner as its originator, it is one of the partner's, record by record"
    expect(told_by(path, "--in", "1"), [line_of(came), line_of({**refused, "no": 1}), whole], "in 1")
    expect(told_by(path, "1")[-1], proof_of("out", 1, "waiting"), "out 1")
    expect(told_by(path, "--in", "2")[-1], whole.replace("in 1", "in 2"), "in 2")


def escaped(room):
    """A text with line ends and control characters makes no line, and no colour."""
    said = event("response received", kind="NERP", reason="99", words="unspecified reason", text="no\nout 1 handed over: \x1b[31m\\")
    path = written(room / "events", event("handed over"), said)
    lines = told_by(path, "1")
    shown = line_of(said).replace("\\", "\\u{5c}").replace("\n", "\\u{a}").replace("\x1b", "\\u{1b}")
    expect(lines, [line_of(event("handed over")), shown, proof_of("out", 1, "returned")], "a text of a partner")


def unread(room):
    """Events that can't be read, and the notes of this and of a number that no event has."""
    path = room / "events"
    missing = f"note: {path}: No such file or directory\n"
    expect(asked(path, "1", notes=["--notes"]), (1, "", f"fault: 7 file\n{missing}"), "no file")
    expect(asked(room, "1"), (1, "", "fault: 7 file\n"), "a folder")
    written(path, event("submitted"))
    note = f"note: 1: no event of {path} has this number\n"
    expect(asked(path, "--in", "1", notes=["--notes"]), (1, "refused: 2 unknown\n", note), "an unknown number")


CASES = {case.__name__: case for case in (two_stations, damaged, later, told_apart, escaped, unread)}


def tried(name):
    with tempfile.TemporaryDirectory() as folder:
        try:
            CASES[name](Path(folder))
        except NotTried as what:
            print(f"NOT TRIED without {what}")
        except (Wrong, json.JSONDecodeError, subprocess.SubprocessError, OSError, KeyError, IndexError) as why:
            print(f"FAIL {name}: {type(why).__name__}: {why}")
            return False
    return True


def main():
    words = sys.argv[1:]
    names = [name for name in CASES if not words or any(word in name for word in words)]
    with ThreadPoolExecutor(4) as pool:
        done = list(pool.map(tried, names))
    print(f"{sum(done)} passed, {len(done) - sum(done)} failed")
    return int(not all(done) or not done)


if __name__ == "__main__":
    sys.exit(main())
