#!/usr/bin/env python3
"""The events of real processes: `run`, `listen`, `call` and operators' commands with `--events`.

    checks/scenarios/events.py [WORD ..]       all cases, or those whose names have one of these words
    checks/scenarios/events.py --seed N        the lives of this seed

Each row of rows/ in which partners call is lived over one `run`. So are lives of random sessions, with mistakes and breaks, and orders between
them. The file of events has exactly what the model's changes give (checks/lib/told.py), with the keys in their order. Two stations call each
other: what left one came to the other. The station is killed at any moment. Each line that is there is whole, the lines are a beginning of those
of the unbroken life, and the database has what they tell. Each line is one write, behind the write of the answer. A full device stops nothing, and
a file that is cut goes on from its beginning. Two commands append at once. A change tells the user whose command asked for it. The last line is
`N passed, M failed`.

Shows: the events of `run`, `listen`, `call` and the commands that have the database. They are compared with those of the model's changes, in the
rows of sessions and in random lives. Each line, which is one write behind that of the answer; a kill, a full device, a file that is cut, a pipe.
That no line has a password
"""

import contextlib
import datetime
import functools
import json
import os
import random
import re
import shutil
import socket
import sqlite3
import subprocess
import sys
import tempfile
import time
from concurrent.futures import ThreadPoolExecutor
from pathlib import Path

sys.path.insert(0, str(Path(__file__).resolve().parents[1] / "lib"))

import row_files
import told
from pairs import book_of
from program import PROGRAM
from services import BOOK, CARMAKER, LONG, READY, NotTried, Resident, Service, Wrong, expect, free_port, rest_of

LIVES, MOST_LIVES, ACTS = 40, 400, 12
IDENTITY = ["--dataset", "INV.1", "--date", "20240201", "--time", "0800000001", "--to", CARMAKER, "--format", "U"]
OPTIONS = ["--book", BOOK]
# Commands are given where it is another hour, and may be another day, than it is in UTC.
ELSEWHERE = {**os.environ, "TZ": "Pacific/Kiritimati"}
# Makes a network of one address, from which nothing comes back.
SWALLOWING = " && ".join(
    [
        "ip link add far type veth peer name away && ip address add 192.0.2.2/24 dev far && ip link set away up && ip link set far up",
        "ip neighbour add 192.0.2.1 lladdr 02:00:00:00:00:01 dev far",
    ]
)
# Another user, where the superuser runs this.
USER = 54_321
# How long a partner keeps still in a session, in seconds.
PAUSE = 2
# The EFPA that agrees, with its header.
EFPA = b"\x10\x00\x00\x064N"


def all_rows():
    return [row_files.Row(path) for path in sorted(row_files.ROWS.rglob("*.row"))]


def is_called(act):
    return isinstance(act, row_files.Session) and not act.role


def can_be_lived(row):
    """Whether one station can live the row: in each session a partner calls, and one book is enough."""
    return all(is_called(act) and act.book == row.book and act.given is None and not act.closes() for act in row.acts)


def played(service, steps):
    """A partner sends its part of these steps and waits for the station's, and ends. The station's line is read, so its changes are made."""
    with service.caller() as caller:
        converse(caller, steps)
    return service.line()


def converse(caller, steps):
    with contextlib.suppress(OSError):
        for side, octets in steps:
            if side == "in":
                caller.sendall(octets)
            else:
                caller.recv(len(octets), socket.MSG_WAITALL)
        caller.shutdown(socket.SHUT_WR)
        while caller.recv(65536):
            pass


def heard_in(steps):
    """What the station hears in these steps."""
    return b"".join(octets for side, octets in steps if side == "in")


def talked(service, steps):
    """A partner sends each of these commands once all is there that the station has said before, and ends."""
    with service.caller() as caller:
        with contextlib.suppress(OSError):
            heard = 0
            for octets, wanted in steps:
                heard += len(caller.recv(wanted - heard, socket.MSG_WAITALL)) if wanted > heard else 0
                caller.sendall(octets)
            caller.shutdown(socket.SHUT_WR)
            while caller.recv(65536):
                pass
    return service.line()


def stopped(service):
    service.program.terminate()
    service.program.wait(LONG)


def lines_in(path):
    """The events of a file. Each line is whole, has the keys in their order, and no time is before the one of the line above."""
    events = [told.event_in(line) for line in path.read_bytes().splitlines(keepends=True)]
    times = [event["at"] for event in events]
    expect(times, sorted(times), "the times")
    return events


def without_place(events):
    """The events without what depends on the moment and the connection."""
    return [{key: value for key, value in event.items() if key not in told.OF_PLACE and not may_be_later(event, key)} for event in events]


def may_be_later(event, key):
    """Whether a line may have this key if the next session is over before it is written. The file that was incomplete may be whole by then."""
    return key in ("format", "rows") and event.get("way") == "in" and event["event"] in ("broken off", "given up", "refused end")


def lived(room, book, acts, count):
    """The events of a station that was given these acts, once so many lines are there. It isn't asked for more: events wait for whatever is asked."""
    path = room / "events"
    with Resident(room, "--events", path, book=book) as station:
        for act in acts:
            act(station)
        awaited(path, count)
        stopped(station)
    return lines_in(path)


def awaited(path, count):
    """Waits until a file has so many lines, or for as long as anything takes, and a moment more."""
    until = time.monotonic() + 10
    while path.read_bytes().count(b"\n") < count and time.monotonic() < until:
        time.sleep(0.01)
    time.sleep(0.05)


def compared(found, wanted):
    wanted = without_place(wanted)
    for count, (one, other) in enumerate(zip(found, wanted)):
        expect(one, other, f"event {count}")
    expect(len(found), len(wanted), "how many events")


# ---- cases


def rows(room):
    """The sessions of each row that one station can live."""
    chosen = [row for row in all_rows() if can_be_lived(row)]
    if len(chosen) < 80:
        raise Wrong(f"only {len(chosen)} rows are lived")
    for row in chosen:
        with tempfile.TemporaryDirectory(dir=room) as folder:
            life = told.Life(row.book)
            for act in row.acts:
                life.session(heard_in(act.steps))
            acts = [functools.partial(played, steps=act.steps) for act in row.acts]
            try:
                compared(without_place(lived(Path(folder), row.book, acts, len(life.events))), life.events)
            except Wrong as why:
                raise Wrong(f"{row.name}: {why}") from why


def orders(chance, life, room):
    """An order that is drawn, for a station and for the model."""
    kind = chance.choice(["submit", "release", "refuse"])
    number = chance.randint(1, 3)
    if kind == "submit":
        octets = chance.randbytes(chance.choice([0, 1, 1024, 3000]))
        file = room / f"file{chance.random()}"
        file.write_bytes(octets)
        name = f"N{chance.randint(1, 9)}"
        life.submit({"dataset": name, "date": "20240201", "time": "0800000001", "to": CARMAKER, "format": "U", "longest": 0, "description": ""}, octets)
        words = ["--dataset", name, "--date", "20240201", "--time", "0800000001", "--to", CARMAKER, "--format", "U", file]
    elif kind == "release":
        life.issue(number, "EERP")
        words = [str(number)]
    else:
        life.issue(number, "NERP", "34", "no part 7")
        words = [str(number), "34", "no part 7"]
    return lambda station: station.give(kind, *words)


def life_of(seed, room):
    """The acts of a life, and the model after them."""
    chance = random.Random(seed)
    life = told.Life(BOOK)
    acts = []
    for _ in range(ACTS):
        if chance.random() < 0.4:
            acts.append(orders(chance, life, room))
        else:
            acts.append(functools.partial(talked, steps=life.talk(chance, CARMAKER)))
    return acts, life


def lives(room, seed):
    """Lives of random sessions and orders, until each event has occurred."""
    occurred = set()
    for count in range(MOST_LIVES):
        if count >= LIVES and told.EVENTS <= occurred:
            break
        with tempfile.TemporaryDirectory(dir=room) as folder:
            acts, life = life_of(seed + count, Path(folder))
            occurred |= {event["event"] for event in life.events}
            try:
                compared(without_place(lived(Path(folder), BOOK, acts, len(life.events))), life.events)
            except Wrong as why:
                raise Wrong(f"--seed {seed + count}: {why}") from why
    expect(told.EVENTS - occurred, set(), "what never occurred")


def kills(room, seed):
    """A station that is killed: its events are whole lines, and a beginning of those of the life."""
    for count in range(8):
        with tempfile.TemporaryDirectory(dir=room) as folder:
            home = Path(folder)
            acts, life = life_of(seed + count, home)
            path = home / "events"
            with Resident(home, "--events", path) as station:
                begin = time.monotonic()
                until = random.Random(seed + count).random() * 0.3
                with contextlib.suppress(Wrong, OSError):
                    for act in acts:
                        if time.monotonic() - begin > until:
                            break
                        act(station)
                station.program.kill()
                station.program.wait()
            found = without_place(lines_in(path))
            compared(found, life.events[: len(found)])
            kept_at_least(home / "database", found)
            with Resident(home, "--events", path, port=free_port()) as station:
                awaited(path, len(found) + 1)
                stopped(station)
            expect([event["event"] for event in lines_in(path)][len(found) :], ["started"], "the next life")


def kept_at_least(database, found):
    """The database has each file that came or was submitted, and each response that was issued, by its number."""
    for kind, events in (("in", ["came"]), ("out", ["submitted"]), ("issued", ["released", "refused here"])):
        done = subprocess.run([PROGRAM, "report", "--db", database, "--json", kind], capture_output=True, timeout=LONG, check=True)
        kept = {row["no"] for row in json.loads(done.stdout) if row.get("state") != "open"}
        told_of = {event["no"] for event in found if event["event"] in events}
        expect(told_of - kept, set(), f"what was told of {kind} and isn't kept")


def attached(station, path):
    """A tracer of the writes of a station, which goes to a file."""
    words = ["strace", "-f", "-y", "-x", "-s", "99999", "-e", "trace=write,sendto,pwrite64,fdatasync,fsync", "-o", path, "-p", str(station.program.pid)]
    tracer = subprocess.Popen(words, stderr=subprocess.PIPE)
    if b"attached" not in tracer.stderr.readline():
        raise NotTried("strace: that each line is one write, behind that of its answer")
    return tracer


def writes(room):
    """Each line is one write. That of a file that came is behind its commit and behind the answer to the partner."""
    if not shutil.which("strace"):
        raise NotTried("strace: that each line is one write, behind that of its answer")
    path = room / "events"
    steps = row_files.Row(row_files.ROWS / "receiving/one_octet.row").sessions()[0].steps
    with Resident(room, "--events", path) as station:
        tracer = attached(station, room / "writes")
        played(station, steps)
        awaited(path, 5)
        stopped(station)
        tracer.communicate(timeout=LONG)
    calls = (room / "writes").read_text().splitlines()
    lines = [call for call in calls if f"<{path}>" in call]
    expect(len(lines), len(lines_in(path)) - 1, "a write for each line")
    for call in lines:
        expect(bool(re.search(r'}\\n", (\d+)\) += \1$', call)), True, f"one write of a line: {call}")
    came = place_of(calls, f"<{path}>", r"\"came\"")
    answer = place_of(calls, "<socket:", "".join(f"\\x{octet:02x}" for octet in EFPA))
    committed = max(place for place, call in enumerate(calls[:answer]) if "sync(" in call and f"{station.database}" in call)
    expect((committed < answer, answer < came), (True, True), "the commit is before the answer, and that before the line")


def place_of(calls, *words):
    """The place of the first of these calls that has all these words."""
    for place, call in enumerate(calls):
        if all(word in call for word in words):
            return place
    raise Wrong(f"no call has {words}")


def cut(room):
    """A file of events that is copied and cut, as logrotate does it: the next line begins it again."""
    path = room / "events"
    wrong = row_files.Row(row_files.ROWS / "opening/wrong_password.row").sessions()[0].joined("in")
    with Resident(room, "--events", path) as station:
        played(station, [("in", wrong)])
        awaited(path, 2)
        first = [event["event"] for event in lines_in(path)]
        os.truncate(path, 0)
        played(station, [("in", wrong)])
        awaited(path, 1)
        stopped(station)
    expect((first, [event["event"] for event in lines_in(path)]), (["started", "not let in"], ["not let in"]), "the events")


def lost_at(port, count):
    """How many events the metrics of a station say are lost, once they are so many, or after ten seconds."""
    until = time.monotonic() + 10
    while True:
        with socket.create_connection(("127.0.0.1", port), timeout=LONG) as client:
            client.sendall(f"GET /metrics HTTP/1.1\r\nHost: 127.0.0.1:{port}\r\n\r\n".encode())
            found = re.search(r"(?m)^oftp_events_lost_total (\d+)$", rest_of(client).decode())
        lost = int(found[1]) if found else 0
        if lost >= count or time.monotonic() > until:
            return lost
        time.sleep(0.05)


def left_cut(room):
    """A line that an earlier run left cut is ended, and what follows stands on lines of its own."""
    path = room / "events"
    path.write_bytes(b'{"at":"2026')
    with Resident(room, "--events", path) as station:
        awaited(path, 2)
        stopped(station)
    cut, line = path.read_bytes().splitlines(keepends=True)
    expect((cut, told.event_in(line)["event"]), (b'{"at":"2026\n', "started"), "the lines")


def full_device(room):
    """A device that is full: sessions and orders go on, and end as without events. Each line that is lost is counted."""
    session = row_files.Row(row_files.ROWS / "receiving/one_octet.row").sessions()[0]
    file = room / "file"
    file.write_bytes(b"x")
    port = free_port()
    with Resident(room, "--events", "/dev/full", "--http-port", str(port)) as station:
        line = played(station, session.steps)
        expect(line, f"session {CARMAKER} in: {session.end[1].strip()}", "the line")
        expect(station.give("submit", *IDENTITY, file).stdout, b"done: submit 1\n", "submit")
        expect(station.give("release", "1").stdout, b"done: release 1\n", "release")
        # The start, four of the session, and one of each order.
        expect(lost_at(port, 7), 7, "how many are lost")
        stopped(station)
    done = subprocess.run([PROGRAM, "refuse", "--db", room / "database", *OPTIONS, "--events", "/dev/full", "1", "9", ""], capture_output=True, check=False)
    expect(done.stdout, b"refused: 3 state\n", "refuse")


@contextlib.contextmanager
def small_disk(path, size):
    """A file system of this size in memory."""
    path.mkdir()
    done = subprocess.run(["mount", "-t", "tmpfs", "-o", f"size={size}", "tmpfs", path], capture_output=True, text=True, timeout=LONG, check=False)
    if done.returncode:
        raise NotTried(f"a file system in memory: events on a disk that is full ({done.stderr.strip()})")
    try:
        yield
    finally:
        subprocess.run(["umount", "--lazy", path], timeout=LONG, check=True)


def all_told(station, path, count):
    """Waits until so many events were written or lost, or for as long as anything takes."""
    until = time.monotonic() + 10
    while time.monotonic() < until:
        counters = json.loads(station.give("status", "--json").stdout)["counters"]
        lost = sum(it["count"] for it in counters if it["kind"] == "event lost")
        if path.read_bytes().count(b"\n") + lost >= count:
            return
        time.sleep(0.01)


def full_disk(room):
    """A disk that has room for a part of a line. Once it has more, the next line stands by itself."""
    file, disk = room / "file", room / "disk"
    file.write_bytes(b"abc")
    path = disk / "events"
    with small_disk(disk, "4k"), Resident(room, "--events", path) as station:
        for number in range(40):
            stamp = ["--dataset", f"N{number}", "--date", "20240201", "--time", "0800000001", "--to", CARMAKER, "--format", "U"]
            expect(station.give("submit", *stamp, file).returncode, 0, "submit")
        all_told(station, path, 41)
        full = path.read_bytes()
        expect((len(full), full.endswith(b"\n")), (4096, False), "the octets of a full disk, and whether a line ends there")
        subprocess.run(["mount", "-o", "remount,size=64k", disk], timeout=LONG, check=True)
        expect(station.give("release", "1").returncode, 1, "release")
        expect(station.give("submit", *IDENTITY, file).returncode, 0, "submit")
        awaited(path, full.count(b"\n") + 2)
        stopped(station)
        found = path.read_bytes()
    expect(found.startswith(full + b"\n"), True, "whether the line that was cut is ended, and nothing else of it")
    expect([told.event_in(line)["event"] for line in found[len(full) + 1 :].splitlines(keepends=True)], ["submitted"], "the lines behind it")


def lasting(room):
    """The seconds of a session in which a partner keeps still are those that it took."""
    path = room / "events"
    steps = row_files.Row(row_files.ROWS / "receiving/one_octet.row").sessions()[0].steps
    heard = [at for at, (side, _) in enumerate(steps) if side == "in"][1]
    with Resident(room, "--events", path) as station:
        with station.caller() as caller:
            begin = time.monotonic()
            for side, octets in steps[:heard]:
                if side == "in":
                    caller.sendall(octets)
                else:
                    caller.recv(len(octets), socket.MSG_WAITALL)
            time.sleep(PAUSE)
            converse(caller, steps[heard:])
        station.line()
        took = time.monotonic() - begin
        awaited(path, 5)
        stopped(station)
    (ended,) = [event for event in lines_in(path) if event["event"] == "session ended"]
    expect(PAUSE - 1 < float(ended["seconds"]) <= took, True, f"{ended['seconds']} seconds of {took}")


def unreached(room):
    """In a network of its own a partner at an address without a way, and one from whom nothing comes back."""
    for way, address, words in ((":", "198.51.100.1", "no route"), (SWALLOWING, "192.0.2.1", "timed out")):
        book, path = room / "book.toml", room / f"events of {address}"
        book.write_text(BOOK.read_text().replace("127.0.0.1", address))
        command = [PROGRAM, "call", "--db", room / "database", "--book", book, "--events", path, "--partner", CARMAKER, "--patience", "2"]
        apart = ["unshare", "--net", "sh", "-c", f'({way}) || exit 77; exec "$@"', "sh"]
        done = subprocess.run([*apart, *command], capture_output=True, timeout=LONG, check=False)
        if done.returncode not in (0, 1):
            raise NotTried("a network namespace: calls that don't connect")
        (event,) = lines_in(path)
        expect((event["event"], event["words"], event["peer"]), ("not reached", words, f"{address}:3305"), "the event")


def at_once(room):
    """Commands that have the database themselves, two at a time, over two databases and one file of events."""
    file = room / "file"
    file.write_bytes(b"abc")
    path = room / "events"

    def submits(database):
        for number in range(20):
            stamp = ["--dataset", f"N{number}", "--date", "20240201", "--time", "0800000001", "--to", CARMAKER, "--format", "U"]
            words = ["submit", "--db", room / database, *OPTIONS, "--events", path, *stamp, file]
            done = subprocess.run([PROGRAM, *words], capture_output=True, check=True)
            expect(done.stdout, f"done: submit {number + 1}\n".encode(), "submit")

    with ThreadPoolExecutor() as pool:
        list(pool.map(submits, ["one", "two"]))
    found = [told.event_in(line) for line in path.read_bytes().splitlines(keepends=True)]
    expect(sorted(event["no"] for event in found), sorted([*range(1, 21)] * 2), "the numbers")


def named(steps, dataset):
    """The steps of a session in which a file comes, under another name."""
    return [(side, octets.replace(b"ASN.0001", dataset)) for side, octets in steps]


def commands(room):
    """Each command that has the database itself. The times are those of the clock, in UTC."""
    begin = datetime.datetime.now(datetime.timezone.utc)
    path, database = room / "events", room / "database"
    steps = row_files.Row(row_files.ROWS / "receiving/one_octet.row").sessions()[0].steps
    with Service(room, "listen", "--events", path) as service:
        with service.caller() as caller:
            converse(caller, steps)
        service.program.wait(LONG)
    with Resident(room, "--events", path, "--jobs", "3") as station:
        for each in (steps, named(steps, b"ASN.0002"), named(steps, b"ASN.0003")):
            played(station, each)
        station.program.wait(LONG)
    wanted = ["started", "session begun", "started to come", "came", "session ended", "stopped"]
    wanted += ["started", "session begun", "refused file", "session ended"]
    wanted += ["session begun", "started to come", "came", "session ended"] * 2 + ["stopped"]
    content, offers, collected = room / "content", room / "offers", room / "collected"
    content.write_bytes(b"abc")
    offers.mkdir()
    collected.mkdir()
    (offers / "NAME.X").write_bytes(b"xyz")
    files = ["--db", database, *OPTIONS, "--events", path]
    alone(["submit", *files, *IDENTITY, content])
    alone(["offer", *files, "--to", CARMAKER, "--from", offers])
    alone(["collect", *files, "--to", collected, "--dataset", "ASN.0001", "--release"])
    alone(["release", *files, "2"])
    alone(["refuse", *files, "3", "34", "no part 7"])
    with sqlite3.connect(database) as connection:
        connection.execute("UPDATE out_file SET state = 'delivered' WHERE no = 1")
    connection.close()
    alone(["resend", *files, "1"])
    alone(["backup", "--db", database, "--events", path, room / "copy"])
    alone(["call", *files, "--partner", CARMAKER])
    wanted += ["submitted", "submitted", "released", "released", "refused here", "submitted", "backup", "not reached"]
    expect([event["event"] for event in lines_in(path)], wanted, "the events")
    last = lines_in(path)[-1]
    expect((last["partner"], last["way"], last["words"]), (CARMAKER, "out", "refused"), "the call")
    expect(lines_in(path)[-2]["words"], str(room / "copy"), "the backup")
    book = room / "book.toml"
    book.write_text(re.sub("127.0.0.1", "nowhere.invalid", BOOK.read_text()))
    alone(["call", "--db", database, "--book", book, "--events", path, "--partner", CARMAKER])
    last = lines_in(path)[-1]
    expect((last["event"], last.get("words"), last.get("peer")), ("not reached", "name not found", "nowhere.invalid:3305"), "a name without address")
    end = datetime.datetime.now(datetime.timezone.utc)
    for event in lines_in(path):
        expect(begin <= datetime.datetime.fromisoformat(event["at"].replace("Z", "+00:00")) <= end, True, f"the time of {event}")


def alone(words):
    """A command that has the database itself."""
    subprocess.run([PROGRAM, *words], env=ELSEWHERE, capture_output=True, timeout=LONG, check=False)


def beside(room):
    """Beside a station `backup` alone writes its own event. What else is asked is written by the station, which `stop` ends in order."""
    path, own, file = room / "events", room / "own", room / "file"
    file.write_bytes(b"abc")
    with Resident(room, "--events", path) as station:
        for words in (["submit", *OPTIONS, *IDENTITY, file], ["backup", room / "copy"]):
            done = subprocess.run([PROGRAM, words[0], "--db", station.database, "--events", own, *words[1:]], capture_output=True, timeout=LONG, check=False)
            expect((done.returncode, done.stderr), (0, b""), words[0])
        done = subprocess.run([PROGRAM, "stop", "--db", station.database], capture_output=True, timeout=LONG, check=False)
        expect(done.stdout, b"done: stop\n", "stop")
        station.ends()
    expect([event["event"] for event in lines_in(own)], ["backup"], "the events of the commands")
    expect([event["event"] for event in lines_in(path)], ["started", "submitted", "stopped"], "those of the station")


class Shared:
    """A folder with the program, a book, a database and a file. Where the superuser runs this, it is another user's, as is the station."""

    def __init__(self, room):
        self.room, self.book, self.file, self.program = room, room / "book.toml", room / "file", PROGRAM
        self.how, self.users = {}, [os.geteuid()]
        shutil.copyfile(BOOK, self.book)
        self.file.write_bytes(b"abc")
        subprocess.run([PROGRAM, "init", "--db", room / "database"], capture_output=True, check=True)
        if os.geteuid() == 0:
            self.how, self.users = {"user": USER, "group": USER, "extra_groups": []}, [0, USER]
            self.program = room / "program"
            # By a process of its own: another thread's child would hold the copy open for writing, and it couldn't be run meanwhile.
            subprocess.run(["cp", PROGRAM, self.program], check=True)
            for path in (room, *room.iterdir()):
                os.chown(path, USER, USER)

    def station(self):
        return Resident(self.room, "--events", self.room / "events", book=self.book, program=self.program, **self.how)

    def submit(self, dataset, user):
        words = [self.program, "submit", "--db", self.room / "database", "--book", self.book, *IDENTITY[2:], "--dataset", dataset, self.file]
        done = subprocess.run(words, capture_output=True, timeout=LONG, check=False, **(self.how if user == USER else {}))
        expect((done.returncode, done.stderr), (0, b""), "submit")

    def submit_as(self, station, dataset, name):
        """The same by a client whose end has this name, and which then leaves it."""
        asked = station.asked("submit", *IDENTITY[2:], "--dataset", dataset, book=self.book.read_bytes(), content=b"abc", name=self.room / name)
        with asked:
            rest_of(asked)

    def ends(self):
        """The names of commands' ends that are left."""
        return sorted(path.name for path in self.room.iterdir() if path.name.startswith(".oftp_command_"))


def whose(_room):
    """A change that a command asks for over the socket has the command's user, also the superuser at another user's station. The name of its end is
    removed, also if the command leaves it, or was killed before it asked. Of a client without such a name no user is told. Of one with that of another
    file neither, and the file stays."""
    # Another user has to get there.
    with tempfile.TemporaryDirectory(dir="/tmp") as path:
        expect_users(Path(path))


def expect_users(room):
    shared = Shared(room)
    (room / ".oftp_command_7").write_bytes(b"")
    with shared.station() as station:
        for number, user in enumerate(shared.users):
            shared.submit(f"N{number}", user)
        expect(shared.ends(), [".oftp_command_7"], "the names of ends")
        shared.submit_as(station, "LEFT", ".oftp_command_99999999")
        expect(shared.ends(), [".oftp_command_7"], "the names of ends behind one that was left")
        with station.client(room / ".oftp_command_8") as killed:
            expect(killed.recv(1), READY, "the first octet to a command")
        until = time.monotonic() + LONG
        while len(shared.ends()) > 1 and time.monotonic() < until:
            time.sleep(0.02)
        expect(shared.ends(), [".oftp_command_7"], "the names of ends behind a command that asked nothing")
        for number, name in enumerate(("other_7", "other", ".oftp_command_x")):
            shared.submit_as(station, f"M{number}", name)
        subprocess.run([PROGRAM, "stop", "--db", station.database], capture_output=True, timeout=LONG, check=False)
        station.ends()
    expect(shared.ends(), [".oftp_command_7", ".oftp_command_x"], "the names of ends at the end")
    wanted = [None, *shared.users, os.geteuid(), None, None, None, None]
    expect([event.get("uid") for event in lines_in(room / "events")], wanted, "the users")


def strangers(room):
    """Callers who aren't let in: by a wrong password, by an unknown code, and one who says nothing. No line has a password."""
    path = room / "events"
    wrong = row_files.Row(row_files.ROWS / "opening/wrong_password.row").sessions()[0].joined("in")
    with Resident(room, "--events", path, "--admission", "1") as station:
        for said in (wrong, wrong.replace(CARMAKER.encode(), b"O0178CARMAKER"), b""):
            played(station, [("in", said)])
        awaited(path, 4)
        stopped(station)
    found = [event for event in lines_in(path) if event["event"] == "not let in"]
    said = [tuple(event.get(key) for key in ("partner", "way", "reason", "words", "end")) for event in found]
    wanted = [
        (CARMAKER, "in", "04", "invalid password", "end: own 04"),
        ("O0178CARMAKER", "in", "03", "user code not known", "end: own 03"),
        (None, "in", None, None, "end: input"),
    ]
    expect(said, wanted, "who wasn't let in")
    expect([event["peer"].startswith("127.0.0.1:") for event in found], [True] * 3, "their addresses")
    expect(b"WRONG" in path.read_bytes(), False, "a password")


def pipe(room):
    """A pipe, the book and the database's own files aren't appended to."""
    os.mkfifo(room / "pipe")
    subprocess.run([PROGRAM, "init", "--db", room / "database"], check=True, capture_output=True)
    for path in (room / "pipe", room / "database", f"{room}/database-wal", BOOK):
        words = ["run", "--db", room / "database", *OPTIONS, "--port", str(free_port()), "--events", path]
        done = subprocess.run([PROGRAM, *words], capture_output=True, timeout=LONG, check=False)
        expect((done.returncode, done.stdout, done.stderr), (1, b"", b"fault: 7 file\n"), f"{path}")


def two_stations(room):
    """Two stations with a file for each other: what left one came to the other, and so did the responses."""
    homes = [room / name for name in ("supplier", "carmaker")]
    ports = [free_port(), free_port()]
    books = []
    for home, other in zip(homes, reversed(ports)):
        home.mkdir()
        book = home / "book.toml"
        book.write_text(book_of(home.name, {"buffer": 1024, "credit": 2, "restart": "true"}, other))
        books.append(book)
    partners = [model_code(books[1]), model_code(books[0])]
    with contextlib.ExitStack() as both:
        stations = [both.enter_context(Resident(home, "--events", home / "events", "--http-port", "0", book=book, port=port)) for home, book, port in zip(homes, books, ports)]

        def give(at, command, *words):
            database = stations[at].database
            done = subprocess.run([PROGRAM, command, "--db", database, "--book", books[at], *words], capture_output=True, timeout=LONG, check=False)
            expect(done.returncode, 0, f"{command}: {done.stderr}")
            return done.stdout

        for at in (0, 1):
            file = homes[at] / "file"
            file.write_bytes(os.urandom(5000))
            give(at, "submit", "--dataset", f"F{at}", "--date", "20240201", "--time", "0800000001", "--to", partners[at], "--format", "U", file)
        give(0, "call", "--partner", partners[0])
        give(0, "release", "1")
        give(1, "refuse", "1", "34", "no part 7")
        give(1, "call", "--partner", partners[1])
        for home, station in zip(homes, stations):
            awaited(home / "events", 13)
            stopped(station)
    events = [lines_in(home / "events") for home in homes]
    keys = ("dataset", "date", "time", "originator", "destination", "format", "rows", "units")
    for here, there in ((0, 1), (1, 0)):
        sent = [[event[key] for key in keys] for event in events[here] if event["event"] == "handed over"]
        got = [[event[key] for key in keys] for event in events[there] if event["event"] == "came"]
        expect((len(sent), sent), (1, got), "the files")
        answer = ("dataset", "kind", "reason", "words", "text")
        sent = [[event.get(key) for key in answer] for event in events[here] if event["event"] == "response sent"]
        got = [[event.get(key) for key in answer] for event in events[there] if event["event"] == "response received"]
        expect((len(sent), sent), (1, got), "the responses")
    counts = [[(event["sent"], event["received"]) for event in of if event["event"] == "session ended"] for of in events]
    expect(counts, [[(1, 1), (1, 1)], [(1, 1), (1, 1)]], "the counts")
    octets = [[(event["octets_in"], event["octets_out"]) for event in of if event["event"] == "session ended"] for of in events]
    expect(octets[0], [(there, here) for here, there in octets[1]], "what went is what came")
    # In the first session a file of 5,000 octets goes each way.
    expect(all(5_000 < count < 6_000 for count in octets[0][0]), True, f"the octets of a session, {octets[0]}")
    expect(all(event["seconds"] < LONG for of in events for event in of if event["event"] == "session ended"), True, "the seconds")


def model_code(book):
    return told.book_in(book)["code"]


CASES = {case.__name__: case for case in (rows, writes, cut, left_cut, full_device, full_disk, lasting, at_once)}
CASES |= {case.__name__: case for case in (commands, beside, whose, strangers, unreached, pipe, two_stations)}
SEEDED = {case.__name__: case for case in (lives, kills)}


def tried(name, seed):
    with tempfile.TemporaryDirectory() as folder:
        try:
            if name in SEEDED:
                SEEDED[name](Path(folder), seed)
            else:
                CASES[name](Path(folder))
        except NotTried as what:
            print(f"NOT TRIED without {what}")
        except (Wrong, subprocess.SubprocessError, OSError, ValueError, LookupError) as why:
            print(f"FAIL {name}: {type(why).__name__}: {why}")
            return False
    return True


def main():
    words = sys.argv[1:]
    seed = random.randrange(10**6)
    if words[:1] == ["--seed"]:
        seed, words = int(words[1]), ["lives"]
    names = [name for name in (*CASES, *SEEDED) if not words or any(word in name for word in words)]
    with ThreadPoolExecutor(4) as pool:
        done = list(pool.map(lambda name: tried(name, seed), names))
    print(f"{sum(done)} passed, {len(done) - sum(done)} failed")
    return int(not all(done) or not done)


if __name__ == "__main__":
    sys.exit(main())
