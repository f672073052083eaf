#!/usr/bin/env python3
"""Shows that `run` tells how it stands: GET /status, /metrics and /events, and `status`, `health` and `settled`, over real processes.

    checks/scenarios/status.py [WORD ..]         all cases, or those whose names have one of these words

The numbers are compared with what stock sqlite3 reads of the database, with the sessions that were played, and with the backups that were made.
Both are answered within a session and within half a transfer, for hosts of this machine alone, and by `run` alone. promtool of Debian's
prometheus accepts what /metrics says. `health` is tried on a made-up month until its file passes a limit: at the limit nothing is overdue, a second
later it is. The last line is `N passed, M failed`.
"""

import calendar
import collections
import json
import re
import shutil
import socket
import sqlite3
import subprocess
import sys
import tempfile
import threading
import time
from concurrent.futures import ThreadPoolExecutor
from pathlib import Path

sys.path.insert(0, str(Path(__file__).resolve().parents[1] / "lib"))

import filled
import row_files
from program import PROGRAM
from services import BOOK, CARMAKER, LONG, NotTried, Resident, Service, Wrong, expect, free_port, rest_of

STAMPED = ["--to", CARMAKER, "--format", "U"]
# The seconds that a clock may go on between two looks at it.
SOON = 30


def session_of(name):
    return row_files.Row(row_files.ROWS / f"{name}.row").sessions()[0]


ONE_OCTET = session_of("receiving/one_octet")
NOTHING_WAITING = session_of("listening/nothing_waiting")
WRONG = session_of("opening/wrong_password")


def get(port, target, method="GET", host="127.0.0.1"):
    """The status, the media type and the body of a reply."""
    with socket.create_connection(("127.0.0.1", port), timeout=LONG) as client:
        client.sendall(f"{method} {target} HTTP/1.1\r\nHost: {host}:{port}\r\n\r\n".encode())
        head, _, body = rest_of(client).partition(b"\r\n\r\n")
    fields = dict(line.split(": ", 1) for line in head.decode().split("\r\n")[1:])
    expect(int(fields["Content-Length"]), len(body), "the length of the body")
    return int(head.split()[1]), fields["Content-Type"], body


def status(port):
    code, media, body = get(port, "/status")
    expect((code, media), (200, "application/json"), "the reply for /status")
    return json.loads(body)


MOST = 1 << 20


def last_lines(octets):
    """The whole lines within the last octets of a file that are told."""
    *lines, cut = octets.split(b"\n")
    room, told = MOST - len(cut), []
    while lines and len(lines[-1]) < room:
        told.append(lines.pop() + b"\n")
        room -= len(told[-1])
    return b"".join(reversed(told))


SAMPLE = re.compile(r'^(oftp_[a-z_]+)(\{.*\})? (\d+)$')


def metrics(port):
    """The samples of /metrics: by name, the value of each set of labels."""
    code, media, body = get(port, "/metrics")
    expect((code, media), (200, "text/plain; version=0.0.4; charset=utf-8"), "the reply for /metrics")
    samples = collections.defaultdict(dict)
    for line in body.decode().splitlines():
        if not line.startswith("#"):
            name, labels, value = SAMPLE.match(line).groups()
            samples[name][labels or ""] = int(value)
    return samples


def play(service, session):
    with service.caller() as caller:
        caller.sendall(session.joined("in"))
        caller.shutdown(socket.SHUT_WR)
        expect(rest_of(caller), session.joined("out"), "the station sent")
    service.line()


def submit(service, room, number, date, stamp):
    file = room / "file"
    file.write_bytes(b"A")
    done = service.give("submit", "--dataset", f"INV.{number}", "--date", date, "--time", stamp, *STAMPED, file)
    expect(done.stdout, f"done: submit {number}\n".encode(), "a submission")


def moment(date, stamp):
    return calendar.timegm(time.strptime(date + stamp[:6], "%Y%m%d%H%M%S"))


def counts_of_a_database(room):
    """Files by partner and state, and the oldest of each, as stock sqlite3 reads them."""
    port = free_port()
    with Resident(room, "--http-port", str(port)) as service:
        play(service, ONE_OCTET)
        stamps = [("20260301", "0800000001"), ("20240229", "2359590001"), ("20251231", "2359590001")]
        for number, (date, stamp) in enumerate(stamps, 1):
            submit(service, room, number, date, stamp)
        told = status(port)
        copy = room / "copy"
        expect(service.give("backup", copy).stdout, b"done: backup\n", "a backup")
        with sqlite3.connect(copy) as database:
            out = database.execute("SELECT count(*) FROM out_file").fetchone()[0]
            came = database.execute("SELECT count(*) FROM in_file").fetchone()[0]
        files = {(of["way"], of["state"]): of for of in told["files"]}
        expect(files["out", "waiting"]["count"], out, "the files that wait")
        expect(files["in", "whole"]["count"], came, "the files that came")
        expect(files["out", "waiting"]["first"], moment(*stamps[1]), "the oldest of them")
        expect(files["out", "waiting"]["last"], moment(*stamps[0]), "the newest of them")
        samples = metrics(port)
        labels = f'{{way="out",state="waiting",partner="{CARMAKER}"}}'
        expect(samples["oftp_files"][labels], out, "oftp_files")
        age = samples["oftp_oldest_seconds"][labels] - (time.time() - moment(*stamps[1]))
        expect(abs(age) < SOON, True, f"the age of the oldest, {age:.0f} s off")
        expect(told["octets"], samples["oftp_database_bytes"][""], "the size in both")
        expect(samples["oftp_database_bytes"][""], service.database.stat().st_size, "the size of the database")
        expect(service.give("release", "1").stdout, b"done: release 1\n", "a release")
        states = {of["state"] for of in status(port)["files"]}
        expect(states, {"due", "waiting"}, "the states after a release")


def sessions_and_backups(room):
    """Sessions by partner and end, callers that weren't let in by reason, and backups, each counted once."""
    port = free_port()
    begun = time.time()
    with Resident(room, "--http-port", str(port)) as service:
        expect(metrics(port)["oftp_sessions_total"], {}, "sessions before the first")
        for session in (NOTHING_WAITING, NOTHING_WAITING, WRONG):
            play(service, session)
        expect(service.give("backup", room / "copy").stdout, b"done: backup\n", "a backup")
        samples = metrics(port)
        good = {key: value for key, value in samples["oftp_sessions_total"].items() if CARMAKER in key and ' 00"' in key}
        expect(list(good.values()), [2], "good sessions")
        expect(samples["oftp_not_let_in_total"], {'{reason="04"}': 1}, "callers that weren't let in")
        expect(samples["oftp_backups_total"], {"": 1}, "backups")
        last = samples["oftp_last_good_session_timestamp_seconds"][f'{{partner="{CARMAKER}",way="in"}}']
        expect(begun - 1 <= last <= time.time(), True, "when the last good session ended")
        expect(begun - SOON <= samples["oftp_start_time_seconds"][""] <= time.time(), True, "when the station began")
        words = {of.get("words") for of in status(port)["counters"] if of["kind"] == "session"}
        expect(all("normal" in each for each in words), True, f"the ends in words, {words}")


def within_a_session(room):
    """Both are answered while a partner is in a session and keeps still."""
    port = free_port()
    with Resident(room, "--http-port", str(port)) as service, service.caller() as caller:
        octets = [piece for side, piece in NOTHING_WAITING.steps if side == "in"]
        caller.sendall(octets[0])
        begun, wanted = b"", b"".join(piece for side, piece in NOTHING_WAITING.steps[:3] if side == "out")
        while len(begun) < len(wanted):
            begun += caller.recv(65536)
        begin = time.monotonic()
        going = status(port)["session"]
        expect((going["partner"], going["way"]), (CARMAKER, "in"), "the session that is going on")
        expect(metrics(port)["oftp_sessions_running"][""], 1, "oftp_sessions_running")
        expect(time.monotonic() - begin < SOON, True, "how long both took")
        caller.sendall(b"".join(octets[1:]))
        caller.shutdown(socket.SHUT_WR)
        rest_of(caller)
        service.line()
        expect(status(port)["session"], None, "the session after its end")


def patiently(port, target):
    """The reply of a service that may not listen yet."""
    until = time.monotonic() + LONG
    while True:
        try:
            return get(port, target)
        except ConnectionRefusedError:
            if time.monotonic() > until:
                raise
            time.sleep(0.02)


def only_where_they_are(room):
    """Other methods, other hosts and other targets are refused as before, and `http` has neither."""
    port = free_port()
    with Resident(room, "--http-port", str(port)):
        for target in ("/status", "/metrics"):
            expect(get(port, target)[0], 200, target)
            expect(get(port, target, method="POST")[0], 404, f"POST {target}")
            expect(get(port, target, host="example.org")[0], 400, f"{target} for another host")
            expect(get(port, target + "x")[0], 404, f"{target}x")
    folder = room / "http"
    folder.mkdir()
    with Service(folder, "http", "--requests", "3") as service:
        for target in ("/status", "/metrics", "/events"):
            expect(patiently(service.port, target)[0], 404, f"{target} of http")
        service.ends()


def events_over_http(room):
    """GET /events tells the whole last lines of the file, up to 1 MiB, within a session too. If there is no file it is an unknown target."""
    port, path = free_port(), room / "events"
    line = b'{"made": "up"}\n\n'
    contents = [b"", line, b"cut", line + b"cut", line * 65_536, b"x\n" + line * 65_536, b"x" + line * 65_536, line * 65_536 + b"cut", b"x" * 2 * MOST]
    with Resident(room, "--http-port", str(port), "--events", path) as service:
        play(service, ONE_OCTET)
        until = time.monotonic() + LONG
        while b'"session ended"' not in path.read_bytes() and time.monotonic() < until:
            time.sleep(0.02)
        expect(get(port, "/events"), (200, "application/x-ndjson", path.read_bytes()), "the reply for /events")
        expect(path.read_bytes().endswith(b"}\n"), True, "whether the file ends with a line")
        for content in contents:
            path.write_bytes(content)
            expect(get(port, "/events"), (200, "application/x-ndjson", last_lines(content)), f"the lines of {content[:20]}, {len(content)} octets")
        with service.caller():
            expect(get(port, "/events")[0], 200, "the reply beside a caller")
        path.unlink()
        expect(get(port, "/events"), get(port, "/event"), "the reply where the file is gone")
        expect(get(port, "/events", method="POST")[0], 404, "POST /events")
        expect(get(port, "/events", host="example.org")[0], 400, "/events for another host")
    for words in ((), ("--events", "/dev/null")):
        with Resident(room, "--http-port", str(port), *words):
            expect(get(port, "/events"), get(port, "/event"), f"the reply with {words}")


def many_files(room):
    """Of 2,000 files both are told in a moment."""
    port = free_port()
    empty, many = room / "empty", room / "many"
    subprocess.run([PROGRAM, "init", "--db", empty], stdout=subprocess.DEVNULL, timeout=LONG, check=True)
    filled.settle(empty)
    many.mkdir()
    filled.fill_many(empty, many / "database", 2000)
    with Resident(many, "--http-port", str(port)):
        begin = time.monotonic()
        told = status(port)
        counted = sum(of["count"] for of in told["files"])
        expect(counted >= 2000, True, f"how many files are counted, {counted}")
        expect(time.monotonic() - begin < SOON, True, "how long it took")


def given(room, command, *words):
    done = subprocess.run([PROGRAM, command, "--db", room / "database", *words], capture_output=True, text=True, timeout=LONG, check=False)
    return done.returncode, done.stdout, done.stderr


def told_by_commands(room):
    """`status --json` tells what GET /status does, `status` the same for people, and two of each at once."""
    port = free_port()
    with Resident(room, "--http-port", str(port), "--call-every", "3600") as service:
        play(service, ONE_OCTET)
        play(service, WRONG)
        submit(service, room, 1, "20260301", "0800000001")
        over_http = status(port)
        code, text, err = given(room, "status", "--json")
        expect((code, err), (0, ""), "status --json")
        told = json.loads(text)
        expect(told.keys(), over_http.keys(), "the keys")
        told.pop("now"), over_http.pop("now")
        expect(told, over_http, "what both tell")
        expect(told["partners"][0].keys(), {"code", "next_call"}, "the keys of a partner that is called by the clock")
        code, text, err = given(room, "status")
        expect((code, err), (0, ""), "status")
        lines = text.splitlines()
        line = subprocess.run([PROGRAM, "version"], capture_output=True, text=True, timeout=LONG, check=True).stdout
        expect(f"oftp_station {told['version']}, " in line, True, f"the version {told['version']} of {line}")
        expect(lines[0].startswith(f"version {told['version']}, up for "), True, lines[0])
        expect("no session" in lines, True, "the line of no session")
        expect(f"to do: release or refuse 1 from {CARMAKER}" in lines, True, f"what is to be done, in {lines}")
        expect(any(line.startswith("not let in: own 04 ") for line in lines), True, f"who wasn't let in, in {lines}")
        expect(any(line.startswith(f"{CARMAKER}, next call in ") for line in lines), True, f"the next call, in {lines}")
        with ThreadPoolExecutor(max_workers=4) as runners:
            done = list(runners.map(lambda words: given(room, *words)[0], [("status",), ("status", "--json"), ("health",), ("health",)]))
        # The file that came has a stamp of 2024, so it is long overdue.
        expect(done, [0, 0, 2, 2], "two of each at once")


def told_within_a_session(room):
    """`status` tells with whom a session goes on, and `health` and `settled` are answered meanwhile."""
    with Resident(room) as service, service.caller() as caller:
        octets = [piece for side, piece in NOTHING_WAITING.steps if side == "in"]
        caller.sendall(octets[0])
        begun, wanted = b"", b"".join(piece for side, piece in NOTHING_WAITING.steps[:3] if side == "out")
        while len(begun) < len(wanted):
            begun += caller.recv(65536)
        begin = time.monotonic()
        expect(f"session in with {CARMAKER}" in given(room, "status")[1].splitlines(), True, "the session")
        expect(given(room, "health")[0], 0, "health")
        expect(given(room, "settled"), (0, "", ""), "settled")
        expect(time.monotonic() - begin < SOON, True, "how long all took")
        caller.sendall(b"".join(octets[1:]))
        caller.shutdown(socket.SHUT_WR)
        rest_of(caller)
        service.line()


def without_a_station(room):
    """Without `run` there is no status, health is critical, and `settled` reads the database. Of a station that leaves nothing is known."""
    expect(given(room, "init")[0], 0, "init")
    expect(given(room, "status"), (1, "", "fault: 8 socket\n"), "status")
    expect(given(room, "health"), (2, "OFTP CRITICAL - no station runs\n", ""), "health")
    expect(given(room, "settled"), (0, "", ""), "settled")
    with Resident(room) as service:
        expect(given(room, "health")[0], 0, "health of a station")
        service.program.kill()
        service.program.wait()
    expect(given(room, "health")[0], 2, "health of a station that was killed")
    with socket.socket(socket.AF_UNIX) as station:
        (room / "database-station").unlink(missing_ok=True)
        station.bind(str(room / "database-station"))
        station.listen()
        threading.Thread(target=forsake, args=[station], daemon=True).start()
        expect(given(room, "health"), (3, "OFTP UNKNOWN - the station gives no verdict\n", ""), "health of a station that leaves")
        station.shutdown(socket.SHUT_RDWR)


def forsake(station):
    """Takes what each command asks, and leaves."""
    while True:
        try:
            command = station.accept()[0]
        except OSError:
            return
        with command:
            command.sendall(b"1")
            command.recv(65536)


HOUR, DAY = 3600, 86400
DATUM = re.compile(r"([a-z]+)=(\d+)s;(\d+);(\d+);0")


def health(room, *words):
    """The exit status of `health`, its line up to the performance data, and that by name: the age, and the limits."""
    code, text, err = given(room, "health", *words)
    expect(err, "", "an error of health")
    front, bar, data = text.rstrip("\n").partition(" | ")
    expect(bar, " | ", f"the bar of {text}")
    return code, front, {name: tuple(int(number) for number in numbers) for name, *numbers in DATUM.findall(data)}


def a_month(database, now, youngest):
    """Thirty files that wait to be sent, one for each day before this age, and as many that came and were answered."""
    with sqlite3.connect(database) as connection:
        for no in range(1, 31):
            stamp = time.gmtime(now - youngest - (30 - no) * DAY)
            day, hour = time.strftime("%Y%m%d", stamp), time.strftime("%H%M%S0001", stamp)
            state = "delivered" if no < 30 else "waiting"
            connection.execute("INSERT INTO out_file VALUES (?, ?, ?, ?, ?, ?, 'U', 0, '', 0, ?, '')", (no, f"INV.{no}", day, hour, filled.OURS, CARMAKER, state))
            connection.execute("INSERT INTO in_file VALUES (?, ?, ?, ?, ?, ?, 'U', 0, '', 'whole')", (no, f"ORD.{no}", day, hour, CARMAKER, filled.OURS))
            connection.execute("INSERT INTO issued VALUES (?, 'EERP', '', '', 1)", (no,))
    connection.close()


def until_overdue(room, age, words, grades):
    """Asks `health` until the file's age passes the limit: up to it the first grade is told, and above it the second."""
    limit = age + 10
    now = int(time.time())
    a_month(room / "database", now, age)
    with Resident(room):
        seen = set()
        for _ in range(1000):
            code, line, data = health(room, *words)
            seconds = data["send"][0]
            expect(code, grades[seconds > limit], f"the exit status at {seconds} s of {limit} s, with {line!r}")
            seen.add(min(max(seconds - limit, -1), 1))
            if 1 in seen:
                break
            time.sleep(0.1)
        expect(seen >= {-1, 0, 1}, True, f"ages below, at and above the limit, {seen}")
    return line, data


def overdue_is_a_warning(room):
    """On a made-up month: up to the first limit all is well, and a second later it is a warning."""
    expect(given(room, "init")[0], 0, "init")
    line, data = until_overdue(room, 24 * HOUR - 10, [], (0, 1))
    expect(line, f"OFTP WARNING - {CARMAKER}: a file waits 24 h 0 min to be sent", "the line")
    expect(data["send"][1:], (24 * HOUR, 48 * HOUR), "the limits")
    expect((data["release"][0], data["confirm"][0]), (0, 0), "the ages of what is answered")


def very_overdue_is_critical(room):
    """The same at the second limit, which is given."""
    expect(given(room, "init")[0], 0, "init")
    line, data = until_overdue(room, 3 * HOUR - 10, ["--warn", "1", "--critical=3"], (1, 2))
    expect(line, f"OFTP CRITICAL - {CARMAKER}: a file waits 3 h 0 min to be sent", "the line")
    expect(data["send"][1:], (HOUR, 3 * HOUR), "the limits")


def own_limit_of_a_partner(room):
    """A partner's `overdue` is its first limit, and the second is as far from it as before; what isn't such a limit is ignored. So it is after `reload`."""
    expect(given(room, "init")[0], 0, "init")
    a_month(room / "database", int(time.time()), 3 * HOUR)
    text = BOOK.read_text()
    head, mark, tail = text.partition(f"code = '{CARMAKER}'\n")
    expect(mark != "", True, "the partner in the book")
    book = room / "book"
    cases = {"3h": (0, 0), "2h": (1, 0), "0h": (1, 0), "30h": (0, 0), "2": (0, 0), "2hours": (0, 0), "h": (0, 0), "-2h": (0, 0), "87601h": (0, 0), "": (0, 0)}
    for overdue, (wanted, _) in cases.items():
        book.write_text(f'{head}{mark}overdue = "{overdue}"\n{tail}')
        with Resident(room, book=book):
            if overdue == "3h":
                # So that a second has gone by.
                time.sleep(2)
                wanted = 1
            code, line, _ = health(room, "--warn=24", "--critical=48")
            expect(code, wanted, f"the exit status for {overdue!r}, with {line!r}")
    with Resident(room, book=book):
        for overdue, wanted in (("2h", 1), ("30h", 0)):
            book.write_text(f'{head}{mark}overdue = "{overdue}"\n{tail}')
            expect(given(room, "reload"), (0, "done: reload\n", ""), "reload")
            expect(health(room)[0], wanted, f"the exit status for {overdue!r} in the book that was read again")


def settled_before_and_after(room):
    """A file is open from its first octets until its response was sent; each is a line, beside `run` and without it."""
    with Resident(room) as service:
        expect(given(room, "settled"), (0, "", ""), "settled of nothing")
        play(service, ONE_OCTET)
        whole = f"in 1 ASN.0001 20240131 1015300001 {CARMAKER}: it is to be released or refused\n"
        expect(given(room, "settled"), (1, whole, ""), "settled of a whole file")
        submit(service, room, 1, "20260301", "0800000001")
        waits = f"out 1 INV.1 20260301 0800000001 {CARMAKER}: it is to be sent\n"
        expect(given(room, "settled"), (1, whole + waits, ""), "settled of two files")
        expect(service.give("release", "1").stdout, b"done: release 1\n", "a release")
        due = f"in 1 ASN.0001 20240131 1015300001 {CARMAKER}: its response is to be sent\n"
        with ThreadPoolExecutor(max_workers=2) as runners:
            done = list(runners.map(lambda _: given(room, "settled"), range(2)))
        expect(done, [(1, due + waits, "")] * 2, "two at once")
    expect(given(room, "settled"), (1, due + waits, ""), "settled without a station")
    with sqlite3.connect(room / "database") as connection:
        connection.execute("UPDATE out_file SET state = 'delivered'")
        connection.execute("UPDATE issued SET sent = 1")
    connection.close()
    expect(given(room, "settled"), (0, "", ""), "settled of what is answered")
    with Resident(room):
        expect(given(room, "settled"), (0, "", ""), "the same beside a station")


def accepted_by_promtool(room):
    """`promtool check metrics` finds nothing."""
    if not shutil.which("promtool"):
        raise NotTried("promtool: whether it accepts /metrics")
    port = free_port()
    with Resident(room, "--http-port", str(port)) as service:
        play(service, ONE_OCTET)
        play(service, WRONG)
        submit(service, room, 1, "20260301", "0800000001")
        service.give("backup", room / "copy")
        body = get(port, "/metrics")[2]
    done = subprocess.run(["promtool", "check", "metrics"], input=body, capture_output=True, timeout=LONG, check=False)
    expect((done.returncode, done.stdout + done.stderr), (0, b""), "promtool")


CASES = [
    counts_of_a_database,
    sessions_and_backups,
    within_a_session,
    only_where_they_are,
    events_over_http,
    many_files,
    accepted_by_promtool,
    told_by_commands,
    told_within_a_session,
    without_a_station,
    overdue_is_a_warning,
    very_overdue_is_critical,
    own_limit_of_a_partner,
    settled_before_and_after,
]


def main():
    words = sys.argv[1:]
    passed = failed = 0
    for case in CASES:
        if words and not any(word in case.__name__ for word in words):
            continue
        with tempfile.TemporaryDirectory(dir="/tmp") as room:
            try:
                case(Path(room))
                passed += 1
            except NotTried as what:
                print(f"NOT TRIED without {what}")
            except (Wrong, OSError, KeyError, ValueError, subprocess.SubprocessError) as why:
                failed += 1
                print(f"FAILED {case.__name__}: {why!r}")
    print(f"{passed} passed, {failed} failed")
    return 1 if failed else 0


if __name__ == "__main__":
    sys.exit(main())
