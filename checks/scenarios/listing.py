#!/usr/bin/env python3
"""Asks the built program for the content of its databases, over HTTP and by `report`, and compares whole replies and whole reports.

    checks/scenarios/listing.py [NAME ..]        files of rows/listing and cases below by their names; all if none is named

A file of rows/listing has sessions and commands that fill a database, requests, and the expected replies (rows/README.md). The requests go to one
process of `http` that runs all the time. In addition, each reply with content has to be the JSON text of what stock sqlite3 reads of the database,
octet for octet. Each report is read by Python's `csv` and compared with the same. The last line is `N passed, M failed`; before it come the time
and the memory of a listing of 10,000 files. The time has no bound.

Shows: files of requests and reports: each route with every state and response, octet for octet. Heads that are cut, in pieces, long and crowded;
rows of the database that stand for no entry; texts of any characters, read back. It prints what a list of 10,000 files takes, and bounds its memory
by four times its body, in addition to what the opening takes
"""

import json
import os
import sqlite3
import subprocess
import sys
import tempfile
import time
from concurrent.futures import ThreadPoolExecutor
from pathlib import Path

sys.path.insert(0, str(Path(__file__).resolve().parents[1] / "lib"))

import oftp
import tables
from acts import SECONDS
from listing_files import END, Listing, ask, body_of, check_report, reply_of
from program import PROGRAM
from row_files import ROWS, Bad
from services import Service, Wrong, expect

FILES = ROWS / "listing"
TEXTS = [
    'a "quoted" \\ text / with {braces}, [brackets]: and commas',
    "tab \t line \n return \r bell \x07 null \0 delete \x7f",
    "Straße, 部品, \U0001f697 and \u2028",
    "\x01\x1f\x80\uffff",
]
BOOK = ROWS / "books/usual.toml"
IDENTITY = {"date": "20240131", "time": "1015300001"}
TO_US = {"destination": "O0013SUPPLIER", "originator": "O0177CARMAKER"}


def give(service, *words):
    """The program's output for these arguments."""
    done = subprocess.run([PROGRAM, *words], capture_output=True, timeout=SECONDS, check=False)
    expect((done.returncode, done.stderr), (0, b""), words[0])
    return done.stdout.decode()


def get(service, target):
    return ask(service, [f"GET {target} HTTP/1.1\r\n\r\n".encode()])


def texts_are_read_back(room):
    """A description and a Negative End Response's text of any characters. Neither text is in the report."""
    with Service(room, "http", "--requests", str(2 * len(TEXTS))) as service:
        for number, text in enumerate(TEXTS, 1):
            commands = [
                ("SSID", {"code": "O0177CARMAKER", "password": "CARPW", "buffer": "128", "mode": "B", "credit": "2"}),
                ("SFID", {"dataset": f"A{number}", **IDENTITY, **TO_US, "format": "U", "description": text}),
                ("EFID", {"records": "0", "units": "0"}),
                ("NERP", {"dataset": f"B{number}", **IDENTITY, **TO_US, "creator": "O0177CARMAKER", "reason": "01", "text": text}),
                ("ESID", {"reason": "00"}),
            ]
            given = room / "given"
            given.write_bytes(b"".join(oftp.frame(oftp.spell(kind, fields)) for kind, fields in commands))
            over = ["--db", service.database, "--book", BOOK]
            expect(give(service, "feed", *over, given, room / "answer"), "end: partner 00\n", "the session's end")
            for target in (f"/in/{number}", "/responses"):
                reply = get(service, target)
                expect(reply, reply_of("200", body_of(service.database, target).decode()), f"the reply for {target}")
                value = json.loads(reply.partition(END + END)[2])
                told = value["description"] if "description" in value else value["received"][-1]["note"]
                expect(told, text, f"the text in {target}")
        lines = [f"{number},NERP,B{number},20240131,1015300001,O0177CARMAKER,01,0,O0177CARMAKER\n" for number in range(1, len(TEXTS) + 1)]
        report = give(service, "report", "--db", service.database, "received")
        expect(report, "".join(["no,kind,dataset,date,time,from,reason,file,creator\n", *lines]), "the report")
        check_report(service.database, "received", report)
        service.ends()


MANY = 10_000


def ten_thousand_files(room):
    """A list of many files, made by stock sqlite3. It takes at most four times its body in memory, besides what opening the database takes,
    which one file's object shows. Its time is printed, and has no bound."""
    with Service(room, "http", "--requests", "4") as service:
        expect(get(service, "/in"), reply_of("200", "[]"), "the empty list")
        fill(service.database)
        for target in ("/in/1", "/in", f"/in/{MANY}"):
            before = most_memory(service.program.pid)
            body, time_taken = timed(service, target)
            expect(body, body_of(service.database, target), f"the body for {target}")
            if target == "/in":
                memory = most_memory(service.program.pid) - before
                times = memory / len(body)
                print(f"GET /in over {MANY} files: {time_taken}, over a database of {service.database.stat().st_size} octets")
                print(f"its body: {len(body)} octets, in {memory} octets of memory, {times:.1f} times the body ({before} before)")
        service.ends()
        expect(times <= 4, True, "a list within four times its body")


def timed(service, target):
    """The body for a target, and the time that it takes, in words."""
    begin, worked = time.monotonic(), processor_time(service.program.pid)
    body = get(service, target).partition(END + END)[2]
    return body, f"{time.monotonic() - begin:.2f} s, {processor_time(service.program.pid) - worked:.2f} s of them a processor's"


def fill(database):
    """Many whole files of one row."""
    connection = sqlite3.connect(database)
    with connection:
        for number in range(1, MANY + 1):
            file = (number, f"ASN.{number:07}", "20240131", "1015300001", "O0177CARMAKER", "O0013SUPPLIER", "U", 0, "", "whole")
            connection.execute("INSERT INTO in_file VALUES (?, ?, ?, ?, ?, ?, ?, ?, ?, ?)", file)
            connection.execute("INSERT INTO in_row VALUES (?, 0, ?)", (number, bytes(number % 100 + 1)))
    connection.close()


def processor_time(pid):
    """The processor seconds of a process."""
    fields = Path(f"/proc/{pid}/stat").read_text().rpartition(")")[2].split()
    return (int(fields[11]) + int(fields[12])) / os.sysconf("SC_CLK_TCK")


def most_memory(pid):
    """The peak memory of a process in octets."""
    lines = Path(f"/proc/{pid}/status").read_text().splitlines()
    return next(int(line.split()[1]) * 1024 for line in lines if line.startswith("VmHWM:"))


CASES = [texts_are_read_back, ten_thousand_files]


def tried(play):
    """Plays a file or a case in a folder of its own. It returns why it failed, or None."""
    with tempfile.TemporaryDirectory() as room:
        try:
            play(Path(room))
        except (Bad, Wrong, OSError, subprocess.SubprocessError, sqlite3.Error, tables.Damaged) as why:
            return f"{type(why).__name__}: {why}"
    return None


def main():
    plays = {path.stem: lambda room, path=path: Listing(path).play(room) for path in sorted(FILES.glob("*.listing"))}
    plays.update((case.__name__, case) for case in CASES)
    if sys.argv[1:]:
        plays = {name: play for name, play in plays.items() if name in sys.argv[1:]}
    failed = 0
    with ThreadPoolExecutor(max_workers=os.cpu_count()) as runners:
        for name, why in zip(plays, runners.map(tried, plays.values())):
            failed += why is not None
            if why:
                print(f"{name}: {why}")
    print(f"{len(plays) - failed} passed, {failed} failed")
    return 1 if failed or not plays else 0


if __name__ == "__main__":
    sys.exit(main())
