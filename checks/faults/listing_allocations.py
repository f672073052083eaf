#!/usr/bin/env python3
"""Refuses the allocations of requests and of reports, one after another.

    checks/faults/listing_allocations.py [--allocations N|all]     N allocations of each, evenly spread (default: 40), or all

These are the allocations after the opening of the database; checks/faults/stop_at_each_call.py refuses those of the opening. A request gets
its usual reply, or a whole 503, or no reply, in which case the program ends with an error. A report is as usual, or an error is printed and
nothing of the report is written. It needs a C compiler. The last line is `N passed, M failed`.

Shows: where there is a C compiler: 40 allocations of each request and report are refused, and each refusal is reported
"""

import argparse
import os
import shutil
import subprocess
import sys
import tempfile
from concurrent.futures import ThreadPoolExecutor
from pathlib import Path

sys.path.insert(0, str(Path(__file__).resolve().parents[1] / "lib"))

import listing_files
from acts import in_one_piece, play_act
from program import PROGRAM
from row_files import ROWS, Call
from services import LONG, Service, Wrong
from shims import compile_library, stopping

# The files of rows/listing whose databases are used, with the reports and the requests.
ASKED = {
    "incoming_states": (["in", "issued"], ["GET /in", "GET /in/1", "GET /responses", "POST /in/1", "GET /in/7", "GET /other", "GET"]),
    "outgoing_states": (["out", "received"], ["GET /out", "GET /out/1", "GET /responses"]),
}
# The requests whose reply is the same for every database, so that none is opened for them.
OPEN_NONE = ("GET /other", "GET")
FAULTS = (b"fault: 3 office\n", b"fault: 4 memory\n", b"fault: 6 store 2\n")
UNAVAILABLE = listing_files.reply_of("503", "")


def run(folder, words, environment):
    """What the program prints for these arguments."""
    words = [PROGRAM, words[0], "--db", folder / "database", *words[1:]]
    done = subprocess.run(words, capture_output=True, env={**os.environ, **environment}, timeout=LONG, check=False)
    return done.stdout, done.returncode, done.stderr


def request(folder, line, environment):
    """The reply of `http` to one request."""
    with Service(folder, "http", environment=environment) as service:
        try:
            reply = listing_files.ask(service, [f"{line} HTTP/1.1\r\n\r\n".encode()])
        except ConnectionError:
            reply = b""
        out, err = service.program.communicate(timeout=LONG)
        if out:
            raise Wrong(f"a line of `http`: {out!r}")
        return reply, service.program.returncode, err


class Act:
    """A request or a report over the database of a folder, with its output if no allocation is refused."""

    def __init__(self, name, folder, call, words):
        self.name = name
        self.folder = folder
        self.call = call
        self.words = words
        self.whole = self.tell({})

    def tell(self, environment):
        with tempfile.TemporaryDirectory() as path:
            folder = Path(path) / "folder"
            shutil.copytree(self.folder, folder)
            return self.call(folder, self.words, environment)

    def refuse(self, number, library):
        """Its output with the allocation of this number refused, and whether there is such an allocation."""
        with tempfile.TemporaryDirectory() as path:
            reached = Path(path) / "reached"
            told = self.tell(stopping("refuse", number, library, reached))
            return told, reached.exists()

    def count(self, library):
        """How many allocations it makes."""
        low, high = 0, 1
        while self.refuse(high, library)[1]:
            low, high = high, 2 * high
        while high - low > 1:
            middle = (low + high) // 2
            low, high = (middle, high) if self.refuse(middle, library)[1] else (low, middle)
        return low

    def judge(self, number, library):
        """Whether the refused allocation was reported."""
        told, _ = self.refuse(number, library)
        if told == self.whole:
            return False
        if told == (UNAVAILABLE, 0, b"") and self.call is request:
            return True
        octets, status, fault = told
        if octets or status != 1 or fault not in FAULTS:
            raise Wrong(f"{self.name}, allocation {number}: {told!r}")
        return True


def numbers_of(act, opening, library):
    """The numbers of the allocations after the opening. `http` opens the database twice, and reads the request in between; for some
    requests it opens it once, before them."""
    last = act.count(library)
    if act.call is run or act.words in OPEN_NONE:
        return range(opening + 1, last + 1)
    left = last - 2 * opening
    return [*range(opening + 1, opening + left + 1), *range(last - left + 1, last + 1)]


def fill(folder, name):
    """Makes a folder with the database of a file of rows/listing."""
    folder.mkdir()
    for act in listing_files.Listing(ROWS / f"listing/{name}.listing").acts:
        if not isinstance(act, listing_files.Request) and not (isinstance(act, Call) and act.words[0] == "report"):
            why = play_act(in_one_piece, act, folder, folder / "database")
            if why:
                raise SystemExit(f"{name} goes otherwise: {why}")


def acts_over(folder, name):
    """The reports and requests over the database of a folder."""
    reports, requests = ASKED[name]
    told = [Act(f"report {kind}", folder, run, ["report", kind]) for kind in reports]
    return told + [Act(line, folder, request, line) for line in requests]


def try_each(act, numbers, library, runners):
    """Refuses these allocations. It returns how many refusals were reported, and which outputs were wrong."""

    def one(number):
        try:
            return act.judge(number, library), None
        except (Wrong, OSError, subprocess.SubprocessError) as why:
            return False, str(why)

    tried = list(runners.map(one, numbers))
    told = sum(is_told for is_told, _ in tried)
    faults = [why for _, why in tried if why]
    return told, faults if told else [*faults, f"{act.name}: no refusal was told"]


def main():
    parser = argparse.ArgumentParser(description=__doc__.splitlines()[0])
    parser.add_argument("--allocations", default="40")
    most = parser.parse_args().allocations
    passed = failed = 0
    with tempfile.TemporaryDirectory() as path, ThreadPoolExecutor(max_workers=os.cpu_count()) as runners:
        library = compile_library(Path(path), "refuse_allocation")
        for name in ASKED:
            folder = Path(path) / name
            fill(folder, name)
            opening = Act("init", folder, run, ["init"]).count(library)
            acts = acts_over(folder, name)
            for act, numbers in zip(acts, runners.map(lambda act: numbers_of(act, opening, library), acts)):
                some = numbers[:: 1 if most == "all" else max(len(numbers) // int(most), 1)]
                told, faults = try_each(act, some, library, runners)
                said = f"{act.name}: {len(some)} of {len(numbers)} allocations refused in turn, {told} told"
                print("\n".join([*faults[:5], said]), flush=True)
                failed += len(faults)
                passed += len(some) - len(faults)
    print(f"{passed} passed, {failed} failed")
    return 1 if failed else 0


if __name__ == "__main__":
    sys.exit(main())
