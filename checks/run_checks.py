#!/usr/bin/env python3
"""Runs the checks over processes of the program, and prints the whole output of each when it ends.

    checks/run_checks.py [--quick] [--list] [NAME ..]      those with these names, or all of the table below; with `--list` it only
                                                           prints the names
    checks/run_checks.py --install                         lets apt-get install what some checks need besides the program, if it is missing

Checks that measure time or memory run alone, one after another. All others run in parallel before them, as many as there are processors. With
`--quick` the program is the checked one, and what only the gate builds is left out. The program is that of OFTP_STATION, or else
crates/oftp_station/out/oftp_station. If a check fails, or doesn't end within its time limit, the whole run fails. The others run nevertheless,
and what those printed last that failed is printed again at the end. The last lines say what wasn't tried, and what was missing; where CI is
`true` that fails too, if apt-get has it. The very last line is `N passed, M failed`: the rows that passed, or the checks if the rows aren't
among them, and the checks that failed.
"""

import argparse
import os
import shutil
import signal
import subprocess
import sys
import tempfile
import threading
import time
from concurrent.futures import ThreadPoolExecutor
from pathlib import Path
from typing import NamedTuple, Optional

ROOT = Path(__file__).resolve().parent.parent
# The time limit of a check. The longest takes some ten minutes on two processors; this is for one that hangs.
LIMIT = 3600
# How many of the last lines of a check that failed are printed again.
LAST = 12
ALONE = True


class Check(NamedTuple):
    """A check: its name, its command, what it tries, whether it runs alone, and whether it needs a C compiler. Also its command with `--quick`
    if that differs, and whether `--quick` leaves it out."""

    name: str
    command: str
    tries: str
    is_alone: bool = False
    wants_cc: bool = False
    quick: Optional[str] = None
    is_of_gate: bool = False


# Those that run in parallel are in the order in which they begin: the longest first.
CHECKS = [
    Check("wrong bodies", "python3 checks/wrong_bodies/wrong_bodies.py --of-the-day", "wrong bodies of one crate, another each day", is_of_gate=True),
    Check("stops", "python3 checks/faults/stop_at_each_call.py", "a day, stopped at each call on the database, and with allocations refused", wants_cc=True),
    Check("stops of two", "python3 checks/faults/two_stations.py --stops --every 1", "two stations, one stopped at each call on its database", wants_cc=True),
    Check("listing allocations", "python3 checks/faults/listing_allocations.py", "requests and reports, with allocations refused", wants_cc=True),
    Check(
        "allocations",
        "bash checks/faults/each_allocation_refused.sh built",
        "each allocation of the program and of some tests refused in turn",
        wants_cc=True,
        quick="bash checks/faults/each_allocation_refused.sh program",
    ),
    Check("ports", "python3 checks/faults/ports_fail.py", "sessions whose reader or writer fails at one octet after another", wants_cc=True),
    Check("rows", "python3 checks/scenarios/play_rows.py", "the rows of sessions and of operators, in several ways, in memory, over a database and in a life"),
    Check("cut rows", "python3 checks/faults/cut_rows.py", "the sessions of the rows, cut at one octet after another in a life of a station"),
    Check("stops in a life", "python3 checks/faults/stop_a_life.py", "a station stopped at each call on its database in one life", wants_cc=True),
    Check("two stations", "python3 checks/faults/two_stations.py", "two stations, whose connection breaks at one octet after another"),
    Check("stops of residents", "python3 checks/faults/two_stations.py --residents --stops --every 1", "two that hold their databases, one stopped", wants_cc=True),
    Check("broken residents", "python3 checks/faults/two_stations.py --residents", "two that hold their databases, whose connection breaks"),
    Check("two residents", "python3 checks/faults/two_residents.py", "two that hold their databases, with operators, cut off and killed at random"),
    Check("two services", "python3 checks/faults/two_services.py", "two stations as processes, cut off and killed at random moments"),
    Check("three stations", "python3 checks/faults/three_stations.py", "three stations as processes, and a fourth partner that sends anything"),
    Check("kills", "python3 checks/faults/kill_at_random.py", "the program, killed at random moments"),
    Check("backups", "python3 checks/faults/backups.py", "backups while files are handed in, and either program is killed"),
    Check("folders killed", "python3 checks/faults/folders.py", "files that are collected and offered, and either program is killed"),
    Check(
        "packages",
        "python3 checks/scenarios/packages.py",
        "the package: what it has, and how it is installed, used, removed and purged",
        quick="python3 checks/scenarios/packages.py --here",
    ),
    Check("booted", "python3 checks/scenarios/booted.py", "the units of the package, under a systemd that runs", is_of_gate=True),
    Check("processing killed", "python3 checks/faults/processing.py", "files that a program of the site gets, killed at each step of that"),
    Check("random sessions", "python3 checks/scenarios/fuzz.py --seconds 20", "random sessions, over the program and over a model of a station"),
    Check("schedule", "python3 checks/scenarios/schedule.py", "rows of schedules and random events, over the schedule and a model of it", is_of_gate=True),
    Check("explained", "python3 checks/scenarios/explained.py", "a session that breaks each rule of `explain`, and one that doesn't"),
    Check("command lines", "python3 checks/scenarios/command_lines.py", "command lines, with what each prints, makes and leaves"),
    Check("listing", "python3 checks/scenarios/listing.py", "requests for what a database holds, and reports of it"),
    Check("sqlite", "python3 checks/scenarios/stock_sqlite.py", "the databases that the program writes and refuses, by stock sqlite3"),
    Check("audits", "python3 checks/scenarios/audit.py", "audits of databases against older ones, and of losses that stock sqlite3 makes"),
    Check("example of services", "bash examples/two_stations.sh", "two stations on this machine that hold their databases, one of them killed"),
    Check("example of a day", "bash examples/a_day.sh | diff examples/a_day.stdout -", "the commands of a day"),
    Check(
        "documents",
        "python3 checks/scenarios/documents.py --verify",
        "what the documents say of the commands, the days that they show, and how a promise is verified",
        quick="python3 checks/scenarios/documents.py",
    ),
    Check("status", "python3 checks/scenarios/status.py", "how a station says that it stands, over HTTP"),
    Check("alarms", "python3 checks/scenarios/alarms.py", "the alarms and the dashboard of examples/monitoring"),
    Check("octets", "python3 checks/scenarios/spell_examples.py", "the octets of examples/, against the rows that spell them"),
    Check("power losses", "python3 checks/faults/power_losses.py", "what a loss of power leaves of the files that commands make and move", wants_cc=True),
    Check("far partners", "python3 checks/scenarios/far_partners.py", "partners who are called, and who call, at a distance"),
    Check("books", "python3 checks/scenarios/book_faults.py", "the faults of partner books"),
    Check("notes", "python3 checks/scenarios/notes.py", "the notes beside the lines of commands, and the tables that tell of them"),
    Check("units", "bash checks/scenarios/service_files.sh", "the units of examples/service"),
    Check("tunnels", "python3 checks/scenarios/tunnels.py", "two stations with stunnel round them, and who isn't let in"),
    Check("interop", "python3 checks/scenarios/interop.py", "the day of examples/interop between two stations of ours, and where nobody answers"),
    Check("rehearsal", "python3 checks/scenarios/rehearsal.py", "records that are made of captures of another product's sessions, and replayed"),
    Check("held database", "python3 checks/scenarios/database_held.py", "commands over a database that another process holds"),
    Check("command lines beside a resident", "python3 checks/scenarios/command_lines.py --beside", "the same where a station holds the database"),
    Check("resident", "python3 checks/scenarios/resident.py", "a station that holds its database, and who connects to it"),
    Check("recording", "python3 checks/scenarios/recording.py", "a station that records, and its record played again"),
    Check("evidence folders", "python3 checks/scenarios/evidence_folders.py", "folders of what proves a file's delivery, and their script"),
    Check("commands", "python3 checks/scenarios/commands.py", "commands that depend on the moment, a partner or a station that runs"),
    Check("strangers", "python3 checks/scenarios/strangers.py", "callers who aren't let in, many at a time"),
    Check("events", "python3 checks/scenarios/events.py", "the events of a station, against those of the model's changes"),
    Check("history", "python3 checks/scenarios/history.py", "what events say of a file, also where they are damaged or foreign"),
    Check("waiting", "python3 checks/scenarios/waiting.py", "what commands say on a terminal while they wait, and how far they came"),
    Check("traces", "python3 checks/scenarios/traces.py", "what a trace and `show` tell of each field of each command"),
    Check("sockets", "python3 checks/scenarios/sockets.py", "sessions and requests over sockets"),
    Check("files made", "python3 checks/scenarios/files_made.py", "the files that the program makes: modes, owners and drafts"),
    Check("folders", "python3 checks/scenarios/folders.py", "folders into which files are collected, and from which they are offered"),
    Check("processing", "python3 checks/scenarios/processing.py", "files that a program of the site gets, and what becomes of each"),
    Check("edge calls", "python3 checks/faults/edge_calls.py", "calls for sockets and files that fail, and their order", wants_cc=True),
    Check("memory", "bash checks/speed/feed_64_mib.sh", "the memory of a session of 64 MiB", ALONE),
    Check("speed", "python3 checks/speed/receive_speed.py --assert", "what a file that comes in takes", ALONE),
    Check("database", "python3 checks/speed/database_cost.py --assert", "what a register in a database costs, beside stock sqlite3", ALONE),
    Check("growth", "python3 checks/speed/growth.py --assert", "what a station that holds its database takes as its register grows", ALONE),
    Check("beside empty", "python3 checks/speed/beside_empty.py --assert", "what such a station takes over a large register, beside an empty one", ALONE),
    Check("crowds", "python3 checks/speed/crowds.py --assert", "what such a station takes beside a crowd at each door", ALONE),
    Check("records", "python3 checks/speed/list_of_records.py", "what a list takes beside files of very many records", ALONE),
    Check("page", "python3 checks/scenarios/page.py", "the page for people, in a browser", ALONE),
    Check("sizes", "python3 checks/speed/sizes.py", "files, texts, books and credits at their limits", ALONE),
]


# What some checks need besides the program, under the name by which they say that it is missing. It is the programs or files that are looked
# for, and the packages of apt-get that have them. That of the standard's text is in Debian's section non-free.
WANTED = {
    "a C compiler": (["cc"], ["gcc", "libc6-dev"]),
    "systemd": (["systemd-analyze"], ["systemd"]),
    "stunnel": (["stunnel", "openssl"], ["stunnel4", "openssl"]),
    "a browser": (["chromium"], ["chromium", "fonts-dejavu-core"]),
    "man": (["man"], ["man-db"]),
    "strace": (["strace"], ["strace"]),
    "tcpdump": (["tcpdump"], ["tcpdump"]),
    "promtool": (["promtool"], ["prometheus"]),
    "lintian": (["lintian"], ["lintian"]),
    "debootstrap": (["debootstrap"], ["debootstrap"]),
    "systemd-nspawn": (["systemd-nspawn"], ["systemd-container"]),
    "the text of RFC 5024": (["/usr/share/doc/RFC/informational/rfc5024.txt.gz"], ["doc-rfc-informational"]),
}
# How a check begins the line of what it couldn't try.
NOT_TRIED = "NOT TRIED without "


def is_there(name):
    sought, _ = WANTED[name]
    return all(shutil.which(it) or os.path.isfile(it) for it in sought)


def has_done(*words):
    """Whether apt-get succeeded."""
    command = ["apt-get", "-qq", "-o", "Acquire::Retries=0", "-o", "Acquire::http::Timeout=20", *words]
    environment = {**os.environ, "DEBIAN_FRONTEND": "noninteractive"}
    try:
        return subprocess.run(command, capture_output=True, env=environment, timeout=600, check=False).returncode == 0
    except (OSError, subprocess.TimeoutExpired):
        return False


def install():
    """Lets apt-get install what is missing, and prints what it doesn't have."""
    missing = [name for name in WANTED if not is_there(name)]
    if missing:
        has_done("update")
    for name in missing:
        if not has_done("install", "-y", "--no-install-recommends", *WANTED[name][1]) or not is_there(name):
            print(f"apt-get has no {' and no '.join(WANTED[name][1])} here, so {name} is missing")


class Running:
    """The processes of the checks that run now, and the folder for their temporary files, so that all end with this script."""

    def __init__(self):
        self.room = None
        self.groups = set()
        self.lock = threading.Lock()
        self.is_over = False

    def open_room(self):
        self.room = tempfile.mkdtemp(prefix="checks-")

    def start(self, words, output):
        with self.lock:
            if self.is_over:
                raise SystemExit(1)
            how = {"stdout": output, "stderr": subprocess.STDOUT, "stdin": subprocess.DEVNULL, "cwd": ROOT}
            environment = {**os.environ, "TMPDIR": self.room}
            process = subprocess.Popen(words, start_new_session=True, env=environment, **how)
            self.groups.add(process.pid)
            return process

    def end(self, process):
        """Ends what a check has left, and the check itself if it still runs."""
        with self.lock:
            self.groups.discard(process.pid)
            kill_group(process.pid)

    def end_all(self):
        with self.lock:
            self.is_over = True
            for group in self.groups:
                kill_group(group)
        shutil.rmtree(self.room, ignore_errors=True)

    def leave_room(self):
        """Removes the folder, unless a check that failed has kept something in it."""
        try:
            os.rmdir(self.room)
        except OSError:
            print(f"{self.room} has what is kept of checks that failed")


def kill_group(group):
    try:
        os.killpg(group, signal.SIGKILL)
    except ProcessLookupError:
        pass


RUNNING = Running()
PRINTING = threading.Lock()


def run(check, is_quick):
    """Runs a check and prints its output. It returns whether it passed, and its lines."""
    command = check.quick if is_quick and check.quick else check.command
    begin = time.monotonic()
    with tempfile.TemporaryFile("w+", errors="replace") as output:
        process = RUNNING.start(["bash", "-c", f"set -o pipefail; {command}"], output)
        try:
            status = process.wait(LIMIT)
        except subprocess.TimeoutExpired:
            status = None
        RUNNING.end(process)
        process.wait()
        output.seek(0)
        said = output.read()
    why = {0: "passed", None: f"FAILED: it didn't end within {LIMIT} seconds"}.get(status, f"FAILED with status {status}")
    with PRINTING:
        print(f"== {check.name}: {check.tries}\n{said}-- {check.name}: {why}, {time.monotonic() - begin:.0f} s", flush=True)
    return status == 0, said.splitlines()


def run_all(checks, is_quick):
    """Runs the checks, first those that may run in parallel. It returns the result of each."""
    beside = [it for it in checks if not it.is_alone]
    with ThreadPoolExecutor(len(os.sched_getaffinity(0))) as lanes:
        came = dict(zip(beside, lanes.map(lambda it: run(it, is_quick), beside)))
    for it in checks:
        if it.is_alone:
            came[it] = run(it, is_quick)
    return came


def passed(came):
    """How many rows passed, by the last line of the rows' check, or how many checks if it isn't among them."""
    for check, (_, lines) in came.items():
        if check.name == "rows":
            return int(lines[-1].split()[0]) if lines else 0
    return sum(is_well for is_well, _ in came.values())


def tell_not_tried(left_out, came):
    """Prints what wasn't tried: the checks that were left out for lack of a C compiler, and what the others report. It returns what of this
    fails where CI is `true`."""
    lines = [line for _, said in came.values() for line in said if line.startswith(NOT_TRIED)]
    lines += [f"{NOT_TRIED}a C compiler: {it.tries}" for it in left_out]
    print("".join(f"{line}\n" for line in lines), end="")
    if os.environ.get("CI") != "true":
        return []
    names = {line.removeprefix(NOT_TRIED).partition(":")[0] for line in lines} & set(WANTED)
    if names:
        # without the lists of packages, apt-get would have nothing
        has_done("update")
    had = [name for name in sorted(names) if has_done("install", "-y", "--download-only", *WANTED[name][1])]
    return [f"what wants {name}, which apt-get has" for name in had]


def tell_failed(came):
    """Prints again what the checks that failed printed last, since that of the others may lie between."""
    for check, (is_well, lines) in came.items():
        if not is_well:
            print("\n".join([f"== {check.name} FAILED:", *lines[-LAST:]]))


def find_program():
    """Gives the checks the program by its absolute path, because they run it in folders of their own. It returns whether it exists."""
    program = Path(os.environ.get("OFTP_STATION", ROOT / "crates/oftp_station/out/oftp_station")).absolute()
    os.environ["OFTP_STATION"] = str(program)
    return os.access(program, os.X_OK)


def stop(number, _frame):
    RUNNING.end_all()
    os._exit(128 + number)


def main():
    parser = argparse.ArgumentParser(description=__doc__.splitlines()[0])
    parser.add_argument("--quick", action="store_true")
    parser.add_argument("--list", action="store_true")
    parser.add_argument("--install", action="store_true")
    parser.add_argument("names", nargs="*", metavar="NAME")
    taken = parser.parse_args()
    unknown = set(taken.names) - {it.name for it in CHECKS}
    if unknown:
        parser.error(f"no check has the name {', '.join(sorted(unknown))}")
    checks = [it for it in CHECKS if it.name in taken.names or not taken.names and not (taken.quick and it.is_of_gate)]
    if taken.list:
        print("\n".join(f"{it.name}: {it.tries}" for it in checks))
        return 0
    if taken.install:
        install()
        return 0
    if not find_program():
        print(f"there is no program {os.environ['OFTP_STATION']}\n0 passed, 1 failed")
        return 1
    RUNNING.open_room()
    for number in (signal.SIGINT, signal.SIGTERM, signal.SIGHUP):
        signal.signal(number, stop)
    left_out = [] if is_there("a C compiler") else [it for it in checks if it.wants_cc]
    came = run_all([it for it in checks if it not in left_out], taken.quick)
    RUNNING.leave_room()
    failed = [check.name for check, (is_well, _) in came.items() if not is_well]
    failed += tell_not_tried(left_out, came)
    tell_failed(came)
    if failed:
        print(f"FAILED: {', '.join(failed)}")
    print(f"{passed(came)} passed, {len(failed)} failed")
    return 1 if failed or not came else 0


if __name__ == "__main__":
    sys.exit(main())
