#!/usr/bin/env python3
"""Installs the package into a Debian of its own whose systemd runs, and has that start and stop the station's units.

    checks/scenarios/booted.py [WORD ..]      all cases, or those whose names have one of these words

debootstrap makes the Debian from the network, and systemd-nspawn boots it, with a network of its own. The partner is a second station there. The
cases go on from each other. The last line is `N passed, M failed`.

Shows: the units of the package under a systemd that runs. The station is started, reads its book again, is started again if it is killed, and ends by
`stop` as its unit stops it. Who stops it by hand has it stopped. A call, a backup, and the processing of what came at a change of the database are
units that end well. A newer package starts the services again that ran, and removing it stops them. Tried where debootstrap and systemd-nspawn can
"""

import datetime
import json
import shutil
import subprocess
import sys
import tempfile
import time
from pathlib import Path

sys.path.insert(0, str(Path(__file__).resolve().parents[1] / "lib"))

from guest import Guest, Package, made_folder
from services import LONG, NotTried, Wrong, expect

WANTED = ["systemd", "systemd-sysv"]
CARMAKER = "O0177CARMAKER"
STATION, CALL, PROCESS = "oftp-run.service", f"oftp-call@{CARMAKER}.service", f"oftp-process@{CARMAKER}"
DATABASE, BOOK = ["--db", "/var/lib/oftp/station.db"], ["--book", "/etc/oftp/book.toml"]
FAR = ["--db", "/var/lib/oftp/far/database", "--book", "/var/lib/oftp/far/book.toml"]
FAR_BOOK = """[station]
code = "O0177CARMAKER"
buffer = 2048
credit = 4
restart = true

[[partner]]
code = "O0013SUPPLIER"
expects = "SUPPW"
sends = "CARPW"
mode = "B"
address = "127.0.0.1:3305"
"""
# The program of this site, which keeps what it was given.
SITE = """#!/bin/sh
cp "$1" /var/lib/oftp/processed
"""
# What is said of a unit.
PROPERTIES = ["ActiveState", "Result", "MainPID", "ExecMainCode", "ExecMainStatus"]
# By the numbers of waitid: it ended by itself, with this status.
ENDED_BY_ITSELF = ("1", "0")


class Booted(Guest):
    """A Debian in a folder whose systemd runs."""

    def __init__(self, root):
        super().__init__(root)
        words = ["systemd-nspawn", "--quiet", "--register=no", "--keep-unit", "--private-network", "--directory", root, "--boot"]
        how = {"stdin": subprocess.DEVNULL, "stdout": subprocess.PIPE, "stderr": subprocess.STDOUT}
        self.screen = tempfile.TemporaryFile()
        self.container = subprocess.Popen(words, **{**how, "stdout": self.screen})
        self.leader = None

    def __enter__(self):
        until(lambda: self.container.poll() is not None or self.has_booted(), "whether systemd-nspawn boots it")
        if self.container.poll() is not None:
            self.screen.seek(0)
            last = self.screen.read().decode(errors="replace").splitlines()[-1:]
            raise NotTried(f"a systemd that systemd-nspawn boots: the units of the package ({' '.join(last)})")
        return self

    def __exit__(self, *_why):
        if self.leader and self.container.poll() is None:
            self.try_("systemctl", "poweroff", "--force", "--force")
        self.container.kill()
        self.container.wait()
        self.screen.close()

    def has_booted(self):
        """Whether its systemd has started what is started."""
        found = subprocess.run(["pgrep", "--parent", str(self.container.pid)], capture_output=True, text=True, timeout=LONG, check=False).stdout.split()
        self.leader = found[0] if found else None
        return self.leader is not None and self.try_("systemctl", "is-system-running")[1].strip() in ("running", "degraded")

    def within(self, *words, user="root"):
        return ["nsenter", "--target", self.leader, "--all", "--wdns=/", "runuser", "-u", user, "--", *words]

    def station(self, *words):
        """What a command of the station's user prints, which has to end well."""
        return self.give("oftp_station", *words, user="oftp")

    def unit(self, name):
        """What systemd says of a unit."""
        told = self.give("systemctl", "show", *(f"--property={it}" for it in PROPERTIES), name)
        return dict(line.partition("=")[::2] for line in told.splitlines())

    def is_active(self):
        return self.unit(STATION)["ActiveState"] == "active"

    def answers(self):
        """Whether the station answers a command."""
        return self.try_("oftp_station", "status", *DATABASE, user="oftp")[0] == 0

    def write(self, name, text, owner="root:oftp", mode="640"):
        path = self.root / name.lstrip("/")
        path.parent.mkdir(parents=True, exist_ok=True)
        path.write_text(text, encoding="utf-8")
        self.give("chown", owner, name)
        self.give("chmod", mode, name)


def until(holds, what, seconds=LONG):
    """Waits until something holds."""
    end = time.monotonic() + seconds
    while not holds():
        if time.monotonic() > end:
            raise Wrong(f"{what}: not within {seconds} seconds")
        time.sleep(0.2)


def starts(guest, package):
    """Installed as docs/howto/install.md has it, the station is started, and answers."""
    guest.install(package)
    expect(guest.unit(STATION)["ActiveState"], "inactive", "the station before somebody starts it")
    shutil.copy(guest.root / "usr/share/doc/oftp-station/examples/service/book.toml", guest.root / "etc/oftp/book.toml")
    guest.give("chown", "root:oftp", "/etc/oftp/book.toml")
    guest.give("chmod", "640", "/etc/oftp/book.toml")
    guest.station("check", *BOOK)
    guest.write("/etc/default/oftp-station", 'OPTIONS="--events /var/lib/oftp/events"\n', owner="root:root", mode="644")
    guest.give("systemctl", "enable", "--now", STATION)
    until(guest.answers, "whether the station answers")
    expect("ready" in guest.give("journalctl", "--unit", STATION, "--output", "cat"), True, "whether its journal has its line")


def reads_its_book_again(guest, _package):
    """`systemctl reload` reads the book again. A bad one is an error of that command, and the station goes on."""
    path = guest.root / "etc/oftp/book.toml"
    text, before = path.read_text(encoding="utf-8"), guest.unit(STATION)["MainPID"]
    guest.give("systemctl", "reload", STATION)
    path.write_text(text.replace("credit = 99", "credit = 100"), encoding="utf-8")
    expect(guest.try_("systemctl", "reload", STATION)[0], 1, "the status of `systemctl reload` where the book is bad")
    path.write_text(text, encoding="utf-8")
    expect((guest.unit(STATION)["MainPID"], guest.answers()), (before, True), "the process, and whether it answers")


def calls_its_partner(guest, _package):
    """The unit of a call ends well where the session does, and fails where the partner isn't reached."""
    guest.write("/var/lib/oftp/far/book.toml", FAR_BOOK, owner="oftp:oftp")
    guest.give("chown", "oftp:oftp", "/var/lib/oftp/far")
    guest.write("/var/lib/oftp/orders", "orders\n", owner="oftp:oftp")
    guest.station("submit", *DATABASE, *BOOK, "--dataset", "ORDERS", "--to", CARMAKER, "--format", "U", "/var/lib/oftp/orders")
    expect(guest.try_("systemctl", "start", CALL)[0], 1, "the status of a call where nobody listens")
    far = subprocess.Popen(guest.within("oftp_station", "listen", *FAR, "--port", "13305", "--sessions", "1", user="oftp"), stdout=subprocess.DEVNULL)
    try:
        until(lambda: guest.try_("systemctl", "start", CALL)[0] == 0, "whether a call ends well")
        far.wait(timeout=LONG)
    finally:
        far.kill()
    expect("handed" in guest.station("report", *DATABASE, "out"), True, "whether the file was handed over")


def processes_what_comes(guest, _package):
    """What a partner sends is given to the site's program once the database changes, and its response issued. A timer is due within five minutes."""
    guest.write("/etc/oftp/process", SITE, mode="750")
    guest.give("systemctl", "enable", "--now", f"{PROCESS}.path", f"{PROCESS}.timer")
    (timer,) = json.loads(guest.give("systemctl", "list-timers", "--output=json", f"{PROCESS}.timer"))
    expect(timer["next"] / 1e6 - time.time() <= 300, True, f"whether it is due within five minutes: {timer}")
    guest.write("/var/lib/oftp/far/schedule", "schedule\n", owner="oftp:oftp")
    guest.station("submit", *FAR, "--dataset", "SCHEDULE", "--to", "O0013SUPPLIER", "--format", "U", "/var/lib/oftp/far/schedule")
    guest.station("call", *FAR, "--partner", "O0013SUPPLIER", "--fail")
    processed = guest.root / "var/lib/oftp/processed"
    until(processed.exists, "whether the site's program is given the file")
    until(lambda: guest.unit(f"{PROCESS}.service")["ActiveState"] == "inactive", "whether the unit ends")
    expect(guest.unit(f"{PROCESS}.service")["Result"], "success", "the result of the unit")
    expect(processed.read_text(encoding="utf-8"), "schedule\n", "what it was given")
    issued = guest.station("report", *DATABASE, "issued").splitlines()[1:]
    expect([line.split(",")[:2] for line in issued], [["1", "EERP"]], f"the responses that are issued: {issued}")


def is_backed_up(guest, _package):
    """The unit of a backup makes one with the day in its name, and removes those that are more than thirty days old."""
    folder = guest.root / "var/backups/oftp"
    for day in (29, 31, 32):
        name = f"/var/backups/oftp/station-2020-01-{day}.db"
        guest.write(name, "old", owner="oftp:oftp")
        guest.give("touch", f"--date={day} days ago", name)
    begin = datetime.date.today()
    guest.give("systemctl", "start", "oftp-backup.service")
    wanted = [{f"station-{day}.db", "station-2020-01-29.db"} for day in (begin, datetime.date.today())]
    expect({it.name for it in folder.iterdir()} in wanted, True, f"whether the files are as they should be: {list(folder.iterdir())}")
    expect(guest.try_("oftp_station", "audit", "--db", str(next(folder.glob("station-202[1-9]*"))).removeprefix(str(guest.root)), user="oftp")[:2], (0, ""), "an audit of it")


def is_started_again(guest, _package):
    """A station that is killed is started again."""
    before = guest.unit(STATION)["MainPID"]
    guest.give("systemctl", "kill", "--signal=KILL", STATION)
    until(lambda: guest.unit(STATION)["MainPID"] not in (before, "0") and guest.answers(), "whether another one answers")


def stops_in_order(guest, _package):
    """`systemctl stop` has the station end by itself, with status 0, and its events say so."""
    guest.give("systemctl", "stop", STATION)
    found = guest.unit(STATION)
    expect((found["ActiveState"], found["Result"]), ("inactive", "success"), "the unit")
    expect((found["ExecMainCode"], found["ExecMainStatus"]), ENDED_BY_ITSELF, "how the process ended")
    last = (guest.root / "var/lib/oftp/events").read_text(encoding="utf-8").splitlines()[-1]
    expect(json.loads(last)["event"], "stopped", "the last event")


def stays_stopped(guest, _package):
    """Who stops the station by its command has it stopped."""
    guest.give("systemctl", "start", STATION)
    until(guest.answers, "whether the station answers")
    guest.station("stop", *DATABASE)
    until(lambda: not guest.is_active(), "whether the unit ends")
    time.sleep(8)
    expect(guest.unit(STATION)["ActiveState"], "inactive", "the unit, longer after that than one that failed stays down")


def starts_again_with_a_newer_package(guest, package):
    """Installing over an older package starts the services again that ran, and no others."""
    guest.give("systemctl", "start", STATION)
    until(guest.answers, "whether the station answers")
    before = guest.unit(STATION)["MainPID"]
    guest.install(package)
    until(guest.answers, "whether the station answers")
    expect(guest.unit(STATION)["MainPID"] != before, True, "whether it is another process")
    expect(guest.unit("oftp-http.service")["ActiveState"], "inactive", "a service that didn't run")


def is_stopped_before_it_is_removed(guest, _package):
    """Removing the package stops what runs by it."""
    guest.give("dpkg", "--remove", "oftp-station")
    left = guest.try_("systemctl", "list-units", "--plain", "--no-legend", "--state=active", "oftp-*")[1]
    expect((left, guest.try_("pgrep", "oftp_station")[0]), ("", 1), "units and processes that are left")
    expect(guest.is_there("var/lib/oftp/station.db"), [True], "whether the database stays")


CASES = [
    *(starts, reads_its_book_again, calls_its_partner, processes_what_comes, is_backed_up, is_started_again, stops_in_order, stays_stopped),
    *(starts_again_with_a_newer_package, is_stopped_before_it_is_removed),
]


def tried(case, guest, package):
    """Runs a case. It returns the result, and whether it failed."""
    name = case.__name__.replace("_", " ")
    try:
        case(guest, package)
    except (Wrong, OSError, ValueError, subprocess.SubprocessError) as why:
        return f"{name}: {type(why).__name__}: {why}", True
    return f"{name}: as it must be", False


def try_all(words):
    """The results of the cases whose names have one of these words, up to one that failed: the others go on from it."""
    results = []
    with tempfile.TemporaryDirectory() as room:
        package = Package(Path(room))
        if not shutil.which("systemd-nspawn"):
            raise NotTried("systemd-nspawn: the units of the package")
        made = made_folder(Path(room), WANTED)
        with Booted(made.root) as guest:
            for case in CASES:
                if words and not any(word in case.__name__ for word in words):
                    continue
                results.append(tried(case, guest, package))
    return results


def main():
    try:
        results = try_all(sys.argv[1:])
    except NotTried as why:
        print(f"NOT TRIED without {why}\n0 passed, 0 failed")
        return 0
    print("\n".join(told for told, _ in results))
    failed = sum(has_failed for _, has_failed in results)
    print(f"{len(results) - failed} passed, {failed} failed")
    return 1 if failed or not results else 0


if __name__ == "__main__":
    sys.exit(main())
