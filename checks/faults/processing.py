#!/usr/bin/env python3
"""Kills examples/service/oftp-process at each of its steps, and at random moments, and lets the next call go on.

    checks/faults/processing.py [--seconds N] [--seed N]       10 seconds of random moments, and another seed each time, where none is given

A trial begins with a database of files. The program of the check accepts two of them, refuses one and leaves one; one more is of another partner. A
call is killed, and the next one comes to its end. A step is a command of the script itself. bash runs it, and kills it before its Nth one, for each
N up to its end. Random moments also come within a command of the station or within the program. Several calls in a row are killed then, each alone
or with all that it has started. Of the killed calls and the last one: no file with a response comes to the program again. Nor does one of which a
verdict is kept. Each comes whole. Behind the last one each file has the response that the program said, and what it leaves has none. The seed is
printed, and at a failure all that is left is kept in a folder. The last line is `N passed, M failed`.

Shows: the same script, killed before each of its commands, and at random moments for 10 s (`--seconds N`). It is killed alone and with all that it
has started, several times in a row. The program gets no file that has a response, or of which it has said something that is kept, and each file
whole. Behind a last call each file has the response that the program said, and what it leaves has none
"""

import argparse
import os
import random
import shutil
import signal
import subprocess
import sys
import tempfile
import time
from concurrent.futures import ThreadPoolExecutor
from pathlib import Path

sys.path.insert(0, str(Path(__file__).resolve().parents[1] / "lib"))

from killed import keep
from processing import SCRIPT, Site
from services import CARMAKER, LONG, Wrong, expect

FILES = [("GOOD.1", CARMAKER, b"A" * 2500), ("BAD.1", CARMAKER, b"B" * 10), ("LATER.1", CARMAKER, b"C" * 1024), ("GOOD.2", CARMAKER, b"D" * 3000)]
FILES += [("GOOD.3", "O0099OTHER", b"E" * 10)]
ANSWERED = {1: ("EERP", "", ""), 2: ("NERP", "34", f"BAD.1 from {CARMAKER} is bad"), 4: ("EERP", "", "")}
LEFT = 3
KILLED = -signal.SIGKILL
# What bash runs before the script: it counts the commands of the script itself, and not those of a subshell.
STEPS = """
set -T
taken_steps=0
trap 'if [ "$BASH_SUBSHELL" = 0 ] && ((++taken_steps == KILL_BEFORE)); then kill -KILL $$; fi' DEBUG
"""
# Whom a kill at random hits: the script, or its whole group.
WHOM = {"alone": os.kill, "with what it started": os.killpg}
# A script has some 150 steps for these files. Fewer than the first number, or more than the second, aren't believed.
FEWEST, MOST = 60, 1000
AT_ONCE = 6
# How many kills of each kind the random moments have to bring.
KILLS = 10
LONGEST = 300


class Trials:
    """The trials, each in a folder of its own, and how many calls were killed."""

    def __init__(self, room, chance):
        self.room, self.chance = room, chance
        self.first = Site(self.made("first"), FILES)
        self.steps = room / "steps"
        self.steps.write_text(STEPS, encoding="utf-8")
        self.number, self.counts, self.usual = 0, {}, 0.5

    def made(self, name):
        (self.room / name).mkdir()
        return self.room / name

    def site(self, name):
        """A new database with the files, which is a copy of the first one."""
        site = Site.__new__(Site)
        site.__dict__ |= self.first.__dict__
        site.room = self.made(name)
        site.database, site.folder = site.room / "database", site.room / "process"
        shutil.copy(self.first.database, site.database)
        return site

    def count(self, what):
        self.counts[what] = self.counts.get(what, 0) + 1

    def start(self, site, words, **more):
        """A call in a group of its own. What it prints goes to a file, which a process that outlives it may keep open."""
        with open(site.room / "told", "ab") as told:
            environment = {**site.environment, **more}
            return subprocess.Popen([*words, *site.words()], env=environment, stdout=told, stderr=told, start_new_session=True)

    def at_each_step(self):
        """Kills the script before its first step, its second one, and so on until it comes to its end. Some are tried at once: they mostly wait for
        the disk."""
        with ThreadPoolExecutor(max_workers=AT_ONCE) as runners:
            for first in range(1, MOST, AT_ONCE):
                are_killed = list(runners.map(self.before_step, range(first, first + AT_ONCE)))
                self.counts["killed before a step"] = self.counts.get("killed before a step", 0) + sum(are_killed)
                if not all(are_killed):
                    expect(first >= FEWEST, True, f"whether {first} steps are enough")
                    return
        raise Wrong(f"it isn't at its end behind {MOST} steps")

    def before_step(self, step):
        """Kills the script before a step. Whether it came so far."""
        site = self.site(f"step {step}")
        more = {"BASH_ENV": str(self.steps), "KILL_BEFORE": str(step)}
        status = self.start(site, ["bash", SCRIPT], **more).wait(LONG)
        expect(status in (KILLED, 1), True, f"the status {status} of a call that is to be killed before step {step}")
        self.go_on(site)
        return status == KILLED

    def at_random(self):
        """Kills one call after another at a random moment, and then lets one come to its end."""
        self.number += 1
        site = self.site(f"random {self.number}")
        seen = Seen(site)
        for _ in range(self.chance.randint(1, 4)):
            whom = self.chance.choice(list(WHOM))
            process = self.start(site, [SCRIPT])
            time.sleep(self.chance.uniform(0, 1.1 * self.usual))
            if process.poll() is None:
                WHOM[whom](process.pid, signal.SIGKILL)
            if process.wait(LONG) == KILLED:
                self.count(f"killed at random, {whom}")
            self.until_alone(site)
            seen.look()
        self.go_on(site)

    def until_alone(self, site):
        """Waits until what outlives a call is at its end: it has the lock open as well."""
        lock = site.folder / "lock"
        if lock.exists():
            subprocess.run(["flock", "-w", str(LONG), lock, "true"], check=True)

    def go_on(self, site):
        """Lets the next call come to its end, and one more."""
        self.until_alone(site)
        seen = Seen(site)
        begin = time.monotonic()
        expect(self.start(site, [SCRIPT]).wait(LONG), 1, "the status of a call that leaves a file")
        self.usual = (2 * self.usual + time.monotonic() - begin) / 3
        seen.look()
        expect(site.responses(), ANSWERED, "the responses")
        expect(site.verdicts(), set(), "the verdicts that are left")
        expect({no for no, _ in site.notes()}, {*ANSWERED, LEFT}, "what the program got")
        before = len(site.notes())
        expect(self.start(site, [SCRIPT]).wait(LONG), 1, "the status of one more call")
        expect((site.notes()[before:], site.responses()), (site.right_notes(LEFT), ANSWERED), "what it gave the program, and the responses")
        # What is left of a trial that came out right isn't looked at again.
        shutil.rmtree(site.room)


class Seen:
    """What is answered, and what a verdict is kept of, before a call."""

    def __init__(self, site):
        self.site = site
        self.remember()

    def remember(self):
        self.done = {*self.site.responses(), *self.site.verdicts()}
        self.notes = self.site.notes()

    def look(self):
        """Behind the call: what the program got was whole, came once, and wasn't done before; and no response is another than it said."""
        site = self.site
        notes = site.notes()
        new = notes[len(self.notes) :]
        expect(notes[: len(self.notes)], self.notes, "the notes before the call")
        expect(new, site.right_notes(*(no for no, _ in new)), "what the program got")
        expect(len({no for no, _ in new}), len(new), f"how many files it got, of {new}")
        expect({no for no, _ in new} & self.done, set(), "what it got again of which it had said something that is kept, or that has a response")
        responses = site.responses()
        expect({no: ANSWERED.get(no) for no in responses}, responses, "the responses so far")
        self.remember()


def play(trials, seconds):
    trials.at_each_step()
    begin = time.monotonic()
    wanted = [f"killed at random, {whom}" for whom in WHOM]
    while time.monotonic() - begin < seconds or any(trials.counts.get(what, 0) < KILLS for what in wanted):
        if time.monotonic() - begin > seconds + LONGEST:
            raise Wrong(f"too few were killed: {trials.counts}")
        trials.at_random()


def main():
    parser = argparse.ArgumentParser(description=__doc__.splitlines()[0])
    parser.add_argument("--seconds", type=float, default=10)
    parser.add_argument("--seed", type=int, default=random.randrange(1 << 32))
    taken = parser.parse_args()
    print(f"seed {taken.seed}", flush=True)
    with tempfile.TemporaryDirectory() as path:
        trials = Trials(Path(path), random.Random(taken.seed))
        try:
            play(trials, taken.seconds)
            why = None
        except (Wrong, OSError, subprocess.SubprocessError) as fault:
            why = f"{type(fault).__name__}: {fault}; what is left is kept in {keep(path)}"
    print("; ".join(f"{what}: {count}" for what, count in sorted(trials.counts.items())))
    print(f"processing: {why or 'as it must be'}")
    print(f"{0 if why else 1} passed, {1 if why else 0} failed")
    return 1 if why else 0


if __name__ == "__main__":
    sys.exit(main())
