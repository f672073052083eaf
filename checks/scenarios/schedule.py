#!/usr/bin/env python3
"""Plays the rows of rows/schedule and random events over the schedule of a station, without sockets, and over a model of it.

    checks/scenarios/schedule.py [--seconds N] [--seed N] [--lists N] [NAME ..]

        default: all rows, and then random lists of events for 10 seconds, from another seed each time; with NAME .. only the rows with
        these names or in these files, and no random lists

The program is that of OFTP_TEST_SCHEDULE, or else that of crates/oftp_test_schedule that was last proved. It and the model of a schedule
(checks/lib/schedule_model.py) have to order what a row has, after each of its events. After each event of a random list both have to order the
same, and to want to be told the time at the same moment. A list where they differ is made as short as can be, and printed as a row.

Without the program nothing is tried, and it says so. The check goes on beyond its time until each action was ordered, with each reason that it
may have. The last line is `N passed, M failed`, in rows, and lists of events.

Shows: the rows of rows/schedule, and random lists of events for 10 s (`--seconds N` for more). They are over the program of
crates/oftp_test_schedule and over a model that was written apart from the schedule's code (`checks/lib/schedule_model.py`). Compared are each
action, and each moment at which it wants to be told the time
"""

import argparse
import collections
import os
import random
import sys
import time
from pathlib import Path

sys.path.insert(0, str(Path(__file__).resolve().parents[1] / "lib"))

from row_files import Bad
from schedule_model import AT_WORK, DOORS, USUAL, Model
from schedule_rows import PARTS, PROGRAM, SCHEDULES, Step, carry_out, played_by_model, played_by_program, read_parts, read_rows, row_text

# How many lists the program plays at once, and how many steps one has.
AT_ONCE = 100
LENGTHS = [10, 40, 80, 150]
# How many seconds beyond its time the check waits until each action was ordered.
LONGEST = 120
NONSENSE = 0.04
# What may be told of a connection at each stage, more often the more often it stands here. Some of it needs numbers, which are drawn.
LIKELY = {
    "arriving": "somebody somebody somebody somebody somebody nobody nobody later",
    "stranger": "let-in let-in let-in rejected ends lost",
    "guest": "lost ends",
    "stepping": "waits waits waits waits waits waits ended-own ended-other",
    "between": "came came came came went went ends lost",
    "parting": "ends ends lost",
    "asking": "query query query update update backup wants wants rejected ends lost",
    "ready": "lost ends",
    "served": "done",
    "calling": "lost ends",
    "copying": "ends ends lost",
    "answered": "sent sent went lost",
    "resolving": "resolved resolved resolved failed",
    "dialing": "up up up failed",
    "connected": "lost came",
    "wanted": "lost",
}
SIGNALS = ["let-in", "rejected", "query", "update", "backup", "wants", "waits", "ended-own", "ended-other", "done", "came", "went", "sent"]
SIGNALS += ["ends", "lost", "resolved", "up", "failed"]
LEFT = ["awaited"] * 4 + ["here"] * 8 + ["last", "gone"]
ENDING = ("ended-own", "ended-other", "ends", "lost", "rejected", "failed")
REASONS = "evicted invalid timed-out stalled quit vanished finished unreached orphaned stopping".split()
CAUSES = ["stopped", "door-failed", "office-failed"]
WANTED = {
    *(f"accept {door}" for door in DOORS),
    *(f"close {why}" for why in REASONS),
    *(f"print {why}" for why in REASONS if why not in ("invalid", "orphaned")),
    *(f"exit {why}" for why in CAUSES),
    *(f"decline {why}" for why in ("stopping", "timed-out")),
    *"part answer begin hear cut look change copy review resolve dial hang-up shut".split(),
}


# -- rows


def difference(steps, found, is_timed):
    """The number of the first step after which something else is found than it says, and that in words; or None."""
    for number, (step, (actions, timeout)) in enumerate(zip(steps, found)):
        if actions != step.actions:
            return number, f"it orders {told(actions)}, and not {told(step.actions)}"
        if timeout != step.timeout and (is_timed or step.timeout is not None):
            return number, f"it wants to be told the time at {timeout}, and not at {step.timeout}"
    return None


def told(actions):
    return ", ".join(" ".join(action) for action in actions) or "nothing"


def judge_row(row, found):
    """What is wrong with a row, in lines."""
    lines = []
    for who, played in (("the program", found), ("the model", played_by_model(row.limits, row.steps))):
        wrong = difference(row.steps, played, False)
        if wrong:
            number, why = wrong
            lines.append(f"{row.place(number)}: {who}: {why}")
    return lines


def play_rows(names):
    """Plays all rows, or those with these names or in these files. It returns how many pass and how many fail."""
    parts = read_parts()
    rows = [row for path in sorted(SCHEDULES.glob("*.schedule")) if path != PARTS for row in read_rows(path, parts)]
    if names:
        rows = [row for row in rows if row.name in names or row.path.stem in names]
    failed = 0
    for row, found in zip(rows, played_by_program([(row.limits, row.steps) for row in rows])):
        lines = judge_row(row, found)
        failed += bool(lines)
        print("".join(f"{line}\n" for line in lines), end="")
    print(f"{len(rows) - failed} of {len(rows)} rows pass")
    return len(rows) - failed, failed


# -- random lists


def draw_limits(chance):
    """Small limits, so that each is reached, and two at the same moment. In some lists time passes more slowly."""
    slow = chance.choice([1, 1, 10])
    limits = {name: chance.choice([1, 2, 3, 5, 8]) * slow for name in USUAL}
    limits.update({name: chance.choice([0, 1, 2, 3, 6]) for name in DOORS})
    limits.update({name: chance.choice([0, 1, 4]) for name in ("backlog", "held", "times", "greeting")}, share=chance.choice([0, 1, 2, 3, 4]))
    limits.update(longest=chance.choice([5, 20, 40]) * slow, interval=chance.choice([0, 0, 0, 4, 9]) * slow)
    limits.update(jobs=chance.choice([0, 0, 0, 0, 0, 1, 3, 9]), counted=chance.choice([0, 0, 0, 1]))
    return limits


class Drawn:
    """A list of steps that mostly make sense by what the model has done, with what the model does."""

    def __init__(self, seed):
        self.chance = random.Random(seed)
        self.limits = draw_limits(self.chance)
        # in a calm list connections seldom end and time passes slowly, and in a busy one others come while something is done
        self.is_calm = self.chance.random() < 0.6
        self.is_busy = self.chance.random() < 0.5
        self.model = Model(self.limits)
        self.steps = []
        for _ in range(self.chance.choice(LENGTHS)):
            self.take(*self.draw_step())

    def take(self, how, event):
        event = [str(word) for word in event]
        self.steps.append(Step(how, event, *carry_out(self.model, how, event), 0))

    def draw_step(self):
        draw = self.chance.random()
        if draw < 0.1:
            return "next", []
        return "+" if draw < 0.25 else ">", self.draw_event()

    def draw_event(self):
        chance, there = self.chance, self.model.there
        if chance.random() < NONSENSE:
            return self.draw_nonsense()
        draw = chance.random()
        if draw < 0.2 or not there and draw < 0.5:
            return ["knock", chance.choice(DOORS)]
        if draw < 0.35 or not there:
            return ["passed", self.draw_moment()]
        if draw < 0.4:
            return self.draw_rest()
        one = self.draw_one()
        return self.draw_told(one.number, self.draw_signal(one))

    def draw_one(self):
        """A connection of which something is told. One that is accepted, and one for which something is done, have to be told of soon."""
        arriving, at_work = self.model.first("arriving"), self.model.first(*AT_WORK)
        if arriving and self.chance.random() < 0.7:
            return arriving
        if at_work and self.chance.random() < (0.05 if self.is_busy else 0.5):
            return at_work
        return self.chance.choice(list(self.model.there.values()))

    def draw_signal(self, one):
        likely = LIKELY[one.stage].split()
        calm = [signal for signal in likely if signal not in ENDING]
        return self.chance.choice(calm if calm and self.is_calm and self.chance.random() < 0.9 else likely)

    def draw_rest(self):
        if self.model.clock == "now" and self.chance.random() < 0.7:
            return ["reviewed"]
        return ["over", self.chance.choice(CAUSES)] if self.chance.random() < 0.1 else ["due", *self.draw_partner()]

    def draw_nonsense(self):
        chance, number = self.chance, self.chance.randrange(self.model.number + 2)
        kinds = [["knock", "calls"], ["accepted", number, chance.choice(["somebody", "nobody", "later", "never"])], ["reviewed"], ["passed", 0]]
        return chance.choice([*kinds, *[self.draw_told(number, chance.choice(SIGNALS))] * 6])

    def draw_moment(self):
        """A moment about that at which the model wants to be told the time, or soon."""
        wanted, now = self.model.timeout(), self.model.now
        soon = now + self.chance.choice([0, 1, 1, 2, 5, 30])
        if wanted is None or self.is_calm and self.chance.random() < 0.7:
            return min(soon, now + 2)
        return max(0, self.chance.choice([wanted, wanted, wanted - 1, wanted + 1, soon]))

    def draw_partner(self):
        chance = self.chance
        return [chance.randrange(3), chance.choice([0, 1, 2, 4]), chance.choice([1, 3, 9]), chance.choice([2, 9, 30])]

    def draw_about(self, *names):
        """A number about one of these limits."""
        return max(0, self.limits[self.chance.choice(names)] + self.chance.choice([-1, 0, 0, 1]))

    def draw_told(self, number, signal):
        """What is told of a connection, with its numbers."""
        chance = self.chance
        if signal in ("somebody", "nobody", "later"):
            return ["accepted", number, "never" if chance.random() < 0.02 else signal]
        if signal == "waits":
            heard = chance.choice([0, 1, 1, 2, self.draw_about("share", "greeting")])
            words = ["waits", heard, chance.choice(LEFT), chance.choice([0, 0, self.draw_about("backlog")])]
        elif signal == "wants":
            words = ["wants", *self.draw_partner()]
        elif signal in ("done", "went"):
            words = [signal, self.draw_about("held", "backlog")]
        elif signal == "sent":
            words = ["went", 0]
        elif signal in ("query", "update", "backup"):
            words = ["asked", signal]
        else:
            words = signal.split("-", 1) if signal.startswith("ended") else [signal]
        return ["told", number, *words]

    def made(self):
        """What was ordered, each once: its word, and its reason or its door."""
        return {" ".join(word for word in action if not word.isdecimal()) for step in self.steps for action in step.actions}


def with_model(limits, steps):
    """The steps with what the model does."""
    return [step._replace(actions=actions, timeout=timeout) for step, (actions, timeout) in zip(steps, played_by_model(limits, steps))]


def first_difference(limits, steps):
    """The steps up to the first after which the program does otherwise than the model, and the difference; or None."""
    steps = with_model(limits, steps)
    found = difference(steps, played_by_program([(limits, steps)])[0], True)
    return found and (steps[: found[0] + 1], found[1])


def without(limits, steps, why, size):
    """The steps without so many in a row, wherever the two still differ without them."""
    at = 0
    while at < len(steps):
        shorter = first_difference(limits, steps[:at] + steps[at + size :])
        if shorter:
            steps, why = shorter
        else:
            at += size
    return steps, why


def shrunk(limits, steps):
    """As few of the steps as can be, over which the two still differ, and how they do."""
    steps, why = first_difference(limits, steps)
    length = None
    while length != len(steps):
        length = size = len(steps)
        while size > 1:
            size //= 2
            steps, why = without(limits, steps, why, size)
    return steps, why


def tell_difference(seed, drawn):
    """Prints a list over which the two differ: as a row, with the timeout behind its last step alone."""
    steps, why = shrunk(drawn.limits, drawn.steps)
    shown = [step._replace(timeout=None) for step in steps[:-1]] + steps[-1:]
    print(f"--seed {seed} --lists 1: this is what the model does, but after the last event {why}:\n{row_text(drawn.limits, shown)}")


def play_lists(seed, seconds, most):
    """Plays random lists until the time is over and each action was ordered, or until there were so many of them. It returns how many pass, and
    how many fail."""
    begin, passed, counts = time.monotonic(), 0, collections.Counter()
    limit = seconds
    while (passed < most) if most else (time.monotonic() - begin < limit):
        seeds = range(seed + passed, seed + passed + min(AT_ONCE, most - passed if most else AT_ONCE))
        lists = [Drawn(number) for number in seeds]
        for number, drawn, found in zip(seeds, lists, played_by_program([(it.limits, it.steps) for it in lists])):
            if difference(drawn.steps, found, True):
                tell_difference(number, drawn)
                return passed, 1
            passed += 1
            counts.update(drawn.made())
        limit = seconds if WANTED <= counts.keys() else seconds + LONGEST
    print(f"{passed} random lists of events, from seed {seed}")
    missing = sorted(WANTED - counts.keys()) if not most else []
    if missing:
        print(f"in all of them these were never ordered: {', '.join(missing)}")
    return passed, len(missing)


def main():
    parser = argparse.ArgumentParser(description=__doc__.splitlines()[0])
    parser.add_argument("--seconds", type=float, default=10)
    parser.add_argument("--seed", type=int)
    parser.add_argument("--lists", type=int, default=0)
    parser.add_argument("names", nargs="*", metavar="NAME")
    taken = parser.parse_args()
    if not os.access(PROGRAM, os.X_OK):
        print(f"NOT TRIED without {PROGRAM}, which `rt ci` leaves, and `rt run < stdin` in its crate makes: the schedule")
        return 0
    try:
        passed, failed = (0, 0) if taken.lists else play_rows(taken.names)
        if not taken.names:
            seed = random.SystemRandom().randrange(10**9) if taken.seed is None else taken.seed
            more = play_lists(seed, taken.seconds, taken.lists)
            passed, failed = passed + more[0], failed + more[1]
    except Bad as why:
        print(why)
        passed, failed = 0, 1
    print(f"{passed} passed, {failed} failed")
    return 1 if failed or not passed else 0


if __name__ == "__main__":
    sys.exit(main())
