"""The rows of rows/schedule in their written form (rows/README.md), and how the program and the model play them."""

import os
import re
import subprocess
import tempfile
from pathlib import Path
from typing import NamedTuple, Optional

from program import ROOT
from row_files import ROWS, Bad
from schedule_model import DOORS, USUAL, Model

PROGRAM = Path(os.environ.get("OFTP_TEST_SCHEDULE", ROOT / "crates/oftp_test_schedule/out/oftp_test_schedule")).absolute()
SCHEDULES = ROWS / "schedule"
PARTS = SCHEDULES / "parts.schedule"
SECONDS = 120

# What a partner and a step of a session are where a row doesn't say it.
PARTNER = {"pause": 1_000, "patience": 300_000, "longest": 3_600_000}
STEP = {"heard": 0, "backlog": 0}
# The words of an event, by its first word or, if something is told of a connection, by the signal. They are a set, or int for a number.
ARRIVALS = {"somebody", "nobody", "later", "never"}
CAUSES = {"stopped", "door-failed", "office-failed"}
INPUTS = {"awaited", "here", "last", "gone"}
EVENTS = {"knock": [{*DOORS, "calls"}], "accepted": [int, ARRIVALS], "passed": [int], "reviewed": [], "over": [CAUSES], "due": [int] * 4}
WORDLESS = ("let-in", "rejected", "came", "ends", "lost", "resolved", "up", "failed")
SIGNALS = {
    **dict.fromkeys(WORDLESS, []),
    **{"asked": [{"query", "update", "backup"}], "wants": [int] * 4, "waits": [int, INPUTS, int]},
    **{"ended": [{"own", "other"}], "done": [int], "went": [int]},
}


class Step(NamedTuple):
    """A line of a row, and what has to come of it. `how` is `>` if all that is ordered then is carried out, and `+` if nothing is yet. It is
    `next` if one action is, without an event. The timeout is that of the row, `never`, or None where the row doesn't say it."""

    how: str
    event: list
    actions: list
    timeout: Optional[str]
    line: int

    def spelled(self):
        return self.how if self.how == "next" else f"{self.how} {' '.join(spelled(self.event))}"

    def given(self):
        """The line for the program."""
        return {">": "", "+": "+ ", "next": "next"}[self.how] + " ".join(self.event)


class Row:
    """A row: its limits and its steps."""

    def __init__(self, path, name, line):
        self.path = path
        self.name = name
        self.line = line
        self.limits = dict(USUAL)
        self.now = 0
        self.steps = []

    def place(self, number):
        step = self.steps[number]
        return f"{self.path.relative_to(ROOT)}:{step.line}: {self.name}: {step.spelled()}"

    def take(self, line, words):
        """Takes in a line other than those that stand for others."""
        first, *rest = words
        if first == "limits":
            self.limits.update(numbered(rest, USUAL))
        elif first in ("at", "later") and len(rest) == 1:
            self.now = int(rest[0]) + (self.now if first == "later" else 0)
            self.add(">", ["passed", str(self.now)], line)
        elif first in (">", "+"):
            self.add(first, rest, line)
        elif first == "next" and not rest:
            self.steps.append(Step("next", [], [], None, line))
        elif first == "<" and self.steps and rest:
            self.steps[-1].actions.append(rest)
        elif first == "timeout" and self.steps and len(rest) == 1:
            self.steps[-1] = self.steps[-1]._replace(timeout=rest[0])
        else:
            raise Bad(f"{' '.join(words)} is no line of a row")

    def add(self, how, words, line):
        self.steps.append(Step(how, whole(words), [], None, line))


# -- events in words


def numbered(words, usual):
    """Words NAME=N over what is usual."""
    given = dict(word.split("=") for word in words if re.fullmatch(r"[a-z]+=\d+", word))
    if len(given) < len(words) or not given.keys() <= usual.keys():
        raise Bad(f"{' '.join(words)} isn't NAME=N with the names {' '.join(usual)}")
    return {**usual, **{name: int(number) for name, number in given.items()}}


def whole(words):
    """An event of a row with all its words, as the program and the model get it."""
    head, rest = (words[:3], words[3:]) if words[:1] == ["told"] else (words[:1], words[1:])
    kind = head[-1] if head else ""
    if kind in ("wants", "due"):
        rest = [*rest[:1], *map(str, numbered(rest[1:], PARTNER).values())]
    elif kind == "waits":
        step = numbered(rest[1:], STEP)
        rest = [str(step["heard"]), *rest[:1], str(step["backlog"])]
    wanted = [{"told"}, int, {kind}, *SIGNALS[kind]] if kind in SIGNALS and len(head) == 3 else [{kind}, *EVENTS.get(kind, [None])]
    found = [*head, *rest]
    if len(found) != len(wanted) or not all(word.isdecimal() if want is int else word in want for word, want in zip(found, wanted)):
        raise Bad(f"{' '.join(words)} is no event")
    return found


def spelled(event):
    """An event as a row has it."""
    head, rest = (event[:3], event[3:]) if event[0] == "told" else (event[:1], event[1:])
    if head[-1] in ("wants", "due"):
        return [*head, rest[0], *(f"{name}={number}" for (name, usual), number in zip(PARTNER.items(), rest[1:]) if int(number) != usual)]
    if head[-1] == "waits":
        given = {"heard": rest[0], "backlog": rest[2]}
        return [*head, rest[1], *(f"{name}={number}" for name, number in given.items() if number != "0")]
    return event


def row_text(limits, steps):
    """A row, as it would be written down."""
    given = " ".join(f"{name}={number}" for name, number in limits.items() if number != USUAL[name])
    lines = [f"limits {given}"] if given else []
    for step in steps:
        lines += [step.spelled(), *(f"< {' '.join(action)}" for action in step.actions)]
        lines += [f"timeout {step.timeout}"] if step.timeout else []
    return "\n".join(lines)


# -- reading the files


def filled(words, values):
    """The words with the value of each $NAME, to which a number may be added."""

    def value(found):
        name, sign, number = found.groups()
        if name not in values:
            raise Bad(f"nothing gives ${name}")
        return str(int(values[name]) + int(sign + number)) if sign else str(values[name])

    return [re.sub(r"\$([a-z]+)(?:([+-])(\d+))?", value, word) for word in words]


def block(lines):
    """The lines up to the `again` that ends a repetition, and those behind it."""
    depth = 1
    for at, (_, words) in enumerate(lines):
        depth += (words[0] == "repeat") - (words[0] == "again")
        if depth == 0:
            return lines[:at], lines[at + 1 :]
    raise Bad("a repetition has no end")


def unfolded(lines, parts, values):
    """The lines with what `repeat` and `use` stand for in their place."""
    while lines:
        (line, words), *lines = lines
        words = filled(words, values)
        if words[0] == "repeat" and len(words) in (4, 5):
            inner, lines = block(lines)
            first, last, *step = map(int, words[2:])
            for number in range(first, last + 1, *step):
                yield from unfolded(inner, parts, {**values, words[1]: number})
        elif words[0] == "use" and len(words) > 1:
            names, inner = parts.get(words[1], (None, None))
            if names is None or len(names) != len(words) - 2:
                raise Bad(f"no part is {' '.join(words[1:])}")
            yield from ((line, it) for _, it in unfolded(inner, parts, dict(zip(names, words[2:]))))
        else:
            yield line, words


def headed(path, word):
    """The heads of a file, each a line with this word, with the lines below each."""
    found = []
    for number, text in enumerate(path.read_text(encoding="utf-8").splitlines(), 1):
        words = text.partition("#")[0].split()
        if words[:1] == [word] and len(words) > 1:
            found.append((number, words[1:], []))
        elif words and not found:
            raise Bad(f"{path.name}:{number}: no {word} begins before it")
        elif words:
            found[-1][2].append((number, words))
    return found


def read_parts():
    return {words[0]: (words[1:], lines) for _, words, lines in headed(PARTS, "part")}


def read_rows(path, parts):
    rows = []
    for number, words, lines in headed(path, "row"):
        row = Row(path, " ".join(words), number)
        line = number
        try:
            for line, given in unfolded(lines, parts, {}):
                row.take(line, given)
        except (Bad, ValueError) as why:
            raise Bad(f"{path.relative_to(ROOT)}:{line}: {why}") from None
        rows.append(row)
    return rows


# -- playing


def played_by_program(lists):
    """What the program does with lists of steps, each with its limits: for each step its actions and the timeout after it."""
    lines = []
    for limits, steps in lists:
        lines.append(f"limits {' '.join(map(str, limits.values()))}")
        for step in steps:
            lines += [step.given(), "timeout"]
    if not os.access(PROGRAM, os.X_OK):
        raise Bad(f"there is no program {PROGRAM}: `rt run < stdin` in crates/oftp_test_schedule proves and builds it")
    with tempfile.TemporaryFile("w+") as given:
        given.write("\n".join([*lines, ""]))
        given.seek(0)
        ran = subprocess.run([PROGRAM], stdin=given, capture_output=True, text=True, timeout=SECONDS, check=False)
    if ran.returncode or ran.stderr:
        raise Bad(f"{PROGRAM.name} ends with status {ran.returncode}: {ran.stderr[:300]}")
    return cut(iter(ran.stdout.splitlines()), [len(steps) for _, steps in lists])


def cut(lines, lengths):
    """The lines of an output, for each list and each of its steps."""
    found = []
    for length in lengths:
        found.append([])
        for _ in range(length):
            actions = []
            for line in lines:
                if line.startswith("timeout "):
                    found[-1].append((actions, line.split()[1]))
                    break
                actions.append(line.split())
    return found


def timeout_of(model):
    moment = model.timeout()
    return "never" if moment is None else str(moment)


def carry_out(model, how, event):
    """What a model does with a step: its actions and the timeout after it."""
    if event:
        model.tell(event)
    actions = []
    while how != "+":
        action = model.next()
        if action:
            actions.append(action)
        if action is None or how == "next":
            break
    return actions, timeout_of(model)


def played_by_model(limits, steps):
    model = Model(limits)
    return [carry_out(model, step.how, step.event) for step in steps]
