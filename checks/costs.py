#!/usr/bin/env python3
"""Runs a command, and prints what its proofs, tests, wrong bodies and builds took: processor seconds of each crate, in Markdown.

    checks/costs.py rt ci      runs `rt ci`, and then writes the table to standard error

It looks at the command's descendant processes twice a second. A process of the prover names its crate; what it starts, such as a compiler,
counts for the same crate. What a process takes in the last half second of its life isn't seen.
"""

import os
import pathlib
import subprocess
import sys
import time

TICKS = os.sysconf("SC_CLK_TCK")
KINDS = ("proof", "tests", "wrong bodies", "builds")


def read(path):
    """The text of a file in /proc, or an empty one if the process is gone."""
    try:
        return pathlib.Path(path).read_bytes()
    except OSError:
        return b""


def processes():
    """Each process with its parent, its name, and its processor seconds. The name includes the start time, because process ids are
    reused."""
    found = {}
    for name in os.listdir("/proc"):
        fields = read(f"/proc/{name}/stat").rpartition(b") ")[2].split() if name.isdigit() else []
        if fields:
            found[int(name)] = int(fields[1]), (name, fields[19]), (int(fields[11]) + int(fields[12])) / TICKS
    return found


def label_of(pid):
    """The crate on which a process of the prover works and the kind of work, or None for any other process."""
    words = read(f"/proc/{pid}/cmdline").decode(errors="replace").split("\0")
    if "--crate-name" not in words or len(words) < 2:
        return None
    crate = words[words.index("--crate-name") + 1]
    room = os.path.basename(os.path.dirname(f"{link(pid)}/"))
    if room.startswith("rt-edit-"):
        return crate, "wrong bodies"
    if "--test" in words:
        return crate, "tests"
    return crate, "builds" if "--crate-checked" in words else "proof"


def link(pid):
    """The working directory of a process."""
    try:
        return os.readlink(f"/proc/{pid}/cwd")
    except OSError:
        return ""


class Costs:
    """What the descendants of a command have taken, by crate and kind."""

    def __init__(self, top):
        self.top = top
        self.labels = {}
        self.taken = {}

    def label(self, pid, found):
        """What a process counts for: its own label, or that of its nearest ancestor with one. None for a process that isn't a descendant of
        the command. A label is kept; a process without one may turn into the prover at the next look."""
        if pid == self.top:
            return ("", "the rest")
        if pid not in found or pid == 1:
            return None
        above, name, _ = found[pid]
        if name not in self.labels:
            own, label = label_of(pid), self.label(above, found)
            if not own or not label:
                return label
            self.labels[name] = own
        return self.labels[name]

    def look(self):
        found = processes()
        for pid, (_, name, seconds) in found.items():
            label = self.label(pid, found)
            if label:
                self.taken[name] = label, seconds

    def sums(self):
        """The seconds of each crate and kind."""
        sums = {}
        for label, seconds in self.taken.values():
            sums[label] = sums.get(label, 0) + seconds
        return sums


def table(sums):
    """The lines of the table, and the sum of all in minutes."""
    yield "| Crate | " + " | ".join(KINDS) + " | together |"
    yield "|---" * (len(KINDS) + 2) + "|"
    crates = sorted({crate for crate, _ in sums if crate})
    for crate in crates:
        row = [sums.get((crate, kind), 0) for kind in KINDS]
        yield f"| {crate} | " + " | ".join(f"{it:,.0f}" for it in [*row, sum(row)]) + " |"
    row = [sum(sums.get((crate, kind), 0) for crate in crates) for kind in KINDS]
    yield "| all | " + " | ".join(f"{it:,.0f}" for it in [*row, sum(row)]) + " |"
    rest = sums.get(("", "the rest"), 0)
    yield f"and {rest:,.0f} s beside the crates: {(sum(row) + rest) / 60:.0f} processor minutes in all"


def main(words):
    if not words:
        print(__doc__, file=sys.stderr)
        return 2
    began = time.monotonic()
    with subprocess.Popen(words) as ran:
        costs = Costs(ran.pid)
        while ran.poll() is None:
            costs.look()
            time.sleep(0.5)
    for line in table(costs.sums()):
        print(line, file=sys.stderr)
    print(f"{(time.monotonic() - began) / 60:.1f} minutes by the clock", file=sys.stderr)
    return ran.returncode


if __name__ == "__main__":
    sys.exit(main(sys.argv[1:]))
