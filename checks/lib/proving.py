#!/usr/bin/env python3
"""Proves crates side by side for ./prove, each as soon as those that it depends on are proved, and prints how far it is.

    proving.py CRATE..       the crates, without those that they depend on, which are proved as well
    proving.py --sweep       brings home what a killed call has left

`rt` lets only one call at a time use a crate, or one that it depends on. So each crate is proved in a tree of its own, out/trees/CRATE. The tree
has the crate's own folder out/, and links to the sources and to the libraries. A call that is interrupted brings home what it has proved so far.
"""

import os
import re
import shutil
import signal
import subprocess
import sys
import time
from pathlib import Path

ROOT = Path(__file__).resolve().parents[2]
TREES = ROOT / "out/trees"
PARTS = ("src", "specs", "proofs")

# The memory of one process, in KiB.
MEMORY_OF_ONE = 4_000_000

SECONDS_BETWEEN_LINES = 10


def lines_of_crates():
    """The lines of crates.txt, by the crate."""
    lines = (ROOT / "crates.txt").read_text().splitlines()
    return {line.partition(":")[0].split()[0]: line for line in lines if ":" in line and line[0] != "#"}


def dependencies():
    """The crates of crates.txt, each with all that it depends on."""
    direct = {name: line.partition(":")[2].split() for name, line in lines_of_crates().items()}
    every = {}

    def collect(name):
        if name not in every:
            named = [it for it in direct[name] if it in direct]
            every[name] = set(named).union(*map(collect, named))
        return every[name]

    for name in direct:
        collect(name)
    return every


def most_jobs():
    """How many processes there is room for: one for each processor, if there is memory for each."""
    free = int(re.search(r"MemAvailable:\s+(\d+)", Path("/proc/meminfo").read_text())[1])
    return max(1, min(free // MEMORY_OF_ONE, len(os.sched_getaffinity(0))))


def link(old, new):
    """A link to a folder's files, in a folder of their own."""
    if old.is_dir():
        shutil.copytree(old, new, copy_function=os.link)


def home(name):
    return ROOT / "crates" / name


def bring_home(name):
    """Takes the crate's folder out/ back from its tree, unless that was done, and removes the tree."""
    proved = TREES / name / "crates" / name / "out"
    if proved.is_dir() and not (home(name) / "out").exists():
        proved.rename(home(name) / "out")
    shutil.rmtree(TREES / name, ignore_errors=True)


def sweep():
    if TREES.is_dir():
        for tree in TREES.iterdir():
            bring_home(tree.name)
        shutil.rmtree(TREES, ignore_errors=True)


class Proof:
    """A crate's proof in its tree."""

    def __init__(self, name, below, jobs):
        self.name = name
        self.jobs = jobs
        self.begun = time.monotonic()
        tree = TREES / name
        folder = tree / "crates" / name
        for each in (name, *below):
            for part in PARTS:
                link(home(each) / part, tree / "crates" / each / part)
        for each in below:
            link(home(each) / "out/rlib", tree / "crates" / each / "out/rlib")
        (tree / "crates.txt").write_text("".join(f"{line}\n" for each, line in lines_of_crates().items() if each == name or each in below))
        if (home(name) / "out").is_dir():
            (home(name) / "out").rename(folder / "out")
        self.said = tree / "said"
        with self.said.open("w") as said:
            words = ["rt", "lib", "--jobs", str(jobs)]
            self.run = subprocess.Popen(words, cwd=folder, stdin=subprocess.DEVNULL, stdout=said, stderr=subprocess.STDOUT)

    def far(self):
        """Its name, and how many of its functions are checked, as `rt` says it."""
        found = re.findall(r"^so far: (\d+ of \d+)", self.said.read_text(errors="replace"), re.M)
        return f"{self.name} ({found[-1]} functions)" if found else self.name

    def end(self):
        """Ends it, if it still runs."""
        self.run.terminate()
        self.run.wait()
        bring_home(self.name)


class Proofs:
    """The proofs that run, and the crates that are proved or wait."""

    def __init__(self, names):
        self.below = dependencies()
        self.waiting = set(names).union(*(self.below[name] for name in names))
        self.count = len(self.waiting)
        self.running = []
        self.proved = set()
        self.most_jobs = most_jobs()

    def above(self, name):
        """How many of the waiting crates depend on it."""
        return sum(name in self.below[it] for it in self.waiting)

    def begin(self):
        """Begins the proofs for which there is room, those first on which most depends. If fewer are ready than there is room for, the first
        gets the rest. Each process reads first all that its crate depends on, so more of them in one crate take longer in all."""
        ready = sorted((it for it in self.waiting if self.below[it] <= self.proved), key=lambda it: (-self.above(it), it))
        free = self.most_jobs - sum(proof.jobs for proof in self.running)
        for later, name in zip(reversed(range(len(ready))), ready):
            if free < 1:
                break
            jobs = max(1, free - later)
            self.waiting.remove(name)
            self.running.append(Proof(name, self.below[name], jobs))
            free -= jobs

    def take(self, proof):
        """Takes the result of a proof that has ended. An error ends the others too."""
        said = proof.said.read_text(errors="replace")
        self.running.remove(proof)
        bring_home(proof.name)
        if proof.run.returncode:
            print(said, end="")
            sys.exit(f"this isn't proved: {proof.name}")
        if not (home(proof.name) / "out/rlib").is_dir():
            sys.exit(f"another rt works in crates/{proof.name}: prove again once it has ended")
        self.proved.add(proof.name)
        print(f"proved in {time.monotonic() - proof.begun:.0f} s: {proof.name}", flush=True)

    def tell(self):
        now = ", ".join(it.far() for it in self.running)
        print(f"so far: {len(self.proved)} of {self.count} crates; now {now}", flush=True)

    def go_through(self):
        """Proves all, one after the other or side by side."""
        told = time.monotonic()
        while self.waiting or self.running:
            self.begin()
            time.sleep(0.2)
            for proof in [it for it in self.running if it.run.poll() is not None]:
                self.take(proof)
            if time.monotonic() >= told + SECONDS_BETWEEN_LINES:
                self.tell()
                told = time.monotonic()


def main():
    sweep()
    if sys.argv[1:] == ["--sweep"]:
        return
    proofs = Proofs(sys.argv[1:])
    signal.signal(signal.SIGTERM, lambda *_: sys.exit(143))
    try:
        proofs.go_through()
    finally:
        for proof in proofs.running:
            proof.end()
        sweep()


main()
