#!/usr/bin/env python3
"""Checks that the texts have the manner of docs/CONTRIBUTING.md, as far as a script can see it.

    checks/lint/manner.py

No body of a function in src/ has more than 40 lines. No line of a clause, a definition or a proof has more than 200 characters. Each file begins
with the line that says what it has: `//!` in src/, `--` in specs/ and proofs/, except answers and lists of modules. README.md is within the length
that docs/CONTRIBUTING.md gives it, and docs/PROMISES.md has its first promise in its first 15 lines. It prints each violation, and `N passed, M
failed`, in files.

Shows: no body of a function is longer than 40 lines, and no line of a clause or a proof is longer than 200 characters. Each file says what it has.
README is as short as it has to be, and PROMISES begins with a promise
"""

import re
import sys
from pathlib import Path

sys.path.insert(0, str(Path(__file__).resolve().parents[1] / "lib"))

from crate_text import OPAQUE, body_of
from program import ROOT

MOST_LINES = 40
MOST_CHARACTERS = 200
README = ROOT / "README.md"
CONTRIBUTING = ROOT / "docs/CONTRIBUTING.md"
PROMISES = ROOT / "docs/PROMISES.md"
# The first promise, and the line by which it has begun.
HEADLINE = "## The headline\n\n"
MOST_BEFORE = 15


def long_bodies(text):
    """The functions whose bodies have too many lines."""
    text = OPAQUE.sub(lambda it: re.sub(r"[^\n]", " ", it.group()), text)
    for head in re.finditer(r"\bfn\s+(\w+)\s*[(<]", text):
        body = body_of(text, head.end() - 1)
        lines = text.count("\n", *body) - 1 if body else 0
        if lines > MOST_LINES:
            yield f"{head.group(1)}: a body of {lines} lines"


def faults(path):
    """The violations in a file."""
    text = path.read_text(encoding="utf-8")
    for number, line in enumerate(text.splitlines(), 1):
        if len(line) > MOST_CHARACTERS and not re.match(r"\s*(ghost |pub )?use\b", line):
            yield f"{number}: {len(line)} characters"
    if path.suffix == ".rt":
        yield from long_bodies(text)
    begin = "//! " if path.suffix == ".rt" else "-- "
    listed = path.name in ("Answers.antt", "Invariants.antt", "Lib.antt")
    if not listed and not text.startswith(begin):
        yield f"1: no `{begin.strip()}`"


def faults_of_document(path):
    """The violations in README.md and docs/PROMISES.md."""
    text = path.read_text(encoding="utf-8")
    if path == README:
        limits = re.search(r"README\.md stays within (\d+) lines of at most (\d+) characters", CONTRIBUTING.read_text(encoding="utf-8"))
        lines, characters = (int(it) for it in limits.groups())
        if text.count("\n") > lines:
            yield f"{text.count(chr(10))} lines"
        yield from (f"{number}: {len(line)} characters" for number, line in enumerate(text.splitlines(), 1) if len(line) > characters)
    before, found, _ = text.partition(HEADLINE)
    if path == PROMISES and (not found or (before + found).count("\n") >= MOST_BEFORE):
        yield f"its first promise isn't in its first {MOST_BEFORE} lines"


def main():
    files = sorted(it for part in ("src", "specs", "proofs") for kind in ("rt", "antt") for it in ROOT.glob(f"crates/*/{part}/**/*.{kind}"))
    files += [README, PROMISES]
    failed = 0
    for path in files:
        found = list(faults_of_document(path) if path.suffix == ".md" else faults(path))
        failed += bool(found)
        for it in found:
            print(f"{path.relative_to(ROOT)}: {it}")
    print(f"{len(files) - failed} passed, {failed} failed")
    return 1 if failed or not files else 0


if __name__ == "__main__":
    sys.exit(main())
