#!/usr/bin/env python3
"""Compares the program's version with what else has it, and the sum of its sources with them.

    checks/lint/version.py            compares
    checks/lint/version.py --write    writes the sum

The version stands in crates/oftp_command_line/src/line/usage.rt, from which the program and the package have it. It is the newest of CHANGELOG.md,
and what rows/lines/help.lines expects of the program. No other file outside of crates/ may spell it, so that none is forgotten: proofs have such
numbers for parts of what they speak of. The sum is that of sha256sum over the lines that sha256sum prints for files, in the order of their names.
They are crates.txt and each file of the crates that is built or proved, but that which has the sum. The last line is `N passed, M failed`.

Shows: CHANGELOG.md and rows/lines have the version of the program's source, and no other file spells it. The sum that `version` prints is that of the
sources
"""

import hashlib
import re
import subprocess
import sys
from pathlib import Path

sys.path.insert(0, str(Path(__file__).resolve().parents[1] / "lib"))

from program import ROOT

USAGE = "crates/oftp_command_line/src/line/usage.rt"
# The file that has the sum, and the sum in it.
SOURCES = "crates/oftp_station/src/sources.rt"
SUM = re.compile(r"\bsources [0-9a-f]{64}\b")
# Where the version stands a second time, and how.
REPEATED = {
    "CHANGELOG.md": re.compile(r"\A.*?^## (\S+),", re.M | re.S),
    "rows/lines/help.lines": re.compile(r"^out oftp_station (\S+), schema", re.M),
}


def text_of(name):
    return (ROOT / name).read_text(encoding="utf-8")


def sources():
    """The names of the sources whose sum it is."""
    tried = re.compile(r"crates/oftp_test_|crates/\w+/must-fail/")
    words = ["git", "ls-files", "--cached", "--others", "--exclude-standard", "--", "crates.txt", "crates"]
    names = subprocess.run(words, cwd=ROOT, capture_output=True, text=True, check=True).stdout.split()
    return sorted(name for name in {*names} - {SOURCES} if not tried.match(name) and (ROOT / name).is_file())


def sum_of_sources():
    lines = [f"{hashlib.sha256((ROOT / name).read_bytes()).hexdigest()}  {name}\n" for name in sources()]
    return hashlib.sha256("".join(lines).encode()).hexdigest()


def write_sum():
    text = SUM.sub(f"sources {sum_of_sources()}", text_of(SOURCES))
    (ROOT / SOURCES).write_text(text, encoding="utf-8")


def main():
    if sys.argv[1:] == ["--write"]:
        write_sum()
    found = re.search(r'^pub const VERSION: &str = "oftp_station (\d+\.\d+\.\d+), schema \d+";$', text_of(USAGE), re.M)
    if not found:
        print(f"{USAGE} has no version\n0 passed, 1 failed")
        return 1
    version, passed, failed = found[1], 0, 0
    for name, pattern in REPEATED.items():
        told = pattern.findall(text_of(name))
        is_right = bool(told) and set(told) == {version}
        passed, failed = passed + is_right, failed + (not is_right)
        if not is_right:
            print(f"{name} has {told or 'no version'}, and {USAGE} has {version}")
    words = ["git", "grep", "-lwF", "-e", version, "--", ":!crates"]
    spelled = set(subprocess.run(words, cwd=ROOT, capture_output=True, text=True, check=False).stdout.splitlines())
    for name in sorted(spelled - {*REPEATED}):
        failed += 1
        print(f"{name} spells the version {version}: take it from {USAGE}, or compare it here")
    is_right = SUM.findall(text_of(SOURCES)) == [f"sources {sum_of_sources()}"]
    passed, failed = passed + is_right, failed + (not is_right)
    if not is_right:
        print(f"{SOURCES} doesn't have the sum of the sources: checks/lint/version.py --write writes it")
    print(f"{passed} passed, {failed} failed")
    return 1 if failed else 0


if __name__ == "__main__":
    sys.exit(main())
