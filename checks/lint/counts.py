#!/usr/bin/env python3
"""Counts rows, command lines, examples, tests and wrong bodies, and compares the numbers with those in checks/lint/counts.txt.

    checks/lint/counts.py

It counts rows, command lines, texts of books, files of rows/listing, rows of schedules, worked examples, tests and wrong bodies. So a lost one is
noticed. A smaller number fails, because something was lost. A greater one fails too, until it is written down. The last line is `N passed, M
failed`.

Shows: no row, line, listing, text of a book, test or wrong body is lost
"""

import re
import sys
from pathlib import Path

sys.path.insert(0, str(Path(__file__).resolve().parents[1] / "lib"))

import book_texts
import line_files
from program import ROOT
from row_files import ROWS
from schedule_rows import PARTS, SCHEDULES, headed

WRITTEN = ROOT / "checks/lint/counts.txt"


def count_files(pattern):
    return len(list(ROOT.glob(pattern)))


def count_lines():
    """The command lines of rows/lines, with those that are made by varying the words of each command."""
    return sum(len(line_files.all_lines(path)) for path in line_files.LINES.glob("*.lines"))


def count_tests():
    """The functions under #[test] in the crates."""
    return sum(len(re.findall(r"(?m)^\s*#\[test\]", path.read_text())) for path in ROOT.glob("crates/*/src/**/*.rt"))


def count_examples():
    """The calls of crates/oftp_test_codec, and their expected lines."""
    lines = (ROOT / "crates/oftp_test_codec/stdout").read_text(encoding="utf-8").splitlines()
    answers = [it for it in lines if it.startswith("  ")]
    calls = [it for it in lines if it and not it.startswith(("#", "  "))]
    return len(calls), len(answers)


def counted():
    """The numbers, under the names of checks/lint/counts.txt."""
    calls, answers = count_examples()
    return {
        "rows": len(list(ROWS.glob("*/*.row"))),
        "command lines": count_lines(),
        "listing files": len(list(ROWS.glob("listing/*.listing"))),
        "rows of schedules": sum(len(headed(path, "row")) for path in SCHEDULES.glob("*.schedule") if path != PARTS),
        "texts of books": len(list(book_texts.cases())),
        "worked examples": calls,
        "lines that they answer": answers,
        "tests": count_tests(),
        "wrong bodies that the gate tries": count_files("crates/*/must-fail/*.edit"),
        "wrong bodies beside the gate": count_files("checks/wrong_bodies/*/*.edit"),
    }


def written():
    """The written numbers: a name and a number on each line."""
    lines = (line.rpartition(" ") for line in WRITTEN.read_text().splitlines() if line.strip())
    return {name: int(number) for name, _, number in lines}


def judged(name, found, wanted):
    """Why a number isn't the written one, or None."""
    if found is None:
        return f"{wanted} are written down, and nothing is counted under this name"
    if wanted is None:
        return f"{found}, and no number is written down: write it into {WRITTEN.relative_to(ROOT)}"
    if found < wanted:
        return f"{found}, and {wanted} are written down: {wanted - found} are lost"
    if found > wanted:
        return f"{found}, and {wanted} are written down: write the new number into {WRITTEN.relative_to(ROOT)}"
    return None


def main():
    found, wanted = counted(), written()
    names = [*wanted, *(name for name in found if name not in wanted)]
    failed = 0
    for name in names:
        why = judged(name, found.get(name), wanted.get(name))
        failed += why is not None
        print(f"{name}: {why or found[name]}")
    print(f"{len(names) - failed} passed, {failed} failed")
    return 1 if failed or not names else 0


if __name__ == "__main__":
    sys.exit(main())
