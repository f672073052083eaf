#!/usr/bin/env python3
"""Gives the built program the command lines of rows/lines, and reports each whose result or files differ.

    checks/scenarios/command_lines.py [--beside] [TOPIC ..]     the files of rows/lines by their names; all if none is named

rows/README.md describes a line. Each runs in a folder of its own, with the files that it names. Its output, its status and the folder
afterwards have to be as written, and nothing else may be printed, made or changed. The words of each command in commands.lines are varied:
each is left out, given twice, and has one beside it that no command takes. With `--beside` each command that can ask a station which keeps
the database open is run while one does: no result may differ. The last line is `N passed, M failed`.

Shows: the command lines, and once more with a station that keeps the database open. Which words are read how, each bad line with its text, and
each error of a book or a file. Also an output that fails or that nobody reads. Nothing that a line doesn't name is printed, made or changed
"""

import subprocess
import sys
from pathlib import Path

sys.path.insert(0, str(Path(__file__).resolve().parents[1] / "lib"))

import tables
from line_files import LINES, all_lines


def main():
    topics = [word for word in sys.argv[1:] if word != "--beside"]
    is_beside = "--beside" in sys.argv[1:]
    passed = failed = asked = 0
    for path in sorted(LINES.glob("*.lines")):
        if topics and path.stem not in topics:
            continue
        for line in all_lines(path):
            try:
                why = line.run(is_beside)
            except (OSError, subprocess.TimeoutExpired, tables.Damaged) as fault:
                why = fault
            asked += line.asked
            passed += not why
            failed += bool(why)
            if why:
                print(f"{path.stem}: {line.name}: {why}")
    if is_beside:
        print(f"{asked} commands asked a station")
    print(f"{passed} passed, {failed} failed")
    return 1 if failed or not passed or is_beside and not asked else 0


if __name__ == "__main__":
    sys.exit(main())
