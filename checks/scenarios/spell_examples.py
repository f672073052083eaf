#!/usr/bin/env python3
"""Encodes the partner's octets in examples/ from the rows that have the same sessions in words.

    checks/scenarios/spell_examples.py [--write]      compares them with the files, or writes them

The last line is `N passed, M failed`.

Shows: the octets of examples/ and a day's commands are as the rows spell them
"""

import sys
from pathlib import Path

sys.path.insert(0, str(Path(__file__).resolve().parents[1] / "lib"))

from program import ROOT
from row_files import ROWS, File, Row

# Each file of examples/ with its row, and the number of its session in the row.
OCTETS = {
    "one_end_response.octets": ("listening/one_end_response", 0),
    "repeated_end_response.octets": ("listening/repeated_end_response", 0),
    "one_file.octets": ("receiving/file_in_one_session", 0),
    "day/schedule_breaks.octets": ("day/a_day", 0),
    "day/schedule_goes_on.octets": ("day/a_day", 1),
    "day/car_maker_is_called.octets": ("day/a_day", 2),
}
# Each file of an operator's, with its row and its name there.
FILES = {"day/dispatch_note": ("day/a_day", "dispatch_note"), "day/schedule": ("day/a_day", "schedule")}


def spelled():
    """The octets of each file."""
    for name, (row, place) in OCTETS.items():
        yield name, Row(ROWS / f"{row}.row").sessions()[place].joined("in")
    for name, (row, file) in FILES.items():
        yield name, next(act.octets for act in Row(ROWS / f"{row}.row").acts if isinstance(act, File) and act.name == file)


def main():
    failed = 0
    for name, octets in spelled():
        path = ROOT / "examples" / name
        if "--write" in sys.argv[1:]:
            path.parent.mkdir(exist_ok=True)
            path.write_bytes(octets)
        elif path.read_bytes() != octets:
            print(f"{name}: its row has other octets")
            failed += 1
    print(f"{len(OCTETS) + len(FILES) - failed} passed, {failed} failed")
    return 1 if failed else 0


if __name__ == "__main__":
    sys.exit(main())
