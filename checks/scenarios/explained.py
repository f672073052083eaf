#!/usr/bin/env python3
"""Runs `explain` over the sessions of rows/explain: each rule has one that breaks it, and one that doesn't.

    checks/scenarios/explained.py [RULE ..]        those of these rules; all if none is named

Both directions of a session are files, made by the scripts' own table of the commands (checks/lib/oftp.py). What is found is compared with what
the file says: the number of each command, the field, and the section of RFC 5024. A session that breaks nothing prints nothing and has status 0.
Each rule that the sources have is in a file. The last line is `N passed, M failed`.

Shows: each rule of `explain` has a session that breaks it, found at its command, field and section, and one that breaks none. The standard's own
example breaks none
"""

import subprocess
import sys
import tempfile
from pathlib import Path

sys.path.insert(0, str(Path(__file__).resolve().parents[1] / "lib"))

from explain_files import EXPLAIN, all_rules, cases_in, found_in
from program import PROGRAM

SECONDS = 30


def explained(case):
    """Why what is found in a session isn't what its file says, or None."""
    with tempfile.TemporaryDirectory() as room:
        files = {side: Path(room) / side for side in ("in", "out")}
        for side, path in files.items():
            path.write_bytes(case.joined(side))
        words = [PROGRAM, "explain", files["in"], files["out"]]
        done = subprocess.run(words, capture_output=True, timeout=SECONDS, check=False)
    output = done.stdout.decode()
    found = found_in(output)
    if done.stderr or found != case.finds:
        return f"wanted {case.finds}, got {found}: {output}{done.stderr.decode()}"
    if case.finds and done.returncode != 1:
        return f"the status is {done.returncode}"
    return None


def main():
    cases = [case for path in sorted(EXPLAIN.glob("*.explain")) for case in cases_in(path)]
    named = set(sys.argv[1:])
    failed = 0
    lacking = set() if named else all_rules() - {case.rule for case in cases}
    for rule in sorted(lacking):
        print(f"{rule}: no session is about it")
        failed += 1
    tried = [case for case in cases if not named or case.rule in named]
    for case in tried:
        why = explained(case)
        if why or case.breaks != bool(case.finds):
            print(f"{case.rule}, {'breaks' if case.breaks else 'keeps'}: {why or 'it finds what it should not'}")
            failed += 1
    print(f"{len(tried) + len(lacking) - failed} passed, {failed} failed")
    return 1 if failed else 0


if __name__ == "__main__":
    sys.exit(main())
