#!/usr/bin/env python3
"""Plays the day of examples/interop between two stations of ours, and against a partner that departs from RFC 5024.

    checks/scenarios/interop.py [WORD ..]      all cases, or those whose names have one of these words

The script finds its partner by a code, passwords and an address, and has a command do what the partner's operator would do. The last line is `N passed,
M failed`.

Shows: examples/interop/play_a_day between two of ours: each step passes and no session has anything that RFC 5024 doesn't allow. Without a partner
each step fails or isn't tried, and the report says so
"""

import os
import re
import subprocess
import sys
import tempfile
from pathlib import Path

sys.path.insert(0, str(Path(__file__).resolve().parents[1] / "lib"))

from program import PROGRAM, ROOT
from services import Resident, Wrong, expect, free_port

SCRIPT = ROOT / "examples/interop/play_a_day"
STATION, CARMAKER = "O0013SUPPLIER", "O0177CARMAKER"
BOOK = """[station]
code = "{CARMAKER}"
buffer = 16384
credit = 99
restart = true

[[partner]]
code = "{STATION}"
expects = "SUPPW"
sends = "CARPW"
mode = "B"
address = "127.0.0.1:{port}"
"""
# What does the partner's part, by the step, what is to be done, a dataset name and a format.
OPERATOR = r"""#!/bin/bash
set -eu
cd "$(dirname "$0")"
give() { "$OFTP_STATION" "$1" --db database --book book.toml "${@:2}"; }
submit() { give submit --dataset "$1" --to O0013SUPPLIER --format "$2" $([[ $2 == [FV] ]] && echo --longest 40) content; }
unanswered() { "$OFTP_STATION" report --db database in | awk -F , '$9 == "whole" && $10 == "none" {print $1}'; }
case $2 in
    send) printf '%-40s' one two three > content; [[ $4 != V ]] || printf '00003one00003two' > content; submit "$3" "$4"; give call --partner O0013SUPPLIER ;;
    send-empty) : > content; submit "$3" "$4"; give call --partner O0013SUPPLIER ;;
    send-large) head -c 400000 /dev/urandom > content; submit "$3" "$4"; give call --partner O0013SUPPLIER ;;
    send-again | call) give call --partner O0013SUPPLIER ;;
    respond)
        read -r first others <<< "$(unanswered | tr '\n' ' ')"
        give refuse "$first" 34 'refused by the partner'
        for no in $others; do give release "$no"; done
        give call --partner O0013SUPPLIER ;;
esac
"""


def played(room, address, port, *words):
    """What the script prints, with its status, and the report that it writes."""
    codes = ["--code", STATION, "--password", "SUPPW", "--partner", CARMAKER, "--partner-password", "CARPW"]
    given = [SCRIPT, "--to", room / "played", *codes, "--address", address, "--port", str(port), *words]
    environment = {**os.environ, "OFTP_STATION": str(PROGRAM)}
    done = subprocess.run(given, env=environment, capture_output=True, text=True, timeout=900, check=False)
    if not (room / "played/report.md").exists():
        raise Wrong(f"there is no report: {done.stdout}{done.stderr}")
    return done, (room / "played/report.md").read_text(encoding="utf-8")


def results_in(report):
    """The results of the steps."""
    return re.findall(r"^\| .* \| (passed|FAILED|NOT TRIED) \| .* \|$", report, re.M)


def two_of_ours(room):
    """Each step passes, and neither side does what RFC 5024 doesn't allow."""
    far, port = room / "far", free_port()
    far.mkdir()
    book = far / "book.toml"
    book.write_text(BOOK.format(STATION=STATION, CARMAKER=CARMAKER, port=port), encoding="utf-8")
    operator = far / "operator"
    operator.write_text(OPERATOR, encoding="utf-8")
    operator.chmod(0o755)
    with Resident(far, book=book) as service:
        done, report = played(room, f"127.0.0.1:{service.port}", port, "--wait", "30", "--partner-does", operator)
    expect((done.returncode, set(results_in(report)), len(results_in(report))), (0, {"passed"}, 10), f"the day: {done.stdout}{done.stderr}{report}")
    sessions = re.findall(r"^- \*\*(.*)\*\*: (.*)$", report, re.M)
    expect((len(sessions) > 10, {told for _, told in sessions}), (True, {"nothing", "not judged, since this script broke it"}), "how many sessions there are, and what is told of them")


def nobody(room):
    """Where nobody is at the address, each step fails or isn't tried."""
    done, report = played(room, f"127.0.0.1:{free_port()}", free_port(), "--wait", "1")
    expect((done.returncode, set(results_in(report)), len(results_in(report))), (1, {"FAILED", "NOT TRIED"}, 10), f"the day: {done.stdout}{done.stderr}{report}")


CASES = {case.__name__: case for case in (two_of_ours, nobody)}


def tried(name):
    with tempfile.TemporaryDirectory() as folder:
        try:
            CASES[name](Path(folder))
        except (Wrong, subprocess.SubprocessError, OSError) as why:
            print(f"FAIL {name}: {type(why).__name__}: {why}")
            return False
    return True


def main():
    names = [name for name in CASES if not sys.argv[1:] or any(word in name for word in sys.argv[1:])]
    done = [tried(name) for name in names]
    print(f"{sum(done)} passed, {len(done) - sum(done)} failed")
    return int(not all(done) or not done)


if __name__ == "__main__":
    sys.exit(main())
