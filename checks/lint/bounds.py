#!/usr/bin/env python3
"""Compares the bounds and the numbers of things that the documents state with the code.

    checks/lint/bounds.py

A line of BOUNDS names a document, and a pattern that finds the sentence there. For each number in it, it names where the code has it, or where
the table of crates in docs/PERFORMANCE.md does. A sentence that isn't found fails too. The last line is `N passed, M failed`.

Shows: each bound, default and number of things that the documents state is the one that the code has
"""

import csv
import re
import sys
from pathlib import Path

sys.path.insert(0, str(Path(__file__).resolve().parents[1] / "lib"))

from program import ROOT

WORDS = {"one": 1, "two": 2, "four": 4, "five": 5, "seven": 7, "eight": 8, "ten": 10, "thirteen": 13, "fifteen": 15, "thirty": 30, "a million": 1_000_000, "a day": 86_400}
MIB = 1_048_576


def constant(path, name):
    """The value of a constant, or of a field of one."""
    text = (ROOT / "crates" / path).read_text(encoding="utf-8")
    found = re.search(rf"\b{name}(?:: \w+ =|:) ([\d_]+)[,;]", text)
    if not found:
        raise LookupError(f"crates/{path} has no {name}")
    return int(found[1].replace("_", ""))


def default(name):
    """The number that an option of the command line has where it isn't given."""
    path = "oftp_command_line/src/line/table.rt"
    found = re.search(rf'Defaulted\("{name}", "\w+", "[^"]*", "(\d+)"', (ROOT / "crates" / path).read_text(encoding="utf-8"))
    if not found:
        raise LookupError(f"crates/{path} has no default of {name}")
    return int(found[1])


def count(pattern, *paths):
    """How often a pattern is found in files."""
    files = sorted(it for path in paths for it in (ROOT / "crates").glob(path))
    return sum(len(re.findall(pattern, it.read_text(encoding="utf-8"), re.M)) for it in files)


def variants(path, name):
    """How many variants an enum has."""
    body = re.search(rf"^pub enum {name}\b[^{{]*{{\n(.*?)^}}", (ROOT / "crates" / path).read_text(encoding="utf-8"), re.M | re.S)[1]
    return len(re.findall(r"^    [A-Z]\w*", body, re.M))


def clauses(path, head):
    """How many clauses the function with this head has."""
    text = (ROOT / "crates" / path).read_text(encoding="utf-8").partition(head)[2]
    return len(re.findall(r"\bensures\b", re.split(r"\bfn ", text)[0]))


OCTETS = constant("oftp_files/src/limits.rt", "octets")
FILES = constant("oftp_register/src/fit.rt", "MOST_FILES")
RECORDS = constant("oftp_vfile/src/format.rt", "MOST_ROWS")
RECORD = constant("oftp_vfile/src/format.rt", "LONGEST_RECORD")
LINE = "oftp_command_line/src/line/arguments.rt"
LOCKED = constant("oftp_database/src/opening.rt", "PATIENCE") * constant("oftp_database/src/opening.rt", "PAUSE") // 1000
LIMITS = {name: constant("oftp_schedule/src/sizes.rt", name.lower()) for name in "PARTNERS COMMANDS REQUESTS TIMES SHARE BACKLOG HELD".split()}
# These are in milliseconds there.
LIMITS |= {name: constant("oftp_schedule/src/sizes.rt", name.lower()) // 1000 for name in "SHELTER ASKING REQUESTING FAREWELL COPYING STANDING".split()}
PAUSES = tuple(constant("oftp_schedule/src/durations.rt", name) // 1000 for name in ("LESSER", "GREATER"))
DIALING = constant("oftp_services/src/residence.rt", "DIALING")
PIECE = constant("oftp_resident/src/peer.rt", "SESSION_PIECE")
TURNS = constant("oftp_engine/src/limits.rt", "MOST_TURNS")
FIRST_ROWS = constant("oftp_session/src/payloads.rt", "FIRST_ROWS")
ADMISSION = constant(LINE, "MOST_ADMISSION")
DURATION = constant(LINE, "MOST_DURATION")
PATIENCE = constant(LINE, "MOST_PATIENCE")
CALLERS = constant(LINE, "MOST_CALLERS")
INTERVAL = constant(LINE, "MOST_INTERVAL")

LONGEST_FRAME = constant("oftp_codec/src/limits.rt", "LONGEST_FRAME")

COMMANDS = variants("oftp_wire/src/command.rt", "Command")
CHANGES = variants("oftp_register/src/change.rt", "Change")
TABLES = count("CREATE TABLE", "oftp_tables/src/make.rt")
DURABLE = count(r"^pub fn", "oftp_durable/src/**/*.rt") - sum(count(r"^pub fn", f"oftp_durable/src/{it}.rt") for it in ("laws", "life"))
TAKE = clauses("oftp_vfile/src/taking.rt", "pub fn take(")


def verified():
    """The minutes that `rt ci` takes for a crate: what docs/measured/gate.csv has for the crate and for all below it. What those edits took is
    left out that must-fail/ doesn't have any more."""
    with (ROOT / "docs/measured/gate.csv").open(encoding="utf-8", newline="") as file:
        rows = list(csv.DictReader(file))
    has_edits = {it.parent.name for it in (ROOT / "crates").glob("*/must-fail")}
    kinds = {it["crate"]: [kind for kind in it if kind != "crate" and (kind != "must-fail" or it["crate"] in has_edits)] for it in rows}
    seconds = {it["crate"]: sum(int(it[kind] or 0) for kind in kinds[it["crate"]]) for it in rows}
    lines = (ROOT / "crates.txt").read_text(encoding="utf-8").splitlines()
    uses = {line.split(":")[0]: [it for it in line.split()[1:] if it in seconds] for line in lines}

    def below(crate):
        return {crate}.union(*(below(it) for it in uses[crate]))

    return {crate: round(sum(seconds[it] for it in below(crate)) / 60) for crate in seconds}


MINUTES = verified()
CLAIMS = (ROOT / "docs/claims.csv").read_text(encoding="utf-8")
NAMED = {crate for name, crate in re.findall(r"(?m)^P(\d+)(?:\.\d+)?,.*,(oftp_\w+),(?:src|specs)/", CLAIMS) if int(name) < 18}
MEASURED = {it: minutes for it, minutes in MINUTES.items() if it in NAMED}

N = rf"([\d,]+|{'|'.join(WORDS)})"
BOUNDS = [
    ("README.md", rf"up to {N} MiB and {N} records", (OCTETS // MIB, RECORDS)),
    ("docs/COMMANDS.md", rf"more than {N} octets or {N} records, or {N} files are here", (OCTETS, RECORDS, FILES)),
    ("docs/COMMANDS.md", rf"A second program waits for {N} seconds at most", (LOCKED,)),
    ("docs/COMMANDS.md", rf"After {N} seconds the session ends with\s+`fault: 6 store 1`", (LOCKED,)),
    ("docs/COMMANDS.md", rf"every SECONDS seconds \(1 to {N}; 0 is never\)", (INTERVAL,)),
    ("docs/COMMANDS.md", rf"Such a caller waits for\s+{N} second, or for {N} if", PAUSES),
    ("docs/COMMANDS.md", rf"A call gives way {N} times at most", (LIMITS["TIMES"],)),
    ("docs/COMMANDS.md", rf"waits until it is ready, {N} seconds at most", (LOCKED,)),
    ("docs/COMMANDS.md", rf"{N} partners, {N} commands and {N} clients over HTTP", (LIMITS["PARTNERS"], LIMITS["COMMANDS"], LIMITS["REQUESTS"])),
    ("docs/COMMANDS.md", rf"if that came {N}\s+seconds ago", (LIMITS["SHELTER"],)),
    ("docs/COMMANDS.md", rf"A command has {N} seconds to send its request, and {N}\s+seconds without progress", (LIMITS["ASKING"], LIMITS["ASKING"])),
    ("docs/COMMANDS.md", rf"one for each {N} octets", (LIMITS["SHARE"],)),
    ("docs/COMMANDS.md", rf"hears nothing more while {N} MiB", (LIMITS["BACKLOG"] // MIB,)),
    ("docs/COMMANDS.md", rf"If answers of {N} MiB or more wait to be taken", (LIMITS["HELD"] // MIB,)),
    ("docs/COMMANDS.md", rf"within {N} seconds, or within `--patience`", (DIALING,)),
    ("docs/COMMANDS.md", rf"can't begin within {N} seconds", (LIMITS["STANDING"],)),
    ("docs/COMMANDS.md", rf"\(`--sessions`, `--requests`\) is 1 by default, and {N}\s+at most", (CALLERS,)),
    ("docs/COMMANDS.md", rf"The default is {N}, and 1 to {N} \({N}\) are allowed", (default("admission"), ADMISSION, 86_400)),
    ("docs/COMMANDS.md", rf"Up to {N} callers are connected side by side", (LIMITS["PARTNERS"],)),
    ("docs/COMMANDS.md", rf"The default is {N} and the most is {N}; 0 is no timeout", (default("patience"), PATIENCE)),
    ("docs/COMMANDS.md", rf"to 1 to {N} seconds, by default {N}\.", (DURATION, default("longest"))),
    ("docs/COMMANDS.md", rf"still sends, {N} seconds at most", (LIMITS["FAREWELL"],)),
    ("docs/COMMANDS.md", rf"must arrive within {N} seconds, and its reply must be out within another {N}\.", (LIMITS["REQUESTING"], LIMITS["REQUESTING"])),
    ("docs/howto/install.md", rf"has {N} seconds to send a", (default("admission"),)),
    ("docs/howto/install.md", rf"as long as no more than {N} of them wait. A partner who comes after {N} waits", (LIMITS["PARTNERS"], LIMITS["PARTNERS"])),
    ("docs/PARTNER.md", rf"{N} octets and {N} records at most", (OCTETS, RECORDS)),
    ("docs/PARTNER.md", rf"Records of F and V have up to {N} octets", (RECORD,)),
    ("docs/ARCHITECTURE.md", rf"a piece of at most {N} octets", (PIECE,)),
    ("docs/ARCHITECTURE.md", rf"asks the office for {N} records of the file", (FIRST_ROWS,)),
    ("README.md", rf"{N} of RFC 5024's eighteen commands are here", (COMMANDS,)),
    ("CHANGELOG.md", rf"{N} of the eighteen commands", (COMMANDS,)),
    ("docs/ARCHITECTURE.md", rf"the {N} commands, their fields", (COMMANDS,)),
    ("docs/GLOSSARY.md", rf"one of the {N} messages", (COMMANDS,)),
    ("docs/claims.csv", rf"each of the {N} commands, as data", (COMMANDS,)),
    ("docs/claims.csv", rf"The {N}\s+commands are there", (COMMANDS,)),
    ("docs/GLOSSARY.md", rf"one of the {N} ways in which the register changes", (CHANGES,)),
    ("docs/claims.csv", rf"each of the {N} changes makes of a register", (CHANGES,)),
    ("docs/claims.csv", rf"each of the {N} changes in one transaction", (CHANGES,)),
    ("docs/howto/troubleshooting.md", rf"The station's own are {N} tables", (TABLES,)),
    ("docs/claims.csv", rf"the rows of the {N} tables", (TABLES,)),
    ("docs/claims.csv", rf"the {N} tables are made in one transaction", (TABLES,)),
    ("docs/claims.csv", rf"the contracts of {N} calls of crates/oftp_durable", (DURABLE,)),
    ("docs/CONTRIBUTING.md", rf"three of its {N} clauses", (TAKE,)),
    ("docs/PROMISES.md", rf"a frame of more than {N} octets is refused", (LONGEST_FRAME,)),
    ("docs/COMMANDS.md", rf"about {N} buffers are made at once", (TURNS,)),
    ("docs/ARCHITECTURE.md", rf"until {N} exchange buffers of a file", (TURNS,)),
    ("docs/DECISIONS.md", rf"pauses after {N} turns", (TURNS,)),
    *(("docs/PERFORMANCE.md", rf"\b{N}\s+for {crate}\b", (minutes,)) for crate, minutes in MEASURED.items()),
]


def number(told):
    """The number that a document tells, in digits or in words."""
    return WORDS[told] if told in WORDS else int(told.replace(",", ""))


def main():
    failed = 0
    for name, pattern, wanted in BOUNDS:
        text = " ".join((ROOT / name).read_text(encoding="utf-8").split())
        found = [tuple(number(it) for it in match.groups()) for match in re.finditer(pattern, text)]
        if not found or any(it != wanted for it in found):
            failed += 1
            print(f"{name}: the code has {wanted} and not {found} where it says: {pattern}")
    print(f"{len(BOUNDS) - failed} passed, {failed} failed")
    return 1 if failed else 0


if __name__ == "__main__":
    sys.exit(main())
