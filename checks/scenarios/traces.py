#!/usr/bin/env python3
"""Tries what a trace and `show` tell of each command, against a table of RFC 5024 (section 5.3) of its own.

    checks/scenarios/traces.py

A partner that this script plays sends commands of each kind over sockets to `listen --trace`. They are good ones, and ones of which each field is
spoiled, cut off or followed by other octets. Each line must name the command, the field, its place, what it has and what it may have. `show` must
tell the same of the octets in a file. DATA are one line between two answers, and a character that can't be seen is an escape. Times are those of
UTC with six digits of the second, a file that is there is written on, and no password is told. The last line is `N passed, M failed`.
"""

import os
import re
import subprocess
import sys
import tempfile
import traceback
from datetime import datetime, timezone
from pathlib import Path
from typing import NamedTuple

sys.path.insert(0, str(Path(__file__).resolve().parents[1] / "lib"))

import row_files
from oftp import frame
from program import PROGRAM
from services import BOOK, LONG, Service, Wrong, expect, rest_of

# What a partner's SSID has, and must never be told.
PASSWORD = "SECRETPW"
TEXT = 'no "room"\\'.encode()
# Characters that no terminal shows: separators, format characters, controls, and a space that isn't U+0020. Also one of a private use, and two
# marks that programs may leave out.
UNSEEN = "\u2028\u2029\u200b\u200d\u202e\u2066\ufeff\u00ad\u00a0\u3000\x1b\x00\x7f\x85\ue000\U000e0041\u034f\ufe0f"
SEEN = "Größe 7 漢字 é😀"
# How many octets of a field are told.
MOST = 64
ALLOWED = b"0123456789ABCDEFGHIJKLMNOPQRSTUVWXYZ/-.&()"
TIME = r"20\d\d-\d\d-\d\dT\d\d:\d\d:\d\d\.\d{6}Z"


class Field(NamedTuple):
    """A field of the standard: its name, its size, its form, and what a good one has here. Also what a spoiled one has, if it can be spoiled."""

    name: str
    size: int
    form: str
    good: bytes
    spoiled: bytes | None


def word(name, good, spoiled=None):
    return Field(name, len(good), "word", good, spoiled)


def code(name, size, good):
    return Field(name, size, "name", good.encode().ljust(size), b"A_B".ljust(size))


def digits(name, good):
    return Field(name, len(good), "digits", good.encode(), b"7" * (len(good) - 1) + b"x")


def letter(name, choices, good):
    return Field(name, 1, choices, good.encode(), b"Z")


def reserved(name, size):
    return Field(name, size, "reserved", b" " * size, None)


def text(name, good):
    return Field(name, len(good), "text", good, good[:-1] + b"\xff")


def turn(name):
    return Field(name, 1, "return", b"\r", b"\n")


YES, MODE, FORMAT = "Y or N", "S or R or B", "F or V or U or T"
ZERO = b"\0\0"
# The commands: their sections, and their fields from left to right.
COMMANDS = {
    "SSRM": ("5.3.1", [word("SSRMCMD", b"I"), word("SSRMMSG", b"ODETTE FTP READY ", b"ODETTE FTP READY!"), turn("SSRMCR")]),
    "SSID": (
        "5.3.2",
        [
            word("SSIDCMD", b"X"),
            digits("SSIDLEV", "5"),
            code("SSIDCODE", 25, "O0177CARMAKER"),
            code("SSIDPSWD", 8, PASSWORD),
            digits("SSIDSDEB", "02048"),
            letter("SSIDSR", MODE, "B"),
            letter("SSIDCMPR", YES, "N"),
            letter("SSIDREST", YES, "Y"),
            letter("SSIDSPEC", YES, "N"),
            digits("SSIDCRED", "007"),
            letter("SSIDAUTH", YES, "N"),
            reserved("SSIDRSV1", 4),
            code("SSIDUSER", 8, "USER"),
            turn("SSIDCR"),
        ],
    ),
    "SFID": (
        "5.3.3",
        [
            word("SFIDCMD", b"H"),
            code("SFIDDSN", 26, "ASN.0001"),
            reserved("SFIDRSV1", 3),
            digits("SFIDDATE", "20240131"),
            digits("SFIDTIME", "1015300001"),
            code("SFIDUSER", 8, ""),
            code("SFIDDEST", 25, "O0013SUPPLIER"),
            code("SFIDORIG", 25, "O0177CARMAKER"),
            letter("SFIDFMT", FORMAT, "U"),
            Field("SFIDLRECL", 5, "no records", b"00000", b"00080"),
            digits("SFIDFSIZ", "0000000000003"),
            digits("SFIDOSIZ", "0000000000004"),
            digits("SFIDREST", "00000000000000002"),
            digits("SFIDSEC", "00"),
            digits("SFIDCIPH", "00"),
            digits("SFIDCOMP", "0"),
            digits("SFIDENV", "0"),
            letter("SFIDSIGN", YES, "N"),
            digits("SFIDDESCL", f"{len(TEXT):03}"),
            text("SFIDDESC", TEXT),
        ],
    ),
    "SFPA": ("5.3.4", [word("SFPACMD", b"2"), digits("SFPAACNT", "00000000000000012")]),
    "SFNA": (
        "5.3.5",
        [
            word("SFNACMD", b"3"),
            digits("SFNAREAS", "13"),
            letter("SFNARRTR", YES, "Y"),
            digits("SFNAREASL", f"{len(TEXT):03}"),
            text("SFNAREAST", TEXT),
        ],
    ),
    "CDT": ("5.3.7", [word("CDTCMD", b"C"), reserved("CDTRSV1", 2)]),
    "EFID": ("5.3.8", [word("EFIDCMD", b"T"), digits("EFIDRCNT", "00000000000000003"), digits("EFIDUCNT", "00000000000000240")]),
    "EFPA": ("5.3.9", [word("EFPACMD", b"4"), letter("EFPACD", YES, "Y")]),
    "EFNA": (
        "5.3.10",
        [word("EFNACMD", b"5"), digits("EFNAREAS", "10"), digits("EFNAREASL", f"{len(TEXT):03}"), text("EFNAREAST", TEXT)],
    ),
    "ESID": (
        "5.3.11",
        [
            word("ESIDCMD", b"F"),
            digits("ESIDREAS", "02"),
            digits("ESIDREASL", f"{len(TEXT):03}"),
            text("ESIDREAST", TEXT),
            turn("ESIDCR"),
        ],
    ),
    "CD": ("5.3.12", [word("CDCMD", b"R")]),
    "EERP": (
        "5.3.13",
        [
            word("EERPCMD", b"E"),
            code("EERPDSN", 26, "INV.7"),
            reserved("EERPRSV1", 3),
            digits("EERPDATE", "20240201"),
            digits("EERPTIME", "0800000001"),
            code("EERPUSER", 8, "A"),
            code("EERPDEST", 25, "O0013SUPPLIER"),
            code("EERPORIG", 25, "O0177CARMAKER"),
            word("EERPHSHL", ZERO, b"\0\x20"),
            word("EERPSIGL", ZERO, b"\x01\0"),
        ],
    ),
    "NERP": (
        "5.3.14",
        [
            word("NERPCMD", b"N"),
            code("NERPDSN", 26, "INV.7"),
            reserved("NERPRSV1", 6),
            digits("NERPDATE", "20240201"),
            digits("NERPTIME", "0800000001"),
            code("NERPDEST", 25, "O0013SUPPLIER"),
            code("NERPORIG", 25, "O0177CARMAKER"),
            code("NERPCREA", 25, "O0099OTHER"),
            digits("NERPREAS", "34"),
            digits("NERPREASL", f"{len(TEXT):03}"),
            text("NERPREAST", TEXT),
            word("NERPHSHL", ZERO, b"\0\x20"),
            word("NERPSIGL", ZERO, b"\x01\0"),
        ],
    ),
    "RTR": ("5.3.15", [word("RTRCMD", b"P")]),
}
# What the good command of each kind says in words.
WORDS = {
    "SSRM": "SSRM",
    "SSID": "SSID from O0177CARMAKER",
    "SFID": "SFID ASN.0001 20240131 1015300001 from O0177CARMAKER to O0013SUPPLIER",
    "SFPA": "SFPA from position 12",
    "SFNA": "SFNA 13 duplicate file, retry",
    "CDT": "CDT",
    "EFID": "EFID of 3 records and 240 octets",
    "EFPA": "EFPA, change of direction",
    "EFNA": "EFNA 10 invalid record count",
    "ESID": "ESID 02 protocol violation",
    "CD": "CD",
    "EERP": "EERP INV.7 20240201 0800000001 to O0013SUPPLIER",
    "NERP": "NERP INV.7 20240201 0800000001 to O0013SUPPLIER, 34 file processing failed",
    "RTR": "RTR",
}


# ---- what is wanted


def shown(octets):
    """Octets between quotes. The good ones here have no character that can't be seen, besides those of ASCII."""
    try:
        characters = octets.decode()
    except UnicodeDecodeError:
        return "".join(chr(octet) if 32 <= octet < 127 and octet not in b'"\\' else f"\\x{octet:02x}" for octet in octets)
    return "".join(f"\\{it}" if it in '"\\' else f"\\u{{{ord(it):x}}}" if ord(it) < 32 or it in UNSEEN else it for it in characters)


def quoted(octets):
    return f'"{shown(octets)}"'


def told(field, octets):
    """What a good field is told to have."""
    if field.name == "SSIDPSWD":
        return "****"
    if field.form == "name":
        return octets.decode().rstrip(" ")
    if field.form in ("digits", "no records"):
        return octets.decode()
    return quoted(octets)


def rule(field):
    """What a field may have, in words."""
    if field.form == "word":
        return quoted(field.good)
    if field.form == "name":
        return f"0 to {field.size} of 0-9 A-Z / - . & ( ), then spaces"
    if field.form == "digits":
        return f"{field.size} digits"
    if field.form == "no records":
        return f"{field.size} digits 0, since the format has no records"
    if field.form == "reserved":
        return f"any {field.size} octets"
    if field.form == "return":
        return "a carriage return, hexadecimal 0d or 8d"
    if field.form == "text":
        return f"{field.size} octets of UTF-8"
    return " or ".join(f'"{choice}"' for choice in field.form.split(" or "))


def evidence(octets):
    """Octets as text and in hexadecimal."""
    first, more = octets[:MOST], len(octets) - MOST
    return f"{quoted(first)} (hexadecimal {first.hex()}){f' and {more} octets more' if more > 0 else ''}"


def fault(kind, field, at, octets, why):
    """The line of a field that is at fault and has these octets."""
    has = "****" if field.name == "SSIDPSWD" else evidence(octets)
    place = f"{kind}, field {field.name} at offset {at}: {has}, allowed: {rule(field)} (RFC 5024, section {COMMANDS[kind][0]})"
    return f"fault in the command at octet 0: {why}: {place}"


class Case(NamedTuple):
    """Octets of one command, and the line that tells them."""

    name: str
    octets: bytes
    line: str


def places(kind):
    """The fields of a kind with their offsets."""
    at = 0
    for field in COMMANDS[kind][1]:
        yield at, field
        at += field.size


def good(kind):
    return b"".join(field.good for field in COMMANDS[kind][1])


def whole(kind):
    """The line of the good command of a kind."""
    return f"{WORDS[kind]}: {' '.join(f'{field.name}={told(field, field.good)}' for field in COMMANDS[kind][1])}"


def filled(kind):
    """Reserved fields may have anything, and it is told."""
    for at, field in places(kind):
        if field.form == "reserved":
            other = b'"x\x1b'[: field.size].ljust(field.size)
            line = whole(kind).replace(f'{field.name}="{" " * field.size}"', f"{field.name}={quoted(other)}")
            yield Case(f"{kind}: {field.name} with other octets", good(kind)[:at] + other + good(kind)[at + field.size :], line)


def spoiled(kind):
    """Each field with a value that it may not have."""
    for at, field in places(kind):
        if field.spoiled is not None:
            octets = good(kind)[:at] + field.spoiled + good(kind)[at + field.size :]
            why = "a text isn't UTF-8" if field.form == "text" else f"the field at offset {at} has a bad content"
            yield Case(f"{kind}: {field.name} spoiled", octets, fault(kind, field, at, field.spoiled, why))


def cut(kind):
    """Each field but the first, which is a letter, cut off within it."""
    for at, field in places(kind):
        if at > 0:
            octets = good(kind)[: at + field.size // 2]
            line = fault(kind, field, at, octets[at:], "the command has the wrong length")
            yield Case(f"{kind}: {field.name} cut off", octets, line)


def followed(kind):
    """Octets behind the last field: few, and more than are told."""
    end = len(good(kind))
    for more in (b"A", b"_" * 100, "é\u2028".encode()):
        place = f"{kind}, behind its last field at offset {end}: {evidence(more)}, allowed: nothing (RFC 5024, section {COMMANDS[kind][0]})"
        yield Case(f"{kind}: followed", good(kind) + more, f"fault in the command at octet 0: the command has the wrong length: {place}")


def unknown():
    """Octets that begin as no command does."""
    for first in (b"Q", b'"', b"\0", b"\xff", b"x"):
        place = f"{evidence(first)}, allowed: one of I X H 2 3 D C T 4 5 F R E N P (RFC 5024, section 5.3)"
        yield Case(f"unknown {first!r}", first + PASSWORD.encode(), f"fault in the command at octet 0: no command begins so: {place}")


def unseen():
    """A text of characters, those that can be seen and those that can't."""
    octets = f"{SEEN}{UNSEEN}".encode()
    command = b"F03" + f"{len(octets):03}".encode() + octets + b"\r"
    escapes = "".join(f"\\u{{{ord(it):x}}}" for it in UNSEEN)
    fields = f'ESIDCMD="F" ESIDREAS=03 ESIDREASL={len(octets):03} ESIDREAST="{SEEN}{escapes}" ESIDCR="\\u{{d}}"'
    yield Case("characters that can't be seen", command, f"ESID 03 user code not known: {fields}")


def cases():
    for kind in COMMANDS:
        yield Case(f"{kind}: good", good(kind), whole(kind))
        yield from filled(kind)
        yield from spoiled(kind)
        yield from cut(kind)
        yield from followed(kind)
    yield from unknown()
    yield from unseen()
    yield Case("DATA: good", b"D" + b"content", "DATA of 7 octets")


# ---- over sockets, and by `show`


def sessions_of(trace):
    """The lines of each session of a trace, without their times."""
    sessions, lines = [], []
    for line in trace.read_text().splitlines():
        found = re.fullmatch(f"{TIME} (.*)", line)
        if not found:
            raise Wrong(f"a line without its time: {line!r}")
        lines.append(found[1])
        if found[1][:2] not in ("< ", "> "):
            sessions.append(lines)
            lines = []
    expect(lines, [], "lines behind the last session")
    return sessions


def has_no_password(octets, what):
    if PASSWORD in octets or PASSWORD.encode().hex() in octets or "CARPW" in octets or "SUPPW" in octets:
        raise Wrong(f"a password is in {what}")


def over_sockets(room):
    """The partner's first octets are those of each case."""
    tried, trace = list(cases()), room / "trace"
    with Service(room, "listen", "--sessions", str(len(tried)), "--trace", trace) as service:
        for case in tried:
            with service.caller() as caller:
                caller.recv(4096)
                caller.sendall(frame(case.octets))
                caller.shutdown(1)
                rest_of(caller)
            service.either()
        expect(service.program.wait(LONG), 0, "the status")
    sessions = sessions_of(trace)
    expect(len(sessions), len(tried), "sessions in the trace")
    greeting = f"> {whole('SSRM')}"
    for case, lines in zip(tried, sessions):
        expect(lines[0], greeting, f"{case.name}: the greeting")
        expect([line for line in lines if line.startswith("< ")], [f"< {case.line}"], case.name)
    has_no_password(trace.read_text(), "the trace")


def shown_by_command(room):
    """`show` tells the octets of each case in a file, and its status is 1 where they are faulty."""
    given = room / "given"
    for case in cases():
        given.write_bytes(frame(case.octets))
        done = subprocess.run([PROGRAM, "show", given], capture_output=True, timeout=LONG, check=False)
        wanted = (1 if case.line.startswith("fault") else 0, f"{case.line}\n", "")
        expect((done.returncode, done.stdout.decode(), done.stderr.decode()), wanted, case.name)
        has_no_password(done.stdout.decode(), "what show tells")


def data_of(count, size=10):
    return frame(b"D" + b"\x80" * size) * count


def summed(room):
    """DATA are one line up to the next command of their own side. So it is of one and of many, at the end too, and before a fault."""
    given = room / "given"
    parts = [data_of(3), frame(b"C  "), data_of(1), frame(b"R"), data_of(2), frame(b"Q")]
    given.write_bytes(b"".join(parts))
    lines = subprocess.run([PROGRAM, "show", given], capture_output=True, timeout=LONG, check=False).stdout.decode().splitlines()
    kinds = [line if line.startswith("DATA") else line.split(":")[0] for line in lines]
    expect(kinds[:5], ["DATA of 30 octets in 3 commands", "CDT", "DATA of 10 octets", "CD", "DATA of 20 octets in 2 commands"], "the lines")
    expect((len(lines), lines[-1].split(":")[0]), (6, f"fault in the command at octet {sum(map(len, parts[:-1]))}"), "the last line")
    given.write_bytes(data_of(500, 1000))
    done = subprocess.run([PROGRAM, "show", given], capture_output=True, timeout=LONG, check=False)
    expect((done.returncode, done.stdout), (0, b"DATA of 500000 octets in 500 commands\n"), "the lines at the end")


def summed_over_sockets(room):
    """In a session whose file takes several credits the DATA of each credit are one line, since the station's CDT ends them."""
    session, trace = row_files.Row(row_files.ROWS / "receiving/file_in_one_session.row").sessions()[0], room / "trace"
    with Service(room, "listen", "--sessions", "1", "--trace", trace) as service:
        with service.caller() as caller:
            for side, octets in session.steps:
                if side == "in":
                    caller.sendall(octets)
                else:
                    found = b""
                    while len(found) < len(octets):
                        found += caller.recv(len(octets) - len(found))
                    expect(found, octets, "the station sent")
            caller.shutdown(1)
            rest_of(caller)
        service.line()
        service.ends()
    wanted, count = [], 0
    for side, octets in session.steps:
        at = 0
        while at < len(octets):
            size = int.from_bytes(octets[at + 1 : at + 4], "big")
            if octets[at + 4 : at + 5] == b"D":
                count += 1
                if count == 1:
                    wanted.append("< DATA")
            else:
                count = 0
                wanted.append("< other" if side == "in" else "> other")
            at += size
    lines = sessions_of(trace)[0][:-1]
    expect([line[:6] if line[2:6] == "DATA" else f"{line[0]} other" for line in lines], wanted, "the lines")
    expect([line for line in lines if line.startswith("< DATA") and "commands" in line] != [], True, "a line of several")


def goes_on_with_its_times(room):
    """A trace keeps what is there. Each of its lines has the moment in UTC at which it was written, whatever the zone is."""
    trace, given, kept = room / "trace", room / "given", "what was there\n"
    trace.write_text(kept, encoding="utf-8")
    given.write_bytes(row_files.Row(row_files.ROWS / "listening/one_end_response.row").sessions()[0].joined("in"))
    words = [PROGRAM, "feed", "--book", BOOK, "--trace", trace, given, "/dev/null"]
    begin = datetime.now(timezone.utc)
    for _ in range(2):
        subprocess.run(words, env={**os.environ, "TZ": "Pacific/Kiritimati"}, capture_output=True, timeout=LONG, check=True)
    told, end = trace.read_text(encoding="utf-8"), datetime.now(timezone.utc)
    expect(told[: len(kept)], kept, "what was there")
    lines = told[len(kept) :].splitlines()
    expect(sum(line.endswith(" end: partner 00") for line in lines), 2, "the ends of the sessions")
    times = [datetime.fromisoformat(line.split(" ", 1)[0].replace("Z", "+00:00")) for line in lines]
    expect([begin, *times, end], sorted([begin, *times, end]), "the times, between the begin and the end")


CASES = [over_sockets, shown_by_command, summed, summed_over_sockets, goes_on_with_its_times]


def tried(case):
    """Runs a case, and returns why it failed, or None."""
    with tempfile.TemporaryDirectory() as room:
        try:
            case(Path(room))
        except Wrong as why:
            return f"{case.__name__}: {why}"
        except Exception:  # pylint: disable=broad-except
            return f"{case.__name__}: {traceback.format_exc()}"
    return None


def main():
    failed = [why for why in map(tried, CASES) if why]
    for why in failed:
        print(why)
    print(f"{len(CASES) - len(failed)} passed, {len(failed)} failed")
    return 1 if failed else 0


if __name__ == "__main__":
    sys.exit(main())
