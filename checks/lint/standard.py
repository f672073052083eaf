#!/usr/bin/env python3
"""Compares the tables of the commands and the reasons with the text of RFC 5024, where that is installed.

    checks/lint/standard.py [FILE]

FILE is the text, or the same compressed by gzip. The default is the file of Debian's package doc-rfc-informational (section non-free).
Without it nothing is compared, and the first line is `NOT TRIED without the text of RFC 5024: ..`. Compared are

    crates/oftp_codec/specs/Tables.antt   with the tables of section 5.3: position, length and format of each field, and the octets that it lists
    crates/oftp_wire/specs/Reasons.antt   with the lists of sections 5.3.5, 5.3.10, 5.3.11 and 5.3.14: each number, and its words. The reasons
        that the station gives have names of those words
    rows/receiving/standards_example_in.row, rows/sending/standards_example_out.row    with the Data Exchange Buffer of Appendix A

The last line is `N passed, M failed`.

Shows: the tables of oftp_codec have the fields of RFC 5024's tables, at their places and with their lengths and formats. The reasons have its
numbers and words. It wants the standard's text (Debian's doc-rfc-informational, section non-free)
"""

import gzip
import re
import sys
from pathlib import Path
from typing import NamedTuple

sys.path.insert(0, str(Path(__file__).resolve().parents[1] / "lib"))

import oftp
from program import ROOT
from reasons import REASONS as REASONS_TEXT
from reasons import words_of
from row_files import ROWS, Row

INSTALLED = Path("/usr/share/doc/RFC/informational/rfc5024.txt.gz")
TABLES = ROOT / "crates/oftp_codec/specs/Tables.antt"
SPELLING = ROOT / "crates/oftp_codec/specs/Spelling.antt"

# What each kind of a row stands for in the standard: the letters that its format may begin with, and the letter of its octets.
FORMATS = {
    "word": ("F", "X"),
    "name": ("V", "X"),
    "digits": ("V", "9"),
    "count": ("FV", "9"),
    "choice": ("F", "X"),
    "longest": ("V", "9"),
    "reserved": ("F", "X"),
    "return": ("F", "X"),
    "payload": ("V", "U"),
    "text": ("V", "T"),
    "no octets": ("V", "U"),
}
# The section of each list of reasons, and the definition of its words. The reasons of SFNA are also reasons of EFNA.
REASONS = {
    "SFNA": ("5.3.5", ["start_phrase"]),
    "EFNA": ("5.3.10", ["start_phrase", "end_phrase"]),
    "ESID": ("5.3.11", ["session_phrase"]),
    "NERP": ("5.3.14", ["negative_phrase"]),
}
# The rows that show the standard's example, and on which side its octets are.
EXAMPLES = [("receiving/standards_example_in.row", "in"), ("sending/standards_example_out.row", "out")]
# The definitions of the numbers of the reasons that the station gives.
NUMBERS = [("SFNA", "start_number"), ("EFNA", "end_number"), ("ESID", "session_number")]
# The words that are shorter here, as docs/COMMANDS.md says.
OF_FILES = {"file size is too big": "file size too big", "unspecified reason": "unspecified"}
SHORTER = {
    "SFNA": OF_FILES,
    "EFNA": OF_FILES,
    "ESID": {"normal session termination": "normal", "command contained invalid data": "invalid data", "exchange buffer size error": "buffer size error"},
    "NERP": {},
}


class Field(NamedTuple):
    """A field of a table of the standard. Its position isn't given (None) where it depends on the length of a text, and its length is `n` then."""

    at: str
    name: str
    tells: str
    fixed: str
    octets: str
    length: str


class TableRow(NamedTuple):
    """A row of a table of Tables.antt: its kind, its place, its length, and the octets that it lists."""

    kind: str
    at: str
    length: str
    listed: list


def pages_of(path):
    """The text without the lines between pages."""
    octets = path.read_bytes()
    text = (gzip.decompress(octets) if octets[:2] == b"\x1f\x8b" else octets).decode("ascii", "replace")
    return re.sub(r"\n+Friend +Informational +\[Page \d+\]\n\f?\n*RFC 5024 +ODETTE FTP 2 +November 2007\n+", "\n", text)


def section(text, number):
    """The text of a section, by its heading at the beginning of a line."""
    found = re.search(rf"^{re.escape(number)}\.  \w.*?(?=^\d+(?:\.\d+)*\.  \w)", text, re.M | re.S)
    return found[0] if found else ""


def standard_tables(text):
    """The fields of each command, by its name."""
    tables = {}
    for number in range(1, 19):
        said = section(text, f"5.3.{number}")
        fields = re.findall(r"^   \| +(\d*) *\| (\w+) +\| (.*?) +\| ([FV]) ([X9UT])\((\d+|n)\) *\|$", said, re.M)
        tables[re.match(r"[\d.]+  (\w+)", said)[1]] = [Field(*it) for it in fields]
    return tables


def row_of(text, words):
    """A row, as it stands in a table of Tables.antt; `words` has the definitions of listed octets."""
    kind, rest = text.split(" ", 1)
    at, rest = re.match(r"(\([^)]*\)|\d+)(.*)", rest).groups()
    at, rest = at.strip("()"), rest.strip()
    if kind == "word":
        listed = [re.fullmatch(r'\(codes "(.*)"\)', rest)[1]] if rest != "zero16" else []
        return TableRow(kind if listed else "no octets", at, str(len(listed[0])) if listed else "2", listed)
    if kind == "return":
        return TableRow(kind, at, "1", [])
    if kind == "longest":
        rest = rest.removeprefix("recorded ")
    listed = words[rest.split()[1]] if kind == "choice" else []
    return TableRow(kind, at, rest.split()[0], listed)


def own_tables():
    """The rows of each command and the end of its table, by its name."""
    text = TABLES.read_text(encoding="utf-8")
    words = {name: re.findall(r'codes "(.*?)"', said) for name, said in re.findall(r"^(\w+_words) = (.*)$", text, re.M)}
    tables = {}
    for name, rows, end in re.findall(r"^(\w+)_table\b[^\n]*= record \{\n  rows = (.*?) ∷ \[\];\n  end = (.*?);$", re.sub(r"\s*\n +∷", " ∷", text), re.M | re.S):
        if name != "single":
            tables[name.upper()] = ([row_of(it.strip(), words) for it in rows.split(" ∷ ")], end)
    for name, octets in re.findall(r'^of_table commands\.(\w+) say = .*\(single_table \(codes "(.*)"\)\) tt$', SPELLING.read_text(encoding="utf-8"), re.M):
        tables[name.upper()] = ([TableRow("word", "0", str(len(octets)), [octets])], str(len(octets)))
    return tables


def place(fixed, has_text):
    """A place in the terms of Tables.antt."""
    return f"{fixed} + n" if has_text else str(fixed)


def sum_of(at):
    """A place as a number, and whether the length of a text is added to it."""
    terms = at.split(" + ")
    return sum(int(it) for it in terms if it != "n"), "n" in terms


def differs(field, row, here):
    """How a row differs from the field of the standard that is at this place, or None."""
    fixed, octets = FORMATS[row.kind]
    if (field.at and (int(field.at), False) != sum_of(row.at)) or sum_of(row.at) != here:
        return f"is at {field.at or place(*here)}, and here at {row.at}"
    if field.length != row.length or field.octets != octets or field.fixed not in fixed:
        return f"is {field.fixed} {field.octets}({field.length}), and here a {row.kind} of {row.length}"
    told = re.search(r"'(.+)'", field.tells)
    if told and row.kind == "word" and [told[1]] != row.listed:
        return f"is '{told[1]}', and here {row.listed}"
    told = re.search(r"\((\w(?:/\w)+)\)", field.tells)
    if told and told[1].split("/") != row.listed:
        return f"is one of {told[1]}, and here of {row.listed}"
    return None


def compare_table(name, fields, rows, end):
    """What differs in the table of a command. A field whose length is in a field before it that is always 0 here has no octets, and no row."""
    left, here, is_none, found = list(rows), (0, False), False, []
    for field in fields:
        if is_none and field.length == "n":
            is_none = False
            continue
        if not left:
            return [*found, f"{name}: {field.name} isn't here"]
        row = left.pop(0)
        said = differs(field, row, here)
        if said:
            found.append(f"{name}: {field.name} {said}")
        here = (here[0], True) if field.length == "n" else (here[0] + int(field.length), here[1])
        is_none = row.kind == "no octets"
    if left:
        found.append(f"{name}: the standard has no field at {left[0].at}")
    if sum_of(end) != here:
        found.append(f"{name}: ends at {place(*here)}, and here at {end}")
    return found


def standard_reasons(text, name):
    """The reasons of a command with their words, in small letters and without a full stop. Those of NERP that stand for another reason have the
    words in brackets on the next line."""
    said = section(text, REASONS[name][0]).partition(f"{name}REASL")[2].partition(f"{name}REAS ")[2].partition(f"{name}REASL")[0]
    found = {}
    for number, words, more in re.findall(r"^ +(?:Value:? +)?'(\d\d)'  (\S.*)\n(?: {20,}(\S.*)\n)?", said, re.M):
        if more.startswith("("):
            words = more.strip("()")
        elif name == "NERP" and more:
            words = f"{words} {more}"
        words = words.lower().rstrip(".")
        found[number] = SHORTER[name].get(words, words)
    return found


def compare_reasons(text, name):
    """What differs in the reasons of a command."""
    here = {number: words for phrase in REASONS[name][1] for number, words in words_of(phrase).items()}
    there = standard_reasons(text, name)
    return [
        f"{name}: reason {number} is '{there.get(number, 'not listed')}', and here '{here.get(number, 'not listed')}'"
        for number in sorted(here.keys() | there.keys())
        if here.get(number) != there.get(number)
    ]


def compare_names(name, number):
    """The reasons of a command whose name in the code isn't made of the standard's words for its number."""
    words = {it: said for phrase in REASONS[name][1] for it, said in words_of(phrase).items()}
    found = []
    for kind, value in re.findall(rf"^{number} (\w+) = (\d+)$", REASONS_TEXT.read_text(encoding="utf-8"), re.M):
        said = words.get(f"{int(value):02}", "not listed")
        left = iter(said.split())
        if not all(it.lower() in left for it in re.findall("[A-Z][a-z]+", kind)):
            found.append(f"{name}: {kind} has the number {value}, which is '{said}'")
    return found


def standard_example(text):
    """The Data Exchange Buffer of Appendix A. Below each line of characters are two with the digits of its octets."""
    said = text.rpartition("     Exchange Buffer 1\n")[2].partition("Appendix B.")[0]
    digits = [it.strip() for it in said.splitlines() if re.fullmatch(r"     [0-9A-F]+", it)]
    return bytes(int(high + low, 16) for above, below in zip(digits[::2], digits[1::2]) for high, low in zip(above, below))


def compare_example(text, name, side):
    """What differs in a row that shows the standard's example."""
    wanted = oftp.frame(standard_example(text))
    steps = [octets for session in Row(ROWS / name).sessions() for which, octets in session.steps if which == side]
    return [] if len(wanted) > 4 and wanted in steps else [f"rows/{name} has no DATA with the octets of Appendix A"]


def main():
    path = Path(sys.argv[1]) if len(sys.argv) > 1 else INSTALLED
    if not path.is_file():
        print("NOT TRIED without the text of RFC 5024: the tables of the commands and the reasons, against the standard's\n0 passed, 0 failed")
        return 0
    text = pages_of(path)
    standard, own = standard_tables(text), own_tables()
    results = [compare_table(name, standard.get(name, []), *own[name]) for name in own]
    results += [compare_reasons(text, name) for name in REASONS]
    results += [compare_names(*it) for it in NUMBERS]
    results += [compare_example(text, *it) for it in EXAMPLES]
    for said in results:
        print("".join(f"FAILED {it}\n" for it in said), end="")
    failed = sum(bool(it) for it in results)
    print(f"{len(results) - failed} passed, {failed} failed")
    return 1 if failed or len(own) != 15 else 0


if __name__ == "__main__":
    sys.exit(main())
