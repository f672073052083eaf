"""The sessions of rows/explain in their written form (rows/README.md): what breaks each rule of `explain`, and what doesn't."""

import re
import shlex

from program import ROOT
from row_files import ROWS, Bad, Row, stream_of

EXPLAIN = ROWS / "explain"
# Where the rules are.
RULES = ROOT / "crates/oftp_conformance/src"
# What a line of the program says: the command's number and octet, and the place of what was found.
FOUND = re.compile(r"command (\d+) at octet \d+: (.*)")
SECTION = re.compile(r"  .*\(RFC 5024, section ([\d.]+)\)")
FIELD = re.compile(r"[A-Z]+, field ([A-Z0-9]+) at offset \d+: ")


class Case:
    """A session: the rule that it is about, whether it breaks that, its octets in both directions, and what is to be found."""

    def __init__(self, rule, breaks):
        self.rule = rule
        self.breaks = breaks
        self.steps = []
        self.finds = []

    def joined(self, side):
        return b"".join(octets for which, octets in self.steps if which == side)


def take(cases, words):
    """Takes a line of a file."""
    first, rest = words[0], words[1:]
    if first == "rule":
        cases.append(Case(rest[0], True))
        return
    case = cases[-1]
    if first == "keeps":
        cases.append(Case(case.rule, False))
    elif first == "use":
        lines = (ROWS / "parts" / f"{rest[0]}.part").read_text(encoding="utf-8").splitlines()
        take_all(cases, [line for line in lines if line.split()[:1] in (["in"], ["out"], ["use"])])
    elif first == "row":
        case.steps += Row(ROWS / f"{rest[0]}.row").sessions()[0].steps[: int(rest[1])]
    elif first in ("in", "out"):
        case.steps.append((first, stream_of(rest)))
    elif first == "finds":
        case.finds.append(tuple(rest))
    elif first != "breaks":
        raise Bad(f"no line begins with {first}")


def take_all(cases, lines):
    """Takes these lines."""
    for line in lines:
        words = shlex.split(line, comments=True)
        if words:
            take(cases, words)


def cases_in(path):
    """The sessions in a file."""
    cases = []
    take_all(cases, path.read_text(encoding="utf-8").splitlines())
    return cases


def all_rules():
    """The names of all rules, as the sources have them."""
    rules = set()
    for path in sorted(RULES.glob("*_rule.rt")):
        body = re.search(r"pub enum \w+ \{(.*?)\n\}", path.read_text(encoding="utf-8"), re.DOTALL).group(1)
        rules.update(re.findall(r"^    (\w+)(?:\(\w+\))?,$", body, re.MULTILINE))
    return rules


def place_of(text):
    """What a finding is about: the name of a field, or a word of rows/README.md."""
    field = FIELD.match(text)
    if field:
        return field.group(1)
    if text.startswith("stream header: "):
        return "header"
    if text.startswith("first octet: "):
        return "octet"
    return "behind" if ", behind its last field" in text else "whole"


def found_in(output):
    """What the program found: the number of each command, the place and the section."""
    lines = output.splitlines()
    found = []
    for line, after in zip(lines, lines[1:]):
        begun = FOUND.fullmatch(line)
        section = SECTION.match(after)
        if begun and section:
            found.append((begun.group(1), place_of(begun.group(2)), section.group(1)))
    return found
