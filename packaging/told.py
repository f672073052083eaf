"""What a program says of itself by `--help`, and the tables of docs/COMMANDS.md, as values. Manual pages and completions are written from these."""

import re
import subprocess
from pathlib import Path
from typing import NamedTuple

ROOT = Path(__file__).resolve().parents[1]
COMMANDS = ROOT / "docs/COMMANDS.md"
# A command in what `help` prints, with its usage, and what it does in the line below.
LISTED = re.compile(r"^  (oftp_station (\w+).*)\n      (.*)$", re.M)
# The parts of a command's help: a heading, and the lines below it.
PART = re.compile(r"^([A-Z][\w ]*):\n((?:  .*\n?)+)", re.M)
# A line of a part: an option or a word with its placeholder, or another term, and what it is.
OPTION = re.compile(r"^ +(?:-\w, )?--([\w-]+)(?: <(\w+)>)? +(.*)$")
WORD = re.compile(r"^ +[<\[](\w+)[>\]] +(.*)$")
TERM = re.compile(r"^ +(\S+) +(.*)$")
DEFAULT = re.compile(r" \[default: .*\]$")
CHOICES = re.compile(r": ((?:\w+, )*\w+ or \w+)$")


class Argument(NamedTuple):
    """An option, by its name, or a word, which has none; its placeholder, which a flag doesn't have; and what it is."""

    option: str
    shown: str
    help: str

    def choices(self):
        """The values that it may have, where its help lists them."""
        found = CHOICES.search(DEFAULT.sub("", self.help))
        return re.split(r", | or ", found[1]) if found else []

    def is_file(self):
        return self.help.startswith("The file ")

    def is_folder(self):
        return self.help.startswith("The folder ")


class Command(NamedTuple):
    """A command: its word, which a program without commands doesn't have, its usage, what it does, and its words and options. Also further parts
    of its help, each with its terms and what these are."""

    word: str
    usage: str
    about: str
    words: list
    options: list
    parts: dict


def said(program, *words):
    """What the program prints. A command's help is on standard error."""
    done = subprocess.run([program, *words], capture_output=True, text=True, timeout=60, check=False)
    return done.stdout + done.stderr


def command_of(word, text):
    """A command, by its help."""
    about, _, rest = text.partition("\n\nUsage: ")
    usage, _, rest = rest.partition("\n")
    parts = {name: lines.splitlines() for name, lines in PART.findall(rest)}
    words = [Argument("", *WORD.match(line).groups()) for line in parts.pop("Arguments", [])]
    options = [Argument(*(it or "" for it in OPTION.match(line).groups())) for line in parts.pop("Options", [])]
    return Command(word, usage, about, words, options, {name: [TERM.match(line).groups() for line in lines] for name, lines in parts.items()})


def commands(program):
    """The commands of the station, in the order of its help. Those that take nothing have no help of their own."""
    found = []
    for usage, word, about in LISTED.findall(said(program, "help")):
        has_help = "<" in usage
        found.append(command_of(word, said(program, word, "--help")) if has_help else Command(word, usage, about, [], [], {}))
    return found


def version(program):
    """The program's version, without its schema."""
    return re.match(r"oftp_station (\S+), ", said(program, "version"))[1]


def section(heading):
    """What docs/COMMANDS.md has below a heading of the second level."""
    return COMMANDS.read_text(encoding="utf-8").partition(f"\n## {heading}\n")[2].partition("\n## ")[0]


def paragraph(first):
    """The paragraph of docs/COMMANDS.md that begins with these words."""
    text = COMMANDS.read_text(encoding="utf-8")
    found = next((it for it in text.split("\n\n") if it.startswith(first)), None)
    if not found:
        raise LookupError(f"docs/COMMANDS.md has no paragraph that begins with {first!r}")
    return " ".join(found.split())


class Table(NamedTuple):
    """A table: its headings, and its rows of as many cells."""

    headings: list
    rows: list


def cells(line):
    """The cells of a line, in which a bar of a cell is escaped."""
    return [it.strip().replace(r"\|", "|") for it in re.split(r"(?<!\\)\|", line.strip())[1:-1]]


def table(first):
    """The table of docs/COMMANDS.md whose first heading is this."""
    text = COMMANDS.read_text(encoding="utf-8")
    lines = (f"| {first} |" + text.partition(f"\n| {first} |")[2]).partition("\n\n")[0].splitlines()
    headings, _, *rows = map(cells, lines)
    if len(headings) < 2:
        raise LookupError(f"docs/COMMANDS.md has no table with the heading {first!r}")
    return Table(headings, rows)


def done_by(word):
    """What docs/COMMANDS.md says that a command does."""
    for usage, does in table("Command").rows:
        if re.match(rf"`\./oftp_station {word}\b", usage):
            return does
    return ""
