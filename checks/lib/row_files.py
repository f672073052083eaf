"""The rows of rows/ in their written form (rows/README.md).

A row is read into its acts, and into the lines that say what is left. An act is a session or something else that is done to the same
database.
"""

import shlex

import oftp
import tables
from program import ROOT

ROWS = ROOT / "rows"

# What a line `left` may have besides the columns of its table.
SAID_OF = {
    "in_file": ["rows", "units", "sizes", "content"],
    "out_file": ["rows", "units", "sizes", "content"],
    "received": ["creator", "note"],
}


class Bad(Exception):
    """A row that can't be read."""


class Session:
    """One session: the book, the words for its role, its steps (in, out or closes, and octets), and the line for its end."""

    def __init__(self, book):
        self.book = book
        self.role = []
        self.steps = []
        self.end = None
        self.octets = None
        self.given = None

    def joined(self, side):
        return b"".join(octets for which, octets in self.steps if which == side)

    def closes(self):
        """Whether the partner stops reading within the session."""
        return any(which == "closes" for which, _ in self.steps)

    def is_ended(self):
        """Whether it ends by an ESID."""
        return self.end[1].startswith(("end: own", "end: partner"))

    def fault(self):
        """Why this isn't a whole session, or None."""
        if self.end is None:
            return "a session has an end"
        out = len(self.joined("out"))
        return None if self.octets in (None, out) else f"the row says {self.octets} octets and has {out}"


class Call:
    """An operator's command: its words, and the lines that it prints."""

    def __init__(self, book, words):
        self.book = book
        self.words = words
        self.told = []


class File:
    """A file of the operator, which is made with these octets, or has to have them."""

    def __init__(self, word, name, octets):
        self.is_made = word == "file"
        self.name = name
        self.octets = octets


class Statement:
    """What another program does to the database by stock sqlite3."""

    def __init__(self, text):
        self.text = text


class Remains:
    """What is left, if the row says so: a list of fields for each table, or that it isn't a database."""

    def __init__(self):
        self.left = None
        self.is_damaged = False

    def take_left(self, words):
        self.left = self.left or {}
        if words == ["no", "database"]:
            self.is_damaged = True
            return
        if words == ["nothing"]:
            return
        table, fields = words[0], dict(word.split("=", 1) for word in words[1:])
        known = ["id", "schema"] if table == "about" else tables.TABLES[table] + SAID_OF.get(table, [])
        for name in fields:
            if name not in known:
                raise ValueError(f"{table} has no {name}")
        if table in tables.ROWS_OF and "rows" not in fields:
            raise ValueError("how many rows the file has isn't said")
        self.left.setdefault(table, []).append(fields)


class Row(Remains):
    """A row: its acts in order, and what is left."""

    def __init__(self, path):
        super().__init__()
        self.name = path.stem
        self.book = None
        self.acts = []
        self.read(path)
        if self.book is None or not self.acts:
            raise Bad(f"{path}: a row has a book, and something is done")
        for session in self.sessions():
            if session.fault():
                raise Bad(f"{path}: {session.fault()}")

    def sessions(self):
        return [act for act in self.acts if isinstance(act, Session)]

    def is_one_session(self):
        """Whether it can be played over a register in memory."""
        return len(self.acts) == 1 and len(self.sessions()) == 1

    def read(self, path):
        lines = [line.strip() for line in path.read_text(encoding="utf-8").splitlines()]
        self.take_lines(path, [line for line in lines if line and not line.startswith("#")])

    def take_lines(self, path, lines):
        while lines:
            words = shlex.split(lines[0], comments=True)
            if words[0] == "repeat":
                last = lines.index("again")
                for _ in range(int(words[1])):
                    self.take_lines(path, lines[1:last])
                lines = lines[last + 1 :]
                continue
            try:
                self.take(words, lines[0])
            except (oftp.Unreadable, ValueError, IndexError, KeyError, OSError) as why:
                raise Bad(f"{path}: {lines[0]}: {why}") from why
            lines = lines[1:]

    def take(self, words, line):
        first, rest = words[0], words[1:]
        if first == "book":
            self.book = ROWS / "books" / f"{rest[0]}.toml"
        elif first == "use":
            self.read(ROWS / "parts" / f"{rest[0]}.part")
        elif first == "session":
            self.acts.append(Session(self.book))
        elif first == "operator":
            self.acts.append(Call(self.book, rest))
        elif first == "told":
            self.last(Call).told.append(line.split(maxsplit=1)[1])
        elif first in ("file", "holds"):
            self.acts.append(File(first, rest[0], octets_of(rest[1:])))
        elif first == "statement":
            self.acts.append(Statement(line.split(maxsplit=1)[1]))
        elif first == "left":
            self.take_left(rest)
        else:
            self.take_of_session(first, rest)

    def last(self, kind):
        if not self.acts or not isinstance(self.acts[-1], kind):
            raise ValueError("nothing that the line could belong to")
        return self.acts[-1]

    def take_of_session(self, first, rest):
        if not self.acts:
            self.acts.append(Session(self.book))
        session = self.last(Session)
        if first == "calls":
            session.role = ["--role", "initiator", "--partner", rest[0]]
        elif first in ("in", "out"):
            session.steps.append((first, stream_of(rest)))
        elif first == "closes":
            session.steps.append((first, b""))
        elif first == "given":
            session.given = rest[0]
        elif first == "end":
            session.end = ("out", f"end: {' '.join(rest)}\n", 0)
        elif first == "refused":
            session.end = ("out", f"refused: {' '.join(rest)}\n", 1)
        elif first == "fault":
            session.end = ("err", f"fault: {' '.join(rest)}\n", 1)
        elif first == "octets":
            session.octets = int(rest[0])
        else:
            raise ValueError("no line begins so")


def stream_of(words):
    """The octets that a line puts on the stream."""
    kind, rest = words[0], words[1:]
    if kind == "octets":
        return payload_of(rest)
    if kind == "command":
        return oftp.frame(payload_of(rest))
    if kind == "DATA":
        return oftp.frame(oftp.spell(kind, {"payload": payload_of(rest)}))
    if kind not in oftp.KINDS:
        raise ValueError("no command has this name")
    return oftp.frame(oftp.spell(kind, dict(word.split("=", 1) for word in rest)))


def payload_of(words):
    """Octets in words, in which `of 0..125` is a part of the file in subrecords, and `of 0..125 last` the part that ends it."""
    octets = b""
    words = list(words)
    while words:
        if words[0] != "of":
            octets += octets_of(words[:1])
            words = words[1:]
            continue
        is_last = words[2:3] == ["last"]
        octets += in_subrecords(octets_of(words[:2]), is_last)
        words = words[3 if is_last else 2 :]
    return octets


def octets_of(words):
    """Octets in words: `41` is an octet, `125*41` repeats it, `300*=00000` repeats a text, `=TEXT` is a text, `of 0..125` a part of the
    file."""
    octets = b""
    words = list(words)
    while words:
        word = words.pop(0)
        count, star, rest = word.partition("*")
        times, word = (int(count), rest) if star and count.isdigit() else (1, word)
        if word.startswith("="):
            octets += word[1:].encode() * times
        elif word == "of":
            octets += content(*(int(place) for place in words.pop(0).split("..")))
        else:
            octets += bytes([int(word, 16)]) * times
    return octets


def content(begin, end):
    """The octets of a row's file from one place to another."""
    return bytes((place * 7 + place // 251) % 256 for place in range(begin, end))


def in_subrecords(octets, is_last):
    """Octets in subrecords of at most 63; the last has the end flag if it ends the file (RFC 5024, section 7)."""
    pieces = [octets[at : at + 63] for at in range(0, len(octets), 63)]
    flags = [0x80 if is_last and at == len(pieces) - 1 else 0 for at in range(len(pieces))]
    return b"".join(bytes([flag | len(piece)]) + piece for flag, piece in zip(flags, pieces))
