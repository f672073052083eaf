"""The command lines of rows/lines in their written form (rows/README.md).

Each line runs in a folder of its own, and the result says why it differs from what is written.
"""

import calendar
import os
import re
import resource
import shlex
import subprocess
import tempfile
import time
from pathlib import Path

import tables
from acts import check_left
from program import PROGRAM, ROOT
from row_files import ROWS, Bad, Remains, Row, octets_of
from services import free_port

LINES = ROWS / "lines"
SECONDS = 30
BAD = 2
# The line that says which sources the program was built from.
SOURCES = re.search(r'"(sources \w+)"', (ROOT / "crates/oftp_station/src/sources.rt").read_text(encoding="utf-8"))[1]
DATABASE = ("db", "db-wal")
# What a station that keeps the database open has in its folder, and the commands that ask it.
HELD = {*DATABASE, "db-station"}
ASKING = ("init", "submit", "offer", "release", "refuse", "fetch", "collect", "report", "backup", "call", "resend")
# The words before a text that is taken literally.
TEXTS = ("line", "bad", "out", "err")


class Given:
    """The arguments of the program, with the expected result: its output and status, and the files that it makes."""

    def __init__(self, words, is_bad):
        self.words = words
        self.is_bad = is_bad
        self.status = BAD if is_bad else 0
        self.output = None
        self.is_unread = False
        self.most = None
        self.out = ""
        self.err = ""
        self.made = {}
        self.gone = set()

    def take(self, first, rest, text):
        if first == "octets":
            self.words.append(octets_of(rest))
        elif first == "output":
            self.output = rest[0]
        elif first == "unread":
            self.is_unread = True
        elif first == "most":
            self.most = int(rest[0])
        elif first in ("out", "err"):
            setattr(self, first, f"{getattr(self, first)}{text}\n")
        elif first == "sources":
            self.out += f"{SOURCES}\n"
        elif first == "help" and rest:
            self.err = (LINES / f"help_of_{rest[0]}.txt").read_text(encoding="utf-8")
        elif first == "help":
            self.out = (LINES / "help.txt").read_text(encoding="utf-8")
        elif first == "status":
            self.status = int(rest[0])
        elif first == "made":
            self.made[rest[0]] = octets_of(rest[1:]) if rest[1:] else None
        elif first == "gone":
            self.gone.add(rest[0])
        elif first == "answer":
            self.made[rest[0]] = session_of(rest[1]).joined("out")[: int(rest[2]) if rest[2:] else None]
        else:
            raise ValueError("no line begins so")

    def asks(self):
        """Whether a station that keeps the database `db` open can be asked."""
        is_of_db = "--db=db" in self.words or ("--db", "db") in zip(self.words, self.words[1:])
        return self.most is None and self.status != BAD and self.words[:1] and self.words[0] in ASKING and is_of_db

    def run_beside(self, folder):
        """The same with such a station, if one can be asked. It returns whether one could, too."""
        words = [PROGRAM, "run", "--db", "db", "--book", ROWS / "books/usual.toml", "--port", str(free_port())]
        with subprocess.Popen(words, cwd=folder, stdout=subprocess.PIPE, stderr=subprocess.PIPE) as station:
            is_ready = station.stdout.readline() == b"ready\n"
            try:
                return self.run(folder, HELD if is_ready else ()), is_ready
            finally:
                station.kill()
                station.wait()
                (folder / "db-station").unlink(missing_ok=True)

    def run(self, folder, left_out=()):
        """Runs the program with the arguments. It returns why the result differs, or None. Names that aren't given may have any content."""
        before = found_in(folder, left_out)
        with self.opened() as output:
            done = subprocess.run(
                [PROGRAM, *self.words],
                cwd=folder,
                stdout=output if self.output or self.is_unread else subprocess.PIPE,
                stderr=subprocess.PIPE,
                preexec_fn=self.limit,
                restore_signals=self.most is None,  # if there is a limit, a file that gets too long is an error of its write
                timeout=SECONDS,
                check=False,
            )
        return self.why_otherwise(done) or self.why_changed(before, found_in(folder, left_out), left_out)

    def opened(self):
        """The file that is standard output, or a pipe that nobody reads."""
        if not self.is_unread:
            return open(self.output or os.devnull, "wb")
        reader, writer = os.pipe()
        os.close(reader)
        return os.fdopen(writer, "wb")

    def limit(self):
        if self.most is not None:
            resource.setrlimit(resource.RLIMIT_FSIZE, (self.most, self.most))

    def why_otherwise(self, done):
        out, err = (done.stdout or b"").decode(), done.stderr.decode()
        told = err.startswith(self.err) if self.is_bad else err == self.err
        if (done.returncode, out, told) == (self.status, self.out, True):
            return None
        wanted = f"wanted {self.out!r}, {self.err!r} and status {self.status}"
        return f"{wanted}, got {out!r}, {err!r} and status {done.returncode}"

    def why_changed(self, before, after, left_out):
        """Why the folder changed, apart from what is to be made, or None."""
        made = {*self.made, *self.gone, *(DATABASE if "db" in self.made else ())}
        for name in sorted(before.keys() | after.keys()):
            if name not in made and before.get(name) != after.get(name):
                return f"{name} is {'gone' if name not in after else 'another' if name in before else 'new'}"
        for name, octets in self.made.items():
            if name in left_out:
                continue
            if name not in after:
                return f"{name} isn't there"
            mode, found = after[name]
            if octets is not None and found != octets:
                return f"{name} has other octets"
            if name in before and before[name][0] != mode:
                return f"{name} has other permissions"
        left = sorted(self.gone & after.keys())
        return f"{left[0]} is there" if left else None


class Line(Remains):
    """A line under its name: what is done in its folder, in order, and what is left in the database."""

    def __init__(self, name, is_bad=False):
        super().__init__()
        self.name = name
        self.is_bad = is_bad
        # How many of its commands asked a station.
        self.asked = 0
        self.acts = [lambda folder: make_book(folder, "usual")]

    def take(self, first, rest, text):
        if first == "words":
            self.acts.append(Given(rest, self.is_bad))
        elif first == "left":
            self.take_left(rest)
        elif first in DONE_BEFORE:
            self.acts.append(lambda folder: DONE_BEFORE[first](folder, *rest))
        else:
            self.acts[-1].take(first, rest, text)

    def run(self, is_beside=False):
        """Does all that the line says, in a new folder, and with `beside` each command beside a station that keeps the database open. It
        returns why the result differs, or None."""
        with tempfile.TemporaryDirectory() as path:
            folder = Path(path)
            for act in self.acts:
                why = self.do(act, folder, is_beside)
                if why:
                    return f"{shown(act.words)}: {why}"
            return self.why_left(folder)

    def do(self, act, folder, is_beside):
        if not isinstance(act, Given):
            return act(folder)
        if not (is_beside and act.asks()):
            return act.run(folder)
        why, has_asked = act.run_beside(folder)
        self.asked += has_asked
        return why

    def why_left(self, folder):
        if self.left is None:
            return None
        left = tables.read(folder / "db")
        return tables.unfit(left) or check_left(self, left)


def shown(words):
    return shlex.join(str(word) for word in words)


def found_in(folder, left_out=()):
    """The content of the folder and of those in it: the permissions of each name, and its octets or its kind."""
    found = {}
    for path in folder.rglob("*"):
        name = str(path.relative_to(folder))
        if name in left_out:
            continue
        what = os.readlink(path) if path.is_symlink() else "a folder" if path.is_dir() else path.read_bytes()
        found[name] = (path.lstat().st_mode, what)
    return found


def session_of(name):
    """The first session of a row."""
    return Row(ROWS / f"{name}.row").sessions()[0]


def make_file(folder, name, *words):
    (folder / name).write_bytes(octets_of(words))


def make_book(folder, name):
    (folder / "book").write_bytes((ROWS / "books" / f"{name}.toml").read_bytes())


def make_book_of(folder, count):
    """The usual book, with further partners up to this number."""
    station, one = (ROWS / "books/usual.toml").read_text(encoding="utf-8").split("[[partner]]")
    more = [one.replace("O0177CARMAKER", f"P{number}") for number in range(1, int(count))]
    (folder / "book").write_text("[[partner]]".join([station, one, *more]), encoding="utf-8")


def make_input(folder, name, row):
    (folder / name).write_bytes(session_of(row).joined("in"))


def make_folder(folder, name):
    (folder / name).mkdir()


def make_name(folder, name, other):
    os.link(folder / other, folder / name)


def make_link(folder, name, other):
    (folder / name).symlink_to(other)


def set_mode(folder, name, mode):
    (folder / name).chmod(int(mode, 8))


def set_change(folder, name, date, clock):
    """Sets the time of the last change of a file to a moment of UTC, given as a date and a time stamp."""
    second = calendar.timegm(time.strptime(date + clock[:6], "%Y%m%d%H%M%S"))
    moment = second * 10**9 + int(clock[6:]) * 10**5
    os.utime(folder / name, ns=(moment, moment))


# What comes before the words of a line.
DONE_BEFORE = {
    "file": make_file,
    "book": make_book,
    "partners": make_book_of,
    "sends": make_input,
    "folder": make_folder,
    "same": make_name,
    "link": make_link,
    "mode": set_mode,
    "changed": set_change,
}


def bad_line(name, words, *text):
    """A bad line with its whole text."""
    line = Line(name)
    given = Given(words, False)
    given.status = BAD
    given.err = "".join(f"{part}\n" for part in text)
    line.acts.append(given)
    return line


class Argument:
    """An argument of a command: its name in texts, the words that give it, and whether it is required."""

    def __init__(self, words, is_needed):
        # `--db <DATABASE> db` is an option with its value, `--release` one without, `<FILE> content` a word, `[IN] given` one that may be missing.
        self.is_option = words[0].startswith("--")
        self.shown = " ".join(words[:-1] or words)
        self.words = words[::max(len(words) - 1, 1)] if self.is_option else [words[-1]]
        self.is_needed = is_needed


class Command:
    """A command with its arguments in the order of its usage."""

    def __init__(self, name):
        self.name = name
        self.arguments = []

    def take(self, first, rest):
        if first not in ("needs", "may"):
            raise ValueError("no line begins so")
        self.arguments.append(Argument(rest, first == "needs"))

    def usage(self):
        parts = [each.shown if each.is_needed or not each.is_option else f"[{each.shown}]" for each in self.arguments]
        return " ".join(["oftp_station", self.name, *parts])

    def words(self, left_out=None):
        """The words of each required argument except one."""
        given = [each.words for each in self.arguments if each.is_needed and each is not left_out]
        return [self.name, *(word for words in given for word in words)]

    def bad(self, what, words, *error):
        """A bad line, whose text has the command's usage."""
        return bad_line(f"{self.name} {what}", words, *error, "", f"Usage: {self.usage()}", "", "For more information, try '--help'.")

    def unknown(self):
        """The bad line with an unknown option. Its text may propose another one."""
        line = Line(f"{self.name} with an option that it doesn't have", True)
        line.take("words", [*self.words(), "--nothing=1"], "")
        line.take("err", [], "error: unexpected argument '--nothing' found")
        return line

    def without(self, argument):
        """The bad line without the argument. If that is a word, the others take its place, so the last one is missing."""
        missing = argument if argument.is_option else self.arguments[-1]
        error = "error: the following required arguments were not provided:"
        return self.bad(f"without {argument.shown}", self.words(argument), error, f"  {missing.shown}")

    def twice(self, argument):
        """The bad line in which an argument is given twice."""
        words = [*self.words(), *argument.words, *([] if argument.is_needed else argument.words)]
        if not argument.is_needed and not argument.is_option:
            # one word more than the command takes
            words = [self.name, *(word for each in self.arguments if not each.is_option for word in each.words), *argument.words]
        error = f"unexpected argument '{argument.words[0]}' found"
        if argument.is_option:
            error = f"the argument '{argument.shown}' cannot be used multiple times"
        return self.bad(f"with {argument.shown} twice", words, f"error: {error}")

    def lines(self):
        """The bad lines that its arguments make."""
        missing = [self.without(argument) for argument in self.arguments if argument.is_needed]
        return [self.unknown(), *missing, *(self.twice(argument) for argument in self.arguments)]


def read(path):
    """The lines of a file of rows/lines, and its commands."""
    read_here = []
    for line in path.read_text(encoding="utf-8").splitlines():
        if not line.strip() or line.startswith("#"):
            continue
        first, _, text = line.partition(" ")
        try:
            rest = [] if first in TEXTS else shlex.split(text)
            if first in ("line", "bad"):
                read_here.append(Line(text, first == "bad"))
            elif first == "command":
                read_here.append(Command(rest[0]))
            elif isinstance(read_here[-1], Command):
                read_here[-1].take(first, rest)
            else:
                read_here[-1].take(first, rest, text)
        except (AttributeError, IndexError, KeyError, OSError, ValueError) as why:
            raise Bad(f"{path}: {line}: {why}") from why
    return read_here


def usages(commands):
    """Lines that name no command: the text has the usage of each."""
    usage = ["", "Usage:", *(f"  {command.usage()}" for command in commands)]
    return [
        bad_line("no words", [], "error: a command is missing", *usage),
        bad_line("an unknown command", ["listens", "--help"], "error: unknown command 'listens'", *usage),
    ]


def all_lines(path):
    read_here = read(path)
    commands = [each for each in read_here if isinstance(each, Command)]
    lines = [each for each in read_here if isinstance(each, Line)]
    varied = [line for command in commands for line in command.lines()]
    return lines + varied + (usages(commands) if commands else [])
