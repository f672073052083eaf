#!/usr/bin/env python3
"""Compares the documents with the program: the commands and options, and what README.md and the first day show.

    checks/scenarios/documents.py [--verify]

The commands of docs/COMMANDS.md are those of the program, and its line for each names the options in its `--help`. CHANGELOG.md has the program's
version. The reasons of docs/COMMANDS.md are those of oftp_wire. Its table of the partner book has the keys that a book needs, and its table of
reports the columns that are printed. Its keys of the JSON objects are those of rows/listing, which `listing.py` compares with the program.
README.md and the table of docs/ARCHITECTURE.md name all crates, and its picture has each above those that it uses. The blocks below README's
heading "A day .." and below "The first day" of the tutorial are typed as they are. Each is typed in a folder of its own, with free ports: what
follows a `$` prints the lines below it. So are the second partner and the second plant of docs/howto, after the first day. Without stunnel the
first day ends before it, and these are left out. README's two lines for an installation make and name a package. The lines for one by hand are
typed in a folder that takes the place of /usr/local and /etc. So are the change of the year of docs/howto/days.md, with two stations between which
something is open at first, and the restore. Each folder that a unit needs is made there, and what reads a service's database is given as its user.
The book for a service leads to the tunnel. Each speed of README.md stands in docs/PERFORMANCE.md. If `rt` is installed, the documents name its
logic. With `--verify`, what docs/PROOF-MAP.md shows of `rt verdict` is typed too, and ends as shown. That is a proof of a
small crate: 21 seconds, or 3 where it has passed before. The last line is `N passed, M failed`.

Shows: the commands and options of docs/COMMANDS.md are those of the program, and its reasons those of oftp_wire. Its keys of a partner book are
those that a book needs, and its columns and keys of lists those that are printed. README's day and the first day of the tutorial, through TLS too
if stunnel is installed, go as they are shown. Then so do the second partner and the second plant of docs/howto. So do README's package, an
installation by hand, and the trial of a restore. So does the change of the year, between two stations that still owe each other something at first.
examples/two_stations.sh prints what README shows of it. CHANGELOG.md has the program's version. docs/howto makes each folder that a unit needs, and
gives what reads a service's database as its user. The book of examples/service leads to the tunnel. With `--verify`, as in the gate, what
docs/PROOF-MAP.md shows of `rt verdict` ends as shown. Each speed of README.md stands in docs/PERFORMANCE.md, and the picture of docs/ARCHITECTURE.md has
each crate above those that it uses. The documents name the crates that there are and the toolchain's logic
"""

import argparse
import contextlib
import fnmatch
import json
import os
import re
import shlex
import shutil
import sqlite3
import subprocess
import sys
import tempfile
import tomllib
from pathlib import Path

sys.path.insert(0, str(Path(__file__).resolve().parents[1] / "lib"))

from program import PROGRAM, ROOT
from reasons import numbers_of, words_of
from services import LONG, Wrong, expect
from typist import Typist, blocks_below, part_of, typed

README = ROOT / "README.md"
COMMANDS = ROOT / "docs/COMMANDS.md"
TUTORIAL = ROOT / "docs/tutorials/first-delivery.md"
HOWTO = ROOT / "docs/howto"
# All guides in one text, of which some checks ask.
GUIDES = "\n".join(it.read_text(encoding="utf-8") for it in sorted(HOWTO.glob("*.md")))
ARCHITECTURE = ROOT / "docs/ARCHITECTURE.md"
PROOF_MAP = ROOT / "docs/PROOF-MAP.md"
PERFORMANCE = ROOT / "docs/PERFORMANCE.md"
# A command's line of the table: its name, and the rest.
LINE = re.compile(r"^\| `\./oftp_station ([a-z]+)((?:[^`|]|\\\|)*)` \|", re.M)
OPTION = re.compile(r"--[a-z][a-z-]*")
# A reason with its words, up to the next one.
REASON = re.compile(r"\b(\d\d) ([a-z][a-z' ]*?)(?= and \d\d|[,.]|$)", re.M)
# A key of the partner book, and the book of the example.
KEY = re.compile(r"^\| `(station|partner)\.(\w+)` \|", re.M)
BOOK = ROOT / "examples/supplier/book.toml"
CHANGELOG = ROOT / "CHANGELOG.md"
SERVICE = ROOT / "examples/service"
# A report with its columns, and the sentence on further keys of the JSON objects.
REPORT = re.compile(r"^\| `(\w+)` \| `([\w,]+)` \|$", re.M)
MORE_KEYS = re.compile(r"Files also have ([^.]*),\s+and responses that were received have (`\w+`)")
# A request of rows/listing whose reply has content.
REPLY = re.compile(r"^ask GET /(\w+)[/\d]* HTTP/1\.1\n200 (.*)$", re.M)
# A time or a rate.
SPEED = re.compile(r"\b([\d.,]+)(?: \|)? (ms|s|MB/s)\b")


def said(*words):
    """The program's output for these arguments, both standard output and standard error."""
    done = subprocess.run([PROGRAM, *words], capture_output=True, text=True, timeout=LONG, check=False)
    return done.stdout + done.stderr


def commands_are_told():
    """The commands of the documents are those of the program."""
    told = {name for name, _ in LINE.findall(COMMANDS.read_text(encoding="utf-8"))}
    has = set(re.findall(r"^  oftp_station ([a-z]+) ", said("--help"), re.M))
    expect(told, has, "the commands of docs/COMMANDS.md")


def options_are_told():
    """Each command's options are those of its help."""
    for name, words in LINE.findall(COMMANDS.read_text(encoding="utf-8")):
        options = set(OPTION.findall(said(name, "--help"))) - {"--help"}
        expect(set(OPTION.findall(words)), options, f"the options of {name} in docs/COMMANDS.md")


def version_is_told():
    """The version is that of the changelog's first entry, and the schema that of a new database."""
    entry = re.search(r"^## (\d+\.\d+\.\d+)", CHANGELOG.read_text(encoding="utf-8"), re.M)
    expect(bool(entry), True, "CHANGELOG.md begins with a version")
    with tempfile.TemporaryDirectory() as room:
        expect(said("init", "--db", Path(room) / "db"), "done: init\n", "a new database")
        with contextlib.closing(sqlite3.connect(Path(room) / "db")) as database:
            schema = database.execute("SELECT schema FROM about").fetchone()[0]
    expect(said("version").splitlines()[0], f"oftp_station {entry[1]}, schema {schema}", "the version")


def crates_are_told():
    """The crates of the documents are those of crates.txt."""
    crates = set(re.findall(r"^(\w+):", (ROOT / "crates.txt").read_text(encoding="utf-8"), re.M))
    table = set(re.findall(r"^\| (oftp_\w+) \|", ARCHITECTURE.read_text(encoding="utf-8"), re.M))
    expect(table, crates, "the crates of docs/ARCHITECTURE.md")
    layout = README.read_text(encoding="utf-8").partition("\n## Layout")[2].partition("\n## ")[0]
    wanted = {it for it in crates if not it.startswith("oftp_test_")}
    expect(set(re.findall(r"oftp_\w+", layout)) - {"oftp_test_"}, wanted, "the crates of README.md")


def picture_is_in_order():
    """The picture of docs/ARCHITECTURE.md has each crate but those of tests, in a line above the crates that it uses, and whole boxes alone."""
    lines = part_of(ARCHITECTURE, "The crates").split("```")[1].splitlines()
    uses = {line.split(":")[0]: line.split(":")[1].split() for line in (ROOT / "crates.txt").read_text(encoding="utf-8").splitlines() if ":" in line}
    at = {crate: number for number, line in enumerate(lines) for crate in re.findall(r"oftp_\w+", line)}
    expect(set(at), {it for it in uses if not it.startswith("oftp_test_")}, "the crates of the picture in docs/ARCHITECTURE.md")
    wrong = [(crate, used) for crate in at for used in uses[crate] if used in at and at[used] <= at[crate]]
    expect(wrong, [], "crates of that picture beside or above those that use them")
    expect(list(stray_edges(["", *lines, ""])), [], "edges of that picture that are no top or bottom of a box")


def stray_edges(lines):
    """The edges of a picture that aren't an edge of just one box, each with the number of its line."""
    for number, line in enumerate(lines):
        for it in re.finditer(r"\+-+\+", line):
            near = (lines[number - 1], lines[number + 1])
            if sum(text[it.start() : it.end()].startswith("|") and text[it.end() - 1 : it.end()] == "|" for text in near) != 1:
                yield number, it[0]


def lines_of(text, first):
    """The lines of the table whose first heading is this one, each as its cells."""
    table = text.partition(f"\n| {first} |")[2].partition("\n\n")[0]
    return [[cell.strip() for cell in line.strip("|").split("|")] for line in table.splitlines()[2:]]


def reasons_are_told():
    """The reasons of docs/COMMANDS.md are those of oftp_wire, with their words, and those that this station gives are told as such."""
    text = part_of(COMMANDS, "Reasons")
    for kind, phrase in (("SFNA", "start_phrase"), ("ESID", "session_phrase"), ("NERP", "negative_phrase")):
        told = "\n".join(line[0] for line in lines_of(text, kind))
        expect(dict(REASON.findall(told)), words_of(phrase), f"the reasons of {kind} in docs/COMMANDS.md")
    given = {line[0][:2] for line in lines_of(text, "SFNA") if line[1]}
    expect(given, numbers_of("start_number"), "the reasons of SFNA that this station gives in docs/COMMANDS.md")
    ends = [line[1] for line in lines_of(part_of(COMMANDS, "Lines"), "Line") if line[0] == "`end: own RR`"]
    given = {"00", *re.findall(r"(?<=\. )\d\d(?=:)", "".join(ends))}
    expect(given, numbers_of("session_number"), "the reasons of ESID that this station gives in docs/COMMANDS.md")
    # EFNA has the reasons of SFNA and a few more. The text names these, and those that this station gives.
    told = " ".join(text.partition("(EFNA, section 5.3.10)")[2].partition("\n\n")[0].split())
    given = {number: words_of("start_phrase")[number] for number in numbers_of("end_number")}
    expect(dict(REASON.findall(told)), given | words_of("end_phrase"), "the reasons of EFNA in docs/COMMANDS.md")


def keys_are_told():
    """The keys of a partner book are those of the example's, and a book without one of them lacks a key."""
    keys = KEY.findall(part_of(COMMANDS, "The partner book"))
    text = BOOK.read_text(encoding="utf-8")
    book = tomllib.loads(text)
    there = {("station", key) for key in book["station"]} | {("partner", key) for partner in book["partner"] for key in partner}
    expect(set(keys), there, "the keys of a partner book in docs/COMMANDS.md")
    with tempfile.TemporaryDirectory() as room:
        less = Path(room) / "book"
        for table, key in keys:
            head, mark, rest = text.partition(f"[{table}]")
            less.write_text(head + mark + re.sub(rf"^{key} = .*\n", "", rest, count=1, flags=re.M), encoding="utf-8")
            expect(said("check", "--book", less), "fault: 5 book 2\n", f"a book without {table}.{key}")


def columns_are_told():
    """The columns of each report are its first row, and the keys of the JSON objects are these and those that the text adds."""
    text = part_of(COMMANDS, "Reports and lists")
    columns = dict(REPORT.findall(text))
    expect(set(columns), {"in", "out", "issued", "received"}, "the reports of docs/COMMANDS.md")
    with tempfile.TemporaryDirectory() as room:
        for kind, names in columns.items():
            expect(said("report", "--db", Path(room) / "database", kind), f"{names}\n", f"the columns of report {kind}")
    told = MORE_KEYS.search(text)
    expect(bool(told), True, "docs/COMMANDS.md says which keys the JSON objects have more")
    files, responses = (re.findall(r"`(\w+)`", names) for names in told.groups())
    more = {"in": files, "out": files, "issued": [], "received": responses}
    keys = {kind: sorted({*names.split(","), *more[kind]}) for kind, names in columns.items()}
    shown = [(kind, list(entry)) for path in (ROOT / "rows/listing").glob("*.listing") for kind, entry in entries_of(path)]
    expect({kind for kind, _ in shown}, set(columns), "the lists of rows/listing")
    for kind, names in shown:
        expect(names, keys[kind], f"the keys of an object of {kind}")


def entries_of(path):
    """The JSON objects in the replies of a file of rows/listing, each with the list that it is of."""
    for target, reply in REPLY.findall(path.read_text(encoding="utf-8")):
        value = json.loads(reply)
        lists = value if target == "responses" else {target: value if isinstance(value, list) else [value]}
        yield from ((kind, entry) for kind, entries in lists.items() for entry in entries)


def day_goes_as_shown():
    """README's day, typed as it is."""
    with Typist() as typist:
        for block in blocks_below(README, "A day", 2):
            for command, wanted in typed(block):
                typist.type(command, wanted)


def example_prints_what_is_shown():
    """What README shows of examples/two_stations.sh is printed by it: its heads and commands, and the form of a report. Where the station was
    killed differs from run to run, and so does the call's end."""
    environment = {**os.environ, "OFTP_STATION": str(PROGRAM)}
    words = [ROOT / "examples/two_stations.sh"]
    printed = subprocess.run(words, env=environment, capture_output=True, text=True, timeout=300, check=True).stdout.splitlines()
    shown = [line for line in blocks_below(README, "Setting up", 2)[1] if not line.startswith("fault:")]
    forms = [re.sub(r"\d+", "N", line) for line in printed]
    lost = [line for line in shown if re.sub(r"\d+", "N", line) not in forms]
    expect(lost, [], "what README shows and the example doesn't print")


def package_is_installed_as_shown():
    """README's two lines for an installation: the first makes a package, and the second names it. Here it is one for trials, in another folder."""
    build, install = blocks_below(README, "Installing", 1)[0]
    if not shutil.which("dpkg-deb"):
        print("NOT TRIED without dpkg-deb: the package of README.md")
        return
    with tempfile.TemporaryDirectory() as room:
        words = [ROOT / build, "--unproved", "--to", room]
        subprocess.run(words, env={**os.environ, "OFTP_STATION": str(PROGRAM)}, capture_output=True, timeout=LONG, check=True)
        made = [it.name for it in Path(room).iterdir()]
    program, verb, path = install.split()
    expect((program, verb, Path(path).parent.name), ("apt-get", "install", "out"), "the second line of README's installation")
    expect(fnmatch.filter(made, Path(path).name), made, "the package that README.md names")


def service_is_installed_as_shown():
    """The lines of docs/howto/install.md for an installation by hand, without systemd: each unit that is enabled was copied."""
    shown = [typed(block) for block in blocks_below(HOWTO / "install.md", "By hand", 3)]
    with Typist() as typist:
        for folder in ("crates/oftp_station/out", "usr/local/bin", "etc/systemd/system"):
            (typist.path / folder).mkdir(parents=True)
        (typist.path / "crates/oftp_station/out/oftp_station").symlink_to(PROGRAM)
        (typist.path / "bin/systemctl").symlink_to("/bin/true")
        for command, wanted in [it for lines in shown for it in lines if it[0].startswith(("install -m 755 ", "cp ", "systemctl "))]:
            typist.type(re.sub(r" /(usr|etc)/", r" \1/", command), wanted)
            for unit in re.findall(r"[\w@-]+\.service", command):
                expect((typist.path / "etc/systemd/system" / unit).is_file(), True, f"the unit {unit} of docs/howto/install.md")


def first_day_goes_as_shown():
    """The first day of the tutorial, typed as it is, and then the second partner and the second plant of docs/howto."""
    has_tunnel = shutil.which("stunnel") and shutil.which("openssl")
    with Typist() as typist:
        for block in blocks_below(TUTORIAL, "The first day", 9):
            if block[0].startswith("openssl ") and not has_tunnel:
                print("NOT TRIED without stunnel: the first day through TLS, a second partner, a second plant")
                return
            for command, wanted in typed(block):
                typist.type(command, wanted)
        for block in [*blocks_below(HOWTO / "partner.md", "A second partner", 6), *blocks_below(HOWTO / "plants.md", "Many plants", 1)]:
            for command, wanted in typed(block):
                typist.type(command, wanted)


def folders_of_units_are_made():
    """The folders that the units of examples/service need are made by a command of docs/howto, and their user can't log in."""
    lines = [line.strip() for line in GUIDES.splitlines() if re.match(r"    (install -d|useradd) ", line)]
    made = {word for line in lines for word in line.split() if word.startswith("/")}
    wanted = set()
    for unit in SERVICE.glob("*.service"):
        text = unit.read_text(encoding="utf-8")
        for words in re.findall(r"^(?:ReadWritePaths|WorkingDirectory)=(.*)$", text, re.M):
            wanted.update(words.split())
    expect(wanted - made, set(), "folders of units that docs/howto doesn't make")
    users = [line for line in lines if line.startswith("useradd ")]
    expect([line for line in users if " --shell /usr/sbin/nologin " not in line], [], "users that can log in")


def database_is_read_as_its_user():
    """A command of docs/howto that reads a service's database is its user's, who alone may read it. Those of the second partner read others."""
    text = GUIDES.replace(part_of(HOWTO / "partner.md", "A second partner"), "").replace(part_of(HOWTO / "plants.md", "Many plants"), "")
    told = re.findall(r"^(?:    |\| `)((?:sudo -u oftp )?(?:oftp_station|sqlite3) .*)$", text, re.M)
    expect(len(told) > 8, True, "docs/howto has commands that read a database")
    expect([line for line in told if not line.startswith("sudo -u oftp ")], [], "commands of another user than the database's")


def book_of_service_leads_to_tunnel():
    """The book for a service is accepted, has the largest buffer and credit, and calls no station but through the tunnels of stunnel.conf."""
    path = SERVICE / "book.toml"
    book = tomllib.loads(path.read_text(encoding="utf-8"))
    expect(said("check", "--book", path), f"ok: {len(book['partner'])} partners\n", "the book for a service")
    expect((book["station"]["buffer"], book["station"]["credit"]), (16384, 99), "its buffer and its credit")
    conf = (SERVICE / "stunnel.conf").read_text(encoding="utf-8")
    tunnels = re.findall(r"^client = yes\naccept = (\S+)$", conf, re.M)
    own = re.search(r"--port <PORT> .* \[default: (\d+)\]", said("run", "--help"))[1]
    addresses = [partner["address"] for partner in book["partner"]]
    expect([it for it in addresses if it not in tunnels or it.endswith(f":{own}")], [], "addresses that aren't those of a tunnel")


def block_with(page, heading, first):
    """The block of a page of docs/howto below a heading that begins with this text, as its lines."""
    found = [block for block in blocks_below(HOWTO / page, heading, 1) if block[0].startswith(first)]
    expect(len(found), 1, f"blocks below {heading!r} that begin with {first!r}")
    return found[0]


class Administrator(Typist):
    """Types commands for the station's user in folders that take the place of its own. `sudo` gives what it is given to that user, in name."""

    def __enter__(self):
        super().__enter__()
        sudo = self.path / "bin/sudo"
        sudo.write_text('#!/bin/sh\n[ "$1 $2" = "-u oftp" ] || exit 9\nshift 2\nexec "$@"\n', encoding="utf-8")
        sudo.chmod(0o755)
        for folder in ("var/lib/oftp", "var/backups/oftp"):
            (self.path / folder).mkdir(parents=True)
        return self

    def as_here(self, text):
        return re.sub(r"(?<![\w/])/var/", f"{self.path}/var/", super().as_here(text))

    def printed_by(self, lines):
        """What these lines print on standard output, typed one after another."""
        words = ["bash", "-ec", self.as_here("\n".join(lines))]
        done = subprocess.run(words, cwd=self.path, env=self.environment, capture_output=True, text=True, timeout=LONG, check=False)
        expect((done.returncode, done.stderr), (0, ""), f"{lines}, which said {done.stdout}")
        return done.stdout.splitlines()


# The database of the station whose year ends, and that of its partner, with their books.
OWN = ["--db", "var/lib/oftp/station.db", "--book", "examples/supplier/book.toml"]
OTHER = ["--db", "carmaker.db", "--book", "examples/carmaker/book.toml"]


def enabled_units():
    """The units of examples/service that docs/howto enables."""
    lines = re.findall(r"systemctl enable --now (.*)", GUIDES)
    return set(re.findall(r"oftp-[\w@-]+\.(?:service|timer|path)", " ".join(lines).replace("@$(systemd-escape O0177CARMAKER)", "@")))


def year_ends_as_shown():
    """The change to a new database, typed as it is. Each response and file that is still open is named, and the change comes once none is. Then
    both sides have the response of each file."""
    asked = block_with("days.md", "Each year", "systemctl stop")
    changed = block_with("days.md", "Each year", "sudo -u oftp mv")
    units = re.findall(r"oftp-[\w@-]+\.(?:service|timer|path)", " ".join(changed).replace("@$(systemd-escape O0177CARMAKER)", "@"))
    expect([unit for unit in units if not (SERVICE / unit).is_file()], [], "units that aren't there")
    expect(sorted(enabled_units() - {"oftp-listen.service", "oftp-http.service"} - set(units)), [], "units that are stopped and not started again")
    with Administrator() as typist:

        def given(*words):
            return typist.printed_by([f"oftp_station {shlex.join(words)}"])

        def open_now():
            return typist.printed_by([*asked[1:-1], f"{asked[-1]} || [ $? = 1 ]"])

        (typist.path / "content").write_text("content", encoding="utf-8")
        for files, code in ((OWN, "O0177CARMAKER"), (OTHER, "O0013SUPPLIER")):
            identity = ["--dataset", "YEAR.1", "--date", "20240201", "--time", "0600000001", "--to", code, "--format", "U", "content"]
            expect(given("submit", *files, *identity), ["done: submit 1"], "a file each way")
        station = Between(typist)
        station.session()
        named = "1 YEAR.1 20240201 0600000001 O0177CARMAKER"
        came, due = f"in {named}: it is to be released or refused", f"in {named}: its response is to be sent"
        went = "1,YEAR.1,20240201,0600000001,O0177CARMAKER,U,1,7,0,"
        awaited = f"out {named}: its response is to come"
        expect(open_now(), [came, awaited], "what is open with a file each way")
        expect(given("release", *OWN, "1"), ["done: release 1"], "the release here")
        expect(open_now(), [due, awaited], "what is open with a response to be sent")
        expect(given("release", *OTHER, "1"), ["done: release 1"], "the release there")
        station.session()
        expect(open_now(), [], "what is open at the end")
        typist.printed_by(["cd /var/lib/oftp", *[line for line in changed if not line.startswith("systemctl ")]])
        expect(given("report", "--db", "carmaker.db", "out")[1:], [f"{went.replace('CARMAKER', 'X').replace('O0177X', 'O0013SUPPLIER')}delivered,"], "there")
        expect(given("report", "--db", "var/lib/oftp/station-2026.db", "out")[1:], [f"{went}delivered,"], "here, in the old database")
        station.session()
        expect(given("report", "--db", "var/lib/oftp/station.db", "in")[1:], [], "the new database")


class Between:
    """The station whose year ends, which runs only while its partner calls it."""

    def __init__(self, typist):
        self.typist = typist

    def session(self):
        """The partner's call, with a session each way of files and of responses."""
        words = [self.typist.path / "bin/oftp_station", "run", *OWN, "--port", self.typist.as_here("3306")]
        with subprocess.Popen(words, cwd=self.typist.path, stdout=subprocess.PIPE, text=True) as station:
            expect(station.stdout.readline(), "ready\n", "the station")
            try:
                said_by = self.typist.printed_by([f"oftp_station call {shlex.join(OTHER)} --partner O0013SUPPLIER"])
            finally:
                station.kill()
        expect(said_by[0] in ("end: own 00", "end: partner 00"), True, f"the end of the session, {said_by}")


def restore_is_tried_as_shown():
    """The backup and the trial of a restore, typed as they are. Only the station's user may read them, so each command is that user's."""
    if not shutil.which("sqlite3"):
        print("NOT TRIED without sqlite3: the restore of docs/howto/backup.md")
        return
    backup, trial = block_with("backup.md", "A backup", "sudo -u oftp oftp_station backup"), block_with("backup.md", "Trying a restore", "sudo -u oftp mkdir")
    expect([line for line in [*backup, *trial] if not line.startswith("sudo -u oftp ")], [], "commands of another user")
    with Administrator() as typist:
        expect(typist.printed_by(["oftp_station init --db /var/lib/oftp/station.db"]), ["done: init"], "the database")
        expect(typist.printed_by(backup), ["done: backup"], "the backup")
        heads = said("report", "--db", typist.path / "var/lib/oftp/station.db", "in").splitlines()
        expect(typist.printed_by(trial), [*heads, "ok"], "the restore")
        expect((typist.path / "restore").exists(), False, "whether the copy is left")


def kit_is_told():
    """The documents name the logic that `rt` has."""
    if not shutil.which("rt"):
        print("NOT TRIED without rt: the toolchain that the documents name")
        return
    version = subprocess.run(["rt", "version"], capture_output=True, text=True, check=True).stdout.split()
    logic = version[version.index("logic") + 1]
    for name in ("README.md", "docs/THEOREM.md", "docs/PERFORMANCE.md"):
        named = set(re.findall(r"logic ([0-9a-f]{16})", (ROOT / name).read_text(encoding="utf-8")))
        expect(named, {logic}, f"the toolchain of {name}")


def speeds_are_measured():
    """Each time and rate of README's section on speed stands in docs/PERFORMANCE.md."""
    told = set(SPEED.findall(part_of(README, "Speed")))
    expect(len(told) > 2, True, "README.md has times and rates")
    expect(told - set(SPEED.findall(PERFORMANCE.read_text(encoding="utf-8"))), set(), "the speeds of README.md that docs/PERFORMANCE.md doesn't have")


def verification_ends_as_shown():
    """What docs/PROOF-MAP.md shows of `rt verdict` ends as shown, typed in the folder that it names."""
    if not shutil.which("rt"):
        print("NOT TRIED without rt: how a claim is proved again")
        return
    block = next(it for it in blocks_below(PROOF_MAP, "How to read a claim", 1) if it[0].startswith("$ cd "))
    folder = ROOT
    for command, wanted in typed(block):
        words = command.split()
        if words[0] == "cd":
            folder = ROOT / words[1]
            continue
        done = subprocess.run(words, cwd=folder, capture_output=True, text=True, timeout=600, check=False)
        shown = (wanted.splitlines() or [""])[-1].removesuffix(" ..")
        expect((done.stdout.splitlines() or [""])[-1][: len(shown)], shown, command)


CASES = [
    *(commands_are_told, options_are_told, version_is_told, crates_are_told, reasons_are_told, keys_are_told, columns_are_told),
    *(day_goes_as_shown, first_day_goes_as_shown, example_prints_what_is_shown, package_is_installed_as_shown, service_is_installed_as_shown),
    *(folders_of_units_are_made, database_is_read_as_its_user, book_of_service_leads_to_tunnel, year_ends_as_shown, restore_is_tried_as_shown, kit_is_told),
    *(picture_is_in_order, speeds_are_measured),
]


def main():
    parser = argparse.ArgumentParser(description=__doc__.splitlines()[0])
    parser.add_argument("--verify", action="store_true")
    cases = [*CASES, verification_ends_as_shown] if parser.parse_args().verify else CASES
    failed = 0
    for case in cases:
        try:
            case()
        except Wrong as why:
            failed += 1
            print(f"{case.__name__}: {why}")
    print(f"{len(cases) - failed} passed, {failed} failed")
    return 1 if failed else 0


if __name__ == "__main__":
    sys.exit(main())
