"""A station's incoming files that examples/service/oftp-process gives to a program of a check, and what became of them."""

import hashlib
import os
import subprocess

import filled
import tables
from program import PROGRAM, ROOT
from services import BOOK, CARMAKER, LONG

SCRIPT = ROOT / "examples/service/oftp-process"
OURS = "O0013SUPPLIER"
# The program: it notes each file's number and the sum of its octets, and does with the file what its dataset name says. Its words are the folder
# of the notes and the file. What it reads is nothing, and it changes the file, which concerns nobody.
SITE = """#!/bin/sh
cat > "$1/read"
printf '%s %s\\n' "$OFTP_NO" "$(sha256sum < "$2" | cut -d ' ' -f 1)" >> "$1/notes"
printf changed >> "$2"
case $OFTP_DATASET in
    GOOD*) rm "$2" ;;
    BAD*) printf 'a first line\\n%s from %s is bad\\n\\n' "$OFTP_DATASET" "$OFTP_ORIGINATOR"; exit 10 ;;
    *) exit 3 ;;
esac
"""


def sum_of(octets):
    return hashlib.sha256(octets).hexdigest()


class Site:
    """A database of incoming files, each of which is whole and has no response, the folder of oftp-process, and the program that gets them. A file
    is its dataset name, the code that it came from, and its octets; they have the numbers from 1 on."""

    def __init__(self, room, files, program=SITE):
        self.room, self.files = room, files
        self.database, self.folder = room / "database", room / "process"
        self.fill()
        self.program = room / "program"
        self.program.write_text(program, encoding="utf-8")
        self.program.chmod(0o755)
        self.environment = {**os.environ, "OFTP_STATION": str(PROGRAM)}

    def fill(self):
        subprocess.run([PROGRAM, "init", "--db", self.database], capture_output=True, timeout=LONG, check=True)
        connection = filled.opened(self.database)
        connection.execute("BEGIN")
        for no, (dataset, code, octets) in enumerate(self.files, 1):
            values = (no, dataset, "20240131", f"08000{no:05}", code, OURS)
            connection.execute("INSERT INTO in_file VALUES (?, ?, ?, ?, ?, ?, 'U', 0, '', 'whole')", values)
            rows = [(no, at // tables.BLOCK, octets[at : at + tables.BLOCK]) for at in range(0, len(octets), tables.BLOCK)]
            connection.executemany("INSERT INTO in_row VALUES (?, ?, ?)", rows)
        connection.execute("COMMIT")
        connection.close()
        filled.settle(self.database)

    def words(self, code=CARMAKER, book=BOOK):
        """The words of oftp-process, without its name."""
        files = ["--db", self.database, "--book", book, "--partner", code, "--to", self.folder]
        return [str(it) for it in (*files, self.program, self.room)]

    def process(self, code=CARMAKER, book=BOOK):
        """Runs oftp-process to its end. It returns the status and both outputs."""
        done = subprocess.run([SCRIPT, *self.words(code, book)], env=self.environment, capture_output=True, timeout=LONG, check=False)
        return done.returncode, done.stdout.decode(errors="replace"), done.stderr.decode(errors="replace")

    def operate(self, command, *words):
        """Gives an operator's command, and returns what it prints."""
        given = [PROGRAM, command, "--db", self.database, "--book", BOOK, *words]
        done = subprocess.run(given, capture_output=True, timeout=LONG, check=False)
        return (done.stdout + done.stderr).decode()

    def notes(self):
        """The files that the program got, in order: the number and the sum of each."""
        path = self.room / "notes"
        lines = path.read_text(encoding="utf-8").splitlines() if path.exists() else []
        return [(int(no), found) for no, found in map(str.split, lines)]

    def right_notes(self, *numbers):
        """What the notes are where the program got these files, whole."""
        return [(no, sum_of(self.files[no - 1][2])) for no in numbers]

    def responses(self):
        """The response of each file that has one: its kind, its reason and its text."""
        return {entry["no"]: (entry["kind"], entry["reason"], entry["note"]) for entry in tables.read(self.database)["issued"]}

    def verdicts(self):
        """The numbers of the files of which the program's verdict is kept."""
        folder = self.folder / "verdicts"
        return {int(path.name[:7]) for path in folder.iterdir() if path.name[0] != "."} if folder.exists() else set()
