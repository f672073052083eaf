"""Records of lives of a station, played again over new databases."""

import subprocess

import tables
from program import PROGRAM
from services import LONG, Wrong

# A number that no file has.
NOWHERE = "999999"


def book_with_all(path, books):
    """Writes a book: the last one of these texts, and behind it the passwords of all."""
    lines = [line for text in books for line in text.splitlines() if line.split("=")[0].strip() in ("expects", "sends")]
    path.write_text("\n".join([books[-1], *(f"# {line}" for line in lines), ""]))
    return path


def why_other(room, database, record, books):
    """Why the record of a life, played over a new database, doesn't give the tables of this one; None if it does. These are the texts of its books."""
    book = book_with_all(room / "book with all", books)
    for end in ("", "-wal"):
        (room / f"played again{end}").unlink(missing_ok=True)
    # A call that is refused: the record says behind it which register the life has left, also if that ended by a kill.
    asked = [PROGRAM, "release", "--db", database, "--book", book, "--record", record, NOWHERE]
    subprocess.run(asked, capture_output=True, timeout=LONG, check=False)
    words = [PROGRAM, "replay", "--record", record, "--db", room / "played again", "--book", book]
    done = subprocess.run(words, capture_output=True, timeout=LONG * 5, check=False)
    if done.returncode or not done.stdout.startswith(b"same: "):
        return f"its record is played with status {done.returncode}: {done.stdout + done.stderr!r}"
    if tables.read(room / "played again") != tables.read(database):
        return "its record, played again, gives other tables"
    return None


def expect_same(room, database, record, books):
    why = why_other(room, database, record, books)
    if why:
        raise Wrong(why)
