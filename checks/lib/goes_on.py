"""What a partner does after a session that broke, and what the station has to answer by the model of a station (checks/lib/model.py)."""

import copy
import subprocess
import tomllib

import acts
import model
import oftp
import tables
from program import PROGRAM
from row_files import in_subrecords

# The file that a partner offers, and the octets of it that a DATA carries.
NAMES = {"dataset": "ASN.0001", "date": "20240131", "time": "1015300001", "destination": "O0013SUPPLIER", "originator": "O0177CARMAKER"}
CARRIED = 125
GREATEST = 10**17 - 1
# How many octets of the partner the program reads at once, at most. All that they ask for is done before the first answer to them is sent.
PIECE = 4_096


class Wrong(Exception):
    """The output or what is left isn't as it should be."""


class Watched(model.Session):
    """A session of the model that notes the register before each frame is sent, with the number of octets that are out by then. Each change
    is made before the frame that answers it."""

    def __init__(self, *given):
        self.moments = []
        super().__init__(*given)

    def send(self, kind, **fields):
        self.moments.append((sum(map(len, self.out)), self.register.tables()))
        super().send(kind, **fields)


def book_of(path):
    """A partner book in the model's form."""
    read = tomllib.loads(path.read_text())
    station = {**read["station"], "restart": "Y" if read["station"]["restart"] else "N"}
    return {**station, "partners": {partner["code"]: partner for partner in read["partner"]}}


def register_of(found):
    """The register in these tables."""
    register = model.Register()
    for table in ("in_file", "out_file"):
        entries = [{**file, "rows": tables.bodies(found, table, file["no"])} for file in found[table]]
        setattr(register, table, entries)
    register.issued = [{**entry} for entry in found["issued"]]
    notes = {entry["no"]: entry for entry in found["received_note"]}
    register.received = [{"creator": "", "note": "", **entry, **notes.get(entry["no"], {})} for entry in found["received"]]
    return register


def session_of(act, register):
    """The model's session for one of a row."""
    return Watched(book_of(act.book), register, act.role[-1] if act.role else None)


def after_pieces(act, register):
    """What is out and in the tables once so many pieces of a session's input were heard. It is that before the first, after the first, and
    so on."""
    octets = act.joined("in")
    for heard in range(0, len(octets) + PIECE, PIECE):
        session = session_of(act, copy.deepcopy(register))
        model.play(session, octets[:heard])
        yield sum(map(len, session.out)), session.register.tables()


def compare(room, wanted):
    """The tables of the database are these."""
    found = tables.read(room / "database")
    for table in tables.TABLES:
        if found[table] != wanted[table]:
            raise Wrong(f"in {table} is left {str(found[table])[:200]}, and not {str(wanted[table])[:200]}")


def go_on(act, room, left, file):
    """The partner holds its session again over what is left. If it sent a file of these octets, it offers it again, and continues from the
    Restart position that the station answers. The file is then fetched whole."""
    register = register_of(left)
    octets = act.joined("in") if file is None else offer_again(act, room, register, file)
    hold(act, room, register, octets)
    compare(room, register.tables())
    if file is not None:
        fetch(room, file)


def hold(act, room, register, octets):
    """A session with these octets goes as in the model. It returns the frames that are out."""
    given, answer = room / "given", room / "answer"
    given.write_bytes(octets)
    session = session_of(act, register)
    line = model.play(session, octets)
    words = acts.words_of(act, room / "database", given, answer)
    done = subprocess.run(words, capture_output=True, check=False, timeout=60)
    if (done.stdout.decode(), done.stderr) != (line, b"") or answer.read_bytes() != b"".join(session.out):
        raise Wrong(f"the next session ends by {done.stdout!r}, {done.stderr!r} and not by {line!r}, or has other octets out")
    return session.out


def offer_again(act, room, register, file):
    """The octets of a session in which a file continues from the Restart position that the station answers to the greatest offer."""
    opening = oftp.frames_of(act.joined("in"))[0]
    out = hold(act, room, register, opening + offer(GREATEST))
    kind, fields = oftp.read(out[-1][4:])
    end = oftp.frame(oftp.spell("ESID", {"reason": "00"}))
    if (kind, fields.get("reason")) == ("SFNA", "13"):
        return opening + offer(0) + end
    if kind != "SFPA":
        raise Wrong(f"the file that is offered again is answered by {kind}")
    row = int(fields["count"])
    counts = oftp.frame(oftp.spell("EFID", {"records": "0", "units": str(len(file))}))
    return opening + offer(row) + b"".join(data_frames(file[row * model.BLOCK :])) + counts + end


def offer(row):
    return oftp.frame(oftp.spell("SFID", {**NAMES, "format": "U", "restart": str(row)}))


def data_frames(octets):
    pieces = [octets[at : at + CARRIED] for at in range(0, len(octets), CARRIED)] or [b""]
    for number, piece in enumerate(pieces, 1):
        payload = in_subrecords(piece, number == len(pieces)) or b"\x80"
        yield oftp.frame(oftp.spell("DATA", {"payload": payload}))


def fetch(room, file):
    """The file is there with these octets."""
    fetched = room / "fetched"
    words = [PROGRAM, "fetch", "--db", room / "database", "1", fetched]
    done = subprocess.run(words, capture_output=True, check=False, timeout=60)
    if done.stdout != b"done: fetch 1\n" or fetched.read_bytes() != file:
        raise Wrong(f"the file isn't fetched whole: {done.stdout!r}, {done.stderr!r}")
