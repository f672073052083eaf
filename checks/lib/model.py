"""A model of a station by its step tables and RFC 5024. It is what a session sends and leaves, and what an operator's commands print and
leave.

It was written independently of the station's code, for checks that compare the two. Its entries have the columns of the tables, and also
the records and blocks of a file.
"""

import oftp
import tables

BLOCK = 1024
MOST_OCTETS = 67_108_864
MOST_ROWS = 1_000_000
LONGEST = 16_384
STREAM = range(5, 100_004)
IDENTITY = ["dataset", "date", "time", "originator", "destination"]
NAME = set("0123456789ABCDEFGHIJKLMNOPQRSTUVWXYZ/-.&()")
DIGITS = set("0123456789")
LETTERS = {"mode": "SRB", "format": "FVUT"}


class Fault(Exception):
    """The station answers with an ESID of this reason."""

    def __init__(self, reason):
        super().__init__(reason)
        self.reason = reason


class Refused(Exception):
    """A refusal of an operator's command, as its line has it."""


# -- decoding commands


def next_command(octets, at):
    """The octets of the command at this place of a stream, or None if it isn't whole (RFC 5024, section 8)."""
    header = octets[at : at + 4]
    if header[:1] not in (b"", b"\x10") or (len(header) == 4 and int.from_bytes(header[1:], "big") not in STREAM):
        raise Fault("02")
    end = at + int.from_bytes(header[1:], "big")
    return octets[at + 4 : end] if len(header) == 4 and end <= len(octets) else None


def read(octets):
    """A command's kind and fields, numbers as integers. It is read from left to right, and raises the first fault."""
    kind = oftp.KIND_OF.get(octets[:1].decode("latin-1"))
    if kind is None:
        raise Fault("01")
    if kind == "DATA":
        return kind, {"payload": octets[1:]}
    fields = {}
    at = 0
    for name, form, size in oftp.KINDS[kind]:
        part = taken(octets, at, size)
        at += size
        value = value_of(kind, name, form, part)
        if form == "text":
            part = taken(octets, at, value)
            at += value
            try:
                value = part.decode()
            except UnicodeDecodeError:
                raise Fault("06") from None
        fields[name] = value
        if name == "longest" and fields["format"] in "UT" and value != 0:
            raise Fault("06")
    if at != len(octets):
        raise Fault("07")
    return kind, fields


def taken(octets, at, size):
    if len(octets) - at < size:
        raise Fault("07")
    return octets[at : at + size]


def value_of(kind, name, form, part):
    """The value in a field's octets."""
    text = part.decode("latin-1")
    is_right = {
        "const": text == name,
        "name": set(text.rstrip(" ")) <= NAME,
        "number": set(text) <= DIGITS,
        "digits": set(text) <= DIGITS,
        "text": set(text) <= DIGITS,
        "letter": text in LETTERS.get(name, "YN"),
        "nothing": part == b"\0\0",
        "return": text in "\r\x8d",
        "reserved": True,
    }
    if not is_right[form]:
        raise Fault("06")
    return int(text) if form in ("number", "text") else text.rstrip(" ")


# -- the register


class Register:
    """The data of a station: incoming and outgoing files, the responses that it issued and those that it received."""

    def __init__(self):
        self.in_file = []
        self.out_file = []
        self.issued = []
        self.received = []

    def find(self, table, **columns):
        """The first entry with these columns, or None."""
        entries = getattr(self, table)
        return next((entry for entry in entries if all(entry[name] == value for name, value in columns.items())), None)

    def add(self, table, **columns):
        entries = getattr(self, table)
        entries.append({"no": len(entries) + 1, **columns})
        return entries[-1]

    def file_response(self, kind, identity, **said):
        """A new response is stored, and sets the state of the file that it answers."""
        if self.find("received", kind=kind, **identity):
            return
        self.add("received", kind=kind, **identity, **said)
        file = self.find("out_file", **identity)
        if file and file["state"] in ("closing", "handed"):
            file["state"] = {"EERP": "delivered", "NERP": "returned"}[kind]

    def copied(self):
        """Another one with the same entries."""
        copy = Register()
        for table, entries in vars(self).items():
            setattr(copy, table, [{**entry, "rows": [*entry["rows"]]} if "rows" in entry else {**entry} for entry in entries])
        return copy

    def tables(self):
        """The rows of the tables for it."""
        files = ("in_file", "out_file")
        found = {table: [without(entry, "rows") for entry in getattr(self, table)] for table in files}
        found["issued"] = sorted(({**entry} for entry in self.issued), key=lambda entry: entry["no"])
        found["received"] = [without(entry, "creator", "note") for entry in self.received]
        noted = [entry for entry in self.received if entry["kind"] == "NERP"]
        found["received_note"] = [{name: entry[name] for name in ("no", "creator", "note")} for entry in noted]
        for table in files:
            rows = [(file["no"], pos, body) for file in getattr(self, table) for pos, body in enumerate(file["rows"])]
            found[tables.ROWS_OF[table]] = [{"no": no, "pos": pos, "body": body} for no, pos, body in rows]
        return found


def register_of(found):
    """The register in these tables."""
    register = Register()
    register.in_file, register.out_file = ([{**file, "rows": tables.bodies(found, table, file["no"])} for file in found[table]] for table in ("in_file", "out_file"))
    register.issued = [{**row} for row in found["issued"]]
    notes = {row["no"]: row for row in found["received_note"]}
    register.received = [{"creator": "", "note": "", **row, **notes.get(row["no"], {})} for row in found["received"]]
    return register


def without(entry, *names):
    return {name: value for name, value in entry.items() if name not in names}


def units(rows):
    return sum(map(len, rows))


def identity_of(fields):
    return {name: fields[name] for name in IDENTITY}


# -- a book


def text_of(book, address="127.0.0.1:1"):
    """A book in the program's form, with this address for each partner."""
    word = "true" if book["restart"] == "Y" else "false"
    station = f"[station]\ncode = '{book['code']}'\nbuffer = {book['buffer']}\ncredit = {book['credit']}\nrestart = {word}\n"
    lines = [station]
    for code, partner in book["partners"].items():
        words = "".join(f"{name} = '{value}'\n" for name, value in {"code": code, **partner, "address": address}.items())
        lines.append(f"\n[[partner]]\n{words}")
    return "".join(lines)


# -- the content of files


def rows_of(form, longest, content):
    """The rows of a file in its local form, or None if the content isn't one."""
    if form == "V":
        return records_of(longest, content)
    size = longest if form == "F" else BLOCK
    if form == "F" and len(content) % size:
        return None
    return [content[at : at + size] for at in range(0, len(content), size)]


def records_of(longest, content):
    rows = []
    at = 0
    while at < len(content):
        size = content[at : at + 5]
        if len(size) < 5 or not size.isdigit() or int(size) > min(longest, len(content) - at - 5):
            return None
        at += 5 + int(size)
        rows.append(content[at - int(size) : at])
    return rows


def local_form(file):
    """The octets that `fetch` writes."""
    return b"".join((f"{len(row):05}".encode() if file["format"] == "V" else b"") + row for row in file["rows"])


def payloads(file, begin, room):
    """The payloads of a file from a row on, each as full as possible (RFC 5024, section 7). With each goes the number of rows that are
    wholly sent after it."""
    is_stream = file["format"] in "UT"
    records = [b"".join(file["rows"][begin:])] if is_stream else file["rows"][begin:]
    made = []
    payload = b""
    rows = begin
    for record in records:
        left = len(record)
        while left is not None:
            if room - len(payload) < min(left, 1) + 1:
                made.append((payload, rows))
                payload = b""
            size = min(63, left, room - len(payload) - 1)
            payload += bytes([size | (0x80 if size == left else 0)]) + record[len(record) - left :][:size]
            left = None if size == left else left - size
            if is_stream:
                rows = begin + (len(record) - (left or 0)) // BLOCK
        rows += not is_stream
    return made + [(payload, rows)] if payload else made


class Taker:
    """The parts of a file that is received."""

    def __init__(self, file):
        self.file = file
        self.rows = []
        self.tail = b""
        self.is_open = False
        self.is_over = False

    def take(self, payload):
        at = 0
        while at < len(payload):
            flags, size = payload[at] & 0xC0, payload[at] & 0x3F
            part = payload[at + 1 : at + 1 + size]
            if self.is_over or flags & 0x40:
                raise Fault("02")
            if len(part) < size or self.units() + size > MOST_OCTETS:
                raise Fault("06")
            self.take_part(part, bool(flags & 0x80))
            at += 1 + size

    def take_part(self, part, is_last):
        self.tail += part
        self.is_open = not is_last
        if self.file["format"] in "UT":
            self.is_over = is_last
            while len(self.tail) >= BLOCK:
                self.rows.append(self.tail[:BLOCK])
                self.tail = self.tail[BLOCK:]
        elif len(self.tail) > self.file["longest"] or (is_last and self.file["format"] == "F" and len(self.tail) != self.file["longest"]):
            raise Fault("06")
        elif is_last:
            self.rows.append(self.tail)
            self.tail = b""
        if len(self.file["rows"]) + len(self.rows) > MOST_ROWS:
            raise Fault("06")

    def units(self):
        return units(self.file["rows"]) + units(self.rows) + len(self.tail)

    def records(self):
        return 0 if self.file["format"] in "UT" else len(self.file["rows"]) + len(self.rows)

    def keep(self):
        """The complete rows are stored."""
        self.file["rows"] += self.rows
        self.rows = []

    def close(self):
        self.keep()
        self.file["rows"] += [self.tail] if self.tail else []
        self.file["state"] = "whole"


# -- sessions


class Session:
    """A session over a register: the frames that are sent, and how it ends. `called` is the partner that the station calls."""

    def __init__(self, book, register, called=None):
        self.book = book
        self.register = register
        self.called = called
        self.phase = "calls" if called else "greets"
        self.out = []
        self.end = None
        # The greatest numbers of a response and of a file that were tried.
        self.tried = {"issued": 0, "out_file": 0}
        self.make_turns()

    def send(self, kind, **fields):
        texts = {name: value if isinstance(value, (str, bytes)) else str(value) for name, value in fields.items()}
        self.out.append(oftp.frame(oftp.spell(kind, texts)))

    def end_by(self, reason):
        self.send("ESID", reason=reason)
        self.end = ("own", reason)

    def take(self, octets):
        """A received command is answered, and then the turns that are due are made."""
        try:
            kind, fields = read(octets)
            if kind == "ESID":
                self.end = ("partner", fields["reason"])
                return
            if (self.phase, kind) not in STEPS:
                raise Fault("02")
            STEPS[self.phase, kind](self, fields)
        except Fault as fault:
            self.end_by(fault.reason)
        self.make_turns()

    def make_turns(self):
        while self.end is None and self.phase in TURNS and not (self.phase == "sends" and self.credit == 0):
            TURNS[self.phase](self)

    # the opening

    def greet(self):
        self.send("SSRM")
        self.phase = "awaits SSID"

    def begin(self, _fields):
        partner = self.book["partners"][self.called]
        own = {name: self.book[name] for name in ("buffer", "credit", "restart")}
        self.send("SSID", code=self.book["code"], password=partner["sends"], mode=partner["mode"], **own)
        self.phase = "awaits SSID"

    def open(self, fields):
        partner = self.judge_opening(fields)
        own, theirs = partner["mode"], fields["mode"]
        self.partner = fields["code"]
        self.buffer = min(self.book["buffer"], fields["buffer"])
        self.window = min(self.book["credit"], fields["credit"])
        self.restarts = self.book["restart"] == fields["restart"] == "Y"
        self.sends_files = own in "SB" and theirs in "RB"
        self.takes_files = own in "RB" and theirs in "SB"
        # Whether CD was received and nothing sent since, and whether the partner asked for it.
        self.is_given = False
        self.is_asked = False
        if self.called:
            self.phase = "speaks"
            return
        agreed = {"buffer": self.buffer, "credit": self.window, "restart": "Y" if self.restarts else "N"}
        mode = {"R": "S", "S": "R", "B": own}[theirs]
        self.send("SSID", code=self.book["code"], password=partner["sends"], mode=mode, **agreed)
        self.phase = "listens"

    def judge_opening(self, fields):
        """The partner, where the session opens."""
        partner = self.book["partners"].get(fields["code"])
        rows = [
            (fields["level"] != 5, "10"),
            (fields["buffer"] < 128 or fields["credit"] == 0, "06"),
            (fields["code"] != self.called if self.called else partner is None, "03"),
            (partner and fields["password"] != partner["expects"], "04"),
            (self.called and "Y" in (fields["compression"], fields["logic"]), "10"),
            (partner and partner["mode"] == fields["mode"] in ("S", "R"), "10"),
            (fields["authentication"] == "Y", "12"),
        ]
        for is_met, reason in rows:
            if is_met:
                raise Fault(reason)
        return partner

    # the listener

    def be_offered(self, fields):
        file = self.register.find("in_file", **identity_of(fields))
        refusal = self.refusal(file, fields)
        if refusal:
            self.send("SFNA", reason=refusal)
            return
        header = {name: fields[name] for name in ("format", "longest", "description")}
        is_same = self.restarts and file and all(file[name] == header[name] for name in ("format", "longest"))
        count = min(fields["restart"], len(file["rows"])) if is_same else 0
        file = file or self.register.add("in_file", **identity_of(fields), state="open", rows=[])
        file.update(header, rows=file["rows"][:count])
        self.send("SFPA", count=count)
        self.taker = Taker(file)
        self.credit = self.window
        self.phase = "receives"

    def refusal(self, file, fields):
        """The reason for which an offered file is refused, or None."""
        asked = [int(fields[name]) for name in ("security", "cipher", "compression", "enveloping")]
        rows = [
            (not self.takes_files, "14"),
            (any(asked) or fields["signed"] == "Y", "99"),
            (fields["dataset"] == "", "01"),
            (fields["destination"] != self.book["code"], "02"),
            (fields["originator"] != self.partner, "03"),
            (fields["format"] in "FV" and not 1 <= fields["longest"] <= LONGEST, "05"),
            (fields["size"] > MOST_OCTETS // 1024, "06"),
            (file and file["state"] == "whole", "13"),
        ]
        return next((reason for is_met, reason in rows if is_met), None)

    def take_data(self, fields):
        if 1 + len(fields["payload"]) > self.buffer:
            raise Fault("07")
        self.taker.take(fields["payload"])
        self.credit -= 1
        if self.credit == 0:
            self.taker.keep()
            self.send("CDT")
            self.credit = self.window

    def end_file(self, fields):
        if self.taker.is_open:
            raise Fault("02")
        self.phase = "listens"
        wrong = "10" if fields["records"] != self.taker.records() else "11" if fields["units"] != self.taker.units() else None
        if wrong:
            self.taker.file["rows"] = []
            self.send("EFNA", reason=wrong)
            return
        self.taker.close()
        self.send("EFPA", change="Y" if self.next_response() else "N")

    def take_response(self, fields, kind):
        """A response names the file's originator as its destination, and the file's destination as its originator."""
        if (fields["destination"], fields["originator"]) != (self.book["code"], self.partner):
            raise Fault("06")
        identity = identity_of({**fields, "originator": fields["destination"], "destination": fields["originator"]})
        said = {name: fields.get(old, "") for name, old in (("reason", "reason"), ("creator", "creator"), ("note", "text"))}
        self.register.file_response(kind, identity, **said)
        self.send("RTR")

    def take_direction(self, _fields):
        self.is_given = True
        self.phase = "speaks"

    # the speaker

    def next_response(self):
        """The first response that is due to this partner and wasn't tried."""
        for issued in sorted(self.register.issued, key=lambda entry: entry["no"]):
            file = self.register.find("in_file", no=issued["no"])
            if issued["no"] > self.tried["issued"] and not issued["sent"] and file["originator"] == self.partner:
                return issued, file
        return None

    def next_file(self):
        for file in self.register.out_file if self.sends_files else []:
            if file["no"] > self.tried["out_file"] and file["destination"] == self.partner and file["state"] in ("waiting", "closing"):
                return file
        return None

    def speak(self):
        response, file = self.next_response(), self.next_file()
        if self.is_asked or not (response or file):
            if self.is_given:
                self.end_by("00")
                return
            self.send("CD")
            self.is_asked = False
            self.phase = "listens"
            return
        self.is_given = False
        if response:
            self.offer_response(*response)
        else:
            self.offer_file(file)

    def offer_response(self, issued, file):
        self.tried["issued"] = issued["no"]
        self.issued = issued
        kind = issued["kind"]
        said = {"reason": issued["reason"], "text": issued["note"], "creator": self.book["code"]} if kind == "NERP" else {}
        names = {"destination": file["originator"], "originator": file["destination"]}
        self.send(kind, dataset=file["dataset"], date=file["date"], time=file["time"], **names, **({} if said else {"user": ""}), **said)
        self.phase = "awaits RTR"

    def response_taken(self, _fields):
        self.issued["sent"] = 1
        self.phase = "speaks"

    def offer_file(self, file):
        self.tried["out_file"] = file["no"]
        self.file = file
        self.offered = file["mark"] if self.restarts else 0
        size = (units(file["rows"]) + 1023) // 1024
        header = {name: file[name] for name in ("format", "longest", "description")}
        self.send("SFID", **identity_of(file), **header, size=size, original=size, restart=self.offered)
        self.phase = "offers"

    def file_taken(self, fields):
        if fields["count"] > self.offered:
            raise Fault("02")
        if self.file["state"] == "closing":
            self.file.update(state="waiting", mark=0)
        self.left = payloads(self.file, fields["count"], self.buffer - 1)
        self.sent = fields["count"]
        self.credit = self.window
        self.phase = "sends"

    def file_refused(self, fields):
        if fields["reason"] == "13" and self.file["state"] == "closing":
            self.file["state"] = "handed"
        elif fields["retry"] == "N":
            self.file.update(state="refused", reason=fields["reason"])
        self.phase = "speaks"

    def send_next(self):
        if self.left:
            payload, self.sent = self.left.pop(0)
            self.send("DATA", payload=payload)
            self.credit -= 1
            return
        self.file["state"] = "closing"
        records = 0 if self.file["format"] in "UT" else len(self.file["rows"])
        self.send("EFID", records=records, units=units(self.file["rows"]))
        self.phase = "awaits EFPA"

    def take_credit(self, _fields):
        self.file["mark"] = self.sent
        self.credit = self.window

    def end_taken(self, fields):
        self.file["state"] = "handed"
        self.is_asked = fields["change"] == "Y"
        self.phase = "speaks"

    def end_refused(self, _fields):
        self.file.update(state="waiting", mark=0)
        self.phase = "speaks"


# The step tables: the commands that are allowed in each phase, and the phases in which the station has a turn. Anything else is ESID 02.
STEPS = {
    ("calls", "SSRM"): Session.begin,
    ("awaits SSID", "SSID"): Session.open,
    ("listens", "SFID"): Session.be_offered,
    ("listens", "EERP"): lambda session, fields: session.take_response(fields, "EERP"),
    ("listens", "NERP"): lambda session, fields: session.take_response(fields, "NERP"),
    ("listens", "CD"): Session.take_direction,
    ("receives", "DATA"): Session.take_data,
    ("receives", "EFID"): Session.end_file,
    ("awaits RTR", "RTR"): Session.response_taken,
    ("offers", "SFPA"): Session.file_taken,
    ("offers", "SFNA"): Session.file_refused,
    ("sends", "CDT"): Session.take_credit,
    ("awaits EFPA", "EFPA"): Session.end_taken,
    ("awaits EFPA", "EFNA"): Session.end_refused,
}
TURNS = {"greets": Session.greet, "speaks": Session.speak, "sends": Session.send_next}


class Hearing:
    """A session that hears the octets of its partner in pieces, and takes each command once it is whole."""

    def __init__(self, session):
        self.session = session
        self.octets = b""
        self.at = 0

    def hear(self, octets):
        self.octets += octets
        while self.session.end is None:
            try:
                command = next_command(self.octets, self.at)
            except Fault as fault:
                self.session.end_by(fault.reason)
                return
            if command is None:
                return
            self.at += 4 + len(command)
            self.take(command)

    def take(self, command):
        self.session.take(command)

    def ends(self):
        """How it has ended if there are no more octets."""
        return f"end: {' '.join(self.session.end or ['input'])}"


def play(session, octets):
    """A session over all octets of a stream. It returns the line for its end."""
    hearing = Hearing(session)
    hearing.hear(octets)
    return f"{hearing.ends()}\n"


# -- an operator's commands


def submit(register, book, fields, content):
    form, longest = fields["format"], fields["longest"]
    identity = {**{name: fields[name] for name in ("dataset", "date", "time")}, "originator": book["code"], "destination": fields["to"]}
    is_named = 1 <= len(fields["dataset"]) <= 26 and set(fields["dataset"]) <= NAME
    is_dated = all(len(fields[name]) == size and set(fields[name]) <= DIGITS for name, size in (("date", 8), ("time", 10)))
    is_long = 1 <= longest <= LONGEST if form in "FV" else longest == 0
    rows = rows_of(form, longest, content) if is_long else None
    if not (is_named and is_dated and len(fields["description"].encode()) <= 999) or rows is None:
        raise Refused("5 field")
    if fields["to"] not in book["partners"]:
        raise Refused("2 unknown")
    if register.find("out_file", **identity):
        raise Refused("1 duplicate")
    if units(rows) > MOST_OCTETS or len(rows) > MOST_ROWS:
        raise Refused("4 limit")
    state = {"mark": 0, "state": "waiting", "reason": ""}
    header = {"format": form, "longest": longest, "description": fields["description"]}
    return register.add("out_file", **identity, **header, **state, rows=rows)["no"]


def issue(register, number, kind, reason="", note=""):
    """Release and refuse: the response to a received file."""
    if kind == "NERP" and (int(reason) > 99 or len(note.encode()) > 999):
        raise Refused("5 field")
    file = register.find("in_file", no=number)
    if file is None:
        raise Refused("2 unknown")
    if file["state"] != "whole" or register.find("issued", no=number):
        raise Refused("3 state")
    register.issued.append({"no": number, "kind": kind, "reason": reason, "note": note, "sent": 0})
    return number


def fetch(register, number):
    """The octets of a received file."""
    file = register.find("in_file", no=number)
    if file is None:
        raise Refused("2 unknown")
    if file["state"] != "whole":
        raise Refused("3 state")
    return local_form(file)
