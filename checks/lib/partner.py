"""A partner that sends random commands: what the tables allow, with mistakes of every kind, and octets that are changed here and there.

It follows a model of the station that it talks to (checks/lib/model.py), so its commands fit what the station holds, except for its mistakes.
"""

import model
import oftp

# The name of a station that a changed field may have.
STATION = "O0013SUPPLIER"
RECORDS = [1, 2, 3, 3, 10, 62, 63, 64, 65, 127, 128, 300, 2000, 16384]
# How often a session breaks in a phase.
BREAKS = {"receives": 0.08, "sends": 0.1, "awaits EFPA": 0.3, "awaits RTR": 0.1, "offers": 0.05}
TEXTS = ["", "", "", "OK", "NO PLANT", "ü€\U0001f600", "a" * 999, "€" * 333, "\n\x1b[2J\x7f", "'; DROP TABLE in_file; --"]


# -- what a partner sends


class Partner:
    """The other side of a session. It follows the model of the station, except for its mistakes."""

    def __init__(self, chance, session, code, passwords):
        self.chance = chance
        self.session = session
        self.code = code
        self.passwords = passwords
        self.station = session.book["code"]
        self.mistakes = chance.choice([0, 0, 0, 0.02, 0.1])
        self.patience = chance.choice([3, 10, 30, 80])
        self.left = 0

    def talk(self):
        """The commands that it sends."""
        spoken = []
        while self.session.end is None and len(spoken) < self.patience and not self.breaks():
            command = self.mistake() if self.chance.random() < self.mistakes else self.next_command()
            spoken.append(command)
            self.session.take(command)
        if self.session.end is None and self.chance.random() < 0.8:
            spoken.append(self.spell("ESID", reason=self.chance.choice(["00", "00", "08", "99"]), text=self.chance.choice(TEXTS)))
        return spoken

    def breaks(self):
        """A transfer breaks more often once a part of the file is stored, or covered by credit."""
        session = self.session
        is_kept = session.phase == "receives" and session.taker.file["rows"] or session.phase == "sends" and session.file["mark"]
        return self.chance.random() < BREAKS.get(session.phase, 0) * (4 if is_kept else 1)

    def spell(self, kind, **fields):
        return oftp.spell(kind, {name: value if isinstance(value, (str, bytes)) else str(value) for name, value in fields.items()})

    def next_command(self):
        kinds = [kind for phase, kind in model.STEPS if phase == self.session.phase]
        if self.session.phase == "listens":
            kinds = ["SFID"] * 5 + ["EERP"] * 2 + ["NERP"] * 2 + ["CD"] * 3 + ["ESID"]
        elif self.session.phase == "receives":
            kinds = ["DATA" if self.left > 0 or self.session.taker.is_open else "EFID"]
        return self.command(self.chance.choice(kinds))

    def command(self, kind):
        return getattr(self, kind.lower(), lambda: self.spell(kind))()

    def any_command(self):
        kind = self.chance.choice([*oftp.KINDS, "?"])
        if kind == "?":
            return self.chance.randbytes(self.chance.choice([1, 2, 3, 18, 19, 110, 165, 200]))
        if kind in ("DATA", "EFID") and self.session.phase != "receives":
            return self.spell(kind, payload=b"\x80") if kind == "DATA" else self.spell(kind, records=0, units=0)
        return self.command(kind)

    def mistake(self):
        command = self.chance.choice([self.any_command, self.next_command])()
        return command if self.chance.random() < 0.4 else change_field(self.chance, command)

    # a command of each kind that has fields

    def ssid(self):
        chance = self.chance
        agreed = chance.random() < 0.9
        other = {} if agreed else {name: chance.choice("NY") for name in ("compression", "logic", "authentication")}
        return self.spell(
            "SSID",
            code=self.code,
            password=self.passwords[self.code] if chance.random() < 0.97 else chance.choice(["", "carpw".upper(), "X" * 8]),
            buffer=chance.choice([128, 129, 190, 193, 500, 2048, 2048, 16384, 99999]),
            credit=chance.choice([1, 1, 1, 1, 2, 2, 3, 5, 99, 999]),
            mode="B" if chance.random() < 0.9 else chance.choice("SR"),
            restart=chance.choice("YYYYN"),
            level=5 if agreed else chance.choice([4, 5, 9]),
            **other,
        )

    def names(self):
        chance = self.chance
        stamp = chance.choice([("20240131", "1015300001"), ("00000000", "9999999999")])
        dataset = chance.choice([f"ASN.{chance.randrange(30)}"] * 5 + ["A" * 26, "Z/-.&()"]) if chance.random() < 0.97 else ""
        return {"dataset": dataset, "date": stamp[0], "time": stamp[1]}

    def originator(self):
        """Whose file it says that its file is."""
        return self.code if self.chance.random() < 0.98 else self.chance.choice(["", *self.passwords])

    def sfid(self):
        chance = self.chance
        known = [file for file in self.session.register.in_file if file["originator"] == self.code]
        begun = [file for file in known if file["state"] == "open"]
        if known and chance.random() < (0.7 if begun else 0.2):
            file = chance.choice([file for file in begun if file["rows"]] or begun or known)
        else:
            file = {**self.names(), "format": chance.choice("FVUT"), "longest": chance.choice(RECORDS), "rows": []}
            file["longest"] *= file["format"] in "FV" or chance.random() < 0.03
        if chance.random() < (0.3 if file["rows"] else 0.1):
            other = [file["format"]] * 2 + ["F", "V"]
            file = {**file, "format": chance.choice(other), "longest": chance.choice([0, 1, 3, 64, 300, 16384, 16385, 99999])}
            file["longest"] *= file["format"] in "FV"
        kept = len(file["rows"])
        names = {name: file[name] for name in ("dataset", "date", "time", "format", "longest")}
        self.left = chance.choice([0, 1, 2, 3, 8, 20, 20])
        asked = {"size": chance.choice([65536, 65537])} if chance.random() < 0.03 else {}
        if chance.random() < 0.03:
            asked[chance.choice(["security", "cipher"])] = "01"
        return self.spell(
            "SFID",
            **names,
            destination=self.station if chance.random() < 0.98 else self.code,
            originator=self.originator(),
            restart=chance.choice([0, kept, kept, kept + 1, max(kept - 1, 0), 99999999999999999]),
            description=chance.choice(TEXTS),
            **asked,
        )

    def response(self, kind, **said):
        chance = self.chance
        sent = [file for file in self.session.register.out_file if file["destination"] == self.code]
        file = chance.choice(sent) if sent and chance.random() < 0.8 else self.names()
        names = {name: file[name] for name in ("dataset", "date", "time")}
        destination = self.station if chance.random() < 0.98 else chance.choice(["", "O0013SUPPLIE", self.code])
        return self.spell(kind, **names, destination=destination, originator=self.code, **said)

    def eerp(self):
        return self.response("EERP", user=self.chance.choice(["", "USER", "&&&&&&&&"]))

    def nerp(self):
        creator = self.chance.choice(["", self.code, "X" * 25])
        return self.response("NERP", creator=creator, reason=self.chance.choice(["00", "09", "99"]), text=self.chance.choice(TEXTS))

    def data(self):
        """Subrecords that fit the file received so far, within the buffer."""
        chance = self.chance
        self.left -= 1
        form, longest = self.session.taker.file["format"], self.session.taker.file["longest"]
        size = len(self.session.taker.tail)
        most = chance.choice([1, 2, 65, 127] + [min(self.session.buffer, 3000) - 1] * 4)
        payload, is_last = b"", False
        while len(payload) < most and not is_last and chance.random() < 0.97:
            room = min(63, most - len(payload) - 1, longest - size if form in "FV" else 63)
            count = chance.choice([room, room, chance.randint(0, room), min(room, 1)])
            is_last = chance.random() < 0.5 or self.left <= 0
            if form in "UT":
                is_last = self.left <= 0 and len(payload) + 1 + count >= most
            elif form == "F":
                is_last = size + count == longest
            payload += bytes([count | (0x80 if is_last else 0)]) + chance.randbytes(count)
            size = 0 if is_last else size + count
            is_last = is_last and (form in "UT" or (self.left <= 0 and chance.random() < 0.5))
        if chance.random() < 0.02:
            payload = b"\x80" * chance.choice([self.session.buffer - 1, self.session.buffer])
        return self.spell("DATA", payload=payload)

    def efid(self):
        taker = self.session.taker
        records, octets = taker.records(), taker.units()
        if self.chance.random() < 0.15:
            records, octets = self.chance.choice([(records + 1, octets), (records, octets + 1), (0, octets), (10**17 - 1, 0)])
        return self.spell("EFID", records=records, units=octets)

    def sfpa(self):
        offered = self.session.offered if self.session.phase == "offers" else 0
        chance = self.chance
        return self.spell("SFPA", count=chance.choice([offered] * 10 + [0, chance.randint(0, offered), max(offered - 1, 0), offered + 1]))

    def sfna(self):
        chance = self.chance
        is_closing = self.session.phase == "offers" and self.session.file["state"] == "closing"
        if chance.random() < 0.6 and not is_closing:
            return self.sfpa()
        return self.spell("SFNA", reason=chance.choice(["13", "13", "02", "99"]), retry=chance.choice("YN"), text=chance.choice(TEXTS))

    def efpa(self):
        return self.spell("EFPA", change=self.chance.choice("NNNY"))

    def efna(self):
        if self.chance.random() < 0.5:
            return self.efpa()
        return self.spell("EFNA", reason=self.chance.choice(["10", "11", "99"]), text=self.chance.choice(TEXTS))

    def esid(self):
        return self.spell("ESID", reason=self.chance.choice(["00", "00", "01", "99"]), text=self.chance.choice(TEXTS))


# -- changes of its octets


def change_field(chance, command):
    """A command with one field at a boundary, of another form, or of another length."""
    kind = oftp.KIND_OF.get(command[:1].decode("latin-1"), "DATA")
    at = 0
    places = []
    for _, form, size in oftp.KINDS[kind]:
        if form == "payload":
            more = [b"", b"\x00", b"\x80", b"\x40", b"\xc1a", b"\x3f", b"\x81ab", chance.randbytes(99)]
            return command[:1] + chance.choice(more) + command[1:]
        places.append((form, at, at + size))
        at += size
        if form == "text" and command[at - size : at].isdigit():
            length = int(command[at - size : at])
            places += [("octets", at, at + length)] * 2
            at += length
    form, begin, end = chance.choice(places)
    old, size = command[begin:end], end - begin
    station = STATION.encode().ljust(size)[:size]
    new = {
        "const": [b"?" * size, old.lower()],
        "name": [b" " * size, b"A" * size, b" " * (size - 1) + b"A", old.lower(), old[:-1] + b"\xff", old[:-1] + b"\0", station],
        "letter": [letter.encode() for letter in "YNSRBFVUTyn 0"] + [b"\0", b"\xff"],
        "nothing": [b"\0\1", b"\1\0", b"\xff\xff", b"  "],
        "return": [b"\r", b"\x8d", b"\n", b" "],
        "reserved": [bytes(size), b"\xff" * size],
        "octets": [b"\xff" * size, b"\xc3" * size, (b"a" * size + b"\xed\xa0\x80")[-size:] if size else b"a", bytes(size)],
    }
    numbers = [b"0" * size, b"9" * size, b" " * size, old[:-1] + b"x", *(number.rjust(size, b"0") for number in (b"1", b"-1", b"+1"))]
    if old.isdigit():
        numbers += [str(max(int(old) + step, 0)).rjust(size, "0").encode()[-size:] for step in (-1, 1)]
    return command[:begin] + chance.choice(new.get(form, numbers)) + command[end:]


def change(chance, partner, frames):
    """Frames in which something is changed."""
    at = chance.randrange(len(frames))
    other = chance.randrange(len(frames))
    frame = frames[at]
    place = chance.randrange(len(frame))
    how = chance.choice(["field", "field", "field", "field", "insert", "remove", "double", "swap", "flip", "length", "truncate", "glue", "octets"])
    if how == "field":
        frames[at] = oftp.frame(change_field(chance, frame[4:]))
    elif how == "insert":
        frames.insert(at, oftp.frame(partner.any_command()))
    elif how == "remove":
        del frames[at]
    elif how == "double":
        frames.insert(at, frame)
    elif how == "swap":
        frames[at], frames[other] = frames[other], frame
    elif how == "flip":
        frames[at] = frame[:place] + bytes([frame[place] ^ 1 << chance.randrange(8)]) + frame[place + 1 :]
    elif how == "length":
        length = max(len(frame) + chance.choice([-1, 1, -4, 4, -len(frame), 100003 - len(frame), 100004 - len(frame), 1 << 16]), 0)
        frames[at] = chance.choice([b"\x10", b"\x10", b"\x10", b"\x11", b"\x20", b"\0"]) + length.to_bytes(3, "big") + frame[4:]
    elif how == "truncate":
        frames[at:] = [frame[: place + 1]]
    elif how == "glue":
        frames[at] = oftp.frame(frame[4:] + frames[other][4:])
    else:
        frames.insert(at, chance.randbytes(chance.randrange(1, 9)))
    return frames
