"""The events that a station writes: how a line is read, and which events the model's changes are.

The model (checks/lib/model.py) makes the changes of a session. Here is told which event each of them is, in the order in which they are
made, and what the line of each has. This was written from the table of events, independently of the station's code.
"""

import contextlib
import json
import os
import re
import tomllib

import model
import oftp
from partner import Partner
from reasons import words_of as reasons_of

KEYS = (
    "at event session partner way peer no dataset date time originator destination format rows units kind reason words text sent received "
    "octets_in octets_out seconds uid end"
).split()
# What depends on the moment, or on the connection.
OF_PLACE = {"at", "peer", "octets_in", "octets_out", "seconds"}
AT = re.compile(r"\d{4}-\d\d-\d\dT\d\d:\d\d:\d\d\.\d{6}Z")
IDENTITY = ["dataset", "date", "time", "originator", "destination"]
# The reasons in words: EFNA has those of SFNA, too.
START, NEGATIVE, SESSION = (reasons_of(f"{kind}_phrase") for kind in ("start", "negative", "session"))
# What may happen to a file or a response, to a session and to a caller.
EVENTS = {
    *("submitted", "started to come", "came", "broken off", "given up", "sent", "handed over", "refused", "reopened", "released", "refused here"),
    *("response sent", "response received", "refused file", "refused end", "session begun", "session ended", "not let in"),
}
MEASURED = ("submitted", "came", "sent", "handed over")


def event_in(line):
    """The event in a line, which is whole and has its keys in their order."""
    if not line.endswith(b"\n"):
        raise ValueError(f"a line isn't whole: {line!r}")
    event = json.loads(line)
    order = [KEYS.index(key) for key in event]
    spelled = json.dumps(event, separators=(",", ":"), ensure_ascii=False) + "\n"
    if order != sorted(order) or not AT.fullmatch(event["at"]) or spelled.encode() != line:
        raise ValueError(f"a line has another form: {line!r}")
    return event


def book_in(path):
    """A book in the model's form."""
    read = tomllib.loads(path.read_text())
    station = read["station"]
    partners = {one["code"]: {key: one[key] for key in ("expects", "sends", "mode")} for one in read.get("partner", [])}
    own = {"code": station["code"], "buffer": station["buffer"], "credit": station["credit"]}
    return {**own, "restart": "Y" if station["restart"] else "N", "partners": partners}


class Told(model.Session):
    """A session of the model that notes the events of its changes."""

    def __init__(self, book, register, note):
        self.note = note
        self.on_its_way = None
        # Each command of the partner, and how many octets the station has said before it.
        self.steps = []
        super().__init__(book, register)

    def take(self, octets):
        self.steps.append((oftp.frame(octets), sum(map(len, self.out))))
        # A station that is offered a file within another one tells no more of that one.
        with contextlib.suppress(model.Fault):
            if model.read(octets)[0] == "SFID":
                self.on_its_way = None
        super().take(octets)

    def be_offered(self, fields):
        at = len(self.out)
        super().be_offered(fields)
        kind, said = model.read(self.out[at][4:])
        identity = model.identity_of(fields)
        if kind == "SFNA":
            self.note("refused file", "in", identity, reason=said["reason"], words=START.get(said["reason"]))
            return
        self.on_its_way = ("in", identity)
        self.note("started to come", "in", self.taker.file, rows=said["count"], format=self.taker.file["format"])

    def end_file(self, fields):
        file, at = self.taker.file, len(self.out)
        super().end_file(fields)
        kind, said = model.read(self.out[at][4:])
        self.on_its_way = None
        if kind == "EFPA":
            self.note("came", "in", file)
            return
        self.note("given up", "in", file, rows=0)
        self.note("refused end", "in", file, reason=said["reason"], words=START.get(said["reason"]))

    def take_response(self, fields, kind):
        before = len(self.register.received)
        super().take_response(fields, kind)
        if len(self.register.received) == before:
            return
        response = self.register.received[-1]
        file = self.register.find("out_file", **{name: response[name] for name in IDENTITY})
        self.note("response received", "out", file or {name: response[name] for name in IDENTITY}, **words_of(response))

    def response_taken(self, fields):
        super().response_taken(fields)
        self.note("response sent", "in", self.register.find("in_file", no=self.issued["no"]), **words_of(self.issued))

    def file_taken(self, fields):
        was_closing = self.file["state"] == "closing"
        # Whatever the count is: one that wasn't offered ends the session within the file.
        self.on_its_way = ("out", self.file)
        super().file_taken(fields)
        if was_closing:
            self.note("reopened", "out", self.file)

    def file_refused(self, fields):
        before = self.file["state"]
        super().file_refused(fields)
        if self.file["state"] == "handed" and before != "handed":
            self.note("handed over", "out", self.file)
        elif self.file["state"] == "refused":
            self.note("refused", "out", self.file, reason=fields["reason"], words=START.get(fields["reason"]))

    def send_next(self):
        before = self.file["state"]
        super().send_next()
        if before != "closing" and self.file["state"] == "closing":
            self.note("sent", "out", self.file)

    def end_taken(self, fields):
        super().end_taken(fields)
        self.on_its_way = None
        self.note("handed over", "out", self.file)

    def end_refused(self, fields):
        super().end_refused(fields)
        self.on_its_way = None
        self.note("reopened", "out", self.file)


# The step tables name the methods of the model's own session.
STEPS = {step: (lambda session, fields, name=do.__name__: getattr(session, name)(fields)) if do.__name__ != "<lambda>" else do for step, do in model.STEPS.items()}
TURNS = {phase: (lambda session, name=do.__name__: getattr(session, name)()) for phase, do in model.TURNS.items()}
model.STEPS, model.TURNS = STEPS, TURNS


def words_of(response):
    """What is told of a response."""
    if response["kind"] == "EERP":
        return {"kind": "EERP"}
    words = {"kind": "NERP", "reason": response["reason"], "words": NEGATIVE.get(response["reason"])}
    return {**words, **({"text": response["note"]} if response["note"] else {})}


class Life:
    """A station's life over the model: its events, from `started` on."""

    def __init__(self, path):
        self.book = book_in(path)
        self.register = model.Register()
        self.events = [{"event": "started"}]
        self.sessions = 0
        self.number = None
        self.counts = {"sent": 0, "received": 0}

    def note(self, event, way, file, **said):
        """Notes an event of a file: an entry of the register, or an identity."""
        way_of = {"in": file["originator"], "out": file["destination"]}
        found = {"event": event, "session": self.number, "partner": way_of[way], "way": way, "no": file.get("no")}
        found |= {name: file[name] for name in IDENTITY}
        # What of a file may change is told only by the event that says it.
        if "rows" in file and file["state"] != "open":
            found |= {"format": file["format"], "rows": len(file["rows"])}
            found["units"] = model.units(file["rows"]) if event in MEASURED else None
        found |= said
        # What is in no session a command has asked for over the socket, as this process.
        found["uid"] = os.geteuid() if self.number is None else None
        self.events.append({key: found[key] for key in KEYS if found.get(key) is not None})
        if event in ("came", "response received"):
            self.counts["received"] += 1
        elif event in ("handed over", "response sent"):
            self.counts["sent"] += 1

    def session(self, octets):
        """A partner calls and sends these octets."""
        self.counts = {"sent": 0, "received": 0}
        early = len(self.events)
        self.number = self.sessions + 1
        session = Told(self.book, self.register, self.note)
        hearing = model.Hearing(session)
        hearing.hear(octets)
        self.end(session, early, octets, hearing.ends())

    def talk(self, chance, code):
        """A partner calls and says what it draws. Returns its commands, each with how many octets the station has said before."""
        self.counts = {"sent": 0, "received": 0}
        early = len(self.events)
        self.number = self.sessions + 1
        session = Told(self.book, self.register, self.note)
        passwords = {of: partner["expects"] for of, partner in self.book["partners"].items()}
        spoken = Partner(chance, session, code, passwords).talk()
        for octets in spoken[len(session.steps) :]:
            session.take(octets)
        end = f"end: {' '.join(session.end or ['input'])}"
        self.end(session, early, b"".join(octets for octets, _ in session.steps), end)
        return session.steps

    def end(self, session, early, octets, end):
        """The session is over, whose events begin at this place and which ends by this line."""
        self.number = None
        if not hasattr(session, "partner"):
            self.not_let_in(octets, end)
            return
        self.sessions += 1
        who = {"session": self.sessions, "partner": session.partner, "way": "in"}
        self.events.insert(early, {"event": "session begun", **who})
        if session.on_its_way:
            way, file = session.on_its_way
            entry = self.register.find("in_file" if way == "in" else "out_file", **{name: file[name] for name in IDENTITY})
            self.number = self.sessions
            self.note("broken off", way, entry)
            self.number = None
        self.events.append({"event": "session ended", **who, **self.counts, "end": end})

    def not_let_in(self, octets, end):
        claimed = None
        try:
            command = model.next_command(octets, 0)
            kind, fields = model.read(command) if command else (None, None)
            claimed = fields["code"] if kind == "SSID" else None
        except model.Fault:
            pass
        found = {"event": "not let in", "partner": claimed, "way": "in"}
        if end.startswith("end: own"):
            reason = end[-2:]
            found |= {"reason": reason, "words": SESSION[reason]}
        found["end"] = end
        self.events.append({key: value for key, value in found.items() if value is not None})

    def submit(self, fields, content):
        try:
            number = model.submit(self.register, self.book, fields, content)
        except model.Refused:
            return
        self.note("submitted", "out", self.register.find("out_file", no=number))

    def issue(self, number, kind, reason="", note=""):
        try:
            model.issue(self.register, number, kind, reason, note)
        except model.Refused:
            return
        event = {"EERP": "released", "NERP": "refused here"}[kind]
        self.note(event, "in", self.register.find("in_file", no=number), **words_of(self.register.find("issued", no=number)))

