"""Lists for the page like those of `/in`, `/out` and `/responses`, made by hand, and what the page has to show for any lists. They may have
what `/status` and `/events` tell, too.

What it has to show is computed here independently of the page's script. It is at a moment (`now`, in UTC) and in a time zone of ZONES.
"""

import itertools
import json
import re
import unicodedata
from datetime import datetime, timedelta, timezone
from decimal import ROUND_HALF_UP, Decimal
from typing import Any, NamedTuple, Optional

US = "O0013SUPPLIER"
PARTNERS = ["O0177CARMAKER", "O0013VAN", "OGEARS", "O0942STEELWORKS.LINZ-WEST"]
FORMATS = "UTFV"
VIEWS = ["in", "out", "received", "issued"]
IDENTITY = ("dataset", "date", "time", "originator", "destination")
# Why a partner refuses a file (RFC 5024, section 5.3.5), and why a file is returned (section 5.3.14).
START_REASONS = {
    **{"01": "invalid filename", "02": "invalid destination", "03": "invalid origin", "04": "storage record format not supported"},
    **{"05": "maximum record length not supported", "06": "file size too big", "10": "invalid record count", "11": "invalid byte count"},
    **{"12": "access method failure", "13": "duplicate file", "14": "file direction refused", "15": "cipher suite not supported"},
    **{"16": "encrypted file not allowed", "17": "unencrypted file not allowed", "18": "compression not allowed"},
    **{"19": "signed file not allowed", "20": "unsigned file not allowed", "99": "unspecified"},
}
NEGATIVE_REASONS = {
    **{"03": "user code not known", "04": "invalid password", "09": "unspecified reason", "11": "invalid file name", "12": "invalid destination"},
    **{"13": "invalid origin", "14": "invalid storage record format", "15": "maximum record length not supported"},
    **{"16": "file size too big", "20": "invalid record count", "21": "invalid byte count", "22": "access method failure"},
    **{"23": "duplicate file", "24": "file direction refused", "25": "cipher suite not supported", "26": "encrypted file not allowed"},
    **{"27": "unencrypted file not allowed", "28": "compression not allowed", "29": "signed file not allowed"},
    **{"30": "unsigned file not allowed", "31": "file signature not valid", "32": "file decompression failed"},
    **{"33": "file decryption failed", "34": "file processing failed", "35": "not delivered to recipient"},
    **{"36": "not acknowledged by recipient", "50": "transmission stopped by the operator"},
    **{"90": "file size incompatible with recipient's protocol version", "99": "unspecified reason"},
}
SESSION_REASONS = {
    **{"00": "normal", "01": "command not recognised", "02": "protocol violation", "03": "user code not known", "04": "invalid password"},
    **{"05": "local site emergency close down", "06": "invalid data", "07": "buffer size error", "08": "resources not available"},
    **{"09": "time out", "10": "mode or capabilities incompatible", "11": "invalid challenge response"},
    **{"12": "secure authentication requirements incompatible", "99": "unspecified abort code"},
}
# The reasons of files, one after another, among them numbers that RFC 5024 doesn't list.
REFUSED_FOR = ["05", "12", "47", "13", "00", "99", "20", "01"]
RETURNED_FOR = ["31", "04", "77", "35", "09", "11"]


# ---- lists


def utc_now():
    """Now in UTC, as which the page reads the files' dates and times."""
    return datetime.now(timezone.utc).replace(tzinfo=None)


def stamp(moment, counter=1):
    return {"date": moment.strftime("%Y%m%d"), "time": f"{moment.strftime('%H%M%S')}{counter % 10_000:04}"}


def incoming(no, moment, state="whole", response="none", **more):
    return {
        **{"dataset": f"SCHEDULE.{no}", **stamp(moment, no), "description": "", "destination": US, "format": FORMATS[no % 4], "no": no},
        **{"originator": PARTNERS[no % 4], "response": response, "rows": no, "state": state, "units": no * 1700},
        **more,
    }


def outgoing(no, moment, state="waiting", mark=0, reason="", **more):
    return {
        **{"dataset": f"DISPATCH.{no}", **stamp(moment, no), "description": "", "destination": PARTNERS[no % 4], "format": FORMATS[no % 4]},
        **{"mark": mark, "no": no, "originator": US, "reason": reason, "rows": no + 1, "state": state, "units": no * 900 + 1},
        **more,
    }


def issued(no, kind="EERP", sent=True, reason=""):
    return {"kind": kind, "no": no, "reason": reason, "sent": sent}


def received(no, file, kind="EERP", reason="", creator="", note="", **more):
    """A received response to this outgoing file."""
    named = {key: file[key] for key in ("dataset", "date", "time")}
    return {
        **{"creator": creator, **named, "file": file["no"], "from": file["destination"], "kind": kind, "no": no, "note": note},
        **{"reason": reason, **more},
    }


class Lists:
    """The answers of a station: three lists, and where it tells them how it stands and its events."""

    def __init__(self, incoming=(), outgoing=(), issued=(), received=(), status=None, events=None):
        self.incoming, self.outgoing, self.issued, self.received = list(incoming), list(outgoing), list(issued), list(received)
        self.status, self.events = status, events
        # What stands in the file of the events besides whole lines.
        self.torn = "", ""

    def answer(self, path):
        """The text of the reply for a path, or None if there is no such target."""
        values = {"/in": self.incoming, "/out": self.outgoing, "/responses": {"issued": self.issued, "received": self.received}}
        if path == "/events" and self.events is not None:
            return self.torn[0] + "".join(f"{written(it)}\n" for it in self.events) + self.torn[1]
        values |= {"/status": self.status} if self.status is not None else {}
        return written(values[path]) if path in values else None

    @property
    def views(self):
        """The lists that the page shows."""
        told = {"sessions": self.events is not None, "partners": self.events is not None or self.status is not None}
        return [*VIEWS, *(view for view, is_told in told.items() if is_told)]

    def came(self, state="whole", kind="none", sent=None, reason="", age=timedelta(), now=None, **more):
        """One more incoming file of this age, with its response."""
        no = len(self.incoming) + 1
        self.incoming.append(incoming(no, (now or utc_now()) - age, state, kind, **more))
        if kind != "none":
            self.issued.append(issued(no, kind, sent, reason))

    def went(self, state="waiting", kind=None, age=timedelta(), now=None, mark=0, reason="", response=None, **more):
        """One more outgoing file of this age, and the response to it if its kind is given."""
        no = len(self.outgoing) + 1
        file = outgoing(no, (now or utc_now()) - age, state, mark, reason, **more)
        self.outgoing.append(file)
        if kind:
            self.received.append(received(len(self.received) + 1, file, kind, **(response or {})))
        return file


def written(value):
    return json.dumps(value, ensure_ascii=False, separators=(",", ":"))


def read_lists(answer):
    """The lists of a server, which is asked by a function of the path."""
    responses, status, events = (json.loads(answer("/responses")), answer("/status"), answer("/events"))
    lists = Lists(json.loads(answer("/in")), json.loads(answer("/out")), responses["issued"], responses["received"])
    lists.status = status and json.loads(status)
    lists.events = None if events is None else [json.loads(it) for it in events.splitlines()]
    return lists


# ---- what a station tells of itself


def event(moment, name, /, **more):
    return {"at": f"{moment:%Y-%m-%dT%H:%M:%S.%f}Z", "event": name, **{key: value for key, value in more.items() if value is not None}}


def of_file(moment, name, way, file, /, **more):
    """An event of a file."""
    partner = file["originator" if way == "in" else "destination"]
    return event(moment, name, partner=partner, way=way, no=file["no"], **{key: file[key] for key in IDENTITY}, **more)


def session(moment, partner, end, number=1, way="in", **more):
    """The event of a session's end."""
    usual = {"peer": "127.0.0.1:40112", "sent": 2, "received": 1, "octets_in": 1700, "octets_out": 61_000, "seconds": 3}
    return event(moment, "session ended", session=number, partner=partner, way=way, **{**usual, **more}, end=end)


def not_reached(moment, partner, words="refused"):
    return event(moment, "not reached", partner=partner, way="out", peer="127.0.0.1:3305", words=words)


def counter(kind, moment, **more):
    seconds = int(moment.replace(tzinfo=timezone.utc).timestamp())
    return {"kind": kind, **more, "count": 2, "first": seconds - 600, "last": seconds}


def status_of(now, counters=(), files=(), going=None, codes=tuple(PARTNERS), next_call=None):
    """What `/status` says of a station."""
    moment = int(now.replace(tzinfo=timezone.utc).timestamp())
    partners = [{"code": code, **({"next_call": moment + next_call} if next_call else {})} for code in codes]
    head = {"version": "9.8.7", "now": moment, "since": moment - 90_000, "database": "/var/lib/oftp/station.db", "octets": 40_960}
    told = going and {"partner": going, "way": "out", "dataset": "", "share": 0}
    return {**head, "session": told, "partners": partners, "counters": list(counters), "files": list(files)}


def with_events(lists, now):
    """The lists with events of their files, by which some are late that aren't by their stamps, and the other way round. They have sessions, and
    what the station tells of itself."""
    found = []
    for no, file in enumerate(lists.incoming):
        found += events_in(lists, file, now - (LATE if no % 3 else EARLY))
    for no, file in enumerate(lists.outgoing):
        found += events_out(lists, file, now - (LATE if no % 3 else EARLY))
    found += [session(now - EARLY, PARTNERS[0], "end: own 00"), session(now - LATE, PARTNERS[1], "end: partner 04", 2, "out")]
    found += [not_reached(now - LATE, PARTNERS[2], "timed out"), session(now - EARLY - LATE, PARTNERS[2], "end: input", 3)]
    found.append(event(now - EARLY, "not let in", partner=PARTNERS[1], way="in", reason="04", words="invalid password", end="end: own 04"))
    found.append(event(now - LATE - LATE, "started"))
    lists.events = sorted(found, key=lambda it: it["at"])
    counters = [counter("session", now - EARLY, partner=PARTNERS[0], way="in", end="own 00", words="own 00 normal"), counter("backup", now)]
    counters.append(counter("not let in", now, reason=4))
    files = [{"kind": "file", "partner": PARTNERS[1], "way": "out", "state": "waiting", "count": 12, "first": 1, "last": 2}]
    files += [{**files[0], "state": "handed", "count": 1}, {**files[0], "state": "delivered", "count": 99}]
    lists.status = status_of(now, counters, files, PARTNERS[3], [*PARTNERS, "ONEVER"], 700)
    return lists


def events_in(lists, file, moment):
    """The events of an incoming file whose last change was then."""
    response = next((it for it in lists.issued if it["no"] == file["no"]), None)
    found = [of_file(moment - timedelta(hours=2), "started to come", "in", file, format=file["format"])]
    if file["state"] == "open":
        return found + [of_file(moment, "broken off", "in", file)]
    found.append(of_file(moment - timedelta(hours=1), "came", "in", file, rows=file["rows"], units=file["units"]))
    if response:
        why = {"reason": response["reason"], "words": NEGATIVE_REASONS.get(response["reason"])} if response["kind"] == "NERP" else {}
        name = "released" if response["kind"] == "EERP" else "refused here"
        found.append(of_file(moment, name, "in", file, kind=response["kind"], **why))
        found += [of_file(moment, "response sent", "in", file, kind=response["kind"], **why)] if response["sent"] else []
    return found


def events_out(lists, file, moment):
    """The events of an outgoing file whose last change was then. Of some the first ones are gone."""
    found = [of_file(moment - timedelta(hours=3), "submitted", "out", file)] if file["no"] % 5 else []
    if file["state"] == "waiting":
        return found + ([of_file(moment, "broken off", "out", file)] if file["mark"] else [])
    if file["state"] == "refused":
        return found + [of_file(moment, "refused", "out", file, reason=file["reason"], words=START_REASONS.get(file["reason"]), text="Not now.")]
    found.append(of_file(moment - timedelta(hours=1), "sent", "out", file))
    found += [of_file(moment, "handed over", "out", file)] if file["state"] != "closing" else []
    for response in [it for it in lists.received if it["file"] == file["no"]]:
        why = {"reason": response["reason"], "words": NEGATIVE_REASONS.get(response["reason"]), "text": response["note"]}
        found.append(of_file(moment, "response received", "out", file, kind=response["kind"], **(why if response["kind"] == "NERP" else {})))
    return found


# The states that files of a full list are in by turns, each with an age at which it is in time or late.
EARLY = timedelta(hours=5, minutes=30)
LATE = timedelta(days=3, hours=12)
CAME = [
    *(("open", "none", None, EARLY), ("whole", "none", None, EARLY), ("whole", "none", None, LATE), ("open", "none", None, LATE)),
    *(("whole", "EERP", False, EARLY), ("whole", "EERP", True, LATE), ("whole", "NERP", False, LATE), ("whole", "NERP", True, EARLY)),
]
WENT = [
    *(("waiting", EARLY), ("waiting", LATE), ("partly", EARLY), ("partly", LATE), ("closing", timedelta(minutes=2)), ("closing", EARLY)),
    *(("handed", EARLY), ("handed", LATE), ("delivered", LATE), ("refused", EARLY), ("duplicate", LATE), ("returned", EARLY)),
    # The next two have the name of the one behind them.
    *(("refused", LATE), ("returned", LATE)),
]


def in_every_state(count, now):
    """This many files each way, in all states by turns; some have a description, of the greatest length or short."""
    lists = Lists()
    for no in range(1, count + 1):
        about = {"description": {1: "Delivery schedule, week 5", 2: "Straße, 部品, \U0001f697", 3: "drawing " * 120}.get(no % 7, "")}
        # As long as a name may be.
        about |= {"dataset": f"DELFOR-0177-WERK6-{no:08}"} if no % 7 == 4 else {}
        state, kind, sent, age = CAME[no % len(CAME)]
        reason = RETURNED_FOR[no % len(RETURNED_FOR)] if kind == "NERP" else ""
        lists.came(state, kind, sent, reason, age - timedelta(seconds=no % 600), now, **about)
        add_outgoing(lists, no, about, now)
    gone = outgoing(0, now - timedelta(days=30), dataset="INV.7", destination=PARTNERS[1])
    lists.received.append(received(len(lists.received) + 1, gone, "NERP", "09", creator=PARTNERS[0], note="NO PLANT"))
    return lists


def add_outgoing(lists, no, about, now):
    turn = no % len(WENT)
    state, age = WENT[turn]
    more = {**about, "age": age - timedelta(seconds=no % 60), "now": now}
    if turn in (0, 12, 13):
        more |= {"dataset": f"AGAIN.{(no + 2) // len(WENT)}", "destination": PARTNERS[1]}
    if state == "partly":
        lists.went("waiting", mark=no % 5 + 1, **{**more, "rows": no + 9})
    elif state == "delivered":
        lists.went(state, "EERP", **more)
    elif state == "returned":
        reason = RETURNED_FOR[no // 8 % len(RETURNED_FOR)]
        note = "Part number 4711 isn't ours" if no % 4 == 3 else "NO PLANT " * 110
        lists.went(state, "NERP", response={"reason": reason, "creator": PARTNERS[no % 3], "note": note}, **more)
    elif state in ("refused", "duplicate"):
        lists.went("refused", reason="13" if state == "duplicate" else REFUSED_FOR[no // 8 % len(REFUSED_FOR)], **more)
    else:
        lists.went(state, **more)


def of_a_day(now):
    """What a supplier may have on its page at one moment: few files, with names as they are used."""
    carmaker, press, tier2 = "O0177CARMAKER", "O0331PRESSWERK", "O0942TIER2"
    lists = Lists()

    def came(name, partner, about, units, hours, *how):
        at = {"age": timedelta(hours=hours, minutes=7), "now": now}
        lists.came(*how, **at, dataset=name, originator=partner, description=about, units=units, rows=units // 1024 + 1, format="U")

    def went(name, partner, about, units, hours, *how, **more):
        at = {"age": timedelta(hours=hours, minutes=3 * len(lists.outgoing) + 4), "now": now}
        lists.went(*how, **at, dataset=name, destination=partner, description=about, units=units, rows=units // 1024 + 1, format="U", **more)

    came("DELFOR.0871", carmaker, "Delivery schedule, week 48", 51_200, 3, "whole", "EERP", True)
    came("DELJIT.2204", carmaker, "Call-off, line 3", 18_417, 2)
    came("DELJIT.2205", carmaker, "Call-off, line 4", 19_038, 1)
    came("CAD.FLANGE", press, "Drawing 4711, revision C", 41_503_711, 0, "open")
    went("DESADV.004", carmaker, "Dispatch note 800474", 29_002, 30, "delivered", "EERP")
    went("DESADV.005", carmaker, "Dispatch note 800475", 27_114, 29, "delivered", "EERP")
    went("INVOIC.4712", carmaker, "Invoice 4712", 532, 5, "handed")
    went("ORDERS.1", tier2, "Call-off week 47", 29_370, 98, "handed")
    went("ORDERS.2", tier2, "Call-off week 48", 29_002, 4, "handed")
    went("DESADV.006", carmaker, "Dispatch note 800476", 18_142, 3, "refused", reason="03")
    went("DESADV.007", press, "Dispatch note 800477", 18_209, 2, "refused", reason="05")
    went("CAD.ASSEMBLY", carmaker, "Drawing 4712, revision A", 60_000_000, 1, mark=13_500)
    went("DESADV.007", press, "Dispatch note 800477", 18_209, 1, "handed")
    went("ORDERS.5", press, "", 6, 0, "closing")
    hour = timedelta(hours=1)
    lists.events = [it for file in lists.incoming for it in events_in(lists, file, min(now, moment_of(file) + hour))]
    lists.events += [it for file in lists.outgoing for it in events_out(lists, file, min(now, moment_of(file) + hour))]
    lists.events += [session(now - hour, carmaker, "end: partner 00"), session(now - 9 * hour, press, "end: own 00", 2, "out")]
    lists.events = sorted([*lists.events, session(now - 30 * hour, tier2, "end: partner 04", 3)], key=lambda it: it["at"])
    lists.status = status_of(now, going=press, codes=[carmaker, press, tier2])
    return lists


# Texts that a page would run, load or display differently if it took them for anything but text.
HOSTILE = [
    "<script>window.ran = 1</script>",
    "<img src=hostile onerror='window.ran = 1'>",
    '"><svg onload="window.ran = 1">',
    "' onmouseover='window.ran = 1' x='",
    "</bdi></td></tr></tbody></table><h1>Not this</h1>",
    "</script><script>window.ran = 1</script>",
    "<iframe srcdoc='<script>parent.ran = 1</script>'></iframe>",
    "<link rel=stylesheet href=hostile.css><base href='http://elsewhere.example/'>",
    "<style>* { display: none !important }</style>",
    "<meta http-equiv=refresh content='0; url=hostile'>",
    "javascript:window.ran = 1",
    "{{constructor.constructor('window.ran = 1')()}} ${window.ran = 1} &lt;b&gt; &#60;",
    "__proto__",
    "constructor",
    "toString",
    "\u202etxt.\u2066exe\u2069\u200f",
    "null \0 bell \x07 escape \x1b[31m delete \x7f next \x85",
    "line \n line \r\n line \u2028 line \u2029 tab \t end",
    "z" + "\u0300\u0489\u0336" * 166,
    "\u0645\u0631\u062d\u0628\u0627 \u05e9\u05dc\u05d5\u05dd 123",
    "W" * 999,
    "\U0001f697" * 249,
    "\n" * 999,
    "a b " * 249,
    "",
]


def hostile(now):
    """A file each way for each of these texts, in every field where a partner's text may be, and in some where it may not."""
    lists = Lists()
    for no, text in enumerate(HOSTILE, 1):
        moment = now - timedelta(days=1)
        lists.incoming.append(incoming(no, moment, dataset=text, description=text, originator=text, format=text[:40]))
        file = outgoing(no, moment, "returned", dataset=text, description=text, destination=text)
        lists.outgoing.append(file)
        lists.received.append(received(no, file, "NERP", "31", creator=text, note=text))
        lists.incoming[-1].update([{}, {"response": "NERP"}, {"state": text[:40], "date": text[:40], "time": text[:40]}][no % 3])
        lists.issued.append(issued(no, "NERP", False, text[:40]))
    lists.outgoing.append(outgoing(len(HOSTILE) + 1, moment, "refused", reason="constructor", description="<b>"))
    return lists


def hostile_events(now):
    """Such files with such texts in all that is told of them, of sessions and of partners."""
    lists = hostile(now)
    lists.events = []
    for no, text in enumerate(HOSTILE):
        at = now - timedelta(hours=3, minutes=no)
        texts = {"kind": text, "reason": text, "words": text, "text": text}
        lists.events += [of_file(at, "came", "in", lists.incoming[no], **texts), of_file(at, text or "sent", "out", lists.outgoing[no], **texts)]
        lists.events += [session(at, text, f"end: {text}", peer=text), not_reached(at - timedelta(hours=1), f"{text}{no}", text)]
        lists.events.append(event(at, "not let in", partner=text, peer=text, reason=text, words=text, end=text))
    counters = [counter("session", now, partner=text, way="in", end=text, words=text) for text in HOSTILE[:5]]
    lists.status = status_of(now, counters, [], HOSTILE[1], HOSTILE)
    return lists


# ---- zones


def last_sunday(year, month):
    """The last Sunday of a month of 31 days, at 01:00 UTC."""
    last = datetime(year, month, 31, 1)
    return last - timedelta(days=(last.weekday() + 1) % 7)


def in_berlin(moment):
    return 2 if last_sunday(moment.year, 3) <= moment < last_sunday(moment.year, 10) else 1


# How many hours the clock of a zone is ahead of UTC at a moment, which is given in UTC.
ZONES = {"UTC": lambda _moment: 0, "Europe/Berlin": in_berlin, "America/Mexico_City": lambda _moment: -6}


def zone_text(zone, moment):
    """How the page names a zone."""
    ahead = ZONES[zone](moment)
    return f"UTC{'+' if ahead > 0 else '−'}{abs(ahead)}" if ahead else "UTC"


# ---- what the page has to show


class Shown(NamedTuple):
    """A row of a list: the number, the partner, the file's name and description, its stamp and what that says. Then come its size in a few digits
    or the file that a response answers, and its exact size. Then come the words for the state, a few more, the row's style, and what to do if
    somebody must. If there are events, the last are when it changed last, and all its changes."""

    no: str
    partner: str
    name: str
    about: Optional[str]
    when: str
    stamp: str
    size: Optional[str]
    exact: Optional[str]
    words: str
    detail: Optional[str]
    look: str
    duty: Optional[str] = None
    changed: Optional[str] = None
    changes: Optional[str] = None


class Item(NamedTuple):
    """A row of a list, and what it is sorted, counted and filtered by."""

    shown: Shown
    view: str
    state: str
    file: Any
    partner: str
    age: Optional[timedelta] = None
    reason: str = ""
    response: Any = None
    changes: Any = ()
    facts: Any = None


TO_DO = ("act", "bad")
# The states of each list, in the order of the page: the words and the style.
STATES = {
    "in": {
        "open": ("Incomplete", "wait"),
        "open_late": ("Incomplete, late", "act"),
        "release": ("To be released", "act"),
        "release_late": ("To be released, late", "act"),
        "eerp_due": ("Released, EERP not yet sent", "wait"),
        "eerp_due_late": ("Released, EERP not sent, late", "act"),
        "eerp_sent": ("Released, EERP sent", "good"),
        "nerp_due": ("Refused here, NERP not yet sent", "wait"),
        "nerp_due_late": ("Refused here, NERP not sent, late", "act"),
        "nerp_sent": ("Refused here, NERP sent", "rest"),
    },
    "out": {
        "waiting": ("Waiting to be sent", "wait"),
        "waiting_late": ("Waiting to be sent, late", "act"),
        "partly": ("Partly sent", "wait"),
        "partly_late": ("Partly sent, late", "act"),
        "closing": ("Sent, not yet confirmed", "wait"),
        "closing_late": ("Sent, not confirmed, late", "act"),
        "handed": ("Handed over", "wait"),
        "handed_late": ("EERP overdue", "act"),
        "delivered": ("Delivered", "good"),
        "refused": ("Refused by the partner", "bad"),
        "duplicate": ("Refused as a duplicate", "act"),
        "refused_again": ("Refused, name used again", "rest"),
        "returned": ("Returned (NERP)", "bad"),
        "returned_again": ("Returned, name used again", "rest"),
    },
    "received": {"eerp": ("Delivered (EERP)", "good"), "nerp": ("Returned (NERP)", "rest")},
    "issued": {
        "eerp_due": ("EERP not yet sent", "wait"),
        "eerp_sent": ("EERP sent", "good"),
        "nerp_due": ("NERP not yet sent", "wait"),
        "nerp_sent": ("NERP sent", "rest"),
    },
    "sessions": {
        "good": ("Ended in order", "good"),
        "broken": ("Ended otherwise", "fail"),
        "unreached": ("Not reached", "fail"),
        "rejected": ("Not let in", "fail"),
    },
    "partners": {
        "unreached": ("Not reached", "bad"),
        "broken": ("Last session ended otherwise", "act"),
        "talking": ("In session", "wait"),
        "good": ("Last session ended in order", "good"),
        "unknown": ("No contact known", "rest"),
    },
}
# Those that a station without events has no file in.
BY_EVENTS = {"eerp_due", "nerp_due"}
# From how many hours on a file is late in a state.
LATE_FROM = {"open": 24, "release": 24, "waiting": 24, "partly": 24, "closing": 1, "handed": 24, "eerp_due": 24, "nerp_due": 24}
RULES = (
    "Late, by a file's stamp read as UTC: sent but not confirmed after 1 hour (or 10 minutes seen here); incomplete, to be released, "
    "waiting to be sent, partly sent, without EERP after 24 hours."
)
RULES_OF_EVENTS = (
    "Late, by its events, or where they don't tell by a file's stamp read as UTC: sent but not confirmed after 1 hour (or 10 minutes seen here); "
    "incomplete, to be released, waiting to be sent, partly sent, without EERP, with an EERP to be sent, with a NERP to be sent after 24 hours."
)
UNLOOKED = "Not looked at: whether partners are reached, and for how long responses wait to be sent. The journal has how each session ended. "
UNLOOKED_PARTNERS = "Not looked at: whether partners are reached. The journal has how each session ended. "
UNLOOKED_RESPONSES = "Not looked at: for how long responses wait to be sent. The journal has how each session ended. "
IDLE = "No file needs anybody, by its state and its age."
NOTHING = "Nothing to do: no file, no response and no partner needs anybody."
# What is to be done about the files of a state, and how the summary speaks of one, and of several where that differs.
DUTIES = {
    "open_late": "The rest hasn't come. Ask the partner to send the file again: its transfer goes on where it broke.",
    "release": "Take it, then release it or refuse it:",
    "release_late": "Its sender waits for the EERP. Take it, then release it or refuse it:",
    "waiting_late": "No session has taken it. Call the partner, and look at how the session ends.",
    "partly_late": "The rest hasn't gone. Call the partner, and look at how the session ends.",
    "closing_late": "All of it was sent, and the partner hasn't said that it has it. Call the partner: the next session settles it.",
    "handed_late": "The partner has it, and hasn't said what became of it. Ask the partner.",
    "refused": "Correct what the reason names, and submit it with another date or time.",
    "duplicate": "The partner has it: don't send it again before asking.",
    "returned": "Ask the partner, and submit it with another date or time.",
    **dict.fromkeys(("eerp_due_late", "nerp_due_late"), "No session has taken it. Call the partner, and look at how the session ends."),
    "unreached": "Look at its address in the book and at the network, and call it.",
    "broken": "Correct what the end names, and call the partner.",
}
SUMS = {
    "open_late": ("incomplete, late", None),
    "release": ("to be released", None),
    "release_late": ("to be released, late", None),
    "waiting_late": ("waiting to be sent, late", None),
    "partly_late": ("partly sent, late", None),
    "closing_late": ("not confirmed, late", None),
    "handed_late": ("EERP overdue", "EERPs overdue"),
    "refused": ("refused by a partner", None),
    "duplicate": ("refused as a duplicate", "refused as duplicates"),
    "returned": ("returned by a partner", None),
    "eerp_due_late": ("EERP not sent, late", "EERPs not sent, late"),
    "nerp_due_late": ("NERP not sent, late", "NERPs not sent, late"),
    "unreached": ("partner not reached", "partners not reached"),
    "broken": ("partner whose last session failed", "partners whose last session failed"),
}
# The words that an installation by docs/howto/install.md has in a command.
PATHS = {"program": "sudo -u oftp oftp_station", "database": "/var/lib/oftp/station.db", "book": "/etc/oftp/book.toml"}
TURNS = "\u061c\u200e\u200f\u202a\u202b\u202c\u202d\u202e\u2066\u2067\u2068\u2069"


def plain(text):
    """A partner's text as the page shows it. It is in one line, with a mark in place of each control character and of each long run of combining
    marks."""
    text = re.sub("\r\n?|[\n\u2028\u2029]", " ⏎ ", text).replace("\t", " ")
    text = "".join("\ufffd" if it in TURNS or unicodedata.category(it) == "Cc" else it for it in text)
    runs = ("".join(run) for _, run in itertools.groupby(text, lambda it: unicodedata.category(it)[0] == "M"))
    return "".join("\ufffd" if len(run) > 8 and unicodedata.category(run[0])[0] == "M" else run for run in runs)


def reason_of(number, reasons):
    return f"{number} {reasons[number]}" if number in reasons else f"unknown reason {plain(number)}"


def counted(count, one):
    return f"{count:,} {one}{'' if count == 1 else 's'}"


def span_of(time):
    """A span of time in the greatest unit of which there are enough."""
    minutes = time // timedelta(minutes=1)
    if minutes < 60:
        return counted(minutes, "minute")
    return counted(minutes // 60, "hour") if minutes < 48 * 60 else counted(minutes // (24 * 60), "day")


def size_of(units):
    """A number of octets in a few digits."""
    if units < 1000:
        return f"{units} B"
    divided, unit = (units / 1000, "KB") if units < 999_500 else (units / 1_000_000, "MB")
    step = Decimal("0.1") if unit == "MB" or units < 9_950 else Decimal("1")
    return f"{Decimal(divided).quantize(step, ROUND_HALF_UP)} {unit}"


def exact_size(file):
    """A file's size and format, and its number of records if it has any."""
    form = {"F": "fixed", "V": "variable", "U": "unstructured", "T": "text"}.get(file["format"], plain(file["format"]))
    rows = counted(file["rows"], "record") if file["format"] in ("F", "V") else ""
    return ", ".join(it for it in (counted(file["units"], "byte"), rows, form) if it)


def moment_of(file):
    """The moment of a file's date and time read as UTC, or None if they aren't valid."""
    if not re.fullmatch(r"[0-9]{8}/[0-9]{10}", f"{file['date']}/{file['time']}"):
        return None
    try:
        moment = datetime.strptime(file["date"] + file["time"][:6], "%Y%m%d%H%M%S")
    except ValueError:
        return None
    return moment if moment.year > 99 else None


def age_of(file, now, state="", changes=()):
    """How old a file is in its state: since the event that began it, or by its stamp. None if nothing tells that, or it is further ahead than any
    clock."""
    moment = begun_in(state, changes)
    if moment is None and state not in BY_EVENTS:
        moment = moment_of(file)
    return None if moment is None or moment > now + timedelta(hours=14) else now - moment


BEGUN_BY = {
    **{"release": "came", "eerp_due": "released", "nerp_due": "refused here", "waiting": "submitted", "partly": "submitted", "closing": "sent"},
    "handed": "handed over",
}


def begun_in(state, changes):
    """When a file came to its state, as its events tell it. For a file that comes it is when it began to, and not when it was taken up again."""
    found = None
    for it in changes:
        if state == "open" and it["event"] == "given up":
            found = None
        elif state == "open" and it["event"] == "started to come":
            found = found or at_of(it)
        elif it["event"] == BEGUN_BY.get(state):
            found = at_of(it)
    return found


def at_of(it):
    """When an event was, to the second."""
    return datetime.strptime(it["at"][:19], "%Y-%m-%dT%H:%M:%S")


def changes_of(lists, way, file):
    """The events of a file, oldest first."""
    return [it for it in lists.events or [] if it.get("way") == way and all(it.get(key) == file.get(key) for key in IDENTITY)]


def words_of(it):
    """What an event of a file says."""
    said = it["event"][:1].upper() + it["event"][1:] + (f" ({it['kind']})" if it.get("kind") else "")
    why = " ".join(it[key] for key in ("reason", "words") if it.get(key))
    return ": ".join(part for part in (said, why, f"“{it['text']}”" if it.get("text") else "") if part)


def local_of(moment, zone):
    """A moment by the clock of a zone."""
    return moment + timedelta(hours=ZONES[zone](moment))


def short_of(moment, now, zone):
    """A moment in few signs."""
    local, today = local_of(moment, zone), local_of(now, zone)
    days = (today.date() - local.date()).days
    if 0 <= days < 7:
        return f"{f'{local:%a}' if days else 'today'} {local:%H:%M}"
    return f"{local:%Y-%m-%d}"


def changed_of(lists, changes, now, zone):
    """When something changed last, and all its changes, where there are events."""
    if lists.events is None:
        return {}
    told = [plain(f"{local_of(at_of(it), zone):%Y-%m-%d %H:%M:%S} {words_of(it)}") for it in changes]
    return {"changed": short_of(at_of(changes[-1]), now, zone) if changes else "–", "changes": "\n".join(told) or "No event tells it"}


def late_or_not(state, age):
    return f"{state}_late" if age is not None and state in LATE_FROM and age >= timedelta(hours=LATE_FROM[state]) else state


def stamps_of(file, is_ours, zone):
    """A file's stamp as the page shows it, and what it says."""
    moment = moment_of(file)
    if not moment:
        digits = " ".join(it for it in (file["date"], file["time"]) if it)
        return plain(digits), plain(f"{digits}, which is no date and time" if digits else "")
    local = f"{moment + timedelta(hours=ZONES[zone](moment)):%Y-%m-%d %H:%M:%S}"
    whole = f"{moment:%Y-%m-%d %H:%M:%S}.{file['time'][6:]}"
    return (local, f"{whole} UTC") if is_ours else (f"{moment:%Y-%m-%d %H:%M:%S}", f"{whole}, without a zone; read as UTC it is {local} here")


def command_for(no, paths=None):
    """The command that takes a file and releases it."""
    program, database, book = (paths or PATHS).values()
    return f"{program} fetch --db {database} {no} /tmp/oftp_file_{no} && {program} release --db {database} --book {book} {no}"


def shortened(text):
    """A text that stands beside others."""
    text = plain(text)
    return text if len(text) <= 120 else f"{text[:100]}…"


def duty_of(state, no, partner, response):
    """What somebody has to do about a file, with the text of its response, and who has created that if it isn't the partner."""
    if state not in DUTIES:
        return None
    note = shortened(response["note"]) if response and response.get("note") else ""
    creator = response.get("creator") if response else None
    return "".join([
        f"“{note}” " if note else "",
        f"Created by {plain(creator)}. " if creator and creator != partner else "",
        DUTIES[state],
        f" {command_for(no)} Copy" if state.startswith("release") else "",
    ])


def items(lists, now, zone="UTC"):
    """The items of each view, newest first."""
    issues = {it["no"]: it for it in lists.issued}
    files = {it["no"]: it for it in lists.incoming}
    newest = {(it["destination"], it["dataset"]): it["no"] for it in lists.outgoing}
    responses = {}
    for response in lists.received:
        responses.setdefault(response["file"], []).append(response)
    sent = {it["no"]: it for it in lists.outgoing}
    views = {
        "in": [incoming_item(it, issues.get(it["no"]), now, zone, changes_of(lists, "in", it)) for it in lists.incoming],
        "out": [outgoing_item(it, responses.get(it["no"], []), newest, now, zone, changes_of(lists, "out", it)) for it in lists.outgoing],
        "received": [received_item(it, zone, response_changes(lists, "out", sent.get(it["file"]))) for it in lists.received],
        "issued": [issued_item(it, files[it["no"]], zone, response_changes(lists, "in", files[it["no"]])) for it in lists.issued],
    }
    found = {
        view: [it._replace(shown=it.shown._replace(**changed_of(lists, it.changes, now, zone))) for it in rows[::-1]] for view, rows in views.items()
    }
    found["sessions"] = [session_item(it, zone) for it in lists.events or [] if it["event"] in TALKS][::-1]
    found["partners"] = sorted(partner_items(lists, zone), key=lambda it: in_utf_16(it.partner))
    return {view: found[view] for view in lists.views}


TALKS = ("session ended", "not reached", "not let in")


def response_changes(lists, way, file):
    """The events of a file's response."""
    kinds = {"out": ["response received"], "in": ["released", "refused here", "response sent"]}[way]
    return [it for it in changes_of(lists, way, file) if it["event"] in kinds] if file else []


def shown(lists, now, zone="UTC"):
    """The rows of each view, newest first."""
    return {view: [it.shown for it in found] for view, found in items(lists, now, zone).items()}


def shown_as(view, file, partner, state, zone, detail="", size=None, exact=None, duty=None):
    words, look = STATES[view].get(state, (plain(state), "rest"))
    named = str(file["no"]), plain(partner), plain(file["dataset"]), plain(file.get("description", "")) or None
    return Shown(*named, *stamps_of(file, view not in ("in", "issued"), zone), size, exact, words, detail or None, look, duty)


def incoming_item(file, response, now, zone, changes=()):
    state = file["state"]
    if state == "whole":
        state = "release" if file["response"] == "none" else due_or_sent(response)
    age = age_of(file, now, state, changes)
    state = late_or_not(state, age)
    reason = reason_of(response["reason"], NEGATIVE_REASONS) if response and response["kind"] == "NERP" else ""
    detail = f"{span_of(age)} old" if state.endswith("_late") else reason
    duty = duty_of(state, file["no"], file["originator"], None)
    row = shown_as("in", file, file["originator"], state, zone, detail, size_of(file["units"]), exact_size(file), duty)
    return Item(row, "in", state, file, file["originator"], age, reason, response, changes)


def due_or_sent(response):
    return f"{response['kind'].lower()}_{'sent' if response['sent'] else 'due'}"


def response_for(file, responses):
    """The response that says what became of a file. It is that by which the station came to its state, and for a refused file an EERP before a
    NERP."""
    kinds = {"refused": ["EERP", "NERP"], "returned": ["NERP"]}.get(file["state"])
    found = [it for kind in kinds for it in responses if it["kind"] == kind] if kinds else responses
    return found[0] if found else None


def outgoing_state(file, response, later):
    state = file["state"]
    if state == "refused" and response:
        state = {"EERP": "delivered", "NERP": "returned"}[response["kind"]]
    elif state == "refused" and file["reason"] == "13":
        state = "duplicate"
    elif state == "waiting" and file["mark"]:
        state = "partly"
    if later and state in ("refused", "duplicate", "returned"):
        return "returned_again" if state == "returned" else "refused_again"
    return state


def outgoing_item(file, responses, newest, now, zone, changes=()):
    response = response_for(file, responses)
    last = newest[file["destination"], file["dataset"]]
    state = outgoing_state(file, response, last if last > file["no"] else None)
    age = age_of(file, now, state, changes)
    state = late_or_not(state, age)
    reason = ""
    if response and response["kind"] == "NERP":
        reason = reason_of(response["reason"], NEGATIVE_REASONS)
    elif file["state"] == "refused":
        reason = reason_of(file["reason"], START_REASONS)
    detail = outgoing_detail(file, state, age, last, reason)
    duty = duty_of(state, file["no"], file["destination"], response)
    row = shown_as("out", file, file["destination"], state, zone, detail, size_of(file["units"]), exact_size(file), duty)
    return Item(row, "out", state, file, file["destination"], age, reason, response, changes)


def outgoing_detail(file, state, age, last, reason):
    """The few words beside the state of an outgoing file."""
    if state.endswith("_again"):
        return f"by {last}"
    if state == "handed_late":
        return f"by {span_of(age - timedelta(days=1))}"
    if state == "delivered" and file["state"] == "refused":
        return f"EERP came, after {reason}"
    part = [f"{100 * file['mark'] // file['rows']} %"] if state.startswith("partly") else []
    old = [f"{span_of(age)} old"] if state.endswith("_late") else []
    return ", ".join(part + old) or reason


def received_item(response, zone, changes=()):
    reason = reason_of(response["reason"], NEGATIVE_REASONS) if response["kind"] == "NERP" else ""
    answers = f"File {response['file']}" if response["file"] else "None here"
    state = response["kind"].lower()
    row = shown_as("received", response, response["from"], state, zone, reason, answers)
    return Item(row, "received", state, response, response["from"], None, reason, response, changes)


def issued_item(response, file, zone, changes=()):
    reason = reason_of(response["reason"], NEGATIVE_REASONS) if response["kind"] == "NERP" else ""
    state = due_or_sent(response)
    row = shown_as("issued", file, file["originator"], state, zone, reason)
    return Item(row, "issued", state, file, file["originator"], None, reason, response, changes)


def end_of(line):
    """The state in which an end leaves a partner, and its words."""
    end = line.removeprefix("end: ")
    if not re.fullmatch("(own|partner) [0-9]{2}", end):
        return "broken", "the connection broke off" if end == "input" else end
    by = "sent by this station" if end.startswith("own") else "sent by the partner"
    return "good" if end.endswith("00") else "broken", f"{reason_of(end[-2:], SESSION_REASONS)}, {by}"


def session_item(it, zone):
    """A session, a call that didn't connect, or a caller that wasn't let in."""
    at = datetime.strptime(it["at"], "%Y-%m-%dT%H:%M:%S.%fZ")
    file = {"dataset": "", "description": it.get("peer", ""), **stamp(at), "format": "", "units": it.get("octets_in", 0) + it.get("octets_out", 0)}
    file["time"] = f"{at:%H%M%S%f}"[:10]
    state, told = {"not reached": "unreached", "not let in": "rejected"}.get(it["event"]), " ".join(it[key] for key in ("reason", "words") if it.get(key))
    if it["event"] == "session ended":
        state, told = end_of(it["end"])
        file["dataset"] = f"{it['sent']:,} sent, {it['received']:,} received"
    named = {**file, "no": it.get("session", "–")}
    row = shown_as("sessions", named, it.get("partner", ""), state, zone, shortened(told), size_of(file["units"]), counted(file["units"], "byte"))
    return Item(row, "sessions", state, file, it.get("partner", ""), None, shortened(told))


def contacts(lists):
    """The last contact with each partner: when, its state, and its end in words. What the events tell of it says more than what was counted."""
    told, counted_ones = {}, {}
    for it in [it for it in lists.events or [] if it.get("partner") and it["event"] in TALKS[:2]]:
        state, words = end_of(it["end"]) if it["event"] == "session ended" else ("unreached", it["words"])
        if it["partner"] not in told or told[it["partner"]][0] <= at_of(it):
            told[it["partner"]] = at_of(it), state, words, it["at"]
    for it in (lists.status or {}).get("counters", []):
        at = datetime.fromtimestamp(it["last"], timezone.utc).replace(tzinfo=None)
        if it["kind"] in ("session", "not reached") and (it["partner"] not in counted_ones or counted_ones[it["partner"]][0] <= at):
            state, words = end_of(it["end"]) if it["kind"] == "session" else ("unreached", "")
            counted_ones[it["partner"]] = at, state, words, f"{at:%Y-%m-%dT%H:%M:%S}.0000"
    late = {code: it for code, it in counted_ones.items() if code not in told or told[code][0] + timedelta(seconds=2) <= it[0]}
    return {**told, **late}


WAITS = {
    **{"waiting": "to be sent", "closing": "to be confirmed", "due": "to be answered", "open": "incomplete", "whole": "to be released"},
    "handed": "without EERP",
}


def partner_items(lists, zone):
    """The partners of the book, and others with whom there was contact."""
    status, found = lists.status or {}, contacts(lists)
    codes = [it["code"] for it in status.get("partners", [])]
    for no, code in enumerate(dict.fromkeys([*codes, *found]), 1):
        at, state, words, written_at = found.get(code, (None, "unknown", "", ""))
        waits = [f"{it['count']:,} {WAITS[it['state']]}" for it in status.get("files", []) if it["partner"] == code and it["state"] in WAITS]
        digits = re.sub(r"[-:.TZ]", "", written_at)
        file = {"dataset": ", ".join(waits), "description": "", "date": digits[:8], "time": digits[8:18], "no": no}
        state = "talking" if (status.get("session") or {}).get("partner") == code else state
        row = shown_as("partners", file, code, state, zone, shortened(words), None, None, DUTIES.get(state))
        yield Item(row, "partners", state, file, code, None, shortened(words))


def to_do(views):
    """The summary: how many files need somebody, and why."""
    told = []
    for view, states in ((it, STATES[it]) for it in ("in", "out", "partners")):
        for state in [it for it in states if it in SUMS]:
            found = [it for it in views.get(view, []) if it.state == state]
            if found:
                told.append(tile_of(state, found))
    return told


def tile_of(state, found):
    """How the summary speaks of the files in a state: the oldest if they are late, and the reason if all have the same."""
    one, many = SUMS[state]
    reasons = {it.reason for it in found}
    oldest = max(it.age or timedelta() for it in found)
    more = ""
    if state.endswith("_late") and oldest > timedelta():
        more = f", oldest {span_of(oldest)}"
    elif len(reasons) == 1 and reasons != {""}:
        more = f", {reasons.pop()}"
    return f"{len(found):,} {(many if len(found) > 1 else None) or one}{more}"


def undated_of(views):
    """The files of which nothing tells an age."""
    titles = {"in": "incoming", "out": "outgoing"}
    bounded = {state for state in LATE_FROM if "sessions" in views or state not in BY_EVENTS}
    return [f"{titles[view]} {it.file['no']}" for view in titles for it in views[view] if it.state in bounded and it.age is None]


def idle_told(lists, views):
    """What the page says where nothing is to be done."""
    return NOTHING if lists.status is not None and lists.events is not None and not undated_of(views) else IDLE


def unlooked(views, lists=None):
    """What the page says that it hasn't looked at or doesn't count."""
    told = {(False, False): UNLOOKED, (False, True): UNLOOKED_PARTNERS, (True, False): UNLOOKED_RESPONSES, (True, True): ""}[
        lists is not None and lists.status is not None, "sessions" in views
    ]
    undated = undated_of(views)
    if undated:
        rest = f" and {len(undated) - 5:,} more" if len(undated) > 5 else ""
        why = "neither events nor the stamp tell an age" if "sessions" in views else "the stamp tells no age"
        told += f"Not looked at, since {why}: {', '.join(undated[:5])}{rest}. "
    counts = {state: sum(it.state == f"{state}_again" for it in views["out"]) for state in ("refused", "returned")}
    again = [f"{count:,} {state}" for state, count in counts.items() if count]
    return told + (f"Not counted, since a later file to the partner has their name: {', '.join(again)}." if again else "")


def in_order(found, column, is_down):
    """Items, which are newest first, sorted by a column; of two that are equal the newer one comes first."""
    keys = {
        "changed": lambda it: at_of(it.changes[-1]) if it.changes else datetime.min,
        "no": lambda it: it.file["no"],
        "partner": lambda it: in_utf_16(it.partner),
        "name": lambda it: in_utf_16(it.file["dataset"]),
        "when": lambda it: in_utf_16(it.file["date"] + it.file["time"]),
        "size": lambda it: it.file["units"],
        "file": lambda it: it.response["file"],
        "state": lambda it: list(STATES[it.view]).index(it.state),
    }
    # With `reverse`, too, equal ones keep their order.
    return sorted(found, key=keys[column], reverse=is_down)


def in_utf_16(text):
    """A text as JavaScript compares it with others."""
    return text.encode("utf-16-be", "surrogatepass")
