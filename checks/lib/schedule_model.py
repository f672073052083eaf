"""A model of a station's schedule, independent of the station's code: what is done next, after what was told.

An event and an action are lists of words, as in rows/schedule (rows/README.md). A model is told events by `tell`. `next` returns the next
action, or None if nothing is to be done before the next event. `timeout` says when the model wants to be told the time.
"""

from dataclasses import dataclass
from typing import Optional

# The limits, in the order in which the program reads them, as a station has them: times are in milliseconds.
USUAL = {
    **{"partners": 128, "commands": 256, "requests": 64},
    **{"admission": 30_000, "shelter": 5_000, "asking": 30_000, "requesting": 10_000, "patience": 300_000, "longest": 3_600_000},
    **{"farewell": 5_000, "copying": 30_000, "dialing": 30_000, "standing": 5_000, "rest": 1_000, "interval": 0},
    **{"share": 65_536, "backlog": 2_097_152, "held": 67_108_864, "times": 10, "greeting": 23, "jobs": 0, "counted": 0},
}
DOORS = ("partners", "commands", "requests")
# Numbers end here: none is accepted and no call made from here on, and no moment is later.
LAST = 2**63

# Stages of a connection. In some the shell is at work for it, in some there is a session, and in some a line is owed when it ends.
AT_WORK = ("stepping", "served")
IN_SESSION = ("stepping", "between")
CALL_WITHOUT_SESSION = ("resolving", "dialing", "connected")
LINED = ("stranger", "guest", *IN_SESSION, "wanted", *CALL_WITHOUT_SESSION)
# Who is sent away when the station ends, and of which calls the asker is missed.
DISMISSED = ("stranger", "guest", "asking", "ready", "wanted", *CALL_WITHOUT_SESSION)
MISSED = ("wanted", "dialing", "connected")
SILENT = ("orphaned", "stopping")


@dataclass(frozen=True)
class Partner:
    """A partner who is called: its number, and the wait of a guest before a call of it gives way. Also the times of a session with it."""

    number: int
    pause: int
    patience: int
    longest: int


@dataclass
class Call:
    """A call: of whom, by the clock (None) or for which command, and how often it may still hang up and be made again."""

    partner: Partner
    asker: Optional[int]
    times: int


@dataclass
class Talk:
    """A session. `unanswered` is after how many octets more the called partner has answered, or None."""

    begun: int
    ends: int
    patience: int
    until: int
    share: int
    unanswered: Optional[int] = None
    there: str = "awaited"
    backlog: int = 0


@dataclass
class One:
    """A connection: its stage, when that is over, and what belongs to some stages."""

    number: int
    door: str
    stage: str = "arriving"
    until: Optional[int] = None
    # a stranger: from when on it may be closed for another; a guest: since when it waits
    ripe: Optional[int] = None
    since: Optional[int] = None
    # a command: what it asks, whether that is owed before the next session, the octets of its answer, and its call
    request: Optional[str] = None
    is_owed: bool = False
    octets: int = 0
    waits_for: Optional[int] = None
    call: Optional[Call] = None
    talk: Optional[Talk] = None

    def go(self, stage, until=None):
        self.stage = stage
        self.until = until
        self.ripe = None
        self.octets = 0

    def deadline(self):
        if self.stage == "between":
            return min(self.talk.until, self.talk.ends)
        return self.until

    def is_late(self, now):
        return self.deadline() is not None and self.deadline() <= now

    def is_ripe(self, now):
        return self.stage == "stranger" and self.ripe <= now

    def gives_way(self, guest):
        """When its session gives way to this guest, or None. What is there of its partner is heard first."""
        if self.talk.unanswered is None or self.talk.there != "awaited":
            return None
        return max(self.talk.begun, guest.since) + self.call.partner.pause


class Model:
    """A schedule. The connections stand in a dict by their numbers, those that wait for the same in their order."""

    def __init__(self, limits):
        self.limits = limits
        self.now = 0
        # when the last look-up was ordered, and until when none begins within a session
        self.looked = 0
        self.quiet = 0
        self.number = 0
        self.left = limits["jobs"]
        self.last = "update"
        self.is_guest_first = False
        # when the clock looks for whom something waits: None is never, "now" is while it does
        self.clock = limits["interval"] or None
        self.state = "serving"
        self.why = None
        # each door: "quiet", "knocked", or a moment until which it rests
        self.doors = dict.fromkeys(DOORS, "quiet")
        self.there = {}
        self.pending = []

    # -- finding

    def all(self, *stages):
        return (one for one in self.there.values() if one.stage in stages)

    def first(self, *stages):
        return next(self.all(*stages), None)

    def count(self, door):
        return sum(one.door == door for one in self.there.values())

    def first_ripe(self):
        return next((one for one in self.there.values() if one.is_ripe(self.now)), None)

    def first_ready(self, *requests, owed=False):
        return next((one for one in self.all("ready") if one.request in requests and one.is_owed >= owed), None)

    def room(self):
        return self.limits["held"] - sum(one.octets for one in self.there.values())

    # -- what becomes of a connection

    def order(self, *words):
        self.pending.append([str(word) for word in words])

    def add(self, door):
        one = One(self.number, door)
        self.there[one.number] = one
        self.number += 1
        return one

    def add_call(self, partner, asker):
        one = self.add("calls")
        one.call = Call(partner, asker, self.limits["times"])
        one.go("wanted")
        return one

    def to_the_end(self, one):
        """It is the last of those that wait for the same."""
        self.there[one.number] = self.there.pop(one.number)

    def count_job(self):
        """A job is done, which counts unless connections over HTTP do (the limit `counted` is 1 then)."""
        if not self.limits["counted"]:
            self.left = max(self.left - 1, 0)

    def print(self, one, why):
        self.order("print", one.number, why)
        self.count_job()

    def end_session(self):
        """A session is over: what waits is owed before the next one."""
        for one in self.all("ready"):
            one.is_owed = True

    def close(self, one, why):
        """It leaves, with its line."""
        del self.there[one.number]
        if one.stage in IN_SESSION:
            self.end_session()
        if one.stage in LINED and why not in SILENT:
            self.print(one, why)
        if self.limits["counted"] and one.door == "requests":
            self.left = max(self.left - 1, 0)
        self.order("close", one.number, why)

    def cut(self, one, why):
        """Its session is ended as it stands, and it leaves."""
        del self.there[one.number]
        self.end_session()
        self.order("cut", one.number)
        self.print(one, why)
        self.order("close", one.number, why)

    def part(self, one):
        """Its last octets go out."""
        if one.stage in IN_SESSION:
            self.end_session()
        if one.stage in LINED:
            self.print(one, "finished")
        one.go("parting", self.now + self.limits["farewell"])
        self.order("part", one.number)

    def time_for(self, one):
        return self.limits["requesting" if one.door == "requests" else "asking"]

    def is_ending(self):
        return self.state != "serving"

    def go_answered(self, one, octets):
        """An answer goes out. Once the station ends it has the time of last octets."""
        if one.door == "commands" and one.stage in ("served", "copying"):
            self.count_job()
        farewell = self.limits["farewell"]
        one.go("answered", self.now + (farewell if self.is_ending() else max(self.time_for(one), farewell)))
        one.octets = octets

    def answer(self, one, octets):
        self.go_answered(one, octets)
        self.order("answer", one.number)

    def give_way(self, one):
        """A call hangs up for a guest, and is made again; or ends, if it did so too often."""
        if one.call.times == 0:
            self.cut(one, "timed-out")
            return
        self.end_session()
        one.call.times -= 1
        one.go("wanted")
        self.to_the_end(one)
        self.is_guest_first = True
        self.order("cut", one.number)
        self.order("hang-up", one.number)

    # -- events

    def tell(self, words):
        what, *rest = words
        getattr(self, f"hear_{what}")(*rest)

    def hear_knock(self, door):
        if door in self.doors and not isinstance(self.doors[door], int):
            self.doors[door] = "knocked"

    def hear_accepted(self, number, what):
        one = self.there.get(int(number))
        if one is None or one.stage != "arriving":
            return
        if what == "somebody":
            self.welcome(one)
            return
        del self.there[one.number]
        if what == "nobody":
            self.doors[one.door] = "quiet"
        elif what == "later":
            self.doors[one.door] = self.now + self.limits["rest"]
        else:
            self.hear_over("door-failed")

    def welcome(self, one):
        if one.door == "partners":
            one.go("stranger", self.now + self.limits["admission"])
            one.ripe = self.now + self.limits["shelter"]
        else:
            one.go("asking", self.now + self.time_for(one))
        if self.count(one.door) > self.limits[one.door]:
            oldest = self.first_ripe()
            if oldest:
                self.close(oldest, "evicted")

    def hear_passed(self, moment):
        self.now = max(self.now, int(moment))
        for door, state in self.doors.items():
            if isinstance(state, int) and state <= self.now:
                self.doors[door] = "knocked"

    def hear_due(self, *numbers):
        partner = Partner(*map(int, numbers))
        is_called = any(one.call and one.call.asker is None and one.call.partner.number == partner.number for one in self.all(*LINED))
        if not is_called and self.number < LAST:
            self.add_call(partner, None)

    def hear_reviewed(self):
        if self.clock == "now":
            self.clock = self.now + self.limits["interval"]

    def hear_over(self, why):
        if self.state == "serving":
            self.state = "called"
            self.why = why
        elif self.state != "past" and why == "office-failed":
            self.why = why

    def hear_told(self, number, signal, *rest):
        """What is told of a connection: a method for each stage that minds it."""
        one = self.there.get(int(number))
        if one:
            method = getattr(self, f"{one.stage}_{signal.replace('-', '_')}", None)
            if method:
                method(one, *rest)

    # -- what is told of a caller who isn't in a session

    def stranger_let_in(self, one):
        one.go("guest")
        one.since = self.now
        self.to_the_end(one)

    def stranger_rejected(self, one):
        self.part(one)

    def stranger_ends(self, one):
        self.close(one, "quit")

    def vanish(self, one):
        self.close(one, "vanished")

    stranger_lost = guest_lost = asking_lost = ready_lost = calling_lost = copying_lost = answered_lost = connected_lost = vanish

    def parting_ends(self, one):
        self.close(one, "finished")

    parting_lost = parting_ends

    # -- what is told of a session

    def stepping_waits(self, one, heard, there, backlog):
        if there == "gone":
            self.cut(one, "quit")
            return
        talk = one.talk
        if talk.unanswered is not None:
            talk.unanswered = talk.unanswered - int(heard) if int(heard) < talk.unanswered else None
        talk.share = 0 if there == "awaited" else max(talk.share - int(heard), 0)
        talk.there = there
        if not (talk.backlog and int(backlog)):
            talk.until = self.now + talk.patience
        talk.backlog = int(backlog)
        one.go("between")

    def stepping_ended(self, one, how):
        if how == "own":
            self.part(one)
        else:
            self.close(one, "finished")

    def between_came(self, one):
        if one.talk.there == "awaited":
            one.talk.there = "here"
        if not one.talk.backlog:
            one.talk.until = self.now + one.talk.patience

    def between_went(self, one, left):
        one.talk.backlog = int(left)
        one.talk.until = self.now + one.talk.patience

    def between_ends(self, one):
        if one.talk.there == "here":
            one.talk.there = "last"
        elif one.talk.there != "last":
            self.cut(one, "quit")

    def between_lost(self, one):
        self.cut(one, "vanished")

    # -- what is told of a command or a request over HTTP

    def asking_asked(self, one, request):
        one.go("ready")
        one.request = request
        self.to_the_end(one)

    def asking_wants(self, one, *numbers):
        if self.number >= LAST:
            self.close(one, "stopping")
            return
        one.go("calling")
        one.waits_for = self.add_call(Partner(*map(int, numbers)), one.number).number

    def asking_rejected(self, one):
        self.close(one, "invalid")

    def asking_ends(self, one):
        self.close(one, "quit")

    def served_done(self, one, octets):
        if one.request == "query":
            self.quiet = max(self.quiet, self.now + (self.now - self.looked))
        self.answer(one, int(octets))

    def copying_ends(self, one):
        self.answer(one, 0)

    def answered_went(self, one, left):
        if int(left) > 0:
            # once the station ends it gains none: one whose time is over stays so
            one.until = max(one.until, self.now + (0 if self.is_ending() else self.time_for(one)))
            one.octets = int(left)
        elif one.door == "requests":
            self.part(one)
        else:
            self.close(one, "finished")

    # -- what is told of a call

    def resolving_resolved(self, one):
        one.go("dialing", self.now + min(self.limits["dialing"], one.call.partner.patience))
        self.order("dial", one.number)

    def resolving_failed(self, one):
        self.close(one, "unreached")

    dialing_failed = resolving_failed

    def dialing_up(self, one):
        one.go("connected", self.now + self.limits["standing"])

    # -- what is done next

    def next(self):
        """The next action, or None."""
        if not self.pending and self.state != "past":
            self.choose()
        return self.pending.pop(0) if self.pending else None

    def choose(self):
        """Does the first of these that there is to do: each returns whether it did something."""
        steps = (self.finish, self.end_late, self.dismiss, self.drop_orphan, self.tell_asker, self.make_way)
        return any(step() for step in (*steps, self.admit, self.dial, self.work, self.depart))

    def finish(self):
        is_enough = self.limits["jobs"] > 0 and self.left == 0
        if self.state == "serving" and is_enough:
            self.why = "stopped"
        elif self.state != "called":
            return False
        self.state = "ending"
        for one in self.all("answered"):
            one.until = min(one.until, self.now + self.limits["farewell"])
        self.order("shut")
        return True

    def end_late(self):
        """The time of a connection is over."""
        one = next((one for one in self.there.values() if one.is_late(self.now)), None)
        if one is None:
            return False
        if one.stage == "between":
            self.cut(one, "stalled" if one.talk.backlog else "timed-out")
        elif one.stage == "copying":
            self.go_answered(one, 0)
            self.order("decline", one.number, "timed-out")
        elif one.stage == "connected" and one.call.times > 0:
            one.call.times -= 1
            one.go("wanted")
            self.order("hang-up", one.number)
        else:
            self.close(one, "unreached" if one.stage == "dialing" else "timed-out")
        return True

    def dismiss(self):
        """The station ends: who has nothing begun is sent away, and a session too if the office failed."""
        if self.state != "ending":
            return False
        one = self.first(*DISMISSED, *(["between"] if self.why == "office-failed" else []))
        if one is None:
            return False
        if one.stage == "ready" or one.stage == "asking" and one.door == "commands":
            one.go("answered", self.now + self.limits["farewell"])
            self.order("decline", one.number, "stopping")
        elif one.stage == "between":
            self.cut(one, "stopping")
        else:
            self.close(one, "stopping")
        return True

    def drop_orphan(self):
        """The command that wanted a call is gone."""
        for one in self.all(*MISSED):
            if one.call.asker is not None and one.call.asker not in self.there:
                self.close(one, "orphaned")
                return True
        return False

    def tell_asker(self):
        """The call that a command waits for is over: it is gone, or only its last octets go out."""
        for one in self.all("calling"):
            call = self.there.get(one.waits_for)
            if call is None or call.stage == "parting":
                self.answer(one, 0)
                return True
        return False

    def make_way(self):
        one, guest = self.first("between"), self.first("guest")
        moment = one.gives_way(guest) if one and guest else None
        if moment is None or moment > self.now:
            return False
        self.give_way(one)
        return True

    def is_admitted(self, door):
        free = self.limits[door] - self.count(door)
        return self.doors[door] == "knocked" and (free > 0 or free == 0 and door == "partners" and self.first_ripe() is not None)

    def admit(self):
        """Somebody is accepted, one at a time."""
        if self.state != "serving" or self.number >= LAST or self.first("arriving"):
            return False
        door = next(filter(self.is_admitted, DOORS), None)
        if door:
            self.order("accept", self.add(door).number, door)
        return door is not None

    def dial(self):
        one = self.first("wanted")
        is_kept = self.first(*IN_SESSION, *CALL_WITHOUT_SESSION, "copying") or self.is_guest_first and self.first("guest")
        if one is None or self.state != "serving" or is_kept:
            return False
        one.go("resolving")
        self.order("resolve", one.number)
        return True

    def is_busy(self):
        return self.clock == "now" or self.first(*AT_WORK) is not None

    def work(self):
        """A job, or the next piece of a session."""
        if self.is_busy():
            return False
        session = self.first("between")
        if session:
            return self.go_on(session)
        if self.first("copying"):
            return self.look()
        return self.state == "serving" and self.take_turns()

    def go_on(self, one):
        """A session hears a piece. Or a look-up is done, if there is none or its share is used up, and not within the rest after
        another."""
        talk = one.talk
        is_heard = talk.there in ("here", "last") and talk.backlog <= self.limits["backlog"]
        if (not is_heard or talk.share == 0) and self.quiet <= self.now and self.look():
            return True
        if is_heard:
            one.go("stepping")
            self.order("hear", one.number)
        return is_heard

    def take_turns(self):
        """Between sessions: the clock, what is owed, a call that is up, and then queries, guests and updates in turn."""
        if self.clock is not None and self.clock <= self.now:
            self.clock = "now"
            self.order("review")
            return True
        if self.carry_out(self.first_ready("update", "backup", owed=True)) or self.talk_to_called():
            return True
        turns = {"query": self.look, "session": self.talk_to_guest, "update": lambda: self.carry_out(self.first_ready("update", "backup"))}
        kinds = list(turns)
        begin = kinds.index(self.last) + 1
        return any(turns[kind]() for kind in kinds[begin:] + kinds[:begin])

    def has_look_up(self):
        return self.first_ready("query") is not None and self.room() > 0

    def look(self):
        one = self.first_ready("query")
        if not self.has_look_up():
            return False
        one.go("served")
        self.looked = self.now
        for session in self.all("between"):
            session.talk.share = self.limits["share"]
        self.last = "query"
        self.order("look", one.number)
        return True

    def carry_out(self, one):
        """A change, or a copy that the command makes itself."""
        if one is None:
            return False
        self.last = "update"
        if one.request == "update":
            one.go("served")
            self.order("change", one.number)
        else:
            one.go("copying", self.now + self.limits["copying"])
            self.order("copy", one.number)
        return True

    def begin(self, one, patience, longest):
        one.talk = Talk(self.now, self.now + longest, patience, self.now + patience, self.limits["share"])
        one.go("stepping")
        self.last = "session"
        self.is_guest_first = one.call is not None
        self.order("begin", one.number)

    def talk_to_guest(self):
        one = self.first("guest")
        if one:
            self.begin(one, self.limits["patience"], self.limits["longest"])
        return one is not None

    def talk_to_called(self):
        one = self.first("connected")
        if one:
            self.begin(one, one.call.partner.patience, one.call.partner.longest)
            one.talk.unanswered = min(self.limits["greeting"] + 1, 2**32 - 1)
        return one is not None

    def depart(self):
        """The last connection is gone."""
        if self.state != "ending" or self.there or self.clock == "now":
            return False
        self.state = "past"
        self.order("exit", self.why)
        return True

    # -- time

    def timeout(self):
        """When it wants to be told the time, or None."""
        moments = [one.deadline() for one in self.there.values()]
        moments += [state for state in self.doors.values() if isinstance(state, int)]
        # what is past isn't waited for: a session, say, keeps it from being done
        moments += [self.clock] if isinstance(self.clock, int) and self.clock > self.now else []
        if self.doors["partners"] == "knocked":
            moments += [one.ripe for one in self.all("stranger") if one.ripe > self.now]
        session, guest = self.first("between"), self.first("guest")
        if session and guest:
            moments.append(session.gives_way(guest))
        if session and not self.is_busy() and self.has_look_up() and self.quiet > self.now:
            moments.append(self.quiet)
        return min((moment for moment in moments if moment is not None), default=None)
