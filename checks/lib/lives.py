"""A row over a life of `run`. Partners come to it, or it calls them, and operators ask it, with look-ups between two pieces of a session.

What a look-up shows, and what a session leaves that is cut off, is that of the model of a station (checks/lib/model.py).
"""

import contextlib
import itertools
import socket
import subprocess

import acts
import model
import tables
from goes_on import book_of
from listing_files import END, ask, compare_report, reply_for, shown
from program import PROGRAM
from ready import ready_to_read
from row_files import Call, File, Session
from services import LONG, Resident, Wrong, answer_to, expect
from staying import held_port
from talk import Talk, line_of, lines_of_a_cut, told_by_call

# How a partner ends a session too early: it says no more and hears the rest, it closes the connection, or resets it.
CUTS = ["ends", "closes", "resets"]
# A session comes in at most so many pieces. Behind each there is a look-up, or behind each seventh if they are more than MANY.
MOST, MANY, SEVENTH = 12_000, 300, 7
# Errors that a station has before it is ready.
BEFORE = ("fault: 5", "fault: 6")
# The address of each partner in the books of the rows.
ADDRESS = "127.0.0.1:3305"


def is_lived(row):
    """Whether `run` can play a row: not where the row has an error of the book or the database."""
    told = [line for act in row.acts if isinstance(act, Call) for line in act.told] + [session.end[1] for session in row.sessions()]
    return not any(line.startswith(BEFORE) for line in told)


class Life:
    """A folder with the database of a row, and `run` over it, which begins where an act needs it. Another one begins where a session has
    another book, or another program changed the database."""

    def __init__(self, room, record=None, **how):
        self.room = room
        self.database = room / "database"
        # The folder of its record, if it has one, and the texts of its books.
        self.record = record
        self.books = []
        self.how = how
        self.book = self.station = None
        self.turns = itertools.count()
        self.looks = 0

    def __enter__(self):
        self.post = socket.create_server(("127.0.0.1", 0))
        self.post.settimeout(LONG)
        self.holders = [held_port(), held_port()]
        self.port, self.requests = (holder.getsockname()[1] for holder in self.holders)
        return self

    def __exit__(self, *_why):
        if self.station:
            self.station.program.kill()
            self.station.program.communicate()
        for held in (self.post, *self.holders):
            held.close()

    def serve(self, book):
        """A station serves by this book."""
        if self.station and self.book == book:
            return
        self.end()
        self.book = book
        own = self.room / "served.toml"
        self.books.append(book.read_text().replace(ADDRESS, f"127.0.0.1:{self.post.getsockname()[1]}"))
        own.write_text(self.books[-1])
        recorded = ["--record", self.record] if self.record else []
        self.station = Resident(self.room, "--http-port", str(self.requests), *recorded, book=own, port=self.port, **self.how)
        expect(self.station.either(), "ready", "the first line")

    def end(self):
        """Ends the station, which has told nothing but the lines that were read."""
        if self.station:
            self.station.program.terminate()
            expect(self.station.rest(), [b"", b""], "what the station told besides its lines")
            self.station = None

    def register(self):
        """The register that the database holds, in the model's form."""
        return model.register_of(tables.read(self.database))

    def play(self, act, hold):
        """Plays an act; `hold` is how a session goes. It returns why the act differs from the row, or None."""
        if isinstance(act, File):
            return acts.play_file(act, self.room)
        if isinstance(act, Session):
            self.serve(act.book)
            return hold(act)
        if isinstance(act, Call):
            self.serve(self.book or act.book)
            return acts.play_call(act, self.room, self.database)
        self.end()
        acts.play_statement(act, self.database)
        return None

    # sessions

    def hold(self, act, size, looks=True):
        """A session goes as in the row, its octets in pieces of this size, with look-ups behind each piece and its answers. It returns why it
        differs, or None."""
        if act.end[1].startswith("refused:"):
            done = subprocess.run(self.words_of_call(act), capture_output=True, timeout=LONG, check=False)
            return acts.check_lines(act.end, done)
        octets, heard = act.joined("in"), heard_of(act)
        places = range(0, heard, max(size, -(-heard // MOST)))
        with self.talk(act) as talk:
            for number, at in enumerate(places):
                talk.say(octets[at : min(at + places.step, heard)])
                if looks:
                    wait(talk)
                    if not talk.session.end and (len(places) <= MANY or number % SEVENTH == 0):
                        self.look(talk.session.register)
            if act.given or act.closes():
                wait(talk)
                told = self.break_off(talk, octets[heard:], "resets" if act.given else "closes")
                return None if told in lines_of_a_cut(talk) else f"the line is {told!r}"
            why = self.finish(talk, act.joined("out"), act.end[1].strip())
            return why or (self.unlike_left(talk.session.register) if looks else None)

    def finish(self, talk, out, end):
        """The partner says nothing more. It returns why these aren't the octets out or the end, or None."""
        talk.finish()
        told = self.told(talk)
        wanted = f"{whose_line(talk)}: {end}"
        return unlike(talk.got, out) or (None if told == wanted else f"the line is {told!r}, and not {wanted!r}")

    def break_off(self, talk, octets, how):
        """The partner closes or resets the connection behind these octets, without reading what they ask for. It returns the line."""
        talk.say(octets)
        talk.cut(is_reset=how == "resets")
        return self.told(talk)

    def told(self, talk):
        """The line of the session, which the command that had the station call tells too."""
        told = self.next_line()
        if talk.session.called:
            out, err = self.calling.communicate(timeout=LONG)
            expect((self.calling.returncode, out, err), told_by_call(told), "the command `call`")
        return told

    def next_line(self):
        return self.station.either()

    def cut(self, act, place, how):
        """A session that ends after so many octets of the partner's. What is out, the line and what is left are the model's. It returns why
        they differ, or None."""
        with self.talk(act) as talk:
            talk.say(act.joined("in")[:place])
            if how == "ends":
                why = self.finish(talk, talk.wanted(), talk.ends())
            else:
                wait(talk)
                told = self.break_off(talk, b"", how)
                lines = [line_of(talk), *(lines_of_a_cut(talk) if how == "resets" else [])]
                why = None if told in lines else f"the line is {told!r}, and none of {lines}"
            return why or self.unlike_left(talk.session.register)

    def unlike_left(self, register):
        """Why the database isn't left with the tables of a register of the model, or None."""
        found, wanted = tables.read(self.database), register.tables()
        differing = (table for table in tables.TABLES if found[table] != wanted[table])
        return next((f"in {table} is left {str(found[table])[:400]}, and not {str(wanted[table])[:400]}" for table in differing), None)

    @contextlib.contextmanager
    def talk(self, act):
        """A session with a partner who calls, or with one whom the station is asked to call, beside the model of the station."""
        session = model.Session(book_of(act.book), self.register(), act.role[-1] if act.role else None)
        with contextlib.ExitStack() as stack:
            if session.called:
                self.calling = subprocess.Popen(self.words_of_call(act), stdout=subprocess.PIPE, stderr=subprocess.PIPE)
                stack.callback(self.calling.kill)
                connection = stack.enter_context(self.awaited())
                connection.settimeout(LONG)
            else:
                connection = stack.enter_context(self.station.caller())
            yield Talk(connection, session)

    def awaited(self):
        """The connection of the call that a command asks for."""
        while self.calling.poll() is None:
            if ready_to_read([self.post], 0.01):
                return self.post.accept()[0]
        raise Wrong(f"the station doesn't call, and the command tells {self.calling.communicate()}")

    def words_of_call(self, act):
        return [PROGRAM, "call", "--db", self.database, "--book", self.room / "served.toml", *act.role[2:]]

    # look-ups

    def look(self, register):
        """Something is looked up, each time something else: it shows what this register has."""
        self.looks += 1
        turn = next(self.turns)
        number = turn // 8 % (len(register.in_file) + len(register.out_file) + 1) + 1
        lists = shown(register.tables())
        [self.request, self.report, self.request, self.fetch][turn % 4](register, lists, turn // 4, number)

    def request(self, _register, lists, turn, number):
        target = [f"/in/{number}", f"/out/{number}", "/in", f"/in/{number}", "/out", "/responses"][turn % 6]
        reply = ask(self.station, [f"GET {target} HTTP/1.1".encode() + END + END], port=self.requests)
        expect(reply, reply_for(lists, target), f"the reply for {target}")

    def report(self, _register, lists, turn, _number):
        kind = ["in", "out", "issued", "received"][turn % 4]
        with self.station.asked("report", kind) as client:
            text, ended = answer_to(client)
        expect(ended, "listed", "a report")
        compare_report(lists, kind, text.decode())

    def fetch(self, register, _lists, _turn, number):
        with self.station.asked("fetch", str(number)) as client:
            answer = answer_to(client)
        try:
            wanted = model.fetch(register, number), f"done: fetch {number}"
        except model.Refused as why:
            wanted = b"", f"refused: {why}"
        expect(answer, wanted, f"fetch {number}")


def wait(talk):
    """The station has said by now what the model of it says, and no more."""
    talk.wait()
    why = unlike(talk.got, talk.wanted())
    if why:
        raise Wrong(why)


def heard_of(act):
    """How many of the partner's octets come before it stops reading: all, if it doesn't."""
    before = itertools.takewhile(lambda step: step[0] != "closes", act.steps)
    return sum(len(octets) for side, octets in before if side == "in")


def whose_line(talk):
    return line_of(talk).partition(": ")[0]


def unlike(got, wanted):
    """Why the octets out aren't these, or None."""
    pairs = zip([*acts.oftp.frames_of(wanted), b""], [*acts.oftp.frames_of(got), b""])
    differing = (f"frame {number} out is {acts.shown(found)}, and not {acts.shown(want)}" for number, (want, found) in enumerate(pairs, 1) if want != found)
    return next(differing, None if got == wanted else f"{len(got)} octets are out, and not {len(wanted)}")
