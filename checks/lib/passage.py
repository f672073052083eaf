"""A connection of two stations whose octets all pass through a check, and what happens to it.

It breaks within a frame or after a number of octets, by an end, a reset or silence in one direction. Or a station is killed.
"""

import socket
import struct
import time
from collections import Counter

import oftp
from ready import ready_to_read
from services import LONG, Wrong


class Side:
    """What one program sends in a session: its octets so far, where its frames begin, and how many octets have passed on."""

    def __init__(self, name, source, sink, said):
        self.name = name
        self.source = source
        self.sink = sink
        self.said = said
        self.octets = bytearray()
        self.begins = [0]
        self.passed = self.frames = 0
        self.is_silent = False

    def hear(self):
        """Reads its next octets, or none if it has ended."""
        try:
            piece = self.source.recv(8192)
        except ConnectionError:
            piece = b""
        self.octets += piece
        while len(self.octets) >= self.begins[-1] + 4:
            begin = self.begins[-1]
            self.begins.append(begin + int.from_bytes(self.octets[begin + 1 : begin + 4], "big"))
        return piece

    def place(self, trouble):
        """How many octets pass before this trouble, and whether that is known yet; if not, up to where they may pass."""
        if trouble.octets is not None:
            return trouble.octets, True
        if len(self.begins) <= trouble.frame + 1:
            return self.begins[min(trouble.frame, len(self.begins) - 1)], False
        begin, end = self.begins[trouble.frame : trouble.frame + 2]
        return begin + int(trouble.share * (end - begin)), True

    def say(self, end):
        """Passes on all octets before this place, and notes each frame that is out."""
        piece = b"" if self.is_silent else bytes(self.octets[self.passed : end])
        self.passed += len(piece)
        try:
            self.sink.sendall(piece)
        except ConnectionError:
            pass  # the program there has ended
        while len(self.begins) > self.frames + 1 and self.begins[self.frames + 1] <= self.passed:
            begin, end = self.begins[self.frames : self.frames + 2]
            self.said.tell(self.name, bytes(self.octets[begin:end]))
            self.frames += 1

    def fall_silent(self):
        """It has ended: its last octets pass on, and then the end."""
        self.say(len(self.octets))
        try:
            self.sink.shutdown(socket.SHUT_WR)
        except OSError:
            pass  # the program there has ended too


class Said:
    """The frames of a session in the order in which they were out, in words. The DATA of a file and the CDT between them are counted."""

    def __init__(self):
        self.lines = []

    def tell(self, name, frame):
        kind = oftp.KIND_OF.get(chr(frame[4]))
        if kind not in ("DATA", "CDT"):
            self.lines.append(f"    {name}: {oftp.shown(frame)}")
            return
        if not self.lines or not isinstance(self.lines[-1], Counter):
            self.lines.append(Counter())
        self.lines[-1][kind] += 1

    def words(self, sides):
        """All lines, and how much of an incomplete frame is out."""
        cut = [f"    {side.name}: {side.passed - side.begins[side.frames]} octets of a frame" for side in sides]
        return [line if isinstance(line, str) else f"    {line['DATA']} DATA, {line['CDT']} CDT" for line in self.lines] + cut


# What may happen to a session.
TROUBLES = ["closes", "resets", "silences", "kills the caller", "kills the listener", "kills both"]


class Trouble:
    """What happens to a session, and when: after a number of seconds, or at a place in the octets of one side."""

    def __init__(self, chance, usual):
        self.what = chance.choice(TROUBLES)
        self.side = chance.randrange(2)
        self.seconds = self.octets = None
        self.frame = chance.choice([chance.randint(0, 6), chance.randint(0, usual.frames)])
        self.share = chance.choice([0, chance.random()])
        self.delay = chance.choice([0, chance.uniform(0, 0.02)])
        when = chance.choice(["seconds", "octets", "frame", "frame"])
        if when == "octets":
            self.octets = chance.randint(0, usual.octets)
        elif when == "seconds":
            self.seconds, self.delay = chance.uniform(0, 1.05 * usual.seconds), 0

    def __str__(self):
        side = ["caller", "listener"][self.side]
        if self.seconds is not None:
            return f"{self.what} after {self.seconds:.3f} s"
        place = f"{self.octets} octets" if self.octets is not None else f"{self.share:.2f} of frame {self.frame}"
        return f"{self.what} {1000 * self.delay:.0f} ms after {place} of the {side}"


class Usual:
    """How long a session of this pair usually takes."""

    def __init__(self):
        self.seconds, self.octets, self.frames = 0.3, 2000, 20

    def learn(self, seconds, sides):
        self.seconds = (self.seconds + seconds) / 2
        self.octets = max(200, (self.octets + max(side.passed for side in sides)) // 2)
        self.frames = max(6, (self.frames + max(len(side.begins) for side in sides)) // 2)


class Passage:
    """A connection of two stations, the caller and the listener, and what happens to it. Its owner says how to kill one."""

    def __init__(self, troubles, said=None):
        self.begin = time.monotonic()
        self.troubles = list(troubles)
        self.sides, self.open = [], []
        self.said = said or Said()
        self.is_open = True
        self.is_broken = False
        # What has happened, and how often.
        self.befell = Counter()

    def join(self, *ends):
        """Joins the caller's connection with the one to the listener."""
        for end in ends:
            end.settimeout(LONG)
        self.sides = [Side("caller", *ends, self.said), Side("listener", *ends[::-1], self.said)]
        self.open = list(self.sides)

    def pass_all(self):
        """Passes on the octets of both sides, until both have ended or the connection is broken."""
        while self.sides and self.is_open:
            self.step()
        self.hang_up()

    def kill(self, place):
        """Kills the caller, or the listener."""
        raise NotImplementedError

    def step(self):
        """Waits for octets of one side, or for what is due, and passes them on."""
        self.do_timely()
        if not self.is_open:
            return
        is_silent = any(side.is_silent for side in self.sides)
        wait = 0.1 if is_silent else self.wait()
        ready = ready_to_read([side.source for side in self.open], wait)
        self.is_open = bool(ready) or not is_silent
        if not ready and wait == LONG:
            raise Wrong("nothing passes any more")
        for side in [side for side in self.open if side.source in ready]:
            self.pass_on(side)

    def wait(self):
        """The seconds until something is due."""
        due = [self.begin + trouble.seconds - time.monotonic() for trouble in self.troubles if trouble.seconds is not None]
        return min([LONG, *(max(0, seconds) for seconds in due)])

    def pass_on(self, side):
        """Reads octets of one side, and passes on those before the next trouble."""
        if not self.is_open:
            return
        piece = side.hear()
        while self.is_open:
            here = [it for it in self.troubles if it.seconds is None and self.sides[it.side] is side]
            trouble = min(here, key=lambda it: side.place(it)[0], default=None)
            place, is_known = side.place(trouble) if trouble else (len(side.octets), False)
            side.say(place)
            if not is_known or place > side.passed:
                break
            self.do(trouble)
        if not piece and self.is_open:
            side.fall_silent()
            self.open.remove(side)
            self.is_open = bool(self.open)

    def do_timely(self):
        for trouble in [it for it in self.troubles if it.seconds is not None and self.begin + it.seconds <= time.monotonic()]:
            self.do(trouble)

    def do(self, trouble):
        if trouble.delay:
            trouble.seconds, trouble.delay = time.monotonic() - self.begin + trouble.delay, 0
            return
        self.troubles.remove(trouble)
        self.is_broken = True
        self.befell[trouble.what] += 1
        if trouble.what in ("closes", "resets"):
            self.hang_up(is_reset=trouble.what == "resets")
        elif trouble.what == "silences" and self.sides:
            self.sides[trouble.side].is_silent = True
        if trouble.what in ("kills the caller", "kills both"):
            self.kill(0)
        if trouble.what in ("kills the listener", "kills both"):
            self.kill(1)

    def hang_up(self, ends=None, is_reset=False):
        self.is_open = False
        for end in [side.source for side in self.sides] if ends is None else ends:
            if is_reset and end.fileno() >= 0:
                end.setsockopt(socket.SOL_SOCKET, socket.SO_LINGER, struct.pack("ii", 1, 0))
            end.close()
