"""A session of two stations as processes, whose octets all pass through a check, which breaks it and kills either."""

import socket
import subprocess
import time

from passage import Passage
from ready import ready_to_read
from services import LONG, Wrong

# How a session may end: between two stations none violates the protocol.
ENDS = ["end: own 00", "end: partner 00", "end: input", "fault: 1 read", "fault: 2 write"]
# The end of a call whose connection was reset before the program saw it established.
UNMADE = "fault: 8 socket"


class Session(Passage):
    """A session: one station calls `post` and the other listens at a port, each a process by these words, and all octets pass through here.
    If the second one is a long-running service, its process exists before, and is never killed."""

    def __init__(self, post, port, words, troubles, service=None):
        super().__init__(troubles)
        self.post = post
        self.port = port
        self.words = words
        self.service = service
        self.killed = set()

    def play(self):
        """It returns the line that each program printed, the caller's first."""
        while ready_to_read([self.post], 0):
            self.post.accept()[0].close()  # one that was killed before
        self.programs = [self.start(1), self.start(0)][::-1]
        try:
            self.connect()
            self.pass_all()
            return [self.ended(place) for place in range(2)]
        finally:
            for program in self.programs[:1] if self.service else self.programs:
                program.kill()

    def start(self, place):
        if place == 1 and self.service:
            return self.service.program
        return subprocess.Popen(self.words[place], stdout=subprocess.PIPE, stderr=subprocess.PIPE)

    def connect(self):
        """Accepts the caller's connection, and connects to the listener. If one of them is gone, the other has no peer."""
        ends = [self.until(self.caller), self.until(self.listener)]
        if None in ends:
            self.hang_up(end for end in ends if end)
            self.kill(0)
            self.kill(1)
            return
        self.join(*ends)

    def until(self, found):
        """Waits for a value, and returns it, or None if a program has ended."""
        while True:
            self.do_timely()
            end = found()
            if end or any(program.poll() is not None for program in self.programs):
                return end

    def caller(self):
        ready = ready_to_read([self.post], 0.005)
        return self.post.accept()[0] if ready else None

    def listener(self):
        try:
            return socket.create_connection(("127.0.0.1", self.port))
        except ConnectionRefusedError:
            time.sleep(0.005)
            return None

    def kill(self, place):
        """Kills a program. If the listener is a long-running service, it kills the caller instead."""
        place = 0 if self.service else place
        self.programs[place].kill()
        self.killed.add(place)

    def ended(self, place):
        """The line that a program printed, or that it was killed."""
        if place == 1 and self.service:
            return self.told_by_service()
        out, err = self.programs[place].communicate(timeout=LONG)
        status = self.programs[place].returncode
        if status == -9 and place in self.killed:
            return "killed"
        line = (out + err).decode().removesuffix("\n")
        is_unmade = line == UNMADE and place == 0 and self.is_broken
        if status not in (0, 1) or not (line in ENDS or is_unmade) or line.startswith("fault:") != bool(err):
            raise Wrong(f"the {['caller', 'listener'][place]} ended by status {status}, {out!r}, {err!r}")
        return line

    def told_by_service(self):
        """The line of the long-running service, which is then done with the session."""
        line = self.service.either()
        if line not in ENDS:
            raise Wrong(f"the service that stays told {line!r}")
        self.service.look()
        return line
