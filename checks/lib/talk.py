"""A session with a station over a socket, whose octets come in pieces. It says what the station must have said by now, and what it may hold if
it is cut off.

The model of the station (checks/lib/model.py) hears each piece as it is sent. Whatever a command changes is done before the first octet of its
answer goes out, and a command without an answer changes nothing. So once all answers were read, the register is the model's.
"""

import contextlib
import socket
import struct

import model
from ready import ready_to_read

# How a session may end whose connection is cut off.
CUT_ENDS = ["end: input", "fault: 1 read", "fault: 2 write"]
# How a call may end whose connection is reset before the station has seen it made.
UNMADE = "fault: 8 socket"
PIECE = 65536


class Talk(model.Hearing):
    """The partner's side of a session over a connection, and the model of the station's side."""

    def __init__(self, connection, session):
        super().__init__(session)
        self.connection = connection
        self.got = b""
        self.is_over = False
        self.begin()
        connection.setsockopt(socket.IPPROTO_TCP, socket.TCP_NODELAY, 1)

    def begin(self):
        """From here on it is noted what may be left: each register, with the number of octets that the station has said before it."""
        self.registers = [(-1, self.session.register.copied())]

    def take(self, command):
        before = len(self.wanted())
        super().take(command)
        if len(self.wanted()) > before:
            self.registers.append((before, self.session.register.copied()))

    def wanted(self):
        """All that the station has to say by now."""
        return b"".join(self.session.out)

    def say(self, octets):
        """Sends the next octets. The station may have ended the session, and then hears no more."""
        self.read_what_is_there()
        self.hear(octets)
        with contextlib.suppress(BrokenPipeError, ConnectionResetError):
            self.connection.sendall(octets)

    # what the station says

    def read_what_is_there(self):
        while not self.is_over and ready_to_read([self.connection], 0):
            self.read()

    def read(self):
        """The next octets. At the end of a session a reset may follow them, where the station hasn't read all."""
        try:
            piece = self.connection.recv(PIECE)
        except ConnectionResetError:
            piece = b""
        self.got += piece
        self.is_over = not piece

    def wait(self):
        """Reads until all answers are there that have to be, the station has ended, or none comes for long."""
        size = len(self.wanted())
        with contextlib.suppress(TimeoutError):
            while not self.is_over and len(self.got) < size:
                self.read()

    def finish(self):
        """Says nothing more, and reads up to the end."""
        with contextlib.suppress(OSError):
            self.connection.shutdown(socket.SHUT_WR)
        while not self.is_over:
            self.read()

    # where it is cut off

    def is_answered(self):
        return len(self.got) >= len(self.wanted())

    def cut(self, is_reset):
        """Breaks the connection."""
        if is_reset:
            self.connection.setsockopt(socket.SOL_SOCKET, socket.SO_LINGER, struct.pack("ii", 1, 0))
        self.connection.close()

    def may_be_left(self):
        """The registers that the station may hold after a cut. They are that of the last change of which an octet of the answer was read, and
        each later one."""
        first = max(number for number, (before, _) in enumerate(self.registers) if before < len(self.got))
        return [register for _, register in self.registers[first:]]


def line_of(talk):
    """The line of a session that has heard all."""
    return f"{whose(talk)}: {talk.ends()}"


def whose(talk):
    session = talk.session
    return f"session {session.called} out" if session.called else f"session {getattr(session, 'partner', '-')} in"


def lines_of_a_cut(talk):
    """The lines of a session whose connection broke. A caller who has read no more than the greeting may not have been let in. A call of which
    nothing was read may not have been seen as made."""
    names, ends = [whose(talk)], CUT_ENDS
    if talk.session.called and not talk.got:
        ends = [*CUT_ENDS, UNMADE]
    elif not talk.session.called and len(talk.got) <= len(talk.session.out[0]):
        names.append("session - in")
    return [f"{name}: {end}" for name in names for end in ends]


def told_by_call(line):
    """The status and the output of the command that had the station call, by the station's line of that session."""
    told = f"{line.partition(': ')[2]}\n".encode()
    return (1, b"", told) if told.startswith(b"fault:") else (0, told, b"")
