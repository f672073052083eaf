"""A station that keeps its database open, and the processor time that it takes without its opening."""

from pathlib import Path

from filled import THEIRS, copied
from listing_files import ask
from measured import run
from one_file import frame_of
from program import PROGRAM
from services import Resident, expect, free_port, rest_of


class Holding(Resident):
    """A station over a copy of a database, with its port for requests."""

    # A database of 1 GiB takes minutes to open on a loaded machine.
    patience = 1800

    def __init__(self, folder, database, book, *words, **how):
        self.requests = free_port()
        folder.mkdir(exist_ok=True)
        copied(database, folder / "database")
        super().__init__(folder, "--http-port", str(self.requests), *words, book=book, **how)

    def memory(self):
        """The most KiB of memory that it has had."""
        status = Path(f"/proc/{self.program.pid}/status").read_text()
        return int(status.partition("VmHWM:")[2].split()[0])

    def command(self, name, *words):
        """The processor time of a command beside it."""
        return run([PROGRAM, name, "--db", self.database, *words]).processor

    def request(self, target):
        """A request; only the station takes processor time for it."""
        port, self.port = self.port, self.requests
        try:
            reply = ask(self, [f"GET {target} HTTP/1.1\r\n\r\n".encode()])
        finally:
            self.port = port
        expect(reply[:12], b"HTTP/1.1 200", f"the reply for {target}")
        return 0.0

    def session(self, *frames, credit=99, buffer=16384):
        """A session of a partner that sends these frames between SSID and ESID. It returns what the station sent."""
        with self.caller() as caller:
            caller.sendall(spoken(*frames, credit=credit, buffer=buffer))
            said = rest_of(caller)
        expect(self.line(), f"session {THEIRS} in: end: partner 00", "the line of the session")
        return said


def spoken(*frames, credit=99, buffer=16384):
    """The octets of a partner that calls and sends these frames."""
    opening = frame_of("SSID", code=THEIRS, password="CARPW", buffer=str(buffer), credit=str(credit), mode="B")
    return b"".join([opening, *frames, frame_of("ESID", reason="00")])


def taken_answers(count, frames, credit=99):
    """The frames with which a partner accepts this many files, each of this many DATA, after it sent CD."""
    of_one = [frame_of("SFPA", count="0"), frame_of("CDT") * (frames // credit), frame_of("EFPA")]
    return [frame_of("CD"), *of_one * count]
