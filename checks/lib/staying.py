"""`run`, `listen` and `http` as services that run for as long as a check does, their callers, and their descriptors and memory.

After each caller a service has exactly the descriptors that it had before the first one. Its memory goes up and down with the sizes of the
databases that it opens. The allocator keeps some of what is freed, which hides a leak for a while. So a service does the same small tasks
over a new database before the first caller and after the last one. Its memory during and after them is compared: at the end it is at most
`MORE` KiB above the value at the beginning. A station that keeps its database open has no new one for this. It caches pages of its
database, so it may have as much more as that has grown by, up to `PAGES` KiB.
"""

import os
import socket
import struct
import threading
import time
from pathlib import Path

import oftp
from listing_files import END, ask, body_of, reply_of
from services import CARMAKER, LONG, Resident, Service, Wrong, expect

# A long-running service may have more callers than come.
CALLERS = "1000000"
# Code of the program that runs for the first time is loaded. The allocator keeps some of the largest database that was opened, once: some
# 2 MiB for one of 8 MB.
MORE = 4096
# How much of its database a station that keeps it open caches: 2,000 pages.
PAGES = 8000
# The number of equal tasks at the beginning and at the end. The first half is a warm-up.
TASKS = 20
# The time limit in seconds until a service is done with a caller that has its answer.
SOON = 20
TARGETS = ["/in", "/out", "/responses"]


def frame(kind, **fields):
    return oftp.frame(oftp.spell(kind, fields))


# What strangers send before they are silent, and the lines that report them.
OPENS = frame("SSID", code=CARMAKER, password="CARPW", buffer="128", credit="1", mode="B")
WRONG_PASSWORD = frame("SSID", code=CARMAKER, password="WRONG", buffer="128", credit="1", mode="B")
STRANGERS = [
    (b"", "end: input"),
    (WRONG_PASSWORD[:40], "end: input"),
    (WRONG_PASSWORD, "end: own 04"),
    (WRONG_PASSWORD + bytes(10_000), "end: own 04"),
    (b"\x20\x00\x00\x05\x43", "end: own 02"),
]
# How the session of a caller that resets the connection may end.
RESETS = ["end: input", "fault: 1 read", "fault: 2 write"]


def held_port():
    """A port that nobody else gets, and on which the program can listen."""
    holder = socket.socket()
    holder.setsockopt(socket.SOL_SOCKET, socket.SO_REUSEADDR, 1)
    holder.bind(("127.0.0.1", 0))
    return holder


# ---- what a process holds


def descriptors_of(process):
    """The target of each descriptor of a process."""
    found = {}
    for entry in os.listdir(f"/proc/{process}/fd"):
        try:
            found[int(entry)] = os.readlink(f"/proc/{process}/fd/{entry}")
        except FileNotFoundError:
            pass  # it was closed meanwhile
    return found


def memory_of(process, name):
    """The KiB of memory of a process (VmRSS), and its peak since the last reset (VmHWM)."""
    for line in Path(f"/proc/{process}/status").read_text().splitlines():
        if line.startswith(f"{name}:"):
            return int(line.split()[1])
    raise Wrong("the service has ended")


def forget_peak(process):
    """Resets the peak of a process's memory."""
    Path(f"/proc/{process}/clear_refs").write_text("5")


def is_heard(port):
    """Whether anyone listens at this port of 127.0.0.1. This makes no connection."""
    return f" 0100007F:{port:04X} 00000000:0000 0A " in Path("/proc/net/tcp").read_text()


def is_asleep(process):
    """Whether a process waits for something. Behind its listening, a service takes descriptors before it waits for the first time."""
    try:
        return Path(f"/proc/{process}/stat").read_text().rpartition(")")[2].split()[0] == "S"
    except (FileNotFoundError, ProcessLookupError):
        return False


# ---- services


class Stays:
    """The descriptors and the memory of a long-running service. Its task is what it does for a caller without a request of its own."""

    # Each has these, beside its `program`, its `database` and its `port`.
    command = task = descriptors = memory = None
    callers = 0

    def begin(self):
        """Waits until it listens and does nothing more, and notes its descriptors and memory before its first caller."""
        until = time.monotonic() + LONG
        while not (is_heard(self.port) and is_asleep(self.program.pid)):
            if self.program.poll() is not None or time.monotonic() > until:
                raise Wrong(f"{self.command} isn't heard")
            time.sleep(0.01)
        self.descriptors = descriptors_of(self.program.pid)
        self.memory = self.measure()

    def measure(self):
        """Its peak memory during the same tasks, and its memory after them."""
        for number in range(TASKS):
            if number == TASKS // 2:
                forget_peak(self.program.pid)
            self.task(self)
            self.wait_until_done()
        return [memory_of(self.program.pid, name) for name in ("VmHWM", "VmRSS")]

    def look(self):
        """After a caller it has the descriptors that it had before the first one."""
        self.callers += 1
        self.wait_until_done()

    def wait_until_done(self):
        """It is done with a caller, or soon will be: then it has no other descriptors than before the first one."""
        until = time.monotonic() + SOON
        while (now := descriptors_of(self.program.pid)) != self.descriptors:
            if time.monotonic() > until:
                raise Wrong(f"{self.command} holds {now} behind {self.callers} callers, and held {self.descriptors} before them")
            time.sleep(0.002)

    def compared(self, may_grow=0):
        """Its descriptors and memory, in words, and what is wrong: more than at the beginning, beyond the allowed growth. The next
        comparison is with the current values."""
        memory = self.measure()
        told = (
            f"{self.command}: {self.callers} callers, {len(self.descriptors)} descriptors before and behind each; KiB of memory "
            f"within and behind the same tasks: {self.memory} before them, {memory} behind"
        )
        is_much = any(now > before + MORE + may_grow for before, now in zip(self.memory, memory))
        self.memory = memory
        return told, [f"too much memory: {told}"] if is_much else []


class Staying(Stays, Service):
    """A service that opens its database anew for each caller, and keeps running."""

    def __init__(self, room, command, task, *words, **how):
        self.command = command
        self.task = task
        self.holder = held_port()
        super().__init__(room, command, *words, port=self.holder.getsockname()[1], **how)
        try:
            self.begin()
        except (Wrong, OSError):
            self.leave()
            raise

    def measure(self):
        """Its memory over a new database."""
        for end in ("", "-wal"):
            Path(f"{self.database}{end}").unlink(missing_ok=True)
        return super().measure()

    def settle(self):
        """Ends it. It returns its descriptors and memory, in words, and what is wrong with these, or with what it printed besides the
        requested lines."""
        try:
            told, whys = self.compared()
        except (Wrong, OSError) as why:
            return f"{self.command}: {self.callers} callers", [str(why)]
        self.program.kill()
        return told, [*(f"{self.command} told {line!r}" for line in self.rest() if line), *whys]

    def leave(self):
        """Ends it, whatever it has printed."""
        self.program.kill()
        self.program.wait()
        self.holder.close()


class StayingStation(Stays, Resident):
    """A station that keeps its database open, and keeps running. Its standard output is a file."""

    command = "run"

    def __init__(self, room, task, *words, **how):
        self.task = task
        super().__init__(room, *words, **how)

    def begin(self):
        super().begin()
        self.size = self.kibi()

    def kibi(self):
        """The KiB of its database."""
        return sum(path.stat().st_size for end in ("", "-wal") if (path := Path(f"{self.database}{end}")).exists()) // 1024

    def compared(self, may_grow=0):
        before, self.size = self.size, self.kibi()
        return super().compared(may_grow + min(PAGES, max(0, self.size - before)))


class Services:
    """Both services over the database of a folder."""

    def __init__(self, room, book):
        self.http = Staying(room, "http", ask_list, "--requests", CALLERS)
        try:
            self.listen = Staying(room, "listen", hold_session, "--sessions", CALLERS, book=book)
        except (Wrong, OSError):
            self.http.leave()
            raise

    def __enter__(self):
        return self

    def __exit__(self, *_why):
        for service in (self.listen, self.http):
            service.leave()

    def settle(self):
        """Ends both. It returns the descriptors and memory of each, in words, and what is wrong."""
        came = [service.settle() for service in (self.listen, self.http)]
        return [told for told, _ in came], [why for _, whys in came for why in whys]

    def meet(self, chance):
        """A stranger calls, or a request asks for the content of the database."""
        chance.choice([self.meet_stranger, self.meet_request])(chance)

    def meet_stranger(self, chance):
        if chance.random() < 0.2:
            reset(self.listen, WRONG_PASSWORD[: chance.randrange(len(WRONG_PASSWORD))])
            lines = RESETS
        else:
            said, line = chance.choice(STRANGERS)
            converse(self.listen, said, lambda: len(said))
            lines = [line]
        line = self.listen.either()
        if line not in lines:
            raise Wrong(f"the line of a stranger is {line!r}, not one of {lines}")
        self.listen.look()

    def meet_request(self, chance):
        target = chance.choice(TARGETS)
        head = f"GET {target} HTTP/1.1\r\n\r\n".encode()
        how = chance.random()
        if how < 0.1:
            reset(self.http, head[: chance.randrange(len(head))])
        elif how < 0.2:
            expect(ask(self.http, [head[: chance.randrange(len(head))]], is_over=True), b"", "the reply to half a head")
        elif how < 0.3:
            expect(ask(self.http, [b"GET /nothing HTTP/1.1\r\n\r\n"]), reply_of("404", ""), "the reply to a target that nothing fits")
        else:
            self.expect_list(target, ask(self.http, [head]))
        self.http.look()

    def expect_list(self, target, reply):
        """The reply has what stock sqlite3 reads."""
        first, _, body = reply.partition(END + END)
        expect((first[:13], body), (b"HTTP/1.1 200 ", body_of(self.http.database, target)), f"the reply for {target}")


# ---- who calls them


def ask_list(http):
    """The task of `http`."""
    expect(ask(http, [b"GET /in HTTP/1.1\r\n\r\n"]), reply_of("200", "[]"), "the reply for an empty database")


def hold_session(listen):
    """The task of `listen`."""
    converse(listen, OPENS + frame("ESID", reason="00"), lambda: len(OPENS))
    expect(listen.either(), "end: partner 00", "the line of a session without files")


def reset(service, octets):
    """A caller that sends this, and resets the connection."""
    with service.caller() as caller:
        caller.setsockopt(socket.SOL_SOCKET, socket.SO_LINGER, struct.pack("ii", 1, 0))
        caller.sendall(octets)


def converse(service, octets, next_size):
    """What a service answers to a caller that sends these octets, in pieces of these sizes, and then nothing more."""
    with service.caller() as caller:
        caller.setsockopt(socket.IPPROTO_TCP, socket.TCP_NODELAY, 1)
        writer = threading.Thread(target=say, args=(caller, octets, next_size))
        writer.start()
        answer = hear(caller)
        writer.join()
    return answer


def say(caller, octets, next_size):
    at = 0
    try:
        while at < len(octets):
            size = next_size()
            caller.sendall(octets[at : at + size])
            at += size
        caller.shutdown(socket.SHUT_WR)
    except OSError:
        pass  # the service has ended the session


def hear(caller):
    """All octets up to the end. If the service hasn't read what was sent after the end of a session, a reset follows its last octet."""
    octets = b""
    try:
        while piece := caller.recv(65536):
            octets += piece
    except ConnectionResetError:
        pass
    return octets
