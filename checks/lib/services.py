"""`run`, `listen` and `http` as processes, each over a database and at a port of its own, with those who connect to them."""

import collections
import itertools
import os
import socket
import subprocess
import time
from pathlib import Path

from channel import answer_in, request_of
from program import PROGRAM
from ready import ready_to_read
from row_files import ROWS

BOOK = ROWS / "books/usual.toml"
CARMAKER = "O0177CARMAKER"
# The time limit for anything on a loaded machine.
LONG = 60
# What a station says to a command whose request it will read.
READY = b"1"


class Wrong(Exception):
    """A case that failed."""


class NotTried(Exception):
    """What this machine lacks, and what isn't tried for that reason."""


def expect(found, wanted, what):
    if found != wanted:
        raise Wrong(f"{what}: {found!r}, not {wanted!r}")


# These are below the ephemeral ports, so that no connection takes one before a service binds it. A script that runs in parallel begins at
# another one, and takes none of the last ones that this script has taken. It holds a name for each of them. A process that this script begins in
# the meantime has the socket that asked until it runs its program: so that one is bound as a service's is, which keeps nobody from listening.
PORTS = itertools.count(20000 + os.getpid() * 101 % 10000)
TAKEN = collections.deque(maxlen=200)


def free_port(host="127.0.0.1"):
    for port in PORTS:
        name = socket.socket(socket.AF_UNIX)
        try:
            name.bind(f"\0port {port} of a check of oftp_station")
            with socket.socket(socket.AF_INET6 if ":" in host else socket.AF_INET) as probe:
                probe.setsockopt(socket.SOL_SOCKET, socket.SO_REUSEADDR, 1)
                probe.bind((host, port))
        except OSError:
            name.close()
            continue
        TAKEN.append(name)
        return port


def port_of_ipv6(what):
    """A free port of this machine's own address of IPv6, for what can't be tried without one."""
    try:
        with socket.socket(socket.AF_INET6) as probe:
            probe.bind(("::1", 0))
    except OSError as why:
        raise NotTried(f"IPv6: {what}") from why
    return free_port("::1")


class Service:
    """A service of the program in a folder of its own, with its database and port."""

    # The time limit in seconds for anything.
    patience = LONG

    def __init__(self, room, command, *words, book=BOOK, port=None, program=PROGRAM, output=subprocess.PIPE, faults=subprocess.PIPE, environment=None, **how):
        self.port = port or free_port()
        self.database = room / "database"
        of_book = ["--book", book] if command in ("listen", "run") else []
        words = [program, command, "--db", self.database, *of_book, "--port", str(self.port), *words]
        environment = {**os.environ, **(environment or {})}
        self.program = subprocess.Popen(words, stdout=output, stderr=faults, env=environment, **how)
        # The octets of each output that aren't a requested line yet.
        self.texts = {stream: b"" for stream in (self.program.stdout, self.program.stderr) if stream}

    def __enter__(self):
        return self

    def __exit__(self, *_why):
        self.program.kill()
        self.program.wait()

    def caller(self, host="127.0.0.1", is_narrow=False, port=None):
        """A connection to the service, which may not listen yet, or to another port of it; a narrow one buffers few octets."""
        begin = time.monotonic()
        while True:
            caller = socket.socket(socket.AF_INET6 if ":" in host else socket.AF_INET)
            caller.settimeout(self.patience)
            if is_narrow:
                caller.setsockopt(socket.IPPROTO_TCP, socket.TCP_MAXSEG, 536)
                caller.setsockopt(socket.SOL_SOCKET, socket.SO_RCVBUF, 4096)
            try:
                caller.connect((host, port or self.port))
                return caller
            except ConnectionRefusedError:
                caller.close()
                if self.program.poll() is not None or time.monotonic() - begin > self.patience:
                    raise
                time.sleep(0.02)

    def line(self):
        """The next line on standard output."""
        return self.next_of([self.program.stdout])

    def fault(self):
        """The next line on standard error."""
        return self.next_of([self.program.stderr])

    def either(self):
        """The next line, wherever it comes."""
        return self.next_of([self.program.stdout, self.program.stderr])

    def next_of(self, streams):
        """The next line of one of these outputs."""
        until = time.monotonic() + self.patience
        streams = list(streams)
        while not any(b"\n" in self.texts[stream] for stream in streams):
            ready = ready_to_read(streams, max(until - time.monotonic(), 0))
            piece = os.read(ready[0].fileno(), 4096) if ready else b""
            if ready and not piece and len(streams) > 1:
                # What ended may have told why on the other one.
                streams.remove(ready[0])
                continue
            if not piece:
                self.program.kill()
                raise Wrong(f"{'it ended' if ready else f'no line comes for {self.patience} s'}, and it told {self.rest()}")
            self.texts[ready[0]] += piece
        stream = next(stream for stream in streams if b"\n" in self.texts[stream])
        line, _, self.texts[stream] = self.texts[stream].partition(b"\n")
        return line.decode()

    def rest(self):
        """What it printed besides the requested lines, up to its end: on standard output, and on standard error."""
        streams = (self.program.stdout, self.program.stderr)
        try:
            last = self.program.communicate(timeout=self.patience)
        except subprocess.TimeoutExpired as why:
            raise Wrong(f"it doesn't end within {self.patience} s, and it told {[why.stdout, why.stderr]}") from why
        return [self.texts.get(stream, b"") + (more or b"") for stream, more in zip(streams, last)]

    def ends(self, status=0, err=b""):
        """It ends by itself, and has printed nothing else but this on standard error."""
        told = self.rest()
        expect((self.program.returncode, *told), (status, b"", err), "the service ended")

    def give(self, command, *words):
        """An operator's command over the database of the service."""
        book = ["--book", BOOK] if command in ("submit", "release", "refuse") else []
        return subprocess.run([PROGRAM, command, "--db", self.database, *book, *words], capture_output=True, timeout=LONG, check=False)

    def submit(self, file):
        """Submits a file for the partner, as the first one of the database."""
        identity = ["--dataset", "INV.1", "--date", "20240201", "--time", "0800000001"]
        done = self.give("submit", *identity, "--to", CARMAKER, "--format", "U", file)
        expect(done.stdout, b"done: submit 1\n", "submit")


class Resident(Service):
    """A station as `run`, which keeps its database open."""

    def __init__(self, room, *words, **how):
        super().__init__(room, "run", *words, **how)
        self.socket = Path(f"{self.database}-station")

    def __enter__(self):
        expect(self.either(), "ready", "the first line")
        return self

    def taken(self):
        """The processor seconds that it has taken."""
        return int(Path(f"/proc/{self.program.pid}/schedstat").read_text().split()[0]) / 1e9

    def client(self, name=None):
        """A connection to its socket for commands, with the octet by which it says that it will read a request. Its end may have a name."""
        client = socket.socket(socket.AF_UNIX)
        client.settimeout(LONG)
        with Short(self.socket) as path:
            client.connect(path)
        if name:
            client.bind(str(name))
        return client

    def asked(self, *words, book=b"", content=b"", name=None):
        """A connection through which a command has asked, by the octets of its book and of its file."""
        client = self.client(name)
        expect(client.recv(1), READY, "the first octet to a command")
        client.sendall(request_of(*words, book=book, content=content))
        return client


class Short:
    """A short path to a file: through a descriptor of its folder, which is open meanwhile."""

    def __init__(self, path):
        self.path = path

    def __enter__(self):
        self.folder = os.open(self.path.parent, os.O_RDONLY)
        return f"/proc/self/fd/{self.folder}/{self.path.name}"

    def __exit__(self, *_why):
        os.close(self.folder)


def rest_of(connection):
    """All octets up to the end."""
    octets = b""
    while piece := connection.recv(65536):
        octets += piece
    return octets


def answer_to(client):
    """The answer to a command: its pieces together, and how it ends, which is None where the answer is cut off."""
    return answer_in(rest_of(client))
