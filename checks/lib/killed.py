"""A station whose programs are killed at random moments: its database and its book. What is left of it is told by stock sqlite3 and by
the program's own reports. Services may stay beside them."""

import os
import random
import select
import shutil
import subprocess
import tempfile
import threading
import time
from pathlib import Path

import oftp
import tables
from program import PROGRAM
from services import Wrong, expect
from staying import converse

BLOCK = 1024
BUFFER = 2048
CREDIT = 8
SHARE_OF_SERVICES = 0.4
BOOK = f"""[station]
code = 'O0013SUPPLIER'
buffer = {BUFFER}
credit = {CREDIT}
restart = true

[[partner]]
code = 'O0177CARMAKER'
expects = 'CARPW'
sends = 'SUPPW'
mode = 'B'
address = '127.0.0.1:3305'
"""


def kinds_of(octets):
    """The commands that came out, in order, each a kind and its fields. One that is cut has no fields, and a header alone is left out."""
    commands = []
    for spelled in oftp.frames_of(octets):
        if len(spelled) > 4:
            is_whole = int.from_bytes(spelled[1:4], "big") == len(spelled)
            commands.append(oftp.read(spelled[4:]) if is_whole else (oftp.KIND_OF[spelled[4:5].decode()], {}))
    return commands


def rows_of(octets):
    return [octets[at : at + BLOCK] for at in range(0, len(octets), BLOCK)]


class Station:
    """A database, and the program that is killed over it. Where services stay over it, some sessions go to them, and are cut off."""

    def __init__(self, room, chance):
        self.room = room
        self.chance = chance
        self.database = room / "database"
        self.book = room / "book.toml"
        self.book.write_text(BOOK)
        self.usual_time = {}
        self.services = None
        # How many programs were killed, and how many sessions of a service were cut off.
        self.kills = self.cuts = 0

    def begin_anew(self):
        for end in ("", "-wal"):
            Path(f"{self.database}{end}").unlink(missing_ok=True)

    def words(self, command, *rest):
        return [PROGRAM, command, "--db", self.database, "--book", self.book, *rest]

    def until_killed(self, name, words, **how):
        """Runs a command and kills it after a random time, or lets it end. It answers its standard output, and whether it was killed."""
        status, out, err = self.end_of(name, words, **how)
        if status not in (0, -9):
            raise Wrong(f"{name}: status {status}, {out!r}, {err!r}")
        self.kills += status == -9
        return out, status == -9

    def end_of(self, name, words, **how):
        """Runs a command and kills it after a random time, or lets it end. It answers its status, and both outputs."""
        usual = self.usual_time.setdefault(name, 0.3)
        begin = time.monotonic()
        with subprocess.Popen(words, stdout=subprocess.PIPE, stderr=subprocess.PIPE, **how) as program:
            for end in how.get("pass_fds", []):
                os.close(end)
            told, _, _ = select.select([program.stdout], [], [], self.chance.uniform(0, 1.05 * usual))
            self.usual_time[name] = (usual + 2 * (time.monotonic() - begin)) / 3 if told else usual * 1.1
            if told and self.chance.random() < 0.5:
                # Its output is read meanwhile: a report may be larger than a pipe.
                out, err = program.communicate(timeout=60)
            else:
                if told:
                    time.sleep(self.chance.uniform(0, 0.003))
                program.kill()
                out, err = program.communicate()
        return program.returncode, out, err

    def session(self, name, octets, *role):
        """A session with these octets, in pieces of random sizes, through a pipe or over a socket. It answers the commands that came out,
        and whether it was killed or cut off."""
        if self.services and not role and self.chance.random() < SHARE_OF_SERVICES:
            return self.call(octets)
        source, sink = os.pipe()
        answer = self.room / "answer"
        answer.unlink(missing_ok=True)
        seed = self.chance.random()
        writer = threading.Thread(target=write_pieces, args=(sink, octets, random.Random(seed)))
        writer.start()
        try:
            words = self.words("feed", *role, f"/dev/fd/{source}", answer)
            _, was_killed = self.until_killed(name, words, pass_fds=[source])
        finally:
            writer.join()
        return kinds_of(answer.read_bytes() if answer.exists() else b""), was_killed

    def call(self, octets):
        """A session with the service that stays. The partner is gone within it, or says all."""
        chance = self.chance
        end = chance.choice([len(octets), chance.randrange(len(octets))])
        sizes = random.Random(chance.random())
        greatest = chance.choice([64, 4096, 65536])
        answer = converse(self.services.listen, octets[:end], lambda: sizes.randint(1, greatest))
        expect(self.services.listen.either(), "end: partner 00" if end == len(octets) else "end: input", "the line of the service")
        self.services.listen.look()
        self.cuts += end < len(octets)
        return kinds_of(answer), end < len(octets)

    def called(self):
        return ["--role", "initiator", "--partner", "O0177CARMAKER"]

    def tables(self):
        """The tables that are left. The program has to tell the same, and to leave them so."""
        found = tables.read(self.database)
        why = tables.unfit(found)
        if why:
            raise Wrong(why)
        for kind, table in (("in", "in_file"), ("out", "out_file"), ("issued", "issued"), ("received", "received")):
            if not found[table]:
                continue
            done = subprocess.run([PROGRAM, "report", "--db", self.database, kind], capture_output=True, check=False, timeout=60)
            if done.returncode != 0 or done.stderr:
                raise Wrong(f"report {kind}: status {done.returncode}, {done.stderr!r}")
            told = [line.split(",") for line in done.stdout.decode().splitlines()]
            for entry, line in zip(found[table], told[1:]):
                self.compare(found, table, entry, dict(zip(told[0], line)))
            if len(told) - 1 != len(found[table]):
                raise Wrong(f"report {kind} has {len(told) - 1} lines, not {len(found[table])}")
        after = tables.read(self.database)
        if any(after[table] != found[table] for table in tables.TABLES):
            raise Wrong("a report changed the tables")
        return found

    def compare(self, found, table, entry, line):
        wanted = {name: str(entry[name]) for name in line if name in entry}
        if table in tables.ROWS_OF:
            bodies = tables.bodies(found, table, entry["no"])
            wanted |= {"rows": str(len(bodies)), "units": str(sum(map(len, bodies)))}
        if table == "issued":
            wanted["sent"] = "yes" if entry["sent"] else "no"
        for name, value in wanted.items():
            if line[name] != value:
                raise Wrong(f"the report says {line}, the table {wanted}")


def write_pieces(sink, octets, chance):
    at = 0
    greatest = chance.choice([64, 4096, 65536, len(octets) + 1])
    try:
        while at < len(octets):
            size = chance.randint(1, greatest)
            at += os.write(sink, octets[at : at + size])
            if chance.random() < 0.02:
                time.sleep(chance.uniform(0, 0.003))
    except BrokenPipeError:
        pass
    os.close(sink)


def sockets_of(folder, names):
    """Those of these names in a folder that are sockets, which can't be copied."""
    return [name for name in names if (Path(folder) / name).is_socket()]


def keep(room):
    """Keeps what is left, for whoever looks into it. It answers where, and what isn't there, since it was gone before it was copied."""
    kept = tempfile.mkdtemp(prefix="killed_")
    try:
        shutil.copytree(room, kept, dirs_exist_ok=True, ignore=sockets_of)
    except shutil.Error as why:
        return f"{kept} without {[str(lost) for lost, _, _ in why.args[0]]}"
    return kept
