"""What documents show of a day: the indented blocks below a heading, and what is typed in them and printed. Also a folder in which it is
typed."""

import os
import re
import shutil
import signal
import subprocess
import tempfile
import time
from pathlib import Path

from program import PROGRAM, ROOT
from services import LONG, Wrong, expect, free_port

# The ports that the documents name.
PORT = re.compile(r"\b(?:3305|3306|3307|3308|8080|6619|6620|13305|13306)\b")
# The end of a text that a command gets in the lines below it.
HERE = re.compile(r"<<'?(\w+)'?$")


def part_of(path, heading):
    """What a document has below a heading of the second level."""
    return path.read_text(encoding="utf-8").partition(f"\n## {heading}")[2].partition("\n## ")[0]


def blocks_below(path, heading, least):
    """The indented blocks of a document below a heading, each as its lines. If fewer are there than `least`, the heading or its blocks aren't
    found as they are written now."""
    lines = [line[4:] if line.startswith("    ") else None for line in part_of(path, heading).splitlines()]
    blocks, block = [], []
    for line in [*lines, None]:
        if line is not None:
            block.append(line)
        elif block:
            blocks.append(block)
            block = []
    if len(blocks) < least:
        raise Wrong(f"below {heading!r} of {path.name}: wanted {least} blocks or more, got {len(blocks)}")
    return blocks


def typed(block):
    """What is typed in a block, each with its output, or None if that isn't given."""
    found, end, is_continued = [], None, False
    for line in block:
        if end is not None:
            found[-1][0] += f"\n{line}"
            end = None if line == end else end
            continue
        if is_continued:
            found[-1][0] += line.strip().rstrip("\\")
        elif line.startswith("$ "):
            found.append([line[2:].rstrip("\\"), ""])
        elif found and found[-1][1] is not None:
            found[-1][1] += f"{line}\n"
            continue
        else:
            found.append([line.rstrip("\\"), None])
        is_continued = line.endswith("\\")
        here = HERE.search(line)
        end = here[1] if here else None
    return found


class Typist:
    """Types commands in a folder of its own, in which examples/ is too, with the program on the path. The ports that the documents name are
    replaced by free ones, and /tmp by the folder."""

    def __enter__(self):
        self.path = Path(tempfile.mkdtemp())
        self.ports, self.services = {}, []
        shutil.copytree(ROOT / "examples", self.path / "examples")
        for book in (self.path / "examples").glob("*/book.toml"):
            book.write_text(self.as_here(book.read_text(encoding="utf-8")), encoding="utf-8")
        (self.path / "bin").mkdir()
        for link in ("bin/oftp_station", "oftp_station"):
            (self.path / link).symlink_to(PROGRAM)
        self.environment = {**os.environ, "PATH": f"{self.path}/bin:{os.environ['PATH']}"}
        return self

    def __exit__(self, *_):
        for service in self.services:
            service.kill()
            service.wait()
        for told in self.path.glob("*/*pid"):
            try:
                os.kill(int(told.read_text()), signal.SIGKILL)
            except (OSError, ValueError):
                pass
        shutil.rmtree(self.path)

    def as_here(self, text):
        """A text of the documents with the ports and the folder of this typist."""
        return PORT.sub(lambda it: str(self.ports.setdefault(it[0], free_port())), text).replace("/tmp/", f"{self.path}/")

    def await_ready(self, command):
        """Waits until a service in the background has printed `ready` to the file that it writes to."""
        lines = self.path / command.rpartition(">")[2].removesuffix("&").strip()
        until = time.monotonic() + LONG
        while not (lines.is_file() and lines.read_text(encoding="utf-8").startswith("ready\n")):
            if time.monotonic() > until:
                raise Wrong(f"{command}: it isn't ready")
            time.sleep(0.02)

    def words(self, command):
        """The words by which a command is run."""
        return ["bash", "-c", command]

    def type(self, command, wanted):
        """Types a command. One that ends in `&` runs in the background. A station without a named port has its default one."""
        if " run --db" in command and " --port " not in command:
            command = command.replace(" run --db", " run --port 3305 --db")
        here = self.as_here(command)
        if command.endswith("&"):
            words = self.words(f"exec {here[:-1]}")
            self.services.append(subprocess.Popen(words, cwd=self.path, env=self.environment, stderr=subprocess.DEVNULL))
            self.await_ready(here)
            return
        done = subprocess.run(self.words(here), cwd=self.path, env=self.environment, capture_output=True, text=True, timeout=LONG, check=False)
        if wanted is None:
            expect(done.returncode, 0, f"{command}, which said {done.stdout}{done.stderr}")
        else:
            expect(done.stdout + done.stderr, self.as_here(wanted), command)
