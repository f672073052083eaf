"""Walks through the documents, and how long each takes.

A walk begins at the first line of README.md and ends at the line that answers its question. docs/evidence/walks.csv has the stretches that are read,
one after another: the file, and the words with which the first and the last line begin. A stretch in another file has to be linked from one that was
read. A reader takes a minute for 200 words, and ten seconds for a link, for a way back or for another place of the same page.
"""

import re
from dataclasses import dataclass, field

from program import ROOT

WORDS_PER_MINUTE, SECONDS_PER_LINK, MOST_MINUTES = 200, 10, 5
START = ("README.md", "# Jukeralo")
LINK = re.compile(r"\[([^\]]*)\]\(([^)\s]+)\)")


@dataclass
class Walk:
    question: str
    answer: str
    stretches: list = field(default_factory=list)
    words: int = 0
    links: int = 0
    lacks: list = field(default_factory=list)

    @property
    def minutes(self):
        return self.words / WORDS_PER_MINUTE + self.links * SECONDS_PER_LINK / 60


def anchor_of(heading):
    """The anchor that a viewer gives to a heading."""
    return re.sub(r"[^\w\- ]", "", LINK.sub(r"\1", heading.lstrip("# ")).lower()).replace(" ", "-")


def words_in(lines):
    """How many words a reader reads: a link counts by its text, and what has neither letter nor digit doesn't count."""
    text = LINK.sub(r"\1", " ".join(lines))
    return sum(1 for it in text.split() if re.search(r"\w", it))


def stretch(path, begin, end):
    """The lines from one that begins with `begin` to the next that begins with `end`."""
    lines = [it.strip() for it in (ROOT / path).read_text(encoding="utf-8").splitlines()]
    starts = [at for at, it in enumerate(lines) if it.startswith(begin)]
    if not starts:
        return None
    ends = [at for at, it in enumerate(lines) if at >= starts[0] and it.startswith(end)]
    return lines[starts[0] : ends[0] + 1] if ends else None


def leads(lines, before, path, begin):
    """Whether these lines of a file have a link to a heading of a file, or to the file if the stretch begins with its title."""
    home = (ROOT / before).parent
    for _, target in LINK.findall("\n".join(lines)):
        name, _, anchor = target.partition("#")
        file = (home / name).resolve() if name else ROOT / before
        wanted = "" if begin.startswith("# ") else anchor_of(begin)
        if file == ROOT / path and anchor == wanted:
            return True
    return False


def clicks(read, path, begin):
    """How many links lead from what was read, the last of it first, to a stretch: one, with a way back two. None if none does."""
    for at, (before, lines) in enumerate(reversed(read)):
        if before == path or leads(lines, before, path, begin):
            return 1 if at == 0 else 2
    return None


def walk_on(walk, read, path, begin, end):
    """Goes on with a walk, which has read so much."""
    lines = stretch(path, begin, end)
    if lines is None:
        walk.lacks.append(f"{path} has no stretch from `{begin}` to `{end}`")
        return
    count = clicks(read, path, begin) if read else 0
    if count is None:
        walk.lacks.append(f"nothing that is read has a link to `{begin}` of {path}")
    elif not read and (path, begin) != START:
        walk.lacks.append("it doesn't begin at the first line of README.md")
    walk.links += count or 0
    walk.words += words_in(lines)
    walk.stretches.append((path, begin, end))
    read.append((path, lines))


def walks_of(rows):
    """The walks of a table, with what each lacks."""
    walks, read = {}, {}
    for question, answer, path, begin, end in rows:
        walk = walks.setdefault(question, Walk(question, answer))
        walk_on(walk, read.setdefault(question, []), path, begin, end)
    for walk in walks.values():
        if walk.minutes > MOST_MINUTES:
            walk.lacks.append(f"it takes {walk.minutes:.1f} minutes, and may take {MOST_MINUTES}")
    return list(walks.values())
