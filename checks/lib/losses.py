"""What a loss of power leaves of names and files, at each moment of commands that wrote down what they did with them (log_syncs.c).

A file keeps the octets of its last sync, and none where it had none. A name that was made, given or removed is there, given or gone for certain once
each folder that it concerns was synced behind that. Until then the loss may take it back. So several worlds are left. In one it has taken back all
that it may. In another it has taken back no name, as a file system does that writes names before contents. For each name that it may take back there
is one in which that is all it has taken back. As on each file system with a journal, a rename is one step, and nothing is moved into a folder that
isn't there.
"""

import itertools
import os
from pathlib import Path
from typing import NamedTuple

# What is done with names.
NAMING = ("make file", "make folder", "rename", "remove")


class Event(NamedTuple):
    """A line of the log: what was done, to which paths, and for a sync the octets."""

    what: str
    first: str
    second: str


class Left(NamedTuple):
    """What a loss leaves: the folders, and the files with their octets and the moment of their last change. Also what was told before, and in words
    which loss it is."""

    folders: frozenset
    files: frozenset
    told: str
    loss: str


def read_log(path):
    return [Event(*line.split("\t")) for line in path.read_text().splitlines()]


class Losses:
    """The losses that may come while commands work in a folder, which is as it is now before they begin."""

    def __init__(self, folder, kept, unsynced=()):
        self.folder, self.kept = Path(os.path.realpath(folder)), kept
        self.ids = itertools.count()
        # What each path names, and what each file had at its last sync.
        self.names, self.first_contents = {}, {}
        for path in sorted(self.folder.rglob("*")):
            number = next(self.ids)
            self.names[str(path)] = number
            if path.is_file():
                octets = b"" if path.name in unsynced else path.read_bytes()
                self.first_contents[number] = (octets, path.stat().st_mtime_ns)

    def left(self, log, without=None):
        """What may be left before each sync of the log, and behind its end, each once. `without` is the number of a sync that isn't made."""
        moments = [number for number, event in enumerate(log) if event.what.startswith("sync")] + [len(log)]
        syncs = [number for number in moments[:-1] if number != without]
        found = {}
        for moment in moments:
            loose = [number for number, event in enumerate(log[:moment]) if not is_certain(log, event, number, moment, syncs)]
            told = "".join(event.first for event in log[:moment] if event.what == "tell").replace("\\n", "\n")
            before = " ".join(log[moment][:2]) if moment < len(log) else "the end"
            for taken_back in ([], loose, *([number] for number in loose)):
                world = self.world(log[:moment], syncs, set(taken_back))
                lost = "; ".join(" ".join(log[number]).strip() for number in taken_back) or "no name"
                found.setdefault((*world, told), Left(*world, told, f"before {before}, which takes back {lost}"))
        return list(found.values())

    def world(self, log, syncs, taken_back):
        """The folders and the files where a loss takes back these events, and what was done later with the same file."""
        now, names, contents = dict(self.names), dict(self.names), dict(self.first_contents)
        lost = set()
        for number, event in enumerate(log):
            if event.what == "sync file" and number in syncs and event.first in now:
                contents[now[event.first]] = ((self.kept / event.second).read_bytes(), contents.get(now[event.first], (b"", 0))[1])
            if event.what not in NAMING:
                continue
            made = next(self.ids) if event.what.startswith("make") else now.get(event.first)
            if event.what == "make file":
                contents[made] = (b"", 0)
            done(now, event, made)
            if number in taken_back:
                lost.add(made)
            if made not in lost and is_reached(event.second or event.first, names, self.folder):
                done(names, event, made)
        files = {path: number for path, number in names.items() if number in contents}
        return frozenset(names.keys() - files.keys()), frozenset((path, *contents[number]) for path, number in files.items())

    def put(self, left, place):
        """Makes what is left in another folder, which is empty."""
        for path in sorted(left.folders):
            (place / Path(path).relative_to(self.folder)).mkdir()
        for path, octets, changed in left.files:
            to = place / Path(path).relative_to(self.folder)
            to.write_bytes(octets)
            to.chmod(0o600)
            os.utime(to, ns=(changed, changed))


def done(names, event, number):
    """Does to the names what an event did to the file of a number."""
    if event.what != "rename" or event.first in names:
        names.pop(event.first, None)
    if event.what.startswith("make"):
        names[event.first] = number
    elif event.what == "rename" and number is not None:
        names[event.second] = number


def is_certain(log, event, number, moment, syncs):
    """Whether no loss at a moment takes back an event, be it that it names nothing."""
    return event.what not in NAMING or all(was_synced(log, folder, number, moment, syncs) for folder in folders_of(event))


def folders_of(event):
    return {str(Path(path).parent) for path in (event.first, event.second) if path}


def was_synced(log, folder, begin, end, syncs):
    """Whether a folder was synced between two events."""
    return any(begin < number < end and log[number].what == "sync folder" and log[number].first == folder for number in syncs)


def is_reached(path, names, root):
    """Whether all folders above a path are there."""
    return all(str(folder) in names for folder in itertools.takewhile(lambda it: it != root, Path(path).parents))
