"""What a program takes: elapsed time, processor time and memory."""

import os
import subprocess
import time
from typing import NamedTuple


class Taken(NamedTuple):
    """What a run took: elapsed seconds, processor seconds, and KiB of memory, which are at least those of this script."""

    seconds: float
    processor: float
    memory: int = 0


def by_processor(runs):
    """The run with the least processor time."""
    return min(runs, key=lambda taken: taken.processor)


def run(words, beside=None):
    """Runs a program to its end, and returns what it took. `beside`, if given, is a function without arguments that runs meanwhile."""
    begin = time.monotonic()
    with open(os.devnull, "wb") as nowhere:
        to_nowhere = [(os.POSIX_SPAWN_DUP2, nowhere.fileno(), 1)]
        pid = os.posix_spawn(str(words[0]), [str(word) for word in words], os.environ, file_actions=to_nowhere)
        if beside:
            beside()
        _, status, used = os.wait4(pid, 0)
    if status != 0:
        raise SystemExit(f"{words[0]} {words[1]} failed with status {os.waitstatus_to_exitcode(status)}")
    return Taken(time.monotonic() - begin, used.ru_utime + used.ru_stime, used.ru_maxrss)


def run_quietly(words):
    subprocess.run(words, check=True, stdout=subprocess.DEVNULL)


def shown(taken):
    return f"{taken.seconds:8.3f} ({taken.processor:6.3f})"
