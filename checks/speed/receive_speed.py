#!/usr/bin/env python3
"""Gives `feed` one file in one session, at several sizes, buffers and credits, and prints the time and the memory that it took.

    checks/speed/receive_speed.py [--assert]

With `--assert` it fails if the largest file needs more than one and a half times its size in memory. It fails if an octet of it costs twice as much
as one of a sixteenth. It fails if it takes more than BOUNDS times as long as a plain copy of the same octets. It fails if a file that turns out to be
an octet longer doesn't end the session. What the program takes for a session without a file is subtracted before times are compared.

It takes the program of OFTP_STATION, or else the one that was last proved. The last line is then `N passed, M failed`.

Shows: what a file in memory takes, and that one which passes the limit ends its session. It fails if a file takes more than one and a half times its
size in memory. It fails if an octet of it costs twice what an octet of a sixteenth of it does. It fails if it takes more than 50 times as long as a
plain copy of the session's octets (125 times in small windows). The start of the program isn't counted
"""

import os
import shutil
import subprocess
import sys
import tempfile
import time
from pathlib import Path

sys.path.insert(0, str(Path(__file__).resolve().parents[1] / "lib"))

from one_file import BOOK, MOST, frame_of, make
from program import PROGRAM

# A sixteenth of the largest file, whose octets should cost as much each.
PART = MOST // 16
CASES = [(size, buffer, credit) for buffer, credit in ((16384, 99), (128, 1)) for size in (MOST, PART)]
# For each buffer how many times as long as a plain copy the largest file may take. The proved program takes 3 and 8 times as long
# (docs/PERFORMANCE.md), and the checked one 13 and 33 times. One that is 30 times slower than the proved one takes 100 and 250 times.
BOUNDS = {16384: 50, 128: 125}
# How many octets a plain copy reads and writes at once.
PIECE = 65_536


def run(words):
    """Runs a program to its end. It returns the seconds and the KiB of memory that it took, which are at least those of this script."""
    begin = time.monotonic()
    with open(os.devnull, "wb") as nowhere:
        pid = os.posix_spawn(words[0], words, os.environ, file_actions=[(os.POSIX_SPAWN_DUP2, nowhere.fileno(), 1)])
        _, status, used = os.wait4(pid, 0)
    if status != 0:
        raise SystemExit(f"{words[0]} failed with status {os.waitstatus_to_exitcode(status)}")
    return time.monotonic() - begin, used.ru_maxrss


def receive(room, size, buffer, credit):
    """Gives `feed` one file. It returns the seconds, the KiB, and the octets out."""
    given, answer, book = room / "given", room / "answer", room / "book.toml"
    # In a process of its own, because the reported memory of a program is at least that of the script that starts it.
    subprocess.run([sys.executable, __file__, "--make", str(size), str(buffer), str(credit), given], check=True)
    book.write_text(BOOK.format(buffer=buffer, credit=credit))
    seconds, memory = run([PROGRAM, "feed", "--book", str(book), str(given), str(answer)])
    return seconds, memory, answer.read_bytes()


def measure(room, size, buffer, credit):
    """Receives one file. It returns the seconds, the KiB, and the seconds of a plain copy."""
    seconds, memory, answer = receive(room, size, buffer, credit)
    if not answer.endswith(frame_of("EFPA", change="N")):
        raise SystemExit("the file wasn't taken")
    return seconds, memory, copy(room / "given", room / "copy")


def copy(given, to):
    """Reads a file and writes it, also where the system could share its octets. It returns the seconds."""
    begin = time.monotonic()
    with open(given, "rb") as source, open(to, "wb") as target:
        shutil.copyfileobj(source, target, PIECE)
    return time.monotonic() - begin


def ends_at_the_limit(room):
    """Whether a file that is offered within the limit and exceeds it by an octet ends the session by ESID 06."""
    _, _, answer = receive(room, MOST + 1, 16384, 99)
    return answer.endswith(frame_of("ESID", reason="06"))


def main():
    if sys.argv[1:2] == ["--make"]:
        make(*sys.argv[2:])
        return 0
    print("octets      buffer credit  seconds   MB/s  memory/KiB  plain copy/s")
    taken = {}
    with tempfile.TemporaryDirectory() as room:
        for size, buffer, credit in CASES:
            tries = [measure(Path(room), size, buffer, credit) for _ in range(3 if size == MOST else 9)]
            seconds, memory, _ = min(tries)
            plain = min(it for _, _, it in tries)
            taken[size, buffer] = (seconds, memory, plain)
            print(f"{size:<11} {buffer:<6} {credit:<6} {seconds:8.3f} {size / seconds / 1e6:6.0f} {memory:11} {plain:13.3f}")
        start = min(receive(Path(room), 0, 16384, 99)[0] for _ in range(9))
        is_ended = ends_at_the_limit(Path(room))
    print(f"a session without a file: {start:.3f} s; a file of an octet more {'ends' if is_ended else 'does not end'} the session")
    if "--assert" not in sys.argv[1:]:
        return 0
    dear = [dearer(taken[MOST, buffer][0] - start, taken[PART, buffer][0] - start, buffer) for buffer in BOUNDS]
    slow = [slower(taken[MOST, buffer][0] - start, taken[MOST, buffer][2], buffer) for buffer in BOUNDS]
    failed = sum(dear) + sum(slow) + (taken[MOST, 16384][1] > 64 * 1024 * 3 // 2) + (not is_ended)
    print(f"{6 - failed} passed, {failed} failed")
    return 1 if failed else 0


def dearer(whole, part, buffer):
    """Whether an octet of the largest file takes twice the time of one of a sixteenth, or more. A clock too coarse for the smaller file
    decides nothing."""
    times = whole / MOST / max(part / PART, 1e-12)
    print(f"buffer {buffer}: an octet of {MOST} takes {times:.2f} times what one of {PART} does, bound 2")
    return part <= 0 or times >= 2


def slower(whole, plain, buffer):
    """Whether the largest file takes more times as long as a plain copy of its session than its bound."""
    times = whole / max(plain, 1e-12)
    print(f"buffer {buffer}: {MOST} octets take {times:.1f} times what a plain copy does, bound {BOUNDS[buffer]}")
    return times > BOUNDS[buffer]


if __name__ == "__main__":
    sys.exit(main())
