#!/usr/bin/env python3
"""What commands say on a terminal while they wait for a station in a session, and how far they came.

    checks/scenarios/waiting.py [WORD ..]      all cases, or those whose names have one of these words

A partner begins a session, and half of a file. A command beside it says on a terminal after a second with whom the session is, and how much of
which file came. It takes that back once the session is over. So does a call, by a station and without one, with the share of the file of its own
session. So does `offer` with the place of the file that it hands in. Where standard error is no terminal, they say nothing, with `--notes` neither.
The last line is `N passed, M failed`.

Shows: on a terminal a command that waits for more than a second says for which session. It has the file and its share if the station writes events.
`call` and `offer` say how far they came, and what they said is taken back. Nowhere else they say anything, and no sooner
"""

import contextlib
import os
import pty
import socket
import subprocess
import sys
import tempfile
import time
from pathlib import Path

sys.path.insert(0, str(Path(__file__).resolve().parents[1] / "lib"))

from one_file import BOOK, FILE, data_frames, frame_of
from program import PROGRAM
from ready import ready_to_read
from services import CARMAKER, LONG, Resident, Wrong, expect, rest_of

BUFFER = 4096
# Twenty blocks, of which half comes at first.
SIZE = 20 * 1024
TAKE_BACK = "\r\x1b[K"
SUBMIT = ["--dataset", "INV.1", "--date", "20240201", "--time", "0800000001", "--to", CARMAKER, "--format", "U"]


def book_in(room, address="127.0.0.1:3305"):
    """A book whose station takes the partner's frames, and calls it at an address."""
    book = room / "book"
    book.write_text(BOOK.format(buffer=BUFFER, credit=99).replace("127.0.0.1:3305", address))
    return book


def spoken():
    """What the partner says before it may send its file, the first half of that, and what it says then. Also which share of its file the half is."""
    opening = frame_of("SSID", code=CARMAKER, password="CARPW", buffer=str(BUFFER), credit="99", mode="B")
    offer = frame_of("SFID", size=str(SIZE // 1024), **FILE)
    frames = data_frames(SIZE, BUFFER)
    half = len(frames) // 2
    rest = [*frames[half:], frame_of("EFID", records="0", units=str(SIZE)), frame_of("ESID", reason="00")]
    came = sum(len(frame) - 5 for frame in frames[:half])
    return opening + offer, b"".join(frames[:half]), b"".join(rest), came * 100 // SIZE


def said_on(terminal, until):
    """What is said on a terminal up to a moment."""
    said = b""
    while (left := until - time.monotonic()) > 0:
        if ready_to_read([terminal], left):
            with contextlib.suppress(OSError):
                said += os.read(terminal, 4096)
    return said.decode()


def during_a_session(room, *options):
    """What a command says on a terminal in two seconds of a session, and from then on up to its end. Also the share that has come."""
    file = room / "file"
    file.write_bytes(b"x")
    opened, half, then, share = spoken()
    ours, theirs = pty.openpty()
    book = book_in(room)
    with Resident(room, *options, book=book) as station, station.caller() as caller:
        caller.sendall(opened + half)
        time.sleep(0.5)
        words = [PROGRAM, "submit", "--db", station.database, "--book", book, *SUBMIT, file]
        command = subprocess.Popen(words, stdout=subprocess.PIPE, stderr=theirs)
        begin = time.monotonic()
        sooner = said_on(ours, begin + 0.7)
        later = said_on(ours, begin + 2.5)
        caller.sendall(then)
        rest_of(caller)
        expect(command.communicate(timeout=LONG)[0], b"done: submit 1\n", "submit")
        last = said_on(ours, time.monotonic() + 0.2)
    os.close(ours)
    os.close(theirs)
    return sooner, later, last, share


def with_events(room):
    """With the file and its share."""
    sooner, later, last, share = during_a_session(room, "--events", room / "events")
    line = f"waiting: session with {CARMAKER}, {FILE['dataset']} {share} %"
    expect((sooner, later, last), ("", TAKE_BACK + line, TAKE_BACK), "what is said")
    expect(0 < share < 100, True, f"the share, {share}")


def without_events(room):
    """Without the file, which isn't known then."""
    sooner, later, last, _ = during_a_session(room)
    expect((sooner, later, last), ("", f"{TAKE_BACK}waiting: session with {CARMAKER}", TAKE_BACK), "what is said")


def no_terminal(room):
    """Where standard error is no terminal nothing is said, with `--notes` neither."""
    file = room / "file"
    file.write_bytes(b"x")
    opened, half, then, _ = spoken()
    book = book_in(room)
    with Resident(room, "--events", room / "events", book=book) as station, station.caller() as caller:
        caller.sendall(opened + half)
        time.sleep(0.5)
        words = [PROGRAM, "submit", "--db", station.database, "--book", book, "--notes", *SUBMIT, file]
        command = subprocess.Popen(words, stdout=subprocess.PIPE, stderr=subprocess.PIPE)
        time.sleep(2.5)
        caller.sendall(then)
        rest_of(caller)
        expect(command.communicate(timeout=LONG), (b"done: submit 1\n", b""), "submit")


def called(post, words, stderr):
    """The call of a partner who sends the first half of its file once it is accepted. It goes on two seconds later, with one octet and then with the
    rest. Also the half's share."""
    opened, half, then, share = spoken()
    command = subprocess.Popen(words, stdout=subprocess.PIPE, stderr=stderr)
    with post.accept()[0] as partner:
        partner.sendall(frame_of("SSRM") + opened)
        time.sleep(0.2)
        partner.sendall(half)
        time.sleep(2)
        partner.sendall(then[:1])
        time.sleep(0.5)
        partner.sendall(then[1:])
        rest_of(partner)
    return command, share


def words_of_call(room, post, database):
    """A command that calls a partner at a listener."""
    post.settimeout(LONG)
    book = book_in(room, f"127.0.0.1:{post.getsockname()[1]}")
    return [PROGRAM, "call", "--db", database, "--book", book, "--partner", CARMAKER]


def expect_call(post, words):
    """A call that says on a terminal how much of the file has come, and takes it back."""
    ours, theirs = pty.openpty()
    command, share = called(post, words, theirs)
    expect(command.communicate(timeout=LONG)[0], b"end: partner 00\n", "the call")
    said = said_on(ours, time.monotonic() + 0.2)
    os.close(ours)
    os.close(theirs)
    wanted = f"{TAKE_BACK}progress: call: {FILE['dataset']} {share} %{TAKE_BACK}"
    expect(said[: len(wanted)], wanted, "what is said")
    expect(said.count("progress"), 1, "how often it is said")


def call_without_a_station(room):
    """A call that no station makes says how much of the file has come, and without a terminal nothing."""
    with socket.create_server(("127.0.0.1", 0)) as post:
        expect_call(post, words_of_call(room, post, room / "database"))
    with socket.create_server(("127.0.0.1", 0)) as post:
        command, _ = called(post, words_of_call(room, post, room / "other"), subprocess.PIPE)
        expect(command.communicate(timeout=LONG), (b"end: partner 00\n", b""), "the call without a terminal")


def call_by_a_station(room):
    """So does one that the station makes, which writes events."""
    with socket.create_server(("127.0.0.1", 0)) as post:
        words = words_of_call(room, post, room / "database")
        with Resident(room, "--events", room / "events", book=room / "book"):
            expect_call(post, words)


def offered(room, stderr):
    """An offer of two files, of which the first waits two seconds for the end of a session."""
    folder = room / "offered"
    folder.mkdir()
    for name in ("INV.1", "INV.2"):
        (folder / name).write_bytes(b"x")
    opened, half, then, _ = spoken()
    book = book_in(room)
    with Resident(room, book=book) as station, station.caller() as caller:
        caller.sendall(opened + half)
        time.sleep(0.5)
        words = [PROGRAM, "offer", "--db", station.database, "--book", book, "--to", CARMAKER, "--from", folder]
        command = subprocess.Popen(words, stdout=subprocess.PIPE, stderr=stderr)
        time.sleep(2)
        caller.sendall(then)
        rest_of(caller)
        out, err = command.communicate(timeout=LONG)
    expect(out, b"done: offer 1 INV.1\ndone: offer 2 INV.2\n", "the offer")
    return err


def offer_of_two(room):
    """An offer says which file it hands in, and without a terminal nothing."""
    ours, theirs = pty.openpty()
    (room / "terminal").mkdir()
    offered(room / "terminal", theirs)
    said = said_on(ours, time.monotonic() + 0.2)
    os.close(ours)
    os.close(theirs)
    wanted = f"{TAKE_BACK}progress: offer: 2 of 2: INV.2{TAKE_BACK}"
    expect(said[-len(wanted) :], wanted, "what is said")
    (room / "none").mkdir()
    expect(offered(room / "none", subprocess.PIPE), b"", "what is said without a terminal")


PROGRESS = (call_without_a_station, call_by_a_station, offer_of_two)
CASES = {case.__name__: case for case in (with_events, without_events, no_terminal, *PROGRESS)}


def tried(name):
    with tempfile.TemporaryDirectory() as folder:
        try:
            CASES[name](Path(folder))
        except (Wrong, subprocess.SubprocessError, OSError) as why:
            print(f"FAIL {name}: {type(why).__name__}: {why}")
            return False
    return True


def main():
    words = sys.argv[1:]
    done = [tried(name) for name in CASES if not words or any(word in name for word in words)]
    print(f"{sum(done)} passed, {len(done) - sum(done)} failed")
    return int(not all(done) or not done)


if __name__ == "__main__":
    sys.exit(main())
