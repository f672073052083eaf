#!/usr/bin/env python3
"""Tries what depends on the moment, on a partner or on a station that runs, of commands. They are `submit` and `resend` without a date, `call
--fail`, the pauses of the clock, `stop` and `reload`.

    checks/scenarios/commands.py [WORD ..]       all cases, or those whose names have one of these words

Each case has a port and a database of its own, and all run at once, so it takes some twenty seconds. The last line is `N passed, M failed`.
"""

import contextlib
import csv
import datetime
import io
import os
import socket
import subprocess
import sys
import tempfile
import time
from concurrent.futures import ThreadPoolExecutor
from pathlib import Path

sys.path.insert(0, str(Path(__file__).resolve().parents[1] / "lib"))

import filled
import row_files
from channel import answer_in
from program import PROGRAM
from services import BOOK, CARMAKER, LONG, Resident, Wrong, expect

IDENTITY = ["--dataset", "INV.1", "--to", CARMAKER, "--format", "U"]
# The commands are given where it is another hour, and may be another day, than it is in UTC.
ELSEWHERE = {**os.environ, "TZ": "Pacific/Kiritimati"}


def session_of(name):
    return row_files.Row(row_files.ROWS / f"{name}.row").sessions()[0]


# How many times of a second are taken, and in how many seconds it is tried to submit a file at one of them.
TAKEN, TRIES = 1_000, 6
# Sessions in which the station calls, each with the line of its end. Two end by 00, one of either side, and one doesn't.
BY_PARTNER = session_of("calling/initiator_alone")
BY_STATION = session_of("calling/nothing_on_either_side")
SENT_AWAY = session_of("calling/another_answers")
# One in which the station offers its first file, and the partner refuses it for good.
REFUSED_FILE = session_of("sending/refused_without_retry")
# One in which the partner calls, asks for nothing, and ends by 00.
CALLED = session_of("listening/one_end_response")


def give(room, command, *words, book=None):
    """What a command over the database of a folder comes to."""
    of_book = ["--book", book or BOOK] if command not in ("report", "stop", "reload", "init") else []
    words = [PROGRAM, command, "--db", room / "database", *of_book, *words]
    done = subprocess.run(words, env=ELSEWHERE, capture_output=True, timeout=LONG, check=False)
    return done.returncode, done.stdout, done.stderr


def rows_of(room, *words):
    """The rows of a report."""
    status, out, err = give(room, "report", *words)
    expect((status, err), (0, b""), "a report")
    return list(csv.DictReader(io.StringIO(out.decode())))


def called_at(room, post):
    """A book whose partner is called at a listener."""
    book = room / "book"
    book.write_text(BOOK.read_text().replace("127.0.0.1:3305", f"127.0.0.1:{post.getsockname()[1]}"))
    return book


def converse(post, session):
    """Plays the partner's side of a session, and closes."""
    connection = post.accept()[0]
    with connection:
        connection.settimeout(LONG)
        connection.sendall(session.joined("in"))
        connection.shutdown(socket.SHUT_WR)
        while connection.recv(65536):
            pass


def moments_of(rows):
    return [datetime.datetime.strptime(row["date"] + row["time"][:6], "%Y%m%d%H%M%S").replace(tzinfo=datetime.timezone.utc) for row in rows]


def submissions_of_now(room):
    """Files without a date and time get those of the moment in UTC, each its own. A date or a time that is given stays."""
    file = room / "file"
    file.write_bytes(b"A")
    begin = datetime.datetime.now(datetime.timezone.utc).replace(microsecond=0)
    for number in range(1, 9):
        expect(give(room, "submit", *IDENTITY, file), (0, f"done: submit {number}\n".encode(), b""), "submit")
    end = datetime.datetime.now(datetime.timezone.utc)
    rows = rows_of(room, "out")
    if not all(begin <= moment <= end for moment in moments_of(rows)):
        raise Wrong(f"a moment that isn't between {begin} and {end}: {rows}")
    expect(len({(row["date"], row["time"]) for row in rows}), 8, "how many moments there are")
    expect(all(1 <= int(row["time"][6:]) <= 9999 for row in rows), True, "whether each counter is one of the standard")
    expect(give(room, "submit", *IDENTITY, "--date", "20240131", file)[0], 0, "submit with a date")
    expect(give(room, "submit", *IDENTITY, "--time", "1015300001", file)[0], 0, "submit with a time")
    expect(give(room, "submit", *IDENTITY, "--time", "1015300001", file), (1, b"refused: 1 duplicate\n", b""), "the same again")
    rows = rows_of(room, "out")
    expect((rows[8]["date"], rows[9]["time"]), ("20240131", "1015300001"), "what was given")


def submissions_of_one_moment(room):
    """Files of one name that are submitted at once beside a station get times of their own: none is a duplicate."""
    file = room / "file"
    file.write_bytes(b"A")
    with Resident(room):
        with ThreadPoolExecutor(max_workers=20) as runners:
            done = list(runners.map(lambda _: give(room, "submit", *IDENTITY, file), range(20)))
        expect(sorted(done), sorted((0, f"done: submit {number}\n".encode(), b"") for number in range(1, 21)), "the lines")
        expect(len({(row["date"], row["time"]) for row in rows_of(room, "out")}), 20, "how many moments there are")


def submission_with_the_next_counter(room):
    """A time of the moment that another file of the name has is the next free one. So are all of a second that is over."""
    file = room / "file"
    file.write_bytes(b"A")
    # With the date alone the time is that of the moment. Each try has the same second often enough to meet the one before.
    with ThreadPoolExecutor(max_workers=20) as runners:
        done = list(runners.map(lambda _: give(room, "submit", *IDENTITY, "--date", "20240131", file)[0], range(20)))
    expect(done, [0] * 20, "the statuses")
    expect(len({row["time"] for row in rows_of(room, "out")}), 20, "how many times there are")


def submission_at_taken_times(room):
    """Where other files of the name have the moment and each time for a tenth of a second behind it, the next time is taken."""
    file = room / "file"
    file.write_bytes(b"A")
    expect(give(room, "report", "out")[0], 0, "a new database")
    first = int(time.time()) + 3
    stamps = [time.strftime("%Y%m%d%H%M%S", time.gmtime(first + at)) for at in range(TRIES)]
    take_times(room / "database", stamps)
    with Resident(room):
        for at, stamp in enumerate(stamps):
            time.sleep(max(0, first + at - time.time()))
            expect(give(room, "submit", *IDENTITY, file)[0], 0, "submit")
            row = rows_of(room, "out")[-1]
            # On a busy machine it may be later than that by now.
            if row["date"] + row["time"] == f"{stamp}{TAKEN + 1:04}":
                return
    raise Wrong(f"it never got the time behind those that are taken, and last {row['time']}")


def take_times(database, stamps):
    """Files of the name that have the first times of these seconds."""
    with contextlib.closing(filled.opened(database)) as connection:
        times = "substr(:stamp, 9) || printf('%04d', i - :from + 1), :ours, :theirs, 'U', 0, '', 0, 'waiting', ''"
        for at, stamp in enumerate(stamps):
            given = {"from": at * TAKEN + 1, "to": (at + 1) * TAKEN, "stamp": stamp, "ours": filled.OURS, "theirs": CARMAKER}
            connection.execute(f"{filled.NUMBERS} INSERT INTO out_file SELECT i, 'INV.1', substr(:stamp, 1, 8), {times} FROM n", given)
    filled.settle(database)


def calls_that_fail(room):
    """With `--fail` a session that ends otherwise than by 00 is status 1, and its line is the same; alone and beside a station."""
    with socket.create_server(("127.0.0.1", 0)) as post:
        post.settimeout(LONG)
        book = called_at(room, post)
        ends_of_calls(room, post, book)
        with Resident(room, book=book):
            ends_of_calls(room, post, book)
    expect(give(room, "call", "--partner", CARMAKER, "--fail", book=book), (1, b"", b"fault: 8 socket\n"), "a call of nobody")


def ends_of_calls(room, post, book):
    for session, status in ((BY_PARTNER, 0), (BY_STATION, 0), (SENT_AWAY, 1)):
        for words, wanted in ((["--fail"], status), ([], 0)):
            with ThreadPoolExecutor(max_workers=1) as runner:
                call = runner.submit(give, room, "call", "--partner", CARMAKER, *words, book=book)
                converse(post, session)
                expect(call.result(), (wanted, session.end[1].encode(), b""), f"the call that ends by {session.end[1].strip()} with {words}")


def waits_of(post, count):
    """How many seconds pass between calls that are hung up."""
    times = []
    for _ in range(count):
        post.accept()[0].close()
        times.append(time.monotonic())
    return [later - sooner for sooner, later in zip(times, times[1:])]


def pauses_of_the_clock(room):
    """After each call that ends otherwise than by 00 the clock waits twice as long. It calls at its next turn once a session ended by 00."""
    file = room / "file"
    file.write_bytes(b"A")
    with socket.create_server(("127.0.0.1", 0)) as post:
        post.settimeout(LONG)
        book = called_at(room, post)
        expect(give(room, "submit", *IDENTITY, file, book=book)[0], 0, "submit")
        with Resident(room, "--call-every", "1", book=book):
            waits = waits_of(post, 4)
            for wait, least in zip(waits, (2, 4, 8)):
                if not least - 0.2 <= wait:
                    raise Wrong(f"it waits for {waits} seconds, and not for 2, 4 and 8")
            # The next one would come after sixteen seconds, but a session ends well before.
            with ThreadPoolExecutor(max_workers=1) as runner:
                call = runner.submit(give, room, "call", "--partner", CARMAKER, book=book)
                converse(post, BY_PARTNER)
                expect(call.result()[:2], (0, BY_PARTNER.end[1].encode()), "the call")
            begin = time.monotonic()
            post.accept()[0].close()
            if time.monotonic() - begin > 8:
                raise Wrong(f"it calls {time.monotonic() - begin:.1f} s after a session that ended by 00")


ONE_OCTET = session_of("receiving/one_octet")


def half_said(service):
    """A caller that was let in, and has said the first half of a session that hands over a file."""
    octets = ONE_OCTET.joined("in")
    caller = service.caller()
    caller.settimeout(LONG)
    caller.sendall(octets[: len(octets) // 2])
    time.sleep(1)
    return caller, octets[len(octets) // 2 :]


def begun(room, command, *words):
    """A command that waits for its turn."""
    words = [PROGRAM, command, "--db", room / "database", *words]
    program = subprocess.Popen(words, stdout=subprocess.PIPE, stderr=subprocess.PIPE)
    time.sleep(1)
    return program


def told(program):
    out, err = program.communicate(timeout=LONG)
    return program.returncode, out, err


def ends_after(service, line):
    """The station ends by itself, in order, after this line."""
    expect(service.line() + "\n", line, "the line")
    service.ends()


STOPPED = (0, b"done: stop\n", b"")
ENDING = (1, b"", b"fault: 8 socket\n")


def stops_when_idle(room):
    """A station without work ends at once, in order: status 0, no socket is left, and the database is free for the next one."""
    for words in ((), ("--now",)):
        with Resident(room) as service:
            expect(give(room, "stop", *words), STOPPED, "stop")
            expect(service.socket.exists(), False, "whether the socket is left")
            service.ends()
    expect(give(room, "stop"), (1, b"", b"fault: 8 socket\n"), "stop of nobody")
    expect(rows_of(room, "in"), [], "a report")


def stops_after_a_session(room):
    """The session that goes on ends first, and is kept; who waits is answered, and none of it is done."""
    file = room / "file"
    file.write_bytes(b"A")
    with Resident(room) as service:
        caller, rest = half_said(service)
        with caller:
            stops = [begun(room, "stop") for _ in range(2)]
            expect([stop.poll() for stop in stops], [None, None], "whether stop waits")
            late = begun(room, "submit", "--book", BOOK, *IDENTITY, file)
            caller.sendall(rest)
            caller.shutdown(socket.SHUT_WR)
            while caller.recv(65536):
                pass
        expect([told(stop) for stop in stops], [STOPPED, STOPPED], "stop")
        expect(told(late), (1, b"", b"fault: 8 socket\n"), "what came behind it")
        ends_after(service, f"session {CARMAKER} in: {ONE_OCTET.end[1]}")
    expect([row["state"] for row in rows_of(room, "in")], ["whole"], "the file that came")
    expect(rows_of(room, "out"), [], "what was submitted behind it")


def many_asked(service, stack, count=100):
    """So many commands that wait behind a session, each to submit a file."""
    book = BOOK.read_bytes()
    stamps = ["--date", "20240201", "--time", "0800000001"]
    lines = [["submit", "--dataset", f"INV.{number}", *stamps, *IDENTITY[2:]] for number in range(count)]
    return [stack.enter_context(service.asked(*line, book=book, content=b"A")) for line in lines]


def ends_of_all(asked):
    """How each request ended."""
    with ThreadPoolExecutor(max_workers=len(asked)) as readers:
        return sorted(str(end) for _, end in readers.map(answer_of, asked))


def answer_of(client):
    octets = b""
    while piece := client.recv(65536):
        octets += piece
    return answer_in(octets)


def stops_behind_a_hundred(room):
    """A hundred changes that came before `stop` are done, none that came behind it is, and with `--now` none is. All are answered."""
    for words, ends in (((), [f"done: submit {number}" for number in range(1, 101)]), (("--now",), ["fault: 8 socket"] * 100)):
        with Resident(room) as service, contextlib.ExitStack() as stack:
            caller, _ = half_said(service)
            with caller:
                before = many_asked(service, stack)
                stop = begun(room, "stop", *words)
                behind = [stack.enter_context(service.asked("release", "1", book=BOOK.read_bytes()))] if not words else []
            expect(ends_of_all(before), sorted(ends), f"what came before stop {words}")
            expect([answer_of(it)[1] for it in behind], ["fault: 8 socket"] * len(behind), "what came behind it")
            expect(told(stop), STOPPED, f"stop {words}")
            service.line()
            service.ends()
        for file in room.glob("database*"):
            file.unlink()


def killed_askers(room):
    """A `stop` or `reload` that is killed while it waits has asked for nothing: the station serves on, by the book that it has."""
    book = room / "book"
    book.write_text(BOOK.read_text())
    with Resident(room, book=book) as service:
        caller, rest = half_said(service)
        with caller:
            asking = [begun(room, "stop"), begun(room, "reload")]
            book.write_text("no book")
            for it in asking:
                it.kill()
                it.communicate()
            time.sleep(0.5)
            caller.sendall(rest)
            caller.shutdown(socket.SHUT_WR)
            while caller.recv(65536):
                pass
        expect(service.line() + "\n", f"session {CARMAKER} in: {ONE_OCTET.end[1]}", "the session")
        with service.caller() as caller:
            caller.shutdown(socket.SHUT_WR)
            while caller.recv(65536):
                pass
        expect(service.line(), "session - in: end: input", "one more caller")
        expect(service.program.poll(), None, "whether it ended")


def stops_within_a_session(room):
    """With `--now` a session is cut off, another `stop` that waits is done, and what was answered is kept."""
    with Resident(room) as service:
        caller, _ = half_said(service)
        with caller:
            waiting = begun(room, "stop")
            expect(waiting.poll(), None, "whether stop waits")
            begin = time.monotonic()
            with ThreadPoolExecutor(max_workers=2) as askers:
                both = list(askers.map(lambda _: told(begun(room, "stop", "--now")), range(2)))
            expect(told(waiting), STOPPED, "the stop that waits")
            # One that comes as the station ends isn't heard any more.
            expect(STOPPED in both and set(both) <= {STOPPED, ENDING}, True, f"stop of both: {both}")
            if time.monotonic() - begin > 20:
                raise Wrong("it takes as long as the session")
        ends_after(service, f"session {CARMAKER} in: fault: 1 read\n")
    expect(rows_of(room, "out"), [], "a report")


def killed_about_a_stop(room):
    """A station that is killed before it hears `stop`, or while `stop` waits, gives its command the line of one that is gone."""
    with Resident(room) as service:
        caller, _ = half_said(service)
        with caller:
            stop = begun(room, "stop")
            service.program.kill()
            expect(told(stop), (1, b"", b"fault: 3 office\n"), "stop of one that is killed")
    expect(give(room, "stop"), (1, b"", b"fault: 8 socket\n"), "stop of one that was killed")
    expect(rows_of(room, "in"), [], "a report")


def reads_its_book_again(room):
    """A partner who isn't in the book is let in once the book has him and was read again. A faulty book is told, and the old one stays."""
    whole = BOOK.read_text()
    book = room / "book"
    book.write_text(whole.replace(CARMAKER, "O0188CARMAKER"))
    with Resident(room, book=book) as service:
        expect(ends_of_callers(service), "session - in: end: own 03", "a caller who isn't in the book")
        book.write_text("no book")
        expect(give(room, "reload"), (1, b"", b"fault: 5 book 1\n"), "reload of a faulty book")
        book.unlink()
        expect(give(room, "reload"), (1, b"", b"fault: 7 file\n"), "reload of no book")
        expect(ends_of_callers(service), "session - in: end: own 03", "the same caller")
        book.write_text(whole)
        with ThreadPoolExecutor(max_workers=2) as runners:
            done = list(runners.map(lambda _: give(room, "reload"), range(2)))
        expect(done, [(0, b"done: reload\n", b"")] * 2, "two at once")
        expect(ends_of_callers(service) + "\n", f"session {CARMAKER} in: {ONE_OCTET.end[1]}", "the same caller")
    expect(give(room, "reload"), (1, b"", b"fault: 8 socket\n"), "reload without a station")


def ends_of_callers(service):
    """The line for a caller who plays a session."""
    with service.caller() as caller:
        caller.sendall(ONE_OCTET.joined("in"))
        caller.shutdown(socket.SHUT_WR)
        while caller.recv(65536):
            pass
    return service.line()


def reload_waits_for_a_session(room):
    """`reload` waits for the end of a session, which is one by the book that it began with."""
    book = room / "book"
    book.write_text(BOOK.read_text())
    with Resident(room, book=book) as service:
        caller, rest = half_said(service)
        with caller:
            book.write_text(BOOK.read_text().replace(CARMAKER, "O0188CARMAKER"))
            reloads = [begun(room, "reload") for _ in range(2)]
            expect([it.poll() for it in reloads], [None, None], "whether they wait")
            caller.sendall(rest)
            caller.shutdown(socket.SHUT_WR)
            while caller.recv(65536):
                pass
        expect(service.line() + "\n", f"session {CARMAKER} in: {ONE_OCTET.end[1]}", "the session")
        expect([told(it) for it in reloads], [(0, b"done: reload\n", b"")] * 2, "reload")
        expect(ends_of_callers(service), "session - in: end: own 03", "the same caller, by the new book")
        give(room, "reload")
        book.unlink()
        book.symlink_to("/dev/full")
        expect(give(room, "reload"), (1, b"", b"fault: 7 file\n"), "reload of a device")
        book.unlink()
        os.mkfifo(book)
        expect(give(room, "reload"), (1, b"", b"fault: 7 file\n"), "reload of a pipe that nobody writes")
        expect(ends_of_callers(service), "session - in: end: own 03", "the same caller")


def reload_while_it_calls(room):
    """A call that isn't connected yet keeps its book: its partner, who isn't in the new one, is served. A later call of the partner is refused."""
    with socket.socket() as post, socket.socket() as other:
        post.bind(("127.0.0.1", 0))
        post.settimeout(LONG)
        # With one who waits to be accepted the queue is full, and whoever comes next isn't answered.
        post.listen(0)
        other.connect(post.getsockname())
        book = called_at(room, post)
        with Resident(room, book=book) as service:
            call = begun(room, "call", "--book", book, "--partner", CARMAKER)
            book.write_text(BOOK.read_text().replace(CARMAKER, "O0188CARMAKER"))
            expect(give(room, "reload"), (0, b"done: reload\n", b""), "reload")
            expect(call.poll(), None, "whether it still connects")
            post.accept()[0].close()
            converse(post, BY_PARTNER)
            expect(told(call), (0, BY_PARTNER.end[1].encode(), b""), "the call")
            expect(service.line() + "\n", f"session {CARMAKER} out: {BY_PARTNER.end[1]}", "the line")
            refused = (1, b"refused: 2 unknown\n", b"")
            expect(give(room, "call", "--partner", CARMAKER, book=BOOK), refused, "a call of who isn't in the station's book any more")


def killed_station_and_reload(room):
    """A station that is killed while `reload` waits gives its command the line of one that is gone, and starts with the new book."""
    with Resident(room) as service:
        caller, _ = half_said(service)
        with caller:
            reload = begun(room, "reload")
            service.program.kill()
            expect(told(reload), (1, b"", b"fault: 3 office\n"), "reload of one that is killed")
    expect(give(room, "reload"), (1, b"", b"fault: 8 socket\n"), "reload of one that was killed")
    with Resident(room) as service:
        expect(give(room, "reload"), (0, b"done: reload\n", b""), "reload of the next one")


def resent_now(room):
    """`resend` without a date takes the moment, alone and beside a station, and at once each file has its own."""
    file = room / "file"
    file.write_bytes(b"ABC")
    with socket.create_server(("127.0.0.1", 0)) as post:
        post.settimeout(LONG)
        book = called_at(room, post)
        stamps = ["--date", "20240201", "--time", "0800000001"]
        words = ["--dataset", "INV.0001", *stamps, *IDENTITY[2:]]
        expect(give(room, "submit", *words, file, book=book), (0, b"done: submit 1\n", b""), "submit")
        expect(give(room, "resend", "1", book=book), (1, b"refused: 3 state\n", b""), "resend of a file that waits")
        with ThreadPoolExecutor(max_workers=1) as runner:
            call = runner.submit(give, room, "call", "--partner", CARMAKER, book=book)
            converse(post, REFUSED_FILE)
            expect(call.result(), (0, REFUSED_FILE.end[1].encode(), b""), "the call")
        expect(give(room, "resend", "1", book=book), (0, b"done: resend 1 2\n", b""), "resend alone")
        with Resident(room, book=book):
            with ThreadPoolExecutor(max_workers=10) as runners:
                done = list(runners.map(lambda _: give(room, "resend", "1", book=book), range(10)))
            expect(sorted(done), sorted((0, f"done: resend 1 {number}\n".encode(), b"") for number in range(3, 13)), "resend beside it")
            expect(give(room, "resend", "13", book=book), (1, b"refused: 2 unknown\n", b""), "resend of no file")
        rows = rows_of(room, "out")
        expect({(row["dataset"], row["rows"], row["units"], row["state"]) for row in rows[1:]}, {("INV.0001", "1", "3", "waiting")}, "the files")
        expect(len({(row["date"], row["time"]) for row in rows}), 12, "how many moments there are")


def calls_by_the_new_book(room):
    """By its clock the station calls a partner where the book has him once it was read again."""
    file = room / "file"
    file.write_bytes(b"A")
    with socket.create_server(("127.0.0.1", 0)) as old, socket.create_server(("127.0.0.1", 0)) as new:
        old.settimeout(LONG)
        new.settimeout(LONG)
        book = called_at(room, old)
        with Resident(room, "--call-every", "1", book=book):
            expect(give(room, "submit", *IDENTITY, file, book=book)[0], 0, "submit")
            old.accept()[0].close()
            called_at(room, new)
            expect(give(room, "reload"), (0, b"done: reload\n", b""), "reload")
            new.accept()[0].close()


def partner_who_calls_within_a_pause(room):
    """A session that ends by 00 ends the pause of the clock where the partner has called, too."""
    file = room / "file"
    file.write_bytes(b"A")
    with socket.create_server(("127.0.0.1", 0)) as post:
        post.settimeout(LONG)
        book = called_at(room, post)
        with Resident(room, "--call-every", "1", book=book) as service:
            expect(give(room, "submit", *IDENTITY, file, book=book)[0], 0, "submit")
            waits_of(post, 3)
            # The next one would come after eight seconds.
            begin = time.monotonic()
            with service.caller() as caller:
                caller.settimeout(LONG)
                caller.sendall(CALLED.joined("in"))
                caller.shutdown(socket.SHUT_WR)
                while caller.recv(65536):
                    pass
            while (line := service.line()) != f"session {CARMAKER} in: {CALLED.end[1].strip()}":
                expect(line.startswith(f"session {CARMAKER} out: "), True, f"whether {line!r} is of a call")
            post.accept()[0].close()
            if time.monotonic() - begin > 6:
                raise Wrong(f"it calls {time.monotonic() - begin:.1f} s after its partner's session that ended by 00")


def pause_of_another_partner(room):
    """Within the pause of one partner another is called at the next turn of the clock."""
    file, other = room / "file", "O0042OTHER"
    file.write_bytes(b"A")
    with socket.create_server(("127.0.0.1", 0)) as post, socket.create_server(("127.0.0.1", 0)) as its_post:
        for it in (post, its_post):
            it.settimeout(LONG)
        one = called_at(room, its_post).read_text().partition("[[partner]]")[2].replace(CARMAKER, other)
        book = called_at(room, post)
        book.write_text(f"{book.read_text()}\n[[partner]]{one}")
        with Resident(room, "--call-every", "1", book=book):
            expect(give(room, "submit", *IDENTITY, file, book=book)[0], 0, "submit")
            waits_of(post, 3)
            # Its next call would come after eight seconds.
            begin = time.monotonic()
            expect(give(room, "submit", *[other if it == CARMAKER else it for it in IDENTITY], file, book=book)[0], 0, "submit for another")
            its_post.accept()[0].close()
            if time.monotonic() - begin > 6:
                raise Wrong(f"it calls another partner after {time.monotonic() - begin:.1f} s")


CASES = [
    submissions_of_now,
    submissions_of_one_moment,
    submission_with_the_next_counter,
    submission_at_taken_times,
    calls_that_fail,
    pauses_of_the_clock,
    stops_when_idle,
    stops_after_a_session,
    stops_within_a_session,
    killed_about_a_stop,
    stops_behind_a_hundred,
    killed_askers,
    reads_its_book_again,
    reload_waits_for_a_session,
    reload_while_it_calls,
    killed_station_and_reload,
    calls_by_the_new_book,
    resent_now,
    partner_who_calls_within_a_pause,
    pause_of_another_partner,
]


def tried(case):
    """Runs a case. It returns its result, and whether it failed."""
    with tempfile.TemporaryDirectory() as room:
        try:
            case(Path(room))
        except (Wrong, OSError, subprocess.SubprocessError, ValueError, LookupError) as why:
            return f"{case.__name__.replace('_', ' ')}: {type(why).__name__}: {why}", True
    return f"{case.__name__.replace('_', ' ')}: as it must be", False


def main():
    cases = [case for case in CASES if not sys.argv[1:] or any(word in case.__name__ for word in sys.argv[1:])]
    with ThreadPoolExecutor(max_workers=len(CASES)) as runners:
        tries = list(runners.map(tried, cases))
    print("".join(f"{told_of}\n" for told_of, _ in tries), end="")
    failed = sum(has_failed for _, has_failed in tries)
    print(f"{len(tries) - failed} passed, {failed} failed")
    return 1 if failed or not cases else 0


if __name__ == "__main__":
    sys.exit(main())
