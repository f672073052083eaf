"""The acts of a row, played over the program: sessions in three ways, operator's commands, files and statements.

The printed lines, the octets out and what is left are compared with the row.
"""

import os
import select
import sqlite3
import subprocess
import threading

import oftp
import tables
from program import PROGRAM
from row_files import Call, File, Session, octets_of

SECONDS = 30
# The options that a command gets from the row.
OPTIONS = {
    "init": ["--db"],
    "migrate": ["--db"],
    "check": ["--book"],
    "submit": ["--db", "--book"],
    "resend": ["--db", "--book"],
    "release": ["--db", "--book"],
    "refuse": ["--db", "--book"],
    "fetch": ["--db"],
    "report": ["--db"],
}


def check_out(session, octets):
    """Why the octets out aren't the session's, or None."""
    wanted = session.joined("out")
    if octets == wanted:
        return None
    pairs = zip(oftp.frames_of(wanted) + [b""], oftp.frames_of(octets) + [b""])
    for number, (want, got) in enumerate(pairs, 1):
        if want != got:
            return f"frame {number}\n    wanted  {shown(want)}\n    got     {shown(got)}"
    return f"{len(octets)} octets, not {len(wanted)}"


def shown(frame):
    return oftp.shown(frame) if frame else "nothing more"


def check_lines(wanted, done):
    """Why the printed lines or the exit status aren't these, or None. `wanted` has the place, the text and the status."""
    where, text, status = wanted
    told = {"out": done.stdout.decode(), "err": done.stderr.decode()}
    other = "err" if where == "out" else "out"
    if (told[where], told[other], done.returncode) == (text, "", status):
        return None
    return f"wanted {text.strip()!r} and status {status}, got {told['out'].strip()!r}, {told['err'].strip()!r} and status {done.returncode}"


def words_of(session, database, given, answer):
    over = ["--db", database] if database else []
    return [PROGRAM, "feed", *over, "--book", session.book, *session.role, given, answer]


def in_one_piece(session, room, database):
    """From a file, in one piece."""
    given, answer = room / "given", room / "answer"
    given.write_bytes(session.joined("in"))
    answer.unlink(missing_ok=True)
    words = words_of(session, database, session.given or given, answer)
    done = subprocess.run(words, capture_output=True, timeout=SECONDS, check=False)
    return check_lines(session.end, done) or check_out(session, octets_in(answer))


def octets_in(answer):
    """The file that the program wrote, or None if an error came first."""
    return answer.read_bytes() if answer.exists() else b""


def octet_by_octet(session, room, database):
    """From a pipe of packets, so that each read of the program gets one octet."""
    answer = room / "answer"
    answer.unlink(missing_ok=True)
    source, sink = os.pipe2(os.O_DIRECT)
    writer = threading.Thread(target=write_octets, args=(sink, session.joined("in")))
    with subprocess.Popen(
        words_of(session, database, f"/dev/fd/{source}", answer),
        stdout=subprocess.PIPE,
        stderr=subprocess.PIPE,
        pass_fds=[source],
    ) as program:
        os.close(source)
        writer.start()
        stopper = threading.Timer(SECONDS, program.kill)
        stopper.start()
        told = program.communicate()
        stopper.cancel()
    writer.join()
    done = subprocess.CompletedProcess([], program.returncode, *told)
    return check_lines(session.end, done) or check_out(session, octets_in(answer))


def write_octets(sink, octets):
    try:
        for octet in octets:
            os.write(sink, bytes([octet]))
    except BrokenPipeError:
        pass  # the session ended before its input did
    os.close(sink)


def as_conversation(session, _room, database):
    """The partner sends the next octets only once it has read each answer before, and after an ESID it waits until the program ends. The
    program must not read further before it answers, nor after the end."""
    source, sink = os.pipe()
    answers, answer = os.pipe()
    with subprocess.Popen(
        words_of(session, database, f"/dev/fd/{source}", f"/dev/fd/{answer}"),
        stdout=subprocess.PIPE,
        stderr=subprocess.PIPE,
        pass_fds=[source, answer],
    ) as program:
        os.close(source)
        os.close(answer)
        stopper = threading.Timer(SECONDS, program.kill)
        stopper.start()
        octets = converse(session, sink, answers)
        told = program.communicate()
        stopper.cancel()
    done = subprocess.CompletedProcess([], program.returncode, *told)
    return check_out(session, octets) or check_lines(session.end, done)


def converse(session, sink, answers):
    """Writes the input and reads the output, step by step, and closes both. It returns the whole output."""
    octets = b""
    is_read = True
    for side, wanted in session.steps:
        if side == "closes":
            read_no_more(answers)
            is_read = False
        elif side == "in":
            try:
                os.write(sink, wanted)
            except BrokenPipeError:
                break
        else:
            octets += read_octets(answers, len(wanted))
    if not session.is_ended():
        os.close(sink)
    if is_read:
        while piece := os.read(answers, 4096):
            octets += piece
        os.close(answers)
    if session.is_ended():
        os.close(sink)
    return octets


def read_no_more(answers):
    """Closes the reading end, and waits until no process has it: a program that another thread is starting has it for a moment, too."""
    writer = os.open(f"/dev/fd/{answers}", os.O_WRONLY)
    os.close(answers)
    waits = select.poll()
    waits.register(writer, 0)
    waits.poll(SECONDS * 1000)
    os.close(writer)


def read_octets(answers, left):
    octets = b""
    while left > len(octets) and (piece := os.read(answers, left - len(octets))):
        octets += piece
    return octets


def play_session(way, session, room, database):
    """Plays a session, in another way than the given one if it can only be played in one way."""
    if session.given:
        way = in_one_piece
    if session.closes():
        way = as_conversation
    return way(session, room, database)


def play_call(call, room, database):
    """Runs an operator's command."""
    options = {"--db": database, "--book": call.book}
    words = [word for option in OPTIONS[call.words[0]] for word in (option, options[option])]
    done = subprocess.run(
        [PROGRAM, call.words[0], *words, *call.words[1:]], cwd=room, capture_output=True, timeout=SECONDS, check=False
    )
    is_fault = call.told[:1] and call.told[0].startswith("fault:")
    is_refused = call.told[:1] and call.told[0].startswith("refused:")
    text = "".join(f"{line}\n" for line in call.told)
    return check_lines(("err" if is_fault else "out", text, 1 if is_fault or is_refused else 0), done)


def play_file(file, room):
    """Makes a file of the operator, or compares it."""
    path = room / file.name
    if file.is_made:
        path.write_bytes(file.octets)
        return None
    if not path.exists():
        return f"{file.name} isn't there"
    return None if path.read_bytes() == file.octets else f"{file.name} has other octets"


def play_statement(statement, database):
    connection = sqlite3.connect(database)
    with connection:
        connection.executescript(statement.text)
    connection.close()


def play_act(way, act, room, database):
    """Why one act differs from the row, or None."""
    try:
        if isinstance(act, Session):
            return play_session(way, act, room, database)
        if isinstance(act, Call):
            return play_call(act, room, database)
        if isinstance(act, File):
            return play_file(act, room)
        return play_statement(act, database)
    except subprocess.TimeoutExpired:
        return f"it didn't end within {SECONDS} seconds"


def check_left(row, left):
    """Why the tables aren't those of the row, or None."""
    if row.left is None:
        return None
    wanted = {**row.left}
    # A database without tables is an empty register, too.
    if left["about"] or wanted:
        wanted.setdefault("about", [{"id": "1", "schema": "2"}])
    for table in ["about", *tables.TABLES]:
        if table not in wanted and table in ("in_row", "out_row", "received_note"):
            continue
        found = [described(left, table, entry) for entry in left[table]]
        if len(found) != len(wanted.get(table, [])):
            return f"{table} has {len(found)} rows, not {len(wanted.get(table, []))}"
        for number, (fields, entry) in enumerate(zip(wanted.get(table, []), found), 1):
            for name, value in fields.items():
                if not is_said(name, value, entry[name]):
                    return f"{table}, row {number}: {name} is {entry[name]!r}, not {value!r}"
    return None


def described(left, table, entry):
    """The columns of an entry, and what a line `left` may have besides them."""
    if table in tables.ROWS_OF:
        found = tables.bodies(left, table, entry["no"])
        sizes = ",".join(str(len(body)) for body in found)
        return {**entry, "rows": len(found), "units": sum(map(len, found)), "sizes": sizes, "content": b"".join(found)}
    if table == "received":
        notes = [note for note in left["received_note"] if note["no"] == entry["no"]]
        return {"creator": "", "note": "", **entry, **(notes[0] if notes else {})}
    return entry


def is_said(name, value, found):
    return octets_of(value.split()) == found if isinstance(found, bytes) else value == str(found)
