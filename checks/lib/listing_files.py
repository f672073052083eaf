"""The files of rows/listing in their written form (rows/README.md): requests to `http`, reports, and the whole of each reply.

What a database holds is computed here from what stock sqlite3 reads.
"""

import csv
import io
import json
import socket
import time

import tables
from acts import in_one_piece, play_act
from row_files import Call, Row, octets_of
from services import Service, expect, rest_of

END = b"\r\n"
PHRASES = {"200": "OK", "400": "Bad Request", "404": "Not Found", "405": "Method Not Allowed", "503": "Service Unavailable"}
# The lines with more about a request.
MORE = ("fields", "field_up_to", "behind", "behind_up_to", "unfinished", "in_pieces", "cut", "whole", *PHRASES)


# ---- what a database holds, as it is shown


def shown(left):
    """The objects of each list, built from the rows of the tables."""
    kinds = {row["no"]: row["kind"] for row in left["issued"]}
    numbers = {identity_of(file): file["no"] for file in left["out_file"]}
    notes = {note["no"]: note for note in left["received_note"]}
    came, went = sizes_of(left, "in_file"), sizes_of(left, "out_file")
    return {
        "in": [{**shown_file(file, came), "response": kinds.get(file["no"], "none")} for file in left["in_file"]],
        "out": [{**shown_file(file, went), **of(file, "mark reason")} for file in left["out_file"]],
        "issued": [{**of(row, "kind no reason"), "sent": row["sent"] == 1} for row in left["issued"]],
        "received": [
            {
                **of(row, "dataset date kind no reason time"),
                "creator": notes[row["no"]]["creator"] if row["no"] in notes else "",
                "file": numbers.get(identity_of(row), 0),
                "from": row["destination"],
                "note": notes[row["no"]]["note"] if row["no"] in notes else "",
            }
            for row in left["received"]
        ],
    }


def of(row, names):
    return {name: row[name] for name in names.split()}


def identity_of(row):
    return tuple(of(row, "dataset date time originator destination").values())


def sizes_of(left, table):
    """The sizes of the rows of each file, by its number."""
    sizes = {file["no"]: [] for file in left[table]}
    for row in left[tables.ROWS_OF[table]]:
        sizes[row["no"]].append(len(row["body"]))
    return sizes


def shown_file(file, sizes):
    named = of(file, "dataset date description destination format no originator state time")
    return {**named, "rows": len(sizes[file["no"]]), "units": sum(sizes[file["no"]])}


def body_of(database, target):
    """The JSON text that a target has to return, by what stock sqlite3 reads."""
    return body_in(shown(tables.read(database)), target)


def body_in(lists, target):
    """The JSON text of these lists that a target has to return."""
    if target == "/responses":
        value = of(lists, "issued received")
    else:
        side, _, number = target.removeprefix("/").partition("/")
        value = lists[side][int(number) - 1] if number else lists[side]
    # The keys of each object are in alphabetical order.
    return json.dumps(value, ensure_ascii=False, separators=(",", ":"), sort_keys=True).encode()


def reply_for(lists, target):
    """The whole reply for a target, by these lists."""
    try:
        return reply_of("200", body_in(lists, target).decode())
    except IndexError:
        return reply_of("404", "")


def check_report(database, kind, text):
    """The report, read by another CSV reader, has the content of the database."""
    compare_report(shown(tables.read(database)), kind, text)


def compare_report(lists, kind, text):
    """The report, read by another CSV reader, has the content of these lists."""
    heading, *rows = csv.reader(io.StringIO(text, newline=""))
    wanted = [[said(entry[name]) for name in heading] for entry in lists[kind]]
    expect(rows, wanted, f"the report of {kind}, read by csv")


def said(value):
    """A value as a report prints it."""
    return {True: "yes", False: "no"}[value] if isinstance(value, bool) else str(value)


# ---- requests


class Request:
    """A request, how it is sent, and the whole reply."""

    def __init__(self, octets, is_head):
        self.octets = octets
        self.is_head = is_head
        self.behind = b""
        self.way = "whole"
        self.reply = b""

    def take(self, first, words, text):
        if first == "fields":
            count, _, field = text.partition(" ")
            self.octets += (field.encode() + END) * int(count)
        elif first == "field_up_to":
            self.octets += b"F: ".ljust(int(text) - len(self.octets) - 2 * len(END), b"x") + END
        elif first == "behind":
            self.behind += octets_of(words)
        elif first == "behind_up_to":
            self.behind += b"x" * (int(text) - len(self.sent()))
        elif first in ("unfinished", "in_pieces", "cut"):
            self.way = first
        elif first == "whole":
            self.reply += (END if self.reply else b"") + text.encode()
        else:
            self.reply = reply_of(first, text)

    def sent(self):
        """All octets of the request."""
        return self.octets + (END if self.is_head and self.way != "unfinished" else b"") + self.behind

    def count(self):
        """How many connections it makes."""
        return len(self.sent()) if self.way == "cut" else 1

    def play(self, service):
        if self.way == "cut":
            for end in range(len(self.sent())):
                expect(ask(service, [self.sent()[:end]], is_over=True), b"", f"the reply to {end} octets")
            return
        pieces = [self.sent()]
        if self.way == "in_pieces":
            pieces = [bytes([octet]) for octet in self.sent()]
        reply = ask(service, pieces)
        expect(reply, self.reply, f"the reply to {self.sent()[:60]!r}")
        if reply.startswith(b"HTTP/1.1 200 "):
            body = body_of(service.database, self.sent().split()[1].decode())
            expect(reply.partition(END + END)[2], body, f"the body for {self.sent()[:60]!r}")


def reply_of(status, body):
    """The whole reply with a status and a body. Without a body, it is the status."""
    body = (body or f'{{"error":{status}}}').encode()
    lines = [f"HTTP/1.1 {status} {PHRASES[status]}", "Content-Type: application/json", f"Content-Length: {len(body)}"]
    lines += ["Connection: close", *(["Allow: GET"] if status == "405" else []), ""]
    return "".join(f"{line}\r\n" for line in lines).encode() + body


def ask(service, pieces, is_over=False, port=None):
    """The reply to these pieces. The caller keeps its side open, or ends its output."""
    with service.caller(port=port) as caller:
        caller.setsockopt(socket.IPPROTO_TCP, socket.TCP_NODELAY, 1)
        for piece in pieces:
            caller.sendall(piece)
            if len(pieces) > 1:
                time.sleep(0.001)
        if is_over:
            caller.shutdown(socket.SHUT_WR)
        return rest_of(caller)


# ---- files of rows/listing


class Listing(Row):
    """A file of rows/listing: what is done, in order."""

    def take(self, words, line):
        first, rest, text = words[0], words[1:], line.partition(" ")[2]
        if first == "ask":
            self.acts.append(Request(text.encode() + END, True))
        elif first == "request":
            self.acts.append(Request(octets_of(rest), False))
        elif first in MORE:
            self.last(Request).take(first, rest, text)
        else:
            super().take(words, line)

    def play(self, room):
        asked = sum(act.count() for act in self.acts if isinstance(act, Request))
        with Service(room, "http", "--requests", str(asked or 1)) as service:
            for number, act in enumerate(self.acts, 1):
                if isinstance(act, Request):
                    act.play(service)
                    continue
                expect(play_act(in_one_piece, act, room, service.database), None, f"act {number}")
                if isinstance(act, Call) and act.words[0] == "report" and not act.told[0].startswith("fault:"):
                    check_report(service.database, act.words[1], "".join(f"{line}\n" for line in act.told))
            if asked:
                service.ends()
