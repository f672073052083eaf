"""Two stations that are each other's partner: their books, the files that their operators submit, and what they promise each other.

The promise is read from the tables of both.
"""

import re

from killed import rows_of
from program import ROOT
from tables import ROWS_OF

MOST = 20_000
IDENTITY = ["dataset", "date", "time", "originator", "destination"]
STAMP = ["--date", "20240201", "--time", "0800000001"]


# ---- books, and submitted files


def local_form(chance, form, longest):
    """A file as an operator submits it, and its rows."""
    if form in "UT":
        octets = chance.randbytes(chance.choice([0, 1, 700, 5000, MOST]))
        return octets, rows_of(octets)
    count = chance.choice([0, 1, 12, min(400, MOST // longest)])
    sizes = [longest if form == "F" else chance.randint(0, longest) for _ in range(count)]
    rows = [chance.randbytes(size) for size in sizes]
    return b"".join((f"{len(row):05}".encode() if form == "V" else b"") + row for row in rows), rows


def book_of(name, settings, port):
    """A book of examples/ with these settings, in which the partner is called at this port."""
    text = (ROOT / "examples" / name / "book.toml").read_text()
    for key, value in settings.items():
        text = re.sub(f"^{key} = \\w+", f"{key} = {value}", text, flags=re.MULTILINE)
    return re.sub(r"127\.0\.0\.1:\d+", f"127.0.0.1:{port}", text)


def settings_of(chance):
    restart = chance.choice(["true", "true", "true", "false"])
    return {"buffer": chance.choice([128, 1024, 4096]), "credit": chance.choice([1, 2, 9]), "restart": restart}


# ---- what a station never loses


def taken_back(before, held):
    """Why a station has less than before, or None."""
    for table, rank in (("in_file", rank_in), ("out_file", rank_out), ("issued", rank_issued), ("received", rank_in)):
        now = {entry["no"]: entry for entry in held[table]}
        for entry in before[table]:
            if entry["no"] not in now or rank(now[entry["no"]]) < rank(entry):
                return f"{entry} of {table} is {now.get(entry['no'])}"
    return None


def rank_in(entry):
    return entry.get("state") == "whole"


def rank_out(entry):
    return {"handed": 1, "delivered": 2, "returned": 2}.get(entry["state"], 0)


def rank_issued(entry):
    return entry["sent"]


def twice(held):
    """What a station has twice, or None: each file and each response is there once, whatever broke."""
    for table, names in (("in_file", IDENTITY), ("out_file", IDENTITY), ("received", ["kind", *IDENTITY]), ("issued", ["no"])):
        found = [tuple(entry[name] for name in names) for entry in held[table]]
        if len(set(found)) != len(found):
            return f"{table}: {max(found, key=found.count)}"
    return None


# ---- what two stations promise


def is_between(entry, codes):
    """Whether a file goes from the first code to the second; any does if no codes are given."""
    return codes is None or (entry["originator"], entry["destination"]) == codes


def by_identity(held, table, codes=None):
    return {tuple(entry[name] for name in IDENTITY): entry for entry in held[table] if is_between(entry, codes)}


def promised(sender, receiver, codes=None):
    """Why the promise of two stations doesn't hold in this direction, or None. Where they have other partners, it is of the files between
    their two codes. The first two checks are the promise; the third goes further."""
    there = by_identity(receiver, "in_file", codes)
    for identity, file in by_identity(sender, "out_file", codes).items():
        came = there.pop(identity, None)
        why = content(sender, file, receiver, came) or responses(file, receiver, came) or beginning(sender, file, receiver, came)
        if why:
            return f"{why}: {file}, and there {came}"
    for came in there.values():
        return f"a file came that wasn't sent: {came}"
    return None


def left_of_promise(sender, receiver, codes, is_sender_new):
    """Why what is left of the promise doesn't hold, or None, if one of the two has begun a new database. If that is the sender, what it has as
    handed over and as answered is so. If it is the receiver, what is whole there is the sender's."""
    there, files = by_identity(receiver, "in_file", codes), by_identity(sender, "out_file", codes)
    for identity, file in files.items() if is_sender_new else []:
        came = there.get(identity)
        why = file["state"] in ("handed", "delivered", "returned") and (content(sender, file, receiver, came) or responses(file, receiver, came))
        if why:
            return f"{why}: {file}, and there {came}"
    for identity, came in there.items() if not is_sender_new else []:
        file = files.get(identity)
        if came["state"] == "whole" and (file is None or content(sender, file, receiver, came)):
            return f"whole, and not the sender's: {came}, and here {file}"
    return None


def content(sender, file, receiver, came):
    """A file that is handed over is whole at the receiver, and one that is whole there is the sender's, with equal rows."""
    is_whole = came is not None and came["state"] == "whole"
    if file["state"] in ("handed", "delivered", "returned") and not is_whole:
        return "handed over, and not whole"
    if not is_whole:
        return None
    if (file["format"], file["longest"]) != (came["format"], came["longest"]):
        return "whole in another format"
    return None if rows_here(sender, "out_file", file) == rows_here(receiver, "in_file", came) else "whole with other rows"


def responses(file, receiver, came):
    """A delivered file has an End-to-End Response issued there, and a returned one a Negative End Response."""
    kind = {"delivered": "EERP", "returned": "NERP"}.get(file["state"])
    issued = [] if came is None else [row["kind"] for row in receiver["issued"] if row["no"] == came["no"]]
    return None if kind is None or kind in issued else f"{file['state']}, and there {issued} is issued"


def beginning(sender, file, receiver, came):
    """The rows received so far are a beginning of the file."""
    if came is None:
        return None
    kept = rows_here(receiver, "in_file", came)
    return None if rows_here(sender, "out_file", file)[: len(kept)] == kept else "the rows kept don't begin the file"


def answered(sender, receiver, codes=None):
    """Why a received response to a file, between these codes if any are given, isn't one that was issued, word by word, or None."""
    files = by_identity(receiver, "in_file")
    issued = {row["no"]: row for row in receiver["issued"]}
    notes = {row["no"]: (row["creator"], row["note"]) for row in sender["received_note"]}
    for row in (it for it in sender["received"] if is_between(it, codes)):
        came = files.get(tuple(row[name] for name in IDENTITY))
        there = issued.get(came["no"]) if came else None
        if there is None or (row["kind"], row["reason"]) != (there["kind"], there["reason"]):
            return f"{row} came, and {there} is issued"
        if row["kind"] == "NERP" and notes[row["no"]] != (row["destination"], there["note"]):
            return f"{notes[row['no']]} came, and {there} is issued"
    return None


def rows_here(held, table, file):
    """The rows of a file. They are sorted by their files once."""
    rows = held.setdefault(f"bodies of {table}", {})
    if not rows:
        for row in held[ROWS_OF[table]]:
            rows.setdefault(row["no"], []).append(row["body"])
    return rows.get(file["no"], [])
