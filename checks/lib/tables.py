"""The tables of a station's database, read by stock sqlite3.

They are read from a copy, so that the files stay as the program left them. What is read has to be a register. It passes the integrity
checks of sqlite3, and the rules on the columns of the tables beyond these (`unfit`).
"""

import shutil
import sqlite3
import tempfile
from pathlib import Path

# Each table of the register with its columns, its key first.
TABLES = {
    "in_file": ["no", "dataset", "date", "time", "originator", "destination", "format", "longest", "description", "state"],
    "in_row": ["no", "pos", "body"],
    "out_file": [
        *("no", "dataset", "date", "time", "originator", "destination", "format", "longest", "description"),
        *("mark", "state", "reason"),
    ],
    "out_row": ["no", "pos", "body"],
    "issued": ["no", "kind", "reason", "note", "sent"],
    "received": ["no", "kind", "dataset", "date", "time", "originator", "destination", "reason"],
    "received_note": ["no", "creator", "note"],
}
KEYS = {"in_row": "no, pos", "out_row": "no, pos"}
ROWS_OF = {"in_file": "in_row", "out_file": "out_row"}
BLOCK = 1024
PAGE = 4096


class Damaged(Exception):
    """Files that hold no database, or tables that aren't those of a register."""


def read(database):
    """Each table's rows in the order of their keys, as a list of dicts; `about` beside them."""
    with tempfile.TemporaryDirectory() as room:
        copy = Path(room) / "copy"
        for end in ("", "-wal"):
            if Path(f"{database}{end}").exists():
                shutil.copyfile(f"{database}{end}", f"{copy}{end}")
        if not copy.exists() or is_under_way(copy):
            return {table: [] for table in ("about", *TABLES)}
        try:
            return read_copy(copy)
        except sqlite3.DatabaseError as why:
            raise Damaged(f"sqlite3 says: {why}") from why


def is_under_way(copy):
    """Whether the program was stopped while it made the file. It writes the first octet last, so that sqlite3 doesn't take it for a
    database yet, and the program begins anew."""
    octets = copy.read_bytes() if copy.stat().st_size <= PAGE else b"S"
    return octets[:1] in (b"", b"\0")


def read_copy(copy):
    connection = sqlite3.connect(copy)
    try:
        for word in ("integrity_check", "foreign_key_check"):
            told = connection.execute(f"PRAGMA {word}").fetchall()
            if told not in ([], [("ok",)]):
                raise Damaged(f"{word}: {told[:3]}")
        there = {name for (name,) in connection.execute("SELECT name FROM sqlite_schema WHERE type = 'table'")}
        tables = {"about": rows_of(connection, "about", ["id", "schema"], "id")} if "about" in there else {"about": []}
        for table, columns in TABLES.items():
            tables[table] = rows_of(connection, table, columns, KEYS.get(table, "no")) if table in there else []
        return tables
    finally:
        connection.close()


def rows_of(connection, table, columns, key):
    query = f"SELECT {', '.join(columns)} FROM {table} ORDER BY {key}"
    return [dict(zip(columns, row)) for row in connection.execute(query)]


def bodies(tables, table, number):
    """The rows of the file of this number, in order."""
    return [row["body"] for row in tables[ROWS_OF[table]] if row["no"] == number]


def unfit(tables):
    """Why the tables aren't those of a register, or None."""
    if tables["about"] == []:
        return None if not any(tables.values()) else "there are rows, and `about` is empty"
    for table in ("in_file", "out_file", "received"):
        if [row["no"] for row in tables[table]] != list(range(1, len(tables[table]) + 1)):
            return f"the numbers of {table} aren't 1, 2 and so on"
    return unfit_files(tables) or unfit_responses(tables)


def unfit_files(tables):
    for table, row_table in ROWS_OF.items():
        positions = {}
        for row in tables[row_table]:
            if row["pos"] != len(positions.setdefault(row["no"], [])):
                return f"{row_table}: file {row['no']} has no row {len(positions[row['no']])}"
            positions[row["no"]].append(row["body"])
        for file in tables[table]:
            why = unfit_file(table, file, positions.pop(file["no"], []))
            if why:
                return f"{table}: file {file['no']}: {why}"
        if positions:
            return f"{row_table} has rows of no file"
    return None


def unfit_file(table, file, found):
    sizes = [len(body) for body in found]
    form, is_open = file["format"], file["state"] == "open"
    if form in "UT":
        whole = sizes if is_open else sizes[:-1]
        if any(size != BLOCK for size in whole) or any(not 0 < size <= BLOCK for size in sizes):
            return "a row isn't a whole block"
    elif any(size > file["longest"] or (form == "F" and size != file["longest"]) for size in sizes):
        return "a row doesn't fit its longest record"
    if table == "in_file":
        return None if file["state"] in ("open", "whole") else "it has no state"
    if file["state"] not in ("waiting", "closing", "handed", "refused", "delivered", "returned"):
        return "it has no state"
    if (len(file["reason"]) == 2) != (file["state"] == "refused"):
        return "its reason doesn't fit its state"
    return None if 0 <= file["mark"] <= len(sizes) else "its mark is above its rows"


def unfit_responses(tables):
    whole = {file["no"] for file in tables["in_file"] if file["state"] == "whole"}
    for row in tables["issued"]:
        if row["no"] not in whole or row["kind"] not in ("EERP", "NERP") or row["sent"] not in (0, 1):
            return f"issued: {row}"
    kinds = {row["no"]: row["kind"] for row in tables["received"]}
    noted = {row["no"] for row in tables["received_note"]}
    if noted != {number for number, kind in kinds.items() if kind == "NERP"} and tables["about"] == [{"id": 1, "schema": 2}]:
        return "received_note hasn't one row for each NERP"
    return None
