"""Databases of a station that stock sqlite3 fills, of any size, and the time that stock sqlite3 takes to open them."""

import os
import shutil
import sqlite3
from pathlib import Path

BLOCK = 1024
MEBI = 1024 * 1024
OURS, THEIRS = "O0013SUPPLIER", "O0177CARMAKER"
OUTGOING = {"dataset": "INV.0001", "date": "20240201", "time": "0800000001"}


def settle(database):
    """Checkpoints a database into its one file."""
    connection = sqlite3.connect(database)
    connection.execute("PRAGMA wal_checkpoint(TRUNCATE)")
    connection.close()


def copied(database, copy):
    """A copy of a database, on the disk before anything is measured."""
    for end in ("-wal", "-shm"):
        Path(f"{copy}{end}").unlink(missing_ok=True)
    shutil.copyfile(database, copy)
    with open(copy, "rb") as file:
        os.fsync(file)
    return copy


def opened(database):
    """A connection of stock sqlite3, with the settings of the station's."""
    connection = sqlite3.connect(database, isolation_level=None)
    connection.execute("PRAGMA journal_mode = WAL")
    connection.execute("PRAGMA synchronous = FULL")
    connection.execute("PRAGMA foreign_keys = ON")
    return connection


def fill_out(empty, full, size):
    """A database with one waiting file."""
    shutil.copyfile(empty, full)
    connection = sqlite3.connect(full)
    values = (*OUTGOING.values(), OURS, THEIRS)
    with connection:
        connection.execute("INSERT INTO out_file VALUES (1, ?, ?, ?, ?, ?, 'U', 0, '', 0, 'waiting', '')", values)
        rows = ((at, b"A" * BLOCK) for at in range(size // BLOCK))
        connection.executemany("INSERT INTO out_row VALUES (1, ?, ?)", rows)
    connection.close()
    settle(full)


# The numbers from one to another, of which a statement makes as many rows.
NUMBERS = "WITH RECURSIVE n(i) AS (SELECT :from UNION ALL SELECT i + 1 FROM n WHERE i < :to)"


def fill_large(empty, large, mebis):
    """A database with this many MiB in two received files."""
    shutil.copyfile(empty, large)
    connection = sqlite3.connect(large)
    with connection:
        for number in (1, 2):
            values = (number, f"LARGE.{number}", "20240131", "1015300001", THEIRS, OURS)
            connection.execute("INSERT INTO in_file VALUES (?, ?, ?, ?, ?, ?, 'U', 0, '', 'whole')", values)
            given = {"from": 0, "to": mebis * MEBI // 2 // BLOCK - 1, "no": number, "size": BLOCK}
            connection.execute(f"{NUMBERS} INSERT INTO in_row SELECT :no, i, randomblob(:size) FROM n", given)
    connection.close()
    settle(large)
    return large


def fill_many(empty, many, files):
    """A database with this many received files, each answered, and as many sent ones, each delivered."""
    shutil.copyfile(empty, many)
    connection = sqlite3.connect(many)
    came = "i, printf('N.%06d', i), '20240131', '1015300001', :theirs, :ours"
    went = "i, printf('N.%06d', i), '20240201', '0800000001', :ours, :theirs"
    of_went = "printf('N.%06d', i), '20240201', '0800000001', :ours, :theirs"
    tables = {
        "in_file": f"{came}, 'U', 0, '', 'whole'",
        "in_row": "i, 0, :body",
        "issued": "i, 'EERP', '', '', 1",
        "out_file": f"{went}, 'U', 0, '', 0, 'delivered', ''",
        "out_row": "i, 0, :body",
        "received": f"i, 'EERP', {of_went}, ''",
    }
    given = {"from": 1, "to": files, "ours": OURS, "theirs": THEIRS, "body": b"A" * 100}
    with connection:
        for table, values in tables.items():
            connection.execute(f"{NUMBERS} INSERT INTO {table} SELECT {values} FROM n", given)
    connection.close()
    settle(many)
    return many
