"""A session in which one file of any size is received, encoded for a buffer and a credit, and the book for it."""

from pathlib import Path

import oftp

MEBI = 1024 * 1024
# The largest file that is accepted.
MOST = 64 * MEBI
FILE = {
    "dataset": "ASN.0001",
    "date": "20240131",
    "time": "1015300001",
    "destination": "O0013SUPPLIER",
    "originator": "O0177CARMAKER",
    "format": "U",
}
BOOK = """[station]
code = 'O0013SUPPLIER'
buffer = {buffer}
credit = {credit}
restart = true

[[partner]]
code = 'O0177CARMAKER'
expects = 'CARPW'
sends = 'SUPPW'
mode = 'B'
address = '127.0.0.1:3305'
"""


def frame_of(kind, **fields):
    return oftp.frame(oftp.spell(kind, fields))


def data_frames(size, buffer):
    """The DATA of a file of this many octets, each as full as the buffer allows."""
    frames = []
    left = size
    while left > 0:
        payload = []
        room = buffer - 1
        while room > 1 and left > 0:
            count = min(63, left, room - 1)
            left -= count
            room -= count + 1
            flag = 0x80 if left == 0 else 0
            payload.append(bytes([flag | count]) + b"A" * count)
        frames.append(oftp.frame(b"D" + b"".join(payload)))
    return frames


def session(size, buffer, credit):
    """The octets of a session with one file."""
    frames = data_frames(size, buffer)
    opening = frame_of("SSID", code="O0177CARMAKER", password="CARPW", buffer=str(buffer), credit=str(credit), mode="B")
    offer = frame_of("SFID", size=str((min(size, MOST) + 1023) // 1024), **FILE)
    end = frame_of("EFID", records="0", units=str(size))
    return b"".join([opening, offer, *frames, end, frame_of("ESID", reason="00")])


def make(size, buffer, credit, path):
    """Writes the octets of a session to a file."""
    Path(path).write_bytes(session(int(size), int(buffer), int(credit)))
