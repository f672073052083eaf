"""The commands of OFTP2 (RFC 5024, section 5), encoded and decoded independently of the station's code.

A command is a kind and its fields. These are a dict of field name to text, in which names have no padding and numbers no leading zeros.
Each kind is a list of fields in the order of their octets. So a field's offset is the sum of the sizes before it.
"""

# A field: its name, its form and its size. Forms: `const` (its octets in the place of a name), `name` (padded with spaces), `number`
# (leading zeros), `letter`, and `digits` (kept with their zeros). Others are `reserved`, and `text` (its length in three digits, then
# the octets of the field `text`). `nothing` is two octets 00: a length of a hash or a signature. The last are `payload` (whatever is
# left), and `return` (0D).
KINDS = {
    "SSRM": [("IODETTE FTP READY ", "const", 18), ("", "return", 1)],
    "SSID": [
        ("X", "const", 1),
        ("level", "number", 1),
        ("code", "name", 25),
        ("password", "name", 8),
        ("buffer", "number", 5),
        ("mode", "letter", 1),
        ("compression", "letter", 1),
        ("restart", "letter", 1),
        ("logic", "letter", 1),
        ("credit", "number", 3),
        ("authentication", "letter", 1),
        ("", "reserved", 4),
        ("user", "name", 8),
        ("", "return", 1),
    ],
    "SFID": [
        ("H", "const", 1),
        ("dataset", "name", 26),
        ("", "reserved", 3),
        ("date", "digits", 8),
        ("time", "digits", 10),
        ("user", "name", 8),
        ("destination", "name", 25),
        ("originator", "name", 25),
        ("format", "letter", 1),
        ("longest", "number", 5),
        ("size", "number", 13),
        ("original", "number", 13),
        ("restart", "number", 17),
        ("security", "digits", 2),
        ("cipher", "digits", 2),
        ("compression", "number", 1),
        ("enveloping", "number", 1),
        ("signed", "letter", 1),
        ("description", "text", 3),
    ],
    "SFPA": [("2", "const", 1), ("count", "number", 17)],
    "SFNA": [("3", "const", 1), ("reason", "digits", 2), ("retry", "letter", 1), ("text", "text", 3)],
    "DATA": [("D", "const", 1), ("payload", "payload", None)],
    "CDT": [("C", "const", 1), ("", "reserved", 2)],
    "EFID": [("T", "const", 1), ("records", "number", 17), ("units", "number", 17)],
    "EFPA": [("4", "const", 1), ("change", "letter", 1)],
    "EFNA": [("5", "const", 1), ("reason", "digits", 2), ("text", "text", 3)],
    "ESID": [("F", "const", 1), ("reason", "digits", 2), ("text", "text", 3), ("", "return", 1)],
    "CD": [("R", "const", 1)],
    "RTR": [("P", "const", 1)],
    "EERP": [
        ("E", "const", 1),
        ("dataset", "name", 26),
        ("", "reserved", 3),
        ("date", "digits", 8),
        ("time", "digits", 10),
        ("user", "name", 8),
        ("destination", "name", 25),
        ("originator", "name", 25),
        ("", "nothing", 2),
        ("", "nothing", 2),
    ],
    "NERP": [
        ("N", "const", 1),
        ("dataset", "name", 26),
        ("", "reserved", 6),
        ("date", "digits", 8),
        ("time", "digits", 10),
        ("destination", "name", 25),
        ("originator", "name", 25),
        ("creator", "name", 25),
        ("reason", "digits", 2),
        ("text", "text", 3),
        ("", "nothing", 2),
        ("", "nothing", 2),
    ],
}

# The default of a field.
USUAL = {
    "level": "5",
    "compression": "N",
    "restart": "Y",
    "logic": "N",
    "authentication": "N",
    "user": "",
    "text": "",
    "description": "",
    "longest": "0",
    "size": "1",
    "original": "1",
    "security": "00",
    "cipher": "00",
    "enveloping": "0",
    "signed": "N",
    "retry": "N",
    "change": "N",
}

# Fields with the same name that differ in another kind.
USUAL_OF = {"SFID": {"restart": "0", "compression": "0"}}

FIRST = {kind: fields[0][0][0] for kind, fields in KINDS.items()}
KIND_OF = {letter: kind for kind, letter in FIRST.items()}


class Unreadable(Exception):
    """Octets that aren't a command, or words that aren't one."""


def usual(kind, name):
    """The default of a field."""
    value = USUAL_OF.get(kind, {}).get(name, USUAL.get(name))
    if value is None:
        raise Unreadable(f"{kind} wants the field {name}")
    return value


def spell_field(kind, field, fields):
    """The octets of one field."""
    name, form, size = field
    if form == "const":
        return name.encode()
    if form == "reserved":
        return b" " * size
    if form == "nothing":
        return bytes(size)
    if form == "return":
        return b"\r"
    if form == "payload":
        return fields[name]
    value = fields.get(name, None)
    if value is None:
        value = usual(kind, name)
    octets = value.encode()
    if form == "text":
        return f"{len(octets):03}".encode() + octets
    if form == "name":
        octets = octets.ljust(size)
    elif form == "number":
        octets = octets.rjust(size, b"0")
    if len(octets) != size:
        raise Unreadable(f"{kind}: {name} has {len(octets)} octets, not {size}")
    return octets


def spell(kind, fields):
    """The octets of a command."""
    known = {name for name, form, _ in KINDS[kind] if form not in ("const", "reserved", "nothing", "return")}
    for name in fields:
        if name not in known:
            raise Unreadable(f"{kind} has no field {name}")
    return b"".join(spell_field(kind, field, fields) for field in KINDS[kind])


def frame(octets):
    """A command on the stream: the header, then its octets (RFC 5024, section 8)."""
    return bytes([0x10]) + (len(octets) + 4).to_bytes(3, "big") + octets


def read(octets):
    """The kind and the fields in these octets, each value without padding."""
    kind = KIND_OF.get(octets[:1].decode("latin-1"))
    if kind is None:
        raise Unreadable("no command begins so")
    fields = {}
    at = 0
    for name, form, size in KINDS[kind]:
        if form == "payload":
            fields[name] = octets[at:]
            at = len(octets)
            continue
        part = octets[at : at + size]
        if len(part) < size:
            raise Unreadable(f"{kind} is cut at {at}")
        at += size
        if form == "text":
            length = int(part)
            fields[name] = octets[at : at + length].decode("utf-8", "replace")
            at += length
        elif form == "name":
            fields[name] = part.decode("latin-1").rstrip(" ")
        elif form == "number":
            fields[name] = str(int(part))
        elif form in ("letter", "digits"):
            fields[name] = part.decode("latin-1")
    if at != len(octets):
        raise Unreadable(f"{kind} has {len(octets) - at} octets more than it should")
    return kind, fields


def frames_of(octets):
    """The frames of a stream, in order; octets after the last whole one come last."""
    frames = []
    at = 0
    while at < len(octets):
        length = int.from_bytes(octets[at + 1 : at + 4], "big")
        if octets[at] != 0x10 or length < 5 or length > len(octets) - at:
            length = len(octets) - at
        frames.append(octets[at : at + length])
        at += length
    return frames


def shown(octets):
    """A frame in words: its kind and its fields, or its octets."""
    try:
        kind, fields = read(octets[4:])
    except (Unreadable, ValueError):
        return "octets " + octets.hex(" ")
    words = [kind]
    for name, value in fields.items():
        if name == "password":
            value = "*" * len(value)
        words.append(f"{name}={value.hex(' ') if isinstance(value, bytes) else value!r}")
    return " ".join(words)
