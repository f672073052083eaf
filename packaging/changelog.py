#!/usr/bin/env python3
"""Writes the package's changelog, as Debian's tools read it, from CHANGELOG.md.

    packaging/changelog.py SECONDS VERSION < packaging/debian/control       prints it; the entry of a version that isn't published has this moment

An entry of CHANGELOG.md is headed by its version, and by the day on which it was published or `not published`. The package's own version takes the
place of the newest.
"""

import datetime
import re
import sys
from email.utils import format_datetime

from told import ROOT

CHANGELOG = ROOT / "CHANGELOG.md"
ENTRY = re.compile(r"^## (\S+), (.*)\n((?:(?!## ).*\n?)*)", re.M)
LINK = re.compile(r"\[([^\]]+)\]\([^)]*\)")


def items(text):
    """The items of an entry, each on one line, without marks and links."""
    for item in re.split(r"^- ", text, flags=re.M)[1:]:
        yield LINK.sub(r"\1", " ".join(item.split())).replace("**", "").replace("`", "")


def moment(told, seconds):
    """When an entry was published, or this moment."""
    day = re.fullmatch(r"\d{4}-\d\d-\d\d", told)
    at = datetime.datetime.fromisoformat(told) if day else datetime.datetime.fromtimestamp(seconds, datetime.timezone.utc)
    return format_datetime(at.replace(tzinfo=datetime.timezone.utc))


def folded(item, width=76):
    """An item in lines of this width."""
    lines = [""]
    for word in item.split():
        if len(lines[-1]) + len(word) > width:
            lines.append("")
        lines[-1] += f"{word} "
    return "\n    ".join(it.strip() for it in lines)


def main():
    seconds, version = int(sys.argv[1]), sys.argv[2]
    maintainer = re.search(r"^Maintainer: (.*)$", sys.stdin.read(), re.M)[1]
    for number, (entry, told, text) in enumerate(ENTRY.findall(CHANGELOG.read_text(encoding="utf-8"))):
        where = "UNRELEASED" if told == "not published" else "unstable"
        print(f"oftp-station ({entry if number else version}) {where}; urgency=medium\n")
        for item in items(text):
            print(f"  * {folded(item)}")
        print(f"\n -- {maintainer}  {moment(told, seconds)}\n")


if __name__ == "__main__":
    main()
