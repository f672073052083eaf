"""The text of a crate's source: the parts of it that aren't code, and where a body begins and ends."""

import re

# Comments, characters and strings, in which a brace doesn't count.
OPAQUE = re.compile(r"//[^\n]*|b?'(?:\\u\{\w+\}|\\x\w\w|\\.|[^'\\\n])'|b?\"(?:\\.|[^\"\\])*\"", re.S)
CLAUSE = re.compile(r"\b(?:ensures|requires|decreases|ghost)\b[^{}]*$")


def end_of(text, at):
    """The place of the brace that closes the one at this place."""
    depth = 0
    for place in range(at, len(text)):
        depth += {"{": 1, "}": -1}.get(text[place], 0)
        if depth == 0:
            return place
    return len(text)


def body_of(text, at):
    """The begin and the end of the body after a place in a function's head, or None if it has none."""
    depth, begin = 0, at
    while at < len(text):
        depth += {"(": 1, "[": 1, ")": -1, "]": -1}.get(text[at], 0)
        if depth == 0 and text[at] == ";":
            return None
        if depth == 0 and text[at] == "{":
            end = end_of(text, at)
            if not CLAUSE.search(text[begin:at]):
                return at, end
            begin = at = end
        at += 1
    return None
