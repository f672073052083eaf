#!/usr/bin/env python3
"""Compares the page, crates/oftp_page/src/page.html, with its policy, with the words of the crates, and with its copy for the program.

    checks/lint/page.py            compares, prints each difference, and `N passed, M failed`
    checks/lint/page.py --write    writes the hashes of its script and its style into the page, and writes the copy

The copy is crates/oftp_page/src/page.rt. The page's policy allows only the script and the style with these hashes, and no text to
become markup. Nothing in the page is loaded from elsewhere. It knows each state that the listing names (oftp_listing/specs/Names.antt), and
has the words of oftp_wire/specs/Reasons.antt for the reasons there. Each state in which a file may be late has a bound, which the page tells.

Shows: the page lets nothing run but its own script, and has nothing from elsewhere. It knows every state of the listing and the station's words
for reasons; the program's copy is the same
"""

import base64
import hashlib
import re
import sys
from pathlib import Path

sys.path.insert(0, str(Path(__file__).resolve().parents[1] / "lib"))

from program import ROOT
from reasons import words_of

PAGE = ROOT / "crates/oftp_page/src/page.html"
COPY = ROOT / "crates/oftp_page/src/page.rt"
NAMES = ROOT / "crates/oftp_listing/specs/Names.antt"
# What a policy has to have, besides the hashes.
POLICY = [
    *("default-src 'none'", "connect-src 'self'", "img-src data:", "base-uri 'none'", "form-action 'none'"),
    *("require-trusted-types-for 'script'", "trusted-types 'none'"),
]
# What would turn a text into markup or code, and what would load something.
FORBIDDEN = [
    *("innerHTML", "outerHTML", "insertAdjacentHTML", "document.write", "createContextualFragment", "DOMParser", "setHTML", "srcdoc"),
    *("eval(", "Function(", "import(", "://", "@import", "url(", " src=", "XMLHttpRequest", "WebSocket", "EventSource", "sendBeacon"),
    *("execCommand", "window.open", "location.href", "location.assign", "postMessage"),
]
MARKS = '"###'


def policy_of(text):
    """The directives of the page's policy."""
    found = re.search(r'http-equiv="Content-Security-Policy" content="([^"]*)"', text)
    return [" ".join(it.split()) for it in found.group(1).split(";")] if found else []


def sums_of(text):
    """The directive that allows only the page's script, and the one for its style."""
    for part, name in (("script", "script-src"), ("style", "style-src")):
        bodies = re.findall(rf"<{part}>(.*?)</{part}>", text, re.S)
        yield f"{name} " + " ".join(f"'sha256-{base64.b64encode(hashlib.sha256(it.encode()).digest()).decode()}'" for it in bodies)


def with_sums(text):
    for directive in sums_of(text):
        name, _, sums = directive.partition(" ")
        text = re.sub(rf"{name} [^;\"]*", lambda _, it=f"{name} {sums}": it, text, count=1)
    return text


def copy_of(text):
    """The page as a text in the program's source."""
    return (
        "//! The page for people, the text of page.html: written by `checks/lint/page.py --write`.\n\n"
        "/// What a request for `/` is answered with: one text of HTML, in which all is that it needs.\n"
        f"pub const PAGE: &str = r###\"{text}{MARKS};\n"
    )


def reasons_shown(text, name):
    """The reasons in this table of the page."""
    found = re.search(rf"const {name} = \{{(.*?)\}};", text, re.S)
    return re.findall(r'"(\d\d)": "([^"]*)"', found.group(1)) if found else []


def states_told():
    """The names that the listing has for the states of files."""
    text = NAMES.read_text(encoding="utf-8")
    return re.findall(r'^(incoming|outgoing)_state_name \(?\w+.*= codes "(\w+)"$', text, re.M)


def states_shown(text):
    """The states of each list in the page's table."""
    table = re.search(r"const STATES = \{\n(.*?)\n\};", text, re.S)
    lists = re.findall(r"^  (\w+): \{\n(.*?)^  \},", table.group(1), re.S | re.M) if table else []
    # A file is described by its header alone.
    more = {"in": {"whole"} if 'state === "whole"' in text else set()}
    return {name: set(re.findall(r"^    (\w+): \{", body, re.M)) | more.get(name, set()) for name, body in lists}


def keys_of(text, name):
    """The keys of this table of the page."""
    found = re.search(rf"const {name} = \{{(.*?)\}};", text, re.S)
    return set(re.findall(r"(\w+): ", found.group(1))) if found else set()


def judged(text):
    """The demands on the page, and whether each is met."""
    policy = policy_of(text)
    for directive in [*POLICY, *sums_of(text)]:
        yield f"its policy says: {directive}", directive in policy
    yield "its policy says nothing else", len(policy) == len(POLICY) + 2
    for word in FORBIDDEN:
        yield f"it has no {word.strip()}", word not in text
    for name, phrase in (("START_REASONS", "start_phrase"), ("NEGATIVE_REASONS", "negative_phrase"), ("SESSION_REASONS", "session_phrase")):
        told, shown = words_of(phrase), reasons_shown(text, name)
        for number, words in told.items():
            yield f"{name} has the reason {number} {words}", (number, words) in shown
        yield f"{name} has no other reason", set(shown) == set(told.items())
    for side, name in states_told():
        yield f"it knows the {side} state {name}", name in states_shown(text).get({"incoming": "in", "outgoing": "out"}[side], ())
    late = {it.removesuffix("_late") for states in states_shown(text).values() for it in states if it.endswith("_late")}
    yield "it has a bound, and the words for it, for each state in which a file may be late", late == keys_of(text, "LATE_AFTER") == keys_of(text, "LATE_IF")
    yield "it has a browser ask for no icon", '<link rel="icon" href="data:,">' in text
    yield "no line of it is longer than 180 characters", all(len(line) <= 180 for line in text.splitlines())
    yield "it can stand in a text of the program", MARKS not in text
    yield f"{COPY.name} is its copy", COPY.exists() and COPY.read_text(encoding="utf-8") == copy_of(text)


def main():
    text = PAGE.read_text(encoding="utf-8")
    if sys.argv[1:] == ["--write"]:
        text = with_sums(text)
        PAGE.write_text(text, encoding="utf-8")
        COPY.write_text(copy_of(text), encoding="utf-8")
    failed = passed = 0
    for what, is_so in judged(text):
        passed += bool(is_so)
        failed += not is_so
        if not is_so:
            print(f"page.html: not so: {what}")
    print(f"{passed} passed, {failed} failed")
    return 1 if failed or not passed else 0


if __name__ == "__main__":
    sys.exit(main())
