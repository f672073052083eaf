"""The reasons of RFC 5024 with their words, and those that the station gives, as crates/oftp_wire/specs/Reasons.antt has them."""

import re

from program import ROOT

REASONS = ROOT / "crates/oftp_wire/specs/Reasons.antt"


def words_of(phrase):
    """The reasons that the definition with this name lists itself, in two digits, each with its words."""
    text = REASONS.read_text(encoding="utf-8")
    table = re.search(rf"^{phrase} n =\n(.*?)^    else (?:\[\]|\w+ n)$", text, re.S | re.M)
    return {f"{int(number):02}": words for number, words in re.findall(r'if n == (\d+) then codes "(.*)"$', table[1], re.M)}


def numbers_of(number):
    """The reasons that the station gives, by the definition of their numbers, in two digits."""
    text = REASONS.read_text(encoding="utf-8")
    return {f"{int(it):02}" for it in re.findall(rf"^{number} \w+ = (\d+)$", text, re.M)}
