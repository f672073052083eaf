"""Charts as SVG, drawn from numbers alone: bars in parts, bars side by side, and lines over logarithmic axes."""

import math
from html import escape
from typing import NamedTuple

# Colours that keep their contrast on white and on black, one for each series.
COLOURS = ("#3b7dd8", "#d9822b", "#4a9d5b", "#b0559c")
STYLE = (
    "text{font:12px sans-serif;fill:#333}.axis{stroke:#999;stroke-width:1}.grid{stroke:#ddd;stroke-width:1}"
    "@media(prefers-color-scheme:dark){text{fill:#ddd}.grid{stroke:#444}}"
)
LEFT, TOP, WIDE, BAR, KEY = 270, 34, 480, 14, 22


class Series(NamedTuple):
    """A name, and a number for each place of the chart, or None."""

    name: str
    values: list


def text(x, y, words, anchor="start"):
    return f'<text x="{x:.0f}" y="{y:.0f}" text-anchor="{anchor}">{escape(str(words))}</text>'


def line(x, y, to_x, to_y, kind):
    return f'<line class="{kind}" x1="{x:.0f}" y1="{y:.0f}" x2="{to_x:.0f}" y2="{to_y:.0f}"/>'


def keys(series, y):
    """What each colour means, in a line at this height."""
    x = LEFT
    for at, one in enumerate(series):
        yield f'<rect x="{x}" y="{y - 10}" width="10" height="10" fill="{COLOURS[at]}"/>'
        yield text(x + 14, y, one.name)
        x += 34 + 7 * len(one.name)


def picture(title, height, parts):
    """A whole picture, with its title for who can't see it."""
    head = f'<svg xmlns="http://www.w3.org/2000/svg" viewBox="0 0 {LEFT + WIDE + 60} {height}" role="img" aria-label="{escape(title)}">'
    return "\n".join([head, f"<style>{STYLE}</style>", text(8, 18, title), *parts, "</svg>", ""])


def step_of(most):
    """A round distance between the lines of a grid that has about five of them."""
    power = 10 ** math.floor(math.log10(most / 5))
    return next(it * power for it in (1, 2, 5, 10) if it * power >= most / 5)


def grid(most, bottom):
    step = step_of(most)
    for at in range(int(most / step) + 1):
        x = LEFT + WIDE * at * step / most
        yield line(x, TOP + KEY, x, bottom, "grid")
        yield text(x, bottom + 14, f"{at * step:,g}", "middle")


def parted_bars(title, places, series):
    """A bar for each place, made of the parts that each series has there."""
    most = max(sum(one.values[at] or 0 for one in series) for at in range(len(places)))
    bottom = TOP + KEY + (BAR + 4) * len(places)
    parts = [*keys(series, TOP + 10), *grid(most, bottom)]
    for at, place in enumerate(places):
        y, x = TOP + KEY + (BAR + 4) * at, LEFT
        parts.append(text(LEFT - 6, y + 11, place, "end"))
        for colour, one in zip(COLOURS, series):
            wide = WIDE * (one.values[at] or 0) / most
            parts.append(f'<rect x="{x:.1f}" y="{y}" width="{wide:.1f}" height="{BAR}" fill="{colour}"/>')
            x += wide
    return picture(title, bottom + 24, parts)


def bars(title, places, series):
    """Bars side by side: one of each series for each place, with its number behind it."""
    most = max(it for one in series for it in one.values if it is not None)
    tall = BAR * len(series) + 8
    bottom = TOP + KEY + tall * len(places)
    parts = [*keys(series, TOP + 10), *grid(most, bottom)]
    for at, place in enumerate(places):
        y = TOP + KEY + tall * at
        parts.append(text(LEFT - 6, y + tall / 2, place, "end"))
        for row, (colour, one) in enumerate(zip(COLOURS, series)):
            wide = WIDE * (one.values[at] or 0) / most
            parts.append(f'<rect x="{LEFT}" y="{y + BAR * row}" width="{wide:.1f}" height="{BAR - 2}" fill="{colour}"/>')
            parts.append(text(LEFT + wide + 4, y + BAR * row + 10, "" if one.values[at] is None else f"{one.values[at]:g}"))
    return picture(title, bottom + 24, parts)


def lines(title, places, series):
    """A line for each series over logarithmic axes: `places` are the numbers below, and the series those beside."""
    every = [it for one in series for it in one.values]
    low, high = math.floor(math.log10(min(every))), math.ceil(math.log10(max(every)))
    bottom, tall = TOP + KEY + 260, 260
    begin, end = math.log10(places[0]), math.log10(places[-1])

    def spot(place, value):
        return LEFT + WIDE * (math.log10(place) - begin) / (end - begin), bottom - tall * (math.log10(value) - low) / (high - low)

    parts = list(keys(series, TOP + 10))
    for power in range(low, high + 1):
        y = spot(places[0], 10**power)[1]
        parts += [line(LEFT, y, LEFT + WIDE, y, "grid"), text(LEFT - 6, y + 4, f"{10.0**power:,g}", "end")]
    parts += [text(spot(it, 1)[0], bottom + 14, f"{it:,}", "middle") for it in places]
    for colour, one in zip(COLOURS, series):
        spots = " ".join(f"{x:.1f},{y:.1f}" for x, y in (spot(*it) for it in zip(places, one.values)))
        parts.append(f'<polyline points="{spots}" fill="none" stroke="{colour}" stroke-width="2"/>')
    return picture(title, bottom + 24, parts)
