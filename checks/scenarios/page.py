#!/usr/bin/env python3
"""Shows the page in a browser, and compares its content with the lists.

    checks/scenarios/page.py [--pictures FOLDER] [--page FILE] [NAME ..]     cases below by their names; all if none is named
    checks/scenarios/page.py [--pictures FOLDER] --base URL                  the page and the lists of another server
    checks/scenarios/page.py --screenshot FILE                               writes a picture of a supplier's day, and tries nothing

The page is crates/oftp_page/src/page.html, or FILE. Most lists are made (`checks/lib/page_lists.py`): a server in this script returns
both, and counts the requests. In three cases the built program answers, in two of them from databases of rows/listing: `http` returns the
lists, and `run` also the page. The browser resolves no address but this machine's. `--pictures` writes screenshots. The picture of
docs/howto/page.md is `--screenshot docs/page.png`, and nothing compares it. Without a browser nothing is tried. The last line is
`N passed, M failed`; before it comes the time for 10,000 files.

Shows: where there is a browser: the page without a file, with 30 in every state, with 10,000 and with hostile texts. It is shown with events and
without, at 1,280, 1,024, 400 and 320 pixels, and light and dark. It is over made lists and over those of `http` and `run`. Its rows, words and
sentences, and what is to be done. Each state with a bound just before and just after it, and a file that was seen closing for ten minutes. Stamps
that tell no age, and files whose name was used again. Files that were refused as duplicates, with and without their response, also after a restore.
That it says that there is nothing to do only if it has looked at all. With events the last change and the history of each file, sessions, and the
last contact with each partner. Stamps by a browser in Berlin and in Mexico City, sizes, sorting by each column, the filter, details, and the command
to copy. That all fits the window, and that a file takes one line. That texts, borders and the mark of the keyboard have the contrast that WCAG 2.1
wants. That nothing of a text runs, and that nobody else is asked. The keyboard, how it renews itself under somebody who types, sorts and scrolls,
and what it says if it can't. It prints what 10,000 files take to draw, to filter and to sort, and bounds it
"""

import argparse
import json
import subprocess
import sys
import tempfile
import threading
import time
import urllib.error
import urllib.request
from datetime import timedelta
from http.server import BaseHTTPRequestHandler, ThreadingHTTPServer
from pathlib import Path

sys.path.insert(0, str(Path(__file__).resolve().parents[1] / "lib"))

import page_lists
from browser import Browser, Failed, Tab, chromium
from listing_files import Listing, Request
from page_lists import HOSTILE, LATE_FROM, VIEWS, Lists, Shown, utc_now
from program import PROGRAM, ROOT
from row_files import ROWS, Bad
from services import BOOK, CARMAKER, Resident, Service, Wrong, expect, free_port

PAGE = ROOT / "crates/oftp_page/src/page.html"
WIDTHS = (1280, 1024, 400, 320)
# The widths at which the files are a table, and those at which they are cards.
WIDE, NARROW = (1280, 1024), (400, 320)
HEIGHT = 800
# The height in pixels of a file's line, where nobody has to act.
LINE_HEIGHT = 40
# The requests that a page may make to its station.
ASKED = {"/", "/in", "/out", "/responses", "/status", "/events"}
# Those of them that not every station answers.
TOLD = ("/status", "/events")
# How many rows the page draws at once.
ROWS_DRAWN = 100
# The interval in seconds at which it renews itself.
PAUSE = 10
MANY = 10_000
# How many events are about as long as what a station tells at most.
MOST_EVENTS = 4000
# The milliseconds that the page may take to draw this many files, and to filter them, on a loaded machine.
DRAWN_WITHIN = 1500
FILTERED_WITHIN = 750


# ---- the server of the page


class Server:
    """Returns the page and the lists, and counts the requests."""

    page = PAGE

    def __init__(self, lists):
        self.lists = lists
        # What is returned in place of lists: a status and a text, or no reply at all.
        self.fault = None
        self.asked = []
        server = self

        class Handler(BaseHTTPRequestHandler):
            """A request."""

            def do_GET(self):
                server.reply(self)

            def log_message(self, *_words):
                pass

        self.http = ThreadingHTTPServer(("127.0.0.1", 0), Handler)
        self.url = f"http://127.0.0.1:{self.http.server_port}/"

    def __enter__(self):
        threading.Thread(target=self.http.serve_forever, daemon=True).start()
        return self

    def __exit__(self, *_why):
        self.http.shutdown()
        self.http.server_close()

    def reply(self, request):
        self.asked.append(request.path)
        if request.path == "/":
            send(request, 200, "text/html; charset=utf-8", self.page.read_text(encoding="utf-8"))
        elif self.fault == "silence":
            request.close_connection = True
        elif self.fault:
            send(request, self.fault[0], "application/json", self.fault[1])
        else:
            text = self.lists.answer(request.path)
            kind = "application/x-ndjson" if request.path == "/events" else "application/json"
            send(request, *((404, "application/json", '{"error":404}') if text is None else (200, kind, text)))


def send(request, status, kind, text):
    octets = text.encode()
    request.send_response(status)
    for name, value in (("Content-Type", kind), ("Content-Length", str(len(octets))), ("Connection", "close")):
        request.send_header(name, value)
    request.end_headers()
    request.wfile.write(octets)


class Elsewhere:
    """The lists at an address."""

    def __init__(self, url):
        self.url = url

    def answer(self, path):
        if path not in ASKED:
            return None
        try:
            with urllib.request.urlopen(self.url.rstrip("/") + path, timeout=60) as reply:
                return reply.read().decode()
        except urllib.error.HTTPError as error:
            expect(error.code, 404, f"the status of the reply for {path}")
            return None


# ---- the content of the page

# The rows of the table, as Shown has them.
READ_ROWS = """
[...document.querySelectorAll("#list tbody")].map((body) => {
  const part = (name) => body.querySelector(name);
  const text = (name) => part(name)?.textContent ?? null;
  return [text(".number"), text("td.partner bdi"), text(".name .few"), text(".about"), text("td.when"), part("td.when [title]")?.title ?? null,
    text("td.size, td.file"), part("td.size [title]")?.title ?? null, text(".words"), text(".detail"), body.className.split(" ")[0], text(".duty"),
    text("td.changed"), part("td.changed [title]")?.title ?? null];
})"""
# How far any visible element extends beyond the window, and cells with more than their width. Also parts with more than their height, which lies
# over others then, and names and partners that are cut off.
READ_OVERFLOW = """
(() => {
  const root = document.scrollingElement;
  const told = (it) => [it.scrollWidth, it.clientWidth, it.outerHTML.slice(0, 80)];
  const hides = (it) => it.matches(".unseen, .skip:not(:focus)") || getComputedStyle(it).clipPath !== "none";
  const isSeen = (it) => { for (; it; it = it.parentElement) { if (hides(it)) return false; } return true; };
  const seen = [...document.body.querySelectorAll("*")].filter((it) => it.getClientRects().length && isSeen(it));
  const out = seen.filter((it) => it.getBoundingClientRect().right > root.clientWidth + 1 || it.getBoundingClientRect().left < -1);
  const full = seen.filter((it) => it.matches("td, th") && it.scrollWidth > it.clientWidth + 1
    || it.matches("header, form, form > div, nav, ul, p, details, .line, dl, tbody") && it.scrollHeight > it.clientHeight + 2);
  const cut = seen.filter((it) => it.matches(".few") && it.scrollHeight > it.clientHeight + 1);
  return [Math.max(0, root.scrollWidth - root.clientWidth), out.map(told), full.map(told), cut.map(told)];
})()"""
# What the two scripts below measure contrasts with (WCAG 2.1): the ratio of two colours, and the background of an element.
CONTRAST = """
  const parts = (colour) => colour.match(/[\\d.]+/g).map(Number);
  const light = (colour) => parts(colour).slice(0, 3).map((it) => it / 255)
    .map((it) => it <= 0.03928 ? it / 12.92 : ((it + 0.055) / 1.055) ** 2.4)
    .reduce((sum, it, at) => sum + it * [0.2126, 0.7152, 0.0722][at], 0);
  const ratio = (colour, ground) => {
    const [one, other] = [light(colour), light(ground)].sort((a, b) => b - a);
    return (one + 0.05) / (other + 0.05);
  };
  const behind = (it) => {
    const colour = getComputedStyle(it).backgroundColor;
    return (parts(colour)[3] ?? 1) > 0 || !it.parentElement ? colour : behind(it.parentElement);
  };
"""
# The texts whose contrast with their background is too low (1.4.3).
READ_FAINT_TEXTS = f"""
(() => {{{CONTRAST}
  const faint = [];
  for (const it of document.body.querySelectorAll("*")) {{
    const says = it.matches("input") || [...it.childNodes].some((part) => part.nodeType === Node.TEXT_NODE && part.data.trim());
    const found = ratio(getComputedStyle(it).color, behind(it));
    if (says && it.getClientRects().length && !it.matches("script, :disabled, .unseen") && found < 4.5) faint.push([it.outerHTML.slice(0, 80), found]);
  }}
  return faint;
}})()"""
# The controls that have no border, or one whose contrast with what is on either side of it is too low (1.4.11).
READ_FAINT_BORDERS = f"""
(() => {{{CONTRAST}
  const faint = [];
  for (const it of document.querySelectorAll("select, input, #clear, #fold, #next, .copy, #todo a")) {{
    const style = getComputedStyle(it);
    for (const side of it.getClientRects().length && style.visibility === "visible" ? ["Top", "Right", "Bottom", "Left"] : []) {{
      const found = Math.min(...[behind(it), behind(it.parentElement)].map((ground) => ratio(style[`border${{side}}Color`], ground)));
      const isThere = style[`border${{side}}Style`] !== "none" && parseFloat(style[`border${{side}}Width`]) >= 1;
      if (!isThere || found < 3) faint.push([it.outerHTML.slice(0, 80), side, isThere, found]);
    }}
  }}
  return faint;
}})()"""
# Makes the page renew itself now, as it does when somebody comes back to it.
RENEW = 'document.dispatchEvent(new Event("visibilitychange"))'
IS_DRAWN = 'document.querySelector("#main")?.hidden === false'
CHOSEN = 'document.querySelector("#list").dataset.view'


def opened(browser, server, width, **how):
    """The page in a window of its own, once it is drawn."""
    tab = Tab(browser, width, HEIGHT, **how)
    tab.go(server.url)
    tab.until(IS_DRAWN)
    return tab


def choose(tab, view, **chosen):
    more = "".join(f"&{key}={value}" for key, value in chosen.items())
    tab.value(f'location.hash = "view={view}{more}", new Promise((done) => setTimeout(done, 5))')
    tab.until(f"{CHOSEN} === '{view}' && location.hash === '#view={view}{more}'")


def rows_of(tab):
    """The rows that are drawn."""
    return [Shown(*row) for row in tab.value(READ_ROWS)]


def numbers_of(tab):
    return [int(row.no) for row in rows_of(tab)]


def text_of(tab, name):
    return tab.value(f"document.querySelector('{name}').textContent")


def tiles_of(tab):
    """What is to be done, as the page sums it up."""
    return tab.value('[...document.querySelectorAll("#todo a")].map((it) => it.textContent)')


def expect_shown(tab, lists, now, zone="UTC", is_cut=False):
    """Each list is shown as the model says, all of it or as far as it is drawn, and so is the summary. All of it fits the window, and can be told
    from what surrounds it. Only a name that no protocol allows may be cut off."""
    found = page_lists.items(lists, now, zone)
    wanted = page_lists.shown(lists, now, zone)
    for view in lists.views:
        choose(tab, view)
        rows = rows_of(tab)
        for row, model in zip(rows, wanted[view]):
            expect(row, model, f"{view}: a row")
        expect(len(rows), min(len(wanted[view]), ROWS_DRAWN), f"{view}: rows")
        expect([row.duty is not None for row in rows], [row.look in page_lists.TO_DO for row in rows], f"{view}: rows with a sentence")
        expect(tab.value('document.querySelector("#none").hidden'), bool(rows), f"{view}: whether it says that there is nothing")
        expect(text_of(tab, "#stamps"), stamps_told(lists, view, zone, now), f"{view}: what it says of the stamps")
        expect_fits(tab, view, is_cut)
    counts = tab.value('[...document.querySelectorAll("#views .count")].map((it) => it.textContent)')
    expect(counts, [f"{len(wanted[view]):,}" for view in lists.views], "how many each list has")
    expect(tiles_of(tab), page_lists.to_do(found), "what is to be done")
    idle = tab.value('[document.querySelector("#idle").hidden, document.querySelector("#idle").textContent]')
    expect(idle, [bool(tiles_of(tab)), page_lists.idle_told(lists, found)], "whether it says that nothing needs anybody")
    rules = page_lists.RULES if lists.events is None else page_lists.RULES_OF_EVENTS
    expect(text_of(tab, "#rules"), rules, "from when on a file is late")
    expect(text_of(tab, "#unlooked"), page_lists.unlooked(found, lists), "what isn't looked at")


def stamps_told(lists, view, zone, now):
    """What the page says of the stamps of a list."""
    own = f"in your zone, {page_lists.zone_text(zone, now)}."
    if view in ("in", "issued"):
        changes = "" if lists.events is None else f" Changes are shown {own}"
        return f"Stamps are shown as the sender wrote them. They tell no zone.{changes}"
    return f"{'Stamps are read as UTC, and' if view in VIEWS else 'Times are'} shown {own}"


def expect_fits(tab, what, is_cut=False):
    """All fits the window, and can be told from what surrounds it."""
    *fits, cut = tab.value(READ_OVERFLOW)
    expect(fits, [0, [], []], f"{what}: what doesn't fit the window")
    expect([] if is_cut else cut, [], f"{what}: names that are cut off")
    expect(tab.value(READ_FAINT_TEXTS), [], f"{what}: texts that are faint")
    expect(tab.value(READ_FAINT_BORDERS), [], f"{what}: borders that are faint")


def expect_quiet(tab, server):
    """The page requested only its station's lists, nothing in a text was executed, and the browser reported nothing."""
    expect(set(server.asked) - ASKED, set(), "what else was asked of the station")
    asked = {url.partition("#")[0] for url in tab.requests()}
    expect(asked - {server.url.rstrip("/") + path for path in ASKED}, set(), "what else was asked, here or elsewhere")
    expect(tab.value("typeof window.ran"), "undefined", "whether a text of a partner ran")
    expect(tab.complaints(TOLD), [], "what the browser complains of")


# ---- cases: each gets the browser, and a function that takes a screenshot under a name


def no_file(browser, picture):
    """Without files each list says so, and nothing needs anybody."""
    with Server(Lists()) as server:
        for width in WIDTHS:
            with opened(browser, server, width) as tab:
                picture(tab, f"no_file_{width}")
                expect_shown(tab, server.lists, utc_now())
                expect_quiet(tab, server)


def every_state(browser, picture):
    """30 files each way in all states, with all responses, in a light and in a dark scheme, with closed and with open details."""
    now = utc_now()
    lists = page_lists.in_every_state(30, now)
    said = {view: {it.state for it in found} for view, found in page_lists.items(lists, now).items()}
    late = {f"{state}_late" for state in page_lists.BY_EVENTS}
    expect(said, {view: set(page_lists.STATES[view]) - late for view in VIEWS}, "states that the files are in")
    with Server(lists) as server:
        for width in WIDTHS:
            for scheme in ("light", "dark"):
                with opened(browser, server, width, scheme=scheme) as tab:
                    expect_shown(tab, server.lists, now)
                    for view in VIEWS:
                        choose(tab, view)
                        picture(tab, f"every_state_{view}_{width}_{scheme}", is_whole=True)
                        tab.value('document.querySelectorAll(".open").forEach((it) => it.click())')
                        tab.value('document.querySelectorAll("#fold, #paths summary").forEach((it) => it.click())')
                        expect_fits(tab, f"{view}, open")
                        picture(tab, f"open_{view}_{width}_{scheme}", is_whole=True)
                        tab.value('document.querySelectorAll("#fold, #paths summary").forEach((it) => it.click())')
                    expect_quiet(tab, server)


def one_line_a_file(browser, _picture):
    """In a wide window a file about which nobody has to do anything takes one line, unless its partner has a very long code. Only the others have a
    sentence."""
    now = utc_now()
    with Server(page_lists.in_every_state(30, now)) as server, opened(browser, server, WIDE[0]) as tab:
        for view in ("in", "out"):
            choose(tab, view)
            heights = tab.value("""[...document.querySelectorAll("#list tbody")]
              .filter((it) => !it.querySelector(".duty") && it.querySelector(".partner").textContent.length <= 20).map((it) => it.offsetHeight)""")
            expect(len(heights) > 10 and max(heights) <= LINE_HEIGHT, True, f"{view}: heights of rows without a sentence, {heights}")
            said = tab.value('[...document.querySelectorAll("#list tbody .state")].map((it) => it.textContent)')
            expect([it for it in said if "." in it], [], f"{view}: sentences beside a state")


def sizes(browser, _picture):
    """Sizes are in bytes, KB and MB, and have their exact number as title."""
    wanted = {
        **{0: "0 B", 6: "6 B", 999: "999 B", 1000: "1.0 KB", 1049: "1.0 KB", 9949: "9.9 KB", 9950: "10 KB", 18_142: "18 KB"},
        **{999_499: "999 KB", 999_500: "1.0 MB", 60_000_000: "60.0 MB", 67_108_864: "67.1 MB"},
    }
    lists = Lists()
    for units in wanted:
        lists.came(units=units, rows=1, format="U")
    with Server(lists) as server, opened(browser, server, WIDE[0]) as tab:
        found = [(row.size, row.exact) for row in rows_of(tab)[::-1]]
        expect(found, [(text, f"{units:,} bytes, unstructured") for units, text in wanted.items()], "sizes")


def late_by_age(browser, picture):
    """In each state that has a bound a file is late from that age on, and not before. The page tells the bound, and how old the oldest is."""
    now = utc_now()
    rules = {
        "open": lambda lists, age: lists.came("open", age=age, now=now),
        "release": lambda lists, age: lists.came(age=age, now=now),
        "waiting": lambda lists, age: lists.went(age=age, now=now),
        "partly": lambda lists, age: lists.went(mark=1, age=age, now=now),
        "closing": lambda lists, age: lists.went("closing", age=age, now=now),
        "handed": lambda lists, age: lists.went("handed", age=age, now=now),
    }
    expect(set(rules), set(LATE_FROM) - page_lists.BY_EVENTS, "states with a bound")
    with Server(Lists()) as server, opened(browser, server, WIDE[0]) as tab:
        for state, add in rules.items():
            view = "in" if state in ("open", "release") else "out"
            bound = timedelta(hours=LATE_FROM[state])
            for age, is_late in ((bound - timedelta(minutes=4), False), (bound + timedelta(minutes=4), True), (bound * 5 + timedelta(minutes=4), True)):
                server.lists = Lists()
                add(server.lists, age)
                renewed(tab)
                choose(tab, view)
                expect([row.words for row in rows_of(tab)], [page_lists.STATES[view][f"{state}_late" if is_late else state][0]], f"{state}, {age} old")
                tiles = [f"1 {page_lists.SUMS[f'{state}_late'][0]}, oldest {page_lists.span_of(age)}"] if is_late else []
                expect(tiles_of(tab), tiles if state != "release" or is_late else ["1 to be released"], f"the summary for {state}, {age} old")
                expect_shown(tab, server.lists, now)
        for state, add in rules.items():
            for days in (2, 4):
                add(server.lists, timedelta(days=days, minutes=4))
        renewed(tab)
        expect_shown(tab, server.lists, now)
        picture(tab, "late_by_age")
        expect_quiet(tab, server)


def of_unknown_age(browser, picture):
    """A file whose stamp is no date, or is ahead of every clock, isn't late. The page says that its age wasn't looked at, and which file it is."""
    now = utc_now()
    lists = Lists()
    for date, time_of_day in (("20240230", "0600000001"), ("20241301", "0600000001"), ("20240115", "2400000001"), ("20240115", "0660600001")):
        lists.went("handed", date=date, time=time_of_day)
    lists.came("open", date="99999999", time="9999999999")
    lists.went("delivered", "EERP", date="20240230", time="0600000001")
    lists.went("waiting", age=-timedelta(hours=14, minutes=5), now=now)
    lists.went("waiting", age=-timedelta(hours=13, minutes=55), now=now)
    with Server(lists) as server, opened(browser, server, WIDE[0]) as tab:
        wanted = "Not looked at, since the stamp tells no age: incoming 1, outgoing 6, outgoing 4, outgoing 3, outgoing 2 and 1 more. "
        expect(text_of(tab, "#unlooked"), page_lists.UNLOOKED + wanted, "which ages weren't looked at")
        expect_shown(tab, lists, now)
        picture(tab, "of_unknown_age")
        tab.value('document.querySelectorAll("#unlooked a")[1].click()')
        tab.until(f"{CHOSEN} === 'out'")
        expect(numbers_of(tab), [6], "the file that the sentence leads to")
        expect_quiet(tab, server)


def never_nothing_to_do(browser, _picture):
    """Without events the page never says that there is nothing to do. It hasn't looked at whether partners are reached, and says so, whatever the
    files are."""
    now = utc_now()
    done = Lists()
    done.came("whole", "EERP", True)
    done.went("delivered", "EERP")
    for lists in (Lists(), done, page_lists.in_every_state(30, now)):
        with Server(lists) as server, opened(browser, server, NARROW[0]) as tab:
            said = tab.value("document.body.innerText")
            expect("Not looked at: whether partners are reached" in said, True, "whether it says what it hasn't looked at")
            expect([it for it in ("nothing to do", "Nothing to do", "All is well", "Nothing:") if it in said], [], "what it promises")
            expect(page_lists.IDLE in said, not page_lists.to_do(page_lists.items(lists, now)), "whether it says that no file needs anybody")


def sent_again(browser, picture):
    """A refused or returned file is no to-do any more once a later file to the same partner has its name: then that one counts. Another
    partner's file, one of another name and an earlier one don't matter."""
    now = utc_now()
    partner, other = page_lists.PARTNERS[0], page_lists.PARTNERS[1]
    ways = {
        "refused": lambda lists: lists.went("refused", reason="03", dataset="A", destination=partner),
        "duplicate": lambda lists: lists.went("refused", reason="13", dataset="A", destination=partner),
        "returned": lambda lists: lists.went("returned", "NERP", response={"reason": "31"}, dataset="A", destination=partner),
    }
    with Server(Lists()) as server, opened(browser, server, WIDE[0]) as tab:
        choose(tab, "out")
        for state, add in ways.items():
            for later in ("waiting", "handed", "refused"):
                lists = server.lists = Lists()
                lists.went("delivered", "EERP", dataset="A", destination=partner)
                add(lists)
                lists.went("handed", dataset="A", destination=other)
                lists.went("handed", dataset="B", destination=partner)
                renewed(tab)
                expect(rows_of(tab)[2].words, page_lists.STATES["out"][state][0], f"{state}, without a later file of its name")
                expect(len(tiles_of(tab)), 1, f"what is to be done about a file: {state}")
                lists.went(later, reason="05" if later == "refused" else "", dataset="A", destination=partner)
                renewed(tab)
                row = rows_of(tab)[3]
                again = "Returned, name used again" if state == "returned" else "Refused, name used again"
                expect((row.words, row.detail, row.look, row.duty), (again, "by 5", "rest", None), f"{state}, then {later}")
                refused = ["1 refused by a partner, 05 maximum record length not supported"] if later == "refused" else []
                expect(tiles_of(tab), refused, f"what is to be done once it was sent again: {state}, then {later}")
                counted = f"Not counted, since a later file to the partner has their name: 1 {'returned' if state == 'returned' else 'refused'}."
                expect(text_of(tab, "#unlooked").endswith(counted), True, "whether it says that it doesn't count the file")
                expect_shown(tab, lists, now)
                choose(tab, "out")
        tab.value('document.querySelector("#unlooked a").click()')
        tab.until("document.querySelectorAll('#list tbody').length === 1")
        expect([row.words for row in rows_of(tab)], ["Returned, name used again"], "the files that the sentence leads to")
        picture(tab, "sent_again")
        expect_quiet(tab, server)


def command_to_copy(browser, picture):
    """What is to be released has its command, which a button copies, or marks where there is no clipboard. It has the paths that somebody has
    entered, also once the page is loaded again, and no text of a partner."""
    lists = Lists()
    for text in HOSTILE[:3]:
        lists.came(dataset=text, originator=text, description=text)
    lists.came("whole", "EERP", True)
    with Server(lists) as server:
        browser.call("Browser.grantPermissions", permissions=["clipboardReadWrite", "clipboardSanitizedWrite"], origin=server.url.rstrip("/"))
        for width in (WIDE[0], NARROW[1]):
            with opened(browser, server, width) as tab:
                tab.call("Emulation.setFocusEmulationEnabled", enabled=True)
                commands = tab.value('[...document.querySelectorAll("code")].map((it) => it.textContent)')
                expect(commands, [page_lists.command_for(no) for no in (3, 2, 1)], "the commands")
                expect(pressed_copy(tab), (page_lists.command_for(3), "Copied", "Copied."), "what is copied, and what is said")
                tab.until('document.querySelector(".copy").textContent === "Copy"')
                tab.value("void Object.defineProperty(navigator, 'clipboard', { value: undefined })")
                tab.value('document.querySelector(".copy").click()')
                tab.until('document.querySelector(".copy").textContent === "Press Ctrl+C"')
                expect(tab.value("getSelection().toString()"), page_lists.command_for(3), "what is marked")
                entered = {"program": "./oftp_station", "database": "/tmp/my supplier's.db", "book": "book.toml"}
                tab.value('document.querySelector("#paths summary").click()')
                for key, text in entered.items():
                    set_value(tab, key, text)
                expect_fits(tab, "the paths", is_cut=True)
                picture(tab, f"command_to_copy_{width}", is_whole=True)
                quoted = {**entered, "database": "'/tmp/my supplier'\\''s.db'"}
                expect(text_of(tab, "code"), page_lists.command_for(3, quoted), "the command with these paths")
                tab.value("void location.reload()")
                time.sleep(0.5)
                tab.until(IS_DRAWN)
                expect(text_of(tab, "code"), page_lists.command_for(3, quoted), "the command once the page is loaded again")
                for key in entered:
                    set_value(tab, key, "")
                expect(text_of(tab, "code"), page_lists.command_for(3), "the command without these paths")
                expect_quiet(tab, server)


def pressed_copy(tab):
    """What the first button copies, what it says then, and what a screen reader is told."""
    tab.value('document.querySelector(".copy").focus()')
    tab.key("Enter")
    tab.until('document.querySelector(".copy").textContent !== "Copy"')
    return tab.value("navigator.clipboard.readText()"), text_of(tab, ".copy"), text_of(tab, "#said")


def details(browser, picture):
    """A click on a row, or its button, opens all that is known of a file, and closes it again. To mark a text in it doesn't."""
    now = utc_now()
    lists = page_lists.in_every_state(30, now)
    gone = page_lists.items(lists, now)
    with Server(lists) as server:
        for width in (WIDE[0], NARROW[1]):
            with opened(browser, server, width) as tab:
                for view, no in (("in", 30), ("out", 25), ("out", 3), ("received", 1)):
                    choose(tab, view)
                    item = next(it for it in gone[view] if it.file["no"] == no)
                    body = f'document.querySelector(\'#list tbody[data-no="{no}"]\')'
                    tab.value(f"{body}.querySelector('.words').click()")
                    expect(tab.value(f"{body}.querySelector('.open').getAttribute('aria-expanded')"), "true", "whether it is open")
                    expect(facts_in(tab, body), facts_of(item), f"{view}: all about {no}")
                    expect_fits(tab, f"{view}: open details")
                    tab.value(f"{body}.querySelector('.open').focus()")
                    tab.key("Enter")
                    closed = tab.value(f"[{body}.querySelector('dl'), document.activeElement.getAttribute('aria-expanded')]")
                    expect(closed, [None, "false"], "what is left of it, and where the keyboard is")
                    tab.value(f"getSelection().selectAllChildren({body}.querySelector('.name')), {body}.querySelector('.name').click()")
                    expect(tab.value(f"{body}.querySelector('dl')"), None, "what marking a text opens")
                    tab.value("getSelection().removeAllRanges()")
                picture(tab, f"details_{width}")
                expect_quiet(tab, server)


def facts_in(tab, body):
    """The details of a row, as pairs."""
    return tab.value(f"""[...{body}.querySelectorAll("dt")].map((it) => [it.textContent, it.nextSibling.textContent])""")


def facts_of(item, zone="UTC"):
    """All that the page knows of an item, with its history by the events."""
    file, shown, response = item.file, item.shown, item.response or {}
    facts = {
        **{"Name": shown.name, "Description": shown.about, "From": file.get("originator", file.get("from")), "To": file.get("destination")},
        **{"Stamp": shown.stamp, "Size": page_lists.exact_size(file) if "units" in file else "", "Acknowledged": "", "Reason": item.reason, "Text": response.get("note")},
        "Created by": response.get("creator"),
    }
    if item.state.startswith("partly"):
        rows = page_lists.counted(file["rows"], "record" if file["format"] in "FV" else "block")
        facts["Acknowledged"] = f"{file['mark']:,} of {rows}"
    history = [(f"{page_lists.local_of(page_lists.at_of(it), zone):%Y-%m-%d %H:%M:%S}", page_lists.words_of(it)) for it in item.changes]
    return [[key, page_lists.plain(text)] for key, text in [*facts.items(), *history] if text]


def sorting(browser, picture):
    """Each column sorts its list both ways, by its head or by the field for narrow windows; the address keeps it."""
    now = utc_now()
    lists = page_lists.in_every_state(30, now)
    found = page_lists.items(lists, now)
    columns = {"in": "no partner name when size state", "out": "no partner name when size state"}
    columns |= {"received": "no partner name when file state", "issued": "no partner name when state"}
    with Server(lists) as server:
        with opened(browser, server, WIDE[0]) as tab:
            for view in VIEWS:
                choose(tab, view)
                expect(sorted_by(tab), [["no", "descending"]], f"{view}: how it is sorted at first")
                for column in columns[view].split():
                    first, second = ("descending", "ascending") if column in ("no", "when", "size", "file") else ("ascending", "descending")
                    for way in ((second, first) if column == "no" else (first, second)):
                        tab.value(f"document.querySelector('thead [data-column={column}]').click()")
                        expect(sorted_by(tab), [[column, way]], f"{view}: how it is sorted")
                        wanted = page_lists.in_order(found[view], column, way == "descending")
                        expect(numbers_of(tab), [it.file["no"] for it in wanted], f"{view}, {way} by {column}")
            tab.value("document.querySelector('thead [data-column=name]').focus()")
            tab.key("Enter")
            expect(tab.value("document.activeElement.dataset.column"), "name", "where the keyboard is once a head was pressed")
            tab.value("void location.reload()")
            time.sleep(0.5)
            tab.until(IS_DRAWN)
            expect(sorted_by(tab), [["name", "ascending"]], "how it is sorted once it is loaded again")
            picture(tab, "sorting")
            expect_quiet(tab, server)
        with opened(browser, server, NARROW[0]) as tab:
            tab.value('document.querySelector("#fold").click()')
            for sort, way in (("size", False), ("-size", True), ("-no", True)):
                set_value(tab, "sort", sort)
                wanted = page_lists.in_order(found["in"], sort.strip("-"), way)
                expect(numbers_of(tab), [it.file["no"] for it in wanted], f"sorted by the field: {sort}")


def sorted_by(tab):
    """The columns that say that the list is sorted by them, and in which way."""
    return tab.value('[...document.querySelectorAll("thead [aria-sort]")].map((it) => [it.className, it.getAttribute("aria-sort")])')


def hostile_texts(browser, picture):
    """Texts that would be executed, be loaded or change their surroundings are shown as texts, and a long one stays within its row."""
    now = utc_now()
    kinds = {"tr", "th", "td", "bdi", "span", "div", "button", "p", "code", "dl", "dt", "dd"}
    with Server(page_lists.hostile_events(now)) as server:
        for width in WIDTHS:
            with opened(browser, server, width) as tab:
                expect_shown(tab, server.lists, now, is_cut=True)
                for view in server.lists.views:
                    choose(tab, view)
                    heights = tab.value('[...document.querySelectorAll("#list tbody")].map((it) => it.offsetHeight)')
                    expect([it for it in heights if it > HEIGHT / 2], [], f"heights of rows that leave no room for others: {view}, {width} pixels")
                    picture(tab, f"hostile_{view}_{width}", is_whole=True)
                    tab.value('document.querySelectorAll(".open").forEach((it) => it.click())')
                    expect_fits(tab, f"{view}, with all texts open", is_cut=True)
                    found = set(tab.value('[...document.querySelectorAll("#list tbody *")].map((it) => it.localName)'))
                    expect(found - kinds, set(), "elements of no kind that the page makes")
                chosen_by_text(tab)
                expect_quiet(tab, server)


def chosen_by_text(tab):
    """Filtering by such a text, typed or in the address, finds the files that have it."""
    for text in [it for it in HOSTILE if it.isprintable() and 2 < len(it) < 100]:
        choose(tab, "in")
        tab.value('document.querySelector("#name").closest("form").classList.add("unfolded")')
        tab.value('document.querySelector("#name").focus(), document.querySelector("#name").select()')
        tab.type(text)
        wanted = [page_lists.plain(it) for it in HOSTILE if text.lower() in it.lower()][::-1]
        tab.until(f"document.querySelectorAll('#list tbody').length === {len(wanted)}")
        expect([row.name for row in rows_of(tab)], wanted, f"files of the name {text!r}")
        tab.value("void (location.hash = location.hash.replace('view=in', 'view=out'))")
        tab.until(f"{CHOSEN} === 'out'")
        expect([row.name for row in rows_of(tab)], wanted, f"outgoing files of the name {text!r}")


def many_files(browser, picture):
    """10,000 files each way: the visible ones are drawn, more as somebody scrolls there, and quickly."""
    now = utc_now()
    watch = """
    new MutationObserver((_, watch) => {
      if (document.querySelector("#list tbody")) {
        watch.disconnect();
        window.drawn = performance.now() - performance.getEntriesByType("resource").at(-1).responseEnd;
      }
    }).observe(document, { childList: true, subtree: true });"""
    lists = page_lists.in_every_state(MANY, now)
    few = page_lists.with_events(Lists(lists.incoming[-1500:], lists.outgoing[-1500:], lists.issued, lists.received), now)
    for events, status in ((None, None), (few.events[-MOST_EVENTS:], few.status)):
        lists.events, lists.status = events, status
        of_many(browser, picture, lists, now, watch)


def of_many(browser, picture, lists, now, watch):
    """The page over many files, with the events that a station tells at most or without."""
    with Server(lists) as server:
        for width in (WIDE[0], NARROW[0]):
            with Tab(browser, width, HEIGHT) as tab:
                tab.first(watch)
                tab.go(server.url)
                tab.until("window.drawn !== undefined")
                drawn = tab.value("window.drawn")
                expect_shown(tab, server.lists, now)
                filtered, ordered = typed_at_once(tab, server.lists), sorted_at_once(tab, server.lists, now)
                expect_quiet(tab, server)
                times = f"drawn in {drawn:.0f} ms behind the last answer, filtered in {filtered:.0f} ms, sorted in {ordered:.0f} ms"
                print(f"{MANY} files each way, {len(lists.events or [])} events, {width} pixels: {times}")
                picture(tab, f"many_{width}")
                expect(drawn < DRAWN_WITHIN, True, f"drawn within {DRAWN_WITHIN} ms")
                expect(max(filtered, ordered) < FILTERED_WITHIN, True, f"filtered and sorted within {FILTERED_WITHIN} ms")
                more_as_one_comes(tab)


def typed_at_once(tab, lists):
    """The milliseconds for filtering by a typed name."""
    choose(tab, "out")
    took = tab.value("""(() => {
      const begun = performance.now();
      const name = document.querySelector("#name");
      name.value = "dispatch.77";
      name.dispatchEvent(new Event("input", { bubbles: true }));
      document.body.getBoundingClientRect();
      return performance.now() - begun;
    })()""")
    wanted = sum("DISPATCH.77" in it["dataset"] for it in lists.outgoing)
    expect(len(rows_of(tab)), min(wanted, ROWS_DRAWN), "files of this name")
    expect(text_of(tab, "#shown"), f"{wanted} of {MANY:,} files", "how many files are found")
    tab.value('document.querySelector("#clear").click()')
    return took


def sorted_at_once(tab, lists, now):
    """The milliseconds for sorting by the names."""
    choose(tab, "out")
    took = tab.value("""(() => {
      const begun = performance.now();
      const sort = document.querySelector("#sort");
      sort.value = "name";
      sort.dispatchEvent(new Event("input", { bubbles: true }));
      document.body.getBoundingClientRect();
      return performance.now() - begun;
    })()""")
    wanted = page_lists.in_order(page_lists.items(lists, now)["out"], "name", False)
    expect(numbers_of(tab), [it.file["no"] for it in wanted[:ROWS_DRAWN]], "the first files by their names")
    return took


def more_as_one_comes(tab):
    """While scrolling down the next rows are drawn before the last is reached."""
    choose(tab, "in")
    for hundreds in (2, 3):
        tab.value("scrollTo(0, document.body.scrollHeight)")
        tab.until(f"document.querySelectorAll('#list tbody').length >= {hundreds * ROWS_DRAWN}")
    expect(tab.value("document.querySelectorAll('#list tbody').length") <= 6 * ROWS_DRAWN, True, "no more than is looked at is drawn")


def filter_is_kept(browser, _picture):
    """The filter finds what it says, in each list; the address keeps it, and so does a page that renews itself."""
    now = utc_now()
    with Server(page_lists.in_every_state(30, now)) as server, opened(browser, server, WIDE[0]) as tab:
        found = page_lists.items(server.lists, now)
        partner = page_lists.PARTNERS[1]
        choose(tab, "out")
        set_value(tab, "partner", partner)
        expect(numbers_of(tab), [it.file["no"] for it in found["out"] if it.partner == partner], "files of a partner")
        set_value(tab, "name", "dispatch.1")
        named = [it.file["no"] for it in found["out"] if it.partner == partner and it.file["dataset"].startswith("DISPATCH.1")]
        expect(numbers_of(tab), named, "files of a partner and a name")
        set_value(tab, "partner", "")
        set_value(tab, "name", "Week 5")
        about = [it.file["no"] for it in found["out"] if "week 5" in it.file["description"]]
        expect((numbers_of(tab), bool(about)), (about, True), "files of a description")
        set_value(tab, "name", "")
        for state in page_lists.STATES["out"]:
            set_value(tab, "state", state)
            expect(numbers_of(tab), [it.file["no"] for it in found["out"] if it.state == state], f"files: {state}")
        set_value(tab, "state", "refused")
        set_value(tab, "name", "3")
        kept = [it.file["no"] for it in found["out"] if it.state == "refused" and ("3" in it.file["dataset"] or it.file["no"] == 3)]
        for again in (RENEW, "location.reload()"):
            tab.value(f"void ({again})")
            time.sleep(0.5)
            tab.until(IS_DRAWN)
            expect(numbers_of(tab), kept, f"what is filtered after {again}")
            chosen = tab.value('[...document.querySelectorAll("#filter select, #filter input")].map((it) => it.value)')
            expect(chosen, ["", "refused", "", "", "3", "-no"], f"the filter after {again}")
        tab.value('document.querySelector("#todo a").click()')
        tab.until("document.querySelectorAll('#list tbody .words').length && location.hash === '#view=in&state=open_late'")
        expect({row.words for row in rows_of(tab)}, {"Incomplete, late"}, "what the summary leads to")
        expect_quiet(tab, server)


def filtered_by_day(browser, _picture):
    """From a day to a day finds the files with such a stamp, as it is shown. A file without a date is of no day."""
    lists = Lists()
    for date in ("20260714", "20260715", "20260715", "20260716", "20260230"):
        lists.came(date=date, time="2330000001")
        lists.went(date=date, time="2330000001")
    wanted = {
        **{("", ""): [5, 4, 3, 2, 1], ("2026-07-15", ""): [4, 3, 2], ("", "2026-07-15"): [3, 2, 1], ("2026-07-15", "2026-07-15"): [3, 2]},
        **{("2026-07-16", "2026-07-15"): [], ("2026-07-17", ""): []},
    }
    with Server(lists) as server, opened(browser, server, WIDE[0]) as tab:
        for (since, until), numbers in wanted.items():
            for view in ("in", "out"):
                choose(tab, view)
                set_value(tab, "since", since)
                set_value(tab, "until", until)
                expect(numbers_of(tab), numbers, f"{view} from {since} to {until}")
                tab.value("void location.reload()")
                time.sleep(0.3)
                tab.until(IS_DRAWN)
                expect(numbers_of(tab), numbers, f"{view} from {since} to {until}, loaded again")
                tab.value('document.querySelector("#clear").click()')
                expect(numbers_of(tab), [5, 4, 3, 2, 1], "the files once the filter is cleared")
        expect_quiet(tab, server)


def set_value(tab, control, value):
    """Sets a control as somebody does who chooses or types."""
    tab.value(f"""(() => {{
      const control = document.querySelector("#{control}");
      control.value = {json.dumps(value)};
      control.dispatchEvent(new Event("input", {{ bubbles: true }}));
    }})()""")


def renews_itself(browser, _picture):
    """The page renews itself. Rows that say the same stay, what is open stays open, and the row and the field in use keep their place."""
    now = utc_now()
    with Server(page_lists.in_every_state(60, now)) as server, opened(browser, server, WIDE[0]) as tab:
        tab.value('document.querySelectorAll(".open")[4].click()')
        tab.value('document.querySelectorAll(".open")[4].focus()')
        changed = watched(tab)
        begin, before = time.monotonic(), len(server.asked)
        while len(server.asked) < before + 3 and time.monotonic() - begin < 60:
            time.sleep(0.1)
        expect(PAUSE - 1 < time.monotonic() - begin < 60, True, "whether it asks again after its pause")
        expect(tab.value(changed), 0, "changes of the table where nothing changed")
        came = page_lists.incoming(61, now, description="just came")
        server.lists.incoming = [{**it, "state": "whole"} if it["no"] == 56 else it for it in server.lists.incoming] + [came]
        tab.value("""window.rows = [...document.querySelectorAll("#list tbody")];
          scrollTo(0, window.rows[30].getBoundingClientRect().top + scrollY);
          window.top30 = window.rows[30].getBoundingClientRect().top;""")
        renewed(tab)
        expect(rows_of(tab)[0].no, "61", "the newest file")
        stay = "window.rows.every((row, at) => row === document.querySelectorAll('#list tbody')[at + 1])"
        expect(tab.value(stay), True, "whether the rows stay")
        expect(abs(tab.value("window.rows[30].getBoundingClientRect().top - window.top30")) < 2, True, "whether the place stays")
        expect(tab.value('document.querySelectorAll("#list dl").length'), 1, "details that stay open")
        expect(tab.value("document.activeElement === window.rows[4].querySelector('.open')"), True, "whether the keyboard stays")
        expect(rows_of(tab), page_lists.shown(server.lists, now)["in"], "the rows")
        expect_quiet(tab, server)


def keeps_what_is_in_use(browser, _picture):
    """While somebody types, sorts and scrolls, the page renews itself under it. Half a date, a text, its order and its place are as before. So they
    are if the row with the keyboard changes or moves, and if others go."""
    now = utc_now()
    with Server(page_lists.in_every_state(60, now)) as server, opened(browser, server, WIDE[0]) as tab:
        choose(tab, "out")
        tab.value("document.querySelector('thead [data-column=name]').click()")
        tab.value('document.querySelector("#since").focus()')
        for digit in "11":
            tab.key(digit)
        server.lists.came(now=now)
        renewed(tab)
        for digit in "012026":
            tab.key(digit)
        expect(tab.value('document.querySelector("#since").value'), "2026-11-01", "a date of which the half was typed before")
        set_value(tab, "since", "")
        tab.value('document.querySelector("#name").focus()')
        tab.type("dis")
        tab.value('document.querySelector("#name").setSelectionRange(1, 2)')
        server.lists.went("handed", dataset="DISPATCH.0", now=now)
        renewed(tab)
        found = page_lists.items(server.lists, now)["out"]
        wanted = page_lists.in_order([it for it in found if "DIS" in it.file["dataset"]], "name", False)
        expect(numbers_of(tab), [it.file["no"] for it in wanted], "the files in their order")
        used = tab.value("[document.activeElement.id, document.activeElement.value, document.activeElement.selectionStart]")
        expect(used, ["name", "dis", 1], "the field in use")
        set_value(tab, "name", "")
        choose(tab, "out", sort="state")
        tab.value("""window.body = document.querySelector('#list tbody[data-no="6"]'); window.body.querySelector(".open").focus();
          scrollTo(0, document.querySelector("#list").getBoundingClientRect().top + scrollY + 400);""")
        server.lists.outgoing = [{**it, "state": "delivered"} if it["no"] in (6, 7) else it for it in server.lists.outgoing]
        renewed(tab)
        expect(tab.value("document.activeElement === window.body.querySelector('.open')"), True, "whether the keyboard goes with its row")
        expect(sorted_by(tab), [["state", "ascending"]], "how it is sorted")
        server.lists.outgoing = server.lists.outgoing[:-3]
        renewed(tab)
        expect(len(rows_of(tab)), 58, "rows once three are gone")
        expect(tab.value("document.activeElement === window.body.querySelector('.open')"), True, "whether the keyboard stays")
        expect_quiet(tab, server)


def watched(tab):
    """Counts changes of the table, and returns the expression for the count."""
    tab.value("""window.changes = 0;
      new MutationObserver((changes) => { window.changes += changes.length; })
        .observe(document.querySelector("#list"), { childList: true, subtree: true, attributes: true, characterData: true });""")
    return "window.changes"


def says_when_it_cannot(browser, picture):
    """If a station can't be reached, or replies with an error or something else, the page says so, and what was shown stays."""
    now = utc_now()
    faults = [
        ((503, '{"error":503}'), "it answered with error 503"),
        ((200, '[{"dataset":'), "its answer isn't what it should be"),
        ((200, '{"error":200}'), "its answer isn't what it should be"),
        ("silence", "it can't be reached"),
    ]
    with Server(page_lists.in_every_state(30, now)) as server:
        server.fault = faults[0][0]
        with Tab(browser, 400, HEIGHT) as tab:
            tab.go(server.url)
            tab.until('document.querySelector("#trouble")?.hidden === false')
            told = tab.value('document.querySelector("#trouble").textContent')
            expect("error 503. Nothing can be shown yet." in told, True, f"what is told: {told}")
            server.fault = None
            tab.value(f"void ({RENEW})")
            tab.until(IS_DRAWN)
            for fault, words in faults:
                server.fault = fault
                tab.value(f"void ({RENEW})")
                tab.until(f'document.querySelector("#trouble").textContent.includes("{words}. What you see is of ")')
                expect(rows_of(tab), page_lists.shown(server.lists, now)["in"], "the rows")
                expect_fits(tab, "trouble")
            picture(tab, "trouble_400")
            server.fault = None
            tab.value(f"void ({RENEW})")
            tab.until('document.querySelector("#trouble").hidden')


def by_keyboard(browser, _picture):
    """Everything can be done by keyboard, with a mark that can be seen. Each control has a name, and a table has its role at any width."""
    now = utc_now()
    bare = page_lists.in_every_state(30, now)
    for shown in (bare, page_lists.with_events(page_lists.in_every_state(30, now), now)):
        with Server(shown) as server:
            by_keyboard_at_each_width(browser, server, now)


def by_keyboard_at_each_width(browser, server, now):
    """The same for these lists."""
    told = [] if server.lists.events is None else ["Last change"]
    for width in WIDTHS:
        with opened(browser, server, width) as tab:
            # Where there is no room for both, the last change stands in place of the stamp.
            heads = [it for it in [*HEADS[:-1], *told, HEADS[-1]] if not (told and width in WIDE and it == "Sender's stamp")]
            expect_named(tab, width, heads)
            found = page_lists.items(server.lists, now)
            tiles = page_lists.to_do(found)
            links = [*tiles, *page_lists.unlooked(found, server.lists).rpartition(": ")[2].rstrip(".").split(", ")]
            lists = [f"{TITLES[view]} {len(found[view])}" for view in server.lists.views]
            heads = ["No. ↓", *heads[1:]] if width in WIDE else []
            fields = ["select#partner", "select#state", "input#since", "input#until", "input#name"]
            rows = [name for it in found["in"] for name in ("button ▸", *(["button Copy"] if "release" in it.state else []))]
            wanted = ["a Skip to the list", *(f"a {it}" for it in links), "summary Paths in the commands to copy", *(f"a {it}" for it in lists)]
            wanted += fields if width in WIDE else ["button Filter and sort"]
            expect(tabbed(tab), wanted + [f"button {it}" for it in heads] + rows, f"what the keyboard passes at {width} pixels")
            skips(tab, width)
            expect_quiet(tab, server)


TITLES = {"in": "Incoming", "out": "Outgoing", "received": "Responses received", "issued": "Responses issued"}
TITLES |= {"sessions": "Sessions", "partners": "Partners"}
HEADS = ["No.", "From", "File", "Sender's stamp", "Size", "State"]


def expect_named(tab, width, heads):
    """Each control has a name, and the table is one."""
    if width in NARROW:
        tab.value('document.querySelector("#fold").click()')
    nodes = [it for it in tab.call("Accessibility.getFullAXTree")["nodes"] if not it.get("ignored")]
    names = {}
    for node in nodes:
        names.setdefault(node["role"]["value"], []).append(node.get("name", {}).get("value", ""))
    choices = ["Partner", "State", *(["Sorted by"] if width in NARROW else [])]
    expect((names["combobox"], names["searchbox"]), (choices, ["File name, description or number"]), f"fields at {width} pixels")
    expect(names["columnheader"], heads, f"heads of the columns at {width} pixels")
    expect(names["table"], ["Incoming files"], f"the table at {width} pixels")
    more = tab.value("document.querySelectorAll('#list .more').length")
    expect((len(names["row"]), len(names["rowheader"])), (31 + more, 30), f"rows at {width} pixels, and their heads")
    expect("" in names.get("link", []) + names.get("button", []), False, "controls without a name")
    if width in NARROW:
        tab.value('document.querySelector("#fold").click()')


def tabbed(tab):
    """The elements that the key Tab reaches, one after another, until it leaves the page. Each is marked so that one sees it."""
    passed_by = []
    while len(passed_by) < 300:
        tab.key("Tab")
        at, is_marked = tab.value(f"""(() => {{{CONTRAST}
          const it = document.activeElement, style = getComputedStyle(it);
          const isMarked = style.outlineStyle !== "none" && parseFloat(style.outlineWidth) >= 2 && it.getClientRects().length > 0
            && ratio(style.outlineColor, behind(it.parentElement)) >= 3 && style.visibility === "visible";
          return [it === document.body ? "" : it.localName + (it.matches("select, input") ? `#${{it.id}}` : ` ${{it.textContent}}`), isMarked];
        }})()""")
        if not at:
            return passed_by
        expect(is_marked, True, f"whether one sees that the keyboard is at {at}")
        # The parts of a date are one field.
        passed_by += [at] if not at.startswith("input#") or at not in passed_by else []
    return passed_by


def skips(tab, width):
    """The first link leads past all that is above the list, and leaves the chosen list as it is."""
    choose(tab, "out", state="handed")
    tab.value("document.activeElement.blur(), getSelection().removeAllRanges(), document.querySelector('#skip').focus()")
    expect_fits(tab, "the link that skips")
    tab.key("Enter")
    expect(tab.value("[document.activeElement.id, location.hash]"), ["list", "#view=out&state=handed"], "where the first link leads")
    tab.key("Tab")
    where = "[document.activeElement.closest('table')?.id, document.activeElement.textContent]"
    expect(tab.value(where), ["list", "No. ↓" if width in WIDE else "▸"], "what follows the link")
    tab.value("document.querySelector('.open').focus()")
    tab.key("Enter")
    expect(tab.value("document.querySelectorAll('#list dl').length"), 1, "details that a key opens")


def of_the_program(browser, picture):
    """The page over lists that the built program answers, from databases of rows/listing."""
    for name in ("incoming_states", "outgoing_states", "empty_listing"):
        with tempfile.TemporaryDirectory() as room:
            database = filled(Path(room), ROWS / f"listing/{name}.listing")
            with Service(database.parent, "http", "--requests", "1000") as service:
                lists = Elsewhere(f"http://127.0.0.1:{service.port}/")
                service.caller().close()
                with Server(lists) as server:
                    for width in WIDTHS:
                        with opened(browser, server, width) as tab:
                            expect_shown(tab, page_lists.read_lists(lists.answer), utc_now())
                            picture(tab, f"program_{name}_{width}")
                            expect_quiet(tab, server)


def filled(room, path):
    """The database of a file of rows/listing."""
    listing = Listing(path)
    listing.acts = [act for act in listing.acts if not isinstance(act, Request)]
    listing.play(room)
    return room / "database"


class There:
    """Another server of the page and the lists, whose requests aren't counted."""

    def __init__(self, url):
        self.url = url
        self.asked = []


def served_by_run(browser, picture):
    """The page that `run` serves is the file's. It shows the content of the database, a submitted file with its event, that the station is gone,
    and that it is there again."""
    with tempfile.TemporaryDirectory() as name:
        room, port, own = Path(name), free_port(), free_port()
        filled(room, ROWS / "listing/incoming_states.listing")
        there = There(f"http://127.0.0.1:{port}/")
        answer, events = Elsewhere(there.url).answer, room / "events"
        words = ["--http-port", str(port), "--events", events]
        with Resident(room, *words, port=own) as station, opened(browser, there, 400) as tab:
            expect(answer("/"), PAGE.read_text(encoding="utf-8"), "the page")
            expect_shown(tab, page_lists.read_lists(answer), utc_now())
            (room / "content").write_bytes(b"content")
            station.submit(room / "content")
            until = time.monotonic() + 60
            while b'"submitted"' not in events.read_bytes() and time.monotonic() < until:
                time.sleep(0.1)
            renewed(tab)
            choose(tab, "out")
            expect([(row.name, row.changes[20:]) for row in rows_of(tab)], [("INV.1", "Submitted")], "the outgoing files and their changes")
            expect_shown(tab, page_lists.read_lists(answer), utc_now())
            expect_quiet(tab, there)
            station.program.kill()
            station.program.wait()
            tab.value(f"void ({RENEW})")
            tab.until('document.querySelector("#trouble").textContent.includes("it can\'t be reached. What you see is of ")')
            with Resident(room, *words, port=own):
                tab.value(f"void ({RENEW})")
                tab.until('document.querySelector("#trouble").hidden')
                expect_shown(tab, page_lists.read_lists(answer), utc_now())
                picture(tab, "served_by_run")


def after_a_restore(browser, picture):
    """A station that starts from a backup sends a file again, which its partner has. The page doesn't say to submit it once more, and calls it
    delivered once its EERP has come."""
    with tempfile.TemporaryDirectory() as name:
        room, partner, port = Path(name), Path(name) / "partner", free_port()
        partner.mkdir()
        theirs, book, database = ROOT / "examples/carmaker/book.toml", room / "book", room / "database"
        (room / "content").write_bytes(b"content")

        def given(*words):
            return subprocess.run([PROGRAM, *words], capture_output=True, text=True, timeout=60, check=False).stdout

        def call():
            given("call", "--db", database, "--book", book, "--partner", CARMAKER)

        with Service(partner, "listen", "--sessions", "9", book=theirs) as other:
            other.caller().close()
            book.write_text(BOOK.read_text(encoding="utf-8").replace("127.0.0.1:3305", f"127.0.0.1:{other.port}"), encoding="utf-8")
            identity = ["--dataset", "INV.1", "--date", "20240201", "--time", "0800000001", "--to", CARMAKER, "--format", "U"]
            expect(given("submit", "--db", database, "--book", book, *identity, room / "content"), "done: submit 1\n", "the file")
            expect(given("backup", "--db", database, room / "backup"), "done: backup\n", "the backup")
            call()
            (room / "database-wal").unlink()
            (room / "backup").rename(database)
            there = There(f"http://127.0.0.1:{port}/")
            with Resident(room, "--http-port", str(port), book=book), opened(browser, there, 400) as tab:
                choose(tab, "out")
                expect(rows_of(tab)[0].words, "Waiting to be sent, late", "the file in the backup")
                call()
                renewed(tab)
                picture(tab, "after_a_restore")
                expect(rows_of(tab)[0].words, "Refused as a duplicate", "the file that was sent again")
                expect(says_of(tab, 1, "with another date or time"), False, "whether it is to be submitted again")
                expect(given("release", "--db", other.database, "--book", theirs, "1"), "done: release 1\n", "the release there")
                call()
                renewed(tab)
                delivered = "Delivered", "EERP came, after 13 duplicate file", None
                expect((rows_of(tab)[0].words, rows_of(tab)[0].detail, rows_of(tab)[0].duty), delivered, "the file once its EERP has come")
                expect_quiet(tab, there)


def renewed(tab):
    """Makes the page renew itself, and waits until it has."""
    tab.value("window.before = updatedAt")
    tab.value(f"void ({RENEW})")
    tab.until("updatedAt !== window.before")


def closing_for_long(browser, _picture):
    """A file that is younger than an hour stands out once the page has seen it closing for ten minutes, and not before."""
    now = utc_now()
    lists = Lists()
    lists.went("closing", age=timedelta(minutes=2), now=now)
    with Server(lists) as server, opened(browser, server, WIDE[0]) as tab:
        choose(tab, "out")
        tab.value("void (window.real = Date.now)")
        late = ["1 not confirmed, late, oldest 12 minutes"]
        for minutes, state, todo in ((0, "closing", []), (8, "closing", []), (10, "closing_late", late)):
            tab.value(f"void (Date.now = () => window.real() + {minutes * 60_000})")
            renewed(tab)
            found = [row.words for row in rows_of(tab)], tiles_of(tab)
            expect(found, ([page_lists.STATES["out"][state][0]], todo), f"a file that it has seen closing for {minutes} minutes")
        expect_quiet(tab, server)


def with_events(browser, picture):
    """30 files each way in all states, sessions and partners, as the events and the status tell them. Each row is shown, in a light and in a dark
    scheme, and all that is known of a file, with its history."""
    now = utc_now()
    lists = page_lists.with_events(page_lists.in_every_state(30, now), now)
    found = page_lists.items(lists, now)
    said = {view: {it.state for it in items} for view, items in found.items()}
    expect((said["in"] >= {"eerp_due_late", "nerp_due_late"}, said["sessions"], said["partners"]), (True, *STATES_TOLD), "states that are told")
    lists.torn = '{"at":"2026-01-01T00:00:00.000000Z","event":"ca\n\nnull\n7\n{"at":"now"}\n', ""
    with Server(lists) as server:
        for width in WIDTHS:
            for scheme in ("light", "dark"):
                with opened(browser, server, width, scheme=scheme) as tab:
                    expect_shown(tab, lists, now)
                    for view in lists.views:
                        choose(tab, view)
                        tab.value('document.querySelectorAll(".open").forEach((it) => it.click())')
                        expect_fits(tab, f"{view}, open")
                        picture(tab, f"with_events_{view}_{width}_{scheme}", is_whole=True)
                        for row in found[view] if view in VIEWS and scheme == "light" else []:
                            body = f'document.querySelector(\'#list tbody[data-no="{row.file["no"]}"]\')'
                            expect(facts_in(tab, body), facts_of(row), f"{view}: all about {row.file['no']}")
                    expect_quiet(tab, server)


STATES_TOLD = set(page_lists.STATES["sessions"]), set(page_lists.STATES["partners"])


def late_by_events(browser, _picture):
    """A file is late by the event with which its state began, whatever its stamp is, and by the stamp where no event tells that. A response is late
    by events alone. The file of another database, with another identity, doesn't count."""
    now = utc_now()
    begun = {
        **{("open", "none", None): "started to come", ("whole", "none", None): "came", ("whole", "EERP", False): "released"},
        ("whole", "NERP", False): "refused here",
    }
    gone = {"waiting": "submitted", "closing": "sent", "handed": "handed over"}
    old, young = timedelta(days=3), timedelta(minutes=20)
    for is_late, told_of in ((True, old), (False, young)):
        lists = Lists(events=[], status=page_lists.status_of(now))
        for (state, kind, is_sent), name in begun.items():
            lists.came(state, kind, is_sent, "34" if kind == "NERP" else "", young if is_late else old, now)
            lists.events.append(page_lists.of_file(now - told_of, name, "in", lists.incoming[-1]))
            lists.events.append(page_lists.of_file(now - timedelta(minutes=1), "broken off", "in", lists.incoming[-1]))
            other = {**lists.incoming[-1], "time": "0000000000"}
            lists.events.append(page_lists.of_file(now - (young if is_late else old), name, "in", other))
        for state, name in gone.items():
            file = lists.went(state, age=young if is_late else old, now=now)
            lists.events.append(page_lists.of_file(now - told_of, name, "out", file))
        lists.came("whole", "EERP", False, "", old, now)
        lists.went("handed", age=old, now=now)
        with Server(lists) as server, opened(browser, server, WIDE[0]) as tab:
            late = [page_lists.moment_of(it) is not None and "late" in row.words for it, row in zip(lists.incoming, rows_of(tab)[::-1])]
            expect(late, [*4 * [is_late], False], f"incoming files that are late where their events are {told_of} old")
            choose(tab, "out")
            expect([row.look == "act" for row in rows_of(tab)[::-1]], [*3 * [is_late], True], f"outgoing ones, {told_of}")
            expect_shown(tab, lists, now)
            told = "Not looked at, since neither events nor the stamp tell an age: incoming 5. "
            expect(text_of(tab, "#unlooked"), told, "whose age nothing tells")


def nothing_to_do_where_looked(browser, picture):
    """"Nothing to do" is said only if events and the status were looked at. Then neither a file, nor a response, nor a partner needs anybody. A
    partner who isn't reached, or with whom the last session failed, is to do until a session ends in order."""
    now = utc_now()
    minute = timedelta(minutes=1)
    partner = page_lists.PARTNERS[0]

    def done(status, events):
        lists = Lists(status=status, events=events)
        lists.came("whole", "EERP", True, now=now)
        lists.went("delivered", "EERP", now=now)
        return lists

    with Server(Lists()) as server, opened(browser, server, WIDE[0]) as tab:
        for status, events in ((None, None), (page_lists.status_of(now), None), (None, []), (page_lists.status_of(now), [])):
            server.lists = done(status, events)
            renewed(tab)
            says = page_lists.NOTHING in tab.value("document.body.innerText")
            expect(says, status is not None and events is not None, f"whether it says so, status {bool(status)}, events {events}")
            expect_shown(tab, server.lists, now)
        failed = page_lists.not_reached(now - 9 * minute, partner, "no route"), page_lists.session(now - 8 * minute, partner, "end: partner 04")
        good = page_lists.session(now - 7 * minute, partner, "end: own 00")
        tiles = [["1 partner not reached, no route"], ["1 partner whose last session failed, 04 invalid password, sent by the partner"], []]
        for count, wanted in enumerate(tiles, 1):
            server.lists.events = [*failed, good][:count]
            renewed(tab)
            expect(tiles_of(tab), wanted, f"what is to be done behind {count} contacts")
            expect(text_of(tab, "#idle"), page_lists.NOTHING, "what it says where nothing is to be done")
            expect_shown(tab, server.lists, now)
        counted = page_lists.counter("not reached", now - minute, partner=partner)
        server.lists.status = page_lists.status_of(now, [counted])
        renewed(tab)
        expect(tiles_of(tab), ["1 partner not reached"], "what is to be done about a later call that only the counters tell")
        expect(text_of(tab, "#said"), "To do: 1 partner.", "what is said of one partner")
        tab.value('document.querySelector("#todo a").click()')
        tab.until(f"{CHOSEN} === 'partners'")
        expect([(row.partner, row.words) for row in rows_of(tab)], [(partner, "Not reached")], "where that leads")
        picture(tab, "not_reached")
        expect_shown(tab, server.lists, now)
        expect_quiet(tab, server)


def events_come_and_go(browser, _picture):
    """Events that are there from a later start on are shown once they are, and no more once they are gone. Then the page shows no list of them."""
    now = utc_now()
    told = page_lists.with_events(page_lists.in_every_state(8, now), now)
    bare = Lists(told.incoming, told.outgoing, told.issued, told.received)
    with Server(bare) as server, opened(browser, server, WIDE[0]) as tab:
        for server.lists in (bare, told, bare):
            renewed(tab)
            expect_shown(tab, server.lists, now)
        server.lists = told
        renewed(tab)
        choose(tab, "sessions", state="good")
        expect([row.words for row in rows_of(tab)], ["Ended in order"], "sessions that ended in order")
        tab.value("void location.reload()")
        time.sleep(0.5)
        tab.until(IS_DRAWN)
        expect(tab.value(CHOSEN), "sessions", "the list once the page is loaded again")
        server.lists = bare
        renewed(tab)
        expect(tab.value(CHOSEN), "in", "the list where there are no sessions any more")
        expect_quiet(tab, server)


def sorted_by_change(browser, _picture):
    """If there are events the lists are sorted by the last change, too. The filter by days finds a file by the days of its changes."""
    now = utc_now()
    lists = page_lists.with_events(page_lists.in_every_state(30, now), now)
    found = page_lists.items(lists, now)
    with Server(lists) as server, opened(browser, server, WIDE[0]) as tab:
        for view in VIEWS:
            choose(tab, view)
            for way in ("descending", "ascending"):
                tab.value("document.querySelector('thead [data-column=changed]').click()")
                expect(sorted_by(tab), [["changed", way]], f"{view}: how it is sorted")
                wanted = page_lists.in_order(found[view], "changed", way == "descending")
                expect(numbers_of(tab), [it.file["no"] for it in wanted], f"{view}, {way} by the last change")
        choose(tab, "out")
        day = f"{now - page_lists.LATE:%Y-%m-%d}"
        set_value(tab, "since", day)
        set_value(tab, "until", day)
        days = [{it.shown.when[:10], *(f"{page_lists.at_of(change):%Y-%m-%d}" for change in it.changes)} for it in found["out"]]
        expect(numbers_of(tab), [it.file["no"] for it, of in zip(found["out"], days) if day in of], "the files of a day")


def other_time_zones(_browser, picture):
    """In a browser of another zone this station's own stamps are read as UTC and shown by that zone's clock, in summer and in winter. A sender's
    are shown as they came. A file is late by UTC, whatever the zone."""
    clocks = {
        "Europe/Berlin": ["2026-01-15 10:30:00", "2026-07-15 11:30:00", "2026-01-01 00:10:00"],
        "America/Mexico_City": ["2026-01-15 03:30:00", "2026-07-15 03:30:00", "2025-12-31 17:10:00"],
    }
    written = [("20260115", "0930000001"), ("20260715", "0930000002"), ("20251231", "2310000003")]
    for zone, wanted in clocks.items():
        now = utc_now()
        lists = Lists()
        for date, time_of_day in written:
            lists.went("delivered", "EERP", date=date, time=time_of_day)
            lists.came("whole", "EERP", True, date=date, time=time_of_day)
        for minutes in (65, 55, 2):
            lists.went("closing", age=timedelta(minutes=minutes), now=now)
        for minutes in (-5, 5):
            lists.went("handed", age=timedelta(hours=24, minutes=minutes), now=now)
            lists.came(age=timedelta(hours=24, minutes=minutes), now=now)
        with tempfile.TemporaryDirectory() as room, Browser(Path(room), zone) as browser, Server(lists) as server:
            with opened(browser, server, WIDE[0]) as tab:
                expect(tab.value("Intl.DateTimeFormat().resolvedOptions().timeZone"), zone, "the browser's time zone")
                choose(tab, "out")
                rows = rows_of(tab)[::-1]
                expect([row.when for row in rows[:3]], wanted, f"this station's stamps in {zone}")
                late = ["Sent, not confirmed, late", *2 * ["Sent, not yet confirmed"], "Handed over", "EERP overdue"]
                expect([row.words for row in rows[3:]], late, f"files of 65, 55 and 2 minutes, and of almost and of more than a day in {zone}")
                set_value(tab, "until", wanted[2][:10])
                expect(numbers_of(tab), [3], f"the files up to the day of the oldest in {zone}")
                choose(tab, "in")
                rows = rows_of(tab)[::-1]
                expect([row.when for row in rows[:3]], ["2026-01-15 09:30:00", "2026-07-15 09:30:00", "2025-12-31 23:10:00"], "senders' stamps")
                expect([row.words for row in rows[3:]], ["To be released", "To be released, late"], f"files that came, of about a day in {zone}")
                expect(text_of(tab, "#updated").partition(", ")[2], page_lists.zone_text(zone, now), "the zone of the clock")
                expect_shown(tab, lists, now, zone)
                picture(tab, f"zone_{zone.partition('/')[2]}")
                server.lists = page_lists.with_events(lists, now)
                renewed(tab)
                expect_shown(tab, lists, now, zone)
                expect_quiet(tab, server)


def refused_as_duplicate(browser, picture):
    """A file that the partner has already isn't to be sent again. It is what its response says, if one is here or comes: an EERP before all."""
    now = utc_now()
    lists = Lists()
    kept = lists.went("refused", reason="13")
    released = lists.went("refused", reason="13")
    negative = lists.went("refused", reason="13")
    lists.went("refused", reason="05")
    both = lists.went("refused", reason="13")
    lists.went("refused", "EERP", reason="12")
    returned = {"kind": "NERP", "reason": "34", "note": "Part number 4711 isn't ours"}
    for file, response in ((released, {}), (negative, returned), (both, {}), (both, returned)):
        lists.received.append(page_lists.received(len(lists.received) + 1, file, **response))
    before = list(lists.received)
    with Server(lists) as server:
        for width in (WIDE[0], NARROW[0]):
            lists.received = list(before)
            with opened(browser, server, width) as tab:
                expect_shown(tab, lists, now)
                choose(tab, "out")
                picture(tab, f"refused_as_duplicate_{width}")
                wanted = ["Delivered", "Delivered", "Refused by the partner", "Returned (NERP)", "Delivered", "Refused as a duplicate"]
                expect([row.words for row in rows_of(tab)], wanted, "what is said of files 6 to 1")
                told = ["EERP came, after 12 access method failure", *2 * ["EERP came, after 13 duplicate file"]]
                expect([rows_of(tab)[at].detail for at in (0, 1, 4)], told, "what is said of refused files whose EERP has come")
                asked = [says_of(tab, no, "don't send it again before asking") for no in range(6, 0, -1)]
                expect(asked, [*5 * [False], True], "which files aren't to be sent again before asking")
                again = [says_of(tab, no, "submit it with another date or time") for no in range(6, 0, -1)]
                expect(again, [False, False, True, True, False, False], "which files are to be submitted again")
                lists.received.append(page_lists.received(len(before) + 1, kept))
                renewed(tab)
                expect((rows_of(tab)[5].words, rows_of(tab)[5].duty), ("Delivered", None), "what is said of file 1 once its EERP has come")
                expect_shown(tab, lists, now)
                expect_quiet(tab, server)


def says_of(tab, no, words):
    """Whether the rows of this file say these words."""
    return tab.value(f"""document.querySelector('#list tbody[data-no="{no}"]').textContent.includes("{words}")""")


def tells_what_changed(browser, _picture):
    """Who can't see the page is told when there is more or less to do, and not when nothing changed."""
    lists = Lists()
    with Server(lists) as server, opened(browser, server, WIDE[0]) as tab:
        expect(text_of(tab, "#said"), "", "what is said at first")
        lists.came()
        renewed(tab)
        expect((text_of(tab, "#said"), tab.value("document.title")), ("To do: 1 file.", "(1) OFTP2 station O0013SUPPLIER"), "what is said of one file")
        tab.value('void (document.querySelector("#said").textContent = "")')
        renewed(tab)
        expect(text_of(tab, "#said"), "", "what is said where nothing changed")
        lists.incoming.clear()
        lists.came("whole", "EERP", True)
        renewed(tab)
        expect(text_of(tab, "#said"), page_lists.IDLE, "what is said where no file needs anybody any more")


CASES = [
    *(no_file, every_state, one_line_a_file, sizes, late_by_age, closing_for_long, of_unknown_age, never_nothing_to_do, sent_again),
    *(refused_as_duplicate, other_time_zones, command_to_copy, details, sorting, filter_is_kept, filtered_by_day, hostile_texts, many_files),
    *(with_events, late_by_events, nothing_to_do_where_looked, events_come_and_go, sorted_by_change),
    *(renews_itself, keeps_what_is_in_use, tells_what_changed, says_when_it_cannot, by_keyboard, of_the_program, served_by_run, after_a_restore),
]


def at_base(url):
    """The case of a page that is served elsewhere."""

    def served(browser, picture):
        lists = page_lists.read_lists(Elsewhere(url).answer)
        for width in WIDTHS:
            with opened(browser, There(url), width) as tab:
                expect_shown(tab, lists, utc_now())
                picture(tab, f"served_{width}", is_whole=True)
                expect_quiet(tab, There(url))

    return served


def write_screenshot(browser, path):
    """Writes the picture of a supplier's day, as the documents have it."""
    with Server(page_lists.of_a_day(utc_now())) as server, opened(browser, server, WIDE[0]) as tab:
        choose(tab, "out")
        tab.picture(path, is_whole=True)


def tried(case, browser, pictures):
    """Plays a case. It returns why it failed, or None."""

    def picture(tab, name, is_whole=False):
        if pictures:
            tab.picture(pictures / f"{name}.png", is_whole)

    try:
        case(browser, picture)
    except (Bad, Failed, Wrong, OSError) as why:
        return f"{type(why).__name__}: {why}"
    return None


def main():
    parser = argparse.ArgumentParser(description=__doc__.splitlines()[0])
    parser.add_argument("--pictures", type=Path)
    parser.add_argument("--page", type=Path, default=PAGE)
    parser.add_argument("--base")
    parser.add_argument("--screenshot", type=Path)
    parser.add_argument("names", nargs="*", metavar="NAME")
    taken = parser.parse_args()
    Server.page = taken.page
    cases = [at_base(taken.base)] if taken.base else [it for it in CASES if not taken.names or it.__name__ in taken.names]
    if not chromium():
        print("NOT TRIED without a browser: the page")
        return 0
    if taken.pictures:
        taken.pictures.mkdir(parents=True, exist_ok=True)
    failed = 0
    with tempfile.TemporaryDirectory() as room, Browser(Path(room), "UTC") as browser:
        if taken.screenshot:
            write_screenshot(browser, taken.screenshot)
            return 0
        for case in cases:
            why = tried(case, browser, taken.pictures)
            failed += why is not None
            if why:
                print(f"{case.__name__}: {why}")
    print(f"{len(cases) - failed} passed, {failed} failed")
    return 1 if failed or not cases else 0


if __name__ == "__main__":
    sys.exit(main())
