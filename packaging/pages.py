#!/usr/bin/env python3
"""Writes the manual pages: oftp_station(1), one for each command, oftp-process(1) and oftp-book(5).

    packaging/pages.py PROGRAM FOLDER DATE       the pages of PROGRAM, with this date, in FOLDER/man1 and FOLDER/man5

What a page says of options and words is what the program prints by `--help`. The tables are those of docs/COMMANDS.md.
"""

import re
import sys
from pathlib import Path

import told
from told import ROOT

PROCESS = ROOT / "examples/service/oftp-process"
BOOK = ROOT / "examples/service/book.toml"
# Where the package has the documents.
DOCUMENTS = "/usr/share/doc/oftp-station"
# The parts of a text that are set apart: code, words that are marked, and links.
MARKED = re.compile(r"`([^`]+)`|\*\*([^*]+)\*\*|(?<!\w)\*([^*]+)\*(?!\w)|\[((?:[^\]`]|`[^`]*`)+)\]\(([^)]*)\)")
PLACEHOLDER = re.compile(r"<(\w+)>")
# The tables that belong to one command's page: how it heads each, and its first heading. oftp_station(1) has those that belong to all.
TABLES = {"report": [("Reports", "Report")], "refuse": [("Reasons", "NERP")]}


def plain(text):
    """A text as troff prints it: no character of it is a request or an escape."""
    text = text.replace("\\", "\\e").replace("-", "\\-").replace("'", "\\(aq").replace("`", "\\(ga").replace("^", "\\(ha").replace("~", "\\(ti")
    return re.sub(r"^(?=\.)", "\\&", text, flags=re.M)


def marked(text):
    """A line of Markdown in troff. Code is bold, and of a link its text is left, or the heading to which `below` leads."""
    text = text.replace("./oftp_station", "oftp_station")
    done, at = "", 0
    for it in MARKED.finditer(text):
        code, strong, slanted, link, target = it.groups()
        done += plain(text[at : it.start()])
        if link:
            done += marked(f"see {heading_of(target)}" if link == "below" else link)
        elif slanted:
            done += f"\\fI{plain(slanted)}\\fR"
        else:
            done += f"\\fB{plain(code or strong)}\\fR"
        at = it.end()
    return done + plain(text[at:])


def heading_of(target):
    """The heading of docs/COMMANDS.md to which a link leads."""
    name = target.removeprefix("#").replace("-", " ")
    return f"{name[:1].upper()}{name[1:]} in {DOCUMENTS}/docs/COMMANDS.md"


def sentence(text):
    """A part of a sentence as a sentence of its own. What is code alone is none."""
    text = text.strip()
    return text if not text or text.endswith(".") or re.fullmatch(r"`[^`]*`", text) else f"{text[0].upper()}{text[1:]}."


def usage_of(command):
    """The usage in troff: what is typed as it is in bold, and what stands for something slanted."""
    parts = []
    for number, part in enumerate(PLACEHOLDER.split(command.usage)):
        parts.append(f"\\fI{plain(part)}\\fR" if number % 2 else f"\\fB{plain(part)}\\fR" if part else "")
    return "".join(parts).replace("[", "\\fR[\\fB").replace("]", "\\fR]\\fB")


class Page:
    """A page, line by line."""

    def __init__(self, name, number, about, version, date):
        self.name, self.number = name, number
        kind = {1: "User Commands", 5: "File Formats"}[number]
        head = f'.TH {plain(name).upper()} {number} {date} "oftp_station {version}" "{kind}"'
        self.lines = [head, ".nh", ".ad l", ".SH NAME", f"{plain(name)} \\- {marked(about)}"]

    def section(self, name, *paragraphs):
        self.lines.append(f'.SH "{plain(name).upper()}"')
        for number, paragraph in enumerate(it for it in paragraphs if it):
            self.lines += [".PP"] * (number > 0) + [marked(paragraph)]

    def usage(self, command):
        self.lines += [".SH SYNOPSIS", usage_of(command)]

    def terms(self, terms):
        """A list of terms, each with what it is, in troff."""
        for term, *texts in terms:
            self.lines += [".TP", term, texts[0]]
            for text in texts[1:]:
                self.lines += [".IP", text]

    def arguments(self, command):
        for name, them in (("Arguments", command.words), ("Options", command.options)):
            if them:
                self.section(name)
            self.terms([(argument_of(it), plain(sentence(it.help))) for it in them])

    def table(self, name, first):
        """A table of docs/COMMANDS.md: its first cells are the terms, and each further one has its heading in front where there are several."""
        self.section(name)
        headings, rows = told.table(first)
        for term, *rest in rows:
            texts = [(heading, text) for heading, text in zip(headings[1:], rest) if text]
            shown = [f"\\fI{plain(heading)}:\\fR {marked(text)}" if len(rest) > 1 else marked(sentence(text)) for heading, text in texts]
            self.terms([(marked(term), *(shown or [""]))])

    def verbatim(self, text):
        self.lines += [".EX", *map(plain, text.splitlines()), ".EE"]

    def see_also(self, *pages):
        self.lines += [".SH SEE ALSO", ",\n".join(f"\\fB{plain(name)}\\fR({number})" for name, number in pages)]
        self.lines += [".PP", plain(f"{DOCUMENTS}/docs/COMMANDS.md and {DOCUMENTS}/docs/howto")]

    def write(self, folder):
        place = folder / f"man{self.number}"
        place.mkdir(parents=True, exist_ok=True)
        (place / f"{self.name}.{self.number}").write_text("\n".join(self.lines) + "\n", encoding="utf-8")


def argument_of(argument):
    value = f"\\fI{plain(argument.shown)}\\fR"
    if not argument.option:
        return value
    return f"\\fB\\-\\-{plain(argument.option)}\\fR" + (f" {value}" if argument.shown else "")


def page_of(command, *made):
    """The page of a command of the station."""
    page = Page(f"oftp_station-{command.word}", 1, command.about, *made)
    page.usage(command)
    page.section("Description", sentence(told.done_by(command.word)) or sentence(command.about))
    page.arguments(command)
    for name, first in TABLES.get(command.word, []):
        page.table(name, first)
    page.table("Exit status", "Exit status")
    page.section("Lines", "What the printed lines mean, and what to do about each, is in oftp_station(1).")
    page.see_also(("oftp_station", 1), ("oftp-book", 5))
    return page


def page_of_program(commands, *made):
    """The page of the station: its commands, and what all of them print."""
    page = Page("oftp_station", 1, "station of the ODETTE File Transfer Protocol 2 (RFC 5024)", *made)
    page.lines += [".SH SYNOPSIS", "\\fBoftp_station\\fR \\fICOMMAND\\fR [\\fIOPTION\\fR|\\fIWORD\\fR]..."]
    page.section("Commands", "Each command has a page of its own: that of `run` is oftp_station-run(1).")
    page.terms([(f"\\fB{plain(it.word)}\\fR", plain(sentence(it.about))) for it in commands])
    page.lines += [".PP", marked(told.paragraph("`./oftp_station help`"))]
    page.table("Exit status", "Exit status")
    page.table("Lines", "Line")
    page.table("Why a file is refused at its start (SFNA)", "SFNA")
    page.table("Why a session is ended (ESID)", "ESID")
    page.table("Why a file is returned (NERP)", "NERP")
    page.see_also(*((f"oftp_station-{it.word}", 1) for it in commands), ("oftp-process", 1), ("oftp-book", 5))
    return page


def page_of_process(*made):
    """The page of the command that has files processed, by its own help."""
    command = told.command_of("", told.said(PROCESS, "--help"))
    page = Page("oftp-process", 1, command.about, *made)
    page.usage(command)
    page.arguments(command)
    for name, terms in command.parts.items():
        page.section(name)
        page.terms([(f"\\fB{plain(term)}\\fR", plain(sentence(text))) for term, text in terms])
    page.see_also(("oftp_station", 1), ("oftp_station-collect", 1), ("oftp_station-release", 1), ("oftp_station-refuse", 1))
    return page


def page_of_book(*made):
    """The page of the partner book."""
    page = Page("oftp-book", 5, "partner book of a station", *made)
    page.section("Description", " ".join(told.section("The partner book").split("\n\n")[0].split()))
    page.table("Keys", "Key")
    page.section("Example")
    page.verbatim(BOOK.read_text(encoding="utf-8"))
    page.see_also(("oftp_station-check", 1), ("oftp_station", 1))
    return page


def main():
    program, folder, date = sys.argv[1:]
    # What has neither options nor words needs no page: that of the program says all of it.
    commands = [it for it in told.commands(program) if it.words or it.options]
    made = told.version(program), date
    pages = [page_of_program(commands, *made), page_of_process(*made), page_of_book(*made), *(page_of(it, *made) for it in commands)]
    for page in pages:
        page.write(Path(folder))


if __name__ == "__main__":
    main()
