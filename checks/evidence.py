#!/usr/bin/env python3
"""Writes docs/evidence and the charts of docs/measured from what they are evidence of.

    checks/evidence.py --write      writes the pages and the charts
    checks/evidence.py --check      compares them with what it would write

The pages have what each check shows, from the head of each script. They have which wrong bodies a promise names and what refuses each, from the
edits. Then come each statement about `run` with what shows it, each sentence of what an operator is promised, and two ways through the code. The
last are the breaks that checks have noticed, the bounds, what a tool's wrong bodies found, what was measured, and walks through the documents. What
no script knows is in tables beside the pages, docs/evidence/*.csv and docs/measured/*.csv. A wrong body that isn't there, a check without a script
and a table that no page shows fail.

In operations.csv `shown_by` has places with ` | ` between them. A place is a file, or a file with names of it: `FILE: NAME + NAME`. A name is a
function of a check that something calls, a row or a line, or a test. It may be a function with a contract, or a clause of one (`FUNCTION.CLAUSE`).
In another file it is a line. `nothing: WHY` stands where nothing shows a sentence. `--check` fails where a file or a name isn't there. The last
line is `N passed, M failed`, in pages, in places of that table and in walks.
"""

import ast
import csv
import re
import shlex
import sys
from pathlib import Path

sys.path.insert(0, str(Path(__file__).resolve().parent / "lib"))
sys.path.insert(0, str(Path(__file__).resolve().parent))

import charts
from program import ROOT
from run_checks import CHECKS
from walks import MOST_MINUTES, walks_of

EVIDENCE = ROOT / "docs/evidence"
MEASURED = ROOT / "docs/measured"
WRITTEN = "Written by `checks/evidence.py`; an edit here is lost.\n"
EDIT = re.compile(r"\b(\w+_\w+) \((oftp_\w+)(, gate)?\)")
SCRIPT = re.compile(r"(?:checks|examples)/[\w/]+\.(?:py|sh)")
NOTHING = "nothing"
# What a name in a file of each kind is, for a sentence that the file shows.
NAMED = {
    ".py": r"^ *def {name}\(",
    ".sh": r"^{name}\(\) ",
    ".lines": r"^(?:line|bad) {name}$",
    ".schedule": r"^row {name}$",
}
# The folders of checks that no table of checks lists, with what makes one of them fail.
BY_ITSELF = {
    "lint": "The texts: each fails where the tree isn't as a document or a rule says",
    "wrong_bodies": "Wrong bodies: each fails where the prover accepts one",
    "speed": "Run by hand",
    "lib": "Libraries: no checks",
}


def table(path):
    """A table as rows of cells; the first has its heads."""
    with path.open(encoding="utf-8", newline="") as file:
        return list(csv.reader(file))


def markdown(rows):
    """The rows as a table of Markdown."""
    heads, *others = rows
    return "\n".join("| " + " | ".join(row) + " |" for row in [heads, ["---"] * len(heads), *others]) + "\n"


def head_of(path):
    """The text at the head of a script, without what it is marked with."""
    text = path.read_text(encoding="utf-8")
    if path.suffix == ".py":
        return ast.get_docstring(ast.parse(text)) or ""
    lines = re.match(r"#!.*\n((?:#.*\n)*)", text)
    return "\n".join(it[2:] for it in lines[1].splitlines()) if lines else ""


def shows(path):
    """What a script shows: the paragraph of its head that says so, or else the first."""
    paragraphs = [" ".join(it.split()) for it in head_of(path).split("\n\n")]
    said = next((it.removeprefix("Shows: ") for it in paragraphs if it.startswith("Shows: ")), paragraphs[0])
    return said.replace("|", "\\|")


def script_of(check):
    """The script that a check of the table runs."""
    return ROOT / SCRIPT.search(check.command)[0]


def page_of_checks():
    """What each check shows, by the heads of the scripts."""
    rows = [["Check", "Command", "Shows"]]
    listed = set()
    for check in CHECKS:
        path = script_of(check)
        said = check.tries if path in listed else shows(path)
        listed.add(path)
        words = " ".join(it for it in shlex.split(check.command) if it not in ("python3", "bash"))
        rows.append([check.name, f"`{words}`".replace("|", "\\|"), said])
    parts = [f"# What each check shows\n\n{WRITTEN}\n## Over processes of the program\n\n{markdown(rows)}"]
    for folder, title in BY_ITSELF.items():
        scripts = [it for it in sorted((ROOT / "checks" / folder).glob("*.*")) if it.suffix in (".py", ".sh") and it not in listed]
        rows = [["Script", "Shows" if folder != "lib" else "Has"], *([f"`{it.relative_to(ROOT)}`", shows(it)] for it in scripts)]
        parts.append(f"## {title}\n\n{markdown(rows)}")
    return "\n".join(parts)


def refusal(name, crate, gate):
    """What has to refuse a wrong body, by its edit."""
    path = ROOT / (f"crates/{crate}/must-fail" if gate else f"checks/wrong_bodies/{crate}") / f"{name}.edit"
    named = re.search(r"(?m)^refused by: (.*)$", path.read_text(encoding="utf-8"))
    words = {"ensures": "the clause", "loop": "the loop"}
    return ", ".join(words.get(it, f"`{it.rpartition('.')[2]}`") for it in named[1].split(", ")) if named else "the prover"


def page_of_wrong_bodies():
    """The wrong bodies that would break a promise, and how many each crate has."""
    rows = [["Wrong body", "Edit", "Refused by"]]
    for meaning, edits in table(EVIDENCE / "promised.csv")[1:]:
        found = EDIT.findall(edits)
        rows.append([meaning, edits, "; ".join(dict.fromkeys(refusal(*it) for it in found))])
    counts = [["Crate", "Wrong bodies"]]
    for folder in sorted((ROOT / "checks/wrong_bodies").glob("oftp_*")):
        more = ROOT / "crates" / folder.name / "must-fail"
        counts.append([folder.name, str(len(list(folder.glob("*.edit"))) + len(list(more.glob("*.edit"))))])
    planted = table(EVIDENCE / "planted.csv")
    return (
        f"# Wrong bodies\n\n{WRITTEN}\nEach wrong body would break a promise. `rt ci` itself tries those with \"gate\"; the others stand in the\n"
        f"ledger. The last column has the clauses of which one has to refuse it.\n\n{markdown(rows)}\n## How many each crate has\n\n{markdown(counts)}"
        f"\n## Those that a tool made\n\n`rt plant` makes wrong bodies of public functions. The contracts let these through:\n\n{markdown(planted)}"
    )


def page_of_run():
    """Each statement about `run`, with what shows it."""
    rows = [["Statement", "Shown by"], *table(EVIDENCE / "run.csv")[1:]]
    name = "A name without a script is a case of `checks/scenarios/resident.py`."
    rules = [["Rule", "Function", "Law", "Row or check"], *table(EVIDENCE / "rules.csv")[1:]]
    told = "Functions are those of oftp_schedule/specs, laws those of oftp_schedule/src/laws.rt, rows files of rows/schedule."
    return (
        f"# Each statement about `run`, and what shows it\n\n{WRITTEN}\n{name}\n\n{markdown(rows)}\n## Which rule is where\n\n{told}\n\n{markdown(rules)}"
    )


def places_of(shown_by):
    """Where a sentence is shown: each file with the names in it."""
    for place in shown_by.split(" | "):
        path, _, names = place.partition(": ")
        yield path, names.split(" + ") if names and path != NOTHING else []


def has_contract(text, name):
    """Whether a crate's source has a function with a contract, or with this clause, or a test of this name."""
    function, _, clause = name.rpartition("::")[2].partition(".")
    head = r"(?:(?!\bfn\b)[\s\S])*?"
    clause = rf"{re.escape(clause)} " if clause else r"(?:\w+ )?"
    if re.search(rf"\bfn {function}\b{head}\bensures\*? {clause}\{{", text):
        return True
    return not name.rpartition(".")[0] and re.search(rf"#\[test\]\s+(?:pub )?fn {function}\b", text)


def is_named(path, name):
    """Whether a file has what a sentence names of it. A function of a check counts where something calls it."""
    text = path.read_text(encoding="utf-8")
    if path.suffix == ".rt":
        return has_contract(text, name)
    pattern = NAMED.get(path.suffix, r"^\s*{name}$").format(name=re.escape(name))
    calls = len(re.findall(rf"\b{re.escape(name)}\b", text)) if path.suffix in (".py", ".sh") else 2
    return re.search(pattern, text, re.M) and calls > 1


def judged_places():
    """Each place of the table of operations: its sentence, and what isn't there of it, or None."""
    for part, sentence, shown_by in table(EVIDENCE / "operations.csv")[1:]:
        for path, names in places_of(shown_by):
            if path == NOTHING:
                continue
            file = ROOT / path
            if not file.is_file():
                yield f"{part}: {sentence}", f"there is no {path}"
                continue
            lost = [it for it in names if not is_named(file, it)]
            yield f"{part}: {sentence}", f"{path} hasn't {', '.join(lost)}" if lost else None


def told_place(path, names):
    """A place as the page has it."""
    quoted = [f"`{it}`" if re.fullmatch(r"[\w:.]+", it) else f"“{it}”" for it in names]
    return f"{path}: {', '.join(quoted)}" if quoted else path


def page_of_operations():
    """Each sentence of what an operator is promised, part by part, with what shows it."""
    rows = table(EVIDENCE / "operations.csv")[1:]
    parts, unshown = [], [["Part", "Sentence", "Why nothing shows it"]]
    for part in dict.fromkeys(it[0] for it in rows):
        shown_rows = [["Sentence", "What shows it"]]
        for _, sentence, shown_by in (it for it in rows if it[0] == part):
            if shown_by.startswith(f"{NOTHING}: "):
                unshown.append([part, sentence, shown_by.partition(": ")[2]])
            else:
                shown_rows.append([sentence, "; ".join(told_place(*it) for it in places_of(shown_by))])
        parts.append(f"## {part}\n\n{markdown(shown_rows)}")
    told = (
        "A sentence says one thing that can be wrong by itself. Only what the program does stands here. Of a check the function is named, of rows the\n"
        "row or the line, of a crate the function whose contract says it, with its clause. `checks/evidence.py --check` looks for each name in its file."
    )
    more = f"## What nothing shows\n\n{markdown(unshown)}" if unshown[1:] else ""
    return "\n".join([f"# What an operator is promised, and what shows it\n\n{WRITTEN}\n{told}\n", *parts, more]).rstrip("\n") + "\n"


def page_of_ways():
    """The ways of an octet and of a submission through the code, call by call."""
    parts = [f"# Two ways through the code\n\n{WRITTEN}\nEach line is called by one above it; paths are below crates/.\n"]
    for title, name in (("An octet, from DATA to a row", "way_of_an_octet"), ("A submission, from its words to a row", "way_of_a_submission")):
        rows = [["", "File", "Function", "What it does"], *table(EVIDENCE / f"{name}.csv")[1:]]
        parts.append(f"## {title}\n\n{markdown(rows)}")
    return "\n".join(parts)


def page_of_edges():
    """The breaks that checks have noticed, and who tries each bound."""
    breaks = [["Break", "Cases that failed"], *table(EVIDENCE / "breaks.csv")[1:]]
    bounds = [["Bound", "One below, at it, and one above"], *table(EVIDENCE / "bounds.csv")[1:]]
    return (
        f"# Breaks that were noticed, and bounds\n\n{WRITTEN}\n## Breaks\n\nEach check was seen to fail with a copy of the checked program that has one "
        f"break: octets of its machine code\nwere changed, or a library in front of the C library changed a call (library), or a script in front of the\n"
        f"program changed its words or its files (script), or the program was that of the sources before (before).\n\n{markdown(breaks)}\n## Bounds\n\n{markdown(bounds)}"
    )


def judged_walks():
    """The walks through the documents, with what each lacks."""
    return walks_of(table(EVIDENCE / "walks.csv")[1:])


def page_of_walks():
    """How long readers take to what they look for."""
    rows = [["Question", "What is read", "Words", "Links", "Minutes", "Answer"]]
    for walk in judged_walks():
        way = " > ".join(f"{path}: `{begin}` to `{end}`".replace("|", "\\|") for path, begin, end in walk.stretches)
        rows.append([walk.question, way, str(walk.words), str(walk.links), f"{walk.minutes:.1f}", walk.answer])
    return (
        f"# Walks to nine answers\n\n{WRITTEN}\nOn 30 November 2026 they were walked by a reader who knew none of these documents. Each begins at the first line of "
        f"README.md, and\ngoes on by reading and by links. A minute is 200 words, or six links. `checks/evidence.py --check` fails where a walk takes more\n"
        f"than {MOST_MINUTES} minutes, or nothing leads on.\n\n{markdown(rows)}"
    )


def page_of_measurements():
    """What was measured: each table of docs/measured, with when, where and of what."""
    parts = [f"# What was measured\n\n{WRITTEN}"]
    for name, title, when, where, commit, unit in table(MEASURED / "when.csv")[1:]:
        rows = table(MEASURED / f"{name}.csv")
        parts.append(f"## {title}\n\n{when}; {where}; commit {commit}. {unit}\n\n{markdown(rows)}")
    return "\n".join(parts)


def number(cell):
    return float(cell.replace(",", "")) if cell else None


def chart_of_gate():
    """What each crate takes in the gate, in seconds of a processor."""
    heads, *rows = table(MEASURED / "gate.csv")
    series = [charts.Series(heads[at], [number(row[at]) for row in rows]) for at in range(1, 5)]
    return charts.parted_bars("The gate: seconds of a processor for each crate", [row[0] for row in rows], series)


def chart_of_growth():
    """What a station takes as its register grows, in milliseconds of a processor."""
    wanted = {"the opening, once": "the opening", "a file of 10 KB submitted": "a submission", "a session in which 10 KB come": "a session, 10 KB"}
    rows = {row[0]: row[4:] for row in table(MEASURED / "growth.csv")[1:]}
    series = [charts.Series(name, [number(it) for it in rows[what]]) for what, name in wanted.items()]
    series.append(charts.Series("a list", [number(it.split(", ")[0]) for it in rows["`GET /in`, `GET /out`"]]))
    return charts.lines("Milliseconds of a processor, over so many files", [1_000, 10_000, 100_000], series)


def chart_of_library():
    """How many times plain C the station and the toolchain's library take."""
    heads, *rows = table(MEASURED / "library.csv")
    series = [charts.Series(name, [number(row[heads.index(name)]) for row in rows]) for name in ("Station by plain C", "Library by plain C")]
    return charts.bars("Times the processor time of plain C", [re.split(", (?:compared|with)", row[0])[0] for row in rows], series)


MADE = {
    EVIDENCE / "checks.md": page_of_checks,
    EVIDENCE / "wrong_bodies.md": page_of_wrong_bodies,
    EVIDENCE / "run.md": page_of_run,
    EVIDENCE / "operations.md": page_of_operations,
    EVIDENCE / "ways.md": page_of_ways,
    EVIDENCE / "edges.md": page_of_edges,
    EVIDENCE / "walks.md": page_of_walks,
    EVIDENCE / "measured.md": page_of_measurements,
    MEASURED / "gate.svg": chart_of_gate,
    MEASURED / "growth.svg": chart_of_growth,
    MEASURED / "library.svg": chart_of_library,
}


def write():
    for path, make in MADE.items():
        path.write_text(make(), encoding="utf-8")


def check():
    stale = [it for it, make in MADE.items() if not it.is_file() or it.read_text(encoding="utf-8") != make()]
    shown = {f"{it[0]}.csv" for it in table(MEASURED / "when.csv")} | {"when.csv"}
    lost = [it for it in MEASURED.glob("*.csv") if it.name not in shown]
    for path in stale:
        print(f"{path.relative_to(ROOT)} isn't what `checks/evidence.py --write` writes")
    for path in lost:
        print(f"{path.relative_to(ROOT)} is shown by no page")
    places = list(judged_places())
    astray = [it for it in places if it[1]]
    for sentence, why in astray:
        print(f"operations.csv: {sentence}: {why}")
    walks = judged_walks()
    strays = [it for it in walks if it.lacks]
    for walk in strays:
        print(f"walks.csv: {walk.question} {'; '.join(walk.lacks)}")
    failed = len(stale) + len(lost) + len(astray) + len(strays)
    print(f"{len(MADE) - len(stale) + len(places) - len(astray) + len(walks) - len(strays)} passed, {failed} failed")
    return 1 if failed else 0


def main():
    if sys.argv[1:] == ["--write"]:
        write()
    elif sys.argv[1:] == ["--check"]:
        return check()
    else:
        print(__doc__.split("\n\n")[1], file=sys.stderr)
        return 2
    return 0


if __name__ == "__main__":
    sys.exit(main())
