#!/usr/bin/env python3
"""The claims of docs/claims.csv: compares them with the sources, writes their page, and proves one again.

    checks/claims.py --check        compares the table, the documents and the sources
    checks/claims.py --write        writes docs/evidence/claims.md, which the table generates
    checks/claims.py P7 ..          prints these claims with their clauses as they stand in the source, and runs their commands
    checks/claims.py --show P7 ..   prints them, and runs nothing

A claim is named by its id, with its points, or by a crate. Its command proves one function with what that calls, in the crate's folder;
the crates below are proved first unless they have been. A definition has no command. `.ci/run` is the gate, and isn't run from here.

`--check` asks that

- each file that the table names is there, and has the functions, clauses and definitions that it names; a command proves one of them;
- each numbered promise of docs/PROMISES.md, and each line there on strangers and partners, names a claim. Each id that PROMISES, THEOREM and
  PROOF-MAP name is in the table; each claim P1, P2 and so on is named in one of them;
- each indented block of docs/THEOREM.md is a whole definition or clause of the file that is named last before it;
- docs/evidence/claims.md is what the table generates.

The last line is `N passed, M failed`: of `--check` in claims, promises, ids and quotations, else in commands.

Shows: each file, function, clause and definition that docs/claims.csv names exists, and each promise has its claim. docs/THEOREM.md quotes the
sources, and docs/evidence/claims.md is what the table generates
"""

import csv
import itertools
import re
import subprocess
import sys
from pathlib import Path

sys.path.insert(0, str(Path(__file__).resolve().parent / "lib"))

from crate_text import OPAQUE, body_of, end_of
from program import ROOT

CRATES = ROOT / "crates"
TABLE = ROOT / "docs/claims.csv"
PAGE = ROOT / "docs/evidence/claims.md"
PROMISES = ROOT / "docs/PROMISES.md"
THEOREM = ROOT / "docs/THEOREM.md"
PROOF_MAP = ROOT / "docs/PROOF-MAP.md"
COLUMNS = ["id", "sentence", "premise", "crate", "file", "clause", "command"]
GATE = ".ci/run"
PROVES = "rt check --only "
# An id: a promise, a call of the program, a definition, or a claim of a layer, each with its number. A promise may have points.
ID = re.compile(r"(?:P\d+(?:\.\d+)?|[CM]\d+|[a-z_]+\.\d+)")
NAMED_ID = re.compile(r"\[(P\d+(?:\.\d+)?|[CM]\d+|[a-z_]+\.\d+)\]")
CLAUSE = re.compile(r"\bensures\*?(?: (\w+))? \{")
QUOTED_FILE = re.compile(r"\b(oftp_\w+/(?:src|specs)/[\w/]+\.(?:rt|antt))")
SECTIONS = {"P": "Promises", "C": "Calls of the program", "M": "Definitions"}
HEAD = """# The claims

`checks/claims.py --write` makes this page of [claims.csv](../claims.csv); it isn't edited by hand.
[PROOF-MAP.md](../PROOF-MAP.md#how-to-read-a-claim) says how a claim is read, and proved again.
"""


def claims():
    with TABLE.open(encoding="utf-8", newline="") as file:
        return list(csv.DictReader(file))


def family(claim):
    """What an id belongs to: P7 for P7.1, and the crate for a claim of a layer."""
    return claim["id"].partition(".")[0]


def items(claim):
    """The names in a claim's column `clause`, each with its clauses."""
    for it in claim["clause"].split(";"):
        name, _, clauses = it.partition(":")
        if name.strip():
            yield name.strip(), [clause.strip() for clause in clauses.split(",") if clause.strip()]


def source_of(claim):
    return CRATES / claim["crate"] / claim["file"]


def blank(text):
    """A source without what isn't code, of the same length."""
    return OPAQUE.sub(lambda it: re.sub(r"[^\n]", " ", it.group()), text)


def heads(text, name):
    """The heads of the functions with a name, with their clauses and without their bodies: the place and the end of each."""
    code = blank(text)
    for found in re.finditer(rf"\bfn {name}\b", code):
        body = body_of(code, found.end())
        yield found.start(), body[0] if body else code.index(";\n", found.end())


def clauses_of(text, begin, end):
    """The clauses of a head: the name of each, or None, and its text."""
    code = blank(text)
    for found in CLAUSE.finditer(code, begin, end):
        yield found[1], text[found.start() : end_of(code, found.end() - 1) + 1]


def definitions(text):
    """The definitions of a file of specs/, each without the comment above it."""
    for part in re.split(r"\n\s*\n", text):
        lines = [line for line in part.splitlines() if not line.lstrip().startswith("--")]
        if lines:
            yield "\n".join(lines)


def definition_of(text, name):
    """The definition of a name, or None."""
    pattern = re.compile(rf"\s*(?:\w+ )*{re.escape(name)}(?!\w)")
    return next((it for it in definitions(text) if pattern.match(it)), None)


def plain(text):
    return " ".join(text.split())


def is_spec(claim):
    return claim["file"].startswith("specs/")


def is_definition(claim):
    return claim["id"].startswith("M")


def lost_in(claim):
    """What a claim names and isn't there."""
    if not ID.fullmatch(claim["id"]) or not claim["sentence"] or claim["sentence"][-1] != ".":
        yield "its id or its sentence"
    if not claim["file"]:
        if claim["command"] != GATE:
            yield "a command of no file, which isn't the gate"
        return
    path = source_of(claim)
    if not path.is_file():
        yield str(path.relative_to(ROOT))
        return
    text = path.read_text(encoding="utf-8")
    names = list(items(claim))
    if not names:
        yield "a function or a definition"
    yield from (lost_definitions if is_spec(claim) else lost_functions)(text, names)
    yield from lost_command(claim, names)


def lost_definitions(text, names):
    for name, _ in names:
        if definition_of(text, name) is None:
            yield f"the definition {name}"


def lost_functions(text, names):
    for name, wanted in names:
        places = list(heads(text, name))
        if not places:
            yield f"the function {name}"
        has = {clause for place in places for clause, _ in clauses_of(text, *place)}
        yield from (f"the clause {clause} of {name}" for clause in wanted if clause not in has)


def lost_command(claim, names):
    """A command proves a function that the claim names, or its module; a claim of definitions is one of its crate. A definition has none."""
    if is_spec(claim):
        if claim["command"] != ("" if is_definition(claim) else "rt check"):
            yield "its command"
        return
    module = claim["file"].removeprefix("src/").removesuffix(".rt").replace("/", "::")
    proved = claim["command"].removeprefix(PROVES)
    if proved == claim["command"] or not (proved == module or proved.rpartition("::")[2] in {name for name, _ in names}):
        yield "its command"


def promises(text):
    """The lines of docs/PROMISES.md that promise something: the numbered ones, and those on strangers and partners."""
    yield from re.findall(r"(?ms)^\d+\. .*?(?=^\d+\. |\n\n)", text)
    part = re.search(r"(?ms)^## What strangers.*?(?=^## |\Z)", text)
    yield from re.findall(r"(?ms)^- .*?(?=^- |\n\n|\Z)", part[0] if part else "")


def checked_documents(ids):
    """What the documents name of the table: a text for each, and whether it is so."""
    told = {path: path.read_text(encoding="utf-8") for path in (PROMISES, THEOREM, PROOF_MAP)}
    for line in promises(told[PROMISES]):
        yield f"{PROMISES.name}: a promise names its claim: {line[:50]}", NAMED_ID.search(line)
    named = set()
    for path, text in told.items():
        for name in NAMED_ID.findall(text):
            named.add(name.partition(".")[0])
            yield f"{path.name}: {name} is in the table", name in ids
    for name in ids:
        if re.fullmatch(r"P\d+", name):
            yield f"a document names {name}", name in named


def quotations():
    """Each indented block of docs/THEOREM.md that is no command: its text, and whether it is a whole definition or clause of its file."""
    text, file = THEOREM.read_text(encoding="utf-8"), None
    for part in re.split(r"\n\n+", text):
        if not part.startswith("    "):
            file = (QUOTED_FILE.findall(part) or [file])[-1]
        elif not part.startswith("    $ "):
            yield part, file, plain(part) in set(quotable(file))


def quotable(file):
    """What may be quoted of a file."""
    path = CRATES / (file or "")
    if not path.is_file():
        return
    text = path.read_text(encoding="utf-8")
    if path.suffix == ".antt":
        yield from map(plain, definitions(text))
    else:
        yield from (plain(it) for _, it in clauses_of(text, 0, len(text)))


def contract(claim):
    """Where a claim is in the source, as the page has it."""
    if not claim["file"]:
        return "each function's own contract"
    path = f"crates/{claim['crate']}/{claim['file']}"
    if is_spec(claim):
        return ", ".join(f"`{name}`" for name, _ in items(claim)) + f", {path}"
    named = []
    for name, clauses in items(claim):
        of = ", ".join(f"`{clause}`" for clause in clauses)
        named.append(f"{of} of `{name}`" if of else f"`{name}`")
    return "; ".join(named) + f", {path}"


def rendered(claim):
    kind = "Definition" if is_definition(claim) else "Contract"
    premise = f" *Premise*: {claim['premise']}." if claim["premise"] else ""
    return f"{claim['sentence']}{premise} *{kind}*: {contract(claim)}."


def section(claim):
    """The heading below which a claim stands on the page."""
    return SECTIONS.get(re.match(r"[PCM]?", claim["id"])[0], "Layers")


def listed(group):
    return "".join(f"- **{claim['id']}** {rendered(claim)}\n" for claim in group)


def part_of_page(heading, group):
    """What the page has of the claims below a heading: each promise with its points, each layer, or a list."""
    if heading == SECTIONS["P"]:
        for name, (first, *points) in grouped(group, family):
            yield f"### {name}\n\n{rendered(first)}\n" + (f"\n{listed(points)}" if points else "")
    elif heading == "Layers":
        for crate, its in grouped(group, lambda claim: claim["crate"]):
            yield f"### {crate}\n\n{listed(its)}"
    else:
        yield listed(group)


def grouped(table, key):
    return [(name, list(group)) for name, group in itertools.groupby(table, key)]


def page(table):
    """The text of docs/evidence/claims.md."""
    parts = [HEAD]
    for heading, group in grouped(table, section):
        parts += [f"## {heading}\n", *part_of_page(heading, group)]
    return "\n".join(parts)


def check():
    table = claims()
    ids = [claim["id"] for claim in table]
    results = [("the columns of the table", table and list(table[0]) == COLUMNS), ("each id once", len(ids) == len(set(ids)))]
    for claim in table:
        lost = list(lost_in(claim))
        results.append((f"{claim['id']}: {', '.join(lost)}", not lost))
    results += checked_documents(ids)
    quoted = list(quotations())
    results.append((f"{THEOREM.name} quotes the headline", any("LeavesPrefix" in text for text, _, _ in quoted)))
    results += [(f"{THEOREM.name}: what it quotes of {file} isn't there: {plain(text)[:60]}", found) for text, file, found in quoted]
    is_made = PAGE.is_file() and PAGE.read_text(encoding="utf-8") == page(table)
    results.append((f"{PAGE.relative_to(ROOT)} isn't what the table generates: checks/claims.py --write", is_made))
    for name, held in results:
        if not held:
            print(name)
    failed = sum(not held for _, held in results)
    print(f"{len(results) - failed} passed, {failed} failed")
    return 1 if failed else 0


def shown(claim):
    """A claim in words, and its clauses or definitions as they stand in the source."""
    yield f"{claim['id']}: {claim['sentence']}"
    if claim["premise"]:
        yield f"Premise: {claim['premise']}."
    if not claim["file"]:
        return
    path = source_of(claim)
    text = path.read_text(encoding="utf-8")
    for name, wanted in items(claim):
        if is_spec(claim):
            yield f"\n{path.relative_to(ROOT)}:\n{definition_of(text, name)}"
            continue
        for begin, end in heads(text, name):
            found = [it for clause, it in clauses_of(text, begin, end) if clause in wanted or not wanted]
            if found or not wanted:
                yield f"\n{path.relative_to(ROOT)}:{text.count(chr(10), 0, begin) + 1}: {name}"
                yield from (f"    {it}" for it in found or ["no clause of its own: that of its trait, or none"])
                yield from (word for it in found for word in words_of(text, it))


def words_of(text, clause):
    """The definition of a clause that is one word, as the file imports it."""
    word = re.fullmatch(r"ensures\*?(?: \w+)? \{ (\w+) \}", clause)
    imported = re.search(rf"ghost use Rattle\.(\w+)\.specs\.(\w+)\.\{{[^}}]*\b{word[1]}\b", text) if word else None
    path = CRATES / imported[1] / f"specs/{imported[2]}.antt" if imported else None
    if path and path.is_file():
        yield f"\n{path.relative_to(ROOT)}:\n{definition_of(path.read_text(encoding='utf-8'), word[1])}"


def asked(table, names):
    """The claims of these ids, with their points, and of these crates."""
    for name in names:
        found = [claim for claim in table if name in (claim["id"], family(claim), claim["crate"])]
        if not found:
            sys.exit(f"docs/claims.csv has no claim {name}")
        yield from found


def tell(names, runs):
    """Prints claims, and runs each of their commands once."""
    table = list(asked(claims(), names))
    for claim in table:
        print("\n".join(shown(claim)), end="\n\n")
    commands = dict.fromkeys((claim["crate"], claim["command"]) for claim in table if claim["command"])
    passed = failed = 0
    for crate, command in commands:
        if not crate:
            print(f"$ {command}\nthe gate over all crates, which isn't run from here")
            continue
        print(f"$ cd crates/{crate} && {command}", flush=True)
        if runs:
            done = subprocess.run(command.split(), cwd=CRATES / crate, check=False)
            passed += done.returncode == 0
            failed += done.returncode != 0
    if runs:
        print(f"{passed} passed, {failed} failed")
    return 1 if failed else 0


def main():
    words = sys.argv[1:]
    if words == ["--check"]:
        return check()
    if words == ["--write"]:
        PAGE.parent.mkdir(exist_ok=True)
        PAGE.write_text(page(claims()), encoding="utf-8")
        return 0
    names = [it for it in words if it != "--show"]
    if not names or any(it.startswith("-") for it in names):
        print(__doc__.split("\n\n")[1], file=sys.stderr)
        return 2
    return tell(names, "--show" not in words)


if __name__ == "__main__":
    sys.exit(main())
