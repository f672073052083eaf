#!/usr/bin/env python3
"""Checks that what the documents name is in the tree: links, files, crates, functions, clauses and definitions, wrong bodies, and cases.

    checks/lint/named.py

- Each relative link leads to a file, and to a heading of it if it names one.
- Each path below crates/, checks/, rows/, examples/ and docs/ exists, also if `crates/` is left out before a crate's folder. So does each
  source or script that is named without its folder. Words in capitals are placeholders in a path, and `*` is anything.
- Each word `oftp_..` is a crate, the program, or a metric that it tells.
- In a table with a column `File` and a column `Function`, the file of each line has that function. With commas between several, it has each of
  them. Names that are followed by a file, in brackets or after a comma, occur in it.
- Each name in code type with an underscore, `::` or a capital letter occurs in a file that isn't a document.
- `CLAUSE of FUNCTION` is a clause of a function with that name, and `clause CLAUSE` one of any function.
- Each wrong body with its crate is an edit of it, and of must-fail/ where the gate tries it. The last cell of its line names a clause that
  the edit names. Each case in a column `Shown by` is one of checks/scenarios/resident.py.

It prints each name that leads nowhere, and `N passed, M failed`, in names.

Shows: each link, file, crate, function, clause, definition, wrong body and case that the documents name exists. What refuses a wrong body is
what its edit says
"""

import re
import subprocess
import sys
from pathlib import Path

sys.path.insert(0, str(Path(__file__).resolve().parents[1] / "lib"))

from program import ROOT

LINK = re.compile(r"\]\(([^)\s]+)\)")
PATH = re.compile(r"(?<![\w./-])((?:crates|checks|rows|examples|docs|oftp_\w+)/[\w*./@-]*[\w*/])")
CRATE = re.compile(r"(?<![\w./-])(oftp_[a-z_]+)(?![\w/.])")
STANDS_FOR = re.compile(r"\b[A-Z]{2,}\b|\*")
# What is built, or lies on another machine, and isn't in the tree.
MADE = re.compile(r"/out(/|$)|^oftp_station\.|/NAME|\.part$")
PROGRAMS = {"oftp_station"}
# What the program writes.
WRITTEN = {"verify.sh"}
# Documents that also name what was weighed and isn't there.
WEIGHED = {"DECISIONS.md"}
FILE = re.compile(r"(?<![\w./@*-])([A-Za-z][\w/.-]*\.(?:rt|antt|py|sh|c|edit|row|lines|rattle|html))(?!\w)")
WORDS = r"`[\w:]+`(?:(?:, and|,| and| or)\s+`[\w:]+`)*"
NAMES_IN = re.compile(rf"({WORDS})(?:,\s+|\s+\()((?:crates/|oftp_\w+/)?(?:src|specs)/[\w/]+\.(?:rt|antt))")
CLAUSES_OF = re.compile(rf"({WORDS})\s+of\s+`([\w:]+)`(?:,\s+of\s+`([\w:]+)`)?")
CLAUSES = re.compile(rf"\bclauses?\s+({WORDS})")
CODE = re.compile(r"`([A-Za-z_]\w*(?:::\w+)*)(?:\(\))?`")
EDIT = re.compile(r"\b(\w+_\w+) \((oftp_\w+)(, gate)?\)")
CASE = re.compile(r"(?<![\w`/.])([a-z]+(?:_[a-z]+)+)(?![\w`/.])")


def tracked(*patterns):
    """The files of the tree, as git has them."""
    listed = subprocess.run(["git", "ls-files", "-co", "--exclude-standard", *patterns], cwd=ROOT, capture_output=True, text=True, check=True)
    return [ROOT / name for name in listed.stdout.splitlines() if (ROOT / name).is_file()]


class Tree:
    """The files that aren't documents: their paths, the names that occur in each and in all, and the clauses of functions."""

    def __init__(self):
        files = [it for it in tracked() if it.suffix != ".md"]
        texts = {f"/{it.relative_to(ROOT)}": it.read_text(encoding="utf-8", errors="replace") for it in files}
        self.words = {path: set(re.findall(r"\w+", text)) for path, text in texts.items()}
        self.all_words = set().union(*self.words.values(), (it.stem for it in files))
        self.clauses = {}
        for path, text in texts.items():
            if path.endswith(".rt"):
                self.read_clauses(text)

    def read_clauses(self, text):
        _, *functions = re.split(r"\bfn (?=\w)", text)
        for function in functions:
            name = re.match(r"\w+", function)[0]
            self.clauses.setdefault(name, set()).update(re.findall(r"\bensures\*? (\w+) \{", function))

    def files_of(self, name):
        """The files whose paths end in this one, in which capitals are placeholders."""
        pattern = "[^/]*".join(re.escape(it) for it in re.split(r"[A-Z]{2,}(?![a-z])", name))
        return [it for it in self.words if re.search(rf"/{pattern}$", it)]


def anchors_of(path):
    """The anchors that a viewer gives to the headings of a document."""
    heads = re.findall(r"^#+ (.*)$", path.read_text(encoding="utf-8"), re.M)
    return {re.sub(r"[^\w\- ]", "", head.lower()).replace(" ", "-") for head in heads}


def lost_links(path, text):
    for target in LINK.findall(text):
        if "://" in target:
            continue
        name, _, anchor = target.partition("#")
        file = (path.parent / name).resolve() if name else path
        yield target, file.exists() and (not anchor or anchor in anchors_of(file))


def is_there(name):
    """Whether a path that a document names is in the tree."""
    if MADE.search(name):
        return True
    name = f"crates/{name}" if name.startswith("oftp_") else name
    return any(ROOT.glob(STANDS_FOR.sub("*", name).rstrip("/")))


def lost_paths(text):
    for name in PATH.findall(text):
        yield name, is_there(name)


def lost_crates(text):
    told = (ROOT / "crates/oftp_status/src/prometheus.rt").read_text(encoding="utf-8")
    crates = {it.name for it in (ROOT / "crates").iterdir()} | PROGRAMS | set(re.findall(r"# TYPE (oftp_\w+)", told))
    for name in CRATE.findall(text):
        yield name, name in crates or name.endswith("_")


def cells(line):
    return [it.strip().strip("`") for it in line.strip().strip("|").split("|")]


def lost_functions(text):
    """The functions of tables with a column `File` and a column `Function`."""
    columns = None
    for line in text.splitlines():
        if not line.startswith("|"):
            columns = None
        elif "File" in cells(line) and "Function" in cells(line):
            columns = cells(line).index("File"), cells(line).index("Function")
        elif columns and not set(line) <= set("|- "):
            file, functions = (cells(line)[it] for it in columns)
            source = ROOT / "crates" / file
            code = source.read_text(encoding="utf-8") if source.is_file() else ""
            for function in re.findall(r"\w+", functions):
                yield f"{file}: {function}", re.search(rf"\bfn {function}\b", code)


def named(text):
    """The names in code type, one after another, without their types."""
    return [it.rpartition("::")[2] for it in re.findall(r"`([\w:]+)`", text)]


def lost_names(tree, text):
    """Files, and names in code type: anywhere, and in the file that follows them."""
    for name in FILE.findall(text):
        yield name, name in WRITTEN or tree.files_of(name)
    for names, file in NAMES_IN.findall(text):
        for name in named(names):
            yield f"{name} in {file}", any(name in tree.words[it] for it in tree.files_of(file))
    for name in CODE.findall(re.sub(r"(?m)^    .*$", "", text)):
        if re.search(r"_|::|[A-Z].*[a-z]", name):
            yield name, name.isupper() or all(it in tree.all_words for it in name.split("::"))


def lost_clauses(tree, text):
    every = set().union(*tree.clauses.values())
    for names, *functions in CLAUSES_OF.findall(text):
        for function in named(" ".join(f"`{it}`" for it in functions if it)):
            if function in tree.clauses:
                for name in named(names):
                    yield f"{name} of {function}", name in tree.clauses[function]
    for names in CLAUSES.findall(text):
        for name in named(names):
            yield f"the clause {name}", name in every


def refusals(path):
    """The clauses of which one has to refuse a wrong body, as a document spells them."""
    found = re.search(r"(?m)^refused by: (.*)$", path.read_text(encoding="utf-8"))
    for clause in found[1].split(", ") if found else ():
        yield {"ensures": "clause|contract", "loop": "loop"}.get(clause, f"`{clause.rpartition('.')[2]}`")


def lost_wrong_bodies(text):
    """The wrong bodies of a table whose last column says what refuses them."""
    for line in text.splitlines():
        for name, crate, gate in EDIT.findall(line):
            path = ROOT / (f"crates/{crate}/must-fail" if gate else f"checks/wrong_bodies/{crate}") / f"{name}.edit"
            yield f"{name} of {crate}", path.exists()
            refused = line.rstrip(" |").rpartition("|")[2]
            if path.exists():
                yield f"what refuses {name}", any(re.search(it, refused) for it in refusals(path))


def lost_cases(text):
    """The cases of tables with a column `Shown by`, without what is in code type or a path."""
    code = (ROOT / "checks/scenarios/resident.py").read_text(encoding="utf-8")
    is_within = False
    for line in text.splitlines():
        is_within = line.startswith("|") and (is_within or cells(line)[-1] == "Shown by")
        for name in CASE.findall(cells(line)[-1]) if is_within else ():
            yield f"the case {name}", name.startswith("oftp_") or re.search(rf"^def {name}\(", code, re.M)


def main():
    passed, failed = 0, 0
    tree = Tree()
    for path in tracked("*.md"):
        text = path.read_text(encoding="utf-8")
        names = [*lost_links(path, text), *lost_paths(text), *lost_crates(text), *lost_functions(text), *lost_names(tree, text)]
        names += [*lost_wrong_bodies(text), *lost_cases(text)]
        if path.name not in WEIGHED:
            names += lost_clauses(tree, text)
        for name, found in names:
            passed += bool(found)
            failed += not found
            if not found:
                print(f"{path.relative_to(ROOT)}: {name} leads nowhere")
    print(f"{passed} passed, {failed} failed")
    return 1 if failed or not passed else 0


if __name__ == "__main__":
    sys.exit(main())
