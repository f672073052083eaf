"""Wrong bodies as edits: the text that each changes, its functions, and the refusal that it names.

checks/wrong_bodies/wrong_bodies.py tries them.
"""

import re

from crate_text import OPAQUE, body_of, end_of
from program import ROOT

REFUSED_BY = "refused by: "
TRIED_ON = "tried on: "


class Unfit(Exception):
    """An edit that can't be applied, with the reason."""


class Edit:
    """A wrong body: `lines` has each line that it changes, by file and number from 0, and `refused_by` the words that it names. `tried_on` has
    the functions that it is tried on if it changes none."""

    def __init__(self, path):
        self.path = path
        self.crate = self.crate_of(path)
        self.name = f"{self.crate}/{path.stem}"
        text = path.read_text(encoding="utf-8")
        self.refused_by, self.tried_on = words_of(text), words_of(text, TRIED_ON)
        self.lines = turned_lines(text, ROOT / "crates" / self.crate)

    @staticmethod
    def crate_of(path):
        return path.parent.parent.name if path.parent.name == "must-fail" else path.parent.name


def words_of(text, begin=REFUSED_BY):
    """The words after `refused by: `, or another beginning, none if there is no such line."""
    found = [line[len(begin) :] for line in text.splitlines() if line.startswith(begin)]
    return [it.strip() for it in ",".join(found).split(",") if it.strip()]


def pairs_of(text):
    """Each file of an edit, the text that it changes there, and the new text, as `rt must-fail` reads them."""
    path, old = None, None
    for line in text.splitlines():
        word, _, rest = line.partition(": ")
        if word == "file":
            path = rest.strip()
        elif word == "old":
            old = rest
        elif line.startswith("new:"):
            if not path or not old:
                raise Unfit("a line `new:` stands before any `file:` or `old:`")
            yield path, old, re.sub(r"\A ", "", line[len("new:") :])
            old = None


def turned_lines(text, folder):
    """The lines that an edit changes. A line in which only spaces change doesn't count: an edit has such a line if its text would occur
    twice."""
    were, now = {}, {}
    for path, old, new in pairs_of(text):
        if path not in now:
            if not (folder / path).is_file():
                raise Unfit(f"there is no file {path}")
            were[path] = now[path] = (folder / path).read_text(encoding="utf-8")
        if now[path].count(old) != 1:
            raise Unfit(f"a text that it turns stands in {path} {now[path].count(old)} times, and not once")
        now[path] = now[path].replace(old, new)
    turned = {}
    for path in now:
        both = zip(were[path].split("\n"), now[path].split("\n"))
        turned.update({(path, at): new for at, (old, new) in enumerate(both) if old.split() != new.split()})
    if not turned:
        raise Unfit("it turns nothing")
    return turned


def edits_of(crates):
    """The files of the edits of these crates, or of all."""
    found = [*ROOT.glob("crates/*/must-fail/*.edit"), *ROOT.glob("checks/wrong_bodies/*/*.edit")]
    return sorted((it for it in found if not crates or Edit.crate_of(it) in crates), key=lambda it: (Edit.crate_of(it), it.name))


def turned_texts(edits):
    """The texts of the files with all these edits of one crate."""
    folder = ROOT / "crates" / edits[0].crate
    texts = {path: (folder / path).read_text(encoding="utf-8").split("\n") for it in edits for path, _ in it.lines}
    for it in edits:
        for (path, at), line in it.lines.items():
            texts[path][at] = line
    return {path: "\n".join(lines) for path, lines in texts.items()}


class Function:
    """A function of a crate: its name as rattle prints it, its file, its lines, and the names of its clauses, empty for one without."""

    def __init__(self, name, path, text, begin, body):
        self.name, self.path = name, path
        self.first, self.last = text.count("\n", 0, begin), text.count("\n", 0, body[1])
        self.clauses = re.findall(r"\bensures\*?\s*(\w*)\s*\{", text[begin : body[0]])

    def has(self, path, line):
        return path == self.path and self.first <= line <= self.last


def plain(name, parameters=()):
    """A type or a trait as rattle prints it: the last part of its path, with its type arguments after it. Theirs follow, but for parameters."""
    name = re.sub(r"'\w+", "", name)
    name = re.sub(r"(?<=<)(.*)<(.*)>(?=>)", lambda it: it[1] + "".join(word for word in re.findall(r"\w+", it[2]) if word not in parameters), name)
    return re.sub(r"\W", "", re.sub(r"\w+::|\bmut\b|\bdyn\b", "", name))


def owner_of(kind, head):
    """The type of an impl, or the trait, and the name that rattle gives its methods. For an impl of a trait it is the type and then the trait;
    a parameter is `Any`."""
    head = re.sub(r"\bwhere\b.*", "", head, flags=re.S).strip()
    if kind == "trait":
        return (re.match(r"\w+", head).group(),) * 2
    end = end_of(head.translate(str.maketrans("<>", "{}")), 0) + 1 if head.startswith("<") else 0
    parameters = re.findall(r"[<,]\s*(\w+)", head[:end])
    trait, _, of = head[end:].rpartition(" for ")
    kind = plain(re.sub(r"<.*>", "", of))
    kind = "Any" if kind in parameters else kind
    return kind, kind + plain(trait, parameters)


def module_of(path, source):
    """The modules on the path of a file of src/."""
    return [it for it in path.relative_to(source).with_suffix("").parts if it not in ("lib", "main", "mod")]


def functions_of(crate):
    """The functions of a crate that have a body. rattle names one of an `impl TYPE` by the module of the type, wherever that impl is."""
    source = ROOT / "crates" / crate / "src"
    blank = lambda text: OPAQUE.sub(lambda it: re.sub(r"[^\n]", " ", it.group()), text)
    texts = {path: blank(path.read_text(encoding="utf-8")) for path in sorted(source.rglob("*.rt"))}
    homes = {it[1]: module_of(path, source) for path, text in texts.items() for it in re.finditer(r"\b(?:struct|enum)\s+(\w+)", text)}
    found = []
    for path, text in texts.items():
        owners = [(it.end(), end_of(text, it.end() - 1), *owner_of(it[1], it[2])) for it in re.finditer(r"\b(impl|trait)\b([^{;=]*)\{", text)]
        for head in re.finditer(r"\bfn\s+(\w+)\s*[(<]", text):
            body = body_of(text, head.end() - 1)
            inside = [(kind, name) for begin, end, kind, name in owners if begin < head.start() < end]
            module = module_of(path, source)
            if inside and inside[0][0] == inside[0][1]:
                module = homes.get(inside[0][0], module)
            if body:
                name = "::".join([crate, *module, *(it for _, it in inside), head[1]])
                found.append(Function(name, str(path.relative_to(source.parent)), text, head.start(), body))
    return found
