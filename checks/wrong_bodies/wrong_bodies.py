#!/usr/bin/env python3
"""Tries wrong bodies: edits in crates/CRATE/must-fail/ and in checks/wrong_bodies/CRATE/, each of which the prover must refuse.

    checks/wrong_bodies/wrong_bodies.py [--jobs N] [CRATE ..]
        tries those of these crates, or of all, and writes each crate whose edits were all refused into the ledger
    checks/wrong_bodies/wrong_bodies.py CRATE/NAME ..
        tries only these, and writes the crate into the ledger if that has it without them
    checks/wrong_bodies/wrong_bodies.py --record [CRATE ..]
        as the first; an edit that names no refusal gets the line of what refused it, which a person then reviews
    checks/wrong_bodies/wrong_bodies.py --fits
        reports whether each edit can be applied to the text that it changes, and whether what it says refuses it is there
    checks/wrong_bodies/wrong_bodies.py --ledger
        reports whether each crate with edits is what it was when all of them were refused
    checks/wrong_bodies/wrong_bodies.py [--jobs N] --stale
        tries all of each crate that isn't what the ledger says, N crates at once, and writes those whose edits were all refused into it
    checks/wrong_bodies/wrong_bodies.py --of-the-day
        tries some of one crate, another each day, whatever the ledger says

Many edits are tried in one check, over a copy of the crate and the proofs that its out/ kept. No two edits of a round change the same
function. rattle checks a function against the contracts of those that it calls. So its output distinguishes a function that fails by itself
from one that only calls such a function. An edit is refused if a function that it changes fails by itself. An edit that a round doesn't
decide is tried in a later one, and in the end alone. An edit that changes no function, but a definition or a constant, is tried alone, over
the whole crate. If it has a line `tried on: PATH, ..`, it is tried over these functions.

A line `refused by: WORD, ..` of an edit names what has to refuse it. It is compared with the goals that rattle reports as not proved in
that function: `returns-in-Err-clause-took` stands for the clause `took`. The words are

    the name of a clause   a goal of that clause
    ensures                a goal of clauses without a name, of a trait's contract, or of all clauses if the prover shows them as one fact
    invariant              the invariant of a type
    loop                   an invariant of a loop, which carries clauses through it
    safety                 any other demand: an overflow, an index, what a called function requires, a measure

For an edit that changes no function a word is `PATH.WORD`, as `packing::put_from.count`, for any function that fails by itself. Or it is the
name of a lemma or a theorem that does. Each word has to be among what refused the edit; others may be there too. An edit fails as NOT REFUSED
if the crate is proved with it, and as BAD EDIT if it can't be applied or doesn't compile. It also fails if nothing refuses it except that a
proof names what it removed, and if it names no refusal, or another.

The ledger, checks/wrong_bodies/ledger.txt, has a line for each crate with edits. It has the sum of its src/, specs/, proofs/ and edits when
all were refused, their number, and the day. A crate that has changed since, in more than its comments and where its imported names stand, has
to be tried again. The sum doesn't cover the crates below: a contract there can change what refuses an edit, and so can another toolchain.
That is why the trial of the day tries each crate again in turn. It takes some minutes: a crate whose edits take longer is tried in parts,
another each time. The last line is `N passed, M failed`.

Shows: every wrong body fits the text that it changes and names its refusal. All those of a crate were refused at the sources that it has now
"""

import datetime
import hashlib
import os
import re
import resource
import shutil
import subprocess
import sys
import tempfile
from concurrent.futures import ThreadPoolExecutor
from pathlib import Path

sys.path.insert(0, str(Path(__file__).resolve().parents[1] / "lib"))

from edits import REFUSED_BY, Edit, Unfit, edits_of, functions_of, turned_texts
from program import ROOT

LEDGER = ROOT / "checks" / "wrong_bodies" / "ledger.txt"
PARTS = ("src", "specs", "proofs")
# What a line of comment begins with, by the suffix of a file.
COMMENTS = {".rt": "//", ".antt": "--"}
# After this many processor seconds the trial of the day begins no other check. So many edits at most are in one of its checks.
DAY, PART = 300, 12
# What a proof reports if an edit removed a name that it cites, and what then depends on that proof.
TAKEN_AWAY = re.compile(r"has no field|is not in scope|has no `|was not admitted|that depend on `")

# What the prover reports of a text that it can't read, in src/ and specs/; another error there is of a fact that doesn't hold.
UNREADABLE = re.compile(r"is not in scope|has no field|is no name|operand is missing|expected the end|cannot continue")


def kit():
    """The toolchain's folder, which contains rt."""
    return Path(os.path.realpath(shutil.which("rt"))).parent.parent


def listed():
    """Each crate of crates.txt with the libraries that it depends on."""
    lines = [it for it in (ROOT / "crates.txt").read_text(encoding="utf-8").splitlines() if it and not it.startswith("#")]
    return {name: rest.split() for name, _, rest in (it.partition(":") for it in lines)}


def below(crate):
    """The crates of the repository that a crate depends on, in the order of crates.txt."""
    crates = listed()
    found, left = set(), [crate]
    while left:
        new = [it for it in crates[left.pop()] if it in crates and it not in found]
        found.update(new)
        left += new
    return [it for it in crates if it in found]


def build(crate):
    """Proves and builds a crate and the libraries below it as they are, if this wasn't done; without that a refusal means nothing. What `rt
    ci` left has no stamp, and is taken as it is."""
    rlibs = {it: ROOT / "crates" / it / "out" / "rlib" for it in (*below(crate), crate)}
    if all((at / f"{it}.rlib").is_dir() and not (at / "stamp").is_file() for it, at in rlibs.items()):
        return True
    return subprocess.run(["rt", "lib", "--jobs", "1"], cwd=ROOT / "crates" / crate, stdout=sys.stderr).returncode == 0


def words_of_check(crate):
    """The command of a check of the crate, as `rt must-fail` runs it."""
    crates, rlib = listed(), lambda it: ROOT / "crates" / it / "out" / "rlib"
    externs = {it: kit() / "rlibs" / f"{it}.rlib" for it in ("std", *crates[crate]) if it not in crates}
    externs.update({it: rlib(it) / f"{it}.rlib" for it in crates[crate] if it in crates})
    words = ["--crate-name", crate, "src/main.rt" if (ROOT / "crates" / crate / "src" / "main.rt").is_file() else "src/lib.rt"]
    for name, path in externs.items():
        words += ["--extern", f"{name}={path}"]
    for path in (kit() / "rlibs", *map(rlib, below(crate))):
        words += ["-L", f"dependency={path}"]
    return [*words, "--antt-project", f"{kit()}/rattle/logic/antt-project.json", "--logic-built", f"{kit()}/logic_built", "--links", f"{crate}="]


class Room:
    """A folder for the checks of one crate, with what its out/ kept; `jobs` is the number of jobs for each."""

    def __init__(self, crate, folder, jobs):
        self.crate, self.folder, self.jobs = crate, Path(folder), jobs
        self.functions = functions_of(crate)
        kept = ROOT / "crates" / crate / "out" / "incremental"
        if kept.is_dir():
            shutil.copytree(kept, self.folder / "incremental")

    def check(self, texts, only):
        """What rattle reports of the crate with these texts, of these functions or, without any, of all."""
        for part in PARTS:
            shutil.rmtree(self.folder / part, ignore_errors=True)
            if (ROOT / "crates" / self.crate / part).is_dir():
                shutil.copytree(ROOT / "crates" / self.crate / part, self.folder / part)
        for path, text in texts.items():
            (self.folder / path).write_text(text, encoding="utf-8")
        words = [kit() / "bin" / "rattle", "check", *words_of_check(self.crate), "--jobs", str(self.jobs), "--incremental", self.folder / "incremental"]
        for it in only:
            words += ["--only", it.name.partition("::")[2]]
        ran = subprocess.run(words, cwd=self.folder, stdin=subprocess.DEVNULL, stdout=subprocess.PIPE, stderr=subprocess.STDOUT, text=True, errors="replace")
        return ran.stdout

    def turned(self, edit):
        """The functions that an edit changes, or none if it changes something else too."""
        found = [next((it for it in self.functions if it.has(*at)), None) for at in edit.lines]
        return [] if None in found else list(dict.fromkeys(found))

    def named(self, edit):
        """The functions that an edit is tried on, none if it is tried over the whole crate."""
        return [it for it in self.functions if it.name.partition("::")[2] in edit.tried_on]


class Failures:
    """The report of a check. `goals` has for each function the goals that aren't proved, and `taken` those that fail for a name that an edit
    removed."""

    def __init__(self, said, room):
        self.goals, self.taken, self.lemmas, self.unread = {}, {}, [], []
        self.said, self.functions, self.folder = said, room.functions, room.folder
        self.is_judged = bool(re.search(r"^(?:only=|logic=(?:not-)?proved)", said, re.M))
        self.is_proved = bool(re.search(r"^(?:only=(\d+) proved=\1$|logic=proved)", said, re.M))
        for line in said.splitlines():
            self.read(line)

    def first(self):
        """The first line with an error, shortened."""
        lines = self.said.splitlines()
        return next((it for it in lines if ": error" in it), next((it for it in lines if re.match(r"fn .*: no", it)), lines[-1] if lines else ""))[:300]

    def read(self, line):
        """Reads one line."""
        fault = re.match(r"(?:\./)?(\S+?):(\d+):\d+: error(\[[\w-]+\])?: (?:`([^`]*)`: )?(.*)", line)
        open_goal = re.match(r"note: (src/\S+?):(\d+):\d+: it is not proved that .*?\(`([^`]*)`\)", line)
        joint = re.match(r"note: `([^`]*)` of (proofs/\S+) must prove: record \{(.*)", line)
        unproved = re.match(r"fn (\S+): no.*`search` did not prove (`[^;]*)", line)
        if fault and fault[1].startswith("proofs/"):
            self.of_proof(fault[1], fault[4], fault[5])
        elif fault and fault[4] and not fault[3] and not UNREADABLE.search(fault[5]):
            self.lemmas.append(fault[4])
        elif fault:
            self.unread.append((fault[1], int(fault[2]) - 1))
        elif open_goal:
            for it in self.functions:
                if it.has(open_goal[1], int(open_goal[2]) - 1):
                    self.goals.setdefault(it.name, []).append(open_goal[3])
        elif unproved:
            self.goals.setdefault(unproved[1], []).extend(re.findall(r"`([^`]*)`", unproved[2]))
        elif joint:
            self.part(self.owner(joint[2]), joint[1], joint[3])

    def part(self, owner, goal, text):
        """Reads the text of a goal that has several clauses: it fails by those that are shown false or, if none is, by each."""
        function = next((it for it in self.functions if it.name == owner), None)
        found = re.findall(r"(?:^|; )(\w+) : ⊥", text) or re.findall(r"(?:^|; )(\w+) : ", text)
        clauses = [it for it in found if function and it in function.clauses]
        if clauses and goal in self.goals.get(owner, []):
            kept = [it for it in self.goals[owner] if it != goal]
            self.goals[owner] = kept + [f"{goal}-clause-{it}" for it in clauses]

    def of_proof(self, path, name, text):
        """Reads an error of a proof: of a function's answers, or of a lemma."""
        owner = self.owner(path)
        cited = re.match(r"\d+ declarations? that .*: (.*)", text)
        names = cited[1].split(", ") if cited else [name]
        if not owner:
            self.lemmas += [it for it in names if it and not cited]
        elif TAKEN_AWAY.search(text) and not cited:
            self.taken.setdefault(owner, []).extend(names)
        else:
            goals = re.findall(r"(?m)^(?:abbrev )?pub (\S+) : goal\.", (self.folder / path).read_text(encoding="utf-8"))
            self.goals.setdefault(owner, []).extend(it for it in names if it in goals)

    def owner(self, path):
        """The function whose answers a file has, or None."""
        parts = path.split("/")
        return next((it.name for it in self.functions if it.name.split("::")[1:] == parts[1:-1]), None)


def word_of(goal, function):
    """The word for a goal of a function."""
    if re.search(r"-requires\b", goal):
        return "safety"
    if "-clause-" in goal:
        return re.sub(r"-\d+$", "", goal.rpartition("-clause-")[2])
    if goal.startswith("returns"):
        return function.clauses[0] if len(function.clauses) == 1 and function.clauses[0] else "ensures"
    if re.search(r"-(preserved|init)\b", goal):
        return "loop"
    return "invariant" if goal.startswith("invariant_of-") else "safety"


def words_of(goals, function):
    """The words of a function's goals, the clauses first."""
    words = list(dict.fromkeys(word_of(it, function) for it in goals))
    return sorted(words, key=lambda it: it in ("loop", "invariant", "safety"))


def words_of_all(failures):
    """The words of all functions that fail by themselves, and the lemmas that do."""
    named = {it.name: it for it in failures.functions}
    words = [f"{name.partition('::')[2]}.{it}" for name, goals in failures.goals.items() if name in named for it in words_of(goals, named[name])]
    return list(dict.fromkeys([*words, *failures.lemmas]))


def verdict(edit, turned, failures):
    """What refuses an edit in a check that was decided, in words, none if nothing does. Also whether that is only for a name that it
    removed."""
    if not turned:
        return words_of_all(failures), False
    words = [word for it in turned for word in words_of(failures.goals.get(it.name, []), it)]
    return words, not words and any(it.name in failures.taken for it in turned)


def in_rounds(edits, room):
    """The edits in rounds, in which no two change one function; one that changes none has a round of its own."""
    rounds, alone = [], []
    for edit in edits:
        mine = {it.name for it in room.turned(edit)}
        fit = next((it for it in rounds if not it[0] & mine), None)
        if not mine:
            alone.append([edit])
        elif fit:
            fit[0].update(mine)
            fit[1].append(edit)
        else:
            rounds.append((mine, [edit]))
    return [*(it for _, it in rounds), *alone]


def processor():
    """The processor seconds that the checks took so far."""
    used = resource.getrusage(resource.RUSAGE_CHILDREN)
    return used.ru_utime + used.ru_stime


def tell(text):
    """Prints the progress of the trial to standard error."""
    print(text, file=sys.stderr, flush=True)


def try_round(edits, room):
    """Tries edits together: what refuses each that is decided, and the others, first those whose own lines can't be read."""
    only = dict.fromkeys(it for edit in edits for it in room.turned(edit) or room.named(edit))
    failures = Failures(room.check(turned_texts(edits), only), room)
    blamed = [it for it in edits if any(at in it.lines for at in failures.unread)]
    if blamed or not failures.is_judged:
        return {}, blamed, [it for it in edits if it not in blamed], failures
    found = {it: verdict(it, room.turned(it), failures) for it in edits}
    refused = {it: words for it, (words, _) in found.items() if words}
    tell(f"{room.crate}: a check of {len(edits)} edits, of which it refuses {len(refused)}; {processor():.0f} s of a processor so far")
    return refused, [], [it for it in edits if it not in refused], failures


def try_alone(edit, room):
    """Tries an edit alone: what refuses it, or why it fails."""
    refused, _, _, failures = try_round([edit], room)
    if edit in refused:
        return refused[edit], None
    if failures.unread or not failures.is_judged:
        return [], f"BAD EDIT: the prover can't read it: {failures.first()}"
    if verdict(edit, room.turned(edit), failures)[1]:
        return [], "refused only because a proof names what it took away: turn a value, and keep the names"
    return [], "NOT REFUSED: what it turns is proved with it" if failures.is_proved else f"NOT REFUSED by what it turns: {failures.first()}"


def try_rounds(left, room, most):
    """Tries the edits of these rounds, and begins no other check after `most` processor seconds. It returns what refuses each edit that was
    tried, or why it fails, and how many checks that took."""
    found, checks, end = {}, 0, processor() + most
    while left and processor() < end:
        tried = left.pop(0)
        checks += 1
        if len(tried) == 1:
            found[tried[0]] = try_alone(tried[0], room)
            continue
        refused, blamed, others, _ = try_round(tried, room)
        found.update({it: (words, None) for it, words in refused.items()})
        alone = [[it] for it in blamed]
        if blamed and others:
            left.append(others)
        elif others and not refused:
            left += [others[: len(others) // 2], others[len(others) // 2 :]]
        else:
            alone += [[it] for it in others]
        left += alone
    return found, checks


def compared(edit, words, why):
    """Why an edit fails, or None: what it names has to be among what refused it."""
    if why:
        return why
    if not edit.refused_by:
        return f"it names no refusal, and this refuses it: {', '.join(words)}"
    lost = [it for it in edit.refused_by if it not in words]
    return f"refused by {', '.join(words)}, and not by {', '.join(lost)}" if lost else None


def record(edit, words):
    """Writes what refused an edit into one that names nothing: its clauses, or the other demand if no clause refused it."""
    clauses = [it for it in words if it.rpartition(".")[2] not in ("loop", "invariant", "safety")] or words[:1]
    if words and not edit.refused_by:
        text = edit.path.read_text(encoding="utf-8")
        edit.path.write_text(f"{text.rstrip()}\n{REFUSED_BY}{', '.join(clauses)}\n", encoding="utf-8")
        edit.refused_by = clauses


def of_the_day(rounds):
    """The rounds of the crate of the day in parts, each of which comes first in turn. A round of a large crate takes half an hour."""
    parts = [it[at : at + PART] for it in rounds for at in range(0, len(it), PART)]
    at = today().toordinal() // len(crates_with_edits()) % len(parts)
    return parts[at:] + parts[:at]


def try_crate(crate, jobs, is_recording=False, named=(), is_of_the_day=False):
    """Tries the edits of a crate, those that are named or all or, of the day, as many as there is time for. It returns how many were tried
    and how many fail. It also prints their cost."""
    edits, lost = read_all([crate])
    edits = [it for it in edits if not named or it.name in named]
    if not build(crate):
        print(f"{crate} isn't proved as it is, so none of its edits was tried")
        return len(edits) + lost, len(edits) + lost
    before = processor()
    with tempfile.TemporaryDirectory(prefix="wrong-bodies-") as folder:
        room = Room(crate, folder, jobs)
        rounds = in_rounds(edits, room)
        found, checks = try_rounds(of_the_day(rounds), room, DAY) if is_of_the_day else try_rounds(rounds, room, float("inf"))
    failed = lost
    for edit in sorted(found, key=edits.index):
        words, why = found[edit]
        if is_recording:
            record(edit, words)
        why = compared(edit, words, why)
        print(f"{edit.name}: {why or 'refused by ' + ', '.join(words)}", flush=True)
        failed += bool(why)
    print(f"{crate}: {len(found)} of {len(edits)} edits in {checks} checks, {processor() - before:.0f} s of a processor", flush=True)
    return len(found) + lost, failed


def read_all(crates):
    """The edits of these crates, or of all, and how many can't be applied, each of which it reports."""
    edits, lost = [], 0
    for path in edits_of(crates):
        try:
            edits.append(Edit(path))
        except Unfit as why:
            print(f"{path.relative_to(ROOT)}: BAD EDIT: {why}")
            lost += 1
    return edits, lost


def names_of(crate):
    """Each name that the texts of a crate and of those below it have. With them are the words that name no clause and the clause of
    `Display`."""
    parts = [ROOT / "crates" / it / part for it in (*below(crate), crate) for part in PARTS]
    texts = [it.read_text(encoding="utf-8") for part in parts for it in part.rglob("*") if it.is_file()]
    return set(re.findall(r"[\w'-]+", "\n".join(texts))) | {"ensures", "invariant", "loop", "safety", "writes"}


def unknown_words(edits):
    """How many edits name a refusal by a name that their crate doesn't have, each of which it reports."""
    found = 0
    for crate in sorted({it.crate for it in edits}):
        names = names_of(crate)
        for edit in (it for it in edits if it.crate == crate):
            lost = [it for it in [*edit.refused_by, *edit.tried_on] if not set(re.split(r"::|\.", it.removesuffix("-value"))) <= names]
            if lost:
                print(f"{edit.name}: BAD EDIT: it names {', '.join(lost)}, and the crate has no such name")
            found += bool(lost)
    return found


def lemmas_of(crate):
    """The names that the proofs of a crate declare."""
    texts = (it.read_text(encoding="utf-8") for it in (ROOT / "crates" / crate / "proofs").rglob("*.antt"))
    return {name for text in texts for name in re.findall(r"^ *(?:pub )?([\w'-]+) :", text, re.M)}


def pathless_words(edits):
    """How many edits turn definitions alone and name a refusal that is neither a clause with its path nor a lemma. It reports each of
    them."""
    found = 0
    for edit in (it for it in edits if all(str(file).startswith("specs/") for file, _ in it.lines)):
        lost = [it for it in edit.refused_by if "." not in it and it not in lemmas_of(edit.crate)]
        if lost:
            print(f"{edit.name}: BAD EDIT: it turns no function, and {', '.join(lost)} is neither PATH.WORD nor the name of a lemma")
        found += bool(lost)
    return found


def fit():
    """Reports edits that can't be applied, and those that name what isn't there or without the path that a definition wants. It reports those
    that name no refusal, without which none passes."""
    edits, lost = read_all([])
    unnamed = [it for it in edits if not it.refused_by]
    for crate in sorted({it.crate for it in unnamed}):
        print(f"{crate}: {sum(it.crate == crate for it in unnamed)} edits name no refusal: checks/wrong_bodies/wrong_bodies.py --record {crate} finds it")
    return len(edits) + lost, lost + unknown_words(edits) + pathless_words(edits)


# An import of Rattle, up to its semicolon, and one of antt, in one line. What is exported counts as it is written.
IMPORTS = {
    ".rt": re.compile(r"^[ \t]*(?:ghost )?use ([^;]+);\n", re.M),
    ".antt": re.compile(r"^use (.+)\n", re.M),
}


def brought(path):
    """The names that an import brings, whatever crate and module has them."""
    front, _, group = path.partition("{")
    words = group.rstrip("} \n").split(",") if group else [re.split(r"::|\.", path)[-1]]
    own = re.split(r"::|\.", front.rstrip(":."))[-1]
    return [" ".join(it.split()).replace("self", own) for it in words if it.strip()]


def code_of(path):
    """A file without what changes no body: its lines of comment, which the prover doesn't read, and where its imported names stand. The names
    themselves count."""
    mark, imports = COMMENTS.get(path.suffix), IMPORTS.get(path.suffix)
    lines = path.read_text(encoding="utf-8", errors="surrogateescape").splitlines(keepends=True)
    text = "".join(it for it in lines if not mark or not it.lstrip().startswith(mark))
    names = sorted({it for path in imports.findall(text) for it in brought(path)}) if imports else []
    rest = imports.sub("", text) if imports else text
    return "\n".join([*names, rest]).encode(errors="surrogateescape")


def sum_of(crate, without=()):
    """The sum of a crate's sources and of its edits, wherever they are, without the edits of these names. Comments don't count, nor where
    imported names stand."""
    folder = ROOT / "crates" / crate
    files = {str(it.relative_to(folder)): it for part in PARTS for it in (folder / part).rglob("*") if it.is_file()}
    files.update({it.name: it for it in edits_of([crate]) if it.stem not in without})
    total = hashlib.sha256()
    for name in sorted(files):
        total.update(f"{name} {hashlib.sha256(code_of(files[name])).hexdigest()}\n".encode())
    return total.hexdigest()


def lines_of_ledger():
    """The lines of the ledger, by crate: the number of edits, the day and the sum."""
    lines = LEDGER.read_text(encoding="utf-8").splitlines() if LEDGER.is_file() else []
    return {it.split()[0]: it.split()[1:] for it in lines}


def today():
    """The day in UTC."""
    return datetime.datetime.now(datetime.timezone.utc).date()


def write_line(crate):
    """Writes into the ledger that all edits of a crate were refused."""
    lines = lines_of_ledger()
    lines[crate] = [str(len(edits_of([crate]))), today().isoformat(), sum_of(crate)]
    LEDGER.write_text("".join(f"{' '.join([it, *lines[it]])}\n" for it in sorted(lines)), encoding="utf-8")


def is_new_alone(crate, names):
    """Whether the ledger has the crate as it is without the edits of these names, so that no other has to be tried."""
    stems = {it.partition("/")[2] for it in names}
    return lines_of_ledger().get(crate, [])[::2] == [str(len(edits_of([crate])) - len(stems)), sum_of(crate, stems)]


def crates_with_edits():
    """The crates with edits."""
    return sorted({Edit.crate_of(it) for it in edits_of([])})


def stale():
    """The crates that differ from the ledger."""
    lines = lines_of_ledger()
    return [it for it in crates_with_edits() if lines.get(it, [])[::2] != [str(len(edits_of([it]))), sum_of(it)]]


def held_to_ledger():
    """Reports the crates that differ from the ledger."""
    crates, lost = crates_with_edits(), stale()
    for it in lost:
        print(f"{it} changed since all its wrong bodies were refused, or never were: run checks/wrong_bodies/wrong_bodies.py {it}")
    gone = sorted({*lines_of_ledger()} - {*crates})
    for it in gone:
        print(f"{it} stands in the ledger and has no edits")
    return len(crates) + len(gone), len(lost) + len(gone)


def try_stale(jobs):
    """Tries the edits of each crate that differs from the ledger, as many crates at once as there are jobs. It writes those into it of which
    all were refused."""
    crates = stale()
    with ThreadPoolExecutor(jobs) as pool:
        tried = list(pool.map(lambda crate: try_crate(crate, 1), crates))
    for crate, (_, failed) in zip(crates, tried):
        if not failed:
            write_line(crate)
    return tried


def crate_of_the_day():
    """The crate of the day, whatever the ledger says."""
    crates = crates_with_edits()
    return crates[today().toordinal() % len(crates)]


def try_and_write(named, jobs, is_recording):
    """Tries the edits that are named, by crate or one by one, or all. It writes each crate of which all were tried and refused into the
    ledger."""
    tried = []
    for crate in dict.fromkeys(it.partition("/")[0] for it in named or crates_with_edits()):
        some = [it for it in named if it.startswith(f"{crate}/")]
        tried.append(try_crate(crate, jobs, is_recording, some))
        if not tried[-1][1] and (not some or is_new_alone(crate, some)):
            write_line(crate)
    return tried


# The words that begin with two dashes. Any other prints what is above.
OPTIONS = {"--jobs", "--record", "--fits", "--ledger", "--stale", "--of-the-day"}


def main(words):
    if {it for it in words if it.startswith("-")} - OPTIONS:
        print(__doc__, file=sys.stderr)
        return 2
    jobs = int(words.pop(words.index("--jobs") + 1)) if "--jobs" in words else 1
    named = [it for it in words if not it.startswith("--")]
    if "--fits" in words or "--ledger" in words:
        tried = [call() for word, call in (("--fits", fit), ("--ledger", held_to_ledger)) if word in words]
    elif "--stale" in words:
        tried = try_stale(jobs) or [(1, 0)]  # the ledger, if it has them all
    elif "--of-the-day" in words:
        tried = [try_crate(crate_of_the_day(), jobs, is_of_the_day=True)]
    else:
        tried = try_and_write(named, jobs, "--record" in words)
    failed = sum(it for _, it in tried)
    print(f"{sum(it for it, _ in tried) - failed} passed, {failed} failed")
    return 1 if failed or not any(it for it, _ in tried) else 0


if __name__ == "__main__":
    sys.exit(main(sys.argv[1:]))
