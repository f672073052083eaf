#!/usr/bin/env python3
"""Tries examples/service/oftp-process: what becomes of a file by the exit status of the program that gets it, and what the program gets.

    checks/scenarios/processing.py [WORD ..]       all cases, or those whose names have one of these words

Each case has a database, a folder and a program of its own, and all run at once, so it takes some fifteen seconds. The last line is
`N passed, M failed`.

Shows: `oftp-process`: a file by each exit status of the program that gets it, alone and beside a station. It comes with files of another partner
and answered ones. The text of a refusal, cut, without controls and in UTF-8; names and codes with slashes. A file that the program moves or
changes; a station that isn't reached once the program has said something. A verdict on a file that an operator has answered before or meanwhile,
and what is no verdict. Two at once; a program that outlives the script; bad words, and a book, a partner or a program that isn't there
"""

import subprocess
import sys
import tempfile
import time
from concurrent.futures import ThreadPoolExecutor
from pathlib import Path

sys.path.insert(0, str(Path(__file__).resolve().parents[1] / "lib"))

from processing import SCRIPT, SITE, Site
from program import PROGRAM
from services import BOOK, CARMAKER, LONG, Resident, Wrong, expect

OTHER = "O0099OTHER"
GOOD, BAD, LATER = (("GOOD.1", CARMAKER, b"A" * 2500), ("BAD.1", CARMAKER, b"B" * 10), ("LATER.1", CARMAKER, b"C" * 1024))
ELSEWHERE = ("GOOD.2", OTHER, b"D" * 10)
RELEASED = ("EERP", "", "")
REFUSED = ("NERP", "34", f"BAD.1 from {CARMAKER} is bad")
# A program that refuses each file with the file's own content as its output.
SAYS = '#!/bin/sh\ncat "$2"\nexit 10\n'
# A program that works until there is a file `end`, and says meanwhile that it does. Where the check fails, it ends in its time.
WORKS = f"""#!/bin/sh
echo "$OFTP_NO" >> "$1/notes"
touch "$1/begun"
tries=0
until [ -e "$1/end" ] || [ $((tries += 1)) -gt {20 * LONG // 2} ]; do sleep 0.05; done
"""
# The texts of refusals, by what a program prints.
TEXTS = {
    b"first\nlast": "last",
    b"last\n\n \n": "last",
    b"": "",
    b"\n": "",
    b"a\tb\x1b[1mc\x7f\r\n": "ab[1mc",
    b"--db is no option\n": "--db is no option",
    "Auftrag für Müller\n".encode(): "Auftrag für Müller",
    b"caf\xe9 au lait\n": "caf au lait",
    b"x" * 1500 + b"\n": "x" * 999,
    ("ü" * 700).encode(): "ü" * 499,
    ("x" + "€" * 400).encode(): "x" + "€" * 332,
}


def each_status(room, beside=None):
    """Status 0 releases a file, 10 refuses it, and another leaves it; nobody gets a file of another partner, or one that is answered."""
    site = beside or Site(room, [GOOD, BAD, LATER, ELSEWHERE, ("GOOD.3", CARMAKER, b"E")])
    expect(site.operate("release", "5"), "done: release 5\n", "a release by hand")
    status, out, err = site.process()
    expect(status, 1, f"the first call, which told {out!r} and {err!r}")
    expect([line for line in out.splitlines() if not line.startswith("done: collect")][:1], ["done: release 1"], "its first line")
    expect(("done: refuse 2" in out, "a first line" in out, "LATER.1" in err, "status 3" in err), (True,) * 4, f"its lines {out!r} and {err!r}")
    answered = {1: RELEASED, 2: REFUSED, 5: RELEASED}
    expect((site.responses(), site.notes()), (answered, site.right_notes(1, 2, 3)), "the responses, and what the program got")
    expect(site.process()[0], 1, "the second call")
    expect((site.responses(), site.notes()[3:]), (answered, site.right_notes(3)), "the same behind it")
    site.program.write_text("#!/bin/sh\nexit 0\n", encoding="utf-8")
    expect(site.process()[::2], (0, ""), "the third call")
    expect(site.responses(), answered | {3: RELEASED}, "the responses behind it")
    expect(site.process(), (0, "", ""), "a call that has nothing to do")
    expect([path.name for name in ("taken", "verdicts") for path in (site.folder / name).iterdir()], [], "what is left of it")


def beside_a_station(room):
    """So it is beside a station that holds the database."""
    site = Site(room, [GOOD, BAD, LATER, ELSEWHERE, ("GOOD.3", CARMAKER, b"E")])
    with Resident(room):
        each_status(room, site)


def text_of_a_refusal(room):
    """The text of a refusal is the last line that isn't empty, without what a NERP may not have."""
    told = list(TEXTS)
    # A file has an octet at least, and so the program of an empty output is another.
    site = Site(room, [(f"BAD.{no}", CARMAKER, output or b"\0") for no, output in enumerate(told)], SAYS)
    status, out, err = site.process()
    expect((status, err), (0, ""), f"the call, which told {out!r}")
    expect({no: text for no, (_, _, text) in site.responses().items()}, dict(enumerate(TEXTS.values(), 1)), "the texts")


def names_with_signs(room):
    """Slashes in a name and in a code are those of the register for the program, and others in the name of the file."""
    code = "O0013/VAN-(A&B)"
    book = room / "book.toml"
    book.write_text(BOOK.read_text(encoding="utf-8").replace(CARMAKER, code), encoding="utf-8")
    variables = "$OFTP_NO $OFTP_DATASET $OFTP_DATE $OFTP_TIME $OFTP_FORMAT $OFTP_ORIGINATOR"
    site = Site(room, [("A/B", code, b"A"), ("..", code, b"B"), ("-.&()", code, b"C")], f'#!/bin/sh\necho "{variables} $2"\n')
    status, out, err = site.process(code, book)
    expect((status, err), (0, ""), f"the call, which told {out!r}")
    names = {1: "A/B", 2: "..", 3: "-.&()"}
    for no, name in names.items():
        file = f"{no:07}_{name}_20240131_08000{no:05}_{code}".replace("/", "+")
        line = f"{no} {name} 20240131 08000{no:05} U {code} {site.folder / 'taken' / file}\n"
        expect(line in out, True, f"what the program got of {name}: {out!r}")
    expect(site.responses(), {no: RELEASED for no in names}, "the responses")


def file_that_is_moved_or_changed(room):
    """A program may move a file that it leaves, or write over it: the next time it gets the file as it came."""
    program = SITE.replace("*) exit 3 ;;", '*) if [ -e "$1/moved" ]; then exit 4; fi; mv "$2" "$1/moved"; exit 3 ;;')
    site = Site(room, [LATER], program)
    for status in (3, 4, 4):
        found, _, err = site.process()
        expect((found, f"status {status}" in err), (1, True), f"a call, which told {err!r}")
    expect(site.notes(), site.right_notes(1, 1, 1), "what the program got")
    expect((room / "moved").read_bytes(), LATER[2] + b"changed", "what it has moved")


def station_that_is_not_reached(room):
    """A verdict that the station can't be told is kept, and the program isn't asked again."""
    site = Site(room, [GOOD, BAD])
    broken = room / "broken"
    broken.write_text(f'#!/bin/sh\ncase $1 in release | refuse) echo "fault: 3 office" >&2; exit 1 ;; esac\nexec {PROGRAM} "$@"\n', encoding="utf-8")
    broken.chmod(0o755)
    site.environment["OFTP_STATION"] = str(broken)
    for _ in range(2):
        status, _, err = site.process()
        expect((status, err.count("fault: 3 office")), (1, 2), f"a call that the station doesn't hear, which told {err!r}")
        expect((site.responses(), site.verdicts(), site.notes()), ({}, {1, 2}, site.right_notes(1, 2)), "responses, verdicts and notes")
    site.environment["OFTP_STATION"] = str(PROGRAM)
    expect(site.process()[::2], (0, ""), "the call that it hears")
    expect((site.responses(), site.verdicts(), site.notes()), ({1: RELEASED, 2: REFUSED}, set(), site.right_notes(1, 2)), "the same behind it")


def verdict_on_an_answered_file(room):
    """What a kill has left of a file that an operator has answered is removed. It is what was collected, what the program got, and the verdict
    on it."""
    site = Site(room, [GOOD])
    name = f"0000001_GOOD.1_20240131_0800000001_{CARMAKER}"
    left = [site.folder / folder / name for folder in ("collected", "taken", "verdicts")]
    for path in left:
        path.parent.mkdir(parents=True)
        path.write_text("refuse by mistake\n", encoding="utf-8")
    expect(site.operate("release", "1"), "done: release 1\n", "the release by hand")
    expect(site.process(), (0, "", ""), "the call")
    expect((site.responses(), site.notes()), ({1: RELEASED}, []), "responses and notes")
    expect([path for path in left if path.exists()], [], "what is left")


def operator_who_is_first(room):
    """A file that an operator answers while the program has it keeps that response."""
    by_hand = f'"$OFTP_STATION" refuse --db "$1/database" --book {BOOK} "$OFTP_NO" 12 "by hand"'
    site = Site(room, [GOOD], f"#!/bin/sh\n{by_hand} > /dev/null\n")
    status, out, err = site.process()
    expect((status, "refused: 3 state\n" in out, err), (0, True, ""), f"the call, which told {out!r}")
    expect((site.responses(), site.verdicts()), ({1: ("NERP", "12", "by hand")}, set()), "the response, and the verdicts")


def no_verdict(room):
    """What is no verdict is neither a release nor a refusal, and says where it is."""
    site = Site(room, [GOOD])
    (site.folder / "verdicts").mkdir(parents=True)
    (site.folder / "verdicts" / f"0000001_GOOD.1_20240131_0800000001_{CARMAKER}").write_text("perhaps\n", encoding="utf-8")
    status, _, err = site.process()
    expect((status, "is no verdict" in err, site.responses(), site.notes()), (1, True, {}, []), f"the call, which told {err!r}")


def started(site):
    return subprocess.Popen([SCRIPT, *site.words()], env=site.environment, stdout=subprocess.PIPE, stderr=subprocess.PIPE)


def until_there(path):
    until = time.monotonic() + LONG
    while not path.exists():
        if time.monotonic() > until:
            raise Wrong(f"{path.name} never comes")
        time.sleep(0.02)


def two_at_once(room):
    """The second of two waits, and gets nothing that the first has; where that takes more than ten seconds, it says so and ends."""
    site = Site(room, [GOOD, BAD], WORKS)
    with started(site) as first:
        until_there(room / "begun")
        begin = time.monotonic()
        status, out, err = site.process()
        expect((status, out, "another one is at work" in err), (1, "", True), f"the second, which told {err!r}")
        expect(time.monotonic() - begin >= 9, True, "whether the second has waited for ten seconds")
        with started(site) as third:
            time.sleep(0.5)
            expect(third.poll(), None, "whether the third waits")
            (room / "end").touch()
            expect((first.communicate(timeout=LONG)[1], third.communicate(timeout=LONG)), (b"", (b"", b"")), "what they told")
        expect((first.returncode, third.returncode), (0, 0), "how they ended")
    expect((room / "notes").read_text(), "1\n2\n", "what the program got")
    expect(site.responses(), {1: RELEASED, 2: RELEASED}, "the responses")


def program_that_outlives_a_kill(room):
    """Where oftp-process alone is killed, nobody gets the file as long as the program works on it."""
    site = Site(room, [GOOD], WORKS)
    with started(site) as first:
        until_there(room / "begun")
        first.kill()
        status, _, err = site.process()
        expect((status, "another one is at work" in err), (1, True), f"the next call, which told {err!r}")
        (room / "end").touch()
        first.communicate(timeout=LONG)
    expect(site.process()[::2], (0, ""), "the one behind it")
    expect(((room / "notes").read_text(), site.responses()), ("1\n1\n", {1: RELEASED}), "what the program got, and the response")


def words_and_faults(room):
    """Bad words are status 2. A book or a partner that isn't there is told before a file is collected, and so is a program."""
    site = Site(room, [GOOD])
    words = site.words()
    for given in ([], words[:-2], ["--nothing", *words], words[:7], [*words[2:]]):
        done = subprocess.run([SCRIPT, *given], env=site.environment, capture_output=True, timeout=LONG, check=False)
        expect((done.returncode, done.stdout, b"--help" in done.stderr), (2, b"", True), f"{given}, of which was said {done.stderr}")
    done = subprocess.run([SCRIPT, "--help"], capture_output=True, timeout=LONG, check=False)
    expect((done.returncode, b"Usage: oftp-process" in done.stdout, done.stderr), (0, True, b""), "--help")
    for word, (status, _, err) in (
        ("refused: 2 unknown", site.process(OTHER)),
        ("fault: 7 file", site.process(book=room / "nowhere")),
        ("fault: 5 book 1", site.process(book=site.program)),
    ):
        expect((status, word in err), (1, True), f"a call that told {err!r}, not {word}")
    site.program.unlink()
    status, _, err = site.process()
    expect((status, "there is no program" in err), (1, True), f"without a program, it told {err!r}")
    expect((site.responses(), site.notes()), ({}, []), "responses and notes")


CASES = [
    each_status,
    beside_a_station,
    text_of_a_refusal,
    names_with_signs,
    file_that_is_moved_or_changed,
    station_that_is_not_reached,
    verdict_on_an_answered_file,
    operator_who_is_first,
    no_verdict,
    two_at_once,
    program_that_outlives_a_kill,
    words_and_faults,
]


def tried(case):
    """Runs a case. It returns the result, and whether it failed."""
    with tempfile.TemporaryDirectory() as room:
        try:
            case(Path(room))
        except (Wrong, OSError, subprocess.SubprocessError) as why:
            return f"{case.__name__.replace('_', ' ')}: {type(why).__name__}: {why}", True
    return f"{case.__name__.replace('_', ' ')}: as it must be", False


def main():
    cases = [case for case in CASES if not sys.argv[1:] or any(word in case.__name__ for word in sys.argv[1:])]
    with ThreadPoolExecutor(max_workers=len(CASES)) as runners:
        tries = list(runners.map(tried, cases))
    print("\n".join(told for told, _ in tries))
    failed = sum(has_failed for _, has_failed in tries)
    print(f"{len(tries) - failed} passed, {failed} failed")
    return 1 if failed or not cases else 0


if __name__ == "__main__":
    sys.exit(main())
