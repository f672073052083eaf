#!/usr/bin/env python3
"""Builds the package from the program that is tried, looks at what it has, and installs it into a folder of its own.

    checks/scenarios/packages.py [--here] [WORD ..]       all cases, or those whose names have one of these words; with `--here` without that folder

What the package has is compared with the tree and with what the program prints. It has its files and their modes, its units, a page for each
command, and each option in its page and in the completions. Without man the pages aren't printed, and without lintian it isn't asked. The folder is
a Debian of its own, which debootstrap makes from the network. There the package is installed, and the first day of the tutorial is typed as the
station's user. Then it is installed again, removed and purged: the data stay, unless whoever is asked says otherwise. The last line is `N passed, M
failed`.

Shows: the package of packaging/: the same octets twice, its files, modes, fields and units. A page for each command with its options, printed
without a warning, and completions of each command and option in bash. Without `--unproved` it is built from the program alone that was proved from
these sources. What lintian says, if it is installed. Where debootstrap makes a Debian in a folder, it is installed there, the first day is typed as
its user, and zsh completes. Then it is installed again, removed and purged: the data stay, unless the question of the purge is answered by yes. Its
units are started by booted.py
"""

import argparse
import os
import pty
import re
import select
import shutil
import signal
import subprocess
import sys
import tarfile
import tempfile
import time
from pathlib import Path

sys.path.insert(0, str(Path(__file__).resolve().parents[1] / "lib"))

from guest import DATA, Package, built, made_folder
from program import PROGRAM, ROOT
from services import LONG, NotTried, Wrong, expect
from typist import blocks_below, typed

SERVICE = ROOT / "examples/service"
# Folders whose files are all in the package.
WHOLE = (ROOT / "examples/monitoring", ROOT / "examples/interop")
TUTORIAL = ROOT / "docs/tutorials/first-delivery.md"
PLACES = {".service": "usr/lib/systemd/system", ".timer": "usr/lib/systemd/system", ".path": "usr/lib/systemd/system"}
DOCUMENTS = "usr/share/doc/oftp-station"
USAGE = re.compile(r"^  oftp_station (\w+)(.*)$", re.M)
OPTION = re.compile(r"--[a-z][a-z-]*")
# What the folder needs beside a least Debian: what makes the user and the folders, and a shell whose completions are tried.
WANTED = ["systemd-standalone-sysusers", "systemd-standalone-tmpfiles", "zsh"]
QUESTION = "INPUT high oftp-station/remove_data"
# What has zsh say in a file that its prompt is there, and complete a line by the tabulator. It writes there what the line is then.
ZSH = """autoload -U compinit; compinit -u
zle-line-init() { print ready >> /completed }
show() { zle complete-word; print -r -- "$BUFFER" >> /completed }
zle -N zle-line-init; zle -N show; bindkey '^I' show
"""
# What is typed at the prompt, and what it is completed to.
TYPED = {
    "migr": "migrate",
    "collect --rel": "collect --release",
    "report --db db rec": "report --db db received",
    "submit --format U --db /etc/os-rel": "submit --format U --db /etc/os-release",
}


def said(*words):
    """What the program prints, on both outputs."""
    done = subprocess.run([PROGRAM, *words], capture_output=True, text=True, timeout=LONG, check=False)
    return done.stdout + done.stderr


def commands():
    """The commands of the program that take something, each with its usage."""
    return {name: usage for name, usage in USAGE.findall(said("help")) if usage}


def options_of(name):
    return set(OPTION.findall(said(name, "--help")))


def is_the_same_twice(package):
    """The same program and sources give the same octets."""
    again = built(package.room / "again", "--unproved")
    expect(again.name, package.path.name, "its name")
    expect(again.read_bytes() == package.path.read_bytes(), True, "whether it has the same octets")


def has_its_files(package):
    """Its files are those that it should have, and no others."""
    wanted = {f"{PLACES[it.suffix]}/{it.name}" for it in SERVICE.glob("oftp-*.*")}
    wanted |= {"usr/bin/oftp_station", "usr/bin/oftp-process", "etc/default/oftp-station"}
    wanted |= {f"usr/lib/{kind}.d/oftp-station.conf" for kind in ("sysusers", "tmpfiles")}
    wanted |= {f"usr/share/man/man1/{name}.1.gz" for name in ("oftp_station", "oftp-process", *(f"oftp_station-{it}" for it in commands()))}
    wanted |= {"usr/share/man/man5/oftp-book.5.gz", "usr/share/lintian/overrides/oftp-station"}
    wanted |= {"usr/share/bash-completion/completions/oftp_station", "usr/share/zsh/vendor-completions/_oftp_station"}
    wanted |= {f"{DOCUMENTS}/{name}" for name in ("README.md", "SECURITY.md", "copyright", "changelog.gz")}
    wanted |= {f"{DOCUMENTS}/docs/{it.relative_to(ROOT / 'docs')}" for it in (ROOT / "docs").rglob("*.*")}
    wanted |= {f"{DOCUMENTS}/examples/service/{name}" for name in ("book.toml", "stunnel.conf", "logrotate.conf")}
    wanted |= {f"{DOCUMENTS}/{it.relative_to(ROOT)}" for folder in WHOLE for it in folder.iterdir()}
    expect((package.files() - wanted, wanted - package.files()), (set(), set()), "files that it has beside them, and that it lacks")
    expect((package.tree / "usr/bin/oftp_station").read_bytes() == PROGRAM.read_bytes(), True, "whether the program is that which was tried")


def has_modes_of_root(package):
    """Everything in it is root's, programs are executable, and nobody else may write anything."""
    tree = subprocess.run(["dpkg-deb", "--fsys-tarfile", package.path], capture_output=True, timeout=LONG, check=True).stdout
    archive = package.room / "tree.tar"
    archive.write_bytes(tree)
    with tarfile.open(archive) as members:
        for it in members:
            mode = 0o755 if it.isdir() or it.name.startswith("./usr/bin/") else 0o644
            expect((it.uname, it.gname, oct(it.mode)), ("root", "root", oct(mode)), it.name)


def has_its_fields(package):
    """Its version is the program's, with a mark that the program isn't proved, and nothing is left to be filled in."""
    fields = package.fields()
    version = re.match(r"oftp_station (\S+), ", said("version"))[1]
    expect((fields["Package"], fields["Version"], fields["Architecture"]), ("oftp-station", f"{version}~unproved", "amd64"), "its fields")
    library = re.search(r"libc6 \(>= (2\.\d+)\)", fields["Depends"])
    expect(bool(library), True, f"whether it depends on the C library: {fields['Depends']}")
    for name in ("control", "postinst", "prerm", "postrm"):
        expect(re.findall(r"@[A-Z]+@", package.text(f"DEBIAN/{name}")), [], f"what isn't filled in of {name}")
    for name in ("postinst", "prerm", "postrm"):
        done = subprocess.run(["sh", "-n", package.tree / "DEBIAN" / name], capture_output=True, text=True, timeout=LONG, check=False)
        expect((done.returncode, done.stderr), (0, ""), f"the script {name}")
    stopped = re.findall(r"'(oftp-[^']+)'", package.text("DEBIAN/prerm"))
    expect(set(stopped), {it.name.replace("@.", "@*.") for it in package.units()}, "the units that are stopped before it is removed")
    expect(package.text("DEBIAN/conffiles"), "/etc/default/oftp-station\n", "its files for a person to change")
    expect("NO LICENCE" in package.text(f"{DOCUMENTS}/copyright"), True, "whether it says that no licence is given")


def has_its_units(package):
    """Its units start the programs of the package, and name its places alone."""
    for unit in package.units():
        text = unit.read_text(encoding="utf-8")
        expect(re.findall(r"/usr/local\S*|/etc/systemd\S*", text), [], f"places of {unit.name} that the package doesn't have")
        programs = re.findall(r"^ExecStart=.*?/(usr/bin/oftp[\w-]*)", text, re.M)
        expect([it for it in programs if it not in package.files()], [], f"programs of {unit.name} that the package doesn't have")
        expect(bool(programs), unit.suffix == ".service", f"whether {unit.name} starts a program")
        pages = [f"usr/share/man/man{number}/{name}.{number}.gz" for name, number in re.findall(r"^Documentation=man:(\S+)\((\d)\)$", text, re.M)]
        expect([it for it in pages if it not in package.files()], [], f"pages of {unit.name} that the package doesn't have")
        expect(len(pages), int(unit.suffix == ".service"), f"how many pages {unit.name} names")
        read = re.findall(r"^EnvironmentFile=-?/(\S+)", text, re.M)
        expect([it for it in read if it not in package.files()], [], f"what {unit.name} reads and the package doesn't have")


def printed(page):
    """A page as a terminal of any width shows it, on one line, and what is complained of."""
    words = ["man", "--warnings=w", "--encoding=UTF-8", "--local-file", page]
    environment = {**os.environ, "MANPAGER": "cat", "MANWIDTH": "100", "LC_ALL": "C.UTF-8"}
    done = subprocess.run(words, env=environment, capture_output=True, text=True, timeout=LONG, check=False)
    return " ".join(re.sub(r"\x1b\[\d*m|.\x08", "", done.stdout).split()), done.stderr


def has_its_pages(package):
    """Each page is printed without a warning. That of a command has its options and words, and that of the program each command and each line."""
    if not shutil.which("man"):
        raise NotTried("man: how the pages are printed")
    shown = {}
    for page in (package.tree / "usr/share/man").glob("man*/*"):
        shown[page.name.split(".")[0]], told = printed(page)
        expect(told, "", f"what man complains of in {page.name}")
    for name, usage in commands().items():
        text = shown[f"oftp_station-{name}"]
        lacking = [it for it in {*options_of(name), *re.findall(r"<(\w+)>", usage)} if it not in text]
        expect(lacking, [], f"options and words that the page of {name} lacks")
        expect(f"oftp_station-{name}(1)" in shown["oftp_station"], True, f"whether oftp_station(1) leads to {name}")
    lines = re.findall(r"^\| `((?:end|fault|refused): [^`]+)`", (ROOT / "docs/COMMANDS.md").read_text(encoding="utf-8"), re.M)
    expect(len(lines) > 12, True, "docs/COMMANDS.md has lines")
    expect([it for it in lines if it not in shown["oftp_station"]], [], "lines that oftp_station(1) lacks")
    expect([it for it in ("OFTP_DATASET", "--partner", "PROGRAM") if it not in shown["oftp-process"]], [], "what oftp-process(1) lacks")
    expect([it for it in ("station.buffer", "partner.address", "expects = ") if it not in shown["oftp-book"]], [], "what oftp-book(5) lacks")


def completed(package, *words):
    """What bash offers for the last of these words, which may have only begun."""
    script = package.tree / "usr/share/bash-completion/completions/oftp_station"
    lines = f'. {script}\nCOMP_WORDS=("$@")\nCOMP_CWORD=$(($# - 1))\n_oftp_station\nprintf "%s\\n" "${{COMPREPLY[@]}}"\n'
    given = ["bash", "--norc", "-uc", lines, "bash", "oftp_station", *words]
    done = subprocess.run(given, cwd=package.room, capture_output=True, text=True, timeout=LONG, check=False)
    expect((done.returncode, done.stderr), (0, ""), f"the completion of {words}")
    return set(done.stdout.split())


def completes_in_bash(package):
    """Bash offers each command, its options, the values that its help lists, and files and folders where it wants them."""
    expect(completed(package, ""), {*commands(), "help", "version"}, "the commands")
    for name in commands():
        expect(completed(package, name, "--"), options_of(name), f"the options of {name}")
    for words, wanted in (
        (("re",), {"release", "refuse", "reload", "report", "resend", "replay"}),
        (("submit", "--format", ""), {"F", "V", "U", "T"}),
        (("feed", "--role", "r"), {"responder"}),
        (("report", "--db", "database", ""), {"in", "out", "issued", "received"}),
        (("report", "--db", "=", "database", "i"), {"in", "issued"}),
        (("collect", "--release", "--b"), {"--book"}),
        (("run", "--db", "tr"), {"tree", "tree.tar"} & {it.name for it in package.room.iterdir()}),
        (("collect", "--to", "tr"), {"tree"}),
        (("backup", "--db", "database", "tr"), {"tree", "tree.tar"} & {it.name for it in package.room.iterdir()}),
        (("nothing", "--"), set()),
    ):
        expect(completed(package, *words), wanted, f"what is offered for {words}")


def refuses_what_is_not_proved(package):
    """Without a word it takes the proved program alone, and only where that was built from the sources as they are."""
    copy = package.room / "copy"
    shutil.copytree(ROOT, copy, ignore=shutil.ignore_patterns(".git", "out", "__pycache__"))
    proved = copy / "crates/oftp_station/out/oftp_station"
    usage = copy / "crates/oftp_command_line/src/line/usage.rt"

    def refused(*words):
        done = subprocess.run([copy / "packaging/build", *words], capture_output=True, text=True, timeout=LONG, check=False)
        return done.returncode, done.stdout, done.stderr

    def sign():
        script = f"root={copy} me=check; . {copy}/checks/lib/build.sh; sum_of_sources"
        found = subprocess.run(["bash", "-c", script], capture_output=True, text=True, timeout=LONG, check=True).stdout
        Path(f"{proved}.sources").write_text(found, encoding="utf-8")

    expect(refused(), (1, "", "packaging/build: there is no proved program: ./prove proves and builds it\n"), "without a proved program")
    proved.parent.mkdir(parents=True)
    shutil.copy(PROGRAM, proved)
    wanted = "packaging/build: the proved program was built from other sources: ./prove proves and builds it from these\n"
    expect(refused(), (1, "", wanted), "without its sum")
    sign()
    found = built(package.room / "proved", root=copy)
    expect(found.name, package.path.name.replace("~unproved", ""), "the package of a program that was built from these sources")
    with open(usage, "a", encoding="utf-8") as source:
        source.write("// Another source.\n")
    expect(refused(), (1, "", wanted), "once a source has changed")
    usage.write_text(usage.read_text(encoding="utf-8").replace('"oftp_station ', '"oftp_station 9'), encoding="utf-8")
    sign()
    status, out, err = refused()
    expect((status, out, "the program isn't version 9" in err), (1, "", True), f"another version in the sources, of which was said {err!r}")
    expect(refused("--unproof")[0], 1, "an unknown word")
    shutil.rmtree(copy)


def pleases_lintian(package):
    """lintian finds neither an error nor anything to warn of."""
    if not shutil.which("lintian"):
        raise NotTried("lintian: what it says of the package")
    words = ["lintian", "--no-cfg", "--tag-display-limit", "0", "--fail-on", "error,warning", "--allow-root", package.path]
    # It leaves files in the folder of temporary ones.
    environment = {**os.environ, "TMPDIR": str(package.room)}
    done = subprocess.run(words, env=environment, capture_output=True, text=True, timeout=600, check=False)
    expect((done.returncode, done.stdout + done.stderr), (0, ""), "what lintian says")


def is_installed(package):
    """It is installed, used, installed again, removed and purged, and the data go only where that is said."""
    guest = made_folder(package.room, WANTED)
    guest.install(package)
    makes_user_and_folders(guest)
    first_day_goes_as_shown(guest)
    completes_in_zsh(guest)
    (guest.root / "etc/oftp/book.toml").write_bytes((SERVICE / "book.toml").read_bytes())
    guest.give("oftp_station", "init", "--db", "/var/lib/oftp/station.db", user="oftp")
    guest.give("oftp_station", "backup", "--db", "/var/lib/oftp/station.db", "/var/backups/oftp/station.db", user="oftp")
    kept = guest.data()
    expect(len(kept) >= 3, True, f"whether there are data: {list(kept)}")
    guest.install(package)
    expect(guest.data() == kept, True, "whether they stay where it is installed again")
    guest.give("dpkg", "--remove", "oftp-station")
    expect(guest.is_there("usr/bin/oftp_station", "etc/default/oftp-station"), [False, True], "the program, and its options, once it is removed")
    expect(guest.data() == kept, True, "whether they stay where it is removed")
    purges(guest, package, kept)


def makes_user_and_folders(guest):
    """The user can't log in, and the folders are as docs/howto/install.md makes them. No unit is enabled."""
    user = guest.give("getent", "passwd", "oftp").strip().split(":")
    expect(user[5:], ["/var/lib/oftp", "/usr/sbin/nologin"], "the user's folder and shell")
    found = guest.give("stat", "--format=%n %a %U %G", *(f"/{name}" for name in DATA)).splitlines()
    wanted = ["/var/lib/oftp 750 oftp oftp", "/var/backups/oftp 750 oftp oftp", "/etc/oftp 750 root oftp"]
    expect(found, wanted, "the folders")
    links = [str(it) for it in (guest.root / "etc/systemd/system").rglob("oftp-*")]
    expect(links, [], "units that are enabled")


def first_day_goes_as_shown(guest):
    """The first day of the tutorial, up to its tunnel, typed as it is."""
    with guest:
        for block in blocks_below(TUTORIAL, "The first day", 9):
            if block[0].startswith("openssl "):
                break
            for command, wanted in typed(block):
                guest.type(command, wanted)


def completes_in_zsh(guest):
    """zsh completes a command, an option, a value and a file, typed at its prompt."""
    (guest.root / "root/.zshrc").write_text(ZSH, encoding="utf-8")
    child, screen = pty.fork()
    if child == 0:
        os.execvpe("unshare", [str(it) for it in guest.within("zsh", "-i")], {**guest.environment, "HOME": "/root"})
    path = guest.root / "completed"
    try:
        until_completed(screen, path, 1)
        for line in TYPED:
            # The last octet empties the line.
            os.write(screen, f"oftp_station {line}\t\x15".encode())
        found = until_completed(screen, path, 1 + len(TYPED))[1:]
    finally:
        os.kill(child, signal.SIGKILL)
        os.waitpid(child, 0)
        os.close(screen)
    expect([line.strip() for line in found], [f"oftp_station {it}" for it in TYPED.values()], "what zsh completes")


def until_completed(screen, path, count):
    """Reads a terminal until a file has so many lines, which it returns."""
    shown, until = b"", time.monotonic() + LONG
    while True:
        lines = path.read_text(encoding="utf-8").splitlines() if path.exists() else []
        if len(lines) >= count:
            return lines
        if time.monotonic() > until:
            raise Wrong(f"zsh completes {lines}, and shows {shown!r}")
        if select.select([screen], [], [], 0.1)[0]:
            shown += os.read(screen, 4096)


def purges(guest, package, kept):
    """A purge asks. Without an answer the data stay, and so they do where it is no; a yes removes them. Where there are none, it doesn't ask."""
    enabled = guest.root / "etc/systemd/system/multi-user.target.wants/oftp-run.service"
    enabled.parent.mkdir(parents=True, exist_ok=True)
    enabled.symlink_to("/usr/lib/systemd/system/oftp-run.service")
    told = guest.give("dpkg", "--purge", "oftp-station", DEBCONF_DEBUG="developer")
    expect((QUESTION in told, "/var/lib/oftp stays" in told), (True, True), f"what a purge says: {told}")
    expect((guest.is_there("etc/default/oftp-station"), enabled.is_symlink()), ([False], False), "the options and the link of a unit, purged")
    expect(guest.data() == kept, True, "whether the data stay where nobody answers")
    for answer in ("false", "true"):
        guest.install(package)
        guest.give("debconf-set-selections", stdin=f"oftp-station oftp-station/remove_data boolean {answer}\n")
        guest.give("dpkg", "--purge", "oftp-station")
        expect(guest.data() == (kept if answer == "false" else {}), True, f"whether the data are as they should be behind {answer}")
    expect(guest.is_there(*DATA), [False] * 3, "the folders behind a yes")
    guest.install(package)
    told = guest.give("dpkg", "--purge", "oftp-station", DEBCONF_DEBUG="developer")
    expect((QUESTION in told, guest.is_there(*DATA)), (False, [False] * 3), f"whether it asks, and the folders, where there are no data: {told}")


CASES = [
    *(is_the_same_twice, has_its_files, has_modes_of_root, has_its_fields, has_its_units, has_its_pages, completes_in_bash),
    *(refuses_what_is_not_proved, pleases_lintian, is_installed),
]


def tried(case, package):
    """Runs a case. It returns the result, and whether it failed."""
    try:
        case(package)
    except NotTried as why:
        return f"NOT TRIED without {why}", False
    except (Wrong, OSError, subprocess.SubprocessError) as why:
        return f"{case.__name__.replace('_', ' ')}: {type(why).__name__}: {why}", True
    return f"{case.__name__.replace('_', ' ')}: as it must be", False


def main():
    parser = argparse.ArgumentParser(description=__doc__.splitlines()[0])
    parser.add_argument("--here", action="store_true")
    parser.add_argument("words", nargs="*", metavar="WORD")
    taken = parser.parse_args()
    cases = [it for it in CASES if not (taken.here and it is is_installed) and (not taken.words or any(word in it.__name__ for word in taken.words))]
    if not shutil.which("dpkg-deb"):
        print("NOT TRIED without dpkg-deb: the package\n0 passed, 0 failed")
        return 0
    with tempfile.TemporaryDirectory() as room:
        package = Package(Path(room))
        tries = [tried(case, package) for case in cases]
    print("\n".join(told for told, _ in tries))
    failed = sum(has_failed for _, has_failed in tries)
    print(f"{sum(told.endswith('as it must be') for told, _ in tries)} passed, {failed} failed")
    return 1 if failed or not cases else 0


if __name__ == "__main__":
    sys.exit(main())
