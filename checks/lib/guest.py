"""The package, built from the program that is tried, and a Debian in a folder of its own in which it is installed."""

import os
import re
import shutil
import subprocess
from pathlib import Path

from program import PROGRAM, ROOT
from services import LONG, NotTried, Wrong, expect
from typist import Typist

# The folders that a purge asks about.
DATA = ["var/lib/oftp", "var/backups/oftp", "etc/oftp"]


def built(to, *words, root=ROOT, **how):
    """Builds the package, and returns its path."""
    environment = {**os.environ, "OFTP_STATION": str(PROGRAM)}
    given = [root / "packaging/build", "--to", to, *words]
    done = subprocess.run(given, env=environment, capture_output=True, text=True, timeout=600, check=False, **how)
    if done.returncode:
        raise Wrong(f"packaging/build {' '.join(words)}: {done.stderr}")
    return Path(done.stdout.splitlines()[-1])


class Package:
    """The package, and its files in a folder."""

    def __init__(self, room):
        self.room = room
        self.path = built(room, "--unproved")
        self.tree = room / "tree"
        subprocess.run(["dpkg-deb", "--raw-extract", self.path, self.tree], check=True, timeout=LONG)

    def files(self):
        """The paths of its files, without those that dpkg reads."""
        return {str(it.relative_to(self.tree)) for it in self.tree.rglob("*") if it.is_file() and "DEBIAN" not in it.relative_to(self.tree).parts}

    def text(self, name):
        return (self.tree / name).read_text(encoding="utf-8")

    def fields(self):
        return dict(re.findall(r"^(\S+): (.*)$", self.text("DEBIAN/control"), re.M))

    def units(self):
        return [it for it in (self.tree / "usr/lib/systemd/system").iterdir()]


class Guest(Typist):
    """A Debian in a folder, in which the package is installed. What is typed is the station's user's, in a folder `day` within its own."""

    def __init__(self, root):
        self.root, self.path = root, root / "var/lib/oftp/day"
        self.ports, self.services = {}, []
        self.environment = {"PATH": "/usr/sbin:/usr/bin:/sbin:/bin", "LC_ALL": "C.UTF-8", "DEBIAN_FRONTEND": "noninteractive", "TERM": "dumb"}

    def __enter__(self):
        self.give("install", "-d", "-o", "oftp", "-g", "oftp", "/var/lib/oftp/day")
        return self

    def within(self, *words, user="root"):
        """The words that run a command there, with its own /proc, which is gone with it."""
        script = 'mount -t proc proc "$1/proc" && exec chroot --userspec="$0" "$@"'
        return ["unshare", "--mount", "--propagation", "private", "bash", "-c", script, f"{user}:{user}", self.root, *words]

    def words(self, command):
        return self.within("bash", "-c", f"cd /var/lib/oftp/day || exit\n{command}", user="oftp")

    def try_(self, *words, user="root", stdin="", **more):
        """Runs a command there, and returns its status and both outputs."""
        how = {"env": {**self.environment, **more}, "input": stdin, "capture_output": True, "text": True, "timeout": 600, "check": False}
        done = subprocess.run(self.within(*words, user=user), **how)
        return done.returncode, done.stdout, done.stderr

    def give(self, *words, **how):
        """The same for a command that has to end well. It returns what it printed."""
        status, out, err = self.try_(*words, **how)
        expect(status, 0, f"{words}, which said {out}{err}")
        return out + err

    def is_there(self, *names):
        return [(self.root / name).exists() for name in names]

    def install(self, package):
        shutil.copy(package.path, self.root / "package.deb")
        return self.give("dpkg", "--install", "/package.deb")

    def data(self):
        """The contents of all files in the folders of the data, by their paths."""
        files = [it for name in DATA for it in (self.root / name).rglob("*") if it.is_file()]
        return {str(it): it.read_bytes() for it in files}


def made_folder(room, wanted):
    """A least Debian in a folder, with these packages beside."""
    if os.geteuid() != 0:
        raise NotTried("the superuser: the package in a folder of its own")
    if not shutil.which("debootstrap"):
        raise NotTried("debootstrap: the package in a folder of its own")
    release = dict(re.findall(r"^(\w+)=\"?([^\"\n]*)", Path("/etc/os-release").read_text(encoding="utf-8"), re.M))
    suite = release["VERSION_CODENAME"] if release.get("ID") == "debian" else "stable"
    root = room / "debian"
    words = ["debootstrap", "--variant=minbase", f"--include={','.join(wanted)}", suite, root]
    done = subprocess.run(words, capture_output=True, text=True, timeout=1200, check=False)
    if done.returncode:
        last = (done.stdout + done.stderr).splitlines()[-1:]
        raise NotTried(f"a Debian that debootstrap can make: the package in a folder of its own ({' '.join(last)})")
    guest = Guest(root)
    if guest.try_("true")[0]:
        raise NotTried("a mount namespace: the package in a folder of its own")
    return guest
