#!/usr/bin/env python3
"""Tries examples/service/stunnel.conf round two stations that run: who is let in, whom a call reaches, and at which addresses each listens.

    checks/scenarios/tunnels.py [WORD ..]       all cases, or those whose names have one of these words

The file is used as it is, with other ports and folders. Where root runs this, stunnel becomes its own user, as the file says. All cases run in
parallel. Without stunnel nothing is tried. The last line is `N passed, M failed`.

Shows: where stunnel is installed: examples/service/stunnel.conf round two stations. A file goes through both. Some callers get no octet of the
station, and it prints no line of them. They have no certificate, another one of the partner's name and authority, one that is out of date, TLS
1.1, or no TLS. Who shows another certificate than the partner's isn't called. Only the port for TLS is open to other machines, and stunnel has
given root up
"""

import os
import pwd
import re
import shutil
import socket
import ssl
import subprocess
import sys
import tempfile
import time
import warnings
from concurrent.futures import ThreadPoolExecutor
from contextlib import ExitStack, contextmanager
from pathlib import Path

sys.path.insert(0, str(Path(__file__).resolve().parents[1] / "lib"))

from program import PROGRAM, ROOT
from services import CARMAKER, LONG, Resident, Wrong, expect, free_port

CONF = ROOT / "examples/service/stunnel.conf"
USER = "stunnel4"
NEW_KEY = ["-newkey", "ec", "-pkeyopt", "ec_paramgen_curve:P-256"]
# 127.0.0.1 and every address, as /proc/net/tcp spells them.
HERE, EVERYWHERE = "0100007F", "00000000"
# The beginning of what a station says to a caller: its Stream Transmission Header, and SSRM.
GREETING = b"\x10\x00\x00\x17IODETTE FTP READY \r"
TLS_1_1, TLS_1_2, TLS_1_3 = ssl.TLSVersion.TLSv1_1, ssl.TLSVersion.TLSv1_2, ssl.TLSVersion.TLSv1_3


def made(room, file, name=None, days=30, signer=None):
    """A new certificate, whose key lies beside it. It has the name of its file or another one, and is signed by another certificate or by itself.
    One of -1 days was valid until yesterday."""
    path = room / f"{file}.pem"
    key = path.with_suffix(".key")
    signed = ["-CA", signer, "-CAkey", signer.with_suffix(".key"), "-CAcreateserial"] if signer else ["-signkey", key]
    for words in (
        ["req", *NEW_KEY, "-nodes", "-subj", f"/CN={name or file}", "-keyout", key, "-out", f"{path}-request"],
        ["x509", "-req", "-in", f"{path}-request", *signed, "-days", str(days), "-out", path],
    ):
        subprocess.run(["openssl", *words], capture_output=True, timeout=LONG, check=True)
    return path


def addresses(port):
    """The addresses at which a port is listened to."""
    lines = [line.split() for name in ("tcp", "tcp6") for line in Path(f"/proc/net/{name}").read_text().splitlines()[1:]]
    places = [fields[1].split(":") for fields in lines if fields[3] == "0A"]
    return {address for address, at in places if int(at, 16) == port}


class End:
    """One end: a station that runs, with the stunnel of the example round it."""

    def __init__(self, room, name, certificate, partners, carmaker, far=1, edit=("", "")):
        self.room = room / name
        self.room.mkdir()
        self.accept, self.near = free_port(), free_port()
        self.book = self.room / "book.toml"
        book = (ROOT / f"examples/{name}/book.toml").read_text(encoding="utf-8")
        self.book.write_text(re.sub(r'"127\.0\.0\.1:\d+"', f'"127.0.0.1:{self.near}"', book), encoding="utf-8")
        self.station = Resident(self.room, book=self.book)
        shutil.copy(certificate, self.room / "station.pem")
        shutil.copy(certificate.with_suffix(".key"), self.room / "station.key")
        (self.room / "partners.pem").write_text("".join(it.read_text() for it in partners))
        shutil.copy(carmaker, self.room / "carmaker.pem")
        (self.room / "stunnel.conf").write_text(self.conf(far).replace(*edit))

    def conf(self, far):
        """The example for the ports and the folder of this end."""
        text = CONF.read_text(encoding="utf-8")
        for old, new in (
            ("accept = 6619\n", f"accept = {self.accept}\n"),
            ("connect = 127.0.0.1:3305\n", f"connect = 127.0.0.1:{self.station.port}\n"),
            ("accept = 127.0.0.1:13305\n", f"accept = 127.0.0.1:{self.near}\n"),
            ("connect = oftp.carmaker.example:6619\n", f"connect = 127.0.0.1:{far}\n"),
        ):
            expect(text.count(old), 1, f"lines {old.strip()} of {CONF.name}")
            text = text.replace(old, new)
        if not has_user():
            text = re.sub(r"^set[ug]id = .*\n", "", text, flags=re.M)
        return text.replace("/etc/oftp/", f"{self.room}/")

    def __enter__(self):
        with ExitStack() as opened:
            opened.enter_context(self.station)
            with open(self.room / "said", "wb") as said:
                self.tunnel = subprocess.Popen(["stunnel", self.room / "stunnel.conf"], stdout=said, stderr=said)
            opened.callback(self.end_tunnel)
            until = time.monotonic() + LONG
            while not (addresses(self.accept) and addresses(self.near)):
                if self.tunnel.poll() is not None or time.monotonic() > until:
                    raise Wrong(f"stunnel doesn't listen: {self.said()}")
                time.sleep(0.02)
            self.opened = opened.pop_all()
        return self

    def __exit__(self, *_why):
        self.opened.close()

    def end_tunnel(self):
        self.tunnel.kill()
        self.tunnel.wait()

    def said(self):
        return (self.room / "said").read_text(errors="replace")

    def call(self):
        """Calls the car maker. It returns the status and what is printed."""
        words = [PROGRAM, "call", "--db", self.station.database, "--book", self.book, "--partner", CARMAKER]
        done = subprocess.run(words, capture_output=True, text=True, timeout=LONG, check=False)
        return done.returncode, done.stdout + done.stderr

    def lines(self):
        """What the station has printed of its sessions. This ends it."""
        self.station.program.kill()
        out, err = self.station.rest()
        return [*out.decode().splitlines(), *err.decode().splitlines()]


def has_user():
    return os.geteuid() == 0 and USER in {it.pw_name for it in pwd.getpwall()}


@contextmanager
def two_ends(room, shown=None):
    """A car maker and a supplier who know each other's certificates, of which an authority has signed the supplier's. The car maker shows another
    one, if that is given."""
    own, other, late = made(room, "carmaker"), made(room, "supplier", signer=made(room, "authority")), made(room, "late", days=-1)
    with End(room, "carmaker", shown or own, [other, late], own) as carmaker, End(room, "supplier", other, [own], own, carmaker.accept) as supplier:
        yield carmaker, supplier, other, late


def plain_answer(port):
    """What a caller gets who speaks OFTP without TLS."""
    try:
        with socket.create_connection(("127.0.0.1", port), LONG) as caller:
            caller.sendall(GREETING)
            return caller.recv(4096)
    except ConnectionError:
        return b""


def answer(port, certificate=None, version=TLS_1_3):
    """What a caller gets who shows this certificate, or none, until it has a greeting or is closed out."""
    how = ssl.SSLContext(ssl.PROTOCOL_TLS_CLIENT)
    how.check_hostname, how.verify_mode = False, ssl.CERT_NONE
    how.set_ciphers("DEFAULT@SECLEVEL=0")
    how.minimum_version = how.maximum_version = version
    if certificate:
        how.load_cert_chain(certificate, certificate.with_suffix(".key"))
    try:
        with socket.create_connection(("127.0.0.1", port), LONG) as plain, how.wrap_socket(plain) as caller:
            return caller.recv(len(GREETING))
    except (ssl.SSLError, ConnectionError):
        return b""


def file_goes_through(room):
    """A call goes through both, and a file with it."""
    with two_ends(room) as (carmaker, supplier, _, _):
        file = room / "file"
        file.write_bytes(b"DELFOR 4711\r\n")
        supplier.station.submit(file)
        expect(supplier.call(), (0, "end: partner 00\n"), "the call")
        came = carmaker.station.give("report", "in").stdout.decode().splitlines()[1:]
        expect(came, ["1,INV.1,20240201,0800000001,O0013SUPPLIER,U,1,13,whole,none"], "what came")
        expect(carmaker.station.line(), "session O0013SUPPLIER in: end: own 00", "the line of the car maker")


def partner_is_greeted(room):
    """Who shows a known certificate is greeted, through TLS 1.2 and 1.3."""
    with two_ends(room) as (carmaker, _, known, _):
        for version in (TLS_1_2, TLS_1_3):
            expect(answer(carmaker.accept, known, version), GREETING, f"the greeting through {version.name}")


def strangers_stay_outside(room):
    """Nobody else gets an octet of the station, nor is a line of it."""
    with two_ends(room) as (carmaker, _, known, late):
        of_same_name = made(room, "stranger", "supplier", signer=room / "authority.pem")
        expect(answer(carmaker.accept), b"", "what a caller without a certificate gets")
        expect(answer(carmaker.accept, of_same_name), b"", "what another certificate of that name gets")
        expect(answer(carmaker.accept, late), b"", "what a certificate of yesterday gets")
        expect(answer(carmaker.accept, known, TLS_1_1), b"", "what the partner gets through TLS 1.1")
        expect(plain_answer(carmaker.accept).startswith(GREETING[:4]), False, "whether a caller without TLS is greeted")
        expect(carmaker.lines(), [], "the lines of the car maker")
        for name in ("supplier", "late"):
            expect(f"Rejected by CERT at depth=0: CN={name}" in carmaker.said(), True, f"whether stunnel says that {name} was rejected")


def another_is_not_called(room):
    """Who shows another certificate than the car maker's isn't spoken to, not even by its name."""
    with two_ends(room, made(room, "another", "carmaker")) as (carmaker, supplier, _, _):
        expect(supplier.call(), (1, "fault: 1 read\n"), "the call")
        expect(carmaker.lines(), [], "the lines of who isn't the car maker")
        expect("Rejected by CERT at depth=0: CN=carmaker" in supplier.said(), True, "whether stunnel says so")


def nobody_is_there(room):
    """A call for which the partner's stunnel isn't there ends as one that was cut."""
    with two_ends(room) as (carmaker, supplier, _, _):
        carmaker.end_tunnel()
        expect(supplier.call(), (1, "fault: 1 read\n"), "the call")


def authority_has_names(room):
    """With verifyChain and checkHost, as docs/howto/partner.md has them, a name that an authority has signed is let in, and no other."""
    authority = made(room, "authority")
    known, other = made(room, "known", signer=authority), made(room, "other", signer=authority)
    late = made(room, "late", "known", days=-1, signer=authority)
    edit = ("verifyPeer = yes", "verifyChain = yes\ncheckHost = known")
    with End(room, "carmaker", made(room, "carmaker"), [authority], authority, edit=edit) as carmaker:
        expect(answer(carmaker.accept, known), GREETING, "the greeting of the name")
        for stranger in (other, late, made(room, "itself", "known"), None):
            expect(answer(carmaker.accept, stranger), b"", f"what {stranger and stranger.name} gets")


def plain_ports_are_of_this_machine(room):
    """Only the port for TLS is open to others; and stunnel has given root up."""
    with two_ends(room) as (carmaker, _, _, _):
        expect(addresses(carmaker.station.port), {HERE}, "where the station listens")
        expect(addresses(carmaker.near), {HERE}, "where calls begin")
        expect(EVERYWHERE in addresses(carmaker.accept), True, "whether partners reach the port for TLS")
        if has_user():
            expect(os.stat(f"/proc/{carmaker.tunnel.pid}").st_uid, pwd.getpwnam(USER).pw_uid, "the user of stunnel")


CASES = [
    *(file_goes_through, partner_is_greeted, strangers_stay_outside, another_is_not_called),
    *(nobody_is_there, authority_has_names, plain_ports_are_of_this_machine),
]


def tried(case):
    """Runs a case, and returns why it failed, or None."""
    with tempfile.TemporaryDirectory() as room:
        try:
            case(Path(room))
        except (Wrong, OSError, subprocess.SubprocessError) as why:
            return f"{type(why).__name__}: {why}"
    return None


def main():
    if not (shutil.which("stunnel") and shutil.which("openssl")):
        print("NOT TRIED without stunnel: examples/service/stunnel.conf\n0 passed, 0 failed")
        return 0
    # ssl warns of TLS 1.1, which one case asks for
    warnings.simplefilter("ignore", DeprecationWarning)
    cases = [case for case in CASES if not sys.argv[1:] or any(word in case.__name__ for word in sys.argv[1:])]
    with ThreadPoolExecutor(max_workers=len(CASES)) as runners:
        whys = list(runners.map(tried, cases))
    for case, why in zip(cases, whys):
        print(f"{case.__name__.replace('_', ' ')}: {why or 'as it must be'}")
    failed = sum(why is not None for why in whys)
    print(f"{len(cases) - failed} passed, {failed} failed")
    return 1 if failed else 0


if __name__ == "__main__":
    sys.exit(main())
