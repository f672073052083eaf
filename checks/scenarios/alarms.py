#!/usr/bin/env python3
"""Shows that the alarms of examples/monitoring fire above their limits and not below, and that they and the dashboard ask for metrics that exist.

    checks/scenarios/alarms.py

promtool of Debian's prometheus tries the rules: each has a test, and a rule without its comparison fails its test. The metrics are those that
crates/oftp_status/src/prometheus.rt names. The dashboard has the form of Grafana's JSON model; there is no Grafana to open it. The mail goes by curl to
a server that keeps it, of stations that run, are killed and start again. The last line is `N passed, M failed`; what lacks its program is NOT TRIED.
"""

import json
import os
import re
import shlex
import shutil
import socket
import subprocess
import sys
import tempfile
import threading
from pathlib import Path

sys.path.insert(0, str(Path(__file__).resolve().parents[1] / "lib"))

from program import PROGRAM, ROOT
from services import NotTried, Resident, Wrong, expect, free_port

FOLDER = ROOT / "examples/monitoring"
# Grafana's JSON model: the members of a dashboard, and those of a panel of this one; a dashboard has 24 columns.
OF_DASHBOARD = set(
    "annotations description editable graphTooltip id links panels refresh schemaVersion tags templating time timepicker timezone title uid version".split()
)
OF_PANEL = set("datasource fieldConfig gridPos id options targets title type".split())
COLUMNS = 24
RULES, TESTS, DASHBOARD = (FOLDER / name for name in ("oftp.rules.yml", "oftp.rules.test.yml", "dashboard.json"))
METRIC = re.compile(r"\boftp_[a-z_]+\b")


def promtool(*words, folder=FOLDER):
    if not shutil.which("promtool"):
        raise NotTried("promtool: whether the alarms fire")
    return subprocess.run(["promtool", *words], cwd=folder, capture_output=True, text=True, timeout=60, check=False)


def told():
    """The names of the metrics that the station tells."""
    return set(re.findall(r"# TYPE (oftp_[a-z_]+) ", (ROOT / "crates/oftp_status/src/prometheus.rt").read_text()))


def alerts():
    return re.findall(r"- alert: (\w+)\n\s+expr: (.*)", RULES.read_text())


def rules_are_accepted():
    done = promtool("check", "rules", RULES.name)
    expect(done.returncode, 0, f"promtool check rules: {done.stdout}{done.stderr}")


def each_rule_passes_its_test():
    done = promtool("test", "rules", TESTS.name)
    expect(done.returncode, 0, f"promtool test rules: {done.stdout}{done.stderr}")
    tested = set(re.findall(r"alertname: (\w+)", TESTS.read_text()))
    expect(tested, {name for name, _ in alerts()}, "which alarms have a test")


def a_rule_that_never_fires_fails():
    """Each rule is made one that never fires: then its test fails. So each has one that wants it to fire."""
    text = RULES.read_text()
    for name, expression in alerts():
        with tempfile.TemporaryDirectory() as folder:
            room = Path(folder)
            (room / RULES.name).write_text(text.replace(expression, f"({expression}) and on() vector(0) > 1"))
            (room / TESTS.name).write_text(TESTS.read_text())
            expect(promtool("test", "rules", TESTS.name, folder=room).returncode != 0, True, f"whether a test misses {name}")


def a_limit_that_is_lower_fails():
    """Each age's limit is made a second lower: then what is at the limit is an alarm, and the test of it fails."""
    text = RULES.read_text()
    limited = [expression for name, expression in alerts() if name in ("OftpFileWaits", "OftpResponseOverdue", "OftpFileUnreleased")]
    expect(len(limited), 3, "how many rules have an age's limit")
    for expression in limited:
        with tempfile.TemporaryDirectory() as folder:
            room = Path(folder)
            (room / RULES.name).write_text(text.replace(expression, f"{expression} - 1"))
            (room / TESTS.name).write_text(TESTS.read_text())
            expect(promtool("test", "rules", TESTS.name, folder=room).returncode != 0, True, f"whether a test misses a lower limit of {expression}")


def rules_ask_for_metrics_that_exist():
    asked = {metric for _, expression in alerts() for metric in METRIC.findall(expression)}
    expect(sorted(asked - told()), [], "the rules' metrics that the station doesn't tell")


def panels_of_dashboard():
    return json.loads(DASHBOARD.read_text())["panels"]


def asked_by(panels):
    """The expressions of panels."""
    return [target["expr"] for panel in panels for target in panel["targets"]]


def dashboard_asks_in_the_language_of_prometheus():
    """Each expression is accepted as that of a rule, and one with a bracket too many isn't."""
    expressions = asked_by(panels_of_dashboard())
    for number, expression in enumerate([*expressions, f"{expressions[0]})"]):
        with tempfile.TemporaryDirectory() as folder:
            rules = {"groups": [{"name": "asked", "rules": [{"record": "asked", "expr": expression}]}]}
            (Path(folder) / "rules.yml").write_text(json.dumps(rules))
            done = promtool("check", "rules", "rules.yml", folder=folder)
            expect(done.returncode == 0, number < len(expressions), f"{expression}: {done.stdout}{done.stderr}")


def dashboard_asks_for_metrics_that_exist():
    panels = panels_of_dashboard()
    expressions = asked_by(panels)
    asked = {metric for expression in expressions for metric in METRIC.findall(expression)}
    expect(sorted(asked - told()), [], "the dashboard's metrics that the station doesn't tell")
    expect(len({panel["id"] for panel in panels}), len(panels), "how many panels have a number of their own")


def has_place(panel):
    """Whether a panel lies within the 24 columns."""
    at = panel["gridPos"]
    return at["x"] >= 0 and at["y"] >= 0 and at["w"] > 0 and at["h"] > 0 and at["x"] + at["w"] <= COLUMNS


def cells_of(panel):
    at = panel["gridPos"]
    return {(x, y) for x in range(at["x"], at["x"] + at["w"]) for y in range(at["y"], at["y"] + at["h"])}


def form_of(dashboard):
    """What is wrong with the form of a dashboard, by Grafana's JSON model."""
    wrong = sorted(set(dashboard) - OF_DASHBOARD) + sorted({"title", "schemaVersion", "time", "panels"} - set(dashboard))
    sources = {it["name"] for it in dashboard["templating"]["list"] if it["type"] == "datasource"}
    taken = set()
    for panel in dashboard["panels"]:
        wrong += sorted(set(panel) ^ OF_PANEL)
        if not has_place(panel) or taken & cells_of(panel):
            wrong.append(f"the place of {panel['title']}")
        taken |= cells_of(panel)
        if panel["datasource"] not in [{"type": "prometheus", "uid": f"${{{name}}}"} for name in sources]:
            wrong.append(f"the source of {panel['title']}")
        queries = [target["refId"] for target in panel["targets"]]
        if not queries or len(set(queries)) < len(queries):
            wrong.append(f"the queries of {panel['title']}")
    return wrong


def dashboard_has_the_form_of_grafana():
    """Its form is right, and isn't if a panel is moved onto another one, or asks another source."""
    expect(form_of(json.loads(DASHBOARD.read_text())), [], "what is wrong with the dashboard's form")
    for name, value in (("gridPos", {"x": 1, "y": 0, "w": 4, "h": 4}), ("datasource", {"type": "prometheus", "uid": "other"}), ("targets", [])):
        dashboard = json.loads(DASHBOARD.read_text())
        dashboard["panels"][1][name] = value
        expect(len(form_of(dashboard)) > 0, True, f"whether another {name} is noticed")


class MailServer:
    """A mail service of this machine that keeps each mail, or refuses all."""

    def __init__(self, refuses=False):
        self.listener = socket.create_server(("127.0.0.1", 0))
        self.address = f"smtp://127.0.0.1:{self.listener.getsockname()[1]}"
        self.refuses = refuses
        self.mails = []

    def __enter__(self):
        threading.Thread(target=self.serve, daemon=True).start()
        return self

    def __exit__(self, *_why):
        self.listener.close()

    def serve(self):
        while True:
            try:
                client, _ = self.listener.accept()
            except OSError:
                return
            with client, client.makefile("rw", encoding="utf-8", newline="\r\n") as lines:
                self.talk(lines)

    def talk(self, lines):
        def say(line):
            lines.write(f"{line}\n")
            lines.flush()

        say("220 here")
        for line in lines:
            word = line.split()[0].upper()
            if word == "DATA":
                say("354 go on")
                self.mails.append("".join(iter(lines.readline, ".\r\n")).replace("\r\n", "\n"))
                say("250 kept")
            elif word == "MAIL" and self.refuses:
                say("451 not now")
            else:
                say("221 bye" if word == "QUIT" else "250 well")


def mail(room, server, *words):
    """The exit status of one look at the station."""
    environment = {**os.environ, "STATE_DIRECTORY": str(room), "OFTP_STATION": str(PROGRAM), "MAIL_SERVICE": server.address}
    command = [FOLDER / "oftp-health-mail", room / "database", "who@localhost", *words]
    return subprocess.run(command, env=environment, capture_output=True, timeout=60, check=False).returncode


def subjects(server):
    return [re.search(r"^Subject: (.*)$", text, re.M).group(1) for text in server.mails]


def each_change_is_mailed():
    """A station that runs, is killed and starts again: one mail for each change, and none for what stays."""
    if not shutil.which("curl"):
        raise NotTried("curl: the mail of what is overdue")
    with tempfile.TemporaryDirectory(dir="/tmp") as folder, MailServer() as server, MailServer(refuses=True) as away:
        room = Path(folder)
        with Resident(room) as service:
            expect([mail(room, server) for _ in range(2)], [0, 0], "looks at a station that runs")
            expect(server.mails, [], "mails of a station that runs")
            service.program.kill()
            service.program.wait()
        expect(mail(room, away) != 0, True, "a look whose mail isn't taken")
        expect([mail(room, server) for _ in range(2)], [0, 0], "looks at a station that was killed")
        gone = "OFTP CRITICAL - no station runs"
        expect(subjects(server), [gone], "mails of a station that was killed")
        expect(server.mails[0], f"To: who@localhost\nSubject: {gone}\n\n{gone}\n", "the mail")
        with Resident(room):
            expect([mail(room, server) for _ in range(2)], [0, 0], "looks at one that started again")
        expect(subjects(server), [gone, "OFTP OK - nothing is overdue"], "mails of one that started again")


def metrics_are_written_to_a_file():
    """Of a station that runs the file has what it tells, and of one that was killed that it isn't up. promtool accepts either."""
    if not shutil.which("curl"):
        raise NotTried("curl: the file of metrics")
    port = free_port()
    with tempfile.TemporaryDirectory(dir="/tmp") as folder:
        room = Path(folder)
        file = room / "oftp.prom"

        def written():
            words = [FOLDER / "oftp-textfile", f"http://127.0.0.1:{port}/metrics", file]
            done = subprocess.run(words, capture_output=True, text=True, timeout=60, check=False)
            expect((done.returncode, done.stdout, done.stderr), (0, "", ""), "the script")
            expect(len(list(room.glob("oftp.prom*"))), 1, "the files that it leaves")
            text = file.read_text()
            told = subprocess.run(["promtool", "check", "metrics"], input=text, capture_output=True, text=True, timeout=60, check=False)
            expect((told.returncode, told.stdout + told.stderr), (0, ""), "promtool check metrics")
            return re.findall(r"^oftp_up (\d)$", text, re.M), len(text.splitlines()) > 20

        promtool("--version")
        with Resident(room, "--http-port", str(port)):
            expect(written(), (["1"], True), "what a station that runs is said to be, and whether all is there")
        expect(written(), (["0"], False), "what one that was killed is said to be, and whether more is there")


def units_are_confined():
    """systemd reads the units, and the exposure of the service is below 3, as it counts from 0 to 10."""
    if not shutil.which("systemd-analyze"):
        raise NotTried("systemd-analyze: the units of the mail")
    with tempfile.TemporaryDirectory() as folder:
        for name in ("oftp-health.service", "oftp-health.timer"):
            text = re.sub("/usr/local/bin/oftp[a-z_-]*", "/bin/true", (FOLDER / name).read_text())
            unit = Path(folder) / name
            unit.write_text(text.replace("User=oftp", "User=root"))
            done = subprocess.run(["systemd-analyze", "verify", "--man=no", unit], capture_output=True, text=True, timeout=60, check=False)
            expect((done.returncode, done.stderr), (0, ""), name)
            unit.write_text(text)
        security = ["systemd-analyze", "security", "--no-pager", "--offline=true", Path(folder) / "oftp-health.service"]
        done = subprocess.run(security, capture_output=True, text=True, timeout=60, check=False)
        exposure = float(re.search(r"Overall exposure level for .*: ([0-9.]+)", done.stdout).group(1))
        expect(exposure < 3, True, f"the exposure {exposure}")


def command_lines_are_accepted():
    """The command of Nagios and that of the unit are ones of `health`, which tells that no station runs."""
    nagios = re.search(r"command_line +.*?/oftp_station (.*)$", (FOLDER / "nagios.cfg").read_text(), re.M).group(1)
    nagios = nagios.replace("$ARG1$", "24").replace("$ARG2$", "48")
    unit = re.search(r"^ExecStart=\S+ (\S+) \S+ (.*)$", (FOLDER / "oftp-health.service").read_text(), re.M)
    with tempfile.TemporaryDirectory() as folder:
        for words in (nagios, f"health --db {unit.group(1)} {unit.group(2)}"):
            line = words.replace("/var/lib/oftp", folder)
            done = subprocess.run([PROGRAM, *shlex.split(line)], capture_output=True, text=True, timeout=60, check=False)
            expect((done.returncode, done.stdout), (2, "OFTP CRITICAL - no station runs\n"), f"{line}: {done.stderr}")


CASES = [
    rules_are_accepted,
    each_rule_passes_its_test,
    a_rule_that_never_fires_fails,
    a_limit_that_is_lower_fails,
    rules_ask_for_metrics_that_exist,
    dashboard_asks_for_metrics_that_exist,
    dashboard_asks_in_the_language_of_prometheus,
    dashboard_has_the_form_of_grafana,
    each_change_is_mailed,
    metrics_are_written_to_a_file,
    units_are_confined,
    command_lines_are_accepted,
]


def main():
    passed = failed = 0
    for case in CASES:
        try:
            case()
            passed += 1
        except NotTried as what:
            print(f"NOT TRIED without {what}")
        except (Wrong, OSError, AttributeError, subprocess.SubprocessError) as why:
            failed += 1
            print(f"FAILED {case.__name__}: {why!r}")
    print(f"{passed} passed, {failed} failed")
    return 1 if failed else 0


if __name__ == "__main__":
    sys.exit(main())
