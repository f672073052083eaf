"""A headless browser for checks of a page: Chromium, driven by its DevTools protocol over two pipes.

None of its requests leaves the machine: it resolves no address but 127.0.0.1.
"""

import base64
import json
import os
import select
import shutil
import subprocess
import time

# The time limit for anything on a loaded machine.
LONG = 60
WORDS = [
    *("--headless=new", "--remote-debugging-pipe", "--no-first-run", "--no-default-browser-check", "--disable-gpu"),
    *("--disable-dev-shm-usage", "--disable-extensions", "--disable-sync", "--disable-background-networking", "--disable-component-update"),
    *("--disable-domain-reliability", "--disable-client-side-phishing-detection", "--host-resolver-rules=MAP * ~NOTFOUND, EXCLUDE 127.0.0.1"),
]


class Failed(Exception):
    """Something that the browser couldn't do."""


def chromium():
    """The browser's program, if it is installed."""
    return shutil.which("chromium")


class Browser:
    """A process of the browser, with its profile in a folder, and in a time zone or that of this machine."""

    def __init__(self, room, zone=None):
        given, self.output = os.pipe()
        self.input, told = os.pipe()
        self.errors = open(room / "browser", "wb")
        # Only in containers does the browser run as root, and its sandbox doesn't.
        words = [chromium(), *WORDS, f"--user-data-dir={room / 'profile'}", *(["--no-sandbox"] if os.geteuid() == 0 else [])]
        # It reads its descriptor 3 and writes descriptor 4. Only bash copies a descriptor of more than one digit.
        shell = ["bash", "-c", f'exec "$@" 3<&{given} 4>&{told}', "bash", *words]
        how = {"stdin": subprocess.DEVNULL, "stdout": self.errors, "stderr": self.errors, "start_new_session": True}
        environment = {**os.environ, **({"TZ": zone} if zone else {})}
        self.process = subprocess.Popen(shell, pass_fds=(given, told), env=environment, **how)
        os.close(given)
        os.close(told)
        self.came = b""
        self.number = 0
        self.events = {}

    def __enter__(self):
        return self

    def __exit__(self, *_why):
        try:
            self.call("Browser.close")
            self.process.wait(10)
        except (Failed, OSError, subprocess.TimeoutExpired):
            os.killpg(self.process.pid, 9)
            self.process.wait()
        os.close(self.output)
        os.close(self.input)
        self.errors.close()

    def call(self, method, session=None, **parameters):
        """Sends the browser a command, and returns its result. Other messages are kept in `events`, by session."""
        self.number += 1
        message = {"id": self.number, "method": method, "params": parameters, **({"sessionId": session} if session else {})}
        left = memoryview(json.dumps(message).encode() + b"\0")
        while left:
            left = left[os.write(self.output, left) :]
        while True:
            told = self.hear(time.monotonic() + LONG)
            if told.get("id") != self.number:
                self.events.setdefault(told.get("sessionId"), []).append(told)
            elif "error" in told:
                raise Failed(f"{method}: {told['error']}")
            else:
                return told["result"]

    def hear(self, until):
        """The next message of the browser."""
        while b"\0" not in self.came:
            ready, _, _ = select.select([self.input], [], [], max(until - time.monotonic(), 0))
            piece = os.read(self.input, 1 << 20) if ready else b""
            if not piece:
                raise Failed("the browser ended" if ready else "the browser says nothing")
            self.came += piece
        message, _, self.came = self.came.partition(b"\0")
        return json.loads(message)


class Tab:
    """A page of the browser in a window of this width, in a light or a dark scheme."""

    def __init__(self, browser, width, height, scheme="light"):
        self.browser = browser
        self.target = browser.call("Target.createTarget", url="about:blank")["targetId"]
        self.session = browser.call("Target.attachToTarget", targetId=self.target, flatten=True)["sessionId"]
        for part in ("Page", "Runtime", "Network", "Log"):
            self.call(f"{part}.enable")
        self.call("Emulation.setDeviceMetricsOverride", width=width, height=height, deviceScaleFactor=1, mobile=False)
        self.call("Emulation.setEmulatedMedia", features=[{"name": "prefers-color-scheme", "value": scheme}])

    def __enter__(self):
        return self

    def __exit__(self, *_why):
        self.browser.call("Target.closeTarget", targetId=self.target)

    def call(self, method, **parameters):
        return self.browser.call(method, self.session, **parameters)

    def events(self, *methods):
        """The browser's messages about this page, of these kinds."""
        told = self.browser.events.get(self.session, [])
        return [event["params"] for event in told if event["method"] in methods]

    def first(self, script):
        """Runs a script in each page before the page's own."""
        self.call("Page.addScriptToEvaluateOnNewDocument", source=script)

    def go(self, url):
        told = self.call("Page.navigate", url=url)
        if "errorText" in told:
            raise Failed(f"{url}: {told['errorText']}")

    def value(self, expression):
        """The value of an expression in the page."""
        told = self.call("Runtime.evaluate", expression=expression, returnByValue=True, awaitPromise=True)
        if "exceptionDetails" in told:
            raise Failed(f"{expression[:80]}: {told['exceptionDetails']}")
        return told["result"].get("value")

    def until(self, expression, limit=LONG):
        """Waits until an expression holds in the page, and returns the seconds that this took."""
        begin = time.monotonic()
        while not self.value(expression):
            if time.monotonic() - begin > limit:
                raise Failed(f"not within {limit} seconds: {expression}")
            time.sleep(0.02)
        return time.monotonic() - begin

    def key(self, name):
        """Presses a key: Tab, Enter, or that of a digit."""
        number, text = {"Tab": (9, ""), "Enter": (13, "\r")}.get(name) or (ord(name), name)
        for kind, typed in (("keyDown", text), ("keyUp", "")):
            self.call("Input.dispatchKeyEvent", type=kind, key=name, code=name, windowsVirtualKeyCode=number, text=typed)

    def type(self, text):
        """Types a text where the focus is."""
        self.call("Input.insertText", text=text)

    def requests(self):
        """The addresses that the page requested, of any kind, except those within its own text."""
        asked = [event["request"]["url"] for event in self.events("Network.requestWillBeSent")]
        return [url for url in asked if not url.startswith("data:")]

    def complaints(self, missing=()):
        """The exceptions of the page's script, what the browser blocked or reported, and the dialogs that it opened. That one of these paths has
        nothing is no complaint."""
        thrown = [event["exceptionDetails"]["text"] for event in self.events("Runtime.exceptionThrown")]
        entries = [event["entry"] for event in self.events("Log.entryAdded")]
        noticed = [it["text"] for it in entries if not (it.get("url", "").endswith(tuple(missing)) and "404" in it["text"])]
        said = [str(event["args"]) for event in self.events("Runtime.consoleAPICalled")]
        return thrown + noticed + said + [event["message"] for event in self.events("Page.javascriptDialogOpening")]

    def picture(self, path, is_whole=False):
        """Writes a picture of the window, or of the whole page."""
        clip = {}
        if is_whole:
            width, height = self.value("[innerWidth, document.documentElement.scrollHeight]")
            clip = {"captureBeyondViewport": True, "clip": {"x": 0, "y": 0, "width": width, "height": height, "scale": 1}}
        told = self.call("Page.captureScreenshot", format="png", **clip)
        path.write_bytes(base64.b64decode(told["data"]))
