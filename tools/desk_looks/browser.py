"""Chromium by its driver, for the looks at the desk; everything stays on 127.0.0.1."""

import base64
import json
import os
import shutil
import socket
import subprocess
import time
import urllib.error
import urllib.request

NEEDED = {"chromium": "chromium", "chromedriver": "chromium-driver", "nginx": "nginx", "openssl": "openssl", "rsync": "rsync"}
TAB, ENTER, ALT, SHIFT = "\ue004", "\ue007", "\ue00a", "\ue008"
ALL = "\ue009a\ue000"  # what is in a field, chosen, so that the next sign takes its place
REBOUND = "rebound.example"  # a foreign name that leads to this machine
LONG = 30 * max(1, int(os.getloadavg()[0] / os.cpu_count()))  # seconds that anything is waited for; more on a busy machine

direct = urllib.request.build_opener(urllib.request.ProxyHandler({}))


def say(text):
    print(text, flush=True)


class Differs(Exception):
    """What was to be seen was not."""


def missing():
    os.environ["PATH"] += ":/usr/sbin"
    return [(name, package) for name, package in NEEDED.items() if not shutil.which(name)]


def free_ports(count):
    sockets = [socket.socket() for _ in range(count)]
    for one in sockets:
        one.bind(("127.0.0.1", 0))
    ports = [one.getsockname()[1] for one in sockets]
    for one in sockets:
        one.close()
    return ports


def wait_until(test, what, seconds=LONG):
    end = time.monotonic() + seconds
    while time.monotonic() < end:
        found = test()
        if found:
            return found
        time.sleep(0.1)
    raise Differs(f"{what}: not within {seconds} seconds")


class Browser:
    """Chromium by its driver's WebDriver protocol."""

    def __init__(self, width=1440, height=1020):
        self.base = f"http://127.0.0.1:{free_ports(1)[0]}"
        environment = dict(os.environ, TZ="Europe/Vienna")
        self.driver = subprocess.Popen(["chromedriver", f"--port={self.base.rsplit(':', 1)[1]}", "--log-level=SEVERE"],
                                       stdout=subprocess.DEVNULL, env=environment)
        self.session = ""
        wait_until(self.is_up, "the driver of chromium")
        words = ["--headless=new", "--disable-gpu", f"--window-size={width},{height}", "--no-proxy-server", "--no-first-run",
                 "--disable-background-networking", "--disable-component-update", "--disable-sync", "--hide-scrollbars",
                 f"--host-resolver-rules=MAP {REBOUND} 127.0.0.1, MAP * ~NOTFOUND, EXCLUDE 127.0.0.1, EXCLUDE localhost"]
        if os.geteuid() == 0:
            words.append("--no-sandbox")
        options = {"browserName": "chrome", "goog:loggingPrefs": {"browser": "ALL"},
                   "goog:chromeOptions": {"binary": shutil.which("chromium"), "args": words}}
        found = self.call("POST", "/session", {"capabilities": {"alwaysMatch": options}})
        self.session = f"/session/{found['sessionId']}"

    def is_up(self):
        try:
            return self.call("GET", "/status")["ready"]
        except (OSError, urllib.error.URLError):
            return False

    def call(self, method, path, body=None):
        data = None if body is None else json.dumps(body).encode()
        request = urllib.request.Request(self.base + path, data, {"Content-Type": "application/json"}, method=method)
        try:
            with direct.open(request, timeout=6 * LONG) as answer:
                return json.load(answer)["value"]
        except urllib.error.HTTPError as fault:
            raise Differs(f"the browser: {json.load(fault)['value']['message'].splitlines()[0]}") from None

    def own(self, method, path, body=None):
        return self.call(method, self.session + path, body)

    def go(self, address):
        self.own("POST", "/url", {"url": address})

    def script(self, text, *values):
        return self.own("POST", "/execute/sync", {"script": text, "args": list(values)})

    def find(self, css):
        found = wait_until(lambda: self.own("POST", "/elements", {"using": "css selector", "value": css}), f"on the page: {css}")
        return list(found[0].values())[0]

    def click(self, css):
        wait_until(lambda: self.clicked(css), f"a press on {css}")

    def clicked(self, css):
        """Whether it was there to be pressed: a panel may be drawn again just then."""
        element = self.find(css)
        try:
            self.script("document.querySelector(arguments[0])?.scrollIntoView({block: 'center'})", css)
            if self.script("return document.querySelector(arguments[0])?.dataset.fresh", css):
                return False
            self.point(1, 1)
            self.own("POST", f"/element/{element}/click", {})
        except Differs as fault:
            if "stale" in str(fault) or "intercepted" in str(fault):
                return False
            raise
        return True

    def point(self, *places):
        """Moves the pointer to a place of the window, or to several one after another."""
        moves = [{"type": "pointerMove", "duration": 0, "x": x, "y": y} for x, y in zip(places[::2], places[1::2])]
        self.own("POST", "/actions", {"actions": [{"type": "pointer", "id": "mouse", "parameters": {"pointerType": "mouse"}, "actions": moves}]})

    def press(self):
        """Presses where the pointer is."""
        moves = [{"type": "pointerDown", "button": 0}, {"type": "pointerUp", "button": 0}]
        self.own("POST", "/actions", {"actions": [{"type": "pointer", "id": "mouse", "parameters": {"pointerType": "mouse"}, "actions": moves}]})

    def touch(self, x, y):
        """A finger's touch."""
        moves = [{"type": "pointerMove", "duration": 0, "x": x, "y": y}, {"type": "pointerDown", "button": 0}, {"type": "pointerUp", "button": 0}]
        self.own("POST", "/actions", {"actions": [{"type": "pointer", "id": "finger", "parameters": {"pointerType": "touch"}, "actions": moves}]})

    def settled(self, css):
        """It is there; and new controls, which take no press for a moment, have settled."""
        self.find(css)
        wait_until(lambda: not self.script("return document.querySelector('[data-fresh]') !== null"), "settled controls")

    def type(self, css, text):
        self.settled(css)
        self.script("document.querySelector(arguments[0])?.focus()", css)
        self.settled(css)
        wait_until(lambda: self.typed(css, text), f"typing into {css}")

    def typed(self, css, text):
        """Whether it was typed: a panel may be drawn again just then, before the first sign."""
        try:
            self.own("POST", f"/element/{self.find(css)}/value", {"text": text})
        except Differs as fault:
            if "stale" in str(fault):
                return False
            raise
        return True

    def keys(self, text):
        steps = [{"type": kind, "value": sign} for sign in text for kind in ("keyDown", "keyUp")]
        self.own("POST", "/actions", {"actions": [{"type": "key", "id": "keys", "actions": steps}]})

    def hold_enter(self, seconds):
        """Enter, held down for so long."""
        def key(kind, again):
            words = {"type": kind, "key": "Enter", "code": "Enter", "windowsVirtualKeyCode": 13, "text": "\r", "autoRepeat": again}
            self.own("POST", "/goog/cdp/execute", {"cmd": "Input.dispatchKeyEvent", "params": words})
        end, again = time.monotonic() + seconds, False
        while time.monotonic() < end:
            key("keyDown", again)
            again = True
            time.sleep(0.03)
        key("keyUp", False)

    def chord(self, held, sign):
        """A key while another is held down."""
        pairs = [("keyDown", held), ("keyDown", sign), ("keyUp", sign), ("keyUp", held)]
        self.own("POST", "/actions", {"actions": [{"type": "key", "id": "keys", "actions": [{"type": kind, "value": key} for kind, key in pairs]}]})

    def system_is(self, look):
        """The system asks for a look, light or dark."""
        words = {"features": [{"name": "prefers-color-scheme", "value": look}]}
        self.own("POST", "/goog/cdp/execute", {"cmd": "Emulation.setEmulatedMedia", "params": words})

    def picture(self, path):
        with open(path, "wb") as file:
            file.write(base64.b64decode(self.own("GET", "/screenshot")))

    def whole_picture(self, path):
        """All of the page, what is below the window too."""
        wide, high = self.script("const { scrollWidth, scrollHeight } = document.documentElement; return [scrollWidth, scrollHeight]")
        words = {"captureBeyondViewport": True, "clip": {"x": 0, "y": 0, "width": wide, "height": high, "scale": 1}}
        found = self.own("POST", "/goog/cdp/execute", {"cmd": "Page.captureScreenshot", "params": words})
        with open(path, "wb") as file:
            file.write(base64.b64decode(found["data"]))

    def on_paper(self, path):
        """The page as it is printed."""
        media = {"cmd": "Emulation.setEmulatedMedia", "params": {"media": "print"}}
        self.own("POST", "/goog/cdp/execute", media)
        self.picture(path)
        self.own("POST", "/goog/cdp/execute", dict(media, params={"media": ""}))

    def printed(self, path):
        """The page as a PDF, small enough that it has several pages."""
        words = {"paperWidth": 5.8, "paperHeight": 5, "printBackground": False}
        found = base64.b64decode(self.own("POST", "/goog/cdp/execute", {"cmd": "Page.printToPDF", "params": words})["data"])
        with open(path, "wb") as file:
            file.write(found)
        return found

    def complaints(self):
        """Errors of the page's scripts; a refusal's status is none."""
        entries = self.own("POST", "/se/log", {"type": "browser"})
        return [one["message"] for one in entries if one["level"] == "SEVERE" and "Failed to load resource" not in one["message"]]

    def complain(self):
        found = self.complaints()
        if found:
            raise Differs(f"the page's scripts complain: {found}")

    def size(self, width, height=1020):
        """As on a screen of this size; 0 for that of the window."""
        words = {"width": width, "height": height, "deviceScaleFactor": 1, "mobile": False}
        cdp = "Emulation.setDeviceMetricsOverride" if width else "Emulation.clearDeviceMetricsOverride"
        self.own("POST", "/goog/cdp/execute", {"cmd": cdp, "params": words if width else {}})

    def end(self):
        try:
            if self.session:
                self.own("DELETE", "")
        except (Differs, OSError):
            pass
        self.driver.terminate()
        self.driver.wait(LONG)
