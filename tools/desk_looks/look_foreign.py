"""Pages of other sites in the same browser: none of them has a command carried out, or holds the register up."""

import http.server
import json
import threading
import time

from desk_looks.browser import REBOUND, Differs, say, wait_until
from desk_looks.desk import tables
from desk_looks.network import switch

DEADLINE = 2  # seconds that tools/desk gives a connection to the register; an idle one costs a quarter of them
COMMAND = {"at": 1, "by": "DISP4", "do": "switch", "steps": ["OPEN N14-Q21"]}

# What a page may try at an address without being asked. It says when it has done so, and leaves two idle connections then.
PAGE = """<!doctype html><title>another page</title><link rel="preconnect" href="%(at)s" crossorigin><link rel="preconnect" href="%(at)s">
<iframe name="sink"></iframe><form id="form" method="post" target="sink" enctype="text/plain" action="%(at)s/command"><input name='%(begin)s' value='%(end)s'></form>
<script>
const body = %(command)s;
const tries = [
  fetch("%(at)s/command", { mode: "no-cors", method: "POST", body }),
  fetch("%(at)s/command", { mode: "no-cors", method: "POST", body, credentials: "include" }),
  fetch("%(at)s/command", { mode: "cors", method: "POST", body, headers: { "Content-Type": "application/json" } }),
  new Promise((settle) => { const image = new Image(); image.onload = image.onerror = settle; image.src = "%(at)s/network"; }),
  Promise.resolve(navigator.sendBeacon("%(at)s/command", body)),
];
document.getElementById("form").submit();
const preconnect = (anonymous) => { const link = document.createElement("link"); link.rel = "preconnect"; link.href = "%(at)s"; if (anonymous) link.crossOrigin = ""; document.head.append(link); };
Promise.allSettled(tries).then(() => setTimeout(() => { preconnect(false); preconnect(true); setTimeout(() => { document.title = "tried"; }, 200); }, 500));
</script>"""


class Foreign:
    """Another site: a page for each address that is attacked."""

    def __init__(self):
        pages = self

        class Handler(http.server.BaseHTTPRequestHandler):
            def log_message(self, *_):
                pass

            def do_GET(self):
                text = pages.text(self.path[1:]).encode()
                self.send_response(200)
                self.send_header("Content-Type", "text/html")
                self.end_headers()
                self.wfile.write(text)

        self.server = http.server.ThreadingHTTPServer(("127.0.0.1", 0), Handler)
        self.port = self.server.server_address[1]
        threading.Thread(target=self.server.serve_forever, daemon=True).start()

    def text(self, address):
        command = json.dumps(COMMAND)
        place = command.index(", ")
        return PAGE % {"at": f"http://{address}", "command": json.dumps(command), "begin": command[:place] + ',"a":"', "end": '"' + command[place:]}

    def end(self):
        self.server.shutdown()


def answered(hand, number):
    """How long a desk's command takes beside it."""
    begun = time.monotonic()
    hand.post(switch([f"OPEN N15-Q{number % 3 + 1}1"]))
    return time.monotonic() - begun


def foreign(stage):
    hand = stage.network()
    other = stage.windows.get(1)
    site, worst, own = Foreign(), 0, 0
    try:
        for name in ("127.0.0.1", "localhost"):
            for host in ("127.0.0.1", "localhost", REBOUND):
                for kind, port in zip(("page", "register"), stage.desk.ports):
                    before = len(tables(stage.desk.base)["clearance"])
                    other.go("about:blank")
                    other.go(f"http://{name}:{site.port}/{host}:{port}")
                    worst, own = max(worst, answered(hand, own)), own + 1
                    wait_until(lambda: other.script("return document.title") == "tried", f"the page of {name} to be done with {host}:{port}")
                    worst, own = max(worst, answered(hand, own)), own + 1
                    if len(tables(stage.desk.base)["clearance"]) != before + 2:
                        raise Differs(f"a page of {name}:{site.port} had a command carried out at the {kind}'s port, by {host}")
        rebound(stage, other)
    finally:
        other.go("about:blank")
        other.complaints()
        site.end()
    say(f"  nothing was carried out; the slowest of {own} commands beside it took {worst:.1f} seconds")
    if worst > DEADLINE:
        raise Differs(f"a desk's command waited {worst:.1f} seconds, and the deadline is {DEADLINE}")


def rebound(stage, browser):
    """A page under a foreign name that leads here is of the same origin as what answers it: nothing does."""
    for port in stage.desk.ports:
        browser.go("about:blank")
        try:
            browser.go(f"http://{REBOUND}:{port}/board")
        except Differs:
            continue
        text = browser.script("return document.body.innerText")
        if "BOARD" in text or "accepted" in text:
            raise Differs(f"{REBOUND}:{port} answers: {text[:80]}")


LOOKS = {"foreign": foreign}
