"""Who works at a desk, and who has left it: a login is ended at the page, and whoever comes next is asked for one."""

import contextlib
import os
import re
import shutil
import socket
import subprocess

from desk_looks.browser import Differs, free_ports, say, wait_until
from desk_looks.desk import TOP
from desk_looks.firefox import Firefox
from desk_looks.look_logins import OFFERED, USERS, open_as, with_logins

# What a page of this address gets for its next request: a browser without a login asks for one, which is ended here.
STATUS = """
const end = new AbortController();
setTimeout(() => end.abort(), 3000);
return fetch('board', { cache: 'no-store', signal: end.signal }).then(({ status }) => status, () => 0);
"""
TEXT = "return document.body.innerText"


def begin(stage):
    desk = stage.desk = with_logins(stage, [("bert", "DISP1")])
    desk.start(401)
    return desk


def ends_login(hand):
    """Anna leaves, and Bert comes: her name is neither used nor chosen any more."""
    hand.shows("anna may use these names", "#believed")
    hand.speak("DISP1")
    hand.picture("log-off-before")
    hand.browser.click("#log-off")
    wait_until(lambda: "anna is logged off" in hand.browser.script(TEXT), "who is logged off")
    hand.picture("log-off-after")
    found = hand.browser.script(STATUS)
    if found not in (0, 401):
        raise Differs(f"after the log-off a request is answered {found}")


def bert_comes(stage, hand):
    open_as(stage, hand, "bert")
    hand.shows("bert may use these names", "#believed")
    if hand.browser.script("return document.getElementById('caller').value"):
        raise Differs("the name of the one who left is still chosen")
    if hand.browser.script(OFFERED) != ["DISP1", "JONES"]:
        raise Differs(f"bert is offered {hand.browser.script(OFFERED)}")


def log_off(stage):
    begin(stage)
    hand = stage.bare_window()
    open_as(stage, hand, "anna")
    ends_login(hand)
    bert_comes(stage, hand)


def takes_connections(port):
    with socket.socket() as one:
        return one.connect_ex(("127.0.0.1", port)) == 0


@contextlib.contextmanager
def before_others(desk, work):
    """The server that desks on other machines come through, without its TLS; gives its address."""
    port, users = free_ports(1)[0], os.path.join(desk.run_folder(), "desk", "run", "users")
    with open(os.path.join(TOP, "package", "port-443.conf"), encoding="utf-8") as file:
        text = re.sub(r"(?m)^ *(ssl_certificate.*|access_log .*)\n", "", file.read())
    for old, new in (("443 ssl", f"127.0.0.1:{port}"), ("register.example", "127.0.0.1"), ("127.0.0.1:8090", f"127.0.0.1:{desk.ports[0]}"),
                     ("/usr/share/gridclear/checks.conf", os.path.join(TOP, "desk", "checks.conf")), ("/etc/gridclear/users", f'"{users}"')):
        text = text.replace(old, new)
    path = os.path.join(work, "others.conf")
    with open(path, "w", encoding="utf-8") as file:
        file.write(f"pid \"{work}/others.pid\";\nerror_log \"{work}/others.log\";\nevents {{}}\nhttp {{\n{text}}}\n")
    server = subprocess.Popen(["nginx", "-e", "stderr", "-p", work, "-c", path, "-g", "daemon off;"], stderr=subprocess.DEVNULL)
    try:
        wait_until(lambda: takes_connections(port), "the server for other machines")
        yield f"http://127.0.0.1:{port}/"
    finally:
        server.terminate()
        server.wait()


def elsewhere(stage):
    """The same through the server for desks on other machines."""
    desk = begin(stage)
    with before_others(desk, stage.work) as address:
        desk.address = address
        hand = stage.bare_window()
        open_as(stage, hand, "anna")
        ends_login(hand)
        bert_comes(stage, hand)
        hand.browser.go("about:blank")


def in_firefox(stage):
    """The same in Firefox, where Debian's package firefox-esr is there."""
    if not shutil.which("firefox-esr"):
        say("  firefox-esr is not there: not tried")
        return
    desk = begin(stage)
    firefox = Firefox(stage.work)
    try:
        firefox.go(f"http://anna:{USERS['anna']}@{desk.address[7:]}board")
        firefox.go(f"{desk.address}#/board")
        wait_until(lambda: firefox.script("return document.body.dataset.ready === 'yes'"), "the page in Firefox")
        if firefox.script("return document.getElementById('believed').textContent") != "anna may use these names.":
            raise Differs("Firefox is not logged in as anna")
        firefox.script("document.getElementById('log-off').click()")
        wait_until(lambda: "anna is logged off" in firefox.script(TEXT), "who is logged off in Firefox")
        if not firefox.asks_for_login("fetch('board', { cache: 'no-store' })"):
            raise Differs("after the log-off Firefox asks for no login")
    finally:
        firefox.end()


LOOKS = {"log off": log_off, "log off elsewhere": elsewhere, "log off firefox": in_firefox}
