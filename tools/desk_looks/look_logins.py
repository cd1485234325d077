"""Logins: the names that one may use are offered, and the register refuses the others, whatever the page does."""

import base64
import json
import os
import urllib.error
import urllib.request

from desk_looks.browser import Differs, direct, free_ports
from desk_looks.desk import Desk
from desk_looks.network import ordered, write_files
from desk_looks.stage import give

USERS = {"anna": "one", "bert": "two"}
MAY = [("anna", "DISP1"), ("anna", "REED"), ("anna", "DALE"), ("bert", "JONES")]
OFFERED = "return [...document.querySelectorAll('#caller option')].map((one) => one.value).filter(Boolean).sort()"


def with_logins(stage, more=()):
    users, logins = (os.path.join(stage.work, name) for name in ("users", "logins.csv"))
    with open(users, "w", encoding="utf-8") as file:
        file.write("".join(f"{name}:{{PLAIN}}{word}\n" for name, word in USERS.items()))
    with open(logins, "w", encoding="utf-8") as file:
        file.write("login,employee\n" + "".join(f"{login},{name}\n" for login, name in [*MAY, *more]))
    desk = Desk(stage.work, "desk", write_files(stage.work), free_ports(2), ["--users", users, "--logins", logins])
    give(desk, ordered("JONES", "N13-F12", ["N13-Q11", "N13-B1", "TIE1-N12-N13", "TIE1-N13-N14"]))
    return desk


def asked(desk, path, login, command=None, **more):
    """The status and the body of a request by this login."""
    headers = {"Authorization": "Basic " + base64.b64encode(f"{login}:{USERS[login]}".encode()).decode(), "Content-Type": "application/json", **more}
    body = None if command is None else json.dumps(command).encode()
    try:
        with direct.open(urllib.request.Request(f"{desk.address}{path}", body, headers), timeout=20) as answer:
            return answer.status, answer.read().decode()
    except urllib.error.HTTPError as fault:
        return fault.code, fault.read().decode()


def refuses(desk):
    """By command and by view, in another's name; what a client says of itself counts for nothing."""
    for path, login, command, more in (("command", "bert", {"at": 1, "by": "DISP1", "do": "switch", "steps": ["OPEN N14-Q21"]}, {}),
                                       ("clearance/DISP1/JONES/1", "bert", None, {}), ("clearance/KIM/JONES/1", "anna", None, {}),
                                       ("clearance/DISP1/JONES/1", "bert", None, {"X-Forwarded-User": "anna"})):
        status, body = asked(desk, path, login, command, **more)
        if (status, json.loads(body).get("fault")) != (403, "NotCaller"):
            raise Differs(f"{path} by {login} is answered {status} {body[:80]}")
    if asked(desk, "clearance/DISP1/JONES/1", "anna")[0] != 200 or asked(desk, "board", "bert")[0] != 200:
        raise Differs("a login may not do what it may")


def open_as(stage, hand, login):
    """Logs in by an address, as the browser's own question would."""
    hand.browser.go(f"http://{login}:{USERS[login]}@{stage.desk.address[7:]}board")
    hand.open("clearance/JONES/1")


def logins(stage):
    desk = stage.desk = with_logins(stage)
    desk.start(401)
    hand = stage.bare_window()
    open_as(stage, hand, "anna")
    if hand.browser.script(OFFERED) != ["DALE", "DISP1", "REED"]:
        raise Differs(f"anna is offered {hand.browser.script(OFFERED)}")
    hand.shows("anna may use these names", "#believed")
    hand.speak("DISP1")
    hand.carry_out("instruct", "instruct step 1 of JONES/1")
    hand.press("as REED")
    hand.repeat("OPEN N13-Q11")
    hand.lacks("Speak as KIM", "main")
    hand.picture("logins")
    refuses(desk)


LOOKS = {"logins": logins}
