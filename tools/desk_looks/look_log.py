"""The log, from the register's journal: each step with its names and moments, of a closed record too; searched, printed."""

import os
import time

from desk_looks.browser import Differs, free_ports, wait_until
from desk_looks.desk import Desk
from desk_looks.look_acts import served
from desk_looks.look_logins import asked
from desk_looks.network import closed, granted, switch, write_files

CUT, ENDS = ["N15-Q13", "TIE1-N14-N15", "TIE1-N15-N16"], ["CLOSE", "LEAVE", "LEAVE"]
ROWS = "return [...document.querySelectorAll('main table.log tbody tr')].map((row) => [...row.cells].map((cell) => cell.innerText.replace(/\\s+/g, ' ')))"

# The lines that a cell of a row takes at most: its texts that lie one above another.
LINES = """
const lines = (cell) => { const range = document.createRange(); range.selectNodeContents(cell);
  return new Set([...range.getClientRects()].filter(({ width }) => width).map(({ top }) => Math.round(top / 6))).size; };
return Math.max(...[...document.querySelectorAll('main table.log tbody tr')].map((row) => lines(row.cells[arguments[0]])));
"""
WHO = 3


def journaled(stage, page):
    """The made network with a journal beside its register."""
    desk = Desk(stage.work, "desk", write_files(stage.work), free_ports(2), ["--journal", os.path.join(stage.work, "journal")])
    return stage.begin(desk, page)


def rows(hand):
    return hand.browser.script(ROWS)


def search(hand, **parts):
    """Types what is searched for; the other fields are empty."""
    for name in ("clearance", "point", "section", "employee", "login", "day", "reply"):
        hand.browser.script("""const input = document.querySelector('main [data-name="' + arguments[0] + '"]');
            input.value = arguments[1]; input.dispatchEvent(new Event('input'))""", name, parts.get(name, ""))
    time.sleep(0.3)
    return rows(hand)


def log(stage):
    hand = journaled(stage, "board")
    hand.speak("DISP1")
    for command in [*closed("LEE", "N15-F13", CUT, ENDS), switch(["OPEN N14-Q21"], "DISP2")]:
        hand.post(command)
    hand.turn("log")
    hand.shows("The whole journal was read")
    whole = search(hand)
    if len(whole) < 60 or whole[0][4] != "switch, OPEN N14-Q21" or whole[-1][4] != "request N15-F13":
        raise Differs(f"the log has {len(whole)} rows, from {whole[:1]} to {whole[-1:]}")
    hand.picture("log")
    searched(hand, whole)
    of_record(hand)
    goes_on(hand)


def searched(hand, whole):
    for parts, wanted in (({"clearance": "DISP2/1"}, lambda row: row[2] == "DISP2/1"), ({"point": "TIE1-N14"}, lambda row: "TIE1-N14-N15" in row[4]),
                          ({"employee": "REED"}, lambda row: row[3] == "REED"), ({"clearance": "LEE", "employee": "DISP1", "point": "N15-Q13"}, lambda row: row[3] == "DISP1" and "N15-Q13" in row[4])):
        found = search(hand, **parts)
        if not found or found != [row for row in whole if wanted(row)]:
            raise Differs(f"{parts} finds {len(found)} rows, {found[:2]}")
    day = whole[0][1][:10]
    if search(hand, day="2001-01-01") or search(hand, day=day) != [row for row in whole if row[1].startswith(day)]:
        raise Differs("the day does not search")


def has_whole_log(found):
    """The rows of LEE/1 have its first step with its three names, and its life from request to restore."""
    step = next(row for row in found if row[0] == "1.1")
    if step[1] != "OPEN N15-Q13" or not all(name in cell for name, cell in zip(("DISP1", "REED", "REED"), step[2:])):
        raise Differs(f"the first step is {step}")
    for words in ("request N15-F13", "grant", "release, notified, clear", "restore, "):
        if not any(words in row[-1] for row in found):
            raise Differs(f"the log of LEE/1 does not have: {words}")


def of_record(hand):
    """A closed record's page and its printed order have who gave, repeated and reported each step."""
    hand.turn("clearance/LEE/1")
    hand.shows("It is over; its record stays")
    wait_until(lambda: len(rows(hand)) > 10, "the log of LEE/1")
    has_whole_log(rows(hand))
    hand.browser.script("document.querySelector('.story').scrollIntoView()")
    hand.picture("log-record")
    hand.press("print 1")
    hand.shows("ORDER LEE/1 ROUND 1", "main .paper")
    hand.shows("Repeated by", "main .paper")
    hand.browser.on_paper(hand.path("log-paper"))


def goes_on(hand):
    """What comes to the journal comes to the page; a refusal is there too."""
    hand.turn("log")
    search(hand)
    hand.turn("clearance/DISP2/1")
    hand.carry_out("instruct", "instruct step 1 of DISP2/1")
    hand.turn("log")
    hand.shows("instruct 1 OPEN N14-Q21")
    hand.turn("shift")
    hand.shows("The journal has come to number", "main .paper")


def live_by_log(stage):
    """Where there is a log, a section that was found live is an alarm at a desk without a name too, and after a reload."""
    hand = journaled(stage, "board")
    commands = granted("KIM", "N13-F12", ["N13-Q11", "N13-B1", "N13-Q13"])
    for command in [*commands, {"by": "KIM", "do": "test", "clearance": "KIM/1", "section": "N13-F11", "dead": False}]:
        hand.post(command)
    hand.shows("TESTED LIVE: N13-F11", "#alarms")
    hand.open("diagram")
    hand.shows("TESTED LIVE: N13-F11", "#alarms")
    hand.shows("the alarms of the log", "#nameless")
    hand.post({"by": "KIM", "do": "release", "clearance": "KIM/1", "notified": True, "clear": True})
    wait_until(lambda: hand.browser.script("return document.getElementById('alarms').hidden"), "the end of the alarm")


def no_journal(stage):
    """A desk without a journal says so, and shows no log at a clearance."""
    hand = stage.network([switch(["OPEN N14-Q21"])], "log")
    hand.shows("This desk shows no log")
    hand.speak("DISP1")
    hand.turn("clearance/DISP1/1")
    hand.shows("Next is step 1")
    hand.lacks("Reported done by", "main")


def who(stage):
    """Who gave a command, with the login, takes one line where there is room beside it."""
    desk, hand = served(stage)
    step = {"clearance": "JONES/1", "step": 1}
    long = [f"OPEN N{station}-Q{feeder}3" for station in (11, 12, 14, 15, 16) for feeder in (1, 2, 3)]
    for by, command in (("DISP1", {"do": "instruct", **step}), ("REED", {"do": "repeat", "text": "OPEN N13-Q11", **step}),
                        ("REED", {"do": "report", "done": True, **step}),
                        ("DISP1", {"do": "switch", "steps": long})):
        status, body = asked(desk, "command", "anna", {"at": int(time.time()), "by": by, **command})
        if status != 200:
            raise Differs(f"{by} is answered {status} {body}")
    hand.turn("log")
    hand.shows("REED (login anna)")
    for size in ((1366, 768), (1440, 900), (1920, 1080)):
        hand.browser.size(*size)
        time.sleep(0.3)
        if (lines := hand.browser.script(LINES, WHO)) > 1:
            raise Differs(f"who gave a command takes {lines} lines at {size[0]}")
    hand.picture("log-who")


LOOKS = {"log": log, "log who": who, "log live": live_by_log, "log without journal": no_journal}
