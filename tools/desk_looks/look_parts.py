"""A journal that was rotated: the log, the times of steps and an alarm are all there, at a desk that was open and at a new one."""

import os

from desk_looks.browser import Differs, free_ports, wait_until
from desk_looks.desk import Desk, gridclear
from desk_looks.look_log import CUT, ENDS, rows, search
from desk_looks.network import closed, granted, switch, write_files

LIVE = [*granted("KIM", "N13-F12", ["N13-Q11", "N13-B1", "N13-Q13"]), {"by": "KIM", "do": "test", "clearance": "KIM/1", "section": "N13-F11", "dead": False}]


def rotate(desk, journal, number):
    """As the package does it: the journal becomes a part, and the next one begins, while the register is stopped."""
    desk.stop()
    folder = os.path.dirname(journal)
    gridclear("journal", journal, "--db", desk.base, "--next", os.path.join(folder, "journal-next"))
    os.rename(journal, os.path.join(folder, f"journal-2026-01-0{number}T000000Z"))
    os.rename(os.path.join(folder, "journal-next"), journal)
    desk.start()


def begin(stage):
    journal = os.path.join(stage.work, "journal")
    desk = Desk(stage.work, "desk", write_files(stage.work), free_ports(2), ["--journal", journal])
    return stage.begin(desk, "log"), desk, journal


def give(hand, commands):
    for command in commands:
        hand.post(command)


def whole(hand, count, where):
    """The log has all entries, each once."""
    hand.turn("log")
    wait_until(lambda: "The whole journal was read" in hand.text() and f"{count} of {count} entries" in hand.text(), f"{where}: {count} entries, not {hand.text('main [role=status]')}")
    numbers = [row[0] for row in rows(hand)]
    if numbers != [str(number) for number in range(count, 0, -1)]:
        raise Differs(f"{where}: the entries are {numbers[:5]} to {numbers[-5:]}")


def rotated(stage):
    hand, desk, journal = begin(stage)
    first = closed("LEE", "N15-F13", CUT, ENDS)
    give(hand, first)
    whole(hand, len(first), "before")
    rotate(desk, journal, 1)
    give(hand, LIVE)
    rotate(desk, journal, 2)
    give(hand, [switch(["OPEN N14-Q21"])])
    count = len(first) + len(LIVE) + 1
    whole(hand, count, "at the desk that was open")
    hand.shows("TESTED LIVE: N13-F11", "#alarms")
    fresh = stage.window("diagram")
    fresh.shows("TESTED LIVE: N13-F11", "#alarms")
    whole(fresh, count, "at a new desk")
    if len(search(fresh, clearance="LEE/1")) != len(first):
        raise Differs(f"of LEE/1 are found {len(search(fresh, clearance='LEE/1'))} entries")
    of_record(stage)


def of_record(stage):
    """The page of a record that is over, opened first of all, reads back to its beginning; so does its printed order."""
    hand = stage.window("board")
    hand.speak("DISP1")
    hand.turn("clearance/LEE/1")
    wait_until(lambda: rows(hand) and any(row[0] == "1.1" for row in rows(hand)), "the steps of LEE/1")
    step = next(row for row in rows(hand) if row[0] == "1.1")
    if step[1] != "OPEN N15-Q13" or not all(name in cell for name, cell in zip(("DISP1", "REED", "REED"), step[2:])):
        raise Differs(f"the first step is {step}")
    hand.shows("request N15-F13")
    hand.press("print 1")
    hand.shows("Repeated by", "main .paper")
    hand.shows("OPEN N15-Q13", "main .paper .story")
    hand.picture("parts-record")


def part_lost(stage):
    """Where a part is gone the log says so."""
    hand, desk, journal = begin(stage)
    give(hand, [switch(["OPEN N14-Q21"]), switch(["OPEN N14-Q22"]), switch(["OPEN N14-Q23"])])
    rotate(desk, journal, 1)
    os.remove(os.path.join(stage.work, "journal-2026-01-01T000000Z"))
    give(hand, [switch(["OPEN N14-Q31"])])
    fresh = stage.window("log")
    fresh.shows("The entries before number 4 are in no part of the journal that is served here")
    fresh.lacks("whole journal was read", "main")


def searches(stage):
    """By section, by login, and what was refused."""
    hand, _, _ = begin(stage)
    give(hand, [*LIVE, switch(["OPEN N14-Q21"])])
    hand.speak("DISP1")
    hand.turn("clearance/DISP1/1")
    hand.browser.script("""fetch('command', { method: 'POST', body: JSON.stringify({ at: Math.floor(Date.now() / 1000), by: 'REED', do: 'switch', steps: ['OPEN N14-Q32'] }) })""")
    hand.turn("log")
    wait_until(lambda: len(rows(hand)) == len(LIVE) + 2, "the log")
    everything = search(hand)
    refused = search(hand, reply="refused")
    if len(refused) != 1 or "refused: WRONG_ROLE" not in refused[0][5]:
        raise Differs(f"refused are {refused}")
    found = search(hand, section="N14-F21")
    if len(found) != 1 or "OPEN N14-Q21" not in found[0][4]:
        raise Differs(f"at N14-F21 are {found}")
    texts = [row[4] for row in search(hand, section="N13-F11")]
    if not any("test N13-F11 not dead" in text for text in texts) or not any("instruct 1 OPEN N13-Q11" in text for text in texts) or any("N14-Q21" in text for text in texts):
        raise Differs(f"at N13-F11 are {texts}")
    if search(hand, login="OPS") or search(hand) != everything:
        raise Differs("without logins the search by login finds something")
    hand.picture("log-searched")


LOOKS = {"log parts": rotated, "log part lost": part_lost, "log searches": searches}
