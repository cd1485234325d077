"""A record whose steps were archived: its page has them from the journal, through its parts too, and offers no printed order."""

import os
import time

from desk_looks.browser import Differs, free_ports, wait_until
from desk_looks.desk import Desk, gridclear
from desk_looks.look_log import CUT, ENDS, has_whole_log, rows, search
from desk_looks.look_parts import give, rotate
from desk_looks.network import closed, granted, switch, write_files


def archive(desk, journal):
    """As the package does it: while the register is stopped, all that is closed by now gives up its steps."""
    desk.stop()
    printed = gridclear("archive", desk.base, "--journal", journal, "--before", str(int(time.time()) + 1))
    desk.start()
    return printed


def archived(stage):
    journal = os.path.join(stage.work, "journal")
    desk = Desk(stage.work, "desk", write_files(stage.work), free_ports(2), ["--journal", journal])
    hand = stage.begin(desk, "board")
    give(hand, [*closed("LEE", "N15-F13", CUT, ENDS), *granted("KIM", "N13-F12", ["N13-Q11", "N13-B1", "N13-Q13"])])
    printed = archive(desk, journal)
    if '"LEE/1"' not in printed or '"KIM/1"' in printed:
        raise Differs(f"the archive prints {printed}")
    give(hand, [switch(["OPEN N14-Q21"])])
    fresh = stage.window("board")
    fresh.speak("DISP1")
    of_record(fresh)
    fresh.picture("archived-record")
    of_open(fresh)
    in_log(fresh)
    rotate(desk, journal, 1)
    later = stage.window("board")
    later.speak("DISP1")
    of_record(later)


def of_record(hand):
    """Its page, opened first of all, has each step with its names, by the journal; no order is printed of it."""
    hand.turn("clearance/LEE/1")
    hand.shows("It is over; its record stays")
    wait_until(lambda: any(row[0] == "1.1" for row in rows(hand)), "the steps of LEE/1")
    has_whole_log(rows(hand))
    hand.shows("archived: the log below has them", "main .card")
    hand.lacks("On paper", "main")
    hand.lacks("OPEN", "main .steps-place")


def of_open(hand):
    """What is not over has its steps."""
    hand.turn("clearance/KIM/1")
    hand.shows("OPEN N13-Q11", "main .steps-place")
    hand.press("print 1")
    hand.shows("ORDER KIM/1 ROUND 1", "main .paper")


def in_log(hand):
    """The archive is an entry of nobody, and the record's own entries are there before it."""
    hand.turn("log")
    hand.shows("The whole journal was read")
    found = search(hand)
    if not found[1][4].startswith("archive of what was closed before ") or found[0][4] != "switch, OPEN N14-Q21":
        raise Differs(f"the newest entries are {found[:2]}")
    own = search(hand, clearance="LEE/1")
    if not own or own[-1][4] != "request N15-F13" or any("archive" in row[4] for row in own):
        raise Differs(f"of LEE/1 are found {own[-1:]} and {len(own)} entries")


LOOKS = {"archived": archived}
