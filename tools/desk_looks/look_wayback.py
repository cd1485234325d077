"""The way back of a record: the page shows what the register answers, which is what the program prints; nothing is sent."""

import json
import os
import shutil

from desk_looks.browser import Differs, wait_until
from desk_looks.desk import gridclear
from desk_looks.network import closed, granted, needed, ordered, released, step, steps, switch, undoing

CUT, OTHER = ["N13-Q11", "N13-B1", "TIE1-N12-N13", "TIE1-N13-N14"], ["N15-Q21", "N15-B2", "TIE2-N14-N15", "TIE2-N15-N16"]
LINE, SAID = "return [...document.querySelectorAll('main .way-back li')].map((one) => one.dataset.command)", "main .way-back-place"


def restoring(name, section, cut, ends):
    return [*released(name, section, cut), {"by": "DISP1", "do": "restore", "clearance": f"{name}/1", "steps": undoing(cut, ends)}]


def printed(stage, clearance):
    """What the program prints, over a copy of the register that is served; without the moments."""
    copy = os.path.join(stage.work, "copy.db")
    for end in ("", "-wal"):
        if os.path.exists(copy + end):
            os.remove(copy + end)
        if os.path.exists(stage.desk.base + end):
            shutil.copy(stage.desk.base + end, copy + end)
    return timeless(gridclear("wayback", copy, clearance).splitlines())


def timeless(lines):
    return [{key: value for key, value in json.loads(line).items() if key != "at"} for line in lines]


def shown(hand):
    return timeless(hand.browser.script(LINE))


def compare(stage, hand, clearance):
    hand.turn(f"clearance/{clearance}")
    hand.browser.find(f'main [data-id="{clearance}"] .way-back-place')
    hand.browser.script("document.querySelector('main .way-back-place').open = true")
    wanted = printed(stage, clearance)
    wait_until(lambda: len(shown(hand)) == len(wanted), f"{len(wanted)} commands of the way back of {clearance}, not {len(shown(hand))}")
    for place, (own, other) in enumerate(zip(shown(hand), wanted)):
        if own != other:
            raise Differs(f"the way back of {clearance}, command {place + 1}: the page has {own}, the program {other}")


def way_back(stage):
    """Each phase, a step out, holds and crews, and a point in another's hand."""
    out = [*ordered("KIM", "N11-F12", ["N11-Q12", "TIE1-N11-N12"]), *step("KIM/1", 1, "OPEN N11-Q12"), *step("KIM/1", 2, "OPEN TIE1-N11-N12", "repeat")]
    back = restoring("WEBER", "N15-F22", OTHER, ["CLOSE", "LEAVE", "CLOSE", "LEAVE"])
    texts = undoing(OTHER, ["CLOSE", "LEAVE", "CLOSE", "LEAVE"])
    at_close = [*back, *steps("WEBER/1", texts[:3]), *step("WEBER/1", 4, texts[3], "instruct")]
    half = [*ordered("SOTO", "N16-F33", ["N16-Q33", "TIE3-N15-N16"]), *steps("SOTO/1", needed(["N16-Q33", "TIE3-N15-N16"])[:5])]
    in_hand = [*released("LEE", "N14-F33", ["N14-Q33", "TIE3-N13-N14", "TIE3-N14-N15"]), switch(["OPEN N14-Q33"], "DISP3"), *step("DISP3/1", 1, "OPEN N14-Q33", "instruct")]
    asked = [{"by": "PATEL", "do": "request", "section": "N12-F22"}, switch(["OPEN N12-Q22"], "DISP4"), *step("DISP4/1", 1, "OPEN N12-Q22", "repeat")]
    over = closed("OWENS", "N12-F33", ["N12-Q33", "TIE3-N11-N12", "TIE3-N12-N13"], ["CLOSE", "LEAVE", "LEAVE"])
    hand = stage.network([*granted("JONES", "N13-F12", CUT, ["C2", "C1"]), *out, *at_close, *half, *in_hand, *asked, *over], speaker="DISP1")
    for clearance in ("JONES/1", "KIM/1", "WEBER/1", "SOTO/1", "LEE/1", "DISP3/1", "PATEL/1", "DISP4/1"):
        compare(stage, hand, clearance)
    hand.turn("clearance/JONES/1")
    hand.browser.script("document.querySelector('main .way-back-place').open = true")
    for text in ("JONES: sign crew C1 off from JONES/1", "JONES: release JONES/1", "DISP1: restore JONES/1", "Nothing here is sent"):
        hand.shows(text, SAID)
    hand.browser.script("document.querySelector('main .way-back-place').scrollIntoView({block: 'center'})")
    hand.picture("way-back")
    hand.nothing_sent(0)
    hand.turn("clearance/OWENS/1")
    hand.shows("It is over; its record stays")
    hand.lacks("way back", "main")


LOOKS = {"way back": way_back}
