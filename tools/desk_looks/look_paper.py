"""Each page of a printed order says which order it is; it has one time zone, what was tested live, and places to sign."""

import re

from desk_looks import pdf
from desk_looks.browser import Differs, say
from desk_looks.look_log import journaled
from desk_looks.network import granted

CUT = ["N13-Q11", "N13-B1", "N13-Q13"]


def paper(stage):
    hand = journaled(stage, "clearance/KIM/1")
    for command in granted("KIM", "N13-F12", CUT):
        hand.post(command)
    hand.speak("KIM")
    hand.carry_out("dead N13-F12", "dead")
    hand.carry_out("live N13-F11", "live", answers=["yes"])
    hand.carry_out("live N13-F12", "live", answers=["yes"])
    hand.carry_out("dead N13-F12", "dead", answers=["yes"])
    hand.press("print 1")
    hand.shows("ORDER KIM/1 ROUND 1", "main .paper")
    on_paper(hand)
    pages = pdf.pages(hand.browser.printed(hand.path("paper").replace(".png", ".pdf")))
    say(f"  {len(pages)} pages")
    if len(pages) < 2 or not all("KIM/1" in page for page in pages) or not all("round 1" in page for page in pages):
        raise Differs(f"the pages begin with {[page[:60] for page in pages]}")


def on_paper(hand):
    """All that has to be there."""
    for text in ("N13-F11 was TESTED LIVE by KIM, 20", "N13-F12 was TESTED LIVE by KIM, 20", "not tested dead since: N13-F11.",
                 "Given by: ____", "Repeated by: ____", "Holder: ____"):
        hand.shows(text, "main .paper")
    zones = set(re.findall(r"\d\d:\d\d:\d\d ([+-]\d\d:\d\d)", hand.text("main .paper")))
    if zones != {"+01:00"} or "Greenwich" in hand.text("main .paper"):
        raise Differs(f"the paper has the time zones {zones}")


LOOKS = {"paper": paper}
