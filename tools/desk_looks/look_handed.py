"""Who has to know of it: a crew that is on under two clearances, and the crews of a clearance that is handed over, with the
reason of an emergency. The holder is beside the name of a clearance that another asked for."""

import time

from desk_looks import pdf, two_substations
from desk_looks.browser import ENTER, Differs
from desk_looks.two_substations import granted

BOTH = [*granted("KIM", "NOR-1C", ["N123", "N134"], ["C7", "C1"]), *granted("OWENS", "SOU-3D", ["S334", "TS34"], ["C7"])]


def crews(stage):
    """One crew under two clearances: at its name wherever it is, and asked about when a third signs it on."""
    hand = stage.network([*BOTH, *granted("JONES", "LINE-13", ["L1213", "L-SOU"], ["C3"])], "clearance/KIM/1", speaker="KIM", net=two_substations)
    hand.shows("C7 (also under OWENS/1) is on", "main .crews")
    hand.shows("C7 (also under OWENS/1)", "main .card")
    hand.shows("C7 (also under OWENS/1)", "main .facts-place")
    hand.shows("C1 is on", "main .crews")
    hand.turn("clearance/JONES/1")
    hand.speak("JONES")
    hand.write("crew", "C7" + ENTER)
    hand.shows("C7 is on under KIM/1, OWENS/1.", "dialog")
    hand.answer("null")
    hand.nothing_sent(0)


def handed(stage):
    """The question of a transfer names the crews; an emergency asks for its reason, which is shown and printed here."""
    hand = stage.network(BOTH, "clearance/KIM/1", speaker="KIM", net=two_substations)
    hand.shows("C7 (also under OWENS/1)", "main .crews")
    hand.browser.click('main [data-name="to false"] option[value="OWENS"]')
    time.sleep(1)  # a choice without a press has just brought the focus there
    hand.declined("transfer false", "OWENS becomes the holder", "Crews on: C1, C7 (also under OWENS/1). Each has to be informed")
    hand.speak("BOSS")
    hand.browser.click('main [data-name="to true"] option[value="OWENS"]')
    hand.press("transfer true")
    hand.lacks("Transfer KIM/1", "dialog")
    hand.nothing_sent(0)
    hand.write("reason", "KIM is ill")
    texts = ["The reason: KIM is ill. The register keeps no reason", "Crews on: C1, C7"]
    hand.carry_out("transfer true", "holder OWENS", asked=texts, answers=["yes"])
    hand.shows("KIM/1 held by OWENS", "main h2")
    for _ in range(2):
        hand.shows("BOSS transferred it to OWENS in an emergency", "main .facts-place")
        hand.shows("KIM is ill", "main .facts-place")
        hand.reload()
    hand.picture("handed")
    hand.press("print 1")
    hand.shows("ORDER KIM/1 ROUND 1", "main .paper")
    pages = pdf.pages(hand.browser.printed(hand.path("handed").replace(".png", ".pdf")))
    if not any("KIM is ill" in page for page in pages):
        raise Differs("the reason of an emergency is not on paper")
    if title(hand, "OWENS/1") != "OWENS/1":
        raise Differs(f"a clearance of its own requester has the heading {title(hand, 'OWENS/1')}")


def title(hand, clearance):
    hand.turn(f"clearance/{clearance}")
    hand.shows(clearance, "main h2")
    return hand.text("main h2").strip()


LOOKS = {"crews": crews, "handed": handed}
