"""What would be refused is not offered, nor the next act, nor asked about: a cancel while a step is out, a release with crews
on; and the row for several names nobody who was chosen at another record."""

from desk_looks.browser import ALT, Differs
from desk_looks.network import granted, ordered, step, switch

CUT = ["N13-Q11", "N13-B1", "N13-Q13"]
FOCUS = "return document.activeElement.dataset.name ?? document.activeElement.tagName"
STEP = "OPEN N14-Q21"


def next_act(hand):
    hand.browser.chord(ALT, "n")
    return hand.browser.script(FOCUS)


def no_cancel(stage):
    """Neither of a switch order nor of an isolating order, from the instruct to the report."""
    out = [switch([STEP]), *step("DISP1/1", 1, STEP, "instruct"), *ordered("KIM", "N13-F12", CUT), *step("KIM/1", 1, "OPEN N13-Q11", "repeat")]
    hand = stage.network(out, "clearance/DISP1/1", speaker="DISP1")
    for clearance, holder in (("DISP1/1", "DISP1"), ("KIM/1", "KIM")):
        hand.turn(f"clearance/{clearance}")
        for name in (holder, "REED"):
            hand.speak(name)
            hand.shows("step 1", "main .next")
            hand.lacks("cancel", "main .next")
        hand.speak(holder)
        if next_act(hand) in ("cancel", "transfer false"):
            raise Differs(f"the next act of {holder} is {hand.browser.script(FOCUS)}")
    hand.post({"by": "REED", "do": "report", "clearance": "KIM/1", "step": 1, "done": False})
    hand.shows("Cancel KIM/1", "main .next")
    if next_act(hand) == "cancel":
        raise Differs("to give it up is the next act")


def not_yet(stage):
    """A release with a crew on, or a ground, says so, and asks for no attestation."""
    hand = stage.network(granted("KIM", "N13-F12", CUT, ["C1"]), "clearance/KIM/1", speaker="KIM")
    hand.shows("would be refused (CREWS_ON): crew C1 on", "main .next")
    hand.declined("release", "would be refused (CREWS_ON): crew C1 on", "would be refused (GROUNDED): a ground is on at N13-F12")
    hand.carry_out("off C1", "sign crew C1 off", answers=["yes"])
    hand.declined("release", "would be refused (GROUNDED): a ground is on at N13-F12", sent=1)
    hand.carry_out("ground N13-F12", "take the ground off", answers=["yes"])
    hand.shows("two questions come first", "main .next")
    hand.carry_out("release", "KIM/1 is Released", asked=["notified"], answers=["yes", "yes"])


def own_names(stage):
    """Who hears and reports is chosen at each record; who gives stays."""
    out = [*ordered("KIM", "N13-F12", CUT), *ordered("LEE", "N11-F13", ["N11-Q13", "TIE1-N11-N12"])]
    hand = stage.network([*out, *step("KIM/1", 1, "OPEN N13-Q11", "instruct"), *step("LEE/1", 1, "OPEN N11-Q13", "instruct")], "clearance/KIM/1", speaker="DISP1")
    hand.browser.click("#several")
    hand.browser.click('main [data-name="hearer"] option[value="DALE"]')
    chosen = lambda part: hand.browser.script("return document.querySelector(arguments[0]).value", f'main [data-name="{part}"]')
    hand.turn("clearance/LEE/1")
    hand.shows("Step 1 of", "main .several")
    if chosen("hearer") or chosen("reporter"):
        raise Differs(f"the name {chosen('hearer')} of KIM/1 is chosen at LEE/1")
    hand.turn("clearance/KIM/1")
    hand.shows("OPEN N13-Q11", "main .several")
    if chosen("hearer") != "DALE":
        raise Differs("the name that was chosen at KIM/1 is not chosen there")


LOOKS = {"offers no cancel": no_cancel, "offers release": not_yet, "offers own names": own_names}
