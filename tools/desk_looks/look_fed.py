"""Live and dead: by shape and in words as by colour; what steps would turn, and where two sources would meet."""

from desk_looks.browser import Differs, wait_until
from desk_looks.look_register import drawn
from desk_looks.network import granted, ordered, steps, switch

KIM = ordered("KIM", "N11-F12", ["N11-Q12", "TIE1-N11-N12"])
ISLAND = [switch(["OPEN N13-Q22"]), *steps("DISP1/1", ["OPEN N13-Q22"])]  # beyond it N13-F22 and N13-F23 are dead


def turned(hand, word):
    """The sections at which the diagram says so."""
    return set(hand.browser.script("""return [...document.querySelectorAll('main .net .mark.turn')]
        .filter((node) => node.textContent === arguments[0]).map((node) => node.dataset.of)""", f"→ {word}"))


def waits_for(hand, word, *names):
    wait_until(lambda: turned(hand, word) == set(names), f"{names} to be marked {word}")


def present_step(stage):
    """The present step of a clearance: in its row, beside the act, on the diagram; and what is so once it is done."""
    hand = stage.network(KIM, "clearance/KIM/1", speaker="DISP1")
    hand.shows("makes N11-F12, N11-F13 dead (this page's reckoning)", "main .step-place")
    hand.shows("makes N11-F12, N11-F13 dead (this page's reckoning)", "main .steps")
    waits_for(hand, "dead", "N11-F12", "N11-F13")
    hand.picture("fed-step")
    for command in steps("KIM/1", ["OPEN N11-Q12"]):
        hand.post(command)
    wait_until(lambda: drawn(hand, "section", "dead")["N11-F13"] == "dead", "the section that was opened")
    waits_for(hand, "dead")
    hand.shows("2 of 63 sections are dead by the register's positions: N11-F12, N11-F13", "main .diagram")
    look = "return getComputedStyle(document.querySelector(arguments[0])).strokeDasharray"
    if hand.browser.script(look, '.net .section.dead[data-name="N11-F12"] .box') == "none":
        raise Differs("a dead section has the border of a live one")
    if hand.there('.net .section[data-name="N11-F12"] .flash') or not hand.there('.net .section[data-name="N11-F11"] .flash'):
        raise Differs("the sign of a live section is at a dead one, or missing")


def written(stage):
    """A switch order that is being written: all its steps together, in words and on the diagram; its CLOSE joins sources."""
    hand = stage.network(ISLAND, "switch", speaker="DISP1")
    hand.pick("TIE2-N12-N13", "N13-Q22")
    hand.press("CLOSE TIE2-N12-N13")
    hand.shows("live will be N13-F22, N13-F23", ".turn-notes")
    waits_for(hand, "live", "N13-F22", "N13-F23")
    hand.press("CLOSE N13-Q22")
    hand.shows("joins the sources GRID-2 and GRID-1", ".order-notes")
    hand.press("out CLOSE N13-Q22")
    hand.press("out CLOSE TIE2-N12-N13")
    waits_for(hand, "live")
    hand.pick("N11-Q11")
    hand.press("OPEN N11-Q11")
    hand.shows("dead will be N11-F11, N11-F12, N11-F13", ".turn-notes")
    waits_for(hand, "dead", "N11-F11", "N11-F12", "N11-F13")
    hand.picture("fed-switch")


def trusted(stage):
    """A CLOSE beyond a fence that makes a section live which another has tested and grounded is asked about."""
    cut = ["N13-Q12", "N13-Q13"]
    inner = [switch(["OPEN TIE1-N12-N13"])]
    hand = stage.network([*inner, *granted("JONES", "N13-F12", cut, ["C1"])], "switch", speaker="DISP1")
    hand.pick("N13-Q12")
    hand.press("CLOSE N13-Q12")
    hand.shows("makes N13-F12 live, which JONES/1 (Granted, crew C1 on) found dead or grounded", ".order-notes")
    hand.declined("switch", "makes N13-F12 live")


LOOKS = {"fed step": present_step, "fed switch": written, "fed trusted": trusted}
