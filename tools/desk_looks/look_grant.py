"""A grant is offered when all steps are done, and not where a step was given out."""

from desk_looks.browser import ENTER, Differs
from desk_looks.network import needed, ordered, steps

CUT = ["N11-Q12", "N11-Q13"]
WIDTHS = (1440, 1024, 390)


def lies_over(one, other):
    return one[0] < other[2] and other[0] < one[2] and one[1] < other[3] and other[1] < one[3]


def not_before(stage):
    hand = stage.network(ordered("KIM", "N11-F12", CUT), "clearance/KIM/1", speaker="DISP1")
    hand.shows("Instruct step 1")
    if hand.there('main [data-name="grant"]'):
        raise Differs("a grant is offered at 0 of 6 steps")
    hand.speak("REED")
    hand.lacks("grant the clearance", "main")


def elsewhere(stage):
    """At three widths the grant does not lie over the last Instruct, nor over `is done`."""
    texts = needed(CUT)
    hand = stage.network([*ordered("KIM", "N11-F12", CUT), *steps("KIM/1", texts[:-1])], "clearance/KIM/1")
    other = stage.window("clearance/KIM/1")
    hand.speak("DISP1")
    other.speak("DISP2")
    before = other.rect('main [data-name="instruct"]')
    places = {}
    for width in WIDTHS:
        hand.browser.size(width)
        places[width] = [hand.rect('main [data-name="instruct"]')]
    hand.carry_out("instruct")
    if hand.there('main [data-name="grant"]'):
        raise Differs("a grant is offered while the last step is out")
    hand.speak("REED")
    hand.write("repeat-text", texts[-1] + ENTER)
    hand.reply("accepted")
    for width in WIDTHS:
        hand.browser.size(width)
        places[width].append(hand.rect('main [data-name="done"]'))
    hand.carry_out("done")
    hand.speak("DISP1")
    for width in WIDTHS:
        hand.browser.size(width)
        grant = hand.rect('main [data-name="grant"]')
        if any(lies_over(grant, place) for place in places[width]):
            raise Differs(f"at {width} pixels the grant at {grant} lies over one of {places[width]}")
    grant = other.rect('main [data-name="grant"]')
    if lies_over(grant, before):
        raise Differs(f"at the other desk the grant at {grant} lies over {before}")


def after_a_row(stage):
    """At a desk that speaks for several, not over a control of the row either."""
    texts = needed(CUT)
    hand = stage.network([*ordered("KIM", "N11-F12", CUT), *steps("KIM/1", texts[:-1])], "clearance/KIM/1", speaker="DISP1")
    hand.browser.click("#several")
    hand.browser.click('main [data-name="hearer"] option[value="REED"]')
    hand.carry_out("instruct")
    hand.write("repeat-text", texts[-1] + ENTER)
    hand.reply("accepted")
    hand.browser.settled('main [data-name="done"]')
    places = [hand.rect(f'main [data-name="{name}"]') for name in ("instruct", "repeat", "done", "not-done")]
    hand.carry_out("done")
    grant = hand.rect('main [data-name="grant"]')
    if any(lies_over(grant, place) for place in places):
        raise Differs(f"the grant at {grant} lies over one of {places}")


LOOKS = {"grant-row": after_a_row, "grant-not-before": not_before, "grant-elsewhere": elsewhere}
