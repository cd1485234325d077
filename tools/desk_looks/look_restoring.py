"""A restoring order shows what was; sources that would be joined and loops that would be closed are said and asked about."""

from desk_looks.browser import Differs
from desk_looks.network import ordered, released, steps, switch

WIDTHS = (1440, 1024, 390)
TIE = "TIE1-N12-N13"
BYPASSED = [switch(["CLOSE N13-B1"]), *steps("DISP1/1", ["CLOSE N13-B1"])]
WEBER = released("WEBER", "N13-F11", ["N13-Q11", "N13-B1", TIE, "TIE1-N13-N14"])


def choices(hand, point):
    """The choices at a point in their order, and whether one is taken."""
    return hand.browser.script("""return [...document.querySelectorAll('tr[data-point="' + arguments[0] + '"] input[type=radio]')]
        .map((one) => [one.value, one.checked])""", point)


def given_beside(hand, commands):
    """Commands of other desks, all accepted."""
    for command in commands:
        hand.post(command)


def what_was(stage):
    """A desk that saw the order shows what was before it; one that comes later says that it did not see it."""
    begun = ordered("WEBER", "N13-F11", ["N13-Q11", "N13-B1", TIE, "TIE1-N13-N14"])
    hand = stage.network([*BYPASSED, *begun], "clearance/WEBER/1", speaker="DISP1")
    hand.shows("OPEN N13-B1", "main .steps")
    given_beside(hand, WEBER[len(begun):])
    hand.shows("It ends with")
    other = stage.window("clearance/WEBER/1")
    other.speak("DISP2")
    for point, normal, before in (("N13-Q11", "closed", "closed"), ("N13-B1", "open", "closed"), (TIE, "open", "open")):
        row = f'tr[data-point="{point}"]'
        hand.shows(normal, f'{row} [data-name="normal"]')
        hand.shows(before, f'{row} [data-name="before"]')
        other.shows("not known", f'{row} [data-name="before"]')
        found = choices(hand, point)
        if found != [["CLOSE", False], ["LEAVE", False]]:
            raise Differs(f"the choices at {point} are {found}")
    hand.press(f"LEAVE {TIE}")
    other.shows("open", f'tr[data-point="{TIE}"] [data-name="normal"]')
    if any(taken for _, taken in choices(other, TIE)):
        raise Differs("what one desk chooses is chosen at another")
    for width in WIDTHS:
        hand.browser.size(width)
        hand.picture(f"restore-{width}")
        wide = hand.browser.script("return document.documentElement.scrollWidth")
        if wide > width:
            raise Differs(f"the restoring form is {wide} wide on {width} pixels")


def restoring_joins(stage):
    """A normally open tie that would be closed joins two sources: it is said, and asked before the order is given."""
    hand = stage.network(WEBER, "clearance/WEBER/1", speaker="DISP1")
    for choice in ("CLOSE N13-Q11", "LEAVE N13-B1", f"CLOSE {TIE}", "LEAVE TIE1-N13-N14"):
        hand.press(choice)
    hand.shows("joins the sources GRID-1 and GRID-2", ".order-notes")
    hand.declined("restore", "joins the sources GRID-1 and GRID-2")
    hand.press(f"LEAVE {TIE}")
    hand.carry_out("restore", "Restoring")


def switching_joins(stage):
    """A coupler between two stations of one source closes a loop, which is said; one between two sources joins them, which is asked."""
    hand = stage.network([], "switch", speaker="DISP1")
    for point, words in (("CPL-N11-N12", "closes a loop"), ("CPL-N12-N13", "joins the sources GRID-1 and GRID-2")):
        hand.pick(point)
        hand.press(f"CLOSE {point}")
        hand.shows(words, ".order-notes")
    hand.declined("switch", "joins the sources GRID-1 and GRID-2")
    hand.picture("switch-joins")


LOOKS = {"restoring-what-was": what_was, "restoring-joins": restoring_joins, "switching-joins": switching_joins}
