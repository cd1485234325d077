"""A step at a point that has that position already: said where it is picked, in the form and at the step, and asked about."""

from desk_looks.browser import Differs
from desk_looks.network import ordered, steps, switch

LEE = ordered("LEE", "N12-F13", ["N12-Q13", "TIE1-N11-N12", "TIE1-N12-N13"])


def listed(hand, point):
    """The row of a point in the list to pick from."""
    hand.write("filter", point)
    return hand.browser.script("""return document.querySelector('main [data-name="pick ' + arguments[0] + '"]').closest('li').innerText""", point)


def written(stage):
    """In a switch order: in the list, beside the buttons, under the steps, and in the question."""
    hand = stage.network((), "switch", speaker="DISP1")
    for point, position in (("N11-Q12", "closed"), ("TIE1-N14-N15", "open")):
        if position not in listed(hand, point).split():
            raise Differs(f"the list does not say that {point} is {position}")
        hand.browser.script("document.querySelector('main [data-name=filter]').value = ''")
    hand.pick("N11-Q12", "TIE1-N14-N15")
    hand.shows("N11-Q12 is closed", "main .editor")
    hand.shows("is open already", "main .editor")
    hand.press("CLOSE N11-Q12")
    hand.press("OPEN TIE1-N14-N15")
    hand.shows("is closed already", ".order-notes")
    hand.shows("is open already", ".order-notes")
    hand.picture("already-written")
    hand.declined("switch", "CLOSE N11-Q12: is closed already", "OPEN TIE1-N14-N15: is open already")
    hand.carry_out("switch", "DISP1/1", answers=["send"])
    hand.shows("is closed already", "main .step-place")
    hand.picture("already-step")
    hand.declined("instruct", "CLOSE N11-Q12: is closed already", sent=1)


def by_steps(stage):
    """What an earlier step of the order makes counts; a step that changes something is not asked about."""
    hand = stage.network((), "switch", speaker="DISP1")
    hand.pick("N11-Q12")
    hand.press("OPEN N11-Q12")
    hand.lacks("already", ".order-notes")
    hand.press("CLOSE N11-Q12")
    hand.lacks("already", ".order-notes")
    hand.press("CLOSE N11-Q12")
    hand.shows("is closed already", ".order-notes")


def isolating(stage):
    """In an isolating order an open point belongs to the fence; it is said and asked all the same."""
    hand = stage.network([LEE[0]], "clearance/LEE/1", speaker="DISP1")
    hand.pick("N12-Q13", "TIE1-N11-N12", "TIE1-N12-N13")
    hand.shows("is open already", "main .picked-notes [data-at='TIE1-N11-N12']")
    hand.declined("order", "OPEN TIE1-N12-N13: is open already")
    hand.carry_out("order", "order LEE/1", answers=["send"])
    hand.carry_out("instruct", "instruct step 1")
    for command in ({"by": "REED", "do": "repeat", "clearance": "LEE/1", "step": 1, "text": "OPEN N12-Q13"}, {"by": "REED", "do": "report", "clearance": "LEE/1", "step": 1, "done": True}):
        hand.post(command)
    hand.rest()
    hand.shows("is open already", "main .step-place")
    hand.declined("instruct", "OPEN TIE1-N11-N12: is open already", sent=4)


def normal(stage):
    """A row of another file and a jumper have no normal position; at a point that was opened, open is never called normal."""
    hand = stage.network((), "points")
    jumper = {"by": "DISP1", "do": "jumper", "point": "J1", "from": "N11-F33", "to": "N16-F21", "lockable": True, "remote": False}
    hand.post(jumper)
    stage.add_normal("J1,N11-F33,N16-F21,yes,no,closed", "N11-Q13,N11-F12,N11-F22,yes,no,open")
    hand.open("points")
    for point in ("J1", "N11-Q13"):
        if "normal" in title(hand, point) or row(hand, point)[4] != "–":
            raise Differs(f"{point} has a normal position: {row(hand, point)}, {title(hand, point)}")
    for command in (switch(["OPEN N15-Q13"]), *steps("DISP1/1", ["OPEN N15-Q13"])):
        hand.post(command)
    hand.open("points")
    if row(hand, "N15-Q13")[3:5] != ["open ≠", "closed"]:
        raise Differs(f"N15-Q13 is {row(hand, 'N15-Q13')}")


def row(hand, point):
    hand.turn(f"points/{point}")
    hand.shows("1 of 1 points")
    return hand.browser.script("return [...document.querySelectorAll('main .sheet tbody tr:first-child > *')].map((cell) => cell.innerText)")


def title(hand, point):
    hand.turn("diagram")
    hand.browser.find(f'.net [data-name="{point}"]')
    return hand.browser.script("return document.querySelector('.net [data-name=\"' + arguments[0] + '\"] title').textContent", point)


LOOKS = {"already written": written, "already by steps": by_steps, "already isolating": isolating, "normal": normal}
