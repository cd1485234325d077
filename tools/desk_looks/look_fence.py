"""The fence of the picked points is hatched as they are picked, and a source in it is named with the way to it."""

from desk_looks.browser import Differs, wait_until

WORK = {"by": "LEE", "do": "request", "section": "N13-F12"}


def hatched(hand):
    return hand.browser.script("return [...document.querySelectorAll('.net .section.fenced[data-name]')].map((one) => one.dataset.name).sort()")


def fence_of_picked(stage):
    hand, other = stage.network([WORK], "clearance/LEE/1"), stage.window("clearance/LEE/1")
    hand.speak("DISP1")
    other.speak("DISP2")
    hand.pick("N13-Q11", "N13-B1", "TIE1-N13-N14")
    wait_until(lambda: "N12-F13" in hatched(hand), "the hatch over the tie that is missing")
    hand.shows("the source GRID-1 is still reached", ".fence-notes")
    hand.shows("N13-F13 ─ TIE1-N12-N13 ─ N12-F13 ─ N12-Q13 ─ N12-F12", ".fence-notes")
    if not hand.there('.net .point.way[data-name="TIE1-N12-N13"]') or hand.there('.net .point.way[data-name="N13-Q11"]'):
        raise Differs("the way to the source is to be marked on the diagram, with the tie that is missing")
    hand.picture("fence-open")
    hand.pick("TIE1-N12-N13")
    wait_until(lambda: hatched(hand) == ["N13-F11", "N13-F12", "N13-F13"], "the hatch over three sections")
    hand.shows("No source is reached", ".fence-notes")
    if hand.there(".net .point.way[data-name]"):
        raise Differs("no way is left to be marked")
    hand.picture("fence-closed")
    if hatched(other) or "No source is reached" in other.text():
        raise Differs("what one desk picks is shown at another")


def off_fence(stage):
    """A point that is no part of the border is said to be so."""
    hand = stage.network([WORK], "clearance/LEE/1", speaker="DISP1")
    hand.pick("N13-Q12", "N13-Q13", "N16-Q12")
    hand.shows("NOT_ON_FENCE", '.picked-notes [data-at="N16-Q12"]')
    if hand.there('.picked-notes [data-at="N13-Q12"]'):
        raise Differs("nothing is in the way at N13-Q12")


LOOKS = {"fence-picked": fence_of_picked, "fence-off": off_fence}
