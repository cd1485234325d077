"""What is in the way of a picked point and of a step: a hold, a hand, another's fence, a position that is not normal."""

from desk_looks.browser import ENTER, wait_until
from desk_looks.network import granted, ordered, step, steps, switch
from desk_looks.look_speaking import HELD, JONES, KIM

OWENS = granted("OWENS", "N13-F22", ["N13-Q21", "N13-B2", "TIE2-N12-N13", "TIE2-N13-N14"], ["C7"])
INSIDE = "N13-Q23"  # both its ends are in the fence of OWENS/1


def held_close(stage):
    """A held point: said while it is picked, and asked about before a CLOSE is given; a no sends nothing."""
    hand, other = stage.network([*JONES, *KIM], "switch"), stage.window("clearance/JONES/1")
    hand.speak("DISP1")
    other.speak("JONES")
    hand.pick(HELD)
    for name, crew in (("JONES/1", "C1"), ("KIM/1", "C2")):
        hand.shows(f"{name} (Granted, crew {crew} on) has it held open, blocked, tagged; a CLOSE would be refused for it", ".picked-notes")
    other.write("crew", "C9" + ENTER)
    other.reply("accepted", "sign crew C9 on")
    hand.shows("JONES/1 (Granted, crews C1, C9 on)", ".picked-notes")
    hand.press(f"CLOSE {HELD}")
    hand.press("switch")
    for name in ("JONES/1", "KIM/1"):
        hand.shows(f"would be refused (HELD) for {name}", "dialog")
    hand.shows("The register decides", "dialog")
    hand.picture("question-held")
    hand.answer("null")
    hand.nothing_sent(1)


def others_fence(stage):
    """An OPEN inside a Granted fence with a crew on: whose fence it is is said and asked, as it is written and given out."""
    hand = stage.network(OWENS, "switch", speaker="DISP4")
    hand.pick(INSIDE)
    hand.shows("inside the fence of OWENS/1 (Granted, crew C7 on)", ".picked-notes")
    hand.press(f"OPEN {INSIDE}")
    hand.declined("switch", "inside the fence of OWENS/1 (Granted, crew C7 on)")
    hand.carry_out("switch", "DISP4/1", answers=["send"])
    hand.shows("inside the fence of OWENS/1", "main .step-place")
    hand.declined("instruct", "inside the fence of OWENS/1", sent=1)


def in_hand(stage):
    """A point in another's hand, at a step that would be refused for it."""
    out = [*ordered("KIM", "N11-F12", ["N11-Q12", "N11-Q13"]), *step("KIM/1", 1, "OPEN N11-Q12", "instruct"), switch(["OPEN N11-Q12"])]
    hand = stage.network(out, "clearance/DISP1/1", speaker="DISP1")
    hand.shows("would be refused (IN_HAND): in hand of KIM/1", "main .step-place")
    hand.declined("instruct", "in hand of KIM/1")
    hand.turn("switch")
    hand.pick("N11-Q12")
    hand.shows("in hand of KIM/1", ".picked-notes")


def not_normal(stage):
    """A point that was moved, and the holds of another clearance, while an isolating order is written."""
    moved = [switch(["OPEN N14-Q12"]), *steps("DISP1/1", ["OPEN N14-Q12"]), *JONES, {"by": "LEE", "do": "request", "section": "N14-F13"}]
    hand = stage.network(moved, "clearance/LEE/1", speaker="DISP2")
    hand.write("filter", "N14-")
    for words in ("N14-Q12 N14-F11 – N14-F12 open marks: lockable normally closed", "TIE1-N13-N14 N13-F13 – N14-F13 open marks: lockable held by JONES/1"):
        wait_until(lambda: words in " ".join(hand.text(".picks").split()), f"in the list: {words}")
    hand.pick("TIE1-N13-N14", "N14-Q12")
    hand.shows("JONES/1 (Granted, crew C1 on) has it held open, blocked, tagged", '.picked-notes [data-at="TIE1-N13-N14"]')
    hand.shows("open now, normally closed", '.picked-notes [data-at="N14-Q12"]')


LOOKS = {"way-held": held_close, "way-fence": others_fence, "way-hand": in_hand, "way-normal": not_normal}
