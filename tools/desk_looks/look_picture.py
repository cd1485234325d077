"""The picture of README: JONES/1 at work, OPS/1 that would close S2, jumper J1, the network, and the refusal."""

import json
import os
import time

from desk_looks.browser import free_ports
from desk_looks.desk import EXAMPLES, Desk, gridclear


def shift():
    """The shift of README, but its last two commands, which the page sends."""
    with open(os.path.join(os.path.dirname(EXAMPLES[0]), "held.jsonl"), encoding="utf-8") as file:
        return [json.loads(line) for line in file][:-2]


def picture(stage):
    desk = Desk(stage.work, "desk", EXAMPLES, free_ports(2))
    moment = int(time.time()) - 120
    timed = [one if one["do"] == "jumper" else dict(one, at=moment + 4 * place) for place, one in enumerate(shift())]
    gridclear("run", "--db", desk.base, text="".join(json.dumps(one) + "\n" for one in timed))
    hand = stage.begin(desk)
    hand.speak("OPS")
    hand.turn("switch")
    hand.press("pick S2")
    hand.press("CLOSE S2")
    hand.carry_out("switch", "OPS/1", answers=["send"])
    hand.refused("instruct", "HELD, number 20", "JONES/1", answers=["send"])
    hand.turn("clearance/JONES/1")
    hand.shows("C1")
    hand.turn("board")
    for text in ("Granted", "Switching", "J1", "crews C1"):
        hand.shows(text, "main .board")
    hand.browser.size(1440, 900)
    hand.browser.point(1, 1)
    hand.browser.script("document.activeElement.blur(); window.scrollTo(0, 0)")
    time.sleep(1)
    hand.picture("desk")


LOOKS = {"picture": picture}
