"""Each page on a large screen, a small one and a phone: pictures to be looked at, and nothing is wider than the window."""

import os
import time

from desk_looks.browser import ALL, free_ports, say
from desk_looks.desk import Desk
from desk_looks.look_access import KNOWN, PAGES, life, turn
from desk_looks.look_life import hanging
from desk_looks.look_phone import fits
from desk_looks.network import step, switch, write_files
from desk_looks.stage import give

SIZES = {1920: 1080, 1280: 800, 390: 844}


class Screen:
    """One width: its pictures are named by it."""

    def __init__(self, hand, wide):
        self.hand, self.wide = hand, wide
        hand.browser.size(wide, SIZES[wide])

    def taken(self, name):
        time.sleep(0.8)  # controls that have just come have another cursor
        fits(self.hand, name, self.wide)
        self.hand.browser.script("document.activeElement.blur()")
        self.hand.browser.whole_picture(self.hand.path(f"{self.wide}-{name}"))

    def question(self, name):
        time.sleep(0.8)
        self.hand.picture(f"{self.wide}-{name}")
        self.hand.answer("null")


def pages(screen):
    for name, page in PAGES:
        screen.hand.speak(name)
        turn(screen.hand, page, {**KNOWN, "log": "DISP3/1"})
        screen.taken(page.replace("clearance/", "").replace("/", "-"))


def questions(screen):
    """What is asked before a grant, and of a switch order that is held, opens inside a fence and joins sources."""
    hand = screen.hand
    hand.speak("DISP1")
    turn(hand, "clearance/OWENS/1")
    hand.press("grant")
    screen.question("question-grant")
    turn(hand, "switch")
    texts = ("CLOSE TIE1-N13-N14", "OPEN N13-Q13", "CLOSE CPL-N12-N13")
    hand.pick(*(text.split()[1] for text in texts))
    for text in texts:
        hand.press(text)
    screen.taken("switch-written")
    hand.press("switch")
    screen.question("question-switch")
    for text in texts:
        hand.press(f"out {text}")
    hand.pick(*(text.split()[1] for text in texts))


def several(screen):
    screen.hand.browser.click("#several")
    turn(screen.hand, "clearance/KIM/1")
    screen.taken("several")
    screen.hand.browser.click("#several")


def served(stage):
    """The life, and a switch order since then that the journal has."""
    desk = Desk(stage.work, "desk", write_files(stage.work), free_ports(2))
    give(desk, life())
    desk.begin_journal(os.path.join(stage.work, "journal"))
    hand = stage.begin(desk)
    for command in (switch(["OPEN N14-Q31"], "DISP3"), *step("DISP3/1", 1, "OPEN N14-Q31")):
        hand.post(command)
    return hand


def widths(stage):
    hand = served(stage)
    for wide in SIZES:
        say(f"  {wide} pixels")
        screen = Screen(hand, wide)
        for part in (pages, questions, several):
            part(screen)
    silent(hand)


def silent(hand):
    """A reply that is lost, one that is found, and a refusal."""
    for wide, text in ((1920, "OPEN TIE1-N11-N12"), (390, "BLOCK N11-Q12")):
        screen = Screen(hand, wide)
        turn(hand, "clearance/KIM/1")
        hand.speak("DISP1")
        hand.number = hand.newest()[0]
        with hanging(hand.desk.register()):
            hand.press("instruct")
            if text.startswith("OPEN TIE"):  # which is open already
                hand.answer("send")
            hand.reply("lost", "504")
            screen.taken("silent")
        hand.found("it was carried out")
        screen.taken("found")
        hand.speak("REED")
        hand.write("repeat-text", "OPEN N11-Q13")
        hand.refused("repeat", "REPEAT_DIFFERS", answers=["send"])
        screen.taken("refused")
        hand.repeat(ALL + text)
        hand.carry_out("done", "done")


LOOKS = {"widths": widths}
