"""One row for a step at a desk that speaks for several."""

import json
import time

from desk_looks.browser import ALT, ENTER, Differs, say, wait_until
from desk_looks.look_accident import middle
from desk_looks.network import needed, ordered, step

CUT = ["N11-Q12", "N11-Q13"]


def going(hand, name):
    """The focus is on this control of the row."""
    wait_until(lambda: hand.browser.script("return document.activeElement?.dataset?.name") == name, f"the focus on {name}")
    hand.browser.settled(f'main [data-name="{name}"]')


def row(stage):
    """Six steps by Enter and the repeats alone, each command by the name that was chosen in the row."""
    hand, other = stage.network(ordered("KIM", "N11-F12", CUT), "clearance/KIM/1"), stage.window("clearance/KIM/1")
    hand.speak("DISP3")
    other.speak("DISP4")
    hand.browser.click("#several")
    for part, name in (("giver", "DISP2"), ("hearer", "DALE")):
        hand.browser.click(f'main [data-name="{part}"] option[value="{name}"]')
    hand.browser.script("document.querySelector('main [data-name=instruct]').focus()")
    keys = 0
    texts = [f"{action} {point}" for action in ("OPEN", "BLOCK", "TAG") for point in CUT]
    for number, text in enumerate(texts, 1):
        going(hand, "instruct")
        hand.browser.keys(ENTER)
        hand.reply("accepted", f"DISP2: instruct step {number}")
        hand.shows(text, ".read-out strong")
        if number == 1:
            hand.picture("several")
            other.shows("was given out at another desk", "main .next")
        going(hand, "repeat-text")
        hand.browser.keys(text.lower() + ENTER)
        hand.reply("accepted", "DALE: repeat", text)
        wait_until(lambda: hand.browser.script("return document.activeElement?.id") == "next", "the focus on the heading")
        hand.browser.chord(ALT, "n")
        going(hand, "done")
        hand.browser.keys(ENTER)
        hand.confirm_report()
        hand.reply("accepted", "DALE: report", "done")
        keys += 3
    commands = [json.loads(line) for line in hand.desk.sent()]
    if [one["by"] for one in commands] != ["DISP2", "DALE", "DALE"] * len(texts):
        raise Differs(f"the names are {[one['by'] for one in commands]}")
    say(f"  {len(texts)} steps: {keys} times Enter and {len(texts)} times Alt+N beside the repeats, and no change of name")


def other_step(stage):
    """The pointer is on Instruct of step 1, which another desk does meanwhile: what comes there does not give out step 2."""
    hand = stage.network(ordered("KIM", "N11-F12", CUT), "clearance/KIM/1", speaker="DISP1")
    hand.browser.click("#several")
    hand.browser.settled('main [data-name="instruct"]')
    hand.browser.point(1, 1, *middle(hand, 'main [data-name="instruct"]'))
    for command in step("KIM/1", 1, needed(CUT)[0]):
        hand.post(command)
    hand.shows("Step 2 of", "main .several")
    hand.browser.press()
    time.sleep(1)
    hand.browser.press()
    hand.nothing_sent(3)


def held_key(stage):
    """Enter that is held down on `is done` does not give out the next step."""
    texts = needed(CUT)
    hand = stage.network([*ordered("KIM", "N11-F12", CUT), *step("KIM/1", 1, texts[0], "repeat")], "clearance/KIM/1", speaker="DISP1")
    hand.browser.click("#several")
    hand.browser.settled('main [data-name="done"]')
    hand.browser.script("document.querySelector('main [data-name=done]').focus()")
    time.sleep(1)
    hand.browser.hold_enter(4)
    hand.shows("Is OPEN N11-Q12 done in the field?", "dialog")
    hand.nothing_sent(0)
    hand.answer("yes")
    hand.reply("accepted", "report step 1")
    hand.nothing_sent(1)


LOOKS = {"several": row, "several-other-step": other_step, "several-held-key": held_key}
