"""An alarm sounds after a first press, until somebody at this desk has acknowledged it; it stays in view until it is over."""

import time

from desk_looks.browser import Differs, wait_until
from desk_looks.look_life import hanging
from desk_looks.look_log import journaled
from desk_looks.network import granted

CUT = ["N13-Q11", "N13-B1", "N13-Q13"]
COUNTED = """
window.tones = 0;
const make = AudioContext.prototype.createOscillator;
AudioContext.prototype.createOscillator = function () { window.tones += 1; return make.call(this); };
"""


def tones(hand):
    return hand.browser.script("return window.tones")


def sounds(hand):
    before = tones(hand)
    wait_until(lambda: tones(hand) >= before + 2, "two tones more", 12)


def is_quiet(hand):
    before = tones(hand)
    time.sleep(5)
    if tones(hand) != before:
        raise Differs("it sounds, though nothing waits")


def acknowledge(hand, where):
    hand.browser.click(f"{where} button")
    hand.shows("acknowledged by KIM at ", where)
    time.sleep(2.2)
    is_quiet(hand)


def sound(stage):
    hand = journaled(stage, "clearance/KIM/1")
    for command in granted("KIM", "N13-F12", CUT, ["C1"]):
        hand.post(command)
    hand.browser.script(COUNTED)
    hand.speak("KIM")
    hand.post({"by": "KIM", "do": "test", "clearance": "KIM/1", "section": "N13-F11", "dead": False})
    hand.shows("TESTED LIVE: N13-F11", "#alarms")
    if not hand.there("#sound-waits[hidden]"):
        hand.shows("begins with a first press", "#sound-waits")
    hand.browser.click("main h2")
    sounds(hand)
    hand.picture("sound")
    hand.browser.click("#sound")
    time.sleep(0.5)
    is_quiet(hand)
    hand.browser.click("#sound")
    sounds(hand)
    acknowledge(hand, "#alarms")
    hand.shows("TESTED LIVE: N13-F11", "#alarms")
    hand.picture("sound-acknowledged")
    with hanging(hand.desk.register()):
        hand.shows("does not answer", "#contact.silent")
        sounds(hand)
        acknowledge(hand, "#contact-heard")
        hand.shows("does not answer", "#contact.silent")
    hand.shows("The register answers", "#contact.answers")
    loaded_again(hand)


def loaded_again(hand):
    """Who has acknowledged it stays through a reload; what is found live again sounds again."""
    hand.reload()
    hand.browser.script(COUNTED)
    hand.shows("acknowledged by KIM at ", "#alarms")
    time.sleep(15)
    hand.shows("acknowledged by KIM at ", "#alarms")
    hand.post({"by": "KIM", "do": "test", "clearance": "KIM/1", "section": "N13-F11", "dead": True})
    wait_until(lambda: hand.browser.script("return document.getElementById('alarms').hidden"), "the end of the alarm")
    time.sleep(3)
    hand.post({"by": "KIM", "do": "test", "clearance": "KIM/1", "section": "N13-F11", "dead": False})
    hand.shows("Acknowledge", "#alarms button")
    hand.browser.click("main h2")
    sounds(hand)


LOOKS = {"sound": sound}
