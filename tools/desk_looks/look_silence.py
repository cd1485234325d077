"""A register that stops, and a clock that is off."""

import json
import time

from desk_looks.browser import ENTER, Differs, wait_until
from desk_looks.look_life import hanging
from desk_looks.network import ordered

CUT = ["N13-Q11", "N13-B1", "N13-Q13"]
BACK = "\ue003"
SOON = 7.5  # seconds: green is a state of 6, and looks take a while


def is_green(hand):
    return hand.browser.script("const node = document.getElementById('contact'); return node.className === 'answers' && node.textContent.startsWith('✓')")


def green(stage):
    """The top is green only while an answer is younger than 6 seconds, by either clock of the page."""
    hand = stage.network(speaker="DISP1")
    for pause in (1.7, 1.7, 0.4):
        wait_until(lambda: is_green(hand), "green")
        time.sleep(pause)
        if pause < 1:
            hand.browser.script("performance.now = () => 0") # as in a machine that slept
        with hanging(hand.desk.register()):
            begun = time.monotonic()
            wait_until(lambda: not is_green(hand), "another colour than green", SOON)
            hand.shows("does not answer since", "#contact")
            took = time.monotonic() - begun
    hand.picture("silent-top")
    wait_until(lambda: is_green(hand), "green again")
    if took > SOON:
        raise Differs(f"green for {took:.1f} seconds after the register stopped")


# The page's clock, n milliseconds ahead.
AHEAD = "{ const real = Date.now.bind(Date), Plain = Date; Date = class extends Plain { constructor(...parts) { parts.length ? super(...parts) : super(real() + %d); } static now() { return real() + %d; } }; }"


def set_clock(hand, seconds):
    """From the next page on; gives what takes it away again."""
    found = hand.browser.own("POST", "/goog/cdp/execute", {
        "cmd": "Page.addScriptToEvaluateOnNewDocument", "params": {"source": AHEAD % (seconds * 1000, seconds * 1000)}})
    return lambda: hand.browser.own("POST", "/goog/cdp/execute", {"cmd": "Page.removeScriptToEvaluateOnNewDocument", "params": {"identifier": found["identifier"]}})


def clock(stage):
    """A clock that is ten minutes fast is shown, and asked about once."""
    hand = stage.network(ordered("KIM", "N13-F12", CUT))
    restore = set_clock(hand, 600)
    try:
        hand.open("clearance/KIM/1")
        hand.speak("DISP1")
        hand.shows("ahead of the server's", "#clocks")
        hand.picture("clocks")
        hand.carry_out("instruct", "instruct step 1", asked=["which is meant?"], answers=["server"])
        hand.speak("REED")
        hand.write("repeat-text", "OPEN N13-Q11" + ENTER)
        hand.reply("accepted", "repeat step 1")
        shown = hand.browser.script("return new Date(document.getElementById('clock').textContent.replace(' ', 'T').replace(' ', '')).getTime() / 1000")
        if abs(shown - time.time()) > 60:
            raise Differs("the clock at the top is not the server's, which was chosen")
    finally:
        restore()
    sent = moments(hand.desk)
    if any(abs(at - time.time()) > 60 for at in sent):
        raise Differs(f"the moments are not the server's: {sent}")


def moments(desk):
    return [json.loads(line)["at"] for line in desk.sent()]


def small(stage):
    """Twenty seconds are not shown."""
    hand = stage.network(ordered("KIM", "N13-F12", CUT))
    restore = set_clock(hand, -20)
    try:
        hand.open("clearance/KIM/1")
        hand.speak("DISP1")
        hand.carry_out("instruct", "instruct step 1")
        if not hand.browser.script("return document.getElementById('clocks').hidden"):
            raise Differs("a clock that is 20 seconds off is shown")
    finally:
        restore()


def half(stage):
    """By a moment that is half written nothing goes; it stays there to be completed, or the clock is used."""
    hand = stage.network(ordered("KIM", "N13-F12", CUT), "clearance/KIM/1", speaker="DISP1")
    hand.browser.click("#moment-set")
    hand.browser.keys(BACK)
    for _ in range(2):
        hand.press("instruct")
        hand.reply("unsent", "half written")
        hand.nothing_sent(0)
    hand.browser.click("#moment-now")
    hand.carry_out("instruct", "instruct step 1")


LOOKS = {"green": green, "clock": clock, "small clock": small, "half moment": half}
