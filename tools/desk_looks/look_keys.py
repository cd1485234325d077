"""Alt with C, B, N and T."""

from desk_looks.browser import ALT, ENTER, wait_until
from desk_looks.network import ordered


def focus(hand, script, what):
    wait_until(lambda: hand.browser.script(f"return document.activeElement?.{script}"), what)


def access_keys(stage):
    hand = stage.network(ordered("KIM", "N11-F12", ["N11-Q12", "N11-Q13"]), "clearance/KIM/1", speaker="DISP1")
    hand.shows("Instruct step 1")
    hand.browser.chord(ALT, "n")
    focus(hand, "dataset.name === 'instruct'", "the focus on Instruct")
    hand.nothing_sent(0)
    hand.browser.settled('main [data-name="instruct"]')
    hand.browser.keys(ENTER)
    hand.reply("accepted", "instruct step 1")
    hand.browser.chord(ALT, "c")
    focus(hand, "id === 'caller'", "the focus on the name")
    hand.speak("REED")
    hand.browser.chord(ALT, "c")
    hand.browser.chord(ALT, "t")
    focus(hand, "dataset.name === 'repeat-text'", "the focus on the repeat")
    hand.browser.chord(ALT, "b")
    wait_until(lambda: hand.browser.script("return location.hash === '#/board'"), "the board")


LOOKS = {"keys": access_keys}
