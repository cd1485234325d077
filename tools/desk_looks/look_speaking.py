"""Nothing is read out before the register has accepted it, and it is read out at one desk alone."""

import time

from desk_looks.browser import Differs, wait_until
from desk_looks.look_life import hanging
from desk_looks.network import granted, ordered, step, switch

HELD = "TIE1-N12-N13"
JONES = granted("JONES", "N13-F13", ["N13-Q13", HELD, "TIE1-N13-N14"], ["C1"])
KIM = granted("KIM", "N12-F13", ["N12-Q13", "TIE1-N11-N12", HELD], ["C2"])
KIM_ORDER = ordered("KIM", "N11-F12", ["N11-Q12", "N11-Q13"])
LARGE = 24  # pixels, of the text that is read out


def silent(hand):
    for words in ("read out", "read this out"):
        hand.lacks(words)


def answer_if_asked(hand):
    if hand.there("dialog"):
        hand.answer("send")


def refused_close(stage):
    """A CLOSE that is held: before the press and after the refusal the page has nothing to read out."""
    hand = stage.network([*JONES, *KIM, switch([f"CLOSE {HELD}"])])
    hand.turn("clearance/DISP1/1")
    hand.speak("DISP1")
    hand.shows("Instruct step 1")
    silent(hand)
    hand.press("instruct")
    wait_until(lambda: hand.there("dialog") or hand.newest()[0], "a question or a reply")
    silent(hand)
    answer_if_asked(hand)
    hand.reply("refused", "HELD", "JONES/1")
    silent(hand)


def one_desk(stage):
    """Two desks press Instruct for one step: one of them reads it out, after its reply."""
    one, two = stage.network(KIM_ORDER, "clearance/KIM/1"), stage.window("clearance/KIM/1")
    for hand, name in ((one, "DISP1"), (two, "DISP2")):
        hand.speak(name)
        hand.shows("Instruct step 1")
        silent(hand)
    one.press("instruct")
    two.press("instruct")
    one.reply("accepted", "instruct step 1")
    two.reply("refused", "STEP_STATE")
    one.shows("Read this out", "main .next")
    one.shows("OPEN N11-Q12", "main .next .read-out strong")
    size = one.browser.script("return parseFloat(getComputedStyle(document.querySelector('.read-out strong')).fontSize)")
    if size < LARGE:
        raise Differs(f"the text to be read out has {size} pixels")
    two.shows("given out at another desk")
    silent(two)


def until_repeated(stage):
    """It stays through a reload and another page, and goes when it is repeated."""
    hand = stage.network(KIM_ORDER, "clearance/KIM/1", speaker="DISP1")
    hand.carry_out("instruct")
    hand.reload()
    hand.shows("Read this out", "main .next")
    hand.turn("board")
    hand.shows("given out, not yet repeated")
    hand.turn("clearance/KIM/1")
    hand.speak("REED")
    hand.shows("Read this out", "main .next")
    hand.repeat("OPEN N11-Q12")
    wait_until(lambda: "read this out" not in hand.text().lower(), "no text to be read out any more")


def given_again(stage):
    """A step that came back and that another desk gave out again is not read out where it was given first."""
    one, two = stage.network(KIM_ORDER, "clearance/KIM/1"), stage.window("clearance/KIM/1")
    one.speak("DISP1")
    one.carry_out("instruct")
    one.shows("Read this out", "main .next")
    one.turn("board")
    two.speak("REED")
    two.repeat("OPEN N11-Q12")
    two.carry_out("not-done", "not done")
    two.speak("DISP2")
    two.carry_out("instruct", "instruct step 1")
    two.shows("Read this out", "main .next")
    one.shows("given out, not yet repeated")
    one.turn("clearance/KIM/1")
    wait_until(lambda: "was given out at another desk" in one.text() or "Ask the other desks" in one.text(), "a word of the other desk")
    silent(one)


def lost_reply(stage):
    """An instruct whose reply was lost may have been another desk's: people agree before one of them reads it out."""
    hand = stage.network(KIM_ORDER, "clearance/KIM/1", speaker="DISP1")
    hand.shows("Instruct step 1")
    with hanging(hand.desk.register()):
        hand.press("instruct")
        hand.reply("lost", "504")
        silent(hand)
    hand.found("it was carried out")
    hand.shows("Ask the other desks", "main .next")
    silent(hand)
    hand.press("mine")
    hand.shows("Read this out", "main .next")
    hand.shows("OPEN N11-Q12", "main .next .read-out strong")


def far_moment(stage):
    """Where a record's last moment is far after the clock, all its commands have that one, and none shows what was since."""
    hand = stage.network(KIM_ORDER, "clearance/KIM/1")
    for command in (*step("KIM/1", 1, "OPEN N11-Q12", "repeat"), {"by": "REED", "do": "report", "clearance": "KIM/1", "step": 1, "done": False}):
        hand.post(command, int(time.time()) + 3600)
    hand.speak("DISP1")
    hand.carry_out("instruct", "instruct step 1", answers=["last"])
    hand.shows("Ask the other desks", "main .next")
    silent(hand)


# As if the last look at the register had been two minutes ago.
LONG_AGO = """
const given = JSON.parse(sessionStorage.getItem('gridclear-given'));
for (const [, own] of given) own.looked -= 120;
sessionStorage.setItem('gridclear-given', JSON.stringify(given));
Storage.prototype.setItem = () => {}; // until it is loaded again the page would write what it knows over this
"""


def gap(stage):
    """Another desk may have given it again while this one did not look."""
    hand = stage.network(KIM_ORDER, "clearance/KIM/1", speaker="DISP1")
    hand.carry_out("instruct", "instruct step 1")
    hand.shows("Read this out", "main .next")
    hand.turn("board")
    hand.browser.script(LONG_AGO + "location.reload()")
    hand.shows("given out, not yet repeated")
    hand.turn("clearance/KIM/1")
    hand.shows("Ask the other desks", "main .next")
    silent(hand)


LOOKS = {"speak-far": far_moment, "speak-gap": gap, "speak-again": given_again, "speak-lost": lost_reply, "speak-refused": refused_close, "speak-one-desk": one_desk, "speak-until-repeated": until_repeated}
