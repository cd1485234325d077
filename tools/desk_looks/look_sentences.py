"""A refusal is one sentence of what was refused, in the page's words; and the source that an order reaches is the same in the
form and in the refusal."""

from desk_looks import two_substations
from desk_looks.browser import Differs
from desk_looks.two_substations import granted, ordered, step, switch

CODE = ("sign_on", "unground", "gridclear fence", "`", "undefined", "— ")


def said(hand, sentence, name):
    """The newest reply is a refusal with this sentence, alone in red, and its name in small."""
    hand.reply("refused", sentence, "What to do:", name)
    reds = hand.browser.script("return [...document.querySelector('#replies li').querySelectorAll('.refusal')].map((one) => one.textContent)")
    if reds != [sentence]:
        raise Differs(f"in red is {reds}")
    for code in CODE:
        hand.lacks(code, "#replies li")


def work(stage):
    """Of the same refusal another sentence at each command."""
    hand = stage.network([*granted("KIM", "NOR-1C", ["N123", "TN12"], ["C1"]), *ordered("LEE", "NOR-2D", ["N234", "TN12"])], "clearance/KIM/1", speaker="KIM", net=two_substations)
    hand.press("ground NOR-1D")
    said(hand, "You cannot ground NOR-1D: it is not tested dead under KIM/1.", "NOT_TESTED, number 25")
    hand.write("crew", "C1")
    hand.press("sign-on")
    said(hand, "You cannot sign C1 on: C1 is on under KIM/1 already.", "CREW_STATE, number 29")
    hand.picture("sentences")


def late(stage):
    """What another desk has made of the record since then is in the sentence."""
    hand = stage.network(granted("KIM", "NOR-1C", ["N123", "TN12"], ["C1"]), "clearance/KIM/1", speaker="KIM", net=two_substations)
    hand.browser.settled('main [data-name="dead NOR-1D"]')
    hand.browser.script("document.querySelector('main [data-name=\"to false\"]').focus()")  # the list of what is next waits
    hand.post({"by": "KIM", "do": "transfer", "clearance": "KIM/1", "to": "JONES", "emergency": False})
    hand.press("dead NOR-1D")
    said(hand, "You cannot test NOR-1D: JONES holds KIM/1, not KIM.", "NOT_HOLDER, number 6")


def held(stage):
    """A step that would be refused is not the blue button; what holds its point is in the sentence."""
    blue = "return document.querySelector('main [data-name=instruct]').classList.contains('main')"
    hand = stage.network([*granted("KIM", "NOR-1C", ["N123", "TN12"]), switch(["CLOSE N123"]), switch(["OPEN N223"])], "clearance/BERT/2", speaker="BERT", net=two_substations)
    hand.shows("Next is step 1")
    if not hand.browser.script(blue):
        raise Differs("a step that nothing hinders is no blue button")
    hand.turn("clearance/BERT/1")
    hand.shows("would be refused (HELD) for KIM/1", "main .step-place")
    if hand.browser.script(blue):
        raise Differs("a step that would be refused is the blue button")
    hand.picture("sentences-held")
    hand.browser.click("#several")
    hand.shows("would be refused (HELD) for KIM/1", "main .several")
    if hand.browser.script(blue):
        raise Differs("in the row a step that would be refused is the blue button")
    hand.press("instruct")
    hand.answer("send")
    said(hand, "You cannot instruct step 1 of BERT/1: KIM/1 has N123 held open.", "HELD, number 20")


def source(stage):
    """The form and the refusal name one source: the least by name, also where another is nearer."""
    hand = stage.network([{"by": "KIM", "do": "request", "section": "NOR-1C"}], "clearance/KIM/1", speaker="BERT", net=two_substations)
    hand.pick("N134")
    hand.shows("the source GEN-PV is still reached: NOR-1C", ".fence-notes")
    hand.press("order")
    said(hand, "You cannot give the order of KIM/1: the source GEN-PV is still reached from NOR-1C, past no point of the order.", "SOURCE_INSIDE, number 12")


LOOKS = {"sentences": work, "sentences late": late, "sentences held": held, "sentences source": source}
