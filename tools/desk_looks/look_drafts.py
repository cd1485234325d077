"""What is half written lives through a look elsewhere, another desk's act and a reload; an example names a point of this
network."""

from desk_looks.browser import Differs, wait_until
from desk_looks.network import granted, ordered, points, released, step

CUT = ["N13-Q11", "N13-B1", "N13-Q13"]


def has(hand, name, value):
    wait_until(lambda: hand.browser.script("return document.querySelector(arguments[0])?.value", f'main [data-name="{name}"]') == value, f"{name} to have {value}")


def orders(stage):
    hand = stage.network([{"by": "KIM", "do": "request", "section": "N13-F12"}, *released("JONES", "N11-F13", ["N11-Q13", "TIE1-N11-N12"])], "clearance/KIM/1", speaker="DISP1")
    for point in CUT[:2]:
        hand.press(f"pick {point}")
    hand.press("by-point")
    hand.press("down OPEN N13-Q11")
    steps = texts(hand)
    hand.turn("board")
    hand.turn("switch")
    hand.press("pick N15-Q21")
    hand.press("OPEN N15-Q21")
    hand.turn("clearance/JONES/1")
    hand.press("LEAVE TIE1-N11-N12")
    for again in (lambda: hand.turn("board"), hand.reload):
        again()
        hand.turn("clearance/KIM/1")
        hand.shows("TAG N13-B1", "main .steplist")
        if texts(hand) != steps:
            raise Differs(f"the order has {texts(hand)}, and had {steps}")
        hand.turn("clearance/JONES/1")
        hand.shows("LEAVE TIE1-N11-N12", "main .steplist")
        hand.turn("switch")
        hand.shows("OPEN N15-Q21", "main .steplist")
    hand.carry_out("switch", "DISP1/1")
    hand.shows("DISP1/1", "main h2")
    hand.turn("switch")
    hand.shows("no steps yet", "main .steplist")


def texts(hand):
    return hand.browser.script("return [...document.querySelectorAll('main .steplist .text')].map((node) => node.textContent)")


def fields(stage):
    """A crew's name and a repeat, while another desk touches the clearances."""
    start = [*granted("KIM", "N13-F12", CUT, ["C1"]), *ordered("LEE", "N11-F13", ["N11-Q13", "TIE1-N11-N12"]), *step("LEE/1", 1, "OPEN N11-Q13", "instruct")]
    hand = stage.network(start, "clearance/KIM/1", speaker="KIM")
    hand.write("crew", "C2")
    hand.post({"by": "KIM", "do": "sign_on", "clearance": "KIM/1", "crew": "C3"})
    hand.shows("C3 is on")
    has(hand, "crew", "C2")
    hand.turn("board")
    hand.turn("clearance/KIM/1")
    has(hand, "crew", "C2")
    hand.turn("clearance/LEE/1")
    hand.speak("REED")
    hand.write("repeat-text", "open n11")
    hand.post({"by": "DALE", "do": "repeat", "clearance": "LEE/1", "step": 1, "text": "OPEN N11-Q13"})
    hand.shows("repeated, not yet reported")
    has(hand, "repeat-text", "OPEN N11")
    hand.reload()
    has(hand, "repeat-text", "OPEN N11")


def given_again(stage):
    """What was typed of a step is gone where it came back meanwhile and is given out once more."""
    instruct, repeat = step("LEE/1", 1, "OPEN N11-Q13", "repeat")
    hand = stage.network([*ordered("LEE", "N11-F13", ["N11-Q13", "TIE1-N11-N12"]), instruct], "clearance/LEE/1", speaker="REED")
    hand.write("repeat-text", "open n11-q13")
    hand.post(dict(repeat, by="DALE"))
    hand.post({"by": "DALE", "do": "report", "clearance": "LEE/1", "step": 1, "done": False})
    hand.browser.script("document.activeElement.blur()")
    wait_until(lambda: not hand.there('main [data-name="repeat-text"]'), "a step that waits")
    hand.post(instruct)
    has(hand, "repeat-text", "")


def over(stage):
    """What was written for a clearance that is over, or of a register before this one, does not stay."""
    names = "return Object.keys(sessionStorage).filter((key) => key.startsWith('gridclear-draft ')).sort()"
    hand = stage.network([{"by": "KIM", "do": "request", "section": "N13-F12"}], "clearance/KIM/1", speaker="DISP1")
    hand.press("pick N13-Q11")
    hand.turn("request")
    hand.speak("LEE")
    hand.write("section", "N11")
    hand.browser.script("sessionStorage.setItem('gridclear-draft LEE/7 sign_on', '\"C1\"')")
    wait_until(lambda: hand.browser.script(names) == ["gridclear-draft  request", "gridclear-draft KIM/1 order"], "two drafts")
    hand.post({"by": "KIM", "do": "cancel", "clearance": "KIM/1"})
    wait_until(lambda: hand.browser.script(names) == ["gridclear-draft  request"], "one draft")


def example(stage):
    """It is no point of the network: what is read here cannot be taken for what was heard."""
    hand = stage.network([*ordered("LEE", "N11-F13", ["N11-Q13", "TIE1-N11-N12"]), *step("LEE/1", 1, "OPEN N11-Q13", "instruct")], "clearance/LEE/1", speaker="REED")
    hand.shows("word for word, as OPEN ")
    text = hand.browser.script("return document.querySelector('main .next').textContent")
    name = text.split("word for word, as OPEN ")[1].split("Repeat")[0].strip()
    if not name or name in {row[0] for row in points()}:
        raise Differs(f"the example names {name}")


LOOKS = {"drafts": orders, "draft-over": over, "draft-again": given_again, "draft-fields": fields, "example": example}
