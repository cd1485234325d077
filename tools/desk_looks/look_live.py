"""A section that was tested live is an alarm at every desk, until it is tested dead or the clearance is released."""

from desk_looks.browser import ENTER, Differs, wait_until
from desk_looks.look_lost import lose
from desk_looks.network import granted

CUT = ["N13-Q11", "N13-B1", "N13-Q13"]  # of N13-F11 and N13-F12


def without(hand, text, css):
    look = "return document.querySelector(arguments[0])?.textContent ?? ''"
    wait_until(lambda: text not in hand.browser.script(look, css), f"{css} to be without {text}")


def say_live(hand, section):
    hand.carry_out(f"live {section}", "live", asked=[f"{section}: tested live?", "On now: C1"], answers=["yes"])


def alarmed(hand, section):
    """On the board, on the diagram, at the clearance, and on every page."""
    hand.shows(f"TESTED LIVE: {section}", "#alarms")
    hand.turn("board")
    hand.shows(f"{section} TESTED LIVE", "main tr[data-id='KIM/1']")
    hand.turn("clearance/KIM/1")
    hand.shows("TESTED LIVE", "main .columns tr .live")
    hand.turn("diagram")
    hand.shows("KIM/1 TESTED LIVE", "main .net .section-mark.live")
    hand.browser.find(f'main .net .section.live[data-name="{section}"]')


def alarm(stage):
    test = [{"by": "KIM", "do": "test", "clearance": "KIM/1", "section": "N13-F11", "dead": True}]
    one = stage.network([*granted("KIM", "N13-F12", CUT, ["C1"]), *test], "clearance/KIM/1")
    two = stage.window("clearance/KIM/1")
    one.speak("KIM")
    two.speak("DISP2")
    two.shows("tested dead")
    one.press("live N13-F11")
    one.answer("null")
    top = "return document.getElementById('frame').getBoundingClientRect().top"
    before = two.browser.script(top)
    say_live(one, "N13-F11")
    two.shows("TESTED LIVE: N13-F11", "#alarms")
    if two.browser.script(top) != before:
        raise Differs("an alarm has moved the page")
    for hand in (one, two):
        alarmed(hand, "N13-F11")
    one.picture("live-diagram")
    one.turn("clearance/KIM/1")
    one.picture("live")
    sign_on_asks(one)
    reloads(one, two)
    for hand in (one, two):
        hand.turn("clearance/KIM/1")
    ends_only_asked(one)
    for hand in (one, two):
        without(hand, "TESTED LIVE", "#alarms")
        without(hand, "TESTED LIVE", "main")


def ends_only_asked(hand):
    """What ends the alarm is neither beside what raises it, nor looks like it; it names who found the section live, and when."""
    between = hand.rect('main [data-name="crew"]')
    for section in ("N13-F11", "N13-F12"):
        dead, live = (hand.rect(f'main [data-name="{name} {section}"]') for name in ("dead", "live"))
        if not dead[3] < between[1] < between[3] < live[1]:
            raise Differs(f"tested dead at {dead}, tested live at {live}")
    looks = [hand.browser.script("const s = getComputedStyle(document.querySelector(arguments[0])); return [s.backgroundColor, s.borderColor, s.fontWeight]",
                                 f'main [data-name="{name} N13-F11"]') for name in ("dead", "live")]
    if any(one == other for one, other in zip(*looks)):
        raise Differs(f"tested dead and tested live look alike: {looks}")
    hand.declined("dead N13-F11", "N13-F11 was found live under KIM/1 by KIM, 20", "that ends the alarm at each desk", sent=1)
    hand.carry_out("dead N13-F11", "dead", answers=["yes"])


def sign_on_asks(hand):
    hand.write("crew", "C2" + ENTER)
    hand.shows("Tested live under KIM/1: N13-F11", "dialog")
    hand.answer("null")
    if hand.newest()[0] != hand.number:
        raise Differs("a crew was signed on beside an alarm without consent")


def reloads(one, two):
    """A reload keeps the alarm that was said here. At another desk the section is then not tested, in red."""
    for hand in (one, two):
        hand.open("clearance/KIM/1")
        hand.shows("Granted")
    one.shows("TESTED LIVE: N13-F11", "#alarms")
    two.shows("not tested", "main .columns .bad")
    two.turn("board")
    two.shows("N13-F11 not tested", "main .bad")
    two.turn("diagram")
    two.shows("KIM/1 not tested", "main .net .section-mark.bad")


def grounded(stage):
    """A ground without its test is an alarm at each desk, whenever it was opened; a release ends it."""
    one = stage.network(granted("KIM", "N13-F12", CUT, ["C1"]), "clearance/KIM/1", speaker="KIM")
    say_live(one, "N13-F12")
    two = stage.window("board")
    two.speak("DISP2")
    two.shows("TESTED LIVE: N13-F12", "#alarms")
    one.turn("clearance/KIM/1")
    one.carry_out("off C1", "off", answers=["yes"])
    one.carry_out("ground N13-F12", "take the ground off", asked=["no longer grounded"], answers=["yes"])
    one.shows("TESTED LIVE: N13-F12", "#alarms")
    one.carry_out("release", "Released", answers=["yes", "yes"])
    for hand in (one, two):
        without(hand, "TESTED LIVE", "#alarms")


def other_clearance(stage):
    """A section that was found live under one clearance asks before a crew signs on under another that has it, too."""
    hand = stage.network([*granted("KIM", "N13-F12", CUT, ["C1"]), *granted("JONES", "N13-F12", CUT, ["C5"])], "clearance/KIM/1", speaker="KIM")
    say_live(hand, "N13-F12")
    hand.turn("clearance/JONES/1")
    hand.speak("JONES")
    for place in ("main .work tr.live", "main .facts-place .live"):
        hand.shows("TESTED LIVE", place)
    hand.shows("under KIM/1, tested dead here, grounded", "main .work tr.live")
    hand.write("crew", "C6" + ENTER)
    hand.shows("Tested live under KIM/1: N13-F12", "dialog")
    hand.answer("null")


def nameless(stage):
    """A desk without a name reads no clearance, and says on every page that it shows no alarm."""
    hidden = "return document.getElementById('nameless').hidden"
    hand = stage.network(granted("KIM", "N13-F12", CUT, ["C1"]), "board")
    hand.post({"by": "KIM", "do": "test", "clearance": "KIM/1", "section": "N13-F12", "dead": False})
    for page in ("board", "diagram", "points", "mine", "switch", "clearance/KIM/1"):
        hand.turn(page)
        hand.shows("No name is chosen", "#nameless")
        if hand.browser.script(hidden):
            raise Differs(f"{page} does not say that no name is chosen")
    hand.speak("DISP1")
    hand.shows("TESTED LIVE: N13-F12", "#alarms")
    if not hand.browser.script(hidden):
        raise Differs("a desk with a name says that none is chosen")


def without_reply(stage):
    """What was found live is an alarm also where the reply is lost, and the register still has the test."""
    hand = stage.network(granted("KIM", "N13-F12", CUT, ["C1"]), "clearance/KIM/1", speaker="KIM")

    def say():
        hand.press("live N13-F12")
        hand.answer("yes")

    lose(hand, say, False)
    hand.found("N13-F12 is still tested dead", "not carried out")
    hand.shows("TESTED LIVE: N13-F12", "#alarms")
    hand.browser.click('#replies [data-name$="Give it again"]')
    hand.answer("yes")
    hand.reply("accepted", "live")
    hand.shows("TESTED LIVE: N13-F12", "#alarms")
    hand.carry_out("dead N13-F12", "dead", answers=["yes"])
    without(hand, "TESTED LIVE", "#alarms")


LOOKS = {"live": alarm, "live nameless": nameless, "live elsewhere": other_clearance, "live without reply": without_reply, "live grounded": grounded}
