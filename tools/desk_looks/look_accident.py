"""No act by accident: a control that comes under the pointer takes no press until the pointer has left it; a list under
the pointer, or under a focused field, waits; what gives something up is asked about."""

import time

from desk_looks.browser import ENTER, Differs, say, wait_until
from desk_looks.network import granted, ordered, step

CUT = ["N13-Q11", "N13-B1", "N13-Q13"]


def middle(hand, css):
    hand.browser.script("document.querySelector(arguments[0]).scrollIntoView({block: 'center'})", css)
    return hand.browser.script("const r = document.querySelector(arguments[0]).getBoundingClientRect(); return [Math.round(r.left + r.width / 2), Math.round(r.top + r.height / 2)]", css)


def under(hand, place):
    return hand.browser.script("return document.elementFromPoint(...arguments)?.closest('button, a')?.dataset.name ?? ''", *place)


def asked(hand):
    return hand.browser.script("return document.querySelector('dialog') !== null")


def double_press(stage):
    """Of four crews one is signed off; presses that go on at the same place sign off no other."""
    hand = stage.network(granted("KIM", "N13-F12", CUT, ["C1", "C2", "C3", "C4"]), "clearance/KIM/1", speaker="KIM")
    name = 'main [data-name="off C1"]'
    hand.browser.settled(name)
    place = middle(hand, name)
    hand.browser.point(1, 1, *place)
    hand.browser.press()
    hand.shows("Sign C1 off?", "dialog")
    wait_until(lambda: not hand.browser.script("return document.querySelector('dialog [data-fresh]') !== null"), "a settled question")
    hand.browser.script("document.querySelector('dialog [data-answer=yes]').click()")
    hand.reply("accepted", "sign crew C1 off")
    wait_until(lambda: under(hand, place).startswith("off "), "another crew's button under the pointer")
    say(f"  under the pointer now: {under(hand, place)}")
    for pause in (0.1, 0.3, 0.4, 0.8, 1.2):
        time.sleep(pause)
        hand.browser.press()
        if asked(hand) or hand.newest()[0] != hand.number:
            raise Differs(f"a press at the same place did something: {hand.newest()[2]}")
    hand.browser.point(place[0] + 2, place[1])
    hand.browser.press()
    if asked(hand):
        raise Differs("a press after two pixels did something")
    hand.browser.point(1, 1, *place)
    time.sleep(0.8)
    hand.browser.press()
    hand.shows("off?", "dialog")
    hand.answer("null")


def double_touch(stage):
    """The same by a finger, which needs no other place between two touches, but a moment."""
    hand = stage.network(granted("KIM", "N13-F12", CUT, ["C1", "C2", "C3"]), "clearance/KIM/1", speaker="KIM")
    name = 'main [data-name="off C1"]'
    hand.browser.settled(name)
    place = middle(hand, name)
    hand.browser.touch(*place)
    hand.shows("Sign C1 off?", "dialog")
    wait_until(lambda: not hand.browser.script("return document.querySelector('dialog [data-fresh]') !== null"), "a settled question")
    hand.browser.script(TOUCHED, *place)
    hand.reply("accepted", "sign crew C1 off")
    wait_until(lambda: hand.browser.script("return window.touches") == 2, "two touches")
    if asked(hand):
        raise Differs("the second of two quick touches did something")
    time.sleep(1)
    hand.browser.touch(*place)
    hand.shows("off?", "dialog")
    hand.answer("null")


# Says yes; then, as soon as another crew's button lies at this place, touches it twice, 300 ms apart.
TOUCHED = """
const [x, y] = arguments;
window.touches = 0;
const touch = () => {
  const node = document.elementFromPoint(x, y), more = { bubbles: true, cancelable: true, clientX: x, clientY: y, pointerType: 'touch', detail: 1 };
  if (window.touches === 0) window.first = node;
  for (const kind of ['pointerdown', 'pointerup', 'click']) node.dispatchEvent(new PointerEvent(kind, more));
  window.touches++;
};
document.querySelector('dialog [data-answer=yes]').click();
const wait = setInterval(() => {
  const name = document.elementFromPoint(x, y)?.closest('button')?.dataset.name ?? '';
  if (!name.startsWith('off ') || name === 'off C1') return;
  clearInterval(wait);
  touch();
  setTimeout(touch, 300);
}, 5);
"""


# Presses a control again and again from when it has come, as a hand does that meant another; on a busy machine less often,
# and never later than by half a second.
SOON = """
window.presses = 0;
window.over = false;
const look = new MutationObserver(() => {
  const begun = performance.now(), find = () => document.querySelector('main [data-name=done]');
  if (!find()) return;
  look.disconnect();
  const press = () => {
    window.over = performance.now() - begun > 500;
    if (window.over) return;
    window.presses++;
    find()?.click();
    setTimeout(press, 60);
  };
  press();
});
look.observe(document.body, { childList: true, subtree: true });
"""


def new_control(stage):
    """What has just come takes no press for 700 ms."""
    text = "OPEN N11-Q13"
    hand = stage.network([*ordered("LEE", "N11-F13", ["N11-Q13", "TIE1-N11-N12"]), *step("LEE/1", 1, text, "instruct")], "clearance/LEE/1", speaker="REED")
    hand.browser.script(SOON)
    hand.write("repeat-text", text + ENTER)
    hand.reply("accepted", "repeat step 1")
    wait_until(lambda: hand.browser.script("return window.over"), "presses")
    say(f"  {hand.browser.script('return window.presses')} presses in half a second")
    hand.nothing_sent(1)
    hand.carry_out("done", "done")


def waiting(stage):
    """Another desk's crew does not move the list under the pointer: it waits, until the pointer leaves or 15 seconds."""
    hand = stage.network(granted("KIM", "N13-F12", CUT, ["C2"]), "clearance/KIM/1", speaker="KIM")
    name = 'main [data-name="off C2"]'
    hand.browser.settled(name)
    place = middle(hand, name)
    hand.browser.point(1, 1, *place)
    hand.post({"by": "KIM", "do": "sign_on", "clearance": "KIM/1", "crew": "C1"})
    hand.browser.find("main [data-changed]")
    hand.picture("changed")
    time.sleep(1)
    if under(hand, place) != "off C2":
        raise Differs(f"under the pointer is {under(hand, place)}")
    hand.browser.point(1, 1)
    hand.shows("C1 is on")
    place = middle(hand, name)
    hand.browser.point(1, 1, *place)
    hand.post({"by": "KIM", "do": "sign_on", "clearance": "KIM/1", "crew": "A1"})
    begun = time.monotonic()
    hand.browser.find("main [data-changed]")
    hand.shows("A1 is on")
    took = time.monotonic() - begun
    if not 10 < took < 22:
        raise Differs(f"the list under the pointer was drawn after {took:.0f} seconds")
    time.sleep(0.9)
    hand.browser.press()
    if asked(hand):
        raise Differs("what came under the pointer after 15 seconds took a press")


def given_elsewhere(stage):
    """That another desk gave the step out comes above the controls: it waits while the pointer is on them."""
    hand = stage.network(ordered("KIM", "N13-F12", CUT), "clearance/KIM/1", speaker="DISP1")
    hand.browser.settled('main [data-name="instruct"]')
    place = middle(hand, 'main [data-name="instruct"]')
    hand.browser.point(1, 1, *place)
    hand.post(step("KIM/1", 1, "OPEN N13-Q11", "instruct")[0])
    hand.browser.find("main .next[data-changed]")
    if under(hand, place) != "instruct":
        raise Differs(f"under the pointer is {under(hand, place)}")
    hand.browser.point(1, 1)
    hand.shows("was given out at another desk", "main .next")
    if hand.there('main [data-name="instruct"]'):
        raise Differs("a step that is given out is to be given out")


def focused(stage):
    """The focus is on Instruct of step 1, which another desk does meanwhile: Enter gives nothing out then."""
    hand = stage.network(ordered("KIM", "N13-F12", CUT), "clearance/KIM/1", speaker="DISP1")
    hand.tab_to("instruct")
    for command in step("KIM/1", 1, "OPEN N13-Q11"):
        hand.post(command)
    hand.shows("Instruct step 2")
    for _ in range(3):
        hand.browser.keys(ENTER)
        time.sleep(0.5)
    hand.nothing_sent(3)


def field(stage):
    """Nor under a field that has the focus; and the board does so too."""
    hand = stage.network(granted("KIM", "N13-F12", CUT, ["C2"]), "clearance/KIM/1", speaker="KIM")
    hand.write("crew", "C9")
    hand.browser.point(1, 1)
    hand.post({"by": "KIM", "do": "sign_on", "clearance": "KIM/1", "crew": "C1"})
    hand.browser.find("main .next [data-changed]")
    hand.browser.script("document.activeElement.blur()")
    hand.shows("C1 is on")
    hand.turn("board")
    hand.shows("KIM/1")
    place = middle(hand, 'main [data-name="KIM/1"]')
    hand.browser.point(1, 1, *place)
    hand.post({"by": "JONES", "do": "request", "section": "N11-F11"})
    hand.browser.find("main [data-changed]")
    if under(hand, place) != "KIM/1":
        raise Differs(f"under the pointer on the board is {under(hand, place)}")
    hand.browser.point(1, 1)
    hand.shows("JONES/1", "main .board")


def questions(stage):
    """Grant, ground off, crew off and release are asked about, each with what it means."""
    hand = stage.network(granted("KIM", "N13-F12", CUT, ["C1"])[:-4], "clearance/KIM/1", speaker="DISP1")
    hand.press("grant")
    hand.shows("nobody takes a grant back", "dialog")
    hand.answer("null")
    hand.carry_out("grant", "Granted", answers=["yes"])
    for commands in ({"do": "test", "section": "N13-F12", "dead": True}, {"do": "ground", "section": "N13-F12"}, {"do": "sign_on", "crew": "C1"}):
        hand.post({"by": "KIM", "clearance": "KIM/1", **commands})
    hand.speak("KIM")
    hand.carry_out("off C1", "off", asked=["have left the work"], answers=["yes"])
    hand.carry_out("ground N13-F12", "take the ground off", asked=["no longer grounded"], answers=["yes"])
    hand.press("release")
    hand.shows("gives the line back", "dialog")
    hand.answer("null")
    hand.same_reply("accepted", "take the ground off")


LOOKS = {"double press": double_press, "double touch": double_touch, "new control": new_control, "changed": waiting, "changed reading": given_elsewhere, "changed focus": focused, "changed field": field, "questions": questions}
