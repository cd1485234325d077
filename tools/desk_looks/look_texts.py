"""The diagram's texts: none lies on another, on a section or on a point; what fits is there from far off; Find marks."""

import time

from desk_looks.browser import ALL, ENTER, Differs, say
from desk_looks.network import granted, ordered, released, step, switch

# Texts of the diagram that lie on another, or on a section or point that is not their own.
OVERPRINTED = """
const frame = document.querySelector('main .net').getBoundingClientRect();
const rect = (node) => node.getBoundingClientRect();
const inside = (r) => r.width && r.right > frame.left && r.left < frame.right && r.bottom > frame.top && r.top < frame.bottom;
const texts = [...document.querySelectorAll('main .net text')].map((node) => [node.textContent, rect(node)]).filter(([, r]) => inside(r));
const boxes = [...document.querySelectorAll('main .net .box')].map((node) => [node.closest('[data-name]')?.dataset.name ?? '', rect(node)]).filter(([, r]) => inside(r));
const share = (a, b) => Math.min(a.right, b.right) - Math.max(a.left, b.left) > 1.5 && Math.min(a.bottom, b.bottom) - Math.max(a.top, b.top) > 2.5;
const bad = [];
texts.forEach(([text, a], place) => {
  for (const [other, b] of texts.slice(place + 1)) if (share(a, b)) bad.push(`${text} on ${other}`);
  for (const [name, b] of boxes) if (share(a, b) && !text.replace('✓ ', '').startsWith(name)) bad.push(`${text} on the box of ${name}`);
});
return [texts.length, bad];
"""

CUT = ["N13-Q11", "N13-B1", "N13-Q13"]
TIES = ["TIE1-N12-N13", "TIE1-N13-N14"]


def busy():
    """Clearances side by side that hold the same points, steps that are out, tests and grounds."""
    jones = granted("JONES", "N13-F13", ["N13-Q13", *TIES], ["C1", "C2"])
    kim = granted("KIM", "N13-F12", CUT, ["C3"])
    owens = released("OWENS", "N13-F11", ["N13-Q11", "N13-B1", "N13-Q12"])
    lee = [*ordered("LEE", "N12-F13", ["N12-Q13", "TIE1-N11-N12", "TIE1-N12-N13"]), *step("LEE/1", 1, "OPEN N12-Q13"), *step("LEE/1", 2, "OPEN TIE1-N11-N12", "instruct")]
    soto = ordered("SOTO", "N13-F13", ["N13-Q13", *TIES])
    return [*jones, *kim, *owens, *lee, *soto, switch(["OPEN N14-Q13"])]


def overprinted(hand, where):
    time.sleep(0.5)
    count, bad = hand.browser.script(OVERPRINTED)
    if bad:
        raise Differs(f"{where}: {len(bad)} texts lie on something: {'; '.join(bad[:6])}")
    say(f"  {where}: {count} texts, none on another")
    return count


def texts(stage):
    hand = stage.network(busy(), "diagram", speaker="DISP1")
    hand.shows("LEE/1", "main .drawing")
    hand.browser.type(".tools input", "N13-F12" + ENTER)
    hand.picture("texts-near")
    overprinted(hand, "from near by")
    for name in ("JONES/1", "KIM/1", "OWENS/1", "TIE1-N12-N13"):
        hand.shows(name, "main .drawing")
    hand.turn("clearance/JONES/1")
    overprinted(hand, "beside a clearance")


def far_off(stage):
    hand = stage.network(busy(), "diagram", speaker="DISP1")
    hand.shows("LEE/1", "main .drawing")
    hand.browser.click(".tools button:first-child")
    count = overprinted(hand, "the whole network")
    hand.picture("texts-whole")
    for name in ("GRID-1", "JONES/1", "N13-F12", "N15-BUS"):
        hand.shows(name, "main .drawing")
    if count < 60:
        raise Differs(f"the whole network has {count} texts")


def find(stage):
    hand = stage.network((), "diagram", speaker="DISP1")
    hand.browser.type(".tools input", "N15-Q22" + ENTER)
    hand.shows("N15-Q22, ringed", ".tools")
    marked = hand.browser.script("return [...document.querySelectorAll('main .net .found')].map((node) => node.closest('[data-name]').dataset.name)")
    if marked != ["N15-Q22"]:
        raise Differs(f"marked is {marked}")
    hand.picture("texts-found")
    hand.browser.type(".tools input", ALL + "TIE3" + ENTER)
    hand.shows("5 found", ".tools")
    hand.browser.type(".tools input", ALL + "NOWHERE" + ENTER)
    hand.shows("nothing has NOWHERE in its name", ".tools")


LOOKS = {"texts": texts, "far off": far_off, "find": find}
