"""The diagram: the same picture at each desk, names that are never cut at its edge, and a whole network that can be read."""

import os
import time

from desk_looks.browser import ALL, ENTER, Differs, free_ports, say
from desk_looks.desk import Desk, EXAMPLES
from desk_looks.look_texts import busy
from desk_looks.network import steps, switch, write_files

# Where each section and point lies in the drawing.
PLACES = """return Object.fromEntries([...document.querySelectorAll('main .net [data-kind]')]
    .map((node) => [node.dataset.name, node.getAttribute('transform')]))"""

# The texts that the edge of the diagram cuts.
CUT = """
const frame = document.querySelector('main .net:not(.sample)').getBoundingClientRect();
const texts = [...document.querySelectorAll('main .net:not(.sample) text')].map((node) => [node.textContent, node.getBoundingClientRect()]);
const seen = texts.filter(([, r]) => r.right > frame.left + 1 && r.left < frame.right - 1 && r.bottom > frame.top + 1 && r.top < frame.bottom - 1);
return [seen.length, seen.filter(([, r]) => r.left < frame.left - 1 || r.right > frame.right + 1 || r.top < frame.top - 2 || r.bottom > frame.bottom + 2).map(([text]) => text)];
"""

# The texts that a line strikes through, and how much of its area the drawing fills.
WHOLE = """
const net = document.querySelector('main .net:not(.sample)'), frame = net.getBoundingClientRect();
const rects = (css) => [...net.querySelectorAll(css)].map((node) => [node.textContent, node.getBoundingClientRect()]);
const texts = rects('text'), plates = rects('.plate').map(([, r]) => r);
const has = (r, x, y, more) => x > r.left + more && x < r.right - more && y > r.top + 2 * more && y < r.bottom - 2 * more;
const struck = new Set();
for (const line of net.querySelectorAll('.line')) {
  const matrix = line.getScreenCTM(), long = line.getTotalLength(), step = 2 / matrix.a;
  for (let at = 0; at < long; at += step) {
    const { x, y } = line.getPointAtLength(at).matrixTransform(matrix);
    if (plates.some((r) => has(r, x, y, 0))) continue;
    for (const [text, r] of texts) if (has(r, x, y, 1)) struck.add(text);
  }
}
const drawn = rects('.line, .section .box').map(([, r]) => r);
const wide = Math.max(...drawn.map((r) => r.right)) - Math.min(...drawn.map((r) => r.left)), high = Math.max(...drawn.map((r) => r.bottom)) - Math.min(...drawn.map((r) => r.top));
return [texts.length, [...struck], (wide * high) / (frame.width * frame.height)];
"""

JUMPER = {"by": "DISP1", "do": "jumper", "point": "J1", "from": "N11-F33", "to": "N16-F21", "lockable": True, "remote": False}
FARTHER = {"by": "DISP1", "do": "jumper", "point": "A1", "from": "N12-BUS", "to": "A0", "lockable": True, "remote": False}


def places(hand, least=150):
    time.sleep(0.5)
    found = hand.browser.script(PLACES)
    if len(found) < least:
        raise Differs(f"{len(found)} sections and points are drawn")
    return found


def same(one, other, what):
    moved = [name for name in one if one[name] != other.get(name)]
    if moved:
        raise Differs(f"{what}: {len(moved)} lie elsewhere, as {', '.join(moved[:6])}")


def picture(stage):
    """A jumper comes and is closed, points are switched: a desk that was open, and one that is opened after, draw the same."""
    one = stage.network((), "diagram", speaker="DISP1")
    before = places(one)
    for command in (JUMPER, FARTHER, switch(["CLOSE J1", "OPEN N13-Q11", "CLOSE N13-B1"]), *steps("DISP1/1", ["CLOSE J1", "OPEN N13-Q11", "CLOSE N13-B1"])):
        one.post(command)
    one.shows("J1", "main .drawing")
    two = stage.window("diagram")
    two.shows("J1", "main .drawing")
    same(before, places(one), "at the desk that was open")
    same(places(one), places(two), "at a desk that was opened after")
    one.reload()
    same(places(two), places(one), "after a reload")
    two.picture("diagram-jumper")


def without_file(stage):
    """Where no normal position is known the positions of now shape nothing either, and nothing is said of normal."""
    desk = Desk(stage.work, "desk", write_files(stage.work), free_ports(2))
    hand = stage.begin(desk, "diagram")
    for name in ("points.csv", "normal.csv"):
        path = os.path.join(desk.run_folder(), "desk", "files", name)
        if os.path.lexists(path):
            os.remove(path)
    hand.open("diagram")
    before = places(hand)
    texts = ["OPEN N13-Q11", "CLOSE N13-B1", "OPEN N11-Q0", "CLOSE CPL-N11-N12"]
    for command in (switch(texts), *steps("DISP1/1", texts)):
        hand.post(command)
    hand.open("diagram")
    same(before, places(hand), "after switching")
    hand.turn("points")
    hand.shows("N13-Q11")
    hand.lacks("normal", "main .sheet tbody")


def uncut(hand, where):
    time.sleep(0.6)
    count, found = hand.browser.script(CUT)
    if found:
        raise Differs(f"{where}: the edge cuts {', '.join(found[:8])}")
    if count < 5:
        raise Differs(f"{where}: {count} texts are in view")


def edge(stage):
    """Wherever the view is, each name is whole, or not there."""
    hand = stage.network(busy(), "diagram", speaker="DISP1")
    hand.shows("LEE/1", "main .drawing")
    for width in (1440, 1024, 390):
        hand.browser.size(width)
        for name in ("N13-F12", "N11-Q33", "TIE1-N15-N16"):
            hand.browser.type(".tools input", ALL + name + ENTER)
            uncut(hand, f"{name} at {width}")
        for _ in range(3):
            hand.browser.click('.tools [aria-label="To the left"]')
            uncut(hand, f"moved at {width}")
        hand.picture(f"diagram-edge-{width}")
    hand.browser.size(0)
    hand.turn("clearance/JONES/1")
    hand.shows("JONES/1", "main .drawing")
    uncut(hand, "beside a clearance")


def read_whole(hand, where, least, count):
    hand.browser.click(".tools button:first-child")
    time.sleep(0.8)
    texts, struck, filled = hand.browser.script(WHOLE)
    hand.picture(f"diagram-{where}")
    say(f"  {where}: {texts} texts, and {filled:.0%} of the area is filled")
    if struck:
        raise Differs(f"{where}: lines strike through {len(struck)} texts, as {', '.join(struck[:6])}")
    if filled < least or texts < count:
        raise Differs(f"{where}: {texts} texts, and {filled:.0%} of the area")


def whole(stage):
    hand = stage.network(busy(), "diagram", speaker="DISP1")
    hand.shows("LEE/1", "main .drawing")
    for width, least, count in ((1440, 0.6, 100), (1024, 0.6, 80), (390, 0.5, 20)):
        hand.browser.size(width)
        read_whole(hand, f"whole-{width}", least, count)
    hand.browser.size(0)
    stage.desk.stop()
    small = stage.begin(Desk(stage.work, "small", EXAMPLES, free_ports(2)), "diagram")
    read_whole(small, "whole-small", 0.4, 10)


LOOKS = {"diagram picture": picture, "diagram without normal": without_file, "diagram edge": edge, "diagram whole": whole}
