"""The diagram of two substations in the middle of a shift: what is held is said in full, names keep their places, letters can
be read on a small screen, and what is picked is in view."""

import time

from desk_looks import two_substations
from desk_looks.browser import Differs, say, wait_until

SMALL = (1366, 768)
SIZES = (SMALL, (1920, 1080), (2560, 1440))
PAGES = ("diagram", "clearance/OWENS/1", "clearance/JONES/1", "clearance/BOSS/1", "clearance/KIM/2", "switch")
ASKED = {"by": "KIM", "do": "request", "section": "NOR-3B"}
LEAST, FRAME = 11, (540, 380)  # pixels: of a letter, and of the drawing beside a record
JUMPERS = (("J1", "NOR-3D", "SOU-1A"), ("J2", "NOR-1C", "NOR-5B"), ("J3", "HV-132A", "GEN-PV"), ("J4", "LINE-11", "X1"))

# What is wholly in view: at each point and section, its texts.
SAID = """
const net = document.querySelector('main .net:not(.sample)'), frame = net.getBoundingClientRect();
const texts = (name) => [...net.querySelectorAll(`text.mark[data-of="${name}"]`)].map((node) => node.textContent);
const isIn = (r) => r.left > frame.left + 4 && r.right < frame.right - 4 && r.top > frame.top + 4 && r.bottom < frame.bottom - 4;
return Object.fromEntries([...net.querySelectorAll('[data-kind]')].filter((group) => isIn(group.querySelector('.box').getBoundingClientRect()))
  .map(({ dataset: { name } }) => [name, texts(name)]));
"""

# Where each name lies, and the names that another one follows or underlies so closely that both are read as one.
NAMES = """
const net = document.querySelector('main .net:not(.sample)');
const texts = [...net.querySelectorAll('text.name, text.label')].map((node) => [node.dataset.of, node.getBoundingClientRect(), node]);
const met = [];
for (const [one, a] of texts) for (const [other, b] of texts) {
  const wide = Math.min(a.right, b.right) - Math.max(a.left, b.left), high = Math.min(a.bottom, b.bottom) - Math.max(a.top, b.top);
  if (one < other && ((high > 4 && wide > -6) || (wide > 4 && high > 1))) met.push(`${one} and ${other}`);
}
return [Object.fromEntries(texts.map(([name, , node]) => [name, [node.getAttribute('x'), node.getAttribute('y')].join()])), met];
"""

# The size of the frame, how far down it reaches, and the smallest letters in it.
READ = """
const net = document.querySelector('main .net:not(.sample)'), frame = net.getBoundingClientRect();
const scale = net.querySelector('.drawing').getScreenCTM().a;
const sizes = [...net.querySelectorAll('text')].map((node) => node.getAttribute('font-size') * scale);
return [frame.width, frame.height, frame.bottom, sizes.length, Math.min(...sizes)];
"""

# What the line of each jumper runs through.
THROUGH = """
const rects = [...document.querySelectorAll('main .net:not(.sample) [data-kind]')].map((group) => [group.dataset.name, group.querySelector('.box').getBoundingClientRect()]);
return [...document.querySelectorAll('main .net:not(.sample) .line.jumper')].map((line, place) => {
  const matrix = line.getScreenCTM(), long = line.getTotalLength(), found = new Set();
  for (let at = 0; at <= long; at += 1) {
    const { x, y } = line.getPointAtLength(at).matrixTransform(matrix);
    for (const [name, r] of rects) if (x > r.left - 1 && x < r.right + 1 && y > r.top - 1 && y < r.bottom + 1) found.add(name);
  }
  return [...found];
});
"""


# What of the diagram differs too little from what lies under it: texts below 4.5 to 1, lines and signs below 3 to 1.
FAINT = """
const net = document.querySelector('main .net:not(.sample)'), canvas = document.createElement('canvas').getContext('2d');
const light = (color) => {
  canvas.fillStyle = color;
  canvas.fillRect(0, 0, 1, 1);
  const [r, g, b] = [...canvas.getImageData(0, 0, 1, 1).data].map((one) => (one / 255 <= 0.04045 ? one / 255 / 12.92 : ((one / 255 + 0.055) / 1.055) ** 2.4));
  return 0.2126 * r + 0.7152 * g + 0.0722 * b;
};
const look = (css, key) => getComputedStyle(net.querySelector(css))[key], paper = getComputedStyle(net).backgroundColor;
const [fed, dead] = ['.section.fed:not(.fenced) .box', '.section.dead:not(.fenced) .box'].map((css) => look(css, 'fill'));
const pairs = [['text.label', 'fill', paper, 4.5], ['text.name', 'fill', fed, 4.5], ['text.name', 'fill', dead, 4.5], ['text.mark:not(.section-mark)', 'fill', paper, 4.5],
  ['text.section-mark:not(.dead)', 'fill', paper, 4.5], ['text.mark.dead', 'fill', paper, 4.5], ['.line', 'stroke', paper, 3], ['.section.dead .box', 'stroke', paper, 3],
  ['.section.fed .box', 'stroke', fed, 3], ['.flash', 'fill', fed, 3], ['.point.closed .box', 'fill', paper, 3], ['.point.open .box', 'stroke', paper, 3],
  ['.ground', 'stroke', paper, 3], ['.tag', 'stroke', paper, 3], ['.stroke', 'stroke', paper, 3]];
return [light(paper), pairs.flatMap(([css, key, under, least]) => {
  const [high, low] = [light(look(css, key)), light(under)].sort((a, b) => b - a), ratio = (high + 0.05) / (low + 0.05);
  return ratio < least ? [`${css} ${ratio.toFixed(1)}`] : [];
})];
"""


def in_shift(stage, page="diagram", size=SMALL):
    """The first window, on this page, as BERT's."""
    hand = stage.network([*two_substations.shift(), ASKED], page, "BERT", two_substations)
    hand.browser.size(*size)
    return hand


def still(hand, page=None):
    """A page whose diagram has been drawn, and is still."""
    if page:
        hand.turn(page)
    time.sleep(0.8)


def all_said(hand, where):
    """Nothing that is held, and no state of a section, is left out of what is in view."""
    said = hand.browser.script(SAID)
    for name, letters in two_substations.LETTERS.items():
        for one in set(letters):
            if name in said and sum(text.endswith(one) for text in said[name]) < letters.count(one):
                raise Differs(f"{where}: at {name} the diagram says {said[name]}, and {letters} is so")
    for name, words in two_substations.WORDS.items():
        if name in said and words not in " ".join(said[name]):
            raise Differs(f"{where}: at {name} the diagram says {said[name]}, and it is {words}")
    return sum(name in said for name in (*two_substations.LETTERS, *two_substations.WORDS))


def held(stage):
    hand = in_shift(stage)
    for size in SIZES:
        hand.browser.size(*size)
        for page in PAGES:
            still(hand, page)
            seen = all_said(hand, f"{page} at {size[0]}")
            hand.browser.click(".tools button:first-child")
            still(hand)
            whole = all_said(hand, f"all of it on {page} at {size[0]}")
            say(f"  {page} at {size[0]}: {seen} of what is held or granted is in view, {whole} in all")
            if whole < 13:
                raise Differs(f"{page} at {size[0]}: of 13 points and sections {whole} are in view")
        hand.picture(f"held-{size[0]}")


def in_full(stage):
    """What has no room is said in full where the focus is, and the pointer."""
    hand = in_shift(stage, "switch")
    hand.browser.script("document.querySelector('main .net [data-name=\"N134\"]').focus()")
    for text in ("N134, between NOR-1C and NOR-1D", "tagged by KIM/1", "blocked by BOSS/1"):
        hand.shows(text, "main .in-full")
    hand.picture("held-in-full")
    still(hand, "clearance/BOSS/1")
    hand.browser.point(*hand.browser.script("""const { left, top, width, height } = document.querySelector('main .net [data-name="NOR-1D"] .box').getBoundingClientRect();
        return [Math.round(left + width / 2), Math.round(top + height / 2)]"""))
    for text in ("section NOR-1D", "BOSS/1 Granted, grounded"):
        hand.shows(text, "main .in-full")


def bays(stage):
    """A name lies where it did before its point was held or switched, and meets no other."""
    hand = stage.network((), "diagram", "BERT", two_substations)
    before = {}
    for size in SIZES:
        hand.browser.size(*size)
        still(hand)
        before[size], met = hand.browser.script(NAMES)
        if met:
            raise Differs(f"at {size[0]} names meet: {', '.join(met[:6])}")
    for command in two_substations.shift():
        hand.post(command)
    hand.shows("LEE/1", "main .drawing")
    for size in SIZES:
        hand.browser.size(*size)
        still(hand)
        after, _ = hand.browser.script(NAMES)
        moved = [name for name, place in before[size].items() if after.get(name) != place]
        say(f"  at {size[0]}: {len(before[size])} names")
        if moved:
            raise Differs(f"at {size[0]}: {len(moved)} names lie elsewhere, or are gone: {', '.join(moved[:8])}")
        hand.picture(f"bays-{size[0]}")


def readable(stage):
    """On a small screen letters can be read, the drawing beside a record is large, and what is picked in the list is in it."""
    hand = in_shift(stage)
    for page in PAGES:
        still(hand, page)
        wide, high, low, count, least = hand.browser.script(READ)
        say(f"  {page}: {wide:.0f} x {high:.0f} pixels, {count} texts, {least:.1f} pixels high or more")
        hand.picture(f"readable-{page.replace('/', '-')}")
        if least < LEAST:
            raise Differs(f"{page}: letters of {least:.1f} pixels")
        if page.startswith("clearance") and (wide < FRAME[0] or high < FRAME[1] or low > SMALL[1]):
            raise Differs(f"{page}: the drawing has {wide:.0f} x {high:.0f} pixels, and ends at {low:.0f}")
    hand.turn("clearance/KIM/2")
    for name in ("GEN-CB", "SOU-HD1", "N312"):
        hand.pick(name)
        wait_until(lambda one=name: one in hand.browser.script(SAID), f"{name} in view, as it is picked in the list")
    hand.picture("readable-picked")


def jumpers(stage):
    """The line of a jumper runs through no symbol and no box of another."""
    commands = [{"by": "BERT", "do": "jumper", "point": name, "from": one, "to": other, "lockable": True, "remote": False} for name, one, other in JUMPERS]
    hand = stage.network(commands, "diagram", "BERT", two_substations)
    hand.browser.size(*SIZES[1])
    hand.browser.click(".tools button:first-child")
    still(hand)
    found = hand.browser.script(THROUGH)
    hand.picture("jumper-lines")
    for (name, one, other), through in zip(JUMPERS, found, strict=True):
        if set(through) - {name, one, other}:
            raise Differs(f"the line of {name} from {one} to {other} runs through {', '.join(through)}")


def signs(stage):
    """A ground and a tag have their signs, and the legend says what they are."""
    hand = in_shift(stage, "clearance/OWENS/1")
    still(hand)
    marked = "return [...document.querySelectorAll(`main .net:not(.sample) ${arguments[0]}`)].map((node) => node.closest('[data-name]').dataset.name).sort()"
    for css, names in ((".ground", ["LINE-13", "NOR-1D", "SOU-3D"]), (".tag", ["L-SOU", "L1213", "N123", "N134", "S334", "TN12", "TS34"])):
        if hand.browser.script(marked, css) != names:
            raise Differs(f"the sign {css} is at {hand.browser.script(marked, css)}, and {names} have it")
    hand.turn("diagram")
    for text in ("grounded", "tagged"):
        hand.shows(text, "main .legend")
    hand.picture("signs")


def in_light(hand, scheme):
    media = {"features": [{"name": "prefers-color-scheme", "value": scheme}]}
    hand.browser.own("POST", "/goog/cdp/execute", {"cmd": "Emulation.setEmulatedMedia", "params": media})


def by_night(stage):
    """By day and by night what is drawn differs enough from its ground."""
    hand = in_shift(stage, size=SIZES[2])
    try:
        for scheme in ("light", "dark"):
            in_light(hand, scheme)
            still(hand)
            paper, faint = hand.browser.script(FAINT)
            hand.picture(f"substations-{scheme}")
            if faint or (paper > 0.5) != (scheme == "light"):
                raise Differs(f"{scheme}: the ground has a brightness of {paper:.2f}, and too faint is {', '.join(faint) or 'nothing'}")
    finally:
        in_light(hand, "")


LOOKS = {"held": held, "held in full": in_full, "names of bays": bays, "readable": readable, "jumper lines": jumpers, "signs": signs, "diagram by night": by_night}
