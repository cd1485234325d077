"""What is drawn is what the register has: each point and each section, in a fresh browser that has chosen no name."""

import time

from desk_looks.browser import Differs, say, wait_until
from desk_looks.desk import tables
from desk_looks.network import closed, granted, steps, switch

TIE = "TIE3-N13-N14"
MOVED = [switch([f"CLOSE {TIE}"]), *steps("DISP1/1", [f"CLOSE {TIE}"]), switch(["OPEN N16-Q21"], "DISP2"), *steps("DISP2/1", ["OPEN N16-Q21"])]
LEFT = closed("KIM", "N15-F13", ["N15-Q13", "TIE1-N14-N15", "TIE1-N15-N16"], ["LEAVE", "LEAVE", "CLOSE"])
JONES = granted("JONES", "N13-F12", ["N13-Q11", "N13-B1", "TIE1-N12-N13", "TIE1-N13-N14"], ["C1"])

CLASSES = """return [...document.querySelectorAll('main .net [data-kind="' + arguments[0] + '"]')]
    .map((node) => [node.dataset.name, [...node.classList].filter((one) => arguments[1].includes(one)).join(' ')])"""


def drawn(hand, kind, *classes):
    return dict(hand.browser.script(CLASSES, kind, classes))


def fed(rows):
    """The sections to which closed points lead from a source, by the tables."""
    found = {name for name, source in rows["section"] if source}
    ends = [(one[1], one[2]) for one in rows["network_point"] if one[5] == 1]
    before = -1
    while before != len(found):
        before = len(found)
        found |= {end for pair in ends if found & set(pair) for end in pair}
    return found


def compare(hand, base):
    """Each point and each section of the diagram beside the tables."""
    rows = tables(base)
    points = {one[0]: "closed" if one[5] == 1 else "open" for one in rows["network_point"]}
    live = fed(rows)
    sections = {name: "fed" if name in live else "dead" for name, _ in rows["section"]}
    for kind, wanted, classes in (("point", points, ("open", "closed")), ("section", sections, ("fed", "dead"))):
        found = drawn(hand, kind, *classes)
        wrong = {name: found.get(name) for name in wanted if found.get(name) != wanted[name]}
        if wrong or found.keys() != wanted.keys():
            raise Differs(f"{kind}s that are drawn otherwise than the register has them: {wrong}")


def fresh(stage):
    """No name, nothing kept: a tie that is closed, a feeder that was opened, a closed record that left a point open."""
    hand = stage.network([*MOVED, *LEFT, *JONES], "diagram")
    compare(hand, stage.desk.base)
    found = drawn(hand, "point", "open", "closed")
    for point, position in ((TIE, "closed"), ("N16-Q21", "open"), ("TIE1-N14-N15", "open"), ("TIE1-N15-N16", "closed"), ("N15-Q13", "open"), ("N13-Q11", "open")):
        if found[point] != position:
            raise Differs(f"{point} is drawn {found[point]}")
    hand.shows("JONES/1 O B T", "main .drawing")
    hand.picture("fresh")


def other_desk(stage):
    """A point that another desk moves is drawn so within five seconds, twice that on a busy machine, and so is what it feeds."""
    hand = stage.network(MOVED, "diagram")
    hand.shows("dead by the register's positions", "main .diagram")
    for command in [switch(["OPEN N11-Q11"], "DISP3"), *steps("DISP3/1", ["OPEN N11-Q11"])]:
        hand.post(command)
    begun = time.monotonic()
    wait_until(lambda: drawn(hand, "point", "open")["N11-Q11"] == "open", "the point that another desk has opened", 10)
    say(f"  a change is drawn at another desk after {time.monotonic() - begun:.1f} seconds")
    wait_until(lambda: drawn(hand, "section", "dead")["N11-F12"] == "dead", "the section beyond it", 1)
    compare(hand, stage.desk.base)


LOOKS = {"register": fresh, "register elsewhere": other_desk}
