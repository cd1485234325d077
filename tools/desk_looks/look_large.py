"""A network of 300 sections is drawn within a second."""

import csv
import json
import os
import time

from desk_looks.browser import ENTER, Differs, free_ports, say
from desk_looks.desk import FILES, Desk, gridclear


def large_files(work):
    """A network of 300 sections: six sources with five feeders each, branches, and open ties between feeders."""
    sections, points, ends = [], [], []

    def add(name, up, source="no"):
        sections.append((name, source))
        if up:
            points.append((f"{name}-Q", up, name, "yes", "yes" if len(points) % 4 == 0 else "no", "closed"))

    for station in "ABCDEF":
        add(f"SUB{station}", None, "yes")
        for feeder in range(1, 6):
            name = f"{station}{feeder}"
            for place in range(1, 8):
                add(f"{name}-{place}", f"{name}-{place - 1}" if place > 1 else f"SUB{station}")
            for place in (2, 4) if feeder % 2 else (3, 5):
                add(f"{name}-{place}B", f"{name}-{place}")
            if feeder <= 4:
                add(f"{name}-5C", f"{name}-4")
            ends.append(f"{name}-7")
    for place, (a, b) in enumerate(zip(ends, ends[1:]), 1):
        points.append((f"T{place}", a, b, "no", "no", "open"))
    points.append(("T40", "A1-4", "C3-5", "no", "no", "open"))
    rows = {"sections.csv": [("section", "source"), *sections],
            "points.csv": [("point", "from", "to", "lockable", "remote", "position"), *points],
            "staff.csv": [("employee", "role", "supervisor"), ("OPS", "operator", ""), ("REED", "field", ""), ("KIM", "charge", "")]}
    os.mkdir(os.path.join(work, "large"))
    for name in FILES:
        with open(os.path.join(work, "large", name), "w", encoding="utf-8", newline="") as file:
            csv.writer(file, lineterminator="\n").writerows(rows[name])
    return [os.path.join(work, "large", name) for name in FILES], len(sections)


def large_life(base, points):
    """A clearance with holds, and a step that is out."""
    moment = int(time.time()) - 60
    with open(points, encoding="utf-8", newline="") as file:
        remote = {row["point"] for row in csv.DictReader(file) if row["remote"] == "yes"}
    texts = [f"{action} {point}" for action in ("OPEN", "BLOCK", "CONTROL", "TAG") for point in ("B2-4-Q", "B2-5-Q", "B2-5C-Q")
             if action != "CONTROL" or point in remote]
    commands = [{"by": "KIM", "do": "request", "section": "B2-4"},
                {"by": "OPS", "do": "order", "clearance": "KIM/1", "points": ["B2-4-Q", "B2-5-Q", "B2-5C-Q"], "steps": texts}]
    for number, text in enumerate(texts[:-1], 1):
        commands += [{"by": "OPS", "do": "instruct", "clearance": "KIM/1", "step": number},
                     {"by": "REED", "do": "repeat", "clearance": "KIM/1", "step": number, "text": text},
                     {"by": "REED", "do": "report", "clearance": "KIM/1", "step": number, "done": True}]
    commands.append({"by": "OPS", "do": "instruct", "clearance": "KIM/1", "step": len(texts)})
    replies = gridclear("run", "--db", base, text="".join(json.dumps(dict(one, at=moment)) + "\n" for one in commands))
    if '"refused"' in replies or "fault" in replies:
        raise Differs(f"the large network's clearance: {replies}")


def time_drawn(hand):
    return hand.browser.script("return performance.getEntriesByName('drawn')[0].duration")


def large(stage):
    """The first window, with its diagram."""
    files, count = large_files(stage.work)
    say(f"a network of {count} sections")
    desk = Desk(stage.work, "large-desk", files, free_ports(2))
    large_life(desk.base, files[1])
    hand = stage.begin(desk, "diagram")
    hand.speak("OPS")
    return hand


def draw_large(stage):
    hand = large(stage)
    drawn = time_drawn(hand)
    for _ in range(2):
        if drawn >= 1000:  # a busy machine: the page is loaded again
            hand.open("diagram")
            drawn = min(drawn, time_drawn(hand))
    hand.turn("clearance/KIM/1")
    hand.shows("TAG B2-5C-Q")
    hand.turn("diagram")
    hand.shows("KIM/1", "main .drawing")
    hand.picture("large")
    hand.browser.click(".tools button:first-child")
    hand.picture("large-whole")
    hand.browser.type('.tools input', "B2-4" + ENTER)
    hand.picture("large-found")
    say(f"  drawn in {drawn:.0f} ms")
    if drawn >= 1000:
        raise Differs("it was to be drawn within a second")


LOOKS = {"large": draw_large}
