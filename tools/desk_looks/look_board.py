"""The board: searched, filtered and sorted; how old each record is, and a step that is out too long. What waits for a name."""

import json
import time

from desk_looks.browser import ALL, Differs, free_ports, wait_until
from desk_looks.desk import Desk, gridclear
from desk_looks.look_log import journaled
from desk_looks.network import granted, ordered, step, switch, write_files

NAMES = "return [...document.querySelectorAll('main table.wide tbody tr[data-id]')].map((row) => row.dataset.id)"
OLD = 3600 + 25 * 60


def give_at(desk, commands, moment):
    gridclear("run", "--db", desk.base, text="".join(json.dumps(dict(one, at=moment)) + "\n" for one in commands))


def life(desk):
    """Records of different ages: LEE's step is out for over an hour, DISP2's for a minute."""
    moment = int(time.time())
    lee = [*ordered("LEE", "N12-F13", ["N12-Q13", "TIE1-N11-N12", "TIE1-N12-N13"]), *step("LEE/1", 1, "OPEN N12-Q13"), *step("LEE/1", 2, "OPEN TIE1-N11-N12", "instruct")]
    give_at(desk, [{"by": "SOTO", "do": "request", "section": "N11-F33"}], moment - 7 * OLD)
    give_at(desk, lee, moment - OLD)
    give_at(desk, granted("KIM", "N13-F12", ["N13-Q11", "N13-B1", "N13-Q13"], ["C3"]), moment - 600)
    give_at(desk, [switch(["OPEN N14-Q13"], "DISP2"), *step("DISP2/1", 1, "OPEN N14-Q13", "repeat")], moment - 60)


def begin(stage, page):
    desk = Desk(stage.work, "desk", write_files(stage.work), free_ports(2))
    life(desk)
    hand = stage.begin(desk, page)
    hand.speak("DISP1")
    return hand


def names(hand):
    return hand.browser.script(NAMES)


def choose(hand, part, value):
    hand.browser.script("""const input = document.querySelector('main [data-name="' + arguments[0] + '"]');
        input.value = arguments[1]; input.dispatchEvent(new Event('input'))""", part, value)


def lists(hand, *wanted):
    wait_until(lambda: names(hand) == list(wanted), f"the board to list {wanted}, not {names(hand)}", 15)


def board(stage):
    hand = begin(stage, "board")
    hand.shows("crews C3")
    lists(hand, "DISP2/1", "KIM/1", "LEE/1", "SOTO/1")
    for text, found in (("n13-f12", ["KIM/1"]), ("lee", ["LEE/1"]), ("TIE1-N12-N13", ["LEE/1"]), ("c3", ["KIM/1"])):
        hand.write("search", ALL + text)
        lists(hand, *found)
    hand.shows("1 of 4 records", 'main [data-name="count"]')
    hand.press("show-all")
    for kind, found in (("switches", ["DISP2/1"]), ("out", ["DISP2/1", "LEE/1"]), ("Granted", ["KIM/1"]), ("all", ["DISP2/1", "KIM/1", "LEE/1", "SOTO/1"])):
        choose(hand, "kind", kind)
        lists(hand, *found)
    for sort, found in (("oldest", ["SOTO/1", "LEE/1", "KIM/1", "DISP2/1"]), ("out", ["LEE/1", "DISP2/1", "KIM/1", "SOTO/1"]), ("section", ["DISP2/1", "SOTO/1", "LEE/1", "KIM/1"])):
        choose(hand, "sort", sort)
        lists(hand, *found)
    ages(hand)
    hand.reload()
    lists(hand, "LEE/1")


def ages(hand):
    """A step that is out longer than the time that the desk has set is marked; the time is kept."""
    hand.shows("1 h 25 min", 'main tr[data-id="LEE/1"]')
    hand.shows("out 1 h 25 min", 'main tr[data-id="LEE/1"] .chip.warn')
    hand.shows("out 1 min", 'main tr[data-id="DISP2/1"] .chip:not(.warn)')
    hand.shows("1 with a step that is out too long", 'main [data-name="count"]')
    hand.picture("board-ages")
    hand.write("too-long", ALL + "1")
    hand.shows("out", 'main tr[data-id="DISP2/1"] .chip.warn')
    hand.write("too-long", ALL + "30")
    choose(hand, "kind", "long")
    lists(hand, "LEE/1")


def waits(stage):
    """What a name may do now, over all records: of a field employee, an operator, and one in charge."""
    hand = begin(stage, "mine")
    hand.speak("REED")
    for text in ("repeat step 2, OPEN TIE1-N11-N12", "report step 1, OPEN N14-Q13"):
        hand.shows(text, "main .waiting")
    hand.lacks("KIM/1", "main .waiting")
    hand.picture("board-waits")
    hand.speak("DISP1")
    hand.shows("write the isolating order", 'main .waiting tr[data-id="SOTO/1"]')
    hand.speak("KIM")
    hand.shows("test, ground, sign crews on and off", 'main .waiting tr[data-id="KIM/1"]')
    hand.speak("WEBER")
    hand.shows("Nothing waits for WEBER", "main .waiting")


def people(stage):
    """A crew that is on under two clearances is marked at both, a holder is named beside a name that is another's, and the log
    says how long a crew and a ground are on; a closed record has its last moment."""
    hand = journaled(stage, "board")
    kim, jones = ["N13-Q11", "N13-B1", "N13-Q13"], ["N15-Q21", "N15-B2", "N15-Q23"]
    commands = [*granted("KIM", "N13-F12", kim, ["C3"]), *granted("JONES", "N15-F22", jones, ["C3", "C4"]),
                {"by": "JONES", "do": "transfer", "clearance": "JONES/1", "to": "OWENS", "emergency": False},
                {"by": "LEE", "do": "request", "section": "N11-F33"}, {"by": "LEE", "do": "cancel", "clearance": "LEE/1"}]
    for command in commands:
        hand.post(command)
    hand.speak("DISP1")
    for name, texts in (("KIM/1", ("crews C3 (0 min)", "N13-F12 grounded (0 min)", "crew C3 is on under JONES/1 too")),
                        ("JONES/1", ("held by OWENS", "crews C3 (0 min), C4 (0 min)", "crew C3 is on under KIM/1 too"))):
        for text in texts:
            hand.shows(text, f'main tr[data-id="{name}"]')
    hand.lacks("held by", 'main tr[data-id="KIM/1"]')
    hand.picture("board-people")
    hand.turn("mine")
    hand.browser.click('main [data-name="whose"] option[value="LEE"]')
    hand.shows("Closed", 'main tr[data-id="LEE/1"]')
    wait_until(lambda: ":" in hand.text('main tr[data-id="LEE/1"] td[data-head="last moment"]'), "the last moment of a closed record", 15)


def calm(stage):
    """Without a name there is one line that says so, and it is not red: red is kept for alarms."""
    hand = stage.network(granted("KIM", "N13-F12", ["N13-Q11", "N13-B1", "N13-Q13"]))
    hand.shows("KIM/1")
    hand.shows("No name is chosen", "#nameless")
    if hand.there("main .warning") or hand.there(".warning:not([hidden])"):
        raise Differs("that no name is chosen is said as an alarm is")
    red, green, _ = hand.browser.script("return getComputedStyle(document.getElementById('nameless')).backgroundColor.match(/[0-9]+/g).map(Number)")
    if red - green > 20:
        raise Differs("that no name is chosen is said in red")


LOOKS = {"board": board, "board people": people, "board calm": calm, "waits for": waits}
