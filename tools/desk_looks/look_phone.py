"""On a phone: one column, the next act on the first screen, and a clearance that is no roll of paper."""

import json

from desk_looks.browser import Differs, free_ports, say
from desk_looks.desk import Desk
from desk_looks.network import granted, needed, ordered, steps, write_files
from desk_looks.stage import give

WIDE, HIGH, MOST = 390, 844, 2600


def phone(stage):
    cut = ["N13-Q11", "N13-B1", "TIE1-N12-N13", "TIE1-N13-N14"]
    texts = needed(cut)
    hand = stage.network([*ordered("KIM", "N13-F12", cut), *steps("KIM/1", texts[:3])], "board")
    hand.browser.size(WIDE, HIGH)
    hand.speak("DISP1")
    for page in ("board", "diagram", "points", "mine", "switch", "jumper", "log", "shift", "clearance/KIM/1"):
        hand.turn(page)
        hand.shows("KIM/1" if page in ("board", "clearance/KIM/1") else "")
        wide = hand.browser.script("return document.documentElement.scrollWidth")
        if wide > WIDE:
            raise Differs(f"{page} is {wide} px wide")
        hand.picture(f"phone-{page.split('/')[0]}")
    hand.browser.settled('main [data-name="instruct"]')
    hand.browser.script("window.scrollTo(0, 0)")
    lower = hand.browser.script("return document.querySelector('main [data-name=instruct]').getBoundingClientRect().bottom")
    edge = hand.browser.script("return document.querySelector('aside').getBoundingClientRect().top")
    long = hand.browser.script("return document.documentElement.scrollHeight")
    say(f"  {len(texts)} steps: {long} px long, the next act ends at {lower:.0f}, the replies begin at {edge:.0f}")
    if lower > edge or lower > HIGH:
        raise Differs("the next act is not on the first screen")
    if long > MOST:
        raise Differs(f"a clearance is {long} px long")


def fits(hand, where, wide):
    found = hand.browser.script("return document.documentElement.scrollWidth")
    if found > wide:
        raise Differs(f"{where} is {found} px wide on {wide}")


def row(stage):
    """The row of a desk that speaks for several, in each of its three states."""
    hand = stage.network(ordered("KIM", "N13-F12", ["N13-Q11", "N13-B1", "N13-Q13"]), "clearance/KIM/1")
    hand.browser.size(WIDE, HIGH)
    hand.speak("DISP1")
    hand.browser.click("#several")
    hand.browser.click('main [data-name="hearer"] option[value="REED"]')
    for name, text in (("instruct", ""), ("repeat", "OPEN N13-Q11"), ("done", "")):
        hand.browser.settled(f'main [data-name="{name}"]')
        fits(hand, f"the row at {name}", WIDE)
        hand.picture(f"phone-row-{name}")
        if text:
            hand.write("repeat-text", text)
        hand.carry_out(name)


LONGEST = {"N13-F12": "N13-F12-OLD-STATION-ROAD", "N13-Q11": "N13-Q11-NORTH-BUS-SWITCH", "KIM": "KIMBERLEY-VANDERBILT-LEE"}


def renamed(text):
    """The same with names of 24 letters, the most that there may be."""
    for short, long in LONGEST.items():
        text = text.replace(short, long)
    return text


def long_names(stage):
    files = write_files(stage.work)
    for path in files:
        with open(path, encoding="utf-8") as file:
            text = renamed(file.read())
        with open(path, "w", encoding="utf-8") as file:
            file.write(text)
    desk = Desk(stage.work, "desk", files, free_ports(2))
    give(desk, json.loads(renamed(json.dumps(granted("KIM", "N13-F12", ["N13-Q11", "N13-B1", "N13-Q13"], ["C" * 24])))))
    hand = stage.begin(desk)
    name = LONGEST["KIM"]
    hand.speak(name)
    for wide in (WIDE, 1024, 1440):
        hand.browser.size(wide, HIGH)
        for page in ("board", "mine", "points", f"clearance/{name}/1"):
            hand.turn(page)
            hand.shows(f"{name}/1" if page != "points" else LONGEST["N13-Q11"])
            hand.shows(LONGEST["N13-F12"])
            fits(hand, page, wide)
            hand.picture(f"long-{wide}-{page.split('/')[0]}")
    alarm_beside_replies(hand, f"{name}/1")


def alarm_beside_replies(hand, clearance):
    """On a phone, too, an alarm lies on no reply."""
    hand.browser.size(WIDE, HIGH)
    hand.post({"by": LONGEST["KIM"], "do": "test", "clearance": clearance, "section": LONGEST["N13-F12"], "dead": False})
    hand.shows("TESTED LIVE", "#alarms")
    lower, upper = hand.browser.script("return [document.getElementById('alarms').getBoundingClientRect().bottom, document.querySelector('aside').getBoundingClientRect().top]")
    hand.picture("long-alarm")
    if lower > upper + 1:
        raise Differs(f"the alarm ends at {lower:.0f} px, and the replies begin at {upper:.0f}")


LOOKS = {"phone": phone, "phone row": row, "long names": long_names}
