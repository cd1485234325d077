"""Names, roles, contrast, sizes and focus of the page, in each of its states and at three widths."""

import time

from desk_looks.access import Access
from desk_looks.browser import Differs, free_ports
from desk_looks.desk import Desk
from desk_looks.look_life import hanging
from desk_looks.network import granted, needed, ordered, released, step, steps, switch, undoing, write_files
from desk_looks.stage import give

CUT, OTHER = ["N13-Q11", "N13-B1", "TIE1-N12-N13", "TIE1-N13-N14"], ["N15-Q21", "N15-B2", "TIE2-N14-N15", "TIE2-N15-N16"]
ENDS = ["CLOSE", "LEAVE", "CLOSE", "LEAVE"]
WIDTHS = (1440, 1024, 390)
NARROWEST = 320


def life():
    """A record in each phase, its present step in each state."""
    jones = granted("JONES", "N13-F12", CUT, ["C1"])
    live = [{"by": "JONES", "do": "test", "clearance": "JONES/1", "section": "N13-F13", "dead": False}]
    weber = [*released("WEBER", "N15-F22", OTHER), {"by": "DISP1", "do": "restore", "clearance": "WEBER/1", "steps": undoing(OTHER, ENDS)}]
    kim = [*ordered("KIM", "N11-F12", ["N11-Q12", "TIE1-N11-N12"]), *steps("KIM/1", ["OPEN N11-Q12"])]
    lee = [*ordered("LEE", "N14-F33", ["N14-Q33", "TIE3-N13-N14", "TIE3-N14-N15"]), *step("LEE/1", 1, "OPEN N14-Q33", "instruct")]
    soto = [*ordered("SOTO", "N16-F33", ["N16-Q33", "TIE3-N15-N16"]), *step("SOTO/1", 1, "OPEN N16-Q33", "repeat")]
    cut = ["N12-Q33", "TIE3-N11-N12", "TIE3-N12-N13"]
    owens = [*ordered("OWENS", "N12-F33", cut), *steps("OWENS/1", needed(cut))]
    jumper = {"by": "DISP1", "do": "jumper", "point": "J1", "from": "N12-F23", "to": "PUMP", "lockable": True, "remote": False}
    patel = [{"by": "PATEL", "do": "request", "section": "N12-F22"}]
    return [*jones, *live, *weber, *kim, *lee, *soto, *owens, jumper, *patel, *released("BOSS", "N16-F12", ["N16-Q12", "N16-Q13"]), switch(["OPEN N14-Q21"], "DISP2")]


# Who looks at what: the acts that are offered differ.
PAGES = [("DISP1", "board"), ("DISP1", "diagram"), ("DISP1", "points"), ("JONES", "mine"), ("JONES", "request"), ("DISP1", "switch"), ("DISP1", "jumper"),
         ("DISP1", "log"), ("DISP1", "shift"), ("DISP1", "clearance/PATEL/1"), ("DISP1", "clearance/KIM/1"), ("REED", "clearance/LEE/1"),
         ("REED", "clearance/SOTO/1"), ("DISP1", "clearance/OWENS/1"), ("JONES", "clearance/JONES/1"), ("DISP1", "clearance/BOSS/1"), ("DISP1", "clearance/WEBER/1")]
KNOWN = {"board": "Granted", "mine": "JONES/1", "log": "no log", "request": "Ask for the clearance", "switch": "Give the switch order", "jumper": "J1"}


def turn(hand, page, known=KNOWN):
    hand.turn(page)
    if page.startswith("clearance/"):
        hand.browser.find(f'main [data-id="{page[10:]}"] .card')
    hand.shows(known.get(page, ""))
    time.sleep(0.8)  # controls that have just come have another cursor, and lists settle


def each_page(stage):
    """Each page and each offer, as it is and under a pointer, at three widths; then with wide text, and on 320 pixels."""
    hand = stage.network(life())
    access = Access(hand)
    access.look("no name")
    look_at_pages(hand, access, (*WIDTHS, NARROWEST))
    access.verdict()


def in_the_dark(stage):
    """The same in the dark look, which the system asks for, or the switch at the top."""
    hand = stage.network(life())
    access = Access(hand)
    hand.browser.system_is("dark")
    try:
        look_at_pages(hand, access, WIDTHS[:1])
        hand.browser.system_is("light")
        is_dark(hand, False)
        hand.browser.click('#look option[value="dark"]')
        hand.reload()
        is_dark(hand, True)
        access.look("dark by the switch")
        questions(hand, access)
        replies(hand, access)
    finally:
        hand.browser.script("localStorage.clear()")
        hand.browser.system_is("light")
    access.verdict()


def is_dark(hand, dark):
    red = hand.browser.script("return Number(/[0-9]+/.exec(getComputedStyle(document.querySelector('main')).backgroundColor)[0])")
    if (red < 128) != dark:
        raise Differs(f"the page has a ground of {red} in a {'dark' if dark else 'light'} look")


def look_at_pages(hand, access, widths):
    for wide in widths:
        hand.browser.size(wide, 900)
        for name, page in PAGES:
            hand.speak(name)
            turn(hand, page)
            unfold(hand)
            access.look(f"{page} at {wide}", hovered=wide == WIDTHS[0])
            if wide == WIDTHS[1]:
                access.spaced(f"{page} at {wide}")
            if widths == WIDTHS[:1] and page in ("diagram", "board", "clearance/JONES/1"):
                hand.picture(f"dark-{page.split('/')[0]}")


def unfold(hand):
    hand.browser.script("for (const one of document.querySelectorAll('main details')) one.open = true")


def by_tab(stage):
    """Tab leads to each control of each page, and what has the focus is seen, on a desk and on a phone."""
    hand = stage.network(life())
    access = Access(hand)
    for wide in (WIDTHS[0], WIDTHS[-1]):
        hand.browser.size(wide, 900)
        for name, page in PAGES:
            hand.speak(name)
            turn(hand, page)
            access.walk(f"{page} at {wide}")
    access.verdict()


def in_between(stage):
    """Questions, replies of each kind, a register that is silent, another moment, several in one row."""
    desk = Desk(stage.work, "desk", write_files(stage.work), free_ports(2))
    give(desk, life())
    hand = stage.begin(desk, "clearance/KIM/1")
    access = Access(hand)
    hand.speak("DISP1")
    questions(hand, access)
    replies(hand, access)
    hand.browser.click("#moment-set")
    access.look("another moment")
    hand.browser.click("#moment-now")
    hand.browser.click("#several")
    hand.shows("Given by")
    access.look("several in one row")
    hand.browser.click("#several")
    access.verdict()


def questions(hand, access):
    hand.turn("clearance/OWENS/1")
    hand.press("grant")
    hand.shows("Grant OWENS/1", "dialog")
    time.sleep(0.8)
    access.look("a question", hovered=True)
    access.walk_question("a question")
    hand.answer("null")
    hand.turn("switch")
    hand.pick("TIE1-N13-N14", "N13-Q13", "CPL-N12-N13")
    for text in ("CLOSE TIE1-N13-N14", "OPEN N13-Q13", "CLOSE CPL-N12-N13"):
        hand.press(text)
    time.sleep(0.8)
    access.look("a switch order that is asked about", hovered=True)
    hand.press("switch")
    hand.shows("would be refused (HELD)", "dialog")
    time.sleep(0.8)
    access.look("a question with findings")
    hand.answer("send")
    hand.reply("accepted", "DISP1/1")


def replies(hand, access):
    hand.refused("instruct", "HELD", answers=["send"])
    hand.turn("clearance/KIM/1")
    with hanging(hand.desk.register()):
        hand.press("instruct")
        hand.answer("send")
        hand.reply("lost", "504")
        hand.shows("does not answer", "#contact")
        time.sleep(0.8)
        access.look("a register that is silent", hovered=True)
    hand.found("it was carried out")
    hand.shows("The register answers", "#contact")
    time.sleep(0.8)
    access.look("a reply that was lost, and found", hovered=True)


LOOKS = {"access": each_page, "access dark": in_the_dark, "access by tab": by_tab, "access in between": in_between}
