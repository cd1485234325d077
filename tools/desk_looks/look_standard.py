"""Standard orders, kept by name, exported and imported; and a shift that is handed over on paper."""

import json
import os

from desk_looks import pdf
from desk_looks.browser import Differs, wait_until
from desk_looks.look_log import journaled
from desk_looks.network import granted, ordered, switch

JONES = granted("JONES", "N13-F12", ["N13-Q11", "N13-B1", "TIE1-N12-N13", "TIE1-N13-N14"], ["C1"])
STEPS = "return [...document.querySelectorAll('main .steplist .text')].map((one) => one.textContent)"


def written(hand):
    return hand.browser.script(STEPS)


def unfold(hand):
    hand.browser.script("document.querySelector('main details.standard').open = true")


def standard(stage):
    hand = stage.network([{"by": "KIM", "do": "request", "section": "N11-F12"}], "switch", speaker="DISP1")
    hand.pick("N11-Q12", "TIE1-N11-N12")
    for step in ("CLOSE TIE1-N11-N12", "OPEN N11-Q12"):
        hand.press(step)
    unfold(hand)
    hand.write("standard-name", "feeder 1 over the tie")
    hand.press("keep")
    hand.shows("is kept in this browser")
    hand.press("out OPEN N11-Q12")
    hand.press("out CLOSE TIE1-N11-N12")
    hand.browser.click('main [data-name="standard"] option[value="feeder 1 over the tie"]')
    hand.press("take")
    if written(hand) != ["CLOSE TIE1-N11-N12", "OPEN N11-Q12"]:
        raise Differs(f"the order that was taken is {written(hand)}")
    hand.nothing_sent(0)
    hand.picture("standard")
    exported(stage, hand)
    imported(stage, hand)


def exported(stage, hand):
    """The file that is saved has the order under its name."""
    words = {"cmd": "Browser.setDownloadBehavior", "params": {"behavior": "allow", "downloadPath": stage.work}}
    hand.browser.own("POST", "/goog/cdp/execute", words)
    hand.press("export")
    path = os.path.join(stage.work, "standard-orders.json")
    wait_until(lambda: os.path.exists(path), "the file of standard orders")
    with open(path, encoding="utf-8") as file:
        found = json.load(file)
    if found["feeder 1 over the tie"]["steps"] != ["CLOSE TIE1-N11-N12", "OPEN N11-Q12"]:
        raise Differs(f"the file of standard orders has {found}")


def imported(stage, hand):
    """A file of another desk: its orders are offered; one names a point that is not there, which is marked and asked about."""
    path = os.path.join(stage.work, "orders.json")
    order = {"kind": "order", "work": "N11-F12", "points": ["N11-Q12", "TIE1-N11-N12", "NONE"], "steps": ["OPEN NONE"]}
    with open(path, "w", encoding="utf-8") as file:
        json.dump({"N11-F12 for work": order}, file)
    hand.browser.own("POST", f"/element/{hand.browser.find('main [data-name=import]')}/value", {"text": path})
    hand.shows("1 standard orders were imported")
    hand.turn("clearance/KIM/1")
    unfold(hand)
    hand.browser.click('main [data-name="standard"] option[value="N11-F12 for work"]')
    hand.press("take")
    needed = ["OPEN N11-Q12", "OPEN TIE1-N11-N12", "OPEN NONE", "BLOCK N11-Q12", "BLOCK TIE1-N11-N12", "TAG N11-Q12", "TAG TIE1-N11-N12"]
    wait_until(lambda: written(hand) == needed, "the needed steps")
    hand.shows("not in the network", "main .picks")
    hand.declined("order", "OPEN NONE: not in the network")
    hand.press("pick NONE")
    wait_until(lambda: written(hand) == [one for one in needed if "NONE" not in one], "the steps without that point")
    hand.nothing_sent(0)


def hand_over(stage):
    hand = stage.network([*JONES, *ordered("KIM", "N11-F12", ["N11-Q12", "TIE1-N11-N12"]), switch(["OPEN N14-Q21"], "DISP2")], "shift", speaker="DISP1")
    hand.browser.click('main [data-name="leaves"] option[value="DISP1"]')
    hand.browser.click('main [data-name="comes"] option[value="DISP3"]')
    hand.write("notes", "the key of N11 is at the gate")
    for text in ("Leaves: DISP1. Comes: DISP3.", "Open: 3 records", "crews C1", "N13-Q11, open, normally closed; held by JONES/1 O B C T", "the key of N11 is at the gate", "N13-F11, N13-F12, N13-F13"):
        hand.shows(text, "main .paper")
    hand.browser.on_paper(hand.path("shift-paper"))
    hand.nothing_sent(0)


def sheet(stage):
    """A sheet without both names is printed only after a question; its pages have numbers; it says how long a hold is there,
    and compares the sheet before with the log."""
    hand = journaled(stage, "shift")
    for command in [*JONES, *ordered("KIM", "N11-F12", ["N11-Q12", "TIE1-N11-N12"])]:
        hand.post(command)
    hand.speak("DISP1")
    hand.browser.script("window.printed = 0; window.print = () => { window.printed += 1; }")
    hand.browser.click('main [data-name="leaves"] option[value="DISP1"]')
    hand.lacks("not chosen", "main .paper")
    hand.press("print-shift")
    hand.shows("not both chosen", "dialog")
    hand.answer("null")
    hand.browser.click('main [data-name="comes"] option[value="DISP3"]')
    hand.press("print-shift")
    wait_until(lambda: hand.browser.script("return window.printed") == 1, "one sheet that is printed")
    for text in ("crews C1 (0 min)", "held by JONES/1 O B C T (0 min)", "O held open, B blocked", "Compare with the sheet before: its number was not given"):
        hand.shows(text, "main .paper")
    hand.write("before", "3")
    hand.shows("Compare with the sheet before: number 3 now has the sum ", "main .paper")
    pages = pdf.pages(hand.browser.printed(hand.path("sheet").replace(".png", ".pdf")))
    if len(pages) < 2 or any(f"page {number} of {len(pages)}" not in page for number, page in enumerate(pages, 1)):
        raise Differs(f"the pages end with {[page[-60:] for page in pages]}")


LOOKS = {"standard": standard, "hand over": hand_over, "hand over sheet": sheet}
