"""What an update has taken out of the network is marked in what is half written, and asked about before it is sent."""

import csv

from desk_looks import two_substations
from desk_looks.browser import wait_until
from desk_looks.desk import gridclear

GONE = "not in the network, as this page last read it"
WITHOUT = {"section": ["LINE-14", "NOR-1D"], "point": ["L14", "N134", "TN12"]}


def update(stage):
    """As an administrator does it: while the register is stopped, files without these rows."""
    desk = stage.desk
    desk.stop()
    for path in desk.files[:2]:
        with open(path, encoding="utf-8", newline="") as file:
            rows = [row for row in csv.reader(file) if row[0] not in WITHOUT["section"] + WITHOUT["point"]]
        with open(path, "w", encoding="utf-8", newline="") as file:
            csv.writer(file, lineterminator="\n").writerows(rows)
    gridclear("update", desk.base, *desk.files)
    desk.start()


def shows_gone(hand):
    """The page has the network of the update."""
    wait_until(lambda: "N134" not in hand.browser.script("return [...document.querySelectorAll('main .net .point')].map((one) => one.dataset.name)"), "the network without N134")


def orders(stage):
    """A switch order, an isolating order and a request: while they are open, and when they are opened again."""
    hand = stage.network([{"by": "KIM", "do": "request", "section": "NOR-1C"}], "switch", speaker="BERT", net=two_substations)
    hand.pick("N134", "N223")
    hand.press("OPEN N134")
    hand.press("OPEN N223")
    hand.turn("clearance/KIM/1")
    hand.pick("N123", "N134")
    hand.turn("request")
    hand.speak("KIM")
    hand.write("section", "line-14")
    hand.lacks("not in the network", "main")
    update(stage)
    hand.shows(GONE, "main .picked-notes")
    hand.declined("request", f"LINE-14: {GONE}.")
    hand.speak("BERT")
    hand.turn("switch")
    shows_gone(hand)
    hand.shows(f"N134 is {GONE}", "main .chosen-points")
    hand.shows(GONE, "main .picks")
    hand.shows(GONE, "main .order-notes")
    hand.declined("switch", f"OPEN N134: {GONE}.")
    hand.picture("gone-switch")
    hand.turn("clearance/KIM/1")
    hand.shows(GONE, "main .picked-notes")
    hand.declined("order", f"OPEN N134: {GONE}.")
    hand.picture("gone-order")
    hand.lacks("undefined", "main")
    hand.reload()
    hand.shows(GONE, "main .picked-notes")
    hand.press("pick N134")
    hand.lacks("not in the network", "main")


def open_form(stage):
    """The form of a switch order is open while the update comes: its OPEN is marked there and then."""
    hand = stage.network([], "switch", speaker="BERT", net=two_substations)
    hand.pick("N134")
    hand.press("OPEN N134")
    update(stage)
    hand.rest()
    hand.shows(f"N134 is {GONE}", "main .chosen-points")
    hand.lacks("undefined", "main")
    hand.declined("switch", f"OPEN N134: {GONE}.")


LOOKS = {"gone": orders, "gone open form": open_form}
