"""An update of network and staff: each open page announces what it changed, until that is dismissed."""

import os

from desk_looks.browser import Differs, wait_until
from desk_looks.desk import gridclear
from desk_looks.look_log import journaled
from desk_looks.network import switch

CHANGES = {"sections.csv": (None, "N17-NEW,no"), "points.csv": ("TIE3-N15-N16,", "N16-Q34,N16-F33,N17-NEW,yes,no,closed"), "staff.csv": ("JUDD,", "NOAH,field,")}


def changed(paths):
    """The files without a row each, and with another; a point is remote."""
    for path in paths:
        gone, come = CHANGES[os.path.basename(path)]
        with open(path, encoding="utf-8") as file:
            rows = [row.rstrip("\n") for row in file if not (gone and row.startswith(gone))]
        rows = ["N11-Q12,N11-F11,N11-F12,yes,yes,closed" if row.startswith("N11-Q12,") else row for row in rows]
        with open(path, "w", encoding="utf-8") as file:
            file.write("".join(f"{row}\n" for row in [*rows, come]))


def update(stage):
    one, two = journaled(stage, "switch"), stage.window("board")
    desk = stage.desk
    one.speak("DISP1")
    one.post(switch(["OPEN N14-Q21"], "DISP2"))
    two.shows("DISP2/1")
    desk.stop()
    changed(desk.files)
    gridclear("update", desk.base, "--journal", desk.journal, *desk.files)
    desk.start()
    for hand in (one, two):
        for text in ("section N17-NEW comes", "point TIE3-N15-N16 goes", "point N11-Q12 changes", "point N16-Q34 comes", "employee JUDD goes", "employee NOAH comes"):
            hand.shows(text, "#updates")
    two.picture("update")
    one.reload()
    one.shows("section N17-NEW comes", "#updates")
    one.browser.click("#updates button")
    wait_until(lambda: one.browser.script("return document.getElementById('updates').hidden"), "a dismissed update")
    one.reload()
    one.shows("The register answers", "#contact")
    one.post(switch(["OPEN N14-Q22"], "DISP2"))
    one.turn("board")
    one.shows("DISP2/2")
    if one.text("#updates") or not two.text("#updates"):
        raise Differs("an update is announced again where it was dismissed, or no more where it was not")


LOOKS = {"update": update}
