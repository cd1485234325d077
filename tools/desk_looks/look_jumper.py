"""A jumper by its form: its ends on the diagram, the fence that it would cross, a question; drawn at once, and switched."""

from desk_looks.browser import Differs, wait_until
from desk_looks.desk import tables
from desk_looks.look_register import compare, drawn
from desk_looks.network import granted, steps

JONES = granted("JONES", "N13-F12", ["N13-Q11", "N13-B1", "TIE1-N12-N13", "TIE1-N13-N14"], ["C1"])


def press_section(hand, name):
    hand.browser.script("document.querySelector('main .net .section[data-name=\"' + arguments[0] + '\"]').dispatchEvent(new MouseEvent('click'))", name)


def value(hand, name):
    return hand.browser.script("return document.querySelector('main [data-name=\"' + arguments[0] + '\"]').value", name)


def jumper(stage):
    hand = stage.network(JONES, "jumper", speaker="DISP1")
    hand.shows("A jumper makes no source")
    hand.write("point", "j1")
    for name in ("N13-F13", "N14-F13"):
        press_section(hand, name)
    if (value(hand, "from"), value(hand, "to")) != ("N13-F13", "N14-F13"):
        raise Differs("the ends that were pressed are not in the form")
    hand.shows("would be refused (CROSSES_FENCE): N13-F13 is in the fence of JONES/1 (Granted, crew C1 on), and the other end is not", ".picked-notes")
    hand.picture("jumper-crosses")
    press_section(hand, "N13-F13")
    press_section(hand, "N11-F33")
    hand.shows("closed, it would join the sources GRID-1 and GRID-2", ".picked-notes")
    press_section(hand, "N14-F13")
    hand.write("to", "gen-3")
    hand.shows("GEN-3 is a new section, which comes with it, and no source", ".picked-notes")
    hand.declined("jumper", "No command takes it out of the register again, only an update does")
    hand.shows("needs a source in the sections file, which an update of the register brings", "main form")
    hand.carry_out("jumper", "J1 is in the register, open", answers=["yes"])
    wait_until(lambda: drawn(hand, "point", "open", "closed").get("J1") == "open", "the jumper on the diagram")
    wait_until(lambda: drawn(hand, "section", "dead").get("GEN-3") == "dead", "its new section on the diagram")
    hand.picture("jumper")
    lay(hand, stage.desk.base)


def lay(hand, base):
    """The form offers the switch order; once it is carried out the jumper is drawn closed, and its far end is live."""
    hand.press("write CLOSE J1")
    hand.shows("CLOSE J1", "main .steplist")
    hand.shows("live will be GEN-3", ".turn-notes")
    hand.carry_out("switch", "DISP1/1")
    for command in steps("DISP1/1", ["CLOSE J1"]):
        hand.post(command)
    wait_until(lambda: drawn(hand, "point", "closed").get("J1") == "closed", "the jumper drawn closed")
    hand.turn("diagram")
    compare(hand, base)
    hand.turn("jumper")
    hand.shows("Write a switch order: OPEN J1")
    if [row[0] for row in tables(base)["network_point"] if row[-1]] != ["J1"]:
        raise Differs("the register has other jumpers")


LOOKS = {"jumper": jumper}
