"""What makes sections dead asks, with all their names, where more are than are named beside the button, or where people are;
a harmless loop is said, and asks nothing. The most important are named first, and all of them on demand."""

from desk_looks import two_substations
from desk_looks.network import ordered, step, switch
from desk_looks.two_substations import steps

STATION = [f"N11-F{feeder}{place}" for feeder in (1, 2, 3) for place in (1, 2, 3)]
FEEDER = "N14-F21, N14-F22, N14-F23"


def many(stage):
    """A whole station: at the form and at the step."""
    hand = stage.network([switch(["OPEN N11-Q0"])], "clearance/DISP1/1", speaker="DISP1")
    hand.declined("instruct", f"makes N11-BUS, {', '.join(STATION)} dead")
    unfolds(hand, "main .step-place")
    hand.picture("dead-asked")
    hand.turn("switch")
    hand.pick("N11-Q0")
    hand.press("OPEN N11-Q0")
    hand.declined("switch", f"makes N11-BUS, {', '.join(STATION)} dead")
    unfolds(hand, "main .turn-notes")


def unfolds(hand, place):
    """Six are named, and on demand all."""
    hand.shows(f"N11-BUS, {', '.join(STATION[:5])} and 4 more", place)
    hand.lacks(STATION[-1], place)
    hand.browser.click(f"{place} details.more summary")
    hand.shows(f"N11-BUS, {', '.join(STATION)}", place)


def busbar(stage):
    """A busbar and a source are named, whatever they are called."""
    hand = stage.network([switch(["OPEN NOR-LV1"], by="BERT")], "clearance/BERT/1", speaker="BERT", net=two_substations)
    hand.shows("makes NOR-BB1, LINE-14, LINE-15, NOR-1A, NOR-1B, NOR-1C and 9 more dead", "main .step-place")
    for command in steps("BERT/1", ["OPEN NOR-LV1"]):
        hand.post(command)
    hand.turn("diagram")
    line = "main .diagram [data-name=dead]"
    hand.shows("15 of 60 sections are dead by the register's positions: NOR-BB1, LINE-14", line)
    hand.lacks("NOR-3D", line)
    hand.browser.click(f"{line} summary")
    hand.shows("NOR-3D", line)


def few(stage):
    """Three sections are named beside the button, and are not asked about."""
    hand = stage.network([switch(["OPEN N14-Q21"])], "clearance/DISP1/1", speaker="DISP1")
    hand.shows(f"makes {FEEDER} dead", "main .step-place")
    hand.carry_out("instruct", "instruct step 1")


def people(stage):
    """One of three is where a step is given out."""
    out = [*ordered("LEE", "N14-F23", ["N14-Q23", "TIE2-N13-N14", "TIE2-N14-N15"]), *step("LEE/1", 1, "OPEN N14-Q23", "instruct")]
    hand = stage.network([switch(["OPEN N14-Q21"]), *out], "clearance/DISP1/1", speaker="DISP1")
    hand.declined("instruct", f"makes {FEEDER} dead, where people are under LEE/1 (Ordered)")


def loop(stage):
    hand = stage.network([switch(["CLOSE CPL-N11-N12"])], "clearance/DISP1/1", speaker="DISP1")
    hand.shows("closes a loop", "main .step-place")
    hand.carry_out("instruct", "instruct step 1")


LOOKS = {"dead many": many, "dead busbar": busbar, "dead few": few, "dead people": people, "dead loop": loop}
