"""A network of 63 sections and 92 points with 25 employees, as three CSV files; and commands on it.

Three sources GRID-1 to GRID-3 feed two stations each, N11 to N16. A station N11 has its bus N11-BUS, and three feeders of
three sections each: N11-F11 to N11-F13, N11-F21 to N11-F23, N11-F31 to N11-F33. The point N11-Q12 joins N11-F11 and
N11-F12; N11-B1 is an open bypass of N11-Q11. Open couplers CPL-N11-N12 lie between the buses of neighbours, and open ties
TIE1-N11-N12 to TIE3-N15-N16 between the ends of their feeders. So CPL-N11-N12 closes a loop, and CPL-N12-N13 joins sources.
"""

from desk_looks.commands import HEADS, Network

STATIONS = ["N11", "N12", "N13", "N14", "N15", "N16"]
OPERATORS = ["DISP1", "DISP2", "DISP3", "DISP4"]
CHARGE = {"BOSS": "", "JONES": "BOSS", "KIM": "BOSS", "OWENS": "BOSS", "LEE": "BOSS", "CHIEF": "", "PATEL": "CHIEF", "SOTO": "CHIEF", "WEBER": ""}
FIELD = ["REED", "DALE", "ADAMS", "BAKER", "CLARK", "DAVIS", "EVANS", "FORD", "GREEN", "HILL", "IVES", "JUDD"]


def sections():
    return [(f"GRID-{number}", "yes") for number in (1, 2, 3)] + [(f"{station}-{part}", "no") for station in STATIONS
            for part in ["BUS"] + [f"F{feeder}{place}" for feeder in (1, 2, 3) for place in (1, 2, 3)]]


def points():
    rows = []
    for number, station in enumerate(STATIONS):
        rows.append((f"{station}-Q0", f"GRID-{number // 2 + 1}", f"{station}-BUS", "yes", "yes", "closed"))
        for feeder in (1, 2, 3):
            for place in (1, 2, 3):
                up = "BUS" if place == 1 else f"F{feeder}{place - 1}"
                rows.append((f"{station}-Q{feeder}{place}", f"{station}-{up}", f"{station}-F{feeder}{place}", "yes", "yes" if place == 1 else "no", "closed"))
        for feeder in (1, 2):
            rows.append((f"{station}-B{feeder}", f"{station}-BUS", f"{station}-F{feeder}1", "no", "no", "open"))
    for number, (one, other) in enumerate(zip(STATIONS, STATIONS[1:])):
        rows.append((f"CPL-{one}-{other}", f"{one}-BUS", f"{other}-BUS", "yes", "no", "open"))
        rows += [(f"TIE{feeder}-{one}-{other}", f"{one}-F{feeder}3", f"{other}-F{feeder}3", "yes", "no", "open") for feeder in (1, 2, 3)]
    return rows


def staff():
    return ([(name, "operator", "") for name in OPERATORS] + [(name, "charge", boss) for name, boss in CHARGE.items()]
            + [(name, "field", "") for name in FIELD])


MADE = Network(sections(), points(), staff(), operator="DISP1", reader="REED")
write_files, needed, undoing, closed, step, steps = MADE.write_files, MADE.needed, MADE.undoing, MADE.closed, MADE.step, MADE.steps
ordered, granted, released, switch = MADE.ordered, MADE.granted, MADE.released, MADE.switch
