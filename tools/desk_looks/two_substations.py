"""A network of 60 sections and 66 points with 13 employees: two substations, and a generator at the end of a feeder.

HV-132A feeds NOR-TR1 and SOU-TR2, HV-132B feeds SOU-TR1 and NOR-TR2: NOR-HD1 lies before NOR-TR1, NOR-LV1 between it and the
busbar NOR-BB1. The couplers NOR-BC and SOU-BC are open, and join the two sources. The feeders 1 to 3 of a station hang from
its first busbar, 4 and 5 from its second: NOR-CB1 feeds NOR-1A, N112 joins NOR-1A and NOR-1B, N123 NOR-1B and NOR-1C; at
SOU the same are S112 and S123. NOR-5 has three sections; GEN-CB joins NOR-5C and GEN-PV. LINE-10 to LINE-13 lead from
NOR-BB2 to SOU-BB2, where L-SOU is open; LINE-14 to LINE-19 are spurs of feeders. TN12 to T55 are open ties of their ends.
"""

from desk_looks.commands import Network

STATIONS = ("NOR", "SOU")
SECTIONS_OF = {("NOR", 5): "ABC"}       # of the other feeders: ABCD
BUSBAR = {1: 1, 2: 1, 3: 1, 4: 2, 5: 2}  # of a feeder
SOURCE = {("NOR", 1): "HV-132A", ("SOU", 2): "HV-132A", ("SOU", 1): "HV-132B", ("NOR", 2): "HV-132B"}
LINES = ["NOR-BB2", "LINE-10", "LINE-11", "LINE-12", "LINE-13", "SOU-BB2"]
SPURS = {"LINE-14": "NOR-1B", "LINE-15": "NOR-2C", "LINE-16": "NOR-4B", "LINE-17": "SOU-1C", "LINE-18": "SOU-3B", "LINE-19": "SOU-4C"}
TIES = {"TN12": ("NOR-1D", "NOR-2D"), "TN34": ("NOR-3D", "NOR-4D"), "TS12": ("SOU-1D", "SOU-2D"), "TS34": ("SOU-3D", "SOU-4D"), "T55": ("NOR-5B", "SOU-5D")}
STAFF = [("ANNA", "operator", ""), ("BERT", "operator", ""), ("OPS", "operator", ""), ("BOSS", "charge", ""), ("JONES", "charge", "BOSS"),
         ("KIM", "charge", "BOSS"), ("OWENS", "charge", "BOSS"), ("LEE", "charge", "BOSS"), ("REED", "field", ""), ("DALE", "field", ""),
         ("ADAMS", "field", ""), ("BAKER", "field", ""), ("CLARK", "field", "")]


def feeder(station, number):
    """Its sections, from the busbar on."""
    return [f"{station}-{number}{letter}" for letter in SECTIONS_OF.get((station, number), "ABCD")]


def sections():
    names = [f"{station}-{part}{number}" for station in STATIONS for part in ("TR", "BB") for number in (1, 2)]
    names += [name for station in STATIONS for number in BUSBAR for name in feeder(station, number)]
    return [(name, "yes") for name in ("GEN-PV", "HV-132A", "HV-132B")] + [(name, "no") for name in [*names, *LINES[1:-1], *SPURS]]


def station_points(station):
    rows = [(f"{station}-BC", f"{station}-BB1", f"{station}-BB2", "yes", "yes", "open")]
    for number in (1, 2):
        rows += [(f"{station}-HD{number}", SOURCE[station, number], f"{station}-TR{number}", "yes", "yes", "closed"),
                 (f"{station}-LV{number}", f"{station}-TR{number}", f"{station}-BB{number}", "yes", "yes", "closed")]
    for number, busbar in BUSBAR.items():
        names = feeder(station, number)
        rows.append((f"{station}-CB{number}", f"{station}-BB{busbar}", names[0], "yes", "yes", "closed"))
        rows += [(f"{station[0]}{number}{place}{place + 1}", one, other, "yes", "no", "closed") for place, (one, other) in enumerate(zip(names, names[1:]), 1)]
    return rows


def points():
    rows = [row for station in STATIONS for row in station_points(station)]
    rows.append(("GEN-CB", "NOR-5C", "GEN-PV", "yes", "yes", "closed"))
    rows += [(name, one, other, "yes", "no", "open" if name == "L-SOU" else "closed")
             for name, one, other in zip(("L-NOR", "L1011", "L1112", "L1213", "L-SOU"), LINES, LINES[1:])]
    rows += [(f"L{spur[-2:]}", up, spur, "yes", "no", "closed") for spur, up in SPURS.items()]
    return rows + [(name, one, other, "yes", "no", "open") for name, (one, other) in TIES.items()]


TWO = Network(sections(), points(), STAFF, operator="BERT", reader="REED")
write_files, needed, undoing, closed, step, steps = TWO.write_files, TWO.needed, TWO.undoing, TWO.closed, TWO.step, TWO.steps
ordered, granted, released, switch = TWO.ordered, TWO.granted, TWO.released, TWO.switch


def shift():
    """In the middle of a shift: four clearances granted, three of them with a crew on, one ordered with a step that is out."""
    return [*granted("OWENS", "SOU-3D", ["S334", "TS34"], ["C1"]), *granted("JONES", "LINE-13", ["L1213", "L-SOU"], ["C2"]),
            *granted("KIM", "NOR-1C", ["N123", "N134"]), *granted("BOSS", "NOR-1D", ["N134", "TN12"], ["C3"]),
            *ordered("LEE", "NOR-2D", ["N234", "TN12"]), *step("LEE/1", 1, "OPEN N234"), *step("LEE/1", 2, "OPEN TN12", "instruct")]


# What the diagram has to say of it: the letters of each owner at a point, and the words of a section's state.
LETTERS = {"S334": ["O B T"], "TS34": ["O B T"], "L1213": ["O B T"], "L-SOU": ["O B T"], "N123": ["O B T"], "N134": ["O B T", "O B T"],
           "TN12": ["O B T", "hand"], "N234": ["O"]}
WORDS = {"SOU-3D": "Granted, grounded", "LINE-13": "Granted, grounded", "NOR-1D": "Granted, grounded", "NOR-1C": "Granted", "NOR-2D": "Ordered"}
