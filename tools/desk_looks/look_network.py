"""The made network in two windows: what the other looks begin with."""

from desk_looks.network import granted, ordered

NAMES = ("N13-Q12", "TIE1-N12-N13", "TIE1-N13-N14")


def two_windows(stage):
    cut = ["N13-Q11", "N13-B1", *NAMES[1:]]
    one = stage.network([*granted("JONES", "N13-F12", cut, ["C1"]), *ordered("KIM", "N11-F12", ["N11-Q12", "TIE1-N11-N12"])])
    two = stage.window("clearance/KIM/1")
    one.speak("DISP1")
    one.shows("JONES/1")
    two.speak("DISP2")
    one.turn("clearance/KIM/1")
    one.carry_out("instruct", "instruct step 1 of KIM/1")
    two.shows("given out, not yet repeated")


LOOKS = {"network": two_windows}
