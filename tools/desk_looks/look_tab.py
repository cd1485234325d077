"""The title of the tab says what is amiss: a section that was tested live, and a register that does not answer."""

from desk_looks.look_life import hanging
from desk_looks.network import granted

CUT = ["N13-Q11", "N13-B1", "N13-Q13"]


def titles(stage):
    hand, other = stage.network(granted("KIM", "N13-F12", CUT), "clearance/KIM/1", speaker="KIM"), stage.window("board")
    other.speak("DISP1")
    hand.tab_is_quiet()
    hand.carry_out("live N13-F12", "live", answers=["yes"])
    hand.tab_says("TESTED LIVE N13-F12")
    hand.turn("board")
    hand.tab_says("TESTED LIVE N13-F12")
    with hanging(hand.desk.register()):
        for one in (hand, other):
            one.tab_says("NO ANSWER")
        hand.tab_says("TESTED LIVE N13-F12")
    other.tab_is_quiet()
    hand.turn("clearance/KIM/1")
    hand.carry_out("dead N13-F12", "dead", answers=["yes"])
    hand.tab_is_quiet()


LOOKS = {"tab": titles}
