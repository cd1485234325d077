"""Replies stay through a reload; a record that is over has its last moment."""

from desk_looks.browser import Differs
from desk_looks.network import closed, granted

CUT, ENDS = ["N15-Q13", "TIE1-N14-N15", "TIE1-N15-N16"], ["CLOSE", "LEAVE", "LEAVE"]


def replies_stay(stage):
    hand = stage.network(granted("KIM", "N13-F12", ["N13-Q11", "N13-B1", "N13-Q13"]), "clearance/KIM/1", speaker="KIM")
    hand.carry_out("dead N13-F12", "dead")
    before = hand.text("#replies")
    hand.reload()
    if hand.text("#replies") != before:
        raise Differs(f"after a reload the replies are {hand.text('#replies')[:200]}")
    hand.carry_out("ground N13-F12", "ground N13-F12")
    if hand.browser.script("return document.querySelectorAll('#replies li[data-number]').length") != 2:
        raise Differs("a reply after the reload is not beside the one before it")


def last_moment(stage):
    hand = stage.network(closed("LEE", "N15-F13", CUT, ENDS), "clearance/LEE/1", speaker="DISP1")
    hand.shows("It is over; its record stays")
    hand.lacks("not on the board", "main .card")
    hand.browser.find("main .card dd span[title^='20']")


LOOKS = {"replies stay": replies_stay, "replies last moment": last_moment}
