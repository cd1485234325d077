"""A register that refuses commands, as on a full disk: each is not known until it was looked up, and the top is an alarm. With
a journal the register ends once the database has refused one, and the journal decides when it is back."""

import time

from desk_looks.browser import Differs, wait_until
from desk_looks.look_log import journaled, rows
from desk_looks.network import granted

CUT = ["N13-Q11", "N13-B1", "N13-Q13"]
KIM = granted("KIM", "N13-F12", CUT, ["C1", "C2"])
WRONG = ("as it was", "Try again")


def sign_off(hand, crew):
    hand.press(f"off {crew}")
    hand.answer("yes")


def is_open(hand, *texts):
    """The command is not known, on the page, beside what was found of it so far."""
    hand.reply("open", "sign crew C1 off", "503")
    for text in texts:
        hand.shows(text, "#replies")
    hand.lacks("Not carried out", "#replies li h3")
    for text in WRONG:
        hand.lacks(text, "#replies")


def alarmed(hand):
    hand.shows("NO COMMAND IS TAKEN", "#contact.silent")
    hand.tab_says("503: NO COMMAND IS TAKEN")


def is_well(hand):
    hand.shows("The register answers", "#contact.answers")
    hand.tab_is_quiet()


def is_gone(hand):
    """No register answers the page, which still has the command as one that is not known."""
    hand.shows("does not answer since", "#contact.silent")
    hand.tab_says("NO ANSWER")
    hand.shows("C1 is on")


def loaded_again(hand):
    """The page comes without the register, and still has the command."""
    hand.browser.own("POST", "/refresh", {})
    hand.shows("The network is not known yet")
    hand.shows("a restart of the register may do it", "#replies")
    hand.tab_says("NO ANSWER")


def logged(hand):
    """The log has the entry as its newest, accepted, and nothing is marked as lacking on the board."""
    hand.turn("log")
    hand.shows("sign off C1")
    newest = rows(hand)[0]
    if newest[4:] != ["sign off C1", "accepted"]:
        raise Differs(f"the newest entry of the log is {newest}")
    if hand.there("main tr.lacking"):
        raise Differs("the log marks an entry, though the board has them all")


def with_log(stage):
    """The log has it, the board does not, and the register ends: it stays open, through a reload, until there is room; then it is
    carried out."""
    hand, other = journaled(stage, "clearance/KIM/1"), stage.window("board")
    hand.speak("KIM")
    for command in KIM:
        hand.post(command)
    hand.shows("C2 is on")
    time.sleep(1.2)
    stage.desk.fill_disk()
    sign_off(hand, "C1")
    is_open(hand, "a restart of the register may do it")
    is_gone(hand)
    other.shows("does not answer since", "#contact.silent")
    hand.picture("refused")
    stage.desk.ends_again()
    is_gone(hand)
    loaded_again(hand)
    stage.desk.free_disk()
    stage.desk.comes_back()
    hand.found("was accepted", "So it was carried out.")
    for one in (hand, other):
        is_well(one)
    hand.shows("C2 is on")
    hand.lacks("C1 is on", "main")
    logged(hand)
    hand.picture("refused-log")


def without_line(stage):
    """A journal that could not be written has no line of it: then it was not carried out, and may be given again."""
    hand = journaled(stage, "clearance/KIM/1")
    hand.speak("KIM")
    for command in KIM:
        hand.post(command)
    hand.shows("C2 is on")
    stage.desk.fill_disk(0)
    sign_off(hand, "C1")
    hand.shows("It has no line of this desk's command. So it was not carried out, and no restart carries it out.", "#replies")
    alarmed(hand)
    stage.desk.free_disk()
    stage.desk.restart()
    is_well(hand)
    hand.browser.click('#replies [data-name$="Give it again"]')
    hand.answer("yes")
    hand.number = 1
    hand.reply("accepted", "sign crew C1 off")


def without_log(stage):
    """Without a journal the board alone is looked at, until the register takes a command again."""
    hand = stage.network(KIM, "clearance/KIM/1", speaker="KIM")
    hand.shows("C2 is on")
    time.sleep(1.2)
    stage.desk.fill_disk()
    sign_off(hand, "C1")
    is_open(hand, "Crew C1 is still on. So far it was not carried out.")
    alarmed(hand)
    hand.reload()
    alarmed(hand)
    stage.desk.free_disk()
    stage.desk.restart()
    give_one(hand)
    wait_until(lambda: hand.newest()[1] == "found", "what was found at last")
    hand.same_reply("found", "Crew C1 is still on. So far it was not carried out.")
    is_well(hand)


def give_one(hand):
    hand.post({"by": "JONES", "do": "request", "section": "N11-F11"})


LOOKS = {"refused": with_log, "refused without line": without_line, "refused without log": without_log}
