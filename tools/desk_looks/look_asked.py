"""What nobody takes back is asked about, and given by no second press: a step that is done, a ground that is off, and what is
given again after its reply was lost."""

import time

from desk_looks import two_substations
from desk_looks.browser import ENTER, Differs, wait_until
from desk_looks.look_lost import lose
from desk_looks.two_substations import granted, step, switch

JOINS = "CLOSE SOU-BC"
FOCUS = "return document.activeElement.id || document.activeElement.dataset.name"
AGAIN = "#replies [data-name$='Give it again']"


def reported_by_no_key(hand, sent):
    """The focus is on the heading, and Enter reports nothing."""
    hand.reply("accepted", "repeat step 1")
    hand.browser.settled('main [data-name="done"]')
    time.sleep(1)
    if hand.browser.script(FOCUS) != "next":
        raise Differs(f"after a repeat the focus is on {hand.browser.script(FOCUS)}")
    hand.browser.keys(ENTER + ENTER)
    hand.nothing_sent(sent)


def done(stage):
    """After a repeat by key and by mouse, in the row and in one name; what joins two sources is asked about."""
    out = [switch([JOINS]), step("BERT/1", 1, JOINS, "instruct")[0]]
    hand = stage.network(out, "clearance/BERT/1", speaker="BERT", net=two_substations)
    hand.browser.click("#several")
    hand.browser.click('main [data-name="hearer"] option[value="REED"]')
    hand.write("repeat-text", JOINS + ENTER)
    reported_by_no_key(hand, 1)
    hand.carry_out("not-done", "not done")
    hand.carry_out("instruct", "instruct step 1", answers=["send"])
    hand.write("repeat-text", JOINS)
    hand.press("repeat")
    reported_by_no_key(hand, 4)
    hand.browser.click("#several")
    hand.speak("REED")
    hand.carry_out("not-done", "not done")
    hand.post(out[1])
    hand.write("repeat-text", JOINS + ENTER)
    reported_by_no_key(hand, 7)
    hand.declined("done", "Is CLOSE SOU-BC done in the field?", "joins the sources HV-132B and HV-132A", sent=7)
    hand.picture("asked-done")
    hand.carry_out("done", "done", asked=["Is CLOSE SOU-BC done"], answers=["yes"])


def ground_off(stage):
    """With a crew on, the ground of the work section is not to be stated as off; elsewhere its crews are named."""
    test = [{"by": "KIM", "clearance": "KIM/1", "section": "NOR-1D", **one} for one in ({"do": "test", "dead": True}, {"do": "ground"})]
    hand = stage.network([*granted("KIM", "NOR-1C", ["N123", "TN12"], ["C1", "C7"]), *test], "clearance/KIM/1", speaker="KIM", net=two_substations)
    hand.press("ground NOR-1C")
    hand.shows("Ground off NOR-1C: not yet", "dialog")
    hand.shows("would be refused (CREWS_ON). On now: C1, C7.", "dialog")
    if hand.there("dialog [data-answer=yes]"):
        raise Differs("the ground is to be stated as off, with crews on")
    hand.picture("asked-ground")
    hand.answer("null")
    hand.declined("ground NOR-1D", "Ground off NOR-1D?", "On now: C1, C7.", "Do they all know that NOR-1D is no longer grounded under KIM/1?")


def again(stage):
    """A test whose reply was lost is not given again unasked; nor at all once such a command was answered, here or elsewhere."""
    hand = stage.network(granted("KIM", "NOR-1C", ["N123", "N134"], ["C1"]), "clearance/KIM/1", speaker="KIM", net=two_substations)
    for _ in range(2):
        lose(hand, lambda: hand.press("dead NOR-1C"), False)
        hand.found("was tested dead before", "cannot be known")
    hand.browser.click(AGAIN)
    hand.shows("NOR-1C: tested dead?", "dialog")
    hand.answer("null")
    hand.nothing_sent(0)
    hand.browser.find(AGAIN)
    hand.carry_out("live NOR-1C", "live", answers=["yes"])
    wait_until(lambda: not hand.there(AGAIN), "an old test that is not offered again")
    hand.picture("asked-again")


def crew_again(stage):
    """A crew that came by hand, and left, is not signed on again by the button of a lost reply."""
    hand = stage.network(granted("KIM", "NOR-1C", ["N123", "N134"], ["C1"]), "clearance/KIM/1", speaker="KIM", net=two_substations)
    lose(hand, lambda: hand.write("crew", "C7" + ENTER), False)
    hand.found("Crew C7 is not on", "not carried out")
    hand.browser.click(AGAIN)
    hand.shows("Sign C7 on to KIM/1?", "dialog")
    hand.answer("null")
    lose(hand, lambda: hand.press("sign-on"), False)
    hand.found("Crew C7 is not on", "not carried out")
    hand.press("sign-on")
    hand.reply("accepted", "sign crew C7 on")
    hand.carry_out("off C7", "sign crew C7 off", answers=["yes"])
    wait_until(lambda: not hand.there(AGAIN), "a crew that is not offered to be signed on again")


LOOKS = {"asked done": done, "asked ground": ground_off, "asked again": again, "asked crew again": crew_again}
