"""A whole life of JONES/1 beside switch orders, through the page alone; then the tables under it."""

import contextlib
import os
import signal
import time

from desk_looks.access import Access
from desk_looks.browser import ALL, ENTER, free_ports, say, wait_until
from desk_looks.desk import EXAMPLES, Desk, same_as_run


def ask_and_order(hand):
    say("the request, and the isolating order by list and diagram")
    hand.speak("JONES")
    hand.turn("request")
    hand.write("section", "l2")
    hand.carry_out("request", "JONES/1", "Requested")
    hand.press("as OPS")
    hand.press("pick S2")
    hand.browser.script("""document.querySelector('.net .point[data-name="S3"]').dispatchEvent(new MouseEvent('click'))""")
    hand.shows("TAG S3", "main .steplist")
    hand.picture("order")
    hand.carry_out("order", "order JONES/1: points S2, S3, 6 steps", "Ordered")


def isolate(hand):
    say("the steps, a reload in the middle")
    hand.step_by_keys("OPEN S2")
    hand.press("as OPS")
    hand.carry_out("instruct", "instruct step 2")
    hand.reload()
    hand.shows("given out, not yet repeated")
    hand.press("as REED")
    hand.write("repeat-text", "OPEN S2")
    hand.refused("repeat", "REPEAT_DIFFERS", asked=["The repeat differs"], answers=["send"])
    hand.repeat(ALL + "OPEN S3")
    hand.carry_out("done", "done")
    not_done(hand, "BLOCK S2")
    for text in ("BLOCK S2", "BLOCK S3"):
        hand.step("JONES/1", text)


def not_done(hand, text):
    hand.press("as OPS")
    hand.carry_out("instruct", "instruct")
    hand.press("as DALE")
    hand.write("repeat-text", text + ENTER)
    hand.reply("accepted", "DALE", text)
    hand.carry_out("not-done", "not done")


def switch(hand):
    say("switch orders beside it: a close that is held, and one that runs")
    hand.speak("OPS")
    hand.turn("switch")
    hand.press("pick S2")
    hand.press("CLOSE S2")
    hand.carry_out("switch", "OPS/1", asked=["would be refused (HELD) for JONES/1"], answers=["send"])
    hand.refused("instruct", "You cannot instruct step 1 of OPS/1: JONES/1 has S2 held open.", "HELD, number 20", asked=["would be refused (HELD) for JONES/1"], answers=["send"])
    hand.turn("clearance/JONES/1")
    hand.shows("TAG S2", "main .step-place")
    time.sleep(0.5)
    hand.picture("step")
    hand.turn("clearance/OPS/1")
    hand.carry_out("cancel", "OPS/1 is Closed", answers=["yes"])
    hand.turn("switch")
    hand.press("pick S4")
    hand.press("OPEN S4")
    hand.carry_out("switch", "OPS/2")
    hand.step("OPS/2", "OPEN S4")


def lose_a_reply(hand):
    say("the register killed under a command, which is looked up and given again by hand")
    hand.turn("clearance/JONES/1")
    hand.speak("OPS")
    hand.shows("TAG S2", "main .step-place")
    os.kill(hand.desk.register(), signal.SIGTERM)
    wait_until(lambda: "does not answer" in hand.browser.script("return document.getElementById('contact').textContent"), "the word that nothing answers")
    hand.shows("Its last answer came at", "#contact")
    hand.press("instruct")
    hand.reply("lost", "No reply came", "502")
    hand.picture("silent")
    hand.found("Step 5 (TAG S2) is waiting", "not carried out")
    hand.browser.click('#replies [data-name$="Give it again"]')
    hand.reply("accepted", "instruct step 5")
    hand.press("as REED")
    hand.write("repeat-text", "TAG S2" + ENTER)
    hand.reply("accepted", "repeat")
    hand.carry_out("done", "done")
    hand.step("JONES/1", "TAG S3")


def stop_and_start(hand):
    say("the desk stopped and started again under the open page")
    hand.desk.stop()
    hand.shows("does not answer", "#contact")
    hand.desk.start()
    hand.shows("The register answers", "#contact")
    hand.turn("clearance/JONES/1")
    hand.speak("OPS")
    hand.carry_out("grant", "JONES/1 is Granted", answers=["yes"])


def work_part(hand):
    say("work, and a register that hangs while a crew is signed on")
    hand.press("as JONES")
    hand.refused("ground L2", "You cannot ground L2: it is not tested dead under JONES/1.", "NOT_TESTED, number 25")
    hand.carry_out("dead L2", "dead")
    hand.carry_out("ground L2", "ground L2")
    with hanging(hand.desk.register()):
        hand.write("crew", "C1" + ENTER)
        hand.reply("lost", "504")
    hand.found("Crew C1 is on", "it was carried out")
    hand.shows("C1 is on")
    with hanging(hand.desk.register()):
        hand.write("crew", "C2" + ENTER)
        time.sleep(0.5)
        hand.browser.own("POST", "/refresh", {})
        hand.number = 0
    hand.found("the page was loaded again", "it was carried out")
    hand.carry_out("off C2", "sign crew C2 off", answers=["yes"])


def hand_over(hand):
    say("the clearance handed over, and taken in an emergency")
    transfer(hand, "BOSS")
    hand.press("as BOSS")
    transfer(hand, "JONES")
    transfer(hand, "KIM", "emergency")
    hand.press("as KIM")
    transfer(hand, "JONES")
    hand.press("as JONES")


def transfer(hand, name, emergency=""):
    kind = "true" if emergency else "false"
    hand.browser.click(f'main [data-name="to {kind}"] option[value="{name}"]')
    if emergency:
        hand.write("reason", "a car accident")
    hand.carry_out(f"transfer {kind}", emergency, f"holder {name}", answers=["yes"])


@contextlib.contextmanager
def hanging(process):
    """A program that takes connections, and answers nothing."""
    os.kill(process, signal.SIGSTOP)
    try:
        yield
    finally:
        os.kill(process, signal.SIGCONT)


def moments(hand):
    say("moments that are off, and a holder without a supervisor")
    hand.turn("request")
    hand.speak("KIM")
    hand.write("section", "L3")
    set_moment(hand, 600)
    hand.press("request")
    hand.shows("after this desk's clock", "dialog")
    hand.answer("null")
    hand.reply("unsent", "did not let it be sent")
    hand.browser.click("#moment-now")
    set_moment(hand, 90)
    hand.carry_out("request", "KIM/1")
    hand.turn("diagram")
    hand.browser.click('main [data-name="fence"] option[value="JONES/1"]')
    hand.turn("board")
    hand.shows("fence hatched")
    hand.shows("no supervisor")
    hand.shows("grounded")
    hand.picture("board")
    hand.turn("clearance/KIM/1")
    hand.press("cancel")
    hand.answer("yes")
    hand.shows("The register is ahead of this moment", "dialog")
    hand.answer("last")
    hand.reply("accepted", "KIM/1 is Closed")


def set_moment(hand, ahead):
    hand.browser.click("#moment-set")
    hand.browser.script("""const field = document.getElementById('moment');
        const time = new Date(Date.now() + arguments[0] * 1000 - new Date().getTimezoneOffset() * 60000);
        field.value = time.toISOString().slice(0, 19)""", ahead)


def give_back(hand):
    say("giving back and restoring")
    hand.turn("clearance/JONES/1")
    hand.speak("JONES")
    hand.browser.script("window.scrollTo(0, 0)")
    hand.picture("clearance")
    hand.declined("release", "would be refused (CREWS_ON): crew C1 on", sent=len(hand.desk.sent()))
    hand.carry_out("off C1", "sign crew C1 off", answers=["yes"])
    hand.carry_out("ground L2", "take the ground off L2", answers=["yes"])
    release(hand)
    hand.reply("accepted", "JONES/1 is Released")
    hand.press("as OPS")
    for point in ("S2", "S3"):
        hand.press(f"CLOSE {point}")
    hand.carry_out("restore", "Restoring")
    hand.carry_out("amend 6", "amend step 6", answers=["yes"])
    for text in ("UNTAG S2", "UNBLOCK S2", "CLOSE S2", "UNTAG S3", "UNBLOCK S3", "LEAVE S3"):
        hand.step("JONES/1", text)
    hand.shows("It is over; its record stays")


def release(hand):
    hand.press("release")
    hand.shows("first of two", "dialog")
    hand.answer("yes")
    hand.shows("second of two", "dialog")
    hand.answer("yes")


def look_around(hand):
    say("the other pages: points, my clearances, the printed order, the diagram")
    for point, words in (("S4", "open ≠"), ("S3", "open ≠"), ("S1", "closed closed")):
        hand.turn(f"points/{point}")
        wait_until(lambda: words in " ".join(hand.text(f'main tr[data-point="{point}"]').split()), f"{point} to be {words}")
    hand.turn("mine")
    hand.speak("JONES")
    hand.shows("Closed")
    hand.turn("clearance/JONES/1")
    hand.press("print 2")
    hand.shows("ORDER JONES/1 ROUND 2", "main .paper")
    hand.browser.on_paper(hand.path("paper"))
    hand.turn("diagram")
    hand.shows("S4", "main .drawing")
    hand.picture("diagram")


def look_at_access(hand):
    say("names, roles, contrast and sizes on each page, once all of it was used")
    access = Access(hand)
    for page in ("board", "points", "mine", "switch", "jumper", "log", "shift", "clearance/JONES/1"):
        for name in ("OPS", "JONES"):
            hand.turn(page)
            hand.speak(name)
            time.sleep(0.8)
            access.look(f"{page} as {name}")
    access.verdict()


PARTS = (ask_and_order, isolate, switch, lose_a_reply, stop_and_start, work_part, hand_over, moments, give_back, look_around,
         look_at_access)


def whole_life(stage):
    hand = stage.begin(Desk(stage.work, "desk", EXAMPLES, free_ports(2)))
    for part in PARTS:
        part(hand)
        hand.browser.complain()
    stage.desk.stop()
    say("the tables under the page")
    same_as_run(stage.desk, stage.work, stage.desk.sent(), {"clearance": 4, "step": 14})


LOOKS = {"life": whole_life}
