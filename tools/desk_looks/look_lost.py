"""A reply that is lost: the page judges by what the command does, and says where that cannot be known."""

import time

from desk_looks.browser import ALL, ENTER
from desk_looks.network import granted, ordered

CUT = ["N13-Q11", "N13-B1", "N13-Q13"]

# The replies to commands are lost, also those that were carried out where the argument says so; and the page's looks wait.
LOSE = """
const real = window.realFetch ??= window.fetch;
window.waits = true;
window.fetch = async (path, options) => {
  if (path === 'command') {
    window.lostAt = JSON.parse(options.body).at;
    if (arguments[0]) await real(path, options);
    window.fetch = (one, more) => (window.waits ? new Promise((go) => { (window.waiting ??= []).push(() => go(real(one, more))); }) : real(one, more));
    throw new TypeError('lost on the way');
  }
  return real(path, options);
};
"""
GO_ON = "window.waits = false; window.fetch = window.realFetch; for (const go of window.waiting ?? []) go(); window.waiting = [];"


def lose(hand, act, carried_out, meanwhile=None):
    """The act's reply is lost; meanwhile another desk gives commands, each at the moment of the lost one."""
    hand.browser.script(LOSE.replace("arguments[0]", "true" if carried_out else "false"))
    act()
    hand.reply("lost", "No reply came")
    moment = hand.browser.script("return window.lostAt")
    for command, later in meanwhile or []:
        hand.post(command, moment + later)
    hand.browser.script(GO_ON)


def sign_off(hand, crew="C1"):
    hand.press(f"off {crew}")
    time.sleep(1)
    if hand.browser.script("return document.querySelector('dialog') !== null"):
        hand.answer("yes")


def crews(stage):
    hand = stage.network(granted("KIM", "N13-F12", CUT, ["C1", "C2"]), "clearance/KIM/1", speaker="KIM")
    other = {"by": "KIM", "do": "sign_on", "clearance": "KIM/1"}
    lose(hand, lambda: sign_off(hand), False, [(dict(other, crew="C7"), 0)])
    hand.found("Crew C1 is still on", "So far it was not carried out")
    hand.picture("lost")
    give_again(hand)
    hand.shows("Sign C1 off?", "dialog")
    hand.answer("null")
    lose(hand, lambda: sign_off(hand), False)
    hand.found("Crew C1 is still on")
    leave(hand)
    lose(hand, lambda: sign_off(hand), True, [])
    hand.found("Crew C1 is off", "So it was carried out.")
    lose(hand, lambda: sign_off(hand, "C2"), True, [(dict(other, crew="C8"), 1)])
    hand.found("Crew C2 is off", "this command, or another desk's like it")
    time.sleep(1.2)
    hand.post(dict(other, crew="C2"))
    hand.shows("C2 is on")
    lose(hand, lambda: sign_off(hand, "C2"), False, [(dict(other, crew="C9"), 1)])
    hand.found("Crew C2 is still on", "cannot be known")
    leave(hand)


def give_again(hand):
    """What is asked about the first time is asked about again."""
    hand.browser.click('#replies [data-name$="Give it again"]')


def leave(hand):
    hand.browser.click('#replies [data-name$="Leave it"]')


def steps(stage):
    hand = stage.network(ordered("KIM", "N13-F12", CUT), "clearance/KIM/1", speaker="DISP1")
    lose(hand, lambda: hand.press("instruct"), False, [])
    hand.found("is waiting", "not carried out")
    leave(hand)
    lose(hand, lambda: hand.press("instruct"), True, [])
    hand.found("is given out", "it was carried out")
    hand.speak("REED")
    lose(hand, lambda: hand.write("repeat-text", "OPEN N13-Q11" + ENTER), False,
         [({"by": "DALE", "do": "repeat", "clearance": "KIM/1", "step": 1, "text": "OPEN N13-Q11"}, 0)])
    hand.found("repeated, not yet reported", "not carried out")
    leave(hand)


def records(stage):
    """A request has no name before its reply: another section's record is not it."""
    hand = stage.network((), "request", speaker="KIM")
    ask = lambda: hand.write("section", ALL + "N13-F12" + ENTER)
    lose(hand, ask, False, [({"by": "KIM", "do": "request", "section": "N11-F11"}, 0)])
    hand.found("for something else: KIM/1", "So far it was not carried out")
    leave(hand)
    lose(hand, ask, True, [])
    hand.found("KIM/2, Requested, section N13-F12", "So it was carried out")


def again(stage):
    """A test that finds what an earlier one found leaves no trace."""
    hand = stage.network(granted("KIM", "N13-F12", CUT, ["C1"]), "clearance/KIM/1", speaker="KIM")
    lose(hand, lambda: hand.press("dead N13-F12"), True, [])
    hand.found("was tested dead before, so the register shows no difference", "cannot be known")
    leave(hand)


LOOKS = {"lost crews": crews, "lost steps": steps, "lost records": records, "lost again": again}
