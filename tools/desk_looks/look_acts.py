"""Whose act it was: where this desk has a log, a command without a reply is looked up there, by login, command and moment."""

import os

from desk_looks.browser import Differs, wait_until
from desk_looks.look_logins import asked, open_as, with_logins

# The reply to the command is lost; it is sent only once the look says so.
HELD_BACK = """
const real = window.realFetch ??= window.fetch;
window.sendIt = new Promise((go) => { window.letGo = go; });
window.fetch = async (path, options) => {
  if (path !== 'command') return real(path, options);
  window.lostAt = JSON.parse(options.body).at;
  await window.sendIt;
  await real(path, options);
  window.fetch = real;
  throw new TypeError('lost on the way');
};
"""


def served(stage):
    """Two logins, and a journal."""
    desk = stage.desk = with_logins(stage, [("bert", "DISP1")])
    desk.begin_journal(os.path.join(stage.work, "journal"))
    desk.start(401)
    hand = stage.bare_window()
    open_as(stage, hand, "anna")
    hand.speak("DISP1")
    return desk, hand


def lose(hand, meanwhile):
    """The instruct's reply is lost; meanwhile another desk does something at the same moment."""
    hand.browser.script(HELD_BACK)
    hand.press("instruct")
    moment = wait_until(lambda: hand.browser.script("return window.lostAt"), "the command")
    meanwhile(moment)
    hand.browser.script("window.letGo()")


def anothers(stage):
    """Another desk gives the step out in the same second, by the same name: it is not said to be this desk's."""
    desk, hand = served(stage)

    def instructs(moment):
        status, body = asked(desk, "command", "bert", {"at": moment, "by": "DISP1", "clearance": "JONES/1", "do": "instruct", "step": 1})
        if status != 200:
            raise Differs(f"the other desk's instruct is answered {status} {body}")

    lose(hand, instructs)
    hand.found("The log:", "was refused (STEP_STATE)", "So it was not carried out.")
    hand.shows("was given out at another desk", "main .next")
    hand.lacks("This desk gave it", "main .next")
    hand.picture("acts-refused")


def own(stage):
    """This desk's own is found by its login, and is read out."""
    desk, hand = served(stage)
    lose(hand, lambda moment: None)
    hand.found("The log:", "was accepted", "So it was carried out.")
    hand.shows("Read this out", "main .next")


LOOKS = {"acts another's": anothers, "acts own": own}
