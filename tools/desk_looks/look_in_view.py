"""What stays in view on a page that is scrolled: that the register does not answer, that no command is taken, that it takes
up little of a small screen; what is old is grey, and says since when. What keeps the register, and whose clock was set."""

import json
import os
import time

from desk_looks import two_substations
from desk_looks.browser import Differs, free_ports, wait_until
from desk_looks.desk import Desk
from desk_looks.look_life import hanging
from desk_looks.network import granted
from desk_looks.stage import give

WIDE, HIGH = 1366, 768
MOST = HIGH / 4  # pixels that stay in view may take
CUT = ["N13-Q11", "N13-B1", "N13-Q13"]
# Top and bottom of what has this text's node, and whether it is what lies there.
PLACE = """
const node = document.querySelector(arguments[0]), { left, top, right, bottom } = node.getBoundingClientRect();
const found = document.elementFromPoint((left + right) / 2, (top + bottom) / 2);
return [top, bottom, node === found || node.contains(found)];
"""


def served(stage, page):
    """The network of two substations in the middle of a shift, with a journal, on a small screen."""
    journal = os.path.join(stage.work, "journal")
    desk = Desk(stage.work, "desk", two_substations.write_files(stage.work), free_ports(2), ["--journal", journal])
    give(desk, two_substations.shift())
    hand = stage.begin(desk, page)
    hand.browser.size(WIDE, HIGH)
    hand.speak("OWENS")
    return hand


def scroll(hand):
    """To the lower end of the page, as an operator who looks at crews and grounds."""
    hand.browser.script("window.scrollTo(0, document.documentElement.scrollHeight)")
    time.sleep(0.3)
    if hand.browser.script("return scrollY") < 200:
        raise Differs("the page is not long enough to be scrolled")


def in_view(hand, css):
    top, bottom, seen = hand.browser.script(PLACE, css)
    if top < 0 or bottom > HIGH or not seen:
        raise Differs(f"{css} lies from {top:.0f} to {bottom:.0f}, and is {'seen' if seen else 'covered'}")
    high = hand.browser.script("return document.getElementById('state').offsetHeight")
    if high > MOST:
        raise Differs(f"what stays in view takes {high} of {HIGH} lines")


def silent(stage):
    """A register that hangs: it is said on the scrolled page, and after ten seconds all that is shown is old."""
    hand = served(stage, "clearance/OWENS/1")
    hand.shows("Crews on")
    with hanging(hand.desk.register()):
        hand.shows("does not answer since", "#contact.silent")
        scroll(hand)
        in_view(hand, "#contact")
        wait_until(lambda: hand.there("main[data-old]"), "all that is shown to be old", 15)
        said = hand.browser.script("return document.querySelector('main').dataset.old")
        if not said.startswith("Old: this is as of ") or hand.browser.script("return getComputedStyle(document.querySelector('main')).filter") == "none":
            raise Differs(f"the page is old, and says {said}")
        hand.picture("in-view-silent")
    hand.shows("The register answers", "#contact")
    wait_until(lambda: not hand.there("[data-old]"), "nothing old any more")


def refused(stage):
    """A full disk: that no command is taken stays in view beside an alarm of a section."""
    hand = served(stage, "clearance/OWENS/1")
    hand.post({"by": "OWENS", "do": "test", "clearance": "OWENS/1", "section": "SOU-3D", "dead": False})
    hand.shows("TESTED LIVE: SOU-3D", "#alarms")
    stage.desk.fill_disk(0)
    hand.press("off C1")
    hand.answer("yes")
    hand.shows("NO COMMAND IS TAKEN", "#contact.silent")
    scroll(hand)
    for css in ("#contact", "#alarms strong"):
        in_view(hand, css)
    hand.picture("in-view-refused")
    stage.desk.free_disk()
    stage.desk.restart()
    hand.shows("The register answers", "#contact.answers")


def network_old(stage):
    """The board comes and the network does not: the diagram is old, and the rest is not."""
    hand = served(stage, "diagram")
    hand.browser.script("""const real = window.fetch;
        window.fetch = (path, options) => (path === 'network' ? Promise.reject(new TypeError('cut off')) : real(path, options));
        window.comesAgain = () => { window.fetch = real; };""")
    wait_until(lambda: hand.there(".diagram-place[data-old]"), "an old diagram", 25)
    if hand.there("main[data-old]"):
        raise Differs("the board comes, and is said to be old")
    hand.browser.script("window.comesAgain()")
    wait_until(lambda: not hand.there("[data-old]"), "nothing old any more")


def put(desk, written, rows):
    """What the timers of the machine have written."""
    path = os.path.join(desk.run_folder(), "desk", "files", "keeping.json")
    with open(f"{path}.next", "w", encoding="utf-8") as file:
        json.dump({"written": written, "rows": [dict(zip(("what", "at", "limit", "says", "alarm"), row)) for row in rows]}, file)
    os.chmod(f"{path}.next", 0o644)
    os.rename(f"{path}.next", path)


def keeping(stage):
    """Standby, backup and disk at the top; a lag of over a minute, a full disk and an old file are alarms; none is no word."""
    hand = served(stage, "board")
    now = int(time.time())
    if hand.text("#keeping"):
        raise Differs("something is said of what keeps the register, and nothing is known")
    backup, disk = ("backup", now - 7200, 93600, "verified 27 commands", False), ("disk", now, 600, "4.2 GB free of 20 GB", False)
    put(stage.desk, now, [("standby", now, 60, "has line 1234", False), backup, disk])
    hand.shows("s ago; backup ", "#keeping")
    for text in ("standby ", ", verified 27 commands; disk 4.2 GB free of 20 GB"):
        hand.shows(text, "#keeping")
    if hand.there("#keeping .alarm"):
        raise Differs("what keeps the register is well, and an alarm")
    hand.picture("keeping")
    put(stage.desk, now, [("standby", now - 90, 60, "has line 1200", False), ("backup", None, 93600, "never made", False), disk])
    for text in ("standby: last good 1 min ago", "backup: last good never"):
        hand.shows(text, "#keeping")
    scroll(hand)
    in_view(hand, "#keeping .alarm")
    hand.picture("keeping-alarm")
    put(stage.desk, now - 300, [disk])
    hand.shows("were last looked at 5 min ago", "#keeping .alarm")


LATER = """
const seconds = arguments[0], real = window.later ??= window.fetch;
window.fetch = async (...words) => {
  const answer = await real(...words), date = new Date(Date.parse(answer.headers.get('Date')) + seconds * 1000).toUTCString();
  return new Response(answer.body, { status: answer.status, headers: { 'Content-Type': answer.headers.get('Content-Type') ?? '', Date: date } });
};
"""


def clock_set(stage):
    """The server's clock is set back: it is said, with those who agree with this desk; the choice of a clock can be taken back."""
    hand = stage.network(granted("KIM", "N13-F12", CUT), "clearance/KIM/1", speaker="KIM")
    hand.shows("The register answers", "#contact")
    hand.browser.script(LATER, -600)
    hand.shows("The server's was set back by", "#clocks")
    hand.shows("nobody has given a command by a clock like this desk's", "#clocks")
    hand.picture("clock-set")
    hand.carry_out("dead N13-F12", "dead", asked=["which is meant?"], answers=["desk"])
    hand.shows("Commands have the moment of this desk's", "#clocks")
    hand.browser.click("#clock-again")
    hand.carry_out("dead N13-F12", "dead", asked=["which is meant?"], answers=["desk"])
    hand.browser.script(LATER, 0)
    wait_until(lambda: hand.browser.script("return document.getElementById('clocks').hidden && document.getElementById('clock-again').hidden"), "clocks that agree")


LOOKS = {"in view silent": silent, "in view refused": refused, "in view network": network_old, "in view keeping": keeping, "in view clock": clock_set}
