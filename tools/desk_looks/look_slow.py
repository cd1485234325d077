"""A slow line: what was accepted is shown at once, before the register has answered anything more."""

from desk_looks.browser import Differs
from desk_looks.network import ordered

CUT = ["N13-Q11", "N13-B1", "N13-Q13"]

# All but commands take four seconds.
SLOW = """const real = window.fetch;
window.fetch = async (path, options) => {
  if (path !== 'command') await new Promise((go) => setTimeout(go, 4000));
  return real(path, options);
};"""
# When the reply came, and when the pane said this, in milliseconds.
NOTED = """window.noted = {};
const look = () => {
  const text = document.querySelector('main .next')?.innerText ?? '';
  if (document.querySelector('#replies li[data-kind=accepted]')) window.noted.reply ??= performance.now();
  if (text.includes('Read this out')) window.noted.read ??= performance.now();
  if (window.noted.reply && text.includes('Say nothing')) window.noted.stale = performance.now();
  requestAnimationFrame(look);
};
look();"""
AT_ONCE = 700


def slow(stage):
    hand = stage.network(ordered("KIM", "N13-F12", CUT), "clearance/KIM/1", speaker="DISP1")
    hand.shows("Say nothing on the line")
    hand.browser.script(SLOW)
    hand.browser.script(NOTED)
    hand.carry_out("instruct", "instruct step 1")
    hand.shows("Read this out", "main .next")
    noted = hand.browser.script("return window.noted")
    late, stale = noted["read"] - noted["reply"], noted.get("stale", 0) - noted["reply"]
    if late > AT_ONCE or stale > AT_ONCE:
        raise Differs(f"after the reply it is read out after {late:.0f} ms, and nothing was to be said for {stale:.0f} ms")
    hand.speak("REED")
    hand.repeat("OPEN N13-Q11")
    hand.carry_out("done", "done")
    hand.speak("DISP1")
    hand.shows("Next is step 2", "main .next")


LOOKS = {"slow": slow}
