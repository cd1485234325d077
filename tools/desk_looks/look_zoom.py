"""How many frames a second are drawn, by software, while a network of 300 sections is zoomed and moved."""

import time

from desk_looks.browser import Differs, say
from desk_looks.look_large import large

SECONDS, LEAST = 4, 30

# Frames while nothing is done, and while each frame has a turn of the wheel, or a drag.
FRAMES = """
const [kind, seconds, done] = [arguments[0], arguments[1], arguments[arguments.length - 1]];
const net = document.querySelector('main .net'), frame = net.getBoundingClientRect();
const x = frame.left + frame.width / 2, y = frame.top + frame.height / 2, times = [];
let turn = 0;
net.setPointerCapture = () => {}; // of a pointer that is none
const acts = {
  idle: () => {},
  zoom: () => net.dispatchEvent(new WheelEvent('wheel', { deltaY: Math.floor(turn / 12) % 2 ? 20 : -20, clientX: x, clientY: y, bubbles: true, cancelable: true })),
  drag: () => {
    const at = { clientX: x + 120 * Math.sin(turn / 15), clientY: y + 60 * Math.cos(turn / 15), pointerId: 1, button: 0, bubbles: true };
    net.dispatchEvent(new PointerEvent(turn ? 'pointermove' : 'pointerdown', at));
  },
};
const begun = performance.now();
const go = (now) => {
  times.push(now);
  acts[kind]();
  turn += 1;
  if (now - begun < seconds * 1000) {
    requestAnimationFrame(go);
    return;
  }
  net.dispatchEvent(new PointerEvent('pointerup', { pointerId: 1, bubbles: true }));
  const gaps = times.slice(1).map((time, place) => time - times[place]).sort((a, b) => a - b);
  done([gaps.length / ((times.at(-1) - times[0]) / 1000), gaps[Math.floor(gaps.length / 2)], gaps[Math.floor(gaps.length * 0.95)]]);
};
requestAnimationFrame(go);
"""


def measured(hand, kind):
    rate, middle, slow = hand.browser.own("POST", "/execute/async", {"script": FRAMES, "args": [kind, SECONDS]})
    say(f"  {kind}: {rate:.0f} frames a second; from frame to frame {middle:.0f} ms in the middle, {slow:.0f} ms at most in 95 of 100")
    return rate


def zoom(stage):
    hand = large(stage)
    hand.shows("KIM/1", "main .drawing")
    hand.browser.click(".tools button:first-child")
    time.sleep(1)
    idle = measured(hand, "idle")
    rates = [measured(hand, kind) for kind in ("zoom", "drag")]
    if min(rates) < min(LEAST, 0.6 * idle):
        raise Differs(f"frames while zooming: {rates}")


LOOKS = {"zoom": zoom}
