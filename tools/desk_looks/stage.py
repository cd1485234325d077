"""What a look begins with: a folder, a register with nginx before it, and windows of Chromium on its page."""

import json
import os
import time

from desk_looks import network as made
from desk_looks.browser import Browser, Differs, free_ports
from desk_looks.desk import Desk, gridclear
from desk_looks.hand import Hand


class Windows:
    """Browsers, each begun when it is first wanted, and kept for all looks."""

    def __init__(self):
        self.browsers = []

    def get(self, place):
        while len(self.browsers) <= place:
            self.browsers.append(Browser())
        return self.browsers[place]

    def end(self):
        for browser in self.browsers:
            browser.end()


class Stage:
    """One look's: `begin` serves a desk and opens its page in the first window; `network` does so on a made network."""

    def __init__(self, windows, work, pictures):
        self.windows, self.work, self.pictures = windows, work, pictures
        self.desk, self.hands = None, []
        os.mkdir(work)
        os.chmod(work, 0o755)

    def begin(self, desk, page="board"):
        self.desk = desk
        desk.start()
        return self.window(page)

    def network(self, commands=(), page="board", speaker=None, net=made):
        """A made network, after these commands, a minute ago; each of them is accepted. The first window speaks as this one.
        `net` is the module desk_looks.network, or desk_looks.two_substations."""
        desk = Desk(self.work, "desk", net.write_files(self.work), free_ports(2))
        give(desk, commands)
        hand = self.begin(desk, page)
        if speaker:
            hand.speak(speaker)
        return hand

    def add_normal(self, *rows):
        """Puts rows into the file of normal positions that the page is served."""
        folder = os.path.join(self.desk.run_folder(), "desk", "files")
        served = next(path for path in (os.path.join(folder, name) for name in ("normal.csv", "points.csv")) if os.path.exists(path))
        with open(served, encoding="utf-8") as file:
            own = {row.split(",")[0] for row in rows}
            kept = [line.rstrip("\n") for line in file if line.split(",")[0] not in own]
        with open(served, "w", encoding="utf-8") as file:
            file.write("".join(f"{line}\n" for line in [*kept, *rows]))

    def window(self, page="board"):
        """A window more, each a browser of its own."""
        hand = self.bare_window()
        hand.open(page)
        return hand

    def bare_window(self):
        """The same, in which nothing is open yet."""
        hand = Hand(self.windows.get(len(self.hands)), self.desk, self.pictures)
        self.hands.append(hand)
        hand.browser.size(0)
        return hand

    def complain(self):
        for hand in self.hands:
            hand.browser.complain()

    def picture(self, name):
        for place, hand in enumerate(self.hands, 1):
            hand.picture(f"differs-{name}-{place}")

    def end(self):
        for hand in self.hands:
            hand.browser.size(0)
            hand.browser.go("about:blank")
            hand.browser.complaints()
        if self.desk:
            self.desk.stop()


def give(desk, commands):
    """Gives commands to the register itself, before it is served."""
    moment = int(time.time()) - 60
    text = "".join(json.dumps(one if one["do"] == "jumper" else dict(one, at=moment)) + "\n" for one in commands)
    replies = gridclear("run", *desk.stored(), text=text) if text else ""
    for command, reply in zip(commands, replies.splitlines()):
        if json.loads(reply).get("reply") not in ("accepted", "added"):
            raise Differs(f"before the look: {command} is {reply}")
