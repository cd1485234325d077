"""A check of what WCAG 2.2 asks for at the levels A and AA, as far as a program sees it: access.js, run in the page, and what
Chromium itself makes of the page for a screen reader."""

import os

from desk_looks.browser import SHIFT, TAB, Differs, say

with open(os.path.join(os.path.dirname(__file__), "access.js"), encoding="utf-8") as file:
    SCRIPT = file.read()

MOST_STOPS = 400
# Roles that a screen reader offers as something to be used; each needs a name.
USED = {"button", "link", "checkbox", "radio", "textbox", "searchbox", "combobox", "DisclosureTriangle", "Date", "DateTime", "listbox", "spinbutton"}

# Each rule for a pointer over a control, put upon all of them; and the distances between letters, words and lines that a
# reader may want.
HOVERED = """
const rules = [...document.styleSheets].flatMap((sheet) => [...sheet.cssRules]).filter((rule) => rule.selectorText?.includes(':hover'));
const sheet = new CSSStyleSheet();
sheet.replaceSync(rules.map((rule) => rule.cssText.replaceAll(':hover', '')).join('\\n'));
document.adoptedStyleSheets = [sheet];
"""
SPACED = """
const sheet = new CSSStyleSheet();
sheet.replaceSync('* { line-height: 1.5 !important; letter-spacing: 0.12em !important; word-spacing: 0.16em !important } p { margin-bottom: 2em !important }');
document.adoptedStyleSheets = [sheet];
"""
AS_IT_IS = "document.adoptedStyleSheets = []"


class Access:
    """The faults of a page in all the states that were looked at."""

    def __init__(self, hand):
        self.hand, self.faults, self.looks = hand, {}, 0

    def note(self, state, found):
        for rule, where, what in found:
            self.faults.setdefault((rule, where, what), state)

    def script(self, what):
        return self.hand.browser.script(SCRIPT, what)

    def look(self, state, hovered=False):
        """The page as it is now, and what a screen reader gets of it; with `hovered` under a pointer too."""
        self.looks += 1
        self.note(state, self.script("whole"))
        self.note(state, self.nameless())
        if hovered:
            self.hand.browser.script(HOVERED)
            self.note(f"{state}, under a pointer", [one for one in self.script("whole") if one[0] == "contrast"])
            self.hand.browser.script(AS_IT_IS)

    def spaced(self, state):
        """With wide letters, words and lines nothing is cut."""
        self.hand.browser.script(SPACED)
        self.note(f"{state}, with wide text", [one for one in self.script("whole") if one[0] == "cut"])
        self.hand.browser.script(AS_IT_IS)

    def nameless(self):
        """Controls that Chromium gives no name for a screen reader."""
        tree = self.hand.browser.own("POST", "/goog/cdp/execute", {"cmd": "Accessibility.getFullAXTree", "params": {}})["nodes"]
        used = [node for node in tree if not node.get("ignored") and node.get("role", {}).get("value") in USED]
        return [("name for a screen reader", node["role"]["value"], str(node.get("nodeId"))) for node in used if not node.get("name", {}).get("value", "").strip()]

    def walk(self, state):
        """Tab from the top of the page to its end: each control is a stop, with a ring that is seen."""
        browser = self.hand.browser
        browser.script("delete window.stops; document.getElementById('skip').focus()")
        browser.keys(TAB)
        browser.chord(SHIFT, TAB)
        for count in range(MOST_STOPS):
            found = self.script("stop")
            if found is None:
                break
            self.note(state, found)
            browser.keys(TAB)
        else:
            raise Differs(f"{state}: {MOST_STOPS} times Tab do not lead out of the page")
        self.looks += 1
        self.note(state, self.script("missed"))
        say(f"  {state}: {count} stops of Tab")

    def walk_question(self, state):
        """The same of a question, in which Tab goes round."""
        for _ in range(2 + 2 * self.hand.browser.script("return document.querySelectorAll('dialog button').length")):
            self.hand.browser.keys(TAB)
            self.note(state, self.script("stop") or [])
        self.note(state, self.script("missed"))

    def verdict(self):
        for (rule, where, what), state in self.faults.items():
            say(f"  {rule}, {state}: {where}: {what}")
        if self.faults:
            raise Differs(f"{len(self.faults)} faults of level A or AA in {self.looks} states")
        say(f"  no fault of level A or AA in {self.looks} states")
