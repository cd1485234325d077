"""An operator's acts at the page, for the looks."""

import json
import os
import time
import urllib.error
import urllib.request

from desk_looks.browser import ALL, ENTER, LONG, TAB, Differs, direct, say, wait_until


class Hand:
    """What an operator does at the page."""

    def __init__(self, browser, desk, pictures):
        self.browser, self.desk, self.pictures, self.number = browser, desk, pictures, 0

    def path(self, name):
        return os.path.join(self.pictures, f"{name}.png")

    def picture(self, name):
        self.browser.picture(self.path(name))

    def open(self, page="board"):
        self.browser.go("about:blank")
        self.browser.go(f"{self.desk.address}#/{page}")
        wait_until(lambda: self.browser.script("return document.body.dataset.ready === 'yes'"), "the page")
        self.number = self.newest()[0]

    def reload(self):
        """The page, loaded again."""
        self.browser.own("POST", "/refresh", {})
        wait_until(lambda: self.browser.script("return document.body.dataset.ready === 'yes'"), "the page again")
        self.number = self.newest()[0]

    def speak(self, name):
        self.browser.click(f'#caller option[value="{name}"]')
        wait_until(lambda: self.browser.script("return document.getElementById('caller').value") == name, f"speaking as {name}")

    def turn(self, page):
        self.browser.script("location.hash = arguments[0]", f"#/{page}")

    def press(self, name):
        self.browser.settled(f'main [data-name="{name}"]')
        self.browser.click(f'main [data-name="{name}"]')

    def answer(self, value):
        self.browser.click(f'dialog [data-answer="{value}"]')

    def write(self, name, text):
        """Types into the field of this name."""
        self.browser.type(f'main [data-name="{name}"]', text)

    def carry_out(self, name, *texts, asked=(), answers=()):
        """A press that is accepted, after these answers to what is asked; its reply has these texts."""
        self.consent(name, asked, answers)
        self.reply("accepted", *texts)

    def refused(self, name, *texts, asked=(), answers=()):
        self.consent(name, asked, answers)
        self.reply("refused", *texts)

    def consent(self, name, asked, answers):
        """A press; the question says this, and is answered so."""
        self.press(name)
        for text in asked:
            self.shows(text, "dialog")
        for one in answers:
            self.answer(one)
        if name == "done" and not asked:
            self.confirm_report()

    def confirm_report(self):
        """A report that makes something live or dead is asked about."""
        wait_until(lambda: self.there("dialog") or self.newest()[0] > self.number, "a question or a reply to a report")
        if self.there("dialog"):
            self.answer("yes")

    def rest(self):
        """Pointer and focus leave the lists, so that what another desk does is shown at once."""
        self.browser.point(1, 1)
        self.browser.script("document.activeElement.blur()")

    def repeat(self, text):
        """The step, as it is heard, and its button."""
        self.write("repeat-text", text)
        self.carry_out("repeat", "repeat", text.removeprefix(ALL))

    def declined(self, name, *texts, sent=0):
        """A press that asks a question with these texts; a no to it sends nothing."""
        self.press(name)
        for text in texts:
            self.shows(text, "dialog")
        self.answer("null")
        self.nothing_sent(sent)

    def post(self, command, at=None):
        """Another desk's command, now; it is accepted."""
        timed = command if command["do"] == "jumper" else dict(command, at=int(time.time()) if at is None else at)
        body = json.dumps(timed).encode()
        request = urllib.request.Request(f"{self.desk.address}command", body, {"Content-Type": "application/json"})
        try:
            direct.open(request, timeout=20).close()
        except urllib.error.HTTPError as fault:
            raise Differs(f"another desk's {command}: {fault.read().decode()}") from None

    def newest(self):
        return self.browser.script("""const one = document.querySelector('#replies li[data-number]');
            return one ? [Number(one.dataset.number), one.dataset.kind, one.textContent] : [0, '', '']""")

    def reply(self, kind, *texts, seconds=LONG):
        """The next reply is of this kind, and has these texts."""
        wait_until(lambda: self.newest()[0] > self.number, f"a reply that is {kind} {texts}", seconds)
        return self.same_reply(kind, *texts)

    def same_reply(self, kind, *texts):
        self.number, found, text = self.newest()
        if found != kind or any(part not in text for part in texts):
            raise Differs(f"to be {kind} {texts}, was {found}: {text}")

    def found(self, *texts):
        """The reply that was lost now says what the page found."""
        wait_until(lambda: self.newest()[1] == "found", "what was found after a lost reply")
        self.same_reply("found", *texts)

    def title(self):
        return self.browser.script("return document.title")

    def tab_says(self, text):
        """The title of the tab begins with an alarm that says this."""
        wait_until(lambda: self.title().startswith("⚠ ") and text in self.title(), f"the tab's title to say {text}")

    def tab_is_quiet(self):
        wait_until(lambda: "⚠" not in self.title(), "a title of the tab without an alarm")

    def shows(self, text, css="main"):
        look = "const node = document.querySelector(arguments[0]); return node?.innerText ?? node?.textContent ?? ''"
        wait_until(lambda: text in self.browser.script(look, css), f"{css} to show {text}")

    def text(self, css="main"):
        return self.browser.script("return document.querySelector(arguments[0])?.innerText ?? ''", css)

    def lacks(self, text, css="body"):
        """Nothing there says this, in capitals or not."""
        if text.lower() in self.text(css).lower():
            raise Differs(f"{css} was not to say {text}: {self.text(css)[:200]}")

    def there(self, css):
        return self.browser.script("return document.querySelector(arguments[0]) !== null", css)

    def rect(self, css):
        """Left, top, right and bottom, in the box that has what is next: the top of the page grows and shrinks."""
        self.browser.find(css)
        return self.browser.script("""const box = document.querySelector(arguments[0]).getBoundingClientRect();
            const next = document.querySelector('main .next').getBoundingClientRect();
            return [box.left - next.left, box.top - next.top, box.right - next.left, box.bottom - next.top]""", css)

    def pick(self, *points):
        """Picks each of these points by the list, which is narrowed to it first."""
        for point in points:
            self.browser.find('main [data-name="filter"]')
            self.browser.script("document.querySelector('main [data-name=filter]').value = ''")
            self.write("filter", point)
            self.press(f"pick {point}")
        self.write("filter", " ")

    def nothing_sent(self, since):
        """The desk's log has no command more than it had."""
        time.sleep(0.5)
        if len(self.desk.sent()) != since:
            raise Differs(f"something was sent: {self.desk.sent()[since:]}")

    def step(self, clearance, text):
        """A step's three commands by REED, with the mouse."""
        self.turn(f"clearance/{clearance}")
        self.speak("OPS")
        self.carry_out("instruct", "instruct", clearance)
        self.press("as REED")
        self.repeat(text)
        self.carry_out("done", "done")

    def tab_to(self, name):
        self.browser.settled(f'main [data-name="{name}"]')
        for count in range(1, 60):
            self.browser.keys(TAB)
            if self.browser.script("return document.activeElement.dataset.name") == name:
                return count
        raise Differs(f"60 times Tab do not lead to {name}")

    def step_by_keys(self, text):
        """The same with the keyboard alone, from the heading of the page on."""
        self.browser.script("document.querySelector('main h2').focus()")
        count = self.tab_to("instruct")
        self.browser.keys(ENTER)
        self.reply("accepted", "instruct")
        count += self.tab_to("as REED")
        self.browser.keys(ENTER)
        count += self.tab_to("repeat-text")
        self.browser.keys(text.lower() + ENTER)
        self.reply("accepted", "repeat", text)
        count += self.tab_to("done")
        self.browser.keys(ENTER)
        self.confirm_report()
        self.reply("accepted", "done")
        say(f"  a step's three commands by keyboard alone: {count + len(text) + 4} keys")
