"""An operator's acts at a desk with a login, whose names are an operator, an employee in the field, and one in charge."""

from desk_looks.browser import ALL, ENTER, Differs, wait_until
from desk_looks.hand import Hand
from desk_looks.network import needed, undoing

REPLIES = """return [...document.querySelectorAll('#replies li[data-number]')].map((one) =>
    [Number(one.dataset.number), one.dataset.kind, one.textContent.replace(/\\s+/g, ' ')]).reverse()"""


def already(*texts):
    """What the page is answered where it asks: a tie is open already."""
    return ["send"] if any(text.startswith("OPEN TIE") for text in texts) else []


class Clerk(Hand):
    """`one_row`: the desk has one row for the three commands of a step."""

    def __init__(self, browser, machine, pictures, login, one_row):
        super().__init__(browser, machine, pictures)
        self.login, self.one_row = login, one_row
        self.operator, self.field, self.holder = machine.logins[login]
        self.since, self.unlogged = 0, set()

    def log_in(self, machine, page):
        """Opens the page of a machine; of the journal there, only what comes from now on is this page's."""
        self.desk, self.since, self.unlogged = machine, len(machine.entries()), set()
        self.browser.go(f"http://{self.login}:{self.login}@{machine.address[7:]}board")
        self.open(page)
        self.speak(self.operator)
        if self.one_row:
            self.browser.click("#several")

    def replies(self):
        """Those that the page has, the oldest first: number, kind and text."""
        return self.browser.script(REPLIES)

    def at(self, clearance, name):
        if self.browser.script("return location.hash") != f"#/clearance/{clearance}":
            self.turn(f"clearance/{clearance}")
        self.speak(name)

    def ask_for(self, section):
        self.speak(self.holder)
        self.turn("request")
        self.write("section", section)
        self.carry_out("request", f"{self.holder}/1")

    def order(self, cut):
        clearance = f"{self.holder}/1"
        self.at(clearance, self.operator)
        self.pick(*cut)
        self.carry_out("order", f"order {clearance}", answers=already(*needed(cut)))

    def choose_names(self):
        """Who gives the steps of this record in the one row, and who hears and reports them."""
        for part, name in (("giver", self.operator), ("hearer", self.field)):
            self.browser.settled(f'main [data-name="{part}"]')
            self.browser.click(f'main [data-name="{part}"] option[value="{name}"]')

    def instruct(self, clearance, number, text):
        self.at(clearance, self.operator)
        self.carry_out("instruct", f"instruct step {number} of {clearance}", answers=already(text))
        self.shows(text, "main .read-out")

    def step(self, clearance, number, text):
        self.instruct(clearance, number, text)
        self.heard(text)

    def heard(self, text):
        """The step that is out is repeated and reported."""
        if not self.one_row:
            self.press(f"as {self.field}")
        self.repeat(ALL + text)
        self.carry_out("done", "done")

    def steps(self, clearance, texts, first=1):
        self.at(clearance, self.operator)
        if self.one_row:
            self.choose_names()
        for number, text in enumerate(texts, first):
            self.step(clearance, number, text)

    def isolate(self, section, cut):
        """From the request to the grant."""
        clearance = f"{self.holder}/1"
        self.ask_for(section)
        self.order(cut)
        self.steps(clearance, needed(cut))
        self.at(clearance, self.operator)
        self.carry_out("grant", f"grant {clearance}", answers=["yes"])

    def work(self, section, crew):
        self.at(f"{self.holder}/1", self.holder)
        self.refused(f"ground {section}", "NOT_TESTED")
        for act, words in ((f"dead {section}", "dead"), (f"ground {section}", "ground")):
            self.carry_out(act, words)
        self.write("crew", crew + ENTER)
        self.reply("accepted", f"sign crew {crew} on")

    def release(self, *acts):
        """What is still on is taken off, and the section is given back."""
        self.at(f"{self.holder}/1", self.holder)
        for act, words in acts:
            self.carry_out(act, words, answers=["yes"])
        self.carry_out("release", "Released", answers=["yes", "yes"])

    def restore(self, cut, ends):
        """The order that restores; its steps."""
        clearance = f"{self.holder}/1"
        self.at(clearance, self.operator)
        for point, end in zip(cut, ends):
            self.press(f"{end} {point}")
        self.carry_out("restore", "Restoring")
        return undoing(cut, ends)

    def unanswered(self, name, *answers):
        """A press while there is no register: the proxy says so."""
        self.consent(name, (), answers)
        self.reply("lost", "No reply came")

    def press_until_refused(self, name):
        """A press again and again: what a full disk has left may be enough for the first ones."""
        for _ in range(20):
            if self.kind_of(name) != "accepted":
                return
        raise Differs(f"{name} is accepted 20 times on a full disk")

    def kind_of(self, name, *answers):
        """Of the reply to a press: accepted, or open or found for 503."""
        self.consent(name, (), answers)
        wait_until(lambda: self.newest()[0] > self.number, f"a reply to {name}")
        self.number, kind, text = self.newest()
        if kind not in ("accepted", "open", "found"):
            raise Differs(f"{name} was to be accepted or answered with 503, and is {kind}: {text}")
        return kind
