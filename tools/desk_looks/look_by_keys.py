"""Every act of the page by the keys alone: no pointer is used, and no script presses anything."""

from desk_looks.browser import ENTER, TAB, Differs, free_ports, say, wait_until
from desk_looks.desk import Desk
from desk_looks.network import needed, steps, write_files

SPACE, ESCAPE, DOWN, UP, LEFT, RIGHT, HOME = " ", "\ue00c", "\ue015", "\ue013", "\ue012", "\ue014", "\ue011"
MOST = 400  # Tabs to anything
CUT = ["N11-Q33", "TIE3-N11-N12"]
# What has the focus in the diagram, and how far from it another one is.
PLACES = """
const from = document.activeElement, to = document.querySelector('.net [data-name="' + arguments[0] + '"]');
const middle = (node) => { const box = (node.querySelector('.box') ?? node).getBoundingClientRect(); return [box.x + box.width / 2, box.y + box.height / 2] };
const [x, y] = middle(from), [X, Y] = middle(to);
return [from.dataset.name, X - x, Y - y];
"""
AT = "return document.activeElement?.matches(arguments[0]) === true"


class Keys:
    """A hand that has the keys alone; it counts them."""

    def __init__(self, hand):
        self.hand, self.browser, self.count, self.acts = hand, hand.browser, 0, 0

    def type(self, text):
        self.count += len(text)
        self.browser.keys(text)

    def is_at(self, css):
        return self.browser.script(AT, css)

    def to(self, css):
        """Tab, as often as is needed; from the end of the page it goes on at the top."""
        self.browser.settled(css)
        for _ in range(MOST):
            if self.is_at(css):
                return
            self.type(TAB)
        raise Differs(f"{MOST} times Tab do not lead to {css}")

    def press(self, css, key=ENTER):
        self.to(css)
        self.browser.settled(css)
        self.type(key)
        self.acts += 1

    def act(self, name, key=ENTER):
        self.press(f'main [data-name="{name}"]', key)

    def choose(self, css, value):
        """In a list of names its first letters choose."""
        self.to(css)
        self.type(value)
        wait_until(lambda: self.browser.script("return document.querySelector(arguments[0]).value", css) == value, f"{value} to be chosen")
        self.acts += 1

    def speak(self, name):
        self.choose("#caller", name)

    def speak_as(self, name):
        """By the button, or by the list of names where there are many."""
        button = f'main [data-name="as {name}"]'
        wait_until(lambda: self.hand.there(button) or self.hand.there('main [data-name="as"]'), f"the offer to speak as {name}")
        if self.hand.there(button):
            self.press(button)
        else:
            self.choose('main [data-name="as"]', name)
            self.act("speak")
        wait_until(lambda: self.browser.script("return document.getElementById('caller').value") == name, f"speaking as {name}")

    def page(self, name):
        self.press(f'nav a[href="#/{name}"]')

    def write(self, name, text):
        self.to(f'main [data-name="{name}"]')
        self.type(text)

    def answer(self, value):
        """The last answer has the focus, which does nothing; Tab leads to the others."""
        asked = self.hand.text("dialog h2")
        self.press(f'dialog [data-answer="{value}"]')
        wait_until(lambda: self.hand.text("dialog h2") != asked, "the end of the question")
        if self.browser.script("return document.activeElement === document.body"):
            raise Differs("after the question nothing has the focus")

    def accepted(self, *texts):
        self.hand.reply("accepted", *texts)

    def on_diagram(self, name):
        """Tab into the diagram, arrows from one to the next, first those in the direction of the one that is wanted; Space picks."""
        self.to(".net [data-kind][tabindex='0']")
        leads, been = {}, {}  # by place and key: where it led; how often they were there
        for _ in range(MOST):
            here, left, down = self.browser.script(PLACES, name)
            if here == name:
                self.type(SPACE)
                self.acts += 1
                return
            been[here] = been.get(here, 0) + 1
            ways = sorted([(abs(left), RIGHT if left > 0 else LEFT), (abs(down), DOWN if down > 0 else UP), (0, LEFT if left > 0 else RIGHT), (-1, UP if down > 0 else DOWN)], reverse=True)
            new = [key for _, key in ways if (here, key) not in leads]
            key = new[0] if new else min((key for _, key in ways), key=lambda one: been.get(leads[here, one], 0))
            self.type(key)
            leads[here, key] = self.browser.script("return document.activeElement.dataset.name")
        raise Differs(f"the arrows do not lead to {name} on the diagram")

    def find(self, name):
        """By its name: Tab then leads to it in the diagram."""
        self.to("main .tools input")
        self.type(name + ENTER)
        self.to(f'.net [data-name="{name}"]')
        self.type(SPACE)
        self.acts += 1


def request_and_order(keys):
    say("a request, and an isolating order: points by the list and on the diagram")
    keys.speak("JONES")
    keys.page("request")
    keys.write("section", "N11-F33" + ENTER)
    keys.accepted("JONES/1")
    keys.speak_as("DISP1")
    keys.write("filter", "N11-Q33")
    keys.act("pick N11-Q33", SPACE)
    keys.hand.shows("OPEN N11-Q33", "main .steplist")
    keys.on_diagram("TIE3-N11-N12")
    keys.hand.shows("OPEN TIE3-N11-N12", "main .steplist")
    keys.act("by-point")
    keys.act("by-action")
    keys.act("down OPEN N11-Q33")
    keys.act("up OPEN N11-Q33")
    keys.act("order")
    keys.answer("send")  # the tie is open already
    keys.accepted("order JONES/1")


def one_step(keys):
    say("a step that is given, repeated, not done, and again; then in one row")
    keys.act("instruct")
    keys.accepted("instruct step 1")
    keys.speak_as("REED")
    keys.write("repeat-text", "open n11-q3" + ENTER)
    keys.hand.shows("The repeat differs", "dialog")
    keys.type(ESCAPE)
    keys.write("repeat-text", "3" + ENTER)
    keys.accepted("repeat")
    keys.act("not-done")
    keys.accepted("not done")
    keys.speak("DISP1")
    keys.press("#several", SPACE)
    keys.act("instruct")
    keys.accepted("instruct step 1")
    keys.choose('main [data-name="hearer"]', "REED")
    keys.write("repeat-text", "open n11-q33" + ENTER)
    keys.accepted("repeat")
    keys.act("done")
    keys.answer("yes")  # it makes N11-F33 dead
    keys.accepted("done")
    keys.press("#several", SPACE)


def grant_and_work(keys):
    say("the grant, tests, a ground, crews, a transfer and one in an emergency")
    for command in steps("JONES/1", needed(CUT)[1:], 2):
        keys.hand.post(command)
    keys.act("grant")
    keys.answer("yes")
    keys.accepted("grant JONES/1")
    keys.speak_as("JONES")
    keys.act("dead N11-F33")
    keys.accepted("dead")
    keys.act("ground N11-F33")
    keys.accepted("ground")
    keys.write("crew", "c1" + ENTER)
    keys.accepted("sign crew C1 on")
    keys.act("live N11-F33")
    keys.answer("yes")
    keys.accepted("live")
    keys.act("dead N11-F33")
    keys.answer("yes")  # it ends an alarm
    keys.accepted("dead")
    keys.choose('main [data-name="to false"]', "KIM")
    keys.act("transfer false")
    keys.answer("yes")
    keys.accepted("holder KIM")
    keys.speak("BOSS")
    keys.choose('main [data-name="to true"]', "JONES")
    keys.write("reason", "KIM is ill")
    keys.act("transfer true")
    keys.answer("yes")
    keys.accepted("holder JONES")
    keys.speak("JONES")


def give_back(keys):
    say("crew and ground off, the release with its two questions, the restoring order, and amend")
    keys.act("off C1")
    keys.answer("yes")
    keys.accepted("sign crew C1 off")
    keys.act("ground N11-F33")
    keys.answer("yes")
    keys.accepted("ground off")
    keys.act("release")
    keys.answer("yes")
    keys.answer("yes")
    keys.accepted("Released")
    keys.speak_as("DISP1")
    keys.act("CLOSE N11-Q33", SPACE)
    keys.to('main [name="end-TIE3-N11-N12"]')
    for _ in range(2):
        if not keys.browser.script("return document.querySelector('main [data-name=\"LEAVE TIE3-N11-N12\"]').checked"):
            keys.type(DOWN)
    keys.act("restore")
    keys.accepted("Restoring")
    keys.act("amend 3")
    keys.answer("yes")
    keys.accepted("amend")
    keys.press("main summary[data-name='way-back']")
    keys.hand.shows("DISP1: instruct step", "main .way-back-place")


def switch_order(keys):
    say("a switch order: steps moved and taken out, a standard order kept and taken, cancelled")
    keys.page("switch")
    for point in ("N14-Q21", "N14-Q22"):
        keys.to('main [data-name="filter"]')
        keys.browser.chord("\ue009", "a")
        keys.type(point)
        keys.act(f"pick {point}", SPACE)
        keys.act(f"OPEN {point}")
    keys.act("down OPEN N14-Q21")
    keys.act("out OPEN N14-Q21")
    keys.press("main details.standard summary")
    keys.write("standard-name", "one")
    keys.act("keep")
    keys.hand.shows("is kept in this browser")
    keys.choose('main [data-name="standard"]', "one")
    keys.act("take")
    keys.act("switch")
    keys.accepted("DISP1/1")
    keys.act("cancel")
    keys.answer("yes")
    keys.accepted("Closed")


def jumper(keys):
    say("a jumper: its ends on the diagram, its marks, the question, the order that lays it")
    keys.page("jumper")
    keys.write("point", "j1")
    keys.find("N12-F23")
    keys.on_diagram("N13-F23")
    for part, wanted in (("from", "N12-F23"), ("to", "N13-F23")):
        found = keys.browser.script("return document.querySelector('main [data-name=\"' + arguments[0] + '\"]').value", part)
        if found != wanted:
            raise Differs(f"the end that was picked by keys is {found}, not {wanted}")
    keys.act("lockable", SPACE)
    keys.act("jumper")
    keys.hand.shows("No command takes it out", "dialog")
    keys.answer("yes")
    keys.accepted("J1 is in the register")
    keys.act("write CLOSE J1")
    keys.hand.shows("CLOSE J1", "main .steplist")


def elsewhere(keys):
    say("the other pages: the diagram, points, my clearances, the log, a hand-over, another moment")
    keys.page("diagram")
    keys.write("fence", "KIM")
    keys.to("main .net")
    for sign in ("+", "-", "0", UP, DOWN, LEFT, RIGHT):
        keys.type(sign)
    keys.to("main .tools input")
    keys.type("N14-Q21" + ENTER)
    keys.hand.shows("ringed", "main .tools")
    keys.page("points")
    keys.write("filter", "N14-Q21")
    keys.hand.shows("1 of 1 points")
    keys.press("main .kinds input[type=radio]:checked", DOWN)
    keys.page("mine")
    keys.choose('main [data-name="whose"]', "JONES")
    keys.hand.shows("JONES/1")
    keys.page("log")
    keys.write("point", "N11-Q33")
    keys.hand.shows("entries found")
    keys.page("shift")
    keys.choose('main [data-name="leaves"]', "DISP1")
    keys.choose('main [data-name="comes"]', "DISP3")
    keys.write("notes", "the key is at the gate")
    keys.hand.shows("Leaves: DISP1. Comes: DISP3.", "main .paper")
    keys.press("#moment-set")
    if not keys.is_at("#moment"):
        raise Differs("the moment does not take the focus")
    keys.press("#moment-now")
    keys.page("board")


PARTS = (request_and_order, one_step, grant_and_work, give_back, switch_order, jumper, elsewhere)


def by_keys(stage):
    desk = Desk(stage.work, "desk", write_files(stage.work), free_ports(2), ["--journal", f"{stage.work}/journal"])
    keys = Keys(stage.begin(desk))
    for part in PARTS:
        part(keys)
        stage.complain()
    say(f"  {keys.acts} acts with {keys.count} keys")


LOOKS = {"by keys": by_keys}
