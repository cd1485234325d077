"""A shift of two operators, two holders and a field employee through three windows, with a jumper; the register is killed in
the middle, and nginx is ended; at the end the register is what its journal says."""

import os
import signal

from desk_looks.browser import Differs, free_ports, say, wait_until
from desk_looks.desk import Desk, gridclear, same_as_run, verified
from desk_looks.look_register import compare
from desk_looks.network import needed, undoing, write_files

JONES, KIM = ("JONES", "N11-F33", ["N11-Q33", "TIE3-N11-N12"]), ("KIM", "N16-F33", ["N16-Q33", "TIE3-N15-N16"])


def already(*texts):
    """What the page is answered where it asks: a tie is open already."""
    return ["send"] if any(text.startswith("OPEN TIE") for text in texts) else []


class Shift:
    """Three windows: the operators', the field employee's, the holders'."""

    def __init__(self, stage):
        self.journal = os.path.join(stage.work, "journal")
        self.desk = Desk(stage.work, "desk", write_files(stage.work), free_ports(2), ["--journal", self.journal, "--deadline", "10"])
        self.room = stage.begin(self.desk)
        self.field, self.line = stage.window(), stage.window()
        self.field.speak("REED")

    def hands(self):
        return self.room, self.field, self.line

    def step(self, clearance, number, text, operator):
        """Given by the operator, repeated and reported by the field employee, each at their own window."""
        for hand in (self.room, self.field):
            if hand.browser.script("return location.hash") != f"#/clearance/{clearance}":
                hand.turn(f"clearance/{clearance}")
        self.room.speak(operator)
        self.room.carry_out("instruct", f"instruct step {number} of {clearance}", answers=already(text))
        self.room.shows(text, "main .read-out")
        self.room.rest()
        self.field.repeat(text)
        self.field.carry_out("done", "done")
        self.field.rest()

    def steps(self, clearance, texts, operator):
        for number, text in enumerate(texts, 1):
            self.step(clearance, number, text, operator)

    def isolate(self, name, section, cut, operator):
        clearance = f"{name}/1"
        self.line.speak(name)
        self.line.turn("request")
        self.line.write("section", section)
        self.line.carry_out("request", clearance)
        self.room.speak(operator)
        self.room.turn(f"clearance/{clearance}")
        self.room.pick(*cut)
        self.room.carry_out("order", f"order {clearance}", answers=already(*needed(cut)))
        self.steps(clearance, needed(cut), operator)
        self.room.carry_out("grant", f"grant {clearance}", answers=["yes"])

    def work(self, name, section):
        hand = self.line
        hand.speak(name)
        hand.turn(f"clearance/{name}/1")
        for act, words in ((f"dead {section}", "dead"), (f"ground {section}", "ground")):
            hand.carry_out(act, words)
        hand.write("crew", f"C-{name}\ue007")  # a crew that is on under another clearance is asked about
        hand.reply("accepted", f"sign crew C-{name} on")

    def give_back(self, name, section, cut, operator):
        hand, clearance, ends = self.line, f"{name}/1", ["CLOSE", "LEAVE"]
        hand.speak(name)
        hand.turn(f"clearance/{clearance}")
        for act, words in ((f"off C-{name}", f"sign crew C-{name} off"), (f"ground {section}", "take the ground off")):
            hand.carry_out(act, words, answers=["yes"])
        hand.carry_out("release", "Released", answers=["yes", "yes"])
        self.room.speak(operator)
        self.room.turn(f"clearance/{clearance}")
        for point, end in zip(cut, ends):
            self.room.press(f"{end} {point}")
        self.room.carry_out("restore", "Restoring")
        self.steps(clearance, undoing(cut, ends), operator)

    def lay_jumper(self):
        self.room.speak("DISP2")
        self.room.turn("jumper")
        for part, text in (("point", "J1"), ("from", "N12-F23"), ("to", "PUMP")):
            self.room.write(part, text)
        self.room.carry_out("jumper", "J1 is in the register", answers=["yes"])
        self.room.press("write CLOSE J1")
        self.room.carry_out("switch", "DISP2/1")
        self.steps("DISP2/1", ["CLOSE J1"], "DISP2")

    def kill_register(self):
        os.kill(self.desk.register(), signal.SIGKILL)
        self.all_show("does not answer since")
        self.all_show("The register answers")

    def end_nginx(self):
        with open(os.path.join(self.desk.run_folder(), "desk", "run", "nginx.pid"), encoding="utf-8") as file:
            os.kill(int(file.read()), signal.SIGTERM)  # its worker would serve on after a SIGKILL
        self.desk.process.wait(30)
        self.desk.start()
        self.all_show("The register answers")

    def all_show(self, text):
        for hand in self.hands():
            hand.shows(text, "#contact")


def shift(stage):
    day = Shift(stage)
    say("two clearances isolated and granted, by two operators")
    day.isolate(*JONES, "DISP1")
    day.work(*JONES[:2])
    day.isolate(*KIM, "DISP2")
    say("the register killed; a jumper laid; nginx ended")
    day.kill_register()
    day.lay_jumper()
    day.end_nginx()
    day.work(*KIM[:2])
    say("both given back and restored")
    day.give_back(*KIM, "DISP1")
    day.give_back(*JONES, "DISP2")
    fresh(stage, day)


def fresh(stage, day):
    """What a fresh browser draws, what the log has, and what the journal says."""
    hand = day.line
    hand.browser.script("localStorage.clear(); sessionStorage.clear()")
    hand.open("diagram")
    wait_until(lambda: not hand.browser.script("return document.getElementById('caller').value"), "a browser without a name")
    compare(hand, day.desk.base)
    hand.turn("log")
    hand.shows("The whole journal was read")
    stage.complain()
    day.desk.stop()
    lines, sent = gridclear("journal", day.journal, "--commands").splitlines(), day.desk.sent()
    if len(lines) != len(sent):
        raise Differs(f"the journal has {len(lines)} commands that were accepted, and {len(sent)} were sent")
    same_as_run(day.desk, stage.work, lines, {"clearance": 3, "step": 25})
    verified(day.desk, day.journal, len(lines))


LOOKS = {"shift": shift}
