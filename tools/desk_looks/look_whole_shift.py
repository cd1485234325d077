"""A whole shift of two desks, each with a login, on a machine as the guide installs it: a full disk, a rotation, a jumper, a
damaged register that is restored, and a standby that takes over. At each place both pages are compared with the register:
the replies, the board, the diagram and the log."""

import pathlib
import re

from desk_looks.agree import agree, at_once
from desk_looks.browser import Differs, say
from desk_looks.clerk import Clerk
from desk_looks.machine import Machine
from desk_looks.network import undoing, write_files
from guide_place import Stuck

LOGINS = {"ANNA": ("DISP1", "REED", "JONES"), "BERT": ("DISP2", "DALE", "KIM")}
OF_ANNA = ("N11-F33", ["N11-Q33", "TIE3-N11-N12"], ["CLOSE", "LEAVE"])
OF_BERT = ("N16-F33", ["N16-Q33", "TIE3-N15-N16"], ["CLOSE", "LEAVE"])


class Shift:
    """Two machines, of which the second is the standby, and a desk for each login."""

    def __init__(self, stage, first, second):
        self.first, self.second = first, second
        self.first.begin()
        self.anna, self.bert = (Clerk(stage.windows.get(place), self.first, stage.pictures, login, place == 1) for place, login in enumerate(LOGINS))
        self.hands = stage.hands = [self.anna, self.bert]
        for hand in self.hands:
            hand.browser.size(0)
            hand.log_in(self.first, "board")
        self.backup = None

    def machine(self):
        return self.anna.desk

    def agree(self, where):
        agree(where, self.machine(), self.hands)

    def both(self, of_anna, of_bert):
        """Each desk's acts, at the same time."""
        at_once(lambda act: act(), of_anna, of_bert)

    def all_show(self, text):
        for hand in self.hands:
            hand.shows(text, "#contact")

    def isolated(self):
        def anna():
            self.anna.isolate(*OF_ANNA[:2])
            self.anna.work(OF_ANNA[0], "C1")
        self.both(anna, lambda: self.bert.isolate(*OF_BERT[:2]))
        self.agree("two clearances are granted")

    def copied(self):
        """A backup while it is served, and the first call of the standby."""
        self.first.guide("copy=copy-")
        self.backup = next(self.first.own.glob("copy-*"))
        self.second.follow(self.first)

    def full_disk(self):
        """A desk is answered 503, and the register ends: its command is in the journal, and is carried out by the next start. The
        other desk's command after that has no line there, and is given again."""
        self.anna.at("JONES/1", "JONES")
        self.bert.at("KIM/1", "KIM")
        for hand in self.hands:
            hand.rest()
        self.first.fill_disk()
        self.bert.press_until_refused(f"dead {OF_BERT[0]}")
        self.first.has_ended()
        self.all_show("does not answer since")
        self.anna.unanswered("off C1", "yes")
        self.anna.shows("C1 is on")
        self.first.free_disk()
        self.first.give("systemctl restart gridclear")
        self.bert.found("was accepted", "So it was carried out.")
        self.anna.found("It has no line of this desk's command", "So far it was not carried out.")
        self.anna.browser.click('#replies [data-name$="Give it again"]')
        self.anna.answer("yes")
        self.anna.reply("accepted", "sign crew C1 off")
        self.agree("after the full disk")

    def rotated(self):
        self.first.rotate()
        self.anna.reload()
        self.agree("after a rotation")

    def jumper(self):
        hand = self.bert
        hand.speak("DISP2")
        hand.turn("jumper")
        for part, text in (("point", "J1"), ("from", "N12-F23"), ("to", "PUMP")):
            hand.write(part, text)
        hand.carry_out("jumper", "J1 is in the register", answers=["yes"])
        hand.press("write CLOSE J1")
        hand.carry_out("switch", "DISP2/1")
        self.agree("a jumper is there")
        hand.steps("DISP2/1", ["CLOSE J1"])
        for one in self.hands:
            one.reload()
        self.agree("the jumper is closed")
        self.second.follow(self.first)

    def restored(self):
        """The register's file is damaged: the backup's is taken, with what the journal has since then."""
        self.first.tear()
        self.all_show("does not answer since")
        printed = self.first.guide("$backup", backup=self.backup)
        if "verified " not in printed:
            raise Differs(f"the lines that restore print {printed}")
        self.all_show("The register answers")
        self.agree("after a restore")

    def given_back(self):
        """Both sections are given back; a second rotation, of which the standby takes the lines."""
        def anna():
            self.anna.release((f"ground {OF_ANNA[0]}", "take the ground off"))
            self.anna.restore(*OF_ANNA[1:])

        def bert():
            self.bert.release()
            self.bert.restore(*OF_BERT[1:])
            self.bert.steps("KIM/1", undoing(*OF_BERT[1:])[:2])
        self.both(anna, bert)
        self.first.rotate()
        self.agree("both are given back")

    def taken_over(self):
        """The first machine is lost with a repeat that the standby has not taken: there the step is out, and is repeated again."""
        text = undoing(*OF_ANNA[1:])[0]
        self.anna.instruct("JONES/1", 1, text)
        self.second.follow(self.first)
        self.anna.press("as REED")
        self.anna.repeat(text)
        count = len(self.first.entries())
        self.first.lose()
        self.all_show("does not answer since")
        if "verified " not in self.second.promote(self.first):
            raise Differs("the standby is promoted without a line of verify")
        last = re.search(r'"number":(\d+)', self.second.give("tail -n 1 journal"))
        if last is None or int(last[1]) != count - 1:
            raise Differs(f"the standby's last line is {last and last[0]}, and the first machine's was {count}")
        for hand in self.hands:
            hand.log_in(self.second, "board")
        self.agree("at the standby")

    def ended(self):
        def anna():
            self.anna.at("JONES/1", "REED")
            self.anna.repeat(undoing(*OF_ANNA[1:])[0])
            self.anna.carry_out("done", "done")
            self.anna.steps("JONES/1", undoing(*OF_ANNA[1:])[1:], 2)
        self.both(anna, lambda: self.bert.steps("KIM/1", undoing(*OF_BERT[1:])[2:], 3))
        self.agree("both are closed")

    def verified(self):
        """Of the standby's register: its journal, all parts of it, gives all of its tables."""
        accepted = [one for one in self.second.entries() if one["reply"]["reply"] in ("accepted", "added")]
        printed = self.second.verified()
        if printed != f"verified {len(accepted)} commands":
            raise Differs(f"verify prints {printed}, and the journal has {len(accepted)} commands")
        say(f"  {printed}")


PARTS = (Shift.isolated, Shift.copied, Shift.full_disk, Shift.rotated, Shift.jumper, Shift.restored, Shift.given_back, Shift.taken_over, Shift.ended, Shift.verified)


def whole_shift(stage):
    work, files = pathlib.Path(stage.work), write_files(stage.work)
    first = stage.desk = Machine(work / "first", files, LOGINS)
    second = Machine(work / "second", files, LOGINS)
    try:
        shift = Shift(stage, first, second)
        for part in PARTS:
            say(part.__name__.replace("_", " "))
            part(shift)
            stage.complain()
    except Stuck as fault:
        raise Differs(str(fault)) from None
    finally:
        second.stop()


LOOKS = {"whole-shift": whole_shift}
