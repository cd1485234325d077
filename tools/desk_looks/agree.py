"""What two desks show, beside the register: the board, the diagram, the log and the replies. What differs is named."""

import datetime
import re
from concurrent.futures import ThreadPoolExecutor

from desk_looks.browser import Differs, say, wait_until
from desk_looks.look_log import ROWS
from desk_looks.look_register import drawn

STATES = {"Waiting": "waiting", "Instructed": "given out, not yet repeated", "Repeated": "repeated, not yet reported"}
UNLOGGED = "It has no line of this desk's command."
BOARD = """const text = (node) => node.innerText.replace(/\\s+/g, ' ').trim();
    return [...document.querySelectorAll('main .board .sheet tbody tr')].map((row) => [[...row.cells].map(text), row.querySelector('td.moment')?.title ?? null])"""
PLACES = """return Object.fromEntries([...document.querySelectorAll('main .net [data-kind]')].map((node) =>
    [node.dataset.kind + ' ' + node.dataset.name, node.getAttribute('transform')]))"""
PRINTED = re.compile(r"(\d+)  (-|\S+ \S+ \S+)  (\S+)  (\S+(?: \(\S+\))?)  (.*)  (accepted|added|refused \S+)")
SAID = {
    "request": "request section {section}", "order": "order {clearance}: points ", "restore": "restore {clearance}: ", "switch": "switch order: ",
    "instruct": "instruct step {step} of {clearance}", "repeat": "repeat step {step} of {clearance}: “{text}”", "report": "report step {step} of {clearance} ",
    "grant": "grant {clearance}", "test": "test {section} under {clearance}: ", "ground": "ground {section} under {clearance}",
    "unground": "take the ground off {section} under {clearance}", "sign_on": "sign crew {crew} on to {clearance}",
    "sign_off": "sign crew {crew} off from {clearance}", "release": "release {clearance}", "jumper": "add jumper {point} between {from} and {to}",
}


def seconds(text):
    return datetime.datetime.strptime(text, "%Y-%m-%d %H:%M:%S %z").timestamp()


def at_once(act, *values):
    """The act for each value, at the same time; what they give."""
    with ThreadPoolExecutor(len(values)) as pool:
        return list(pool.map(act, values))


class Facts:
    """What the register and its journal have now."""

    def __init__(self, machine):
        self.board = machine.ask("board").splitlines()[1:]
        self.network = machine.network()
        self.entries, self.log = machine.entries(), machine.printed()
        self.views = {line[:29].strip(): machine.view(line[:29].strip()) for line in self.board if not line.startswith("JUMPER ")}
        self.alone = {one["employee"] for one in self.network["staff"] if not one["supervisor"]}

    def board_rows(self):
        """Each row as the page has it: its cells, and its moment."""
        return [self.jumper_row(line) if line.startswith("JUMPER ") else self.record_row(line) for line in self.board]

    @staticmethod
    def jumper_row(line):
        return [*line.split()[1:]], None

    def record_row(self, line):
        clearance, work, holder = line[:29].strip(), line[40:64].strip(), line[92:].strip()
        view = self.views[clearance]
        cells = [clearance, line[30:39].strip(), "switch order" if work == "-" else work, steps_words(view), work_words(view),
                 f"{holder} no supervisor" if work != "-" and holder in self.alone else holder]
        return cells, seconds(line[65:91])

    def log_rows(self):
        """Each line of the journal as the page has it, the newest first."""
        found = [PRINTED.fullmatch(line) for line in reversed(self.log)]
        if None in found:
            raise Differs(f"the journal is printed with a line that this look does not know: {self.log[-1 - found.index(None)]}")
        return [self.log_row(*one.groups()) for one in found]

    def log_row(self, number, moment, clearance, who, what, reply):
        entry = self.entries[int(number) - 1]
        at = entry["received"] if moment == "-" else seconds(moment)
        if entry["reply"]["reply"] == "added":
            reply = "added"  # which the program prints as accepted
        return [number, at, clearance.replace("-", "–") if clearance == "-" else clearance, who.replace("(", "(login "), what, reply.replace("refused ", "refused: ")]


def steps_words(view):
    card = view["card"]
    if not card["steps"]:
        return "no steps"
    step = next(((number, one) for number, one in enumerate(view["steps"], 1) if one["state"] != "Done"), None)
    return f"{card['done']} of {card['steps']} done" + (f"; {step[0]} {step[1]['text']} {STATES[step[1]['state']]}" if step else "")


def work_words(view):
    own = [hold for hold in view["holds"] if hold["by"] == view["card"]["clearance"]]
    places = {kind: [hold["place"] for hold in own if hold["kind"] == kind] for kind in ("Ground", "Tested")}
    return sorted([f"{place} grounded" for place in places["Ground"]] + [f"{place} tested dead" for place in places["Tested"] if place not in places["Ground"]]
                  + ([f"crews {', '.join(view['crews'])}"] if view["crews"] else []))


def shown_row(cells, moment):
    """A row of the page's board in the form of the register's: what it reckons itself is left out."""
    if moment is None:
        return cells, None
    steps = re.sub(r" out (?:\d|<|less).*$", "", cells[3])
    work = [part.strip() for part in re.sub(r" \((?:\d+ h )?\d+ (?:min|days)\)", "", cells[4]).split("; ")]
    return [*cells[:2], cells[2].removesuffix(" fence hatched"), steps, sorted(part for part in work if part and not part.endswith("not tested")), cells[5]], seconds(moment)


def differing(shown, wanted):
    """The first that is not so."""
    for one, other in zip(shown, wanted):
        if one != other:
            return f"{one} for {other}"
    return "nothing more" if len(shown) == len(wanted) else f"{len(shown)} rows for {len(wanted)}: {(shown + wanted)[min(len(shown), len(wanted)):][:1]}"


def waited(where, hand, what, look, wanted):
    """Waits until the page shows it; then what it shows instead is named."""
    try:
        wait_until(lambda: look() == wanted, what)
    except Differs:
        shown = look()
        found = differing(sorted(shown.items()), sorted(wanted.items())) if isinstance(wanted, dict) else differing(shown, wanted)
        raise Differs(f"{where}, at the desk of {hand.login}: {what} shows {found}") from None


def board(where, facts, hand):
    hand.turn("board")
    waited(where, hand, "the board", lambda: [shown_row(*row) for row in hand.browser.script(BOARD)], [(list(cells), moment) for cells, moment in facts.board_rows()])


def diagram(where, facts, hand):
    hand.turn("diagram")
    points = {one["point"]: one["position"] for one in facts.network["points"]}
    sections = {one["section"]: "fed" if one["live"] else "dead" for one in facts.network["sections"]}
    waited(where, hand, "the diagram", lambda: drawn(hand, "point", "open", "closed"), points)
    waited(where, hand, "the diagram", lambda: drawn(hand, "section", "fed", "dead"), sections)
    return hand.browser.script(PLACES)


def shown_log(hand):
    rows = [[cell.split("\n")[0] if place == 1 else cell for place, cell in enumerate(row)] for row in hand.browser.script(ROWS)]
    return [[row[0], seconds(row[1][:26]), *row[2:5], row[5].split(";")[0]] for row in rows]


def log(where, facts, hand):
    wanted = facts.log_rows()
    hand.turn("log")
    waited(where, hand, "the log", lambda: shown_log(hand), wanted)
    hand.shows(f"{len(wanted)} of {len(wanted)} entries found, the newest first. The whole journal was read.")


def replied(entry):
    """What a reply of the page says of this line of the journal."""
    reply = entry["reply"]
    if reply["reply"] == "refused":
        return f"{reply['refusal']}, number {reply['number']}"
    if reply["reply"] == "added":
        return f"Jumper {reply['point']} is in the register, open."
    card = reply["card"]
    steps = f", {card['done']} of {card['steps']} steps done" if card["steps"] else ""
    return f"{card['clearance']} is {card['phase']}{steps}; holder {card['holder']}"


def same_reply(kind, text, entry):
    command = entry["command"]
    said = f"{command['by']}: {SAID[command['do']].format(**command)}"
    if kind in ("open", "found"):
        return said in text and "was accepted" in text
    return said in text and replied(entry) in text and kind == ("refused" if entry["reply"]["reply"] == "refused" else "accepted")


def replies(where, facts, hand):
    """Each reply that the page has is that of a line of the journal, and it has had one for each."""
    shown = hand.replies()
    hand.unlogged |= {number for number, _, text in shown if UNLOGGED in text}
    lines = [one for one in facts.entries[hand.since:] if one["login"] == hand.login and one["command"]["do"] != "show"]
    count = max([number for number, _, _ in shown], default=0) - len(hand.unlogged)
    if count != len(lines):
        raise Differs(f"{where}, at the desk of {hand.login}: {count} replies, and the journal has {len(lines)} lines of it")
    own = [one for one in shown if one[0] not in hand.unlogged]
    for (number, kind, text), entry in zip(reversed(own), reversed(lines)):
        if not same_reply(kind, text, entry):
            raise Differs(f"{where}, at the desk of {hand.login}: reply {number} is {kind}: {text}, and the journal has {entry}")


def agree(where, machine, hands):
    """Both pages show what the register has, in the same places."""
    facts = Facts(machine)

    def look(hand):
        hand.rest()
        hand.shows("The register answers", "#contact")
        replies(where, facts, hand)
        board(where, facts, hand)
        log(where, facts, hand)
        return diagram(where, facts, hand)

    drawings = at_once(look, *hands)
    for one in drawings[1:]:
        if one != drawings[0]:
            raise Differs(f"{where}: the two desks draw in other places: {differing(sorted(drawings[0].items()), sorted(one.items()))}")
    say(f"  {where}: {len(facts.entries)} lines, {len(facts.board)} rows of the board, {len(facts.network['points'])} points: both desks agree with the register")
