#!/usr/bin/env python3
"""The way back of a clearance, in registers of many states: what `wayback` prints goes into `run --db`.

    tools/try/wayback.py --list    the names of the states
    tools/try/wayback.py STATE..   tries these; all of them without a name

Of each state a register is made by commands, most of them a session's, and each clearance that the state names is given
back in a copy of it. Every reply has to be accepted. Then the record is Closed and off the board, and every point has its
position. The other records are as before, but for steps that were given out at a point of this one. How many commands
there are, and which steps of others wait again, was worked out by the rules. GRIDCLEAR names another program than
tools/gridclear. Prints a line for each state, and ends with status 1 where something differs."""

import concurrent.futures
import contextlib
import json
import os
import pathlib
import shutil
import sqlite3
import subprocess
import sys
import tempfile

TOP = pathlib.Path(__file__).resolve().parent.parent.parent
GRIDCLEAR = os.environ.get("GRIDCLEAR", str(TOP / "tools" / "gridclear"))
SESSIONS = TOP / "examples" / "sessions"
LAST = 4102444799  # the greatest moment
NOWHERE = "fault: clearance NoSuch\n"
NO_WAY = "fault: clearance NoWay\n"
SAID = {"amend", "cancel", "instruct", "release", "repeat", "report", "restore", "sign_off", "unground"}
STAFF = {
    "two": "employee,role,supervisor\nOPS,operator,\nREED,field,\n",
    "three": "employee,role,supervisor\nOPS,operator,\nREED,field,\nJONES,charge,\n",
    "nobody in the field": "employee,role,supervisor\nOPS,operator,\nJONES,charge,\n",
}


class Differs(Exception):
    """What was found is not what has to be."""


def expect(holds, text):
    if not holds:
        raise Differs(text)


def session(name, count):
    """The first commands of a session."""
    lines = (SESSIONS / f"{name}.session").read_text(encoding="utf-8").splitlines()
    commands = [line[2:] for line in lines if line.startswith("> ")]
    expect(len(commands) >= count, f"{name} has {len(commands)} commands")
    return commands[:count]


def command(by, do, clearance=None, at=LAST, **words):
    words |= {"at": at, "by": by, "do": do} | ({"clearance": clearance} if clearance else {})
    return json.dumps(words, sort_keys=True, separators=(",", ":"))


def instruct(clearance, step, at):
    return command("OPS", "instruct", clearance, at, step=step)


def repeat(clearance, step, text, at):
    return command("REED", "repeat", clearance, at, step=step, text=text)


def report(clearance, step, at, done=True):
    return command("REED", "report", clearance, at, step=step, done=done)


def done(clearance, step, text, at):
    return [instruct(clearance, step, at), repeat(clearance, step, text, at), report(clearance, step, at)]


def all_done(clearance, steps, at, first=1):
    return [line for number, text in enumerate(steps, first) for line in done(clearance, number, text, at)]


L2 = {"points": ["S2", "S3"], "steps": ["OPEN S2", "OPEN S3", "BLOCK S2", "BLOCK S3", "TAG S2", "TAG S3"]}
L3 = {"points": ["S3", "S4", "T1"],
      "steps": ["OPEN S3", "BLOCK S3", "TAG S3", "OPEN S4", "BLOCK S4", "CONTROL S4", "TAG S4", "OPEN T1", "TAG T1"]}
BOTH = {"points": ["S1", "S3", "T1"], "steps": ["OPEN S1", "BLOCK S1", "TAG S1", "OPEN S3", "BLOCK S3", "TAG S3", "OPEN T1", "TAG T1"]}
UNDO = ["UNTAG S2", "UNBLOCK S2", "CLOSE S2", "UNTAG S3", "UNBLOCK S3", "CLOSE S3"]


def granted(section, order, at=LAST, by="JONES"):
    """A clearance that is granted, the first of its requester."""
    name = f"{by}/1"
    return [command(by, "request", at=at, section=section), command("OPS", "order", name, at, **order),
            *all_done(name, order["steps"], at), command("OPS", "grant", name, at)]


def restoring(at=LAST):
    """The clearance of L2, released, with its restoring order."""
    return [*granted("L2", L2, at), command("JONES", "release", "JONES/1", at, notified=True, clear=True),
            command("OPS", "restore", "JONES/1", at, steps=UNDO)]


def at_work(section, crew, at=LAST):
    return [command("JONES", "test", "JONES/1", at, section=section, dead=True), command("JONES", "ground", "JONES/1", at, section=section),
            command("JONES", "sign_on", "JONES/1", at, crew=crew)]


KIM_AT_S3 = [command("KIM", "request", at=300, section="L3"), command("OPS", "order", "KIM/1", 300, **L3), instruct("KIM/1", 1, 300)]
OPS_AT_S3 = [command("OPS", "switch", at=300, steps=["OPEN S3", "CLOSE S1"]), instruct("OPS/1", 1, 300)]
JUMPER = '{"by":"OPS","do":"jumper","from":"L1","lockable":true,"point":"J1","remote":false,"to":"L2"}'
OTHER_SWITCH = [command("OPS", "switch", at=105, steps=["OPEN S4"]), instruct("OPS/2", 1, 106)]
GREATEST = {"points": [f"P{n:02}" for n in range(64)], "steps": [f"{do} P{n:02}" for n in range(64) for do in ("OPEN", "BLOCK", "CONTROL", "TAG")]}
GREATEST_FILES = {
    "sections": "section,source\nG,yes\nW,no\n",
    "points": "point,from,to,lockable,remote,position\n" + "".join(f"P{n:02},G,W,yes,yes,closed\n" for n in range(64)),
}

# Of each state: the commands that make it; of each clearance to be given back how many commands do it, or the fault; the
# steps of others that wait again; files other than those of examples/. Three commands run a step, two take back one that is
# given out.
STATES = {
    "requested": (session("first-step", 1), {"JONES/1": 1}, [], {}),
    "ordered": (session("first-step", 2), {"JONES/1": 1}, [], {}),
    "a step given out": (session("opened-again", 3), {"JONES/1": 2 + 1}, [], {}),
    "a step repeated": (session("opened-again", 4), {"JONES/1": 2 + 1}, [], {}),
    "a step done": (session("opened-again", 5), {"JONES/1": 1 + 1 + 3}, [], {}),
    "a step done, and one given out": (session("opened-again", 6), {"JONES/1": 2 + 1 + 1 + 3}, [], {}),
    "granted": (granted("L2", L2, 100), {"JONES/1": 1 + 1 + 6 * 3}, [], {}),
    "a ground and a crew on, and a switch order": (session("held-while-a-crew-works", 26), {"JONES/1": 2 + 2 + 6 * 3, "OPS/1": 1}, [], {}),
    "two grounds and three crews on": (granted("L2", BOTH, 100) + at_work("L2", "C2", 101) + at_work("L1", "C1", 102)
                                       + [command("JONES", "sign_on", "JONES/1", 103, crew="C3")],
                                       {"JONES/1": 3 + 2 + 2 + 8 * 3}, [], {}),
    "released": (restoring(100)[:-1], {"JONES/1": 1 + 6 * 3}, [], {}),
    "restoring": (restoring(100), {"JONES/1": 2 + 6 * 3}, [], {}),
    "a CLOSE that waits": (restoring(100) + all_done("JONES/1", UNDO[:2], 101), {"JONES/1": 2 + 4 * 3}, [], {}),
    "a CLOSE given out": (restoring(100) + all_done("JONES/1", UNDO[:2], 101) + [instruct("JONES/1", 3, 102)], {"JONES/1": 2 + 2 + 4 * 3}, [], {}),
    "a CLOSE repeated": (restoring(100) + all_done("JONES/1", UNDO[:2], 101) + done("JONES/1", 3, "CLOSE S2", 102)[:2],
                         {"JONES/1": 2 + 2 + 4 * 3}, [], {}),
    "an UNTAG given out": (restoring(100) + [instruct("JONES/1", 1, 101)], {"JONES/1": 2 + 2 + 5 * 3}, [], {}),
    "a CLOSE that another holds": (session("two-clearances-side-by-side", 59), {"KIM/1": 2 + 7 * 3, "JONES/1": 2 + 6 * 3}, [], {}),
    "a point in the hand of another clearance": (granted("L2", L2, 200) + KIM_AT_S3, {"JONES/1": 2 + 2 + 6 * 3, "KIM/1": 2 + 1}, [("KIM/1", 1, "JONES/1")], {}),
    "a point in another's hand, and repeated": (granted("L2", L2, 200) + [*KIM_AT_S3, repeat("KIM/1", 1, "OPEN S3", 301)], {"JONES/1": 2 + 2 + 6 * 3, "KIM/1": 2 + 1},
                                                [("KIM/1", 1, "JONES/1")], {}),
    "a point in the hand of a switch order": (granted("L2", L2, 200) + OPS_AT_S3, {"JONES/1": 2 + 2 + 6 * 3, "OPS/1": 2 + 1}, [("OPS/1", 1, "JONES/1")], {}),
    "a point in another's hand, of an order without holds": (session("point-in-hand-of-another", 4) + OTHER_SWITCH, {"JONES/1": 1, "OPS/1": 2 + 1, "OPS/2": 2 + 1}, [], {}),
    "a switch order with a step done": ([command("OPS", "switch", at=5, steps=["OPEN S1", "CLOSE T1"]), *done("OPS/1", 1, "OPEN S1", 6)], {"OPS/1": 1}, [], {}),
    "handed on": (granted("L2", L2, 100) + [command("JONES", "transfer", "JONES/1", 101, to="KIM", emergency=False)], {"JONES/1": 2 + 6 * 3}, [], {}),
    "a jumper within the fence": (granted("L2", BOTH, 100) + [JUMPER], {"JONES/1": 2 + 8 * 3}, [], {}),
    "the last moment, requested": (session("last-moments", 2), {"JONES/1": 1, "KIM/1": 1}, [], {}),
    "the last moment, at work": (granted("L2", L2) + at_work("L2", "C1"), {"JONES/1": 2 + 2 + 6 * 3}, [], {}),
    "the last moment, restoring": (restoring() + all_done("JONES/1", UNDO[:2], LAST) + [instruct("JONES/1", 3, LAST)], {"JONES/1": 2 + 2 + 4 * 3}, [], {}),
    "a staff of an operator and a field employee": (OPS_AT_S3, {"OPS/1": 2 + 1}, [], {"staff": STAFF["two"]}),
    "one operator, one field employee, one in charge": (restoring(100) + all_done("JONES/1", UNDO[:5], 101) + [instruct("JONES/1", 6, 102)],
                                                        {"JONES/1": 2 + 1 + 3}, [], {"staff": STAFF["three"]}),
    "the greatest order": (granted("W", GREATEST, 100), {"JONES/1": 2 + 256 * 3}, [], GREATEST_FILES | {"staff": STAFF["three"]}),
    "nobody in the field, no step given out": (session("first-step", 2) + [command("OPS", "switch", at=5, steps=["OPEN S1"])], {"JONES/1": 1, "OPS/1": 1}, [],
                                               {"staff": STAFF["nobody in the field"]}),
    "nobody in the field, and steps given out": (session("first-step", 2) + [instruct("JONES/1", 1, 102), *OPS_AT_S3], {"JONES/1": NO_WAY, "OPS/1": NO_WAY}, [],
                                                 {"staff": STAFF["nobody in the field"]}),
    "closed": (session("first-step", 2) + [command("JONES", "cancel", "JONES/1", 200), command("OPS", "switch", at=5, steps=["OPEN S1"]), *done("OPS/1", 1, "OPEN S1", 6)],
               {"JONES/1": 0, "OPS/1": 0}, [], {}),
    "no such clearance": (session("first-step", 1), {"JONES/2": NOWHERE, "OPS/1": NOWHERE, "NOBODY/1": NOWHERE, "JONES/01": NOWHERE}, [], {}),
}


def run(*words, stdin=""):
    done = subprocess.run([GRIDCLEAR, *map(str, words)], input=stdin, capture_output=True, text=True, timeout=120, check=False)
    return done.returncode, done.stdout, done.stderr


def accepted(path, text):
    """The commands are all accepted."""
    status, output, errors = run("run", "--db", path, stdin=text)
    expect(status == 0 and not errors, f"run ends with {status}: {errors}")
    replies = output.splitlines()
    expect(len(replies) == len(text.splitlines()), f"{len(replies)} replies to {len(text.splitlines())} commands")
    for line, reply in zip(text.splitlines(), replies):
        expect(json.loads(reply)["reply"] in ("accepted", "added"), f"{line} is answered {reply}")


class Register:
    """The rows of a register, and its board."""

    def __init__(self, path):
        status, self.board, errors = run("board", path)
        expect(status == 0 and not errors, f"board ends with {status}: {errors}")
        copy = shutil.copy(path, path.with_suffix(".seen"))
        with contextlib.closing(sqlite3.connect(copy)) as found:
            def rows(text):
                return found.execute(text).fetchall()
            self.positions = dict(rows("SELECT name, position FROM network_point"))
            self.hands = {name: f"{by}/{number}" for name, by, number in rows("SELECT name, hand_requester, hand_number FROM network_point") if by}
            self.records = {f"{by}/{number}": rest for by, number, *rest in rows("SELECT requester, number, holder, work, phase, last_at FROM clearance")}
            self.steps = {(f"{by}/{number}", turn, place): rest for by, number, turn, place, *rest in
                          rows("SELECT requester, number, round, ordinal, action, point, state, reader FROM step")}
            self.holds = {(kind, place, f"{by}/{number}") for kind, place, by, number in rows("SELECT kind, place, requester, number FROM hold")}

    def points(self, clearance):
        return {point for (name, *_), (_, point, *_) in self.steps.items() if name == clearance}


def without(board, clearance):
    """A board that lacks a record."""
    head, *lines = board.splitlines()
    kept = [line for line in lines if line.split()[0] != clearance]
    return "\n".join([f"BOARD {int(head.split()[1]) - len(lines) + len(kept)}", *kept, ""])


def look_at_commands(text, clearance, before):
    """One command a line, its keys in the order of their bytes; each at the last moment of the record that it is about."""
    for line in text.splitlines():
        found = json.loads(line)
        expect(line == json.dumps(found, sort_keys=True, separators=(",", ":")), f"{line} is not written as a command is")
        expect(found["do"] in SAID, f"{line} is no such command")
        expect(found["at"] == before.records[found["clearance"]][-1], f"{line} is not at the last moment of {found['clearance']}")
        if found["clearance"] != clearance:
            expect(found["do"] in ("repeat", "report") and not found.get("done"), f"{line} is about another")
        for step in found.get("steps", []):
            expect(step.split()[0] not in ("OPEN", "CLOSE"), f"{line} has {step}")


def look_after(before, after, clearance, waiting):
    """The record is over, and all else is as it was, but for these steps, which wait again."""
    expect(after.records[clearance] == [*before.records[clearance][:2], "Closed", before.records[clearance][3]], f"the record is {after.records[clearance]}")
    expect(after.board == without(before.board, clearance), f"the board is {after.board}")
    expect(after.positions == before.positions, f"positions changed: {set(after.positions.items()) ^ set(before.positions.items())}")
    others = [{name: row for name, row in one.records.items() if name != clearance} for one in (before, after)]
    expect(others[0] == others[1], f"other records changed: {others}")
    expect(after.holds == {hold for hold in before.holds if hold[2] != clearance}, f"the holds are {after.holds}")
    again = {key for key in before.steps if key[0] != clearance and after.steps[key] != before.steps[key]}
    expect({(name, place) for name, _, place in again} == set(waiting), f"steps of others changed: {again}")
    for key in again:
        action, point, state, _ = before.steps[key]
        expect(state in ("Instructed", "Repeated") and point in before.points(clearance), f"{key} was not given out at a point of {clearance}")
        expect(after.steps[key] == [action, point, "Waiting", None], f"{key} is {after.steps[key]}")
    freed = {before.steps[key][1] for key in again}
    expect(after.hands == {point: by for point, by in before.hands.items() if by != clearance and point not in freed}, f"the hands are {after.hands}")


def give_back(room, path, clearance, wanted, waiting):
    """In a copy of a register one of its clearances is given back, or is not."""
    shutil.copy(room, path)
    before, database = Register(path), path.read_bytes()
    status, output, errors = run("wayback", path, clearance)
    if isinstance(wanted, str):
        expect((status, output, errors) == (1, "", wanted), f"it ends with {status}, {output}{errors}")
    else:
        expect((status, errors) == (0, ""), f"it ends with {status}: {errors}")
        expect(output.count("\n") == wanted == len(output.splitlines()), f"{output.count(chr(10))} commands and not {wanted}: {output[:300]}")
    expect(path.read_bytes() == database and vars(Register(path)) == vars(before), "asking changed the register")
    if isinstance(wanted, str) or not wanted:
        return
    look_at_commands(output, clearance, before)
    accepted(path, output)
    look_after(before, Register(path), clearance, waiting)
    expect(run("wayback", path, clearance) == (0, "", ""), "a way back of what is closed")


def files_of(others, folder):
    found = []
    for name in ("sections", "points", "staff"):
        file = TOP / "examples" / f"{name}.csv"
        if name in others:
            file = folder / f"{name}.csv"
            file.write_text(others[name], encoding="utf-8")
        found.append(file)
    return found


def try_state(name):
    commands, clearances, waiting, others = STATES[name]
    with tempfile.TemporaryDirectory(prefix="wayback-") as place:
        folder = pathlib.Path(place)
        status, _, errors = run("init", *files_of(others, folder), "--db", folder / "room.db")
        expect(status == 0, f"init ends with {status}: {errors}")
        accepted(folder / "room.db", "\n".join(commands) + "\n")
        for number, (clearance, wanted) in enumerate(clearances.items()):
            try:
                give_back(folder / "room.db", folder / f"copy-{number}.db", clearance, wanted, [(by, step) for by, step, of in waiting if of == clearance])
            except Differs as found:
                raise Differs(f"{clearance}: {found}") from None


def outcome(name):
    """What came of a state, on a line or more."""
    try:
        try_state(name)
    except Differs as found:
        return f"differs: the way back, {name}: {found}"
    return f"passed: {name}"


def main():
    if sys.argv[1:] == ["--list"]:
        print("\n".join(STATES))
        return 0
    outcomes = []
    with concurrent.futures.ThreadPoolExecutor(4) as pool:
        for one in pool.map(outcome, sys.argv[1:] or STATES):
            outcomes.append(one)
            print(one, flush=True)
    print("all looks were made")
    return 1 if any(one.startswith("differs") for one in outcomes) else 0


if __name__ == "__main__":
    sys.exit(main())
