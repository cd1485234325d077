#!/usr/bin/env python3
"""`update` beside a reckoning of its own: random registers that commands have made, and random updates.

    tools/try/updates.py [COUNT | --full] [SEED]    300 updates where no number is given; --full makes 10,000

Of each update the reckoning says, by the rows alone, what is first in its way, or what changes and which
rows come of it. The program has to report the same, with --dry-run too, which changes no byte, and to leave
the same rows. After an update that is accepted an opening finds the register good, and each clearance has
its fence. The commands of what is open are answered as in a copy that was not updated, and each open record
has a way back. Files that `init` refuses are refused with the same line. With a journal an accepted update is
one line of it, and a refused one none; a copy from before is carried on by that line, and verify says yes of all. A line
counts what was tried; of 2,000 each obstacle has some. TRY_SECONDS, if it is set, is when the last register begins. GRIDCLEAR names another
program than tools/gridclear."""

import hashlib
import json
import os
import pathlib
import random
import shutil
import subprocess
import sys
import tempfile

from looks import GRIDCLEAR, Server, copied, look, main, outcomes_counted, run, same
from random_registers import BEGIN, IN_FORCE, OPEN, OPEN_PHASES, YES, Employee, Files, Moves, Tables
from random_registers import Logged, commands_follow, made, random_files, reached, text_of
from random_updates import Chosen

COUNT = 10_000 if "--full" in sys.argv[1:] else int((sys.argv[1:] or ["300"])[0])
SEED = int((sys.argv[2:] or ["20261128"])[0])
EACH = 8  # updates that are tried of a register
ENOUGH = 2_000  # of which each obstacle has some
SECTIONS, POINTS = 5_000, 10_000  # the limits of a network
AT_POINTS = ("HeldOpen", "Block", "Control", "Tag")
ACTIVE = ("Instructed", "Repeated")
HOLDERS = {True: "charge", False: "operator"}  # the role of a holder, by whether there is a work section
NAMED = ("Section", "Point", "Step", "Work", "Holder", "Reader", "Requester")
KINDS = ("NoJumper", "JumperName", *NAMED, "NoOperator", "NoField")  # TooLarge has a look of its own
NO_OUTPUT = "fault: output WriteFailed\n"


class Differs(Exception):
    """What was seen is not what the reckoning says."""


def expect(holds, text):
    if not holds:
        raise Differs(text)


class Reckoning:
    """What comes of an update of these tables, by these files, without these jumpers."""

    def __init__(self, tables, files, without):
        self.tables, self.files, self.without = tables, files, without
        self.jumpers = {name: point for name, point in tables.points.items() if point.jumper}
        gone = {*files.points, *without}
        stay = {name: point for name, point in self.jumpers.items() if name not in gone}
        ends = {end for point in stay.values() for end in point[:2]}
        joined = {name: source for name, source in tables.sections.items() if name in ends}
        self.sections = joined | files.sections
        self.points = {name: self.as_it_is(name, point) for name, point in files.points.items()} | stay
        self.staff = files.staff
        self.lost_sections = differing(tables.sections, self.sections)
        self.lost_points = differing(rows(tables.points), rows(self.points))
        self.new_points = differing(rows(self.points), rows(tables.points))

    def as_it_is(self, name, point):
        """A point of the files. One that is there keeps its position and its hand."""
        there = self.tables.points.get(name)
        return point._replace(position=there.position, hand=there.hand) if there else point

    def obstacle(self):
        """What is first in the way, as the fault's line has it; None where nothing is."""
        for kind, found in (("NoJumper", self.no_jumper()), ("JumperName", self.jumper_names())):
            if found:
                return f"{kind} {found[0]}"
        if len(self.sections) > SECTIONS or len(self.points) > POINTS:
            return "TooLarge"
        for kind in NAMED:
            phases = IN_FORCE if kind in ("Section", "Point") else OPEN_PHASES
            for clearance in self.tables.open_records(phases):
                names = getattr(self, kind.lower())(clearance, self.tables.records[clearance])
                if names:
                    return f"{kind} {names[0]} by {text_of(clearance)}"
        return self.roles()

    def no_jumper(self):
        return [name for name in self.without if name not in self.jumpers or name in self.files.points]

    def jumper_names(self):
        filed = self.files.points
        return sorted(name for name, point in self.jumpers.items()
                      if name in filed and set(filed[name][:2]) != set(point[:2]))

    def section(self, clearance, _):
        return sorted(self.lost_sections & self.tables.fence(clearance))

    def point(self, clearance, _):
        fence = self.tables.fence(clearance)
        lost = sorted(name for name in self.lost_points if fence & set(self.tables.points[name][:2]))
        return lost + sorted(name for name in self.new_points if fence & set(self.points[name][:2]))

    def step(self, clearance, _):
        return sorted(self.lost_points & {step.point for _, step in self.tables.steps_of(clearance)})

    def work(self, _, record):
        return [record.work] if record.work and record.work not in self.sections else []

    def has_role(self, name, role):
        return name in self.staff and self.staff[name].role == role

    def holder(self, _, record):
        return [] if self.has_role(record.holder, HOLDERS[bool(record.work)]) else [record.holder]

    def reader(self, clearance, _):
        readers = [step.reader for _, step in self.tables.steps_of(clearance) if step.state == "Repeated"]
        return [name for name in readers if not self.has_role(name, "field")]

    def requester(self, clearance, _):
        before = self.tables.staff.get(clearance[0], Employee(None, None)).role == "operator"
        return [] if before == self.has_role(clearance[0], "operator") else [clearance[0]]

    def roles(self):
        """Steps need an operator, and what is held at a point or given out a field employee."""
        roles = {employee.role for employee in self.staff.values()}
        if self.tables.steps and "operator" not in roles:
            return "NoOperator"
        is_held = any(kind in AT_POINTS for kind, *_ in self.tables.holds)
        needs_field = is_held or any(step.state in ACTIVE for step in self.tables.steps.values())
        return "NoField" if needs_field and "field" not in roles else None

    def tables_after(self):
        """The rows that an accepted update leaves, table by table."""
        return vars(self.tables) | {"sections": self.sections, "points": self.points, "staff": self.staff}

    def lines(self):
        """What is reported of what changes."""
        before, after = self.tables, self
        return [*changes("section", of_sections(before.sections), of_sections(after.sections)),
                *changes("point", of_points(before.points), of_points(after.points)),
                *changes("employee", of_staff(before.staff), of_staff(after.staff))]


def differing(before, after):
    """The names of rows that are no more, or are other rows now."""
    return {name for name, row in before.items() if after.get(name) != row}


def rows(points):
    """Points without what changes from command to command."""
    return {name: point._replace(position=None, hand=None) for name, point in points.items()}


def of_sections(sections):
    return {name: {"source": YES[source]} for name, source in sections.items()}


def of_points(points):
    """The columns of points that are reported, in words."""
    return {name: {"from": one.from_end, "to": one.to_end, "lockable": YES[one.lockable],
                   "remote": YES[one.remote], "jumper": YES[one.jumper]} for name, one in points.items()}


def of_staff(staff):
    return {name: {"role": one.role, "supervisor": one.supervisor or "none"} for name, one in staff.items()}


def changes(kind, before, after):
    """The lines of one kind of rows: those that go or change, a line a column, and then those that come."""
    found = []
    for name, row in sorted(before.items()):
        if name in after:
            changed = [(key, value) for key, value in after[name].items() if value != row[key]]
            found += [f"{kind} {name}: {key} {value}, was {row[key]}" for key, value in changed]
        else:
            found.append(f"{kind} {name} goes")
    return found + [f"{kind} {name} comes" for name in sorted(after.keys() - before.keys())]


def bytes_of(path):
    """The sum of a database, and how long its log is: each opening writes the head of a log, and no more."""
    log = path.with_name(f"{path.name}-wal")
    return hashlib.sha256(path.read_bytes()).hexdigest(), log.stat().st_size


def wanted_of(reckoning, paths):
    """How `update` has to end: status, output and errors; and what came of it, in a word."""
    status, _, errors = run("init", *paths)
    if status:
        return (1, "", errors), "files"
    obstacle = reckoning.obstacle()
    if obstacle:
        return (1, "", f"fault: update {obstacle}\n"), obstacle.split()[0]
    return (0, "".join(f"{line}\n" for line in reckoning.lines()), ""), "accepted"


def try_update(path, chosen, folder):
    """One update of a copy of a register, with --dry-run and without. Returns the copy, and the word."""
    paths = chosen.files.written(folder / "files", chosen.chance)
    reckoning = Reckoning(chosen.tables, chosen.files, chosen.without)
    wanted, outcome = wanted_of(reckoning, paths)
    one = copied(path, path.with_name("updated.db"))
    before, words = bytes_of(one), ["update", one, *chosen.words(paths)]
    found = run(*words, "--dry-run")
    expect(found == wanted, f"--dry-run: {found}, to be {wanted}")
    expect(bytes_of(one) == before, "--dry-run changes the files")
    found = run(*words)
    expect(found == wanted, f"it reports {found}, to be {wanted}")
    after, all_wanted = Tables(one), vars(chosen.tables)
    if outcome == "accepted":
        all_wanted = reckoning.tables_after()
    for name, rows_wanted in all_wanted.items():
        expect(vars(after)[name] == rows_wanted, f"{name}: {vars(after)[name]}, to be {rows_wanted}")
    if outcome == "accepted":
        look_after(one, chosen.tables, after)
        answered_alike(path, one, chosen.tables, after, chosen.chance)
        way_back(one, after, chosen.chance)
    return one, outcome


def look_after(one, before, after):
    """An opening takes it. What is held is open, each fence is as it was, and no granted one is live."""
    status, _, errors = run("board", one)
    expect(status == 0, f"board: {errors}")
    is_open = {name for name, point in after.points.items() if point.position == OPEN}
    held = {place for kind, place, *_ in after.holds if kind in AT_POINTS}
    expect(held <= is_open, f"{held - is_open} are held and not open")
    live = reached(after.points, {name for name, source in after.sections.items() if source}, is_open)
    for clearance in after.open_records(IN_FORCE):
        fence = after.fence(clearance)
        expect(fence == before.fence(clearance), f"{clearance} has the fence {fence}")
        expect(before.records[clearance].phase != "Granted" or not fence & live, f"{fence & live} are live")


def answered_alike(path, one, before, after, chance):
    """What those who are as they were say of what is open is answered as in a copy without the update."""
    steady = {name for name, employee in before.staff.items() if after.staff.get(name) == employee}
    moves = Moves(before, chance, max([BEGIN, *(record.last for record in before.records.values())]))
    for role in ("charge", "operators", "field"):
        setattr(moves, role, [name for name in getattr(moves, role) if name in steady])
    for clearance in sorted(before.records) if steady else []:
        moves.say(min(steady), "show", clearance)
    for clearance in before.open_records((*IN_FORCE, "Switching")):
        moves.go_on(clearance)
    lines = [line for line in moves.lines if is_answered_alike(json.loads(line), before, steady)]
    copies = [copied(path, path.with_name("alike.db")), copied(one, path.with_name("alike-updated.db"))]
    replies = [run("run", "--db", copy, lines=lines) for copy in copies]
    expect(replies[0] == replies[1], f"answered {replies[1]}, without the update {replies[0]}")
    left = [vars(Tables(copy)) for copy in copies]
    for name in ("records", "steps", "holds"):
        found, wanted = left[1][name], left[0][name]
        expect(found == wanted, f"after own commands, {name}: {found}, without the update {wanted}")


def is_answered_alike(command, before, steady):
    """A transfer looks at the rows of three employees, so it counts where these are as they were."""
    if command["do"] != "transfer":
        return True
    by, number = command["clearance"].split("/")
    return {command["by"], command["to"], before.records[by, int(number)].holder} <= steady


def way_back(one, after, chance):
    """An open record is given back by what `wayback` prints."""
    going = after.open_records()
    for clearance in chance.sample(going, min(1, len(going))):
        status, output, errors = run("wayback", one, text_of(clearance))
        expect(status == 0 and output, f"wayback {clearance}: {errors}")
        copy = copied(one, one.with_name("back.db"))
        status, replies, errors = run("run", "--db", copy, lines=output.splitlines())
        is_accepted = all('"reply":"accepted"' in reply for reply in replies.splitlines())
        expect(status == 0 and is_accepted, f"its way back: {replies}{errors}")
        expect(Tables(copy).records[clearance].phase == "Closed", f"{clearance} is not given back")


def years(seed):
    """A register over some updates and the commands between them. Returns what came of each update."""
    chance, outcomes = random.Random(seed), []
    with tempfile.TemporaryDirectory(prefix="updates-") as place:
        folder = pathlib.Path(place)
        path, files, at = made(folder, chance)
        for number in range(EACH):
            chosen = Chosen(Tables(path), files, chance)
            try:
                one, outcome = try_update(path, chosen, folder)
            except Differs as found:
                return [*outcomes, f"differs: register {seed}, update {number}, {chosen.words([])}: {found}"]
            outcomes.append(outcome)
            if outcome == "accepted" and chance.random() < 0.5:
                files = chosen.files
                copied(one, path)
                at = commands_follow(path, chance, at)
    return outcomes


def updates(_):
    counts, _ = outcomes_counted("an update", years, range(SEED, SEED + -(-COUNT // EACH)))
    tried = ", ".join(f"{kind} {counts[kind]}" for kind in ("accepted", "files", *KINDS))
    look(f"{sum(counts.values())} updates: {tried}", not counts["differs"], f"{counts['differs']} differ")
    missing = [kind for kind in ("accepted", *KINDS) if not counts[kind]]
    look("each obstacle came up", not missing or sum(counts.values()) < ENOUGH, missing)


def try_logged(logged, chosen, folder):
    """One update of a register with its journal. Returns the word."""
    paths = chosen.files.written(folder / "files", chosen.chance)
    reckoning = Reckoning(chosen.tables, chosen.files, chosen.without)
    wanted, outcome = wanted_of(reckoning, paths)
    words = ["update", logged.path, *chosen.words(paths), "--journal", logged.journal]
    held, lines = copied(logged.path, logged.path.with_name("held.db")), logged.lines()
    found = run(*words, "--dry-run")
    expect(found == wanted, f"--dry-run: {found}, to be {wanted}")
    expect(logged.lines() == lines and vars(Tables(logged.path)) == vars(chosen.tables), "--dry-run writes")
    found = run(*words)
    expect(found == wanted, f"it reports {found}, to be {wanted}")
    more, is_accepted = logged.more(lines), outcome == "accepted"
    expect([list(json.loads(line)) for line in more] == [["number", "received", "sum", "updated"]] * is_accepted, f"its lines: {more}")
    all_wanted = reckoning.tables_after() if is_accepted else vars(chosen.tables)
    for path in (logged.path, logged.carried_on(held)):
        after = vars(Tables(path))
        for name, rows_wanted in all_wanted.items():
            expect(after[name] == rows_wanted, f"{path.name}, {name}: {after[name]}, to be {rows_wanted}")
    return outcome


def years_logged(seed):
    """The same over a register with a journal, which is verified at the end."""
    chance, outcomes = random.Random(seed), []
    with tempfile.TemporaryDirectory(prefix="updates-") as place:
        folder = pathlib.Path(place)
        path, files, at = made(folder, chance)
        logged = Logged(path)
        for number in range(EACH):
            chosen = Chosen(Tables(path), files, chance)
            try:
                outcomes.append(try_logged(logged, chosen, folder))
                if outcomes[-1] == "accepted":
                    files = chosen.files
                at = commands_follow(path, chance, at, logged.journal)
                expect(logged.verified(), f"verify: {logged.verify()}")
            except Differs as found:
                return [*outcomes, f"differs: register {seed}, update {number}, {chosen.words([])}: {found}"]
    return outcomes


def logged(_):
    counts, _ = outcomes_counted("an update with a journal", years_logged, range(SEED, SEED + -(-COUNT // (4 * EACH))))
    tried = f"{sum(counts.values())} updates with a journal: accepted {counts['accepted']}"
    look(tried, not counts["differs"] and counts["accepted"], f"{counts['differs']} differ")


def too_large(folder):
    """As many sections as a network may have, and a jumper that leads to another; then one section less."""
    chance, path = random.Random(SEED), folder / "room.db"
    files = random_files(chance)
    run("init", *files.written(folder / "few", chance), "--db", path)
    ends = {"from": "L1", "to": "X1"}
    words = {"by": "OPS", "do": "jumper", "lockable": True, "point": "J1", "remote": False}
    run("run", "--db", path, lines=[json.dumps(words | ends)])
    new = SECTIONS - len(files.sections)
    for count, wanted in ((new, (1, 0, "fault: update TooLarge\n")), (new - 1, (0, new - 1, ""))):
        sections = files.sections | {f"M{number}": 0 for number in range(count)}
        paths = Files(sections, files.points, files.staff).written(folder / "many", chance)
        status, output, errors = run("update", path, *paths, "--dry-run")
        found = status, output.count("\n"), errors
        same(f"{len(sections)} sections and a jumper to another", found, wanted)


def words_and_files(folder):
    """Words that are no names, files of the database, and databases that are none."""
    chance, path = random.Random(SEED), folder / "room.db"
    paths = random_files(chance).written(folder / "files", chance)
    run("init", *paths, "--db", path)
    before, none, text = bytes_of(path), folder / "none.db", shutil.copy(paths[1], folder / "text.db")
    for title, words, wanted in (
            ("--without in small letters", (path, *paths, "--without", "j1"), "name BadByte place 0"),
            ("--without nothing", (path, *paths, "--without", ""), "name Empty"),
            ("no file", (path, paths[0], none, paths[2]), "points ReadFailed"),
            ("the database as a file", (path, *paths[:2], path), "staff SameFile"),
            ("the database as its journal", (path, *paths, "--journal", path), "journal SameFile"),
            ("a journal that is not there", (path, *paths, "--journal", none), "journal OtherRegister"),
            ("no register", (none, *paths), "store Sql"),
            ("a database that is none", (text, *paths), "store Sql")):
        same(title, run("update", *words), (1, "", f"fault: {wanted}\n"))
    for title, words in (("none", ()), ("--without alone", (*paths, "--without")), ("four", (*paths, text))):
        status, output, errors = run("update", path, *words)
        look(title, (status, output) == (2, "") and errors, (status, output, errors))
    with Server(path):
        same("a register that is served", run("update", path, *paths), (1, "", "fault: store Sql\n"))
    look("nothing was changed", bytes_of(path) == before and not none.exists())


def unread(folder):
    """Where what changes could not be printed, the update was carried out, and the fault is reported."""
    chance, path = random.Random(SEED), folder / "room.db"
    files = random_files(chance)
    run("init", *files.written(folder / "files", chance), "--db", path)
    files.sections["X9"] = 0
    words = [GRIDCLEAR, "update", str(path), *map(str, files.written(folder / "files", chance))]
    with open("/dev/full", "wb") as full:
        done = subprocess.run(words, stdout=full, stderr=subprocess.PIPE, text=True, check=False)
    same("standard output full", (done.returncode, done.stderr), (1, NO_OUTPUT))
    look("and the tables are those after it", Tables(path).sections == files.sections, Tables(path).sections)
    same("then nothing changes", run(*words[1:]), (0, "", ""))


if os.access("/dev/shm", os.W_OK):
    tempfile.tempdir = "/dev/shm"  # a disk would sync each command twice
main(updates, logged, too_large, words_and_files, unread)
