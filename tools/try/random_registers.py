"""Small registers that random commands have made, for looks that need many of them: a network and a staff,
commands through `run --db` in several runs, and the tables that these leave. The commands of a run are
chosen by the tables that the one before it left, so that most are accepted, and records come into every
phase."""

import collections
import contextlib
import json
import sqlite3

from looks import copied, look, run

Point = collections.namedtuple("Point", "from_end, to_end, lockable, remote, position, hand, jumper")
Employee = collections.namedtuple("Employee", "role, supervisor")
Record = collections.namedtuple("Record", "holder, work, phase, last")
Step = collections.namedtuple("Step", "action, point, state, reader")

OPEN, SHUT = 0, 1  # positions, as the tables have them
IN_FORCE = ("Ordered", "Granted", "Released", "Restoring")  # phases of a clearance that has a fence
OPEN_PHASES = ("Requested", "Switching", *IN_FORCE)
RUNNING = ("Ordered", "Restoring", "Switching")
BEGIN = 1_795_000_000  # the first moment
EMPTY_LOG = 41  # bytes of room.db-wal where all of it is in room.db
YES, POSITIONS = ("no", "yes"), ("open", "closed")
DOES = ("OPEN", "BLOCK", "CONTROL", "TAG")  # at a point, in this sequence
UNDOES = {"Tag": "UNTAG", "Control": "UNCONTROL", "Block": "UNBLOCK"}


def text_of(clearance):
    return f"{clearance[0]}/{clearance[1]}"


class Tables:
    """The rows of a register that no program has, each table by its key."""

    def __init__(self, path):
        log = path.with_name(path.name + "-wal")
        if log.exists() and log.stat().st_size > EMPTY_LOG:
            run("board", path)
        with contextlib.closing(sqlite3.connect(f"file:{path}?mode=ro&immutable=1", uri=True)) as found:
            def rows(text):
                return found.execute(f"SELECT {text}").fetchall()
            self.meta = rows("name, value FROM meta ORDER BY name")
            self.sections = dict(rows("name, source FROM section"))
            columns = "name, hand_requester, hand_number, jumper, from_end, to_end, lockable, remote"
            found_points = rows(f"{columns}, position FROM network_point")
            self.points = {name: Point(*rest, (by, number) if by else None, jumper)
                           for name, by, number, jumper, *rest in found_points}
            self.staff = {name: Employee(*rest) for name, *rest in rows("name, role, supervisor FROM staff")}
            columns = "requester, number, holder, work, phase, last_at"
            self.records = {tuple(row[:2]): Record(*row[2:]) for row in rows(f"{columns} FROM clearance")}
            columns = "requester, number, round, ordinal, action, point, state, reader"
            self.steps = {tuple(row[:4]): Step(*row[4:]) for row in rows(f"{columns} FROM step")}
            self.holds = set(rows("kind, place, requester, number FROM hold"))

    def open_records(self, phases=OPEN_PHASES):
        """The clearances and switch orders that are not Closed, or those in these phases, in their order."""
        return sorted(name for name, record in self.records.items() if record.phase in phases)

    def steps_of(self, clearance, turn=None):
        """The steps of a round, or of both, in their order, each with its number."""
        keys = sorted(key for key in self.steps if key[:2] == clearance and turn in (None, key[2]))
        return [(key[3], self.steps[key]) for key in keys]

    def present_round(self, clearance):
        return max((key[2] for key in self.steps if key[:2] == clearance), default=0)

    def own_holds(self, clearance):
        return sorted((kind, place) for kind, place, *by in self.holds if tuple(by) == clearance)

    def fence(self, clearance):
        """The sections that can be reached from the work section without passing a point of the order; of a
        clearance whose order is not in force, none."""
        record = self.records[clearance]
        cut = {step.point for _, step in self.steps_of(clearance, 1)}
        return reached(self.points, {record.work}, cut) if record.phase in IN_FORCE else set()

    def of_role(self, role):
        return sorted(name for name, employee in self.staff.items() if employee.role == role)


def reached(points, begin, cut):
    """The sections that walks from these lead to, over points that are not cut."""
    found, rest = set(begin), list(begin)
    while rest:
        at = rest.pop()
        for name, point in points.items():
            if name not in cut and at in point[:2]:
                other = point[1] if at == point[0] else point[0]
                if other not in found:
                    found.add(other)
                    rest.append(other)
    return found


class Files:
    """What the three files say: rows by their names, and of a point no hand."""

    def __init__(self, sections, points, staff):
        self.sections, self.points, self.staff = dict(sections), dict(points), dict(staff)

    def texts(self):
        """Of each file its header and its rows."""
        points = [(name, *one[:2], YES[one.lockable], YES[one.remote], POSITIONS[one.position])
                  for name, one in self.points.items()]
        sections = [(name, YES[source]) for name, source in self.sections.items()]
        return {"sections": ("section,source", sections),
                "points": ("point,from,to,lockable,remote,position", points),
                "staff": ("employee,role,supervisor",
                          [(name, one.role, one.supervisor or "") for name, one in self.staff.items()])}

    def written(self, folder, chance):
        """The paths of three files that have these rows, in any order."""
        folder.mkdir(exist_ok=True)
        paths = []
        for name, (header, rows) in self.texts().items():
            paths.append(folder / f"{name}.csv")
            lines = [header, *(",".join(row) for row in chance.sample(rows, len(rows)))]
            paths[-1].write_text("".join(f"{line}\n" for line in lines), encoding="ascii")
        return paths


def random_files(chance):
    """A network of a few sections that are joined, with one source or two, and a staff with each role."""
    names = [f"L{number}" for number in range(1, chance.randint(4, 9))]
    sections = {name: 0 for name in names} | {name: 1 for name in ["G", "H"][:chance.randint(1, 2)]}
    joined, points = [], {}
    for name in chance.sample(list(sections), len(sections)):
        if joined:
            points[f"S{len(points) + 1}"] = random_point(chance, chance.choice(joined), name)
        joined.append(name)
    for _ in range(chance.randint(0, 4)):
        points[f"S{len(points) + 1}"] = random_point(chance, *chance.sample(joined, 2))
    charge = ["BOSS", "JONES", "KIM", "L1"]  # an employee, a section and a point may share a name
    staff = {name: Employee("charge", chance.choice([None, *charge])) for name in charge}
    alone = Employee("charge", None)
    staff = {name: alone if one.supervisor == name else one for name, one in staff.items()}
    others = {"OPS": "operator", "OPS-2": "operator", "DALE": "field", "REED": "field"}
    return Files(sections, points, staff | {name: Employee(role, None) for name, role in others.items()})


def random_point(chance, one, other):
    ends = chance.sample([one, other], 2)
    lockable, remote, position = (int(chance.random() < share) for share in (0.7, 0.3, 0.7))
    return Point(*ends, lockable, remote, position, None, 0)


def needed_at(name, point):
    """The isolating steps of a point."""
    left_out = {"BLOCK": not point.lockable, "CONTROL": not point.remote}
    return [f"{do} {name}" for do in DOES if not left_out.get(do)]


def mixed(lists, chance):
    """One list of the items of several, each in its sequence."""
    rest, found = [list(one) for one in lists if one], []
    while rest:
        found.append(chance.choice(rest).pop(0))
        rest = [one for one in rest if one]
    return found


class Moves:
    """Commands that the register of these tables may be given next."""

    def __init__(self, tables, chance, at):
        self.tables, self.chance, self.at, self.lines = tables, chance, at, []
        self.charge, self.operators, self.field = map(tables.of_role, ("charge", "operator", "field"))

    def say(self, by, do, clearance=None, **words):
        if do not in ("show", "jumper"):
            self.at += self.chance.randint(0, 90)
            words["at"] = self.at
        if clearance:
            words["clearance"] = text_of(clearance)
        self.lines.append(json.dumps({"by": by, "do": do, **words}, sort_keys=True, separators=(",", ":")))

    def operator(self):
        return self.chance.choice(self.operators)

    def begin(self):
        """A request, a switch order or a jumper."""
        kind = self.chance.choice(["request"] * 3 + ["switch", "jumper"])
        sections = sorted(self.tables.sections)
        if kind == "request":
            fit = [name for name in sections if not self.tables.sections[name] or self.chance.random() < 0.1]
            self.say(self.chance.choice(self.charge), "request", section=self.chance.choice(fit or sections))
        elif kind == "switch":
            points = self.chance.choices(sorted(self.tables.points), k=self.chance.randint(1, 3))
            steps = [f"{self.chance.choice(['OPEN', 'CLOSE'])} {name}" for name in points]
            self.say(self.operator(), "switch", steps=steps)
        else:
            words = {"from": self.chance.choice(sections), "to": self.chance.choice([*sections, "X1", "X2"])}
            words |= {"lockable": self.chance.random() < 0.5, "remote": self.chance.random() < 0.2}
            self.say(self.operator(), "jumper", point=f"J{self.chance.randint(1, 5)}", **words)

    def go_on(self, clearance):
        """What comes next of a record; nothing where nobody may give it."""
        record = self.tables.records[clearance]
        if self.operators and self.field and self.charge:
            if record.phase in RUNNING:
                self.steps(clearance, self.chance.choice([1, 2, 4, 99, 99]))
            getattr(self, record.phase.lower())(clearance, record)

    def requested(self, clearance, record):
        chosen = self.chance.random()
        if chosen < 0.05:
            self.say(record.holder, "cancel", clearance)
        elif chosen < 0.15:
            self.transfer(clearance, record)
        else:
            self.order(clearance, record)

    def order(self, clearance, record):
        """An isolating order at the border of a few sections round the work section."""
        points, sections, inside = self.tables.points, self.tables.sections, {record.work}

        def border():
            return sorted(name for name, point in points.items() if len(set(point[:2]) & inside) == 1)
        for _ in range(self.chance.randint(0, 2)):
            near = {end for name in border() for end in points[name][:2]} - inside
            near = sorted(name for name in near if not sections[name])
            inside |= {self.chance.choice(near)} if near else set()
        cut = self.chance.sample(border(), len(border()))
        steps = mixed([needed_at(name, points[name]) for name in cut], self.chance)
        self.say(self.operator(), "order", clearance, points=cut, steps=steps)

    def transfer(self, clearance, record):
        boss = self.tables.staff[record.holder].supervisor
        emergency = bool(boss) and self.chance.random() < 0.5
        by, to = boss if emergency else record.holder, self.chance.choice(self.charge)
        self.say(by, "transfer", clearance, to=to, emergency=emergency)

    def steps(self, clearance, count):
        """The next steps of the present round; the last of them may be left given out, or repeated."""
        present = self.tables.steps_of(clearance, self.tables.present_round(clearance))
        left = [(place, step) for place, step in present if step.state != "Done"]
        for number, (place, step) in enumerate(left[:count], 1):
            stops = number == count < 99 and self.chance.random() < 0.7
            if step.state == "Waiting":
                if step.action == "Close" and self.chance.random() < 0.2:
                    self.say(self.operator(), "amend", clearance, step=place)
                self.say(self.operator(), "instruct", clearance, step=place)
                if stops and self.chance.random() < 0.5:
                    return
            reader = step.reader if step.reader in self.field else self.chance.choice(self.field)
            if step.state != "Repeated" or reader != step.reader:
                self.say(reader, "repeat", clearance, step=place, text=f"{step.action.upper()} {step.point}")
            if stops:
                return
            self.say(reader, "report", clearance, step=place, done=self.chance.random() < 0.95)

    def ordered(self, clearance, record):
        if self.chance.random() < 0.05:
            self.say(record.holder, "cancel", clearance)
        elif self.chance.random() < 0.8:
            self.say(self.operator(), "grant", clearance)

    def granted(self, clearance, record):
        """Work begins, goes on or ends."""
        chosen = self.chance.random()
        if chosen < 0.5:
            for section in (record.work, self.chance.choice(sorted(self.tables.fence(clearance)))):
                self.say(record.holder, "test", clearance, section=section, dead=True)
                self.say(record.holder, "ground", clearance, section=section)
            self.say(record.holder, "sign_on", clearance, crew=f"C{self.chance.randint(1, 2)}")
        elif chosen < 0.6:
            self.transfer(clearance, record)
        else:
            own = self.tables.own_holds(clearance)
            for kind, word, key in (("Crew", "sign_off", "crew"), ("Ground", "unground", "section")):
                for place in [place for one, place in own if one == kind]:
                    self.say(record.holder, word, clearance, **{key: place})
            self.say(record.holder, "release", clearance, notified=True, clear=True)

    def released(self, clearance, record):
        """A restoring order, of what is held at each point."""
        own = self.tables.own_holds(clearance)
        undone = []
        for point in [place for kind, place in own if kind == "HeldOpen"]:
            last = "LEAVE" if self.chance.random() < 0.2 else "CLOSE"
            off = [word for kind, word in UNDOES.items() if (kind, point) in own]
            undone.append([f"{word} {point}" for word in (*off, last)])
        self.say(self.operator(), "restore", clearance, steps=mixed(undone, self.chance))

    def restoring(self, clearance, record):
        """Its steps alone."""

    def switching(self, clearance, record):
        if self.chance.random() < 0.1:
            self.say(record.holder, "cancel", clearance)


def made(folder, chance):
    """A register in a folder, of random files and commands: the path, the files and the last moment."""
    path, files, at = folder / "room.db", random_files(chance), BEGIN
    run("init", *files.written(folder / "made", chance), "--db", path)
    for _ in range(chance.randint(3, 14)):
        at = commands_follow(path, chance, at)
    return path, files, at


class Logged:
    """A register that is given a journal, as it began with it, and what the journal has."""

    def __init__(self, path):
        self.path, self.journal, self.began = path, path.with_name("journal"), path.with_name("began.db")
        status, _, errors = run("migrate", path, "--journal", self.journal)
        if status:
            look("a journal begins", False, errors)
        copied(path, self.began)

    def lines(self):
        return self.journal.read_text(encoding="ascii").splitlines()

    def more(self, before):
        """The lines that came since; all, where those from before are not its first."""
        lines = self.lines()
        return lines[len(before):] if lines[: len(before)] == before else lines

    def carried_on(self, copy):
        """A copy of the register from before, which an opening carries on to the end of the journal."""
        found = run("run", "--db", copy, "--journal", self.journal)
        if found != (0, "", ""):
            look("an opening carries a copy on", False, found)
        return copy

    def verify(self):
        return run("verify", self.path, self.journal, "--from", self.began)

    def verified(self):
        """Whether `verify` says yes, of as many as were carried out."""
        done = ('"reply":"accepted"', '"reply":"added"', '"updated":', '"archived":')
        count = sum(any(word in line for word in done) for line in self.lines())
        return self.verify() == (0, f"verified {count} commands\n", "")


def commands_follow(path, chance, at, journal=None):
    """A run: what comes next of each record, and perhaps more records. Returns the last moment."""
    moves = Moves(Tables(path), chance, at)
    going = moves.tables.open_records()
    for name in going:
        moves.go_on(name)
    if moves.charge and moves.operators and moves.tables.points and len(going) < 5:
        for _ in range(chance.choice([0, 1, 1, 2])):
            moves.begin()
    status, _, errors = run("run", "--db", path, *(["--journal", journal] if journal else []), lines=moves.lines)
    if status:
        look("random commands", False, errors)
    return moves.at
