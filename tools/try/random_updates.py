"""Random updates: the files that a register has, with some of their rows changed, and jumpers that are taken
out. Half of the rows that change are rows which some open record needs, so that each obstacle comes up."""

from random_registers import OPEN, RUNNING, SHUT, Employee, Files, Point, random_point

ROLES = ("operator", "field", "charge")


class Chosen:
    """An update of a register with these tables, which was made with these files or brought to them."""

    def __init__(self, tables, files, chance):
        self.tables, self.chance, self.without = tables, chance, []
        self.files = Files(files.sections, files.points, files.staff)
        self.jumpers = sorted(name for name, point in tables.points.items() if point.jumper)
        likely = [self.point_comes, self.point_goes, self.point_changes, self.section_comes,
                  self.section_goes, self.role_changes, self.employee_goes]
        rare = [self.source_changes, self.positions_change, self.employee_comes, self.supervisor_changes,
                self.jumper_filed, self.jumper_taken, self.role_goes]
        for _ in range(chance.choice([0, 1, 1, 1, 2, 2, 3])):
            chance.choice(likely + rare)()
        if chance.random() < 0.9:
            self.mend()

    def words(self, paths):
        """What comes after the database in the command line."""
        return [*map(str, paths), *(word for name in self.without for word in ("--without", name))]

    def mend(self):
        """Leaves out what would make these files no network or no staff."""
        known, staff = self.files.sections, self.files.staff
        self.files.points = {name: point for name, point in self.files.points.items()
                             if point[0] in known and point[1] in known and point[0] != point[1]}
        fit = {name for name, one in staff.items() if one.supervisor in staff and one.supervisor != name}
        self.files.staff = {name: Employee(one.role, one.supervisor if name in fit else None)
                            for name, one in staff.items()}

    def one_of(self, names, likely=()):
        """One of these, half of the time one that is also among the likely ones, if any is."""
        both = sorted(set(names) & set(likely))
        return self.chance.choice(both if both and self.chance.random() < 0.5 else sorted(names))

    def section_comes(self):
        name = self.one_of({"X1", "X2", "X3", "X4", *self.tables.sections})
        if name not in self.files.sections and self.files.sections:
            if self.chance.random() < 0.8:
                point = random_point(self.chance, self.one_of(self.files.sections), name)
                self.files.points[f"S{self.chance.randint(20, 25)}"] = point
            self.files.sections[name] = self.tables.sections.get(name, 0)

    def section_goes(self):
        asked_for = {record.work for record in self.tables.records.values() if record.phase == "Requested"}
        if self.files.sections:
            self.files.sections.pop(self.one_of(self.files.sections, asked_for))

    def source_changes(self):
        if self.files.sections:
            name = self.one_of(self.files.sections)
            self.files.sections[name] = 1 - self.files.sections[name]

    def point_comes(self):
        if self.files.sections:
            ends = self.chance.choices(sorted(self.files.sections), k=2)
            self.files.points.setdefault(f"S{self.chance.randint(1, 25)}", random_point(self.chance, *ends))

    def some_point(self):
        """A point of the files, if there is one; half of the time one of an order that goes on."""
        going = self.tables.open_records(RUNNING)
        likely = {step.point for clearance in going for _, step in self.tables.steps_of(clearance)}
        return self.one_of(self.files.points, likely) if self.files.points else None

    def point_goes(self):
        self.files.points.pop(self.some_point(), None)

    def point_changes(self):
        name = self.some_point()
        if name and self.files.sections:
            point = self.files.points[name]
            other = {self.chance.choice(["from_end", "to_end"]): self.one_of(self.files.sections)}
            turned = {"from_end": point.to_end, "to_end": point.from_end}
            changed = [{"lockable": 1 - point.lockable}, {"remote": 1 - point.remote}, turned, other]
            self.files.points[name] = point._replace(**self.chance.choice(changed))

    def positions_change(self):
        self.files.points = {name: point._replace(position=self.chance.choice([OPEN, SHUT]))
                             for name, point in self.files.points.items()}

    def employee_comes(self):
        name = self.one_of({"ANN", "BEN", "OPS-3", *self.tables.staff})
        boss = self.chance.choice([None, *sorted(self.files.staff)])
        self.files.staff.setdefault(name, Employee(self.chance.choice(ROLES), boss))

    def somebody(self):
        """An employee, half of the time one whom an open record names; ANN where there is none."""
        going = self.tables.open_records()
        named = {name[0] for name in going} | {self.tables.records[name].holder for name in going}
        named |= {step.reader for step in self.tables.steps.values() if step.state == "Repeated"}
        return self.one_of(self.files.staff or {"ANN"}, named)

    def employee_goes(self):
        self.files.staff.pop(self.somebody(), None)

    def role_changes(self):
        """An employee has another role, sometimes one who asked for what another holds by now."""
        holders = {name: self.tables.records[name].holder for name in self.tables.open_records()}
        asked = {name[0] for name, holder in holders.items() if name[0] != holder}
        if asked and self.chance.random() < 0.7:
            self.files.staff[self.one_of(asked)] = Employee("operator", None)
        else:
            self.files.staff[self.somebody()] = Employee(self.chance.choice(ROLES), None)

    def role_goes(self):
        role = self.chance.choice(["operator", "field"])
        self.files.staff = {name: one for name, one in self.files.staff.items() if one.role != role}

    def supervisor_changes(self):
        name = self.somebody()
        role = self.files.staff[name].role if name in self.files.staff else "field"
        self.files.staff[name] = Employee(role, self.chance.choice([None, *sorted(self.files.staff)]))

    def jumper_filed(self):
        """A jumper becomes a point of the files, with its ends in either sequence, or with others."""
        if self.jumpers:
            name = self.chance.choice(self.jumpers)
            point, position = self.tables.points[name], self.chance.choice([OPEN, SHUT])
            other = point[0], self.one_of(self.tables.sections)
            ends = self.chance.choice([point[:2], (point[1], point[0]), other, other])
            self.files.points[name] = Point(*ends, point.lockable, point.remote, position, None, 0)
            self.files.sections |= {end: self.tables.sections[end] for end in ends}

    def jumper_taken(self):
        others = {"J9", *self.tables.points}
        is_there = self.jumpers and self.chance.random() < 0.8
        self.without.append(self.chance.choice(self.jumpers) if is_there else self.one_of(others))
