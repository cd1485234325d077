"""A network of a look, and commands on it: what a clearance or a switch order on it consists of."""

import csv
import os

HEADS = {"sections.csv": ("section", "source"), "points.csv": ("point", "from", "to", "lockable", "remote", "position"),
         "staff.csv": ("employee", "role", "supervisor")}


class Network:
    """Its rows; the operator who gives its orders, and the reader of the steps."""

    def __init__(self, sections, points, staff, operator, reader):
        self.rows = {"sections.csv": sections, "points.csv": points, "staff.csv": staff}
        self.points = {row[0]: row for row in points}
        self.operator, self.reader = operator, reader

    def write_files(self, folder):
        """The paths of the three files, made in this folder."""
        for name, head in HEADS.items():
            with open(os.path.join(folder, name), "w", encoding="utf-8", newline="") as file:
                csv.writer(file, lineterminator="\n").writerows([head, *self.rows[name]])
        return [os.path.join(folder, name) for name in HEADS]

    def takes(self, action, point):
        """Whether isolating at this point needs such a step."""
        return {"OPEN": True, "BLOCK": self.points[point][3] == "yes", "CONTROL": self.points[point][4] == "yes", "TAG": True}[action]

    def needed(self, cut):
        """The steps that isolate at these points: all OPENs, then all BLOCKs, and so on."""
        return [f"{action} {point}" for action in ("OPEN", "BLOCK", "CONTROL", "TAG") for point in cut if self.takes(action, point)]

    def undoing(self, cut, ends):
        """The steps that restore at these points, each ended by its word."""
        return [text for point, end in zip(cut, ends)
                for text in [*[f"UN{action} {point}" for action in ("TAG", "CONTROL", "BLOCK") if self.takes(action, point)], f"{end} {point}"]]

    def closed(self, name, section, cut, ends):
        """NAME/1 from its request to its end: each of its points ends by its word."""
        texts = self.undoing(cut, ends)
        return [*self.released(name, section, cut), {"by": self.operator, "do": "restore", "clearance": f"{name}/1", "steps": texts},
                *self.steps(f"{name}/1", texts)]

    def step(self, clearance, number, text, until="report"):
        """The three commands of a step, up to this one."""
        commands = [{"by": self.operator, "do": "instruct", "clearance": clearance, "step": number},
                    {"by": self.reader, "do": "repeat", "clearance": clearance, "step": number, "text": text},
                    {"by": self.reader, "do": "report", "clearance": clearance, "step": number, "done": True}]
        return commands[:["instruct", "repeat", "report"].index(until) + 1]

    def steps(self, clearance, texts, first=1):
        return [command for number, text in enumerate(texts, first) for command in self.step(clearance, number, text)]

    def ordered(self, name, section, cut):
        """A clearance NAME/1 on a section, isolated at these points; no step is done."""
        return [{"by": name, "do": "request", "section": section},
                {"by": self.operator, "do": "order", "clearance": f"{name}/1", "points": list(cut), "steps": self.needed(cut)}]

    def granted(self, name, section, cut, crews=()):
        """NAME/1 granted; with crews on, the section is tested and grounded."""
        clearance = f"{name}/1"
        commands = [*self.ordered(name, section, cut), *self.steps(clearance, self.needed(cut)), {"by": self.operator, "do": "grant", "clearance": clearance}]
        if crews:
            commands += [{"by": name, "do": "test", "clearance": clearance, "section": section, "dead": True},
                         {"by": name, "do": "ground", "clearance": clearance, "section": section}]
        return commands + [{"by": name, "do": "sign_on", "clearance": clearance, "crew": crew} for crew in crews]

    def released(self, name, section, cut):
        return self.granted(name, section, cut) + [{"by": name, "do": "release", "clearance": f"{name}/1", "notified": True, "clear": True}]

    def switch(self, texts, by=None):
        return {"by": by or self.operator, "do": "switch", "steps": list(texts)}
