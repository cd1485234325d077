#!/usr/bin/env python3
"""The worked examples: each session of examples/sessions (its README says how they are written) is replayed on the program.

All commands of a session go to `run` over its three files, as one input. Where it asks for what is stored, they go to
`init --db` as well, and each stretch between two such lines to a `run --db`. What is printed must be as it is written, byte
for byte. The file `counts` has the replies and the command lines of each session, so that none is lost. With names, replays
these sessions alone."""

import shutil
import subprocess
import sys

from looks import ALLOWED, GRIDCLEAR, TOP, look, main, same

SESSIONS = TOP / "examples" / "sessions"
STREAMS = {"|": "output", "!": "errors"}


class Differs(Exception):
    """What was printed is not what was expected."""


def expect(holds, line, wanted, found):
    if not holds:
        raise Differs(f"line {line}: {found!r}, to be {wanted!r}")


def run(words, text, folder):
    """The status and both streams of a run over this input, with their line ends as they are."""
    done = subprocess.run([GRIDCLEAR, *words], input=text, capture_output=True, timeout=ALLOWED, check=False, cwd=folder)
    return done.returncode, done.stdout.decode(), done.stderr.decode()


def compare(printed, awaited, line):
    """Compares a stream with the lines, and the parts of it, that are expected. A part leaves the rest of the stream open."""
    rest, has_part = printed, False
    for number, is_line, text in awaited:
        if is_line:
            found, end, after = rest.partition("\n")
            expect(end and found == text, number, text, found + end)
            rest = after
        else:
            has_part = True
            expect(text in printed, number, text, printed)
    expect(has_part or not rest, line, "the end", rest)


class Session:
    """A session, and how far it has been replayed in a folder of its own."""

    def __init__(self, name, folder):
        self.folder = folder
        self.lines = (SESSIONS / f"{name}.session").read_bytes().decode().split("\n")
        self.database = f"{name}.db" if any(line.startswith("= ") for line in self.lines) else None
        self.network, self.same_as, self.written = None, None, None
        self.commands, self.replies, self.own = [], [], []
        self.runs = 0
        self.begin(None)

    def begin(self, asked):
        """Begins a command line that is asked, or commands over the stored register."""
        self.asked, self.status, self.awaited, self.stretch = asked, 0, {"output": [], "errors": []}, []

    def replay(self):
        is_own = False
        for number, line in enumerate(self.lines, 1):
            mark, _, rest = line.partition(" ")
            if not line or line.startswith("#"):
                continue
            if mark in (">", ">="):
                is_own = mark == ">="
                self.command(number, rest)
            elif mark == "<":
                self.awaited["output"].append((number, True, rest))
                self.replies.append((number, True, rest))
                self.own += [rest] * is_own
            elif mark[:1] in STREAMS and mark[1:] in ("", "~"):
                self.awaited[STREAMS[mark[0]]].append((number, mark[1:] == "", rest))
            elif mark == "?":
                expect(self.asked is not None, number, "after a command line", line)
                self.status = int(rest)
            else:
                self.between(number, mark, rest)
        self.end(len(self.lines))
        if self.commands:
            expect(self.network is not None, len(self.lines), "a network", "none")
            self.asked = ["run", *self.files()]
            self.awaited["output"], self.stretch = self.replies, self.commands
            self.end(len(self.lines))

    def files(self):
        return [f"{self.network}-{table}.csv" for table in ("sections", "points", "staff")]

    def command(self, number, command):
        """A command for the next run. What was asked before it ends here."""
        if self.asked is not None:
            self.end(number)
        self.stretch.append(command)
        self.commands.append(command)

    def between(self, number, mark, rest):
        """What comes before commands and command lines, and between them."""
        if mark == "network":
            self.network = rest
            if self.database:
                self.runs += 1
                status, _, errors = run(["init", *self.files(), "--db", self.database], b"", self.folder)
                expect(status == 0, number, "a register", errors)
        elif mark == "same-as":
            self.same_as = rest
        elif mark == "file":
            self.end(number)
            self.written = self.folder / rest
            self.written.write_bytes(b"")
        elif mark == "+":
            with open(self.written, "ab") as file:
                file.write(f"{rest}\n".encode())
        elif mark in ("=", "$"):
            self.end(number)
            self.begin(self.words(mark, rest))
        else:
            raise Differs(f"line {number}: {mark!r} is no line of a session")

    def words(self, mark, rest):
        """The command line that is asked; none where the stored register is to be opened again."""
        if mark == "$":
            return rest.split()[1:]
        kind, *words = rest.split()
        if kind == "fence":
            return ["fence", *self.files()[:2], *words]
        return None if kind == "reopen" else [kind, self.database, *words]

    def end(self, number):
        """Runs what comes before this line, the command line that was asked or the commands, and compares what is printed."""
        words, text = self.asked, "".join(f"{line}\n" for line in self.stretch).encode()
        if words is None and self.database and self.stretch:
            words = ["run", "--db", self.database]
        if words is not None:
            if "<" in words:
                place = words.index("<")
                text = (self.folder / words[place + 1]).read_bytes()
                words = words[:place]
            self.runs += 1
            status, output, errors = run(["" if word == "''" else word for word in words], text, self.folder)
            compare(errors, self.awaited["errors"], number)
            compare(output, self.awaited["output"], number)
            expect(status == self.status, number, self.status, status)
        self.begin(None)


def sessions(folder):
    own = {}
    counts = [line.split() for line in (SESSIONS / "counts").read_text(encoding="utf-8").splitlines()]
    names = [name for name, _, _ in counts]
    same("the sessions", sorted(path.stem for path in SESSIONS.glob("*.session")), names)
    asked = sys.argv[1:]
    for name, replies, runs in counts:
        if asked and name not in asked:
            continue
        at = folder / name
        at.mkdir()
        for path in SESSIONS.glob("*.csv"):
            shutil.copy(path, at)
        session = Session(name, at)
        try:
            session.replay()
            own[name] = session.own
            like = session.same_as
            found = f"{len(session.replies)} replies, {session.runs} command lines"
            is_same = like is None or like not in own and bool(asked) or own.get(like) == session.own
            look(f"{name}: {found}", is_same, f"not the own replies of {like}")
            same(f"{name}: how many", found, f"{replies} replies, {runs} command lines")
        except Differs as difference:
            look(name, False, difference)


main(sessions)
