"""What tools/stops and tools/no-memory share: the built program run from outside under a small library that is loaded
before the C library, folders for its files, the tables and the journal that it leaves, and a shift with its replies over
registers with a journal and without one. It needs gcc and sqlite3 (Debian's packages of these names). GRIDCLEAR names another program than tools/gridclear."""
import collections
import json
import lzma
import os
import re
import shutil
import socket
import subprocess
import sys
import threading
import time

TOP = os.path.dirname(os.path.dirname(os.path.realpath(__file__)))
GRIDCLEAR = os.environ.get("GRIDCLEAR", os.path.join(TOP, "tools", "gridclear"))
EXAMPLES = os.path.join(TOP, "examples")
FILES = [os.path.join(EXAMPLES, name) for name in ("sections.csv", "points.csv", "staff.csv")]
IMPORTED = "sections 5 points 5 staff 6\n"
NO_REGISTER = "fault: store Sql\n"
NO_OUTPUT = "fault: output WriteFailed\n"
MOVED = "version 2\n"
# the words of `init`, `migrate`, `run` and `serve` that have a journal
WITH_JOURNAL = ["--journal", "journal"]
NO_JOURNAL = ("fault: journal OpenFailed\n", "fault: journal WriteFailed\n")
MISSING = "fault: journal Missing\n"  # the register has a journal, and none is named
BEGUN = "fault: journal Begun\n"  # a journal was begun, and the register has no place in it
OPENED = ["run", "--db", "room.db"]  # and no command
OLD = os.path.join(TOP, "tools", "try", "version-1.db.xz")  # a register of version 1
ALLOWED = 60  # seconds for one run of a program

PLACE = re.compile(r'(?:CREATE TABLE|INSERT INTO) "?journal"?[ (]')  # the rows of a dump that are no table of the register

Ended = collections.namedtuple("Ended", "status, output, errors")


class Differs(Exception):
    """What was seen is not what may be."""


def expect(holds, text):
    if not holds:
        raise Differs(text)


def missing(text):
    print(f"{os.path.basename(sys.argv[0])}: {text}", file=sys.stderr)
    sys.exit(2)


def program_of(command):
    """The program that a command ends in, which may be a script: it is looked at while it waits for its input."""
    shown = subprocess.run([command, "--help"], capture_output=True, check=False)
    if shown.returncode != 0:
        missing(f"{command} does not run")
    with subprocess.Popen([command, "run", *FILES], stdin=subprocess.PIPE, stdout=subprocess.DEVNULL) as waiting:
        while True:
            found = os.readlink(f"/proc/{waiting.pid}/exe")
            if os.path.basename(found) not in ("env", "bash"):
                return found
            time.sleep(0.01)


class Bench:
    """The library, built from its C text, the program that is tried, and folders for its files."""

    def __init__(self, folder, library):
        self.folder = folder
        self.library = os.path.join(folder, "library.so")
        self.lock = threading.Lock()
        self.count = 0
        for needed in ("gcc", "sqlite3"):
            if not shutil.which(needed):
                missing(f"{needed} is not installed")
        source = os.path.join(folder, "library.c")
        with open(source, "w", encoding="ascii") as file:
            file.write(library)
        subprocess.run(["gcc", "-O1", "-shared", "-fPIC", "-o", self.library, source, "-ldl"], check=True)
        self.program = program_of(GRIDCLEAR)

    def under(self, **words):
        """An environment in which the library is loaded and finds these words."""
        return {**os.environ, "LD_PRELOAD": self.library, **words}

    def new(self, held=None):
        """A new folder, which begins with the files of another."""
        with self.lock:
            self.count += 1
            path = os.path.join(self.folder, str(self.count))
        if held:
            shutil.copytree(held, path)
        else:
            os.mkdir(path)
        return path

    def old(self):
        """A new folder with the register of version 1."""
        path = self.new()
        with lzma.open(OLD) as packed, open(os.path.join(path, "room.db"), "wb") as file:
            file.write(packed.read())
        return path

    def run(self, folder, words, lines=(), env=None):
        done = subprocess.run([self.program, *words], cwd=folder, env=env, input="".join(lines), capture_output=True,
                              text=True, timeout=ALLOWED, check=False)
        return Ended(done.returncode, done.stdout, done.stderr)

    def tables(self, held, may_be_none=False):
        """The tables as the distribution's sqlite3 reads a copy of the files, but for the place in a journal. A file that is
        no database yet has none."""
        folder = self.new(held)
        words = ["sqlite3", "-batch", "room.db", "PRAGMA integrity_check", ".dump"]
        done = subprocess.run(words, cwd=folder, capture_output=True, text=True, timeout=ALLOWED, check=False)
        shutil.rmtree(folder)
        lines = done.stdout.splitlines()
        if may_be_none and "file is not a database" in done.stderr:
            return ()
        expect(done.returncode == 0 and lines[:1] == ["ok"], f"sqlite3: {done.stdout[:200]}{done.stderr[:200]}")
        return tuple(sorted(line for line in lines[1:] if line.startswith(("CREATE", "INSERT")) and not PLACE.match(line)))

    def verify(self, held, *words):
        """What `verify` ends with over a copy of the files; with these words in place of the three files."""
        folder = self.new(held)
        done = self.run(folder, ["verify", "room.db", "journal", *(words or FILES)])
        shutil.rmtree(folder)
        return done

    def opens(self, folder, journal="journal"):
        """Opens a register with its journal: whether that is done."""
        return self.run(folder, [*OPENED, "--journal", journal]) == Ended(0, "", "")


def to_archive(bench, shift, journal=()):
    """The words of an archive of all that is closed, and a folder with the register after the whole shift."""
    folder = bench.new(shift.begun(journal))
    bench.run(folder, ["run", "--db", "room.db", *journal], shift.lines)
    return ["archive", "room.db", *journal, "--before", "4102444799"], folder


def to_update(bench, shift, journal=()):
    """The words of an update that lets an employee and a section come, and a folder with the register in a shift."""
    folder = bench.new(shift.begun(journal))
    bench.run(folder, ["run", "--db", "room.db", *journal], shift.lines[:10])
    files = [os.path.join(bench.folder, f"coming-{name}.csv") for name in ("sections", "points", "staff")]
    for path, old, row in zip(files, FILES, ("L9,no\n", "", "ADA,charge,\n")):
        with open(old, encoding="ascii") as file, open(path, "w", encoding="ascii") as new:
            new.write(file.read() + row)
    return ["update", "room.db", *files, *journal], folder


def whole_lines(folder, name="journal"):
    """The lines of a journal in a folder that a line feed ends; none where there is no journal."""
    path = os.path.join(folder, name)
    if not os.path.exists(path):
        return []
    with open(path, encoding="ascii", errors="replace") as file:
        return [line for line in file.read().splitlines(keepends=True) if line.endswith("\n")]


def ends_whole(folder, name="journal"):
    """Whether a journal in a folder does not end in half a line."""
    path = os.path.join(folder, name)
    if not os.path.exists(path):
        return True
    with open(path, "rb") as file:
        return file.read()[-1:] in (b"", b"\n")


def removed(folder, name):
    """The same folder without a file."""
    path = os.path.join(folder, name)
    if os.path.exists(path):
        os.remove(path)
    return folder


JUMPER = '{"by":"OPS","do":"jumper","from":"L3","lockable":true,"point":"J9","remote":false,"to":"X9"}\n'


class Shift:
    """Commands over an opening register, or over one with a journal: their replies, and the tables after each number of
    them."""

    def __init__(self, bench, opening, logged):
        self.bench = bench
        self.opening = opening
        self.logged = logged
        with open(os.path.join(EXAMPLES, "shift.jsonl"), encoding="ascii") as file:
            self.lines = file.readlines()
        # and a jumper to a new section, laid while JONES/1 is Ordered
        self.lines.insert(5, JUMPER)
        whole = bench.run(bench.new(opening), ["run", "--db", "room.db"], self.lines)
        expect(whole.status == 0, f"run: {whole}")
        self.replies = whole.output.splitlines(keepends=True)
        folder = bench.new(opening)
        self.tables = [bench.tables(folder)]
        for line in self.lines:
            bench.run(folder, ["run", "--db", "room.db"], [line])
            self.tables.append(bench.tables(folder))

    def begun(self, journal):
        """The files that a shift begins with, with a journal or without one."""
        return self.logged if journal else self.opening

    def after(self, count, journal=()):
        """A folder with the register after this number of commands."""
        folder = self.bench.new(self.begun(journal))
        done = self.bench.run(folder, [*OPENED, *journal], self.lines[:count])
        expect(done == Ended(0, "".join(self.replies[:count]), ""), f"the first {count}: {done}")
        return folder

    def rolled_back(self, count, last):
        """A folder with the register after a number of commands, and its journal after more of them."""
        folder = self.after(count, WITH_JOURNAL)
        later = self.bench.new(folder)
        done = self.bench.run(later, [*OPENED, *WITH_JOURNAL], self.lines[count:last])
        expect(done.status == 0, f"from {count} to {last}: {done}")
        shutil.copy(os.path.join(later, "journal"), folder)
        return folder

    def look_at_journal(self, folder, answered):
        """Each command that was answered has a line, and the register is level with its journal before it is opened again; but half
        a line at its end is named."""
        wanted = [line for line, reply in zip(self.lines, self.replies[:answered]) if '"reply":"shown"' not in reply]
        found = [json.loads(line) for line in whole_lines(folder)[1:]]
        given = [line["command"] for line in found if "command" in line]
        # a command that was answered 503 has a line too, and may be said again
        once = [command for place, command in enumerate(given) if command not in given[:place]]
        expect(once[: len(wanted)] == [json.loads(line) for line in wanted], f"{answered} answered, and the journal has {once[-2:]}")
        done = self.bench.verify(folder)
        if ends_whole(folder):
            expect(done.status == 0, f"verify: {done}")
        else:
            last = found[-1]["number"] if found else 0
            expect(done == Ended(1, "", f"fault: journal BadLine {last + 1}\n"), f"verify of half a line: {done}")

    def open_again(self, folder):
        """Opens register and journal: from then on the tables are those of the journal."""
        done = self.bench.run(folder, [*OPENED, *WITH_JOURNAL])
        expect(done == Ended(0, "", ""), f"opened with its journal: {done}")
        done = self.bench.verify(folder)
        expect(done.status == 0, f"verify, opened again: {done}")

    def go_on(self, folder, least, most, last, journal=()):
        """The numbers of commands after which the tables are those that are left; the others up to the last go on from there."""
        if journal:
            self.look_at_journal(folder, least)
            self.open_again(folder)
        tables = self.bench.tables(folder)
        places = [place for place in range(least, min(most, last) + 1) if self.tables[place] == tables]
        everywhere = [place for place, known in enumerate(self.tables) if known == tables]
        expect(places, f"answered {least}, at most {most} made: the tables are those after {everywhere}")
        board = self.bench.run(folder, ["board", "room.db"])
        expect(board.status == 0 and board.errors == "", f"board: {board}")
        expect(self.bench.tables(folder) == tables, "board changes the tables")
        place = places[0]
        rest = self.bench.run(folder, [*OPENED, *journal], self.lines[place:last])
        expect(rest == Ended(0, "".join(self.replies[place:last]), ""), f"from {place}: {rest}")
        expect(self.bench.tables(folder) == self.tables[last], "the tables at the end")
        if journal:
            expect(self.bench.verify(folder).status == 0, "verify at the end")
        return places


def free_port():
    with socket.socket() as found:
        found.bind(("127.0.0.1", 0))
        return found.getsockname()[1]


def ask(port, line):
    """The status and the body of the response to a command, or None where none came whole."""
    body = line.rstrip("\n")
    return answer(port, f"POST /command HTTP/1.1\r\nHost: 127.0.0.1\r\nContent-Length: {len(body)}\r\n\r\n{body}")


def answer(port, request):
    """The same of the response to a request."""
    received = b""
    try:
        with socket.create_connection(("127.0.0.1", port), timeout=ALLOWED) as connection:
            connection.sendall(request.encode("ascii"))
            while piece := connection.recv(65536):
                received += piece
    except ConnectionError:
        return None, ""
    head, found, rest = received.decode("ascii").partition("\r\n\r\n")
    if not found:
        return None, ""
    length = [int(field.split(":")[1]) for field in head.split("\r\n") if field.startswith("Content-Length:")][0]
    if len(rest) != length:
        return None, ""
    return int(head.split(" ")[1]), rest
