"""tools/desk over a register, and what the program and the tables say."""

import contextlib
import json
import os
import resource
import shutil
import signal
import sqlite3
import subprocess
import tempfile

from desk_looks.browser import LONG, Differs, direct, say, wait_until

TOP = os.path.dirname(os.path.dirname(os.path.dirname(os.path.realpath(__file__))))
GRIDCLEAR = os.environ.get("GRIDCLEAR", os.path.join(TOP, "tools", "gridclear"))
DESK = os.environ.get("DESK", os.path.join(TOP, "tools", "desk"))
FILES = ("sections.csv", "points.csv", "staff.csv")
ROOM = 32768  # bytes, of a file on a disk that is full: a journal has room yet, and a database's log no longer
EXAMPLES = [os.path.join(TOP, "examples", name) for name in FILES]


class Desk:
    """tools/desk over a register; `options` are more words of its command line."""

    def __init__(self, work, name, files, ports, options=()):
        self.options = list(options)
        self.folder, self.files, self.ports = os.path.join(work, name), files, ports
        self.base = os.path.join(work, f"{name}.db")
        self.address = f"http://127.0.0.1:{ports[0]}/"
        self.process, self.starts = None, 0
        self.journal = self.options[self.options.index("--journal") + 1] if "--journal" in self.options else None
        gridclear("init", *files, *self.stored())

    def stored(self):
        """The register, as a subcommand takes it."""
        return ["--db", self.base, *(["--journal", self.journal] if self.journal else [])]

    def begin_journal(self, path):
        """From now on the register has a journal."""
        gridclear("migrate", self.base, "--journal", path)
        self.options += ["--journal", path]
        self.journal = path

    def start(self, status=200):
        """Serves, until the board has this status."""
        self.starts += 1
        environment = dict(os.environ, GRIDCLEAR=GRIDCLEAR, DESK_FOLDER=self.run_folder())
        words = [DESK, "--points", self.files[1], *self.options, self.base, *map(str, self.ports)]
        self.process = subprocess.Popen(words, env=environment, stdout=subprocess.DEVNULL, stderr=subprocess.DEVNULL,
                                        preexec_fn=lambda: signal.signal(signal.SIGXFSZ, signal.SIG_IGN))
        wait_until(lambda: self.answers(status), "the desk's board")

    def run_folder(self):
        return f"{self.folder}-{self.starts}"

    def answers(self, status):
        try:
            return direct.open(f"{self.address}board", timeout=5).status == status
        except OSError as fault:
            if getattr(fault, "code", None) == status:
                return True
            if self.process.poll() is not None:
                raise Differs("tools/desk ended by itself") from None
            return False

    def register(self):
        """The number of its process, which tools/desk may be writing just now."""
        path = os.path.join(self.run_folder(), "desk", "run", "register.pid")
        return wait_until(lambda: number_in(path), "the number of the register's process")

    def fill_disk(self, room=ROOM):
        """The register may write no file beyond this many bytes, as on a disk that is full; nor may one that tools/desk starts after it."""
        for process in (self.register(), self.process.pid):
            resource.prlimit(process, resource.RLIMIT_FSIZE, (room, resource.RLIM_INFINITY))

    def free_disk(self):
        for process in (self.register(), self.process.pid):
            with contextlib.suppress(ProcessLookupError):  # the register may have ended
                resource.prlimit(process, resource.RLIMIT_FSIZE, (resource.RLIM_INFINITY, resource.RLIM_INFINITY))

    def ends_again(self):
        """The register has ended by itself; tools/desk starts it again, and it ends again."""
        before = self.register()
        wait_until(lambda: self.register() != before, "the register started again")
        again = self.register()
        wait_until(lambda: self.register() != again, "the register started a third time")

    def comes_back(self):
        """tools/desk starts it again, and now it serves."""
        wait_until(lambda: self.answers(200), "the register again")

    def restart(self):
        """The register ends, and tools/desk starts it again."""
        before = self.register()
        os.kill(before, signal.SIGTERM)
        wait_until(lambda: self.register() != before and self.answers(200), "the register again")

    def stop(self):
        if self.process and self.process.poll() is None:
            self.process.terminate()
            self.process.wait(LONG)

    def sent(self):
        """The commands that reached the register, in their order: those that the proxy could not pass on did not."""
        if not os.path.exists(f"{self.base}.commands.log"):
            return []
        with open(f"{self.base}.commands.log", encoding="utf-8") as file:
            entries = [json.loads(line) for line in file]
        return [entry["command"] for entry in entries if entry["status"] != 502]


def number_in(path):
    with open(path, encoding="utf-8") as file:
        return int(file.read() or 0)


def gridclear(*words, text=None):
    done = subprocess.run([GRIDCLEAR, *words], input=text, capture_output=True, text=True, check=False)
    if done.returncode != 0:
        raise Differs(f"gridclear {words[0]} ended with status {done.returncode}: {done.stderr.strip()}")
    return done.stdout


def tables(path):
    """All rows of all tables but that of the place in a journal, read in a copy, since reading folds the log into the file."""
    with tempfile.TemporaryDirectory() as folder:
        for end in ("", "-wal"):
            if os.path.exists(path + end):
                shutil.copy(path + end, os.path.join(folder, "copy.db" + end))
        base = sqlite3.connect(os.path.join(folder, "copy.db"))
        names = [row[0] for row in base.execute("SELECT name FROM sqlite_master WHERE type = 'table' AND name != 'journal' ORDER BY name")]
        found = {name: sorted(base.execute(f'SELECT * FROM "{name}"').fetchall(), key=repr) for name in names}
        base.close()
        return found


def same_as_run(desk, work, lines, least):
    """The tables under the page are those of `run` over the same commands; `least` has how many rows a table has at least."""
    second = os.path.join(work, "second.db")
    gridclear("init", *desk.files, "--db", second)
    gridclear("run", "--db", second, text="".join(f"{line}\n" for line in lines))
    own, other = tables(desk.base), tables(second)
    for name in sorted(own.keys() | other.keys()):
        if own.get(name) != other.get(name):
            raise Differs(f"table {name}: {own.get(name)} under the page, {other.get(name)} by run")
    for name, count in least.items():
        if len(own.get(name, [])) < count:
            raise Differs(f"table {name} has {len(own.get(name, []))} rows, too few to say anything")
    say(f"  {len(lines)} commands; the {len(own)} tables are those of run, {sum(map(len, own.values()))} rows")


def verified(desk, journal, count):
    """The program compares the register with a run of its journal, and has run all commands of it."""
    printed = gridclear("verify", desk.base, journal, *desk.files).strip()
    if printed != f"verified {count} commands":
        raise Differs(f"verify prints {printed}, and the journal has {count} commands")
    say(f"  {printed}")
