"""A machine of the guide under a look: its register, on a small disk of its own that can be filled; its page, with logins."""

import json
import re
import resource
import shutil
import signal
import socket
import subprocess
import threading
import urllib.request

import guide_place
from desk_looks.browser import LONG, Differs, direct, wait_until

SIZE = 32 << 20  # bytes of the disk
ROOM = 16384     # bytes that the journal has left on a full disk: its lines have room, and the database's log no longer


class Machine(guide_place.Place):
    """`logins` has the names of each login, which is its own password."""

    def __init__(self, folder, files, logins):
        folder.mkdir(mode=0o755)
        super().__init__(folder, files)
        self.deadline = 10  # on a busy machine
        self.logins, self.address = logins, f"http://127.0.0.1:{self.page}/"
        disk = ["mount", "-t", "tmpfs", "-o", f"size={SIZE},mode=755", "tmpfs", str(self.own)]
        subprocess.run(disk, capture_output=True, check=False)  # without root there is none
        config = self.srv / "desk" / "nginx.conf"
        config.write_text(re.sub(r"# (auth_basic|set \$login)", r"\1", config.read_text(encoding="utf-8")), encoding="utf-8")
        (self.srv / "desk" / "run" / "users").symlink_to(self.etc / "users")
        (self.srv / "desk" / "files" / "logins.csv").symlink_to(self.etc / "logins.csv")

    def start(self, line):
        """As the guide's, but a file that may not grow is a fault of its program, and does not end it."""
        own = {"stdout": subprocess.DEVNULL, "stderr": subprocess.DEVNULL}
        self.programs.append(subprocess.Popen(["bash", "-c", f"exec {self.here(line)}"], cwd=self.own, preexec_fn=lambda: signal.signal(signal.SIGXFSZ, signal.SIG_IGN), **own))
        return self.programs[-1]

    def give(self, text, **words):
        """Runs lines of the guide, which end well; what they print."""
        status, printed, errors = self.lines(text, **words)
        if status:
            raise Differs(f"lines of the guide end with {status}: {text.splitlines()[-1]}: {printed}{errors}")
        return printed

    def guide(self, *marks, without=(), **words):
        """Runs the guide's block of lines that has these words."""
        return self.give(guide_place.block(*marks, without=without), **words)

    def begin(self):
        """A new register, with its logins, is served."""
        self.give("gridclear-setup")
        for login, names in self.logins.items():
            self.give(f"gridclear-setup --login {login} {' '.join(names)} <<< {login}")
        self.serve()

    def follow(self, first):
        self.give(guide_place.FOLLOW, **{"from": first.own})

    def promote(self, first):
        """Another machine's standby takes its place, with a copy of its /etc."""
        shutil.copytree(first.etc, self.etc, dirs_exist_ok=True)
        threading.Thread(target=self.serve_asks, daemon=True).start()
        printed = self.guide("--restore received")
        self.serve(asked=True)
        return printed

    def serve(self, asked=False):
        self.start_register()
        if not asked:
            threading.Thread(target=self.serve_asks, daemon=True).start()
        self.start(self.unit("gridclear-desk"))
        wait_until(lambda: socket.socket().connect_ex(("127.0.0.1", self.page)) == 0, "the page of the machine")

    def lose(self):
        """The machine is lost: its register is killed, and its nginx ended, whose worker would serve on after a SIGKILL."""
        self.ends = True
        self.stop_register(signal.SIGKILL)
        self.end()

    def stop(self):
        self.end()
        if self.has_disk():
            subprocess.run(["umount", "-l", str(self.own)], check=False)

    def has_disk(self):
        return self.own.is_mount()

    def has_ended(self):
        """The register ends by itself, with the status of a fault; nothing starts it here."""
        wait_until(lambda: self.register.poll() is not None, "the register's end")
        if self.register.returncode != 1:
            raise Differs(f"the register ended with status {self.register.returncode} after a fault")

    def room(self):
        return (self.own / "journal").stat().st_size + ROOM

    def fill_disk(self):
        if not self.has_disk():
            resource.prlimit(self.register.pid, resource.RLIMIT_FSIZE, (self.room(), resource.RLIM_INFINITY))
            return
        subprocess.run(["fallocate", "--keep-size", "--length", str(self.room()), self.own / "journal"], check=True)
        with open(self.own / "filler", "wb", buffering=0) as file:
            try:
                while file.write(bytes(4096)):
                    pass
            except OSError:
                pass

    def free_disk(self):
        """Room again; without a disk the limit was that of the register's process, which has ended."""
        (self.own / "filler").unlink(missing_ok=True)

    def tear(self):
        """The register is killed, and its file is damaged."""
        self.stop_register(signal.SIGKILL)
        with open(self.own / "room.db", "r+b") as file:
            file.truncate(10000)
            file.write(b"torn")

    def ask(self, path):
        """What the register itself answers, at its own port; again where a busy machine has ended the connection."""
        words, found = {"X-Forwarded-User": next(iter(self.logins))}, []

        def answered():
            try:
                with direct.open(urllib.request.Request(f"http://127.0.0.1:{self.register_port}/{path}", headers=words), timeout=LONG) as answer:
                    found.append(answer.read().decode())
            except OSError:
                pass
            return found

        return wait_until(answered, f"the register's answer to {path}")[0]

    def network(self):
        return json.loads(self.ask("network"))

    def view(self, clearance):
        """A clearance as the register shows it to an operator."""
        return json.loads(self.ask(f"clearance/{next(iter(self.logins.values()))[0]}/{clearance}"))["view"]

    def printed(self):
        """What the program prints of the journal, all parts of it."""
        return self.give("/usr/lib/gridclear/log").splitlines()

    def entries(self):
        """The commands of the journal, all parts of it, with their replies, as JSON."""
        parts = [*sorted(self.own.glob("journal-2*Z")), self.own / "journal"]
        lines = [json.loads(line) for part in parts for line in part.read_text(encoding="utf-8").splitlines()]
        return [line for line in lines if "command" in line]

    def rotate(self):
        self.give(guide_place.served_again(guide_place.block("--rotate")))

    def verified(self):
        return self.guide("/verify", without=("cp ",)).strip()

    def sent(self):
        """The commands that the proxy passed on."""
        path = self.srv / "desk" / "run" / "commands.log"
        return [json.loads(line)["command"] for line in path.read_text(encoding="utf-8").splitlines()] if path.exists() else []
