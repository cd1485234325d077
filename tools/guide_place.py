"""A machine as docs/OPERATING.md installs it, in a folder, and the guide's own lines to run there."""

import os
import pathlib
import re
import shutil
import signal
import socket
import subprocess
import threading
import time

TOP = pathlib.Path(__file__).resolve().parent.parent
GRIDCLEAR = os.environ.get("GRIDCLEAR", str(TOP / "tools" / "gridclear"))
FILES = ("sections.csv", "points.csv", "staff.csv")
ROOT = os.geteuid() == 0
LOGIN = ("JONES", "a word of JONES")

# Programs of the lines in place of those of a machine with systemd: the register is stopped and started by this program.
STANDINS = {
    "gridclear": 'exec "$GRIDCLEAR" "$@"',
    "runuser": 'shift 3\nexec "$@"',
    "systemctl": '[ "$PWD" = "$OWN" ] && [ "$2" = gridclear ] || exit 0\n'
                 'echo "$1" > ask.new; mv ask.new ask; for _ in $(seq 600); do [ -e ask ] || exit 0; sleep 0.05; done; exit 1',
}
# The package's programs, which run here as the caller, over the folder in which the lines run.
PROGRAMS = ("gridclear-setup", "serve", "finish", "verify", "forward", "log", "follow", "backup", "near")
FOLLOW = "/usr/lib/gridclear/follow $from\n"  # as gridclear-follow.service calls it
USERS = f"printf '{LOGIN[0]}:%s\\n' \"$(openssl passwd -6)\" > /etc/gridclear/users\n"


class Stuck(Exception):
    """What has to go on before anything can be tried did not."""


def blocks():
    """The blocks of lines of the guide."""
    found, lines = [], []
    for line in [*(TOP / "docs" / "OPERATING.md").read_text(encoding="utf-8").splitlines(), "."]:
        if line.startswith("    ") or (lines and not line):
            lines.append(line[4:])
            continue
        if lines:
            found.append("\n".join(lines).rstrip() + "\n")
        lines = []
    return found


def block(*marks, without=()):
    """The block with these words, and none of those; there is one."""
    found = [one for one in blocks() if all(mark in one for mark in marks) and not any(mark in one for mark in without)]
    if len(found) != 1:
        raise Stuck(f"docs/OPERATING.md has {len(found)} blocks with {marks}")
    return found[0]


def served_again(lines):
    """Lines that stop and start the register themselves where systemd runs."""
    return f"systemctl stop gridclear\n{lines}systemctl start gridclear\n"


def free_ports(count):
    sockets = [socket.create_server(("127.0.0.1", 0)) for _ in range(count)]
    ports = [one.getsockname()[1] for one in sockets]
    for one in sockets:
        one.close()
    return ports


def wait_until(test, what, seconds=20):
    end = time.monotonic() + seconds
    while time.monotonic() < end:
        if test():
            return
        time.sleep(0.05)
    raise Stuck(f"{what}: not within {seconds} seconds")


class Place:
    """A machine as the guide installs it, in a folder: the register, the page before it, and the server of port 443."""

    def __init__(self, folder, files=tuple(TOP / "examples" / name for name in FILES)):
        self.folder = pathlib.Path(folder)
        self.register_port, self.page, self.tls = free_ports(3)
        self.own, self.etc, self.log, self.srv = (self.folder / name for name in ("own", "etc", "log", "srv"))
        for one in (self.own, self.etc, self.etc / "private", self.log, self.srv, self.folder / "run"):
            one.mkdir(mode=0o755)
        shutil.copytree(TOP / "desk", self.srv / "desk", ignore=shutil.ignore_patterns("run", "files"))
        for name in ("desk/files", "desk/run", "docs"):
            (self.srv / name).mkdir()
        shutil.copy(TOP / "docs" / "refusals.csv", self.srv / "docs")
        for name, beside in (("normal.csv", "normal.csv"), ("journal", "journal"), ("beside", ".")):
            (self.srv / "desk" / "files" / name).symlink_to(self.own / beside)
        (self.etc / "network").mkdir()
        (self.folder / "backups" / "register").mkdir(parents=True)
        for file in files:
            shutil.copy(file, self.etc / "network")
        self.bin, self.lib = self.folder / "bin", self.folder / "lib"
        for one in (self.bin, self.lib):
            one.mkdir()
        for name, text in STANDINS.items():
            self.program(self.bin / name, f"#!/bin/sh\n{text}\n")
        for name in PROGRAMS:
            text = re.sub(r" -o (gridclear|root) -g (\"\$group\"|[a-z-]+)|chown (\"root|gridclear:).*", "", (TOP / "package" / name).read_text(encoding="utf-8"))
            text = text.replace("data=/var/lib/gridclear", "data=$PWD").replace("$(id -u)", "0")
            self.program((self.bin if name == "gridclear-setup" else self.lib) / name, self.here(text, ""))
        config = self.srv / "desk" / "nginx.conf"
        config.write_text(("user root;\n" if ROOT else "") + self.here(config.read_text(encoding="utf-8")), encoding="utf-8")
        self.programs, self.register, self.ends = [], None, False
        self.deadline = ""  # seconds; the package's where there are none

    @staticmethod
    def program(path, text):
        path.write_text(text, encoding="utf-8")
        path.chmod(0o755)

    def here(self, text, password=f" -stdin <<< '{LOGIN[1]}'"):
        """Lines with the folders and ports of this place, and a password where one is asked for."""
        for there, here in (("/srv/gridclear", self.srv), ("/etc/ssl/", f"{self.etc}/"), ("/etc/nginx/", f"{self.etc}/"), ("/var/log/nginx/", f"{self.log}/"),
                            ("/usr/share/gridclear/", f"{self.srv}/desk/"), ("/var/log/gridclear/", f"{self.srv}/desk/run/"),
                            ("127.0.0.1:8080", f"127.0.0.1:{self.register_port}"), ("127.0.0.1:8090", f"127.0.0.1:{self.page}"),
                            ("listen 443", f"listen 127.0.0.1:{self.tls}"), ("/usr/bin/gridclear", GRIDCLEAR), ("/usr/lib/gridclear", self.lib), ("/etc/gridclear", self.etc),
                            ("/var/backups/gridclear", self.folder / "backups"),
                            ("openssl passwd -6", f"openssl passwd -6{password}")):
            text = text.replace(there, str(here))
        return text

    def lines(self, text, folder=None, **words):
        """Runs lines of the guide in the register's folder, or in another; what they print."""
        text = "".join(f"{name}={value}\n" for name, value in words.items()) + self.here(text)
        env = dict(os.environ, GRIDCLEAR=GRIDCLEAR, OWN=str(self.own), PATH=f"{self.bin}:{os.environ['PATH']}")
        done = subprocess.run(["bash", "-ec", text], cwd=folder or self.own, env=env, capture_output=True, text=True, check=False)
        return done.returncode, done.stdout, done.stderr

    def unit(self, name):
        """What starts a unit."""
        text = (TOP / "desk" / f"{name}.service").read_text(encoding="utf-8")
        return next(line.split("=", 1)[1] for line in text.splitlines() if line.startswith("ExecStart="))

    def start(self, line):
        self.programs.append(subprocess.Popen(["bash", "-c", f"exec {self.here(line)}"], cwd=self.own, stdout=subprocess.DEVNULL, stderr=subprocess.DEVNULL))
        return self.programs[-1]

    def start_register(self):
        self.register = self.start(f"env PORT={self.register_port} DEADLINE={self.deadline} RUNTIME_DIRECTORY={self.folder}/run sh {self.lib}/serve")
        wait_until(lambda: socket.socket().connect_ex(("127.0.0.1", self.register_port)) == 0, "the register")

    def stop_register(self, how=signal.SIGTERM):
        self.register.send_signal(how)
        self.register.wait()

    def serve_asks(self):
        """Stops and starts the register for the lines."""
        while not self.ends:
            ask = self.own / "ask"
            if ask.exists():
                word = ask.read_text().strip()
                if word in ("stop", "restart") and self.register and self.register.poll() is None:
                    self.stop_register()
                if word in ("start", "restart"):
                    self.start_register()
                ask.unlink()
            time.sleep(0.02)

    def begin(self):
        status, _, errors = self.lines("gridclear-setup")
        if status:
            raise Stuck(f"gridclear-setup: {errors}")
        self.start_register()
        threading.Thread(target=self.serve_asks, daemon=True).start()
        self.start(self.unit("gridclear-desk"))
        status, _, errors = self.lines(re.sub(r"(?m)^(sed|nginx|rm) .*\n", "", block("openssl req")) + USERS)
        if status:
            raise Stuck(f"certificate and login: {errors}")
        self.front = self.folder / "front.conf"
        user = "user www-data;" if ROOT else ""
        temporary = "".join(f" {name}_temp_path {self.folder}/{name};" for name in ("client_body", "proxy", "fastcgi", "uwsgi", "scgi"))
        self.front.write_text(f"{user} pid {self.folder}/front.pid; error_log {self.log}/error.log; events {{}}\n"
                              f"http {{ access_log off;{temporary}\n{self.here((TOP / 'package' / 'port-443.conf').read_text(encoding='utf-8'))}}}\n", encoding="utf-8")
        self.start(f"nginx -e stderr -c {self.front} -g 'daemon off;'")
        for port in (self.page, self.tls):
            wait_until(lambda port=port: socket.socket().connect_ex(("127.0.0.1", port)) == 0, f"port {port}")

    def end(self):
        self.ends = True
        for one in reversed(self.programs):
            if one.poll() is None:
                one.send_signal(signal.SIGCONT)
                one.terminate()
                one.wait()

    def curl(self, server, path, *words, login=True):
        """The status and the body; 0 without an answer."""
        if server == "8090":
            call = [f"http://127.0.0.1:{self.page}{path}"]
        else:
            call = ["--cacert", f"{self.etc}/register.pem", "--connect-to", f"register.example:443:127.0.0.1:{self.tls}", f"https://register.example{path}"]
            call += ["--user", ":".join(LOGIN)] if login else []
        done = subprocess.run(["curl", "-s", "-m", "30", "-w", "\n%{http_code}", *words, *call], capture_output=True, text=True, check=False)
        body, _, status = done.stdout.rpartition("\n")
        return int(status or 0), body

    def own_site(self, server):
        return f"http://127.0.0.1:{self.page}" if server == "8090" else "https://register.example"
