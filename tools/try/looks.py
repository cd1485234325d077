"""What the looks of tools/try that are in Python share: the program, registers of examples/, servers, requests, and a line
for each look: `passed: TITLE`, or `differs: TITLE: FOUND`. GRIDCLEAR names another program than tools/gridclear."""

import collections
import concurrent.futures
import contextlib
import json
import multiprocessing
import os
import pathlib
import shutil
import socket
import subprocess
import sys
import tempfile
import time

TOP = pathlib.Path(__file__).resolve().parent.parent.parent
GRIDCLEAR = os.environ.get("GRIDCLEAR", str(TOP / "tools" / "gridclear"))
EXAMPLES = TOP / "examples"
FILES = [str(EXAMPLES / f"{name}.csv") for name in ("sections", "points", "staff")]
ALLOWED = float(os.environ.get("TRY_ALLOWED", "60"))  # seconds for one run of the program; a busy machine needs more

REQUEST = '{"at":1795503600,"by":"JONES","do":"request","section":"L2"}'
REASONS = {200: "OK", 400: "Bad Request", 403: "Forbidden", 404: "Not Found", 405: "Method Not Allowed", 409: "Conflict",
           411: "Length Required", 503: "Service Unavailable"}


def look(title, good, found=""):
    # one write with its line feed: looks are made side by side
    print(f"passed: {title}\n" if good else f"differs: {title}: {str(found)[:1500]}\n", end="", flush=True)


def outcomes_counted(title, outcomes_of, seeds):
    """How often each outcome came, and of how many seeds: of all, or of those that were begun within TRY_SECONDS, if that is set.
    An outcome that begins with `differs: ` is a look that differs. Each processor has a process: threads would wait for each
    other where one of them starts the program."""
    counts, tried, end = collections.Counter(), 0, time.monotonic() + float(os.environ.get("TRY_SECONDS", "inf"))
    with concurrent.futures.ProcessPoolExecutor(os.cpu_count(), multiprocessing.get_context("fork")) as pool:
        futures = [pool.submit(outcomes_of, seed) for seed in seeds]
        for future in futures:
            if time.monotonic() > end:  # all at once: a further one begins as soon as another has ended
                for one in futures:
                    one.cancel()
            if future.cancelled():
                continue
            tried += 1
            for outcome in future.result():
                if outcome.startswith("differs: "):
                    look(title, False, outcome)
                    outcome = "differs"
                counts[outcome] += 1
    return counts, tried


def same(title, found, wanted):
    look(title, found == wanted, f"{found!r}, to be {wanted!r}")


def main(*parts):
    """Carries out the looks, each in a new folder. The last line says that all were made."""
    if "GRIDCLEAR" not in os.environ and subprocess.run([GRIDCLEAR, "--there"], check=False).returncode:
        sys.exit("the program of these sources has to be proved first: set GRIDCLEAR to another, or run tools/gridclear --prove --help")
    for part in parts:
        with tempfile.TemporaryDirectory(prefix="look-") as folder:
            part(pathlib.Path(folder))
    print("all looks were made")


def run(*words, lines=(), folder=None, env=None):
    """The status and both streams of a run over these lines."""
    text = "".join(f"{line}\n" for line in lines)
    done = subprocess.run([GRIDCLEAR, *map(str, words)], input=text, capture_output=True, text=True, timeout=ALLOWED, check=False, cwd=folder, env=env)
    return done.returncode, done.stdout, done.stderr


def shift(count=None):
    """The first commands of the worked shift."""
    return (EXAMPLES / "shift.jsonl").read_text(encoding="ascii").splitlines()[:count]


def register(path, commands=(), files=FILES, journal=None):
    """A new register, after these commands, with a journal if one is named. Returns its path."""
    for old in (path, *([journal] if journal else [])):
        for one in (old, old.with_name(old.name + "-wal")):
            one.unlink(missing_ok=True)
    words = ["--db", path, *(["--journal", journal] if journal else [])]
    status, _, errors = run("init", *files, *words)
    if status == 0 and commands:
        status, _, errors = run("run", *words, lines=commands)
    if status:
        sys.exit(f"a register is not made: {errors}")
    return path


def copied(path, to):
    """A copy of a register, with its log."""
    shutil.copy(path, to)
    log = path.with_name(path.name + "-wal")
    if log.exists():
        shutil.copy(log, to.with_name(to.name + "-wal"))
    return to


def free_port():
    with socket.create_server(("127.0.0.1", 0)) as found:
        return found.getsockname()[1]


def response(status, body, kind="application/json"):
    """A whole response, as the program writes it."""
    body = body.encode()
    head = f"HTTP/1.1 {status} {REASONS[status]}\r\nContent-Type: {kind}\r\nContent-Length: {len(body)}\r\nConnection: close\r\n\r\n"
    return head.encode() + body


def fault(status, name):
    return response(status, f'{{"fault":"{name}"}}')


def get(target, *fields, method="GET"):
    """The bytes of a request without a body."""
    return "\r\n".join([f"{method} {target} HTTP/1.1", *fields, "", ""]).encode()


def post(body, *fields, target="/command"):
    """The bytes of a request with a body."""
    body = body.encode()
    return get(target, *fields, f"Content-Length: {len(body)}", method="POST") + body


def replied(answer):
    """The status and the body of a response; the body as JSON, where it is."""
    head, _, body = answer.partition(b"\r\n\r\n")
    status = int(head.split()[1]) if head else 0
    try:
        return status, json.loads(body)
    except ValueError:
        return status, body.decode()


class Server:
    """A server of a register, which ends with the block that it is used in."""

    def __init__(self, path, *options, count=1000, env=None):
        self.port = free_port()
        words = [GRIDCLEAR, "serve", str(path), "--port", str(self.port), "--count", str(count), *map(str, options)]
        self.process = subprocess.Popen(words, stdout=subprocess.PIPE, stderr=subprocess.PIPE, text=True, env=env)
        self.line = self.process.stdout.readline()

    def __enter__(self):
        if self.line != f"serving 127.0.0.1:{self.port}\n":
            self.process.kill()
            print(f"differs: a server: it prints {self.line!r}, and {self.process.communicate()[1]!r}", flush=True)
            raise SystemExit(1)
        return self

    def __exit__(self, *_):
        if self.process.poll() is None:
            self.process.kill()
        self.process.communicate()

    def connect(self):
        return socket.create_connection(("127.0.0.1", self.port), timeout=ALLOWED)

    def ask(self, request):
        """All bytes of the response to these bytes."""
        found = b""
        with contextlib.suppress(ConnectionError), self.connect() as connection:
            connection.sendall(request)
            while piece := connection.recv(65536):
                found += piece
        return found

    def ended(self):
        """The status and what is on standard error, after the last connection."""
        _, errors = self.process.communicate(timeout=ALLOWED)
        return self.process.returncode, errors

    def killed(self, how=9):
        self.process.send_signal(how)
        self.process.communicate(timeout=ALLOWED)
