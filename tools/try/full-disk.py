#!/usr/bin/env python3
"""A disk that is full: registers with a journal on a small tmpfs that has some room left.

However much room there is, no command that `run` or `serve` answered is lost. Once there is room again an
opening succeeds, `verify` says yes, and the commands after those that were carried out are answered as on a
disk that was never full. A server that only an opening can help ends by itself, and one that is started again
and again answers soon after there is room. `init` and `migrate` with a journal make all, or what they left is
named and can be made again. `archive` leaves the rows before or after it. It mounts in a namespace of its own
(unshare, of util-linux). GRIDCLEAR names another program than tools/gridclear."""

import contextlib
import json
import os
import shutil
import subprocess
import sys
import threading
import time

from chain import carried_out, lines_in, place_of
from looks import GRIDCLEAR, TOP, Server, free_port, get, look, main, post, register, replied, run, same
from random_registers import Tables

SIZE = 32 << 20  # bytes of the disk
COMMANDS = 300
ROOMS = [0, 4, 64, 192, 256, 320, 400, 512, 700, 1000, 1400, 2000, 3000]  # kB that a disk has left
CHANGED = [0, 4, 32, 128, 300]
SERVED = [0, 300, 600, 1200]
BEGUN = [0, 4, 8, 16, 32, 64, 100, 200]
HEALED = 5  # seconds in which a server that is started again answers, once there is room
FAULTS = ("fault: journal WriteFailed\n", "fault: journal InDoubt\n", "fault: store Sql\n")


class Shift:
    """Commands that are all accepted, one after the other, and their replies where there is room."""

    def __init__(self, folder):
        words = [str(TOP / "bench" / "shift"), str(COMMANDS), "10", "1", "3", str(folder)]
        subprocess.run(words, check=True, stdout=subprocess.DEVNULL)
        lines = (folder / "shift.jsonl").read_text(encoding="ascii").splitlines()
        self.lines = [line for line in lines if json.loads(line)["do"] != "show"]
        self.files = [folder / f"{name}.csv" for name in ("sections", "points", "staff")]
        self.opening, self.journal = folder / "opening.db", folder / "opening.journal"
        register(self.opening, files=self.files, journal=self.journal)
        self.plain = register(folder / "plain.db", files=self.files)
        status, output, _ = run("run", "--db", register(folder / "whole.db", files=self.files), lines=self.lines)
        self.replies = output.splitlines()
        accepted = sum('"reply":"accepted"' in reply for reply in self.replies)
        same("all commands are accepted", (status, accepted), (0, len(self.lines)))


@contextlib.contextmanager
def disk(folder, room, files, opening=None):
    """A disk with these files and what an opening makes beside them, which is full but for this number of kB."""
    own = folder / "disk"
    own.mkdir(exist_ok=True)
    subprocess.run(["mount", "-t", "tmpfs", "-o", f"size={SIZE}", "none", str(own)], check=True)
    try:
        for name, file in files.items():
            shutil.copy(file, own / name)
        if opening:
            same(f"{room} kB: an opening", run(*opening, folder=own), (0, "", ""))
        left = os.statvfs(own)
        with open(own / "filler", "wb") as filler:
            os.posix_fallocate(filler.fileno(), 0, left.f_bavail * left.f_bsize - room * 1024)
        yield own
    finally:
        subprocess.run(["umount", str(own)], check=True)


def kept(folder, shift, room):
    """The same with an opening register and its journal."""
    return disk(folder, room, {"room.db": shift.opening, "journal": shift.journal}, ["run", "--db", "room.db", "--journal", "journal"])


def over(own):
    return ["run", "--db", own / "room.db", "--journal", own / "journal"]


def has_room_again(title, own, shift, answered):
    """Opens the register, verifies it, and gives the other commands."""
    (own / "filler").unlink()
    same(f"{title}: an opening with room", run(*over(own)), (0, "", ""))
    status, output, errors = run("verify", own / "room.db", own / "journal", *shift.files)
    count = int(output.split()[1]) if status == 0 else -1
    look(f"{title}: verify", answered <= count, (answered, output, errors))
    status, output, errors = run(*over(own), lines=shift.lines[count:])
    is_answered = (status, output.splitlines(), errors) == (0, shift.replies[count:], "")
    look(f"{title}: the others are answered", is_answered, (status, output[-300:], errors))
    wanted = (0, f"verified {len(shift.lines)} commands\n", "")
    found = run("verify", own / "room.db", own / "journal", *shift.files)
    same(f"{title}: verify at the end", found, wanted)


def runs(folder):
    """A run over a disk that becomes full: the replies that it prints are the first ones."""
    shift, ends = Shift(folder), set()
    for room in ROOMS:
        with kept(folder, shift, room) as own:
            status, output, errors = run(*over(own), lines=shift.lines)
            answered = output.splitlines()
            ends.add(errors)
            is_full = status == 1 and errors in FAULTS
            look(f"{room} kB: its end", is_full or (status, errors) == (0, ""), errors)
            are_first = answered == shift.replies[:len(answered)]
            look(f"{room} kB: {len(answered)} replies", are_first, answered[-1:])
            has_room_again(f"{room} kB", own, shift, len(answered))
    look("some of these disks were full", bool(ends & set(FAULTS)), ends)


def servers(folder):
    """A server on a disk that becomes full: 503, and what was answered before is there."""
    shift = Shift(folder)
    for room in SERVED:
        with kept(folder, shift, room) as own:
            answered, status = 0, 200
            with Server(own / "room.db", "--journal", own / "journal") as server:
                while status == 200 and answered < len(shift.lines):
                    status, reply = replied(server.ask(post(shift.lines[answered])))
                    answered += status == 200
                ends_in_doubt(f"served, {room} kB", server)
            look(f"served, {room} kB: {answered} answered, then 503", status == 503, (status, reply))
            has_room_again(f"served, {room} kB", own, shift, answered)


def ends_in_doubt(title, server):
    """A server that cannot know whether a command is kept has ended; another one goes on."""
    for _ in range(20):
        if server.process.poll() is not None:
            same(f"{title}: its end", server.ended(), (1, "fault: journal InDoubt\n"))
            return
        time.sleep(0.05)


class Restarted:
    """A server that is started again whenever it ends, as the package's unit does it."""

    def __init__(self, own):
        self.words, self.is_over = [GRIDCLEAR, "serve", "room.db", "--count", "1000000", "--journal", "journal"], False
        self.own, self.port, self.ends, self.process = own, free_port(), [], None
        self.thread = threading.Thread(target=self.keep)

    def __enter__(self):
        self.thread.start()
        return self

    def __exit__(self, *_):
        self.is_over = True
        while self.thread.is_alive():
            self.process.kill()
            self.thread.join(0.1)

    def keep(self):
        while not self.is_over:
            words = [*self.words, "--port", str(self.port)]
            self.process = subprocess.Popen(words, cwd=self.own, stdout=subprocess.DEVNULL, stderr=subprocess.PIPE, text=True)
            self.ends.append((self.process.communicate()[1], self.process.returncode))
            time.sleep(0.2)

    def ask(self, request, seconds):
        """The status of a response, once it is no 503; None where none comes in time."""
        until = time.monotonic() + seconds
        while time.monotonic() < until:
            with contextlib.suppress(OSError):
                answer = Server.ask(self, request)
                if answer and replied(answer)[0] != 503:
                    return replied(answer)[0]
            time.sleep(0.05)
        return None

    connect = Server.connect


def moments_carried_out(own):
    """How many commands the journal has carried out: a repeat that is sent again is accepted twice, at one moment."""
    lines = [json.loads(line) for line in lines_in((own / "journal").read_bytes())[1:]]
    return len({entry["command"]["at"] for entry in carried_out(lines)})


def heals(folder):
    """Once there is room, a server that is started again answers, and what is lost or carried out the journal says."""
    shift = Shift(folder)
    for room in SERVED[1:]:
        with kept(folder, shift, room) as own, Restarted(own) as server:
            answered = 0
            while answered < len(shift.lines) and server.ask(post(shift.lines[answered]), 1 if answered else 20) == 200:
                answered += 1
            (own / "filler").unlink()
            since, status = time.monotonic(), server.ask(get("/board"), 4 * HEALED)
            look(f"healed, {room} kB: it answers within {HEALED} s", status == 200 and time.monotonic() - since < HEALED, (answered, status, server.ends[-3:]))
            count = moments_carried_out(own)
            look(f"healed, {room} kB: what was answered is there", answered <= count, (answered, count))
            # one whose answer came too late is sent again, and then refused
            statuses = {server.ask(post(line), 20) for line in shift.lines[count:]}
            same(f"healed, {room} kB: all are carried out", (statuses <= {200, 409}, moments_carried_out(own)), (True, len(shift.lines)))
            ends = {end for end in server.ends if end[1] != -9}
        look(f"healed, {room} kB: each end has its line", all(end in [(one, 1) for one in (*FAULTS, "fault: journal OpenFailed\n")] for end in ends), ends)


def begins(folder):
    """`init` and `migrate` with a journal on a full disk: all of it, or what was begun is removed and begun again."""
    shift = Shift(folder)
    run("run", "--db", shift.plain, lines=shift.lines[:50])
    names = [f"{name}.csv" for name in ("sections", "points", "staff")]
    files = dict(zip(names, shift.files))
    for title, held, words in (("init", files, ["init", *names, "--db", "room.db"]), ("migrate", {"room.db": shift.plain}, ["migrate", "room.db"])):
        for room in BEGUN:
            with disk(folder, room, held, None if title == "init" else ["run", "--db", "room.db"]) as own:
                is_begun(f"{title}, {room} kB", own, [*words, "--journal", "journal"])


def is_begun(title, own, words):
    """Where there is room again, register and journal open together, or the journal is removed and begun again."""
    status, _, errors = run(*words, folder=own)
    faults = ("", *FAULTS, "fault: journal OpenFailed\n", "fault: journal Begun\n")
    look(f"{title}: its end", errors in faults and (status == 0) == (errors == ""), (status, errors))
    (own / "filler").unlink()
    if run("run", "--db", "room.db", "--journal", "journal", folder=own) != (0, "", ""):
        look(f"{title}: it did not say that all is made", status == 1, errors)
        (own / "journal").unlink(missing_ok=True)
        same(f"{title}: again", run(*words, folder=own)[::2], (0, ""))
        same(f"{title}: it opens", run("run", "--db", "room.db", "--journal", "journal", folder=own), (0, "", ""))
    same(f"{title}: its place", place_of(own / "room.db").number, 0)




def changes(folder):
    """An archive on a disk that becomes full: the rows are those before or those after it."""
    shift = Shift(folder)
    run("run", "--db", shift.plain, lines=shift.lines)
    changed(folder, shift, ["archive", "room.db", "--before", 4102444799])


def changed(folder, shift, words):
    """It is changed where there is room for it. At a fault nothing is lost, and with room it is done."""
    one = shutil.copy(shift.plain, folder / "room.db")
    before, printed, after = vars(Tables(one)), run(*words, folder=folder), vars(Tables(one))
    for room in CHANGED:
        with disk(folder, room, {"room.db": shift.plain}, ["run", "--db", "room.db"]) as own:
            found = run(*words, folder=own)
            title, left = f"{words[0]}, {room} kB", vars(Tables(own / "room.db"))
            look(f"{title}: its end", found in (printed, (1, found[1], FAULTS[-1])), found)
            look(f"{title}: before or after", left in (before, after), found)
            is_lost = left == after and words[0] == "archive" and found[1] != printed[1]
            look(f"{title}: nothing is lost", not is_lost, found)
            (own / "filler").unlink()
            again = run(*words, folder=own)
            same(f"{title}: again", again, printed if left == before else (0, "", ""))
            same(f"{title}: the rows at the end", vars(Tables(own / "room.db")), after)


def in_namespace():
    """Runs this again where it may mount; without such a place it is left out."""
    unshared = ["unshare", "-Urm"]
    tried = shutil.which("unshare") and subprocess.run([*unshared, "true"], capture_output=True, check=False)
    if not tried or tried.returncode:
        print("left out: a disk that is full: a namespace of its own is not to be made\nall looks were made")
        return
    words = [*unshared, sys.executable, "-B", __file__]
    sys.exit(subprocess.run(words, env={**os.environ, "IN_NAMESPACE": "1"}, check=False).returncode)


if "IN_NAMESPACE" in os.environ:
    main(runs, servers, heals, begins, changes)
else:
    in_namespace()
