"""The part of tools/try-deb that runs two machines, each a Debian with its own systemd, joined by a cable:

    python3 tools/deb/machines.py FIRST SECOND

Each folder is the root of one, with the package in /srv. systemd-nspawn boots them, in the caller's namespaces of mounts,
networks and processes. It ends with a line of two counts."""

import json
import pathlib
import re
import subprocess
import sys
import time

from inside import BACKUPS, COMMAND, DATA, ETC, guide
from tally import Tally

PATH = "PATH=/usr/local/sbin:/usr/local/bin:/usr/sbin:/usr/bin:/sbin:/bin"
ADDRESSES = {"first": "10.9.0.1", "second": "10.9.0.2"}


def wait_for(test, seconds):
    """Whether a test says yes within this time."""
    end = time.monotonic() + seconds
    while not (found := test()) and time.monotonic() < end:
        time.sleep(0.3)
    return found


class Machine:
    """One of the two, in a network of its own that has its name."""

    def __init__(self, name, root):
        self.name, self.root, self.process, self.leader = name, pathlib.Path(root), None, None

    def boot(self):
        call = ["systemd-nspawn", "-q", "--register=no", "--keep-unit", "--boot", "--console=pipe", f"--machine={self.name}", f"--directory={self.root}",
                f"--network-namespace-path=/run/netns/{self.name}"]
        self.process = subprocess.Popen(call, stdin=subprocess.DEVNULL, stdout=subprocess.DEVNULL, stderr=subprocess.DEVNULL)
        children = pathlib.Path(f"/proc/{self.process.pid}/task/{self.process.pid}/children")
        wait_for(lambda: self.process.poll() is not None or children.read_text().split(), 30)
        self.leader = children.read_text().split()[0]
        return wait_for(lambda: self.run("systemctl is-active multi-user.target")[1] == "active\n", 60)

    def off(self):
        self.run("systemctl poweroff")
        self.process.wait(60)

    def run(self, line, stdin=""):
        """A line of a shell there, in /srv: the status, and all that was printed."""
        call = ["nsenter", "-t", self.leader, "-m", "-u", "-i", "-n", "-p", "-C", "env", "-i", PATH, "HOME=/root", "LC_ALL=C.UTF-8", "DEBIAN_FRONTEND=noninteractive",
                "bash", "-c", f"cd /srv; {line}"]
        done = subprocess.run(call, input=stdin, stdout=subprocess.PIPE, stderr=subprocess.STDOUT, text=True, check=False)
        return done.returncode, done.stdout

    def path(self, name):
        return self.root / name

    def page(self, path, *words):
        """The status and the body of a page there, with its head where -i is a word."""
        body, _, status = self.run(f"curl -s -m 20 -w ' %{{http_code}}' {' '.join(words)} http://127.0.0.1:8090{path}")[1].rpartition(" ")
        return status, body

    def state(self, unit, what="ActiveState"):
        return self.run(f"systemctl show --property={what} --value {unit}")[1].strip()

    def row(self, what):
        """What the page is given of the standby, the backup or the disk."""
        status, body = self.page("/keeping")
        rows = json.loads(body)["rows"] if status == "200" else []
        return next((one for one in rows if one["what"] == what), None)


def cable():
    """The networks of the two, and what joins them."""
    lines = ["mount -t tmpfs tmpfs /run", "ip netns add first", "ip netns add second", "ip link add cable netns first type veth peer name cable netns second"]
    for name, address in ADDRESSES.items():
        lines += [f"ip -n {name} link set lo up", f"ip -n {name} addr add {address}/24 dev cable", f"ip -n {name} link set cable up"]
    for line in lines:
        subprocess.run(line.split(), check=True)


def journal(folder):
    """The parts of a journal, and its end, by name."""
    return {one.name: one.read_bytes() for one in [*folder.glob("journal-2*Z"), folder / "journal"] if one.exists()}


# More rows than those of examples/: of a longer file rsync sends what differs alone.
MORE = {"sections": "F{0},no\n", "points": "P{0},L1,F{0},yes,no,open\n", "staff": "W{0},field,\n"}


def begin(first, second, tally):
    print("two machines with systemd", flush=True)
    for one in (first, second):
        tally.check(f"the {one.name} boots", one.boot())
        status, out = one.run("echo 10.9.0.1 room1 >> /etc/hosts; echo 10.9.0.2 room2 >> /etc/hosts; apt-get install -y ./gridclear_*_amd64.deb")
        tally.check(f"the package, on the {one.name}", status == 0, out)
    for name, row in MORE.items():
        with open(first.path(f"srv/{name}.csv"), "a", encoding="utf-8") as file:
            file.writelines(row.format(number) for number in range(100, 400))
    status, out = first.run("; ".join(["set -e", *guide("apt install")[1:]]))
    tally.check("the guide's lines, on the first", status == 0 and wait_for(lambda: first.page("/board") == ("200", "BOARD 0\n"), 20), out)


def follows(first, second, tally, what, seconds=45):
    """The standby has all that the first has, each line once, without anybody's doing; and the first knows of it."""
    begun = time.time()
    same = wait_for(lambda: journal(first.path(DATA)) == journal(second.path(f"{DATA}/received")), seconds)
    out = "" if same else second.run("journalctl -o cat -n 12 -u gridclear-follow")[1]
    tally.check(f"{what}: the standby follows", same, out)
    fresh = wait_for(lambda: (first.row("standby") or {}).get("at") and first.row("standby")["at"] >= begun - 1, 45)
    tally.check(f"{what}: the first's page has when it had all", fresh, first.row("standby"))


def joined(first, second, tally):
    """The guide's lines for a standby."""
    print("a standby by ssh, with Debian's rsync", flush=True)
    written = wait_for(lambda: first.row("disk"), 20)
    tally.check("the page has the disk, and that there is no backup, and no standby", written and first.row("backup")["at"] is None and first.row("standby") is None, first.page("/keeping"))
    lines = guide("ssh-keygen")
    status, out = second.run(f"cd /{DATA}; set -e; {lines[0]}; {lines[1]}")
    key = second.path(f"{DATA}/.ssh/id_ed25519.pub")
    tally.check("a key", status == 0 and key.exists(), out)
    first.run(f"mkdir -p /root/.ssh; cat >> /root/.ssh/authorized_keys; chmod -R go= /root/.ssh", key.read_text() if key.exists() else "")
    status, out = second.run(f"cd /{DATA}; {lines[2].replace('ssh ', 'ssh -o StrictHostKeyChecking=accept-new ')} && {lines[3]}")
    tally.check("it is enabled", status == 0 and second.state("gridclear-follow.timer") == "active", out)
    follows(first, second, tally, "at first")
    row = first.row("standby") or {}
    tally.check("the row has the line", re.fullmatch(r"has line \d+", row.get("says", "")) and (row["limit"], row["alarm"]) == (60, False), row)
    owners = second.run(f"stat -c '%a %U' /{DATA}/received /{DATA}/received/journal")[1]
    tally.check("what came is the register's user's", owners == "700 gridclear\n640 gridclear\n", owners)
    lines = [line for one in (first, second) for line in one.run("journalctl -o cat -u gridclear-follow -u gridclear-keeping | grep -v 'configure loopback'")[1].splitlines()]
    tally.check("calls that go well leave no line in the system's journal", len(lines) <= 2, lines)
    # From here on they follow quickly: nothing is waited for that was seen.
    for one, unit in ((first, "keeping"), (second, "keeping"), (first, "follow"), (second, "follow")):
        drop = one.path(f"etc/systemd/system/gridclear-{unit}.timer.d")
        drop.mkdir(parents=True)
        (drop / "quick.conf").write_text("[Timer]\nOnCalendar=\nOnCalendar=*:*:00/3\n")
        one.run(f"systemctl daemon-reload; ! systemctl is-active -q gridclear-{unit}.timer || systemctl restart gridclear-{unit}.timer")


def goes_on(first, second, tally):
    """Updates, a rotation, a restore, a restart of the first, and a cable that is pulled."""
    print("it goes on", flush=True)
    network = first.path(f"{ETC}/network")
    for number in (1, 2):
        for name, row in (("sections", f"L{number}9,no\n"), ("points", f"S{number}9,L1,L{number}9,yes,no,open\n"), ("staff", f"ADA{number},charge,\n")):
            with open(network / f"{name}.csv", "a", encoding="utf-8") as file:
                file.write(row)
        status, out = first.run("gridclear-setup --update --yes")
        tally.check("an update", status == 0 and f"employee ADA{number} comes" in out, out)
        follows(first, second, tally, f"after update {number}")
        status, out = first.run(f"cd /{DATA}; cat normal.csv staff-now.csv | md5sum")
        tally.check("its files came", status == 0 and second.run(f"cd /{DATA}/received; cat normal.csv staff-now.csv | md5sum") == (0, out), out)
    first.run(f"curl -s -d '{COMMAND}' http://127.0.0.1:8090/command")
    follows(first, second, tally, "a command more")
    for what, line in (("a rotation", "gridclear-setup --rotate"), ("two rotations", f"gridclear-setup --rotate; curl -s -d '{COMMAND}' http://127.0.0.1:8090/command; gridclear-setup --rotate")):
        status, out = first.run(line)
        tally.check(what, status == 0, out)
        follows(first, second, tally, f"after {what}")
    status, out = first.run("systemctl start gridclear-backup")
    row = first.row("backup") or {}
    kept = wait_for(lambda: (first.row("backup") or {}).get("at"), 20)
    tally.check("the page has the backup, and that it was verified", status == 0 and kept and time.time() - kept < 60 and re.fullmatch(r"verified \d+ commands", first.row("backup")["says"]), f"{out} {row}")
    lines = "; ".join(guide("$backup"))
    status, out = first.run(f"backup=$(ls -d /{BACKUPS}/2*Z | tail -n 1); cd /{DATA}; set -e; {lines}")
    tally.check("a restore of the first, with its journal", status == 0 and "verified " in out, out)
    first.run(f"curl -s -d '{COMMAND}' http://127.0.0.1:8090/command")
    follows(first, second, tally, "after a restore")


def away(first, second, tally):
    """The first is switched off and on; the cable is pulled and put back."""
    first.off()
    failed = wait_for(lambda: second.state("gridclear-follow", "Result") == "exit-code" or second.state("gridclear-follow") == "failed", 60)
    tally.check("while the first is off, the unit says so", failed, second.run("systemctl status gridclear-follow"))
    tally.check("it boots again", first.boot())
    wait_for(lambda: first.page("/board")[0] == "200", 20)
    first.run(f"curl -s -d '{COMMAND}' http://127.0.0.1:8090/command")
    follows(first, second, tally, "after a restart of the first machine", 60)
    subprocess.run(["ip", "-n", "second", "link", "set", "cable", "down"], check=True)
    first.run(f"curl -s -d '{COMMAND}' http://127.0.0.1:8090/command")
    begun = time.time()
    failed = wait_for(lambda: second.state("gridclear-follow") == "failed", 60)
    tally.check("a call over a dead line ends", failed, second.run("systemctl status gridclear-follow"))
    time.sleep(max(0, begun + 65 - time.time()))
    row, written = first.row("standby"), json.loads(first.page("/keeping")[1])["written"]
    tally.check("after a minute without it the first's page has a reason for its alarm", row and time.time() - row["at"] > row["limit"] and time.time() - written < 20, row)
    subprocess.run(["ip", "-n", "second", "link", "set", "cable", "up"], check=True)
    follows(first, second, tally, "once the line is back")


def pauses(first, tally):
    """A register that ends again and again, and then is killed once."""
    print("the pause after a fault", flush=True)
    first.run(f"printf 'login,employee\\nOPS,NOBODY\\n' > /{ETC}/logins.csv; systemctl kill -s KILL gridclear")
    waits = wait_for(lambda: "this start waits 8 s" in first.run("systemctl status gridclear")[1], 60)
    status = first.run("systemctl status gridclear")[1]
    tally.check("systemctl status has the pause, and that the register is not running", waits and "Active: activating (start-pre)" in status, status)
    status, body = first.page("/board", "-i")
    tally.check("the page says that it comes back by itself", status == "502" and "Retry-After: 5" in body and "starts again by itself" in body and "text/plain" in body, body)
    status, body = first.page("/command", "-d", f"'{COMMAND}'")
    log = first.path("var/log/gridclear/commands.log").read_text().splitlines()[-1]
    tally.check("a command too, and it is in the log", status == "502" and "starts again by itself" in body and '"status":502' in log and "JONES" in log, f"{body} {log}")
    first.run(f"rm /{ETC}/logins.csv")
    begun = time.monotonic()
    tally.check("it comes back within 10 seconds", wait_for(lambda: first.page("/board")[0] == "200", 30) and time.monotonic() - begun < 11, time.monotonic() - begun)
    first.run("systemctl kill -s KILL gridclear")
    begun = time.monotonic()
    time.sleep(0.5)
    back = wait_for(lambda: first.page("/board")[0] == "200", 30)
    tally.check("a kill after these faults costs some seconds", back and time.monotonic() - begun < 6, time.monotonic() - begun)
    first.run(f"printf 'login,employee\\nOPS,NOBODY\\n' > /{ETC}/logins.csv; systemctl restart gridclear")
    waits = wait_for(lambda: first.state("gridclear") == "activating", 20)
    status, out = first.run("gridclear-setup --update")
    back = wait_for(lambda: first.page("/board")[0] == "200", 10)
    tally.check("an update that was cut off is given again, and the register is started", waits and status == 0 and "NOBODY is gone" in out and back, out)
    first.run(f"rm /{ETC}/logins.csv; systemctl restart gridclear")
    wait_for(lambda: first.page("/board")[0] == "200", 10)


def take_over(first, second, tally):
    """The first is off, the second takes its place; then the first returns, and follows it."""
    print("a take-over, and the first's return", flush=True)
    follows(first, second, tally, "before it")
    board, last = first.page("/board"), journal(first.path(DATA))
    subprocess.run(["ip", "-n", "second", "link", "set", "cable", "down"], check=True)
    first.run("""curl -s -d '{"at":4102444700,"by":"BOSS","do":"request","section":"L3"}' http://127.0.0.1:8090/command""")
    first.off()
    subprocess.run(["ip", "-n", "second", "link", "set", "cable", "up"], check=True)
    status, out = second.run("; ".join([f"cd /{DATA}", "set -e", *guide("--restore received")]))
    tally.check("the guide's lines, on the second", status == 0 and "verified " in out, out)
    tally.check("it has the board", wait_for(lambda: second.page("/board") == board, 20), second.page("/board"))
    tally.check("and the journal", journal(second.path(DATA)) == last, journal(second.path(DATA)).keys())
    time.sleep(8)
    tally.check("with a register of its own it follows nobody", second.state("gridclear-follow") != "active" and second.state("gridclear-follow", "ConditionResult") == "no", second.run("systemctl status gridclear-follow"))
    subprocess.run(["ip", "-n", "first", "link", "set", "cable", "down"], check=True)
    first.boot()
    status, out = first.run("; ".join([f"cd /{DATA}", "set -e", *guide("mkdir first"), "cd first", "/usr/lib/gridclear/log | tail -n 1"]))
    tally.check("the first is set aside, and says what the second lacks", status == 0 and "BOSS/" in out, out)
    subprocess.run(["ip", "-n", "first", "link", "set", "cable", "up"], check=True)
    lines = [line.replace("room1", "room2").replace("ssh root", "ssh -o StrictHostKeyChecking=accept-new root") for line in guide("ssh-keygen")]
    first.run(f"cd /{DATA}; {lines[0]}; {lines[1]}")
    second.run("mkdir -p /root/.ssh; cat >> /root/.ssh/authorized_keys; chmod -R go= /root/.ssh", first.path(f"{DATA}/.ssh/id_ed25519.pub").read_text())
    status, out = first.run(f"cd /{DATA}; {lines[2]} && {lines[3]}")
    tally.check("its lines as a standby", status == 0, out)
    second.run(f"curl -s -d '{COMMAND}' http://127.0.0.1:8090/command")
    follows(second, first, tally, "the first, once it is back")


def main():
    first, second, tally = Machine("first", sys.argv[1]), Machine("second", sys.argv[2]), Tally()
    cable()
    try:
        begin(first, second, tally)
        joined(first, second, tally)
        goes_on(first, second, tally)
        away(first, second, tally)
        pauses(first, tally)
        take_over(first, second, tally)
    finally:
        for one in (first, second):
            if one.process and one.process.poll() is None:
                one.off()
    print(f"{tally.passed} {tally.failed}")


if __name__ == "__main__":
    main()
