"""The part of tools/try-deb that runs in a Debian of its own, with processes, mounts and ports of its own:

    python3 tools/deb/inside.py ROOT

ROOT has what the package depends on, and in /srv the packages and files. It ends with a line of two counts."""

import json
import lzma
import os
import pathlib
import re
import subprocess
import sys
import time

from tally import Tally

TOP = pathlib.Path(__file__).resolve().parent.parent.parent
COMMAND = '{"at":1795503600,"by":"JONES","do":"request","section":"L2"}'
DATA, LOGS, ETC, BACKUPS = "var/lib/gridclear", "var/log/gridclear", "etc/gridclear", "var/backups/gridclear/register"


class Root:
    def __init__(self, folder):
        self.folder = pathlib.Path(folder)

    def run(self, line, stdin=""):
        """A line of a shell in it, in /srv: the status, and all that was printed."""
        call = ["chroot", str(self.folder), "bash", "-c", f"cd /srv; {line}"]
        env = {"PATH": "/usr/local/sbin:/usr/local/bin:/usr/sbin:/usr/bin:/sbin:/bin", "HOME": "/root", "LC_ALL": "C.UTF-8", "DEBIAN_FRONTEND": "noninteractive"}
        done = subprocess.run(call, env=env, input=stdin, stdout=subprocess.PIPE, stderr=subprocess.STDOUT, text=True, check=False)
        return done.returncode, done.stdout

    def path(self, name):
        return self.folder / name

    def owner(self, name):
        """The mode and owners of a path."""
        return self.run(f"stat -c '%a %U:%G' /{name}")[1].strip()

    def curl(self, path, *words, port=8090):
        quoted = " ".join(f"'{word}'" for word in words)
        found = self.run(f"curl -s -m 20 -w ' %{{http_code}}' {quoted} http://127.0.0.1:{port}{path}")[1]
        body, _, status = found.rpartition(" ")
        return status, body

    def register(self):
        """The bytes of the register; it is stopped."""
        return {one.name: one.read_bytes() for one in self.path(DATA).glob("room.db*")}


def guide(mark):
    """The lines of the guide in the block that has this word."""
    text = (TOP / "docs" / "OPERATING.md").read_text(encoding="utf-8")
    found = [one for one in re.findall(r"(?:^    .*\n)+", text, re.M) if mark in one]
    if len(found) != 1:
        sys.exit(f"try-deb: docs/OPERATING.md has {len(found)} blocks with {mark}")
    return re.sub(r"^    ", "", found[0], flags=re.M).splitlines()


def install(root, tally):
    print("the lines of the guide", flush=True)
    printed = ""
    for line in guide("apt install"):
        status, out = root.run(line)
        tally.check(f"{line}", status == 0, out)
        printed += out
    tally.check("the files were counted, and looked at", "sections 5 points 5 staff 6" in printed and "look: employee KIM may hold" in printed and "look: point T1 can be locked" in printed, printed)
    status, out = root.run("; ".join(guide("cd /var/lib/gridclear")))
    tally.check("the user reads the files", status == 0 and "employee KIM may hold" in out and "point T1 can be locked" in out, out)
    tally.check("the register answers", root.curl("/board", port=8080) == ("200", "BOARD 0\n"), root.curl("/board", port=8080))
    status, page = root.curl("/")
    tally.check("the page is there", status == "200" and "gridclear desk" in page, page)
    tally.check("and its files", all(root.curl(path)[0] == "200" for path in ("/page.js", "/clearances/offers.js")) and root.curl("/normal")[1] == (TOP / "examples" / "points.csv").read_text())
    tally.check("and the table of refusals", root.curl("/replies/refusals.csv") == ("200", (TOP / "docs/refusals.csv").read_text()))
    tally.check("and the network", root.curl("/network")[1].startswith('{"points":[{"from":"G"'), root.curl("/network"))
    tally.check("a command by the page", root.curl("/command", "-d", COMMAND)[0] == "200")
    tally.check("a page of another site is refused", root.curl("/board", "-H", "Sec-Fetch-Site: cross-site")[0] == "403")
    tally.check("and in the journal, which the page reads", root.curl("/journal")[1].count('"number":1,') == 1, root.curl("/journal"))
    log = root.path(f"{LOGS}/commands.log").read_text()
    tally.check("the log has it", log.count("\n") == 1 and "JONES" in log, log)
    time.sleep(1)
    log = root.path(f"{LOGS}/refused.log")
    tally.check("what was refused is in a log", log.exists() and '"refused":"site","status":403,"request":"GET /board ' in log.read_text(), log.exists())
    normal = root.curl("/normal")
    root.run("sed -i s/closed/open/ /etc/gridclear/network/points.csv")
    tally.check("the normal positions are the register's own copy", normal[0] == "200" and "closed" in normal[1] and root.curl("/normal") == normal, normal)
    root.run("cp points.csv /etc/gridclear/network")
    wanted = {DATA: "750 gridclear:www-data", f"{DATA}/room.db": "600 gridclear:gridclear", f"{DATA}/staff.csv": "600 gridclear:gridclear",
              f"{DATA}/journal": "640 gridclear:www-data", f"{DATA}/normal.csv": "640 gridclear:www-data", f"{LOGS}/refused.log": "640 www-data:adm", BACKUPS: "700 gridclear:gridclear", LOGS: "2750 www-data:adm",
              f"{LOGS}/commands.log": "640 www-data:adm", ETC: "755 root:root", f"{ETC}/gridclear.conf": "644 root:root"}
    for name, owner in wanted.items():
        tally.check(f"/{name} is {owner}", root.owner(name) == owner, root.owner(name))
    owners = root.run("ps -eo user:20,args | grep -E 'gridclear (serve)|nginx: ' | grep -v grep")[1]
    tally.check("neither runs as root", len(owners.splitlines()) == 3 and "root" not in owners, owners)


def refusals(root, tally):
    print("gridclear-setup over a register, and with other files", flush=True)
    root.run("systemctl stop gridclear")
    before = root.register()
    status, out = root.run("gridclear-setup")
    tally.check("it refuses over a register", status == 1 and "is a register already" in out and root.register() == before, out)
    tally.check("--check makes nothing", root.run("gridclear-setup --check")[0] == 0 and root.register() == before)
    status, out = root.run("gridclear-setup --board")
    tally.check("--board prints it", status == 0 and out.startswith("BOARD 1\nJONES/1"), out)
    status, out = root.run("sed -i 's/^OFFSET=.*/OFFSET=-300/' /etc/gridclear/gridclear.conf; gridclear-setup --board")
    tally.check("by the clock of OFFSET", status == 0 and "-05:00 JONES" in out, out)
    root.run("systemctl start gridclear")
    status, out = root.run("gridclear-setup --board")
    tally.check("not while it is served", status == 1 and "is served" in out, out)
    status, out = root.run("gridclear-setup --login OPS NOBODY", "a word\n")
    tally.check("a login speaks as employees alone", status == 1 and "nobody in" in out and not root.path(f"{ETC}/users").exists(), out)
    for words in ("XX D..E", "OPS 'OPS|KIM'", "ops OPS", f"{'A' * 25} OPS"):
        status, out = root.run(f"gridclear-setup --login {words}", "a word\n")
        tally.check(f"--login {words} is refused", status == 1 and "is not a name" in out and not root.path(f"{ETC}/logins.csv").exists(), out)
    for call in ("--login", "--remove-login", "--restore", "--other"):
        tally.check(f"{call} is no call", root.run(f"gridclear-setup {call}")[0] == 2)
    for name, old, new in (("staff", "operator", "field"), ("sections", "yes", "no"), ("points", "S2,", "s2,")):
        file = root.path(f"{ETC}/network/{name}.csv")
        text = file.read_text()
        file.write_text(text.replace(old, new))
        status, out = root.run("gridclear-setup --check")
        tally.check(f"{name}.csv with {new} for {old} is refused", status == 1, out)
        file.write_text(text)


def logins(root, tally):
    print("logins, ports, and the log's rotation", flush=True)
    status, out = root.run("gridclear-setup --login OPS && gridclear-setup --login OPS && gridclear-setup --login KIM && systemctl restart gridclear-desk", "a word\n")
    tally.check("an empty password is none", status == 1, out)
    for name, word in (("OPS", "first"), ("KIM", "other"), ("OPS", "second")):
        status, out = root.run(f"gridclear-setup --login {name}", f"{word}\n")
        tally.check(f"a login for {name}", status == 0, out)
    tally.check("the logins are nginx's alone", root.owner(f"{ETC}/users") == "640 root:www-data", root.owner(f"{ETC}/users"))
    root.run("systemctl restart gridclear-desk")
    found = [root.curl("/board", *words)[0] for words in ((), ("-u", "OPS:first"), ("-u", "OPS:second"), ("-u", "KIM:other"))]
    tally.check("the page asks for it", found == ["401", "401", "200", "200"], found)
    port_443(root, tally)
    config = root.path(f"{ETC}/gridclear.conf")
    config.write_text(config.read_text().replace("=8080", "=8180").replace("=8090", "=8190"))
    root.run("systemctl restart gridclear gridclear-desk")
    found = root.curl("/board", port=8180)[0], root.curl("/board", "-u", "OPS:second", port=8190)[0], root.curl("/board")[0]
    tally.check("other ports", found == ("200", "200", "000"), found)
    config.write_text(config.read_text().replace("=8180", "=8080").replace("=8190", "=8090"))
    employees(root, tally)
    removed(root, tally)
    root.run("rm /etc/gridclear/users /etc/gridclear/logins.csv; systemctl restart gridclear gridclear-desk")
    given = root.path(f"{LOGS}/commands.log").read_text().count("\n")
    status, out = root.run("logrotate -f /etc/logrotate.d/gridclear")
    time.sleep(2)
    root.curl("/command", "-d", COMMAND)
    time.sleep(2)
    logs = {one.name: one.read_text().count("\n") for one in root.path(LOGS).glob("commands*")}
    tally.check("the log is rotated, and goes on", status == 0 and logs == {"commands.log": 1, "commands.log.1": given}, f"{out} {logs}")
    tally.check("the new one is nobody else's", root.owner(f"{LOGS}/commands.log") == "640 www-data:adm", root.owner(f"{LOGS}/commands.log"))


def employees(root, tally):
    """A login that is one of employees speaks as these; with the first one, each other speaks as nobody."""
    for call in ("OPS OPS REED", "KIM KIM", "OPS OPS REED DALE"):
        status, out = root.run(f"gridclear-setup --login {call}", f"of {call[:3]}\n")
        tally.check(f"--login {call}", status == 0, out)
    tally.check("the rows", root.path(f"{ETC}/logins.csv").read_text() == "login,employee\nKIM,KIM\nOPS,OPS\nOPS,REED\nOPS,DALE\n", root.path(f"{ETC}/logins.csv").read_text())
    tally.check("the rows are root's to change", root.owner(f"{ETC}/logins.csv") == "644 root:root", root.owner(f"{ETC}/logins.csv"))
    root.run("systemctl restart gridclear gridclear-desk")
    command = '{"at":1795503700,"by":"%s","do":"request","section":"L2"}'
    found = [root.curl("/command", "-u", f"{login}:of {login}", "-d", command % name)[0] for login, name in (("OPS", "KIM"), ("KIM", "OPS"), ("KIM", "KIM"))]
    tally.check("a login speaks as its employees", found == ["403", "403", "200"], found)
    found = root.curl("/command", "-H", "X-Forwarded-User: OPS", "-u", "KIM:of KIM", "-d", command % "OPS")
    tally.check("nobody names another login", found == ("403", '{"fault":"NotCaller"}'), found)


def removed(root, tally):
    """Logins are listed, and removed; the last one opens nothing."""
    status, out = root.run("gridclear-setup --logins")
    tally.check("the logins", status == 0 and out == "KIM: KIM\nOPS: OPS REED DALE\n", out)
    status, out = root.run("gridclear-setup --remove-login KIM && systemctl restart gridclear gridclear-desk")
    found = [root.curl("/board", "-u", f"{name}:of {name}")[0] for name in ("KIM", "OPS")]
    tally.check("one is removed", status == 0 and found == ["401", "200"] and root.run("gridclear-setup --logins")[1] == "OPS: OPS REED DALE\n", f"{out} {found}")
    status, out = root.run("gridclear-setup --remove-login OPS && systemctl restart gridclear gridclear-desk")
    found = root.curl("/board")[0], root.curl("/board", "-u", "OPS:of OPS")[0], root.curl("/clearance/OPS/JONES/1", port=8080)[0]
    tally.check("without the last one nobody comes in", status == 0 and found == ("401", "401", "403"), f"{out} {found}")
    tally.check("what is left has its owners", [root.owner(f"{ETC}/{name}") for name in ("users", "logins.csv")] == ["640 root:www-data", "644 root:root"])


def backup(root, tally):
    """gridclear-backup.service, while commands come."""
    print("backups", flush=True)
    ask = f"while [ -e /srv/go ]; do curl -s -d '{COMMAND}' http://127.0.0.1:8080/command >/dev/null; sleep 0.2; done"
    root.run(f"touch go; ({ask}) >/dev/null 2>&1 &")
    status, out = root.run("systemctl start gridclear-backup; s=$?; rm go; cat /run/gridclear-backup.out; exit $s")
    first = list(root.path(BACKUPS).iterdir())
    tally.check("a backup while commands come", status == 0 and len(first) == 1 and ": verified " in out, out)
    held = {"room.db", "journal", "began.db", "sections.csv", "points.csv", "staff.csv", "verified"}
    tally.check("it has the register, the journal and the files", held <= {one.name for one in first[0].iterdir()}, list(first[0].iterdir()))
    olds = [f"20{year}-01-01T000000.000Z" for year in (20, 21, 22)]
    root.run(f"cd /{BACKUPS}; for old in {' '.join(olds)}; do cp -a {first[0].name} $old; done; touch -d '40 days ago' *; systemctl stop gridclear; cp -p {first[0].name}/room.db /srv/older.db")
    root.run(f"systemctl start gridclear; curl -s -d '{COMMAND}' http://127.0.0.1:8080/command; systemctl start gridclear-backup")
    names = sorted(one.name for one in root.path(BACKUPS).iterdir())
    tally.check("it is kept for 30 days, and the last three longer", len(names) == 3 and names[:2] == [olds[2], first[0].name], names)
    root.run(f"rm -r /{BACKUPS}/{olds[2]} /{BACKUPS}/{first[0].name}")
    meanwhile(root, tally)
    status, out = root.run(f"{guide('--rotate')[0]}; cat /{DATA}/journal")
    tally.check("the journal is rotated, and the register served again", status == 0 and "the part before is" in out and out.count('"journal":"') == 1 and root.curl("/board", port=8080)[0] == "200", out)
    status, out = root.run(f"rm -f /run/gridclear-backup.out; curl -s -d '{COMMAND}' http://127.0.0.1:8080/command; "
                           "sleep 1; systemctl start gridclear-backup; s=$?; cat /run/gridclear-backup.out; exit $s")
    tally.check("a backup of a rotated journal", status == 0 and ": verified " in out and "made from the journal" not in out, out)
    parts = {one.name: one.read_bytes() for one in [*root.path(DATA).glob("journal-2*Z"), root.path(f"{DATA}/journal")]}
    newest = max(root.path(BACKUPS).iterdir(), key=lambda one: one.name)
    tally.check("it has all parts", len(parts) == 2 and {one.name: one.read_bytes() for one in newest.glob("journal*")} == parts, parts.keys())
    tally.check("the new part is the page's to read", root.owner(f"{DATA}/journal") == "640 gridclear:www-data", root.owner(f"{DATA}/journal"))
    root.run(f"systemctl stop gridclear; cp -p /{DATA}/room.db /srv/newer.db; rm /{DATA}/room.db*; cp -p /srv/older.db /{DATA}/room.db; rm -f /run/gridclear-backup.out")
    status, out = root.run("sleep 1; systemctl start gridclear-backup; s=$?; cat /run/gridclear-backup.out; exit $s")
    tally.check("an older register beside its journal is a backup too", status == 0 and "made from the journal" not in out and ": verified " in out, out)
    root.run(f"cd /{DATA}; rm -f room.db*; cp -p /srv/newer.db room.db; sqlite3 room.db 'UPDATE clearance SET last_at = last_at - 1'; rm -f /run/gridclear-backup.out")
    status, out = root.run("sleep 1; systemctl start gridclear-backup; s=$?; cat /run/gridclear-backup.out; exit $s")
    tally.check("a register that verify finds is made again from the journal", status == 0 and "was made from the journal" in out and ": verified " in out, out)
    root.run(f"rm /{DATA}/room.db*; cp -p /srv/newer.db /{DATA}/room.db; mv /{DATA}/journal /srv; rm -f /run/gridclear-backup.out")
    status, out = root.run("systemctl start gridclear-backup; s=$?; cat /run/gridclear-backup.out; exit $s")
    tally.check("without a journal there is none", status != 0 and "has no journal" in out and not list(root.path(BACKUPS).glob("*.part")), out)
    root.run(f"mv /srv/journal /{DATA}; systemctl start gridclear")
    status, out = root.curl("/journals/")
    names = [one["name"] for one in json.loads(out) if one["name"].startswith("journal-2")] if status == "200" else [status]
    found = [root.curl(f"/journals/{name}") for name in names]
    tally.check("the page gets the part too", len(names) == 1 and found[0][0] == "200" and found[0][1].encode() == parts.get(names[0]), names)
    tally.check("and nothing besides of that folder", {root.curl(f"/journals/{name}")[0] for name in ("room.db", "staff.csv", "journal-2/../room.db")} <= {"404", "403"})


def meanwhile(root, tally):
    """Two calls at once; and a call while systemd waits until it starts the register again."""
    status, out = root.run(f"(flock /{DATA} sleep 8 &); sleep 0.5; gridclear-setup --rotate")
    tally.check("while another call is under way it does nothing", status == 1 and "another call is under way" in out and not list(root.path(DATA).glob("journal-2*Z")), out)
    status, out = root.run(f"(flock /{BACKUPS} sleep 2 &); sleep 0.5; cd /{DATA}; runuser -u gridclear -- /usr/lib/gridclear/backup")
    tally.check("a second backup does nothing meanwhile", status == 1 and "another backup is under way" in out, out)
    status, out = root.run("systemctl stop gridclear; touch /run/gridclear.activating; sleep 3; gridclear-setup --update --yes; s=$?; rm /run/gridclear.activating; sleep 1; exit $s")
    tally.check("a register that waits for its next start is started", status == 0 and root.curl("/board", port=8080)[0] == "200", out)


OWNERS = {f"{DATA}/journal": "640 gridclear:www-data", f"{DATA}/room.db": "600 gridclear:gridclear", f"{DATA}/points.csv": "600 gridclear:gridclear",
          f"{DATA}/normal.csv": "640 gridclear:www-data", f"{ETC}/users": "640 root:www-data", f"{ETC}/logins.csv": "644 root:root", f"{ETC}/gridclear.conf": "644 root:root"}


def restore(root, tally):
    """A backup with logins and configuration, put back on a machine that has none, and over one."""
    print("restores", flush=True)
    root.run("gridclear-setup --login OPS OPS REED; echo '# ours' >> /etc/gridclear/gridclear.conf; systemctl restart gridclear gridclear-desk", "a word\n")
    root.run("sleep 1; systemctl start gridclear-backup")
    copy = max(root.path(BACKUPS).iterdir(), key=lambda one: one.name)
    etc = {name: root.path(f"{ETC}/{name}").read_bytes() for name in ("users", "logins.csv", "gridclear.conf")}
    tally.check("a backup has logins and configuration", all((copy / name).exists() and (copy / name).read_bytes() == text for name, text in etc.items()), list(copy.iterdir()))
    words = "-u", "OPS:a word"
    board = root.curl("/board", *words)
    lines = "; ".join(guide("$backup"))
    clean = f"systemctl stop gridclear; rm -rf /{DATA}/* /{ETC}/users /{ETC}/logins.csv; dpkg-deb --fsys-tarfile gridclear_*.deb | tar -xO ./etc/gridclear/gridclear.conf > /{ETC}/gridclear.conf"
    status, out = root.run(f"{clean}; backup=/{BACKUPS}/{copy.name}; cd /{DATA}; set -e; {lines}")
    tally.check("on a machine without a register", status == 0 and ": verified" not in out and "verified " in out, out)
    for name, owner in OWNERS.items():
        tally.check(f"/{name} is {owner}", root.owner(name) == owner, root.owner(name))
    tally.check("logins and configuration are those of the backup", all(root.path(f"{ETC}/{name}").exists() and root.path(f"{ETC}/{name}").read_bytes() == text for name, text in etc.items()), out)
    tally.check("its board, which asks for the login", root.curl("/board", *words) == board and root.curl("/board")[0] == "401", root.curl("/board", *words))
    found = root.curl("/journal", *words)
    tally.check("the page gets its log", found[0] == "200" and found[1].encode() == (copy / "journal").read_bytes(), found[0])
    tally.check("and normal positions", root.curl("/normal", *words) == ("200", (TOP / "examples" / "points.csv").read_text()), root.curl("/normal", *words))
    root.run("gridclear-setup --login KIM KIM; gridclear-setup --remove-login OPS", "other\n")
    status, out = root.run(f"backup=/{BACKUPS}/{copy.name}; cd /{DATA}; set -e; {lines}")
    tally.check("logins of this machine stay", status == 0 and "look: /etc/gridclear/users is another" in out and root.run("gridclear-setup --logins")[1] == "KIM: KIM\n", out)
    root.run("rm /etc/gridclear/users /etc/gridclear/logins.csv; systemctl restart gridclear gridclear-desk")


def update(root, tally):
    """Network and staff change while a crew is at work."""
    print("updates", flush=True)
    network = root.path(f"{ETC}/network")
    was = {name: (network / f"{name}.csv").read_text() for name in ("sections", "points", "staff")}
    shift = (TOP / "examples" / "held.jsonl").read_text().splitlines()
    root.run("systemctl restart gridclear gridclear-desk; while read -r line; do curl -s -d \"$line\" http://127.0.0.1:8080/command; done", "\n".join(shift) + "\n")
    root.run("gridclear-setup --login DAY KIM DALE; systemctl restart gridclear gridclear-desk", "a word\n")
    (network / "points.csv").write_text(was["points"].replace("S2,L1,L2,yes", "S2,L1,L2,no"))
    before = root.run("curl -s http://127.0.0.1:8080/board")[1]
    pid = root.path("run/gridclear.pid").read_text()
    status, out = root.run("gridclear-setup --update --yes; s=$?; sleep 1; exit $s")
    tally.check("a point of a crew's fence stays", status == 1 and "fault: update Point S2 by JONES/1" in out and "nothing was done" in out, out)
    tally.check("and the register is served as before", before and root.run("curl -s http://127.0.0.1:8080/board")[1] == before, before)
    asked(root, tally, network, was)
    tally.check("none of these stopped it", root.path("run/gridclear.pid").read_text() == pid and root.run("curl -s http://127.0.0.1:8080/board")[1] == before and not list(root.path(DATA).glob("looked-at*")), before)
    (network / "sections.csv").write_text(was["sections"] + "L4,no\n")
    (network / "points.csv").write_text(was["points"].replace("S1,G,L1,yes,no,closed", "S1,G,L1,yes,no,open") + "S5,L1,L4,yes,no,open\n")
    (network / "staff.csv").write_text(was["staff"].replace("DALE,field,\n", "") + "ADA,charge,\n")
    root.run("touch go; (while [ -e go ]; do curl -sf -o /dev/null http://127.0.0.1:8080/board && date +%s.%N; sleep 0.1; done) > answered 2>/dev/null &")
    status, out = root.run("gridclear-setup --update; s=$?; sleep 1; rm go; exit $s", "yes\n")
    answered = [float(line) for line in root.path("srv/answered").read_text().split()]
    gap = max((later - one for one, later in zip(answered, answered[1:])), default=99)
    lines = ("section L4 comes", "point S5 comes", "employee DALE goes", "employee ADA comes", "look: DALE is gone")
    tally.check("what changes is printed", status == 0 and all(line in out for line in lines), out)
    tally.check("the register is away for at most three seconds", gap < 3, gap)
    ask = '{"at":4102444799,"by":"ADA","do":"request","section":"L4"}'
    status, out = root.run(f"sleep 1; curl -s -d '{ask}' http://127.0.0.1:8080/command")
    tally.check("the new employee asks for the new section", '"reply":"accepted"' in out or "NotCaller" in out, out)
    tally.check("nobody speaks as who is gone", root.run("gridclear-setup --logins")[1] == "DAY: KIM\n", root.run("gridclear-setup --logins"))
    normal = root.path(f"{DATA}/normal.csv").read_text()
    tally.check("normal positions stay, and the new point has its own", "S1,G,L1,yes,no,closed\n" in normal and "S5,L1,L4,yes,no,open\n" in normal, normal)
    status, out = root.run("gridclear-setup --login DAY KIM ADA; systemctl restart gridclear", "a word\n")
    tally.check("the new employee has a login", status == 0 and root.run("gridclear-setup --logins")[1] == "DAY: KIM ADA\n", out)
    lines = root.path(f"{DATA}/journal").read_text()
    tally.check("the update is a line of the journal", lines.count('"updated":') == 1 and not list(root.path(DATA).glob("before-*")), lines[-2000:])
    status, out = root.run(f"systemctl stop gridclear; cd /{DATA} && runuser -u gridclear -- /usr/lib/gridclear/verify; s=$?; systemctl start gridclear; exit $s")
    tally.check("verify goes through it, from the three files on", status == 0 and "verified " in out and "from began.db" not in out, out)
    status, out = root.run("rm -f /run/gridclear-backup.out; sleep 1; systemctl start gridclear-backup; s=$?; cat /run/gridclear-backup.out; exit $s")
    tally.check("so does a backup", status == 0 and "verified " in out and "made from the journal" not in out, out)
    status, out = root.run("gridclear-setup --update")
    tally.check("given again it changes nothing, and asks nothing", status == 0 and "nothing changes" in out and root.path(f"{DATA}/journal").read_text().count('"updated":') == 1, out)
    archived(root, tally)
    cut(root, tally, network)
    for name, text in was.items():
        (network / f"{name}.csv").write_text(text)
    status, out = root.run("gridclear-setup --update --yes")
    tally.check("and back", "employee DALE comes" in out or "fault: update Employee ADA" in out, out)
    (network / "staff.csv").write_text(was["staff"] + "ADA,charge,\nEVE,field,\n")
    (network / "sections.csv").write_text(was["sections"] + "L4,no\n")
    (network / "points.csv").write_text(was["points"] + "S5,L1,L4,yes,no,open\n")
    status, out = root.run("gridclear-setup --update --yes")
    tally.check("once more", status == 0 and "employee EVE comes" in out, out)
    for name, text in was.items():
        (network / f"{name}.csv").write_text(text)
    root.run("rm -f /etc/gridclear/users /etc/gridclear/logins.csv; systemctl restart gridclear gridclear-desk")


def asked(root, tally, network, was):
    """What an update would do is shown, by a copy, and somebody is asked."""
    (network / "points.csv").write_text(was["points"].replace("S1,G,L1,yes,no,closed\n", "") + "S5,L1,L4,yes,no,open\n")
    (network / "sections.csv").write_text(was["sections"] + "L4,yes\n")
    for answer in ("no\n", ""):
        status, out = root.run("gridclear-setup --update", answer)
        shown = ("point S1 goes", "section L1 turns dead", "section L4 turns live", "near JONES/1 (Granted, work at L2, crews on: C1): ", "Carry this out?")
        tally.check(f"an update is shown, with what is near, and asked about: {answer.strip() or 'no answer'}", status == 1 and all(line in out for line in shown) and "nothing was done" in out, out)
    near = next((line for line in out.splitlines() if line.startswith("near JONES/1")), "")
    tally.check("near is what touches the fence, or a section beside it", near.split("): ")[-1] == "point S1, point S5, section L1", near)
    (network / "points.csv").write_text(was["points"])
    status, out = root.run("gridclear-setup --check; gridclear-setup --check --names | grep -c 'differ by one letter$'")
    tally.check("pairs of names are counted, and listed with --names", "look: pairs of names that differ by one letter: 2;" in out and out.splitlines()[-1] == "2" and "look: employee KIM may hold" in out, out)
    tally.check("--names goes with --check alone", root.run("gridclear-setup --names")[0] == 2)


def cut(root, tally, network):
    """An update that was cut off once its line was written: the same line, given again, does the rest."""
    board = root.run("curl -s http://127.0.0.1:8080/board")[1]
    tally.check("there is a jumper", "JUMPER J1 " in board, board)
    staff = (network / "staff.csv").read_text()
    (network / "staff.csv").write_text(staff.replace("ADA,charge,\n", "EVE,charge,\n"))
    three = " ".join(f"/{ETC}/network/{name}.csv" for name in ("sections", "points", "staff"))
    status, out = root.run(f"systemctl stop gridclear; cd /{DATA}; runuser -u gridclear -- gridclear update room.db {three} --journal journal --without J1 && ! systemctl start gridclear")
    tally.check("after a cut the login of who has left keeps the register from starting", status == 0 and "point J1 goes" in out, out)
    status, out = root.run("gridclear-setup --update --yes --without J9")
    tally.check("a jumper that never was is refused", status == 1 and "NoJumper J9" in out and "nothing was done" in out, out)
    status, out = root.run("touch /run/gridclear.activating; gridclear-setup --update --without J1; s=$?; rm /run/gridclear.activating; sleep 1; exit $s")
    tally.check("the same line does the rest", status == 0 and "jumper J1 is out already" in out and "look: ADA is gone" in out, out)
    tally.check("and the register is served", root.curl("/board", port=8080)[0] == "200" and root.run("gridclear-setup --login EVE EVE", "a word\n")[0] == 0, out)
    (network / "staff.csv").write_text(staff)


def archived(root, tally):
    """The steps of closed records go into a file, after a backup; the journal has a line for it."""
    board = root.run("curl -s http://127.0.0.1:8080/board")[1]
    for days, found in (("4000000", "no record with steps"), ("x", "is no number")):
        status, out = root.run(f"sed -i s/^ARCHIVE_DAYS=.*/ARCHIVE_DAYS={days}/ /{ETC}/gridclear.conf; gridclear-setup --archive")
        tally.check(f"after {days} days", (status == 0) == (days != "x") and found in out, out)
    root.run(f"sed -i s/^ARCHIVE_DAYS=.*/ARCHIVE_DAYS=0/ /{ETC}/gridclear.conf")
    copies = len(list(root.path(BACKUPS).iterdir()))
    status, out = root.run("sleep 1; gridclear-setup --archive")
    files = list(root.path("var/backups/gridclear/archived").glob("*.jsonl"))
    tally.check("an archive, after a backup", status == 0 and len(files) <= 1 and len(list(root.path(BACKUPS).iterdir())) == copies + 1, f"{out} {files}")
    tally.check("it is a line of the journal", root.path(f"{DATA}/journal").read_text().count('"archived":') == 2)
    tally.check("the register is served again, as before", root.run("sleep 1; curl -s http://127.0.0.1:8080/board")[1] == board, board)
    status, out = root.run(f"systemctl stop gridclear; cd /{DATA} && runuser -u gridclear -- /usr/lib/gridclear/verify; s=$?; systemctl start gridclear; exit $s")
    tally.check("verify goes through it", status == 0 and "verified " in out, out)
    root.run(f"sed -i s/^ARCHIVE_DAYS=.*/ARCHIVE_DAYS=400/ /{ETC}/gridclear.conf")


def port_443(root, tally):
    """Desks on other machines: the package's lines for Debian's own nginx."""
    status, out = root.run(" && ".join([*guide("openssl req")[:-1], "nginx"]))
    tally.check("nginx takes the lines of port 443", status == 0, out)
    tally.check("Debian's default site is off", not os.path.lexists(root.path("etc/nginx/sites-enabled/default")) and "Welcome to nginx" not in root.curl("/", port=80)[1])
    call = "curl -s -m 20 -k --resolve register.example:443:127.0.0.1 -w ' %{http_code}' https://register.example"
    found = [root.run(f"{call}{words}")[1][-3:] for words in ("/board", "/board -u OPS:first", "/board -u KIM:other", f"/command -u KIM:other -d '{COMMAND}'")]
    tally.check("port 443 asks for the same logins", found[:3] == ["401", "401", "200"] and found[3] in ("200", "409"), found)
    root.run(f"{call}/board -H 'Origin: https://evil.example'")
    time.sleep(2)
    log = root.path("var/log/nginx/register-refused.log")
    tally.check("port 443 logs what it refuses", log.exists() and '"origin":"https://evil.example"' in log.read_text(), log.exists())
    logs = [json.loads(root.path(name).read_text().splitlines()[-1]) for name in ("var/log/nginx/register.log", f"{LOGS}/commands.log")]
    tally.check("both logs have the login, and one id", [one["login"] for one in logs] == ["KIM", "KIM"] and logs[0]["id"] == logs[1]["id"], logs)
    root.run("nginx -s stop; rm /etc/nginx/conf.d/register.conf")


def upgrade(root, tally):
    print("an upgrade, removing, purging, and the package again", flush=True)
    board = root.curl("/board", port=8080)
    pid = root.run(f"rm -f /{DATA}/normal.csv; cat /run/gridclear.pid /run/gridclear-desk.pid")[1]
    status, out = root.run("apt install ./next/gridclear_*_amd64.deb")
    tally.check("the next package is installed over a served register", status == 0, out)
    tally.check("both were restarted", root.run("cat /run/gridclear.pid /run/gridclear-desk.pid")[1] != pid and root.curl("/board")[0] == "200", out)
    tally.check("the board is that from before", root.curl("/board", port=8080) == board)
    tally.check("a register from before has its normal positions", root.owner(f"{DATA}/normal.csv") == "640 gridclear:www-data" and root.curl("/normal")[0] == "200", out)
    tally.check("the old program is kept", root.path("var/backups/gridclear").is_dir() and os.listdir(root.path("var/backups/gridclear")) != [])
    tally.check("the changed configuration is kept", "OFFSET=-300" in root.path(f"{ETC}/gridclear.conf").read_text())
    status, out = root.run("apt-get remove -y gridclear")
    tally.check("removing stops both", status == 0 and root.curl("/board")[0] == "000" and root.curl("/board", port=8080)[0] == "000", out)
    before, kept = root.register(), sorted(os.listdir(root.path(LOGS)))
    status, out = root.run("apt-get purge -y gridclear")
    tally.check("purging says what is left", status == 0 and all(f"/{name} is left as it is" in out for name in (DATA, LOGS, ETC, "var/backups/gridclear")), out)
    tally.check("the register and the logs are left", root.register() == before and len(before) == 2 and sorted(os.listdir(root.path(LOGS))) == kept)
    status, out = root.run("apt install ./gridclear_*_amd64.deb")
    tally.check("the package is installed again", status == 0 and root.register() == before, out)
    tally.check("over a register it makes none", root.run("gridclear-setup")[0] == 1 and root.register() == before)
    root.run("systemctl enable --now gridclear gridclear-desk gridclear-backup.timer")
    tally.check("nothing was lost", root.curl("/board", port=8080) == board, root.curl("/board", port=8080))


def old_program(root, board):
    """A package with a stand-in for a program of version 1, in place of this one."""
    script = f"#!/bin/sh\ncase $1 in\n  serve) exec sleep 1000 ;;\n  board) cat <<'END'\n{board}END\n  ;;\nesac\n"
    root.run("rm -rf old; dpkg-deb -R gridclear_*_amd64.deb old; sed -i 's/^Version: .*/Version: 0.9.0/' old/DEBIAN/control")
    root.path("srv/old/usr/bin/gridclear").write_text(script)
    return root.run("dpkg-deb --root-owner-group -Znone -b old gridclear_0.9.0.deb && apt-get install -y --allow-downgrades ./gridclear_0.9.0.deb && rm gridclear_0.9.0.deb")


def migrate(root, tally):
    print("a register of an earlier version", flush=True)
    printed = (TOP / "tools" / "try" / "version-1.printed").read_text(encoding="utf-8")
    board = printed[:printed.index("ORDER ")]
    root.run("systemctl stop gridclear; rm -rf /var/backups/gridclear /var/lib/gridclear/*")
    root.path(f"{DATA}/room.db").write_bytes(lzma.decompress((TOP / "tools" / "try" / "version-1.db.xz").read_bytes()))
    root.run("chown gridclear: /var/lib/gridclear/room.db; chmod 600 /var/lib/gridclear/room.db")
    before = root.register()
    status, out = root.run("gridclear-setup --migrate")
    tally.check("without an old program it is left", status == 1 and root.register()["room.db"] == before["room.db"] and "no old program" in out, out)
    status, out = old_program(root, board)
    tally.check("the old package", status == 0, out)
    root.run("systemctl start gridclear")
    status, out = root.run("apt install ./gridclear_*_amd64.deb")
    tally.check("the upgrade leaves it stopped, and says so", status == 0 and "gridclear-setup --migrate" in out and root.run("systemctl is-active gridclear")[0] != 0, out)
    tally.check("and as it was", root.register()["room.db"] == before["room.db"])
    root.run("printf '#!/bin/sh\\necho BOARD 7\\n' > /srv/liar; chmod 755 /srv/liar")
    status, out = root.run("gridclear-setup --migrate /srv/liar")
    tally.check("another board puts it back", status == 1 and root.register()["room.db"] == before["room.db"] and "another one" in out, out)
    status, out = root.run("gridclear-setup --migrate")
    tally.check("it is moved", status == 0 and "the board is that from before" in out, out)
    copies = [one for one in root.path(DATA).glob("before-*") if one.is_dir()]
    tally.check("a copy is kept", any((one / "room.db").read_bytes() == before["room.db"] for one in copies))
    tally.check("its board", root.run("gridclear-setup --board | sed 's/ -05:00/ +00:00/' | wc -l")[1].strip() == str(board.count("\n")))
    status, out = root.run("gridclear-setup --migrate && systemctl start gridclear && curl -s http://127.0.0.1:8080/board")
    tally.check("again it moves nothing; and the register answers", status == 0 and "nothing to move" in out and out.endswith(board), out)


OLD_LINE = '{"command":{"by":"JONES"},"login":null,"number":1,"received":1,"reply":{}}'


def old_journal(root, tally):
    """A register with a journal of an earlier form, which stand-ins for the program that wrote it verify, or do not."""
    print("a journal of an earlier form", flush=True)
    root.run(f"systemctl stop gridclear; rm -rf /{DATA}/*; cp sections.csv points.csv staff.csv /{DATA}; cd /{DATA}; chown gridclear: *; runuser -u gridclear -- gridclear init sections.csv points.csv staff.csv --db room.db")
    root.path(f"{DATA}/journal").write_text(OLD_LINE + "\n")
    before = root.register()
    for name, status in (("older", 0), ("liar", 1)):
        root.run(f"printf '#!/bin/sh\\ncase $1 in\\n  verify) exit {status} ;;\\n  journal) echo the log ;;\\nesac\\n' > {name}; chmod 755 {name}; chown gridclear: /{DATA}/journal")
    status, out = root.run("gridclear-setup --migrate /srv/liar")
    tally.check("one that its old program does not verify is left", status == 1 and "no old program found" in out and root.register()["room.db"] == before["room.db"]
                and root.path(f"{DATA}/journal").read_text() == OLD_LINE + "\n", out)
    root.run(f"cd /{DATA} && runuser -u gridclear -- gridclear migrate room.db --journal journal-begun")  # cut off there
    status, out = root.run("gridclear-setup --migrate /srv/liar")
    tally.check("one that was cut off goes on", status == 0 and "a new journal begins" in out, out)
    root.run(f"cd /{DATA}; rm -rf room.db* began.db journal* before-*; runuser -u gridclear -- gridclear init sections.csv points.csv staff.csv --db room.db")
    root.path(f"{DATA}/journal").write_text(OLD_LINE + "\n")
    root.run(f"chown gridclear: /{DATA}/journal")
    status, out = root.run("gridclear-setup --migrate /srv/older")
    aside = next(iter(root.path(DATA).glob("before-*")), root.path(DATA))
    kept = [(aside / name).read_text() if (aside / name).is_file() else "" for name in ("journal", "log")]
    tally.check("a new journal begins, and the old one is kept with its log", status == 0 and kept == [OLD_LINE + "\n", "the log\n"], f"{out} {kept}")
    tally.check("the page reads it", root.owner(f"{DATA}/journal") == "640 gridclear:www-data" and root.path(f"{DATA}/journal").read_text().startswith('{"journal":"'), root.owner(f"{DATA}/journal"))
    status, out = root.run(f"cd /{DATA} && runuser -u gridclear -- /usr/lib/gridclear/verify && systemctl start gridclear && curl -s http://127.0.0.1:8080/board")
    tally.check("the register goes on with it", status == 0 and "verified 0 commands\n" in out and out.endswith("BOARD 0\n"), out)


def main():
    root, tally = Root(sys.argv[1]), Tally()
    subprocess.run(["ip", "link", "set", "lo", "up"], check=True)
    for name, kind in (("proc", "proc"), ("run", "tmpfs")):
        subprocess.run(["mount", "-t", kind, kind, str(root.path(name))], check=True)
    root.run("mkdir -p /run/systemd/system")
    for part in (install, refusals, logins, backup, restore, update, upgrade, migrate, old_journal):
        part(root, tally)
    asked = root.path("run/asked").read_text()
    tally.check("systemd was asked to read the units again", "--system daemon-reload" in asked, asked)
    print(f"{tally.passed} {tally.failed}")


if __name__ == "__main__":
    main()
