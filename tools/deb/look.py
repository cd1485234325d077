"""What is in a package of tools/make-deb: read again by Python's own tarfile and lzma, which did not write it."""

import calendar
import hashlib
import io
import json
import lzma
import os
import pathlib
import re
import subprocess
import tarfile
import tempfile
import time

TOP = pathlib.Path(__file__).resolve().parent.parent.parent
PROGRAMS = {"usr/bin/gridclear", "usr/sbin/gridclear-setup", *(f"usr/lib/gridclear/{name}" for name in ("serve", "wait", "pause", "finish", "verify", "forward", "log", "backup", "follow", "keeping", "near", "desk-conf"))}
CONFIGURATION = {"etc/gridclear/gridclear.conf", "etc/logrotate.d/gridclear"}
SCRIPTS = {"preinst", "postinst", "prerm", "postrm"}
CONTROL = {"control", "conffiles", "md5sums", *SCRIPTS}


def run(*call, **words):
    done = subprocess.run(call, stdout=subprocess.PIPE, stderr=subprocess.STDOUT, text=True, check=False, **words)
    return done.returncode, done.stdout


def ar_members(data):
    """The names and bytes of an archive, up to its end."""
    if not data.startswith(b"!<arch>\n"):
        raise ValueError("it is no archive")
    found, at = [], 8
    while at < len(data):
        head = data[at:at + 60]
        name, size, mark = head[:16].decode().rstrip(), int(head[48:58]), head[58:]
        if mark != b"`\n" or at + 60 + size > len(data):
            raise ValueError(f"the archive breaks off at {at}")
        found.append((name, data[at + 60:at + 60 + size]))
        at += 60 + size + size % 2
    return found


class Package:
    def __init__(self, deb):
        members = ar_members(pathlib.Path(deb).read_bytes())
        self.names = [name for name, _ in members]
        self.format, control, data = (content for _, content in members)
        self.control, self.data = self.rows(control), self.rows(data)

    @staticmethod
    def rows(packed):
        """Of each member of a tar in xz what tar has of it, and its bytes."""
        with tarfile.open(fileobj=io.BytesIO(lzma.decompress(packed))) as tar:
            return [(one, tar.extractfile(one).read() if one.isfile() else None) for one in tar]

    def files(self, rows):
        return {one.name.removeprefix("./"): content for one, content in rows if content is not None}


def shape(package, tally):
    """Members, modes and owners."""
    tally.check("the three members", package.names == ["debian-binary", "control.tar.xz", "data.tar.xz"] and package.format == b"2.0\n", package.names)
    every = [one for one, _ in package.control + package.data]
    tally.check("all is root's", {(one.uid, one.gid, one.uname, one.gname) for one in every} == {(0, 0, "root", "root")})
    tally.check("all has one time", len({one.mtime for one in every}) == 1)
    tally.check("files and folders alone", all(one.isfile() or one.isdir() for one in every))
    for rows in (package.control, package.data):
        names = [one.name for one, _ in rows]
        tally.check("its members are sorted, each once", names == sorted(set(names)), names[:3])
    folders = {pathlib.PurePosixPath(one.name) for one, _ in package.data if one.isdir()}
    lacking = {pathlib.PurePosixPath(one.name).parent for one, _ in package.data} - folders
    tally.check("each folder is there", not lacking, lacking)
    tops = {one.parts[0] for one in folders if one.parts}
    tally.check("nothing outside /etc, /lib and /usr", tops == {"etc", "lib", "usr"}, tops)
    modes = {one.name.removeprefix("./"): one.mode for one, _ in package.data if one.isfile()}
    tally.check("its programs", {name for name, mode in modes.items() if mode == 0o755} == PROGRAMS, modes)
    tally.check("everything besides is plain", set(modes.values()) == {0o755, 0o644} and {one.mode for one in every if one.isdir()} == {0o755}, modes)


def control(package, tally):
    """The control files: sums, scripts, configuration, sizes."""
    parts, files = package.files(package.control), package.files(package.data)
    tally.check("the control files", set(parts) == CONTROL, sorted(parts))
    scripts = {one.name.removeprefix("./") for one, _ in package.control if one.isfile() and one.mode == 0o755}
    tally.check("its scripts are programs", scripts == SCRIPTS, scripts)
    sums = dict(reversed(line.split("  ", 1)) for line in parts["md5sums"].decode().splitlines())
    wanted = {name: hashlib.md5(content).hexdigest() for name, content in files.items() if not name.startswith("etc/")}
    tally.check("the sums", sums == wanted, set(sums.items()) ^ set(wanted.items()))
    etc = {name for name in files if name.startswith("etc/")}
    tally.check("its configuration", etc == CONFIGURATION and set(parts["conffiles"].decode().split()) == {f"/{one}" for one in etc}, etc)
    texts = {name: parts[name] for name in SCRIPTS} | {name: files[name] for name in PROGRAMS - {"usr/bin/gridclear"}}
    for name, text in sorted(texts.items()):
        status, out = run("sh", "-n", input=text.decode())
        tally.check(f"sh reads {name}", status == 0, out)
    known = dict(line.split(": ", 1) for line in parts["control"].decode().splitlines() if not line.startswith(" "))
    size = sum(-(-len(content) // 1024) for content in files.values())
    tally.check("its size", size <= int(known["Installed-Size"]) < size + 200, known)
    version = re.search(r'const VERSION: &str = "([0-9.]+)";', (TOP / "crates/clr_args/src/syntax.rt").read_text(encoding="utf-8"))[1]
    tally.check("its name and version", (known["Package"], known["Version"], known["Architecture"]) == ("gridclear", version, "amd64"), known)


def program(package, tally):
    """The program is that of dist/, whose sum is in dist/SOURCES."""
    content = package.files(package.data)["usr/bin/gridclear"]
    tally.check("the program is that of dist/", content == lzma.decompress((TOP / "dist/gridclear.xz").read_bytes()))
    sums = (TOP / "dist/SOURCES").read_text(encoding="utf-8").splitlines()
    tally.check("its sum is that of dist/SOURCES", f"{hashlib.sha256(content).hexdigest()}  gridclear" in sums)


def page(package, tally):
    """The page has the table of refusals beside its module, where a checkout has it in docs/."""
    files = package.files(package.data)
    tally.check("the page has the refusals", files.get("usr/share/gridclear/page/replies/refusals.csv") == (TOP / "docs/refusals.csv").read_bytes())


def unpacked(package, folder):
    for one, content in package.data:
        path = folder / one.name
        if content is None:
            path.mkdir(parents=True, exist_ok=True)
        else:
            path.write_bytes(content)
            path.chmod(one.mode)


def words(tree, tally):
    """The man pages and the completion have the subcommands and options of the program, or of that of GRIDCLEAR."""
    command = os.environ.get("GRIDCLEAR") or str(tree / "usr/bin/gridclear")
    commands = re.findall(r"^  (\w+) ", run(command, "--help")[1].split("Commands:")[1].split("Options:")[0], re.M)
    commands.remove("help")
    pages = {one.name.split(".")[0] for one in (tree / "usr/share/man/man1").iterdir()}
    tally.check("a man page for each subcommand", pages == {"gridclear", *(f"gridclear-{one}" for one in commands)}, pages)
    completion = tree / "usr/share/bash-completion/completions/gridclear"
    for name in commands:
        wanted = set(re.findall(r"--[a-z][a-z-]*", run(command, name, "--help")[1].split("Options:")[1]))
        ask = f"source {completion}; COMP_WORDS=(gridclear {name} --); COMP_CWORD=2; _gridclear; echo ${{COMPREPLY[*]}}"
        found = set(run("bash", "-c", ask)[1].split())
        tally.check(f"the completion of {name}", found == wanted, f"{found} {wanted}")
    ask = f"source {completion}; COMP_WORDS=(gridclear ''); COMP_CWORD=1; _gridclear; echo ${{COMPREPLY[*]}}"
    found = set(run("bash", "-c", ask)[1].split())
    tally.check("the completion of subcommands", found == {*commands, "help", "--help", "--version"}, found)


def pauses(program, place, tally):
    """How long the register waits: one fault after another, after a minute, after a kill, and after it was stopped."""
    def after(result, minutes=0):
        begun = time.time() - 60 * minutes
        (place / "begun").touch()
        os.utime(place / "begun", (begun, begun))
        status, out = run("sh", str(program), env=os.environ | {"RUNTIME_DIRECTORY": str(place), "SERVICE_RESULT": result})
        found = (place / "pause").read_text() if (place / "pause").exists() else "none\n"
        return found.split()[0] if (status, out) == (0, "") else out

    found = [after("exit-code") for _ in range(6)]
    tally.check("a pause is twice the one before, up to 8 seconds", found == "1 2 4 8 8 8".split(), found)
    found = [after("signal"), after("signal"), after("exit-code"), after("exit-code"), after("exit-code"), after("signal")]
    tally.check("a kill after a full disk's faults, and a fault after a kill, wait a second", found == "1 2 1 2 4 1".split(), found)
    found = [after("exit-code"), after("exit-code"), after("exit-code", 2), after("exit-code"), after("success"), after("exit-code")]
    tally.check("after a minute, and after a stop, it is short again", found == "1 2 1 2 none 1".split(), found)
    found = run("sh", str(program.parent / "wait"), env=os.environ | {"RUNTIME_DIRECTORY": str(place)})
    tally.check("the start says how long it waits, and why", found == (0, "this start waits 1 s after the last end (exit-code); systemctl restart gridclear does not\n"), found)


def keepings(program, place, tally):
    """What the page is given of standby, backup and disk: by the script over a folder without a register."""
    backups, own = place / "backups", place / "own"
    for one in (backups, own):
        one.mkdir()
    script = place / "keeping"
    script.write_text(program.read_text().replace("/var/backups/gridclear/register", str(backups)))

    def rows():
        status, out = run("sh", str(script), cwd=own, env=os.environ | {"RUNTIME_DIRECTORY": str(place)})
        found = json.loads((place / "keeping.json").read_text()) if (status, out) == (0, "") else {"written": 0, "rows": []}
        tally.check("it was written just now, whole", abs(found["written"] - time.time()) < 10 and {tuple(one) for one in found["rows"]} == {("what", "at", "limit", "says", "alarm")}, out)
        return {one["what"]: one for one in found["rows"]}

    found = rows()
    tally.check("a fresh register: no standby, no backup yet, its disk", list(found) == ["backup", "disk"] and (found["backup"]["at"], found["backup"]["alarm"]) == (None, True) and found["backup"]["says"].startswith("none yet"), found)
    tally.check("the disk's room", re.fullmatch(r"[0-9.]+ [GM]B free of [0-9.]+ [GM]B( for backups)?", found["disk"]["says"]) and abs(found["disk"]["at"] - time.time()) < 10 and found["disk"]["limit"] == 600, found)
    copy = backups / "2026-12-01T023012.123Z"
    copy.mkdir()
    (copy / "verified").write_text("verify: the journal does not begin with the three files here\nverified 27 commands\n")
    os.utime(copy / "verified", (1796000000, 1796000000))
    wanted = {"what": "backup", "at": 1796000000, "limit": 93600, "says": "verified 27 commands", "alarm": False}
    found = rows()["backup"]
    tally.check("the last backup", found == wanted, found)
    (copy / "verified").write_text("verified 27 commands\nmade from the journal\n")
    found = rows()["backup"]
    tally.check("one that was made from the journal is an alarm", found["alarm"] and found["says"] == "verified 27 commands, made from the journal: look at the register", found)
    (backups / "failed").write_text('no copy could be "verified"\nmore\n')
    found = rows()["backup"]
    tally.check("so is one that failed", found["alarm"] and found["says"] == "the last one failed: no copy could be verified", found)
    for text, says, alarm in (("1234\n3\n", "has line 1234", False), ("", "followed does not read", True), ("12x\n1\n", "followed does not read", True), ("12\n", "followed does not read", True)):
        (own / "followed").write_text(text)
        os.utime(own / "followed", (1796000000, 1796000000))
        found = rows()["standby"]
        tally.check(f"a standby that left {text!r}", found == {"what": "standby", "at": None if alarm else 1795999997, "limit": 60, "says": says, "alarm": alarm}, found)


def nears(program, place, tally):
    """What an update turns live or dead, and which records are near: a bus B with feeders, of which one has a clearance."""
    def network(rows, live):
        points = ",".join(f'{{"from":"{a}","hand":null,"holds":[{{"by":"KIM/1","kind":"Tag"}}],"jumper":false,"lockable":true,"point":"{name}","position":"closed","remote":false,"to":"{b}"}}' for name, a, b in rows)
        sections = ",".join(f'{{"holds":[{{"by":"KIM/1","kind":"Ground"}}],"live":{"true" if one in live else "false"},"section":"{one}","source":false}}' for one in "BCDEF")
        return f'{{"points":[{points}],"sections":[{sections}],"staff":[]}}'

    before = [("P1", "B", "C"), ("P2", "C", "D"), ("P3", "B", "E"), ("P4", "E", "F")]
    (place / "before").write_text(network(before, "BCDE"))
    (place / "after").write_text(network([("P1", "B", "C"), ("P2", "C", "D"), ("P3", "B", "E"), ("P4", "D", "F")], "BCDF"))
    (place / "changes").write_text("point P4: from D, was E\nemployee REED goes\n")
    view = '{"reply":"shown","view":{"card":{"clearance":"%s","done":1,"holder":"%s","phase":"%s","round":1,"steps":1},"crews":%s,"fence":%s,"holds":[],"points":[],"steps":[{"reader":"REED","state":"Done","text":"OPEN %s"}],"work":%s}}\n'
    (place / "views").write_text(view % ("KIM/1", "KIM", "Granted", '["C1","C2"]', '["D"]', "P2", '"D"') + view % ("JONES/1", "JONES", "Ordered", "[]", '["B"]', "P1", '"B"')
                                 + view % ("OPS/1", "OPS", "Switching", "[]", "[]", "P4", "null") + view % ("REED/1", "REED", "Requested", "[]", "[]", "P9", '"Z"'))
    status, out = run("sh", str(program), *(str(place / name) for name in ("before", "after", "changes", "views")))
    wanted = ["section E turns dead", "section F turns live", "near KIM/1 (Granted, work at D, crews on: C1 C2): point P4, section F", "near JONES/1 (Ordered, work at B): point P4, section E",
              "near OPS/1 (Switching): point P4", "near REED/1 (Requested, work at Z): employee REED"]
    tally.check("what turns, and the records near", status == 0 and out.splitlines() == wanted, out)


def parts(setup, place, tally):
    """The name of a new part, and where a folder's journal ends: functions of gridclear-setup, over files without a register."""
    text = setup.read_text()
    functions = "\n".join(re.search(rf"^{name}\(\) {{\n.*?^}}$", text, re.M | re.S)[0] for name in ("new_part", "end_of", "is_front", "half_line"))

    def call(line, **files):
        for one in place.iterdir():
            one.unlink()
        for name, lines in files.items():
            (place / name.replace("_", "-")).write_text(lines)
        return run("sh", "-euc", f"{functions}\n{line}", cwd=place, env=os.environ | {"LC_ALL": "C"})[1].strip()

    names = {"journal_2020-01-01T000000Z": "", "journal_2098-12-31T235959Z": ""}
    tally.check("a part's name is one second after the last", call("new_part", **names) == "journal-2099-01-01T000000Z", call("new_part", **names))
    names.popitem()
    before, found, after = int(time.time()), call("new_part", **names), time.time()
    moment = calendar.timegm(time.strptime(found, "journal-%Y-%m-%dT%H%M%SZ"))
    tally.check("if that is over, it is the time", before <= moment <= after, found)
    first, second = "journal_2020-01-01T000000Z", "journal_2020-01-02T000000Z"
    for what, end, files in (("a part without commands", "journal", {first: "0\n1\n", second: "1\n", "journal": "1\n2\n"}),
                             ("a journal that is a front of the last part", second, {first: "0\n1\n", second: "1\n2\n", "journal": "1\n"}),
                             ("a journal that is a front of an earlier part", second, {first: "0\n1\n", second: "1\n2\n", "journal": "0\n"}),
                             ("half a line at its end", second, {first: "0\n1\n", second: "1\n2\n3\n", "journal": "1\n2\nx"}),
                             ("a journal that is another", "journal", {first: "0\n1\n", "journal": "1\n"})):
        found = call("end_of .", **files)
        tally.check(f"{what}: its folder ends in {end}", found == f"./{end.replace('_', '-')}", found)


def look(deb, folder, tally):
    """All of it; what is in the package is in the folder then."""
    package = Package(deb)
    shape(package, tally)
    control(package, tally)
    program(package, tally)
    page(package, tally)
    unpacked(package, folder)
    words(folder, tally)
    with tempfile.TemporaryDirectory(prefix="pauses-") as place:
        pauses(folder / "usr/lib/gridclear/pause", pathlib.Path(place), tally)
    with tempfile.TemporaryDirectory(prefix="keepings-") as place:
        keepings(folder / "usr/lib/gridclear/keeping", pathlib.Path(place), tally)
    with tempfile.TemporaryDirectory(prefix="nears-") as place:
        nears(folder / "usr/lib/gridclear/near", pathlib.Path(place), tally)
    with tempfile.TemporaryDirectory(prefix="parts-") as place:
        parts(folder / "usr/sbin/gridclear-setup", pathlib.Path(place), tally)
