"""What the looks of tools/try reckon of a journal by themselves: how its lines and their sums are written, which lines of
a file hold their sums, and what an opening finds in it at the place of a register. Nothing of it is the program's, but
that a command reads is asked of `run` over files."""

import collections
import contextlib
import functools
import hashlib
import itertools
import json
import pathlib
import re
import shutil
import sqlite3
import tempfile

from looks import FILES, TOP, copied, run

RULES = int(re.search(r"(?m)^pub const RULES: u64 = (\d+);$", (TOP / "crates/clr_chain/src/first.rt").read_text(encoding="utf-8"))[1])
FRONT = 4096  # bytes that a first line may have, with its line feed
BRIEF = 2048  # bytes of the line of a refused command that has all that it says
NAMES = ("command", "login", "number", "received", "reply")
LEFT_OUT = {"order": {"points": [], "steps": []}, "restore": {"steps": []}, "switch": {"steps": []}, "repeat": {"text": ""}}

Place = collections.namedtuple("Place", "id, number, sum")
End = collections.namedtuple("End", "last, is_open, sum")  # of a chain: its last number, whether that may be withdrawn
Ahead = collections.namedtuple("Ahead", "entries, keep")  # lines after a register's, and how many bytes are not cut off


# ---- writing

def sum_of(*parts):
    return hashlib.sha256(b"".join(parts)).hexdigest()


def files_sum(texts, name):
    """Of three files and an id: the sum of each file on a line of its own, and the id."""
    return sum_of("".join(f"{sum_of(text)}\n" for text in texts).encode(), name.encode())


def first_place(texts, moment, database, journal):
    """The place of a new register. Its id is of the files too, and of when and where the journal was begun."""
    name = files_sum(texts, f"{moment} {database} {journal}")
    return Place(name, 0, files_sum(texts, name))


def written(value):
    """JSON without blanks, its keys in the order of their bytes."""
    return json.dumps(value, sort_keys=True, separators=(",", ":"), ensure_ascii=False).encode()


def first_text(place, rules=RULES):
    return written({"journal": place.id, "number": place.number, "rules": rules, "sum": place.sum})


def carried(command, login, number, received, reply):
    return dict(zip(NAMES, (command, login, number, received, reply)))


def withdrawn(number):
    return {"number": number, "withdrawn": True}


def noted(entry):
    """A line as it is noted: that of a refused command which would be long has no lists and no text."""
    is_long = len(written(entry | {"sum": "0" * 64})) > BRIEF
    command = entry["command"]
    return entry | {"command": command | LEFT_OUT.get(command["do"], {})} if is_long and not accepts(entry) else entry


def sum_after(before, entry):
    """The sum at a line: of the sum before it, and of the line without its sum."""
    return sum_of(before.encode(), written(entry))


def withdrawal_of(line):
    """The line that withdraws the command of this one."""
    value = value_in(line)
    entry = withdrawn(value["number"])
    return written(entry | {"sum": sum_after(value["sum"], entry)})


class Chain:
    """A journal that is written here, line by line."""

    def __init__(self, first):
        self.place = first
        self.lines = [first_text(first)]

    def put(self, entry):
        """One more line, which need not be the next."""
        self.place = Place(self.place.id, entry["number"], sum_after(self.place.sum, entry))
        self.lines.append(written(entry | {"sum": self.place.sum}))

    def add(self, command, reply, login=None, received=1795503841):
        self.put(noted(carried(command, login, self.place.number + 1, received, reply)))

    def withdraw(self):
        self.put(withdrawn(self.place.number))

    def text(self):
        return text_of(self.lines)


def text_of(lines):
    return b"".join(line + b"\n" for line in lines)


# ---- reading

def lines_in(data):
    """The lines that a line feed ends, without it."""
    return data.split(b"\n")[:-1]


def half_in(data):
    """What comes after the last line feed: half a line, unless it is empty."""
    return data.rpartition(b"\n")[2]


def is_whole(value):
    return isinstance(value, int) and not isinstance(value, bool) and 0 <= value < 1 << 64


def has_fraction(value):
    if isinstance(value, dict):
        return any(map(has_fraction, value.values()))
    return any(map(has_fraction, value)) if isinstance(value, list) else isinstance(value, float)


READ = {}  # whether a text reads as a command, of each that was asked for


def ask_commands(texts):
    """Asks the program of all these lines at once which of them read as commands: a run of its own for each takes long."""
    values = [value_in(text) for text in dict.fromkeys(texts)]
    commands = [value["command"] for value in values if value and isinstance(value.get("command"), dict)]
    new = sorted({written(command).decode() for command in commands} - READ.keys())
    if new:
        replies = run("run", *FILES, lines=new)[1].splitlines()
        READ.update((text, not reply.startswith('{"fault":')) for text, reply in zip(new, replies, strict=True))


def reads_as_command(text):
    if text not in READ:
        READ[text] = not run("run", *FILES, lines=[text])[1].startswith('{"fault":')
    return READ[text]


@functools.lru_cache(maxsize=4096)
def value_in(text):
    """The JSON object of a line; None where it has none."""
    with contextlib.suppress(ValueError):
        value = json.loads(text.decode("utf-8"))
        return value if isinstance(value, dict) else None
    return None


@functools.lru_cache(maxsize=4096)
def entry_in(text):
    """What a text says, if it is a line of a journal, whatever its sum is."""
    value = value_in(text)
    if value is None or not is_whole(value.get("number")):
        return None
    if "withdrawn" in value:
        return withdrawn(value["number"]) if value["withdrawn"] is True else None
    is_line = all(name in value for name in NAMES) and is_whole(value["received"])
    if not is_line or not isinstance(value["login"], (str, type(None))):
        return None
    command = value["command"]
    is_line = isinstance(command, dict) and reads_as_command(written(command).decode())
    return {name: value[name] for name in NAMES} if is_line else None


def accepts(entry):
    """A line says that its command was carried out."""
    reply = (entry or {}).get("reply")
    return isinstance(reply, dict) and reply.get("reply") in ("accepted", "added")


def place_in(text):
    """The place that a first line says, whatever its form and its rules are."""
    value = value_in(text) if len(text) < FRONT else None
    if value is None or not is_whole(value.get("number")):
        return None
    names = [value.get(name) for name in ("journal", "sum")]
    if not all(isinstance(name, str) for name in names):
        return None
    return Place(names[0], value["number"], names[1])


def first_in(text):
    """The place that a first line says, if it is one in its own form."""
    place = place_in(text)
    return place if place and text == first_text(place) else None


def unread(lines):
    """The words of the fault where there is no first line by these rules: it may be one by others."""
    place = place_in(lines[0]) if lines else None
    number = value_in(lines[0]).get("rules") if place else None
    is_other = is_whole(number) and number != RULES and lines[0] == first_text(place, number)
    return f"journal OtherRules {number}" if is_other else "journal BadLine 0"


def is_next(end, entry):
    if "withdrawn" in entry:
        return end.is_open and entry["number"] == end.last
    return entry["number"] == end.last + 1


@functools.lru_cache(maxsize=4096)
def next_link(end, text):
    """The next line of a chain and the end after it, if the text is that and holds its sum; or None."""
    entry = entry_in(text)
    if entry is None or not is_next(end, entry) or has_fraction(entry):
        return None
    own = sum_after(end.sum, entry)
    return (entry, End(entry["number"], accepts(entry), own)) if text == written(entry | {"sum": own}) else None


def entries_in(first, lines):
    """What the lines after the first one say, up to one that does not hold its sum."""
    return list(itertools.takewhile(bool, (entry for _, entry in walk(first, lines[1:]))))


def places_along(first, entries):
    """The place of a first line, and of each line after it."""
    return list(itertools.accumulate(entries, lambda place, entry: place_after(place, [entry]), initial=first))


def sum_in_place(text):
    """The bytes of a command's line where it has its sum: the last 64 before its last two."""
    return text[:-2][-64:]


def said_by(end, text):
    """Where a chain goes on after a line that does not hold its sum: where it says; at these bytes, if it cannot be read."""
    entry, own = entry_in(text), (value_in(text) or {}).get("sum")
    if entry is not None and isinstance(own, str):
        return End(entry["number"], accepts(entry), own)
    try:
        return End(end.last + 1, False, sum_in_place(text).decode())
    except UnicodeDecodeError:
        return End(end.last + 1, False, end.sum)


def is_bad_alone(number, text, damaged):
    """A line of a command that was damaged, though not in its sum and not so that it says another number."""
    entry = entry_in(damaged)
    return b'"withdrawn"' not in text and damaged[-66:-2] == text[-66:-2] and (entry is None or entry["number"] == number)


def walked(place, texts):
    """Of each line its number, and what it says if it holds its sum; and the end of the chain after them."""
    ask_commands(texts)
    end, steps = End(place.number, False, place.sum), []
    for text in texts:
        link = next_link(end, text)
        steps.append((link[0]["number"], link[0]) if link else (end.last + 1, None))
        end = link[1] if link else said_by(end, text)
    return steps, end


def walk(place, texts):
    return walked(place, texts)[0]


def bad_lines(data):
    """The numbers of the lines that do not hold their sums, and of half a line at the end; 0 where there is no first line."""
    lines = lines_in(data)
    first = first_in(lines[0]) if lines else None
    if first is None:
        return [0]
    steps, end = walked(first, lines[1:])
    return [number for number, entry in steps if entry is None] + ([end.last + 1] if half_in(data) else [])


# ---- what `verify` and `journal` say

def verified_as(texts, place, data):
    """What `verify` says of a register at a place, from three files on: `verified N commands`, or the words of a fault."""
    lines = lines_in(data)
    first = first_in(lines[0]) if lines else None
    if first is None:
        return unread(lines)
    if first.number or files_sum(texts, first.id) != first.sum:
        return "verify Files"
    if first.id != place.id:
        return "journal OtherRegister"
    entries, bad = entries_in(first, lines), bad_lines(data)
    places = places_along(first, entries)
    same = [at for at, one in enumerate(places) if one.number == place.number]
    if same and places[same[-1]] != place:
        # at the line of an accepted command it waits for the next one, which may withdraw it
        is_known = not accepts([None, *entries][same[-1]]) or same[-1] < len(entries) or not bad
        return f"journal Differs {place.number}" if is_known else f"journal BadLine {bad[0]}"
    if bad or not same:
        return f"journal BadLine {bad[0]}" if bad else "journal TooShort"
    return f"verified {len(carried_out(entries))} commands"


def verify_ends(words):
    """How a run of `verify` ends that says so."""
    return (0, f"{words}\n", "") if words.startswith("verified") else (1, "", f"fault: {words}\n")


def journal_ends(data):
    """How a run of `journal` ends, and the numbers of the lines that it names."""
    bad = bad_lines(data)
    if not bad:
        return 0, "", []
    return (1, f"fault: {unread(lines_in(data))}\n", []) if bad == [0] else (1, f"fault: journal BadLine {bad[0]}\n", bad)


def ended(result):
    """The same of what a run of `journal` ended with."""
    status, output, errors = result
    return status, errors, [int(line.split()[0]) for line in output.splitlines() if line.endswith("does not hold its sum")]


# ---- what an opening finds

def found(place, data):
    """What an opening finds at the place of a register: lines after it, or the words of a fault."""
    lines = lines_in(data)
    ask_commands(lines)
    first = first_in(lines[0]) if lines else None
    if not data or first is None:
        return unread(lines) if data else "journal OpenFailed"
    if first.id != place.id:
        return "journal OtherRegister"
    for at in range(len(lines) - 1, 0, -1):
        entry = entry_in(lines[at])
        if entry and entry["number"] == place.number:
            if not has_fraction(entry) and lines[at] == written(entry | {"sum": place.sum}):
                return after(place, accepts(entry), data, lines, at + 1)
            if "withdrawn" not in entry:
                return f"journal Differs {place.number}"
        if entry and entry["number"] < place.number:
            return too_short(entry["number"], lines[at + 1:])
    return by_first(place, first, data, lines)


def by_first(place, first, data, lines):
    """What is found where no line has the register's number or a lower one."""
    if first.number != place.number:
        return too_short(first.number, lines[1:]) if first.number < place.number else "journal TooShort"
    if first.sum != place.sum:
        return f"journal Differs {place.number}"
    return after(place, False, data, lines, 1)


def too_short(number, texts):
    is_bad = any(accepts(entry_in(text)) for text in texts)
    return f"journal BadLine {number + 1}" if is_bad else "journal TooShort"


def after(place, is_open, data, lines, at):
    """What is found after the register's line: lines that hold their sums, and no accepted one after these."""
    end, entries = End(place.number, is_open, place.sum), []
    while at < len(lines) and (link := next_link(end, lines[at])):
        end, at = link[1], at + 1
        entries.append(link[0])
    if entries and "withdrawn" in entries[0]:
        return f"journal Differs {place.number}"
    if any(accepts(entry_in(text)) for text in lines[at:]):
        return f"journal BadLine {end.last + 1}"
    return Ahead(entries, len(text_of(lines[:at])))


def place_after(place, entries):
    """The place of a register once it was rolled forward through lines: it is that of the last one."""
    for entry in entries:
        place = Place(place.id, entry["number"], sum_after(place.sum, entry))
    return place


def place_at_last(place, entries):
    """The place at the last of these lines whose command was carried out."""
    done = [number for number, entry in enumerate(entries, 1) if entry in carried_out(entries)]
    return place_after(place, entries[:max([0, *done])])


def carried_out(entries):
    """The lines whose commands were accepted and not withdrawn."""
    later = [*entries[1:], {}]
    return [entry for entry, then in zip(entries, later) if accepts(entry) and "withdrawn" not in then]


# ---- the place that a database has

def rows_of(path, statement):
    """What SQLite says of a copy of a database and its log."""
    with tempfile.TemporaryDirectory(prefix="rows-") as folder:
        one = pathlib.Path(folder) / "one.db"
        shutil.copy(path, one)
        log = path.with_name(f"{path.name}-wal")
        if log.exists():
            shutil.copy(log, f"{one}-wal")
        with contextlib.closing(sqlite3.connect(one)) as opened:
            return opened.execute(statement).fetchall()


def place_of(path):
    """The place of a register in its journal; None where it has none."""
    if not rows_of(path, "SELECT name FROM sqlite_schema WHERE name = 'journal'"):
        return None
    (row,) = rows_of(path, "SELECT id, number, sum FROM journal")
    return Place(*row)


# ---- a command that is withdrawn

def withdraw_one(path, journal, give):
    """The first command of what is given that is accepted is withdrawn, as where memory is refused to its commit: the register
    lacks it, and its journal has both lines."""
    with tempfile.TemporaryDirectory(prefix="withdrawn-") as folder:
        one, other = copied(path, pathlib.Path(folder) / "one.db"), copied(journal, pathlib.Path(folder) / "journal")
        give(one, other)
        lines, begin = lines_in(other.read_bytes()), len(lines_in(journal.read_bytes()))
    last = next((at for at in range(begin, len(lines)) if accepts(entry_in(lines[at]))), None)
    if last:
        journal.write_bytes(text_of([*lines[:last + 1], withdrawal_of(lines[last])]))
