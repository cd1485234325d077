#!/usr/bin/env python3
"""Openings of a register with a journal beside a reckoning of its own (chain.py): random registers, each at a random line
of its journal, and journals that are shorter or longer than it, were cut, mixed or damaged, or lost a part of what was not
synced. Some of their commands are withdrawn.

    tools/try/openings.py [COUNT | --full] [SEED]    of 14 random shifts where no number is given; --full has 2,000

Of each the reckoning says which fault it is, or which lines are carried out and what is cut off. The program has to do
that and nothing more, and the register that is left has to be the one that its journal leads to. `journal` and `verify`
have to name the lines that do not hold their sums. A loss of power may leave any sectors of what came after the last
sync; the others have zeros, bytes of another file, or what an opening had cut off there: of these none is refused. Lines count what was tried, and the gaps between register and journal by their lines;
--full has each from 0 to 20 on each side. TRY_SECONDS, if it is set, is when the last shift begins. GRIDCLEAR names another
program than tools/gridclear."""

import collections
import os
import pathlib
import random
import sys
import tempfile

from chain import Ahead, accepts, carried_out, ended, entries_in, entry_in, first_in, found, journal_ends, lines_in, place_after
from chain import place_of, places_along, sum_after, text_of, verified_as, verify_ends, withdraw_one, written
from looks import copied, look, main, outcomes_counted, register, run
from random_registers import BEGIN, commands_follow, random_files

COUNT = 2_000 if "--full" in sys.argv[1:] else int((sys.argv[1:] or ["14"])[0])
SEED = int((sys.argv[2:] or ["20261129"])[0])
GAPS = [f"{side} {size}" for side in ("behind", "ahead") for size in range(21)]  # where the register is, by lines
LOST = "a loss of power"
EACH = {"a gap": 3, LOST: 3, "damage": 6}  # openings of a shift
WITHDRAWN = [f"a withdrawal in {kind}" for kind in EACH]
SECTOR = 512  # bytes that a disk writes as one
if os.access("/dev/shm", os.W_OK):
    tempfile.tempdir = "/dev/shm"  # a disk would sync each command twice


class Differs(Exception):
    """What was seen is not what the reckoning says."""


def expect(holds, text):
    if not holds:
        raise Differs(text)


Case = collections.namedtuple("Case", "kind, name, at, data, about")  # a register, its journal, and the lines it is about


class Made:
    """A register after random commands, its journal, and copies of it from between them."""

    def __init__(self, folder, chance):
        self.folder, self.chance = folder, chance
        self.files = random_files(chance).written(folder / "files", chance)
        self.path, self.journal, at = folder / "room.db", folder / "journal", BEGIN
        register(self.path, files=self.files, journal=self.journal)
        copies = [copied(self.path, folder / "copy-0.db")]
        for number in range(1, chance.randint(4, 12)):
            at = commands_follow(self.path, chance, at, self.journal)
            if chance.random() < 0.5:
                withdraw_one(self.path, self.journal, lambda *both, at=at: commands_follow(both[0], chance, at, both[1]))
            copies.append(copied(self.path, folder / f"copy-{number}.db"))
        self.data = self.journal.read_bytes()
        self.lines = lines_in(self.data)
        self.texts = [pathlib.Path(path).read_bytes() for path in self.files]
        first = first_in(self.lines[0])
        self.places = places_along(first, entries_in(first, self.lines))
        self.copies = [(self.places.index(place_of(copy)), copy) for copy in copies]

    def register_at(self, at):
        """A copy of the register at this line: an opening takes an earlier one there."""
        path, journal = self.folder / "one.db", self.folder / "one.journal"
        copied(next(copy for begin, copy in reversed(self.copies) if begin <= at), path)
        journal.write_bytes(self.front(at))
        expect(run("run", "--db", path, "--journal", journal) == (0, "", ""), f"it does not open at {at}")
        expect(place_of(path) == self.places[at], f"at {at} its place is {place_of(path)}")
        return path

    def some_line(self, last):
        """A line up to this one, and often this one."""
        return last if self.chance.random() < 0.25 else self.chance.randint(0, last)

    def is_withdrawn(self, at):
        return self.places[at].number in (place.number for place in self.places[at + 1:at + 2])

    def front(self, at):
        """Its journal up to this line."""
        return text_of(self.lines[:at + 1])

    def after(self, at):
        """What comes after a line in one go: lines that are refused, or one that is accepted, or a withdrawal."""
        is_refused = [b'"reply":"refused"' in line for line in self.lines[at + 1:]]
        size = self.chance.randint(1, [*is_refused, False].index(False) or 1)
        return self.lines[at + 1:at + 1 + size], any(is_refused[:1])


# ---- what may become of a journal

def whole(made, other):
    return made.data


def cut(made, other):
    return made.data[:made.chance.randrange(len(made.data) + 1)]


def cut_at_line(made, other):
    return text_of(made.lines[:made.chance.randint(0, len(made.lines))])


def dropped(made, other):
    number = made.chance.randrange(len(made.lines))
    return text_of(made.lines[:number] + made.lines[number + 1:])


def swapped(made, other):
    one, two = (made.chance.randrange(len(made.lines)) for _ in range(2))
    lines = list(made.lines)
    lines[one], lines[two] = lines[two], lines[one]
    return text_of(lines)


def again(made, other):
    """Some lines are there twice."""
    begin, at = (made.chance.randrange(len(made.lines)) for _ in range(2))
    return text_of([*made.lines[:at], *made.lines[begin:begin + made.chance.randint(1, 4)], *made.lines[at:]])


def bits(made, other):
    data = bytearray(made.data)
    for _ in range(made.chance.choice([1, 1, 1, 2, 5])):
        data[made.chance.randrange(len(data))] ^= 1 << made.chance.randrange(8)
    return bytes(data)


def zeros(made, other):
    """A sector that was not written."""
    at = made.chance.randrange(0, len(made.data), SECTOR)
    return made.data[:at] + bytes(min(SECTOR, len(made.data) - at)) + made.data[at + SECTOR:]


def more(made, other):
    """Bytes after it that nobody wrote."""
    size = made.chance.randint(1, 3 * SECTOR)
    return made.data + bytes(made.chance.choices(made.chance.choice([b"\0", b"\0\n", b'{}"\n', range(256)]), k=size))


def others_end(made, other):
    number = made.chance.randrange(len(made.lines))
    return text_of(made.lines[:number] + other.lines[number:])


def others_front(made, other):
    return others_end(other, made)


def others(made, other):
    return other.data


DAMAGES = (whole, whole, whole, cut, cut_at_line, dropped, swapped, again, bits, bits, bits, zeros, zeros, more, others_end, others_end,
           others_front, others)


def power_lost(made):
    """What a loss of power leaves, and the number up to which all was synced: of the rest any sector may be missing."""
    last = made.chance.randrange(len(made.lines))
    synced, (lines, are_refused) = made.front(last), made.after(last)
    older = made.chance.choice([b"", others_bytes(made), cut_off(made, last) if are_refused else b""])
    rest = torn(made, len(synced), text_of(lines), older)
    at = made.some_line(last)
    return Case(LOST, LOST, at - made.is_withdrawn(at), synced + rest[:made.chance.randint(0, len(rest))], lines)


def torn(made, place, text, older):
    """What a disk has of a text from this place on. A sector is written, or as it was before, or lacks some of its bytes."""
    data, older = bytearray(text) + older[len(text):], older.ljust(len(text), b"\0")
    for begin in range(-(place % SECTOR), len(text), SECTOR):
        low, high = max(begin, 0), min(begin + SECTOR, len(text))
        kind = made.chance.choice(["written", "before", "zeros among them"])
        if kind == "before":
            data[low:high] = older[low:high]
        elif kind == "zeros among them":
            data[low:high] = bytes(one * made.chance.randrange(2) for one in data[low:high])
    return bytes(data)


def others_bytes(made):
    """What another file left on the disk, a database."""
    data = made.path.read_bytes()
    begin = made.chance.randrange(len(data))
    return data[begin:begin + made.chance.randint(1, 3 * SECTOR)]


def cut_off(made, last):
    """What an opening cut off after this line: the next command that is accepted had been given before, and was lost in part.
    That is older than lines of refused commands alone: before an accepted one is written the cut is synced."""
    entry = next(filter(accepts, map(entry_in, made.lines[last + 1:])), None)
    if entry is None:
        return b""
    synced, entry = made.front(last), entry | {"number": made.places[last].number + 1}
    line = written(entry | {"sum": sum_after(made.places[last].sum, entry)})
    rest = torn(made, len(synced), line + b"\n", b"")
    ahead = found(made.places[last], synced + rest)
    return rest if isinstance(ahead, Ahead) and ahead.keep == len(synced) else b""


def gap(made, name):
    """A register that has this number of lines less than its journal, or more; fewer where there are not that many."""
    side, size = name.split()
    end = made.chance.randint(min(int(size), len(made.lines) - 1), len(made.lines) - 1)
    begin = max(0, end - int(size))
    low, high = (begin, end) if side == "behind" else (end, begin)
    return Case("a gap", f"{side} {end - begin}", low, made.front(high), made.lines[begin + 1:end + 1])


def damaged(made, other):
    damage = made.chance.choice(DAMAGES)
    data = damage(made, other)
    kept = set(lines_in(data))
    lost = [line for line in made.lines if line not in kept]
    return Case("damage", damage.__name__, made.some_line(len(made.lines) - 1), data, lost)


# ---- what the program does with it

def look_at(made, data, place, path):
    """`verify` and `journal` of a journal, before it is opened."""
    journal = made.folder / "damaged"
    journal.write_bytes(data)
    wanted, result = verified_as(made.texts, place, data), run("verify", path, journal, *made.files)
    expect(result == verify_ends(wanted), f"verify: {result}, to be {wanted}")
    wanted, result = journal_ends(data), ended(run("journal", journal))
    expect(result == wanted, f"journal: {result}, to be {wanted}")
    return journal


def opening(made, case):
    """A register is opened with a journal. Returns what came of it."""
    path, data, place = made.register_at(case.at), case.data, made.places[case.at]
    before = path.read_bytes()
    journal = look_at(made, data, place, path)
    wanted, result = found(place, data), run("run", "--db", path, "--journal", journal)
    expect(path.read_bytes() == before or isinstance(wanted, Ahead), f"the register is another after {wanted}")
    if isinstance(wanted, Ahead):
        expect(result == (0, "", ""), f"opened: {result}")
        expect(journal.read_bytes() == data[:wanted.keep], f"{len(journal.read_bytes())} bytes are left, to be {wanted.keep}")
        place = place_after(place, wanted.entries)
    else:
        expect(case.kind != LOST, f"refused after it: {wanted}")
        expect(result == (1, "", f"fault: {wanted}\n"), f"opened: {result}, to be {wanted}")
        expect(journal.read_bytes() == data, "the journal is another")
    expect(place_of(path) == place, f"its place is {place_of(path)}, to be {place}")
    if place in made.places:  # not where a line that had been cut off is whole again
        journal.write_bytes(made.front(made.places.index(place)))
    status, _, errors = run("verify", path, journal, *made.files)
    expect(status == 0, f"verify with its whole journal: {errors}")
    if isinstance(wanted, Ahead):
        return "opened, cut" if wanted.keep < len(data) else f"opened, {'rolled forward' if carried_out(wanted.entries) else 'level'}"
    return wanted.split()[1]


def case_of(made, other, kind, turn):
    if kind == LOST:
        return power_lost(made)
    return damaged(made, other) if kind == "damage" else gap(made, GAPS[turn % len(GAPS)])


def openings_of(seed):
    """Some openings of a random shift. Returns what came of each, and what there was in it."""
    chance, outcomes = random.Random(seed), []
    with tempfile.TemporaryDirectory(prefix="openings-") as place:
        folder = pathlib.Path(place)
        (folder / "other").mkdir()
        made, other = Made(folder, chance), Made(folder / "other", chance)
        for kind, number in ((kind, number) for kind, count in EACH.items() for number in range(count)):
            case = case_of(made, other, kind, seed * EACH[kind] + number)
            try:
                outcomes.append(opening(made, case))
            except Differs as seen:
                return [*outcomes, f"differs: shift {seed}, {case.name}, at {case.at}: {seen}"]
            outcomes += [case.name] if kind != "damage" else []
            outcomes += [f"a withdrawal in {kind}"] if any(b'"withdrawn":true' in line for line in case.about) else []
    return outcomes


def openings(_):
    counts, tried = outcomes_counted("an opening", openings_of, range(SEED, SEED + COUNT))
    gaps, lines = ({name: counts.pop(name, 0) for name in names} for names in (GAPS, WITHDRAWN))
    lost = counts.pop(LOST, 0)
    counted = ", ".join(f"{count} {outcome}" for outcome, count in sorted(counts.items()))
    look(f"{sum(counts.values())} openings: {counted}", not counts["differs"], counted)
    kinds = ("opened, cut", "opened, level", "opened, rolled forward", "BadLine", "Differs", "OtherRegister", "TooShort")
    look("each kind of outcome has some", tried < 14 or all(counts[kind] for kind in kinds), counted)
    sides = (f"{side} {' '.join(str(gaps[f'{side} {size}']) for size in range(21))}" for side in ("behind", "ahead"))
    held = ", ".join(f"{count} with {name}" for name, count in lines.items())
    summary = f"registers by lines, 0 to 20: {', '.join(sides)}; {held}; {lost} losses of power, each opened"
    look("each gap on each side, and withdrawals in each kind, had some", tried < 2_000 or all((gaps | lines).values()), summary)
    print(f"{sum(counts.values())} openings of {tried} shifts: {counted}", summary, sep="\n", flush=True)


if __name__ == "__main__":
    main(openings)
