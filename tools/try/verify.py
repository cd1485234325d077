#!/usr/bin/env python3
"""`verify` over a register of 1,000 commands in whose file one bit was flipped: each is refused at the opening, or found by
`verify`, or the byte holds nothing of the tables. The same of its journal, where each is found and its line is named.

    tools/try/verify.py [FLIPS]

40 flips of each are tried where no number is given. They are spread over the file, each at a byte and a bit that this
number gives. GRIDCLEAR names another program than tools/gridclear. A line says what came of them."""

import collections
import contextlib
import json
import os
import random
import sqlite3
import subprocess
import sys
import tempfile
from concurrent.futures import ThreadPoolExecutor

from chain import lines_in, place_of, unread
from looks import TOP, copied, look, main, register, run, same

FLIPS = int(sys.argv[1]) if sys.argv[1:] else 40
if os.access("/dev/shm", os.W_OK):
    tempfile.tempdir = "/dev/shm"  # a disk would sync each command twice
TABLES = ("meta", "section", "network_point", "staff", "clearance", "step", "hold", "journal")


def made(folder):
    """A register of 1,000 commands, its journal, and its files."""
    subprocess.run([str(TOP / "bench" / "shift"), "1000", "40", "1", "20", str(folder)], check=True, stdout=subprocess.DEVNULL)
    files = [folder / f"{name}.csv" for name in ("sections", "points", "staff")]
    path, journal = register(folder / "room.db", files=files, journal=folder / "journal"), folder / "journal"
    status, output, errors = run("run", "--db", path, "--journal", journal, lines=commands_in(folder))
    look("1,000 commands with a journal", (status, output.count("\n"), errors) == (0, 1000, ""), (status, errors))
    run("board", path)  # folds the log in
    return path, journal, files


def commands_in(folder):
    return (folder / "shift.jsonl").read_text(encoding="ascii").splitlines()


def verified(journal):
    """What `verify` prints: how many commands were carried out."""
    count = journal.read_text(encoding="ascii").count('"reply":"accepted"')
    return f"verified {count} commands\n"


def rows(path):
    """The rows of all tables as SQLite reads them, or the fault."""
    try:
        with contextlib.closing(sqlite3.connect(f"file:{path}?mode=ro&immutable=1", uri=True)) as found:
            return {table: sorted(found.execute(f"SELECT * FROM {table}").fetchall(), key=repr) for table in TABLES}
    except (sqlite3.Error, OverflowError, UnicodeDecodeError) as error:
        return str(error)


def flipped(path, journal, files, number, at, bit):
    """What came of one flip."""
    one = copied(path, path.with_name(f"flipped-{number}.db"))
    data = bytearray(one.read_bytes())
    data[at] ^= 1 << bit
    one.write_bytes(data)
    own = rows(one)
    board, found = run("board", one), run("verify", one, journal, *files)
    one.unlink()
    if board[0] == 1 and board[2].startswith("fault: store ") and found[0] == 1:
        return "refused at the opening"
    if found[0] == 1:
        return "found by verify"
    if found == (0, verified(journal), "") and own == rows(path):
        return "holds nothing of the tables"
    return f"differs at byte {at}, bit {bit}: board {board[0]}, verify {found}"


def places_in(size, chance):
    """A byte and a bit of each flip."""
    return [(int((number + chance.random()) * size / FLIPS), chance.randrange(8)) for number in range(FLIPS)]


def flips(folder):
    path, journal, files = made(folder)
    same("verify, nothing flipped", run("verify", path, journal, *files), (0, verified(journal), ""))
    size, chance = path.stat().st_size, random.Random(20261126)
    with ThreadPoolExecutor(4) as pool:
        outcomes = list(pool.map(lambda one: flipped(path, journal, files, one[0], *one[1]), enumerate(places_in(size, chance))))
    for outcome in outcomes:
        look("a flipped bit", not outcome.startswith("differs"), outcome)
    counts = collections.Counter(outcome for outcome in outcomes if not outcome.startswith("differs"))
    print(f"{FLIPS} bits of {size} bytes flipped: " + ", ".join(f"{count} {outcome}" for outcome, count in sorted(counts.items())), flush=True)
    of_lines(folder, path, journal, files, chance)


def of_lines(folder, path, journal, files, chance):
    """Bits of the journal: its line is named, whatever of it was changed."""
    data = journal.read_bytes()

    def found_in(number, at, bit):
        other, text = folder / f"journal-{number}", bytearray(data)
        text[at] ^= 1 << bit
        other.write_bytes(text)
        line = data[:at].count(b"\n")
        wanted = [unread(lines_in(bytes(text))), "verify Files"] if line == 0 else [f"journal BadLine {line}"]
        one = copied(path, folder / f"room-{number}.db")
        found = run("verify", one, other, *files)
        look(f"a flipped bit of line {line}", found in [(1, "", f"fault: {one}\n") for one in wanted], (found, at, bit))
        other.unlink()
        one.unlink()

    with ThreadPoolExecutor(4) as pool:
        list(pool.map(lambda one: found_in(one[0], *one[1]), enumerate(places_in(len(data), chance))))
    print(f"{FLIPS} bits of a journal of {len(data)} bytes flipped", flush=True)


def restores(folder):
    """What a restore may leave out, or mix."""
    path, journal, files = made(folder)
    lines, last = journal.read_bytes().splitlines(keepends=True), place_of(path).number
    other, other_journal = folder / "other.db", folder / "other-journal"
    register(other, commands_in(folder), files=files, journal=other_journal)
    for title, database, text, wanted in (
            ("a journal that lacks its last line", path, lines[:-1], "journal TooShort"), ("a journal that lacks a line", path, lines[:500] + lines[501:], "journal BadLine 500"),
            ("two lines in the other order", path, [*lines[:500], lines[501], lines[500], *lines[502:]], "journal BadLine 500"), ("another register's journal", path, other_journal.read_bytes().splitlines(keepends=True), "journal OtherRegister"),
            ("its journal for another register", other, lines, "journal OtherRegister"), ("an end that is another's", path, [*lines[:500], *other_journal.read_bytes().splitlines(keepends=True)[500:]], "journal BadLine 500")):
        (folder / "mixed").write_bytes(b"".join(text))
        same(f"verify finds {title}", run("verify", database, folder / "mixed", *files), (1, "", f"fault: {wanted}\n"))
    same("all of them have a line", last, json.loads(lines[-1])["number"])
    with contextlib.closing(sqlite3.connect(path)) as changed:
        changed.execute("UPDATE clearance SET last_at = last_at + 1 WHERE number = 1")
        changed.commit()
    same("verify finds a row that fits and is another", run("verify", path, journal, *files), (1, "", "fault: verify Differs clearance JONES-1/1\n"))
    for statement, wanted in (("number = number + 1", "journal TooShort"), ("number = number - 1", f"journal Differs {last - 1}"), ("sum = substr(sum, 2) || substr(sum, 1, 1)", f"journal Differs {last}"),
                              ("id = substr(id, 2) || substr(id, 1, 1)", "journal OtherRegister"), ("number = -1", "store BadRow journal")):
        one = copied(other, folder / "placed.db")
        with contextlib.closing(sqlite3.connect(one)) as changed:
            changed.execute(f"UPDATE journal SET {statement}")
            changed.commit()
        same(f"verify finds a place whose {statement}", run("verify", one, other_journal, *files), (1, "", f"fault: {wanted}\n"))


def from_copies(folder):
    """A copy of the register in place of the files: all after its place is run."""
    path, journal, files = made(folder)
    commands = commands_in(folder)
    path, journal = register(folder / "other.db", files=files, journal=folder / "other"), folder / "other"
    copies = [copied(path, folder / "copy-0.db")]
    for number in range(4):
        run("run", "--db", path, "--journal", journal, lines=commands[250 * number:250 * (number + 1)])
        copies.append(copied(path, folder / f"copy-{number + 1}.db"))
    accepted = [json.loads(line)["number"] for line in lines_in(journal.read_bytes()) if b'"reply":"accepted"' in line]
    for copy in copies:
        before, number = rows(copy), place_of(copy).number
        wanted = (0, f"verified {sum(one > number for one in accepted)} commands\n", "")
        same(f"verify --from a copy at {number}", run("verify", path, journal, "--from", copy), wanted)
        same("the copy has the rows that it had", rows(copy), before)
        same("the copy itself is verified, with all lines", run("verify", copy, journal, *files), (0, verified(journal), ""))
    verify = ("verify", path, journal)
    same("verify --from a copy that is after the register", run("verify", copies[1], journal, "--from", copies[2]), (1, "", "fault: journal TooShort\n"))
    same("verify --from a copy of another register", run(*verify, "--from", folder / "room.db"), (1, "", "fault: journal OtherRegister\n"))
    same("verify --from a register without a journal", run(*verify, "--from", register(folder / "plain.db", files=files)), (1, "", "fault: journal OtherRegister\n"))
    with contextlib.closing(sqlite3.connect(copies[2])) as changed:
        changed.execute("UPDATE clearance SET last_at = last_at + 1 WHERE phase = 'Closed'")
        changed.commit()
    status, output, errors = run(*verify, "--from", copies[2])
    look("verify finds a copy whose rows are others", (status, output) == (1, "") and errors.startswith("fault: verify "), errors)
    usage = (2, "", "error: verify takes three files, or --from COPY and no files\n")
    for title, words in (("neither", ()), ("both", (*files, "--from", copies[1])), ("two files", files[:2])):
        same(f"verify with {title}", run(*verify, *words), usage)
    same("verify --from no database", run(*verify, "--from", folder / "none.db"), (1, "", "fault: store Sql\n"))
    same("a journal that is the copy's", run("verify", path, copies[1], "--from", copies[1]), (1, "", "fault: journal SameFile\n"))


main(flips, restores, from_copies)
