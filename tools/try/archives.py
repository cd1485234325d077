#!/usr/bin/env python3
"""`archive` beside a reckoning of its own: random registers that commands have made, at random moments.

    tools/try/archives.py [COUNT | --full] [SEED]    60 registers where no number is given; --full: 2,000

What goes out and the rows that are left are together the rows from before. Each Closed record whose last
moment is before the one that is named has a line with its steps, and these steps alone are gone. Random
commands after it, and more archives among them, are answered as in a copy that was never archived, but for a
view of a record that gave up its steps. Where standard output is full, closed or unread, no row goes. With a journal an
archive is one line of it; a copy from before is carried on by that line, and verify says yes of all.
A line counts what was tried. GRIDCLEAR names another program than tools/gridclear."""

import collections
import concurrent.futures
import json
import os
import pathlib
import random
import shutil
import subprocess
import sys
import tempfile
import threading

from looks import FILES, GRIDCLEAR, TOP, Server, copied, look, main, run, same
from random_registers import BEGIN, Logged, Moves, Step, Tables, commands_follow, made, text_of

COUNT = 2_000 if "--full" in sys.argv[1:] else int((sys.argv[1:] or ["60"])[0])
SEED = int((sys.argv[2:] or ["20261128"])[0])
EACH = 4  # archives of a register, with commands between them
LAST = 4102444799  # the greatest moment
KEYS = ["clearance", "holder", "last", "steps", "work"]
NO_OUTPUT = "fault: output WriteFailed\n"
LARGE = 12_000  # commands, of which an archive is longer than a pipe holds
ROOM = 1 << 20  # bytes that the file of an output has already


class Differs(Exception):
    """What was seen is not what the reckoning says."""


def expect(holds, text):
    if not holds:
        raise Differs(text)


def past(tables, before):
    """The records that give up steps at this moment, in their order."""
    return [name for name, record in sorted(tables.records.items())
            if record.phase == "Closed" and record.last < before and tables.steps_of(name)]


def line_of(tables, clearance):
    """The line of such a record: its keys in the order of their bytes, and its steps in their order."""
    record, steps = tables.records[clearance], []
    for (*name, turn, number), step in sorted(tables.steps.items()):
        if tuple(name) == clearance:
            row = {"number": number, "reader": step.reader, "round": turn, "state": step.state}
            steps.append(row | {"text": f"{step.action.upper()} {step.point}"})
    line = dict(zip(KEYS, (text_of(clearance), record.holder, record.last, steps, record.work)))
    return json.dumps(line, sort_keys=True, separators=(",", ":")) + "\n"


def steps_out(output):
    """The rows of steps that went out."""
    rows = {}
    for line in output.splitlines():
        found = json.loads(line)
        expect(list(found) == KEYS, f"a line has the keys {list(found)}")
        by, number = found["clearance"].split("/")
        for step in found["steps"]:
            action, point = step["text"].split(" ")
            row = Step(action.capitalize(), point, step["state"], step["reader"])
            rows[by, int(number), step["round"], step["number"]] = row
    return rows


def without_steps(tables):
    return vars(tables) | {"steps": None}


def look_at_archive(path, before):
    """One archive: what went out, and what is left. Returns the clearances that gave up their steps."""
    tables = Tables(path)
    gone = past(tables, before)
    status, output, errors = run("archive", path, "--before", before)
    expect((status, errors) == (0, ""), f"it ends with {status}: {errors}")
    wanted = "".join(line_of(tables, name) for name in gone)
    expect(output == wanted, f"before {before} it prints {output!r}, to be {wanted!r}")
    after, out = Tables(path), steps_out(output)
    counts = f"{len(after.steps)} steps are left of {len(tables.steps)}, {len(out)} went out"
    expect(not after.steps.keys() & out.keys() and after.steps | out == tables.steps, counts)
    expect(without_steps(after) == without_steps(tables), "other rows changed")
    expect(run("archive", path, "--before", before) == (0, "", ""), "something is left for this moment")
    status, _, errors = run("board", path)
    expect(status == 0, f"board: {errors}")
    for clearance in gone[:1]:
        found = run("order", path, text_of(clearance), 1)
        expect(found == (1, "", "fault: clearance NoSuch\n"), f"order of {clearance}: {found}")
    return {text_of(name) for name in gone}


def commands(path, chance, at):
    """Some commands by the tables of a register, and a view of each record; and the last moment."""
    moves = Moves(Tables(path), chance, at)
    records, staff = sorted(moves.tables.records), sorted(moves.tables.staff)
    for clearance in moves.tables.open_records():
        moves.go_on(clearance)
    moves.begin()
    for clearance in records:
        moves.say(chance.choice(staff), "show", clearance)
    for clearance in chance.sample(records, min(2, len(records))):
        moves.say(chance.choice(staff), chance.choice(["cancel", "grant"]), clearance)
        moves.say(moves.operator(), "instruct", clearance, step=1)
    return moves.lines, moves.at


def answered_alike(one, whole, archived, chance, at):
    """The same commands over both registers."""
    lines, at = commands(whole, chance, at)
    replies = []
    for path in (one, whole):
        status, output, errors = run("run", "--db", path, lines=lines)
        expect(status == 0, f"run: {errors}")
        replies.append(output.splitlines())
    expect(len(replies[0]) == len(lines), f"{len(replies[0])} replies to {len(lines)} commands")
    for line, reply, wanted in zip(lines, *replies):
        said = json.loads(line)
        shows_archived = said["do"] == "show" and said["clearance"] in archived
        expect(reply == wanted or shows_archived, f"{line} is answered {reply}, unarchived {wanted}")
    left = [Tables(path) for path in (one, whole)]
    kept = {key: step for key, step in left[1].steps.items() if text_of(key[:2]) not in archived}
    expect(left[0].steps == kept, "the steps that are left differ")
    expect(without_steps(left[0]) == without_steps(left[1]), "rows differ after the same commands")
    return at


def moment(tables, chance):
    """The last moment of some record, or the one after it; or the first or the last of all."""
    moments = [record.last for record in tables.records.values()] or [BEGIN]
    return min(LAST, chance.choice([0, LAST, *moments, *moments]) + chance.choice([0, 0, 1]))


def years(seed):
    """A register over some archives and the commands between them. Returns what came of each archive."""
    chance, outcomes, archived = random.Random(seed), [], set()
    with tempfile.TemporaryDirectory(prefix="archives-") as place:
        path, _, at = made(pathlib.Path(place), chance)
        one = copied(path, path.with_name("archived.db"))
        try:
            for _ in range(EACH):
                gone = look_at_archive(one, moment(Tables(one), chance))
                archived |= gone
                at = answered_alike(one, path, archived, chance, at)
                outcomes.append(len(gone))
        except Differs as found:
            look("an archive", False, f"register {seed}, archive {len(outcomes)}: {found}")
            outcomes.append(None)
    return outcomes


def archives(_):
    with concurrent.futures.ThreadPoolExecutor(os.cpu_count()) as pool:
        found = [outcome for outcomes in pool.map(years, range(SEED, SEED + COUNT)) for outcome in outcomes]
    counts = collections.Counter("differ" if one is None else "some" if one else "none" for one in found)
    records = sum(one or 0 for one in found)
    tried = f"{counts['some']} archives of {records} records, {counts['none']} of none"
    look(tried, not counts["differ"] and counts["some"], f"{counts['differ']} differ")


def look_at_logged(logged, before):
    """One archive of a register with a journal. Returns how many records gave up their steps."""
    tables, lines = Tables(logged.path), logged.lines()
    gone, held = past(tables, before), copied(logged.path, logged.path.with_name("held.db"))
    found = run("archive", logged.path, "--before", before, "--journal", logged.journal)
    wanted = "".join(line_of(tables, name) for name in gone)
    expect(found == (0, wanted, ""), f"before {before}: {found}, to print {wanted!r}")
    more = [json.loads(line) for line in logged.more(lines)]
    expect([list(line) for line in more] == [["archived", "number", "received", "sum"]], f"its lines: {more}")
    expect(more[0]["archived"] == {"before": before}, f"its line: {more}")
    left = {key: step for key, step in tables.steps.items() if key[:2] not in gone}
    for path in (logged.path, logged.carried_on(held)):
        after = Tables(path)
        expect(after.steps == left and without_steps(after) == without_steps(tables), f"{path.name} has other rows")
    return len(gone)


def years_logged(seed):
    """Archives of a register with a journal and the commands between them."""
    chance, outcomes = random.Random(seed), []
    with tempfile.TemporaryDirectory(prefix="archives-") as place:
        path, _, at = made(pathlib.Path(place), chance)
        try:
            logged = Logged(path)
            for _ in range(EACH):
                outcomes.append(look_at_logged(logged, moment(Tables(path), chance)))
                at = commands_follow(path, chance, at, logged.journal)
                expect(logged.verified(), f"verify: {logged.verify()}")
        except Differs as found:
            look("an archive with a journal", False, f"register {seed}, archive {len(outcomes)}: {found}")
            outcomes.append(None)
    return outcomes


def logged(_):
    with concurrent.futures.ThreadPoolExecutor(os.cpu_count()) as pool:
        found = [one for outcomes in pool.map(years_logged, range(SEED, SEED + -(-COUNT // 4))) for one in outcomes]
    tried = f"{len(found)} archives with a journal, of {sum(one or 0 for one in found)} records"
    look(tried, None not in found and any(found), f"{found.count(None)} differ")


def large(folder):
    """A register of which an archive is longer than a pipe holds."""
    words = [str(TOP / "bench" / "shift"), str(LARGE), "40", "1", "20", str(folder)]
    subprocess.run(words, check=True, stdout=subprocess.DEVNULL)
    path, lines = folder / "room.db", (folder / "shift.jsonl").read_text(encoding="ascii").splitlines()
    run("init", *(folder / f"{name}.csv" for name in ("sections", "points", "staff")), "--db", path)
    status, _, errors = run("run", "--db", path, lines=lines)
    look(f"{LARGE} commands", status == 0, errors)
    return path


def words_of(path):
    return [GRIDCLEAR, "archive", str(path), "--before", str(LAST)]


def into(path, output):
    """The status and the line of an archive whose standard output is this file, or closed."""
    words = words_of(path) if output else ["bash", "-c", 'exec "$@" >&-', "-", *words_of(path)]
    done = subprocess.run(words, stdout=output, stderr=subprocess.PIPE, text=True, check=False)
    return done.returncode, done.stderr


def read_up_to(path, count):
    """The same, into a pipe whose reader ends after this number of bytes."""
    ends = os.pipe()
    reader = threading.Thread(target=read_and_close, args=(ends[0], count))
    reader.start()
    if not count:
        reader.join()
    with os.fdopen(ends[1], "wb") as pipe:
        found = into(path, pipe)
    reader.join()
    return found


def read_and_close(end, count):
    while count and (piece := os.read(end, count)):
        count -= len(piece)
    os.close(end)


def on_a_full_disk(path):
    """The same, into a file that may grow by 100 kB, and no more; the database has room."""
    steps = path.with_name("steps.jsonl")
    steps.write_bytes(bytes(ROOM))
    line = 'trap "" XFSZ; ulimit -f "$1"; exec "${@:3}" >>"$2"'
    words = ["bash", "-c", line, "-", str(ROOM // 1024 + 100), str(steps), *words_of(path)]
    done = subprocess.run(words, stderr=subprocess.PIPE, text=True, check=False)
    return done.returncode, done.stderr


def outputs(folder):
    """Nothing is removed where not all of it went out."""
    path = large(folder)
    tables = vars(Tables(path))
    with open("/dev/full", "wb") as full:
        titles = {"full": lambda: into(path, full), "closed": lambda: into(path, None),
                  "read by nobody": lambda: read_up_to(path, 0),
                  "read for 100 bytes": lambda: read_up_to(path, 100),
                  "read for 100,000 bytes": lambda: read_up_to(path, 100_000),
                  "a file that is full": lambda: on_a_full_disk(path)}
        for title, archive in titles.items():
            same(f"standard output {title}", archive(), (1, NO_OUTPUT))
            look(f"standard output {title}: no row is gone", vars(Tables(path)) == tables)
    status, output, errors = run("archive", path, "--before", LAST)
    is_whole = (status, errors) == (0, "") and len(output) > 200_000
    look(f"then all of it: {len(output)} bytes", is_whole, errors)
    same("nothing is left", past(Tables(path), LAST), [])


def refused(folder):
    """What is no moment, and what is no register, is refused, and changes nothing."""
    path, _, _ = made(folder, random.Random(SEED))
    tables = vars(Tables(path))
    for words in ("", "--before", "--before x", "--before -1", f"--before {LAST + 1}", "--before 1 2"):
        status, output, errors = run("archive", path, *words.split())
        look(f"archive {words}", (status, output) == (2, "") and errors, (status, output, errors))
    with Server(path):
        same("of one that is served", run("archive", path, "--before", 1), (1, "", "fault: store Sql\n"))
    look("nothing is gone", vars(Tables(path)) == tables)
    shutil.copy(FILES[1], folder / "points")
    for name in ("points", "nowhere"):
        same(f"of {name}", run("archive", folder / name, "--before", 1), (1, "", "fault: store Sql\n"))


if os.access("/dev/shm", os.W_OK):
    tempfile.tempdir = "/dev/shm"  # a disk would sync each command twice
main(archives, logged, outputs, refused)
