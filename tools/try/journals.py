#!/usr/bin/env python3
"""Journals, by a reckoning of their sums of its own (chain.py): which commands have a line, what `journal` and `verify`
say of lines that were changed, what an opening does with a register that is not at the end of its journal, when it is
refused, and a journal in several parts.

    tools/try/journals.py [--full]    --full flips a bit of each byte, takes each byte out, and cuts at each

A line is what a line feed ends. Half a line at the end of a part is a bad line with the next number, to `journal` and to
`verify`, whatever it holds; an opening cuts it off."""

import concurrent.futures
import contextlib
import itertools
import json
import lzma
import os
import pathlib
import random
import re
import shutil
import sqlite3
import sys
import tempfile
import time

from chain import RULES, Ahead, Chain, Place, accepts, bad_lines, carried, carried_out, ended, entries_in, first_in, first_place
from chain import first_text, found, is_bad_alone, journal_ends, lines_in, place_after, place_at_last, place_of, places_along
from chain import rows_of, text_of, unread, verified_as, verify_ends, walk, withdraw_one, written
from looks import FILES, TOP, Server, copied, fault, get, look, main, post, register, replied, run, same, shift

IS_FULL = "--full" in sys.argv[1:]
if os.access("/dev/shm", os.W_OK):
    tempfile.tempdir = "/dev/shm"  # a disk would sync each command twice
OPEN_FAILED = "fault: journal OpenFailed\n"
MISSING = "fault: journal Missing\n"
OTHER = "fault: journal OtherRegister\n"
OWN = "Host: localhost"
BAD = ['{"at":1795503600,"by":"NOBODY","do":"request","section":"L2"}', '{"at":1795503720,"by":"OPS","clearance":"JONES/1","do":"grant"}']
JUMPER = '{"by":"OPS","do":"jumper","from":"L1","lockable":true,"point":"J1","remote":false,"to":"X1"}'
SHOW = '{"by":"JONES","clearance":"JONES/1","do":"show"}'
NO_SHOW = '{"by":"JONES","clearance":"JONES/9","do":"show"}'
LONG = written({"at": 1795503600, "by": "OPS", "clearance": "JONES/1", "do": "order", "points": ["S2"], "steps": ["OPEN S2"] * 250}).decode()
TEXTS = [pathlib.Path(path).read_bytes() for path in FILES]
NUMBERS = itertools.count(1)


def every():
    """A whole shift, with a jumper and commands that are refused, of which two come last, and shows."""
    commands = shift()
    for place, more in ((45, [BAD[0], JUMPER]), (30, [BAD[1], LONG]), (12, [NO_SHOW]), (3, BAD)):
        commands[place:place] = more
    return [*commands, BAD[0], SHOW, BAD[1]]


def first_line(title, path, journal, since, texts=tuple(TEXTS)):
    """The place that a new journal begins with, which was begun at one of the seconds since then."""
    line = lines_in(journal.read_bytes())[0]
    places = [first_place(texts, moment, path, journal) for moment in range(since, int(time.time()) + 1)]
    place = next((place for place in places if first_text(place) == line), None)
    look(f"{title}: the first line", place, line)
    return place or first_in(line)


def with_journal(folder, commands=()):
    """A register with a journal, after these commands."""
    journal = folder / "journal"
    return register(folder / "room.db", commands, journal=journal), journal


def opened(path, journal):
    """A register is opened with a journal, and given no command."""
    return run("run", "--db", path, "--journal", journal)


def look_at_lines(title, journal, wanted, since, first):
    """The journal has these lines after its first: of each the command, the login and the reply."""
    lines, chain = lines_in(journal.read_bytes()), Chain(first)
    same(f"{title}: the number of lines", len(lines) - 1, len(wanted))
    for text, (command, login, reply) in zip(lines[1:], wanted):
        received = json.loads(text)["received"]
        chain.add(json.loads(command), json.loads(reply), login, received)
        same(f"{title}: line {chain.place.number}", text, chain.lines[-1])
        look(f"{title}: line {chain.place.number} has this machine's clock", since <= received <= time.time(), received)
    return chain


def verified(title, path, journal, *parts, words=None):
    """`verify` says yes, of all commands of these parts."""
    lines = [json.loads(line) for one in (journal, *parts) for line in lines_in(one.read_bytes())[1:]]
    further = [word for part in parts for word in ("--part", part)]
    wanted = (0, f"verified {len(carried_out(lines))} commands\n", "")
    same(f"{title}: verify", run("verify", path, journal, *further, *(words or FILES)), wanted)


def noted_replies(commands, replies, login=None):
    """What of these has a line: neither a show, nor what is no command."""
    pairs = zip([command for command in commands if command], replies)
    return [(command, login, reply) for command, reply in pairs if '"do":"show"' not in command and '"fault"' not in reply]


def of_run(folder):
    """`run`: an accepted and a refused command have a line; a show, an empty line and what is no command have none."""
    since = int(time.time())
    path, journal = with_journal(folder)
    first = first_line("run", path, journal, since)
    same("run: its place before the first command", place_of(path), first)
    verified("run, before the first command", path, journal)
    given = [*shift(2), "", "{", SHOW, NO_SHOW, *BAD, JUMPER, LONG, '{"do":"fly"}', shift(3)[2], JUMPER]
    plain = run("run", "--db", register(folder / "plain.db"), lines=given)
    found_here = run("run", "--db", path, "--journal", journal, lines=given)
    same("run with a journal prints as without", found_here, plain)
    wanted = noted_replies(given, found_here[1].splitlines())
    same("four accepted and four refused commands", len(wanted), 8)
    chain = look_at_lines("run", journal, wanted, since, first)
    look("a refusal that would be long has no lists in its line", max(map(len, chain.lines)) < 2048, max(map(len, chain.lines)))
    same("the place is that of the last accepted command", place_of(path), last_accepted(first, chain))
    verified("run", path, journal)
    same("the same board", run("board", path), run("board", folder / "plain.db"))
    # the numbers go on, in `run` and in `serve`
    more = shift(6)[3:]
    wanted += noted_replies(more[:1], run("run", "--db", path, "--journal", journal, lines=more[:1])[1].splitlines())
    with Server(path, "--journal", journal) as server:
        answers = [server.ask(post(command)).partition(b"\r\n\r\n")[2].decode() for command in more[1:]]
        wanted += noted_replies(more[1:], answers)
        for asked in (get("/board"), get("/clearance/JONES/JONES/1"), get("/order/JONES/1/1"), get("/clearance/JONES/JONES/9"), post(SHOW), post(NO_SHOW), post("{")):
            server.ask(asked)
    chain = look_at_lines("after restarts", journal, wanted, since, first)
    same("after restarts: the place", place_of(path), last_accepted(first, chain))
    verified("after restarts", path, journal)


def last_accepted(first, chain):
    """The place at the last command of a chain that was carried out."""
    return place_at_last(first, [entry for _, entry in walk(first, chain.lines[1:])])


def in_brief(folder):
    """A refused command is noted whole in up to 2,048 bytes, and in more without its lists and its text."""
    since = int(time.time())
    path, journal = with_journal(folder, shift(3))
    first, wanted = first_in(lines_in(journal.read_bytes())[0]), noted_replies(shift(3), run("run", "--db", register(folder / "plain.db"), lines=shift(3))[1].splitlines())
    repeat = json.loads(shift(4)[3]) | {"at": 1795503600}
    reply = run("run", "--db", path, "--journal", journal, lines=[written(repeat).decode()])[1].strip()
    wanted.append((written(repeat).decode(), None, reply))
    base = len(written(carried(repeat | {"text": ""}, None, 5, since, json.loads(reply)) | {"sum": "0" * 64}))
    for length in (2048, 2049, 60_000):
        command = written(repeat | {"text": "x" * (length - base)}).decode()
        wanted.append((command, None, run("run", "--db", path, "--journal", journal, lines=[command])[1].strip()))
    for command in (LONG, LONG.replace('"order"', '"restore"').replace('"points":["S2"],', ""), written({"at": 1, "by": "JONES", "do": "switch", "steps": ["OPEN S2"] * 250}).decode()):
        wanted.append((command, None, run("run", "--db", path, "--journal", journal, lines=[command])[1].strip()))
    look("all of these are refused", all('"refused"' in reply for _, _, reply in wanted[3:]), wanted[3:])
    chain = look_at_lines("in brief", journal, wanted, since, first)
    same("in brief: one line of 2,048 bytes, none of more", sorted(map(len, chain.lines))[-1], 2048)
    verified("in brief", path, journal)


def of_serve(folder):
    """`serve`: the login of a line is that of its request."""
    since = int(time.time())
    path, journal = with_journal(folder)
    logins = folder / "logins.csv"
    logins.write_text("login,employee\njones@grid.example,JONES\nOPS,OPS\nOPS,REED\n", encoding="ascii")
    wanted, first = [], first_line("serve", path, journal, since)
    with Server(path, "--desk", "--logins", logins, "--journal", journal) as server:
        for command in [*shift(8), *BAD]:
            login = "jones@grid.example" if json.loads(command)["by"] == "JONES" else "OPS"
            answer = server.ask(post(command, OWN, f"X-Forwarded-User: {login}"))
            if replied(answer)[0] in (200, 409):
                wanted.append((command, login, answer.partition(b"\r\n\r\n")[2].decode()))
            same("what is Foreign has no line", server.ask(post(command, f"X-Forwarded-User: {login}")), fault(403, "Foreign"))
            same("what is NotCaller has no line", server.ask(post(command, OWN, "X-Forwarded-User: KIM")), fault(403, "NotCaller"))
    same("nine commands reached the register", len(wanted), 9)
    chain = look_at_lines("serve", journal, wanted, since, first)
    same("the place, though the server was killed", place_of(path), last_accepted(first, chain))
    verified("serve", path, journal)
    log_lines = run("journal", journal, "JONES/1")[1].splitlines()
    same("the log names a login where it is another", [text.split("  ")[3] for text in log_lines[:4]], ["JONES (jones@grid.example)", "OPS", "OPS", "REED (OPS)"])


# The log of five commands of the shift, two that are refused, and a jumper, by hand.
LOG = """\
1  2026-11-24 07:00:00 +00:00  JONES/1  JONES  request L2  accepted
2  2026-11-24 07:02:00 +00:00  JONES/1  OPS  order S2 S3, OPEN S2, OPEN S3, BLOCK S2, BLOCK S3, TAG S2, TAG S3  accepted
3  2026-11-24 07:04:00 +00:00  JONES/1  OPS  instruct 1 OPEN S2  accepted
4  2026-11-24 07:06:00 +00:00  JONES/1  REED  repeat 1 OPEN S2 "OPEN S2"  accepted
5  2026-11-24 07:08:00 +00:00  JONES/1  REED  report 1 OPEN S2 done  accepted
6  2026-11-24 07:00:00 +00:00  -  NOBODY  request L2  refused UNKNOWN_CALLER
7  2026-11-24 07:02:00 +00:00  JONES/1  OPS  grant  refused EARLIER
8  -  -  OPS  jumper J1 from L1 to X1, lockable  accepted
"""
BAD_LINE = "{}  -  -  -  -  does not hold its sum\n"


def log(folder):
    """The switching log as a person reads it, and journals that are none."""
    path, journal = with_journal(folder, [*shift(5), *BAD, JUMPER])
    same("the log", run("journal", journal), (0, LOG, ""))
    own = "".join(text for text in LOG.splitlines(keepends=True) if "JONES/1" in text)
    same("the log of one clearance", run("journal", journal, "JONES/1"), (0, own, ""))
    west = LOG.replace(" 07:", " 02:").replace("+00:00", "-05:00")
    same("the log by another clock", run("journal", journal, "--offset=-300"), (0, west, ""))
    other = folder / "other"
    same("journal, no file", run("journal", other), (1, "", OPEN_FAILED))
    same("journal, a folder", run("journal", folder), (1, "", "fault: journal ReadFailed\n"))
    same("journal, a clearance that does not read", run("journal", other, "JONES/01"), (1, "", "fault: clearance NoSuch\n"))
    same("journal, a clearance without a line", run("journal", journal, "KIM/1"), (0, "", ""))
    text = journal.read_bytes()
    for title, data in {"an empty file": b"", "a first line alone that no line feed ends": lines_in(text)[0], "a file without a first line": text_of(lines_in(text)[1:])}.items():
        other.write_bytes(data)
        same(f"journal, {title}", run("journal", other), (1, "", "fault: journal BadLine 0\n"))
        same(f"verify, {title}", run("verify", path, other, *FILES), (1, "", "fault: journal BadLine 0\n"))
    other.write_bytes(text_of(lines_in(text)[:1]))
    same("journal, a first line alone", run("journal", other), (0, "", ""))
    half_lines(path, other, text)
    other.write_bytes(text + b"x" * (1 << 22) + b"\n")
    same("journal, a line of 4 MiB", run("journal", other), (1, LOG + BAD_LINE.format(9), "fault: journal BadLine 9\n"))
    other.write_bytes(text + b"x" * ((1 << 22) + 1) + b"\n")
    same("journal, a line of more than 4 MiB", run("journal", other)[::2], (1, "fault: journal TooLong\n"))
    same("verify, a line of more than 4 MiB", run("verify", path, other, *FILES), (1, "", "fault: journal TooLong\n"))


def half_lines(path, other, text):
    """What no line feed ends is a bad line with the next number: also where the line feed alone is missing, or is another byte."""
    last, commands = lines_in(text)[-1], run("journal", path.with_name("journal"), "--commands")[1]
    before = "".join(LOG.splitlines(keepends=True)[:-1])
    ends = [(text, end, 9, LOG, commands) for end in (b'{"command":', b"{", b"\0", b"\xff" * 70, b" ")]
    ends += [(text_of(lines_in(text)[:-1]), end, 8, before, "".join(commands.splitlines(keepends=True)[:-1])) for end in (last, last + b"\x0b", last + b" ", last[:-1], last[:1])]
    for front, end, number, printed, carried in ends:
        title, fault = f"half a line, {end[-40:]!r}", f"fault: journal BadLine {number}\n"
        other.write_bytes(front + end)
        same(f"{title}: journal", run("journal", other), (1, printed + BAD_LINE.format(number), fault))
        same(f"{title}: journal --commands", run("journal", other, "--commands"), (1, carried, fault))
        same(f"{title}: verify", run("verify", path, other, *FILES), (1, "", fault))
    other.write_bytes(text_of(lines_in(text)[:1]) + b"{")
    same("half a line after the first: journal", run("journal", other), (1, BAD_LINE.format(1), "fault: journal BadLine 1\n"))
    same("half a line after the first: verify", run("verify", path, other, *FILES), (1, "", "fault: journal BadLine 1\n"))


def own_form(folder):
    """A line reads in its own form alone, and each that does not hold its sum has a line of the log."""
    path, journal = with_journal(folder, [*shift(5), *BAD, JUMPER])
    lines = lines_in(journal.read_bytes())
    before = path.read_bytes()

    def changed(number, text, *bad):
        title = f"line {number} as {text[:60]!r}"
        data = text_of([*lines[:number], *text.split(b"\n"), *lines[number + 1:]])
        (folder / "other").write_bytes(data)
        same(f"{title}: bad lines", bad_lines(data), list(bad))
        status, output, errors = run("journal", folder / "other")
        ends = [one for one in output.splitlines(keepends=True) if one.endswith("does not hold its sum\n")]
        fault = f"fault: {unread(lines_in(data))}\n" if bad == (0,) else f"fault: journal BadLine {bad[0]}\n"
        same(f"{title}: journal", (ends, status, errors), ([BAD_LINE.format(one) for one in bad if one], 1, fault))
        same(f"{title}: verify", run("verify", path, folder / "other", *FILES), (1, "", fault))

    for number in (0, 3, 6, 7):
        text, bad = lines[number], (number,)
        changed(number, text.replace(b',"number"', b',"more":1,"number"'), *bad)
        changed(number, text.replace(b',"number"', b', "number"'), *bad)
        changed(number, text.replace(b'"number":', b'"number":0'), *bad)
        changed(number, re.sub(rb'("number":\d)', rb"\1,\1", text), *bad)
        changed(number, text + b" ", *bad)
        changed(number, text + b"\r", *bad)
    changed(0, by_others(lines[0]), 0)
    changed(3, lines[3].replace(b'"reply":"accepted"', b'"reply":7'), 3)
    changed(3, lines[3].replace(b'"login":null', b'"login":7'), 3)
    changed(3, lines[3].replace(b'"sum":', b'"sun":'), 3)
    changed(3, lines[3][1:], 3)
    changed(3, b"\xff" + lines[3], 3)
    changed(3, lines[3][:-3] + b'x"}', 3, 4)
    changed(3, lines[3][:-3] + b'\xff"}', 3, 4)
    changed(4, b"a word", 4, 5)
    changed(4, b"", 4, 5)
    changed(4, lines[4] + b"\n" + lines[4], 5)
    changed(4, lines[5] + b"\n" + lines[4], 4, 6)
    same("the register is unchanged", path.read_bytes() == before, True)
    for number in (1, 4, 6, 8):
        data = text_of([*lines[:number], *lines[number + 1:]])
        (folder / "other").write_bytes(data)
        wanted = f"fault: journal BadLine {number}\n" if number < 8 else "fault: journal TooShort\n"
        same(f"without line {number}: verify", run("verify", path, folder / "other", *FILES), (1, "", wanted))


class Whole:
    """A register after a whole shift with lines of each kind, its journal, and a copy of it after each command. Some of the
    commands are withdrawn, and given again."""

    def __init__(self, folder):
        self.folder, commands = folder, every()
        self.path, self.journal = with_journal(folder)
        self.copies, self.boards = [copied(self.path, folder / "copy-0.db")], [run("board", self.path)[1]]
        for number, command in enumerate(commands, 1):
            if number % 9 == 5:
                withdraw_one(self.path, self.journal, lambda *both, command=command: self.give(command, *both))
                self.boards += self.boards[-2:-1] if self.count() > len(self.boards) else []
            self.give(command, self.path, self.journal)
            self.copies.append(copied(self.path, folder / f"copy-{number}.db"))
        self.data = self.journal.read_bytes()
        self.lines = lines_in(self.data)
        self.first = first_in(self.lines[0])
        self.places = places_along(self.first, entries_in(self.first, self.lines))
        self.at = [self.places.index(place_of(copy)) for copy in self.copies]
        self.log = run("journal", self.journal)[1]

    def give(self, command, path, journal):
        """Notes the board after a command that has a line."""
        run("run", "--db", path, "--journal", journal, lines=[command])
        if len(lines_in(journal.read_bytes())) > len(self.boards):
            self.boards.append(run("board", path)[1])

    def count(self):
        return len(lines_in(self.journal.read_bytes()))

    def copy_at(self, line):
        """The first copy whose place is this line or a later one."""
        return next(copy for copy, at in zip(self.copies, self.at) if at >= line)

    def opens(self, title, copy, data):
        """A copy of a register is opened with a journal of these bytes, as the reckoning says; and what it says."""
        name = next(NUMBERS)
        path, journal = copied(copy, self.folder / f"{name}.db"), self.folder / f"{name}.journal"
        journal.write_bytes(data)
        place, before = place_of(path), path.read_bytes()
        wanted, result = found(place, data), opened(path, journal)
        if isinstance(wanted, Ahead):
            same(f"{title}: opened", result, (0, "", ""))
            look(f"{title}: what was never synced is cut off", journal.read_bytes() == data[:wanted.keep], len(journal.read_bytes()))
            place = place_after(place, wanted.entries)
            same(f"{title}: its place", place_of(path), place)
        else:
            same(f"{title}: refused", result, (1, "", f"fault: {wanted}\n"))
            look(f"{title}: nothing is changed", journal.read_bytes() == data and path.read_bytes() == before, wanted)
            same(f"{title}: its place", place_of(path), place)
        same(f"{title}: its board", run("board", path)[1], self.boards[self.places.index(place)])
        for one in (path, journal):
            one.unlink()
            one.with_name(f"{one.name}-wal").unlink(missing_ok=True)
        return wanted


    def said(self, title, data):
        """What `verify` and `journal` say of these bytes, which the second returns as `ended` has it."""
        path, other = copied(self.path, self.folder / f"{next(NUMBERS)}.db"), self.folder / f"said-{next(NUMBERS)}"
        other.write_bytes(data)
        result, log = run("verify", path, other, *FILES), run("journal", other)
        same(f"{title}: verify", result, verify_ends(verified_as(TEXTS, place_of(path), data)))
        same(f"{title}: journal", ended(log), journal_ends(data))
        path.unlink()
        other.unlink()
        return log[1]


def side_by_side(work, cases):
    """Four at a time: what came of each case."""
    with concurrent.futures.ThreadPoolExecutor(4) as pool:
        return list(pool.map(lambda case: work(*case), cases))


def gaps(folder):
    """Each copy of the database, from none to all lines after its place, is rolled forward to its journal."""
    whole = Whole(folder)
    same("places go on", sorted(whole.at), whole.at)
    look("some commands are withdrawn", sum(b'"withdrawn":true' in line for line in whole.lines) > 3, whole.log)
    wanted = side_by_side(whole.opens, [(f"{len(whole.lines) - 1 - at} lines after it", copy, whole.data) for copy, at in zip(whole.copies, whole.at)])
    look("each opening took the lines after it", all(one.keep == len(whole.data) for one in wanted))
    for number in (0, 20, 41):
        path = copied(whole.copies[number], folder / "rolled.db")
        with Server(path, "--journal", whole.journal) as server:
            board = server.ask(get("/board")).partition(b"\r\n\r\n")[2].decode()
        same(f"served, rolled forward from {number}: the board", board, whole.boards[-1])
        verified(f"served, rolled forward from {number}", path, whole.journal)
    found_here = run("verify", whole.copies[20], whole.journal, *FILES)
    same("verify of a copy that is not at the end", found_here, run("verify", whole.path, whole.journal, *FILES))


def shorter(folder):
    """A journal that was cut at a byte: too short, or what was refused at its end is missing, and nothing else."""
    whole, size = Whole(folder), 0
    cases = []
    for number, line in enumerate(whole.lines):
        size += len(line) + 1
        cases += [(f"cut {title} line {number}", whole.path, whole.data[:place]) for title, place in (("before the end of", size - 1), ("after", size))]
    cases += [(f"cut at byte {at}", whole.path, whole.data[:at]) for at in range(0, len(whole.data), 1 if IS_FULL else 311)]
    wanted = side_by_side(whole.opens, cases)
    side_by_side(whole.said, [(title, data) for title, _, data in cases])
    counts = [sum(one == kind for one in wanted) for kind in ("journal TooShort", "journal BadLine 0", "journal OpenFailed")]
    look("most of them are too short", counts[0] > 0.8 * len(cases) and min(counts) > 0, counts)


# Where a bit of a line is flipped, by what is before it there: what it says, or its form.
PLACES = [rb'"received":\d*', rb'"login":', rb'"by":"', rb'"number":', rb'"sum":"', rb'"(?:reply|refusal)":"', rb"", rb'"(?:section|clearance|do|steps|text)":"', rb"$"]


def flip_of(line, number):
    """A line with its line feed, of which a bit is flipped at a place of the kind that this number gives."""
    found_there = None
    while found_there is None:
        found_there = re.search(PLACES[number % len(PLACES)], line)
        number += 1
    data = bytearray(line + b"\n")
    at = found_there.end() - (found_there.group().endswith(tuple(b"0123456789"[one:one + 1] for one in range(10))))
    data[at] ^= 1 << (number % 2)
    return bytes(data)


def columns(text):
    """The lines of a log, without what each of them says: that may name a step by an earlier line."""
    lines = [line.split("  ") for line in text.splitlines()]
    return {(*line[:4], line[-1]) for line in lines}


def flips(folder):
    """A bit is flipped in each line, or a byte is taken out: `verify` and `journal` find and name it, an opening where it
    concerns it."""
    whole, chance = Whole(folder), random.Random(20261129)
    half = whole.copy_at(len(whole.lines) // 2)
    cases, size = [], 0
    for number, line in enumerate(whole.lines):
        before, rest = whole.data[:size], whole.data[size + len(line) + 1:]
        cases += [(number, before + flip_of(line, number + kind) + rest) for kind in range(0, 9, 1 if IS_FULL else 4)]
        for at in range(size, size + len(line) + 1) if IS_FULL else [size + chance.randrange(len(line))]:
            data = bytearray(whole.data)
            data[at] ^= 1 << chance.randrange(8)
            cases += [(number, bytes(data)), (number, whole.data[:at] + whole.data[at + 1:])]
        size += len(line) + 1

    def damaged(number, data):
        title, bad = f"a bit or a byte of line {number}", bad_lines(data)
        own = whole.places[number - 1].number + 1 if number else 0
        look(f"{title}: it is named", number == 0 or bad[:1] == [own], (bad, data[-60:]))
        output = whole.said(title, data)
        if number and len(lines_in(data)) == len(whole.lines) and is_bad_alone(own, whole.lines[number], lines_in(data)[number]):
            withdrawal = [own + 1] if b'"withdrawn":true' in b"".join(whole.lines[number + 1:number + 2]) else []
            look(f"{title}: it alone is named", bad in ([own], [own, *withdrawal]), bad)
        others, joined = columns(whole.log) - columns(output), len(whole.lines) - len(lines_in(data))
        look(f"{title}: the other lines are printed", bad == [0] or len(others) <= len(bad) + joined, others)
        for name, copy in (("its register", whole.path), ("a register before it", half)):
            whole.opens(f"{title}, {name}", copy, data)

    side_by_side(damaged, cases)


def never_synced(folder):
    """What comes after the last line that holds its sum was never synced: an opening cuts it off, whatever it is."""
    whole, chance = Whole(folder), random.Random(20261130)
    chain = Chain(whole.first)
    chain.lines, chain.place = list(whole.lines), whole.places[-1]
    last = chain.place.number
    whole_data = chain.text()
    refused, accepted = json.loads(whole.lines[-1]), next(line for line in reversed(whole.lines) if accepts(json.loads(line)))
    chain.add(json.loads(shift(3)[2]), {"card": {}, "reply": "accepted"})
    third = chain.lines[-1]
    ends = {"half a line": third[:40], "a line without its line feed": third, "a byte": b"{", "bytes": b"\0\xff" * 300, "a line feed": b"\n", "two line feeds": b"\n\n",
            "zeros": bytes(4096), "zeros and a line feed": bytes(4096) + b"\n", "half a line and zeros": third[:40] + bytes(512 - 40) + b"\n", "a line without its front": third[40:] + b"\n",
            "a refused line of a wrong sum": written(refused | {"number": refused["number"] + 1}) + b"\n", "the refused line again": whole.lines[-1] + b"\n",
            "a withdrawal that is not due": written({"number": refused["number"], "sum": "0" * 64, "withdrawn": True}) + b"\n", "a first line": whole.lines[0] + b"\n",
            "a word": b"a word\n", "a file of commands": "\n".join(shift(5)).encode() + b"\n", "the front of its journal": whole.data[:120]}
    for number in range(200 if IS_FULL else 20):
        ends[f"chance {number}"] = bytes(chance.choices(b"\0\n{}\"aZ\xff\x80" if number % 2 else range(256), k=chance.randrange(1, 1500)))
    for title, rest in ends.items():
        for copy in (whole.path, whole.copies[20]):
            wanted = whole.opens(title, copy, whole_data + rest)
            look(f"{title}: it alone is cut off", isinstance(wanted, Ahead) and wanted.keep == len(whole_data), wanted)
        same(f"{title}: the log before it", whole.said(title, whole_data + rest)[:len(whole.log)], whole.log)
    for title, rest in {"an accepted line of a wrong sum": accepted.replace(b'"number":', b'"number":9') + b"\n", "an accepted line after a word": b"a word\n" + third + b"\n"}.items():
        wanted = whole.opens(title, whole.path, whole_data + rest)
        same(f"{title}: no accepted line is cut off", wanted, f"journal BadLine {last + 1}")
    # what is cut off was no line: the numbers go on
    path, journal = copied(whole.path, folder / "on.db"), folder / "on"
    journal.write_bytes(whole_data + third[:40])
    status, output, _ = run("run", "--db", path, "--journal", journal, lines=[BAD[0], shift(1)[0]])
    same("after an unfinished line: two replies", (status, output.count("\n")), (0, 2))
    same("after an unfinished line: the next numbers", [json.loads(line)["number"] for line in lines_in(journal.read_bytes())[-2:]], [last + 1, last + 2])
    verified("after an unfinished line", path, journal)


def torn_logs(folder):
    """The write-ahead log of a database is lost or damaged: an opening with the journal heals it, or it is refused."""
    path, journal = with_journal(folder, shift(5))
    with Server(path, "--journal", journal) as server:
        for command in shift(45)[5:]:
            server.ask(post(command))
        server.killed()
    log, chance = path.with_name("room.db-wal").read_bytes(), random.Random(20261201)
    board = run("board", copied(path, folder / "board.db"))[1]
    look("the log has the commands, and the file has none of them", len(log) > 16 * 4096, len(log))
    logs = [None, b"", bytes(len(log)), log[:41], *(log[:chance.randrange(len(log))] for _ in range(12))]
    for _ in range(320 if IS_FULL else 24):
        data, at = bytearray(log), chance.randrange(len(log))
        size = chance.choice([1, 1, 512, 4096])
        data[at:at + size] = bytes([data[at] ^ 1 << chance.randrange(8)]) if size == 1 else bytes(len(data[at:at + size]))
        logs.append(bytes(data))

    def torn(number, data):
        one, two = folder / f"torn-{number}.db", folder / f"torn-{number}"
        shutil.copy(path, one)
        shutil.copy(journal, two)
        if data is not None:
            one.with_name(f"{one.name}-wal").write_bytes(data)
        status, _, errors = opened(one, two)
        if status == 0:
            same(f"damaged log {number}: the board", run("board", one)[1], board)
            verified(f"damaged log {number}", one, two)
            return "healed"
        look(f"damaged log {number}: refused", errors.startswith("fault: store "), errors)
        return "refused"

    outcomes = side_by_side(torn, list(enumerate(logs)))
    print(f"{len(logs)} damaged logs: {outcomes.count('healed')} healed, {outcomes.count('refused')} refused", flush=True)


def forged(folder):
    """Lines that hold their sums, and are not those of this register: another reply, another line before, a withdrawal."""
    path, journal = with_journal(folder, shift(20))
    copy = copied(path, folder / "copy.db")
    run("run", "--db", path, "--journal", journal, lines=shift(25)[20:])
    lines = lines_in(journal.read_bytes())
    entries = [entry for _, entry in walk(first_in(lines[0]), lines[1:])]
    other = folder / "other"

    def chained(changed, more=()):
        chain = Chain(first_in(lines[0]))
        for entry in (*(changed.get(entry["number"], entry) for entry in entries), *more):
            chain.put(entry)
        other.write_bytes(chain.text())
        return chain.text()

    def is_refused(title, database, wanted, by_verify):
        before = database.read_bytes(), other.read_bytes()
        same(f"{title}: opened", opened(database, other), (1, "", f"fault: {wanted}\n"))
        look(f"{title}: nothing is changed", (database.read_bytes(), other.read_bytes()) == before)
        same(f"{title}: verify", run("verify", database, other, *FILES), (1, "", f"fault: {by_verify}\n"))

    same("the chain as it was", chained({}), journal.read_bytes())
    reply = entries[20]["reply"] | {"card": entries[20]["reply"]["card"] | {"done": 99}}
    chained({21: entries[20] | {"reply": reply}})
    is_refused("another reply after the place", copy, "journal Differs 21", "verify Reply 21")
    later = next(entry for entry in entries[21:] if "card" in entry["reply"])
    chained({later["number"]: later | {"reply": later["reply"] | {"card": later["reply"]["card"] | {"done": 99}}}})
    is_refused("another reply, with commands before it", copy, f"journal Differs {later['number']}", f"verify Reply {later['number']}")
    chained({5: entries[4] | {"received": 1}})
    is_refused("another line before the place", path, "journal Differs 25", "journal Differs 25")
    chained({5: entries[4] | {"login": "OPS"}})
    is_refused("another login before the place", path, "journal Differs 25", "journal Differs 25")
    chained({}, [{"number": 25, "withdrawn": True}])
    is_refused("its own command is withdrawn", path, "journal Differs 25", "journal Differs 25")
    command = json.loads(BAD[0])
    chained({}, [carried(command, None, 26, 1795503841, {"number": 1, "refusal": "EARLIER", "reply": "refused"})])
    same("a refusal of other words: opened", opened(path, other)[0], 0)
    same("a refusal of other words: verify", run("verify", path, other, *FILES), (1, "", "fault: verify Reply 26\n"))
    # so has a line in brief its own refusal, but where its command without the lists is EMPTY_ORDER
    long_order, shown = {"number": 10, "refusal": "LONG_ORDER", "reply": "refused"}, {"reply": "shown"}
    bare, path = {"at": 1795503841, "by": "OPS", "do": "switch", "steps": []}, copied(copy, folder / "brief.db")
    for title, command, reply, is_taken in (
            ("a switch", bare, long_order, True), ("no refusal", bare, shown, False), ("by another", bare | {"by": "JONES"}, long_order, False),
            ("a step", bare | {"steps": ["OPEN S2"]}, long_order, False),
            ("a repeat", {"at": 1795503841, "by": "REED", "clearance": "JONES/1", "do": "repeat", "step": 1, "text": ""}, long_order, False)):
        chained({}, [carried(command, None, 26, 1795503841, reply)])
        same(f"in brief, {title}: verify", run("verify", path, other, *FILES)[0], 0 if is_taken else 1)
    # a command that was withdrawn is none, and the next one takes its moment
    path = copied(copy, folder / "again.db")
    chain = Chain(first_in(lines[0]))
    for entry in entries[:21]:
        chain.put(entry)
    chain.withdraw()
    other.write_bytes(chain.text())
    for title in ("opened", "and once more"):
        same(f"a command that was withdrawn at the end: {title}", opened(path, other), (0, "", ""))
        same("its place is after the withdrawal", place_of(path), chain.place)
    chain.put(entries[20] | {"number": 22})
    other.write_bytes(chain.text())
    same("a command that was withdrawn, and given again: opened", opened(path, other), (0, "", ""))
    same("its place", place_of(path), chain.place)
    verified("a command that was withdrawn, and given again", path, other)
    text = run("journal", other)[1].splitlines()
    same("the log has both, and the withdrawal", [re.split(" {2,}", line)[::5] for line in text[20:]], [["21", "accepted"], ["21", "withdrawn"], ["22", "accepted"]])
    same("and its commands are those of the shift", run("journal", other, "--commands")[1].splitlines(), shift(21))


def refused(folder):
    """A journal that cannot be opened, or is none of this register: a fault before anything is served, nothing changed."""
    path, journal = with_journal(folder, shift(2))
    plain = register(folder / "plain.db", shift(2))
    other_journal = folder / "other-journal"
    other = register(folder / "other.db", shift(2), journal=other_journal)
    (folder / "directory").mkdir()
    (folder / "empty").touch()
    (folder / "sections.csv").write_bytes(TEXTS[0])
    (folder / "first").write_bytes(journal.read_bytes())
    os.link(folder / "first", folder / "second")
    held, held_journal = folder / "held.db", folder / "held-journal"
    register(held, journal=held_journal)
    words = {"no file": (path, folder / "none", OPEN_FAILED), "no folder": (path, folder / "none" / "journal", OPEN_FAILED), "a directory": (path, folder / "directory", OPEN_FAILED),
             "a second name": (path, folder / "second", OPEN_FAILED), "an empty file": (path, folder / "empty", OPEN_FAILED), "another program has it": (path, held_journal, OPEN_FAILED),
             "another register's": (path, other_journal, OTHER), "that of this one, for another": (other, journal, OTHER), "a file of another kind": (path, folder / "sections.csv", "fault: journal BadLine 0\n"),
             "a database": (path, other, "fault: journal BadLine 0\n"), "a register without a journal": (plain, journal, OTHER), "a register without one, and no file": (plain, folder / "none", OTHER),
             "no journal is named": (path, None, MISSING)}
    with Server(held, "--journal", held_journal):
        for title, (database, named, wanted) in words.items():
            before, names = database.read_bytes(), sorted(one.name for one in folder.iterdir() if not one.name.endswith("-wal"))
            held_bytes = named.read_bytes() if named and named.is_file() else None
            option = ["--journal", named] if named else []
            same(f"serve, {title}", run("serve", database, "--port", 18081, "--count", 1, *option), (1, "", wanted))
            same(f"run, {title}", run("run", "--db", database, *option, lines=[shift(3)[2]]), (1, "", wanted))
            same(f"update, {title}", run("update", database, *FILES, *option), (1, "", wanted))
            same(f"archive, {title}", run("archive", database, "--before", 1, *option), (1, "", wanted))
            same(f"{title}: the register is unchanged", database.read_bytes() == before, True)
            same(f"{title}: so is the journal", (named.read_bytes() if named and named.is_file() else None) == held_bytes, True)
            same(f"{title}: no file is made", sorted(one.name for one in folder.iterdir() if not one.name.endswith("-wal")), names)
    status, _, errors = run("run", *FILES, "--journal", folder / "journal")
    look("a journal of a run in memory", status == 2 and errors, (status, errors))
    later = str(4102444799)
    for title, command in {"update": ["update", path, *FILES], "update --dry-run": ["update", path, *FILES, "--dry-run"], "archive": ["archive", path, "--before", later]}.items():
        before = path.read_bytes()
        same(f"{title} of a register with a journal", run(*command), (1, "", MISSING))
        same(f"{title}: it is unchanged", path.read_bytes() == before, True)
    board = run("board", plain)
    same("the board of a register with a journal needs none", run("board", path), board)
    same("nor does an order", run("order", path, "JONES/1", 1), run("order", plain, "JONES/1", 1))
    same("nor does a way back", run("wayback", path, "JONES/1"), run("wayback", plain, "JONES/1"))
    for title, database, named, wanted in (("another register's journal", path, other_journal, OTHER), ("a register without a journal", plain, journal, OTHER)):
        same(f"verify, {title}", run("verify", database, named, *FILES), (1, "", wanted))
    same("its own opens", opened(path, journal), (0, "", ""))


def begun(folder):
    """`init` begins a journal before it makes the register, and where that fails nothing is made."""
    since = int(time.time())
    path, journal = folder / "room.db", folder / "journal"
    words = ["init", *FILES, "--db", path, "--journal", journal]
    imported = (0, "sections 5 points 5 staff 6\n", "")
    same("init with a journal prints as without", run(*words), imported)
    place = first_line("init", path, journal, since)
    same("init: one line", journal.read_bytes(), text_of([first_text(place)]))
    same("init: the register is at it", place_of(path), place)
    same("init: it opens", opened(path, journal), (0, "", ""))
    verified("init", path, journal)
    same("init over both", run(*words), (1, "", "fault: journal HasBytes\n"))
    more = ["init", *FILES, "--db", folder / "two.db", "--journal", folder / "two"]
    same("another in the same second", run(*more), imported)
    look("has an id of its own", place_of(folder / "two.db").id != place.id, place)
    (folder / "empty").touch()
    (folder / "sections.csv").write_bytes(TEXTS[0])
    same("an empty file is begun", run("init", *FILES, "--db", folder / "three.db", "--journal", folder / "empty"), imported)
    for title, named, wanted in (("a file with bytes", folder / "sections.csv", "HasBytes"), ("another's journal", folder / "two", "HasBytes"), ("no folder", folder / "none" / "journal", "OpenFailed"), ("a folder", folder, "OpenFailed")):
        names, held = sorted(folder.iterdir()), named.read_bytes() if named.is_file() else None
        same(f"init, {title} for a journal", run("init", *FILES, "--db", folder / "four.db", "--journal", named), (1, "", f"fault: journal {wanted}\n"))
        same(f"{title}: nothing is made", [one for one in sorted(folder.iterdir()) if not one.name.endswith("-wal")], [one for one in names if not one.name.endswith("-wal")])
        same(f"{title}: it is unchanged", (named.read_bytes() if named.is_file() else None) == held, True)
    same("a file that is none comes first", run("init", FILES[1], *FILES[1:], "--db", folder / "four.db", "--journal", folder / "four"), (1, "", "fault: sections Header\n"))
    look("and no journal is begun", not (folder / "four").exists() and not (folder / "four.db").exists())
    before = path.read_bytes()
    same("a journal for a register that is there", run("init", *FILES, "--db", path, "--journal", folder / "four"), (1, "", "fault: journal Begun\n"))
    same("the register is unchanged", path.read_bytes() == before, True)
    same("the journal that was begun is another's", opened(path, folder / "four"), (1, "", OTHER))
    same("its own opens still", opened(path, journal), (0, "", ""))


def migrated(folder):
    """`migrate --journal` gives a register its journal, and leaves its tables as they are."""
    since = int(time.time())
    path, journal, copy = register(folder / "room.db", shift(20)), folder / "journal", folder / "copy.db"
    board, rows = run("board", path), rows_of(path, "SELECT * FROM step ORDER BY ordinal")
    status, output, errors = run("migrate", path, "--journal", journal)
    place = first_line("migrate", path, journal, since, (board[1].encode(), b"", b""))
    same("migrate --journal prints the id", (status, output, errors), (0, f"journal {place.id}\n", ""))
    same("the register is at its first line", place_of(path), place)
    same("its board", run("board", path), board)
    same("its steps", rows_of(path, "SELECT * FROM step ORDER BY ordinal"), rows)
    copied(path, copy)
    same("once more", run("migrate", path, "--journal", folder / "two"), (1, "", MISSING))
    look("and none is begun", not (folder / "two").exists())
    same("without --journal its tables stay", run("migrate", path), (0, "version 2\n", ""))
    same("it goes on", run("run", "--db", path, "--journal", journal, lines=shift(25)[20:])[::2], (0, ""))
    verified("migrated, from a copy", path, journal, words=["--from", copy])
    same("of no files", run("verify", path, journal, *FILES), (1, "", "fault: verify Files\n"))
    same("the copy is rolled forward", opened(copy, journal), (0, "", ""))
    same("to the same place", place_of(copy), place_of(path))
    plain = register(folder / "plain.db", shift(3))
    before = plain.read_bytes()
    same("over a file with bytes", run("migrate", plain, "--journal", journal), (1, "", "fault: journal HasBytes\n"))
    same("no folder", run("migrate", plain, "--journal", folder / "none" / "two"), (1, "", OPEN_FAILED))
    same("a file of its own", run("migrate", plain, "--journal", f"{plain}-wal"), (1, "", "fault: journal SameFile\n"))
    same("no register", run("migrate", folder / "none.db", "--journal", folder / "two"), (1, "", "fault: store Sql\n"))
    same("the register is unchanged", (plain.read_bytes() == before, place_of(plain), (folder / "two").exists()), (True, None, False))
    old = folder / "old.db"
    with lzma.open(TOP / "tools" / "try" / "version-1.db.xz") as packed:
        old.write_bytes(packed.read())
    same("of version 1", run("migrate", old, "--journal", folder / "two"), (1, "", "fault: store WrongVersion 1\n"))
    look("and no journal is begun", not (folder / "two").exists())


def by_others(text):
    """A journal, or its first line, by the rules of the next number."""
    return text.replace(b'"rules":%d' % RULES, b'"rules":%d' % (RULES + 1), 1)


def by_other_rules(folder):
    """`migrate --after` begins a part for a register whose journal goes by other rules, and ends where the register is."""
    commands = every()
    path, old = with_journal(folder, commands[:24])
    same("the register goes to the end of its journal", opened(path, old), (0, "", ""))
    place, text, new = place_of(path), old.read_bytes(), folder / "new"
    copy, held = copied(path, folder / "copy.db"), path.read_bytes()
    same("it is there", place.number, json.loads(lines_in(text)[-1])["number"])
    old.write_bytes(by_others(text))
    same("a journal by other rules", opened(path, old), (1, "", f"fault: journal OtherRules {RULES + 1}\n"))
    same("no number is named", run("migrate", path, "--journal", new), (1, "", MISSING))
    same("no journal is named", run("migrate", path, "--after", place.number), (1, "", MISSING))
    for number in (place.number - 1, place.number + 1, f"0{place.number}", "last"):
        same(f"after {number}", run("migrate", path, "--journal", new, "--after", number), (1, "", f"fault: journal Differs {place.number}\n"))
    plain = register(folder / "plain.db", shift(3))
    same("a register without a journal", run("migrate", plain, "--journal", new, "--after", 0), (1, "", OTHER))
    look("and no part is begun", not new.exists())
    same("over the old journal", run("migrate", path, "--journal", old, "--after", place.number), (1, "", "fault: journal HasBytes\n"))
    same("a part is begun", run("migrate", path, "--journal", new, "--after", place.number), (0, f"next part after {place.number}\n", ""))
    same("its first line is the register's place", new.read_bytes(), text_of([first_text(place)]))
    same("the register is unchanged", (path.read_bytes() == held, place_of(path)), (True, place))
    same("it goes on", run("run", "--db", path, "--journal", new, lines=commands[24:])[::2], (0, ""))
    verified("by the new rules, from a copy", path, new, words=["--from", copy])
    old.write_bytes(text)
    same("the old journal is too short", opened(path, old), (1, "", "fault: journal TooShort\n"))
    verified("both are one journal", path, old, new)


def next_part(path, journal, new, number):
    same(f"--next, after {number}", run("journal", journal, "--db", path, "--next", new), (0, f"next part after {number}\n", ""))


def parts(folder):
    """A journal in three parts: each begins where the one before it ends, and register and parts are opened as one."""
    commands = every()
    path, one = with_journal(folder, commands[:24])
    two, three, copy = folder / "two", folder / "three", copied(path, folder / "copy.db")
    run("run", "--db", path, "--journal", one, lines=[*commands[24:34], BAD[0], BAD[1]])
    before, last = copied(path, folder / "before.db"), json.loads(lines_in(one.read_bytes())[-1])
    place = Place(first_in(lines_in(one.read_bytes())[0]).id, last["number"], last["sum"])
    next_part(path, one, two, place.number)
    same("its first line is at the end of the part before", two.read_bytes(), text_of([first_text(place)]))
    same("the register is there", place_of(path), place)
    verified("two parts, the second without a line", path, one, two)
    verified("the first part alone", path, one)
    held = one.read_bytes()
    for title, named in (("its own part", one), ("a part that is there", two), ("a file with bytes", copy)):
        same(f"--next over {title}", run("journal", one, "--db", path, "--next", named), (1, "", "fault: journal HasBytes\n"))
    same("the part before is unchanged", one.read_bytes() == held, True)
    same("the part before opens, while the new one has no line", opened(path, one), (0, "", ""))
    same("the new part opens", opened(path, two), (0, "", ""))
    run("run", "--db", path, "--journal", two, lines=commands[34:46])
    half = copied(path, folder / "half.db")
    next_part(path, two, three, json.loads(lines_in(two.read_bytes())[-1])["number"])
    run("run", "--db", path, "--journal", three, lines=commands[46:])
    same("the part before is too short", opened(path, two), (1, "", "fault: journal TooShort\n"))
    verified("three parts", path, one, two, three)
    same("without the last", run("verify", path, one, "--part", two, *FILES), (1, "", "fault: journal TooShort\n"))
    same("without the first", run("verify", path, two, "--part", three, *FILES), (1, "", "fault: verify Files\n"))
    same("without the second", run("verify", path, one, "--part", three, *FILES), (1, "", f"fault: journal BadLine {place.number}\n"))
    same("one twice", run("verify", path, one, "--part", one, *FILES), (1, "", f"fault: journal BadLine {place.number}\n"))
    for title, database in (("a copy in the first part", copy), ("a copy in the second", half)):
        status, output, errors = run("verify", path, one, "--part", two, "--part", three, "--from", database)
        number = place_of(database).number
        lines = [json.loads(line) for part in (one, two, three) for line in lines_in(part.read_bytes())[1:]]
        count = len(carried_out([line for line in lines if line["number"] > number]))
        same(f"verify from {title}", (status, output, errors), (0, f"verified {count} commands\n", ""))
    same("verify from a copy that is in no part", run("verify", path, three, "--from", copy), (1, "", "fault: journal TooShort\n"))
    half_a_line_in_a_part(folder, path, (one, two, three))
    whole_log(folder, path, (one, two, three), commands)
    # a copy from before: first with its own part, then with the next
    same("a copy from before, and the new part", opened(before, two), (1, "", "fault: journal TooShort\n"))
    same("a copy from before, and its own part", opened(before, one), (0, "", ""))
    same("it is where that part ends", place_of(before), place)
    spare, rolled = folder / "spare", copied(before, folder / "rolled.db")
    same("and goes on in the new part", opened(rolled, two), (0, "", ""))
    next_part(before, one, spare, place.number)
    same("begun again it is the same first line", spare.read_bytes(), text_of(lines_in(two.read_bytes())[:1]))
    same("and then it goes on in the new part too", opened(before, two), (0, "", ""))
    same("as the register did", run("board", before), run("board", copied(half, folder / "board.db")))


def half_a_line_in_a_part(folder, path, journals):
    """Half a line at the end of any part is a bad line, and the next part goes on from the line before it."""
    whole = run("journal", journals[0], "--part", journals[1], "--part", journals[2])[1]
    for at, journal in enumerate(journals):
        half = folder / "half"
        half.write_bytes(journal.read_bytes() + b'{"command":')
        number = json.loads(lines_in(journal.read_bytes())[-1])["number"] + 1
        one, two, three = (half if at == other else journals[other] for other in range(3))
        own = sum(run("journal", part)[1].count("\n") for part in journals[:at + 1])
        lines = whole.splitlines(keepends=True)
        wanted = "".join([*lines[:own], BAD_LINE.format(number), *lines[own:]])
        same(f"half a line in part {at}: journal", run("journal", one, "--part", two, "--part", three), (1, wanted, f"fault: journal BadLine {number}\n"))
        same(f"half a line in part {at}: verify", run("verify", path, one, "--part", two, "--part", three, *FILES), (1, "", f"fault: journal BadLine {number}\n"))
    half.write_bytes(journals[0].read_bytes()[:-1])
    last = json.loads(lines_in(journals[0].read_bytes())[-1])["number"]
    found_here = run("journal", half, "--part", journals[1])
    same("a part without its last line feed: journal", found_here[::2], (1, f"fault: journal BadLine {last - 1}\n"))
    same("a part without its last line feed: verify", run("verify", path, half, "--part", journals[1], "--part", journals[2], *FILES), (1, "", f"fault: journal BadLine {last}\n"))


def whole_log(folder, path, journals, commands):
    """The log and the commands of all parts are those of one journal."""
    other = folder / "one-part"
    register(folder / "one.db", [*commands[:34], BAD[0], BAD[1], *commands[34:]], journal=other)
    further = ["--part", journals[1], "--part", journals[2]]
    for words in ([], ["JONES/1"], ["--commands"], ["OPS/1", "--commands"], ["--offset", "60"]):
        same(f"the parts as one: journal {words}", run("journal", journals[0], *words, *further), run("journal", other, *words))
    same("the board", run("board", path), run("board", folder / "one.db"))
    last = json.loads(lines_in(journals[0].read_bytes())[-1])["number"]
    status, output, errors = run("journal", journals[0], "--part", journals[2])
    same("a part that does not go on", (status, errors), (1, f"fault: journal BadLine {last}\n"))
    look("it prints no more than the part before", run("journal", journals[0])[1].startswith(output), output[-200:])
    same("a further part that is not there", run("journal", journals[0], "--part", folder / "none")[::2], (1, OPEN_FAILED))
    last_part = run("journal", journals[2])
    same("the last part alone has its numbers", (last_part[0], last_part[1].split()[0]), (0, str(json.loads(lines_in(journals[2].read_bytes())[1])["number"])))


def next_parts_refused(folder):
    """`--next` where it cannot be done; and after a command that was withdrawn."""
    path, journal = with_journal(folder, shift(5))
    plain = register(folder / "plain.db")
    names = sorted(folder.iterdir())
    for title, words, wanted in (("a register without a journal", [journal, "--db", plain], OTHER), ("no register", [journal, "--db", folder / "none.db"], "fault: store Sql\n"),
                                 ("no journal", [folder / "none", "--db", path], OPEN_FAILED), ("a folder", [folder, "--db", path], OPEN_FAILED)):
        same(f"--next of {title}", run("journal", *words, "--next", folder / "new"), (1, "", wanted))
    same("no file is made", sorted(one for one in folder.iterdir() if not one.name.endswith("-wal")), [one for one in names if not one.name.endswith("-wal")])
    same("a new part in no folder", run("journal", journal, "--db", path, "--next", folder / "none" / "new"), (1, "", OPEN_FAILED))
    chain = Chain(first_in(lines_in(journal.read_bytes())[0]))
    for _, entry in walk(chain.place, lines_in(journal.read_bytes())[1:]):
        chain.put(entry)
    chain.add(json.loads(shift(6)[5]), {"card": {}, "reply": "accepted"})
    at_command = chain.place
    chain.withdraw()
    journal.write_bytes(chain.text())
    next_part(path, journal, folder / "new", 6)
    same("its place is after the withdrawal", place_of(path), chain.place)
    same("it opens", opened(path, folder / "new"), (0, "", ""))
    after_withdrawal(folder, path, journal, chain.place, at_command)


def after_withdrawal(folder, path, journal, place, at_command):
    """`verify` of a register, or from a copy, whose place is after a withdrawal, at the end of a part; and then on."""
    after, words = copied(path, folder / "after.db"), ("--part", folder / "new")
    verified("a part that ends with a withdrawal", path, journal, folder / "new")
    same("from the withdrawal", run("verify", path, journal, *words, "--from", after), (0, "verified 0 commands\n", ""))
    for title, own in (("another sum at the withdrawal", place.sum[1:] + place.sum[:1]), ("the sum of the command that is withdrawn", at_command.sum)):
        one = copied(after, folder / f"changed-{own}.db")
        with contextlib.closing(sqlite3.connect(one)) as changed:
            changed.execute("UPDATE journal SET sum = ?", (own,))
            changed.commit()
        for database, further in ((one, FILES), (one, ["--from", after]), (path, ["--from", one])):
            same(f"{title}: verify", run("verify", database, journal, *words, *further), (1, "", "fault: journal Differs 6\n"))
    run("run", "--db", path, "--journal", folder / "new", lines=shift(6)[5:])
    for title, database in (("the next command", path), ("the copy before it", after)):
        verified(title, database, journal, folder / "new")
    same("the next command, from the withdrawal", run("verify", path, journal, *words, "--from", after), (0, "verified 1 commands\n", ""))


def commands(folder):
    """`journal --commands` prints what `run` takes, and gives the same register."""
    given = [*shift(29), *BAD, JUMPER]
    path, journal = with_journal(folder, given)
    status, text, errors = run("journal", journal, "--commands")
    accepted = [command for command in given if command not in BAD and '"show"' not in command]
    same("the accepted commands, in their order", (status, text.splitlines(), errors), (0, accepted, ""))
    again = register(folder / "again.db", text.splitlines())
    same("a register from the files and the journal's commands: its board", run("board", again), run("board", path))
    rows = "SELECT requester, number, round, ordinal, action, point, state, reader FROM step ORDER BY 1, 2, 3, 4"
    same("its steps", rows_of(again, rows), rows_of(path, rows))
    one = run("journal", journal, "OPS/1", "--commands")[1].splitlines()
    same("the commands of one clearance", one, [command for command in accepted if '"clearance":"OPS/1"' in command or '"do":"switch"' in command])
    lines = lines_in(journal.read_bytes())
    (folder / "other").write_bytes(text_of([*lines[:4], lines[4].replace(b"REED", b"DALE"), *lines[5:]]))
    status, text, errors = run("journal", folder / "other", "--commands")
    same("a line that does not hold its sum is left out", (status, text.splitlines(), errors), (1, [*accepted[:3], *accepted[4:]], "fault: journal BadLine 4\n"))


if __name__ == "__main__":
    main(of_run, in_brief, of_serve, log, own_form, gaps, shorter, flips, never_synced, torn_logs, forged, refused, begun, migrated, by_other_rules, parts, next_parts_refused, commands)
