#!/usr/bin/env python3
"""`serve --deadline S`: connections that send nothing, half a head, half a body, a byte a second, or do not read, and a
desk's command after them.

    tools/try/deadlines.py [CONNECTIONS [SECONDS]]

A server answers one connection after another. A request has a quarter of the deadline, so a command that comes after n
silent connections waits n quarters: after three it is answered within the deadline. One that does not read has a whole
deadline. 3 connections of each kind and a deadline of 4 seconds are tried where no number is given, each kind at a server
of its own; of those that do not read 1, or as many as are given. At most 128 may be given: the system does not let more
wait in the order in which they came. GRIDCLEAR names another program than tools/gridclear."""

import contextlib
import pathlib
import socket
import sys
import threading
import time
from concurrent.futures import ThreadPoolExecutor

from looks import REQUEST, Server, get, look, main, post, register, replied, run, same, shift

COUNT = int(sys.argv[1]) if sys.argv[1:] else 3
DEADLINE = int(sys.argv[2]) if sys.argv[2:] else 4
KINDS = ("nothing", "half a head", "half a body", "a byte a second")
SLACK = 1.5  # seconds that a machine with other work may add
BODY = post(REQUEST.replace("JONES", "KIM"), "Host: localhost")


def silent(server, kind):
    """A connection that is never over by itself. Returns what it received in the end."""
    found = b""
    with socket.socket() as one:
        one.connect(("127.0.0.1", server.port))
        one.settimeout(1200)
        with contextlib.suppress(ConnectionError, TimeoutError):
            if kind == "half a head":
                one.sendall(BODY[:30])
            elif kind == "half a body":
                one.sendall(BODY[:-20])
            elif kind == "a byte a second":
                for place in range(len(BODY) - 1):
                    one.sendall(BODY[place:place + 1])
                    time.sleep(1)
            while piece := one.recv(4096):
                found += piece
    return found


def of_kind(folder, kind):
    """Silent connections of one kind, each of which is ended, and a command after them. How long it took."""
    path, found = register(folder / f"{kind}.db"), []
    with Server(path, "--desk", "--deadline", DEADLINE, count=COUNT + 1) as server:
        threads = [threading.Thread(target=lambda: found.append(silent(server, kind))) for _ in range(COUNT)]
        for one in threads:
            one.start()
        time.sleep(0.3)
        took = answered(server, post(REQUEST, "Host: localhost"), f"{kind}: a command after {COUNT}")
        for one in threads:
            one.join()
        waits(f"{kind}: it waits {COUNT} quarters of a deadline", took, COUNT * DEADLINE / 4)
        if COUNT < 4:
            look(f"{kind}: it is answered within the deadline", took < DEADLINE, took)
        same(f"{kind}: none of them has a response", set(found), {b""})
        wanted = "".join(f"connection {number} ReadFailed\n" for number in range(1, COUNT + 1))
        same(f"{kind}: each is reported", server.ended(), (0, wanted))
    same(f"{kind}: no late command was carried out", run("board", path)[1].count("KIM"), 0)
    return took


def answered(server, request, title):
    """How long it takes until this request is answered."""
    begun = time.monotonic()
    status, _ = replied(server.ask(request))
    took = time.monotonic() - begun
    same(f"{title} is answered", status, 200)
    return took


def waits(title, took, seconds):
    look(title, seconds - 1 < took < seconds + SLACK, took)


def beside(folder):
    with ThreadPoolExecutor(4) as pool:
        slowest = max(pool.map(lambda kind: of_kind(folder, kind), KINDS))
    print(f"a command after {COUNT} silent connections, at a deadline of {DEADLINE} seconds: answered after {slowest:.1f} s at most", flush=True)


def large(folder):
    """The files of a network whose picture is longer than what the system takes for a reader that does not read."""
    sections, points, staff = (folder / f"{name}.csv" for name in ("sections", "points", "staff"))
    names = [f"SECTION-{'X' * 12}{number:04}" for number in range(5000)]
    sections.write_text("section,source\n" + "".join(f"{name},no\n" for name in names), encoding="ascii")
    points.write_text("point,from,to,lockable,remote,position\n" + "".join(
        f"POINT-{'X' * 13}{number:05},{names[number % 5000]},{names[(number + 1 + number // 5000) % 5000]},yes,no,closed\n" for number in range(10000)), encoding="ascii")
    staff.write_text("employee,role,supervisor\n" + "".join(f"STAFF-{'X' * 14}{number:04},operator,\n" for number in range(2000)), encoding="ascii")
    return [str(sections), str(points), str(staff)]


def asking(server):
    """A connection that asks for that picture, with little room for what comes."""
    one = socket.socket()
    one.setsockopt(socket.SOL_SOCKET, socket.SO_RCVBUF, 2048)
    one.connect(("127.0.0.1", server.port))
    one.settimeout(60)
    one.sendall(get("/network", "Host: localhost"))
    return one


def received(one):
    """All that comes to a connection."""
    found = b""
    with contextlib.suppress(ConnectionError):
        while piece := one.recv(65536):
            found += piece
    return found


def unread(folder):
    """Connections that do not read are each ended at their deadline, as one whose writing failed."""
    if int(pathlib.Path("/proc/sys/net/ipv4/tcp_wmem").read_text(encoding="ascii").split()[2]) > 4_194_304:
        print("left out: a client that does not read: this system takes a whole response of 3 MB from its server", flush=True)
        return
    path, count = register(folder / "room.db", files=large(folder)), COUNT if sys.argv[1:] else 1
    with Server(path, "--desk", "--deadline", DEADLINE, count=count + 1) as server:
        left = [asking(server) for _ in range(count)]
        time.sleep(0.3)
        took = answered(server, get("/board", "Host: localhost"), f"nothing read: the board after {count}")
        for one in left:
            one.close()
        waits(f"nothing read: it waits {count} deadlines", took, count * DEADLINE)
        wanted = "".join(f"connection {number} WriteFailed\n" for number in range(1, count + 1))
        same("nothing read: each is reported", server.ended(), (0, wanted))
    print(f"the board after {count} connections that do not read, at a deadline of {DEADLINE} seconds: answered after {took:.1f} s", flush=True)
    late(path)


def late(path):
    """A response may be read until the deadline, which is later than the end of its request's quarter."""
    with Server(path, "--desk", "--deadline", 8, count=1) as server, asking(server) as one:
        time.sleep(4)
        status, body = replied(received(one))
        same("a response that is read once half the deadline has passed", (status, len(body["sections"])), (200, 5000))
        same("it is no failure", server.ended(), (0, ""))


def in_time(folder):
    """A slow request that is there within the quarter is answered; the quarter is from its acceptance on."""
    path = register(folder / "room.db")
    with Server(path, "--desk", "--deadline", 8, count=2) as server:
        with server.connect() as one:
            for piece in (BODY[:20], BODY[20:90], BODY[90:]):
                one.sendall(piece)
                time.sleep(0.5)
            same("half a second between its parts", replied(received(one))[0], 200)
        with server.connect() as one:
            begun = time.monotonic()
            with contextlib.suppress(ConnectionError):
                for place in range(20):
                    one.sendall(BODY[place:place + 1])
                    time.sleep(0.4)
            took = time.monotonic() - begun
            look("a byte in less than a quarter does not put it off", 1.5 < took < 2 + SLACK, took)
        same("only the second is reported", server.ended(), (0, "connection 2 ReadFailed\n"))


def words(folder):
    path = register(folder / "room.db", shift(1))
    for value in ("0", "601", "-1", "x", "1.5", ""):
        status, output, errors = run("serve", path, "--port", 18080, "--count", 1, f"--deadline={value}")
        look(f"--deadline={value} does not parse", (status, output) == (2, "") and errors, (status, errors))
    with Server(path, "--deadline", 600, count=1) as server:
        same("--deadline without --desk", replied(server.ask(get("/board")))[0], 200)


main(beside, unread, in_time, words)
