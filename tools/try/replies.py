#!/usr/bin/env python3
"""No reply is lost by the server's own close, whatever came after what it read. A desk's server ends where no connection
can be taken for a while, and `--count` is not used up by those that were not."""

import os
import resource
import time

from looks import REQUEST, Server, get, look, main, post, register, same

TRIES = 100
OWN = "Host: localhost"
LARGE = get("/command", OWN, "Content-Length: 70000", method="POST") + b"x" * 70_000
MISSED = "connection {} ReadFailed\n"


def asked(server, *parts):
    """All bytes of the response, and the error that ended it, if one did. Each part goes out a moment after the last."""
    found = b""
    try:
        with server.connect() as connection:
            for number, part in enumerate(parts):
                if number:
                    time.sleep(0.05)
                connection.sendall(part)
            while piece := connection.recv(65536):
                found += piece
    except OSError as error:
        return found, type(error).__name__
    return found, None


def no_reply_is_lost(server, title, later):
    """A body that is too large gets its 413, and an accepted command with more after it its 200."""
    found = [asked(server, LARGE) for _ in range(TRIES)]
    good = [answer.startswith(b"HTTP/1.1 413 ") and answer.endswith(b'{"fault":"BodyTooLarge"}') and not error for answer, error in found]
    look(f"{title}, {TRIES} bodies that are too large: each gets its 413", all(good), f"{good.count(False)} lost, {found[good.index(False)] if not all(good) else None}")
    found = [asked(server, post(REQUEST, OWN) + b"x" * 9_000) for _ in range(TRIES)]
    good = [answer.startswith(b"HTTP/1.1 200 ") and b'"reply":"accepted"' in answer and not error for answer, error in found]
    look(f"{title}, {TRIES} commands with 9,000 bytes after them: each gets its 200", all(good), f"{good.count(False)} lost, {found[good.index(False)] if not all(good) else None}")
    if later:
        head, body = LARGE[:-70_000], LARGE[-70_000:]
        found = [asked(server, head, body) for _ in range(TRIES // 10)]
        good = [answer.startswith(b"HTTP/1.1 413 ") and not error for answer, error in found]
        look(f"{title}, a body that comes after its 413", all(good), found)


def replies(folder):
    for title, options, later in (("without options", [], False), ("--desk", ["--desk"], False), ("--desk --deadline", ["--desk", "--deadline", "8"], True)):
        with Server(register(folder / "room.db"), *options) as server:
            no_reply_is_lost(server, title, later)


def of_lazy_clients(folder):
    """A client that leaves its connection open holds nobody up after a whole request."""
    with Server(register(folder / "room.db"), "--desk", "--deadline", "60") as server:
        since = time.time()
        with server.connect() as lazy:
            lazy.sendall(get("/board", OWN))
            while lazy.recv(65536):
                pass
            answer, error = asked(server, get("/board", OWN))
        look("a client that does not close", answer.startswith(b"HTTP/1.1 200 ") and not error and time.time() - since < 5, (answer, error, time.time() - since))


def limited(server):
    """Lets a server have no more descriptors than it has."""
    pid = server.process.pid
    count = len(os.listdir(f"/proc/{pid}/fd"))
    _, hard = resource.prlimit(pid, resource.RLIMIT_NOFILE)
    resource.prlimit(pid, resource.RLIMIT_NOFILE, (count, hard))
    return hard


def of_descriptors(folder):
    """EMFILE: a desk's server ends; without options each connection that is not taken has its line."""
    path = register(folder / "room.db")
    with Server(path, "--desk", count=3) as server:
        limited(server)
        with server.connect():
            same("--desk: the server ends", server.ended(), (1, "fault: listen AcceptFailed\n"))
    with Server(path, count=3) as server:
        limited(server)
        with server.connect():
            same("without options: a line for each", server.ended(), (0, "".join(map(MISSED.format, (1, 2, 3)))))
    for _ in range(TRIES // 10):
        if taken_at_a_later_try(path):
            break
    else:
        look("--desk: descriptors are short for a moment", False, "the machine was too slow to try it")


def taken_at_a_later_try(path):
    """Descriptors are short for less time than a desk's server asks for. Says whether this machine was quick enough."""
    with Server(path, "--desk", count=2) as server:
        since = time.monotonic()
        hard = limited(server)
        with server.connect() as connection:
            connection.sendall(get("/board", OWN))
            time.sleep(0.3)
            resource.prlimit(server.process.pid, resource.RLIMIT_NOFILE, (hard, hard))
            if time.monotonic() - since > 0.6:
                return False
            answer = connection.recv(65536)
        look("--desk: a connection that is taken at a later try is answered", answer.startswith(b"HTTP/1.1 200 "), answer)
        answer, error = asked(server, get("/board", OWN))
        look("--desk: it counts once", answer.startswith(b"HTTP/1.1 200 ") and not error, (answer, error))
        same("--desk: and nothing is reported", server.ended(), (0, ""))
    return True


if __name__ == "__main__":
    main(replies, of_lazy_clients, of_descriptors)
