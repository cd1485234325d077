#!/usr/bin/env python3
"""`serve --desk --logins FILE`: who may be spoken for by the login of a request, which a proxy states in X-Forwarded-User;
and the faults of the file."""

from looks import FILES, Server, fault, get, look, main, post, register, replied, run, same, shift, REQUEST

OWN = "Host: localhost"
NOT_CALLER = fault(403, "NotCaller")
# OPS types the repeats of the field, and works as REED too; JONES speaks as himself; a login need not be a name.
LOGINS = "login,employee\nOPS,OPS\nOPS,REED\nOPS,DALE\njones@grid.example,JONES\n"
THREE = {"OPS", "REED", "DALE"}
EVERYBODY = ("OPS", "REED", "DALE", "JONES", "KIM", "BOSS")


def of(login):
    return f"X-Forwarded-User: {login}"


def logins_in(folder, text=LOGINS):
    path = folder / "logins.csv"
    path.write_text(text, encoding="utf-8")
    return path


def said_by(name):
    return f'{{"at":1795510000,"by":"{name}","do":"request","section":"L3"}}'


def names(folder):
    """A login with three names speaks in these and in no other, by a command and by a view."""
    path = register(folder / "room.db", shift(2))
    with Server(path, "--desk", "--logins", logins_in(folder)) as server:
        for name in EVERYBODY:
            status, found = replied(server.ask(post(said_by(name), OWN, of("OPS"))))
            view_status, view = replied(server.ask(get(f"/clearance/{name}/JONES/1", OWN, of("OPS"))))
            if name in THREE:
                # whom the staff lets request is the register's to say
                look(f"OPS speaks as {name}", status in (200, 409) and "reply" in found, (status, found))
                look(f"OPS looks as {name}", view_status in (200, 409) and "reply" in view, (view_status, view))
            else:
                same(f"OPS does not speak as {name}", (status, found), (403, {"fault": "NotCaller"}))
                same(f"OPS does not look as {name}", (view_status, view), (403, {"fault": "NotCaller"}))
        found = replied(server.ask(post(said_by("JONES"), OWN, of("jones@grid.example"))))
        same("JONES speaks at his login", (found[0], found[1]["card"]["clearance"]), (200, "JONES/2"))
        for target in ("/board", "/order/JONES/1/1", "/network", "/wayback/JONES/1"):
            same(f"{target} asks for no login", replied(server.ask(get(target, OWN)))[0], 200)


WRONG = {
    "no field": [], "two fields": [of("OPS"), of("OPS")], "two fields, one of other case": [of("OPS"), "x-forwarded-user: KIM"], "an empty field": [of("")],
    "blanks": ["X-Forwarded-User:   "], "other case": [of("ops")], "a login that is not there": [of("NOBODY")], "a name of the staff that is no login": [of("JONES")],
    "two in one field": [of("OPS, OPS")], "a login and more": [of("OPSX")], "the front of one": [of("OP")], "bytes beyond ASCII": ["X-Forwarded-User: OPS\xc3\xa9"],
    "another field": ["X-Forwarded-For: OPS", "X-Remote-User: OPS", "Authorization: Basic T1BTOg=="],
}


def refused(folder):
    """None, two, an empty one, one of other case: nothing is carried out, and nothing shown."""
    path = register(folder / "room.db", shift(2))
    command = '{"at":1795510000,"by":"OPS","do":"switch","steps":["OPEN S4"]}'
    with Server(path, "--desk", "--logins", logins_in(folder)) as server:
        before = server.ask(get("/network", OWN)), server.ask(get("/board", OWN))
        for title, fields in WRONG.items():
            same(f"a command with {title}", server.ask(post(command, OWN, *fields)), NOT_CALLER)
            same(f"a view with {title}", server.ask(get("/clearance/OPS/JONES/1", OWN, *fields)), NOT_CALLER)
        same("a show as somebody else", server.ask(post('{"by":"JONES","clearance":"JONES/1","do":"show"}', OWN, of("OPS"))), NOT_CALLER)
        same("the register is unchanged", (server.ask(get("/network", OWN)), server.ask(get("/board", OWN))), before)
        for fields in ([of("OPS")], ["x-forwarded-user: OPS"], ["X-FORWARDED-USER:  OPS  "]):
            found = replied(server.ask(post(command, OWN, *fields)))
            look(f"a command with {fields}", found[0] == 200, found)
        # what comes before it, and after
        same("a page with a login", server.ask(post(command, OWN, of("OPS"), "Origin: null")), fault(403, "Foreign"))
        same("no command, no login", server.ask(post("{", OWN)), fault(400, "NotJson"))
        same("a name that does not read, no login", server.ask(get("/clearance/ops/JONES/1", OWN)), fault(404, "NoSuch"))


FAULTS = {
    "ReadFailed": None, "Header": "employee,login\nOPS,OPS\n", "Header ": "", "BadName row 1 column 1": "login,employee\n,OPS\n", "BadName row 2 column 1": "login,employee\nOPS,OPS\nO PS,OPS\n",
    "BadName row 1 column 1 ": f"login,employee\n{'x' * 65},OPS\n", "BadName row 1 column 1  ": "login,employee\nOPS\u00c9,OPS\n",
    "BadName row 1 column 2": "login,employee\nOPS,ops\n", "UnknownEmployee row 3": "login,employee\nOPS,OPS\nREED,REED\nX,NOBODY\nY,NOBODY\n",
    "FieldCount row 1": "login,employee\nOPS\n", "TooLong": "login,employee\n" + "OPS,OPS\n" * 600_000,
}


def faults(folder):
    """A file that does not read: nothing is served."""
    path = register(folder / "room.db")
    before = path.read_bytes()
    for name, text in FAULTS.items():
        file = logins_in(folder, text) if text is not None else folder / "none.csv"
        found = run("serve", path, "--port", 18080, "--count", 1, "--desk", "--logins", file)
        same(f"a file with {name.strip()}", found, (1, "", f"fault: logins {name.strip()}\n"))
    same("the register is unchanged", path.read_bytes(), before)
    status, _, errors = run("serve", path, "--port", 18080, "--count", 1, "--logins", logins_in(folder))
    look("--logins without --desk", status == 2 and "--desk" in errors, (status, errors))
    status, _, errors = run("serve", path, "--port", 18080, "--count", 1, "--desk", "--logins")
    look("--logins without a file", status == 2, (status, errors))


def forms(folder):
    """CR LF, quotes and a byte order mark are csv's; a login of 64 bytes; one row twice."""
    path = register(folder / "room.db")
    for title, text in {"CR LF": LOGINS.replace("\n", "\r\n"), "quotes": '"login","employee"\n"OPS","OPS"\n', "a byte order mark": "\ufeff" + LOGINS,
                        "no row of OPS": "login,employee\n", "a row twice": LOGINS + "OPS,OPS\n", "64 bytes": f"login,employee\n{'!' * 64},OPS\n"}.items():
        login = "!" * 64 if title == "64 bytes" else "OPS"
        with Server(path, "--desk", "--logins", logins_in(folder, text)) as server:
            status = replied(server.ask(get("/clearance/OPS/OPS/1", OWN, of(login))))[0]
            same(f"a file with {title}", status, 403 if title == "no row of OPS" else 409)


main(names, refused, faults, forms)
