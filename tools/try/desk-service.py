#!/usr/bin/env python3
"""`serve --desk`: it answers requests that name this machine and come from no page of a browser, and the network as JSON.
Without the option each of these requests is answered as if it was not there."""

from looks import FILES, Server, copied, fault, get, look, main, post, register, replied, response, run, same, shift, REQUEST

# Fields of requests that are answered, and of those that are Foreign.
OWN = (
    ["Host: 127.0.0.1"], ["Host: 127.0.0.1:8080"], ["Host: localhost"], ["Host: localhost:8080"], ["Host: [::1]"], ["Host: [::1]:8080"],
    ["host: localhost:8090"], ["HOST:localhost"], ["Host: LocalHost:1"], ["Host:   127.0.0.1:65535  "], ["Host: localhost", "Referer: http://evil.example/", "Sec-Fetch-Mode: no-cors"],
    ["Host: localhost", "X-Origin: http://evil.example", "Sec-Fetch-Sites: cross-site"],
)
FOREIGN = (
    [], ["Host: localhost", "Host: localhost"], ["Host: localhost", "host: evil.example"], ["Host: evil.example"], ["Host: evil.example:8080"],
    ["Host: 127.0.0.1.evil.example"], ["Host: localhost.evil.example:8080"], ["Host: evil.localhost"], ["Host: 127.0.0.2"], ["Host: 0.0.0.0:8080"],
    ["Host: [::]:8080"], ["Host: ::1"], ["Host:"], ["Host: localhost:"], ["Host: localhost:x"], ["Host: localhost:123456"], ["Host: [::1]8080"], ["Host: ops@localhost"], ["Host: localhost, evil.example"], ["X-Forwarded-Host: localhost"],
    ["Host: localhost", "Origin: http://localhost:8080"], ["Host: localhost", "origin: null"], ["Host: localhost", "ORIGIN:"],
    ["Host: localhost", "Sec-Fetch-Site: cross-site"], ["Host: localhost", "sec-fetch-site: same-origin"], ["Host: localhost", "SEC-FETCH-SITE: none"],
    ["Host: [::1]:8080", "Origin: http://evil.example", "Sec-Fetch-Site: cross-site"],
)

NO_ROUTE = fault(404, "NoRoute")
IS_FOREIGN = fault(403, "Foreign")
NO_BODY = b"HTTP/1.1 405 Method Not Allowed\r\nAllow: GET\r\nContent-Length: 0\r\nConnection: close\r\n\r\n"


def accepted(number):
    """The reply to the request of this number."""
    card = f'{{"clearance":"JONES/{number}","done":0,"holder":"JONES","phase":"Requested","round":0,"steps":0}}'
    return response(200, f'{{"card":{card},"reply":"accepted"}}')


def board(number):
    """The board with this number of requests, all of the same moment."""
    lines = [f"{f'JONES/{one}':<30}Requested L2                       2026-11-24 07:00:00 +00:00 JONES\n" for one in range(1, number + 1)]
    return response(200, f"BOARD {number}\n" + "".join(lines), "text/plain")


def each_request(server, title, fields, number, is_foreign):
    """A command, a look, an unknown route and a wrong method, after this number of requests. Returns their number now."""
    if not is_foreign:
        number += 1
    for name, request, wanted in (
        ("a command", post(REQUEST, *fields), IS_FOREIGN if is_foreign else accepted(number)),
        ("a board", get("/board", *fields), IS_FOREIGN if is_foreign else board(number)),
        ("an unknown route", get("/nothing", *fields), NO_ROUTE),
        ("an unknown route that is posted to", post(REQUEST, *fields, target="/nothing"), NO_ROUTE),
        ("a method that is not the route's", get("/board", *fields, method="PUT"), NO_BODY),
        ("a length that is none", get("/command", *fields, "Content-Length: x", method="POST"), IS_FOREIGN if is_foreign else fault(400, "BadLength")),
        ("no length", get("/command", *fields, method="POST"), IS_FOREIGN if is_foreign else fault(411, "NoLength")),
    ):
        same(f"{title}, {name} with {fields}", server.ask(request), wanted)
    return number


def hosts(folder):
    number = 0
    with Server(register(folder / "room.db"), "--desk") as server:
        for fields in FOREIGN:
            number = each_request(server, "--desk", fields, number, True)
        same("--desk: nothing foreign was carried out", server.ask(get("/board", "Host: localhost")), board(0))
        for fields in OWN:
            number = each_request(server, "--desk", fields, number, False)


def plain(folder):
    """Without --desk the fields are not looked at, and the routes are none."""
    number = 0
    with Server(register(folder / "room.db")) as server:
        for fields in (*FOREIGN, *OWN):
            number = each_request(server, "without --desk", fields, number, False)
        same("without --desk, /network", server.ask(get("/network", "Host: localhost")), NO_ROUTE)
        same("without --desk, /network posted to", server.ask(post(REQUEST, "Host: localhost", target="/network")), NO_ROUTE)


# The worked network after 22 commands of the shift, the first step of OPS/1 given out, and a jumper, by hand. JONES/1 is
# Granted, with S2 and S3 held open, blocked and tagged (kinds in the order of their texts); S4 is in the hand of OPS/1, and closed. L2 is between S2 and S3, so
# it is dead; X1 is at the end of the jumper, which is open. L1 is live from G by S1, L3 from H by S4.
JUMPER = '{"by":"OPS","do":"jumper","from":"L1","lockable":true,"point":"J1","remote":false,"to":"X1"}'
HELD = '[{"by":"JONES/1","kind":"Block"},{"by":"JONES/1","kind":"HeldOpen"},{"by":"JONES/1","kind":"Tag"}]'
POINTS = (
    '{"from":"L1","hand":null,"holds":[],"jumper":true,"lockable":true,"point":"J1","position":"open","remote":false,"to":"X1"}',
    '{"from":"G","hand":null,"holds":[],"jumper":false,"lockable":true,"point":"S1","position":"closed","remote":false,"to":"L1"}',
    f'{{"from":"L1","hand":null,"holds":{HELD},"jumper":false,"lockable":true,"point":"S2","position":"open","remote":false,"to":"L2"}}',
    f'{{"from":"L2","hand":null,"holds":{HELD},"jumper":false,"lockable":true,"point":"S3","position":"open","remote":false,"to":"L3"}}',
    '{"from":"L3","hand":"OPS/1","holds":[],"jumper":false,"lockable":true,"point":"S4","position":"closed","remote":true,"to":"H"}',
    '{"from":"L1","hand":null,"holds":[],"jumper":false,"lockable":false,"point":"T1","position":"open","remote":false,"to":"L3"}',
)
LIVE = {"G": True, "H": True, "L1": True, "L2": False, "L3": True, "X1": False}
STAFF = (("BOSS", "charge", "null"), ("DALE", "field", "null"), ("JONES", "charge", '"BOSS"'), ("KIM", "charge", "null"),
         ("OPS", "operator", "null"), ("REED", "field", "null"))


def network(points, sections):
    staff = ",".join(f'{{"employee":"{name}","role":"{role}","supervisor":{supervisor}}}' for name, role, supervisor in STAFF)
    return f'{{"points":[{",".join(points)}],"sections":[{",".join(sections)}],"staff":[{staff}]}}'


def section(name, live, holds=""):
    return f'{{"holds":[{holds}],"live":{str(live).lower()},"section":"{name}","source":{str(name in "GH").lower()}}}'


def drawn(folder):
    """The network with a hand and holds, then with L3 dead, as S4 was opened, and with a test and a ground."""
    own = "Host: localhost"
    with Server(register(folder / "room.db", shift(23)), "--desk") as server:
        same("a jumper", replied(server.ask(post(JUMPER, own))), (200, {"point": "J1", "reply": "added"}))
        wanted = network(POINTS, [section(*one) for one in LIVE.items()])
        same("the network with a jumper, a hand and holds", server.ask(get("/network", own)), response(200, wanted))
        for line in shift(27)[23:]:
            look(f"accepted: {line}", replied(server.ask(post(line, own)))[0] == 200)
        opened = list(POINTS)
        opened[4] = POINTS[4].replace('"OPS/1"', "null").replace('"closed"', '"open"')
        held = '{"by":"JONES/1","kind":"Ground"},{"by":"JONES/1","kind":"Tested"}'
        sections = [section(name, live and name != "L3", held if name == "L2" else "") for name, live in LIVE.items()]
        same("the network with a ground, and L3 dead", server.ask(get("/network", own)), response(200, network(opened, sections)))
        for target in ("/network/", "/network?x", "/network/L2", "/Network"):
            same(f"{target} is no route", server.ask(get(target, own)), NO_ROUTE)
        same("/network has one method", server.ask(post("{}", own, target="/network")), NO_BODY)
        same("the network for a page", server.ask(get("/network", own, "Origin: null")), IS_FOREIGN)


def way_back(folder):
    """The commands that give a clearance back are those that `wayback` prints of a copy; a register is not changed by it."""
    own = "Host: localhost"
    path = register(folder / "room.db", shift(23))
    copy = copied(path, folder / "copy.db")
    texts = {clearance: run("wayback", copy, clearance)[1] for clearance in ("JONES/1", "OPS/1")}
    look("there are commands that give both back", all('"do":' in text for text in texts.values()), texts)
    with Server(path, "--desk") as server:
        before = server.ask(get("/network", own)), server.ask(get("/board", own))
        for clearance, text in texts.items():
            same(f"/wayback/{clearance}", server.ask(get(f"/wayback/{clearance}", own)), response(200, text, "text/plain"))
        for target in ("/wayback/JONES/2", "/wayback/JONES/01", "/wayback/KIM/1", "/wayback/jones/1", "/wayback/JONES/x", "/wayback/JONES/1?x"):
            same(f"{target} is no clearance", server.ask(get(target, own)), fault(404, "NoSuch"))
        for target in ("/wayback", "/wayback/JONES", "/wayback/JONES/1/", "/wayback/JONES/1/1"):
            same(f"{target} is no route", server.ask(get(target, own)), NO_ROUTE)
        same("/wayback has one method", server.ask(post("{}", own, target="/wayback/JONES/1")), NO_BODY)
        same("a way back for a page", server.ask(get("/wayback/JONES/1", own, "Origin: null")), IS_FOREIGN)
        same("nothing is changed", (server.ask(get("/network", own)), server.ask(get("/board", own))), before)
    with Server(register(folder / "closed.db", shift(100)), "--desk") as server:
        same("a Closed one", server.ask(get("/wayback/JONES/1", own)), response(200, "", "text/plain"))
    with Server(register(folder / "plain.db", shift(23))) as server:
        same("without --desk, /wayback", server.ask(get("/wayback/JONES/1", own)), NO_ROUTE)
    staff = folder / "staff.csv"
    staff.write_text("employee,role,supervisor\nJONES,charge,\nOPS,operator,\n", encoding="ascii")
    path = register(folder / "nobody.db", shift(3), [*FILES[:2], str(staff)])
    same("wayback without a field employee", run("wayback", copied(path, folder / "copy.db"), "JONES/1"), (1, "", "fault: clearance NoWay\n"))
    with Server(path, "--desk") as server:
        same("/wayback without a field employee", server.ask(get("/wayback/JONES/1", own)), fault(409, "NoWay"))


main(hosts, plain, drawn, way_back)
