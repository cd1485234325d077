# One clearance over HTTP in two registers, alone in a small network and beside others in the worked one: the responses
# to its own requests are the same bytes. The commands are those of the worked sessions. Read by tools/try-program.

sessions=$files/sessions

# merged SESSION..: the commands of sessions that have the same own ones, in their order: a line each, that begins with
# `=` where it is an own one of the first session's clearance, and with `>` where it is another's.
merged() {
  python3 - "$@" <<'END'
import sys

def read(path):
    """The own commands of a session, and before each, and after the last, those of others."""
    own, others = [], [[]]
    for line in open(path):
        mark, _, command = line.rstrip("\n").partition(" ")
        if mark == ">=":
            own.append(command)
            others.append([])
        elif mark == ">":
            others[-1].append(command)
    return own, others

sessions = [read(path) for path in sys.argv[1:]]
own = sessions[0][0]
assert all(commands == own for commands, _ in sessions)
for place, command in enumerate(own + [None]):
    for _, others in sessions:
        for other in others[place]:
            print(">", other)
    if command:
        print("=", command)
END
}

# sending: sends the commands on its input, each as a request over a connection of its own. Writes the responses to own
# ones, whole, and the first lines of the others to $work/others.
sending() {
  python3 - "$port" "$1" "$work/others" <<'END'
import socket, sys
port, commands, others = int(sys.argv[1]), *sys.argv[2:]

def response(command):
    body = command.encode()
    with socket.create_connection(("127.0.0.1", port), timeout=60) as connection:
        connection.sendall(b"POST /command HTTP/1.1\r\nContent-Length: %d\r\n\r\n%b" % (len(body), body))
        with connection.makefile("rb") as stream:
            return stream.read()

with open(others, "wb") as statuses:
    for line in open(commands):
        mark, _, command = line.rstrip("\n").partition(" ")
        found = response(command)
        if mark == "=":
            sys.stdout.buffer.write(found)
        else:
            statuses.write(found.partition(b"\r\n")[0] + b"\n")
END
}

# sent NAME NETWORK SESSION..: sends the commands of sessions to a server of the opening register of a network. The
# responses to own ones are $work/NAME.own.
sent() {
  local name=$1 network=$2 count
  shift 2
  merged "${@/#/$sessions/}" >"$work/$name.commands"
  count=$(wc -l <"$work/$name.commands")
  rm -f "$work/$name.db" "$work/$name.db-wal"
  "$program" init "$sessions/$network-sections.csv" "$sessions/$network-points.csv" "$sessions/$network-staff.csv" \
    --db "$work/$name.db" >/dev/null
  serving "$name" "$count"
  sending "$work/$name.commands" >"$work/$name.own"
  served "a server of one clearance, $name" ''
}

alone=one-clearance-alone.session
neighbour=one-clearance-beside-another.session
switch=one-clearance-beside-a-switch-order.session
jumper=one-clearance-beside-a-jumper.session
sent alone small "$alone"
grep '^< ' "$sessions/$alone" | cut -c 3- >"$work/replies"
grep '^{' "$work/alone.own" | sed 's/}HTTP.*/}/' >"$work/bodies"
expect 'a clearance alone has 49 responses' test "$(wc -l <"$work/bodies")" -eq 49
expect 'their bodies are the replies of the session' cmp -s "$work/replies" "$work/bodies"
sent elsewhere worked "$alone"
expect 'in another register they are the same bytes' cmp -s "$work/alone.own" "$work/elsewhere.own"
for beside in "$neighbour" "$switch" "$jumper"; do
  sent beside worked "$beside"
  expect "${beside%.session}: the same bytes" cmp -s "$work/alone.own" "$work/beside.own"
done
sent crowded worked "$switch" "$jumper" "$neighbour"
expect 'beside all three they are the same bytes' cmp -s "$work/alone.own" "$work/crowded.own"
expect 'the 25 commands of the others are accepted' test "$(grep -c '^HTTP/1.1 200 OK' "$work/others")" -eq 25
