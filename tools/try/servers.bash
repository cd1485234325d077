# A server on loopback: connections that are answered, that send nothing and that fail, and what has its port or its
# register already. Read by tools/try-program.

# serving NAME COUNT: starts a server of $work/NAME.db for COUNT connections, and waits for its line.
serving() {
  : >"$work/printed"
  "$program" serve "$work/$1.db" --port "$port" --count "$2" >"$work/printed" 2>"$work/faults" &
  server=$!
  for _ in $(seq 100); do [ -s "$work/printed" ] || sleep 0.1; done
}

# served TITLE ERRORS: a server has ended, with status 0, its line and these errors.
served() {
  wait "$server"
  found=$?
  cp "$work/printed" "$work/output"
  cp "$work/faults" "$work/errors"
  judge "$1" 0 "serving 127.0.0.1:$port$feed" "$2" "$found"
}

new_register "$work/room.db"
new_register "$work/other.db"
serving room 3
try 'a port in use' 1 '' "fault: listen BindFailed$feed" serve "$work/other.db" --port "$port" --count 1
try 'a register in use' 1 '' "$no_store" board "$work/room.db"
: >"$work/errors"
(exec 3<>"/dev/tcp/127.0.0.1/$port")
ask 'POST /command HTTP/1.1' 'Host: 127.0.0.1' 'Content-Length: 53' "$request" >"$work/output"
judge 'a command over HTTP' 0 "HTTP/1.1 200 OK
Content-Type: application/json
Content-Length: 117
Connection: close

$requested" '' $?
ask 'GET /nothing HTTP/1.1' '' >"$work/output"
judge 'no route' 0 'HTTP/1.1 404 Not Found
Content-Type: application/json
Content-Length: 19
Connection: close

{"fault":"NoRoute"}' '' $?
served 'a server' ''
try 'the board after it' 0 '~JONES/1                       Requested L2' '' board "$work/room.db"
try 'a server of no register' 1 '' "$no_store" serve "$work/none.db" --port "$port" --count 1
try 'a server without a count' 2 '' '~--count' serve "$work/room.db" --port "$port"
try 'a port that is none' 2 '' '~65536' serve "$work/room.db" --port 65536 --count 1

# A jumper is laid: its reply, and its line on the board.
jumper='{"by":"OPS","do":"jumper","from":"L1","lockable":true,"point":"J1","remote":false,"to":"X1"}'
laid='JUMPER J1                       L1                       X1                       open'
: >"$work/errors"
new_register "$work/jumper.db"
serving jumper 2
ask 'POST /command HTTP/1.1' "Content-Length: ${#jumper}" "$jumper" >"$work/output"
judge 'a jumper over HTTP' 0 'HTTP/1.1 200 OK
Content-Type: application/json
Content-Length: 30
Connection: close

{"point":"J1","reply":"added"}' '' $?
ask 'GET /board HTTP/1.1' '' >"$work/output"
judge 'its line over HTTP' 0 "~BOARD 0$feed$laid$feed" '' $?
served 'a server that was given a jumper' ''
try 'the board after a jumper' 0 "BOARD 0$feed$laid$feed" '' board "$work/jumper.db"

# failing HOW.. : connections that fail, one after the other, while a first one holds the server up, so that each has
# failed before its turn comes:
#   cut     sends the first bytes of a request, and is reset: its request is not read
#   reset   sends a command, and is reset: its response does not go out, and the command was carried out
#   asked   asks for the board, which it prints
failing() {
  python3 - "$port" "$request" "$@" <<'END'
import socket, struct, sys
port, request, *hows = int(sys.argv[1]), *sys.argv[2:]
post = f"POST /command HTTP/1.1\r\nContent-Length: {len(request)}\r\n\r\n{request}".encode()
sent = {"cut": post[:20], "reset": post, "asked": b"GET /board HTTP/1.1\r\n\r\n"}

def connected():
    connection = socket.create_connection(("127.0.0.1", port), timeout=60)
    connection.setsockopt(socket.IPPROTO_TCP, socket.TCP_NODELAY, 1)
    return connection

first, waiting = connected(), []
for how in hows:
    connection = connected()
    connection.sendall(sent[how])
    if how == "asked":
        waiting.append(connection)
    else:
        connection.setsockopt(socket.SOL_SOCKET, socket.SO_LINGER, struct.pack("ii", 1, 0))
        connection.close()
first.close()
for connection in waiting:
    with connection.makefile("rb") as response:
        sys.stdout.write(response.read().decode().replace("\r", ""))
END
}

# The board over HTTP, with no clearance and with one.
empty_board='HTTP/1.1 200 OK
Content-Type: text/plain
Content-Length: 8
Connection: close

BOARD 0
'
: >"$work/errors"
new_register "$work/failing.db"
serving failing 6
failing cut asked reset cut asked >"$work/output"
judge 'those after connections that fail' 0 "~$empty_board" '' $?
expect 'a command whose response did not go out was carried out' grep -qxF 'BOARD 1' "$work/output"
served 'a server whose connections fail' "connection 2 ReadFailed
connection 4 WriteFailed
connection 5 ReadFailed
"
try 'the board after it, of one request' 0 "~BOARD 1$feed" '' board "$work/failing.db"

# What cannot be printed on standard error is lost, and the next connection is served.
new_register "$work/failing.db"
: >"$work/printed"
"$program" serve "$work/failing.db" --port "$port" --count 3 >"$work/printed" 2>&- &
server=$!
for _ in $(seq 100); do [ -s "$work/printed" ] || sleep 0.1; done
: >"$work/faults"
failing cut asked >"$work/output"
judge 'those after a connection that fails, standard error closed' 0 "$empty_board" '' $?
served 'a server with standard error closed' ''
try 'the board after it, of none' 0 "BOARD 0$feed" '' board "$work/failing.db"

# A database that shrinks under its server: no reply is given that is not kept, and the server ends by itself.
new_register "$work/shrinking.db"
serving shrinking 2
: >"$work/shrinking.db"
ask 'POST /command HTTP/1.1' 'Content-Length: 53' "$request" >"$work/response"
ask 'GET /board HTTP/1.1' '' >"$work/board"
wait "$server"
found=$?
expect "a server whose database shrinks ends by itself: $found" test "$found" -le 1
case $(head -n 1 "$work/response") in
  *' 200 OK') expect 'the command that it accepted is on its board' grep -qxF 'BOARD 1' "$work/board" ;;
  *) expect 'it is unavailable' grep -qxF '{"fault":"Unavailable"}' "$work/response" ;;
esac
