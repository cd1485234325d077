# What no clause can say of the program's edge: which sockets the kernel has for it, which files it opens, and that what
# only reads leaves the database as it was. Read by tools/try-program.

# listeners PORT: the addresses at which the kernel has somebody listen on this port, of IPv4 and IPv6, in its own
# spelling: 0100007F is 127.0.0.1.
listeners() {
  awk -v port="$(printf ':%04X' "$1")" 'FNR > 1 && $4 == "0A" && substr($2, length($2) - 4) == port { print $2 }' \
    /proc/net/tcp /proc/net/tcp6 2>/dev/null
}

cp "$work/ordered.db" "$work/seen.db"
serving seen 1
expect 'a server listens on 127.0.0.1 alone' test "$(listeners "$port")" = "$(printf '0100007F:%04X' "$port")"
ask 'GET /board HTTP/1.1' '' >"$work/output"
: >"$work/errors"
judge 'the board of that server' 0 "~BOARD 1$feed" '' $?
served 'a server that was looked at' ''
expect 'a server that has ended listens nowhere' test -z "$(listeners "$port")"

# leaves COMMAND..: COMMAND, after which the database is the same bytes, beside a log of its head alone: each opening
# writes a new one.
leaves() {
  cp "$edge/room.db" "$work/before.db"
  "$@"
  expect "$2: the database is unchanged" cmp "$edge/room.db" "$work/before.db"
  expect "$2: no change is in the log" test "$(wc -c <"$edge/room.db-wal")" -eq 41
}

# Of a register that was closed: what only reads, or is refused, leaves the database byte for byte. Of one whose server was killed: the
# log is folded in, and the tables are as before.
edge=$work/edge
mkdir "$edge"
cp "$work/ordered.db" "$edge/room.db"
board=$(bounded board "$edge/room.db")
leaves try 'the board of a closed register' 0 "$board$feed" '' board "$edge/room.db"
leaves try 'an order of it' 0 '~ORDER JONES/1 ROUND 1' '' order "$edge/room.db" JONES/1 1
leaves try 'a way back' 0 '~"do":' '' wayback "$edge/room.db" JONES/1
leaves try 'a comparison with a journal that it has not' 1 '' "fault: journal OtherRegister$feed" \
  verify "$edge/room.db" "$work/journal" "${three[@]}"
leaves try 'a run with such a journal' 1 '' "fault: journal OtherRegister$feed" \
  run --db "$edge/room.db" --journal "$work/journal"
leaves try 'an order of a round that is not there' 1 '' "fault: clearance NoSuch$feed" \
  order "$edge/room.db" JONES/1 2
printf '%s\n' '{"by":"JONES","clearance":"JONES/1","do":"show"}' '{' >"$work/asks"
with_input "$work/asks" leaves try 'a run that changes nothing' 0 '~"reply":"shown"' '' run --db "$edge/room.db"
leaves try 'a register made over it' 1 '' "$no_store" init "${three[@]}" --db "$edge/room.db"
leaves try 'a move of it' 0 "version 2$feed" '' migrate "$edge/room.db"
leaves try 'a port that cannot be opened' 2 '' '~65536' serve "$edge/room.db" --port 65536 --count 1

# unread COMMAND..: COMMAND, whose runs of the program have a directory for standard input.
unread() {
  rm "$work/input"
  mkdir "$work/input"
  "$@"
  rmdir "$work/input"
  : >"$work/input"
}
unread leaves try 'a run whose input cannot be read' 1 '' "fault: input ReadFailed$feed" run --db "$edge/room.db"
serving seen 1
leaves try 'a server whose port is in use' 1 '' "fault: listen BindFailed$feed" \
  serve "$edge/room.db" --port "$port" --count 1
ask 'GET /board HTTP/1.1' '' >/dev/null
served 'the server that has it' ''

# tables_at PATH: all rows of all tables, by SQLite itself, of a copy of the database and its log.
tables_at() {
  cp "$1" "$edge/copy.db"
  [ -f "$1-wal" ] && cp "$1-wal" "$edge/copy.db-wal"
  python3 - "$edge/copy.db" <<'END'
import sqlite3, sys
print("\n".join(sqlite3.connect(sys.argv[1]).iterdump()))
END
  rm -f "$edge"/copy.db*
}
# The same of a register with a journal.
cp "$work/kept.db" "$edge/room.db"
leaves try 'the board of a register with a journal' 0 "$board$feed" '' board "$edge/room.db"
leaves try 'an order of it' 0 '~ORDER JONES/1 ROUND 1' '' order "$edge/room.db" JONES/1 1
leaves try 'a way back of it' 0 '~"do":' '' wayback "$edge/room.db" JONES/1
leaves try 'a comparison with its journal' 0 "verified 2 commands$feed" '' verify "$edge/room.db" "$work/journal" "${three[@]}"
leaves try 'a comparison with its journal, from itself' 0 "verified 0 commands$feed" '' \
  verify "$edge/room.db" "$work/journal" --from "$edge/room.db"
leaves try 'an opening with its journal' 0 '' '' run --db "$edge/room.db" --journal "$work/journal"
leaves try 'an opening without it' 1 '' "fault: journal Missing$feed" run --db "$edge/room.db"
leaves try 'a server without it' 1 '' "fault: journal Missing$feed" serve "$edge/room.db" --port "$port" --count 1
leaves try 'an update of it' 1 '' "fault: journal Missing$feed" update "$edge/room.db" "${three[@]}"
leaves try 'an archive of it' 1 '' "fault: journal Missing$feed" archive "$edge/room.db" --before 1
leaves try 'another journal for it' 1 '' "fault: journal Missing$feed" migrate "$edge/room.db" --journal "$edge/new"
leaves try 'a move of it' 0 "version 2$feed" '' migrate "$edge/room.db"
expect 'no journal was begun' test ! -e "$edge/new"
cp "$work/killed.db" "$edge/room.db"
cp "$work/killed.db-wal" "$edge/room.db-wal"
tables_at "$edge/room.db" >"$work/tables"
try 'the board of a killed server' 0 "~BOARD 1$feed" '' board "$edge/room.db"
expect 'its tables are as the killed server left them' test "$(tables_at "$edge/room.db")" = "$(cat "$work/tables")"

# opened_alone TITLE PATH..: the calls that were traced opened these files and folders, each once, in this sequence, but
# for the C library; they removed, renamed and cut none by name.
opened_alone() {
  local title=$1
  shift
  grep -v ' = -1 ' "$work/calls" |
    sed -nE 's/^[0-9]+ +(open|openat|openat2|creat)\((AT_FDCWD, )?"([^"]*)".*/\3/p' |
    grep -vE '^/(etc/ld\.so|lib|usr/lib)' >"$work/opened"
  expect "$title: opens what was named" diff <(printf '%s\n' "$@") "$work/opened"
  expect "$title: removes, renames and cuts nothing" \
    test -z "$(grep -E '^[0-9]+ +(unlink|rename|truncate|link|symlink|mkdir|rmdir|mknod)' "$work/calls")"
}

traced=(strace -f -qq -o "$work/calls" -e 'trace=%file,%network')

# opens TITLE PATH.. -- WORD..: the program, given these words, opens these alone, and has no socket.
opens() {
  local title=$1 wanted=()
  shift
  while [ "$1" != -- ]; do
    wanted+=("$1")
    shift
  done
  shift
  timeout 60 "${traced[@]}" "$program" "$@" <"$work/input" >/dev/null 2>&1
  opened_alone "$title" "${wanted[@]}"
  expect "$title: has no socket" test -z "$(grep -E '^[0-9]+ +(socket|bind|listen|connect)' "$work/calls")"
}

# serving_opens TITLE WORD.. -- PATH..: a server of one connection, given these words, opens these alone, listens once, at
# 127.0.0.1, and connects to nobody.
serving_opens() {
  local title=$1 words=()
  shift
  while [ "$1" != -- ]; do
    words+=("$1")
    shift
  done
  shift
  : >"$work/printed"
  "${traced[@]}" "$program" serve "${words[@]}" --port "$port" --count 1 >"$work/printed" 2>"$work/faults" &
  server=$!
  for _ in $(seq 100); do [ -s "$work/printed" ] || sleep 0.1; done
  ask 'POST /command HTTP/1.1' 'Host: 127.0.0.1' 'X-Forwarded-User: JONES' "Content-Length: ${#show}" "$show" >/dev/null
  served "$title whose calls are looked at" ''
  opened_alone "$title" "$@"
  expect "$title: listens once" test "$(grep -cE '^[0-9]+ +listen\(' "$work/calls")" -eq 1
  expect "$title: at 127.0.0.1" \
    test "$(grep -E '^[0-9]+ +bind\(' "$work/calls" | grep -cF 'inet_addr("127.0.0.1")')" -eq 1
  expect "$title: binds once" test "$(grep -cE '^[0-9]+ +bind\(' "$work/calls")" -eq 1
  expect "$title: accepts once" test "$(grep -E '^[0-9]+ +accept4?\(' "$work/calls" | grep -vc ' = -1 ')" -eq 1
  expect "$title: connects to nobody" test -z "$(grep -E '^[0-9]+ +connect\(' "$work/calls")"
}
show='{"by":"JONES","clearance":"JONES/1","do":"show"}'

if ! command -v strace >/dev/null || ! strace -qq -o /dev/null true 2>/dev/null; then
  left_out 'which files a subcommand opens' 'strace is not installed, or may not trace'
else
  rm -f "$edge"/*
  cp "$work/ordered.db" "$edge/room.db"
  bounded board "$edge/room.db" >/dev/null
  register=("$edge/room.db" "$edge/room.db-wal" "$edge")
  opens 'a board' "${register[@]}" -- board "$edge/room.db"
  opens 'an order' "${register[@]}" -- order "$edge/room.db" JONES/1 1
  opens 'an order of nothing' "${register[@]}" -- order "$edge/room.db" JONES/9 1
  opens 'a way back' "${register[@]}" -- wayback "$edge/room.db" JONES/1
  opens 'a log' "$work/journal" -- journal "$work/journal"
  opens 'a log of two parts' "$work/journal" "$work/parted-2" -- journal "$work/journal" --part "$work/parted-2"
  opens 'a move' "${register[@]}" -- migrate "$edge/room.db"
  with_input "$work/asks" opens 'a run over a database' "${register[@]}" -- run --db "$edge/room.db"
  opens 'a fence' "${three[@]:0:2}" -- fence "${three[@]:0:2}" L2 S2 S3
  opens 'an import' "${three[@]}" -- init "${three[@]}"
  opens 'a check' "${three[@]}" -- check "${three[@]}"
  with_input "$work/asks" opens 'a run over files' "${three[@]}" -- run "${three[@]}"
  # the file is made, so that nobody else's is taken, and then opened
  opens 'a register that is made' "${three[@]}" "$edge/made.db" "$edge/made.db" "$edge/made.db-wal" "$edge" -- \
    init "${three[@]}" --db "$edge/made.db"
  opens 'a register made over one' "${three[@]}" "${register[@]}" -- init "${three[@]}" --db "$edge/room.db"
  serving_opens 'a server' "$edge/room.db" -- "${register[@]}"
  # a journal is begun after the files were read, and before the register is made
  kept=("$edge/begun" "$edge/begun-wal" "$edge")
  made=("$edge/kept.db" "$edge/kept.db" "$edge/kept.db-wal" "$edge")
  opens 'a register with a journal that is made' "${three[@]}" "$edge/begun" "${kept[@]}" "${made[@]}" -- \
    init "${three[@]}" --db "$edge/kept.db" --journal "$edge/begun"
  opens 'one whose journal is there' "${three[@]}" "${kept[@]}" -- \
    init "${three[@]}" --db "$edge/other.db" --journal "$edge/begun"
  opens 'a journal for a register' "${register[@]}" "$edge/given" "$edge/given" "$edge/given-wal" "$edge" -- \
    migrate "$edge/room.db" --journal "$edge/given"
  # the journal after the register, and where the register has none it is not opened
  cp "$work/kept.db" "$edge/room.db"
  cp "$work/journal" "$edge/journal"
  : >"$edge/journal-wal"
  printf '%s\n' 'login,employee' 'JONES,JONES' >"$edge/logins.csv"
  kept=("$edge/journal" "$edge/journal-wal" "$edge")
  opens 'a comparison' "${three[@]}" "${register[@]}" "$edge/journal" -- \
    verify "$edge/room.db" "$edge/journal" "${three[@]}"
  opens 'a comparison with a copy' "$edge/kept.db" "$edge/kept.db-wal" "$edge" "${register[@]}" "$edge/journal" -- \
    verify "$edge/room.db" "$edge/journal" --from "$edge/kept.db"
  opens 'a run that names no journal' "${register[@]}" -- run --db "$edge/room.db"
  opens 'a run with a journal that is not there' "${register[@]}" -- run --db "$edge/room.db" --journal "$edge/none"
  cp "$work/ordered.db" "$edge/plain.db"
  : >"$edge/plain.db-wal"
  opens 'a run with a journal, of a register without one' "$edge/plain.db" "$edge/plain.db-wal" "$edge" -- \
    run --db "$edge/plain.db" --journal "$edge/journal"
  with_input "$work/asks" opens 'a run with a journal' "${register[@]}" "${kept[@]}" -- \
    run --db "$edge/room.db" --journal "$edge/journal"
  serving_opens 'a server with a journal' "$edge/room.db" --journal "$edge/journal" -- "${register[@]}" "${kept[@]}"
  serving_opens 'a server at a desk' "$edge/room.db" --desk --deadline 5 --logins "$edge/logins.csv" \
    --journal "$edge/journal" -- "$edge/logins.csv" "${register[@]}" "${kept[@]}"
  expect 'the journal of what changed nothing is unchanged' cmp "$work/journal" "$edge/journal"
  opens 'a next part' "${register[@]}" "${kept[@]}" "$edge/next" "$edge/next" "$edge/next-wal" "$edge" -- \
    journal "$edge/journal" --db "$edge/room.db" --next "$edge/next"
  expect 'the part before is unchanged' cmp "$work/journal" "$edge/journal"
fi
