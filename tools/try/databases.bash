# Databases that are none, are not whole, are another's, or were written by another; paths without a register; a disk
# that is full. Read by tools/try-program.

place=$work/databases
mkdir "$place"

# each_reader COMMAND.. PATH: COMMAND with the words of each subcommand that opens a register, at this path.
each_reader() {
  local path=${*: -1} command=("${@:1:$#-1}")
  cp "$work/one" "$work/input"
  "${command[@]}" run --db "$path"
  "${command[@]}" order "$path" JONES/1 1
  "${command[@]}" board "$path"
  "${command[@]}" wayback "$path" JONES/1
  "${command[@]}" verify "$path" "$work/journal" "${three[@]}"
  "${command[@]}" serve "$path" --port "$port" --count 1
  : >"$work/input"
}

# write_to PATH STATEMENT..: what somebody else writes to a database, by SQLite itself.
write_to() {
  python3 - "$@" <<'END'
import sqlite3, sys
connection = sqlite3.connect(sys.argv[1])
for statement in sys.argv[2:]:
    connection.execute(statement)
connection.commit()
connection.close()
END
}

# A log that a run leaves that is killed: it has the commands, and the database beside it has none of them.
new_register "$work/killed.db"
: >"$work/printed"
"$program" serve "$work/killed.db" --port "$port" --count 1000 >"$work/printed" 2>/dev/null &
server=$!
for _ in $(seq 100); do [ -s "$work/printed" ] || sleep 0.1; done
while IFS= read -r line; do
  ask 'POST /command HTTP/1.1' "Content-Length: ${#line}" "$line" >/dev/null
done <"$work/two"
kill -9 "$server"
wait "$server" 2>/dev/null
expect 'the log of a killed server has the commands' test "$(wc -c <"$work/killed.db-wal")" -gt 4096

# Only `init` makes a database: a path where there is no file, or an empty one, is left alone, and so is a log beside
# it.
no_register() {
  local title=$1
  shift
  keeping "$place" try "$1, $title" 1 '' "$no_store" "$@"
}
each_reader no_register 'no file' "$place/room.db"
: >"$place/room.db"
each_reader no_register 'an empty file' "$place/room.db"
cp "$work/killed.db-wal" "$place/room.db-wal"
each_reader no_register 'an empty file beside a log' "$place/room.db"
rm "$place/room.db"
each_reader no_register 'no file beside a log' "$place/room.db"
rm "$place/room.db-wal"

# keeps_file FAULT TITLE WORD..: a run that ends with this fault of the store, and leaves the database as it was. A log
# may be beside it.
keeps_file() {
  local fault=$1 title=$2
  shift 2
  cp "$place/room.db" "$work/before.db"
  try "$1, $title" 1 '' "fault: store $fault$feed" "$@"
  expect "$1, $title: the database is unchanged" cmp "$place/room.db" "$work/before.db"
}
# all_refuse FAULT TITLE: each subcommand that opens the database at $place/room.db, and `init` on it too.
all_refuse() {
  each_reader keeps_file "$@" "$place/room.db"
  keeps_file Sql "$2" init "${three[@]}" --db "$place/room.db"
  rm -f "$place"/*
}

cp "$files/points.csv" "$place/room.db"
all_refuse Sql 'a text for a database'
head -c $(($(stat -c %s "$work/ordered.db") / 2)) "$work/ordered.db" >"$place/room.db"
all_refuse Sql 'a database that was cut in the middle'
head -c 100 "$work/ordered.db" >"$place/room.db"
all_refuse Sql 'the first hundred bytes of a database'
for page in 1 4; do
  cp "$work/ordered.db" "$place/room.db"
  head -c 2048 /dev/zero | tr '\0' '\377' | dd of="$place/room.db" bs=2048 seek=$((page - 1)) conv=notrunc status=none
  all_refuse Sql "a database with page $page damaged"
done
write_to "$place/room.db" 'CREATE TABLE meters (name TEXT PRIMARY KEY, value INTEGER)'
all_refuse Sql 'a database with a table of somebody else'
write_to "$place/room.db" 'CREATE TABLE meta (name TEXT PRIMARY KEY, value INTEGER)'
all_refuse 'BadRow meta' 'a database with another meta'

# written FAULT TITLE STATEMENT..: the register with an order, to which somebody else has written this. `migrate` refuses
# other tables too.
written() {
  local fault=$1 title=$2
  shift 2
  cp "$work/ordered.db" "$place/room.db"
  write_to "$place/room.db" "$@"
  [ "$fault" != OtherTables ] || keeps_file "$fault" "$title" migrate "$place/room.db"
  all_refuse "$fault" "$title"
}
huge="CAST(replace(hex(zeroblob(1000000)), '00', 'A') AS TEXT)"
written 'WrongVersion 9' 'another version' 'UPDATE meta SET value = 9'
written 'WrongVersion -9223372036854775808' 'the least version' 'UPDATE meta SET value = -9223372036854775808'
written 'BadRow meta' 'no version' 'DELETE FROM meta'
written Sql 'no meta' 'DROP TABLE meta'
written Sql 'a view for meta' 'DROP TABLE meta' "CREATE VIEW meta AS SELECT 'version' AS name, 2 AS value"
written 'BadRow meta' 'a version that is a text' 'DROP TABLE meta' 'CREATE TABLE meta (name, value)' \
  "INSERT INTO meta VALUES ('version', '2')"
written 'WrongVersion 9' 'another version and another table' 'UPDATE meta SET value = 9' 'CREATE TABLE more (name TEXT)'
written OtherTables 'another table' 'CREATE TABLE more (name TEXT PRIMARY KEY) STRICT'
written OtherTables 'the table of version 1' 'CREATE TABLE point (name TEXT)'
written OtherTables 'a table that the program cannot read' 'CREATE TABLE more (name TEXT COLLATE RTRIM, size AS (length(name)))'
written OtherTables 'an index' 'CREATE INDEX held ON hold (place)'
written OtherTables 'a view' 'CREATE VIEW held AS SELECT place FROM hold'
written OtherTables 'a trigger' 'CREATE TRIGGER held AFTER INSERT ON hold BEGIN DELETE FROM step; END'
written OtherTables 'statistics' ANALYZE
written OtherTables 'no table of holds' 'DROP TABLE hold'
written OtherTables 'a table under another name' 'ALTER TABLE hold RENAME TO holds'
written OtherTables 'a column more' 'ALTER TABLE section ADD COLUMN note TEXT'
written OtherTables 'a meta of two rows' "INSERT INTO meta VALUES ('mark', 1)"
written OtherTables 'a meta that is not STRICT' 'DROP TABLE meta' \
  'CREATE TABLE meta (name TEXT NOT NULL, value INTEGER NOT NULL, PRIMARY KEY (name))' "INSERT INTO meta VALUES ('version', 2)"
written OtherTables 'a table with a CHECK' 'DROP TABLE hold' \
  "CREATE TABLE hold (kind TEXT NOT NULL CHECK (kind <> ''), place TEXT NOT NULL, requester TEXT NOT NULL, number INTEGER NOT NULL, PRIMARY KEY (kind, place, requester, number)) STRICT"
places='CREATE TABLE journal (id TEXT NOT NULL, number INTEGER NOT NULL, sum TEXT NOT NULL, PRIMARY KEY (id)) STRICT'
written OtherTables 'a table of the journal without a place' "$places"
written OtherTables 'a table of the journal with two places' "$places" "INSERT INTO journal VALUES ('a', 0, 'b'), ('b', 0, 'b')"
written OtherTables 'a table of the journal that is not STRICT' "${places% STRICT}" "INSERT INTO journal VALUES ('a', 0, 'b')"
written OtherTables 'a table of the journal with a column more' "${places/PRIMARY/more TEXT, PRIMARY}" \
  "INSERT INTO journal VALUES ('a', 0, 'b', NULL)"
written 'BadRow section' 'a name of a million bytes' "UPDATE section SET name = $huge WHERE name = 'L2'"
written 'BadRow section' 'a name of 25 bytes' "UPDATE section SET name = 'ABCDEFGHIJKLMNOPQRSTUVWXY' WHERE name = 'G'"
written 'BadRow section' 'an empty name' "UPDATE section SET name = '' WHERE name = 'G'"
written 'BadRow section' 'a mark that is neither 0 nor 1' "UPDATE section SET source = 2 WHERE name = 'G'"
written 'BadRow network_point' 'an end of a million bytes' "UPDATE network_point SET to_end = $huge WHERE name = 'S2'"
written 'BadRow network_point' 'a position beyond its type' "UPDATE network_point SET position = 9223372036854775807 WHERE name = 'S2'"
written 'BadRow network_point' 'half a hand' "UPDATE network_point SET hand_requester = 'JONES' WHERE name = 'S2'"
written 'BadRow network_point' "a hand's number beyond its type" "UPDATE network_point SET hand_requester = 'JONES', hand_number = 65537"
written 'BadRow network_point' 'a mark of a jumper that is neither 0 nor 1' "UPDATE network_point SET jumper = 2 WHERE name = 'T1'"
written 'BadRow staff' 'a role of a million bytes' "UPDATE staff SET role = $huge WHERE name = 'OPS'"
written 'BadRow staff' 'a supervisor of a million bytes' "UPDATE staff SET supervisor = $huge WHERE name = 'JONES'"
written 'BadRow clearance' 'a number beyond its type' 'UPDATE clearance SET number = 65537'
written 'BadRow clearance' 'the number 10,000' 'UPDATE clearance SET number = 10000'
written 'BadRow clearance' 'the number 0' 'UPDATE clearance SET number = 0'
written 'BadRow clearance' 'a moment beyond the last' 'UPDATE clearance SET last_at = 4102444800'
written 'BadRow clearance' 'a moment before the first' 'UPDATE clearance SET last_at = -1'
written 'BadRow clearance' 'a holder of a million bytes' "UPDATE clearance SET holder = $huge"
written 'BadRow step' 'a round beyond its type' 'UPDATE step SET round = 256'
written 'BadRow step' 'an ordinal beyond its type' 'UPDATE step SET ordinal = 65536 WHERE ordinal = 6'
written 'BadRow step' 'a point of a million bytes' "UPDATE step SET point = $huge WHERE ordinal = 1"
written 'BadRow hold' "a hold's number beyond its type" "INSERT INTO hold VALUES ('Tag', 'S2', 'JONES', -1)"
written 'BadRow hold' 'a place of a million bytes' "INSERT INTO hold VALUES ('Tag', $huge, 'JONES', 1)"

# A place that does not read, or is in no journal: what only reads opens the register. What would change it, or looks for
# the place, does not.
placed() {
  local fault=$1 title=$2 value=$3
  cp "$work/ordered.db" "$place/room.db"
  write_to "$place/room.db" "$places" "INSERT INTO journal VALUES $value"
  cp "$place/room.db" "$work/before.db"
  try "the board, $title" 0 "~BOARD 1$feed" '' board "$place/room.db"
  try "an order, $title" 0 '~ORDER JONES/1 ROUND 1' '' order "$place/room.db" JONES/1 1
  try "a way back, $title" 0 '~"do":' '' wayback "$place/room.db" JONES/1
  with_input "$work/one" try "a run, $title" 1 '' "fault: $fault$feed" run --db "$place/room.db"
  try "a server, $title" 1 '' "fault: $fault$feed" serve "$place/room.db" --port "$port" --count 1
  try "an archive, $title" 1 '' "fault: $fault$feed" archive "$place/room.db" --before 1
  try "an update, $title" 1 '' "fault: $fault$feed" update "$place/room.db" "${three[@]}"
  try "a journal for it, $title" 1 '' "fault: $fault$feed" migrate "$place/room.db" --journal "$place/new"
  [ "$fault" != 'journal Missing' ] || fault='journal OtherRegister'
  with_input "$work/one" try "a run with a journal, $title" 1 '' "fault: $fault$feed" \
    run --db "$place/room.db" --journal "$work/journal"
  try "a comparison, $title" 1 '' "fault: $fault$feed" verify "$place/room.db" "$work/journal" "${three[@]}"
  expect "$title: the database is unchanged" cmp "$place/room.db" "$work/before.db"
  expect "$title: no journal was begun" test ! -e "$place/new"
  rm -f "$place"/*
}
placed 'store BadRow journal' 'a place before the first' "('a', -1, 'b')"
placed 'store BadRow journal' 'the least number of a place' "('a', -9223372036854775808, 'b')"
placed 'journal Missing' 'a place in another journal' "('a', 9223372036854775807, 'b')"
placed 'journal Missing' 'a place without texts' "('', 0, '')"

# Locked by SQLite: whoever has it open, reading or writing, has it alone. What it holds is not touched, and when it is
# let go it opens.
for lock in 'SELECT count(*) FROM network_point' 'BEGIN IMMEDIATE' 'BEGIN EXCLUSIVE'; do
  cp "$work/ordered.db" "$place/room.db"
  mkfifo "$place/locked" "$place/done"
  python3 - "$place" "$lock" <<'END' &
import sqlite3, sys
place, statement = sys.argv[1:]
connection = sqlite3.connect(f"{place}/room.db", isolation_level=None)
connection.execute(statement).fetchall()
open(f"{place}/locked", "w").close()
open(f"{place}/done").read()
connection.close()
END
  cat "$place/locked"
  each_reader keeps_file Sql "a database in which sqlite3 has said $lock" "$place/room.db"
  : >"$place/done"
  wait $!
  try 'the board when it is let go' 0 "~BOARD 1$feed" '' board "$place/room.db"
  rm -f "$place"/*
done

# A disk that is full when the database is closed: what was read of it is printed. The limit on the size of files lets
# nothing be written that is longer than the log's head, so that the log cannot be folded into the database.
on_full_disk() {
  local title=$1 output=$2
  shift 2
  cp "$work/killed.db" "$place/room.db"
  cp "$work/killed.db-wal" "$place/room.db-wal"
  (trap '' XFSZ && ulimit -f 4 && exec timeout 60 "$program" "$@" 2>&1) </dev/null | cat >"$work/output"
  found=${PIPESTATUS[0]}
  : >"$work/errors"
  judge "$title on a full disk" 0 "$output" '' "$found"
}
cp "$work/killed.db" "$place/other.db"
cp "$work/killed.db-wal" "$place/other.db-wal"
board=$(bounded board "$place/other.db")
order=$(bounded order "$place/other.db" JONES/1 1)
expect 'the board after a killed server' test "${board%%$feed*}" = 'BOARD 1'
on_full_disk 'the board' "$board$feed" board "$place/room.db"
on_full_disk 'the order' "$order$feed" order "$place/room.db" JONES/1 1
rm -f "$place"/*
