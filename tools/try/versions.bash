# A register of version 1, made by the last program that wrote that version: it is refused until `migrate` has moved it,
# and then answers as it did. Read by tools/try-program, after databases.bash.
# version-1.db.xz has the first 28 commands of the shift, a switch order CLOSE S4, and its step given out: a granted
# clearance with a ground and a crew, and S4 in the hand of OPS/2. version-1.printed is what that program printed of it.

python3 - "$tools/try/version-1.db.xz" "$work/version-1.db" <<'END'
import lzma, sys
with open(sys.argv[2], "wb") as file:
    file.write(lzma.open(sys.argv[1]).read())
END
: >"$work/shows"
for of in JONES/1 OPS/1 OPS/2; do
  printf '{"by":"%s","clearance":"%s","do":"show"}\n' "${of%/*}" "$of" >>"$work/shows"
done

# The board, each order and each view of a register of these clearances.
print_all_of() {
  bounded board "$1"
  for of in JONES/1 OPS/1 OPS/2; do bounded order "$1" "$of" 1; done
  bounded run --db "$1" <"$work/shows"
}

# rows_in PATH TABLE..: the rows of tables, as SQLite itself reads them.
rows_in() {
  python3 - "$@" <<'END'
import sqlite3, sys
connection = sqlite3.connect(f"file:{sys.argv[1]}?mode=ro", uri=True)
for table in sys.argv[2:]:
    print(table, sorted(connection.execute(f"SELECT * FROM {table}"), key=str))
END
}
others='section staff clearance step hold'

cp "$work/version-1.db" "$place/room.db"
each_reader keeps_file 'WrongVersion 1' 'a register of version 1' "$place/room.db"
rows_in "$place/room.db" $others >"$work/rows-before"
rows_in "$place/room.db" point | sed -e 's/^point/network_point/' -e 's/)/, 0)/g' >>"$work/rows-before"
moved="version 2$feed"
try 'migrate, a register of version 1' 0 "$moved" '' migrate "$place/room.db"
rows_in "$place/room.db" $others network_point >"$work/rows"
expect 'each row was moved, and no point is a jumper' diff "$work/rows-before" "$work/rows"
expect 'no row is left in point' test "$(rows_in "$place/room.db" point)" = 'point []'
print_all_of "$place/room.db" >"$work/printed"
expect 'what was moved is printed as before' diff "$tools/try/version-1.printed" "$work/printed"
cp "$place/room.db" "$work/moved.db"
try 'migrate, a register of version 2' 0 "$moved" '' migrate "$place/room.db"
expect 'migrate, a register of version 2: the database is unchanged' cmp "$place/room.db" "$work/moved.db"
printf '%s\n' '{"at":1795507000,"by":"REED","clearance":"OPS/2","do":"repeat","step":1,"text":"CLOSE S4"}' \
  '{"at":1795507010,"by":"REED","clearance":"OPS/2","do":"report","done":true,"step":1}' >"$work/commands"
card='{"card":{"clearance":"OPS/2","done":%s,"holder":"OPS","phase":"%s","round":1,"steps":1},"reply":"accepted"}\n'
with_input "$work/commands" try 'the step in hand is repeated and reported' 0 \
  "$(printf "$card" 0 Switching 1 Closed)$feed" '' run --db "$place/room.db"
cp "$work/ordered.db" "$place/room.db"
try 'migrate, a register that init made' 0 "$moved" '' migrate "$place/room.db"
expect 'migrate, a register that init made: the database is unchanged' cmp "$place/room.db" "$work/ordered.db"
rm -f "$place"/*

# not_moved FAULT TITLE STATEMENT..: the register of version 1, to which somebody else has written this.
not_moved() {
  local fault=$1 title=$2
  shift 2
  cp "$work/version-1.db" "$place/room.db"
  write_to "$place/room.db" "$@"
  keeps_file "$fault" "$title" migrate "$place/room.db"
  rm -f "$place"/*
}
not_moved 'WrongVersion 9' 'another version' 'UPDATE meta SET value = 9'
not_moved 'WrongVersion 0' 'the version before the first' 'UPDATE meta SET value = 0'
not_moved 'BadRow meta' 'no version' 'DELETE FROM meta'
not_moved Sql 'no meta' 'DROP TABLE meta'
not_moved 'BadRow point' 'half a hand' "UPDATE point SET hand_requester = 'JONES' WHERE name = 'S3'"
not_moved 'BadRow point' 'a position beyond its type' "UPDATE point SET position = 2 WHERE name = 'T1'"
not_moved OtherTables 'a network_point of somebody else' 'CREATE TABLE network_point (name TEXT PRIMARY KEY)'
not_moved OtherTables 'another index, before a point that does not read' 'CREATE INDEX held ON hold (place)' \
  "UPDATE point SET position = 2 WHERE name = 'T1'"
not_moved OtherTables 'statistics' ANALYZE
not_moved OtherTables 'a meta of two rows' "INSERT INTO meta VALUES ('mark', 1)"
not_moved OtherTables 'no table of holds' 'DROP TABLE hold'
no_register 'no file' migrate "$place/room.db"
: >"$place/room.db"
no_register 'an empty file' migrate "$place/room.db"
cp "$files/points.csv" "$place/room.db"
keeps_file Sql 'a text for a database' migrate "$place/room.db"
rm -f "$place"/*

# Whether rows fit one another is asked where a register is opened: one that does not fit is moved, and refused then.
cp "$work/version-1.db" "$place/room.db"
write_to "$place/room.db" "DELETE FROM hold WHERE kind = 'HeldOpen' AND place = 'S2'"
try 'migrate, a granted clearance without a HeldOpen' 0 "$moved" '' migrate "$place/room.db"
each_reader keeps_file 'BadRow hold' 'a granted clearance without a HeldOpen, moved' "$place/room.db"
rm -f "$place"/*
