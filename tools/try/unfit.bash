# Databases whose rows read, but give a register that no commands lead to: each is refused by the name of the first
# table, in the order network_point, clearance, step, hold, whose rows do not fit the others or the staff. Read by
# tools/try-program, after databases.bash.

# after COUNT PATH: the register that the first commands of the shift leave.
after() {
  new_register "$2"
  head -n "$1" "$files/shift.jsonl" >"$work/commands"
  bounded run --db "$2" <"$work/commands" >/dev/null
}
after 6 "$work/given.db"
after 28 "$work/granted.db"
after 37 "$work/restoring.db"
after 2 "$work/ordered.db"
after 22 "$work/switching.db"
after 23 "$work/switched.db"
for base in given granted restoring; do
  try "the board of a register that is $base" 0 "~BOARD 1$feed" '' board "$work/$base.db"
done

# unfit BASE TABLE TITLE STATEMENT..: the register, to which somebody else has written this.
unfit() {
  local base=$1 table=$2 title=$3
  shift 3
  cp "$work/$base.db" "$place/room.db"
  write_to "$place/room.db" "$@"
  all_refuse "BadRow $table" "$title"
}
of_jones="requester = 'JONES' AND number = 1"
unfit given network_point 'a point in the hand of a clearance that is not there' \
  "UPDATE network_point SET hand_requester = 'KIM', hand_number = 1 WHERE name = 'S3'"
unfit granted network_point 'a point in hand without a step that is given out' \
  "UPDATE network_point SET hand_requester = 'JONES', hand_number = 1 WHERE name = 'S2'"
unfit granted clearance 'a gap in the numbers' "INSERT INTO clearance VALUES ('KIM', 2, 'KIM', 'L3', 'Requested', 100)"
unfit granted clearance 'a clearance without a work section' "UPDATE clearance SET work = NULL WHERE $of_jones"
unfit granted clearance 'a work section that is not in the network' "UPDATE clearance SET work = 'ZZ' WHERE $of_jones"
unfit switching clearance 'a switch order with a work section' "UPDATE clearance SET work = 'L2' WHERE requester = 'OPS'"
unfit given step 'a step given out whose point is in nobody'"'"'s hand' \
  'UPDATE network_point SET hand_requester = NULL, hand_number = NULL'
unfit given step 'a step given out before its turn' "UPDATE step SET state = 'Waiting', reader = NULL WHERE ordinal = 1"
unfit given step 'steps of a clearance that is only asked for' "UPDATE clearance SET phase = 'Requested'"
unfit granted step 'a granted clearance with a step that waits' \
  "UPDATE step SET state = 'Waiting', reader = NULL WHERE $of_jones AND ordinal = 6"
unfit granted step 'steps without their clearance' "DELETE FROM clearance WHERE $of_jones" "DELETE FROM hold"
unfit switching step 'a step at a point that is not in the network' "UPDATE step SET point = 'ZZ' WHERE requester = 'OPS'"
unfit granted step 'an order that does not isolate' "DELETE FROM step WHERE $of_jones AND point = 'S3'"
unfit restoring step 'a granted clearance with restoring steps' "UPDATE clearance SET phase = 'Granted' WHERE $of_jones"
unfit granted hold 'a granted clearance without a HeldOpen' "DELETE FROM hold WHERE kind = 'HeldOpen' AND place = 'S2'"
unfit granted hold 'a granted clearance without a Block' "DELETE FROM hold WHERE kind = 'Block' AND place = 'S3'"
unfit granted hold 'a held point that is closed, so that its fence is live' \
  "UPDATE network_point SET position = 1 WHERE name = 'S2'"
unfit granted hold 'a hold without its clearance' "INSERT INTO hold VALUES ('Tag', 'S2', 'KIM', 1)"
unfit granted hold 'a crew without a ground' "DELETE FROM hold WHERE kind = 'Ground'"
unfit granted hold 'a test outside the fence' "INSERT INTO hold VALUES ('Tested', 'L3', 'JONES', 1)"
unfit granted hold 'a crew of a clearance that is released' "UPDATE clearance SET phase = 'Released' WHERE $of_jones"
unfit restoring hold 'a hold that the restoring steps leave on' "INSERT INTO hold VALUES ('Control', 'S2', 'JONES', 1)"

# The staff has to be able to end each clearance.
unfit granted clearance 'a holder who is not in the staff' "UPDATE clearance SET holder = 'NOBODY' WHERE $of_jones"
unfit granted clearance 'a holder who is in the field' "UPDATE clearance SET holder = 'REED' WHERE $of_jones"
unfit switched step 'a step that is given out, of no round' "UPDATE step SET round = 0 WHERE requester = 'OPS'"
unfit ordered hold 'a released clearance that holds nothing' "UPDATE clearance SET phase = 'Released'"
unfit given step 'steps, and no operator' "DELETE FROM staff WHERE role = 'operator'"
unfit restoring step 'a restoring order with nothing left to do' \
  "UPDATE step SET state = 'Done', reader = 'REED' WHERE round = 2" 'DELETE FROM hold' \
  'UPDATE network_point SET hand_requester = NULL, hand_number = NULL'
unfit granted hold 'a held point, and nobody in the field' "DELETE FROM staff WHERE role = 'field'"

# Only what is open binds: a closed record may name a section, a point and a holder that are gone.
after 53 "$work/closed.db"
opens() {
  cp "$work/closed.db" "$place/room.db"
  write_to "$place/room.db" "$2"
  try "the board, with $1" 0 "~BOARD 0$feed" '' board "$place/room.db"
  rm -f "$place"/*
}
opens 'a closed record whose section is gone' "UPDATE clearance SET work = 'ZZ' WHERE phase = 'Closed' AND work IS NOT NULL"
opens 'a closed record with a step at a point that is gone' "UPDATE step SET point = 'ZZ' WHERE $of_jones AND ordinal = 1"
opens 'a closed record whose holder is gone' "UPDATE clearance SET holder = 'NOBODY' WHERE phase = 'Closed'"

# An administrator puts an older file back, and leaves the newer log beside it. The file has the order, the log the page
# of the clearances alone, on which the order is granted: its steps wait, and nothing is held.
after 2 "$work/mixed.db"
cp "$work/mixed.db" "$work/monday.db"
sed -n 3,21p "$files/shift.jsonl" >"$work/commands"
bounded run --db "$work/mixed.db" <"$work/commands" >/dev/null
: >"$work/printed"
"$program" serve "$work/mixed.db" --port "$port" --count 1000 >"$work/printed" 2>/dev/null &
server=$!
for _ in $(seq 100); do [ -s "$work/printed" ] || sleep 0.1; done
line='{"at":1795509700,"by":"KIM","do":"request","section":"L3"}'
ask 'POST /command HTTP/1.1' "Content-Length: ${#line}" "$line" >/dev/null
kill -9 "$server"
wait "$server" 2>/dev/null
# Each subcommand finds the two files so, since a clean end folds the log into the file, after this fault too.
refuses_mixture() {
  cp "$work/mixed.db-wal" "$place/room.db-wal"
  cp "$work/monday.db" "$place/room.db"
  try "$1, an older file beside the newer log" 1 '' "fault: store BadRow step$feed" "$@"
}
each_reader refuses_mixture "$place/room.db"
rm -f "$place"/*
# Put back as the guide has it, without the log, it opens.
cp "$work/monday.db" "$place/room.db"
try 'the board of the older file alone' 0 "~BOARD 1$feed" '' board "$place/room.db"
rm -f "$place"/*
