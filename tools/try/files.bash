# Files that are not what a file is to be: a directory, a pipe that ends, a file that shrinks while it is read, one
# that may not be read, a file system that may not be written. Read by tools/try-program.

room=$work/files
mkdir "$room"
cp "${three[@]}" "$room"

# A directory in the place of each file, and of a database.
for place in 0 1 2; do
  given=("${three[@]}")
  given[place]=$work
  name=$(basename "${three[place]}" .csv)
  keeping "$room" try "init, a directory for $name" 1 '' "fault: $name ReadFailed$feed" init "${given[@]}" --db "$room/new.db"
  try "run, a directory for $name" 1 '' "fault: $name ReadFailed$feed" run "${given[@]}"
done
keeping "$room" try 'init, a directory for the database' 1 '' "$no_store" init "${three[@]}" --db "$room"
keeping "$room" try 'init, a database in a file' 1 '' "$no_store" init "${three[@]}" --db "$room/staff.csv/new.db"
keeping "$room" try 'init, a database in no directory' 1 '' "$no_store" init "${three[@]}" --db "$room/none/new.db"
no_journal="fault: journal OpenFailed$feed"
for journal in "$room" "$room/staff.csv/journal" "$room/none/journal"; do
  keeping "$room" try "init, its journal at $journal" 1 '' "$no_journal" \
    init "${three[@]}" --db "$room/new.db" --journal "$journal"
done

# from_pipes TITLE STATUS OUTPUT ERRORS COUNT: an import whose three files are pipes. The points' pipe ends after
# COUNT bytes, and the others at their end.
from_pipes() {
  local title=$1 status=$2 output=$3 errors=$4 count=$5
  bounded init <(cat "${three[0]}") <(head -c "$count" "${three[1]}") <(cat "${three[2]}") \
    >"$work/output" 2>"$work/errors"
  judge "$title" "$status" "$output" "$errors" $?
}

from_pipes 'three pipes' 0 "$imported" '' 1000
from_pipes 'a pipe without a byte' 1 '' "fault: points Header$feed" 0
from_pipes 'a pipe that ends within the header' 1 '' "fault: points Header$feed" 30
from_pipes 'a pipe that ends after the header' 0 "sections 5 points 0 staff 6$feed" '' 39
from_pipes 'a pipe that ends within the first row' 1 '' "fault: points FieldCount row 1$feed" 45
from_pipes 'a pipe that ends within a word' 1 '' "fault: points BadWord row 1 column 6$feed" 57
bounded fence "$files/sections.csv" <(cat "$files/points.csv") L2 S2 S3 >"$work/output" 2>"$work/errors"
judge 'a fence from a pipe' 0 "L2$feed" '' $?
bounded journal <(cat "$work/journal") >"$work/output" 2>"$work/errors"
judge 'a log from a pipe' 0 "$(bounded journal "$work/journal")$feed" '' $?
bounded journal <(head -n 1 "$work/journal") --part <(tail -n +2 "$work/journal") >"$work/output" 2>"$work/errors"
judge 'a further part without a first line, from a pipe' 1 '' "fault: journal BadLine 0$feed" $?
bounded verify "$work/kept.db" <(cat "$work/journal") "${three[@]}" >"$work/output" 2>"$work/errors"
judge 'a comparison with a journal from a pipe' 0 "verified 2 commands$feed" '' $?
mkfifo "$room/pipe"
keeping "$room" try 'init, a pipe for the database' 1 '' "$no_store" init "${three[@]}" --db "$room/pipe"
keeping "$room" try 'init, a pipe for the journal' 1 '' "$no_journal" init "${three[@]}" --db "$room/new.db" --journal "$room/pipe"
try 'run, a pipe for the journal' 1 '' "$no_journal" run --db "$work/kept.db" --journal "$room/pipe"
rm "$room/pipe"

# A file that shrinks to nothing after the first bytes that are read of it: those bytes are what it had.
if command -v gcc >/dev/null && gcc -O1 -shared -fPIC -o "$work/shrinks.so" "$tools/try/shrinks.c"; then
  # shrinks TITLE STATUS OUTPUT ERRORS NAME COUNT: an import of which this file has COUNT bytes, and then no more.
  shrinks() {
    local title=$1 status=$2 output=$3 errors=$4 name=$5 count=$6
    cp "${three[@]}" "$room"
    LD_PRELOAD=$work/shrinks.so SHRINKS=$room/$name SHRINKS_AT=$count \
      bounded init "$room/sections.csv" "$room/points.csv" "$room/staff.csv" >"$work/output" 2>"$work/errors"
    judge "$title" "$status" "$output" "$errors" $?
    expect "$title: it has shrunk" test ! -s "$room/$name"
  }
  shrinks 'sections shrink after L1' 1 '' "fault: network UnknownEnd row 2$feed" sections.csv 27
  shrinks 'sections shrink within a row' 1 '' "fault: sections FieldCount row 2$feed" sections.csv 23
  shrinks 'points shrink within the header' 1 '' "fault: points Header$feed" points.csv 20
  shrinks 'staff shrinks before BOSS' 1 '' "fault: staff UnknownSupervisor row 4$feed" staff.csv 93
  shrinks 'staff shrinks after DALE' 0 "sections 5 points 5 staff 3$feed" '' staff.csv 63
  cp "${three[@]}" "$room"
else
  left_out 'a file that shrinks' 'gcc is not installed'
fi

# As somebody who may not read or write: root may do all, so it runs the program as nobody.
if [ "$(id -u)" -ne 0 ]; then
  as_nobody() { timeout 60 "$program" "$@"; }
elif command -v setpriv >/dev/null; then
  chmod 711 "$work"
  cp "$program" "$work/gridclear"
  as_nobody() { timeout 60 setpriv --reuid=65534 --regid=65534 --clear-groups "$work/gridclear" "$@"; }
fi

# barred TITLE OUTPUT ERRORS WORD..: a run by somebody who may not, which ends with status 1 and changes nothing.
barred() {
  local title=$1 errors=$2
  shift 2
  keeping "$room" barred_run "$title" "$errors" "$@"
}
barred_run() {
  local title=$1 errors=$2
  shift 2
  as_nobody "$@" >"$work/output" 2>"$work/errors" <"$work/input"
  judge "$title" 1 '' "$errors" $?
}

if [ "$(type -t as_nobody)" = function ]; then
  barred_each() {
    barred "$1: run --db" "$no_store" run --db "$room/room.db"
    barred "$1: order" "$no_store" order "$room/room.db" JONES/1 1
    barred "$1: board" "$no_store" board "$room/room.db"
    barred "$1: serve" "$no_store" serve "$room/room.db" --port "$port" --count 1
  }
  cp "$work/ordered.db" "$room/room.db"
  chmod 755 "$room"
  chmod 644 "$room"/*
  given=("$room/sections.csv" "$room/points.csv" "$room/staff.csv")
  for name in sections points staff; do
    chmod 0 "$room/$name.csv"
    barred "$name that may not be read" "fault: $name ReadFailed$feed" init "${given[@]}" --db "$room/new.db"
    chmod 644 "$room/$name.csv"
  done
  chmod 555 "$room"
  barred 'init in a folder that may not be written' "$no_store" init "${given[@]}" --db "$room/new.db"
  if [ "$(id -u)" -ne 0 ]; then chmod 444 "$room/room.db"; fi
  barred_each 'a database that may not be written'
  chmod 0 "$room/room.db"
  barred_each 'a database that may not be read'
  chmod 777 "$room"
  cp "$work/kept.db" "$room/room.db"
  cp "$work/journal" "$room/journal"
  chmod 666 "$room/room.db"
  chmod 444 "$room/journal"
  barred_run 'a run with a journal that may not be written' "$no_journal" run --db "$room/room.db" --journal "$room/journal"
  chmod 0 "$room/journal"
  barred_run 'a run with a journal that may not be read' "$no_journal" run --db "$room/room.db" --journal "$room/journal"
  barred_run 'a log of a journal that may not be read' "$no_journal" journal "$room/journal"
  barred_run 'a comparison with a journal that may not be read' "$no_journal" verify "$room/room.db" "$room/journal" "${given[@]}"
  chmod 555 "$room"
  barred_run 'a journal in a folder that may not be written' "$no_journal" \
    init "${given[@]}" --db "$room/new.db" --journal "$room/new"
  chmod 755 "$room"
  chmod 644 "$room/journal"
  expect 'the journal is unchanged' cmp "$room/journal" "$work/journal"
  expect 'no other is made' test ! -e "$room/new"
  rm -f "$room"/room.db* "$room"/journal*
else
  left_out 'a file without permission' 'root may read all, and setpriv is not installed'
fi

# A file system that may not be written, in a mount space of its own: no register can be opened, since each is opened
# to be written.
if unshare -Urm true 2>/dev/null && cp "$work/ordered.db" "$room/room.db" &&
  unshare -Urm mount -t tmpfs none "$room" 2>/dev/null; then
  # read_only TITLE WORD..: the words are run in a folder that has the files and may not be written
  read_only() {
    local title=$1
    shift
    mkdir "$work/mount"
    unshare -Urm bash -c 'mount -t tmpfs none "$2" && cp "$1"/* "$2" && mount -o remount,ro "$2" && cd "$2" &&
      shift 2 && exec timeout 60 "$@"' read_only "$room" "$work/mount" "$program" "$@" \
      >"$work/output" 2>"$work/errors" <"$work/input"
    judge "$title on a file system that may not be written" 1 '' "${ends:-$no_store}" $?
    rmdir "$work/mount"
  }
  read_only 'init --db' init sections.csv points.csv staff.csv --db new.db
  ends=$no_journal read_only 'init --journal' init sections.csv points.csv staff.csv --db new.db --journal new
  read_only 'run --db' run --db room.db
  read_only 'order' order room.db JONES/1 1
  read_only 'board' board room.db
  read_only 'serve' serve room.db --port "$port" --count 1
  rm "$room/room.db"
else
  left_out 'a read-only file system' 'this machine makes no mount space for a user'
fi
