# The streams of a process: standard output full or closed in each subcommand, a pipe that nobody reads, standard error
# that cannot be written, and standard input that cannot be read. Read by tools/try-program.

# each_subcommand COMMAND..: COMMAND with a title and the words of each line that prints, the files being new ones.
each_subcommand() {
  cp "$work/one" "$work/input"
  new_register "$work/run.db"
  new_register "$work/plain.db"
  new_register "$work/parted.db" "$work/parted"
  rm -f "$work/made.db"* "$work/begun.db"* "$work/begun" "$work/given" "$work/parted-2"
  "$@" 'help' --help
  "$@" 'the version' --version
  "$@" 'fence' fence "$files/sections.csv" "$files/points.csv" L2 S2 S3
  "$@" 'init' init "${three[@]}"
  "$@" 'init --db' init "${three[@]}" --db "$work/made.db"
  "$@" 'init --journal' init "${three[@]}" --db "$work/begun.db" --journal "$work/begun"
  "$@" 'migrate --journal' migrate "$work/plain.db" --journal "$work/given"
  "$@" 'run' run "${three[@]}"
  "$@" 'run --db' run --db "$work/run.db"
  "$@" 'order' order "$work/ordered.db" JONES/1 1
  "$@" 'board' board "$work/ordered.db"
  "$@" 'journal' journal "$work/journal"
  "$@" 'journal --commands' journal "$work/journal" --commands
  "$@" 'journal --next' journal "$work/parted" --db "$work/parted.db" --next "$work/parted-2"
  "$@" 'verify' verify "$work/kept.db" "$work/journal" "${three[@]}"
  "$@" 'verify --from' verify "$work/kept.db" "$work/journal" --from "$work/kept.db"
  "$@" 'serve' serve "$work/ordered.db" --port "$port" --count 1
  : >"$work/input"
}

full_output() {
  local title=$1
  shift
  : >"$work/output"
  bounded "$@" >/dev/full 2>"$work/errors" <"$work/input"
  judge "$title, standard output full" 1 '' "$no_output" $?
}

closed_output() {
  local title=$1
  shift
  : >"$work/output"
  bounded "$@" >&- 2>"$work/errors" <"$work/input"
  judge "$title, standard output closed" 1 '' "$no_output" $?
}

# A pipe whose reader has ended: a writer is stopped by no signal.
unread_output() {
  local title=$1
  shift
  : >"$work/output"
  mkfifo "$work/pipe"
  exec 8<>"$work/pipe" 9>"$work/pipe" 8>&-
  bounded "$@" >&9 2>"$work/errors" <"$work/input"
  judge "$title, standard output that nobody reads" 1 '' "$no_output" $?
  exec 9>&-
  rm "$work/pipe"
}

# What was to be kept is kept: registers and journals are made, the command was run.
left_by_output() {
  try "$1: init --db made the register" 0 "BOARD 0$feed" '' board "$work/made.db"
  try "$1: the command of run --db was carried out" 0 "~BOARD 1$feed" '' board "$work/run.db"
  with_input /dev/null try "$1: init --journal made both" 0 '' '' run --db "$work/begun.db" --journal "$work/begun"
  with_input /dev/null try "$1: migrate --journal gave the register its journal" 0 '' '' \
    run --db "$work/plain.db" --journal "$work/given"
  with_input /dev/null try "$1: journal --next began the next part" 0 '' '' \
    run --db "$work/parted.db" --journal "$work/parted-2"
}

each_subcommand full_output
left_by_output 'standard output full'
each_subcommand closed_output
left_by_output 'standard output closed'
each_subcommand unread_output
left_by_output 'standard output that nobody reads'

# What cannot be written to standard error is lost, and the status is the same.
lost_errors() {
  local title=$1 status=$2
  shift 2
  : >"$work/errors"
  bounded "$@" >"$work/output" 2>/dev/full
  judge "$title, standard error full" "$status" '' '' $?
  bounded "$@" >"$work/output" 2>&-
  judge "$title, standard error closed" "$status" '' '' $?
  : >"$work/output"
  bounded "$@" <&- >&- 2>&-
  judge "$title, all three streams closed" "$status" '' '' $?
}

lost_errors 'a fault' 1 fence "$work/none.csv" "$files/points.csv" L2
lost_errors 'an unknown subcommand' 2 unlock
cp "$work/semicolons.csv" "$work/no-database"
lost_errors 'no register' 1 board "$work/no-database"

# Standard input that cannot be read: no command is run. Where it is closed, the first file that the program opens gets
# its number.
unread_input() {
  local title=$1
  shift
  bounded "$@" <"$work" >"$work/output" 2>"$work/errors"
  judge "$title, standard input a directory" 1 '' "fault: input ReadFailed$feed" $?
  bounded "$@" 0>"$work/written" >"$work/output" 2>"$work/errors"
  judge "$title, standard input that can be written alone" 1 '' "fault: input ReadFailed$feed" $?
  bounded "$@" <&- >"$work/output" 2>"$work/errors"
  judge "$title, standard input closed" 1 '' "fault: input ReadFailed$feed" $?
}

cp "$work/run.db" "$work/before.db"
unread_input 'run' run "${three[@]}"
unread_input 'run --db' run --db "$work/run.db"
expect 'the database is unchanged' cmp "$work/run.db" "$work/before.db"

# A pipe that ends is read to its end; a line that is cut is a line.
head -c 80 "$work/two" | bounded run "${three[@]}" >"$work/output" 2>"$work/errors"
judge 'standard input a pipe that ends within a line' 0 "~$feed{\"fault\":\"NotJson\"}$feed" '' "${PIPESTATUS[1]}"
bounded run "${three[@]}" <"$work/one" | cat >"$work/output"
judge 'standard output a pipe' 0 "$requested$feed" '' "${PIPESTATUS[0]}"
