# Command lines and what they answer: words, files, inputs at the limit and beyond it. Read by tools/try-program.

try 'help' 0 '~Usage: gridclear' '' --help
try 'the version' 0 "gridclear 1.0.0$feed" '' --version
try 'no words' 2 '' '~Usage: gridclear'
try 'an unknown subcommand' 2 '' '~Usage: gridclear' unlock
try 'a fence' 0 "L2$feed" '' fence "$files/sections.csv" "$files/points.csv" L2 S2 S3
try 'a missing file' 1 '' "fault: sections ReadFailed$feed" fence "$work/none.csv" "$files/points.csv" L2
printf 'section;source\n' >"$work/semicolons.csv"
try 'a fault of the first file, and no second one' 1 '' "fault: sections Header$feed" \
  fence "$work/semicolons.csv" "$work/none.csv" L2
try 'an unknown section' 1 '' "fault: network UnknownSection ABCDEFGHIJKLMNOPQRSTUVWX$feed" \
  fence "$files/sections.csv" "$files/points.csv" ABCDEFGHIJKLMNOPQRSTUVWX
try 'an import' 0 "$imported" '' init "${three[@]}"
try 'an import of too few files' 2 '' '~Usage: gridclear init' init "$files/sections.csv" "$files/points.csv"
printf '{\n\n%s\n' "$request" >"$work/lines"
with_input "$work/lines" try 'a run' 0 "{\"fault\":\"NotJson\"}$feed$requested$feed" '' run "${three[@]}"
try 'a run over two files' 2 '' '~error: run takes three files' run "$files/sections.csv" "$files/points.csv"
try 'an import with a journal and no database' 2 '' "error: init takes --journal FILE only with --db FILE$feed" \
  init "${three[@]}" --journal "$work/none"
try 'a run over files with a journal' 2 '' "error: run takes --journal FILE only with --db FILE and no files$feed" \
  run "${three[@]}" --journal "$work/none"
next_usage="error: journal takes --next FILE with --db DB, and then no other argument but FILE$feed"
try 'a next part of no register' 2 '' "$next_usage" journal "$work/journal" --next "$work/none"
try 'a journal of a register, and no next part' 2 '' "$next_usage" journal "$work/journal" --db "$work/kept.db"
for word in JONES/1 --commands --offset=60 "--part=$work/journal"; do
  try "a next part, and $word" 2 '' "$next_usage" \
    journal "$work/journal" "$word" --db "$work/kept.db" --next "$work/none"
done
try 'a next part twice' 2 '' '~--next' journal "$work/journal" --db "$work/kept.db" --next "$work/none" --next "$work/none"
expect 'no journal was begun' test ! -e "$work/none"
try 'an argument that is no text' 2 '' "error: an argument is not UTF-8 text$feed" fence $'\xFF'

# Inputs at the limit and beyond it: no command of a longer one is run.
new_register "$work/limit.db"
{
  printf '%s\n' "$request"
  head -c 16777162 /dev/zero | tr '\0' '\n'
} >"$work/longest"
with_input "$work/longest" try 'the longest input' 0 "$requested$feed" '' run --db "$work/limit.db"
cp "$work/limit.db" "$work/before.db"
echo >>"$work/longest"
with_input "$work/longest" try 'an input that is too long' 1 '' "fault: input TooLong$feed" run --db "$work/limit.db"
expect 'the database is unchanged' cmp "$work/limit.db" "$work/before.db"
with_input "$work/longest" try 'an input that is too long, in memory' 1 '' "fault: input TooLong$feed" run "${three[@]}"
rm "$work/longest"
try 'no command of it was run' 0 "~BOARD 1$feed" '' board "$work/limit.db"

# Many commands as one list; and a database that fails in the middle of them, by a limit on the size of files: the
# replies before the fault are printed, their commands were carried out, and the others were not run.
yes "$request" | head -n 10000 >"$work/many"
bounded run "${three[@]}" <"$work/many" >"$work/replies" 2>"$work/errors"
found=$?
sed -n '1p;9999,10000p' "$work/replies" >"$work/output"
judge 'ten thousand requests by one requester' 0 "$requested
{\"card\":{\"clearance\":\"JONES/9999\",\"done\":0,\"holder\":\"JONES\",\"phase\":\"Requested\",\"round\":0,\"steps\":0},\"reply\":\"accepted\"}
{\"number\":4,\"refusal\":\"TOO_MANY_CLEARANCES\",\"reply\":\"refused\"}
" '' "$found"
new_register "$work/full.db"
head -n 400 "$work/many" >"$work/some"
(trap '' XFSZ && ulimit -f 400 && bounded run --db "$work/full.db" <"$work/some" >"$work/replies" 2>"$work/errors")
found=$?
replies=$(wc -l <"$work/replies")
grep -v '"reply":"accepted"}$' "$work/replies" >"$work/output"
judge 'a database that fails in the middle of a run' 1 '' "$no_store" "$found"
bounded board "$work/full.db" >"$work/output" 2>"$work/errors"
judge "the board after its $replies replies" $((replies == 0 || replies == 400)) "~BOARD $replies$feed" '' $?

# The register is opened before a clearance is read.
try 'an order of no register' 1 '' "$no_store" order "$work/none.db" JONES/01 9
