# Warnings about files that `init` accepts. Read by tools/try-program.

room=$work/check
mkdir "$room"

# network SECTION.. -- POINT.. -- EMPLOYEE..: the three files of these rows.
network() {
  local file=sections
  printf 'section,source\n' >"$room/sections.csv"
  printf 'point,from,to,lockable,remote,position\n' >"$room/points.csv"
  printf 'employee,role,supervisor\n' >"$room/staff.csv"
  for row; do
    case $row,$file in
      --,sections) file=points ;;
      --,*) file=staff ;;
      *) printf '%s\n' "$row" >>"$room/$file.csv" ;;
    esac
  done
}

# warnings TITLE LINE.. -- ROW..: what `check` prints of the files of these rows, which `init` accepts.
warnings() {
  local title=$1 lines=''
  shift
  while [ "$1" != -- ]; do
    lines+=$1$feed
    shift
  done
  shift
  network "$@"
  try "$title, which init accepts" 0 '~sections ' '' init "$room/sections.csv" "$room/points.csv" "$room/staff.csv"
  keeping "$room" try "$title" 0 "$lines" '' check "$room/sections.csv" "$room/points.csv" "$room/staff.csv"
}

joined=(N1,yes W2,no -- 'TIE,N1,W2,yes,no,closed')
team=(OPS,operator, REED,field, BIRCH,charge,HOLM HOLM,charge,BIRCH)

warnings 'nothing to warn of' -- "${joined[@]}" -- "${team[@]}"
warnings 'no source' 'no section is a source' 'section N1 is reached by no source' 'section W2 is reached by no source' \
  -- N1,no W2,no -- 'TIE,N1,W2,yes,no,closed' -- "${team[@]}"
warnings 'no operator' 'no employee is an operator' -- "${joined[@]}" -- "${team[@]:1}"
warnings 'no field employee' 'no employee is a field employee' -- "${joined[@]}" -- OPS,operator, "${team[@]:2}"
warnings 'no staff' 'no employee is an operator' 'no employee is a field employee' -- "${joined[@]}" --
warnings 'a holder without a supervisor' 'employee BIRCH may hold a clearance and has no supervisor' \
  -- "${joined[@]}" -- OPS,operator, REED,field, BIRCH,charge,
warnings 'a section that no point joins' 'section YARD is joined by no point' 'section YARD is reached by no source' \
  -- "${joined[@]:0:2}" YARD,no "${joined[@]:2}" -- "${team[@]}"
warnings 'a source that no point joins' 'section YARD is joined by no point' \
  -- "${joined[@]:0:2}" YARD,yes "${joined[@]:2}" -- "${team[@]}"
warnings 'sections that no source reaches' 'section E3 is reached by no source' 'section YARD is reached by no source' \
  -- "${joined[@]:0:2}" E3,no YARD,no "${joined[@]:2}" 'BUS,E3,YARD,yes,yes,open' -- "${team[@]}"
warnings 'an open point is a way for a source' -- N1,yes W2,no -- 'TIE,W2,N1,yes,yes,open' -- "${team[@]}"
warnings 'a point that nothing can lock' 'point TIE can be locked by nothing' \
  -- N1,yes W2,no -- 'TIE,N1,W2,no,yes,closed' -- "${team[@]}"

# Names that differ by one letter: one in place of another byte, one more at the front, within, or at the end. Digits and
# hyphens are no letters, and names of two kinds are not compared.
warnings 'names that differ by one letter' 'sections N1 and NI differ by one letter' 'sections N2 and NI differ by one letter' \
  'points BUS and BUSH differ by one letter' 'points BUS and BUST differ by one letter' \
  'points BUSH and BUST differ by one letter' \
  'employees BIRCH and BRCH differ by one letter' 'employees HOLM and OLM differ by one letter' \
  -- N1,yes NI,no N2,no N-1,no -- BUST,N1,NI,yes,no,open BUS,NI,N2,yes,no,open BUSH,N2,N-1,yes,no,open \
  -- OPS,operator, REED,field, BIRCH,charge,HOLM BRCH,charge,HOLM HOLM,charge,BIRCH OLM,field,
warnings 'names that differ by more' -- ABC,yes BAC,no BC-A,no -- 'AB,ABC,BAC,yes,no,open' 'BA,BAC,BC-A,yes,no,open' -- "${team[@]}"

# The worked network, as it is, with CR LF, and with each field in quotes.
worked='employee BOSS may hold a clearance and has no supervisor
employee KIM may hold a clearance and has no supervisor
point T1 can be locked by nothing
sections G and H differ by one letter
points S1 and T1 differ by one letter
'
try 'the worked network' 0 "$worked" '' check "${three[@]}"
for name in sections points staff; do
  sed 's/$/\r/' "$files/$name.csv" >"$room/$name.csv"
  sed 's/[^,]*/"&"/g' "$files/$name.csv" >"$room/quoted-$name.csv"
done
try 'the worked network with CR LF' 0 "$worked" '' check "$room"/{sections,points,staff}.csv
try 'the worked network in quotes' 0 "$worked" '' check "$room"/quoted-{sections,points,staff}.csv

# What `init` does not accept: the same status and line, and nothing is printed.
refused() {
  local title=$1
  shift
  bounded init "$@" >"$work/output" 2>"$work/refusal"
  expect "$title: init refuses it" test "$?" -eq 1
  try "$title" 1 '' "$(cat "$work/refusal")$feed" check "$@"
}
refused 'a file that is not there' "$room/none.csv" "${three[@]:1}"
refused 'points in the place of sections' "${three[1]}" "${three[1]}" "${three[2]}"
printf 'section,source\ng,yes\n' >"$room/small.csv"
refused 'a small letter in a name' "$room/small.csv" "${three[@]:1}"
printf 'section,source\nG,yes\nG,no\n' >"$room/twice.csv"
refused 'a section twice' "$room/twice.csv" "${three[@]:1}"
printf 'employee,role,supervisor\nKIM,charge,KIM\n' >"$room/own.csv"
refused 'an employee who is their own supervisor' "${three[@]:0:2}" "$room/own.csv"
try 'too few files' 2 '' '~Usage: gridclear check' check "${three[@]:0:2}"
try 'a database' 2 '' '~Usage: gridclear check' check "${three[@]}" --db "$room/new.db"

# The greatest network and staff: 5,000 sections and 10,000 points in a ring and across it, 2,000 employees.
awk -v room="$room" 'BEGIN {
  print "section,source" >(room "/sections.csv")
  print "point,from,to,lockable,remote,position" >(room "/points.csv")
  print "employee,role,supervisor" >(room "/staff.csv")
  for (i = 0; i < 5000; i++) print "LINE-" 1000 + i (i == 0 ? ",yes" : ",no") >(room "/sections.csv")
  for (i = 0; i < 5000; i++) print "RING-" 1000 + i ",LINE-" 1000 + i ",LINE-" 1000 + (i + 1) % 5000 ",yes,no,closed" >(room "/points.csv")
  for (i = 0; i < 5000; i++) print "CROSS-" 1000 + i ",LINE-" 1000 + i ",LINE-" 1000 + (i + 2500) % 5000 ",yes,no,open" >(room "/points.csv")
  for (i = 0; i < 2000; i++) print "STAFF-" 1000 + i "," (i == 0 ? "operator," : i == 1 ? "field," : "charge,STAFF-1000") >(room "/staff.csv")
}'
try 'the greatest network and staff' 0 '' '' check "$room"/{sections,points,staff}.csv
