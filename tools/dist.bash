# What dist/ holds: the program as the gate proves and builds it, stripped and packed, and SOURCES with the
# kit's line and the sums of the program and of each source that it was built from. Read by tools/gridclear,
# tools/make-dist and .ci/run, which set `top`, the root of the repository.

# Each crate that gridclear builds on, lowest first, and gridclear.
crates_of_program() {
  awk -F: '
    /^[a-z]/ { name = $1; sub(/ .*/, "", name); deps[name] = $2 }
    function visit(name,   list, n, i) {
      if (name in seen || !(name in deps)) return
      seen[name] = 1
      n = split(deps[name], list, " ")
      for (i = 1; i <= n; i++) visit(list[i])
      print name
    }
    END { visit("gridclear") }' "$top/crates.txt"
}

# A line for each source of the program: its sum and its path.
sums_of_sources() {
  (
    cd "$top" || exit 1
    {
      echo crates.txt
      for name in $(crates_of_program); do
        find "crates/$name" -name out -prune -o -type f \( -name '*.rt' -o -name '*.antt' \) -print
      done
    } | LC_ALL=C sort | xargs sha256sum
  )
}

# Whether dist/ was made from the sources of this tree. Both lists are read whole: a pipe that closes early has xargs
# complain after the last line of .ci/run.
dist_is_of_tree() {
  [ -f "$top/dist/SOURCES" ] && [ -f "$top/dist/gridclear.xz" ] &&
    [ "$(grep -E '  (crates\.txt|.*\.(rt|antt))$' "$top/dist/SOURCES")" = "$(sums_of_sources)" ]
}

# The sum of the program that dist/ says it holds, and the kit that built it.
sum_in_dist() { awk '$2 == "gridclear" { print $1 }' "$top/dist/SOURCES"; }
kit_in_dist() { sed -n 's/^kit //p' "$top/dist/SOURCES"; }

# has_sum FILE SUM: whether a file has this sum.
has_sum() { [ -f "$1" ] && echo "$2  $1" | sha256sum -c --status 2>/dev/null; }

# strip_program FROM TO: the program without its symbols, by the kit's own llvm-strip.
strip_program() {
  local kit
  kit=$(dirname "$(rt doc)") || return 1
  (exec -a llvm-strip "$kit/toolchain/bin/clang" --strip-all -o "$2" "$1")
}
