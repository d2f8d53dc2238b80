#!/usr/bin/env bash
# Prints crate by crate the lines of definitions, proofs and code, and the processor seconds of the
# gate's run of that crate from what is kept: its proof, tests and edits. `--lines` prints the lines
# alone. To measure from nothing, run it where nothing is kept, on a quiet machine.
set -eu
top=$(cd "$(dirname "$0")/.." && pwd)
cd "$top"

lines_in() { # FOLDER
  if [ -d "$1" ]; then find "$1" -type f \( -name '*.antt' -o -name '*.rt' \) -exec cat {} + | wc -l; else echo 0; fi
}

lowest_first() { # the crates, each behind those it uses
  awk -F: '/^[a-z]/ { gsub(/ staticlib/, "", $1); deps[$1] = $2 }
    function walk(name,  n, parts, i) {
      if (done[name]++) return
      n = split(deps[name], parts, " ")
      for (i = 1; i <= n; i++) if (parts[i] in deps) walk(parts[i])
      print name
    }
    END { for (name in deps) walk(name) }' crates.txt
}

processor_seconds() { # of the children that have ended
  times | tail -1 | awk '{ split($1, u, /[ms]/); split($2, s, /[ms]/); print u[1] * 60 + u[2] + s[1] * 60 + s[2] }'
}

printf '%-18s %7s %7s %7s %9s\n' crate specs proofs src seconds
for name in $(lowest_first); do
  seconds=-
  if [ "${1:-}" != --lines ]; then
    before=$(processor_seconds)
    if ! rt ci "$name" > /dev/null 2>&1; then seconds=failed; else
      after=$(processor_seconds)
      seconds=$(awk -v a="$after" -v b="$before" 'BEGIN { printf "%.0f", a - b }')
    fi
  fi
  printf '%-18s %7s %7s %7s %9s\n' "$name" "$(lines_in "crates/$name/specs")" "$(lines_in "crates/$name/proofs")" "$(lines_in "crates/$name/src")" "$seconds"
done
