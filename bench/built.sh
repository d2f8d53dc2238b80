#!/usr/bin/env bash
# Prints the path of the benchmark program. It is proved and built first where that is still to be done.
set -eu
top=$(cd "$(dirname "$0")/.." && pwd)
program=$top/crates/squirrel_bench/out/squirrel_bench

is_built() {
  [ -x "$program" ] || return 1
  [ -z "$(find "$top/crates" "$top/crates.txt" -name out -prune -o -type f -newer "$program" -print -quit)" ]
}

if ! is_built; then
  rm -f "$program"
  log=$(mktemp)
  trap 'rm -f "$log"' EXIT
  # Without words the program ends with status 2.
  (cd "$top/crates/squirrel_bench" && rt run --) > "$log" 2>&1 || true
  if ! [ -x "$program" ]; then
    cat "$log" >&2
    exit 70
  fi
fi
echo "$program"
