#!/usr/bin/env bash
# Opens a term of 60,000 nodes a thousand times, copies it as often, and prints the time per node of
# both, what was made being freed included, and the ratio. The time of a run that only builds the term
# is taken off. Each time is the processor's, the least of three runs.
set -eu
program=$("$(dirname "$0")/built.sh")
turns=${1:-1000}
nodes=60000
. "$(dirname "$0")/least.sh"

timed() { # WORD
  least 3 "$program" substitution "$1" "$turns"
}

built=$(timed nothing)
opened=$(timed open)
copied=$(timed copy)
awk -v b="$built" -v o="$opened" -v c="$copied" -v n="$((turns * nodes))" 'BEGIN {
  printf "open: %.1f ns per node\ncopy: %.1f ns per node\nratio: %.2f\n", (o - b) * 1e9 / n, (c - b) * 1e9 / n, (o - b) / (c - b)
}'
