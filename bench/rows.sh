#!/usr/bin/env bash
# Takes a thousand steps from a sequent of 60,000 nodes, one that leaves the large formula alone and one
# that rewrites at every leaf of it, copies the sequent as often, and prints the time of each and its
# ratio to the copy, which fails above 3. What was made is freed within the time; the time of a run that
# only builds the sequent is taken off. Each time is the processor's, the least of three runs.
set -eu
program=$("$(dirname "$0")/built.sh")
turns=${1:-1000}
. "$(dirname "$0")/least.sh"

timed() { # WORD
  least 3 "$program" rows "$1" "$turns"
}

built=$(timed nothing)
copied=$(timed copy)
taken=$(timed noti)
rewritten=$(timed rew)
awk -v b="$built" -v c="$copied" -v t="$taken" -v r="$rewritten" -v n="$turns" 'BEGIN {
  copy = c - b; noti = (t - b) / copy; rew = (r - b) / copy
  printf "copy: %.3f ms\nnoti: %.3f ms, ratio %.2f\nrew: %.3f ms, ratio %.2f\n", copy * 1e3 / n, (t - b) * 1e3 / n, noti, (r - b) * 1e3 / n, rew
  exit !(copy > 0 && noti <= 3 && rew <= 3)
}'
