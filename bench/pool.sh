#!/usr/bin/env bash
# Puts 125,000 and 1,000,000 nodes into a pool, half of which are there already, and prints the time of
# both and their ratio, which fails at 12 or more. The time of a run that does nothing is taken off. Each
# time is the processor's for ten runs, the least of five, in milliseconds for one run.
set -eu
program=$("$(dirname "$0")/built.sh")
few=${1:-125000}
many=${2:-1000000}
. "$(dirname "$0")/least.sh"

ten() { # WORD COUNT
  for _ in 1 2 3 4 5 6 7 8 9 10; do
    "$program" pool "$1" "$2" > /dev/null
  done
}

# In milliseconds for one run.
timed() { # WORD COUNT
  least 5 ten "$1" "$2" | awk '{ print $1 * 100 }'
}

idle=$(timed nothing "$few")
short=$(timed puts "$few")
long=$(timed puts "$many")
awk -v i="$idle" -v s="$short" -v l="$long" -v f="$few" -v m="$many" 'BEGIN {
  ratio = (s > i) ? (l - i) / (s - i) : 0
  printf "%d puts: %.1f ms\n%d puts: %.1f ms\nratio: %.2f\n", f, s - i, m, l - i, ratio
  exit !(ratio > 0 && ratio < 12)
}'
