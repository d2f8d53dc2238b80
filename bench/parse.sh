#!/usr/bin/env bash
# Times the lexer, and the lexer with the parser of formulas, on one formula of 128 KiB and of 1 MiB: a
# call with deep arguments, with long conjunctions, and with identifiers; and the parser of sentences on
# one parallel of many parts, one deep process, and many short sentences. Each time is the processor's,
# the least of five runs, in milliseconds.
set -eu
program=$("$(dirname "$0")/built.sh")
. "$(dirname "$0")/least.sh"

compare() {
  small=$(least 5 "$program" "$1" "$2" 128)
  large=$(least 5 "$program" "$1" "$2" 1024)
  awk -v n="$1 $2" -v s="$small" -v l="$large" 'BEGIN {
    printf "%s: 128 KiB %.0f ms, 1 MiB %.0f ms, ratio %.1f\n", n, s * 1000, l * 1000, (s > 0 ? l / s : 0)
  }'
}

for subject in lexing parsing; do
  for word in nested conjunctions tokens; do
    compare "$subject" "$word"
  done
done
for word in parallel process short; do
  compare sentences "$word"
done
