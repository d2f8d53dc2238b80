#!/usr/bin/env bash
# Times the reading and the writing of certificates of 10 MiB and 80 MiB. Making the text is taken
# off, and so is reading from writing. Each time is the processor's, the least of three runs.
set -eu
program=$("$(dirname "$0")/built.sh")
. "$(dirname "$0")/least.sh"

declare -A spent
for kib in 10240 81920; do
  for word in made read written; do
    spent[$word$kib]=$(least 3 "$program" certificate "$word" "$kib")
  done
done
awk -v ms="${spent[made10240]}" -v rs="${spent[read10240]}" -v ws="${spent[written10240]}" \
    -v ml="${spent[made81920]}" -v rl="${spent[read81920]}" -v wl="${spent[written81920]}" '
  function line(what, small, large) {
    printf "%s: 10 MiB %.0f ms, 80 MiB %.0f ms, ratio %.1f, %.0f MB/s\n", what, small * 1000,
      large * 1000, (small > 0 ? large / small : 0), (large > 0 ? 80 * 1.048576 / large : 0)
  }
  BEGIN { line("reading", rs - ms, rl - ml); line("writing", ws - rs, wl - rl) }'
