#!/usr/bin/env bash
# Times `check` on files of swap-like lemmas of about 128 KiB and 1 MiB, and prints the ratio.
# Each time is the least of five runs, in milliseconds.
set -eu
top=$(cd "$(dirname "$0")/.." && pwd)
folder=$(mktemp -d)
trap 'rm -rf "$folder"' EXIT

make_file() { # BYTES NAME
  awk -v most="$1" 'BEGIN {
    text = "abstract b : boolean.\nabstract c : boolean.\n"
    size = length(text)
    printf "%s", text
    for (n = 1; ; n++) {
      text = sprintf("lemma swap%d : b && c => c && b.\nProof.\nintro H.\ndestruct H as B C.\nsplit.\nassumption.\nassumption.\nQed.\n", n)
      if (size + length(text) > most) break
      size += length(text)
      printf "%s", text
    }
  }' > "$folder/$2"
}

least() { # FILE
  local best= began ended spent
  for _ in 1 2 3 4 5; do
    began=$(date +%s%N)
    "$top/squirrel" check "$1" > "$folder/out"
    ended=$(date +%s%N)
    spent=$(( (ended - began) / 10000 ))
    if [ -z "$best" ] || [ "$spent" -lt "$best" ]; then best=$spent; fi
  done
  echo "$best"
}

make_file 131072 small.sq
make_file 1048576 large.sq
"$top/squirrel" check "$folder/small.sq" > /dev/null
small=$(least "$folder/small.sq")
large=$(least "$folder/large.sq")
awk -v s="$small" -v l="$large" 'BEGIN { printf "128 KiB: %.2f ms\n1 MiB: %.2f ms\nratio: %.1f\n", s / 100, l / 100, l / s }'
