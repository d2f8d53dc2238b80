#!/usr/bin/env bash
# Prints the definition files that the headline rests on, each with its lines, and their number.
# A file rests on each file of definitions that one of its `use` lines names.
set -eu
cd "$(dirname "$0")/../crates"
start=${1:-sq_run/specs/Headline.antt}

files_below() { # FILE: the definition files that its `use` lines name
  sed -n 's/^\(pub \)\?use Rattle\.\([a-z_]*\)\.specs\.\([A-Za-z.]*\).*/\2 \3/p' "$1" |
    while read -r name path; do
      path=${path%.}
      file=$name/specs/${path//./\/}.antt
      while [ ! -f "$file" ] && [ "$file" != "$name/specs.antt" ]; do
        file=${file%/*}.antt
      done
      if [ -f "$file" ]; then echo "$file"; fi
    done
}

seen=$(mktemp)
trap 'rm -f "$seen"' EXIT
waiting=("$start")
while [ "${#waiting[@]}" -gt 0 ]; do
  file=${waiting[0]}
  waiting=("${waiting[@]:1}")
  if grep -qxF "$file" "$seen"; then continue; fi
  echo "$file" >> "$seen"
  while read -r below; do waiting+=("$below"); done < <(files_below "$file")
done
sort "$seen" | xargs wc -l | sed '$d'
echo "$(wc -l < "$seen") files, $(xargs cat < "$seen" | wc -l) lines"
