# To be sourced: the least of some runs of a command, by the processor's time of it in seconds.
TIMEFORMAT='%U %S'

least() { # RUNS COMMAND..
  local runs=$1
  shift
  for _ in $(seq "$runs"); do
    { time "$@" > /dev/null; } 2>&1
  done | awk '{ spent = $1 + $2; if (NR == 1 || spent < best) best = spent } END { print best }'
}
