#!/usr/bin/env bash
# Measures jobs of many stages: chains of shuffles, each of which reads the one before it.
#
#   bench/chains.sh [SHUFFLES..]      lengths of chains, 60, 120 and 240 where none is named
#
# Each shuffle is a `repartition` of four rows in one partition, so a job has as many stages of one
# task as shuffles and one more, and nothing takes time but the scheduler and what a task takes
# whatever it does. One executor runs them. Before a chain is measured its output is looked at.
#
# The table has user and system milliseconds of one run, the least of five rounds of twenty runs,
# in turn with the others, what that is for each shuffle in microseconds, and the ratio to the row
# above: where the lengths double it is two if the time grows with the length alone, and four if
# with its square. With valgrind it has the instructions of one run too, which other work on the
# machine doesn't change.
#
# It needs the built program, or another one as SPARK_RUN. Ends with 1 where an output is wrong.
set -euo pipefail

here=$(cd "$(dirname "$0")" && pwd)
program=$(realpath "${SPARK_RUN:-$here/../crates/spark_run/out/spark_run}")
rounds=5
runs=20
[ $# -gt 0 ] || set -- 60 120 240

if [ ! -x "$program" ]; then
  echo "bench: $program isn't built: make run builds it" >&2
  exit 1
fi
scratch=$(mktemp -d)
trap 'rm -rf "$scratch"' EXIT

# Prints a script with a chain of so many shuffles.
chain() {
  local at
  echo "n0 = parallelize 1 1 2 3 4"
  for ((at = 1; at <= $1; at++)); do echo "n$at = repartition n$((at - 1)) 1"; done
  echo "count n$1"
}

# Runs the chain of a length.
run_chain() {
  "$program" run "$scratch/$1.spark" --executors 1
}

# Runs a chain many times: the user and system milliseconds of one run are added to a file.
measure_chain() {
  local TIMEFORMAT="%U %S" at
  { time for ((at = 0; at < runs; at++)); do run_chain "$1" >/dev/null; done; } 2>&1 |
    awk -v runs="$runs" '{ print ($1 + $2) * 1000 / runs }' >>"$scratch/$1.ms"
}

# How many million instructions a run of a chain takes, or nothing where there is no valgrind.
millions() {
  command -v valgrind >/dev/null || return 0
  valgrind --tool=callgrind --callgrind-out-file=/dev/null \
    "$program" run "$scratch/$1.spark" --executors 1 2>&1 >/dev/null |
    awk '/Collected/ { printf "%.1f", $NF / 1e6 }'
}

for length in "$@"; do
  chain "$length" >"$scratch/$length.spark"
  if [ "$(run_chain "$length")" != 4 ]; then
    echo "bench: a chain of $length shuffles has another output" >&2
    exit 1
  fi
done
for ((round = 0; round < rounds; round++)); do
  for length in "$@"; do measure_chain "$length"; done
done

echo "$(date +%F), $(nproc) processors, load $(cut -d' ' -f1 /proc/loadavg)"
echo
echo "| shuffles | ms | us for each | to the row above | million instructions | to the row above |"
echo "|---|---|---|---|---|---|"
for length in "$@"; do
  echo "$length $(sort -n "$scratch/$length.ms" | head -1) $(millions "$length")"
done | awk '{
  slower = more = "-"
  if (NR > 1) slower = sprintf("%.1f", $2 / ms)
  if (NR > 1 && NF > 2) more = sprintf("%.1f", $3 / ir)
  count = NF > 2 ? $3 : "-"
  printf "| %d | %.2f | %.1f | %s | %s | %s |\n", $1, $2, $2 * 1000 / $1, slower, count, more
  ms = $2
  ir = $3
}'
