#!/usr/bin/env bash
# Measures spark_story beside spark_run: the same run, told.
#
#   bench/told.sh [MEGABYTES]     size of the word count's input, 25 where none is named
#
# The jobs are a word count and `gen --seed 7 --size 100000`, by one executor. Each is run by
# spark_run, and by spark_story: as it is, with --history FILE, and with --page FILE. Before they
# are measured the standard output of all is compared. Then each runs in turn with the others, a
# word count once and gen twenty times a round, its output thrown away.
#
# The table has user and system milliseconds of a run, the least of seven rounds, the ratio to
# spark_run, and the most memory of a run. The bar is 1.05 times the time, and 20 MB more.
#
# It needs both built programs, or others as SPARK_RUN and SPARK_STORY, python3 and GNU time, and
# room for the input in bench/data. Ends with 1 where outputs differ.
set -euo pipefail

here=$(cd "$(dirname "$0")" && pwd)
# shellcheck source=bench/measure.sh
. "$here/measure.sh"
program=$(realpath "${SPARK_RUN:-$here/../crates/spark_run/out/spark_run}")
teller=$(realpath "${SPARK_STORY:-$here/../crates/spark_story/out/spark_story}")
megabytes=${1:-25}
rounds=7

for built in "$program" "$teller"; do
  if [ ! -x "$built" ]; then
    echo "bench: $built isn't built: make run builds the programs" >&2
    exit 1
  fi
done
scratch=$(mktemp -d)
trap 'rm -rf "$scratch"' EXIT

# Sets `command` to what runs a job by one of the four ways, named as in the table.
set_command() {
  local way=$1
  shift
  case $way in
    spark_run) command=("$program" "$@") ;;
    spark_story) command=("$teller" "$@") ;;
    *) command=("$teller" "$@" "$way" "$scratch/told") ;;
  esac
}

# Runs the command so many times: the milliseconds of one run are added to a file.
measure_times() {
  local TIMEFORMAT="%U %S" file=$1 times=$2 at
  { time for ((at = 0; at < times; at++)); do "${command[@]}" >/dev/null 2>&1; done; } 2>&1 |
    awk -v times="$times" '{ print ($1 + $2) * 1000 / times }' >>"$file"
}

# Measures a job, which is run so many times a round, by all ways, and prints their rows.
measure_job() {
  local name=$1 times=$2 round way base
  shift 2
  rm -f "$scratch"/*.ms
  for way in "${ways[@]}"; do
    set_command "$way" "$@"
    "${command[@]}" >"$scratch/$way.out" 2>/dev/null
    if ! cmp -s "$scratch/spark_run.out" "$scratch/$way.out"; then
      echo "| $name | $way | the outputs differ | | |"
      result=1
      return
    fi
  done
  for ((round = 0; round < rounds; round++)); do
    for way in "${ways[@]}"; do
      set_command "$way" "$@"
      measure_times "$scratch/$way.ms" "$times"
    done
  done
  base=$(sort -n "$scratch/spark_run.ms" | head -1)
  for way in "${ways[@]}"; do
    set_command "$way" "$@"
    /usr/bin/time -o "$scratch/peak" -f "%M" "${command[@]}" >/dev/null 2>&1
    awk -v name="$name" -v way="$way" -v base="$base" \
      -v ms="$(sort -n "$scratch/$way.ms" | head -1)" -v kb="$(cat "$scratch/peak")" 'BEGIN {
        printf "| %s | %s | %.1f | %.2f | %.0f |\n", name, way, ms, ms / base, kb / 1024
      }'
  done
}

result=0
ways=(spark_run spark_story --history --page)
make_file "$here/data/$megabytes/lines.txt" text "${megabytes}000000"
cd "$here/data/$megabytes"
echo "$(date +%F), $(nproc) processors, load $(cut -d' ' -f1 /proc/loadavg)"
echo
echo "| job | by | ms | to spark_run | MB |"
echo "|---|---|---|---|---|"
measure_job "word_count, $megabytes MB" 1 run ../../jobs/word_count.spark --executors 1
measure_job gen 20 gen --seed 7 --size 100000 --executors 1
exit $result
