#!/usr/bin/env bash
# Measures the built program beside a plain Rust program that does the same jobs.
#
#   bench/run.sh [MEGABYTES..]      sizes of the input, 10 and 100 where none is named
#
# Sorts, groups and joins run over 25 MB, and those of many partitions over 10 MB, at any call.
#
# The jobs are the scripts of bench/jobs; bench/rust does the same by hand, on one thread. Before a
# job is measured the outputs of both are compared, and a job whose outputs differ isn't measured.
# Then each program runs three times, in turn with the other, its output thrown away. The table has
# the medians of the wall times, their ratio, and the most memory that a run took. A second table
# has a word count under the fault plans of bench/plans, beside the same without a plan, and two
# jobs by other words, beside the same without them. The last one has the start of the program on a
# script without inputs, beside the start of mawk.
#
# It needs the built program, rustc, python3 and GNU time, mawk for the last table, and room for the
# inputs in bench/data. Ends with 1 where outputs differed. bench/threads.sh measures it beside Rust
# that is written for speed, and bench/peers.sh beside other programs.
set -eu

here=$(cd "$(dirname "$0")" && pwd)
# shellcheck source=bench/measure.sh
. "$here/measure.sh"
program=${SPARK_RUN:-$here/../crates/spark_run/out/spark_run}
plain=$here/rust/target/plain
jobs=(concat sums pairs choice lengths pipeline lineage repeated cached word_count sum_by_key)
keyed=(sort group)
rounds=3
starts=20
[ $# -gt 0 ] || set -- 10 100

if [ ! -x "$program" ]; then
  echo "bench: $program isn't built: make run builds it" >&2
  exit 1
fi
program=$(cd "$(dirname "$program")" && pwd)/$(basename "$program")
mkdir -p "$here/rust/target"
rustc -O -o "$plain" "$here/rust/main.rs"
scratch=$(mktemp -d)
trap 'rm -rf "$scratch"' EXIT

# Runs a command many times: the wall time of one run in microseconds is added to a file.
measure_start() {
  local file=$1 from to i
  shift
  from=${EPOCHREALTIME/[.,]/}
  for ((i = 0; i < starts; i++)); do "$@" >/dev/null; done
  to=${EPOCHREALTIME/[.,]/}
  echo "$(((to - from) / starts)) 0" >>"$file"
}

# Measures a job over some files of a size in the folder that it is called in, and prints its row.
measure_job() {
  local job=$1 megabytes=$2
  shift 2
  local ours=("$program" run "../../jobs/$job.spark")
  [ "$job" != cached ] || ours+=(--executors 1)
  local theirs=("$plain" "$job" "$@")
  measure_both "$job" "$megabytes"
}

# Measures a job over lines that are generated, and prints its row.
measure_generated() {
  local ours=("$program" gen --seed 7 --size 100000)
  local theirs=("$plain" gen 7 100000)
  measure_both gen 0.7
}

# Measures the commands of the arrays ours and theirs, and prints their row.
measure_both() {
  local job=$1 megabytes=$2 round
  if ! cmp -s <("${ours[@]}" 2>&1) <("${theirs[@]}" 2>&1); then
    echo "| $job | $megabytes | the outputs differ | | | | |"
    result=1
    return
  fi
  rm -f "$scratch/ours" "$scratch/theirs"
  for ((round = 0; round < rounds; round++)); do
    measure "$scratch/ours" "${ours[@]}"
    measure "$scratch/theirs" "${theirs[@]}"
  done
  print_row "$job" "$megabytes"
}

# Prints the row of a job over a file of a size, by what was measured of both programs.
print_row() {
  awk -v job="$1" -v mb="$2" \
    -v a="$(median "$scratch/ours")" -v b="$(median "$scratch/theirs")" \
    -v m="$(peak "$scratch/ours")" -v n="$(peak "$scratch/theirs")" 'BEGIN {
      printf "| %s | %s | %.3f | %.3f | %.2f | %.0f | %.0f |\n",
        job, mb, a / 1e6, b / 1e6, a / b, m / 1024, n / 1024
    }'
}

# Measures a save over a file of a size in the folder that it is called in, and prints its row. Each
# run makes the directory `saved`, which is taken away before the next.
measure_save() {
  local megabytes=$1 round
  local ours=("$program" run ../../jobs/save.spark)
  local theirs=("$plain" save lines.txt)
  rm -rf saved "$scratch/saved" "$scratch/ours" "$scratch/theirs"
  "${ours[@]}" && mv saved "$scratch/saved" && "${theirs[@]}"
  if ! diff -r "$scratch/saved" saved >/dev/null; then
    echo "| save | $megabytes | the outputs differ | | | | |"
    result=1
    rm -rf saved
    return
  fi
  for ((round = 0; round < rounds; round++)); do
    rm -rf saved
    measure "$scratch/ours" "${ours[@]}"
    rm -rf saved
    measure "$scratch/theirs" "${theirs[@]}"
  done
  rm -rf saved
  print_row save "$megabytes"
}

# Measures a word count by four executors under a fault plan, in the folder that it is called in,
# and prints its row. What it prints is that of the run without a plan.
measure_plan() {
  local plan=$1
  shift
  local ours=("$program" run ../../jobs/word_count.spark --executors 4)
  local others=("${ours[@]}" "$@")
  measure_others "$plan"
}

# Measures a job whose slow tasks may get copies, of which one executor makes none, and a job of one
# task by two executors, of which one waits, each beside the same by one executor without copies.
measure_words() {
  local ours=("$program" run ../../jobs/buckets.spark --executors 1)
  local others=("${ours[@]}" --speculation)
  measure_others "buckets, --speculation"
  ours=("$program" run ../../jobs/one_partition.spark --executors 1)
  others=("$program" run ../../jobs/one_partition.spark --executors 2)
  measure_others "one_partition, --executors 2"
}

# Measures the command of the array others beside that of the array ours, and prints its row.
measure_others() {
  local name=$1 round
  if ! cmp -s <("${ours[@]}" 2>&1) <("${others[@]}" 2>&1); then
    echo "| $name | the outputs differ | | |"
    result=1
    return
  fi
  rm -f "$scratch/ours" "$scratch/others"
  for ((round = 0; round < rounds; round++)); do
    measure "$scratch/ours" "${ours[@]}"
    measure "$scratch/others" "${others[@]}"
  done
  awk -v name="$name" -v a="$(median "$scratch/others")" -v b="$(median "$scratch/ours")" \
    -v m="$(peak "$scratch/others")" 'BEGIN {
      printf "| %s | %.3f | %.2f | %.0f |\n", name, a / 1e6, a / b, m / 1024
    }'
}

# Makes the files by key of a size, where they aren't there, in the folder that it is called in.
make_keys() {
  local megabytes=$1
  [ -f keys.txt ] || python3 "$here/make_keys.py" "${megabytes}000000" keys.txt 1
  [ -f left.txt ] || python3 "$here/make_keys.py" "$((megabytes / 2))000000" left.txt 2
  [ -f right.txt ] || python3 "$here/make_keys.py" "$((megabytes / 2))000000" right.txt 3
}

result=0
echo "$(date +%F), $(nproc) processors, $(rustc --version), load $(cut -d' ' -f1 /proc/loadavg)"
echo
echo "| job | MB | spark_run s | Rust s | ratio | spark_run MB | Rust MB |"
echo "|---|---|---|---|---|---|---|"
for megabytes in "$@"; do
  mkdir -p "$here/data/$megabytes"
  cd "$here/data/$megabytes"
  [ -f lines.txt ] || python3 "$here/make_text.py" "${megabytes}000000" lines.txt
  for job in "${jobs[@]}"; do
    measure_job "$job" "$megabytes" lines.txt
  done
  measure_save "$megabytes"
done
mkdir -p "$here/data/25" "$here/data/10"
cd "$here/data/25"
make_keys 25
for job in "${keyed[@]}"; do
  measure_job "$job" 25 keys.txt
done
measure_job join 25 left.txt right.txt
cd "$here/data/10"
make_keys 10
measure_job few_buckets 10 keys.txt
measure_job buckets 10 keys.txt
measure_generated

echo
echo "| plan | spark_run s | to no plan | spark_run MB |"
echo "|---|---|---|---|"
for megabytes in "$@"; do
  cd "$here/data/$megabytes"
  measure_plan "none, $megabytes MB"
  for plan in empty one_store three_stores; do
    measure_plan "$plan, $megabytes MB" --plan "../../plans/$plan.txt"
  done
done

echo
echo "| job and words | spark_run s | to the same without | spark_run MB |"
echo "|---|---|---|---|"
cd "$here/data/10"
[ -f lines.txt ] || python3 "$here/make_text.py" 10000000 lines.txt
measure_words

if ! command -v mawk >/dev/null 2>&1; then
  echo "bench: no table of starts, since there is no mawk" >&2
  exit $result
fi
rm -f "$scratch/ours" "$scratch/theirs"
for ((round = 0; round < rounds; round++)); do
  measure_start "$scratch/ours" "$program" run "$here/jobs/start.spark"
  measure_start "$scratch/theirs" mawk 'BEGIN{}'
done
echo
echo "| start | spark_run ms | mawk ms | ratio |"
echo "|---|---|---|---|"
awk -v a="$(median "$scratch/ours")" -v b="$(median "$scratch/theirs")" 'BEGIN {
  printf "| four numbers counted | %.2f | %.2f | %.2f |\n", a / 1e3, b / 1e3, a / b
}'
exit $result
