#!/usr/bin/env bash
# Measures the built program by one, two and four executors beside Rust that is written for speed,
# on one thread and on four.
#
#   bench/threads.sh [--cpu] [--compare] [JOB..]     all jobs of the list below, where none is named
#
# Before a job is measured the outputs of all are compared, and a job whose outputs differ isn't
# measured; what was compared once, of the same programs, isn't again. With --compare that is all.
# Then each program runs three times, in turn with the others, its output thrown away. One table has
# one executor beside the fast program on one thread, another one four executors beside the same on
# four threads, and the last one four executors beside one. The times are the medians of the
# clock's, or with --cpu the least user and system seconds, which tell more where the machine has
# other work, but not how much sooner four are done; memory is the most of a run.
#
# It needs the built program, or another one as SPARK_RUN, rustc, python3 and GNU time, and room for
# the inputs in bench/data. Ends with 1 where outputs differed.
set -eu

here=$(cd "$(dirname "$0")" && pwd)
# shellcheck source=bench/measure.sh
. "$here/measure.sh"
program=$(realpath "${SPARK_RUN:-$here/../crates/spark_run/out/spark_run}")
fast=$here/rust/target/fast
rounds=3
export by_cpu=0
compare_only=0
while [[ ${1:-} == --* ]]; do
  case $1 in
    --cpu) by_cpu=1 ;;
    --compare) compare_only=1 ;;
    *) sed -n '2,17p' "$0" >&2; exit 2 ;;
  esac
  shift
done
chosen=" $* "

# Each job: its name, its folder in data, its script, its inputs, how many MB they are; the bars for
# the time of one executor and of four, as times of the fast program's on as many threads; for the
# memory of one, as times of the input, to which 20 MB come; and for how many times as fast as one
# four are. The memory of four may be 1.3 times that of one.
list="
concat 100 concat lines.txt 100 1.6 2 1.3 -
sums 100 sums lines.txt 100 - 2 1.3 -
pairs 100 pairs lines.txt 100 - 2 1.3 -
choice 100 choice lines.txt 100 - 2 1.3 -
lengths 100 lengths lines.txt 100 - 2 1.3 -
pipeline 100 pipeline lines.txt 100 1.6 2 1.3 2.5
lineage 100 lineage lines.txt 100 2 2 1.3 2.5
lineage,_short_lines short lineage lines.txt 100 2 2 1.3 -
cached 100 cached lines.txt 100 1.6 2 3 -
save 100 save lines.txt 100 - 1.5 1.3 -
word_count words word_count lines.txt 100 1.8 2 3 2.5
sum_by_key,_16_keys sixteen sum_by_key lines.txt 25 2 2 3 -
sum_by_key,_a_million million sum_by_key lines.txt 25 2 2 3 -
sort_texts,_short million sort_texts keys.txt 25 2 2.5 5 -
sort_texts,_long long sort_texts keys.txt 25 2.5 2.5 5 -
sort,_numbers 25 sort keys.txt 25 1.8 2.5 5 -
group 25 group keys.txt 25 1.6 1.5 3 -
join 25 join left.txt+right.txt 24 1.6 1.5 3 2.5
buckets 10 buckets keys.txt 10 4 3 3 -
"

# What is timed of a job: executors of the program, and threads of the fast one.
ways=(run-1 run-2 run-4 fast-1 fast-4)

# The command of a way to do a job, in the array command.
command_of() {
  local number=${1#*-}
  case $1 in
    run-*) command=("$program" run "$here/jobs/$script.spark" --executors "$number") ;;
    fast-*) command=("$fast" "$number" "$script" "${inputs[@]}") ;;
  esac
}

# A number that tells what a way to do the job writes, to its output or to the folder `saved`.
output_of() {
  local command
  command_of "$1"
  rm -rf saved
  "${command[@]}" 2>&1 | cksum
  [ ! -d saved ] || { cd saved && cksum -- *; cd ..; rm -rf saved; }
}

# Whether all ways to do the job write the same.
is_same() {
  local mark way wanted
  mark=$here/data/compared/$(cat "$program" "$fast" "$here/jobs/$script.spark" "${inputs[@]}" |
    md5sum | cut -d' ' -f1)
  [ ! -f "$mark" ] || return 0
  wanted=$(output_of "${ways[0]}")
  for way in "${ways[@]:1}"; do
    [ "$(output_of "$way")" = "$wanted" ] || return 1
  done
  mkdir -p "$here/data/compared"
  touch "$mark"
}

# Runs all ways to do the job three times in turn.
measure_ways() {
  local way round command
  rm -f "$scratch"/run-* "$scratch"/fast-*
  for ((round = 0; round < rounds; round++)); do
    for way in "${ways[@]}"; do
      command_of "$way"
      rm -rf saved
      measure "$scratch/$way" "${command[@]}"
    done
  done
  rm -rf saved
}

# The rows of the job for the three tables, which are put into files.
print_rows() {
  local way times=()
  for way in "${ways[@]}"; do
    times+=("$(seconds "$scratch/$way")" "$(peak "$scratch/$way")")
  done
  awk -v job="${name//_/ }" -v mb="$megabytes" -v bar="$bar" -v bars="$bars" -v room="$room" \
    -v gain="$gain" -v by_cpu="$by_cpu" -v one="$scratch/one" -v four="$scratch/four" \
    -v both="$scratch/both" '
    function missed(ratio, bar) { return bar != "-" && ratio > bar ? " !" : "" }
    {
      r1 = $1 / $7; r4 = $5 / $9; most = room * mb + 20
      printf "| %s | %s | %.3f | %.3f | %.2f%s | %s | %.0f%s | %.0f | %.0f |\n", job, mb, $1, $7,
        r1, missed(r1, bar), bar, $2 / 1024, missed($2 / 1024, most), most, $8 / 1024 >>one
      printf "| %s | %s | %.3f | %.3f | %.3f | %.3f | %.2f%s | %s | %.0f | %.0f |\n", job, mb,
        $1, $3, $5, $9, r4, missed(r4, bars), bars, $6 / 1024, $10 / 1024 >>four
      few = gain != "-" && !by_cpu && $1 / $5 < gain ? " !" : ""
      printf "| %s | %s | %.3f | %.3f | %.2f%s | %s | %.0f | %.0f | %.2f%s |\n", job, mb, $1, $5,
        $1 / $5, few, gain, $2 / 1024, $6 / 1024, $6 / $2, missed($6 / $2, 1.3) >>both
    }' <<<"${times[*]}"
}

# Compares and measures the job of the variables that a line of the list sets.
do_job() {
  cd "$here/data/$folder"
  IFS=+ read -ra inputs <<<"$files"
  if ! is_same; then
    echo "${name//_/ }: the outputs differ" >&2
    result=1
  elif [ $compare_only = 0 ]; then
    measure_ways
    print_rows
  fi
}

# Measures a word count of four executors one of whose stores is wiped three times, by an early plan
# and a late one, in turn with the same without a plan.
measure_wipes() {
  local round plan ours=("$program" run "$here/jobs/word_count.spark" --executors 4)
  cd "$here/data/words"
  rm -f "$scratch/none" "$scratch/one_store" "$scratch/late_store"
  for ((round = 0; round < rounds; round++)); do
    measure "$scratch/none" "${ours[@]}"
    for plan in one_store late_store; do
      measure "$scratch/$plan" "${ours[@]}" --plan "$here/plans/$plan.txt"
    done
  done
  for plan in one_store late_store; do
    awk -v plan=$plan -v a="$(seconds "$scratch/$plan")" -v b="$(seconds "$scratch/none")" 'BEGIN {
      printf "word count by %s: %.3f s, %.3f without, %.2f times (bar 1.5)\n", plan, a, b, a / b
    }'
  done
}

mkdir -p "$here/rust/target"
rustc --edition 2021 -O -o "$fast" "$here/rust/fast_main.rs"
make_inputs
scratch=$(mktemp -d)
trap 'rm -rf "$scratch"' EXIT
result=0
while read -r name folder script files megabytes bar bars room gain; do
  if [ -n "$name" ] && [[ "$chosen" == "  " || "$chosen" == *" $name "* ]]; then
    do_job
  fi
done <<<"$list"
[ $compare_only = 0 ] || exit $result

tell_machine
echo "| job | MB | one executor s | fast Rust s | ratio | bar | MB | at most | Rust MB |"
echo "|---|---|---|---|---|---|---|---|---|"
cat "$scratch/one"
echo
echo "| job | MB | one executor s | two s | four s | four threads s | ratio | bar | MB | Rust MB |"
echo "|---|---|---|---|---|---|---|---|---|---|"
cat "$scratch/four"
echo
echo "| job | MB | one executor s | four s | one to four | at least | MB | four MB | four to one |"
echo "|---|---|---|---|---|---|---|---|---|"
cat "$scratch/both"
echo
[[ "$chosen" != "  " ]] || measure_wipes
exit $result
