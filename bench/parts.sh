#!/usr/bin/env bash
# Times how the text of a part is made of its rows, beside a plain Rust loop that prints the same:
#
#     bench/parts.sh
#
# The rows are those of 10 MB of lines, as bench/make_text.py makes them: the lines as texts, the
# number of each, whether that is below 500, pairs of its first word and its number, and lists of
# its words. Both programs read them, make the text some times, and write it to a file; what they
# write is compared. Each kind is timed with one text and with many more, three times in turn with
# the other program: these take the difference of the least user seconds, which other work on the
# machine changes little.
#
# Only crates of crates.txt may have code, so the program that is timed stands in parts/ as text,
# and is proved and built in a copy; or BENCH_PARTS names it. Needs rustc, python3 and GNU time, and
# ends with 1 where outputs differed.
set -euo pipefail
here=$(cd "$(dirname "$0")" && pwd)
# shellcheck source=bench/measure.sh
. "$here/measure.sh"
scratch=$(mktemp -d)
trap 'rm -rf "$scratch"' EXIT
rounds=3

lines=$here/data/10/lines.txt
make_file "$lines" text 10000000
plain=$here/rust/target/plain_parts
mkdir -p "$here/rust/target"
rustc --edition 2021 -O -o "$plain" "$here/parts/plain.rs"
if [ -n "${BENCH_PARTS:-}" ]; then
  program=$(realpath "$BENCH_PARTS")
else
  below="sc_base sc_value sc_columns sc_expr sc_ids sc_sink sc_files sc_output"
  # shellcheck disable=SC2086
  crate=$(make_crate bench_parts "$here/parts" $below)
  (cd "$crate" && rt run -- "$lines" texts 1 "$scratch/ours.txt" >"$scratch/log" 2>&1) ||
    { tail -20 "$scratch/log"; exit 1; }
  program=$crate/out/bench_parts
fi

# The user seconds that a program takes for the texts of a kind, by what was measured of it.
user() {
  awk 'NR == 1 || $3 < least { least = $3 } END { print least }' "$scratch/$1-$2"
}

# Measures a kind by so many texts more, and prints its row.
measure_kind() {
  local kind=$1 texts=$2 round times
  rm -f "$scratch"/ours-* "$scratch"/theirs-*
  for ((round = 0; round < rounds; round++)); do
    for times in 1 $((texts + 1)); do
      measure "$scratch/ours-$times" "$program" "$lines" "$kind" "$times" "$scratch/ours.txt"
      measure "$scratch/theirs-$times" "$plain" "$lines" "$kind" "$times" "$scratch/theirs.txt"
    done
  done
  if ! cmp -s "$scratch/ours.txt" "$scratch/theirs.txt"; then
    echo "| $kind | the outputs differ | | |"
    result=1
    return
  fi
  awk -v kind="$kind" -v a="$(user ours $((texts + 1)))" -v b="$(user ours 1)" \
    -v c="$(user theirs $((texts + 1)))" -v d="$(user theirs 1)" -v texts="$texts" 'BEGIN {
      ours = (a - b) / texts * 1000; theirs = (c - d) / texts * 1000
      missed = ours / theirs > 1.3 ? " !" : ""
      printf "| %s | %.2f | %.2f | %.2f%s |\n", kind, ours, theirs, ours / theirs, missed
    }'
}

result=0
echo "$(date +%F), $(nproc) processors, load $(cut -d' ' -f1 /proc/loadavg), $(rustc --version)"
echo "A text of $(wc -l <"$lines") rows, in user milliseconds; the bar is 1.3."
echo
echo "| rows | part_text ms | plain Rust ms | ratio |"
echo "|---|---|---|---|"
measure_kind texts 400
measure_kind numbers 400
measure_kind truths 1000
measure_kind pairs 200
measure_kind lists 100
exit $result
