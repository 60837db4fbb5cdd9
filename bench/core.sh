#!/usr/bin/env bash
# Times the core of the scheduler alone:
#
#     bench/core.sh
#
# Only crates of crates.txt may have code, so the program that is timed stands in core/ as text, and
# is made a crate of a copy here, which lacks all that the core doesn't stand on, and has the
# libraries that are built already. It is proved and built there. Needs GNU time.
set -euo pipefail
here=$(cd "$(dirname "$0")" && pwd)
# shellcheck source=bench/measure.sh
. "$here/measure.sh"
scratch=$(mktemp -d)
trap 'rm -rf "$scratch"' EXIT

below="sc_base sc_value sc_part sc_expr sc_ids sc_plan sc_tracker sc_spec sc_taskset sc_commit"
below="$below sc_dag sc_core sc_history"
text=$here/core
# shellcheck disable=SC2086
crate=$(make_crate bench_core "$text" $below)
mkdir -p "$crate"/specs "$crate"/proofs/run "$crate"/proofs/begun
cp "$text/specs-Jobs.antt.txt" "$crate/specs/Jobs.antt"
echo "pub mod Jobs" >"$crate/specs/Lib.antt"
cp "$text/proofs-JobLemmas.antt.txt" "$crate/proofs/JobLemmas.antt"
echo "pub mod JobLemmas" >"$crate/proofs/Lib.antt"
cp "$text/proofs-run-Answers.antt.txt" "$crate/proofs/run/Answers.antt"
cp "$text/proofs-begun-Answers.antt.txt" "$crate/proofs/begun/Answers.antt"

(cd "$crate" && rt run -- 1 1 4 0 >"$scratch/log" 2>&1) || { tail -20 "$scratch/log"; exit 1; }
for tasks in 100 1000; do
  for times in 1 10; do
    for executors in "4 0" "8 1"; do
      # shellcheck disable=SC2086
      /usr/bin/time -f "  %M KB at most" "$crate/out/bench_core" "$tasks" "$times" $executors
    done
  done
done
