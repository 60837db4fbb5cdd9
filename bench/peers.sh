#!/usr/bin/env bash
# Measures the built program by four executors beside programs that Debian has: mawk, miller,
# datamash, sqlite3, sort of coreutils, and dask.
#
#   bench/peers.sh [--cpu] [--compare] [JOB..]       all jobs of peers/jobs.txt, where none is named
#
# Before a peer is measured its output is compared with that of the program: of a sort the keys, of
# a save the lines in any order, of a sum the first 15 digits, since mawk has floats. What was
# compared once isn't again; with --compare that is all. Then both run three times in turn, but a
# peer whose first run took more than two seconds only once, and none longer than 30, or PEER_LIMIT
# where that is set. Times are the medians of the clock's, or with --cpu the least user and system
# seconds of all processes. A peer that isn't there is skipped, and named.
#
# It needs what bench/threads.sh needs, and from Debian the packages mawk, miller, datamash,
# sqlite3, python3-dask and python3-pandas. Ends with 1 where outputs differed.
set -eu

here=$(cd "$(dirname "$0")" && pwd)
# shellcheck source=bench/measure.sh
. "$here/measure.sh"
program=$(realpath "${SPARK_RUN:-$here/../crates/spark_run/out/spark_run}")
export peers=$here/peers
rounds=3
export by_cpu=0
compare_only=0
limit=${PEER_LIMIT:-30}
slow=2000000
while [[ ${1:-} == --* ]]; do
  case $1 in
    --cpu) by_cpu=1 ;;
    --compare) compare_only=1 ;;
    *) sed -n '2,16p' "$0" >&2; exit 2 ;;
  esac
  shift
done
chosen=" $* "

# Whether a peer is installed.
is_there() {
  case $1 in
    miller) command -v mlr >/dev/null ;;
    dask) /usr/bin/python3 -c 'import dask.dataframe, dask.bag' 2>/dev/null ;;
    *) command -v "$1" >/dev/null ;;
  esac
}

# What is compared of the output of a job: its number, or what is told above.
told() {
  case $script in
    sort*) tr -d '(' | tr ',' ' ' | cut -d' ' -f1 | cksum ;;
    sum_by_key) cut -c 1-15 | cksum ;;
    save) cat >/dev/null; awk 1 saved/* | LC_ALL=C sort | cksum ;;
    *) cksum ;;
  esac
}

# Whether a peer writes what the program writes.
is_same() {
  local mark wanted found
  mark=$here/data/compared/$(cat "$program" "$peers"/* "$here/jobs/$script.spark" \
    <(echo "$name $peer") | md5sum | cut -d' ' -f1)
  [ ! -f "$mark" ] || return 0
  rm -rf saved
  wanted=$("$program" run "$here/jobs/$script.spark" --executors 4 | told)
  rm -rf saved
  found=$(timeout 300 bash -c "$command" | told)
  rm -rf saved
  [ "$wanted" = "$found" ] || return 1
  mkdir -p "$here/data/compared"
  touch "$mark"
}

# Runs the program and a peer in turn.
measure_peer() {
  local round
  rm -f "$scratch/ours" "$scratch/theirs"
  late=
  for ((round = 0; round < rounds; round++)); do
    rm -rf saved
    measure "$scratch/ours" "$program" run "$here/jobs/$script.spark" --executors 4
    rm -rf saved
    measure "$scratch/theirs" timeout "$limit" bash -c "$command" || late=" (cut)"
    if [ "$(median "$scratch/theirs")" -gt "$slow" ]; then
      break
    fi
  done
  rm -rf saved
}

# The row of a peer.
print_row() {
  awk -v job="${name//_/ }" -v peer="$peer" -v late="$late" -v a="$(seconds "$scratch/ours")" \
    -v b="$(seconds "$scratch/theirs")" -v m="$(peak "$scratch/ours")" \
    -v n="$(peak "$scratch/theirs")" 'BEGIN {
      printf "| %s | %s | %.2f | %.2f%s | %.1f | %.0f | %.0f |\n", job, peer, a, b, late, b / a,
        m / 1024, n / 1024
    }'
}

# Compares and measures the peer of the variables that a line of the list sets.
do_peer() {
  cd "$here/data/$folder"
  if ! is_there "$peer"; then
    echo "$peer isn't there: skipped for ${name//_/ }" >&2
  elif ! is_same; then
    echo "${name//_/ }: the output of $peer differs" >&2
    result=1
  elif [ $compare_only = 0 ]; then
    measure_peer
    print_row
  fi
}

make_inputs
scratch=$(mktemp -d)
trap 'rm -rf "$scratch"' EXIT
result=0
if [ $compare_only = 0 ]; then
  tell_machine
  echo "| job | peer | four executors s | peer s | peer to ours | MB | peer's largest process MB |"
  echo "|---|---|---|---|---|---|---|"
fi
while read -r name folder script peer command; do
  if [ "$name" != "#" ] && [[ "$chosen" == "  " || "$chosen" == *" $name "* ]]; then
    do_peer </dev/null
  fi
done <"$here/peers/jobs.txt"
exit $result
