# shellcheck shell=bash disable=SC2154
# What the scripts that time programs share. Who reads this file sets `scratch` to a folder and
# `rounds` to how often a command is run; with `by_cpu` as 1 seconds are those of user and system.

# Runs a command: its wall time in microseconds, its peak memory in KB, and its user and system
# seconds are added to a file. It ends as the command did.
measure() {
  local file=$1 from to status=0
  shift
  from=${EPOCHREALTIME/[.,]/}
  /usr/bin/time -o "$scratch/peak" -f "%M %U %S" "$@" >/dev/null || status=$?
  to=${EPOCHREALTIME/[.,]/}
  echo "$((to - from)) $(tail -n 1 "$scratch/peak")" >>"$file"
  return $status
}

# The median wall time of the runs in a file, in microseconds.
median() {
  sort -n "$1" | awk '{ wall[NR] = $1 } END { print wall[int((NR + 1) / 2)] }'
}

# The most memory of the runs in a file, in KB.
peak() {
  awk '$2 > most { most = $2 } END { print most }' "$1"
}

# The seconds of the runs in a file: the median of the clock's, or the least of user and system.
seconds() {
  if [ "${by_cpu:-0}" = 1 ]; then
    awk '{ s = $3 + $4 } NR == 1 || s < least { least = s } END { print least }' "$1"
  else
    awk -v us="$(median "$1")" 'BEGIN { print us / 1e6 }'
  fi
}

# The lines before a table of measures: the day, the machine, how loaded it is, and what is timed.
tell_machine() {
  echo "$(date +%F), $(nproc) processors, load $(cut -d' ' -f1 /proc/loadavg), $(rustc --version)"
  if [ "${by_cpu:-0}" = 1 ]; then
    echo "Seconds are of user and system, the least of $rounds runs in turn."
  else
    echo "Seconds are of the clock, the median of $rounds runs in turn."
  fi
  echo
}

# Makes a crate of the text of a folder of bench/, in a copy of the repository that has only the
# crates below it, with the libraries that are built already: its name, the folder, those crates.
# Prints where it is.
make_crate() {
  local name=$1 text=$2 top=$here/.. copy=$scratch/copy crate=$scratch/copy/crates/$1 part below
  shift 2
  mkdir -p "$crate/src"
  for below in "$@"; do
    mkdir -p "$copy/crates/$below/out"
    for part in src specs proofs out/rlib; do
      if [ -d "$top/crates/$below/$part" ]; then
        cp -r "$top/crates/$below/$part" "$copy/crates/$below/$part"
      fi
    done
    grep "^$below:" "$top/crates.txt" >>"$copy/crates.txt"
  done
  echo "$name: $*" >>"$copy/crates.txt"
  cp "$text/main.rt.txt" "$crate/src/main.rt"
  echo "$crate"
}

# Makes a file in a folder of bench/data by a program of bench/, where it isn't there.
make_file() {
  local file=$1
  shift
  mkdir -p "$(dirname "$file")"
  if [ ! -f "$file" ]; then
    case $1 in
      text) python3 "$here/make_text.py" "$2" "$file" ;;
      keys) python3 "$here/make_keys.py" "$2" "$file" "$3" ;;
      *) python3 "$here/make_words.py" "$1" "$2" "$file" 1 ;;
    esac
  fi
}

# Makes the inputs of the fast program's jobs and of the peers', which lie in folders of bench/data.
make_inputs() {
  local data=$here/data
  make_file "$data/100/lines.txt" text 100000000
  make_file "$data/words/lines.txt" words 100000000
  make_file "$data/short/lines.txt" sixteen 100000000
  make_file "$data/sixteen/lines.txt" sixteen 25000000
  make_file "$data/million/lines.txt" distinct 25000000
  ln -f "$data/million/lines.txt" "$data/million/keys.txt"
  make_file "$data/long/keys.txt" long 25000000
  make_file "$data/25/keys.txt" keys 25000000 1
  make_file "$data/25/left.txt" keys 12000000 2
  make_file "$data/25/right.txt" keys 12000000 3
  make_file "$data/10/keys.txt" keys 10000000 1
}
