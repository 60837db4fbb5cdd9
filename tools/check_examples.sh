#!/usr/bin/env bash
# Runs each example and compares what it does with what its folder says, and then the examples of
# the guide and the cookbook, the cases of cases/, and spark_story over the cases and examples.
#
#   tools/check_examples.sh
#
# An example is a folder of examples/, with one case or more, which are run in a copy of it, one after
# the other. A case NAME is a script NAME.spark, which is run with the words 'run NAME.spark', or with
# those of NAME_args.txt, one a
# line, where that file is there. A case may be NAME_args.txt alone, which then names the script of
# another case; that of the case job is args.txt. A line of these files may hold any bytes. Compared
# are
#
#   the standard output   with NAME_expect.txt, or with nothing
#   the standard error    with NAME_expect_err.txt, or with nothing
#   the exit status       with NAME_expect_status.txt, or with 0
#   what was saved        with the folders of NAME_expect_saved, where that is there
#
# Where there is links.txt, the copy has the symbolic links of its lines before the first case: a
# line is the link's name and where it leads. The repository itself holds none, which rt refuses.
#
# and for the case job with expect.txt and so on. Where there is output.txt, the standard output of
# the case job goes to the file that it names, such as /dev/full, and isn't compared; the case is
# skipped where the system has no such file.
#
# Prints a line a case, and ends with 1 where one differs. The program is
# crates/spark_run/out/spark_run, or the file that SPARK_RUN names. Where it isn't built this says
# so and ends with 0.
set -u
export LC_ALL=C

top=$(cd "$(dirname "$0")/.." && pwd)
program=${SPARK_RUN:-$top/crates/spark_run/out/spark_run}
if [ ! -x "$program" ]; then
  echo "check_examples: skipped, since $program isn't built"
  exit 0
fi

scratch=$(mktemp -d)
trap 'rm -rf "$scratch"' EXIT

# The file of this name, or nothing where the folder has none.
or_nothing() {
  if [ -f "$1" ]; then echo "$1"; else echo /dev/null; fi
}

# The names of the cases of the current folder: those of its scripts and of its files of words.
cases() {
  local file
  for file in *.spark *_args.txt; do
    file=${file%.spark}
    case $file in '*'*) ;; *) echo "${file%_args.txt}" ;; esac
  done | sort -u
}

# The name of what differs where a case of the current folder is run, or nothing.
difference() {
  local name=$1 prefix="" words=(run "$1.spark") output=$scratch/out status want_status=0
  if [ "$name" != job ]; then
    prefix=${name}_
  elif [ -f output.txt ]; then
    output=$(cat output.txt)
  fi
  [ -f "${prefix}args.txt" ] && mapfile -t words <"${prefix}args.txt"
  if [ "$output" != "$scratch/out" ] && [ ! -e "$output" ]; then
    echo "skipped, since there is no $output"
    return
  fi
  local want_out want_err
  want_out=$(or_nothing "${prefix}expect.txt")
  want_err=$(or_nothing "${prefix}expect_err.txt")
  [ -f "${prefix}expect_status.txt" ] && want_status=$(cat "${prefix}expect_status.txt")
  "$program" "${words[@]}" >"$output" 2>"$scratch/err" </dev/null
  status=$?
  if [ "$status" != "$want_status" ]; then
    echo "differs: the exit status is $status, not $want_status"
  elif [ "$output" = "$scratch/out" ] && ! cmp -s "$output" "$want_out"; then
    echo "differs: the standard output"
  elif ! cmp -s "$scratch/err" "$want_err"; then
    echo "differs: the standard error is $(cat "$scratch/err")"
  else
    unsaved "${prefix}expect_saved"
  fi
}

# What differs of the folders that this folder has, or nothing.
unsaved() {
  local saved
  for saved in "$1"/*/; do
    [ -d "$saved" ] || continue
    if ! diff -r "$saved" "$(basename "$saved")" >/dev/null 2>&1; then
      echo "differs: what was saved in $(basename "$saved")"
    fi
  done
}

# Makes the links that the current folder's list names.
make_links() {
  local name to
  [ -f links.txt ] || return 0
  while read -r name to; do ln -s "$to" "$name"; done <links.txt
}

result=0
for folder in "$top"/examples/*/; do
  cp -r "$folder" "$scratch/run"
  cd "$scratch/run" || exit 1
  make_links
  for name in $(cases); do
    found=$(difference "$name")
    echo "examples/$(basename "$folder") $name: ${found:-as expected}"
    case $found in differs*) result=1 ;; esac
  done
  cd "$top" || exit 1
  rm -rf "$scratch/run"
done

if command -v python3 >/dev/null 2>&1; then
  python3 "$top/tools/check_guide.py" || result=1
  python3 "$top/tools/check_cases.py" || result=1
  python3 "$top/tools/check_story.py" || result=1
else
  echo "skipped: the checks of tools/ that are written in Python (no python3)"
fi
exit $result
