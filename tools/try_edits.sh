#!/usr/bin/env bash
# Tries the edits of edits/NAME for some crates, each of which the check must refuse.
#
#   tools/try_edits.sh NAME..
#
# The gate tries the edits of crates/NAME/must-fail alone, the few that tell most and cost least:
# for the others the crate would be proved once more. They are tried by hand, before a release that
# changes the crate: this puts them beside those of the gate, runs `rt must-fail NAME`, and takes
# them away again, also where it is stopped. Its status is that of `rt must-fail`.
set -euo pipefail
cd "$(dirname "$0")/.."
[ $# -gt 0 ] || { sed -n '2,9s/^# \{0,1\}//p' "$0"; exit 2; }

placed=()
take_away() {
  for file in "${placed[@]}"; do rm -f "$file"; done
  rmdir --ignore-fail-on-non-empty crates/*/must-fail 2>/dev/null || true
}
trap take_away EXIT

for name in "$@"; do
  mkdir -p "crates/$name/must-fail"
  for edit in "edits/$name"/*.edit; do
    to=crates/$name/must-fail/$(basename "$edit")
    [ ! -e "$to" ] || { echo "$to is there already"; exit 2; }
    placed+=("$to")
    cp "$edit" "$to"
  done
done
rt must-fail "$@"
