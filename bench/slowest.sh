#!/usr/bin/env bash
# slowest.sh CRATE [COUNT]: prints which parts of a crate's last check took longest, COUNT of them (20
# where it isn't said), each with its seconds: what was between the file of this part, which the check
# kept as it was done, and the file before it. So it tells something of a check from nothing by one
# process alone: in the crate's folder, remove out/incremental and run `rt check --jobs 1`.
set -eu
cd "$(dirname "$0")/../crates/$1/out/incremental"
find . -name records -prune -o -name '*.oantt' -printf '%T@ %f\n' | sort -n | awk '
  NR > 1 { printf "%.1f %s\n", $1 - last, substr($2, 1, length($2) - length(".oantt")) }
  { last = $1 }' | sort -rn | sed -n "1,${2:-20}p"
