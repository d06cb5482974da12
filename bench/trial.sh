#!/usr/bin/env bash
# Times trials of 5,000 and 50,000 annotations.
set -eu
. "$(dirname "$0")/measure.sh"

echo "processors: $(nproc)"
: >"$work/input"
for count in 5000 50000; do
  words=(- trial "$count" 7)
  measure
  awk -v t="$micros" -v m="$((peak * 1024))" -v s="$status" -v said="$(head -n 1 "$work/output")" \
    'BEGIN { printf "%s: %.2f s, peak %.1f MB, status %d\n", said, t / 1e6, m / 1e6, s }'
done
