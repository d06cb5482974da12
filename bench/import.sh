#!/usr/bin/env bash
# Times `anno - import` beside `anno - find` on the same writes: 1,000, 10,000 and 100,000 annotations, and
# as many mixed writes. For each it prints the lines a second and the peak of memory of both, how the
# time of an import grew, and how many times that of `find` it is.
set -eu
. "$(dirname "$0")/measure.sh"
. "$(dirname "$0")/inputs.sh"

# Both runs over 1,000, 10,000 and 100,000 writes of this input.
sizes() {
  local before=0 writes found
  for writes in 1000 10000 100000; do
    "$1" "$writes" >"$work/input"
    words=(- find http://a.example 10)
    measure
    report "find, $writes $2" 0
    found=$micros
    words=(- import)
    measure
    report "import, $writes $2" "$before"
    before=$micros
    awk -v i="$micros" -v f="$found" 'BEGIN { printf "  the import takes %.1f times as long\n", i / f }'
  done
}

echo "processors: $(nproc)"
sizes sentences "annotations"
sizes annotations "mixed writes"
