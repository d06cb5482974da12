#!/usr/bin/env bash
# Times the opening of a store of some 1,000, 10,000 and 100,000 cells, by the program that plays cases:
# for each it prints the microseconds of a processor a cell, which is what ten more openings add.
set -eu
tool=an_cases
. "$(dirname "$0")/measure.sh"
. "$(dirname "$0")/inputs.sh"
words=()

# A store into which so many annotations were written is opened so often. An annotation has a row and an
# activity; beside them stand the format, a reader, a manifest and its activity.
openings() {
  local k
  echo 'case openings'
  echo 'rows store'
  echo '| open -> opened'
  printf '| import '
  sentences "$1" | awk '{ printf "%s\\n", $0 }'
  echo " -> 0 accepted $(($1 + 2)) repeated 0 old 0"
  for ((k = 0; k < $2; k++)); do
    echo '| close -> closed'
    echo '| open -> opened'
  done
}

echo "processors: $(nproc)"
for annotations in 500 5000 50000; do
  openings "$annotations" 1 >"$work/input"
  measure_used
  alone=$used
  openings "$annotations" 11 >"$work/input"
  measure_used
  awk -v t="$((used - alone))" -v n="$((2 * annotations + 4))" -v said="$(tail -n 1 "$work/output")" \
    'BEGIN { printf "%d cells: %.1f microseconds a cell; %s\n", n, t / 10 / n, said }'
done
