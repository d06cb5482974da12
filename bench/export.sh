#!/usr/bin/env bash
# Times an export of 100,000 annotations of 32 words, by the program that plays cases, which compares every
# byte that is printed. The time is what the export adds to that of a run which finds no reader of its name
# in the same store, of three runs each the shortest; the comparison is in it.
set -eu
tool=an_cases
. "$(dirname "$0")/measure.sh"
. "$(dirname "$0")/inputs.sh"
words=()
annotations=100000

# The lines of the store: those of the reader, and those that are exported again as they are.
texts() {
  echo 'text reader'
  beginning | head -n 1 | sed 's/^/| /'
  echo 'text exported'
  sentences "$annotations" | tail -n +2 | sed 's/^/| /'
}

echo "processors: $(nproc)"
texts >"$work/texts"
bytes=$(tail -n +4 "$work/texts" | sed 's/^| //' | wc -c)
{ cat "$work/texts"; printf '%s\n' 'case nobody' 'words - export nobody' 'store reader exported' 'status 8' 'output' '| no reader'; } >"$work/input"
measure_least
alone=$least
{ cat "$work/texts"; printf '%s\n' 'case everybody' 'words - export -' 'store reader exported' 'output exported'; } >"$work/input"
measure_least
awk -v n="$annotations" -v b="$bytes" -v t="$((least - alone))" -v said="$(tail -n 1 "$work/output")" \
  'BEGIN { printf "%d annotations, %.1f MB: %.3f s, %d MB a second; %s\n", n, b / 1e6, t / 1e6, b / t, said }'
