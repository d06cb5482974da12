#!/usr/bin/env bash
# Times the first answer of a fresh clone: quick runs of the README's first line, which compile anew
# each time and prove nothing, by the small program, an_play, which ./anno takes for `find` and
# `trial`, and by the whole one, anno. Prints for each the seconds by the clock and those of a
# processor, and the small one's part of the whole one's. Beside each run `rt` looks for names that
# a check would refuse, and ends that with the run: its seconds count where it is done before. Ends
# with 0 only where both print the same. Takes some minutes.
set -eu
cd "$(dirname "$0")/.."
work=$(mktemp -d)
trap 'rm -rf "$work"' EXIT
# Plays the lines by the sources of a crate, and sets `clock` and `busy`.
quick_run() {
  local begun=$EPOCHREALTIME
  times >"$work/before"
  (cd "crates/$1" && rt try -- - find http://a.example 10) \
    <examples/log.lines >"$work/$1" 2>"$work/said" || { cat "$work/said" && exit 1; }
  times >"$work/after"
  clock=$(awk -v b="$begun" -v e="$EPOCHREALTIME" 'BEGIN { print e - b }')
  # The second line of each is the ended children's, as 1m2.3s 0m4.5s.
  busy=$(awk -F'[ms ]+' 'FNR == 2 { n = $1 * 60 + $2 + $3 * 60 + $4; d = n - d } END { print d }' \
    "$work/before" "$work/after")
  printf '%s: %.0f s, %.0f s of a processor\n' "$1" "$clock" "$busy"
}

echo "processors: $(nproc)"
quick_run an_play
small_clock=$clock
small_busy=$busy
quick_run anno
awk -v c="$small_clock" -v b="$small_busy" -v C="$clock" -v B="$busy" \
  'BEGIN { printf "an_play of anno: %.2f by the clock, %.2f of a processor\n", c / C, b / B }'
cmp "$work/an_play" "$work/anno"
