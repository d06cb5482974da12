#!/usr/bin/env bash
# Times `anno - find` on inputs of 1,000, 10,000 and 100,000 annotations on one manifest, with one
# search at the end. It prints, for each, the lines a second, the peak of memory as a multiple of the
# input, and how the time grew. A run is ended after two minutes.
set -eu
. "$(dirname "$0")/measure.sh"
. "$(dirname "$0")/inputs.sh"

echo "processors: $(nproc)"
before=0
for notes in 1000 10000 100000; do
  { sentences "$notes"; echo "$search"; } >"$work/input"
  measure
  report "$notes annotations" "$before"
  before=$micros
done
