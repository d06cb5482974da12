#!/usr/bin/env bash
# Times what is served often: a page of ten annotations of 32 words each, found by a search among these
# ten alone; one of them on its own route; and a manifest of 900 canvases. For each it prints the
# microseconds an answer, which is what so many answers add to the time of the writes alone.
set -eu
. "$(dirname "$0")/measure.sh"
. "$(dirname "$0")/inputs.sh"

writes() {
  beginning
  awk 'BEGIN {
    count = split("heron swan gull tern crane stork ibis egret", words, " ")
    for (i = 1; i <= 10; i++) {
      text = "heron"
      for (k = 1; k < 32; k++) text = text " " words[(i * 7 + k * 3) % count + 1]
      printf "2024-05-01T10:01:00Z mara PUT /annotations/mara/n%d?version=1&manifest=m1&group=public {\"body\":{\"type\":\"TextualBody\",\"value\":\"%s\"},\"target\":\"http://a.example/c1\",\"type\":\"Annotation\"}\n", i, text
    }
  }'
  book
}

echo "processors: $(nproc)"
writes >"$work/writes"
cp "$work/writes" "$work/input"
measure
alone=$micros
while read -r count target what; do
  { cat "$work/writes"; for ((k = 0; k < count; k++)); do echo "2024-05-01T11:00:00Z - GET $target"; done; } >"$work/input"
  measure
  awk -v what="$what" -v t="$((micros - alone))" -v n="$count" -v s="$status" -v b="$(stat -c %s "$work/output")" \
    'BEGIN { printf "%s: %.1f microseconds an answer of %d bytes, status %d\n", what, t / n, b / n, s }'
done <<'ANSWERS'
20000 /search/m1?q=heron a page of ten annotations
50000 /annotations/mara/n7 an annotation
400 /manifests/book a manifest of 900 canvases
ANSWERS
