#!/usr/bin/env bash
# Times the import of one annotation with 20,000, 80,000 and 170,000 distinct words, the last of which
# has 1 MiB, and a completion of three letters that reads them. For each it prints the time, the peak of
# memory, and how many times the time of the number of words before it takes.
set -eu
. "$(dirname "$0")/measure.sh"

# An annotation with so many distinct words of five letters, in no order.
worded() {
  beginning
  awk -v n="$1" 'BEGIN {
    letters = "abcdefghijklmnopqrstuvwxyz"
    printf "2024-05-01T10:01:00Z mara PUT /annotations/mara/n1?version=1&manifest=m1&group=public {\"bodyValue\":\""
    for (i = 0; i < n; i++) {
      number = (i * 7368787) % 11881376
      word = ""
      for (k = 0; k < 5; k++) {
        word = word substr(letters, number % 26 + 1, 1)
        number = int(number / 26)
      }
      printf "%s%s", (i > 0 ? " " : ""), word
    }
    print "\",\"target\":\"http://a.example/c1\",\"type\":\"Annotation\"}"
  }'
}

# The run over this input, which the first word names; the second is the time of the number before.
run() {
  measure
  awk -v what="$1" -v t="$micros" -v f="$2" -v m="$((peak * 1024))" -v b="$(stat -c %s "$work/input")" -v s="$status" 'BEGIN {
    printf "%s: %.3f s, peak %.1f MB, input %.2f MB, status %d", what, t / 1e6, m / 1e6, b / 1e6, s
    if (f > 0) printf ", %.1f times the time before", t / f
    print ""
  }'
}

echo "processors: $(nproc)"
before=0
for count in 20000 80000 170000; do
  worded "$count" >"$work/input"
  words=(- import)
  run "import, $count words" "$before"
  before=$micros
  echo "2024-05-01T11:00:00Z - GET /autocomplete/m1?q=her" >>"$work/input"
  words=(- find http://a.example 10)
  run "completion, $count words" 0
done
