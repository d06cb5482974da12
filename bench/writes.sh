#!/usr/bin/env bash
# Times the writes of `anno - import`, which plays at a store: 1,000, 10,000 and 100,000 mixed writes on
# annotations, then as many writes on readers. Last, 20,000 updates of one annotation of 32 words, all of
# them in each of 100,000 others: by a text of the same words, as a usual update has most of them, and by
# turns by one of none of them, which takes its place out of 32 long lists and puts it in again.
set -eu
. "$(dirname "$0")/measure.sh"
. "$(dirname "$0")/inputs.sh"
words=(- import)

# Plays 1,000, 10,000 and 100,000 writes of this input.
sizes() {
  local before=0 writes
  for writes in 1000 10000 100000; do
    "$1" "$writes" >"$work/input"
    measure
    report "$writes $2" "$before"
    before=$micros
  done
}

# So many annotations of the same 32 words, and so many updates of the one in their middle, each
# second of which has this many of the words.
updated() {
  beginning
  awk -v n="$1" -v updates="$2" -v kept="$3" '
    function put(name, version, first, count, text, k) {
      text = "word" first % 32
      for (k = 1; k < count; k++) text = text " word" (first + k) % 32
      print "2024-05-01T10:01:00Z mara PUT /annotations/mara/n" name "?version=" version "&manifest=m1&group=public {\"body\":{\"type\":\"TextualBody\",\"value\":\"" text "\"},\"target\":\"http://a.example/c1\",\"type\":\"Annotation\"}"
    }
    BEGIN {
      for (i = 1; i <= n; i++) put(i, 1, i, 32)
      for (i = 1; i <= updates; i++) put(n / 2, i + 1, i, i % 2 ? kept : 32)
    }'
}

# What an update adds to the time of the annotations alone.
updates() {
  local notes=100000 count=20000 alone
  updated "$notes" 0 32 >"$work/input"
  measure_least
  alone=$least
  updated "$notes" "$count" "$1" >"$work/input"
  measure_least
  awk -v what="$2" -v t="$((least - alone))" -v n="$count" -v said="$(tail -n 1 "$work/output")" \
    'BEGIN { printf "an update by %s: %.1f microseconds; %s\n", what, t / n, said }'
}

echo "processors: $(nproc)"
sizes annotations "writes on annotations"
sizes readers "writes on readers"
updates 32 "the same words"
updates 1 "one of the words and by all, in turns"
