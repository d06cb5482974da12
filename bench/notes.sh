#!/usr/bin/env bash
# Times `anno - find` on 10,000 annotations as transcribers write them: about 2,000 bytes of HTML, a
# tag, and a target with a region and a quote. One search stands at the end.
set -eu
. "$(dirname "$0")/measure.sh"

input() {
  beginning
  awk -v n="$1" 'BEGIN {
    count = split("heron swan gull tern crane stork ibis egret", words, " ")
    for (i = 1; i <= n; i++) {
      html = ""
      for (p = 1; p <= 8; p++) {
        html = html "<p>"
        for (k = 1; k <= 32; k++) html = html words[(i * 7 + p * 5 + k * 3 + int(i / 8) * k) % count + 1] (k % 8 == 0 ? ".<br/>" : " ")
        html = html "</p>"
      }
      printf "2024-05-01T10:01:00Z mara PUT /annotations/mara/n%d?version=1&manifest=m1&group=public ", i
      printf "{\"body\":[{\"format\":\"text/html\",\"purpose\":\"supplementing\",\"type\":\"TextualBody\",\"value\":\"%s\"},{\"purpose\":\"tagging\",\"type\":\"TextualBody\",\"value\":\"log\"}],", html
      printf "\"motivation\":[\"supplementing\",\"tagging\"],\"target\":{\"selector\":[{\"type\":\"FragmentSelector\",\"value\":\"xywh=%d,%d,40,20\"},{\"exact\":\"heron\",\"prefix\":\"grey \",\"type\":\"TextQuoteSelector\"}],\"source\":\"http://a.example/c1\",\"type\":\"SpecificResource\"},\"type\":\"Annotation\"}\n", i % 80, i % 100
    }
    print "2024-05-01T11:00:00Z - GET /search/m1?q=heron"
  }'
}

input 10000 >"$work/input"
measure
report "10000 annotations" 0
