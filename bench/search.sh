#!/usr/bin/env bash
# Times searches, completions and the last page of the stream at a store of 10,000 and of 200,000
# annotations on one manifest, alone and beside private annotations of 1,000 owners which have the same
# words. The program that plays cases fills the store and then asks it over connections by HEAD, so that
# a reply is made whole and little of it is copied. Each reply is compared: its length is that of the
# body with which `anno - find`, which keeps no lists, answers the same. For each kind it prints the
# microseconds of a processor a request, which is what the connections add to the time of the lines alone,
# each the least of three runs.
set -eu
tool=anno
. "$(dirname "$0")/measure.sh"
finder=$program
"$top/build" an_cases
program=$top/crates/an_cases/out/an_cases

# So many annotations. Each has a frequent word, every second another one, 1,000 of them a word of
# their own, ten another, and one a rare one. So many owners have a private annotation with the
# frequent words, that of the 1,000, and the rare one.
writes() {
  beginning
  awk -v n="$1" -v owners="$2" 'BEGIN {
    front = "2024-05-01T10:01:00Z "
    behind = "\",\"target\":\"http://a.example/c1\",\"type\":\"Annotation\"}"
    for (i = 1; i <= n; i++) {
      text = i % 2 == 0 ? "heron tern" : "heron gull"
      if (i % (n / 1000) == 0) text = text " stork"
      if (i % (n / 10) == 5) text = text " plover"
      if (i == n / 2) text = text " bittern"
      print front "mara PUT /annotations/mara/n" i "?version=1&manifest=m1&group=public {\"bodyValue\":\"" text behind
    }
    for (i = 1; i <= owners; i++) {
      print front "- PUT /readers/o" i "?version=1 {\"groups\":[],\"role\":\"writer\",\"token\":\"token-" i "-of-owner\",\"user\":\"http://a.example/u/o" i "\"}"
      print front "o" i " PUT /annotations/o" i "/n?version=1&manifest=m1&group=private {\"bodyValue\":\"heron tern stork bittern" behind
    }
  }'
}

# The store, as the rows of a case open and fill it.
store() {
  echo 'case searches'
  echo 'rows store'
  echo '| open -> opened'
  awk 'BEGIN { printf "| import " } { printf "%s\\n", $0 }' "$work/writes"
  echo " -> 0 accepted $(wc -l <"$work/writes") repeated 0 old 0"
}

# The length of the body with which the path is answered.
length_of() {
  { cat "$work/writes"; echo "2024-05-01T11:00:00Z - GET $1"; } >"$work/asked"
  "$finder" - find http://a.example 10 <"$work/asked" | tail -n 1 | sed 's/^[^{]*//' | tr -d '\n' | wc -c
}

# So many rows, each a connection of so many requests for this path.
connections() {
  awk -v path="$1" -v type="$2" -v bytes="$3" -v count="$4" -v requests="$5" 'BEGIN {
    for (i = 0; i < requests; i++) {
      asked = asked "HEAD " path " HTTP/1.1\\r\\n\\r\\n"
      told = told "HTTP/1.1 200 OK\\r\\nAccess-Control-Allow-Origin: *\\r\\nAllow: GET, HEAD, OPTIONS\\r\\nContent-Length: " bytes "\\r\\nContent-Type: application/ld+json; profile=\"http://iiif.io/api/" type "/context.json\"\\r\\n\\r\\n"
    }
    for (c = 0; c < count; c++) print "| session " asked " -> Closed " told
  }'
}

echo "processors: $(nproc)"
words=()
for owners in 0 1000; do
  for notes in 10000 200000; do
    writes "$notes" "$owners" >"$work/writes"
    store >"$work/store"
    cp "$work/store" "$work/input"
    measure_least
    alone=$least
    while read -r path type count requests what; do
      path=${path//LAST/$(((notes + 10) / 10))}
      count=${count//FEW/$((200000 / notes))}
      { cat "$work/store"; connections "$path" "$type" "$(length_of "$path")" "$count" "$requests"; } >"$work/input"
      measure_least
      awk -v what="$notes annotations, $owners other owners, $what" -v t="$((least - alone))" \
        -v n="$((count * requests))" -v said="$(tail -n 1 "$work/output")" \
        'BEGIN { printf "%s: %.1f microseconds a request; %s\n", what, t / n, said }'
    done <<'KINDS'
/search/m1?q=nothing search/2 80 900 a word without a hit
/search/m1?q=bittern search/2 40 900 a rare word
/search/m1?q=plover search/2 40 900 a page of ten with its marks
/search/m1?q=stork search/2 20 900 a word with 1,000 hits
/search/m1?q=heron search/2 FEW 900 a frequent word
/search/m1?q=heron+tern search/2 FEW 900 two words
/autocomplete/m1?q=her search/2 80 900 a completion of three letters
/changes?page=LAST discovery/1 FEW 100 the last page of the stream
KINDS
  done
done
