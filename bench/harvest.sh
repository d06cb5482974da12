#!/usr/bin/env bash
# Times harvests of 10,000 and of 100,000 annotations on pages of 10 and of 100 changes, and one of what is new
# where 100,000 objects are known, by the program that plays cases, which compares every byte that is
# printed. The time of the first is what the harvest adds to that of a run which finds no reader of its name in
# the same store, of three runs each the shortest; the comparison is in it.
set -eu
tool=an_cases
. "$(dirname "$0")/measure.sh"
. "$(dirname "$0")/inputs.sh"
words=()

# The lines of the store, and those that are due of a harvest of them.
texts() {
  echo 'text written'
  sentences "$1" | sed 's/^/| /'
  echo 'text found'
  seq -f 'Annotation http://a.example/annotations/mara/n%.0f' "$1" | LC_ALL=C sort | sed 's/^/| /'
  echo '| Manifest http://a.example/manifests/m1'
}

# A case with a harvest on pages of this size.
play() {
  { cat "$work/texts"; printf '%s\n' 'case harvest' "words - harvest http://a.example $1 $2" 'store written' "$3" 'output' ; printf '%s\n' "$4"; } >"$work/input"
}

echo "processors: $(nproc)"
for annotations in 10000 100000; do
  texts "$annotations" >"$work/texts"
  play 10 nobody 'status 8' '| no reader'
  measure_least
  alone=$least
  for size in 10 100; do
    play "$size" - 'status 0' ''
    sed -i 's/^output$/output found/' "$work/input"
    measure_least
    awk -v n="$annotations" -v s="$size" -v t="$((least - alone))" -v said="$(tail -n 1 "$work/output")" \
      'BEGIN { printf "%d annotations, pages of %d: %.3f s; %s\n", n, s, t / 1e6, said }'
  done
done

# A harvest of a stream with 100,000 objects, and then so many more of what is new, each time on a page of its
# own with 10 changes. Its time is what a round adds, of ten rounds beside none.
again() {
  awk -v rounds="$1" -v known=100000 -v fresh=10 '
    function iri(i) { return sprintf("http://a.example/annotations/mara/n%06d", i) }
    function stream(total, last) {
      return "/changes 200 {\"last\":{\"id\":\"http://a.example/changes?page=" last "\"},\"totalItems\":" total "}"
    }
    function begin_page(number, start) {
      printf " | /changes?page=%d 200 {\"orderedItems\":[", number
      ending = "]" (number > 1 ? ",\"prev\":{\"id\":\"http://a.example/changes?page=" number - 1 "\"}" : "") ",\"startIndex\":" start "}"
    }
    function put_items(from, count, i) {
      for (i = from; i < from + count; i++)
        printf "%s{\"endTime\":\"2024-05-01T10:00:00Z\",\"object\":{\"id\":\"%s\",\"type\":\"Annotation\"},\"type\":\"Create\"}", (i > from ? "," : ""), iri(i)
    }
    BEGIN {
      print "case harvests of a stream that grows"
      print "rows harvest_pages"
      printf "| http://a.example | %s", stream(known, 1)
      begin_page(1, 0); put_items(0, known); printf "%s", ending
      for (r = 1; r <= rounds; r++) {
        start = known + fresh * (r - 1)
        printf " | again | %s", stream(start + fresh, r + 1)
        begin_page(r + 1, start); put_items(start, fresh); printf "%s", ending
      }
      printf " -> "
      total = known + fresh * rounds
      for (i = 0; i < total; i++) printf "Annotation %s, ", iri(i)
      print total " changes"
    }' >"$work/input"
  measure_least
}

again 0
alone=$least
again 10
awk -v t="$((least - alone))" -v said="$(tail -n 1 "$work/output")" \
  'BEGIN { printf "100,000 objects known and 10 changes new: %.1f ms; %s\n", t / 1e4, said }'
