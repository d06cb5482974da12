#!/usr/bin/env bash
# Times connections of up to 1,000 requests each at a store with 10,000 annotations of 32 words, by the program
# that plays cases, which compares every byte that is written. For each kind of request it prints the
# microseconds of a processor a request, which is what so many connections add to the time of the lines
# alone, and how many requests that is a second. Reading the case and comparing it are among them.
set -eu
tool=an_cases
. "$(dirname "$0")/measure.sh"
. "$(dirname "$0")/inputs.sh"
words=()
annotations=10000

# The store, as the rows of a case open and fill it.
store() {
  echo 'case connections'
  echo 'rows store'
  echo '| open -> opened'
  printf '| import '
  sentences "$annotations" | awk '{ printf "%s\\n", $0 }'
  echo " -> 0 accepted $((annotations + 2)) repeated 0 old 0"
}

# So many rows, each a connection of so many requests of this kind.
connections() {
  awk -v kind="$1" -v count="$2" -v requests="$3" -v notes="$annotations" '
    function reply(line, writes, media, extra, body, last) {
      return "HTTP/1.1 " line "\\r\\nAccess-Control-Allow-Origin: *\\r\\nAllow: GET, HEAD, OPTIONS" writes "\\r\\n" (last ? "Connection: close\\r\\n" : "") "Content-Length: " length(body) "\\r\\nContent-Type: " media "\\r\\n" extra "\\r\\n" body
    }
    function text_of(i, k, text) {
      text = names[i % words + 1]
      for (k = 1; k < 32; k++) text = text " " names[(i * 7 + k * 3 + int(i / 8) * k) % words + 1]
      return text
    }
    function note_of(i) {
      return "\"body\":{\"type\":\"TextualBody\",\"value\":\"" text_of(i) "\"},\"created\":\"2024-05-01T10:01:00Z\",\"creator\":\"http://a.example/u/mara\",\"id\":\"http://a.example/annotations/mara/n" i "\",\"target\":\"http://a.example/c1\",\"type\":\"Annotation\"}"
    }
    function first_ten(i, items) {
      for (i = 1; i <= 10; i++) items = items (i > 1 ? "," : "") "{" note_of(i)
      return "\"items\":[" items "]"
    }
    function page(iri, number) { return "{\"id\":\"" iri number "\",\"type\":\"AnnotationPage\"}" }
    BEGIN {
      words = split("heron swan gull tern crane stork ibis egret", names, " ")
      linked = "application/ld+json; profile=\"http://www.w3.org/ns/anno.jsonld\""
      presented = "application/ld+json; profile=\"http://iiif.io/api/presentation/3/context.json\""
      streamed = "application/ld+json; profile=\"http://iiif.io/api/discovery/1/context.json\""
      writes = ", PUT, DELETE"
      note = "{\"@context\":\"http://www.w3.org/ns/anno.jsonld\"," note_of(7)
      pages = notes / 10
      held = "http://a.example/manifests/m1/annotations/"
      container = "{\"@context\":[\"http://www.w3.org/ns/anno.jsonld\",\"http://www.w3.org/ns/ldp.jsonld\"],\"first\":{\"id\":\"" held "?page=1\"," first_ten() ",\"next\":\"" held "?page=2\",\"startIndex\":0,\"type\":\"AnnotationPage\"},\"id\":\"" held "\",\"last\":\"" held "?page=" pages "\",\"total\":" notes ",\"type\":[\"BasicContainer\",\"AnnotationCollection\"]}"
      region = "http://a.example/manifests/m1/canvases/1?xywh=0%2C0%2C40%2C40"
      canvas = "{\"@context\":\"http://iiif.io/api/presentation/3/context.json\",\"id\":\"" region "&page=1\"," first_ten() ",\"next\":" page(region "&page=", 2) ",\"partOf\":{\"first\":" page(region "&page=", 1) ",\"id\":\"" region "\",\"last\":" page(region "&page=", pages) ",\"total\":" notes ",\"type\":\"AnnotationCollection\"},\"startIndex\":0,\"type\":\"AnnotationPage\"}"
      stream = "http://a.example/changes"
      changes = "{\"@context\":\"http://iiif.io/api/discovery/1/context.json\",\"id\":\"" stream "?page=" pages + 1 "\",\"orderedItems\":[{\"endTime\":\"2024-05-01T10:01:00Z\",\"object\":{\"id\":\"http://a.example/annotations/mara/n" notes "\",\"type\":\"Annotation\"},\"type\":\"Create\"}],\"partOf\":{\"id\":\"" stream "\",\"type\":\"OrderedCollection\"},\"prev\":{\"id\":\"" stream "?page=" pages "\",\"type\":\"OrderedCollectionPage\"},\"startIndex\":" notes ",\"type\":\"OrderedCollectionPage\"}"
      manifest = "{\"@context\":[\"http://iiif.io/api/search/2/context.json\",\"http://iiif.io/api/presentation/3/context.json\"],\"id\":\"http://a.example/manifests/m1\",\"items\":[{\"annotations\":[{\"id\":\"http://a.example/manifests/m1/canvases/1?page=1\",\"type\":\"AnnotationPage\"}],\"height\":100,\"id\":\"http://a.example/c1\",\"type\":\"Canvas\",\"width\":80}],\"label\":{\"en\":[\"Log\"]},\"service\":[{\"id\":\"http://a.example/search/m1\",\"service\":[{\"id\":\"http://a.example/autocomplete/m1\",\"type\":\"AutoCompleteService2\"}],\"type\":\"SearchService2\"}],\"type\":\"Manifest\"}"
      for (c = 0; c < count; c++) {
        asked = told = ""
        for (i = 1; i <= requests; i++) {
          last = i == 1000
          if (kind == "annotation") {
            asked = asked "GET /annotations/mara/n7 HTTP/1.1\\r\\n\\r\\n"
            told = told reply("200 OK", writes, linked, "Link: <http://www.w3.org/ns/ldp#Resource>; rel=\"type\"\\r\\n", note, last)
          } else if (kind == "manifest") {
            asked = asked "GET /manifests/m1 HTTP/1.1\\r\\n\\r\\n"
            told = told reply("200 OK", writes, presented, "", manifest, last)
          } else if (kind == "container") {
            asked = asked "GET /manifests/m1/annotations/ HTTP/1.1\\r\\n\\r\\n"
            told = told reply("200 OK", "", linked, "Link: <http://www.w3.org/ns/ldp#BasicContainer>; rel=\"type\"\\r\\nLink: <http://www.w3.org/TR/annotation-protocol/>; rel=\"http://www.w3.org/ns/ldp#constrainedBy\"\\r\\n", container, last)
          } else if (kind == "canvas") {
            asked = asked "GET /manifests/m1/canvases/1?xywh=0,0,40,40 HTTP/1.1\\r\\n\\r\\n"
            told = told reply("200 OK", "", presented, "", canvas, last)
          } else if (kind == "changes") {
            asked = asked "GET /changes?page=" pages + 1 " HTTP/1.1\\r\\n\\r\\n"
            told = told reply("200 OK", "", streamed, "", changes, last)
          } else {
            name = "p" (c * requests + i)
            body = "{\"bodyValue\":\"" text_of(i) "\",\"target\":\"http://a.example/c1\",\"type\":\"Annotation\"}"
            asked = asked "PUT /annotations/mara/" name "?version=1&manifest=m1 HTTP/1.1\\r\\nAuthorization: Bearer tok-mara\\r\\nContent-Length: " length(body) "\\r\\n\\r\\n" body
            told = told reply("201 Created", writes, "application/json", "", "{\"object\":\"http://a.example/annotations/mara/" name "\",\"repeat\":false,\"version\":1}", last)
          }
        }
        print "| session " asked " -> Closed " told
      }
    }'
}

echo "processors: $(nproc)"
store >"$work/store"
cp "$work/store" "$work/input"
measure_used
alone=$used
while read -r kind count requests what; do
  { cat "$work/store"; connections "$kind" "$count" "$requests"; } >"$work/input"
  measure_used
  awk -v what="$what" -v t="$((used - alone))" -v n="$((count * requests))" -v said="$(tail -n 1 "$work/output")" \
    'BEGIN { printf "%s: %.1f microseconds a request, %d requests a second; %s\n", what, t / n, n * 1e6 / t, said }'
done <<'KINDS'
annotation 40 1000 GET of an annotation
manifest 40 1000 GET of a manifest
put 10 1000 PUT of an annotation
container 10 200 GET of a container, its first page in it
canvas 10 200 GET of a page of a canvas, by a region
changes 2 500 GET of the last page of the stream
KINDS
