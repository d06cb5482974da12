# Sourced by the benchmarks that share an input: what they write.

# An input of so many annotations, each a sentence of 32 words.
sentences() {
  beginning
  awk -v n="$1" 'BEGIN {
    count = split("heron swan gull tern crane stork ibis egret", words, " ")
    for (i = 1; i <= n; i++) {
      text = words[i % count + 1]
      for (k = 1; k < 32; k++) text = text " " words[(i * 7 + k * 3 + int(i / 8) * k) % count + 1]
      printf "2024-05-01T10:01:00Z mara PUT /annotations/mara/n%d?version=1&manifest=m1&group=public {\"body\":{\"type\":\"TextualBody\",\"value\":\"%s\"},\"target\":\"http://a.example/c1\",\"type\":\"Annotation\"}\n", i, text
    }
  }'
}

# Mixed writes on annotations: of ten of them six make an annotation, one changes an earlier one, one is
# sent again, one moves an annotation to another manifest and group, and one deletes one.
annotations() {
  beginning
  printf '%s\n' '2024-05-01T10:00:00Z - PUT /manifests/m2?version=1 {"items":[{"height":100,"id":"http://a.example/c1","type":"Canvas","width":80}],"label":{"en":["Log"]},"type":"Manifest"}'
  awk -v n="$1" '
    function target(i) { return "/annotations/mara/n" i "?version=" number[i] }
    function put(i, place, text) {
      last = "2024-05-01T10:01:00Z mara PUT " target(i) "&" place " {\"body\":{\"type\":\"TextualBody\",\"value\":\"" text "\"},\"target\":\"http://a.example/c1\",\"type\":\"Annotation\"}"
      print last
    }
    BEGIN {
      count = split("heron swan gull tern crane stork ibis egret", words, " ")
      for (k = 0; k < n; k++) {
        text = words[k % count + 1] " " words[int(k / 8) % count + 1]
        earlier = made > 0 ? k * 7919 % made + 1 : 0
        turn = k % 10
        if (turn < 6) { number[++made] = 1; put(made, "manifest=m1&group=public", text) }
        else if (turn == 6) { number[earlier]++; put(earlier, "manifest=m1&group=public", text " changed") }
        else if (turn == 7) print last
        else if (turn == 8) { number[earlier]++; put(earlier, "manifest=m2&group=a", text " moved") }
        else { number[made]++; print "2024-05-01T10:01:00Z mara DELETE " target(made) }
      }
    }'
}

# Writes on readers, each of whom is made, and changed with the token that it has.
readers() {
  awk -v n="$1" 'BEGIN {
    for (k = 0; k < n; k++)
      printf "2024-05-01T10:00:00Z - PUT /readers/r%d?version=%d {\"groups\":[\"g%d\"],\"role\":\"writer\",\"token\":\"token-%06d\",\"user\":\"http://a.example/u/%d\"}\n", k % (n / 2), 1 + (k >= n / 2), k, k % (n / 2), k % (n / 2)
  }'
}

# A manifest of 900 canvases, each with an image.
book() {
  awk 'BEGIN {
    printf "2024-05-01T10:02:00Z - PUT /manifests/book?version=1 {\"items\":["
    for (i = 1; i <= 900; i++)
      printf "%s{\"height\":3000,\"id\":\"http://a.example/book/canvas/%d\",\"items\":[{\"id\":\"http://a.example/book/page/%d\",\"items\":[{\"body\":{\"format\":\"image/jpeg\",\"height\":3000,\"id\":\"http://a.example/book/image/%d/full/max/0/default.jpg\",\"type\":\"Image\",\"width\":2000},\"id\":\"http://a.example/book/painting/%d\",\"motivation\":\"painting\",\"target\":\"http://a.example/book/canvas/%d\",\"type\":\"Annotation\"}],\"type\":\"AnnotationPage\"}],\"label\":{\"none\":[\"%d\"]},\"type\":\"Canvas\",\"width\":2000}", (i > 1 ? "," : ""), i, i, i, i, i, i
    print "],\"label\":{\"en\":[\"A book\"]},\"type\":\"Manifest\"}"
  }'
}
