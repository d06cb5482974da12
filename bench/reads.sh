#!/usr/bin/env bash
# Times reads of single annotations among 100,000: shown to everybody, hidden from the caller, deleted,
# and such as never were. For each it prints the microseconds of a processor a read, which is what
# 200,000 reads add to the time of the writes alone, each the least of three runs.
set -eu
. "$(dirname "$0")/measure.sh"
notes=100000
reads=200000

# Annotations n1 to n100000: of each four one is private, and one is deleted behind all.
writes() {
  beginning
  awk -v n="$notes" 'BEGIN {
    for (i = 1; i <= n; i++)
      printf "2024-05-01T10:01:00Z mara PUT /annotations/mara/n%d?version=1&manifest=m1&group=%s {\"body\":{\"type\":\"TextualBody\",\"value\":\"heron\"},\"target\":\"http://a.example/c1\",\"type\":\"Annotation\"}\n", i, i % 4 == 1 ? "private" : "public"
    for (i = 2; i <= n; i += 4) printf "2024-05-01T10:02:00Z mara DELETE /annotations/mara/n%d?version=2\n", i
  }'
}

# Reads by the anonymous caller of annotations whose number has this rest by 4, or of others' names.
asked() {
  awk -v n="$notes" -v reads="$reads" -v rest="$1" -v name="$2" 'BEGIN {
    for (k = 0; k < reads; k++) printf "2024-05-01T11:00:00Z - GET /annotations/mara/%s%d\n", name, (k * 7919 % (n / 4)) * 4 + rest
  }'
}

echo "processors: $(nproc)"
writes >"$work/writes"
cp "$work/writes" "$work/input"
measure_least
alone=$least
for kind in "shown 3 n" "hidden 1 n" "deleted 2 n" "absent 0 x"; do
  read -r what rest name <<<"$kind"
  { cat "$work/writes"; asked "$rest" "$name"; } >"$work/input"
  measure_least
  awk -v what="$what" -v t="$((least - alone))" -v n="$reads" \
    'BEGIN { printf "%s: %.1f microseconds a read\n", what, t / n }'
done
